/*
 * The joining against two others: the same call by hand in C (bench/join_reference.c), and the pushes
 * that it stands for, made one after the other by task 0 (bench/reference.c). Every byte of every
 * table is compared, those behind the lent lengths and those of the sources too.
 *
 *     join ROUNDS [SEED]
 */
#include "draw.h"
#include "join_reference.h"
#include "reference.h"

#include <stdio.h>
#include <stdlib.h>
#include <string.h>

enum { ROWS = ZC_MOST_SLOTS + 3, WORDS = ROWS / 64 + 3, RECORDS = ZC_MOST_TASKS + 1 };

typedef struct lane {
    zc_control control;
    zc_record records[RECORDS];
    uint64_t lefts[ROWS], rights[ROWS], marks[WORDS];
    uint32_t labels[ROWS];
    size_t record_count, left_count, right_count, label_count, mark_count;
} lane;

/* A queue opened in tables of any contents that are long enough. */
static void open_lane(lane *l, uint64_t slots, uint32_t tag)
{
    unsigned char *bytes = (unsigned char *)l;
    for (size_t at = 0; at < sizeof *l; at++)
        bytes[at] = (unsigned char)draw(256);
    uint64_t tasks = 1 + draw(ZC_MOST_TASKS);
    l->record_count = tasks + draw(2);
    l->left_count = slots + 1 + draw(2);
    l->right_count = slots + 1 + draw(2);
    l->label_count = slots + 1 + draw(2);
    l->mark_count = slots / 64 + 1 + draw(2);
    reference_open(&l->control, l->records, l->record_count, tasks, slots, tag, l->lefts,
                   l->left_count, l->rights, l->right_count, l->labels, l->label_count, l->marks,
                   l->mark_count);
    for (uint64_t task = 0; task < tasks; task++) {
        l->records[task].retries = draw(UINT64_MAX);
        if (once_in(2)) { /* an idle record may hold anything */
            l->records[task].kind = draw(3);
            l->records[task].label = (uint32_t)draw(UINT32_MAX);
            l->records[task].seen = draw(UINT64_MAX);
        }
    }
}

/* So many labels in slots drawn at random, STABLE; some lanes ascend, some have few different labels. */
static void line_up(lane *l, uint64_t count)
{
    uint64_t slots = l->control.slots, order[ROWS];
    uint64_t kind = draw(3);
    draw_slots(order, slots, count);
    for (uint64_t at = 0; at < count; at++) {
        uint64_t slot = order[at];
        l->labels[slot] = (uint32_t)(kind == 0 ? draw(4) : kind == 1 ? at * 3 : draw(UINT64_MAX));
        l->marks[slot / 64] |= UINT64_C(1) << (slot % 64);
        l->lefts[slot] = draw(9) << 32 | (at == 0 ? draw(slots + 1) : order[at - 1]);
        l->rights[slot] = draw(9) << 32 | draw(slots + 1);
        if (at > 0)
            l->rights[order[at - 1]] = draw(9) << 32 | slot;
    }
    if (count > 0)
        l->control.anchor = draw(UINT32_MAX) << 32 | order[0] << 15 | order[count - 1];
    l->control.pooled = draw(2);
    l->control.head = draw(UINT64_MAX);
}

/* One fault in a source: some make it refused, some don't. */
static void damage_source(lane *l)
{
    uint64_t slots = l->control.slots;
    switch (draw(12)) {
    case 0: l->control.anchor ^= UINT64_C(1) << draw(32); break;
    case 1: l->lefts[draw(slots + 1)] ^= UINT64_C(1) << draw(64); break;
    case 2: l->lefts[zc_anchor_right(l->control.anchor)] = draw(3); break;
    case 3: l->records[draw(l->control.tasks)].place = 1 + draw(20); break;
    case 4: l->left_count = slots - draw(2) * draw(slots); break;
    case 5: l->label_count = slots; break;
    case 6: l->record_count = l->control.tasks - 1; break;
    case 7: l->control.slots = draw(2) ? 0 : ZC_MOST_SLOTS + 1 + draw(UINT64_MAX / 2); break;
    case 8: l->control.pooled = 2 + draw(3); break;
    case 9: l->control.anchor |= (1 + draw(2)) << 30; break;
    case 10: l->marks[draw(slots / 64 + 1)] ^= UINT64_C(1) << draw(64); break;
    default: l->right_count = slots; break;
    }
}

static void damage_third(lane *l)
{
    uint64_t slots = l->control.slots, row = once_in(3) ? 0 : once_in(2) ? slots : draw(slots + 1);
    switch (draw(13)) {
    case 0: l->lefts[row] = UINT64_C(1) << draw(64); break;
    case 1: l->rights[row] = UINT64_C(1) << draw(64); break;
    case 2: l->labels[row] = (uint32_t)1 << draw(32); break;
    case 3: l->marks[draw(slots / 64 + 1)] = UINT64_C(1) << draw(64); break;
    case 4: l->marks[slots / 64] = UINT64_C(1) << draw(64); break;
    case 5: l->control.pooled = 1; break;
    case 6: l->control.anchor |= 1 + draw(slots); break;
    case 7: l->control.anchor |= (1 + draw(3)) << 30; break;
    case 8: l->records[draw(l->control.tasks)].place = 1 + draw(20); break;
    case 9: l->mark_count = slots / 64; break;
    case 10: l->right_count = slots; break;
    case 11: l->control.tasks = draw(2) ? 0 : 17; break;
    default: l->lefts[slots + 1] = draw(UINT64_MAX); break; /* beyond the last row: no fault */
    }
}

#define SOURCE(l) &(l)->control, (l)->records, (l)->record_count
#define ROWS_OF(l)                                                                                 \
    (l)->lefts, (l)->left_count, (l)->rights, (l)->right_count, (l)->labels, (l)->label_count
#define JOINED(a, b, t)                                                                            \
    SOURCE(a), SOURCE(b), SOURCE(t), ROWS_OF(a), ROWS_OF(b), ROWS_OF(t), (t)->marks, (t)->mark_count

/* The pushes that a joining with no refusal stands for. */
static bool pushes(lane *t, const uint32_t *labels, uint64_t count)
{
    for (uint64_t slot = 1; slot <= count; slot++) {
        zc_reply reply = reference_push(SOURCE(t), 0, ZC_RIGHT, slot, labels[slot], ROWS_OF(t),
                                        t->marks, t->mark_count, NULL, 0);
        while (reply.code == ZC_RUNNING)
            reply = reference_step(SOURCE(t), 0, ROWS_OF(t), t->marks, t->mark_count, NULL, 0);
        if (reply.code != ZC_PUSHED)
            return false;
    }
    return true;
}

static lane a, b, third, first, second, ours, theirs, pushed;

static int fail(uint64_t round, const char *what)
{
    fprintf(stderr, "join: round %llu: %s\n", (unsigned long long)round, what);
    return 1;
}

int main(int count, char **words)
{
    uint64_t rounds = count > 1 ? strtoull(words[1], NULL, 10) : 20000, seen[49] = {0};
    if (count > 2)
        state ^= strtoull(words[2], NULL, 10) << 20;
    for (uint64_t round = 0; round < rounds; round++) {
        uint64_t slots = once_in(8) ? ZC_MOST_SLOTS : 1 + draw(once_in(2) ? 70 : 200);
        uint64_t m = once_in(6) ? 0 : draw(slots + 1), n = once_in(6) ? 0 : draw(slots - m + 1);
        if (once_in(4)) {
            m = draw(slots + 1);
            n = slots - m; /* the third is just full */
        }
        open_lane(&a, m > 0 ? m + draw(ZC_MOST_SLOTS - m + 1) : 1 + draw(9), (uint32_t)draw(99));
        open_lane(&b, n > 0 ? n + draw(ZC_MOST_SLOTS - n + 1) : 1 + draw(9), (uint32_t)draw(99));
        uint64_t last = ZC_LAST_START_TAG + 4 - draw(9), less = once_in(2) ? 2 * (m + n) : 0;
        open_lane(&third, once_in(9) && slots > 1 ? slots - 1 : slots,
                  (uint32_t)(once_in(3) ? last - less : draw(UINT32_MAX)));
        line_up(&a, m);
        line_up(&b, n);
        if (once_in(2)) {
            uint64_t at = draw(3);
            if (at < 2)
                damage_source(at == 0 ? &a : &b);
            else
                damage_third(&third);
        }
        lane *other = once_in(8) ? &a : &b; /* the same tables twice */
        first = a;
        second = b;
        ours = theirs = pushed = third;
        uint32_t code = zc_join(JOINED(&a, other, &ours));
        uint32_t expected = reference_join(JOINED(&a, other, &theirs));
        if (code != expected)
            return fail(round, "another answer than C's");
        if (memcmp(&ours, &theirs, sizeof ours) != 0)
            return fail(round, "another third than C's");
        if (memcmp(&a, &first, sizeof a) != 0 || memcmp(&b, &second, sizeof b) != 0)
            return fail(round, "a source was written");
        if (code != 0 && memcmp(&ours, &third, sizeof ours) != 0)
            return fail(round, "a refusal changed the third");
        uint64_t joined = code == 0 ? zc_anchor_right(ours.control.anchor) : 0;
        if (code == 0 && (!pushes(&pushed, ours.labels, joined) ||
                          memcmp(&ours, &pushed, sizeof ours) != 0))
            return fail(round, "not as the pushes leave it");
        seen[code]++;
        if (code == 0 && (joined == 0 || joined == ZC_MOST_SLOTS))
            seen[joined == 0 ? 1 : 2]++;
    }
    printf("join: %llu joined (%llu of none, %llu of 1,023), refused 12: %llu, 33: %llu, 34: %llu, "
           "47: %llu, 48: %llu\n",
           (unsigned long long)seen[0], (unsigned long long)seen[1], (unsigned long long)seen[2],
           (unsigned long long)seen[12], (unsigned long long)seen[33], (unsigned long long)seen[34],
           (unsigned long long)seen[47], (unsigned long long)seen[48]);
    for (size_t at = 0; at < sizeof seen / sizeof *seen; at++)
        if ((at < 3 || at == 12 || at == 33 || at == 34 || at >= 47) && seen[at] == 0 &&
            rounds >= 20000)
            return fail(rounds, "a case was never met");
    return 0;
}
