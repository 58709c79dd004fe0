/*
 * Shelves against the same calls by hand in C (bench/shelf_reference.c): any queue, sound or
 * damaged, in tables of any length, saved on any shelf and returned to from other tables. Every byte
 * is compared, those beyond the lengths and those of the other shelves too. What is returned to then
 * goes on, call by call, as the queue that was saved (bench/reference.c).
 *
 *     shelf ROUNDS [SEED]
 */
#include "draw.h"
#include "reference.h"
#include "shelf_reference.h"

#include <stdio.h>
#include <stdlib.h>
#include <string.h>

enum { ROWS = ZC_MOST_SLOTS + 3, WORDS = ROWS / 64 + 3, RECORDS = ZC_MOST_TASKS + 1 };

typedef struct line {
    zc_control control;
    zc_record records[RECORDS];
    uint64_t lefts[ROWS], rights[ROWS], marks[WORDS], next[ROWS];
    uint32_t labels[ROWS];
    size_t record_count, left_count, right_count, label_count, mark_count, next_count;
} line;

/* A part more than eight of each table, so that what lies beyond eight parts is seen too. */
typedef struct rack {
    zc_control controls[ZC_SHELVES + 1];
    zc_record records[9 * RECORDS];
    uint64_t lefts[9 * ROWS], rights[9 * ROWS], marks[9 * WORDS], next[9 * ROWS];
    uint32_t labels[9 * ROWS];
    size_t control_count, record_count, left_count, right_count, label_count, mark_count,
        next_count;
} rack;

static void noise(void *table, size_t bytes)
{
    for (size_t at = 0; at + 8 <= bytes; at += 8) {
        uint64_t word = draw(UINT64_MAX);
        memcpy((unsigned char *)table + at, &word, 8);
    }
}

#define LENT(l) &(l)->control, (l)->records, (l)->record_count
#define ROWS_OF(l)                                                                                 \
    (l)->lefts, (l)->left_count, (l)->rights, (l)->right_count, (l)->labels, (l)->label_count,     \
        (l)->marks, (l)->mark_count
#define ALL_OF(l) ROWS_OF(l), (l)->next, (l)->next_count
#define SHELVED(l, r, shelf)                                                                       \
    LENT(l), (r)->controls, (r)->control_count, (r)->records, (r)->record_count, shelf, ALL_OF(l), \
        ALL_OF(r)

/* Lengths that a queue of so many tasks and slots needs, or some more. */
static void measure(line *l, uint64_t tasks, uint64_t slots, bool pooled)
{
    l->record_count = tasks + draw(RECORDS - tasks + 1);
    l->left_count = slots + 1 + draw(2);
    l->right_count = slots + 1 + draw(2);
    l->label_count = slots + 1 + draw(2);
    l->mark_count = slots / 64 + 1 + draw(2);
    l->next_count = pooled ? slots + 1 + draw(2) : draw(slots + 2);
}

/* Eight parts of what a queue needs or more, and a rest that is in no part. */
static void measure_rack(rack *r, uint64_t tasks, uint64_t slots, bool pooled)
{
    r->control_count = ZC_SHELVES + draw(2);
    r->record_count = 8 * (tasks + draw(RECORDS - tasks + 1)) + draw(8);
    r->left_count = 8 * (slots + 1 + draw(2)) + draw(8);
    r->right_count = 8 * (slots + 1 + draw(2)) + draw(8);
    r->label_count = 8 * (slots + 1 + draw(2)) + draw(8);
    r->mark_count = 8 * (slots / 64 + 1 + draw(2)) + draw(8);
    r->next_count = pooled ? 8 * (slots + 1 + draw(2)) + draw(8) : draw(8 * slots + 16);
}

static zc_reply start(line *l, size_t task, uint64_t slots)
{
    uint64_t side = draw(2), slot = 1 + draw(slots);
    uint32_t label = (uint32_t)draw(UINT64_MAX);
    if (once_in(3))
        return reference_pop(LENT(l), task, side, ALL_OF(l));
    if (l->control.pooled)
        return reference_push_pooled(LENT(l), task, side, label, ALL_OF(l));
    return reference_push(LENT(l), task, side, slot, label, ALL_OF(l));
}

/* So many starts and steps, by any tasks; a digest of what they answer. */
static uint64_t work(line *l, uint64_t times)
{
    uint64_t digest = 0;
    for (; times > 0; times--) {
        size_t task = (size_t)draw(l->control.tasks);
        zc_reply reply = l->records[task].place == 0
                             ? start(l, task, l->control.slots)
                             : reference_step(LENT(l), task, ALL_OF(l));
        digest = digest * UINT64_C(6364136223846793005) + reply.code + reply.value * 31 +
                 reply.label * UINT64_C(1009);
    }
    return digest;
}

/* A queue opened in tables of any contents and left in the middle of its calls. */
static void open_line(line *l, uint64_t tasks, uint64_t slots, bool pooled, uint64_t times)
{
    noise(l, sizeof *l);
    measure(l, tasks, slots, pooled);
    uint32_t tag = (uint32_t)draw(UINT32_MAX);
    if (pooled)
        reference_open_pooled(LENT(l), tasks, slots, tag, ALL_OF(l));
    else
        reference_open(LENT(l), tasks, slots, tag, ROWS_OF(l));
    work(l, times);
}

/* One word of a control other than it should be, in some ways sound all the same. */
static void damage_control(zc_control *c)
{
    switch (draw(8)) {
    case 0: c->anchor ^= UINT64_C(1) << draw(32); break;
    case 1: c->anchor |= UINT64_C(3) << 30; break;
    case 2: c->slots = draw(2) ? 0 : ZC_MOST_SLOTS + 1 + draw(UINT64_MAX / 2); break;
    case 3: c->tasks = draw(2) ? 0 : ZC_MOST_TASKS + 1 + draw(UINT64_MAX / 2); break;
    case 4: c->pooled = 2 + draw(UINT64_MAX - 2); break;
    case 5: c->anchor = draw(ZC_MOST_SLOTS + 1) << 15; break;
    case 6: c->pooled ^= 1; break;
    default: c->anchor = UINT64_C(1) << 30 | UINT64_C(1) << 15 | 1; break;
    }
}

/* A length too short for this control, by one or by much; records and links may hold anything. */
static void shorten(line *l, rack *r, const zc_control *c)
{
    size_t slots = (size_t)c->slots, tasks = (size_t)c->tasks, words = slots / 64;
    size_t *lengths[] = {&l->record_count, &l->left_count,  &l->right_count,  &l->label_count,
                         &l->mark_count,   &l->next_count,  &r->record_count, &r->left_count,
                         &r->right_count,  &r->label_count, &r->mark_count,   &r->next_count,
                         &r->control_count};
    size_t most[] = {tasks - 1, slots, slots, slots, words, slots, tasks * 8 - 1, slots * 8 + 7,
                     slots * 8 + 7, slots * 8 + 7, words * 8 + 7, slots * 8 + 7, 7};
    size_t which = (size_t)draw(13);
    *lengths[which] = once_in(3) ? (size_t)draw(most[which] + 1) : most[which];
}

static line from, back, read_only, ours, theirs;
static rack first, left, right, before;
static uint64_t seen[2][ZC_SHELVES + 50], shelves_used, went_on;

static int fail(uint64_t round, const char *what)
{
    fprintf(stderr, "shelf: round %llu: %s\n", (unsigned long long)round, what);
    return 1;
}

static int save(uint64_t round, uint64_t shelf)
{
    before = left = right = first;
    read_only = from;
    uint32_t code = zc_save(SHELVED(&from, &left, shelf));
    uint32_t expected = reference_save(SHELVED(&from, &right, shelf));
    seen[0][expected]++;
    if (code != expected)
        return fail(round, "a saving with another answer than C's");
    if (memcmp(&left, &right, sizeof left) != 0)
        return fail(round, "other shelves than C's");
    if (memcmp(&from, &read_only, sizeof from) != 0)
        return fail(round, "a saving wrote in the queue");
    if (code != 0 && memcmp(&left, &before, sizeof left) != 0)
        return fail(round, "a refused saving wrote");
    return 0;
}

static int put_back(uint64_t round, uint64_t shelf)
{
    before = left;
    ours = theirs = back;
    uint32_t code = zc_return(SHELVED(&ours, &left, shelf));
    uint32_t expected = reference_return(SHELVED(&theirs, &left, shelf));
    seen[1][expected]++;
    if (code != expected)
        return fail(round, "a return with another answer than C's");
    if (memcmp(&ours, &theirs, sizeof ours) != 0)
        return fail(round, "another queue than C's");
    if (memcmp(&left, &before, sizeof left) != 0)
        return fail(round, "a return wrote on the shelves");
    if (code != 0 && memcmp(&ours, &back, sizeof ours) != 0)
        return fail(round, "a refused return wrote");
    return 0;
}

/* What was returned to does as what was saved: the same calls are answered the same. */
static int goes_on(uint64_t round)
{
    uint64_t now = state;
    uint64_t as_saved = work(&from, 60);
    state = now;
    went_on++;
    return as_saved == work(&ours, 60) ? 0 : fail(round, "the queue goes on in another way");
}

static int one_round(uint64_t round)
{
    uint64_t slots = once_in(40) ? ZC_MOST_SLOTS : 1 + draw(once_in(2) ? 5 : 140);
    uint64_t tasks = 1 + draw(ZC_MOST_TASKS), shelf = draw(ZC_SHELVES), times = draw(300);
    bool pooled = once_in(2), sound = !once_in(3);
    open_line(&from, tasks, slots, pooled, once_in(8) ? 0 : times);
    open_line(&back, 1 + draw(ZC_MOST_TASKS), 1 + draw(9), once_in(2), 5);
    measure(&back, tasks, slots, pooled);
    measure_rack(&first, tasks, slots, pooled);
    if (once_in(2))
        memset(first.controls, 0, sizeof first.controls);
    if (!sound && once_in(2))
        damage_control(&from.control);
    else if (!sound)
        shorten(&from, &first, &from.control);
    if (once_in(4))
        damage_control(&back.control); /* which a return does not look at */
    uint64_t put = once_in(12) ? ZC_SHELVES + draw(2) * draw(UINT64_MAX / 2) : shelf;
    if (save(round, put) != 0)
        return 1;
    bool saved = sound && put == shelf;
    if (once_in(6))
        damage_control(&left.controls[shelf]), saved = false;
    if (once_in(6) && put == shelf && sound)
        shorten(&back, &left, &from.control), saved = false;
    uint64_t taken = once_in(12) ? ZC_SHELVES + draw(2) * draw(UINT64_MAX / 2) : shelf;
    if (put_back(round, taken) != 0)
        return 1;
    shelves_used |= UINT64_C(1) << shelf;
    return saved && taken == shelf ? goes_on(round) : 0;
}

int main(int count, char **words)
{
    static const int codes[2][5] = {{0, 12, 34, 43, 0}, {0, 12, 34, 43, 44}};
    uint64_t rounds = count > 1 ? strtoull(words[1], NULL, 10) : 20000;
    if (count > 2)
        state ^= strtoull(words[2], NULL, 10) << 20;
    for (uint64_t round = 0; round < rounds; round++) {
        if (round % 50 == 0)
            noise(&first, sizeof first);
        if (one_round(round) != 0)
            return 1;
    }
    for (int call = 0; call < 2; call++) {
        printf("%s:", call == 0 ? "saved" : "returned");
        for (int at = 0; at < 5 - (call == 0); at++) {
            printf(" %d %llu", codes[call][at], (unsigned long long)seen[call][codes[call][at]]);
            if (rounds >= 5000 && seen[call][codes[call][at]] == 0)
                return fail(rounds, "a case was never met");
        }
        printf("\n");
    }
    printf("went on alike: %llu\n", (unsigned long long)went_on);
    if (rounds >= 5000 && (shelves_used != 255 || went_on == 0))
        return fail(rounds, "a shelf was never used");
    return 0;
}
