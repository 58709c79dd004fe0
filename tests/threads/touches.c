/*
 * The table of touches in zeppolecape_atomic.h, one thread: a step split at its touch does what
 * zc_step_record does, and a start what zc_push, zc_push_pooled and zc_pop do, on a copy of the same
 * tables: same answer, same record, same words, refusals too. Tables and records are random, sound or
 * damaged. Then the six proved calls are compared with the same by hand in C, on any records and words.
 *
 *     touches [TRIALS [SEED]]
 */
#include "check.h"
#include "draw.h"
#include "touch_reference.h"

#include <stdlib.h>
#include <string.h>

enum { SLOTS = 70, ROWS = SLOTS + 1, WORDS = SLOTS / 64 + 1, ACTS = ZC_LOAD_MARK + 1 };

struct tables {
    zc_control control;
    zc_record record;
    uint64_t lefts[ROWS], rights[ROWS], marks[WORDS], next[ROWS];
    uint32_t labels[ROWS];
};

static zc_queue lent(struct tables *t)
{
    return (zc_queue){&t->control, &t->record, 1, t->lefts, ROWS, t->rights, ROWS,
                      t->labels, ROWS, t->marks, WORDS, t->next, ROWS};
}

static zc_shared shared_of(struct tables *t)
{
    return (zc_shared){&t->control.anchor, &t->control.head, t->lefts, t->rights, t->marks,
                       t->next, t->labels, t->control.slots, t->control.pooled, 0};
}

/* ---- Random words: mostly sound, some at the limits ---------------------------------------- */

static uint64_t any_tag(void)
{
    static const uint64_t limits[] = {0, 4294967261, 4294967262, 4294967263, 4294967294, 4294967295};
    return (once_in(4) ? limits[draw(6)] : draw(3)) << 32;
}

static uint64_t any_link(uint64_t slots)
{
    uint64_t word = any_tag() | draw(slots + 1);
    return once_in(30) ? word | UINT64_C(1) << draw(32) : word;
}

static uint64_t any_anchor(uint64_t slots)
{
    if (once_in(5))
        return any_tag();
    uint64_t left = 1 + draw(slots), right = once_in(3) ? left : 1 + draw(slots);
    return any_tag() | (left == right ? 0 : draw(3)) << 30 | left << 15 | right;
}

static void any_tables(struct tables *t)
{
    static const uint64_t sizes[] = {1, 2, 3, 63, 64, 65, SLOTS};
    uint64_t slots = sizes[draw(7)];
    memset(t, 0, sizeof *t);
    t->control = (zc_control){1, slots, any_anchor(slots), draw(2), any_link(slots)};
    for (uint64_t row = 0; row < ROWS; row++) {
        t->lefts[row] = any_link(slots);
        t->rights[row] = any_link(slots);
        t->next[row] = once_in(30) ? any_link(slots) : draw(slots + 1);
        t->labels[row] = (uint32_t)draw(UINT64_C(1) << 32);
    }
    for (uint64_t word = 0; word < WORDS; word++)
        t->marks[word] = draw(UINT64_C(1) << 40) * draw(UINT64_C(1) << 40);
}

/* A record that is busy and sound, but for some damage, and often finds its word as it read it. */
static void any_record(struct tables *t)
{
    uint64_t slots = t->control.slots, places = t->control.pooled ? 17 : 11;
    zc_record *r = &t->record;
    r->place = once_in(40) ? draw(20) : 1 + draw(places);
    r->kind = r->place == 11 || r->place >= 15 ? ZC_POP : r->place >= 12 ? ZC_PUSH : draw(2);
    r->side = draw(2);
    int owns = r->kind == ZC_PUSH ? r->place < 12 : r->place >= 15;
    r->own = owns ? 1 + draw(slots) : 0;
    r->label = (uint32_t)draw(UINT64_C(1) << 32);
    r->neighbour = draw(slots + 1);
    r->link = r->place >= 13 && !once_in(3) ? t->control.head : any_link(slots);
    r->seen = once_in(3) ? any_anchor(slots) : t->control.anchor;
    int mends = r->place >= 5 && r->place <= 10;
    r->finishing = mends && r->kind == ZC_PUSH ? draw(2) : 0;
    r->retries = once_in(9) ? ZC_MOST_RETRIES - draw(2) : draw(9);
    if (r->place == 9 && !once_in(3)) {
        uint64_t *rows = zc_anchor_status(r->seen) == ZC_RPUSH ? t->rights : t->lefts;
        r->link = rows[r->neighbour];
    }
    if (once_in(60))
        r->seen |= UINT64_C(3) << 30;
    if (once_in(20)) /* any field, but the upper half of the label's word, by which no call goes */
        ((uint64_t *)r)[once_in(2) ? draw(4) : 5 + draw(5)] = once_in(2) ? draw(3) : any_link(1023);
}

/* ---- Split at the touch, and whole ---------------------------------------------------------- */

enum { DONE, FAILED_CHANGE, REFUSED, WAYS };
static uint64_t seen[ACTS][WAYS], starts[64]; /* by kind of touch; by the code of a start's answer */

static int same_reply(zc_reply a, zc_reply b)
{
    return a.code == b.code && a.label == b.label && a.value == b.value;
}

static int alike(const char *what, zc_reply a, zc_reply b, struct tables *x, struct tables *y)
{
    if (same_reply(a, b) && memcmp(x, y, sizeof *x) == 0)
        return 1;
    printf("FAILED %s: split %u %u %u, whole %u %u %u, words %s\n", what, a.code, a.label,
           (unsigned)a.value, b.code, b.label, (unsigned)b.value,
           memcmp(x, y, sizeof *x) == 0 ? "alike" : "different");
    return 0;
}

/* Whether a touch is the plan of a record. */
static int planned(const zc_shared *shared, const zc_record *own, const zc_touch *touch)
{
    zc_touch plan = zc_plan(shared->slots, shared->pooled, own);
    return memcmp(&plan, touch, sizeof plan) == 0;
}

static int one_step(void)
{
    static struct tables split, whole;
    any_tables(&split);
    any_record(&split);
    zc_shared shared = shared_of(&split);
    zc_queue queue = lent(&whole);
    zc_touch touch = zc_plan(shared.slots, shared.pooled, &split.record);
    uint32_t act = touch.act;
    if (once_in(50) && (act == ZC_LOAD_ANCHOR || act == ZC_SWAP_ANCHOR))
        split.control.anchor |= UINT64_C(3) << 30; /* unsound, where the step meets it */
    whole = split;
    static uint64_t steps;
    uint64_t way = steps++ % 3; /* the third asks a record nothing, and so is given one that has a plan */
    zc_reply a;
    if (way == 0) {
        a = zc_atomic_step(&shared, &split.record);
    } else {
        uint64_t found = zc_made(&shared, &touch);
        zc_onward onward = way == 1 || act == ZC_NO_TOUCH
                               ? zc_settle_plan(shared.slots, shared.pooled, &split.record, found)
                               : zc_settle_unasked(shared.slots, shared.pooled, &split.record, found);
        if (!planned(&shared, &split.record, &onward.touch))
            return puts("FAILED the touch told after a step is not the record's plan"), 0;
        a = onward.reply;
    }
    uint64_t retries = whole.record.retries;
    zc_reply b = zc_queue_step_record(&queue, &whole.record);
    seen[act][zc_refused(b) ? REFUSED : whole.record.retries > retries ? FAILED_CHANGE : DONE]++;
    return alike("a step", a, b, &split, &whole);
}

static zc_start any_start(uint64_t slots)
{
    uint64_t side = once_in(20) ? draw(4) : draw(2), slot = once_in(20) ? draw(80) : 1 + draw(slots);
    return (zc_start){draw(3), side, slot, draw(UINT64_C(1) << 32)};
}

static int one_start(void)
{
    static struct tables split, whole;
    any_tables(&split);
    any_record(&split);
    if (!once_in(5))
        split.record.place = 0;
    whole = split;
    zc_shared shared = shared_of(&split);
    zc_queue queue = lent(&whole);
    zc_start start = any_start(shared.slots);
    zc_onward onward;
    zc_begin(&shared, &split.record, &start, &onward);
    zc_reply a = onward.reply;
    zc_reply b = start.operation == ZC_ASK_POP ? zc_queue_pop(&queue, 0, start.side)
                 : start.operation == ZC_ASK_PUSH
                     ? zc_queue_push(&queue, 0, start.side, start.slot, (uint32_t)start.label)
                     : zc_queue_push_pooled(&queue, 0, start.side, (uint32_t)start.label);
    starts[b.code % 64]++;
    if (a.code == ZC_RUNNING && !planned(&shared, &split.record, &onward.touch))
        return puts("FAILED the touch told after a start is not the record's plan"), 0;
    return alike("a start", a, b, &split, &whole);
}

/* ---- The proved calls and the same by hand -------------------------------------------------- */

/* How often each call gave each answer; a plan's is 0, or the number of its refusal. */
enum { PLAN, SETTLE_PLAN, SETTLE_UNASKED, PLAN_START, SETTLE_START, START_LOADED, CALLS };
static uint64_t met[CALLS][64];
static const struct {
    const char *name;
    uint64_t codes[8], count;
} calls[CALLS] = {{"zc_plan", {0, 31, 34}, 3},
                  {"zc_settle_plan", {1, 2, 3, 4, 5, 31, 34}, 7},
                  {"zc_settle_unasked", {1, 2, 3, 4, 5, 31, 34}, 7},
                  {"zc_plan_start", {0, 14, 15, 30, 34, 41}, 6},
                  {"zc_settle_start", {0, 1, 32, 33}, 4},
                  {"zc_start_loaded", {0, 1, 14, 15, 30, 33, 34, 41}, 8}};

/* Every answer that the header lists was met, and no other. */
static void every_answer(void)
{
    for (size_t call = 0; call < CALLS; call++) {
        uint64_t all = 0, listed = 0;
        for (size_t code = 0; code < 64; code++)
            all += met[call][code];
        printf("%s answered", calls[call].name);
        for (size_t at = 0; at < calls[call].count; at++) {
            uint64_t code = calls[call].codes[at];
            printf(" %" PRIu64 ": %" PRIu64 "%s", code, met[call][code], at + 1 < calls[call].count ? "," : "\n");
            listed += met[call][code];
        }
        for (size_t at = 0; at < calls[call].count; at++)
            is("an answer that was met", met[call][calls[call].codes[at]] > 0, 1);
        is("answers that are not listed", all - listed, 0);
    }
}

/* Whether two plans are the same, which is counted. */
static int same_plan(size_t call, zc_touch a, zc_touch b)
{
    met[call][b.act == ZC_NO_TOUCH ? b.word % 64 : 0]++;
    if (memcmp(&a, &b, sizeof a) == 0)
        return 1;
    return printf("FAILED by hand: %s\n", calls[call].name), 0;
}

/* The same of two settlements, and of the records that they left. */
static int same_onward(size_t call, zc_onward a, zc_onward b, const zc_record *one, const zc_record *other)
{
    met[call][b.reply.code % 64]++;
    if (same_reply(a.reply, b.reply) && memcmp(&a.touch, &b.touch, sizeof a.touch) == 0 &&
        memcmp(one, other, sizeof *one) == 0)
        return 1;
    return printf("FAILED by hand: %s\n", calls[call].name), 0;
}

static uint64_t any_word(uint64_t slots)
{
    switch (draw(4)) {
    case 0: return any_anchor(slots);
    case 1: return any_link(slots);
    case 2: return draw(slots + 2);
    default: return draw(UINT64_C(1) << 32) << 32 | draw(UINT64_C(1) << 32);
    }
}

/* Up to four fields with any word at all, or a number as small as a place. */
static void damage(zc_record *r, uint64_t slots)
{
    static const size_t fields[] = {0, 1, 2, 3, 5, 6, 7, 8, 9}; /* not the label */
    for (uint64_t left = draw(5); left > 0; left--)
        ((uint64_t *)r)[fields[draw(9)]] = once_in(2) ? any_word(slots + 1) : draw(20);
}

static uint64_t any_found(const zc_record *r, uint64_t slots)
{
    const uint64_t likely[] = {r->seen, r->link, any_word(slots + 1)};
    return likely[draw(3)];
}

static int steps_by_hand(uint64_t slots, uint64_t pooled, const zc_record *r)
{
    zc_record one = *r, other = *r;
    uint64_t found = any_found(r, slots);
    if (!same_plan(PLAN, zc_plan(slots, pooled, &one), reference_plan(slots, pooled, &other)))
        return 0;
    zc_onward a = zc_settle_plan(slots, pooled, &one, found);
    zc_onward b = reference_settle_plan(slots, pooled, &other, found);
    if (!same_onward(SETTLE_PLAN, a, b, &one, &other))
        return 0;
    one = *r;
    damage(&one, slots);
    other = one;
    found = any_found(&one, slots);
    a = zc_settle_unasked(slots, pooled, &one, found);
    b = reference_settle_unasked(slots, pooled, &other, found);
    return same_onward(SETTLE_UNASKED, a, b, &one, &other);
}

static int starts_by_hand(uint64_t slots, uint64_t pooled, const zc_record *r, zc_start start)
{
    zc_record one = *r, other = *r;
    uint64_t found = any_word(slots + 1);
    zc_onward a = zc_start_loaded(slots, pooled, &one, &start, found);
    zc_onward b = reference_start_loaded(slots, pooled, &other, &start, found);
    if (!same_onward(START_LOADED, a, b, &one, &other))
        return 0;
    one = other = *r;
    zc_touch first = zc_plan_start(slots, pooled, &one, &start);
    if (!same_plan(PLAN_START, first, reference_plan_start(slots, pooled, &other, &start)))
        return 0;
    if (first.act == ZC_NO_TOUCH)
        return 1;
    uint32_t act = start.operation == ZC_ASK_PUSH ? (uint32_t[]){1, 12, 13}[draw(3)] : first.act;
    found = act == ZC_LOAD_ANCHOR ? any_word(slots + 1) : draw(2);
    a = zc_settle_start(slots, pooled, &one, &start, act, found);
    b = reference_settle_start(slots, pooled, &other, &start, act, found);
    return same_onward(SETTLE_START, a, b, &one, &other);
}

static int one_by_hand(void)
{
    static struct tables t;
    any_tables(&t);
    any_record(&t);
    uint64_t slots = once_in(50) ? draw(ZC_MOST_SLOTS + 1) : t.control.slots;
    uint64_t pooled = once_in(50) ? draw(4) : t.control.pooled;
    if (!steps_by_hand(slots, pooled, &t.record))
        return 0;
    if (!once_in(5))
        t.record.place = 0;
    return starts_by_hand(slots, pooled, &t.record, any_start(t.control.slots));
}

/* Trials of a kind, until one fails. */
static void trials(const char *what, int (*one)(void), uint64_t count)
{
    for (uint64_t at = 0; at < count; at++)
        if (!one()) {
            failed++;
            return;
        }
    passed++;
    printf("%s: %" PRIu64 " alike\n", what, count);
}

int main(int argc, char **argv)
{
    uint64_t count = argc > 1 ? strtoull(argv[1], NULL, 10) : 1000000;
    if (argc > 2)
        state ^= strtoull(argv[2], NULL, 10) * UINT64_C(0x9e3779b97f4a7c15);
    trials("steps split at their touch, and whole", one_step, count);
    trials("starts by their touches, and whole", one_start, count);
    trials("plans and settlements, and the same by hand", one_by_hand, count);
    if (failed != 0)
        return told();
    for (uint32_t act = 0; act <= ZC_STORE_NEXT; act++) {
        int changes = act == ZC_SWAP_ANCHOR || act == ZC_SWAP_LINK || act == ZC_SWAP_HEAD ||
                      act == ZC_DRAW_SLOT;
        int reads = act == ZC_NO_TOUCH ? 0 : 1, whole = act == ZC_TAKE_LABEL || act >= ZC_STORE_NEXT;
        is("a kind of touch made", seen[act][DONE] >= 100, (uint64_t)reads);
        is("a kind of touch that may fail", seen[act][FAILED_CHANGE] >= 100 || !changes, 1);
        is("a kind of touch refused", seen[act][REFUSED] >= 100 || whole || changes, 1);
    }
    static const uint32_t codes[] = {ZC_RUNNING, ZC_NO_SIDE, ZC_BAD_SLOT, ZC_BUSY, ZC_TAKEN,
                                     ZC_WORN, ZC_UNSOUND, ZC_WRONG_PUSH};
    for (size_t at = 0; at < sizeof codes / sizeof *codes; at++)
        is("an answer of a start", starts[codes[at]] >= 100, 1);
    every_answer();
    return told();
}
