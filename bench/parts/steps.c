/*
 * Steps over a schedule drawn once: which task moves, and what an idle one starts. A round starts calls
 * by plain stores, the same for all, so that only steps are compared. Beside reference.c two more steps
 * in C: lean.c, written for few instructions, and bare.c, the algorithm without refusals and lengths.
 */
#include "bench.h"

#include "draw.h"

#include <stdlib.h>

enum { COUNTED = 2000, EVERY = 31, TIMED = 50000 };
#define STEP(name, form, tasks, slots) {FIELD(name), form, tasks, slots, 0, NULL, COUNTED, EVERY, TIMED}
#define THREE(name, form, slots)                                                                   \
    STEP(name, form, 1, slots), STEP(name, form, 5, slots), STEP(name, form, 16, slots)
static const struct line lines[] = {
    THREE(zc_step, "named", 3),
    THREE(zc_step, "named", 1023),
    THREE(zc_step, "pooled", 1023),
    THREE(lean, "lean.c, named", 3),
    THREE(lean, "lean.c, named", 1023),
    THREE(lean, "lean.c, pooled", 1023),
    STEP(bare, "bare.c, named", 5, 1023),
    THREE(zc_step_record, "named", 1023),
    THREE(zc_step_record, "pooled", 1023),
};

/* ---- The schedule ------------------------------------------------------------------------ */

/* The next free slot after `last`, going round; 0 if all are taken. */
static uint64_t free_slot(uint64_t last)
{
    for (size_t tried = 0; tried < slots; tried++) {
        last = last % slots + 1;
        if (!zc_marked(queue.marks, last))
            return last;
    }
    return 0;
}

/* What an idle task starts: half of them push, if there is a free slot or a pool to ask. */
static struct move draw_start(size_t task, uint64_t *last)
{
    struct move start = {MOVE_POP, (uint8_t)task, (uint8_t)draw(2), 0, 0};
    uint64_t slot = pooled ? 0 : free_slot(*last);
    if (draw(2) == 0 || (slot == 0 && !pooled))
        return start;
    *last = slot;
    start.what = MOVE_PUSH;
    start.slot = (uint16_t)slot;
    start.label = (uint32_t)draw(UINT64_MAX);
    return start;
}

zc_reply start_by_hand(const struct move *start)
{
    if (start->what == MOVE_POP)
        return gcc_calls.zc_pop(QUEUE, start->task, start->side, LENT);
    if (pooled)
        return gcc_calls.zc_push_pooled(QUEUE, start->task, start->side, start->label, LENT);
    return gcc_calls.zc_push(QUEUE, start->task, start->side, start->slot, start->label, LENT);
}

size_t draw_moves(struct move *moves, size_t count)
{
    uint64_t last = 0;
    size_t made = 0;
    state = UINT64_C(88172645463325252);
    open_queue();
    for (size_t step = 0; step < count; step++) {
        struct move move = {MOVE_STEP, (uint8_t)draw(tasks), 0, 0, 0};
        if (queue.records[move.task].place == 0) {
            moves[made] = draw_start(move.task, &last);
            start_by_hand(&moves[made++]);
        }
        gcc_calls.zc_step(QUEUE, move.task, LENT);
        moves[made++] = move;
    }
    return made;
}

/* ---- Rounds ------------------------------------------------------------------------------ */

static size_t call;
static struct move moves[2 * TIMED];

static void begin(const struct line *line)
{
    take_sizes(line);
    call = line->call;
    draw_moves(moves, TIMED);
}

static void start(const struct move *start)
{
    zc_record *record = &queue.records[start->task];
    bool push = start->what == MOVE_PUSH;
    zc_record fresh = {push && pooled ? 12 : 1, !push, start->side, start->slot, start->label, 0, 0, 0, 0,
                       record->retries};
    *record = fresh;
    if (push && !pooled) {
        queue.labels[start->slot] = start->label;
        queue.marks[start->slot / 64] |= UINT64_C(1) << start->slot % 64;
    }
}

/* The moves up to so many steps; a step is `expression`, in terms of `task`. */
#define ROUND(name, expression)                                                                    \
    static uint64_t round_##name(const struct calls *calls, size_t count)                          \
    {                                                                                              \
        uint64_t sum = 0;                                                                          \
        (void)calls;                                                                               \
        for (const struct move *move = moves; count > 0; move++) {                                 \
            if (move->what != MOVE_STEP) {                                                         \
                start(move);                                                                       \
                continue;                                                                          \
            }                                                                                      \
            size_t task = move->task;                                                              \
            sum = mix_reply(sum, expression);                                                      \
            count--;                                                                               \
        }                                                                                          \
        return sum;                                                                                \
    }
static inline zc_reply no_step(size_t task) { return (zc_reply){ZC_RUNNING, 0, task}; }
ROUND(none, no_step(task))
ROUND(step, calls->zc_step(QUEUE, task, LENT))
ROUND(lean, calls->lean(QUEUE, task, LENT))
ROUND(bare, calls->bare(QUEUE, task, LENT))
ROUND(record, calls->zc_step_record(&queue.control, &queue.records[task], LENT))

static uint64_t round_steps(const struct calls *calls, size_t count)
{
    return (calls == NULL                  ? round_none
            : call == FIELD(zc_step)        ? round_step
            : call == FIELD(lean)           ? round_lean
            : call == FIELD(bare)           ? round_bare
                                           : round_record)(calls, count);
}

/* ---- Damaged tables ---------------------------------------------------------------------- */

/* A word as it is likely to tell two steps apart: small, near its limits, or one bit off. */
static uint64_t spoilt(uint64_t word)
{
    uint64_t number = draw(UINT64_MAX);
    switch (number % 5) {
    case 0: return number >> 8 & 31;
    case 1: return slots + (number >> 8 & 1);
    case 2: return word ^ UINT64_C(1) << (number >> 8) % 64;
    case 3: return word | UINT64_C(0xffffffff00000000);
    default: return draw(UINT64_MAX) << 32 ^ draw(UINT64_MAX);
    }
}

/* Tags that no change can raise, alike in what was read and where it was read. */
static void wear(zc_record *record)
{
    uint64_t tag = UINT64_C(0xffffffff00000000);
    queue.control.anchor |= tag, queue.control.head |= tag, record->seen |= tag, record->link |= tag;
    for (size_t row = 0; row <= slots; row++)
        queue.lefts[row] |= tag, queue.rights[row] |= tag;
}

/* One to three words of control, the task's record or a row of the links, the task's first. */
static void damage(size_t task)
{
    if (draw(8) == 0) {
        wear(&queue.records[task]);
        return;
    }
    for (uint64_t left = draw(3) + 1; left > 0; left--) {
        uint64_t which = draw(8), row = draw(slots + 1);
        uint64_t *rows[] = {&queue.lefts[row], &queue.rights[row], &queue.next[row]};
        uint64_t *word = which < 5   ? (uint64_t *)&queue.records[task] + draw(10)
                         : which < 7 ? (uint64_t *)&queue.control + draw(5)
                                     : rows[draw(3)];
        *word = spoilt(*word);
    }
}

static const size_t all_steps[] = {FIELD(zc_step), FIELD(lean), FIELD(zc_step_record)};

/* One step from these tables: its answer and what it leaves, mixed. */
static uint64_t one_step(const struct calls *calls, size_t which, size_t task, const struct tables *from)
{
    queue = *from;
    zc_reply reply = which == FIELD(zc_step)  ? calls->zc_step(QUEUE, task, LENT)
                     : which == FIELD(lean)   ? calls->lean(QUEUE, task, LENT)
                     : which == FIELD(bare)   ? calls->bare(QUEUE, task, LENT)
                                             : calls->zc_step_record(&queue.control, &queue.records[task], LENT);
    return mix(mix(mix(queue_left(), reply.code), reply.label), reply.value);
}

/* Each step from the tables as the run has them and, of calls that refuse, from damaged ones. */
static bool alike_along(const struct calls *ours, const struct calls *theirs, size_t count)
{
    static struct tables whole, damaged;
    open_queue();
    for (const struct move *move = moves; count > 0; move++) {
        if (move->what != MOVE_STEP) {
            start(move);
            continue;
        }
        size_t task = move->task;
        whole = queue;
        damage(task);
        damaged = queue;
        for (size_t at = 0; at < sizeof all_steps / sizeof *all_steps; at++)
            if (one_step(ours, all_steps[at], task, &damaged) != one_step(theirs, all_steps[at], task, &damaged))
                return false;
        uint64_t bare = one_step(theirs, FIELD(bare), task, &whole);
        for (size_t at = 0; at < sizeof all_steps / sizeof *all_steps; at++)
            if (one_step(ours, all_steps[at], task, &whole) != bare)
                return false;
        count--;
    }
    return true;
}

static bool alike(const struct calls *ours, const struct calls *theirs, bool at_length)
{
    static const struct { const char *form; size_t tasks, slots; } sizes[] = {
        {"named", 1, 3}, {"named", 5, 1023}, {"named", 16, 3}, {"pooled", 1, 3}, {"pooled", 5, 3}, {"pooled", 16, 1023},
    };
    bool same = true;
    for (size_t at = 0; at < sizeof sizes / sizeof *sizes; at++) {
        struct line line = STEP(zc_step, sizes[at].form, sizes[at].tasks, sizes[at].slots);
        begin(&line);
        same = same && alike_along(ours, theirs, at_length ? TIMED : TIMED / 10);
    }
    return same;
}

const struct part steps = {LINES(lines), begin, open_queue, round_steps, queue_left, alike};
