/* Openings, starts, and runs of one task to its answer. */
#include "bench.h"

#include <string.h>

static size_t call;
static void begin(const struct line *line)
{
    take_sizes(line);
    call = line->call;
}

/* ---- Openings: what lies in the tables before does not matter ------------------------------ */

#define OPENING(name, form, tasks, slots) {FIELD(name), form, tasks, slots, 0, NULL, 1, 1, 200}
static const struct line opening_lines[] = {
    OPENING(zc_open, NULL, 1, 3),
    OPENING(zc_open, NULL, 5, 12),
    OPENING(zc_open, NULL, 16, 1023),
    OPENING(zc_open_pooled, NULL, 1, 3),
    OPENING(zc_open_pooled, NULL, 5, 12),
    OPENING(zc_open_pooled, NULL, 16, 1023),
};

static void scribble(void) { memset(&queue, 5, sizeof queue); }

static uint64_t round_openings(const struct calls *calls, size_t count)
{
    uint64_t sum = 0;
    for (size_t at = 0; at < count && calls != NULL; at++)
        sum += call == FIELD(zc_open) ? calls->zc_open(QUEUE, tasks, slots, at, ROWS)
                                     : calls->zc_open_pooled(QUEUE, tasks, slots, at, LENT);
    return sum;
}

const struct part openings = {LINES(opening_lines), begin, scribble, round_openings, queue_left, NULL};

/* ---- Starts, each for an idle task --------------------------------------------------------- */

enum { STARTS = 2000 };
#define START(name, form, tasks, slots) {FIELD(name), form, tasks, slots, 0, NULL, STARTS, 99, STARTS}
static const struct line start_lines[] = {
    START(zc_push, "named", 1, 3),         START(zc_push, "named", 16, 1023),
    START(zc_push_pooled, "pooled", 1, 3), START(zc_push_pooled, "pooled", 16, 1023),
    START(zc_pop, "named", 1, 3),          START(zc_pop, "pooled", 16, 1023),
};

/* A record for each start, so that none is written just before a call reads it. */
static zc_record fresh[STARTS + ZC_MOST_TASKS];

static void lay_starts(void)
{
    open_queue();
    memset(fresh, 0, sizeof fresh);
}

static zc_reply start(const struct calls *calls, size_t at, uint64_t side, uint64_t slot)
{
    size_t task = at % tasks;
    zc_record *records = &fresh[at - task];
    if (call == FIELD(zc_push))
        return calls->zc_push(&queue.control, records, tasks, task, side, slot, 7, LENT);
    if (call == FIELD(zc_push_pooled))
        return calls->zc_push_pooled(&queue.control, records, tasks, task, side, 7, LENT);
    return calls->zc_pop(&queue.control, records, tasks, task, side, LENT);
}

static uint64_t round_starts(const struct calls *calls, size_t count)
{
    uint64_t sum = 0, slot = 0;
    for (size_t at = 0; at < count; at++) {
        slot = slot % slots + 1;
        queue.marks[slot / 64] &= ~(UINT64_C(1) << slot % 64);
        if (calls != NULL)
            sum = mix_reply(sum, start(calls, at, at & 1, slot));
    }
    return sum;
}

static uint64_t starts_left(void)
{
    uint64_t hash = queue_left();
    for (size_t at = 0; at < STARTS; at++)
        hash = mix_record(hash, &fresh[at]);
    return hash;
}

const struct part starts = {LINES(start_lines), begin, lay_starts, round_starts, starts_left, NULL};

/* ---- Runs: a push at the right and a pop at the left in turn, three labels waiting ---------- */

#define RUN(form, slots) {FIELD(zc_run), form, 1, slots, 0, NULL, 40, 5, 2000}
static const struct line run_lines[] = {RUN("a push and a pop, named", 12), RUN("a push and a pop, pooled", 12)};

static void start_run(bool push, uint64_t slot)
{
    zc_record record = {push && pooled ? 12 : 1, push ? ZC_PUSH : ZC_POP, push, 0, 7, 0, 0, 0, 0, 0};
    if (push && !pooled) {
        record.own = slot;
        queue.labels[slot] = 7;
        queue.marks[slot / 64] |= UINT64_C(1) << slot % 64;
    }
    if (!push)
        record.label = 0;
    queue.records[0] = record;
}

static void lay_run(void)
{
    open_queue();
    for (uint64_t slot = 1; slot <= 3; slot++) {
        start_run(true, slot);
        gcc_calls.zc_run(QUEUE, 0, ZC_POOLED_PUSH_STEPS, LENT);
    }
}

static uint64_t round_runs(const struct calls *calls, size_t count)
{
    uint64_t sum = 0;
    for (size_t at = 0; at < count; at++) {
        start_run(at % 2 == 0, (at / 2 + 3) % slots + 1);
        if (calls != NULL) {
            zc_run_reply reply = calls->zc_run(QUEUE, 0, ZC_POOLED_PUSH_STEPS, LENT);
            sum += reply.code + reply.label + reply.value + reply.steps;
        }
    }
    return sum;
}

const struct part runs = {LINES(run_lines), begin, lay_run, round_runs, queue_left, NULL};
