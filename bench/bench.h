/*
 * What the parts of the benchmark share: an engine is the library or the calls by hand as one compiler
 * made them, a line is one call with sizes, a part has the lines of some calls.
 */
#ifndef BENCH_H
#define BENCH_H

#include "zeppolecape_atomic.h"

#include <stdbool.h>
#include <stddef.h>
#include <stdint.h>

/* Every exported call. */
#define EACH_CALL(of)                                                                              \
    of(open) of(open_pooled) of(push) of(push_pooled) of(pop) of(step) of(step_record) of(run)     \
    of(report) of(waiting) of(find) of(sheet) of(sheet_words) of(join) of(save) of(return)         \
    of(next_schedule) of(serve) of(audit_words) of(plan) of(settle_plan) of(settle_unasked)        \
    of(plan_start) of(settle_start) of(start_loaded)

/* An engine's calls, and two more steps by hand in C; in the library's place both are its step. */
#define CALL_OF(name) __typeof__(&zc_##name) zc_##name;
struct calls {
    EACH_CALL(CALL_OF)
    __typeof__(&zc_step) lean, bare;
};
#undef CALL_OF
#define FIELD(name) offsetof(struct calls, name)

extern const struct calls library_calls, gcc_calls;
extern const struct calls clang_calls __attribute__((weak)); /* null where there is no clang */

/* ---- Lines ------------------------------------------------------------------------------- */

struct line {
    size_t call;      /* FIELD(zc_step) */
    const char *form; /* "named", "lean.c, pooled": what the sizes don't say, or null */
    size_t tasks, slots, size;
    const char *of;        /* what `size` counts: "labels waiting"; null: nothing */
    size_t counted, every; /* calls, or what else the line counts, in a round of which every so manyth is counted */
    size_t timed;          /* in a round that is timed */
};

struct part {
    const struct line *lines;
    size_t line_count;
    /* What is drawn for a line: once, before its rounds. */
    void (*begin)(const struct line *line);
    /* The tables as the first call of a round finds them. */
    void (*lay)(void);
    /* So many calls, their answers mixed; without an engine all but the calls. */
    uint64_t (*round)(const struct calls *calls, size_t count);
    /* All that the calls wrote, mixed. */
    uint64_t (*left)(void);
    /* More inputs, damaged ones among them: whether both answer and leave the same. May be null. */
    bool (*alike)(const struct calls *ours, const struct calls *theirs, bool at_length);
};

#define LINES(array) array, sizeof array / sizeof *array

extern const struct part openings, starts, steps, runs, walks, sheets, joins, shelves, schedules,
    serves, audits, touches;

/* ---- Tables ------------------------------------------------------------------------------ */

struct tables {
    zc_control control;
    zc_record records[ZC_MOST_TASKS];
    uint64_t lefts[ZC_ROWS(ZC_MOST_SLOTS)], rights[ZC_ROWS(ZC_MOST_SLOTS)];
    uint64_t marks[ZC_MARK_WORDS(ZC_MOST_SLOTS)], next[ZC_ROWS(ZC_MOST_SLOTS)];
    uint32_t labels[ZC_ROWS(ZC_MOST_SLOTS)];
};

/* The queue of the line under way, and how much of its tables is lent. */
extern struct tables queue;
extern size_t tasks, slots;
extern bool pooled;

#define QUEUE &queue.control, queue.records, tasks
#define ROWS                                                                                       \
    queue.lefts, slots + 1, queue.rights, slots + 1, queue.labels, slots + 1, queue.marks,         \
        slots / 64 + 1
#define LENT ROWS, queue.next, slots + 1

void open_queue(void);                    /* by hand */
void take_sizes(const struct line *line); /* tasks, slots; pooled where the form ends so */
/* A STABLE queue at rest of `tasks` and `slots`, so many labels waiting in slots drawn from a seed. */
void line_up(struct tables *of, size_t waiting, uint64_t seed);

static inline uint64_t mix(uint64_t hash, uint64_t number)
{
    return (hash ^ number) * UINT64_C(1099511628211);
}
uint64_t mix_record(uint64_t hash, const zc_record *record);
uint64_t mix_words(uint64_t hash, const uint64_t *words, size_t count);
uint64_t mix_tables(uint64_t hash, const struct tables *of);
uint64_t queue_left(void);  /* all of the queue's tables */
uint64_t nothing_left(void); /* of calls that write nothing */

static inline uint64_t mix_reply(uint64_t hash, zc_reply reply)
{
    return hash + reply.code + reply.label + reply.value; /* few instructions: it is timed */
}

/* ---- A schedule of steps (parts/steps.c draws it, others replay it) ------------------------ */

enum { MOVE_STEP, MOVE_PUSH, MOVE_POP };
struct move {
    uint8_t what, task, side;
    uint16_t slot;
    uint32_t label;
};
/* Exactly `count` steps, each start just before its call's first step; the number of moves. */
size_t draw_moves(struct move *moves, size_t count);
zc_reply start_by_hand(const struct move *start);

/* ---- Measuring --------------------------------------------------------------------------- */

struct counts {
    double mean; /* instructions a call, or what else the line counts */
    uint64_t most, stack;
};

/* Instructions from a call's first one to its return, and the bytes of stack that it wrote. */
struct counts count_round(const struct part *part, const struct line *line,
                          const struct calls *calls);

/* Nanoseconds a call by each engine, the best of rounds in turn for so many seconds. */
void time_rounds(const struct part *part, const struct line *line, const struct calls *const *engines,
                 size_t engine_count, double seconds, double *best);

/* An engine's calls, of which one is counted, every so manyth time; and what was counted since. */
struct calls metered(const struct calls *calls, size_t call, size_t every);
struct counts meter_read(void);

/* The most over random calls, refused ones among them (most.c): prints it; its stack. */
void tell_most(void);
uint64_t most_stack(size_t kind);

const void *entry_of(const struct calls *calls, size_t call);
const char *call_name(size_t call);

#endif
