/*
 * zeppolecape.h - the label queue, a shared deque moved one touch at a time.
 *
 * FOR WHOM. Threads, cores and interrupt handlers share a queue through zeppolecape_atomic.h, with no
 * lock and nothing masked. The calls of this header are for one caller at a time: an executive (the
 * program that decides which task steps next) whose step is one undivided touch, or a queue at rest.
 * They use plain loads and stores and are not re-entrant: two callers at once lose labels, which is
 * not detected. In both, wherever a task is stopped the others go on.
 *
 * WHAT IT IS. The library holds no memory of its own. You lend it tables; it opens a queue in them,
 * starts a push or a pop for a task, moves one task by one step, and reports. A step is one touch of
 * shared memory, and an executive may interleave the steps of its tasks in any order and stop any of
 * them anywhere: the others never wait for it. The method is Michael's CAS-based deque. Where in it a
 * task's next step is, is its place: 1 to 11, and 12 to 17 for slots from a pool. Anchor is the shared
 * word with both ends of the queue (zc_control).
 *
 *     make                                          (proves, and writes target/lib/libzeppolecape.a)
 *     cc -Iinclude main.c target/lib/libzeppolecape.a
 *
 * The library is for x86-64. It calls nothing but memset, from the openings, zc_serve and the order
 * sheets, memcpy, from zc_find, and memmove, from zc_save and zc_return.
 *
 * In short:
 *
 *     enum { TASKS = 2, SLOTS = 3 };
 *     ZC_QUEUE_STORAGE(queue, TASKS, SLOTS);                     the tables, and `queue` to lend them
 *
 *     zc_queue_open_pooled(&queue, TASKS, SLOTS, 0);             answers 0
 *     zc_queue_push_pooled(&queue, 0, ZC_RIGHT, 700);            task 0 starts: label 700
 *     zc_queue_step(&queue, 0);   ... until zc_answered          running four times, pushed
 *     zc_queue_pop(&queue, 1, ZC_LEFT);                          task 1 starts
 *     zc_queue_step(&queue, 1);   ... until zc_answered          running five times, popped: 700
 *
 * TWO WAYS TO OPEN. A pooled queue (zc_open_pooled) keeps its free slots on a stack that the tasks
 * share: a push takes one in three steps of its own (places 12 to 14), a pop gives its back in
 * three (15 to 17). In a queue opened by zc_open the caller names a free slot with every push
 * (zc_push), calls are three steps shorter, and no next table is needed: it may be null with count
 * 0. Pops, steps and the report are the same calls for both.
 *
 * YOUR DUTY, in every call
 *  - `control`, `one` of zc_step_record and the three controls of zc_join are not null. Every pointer
 *    is aligned for its type and good for its count of elements (a count is never in bytes).
 *  - Nothing that a call writes overlaps anything else that it is lent.
 *  - One call of this header at a time on a queue, as said above: it is the executive that makes each
 *    step one undivided touch. Calls on different queues are independent.
 *  - Between calls the tables are yours to read. Writing into an open queue is
 *    never dangerous to memory, but only a queue that was written by these calls
 *    alone keeps its promises (and never answers 34).
 * Everything else is checked: any number may be passed for any other argument, any
 * contents may lie in the tables, and any table may be too short. Every table with
 * count 0 may be null; where the call needs it, it is a short table (12) like any other.
 *
 * WHO STEPS A TASK. A call belongs to its task's record, not to whoever steps it: a watchdog may
 * step a task that hangs, to its answer if it likes. The answer goes to the caller of that step and
 * is told once; all of the record but its count is then zero. So a watchdog that gets an answer
 * keeps it for the task: a popped label is nowhere else. The task finds its place 0, and its own
 * next step is refused 31.
 *
 * CODES, one convention for all calls: an unsigned number, 1 to 5 for what a start or a step answers,
 * 0 for any other call carried out (but ZC_FAILS of an audit, 1), 10 and above for a refusal
 * (zc_is_refusal). Some replies hold it in 32 bits, some in 64; a uint64_t takes either, and all the
 * ZC_ names below compare with both.
 *
 * FACTS, the most that bench/run.sh saw over random calls; memset's instructions are not counted:
 *                  stack,   instructions at most, by tasks and slots
 *                  bytes      1, 3     5, 12  16, 1023
 *   zc_open           120       120       120       120
 *   zc_open_pooled    136       151       191      2968
 *   zc_push           192       219       219       219
 *   zc_push_pooled    160       183       183       183
 *   zc_pop             40       103       103       103
 *   zc_step           152       247       247       248
 *   zc_step_record    152       235       235       237
 *   zc_run            200      1822      2916      3045
 *   zc_report         360       239       374     12652
 *   table bytes         -       240       816     30120
 *   stack bytes of the others: zc_waiting 96, zc_find 504, zc_sheet 1432, zc_sheet_words 424,
 *   zc_join 240, zc_save 184, zc_return 152, zc_next_schedule 18976, zc_serve 320,
 *   zc_audit 200, zc_plan 112, zc_settle_plan 192, zc_settle_unasked 192, zc_plan_start 8,
 *   zc_settle_start 48, zc_start_loaded 16
 *   code bytes: audit 797, capi 10591, capi_record 5157, capi_run 7571, find 3379, join 4028,
 *   schedule 7734, serve 8713, sheet 3018, shelf 4341, touch 10387, touch_call 9083,
 *   waiting 884
 * As to the machine: x86-64, System V calling convention. The code uses the red zone (128 bytes
 * below the stack pointer) and SSE registers, no AVX: an interrupt handler that makes a call saves
 * the SSE state first, and an interrupt that is not masked during a call leaves the red zone alone.
 * In a queue that these calls alone wrote to, a task stepped alone answers within 18 steps in a push
 * and 13 in a pop, in a pooled queue 21 and 16, wherever the others stopped; between other tasks'
 * steps it may have to try again and again (ZC_PUSH_STEPS: the bounds, and a watchdog's recipe).
 *
 * A REFUSAL is its number alone: every table keeps its contents. If several
 * numbers apply, the first in the order that stands with the call is answered.
 * A helper that makes several calls, as zc_queue_finish does, may meet one late;
 * what it did before stays.
 *
 *   because of the input                     because of the state
 *   10  tasks not 1 to 16                    30  start: the task is busy
 *   11  slots not 1 to 1,023                 31  step: the task is idle
 *   12  a lent table is too short            32  push: the slot's mark is set
 *   13  no such task                         33  start: the Anchor tag is above 4,294,967,262
 *   14  side not 0 or 1                      34  unsound, see ZC_UNSOUND
 *   15  slot not 1 to slots                  41  push: a slot named in a pooled queue, or none
 *   40  audit: no history to be judged           in the other
 *   43  shelf above 7                        42  schedules: not two busy tasks, or over four labels
 *   45  find: more than 32 labels            44  return: the shelf was never filled
 *   46  the order sheet is malformed         47  join: a source not at rest, or the third not fresh
 *                                            48  join: more labels than slots in the third
 */
#ifndef ZEPPOLECAPE_H
#define ZEPPOLECAPE_H

#include <stddef.h>
#include <stdint.h>

#ifdef __cplusplus
extern "C" {
#endif

/* ---- Version ----------------------------------------------------------------------------
 * Major: a layout, a code, or what a call takes or does has changed: read CHANGELOG.md and compile
 * again. Minor: something was added. Patch: neither.
 */
#define ZC_VERSION_MAJOR 5
#define ZC_VERSION_MINOR 1
#define ZC_VERSION_PATCH 0
#define ZC_VERSION (ZC_VERSION_MAJOR * 10000 + ZC_VERSION_MINOR * 100 + ZC_VERSION_PATCH)

/* A conversion, in the words of either language. */
#ifdef __cplusplus
#define ZC_AS(type, value) static_cast<type>(value)
#define ZC_WORDS(words, rows) reinterpret_cast<words *>(rows)
#else
#define ZC_AS(type, value) ((type)(value))
#define ZC_WORDS(words, rows) ((words *)(rows))
#endif

/* ---- Limits and lengths ---------------------------------------------------------------- */

#define ZC_MOST_TASKS 16
#define ZC_MOST_SLOTS 1023
#define ZC_LAST_START_TAG UINT64_C(4294967262) /* with a higher tag a start is refused 33 */
#define ZC_MOST_ASKED 32
#define ZC_MOST_RETRIES UINT64_C(4294967295)   /* where a task's count of retries stays */

/*
 * How long a call may hold up, in a queue that was opened and moved by these calls alone (saved and
 * returned to, too). All four are proved; a refused step does not count.
 *  - A busy task stepped alone answers within ZC_PUSH_STEPS steps for a push and ZC_POP_STEPS for a
 *    pop, in a pooled queue ZC_POOLED_PUSH_STEPS and ZC_POOLED_POP_STEPS, wherever all the others
 *    stopped. All four are reached.
 *  - Any ZC_STRETCH(tasks) steps, of whatever tasks, hold one with which a call takes effect or
 *    answers; in a pooled queue any ZC_POOLED_STRETCH(tasks), since there a task that draws its slot
 *    may send each other one back. With 16 tasks that is 416 and 680.
 *
 * A watchdog's recipe:
 *  1. Count the steps that are not refused since the last answer, or since an end of Anchor moved.
 *  2. Past ZC_STRETCH(tasks), pooled ZC_POOLED_STRETCH(tasks), a table was written by somebody else.
 *  3. To bring one busy task to its answer, step it and no other: zc_run with ZC_PUSH_STEPS or
 *     ZC_POP_STEPS, pooled ZC_POOLED_PUSH_STEPS or ZC_POOLED_POP_STEPS.
 *  4. If it still answers running, or 34, the tables are damaged: stop the tasks, and
 *  5. report: zc_report tells what can be told, and the queue is opened again.
 */
#define ZC_PUSH_STEPS 18
#define ZC_POP_STEPS 13
#define ZC_POOLED_PUSH_STEPS 21
#define ZC_POOLED_POP_STEPS 16
#define ZC_STRETCH(tasks) (26 * ZC_AS(uint64_t, tasks))
#define ZC_POOLED_STRETCH(tasks) \
    (20 * ZC_AS(uint64_t, tasks) + 3 * (ZC_AS(uint64_t, tasks) * (ZC_AS(uint64_t, tasks) - 1) / 2))

/* Entries of lefts, rights, labels and next: rows 0 to slots (row 0 is null's, and unused). */
#define ZC_ROWS(slots) (ZC_AS(size_t, slots) + 1)
/* Entries of marks: bit n mod 64 of word n div 64 is set while slot n is taken. */
#define ZC_MARK_WORDS(slots) (ZC_AS(size_t, slots) / 64 + 1)

/* ---- Numbers ---------------------------------------------------------------------------- */

/* Sides. */
#define ZC_LEFT 0
#define ZC_RIGHT 1

/* Kinds of a call, in a record. */
#define ZC_PUSH 0
#define ZC_POP 1

/* Statuses of Anchor. Under RPUSH or LPUSH the last push at that side may lack its link back. */
#define ZC_STABLE 0
#define ZC_RPUSH 1
#define ZC_LPUSH 2

/* Codes of a zc_reply and of a zc_run_reply; those from 10 on are the numbers of refusals. */
#define ZC_RUNNING 1      /* the call goes on; value: the place of its next step */
#define ZC_PUSHED 2       /* the push is answered */
#define ZC_EMPTY 3        /* the pop is answered: nothing was waiting */
#define ZC_POPPED 4       /* the pop is answered; value: the slot, label: its label */
#define ZC_NO_FREE_SLOT 5 /* a pooled push is answered, nothing pushed: every slot was in use */

/* Refusals because of the input. */
#define ZC_BAD_TASKS 10
#define ZC_BAD_SLOTS 11
#define ZC_SHORT 12       /* see ZC_ROWS and ZC_MARK_WORDS; one record a task; next only if pooled */
#define ZC_NO_TASK 13     /* tasks are 0 to tasks - 1 */
#define ZC_NO_SIDE 14     /* sides are ZC_LEFT and ZC_RIGHT */
#define ZC_BAD_SLOT 15    /* slots are 1 to slots; 0 is null. Not ZC_NO_FREE_SLOT, the answer 5 */
#define ZC_NO_SLOT ZC_BAD_SLOT /* its name before 5.0.0, kept until version 6: the same number */
#define ZC_BAD_HISTORY 40 /* zc_audit: not a history that can be judged, see there */
#define ZC_NO_SHELF 43    /* zc_save, zc_return: shelves are 0 to 7 */
#define ZC_MANY_ASKED 45  /* zc_find: more than 32 labels asked for */
#define ZC_BAD_SHEET 46   /* over 32 labels or 128 rules, a label twice, a rule outside the list */

/* Refusals because of the state. */
#define ZC_BUSY 30  /* step the task to its answer first */
#define ZC_IDLE 31  /* start a push or a pop first */
#define ZC_TAKEN 32 /* name a slot whose mark is clear, see zc_marked */
/*
 * Tags are used up, after some four thousand million changes. 33 refuses every start, of pops too:
 * step the running calls to their answers and read out what waits (zc_queue_drain), open again,
 * which forgets it, and push it again (zc_queue_refill). examples/c/renew.c does so.
 */
#define ZC_WORN 33
/*
 * The contents of a table contradict each other; never after an opening, or a return to a shelf that
 * was so saved, and calls of this library alone, so somebody else wrote there, or the queue was never
 * opened. Four groups, each tested at its time:
 *  - control: tasks or slots outside their limits; pooled above 1; an Anchor with status 3, an end
 *    above slots, just one end null, or unstable with equal ends;
 *  - the record, if busy: place above 11, in a pooled queue above 17; kind, side or finishing above
 *    1; place 11 or 15 to 17 in a push, 12 to 14 in a pop; finishing in a pop or outside places 5
 *    to 10; own not 0 in a push at 12 to 14 or a pop at 1 to 11, not 1 to slots elsewhere;
 *    neighbour above slots; link with a set bit in 31-15 or a slot above slots, or with slot 0 at
 *    13 and 14; seen not a sound Anchor, or STABLE at places 5 to 10;
 *  - what the step touches: it needs a slot row outside 1 to slots; it meets, at 3, 5 or 7, a link
 *    word, or at 12 and 15 a head, with a set bit in 31-15 or a slot above slots (a push at 3: in
 *    its own slot), or at 13 a next above slots; it would make a change that leaves Anchor unsound
 *    or raises a tag past 32 bits;
 *  - the walk of the labels waiting, from one end: before the other end it meets slot 0, a link
 *    word with a set bit in 31-15 or a slot above slots, or more slots than exist.
 */
#define ZC_UNSOUND 34
#define ZC_WRONG_PUSH 41  /* zc_push is for queues opened by zc_open, zc_push_pooled for the other */
#define ZC_NOT_TWO 42     /* zc_next_schedule: tasks not 2, one of them idle, over four labels */
#define ZC_UNFILLED 44    /* zc_return: the shelf was never filled, its tasks are still 0 */
#define ZC_NOT_AT_REST 47 /* zc_join: a source is not at rest, or the third is not fresh */
#define ZC_CROWDED 48     /* zc_join: more labels than slots in the third */

/* ---- Types ------------------------------------------------------------------------------ */

/* What all tasks share besides the tables. Written by the openings, the steps, zc_return and zc_join. */
typedef struct zc_control {
    uint64_t tasks;
    uint64_t slots;
    uint64_t anchor; /* tag 63-32, status 31-30, left end 29-15, right end 14-0; end 0 is null */
    uint64_t pooled; /* 1 if opened by zc_open_pooled, else 0 */
    uint64_t head;   /* the free slot on top: tag 63-32, zero 31-15, slot 14-0; slot 0: none */
} zc_control;

/*
 * Where a task stands in its call, and its count of retries. An opening zeroes every field. A start
 * writes every field but the count, and an answer zeroes every field but the count: a task is idle
 * where its place is 0.
 */
typedef struct zc_record {
    uint64_t place;     /* 0 idle, or the place of the next step, 1 to 11, pooled to 17 */
    uint64_t kind;      /* ZC_PUSH or ZC_POP */
    uint64_t side;      /* ZC_LEFT or ZC_RIGHT */
    uint64_t own;       /* the slot of a push, or that a pop gives back (15 to 17); else 0 */
    uint32_t label;     /* its label; 4 bytes of padding follow, by which no call goes */
    uint64_t seen;      /* Anchor as read */
    uint64_t neighbour; /* the neighbour slot as read; at 14 the next of the slot on top */
    uint64_t link;      /* the link word as read; at 13 to 17 the head */
    uint64_t finishing; /* 1 once a push has taken effect and still has a link to mend */
    uint64_t retries;   /* this task's changes that failed because another was faster: each adds
                           one below ZC_MOST_RETRIES; an opening zeroes it, a return to a shelf
                           puts the saved count back, nothing else lowers it */
} zc_record;

/* What a start or a step answers. Label and value are 0 where the code gives them no meaning. */
typedef struct zc_reply {
    uint32_t code;  /* ZC_RUNNING to ZC_NO_FREE_SLOT, or the number of a refusal */
    uint32_t label; /* popped: the label */
    uint64_t value; /* running: the next place; popped: the slot */
} zc_reply;

/* What a run of steps answers: as zc_reply, and the steps made. */
typedef struct zc_run_reply {
    uint32_t code, label;
    uint64_t value;
    uint64_t steps; /* with a refusal 0 */
} zc_run_reply;

/* What the report tells. With a refusal every field but code is 0. */
typedef struct zc_report_reply {
    uint64_t code;                     /* 0, or the number of a refusal */
    uint64_t tag, status, left, right; /* the fields of Anchor */
    uint64_t busy;                     /* tasks with a call under way */
    uint64_t waiting;                  /* labels in the queue */
    uint64_t taken; /* marks set for slots 1 to slots, half-done calls included */
    uint64_t retries[ZC_MOST_TASKS]; /* of each record, in task order; 0 beyond the tasks */
} zc_report_reply;

/* Where labels wait. With a refusal every field but code is 0. */
typedef struct zc_find_reply {
    uint64_t code; /* 0, or the number of a refusal */
    uint64_t rows; /* rows read: the labels in the queue */
    /* Of each label asked for, in their order: from 1 at the left; 0 not waiting, or not asked for. */
    uint64_t positions[ZC_MOST_ASKED];
} zc_find_reply;

/* How many labels wait. With a refusal the count is 0. */
typedef struct zc_waiting_reply {
    uint64_t code; /* 0, or the number of a refusal */
    uint64_t count;
} zc_waiting_reply;

#ifdef __cplusplus
#define ZC_LAYOUT(fact) static_assert(fact, #fact)
#else
#define ZC_LAYOUT(fact) _Static_assert(fact, #fact)
#endif
ZC_LAYOUT(sizeof(zc_control) == 40);
ZC_LAYOUT(offsetof(zc_control, tasks) == 0 && offsetof(zc_control, slots) == 8);
ZC_LAYOUT(offsetof(zc_control, anchor) == 16 && offsetof(zc_control, pooled) == 24);
ZC_LAYOUT(offsetof(zc_control, head) == 32);
ZC_LAYOUT(sizeof(zc_record) == 80);
ZC_LAYOUT(offsetof(zc_record, place) == 0 && offsetof(zc_record, kind) == 8);
ZC_LAYOUT(offsetof(zc_record, side) == 16 && offsetof(zc_record, own) == 24);
ZC_LAYOUT(offsetof(zc_record, label) == 32 && offsetof(zc_record, seen) == 40);
ZC_LAYOUT(offsetof(zc_record, neighbour) == 48 && offsetof(zc_record, link) == 56);
ZC_LAYOUT(offsetof(zc_record, finishing) == 64 && offsetof(zc_record, retries) == 72);
ZC_LAYOUT(sizeof(zc_reply) == 16);
ZC_LAYOUT(offsetof(zc_reply, code) == 0 && offsetof(zc_reply, label) == 4);
ZC_LAYOUT(offsetof(zc_reply, value) == 8);
ZC_LAYOUT(sizeof(zc_run_reply) == 24);
ZC_LAYOUT(offsetof(zc_run_reply, code) == 0 && offsetof(zc_run_reply, label) == 4);
ZC_LAYOUT(offsetof(zc_run_reply, value) == 8 && offsetof(zc_run_reply, steps) == 16);
ZC_LAYOUT(sizeof(zc_report_reply) == 192);
ZC_LAYOUT(offsetof(zc_report_reply, code) == 0 && offsetof(zc_report_reply, tag) == 8);
ZC_LAYOUT(offsetof(zc_report_reply, status) == 16 && offsetof(zc_report_reply, left) == 24);
ZC_LAYOUT(offsetof(zc_report_reply, right) == 32 && offsetof(zc_report_reply, busy) == 40);
ZC_LAYOUT(offsetof(zc_report_reply, waiting) == 48 && offsetof(zc_report_reply, taken) == 56);
ZC_LAYOUT(offsetof(zc_report_reply, retries) == 64);
ZC_LAYOUT(sizeof(zc_find_reply) == 272);
ZC_LAYOUT(offsetof(zc_find_reply, code) == 0 && offsetof(zc_find_reply, rows) == 8);
ZC_LAYOUT(offsetof(zc_find_reply, positions) == 16);
ZC_LAYOUT(sizeof(zc_waiting_reply) == 16);
ZC_LAYOUT(offsetof(zc_waiting_reply, code) == 0 && offsetof(zc_waiting_reply, count) == 8);

/* ---- The calls ---------------------------------------------------------------------------
 * The tables always come last and in this order, each a pointer and its count of elements:
 * lefts and rights (link words: tag 63-32, zero 31-15, slot 14-0), labels, marks, and, but for
 * zc_open, zc_find, zc_waiting, zc_join and the order sheets, next. A table that a call only reads is
 * lent as const; a start leaves control as it was. The next table of a queue that was opened by
 * zc_open is not looked at, nor is its count: it may be null and 0.
 */

/*
 * Opens an empty, STABLE queue for `tasks` tasks, numbered from 0, and `slots` slots, numbered
 * from 1. `tag` is the first Anchor tag: any number, 0 if you have no reason for another.
 * Zeroes rows 0 to slots, `tasks` records with their counts, and the mark words; entries beyond
 * keep their values. What lay in control and tables before does not matter. Pushes name their slots.
 * Answers 0, or refuses: 10, 11, 12 (rows slots + 1, records tasks, mark words slots div 64 + 1).
 */
uint32_t zc_open(zc_control *control, zc_record *records, size_t record_count, uint64_t tasks,
                 uint64_t slots, uint32_t tag, uint64_t *lefts, size_t left_count, uint64_t *rights,
                 size_t right_count, uint32_t *labels, size_t label_count, uint64_t *marks,
                 size_t mark_count);

/*
 * The same, with all slots in a pool: the head is slot 1 with tag 0, and next leads from each slot
 * to the following one; rows 0 and slots of next are 0. Pushes take their slots from the pool.
 * Answers 0, or refuses: 10, 11, 12 (next too: slots + 1).
 */
uint32_t zc_open_pooled(zc_control *control, zc_record *records, size_t record_count,
                        uint64_t tasks, uint64_t slots, uint32_t tag, uint64_t *lefts,
                        size_t left_count, uint64_t *rights, size_t right_count, uint32_t *labels,
                        size_t label_count, uint64_t *marks, size_t mark_count, uint64_t *next,
                        size_t next_count);

/*
 * Starts a push for an idle task in a queue opened by zc_open: `label`, any number, in `slot`, at
 * the end `side`. The slot must be free (its mark clear); it is taken from now until the pop of its
 * label answers.
 * Writes the record but its count, the slot's label and its mark; the queue itself moves by steps
 * only.
 * Answers running at place 1, or refuses: 34 for control, 12, 13, 14, 41, 15, 34 for the record,
 * 30, 32, 33.
 */
zc_reply zc_push(zc_control *control, zc_record *records, size_t record_count, size_t task,
                 uint64_t side, uint64_t slot, uint32_t label, const uint64_t *lefts,
                 size_t left_count, const uint64_t *rights, size_t right_count, uint32_t *labels,
                 size_t label_count, uint64_t *marks, size_t mark_count, const uint64_t *next,
                 size_t next_count);

/*
 * Starts a push for an idle task in a pooled queue. Its first steps take a slot from the pool; where
 * there is none, at first or after others took what it saw, a step answers ZC_NO_FREE_SLOT, and
 * nothing is pushed: every slot then waited, or was held by a push or a pop half done. Start again
 * once a pop has answered.
 * Writes the record but its count, and nothing else.
 * Answers running at place 12, or refuses: 34 for control, 12, 13, 14, 41, 34 for the record, 30,
 * 33.
 */
zc_reply zc_push_pooled(zc_control *control, zc_record *records, size_t record_count, size_t task,
                        uint64_t side, uint32_t label, const uint64_t *lefts, size_t left_count,
                        const uint64_t *rights, size_t right_count, const uint32_t *labels,
                        size_t label_count, const uint64_t *marks, size_t mark_count,
                        const uint64_t *next, size_t next_count);

/*
 * Starts a pop for an idle task at the end `side`. Writes the record but its count, and nothing
 * else.
 * Answers running at place 1, or refuses: 34 for control, 12, 13, 14, 34 for the record, 30, 33.
 */
zc_reply zc_pop(zc_control *control, zc_record *records, size_t record_count, size_t task,
                uint64_t side, const uint64_t *lefts, size_t left_count, const uint64_t *rights,
                size_t right_count, const uint32_t *labels, size_t label_count,
                const uint64_t *marks, size_t mark_count, const uint64_t *next, size_t next_count);

/*
 * Moves a busy task by one step. Step it again as long as the answer is running; with any other
 * code below 10 the call is over and the task idle.
 * Writes its record and at most one of: Anchor, the head, a link word, a next, a mark. A change that
 * failed writes the record alone, and is counted there. One step writes more: at 14 a push takes the
 * slot on top and sets its mark and label together with the head.
 * Refuses: 34 for control, 12, 13, 34 for the record, 31, 34 for what the step touches.
 */
zc_reply zc_step(zc_control *control, zc_record *records, size_t record_count, size_t task,
                 uint64_t *lefts, size_t left_count, uint64_t *rights, size_t right_count,
                 uint32_t *labels, size_t label_count, uint64_t *marks, size_t mark_count,
                 uint64_t *next, size_t next_count);

/*
 * The same step on one lent record, which need not lie among the others: it answers, and leaves
 * record and tables, as zc_step does with this record in its task's row. A failed change is counted
 * in this record.
 * Refuses: 34 for control, 12 (not for records), 34 for the record, 31, 34 for what the step
 * touches.
 */
zc_reply zc_step_record(zc_control *control, zc_record *one, uint64_t *lefts, size_t left_count,
                        uint64_t *rights, size_t right_count, uint32_t *labels, size_t label_count,
                        uint64_t *marks, size_t mark_count, uint64_t *next, size_t next_count);

/*
 * Steps a task until a step does not answer running, `most` times at the most, and answers as the
 * last step did. With `most` steps made the answer is running at the task's place. In a queue that
 * these calls alone wrote to, ZC_PUSH_STEPS or ZC_POP_STEPS are enough, in a pooled one
 * ZC_POOLED_PUSH_STEPS or ZC_POOLED_POP_STEPS, which is proved.
 * Refuses what the first step is refused by, or would be with `most` 0, and then changes nothing. In
 * a queue that somebody else wrote to, a later step may be refused: it is not made, and the answer is
 * running at the task's place, with fewer `steps` than `most`.
 */
zc_run_reply zc_run(zc_control *control, zc_record *records, size_t record_count, size_t task,
                    uint64_t most, uint64_t *lefts, size_t left_count, uint64_t *rights,
                    size_t right_count, uint32_t *labels, size_t label_count, uint64_t *marks,
                    size_t mark_count, uint64_t *next, size_t next_count);

/*
 * Tells Anchor's fields, the number of busy tasks, the labels waiting, the slots taken, and the
 * retries of each task; entries beyond the tasks are 0, however many records are lent.
 * Writes nothing; of the records it looks at places and counts. It walks the queue from end to end:
 * its work grows with the labels waiting.
 * Answers code 0, or refuses: 34 for control, 12, 34 for the walk.
 */
zc_report_reply zc_report(const zc_control *control, const zc_record *records, size_t record_count,
                          const uint64_t *lefts, size_t left_count, const uint64_t *rights,
                          size_t right_count, const uint32_t *labels, size_t label_count,
                          const uint64_t *marks, size_t mark_count, const uint64_t *next,
                          size_t next_count);

/*
 * Finds up to 32 labels in the queue, equal ones among them, in one walk that reads each waiting
 * slot's row once. Of equal labels in the queue the leftmost counts. Writes nothing, and looks at no
 * records.
 * Answers code 0, or refuses: 34 for control, 45, 12 (rows and marks only), 34 for the walk.
 */
zc_find_reply zc_find(const zc_control *control, const uint32_t *asked, size_t asked_count,
                      const uint64_t *lefts, size_t left_count, const uint64_t *rights,
                      size_t right_count, const uint32_t *labels, size_t label_count,
                      const uint64_t *marks, size_t mark_count);

/*
 * Writes the labels waiting, from left to right, with their slots: slots_out gets the slots,
 * labels_out the labels, one entry each for each label; entries beyond keep their values. The two
 * lie apart from the other tables. Looks at no records.
 * The walk goes from the right end along Left links or, under LPUSH, from the left end along Right
 * links: only at the end that the status names may the link back be unfinished. A queue that was
 * written by the calls alone has every label on the walk.
 * Answers code 0 and the count, or refuses: 34 for control, 12 (rows and marks only), 34 for the
 * walk, 12 for slots_out or labels_out shorter than what waits (slots entries are always enough).
 * A refusal writes nothing.
 */
zc_waiting_reply zc_waiting(const zc_control *control, uint64_t *slots_out, size_t slots_out_count,
                            uint32_t *labels_out, size_t labels_out_count, const uint64_t *lefts,
                            size_t left_count, const uint64_t *rights, size_t right_count,
                            const uint32_t *labels, size_t label_count, const uint64_t *marks,
                            size_t mark_count);

/* ---- An answer taken apart --------------------------------------------------------------- */

/* Whether a code, of whichever call, is the number of a refusal. */
static inline int zc_is_refusal(uint64_t code) { return code >= ZC_BAD_TASKS; }

static inline int zc_refused(zc_reply reply) { return zc_is_refusal(reply.code); }

/* The number of the refusal; 0 if the call was carried out. */
static inline uint32_t zc_refusal(zc_reply reply) { return zc_refused(reply) ? reply.code : 0; }

/* Pushed, empty, popped or no free slot: the task is idle again. */
static inline int zc_answered(zc_reply reply)
{
    return reply.code >= ZC_PUSHED && reply.code <= ZC_NO_FREE_SLOT;
}

/* The place of the next step; 0 unless running. */
static inline uint64_t zc_place(zc_reply reply)
{
    return reply.code == ZC_RUNNING ? reply.value : 0;
}

/* The slot that was popped; 0 unless popped. */
static inline uint64_t zc_slot(zc_reply reply) { return reply.code == ZC_POPPED ? reply.value : 0; }

/* The label that was popped. Any number is a label, so look at the code first. */
static inline uint32_t zc_label(zc_reply reply) { return reply.label; }

/* A refusal in words. */
static inline const char *zc_refusal_text(uint64_t number)
{
    switch (number) {
    case ZC_BAD_TASKS: return "tasks not 1 to 16";
    case ZC_BAD_SLOTS: return "slots not 1 to 1,023";
    case ZC_SHORT: return "a lent table is too short";
    case ZC_NO_TASK: return "no such task";
    case ZC_NO_SIDE: return "side not 0 or 1";
    case ZC_BAD_SLOT: return "slot not 1 to slots";
    case ZC_BUSY: return "the task is busy";
    case ZC_IDLE: return "the task is idle";
    case ZC_TAKEN: return "the slot is taken";
    case ZC_WORN: return "the Anchor tag is too high for another start";
    case ZC_UNSOUND: return "the tables are unsound";
    case ZC_BAD_HISTORY: return "not a history that can be judged";
    case ZC_WRONG_PUSH: return "a slot named in a pooled queue, or none in the other";
    case ZC_NOT_TWO: return "not two busy tasks, or over four labels waiting";
    case ZC_NO_SHELF: return "shelf not 0 to 7";
    case ZC_UNFILLED: return "the shelf was never filled";
    case ZC_MANY_ASKED: return "more than 32 labels asked for";
    case ZC_BAD_SHEET: return "the sheet is malformed";
    case ZC_NOT_AT_REST: return "a queue is not at rest, or the third is not fresh";
    case ZC_CROWDED: return "more labels than slots in the third queue";
    default: return "not a refusal";
    }
}

/* ---- Words taken apart ------------------------------------------------------------------- */

static inline uint64_t zc_anchor_tag(uint64_t anchor) { return anchor >> 32; }
static inline uint64_t zc_anchor_status(uint64_t anchor) { return anchor >> 30 & 3; }
static inline uint64_t zc_anchor_left(uint64_t anchor) { return anchor >> 15 & 0x7fff; }
static inline uint64_t zc_anchor_right(uint64_t anchor) { return anchor & 0x7fff; }
static inline uint64_t zc_link_tag(uint64_t link) { return link >> 32; }
static inline uint64_t zc_link_slot(uint64_t link) { return link & 0x7fff; }

/* Whether a slot, 1 to slots, is taken. */
static inline int zc_marked(const uint64_t *marks, uint64_t slot)
{
    return ZC_AS(int, marks[slot / 64] >> (slot % 64) & 1);
}

/* ---- The tables named once ----------------------------------------------------------------
 * The same calls for a caller who keeps the pointers and counts together. These wrappers and helpers
 * are plain C over the calls, or over tables that they only read; the duties are those of the calls,
 * one at a time among them.
 */
typedef struct zc_queue {
    zc_control *control;
    zc_record *records;
    size_t record_count;
    uint64_t *lefts;
    size_t left_count;
    uint64_t *rights;
    size_t right_count;
    uint32_t *labels;
    size_t label_count;
    uint64_t *marks;
    size_t mark_count;
    uint64_t *next; /* of a pooled queue; else null and 0 will do */
    size_t next_count;
} zc_queue;

/*
 * Declares the tables of a queue and the zc_queue `name` that lends them, all static and as long as
 * `tasks` and `slots`, two constants, ask for. The tables are name_tables.labels and so on; what
 * they take is sizeof name_tables. Open the queue before use, pooled or not; one that will never be
 * pooled needs no next table, and ZC_NAMED_STORAGE leaves it out.
 */
#define ZC_QUEUE_STORAGE(name, tasks, slots)                                                       \
    ZC_STORAGE(name, tasks, slots, uint64_t next[ZC_ROWS(slots)];                                  \
               , name##_tables.next, ZC_ROWS(slots))
#define ZC_NAMED_STORAGE(name, tasks, slots) ZC_STORAGE(name, tasks, slots, , NULL, 0)

/* Both of these; the next table is declared, lent and counted by the last three. */
#define ZC_STORAGE(name, tasks, slots, declared, lent, count)                                      \
    ZC_LAYOUT((tasks) >= 1 && (tasks) <= ZC_MOST_TASKS);                                           \
    ZC_LAYOUT((slots) >= 1 && (slots) <= ZC_MOST_SLOTS);                                           \
    static struct {                                                                                \
        zc_control control;                                                                        \
        zc_record records[tasks];                                                                  \
        uint64_t lefts[ZC_ROWS(slots)], rights[ZC_ROWS(slots)], marks[ZC_MARK_WORDS(slots)];       \
        declared uint32_t labels[ZC_ROWS(slots)];                                                  \
    } name##_tables;                                                                               \
    static const zc_queue name = {                                                                 \
        &name##_tables.control, name##_tables.records, (tasks),                                    \
        name##_tables.lefts,    ZC_ROWS(slots),        name##_tables.rights, ZC_ROWS(slots),       \
        name##_tables.labels,   ZC_ROWS(slots),        name##_tables.marks,  ZC_MARK_WORDS(slots), \
        lent,                   count,                                                             \
    }

#define ZC_ROW_TABLES(queue)                                                                       \
    (queue)->lefts, (queue)->left_count, (queue)->rights, (queue)->right_count, (queue)->labels,   \
        (queue)->label_count, (queue)->marks, (queue)->mark_count
#define ZC_TABLES(queue) ZC_ROW_TABLES(queue), (queue)->next, (queue)->next_count

static inline uint32_t zc_queue_open(const zc_queue *queue, uint64_t tasks, uint64_t slots,
                                     uint32_t tag)
{
    return zc_open(queue->control, queue->records, queue->record_count, tasks, slots, tag,
                   ZC_ROW_TABLES(queue));
}

static inline uint32_t zc_queue_open_pooled(const zc_queue *queue, uint64_t tasks, uint64_t slots,
                                            uint32_t tag)
{
    return zc_open_pooled(queue->control, queue->records, queue->record_count, tasks, slots, tag,
                          ZC_TABLES(queue));
}

static inline zc_reply zc_queue_push(const zc_queue *queue, size_t task, uint64_t side,
                                     uint64_t slot, uint32_t label)
{
    return zc_push(queue->control, queue->records, queue->record_count, task, side, slot, label,
                   ZC_TABLES(queue));
}

static inline zc_reply zc_queue_push_pooled(const zc_queue *queue, size_t task, uint64_t side,
                                            uint32_t label)
{
    return zc_push_pooled(queue->control, queue->records, queue->record_count, task, side, label,
                          ZC_TABLES(queue));
}

static inline zc_reply zc_queue_pop(const zc_queue *queue, size_t task, uint64_t side)
{
    return zc_pop(queue->control, queue->records, queue->record_count, task, side,
                  ZC_TABLES(queue));
}

static inline zc_reply zc_queue_step(const zc_queue *queue, size_t task)
{
    return zc_step(queue->control, queue->records, queue->record_count, task, ZC_TABLES(queue));
}

/*
 * ZC_CORE_ONLY, defined before this header, leaves out the wrappers of all but the openings, the
 * starts, zc_step and zc_report: for one who links an archive of these alone (`rt lib` in crates/capi_c)
 * with a compiler that keeps unused inline functions.
 */
#ifndef ZC_CORE_ONLY
static inline zc_reply zc_queue_step_record(const zc_queue *queue, zc_record *one)
{
    return zc_step_record(queue->control, one, ZC_TABLES(queue));
}

static inline zc_run_reply zc_queue_run(const zc_queue *queue, size_t task, uint64_t most)
{
    return zc_run(queue->control, queue->records, queue->record_count, task, most,
                  ZC_TABLES(queue));
}

static inline zc_find_reply zc_queue_find(const zc_queue *queue, const uint32_t *asked,
                                          size_t asked_count)
{
    return zc_find(queue->control, asked, asked_count, ZC_ROW_TABLES(queue));
}

/* Both tables have `most` entries, and get the slots and the labels that wait, from left to right. */
static inline zc_waiting_reply zc_queue_waiting(const zc_queue *queue, uint64_t *slots,
                                                uint32_t *labels, size_t most)
{
    return zc_waiting(queue->control, slots, most, labels, most, ZC_ROW_TABLES(queue));
}
#endif

static inline zc_report_reply zc_queue_report(const zc_queue *queue)
{
    return zc_report(queue->control, queue->records, queue->record_count, ZC_TABLES(queue));
}

/* A slot to name in a push: no label and no call holds it; 0 if all are taken. */
static inline uint64_t zc_queue_free_slot(const zc_queue *queue)
{
    for (size_t word = 0; word < queue->mark_count; word++) {
        uint64_t clear = ~queue->marks[word];
        uint64_t slot = ZC_AS(uint64_t, word) * 64;
        if (word == 0)
            clear &= ~UINT64_C(1); /* slot 0 is null */
        for (; clear != 0; clear >>= 1, slot++)
            if (clear & 1)
                return slot <= queue->control->slots ? slot : 0;
    }
    return 0;
}

/*
 * Steps one task, alone, until it answers, and gives that answer; a refusal if the task was idle
 * (31) or the tables are not those of an open queue; running if it has not answered after
 * ZC_POOLED_PUSH_STEPS steps, which does not happen in a queue that was written by the calls alone.
 */
static inline zc_reply zc_queue_finish(const zc_queue *queue, size_t task)
{
    zc_reply reply = zc_queue_step(queue, task);
    for (int step = 1; step < ZC_POOLED_PUSH_STEPS && reply.code == ZC_RUNNING; step++)
        reply = zc_queue_step(queue, task);
    return reply;
}

#ifndef ZC_CORE_ONLY
/*
 * Brings an open queue to rest and reads it out, as 33 asks for. Steps every busy task to its answer
 * and writes that to answers[task], code 0 where no call was under way: a popped label is nowhere else.
 * Then writes the labels waiting and their slots as zc_queue_waiting does, and answers so: they wait
 * still, until the queue is opened again.
 * `answers` has room for each record, `slots` and `labels` for as many entries as control has slots
 * (up to 1,023 where somebody else wrote there), all apart from the tables.
 */
static inline zc_waiting_reply zc_queue_drain(const zc_queue *queue, zc_reply *answers,
                                              uint64_t *slots, uint32_t *labels)
{
    const zc_reply none = {0, 0, 0};
    for (size_t task = 0; task < queue->record_count; task++) {
        int busy = task < queue->control->tasks && queue->records[task].place != 0;
        answers[task] = busy ? zc_queue_finish(queue, task) : none;
    }
    return zc_queue_waiting(queue, slots, labels, ZC_AS(size_t, queue->control->slots));
}
#endif

/*
 * Pushes `count` labels at the right, in this order, into free slots, by a task that is idle and
 * stepped alone, in either kind of queue. Answers 0, or the first refusal (32 where no slot is
 * free), after which the labels before it are in the queue.
 */
static inline uint32_t zc_queue_refill(const zc_queue *queue, size_t task, const uint32_t *labels,
                                       size_t count)
{
    for (size_t at = 0; at < count; at++) {
        uint64_t slot = queue->control->pooled ? 0 : zc_queue_free_slot(queue);
        if (slot == 0 && !queue->control->pooled)
            return ZC_TAKEN;
        zc_reply reply = slot == 0 ? zc_queue_push_pooled(queue, task, ZC_RIGHT, labels[at])
                                   : zc_queue_push(queue, task, ZC_RIGHT, slot, labels[at]);
        if (!zc_refused(reply))
            reply = zc_queue_finish(queue, task);
        if (reply.code == ZC_NO_FREE_SLOT)
            return ZC_TAKEN;
        if (reply.code != ZC_PUSHED)
            return zc_refused(reply) ? reply.code : ZC_UNSOUND;
    }
    return 0;
}

/* ---- Histories ---------------------------------------------------------------------------
 * What another controller did, checked afterwards: its calls with their answers, and the order in
 * which it claims that they took effect. No queue is needed, and nothing is written.
 */

#define ZC_MOST_CALLS 64

/* A finished call: seven words, no padding. An event is any number; a later event has a larger one. */
typedef struct zc_finished {
    uint64_t task;   /* any number; it is told, and decides nothing */
    uint64_t kind;   /* ZC_PUSH or ZC_POP */
    uint64_t side;   /* ZC_LEFT or ZC_RIGHT */
    uint64_t label;  /* the label pushed or popped; unused with ZC_EMPTY */
    uint64_t answer; /* ZC_PUSHED, ZC_EMPTY or ZC_POPPED */
    uint64_t start;  /* the event of its start */
    uint64_t end;    /* the event of its answer */
} zc_finished;

/* Codes of a zc_verdict. Any other code is the number of a refusal. */
#define ZC_PASSES 0
#define ZC_FAILS 1 /* position: the first wrong one, from 1; 0 if the order is no rearrangement */

typedef struct zc_verdict {
    uint32_t code;     /* ZC_PASSES, ZC_FAILS, or the number of a refusal */
    uint32_t position; /* 0 unless ZC_FAILS */
} zc_verdict;

ZC_LAYOUT(sizeof(zc_finished) == 56);
ZC_LAYOUT(offsetof(zc_finished, task) == 0 && offsetof(zc_finished, kind) == 8);
ZC_LAYOUT(offsetof(zc_finished, side) == 16 && offsetof(zc_finished, label) == 24);
ZC_LAYOUT(offsetof(zc_finished, answer) == 32 && offsetof(zc_finished, start) == 40);
ZC_LAYOUT(offsetof(zc_finished, end) == 48);
ZC_LAYOUT(sizeof(zc_verdict) == 8);
ZC_LAYOUT(offsetof(zc_verdict, code) == 0 && offsetof(zc_verdict, position) == 4);

/*
 * Checks a history of 0 to 64 finished calls of a queue that was empty at first. `order` is the
 * claimed order of effects: the calls' numbers, from 1. The history passes if the order names every
 * call once, no call comes before one that was answered before it started, and a plain queue that
 * serves the calls in that order gives each its answer. Else the first position of the order is
 * told whose call has another answer or stands before a call answered before its start; 0 if the
 * order is not a rearrangement of the calls.
 * Every history of a queue of this library with at most 64 calls, all answered and none of them
 * ZC_NO_FREE_SLOT, passes, its effects being the steps that move an end of Anchor and those that
 * answer empty. A push that was answered ZC_NO_FREE_SLOT is left out: here that answer is unknown
 * (40).
 * Refuses: 40 (over 64 calls; an answer event not after its start; two events equal; a kind, side
 * or answer unknown). Nothing in the order is refused.
 *
 * The calls are lent as words, seven each in the order of zc_finished; a rest of fewer is no call.
 */
zc_verdict zc_audit_words(const uint64_t *words, size_t word_count, const uint64_t *order,
                          size_t order_count);

#ifndef ZC_CORE_ONLY
static inline zc_verdict zc_audit(const zc_finished *calls, size_t call_count,
                                  const uint64_t *order, size_t order_count)
{
    return zc_audit_words(ZC_WORDS(const uint64_t, calls), 7 * call_count, order, order_count);
}
#endif

/* ---- The order sheet ---------------------------------------------------------------------
 * A sheet lists up to 32 different labels, and up to 128 rules on their places in the list, from 1:
 * the label at one place prints before the label at another. Rules chain, also through labels that
 * aren't waiting. Nothing of a queue is written.
 */
#define ZC_MOST_LISTED 32
#define ZC_MOST_RULES 128
#define ZC_SHEET_WORDS 32 /* that zc_sheet_words is lent */

/* Whether a sheet is kept: both places are 0, else they are the first broken pair's in the list. */
typedef struct zc_sheet_reply {
    uint64_t code; /* 0, or the number of a refusal; the rest is then 0 */
    uint64_t first, second;
} zc_sheet_reply;
ZC_LAYOUT(sizeof(zc_sheet_reply) == 24 && offsetof(zc_sheet_reply, code) == 0);
ZC_LAYOUT(offsetof(zc_sheet_reply, first) == 8 && offsetof(zc_sheet_reply, second) == 16);

/* The rule that the label at place `first` prints before the one at `second`. A place above 65,535
 * becomes 0, which is outside every list. */
static inline uint32_t zc_rule(uint64_t first, uint64_t second)
{
    return ZC_AS(uint32_t, first > 65535 ? 0 : first) << 16 |
           ZC_AS(uint32_t, second > 65535 ? 0 : second);
}

/*
 * Whether the labels waiting keep the sheet. A chained pair is broken when any copy of the second
 * waits left of any copy of the first; a label chained to itself as soon as it waits. Of several
 * broken pairs the one with the smallest first place, then the smallest second, is answered.
 * Writes nothing, and looks at no records.
 * Answers code 0, or refuses: 34 for control, 46, 12 (rows and marks only), 34 for the walk.
 */
zc_sheet_reply zc_sheet(const zc_control *control, const uint32_t *listed, size_t listed_count,
                        const uint32_t *rules, size_t rule_count, const uint64_t *lefts,
                        size_t left_count, const uint64_t *rights, size_t right_count,
                        const uint32_t *labels, size_t label_count, const uint64_t *marks,
                        size_t mark_count);

/*
 * The same with 32 lent words for the chained rules in place of a square on the stack: it answers
 * as zc_sheet does. With code 0, kept or broken, bit b of word a is then set exactly if place a + 1
 * is chained before place b + 1, and all other bits of the 32 words are clear; words beyond keep. A
 * refusal leaves the words.
 * Answers code 0, or refuses: 34 for control, 46, 12 (fewer than 32 words too), 34 for the walk.
 */
zc_sheet_reply zc_sheet_words(const zc_control *control, const uint32_t *listed,
                              size_t listed_count, const uint32_t *rules, size_t rule_count,
                              uint32_t *words, size_t word_count, const uint64_t *lefts,
                              size_t left_count, const uint64_t *rights, size_t right_count,
                              const uint32_t *labels, size_t label_count, const uint64_t *marks,
                              size_t mark_count);

#ifndef ZC_CORE_ONLY
static inline zc_sheet_reply zc_queue_sheet(const zc_queue *queue, const uint32_t *listed,
                                            size_t listed_count, const uint32_t *rules,
                                            size_t rule_count)
{
    return zc_sheet(queue->control, listed, listed_count, rules, rule_count, ZC_ROW_TABLES(queue));
}

static inline zc_sheet_reply zc_queue_sheet_words(const zc_queue *queue, const uint32_t *listed,
                                                  size_t listed_count, const uint32_t *rules,
                                                  size_t rule_count, uint32_t *words,
                                                  size_t word_count)
{
    return zc_sheet_words(queue->control, listed, listed_count, rules, rule_count, words,
                          word_count, ZC_ROW_TABLES(queue));
}
#endif

/* ---- Shelves ------------------------------------------------------------------------------
 * Before a changeover the line saves its queue, and may go back to it: eight shelves, 0 to 7, each a
 * lent copy of control, records, rows, marks and, of a pooled queue, next table. Lend them with every
 * entry zero at first, and let only zc_save write them.
 *
 * Shelves are lent as flat tables. Each is cut into eight equal parts of count div 8 entries, and
 * shelf n is part n: in C an array of eight arrays. Controls are one a shelf, eight of them.
 */
#define ZC_SHELVES 8

/*
 * Saves a queue on a shelf, and overwrites what lies there: control, with the head; `tasks` records
 * whole, half-done calls and retries with them; rows 0 to slots; mark words 0 to slots div 64; rows 0
 * to slots of next if the queue is pooled. All other entries keep their values: those beyond, those
 * of the other shelves, and next of a queue with named slots, whose length does not matter either.
 * The queue is only read. Neither its records nor its links are looked at.
 *
 * Answers 0, or refuses: 34 for control, 43, 12 (the queue's tables or the shelf's, by this control;
 * fewer than eight controls). A refusal changes nothing. With named slots both next tables may be null.
 */
uint32_t zc_save(const zc_control *control, const zc_record *records, size_t record_count,
                 zc_control *shelf_controls, size_t shelf_control_count, zc_record *shelf_records,
                 size_t shelf_record_count, uint64_t shelf, const uint64_t *lefts,
                 size_t left_count, const uint64_t *rights, size_t right_count,
                 const uint32_t *labels, size_t label_count, const uint64_t *marks,
                 size_t mark_count, const uint64_t *next, size_t next_count, uint64_t *shelf_lefts,
                 size_t shelf_left_count, uint64_t *shelf_rights, size_t shelf_right_count,
                 uint32_t *shelf_labels, size_t shelf_label_count, uint64_t *shelf_marks,
                 size_t shelf_mark_count, uint64_t *shelf_next, size_t shelf_next_count);

/*
 * Puts the queue that lies on a shelf back, its tasks, slots and way of opening too: the same
 * entries, the other way. What the queue's tables held before does not matter, nor does its control:
 * it need not be open. The shelf keeps its copy. Calls that were half done at the saving are so again;
 * what was answered between the saving and the return is then no part of the queue's history, nor
 * does a stretch of ZC_STRETCH or ZC_POOLED_STRETCH span a return.
 *
 * Answers 0, or refuses: 43, 44, 34 for the shelf's control, 12 (by the shelf's control; fewer than
 * eight controls, of which one that is not lent reads as zero: 44). A refusal changes nothing.
 */
uint32_t zc_return(zc_control *control, zc_record *records, size_t record_count,
                   const zc_control *shelf_controls, size_t shelf_control_count,
                   const zc_record *shelf_records, size_t shelf_record_count, uint64_t shelf,
                   uint64_t *lefts, size_t left_count, uint64_t *rights, size_t right_count,
                   uint32_t *labels, size_t label_count, uint64_t *marks, size_t mark_count,
                   uint64_t *next, size_t next_count, const uint64_t *shelf_lefts,
                   size_t shelf_left_count, const uint64_t *shelf_rights, size_t shelf_right_count,
                   const uint32_t *shelf_labels, size_t shelf_label_count,
                   const uint64_t *shelf_marks, size_t shelf_mark_count,
                   const uint64_t *shelf_next, size_t shelf_next_count);

/* The shelves' tables named once. */
typedef struct zc_shelves {
    zc_control *controls;
    size_t control_count;
    zc_record *records;
    size_t record_count;
    uint64_t *lefts;
    size_t left_count;
    uint64_t *rights;
    size_t right_count;
    uint32_t *labels;
    size_t label_count;
    uint64_t *marks;
    size_t mark_count;
    uint64_t *next; /* for pooled queues; else null and 0 will do */
    size_t next_count;
} zc_shelves;

/*
 * Declares the tables of eight shelves and the zc_shelves `name` that lends them, all static, zero at
 * first and as long as queues of `tasks` and `slots`, two constants, ask for; shorter queues fit too.
 * Shelf n is name_tables.lefts[n] and so on. ZC_NAMED_SHELF_STORAGE leaves out the next table.
 */
#define ZC_SHELF_STORAGE(name, tasks, slots)                                                       \
    ZC_SHELVES_OF(name, tasks, slots, uint64_t next[ZC_SHELVES][ZC_ROWS(slots)];                   \
                  , name##_tables.next[0], ZC_SHELVES * ZC_ROWS(slots))
#define ZC_NAMED_SHELF_STORAGE(name, tasks, slots) ZC_SHELVES_OF(name, tasks, slots, , NULL, 0)

/* Both of these; the next table is declared, lent and counted by the last three. */
#define ZC_SHELVES_OF(name, tasks, slots, declared, lent, count)                                   \
    ZC_LAYOUT((tasks) >= 1 && (tasks) <= ZC_MOST_TASKS);                                           \
    ZC_LAYOUT((slots) >= 1 && (slots) <= ZC_MOST_SLOTS);                                           \
    static struct {                                                                                \
        zc_control controls[ZC_SHELVES];                                                           \
        zc_record records[ZC_SHELVES][tasks];                                                      \
        uint64_t lefts[ZC_SHELVES][ZC_ROWS(slots)], rights[ZC_SHELVES][ZC_ROWS(slots)];            \
        uint64_t marks[ZC_SHELVES][ZC_MARK_WORDS(slots)];                                          \
        declared uint32_t labels[ZC_SHELVES][ZC_ROWS(slots)];                                      \
    } name##_tables;                                                                               \
    static const zc_shelves name = {                                                               \
        name##_tables.controls,  ZC_SHELVES,                                                       \
        name##_tables.records[0], ZC_SHELVES * (tasks),                                            \
        name##_tables.lefts[0],  ZC_SHELVES * ZC_ROWS(slots),                                      \
        name##_tables.rights[0], ZC_SHELVES * ZC_ROWS(slots),                                      \
        name##_tables.labels[0], ZC_SHELVES * ZC_ROWS(slots),                                      \
        name##_tables.marks[0],  ZC_SHELVES * ZC_MARK_WORDS(slots),                                \
        lent, count,                                                                               \
    }

#ifndef ZC_CORE_ONLY
#define ZC_SHELF_TABLES(shelves)                                                                   \
    (shelves)->lefts, (shelves)->left_count, (shelves)->rights, (shelves)->right_count,            \
        (shelves)->labels, (shelves)->label_count, (shelves)->marks, (shelves)->mark_count,        \
        (shelves)->next, (shelves)->next_count

static inline uint32_t zc_queue_save(const zc_queue *queue, const zc_shelves *shelves,
                                     uint64_t shelf)
{
    return zc_save(queue->control, queue->records, queue->record_count, shelves->controls,
                   shelves->control_count, shelves->records, shelves->record_count, shelf,
                   ZC_TABLES(queue), ZC_SHELF_TABLES(shelves));
}

static inline uint32_t zc_queue_return(const zc_queue *queue, const zc_shelves *shelves,
                                       uint64_t shelf)
{
    return zc_return(queue->control, queue->records, queue->record_count, shelves->controls,
                     shelves->control_count, shelves->records, shelves->record_count, shelf,
                     ZC_TABLES(queue), ZC_SHELF_TABLES(shelves));
}
#endif

/* ---- Two lanes into one ------------------------------------------------------------------
 * When a lane closes, its queue joins its neighbour's in a third queue.
 */

/*
 * Joins the first queue and the second in the third: of the two leftmost labels remaining the
 * smaller goes next, the first queue's on a tie, into slots 1, 2 and so on. The third's tables end
 * as if its task 0 had pushed each at the right, alone; with no labels nothing changes. Each queue
 * keeps its own order, and two ascending queues give an ascending one.
 *
 * Both sources must be at rest: no busy task, STABLE. They are only read, may be pooled, and may be
 * the same tables. The third must be fresh, as zc_open leaves it: with named slots, empty, at rest,
 * and zero in rows 0 to slots and in the whole mark words of these; its tag and retries are free.
 * It shares no table with a source. While the labels are merged its link tables hold other words.
 *
 * Of a source neither marks nor next are lent. Answers 0, or refuses: 34 for the three controls, 12
 * (records and rows of all three, marks of the third), 34 for the two walks, 47, 48, 33 (if one of the
 * pushes would meet it). A refusal changes nothing.
 */
uint32_t zc_join(const zc_control *first, const zc_record *first_records, size_t first_record_count,
                 const zc_control *second, const zc_record *second_records,
                 size_t second_record_count, zc_control *third, zc_record *third_records,
                 size_t third_record_count, const uint64_t *first_lefts, size_t first_left_count,
                 const uint64_t *first_rights, size_t first_right_count,
                 const uint32_t *first_labels, size_t first_label_count,
                 const uint64_t *second_lefts, size_t second_left_count,
                 const uint64_t *second_rights, size_t second_right_count,
                 const uint32_t *second_labels, size_t second_label_count, uint64_t *lefts,
                 size_t left_count, uint64_t *rights, size_t right_count, uint32_t *labels,
                 size_t label_count, uint64_t *marks, size_t mark_count);

#ifndef ZC_CORE_ONLY
static inline uint32_t zc_queue_join(const zc_queue *first, const zc_queue *second,
                                     const zc_queue *third)
{
    return zc_join(first->control, first->records, first->record_count, second->control,
                   second->records, second->record_count, third->control, third->records,
                   third->record_count, first->lefts, first->left_count, first->rights,
                   first->right_count, first->labels, first->label_count, second->lefts,
                   second->left_count, second->rights, second->right_count, second->labels,
                   second->label_count, ZC_ROW_TABLES(third));
}
#endif

/* ---- Every order for two tasks -----------------------------------------------------------
 * A schedule is a list of task numbers, 0 or 1: the order in which two half-done calls are stepped.
 * It ends when both calls are answered, after 48 steps, or with a step that is refused 34.
 */
#define ZC_MOST_SCHEDULE 48
#define ZC_SCHEDULE_WORDS 49 /* that zc_next_schedule is lent */

#define ZC_BOTH_ANSWERED 0 /* endings of a schedule */
#define ZC_CUT 1           /* a call is unanswered after 48 steps */
#define ZC_STOPPED 2       /* its last step is refused 34 */
#define ZC_NO_MORE 3       /* the last schedule was handed out before */

typedef struct zc_schedule_reply {
    uint64_t code;   /* 0, or the number of a refusal; the rest is then 0 */
    uint64_t ending; /* ZC_BOTH_ANSWERED, ZC_CUT, ZC_STOPPED, or ZC_NO_MORE in place of one */
    uint64_t length; /* the steps of the schedule; 0 with ZC_NO_MORE */
} zc_schedule_reply;
ZC_LAYOUT(sizeof(zc_schedule_reply) == 24 && offsetof(zc_schedule_reply, code) == 0);
ZC_LAYOUT(offsetof(zc_schedule_reply, ending) == 8 && offsetof(zc_schedule_reply, length) == 16);

/*
 * Hands out the first schedule after the one in `schedule`, in dictionary order: word 0 is the
 * length, taken as at most 48, then come the task numbers. Lend 49 words, all zero to begin with,
 * and call again until ZC_NO_MORE: every schedule that the tables allow is then handed out once and
 * none besides. ZC_NO_MORE writes nothing, and is answered again.
 *
 * The steps are tried in the tables and put back: after the call they are as before. Nobody else may
 * use them during the call, nor write them or `schedule` between two calls of one search. What a
 * schedule answers is found by carrying out its steps on a copy.
 *
 * It holds no memory between calls: each goes the way of the last schedule again, then on to the
 * next. It is recursive, a level for each step: FACTS has the stack that it takes with 48 steps.
 * Answers code 0, or refuses: 34 for control, 12 (`schedule` too: 49), 34 for the walk, 42. A refusal
 * leaves `schedule`. A busy record that is unsound is no refusal: its step is, and stops the schedule.
 */
zc_schedule_reply zc_next_schedule(const zc_control *control, const zc_record *records,
                                   size_t record_count, uint64_t *schedule, size_t schedule_count,
                                   uint64_t *lefts, size_t left_count, uint64_t *rights,
                                   size_t right_count, uint32_t *labels, size_t label_count,
                                   uint64_t *marks, size_t mark_count, uint64_t *next,
                                   size_t next_count);

#ifndef ZC_CORE_ONLY
static inline zc_schedule_reply zc_queue_next_schedule(const zc_queue *queue, uint64_t *schedule,
                                                       size_t schedule_count)
{
    return zc_next_schedule(queue->control, queue->records, queue->record_count, schedule,
                            schedule_count, ZC_TABLES(queue));
}
#endif

/* ---- A list carried out -------------------------------------------------------------------
 * A queue opened, and a list of starts and steps carried out on it, in one call: what was asked of a
 * queue, carried out again from memory. Its contract states of that list: it is linearizable; 34 is
 * never answered; ZC_NO_FREE_SLOT only where every slot is in use; the tasks' counts of retries add
 * up to the failed changes; every label is accounted for, each by itself and all in one sum. What
 * else is proved of such lists holds of it too, but is not in its contract.
 */

/* Operations of a request. Any other number is a step. */
#define ZC_ASK_PUSH 0
#define ZC_ASK_POP 1
#define ZC_ASK_PUSH_POOLED 2
#define ZC_ASK_STEP 3

#define ZC_REQUEST_WORDS 5
#define ZC_ANSWER_WORDS 3

/* A request: five words, no padding. A word that its operation has no use for is not looked at. */
typedef struct zc_request {
    uint64_t task;
    uint64_t operation; /* ZC_ASK_PUSH to ZC_ASK_STEP */
    uint64_t side;      /* of a push or a pop */
    uint64_t slot;      /* of ZC_ASK_PUSH */
    uint64_t label;     /* of a push: its lower 32 bits */
} zc_request;

/* Its answer: the fields of a zc_reply, a word each. */
typedef struct zc_answer {
    uint64_t code, label, value;
} zc_answer;

typedef struct zc_serve_reply {
    uint64_t code;   /* 0, or the number by which the opening is refused */
    uint64_t served; /* requests carried out; 0 with a refusal */
} zc_serve_reply;

ZC_LAYOUT(sizeof(zc_request) == 8 * ZC_REQUEST_WORDS);
ZC_LAYOUT(offsetof(zc_request, task) == 0 && offsetof(zc_request, operation) == 8);
ZC_LAYOUT(offsetof(zc_request, side) == 16 && offsetof(zc_request, slot) == 24);
ZC_LAYOUT(offsetof(zc_request, label) == 32);
ZC_LAYOUT(sizeof(zc_answer) == 8 * ZC_ANSWER_WORDS && offsetof(zc_answer, code) == 0);
ZC_LAYOUT(offsetof(zc_answer, label) == 8 && offsetof(zc_answer, value) == 16);
ZC_LAYOUT(sizeof(zc_serve_reply) == 16 && offsetof(zc_serve_reply, code) == 0);
ZC_LAYOUT(offsetof(zc_serve_reply, served) == 8);

/*
 * Opens a queue, as zc_open does if `pooled` is 0 and else as zc_open_pooled does. Then carries out
 * the requests in order, each by zc_push, zc_pop, zc_push_pooled or zc_step: their code is what runs.
 * A request that is refused is answered its number and changes nothing; the list goes on. It ends
 * after the last whole request, or where the next answer has no room: a rest of fewer than five
 * words is no request, and fewer than three are no room. Words behind the last answer keep their
 * values. With no requests, or no room, both tables may be null: the queue is opened.
 * Answers code 0, or refuses what the opening refuses: 10, 11, 12 (next only if pooled; neither
 * requests nor replies). Nothing is then written, and no request carried out.
 *
 * Both are lent as words: five a request in the order of zc_request, three an answer.
 */
zc_serve_reply zc_serve(zc_control *control, zc_record *records, size_t record_count,
                        uint64_t pooled, uint64_t tasks, uint64_t slots, uint32_t tag,
                        const uint64_t *requests, size_t request_words, uint64_t *replies,
                        size_t reply_words, uint64_t *lefts, size_t left_count, uint64_t *rights,
                        size_t right_count, uint32_t *labels, size_t label_count, uint64_t *marks,
                        size_t mark_count, uint64_t *next, size_t next_count);

#ifndef ZC_CORE_ONLY
static inline zc_serve_reply zc_queue_serve(const zc_queue *queue, uint64_t pooled, uint64_t tasks,
                                            uint64_t slots, uint32_t tag,
                                            const zc_request *requests, size_t request_count,
                                            zc_answer *replies, size_t reply_count)
{
    return zc_serve(queue->control, queue->records, queue->record_count, pooled, tasks, slots, tag,
                    ZC_WORDS(const uint64_t, requests), ZC_REQUEST_WORDS * request_count,
                    ZC_WORDS(uint64_t, replies), ZC_ANSWER_WORDS * reply_count, ZC_TABLES(queue));
}
#endif

#ifdef __cplusplus
}
#endif

#endif
