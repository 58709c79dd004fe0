/*
 * zeppolecape_atomic.h - the label queue shared by threads, cores and interrupt handlers.
 *
 * WHAT IT IS. Several threads push and pop on one queue at once, without a lock: wherever one is
 * stopped, for ever too, the others go on. A step of the queue touches shared memory once. What it
 * does there follows from the task's own record (zc_plan), and what comes of it from the record and
 * the word found (zc_settle_plan, which also tells the touch of the step after). Between the two the
 * touch is made here, by atomic instructions. The tables are those of zc_queue, so that every other
 * call works on the same queue while it is at rest.
 *
 *     ZC_QUEUE_STORAGE(queue, TASKS, SLOTS);
 *
 *     zc_queue_open_pooled(&queue, TASKS, SLOTS, 0);             answers 0
 *     zc_shared shared = zc_share(&queue);                       now start the threads
 *
 *     zc_record *own = &queue_tables.records[task];              each thread has its own task
 *     zc_atomic_push_pooled(&shared, own, ZC_RIGHT, 700);        answers ZC_PUSHED
 *     zc_atomic_pop(&shared, own, ZC_LEFT);                      answers ZC_POPPED: label 700
 *
 *     cc -Iinclude main.c target/lib/libzeppolecape.a -pthread
 *
 * A call answers a zc_reply, whose code is to be looked at: a push may find no free slot
 * (ZC_NO_FREE_SLOT), a pop may find nothing (ZC_EMPTY). Both are told at once, since nobody is waited
 * for; make the call again later. Codes from 10 on are refusals. What a thread wrote before its push
 * is seen by the thread that pops the label. The opening, its tables and the codes are told in
 * zeppolecape.h. A whole program with five threads is examples/c/threads.c, one with a signal handler
 * examples/c/interrupt.c.
 *
 * YOUR DUTY
 *  - A record belongs to one thread, core or handler at a time: no other makes calls with it or looks
 *    at it, until something that synchronises, as a join, has handed it on. It is idle, place 0, at
 *    first. Take one of the queue's, of which the report then tells, or one that lies elsewhere,
 *    zeroed; in cache lines of its own (aligned to 128 bytes) it is faster.
 *  - Use no more records than tasks were opened. It is not counted, and with more 33 may come too late.
 *  - A thread with two records may be in the middle of two calls, and a handler needs one of its own:
 *    it may then make whole calls in the middle of anybody's step, its own thread's too. A handler of
 *    an interrupt saves the SSE state and leaves the red zone alone (zeppolecape.h, FACTS); for one of
 *    a signal the system does.
 *  - Every call of zeppolecape.h on this queue (report, walks, shelves, joinings, openings, starts
 *    and steps), and reading its tables, wants the queue at rest: no thread is in a call of this
 *    file, and what synchronises (a join, a barrier, a lock) lies between it and their last call. A
 *    call that was started and has not answered is seen by them in a record of the queue's, and in
 *    one that lies elsewhere by none: let that answer before an opening, a return or a draining.
 *  - Nobody else writes the tables.
 *
 * LIMITS
 *  - A thread that dies in a call takes along what the call held: at most a slot and a label, that
 *    of its push or the one that its pop had won. Nobody waits for it. Another thread may go on with
 *    its record only if it died between two steps: in the middle of one it can't be told whether the
 *    touch was made. Zero such a record before zc_queue_drain or any plain call that would step it,
 *    which might make the touch again and push a slot twice; the thread then counts as in no call. Of
 *    plain calls only the walks are covered by what is proved, until the queue is opened again.
 *  - 33: an opening with first tag 0 has tags for 4,294,967,262 changes of Anchor; a pair of push and
 *    pop makes two or three. Threads that do nothing else use them up within minutes (bench/README.md
 *    has pairs a second), ten labels a second in four and a half years. Then every start is refused:
 *    its record stays idle, and its label was not pushed. Bring the threads to rest, zc_queue_drain,
 *    open again, zc_queue_refill (examples/c/renew.c), zc_share, and let them go on. Tags never wrap,
 *    so that a word is never taken for an older one.
 *  - Lock-free is not wait-free: one call may try again as long as others are faster. After a failed
 *    change a whole call waits some microseconds, a handler's too (ZC_PAUSES).
 *  - In tables that somebody else wrote to, a call may be told 34 in the middle: its touches up to
 *    there are made, and its record stands where it stopped. Whether its label is in the queue the
 *    walks tell, if they still can (zeppolecape.h, 34).
 *
 * WHAT IS PROVED, of threads that interleave at single loads, stores, compare-and-swaps and changes
 * of a mark as this file makes them (crates/threads/specs/Promises.antt). Since an opening, with plain
 * calls and threads that came to rest before them in any order: memory and every thread's answers are
 * those of a list of starts and steps, in the order of their deciding instructions. (A push that names
 * its slot is asked 33 of the Anchor that it loaded, and may be started just above the limit.) That
 * list is linearizable, and nobody is told 34. It respects real time, and every label in it is
 * accounted for. Once no thread is in a call memory is the queue of the list, from which plain calls go
 * on. A start or step is at most three of these instructions and the writing of its record, whatever
 * the others do, and among the steps some call takes effect or answers (Consequences.antt beside it).
 * The six calls below are proved to do what these theorems say of them, for all records and words.
 * Not proved, but tested: the C in this file, a table of thirteen touches (zc_made) and the loops
 * around it. (A start loads Anchor before it is asked its own numbers; where those refuse it, the word
 * is not looked at.)
 *
 * ORDER. Every access to a shared word but a label is sequentially consistent, and the proved calls
 * reach none. By the rules of C11 and C++11 all these accesses then have one order that agrees with
 * each thread's own: an interleaving, which is what the proof speaks of. Labels are loaded and stored
 * as plain words: in no interleaving do two threads have an instruction on one label before them,
 * which is proved too (LabelsApart), so there is no data race, and by the same rules a program
 * without one does nothing but what its interleavings do. A next is no such word: one thread may
 * load it at 13 while another stores it. Weaker orders would need another proof; on x86-64 they
 * would save the xchg by which a next is stored, where it is not yet as wanted, and nothing else.
 *
 * C11 or C++11, gcc or clang: the tables are plain words, and are reached by the builtins that are
 * these compilers' atomics. Link with libzeppolecape.a and with threads, if you have them.
 */
#ifndef ZEPPOLECAPE_ATOMIC_H
#define ZEPPOLECAPE_ATOMIC_H

#include "zeppolecape.h"

#ifdef __cplusplus
extern "C" {
#endif

#if __GCC_ATOMIC_LLONG_LOCK_FREE != 2 || __GCC_ATOMIC_INT_LOCK_FREE != 2
#error "words of 64 and 32 bits must be lock-free"
#endif

/* ---- The proved calls -------------------------------------------------------------------- */

/* What a start or a step does with shared memory. */
typedef struct zc_touch {
    uint32_t act;      /* ZC_NO_TOUCH to ZC_LOAD_MARK */
    uint32_t label;    /* the label to store */
    uint64_t side;     /* of a link word: it leads to this side */
    uint64_t slot;     /* whose link word, label, mark or next it is, 1 to slots */
    uint64_t expected; /* of a change: the word as read */
    uint64_t word;     /* the word to store; ZC_PUT_LINK: the slot; ZC_NO_TOUCH: the refusal */
} zc_touch;

#define ZC_NO_TOUCH 0    /* none: it is refused by the number `word` */
#define ZC_LOAD_ANCHOR 1
#define ZC_SWAP_ANCHOR 2 /* change it: only where it is as expected */
#define ZC_LOAD_LINK 3
#define ZC_SWAP_LINK 4
#define ZC_PUT_LINK 5    /* another slot in a sound link word, with the same tag */
#define ZC_TAKE_LABEL 6  /* read a label, then clear the mark */
#define ZC_LOAD_HEAD 7
#define ZC_SWAP_HEAD 8
#define ZC_DRAW_SLOT 9   /* change the head; where that is done store the label, then set the mark */
#define ZC_LOAD_NEXT 10
#define ZC_STORE_NEXT 11
#define ZC_TAKE_SLOT 12  /* of a start: set the mark; where it was clear store the label */
#define ZC_LOAD_MARK 13  /* of a start */

/* What a start or a step answered, and what comes next with shared memory. */
typedef struct zc_onward {
    zc_reply reply;
    zc_touch touch;
} zc_onward;

#define ZC_STARTING 0 /* code of a start that has another touch to make */

/* A call to be started (ZC_ASK_STEP is none). A word that its operation has no use for is not looked at. */
typedef struct zc_start {
    uint64_t operation; /* ZC_ASK_PUSH, ZC_ASK_POP; any other number is ZC_ASK_PUSH_POOLED */
    uint64_t side;
    uint64_t slot;  /* of ZC_ASK_PUSH */
    uint64_t label; /* of a push: its lower 32 bits */
} zc_start;

ZC_LAYOUT(sizeof(zc_touch) == 40 && offsetof(zc_touch, act) == 0);
ZC_LAYOUT(offsetof(zc_touch, label) == 4 && offsetof(zc_touch, side) == 8);
ZC_LAYOUT(offsetof(zc_touch, slot) == 16 && offsetof(zc_touch, expected) == 24);
ZC_LAYOUT(offsetof(zc_touch, word) == 32);
ZC_LAYOUT(sizeof(zc_onward) == 56 && offsetof(zc_onward, touch) == 16);
ZC_LAYOUT(sizeof(zc_start) == 32 && offsetof(zc_start, operation) == 0);
ZC_LAYOUT(offsetof(zc_start, side) == 8 && offsetof(zc_start, slot) == 16);
ZC_LAYOUT(offsetof(zc_start, label) == 24);

/* What the next step of a record does. Reads the record alone, which may hold anything. */
zc_touch zc_plan(uint64_t slots, uint64_t pooled, const zc_record *own);

/*
 * Moves a record on whose touch has found a word, and plans its next step. Writes the record alone,
 * and nothing where it refuses: 34 for the record, 31, 34 for the word found.
 */
zc_onward zc_settle_plan(uint64_t slots, uint64_t pooled, zc_record *own, uint64_t found);

/*
 * The first touch of a start: ZC_LOAD_ANCHOR, or none where it is refused by what needs no shared
 * word: 14, 41, 15, 34 for the record, 30. Reads the record and the start alone.
 */
zc_touch zc_plan_start(uint64_t slots, uint64_t pooled, const zc_record *own,
                       const zc_start *start);

/*
 * What a start comes to, once a touch of the kind `act` has found a word: starting, with another
 * touch to make; running, with the record written and its first step planned; or refused 32 or 33,
 * with the record as it was. Only after zc_plan_start has answered a touch for them.
 */
zc_onward zc_settle_start(uint64_t slots, uint64_t pooled, zc_record *own, const zc_start *start,
                          uint32_t act, uint64_t found);

/* Both in one call, for an Anchor that is loaded already: refused as either refuses, or settled. */
zc_onward zc_start_loaded(uint64_t slots, uint64_t pooled, zc_record *own, const zc_start *start,
                          uint64_t anchor);

/*
 * zc_settle_plan for a record that nobody has written since a start or a settlement left it: such a
 * one is sound, which is proved, and is tested for its place alone. Whatever a record holds, a touch
 * that is planned names a slot of 1 to slots.
 */
zc_onward zc_settle_unasked(uint64_t slots, uint64_t pooled, zc_record *own, uint64_t found);

/* ---- A queue that is shared --------------------------------------------------------------- */

/* The tables of an open queue, and two numbers that no call but an opening or a return changes. */
typedef struct zc_shared {
    uint64_t *anchor, *head, *lefts, *rights, *marks, *next;
    uint32_t *labels;
    uint64_t slots, pooled;
    uint64_t refusal; /* 0; else nothing is shared, and every call below is refused by it */
} zc_shared;

/*
 * Shares a queue that was opened; again after each opening or return. It is one of the calls that
 * want the queue at rest. Where the report is refused (34 for control, 12, 34 for the walk) so are
 * all calls on what it answers, before all else; else none of them asks for these again. Make no
 * call on a zc_shared that this has not answered.
 */
static inline zc_shared zc_share(const zc_queue *queue)
{
    zc_shared shared = {NULL, NULL, NULL, NULL, NULL, NULL, NULL, 0, 0, 0};
    shared.refusal = zc_queue_report(queue).code;
    if (shared.refusal == 0) {
        shared.anchor = &queue->control->anchor;
        shared.head = &queue->control->head;
        shared.lefts = queue->lefts;
        shared.rights = queue->rights;
        shared.marks = queue->marks;
        shared.next = queue->next;
        shared.labels = queue->labels;
        shared.slots = queue->control->slots;
        shared.pooled = queue->control->pooled;
    }
    return shared;
}

/* ---- The touches -------------------------------------------------------------------------- */

#ifndef ZC_BETWEEN
#define ZC_BETWEEN() ((void)0) /* between any two instructions: a test puts a pause here */
#endif

static inline uint64_t zc_loaded(uint64_t *word) { return __atomic_load_n(word, __ATOMIC_SEQ_CST); }

/* The word found, which is `expected` exactly where the change is done. */
static inline uint64_t zc_swapped(uint64_t *word, uint64_t expected, uint64_t wanted)
{
    __atomic_compare_exchange_n(word, &expected, wanted, 0, __ATOMIC_SEQ_CST, __ATOMIC_SEQ_CST);
    return expected;
}

/* A word that is the wanted one already is only read: a store costs as much as a change. */
static inline uint64_t zc_stored(uint64_t *word, uint64_t wanted)
{
    if (zc_loaded(word) == wanted)
        return 0;
    ZC_BETWEEN();
    __atomic_store_n(word, wanted, __ATOMIC_SEQ_CST);
    return 0;
}

/*
 * In a sound link word the slot is replaced, and the tag kept. One that has the slot already stays,
 * and so does one that names no slot of the queue. It is a push's own link, and the first change
 * succeeds in a queue written by these calls.
 */
static inline uint64_t zc_put(uint64_t *link, uint64_t slot, uint64_t slots)
{
    uint64_t found = zc_loaded(link), was;
    do {
        ZC_BETWEEN();
        if ((found & 0xffffffff) > slots)
            return found;
        if ((found & 0xffffffff) == slot)
            return found;
        was = found;
        found = zc_swapped(link, was, was >> 32 << 32 | slot);
    } while (found != was);
    return found;
}

/* The label is read while the mark still keeps the slot from others' pushes: no thread stores it. */
static inline uint64_t zc_taken(const zc_shared *shared, uint64_t slot)
{
    uint64_t label = shared->labels[slot];
    ZC_BETWEEN();
    __atomic_fetch_and(&shared->marks[slot / 64], ~(UINT64_C(1) << slot % 64), __ATOMIC_SEQ_CST);
    return label;
}

/* Only once the head is changed is the slot this thread's, to be labelled and marked. */
static inline uint64_t zc_drawn(const zc_shared *shared, const zc_touch *touch)
{
    uint64_t slot = touch->slot;
    uint64_t found = zc_swapped(shared->head, touch->expected, touch->word);
    if (found == touch->expected) {
        ZC_BETWEEN();
        shared->labels[slot] = touch->label;
        ZC_BETWEEN();
        __atomic_fetch_or(&shared->marks[slot / 64], UINT64_C(1) << slot % 64, __ATOMIC_SEQ_CST);
    }
    return found;
}

/* The mark found, 0 or 1. Who sets it has the slot, and labels it. */
static inline uint64_t zc_claimed(const zc_shared *shared, const zc_touch *touch)
{
    uint64_t slot = touch->slot, bit = UINT64_C(1) << slot % 64;
    if (__atomic_fetch_or(&shared->marks[slot / 64], bit, __ATOMIC_SEQ_CST) & bit)
        return 1;
    ZC_BETWEEN();
    shared->labels[slot] = touch->label;
    return 0;
}

/* The mark found, of a start that only looks. */
static inline uint64_t zc_looked(const zc_shared *shared, const zc_touch *touch)
{
    return zc_loaded(&shared->marks[touch->slot / 64]) >> touch->slot % 64 & 1;
}

/* Both tables' addresses are read before one is taken: sides can't be predicted, so no branch. */
static inline uint64_t *zc_link(const zc_shared *shared, const zc_touch *touch)
{
    uint64_t *lefts = shared->lefts, *rights = shared->rights;
    return &(touch->side == ZC_RIGHT ? rights : lefts)[touch->slot];
}

/*
 * Makes a touch, and answers the word found, a line each: `perform` of
 * crates/threads_model/specs/Split.antt, and the starts' two.
 */
__attribute__((always_inline)) static inline uint64_t zc_made(const zc_shared *shared, const zc_touch *touch)
{
    switch (touch->act) {
    case ZC_LOAD_ANCHOR: return zc_loaded(shared->anchor);
    case ZC_SWAP_ANCHOR: return zc_swapped(shared->anchor, touch->expected, touch->word);
    case ZC_LOAD_LINK: return zc_loaded(zc_link(shared, touch));
    case ZC_SWAP_LINK: return zc_swapped(zc_link(shared, touch), touch->expected, touch->word);
    case ZC_PUT_LINK: return zc_put(zc_link(shared, touch), touch->word, shared->slots);
    case ZC_TAKE_LABEL: return zc_taken(shared, touch->slot);
    case ZC_LOAD_HEAD: return zc_loaded(shared->head);
    case ZC_SWAP_HEAD: return zc_swapped(shared->head, touch->expected, touch->word);
    case ZC_DRAW_SLOT: return zc_drawn(shared, touch);
    case ZC_LOAD_NEXT: return zc_loaded(&shared->next[touch->slot]);
    case ZC_STORE_NEXT: return zc_stored(&shared->next[touch->slot], touch->word);
    case ZC_TAKE_SLOT: return zc_claimed(shared, touch);
    case ZC_LOAD_MARK: return zc_looked(shared, touch);
    default: return 0;
    }
}

/* ---- Whole calls -------------------------------------------------------------------------- */

static inline zc_reply zc_refused_by(uint64_t number)
{
    zc_reply reply = {ZC_AS(uint32_t, number), 0, 0};
    return reply;
}

/*
 * Starts a call: running, with its first step planned, or refused. The first touch is the load of
 * Anchor; a push that names a slot has one more, of the slot's mark.
 */
static inline void zc_begin(const zc_shared *shared, zc_record *own, const zc_start *start,
                            zc_onward *onward)
{
    uint64_t found = zc_loaded(shared->anchor);
    ZC_BETWEEN();
    *onward = zc_start_loaded(shared->slots, shared->pooled, own, start, found);
    if (onward->reply.code == ZC_STARTING) {
        uint32_t act = onward->touch.act;
        ZC_BETWEEN();
        found = act == ZC_TAKE_SLOT ? zc_claimed(shared, &onward->touch)
                                    : zc_looked(shared, &onward->touch);
        ZC_BETWEEN();
        *onward = zc_settle_start(shared->slots, shared->pooled, own, start, act, found);
    }
}

/*
 * How long a thread waits once a change of its own has failed, some microseconds: whoever was faster
 * then makes several calls with the words in its own cache, where two that try again at once take
 * them from each other at every touch. It is no wait for anybody: it ends by itself.
 */
#ifndef ZC_PAUSES
#define ZC_PAUSES 256 /* 0: none */
#endif

static inline void zc_back_off(void)
{
    for (int left = ZC_PAUSES; left > 0; left--) {
#if defined __x86_64__ || defined __i386__
        __builtin_ia32_pause();
#elif defined __aarch64__
        __asm__ volatile("yield");
#else
        __atomic_signal_fence(__ATOMIC_SEQ_CST);
#endif
    }
}

/* A reply by its words, as they were stored: one load over two stores just made would wait for both. */
static inline zc_reply zc_told(const zc_reply *reply)
{
    zc_reply told;
    told.code = reply->code;
    told.label = reply->label;
    told.value = reply->value;
    return told;
}

/* Starts a call and steps it to its answer. From the start on its record is known to be sound. */
static inline zc_reply zc_answer_to(const zc_shared *shared, zc_record *own, const zc_start *start)
{
    if (shared->refusal != 0)
        return zc_refused_by(shared->refusal);
    zc_onward begun;
    zc_begin(shared, own, start, &begun);
    if (begun.reply.code != ZC_RUNNING)
        return zc_told(&begun.reply);
    uint64_t failed = own->retries;
    ZC_BETWEEN();
    uint64_t found = zc_made(shared, &begun.touch);
    for (;;) {
        ZC_BETWEEN();
        zc_onward onward = zc_settle_unasked(shared->slots, shared->pooled, own, found);
        if (onward.reply.code != ZC_RUNNING)
            return zc_told(&onward.reply);
        if (own->retries != failed) {
            failed = own->retries;
            zc_back_off();
        }
        ZC_BETWEEN();
        found = zc_made(shared, &onward.touch);
    }
}

/*
 * Pushes `label` in a free slot of a queue opened by zc_open. Two threads that name one slot at a
 * time: one is refused 32.
 * Answers pushed, or refuses: 14, 41, 15, 34 for the record, 30, 32, 33.
 */
static inline zc_reply zc_atomic_push(const zc_shared *shared, zc_record *own, uint64_t side,
                                      uint64_t slot, uint32_t label)
{
    const zc_start start = {ZC_ASK_PUSH, side, slot, label};
    return zc_answer_to(shared, own, &start);
}

/*
 * Pushes `label` in a slot from the pool of a queue opened by zc_open_pooled.
 * Answers pushed or ZC_NO_FREE_SLOT, or refuses: 14, 41, 34 for the record, 30, 33.
 */
static inline zc_reply zc_atomic_push_pooled(const zc_shared *shared, zc_record *own, uint64_t side,
                                             uint32_t label)
{
    const zc_start start = {ZC_ASK_PUSH_POOLED, side, 0, label};
    return zc_answer_to(shared, own, &start);
}

/* Pops. Answers popped or empty, or refuses: 14, 34 for the record, 30, 33. */
static inline zc_reply zc_atomic_pop(const zc_shared *shared, zc_record *own, uint64_t side)
{
    const zc_start start = {ZC_ASK_POP, side, 0, 0};
    return zc_answer_to(shared, own, &start);
}

/* ---- One touch at a time ------------------------------------------------------------------
 * For a thread that interleaves the calls of several records, or its calls with other work: a start,
 * then steps while they answer running. A whole call is faster: it plans a step while it settles the
 * one before, and tests its record once. Steps wait for nothing; whoever steps a call that fails again and again
 * may call zc_back_off in between.
 */

/* Starts the call that `start` tells: running at place 1 or 12, or refused as the whole call is. */
static inline zc_reply zc_atomic_start(const zc_shared *shared, zc_record *own, const zc_start *start)
{
    if (shared->refusal != 0)
        return zc_refused_by(shared->refusal);
    zc_onward onward;
    zc_begin(shared, own, start, &onward);
    return zc_told(&onward.reply);
}

static inline zc_reply zc_atomic_start_push(const zc_shared *shared, zc_record *own, uint64_t side,
                                            uint64_t slot, uint32_t label)
{
    const zc_start start = {ZC_ASK_PUSH, side, slot, label};
    return zc_atomic_start(shared, own, &start);
}

static inline zc_reply zc_atomic_start_push_pooled(const zc_shared *shared, zc_record *own,
                                                   uint64_t side, uint32_t label)
{
    const zc_start start = {ZC_ASK_PUSH_POOLED, side, 0, label};
    return zc_atomic_start(shared, own, &start);
}

static inline zc_reply zc_atomic_start_pop(const zc_shared *shared, zc_record *own, uint64_t side)
{
    const zc_start start = {ZC_ASK_POP, side, 0, 0};
    return zc_atomic_start(shared, own, &start);
}

/*
 * Makes one step. Answers and refuses as zc_step_record does, but for what zc_share has asked: 34 for
 * the record, 31, 34 for what it touches.
 */
static inline zc_reply zc_atomic_step(const zc_shared *shared, zc_record *own)
{
    if (shared->refusal != 0)
        return zc_refused_by(shared->refusal);
    zc_touch touch = zc_plan(shared->slots, shared->pooled, own);
    if (touch.act == ZC_NO_TOUCH)
        return zc_refused_by(touch.word);
    ZC_BETWEEN();
    uint64_t found = zc_made(shared, &touch);
    ZC_BETWEEN();
    zc_onward onward = zc_settle_plan(shared->slots, shared->pooled, own, found);
    return zc_told(&onward.reply);
}

#ifdef __cplusplus
}
#endif

#endif
