/*
 * The header's helpers over an open queue: storage, a free slot, finish, drain and refill, and what
 * they answer where the tables are damaged.
 */
#include "check.h"
#include "zeppolecape.h"

enum { TASKS = 3, SLOTS = 130 };
ZC_QUEUE_STORAGE(queue, TASKS, SLOTS);
ZC_NAMED_STORAGE(named, TASKS, SLOTS);

static void storage(void)
{
    is("records lent", queue.record_count, TASKS);
    is("rows lent", queue.left_count + queue.right_count + queue.label_count, 3 * 131);
    is("mark words lent", queue.mark_count, 3);
    is("more tasks than there is storage for", zc_queue_open(&queue, TASKS + 1, SLOTS, 0), ZC_SHORT);
    is("more slots than there is storage for", zc_queue_open(&queue, TASKS, SLOTS + 1, 0), ZC_SHORT);
    is("opening", zc_queue_open(&queue, TASKS, SLOTS, 0), 0);
    is("next rows lent", queue.next_count, 131);
    is("opening with a pool", zc_queue_open_pooled(&queue, TASKS, SLOTS, 0), 0);
    is("no next rows lent", named.next_count, 0);
    is("opening without a next table", zc_queue_open(&named, TASKS, SLOTS, 0), 0);
    is("a pool without a next table", zc_queue_open_pooled(&named, TASKS, SLOTS, 0), ZC_SHORT);
    is("bytes saved", sizeof queue_tables - sizeof named_tables, 8 * 131);
}

static void free_slot(void)
{
    zc_queue_open(&queue, TASKS, SLOTS, 0);
    is("the first free slot", zc_queue_free_slot(&queue), 1);
    for (uint64_t slot = 1; slot <= SLOTS; slot++) {
        queue_tables.marks[slot / 64] |= UINT64_C(1) << (slot % 64);
        is("the next free slot", zc_queue_free_slot(&queue), slot < SLOTS ? slot + 1 : 0);
    }
    queue_tables.marks[1] = ~UINT64_C(4);
    is("a slot given back", zc_queue_free_slot(&queue), 66);
    zc_queue cut = queue;
    cut.mark_count = 1;
    is("the lent marks alone are looked at", zc_queue_free_slot(&cut), 0);
}

static void finish(void)
{
    zc_queue_open(&queue, TASKS, SLOTS, 0);
    is("an idle task", zc_queue_finish(&queue, 0).code, ZC_IDLE);
    is("no such task", zc_queue_finish(&queue, TASKS).code, ZC_NO_TASK);
    zc_queue_push(&queue, 0, ZC_RIGHT, 7, 70);
    is("a push", zc_queue_finish(&queue, 0).code, ZC_PUSHED);
    zc_queue_pop(&queue, 1, ZC_RIGHT);
    zc_reply reply = zc_queue_finish(&queue, 1);
    is("a pop", reply.code, ZC_POPPED);
    is("its slot and label", zc_slot(reply) * 1000 + zc_label(reply), 7070);
    zc_queue_pop(&queue, 1, ZC_RIGHT);
    is("a pop of nothing", zc_queue_finish(&queue, 1).code, ZC_EMPTY);
    is("any call's code", (uint64_t)zc_is_refusal(zc_queue_report(&queue).code), 0);
    queue_tables.control.slots = 0;
    is("damaged tables", zc_queue_finish(&queue, 1).code, ZC_UNSOUND);
    is("a refused report's code", (uint64_t)zc_is_refusal(zc_queue_report(&queue).code), 1);
}

/* Task 0 is stopped in a push that is in the queue, task 1 in a pop that has taken a label. */
static void drain(void)
{
    zc_reply answers[TASKS];
    static uint64_t slots[SLOTS];
    static uint32_t labels[SLOTS], again[SLOTS];
    const uint32_t first[] = {10, 20, 30};
    zc_queue_open(&queue, TASKS, SLOTS, 0);
    is("refill", zc_queue_refill(&queue, 2, first, 3), 0);
    zc_queue_push(&queue, 0, ZC_LEFT, 100, 5);
    while (queue_tables.records[0].place != 5)
        zc_queue_step(&queue, 0);
    zc_queue_pop(&queue, 1, ZC_RIGHT);
    while (queue_tables.records[1].place != 11)
        zc_queue_step(&queue, 1);
    zc_waiting_reply drained = zc_queue_drain(&queue, answers, slots, labels);
    is("drained", drained.code, 0);
    is("labels drained", drained.count, 3);
    is("the slot pushed last", slots[0], 100);
    is("in order", labels[0] * 10000 + labels[1] * 100 + labels[2], 51020);
    is("the push's answer", answers[0].code, ZC_PUSHED);
    is("the pop's answer", answers[1].code * 100 + zc_label(answers[1]), ZC_POPPED * 100 + 30);
    is("no answer of an idle task", answers[2].code, 0);
    is("nobody is busy", zc_queue_report(&queue).busy, 0);
    is("opened again", zc_queue_open(&queue, TASKS, SLOTS, 0), 0);
    is("nothing waits", zc_queue_waiting(&queue, slots, again, SLOTS).count, 0);
    is("refilled", zc_queue_refill(&queue, 0, labels, 3), 0);
    is("three wait again", zc_queue_drain(&queue, answers, slots, again).count, 3);
    is("in the same order", again[0] * 10000 + again[1] * 100 + again[2], 51020);
    queue_tables.lefts[slots[1]] = UINT64_C(1) << 20;
    is("a damaged queue", zc_queue_drain(&queue, answers, slots, again).code, ZC_UNSOUND);
}

/* A record beyond the tasks keeps its call from an earlier opening; it is nobody's. */
static void fewer_tasks(void)
{
    zc_reply answers[TASKS];
    static uint64_t slots[SLOTS];
    static uint32_t labels[SLOTS];
    zc_queue_open(&queue, TASKS, SLOTS, 0);
    zc_queue_pop(&queue, TASKS - 1, ZC_LEFT);
    is("fewer tasks", zc_queue_open(&queue, TASKS - 1, SLOTS, 0), 0);
    is("a call beyond them", queue_tables.records[TASKS - 1].place, 1);
    is("they are drained", zc_queue_drain(&queue, answers, slots, labels).code, 0);
    is("no answer beyond them", answers[TASKS - 1].code, 0);
}

static void refill(void)
{
    static uint32_t labels[SLOTS + 1], found[SLOTS];
    static uint64_t slots[SLOTS];
    zc_reply answers[TASKS];
    for (uint32_t at = 0; at <= SLOTS; at++)
        labels[at] = 7 * at;
    zc_queue_open(&queue, TASKS, SLOTS, 0);
    is("more labels than slots", zc_queue_refill(&queue, 0, labels, SLOTS + 1), ZC_TAKEN);
    is("as many as there are slots", zc_queue_drain(&queue, answers, slots, found).count, SLOTS);
    uint64_t same = 0;
    for (size_t at = 0; at < SLOTS; at++)
        same += found[at] == labels[at];
    is("each at its place", same, SLOTS);
    zc_queue_open(&queue, TASKS, SLOTS, UINT32_MAX);
    is("a worn queue", zc_queue_refill(&queue, 0, labels, 1), ZC_WORN);
    is("no labels", zc_queue_refill(&queue, 0, labels, 0), 0);
    zc_queue_open(&queue, TASKS, SLOTS, 0);
    zc_queue_pop(&queue, 0, ZC_LEFT);
    is("a busy task", zc_queue_refill(&queue, 0, labels, 1), ZC_BUSY);
}

static void steps(size_t task, int count)
{
    while (count-- > 0)
        zc_queue_step(&queue, task);
}

/* The same in a pooled queue, where a push without a slot is answered, not refused. */
static void pooled(void)
{
    static uint32_t labels[SLOTS + 1], found[SLOTS];
    static uint64_t slots[SLOTS];
    zc_reply answers[TASKS];
    zc_queue_open_pooled(&queue, TASKS, SLOTS, 0);
    is("more labels than the pool has slots", zc_queue_refill(&queue, 0, labels, SLOTS + 1), ZC_TAKEN);
    zc_queue_push_pooled(&queue, 1, ZC_LEFT, 7);
    zc_queue_pop(&queue, 2, ZC_LEFT);
    is("labels of a full pool", zc_queue_drain(&queue, answers, slots, found).count, SLOTS - 1);
    is("no slot", answers[1].code, ZC_NO_FREE_SLOT);
    is("a pop", answers[2].code, ZC_POPPED);
    zc_queue_pop(&queue, 2, ZC_LEFT);
    steps(2, 4);
    is("a pop that still holds its slot", queue_tables.records[2].place, 15);
    is("two slots unmarked, one in the pool", zc_queue_refill(&queue, 0, labels, 2), ZC_TAKEN);
}

/* A label pushed at the right; `count` steps of it. */
static void push(size_t task, uint32_t label, int count)
{
    zc_queue_push_pooled(&queue, task, ZC_RIGHT, label);
    steps(task, count);
}

/* Task 1 before the longest way of a push, or of a pop: tests/cases/solo_pooled_*. */
static void before_longest(uint64_t kind)
{
    zc_queue_open_pooled(&queue, TASKS, SLOTS, 0);
    push(0, 11, 5);
    if (kind == ZC_PUSH)
        push(1, 21, 1);
    push(0, 12, 6);
    if (kind == ZC_PUSH)
        return;
    zc_queue_pop(&queue, 1, ZC_RIGHT);
    steps(1, 1);
    steps(0, 6);
    push(0, 13, 6);
}

static void longest(void)
{
    before_longest(ZC_PUSH);
    is("20 steps of a push", zc_queue_run(&queue, 1, ZC_POOLED_PUSH_STEPS - 1).code, ZC_RUNNING);
    is("its 21st", zc_queue_step(&queue, 1).code, ZC_PUSHED);
    before_longest(ZC_PUSH);
    is("the longest push", zc_queue_finish(&queue, 1).code, ZC_PUSHED);
    before_longest(ZC_POP);
    is("15 steps of a pop", zc_queue_run(&queue, 1, ZC_POOLED_POP_STEPS - 1).code, ZC_RUNNING);
    is("its 16th", zc_queue_step(&queue, 1).code, ZC_POPPED);
}

/* Document 02, #108, and the pairs of a pooled queue: 1, 3 and 120 of 2, 3 and 16 tasks. */
static void stretches(void)
{
    is("a stretch of 16 tasks", ZC_STRETCH(16), 416);
    is("of one task, pooled", ZC_POOLED_STRETCH(1), 20);
    is("of 2", ZC_POOLED_STRETCH(2), 40 + 3);
    is("of 3", ZC_POOLED_STRETCH(1 + 2), 60 + 9);
    is("of 16", ZC_POOLED_STRETCH(16), 320 + 360);
}

int main(void)
{
    storage();
    free_slot();
    finish();
    drain();
    fewer_tasks();
    refill();
    pooled();
    longest();
    stretches();
    return told();
}
