/*
 * The helpers that decide something: a free slot, finish, drain and refill. What they must do is said
 * again here by the calls, from the words that stand with them; of a sound queue, by what waits before
 * and after.
 */
#ifndef HELPERS_H
#define HELPERS_H

#include "lent.h"

static bool is_marked(const zc_queue *q, uint64_t slot) { return q->marks[slot / 64] >> slot % 64 & 1; }

/* "A slot to name in a push: no label and no call holds it; 0 if all are taken." Only the lent marks tell. */
static void free_slot(const zc_queue *q)
{
    uint64_t slot = zc_queue_free_slot(q), slots = q->control->slots, told = 64 * q->mark_count;
    bool some = false;
    for (uint64_t at = 1; at < told && at <= slots; at++)
        some = some || !is_marked(q, at);
    holds("a slot is found if one is free", (slot != 0) == some);
    if (slot != 0)
        holds("it is a free one", slot <= slots && slot < told && !is_marked(q, slot));
}

/* "Steps one task, alone, until it answers": 21 steps at the most. */
static zc_reply finished(const zc_queue *q, size_t task)
{
    zc_reply reply;
    int steps = 0;
    do
        reply = zc_step(TASKS_OF(q), task, ALL_OF(q));
    while (++steps < 21 && reply.code == 1);
    return reply;
}

static bool same_reply(zc_reply a, zc_reply b)
{
    return a.code == b.code && a.label == b.label && a.value == b.value;
}

static void finish(const zc_queue *from)
{
    zc_queue q = copied(from), c = copied(from);
    size_t task = draw(4);
    zc_reply ours = zc_queue_finish(&q, task), theirs = finished(&c, task);
    holds("zc_queue_finish", same_reply(ours, theirs));
    holds("zc_queue_finish: the tables", same_tables(&q, &c));
    given_back(&q);
    given_back(&c);
}

/* The busy tasks of control to their answers, then what waits. Room for 1,023: control may be damaged. */
static void drain(const zc_queue *from)
{
    enum { ROOM = 1023 };
    zc_queue q = copied(from), c = copied(from);
    size_t records = q.record_count;
    zc_reply *answers = AS(zc_reply *, block(records * sizeof *answers));
    uint64_t *slots = AS(uint64_t *, block(ROOM * sizeof *slots)), *others = COPIED(uint64_t, slots, ROOM);
    uint32_t *labels = AS(uint32_t *, block(ROOM * sizeof *labels)), *more = COPIED(uint32_t, labels, ROOM);
    zc_waiting_reply ours = zc_queue_drain(&q, answers, slots, labels);
    for (size_t task = 0; task < records; task++) {
        zc_reply wanted = {0, 0, 0};
        if (task < c.control->tasks && c.records[task].place != 0)
            wanted = finished(&c, task);
        holds("zc_queue_drain: an answer", same_reply(answers[task], wanted));
    }
    zc_waiting_reply theirs = zc_waiting(c.control, others, ROOM, more, ROOM, ROWS_OF(&c));
    is("zc_queue_drain: code", ours.code, theirs.code);
    is("zc_queue_drain: count", ours.count, theirs.count);
    holds("zc_queue_drain: slots", same_bytes(slots, others, BYTES(slots, ROOM)));
    holds("zc_queue_drain: labels", same_bytes(labels, more, BYTES(labels, ROOM)));
    holds("zc_queue_drain: the tables", same_tables(&q, &c));
    free(answers);
    free(slots);
    free(others);
    free(labels);
    free(more);
    given_back(&q);
    given_back(&c);
}

/* Label by label, by the calls; 32 where no slot is free, as the words say. */
static uint32_t refilled(const zc_queue *q, size_t task, const uint32_t *labels, size_t count)
{
    for (size_t at = 0; at < count; at++) {
        zc_reply reply;
        if (q->control->pooled) {
            reply = zc_push_pooled(TASKS_OF(q), task, 1, labels[at], ALL_OF(q));
        } else {
            uint64_t slot = zc_queue_free_slot(q);
            if (slot == 0)
                return 32;
            reply = zc_push(TASKS_OF(q), task, 1, slot, labels[at], ALL_OF(q));
        }
        if (reply.code == 1)
            reply = finished(q, task);
        if (reply.code == 5)
            return 32;
        if (reply.code != 2)
            return reply.code < 10 ? 34 : reply.code; /* no answer after 21 steps: the tables are damaged */
    }
    return 0;
}

static void refill(const zc_queue *from)
{
    uint32_t labels[5];
    size_t count = draw(6), task = draw(4);
    for (size_t at = 0; at < 5; at++)
        labels[at] = any_label();
    zc_queue q = copied(from), c = copied(from);
    is("zc_queue_refill", zc_queue_refill(&q, task, labels, count), refilled(&c, task, labels, count));
    holds("zc_queue_refill: the tables", same_tables(&q, &c));
    given_back(&q);
    given_back(&c);
}

/* Of a sound queue: behind what waited stand the labels before the refusal, in their order. */
static void refilled_behind(const zc_queue *from)
{
    enum { ROOM = 1023, MOST = 5 };
    static uint64_t slots[ROOM];
    static uint32_t before[ROOM], after[ROOM];
    uint32_t labels[MOST];
    for (size_t at = 0; at < MOST; at++)
        labels[at] = any_label();
    zc_queue q = copied(from);
    size_t task = draw(q.control->tasks);
    bool busy = q.records[task].place != 0;
    uint64_t waited = zc_waiting(q.control, slots, ROOM, before, ROOM, ROWS_OF(&q)).count;
    uint32_t code = zc_queue_refill(&q, task, labels, MOST);
    uint64_t wait = zc_waiting(q.control, slots, ROOM, after, ROOM, ROWS_OF(&q)).count;
    holds("what waited waits", same_bytes(before, after, waited * 4));
    holds("the labels behind it", same_bytes(after + waited, labels, (wait - waited) * 4));
    holds("all of them without a refusal", (code == 0) == (wait - waited == MOST));
    holds("a busy task pushes nothing", !busy || wait == waited);
    holds("the refusals", code == 0 || code == 32 || code == 33 || (busy && code == 30));
    given_back(&q);
}
#endif
