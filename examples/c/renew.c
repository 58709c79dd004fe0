/*
 * What to do about refusal 33. Each change of the queue uses up a tag, and after four thousand
 * million of them every start is refused 33. The way on: step the calls under way to their answers,
 * read out the labels waiting, open again, push the labels again.
 *
 * Here the first tag lies so high that this happens every few labels. Two scales push at the right,
 * the print head pops at the left; each label must reach the head once, those of a scale in order.
 * A label that finds no slot in the pool is pushed again at its scale's next turn.
 *
 *     make
 *     cc -Iinclude examples/c/renew.c target/lib/libzeppolecape.a -o renew && ./renew
 */
#include "zeppolecape.h"

#include <inttypes.h>
#include <stdio.h>
#include <stdlib.h>

enum { TASKS = 3, HEAD = 0, SLOTS = 8, LABELS = 1000 };
static const uint32_t FIRST_TAG = (uint32_t)ZC_LAST_START_TAG - 50;

ZC_QUEUE_STORAGE(queue, TASKS, SLOTS);

static uint32_t started[TASKS]; /* labels of each scale: the n-th of task t is TASKS * n + t */
static uint32_t printed[TASKS]; /* of these, in order */
static uint32_t renewals;

static void stop(const char *what, uint64_t number)
{
    printf("LOST: %s %" PRIu64 "\n", what, number);
    exit(1);
}

/* An answer reaches its task: the head prints a popped label, which must be its scale's next. */
static void take(size_t task, zc_reply reply)
{
    if (zc_refused(reply))
        stop(zc_refusal_text(reply.code), reply.code);
    if (reply.code == ZC_NO_FREE_SLOT)
        started[task]--;
    if (reply.code != ZC_POPPED)
        return;
    uint32_t scale = zc_label(reply) % TASKS;
    if (zc_label(reply) / TASKS != printed[scale]++)
        stop("out of order, label", zc_label(reply));
}

/* After 33. A program in service opens with first tag 0, and comes here after four thousand million changes. */
static void renew(void)
{
    zc_reply answers[TASKS];
    uint64_t slots[SLOTS];
    uint32_t labels[SLOTS];
    zc_waiting_reply drained = zc_queue_drain(&queue, answers, slots, labels);
    if (drained.code != 0)
        stop(zc_refusal_text(drained.code), drained.code);
    for (size_t task = 0; task < TASKS; task++)
        take(task, answers[task]);
    uint64_t code = zc_queue_open_pooled(&queue, TASKS, SLOTS, FIRST_TAG);
    if (code == 0)
        code = zc_queue_refill(&queue, HEAD, labels, (size_t)drained.count);
    if (code != 0)
        stop(zc_refusal_text(code), code);
    renewals++;
}

static void start(size_t task)
{
    if (task != HEAD && started[task] == LABELS)
        return;
    uint32_t label = (uint32_t)(TASKS * started[task] + task);
    zc_reply reply = task == HEAD ? zc_queue_pop(&queue, HEAD, ZC_LEFT)
                                  : zc_queue_push_pooled(&queue, task, ZC_RIGHT, label);
    if (reply.code == ZC_WORN) {
        renew();
        return; /* the task tries again at its next turn */
    }
    take(task, reply);
    started[task]++;
}

int main(void)
{
    static const unsigned char turns[] = {HEAD, 1, 2, HEAD, 1, 2, 2}; /* labels gather, and go */
    if (zc_queue_open_pooled(&queue, TASKS, SLOTS, FIRST_TAG) != 0)
        return 2;
    for (uint32_t turn = 0; turn < 100 * LABELS; turn++) {
        size_t task = turns[turn % sizeof turns];
        if (queue_tables.records[task].place == 0)
            start(task);
        else
            take(task, zc_queue_step(&queue, task));
    }
    printf("%" PRIu32 " labels pushed, %" PRIu32 " printed, %" PRIu32 " renewals\n",
           started[1] + started[2], printed[1] + printed[2], renewals);
    if (printed[1] != LABELS || printed[2] != LABELS || renewals == 0)
        stop("not every label was printed; renewals", renewals);
    puts("no label lost");
    return 0;
}
