/*
 * A small executive: five tasks share one label queue and take turns at random, one touch at a
 * time. Three scales push labels at the right, the reprint desk pushes at the left, and the print
 * head pops at the left. Slots come from the queue's pool; while there is none a push is started
 * again. At the end every label that was pushed must have reached the head once, or still be
 * waiting.
 *
 *     make
 *     cc -Iinclude examples/c/executive.c target/lib/libzeppolecape.a -o executive
 *     ./executive [seed]
 */
#include "zeppolecape.h"

#include <inttypes.h>
#include <stdio.h>
#include <stdlib.h>

enum { TASKS = 5, HEAD = 0, DESK = 4, SLOTS = 12, TOUCHES = 1000, MOST_LABELS = TOUCHES };

ZC_QUEUE_STORAGE(queue, TASKS, SLOTS);

/* What became of label n, the n-th that was started. */
static int pushed[MOST_LABELS], printed[MOST_LABELS];
static uint32_t under_way[TASKS], next_label, printed_count;
static int put_off[TASKS]; /* the task's label found no slot */

static uint64_t random_below(uint64_t *state, uint64_t limit)
{
    *state ^= *state << 13;
    *state ^= *state >> 7;
    *state ^= *state << 17;
    return (*state >> 20) % limit;
}

/* The executive has one thing to do with a refusal that it did not expect: stop. */
static zc_reply expect(zc_reply reply)
{
    if (zc_refused(reply)) {
        fprintf(stderr, "refused %" PRIu32 ": %s\n", reply.code, zc_refusal_text(reply.code));
        exit(2);
    }
    return reply;
}

/* An idle task starts its next call, or a push that was put off. */
static void start(size_t task)
{
    if (task == HEAD) {
        expect(zc_queue_pop(&queue, HEAD, ZC_LEFT));
        return;
    }
    uint64_t side = task == DESK ? ZC_LEFT : ZC_RIGHT;
    if (!put_off[task])
        under_way[task] = next_label++;
    put_off[task] = 0;
    expect(zc_queue_push_pooled(&queue, task, side, under_way[task]));
}

/* A busy task makes one step. */
static void step(size_t task)
{
    zc_reply reply = expect(zc_queue_step(&queue, task));
    switch (reply.code) {
    case ZC_PUSHED: pushed[under_way[task]]++; break;
    case ZC_NO_FREE_SLOT: put_off[task] = 1; break;
    case ZC_POPPED:
        printf("%3" PRIu32 "%s", zc_label(reply), ++printed_count % 20 ? " " : "\n");
        printed[zc_label(reply)]++;
        break;
    default: break; /* running, or the head found the queue empty */
    }
}

/* Counts the labels still waiting. */
static uint64_t walk(int *waiting)
{
    uint64_t slots[SLOTS];
    uint32_t labels[SLOTS];
    zc_waiting_reply reply = zc_queue_waiting(&queue, slots, labels, SLOTS);
    for (size_t at = 0; at < reply.count; at++)
        waiting[labels[at]]++;
    return reply.count;
}

int main(int argc, char **argv)
{
    static int waiting[MOST_LABELS];
    uint64_t state = argc > 1 ? strtoull(argv[1], NULL, 10) : 1;
    state = state * UINT64_C(0x9e3779b97f4a7c15) | 1;

    if (zc_queue_open_pooled(&queue, TASKS, SLOTS, 0) != 0)
        return 2;
    puts("the head got:");
    for (int touch = 0; touch < TOUCHES; touch++) {
        size_t task = random_below(&state, TASKS);
        if (queue_tables.records[task].place == 0)
            start(task);
        else
            step(task);
    }
    /* Alone, a task answers within a few steps; one that does not stays busy in the report. */
    for (size_t task = 0; task < TASKS; task++)
        for (int touch = 0; touch < ZC_POOLED_PUSH_STEPS; touch++)
            if (queue_tables.records[task].place != 0)
                step(task);

    zc_report_reply report = zc_queue_report(&queue);
    uint64_t count = walk(waiting);
    uint32_t left_over = 0;
    for (size_t task = 0; task < TASKS; task++)
        left_over += (uint32_t)put_off[task];
    printf("\n%" PRIu32 " pushed, %" PRIu32 " printed, %" PRIu64 " waiting; retries by task:",
           next_label - left_over, printed_count, count);
    for (size_t task = 0; task < TASKS; task++)
        printf(" %" PRIu64, report.retries[task]);
    printf("\n");

    int lost = report.code != 0 || report.busy != 0 || report.waiting != count ||
               printed_count + count != next_label - left_over;
    for (uint32_t label = 0; label < next_label; label++)
        if (pushed[label] > 1 || printed[label] + waiting[label] != pushed[label]) {
            printf("label %" PRIu32 ": pushed %d, printed %d, waiting %d\n", label, pushed[label],
                   printed[label], waiting[label]);
            lost = 1;
        }
    puts(lost ? "LOST a label" : "no label lost");
    return lost;
}
