/*
 * Five threads share one label queue without a lock: two scales push at the right, the reprint desk
 * pushes at the left, the print head pops at the left, and a cancel pops at the right. Slots come from
 * the queue's pool; a push that finds none is made again. At the end every label was printed
 * once or cancelled once, and none waits.
 *
 *     make
 *     cc -Iinclude examples/c/threads.c target/lib/libzeppolecape.a -pthread -o threads && ./threads
 */
#define _XOPEN_SOURCE 700
#include "zeppolecape_atomic.h"

#include <pthread.h>
#include <sched.h>
#include <stdio.h>
#include <stdlib.h>

enum { SCALE, OTHER_SCALE, DESK, HEAD, CANCEL, TASKS, WRITERS = HEAD, SLOTS = 100 };
enum { LABELS = 20000 }; /* of each writer: the n-th of task t is WRITERS * n + t */

ZC_QUEUE_STORAGE(queue, TASKS, SLOTS);
static zc_shared shared;

/* Each label, written by the one thread that got it: by which task, from 1; 0 while nobody has it. */
static unsigned char got[WRITERS * LABELS];
static uint64_t counts[TASKS];
static int writing = WRITERS; /* writers that have not ended */

static zc_reply expect(zc_reply reply)
{
    if (zc_refused(reply)) {
        fprintf(stderr, "refused %u: %s\n", (unsigned)reply.code, zc_refusal_text(reply.code));
        exit(2);
    }
    return reply;
}

static void *writer(void *numbered)
{
    size_t task = (size_t)((zc_record *)numbered - queue_tables.records);
    uint64_t side = task == DESK ? ZC_LEFT : ZC_RIGHT;
    for (uint32_t at = 0; at < LABELS; at++) {
        uint32_t label = WRITERS * at + (uint32_t)task;
        while (expect(zc_atomic_push_pooled(&shared, numbered, side, label)).code != ZC_PUSHED)
            sched_yield(); /* every slot is in use */
        counts[task]++;
    }
    __atomic_fetch_sub(&writing, 1, __ATOMIC_SEQ_CST);
    return NULL;
}

/* The head goes on until the writers have ended and nothing waits; so does the cancel, less often. */
static void *reader(void *numbered)
{
    size_t task = (size_t)((zc_record *)numbered - queue_tables.records);
    for (;;) {
        int last = __atomic_load_n(&writing, __ATOMIC_SEQ_CST) == 0;
        zc_reply reply = expect(zc_atomic_pop(&shared, numbered, task == HEAD ? ZC_LEFT : ZC_RIGHT));
        if (reply.code == ZC_POPPED) {
            got[zc_label(reply)] = (unsigned char)(got[zc_label(reply)] == 0 ? task + 1 : 255);
            counts[task]++;
        } else if (last) {
            return NULL;
        }
        if (task == CANCEL || reply.code == ZC_EMPTY)
            sched_yield();
    }
}

int main(void)
{
    if (zc_queue_open_pooled(&queue, TASKS, SLOTS, 0) != 0)
        return 2;
    shared = zc_share(&queue);
    pthread_t threads[TASKS];
    for (size_t task = 0; task < TASKS; task++)
        if (pthread_create(&threads[task], NULL, task < WRITERS ? writer : reader,
                           &queue_tables.records[task]) != 0)
            return 2;
    for (size_t task = 0; task < TASKS; task++)
        pthread_join(threads[task], NULL);

    /* At rest: any other call may look. */
    zc_report_reply report = zc_queue_report(&queue);
    uint64_t lost = 0;
    for (size_t label = 0; label < WRITERS * LABELS; label++)
        lost += got[label] != HEAD + 1 && got[label] != CANCEL + 1;
    printf("%u pushed, %u printed, %u cancelled; retries by task:", (unsigned)(WRITERS * LABELS),
           (unsigned)counts[HEAD], (unsigned)counts[CANCEL]);
    for (size_t task = 0; task < TASKS; task++)
        printf(" %u", (unsigned)report.retries[task]);
    printf("\n");
    if (lost != 0 || report.code != 0 || report.busy != 0 || report.waiting != 0 ||
        counts[HEAD] + counts[CANCEL] != WRITERS * LABELS)
        return printf("LOST %u labels\n", (unsigned)lost), 1;
    return puts("no label lost"), 0;
}
