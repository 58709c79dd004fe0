/*
 * The queue with an interrupt, and nothing masked. Five tasks share it: the print head and three
 * scales run in the main program, the reprint desk in the handler of a timer signal. The handler has a
 * record of its own and makes whole calls, wherever the signal comes: between two instructions of a
 * push or a pop in the main program too. No label is lost. Slots come from the queue's pool; a label
 * that finds none is pushed again at the task's next turn.
 *
 *     make
 *     cc -Iinclude examples/c/interrupt.c target/lib/libzeppolecape.a -o interrupt && ./interrupt
 *
 * It ends by itself after three thousand signals, within a second on an idle machine and five on
 * any. With -DPLAIN it makes the plain calls of zeppolecape.h instead, which must be masked: labels
 * are lost, or a call is refused.
 */
#define _XOPEN_SOURCE 700
#include "zeppolecape_atomic.h"

#include <inttypes.h>
#include <signal.h>
#include <stdio.h>
#include <stdlib.h>
#include <sys/time.h>
#include <time.h>
#include <unistd.h>

enum { TASKS = 5, HEAD = 0, DESK = 4, SLOTS = 12 };
enum { PERIOD_US = 100, SIGNALS = 3000, FEWEST_SIGNALS = 100, LONGEST_S = 5, MOST_LABELS = 1 << 18 };

ZC_QUEUE_STORAGE(queue, TASKS, SLOTS);
static zc_shared shared;

/* Each task numbers its labels: the n-th of task t is TASKS * n + t. Printed, waiting. */
static unsigned char printed[TASKS * MOST_LABELS], waiting[TASKS * MOST_LABELS];
static uint32_t pushed[TASKS];
static volatile sig_atomic_t signals;

/* Also called in the handler, where only write and _exit are safe. */
static zc_reply expect(zc_reply reply)
{
    static const char text[] = "LOST: a call was refused\n";
    if (zc_refused(reply))
        _exit(write(STDERR_FILENO, text, sizeof text - 1) < 0 ? 3 : 2);
    return reply;
}

static zc_reply pop(size_t task)
{
#ifndef PLAIN
    return zc_atomic_pop(&shared, &queue_tables.records[task], ZC_LEFT);
#else
    expect(zc_queue_pop(&queue, task, ZC_LEFT));
    return zc_queue_finish(&queue, task);
#endif
}

static zc_reply push(size_t task, uint64_t side, uint32_t label)
{
#ifndef PLAIN
    return zc_atomic_push_pooled(&shared, &queue_tables.records[task], side, label);
#else
    expect(zc_queue_push_pooled(&queue, task, side, label));
    return zc_queue_finish(&queue, task);
#endif
}

/* One call of one task, from its start to its answer. */
static void call(size_t task)
{
    if (task == HEAD) {
        zc_reply reply = expect(pop(task));
        if (reply.code == ZC_POPPED)
            printed[zc_label(reply)]++;
        return;
    }
    if (pushed[task] == MOST_LABELS)
        return;
    uint32_t label = (uint32_t)(TASKS * pushed[task] + task);
    if (expect(push(task, task == DESK ? ZC_LEFT : ZC_RIGHT, label)).code == ZC_PUSHED)
        pushed[task]++;
}

/* From one label of the desk to four. */
static void on_alarm(int number)
{
    (void)number;
    for (int calls = 0; calls <= signals % 4; calls++)
        call(DESK);
    signals++;
}

static void set_timer(long period_us)
{
    struct itimerval timer = {{0, period_us}, {0, period_us}};
    setitimer(ITIMER_REAL, &timer, NULL);
}

/* Every label pushed was printed once or waits. */
static int check(void)
{
    uint64_t slots[SLOTS];
    uint32_t labels[SLOTS];
    uint64_t count = zc_queue_waiting(&queue, slots, labels, SLOTS).count;
    for (size_t at = 0; at < count; at++)
        waiting[labels[at]]++;
    uint64_t all = 0, wrong = 0, from_desk = pushed[DESK];
    for (size_t task = 1; task < TASKS; task++)
        for (uint32_t at = 0; at < pushed[task]; at++, all++) {
            size_t label = TASKS * (size_t)at + task;
            wrong += printed[label] + waiting[label] != 1;
        }
    zc_report_reply report = zc_queue_report(&queue);
    uint64_t retries = 0;
    for (size_t task = 0; task < TASKS; task++)
        retries += report.retries[task];
    printf("%d signals; %" PRIu64 " labels, %" PRIu64 " of them pushed by the interrupt, %" PRIu64
           " waiting; %" PRIu64 " changes were interrupted and made again\n",
           (int)signals, all, from_desk, count, retries);
    if (signals < FEWEST_SIGNALS || from_desk == 0)
        return puts("too few signals to tell"), 3;
    if (wrong != 0 || report.code != 0 || report.busy != 0 || report.waiting != count)
        return printf("LOST: %" PRIu64 " labels\n", wrong), 1;
    return puts("no label lost"), 0;
}

int main(void)
{
    struct sigaction action = {.sa_handler = on_alarm, .sa_flags = SA_RESTART};
    sigemptyset(&action.sa_mask);
    if (zc_queue_open_pooled(&queue, TASKS, SLOTS, 0) != 0 || sigaction(SIGALRM, &action, NULL) != 0)
        return 2;
    shared = zc_share(&queue);

    static const unsigned char turns[] = {HEAD, 1, HEAD, 2, HEAD, 3, HEAD};
    time_t end = time(NULL) + LONGEST_S;
    set_timer(PERIOD_US);
    for (uint32_t turn = 0; signals < SIGNALS && (turn % 1024 != 0 || time(NULL) <= end); turn++)
        call(turns[turn % sizeof turns]);
    set_timer(0);

    sigset_t alarm_signal; /* one may have come just now: from here on nobody else runs */
    sigemptyset(&alarm_signal);
    sigaddset(&alarm_signal, SIGALRM);
    sigprocmask(SIG_BLOCK, &alarm_signal, NULL);
    return check();
}
