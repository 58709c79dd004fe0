/*
 * Two lanes into one. The second lane closes for the night: what still waits there joins what waits in
 * the first, in a fresh queue that goes on for both. Labels are numbered in the order in which they
 * were weighed, so each lane ascends, and so does the queue that both become.
 *
 *     cc -Iinclude examples/c/lanes.c target/lib/libzeppolecape.a -o lanes && ./lanes
 */
#include "zeppolecape.h"

#include <stdio.h>

enum { SLOTS = 8 };

ZC_NAMED_STORAGE(first, 2, SLOTS);
ZC_NAMED_STORAGE(second, 2, SLOTS);
ZC_NAMED_STORAGE(both, 2, 2 * SLOTS);

static void push(const zc_queue *lane, uint64_t slot, uint32_t label)
{
    zc_queue_push(lane, 0, ZC_RIGHT, slot, label);
    zc_queue_finish(lane, 0);
}

static void join(const char *when)
{
    uint32_t code = zc_queue_join(&first, &second, &both);
    if (code == 0)
        printf("%s: joined\n", when);
    else
        printf("%s: refused %u, %s\n", when, (unsigned)code, zc_refusal_text(code));
}

int main(void)
{
    zc_queue_open(&first, 2, SLOTS, 0);
    zc_queue_open(&second, 2, SLOTS, 0);
    zc_queue_open(&both, 2, 2 * SLOTS, 0);
    push(&first, 5, 101);
    push(&first, 2, 104);
    push(&first, 8, 105);
    push(&second, 1, 102);
    push(&second, 7, 103);
    push(&second, 3, 106);

    zc_queue_push(&second, 1, ZC_RIGHT, 4, 107); /* a scale stops in the middle of its push */
    zc_queue_step(&second, 1);
    join("the second lane is busy");
    zc_queue_finish(&second, 1);
    join("both are at rest");

    printf("prints");
    for (;;) {
        zc_queue_pop(&both, 1, ZC_LEFT);
        zc_reply got = zc_queue_finish(&both, 1);
        if (got.code != ZC_POPPED)
            break;
        printf(" %u", (unsigned)got.label);
    }
    printf("\n");
    return 0;
}
