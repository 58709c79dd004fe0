/* A first program: task 0 pushes label 700, task 1 pops it. */
#include <stdio.h>
#include "zeppolecape.h"

ZC_QUEUE_STORAGE(queue, 2, 3); /* the tables, for 2 tasks and 3 slots */

int main(void)
{
    zc_queue_open_pooled(&queue, 2, 3, 0);          /* first tag 0; answers 0, or a refusal's number */
    zc_queue_push_pooled(&queue, 0, ZC_RIGHT, 700); /* task 0 starts a push at the right */
    zc_reply reply;
    do
        reply = zc_queue_step(&queue, 0); /* one touch; other tasks may step in between */
    while (reply.code == ZC_RUNNING);
    if (reply.code == ZC_PUSHED)
        printf("task 0: pushed\n");
    zc_queue_pop(&queue, 1, ZC_LEFT);   /* task 1 starts a pop at the left */
    reply = zc_queue_finish(&queue, 1); /* and is stepped until it answers */
    if (reply.code == ZC_POPPED)
        printf("task 1: popped %u\n", zc_label(reply));
    return 0;
}
