/* One label through the queue: a scale pushes it, the print head pops it. */
#include <zeppolecape.h>

#include <stdio.h>

enum { HEAD, SCALE, TASKS, SLOTS = 4 };
ZC_QUEUE_STORAGE(queue, TASKS, SLOTS);

int main(void)
{
    if (zc_queue_open_pooled(&queue, TASKS, SLOTS, 0) != 0)
        return 1;
    zc_queue_push_pooled(&queue, SCALE, ZC_RIGHT, 700);
    zc_queue_finish(&queue, SCALE);
    zc_queue_pop(&queue, HEAD, ZC_LEFT);
    zc_reply reply = zc_queue_finish(&queue, HEAD);
    printf("zeppolecape %d.%d.%d: label %u\n", ZC_VERSION_MAJOR, ZC_VERSION_MINOR,
           ZC_VERSION_PATCH, (unsigned)zc_label(reply));
    return reply.code == ZC_POPPED && zc_label(reply) == 700 ? 0 : 1;
}
