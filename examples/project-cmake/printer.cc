// Two labels through the queue, in C++: two scales push, the print head pops.
#include <zeppolecape.h>

#include <cstdio>

enum { HEAD, SCALE, OTHER_SCALE, TASKS, SLOTS = 4 };
ZC_QUEUE_STORAGE(queue, TASKS, SLOTS);

int main()
{
    if (zc_queue_open_pooled(&queue, TASKS, SLOTS, 0) != 0)
        return 1;
    zc_queue_push_pooled(&queue, SCALE, ZC_RIGHT, 700);
    zc_queue_push_pooled(&queue, OTHER_SCALE, ZC_RIGHT, 800);
    zc_queue_finish(&queue, OTHER_SCALE); // the first scale may be stopped meanwhile
    zc_queue_finish(&queue, SCALE);
    zc_queue_pop(&queue, HEAD, ZC_LEFT);
    const zc_reply reply = zc_queue_finish(&queue, HEAD);
    std::printf("zeppolecape %d.%d.%d: label %u\n", ZC_VERSION_MAJOR, ZC_VERSION_MINOR,
                ZC_VERSION_PATCH, static_cast<unsigned>(zc_label(reply)));
    return reply.code == ZC_POPPED && zc_label(reply) == 800 ? 0 : 1;
}
