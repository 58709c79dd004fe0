/*
 * A list carried out, by hand in C: an opening, then a call of reference.c for each request. It is the
 * yardstick of the benchmark and stands for the library in tests/library.
 */
#include "serve.h"

#define QUEUE control, records, record_count
#define ROWS lefts, left_count, rights, right_count, labels, label_count, marks, mark_count
#define LENT ROWS, next, next_count

zc_serve_reply CALL(serve)(zc_control *control, zc_record *records, size_t record_count,
                           uint64_t pooled, uint64_t tasks, uint64_t slots, uint32_t tag,
                           const uint64_t *requests, size_t request_words, uint64_t *replies,
                           size_t reply_words, TABLES(uint64_t, uint32_t, uint64_t), NEXT(uint64_t))
{
    zc_serve_reply served = {0, 0};
    served.code = pooled != 0 ? CALL(open_pooled)(QUEUE, tasks, slots, tag, LENT)
                              : CALL(open)(QUEUE, tasks, slots, tag, ROWS);
    if (served.code != 0)
        return served;
    for (; request_words >= 5 && reply_words >= 3; request_words -= 5, reply_words -= 3) {
        uint64_t side = requests[2], slot = requests[3];
        uint32_t label = (uint32_t)requests[4];
        size_t task = requests[0];
        zc_reply reply;
        switch (requests[1]) {
        case 0: reply = CALL(push)(QUEUE, task, side, slot, label, LENT); break;
        case 1: reply = CALL(pop)(QUEUE, task, side, LENT); break;
        case 2: reply = CALL(push_pooled)(QUEUE, task, side, label, LENT); break;
        default: reply = CALL(step)(QUEUE, task, LENT); break;
        }
        replies[0] = reply.code;
        replies[1] = reply.label;
        replies[2] = reply.value;
        requests += 5;
        replies += 3;
        served.served++;
    }
    return served;
}
