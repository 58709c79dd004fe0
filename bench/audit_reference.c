/*
 * The audit of a history by hand, from document 02 alone: what the library's is timed against.
 * With -DAS_LIBRARY it stands for the library.
 */
#ifdef AS_LIBRARY
#include "zeppolecape.h"
#define OWN static
#else
#include "audit_reference.h"
#define OWN
#endif

static int is_call(const zc_finished *call)
{
    return call->kind <= ZC_POP && call->side <= ZC_RIGHT && call->answer >= ZC_PUSHED &&
           call->answer <= ZC_POPPED && call->start < call->end;
}

/* No event of one is an event of the other. */
static int are_apart(const zc_finished *one, const zc_finished *other)
{
    return one->start != other->start && one->start != other->end && one->end != other->start &&
           one->end != other->end;
}

static int is_history(const zc_finished *calls, size_t count)
{
    if (count > ZC_MOST_CALLS)
        return 0;
    for (size_t n = 0; n < count; n++) {
        if (!is_call(&calls[n]))
            return 0;
        for (size_t m = 0; m < n; m++)
            if (!are_apart(&calls[m], &calls[n]))
                return 0;
    }
    return 1;
}

static int is_rearrangement(size_t count, const uint64_t *order, size_t order_count)
{
    uint64_t named = 0; /* a bit for each of at most 64 calls */
    if (order_count != count)
        return 0;
    for (size_t n = 0; n < count; n++) {
        if (order[n] < 1 || order[n] > count || (named >> (order[n] - 1) & 1))
            return 0;
        named |= UINT64_C(1) << (order[n] - 1);
    }
    return 1;
}

/* The labels waiting: those of held from first up to last. */
struct plain_queue {
    uint64_t held[2 * ZC_MOST_CALLS];
    size_t first, last;
};

/* Serves the call; whether its answer is the queue's. */
static int is_served(struct plain_queue *queue, const zc_finished *call)
{
    if (call->kind == ZC_PUSH) {
        if (call->side == ZC_LEFT)
            queue->held[--queue->first] = call->label;
        else
            queue->held[queue->last++] = call->label;
        return call->answer == ZC_PUSHED;
    }
    if (queue->first == queue->last)
        return call->answer == ZC_EMPTY;
    uint64_t label = call->side == ZC_LEFT ? queue->held[queue->first++] : queue->held[--queue->last];
    return call->answer == ZC_POPPED && call->label == label;
}

/* Whether the call at a position stands before one that was answered before it started. */
static int is_early(const zc_finished *calls, const uint64_t *order, size_t count, size_t at)
{
    uint64_t start = calls[order[at] - 1].start;
    for (size_t n = at + 1; n < count; n++)
        if (calls[order[n] - 1].end < start)
            return 1;
    return 0;
}

OWN zc_verdict reference_audit(const zc_finished *calls, size_t call_count, const uint64_t *order,
                               size_t order_count)
{
    struct plain_queue queue;
    if (!is_history(calls, call_count))
        return (zc_verdict){ZC_BAD_HISTORY, 0};
    if (!is_rearrangement(call_count, order, order_count))
        return (zc_verdict){ZC_FAILS, 0};
    queue.first = queue.last = ZC_MOST_CALLS;
    for (size_t n = 0; n < order_count; n++)
        if (!is_served(&queue, &calls[order[n] - 1]) || is_early(calls, order, order_count, n))
            return (zc_verdict){ZC_FAILS, (uint32_t)n + 1};
    return (zc_verdict){ZC_PASSES, 0};
}

#ifdef AS_LIBRARY
zc_verdict zc_audit_words(const uint64_t *words, size_t word_count, const uint64_t *order,
                          size_t order_count)
{
    return reference_audit((const zc_finished *)words, word_count / 7, order, order_count);
}
#endif
