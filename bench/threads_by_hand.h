// Michael's deque and the pool of slots by hand, with atomics and without refusals: what a programmer
// writes who proves nothing. `Stop` is called between any two touches.
#ifndef THREADS_BY_HAND_H
#define THREADS_BY_HAND_H

#include "zeppolecape_atomic.h"

struct NeverStops {
    static void here() {}
};

template <class Stop> struct ByHand {
    const zc_shared &q;

    static uint64_t load(uint64_t *word)
    {
        Stop::here();
        return __atomic_load_n(word, __ATOMIC_SEQ_CST);
    }
    static bool swap(uint64_t *word, uint64_t expected, uint64_t wanted)
    {
        Stop::here();
        return __atomic_compare_exchange_n(word, &expected, wanted, false, __ATOMIC_SEQ_CST, __ATOMIC_SEQ_CST);
    }
    static uint64_t anchor(uint64_t seen, uint64_t status, uint64_t left, uint64_t right)
    {
        return (zc_anchor_tag(seen) + 1) << 32 | status << 30 | left << 15 | right;
    }
    static uint64_t end(uint64_t seen, bool right) { return right ? zc_anchor_right(seen) : zc_anchor_left(seen); }
    uint64_t *links(bool right) const { return right ? q.rights : q.lefts; }

    void mend(uint64_t seen) const
    {
        bool right = zc_anchor_status(seen) == ZC_RPUSH;
        uint64_t last = end(seen, right), near = zc_link_slot(load(&links(!right)[last]));
        if (load(q.anchor) != seen)
            return;
        uint64_t *back = &links(right)[near], link = load(back);
        if (zc_link_slot(link) != last) {
            if (load(q.anchor) != seen || !swap(back, link, (zc_link_tag(link) + 1) << 32 | last))
                return;
        }
        swap(q.anchor, seen, anchor(seen, ZC_STABLE, zc_anchor_left(seen), zc_anchor_right(seen)));
    }

    void push(bool right, uint64_t slot, uint32_t label) const
    {
        __atomic_store_n(&q.labels[slot], label, __ATOMIC_SEQ_CST);
        for (;;) {
            uint64_t seen = load(q.anchor), status = zc_anchor_status(seen);
            if (zc_anchor_left(seen) == 0) {
                if (swap(q.anchor, seen, anchor(seen, status, slot, slot)))
                    return;
                continue;
            }
            if (status != ZC_STABLE) {
                mend(seen);
                continue;
            }
            uint64_t *own = &links(!right)[slot];
            __atomic_store_n(own, zc_link_tag(load(own)) << 32 | end(seen, right), __ATOMIC_SEQ_CST);
            uint64_t after = right ? anchor(seen, ZC_RPUSH, zc_anchor_left(seen), slot)
                                   : anchor(seen, ZC_LPUSH, slot, zc_anchor_right(seen));
            if (swap(q.anchor, seen, after))
                return mend(after);
        }
    }

    uint64_t pop(bool right, uint32_t *label) const // the slot; 0: empty
    {
        for (;;) {
            uint64_t seen = load(q.anchor), left = zc_anchor_left(seen), last = end(seen, right);
            if (left == 0)
                return 0;
            uint64_t after = anchor(seen, zc_anchor_status(seen), 0, 0);
            if (left != zc_anchor_right(seen)) {
                if (zc_anchor_status(seen) != ZC_STABLE) {
                    mend(seen);
                    continue;
                }
                uint64_t near = zc_link_slot(load(&links(!right)[last]));
                after = right ? anchor(seen, 0, left, near) : anchor(seen, 0, near, zc_anchor_right(seen));
            }
            if (swap(q.anchor, seen, after)) {
                *label = __atomic_load_n(&q.labels[last], __ATOMIC_SEQ_CST);
                return last;
            }
        }
    }

    uint64_t draw() const // a slot from the pool; 0: none
    {
        for (;;) {
            uint64_t head = load(q.head), slot = zc_link_slot(head);
            if (slot == 0 || swap(q.head, head, (zc_link_tag(head) + 1) << 32 | load(&q.next[slot])))
                return slot;
        }
    }

    void give(uint64_t slot) const
    {
        uint64_t head;
        do {
            head = load(q.head);
            __atomic_store_n(&q.next[slot], zc_link_slot(head), __ATOMIC_SEQ_CST);
        } while (!swap(q.head, head, (zc_link_tag(head) + 1) << 32 | slot));
    }
};

#endif
