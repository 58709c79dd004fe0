/* Random numbers from a seed, xorshift64, for the programs of bench/ and tests/. */
#ifndef DRAW_H
#define DRAW_H

#include <stdbool.h>
#include <stdint.h>

static uint64_t state = UINT64_C(88172645463325252);

static inline uint64_t draw(uint64_t below)
{
    state ^= state << 13;
    state ^= state >> 7;
    state ^= state << 17;
    return (state >> 16) % below;
}

static inline bool once_in(uint64_t times) { return draw(times) == 0; }

/* Some of the slots 1 to `slots` in any order: the first `count` of `order`, which has room for all. */
static inline void draw_slots(uint64_t *order, uint64_t slots, uint64_t count)
{
    for (uint64_t at = 0; at < slots; at++)
        order[at] = at + 1;
    for (uint64_t at = 0; at < count; at++) {
        uint64_t other = at + draw(slots - at), slot = order[other];
        order[other] = order[at];
        order[at] = slot;
    }
}
#endif
