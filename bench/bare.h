/* The algorithm alone: figures 1 to 5 with tags, and the pool's stack; no refusal, no length. */
#ifndef BARE_H
#define BARE_H

#include "zeppolecape.h"

zc_reply bare_step(zc_control *control, zc_record *record, uint64_t *lefts, uint64_t *rights,
                   uint32_t *labels, uint64_t *marks, uint64_t *next);

#endif
