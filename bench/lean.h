/* A second step by hand in C: zc_step with the fewest instructions. */
#ifndef LEAN_H
#define LEAN_H

#include "zeppolecape.h"

zc_reply lean_step(zc_control *control, zc_record *records, size_t record_count, size_t task,
                   uint64_t *lefts, size_t left_count, uint64_t *rights, size_t right_count,
                   uint32_t *labels, size_t label_count, uint64_t *marks, size_t mark_count,
                   uint64_t *next, size_t next_count);

#endif
