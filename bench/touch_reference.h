/* The calls of zeppolecape_atomic.h by hand, of touch_reference.c: reference_*, or zc_* with -DAS_LIBRARY. */
#ifndef TOUCH_REFERENCE_H
#define TOUCH_REFERENCE_H

#include "zeppolecape_atomic.h"

#ifdef AS_LIBRARY
#define TOUCH_CALL(name) zc_##name
#else
#define TOUCH_CALL(name) reference_##name
#endif

zc_touch TOUCH_CALL(plan)(uint64_t slots, uint64_t pooled, const zc_record *own);
zc_onward TOUCH_CALL(settle_plan)(uint64_t slots, uint64_t pooled, zc_record *own, uint64_t found);
zc_onward TOUCH_CALL(settle_unasked)(uint64_t slots, uint64_t pooled, zc_record *own, uint64_t found);
zc_touch TOUCH_CALL(plan_start)(uint64_t slots, uint64_t pooled, const zc_record *own,
                                const zc_start *start);
zc_onward TOUCH_CALL(settle_start)(uint64_t slots, uint64_t pooled, zc_record *own,
                                   const zc_start *start, uint32_t act, uint64_t found);
zc_onward TOUCH_CALL(start_loaded)(uint64_t slots, uint64_t pooled, zc_record *own,
                                   const zc_start *start, uint64_t anchor);

#endif
