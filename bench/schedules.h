/* zc_next_schedule by hand, with the arguments of zeppolecape.h. */
#ifndef SCHEDULES_H
#define SCHEDULES_H

#include "reference.h"

zc_schedule_reply CALL(next_schedule)(const zc_control *control, const zc_record *records,
                                      size_t record_count, uint64_t *schedule,
                                      size_t schedule_count, TABLES(uint64_t, uint32_t, uint64_t),
                                      NEXT(uint64_t));

#endif
