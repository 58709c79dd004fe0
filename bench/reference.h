/* The hand-written calls of reference.c, with the arguments of zeppolecape.h. */
#ifndef REFERENCE_H
#define REFERENCE_H

#include "zeppolecape.h"

#ifdef AS_LIBRARY
#define CALL(name) zc_##name
#else
#define CALL(name) reference_##name
#endif

/* The tables as each call has them: read only, or written too. */
#define TABLES(link, label, mark)                                                                  \
    link *lefts, size_t left_count, link *rights, size_t right_count, label *labels,               \
        size_t label_count, mark *marks, size_t mark_count

/* What all calls but the named opening are lent behind them. */
#define NEXT(number) number *next, size_t next_count

uint32_t CALL(open)(zc_control *control, zc_record *records, size_t record_count, uint64_t tasks,
                    uint64_t slots, uint32_t tag, TABLES(uint64_t, uint32_t, uint64_t));
uint32_t CALL(open_pooled)(zc_control *control, zc_record *records, size_t record_count,
                           uint64_t tasks, uint64_t slots, uint32_t tag,
                           TABLES(uint64_t, uint32_t, uint64_t), NEXT(uint64_t));
zc_reply CALL(push)(zc_control *control, zc_record *records, size_t record_count, size_t task,
                    uint64_t side, uint64_t slot, uint32_t label,
                    TABLES(const uint64_t, uint32_t, uint64_t), NEXT(const uint64_t));
zc_reply CALL(push_pooled)(zc_control *control, zc_record *records, size_t record_count,
                           size_t task, uint64_t side, uint32_t label,
                           TABLES(const uint64_t, const uint32_t, const uint64_t),
                           NEXT(const uint64_t));
zc_reply CALL(pop)(zc_control *control, zc_record *records, size_t record_count, size_t task,
                   uint64_t side, TABLES(const uint64_t, const uint32_t, const uint64_t),
                   NEXT(const uint64_t));
zc_reply CALL(step)(zc_control *control, zc_record *records, size_t record_count, size_t task,
                    TABLES(uint64_t, uint32_t, uint64_t), NEXT(uint64_t));
zc_reply CALL(step_record)(zc_control *control, zc_record *one,
                           TABLES(uint64_t, uint32_t, uint64_t), NEXT(uint64_t));
#ifdef AS_LIBRARY /* alone it would be a second caller of the step that is measured */
zc_run_reply zc_run(zc_control *control, zc_record *records, size_t record_count, size_t task,
                    uint64_t most, TABLES(uint64_t, uint32_t, uint64_t), NEXT(uint64_t));
#endif
zc_report_reply CALL(report)(const zc_control *control, const zc_record *records,
                             size_t record_count,
                             TABLES(const uint64_t, const uint32_t, const uint64_t),
                             NEXT(const uint64_t));
zc_find_reply CALL(find)(const zc_control *control, const uint32_t *asked, size_t asked_count,
                         TABLES(const uint64_t, const uint32_t, const uint64_t));
zc_waiting_reply CALL(waiting)(const zc_control *control, uint64_t *slots_out,
                               size_t slots_out_count, uint32_t *labels_out,
                               size_t labels_out_count,
                               TABLES(const uint64_t, const uint32_t, const uint64_t));

#endif
