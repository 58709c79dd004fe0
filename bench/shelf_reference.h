/* Shelves of reference.c's kind: by hand in C, with the arguments of zc_save and zc_return. */
#ifndef SHELF_REFERENCE_H
#define SHELF_REFERENCE_H

#include "zeppolecape.h"

#ifdef AS_LIBRARY
#define SAVE zc_save
#define RETURN zc_return
#else
#define SAVE reference_save
#define RETURN reference_return
#endif

uint32_t SAVE(const zc_control *control, const zc_record *records, size_t record_count,
              zc_control *shelf_controls, size_t shelf_control_count, zc_record *shelf_records,
              size_t shelf_record_count, uint64_t shelf, const uint64_t *lefts, size_t left_count,
              const uint64_t *rights, size_t right_count, const uint32_t *labels,
              size_t label_count, const uint64_t *marks, size_t mark_count, const uint64_t *next,
              size_t next_count, uint64_t *shelf_lefts, size_t shelf_left_count,
              uint64_t *shelf_rights, size_t shelf_right_count, uint32_t *shelf_labels,
              size_t shelf_label_count, uint64_t *shelf_marks, size_t shelf_mark_count,
              uint64_t *shelf_next, size_t shelf_next_count);

uint32_t RETURN(zc_control *control, zc_record *records, size_t record_count,
                const zc_control *shelf_controls, size_t shelf_control_count,
                const zc_record *shelf_records, size_t shelf_record_count, uint64_t shelf,
                uint64_t *lefts, size_t left_count, uint64_t *rights, size_t right_count,
                uint32_t *labels, size_t label_count, uint64_t *marks, size_t mark_count,
                uint64_t *next, size_t next_count, const uint64_t *shelf_lefts,
                size_t shelf_left_count, const uint64_t *shelf_rights, size_t shelf_right_count,
                const uint32_t *shelf_labels, size_t shelf_label_count,
                const uint64_t *shelf_marks, size_t shelf_mark_count, const uint64_t *shelf_next,
                size_t shelf_next_count);

#endif
