/* The joining of reference.c's kind: by hand in C, with the arguments of zc_join. */
#ifndef JOIN_REFERENCE_H
#define JOIN_REFERENCE_H

#include "zeppolecape.h"

#ifdef AS_LIBRARY
#define JOIN zc_join
#else
#define JOIN reference_join
#endif

uint32_t JOIN(const zc_control *first, const zc_record *first_records, size_t first_record_count,
              const zc_control *second, const zc_record *second_records,
              size_t second_record_count, zc_control *third, zc_record *third_records,
              size_t third_record_count, const uint64_t *first_lefts, size_t first_left_count,
              const uint64_t *first_rights, size_t first_right_count, const uint32_t *first_labels,
              size_t first_label_count, const uint64_t *second_lefts, size_t second_left_count,
              const uint64_t *second_rights, size_t second_right_count,
              const uint32_t *second_labels, size_t second_label_count, uint64_t *lefts,
              size_t left_count, uint64_t *rights, size_t right_count, uint32_t *labels,
              size_t label_count, uint64_t *marks, size_t mark_count);

#endif
