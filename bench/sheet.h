/* The order sheet by hand in C, with the arguments of zeppolecape.h. */
#ifndef SHEET_H
#define SHEET_H

#include "zeppolecape.h"

#ifdef AS_LIBRARY
#define SHEET_CALL(name) zc_##name
#else
#define SHEET_CALL(name) reference_##name
#endif

#define SHEET_TABLES                                                                               \
    const uint64_t *lefts, size_t left_count, const uint64_t *rights, size_t right_count,          \
        const uint32_t *labels, size_t label_count, const uint64_t *marks, size_t mark_count

zc_sheet_reply SHEET_CALL(sheet)(const zc_control *control, const uint32_t *listed,
                                 size_t listed_count, const uint32_t *rules, size_t rule_count,
                                 SHEET_TABLES);
zc_sheet_reply SHEET_CALL(sheet_words)(const zc_control *control, const uint32_t *listed,
                                       size_t listed_count, const uint32_t *rules,
                                       size_t rule_count, uint32_t *words, size_t word_count,
                                       SHEET_TABLES);

#endif
