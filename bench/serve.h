/* A list carried out, by hand in C over reference.c's calls, with the arguments of zeppolecape.h. */
#ifndef SERVE_H
#define SERVE_H

#include "reference.h"

zc_serve_reply CALL(serve)(zc_control *control, zc_record *records, size_t record_count,
                           uint64_t pooled, uint64_t tasks, uint64_t slots, uint32_t tag,
                           const uint64_t *requests, size_t request_words, uint64_t *replies,
                           size_t reply_words, TABLES(uint64_t, uint32_t, uint64_t),
                           NEXT(uint64_t));

#endif
