/*
 * Memory laid out by literal offsets, without the header's structs: what the tests of the
 * layout lend, and how they look at it.
 */
#ifndef LAYOUT_H
#define LAYOUT_H

#include "check.h"
#include "zeppolecape.h"

#include <string.h>

enum { TASKS = 2, SLOTS = 70, FILL = 0xa5 };

/* Offsets of a record's fields; a second record follows the first after 80 bytes. */
enum { PLACE = 0, KIND = 8, SIDE = 16, OWN = 24, LABEL = 32, SEEN = 40, NEIGHBOUR = 48, LINK = 56 };
enum { FINISHING = 64, RETRIES = 72, RECORD = 80 };
/* Offsets of control's fields. */
enum { CONTROL_TASKS = 0, CONTROL_SLOTS = 8, ANCHOR = 16, POOLED = 24, TOP = 32 };
enum { CONTROL = 40 };

static _Alignas(8) unsigned char control[CONTROL + 16];
static _Alignas(8) unsigned char records[RECORD * (TASKS + 1)];
static uint64_t lefts[SLOTS + 1], rights[SLOTS + 1], marks[2];
static uint32_t labels[SLOTS + 1];
static uint64_t next[SLOTS + 1];

#define ROWS lefts, SLOTS + 1, rights, SLOTS + 1, labels, SLOTS + 1, marks, 2
#define TABLES ROWS, next, SLOTS + 1
#define RECORDS (zc_control *)control, (zc_record *)records, TASKS

static inline uint64_t word(const unsigned char *base, size_t offset)
{
    uint64_t number;
    memcpy(&number, base + offset, sizeof number);
    return number;
}

static inline uint32_t half(const unsigned char *base, size_t offset)
{
    uint32_t number;
    memcpy(&number, base + offset, sizeof number);
    return number;
}

static inline void put(unsigned char *base, size_t offset, uint64_t number)
{
    memcpy(base + offset, &number, sizeof number);
}

static inline void untouched(const char *what, const unsigned char *from, size_t bytes)
{
    for (size_t at = 0; at < bytes; at++)
        if (from[at] != FILL) {
            is(what, from[at], FILL);
            return;
        }
    passed++;
}

/* A field spoiled makes the step of task 1 refuse, and mended makes nothing else happen. */
static inline void is_read(const char *what, unsigned char *base, size_t offset, uint64_t bad)
{
    uint64_t good = word(base, offset);
    put(base, offset, bad);
    is(what, zc_step(RECORDS, 1, TABLES).code, ZC_UNSOUND);
    is(what, zc_step_record((zc_control *)control, (zc_record *)(records + RECORD), TABLES).code,
          ZC_UNSOUND);
    is(what, word(base, offset), bad);
    put(base, offset, good);
}

static inline zc_reply step(size_t task) { return zc_step(RECORDS, task, TABLES); }
#endif
