/*
 * The slots taken, as the report counts them: marks of every kind at the numbers of slots where a
 * word of marks begins or ends. Bit 0 and the bits above the last slot are no slots.
 */
#include "check.h"
#include "zeppolecape.h"

#include <string.h>

enum { WORDS = ZC_MARK_WORDS(ZC_MOST_SLOTS) + 1 };

static zc_control control;
static zc_record records[1];
static uint64_t lefts[ZC_ROWS(ZC_MOST_SLOTS)], rights[ZC_ROWS(ZC_MOST_SLOTS)], marks[WORDS];
static uint32_t labels[ZC_ROWS(ZC_MOST_SLOTS)];

static void set(uint64_t slot) { marks[slot / 64] |= UINT64_C(1) << slot % 64; }

/* The report of a queue with so many slots and the marks as they stand, which it must leave. */
static void taken(const char *what, uint64_t slots, uint64_t expected)
{
    uint64_t before[WORDS];
    memcpy(before, marks, sizeof marks);
    zc_report_reply reply = zc_report(&control, records, 1, lefts, slots + 1, rights, slots + 1,
                                      labels, slots + 1, marks, slots / 64 + 1, NULL, 0);
    if (reply.code == 0 && reply.taken == expected && memcmp(before, marks, sizeof marks) == 0) {
        passed++;
        return;
    }
    failed++;
    printf("FAILED taken, %s, %d slots: %d, expected %d\n", what, (int)slots, (int)reply.taken,
           (int)expected);
}

static void with_slots(uint64_t slots)
{
    zc_open(&control, records, 1, 1, slots, 0, lefts, slots + 1, rights, slots + 1, labels,
            slots + 1, marks, WORDS);
    memset(marks, 0, sizeof marks);
    taken("none", slots, 0);
    set(0);
    for (uint64_t bit = slots + 1; bit < 64 * WORDS; bit++)
        set(bit);
    taken("bit 0 and those above the last slot", slots, 0);
    set(1);
    taken("the first slot", slots, 1);
    set(slots);
    taken("the first and the last", slots, slots == 1 ? 1 : 2);
    memset(marks, 0xff, sizeof marks);
    taken("every word full", slots, slots);
    for (uint64_t word = 0; word < WORDS; word++) {
        memset(marks, 0, sizeof marks);
        marks[word] = UINT64_MAX;
        uint64_t first = 64 * word, next = first + 64 < slots + 1 ? first + 64 : slots + 1;
        taken("one word full", slots, first > slots ? 0 : next - first - (word == 0));
    }
}

int main(void)
{
    static const uint64_t several[] = {1, 2, 62, 63, 64, 65, 127, 128, 1022, 1023};
    for (size_t at = 0; at < sizeof several / sizeof *several; at++)
        with_slots(several[at]);
    return told();
}
