/*
 * Two lanes into one, by hand in C: the same answers, the same refusals in the same order, the same
 * words. It is the yardstick of join.c and a second opinion in tests/library.
 *
 * The call is named reference_join, or zc_join if compiled with -DAS_LIBRARY.
 */
#include "join_reference.h"

#include <stdbool.h>
#include <string.h>

static const uint64_t no_lane = UINT64_MAX;

static bool control_sound(const zc_control *control)
{
    uint64_t slots = control->slots, anchor = control->anchor;
    uint64_t left = zc_anchor_left(anchor), right = zc_anchor_right(anchor);
    if (control->tasks < 1 || control->tasks > ZC_MOST_TASKS || slots < 1 ||
        slots > ZC_MOST_SLOTS || control->pooled > 1)
        return false;
    if (zc_anchor_status(anchor) > ZC_LPUSH || left > slots || right > slots ||
        (left == 0) != (right == 0))
        return false;
    return zc_anchor_status(anchor) == ZC_STABLE || left != right;
}

static bool fits(const zc_control *control, size_t records, size_t lefts, size_t rights,
                 size_t labels)
{
    uint64_t slots = control->slots;
    return lefts > slots && rights > slots && labels > slots && records >= control->tasks;
}

static bool at_rest(const zc_control *control, const zc_record *records)
{
    for (uint64_t task = 0; task < control->tasks; task++)
        if (records[task].place != 0)
            return false;
    return zc_anchor_status(control->anchor) == ZC_STABLE;
}

/* The slots of a queue in the order of its walk, or no_lane. */
static uint64_t walk(const zc_control *control, const uint64_t *lefts, const uint64_t *rights,
                     uint16_t *met)
{
    uint64_t anchor = control->anchor, slots = control->slots, count = 0;
    bool from_left = zc_anchor_status(anchor) == ZC_LPUSH;
    const uint64_t *links = from_left ? rights : lefts;
    uint64_t slot = from_left ? zc_anchor_left(anchor) : zc_anchor_right(anchor);
    uint64_t last = from_left ? zc_anchor_right(anchor) : zc_anchor_left(anchor);
    if (slot == 0)
        return 0;
    for (;;) {
        if (count == slots)
            return no_lane;
        met[count++] = (uint16_t)slot;
        if (slot == last)
            return count;
        uint64_t link = links[slot];
        slot = zc_link_slot(link);
        if ((link & UINT64_C(0xffff8000)) != 0 || slot == 0 || slot > slots)
            return no_lane;
    }
}

static bool zero(const void *bytes, size_t count)
{
    const unsigned char *at = bytes;
    return count == 0 || (at[0] == 0 && memcmp(at, at + 1, count - 1) == 0);
}

uint32_t JOIN(const zc_control *first, const zc_record *first_records, size_t first_record_count,
              const zc_control *second, const zc_record *second_records,
              size_t second_record_count, zc_control *third, zc_record *third_records,
              size_t third_record_count, const uint64_t *first_lefts, size_t first_left_count,
              const uint64_t *first_rights, size_t first_right_count, const uint32_t *first_labels,
              size_t first_label_count, const uint64_t *second_lefts, size_t second_left_count,
              const uint64_t *second_rights, size_t second_right_count,
              const uint32_t *second_labels, size_t second_label_count, uint64_t *lefts,
              size_t left_count, uint64_t *rights, size_t right_count, uint32_t *labels,
              size_t label_count, uint64_t *marks, size_t mark_count)
{
    uint16_t one[ZC_MOST_SLOTS], two[ZC_MOST_SLOTS];
    uint64_t slots = third->slots;
    if (!control_sound(first) || !control_sound(second) || !control_sound(third))
        return ZC_UNSOUND;
    if (!fits(first, first_record_count, first_left_count, first_right_count, first_label_count) ||
        !fits(second, second_record_count, second_left_count, second_right_count,
              second_label_count) ||
        !fits(third, third_record_count, left_count, right_count, label_count) ||
        mark_count <= slots / 64)
        return ZC_SHORT;
    uint64_t m = walk(first, first_lefts, first_rights, one);
    uint64_t n = walk(second, second_lefts, second_rights, two);
    if (m == no_lane || n == no_lane)
        return ZC_UNSOUND;
    size_t rows = (size_t)slots + 1;
    if (!at_rest(first, first_records) || !at_rest(second, second_records) ||
        !at_rest(third, third_records) || third->pooled || zc_anchor_left(third->anchor) != 0 ||
        !zero(lefts, rows * sizeof *lefts) || !zero(rights, rows * sizeof *rights) ||
        !zero(labels, rows * sizeof *labels) || !zero(marks, (size_t)(slots / 64 + 1) * sizeof *marks))
        return ZC_NOT_AT_REST;
    uint64_t count = m + n, tag = zc_anchor_tag(third->anchor);
    if (count > slots)
        return ZC_CROWDED;
    if (count == 0)
        return 0;
    if ((count == 1 ? tag : tag + 2 * count - 3) > ZC_LAST_START_TAG)
        return ZC_WORN;
    for (uint64_t slot = 1; slot <= count; slot++) {
        bool of_first =
            n == 0 || (m > 0 && first_labels[one[m - 1]] <= second_labels[two[n - 1]]);
        labels[slot] = of_first ? first_labels[one[--m]] : second_labels[two[--n]];
        lefts[slot] = slot - 1;
        rights[slot] = slot < count ? (UINT64_C(1) << 32) + slot + 1 : 0;
        marks[slot / 64] |= UINT64_C(1) << (slot % 64);
    }
    third->anchor = (tag + 2 * count - 1) << 32 | UINT64_C(1) << 15 | count;
    memset(third_records, 0, offsetof(zc_record, retries));
    return 0;
}
