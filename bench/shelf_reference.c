/*
 * Shelves by hand in C: the same answers, the same refusals in the same order, and memcpy for each
 * table. It is the yardstick of shelf.c and a second opinion in tests/library.
 *
 * The calls are named reference_save and reference_return, or zc_save and zc_return if compiled with
 * -DAS_LIBRARY.
 */
#include "shelf_reference.h"

#include <stdbool.h>
#include <string.h>

static bool control_sound(const zc_control *control)
{
    uint64_t slots = control->slots, anchor = control->anchor;
    uint64_t left = zc_anchor_left(anchor), right = zc_anchor_right(anchor);
    if (control->tasks < 1 || control->tasks > ZC_MOST_TASKS || slots < 1 ||
        slots > ZC_MOST_SLOTS || control->pooled > 1)
        return false;
    if (zc_anchor_status(anchor) > ZC_LPUSH || left > slots || right > slots ||
        (left == 0) != (right == 0))
        return false;
    return zc_anchor_status(anchor) == ZC_STABLE || left != right;
}

/* Whether a queue with this control fits into tables of these lengths. */
static bool fits(const zc_control *control, size_t records, size_t lefts, size_t rights,
                 size_t labels, size_t marks, size_t next)
{
    uint64_t slots = control->slots;
    return records >= control->tasks && lefts > slots && rights > slots && labels > slots &&
           marks > slots / 64 && (control->pooled == 0 || next > slots);
}

/* Of a table in eight parts, where the part of a shelf begins. */
#define PART(table, count, shelf) ((table) + (size_t)(shelf) * ((count) / ZC_SHELVES))
#define COPY(to, from, entries) memcpy(to, from, (size_t)(entries) * sizeof *(to))

uint32_t SAVE(const zc_control *control, const zc_record *records, size_t record_count,
              zc_control *shelf_controls, size_t shelf_control_count, zc_record *shelf_records,
              size_t shelf_record_count, uint64_t shelf, const uint64_t *lefts, size_t left_count,
              const uint64_t *rights, size_t right_count, const uint32_t *labels,
              size_t label_count, const uint64_t *marks, size_t mark_count, const uint64_t *next,
              size_t next_count, uint64_t *shelf_lefts, size_t shelf_left_count,
              uint64_t *shelf_rights, size_t shelf_right_count, uint32_t *shelf_labels,
              size_t shelf_label_count, uint64_t *shelf_marks, size_t shelf_mark_count,
              uint64_t *shelf_next, size_t shelf_next_count)
{
    if (!control_sound(control))
        return ZC_UNSOUND;
    if (shelf >= ZC_SHELVES)
        return ZC_NO_SHELF;
    if (!fits(control, record_count, left_count, right_count, label_count, mark_count,
              next_count) ||
        !fits(control, shelf_record_count / ZC_SHELVES, shelf_left_count / ZC_SHELVES,
              shelf_right_count / ZC_SHELVES, shelf_label_count / ZC_SHELVES,
              shelf_mark_count / ZC_SHELVES, shelf_next_count / ZC_SHELVES) ||
        shelf_control_count < ZC_SHELVES)
        return ZC_SHORT;
    uint64_t rows = control->slots + 1;
    shelf_controls[shelf] = *control;
    COPY(PART(shelf_records, shelf_record_count, shelf), records, control->tasks);
    COPY(PART(shelf_lefts, shelf_left_count, shelf), lefts, rows);
    COPY(PART(shelf_rights, shelf_right_count, shelf), rights, rows);
    COPY(PART(shelf_labels, shelf_label_count, shelf), labels, rows);
    COPY(PART(shelf_marks, shelf_mark_count, shelf), marks, control->slots / 64 + 1);
    if (control->pooled)
        COPY(PART(shelf_next, shelf_next_count, shelf), next, rows);
    return 0;
}

uint32_t RETURN(zc_control *control, zc_record *records, size_t record_count,
                const zc_control *shelf_controls, size_t shelf_control_count,
                const zc_record *shelf_records, size_t shelf_record_count, uint64_t shelf,
                uint64_t *lefts, size_t left_count, uint64_t *rights, size_t right_count,
                uint32_t *labels, size_t label_count, uint64_t *marks, size_t mark_count,
                uint64_t *next, size_t next_count, const uint64_t *shelf_lefts,
                size_t shelf_left_count, const uint64_t *shelf_rights, size_t shelf_right_count,
                const uint32_t *shelf_labels, size_t shelf_label_count,
                const uint64_t *shelf_marks, size_t shelf_mark_count, const uint64_t *shelf_next,
                size_t shelf_next_count)
{
    if (shelf >= ZC_SHELVES)
        return ZC_NO_SHELF;
    if (shelf >= shelf_control_count || shelf_controls[shelf].tasks == 0)
        return ZC_UNFILLED;
    const zc_control *stored = &shelf_controls[shelf];
    if (!control_sound(stored))
        return ZC_UNSOUND;
    if (!fits(stored, record_count, left_count, right_count, label_count, mark_count,
              next_count) ||
        !fits(stored, shelf_record_count / ZC_SHELVES, shelf_left_count / ZC_SHELVES,
              shelf_right_count / ZC_SHELVES, shelf_label_count / ZC_SHELVES,
              shelf_mark_count / ZC_SHELVES, shelf_next_count / ZC_SHELVES) ||
        shelf_control_count < ZC_SHELVES)
        return ZC_SHORT;
    uint64_t rows = stored->slots + 1;
    *control = *stored;
    COPY(records, PART(shelf_records, shelf_record_count, shelf), stored->tasks);
    COPY(lefts, PART(shelf_lefts, shelf_left_count, shelf), rows);
    COPY(rights, PART(shelf_rights, shelf_right_count, shelf), rows);
    COPY(labels, PART(shelf_labels, shelf_label_count, shelf), rows);
    COPY(marks, PART(shelf_marks, shelf_mark_count, shelf), stored->slots / 64 + 1);
    if (stored->pooled)
        COPY(next, PART(shelf_next, shelf_next_count, shelf), rows);
    return 0;
}
