/*
 * The step by hand in C once more, for the fewest instructions: the fields that a place needs in
 * registers of 32 bits, no copies, one natural switch. Same answers, same refusals in the same order
 * as reference.c, with which it shares no code.
 */
#include "lean.h"

#include <stdbool.h>
#include <string.h>

#define TAG UINT64_C(0xffffffff00000000)
#define ONE UINT64_C(0x100000000)
#define LEFT(word) ((uint32_t)(word) >> 15 & 0x7fff)
#define RIGHT(word) ((uint32_t)(word) & 0x7fff)
#define END(word, right) ((right) ? RIGHT(word) : LEFT(word))
#define STATUS(word) ((uint32_t)(word) >> 30)
#define SLOT(word) ((uint32_t)(word) & 0x7fff)
#define WORN(word) ((word) >= TAG)

/* Equal ends are STABLE, different ones both slots. */
static inline bool anchor_ok(uint64_t word, uint32_t slots)
{
    uint32_t left = LEFT(word), right = RIGHT(word);
    if (left == right)
        return left <= slots && STATUS(word) == ZC_STABLE;
    return left - 1 < slots && right - 1 < slots && STATUS(word) <= ZC_LPUSH;
}

/* A link or head: with bits 31 to 15 zero its low half is the slot. */
static inline bool link_ok(uint64_t word, uint32_t slots) { return (uint32_t)word <= slots; }

static inline bool place_ok(const zc_record *record, uint32_t place, uint32_t slots, uint64_t pooled)
{
    bool mending = place - 5 < 6;
    if (place <= 11) {
        if (record->kind == ZC_POP)
            return (record->own | record->finishing) == 0;
        return record->own - 1 < slots && place != 11 && (mending || record->finishing == 0);
    }
    if (!pooled || place > 17 || record->finishing != 0)
        return false;
    if (place >= 15)
        return record->kind == ZC_POP && record->own - 1 < slots;
    return record->kind == ZC_PUSH && record->own == 0 && (place == 12 || SLOT(record->link) != 0);
}

/* Anchor itself is sound already, and mostly what was read. */
static inline bool record_ok(const zc_record *record, uint64_t anchor, uint32_t slots,
                             uint64_t pooled)
{
    uint64_t seen = record->seen;
    if (record->place > 17 || (record->kind | record->side | record->finishing) > 1 ||
        record->neighbour > slots || !link_ok(record->link, slots) ||
        (seen != anchor && !anchor_ok(seen, slots)))
        return false;
    uint32_t place = (uint32_t)record->place;
    if (place - 5 < 6 && STATUS(seen) == ZC_STABLE)
        return false;
    return place_ok(record, place, slots, pooled);
}

static inline zc_reply refuse(uint32_t number) { return (zc_reply){number, 0, 0}; }
static inline zc_reply go(zc_record *record, uint64_t place)
{
    record->place = place;
    return (zc_reply){ZC_RUNNING, 0, place};
}
static inline zc_reply answer(zc_record *record, uint32_t code, uint32_t label, uint64_t slot)
{
    memset(record, 0, offsetof(zc_record, retries));
    return (zc_reply){code, label, slot};
}
static inline zc_reply leave(zc_record *record)
{
    return record->finishing ? answer(record, ZC_PUSHED, 0, 0) : go(record, 1);
}
static inline void retry(zc_record *record)
{
    record->retries += record->retries < ZC_MOST_RETRIES;
}

/* Place 1, and a failed change at 2 or 4. */
static inline zc_reply read_anchor(zc_record *record, uint64_t found)
{
    record->seen = found;
    if (record->kind == ZC_POP) {
        if (RIGHT(found) == 0)
            return answer(record, ZC_EMPTY, 0, 0);
        if (LEFT(found) == RIGHT(found))
            return go(record, 2);
    } else if (RIGHT(found) == 0) {
        return go(record, 2);
    }
    return go(record, STATUS(found) == ZC_STABLE ? 3 : 5);
}

/* Places 3, of a pop, and 5. */
static inline zc_reply read_neighbour(zc_record *record, const uint64_t *inward, uint32_t end,
                                      uint32_t slots, uint64_t next)
{
    uint64_t word = inward[end];
    if (end == 0 || !link_ok(word, slots))
        return refuse(ZC_UNSOUND);
    record->neighbour = SLOT(word);
    return go(record, next);
}

static inline uint64_t anchor_of(uint64_t seen, uint32_t status, bool right, uint32_t near,
                                 uint32_t far)
{
    uint32_t ends = right ? far << 15 | near : near << 15 | far;
    return ((seen & TAG) + ONE) | status << 30 | ends;
}

/* The pool's places. */
static inline zc_reply pool_step(zc_control *control, zc_record *record, uint32_t *labels,
                                 uint64_t *marks, uint64_t *next)
{
    uint32_t slots = (uint32_t)control->slots, top = SLOT(record->link);
    uint64_t head = control->head;
    switch (record->place) {
    case 12:
        if (!link_ok(head, slots))
            return refuse(ZC_UNSOUND);
        if (SLOT(head) == 0)
            return answer(record, ZC_NO_FREE_SLOT, 0, 0);
        record->link = head;
        return go(record, 13);
    case 13:
        if (next[top] > slots)
            return refuse(ZC_UNSOUND);
        record->neighbour = next[top];
        return go(record, 14);
    case 14:
        if (head != record->link) {
            retry(record);
            return go(record, 12);
        }
        if (WORN(head))
            return refuse(ZC_UNSOUND);
        control->head = ((head & TAG) + ONE) | record->neighbour;
        marks[top / 64] |= UINT64_C(1) << top % 64;
        labels[top] = record->label;
        record->own = top;
        return go(record, 1);
    case 15:
        if (!link_ok(head, slots))
            return refuse(ZC_UNSOUND);
        record->link = head;
        return go(record, 16);
    case 16: next[record->own] = top; return go(record, 17);
    default:
        if (head != record->link) {
            retry(record);
            return go(record, 15);
        }
        if (WORN(head))
            return refuse(ZC_UNSOUND);
        control->head = ((head & TAG) + ONE) | record->own;
        return answer(record, ZC_POPPED, record->label, record->own);
    }
}

zc_reply lean_step(zc_control *control, zc_record *records, size_t record_count, size_t task,
                   uint64_t *lefts, size_t left_count, uint64_t *rights, size_t right_count,
                   uint32_t *labels, size_t label_count, uint64_t *marks, size_t mark_count,
                   uint64_t *next, size_t next_count)
{
    uint64_t slots = control->slots, anchor = control->anchor;
    if (control->tasks - 1 >= ZC_MOST_TASKS || slots - 1 >= ZC_MOST_SLOTS || control->pooled > 1 ||
        !anchor_ok(anchor, (uint32_t)slots))
        return refuse(ZC_UNSOUND);
    if (left_count <= slots || right_count <= slots || label_count <= slots ||
        mark_count <= slots / 64 || record_count < control->tasks ||
        (control->pooled && next_count <= slots))
        return refuse(ZC_SHORT);
    if (task >= control->tasks)
        return refuse(ZC_NO_TASK);
    zc_record *record = &records[task];
    if (record->place == 0)
        return refuse(ZC_IDLE);
    if (!record_ok(record, anchor, (uint32_t)slots, control->pooled))
        return refuse(ZC_UNSOUND);

    uint64_t seen = record->seen, word, wanted, *row;
    bool push = record->kind == ZC_PUSH, side = record->side, helped = STATUS(seen) == ZC_RPUSH;
    uint32_t own = (uint32_t)record->own, neighbour = (uint32_t)record->neighbour, end;

    switch (record->place) {
    case 1: return read_anchor(record, anchor);
    case 2:
        if (anchor != seen)
            return retry(record), read_anchor(record, anchor);
        wanted = anchor_of(seen, STATUS(seen), true, own, own);
        if (WORN(seen) || !anchor_ok(wanted, (uint32_t)slots))
            return refuse(ZC_UNSOUND);
        control->anchor = wanted;
        return push ? answer(record, ZC_PUSHED, 0, 0) : go(record, 11);
    case 3:
        end = END(seen, side);
        if (push) {
            row = &(side ? lefts : rights)[own];
            if (!link_ok(*row, (uint32_t)slots))
                return refuse(ZC_UNSOUND);
            *row = (*row & TAG) | end;
            return go(record, 4);
        }
        return read_neighbour(record, side ? lefts : rights, end, (uint32_t)slots, 4);
    case 4:
        if (anchor != seen)
            return retry(record), read_anchor(record, anchor);
        wanted = push ? anchor_of(seen, side ? ZC_RPUSH : ZC_LPUSH, side, own, END(seen, !side))
                      : anchor_of(seen, STATUS(seen), side, neighbour, END(seen, !side));
        if (WORN(seen) || !anchor_ok(wanted, (uint32_t)slots))
            return refuse(ZC_UNSOUND);
        control->anchor = wanted;
        if (!push)
            return go(record, 11);
        record->seen = wanted;
        record->finishing = 1;
        return go(record, 5);
    case 5:
        return read_neighbour(record, helped ? lefts : rights, END(seen, helped), (uint32_t)slots, 6);
    case 6: return anchor == seen ? go(record, 7) : leave(record);
    case 7:
        word = (helped ? rights : lefts)[neighbour];
        if (neighbour == 0 || !link_ok(word, (uint32_t)slots))
            return refuse(ZC_UNSOUND);
        record->link = word;
        return go(record, SLOT(word) == END(seen, helped) ? 10 : 8);
    case 8: return anchor == seen ? go(record, 9) : leave(record);
    case 9:
        word = record->link;
        row = &(helped ? rights : lefts)[neighbour];
        if (neighbour == 0)
            return refuse(ZC_UNSOUND);
        if (*row != word)
            return retry(record), leave(record);
        if (WORN(word))
            return refuse(ZC_UNSOUND);
        *row = ((word & TAG) + ONE) | END(seen, helped);
        return go(record, 10);
    case 10: /* the ends stay, and are sound */
        if (anchor != seen)
            return retry(record), leave(record);
        if (WORN(seen))
            return refuse(ZC_UNSOUND);
        control->anchor = (seen + ONE) & ~(UINT64_C(3) << 30);
        return leave(record);
    case 11: {
        end = END(seen, side);
        if (end == 0)
            return refuse(ZC_UNSOUND);
        uint32_t label = labels[end];
        marks[end / 64] &= ~(UINT64_C(1) << end % 64);
        if (!control->pooled)
            return answer(record, ZC_POPPED, label, end);
        record->own = end;
        record->label = label;
        return go(record, 15);
    }
    default: return pool_step(control, record, labels, marks, next);
    }
}
