#include "bare.h"

#include <stdbool.h>
#include <string.h>

static const uint64_t tag_bits = UINT64_C(0xffffffff00000000);
static const uint64_t one_tag = UINT64_C(0x100000000);

static inline zc_reply go(zc_record *record, uint64_t place)
{
    zc_reply reply = {ZC_RUNNING, 0, place};
    record->place = place;
    return reply;
}

static inline zc_reply answer(zc_record *record, uint32_t code, uint64_t slot, uint32_t label)
{
    zc_reply reply = {code, label, slot};
    memset(record, 0, offsetof(zc_record, retries));
    return reply;
}

static inline zc_reply leave(zc_record *record)
{
    return record->finishing ? answer(record, ZC_PUSHED, 0, 0) : go(record, 1);
}

static inline uint64_t successor(uint64_t seen, uint64_t status, bool right, uint64_t near,
                                 uint64_t far)
{
    uint64_t ends = right ? far << 15 | near : near << 15 | far;
    return ((seen & tag_bits) + one_tag) | status << 30 | ends;
}

static inline bool change(zc_record *record, uint64_t *word, uint64_t seen, uint64_t wanted)
{
    if (*word != seen) {
        record->retries += record->retries < ZC_MOST_RETRIES;
        return false;
    }
    *word = wanted;
    return true;
}

/* What follows a reading of Anchor, made at place 1 or by a failed change at 2 or 4. */
static inline zc_reply take_reading(zc_record *record, uint64_t found)
{
    bool push = record->kind == ZC_PUSH;
    record->seen = found;
    if (zc_anchor_left(found) == 0)
        return push ? go(record, 2) : answer(record, ZC_EMPTY, 0, 0);
    if (!push && zc_anchor_left(found) == zc_anchor_right(found))
        return go(record, 2);
    return go(record, zc_anchor_status(found) == ZC_STABLE ? 3 : 5);
}

zc_reply bare_step(zc_control *control, zc_record *record, uint64_t *lefts, uint64_t *rights,
                   uint32_t *labels, uint64_t *marks, uint64_t *next)
{
    uint64_t seen = record->seen;
    uint64_t status = zc_anchor_status(seen);
    bool push = record->kind == ZC_PUSH;
    bool helping = record->place >= 5 && record->place <= 10;
    bool right = helping ? status == ZC_RPUSH : record->side == ZC_RIGHT;
    uint64_t end = right ? zc_anchor_right(seen) : zc_anchor_left(seen);
    uint64_t far = right ? zc_anchor_left(seen) : zc_anchor_right(seen);
    uint64_t *inward = right ? lefts : rights;
    uint64_t *outward = right ? rights : lefts;

    switch (record->place) {
    case 1: return take_reading(record, control->anchor);
    case 2:
        if (!change(record, &control->anchor, seen,
                    successor(seen, status, right, record->own, record->own)))
            return take_reading(record, control->anchor);
        return push ? answer(record, ZC_PUSHED, 0, 0) : go(record, 11);
    case 3:
        if (push)
            inward[record->own] = (inward[record->own] & tag_bits) | end;
        else
            record->neighbour = zc_link_slot(inward[end]);
        return go(record, 4);
    case 4: {
        uint64_t wanted =
            push ? successor(seen, right ? ZC_RPUSH : ZC_LPUSH, right, record->own, far)
                 : successor(seen, status, right, record->neighbour, far);
        if (!change(record, &control->anchor, seen, wanted))
            return take_reading(record, control->anchor);
        if (!push)
            return go(record, 11);
        record->seen = wanted;
        record->finishing = 1;
        return go(record, 5);
    }
    case 5: record->neighbour = zc_link_slot(inward[end]); return go(record, 6);
    case 6:
    case 8: return control->anchor == seen ? go(record, record->place + 1) : leave(record);
    case 7:
        record->link = outward[record->neighbour];
        return go(record, zc_link_slot(record->link) == end ? 10 : 8);
    case 9:
        if (!change(record, &outward[record->neighbour], record->link,
                    ((record->link & tag_bits) + one_tag) | end))
            return leave(record);
        return go(record, 10);
    case 10:
        change(record, &control->anchor, seen, successor(seen, ZC_STABLE, right, end, far));
        return leave(record);
    case 11: {
        uint32_t label = labels[end];
        marks[end / 64] &= ~(UINT64_C(1) << (end % 64));
        if (!control->pooled)
            return answer(record, ZC_POPPED, end, label);
        record->own = end;
        record->label = label;
        return go(record, 15);
    }
    case 12:
        if (zc_link_slot(control->head) == 0)
            return answer(record, ZC_NO_FREE_SLOT, 0, 0);
        record->link = control->head;
        return go(record, 13);
    case 13: record->neighbour = next[zc_link_slot(record->link)]; return go(record, 14);
    case 14: {
        uint64_t slot = zc_link_slot(record->link);
        if (!change(record, &control->head, record->link,
                    ((record->link & tag_bits) + one_tag) | record->neighbour))
            return go(record, 12);
        marks[slot / 64] |= UINT64_C(1) << (slot % 64);
        labels[slot] = record->label;
        record->own = slot;
        return go(record, 1);
    }
    case 15: record->link = control->head; return go(record, 16);
    case 16: next[record->own] = zc_link_slot(record->link); return go(record, 17);
    default:
        if (!change(record, &control->head, record->link,
                    ((record->link & tag_bits) + one_tag) | record->own))
            return go(record, 15);
        return answer(record, ZC_POPPED, record->own, record->label);
    }
}
