/*
 * A step split at its touch, by hand in C, place by place from the papers: what a record's next step
 * does with shared memory, and what the word found makes of the record. The same for starts.
 */
#include "touch_reference.h"

#include <stdbool.h>
#include <string.h>

#define TAGS UINT64_C(0xffffffff00000000)
#define ONE_TAG UINT64_C(0x100000000)
#define SLOT_BITS UINT64_C(0x7fff)

/* ---- Soundness --------------------------------------------------------------------------- */

static bool slot_ok(uint64_t slot, uint64_t slots) { return slot - 1 < slots; }
static bool link_ok(uint64_t word, uint64_t slots)
{
    return (word & UINT64_C(0xffff8000)) == 0 && zc_link_slot(word) <= slots;
}

static bool anchor_ok(uint64_t word, uint64_t slots)
{
    uint64_t left = zc_anchor_left(word), right = zc_anchor_right(word);
    uint64_t status = zc_anchor_status(word);
    if (left == 0 || right == 0 || left == right)
        return left == right && left <= slots && status == ZC_STABLE;
    return left <= slots && right <= slots && status <= ZC_LPUSH;
}

static bool mending(const zc_record *own) { return own->place >= 5 && own->place <= 10; }

static bool role_ok(const zc_record *own, uint64_t slots, uint64_t pooled)
{
    uint64_t place = own->place;
    if (own->finishing != 0 && (own->kind == ZC_POP || !mending(own)))
        return false;
    if (place <= 11)
        return own->kind == ZC_POP ? own->own == 0 : place < 11 && slot_ok(own->own, slots);
    if (pooled != 1 || place > 17)
        return false;
    if (place >= 15)
        return own->kind == ZC_POP && slot_ok(own->own, slots);
    return own->kind == ZC_PUSH && own->own == 0 && (place == 12 || zc_link_slot(own->link) != 0);
}

/* 34 for a busy record that is unsound, 31 for an idle one, else 0. */
static uint32_t record_refusal(const zc_record *own, uint64_t slots, uint64_t pooled)
{
    if (own->place == 0)
        return ZC_IDLE;
    bool sound = own->kind <= 1 && own->side <= 1 && own->finishing <= 1 &&
                 role_ok(own, slots, pooled) && own->neighbour <= slots &&
                 link_ok(own->link, slots) && anchor_ok(own->seen, slots) &&
                 !(mending(own) && zc_anchor_status(own->seen) == ZC_STABLE);
    return sound ? 0 : ZC_UNSOUND;
}

/* ---- Words and rows ---------------------------------------------------------------------- */

static uint64_t end_of(uint64_t anchor, uint64_t side)
{
    return side == ZC_RIGHT ? zc_anchor_right(anchor) : zc_anchor_left(anchor);
}

/* Anchor as read with another status and another end at one side, and the next tag. A number that is no side is the left. */
static uint64_t moved(uint64_t seen, uint64_t status, uint64_t side, uint64_t end)
{
    uint64_t left = side == ZC_RIGHT ? zc_anchor_left(seen) : end & SLOT_BITS;
    uint64_t right = side == ZC_RIGHT ? end & SLOT_BITS : zc_anchor_right(seen);
    return (seen & TAGS) + ONE_TAG + (status << 30 | left << 15 | right);
}

/* The side that a mending step works at. */
static uint64_t mended(const zc_record *own)
{
    return zc_anchor_status(own->seen) == ZC_RPUSH ? ZC_RIGHT : ZC_LEFT;
}

/* What Anchor becomes at 2, 4 and 10. */
static uint64_t anchor_after(const zc_record *own)
{
    uint64_t seen = own->seen, status = zc_anchor_status(seen);
    if (own->place == 2) {
        uint64_t end = own->kind == ZC_PUSH ? own->own & SLOT_BITS : 0;
        return (seen & TAGS) + ONE_TAG + (status << 30 | end << 15 | end);
    }
    if (own->place == 10)
        return moved(seen, ZC_STABLE, ZC_RIGHT, zc_anchor_right(seen));
    if (own->kind != ZC_PUSH)
        return moved(seen, status, own->side, own->neighbour);
    return moved(seen, own->side == ZC_RIGHT ? ZC_RPUSH : ZC_LPUSH, own->side, own->own);
}

static bool anchor_may(const zc_record *own, uint64_t slots)
{
    return own->seen < TAGS && anchor_ok(anchor_after(own), slots);
}

/* Whether a step needs the row of a slot that its record need not have right. */
static bool needs_row(const zc_record *own)
{
    return own->place % 2 == 1 && own->place >= 3 && own->place <= 11;
}

static uint64_t row_of(const zc_record *own)
{
    switch (own->place) {
    case 3: return own->kind == ZC_PUSH ? own->own : end_of(own->seen, own->side);
    case 5: return end_of(own->seen, mended(own));
    case 7: case 9: return own->neighbour;
    default: return end_of(own->seen, own->side);
    }
}

/* ---- The touch --------------------------------------------------------------------------- */

static zc_touch touch(uint32_t act, uint64_t side, uint64_t slot, uint64_t expected, uint64_t word)
{
    return (zc_touch){act, 0, side, slot, expected, word};
}

static zc_touch load(uint32_t act) { return touch(act, 0, 0, 0, 0); }

static zc_touch none(uint32_t why) { return touch(ZC_NO_TOUCH, 0, 0, 0, why); }

/* At a place from 1 to 17; of the record no more is asked than the row it needs. */
static zc_touch planned(uint64_t slots, const zc_record *own)
{
    if (needs_row(own) && !slot_ok(row_of(own), slots))
        return none(ZC_UNSOUND);
    uint64_t row = row_of(own), inward = own->side != ZC_RIGHT, outward = mended(own);
    uint64_t top = zc_link_slot(own->link), later = (own->link & TAGS) + ONE_TAG;
    bool room = own->link < TAGS;
    switch (own->place) {
    case 2: case 4: case 10:
        if (!anchor_may(own, slots))
            return load(ZC_LOAD_ANCHOR);
        return touch(ZC_SWAP_ANCHOR, 0, 0, own->seen, anchor_after(own));
    case 3:
        if (own->kind != ZC_PUSH)
            return touch(ZC_LOAD_LINK, inward, row, 0, 0);
        return touch(ZC_PUT_LINK, inward, row, 0, end_of(own->seen, own->side));
    case 5: return touch(ZC_LOAD_LINK, 1 - outward, row, 0, 0);
    case 7: return touch(ZC_LOAD_LINK, outward, row, 0, 0);
    case 9:
        if (!room)
            return touch(ZC_LOAD_LINK, outward, row, 0, 0);
        return touch(ZC_SWAP_LINK, outward, row, own->link, later | end_of(own->seen, outward));
    case 11: return touch(ZC_TAKE_LABEL, 0, row, 0, 0);
    case 12: case 15: return load(ZC_LOAD_HEAD);
    case 13: return touch(ZC_LOAD_NEXT, 0, top, 0, 0);
    case 14:
        if (!room)
            return load(ZC_LOAD_HEAD);
        return (zc_touch){ZC_DRAW_SLOT, own->label, 0, top, own->link,
                          later | (own->neighbour & SLOT_BITS)};
    case 16: return touch(ZC_STORE_NEXT, 0, own->own, 0, top);
    case 17:
        if (!room)
            return load(ZC_LOAD_HEAD);
        return touch(ZC_SWAP_HEAD, 0, 0, own->link, later | (own->own & SLOT_BITS));
    default: return load(ZC_LOAD_ANCHOR);
    }
}

/* Refused where it touches a slot that the queue does not have, which a sound record never names. */
static zc_touch within(uint64_t slots, zc_touch next)
{
    switch (next.act) {
    case ZC_NO_TOUCH: case ZC_LOAD_ANCHOR: case ZC_SWAP_ANCHOR: case ZC_LOAD_HEAD: case ZC_SWAP_HEAD: return next;
    default: return slot_ok(next.slot, slots) ? next : none(ZC_UNSOUND);
    }
}

zc_touch TOUCH_CALL(plan)(uint64_t slots, uint64_t pooled, const zc_record *own)
{
    uint32_t why = record_refusal(own, slots, pooled);
    return why == 0 ? planned(slots, own) : none(why);
}

/* ---- What comes of it -------------------------------------------------------------------- */

static zc_reply refuse(uint32_t why) { return (zc_reply){why, 0, 0}; }

static zc_reply go(zc_record *own, uint64_t place)
{
    own->place = place;
    return (zc_reply){ZC_RUNNING, 0, place};
}

static zc_reply answer(zc_record *own, uint32_t code, uint32_t label, uint64_t slot)
{
    memset(own, 0, offsetof(zc_record, retries));
    return (zc_reply){code, label, slot};
}

/* To a place that only pushes have, or only pops: a record that is not of that kind goes to 0. */
static zc_reply push_goes(zc_record *own, uint64_t place)
{
    return go(own, own->kind == ZC_PUSH ? place : 0);
}

static zc_reply pop_goes(zc_record *own, uint64_t place)
{
    return go(own, own->kind == ZC_PUSH ? 0 : place);
}

static zc_reply leave(zc_record *own)
{
    return own->finishing == 1 ? answer(own, ZC_PUSHED, 0, 0) : go(own, 1);
}

static zc_record *retry(zc_record *own)
{
    own->retries += own->retries < ZC_MOST_RETRIES;
    return own;
}

static zc_reply reading(zc_record *own, uint64_t found)
{
    uint64_t left = zc_anchor_left(found), right = zc_anchor_right(found);
    bool empty = left == 0 && right == 0;
    own->seen = found;
    if (empty && own->kind != ZC_PUSH)
        return answer(own, ZC_EMPTY, 0, 0);
    if (empty || (left == right && own->kind == ZC_POP))
        return go(own, 2);
    return go(own, zc_anchor_status(found) == ZC_STABLE ? 3 : 5);
}

static zc_reply changed(zc_record *own, uint64_t slots)
{
    uint64_t wanted = anchor_after(own);
    if (!anchor_may(own, slots))
        return refuse(ZC_UNSOUND);
    if (own->kind != ZC_PUSH)
        return go(own, 11);
    if (own->place == 2)
        return answer(own, ZC_PUSHED, 0, 0);
    own->seen = wanted;
    own->finishing = 1;
    return go(own, 5);
}

static zc_reply on_anchor(zc_record *own, uint64_t found, uint64_t slots)
{
    bool same = found == own->seen; /* then it was tested with the record, or nothing is */
    if (!same && !anchor_ok(found, slots))
        return refuse(ZC_UNSOUND);
    switch (own->place) {
    case 1: return reading(own, found);
    case 2: case 4: return same ? changed(own, slots) : reading(retry(own), found);
    case 10:
        if (!same)
            return leave(retry(own));
        return anchor_may(own, slots) ? leave(own) : refuse(ZC_UNSOUND);
    default: return same ? go(own, own->place + 1) : leave(own);
    }
}

static zc_reply on_row(zc_record *own, uint64_t found, uint64_t slots, uint64_t pooled)
{
    uint64_t row = row_of(own);
    uint32_t label = (uint32_t)(found & 0xffffffff);
    if (!slot_ok(row, slots) || (own->place < 9 && !link_ok(found, slots)))
        return refuse(ZC_UNSOUND);
    switch (own->place) {
    case 7:
        own->link = found;
        return go(own, zc_link_slot(found) == end_of(own->seen, mended(own)) ? 10 : 8);
    case 9:
        if (found != own->link)
            return leave(retry(own));
        return found < TAGS ? go(own, 10) : refuse(ZC_UNSOUND);
    case 11:
        if (pooled != 1)
            return own->kind == ZC_PUSH ? go(own, 0) : answer(own, ZC_POPPED, label, row);
        own->own = row;
        own->label = label;
        return pop_goes(own, 15);
    default: /* 3 and 5; of a push at 3 the link is its own */
        if (own->place == 5 || own->kind != ZC_PUSH)
            own->neighbour = zc_link_slot(found);
        return go(own, own->place + 1);
    }
}

static zc_reply on_pool(zc_record *own, uint64_t found, uint64_t slots)
{
    bool same = found == own->link;
    switch (own->place) {
    case 12: case 15:
        if (!link_ok(found, slots))
            return refuse(ZC_UNSOUND);
        if (own->place == 12 && own->kind == ZC_PUSH && zc_link_slot(found) == 0)
            return answer(own, ZC_NO_FREE_SLOT, 0, 0);
        own->link = found;
        return own->place == 12 ? push_goes(own, 13) : pop_goes(own, 16);
    case 13:
        if (found > slots)
            return refuse(ZC_UNSOUND);
        own->neighbour = found;
        return push_goes(own, 14);
    case 16: return pop_goes(own, 17);
    default: break;
    }
    if (!same)
        return own->place == 14 ? push_goes(retry(own), 12) : pop_goes(retry(own), 15);
    if (found >= TAGS)
        return refuse(ZC_UNSOUND);
    if (own->place == 17)
        return own->kind == ZC_PUSH ? go(own, 0) : answer(own, ZC_POPPED, own->label, own->own);
    own->own = zc_link_slot(found);
    return push_goes(own, 1);
}

/* At a place from 1 to 17. */
static zc_reply settled(uint64_t slots, uint64_t pooled, zc_record *own, uint64_t found)
{
    if (needs_row(own))
        return on_row(own, found, slots, pooled);
    return own->place <= 10 ? on_anchor(own, found, slots) : on_pool(own, found, slots);
}

zc_onward TOUCH_CALL(settle_plan)(uint64_t slots, uint64_t pooled, zc_record *own, uint64_t found)
{
    zc_onward onward = {refuse(record_refusal(own, slots, pooled)), {0, 0, 0, 0, 0, 0}};
    if (onward.reply.code == 0)
        onward.reply = settled(slots, pooled, own, found);
    onward.touch = TOUCH_CALL(plan)(slots, pooled, own);
    return onward;
}

/* Asked of a record that is known to be sound. */
static uint32_t place_refusal(const zc_record *own)
{
    return own->place == 0 ? ZC_IDLE : own->place > 17 ? ZC_UNSOUND : 0;
}

zc_onward TOUCH_CALL(settle_unasked)(uint64_t slots, uint64_t pooled, zc_record *own, uint64_t found)
{
    zc_onward onward = {refuse(place_refusal(own)), {0, 0, 0, 0, 0, 0}};
    if (onward.reply.code == 0)
        onward.reply = settled(slots, pooled, own, found);
    uint32_t why = place_refusal(own);
    onward.touch = why == 0 ? within(slots, planned(slots, own)) : none(why);
    return onward;
}

/* ---- Starts ------------------------------------------------------------------------------ */

static uint32_t start_refusal(uint64_t slots, uint64_t pooled, const zc_record *own,
                              const zc_start *start)
{
    bool names = start->operation == ZC_ASK_PUSH, pops = start->operation == ZC_ASK_POP;
    if (start->side > ZC_RIGHT)
        return ZC_NO_SIDE;
    if (!pops && names == (pooled == 1))
        return ZC_WRONG_PUSH;
    if (names && !slot_ok(start->slot, slots))
        return ZC_BAD_SLOT;
    switch (record_refusal(own, slots, pooled)) {
    case ZC_IDLE: return 0;
    case ZC_UNSOUND: return ZC_UNSOUND;
    default: return ZC_BUSY;
    }
}

zc_touch TOUCH_CALL(plan_start)(uint64_t slots, uint64_t pooled, const zc_record *own,
                                const zc_start *start)
{
    uint32_t why = start_refusal(slots, pooled, own, start);
    return why == 0 ? load(ZC_LOAD_ANCHOR) : none(why);
}

zc_onward TOUCH_CALL(settle_start)(uint64_t slots, uint64_t pooled, zc_record *own,
                                   const zc_start *start, uint32_t act, uint64_t found)
{
    zc_onward onward = {refuse(ZC_STARTING), {0, 0, 0, 0, 0, 0}};
    bool names = start->operation == ZC_ASK_PUSH, pops = start->operation == ZC_ASK_POP;
    bool late = zc_anchor_tag(found) > ZC_LAST_START_TAG;
    uint32_t label = (uint32_t)(start->label & 0xffffffff);
    if (act == ZC_LOAD_ANCHOR && names) {
        onward.touch = touch(late ? ZC_LOAD_MARK : ZC_TAKE_SLOT, 0, start->slot, 0, 0);
        onward.touch.label = late ? 0 : label;
        return onward;
    }
    if (act == ZC_LOAD_ANCHOR && late)
        onward.reply = refuse(ZC_WORN);
    else if (act == ZC_LOAD_MARK)
        onward.reply = refuse(found == 0 ? ZC_WORN : ZC_TAKEN);
    else if (act == ZC_TAKE_SLOT && found != 0)
        onward.reply = refuse(ZC_TAKEN);
    else {
        zc_record fresh = {.kind = pops ? ZC_POP : ZC_PUSH, .side = start->side,
                           .own = names ? start->slot : 0, .label = pops ? 0 : label,
                           .retries = own->retries};
        *own = fresh;
        onward.reply = go(own, names || pops ? 1 : 12);
    }
    onward.touch = TOUCH_CALL(plan)(slots, pooled, own);
    return onward;
}

zc_onward TOUCH_CALL(start_loaded)(uint64_t slots, uint64_t pooled, zc_record *own,
                                   const zc_start *start, uint64_t anchor)
{
    uint32_t why = start_refusal(slots, pooled, own, start);
    if (why != 0)
        return (zc_onward){refuse(why), none(why)};
    return TOUCH_CALL(settle_start)(slots, pooled, own, start, ZC_LOAD_ANCHOR, anchor);
}
