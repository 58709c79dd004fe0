/*
 * The library's calls written by hand in C: the same answers, the same refusals in the same order.
 * It is the yardstick of the benchmark and a stand-in for the archive in tests/library.
 *
 * The calls are named reference_*, or zc_* if compiled with -DAS_LIBRARY.
 */
#include "reference.h"

#include <stdbool.h>
#include <string.h>

static const uint64_t last_tag = UINT64_C(0xffffffff);
static const uint64_t tag_bits = UINT64_C(0xffffffff00000000);
static const uint64_t one_tag = UINT64_C(0x100000000);
static const uint64_t link_spare_bits = UINT64_C(0xffff8000);

/* ---- Soundness (34) and lengths (12) ----------------------------------------------------- */

static inline bool within(uint64_t number, uint64_t most) { return number >= 1 && number <= most; }

static inline bool anchor_sound(uint64_t anchor, uint64_t slots)
{
    uint64_t status = zc_anchor_status(anchor);
    uint64_t left = zc_anchor_left(anchor);
    uint64_t right = zc_anchor_right(anchor);
    if (status > ZC_LPUSH || left > slots || right > slots)
        return false;
    if ((left == 0) != (right == 0))
        return false;
    return status == ZC_STABLE || left != right;
}

static inline bool link_sound(uint64_t link, uint64_t slots)
{
    return (link & link_spare_bits) == 0 && zc_link_slot(link) <= slots;
}

static inline bool control_sound(const zc_control *control)
{
    return within(control->tasks, ZC_MOST_TASKS) && within(control->slots, ZC_MOST_SLOTS) &&
           control->pooled <= 1 && anchor_sound(control->anchor, control->slots);
}

static inline bool helping(const zc_record *record)
{
    return record->place >= 5 && record->place <= 10;
}

/* Places 12 to 17 of a pooled queue. */
static inline bool pool_place_sound(const zc_record *record, uint64_t slots)
{
    if (record->place > 17 || record->finishing != 0)
        return false;
    if (record->place >= 15)
        return record->kind == ZC_POP && within(record->own, slots);
    if (record->kind != ZC_PUSH || record->own != 0)
        return false;
    return record->place == 12 || zc_link_slot(record->link) != 0;
}

static inline bool record_sound(const zc_record *record, const zc_control *control)
{
    uint64_t slots = control->slots;
    if (record->place == 0)
        return true;
    if (record->kind > ZC_POP || record->side > ZC_RIGHT || record->finishing > 1)
        return false;
    if (record->place <= 11) {
        if (record->kind == ZC_POP) {
            if (record->own != 0 || record->finishing != 0)
                return false;
        } else {
            if (!within(record->own, slots) || record->place == 11)
                return false;
            if (record->finishing != 0 && !helping(record))
                return false;
        }
    } else if (!control->pooled || !pool_place_sound(record, slots)) {
        return false;
    }
    if (record->neighbour > slots || !link_sound(record->link, slots) ||
        !anchor_sound(record->seen, slots))
        return false;
    return !helping(record) || zc_anchor_status(record->seen) != ZC_STABLE;
}

static inline bool rows_fit(uint64_t slots, size_t left_count, size_t right_count,
                            size_t label_count, size_t mark_count)
{
    return left_count > slots && right_count > slots && label_count > slots &&
           mark_count > slots / 64;
}

static inline bool next_fits(const zc_control *control, size_t next_count)
{
    return !control->pooled || next_count > control->slots;
}

/* ---- Answers ----------------------------------------------------------------------------- */

static inline zc_reply refuse(uint32_t number)
{
    zc_reply reply = {number, 0, 0};
    return reply;
}

static inline zc_reply go(zc_record *record, uint64_t place)
{
    zc_reply reply = {ZC_RUNNING, 0, place};
    record->place = place;
    return reply;
}

/* All of a record but its count. */
static inline void clear_call(zc_record *record) { memset(record, 0, offsetof(zc_record, retries)); }

static inline zc_reply answer(zc_record *record, uint32_t code, uint64_t slot, uint32_t label)
{
    zc_reply reply = {code, label, slot};
    clear_call(record);
    return reply;
}

static inline zc_reply leave(zc_record *record)
{
    return record->finishing ? answer(record, ZC_PUSHED, 0, 0) : go(record, 1);
}

/* ---- Changes ----------------------------------------------------------------------------- */

enum change { FAILED, DONE, FORBIDDEN };

static inline void count_retry(zc_record *record)
{
    if (record->retries < ZC_MOST_RETRIES)
        record->retries++;
}

/* The Anchor word with a raised tag, a status, and its two ends as seen from a side. */
static inline uint64_t successor(uint64_t seen, uint64_t status, uint64_t side, uint64_t near,
                                 uint64_t far)
{
    uint64_t left = side == ZC_RIGHT ? far : near;
    uint64_t right = side == ZC_RIGHT ? near : far;
    return ((seen & tag_bits) + one_tag) | status << 30 | left << 15 | right;
}

static inline enum change change_anchor(zc_control *control, zc_record *record, uint64_t wanted)
{
    uint64_t seen = record->seen;
    if (control->anchor != seen) {
        count_retry(record);
        return FAILED;
    }
    if (zc_anchor_tag(seen) == last_tag || !anchor_sound(wanted, control->slots))
        return FORBIDDEN;
    control->anchor = wanted;
    return DONE;
}

static inline enum change change_head(zc_control *control, zc_record *record, uint64_t slot)
{
    uint64_t read = record->link;
    if (control->head != read) {
        count_retry(record);
        return FAILED;
    }
    if (zc_link_tag(read) == last_tag)
        return FORBIDDEN;
    control->head = ((read & tag_bits) + one_tag) | slot;
    return DONE;
}

/* ---- The step of a sound record in sound tables ------------------------------------------ */

/* Two calls share it; a call of its own costs a tenth of the step. */
#if defined(__GNUC__)
#define INLINED __attribute__((always_inline)) static inline
#else
#define INLINED static inline
#endif

static inline zc_reply read_neighbour(zc_record *record, const uint64_t *inward, uint64_t end,
                                      uint64_t slots)
{
    if (end == 0 || !link_sound(inward[end], slots))
        return refuse(ZC_UNSOUND);
    record->neighbour = zc_link_slot(inward[end]);
    return go(record, record->place + 1);
}

/* What follows a reading of Anchor, made at place 1 or by a failed change at 2 or 4. */
INLINED zc_reply take_reading(zc_record *record, uint64_t found)
{
    bool push = record->kind == ZC_PUSH;
    record->seen = found;
    if (zc_anchor_left(found) == 0)
        return push ? go(record, 2) : answer(record, ZC_EMPTY, 0, 0);
    if (!push && zc_anchor_left(found) == zc_anchor_right(found))
        return go(record, 2);
    return go(record, zc_anchor_status(found) == ZC_STABLE ? 3 : 5);
}

/* Places 12 and 15. */
static inline zc_reply read_head(const zc_control *control, zc_record *record)
{
    uint64_t head = control->head;
    if (!link_sound(head, control->slots))
        return refuse(ZC_UNSOUND);
    if (record->kind == ZC_PUSH && zc_link_slot(head) == 0)
        return answer(record, ZC_NO_FREE_SLOT, 0, 0);
    record->link = head;
    return go(record, record->place + 1);
}

/* Place 14: head, mark and label in one step. */
static inline zc_reply take_slot(zc_control *control, zc_record *record, uint32_t *labels,
                                 uint64_t *marks)
{
    uint64_t slot = zc_link_slot(record->link);
    switch (change_head(control, record, record->neighbour)) {
    case FORBIDDEN: return refuse(ZC_UNSOUND);
    case FAILED: return go(record, 12);
    default: break;
    }
    marks[slot / 64] |= UINT64_C(1) << (slot % 64);
    labels[slot] = record->label;
    record->own = slot;
    return go(record, 1);
}

/* Place 17. */
static inline zc_reply give_back(zc_control *control, zc_record *record)
{
    switch (change_head(control, record, record->own)) {
    case FORBIDDEN: return refuse(ZC_UNSOUND);
    case FAILED: return go(record, 15);
    default: return answer(record, ZC_POPPED, record->own, record->label);
    }
}

INLINED zc_reply advance(zc_control *control, zc_record *record, uint64_t *lefts, uint64_t *rights,
                         uint32_t *labels, uint64_t *marks, uint64_t *next)
{
    uint64_t slots = control->slots;
    uint64_t seen = record->seen;
    uint64_t status = zc_anchor_status(seen);
    bool push = record->kind == ZC_PUSH;
    uint64_t side = helping(record) ? status == ZC_RPUSH : record->side;
    bool right = side == ZC_RIGHT;
    uint64_t end = right ? zc_anchor_right(seen) : zc_anchor_left(seen);
    uint64_t far = right ? zc_anchor_left(seen) : zc_anchor_right(seen);
    uint64_t *inward = right ? lefts : rights;
    uint64_t *outward = right ? rights : lefts;

    switch (record->place) {
    case 1: return take_reading(record, control->anchor);
    case 2:
        switch (change_anchor(control, record,
                              successor(seen, status, side, record->own, record->own))) {
        case FORBIDDEN: return refuse(ZC_UNSOUND);
        case FAILED: return take_reading(record, control->anchor);
        default: return push ? answer(record, ZC_PUSHED, 0, 0) : go(record, 11);
        }
    case 3:
        if (!push)
            return read_neighbour(record, inward, end, slots);
        if (!link_sound(inward[record->own], slots))
            return refuse(ZC_UNSOUND);
        inward[record->own] = (inward[record->own] & tag_bits) | end;
        return go(record, 4);
    case 4: {
        uint64_t wanted = push
                              ? successor(seen, right ? ZC_RPUSH : ZC_LPUSH, side, record->own, far)
                              : successor(seen, status, side, record->neighbour, far);
        switch (change_anchor(control, record, wanted)) {
        case FORBIDDEN: return refuse(ZC_UNSOUND);
        case FAILED: return take_reading(record, control->anchor);
        default: break;
        }
        if (!push)
            return go(record, 11);
        record->seen = wanted;
        record->finishing = 1;
        return go(record, 5);
    }
    case 5: return read_neighbour(record, inward, end, slots);
    case 6:
    case 8: return control->anchor == seen ? go(record, record->place + 1) : leave(record);
    case 7: {
        if (record->neighbour == 0 || !link_sound(outward[record->neighbour], slots))
            return refuse(ZC_UNSOUND);
        record->link = outward[record->neighbour];
        return go(record, zc_link_slot(record->link) == end ? 10 : 8);
    }
    case 9:
        if (record->neighbour == 0)
            return refuse(ZC_UNSOUND);
        if (outward[record->neighbour] != record->link) {
            count_retry(record);
            return leave(record);
        }
        if (zc_link_tag(record->link) == last_tag)
            return refuse(ZC_UNSOUND);
        outward[record->neighbour] = ((record->link & tag_bits) + one_tag) | end;
        return go(record, 10);
    case 10:
        if (change_anchor(control, record, successor(seen, ZC_STABLE, side, end, far)) == FORBIDDEN)
            return refuse(ZC_UNSOUND);
        return leave(record);
    case 11: {
        if (end == 0)
            return refuse(ZC_UNSOUND);
        uint32_t label = labels[end];
        marks[end / 64] &= ~(UINT64_C(1) << (end % 64));
        if (!control->pooled)
            return answer(record, ZC_POPPED, end, label);
        record->own = end;
        record->label = label;
        return go(record, 15);
    }
    case 12:
    case 15: return read_head(control, record);
    case 13: {
        uint64_t below = next[zc_link_slot(record->link)];
        if (below > slots)
            return refuse(ZC_UNSOUND);
        record->neighbour = below;
        return go(record, 14);
    }
    case 14: return take_slot(control, record, labels, marks);
    case 16: next[record->own] = zc_link_slot(record->link); return go(record, 17);
    default: return give_back(control, record);
    }
}

/* ---- The calls --------------------------------------------------------------------------- */

uint32_t CALL(open)(zc_control *control, zc_record *records, size_t record_count, uint64_t tasks,
                    uint64_t slots, uint32_t tag, TABLES(uint64_t, uint32_t, uint64_t))
{
    if (!within(tasks, ZC_MOST_TASKS))
        return ZC_BAD_TASKS;
    if (!within(slots, ZC_MOST_SLOTS))
        return ZC_BAD_SLOTS;
    if (!rows_fit(slots, left_count, right_count, label_count, mark_count) || record_count < tasks)
        return ZC_SHORT;
    memset(lefts, 0, ZC_ROWS(slots) * sizeof *lefts);
    memset(rights, 0, ZC_ROWS(slots) * sizeof *rights);
    memset(labels, 0, ZC_ROWS(slots) * sizeof *labels);
    memset(marks, 0, ZC_MARK_WORDS(slots) * sizeof *marks);
    memset(records, 0, tasks * sizeof *records);
    control->tasks = tasks;
    control->slots = slots;
    control->anchor = (uint64_t)tag << 32;
    control->pooled = 0;
    control->head = 0;
    return 0;
}

uint32_t CALL(open_pooled)(zc_control *control, zc_record *records, size_t record_count,
                           uint64_t tasks, uint64_t slots, uint32_t tag,
                           TABLES(uint64_t, uint32_t, uint64_t), NEXT(uint64_t))
{
    if (within(tasks, ZC_MOST_TASKS) && within(slots, ZC_MOST_SLOTS) && next_count <= slots)
        return ZC_SHORT;
    uint32_t code = CALL(open)(control, records, record_count, tasks, slots, tag, lefts, left_count,
                               rights, right_count, labels, label_count, marks, mark_count);
    if (code != 0)
        return code;
    for (uint64_t slot = 1; slot < slots; slot++)
        next[slot] = slot + 1;
    next[0] = 0;
    next[slots] = 0;
    control->pooled = 1;
    control->head = 1;
    return 0;
}

zc_reply CALL(push)(zc_control *control, zc_record *records, size_t record_count, size_t task,
                    uint64_t side, uint64_t slot, uint32_t label,
                    TABLES(const uint64_t, uint32_t, uint64_t), NEXT(const uint64_t))
{
    (void)lefts, (void)rights, (void)next;
    if (!control_sound(control))
        return refuse(ZC_UNSOUND);
    if (!rows_fit(control->slots, left_count, right_count, label_count, mark_count) ||
        !next_fits(control, next_count) || record_count < control->tasks)
        return refuse(ZC_SHORT);
    if (task >= control->tasks)
        return refuse(ZC_NO_TASK);
    if (side > ZC_RIGHT)
        return refuse(ZC_NO_SIDE);
    if (control->pooled)
        return refuse(ZC_WRONG_PUSH);
    if (!within(slot, control->slots))
        return refuse(ZC_BAD_SLOT);
    zc_record *record = &records[task];
    if (!record_sound(record, control))
        return refuse(ZC_UNSOUND);
    if (record->place != 0)
        return refuse(ZC_BUSY);
    if (zc_marked(marks, slot))
        return refuse(ZC_TAKEN);
    if (zc_anchor_tag(control->anchor) > ZC_LAST_START_TAG)
        return refuse(ZC_WORN);
    clear_call(record);
    record->side = side;
    record->own = slot;
    record->label = label;
    labels[slot] = label;
    marks[slot / 64] |= UINT64_C(1) << (slot % 64);
    return go(record, 1);
}

zc_reply CALL(push_pooled)(zc_control *control, zc_record *records, size_t record_count,
                           size_t task, uint64_t side, uint32_t label,
                           TABLES(const uint64_t, const uint32_t, const uint64_t),
                           NEXT(const uint64_t))
{
    (void)lefts, (void)rights, (void)labels, (void)marks, (void)next;
    if (!control_sound(control))
        return refuse(ZC_UNSOUND);
    if (!rows_fit(control->slots, left_count, right_count, label_count, mark_count) ||
        !next_fits(control, next_count) || record_count < control->tasks)
        return refuse(ZC_SHORT);
    if (task >= control->tasks)
        return refuse(ZC_NO_TASK);
    if (side > ZC_RIGHT)
        return refuse(ZC_NO_SIDE);
    if (!control->pooled)
        return refuse(ZC_WRONG_PUSH);
    zc_record *record = &records[task];
    if (!record_sound(record, control))
        return refuse(ZC_UNSOUND);
    if (record->place != 0)
        return refuse(ZC_BUSY);
    if (zc_anchor_tag(control->anchor) > ZC_LAST_START_TAG)
        return refuse(ZC_WORN);
    clear_call(record);
    record->side = side;
    record->label = label;
    return go(record, 12);
}

zc_reply CALL(pop)(zc_control *control, zc_record *records, size_t record_count, size_t task,
                   uint64_t side, TABLES(const uint64_t, const uint32_t, const uint64_t),
                   NEXT(const uint64_t))
{
    (void)lefts, (void)rights, (void)labels, (void)marks, (void)next;
    if (!control_sound(control))
        return refuse(ZC_UNSOUND);
    if (!rows_fit(control->slots, left_count, right_count, label_count, mark_count) ||
        !next_fits(control, next_count) || record_count < control->tasks)
        return refuse(ZC_SHORT);
    if (task >= control->tasks)
        return refuse(ZC_NO_TASK);
    if (side > ZC_RIGHT)
        return refuse(ZC_NO_SIDE);
    zc_record *record = &records[task];
    if (!record_sound(record, control))
        return refuse(ZC_UNSOUND);
    if (record->place != 0)
        return refuse(ZC_BUSY);
    if (zc_anchor_tag(control->anchor) > ZC_LAST_START_TAG)
        return refuse(ZC_WORN);
    clear_call(record);
    record->kind = ZC_POP;
    record->side = side;
    return go(record, 1);
}

zc_reply CALL(step)(zc_control *control, zc_record *records, size_t record_count, size_t task,
                    TABLES(uint64_t, uint32_t, uint64_t), NEXT(uint64_t))
{
    if (!control_sound(control))
        return refuse(ZC_UNSOUND);
    if (!rows_fit(control->slots, left_count, right_count, label_count, mark_count) ||
        !next_fits(control, next_count) || record_count < control->tasks)
        return refuse(ZC_SHORT);
    if (task >= control->tasks)
        return refuse(ZC_NO_TASK);
    zc_record *record = &records[task];
    if (!record_sound(record, control))
        return refuse(ZC_UNSOUND);
    if (record->place == 0)
        return refuse(ZC_IDLE);
    return advance(control, record, lefts, rights, labels, marks, next);
}

zc_reply CALL(step_record)(zc_control *control, zc_record *one,
                           TABLES(uint64_t, uint32_t, uint64_t), NEXT(uint64_t))
{
    if (!control_sound(control))
        return refuse(ZC_UNSOUND);
    if (!rows_fit(control->slots, left_count, right_count, label_count, mark_count) ||
        !next_fits(control, next_count))
        return refuse(ZC_SHORT);
    if (!record_sound(one, control))
        return refuse(ZC_UNSOUND);
    if (one->place == 0)
        return refuse(ZC_IDLE);
    return advance(control, one, lefts, rights, labels, marks, next);
}

#ifdef AS_LIBRARY
/* A table with what it held at first; no step writes an entry beyond the most rows. */
#define KEPT(type, table, count)                                                  \
    type kept_##table[ZC_MOST_SLOTS + 1];                                         \
    size_t size_##table = sizeof(type) * (count <= ZC_MOST_SLOTS ? count : ZC_MOST_SLOTS + 1); \
    if (size_##table > 0)                                                         \
        memcpy(kept_##table, table, size_##table)
#define PUT_BACK(table)                       \
    if (size_##table > 0)                     \
        memcpy(table, kept_##table, size_##table)

/* A run of no steps: a step, taken back. */
static zc_run_reply ask(zc_control *control, zc_record *records, size_t record_count, size_t task,
                        TABLES(uint64_t, uint32_t, uint64_t), NEXT(uint64_t))
{
    zc_control kept_control = *control;
    zc_record none = {0}, kept_record = task < record_count ? records[task] : none;
    KEPT(uint64_t, lefts, left_count);
    KEPT(uint64_t, rights, right_count);
    KEPT(uint32_t, labels, label_count);
    KEPT(uint64_t, marks, mark_count);
    KEPT(uint64_t, next, next_count);
    zc_reply reply =
        zc_step(control, records, record_count, task, lefts, left_count, rights, right_count,
                labels, label_count, marks, mark_count, next, next_count);
    if (zc_refused(reply))
        return (zc_run_reply){reply.code, 0, 0, 0};
    *control = kept_control;
    records[task] = kept_record;
    PUT_BACK(lefts);
    PUT_BACK(rights);
    PUT_BACK(labels);
    PUT_BACK(marks);
    PUT_BACK(next);
    return (zc_run_reply){ZC_RUNNING, 0, kept_record.place, 0};
}

zc_run_reply zc_run(zc_control *control, zc_record *records, size_t record_count, size_t task,
                    uint64_t most, TABLES(uint64_t, uint32_t, uint64_t), NEXT(uint64_t))
{
    if (most == 0)
        return ask(control, records, record_count, task, lefts, left_count, rights, right_count,
                   labels, label_count, marks, mark_count, next, next_count);
    uint64_t made = 0;
    for (; made < most; made++) {
        zc_reply reply =
            zc_step(control, records, record_count, task, lefts, left_count, rights, right_count,
                    labels, label_count, marks, mark_count, next, next_count);
        if (zc_refused(reply) && made > 0)
            break;
        if (reply.code != ZC_RUNNING)
            return (zc_run_reply){reply.code, reply.label, reply.value, !zc_refused(reply) + made};
    }
    return (zc_run_reply){ZC_RUNNING, 0, records[task].place, made};
}
#endif

/* The labels waiting, from end to end; 0 where a link is unsound or nothing waits. */
static uint64_t walked(const zc_control *control, const uint64_t *lefts, const uint64_t *rights)
{
    int from_left = zc_anchor_status(control->anchor) == ZC_LPUSH;
    const uint64_t *links = from_left ? rights : lefts;
    uint64_t left = zc_anchor_left(control->anchor), right = zc_anchor_right(control->anchor);
    uint64_t slot = from_left ? left : right, last = from_left ? right : left;
    uint64_t count = 1;
    while (slot != last && count < control->slots) {
        uint64_t link = links[slot];
        if (!link_sound(link, control->slots) || zc_link_slot(link) == 0)
            return 0;
        slot = zc_link_slot(link);
        count++;
    }
    return slot == last ? count : 0;
}

/* The marks set for slots 1 to slots. */
static uint64_t marked_slots(const uint64_t *marks, uint64_t slots)
{
    uint64_t last = slots / 64, count = 0;
    for (uint64_t word = 0; word <= last; word++) {
        uint64_t kept = marks[word];
        if (word == 0)
            kept &= ~UINT64_C(1);
        if (word == last)
            kept &= UINT64_MAX >> (63 - slots % 64);
        count += (uint64_t)__builtin_popcountll(kept);
    }
    return count;
}

zc_report_reply CALL(report)(const zc_control *control, const zc_record *records,
                             size_t record_count,
                             TABLES(const uint64_t, const uint32_t, const uint64_t),
                             NEXT(const uint64_t))
{
    (void)labels, (void)next;
    zc_report_reply reply = {0};
    if (!control_sound(control)) {
        reply.code = ZC_UNSOUND;
        return reply;
    }
    if (!rows_fit(control->slots, left_count, right_count, label_count, mark_count) ||
        !next_fits(control, next_count) || record_count < control->tasks) {
        reply.code = ZC_SHORT;
        return reply;
    }
    if (zc_anchor_right(control->anchor) != 0) {
        reply.waiting = walked(control, lefts, rights);
        if (reply.waiting == 0) {
            reply.code = ZC_UNSOUND;
            return reply;
        }
    }
    reply.tag = zc_anchor_tag(control->anchor);
    reply.status = zc_anchor_status(control->anchor);
    reply.left = zc_anchor_left(control->anchor);
    reply.right = zc_anchor_right(control->anchor);
    for (uint64_t task = 0; task < control->tasks; task++) {
        reply.busy += records[task].place != 0;
        reply.retries[task] = records[task].retries;
    }
    reply.taken = marked_slots(marks, control->slots);
    return reply;
}

/* Each row compared with every label asked for. */
zc_find_reply CALL(find)(const zc_control *control, const uint32_t *asked, size_t asked_count,
                         TABLES(const uint64_t, const uint32_t, const uint64_t))
{
    static const zc_find_reply nothing;
    zc_find_reply reply = nothing;
    (void)marks;
    if (!control_sound(control))
        reply.code = ZC_UNSOUND;
    else if (asked_count > ZC_MOST_ASKED)
        reply.code = ZC_MANY_ASKED;
    else if (!rows_fit(control->slots, left_count, right_count, label_count, mark_count))
        reply.code = ZC_SHORT;
    if (reply.code != 0 || zc_anchor_right(control->anchor) == 0)
        return reply;
    int from_left = zc_anchor_status(control->anchor) == ZC_LPUSH;
    const uint64_t *links = from_left ? rights : lefts;
    uint64_t left = zc_anchor_left(control->anchor), right = zc_anchor_right(control->anchor);
    uint64_t slot = from_left ? left : right, last = from_left ? right : left;
    for (;;) {
        uint32_t label = labels[slot];
        reply.rows++;
        for (size_t at = 0; at < asked_count; at++)
            if (asked[at] == label && (!from_left || reply.positions[at] == 0))
                reply.positions[at] = reply.rows;
        if (slot == last)
            break;
        uint64_t link = links[slot];
        if (reply.rows == control->slots || !link_sound(link, control->slots) ||
            zc_link_slot(link) == 0) {
            reply = nothing;
            reply.code = ZC_UNSOUND;
            return reply;
        }
        slot = zc_link_slot(link);
    }
    for (size_t at = 0; !from_left && at < asked_count; at++)
        if (reply.positions[at] != 0)
            reply.positions[at] = reply.rows + 1 - reply.positions[at];
    return reply;
}

/* Counted in one walk, written in a second. */
zc_waiting_reply CALL(waiting)(const zc_control *control, uint64_t *slots_out,
                               size_t slots_out_count, uint32_t *labels_out,
                               size_t labels_out_count,
                               TABLES(const uint64_t, const uint32_t, const uint64_t))
{
    zc_waiting_reply reply = {0, 0};
    (void)marks;
    if (!control_sound(control))
        reply.code = ZC_UNSOUND;
    else if (!rows_fit(control->slots, left_count, right_count, label_count, mark_count))
        reply.code = ZC_SHORT;
    if (reply.code != 0 || zc_anchor_right(control->anchor) == 0)
        return reply;
    int leftmost_first = zc_anchor_status(control->anchor) == ZC_LPUSH;
    const uint64_t *links = leftmost_first ? rights : lefts;
    uint64_t left = zc_anchor_left(control->anchor), right = zc_anchor_right(control->anchor);
    uint64_t first = leftmost_first ? left : right, last = leftmost_first ? right : left;
    uint64_t count = 1;
    for (uint64_t slot = first; slot != last; count++) {
        uint64_t link = links[slot];
        slot = zc_link_slot(link);
        if (count == control->slots || !link_sound(link, control->slots) || slot == 0) {
            reply.code = ZC_UNSOUND;
            return reply;
        }
    }
    if (slots_out_count < count || labels_out_count < count) {
        reply.code = ZC_SHORT;
        return reply;
    }
    uint64_t slot = first;
    for (uint64_t met = 0; met < count; met++) {
        uint64_t at = leftmost_first ? met : count - 1 - met;
        slots_out[at] = slot;
        labels_out[at] = labels[slot];
        slot = zc_link_slot(links[slot]);
    }
    reply.count = count;
    return reply;
}
