/*
 * zc_next_schedule written by hand in C, over the step of reference.c: the same schedules, the same
 * refusals in the same order. Named as reference.c's calls are.
 */
#include "schedules.h"

#include <stdbool.h>

/* One search: the tables, control and the two records as the steps so far left them. */
struct search {
    zc_control control;
    zc_record records[2];
    uint64_t *given, *lefts, *rights, *marks, *next;
    uint32_t *labels;
    size_t left_count, right_count, label_count, mark_count, next_count;
    uint64_t bound, length, ending;
};

/* Control and Anchor: the first refusal. */
static bool sound(const zc_control *control)
{
    uint64_t slots = control->slots, status = zc_anchor_status(control->anchor);
    uint64_t left = zc_anchor_left(control->anchor), right = zc_anchor_right(control->anchor);
    if (control->tasks < 1 || control->tasks > ZC_MOST_TASKS || control->pooled > 1)
        return false;
    if (slots < 1 || slots > ZC_MOST_SLOTS || left > slots || right > slots)
        return false;
    if (status > ZC_LPUSH || (left == 0) != (right == 0))
        return false;
    return status == ZC_STABLE || left != right;
}

/* The slot whose row the next step of a record may write. */
static uint64_t touched(const zc_record *record)
{
    uint64_t place = record->place, status = zc_anchor_status(record->seen);
    bool helps = place >= 5 && place <= 10;
    bool right = helps ? status == ZC_RPUSH : record->side == ZC_RIGHT;
    if (place == 7 || place == 9)
        return record->neighbour;
    if ((place == 3 && record->kind == ZC_PUSH) || place >= 15)
        return record->own;
    if (place >= 12)
        return zc_link_slot(record->link);
    return right ? zc_anchor_right(record->seen) : zc_anchor_left(record->seen);
}

static bool end(struct search *s, uint64_t made, bool any, uint64_t ending)
{
    s->length = made;
    s->ending = ending;
    return any;
}

static bool seek(struct search *s, uint64_t made, bool any)
{
    if (s->records[0].place == 0 && s->records[1].place == 0)
        return end(s, made, any, ZC_BOTH_ANSWERED);
    if (made == ZC_MOST_SCHEDULE)
        return end(s, made, any, ZC_CUT);
    for (uint64_t task = 0; task < 2; task++) {
        bool binds = !any && made < s->bound;
        uint64_t least = s->given[made + 1];
        if (s->records[task].place == 0 || (binds && task < least))
            continue;
        bool freed = !binds || task != least;
        zc_control control = s->control;
        zc_record record = s->records[task];
        uint64_t slot = touched(&record);
        bool within = slot <= s->control.slots;
        uint64_t row = within ? slot : 0;
        uint64_t left = s->lefts[row], right = s->rights[row], mark = s->marks[row / 64];
        uint64_t below = s->next_count > row ? s->next[row] : 0;
        uint32_t label = s->labels[row];
        zc_reply reply = CALL(step)(&s->control, s->records, 2, task, s->lefts, s->left_count,
                                    s->rights, s->right_count, s->labels, s->label_count, s->marks,
                                    s->mark_count, s->next, s->next_count);
        bool found = zc_refused(reply) ? end(s, made + 1, freed, ZC_STOPPED)
                                       : seek(s, made + 1, freed);
        s->control = control;
        s->records[task] = record;
        s->lefts[row] = left;
        s->rights[row] = right;
        s->marks[row / 64] = mark;
        s->labels[row] = label;
        if (s->next_count > row)
            s->next[row] = below;
        if (found) {
            s->given[made + 1] = task;
            return true;
        }
    }
    return false;
}

zc_schedule_reply CALL(next_schedule)(const zc_control *control, const zc_record *records,
                                      size_t record_count, uint64_t *schedule,
                                      size_t schedule_count, TABLES(uint64_t, uint32_t, uint64_t),
                                      NEXT(uint64_t))
{
    if (!sound(control))
        return (zc_schedule_reply){ZC_UNSOUND, 0, 0};
    if (schedule_count < ZC_SCHEDULE_WORDS)
        return (zc_schedule_reply){ZC_SHORT, 0, 0};
    zc_report_reply report =
        CALL(report)(control, records, record_count, lefts, left_count, rights, right_count, labels,
                     label_count, marks, mark_count, next, next_count);
    if (report.code != 0) /* 12, or 34 for the walk */
        return (zc_schedule_reply){report.code, 0, 0};
    if (control->tasks != 2 || report.busy != 2 || report.waiting > 4)
        return (zc_schedule_reply){ZC_NOT_TWO, 0, 0};
    uint64_t bound = schedule[0] < ZC_MOST_SCHEDULE ? schedule[0] : ZC_MOST_SCHEDULE;
    struct search search = {*control, {records[0], records[1]}, schedule, lefts, rights, marks,
                            next, labels, left_count, right_count, label_count, mark_count,
                            next_count, bound, 0, 0};
    if (!seek(&search, 0, false))
        return (zc_schedule_reply){0, ZC_NO_MORE, 0};
    schedule[0] = search.length;
    return (zc_schedule_reply){0, search.ending, search.length};
}
