/*
 * "The same calls for a caller who keeps the pointers and counts together": each wrapper and its call, with
 * every table named, on copies of the same tables; they must answer, and leave every byte, alike.
 */
#ifndef WRAPPERS_H
#define WRAPPERS_H

#include "lent.h"

/* What a wrapper and a call answered, and what they left; the copies go. */
#define ALIKE(what, reply, other, q, c)                                                            \
    do {                                                                                           \
        holds(what, same_bytes(&(reply), &(other), sizeof(reply)));                               \
        holds(what ": the tables", same_tables(&(q), &(c)));                         \
        given_back(&(q));                                                                          \
        given_back(&(c));                                                                          \
    } while (0)

#define BOTH(type, what, wrapped, plain)                                                           \
    do {                                                                                           \
        zc_queue q = copied(from), c = copied(from);                                               \
        type reply = wrapped;                                                                      \
        type other = plain;                                                                        \
        ALIKE(what, reply, other, q, c);                                                           \
    } while (0)

static void openings(const zc_queue *from)
{
    uint64_t tasks = once_in(9) ? any_number(16) : 1 + draw(4);
    uint64_t slots = once_in(9) ? any_number(1023) : 1 + draw(140);
    uint32_t tag = any_label();
    BOTH(uint32_t, "zc_queue_open", zc_queue_open(&q, tasks, slots, tag),
         zc_open(TASKS_OF(&c), tasks, slots, tag, ROWS_OF(&c)));
    BOTH(uint32_t, "zc_queue_open_pooled", zc_queue_open_pooled(&q, tasks, slots, tag),
         zc_open_pooled(TASKS_OF(&c), tasks, slots, tag, ALL_OF(&c)));
}

static void starts_and_steps(const zc_queue *from)
{
    size_t task = once_in(9) ? any_number(3) : draw(3);
    uint64_t side = once_in(9) ? any_number(1) : draw(2), slot = any_number(4), most = draw(30);
    uint32_t label = any_label();
    BOTH(zc_reply, "zc_queue_push", zc_queue_push(&q, task, side, slot, label),
         zc_push(TASKS_OF(&c), task, side, slot, label, ALL_OF(&c)));
    BOTH(zc_reply, "zc_queue_push_pooled", zc_queue_push_pooled(&q, task, side, label),
         zc_push_pooled(TASKS_OF(&c), task, side, label, ALL_OF(&c)));
    BOTH(zc_reply, "zc_queue_pop", zc_queue_pop(&q, task, side),
         zc_pop(TASKS_OF(&c), task, side, ALL_OF(&c)));
    BOTH(zc_reply, "zc_queue_step", zc_queue_step(&q, task),
         zc_step(TASKS_OF(&c), task, ALL_OF(&c)));
    BOTH(zc_run_reply, "zc_queue_run", zc_queue_run(&q, task, most),
         zc_run(TASKS_OF(&c), task, most, ALL_OF(&c)));
    BOTH(zc_report_reply, "zc_queue_report", zc_queue_report(&q),
         zc_report(TASKS_OF(&c), ALL_OF(&c)));
    if (from->record_count == 0)
        return;
    zc_record one = from->records[draw(from->record_count)], two = one;
    BOTH(zc_reply, "zc_queue_step_record", zc_queue_step_record(&q, &one),
         zc_step_record(c.control, &two, ALL_OF(&c)));
    holds("zc_queue_step_record: the record", same_bytes(&one, &two, sizeof one));
}

static void walks(const zc_queue *from)
{
    uint32_t asked[33];
    size_t count = draw(34), most = draw(from->left_count + 2);
    for (size_t at = 0; at < 33; at++)
        asked[at] = from->label_count && once_in(2) ? from->labels[draw(from->label_count)] : any_label();
    BOTH(zc_find_reply, "zc_queue_find", zc_queue_find(&q, asked, count),
         zc_find(c.control, asked, count, ROWS_OF(&c)));
    uint64_t *slots = AS(uint64_t *, block(most * sizeof *slots)), *others = COPIED(uint64_t, slots, most);
    uint32_t *labels = AS(uint32_t *, block(most * sizeof *labels)), *more = COPIED(uint32_t, labels, most);
    BOTH(zc_waiting_reply, "zc_queue_waiting", zc_queue_waiting(&q, slots, labels, most),
         zc_waiting(c.control, others, most, more, most, ROWS_OF(&c)));
    holds("zc_queue_waiting: slots", same_bytes(slots, others, BYTES(slots, most)));
    holds("zc_queue_waiting: labels", same_bytes(labels, more, BYTES(labels, most)));
    free(slots);
    free(others);
    free(labels);
    free(more);
}

static void sheets(const zc_queue *from)
{
    uint32_t listed[33], ruled[129], *words = AS(uint32_t *, block(40 * sizeof *words));
    size_t count = draw(34), rule_count = once_in(2) ? draw(6) : draw(130), word_count = 25 + draw(16);
    for (size_t at = 0; at < 33; at++)
        listed[at] = AS(uint32_t, at);
    for (size_t at = 0; at < count && at < from->label_count; at++)
        if (from->labels[at] > 33)
            listed[at] = from->labels[at];
    for (size_t at = 0; at < 129; at++)
        ruled[at] = AS(uint32_t, (1 + draw(count + 1)) * 65536 + draw(count + 1));
    uint32_t *others = COPIED(uint32_t, words, 40);
    BOTH(zc_sheet_reply, "zc_queue_sheet", zc_queue_sheet(&q, listed, count, ruled, rule_count),
         zc_sheet(c.control, listed, count, ruled, rule_count, ROWS_OF(&c)));
    BOTH(zc_sheet_reply, "zc_queue_sheet_words",
         zc_queue_sheet_words(&q, listed, count, ruled, rule_count, words, word_count),
         zc_sheet_words(c.control, listed, count, ruled, rule_count, others, word_count, ROWS_OF(&c)));
    holds("zc_queue_sheet_words: the words", same_bytes(words, others, 160));
    free(words);
    free(others);
}

static void schedules(const zc_queue *from)
{
    uint64_t *one = AS(uint64_t *, block(49 * sizeof *one)), *two = COPIED(uint64_t, one, 49);
    size_t count = once_in(5) ? draw(49) : 49;
    for (int times = 0; times < 3; times++) {
        BOTH(zc_schedule_reply, "zc_queue_next_schedule", zc_queue_next_schedule(&q, one, count),
             zc_next_schedule(TASKS_OF(&c), two, count, ALL_OF(&c)));
        holds("zc_queue_next_schedule: the schedule", same_bytes(one, two, 49 * sizeof *one));
    }
    free(one);
    free(two);
}

/* Requests are lent as rows to the wrapper, as words to the call. */
static void lists(const zc_queue *from)
{
    enum { MOST = 12 };
    zc_request *rows = AS(zc_request *, block(MOST * sizeof *rows));
    uint64_t *words = AS(uint64_t *, block(5 * MOST * sizeof *words));
    size_t count = draw(MOST + 1), room = draw(MOST + 1);
    for (size_t at = 0; at < MOST; at++) {
        rows[at].task = words[5 * at] = draw(3);
        rows[at].operation = words[5 * at + 1] = draw(5);
        rows[at].side = words[5 * at + 2] = draw(3);
        rows[at].slot = words[5 * at + 3] = draw(4);
        rows[at].label = words[5 * at + 4] = any_word();
    }
    zc_answer *answers = AS(zc_answer *, block(MOST * sizeof *answers));
    uint64_t *told = AS(uint64_t *, block(3 * MOST * sizeof *told)), pooled = draw(3);
    BOTH(zc_serve_reply, "zc_queue_serve", zc_queue_serve(&q, pooled, 2, 3, 0, rows, count, answers, room),
         zc_serve(TASKS_OF(&c), pooled, 2, 3, 0, words, 5 * count, told, 3 * room, ALL_OF(&c)));
    for (size_t at = 0; at < MOST; at++) {
        is("zc_queue_serve: a code", answers[at].code, told[3 * at]);
        is("zc_queue_serve: a label", answers[at].label, told[3 * at + 1]);
        is("zc_queue_serve: a value", answers[at].value, told[3 * at + 2]);
    }
    free(rows);
    free(words);
    free(answers);
    free(told);
}

/* Seven words a call. */
static void audits(void)
{
    enum { MOST = 4 };
    zc_finished *calls = AS(zc_finished *, block(MOST * sizeof *calls));
    uint64_t words[7 * MOST], order[MOST];
    size_t count = draw(MOST + 1), places = draw(MOST + 1);
    for (size_t at = 0; at < MOST; at++) {
        calls[at].task = words[7 * at] = draw(9);
        calls[at].kind = words[7 * at + 1] = once_in(9) ? 2 : draw(2);
        calls[at].side = words[7 * at + 2] = once_in(9) ? 2 : draw(2);
        calls[at].label = words[7 * at + 3] = draw(2);
        calls[at].answer = words[7 * at + 4] = once_in(9) ? draw(7) : 2 + draw(3);
        calls[at].start = words[7 * at + 5] = 10 * draw(9) + at;
        calls[at].end = words[7 * at + 6] = words[7 * at + 5] + 5 + 10 * draw(4);
        order[at] = once_in(4) ? draw(6) : at + 1;
    }
    zc_verdict ours = zc_audit(calls, count, order, places);
    zc_verdict theirs = zc_audit_words(words, 7 * count, order, places);
    is("zc_audit: code", ours.code, theirs.code);
    is("zc_audit: position", ours.position, theirs.position);
    free(calls);
}

/* Three queues of any kind; the third fresh in half of them. */
static void joinings(const zc_queue *first, const zc_queue *second)
{
    zc_queue fresh = lent(1, 140, 3, 0);
    zc_open(TASKS_OF(&fresh), 1, 130, 0, ROWS_OF(&fresh));
    if (once_in(2))
        damage(&fresh);
    const zc_queue *from = &fresh;
    BOTH(uint32_t, "zc_queue_join", zc_queue_join(first, second, &q),
         zc_join(TASKS_OF(first), TASKS_OF(second), TASKS_OF(&c), first->lefts, first->left_count,
                 first->rights, first->right_count, first->labels, first->label_count, second->lefts,
                 second->left_count, second->rights, second->right_count, second->labels,
                 second->label_count, ROWS_OF(&c)));
    given_back(&fresh);
}
#endif
