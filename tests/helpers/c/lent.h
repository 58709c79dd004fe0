/*
 * Queues in blocks of their own, each just as long as it is lent, so that a sanitizer or valgrind sees
 * one entry too many; copies of them, and damage. In the words of C11 and of C++11.
 */
#ifndef LENT_H
#define LENT_H

#include "check.h"
#include "draw.h"
#include "zeppolecape_atomic.h"

#include <stdlib.h>
#include <string.h>

/* A conversion, in the words of either language. */
#ifdef __cplusplus
#define AS(type, value) static_cast<type>(value)
#else
#define AS(type, value) ((type)(value))
#endif

static void holds(const char *what, bool fact) { is(what, fact ? 1 : 0, 1); }

static uint32_t any_label(void) { return AS(uint32_t, draw(UINT64_C(1) << 32)); }

static uint64_t any_word(void) { return draw(UINT64_C(1) << 40) << 24 ^ draw(UINT64_C(1) << 40); }

/* A block of so many bytes; none where there are none. */
static void *block(size_t bytes)
{
    if (bytes == 0)
        return NULL;
    void *made = malloc(bytes);
    if (made == NULL)
        abort();
    memset(made, 0, bytes);
    return made;
}

static void *copied_block(const void *from, size_t bytes)
{
    void *made = block(bytes);
    if (bytes != 0)
        memcpy(made, from, bytes);
    return made;
}

static bool same_bytes(const void *one, const void *other, size_t bytes)
{
    return bytes == 0 || memcmp(one, other, bytes) == 0;
}

#define BYTES(table, count) ((count) * sizeof *(table))
#define COPIED(type, table, count) AS(type *, copied_block(table, BYTES(table, count)))

static zc_queue lent(size_t records, size_t rows, size_t mark_words, size_t next)
{
    zc_queue q;
    q.control = AS(zc_control *, block(sizeof *q.control));
    q.record_count = records;
    q.records = AS(zc_record *, block(BYTES(q.records, records)));
    q.left_count = q.right_count = q.label_count = rows;
    q.lefts = AS(uint64_t *, block(BYTES(q.lefts, rows)));
    q.rights = AS(uint64_t *, block(BYTES(q.rights, rows)));
    q.labels = AS(uint32_t *, block(BYTES(q.labels, rows)));
    q.mark_count = mark_words;
    q.marks = AS(uint64_t *, block(BYTES(q.marks, mark_words)));
    q.next_count = next;
    q.next = AS(uint64_t *, block(BYTES(q.next, next)));
    return q;
}

static zc_queue copied(const zc_queue *q)
{
    zc_queue made = *q;
    made.control = COPIED(zc_control, q->control, 1);
    made.records = COPIED(zc_record, q->records, q->record_count);
    made.lefts = COPIED(uint64_t, q->lefts, q->left_count);
    made.rights = COPIED(uint64_t, q->rights, q->right_count);
    made.labels = COPIED(uint32_t, q->labels, q->label_count);
    made.marks = COPIED(uint64_t, q->marks, q->mark_count);
    made.next = COPIED(uint64_t, q->next, q->next_count);
    return made;
}

static void given_back(zc_queue *q)
{
    free(q->control);
    free(q->records);
    free(q->lefts);
    free(q->rights);
    free(q->labels);
    free(q->marks);
    free(q->next);
}

static bool same_tables(const zc_queue *a, const zc_queue *b)
{
    return same_bytes(a->control, b->control, sizeof *a->control) &&
           same_bytes(a->records, b->records, BYTES(a->records, a->record_count)) &&
           same_bytes(a->lefts, b->lefts, BYTES(a->lefts, a->left_count)) &&
           same_bytes(a->rights, b->rights, BYTES(a->rights, a->right_count)) &&
           same_bytes(a->labels, b->labels, BYTES(a->labels, a->label_count)) &&
           same_bytes(a->marks, b->marks, BYTES(a->marks, a->mark_count)) &&
           same_bytes(a->next, b->next, BYTES(a->next, a->next_count));
}

/* The tables of a call, written out: the header's own macros are under test. */
#define ROWS_OF(q)                                                                                 \
    (q)->lefts, (q)->left_count, (q)->rights, (q)->right_count, (q)->labels, (q)->label_count,     \
        (q)->marks, (q)->mark_count
#define ALL_OF(q) ROWS_OF(q), (q)->next, (q)->next_count
#define TASKS_OF(q) (q)->control, (q)->records, (q)->record_count

/* ---- Queues in the middle of their calls --------------------------------------------------- */

static const uint64_t SIZES[] = {1, 2, 3, 5, 63, 64, 65, 130};

static void any_call(const zc_queue *q)
{
    size_t task = draw(q->control->tasks);
    uint64_t side = draw(2);
    switch (draw(6)) {
    case 0:
        if (q->control->pooled)
            zc_push_pooled(TASKS_OF(q), task, side, any_label(), ALL_OF(q));
        else
            zc_push(TASKS_OF(q), task, side, 1 + draw(q->control->slots), any_label(), ALL_OF(q));
        break;
    case 1: zc_pop(TASKS_OF(q), task, side, ALL_OF(q)); break;
    default:
        for (uint64_t steps = draw(12); steps > 0; steps--)
            zc_step(TASKS_OF(q), task, ALL_OF(q));
    }
}

/* An open queue, written by the calls alone; its tables may be longer than it needs. */
static zc_queue any_queue(void)
{
    uint64_t tasks = 1 + draw(3), slots = SIZES[draw(8)], more = draw(3);
    zc_queue q = lent(tasks + draw(2), slots + 1 + more, (slots + more) / 64 + 1, slots + 1);
    uint32_t tag = once_in(4) ? AS(uint32_t, ZC_LAST_START_TAG - draw(9)) : AS(uint32_t, draw(9));
    if (once_in(2))
        zc_open_pooled(TASKS_OF(&q), tasks, slots, tag, ALL_OF(&q));
    else
        zc_open(TASKS_OF(&q), tasks, slots, tag, ROWS_OF(&q));
    for (uint64_t calls = draw(60); calls > 0; calls--)
        any_call(&q);
    return q;
}

/* ---- Damage ---------------------------------------------------------------------------------- */

static uint64_t any_number(uint64_t near)
{
    switch (draw(6)) {
    case 0: return near + 1;
    case 1: return 0;
    case 2: return UINT64_MAX - draw(2);
    case 3: return any_word();
    default: return draw(near + 2);
    }
}

/* A table that is lent shorter than it was, in a block of that length. */
#define CUT(type, q, table, count)                                                                 \
    do {                                                                                           \
        size_t kept = draw((q)->count + 1);                                                        \
        type *shorter = AS(type *, copied_block((q)->table, BYTES((q)->table, kept)));             \
        free((q)->table);                                                                          \
        (q)->table = shorter;                                                                      \
        (q)->count = kept;                                                                         \
    } while (0)

static void cut(zc_queue *q)
{
    switch (draw(6)) {
    case 0: CUT(zc_record, q, records, record_count); break;
    case 1: CUT(uint64_t, q, lefts, left_count); break;
    case 2: CUT(uint64_t, q, rights, right_count); break;
    case 3: CUT(uint32_t, q, labels, label_count); break;
    case 4: CUT(uint64_t, q, marks, mark_count); break;
    default: CUT(uint64_t, q, next, next_count);
    }
}

/* One word at random, or a length. */
static void damage(zc_queue *q)
{
    uint64_t *fields[] = {&q->control->tasks, &q->control->slots, &q->control->anchor,
                          &q->control->pooled, &q->control->head};
    uint64_t field = draw(5), near = *fields[field];
    switch (draw(8)) {
    case 0: *fields[field] = any_number(near & 0xffff); break;
    case 1: *fields[field] ^= UINT64_C(1) << draw(64); break;
    case 2: cut(q); break;
    case 3: if (q->left_count) q->lefts[draw(q->left_count)] = any_number(q->left_count); break;
    case 4: if (q->right_count) q->rights[draw(q->right_count)] = any_number(9); break;
    case 5: if (q->mark_count) q->marks[draw(q->mark_count)] = any_number(9); break;
    case 6: if (q->next_count) q->next[draw(q->next_count)] = any_number(q->next_count); break;
    default:
        if (q->record_count) {
            zc_record *r = &q->records[draw(q->record_count)];
            uint64_t *words[] = {&r->place, &r->kind, &r->side, &r->own, &r->seen,
                                 &r->neighbour, &r->link, &r->finishing, &r->retries};
            *words[draw(9)] = any_number(17);
        }
    }
}

static zc_queue any_tables(void)
{
    zc_queue q = any_queue();
    if (once_in(2))
        for (uint64_t times = 1 + draw(3); times > 0; times--)
            damage(&q);
    return q;
}
#endif
