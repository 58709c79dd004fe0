/* The shelves' wrappers and calls, as wrappers.h has the others. */
#ifndef SHELVES_H
#define SHELVES_H

#include "wrappers.h"

static zc_shelves any_shelves(size_t records, size_t rows)
{
    zc_shelves s;
    s.control_count = once_in(9) ? draw(9) : 8;
    s.controls = AS(zc_control *, block(s.control_count * sizeof *s.controls));
    s.record_count = 8 * records + draw(8);
    s.records = AS(zc_record *, block(BYTES(s.records, s.record_count)));
    /* A part is count div 8 entries, and no two tables need have parts of one length. */
    s.left_count = 8 * (rows + draw(3)) + draw(8);
    s.right_count = 8 * (rows + draw(3)) + draw(8);
    s.label_count = 8 * (rows + draw(3)) + draw(8);
    s.mark_count = 8 * (rows / 64 + 1 + draw(2)) + draw(8);
    s.next_count = once_in(4) ? 0 : 8 * (rows + draw(3)) + draw(8);
    s.lefts = AS(uint64_t *, block(BYTES(s.lefts, s.left_count)));
    s.rights = AS(uint64_t *, block(BYTES(s.rights, s.right_count)));
    s.labels = AS(uint32_t *, block(BYTES(s.labels, s.label_count)));
    s.marks = AS(uint64_t *, block(BYTES(s.marks, s.mark_count)));
    s.next = AS(uint64_t *, block(BYTES(s.next, s.next_count)));
    return s;
}

static zc_shelves copied_shelves(const zc_shelves *s)
{
    zc_shelves made = *s;
    made.controls = COPIED(zc_control, s->controls, s->control_count);
    made.records = COPIED(zc_record, s->records, s->record_count);
    made.lefts = COPIED(uint64_t, s->lefts, s->left_count);
    made.rights = COPIED(uint64_t, s->rights, s->right_count);
    made.labels = COPIED(uint32_t, s->labels, s->label_count);
    made.marks = COPIED(uint64_t, s->marks, s->mark_count);
    made.next = COPIED(uint64_t, s->next, s->next_count);
    return made;
}

static bool same_shelves(const zc_shelves *a, const zc_shelves *b)
{
    return same_bytes(a->controls, b->controls, BYTES(a->controls, a->control_count)) &&
           same_bytes(a->records, b->records, BYTES(a->records, a->record_count)) &&
           same_bytes(a->lefts, b->lefts, BYTES(a->lefts, a->left_count)) &&
           same_bytes(a->rights, b->rights, BYTES(a->rights, a->right_count)) &&
           same_bytes(a->labels, b->labels, BYTES(a->labels, a->label_count)) &&
           same_bytes(a->marks, b->marks, BYTES(a->marks, a->mark_count)) &&
           same_bytes(a->next, b->next, BYTES(a->next, a->next_count));
}

static void shelves_given_back(zc_shelves *s)
{
    free(s->controls);
    free(s->records);
    free(s->lefts);
    free(s->rights);
    free(s->labels);
    free(s->marks);
    free(s->next);
}

#define SHELVES_OF(s)                                                                              \
    (s)->lefts, (s)->left_count, (s)->rights, (s)->right_count, (s)->labels, (s)->label_count,     \
        (s)->marks, (s)->mark_count, (s)->next, (s)->next_count
#define RACK_OF(s) (s)->controls, (s)->control_count, (s)->records, (s)->record_count

/* One queue is saved, another returned to, both ways. */
static void shelves(const zc_queue *saved, const zc_queue *other)
{
    zc_shelves one = any_shelves(4, once_in(9) ? 3 : 140), two = copied_shelves(&one);
    uint64_t shelf = once_in(9) ? any_number(7) : draw(8);
    const zc_queue *from = saved;
    BOTH(uint32_t, "zc_queue_save", zc_queue_save(&q, &one, shelf),
         zc_save(TASKS_OF(&c), RACK_OF(&two), shelf, ALL_OF(&c), SHELVES_OF(&two)));
    holds("zc_queue_save: the shelves", same_shelves(&one, &two));
    from = once_in(2) ? saved : other;
    if (once_in(9))
        shelf = draw(9);
    BOTH(uint32_t, "zc_queue_return", zc_queue_return(&q, &one, shelf),
         zc_return(TASKS_OF(&c), RACK_OF(&two), shelf, ALL_OF(&c), SHELVES_OF(&two)));
    holds("zc_queue_return: the shelves", same_shelves(&one, &two));
    shelves_given_back(&one);
    shelves_given_back(&two);
}
#endif
