/*
 * zeppolecape_atomic.h by one thread: each touch against the same on plain words, and whole calls against
 * the start and the steps of zeppolecape.h on a copy, in sound tables and damaged ones.
 */
#ifndef SHARED_H
#define SHARED_H

#include "helpers.h"

static zc_shared shared_of(const zc_queue *q)
{
    zc_shared all;
    all.anchor = &q->control->anchor;
    all.head = &q->control->head;
    all.lefts = q->lefts;
    all.rights = q->rights;
    all.marks = q->marks;
    all.next = q->next;
    all.labels = q->labels;
    all.slots = q->control->slots;
    all.pooled = q->control->pooled;
    all.refusal = 0;
    return all;
}

/* The names and parameters that users' programs are written against: with others this does not compile. */
static void signatures(void)
{
    zc_shared (*const shared)(const zc_queue *) = zc_share;
    zc_reply (*const push[])(const zc_shared *, zc_record *, uint64_t, uint64_t, uint32_t) = {zc_atomic_push, zc_atomic_start_push};
    zc_reply (*const pooled[])(const zc_shared *, zc_record *, uint64_t, uint32_t) = {zc_atomic_push_pooled, zc_atomic_start_push_pooled};
    zc_reply (*const pop[])(const zc_shared *, zc_record *, uint64_t) = {zc_atomic_pop, zc_atomic_start_pop};
    zc_reply (*const step)(const zc_shared *, zc_record *) = zc_atomic_step;
    (void)shared, (void)push, (void)pooled, (void)pop, (void)step;
}

/* "Where the report is refused so are all calls on what it answers", and no record changes. */
static void share(const zc_queue *q)
{
    zc_shared shared = zc_share(q), wanted = shared_of(q);
    uint64_t code = zc_report(TASKS_OF(q), ALL_OF(q)).code;
    is("zc_share", shared.refusal, code);
    if (code == 0) {
        holds("zc_share: what is shared", same_bytes(&shared, &wanted, sizeof shared));
        return;
    }
    zc_record own, before;
    memset(&own, 0, sizeof own);
    own.place = draw(2);
    before = own;
    is("nothing shared: a push", zc_atomic_push(&shared, &own, ZC_LEFT, 1, 7).code, code);
    is("nothing shared: a pooled push", zc_atomic_push_pooled(&shared, &own, ZC_LEFT, 7).code, code);
    is("nothing shared: a pop", zc_atomic_pop(&shared, &own, ZC_RIGHT).code, code);
    is("nothing shared: a start", zc_atomic_start_pop(&shared, &own, ZC_RIGHT).code, code);
    is("nothing shared: a step", zc_atomic_step(&shared, &own).code, code);
    holds("nothing shared: the record", same_bytes(&own, &before, sizeof own));
}

static void touch_words(void)
{
    uint64_t *word = AS(uint64_t *, block(8)), was = any_word(), wanted = any_word();
    *word = was;
    is("zc_loaded", zc_loaded(word), was);
    is("zc_swapped, as expected", zc_swapped(word, was, wanted), was);
    is("zc_swapped: the change", *word, wanted);
    is("zc_swapped, not as expected", zc_swapped(word, wanted + 1, 7), wanted);
    is("zc_swapped: no change", *word, wanted);
    is("zc_stored", zc_stored(word, was), 0);
    is("zc_stored: the word", *word, was);
    /* "In a sound link word the slot is replaced, and the tag kept; one that names no slot of the queue stays." */
    uint64_t slots = 1 + draw(1023), low = once_in(3) ? any_number(slots) % (UINT64_C(1) << 32) : draw(slots + 1);
    uint64_t tag = draw(UINT64_C(1) << 32), link = tag * UINT64_C(4294967296) + low, slot = draw(slots + 1);
    *word = link;
    is("zc_put: the word found", zc_put(word, slot, slots), link);
    is("zc_put", *word, low <= slots ? tag * UINT64_C(4294967296) + slot : link);
    free(word);
}

static uint64_t *word_of(const zc_queue *q, const zc_touch *t)
{
    switch (t->act) {
    case ZC_LOAD_ANCHOR:
    case ZC_SWAP_ANCHOR: return &q->control->anchor;
    case ZC_LOAD_HEAD:
    case ZC_SWAP_HEAD:
    case ZC_DRAW_SLOT: return &q->control->head;
    case ZC_LOAD_NEXT:
    case ZC_STORE_NEXT: return &q->next[t->slot];
    case ZC_LOAD_MARK:
    case ZC_TAKE_SLOT:
    case ZC_TAKE_LABEL: return &q->marks[t->slot / 64];
    default: return t->side == 1 ? &q->rights[t->slot] : &q->lefts[t->slot];
    }
}

/* What the list of touches says of each, on plain words. */
static uint64_t made(const zc_queue *q, const zc_touch *t)
{
    if (t->act == ZC_NO_TOUCH || t->act > ZC_LOAD_MARK)
        return 0;
    uint64_t *word = word_of(q, t), found = *word, bit = UINT64_C(1) << t->slot % 64;
    switch (t->act) {
    case ZC_SWAP_ANCHOR:
    case ZC_SWAP_LINK:
    case ZC_SWAP_HEAD:
        if (found == t->expected)
            *word = t->word;
        return found;
    case ZC_PUT_LINK:
        if (found % (UINT64_C(1) << 32) <= q->control->slots)
            *word = found / (UINT64_C(1) << 32) * (UINT64_C(1) << 32) + t->word;
        return found;
    case ZC_STORE_NEXT: *word = t->word; return 0;
    case ZC_TAKE_LABEL: *word &= ~bit; return q->labels[t->slot];
    case ZC_DRAW_SLOT:
        if (found == t->expected) {
            *word = t->word;
            q->labels[t->slot] = t->label;
            q->marks[t->slot / 64] |= bit;
        }
        return found;
    case ZC_TAKE_SLOT:
        if (found & bit)
            return 1;
        *word |= bit;
        q->labels[t->slot] = t->label;
        return 0;
    case ZC_LOAD_MARK: return found & bit ? 1 : 0;
    default: return found;
    }
}

/* Every kind of touch on every kind of tables that are long enough for it. */
static void touch_tables(const zc_queue *from)
{
    uint64_t slots = from->control->slots;
    if (zc_report(TASKS_OF(from), ALL_OF(from)).code == 12 || slots == 0 || slots >= from->left_count ||
        slots >= from->right_count || slots >= from->label_count || slots / 64 >= from->mark_count)
        return;
    for (uint32_t act = 0; act < 15; act++) {
        zc_queue q = copied(from), c = copied(from);
        uint64_t slot = once_in(3) ? slots : 1 + draw(slots);
        zc_touch touch = {act, any_label(), draw(2), slot, any_word(), draw(slots + 1)};
        if (from->next_count <= slots && (act == ZC_LOAD_NEXT || act == ZC_STORE_NEXT))
            touch.act = ZC_LOAD_HEAD;
        if (once_in(2))
            touch.expected = *word_of(&q, &touch);
        const zc_shared shared = shared_of(&q);
        is("zc_made: the word found", zc_made(&shared, &touch), made(&c, &touch));
        holds("zc_made: the tables", same_tables(&q, &c));
        given_back(&q);
        given_back(&c);
    }
}

/* The call of zeppolecape.h that a start stands for, on the record of task 0. */
static zc_reply started(const zc_queue *q, const zc_start *s)
{
    uint32_t label = AS(uint32_t, s->label % (UINT64_C(1) << 32));
    if (s->operation == ZC_ASK_PUSH)
        return zc_push(TASKS_OF(q), 0, s->side, s->slot, label, ALL_OF(q));
    if (s->operation == ZC_ASK_POP)
        return zc_pop(TASKS_OF(q), 0, s->side, ALL_OF(q));
    return zc_push_pooled(TASKS_OF(q), 0, s->side, label, ALL_OF(q));
}

static zc_reply whole_call(const zc_shared *shared, zc_record *own, const zc_start *s)
{
    uint32_t label = AS(uint32_t, s->label % (UINT64_C(1) << 32));
    if (s->operation == ZC_ASK_PUSH)
        return zc_atomic_push(shared, own, s->side, s->slot, label);
    if (s->operation == ZC_ASK_POP)
        return zc_atomic_pop(shared, own, s->side);
    return zc_atomic_push_pooled(shared, own, s->side, label);
}

static void whole_calls(const zc_queue *from)
{
    if (zc_report(TASKS_OF(from), ALL_OF(from)).code != 0)
        return;
    zc_queue q = copied(from), c = copied(from);
    const zc_shared shared = shared_of(&q);
    const zc_start start = {draw(3), once_in(9) ? any_number(1) : draw(2), draw(from->control->slots + 2), any_word()};
    zc_reply ours = whole_call(&shared, &q.records[0], &start), theirs = started(&c, &start);
    while (theirs.code == ZC_RUNNING)
        theirs = zc_step(TASKS_OF(&c), 0, ALL_OF(&c));
    holds("a whole call", same_reply(ours, theirs));
    holds("a whole call: the tables", same_tables(&q, &c));
    given_back(&q);
    given_back(&c);
}

static zc_reply single_start(const zc_shared *shared, zc_record *own, const zc_start *s)
{
    const uint32_t label = AS(uint32_t, s->label);
    if (s->operation == ZC_ASK_PUSH)
        return zc_atomic_start_push(shared, own, s->side, s->slot, label);
    if (s->operation == ZC_ASK_POP)
        return zc_atomic_start_pop(shared, own, s->side);
    return zc_atomic_start_push_pooled(shared, own, s->side, label);
}

/* One touch at a time; an idle record is refused 31 and changes nothing. */
static void single_steps(const zc_queue *from)
{
    if (zc_report(TASKS_OF(from), ALL_OF(from)).code != 0)
        return;
    zc_queue q = copied(from), c = copied(from);
    const zc_shared shared = shared_of(&q);
    const zc_start start = {draw(4), draw(2), 1 + draw(from->control->slots), any_word()};
    zc_reply ours = once_in(2) ? single_start(&shared, &q.records[0], &start)
                               : zc_atomic_start(&shared, &q.records[0], &start);
    zc_reply theirs = started(&c, &start);
    holds("a start", same_reply(ours, theirs));
    while (ours.code == ZC_RUNNING) {
        ours = zc_atomic_step(&shared, &q.records[0]);
        theirs = zc_step(TASKS_OF(&c), 0, ALL_OF(&c));
        holds("zc_atomic_step", same_reply(ours, theirs));
    }
    is("zc_atomic_step: once it has answered", zc_atomic_step(&shared, &q.records[0]).code,
       zc_step(TASKS_OF(&c), 0, ALL_OF(&c)).code);
    holds("zc_atomic_step: the tables", same_tables(&q, &c));
    given_back(&q);
    given_back(&c);
}
#endif
