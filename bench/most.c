/*
 * The most that a call of the library takes over random calls of all kinds, refused ones among them, on
 * a queue with named slots and then on a pooled one: instructions and bytes of stack. Of each situation
 * (the call, where its task stands, Anchor and what was read of it) the first is counted.
 */
#include "bench.h"

#include "draw.h"

#include <inttypes.h>
#include <stdio.h>
#include <string.h>

enum { CALLS = 3000, PLACES = 18, STATUSES = 3, ENDS = 3 };

static const size_t kinds[] = {
    FIELD(zc_open), FIELD(zc_open_pooled), FIELD(zc_push), FIELD(zc_push_pooled), FIELD(zc_pop),
    FIELD(zc_step), FIELD(zc_step_record), FIELD(zc_run),  FIELD(zc_report),
};
enum { KINDS = sizeof kinds / sizeof *kinds };
static struct counts most[KINDS];
static uint64_t longest_run;
static bool met[KINDS][PLACES][2][2][STATUSES][2][ENDS];

/* What a queue's tables take. */
ZC_QUEUE_STORAGE(small, 1, 3);
ZC_QUEUE_STORAGE(middle, 5, 12);
ZC_QUEUE_STORAGE(large, 16, 1023);

static size_t index_of(size_t call)
{
    size_t at = 0;
    while (kinds[at] != call)
        at++;
    return at;
}

static void make(const struct calls *calls, size_t call, size_t task, uint64_t side, uint64_t slot)
{
    if (call == FIELD(zc_open))
        calls->zc_open(QUEUE, tasks, slots, 0, ROWS);
    else if (call == FIELD(zc_open_pooled))
        calls->zc_open_pooled(QUEUE, tasks, slots, 0, LENT);
    else if (call == FIELD(zc_push))
        calls->zc_push(QUEUE, task, side, slot, 7, LENT);
    else if (call == FIELD(zc_push_pooled))
        calls->zc_push_pooled(QUEUE, task, side, 7, LENT);
    else if (call == FIELD(zc_pop))
        calls->zc_pop(QUEUE, task, side, LENT);
    else if (call == FIELD(zc_step))
        calls->zc_step(QUEUE, task, LENT);
    else if (call == FIELD(zc_step_record))
        calls->zc_step_record(&queue.control, &queue.records[task], LENT);
    else if (call == FIELD(zc_run))
        calls->zc_run(QUEUE, task, ZC_POOLED_PUSH_STEPS, LENT);
    else
        calls->zc_report(QUEUE, LENT);
}

static void count(size_t call, size_t task, uint64_t side, uint64_t slot)
{
    struct counts *so_far = &most[index_of(call)];
    struct calls own = metered(&library_calls, call, 1);
    make(&own, call, task, side, slot);
    struct counts counts = meter_read();
    so_far->most = counts.most > so_far->most ? counts.most : so_far->most;
    so_far->stack = counts.stack > so_far->stack ? counts.stack : so_far->stack;
}

static bool is_new(size_t call, const zc_record *record)
{
    uint64_t anchor = queue.control.anchor, left = zc_anchor_left(anchor), right = zc_anchor_right(anchor);
    bool on_the_right = record->side == ZC_RIGHT, as_read = record->seen == anchor;
    size_t ends = left == 0 ? 0 : left == right ? 1 : 2;
    bool *known = &met[index_of(call)][record->place][record->kind][on_the_right][zc_anchor_status(anchor)]
                      [as_read][ends];
    bool is = !*known;
    *known = true;
    return is;
}

/* A run is long: it is counted where it makes more steps than any before, which is tried on a copy. */
static bool is_longer(size_t task)
{
    static struct tables kept;
    kept = queue;
    uint64_t steps = gcc_calls.zc_run(QUEUE, task, ZC_POOLED_PUSH_STEPS, LENT).steps;
    queue = kept;
    bool is = steps > longest_run;
    longest_run = is ? steps : longest_run;
    return is;
}

static uint64_t free_slot(void)
{
    for (uint64_t slot = 1; slot <= slots; slot++)
        if (!zc_marked(queue.marks, slot))
            return slot;
    return 0;
}

/* One call: an idle task starts, a busy one steps; now and then one that is refused. */
static void one_call(void)
{
    size_t task = draw(tasks), push = pooled ? FIELD(zc_push_pooled) : FIELD(zc_push);
    uint64_t side = draw(2), slot = free_slot();
    const zc_record *record = &queue.records[task];
    bool busy = record->place != 0;
    size_t start = (pooled || slot != 0) && draw(2) ? push : FIELD(zc_pop);
    size_t call = !busy ? start : draw(2) ? FIELD(zc_step) : FIELD(zc_step_record);
    switch (draw(32)) {
    case 0: call = busy ? push : FIELD(zc_step); break; /* 30, 31 */
    case 1: slot = 1; break;                           /* 32, mostly */
    case 2:
    case 4: call = busy ? FIELD(zc_run) : call; break;
    case 3: call = busy ? call : FIELD(zc_push) + FIELD(zc_push_pooled) - push; break; /* 41 */
    default: break;
    }
    if (call == FIELD(zc_run) ? is_longer(task) : is_new(call, record))
        count(call, task, side, slot);
    else
        make(&library_calls, call, task, side, slot);
}

static void measure(void)
{
    memset(met, 0, sizeof met);
    for (int way = 0; way < 2; way++) {
        pooled = way == 1;
        longest_run = 0;
        count(pooled ? FIELD(zc_open_pooled) : FIELD(zc_open), 0, 0, 0);
        for (int call = 0; call < CALLS; call++)
            one_call();
        count(FIELD(zc_report), 0, 0, 0);
        line_up(&queue, slots, 1); /* where the report's walk is longest */
        count(FIELD(zc_report), 0, 0, 0);
    }
}

uint64_t most_stack(size_t call)
{
    for (size_t at = 0; at < KINDS; at++)
        if (kinds[at] == call)
            return most[at].stack;
    return 0;
}

void tell_most(void)
{
    static const size_t sizes[][2] = {{1, 3}, {5, 12}, {16, 1023}};
    const size_t bytes[] = {sizeof small_tables, sizeof middle_tables, sizeof large_tables};
    (void)small, (void)middle, (void)large;
    state = UINT64_C(0x9e3779b97f4a7c15);
    for (size_t size = 0; size < 3; size++) {
        tasks = sizes[size][0];
        slots = sizes[size][1];
        for (size_t at = 0; at < KINDS; at++)
            most[at].most = 0;
        measure();
        printf("tables.%zu.%zu %zu\n", tasks, slots, bytes[size]);
        for (size_t at = 0; at < KINDS; at++)
            printf("most.%s.%zu.%zu %" PRIu64 "\n", call_name(kinds[at]), tasks, slots, most[at].most);
    }
}
