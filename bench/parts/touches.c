/*
 * The calls for threads, each on its own: records and words found are those of one thread that carries
 * out a schedule of steps, and lie ready; all records are copied before a round, so that none is written
 * just before a call reads it.
 */
#include "bench.h"

#include "draw.h"

enum { SAMPLES = 2000, STEPS = 40 * SAMPLES };
#define TOUCH(name, form) {FIELD(name), form, 5, 64, 0, NULL, SAMPLES, 31, SAMPLES}
static const struct line lines[] = {
    TOUCH(zc_plan, "named"),        TOUCH(zc_plan, "pooled"),
    TOUCH(zc_settle_plan, "named"), TOUCH(zc_settle_plan, "pooled"),
    TOUCH(zc_settle_unasked, "named"), TOUCH(zc_settle_unasked, "pooled"),
    TOUCH(zc_plan_start, "named"),  TOUCH(zc_plan_start, "pooled"),
    TOUCH(zc_settle_start, "named"), TOUCH(zc_settle_start, "pooled"),
    TOUCH(zc_start_loaded, "named"), TOUCH(zc_start_loaded, "pooled"),
};

/* A record, and what a step or a start then met. */
static struct sample {
    zc_record record;
    zc_start start;
    uint64_t found;
    uint32_t act;
} step_samples[SAMPLES], start_samples[SAMPLES], *samples;

static size_t call, starts_kept, steps_kept;
static zc_record owned[SAMPLES];
static struct move moves[2 * STEPS];

static zc_shared share(void)
{
    return (zc_shared){&queue.control.anchor, &queue.control.head, queue.lefts, queue.rights, queue.marks,
                       queue.next, queue.labels, slots, pooled, 0};
}

/* A start with its touches; each is kept while there is room. */
static void keep_start(const zc_shared *shared, const struct move *move)
{
    zc_record *record = &queue.records[move->task];
    uint64_t operation = move->what == MOVE_POP ? ZC_ASK_POP : pooled ? ZC_ASK_PUSH_POOLED : ZC_ASK_PUSH;
    zc_start start = {operation, move->side, move->slot, move->label};
    zc_touch touch = gcc_calls.zc_plan_start(slots, pooled, record, &start);
    for (bool starting = touch.act != ZC_NO_TOUCH; starting;) {
        struct sample sample = {*record, start, zc_made(shared, &touch), touch.act};
        zc_onward onward =
            gcc_calls.zc_settle_start(slots, pooled, record, &start, sample.act, sample.found);
        if (starts_kept < SAMPLES)
            start_samples[starts_kept++] = sample;
        touch = onward.touch;
        starting = onward.reply.code == ZC_STARTING;
    }
}

static void keep_step(const zc_shared *shared, size_t task)
{
    zc_record *record = &queue.records[task];
    zc_touch touch = gcc_calls.zc_plan(slots, pooled, record);
    struct sample sample = {*record, {0, 0, 0, 0}, zc_made(shared, &touch), touch.act};
    gcc_calls.zc_settle_plan(slots, pooled, record, sample.found);
    if (steps_kept < SAMPLES)
        step_samples[steps_kept++] = sample;
}

static void begin(const struct line *line)
{
    take_sizes(line);
    call = line->call;
    bool stepping = call == FIELD(zc_plan) || call == FIELD(zc_settle_plan) || call == FIELD(zc_settle_unasked);
    samples = stepping ? step_samples : start_samples;
    size_t made = draw_moves(moves, STEPS);
    zc_shared shared = share();
    starts_kept = steps_kept = 0;
    open_queue();
    for (size_t at = 0; at < made; at++)
        if (moves[at].what != MOVE_STEP)
            keep_start(&shared, &moves[at]);
        else
            keep_step(&shared, moves[at].task);
}

static void lay(void)
{
    for (size_t at = 0; at < SAMPLES; at++)
        owned[at] = samples[at].record;
}

static uint64_t mix_touch(uint64_t sum, const zc_touch *touch)
{
    return sum + touch->act + 3 * touch->word + 5 * touch->slot + 7 * touch->expected + touch->label;
}

/* One call on a copy of a sample's record. */
static uint64_t one(const struct calls *calls, const struct sample *sample, zc_record *own, uint64_t sum)
{
    zc_touch touch;
    zc_onward onward;
    if (call == FIELD(zc_plan)) {
        touch = calls->zc_plan(slots, pooled, own);
        return mix_touch(sum, &touch);
    }
    if (call == FIELD(zc_plan_start)) {
        touch = calls->zc_plan_start(slots, pooled, own, &sample->start);
        return mix_touch(sum, &touch);
    }
    if (call == FIELD(zc_settle_plan))
        onward = calls->zc_settle_plan(slots, pooled, own, sample->found);
    else if (call == FIELD(zc_settle_unasked))
        onward = calls->zc_settle_unasked(slots, pooled, own, sample->found);
    else if (call == FIELD(zc_start_loaded))
        onward = calls->zc_start_loaded(slots, pooled, own, &sample->start, sample->found);
    else
        onward = calls->zc_settle_start(slots, pooled, own, &sample->start, sample->act, sample->found);
    return mix_touch(mix_reply(sum, onward.reply), &onward.touch);
}

static uint64_t round_touches(const struct calls *calls, size_t count)
{
    uint64_t sum = 0;
    for (size_t at = 0; at < count && calls != NULL; at++)
        sum = one(calls, &samples[at], &owned[at], sum);
    return sum;
}

static uint64_t left(void)
{
    uint64_t hash = 0;
    for (size_t at = 0; at < SAMPLES; at++)
        hash = mix_record(hash, &owned[at]);
    return hash;
}

/* Records and words found with one word spoilt: each call answers and leaves the same. */
static bool alike(const struct calls *ours, const struct calls *theirs, bool at_length)
{
    state = 1;
    for (size_t at = 0; at < sizeof lines / sizeof *lines; at++) {
        begin(&lines[at]);
        for (size_t left_to_try = at_length ? 1000000 : 20000; left_to_try > 0; left_to_try--) {
            struct sample sample = samples[draw(SAMPLES)];
            uint64_t *words = (uint64_t *)&sample.record, *word = draw(2) ? &words[draw(10)] : &sample.found;
            *word = draw(3) ? draw(slots + 3) : *word ^ UINT64_C(1) << draw(64);
            zc_record first = sample.record, second = sample.record;
            if (mix_record(one(ours, &sample, &first, 0), &first) !=
                mix_record(one(theirs, &sample, &second, 0), &second))
                return false;
        }
    }
    return true;
}

const struct part touches = {LINES(lines), begin, lay, round_touches, left, alike};
