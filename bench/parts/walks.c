/*
 * The calls that walk the queue: the report, the labels waiting written out, and finding (32 labels, of
 * which half wait). Slots are drawn at random, so that the next row is seldom near.
 */
#include "bench.h"

#include "draw.h"

#include <string.h>

#define WALK(name, waiting, timed)                                                                 \
    {FIELD(name), NULL, 16, 1023, waiting, "labels waiting", 1, 1, timed}
static const struct line lines[] = {
    WALK(zc_report, 0, 500),  WALK(zc_report, 3, 500),  WALK(zc_report, 1023, 20),
    WALK(zc_waiting, 0, 500), WALK(zc_waiting, 3, 500), WALK(zc_waiting, 1023, 20),
    WALK(zc_find, 0, 500),    WALK(zc_find, 3, 500),    WALK(zc_find, 1023, 5),
};

static size_t call;
static uint32_t asked[ZC_MOST_ASKED], labels_out[ZC_MOST_SLOTS];
static uint64_t slots_out[ZC_MOST_SLOTS];
#define OUT slots_out, slots, labels_out, slots

static void begin(const struct line *line)
{
    take_sizes(line);
    call = line->call;
    state = 1;
    line_up(&queue, line->size, 1);
    for (size_t at = 0; at < ZC_MOST_ASKED; at++) {
        uint64_t slot = zc_anchor_left(queue.control.anchor);
        for (uint64_t left = at * line->size / ZC_MOST_ASKED; left > 0; left--)
            slot = zc_link_slot(queue.rights[slot]);
        asked[at] = at % 2 && slot > 0 ? queue.labels[slot] : (uint32_t)draw(UINT64_MAX);
    }
}

static void lay(void)
{
    memset(slots_out, 0, sizeof slots_out);
    memset(labels_out, 0, sizeof labels_out);
}

static uint64_t walk(const struct calls *calls)
{
    if (call == FIELD(zc_report)) {
        zc_report_reply reply = calls->zc_report(QUEUE, LENT);
        return mix_words(0, (const uint64_t *)&reply, 8);
    }
    if (call == FIELD(zc_waiting))
        return calls->zc_waiting(&queue.control, OUT, ROWS).count;
    zc_find_reply reply = calls->zc_find(&queue.control, asked, ZC_MOST_ASKED, ROWS);
    return mix_words(0, (const uint64_t *)&reply, 8);
}

static uint64_t round_walks(const struct calls *calls, size_t count)
{
    uint64_t sum = 0;
    for (size_t at = 0; at < count && calls != NULL; at++)
        sum += walk(calls);
    return sum;
}

static uint64_t left(void)
{
    uint64_t hash = mix_words(queue_left(), slots_out, ZC_MOST_SLOTS);
    for (size_t at = 0; at < ZC_MOST_SLOTS; at++)
        hash = mix(hash, labels_out[at]);
    return hash;
}

/* The whole answers of all three, and what was written. */
static uint64_t all_answers(const struct calls *calls)
{
    lay();
    zc_report_reply report = calls->zc_report(QUEUE, LENT);
    zc_find_reply found = calls->zc_find(&queue.control, asked, ZC_MOST_ASKED, ROWS);
    zc_waiting_reply waiting = calls->zc_waiting(&queue.control, OUT, ROWS);
    uint64_t hash = mix(mix(left(), waiting.code), waiting.count);
    hash = mix_words(hash, (const uint64_t *)&report, sizeof report / sizeof hash);
    return mix_words(hash, (const uint64_t *)&found, sizeof found / sizeof hash);
}

/* From either end, of full queues and less full ones; then with a link to a wrong slot. */
static bool alike(const struct calls *ours, const struct calls *theirs, bool at_length)
{
    static const size_t sizes[] = {0, 1, 2, 3, 31, 64, 500, 1023};
    bool same = true;
    for (size_t at = 0; at < sizeof sizes / sizeof *sizes; at++) {
        struct line line = {FIELD(zc_report), NULL, 16, 1023, sizes[at], NULL, 0, 0, 0};
        begin(&line);
        for (uint64_t tried = 0; tried < (at_length ? 1000 : 50); tried++) {
            same = same && all_answers(ours) == all_answers(theirs);
            if (sizes[at] > 1)
                queue.control.anchor ^= (uint64_t)ZC_LPUSH << 30;
            if (tried % 8 == 7)
                queue.lefts[draw(slots + 1)] = draw(4) ? draw(slots + 2) : draw(UINT64_MAX);
        }
    }
    return same;
}

const struct part walks = {LINES(lines), begin, lay, round_walks, left, alike};
