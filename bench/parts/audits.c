/* Histories that pass, which is the longest way: every pair of calls is looked at. */
#include "bench.h"

#include "draw.h"

enum { HISTORIES = 64 };
#define AUDIT(calls, timed) {FIELD(zc_audit_words), NULL, 0, 0, calls, "calls", 1, 1, timed}
static const struct line lines[] = {AUDIT(0, 1024), AUDIT(8, 256), AUDIT(64, HISTORIES)};

static struct history {
    zc_finished calls[ZC_MOST_CALLS + 1];
    uint64_t order[ZC_MOST_CALLS + 1];
    size_t call_count, order_count;
} histories[HISTORIES];

/* A plain queue, and the calls under way. */
struct events {
    uint64_t held[2 * (ZC_MOST_CALLS + 1)], event;
    size_t first, last, open[16], under_way;
};

/* A call takes effect: it is served by the plain queue. */
static void serve(struct events *events, zc_finished *call)
{
    bool at_left = call->side == ZC_LEFT;
    if (call->kind == ZC_PUSH) {
        call->answer = ZC_PUSHED;
        events->held[at_left ? --events->first : events->last++] = call->label;
    } else if (events->first == events->last) {
        call->answer = ZC_EMPTY;
    } else {
        call->answer = ZC_POPPED;
        call->label = events->held[at_left ? events->first++ : --events->last];
    }
}

/* Up to 16 calls under way at once; one starts, takes effect or answers at each event. */
static void draw_history(struct history *history, size_t count)
{
    struct events events = {.event = draw(1000), .first = ZC_MOST_CALLS + 1, .last = ZC_MOST_CALLS + 1};
    size_t opened = 0;
    history->call_count = count;
    history->order_count = 0;
    while (opened < count || events.under_way > 0) {
        bool starts = events.under_way == 0 || draw(3) == 0;
        events.event += 1 + draw(3);
        if (opened < count && events.under_way < 16 && starts) {
            zc_finished call = {draw(16), draw(2), draw(2), draw(8), 0, events.event, 0};
            history->calls[opened] = call;
            events.open[events.under_way++] = opened++;
            continue;
        }
        size_t one = draw(events.under_way);
        zc_finished *call = &history->calls[events.open[one]];
        if (call->answer == 0) {
            history->order[history->order_count++] = events.open[one] + 1;
            serve(&events, call);
        } else {
            call->end = events.event;
            events.open[one] = events.open[--events.under_way];
        }
    }
}

/* One word of the calls or of the order becomes another, or the order gets another length. */
static void damage(struct history *history)
{
    uint64_t what = draw(8);
    if (what == 0)
        history->order_count = draw(history->order_count + 1);
    else if (what < 4 && history->order_count > 1) {
        size_t one = draw(history->order_count), other = draw(history->order_count);
        uint64_t kept = history->order[one];
        history->order[one] = history->order[other];
        history->order[other] = what < 3 ? kept : draw(history->call_count + 2);
    } else if (history->call_count > 0) {
        uint64_t *words = (uint64_t *)&history->calls[draw(history->call_count)];
        size_t field = 1 + draw(6);
        words[field] = field < 3 ? draw(3) : field < 5 ? draw(6) : draw(400);
    }
}

static void begin(const struct line *line)
{
    state = 1;
    for (size_t at = 0; at < HISTORIES; at++)
        draw_history(&histories[at], line->size);
}

static void lay(void) {}

static zc_verdict audit(const struct calls *calls, const struct history *history)
{
    return calls->zc_audit_words((const uint64_t *)history->calls, 7 * history->call_count,
                                 history->order, history->order_count);
}

static uint64_t round_audits(const struct calls *calls, size_t count)
{
    uint64_t sum = 0;
    for (size_t at = 0; at < count && calls != NULL; at++)
        sum += audit(calls, &histories[at % HISTORIES]).code; /* all pass: 0 */
    return sum;
}

/* Any number of calls, one too many among them, and most histories damaged. */
static bool alike(const struct calls *ours, const struct calls *theirs, bool at_length)
{
    uint64_t passing = 0, failing = 0, refused = 0;
    state = 1;
    for (uint64_t left = at_length ? 2000000 : 200000; left > 0; left--) {
        struct history *history = &histories[0];
        draw_history(history, draw(ZC_MOST_CALLS + 2));
        if (draw(4) != 0)
            damage(history);
        zc_verdict a = audit(ours, history), b = audit(theirs, history);
        if (a.code != b.code || a.position != b.position)
            return false;
        passing += a.code == ZC_PASSES;
        failing += a.code == ZC_FAILS;
        refused += a.code == ZC_BAD_HISTORY;
    }
    return passing > 0 && failing > 0 && refused > 0;
}

const struct part audits = {LINES(lines), begin, lay, round_audits, nothing_left, alike};
