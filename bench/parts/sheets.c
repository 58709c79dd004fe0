/* Order sheets that are kept, which is the longest way. */
#include "bench.h"

#include "draw.h"

#include <string.h>

#define SHEET(name, form, waiting, timed)                                                          \
    {FIELD(name), form, 0, 0, waiting, "labels waiting", 1, 1, timed}
static const struct line lines[] = {
    SHEET(zc_sheet, "4 listed, 4 rules", 8, 200),
    SHEET(zc_sheet, "32 listed, 31 rules", 64, 8),
    SHEET(zc_sheet, "32 listed, 128 rules", 1023, 1),
    SHEET(zc_sheet_words, "4 listed, 4 rules", 8, 200),
    SHEET(zc_sheet_words, "32 listed, 31 rules", 64, 8),
};

static size_t call;
static uint32_t listed[ZC_MOST_LISTED], rules[ZC_MOST_RULES], words[ZC_SHEET_WORDS];
static size_t listed_count, rule_count;
#define SHEET_LENT &queue.control, listed, listed_count, rules, rule_count

/* Labels waiting in slots 1, 2 and so on, some of them listed, in the sheet's order. */
static void lay_out(size_t waiting, size_t each)
{
    size_t next = 0;
    tasks = 1;
    slots = waiting;
    memset(&queue, 0, sizeof queue);
    queue.control = (zc_control){.tasks = tasks, .slots = slots, .anchor = UINT64_C(1) << 15 | slots};
    for (size_t slot = 1; slot <= slots; slot++) {
        bool take = slot % each == 0 && next < listed_count;
        queue.lefts[slot] = slot - 1;
        queue.rights[slot] = slot == slots ? 0 : slot + 1;
        queue.labels[slot] = take ? (uint32_t)(1000 + 7 * next++) : (uint32_t)(500000 + slot);
    }
}

static void begin(const struct line *line)
{
    call = line->call;
    listed_count = line->size <= 8 ? 4 : 32;
    rule_count = line->size <= 8 ? 4 : line->size <= 64 ? 31 : 128;
    lay_out(line->size, line->size > 64 ? 30 : 2);
    for (size_t at = 0; at < listed_count; at++)
        listed[at] = (uint32_t)(1000 + 7 * at);
    for (size_t at = 0; at < rule_count; at++) /* a long chain, then rules that it implies */
        rules[at] = at + 1 < listed_count ? zc_rule(at + 1, at + 2)
                                          : zc_rule(1 + at % (listed_count / 2), listed_count);
}

static void lay(void) { memset(words, 0xff, sizeof words); }

static uint64_t round_sheets(const struct calls *calls, size_t count)
{
    uint64_t sum = 0;
    for (size_t at = 0; at < count && calls != NULL; at++) {
        zc_sheet_reply reply = call == FIELD(zc_sheet)
                                   ? calls->zc_sheet(SHEET_LENT, ROWS)
                                   : calls->zc_sheet_words(SHEET_LENT, words, ZC_SHEET_WORDS, ROWS);
        sum += reply.code + 3 * reply.first + 5 * reply.second;
    }
    return sum;
}

static uint64_t left(void)
{
    uint64_t hash = queue_left();
    for (size_t at = 0; at < ZC_SHEET_WORDS; at++)
        hash = mix(hash, words[at]);
    return hash;
}

/* Any rules, malformed ones among them, labels in any order, from either end: most sheets are broken. */
static void shuffle(void)
{
    rule_count = draw(rule_count + 1);
    for (size_t at = 0; at < rule_count; at++)
        rules[at] = zc_rule(draw(200) ? 1 + draw(listed_count) : 0, 1 + draw(listed_count));
    for (size_t slot = 1; slot <= slots; slot++)
        if (draw(3) == 0)
            queue.labels[slot] = listed[draw(listed_count)];
    queue.control.anchor |= draw(3) << 30;
}

static bool alike(const struct calls *ours, const struct calls *theirs, bool at_length)
{
    bool same = true;
    state = 1;
    for (size_t left_to_try = at_length ? 100000 : 5000; left_to_try > 0; left_to_try--) {
        begin(&lines[draw(100) ? draw(2) : 2]);
        call = draw(2) ? FIELD(zc_sheet) : FIELD(zc_sheet_words);
        shuffle();
        lay();
        uint64_t one = mix(round_sheets(ours, 1), left());
        lay();
        same = same && one == mix(round_sheets(theirs, 1), left());
    }
    return same;
}

const struct part sheets = {LINES(lines), begin, lay, round_sheets, left, alike};
