/* Codes and packed words taken apart, against the header's tables in plain arithmetic. */
#ifndef WORDS_H
#define WORDS_H

#include "lent.h"

/* Every number of the header's two lists of refusals. */
static const uint32_t NUMBERS[] = {10, 11, 12, 13, 14, 15, 30, 31, 32, 33,
                                   34, 40, 41, 42, 43, 44, 45, 46, 47, 48};

static bool is_listed(uint64_t number)
{
    for (size_t at = 0; at < sizeof NUMBERS / sizeof *NUMBERS; at++)
        if (NUMBERS[at] == number)
            return true;
    return false;
}

static void texts(void)
{
    const char *none = zc_refusal_text(0);
    for (uint64_t number = 0; number < 70; number++)
        holds("a number has words of its own if it is a refusal",
              (strcmp(zc_refusal_text(number), none) != 0) == is_listed(number));
    for (size_t at = 0; at < sizeof NUMBERS / sizeof *NUMBERS; at++)
        for (size_t other = 0; other < at; other++)
            holds("no two refusals have the same words",
                  strcmp(zc_refusal_text(NUMBERS[at]), zc_refusal_text(NUMBERS[other])) != 0);
    holds("a number of 64 bits", strcmp(zc_refusal_text((UINT64_C(1) << 32) + 10), none) == 0);
}

/* CODES: 1 to 5 for what a start or a step answers, 10 and above for a refusal. */
static void codes(void)
{
    const uint32_t tried[] = {0, 1, 2, 3, 4, 5, 6, 9, 10, 11, 34, 48, 49, 1000, UINT32_MAX};
    for (size_t at = 0; at < sizeof tried / sizeof *tried; at++) {
        zc_reply reply;
        uint32_t code = reply.code = tried[at];
        reply.label = 77;
        reply.value = 88;
        uint64_t refused = code / 10 > 0;
        is("is a refusal", AS(uint64_t, zc_is_refusal(code)), refused);
        is("refused", AS(uint64_t, zc_refused(reply)), refused);
        is("the refusal's number", zc_refusal(reply), refused * code);
        is("answered", AS(uint64_t, zc_answered(reply)),
           code == ZC_PUSHED || code == ZC_EMPTY || code == ZC_POPPED || code == ZC_NO_FREE_SLOT);
        is("the place, if running", zc_place(reply), code == 1 ? 88 : 0);
        is("the slot, if popped", zc_slot(reply), code == 4 ? 88 : 0);
        is("the label", zc_label(reply), 77);
    }
    holds("a code of 64 bits", zc_is_refusal(UINT64_C(1) << 32));
}

/* Anchor: tag 63-32, status 31-30, left end 29-15, right end 14-0. Link words: tag 63-32, slot 14-0. */
static void fields(uint64_t tag, uint64_t status, uint64_t left, uint64_t right)
{
    uint64_t word = tag * UINT64_C(4294967296) + status * 1073741824 + left * 32768 + right;
    is("Anchor's tag", zc_anchor_tag(word), tag);
    is("Anchor's status", zc_anchor_status(word), status);
    is("Anchor's left end", zc_anchor_left(word), left);
    is("Anchor's right end", zc_anchor_right(word), right);
    is("a link's tag", zc_link_tag(word), tag);
    is("a link's slot", zc_link_slot(word), right);
}

/* Bit n mod 64 of word n div 64. */
static void marks(void)
{
    uint64_t *words = AS(uint64_t *, block(3 * sizeof *words));
    for (size_t word = 0; word < 3; word++)
        words[word] = any_word();
    for (uint64_t slot = 0; slot < 3 * 64; slot++) {
        uint64_t word = words[slot / 64];
        for (uint64_t times = slot % 64; times > 0; times--)
            word /= 2;
        is("a slot's mark", AS(uint64_t, zc_marked(words, slot)), word % 2);
    }
    free(words);
}

/* A place above 65,535 becomes 0. */
static void rules(void)
{
    const uint64_t places[] = {0, 1, 32, 33, 255, 65535, 65536, 65537, UINT64_C(1) << 32, UINT64_MAX};
    for (size_t a = 0; a < 10; a++)
        for (size_t b = 0; b < 10; b++) {
            uint64_t first = places[a] < 65536 ? places[a] : 0, second = places[b] < 65536 ? places[b] : 0;
            is("a rule", zc_rule(places[a], places[b]), first * 65536 + second);
        }
}

static void words(void)
{
    texts();
    codes();
    for (int times = 0; times < 200; times++)
        fields(draw(UINT64_C(1) << 32), draw(4), draw(32768), draw(32768));
    fields(UINT32_MAX, 3, 32767, 32767);
    fields(0, 0, 0, 0);
    marks();
    rules();
    is("16 tasks, 416", ZC_STRETCH(16), 416);
    is("16 tasks in a pool, 680", ZC_POOLED_STRETCH(16), 680);
    is("rows of 7 slots", ZC_ROWS(7), 8);
    is("mark words of 63 slots", ZC_MARK_WORDS(63), 1);
    is("mark words of 64 slots", ZC_MARK_WORDS(64), 2);
}
#endif
