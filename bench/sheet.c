/*
 * The order sheet written by hand, from document 02: what a C programmer would ship.
 * The calls are named reference_*, or zc_* if compiled with -DAS_LIBRARY.
 */
#include "sheet.h"

#include <stdbool.h>
#include <string.h>

static bool anchor_sound(uint64_t slots, uint64_t anchor)
{
    uint64_t status = zc_anchor_status(anchor);
    uint64_t left = zc_anchor_left(anchor), right = zc_anchor_right(anchor);
    return status <= 2 && left <= slots && right <= slots && (left == 0) == (right == 0) &&
           (status == 0 || left != right);
}

static bool well_formed(const uint32_t *listed, size_t n, const uint32_t *rules, size_t rule_count)
{
    if (n > 32 || rule_count > 128)
        return false;
    for (size_t i = 0; i < n; i++)
        for (size_t j = i + 1; j < n; j++)
            if (listed[i] == listed[j])
                return false;
    for (size_t i = 0; i < rule_count; i++) {
        size_t a = rules[i] >> 16, b = rules[i] & 0xffff;
        if (a < 1 || a > n || b < 1 || b > n)
            return false;
    }
    return true;
}

/* The lowest and highest position of each listed label; one that doesn't wait has 1,024 and 0. */
struct extents {
    uint16_t low[32], high[32];
};

static bool extents(struct extents *e, const zc_control *control, const uint32_t *listed, size_t n,
                    const uint64_t *lefts, const uint64_t *rights, const uint32_t *labels)
{
    for (size_t k = 0; k < 32; k++) {
        e->low[k] = 1024;
        e->high[k] = 0;
    }
    uint64_t left = zc_anchor_left(control->anchor), right = zc_anchor_right(control->anchor);
    if (left == 0)
        return true;
    bool up = zc_anchor_status(control->anchor) == ZC_LPUSH;
    const uint64_t *links = up ? rights : lefts;
    uint64_t slot = up ? left : right, last = up ? right : left;
    int at = up ? 1 : 1023, step = up ? 1 : -1;
    for (uint64_t met = 0; met < control->slots; met++, at += step) {
        if (slot == 0)
            return false;
        uint32_t label = labels[slot];
        for (size_t k = 0; k < n; k++)
            if (listed[k] == label) {
                if (at < e->low[k])
                    e->low[k] = (uint16_t)at;
                if (at > e->high[k])
                    e->high[k] = (uint16_t)at;
                break;
            }
        if (slot == last)
            return true;
        uint64_t link = links[slot];
        if ((link >> 15 & 0x1ffff) != 0 || (link & 0x7fff) > control->slots)
            return false;
        slot = link & 0x7fff;
    }
    return false;
}

/* What stands before the walk. */
static uint64_t refusal(const zc_control *control, bool formed, bool enough, size_t left_count,
                        size_t right_count, size_t label_count, size_t mark_count)
{
    uint64_t tasks = control->tasks, slots = control->slots;
    if (tasks < 1 || tasks > 16 || slots < 1 || slots > 1023 || control->pooled > 1 ||
        !anchor_sound(slots, control->anchor))
        return ZC_UNSOUND;
    if (!formed)
        return ZC_BAD_SHEET;
    if (left_count <= slots || right_count <= slots || label_count <= slots ||
        mark_count <= slots / 64 || !enough)
        return ZC_SHORT;
    return 0;
}

zc_sheet_reply SHEET_CALL(sheet)(const zc_control *control, const uint32_t *listed,
                                 size_t listed_count, const uint32_t *rules, size_t rule_count,
                                 SHEET_TABLES)
{
    (void)marks;
    size_t n = listed_count;
    zc_sheet_reply reply = { 0, 0, 0 };
    struct extents e;
    uint8_t square[32][32];
    reply.code = refusal(control, well_formed(listed, n, rules, rule_count), true, left_count,
                         right_count, label_count, mark_count);
    if (reply.code != 0)
        return reply;
    if (!extents(&e, control, listed, n, lefts, rights, labels)) {
        reply.code = ZC_UNSOUND;
        return reply;
    }
    memset(square, 0, sizeof square);
    for (size_t i = 0; i < rule_count; i++)
        square[(rules[i] >> 16) - 1][(rules[i] & 0xffff) - 1] = 1;
    for (size_t k = 0; k < n; k++)
        for (size_t i = 0; i < n; i++)
            if (square[i][k])
                for (size_t j = 0; j < 32; j++)
                    square[i][j] |= square[k][j];
    for (size_t a = 0; a < n; a++)
        for (size_t b = 0; b < n; b++)
            if (square[a][b] && e.low[b] <= e.high[a]) {
                reply.first = a + 1;
                reply.second = b + 1;
                return reply;
            }
    return reply;
}

zc_sheet_reply SHEET_CALL(sheet_words)(const zc_control *control, const uint32_t *listed,
                                       size_t listed_count, const uint32_t *rules,
                                       size_t rule_count, uint32_t *words, size_t word_count,
                                       SHEET_TABLES)
{
    (void)marks;
    size_t n = listed_count;
    zc_sheet_reply reply = { 0, 0, 0 };
    struct extents e;
    reply.code = refusal(control, well_formed(listed, n, rules, rule_count), word_count >= 32,
                         left_count, right_count, label_count, mark_count);
    if (reply.code != 0)
        return reply;
    if (!extents(&e, control, listed, n, lefts, rights, labels)) {
        reply.code = ZC_UNSOUND;
        return reply;
    }
    memset(words, 0, 32 * sizeof *words);
    for (size_t i = 0; i < rule_count; i++)
        words[(rules[i] >> 16) - 1] |= UINT32_C(1) << ((rules[i] & 0xffff) - 1);
    for (size_t k = 0; k < n; k++)
        for (size_t i = 0; i < n; i++)
            if (words[i] >> k & 1)
                words[i] |= words[k];
    for (size_t a = 0; a < n; a++)
        for (size_t b = 0; b < n; b++)
            if ((words[a] >> b & 1) && e.low[b] <= e.high[a]) {
                reply.first = a + 1;
                reply.second = b + 1;
                return reply;
            }
    return reply;
}
