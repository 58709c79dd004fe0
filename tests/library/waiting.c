/*
 * zc_waiting: the order under each status, tables with just enough room and with one entry less,
 * and links to wrong slots. zc_report: waiting where links are wrong, and, on tables of any
 * contents, the same code and count as zc_waiting.
 */
#include "check.h"
#include "draw.h"
#include "zeppolecape.h"

enum { TASKS = 2, SLOTS = 5 };

static zc_control control;
static zc_record records[TASKS];
static uint64_t lefts[ZC_ROWS(SLOTS)], rights[ZC_ROWS(SLOTS)], marks[ZC_MARK_WORDS(SLOTS)];
static uint32_t labels[ZC_ROWS(SLOTS)];
static zc_queue queue = {
    .control = &control,
    .records = records,
    .record_count = TASKS,
    .lefts = lefts,
    .left_count = ZC_ROWS(SLOTS),
    .rights = rights,
    .right_count = ZC_ROWS(SLOTS),
    .labels = labels,
    .label_count = ZC_ROWS(SLOTS),
    .marks = marks,
    .mark_count = ZC_MARK_WORDS(SLOTS),
};

enum { GUARD = 77, SPARE = 2 };

/* So many slots and labels lent are refused with a code, or get the slots as digits from left to
 * right: 123 is slot 1, slot 2, slot 3. The label of slot n is 100 + n; no other entry changes. */
static void lent(const char *what, size_t slot_most, size_t label_most, uint64_t code,
                 uint64_t expected)
{
    uint64_t slots[SLOTS + SPARE], found = 0;
    uint32_t copies[SLOTS + SPARE];
    for (size_t at = 0; at < SLOTS + SPARE; at++)
        slots[at] = copies[at] = GUARD;
    zc_waiting_reply reply =
        zc_waiting(&control, slots, slot_most, copies, label_most, ZC_ROW_TABLES(&queue));
    int right = reply.code == code && reply.count <= SLOTS && (code == 0 || reply.count == 0);
    for (size_t at = 0; right && at < SLOTS + SPARE; at++) {
        int written = at < reply.count;
        found = written ? 10 * found + slots[at] : found;
        right &= written ? copies[at] == 100 + slots[at] : slots[at] == GUARD && copies[at] == GUARD;
    }
    if (right && found == expected) {
        passed++;
        return;
    }
    failed++;
    printf("FAILED waiting, %s: code %llu, %llu labels, %llu, expected %llu\n", what,
           (unsigned long long)reply.code, (unsigned long long)reply.count,
           (unsigned long long)found, (unsigned long long)expected);
}

static void waits(const char *what, uint64_t expected) { lent(what, SLOTS, SLOTS, 0, expected); }

static void refuses(const char *what, uint64_t code) { lent(what, SLOTS, SLOTS, code, 0); }

/* Task 0 steps until it answers, or is about to make the step at `stop`. */
static void finish(zc_reply reply, uint64_t stop)
{
    for (int steps = 0; steps < 30 && zc_place(reply) != 0 && zc_place(reply) != stop; steps++)
        reply = zc_queue_step(&queue, 0);
}

static void push(uint64_t side, uint64_t slot, uint64_t stop)
{
    finish(zc_queue_push(&queue, 0, side, slot, (uint32_t)(100 + slot)), stop);
}

static void opened(void)
{
    zc_queue_open(&queue, TASKS, SLOTS, 0);
    waits("nothing", 0);
    lent("nothing, and no room", 0, 0, 0, 0);
    push(ZC_RIGHT, 2, 0);
    waits("one label", 2);
    push(ZC_RIGHT, 3, 0);
    push(ZC_LEFT, 1, 0);
}

static void order(void)
{
    opened();
    waits("STABLE", 123);
    lent("room for just these", 3, 3, 0, 123);
    lent("one slot too short", 2, SLOTS, ZC_SHORT, 0);
    lent("one label too short", SLOTS, 2, ZC_SHORT, 0);
    lent("no room", 0, 0, ZC_SHORT, 0);
    push(ZC_RIGHT, 4, 5);
    waits("RPUSH", 1234);
    lent("RPUSH, one too short", 3, 3, ZC_SHORT, 0);
    opened();
    push(ZC_LEFT, 4, 5);
    waits("LPUSH", 4123);
    lent("LPUSH, room for just these", 4, 4, 0, 4123);
    lent("LPUSH, one too short", 3, 3, ZC_SHORT, 0);
    opened();
    finish(zc_queue_pop(&queue, 0, ZC_LEFT), 0);
    waits("the left end still names the slot popped", 23);
    for (size_t row = 0; row <= SLOTS; row++)
        push(ZC_RIGHT, row, 0);
    waits("all slots", 23145);
}

static void astray(void)
{
    opened();
    lefts[2] = 3;
    refuses("a circle", ZC_UNSOUND);
    lent("a circle, and no room", 0, 0, ZC_UNSOUND, 0);
    control.slots = UINT64_MAX;
    refuses("a circle, control spoilt", ZC_UNSOUND);
    control.slots = 2;
    refuses("control with fewer slots", ZC_UNSOUND);
    control.slots = SLOTS;
    lefts[2] = 0;
    refuses("a link to null", ZC_UNSOUND);
    lefts[2] = 0x7fff;
    refuses("a link to no row", ZC_UNSOUND);
    queue.label_count = SLOTS;
    refuses("short labels", ZC_SHORT);
    queue.label_count = 0;
    refuses("no labels", ZC_SHORT);
    queue.label_count = ZC_ROWS(SLOTS);
    queue.mark_count = 0;
    refuses("no marks", ZC_SHORT);
    control.anchor = UINT64_MAX;
    refuses("ends that are no rows, and no marks", ZC_UNSOUND);
    queue.mark_count = ZC_MARK_WORDS(SLOTS);
}

/* What the report tells of the labels waiting, or its refusal. */
static void tells(const char *what, uint64_t code, uint64_t expected)
{
    zc_report_reply reply = zc_queue_report(&queue);
    if (reply.code == code && reply.waiting == expected) {
        passed++;
        return;
    }
    failed++;
    printf("FAILED report, %s: code %llu, %llu waiting\n", what, (unsigned long long)reply.code,
           (unsigned long long)reply.waiting);
}

static void report(void)
{
    opened();
    tells("STABLE", 0, 3);
    push(ZC_RIGHT, 4, 4);
    tells("a push on the way does not wait", 0, 3);
    finish(zc_queue_step(&queue, 0), 5);
    tells("RPUSH", 0, 4);
    opened();
    push(ZC_LEFT, 4, 5);
    tells("LPUSH", 0, 4);
    lefts[2] = UINT64_C(1) << 20;
    lefts[4] = rights[3] = UINT64_C(1) << 31;
    tells("links that the walk does not follow", 0, 4);
    uint64_t good = rights[1];
    rights[1] = good | UINT64_C(1) << 15;
    tells("a bit of 31-15", ZC_UNSOUND, 0);
    rights[1] = SLOTS + 1;
    tells("a slot above slots", ZC_UNSOUND, 0);
    rights[1] = 0;
    tells("slot 0", ZC_UNSOUND, 0);
    rights[1] = 1;
    tells("a slot that names itself", ZC_UNSOUND, 0);
    rights[1] = 4;
    tells("a circle", ZC_UNSOUND, 0);
    queue.label_count = 3;
    tells("a circle, and labels too short", ZC_SHORT, 0);
    queue.label_count = ZC_ROWS(SLOTS);
    rights[1] = UINT64_C(0xffffffff00000000) | good;
    tells("any tag", 0, 4);
}

static void agree(void)
{
    unsigned told = 0, refused = 0;
    for (int times = 0; times < 300000; times++) {
        control.slots = 1 + draw(SLOTS);
        control.anchor = draw(3) << 30 | draw(SLOTS + 1) << 15 | draw(SLOTS + 1);
        for (size_t row = 0; row <= SLOTS; row++) {
            lefts[row] = draw(30) ? draw(SLOTS + 1) : UINT64_C(1) << draw(64);
            rights[row] = draw(30) ? draw(SLOTS + 1) : UINT64_C(1) << draw(64);
        }
        zc_report_reply reply = zc_queue_report(&queue);
        uint64_t slots[SLOTS];
        uint32_t copies[SLOTS];
        zc_waiting_reply written = zc_queue_waiting(&queue, slots, copies, SLOTS);
        if (written.code != reply.code || written.count != reply.waiting) {
            failed++;
            printf("FAILED zc_queue_waiting and zc_report differ\n");
            return;
        }
        refused += reply.code != 0;
        told += reply.code == 0;
    }
    passed += told > 10000 && refused > 10000;
    failed += told <= 10000 || refused <= 10000;
}

int main(void)
{
    order();
    astray();
    report();
    agree();
    return told();
}
