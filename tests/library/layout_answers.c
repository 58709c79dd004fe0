/*
 * The layout of what the other calls answer, byte by byte: find, waiting, run, the order sheet, the
 * schedules, a list carried out, an audit. Slots 66 and 67 wait, with the labels 700 and 800.
 */
#include "layout.h"

static void two_wait(void)
{
    is("opening", zc_open(RECORDS, TASKS, SLOTS, 0, ROWS), 0);
    for (unsigned at = 0; at < 2; at++) {
        zc_push(RECORDS, 0, ZC_RIGHT, 66 + at, 700 + 100 * at, TABLES);
        zc_run_reply reply = zc_run(RECORDS, 0, ZC_PUSH_STEPS, TABLES);
        is("pushed", reply.code, ZC_PUSHED);
    }
}

static void find(void)
{
    unsigned char bytes[272];
    uint32_t asked[ZC_MOST_ASKED + 1] = {800, 700, 1};
    zc_find_reply reply = zc_find((zc_control *)control, asked, 3, ROWS);
    memcpy(bytes, &reply, sizeof reply);
    is("find: code", word(bytes, 0), 0);
    is("find: rows", word(bytes, 8), 2);
    is("find: the first asked for", word(bytes, 16), 2);
    is("find: the second", word(bytes, 24), 1);
    for (size_t offset = 32; offset < sizeof bytes; offset += 8)
        is("find: not waiting, or not asked for", word(bytes, offset), 0);
    is("find: refused", zc_find((zc_control *)control, asked, ZC_MOST_ASKED + 1, ROWS).code,
          ZC_MANY_ASKED);
}

static void waiting(void)
{
    unsigned char bytes[16];
    uint64_t slots[3] = {1, 2, 3};
    uint32_t copies[3] = {4, 5, 6};
    zc_waiting_reply reply = zc_waiting((zc_control *)control, slots, 3, copies, 3, ROWS);
    memcpy(bytes, &reply, sizeof reply);
    is("waiting: code", word(bytes, 0), 0);
    is("waiting: count", word(bytes, 8), 2);
    is("waiting: slots", slots[0] * 10000 + slots[1] * 100 + slots[2], 666703);
    is("waiting: the first label", copies[0], 700);
    is("waiting: the second label", copies[1], 800);
    is("waiting: beyond them", copies[2], 6);
    reply = zc_waiting((zc_control *)control, slots, 3, copies, 1, ROWS);
    is("waiting: refused", reply.code * 10 + reply.count, 10 * ZC_SHORT);
}

static void sheet(void)
{
    unsigned char bytes[24];
    const uint32_t listed[] = {900, 800, 700}, rules[] = {zc_rule(2, 3)};
    zc_sheet_reply reply = zc_sheet((zc_control *)control, listed, 3, rules, 1, ROWS);
    memcpy(bytes, &reply, sizeof reply);
    is("sheet: code", word(bytes, 0), 0);
    is("sheet: first", word(bytes, 8), 2);
    is("sheet: second", word(bytes, 16), 3);
    reply = zc_sheet((zc_control *)control, listed, 2, rules, 1, ROWS);
    is("sheet: refused", reply.code, ZC_BAD_SHEET);
}

/* Two pops of two labels at the left: the first schedule in dictionary order. */
static void schedule(void)
{
    unsigned char bytes[24];
    uint64_t memory[ZC_SCHEDULE_WORDS] = {0};
    zc_pop(RECORDS, 0, ZC_LEFT, TABLES);
    zc_schedule_reply reply = zc_next_schedule(RECORDS, memory, ZC_SCHEDULE_WORDS, TABLES);
    is("schedule: refused", reply.code, ZC_NOT_TWO);
    zc_pop(RECORDS, 1, ZC_LEFT, TABLES);
    reply = zc_next_schedule(RECORDS, memory, ZC_SCHEDULE_WORDS, TABLES);
    memcpy(bytes, &reply, sizeof reply);
    is("schedule: code", word(bytes, 0), 0);
    is("schedule: ending", word(bytes, 8), ZC_BOTH_ANSWERED);
    is("schedule: length", word(bytes, 16), 7); /* 4 steps of task 0, then 3 of task 1 */
    is("schedule: the length lent", memory[0], 7);
    is("schedule: the fifth step", memory[5], 1);
}

/* The pops are still half done. */
static void run(void)
{
    unsigned char bytes[24];
    zc_run_reply reply = zc_run(RECORDS, 0, ZC_POP_STEPS, TABLES);
    memcpy(bytes, &reply, sizeof reply);
    is("run: code", half(bytes, 0), ZC_POPPED);
    is("run: label", half(bytes, 4), 700);
    is("run: value", word(bytes, 8), 66);
    is("run: steps", word(bytes, 16), 4);
    for (uint64_t most = 0; most < 2; most++) {
        reply = zc_run(RECORDS, 2, most, TABLES);
        is("run: refused", reply.code * 10 + reply.steps, 10 * ZC_NO_TASK);
    }
}

static void serve(void)
{
    unsigned char bytes[16];
    const uint64_t requests[] = {1, ZC_ASK_PUSH, ZC_RIGHT, 66, 700, 1, ZC_ASK_STEP, 0, 0, 0};
    uint64_t replies[6];
    zc_serve_reply reply = zc_serve(RECORDS, 0, TASKS, SLOTS, 5, requests, 10, replies, 6, TABLES);
    memcpy(bytes, &reply, sizeof reply);
    is("serve: code", word(bytes, 0), 0);
    is("serve: served", word(bytes, 8), 2);
    is("serve: the start's code", replies[0], ZC_RUNNING);
    is("serve: the step's place", replies[5], 2);
    is("serve: the slot asked for", word(records + RECORD, OWN), 66);
    reply = zc_serve(RECORDS, 0, TASKS, SLOTS + 1, 5, requests, 10, replies, 6, TABLES);
    is("serve: refused", reply.code * 10 + reply.served, 10 * ZC_SHORT);
}

/* A pop that is said to have found a label in the empty queue. */
static void verdict(void)
{
    unsigned char bytes[8];
    const uint64_t call[] = {0, ZC_POP, ZC_LEFT, 700, ZC_POPPED, 1, 2}, order[] = {1};
    zc_verdict reply = zc_audit_words(call, 7, order, 1);
    memcpy(bytes, &reply, sizeof reply);
    is("verdict: code", half(bytes, 0), ZC_FAILS);
    is("verdict: position", half(bytes, 4), 1);
}

int main(void)
{
    two_wait();
    find();
    waiting();
    sheet();
    schedule();
    run();
    serve();
    verdict();
    return told();
}
