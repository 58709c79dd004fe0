/*
 * The layout as the compiled library sees it: memory is laid out here by literal offsets, without
 * the header's structs, and every field must arrive there and be read from there.
 */
#include "layout.h"

static void opening(void)
{
    memset(control, FILL, sizeof control);
    memset(records, FILL, sizeof records);
    is("opening", zc_open(RECORDS, TASKS, SLOTS, 0x5a5b5c5d, ROWS), 0);
    is("tasks", word(control, CONTROL_TASKS), TASKS);
    is("slots", word(control, CONTROL_SLOTS), SLOTS);
    is("first Anchor", word(control, ANCHOR), UINT64_C(0x5a5b5c5d00000000));
    is("pooled", word(control, POOLED), 0);
    is("head", word(control, TOP), 0);
    untouched("what follows control", control + CONTROL, sizeof control - CONTROL);
    untouched("what follows the records", records + TASKS * RECORD, RECORD);
    for (size_t record = 0; record < TASKS * RECORD; record += RECORD) {
        for (size_t offset = PLACE; offset <= RETRIES; offset += 8)
            if (offset != LABEL)
                is("a field of an idle record", word(records + record, offset), 0);
        is("the label of an idle record", half(records + record, LABEL), 0);
    }
    is("a short opening", zc_open(RECORDS, TASKS + 1, SLOTS, 0, ROWS), ZC_SHORT);
}

/* Task 1 pushes behind task 0's label up to place 8, where each of its fields has a value. */
static void push(void)
{
    unsigned char bytes[16];
    unsigned char *second = records + RECORD;
    zc_push(RECORDS, 0, ZC_RIGHT, 66, 700, TABLES);
    step(0);
    zc_reply reply = step(0);
    memcpy(bytes, &reply, sizeof reply);
    is("code of pushed", half(bytes, 0), ZC_PUSHED);

    reply = zc_push(RECORDS, 1, ZC_RIGHT, 67, 0x01020304, TABLES);
    memcpy(bytes, &reply, sizeof reply);
    is("code of a start", half(bytes, 0), ZC_RUNNING);
    is("place of a start", word(bytes, 8), 1);
    for (int steps = 0; steps < 5; steps++)
        step(1);
    is("place before 7", word(second, PLACE), 7);
    rights[66] = UINT64_C(0x0000000900000003);
    step(1);
    is("place", word(second, PLACE), 8);
    is("kind", word(second, KIND), ZC_PUSH);
    is("side", word(second, SIDE), ZC_RIGHT);
    is("own", word(second, OWN), 67);
    is("label", half(second, LABEL), 0x01020304);
    is("seen", word(second, SEEN), UINT64_C(0x5a5b5c5f40210043));
    is("neighbour", word(second, NEIGHBOUR), 66);
    is("link", word(second, LINK), UINT64_C(0x0000000900000003));
    is("finishing", word(second, FINISHING), 1);
    is("the first record's place", word(records, PLACE), 0);
    is("Anchor", word(control, ANCHOR), UINT64_C(0x5a5b5c5f40210043));
    is("lefts", lefts[67], 66);
    is("labels", labels[67], 0x01020304);
    is("marks", marks[1], 3 << 2);
}

/* Every field that can be unsound is looked at; then the push goes on as if nothing had been. */
static void fields_are_read(void)
{
    unsigned char *second = records + RECORD;
    is_read("place is read", second, PLACE, 12);
    is_read("kind is read", second, KIND, 2);
    is_read("side is read", second, SIDE, 2);
    is_read("own is read", second, OWN, 71);
    is_read("seen is read", second, SEEN, UINT64_C(0x5a5b5c5fc0210043));
    is_read("neighbour is read", second, NEIGHBOUR, 71);
    is_read("link is read", second, LINK, 71);
    is_read("finishing is read", second, FINISHING, 2);
    is_read("tasks is read", control, CONTROL_TASKS, 17);
    is_read("slots is read", control, CONTROL_SLOTS, 1024);
    is_read("Anchor is read", control, ANCHOR, 1);
    is_read("pooled is read", control, POOLED, 2);
    is("a step again", zc_place(step(1)), 9);
    step(1);
    is("rights", rights[66], UINT64_C(0x0000000a00000043));
}

/* Anchor is still RPUSH 66, 67 and task 1 busy; task 0 starts as well. */
static void report(void)
{
    unsigned char bytes[192];
    put(records, RETRIES, 12345);
    put(records + RECORD, RETRIES, UINT64_C(0x1020304050607080));
    zc_pop(RECORDS, 0, ZC_LEFT, TABLES);
    is("a start keeps the count", word(records, RETRIES), 12345);
    marks[0] |= 1 << 5; /* a slot taken that does not wait */
    /* A record more is lent than there are tasks. */
    zc_report_reply reply =
        zc_report((zc_control *)control, (zc_record *)records, TASKS + 1, TABLES);
    marks[0] &= ~(UINT64_C(1) << 5);
    memcpy(bytes, &reply, sizeof reply);
    is("report: code", word(bytes, 0), 0);
    is("report: tag", word(bytes, 8), 0x5a5b5c5f);
    is("report: status", word(bytes, 16), ZC_RPUSH);
    is("report: left", word(bytes, 24), 66);
    is("report: right", word(bytes, 32), 67);
    is("report: busy", word(bytes, 40), 2);
    is("report: waiting", word(bytes, 48), 2);
    is("report: taken", word(bytes, 56), 3);
    is("report: retries of task 0", word(bytes, 64), 12345);
    is("report: retries of task 1", word(bytes, 72), UINT64_C(0x1020304050607080));
    for (size_t offset = 80; offset < sizeof bytes; offset += 8)
        is("report: retries of no task", word(bytes, offset), 0);
    is("report: refused", zc_report((zc_control *)control, (zc_record *)records, 1, TABLES).code,
          ZC_SHORT);
}

static void pop(void)
{
    unsigned char bytes[16];
    is("kind of a pop", word(records, KIND), ZC_POP);
    zc_reply reply = step(0);
    for (int steps = 1; steps < 20 && zc_place(reply) != 0; steps++)
        reply = step(0);
    memcpy(bytes, &reply, sizeof reply);
    is("code of popped", half(bytes, 0), ZC_POPPED);
    is("label of popped", half(bytes, 4), 700);
    is("slot of popped", word(bytes, 8), 66);
    is("marks after the pop", marks[1], 2 << 2);
    is("an answer keeps the count", word(records, RETRIES), 12345);
    is("refusal", zc_refusal(step(0)), ZC_IDLE);
    untouched("what follows control", control + CONTROL, sizeof control - CONTROL);
    untouched("what follows the records", records + TASKS * RECORD, RECORD);
}

int main(void)
{
    opening();
    push();
    fields_are_read();
    report();
    pop();
    return told();
}
