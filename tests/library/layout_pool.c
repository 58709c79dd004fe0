/*
 * The layout of a pooled queue, as layout.c looks at it: the head, the next table, and what a record
 * keeps of them.
 */
#include "layout.h"

static void opening(void)
{
    memset(control, FILL, sizeof control);
    memset(records, FILL, sizeof records);
    memset(next, FILL, sizeof next);
    is("pooled opening", zc_open_pooled(RECORDS, TASKS, SLOTS, 5, TABLES), 0);
    is("pooled Anchor", word(control, ANCHOR), UINT64_C(0x0000000500000000));
    is("pooled", word(control, POOLED), 1);
    is("the first head", word(control, TOP), 1);
    is("next of 0", next[0], 0);
    is("next of 1", next[1], 2);
    is("next of the last", next[SLOTS], 0);
    untouched("what follows control", control + CONTROL, sizeof control - CONTROL);
    is("a short pooled opening", zc_open_pooled(RECORDS, TASKS, SLOTS, 5, ROWS, next, SLOTS),
          ZC_SHORT);
}

/* Task 1 pushes: the head as it is read, kept and changed. */
static void push(void)
{
    unsigned char bytes[16];
    zc_reply reply = zc_push_pooled(RECORDS, 1, ZC_LEFT, 0x01020304, TABLES);
    memcpy(bytes, &reply, sizeof reply);
    is("place of a pooled push", word(bytes, 8), 12);
    unsigned char *second = records + RECORD;
    is_read("the head is read", control, TOP, 71);
    step(1);
    step(1);
    is("the head as read", word(second, LINK), 1);
    is("its next as read", word(second, NEIGHBOUR), 2);
    is("no slot yet", word(second, OWN), 0);
    step(1);
    is("the head after 14", word(control, TOP), UINT64_C(0x0000000100000002));
    is("the slot got", word(second, OWN), 1);
    is("its label", labels[1], 0x01020304);
    is("its mark", marks[0], 2);
    step(1);
    is("code of pushed", step(1).code, ZC_PUSHED);
}

/* Task 0 pops: what it gives back, and the head again. */
static void pop(void)
{
    unsigned char bytes[16];
    zc_pop(RECORDS, 0, ZC_RIGHT, TABLES);
    step(0);
    step(0);
    step(0);
    is("the slot to give back", word(records, OWN), 1);
    is("the label to answer", half(records, LABEL), 0x01020304);
    step(0);
    step(0);
    zc_reply reply = step(0);
    memcpy(bytes, &reply, sizeof reply);
    is("code of popped", half(bytes, 0), ZC_POPPED);
    is("label of popped", half(bytes, 4), 0x01020304);
    is("slot of popped", word(bytes, 8), 1);
    is("the head after 17", word(control, TOP), UINT64_C(0x0000000200000001));
}

static void no_slot(void)
{
    put(control, TOP, UINT64_C(0x0000000200000000));
    zc_push_pooled(RECORDS, 0, ZC_LEFT, 9, TABLES);
    zc_reply reply = step(0);
    is("code of no free slot", reply.code, ZC_NO_FREE_SLOT);
    is("no free slot is an answer", (uint64_t)zc_answered(reply), 1);
    is("no free slot is no refusal", (uint64_t)zc_refused(reply), 0);
    is("the label of an idle record", half(records, LABEL), 0);
    is("a named push", zc_push(RECORDS, 0, ZC_LEFT, 1, 9, TABLES).code, ZC_WRONG_PUSH);
}

int main(void)
{
    opening();
    push();
    pop();
    no_slot();
    return told();
}
