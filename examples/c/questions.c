/*
 * The calls that no other example makes: a task run to its answer, a lent record stepped, labels
 * found, rules in words, every order of two calls, a history judged, a list carried out.
 *
 *     cc -Iinclude examples/c/questions.c target/lib/libzeppolecape.a -o questions && ./questions
 */
#include "zeppolecape.h"

#include <stdio.h>

enum { TASKS = 2, SLOTS = 4 };

ZC_QUEUE_STORAGE(queue, TASKS, SLOTS);

static void push(uint32_t label)
{
    zc_queue_push_pooled(&queue, 0, ZC_RIGHT, label);
    zc_run_reply reply = zc_queue_run(&queue, 0, ZC_POOLED_PUSH_STEPS);
    printf("push of %u: code %u after %u steps\n", label, reply.code, (unsigned)reply.steps);
}

/* Where 701, 999 and 700 wait, from 1 at the left; 0: not waiting. */
static void find(void)
{
    const uint32_t asked[] = {701, 999, 700};
    zc_find_reply found = zc_queue_find(&queue, asked, 3);
    for (int at = 0; at < 3; at++)
        printf("%u waits at %u\n", asked[at], (unsigned)found.positions[at]);
}

/* 701 before 700, though 700 waits left of it; the chained rules in 32 words, not in a square. */
static void sheet(void)
{
    const uint32_t listed[] = {700, 701};
    const uint32_t rules[] = {zc_rule(2, 1)};
    uint32_t words[ZC_SHEET_WORDS];
    zc_sheet_reply reply = zc_queue_sheet_words(&queue, listed, 2, rules, 1, words, ZC_SHEET_WORDS);
    printf("broken pair: %u before %u; word 1 is %u\n", (unsigned)reply.first,
           (unsigned)reply.second, words[1]);
}

/* Both tasks pop at the left: in how many orders can they be stepped? */
static void orders(void)
{
    uint64_t schedule[ZC_SCHEDULE_WORDS] = {0};
    unsigned count = 0;
    zc_queue_pop(&queue, 0, ZC_LEFT);
    zc_queue_pop(&queue, 1, ZC_LEFT);
    for (;;) {
        zc_schedule_reply reply = zc_queue_next_schedule(&queue, schedule, ZC_SCHEDULE_WORDS);
        if (zc_is_refusal(reply.code) || reply.ending == ZC_NO_MORE)
            break;
        count++;
    }
    printf("%u orders\n", count);
}

/* Task 1's record lent by itself, then put back; task 0 goes on from its row. */
static void lent_record(void)
{
    zc_record one = queue.records[1];
    zc_reply reply;
    do
        reply = zc_queue_step_record(&queue, &one);
    while (reply.code == ZC_RUNNING);
    queue.records[1] = one;
    printf("task 1 popped %u\n", zc_label(reply));
    printf("task 0 popped %u\n", zc_label(zc_queue_finish(&queue, 0)));
}

/* A push that was answered before the pop began, in the order claimed and in the other one. */
static void history(void)
{
    const zc_finished calls[] = {
        {0, ZC_PUSH, ZC_RIGHT, 700, ZC_PUSHED, 1, 2},
        {1, ZC_POP, ZC_LEFT, 700, ZC_POPPED, 3, 4},
    };
    const uint64_t claimed[] = {1, 2}, other[] = {2, 1};
    printf("claimed order: %u\n", zc_audit(calls, 2, claimed, 2).code);
    zc_verdict verdict = zc_audit(calls, 2, other, 2);
    printf("other order: %u at position %u\n", verdict.code, verdict.position);
}

/* A queue opened and three requests carried out in one call. */
static void list(void)
{
    const zc_request asked[] = {
        {0, ZC_ASK_POP, ZC_LEFT, 0, 0},
        {0, ZC_ASK_STEP, 0, 0, 0},
        {0, ZC_ASK_STEP, 0, 0, 0},
    };
    zc_answer answers[3];
    zc_serve_reply reply = zc_queue_serve(&queue, 1, TASKS, SLOTS, 0, asked, 3, answers, 3);
    printf("%u served:", (unsigned)reply.served);
    for (int at = 0; at < 3; at++)
        printf(" %u", (unsigned)answers[at].code);
    printf("\n");
}

int main(void)
{
    zc_queue_open_pooled(&queue, TASKS, SLOTS, 0);
    push(700);
    push(701);
    find();
    sheet();
    orders();
    lent_record();
    history();
    list();
    return 0;
}
