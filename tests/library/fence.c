/*
 * Nothing is read or written outside the counts: every table ends where memory ends, so that a
 * touch of the next entry stops the program. Lengths are as needed, or too short in every way.
 */
#define _DEFAULT_SOURCE
#include "draw.h"
#include "zeppolecape.h"

#include <stdio.h>
#include <stdlib.h>
#include <string.h>
#include <sys/mman.h>
#include <unistd.h>

static size_t page;

/* A page's room (or several) whose end is fenced off. */
struct ground {
    unsigned char *end;
    size_t size;
};

static struct ground fenced(size_t bytes)
{
    size_t size = (bytes + page - 1) / page * page;
    unsigned char *base =
        mmap(NULL, size + page, PROT_READ | PROT_WRITE, MAP_PRIVATE | MAP_ANONYMOUS, -1, 0);
    if (base == MAP_FAILED || mprotect(base + size, page, PROT_NONE) != 0) {
        perror("fence");
        exit(2);
    }
    struct ground ground = {base + size, size};
    return ground;
}

static void *last(struct ground ground, size_t bytes)
{
    memset(ground.end - ground.size, 0xff, ground.size);
    return ground.end - bytes;
}

/* A count: as needed, or less. */
static size_t cut(size_t needed) { return draw(8) ? needed : (size_t)draw(needed); }

enum { GROUNDS = 9 };
static struct ground grounds[GROUNDS];

/* All tables of a queue, each up to its fence. */
static zc_queue lend(uint64_t tasks, uint64_t slots)
{
    size_t rows = ZC_ROWS(slots), words = ZC_MARK_WORDS(slots);
    zc_queue queue = {
        .control = last(grounds[0], sizeof(zc_control)),
        .records = last(grounds[1], tasks * sizeof(zc_record)),
        .record_count = tasks,
        .lefts = last(grounds[2], rows * sizeof(uint64_t)),
        .left_count = rows,
        .rights = last(grounds[3], rows * sizeof(uint64_t)),
        .right_count = rows,
        .labels = last(grounds[4], rows * sizeof(uint32_t)),
        .label_count = rows,
        .marks = last(grounds[5], words * sizeof(uint64_t)),
        .mark_count = words,
        .next = last(grounds[7], rows * sizeof(uint64_t)),
        .next_count = rows,
    };
    return queue;
}

/* The same tables, some lent too short and moved so that they end at the fence all the same. */
static zc_queue cut_some(zc_queue whole)
{
    zc_queue queue = whole;
    queue.record_count = cut(whole.record_count);
    queue.left_count = cut(whole.left_count);
    queue.right_count = cut(whole.right_count);
    queue.label_count = cut(whole.label_count);
    queue.mark_count = cut(whole.mark_count);
    queue.next_count = cut(whole.next_count);
    queue.records += whole.record_count - queue.record_count;
    queue.lefts += whole.left_count - queue.left_count;
    queue.rights += whole.right_count - queue.right_count;
    queue.labels += whole.label_count - queue.label_count;
    queue.marks += whole.mark_count - queue.mark_count;
    queue.next += whole.next_count - queue.next_count;
    return queue;
}

/* Whether a table that all tasks share is too short; a named queue needs no next table. */
static int shared_short(zc_queue queue, zc_queue whole, int pooled)
{
    return queue.left_count < whole.left_count || queue.right_count < whole.right_count ||
           queue.label_count < whole.label_count || queue.mark_count < whole.mark_count ||
           (pooled && queue.next_count < whole.next_count);
}

/* A random call; it must answer 12 just when a table that it needs is too short. */
static uint64_t call(zc_queue whole, int *wrong)
{
    zc_queue queue = cut_some(whole);
    int pooled = whole.control->pooled != 0;
    int rows_short = shared_short(queue, whole, pooled);
    int too_short = rows_short || queue.record_count < whole.record_count;
    uint64_t tasks = whole.control->tasks, slots = whole.control->slots;
    size_t task = (size_t)draw(tasks);
    uint64_t side = draw(2), slot = 1 + draw(slots), code;
    size_t asked_count = (size_t)draw(ZC_MOST_ASKED + 1);
    uint32_t *asked = last(grounds[6], asked_count * sizeof *asked);
    switch (draw(13)) {
    case 0: code = zc_queue_push(&queue, task, side, slot, (uint32_t)slot).code; break;
    case 1: code = zc_queue_pop(&queue, task, side).code; break;
    case 2: code = zc_queue_report(&queue).code; break;
    case 3:
        too_short = shared_short(queue, whole, 0) || queue.record_count < whole.record_count;
        code = too_short ? zc_queue_open(&queue, tasks, slots, 0) : 0;
        break;
    case 4:
        too_short = shared_short(queue, whole, 1) || queue.record_count < whole.record_count;
        code = too_short ? zc_queue_open_pooled(&queue, tasks, slots, 0) : 0;
        break;
    case 5:
        code = zc_queue_step_record(&queue, &whole.records[task]).code;
        too_short = rows_short;
        break;
    case 6:
        code = zc_queue_find(&queue, asked, asked_count).code;
        too_short = shared_short(queue, whole, 0);
        break;
    case 7: code = zc_queue_push_pooled(&queue, task, side, (uint32_t)slot).code; break;
    case 8: code = zc_queue_run(&queue, task, 1).code; break;
    case 9:
        code = zc_queue_waiting(&queue, last(grounds[6], (size_t)slots * sizeof(uint64_t)),
                                last(grounds[8], (size_t)slots * sizeof(uint32_t)), (size_t)slots)
                   .code;
        too_short = shared_short(queue, whole, 0);
        break;
    default: code = zc_queue_step(&queue, task).code; break;
    }
    *wrong |= too_short != (code == ZC_SHORT);
    return code;
}

static struct ground racks[7];

/* Eight shelves for queues of so many tasks and slots, each table up to its fence. */
static zc_shelves lend_shelves(uint64_t tasks, uint64_t slots)
{
    size_t rows = ZC_SHELVES * ZC_ROWS(slots), words = ZC_SHELVES * ZC_MARK_WORDS(slots);
    zc_shelves shelves = {
        .controls = last(racks[0], ZC_SHELVES * sizeof(zc_control)),
        .control_count = ZC_SHELVES,
        .records = last(racks[1], ZC_SHELVES * tasks * sizeof(zc_record)),
        .record_count = ZC_SHELVES * tasks,
        .lefts = last(racks[2], rows * sizeof(uint64_t)),
        .left_count = rows,
        .rights = last(racks[3], rows * sizeof(uint64_t)),
        .right_count = rows,
        .labels = last(racks[4], rows * sizeof(uint32_t)),
        .label_count = rows,
        .marks = last(racks[5], words * sizeof(uint64_t)),
        .mark_count = words,
        .next = last(racks[6], rows * sizeof(uint64_t)),
        .next_count = rows,
    };
    return shelves;
}

/* A saving on the last shelf, whose parts end at the fences, and a return from there. */
static int shelve(zc_queue whole)
{
    uint64_t shelf = ZC_SHELVES - 1;
    zc_shelves shelves = lend_shelves(whole.control->tasks, whole.control->slots);
    zc_queue queue = cut_some(whole);
    int too_short = shared_short(queue, whole, whole.control->pooled != 0) ||
                    queue.record_count < whole.record_count;
    uint32_t expected = too_short ? ZC_SHORT : 0;
    int wrong = zc_queue_save(&queue, &shelves, shelf) != expected;
    wrong |= zc_queue_save(&whole, &shelves, shelf) != 0;
    wrong |= zc_queue_return(&queue, &shelves, shelf) != expected;
    return wrong;
}

/* A word whose slots are rows, or near the last, or anything. */
static uint64_t wild_word(uint64_t slots)
{
    uint64_t left = draw(slots + 3), right = draw(slots + 3);
    return draw(8) ? draw(4) << 30 | left << 15 | right : draw(UINT64_MAX) << 20;
}

/* The walks of the labels waiting, on any contents: within the tables and the room that they have. */
static int walk(zc_queue whole)
{
    uint64_t slots = whole.control->slots;
    for (uint64_t row = 0; row <= slots; row++) {
        whole.lefts[row] = wild_word(slots);
        whole.rights[row] = wild_word(slots);
    }
    whole.control->anchor = wild_word(slots);
    whole.control->slots = draw(8) ? draw(slots + 3) : UINT64_MAX;
    zc_queue queue = cut_some(whole);
    size_t most = (size_t)draw(slots + 3);
    uint64_t *found = last(grounds[6], most * sizeof *found);
    uint32_t *copies = last(grounds[8], most * sizeof *copies);
    zc_queue_report(&queue);
    zc_queue_find(&queue, NULL, 0);
    zc_waiting_reply reply = zc_queue_waiting(&queue, found, copies, most);
    int wrong = reply.count > most || (reply.code != 0 && reply.count != 0);
    for (size_t at = 0; at < reply.count; at++)
        wrong |= found[at] < 1 || found[at] > slots || copies[at] != whole.labels[found[at]];
    return wrong;
}

/* A list carried out from words, whole requests or not, with any room for its answers. */
static int list(zc_queue whole)
{
    uint64_t tasks = whole.control->tasks, slots = whole.control->slots;
    zc_queue queue = cut_some(whole);
    size_t words = (size_t)draw(60), room = (size_t)draw(40);
    size_t served = words / 5 < room / 3 ? words / 5 : room / 3;
    uint64_t *requests = last(grounds[6], words * sizeof *requests);
    uint64_t *replies = last(grounds[8], room * sizeof *replies);
    for (size_t at = 0; at < words; at++)
        requests[at] = draw(4);
    int pooled = (int)draw(2);
    int too_short = shared_short(queue, whole, pooled) || queue.record_count < whole.record_count;
    zc_serve_reply told =
        zc_serve(queue.control, queue.records, queue.record_count, (uint64_t)pooled, tasks, slots,
                 0, requests, words, replies, room, ZC_TABLES(&queue));
    return too_short != (told.code == ZC_SHORT) || told.served != (too_short ? 0 : served);
}

int main(void)
{
    static const uint64_t sizes[] = {1, 2, 3, 62, 63, 64, 65, 127, 128, 1022, 1023};
    unsigned long refused = 0, carried_out = 0;
    int wrong = 0;
    page = (size_t)sysconf(_SC_PAGESIZE);
    for (int at = 0; at < GROUNDS; at++)
        grounds[at] = fenced((ZC_MOST_SLOTS + 3) * sizeof(uint64_t));
    for (int at = 0; at < 7; at++)
        racks[at] = fenced(ZC_SHELVES * ZC_ROWS(ZC_MOST_SLOTS) * sizeof(uint64_t));
    for (int round = 0; round < 3000; round++) {
        uint64_t tasks = 1 + draw(ZC_MOST_TASKS);
        uint64_t slots = sizes[draw(sizeof sizes / sizeof *sizes)];
        zc_queue whole = lend(tasks, slots);
        uint32_t opened = round % 2 ? zc_queue_open(&whole, tasks, slots, 0)
                                    : zc_queue_open_pooled(&whole, tasks, slots, 0);
        wrong |= opened != 0;
        for (int calls = 0; calls < 300 && !wrong; calls++)
            if (call(whole, &wrong) >= ZC_BAD_TASKS)
                refused++;
            else
                carried_out++;
        wrong |= list(whole);
        wrong |= shelve(whole);
        wrong |= walk(whole);
    }
    wrong |= refused < 1000 || carried_out < 1000;
    printf("%d passed, %d failed\n", !wrong, wrong);
    return wrong;
}
