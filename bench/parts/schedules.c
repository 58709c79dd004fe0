/*
 * Every order for two fresh calls on a queue with 8 named slots: the first schedules of a search, each
 * found from the one before; and a call that goes all 48 steps of a schedule again.
 */
#include "bench.h"

#include <string.h>

#define SEARCH(form, waiting, counted, every, timed)                                                     \
    {FIELD(zc_next_schedule), form, 2, 8, waiting, "labels waiting", counted, every, timed}
static const struct line lines[] = {
    SEARCH("push and push", 1, 80, 26, 1000), SEARCH("push and pop", 2, 80, 26, 1000),
    SEARCH("pop and pop", 4, 80, 26, 100),    SEARCH("48 steps, push and push", 3, 1, 1, 20),
};

static uint64_t memory[ZC_SCHEDULE_WORDS], longest[ZC_SCHEDULE_WORDS];
static bool at_the_longest;
#define SEARCHED QUEUE, memory, ZC_SCHEDULE_WORDS, LENT

/* Labels pushed alone at the right, then one call for each task. */
static void lay_calls(uint64_t waiting, bool first_pushes, bool second_pushes)
{
    open_queue();
    for (uint64_t slot = 1; slot <= waiting; slot++) {
        gcc_calls.zc_push(QUEUE, 0, ZC_RIGHT, slot, (uint32_t)slot, LENT);
        gcc_calls.zc_run(QUEUE, 0, ZC_PUSH_STEPS, LENT);
    }
    for (size_t task = 0; task < 2; task++) {
        if (task == 0 ? first_pushes : second_pushes)
            gcc_calls.zc_push(QUEUE, task, ZC_RIGHT, 5 + task, 90, LENT);
        else
            gcc_calls.zc_pop(QUEUE, task, ZC_RIGHT, LENT);
    }
}

/* Both pushes help one that nobody finishes: a schedule of 48 steps, cut. */
static void find_the_longest(void)
{
    queue.control.anchor |= (uint64_t)ZC_RPUSH << 30;
    queue.rights[2] = 0;
    for (uint64_t seed = 1, ending = 0; ending != ZC_CUT; seed++) {
        uint64_t mixed = seed * UINT64_C(0x9e3779b97f4a7c15);
        longest[0] = ZC_MOST_SCHEDULE;
        for (int at = 1; at < ZC_SCHEDULE_WORDS; at++) {
            mixed ^= mixed << 13, mixed ^= mixed >> 7, mixed ^= mixed << 17;
            longest[at] = mixed % 4 == 0 ? longest[at - 1] & 1 : 1 - (at > 1 ? longest[at - 1] : 1);
        }
        memcpy(memory, longest, sizeof memory);
        ending = gcc_calls.zc_next_schedule(SEARCHED).ending;
    }
}

static void begin(const struct line *line)
{
    take_sizes(line);
    at_the_longest = strstr(line->form, "48") != NULL;
    lay_calls(line->size, strstr(line->form, "push and") != NULL, strstr(line->form, "and push") != NULL);
    if (at_the_longest)
        find_the_longest();
}

static void lay(void) { memset(memory, 0, sizeof memory); }

static uint64_t round_schedules(const struct calls *calls, size_t count)
{
    uint64_t sum = 0;
    for (size_t at = 0; at < count; at++) {
        if (at_the_longest)
            memcpy(memory, longest, sizeof memory);
        if (calls != NULL) {
            zc_schedule_reply reply = calls->zc_next_schedule(SEARCHED);
            sum += reply.code + 3 * reply.ending + 5 * reply.length;
        }
    }
    return sum;
}

static uint64_t left(void) { return mix_words(queue_left(), memory, ZC_SCHEDULE_WORDS); }

/* A search by both side by side, to its end or so far. */
static bool search(const struct calls *ours, const struct calls *theirs, uint64_t most)
{
    uint64_t other[ZC_SCHEDULE_WORDS] = {0};
    uint64_t before = queue_left();
    zc_schedule_reply a = {0, 0, 0}, b;
    lay();
    for (uint64_t at = 0; at < most && a.ending != ZC_NO_MORE; at++) {
        a = ours->zc_next_schedule(SEARCHED);
        b = theirs->zc_next_schedule(QUEUE, other, ZC_SCHEDULE_WORDS, LENT);
        if (memcmp(&a, &b, sizeof a) != 0 || memcmp(memory, other, sizeof memory) != 0)
            return false;
    }
    return queue_left() == before;
}

static bool alike(const struct calls *ours, const struct calls *theirs, bool at_length)
{
    bool same = true;
    tasks = 2;
    slots = 8;
    pooled = false;
    for (uint64_t waiting = 0; waiting <= 4; waiting++)
        for (int kinds = 0; kinds < 3; kinds++) {
            lay_calls(waiting, kinds < 2, kinds < 1);
            same = search(ours, theirs, at_length ? UINT64_MAX : 2000) && same;
        }
    return same;
}

const struct part schedules = {LINES(lines), begin, lay, round_schedules, left, alike};
