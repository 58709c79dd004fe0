/*
 * The inline functions of zeppolecape.h and zeppolecape_atomic.h, each compared with what the header says
 * of it, on queues that the calls alone wrote and on damaged tables. C11, or C++11 and later.
 *
 *     inline [ROUNDS [SEED]]    the last line is "N passed, M failed"
 *     inline texts              the refusals' words, a line each: number, space, words
 */
#include "helpers.h"
#include "shared.h"
#include "shelves.h"
#include "words.h"
#include "wrappers.h"

static void on_tables(const zc_queue *q, const zc_queue *other)
{
    openings(q);
    starts_and_steps(q);
    walks(q);
    sheets(q);
    lists(q);
    shelves(q, other);
    joinings(q, other);
    free_slot(q);
    finish(q);
    drain(q);
    refill(q);
    share(q);
    touch_words();
    touch_tables(q);
    whole_calls(q);
    single_steps(q);
    if (once_in(8))
        schedules(q);
}

static uint64_t number(int count, char **arguments, int at, uint64_t otherwise)
{
    return count > at ? AS(uint64_t, strtoull(arguments[at], NULL, 10)) : otherwise;
}

int main(int count, char **arguments)
{
    if (count > 1 && strcmp(arguments[1], "texts") == 0) {
        for (unsigned at = 0; at < 100; at++)
            printf("%u %s\n", at, zc_refusal_text(at));
        return 0;
    }
    state = number(count, arguments, 2, 1) * UINT64_C(0x9e3779b97f4a7c15) + 1;
    words();
    signatures();
    for (uint64_t rounds = number(count, arguments, 1, 1000); rounds > 0; rounds--) {
        zc_queue sound = any_queue(), any = any_tables();
        refilled_behind(&sound);
        on_tables(&sound, &any);
        on_tables(&any, &sound);
        audits();
        given_back(&sound);
        given_back(&any);
    }
    return told();
}
