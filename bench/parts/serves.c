/* A list carried out in one call: what a request of a random list takes, its opening spread over all. */
#include "bench.h"

#include "draw.h"

#include <string.h>

enum { REQUESTS = 20000 };
#define SERVE(form) {FIELD(zc_serve), form, 5, 64, 0, NULL, 300, 1, REQUESTS}
static const struct line lines[] = {SERVE("a request, named"), SERVE("a request, pooled")};

static zc_request requests[REQUESTS];
static uint64_t answers[REQUESTS * ZC_ANSWER_WORDS];

static void begin(const struct line *line)
{
    take_sizes(line);
    state = 1;
    for (size_t at = 0; at < REQUESTS; at++) {
        uint64_t operation = draw(6) ? ZC_ASK_STEP : draw(2) ? ZC_ASK_POP : 2 * pooled;
        zc_request request = {draw(tasks), operation, draw(2), 1 + draw(slots), draw(1000)};
        requests[at] = request;
    }
}

static void lay(void) { memset(answers, 0, sizeof answers); }

static uint64_t round_serves(const struct calls *calls, size_t count)
{
    if (calls == NULL)
        return 0;
    zc_serve_reply reply =
        calls->zc_serve(QUEUE, pooled, tasks, slots, 0, (const uint64_t *)requests,
                        ZC_REQUEST_WORDS * count, answers, ZC_ANSWER_WORDS * count, LENT);
    return reply.code + 3 * reply.served;
}

static uint64_t left(void) { return mix_words(queue_left(), answers, REQUESTS * ZC_ANSWER_WORDS); }

const struct part serves = {LINES(lines), begin, lay, round_serves, left, NULL};
