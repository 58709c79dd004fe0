/* Savings and returns of pooled queues, on two of the eight shelves by turns. */
#include "bench.h"

#include <string.h>

#define SHELF(name, tasks, slots, timed) {FIELD(name), "pooled", tasks, slots, 0, NULL, 1, 1, timed}
static const struct line lines[] = {
    SHELF(zc_save, 1, 3, 400),   SHELF(zc_save, 5, 12, 400),   SHELF(zc_save, 16, 1023, 20),
    SHELF(zc_return, 1, 3, 400), SHELF(zc_return, 5, 12, 400), SHELF(zc_return, 16, 1023, 20),
};

ZC_SHELF_STORAGE(shelf, ZC_MOST_TASKS, ZC_MOST_SLOTS);

static size_t call;

static void begin(const struct line *line)
{
    take_sizes(line);
    call = line->call;
}

static void lay(void)
{
    memset(&queue, 5, sizeof queue);
    memset(&shelf_tables, 6, sizeof shelf_tables);
    queue.control = (zc_control){.tasks = tasks, .slots = slots, .pooled = 1};
    shelf.controls[0] = shelf.controls[1] = queue.control;
}

#define SHELVED(number)                                                                            \
    QUEUE, shelf.controls, shelf.control_count, shelf.records, shelf.record_count, number, LENT,   \
        ZC_SHELF_TABLES(&shelf)

static uint64_t round_shelves(const struct calls *calls, size_t count)
{
    uint64_t sum = 0;
    for (size_t at = 0; at < count && calls != NULL; at++)
        sum += call == FIELD(zc_save) ? calls->zc_save(SHELVED(at % 2))
                                     : calls->zc_return(SHELVED(at % 2));
    return sum;
}

static uint64_t left(void)
{
    const uint64_t *words = (const uint64_t *)&shelf_tables;
    return mix_words(queue_left(), words, sizeof shelf_tables / sizeof *words);
}

const struct part shelves = {LINES(lines), begin, lay, round_shelves, left, NULL};
