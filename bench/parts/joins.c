/* Two lanes of labels that ascend, half of them in each, into a third of 1,023 slots. */
#include "bench.h"

#include "draw.h"

#include <string.h>

#define JOIN(labels, timed) {FIELD(zc_join), NULL, 16, 1023, labels, "labels", 1, 1, timed}
static const struct line lines[] = {JOIN(0, 20), JOIN(16, 20), JOIN(1023, 5)};

static struct tables first, second;
static size_t labels;

/* From left to right each label is a little larger than the one before. */
static void ascend(struct tables *of)
{
    uint32_t label = 0;
    uint64_t slot = zc_anchor_left(of->control.anchor);
    for (; slot != 0; slot = zc_link_slot(of->rights[slot]))
        of->labels[slot] = label += (uint32_t)draw(1000);
}

static void begin(const struct line *line)
{
    take_sizes(line);
    state = 1;
    labels = line->size;
    line_up(&first, labels / 2, 1);
    line_up(&second, labels - labels / 2, 2);
    line_up(&queue, 0, 3);
    ascend(&first);
    ascend(&second);
}

/* The third made fresh again: rows 0 to the labels, all marks, Anchor. */
static void renew(void)
{
    memset(queue.lefts, 0, (labels + 1) * sizeof *queue.lefts);
    memset(queue.rights, 0, (labels + 1) * sizeof *queue.rights);
    memset(queue.labels, 0, (labels + 1) * sizeof *queue.labels);
    memset(queue.marks, 0, sizeof queue.marks);
    queue.control.anchor = 0;
}

#define SOURCE(l) &(l).control, (l).records, tasks
#define ROWS_OF(l) (l).lefts, slots + 1, (l).rights, slots + 1, (l).labels, slots + 1

static uint64_t round_joins(const struct calls *calls, size_t count)
{
    uint64_t sum = 0;
    for (size_t at = 0; at < count; at++) {
        renew();
        if (calls != NULL)
            sum += calls->zc_join(SOURCE(first), SOURCE(second), SOURCE(queue), ROWS_OF(first),
                                  ROWS_OF(second), ROWS);
    }
    return sum;
}

static uint64_t left(void) { return mix_tables(mix_tables(queue_left(), &first), &second); }

const struct part joins = {LINES(lines), begin, renew, round_joins, left, NULL};
