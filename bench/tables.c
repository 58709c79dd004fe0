/* The tables that the parts work on, and what is left in them, mixed into one number. */
#include "bench.h"

#include "draw.h"

#include <string.h>

struct tables queue;
size_t tasks, slots;
bool pooled;

void take_sizes(const struct line *line)
{
    const char *end = line->form == NULL ? NULL : strstr(line->form, "pooled");
    tasks = line->tasks;
    slots = line->slots;
    pooled = end != NULL;
}

void open_queue(void)
{
    if (pooled)
        gcc_calls.zc_open_pooled(QUEUE, tasks, slots, 0, LENT);
    else
        gcc_calls.zc_open(QUEUE, tasks, slots, 0, ROWS);
}

void line_up(struct tables *of, size_t waiting, uint64_t seed)
{
    uint64_t order[ZC_MOST_SLOTS];
    state = seed * UINT64_C(0x9e3779b97f4a7c15);
    memset(of, 0, sizeof *of);
    of->control.tasks = tasks;
    of->control.slots = slots;
    draw_slots(order, slots, waiting);
    for (size_t at = 0; at < waiting; at++) {
        uint64_t slot = order[at];
        of->labels[slot] = (uint32_t)draw(UINT64_MAX);
        of->marks[slot / 64] |= UINT64_C(1) << slot % 64;
        of->lefts[slot] = at == 0 ? 0 : order[at - 1];
        if (at > 0)
            of->rights[order[at - 1]] = slot;
    }
    of->control.anchor = waiting == 0 ? 0 : order[0] << 15 | order[waiting - 1];
}

uint64_t mix_words(uint64_t hash, const uint64_t *words, size_t count)
{
    for (size_t at = 0; at < count; at++)
        hash = mix(hash, words[at]);
    return hash;
}

/* By its fields: no call goes by the padding behind the label. */
uint64_t mix_record(uint64_t hash, const zc_record *record)
{
    const uint64_t fields[] = {
        record->place, record->kind,      record->side, record->own,       record->label,
        record->seen,  record->neighbour, record->link, record->finishing, record->retries,
    };
    return mix_words(hash, fields, sizeof fields / sizeof *fields);
}

uint64_t mix_tables(uint64_t hash, const struct tables *of)
{
    hash = mix_words(hash, (const uint64_t *)&of->control, sizeof of->control / sizeof hash);
    for (size_t task = 0; task < ZC_MOST_TASKS; task++)
        hash = mix_record(hash, &of->records[task]);
    hash = mix_words(hash, of->lefts, ZC_ROWS(ZC_MOST_SLOTS));
    hash = mix_words(hash, of->rights, ZC_ROWS(ZC_MOST_SLOTS));
    hash = mix_words(hash, of->next, ZC_ROWS(ZC_MOST_SLOTS));
    hash = mix_words(hash, of->marks, ZC_MARK_WORDS(ZC_MOST_SLOTS));
    for (size_t row = 0; row < ZC_ROWS(ZC_MOST_SLOTS); row++)
        hash = mix(hash, of->labels[row]);
    return hash;
}

uint64_t queue_left(void) { return mix_tables(0, &queue); }
uint64_t nothing_left(void) { return 0; }
