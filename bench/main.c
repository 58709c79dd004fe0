/*
 * The benchmark: every exported call of the library against the same call by hand in C.
 *
 *     bench check [long]     library and C by gcc answer alike and leave the same tables; "N passed, M failed"
 *     bench facts            what the library takes, counted: lines of a name and a number
 *     bench lines SECONDS    each line by every engine: counted, and timed for so many seconds
 *     bench scale            instructions against slots and tasks, by every engine
 *
 * `lines` and `scale` print fields with tabs between them, for table.awk and plot.awk.
 */
#include "bench.h"

#include <inttypes.h>
#include <stdio.h>
#include <stdlib.h>
#include <string.h>

static const struct part *const parts[] = {&openings, &starts, &steps,     &runs,   &walks,  &sheets,
                                           &joins,    &shelves, &schedules, &serves, &audits, &touches};
enum { PARTS = sizeof parts / sizeof *parts, ENGINES = 3 };
static const struct calls *engines[ENGINES] = {&library_calls, &gcc_calls, NULL};
static size_t engine_count = 2;

/* ---- What a line is called ---------------------------------------------------------------- */

/* A number with its thousands apart, and what it counts: "1,023 labels waiting", "1 label waiting". */
static void put_size(char *text, size_t number, const char *of)
{
    int noun = (int)strcspn(of, " ");
    text += strlen(strcat(text, *text == 0 ? "" : ", "));
    text += number < 1000 ? sprintf(text, "%zu", number)
                          : sprintf(text, "%zu,%03zu", number / 1000, number % 1000);
    sprintf(text, " %.*s%s", noun - (number == 1), of, of + noun);
}

/* "named, 5 tasks, 1,023 slots" */
static void describe(const struct line *line, char *text)
{
    strcpy(text, line->form == NULL ? "" : line->form);
    if (line->tasks > 0)
        put_size(text, line->tasks, "tasks");
    if (line->slots > 0)
        put_size(text, line->slots, "slots");
    if (line->of != NULL)
        put_size(text, line->size, line->of);
}

/* The same as one word, for a name among the facts. */
static void name_line(const struct line *line, char *name)
{
    char text[200];
    describe(line, text);
    strcpy(name, call_name(line->call));
    name += strlen(name);
    *name++ = '.';
    for (const char *at = text; *at != 0; at++)
        if (strncmp(at, ", ", 2) == 0)
            *name++ = '.', at++;
        else if (*at != ',')
            *name++ = *at == ' ' ? '_' : *at;
    *name = 0;
}

/* ---- Modes -------------------------------------------------------------------------------- */

static unsigned passed, failed;

static void holds(bool fact, const char *name, const char *what)
{
    passed += fact;
    failed += !fact;
    if (!fact)
        printf("FAILED %s: library and C %s\n", name, what);
}

/* One round of a line by an engine: the answers and all that is left, mixed. */
static uint64_t outcome(const struct part *part, const struct line *line, const struct calls *calls)
{
    part->lay();
    uint64_t sum = part->round(calls, line->timed);
    return mix(sum, part->left());
}

/* Whether all engines do the same on a line that was begun. */
static bool agree(const struct part *part, const struct line *line)
{
    uint64_t first = outcome(part, line, engines[0]);
    for (size_t engine = 1; engine < engine_count; engine++)
        if (outcome(part, line, engines[engine]) != first)
            return false;
    return true;
}

static int check(bool at_length)
{
    char name[200];
    for (size_t at = 0; at < PARTS; at++) {
        const struct part *part = parts[at];
        for (size_t l = 0; l < part->line_count; l++) {
            const struct line *line = &part->lines[l];
            name_line(line, name);
            part->begin(line);
            holds(agree(part, line), name, "answer or leave otherwise");
        }
        if (part->alike != NULL)
            holds(part->alike(&library_calls, &gcc_calls, at_length),
                  call_name(part->lines[0].call), "differ on other inputs, damaged ones perhaps");
    }
    printf("%u passed, %u failed\n", passed, failed);
    return failed > 0 || passed == 0;
}

/* Each call's stack is the most of its lines and of most.c. */
static int facts(void)
{
    uint64_t stack[sizeof(struct calls) / sizeof(void *)] = {0};
    char name[200];
    tell_most();
    for (size_t at = 0; at < PARTS; at++)
        for (size_t l = 0; l < parts[at]->line_count; l++) {
            const struct line *line = &parts[at]->lines[l];
            uint64_t *so_far = &stack[line->call / sizeof(void *)];
            if (line->call >= FIELD(lean))
                continue;
            parts[at]->begin(line);
            struct counts counts = count_round(parts[at], line, &library_calls);
            *so_far = counts.stack > *so_far ? counts.stack : *so_far;
            name_line(line, name);
            printf("mean.%s %.1f\n", name, counts.mean);
        }
    for (size_t call = 0; call < FIELD(lean); call += sizeof(void *)) {
        uint64_t random = most_stack(call), own = stack[call / sizeof(void *)];
        if (own > 0) /* else it has no line */
            printf("stack.%s %" PRIu64 "\n", call_name(call), random > own ? random : own);
    }
    return 0;
}

/* One line by every engine: counted, then timed in turn. */
static void tell_line(const struct part *part, const struct line *line, double seconds)
{
    struct counts counts[ENGINES];
    double ns[ENGINES];
    char text[200];
    for (size_t engine = 0; engine < engine_count; engine++)
        counts[engine] = count_round(part, line, engines[engine]);
    time_rounds(part, line, engines, engine_count, seconds, ns);
    describe(line, text);
    printf("%s\t%s", call_name(line->call), text);
    for (size_t engine = 0; engine < engine_count; engine++)
        printf("\t%.1f\t%" PRIu64 "\t%.2f", counts[engine].mean, counts[engine].stack, ns[engine]);
    printf("\n");
    fflush(stdout);
}

static int tell_lines(double seconds)
{
    for (size_t at = 0; at < PARTS; at++)
        for (size_t l = 0; l < parts[at]->line_count; l++) {
            const struct line *line = &parts[at]->lines[l];
            parts[at]->begin(line);
            if (!agree(parts[at], line)) {
                fprintf(stderr, "bench: library and C answer or leave otherwise: %s\n", call_name(line->call));
                return 1;
            }
            tell_line(parts[at], line, seconds);
        }
    return 0;
}

/* ---- Scale -------------------------------------------------------------------------------- */

/* Against slots, with 5 tasks and, where it walks, every slot waiting; against tasks, with 12 slots. */
static const struct curve {
    const struct part *part;
    struct line line; /* a size above 0 stands for labels waiting */
    bool by_tasks;
} curves[] = {
    {&steps, {FIELD(zc_step), "named", 5, 12, 0, NULL, 1000, 31, 1}, true},
    {&steps, {FIELD(zc_step_record), "pooled", 5, 12, 0, NULL, 1000, 31, 1}, true},
    {&starts, {FIELD(zc_push), "named", 5, 12, 0, NULL, 100, 10, 1}, true},
    {&openings, {FIELD(zc_open_pooled), NULL, 5, 12, 0, NULL, 1, 1, 1}, true},
    {&walks, {FIELD(zc_report), NULL, 5, 12, 3, NULL, 1, 1, 1}, true},
    {&walks, {FIELD(zc_waiting), NULL, 5, 12, 3, NULL, 1, 1, 1}, false},
    {&walks, {FIELD(zc_find), NULL, 5, 12, 3, NULL, 1, 1, 1}, false},
    {&joins, {FIELD(zc_join), NULL, 5, 12, 3, NULL, 1, 1, 1}, false},
    {&shelves, {FIELD(zc_save), "pooled", 5, 12, 0, NULL, 1, 1, 1}, true},
};

/* Instructions of a curve's line with other sizes, by every engine. */
static void tell_point(const char *against, size_t at, const struct curve *curve, const struct line *line)
{
    printf("%s\t%s\t%zu", against, call_name(line->call), at);
    curve->part->begin(line);
    for (size_t engine = 0; engine < engine_count; engine++)
        printf("\t%.1f", count_round(curve->part, line, engines[engine]).mean);
    printf("\n");
    fflush(stdout);
}

static int scale(void)
{
    static const size_t slot_counts[] = {1, 64, 256, 512, 1023}, task_counts[] = {1, 2, 5, 8, 12, 16};
    for (const struct curve *curve = curves; curve < curves + sizeof curves / sizeof *curves; curve++) {
        for (size_t at = 0; at < sizeof slot_counts / sizeof *slot_counts; at++) {
            struct line line = curve->line;
            line.slots = slot_counts[at];
            line.size = line.size > 0 ? line.slots : 0;
            tell_point("slots", line.slots, curve, &line);
        }
        for (size_t at = 0; curve->by_tasks && at < sizeof task_counts / sizeof *task_counts; at++) {
            struct line line = curve->line;
            line.tasks = task_counts[at];
            tell_point("tasks", line.tasks, curve, &line);
        }
    }
    return 0;
}

int main(int count, char **words)
{
    const char *mode = count > 1 ? words[1] : "";
    if (&clang_calls != NULL)
        engines[engine_count++] = &clang_calls;
    if (strcmp(mode, "check") == 0)
        return check(count > 2);
    if (strcmp(mode, "facts") == 0)
        return facts();
    if (strcmp(mode, "lines") == 0 && count == 3)
        return tell_lines(atof(words[2]));
    if (strcmp(mode, "scale") == 0)
        return scale();
    fprintf(stderr, "usage: bench check [long] | facts | lines SECONDS | scale\n");
    return 2;
}
