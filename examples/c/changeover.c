/*
 * A changeover. In the middle of the cheese labels a rush order of ham comes in: the line saves its
 * queue on a shelf, works the ham off in the same tables, and goes back to the cheese. A scale was
 * half through a push when the queue was saved, and goes on where it stopped.
 *
 *     cc -Iinclude examples/c/changeover.c target/lib/libzeppolecape.a -o changeover && ./changeover
 */
#include "zeppolecape.h"

#include <stdio.h>

enum { TASKS = 2, SLOTS = 8, SCALE = 0, PRINTER = 1, CHEESE = 3 };

ZC_QUEUE_STORAGE(line, TASKS, SLOTS);
ZC_SHELF_STORAGE(shelves, TASKS, SLOTS);

static void weigh(uint32_t label)
{
    zc_queue_push_pooled(&line, SCALE, ZC_RIGHT, label);
    zc_queue_finish(&line, SCALE);
}

static void print_all(const char *what)
{
    printf("%s:", what);
    for (;;) {
        zc_queue_pop(&line, PRINTER, ZC_LEFT);
        zc_reply got = zc_queue_finish(&line, PRINTER);
        if (got.code != ZC_POPPED)
            break;
        printf(" %u", (unsigned)got.label);
    }
    printf("\n");
}

static void said(const char *what, uint32_t code)
{
    if (code == 0)
        printf("%s: done\n", what);
    else
        printf("%s: refused %u, %s\n", what, (unsigned)code, zc_refusal_text(code));
}

int main(void)
{
    zc_queue_open_pooled(&line, TASKS, SLOTS, 0);
    weigh(301);
    weigh(302);
    zc_queue_push_pooled(&line, SCALE, ZC_RIGHT, 303); /* it stops in the middle */
    zc_queue_step(&line, SCALE);
    zc_queue_step(&line, SCALE);
    said("back to an empty shelf", zc_queue_return(&line, &shelves, CHEESE));
    said("the cheese on a shelf", zc_queue_save(&line, &shelves, CHEESE));

    zc_queue_open_pooled(&line, TASKS, SLOTS - 2, 0); /* the ham has fewer slots: the rest keeps */
    weigh(901);
    weigh(902);
    print_all("ham");

    said("back to the cheese", zc_queue_return(&line, &shelves, CHEESE));
    zc_queue_finish(&line, SCALE); /* the half-done push goes on */
    print_all("cheese");
    return 0;
}
