/*
 * A carton and its wedges. The station at the end of the line packs a cheese carton: first the
 * carton's own label, then its six wedges, then the seal. The order sheet says so, once for all
 * cartons; the station asks whether what waits in the queue keeps it, before it lets it print.
 *
 *     cc -Iinclude examples/c/sheet.c target/lib/libzeppolecape.a -o sheet && ./sheet
 */
#include "zeppolecape.h"

#include <stdio.h>

enum { SLOTS = 12, CARTON = 7000, WEDGE = 7100, SEAL = 7900, PALLET = 9000, WEDGES = 6 };

ZC_NAMED_STORAGE(queue, 1, SLOTS); /* the station names each label's slot itself */

/* The list: 1 the carton, 2 to 7 its wedges, 8 the seal, 9 the pallet's label. */
static uint32_t listed[WEDGES + 3], rules[2 * WEDGES + 1];

static void write_sheet(void)
{
    listed[0] = CARTON;
    listed[WEDGES + 1] = SEAL;
    listed[WEDGES + 2] = PALLET;
    for (unsigned wedge = 0; wedge < WEDGES; wedge++) {
        listed[1 + wedge] = WEDGE + wedge;
        rules[2 * wedge] = zc_rule(1, 2 + wedge);              /* the carton before each wedge */
        rules[2 * wedge + 1] = zc_rule(2 + wedge, WEDGES + 2); /* each wedge before the seal */
    }
    rules[2 * WEDGES] = zc_rule(WEDGES + 2, WEDGES + 3); /* the seal before the pallet's label */
}

static void push(uint64_t slot, uint32_t label)
{
    zc_queue_push(&queue, 0, ZC_RIGHT, slot, label);
    zc_queue_finish(&queue, 0);
}

static void ask(const char *when)
{
    zc_sheet_reply told = zc_queue_sheet(&queue, listed, WEDGES + 3, rules, 2 * WEDGES + 1);
    if (told.code != 0)
        printf("%s: refused %u, %s\n", when, (unsigned)told.code, zc_refusal_text(told.code));
    else if (told.first == 0)
        printf("%s: kept\n", when);
    else
        printf("%s: broken, %u must print before %u\n", when, (unsigned)listed[told.first - 1],
               (unsigned)listed[told.second - 1]);
}

int main(void)
{
    write_sheet();
    zc_queue_open(&queue, 1, SLOTS, 0);
    ask("nothing waits");
    push(1, CARTON);
    push(2, WEDGE + 3);
    push(3, WEDGE);
    ask("a carton and two wedges");
    push(4, PALLET);
    ask("the pallet's label early");
    push(5, WEDGE + 5);
    ask("a wedge behind the pallet's label"); /* no rule says it: it is chained through the seal */
    return 0;
}
