/*
 * Instructions, stack and time of calls.
 *
 * Instructions are counted one by one with the processor's trap flag, from a call's first one to its
 * return. A trap takes some microseconds, so of many calls only each so manyth is counted. What libc
 * does for memset, memcpy and memmove is not counted, nor are the repetitions of a string instruction:
 * both depend on the machine. The stack is painted when a counted call begins and looked at when it
 * returns; the trap's handler runs on a stack of its own.
 */
#define _GNU_SOURCE
#include "bench.h"

#include <signal.h>
#include <stdio.h>
#include <stdlib.h>
#include <string.h>
#include <time.h>
#include <ucontext.h>

enum { DEPTH = 1 << 17, LEAST_TURNS = 15, TRAP_FLAG = 0x100 };
#define PAINT UINT64_C(0xa5c3a5c3a5c3a5c3)

static struct {
    uintptr_t last, top;
    bool inside;
    uint64_t count, most, stack, calls, all;
} meter;

/* The call that is counted, and how many more are made up to the next that is. */
uintptr_t metered_entry;
uint64_t metered_every, metered_left;

/* Goes on to the call, with all registers and the stack as they were; each so manyth time it is trapped. */
void metered_call(void);
__asm__(".text\n"
        "metered_call:\n"
        "    decq metered_left(%rip)\n"
        "    jnz 1f\n"
        "    pushq metered_every(%rip)\n"
        "    popq metered_left(%rip)\n"
        "    pushfq\n"
        "    orq $0x100, (%rsp)\n"
        "    popfq\n"
        "1:  jmp *metered_entry(%rip)\n");

/* Of this program, not of a library that it is linked with at its start. */
extern const char __executable_start[], etext[];
static bool is_own(uintptr_t at)
{
    return at >= (uintptr_t)__executable_start && at < (uintptr_t)etext;
}

static void enter(uintptr_t top)
{
    meter.inside = true;
    meter.count = 0;
    meter.top = top;
    for (uint64_t *word = (uint64_t *)(top - DEPTH); word < (uint64_t *)top; word++)
        *word = PAINT;
}

static void leave(void)
{
    const uint64_t *low = (const uint64_t *)(meter.top - DEPTH);
    while (low < (const uint64_t *)meter.top && *low == PAINT)
        low++;
    uint64_t stack = meter.top + sizeof(uint64_t) - (uintptr_t)low; /* with the return address */
    meter.inside = false;
    meter.calls++;
    meter.all += meter.count;
    meter.most = meter.count > meter.most ? meter.count : meter.most;
    meter.stack = stack > meter.stack ? stack : meter.stack;
}

/* The instruction at `last` was carried out; the next one is at `at`. */
static void on_trap(int number, siginfo_t *info, void *context)
{
    (void)number, (void)info;
    greg_t *registers = ((ucontext_t *)context)->uc_mcontext.gregs;
    uintptr_t at = (uintptr_t)registers[REG_RIP], stack = (uintptr_t)registers[REG_RSP];
    if (meter.inside) {
        meter.count += is_own(meter.last) && is_own(at) && at != meter.last;
        if (stack > meter.top) {
            leave();
            registers[REG_EFL] &= ~TRAP_FLAG;
        }
    } else if (at == metered_entry) {
        enter(stack);
    }
    meter.last = at;
}

/* Memory for the stack of any call, before a handler on another stack paints it. */
static void touch_stack(void)
{
    volatile char room[2 * DEPTH];
    for (size_t at = 0; at < sizeof room; at += 1024)
        room[at] = 0;
}

static void prepare(void)
{
    static unsigned char handler_stack[1 << 16];
    struct sigaction action = {.sa_sigaction = on_trap, .sa_flags = SA_SIGINFO | SA_ONSTACK};
    stack_t other = {.ss_sp = handler_stack, .ss_size = sizeof handler_stack};
    if (sigaltstack(&other, NULL) != 0 || sigaction(SIGTRAP, &action, NULL) != 0) {
        fprintf(stderr, "bench: no handler for traps\n");
        exit(2);
    }
    touch_stack();
}

struct calls metered(const struct calls *calls, size_t call, size_t every)
{
    static bool prepared;
    struct calls own = *calls;
    if (!prepared)
        prepare();
    prepared = true;
    metered_entry = (uintptr_t)entry_of(calls, call);
    metered_every = metered_left = every;
    meter.most = meter.stack = meter.calls = meter.all = 0;
    memcpy((char *)&own + call, &(void (*)(void)){metered_call}, sizeof(void (*)(void)));
    return own;
}

struct counts meter_read(void)
{
    double calls = meter.calls > 0 ? (double)meter.calls : 1;
    return (struct counts){(double)meter.all / calls, meter.most, meter.stack};
}

struct counts count_round(const struct part *part, const struct line *line,
                          const struct calls *calls)
{
    part->lay();
    struct calls own = metered(calls, line->call, line->every);
    part->round(&own, line->counted);
    struct counts counts = meter_read();
    uint64_t made = meter.calls * metered_every + metered_every - metered_left;
    counts.mean *= (double)made / (double)line->counted; /* a list has many requests in one call */
    return counts;
}

static double now(void)
{
    struct timespec time;
    clock_gettime(CLOCK_MONOTONIC, &time);
    return (double)time.tv_sec * 1e9 + (double)time.tv_nsec;
}

void time_rounds(const struct part *part, const struct line *line, const struct calls *const *engines,
                 size_t engine_count, double seconds, double *best)
{
    double end = now() + seconds * 1e9, none = 1e300;
    for (size_t engine = 0; engine < engine_count; engine++)
        best[engine] = 1e300;
    for (size_t turn = 0; turn < LEAST_TURNS || now() < end; turn++)
        for (size_t at = 0; at <= engine_count; at++) {
            size_t engine = (at + turn) % (engine_count + 1);
            double *least = engine == engine_count ? &none : &best[engine];
            part->lay();
            double begun = now();
            part->round(engine == engine_count ? NULL : engines[engine], line->timed);
            double taken = now() - begun;
            *least = taken < *least ? taken : *least;
        }
    for (size_t engine = 0; engine < engine_count; engine++)
        best[engine] = (best[engine] - none) / (double)line->timed;
}

const void *entry_of(const struct calls *calls, size_t call)
{
    const void *entry;
    memcpy(&entry, (const char *)calls + call, sizeof entry);
    return entry;
}

const char *call_name(size_t call)
{
#define NAMED(name)                                                                                \
    if (call == FIELD(zc_##name))                                                                  \
        return "zc_" #name;
    EACH_CALL(NAMED)
    return "zc_step";
}
