// What the tests of threads share: a team of threads or fibers that pause between instructions, a
// queue and its check at rest.
#ifndef TEAM_H
#define TEAM_H

#include <atomic>
#include <cstdint>
#include <cstdio>
#include <cstdlib>
#include <functional>
#include <memory>
#include <string>
#include <thread>
#include <vector>

#include <sched.h>
#include <sys/time.h>
#include <ucontext.h>
#include <unistd.h>

// Random numbers, xorshift64, of each thread.
inline thread_local uint64_t random_state = 88172645463325252u;

inline uint64_t draw(uint64_t below)
{
    random_state ^= random_state << 13;
    random_state ^= random_state >> 7;
    random_state ^= random_state << 17;
    return (random_state >> 16) % below;
}

inline void seed(uint64_t number, uint64_t thread)
{
    random_state = (number * 7919 + thread * 104729 + 1) * 0x9e3779b97f4a7c15u | 1;
}

// Threads of another kind, which depend on no processor and no load: each member has a stack of its own,
// and between any two instructions it is drawn who goes on; some sleep for a while, so that slots are
// used again meanwhile. The same seed gives the same run.
class Fibers {
    struct Fiber {
        ucontext_t context;
        std::unique_ptr<char[]> stack;
        bool over;
        uint64_t wakes; // at this change
    };
    enum { STACK = 1 << 17 };
    const std::vector<std::function<void()>> &work;
    std::vector<Fiber> fibers;
    ucontext_t home;
    size_t at = 0, left;
    uint64_t changes = 0;

    static void enter()
    {
        Fibers *all = running;
        all->work[all->at]();
        all->fibers[all->at].over = true;
        if (--all->left == 0)
            setcontext(&all->home);
        all->change();
    }

public:
    static inline Fibers *running = nullptr;

    explicit Fibers(const std::vector<std::function<void()>> &members)
        : work(members), fibers(members.size()), left(members.size())
    {
        for (Fiber &fiber : fibers) {
            fiber.stack = std::make_unique<char[]>(STACK);
            getcontext(&fiber.context);
            fiber.context.uc_stack.ss_sp = fiber.stack.get();
            fiber.context.uc_stack.ss_size = STACK;
            makecontext(&fiber.context, enter, 0);
        }
        running = this;
        swapcontext(&home, &fibers[0].context);
        running = nullptr;
    }

    void change()
    {
        size_t from = at;
        changes++;
        if (draw(8) == 0)
            fibers[from].wakes = changes + draw(400);
        for (int tries = 0;; tries++) { // if all sleep one is woken
            at = draw(fibers.size());
            if (!fibers[at].over && (fibers[at].wakes <= changes || tries > 50))
                break;
        }
        if (at != from)
            swapcontext(&fibers[from].context, &fibers[at].context);
    }
};

// Between any two instructions: once in so many times others go on. 0: only where the system says so.
inline uint64_t pause_one_in = 0;

inline void pause_sometimes()
{
    if (pause_one_in == 0 || draw(pause_one_in) != 0)
        return;
    if (Fibers::running != nullptr)
        Fibers::running->change();
    else if (draw(4) == 0)
        sched_yield();
    else
        for (volatile uint64_t turns = draw(256); turns != 0; turns = turns - 1) {
        }
}

// Fibers are no threads to ThreadSanitizer.
#ifdef __SANITIZE_THREAD__
constexpr bool fibers_allowed = false;
#else
constexpr bool fibers_allowed = true;
#endif

// Carries out the work of each member at once, as fibers or, from a common beginning, as threads.
inline void together(bool fibers, const std::vector<std::function<void()>> &work, uint64_t number)
{
    if (fibers && fibers_allowed) {
        seed(number, 0);
        Fibers all(work);
        return;
    }
    std::atomic<size_t> ready{0};
    std::vector<std::thread> team;
    for (size_t thread = 0; thread < work.size(); thread++)
        team.emplace_back([&, thread] {
            seed(number, thread);
            ready++;
            while (ready.load() < work.size())
                sched_yield();
            work[thread]();
        });
    for (std::thread &member : team)
        member.join();
}

#define ZC_BETWEEN() pause_sometimes()
#define ZC_PAUSES 0 // a change that failed is tried again at once: more meet
#include "zeppolecape_atomic.h"

[[noreturn]] inline void fail(const std::string &what)
{
    std::printf("FAILED %s\n", what.c_str());
    std::fflush(stdout);
    _exit(1);
}

inline void expect(bool holds, const char *what)
{
    if (!holds)
        fail(what);
}

// A call that does not end stops the test: by the processor's time of all threads, so that a busy
// machine is not taken for it. Where all wait, and take no such time, the clock does, later.
inline void stops_after(uint64_t seconds)
{
    itimerval limit = {};
    limit.it_value.tv_sec = static_cast<time_t>(4 * seconds + 60);
    setitimer(ITIMER_PROF, &limit, nullptr);
    alarm(static_cast<unsigned>(seconds) + 500);
}

inline uint64_t number(int count, char **words, int at, uint64_t otherwise)
{
    return count > at ? std::strtoull(words[at], nullptr, 10) : otherwise;
}

// A queue, opened and shared.
struct Queue {
    zc_control control{};
    zc_record records[ZC_MOST_TASKS]{};
    std::vector<uint64_t> lefts, rights, marks, next;
    std::vector<uint32_t> labels;
    zc_queue lent;
    zc_shared shared{};
    uint64_t slots;
    bool pooled;

    Queue(bool from_pool, uint64_t tasks, uint64_t count)
        : lefts(count + 1), rights(count + 1), marks(count / 64 + 1), next(count + 1),
          labels(count + 1),
          lent{&control,      records,       tasks,         lefts.data(), lefts.size(),
               rights.data(), rights.size(), labels.data(), labels.size(), marks.data(),
               marks.size(),  next.data(),   next.size()},
          slots(count), pooled(from_pool)
    {
        uint32_t code = pooled ? zc_queue_open_pooled(&lent, tasks, slots, 0)
                               : zc_queue_open(&lent, tasks, slots, 0);
        expect(code == 0, "a queue not opened");
        shared = zc_share(&lent);
        expect(shared.refusal == 0, "a queue not shared");
    }

    // A push, in a slot drawn at random where the queue wants one named.
    zc_start push(uint64_t side, uint32_t label) const
    {
        uint64_t operation = pooled ? ZC_ASK_PUSH_POOLED : ZC_ASK_PUSH;
        return {operation, side, pooled ? 0 : 1 + draw(slots), label};
    }

    // A whole call, from its start on.
    zc_reply call(zc_record *own, const zc_start &start)
    {
        if (start.operation == ZC_ASK_POP)
            return zc_atomic_pop(&shared, own, start.side);
        if (pooled)
            return zc_atomic_push_pooled(&shared, own, start.side, static_cast<uint32_t>(start.label));
        return zc_atomic_push(&shared, own, start.side, start.slot, static_cast<uint32_t>(start.label));
    }

    // At rest: the labels waiting, by the proved calls over the same tables. `held`: slots that a
    // call which never ends may hold.
    std::vector<uint32_t> at_rest(uint64_t held = 0)
    {
        std::vector<uint64_t> places(slots);
        std::vector<uint32_t> waiting(slots);
        zc_waiting_reply walk = zc_queue_waiting(&lent, places.data(), waiting.data(), slots);
        zc_report_reply report = zc_queue_report(&lent);
        expect(walk.code == 0 && report.code == 0, "the walk at rest");
        expect(report.waiting == walk.count, "report and walk");
        expect(report.taken >= walk.count && report.taken <= walk.count + held, "marks at rest");
        std::vector<bool> met(slots + 1);
        for (uint64_t at = 0; at < walk.count; at++) {
            expect(!met[places[at]], "a slot that waits twice");
            expect(zc_marked(marks.data(), places[at]) != 0, "a slot that waits unmarked");
            met[places[at]] = true;
        }
        uint64_t free = 0;
        for (uint64_t slot = pooled ? zc_link_slot(control.head) : 0; slot != 0; slot = next[slot]) {
            expect(slot <= slots && !met[slot], "a slot on the stack twice, or waiting too");
            met[slot] = true;
            free++;
        }
        expect(!pooled || free + walk.count + held >= slots, "a slot lost");
        waiting.resize(walk.count);
        return waiting;
    }
};

// Labels are numbered by each thread, which stands above the number.
enum { LABEL_BITS = 27 };
inline uint32_t label_of(uint64_t thread, uint64_t number)
{
    return static_cast<uint32_t>(thread << LABEL_BITS | number);
}
inline uint32_t thread_of(uint32_t label) { return label >> LABEL_BITS; }
inline uint32_t number_of(uint32_t label) { return label & ((1u << LABEL_BITS) - 1); }

// The labels met again: each that a thread pushed at most once, and no other.
struct Met {
    std::vector<std::vector<bool>> threads;
    uint64_t count = 0;

    void meet(uint32_t label)
    {
        uint32_t thread = thread_of(label), at = number_of(label);
        expect(thread < threads.size() && at < threads[thread].size(), "a label that nobody pushed");
        expect(!threads[thread][at], "a label twice");
        threads[thread][at] = true;
        count++;
    }
};

// A record in cache lines of its own.
struct alignas(128) Own {
    zc_record record{};
};

#endif
