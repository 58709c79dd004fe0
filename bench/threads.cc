// Threads on one queue: pairs of push and pop a second, and the longest wait for an answer while
// another thread is stopped for 10 ms now and then, wherever it stands. bench/threads.sh prints it all.
//
//     threads pairs PAIRS TIMES      threads waits SECONDS TIMES      threads count named|pooled PAIRS
#include "threads_by_hand.h"

#include <algorithm>
#include <atomic>
#include <chrono>
#include <cstdio>
#include <cstdlib>
#include <memory>
#include <mutex>
#include <string>
#include <thread>
#include <vector>

namespace {

enum { SLOTS = 64, TASKS = 16, WAITING = 8 };
using Clock = std::chrono::steady_clock;

// A thread's own: a record, the slot that it names next, random sides.
struct alignas(128) Own {
    zc_record record{};
    size_t task = 0;
    uint64_t slot = 0, random = 1, sum = 0;
    uint64_t draw()
    {
        random ^= random << 13, random ^= random >> 7, random ^= random << 17;
        return random >> 16;
    }
};

// The thread that is stopped: once in so many touches, for 10 ms.
thread_local Own *stopped = nullptr;
struct Stops {
    static void here()
    {
        if (stopped->draw() % 256 == 0)
            std::this_thread::sleep_for(std::chrono::milliseconds(10));
    }
};

struct Tables {
    alignas(128) zc_control control{};
    alignas(128) zc_record records[TASKS]{};
    alignas(128) uint64_t lefts[SLOTS + 1]{}, rights[SLOTS + 1]{}, marks[2]{}, next[SLOTS + 1]{};
    uint32_t labels[SLOTS + 1]{};
    zc_queue lent{&control, records, TASKS, lefts, SLOTS + 1, rights, SLOTS + 1, labels, SLOTS + 1, marks, 2, next, SLOTS + 1};
    zc_shared shared{};
    std::mutex lock;
    uint32_t ring[256]{};
    unsigned left = 128, count = 0;
};

// ---- What is compared: a push and a pop of each; a pop answers whether there was a label -------

template <bool POOLED> struct Atomic { // zeppolecape_atomic.h
    static constexpr bool pooled = POOLED;
    template <class Stop> static zc_reply call(Tables &t, Own &own, const zc_start &start)
    {
        zc_reply reply = zc_atomic_start(&t.shared, &own.record, &start);
        while (reply.code == ZC_RUNNING) {
            Stop::here();
            reply = zc_atomic_step(&t.shared, &own.record);
        }
        return reply;
    }
    template <class Stop> static void push(Tables &t, Own &own, uint64_t side, uint32_t label)
    {
        if (std::is_same<Stop, Stops>::value)
            call<Stop>(t, own, {pooled ? ZC_ASK_PUSH_POOLED : ZC_ASK_PUSH, side, own.slot, label});
        else if (pooled)
            zc_atomic_push_pooled(&t.shared, &own.record, side, label);
        else
            zc_atomic_push(&t.shared, &own.record, side, own.slot, label);
    }
    template <class Stop> static bool pop(Tables &t, Own &own, uint64_t side)
    {
        zc_reply reply = std::is_same<Stop, Stops>::value ? call<Stop>(t, own, {ZC_ASK_POP, side, 0, 0})
                                                          : zc_atomic_pop(&t.shared, &own.record, side);
        own.slot = reply.value, own.sum += reply.label;
        return reply.code == ZC_POPPED;
    }
};

template <bool POOLED> struct Locked { // a mutex around the proved calls
    static constexpr bool pooled = POOLED;
    template <class Stop> static zc_reply finish(Tables &t, Own &own)
    {
        if (!std::is_same<Stop, Stops>::value) {
            zc_run_reply all = zc_queue_run(&t.lent, own.task, ZC_POOLED_PUSH_STEPS);
            return {all.code, all.label, all.value};
        }
        zc_reply reply;
        do {
            Stop::here();
            reply = zc_queue_step(&t.lent, own.task);
        } while (reply.code == ZC_RUNNING);
        return reply;
    }
    template <class Stop> static void push(Tables &t, Own &own, uint64_t side, uint32_t label)
    {
        std::lock_guard<std::mutex> hold(t.lock);
        if (pooled)
            zc_queue_push_pooled(&t.lent, own.task, side, label);
        else
            zc_queue_push(&t.lent, own.task, side, own.slot, label);
        finish<Stop>(t, own);
    }
    template <class Stop> static bool pop(Tables &t, Own &own, uint64_t side)
    {
        std::lock_guard<std::mutex> hold(t.lock);
        zc_queue_pop(&t.lent, own.task, side);
        zc_reply reply = finish<Stop>(t, own);
        own.slot = reply.value, own.sum += reply.label;
        return reply.code == ZC_POPPED;
    }
};

struct Ring { // a mutex around a plain ring
    static constexpr bool pooled = false;
    template <class Stop> static void push(Tables &t, Own &, uint64_t side, uint32_t label)
    {
        std::lock_guard<std::mutex> hold(t.lock);
        Stop::here();
        t.ring[(side == ZC_RIGHT ? t.left + t.count : --t.left) & 255] = label;
        t.count++;
    }
    template <class Stop> static bool pop(Tables &t, Own &own, uint64_t side)
    {
        std::lock_guard<std::mutex> hold(t.lock);
        Stop::here();
        if (t.count == 0)
            return false;
        t.count--;
        own.sum += t.ring[(side == ZC_RIGHT ? t.left + t.count : t.left++) & 255];
        return true;
    }
};

template <bool POOLED> struct Hand { // the algorithm by hand
    static constexpr bool pooled = POOLED;
    template <class Stop> static void push(Tables &t, Own &own, uint64_t side, uint32_t label)
    {
        ByHand<Stop> queue{t.shared};
        queue.push(side == ZC_RIGHT, pooled ? queue.draw() : own.slot, label);
    }
    template <class Stop> static bool pop(Tables &t, Own &own, uint64_t side)
    {
        uint32_t label = 0;
        ByHand<Stop> queue{t.shared};
        uint64_t slot = queue.pop(side == ZC_RIGHT, &label);
        if (slot == 0)
            return false;
        if (pooled)
            queue.give(slot);
        own.slot = slot, own.sum += label;
        return true;
    }
};

// ---- Runs ---------------------------------------------------------------------------------------

// Some labels wait throughout, so that pushes link and pops rarely find nothing.
template <class Deque> std::unique_ptr<Tables> opened(std::vector<Own> &owns)
{
    auto t = std::make_unique<Tables>();
    uint32_t code = Deque::pooled ? zc_queue_open_pooled(&t->lent, TASKS, SLOTS, 0) : zc_queue_open(&t->lent, TASKS, SLOTS, 0);
    t->shared = zc_share(&t->lent);
    if (code != 0 || t->shared.refusal != 0)
        std::puts("not opened"), std::exit(2);
    Own filler;
    for (filler.slot = 1; filler.slot <= WAITING; filler.slot++)
        Deque::template push<NeverStops>(*t, filler, ZC_RIGHT, 0);
    for (size_t at = 0; at < owns.size(); at++)
        owns[at].task = at, owns[at].slot = WAITING + 1 + at, owns[at].random = at * 7919 + 12345;
    return t;
}

template <class Deque, class Stop> void pair(Tables &t, Own &own, uint32_t label)
{
    uint64_t sides = own.draw();
    Deque::template push<Stop>(t, own, sides & 1, label);
    while (!Deque::template pop<Stop>(t, own, sides >> 1 & 1)) {
    }
}

template <class Deque> double pairs_a_second(size_t threads, uint64_t pairs)
{
    std::vector<Own> owns(threads);
    auto t = opened<Deque>(owns);
    std::atomic<size_t> ready{0};
    std::vector<std::thread> team;
    for (Own &own : owns)
        team.emplace_back([&] {
            ready++;
            while (ready.load() <= threads)
                std::this_thread::yield();
            for (uint64_t left = pairs / threads; left != 0; left--)
                pair<Deque, NeverStops>(*t, own, static_cast<uint32_t>(left));
        });
    while (ready.load() < threads)
        std::this_thread::yield();
    auto begun = Clock::now();
    ready++;
    for (std::thread &member : team)
        member.join();
    return static_cast<double>(pairs) / std::chrono::duration<double>(Clock::now() - begun).count();
}

// The longest pair of any but the stopped thread, in microseconds.
template <class Deque> double longest_wait(size_t threads, uint64_t seconds)
{
    std::vector<Own> owns(threads);
    auto t = opened<Deque>(owns);
    std::atomic<bool> over{false};
    std::vector<double> longest(threads);
    std::vector<std::thread> team;
    for (size_t at = 0; at < threads; at++)
        team.emplace_back([&, at] {
            for (stopped = &owns[at]; !over.load(std::memory_order_relaxed);) {
                auto begun = Clock::now();
                if (at == 0)
                    pair<Deque, Stops>(*t, owns[at], 1);
                else
                    pair<Deque, NeverStops>(*t, owns[at], 1);
                std::chrono::duration<double, std::micro> took = Clock::now() - begun;
                longest[at] = std::max(longest[at], took.count());
            }
        });
    std::this_thread::sleep_for(std::chrono::seconds(seconds));
    over = true;
    for (std::thread &member : team)
        member.join();
    return *std::max_element(longest.begin() + 1, longest.end());
}

template <class Deque> void row(bool pairs, const char *name, uint64_t amount, int times)
{
    std::printf("| %s |", name);
    for (size_t threads : {1, 2, 4}) {
        if (!pairs && threads == 1)
            continue;
        std::vector<double> all;
        for (int run = 0; run < times; run++)
            all.push_back(pairs ? pairs_a_second<Deque>(threads, amount) / 1e6 : longest_wait<Deque>(threads, amount));
        std::sort(all.begin(), all.end());
        std::printf(pairs ? " %.2f |" : " %.0f |", all[all.size() / 2]);
        std::fflush(stdout);
    }
    std::puts("");
}

} // namespace

// For callgrind: pairs by one thread, and the steps that they take.
template <class Deque> __attribute__((noinline)) void counted_pairs(Tables &t, Own &own, uint64_t pairs)
{
    while (pairs-- != 0)
        pair<Deque, NeverStops>(t, own, 1);
}

template <class Deque> int count(uint64_t pairs)
{
    std::vector<Own> owns(1);
    auto t = opened<Deque>(owns);
    uint64_t steps = 0;
    for (uint64_t at = 0; at < pairs; at++) { // the same sides, by the plain calls
        uint64_t sides = owns[0].draw();
        if (Deque::pooled)
            zc_queue_push_pooled(&t->lent, 0, sides & 1, 0);
        else
            zc_queue_push(&t->lent, 0, sides & 1, owns[0].slot, 0);
        steps += zc_queue_run(&t->lent, 0, 64).steps;
        zc_queue_pop(&t->lent, 0, sides >> 1 & 1);
        zc_run_reply popped = zc_queue_run(&t->lent, 0, 64);
        steps += popped.steps;
        owns[0].slot = popped.value;
    }
    std::printf("%llu\n", static_cast<unsigned long long>(steps));
    auto again = opened<Deque>(owns);
    counted_pairs<Deque>(*again, owns[0], pairs);
    return owns[0].sum == 0;
}

int main(int argc, char **argv)
{
    std::string what = argc > 1 ? argv[1] : "";
    if (what == "count" && argc == 4) {
        uint64_t pairs = std::strtoull(argv[3], nullptr, 10);
        return argv[2] == std::string("named") ? count<Atomic<false>>(pairs) : count<Atomic<true>>(pairs);
    }
    bool pairs = what == "pairs";
    if (argc != 4 || (!pairs && what != "waits"))
        return std::puts("threads pairs PAIRS TIMES | waits SECONDS TIMES | count named|pooled PAIRS"), 2;
    uint64_t amount = std::strtoull(argv[2], nullptr, 10);
    int times = std::atoi(argv[3]);
    row<Atomic<false>>(pairs, "`zeppolecape_atomic.h`, named", amount, times);
    row<Atomic<true>>(pairs, "`zeppolecape_atomic.h`, pooled", amount, times);
    row<Locked<false>>(pairs, "mutex around the proved calls, named", amount, times);
    row<Locked<true>>(pairs, "mutex around the proved calls, pooled", amount, times);
    row<Ring>(pairs, "mutex around a plain ring", amount, times);
    row<Hand<false>>(pairs, "the algorithm by hand, named", amount, times);
    row<Hand<true>>(pairs, "the algorithm by hand, pooled", amount, times);
}
