// Threads, and by turns fibers, push and pop at random sides, with pauses between instructions; then
// every label that was pushed was popped once or waits once, and at rest the tables are sound. Every
// third turn is a FIFO: pushes at the right, pops at the left, and each reader meets each writer's
// labels in their order.
//
//     accounts SECONDS [SEED]
#include "team.h"

#include <chrono>

namespace {

struct Turn {
    bool pooled, fifo, fibers;
    uint64_t threads, slots, calls, seed;
};

// What a thread did.
struct Worker {
    Own own;
    std::vector<uint32_t> popped;
    uint32_t pushed = 0;
    uint64_t others = 0; // empty, no slot, slot taken
};

struct Totals {
    uint64_t turns = 0, pushed = 0, popped = 0, others = 0, retries = 0;
} totals;

void push(Queue &queue, Worker &worker, uint64_t thread, uint64_t side)
{
    uint32_t label = label_of(thread, worker.pushed);
    zc_reply reply = queue.call(&worker.own.record, queue.push(side, label));
    bool none = reply.code == (queue.pooled ? ZC_NO_FREE_SLOT : ZC_TAKEN);
    expect(none || reply.code == ZC_PUSHED, "a push answered otherwise");
    worker.pushed += reply.code == ZC_PUSHED;
    worker.others += none;
}

void pop(Queue &queue, Worker &worker, uint64_t side)
{
    zc_reply reply = queue.call(&worker.own.record, {ZC_ASK_POP, side, 0, 0});
    expect(reply.code == ZC_POPPED || reply.code == ZC_EMPTY, "a pop answered otherwise");
    if (reply.code == ZC_POPPED)
        worker.popped.push_back(reply.label);
    worker.others += reply.code == ZC_EMPTY;
}

void work(Queue &queue, Worker &worker, uint64_t thread, const Turn &turn)
{
    auto end = std::chrono::steady_clock::now() + std::chrono::milliseconds(500);
    for (uint64_t at = 0; at < turn.calls; at++) {
        if (!turn.fibers && std::chrono::steady_clock::now() > end)
            break;
        bool pushes = turn.fifo ? thread % 2 == 0 : draw(2) == 0;
        if (pushes)
            push(queue, worker, thread, turn.fifo ? ZC_RIGHT : draw(2));
        else
            pop(queue, worker, turn.fifo ? ZC_LEFT : draw(2));
    }
}

// Each label once, and in a FIFO those of one writer in order.
void judge(const std::vector<Worker> &workers, const std::vector<uint32_t> &waiting, bool fifo)
{
    Met met;
    uint64_t pushed = 0;
    for (const Worker &worker : workers) {
        met.threads.emplace_back(worker.pushed);
        pushed += worker.pushed;
    }
    for (const Worker &worker : workers) {
        std::vector<int64_t> last(workers.size(), -1);
        for (uint32_t label : worker.popped) {
            met.meet(label);
            expect(!fifo || number_of(label) > last[thread_of(label)], "labels out of order");
            last[thread_of(label)] = number_of(label);
        }
        totals.others += worker.others;
        totals.retries += worker.own.record.retries;
    }
    totals.popped += met.count;
    for (uint32_t label : waiting)
        met.meet(label);
    expect(met.count == pushed, "a label lost");
    totals.pushed += pushed;
    totals.turns++;
}

void one(const Turn &turn)
{
    Queue queue(turn.pooled, turn.threads, turn.slots);
    std::vector<Worker> workers(turn.threads);
    std::vector<std::function<void()>> team;
    for (uint64_t thread = 0; thread < turn.threads; thread++)
        team.push_back([&, thread] { work(queue, workers[thread], thread, turn); });
    together(turn.fibers, team, turn.seed);
    judge(workers, queue.at_rest(), turn.fifo);
}

} // namespace

int main(int argc, char **argv)
{
    static const uint64_t sizes[] = {3, 4, 2, 1, 6, 100}, pauses[] = {2, 5, 20};
    uint64_t seconds = number(argc, argv, 1, 5), first = number(argc, argv, 2, 1);
    auto end = std::chrono::steady_clock::now() + std::chrono::seconds(seconds);
    stops_after(seconds);
    for (uint64_t turn = 0; turn < 24 || std::chrono::steady_clock::now() < end; turn++) {
        bool fibers = fibers_allowed && turn / 2 % 4 != 3;
        pause_one_in = pauses[turn / 2 % 3];
        one({turn % 2 == 0, turn % 3 == 2, fibers, 4 - turn / 6 % 3, sizes[turn / 4 % 6], fibers ? 15000u : 5000u, first * 1000 + turn});
    }
    expect(totals.retries > 0, "threads that never met");
    std::printf("%llu turns, %llu labels pushed and accounted for, %llu of them popped; %llu calls found none or no slot, %llu retries\n",
                static_cast<unsigned long long>(totals.turns), static_cast<unsigned long long>(totals.pushed),
                static_cast<unsigned long long>(totals.popped), static_cast<unsigned long long>(totals.others),
                static_cast<unsigned long long>(totals.retries));
}
