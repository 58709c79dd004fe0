// The promise that a lock cannot make. A thread is stopped for ever in the middle of its call, at each
// place in turn; then the others make a million calls. Of their labels none is lost; of the stopped
// thread's call at most a label and a slot are. The same with a tenth of the calls for a thread that
// has made its touch, and for named slots.
//
//     stopped [CALLS [SEED]]
#include "team.h"

#include <atomic>
#include <condition_variable>
#include <mutex>
#include <thread>

namespace {

enum { WORKERS = 3, SLOTS = 6 };

struct Case {
    bool pooled, touched;
    uint64_t place;
};

// For ever: until the test is over, and then the thread ends without another touch.
struct Door {
    std::mutex lock;
    std::condition_variable opens;
    bool open = false;

    void wait()
    {
        std::unique_lock<std::mutex> hold(lock);
        opens.wait(hold, [this] { return open; });
    }
    void release()
    {
        std::lock_guard<std::mutex> hold(lock);
        open = true;
        opens.notify_all();
    }
};

// What a thread did.
struct Worker {
    Own own;
    uint32_t pushed = 0;
    std::vector<uint32_t> popped;

    zc_start draws(const Queue &queue, uint64_t thread)
    {
        uint64_t side = draw(2);
        if (draw(2) == 0)
            return {ZC_ASK_POP, side, 0, 0};
        return queue.push(side, label_of(thread, pushed));
    }
    void note(const zc_reply &reply)
    {
        expect(reply.code <= ZC_NO_FREE_SLOT || reply.code == ZC_TAKEN, "a call refused");
        pushed += reply.code == ZC_PUSHED;
        if (reply.code == ZC_POPPED)
            popped.push_back(reply.label);
    }
};

// Calls until one stands at the place; there the thread stops. Whether that call is a push.
bool run_to(Queue &queue, Worker &worker, const Case &stop)
{
    zc_record *own = &worker.own.record;
    for (;;) {
        zc_start start = worker.draws(queue, WORKERS);
        zc_reply reply = zc_atomic_start(&queue.shared, own, &start);
        while (reply.code == ZC_RUNNING) {
            if (own->place == stop.place) {
                zc_touch touch = zc_plan(queue.shared.slots, queue.shared.pooled, own);
                if (stop.touched)
                    zc_made(&queue.shared, &touch);
                return start.operation != ZC_ASK_POP;
            }
            reply = zc_atomic_step(&queue.shared, own);
        }
        worker.note(reply);
    }
}

// Each label of the workers once; of the stopped thread's last call one more or one less.
void judge(const std::vector<Worker> &workers, const std::vector<uint32_t> &waiting, bool push)
{
    Met met;
    uint64_t pushed = 0;
    for (const Worker &worker : workers) {
        met.threads.emplace_back(worker.pushed + (&worker == &workers.back() && push));
        pushed += worker.pushed;
    }
    for (const Worker &worker : workers)
        for (uint32_t label : worker.popped)
            met.meet(label);
    for (uint32_t label : waiting)
        met.meet(label);
    expect(met.count == pushed || (push ? met.count == pushed + 1 : met.count + 1 == pushed), "a label lost");
}

void one(const Case &stop, uint64_t calls, uint64_t number)
{
    Queue queue(stop.pooled, WORKERS + 1, SLOTS);
    std::vector<Worker> workers(WORKERS + 1);
    std::atomic<bool> stopped{false};
    bool push = false;
    Door door;
    std::vector<std::thread> team;
    team.emplace_back([&] {
        seed(number, WORKERS);
        push = run_to(queue, workers[WORKERS], stop);
        stopped = true;
        door.wait();
    });
    for (uint64_t thread = 0; thread < WORKERS; thread++)
        team.emplace_back([&, thread] {
            seed(number, thread);
            Worker &worker = workers[thread];
            for (uint64_t left = calls / WORKERS + 1; left != 0; left -= stopped.load())
                worker.note(queue.call(&worker.own.record, worker.draws(queue, thread)));
        });
    for (size_t thread = 1; thread < team.size(); thread++)
        team[thread].join();
    judge(workers, queue.at_rest(1), push);
    door.release();
    team[0].join();
}

} // namespace

int main(int argc, char **argv)
{
    uint64_t calls = number(argc, argv, 1, 1000000), first = number(argc, argv, 2, 1), cases = 0;
    for (bool pooled : {true, false})
        for (uint64_t place = 1; place <= (pooled ? 17 : 11); place++)
            for (bool touched : {false, true}) {
                stops_after(60); // others that wait for the stopped one stop the test
                one({pooled, touched, place}, pooled && !touched ? calls : calls / 10, first * 100 + cases++);
            }
    std::printf("%d stops for ever; after 17 of them the others made %llu calls, after the rest a tenth\n",
                static_cast<int>(cases), static_cast<unsigned long long>(calls));
}
