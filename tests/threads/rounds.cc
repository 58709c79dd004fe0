// Short rounds of calls by threads, and by turns fibers, each call with the times of its start and its
// answer. Of every round is asked: is there any order of the calls that respects these times and that a plain deque
// would answer so (the search of Wing and Gong)? And is the order of the changes of Anchor, by their
// tags, such an order? That is for zc_audit, the proved judge of histories, to say.
//
//     rounds SECONDS [SEED]
#include "team.h"

#include <algorithm>
#include <chrono>
#include <deque>
#include <unordered_set>

namespace {

// A finished call, and where in the order of effects it claims to be: by the tag of Anchor that it
// left or, with nothing changed, found; what found a tag comes behind what left it.
struct Call {
    zc_finished told;
    uint64_t tag;
    bool found;
};

std::atomic<uint64_t> event{1};

// ---- The search -----------------------------------------------------------------------------

struct Search {
    const std::vector<Call> &calls;
    const std::vector<uint32_t> &waiting; // at the end
    std::unordered_set<std::string> dead;

    // Serves a call; whether its answer is the right one.
    static bool serve(std::deque<uint64_t> &queue, const zc_finished &call)
    {
        bool right = call.side == ZC_RIGHT;
        if (call.kind == ZC_PUSH)
            return right ? queue.push_back(call.label) : queue.push_front(call.label), true;
        if (call.answer == ZC_EMPTY)
            return queue.empty();
        if (queue.empty() || (right ? queue.back() : queue.front()) != call.label)
            return false;
        return right ? queue.pop_back() : queue.pop_front(), true;
    }

    // Whether the calls that are not `done` can follow in some order.
    bool rest(uint64_t done, const std::deque<uint64_t> &queue)
    {
        size_t count = calls.size();
        if (done == (count == 64 ? ~uint64_t{0} : (uint64_t{1} << count) - 1))
            return std::equal(queue.begin(), queue.end(), waiting.begin(), waiting.end());
        std::string state(reinterpret_cast<const char *>(&done), sizeof done);
        for (uint64_t label : queue)
            state.append(reinterpret_cast<const char *>(&label), sizeof label);
        if (!dead.insert(state).second)
            return false;
        uint64_t answered = ~uint64_t{0}; // what started later must come later
        for (size_t at = 0; at < count; at++)
            if (!(done >> at & 1))
                answered = std::min(answered, calls[at].told.end);
        for (size_t at = 0; at < count; at++) {
            std::deque<uint64_t> after = queue;
            if (!(done >> at & 1) && calls[at].told.start < answered && serve(after, calls[at].told) &&
                rest(done | uint64_t{1} << at, after))
                return true;
        }
        return false;
    }
};

// ---- A round --------------------------------------------------------------------------------

// Steps a call to its answer, as zc_answer_to does, and notes its effect: a change of Anchor that moves an end, at places 2
// and 4, or the Anchor at which a pop answers empty.
zc_reply finish(Queue &queue, zc_record *own, zc_touch touch, Call &call)
{
    zc_onward onward;
    do {
        bool moves = touch.act == ZC_SWAP_ANCHOR && own->place != 10;
        pause_sometimes();
        uint64_t found = zc_made(&queue.shared, &touch);
        pause_sometimes();
        if (moves && found == touch.expected)
            call.tag = touch.word >> 32;
        onward = zc_settle_unasked(queue.slots, queue.pooled, own, found);
        if (onward.reply.code == ZC_EMPTY) {
            call.tag = found >> 32;
            call.found = true;
        }
        touch = onward.touch;
    } while (onward.reply.code == ZC_RUNNING);
    return onward.reply;
}

void calls_of(Queue &queue, uint64_t thread, uint64_t count, std::vector<Call> &notes)
{
    notes.clear();
    for (uint64_t at = 0; at < count; at++) {
        bool pushes = draw(9) < 5;
        uint64_t side = draw(2), label = thread * 1000 + at + 1;
        zc_start start = pushes ? queue.push(side, static_cast<uint32_t>(label)) : zc_start{ZC_ASK_POP, side, 0, 0};
        Call call{{thread, pushes ? uint64_t{ZC_PUSH} : uint64_t{ZC_POP}, side, label, 0, event++, 0}, 0, false};
        zc_onward begun;
        zc_record *own = &queue.records[thread];
        zc_begin(&queue.shared, own, &start, &begun);
        zc_reply reply = begun.reply;
        if (reply.code == ZC_TAKEN)
            continue;
        expect(reply.code == ZC_RUNNING, "a start refused");
        reply = finish(queue, own, begun.touch, call);
        call.told.end = event++;
        call.told.answer = reply.code;
        if (reply.code == ZC_POPPED)
            call.told.label = reply.label;
        expect(!zc_refused(reply), "a step refused");
        if (reply.code != ZC_NO_FREE_SLOT)
            notes.push_back(call);
    }
}

// By tag; what found a tag behind what left it, and among themselves by their starts.
bool claims(const Call &a, const Call &b)
{
    if (a.tag != b.tag)
        return a.tag < b.tag;
    return a.found != b.found ? b.found : a.told.start < b.told.start;
}

uint64_t judged, overlapping;

void judge(std::vector<Call> calls, const std::vector<uint32_t> &waiting)
{
    std::vector<zc_finished> told;
    std::vector<uint64_t> order;
    std::sort(calls.begin(), calls.end(), claims);
    for (const Call &call : calls) {
        told.push_back(call.told);
        order.push_back(order.size() + 1);
        for (const Call &other : calls)
            overlapping += call.told.start < other.told.start && other.told.start < call.told.end;
    }
    judged += calls.size();
    zc_verdict verdict = zc_audit(told.data(), told.size(), order.data(), order.size());
    bool linearizable = Search{calls, waiting, {}}.rest(0, {});
    if (verdict.code == ZC_PASSES && linearizable)
        return;
    for (const Call &call : calls)
        std::printf("  %5d-%-5d %s side %d, label %d: %d, tag %d\n", static_cast<int>(call.told.start),
                    static_cast<int>(call.told.end), call.told.kind == ZC_PUSH ? "push" : "pop ",
                    static_cast<int>(call.told.side), static_cast<int>(call.told.label),
                    static_cast<int>(call.told.answer), static_cast<int>(call.tag));
    fail(linearizable ? "the order of the tags: position " + std::to_string(verdict.position)
                      : "a round that is not linearizable");
}

struct Shape {
    bool pooled, fibers;
    uint64_t threads, slots;
};

void one(const Shape &shape, uint64_t number)
{
    Queue queue(shape.pooled, shape.threads, shape.slots);
    std::vector<std::vector<Call>> notes(shape.threads);
    std::vector<std::function<void()>> team;
    for (uint64_t thread = 0; thread < shape.threads; thread++)
        team.push_back([&, thread] {
            calls_of(queue, thread, std::min<uint64_t>(64 / shape.threads, 16), notes[thread]);
        });
    together(shape.fibers, team, number);
    std::vector<Call> calls;
    for (const std::vector<Call> &some : notes)
        calls.insert(calls.end(), some.begin(), some.end());
    judge(calls, queue.at_rest());
}

} // namespace

int main(int argc, char **argv)
{
    static const uint64_t sizes[] = {3, 2, 1, 6}, pauses[] = {2, 5, 20};
    uint64_t seconds = number(argc, argv, 1, 5), first = number(argc, argv, 2, 1), turn = 0;
    auto end = std::chrono::steady_clock::now() + std::chrono::seconds(seconds);
    stops_after(seconds);
    for (; turn < 500 || std::chrono::steady_clock::now() < end; turn++) {
        pause_one_in = pauses[turn / 4 % 3];
        one({turn % 2 == 0, turn / 2 % 4 != 0, 2 + turn / 4 % 3, sizes[turn / 12 % 4]}, first * 100000 + turn);
    }
    std::printf("%llu rounds, %llu calls, %llu overlapping pairs: each linearizable, in the order of the tags too\n",
                static_cast<unsigned long long>(turn), static_cast<unsigned long long>(judged),
                static_cast<unsigned long long>(overlapping));
    expect(overlapping > 0, "calls that never overlapped");
}
