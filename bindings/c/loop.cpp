// A simulator's event loop with a queue of its own: four peers gossip a block, and each passes it on when
// it arrives. The queue has arrivals, and the scheduler's next event is one more source.
#include "p2p_simulated.hpp"

#include <array>
#include <cinttypes>
#include <cstdio>
#include <queue>
#include <set>

namespace {

struct arrival {
    std::uint64_t at, peer, block;
    bool operator>(const arrival &other) const { return at > other.at; }
};

int failures;

void expect(bool holds, const char *what) {
    if (!holds) {
        std::fprintf(stderr, "loop.cpp: %s\n", what);
        failures++;
    }
}

class gossip {
public:
    gossip() {
        for (std::uint64_t peer = 0; peer < peers; peer++) take(scheduler.limit(0, peer, 1000, 2000));
    }

    // A peer has a block for the first time, and sends it to all the others.
    void has(std::uint64_t now, std::uint64_t peer, std::uint64_t block) {
        if (!known.insert({peer, block}).second) return;
        std::printf("%" PRIu64 " ns: peer %" PRIu64 " has block %" PRIu64 "\n", now, peer, block);
        std::vector<p2p_parcel> parcels;
        for (std::uint64_t other = 0; other < peers; other++) {
            if (other != peer) parcels.push_back({peer, other, block, 0, 300, 1000000, 1});
        }
        take(scheduler.enqueue_all(now, parcels));
    }

    void run() {
        for (;;) {
            p2p::moment due = scheduler.next();
            if (!queue.empty() && (!due || queue.top().at < *due)) {
                arrival next = queue.top();
                queue.pop();
                take(scheduler.advance(next.at)); // before anything is sent at that moment
                has(next.at, next.peer, next.block);
            } else if (due) {
                take(scheduler.advance(*due));
            } else {
                return;
            }
        }
    }

    std::size_t messages = 0;

private:
    static constexpr std::uint64_t peers = 4;
    p2p::scheduler scheduler;
    std::priority_queue<arrival, std::vector<arrival>, std::greater<>> queue;
    std::set<std::pair<std::uint64_t, std::uint64_t>> known;

    void take(std::size_t count) {
        std::array<p2p_done, 3> room;
        for (std::size_t first = 0; first < count; first += room.size()) {
            for (const p2p_done &done : scheduler.done(first, room)) {
                messages++;
                queue.push({p2p::deliver_at(done).value(), done.recipient, done.channel});
            }
        }
    }
};

void refusals_are_exceptions() {
    p2p::scheduler one, other = std::move(one);
    other.limit(0, 1, 1000, {});
    other.enqueue(0, 1, 2, 7, std::size_t{1000});
    const std::array<std::uint8_t, 2> bytes = {8, 9};
    other.enqueue(0, 1, 3, 7, bytes, 5, false);
    std::vector<p2p_flight> flights = other.in_flight();
    expect(flights.size() == 2 && flights[1].recipient == 3, "both are in flight");
    expect(flights[0].channel == 7 && flights[1].recipient == 3, "each on its channel");
    expect(flights[1].left.numerator.low == 2 && flights[1].rate.numerator.low == 500, "and share the cap");
    expect(other.rated_anew() == 2 && other.in_turn(1) && !other.in_turn(*other.next()), "a call has its turn");
    expect(other.in_turn(*other.next(), false), "and so has an advance to the next event");
    try {
        other.limit(*other.next(), 1, {}, {});
        expect(false, "a call out of turn is refused");
    } catch (const p2p::out_of_turn &why) {
        std::string wanted = "out of turn: an event is due at " + std::to_string(*other.next());
        expect(why.what() == wanted && why.status == P2P_EVENT_DUE, why.what());
    }
    try {
        other.enqueue(1, 1, 3, 7, bytes, UINT64_MAX);
        expect(false, "an arrival that is too late is refused");
    } catch (const p2p::refused &why) {
        expect(why.status == P2P_MOMENT_TOO_LATE, why.what());
    }
    std::array<p2p_done, 1> done;
    std::array<std::uint8_t, 4> room;
    expect(other.advance(*other.next()) == 1 && !p2p::deliver_at(other.done(0, done)[0]), "the dropped one is done");
    expect(other.message(0, 1, room).size() == 1 && room[0] == 9, "its bytes come back");
    try {
        one.advance(1);
        expect(false, "what was moved from is closed");
    } catch (const p2p::refused &why) {
        expect(why.status == P2P_CLOSED, why.what());
    }
    const p2p_flow flows[] = {{1, 1, 2, 1}, {2, 1, 3, 1}};
    const p2p_peer_cap egress[] = {{1, p2p_number(10)}};
    std::vector<p2p_rate> rates = p2p::allocate(flows, egress, {});
    expect(rates.size() == 2 && rates[1].numerator.low == 5, "two flows share a cap");
}

} // namespace

int main() {
    gossip net;
    net.has(0, 0, 1);
    net.has(0, 2, 2);
    net.run();
    expect(net.messages == 24, "each peer sends each block to the three others");
    refusals_are_exceptions();
    return failures != 0;
}
