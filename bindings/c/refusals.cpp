// Each allocation of each call is refused in turn, in C++: the call throws, what comes next is as it was,
// and the call then goes through. At the end all memory is given back.
#include "p2p_simulated.hpp"

#include <array>
#include <cstdio>

extern "C" long p2p_test_until_refusal, p2p_test_blocks; // of refusing_heap.c

namespace {

long refusals;
int failures;

// Makes the call with its first allocation refused, then with its second, and so on until it goes through.
template <class Call> auto each(Call call) {
    for (long n = 0;; n++) {
        p2p_test_until_refusal = n;
        try {
            auto answer = call();
            p2p_test_until_refusal = -1;
            return answer;
        } catch (const p2p::refused &why) {
            p2p_test_until_refusal = -1;
            refusals++;
            failures += why.status != P2P_OUT_OF_MEMORY;
        }
    }
}

// The same, where the scheduler has to stay as it was.
template <class Call> std::size_t each_of(p2p::scheduler &scheduler, Call call) {
    p2p::moment next = scheduler.next();
    bool is_first = true;
    return each([&] {
        failures += !is_first && scheduler.next() != next;
        is_first = false;
        return call();
    });
}

void run() {
    p2p::scheduler s = each([] { return p2p::scheduler(); });
    const std::array<std::uint8_t, 100> bytes{};
    std::size_t done = 0, sent = 0;
    std::uint64_t now = 0;
    for (std::uint64_t peer = 0; peer < 4; peer++) each_of(s, [&] { return s.limit(now, peer, 1000, 700); });
    each_of(s, [&] { return s.limit_link(now, 0, 1, 300); });
    for (std::uint64_t turn = 0; turn < 10; turn++) {
        for (std::uint64_t peer = 0; peer < 4; peer++) {
            std::uint64_t to = (peer + turn) % 4;
            done += each_of(s, [&] { return s.enqueue(now, peer, to, 7, bytes, 5, turn % 5 != 0); });
            done += each_of(s, [&] { return s.enqueue(now, peer, to, 7, 50 + turn); });
            sent += 2;
        }
        const p2p_parcel parcels[] = {{0, 1, 7, 0, 60, 5, 1}, {0, 2, 7, 50, 60, 5, 0}};
        done += each_of(s, [&] { return s.enqueue_all(now, parcels, bytes); });
        sent += 2;
        failures += each([&] { return s.in_flight(); }).size() > sent - done;
        now += 50000000;
        done += each_of(s, [&] { return s.advance(now); });
    }
    done += each_of(s, [&] { return s.advance(now + 1000000000000); });
    failures += done != sent;
    const p2p_flow flows[] = {{1, 1, 2, 1}, {2, 1, 3, 1}};
    const p2p_peer_cap egress[] = {{1, p2p_number(10)}};
    failures += each([&] { return p2p::allocate(flows, egress, {}); }).size() != 2;
}

} // namespace

int main() {
    run();
    failures += p2p_test_blocks != 0;
    if (failures == 0) std::printf("c++: %ld allocations refused in turn, nothing leaked\n", refusals);
    return failures != 0;
}
