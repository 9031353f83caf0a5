// The scheduler and the planner for C++20, over p2p_simulated.h: what is opened is closed, refusals are
// exceptions, and lists are spans. Nothing is allocated but the vectors that are answered and texts of errors.
#ifndef P2P_SIMULATED_HPP
#define P2P_SIMULATED_HPP

#include "p2p_simulated.h"

#include <optional>
#include <span>
#include <stdexcept>
#include <string>
#include <utility>
#include <vector>

namespace p2p {

// A call was refused. The scheduler is as it was.
class refused : public std::runtime_error {
public:
    explicit refused(std::uint32_t status) : runtime_error(text_of(status)), status(status) {}
    const std::uint32_t status; // P2P_OUT_OF_MEMORY and so on, of a call out of turn P2P_GONE_BY or P2P_EVENT_DUE

protected:
    refused(std::uint32_t status, const std::string &text) : runtime_error(text), status(status) {}

private:
    static const char *text_of(std::uint32_t status) {
        static const char *const texts[] = {"made",            "out of memory",    "number too large",
                                            "moment too late", "flow ids used up", "closed"};
        return texts[status < 6 ? status : 5];
    }
};

// A call on a strict scheduler goes back in time, or sets caps or sends where an event is due.
class out_of_turn : public refused {
public:
    out_of_turn(std::uint32_t status, const std::string &text) : refused(status, "out of turn: " + text) {}
};

using cap = std::optional<std::size_t>;       // bytes a second
using moment = std::optional<std::uint64_t>; // nanoseconds since the start

inline moment deliver_at(const p2p_done &done) {
    return done.deliver_at.is_some != 0 ? moment(done.deliver_at.at) : std::nullopt;
}

// A scheduler. A strict one, as it is from the start, refuses calls out of turn, and at once what could
// only arrive past the last moment. What a call completes is read by `done` and `message` until the
// next call that is made.
class scheduler {
public:
    explicit scheduler(bool is_strict = true, std::uint64_t first_id = 0) : is_strict(is_strict) {
        check(p2p_open(&handle, first_id));
    }
    ~scheduler() { p2p_close(&handle); }
    scheduler(scheduler &&other) noexcept
        : handle(std::exchange(other.handle, p2p_scheduler P2P_SCHEDULER_INIT)), is_strict(other.is_strict) {}
    scheduler &operator=(scheduler &&other) noexcept {
        std::swap(handle, other.handle);
        std::swap(is_strict, other.is_strict);
        return *this;
    }

    // Each call answers how many messages it completed.
    std::size_t limit(std::uint64_t now, std::uint64_t peer, cap egress, cap ingress) {
        return call(now, true, [&](auto *s, auto *count) {
            return p2p_limit(s, now, peer, of(egress), of(ingress), count);
        });
    }
    std::size_t limit_link(std::uint64_t now, std::uint64_t origin, std::uint64_t recipient, cap most) {
        return call(now, true, [&](auto *s, auto *count) {
            return p2p_limit_link(s, now, origin, recipient, of(most), count);
        });
    }
    // A message of bytes, which are copied.
    std::size_t enqueue(std::uint64_t now, std::uint64_t origin, std::uint64_t recipient, std::uint64_t channel,
                        std::span<const std::uint8_t> bytes, std::uint64_t latency = 0, bool should_deliver = true) {
        check_arrival(now, latency, should_deliver);
        return call(now, true, [&](auto *s, auto *count) {
            return p2p_enqueue(s, now, origin, recipient, channel, pointer(bytes), bytes.size(), latency,
                               should_deliver, count);
        });
    }
    // A message by its length alone.
    std::size_t enqueue(std::uint64_t now, std::uint64_t origin, std::uint64_t recipient, std::uint64_t channel,
                        std::size_t length, std::uint64_t latency = 0, bool should_deliver = true) {
        check_arrival(now, latency, should_deliver);
        return call(now, true, [&](auto *s, auto *count) {
            return p2p_enqueue_zeros(s, now, origin, recipient, channel, length, latency, should_deliver, count);
        });
    }
    // Messages one after another, as a whole or not at all, as parts of the bytes and zeros after their end.
    std::size_t enqueue_all(std::uint64_t now, std::span<const p2p_parcel> parcels,
                            std::span<const std::uint8_t> bytes = {}) {
        for (const p2p_parcel &parcel : parcels) check_arrival(now, parcel.latency, parcel.should_deliver != 0);
        return call(now, true, [&](auto *s, auto *count) {
            return p2p_enqueue_all(s, now, pointer(parcels), parcels.size(), pointer(bytes), bytes.size(), count);
        });
    }
    std::size_t advance(std::uint64_t now) {
        return call(now, false, [&](auto *s, auto *count) { return p2p_advance(s, now, count); });
    }

    moment next() {
        p2p_moment next;
        check(p2p_next(&handle, &next));
        return next.is_some != 0 ? moment(next.at) : std::nullopt;
    }
    // Whether a call would come in its turn that sets caps or sends, or, where `acts` is false, an advance.
    bool in_turn(std::uint64_t now, bool acts = true) {
        std::uint64_t at;
        std::uint32_t status = p2p_in_turn(&handle, now, acts, &at);
        if (status == P2P_CLOSED) throw refused(status);
        return status == P2P_OK;
    }
    // What is in flight, in order of start.
    std::vector<p2p_flight> in_flight() {
        std::vector<p2p_flight> flights(1);
        std::size_t count = 0;
        check(p2p_in_flight(&handle, flights.data(), flights.size(), &count));
        if (count > 1) {
            flights.resize(count);
            check(p2p_in_flight(&handle, flights.data(), flights.size(), &count));
        }
        flights.resize(count);
        return flights;
    }
    // How many of the messages in flight got their rate anew when rates were last given.
    std::size_t rated_anew() { return p2p_rated_anew(&handle); }

    // The completions of the last call from `first` on, as many as there is room for.
    std::span<p2p_done> done(std::size_t first, std::span<p2p_done> room) {
        p2p_done none;
        return room.first(p2p_completions(&handle, first, room.empty() ? &none : room.data(), room.size()));
    }
    // The bytes of a completion of the last call from `from` on, as many as there is room for.
    std::span<std::uint8_t> message(std::size_t index, std::size_t from, std::span<std::uint8_t> room) {
        std::uint8_t none;
        return room.first(p2p_message(&handle, index, from, room.empty() ? &none : room.data(), room.size()));
    }

private:
    p2p_scheduler handle = P2P_SCHEDULER_INIT;
    bool is_strict;

    static void check(std::uint32_t status) {
        if (status != P2P_OK) throw refused(status);
    }
    static p2p_cap of(cap cap) { return cap ? p2p_bytes(*cap) : p2p_no_cap(); }
    // No pointer may be null, not even to no items.
    template <class T> static const T *pointer(std::span<const T> items) {
        static const T none{};
        return items.empty() ? &none : items.data();
    }
    void check_arrival(std::uint64_t now, std::uint64_t latency, bool should_deliver) const {
        if (is_strict && should_deliver && latency > UINT64_MAX - now) throw refused(P2P_MOMENT_TOO_LATE);
    }
    template <class Call> std::size_t call(std::uint64_t now, bool acts, Call make) {
        if (is_strict) check_turn(now, acts);
        std::size_t count;
        check(make(&handle, &count));
        return count;
    }
    void check_turn(std::uint64_t now, bool acts) {
        std::uint64_t at;
        std::uint32_t status = p2p_in_turn(&handle, now, acts, &at);
        if (status == P2P_GONE_BY) throw out_of_turn(status, "the last call was at " + std::to_string(at));
        if (status == P2P_EVENT_DUE) throw out_of_turn(status, "an event is due at " + std::to_string(at));
        check(status);
    }
};

// The max-min fair rate of each flow, in the order of the flows.
inline std::vector<p2p_rate> allocate(std::span<const p2p_flow> flows, std::span<const p2p_peer_cap> egress,
                                      std::span<const p2p_peer_cap> ingress, std::span<const p2p_link_cap> links = {}) {
    static const p2p_flow no_flow{};
    static const p2p_peer_cap no_cap{};
    static const p2p_link_cap no_link{};
    std::vector<p2p_rate> rates(flows.size() + 1);
    p2p_wide rounds;
    std::uint32_t status = p2p_allocate(
        flows.empty() ? &no_flow : flows.data(), flows.size(), egress.empty() ? &no_cap : egress.data(), egress.size(),
        ingress.empty() ? &no_cap : ingress.data(), ingress.size(), links.empty() ? &no_link : links.data(),
        links.size(), rates.data(), flows.size(), &rounds);
    if (status != P2P_OK) throw refused(status);
    rates.pop_back();
    return rates;
}

} // namespace p2p

#endif
