/* The simulated link scheduler and its planner: who sends how fast, and when each message arrives.
 *
 * Units     Moments and latencies are nanoseconds since the start, caps are bytes a second, and
 *           lengths are bytes. Peers, channels and flow ids are numbers of the caller's choice.
 * Status    Each call that can be refused answers one of the numbers below. After any but P2P_OK
 *           the scheduler is as it was, and the next call finds it so.
 * Ownership A p2p_scheduler belongs to the caller, who keeps it where it is while it is open. What
 *           it points to belongs to the library, until p2p_close. All that a call is given is read
 *           or written during that call alone: no pointer of the caller is kept, and none of the
 *           library is handed out.
 * Pointers  None may be NULL, those to arrays of no items among them. An array is given with the
 *           number of its items, and what is written may not overlap what is read.
 * Threads   A scheduler may move from one thread to another. One call at a time may use it; calls
 *           on different schedulers need no order. No call may come from a signal handler.
 * Memory    The program defines rattle_alloc, rattle_realloc and rattle_dealloc: heap.c does so
 *           over malloc. Where these answer that there is no memory, the call is refused.
 */
#ifndef P2P_SIMULATED_H
#define P2P_SIMULATED_H

#include <stddef.h>
#include <stdint.h>

#ifdef __cplusplus
extern "C" {
#define P2P_ASSERT(holds) static_assert(holds, #holds)
#else
#define P2P_ASSERT(holds) _Static_assert(holds, #holds)
#endif

/* How a call ended. 1 to 4 are the refusals that a script prints, under the same numbers, and 6 and 7
 * are answers of p2p_in_turn. */
enum {
    P2P_OK = 0,
    P2P_OUT_OF_MEMORY = 1,
    P2P_NUMBER_TOO_LARGE = 2, /* of the planner alone: a rate is no fraction of 128 bits */
    P2P_MOMENT_TOO_LATE = 3,  /* a message would arrive past the moment 2^64 - 1 */
    P2P_FLOW_IDS_USED_UP = 4, /* a message would start, and 2^64 - 1 flow ids were given */
    P2P_CLOSED = 5,           /* the scheduler is not open */
    P2P_GONE_BY = 6,          /* the last call that was made was at a later moment */
    P2P_EVENT_DUE = 7,        /* the call sets caps or sends, and an event is due */
    P2P_NO_SUCH_LINK = 8,     /* of p2p_allocate_routes alone, as the next three: a link that has no cap's entry */
    P2P_NO_SUCH_FLOW = 9,     /* a flow that has no weight's entry */
    P2P_NO_WEIGHT = 10,       /* a weight is 0 */
    P2P_TOO_MUCH_WEIGHT = 11  /* the flows of a link have a weight of 2^64 or more together */
};

/* A scheduler, or none. Let it begin as P2P_SCHEDULER_INIT, and neither copy nor change it: the
 * calls below open and close it. Closing one that is not open does nothing. */
typedef struct p2p_scheduler {
    void *place;
    uint8_t is_open;
} p2p_scheduler;
#define P2P_SCHEDULER_INIT {NULL, 0}

/* A cap in bytes a second; none where is_some is 0. */
typedef struct p2p_cap {
    size_t bytes;
    uint8_t is_some;
} p2p_cap;

static inline p2p_cap p2p_bytes(size_t bytes) {
    p2p_cap cap = {bytes, 1};
    return cap;
}

static inline p2p_cap p2p_no_cap(void) {
    p2p_cap cap = {0, 0};
    return cap;
}

/* A moment in nanoseconds since the start; none where is_some is 0. */
typedef struct p2p_moment {
    uint64_t at;
    uint8_t is_some;
} p2p_moment;

/* low + 2^64 * high. */
typedef struct p2p_wide {
    uint64_t low;
    uint64_t high;
} p2p_wide;

/* A message to send with others: `length` bytes, from the byte `from` on of those that are given with
 * the list, and zeros where these end before. */
typedef struct p2p_parcel {
    uint64_t origin;
    uint64_t recipient;
    uint64_t channel;
    size_t from;
    size_t length;
    uint64_t latency;
    uint8_t should_deliver;
} p2p_parcel;

/* A message that is done: all of it was sent at done_at, in nanoseconds since the start, also where it is
 * dropped. It arrives at deliver_at, or not at all. */
typedef struct p2p_done {
    uint64_t origin;
    uint64_t recipient;
    uint64_t channel;
    size_t length;
    uint64_t done_at;
    p2p_moment deliver_at;
} p2p_done;

/* An amount in bytes, or in bytes a second, as a fraction in lowest terms. Where is_exact is 0 it is no
 * fraction of 128 bits, and this is the greatest whole number of 128 bits that is not above it. */
typedef struct p2p_amount {
    p2p_wide numerator;
    p2p_wide denominator;
    uint8_t is_exact;
} p2p_amount;

/* A message in flight, with its pair and its channel: at the moment `since` so much was left of it, and
 * since then it has gone at its rate. */
typedef struct p2p_flight {
    uint64_t origin;
    uint64_t recipient;
    uint64_t channel;
    p2p_amount left;
    p2p_amount rate;
    uint64_t since;
} p2p_flight;

/* The number as a wide one: a cap of the planner below 2^64. */
static inline p2p_wide p2p_number(uint64_t number) {
    p2p_wide wide = {number, 0};
    return wide;
}

/* A flow of a plan: something that goes from one peer to another. Where delivered is 0 it is
 * dropped: it takes nothing of what its recipient may receive. */
typedef struct p2p_flow {
    uint64_t id;
    uint64_t origin;
    uint64_t recipient;
    uint8_t delivered;
} p2p_flow;

/* What a peer may send, or what it may receive, in bytes a second. */
typedef struct p2p_peer_cap {
    uint64_t peer;
    p2p_wide cap;
} p2p_peer_cap;

/* What may go from one peer to another, in bytes a second. */
typedef struct p2p_link_cap {
    uint64_t origin;
    uint64_t recipient;
    p2p_wide cap;
} p2p_link_cap;

/* A rate in bytes a second, as a fraction in lowest terms. Where is_limited is 0 no cap holds, and
 * the fraction is 0/1. */
typedef struct p2p_rate {
    p2p_wide numerator;
    p2p_wide denominator;
    uint8_t is_limited;
} p2p_rate;

/* A flow uses a link; both are numbers, counted from 0. */
typedef struct p2p_hop {
    size_t flow;
    size_t link;
} p2p_hop;

/* The cap of a link in bytes a second; none where is_some is 0. */
typedef struct p2p_route_cap {
    p2p_wide bytes;
    uint8_t is_some;
} p2p_route_cap;

P2P_ASSERT(sizeof(size_t) == 8 && sizeof(void *) == 8);
P2P_ASSERT(sizeof(p2p_scheduler) == 16 && offsetof(p2p_scheduler, is_open) == 8);
P2P_ASSERT(sizeof(p2p_cap) == 16 && offsetof(p2p_cap, is_some) == 8);
P2P_ASSERT(sizeof(p2p_moment) == 16 && offsetof(p2p_moment, is_some) == 8);
P2P_ASSERT(sizeof(p2p_wide) == 16 && offsetof(p2p_wide, high) == 8);
P2P_ASSERT(sizeof(p2p_parcel) == 56 && offsetof(p2p_parcel, from) == 24 && offsetof(p2p_parcel, latency) == 40);
P2P_ASSERT(sizeof(p2p_amount) == 40 && offsetof(p2p_amount, denominator) == 16 && offsetof(p2p_amount, is_exact) == 32);
P2P_ASSERT(sizeof(p2p_flight) == 112 && offsetof(p2p_flight, channel) == 16 && offsetof(p2p_flight, rate) == 64);
P2P_ASSERT(sizeof(p2p_done) == 56 && offsetof(p2p_done, done_at) == 32 && offsetof(p2p_done, deliver_at) == 40);
P2P_ASSERT(sizeof(p2p_flow) == 32 && offsetof(p2p_flow, recipient) == 16 && offsetof(p2p_flow, delivered) == 24);
P2P_ASSERT(sizeof(p2p_peer_cap) == 24 && offsetof(p2p_peer_cap, cap) == 8);
P2P_ASSERT(sizeof(p2p_link_cap) == 32 && offsetof(p2p_link_cap, recipient) == 8 && offsetof(p2p_link_cap, cap) == 16);
P2P_ASSERT(sizeof(p2p_rate) == 40 && offsetof(p2p_rate, denominator) == 16 && offsetof(p2p_rate, is_limited) == 32);
P2P_ASSERT(sizeof(p2p_hop) == 16 && offsetof(p2p_hop, link) == 8);
P2P_ASSERT(sizeof(p2p_route_cap) == 24 && offsetof(p2p_route_cap, is_some) == 16);

/* ---- The scheduler.
 *
 * At most one message of each ordered pair of peers is in flight, the others of the pair wait
 * behind it, and those in flight share the caps max-min fairly. Before the first cap a message is
 * done as it is sent.
 *
 * What a call completes stays with the scheduler until the next call that is made: `count` is set
 * to how many messages that are (0 where the call is refused), and p2p_completions and p2p_message
 * copy them out. First advance to a moment, and then set caps and send messages at it: so each call
 * comes in its turn, and does what the nanosecond by nanosecond simulation does. A call that goes back
 * in time, or that sets caps or sends where an event is due, is made all the same, by the rule from
 * event to event alone: ask p2p_in_turn before.
 *
 * A message whose arrival lies past the last moment is refused only once it would be done, and then
 * refuses each later call that comes to that moment. Where `now` and `latency` together are above
 * 2^64 - 1 do not send it. */

/* Opens a scheduler at moment 0, with no cap and nothing sent; what the handle had before is
 * closed first. Flow ids begin at first_id, which is 0 but in tests. P2P_OUT_OF_MEMORY leaves the
 * handle not open. */
uint32_t p2p_open(p2p_scheduler *scheduler, uint64_t first_id);

/* Closes a scheduler, and frees all that it has. */
void p2p_close(p2p_scheduler *scheduler);

/* Sets what a peer may send and what it may receive in all, from `now` on. */
uint32_t p2p_limit(p2p_scheduler *scheduler, uint64_t now, uint64_t peer, p2p_cap egress, p2p_cap ingress, size_t *count);

/* Sets what may go from one peer to another, from `now` on. */
uint32_t p2p_limit_link(p2p_scheduler *scheduler, uint64_t now, uint64_t origin, uint64_t recipient, p2p_cap cap, size_t *count);

/* Sends a message of `length` bytes, which are copied. Where should_deliver is 0 it is dropped on
 * the way: it takes of what its origin may send, nothing of what its recipient may receive, and
 * does not arrive. */
uint32_t p2p_enqueue(p2p_scheduler *scheduler, uint64_t now, uint64_t origin, uint64_t recipient, uint64_t channel,
                     const uint8_t *message, size_t length, uint64_t latency, uint8_t should_deliver, size_t *count);

/* The same with `length` zero bytes, which take no memory however many they are. So a message whose bytes
 * the caller keeps goes by its length, and by a number of the caller's as its channel. */
uint32_t p2p_enqueue_zeros(p2p_scheduler *scheduler, uint64_t now, uint64_t origin, uint64_t recipient, uint64_t channel,
                           size_t length, uint64_t latency, uint8_t should_deliver, size_t *count);

/* Sends messages one after another, as a whole or not at all, in far less time than by a call for each:
 * what is in flight is rated once for all of them. The messages have their parts of `bytes`, which are
 * copied once: a broadcast has one message's, and a list of messages by their lengths has none. It does
 * and completes what as many calls would, and is refused where one of them would be. */
uint32_t p2p_enqueue_all(p2p_scheduler *scheduler, uint64_t now, const p2p_parcel *parcels, size_t parcel_count,
                         const uint8_t *bytes, size_t length, size_t *count);

/* Lets time go on to `now`. What completes up to then and at it is completed in order. */
uint32_t p2p_advance(p2p_scheduler *scheduler, uint64_t now, size_t *count);

/* The same, and tells how many events it went through: finishes and starts of messages. There are
 * none where the call is refused. */
uint32_t p2p_advance_counted(p2p_scheduler *scheduler, uint64_t now, size_t *count, p2p_wide *events);

/* The moment of the next event, if one comes. P2P_OK or P2P_CLOSED. */
uint32_t p2p_next(p2p_scheduler *scheduler, p2p_moment *next);

/* Whether a call at `now` would come in its turn; `acts` is 1 for one that sets caps or sends, and 0 for an
 * advance. P2P_OK where it would, and P2P_GONE_BY or P2P_EVENT_DUE where not; `at` is then the moment of
 * the last call that was made, or of the event, and else `now`. It changes nothing. */
uint32_t p2p_in_turn(p2p_scheduler *scheduler, uint64_t now, uint8_t acts, uint64_t *at);

/* Copies what is in flight, in order of start, as much as there is room for; `count` is how much all of it
 * is. Of each ordered pair at most one message is in flight, the first that was sent of those that are not
 * done: so who keeps what was sent knows which. P2P_OK, P2P_OUT_OF_MEMORY or P2P_CLOSED, and after the
 * latter two nothing is written and `count` is 0. */
uint32_t p2p_in_flight(p2p_scheduler *scheduler, p2p_flight *out, size_t room, size_t *count);

/* How many of the messages in flight got their rate anew when rates were last given, or 0 where the
 * scheduler is not open. It counts work, and has no part in what is answered. */
size_t p2p_rated_anew(p2p_scheduler *scheduler);

/* Copies what the last call that was made completed, from the completion `first` on, as many as
 * there is room for, and answers how many; 0 where the scheduler is not open. */
size_t p2p_completions(p2p_scheduler *scheduler, size_t first, p2p_done *out, size_t room);

/* Copies the bytes of the completion `index`, from the byte `from` on, as many as there is room
 * for, and answers how many. */
size_t p2p_message(p2p_scheduler *scheduler, size_t index, size_t from, uint8_t *out, size_t room);

/* ---- The planner.
 *
 * Writes the max-min fair rate of each flow, in the order of the flows, as many as there is room
 * for: the flows under a cap have no more than it together, and each flow that is under any is under
 * one that is used up and that leaves none of its flows more than this one has. Who is in no list of
 * caps has none. Of several caps of one peer, or of one link, the last counts, and of several flows
 * of one id all are answered the rate of the last. `rounds` is how many different finite rates there
 * are, and 0 after a refusal.
 *
 * P2P_OK, P2P_OUT_OF_MEMORY, or P2P_NUMBER_TOO_LARGE where a rate is no fraction of 128 bits, for
 * which there have to be more than 16 flows or a cap of 2^64 or more. A refusal writes no rate. */
uint32_t p2p_allocate(const p2p_flow *flows, size_t flow_count, const p2p_peer_cap *egress, size_t egress_count,
                      const p2p_peer_cap *ingress, size_t ingress_count, const p2p_link_cap *links, size_t link_count,
                      p2p_rate *rates, size_t room, p2p_wide *rounds);

/* The same over any network. There are as many flows as weights, and as many links as caps; a hop says
 * that a flow uses a link, in any order, and said more than once it counts once. A flow of weight w gets
 * what w flows of weight 1 over its links get together; with all weights 1 the flows of a link share it
 * as those of p2p_allocate do. Writes the rate of each flow in their order, as many as there is room for.
 *
 * P2P_OK, P2P_OUT_OF_MEMORY, P2P_NUMBER_TOO_LARGE just where a rate is no fraction of 128 bits, or one of
 * the last four above. A refusal writes no rate, and `fault` is the flow and the link that it is for, or
 * 0 and 0. */
uint32_t p2p_allocate_routes(const uint64_t *weights, size_t flow_count, const p2p_hop *hops, size_t hop_count,
                             const p2p_route_cap *caps, size_t link_count, p2p_rate *rates, size_t room,
                             p2p_hop *fault);

/* ---- Scripts.
 *
 * Runs a script of docs/SCRIPT.md, whose lines end with byte 10, and writes what it prints into
 * out, as much as there is room for. `printed` is the length of all that it prints, so that more
 * room can be given to a second run. `bad_line` is the number of the line that is not of the
 * language, counted from 1, or 0. The answer is that of the program linkrun: 0 where the script was
 * read to its end, 1 where there was no memory outside a command, 2 at a bad line. */
uint32_t p2p_run(const uint8_t *script, size_t length, uint8_t *out, size_t room, size_t *printed, uint64_t *bad_line);

#ifdef __cplusplus
}
#endif

#endif
