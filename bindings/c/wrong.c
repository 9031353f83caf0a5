/* Wrong bodies of the calls. Linked between test.c and the library, by `--wrap` of the linker, each call does what it
 * should, but for the one body that the variable P2P_WRONG names; test.c has to tell each of them (bindings/check.sh).
 * A body stands on a line of its own, which names it once. No more than 8 flows, links, parcels or completions are
 * looked at. */
#include "p2p_simulated.h"

#include <stdlib.h>
#include <string.h>

static int is(const char *name) {
    const char *body = getenv("P2P_WRONG");
    return body != NULL && strcmp(body, name) == 0;
}

/* the call of that name in the library, and the one that takes its place */
#define CALL(type, name, ...)            \
    type __real_##name(__VA_ARGS__);     \
    type __wrap_##name(__VA_ARGS__);     \
    type __wrap_##name(__VA_ARGS__)

CALL(size_t, p2p_completions, p2p_scheduler *s, size_t first, p2p_done *out, size_t room);

/* what the last call completed, and the one before it */
static p2p_done last[8], before[8];
static size_t last_count, before_count;

/* After each call: what it completed, and what is told of it. */
static uint32_t told(p2p_scheduler *s, uint32_t status) {
    memcpy(before, last, sizeof last);
    before_count = last_count;
    last_count = __real_p2p_completions(s, 0, last, 8);
    if (is("a-closed-handle-is-open") && status == P2P_CLOSED) return P2P_OK;
    if (is("late-is-told-as-out-of-ids") && status == P2P_MOMENT_TOO_LATE) return P2P_FLOW_IDS_USED_UP;
    return status;
}

CALL(uint32_t, p2p_open, p2p_scheduler *s, uint64_t first_id) {
    if (is("flow-ids-begin-at-zero")) first_id = 0;
    return told(s, __real_p2p_open(s, first_id));
}

CALL(uint32_t, p2p_limit, p2p_scheduler *s, uint64_t now, uint64_t peer, p2p_cap egress, p2p_cap ingress,
     size_t *count) {
    p2p_cap sent = egress, received = ingress;
    if (is("a-limit-is-refused")) return P2P_OUT_OF_MEMORY;
    if (is("a-limit-swaps-its-caps")) sent = ingress, received = egress;
    if (is("a-limit-drops-the-egress")) sent = p2p_no_cap();
    if (is("a-limit-drops-the-ingress")) received = p2p_no_cap();
    return told(s, __real_p2p_limit(s, now, peer, sent, received, count));
}

CALL(uint32_t, p2p_limit_link, p2p_scheduler *s, uint64_t now, uint64_t origin, uint64_t recipient, p2p_cap cap,
     size_t *count) {
    if (is("a-link-is-turned-round")) return told(s, __real_p2p_limit_link(s, now, recipient, origin, cap, count));
    if (is("a-link-drops-its-cap")) cap = p2p_no_cap();
    return told(s, __real_p2p_limit_link(s, now, origin, recipient, cap, count));
}

CALL(uint32_t, p2p_enqueue, p2p_scheduler *s, uint64_t now, uint64_t origin, uint64_t recipient, uint64_t channel,
     const uint8_t *message, size_t length, uint64_t latency, uint8_t should_deliver, size_t *count) {
    uint64_t from = origin, to = recipient;
    if (is("a-message-is-turned-round")) from = recipient, to = origin;
    if (is("a-message-loses-its-channel")) channel = 0;
    if (is("a-message-loses-its-bytes")) length = 0;
    if (is("a-message-loses-its-latency")) latency = 0;
    if (is("a-message-always-arrives")) should_deliver = 1;
    if (is("a-message-never-arrives")) should_deliver = 0;
    return told(s, __real_p2p_enqueue(s, now, from, to, channel, message, length, latency, should_deliver, count));
}

CALL(uint32_t, p2p_enqueue_zeros, p2p_scheduler *s, uint64_t now, uint64_t origin, uint64_t recipient, uint64_t channel,
     size_t length, uint64_t latency, uint8_t should_deliver, size_t *count) {
    uint64_t from = origin, to = recipient;
    if (is("zeros-are-turned-round")) from = recipient, to = origin;
    if (is("zeros-lose-their-channel")) channel = 0;
    if (is("zeros-lose-their-latency")) latency = 0;
    if (is("zeros-always-arrive")) should_deliver = 1;
    return told(s, __real_p2p_enqueue_zeros(s, now, from, to, channel, length, latency, should_deliver, count));
}

CALL(uint32_t, p2p_enqueue_all, p2p_scheduler *s, uint64_t now, const p2p_parcel *parcels, size_t parcel_count,
     const uint8_t *bytes, size_t length, size_t *count) {
    p2p_parcel parcel[8];
    parcel_count = parcel_count < 8 ? parcel_count : 8;
    for (size_t i = 0; i < parcel_count; i++) {
        parcel[i] = parcels[i];
        if (is("parcels-begin-where-they-end")) parcel[i].origin = parcels[i].recipient;
        if (is("parcels-lose-their-channel")) parcel[i].channel = 0;
        if (is("parcels-all-begin-at-the-front")) parcel[i].from = 0;
        if (is("parcels-end-where-the-bytes-do") && parcel[i].from + parcel[i].length > length) parcel[i].length = 0;
        if (is("parcels-lose-their-latency")) parcel[i].latency = 0;
        if (is("parcels-always-arrive")) parcel[i].should_deliver = 1;
    }
    if (is("parcels-lose-their-bytes")) length = 0;
    if (is("the-last-parcel-is-left-out") && parcel_count > 0) parcel_count--;
    if (is("a-list-is-sent-up-to-a-refusal")) {
        uint32_t status = P2P_OK;
        *count = 0;
        for (size_t i = 0; i < parcel_count && status == P2P_OK; i++) {
            status = __real_p2p_enqueue_all(s, now, parcel + i, 1, bytes, length, count);
        }
        return told(s, status);
    }
    return told(s, __real_p2p_enqueue_all(s, now, parcel, parcel_count, bytes, length, count));
}

CALL(uint32_t, p2p_advance, p2p_scheduler *s, uint64_t now, size_t *count) {
    uint32_t status = __real_p2p_advance(s, now, count);
    if (is("an-advance-counts-no-completions")) *count = 0;
    return told(s, status);
}

CALL(uint32_t, p2p_advance_counted, p2p_scheduler *s, uint64_t now, size_t *count, p2p_wide *events) {
    uint32_t status = __real_p2p_advance_counted(s, now, count, events);
    if (is("events-are-not-told")) *events = p2p_number(0);
    return told(s, status);
}

CALL(uint32_t, p2p_next, p2p_scheduler *s, p2p_moment *next) {
    uint32_t status = __real_p2p_next(s, next);
    if (is("next-answers-none")) next->is_some = 0;
    return is("next-of-a-closed-handle") ? P2P_OK : status;
}

CALL(uint32_t, p2p_in_turn, p2p_scheduler *s, uint64_t now, uint8_t acts, uint64_t *at) {
    if (is("an-advance-has-to-come-before-the-event")) acts = 1;
    if (is("a-call-at-an-event-is-in-turn")) acts = 0;
    uint32_t status = __real_p2p_in_turn(s, now, acts, at);
    if (is("no-call-goes-back") && status == P2P_GONE_BY) return P2P_OK;
    if (is("what-is-due-is-told-as-gone-by") && status == P2P_EVENT_DUE) return P2P_GONE_BY;
    if (is("a-turn-tells-the-call-as-what-is-in-its-way")) *at = now;
    if (is("a-turn-of-a-closed-handle")) return status == P2P_CLOSED ? P2P_OK : status;
    return status;
}

CALL(uint32_t, p2p_in_flight, p2p_scheduler *s, p2p_flight *out, size_t room, size_t *count) {
    uint32_t status = __real_p2p_in_flight(s, out, room, count);
    if (is("what-is-in-flight-is-counted-by-the-room") && *count > room) *count = room;
    if (is("nothing-is-in-flight")) *count = 0;
    for (size_t i = 0; i < *count && i < room; i++) {
        if (is("a-flight-is-turned-round")) out[i].origin = out[i].recipient, out[i].recipient = 1;
        if (is("a-flight-is-on-the-channel-of-the-first")) out[i].channel = out[0].channel;
        if (is("a-flight-tells-its-rate-as-what-is-left")) out[i].left = out[i].rate;
        if (is("a-flight-tells-what-is-left-as-its-rate")) out[i].rate = out[i].left;
        if (is("a-flight-is-since-the-start")) out[i].since = 0;
        if (is("a-rounded-amount-is-told-as-exact")) out[i].left.is_exact = 1;
        if (is("an-amount-loses-its-upper-half")) out[i].left.numerator.high = 0;
        if (is("each-flight-is-the-first")) out[i] = out[0];
    }
    return status;
}

CALL(size_t, p2p_rated_anew, p2p_scheduler *s) {
    size_t count = __real_p2p_rated_anew(s);
    return is("none-is-rated-anew") ? 0 : count;
}

size_t __wrap_p2p_completions(p2p_scheduler *s, size_t first, p2p_done *out, size_t room) {
    size_t count = __real_p2p_completions(s, first, out, room);
    if (is("completions-are-those-of-the-call-before")) {
        for (count = 0; first + count < before_count && count < room; count++) out[count] = before[first + count];
    }
    for (size_t i = 0; i < count; i++) {
        if (is("the-first-completion-for-each")) out[i] = last[0];
        if (is("a-message-is-done-as-it-arrives") && out[i].deliver_at.is_some) out[i].done_at = out[i].deliver_at.at;
        if (is("a-dropped-message-is-never-done") && !out[i].deliver_at.is_some) out[i].done_at = 0;
    }
    return count;
}

CALL(size_t, p2p_message, p2p_scheduler *s, size_t index, size_t from, uint8_t *out, size_t room) {
    if (is("the-bytes-of-another")) index += 1;
    if (is("the-bytes-from-the-first-on")) from = 0;
    return __real_p2p_message(s, index, from, out, room);
}

CALL(uint32_t, p2p_allocate, const p2p_flow *flows, size_t flow_count, const p2p_peer_cap *egress, size_t egress_count,
     const p2p_peer_cap *ingress, size_t ingress_count, const p2p_link_cap *links, size_t link_count, p2p_rate *rates,
     size_t room, p2p_wide *rounds) {
    p2p_flow flow[8];
    p2p_link_cap link[8];
    flow_count = flow_count < 8 ? flow_count : 8;
    link_count = link_count < 8 ? link_count : 8;
    for (size_t i = 0; i < flow_count; i++) {
        flow[i] = flows[i];
        if (is("each-flow-is-delivered")) flow[i].delivered = 1;
        if (is("no-flow-is-delivered")) flow[i].delivered = 0;
        if (is("flows-are-turned-round")) flow[i].origin = flows[i].recipient, flow[i].recipient = flows[i].origin;
    }
    for (size_t i = 0; i < link_count; i++) {
        link[i] = links[i];
        if (is("links-are-turned-round")) link[i].origin = links[i].recipient, link[i].recipient = links[i].origin;
    }
    if (is("ingress-is-egress")) ingress = egress, ingress_count = egress_count;
    if (is("rates-forget-ingress")) ingress_count = 0;
    if (is("rates-forget-links")) link_count = 0;
    uint32_t status = __real_p2p_allocate(flow, flow_count, egress, egress_count, ingress, ingress_count, link,
                                          link_count, rates, room, rounds);
    if (is("rounds-are-not-told")) *rounds = p2p_number(0);
    return is("too-large-is-told-as-out-of-memory") && status == P2P_NUMBER_TOO_LARGE ? P2P_OUT_OF_MEMORY : status;
}

CALL(uint32_t, p2p_allocate_routes, const uint64_t *weights, size_t flow_count, const p2p_hop *hops, size_t hop_count,
     const p2p_route_cap *caps, size_t link_count, p2p_rate *rates, size_t room, p2p_hop *fault) {
    uint64_t weight[8];
    p2p_route_cap cap[8];
    flow_count = flow_count < 8 ? flow_count : 8;
    link_count = link_count < 8 ? link_count : 8;
    for (size_t i = 0; i < flow_count; i++) {
        weight[i] = weights[i];
        if (is("weights-are-forgotten") && weights[i] != 0) weight[i] = 1;
    }
    for (size_t i = 0; i < link_count; i++) {
        cap[i] = caps[i];
        if (is("a-weight-widens-its-link")) cap[i].bytes.low *= weights[0];
        if (is("each-link-has-a-cap")) cap[i].is_some = 1;
    }
    if (is("the-last-hops-are-forgotten") && hop_count > 4) hop_count = 2;
    uint32_t status = __real_p2p_allocate_routes(weight, flow_count, hops, hop_count, cap, link_count, rates, room, fault);
    if (is("a-fault-is-not-told")) fault->flow = fault->link = 0;
    return is("no-weight-is-told-as-no-flow") && status == P2P_NO_WEIGHT ? P2P_NO_SUCH_FLOW : status;
}

CALL(uint32_t, p2p_run, const uint8_t *script, size_t length, uint8_t *out, size_t room, size_t *printed,
     uint64_t *bad_line) {
    uint32_t status = __real_p2p_run(script, length, out, room, printed, bad_line);
    if (is("a-bad-line-is-hidden")) *bad_line = 0;
    if (is("printed-is-what-was-copied") && *printed > room) *printed = room;
    return is("a-script-always-ends-well") ? 0 : status;
}
