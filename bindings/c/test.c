/* What the header says, call by call. */
#include "p2p_simulated.h"

#include <stdio.h>
#include <string.h>

static int failures;

#define CHECK(holds)                                              \
    do {                                                          \
        if (!(holds)) {                                           \
            fprintf(stderr, "test.c:%d: %s\n", __LINE__, #holds); \
            failures++;                                           \
        }                                                         \
    } while (0)

static void a_handle_is_safe_whatever_its_state(void) {
    p2p_scheduler s = P2P_SCHEDULER_INIT;
    size_t count = 7;
    p2p_moment next = {7, 1};
    p2p_wide events = {7, 7};
    p2p_done done;
    p2p_flight flight;
    p2p_parcel parcel = {1, 2, 3, 0, 1, 0, 1};
    uint64_t at = 7;
    uint8_t byte = 7;
    CHECK(p2p_limit(&s, 0, 1, p2p_no_cap(), p2p_no_cap(), &count) == P2P_CLOSED && count == 0);
    CHECK(p2p_limit_link(&s, 0, 1, 2, p2p_no_cap(), &count) == P2P_CLOSED);
    CHECK(p2p_enqueue(&s, 0, 1, 2, 3, &byte, 1, 0, 1, &count) == P2P_CLOSED);
    CHECK(p2p_enqueue_zeros(&s, 0, 1, 2, 3, 1, 0, 1, &count) == P2P_CLOSED);
    CHECK(p2p_enqueue_all(&s, 0, &parcel, 1, &byte, 1, &count) == P2P_CLOSED && count == 0);
    CHECK(p2p_advance(&s, 0, &count) == P2P_CLOSED);
    CHECK(p2p_advance_counted(&s, 0, &count, &events) == P2P_CLOSED && events.low == 0 && events.high == 0);
    CHECK(p2p_next(&s, &next) == P2P_CLOSED && next.is_some == 0);
    CHECK(p2p_in_turn(&s, 9, 1, &at) == P2P_CLOSED && at == 9);
    count = 7;
    CHECK(p2p_in_flight(&s, &flight, 1, &count) == P2P_CLOSED && count == 0 && p2p_rated_anew(&s) == 0);
    CHECK(p2p_completions(&s, 0, &done, 1) == 0 && p2p_message(&s, 0, 0, &byte, 1) == 0 && byte == 7);
    p2p_close(&s);
    CHECK(p2p_open(&s, 0) == P2P_OK && s.is_open == 1);
    CHECK(p2p_limit(&s, 0, 1, p2p_bytes(1), p2p_no_cap(), &count) == P2P_OK);
    CHECK(p2p_enqueue_zeros(&s, 0, 1, 2, 3, 1, 0, 1, &count) == P2P_OK);
    CHECK(p2p_next(&s, &next) == P2P_OK && next.is_some == 1 && next.at == 1000000000);
    CHECK(p2p_open(&s, 0) == P2P_OK); /* the old one is closed, and this one has no message */
    CHECK(p2p_next(&s, &next) == P2P_OK && next.is_some == 0);
    p2p_close(&s);
    p2p_close(&s);
    CHECK(s.is_open == 0 && p2p_advance(&s, 1, &count) == P2P_CLOSED);
}

static void two_messages_share_a_cap(void) {
    p2p_scheduler s = P2P_SCHEDULER_INIT;
    size_t count;
    p2p_moment next;
    p2p_wide events;
    p2p_done done[3];
    uint8_t sent[1000], got[1000];
    for (size_t i = 0; i < sizeof sent; i++) sent[i] = (uint8_t)(i % 251);
    CHECK(p2p_open(&s, 0) == P2P_OK);
    CHECK(p2p_limit(&s, 0, 1, p2p_bytes(1000), p2p_no_cap(), &count) == P2P_OK && count == 0);
    CHECK(p2p_enqueue(&s, 0, 1, 2, 7, sent, 1000, 500000000, 1, &count) == P2P_OK && count == 0);
    CHECK(p2p_enqueue(&s, 0, 1, 3, 7, sent, 500, 0, 1, &count) == P2P_OK && count == 0);
    CHECK(p2p_next(&s, &next) == P2P_OK && next.is_some && next.at == 1000000000);
    CHECK(p2p_advance_counted(&s, 1000000000, &count, &events) == P2P_OK && count == 1 && events.low == 1);
    CHECK(p2p_completions(&s, 0, done, 3) == 1 && p2p_completions(&s, 1, done, 3) == 0);
    CHECK(done[0].origin == 1 && done[0].recipient == 3 && done[0].channel == 7 && done[0].length == 500);
    CHECK(done[0].done_at == 1000000000 && done[0].deliver_at.is_some == 1 && done[0].deliver_at.at == 1000000000);
    memset(got, 255, sizeof got);
    CHECK(p2p_message(&s, 0, 0, got, sizeof got) == 500 && memcmp(got, sent, 500) == 0 && got[500] == 255);
    CHECK(p2p_message(&s, 0, 400, got, 50) == 50 && memcmp(got, sent + 400, 50) == 0);
    CHECK(p2p_message(&s, 0, 500, got, 1) == 0 && p2p_message(&s, 0, 501, got, 1) == 0);
    CHECK(p2p_message(&s, 1, 0, got, 1) == 0);
    CHECK(p2p_advance(&s, 1500000000, &count) == P2P_OK && count == 1);
    CHECK(p2p_completions(&s, 0, done, 3) == 1 && done[0].recipient == 2 && done[0].deliver_at.at == 2000000000);
    CHECK(done[0].done_at == 1500000000); /* half a second before it arrives */
    p2p_close(&s);
}

static void completions_are_read_in_their_order(void) {
    p2p_scheduler s = P2P_SCHEDULER_INIT;
    size_t count;
    p2p_done done[3];
    CHECK(p2p_open(&s, 0) == P2P_OK);
    CHECK(p2p_limit(&s, 0, 1, p2p_bytes(1000), p2p_no_cap(), &count) == P2P_OK);
    CHECK(p2p_enqueue_zeros(&s, 0, 1, 2, 7, 1000, 0, 1, &count) == P2P_OK && count == 0);
    CHECK(p2p_enqueue_zeros(&s, 0, 1, 3, 8, 500, 0, 1, &count) == P2P_OK && count == 0);
    CHECK(p2p_advance(&s, 2000000000, &count) == P2P_OK && count == 2);
    CHECK(p2p_completions(&s, 0, done, 3) == 2);
    CHECK(done[0].recipient == 3 && done[0].length == 500 && done[0].deliver_at.at == 1000000000);
    CHECK(done[1].recipient == 2 && done[1].length == 1000 && done[1].deliver_at.at == 1500000000);
    CHECK(p2p_completions(&s, 1, done, 3) == 1 && done[0].recipient == 2); /* from the second one on */
    p2p_close(&s);
}

static void caps_hold_where_they_were_set(void) {
    p2p_scheduler s = P2P_SCHEDULER_INIT;
    size_t count;
    p2p_moment next;
    p2p_done done[1];
    uint8_t sent[3] = {1, 2, 3};
    CHECK(p2p_open(&s, 0) == P2P_OK);
    CHECK(p2p_limit(&s, 0, 2, p2p_no_cap(), p2p_bytes(500), &count) == P2P_OK);
    CHECK(p2p_limit_link(&s, 0, 1, 3, p2p_bytes(100), &count) == P2P_OK);
    CHECK(p2p_enqueue_zeros(&s, 0, 1, 2, 8, 1000, 0, 1, &count) == P2P_OK && count == 0);
    CHECK(p2p_enqueue_zeros(&s, 0, 1, 3, 9, 1000, 0, 1, &count) == P2P_OK && count == 0);
    CHECK(p2p_enqueue_zeros(&s, 0, 3, 1, 10, 1000, 0, 1, &count) == P2P_OK && count == 1); /* no cap holds this way */
    CHECK(p2p_next(&s, &next) == P2P_OK && next.is_some && next.at == 2000000000);
    CHECK(p2p_advance(&s, 2000000000, &count) == P2P_OK && count == 1);
    CHECK(p2p_completions(&s, 0, done, 1) == 1 && done[0].recipient == 2 && done[0].channel == 8);
    CHECK(p2p_next(&s, &next) == P2P_OK && next.is_some && next.at == 10000000000);
    CHECK(p2p_enqueue(&s, 2000000000, 4, 2, 11, sent, 3, 7, 0, &count) == P2P_OK && count == 1);
    CHECK(p2p_completions(&s, 0, done, 1) == 1 && done[0].length == 3 && done[0].deliver_at.is_some == 0);
    CHECK(done[0].done_at == 2000000000);
    p2p_close(&s);
}

static void a_dropped_message_does_not_arrive(void) {
    p2p_scheduler s = P2P_SCHEDULER_INIT;
    size_t count;
    p2p_done done[1];
    CHECK(p2p_open(&s, 0) == P2P_OK);
    CHECK(p2p_enqueue_zeros(&s, 3, 1, 2, 9, 8, 5, 0, &count) == P2P_OK && count == 1);
    CHECK(p2p_completions(&s, 0, done, 1) == 1 && done[0].deliver_at.is_some == 0 && done[0].length == 8);
    CHECK(done[0].done_at == 3);
    p2p_close(&s);
}

static void a_refused_call_changes_nothing(void) {
    p2p_scheduler s = P2P_SCHEDULER_INIT;
    size_t count;
    p2p_done done[1];
    CHECK(p2p_open(&s, UINT64_MAX) == P2P_OK);
    CHECK(p2p_enqueue_zeros(&s, 1, 1, 2, 9, 8, 5, 1, &count) == P2P_OK && count == 1);
    CHECK(p2p_enqueue_zeros(&s, 1, 1, 2, 9, 8, UINT64_MAX, 1, &count) == P2P_MOMENT_TOO_LATE && count == 0);
    CHECK(p2p_completions(&s, 0, done, 1) == 1 && done[0].deliver_at.at == 6); /* what the call before completed */
    CHECK(p2p_limit_link(&s, 1, 1, 2, p2p_bytes(1), &count) == P2P_OK && count == 0);
    CHECK(p2p_enqueue_zeros(&s, 1, 1, 2, 9, 8, 5, 1, &count) == P2P_FLOW_IDS_USED_UP);
    p2p_close(&s);
}

static void a_turn_is_told(void) {
    p2p_scheduler s = P2P_SCHEDULER_INIT;
    size_t count;
    uint64_t at = 7;
    CHECK(p2p_open(&s, UINT64_MAX - 1) == P2P_OK);
    CHECK(p2p_in_turn(&s, 0, 1, &at) == P2P_OK && at == 0);
    CHECK(p2p_limit(&s, 5, 1, p2p_bytes(1000), p2p_no_cap(), &count) == P2P_OK);
    CHECK(p2p_in_turn(&s, 5, 1, &at) == P2P_OK && at == 5);
    CHECK(p2p_in_turn(&s, 4, 1, &at) == P2P_GONE_BY && at == 5);
    CHECK(p2p_in_turn(&s, 4, 0, &at) == P2P_GONE_BY && at == 5);
    CHECK(p2p_enqueue_zeros(&s, 6, 1, 2, 7, 1000, 0, 1, &count) == P2P_OK);
    CHECK(p2p_in_turn(&s, 1000000005, 1, &at) == P2P_OK && at == 1000000005);
    CHECK(p2p_in_turn(&s, 1000000006, 1, &at) == P2P_EVENT_DUE && at == 1000000006);
    CHECK(p2p_in_turn(&s, 1000000007, 1, &at) == P2P_EVENT_DUE && at == 1000000006);
    CHECK(p2p_in_turn(&s, 1000000007, 0, &at) == P2P_OK && at == 1000000007);
    CHECK(p2p_in_turn(&s, 5, 1, &at) == P2P_GONE_BY && at == 6);
    CHECK(p2p_enqueue_zeros(&s, 9, 1, 3, 7, 1, 0, 1, &count) == P2P_FLOW_IDS_USED_UP); /* and is not the last call */
    CHECK(p2p_in_turn(&s, 8, 1, &at) == P2P_OK && p2p_in_turn(&s, 5, 1, &at) == P2P_GONE_BY && at == 6);
    CHECK(p2p_advance(&s, 1000000006, &count) == P2P_OK && count == 1);
    CHECK(p2p_in_turn(&s, 1000000006, 1, &at) == P2P_OK);
    CHECK(p2p_limit(&s, 3, 1, p2p_no_cap(), p2p_no_cap(), &count) == P2P_OK); /* out of turn, and made all the same */
    CHECK(p2p_in_turn(&s, 2, 0, &at) == P2P_GONE_BY && at == 3);
    p2p_close(&s);
}

static void many_messages_go_by_one_call(void) {
    p2p_scheduler s = P2P_SCHEDULER_INIT;
    const uint8_t bytes[] = {1, 2, 3, 4};
    const p2p_parcel parcels[] = {
        {1, 2, 10, 0, 4, 5, 1}, {1, 3, 11, 1, 2, 0, 0}, {1, 4, 12, 3, 3, 0, 1}, {1, 5, 13, 9, 2, 0, 1}};
    const p2p_parcel late[] = {{1, 6, 14, 0, 4, 0, 1}, {7, 8, 15, 0, 4, UINT64_MAX, 1}};
    size_t count;
    p2p_done done[5];
    uint8_t got[5];
    uint64_t at;
    CHECK(p2p_open(&s, 0) == P2P_OK);
    CHECK(p2p_limit(&s, 0, 1, p2p_bytes(4), p2p_no_cap(), &count) == P2P_OK);
    CHECK(p2p_enqueue_all(&s, 1, parcels, 4, bytes, sizeof bytes, &count) == P2P_OK && count == 0);
    CHECK(p2p_in_turn(&s, 0, 0, &at) == P2P_GONE_BY && at == 1);
    CHECK(p2p_enqueue_all(&s, 1, late, 2, bytes, sizeof bytes, &count) == P2P_MOMENT_TOO_LATE && count == 0);
    CHECK(p2p_advance(&s, 10000000000, &count) == P2P_OK && count == 4); /* the late list went as a whole */
    CHECK(p2p_completions(&s, 0, done, 5) == 4);
    for (size_t i = 0; i < 4; i++) {
        memset(got, 255, sizeof got);
        size_t length = p2p_message(&s, i, 0, got, sizeof got);
        CHECK(done[i].origin == 1 && done[i].length == length && done[i].channel == done[i].recipient + 8);
        CHECK(done[i].deliver_at.is_some == (done[i].recipient != 3));
        switch (done[i].recipient) {
        case 2: CHECK(length == 4 && memcmp(got, bytes, 4) == 0 && done[i].deliver_at.at == 2750000006); break;
        case 3: CHECK(length == 2 && got[0] == 2 && got[1] == 3); break;
        case 4: CHECK(length == 3 && got[0] == 4 && got[1] == 0 && got[2] == 0); break;
        default: CHECK(length == 2 && got[0] == 0 && got[1] == 0);
        }
    }
    CHECK(p2p_enqueue_all(&s, 10000000000, parcels, 0, bytes, 0, &count) == P2P_OK && count == 0);
    CHECK(p2p_completions(&s, 0, done, 5) == 0);
    p2p_close(&s);
}

static int is_amount(const p2p_amount *amount, uint64_t numerator, uint64_t denominator) {
    return amount->is_exact == 1 && amount->numerator.low == numerator && amount->numerator.high == 0 &&
           amount->denominator.low == denominator && amount->denominator.high == 0;
}

/* For a nanosecond each a message has a byte, half a byte, a third and so on: after 59 of them what is left has terms
 * of more than 64 bits, and after 99 it is no fraction of 128 bits. */
static void amounts_are_as_long_as_they_are(void) {
    p2p_scheduler s = P2P_SCHEDULER_INIT;
    size_t count;
    p2p_flight flight;
    CHECK(p2p_open(&s, 0) == P2P_OK);
    CHECK(p2p_limit(&s, 0, 1, p2p_bytes(1000000000), p2p_no_cap(), &count) == P2P_OK);
    for (uint64_t i = 0; i < 100; i++) {
        CHECK(p2p_enqueue_zeros(&s, i, 1, i + 2, 7, 1000000, 0, 1, &count) == P2P_OK);
        if (i != 59) continue;
        CHECK(p2p_in_flight(&s, &flight, 1, &count) == P2P_OK && count == 60 && flight.left.is_exact == 1);
        CHECK(flight.left.numerator.low == 460967740754176745u && flight.left.numerator.high == 175110703119);
        CHECK(flight.left.denominator.low == 9586767723940608224u && flight.left.denominator.high == 175111);
    }
    CHECK(p2p_in_flight(&s, &flight, 1, &count) == P2P_OK && count == 100 && flight.recipient == 2);
    CHECK(flight.left.is_exact == 0 && flight.left.numerator.low == 999994 && flight.left.denominator.low == 1);
    CHECK(is_amount(&flight.rate, 10000000, 1) && flight.since == 99);
    p2p_close(&s);
}

static void what_is_in_flight_is_told(void) {
    p2p_scheduler s = P2P_SCHEDULER_INIT;
    size_t count = 7;
    p2p_flight flights[3];
    memset(flights, 255, sizeof flights);
    CHECK(p2p_open(&s, 0) == P2P_OK);
    CHECK(p2p_in_flight(&s, flights, 3, &count) == P2P_OK && count == 0 && p2p_rated_anew(&s) == 0);
    CHECK(p2p_limit(&s, 0, 1, p2p_bytes(1000), p2p_no_cap(), &count) == P2P_OK);
    CHECK(p2p_enqueue_zeros(&s, 0, 1, 2, 7, 1000, 0, 1, &count) == P2P_OK);
    CHECK(p2p_enqueue_zeros(&s, 0, 1, 3, 8, 500, 0, 1, &count) == P2P_OK);
    CHECK(p2p_enqueue_zeros(&s, 0, 1, 3, 9, 700, 0, 1, &count) == P2P_OK); /* waits behind the other */
    CHECK(p2p_rated_anew(&s) == 2);
    CHECK(p2p_limit(&s, 400000001, 1, p2p_bytes(1001), p2p_no_cap(), &count) == P2P_OK);
    CHECK(p2p_in_flight(&s, flights, 3, &count) == P2P_OK && count == 2 && flights[2].since == UINT64_MAX);
    CHECK(flights[0].origin == 1 && flights[0].recipient == 2 && flights[1].origin == 1 && flights[1].recipient == 3);
    CHECK(flights[0].channel == 7 && flights[1].channel == 8);
    CHECK(is_amount(&flights[0].left, 1599999999, 2000000) && is_amount(&flights[0].rate, 1001, 2));
    CHECK(is_amount(&flights[1].left, 599999999, 2000000) && is_amount(&flights[1].rate, 1001, 2));
    CHECK(flights[0].since == 400000001 && flights[1].since == 400000001);
    memset(flights, 255, sizeof flights);
    CHECK(p2p_in_flight(&s, flights, 1, &count) == P2P_OK && count == 2); /* there was room for one */
    CHECK(flights[0].recipient == 2 && flights[1].since == UINT64_MAX);
    p2p_close(&s);
}

static int is_rate(const p2p_rate *rate, uint64_t numerator, uint64_t denominator) {
    return rate->is_limited == 1 && rate->numerator.low == numerator && rate->numerator.high == 0 &&
           rate->denominator.low == denominator && rate->denominator.high == 0;
}

static void rates_are_max_min_fair(void) {
    const p2p_flow flows[] = {{9, 1, 2, 1}, {2, 1, 3, 1}, {3, 4, 2, 0}, {4, 1, 1, 1}};
    const p2p_peer_cap egress[] = {{1, {7, 7}}, {5, {0, 0}}, {1, {50000, 0}}}; /* of peer 1 the last counts */
    const p2p_peer_cap ingress[] = {{2, {1000, 0}}};
    const p2p_link_cap links[] = {{1, 1, {500, 0}}, {1, 1, {1, 0}}, {1, 4, {0, 0}}};
    p2p_rate rates[5] = {{{0, 0}, {0, 0}, 7}, {{0, 0}, {0, 0}, 7}, {{0, 0}, {0, 0}, 7}, {{0, 0}, {0, 0}, 7}, {{0, 0}, {0, 0}, 7}};
    p2p_wide rounds = {7, 7};
    CHECK(p2p_allocate(flows, 4, egress, 3, ingress, 1, links, 3, rates, 5, &rounds) == P2P_OK);
    CHECK(is_rate(&rates[0], 1000, 1) && is_rate(&rates[1], 48999, 1) && is_rate(&rates[3], 1, 1));
    CHECK(rates[2].is_limited == 0 && rates[2].denominator.low == 1 && rates[4].is_limited == 7);
    CHECK(rounds.low == 3 && rounds.high == 0);
    rates[1].is_limited = 7;
    CHECK(p2p_allocate(flows, 2, egress, 3, ingress, 0, links, 0, rates, 1, &rounds) == P2P_OK && rounds.low == 1);
    CHECK(is_rate(&rates[0], 25000, 1) && rates[1].is_limited == 7); /* there was room for one */
    const p2p_flow one_id[] = {{1, 1, 2, 1}, {1, 3, 2, 1}, {1, 3, 4, 1}};
    const p2p_peer_cap two[] = {{3, {2, 0}}, {1, {5, 0}}};
    CHECK(p2p_allocate(one_id, 3, two, 2, ingress, 0, links, 0, rates, 3, &rounds) == P2P_OK);
    CHECK(is_rate(&rates[0], 1, 1) && is_rate(&rates[2], 1, 1) && rounds.low == 2); /* the last of an id decides */
    const p2p_flow both_ways[] = {{1, 1, 2, 1}, {2, 2, 1, 1}};
    const p2p_link_cap one_way[] = {{1, 2, {5, 0}}};
    CHECK(p2p_allocate(both_ways, 2, egress, 0, ingress, 0, one_way, 1, rates, 2, &rounds) == P2P_OK);
    CHECK(is_rate(&rates[0], 5, 1) && rates[1].is_limited == 0 && rounds.low == 1);
}

static void a_rate_that_is_no_fraction_is_refused(void) {
    /* the last flow would get a third less than 2^128 - 1 */
    const p2p_flow flows[] = {{1, 1, 9, 1}, {2, 1, 3, 1}, {3, 1, 4, 1}, {4, 2, 9, 1}};
    const p2p_peer_cap egress[] = {{1, {1, 0}}}, ingress[] = {{9, {UINT64_MAX, UINT64_MAX}}};
    const p2p_link_cap none[1] = {{0, 0, {0, 0}}};
    p2p_rate rates[4] = {{{0, 0}, {0, 0}, 7}};
    p2p_wide rounds = {7, 7};
    CHECK(p2p_allocate(flows, 4, egress, 1, ingress, 1, none, 0, rates, 4, &rounds) == P2P_NUMBER_TOO_LARGE);
    CHECK(rates[0].is_limited == 7 && rounds.low == 0 && rounds.high == 0);
    CHECK(p2p_allocate(flows + 3, 1, egress, 1, ingress, 1, none, 0, rates, 4, &rounds) == P2P_OK);
    CHECK(rates[0].numerator.low == UINT64_MAX && rates[0].numerator.high == UINT64_MAX && rates[0].denominator.low == 1);
}

static void routes_are_shared_by_weight(void) {
    const uint64_t weights[] = {3, 1, 2};
    const p2p_hop hops[] = {{0, 0}, {1, 0}, {0, 1}, {0, 1}, {2, 2}};
    const p2p_route_cap caps[] = {{{10, 0}, 1}, {{4, 0}, 1}, {{1, 0}, 0}};
    p2p_rate rates[4] = {{{0, 0}, {0, 0}, 7}, {{0, 0}, {0, 0}, 7}, {{0, 0}, {0, 0}, 7}, {{0, 0}, {0, 0}, 7}};
    p2p_hop fault = {7, 7};
    CHECK(p2p_allocate_routes(weights, 3, hops, 5, caps, 3, rates, 4, &fault) == P2P_OK);
    CHECK(is_rate(&rates[0], 4, 1) && is_rate(&rates[1], 6, 1) && rates[2].is_limited == 0 && rates[3].is_limited == 7);
    CHECK(fault.flow == 0 && fault.link == 0);
    CHECK(p2p_allocate_routes(weights, 2, hops, 2, caps, 1, rates, 1, &fault) == P2P_OK);
    CHECK(is_rate(&rates[0], 15, 2) && is_rate(&rates[1], 6, 1)); /* there was room for one */
}

static void routes_that_are_none_are_told(void) {
    const uint64_t weights[] = {3, 1, 0, UINT64_MAX};
    const p2p_hop hops[] = {{0, 0}, {1, 5}, {3, 0}};
    const p2p_route_cap caps[] = {{{10, 0}, 1}};
    p2p_rate rates[4] = {{{0, 0}, {0, 0}, 7}};
    p2p_hop fault = {7, 7};
    CHECK(p2p_allocate_routes(weights, 2, hops, 2, caps, 1, rates, 4, &fault) == P2P_NO_SUCH_LINK);
    CHECK(fault.flow == 1 && fault.link == 5 && rates[0].is_limited == 7);
    CHECK(p2p_allocate_routes(weights, 1, hops, 2, caps, 1, rates, 4, &fault) == P2P_NO_SUCH_FLOW);
    CHECK(fault.flow == 1 && fault.link == 5);
    CHECK(p2p_allocate_routes(weights, 3, hops, 1, caps, 1, rates, 4, &fault) == P2P_NO_WEIGHT);
    CHECK(fault.flow == 2 && fault.link == 0);
    const uint64_t heavy[] = {3, 1, 1, UINT64_MAX};
    const p2p_hop both[] = {{0, 0}, {3, 0}};
    CHECK(p2p_allocate_routes(heavy, 4, both, 2, caps, 1, rates, 4, &fault) == P2P_TOO_MUCH_WEIGHT);
    CHECK(fault.flow == 0 && fault.link == 0 && rates[0].is_limited == 7);
}

static void a_script_prints_what_linkrun_prints(void) {
    static const char script[] = "egress 1 50000\ningress 2 1000\nflow 1 1 2 1\nflow 2 1 3 1\nrates\nrates 7\n";
    static const char wanted[] = "rate 1 1000/1\nrate 2 49000/1\n";
    uint8_t out[100];
    size_t printed;
    uint64_t bad_line;
    CHECK(p2p_run((const uint8_t *)script, strlen(script), out, sizeof out, &printed, &bad_line) == 2);
    CHECK(bad_line == 6 && printed == strlen(wanted) && memcmp(out, wanted, printed) == 0);
    CHECK(p2p_run((const uint8_t *)script, strlen(script), out, 0, &printed, &bad_line) == 2 && printed == strlen(wanted));
    CHECK(p2p_run((const uint8_t *)script, 15, out, sizeof out, &printed, &bad_line) == 0 && printed == 0 && bad_line == 0);
}

int main(void) {
    a_handle_is_safe_whatever_its_state();
    two_messages_share_a_cap();
    caps_hold_where_they_were_set();
    completions_are_read_in_their_order();
    a_dropped_message_does_not_arrive();
    a_refused_call_changes_nothing();
    a_turn_is_told();
    many_messages_go_by_one_call();
    what_is_in_flight_is_told();
    amounts_are_as_long_as_they_are();
    rates_are_max_min_fair();
    a_rate_that_is_no_fraction_is_refused();
    routes_are_shared_by_weight();
    routes_that_are_none_are_told();
    a_script_prints_what_linkrun_prints();
    if (failures == 0) puts("c: calls as the header says");
    return failures != 0;
}
