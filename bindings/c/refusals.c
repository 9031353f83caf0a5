/* Each allocation of each call is refused in turn: the call says so, the scheduler is as it was, and
 * the call then goes through. At the end all memory is given back. And zero bytes take none of their own. */
#include "p2p_simulated.h"

#include <stdio.h>
#include <string.h>

extern long p2p_test_until_refusal, p2p_test_blocks; /* of refusing_heap.c */
extern size_t p2p_test_largest;

static p2p_scheduler s = P2P_SCHEDULER_INIT;
static long refusals;

/* Makes the call with its first allocation refused, then with its second, and so on until it goes
 * through. A refused one leaves the next event, the moment of the last call and what is kept of
 * completions as they were. */
#define EACH(call)                                                                                          \
    for (long n = 0;; n++) {                                                                                \
        p2p_moment before, after;                                                                           \
        uint64_t last = 0, still = 0;                                                                       \
        p2p_done kept[64];                                                                                  \
        size_t many = p2p_completions(&s, 0, kept, 64);                                                     \
        p2p_next(&s, &before);                                                                              \
        p2p_in_turn(&s, 0, 0, &last);                                                                       \
        p2p_test_until_refusal = n;                                                                         \
        uint32_t status = (call);                                                                           \
        p2p_test_until_refusal = -1;                                                                        \
        if (status == P2P_OK) break;                                                                        \
        refusals++;                                                                                         \
        p2p_next(&s, &after);                                                                               \
        p2p_in_turn(&s, 0, 0, &still);                                                                      \
        if (status != P2P_OUT_OF_MEMORY || before.at != after.at || before.is_some != after.is_some ||      \
            last != still || p2p_completions(&s, 0, kept, 64) != many) {                                    \
            fprintf(stderr, "refusals.c:%d: status %u at allocation %ld\n", __LINE__, (unsigned)status, n); \
            return 1;                                                                                       \
        }                                                                                                   \
    }

/* Whether zero bytes take no memory, however many they are, beside bytes or alone, and are read as zeros. */
static int zeros_take_none(void) {
    const p2p_parcel parcels[] = {{1, 2, 7, 0, SIZE_MAX, 0, 1}, {1, 3, 7, 1, SIZE_MAX / 2, 0, 1}};
    const uint8_t few[] = {5, 6}, all[] = {5, 6, 0, 0}, rest[] = {6, 0, 0, 0};
    uint8_t read[4] = {9, 9, 9, 9};
    size_t count, wrong = p2p_open(&s, 0) != P2P_OK;
    p2p_test_largest = 0;
    wrong += p2p_enqueue_all(&s, 0, parcels, 2, few, sizeof few, &count) != P2P_OK || count != 2;
    wrong += p2p_message(&s, 0, 0, read, 4) != 4 || memcmp(read, all, 4) != 0;
    wrong += p2p_message(&s, 1, 0, read, 4) != 4 || memcmp(read, rest, 4) != 0;
    memset(read, 9, sizeof read);
    wrong += p2p_message(&s, 0, SIZE_MAX - 3, read, 4) != 3 || read[0] + read[1] + read[2] != 0 || read[3] != 9;
    wrong += p2p_limit(&s, 0, 1, p2p_bytes(SIZE_MAX), p2p_no_cap(), &count) != P2P_OK;
    for (uint64_t to = 2; to < 8; to++) wrong += p2p_enqueue_zeros(&s, 0, 1, to, 7, SIZE_MAX, 0, 1, &count) != P2P_OK;
    wrong += p2p_advance(&s, 6000000000, &count) != P2P_OK || count != 6;
    wrong += p2p_message(&s, 5, 7, read, 4) != 4 || read[0] + read[1] + read[2] + read[3] != 0;
    p2p_close(&s);
    return wrong == 0 && p2p_test_largest < 100000;
}

int main(void) {
    static uint8_t bytes[100];
    p2p_flight flights[20];
    size_t count, completed = 0, sent = 0;
    uint64_t now = 0;
    EACH(p2p_open(&s, 0));
    for (uint64_t peer = 0; peer < 4; peer++) EACH(p2p_limit(&s, now, peer, p2p_bytes(1000), p2p_bytes(700), &count));
    EACH(p2p_limit_link(&s, now, 0, 1, p2p_bytes(300), &count));
    for (uint64_t turn = 0; turn < 20; turn++) {
        for (uint64_t peer = 0; peer < 4; peer++) {
            EACH(p2p_enqueue(&s, now, peer, (peer + turn) % 4, 7, bytes, sizeof bytes, 5, turn % 5 != 0, &count));
            completed += count;
            EACH(p2p_enqueue_zeros(&s, now, peer, (peer + 1) % 4, 8, 50 + turn, 5, 1, &count));
            completed += count;
            sent += 2;
        }
        p2p_parcel parcels[4];
        for (uint64_t peer = 0; peer < 4; peer++) {
            parcels[peer] = (p2p_parcel){turn % 4, peer, 9, 30 * peer, 40, 5, peer != 1};
        }
        EACH(p2p_enqueue_all(&s, now, parcels, 4, bytes, sizeof bytes, &count));
        completed += count;
        sent += 4;
        EACH(p2p_in_flight(&s, flights, 20, &count));
        now += 50000000;
        EACH(p2p_advance(&s, now, &count));
        completed += count;
    }
    now += 1000000000000;
    EACH(p2p_advance(&s, now, &count));
    completed += count;
    p2p_flow flows[20];
    p2p_peer_cap caps[20];
    p2p_link_cap links[20];
    p2p_rate rates[20];
    p2p_wide rounds;
    for (uint64_t peer = 0; peer < 20; peer++) {
        flows[peer] = (p2p_flow){peer, peer, peer * peer % 20, peer % 3 != 0};
        caps[peer] = (p2p_peer_cap){peer, p2p_number(1000 + peer)};
        links[peer] = (p2p_link_cap){peer, peer * peer % 20, p2p_number(500 + peer)};
    }
    EACH(p2p_allocate(flows, 20, caps, 20, caps, 20, links, 20, rates, 20, &rounds));
    uint64_t weights[20];
    p2p_hop hops[40], fault;
    p2p_route_cap limits[20];
    for (size_t flow = 0; flow < 20; flow++) {
        weights[flow] = 1 + flow % 3;
        hops[2 * flow] = (p2p_hop){flow, flow};
        hops[2 * flow + 1] = (p2p_hop){flow, flow * flow % 20};
        limits[flow] = (p2p_route_cap){p2p_number(1000 + flow), flow % 5 != 0};
    }
    EACH(p2p_allocate_routes(weights, 20, hops, 40, limits, 20, rates, 20, &fault));
    p2p_close(&s);
    static const char script[] = "flow 1 1 2 1\nrates\n";
    uint8_t out[100];
    size_t printed;
    uint64_t bad_line;
    /* a script may go on after a refusal, and never aborts */
    for (p2p_test_until_refusal = 0; p2p_test_until_refusal >= 0;) {
        long n = p2p_test_until_refusal;
        p2p_run((const uint8_t *)script, sizeof script - 1, out, sizeof out, &printed, &bad_line);
        if (p2p_test_until_refusal >= 0) break;
        p2p_test_until_refusal = n + 1;
        refusals++;
    }
    p2p_test_until_refusal = -1;
    if (!zeros_take_none()) {
        fprintf(stderr, "refusals.c: zero bytes take memory, or are not read as zeros\n");
        return 1;
    }
    if (completed != sent || p2p_test_blocks != 0) {
        fprintf(stderr, "refusals.c: %zu of %zu messages completed, %ld blocks were not given back\n", completed, sent,
                p2p_test_blocks);
        return 1;
    }
    printf("c: %ld allocations refused in turn, nothing lost, nothing leaked\n", refusals);
    return 0;
}
