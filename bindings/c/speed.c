/* Calls a second through the interface: messages under a cap, one after another. And how long a block takes to many
 * peers, on its way in by one call, and out. */
#include "p2p_simulated.h"

#include <stdio.h>
#include <time.h>

static double seconds(void) {
    struct timespec now;
    timespec_get(&now, TIME_UTC);
    return (double)now.tv_sec + 1e-9 * (double)now.tv_nsec;
}

static int one_after_another(void) {
    enum { MESSAGES = 200000 };
    p2p_scheduler s = P2P_SCHEDULER_INIT;
    p2p_moment next;
    size_t count, completed = 0;
    uint64_t now = 0;
    if (p2p_open(&s, 0) != P2P_OK || p2p_limit(&s, 0, 1, p2p_bytes(1000), p2p_no_cap(), &count) != P2P_OK) return 1;
    double from = seconds();
    for (long i = 0; i < MESSAGES; i++) {
        if (p2p_enqueue_zeros(&s, now, 1, 2, 3, 1000, 0, 1, &count) != P2P_OK) return 1;
        if (p2p_next(&s, &next) != P2P_OK) return 1;
        now = next.at;
        if (p2p_advance(&s, now, &count) != P2P_OK) return 1;
        completed += count;
    }
    printf("c: %.0f calls a second (%zu messages)\n", 3.0 * MESSAGES / (seconds() - from), completed);
    p2p_close(&s);
    return completed != MESSAGES;
}

static int a_block_to_many(void) {
    enum { PEERS = 100, TURNS = 20 };
    p2p_scheduler s = P2P_SCHEDULER_INIT;
    p2p_parcel parcels[PEERS];
    p2p_done done[PEERS];
    p2p_moment next;
    const uint8_t none = 0;
    size_t count, completed = 0;
    uint64_t now = 0;
    double in = 0, out = 0;
    if (p2p_open(&s, 0) != P2P_OK) return 1;
    for (uint64_t peer = 0; peer <= PEERS; peer++) {
        if (p2p_limit(&s, 0, peer, p2p_bytes(100000000), p2p_bytes(100000000), &count) != P2P_OK) return 1;
        if (peer > 0) parcels[peer - 1] = (p2p_parcel){0, peer, peer, 0, 1000000, 0, 1};
    }
    for (int turn = 0; turn < TURNS; turn++) {
        double from = seconds();
        if (p2p_enqueue_all(&s, now, parcels, PEERS, &none, 0, &count) != P2P_OK) return 1;
        double sent = seconds();
        while (p2p_next(&s, &next) == P2P_OK && next.is_some) {
            now = next.at;
            if (p2p_advance(&s, now, &count) != P2P_OK) return 1;
            completed += p2p_completions(&s, 0, done, PEERS);
        }
        in += sent - from;
        out += seconds() - sent;
    }
    printf("c: a block of 1 MB to 100 peers takes %.3f ms in and %.3f ms out\n", 1000 * in / TURNS, 1000 * out / TURNS);
    p2p_close(&s);
    return completed != PEERS * TURNS;
}

int main(void) { return one_after_another() || a_block_to_many(); }
