/* Two messages under one cap. Peer 1 may send 1000 bytes a second. */
#include "p2p_simulated.h"

#include <inttypes.h>
#include <stdio.h>

static int refused(const char *what, uint32_t status) {
    fprintf(stderr, "%s: status %" PRIu32 "\n", what, status);
    return 1;
}

int main(void) {
    p2p_scheduler scheduler = P2P_SCHEDULER_INIT;
    p2p_moment next;
    size_t count;
    uint32_t status = p2p_open(&scheduler, 0);
    if (status != P2P_OK) return refused("open", status);
    status = p2p_limit(&scheduler, 0, 1, p2p_bytes(1000), p2p_no_cap(), &count);
    if (status == P2P_OK) status = p2p_enqueue_zeros(&scheduler, 0, 1, 2, 7, 1000, 500000000, 1, &count);
    if (status == P2P_OK) status = p2p_enqueue_zeros(&scheduler, 0, 1, 3, 7, 500, 0, 1, &count);
    while (status == P2P_OK && (status = p2p_next(&scheduler, &next)) == P2P_OK && next.is_some) {
        status = p2p_advance(&scheduler, next.at, &count);
        for (size_t i = 0; status == P2P_OK && i < count; i++) {
            p2p_done done;
            p2p_completions(&scheduler, i, &done, 1);
            printf("%zu bytes from %" PRIu64 " to %" PRIu64 " arrive at %" PRIu64 " ns\n", done.length, done.origin, done.recipient, done.deliver_at.at);
        }
    }
    p2p_close(&scheduler);
    return status == P2P_OK ? 0 : refused("call", status);
}
