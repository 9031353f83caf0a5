/* A scheduler for each of four threads, and one that is handed from thread to thread. */
#include "p2p_simulated.h"

#include <pthread.h>
#include <stdio.h>

static void *run(void *own) {
    p2p_scheduler *s = own;
    uintptr_t wrong = 0;
    size_t count;
    p2p_moment next;
    if (p2p_next(s, &next) != P2P_OK) return (void *)1;
    uint64_t now = next.is_some ? next.at : 0;
    for (int turn = 0; turn < 500; turn++) {
        wrong += p2p_enqueue_zeros(s, now, 1, 2, 3, 1000, 0, 1, &count) != P2P_OK;
        now += 1000000000;
        wrong += p2p_advance(s, now, &count) != P2P_OK || count != 1;
    }
    return (void *)wrong;
}

int main(void) {
    enum { MANY = 4 };
    p2p_scheduler own[MANY] = {P2P_SCHEDULER_INIT, P2P_SCHEDULER_INIT, P2P_SCHEDULER_INIT, P2P_SCHEDULER_INIT};
    pthread_t threads[MANY];
    uintptr_t wrong = 0;
    size_t count;
    void *answer;
    for (int i = 0; i < MANY; i++) wrong += p2p_open(&own[i], 0) != P2P_OK || p2p_limit(&own[i], 0, 1, p2p_bytes(1000), p2p_no_cap(), &count) != P2P_OK;
    for (int i = 0; i < MANY; i++) wrong += pthread_create(&threads[i], NULL, run, &own[i]) != 0;
    for (int i = 0; i < MANY; i++) {
        wrong += pthread_join(threads[i], &answer) != 0;
        wrong += (uintptr_t)answer;
        p2p_close(&own[i]);
    }
    if (wrong == 0) puts("c: a scheduler in each of four threads");
    return wrong != 0;
}
