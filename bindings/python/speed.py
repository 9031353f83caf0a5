"""Calls a second: messages under a cap, one after another."""

import time

from p2p_simulated import State

MESSAGES = 50_000

with State() as state:
    state.limit(0, 1, egress=1000)
    start, now = time.perf_counter(), 0
    for _ in range(MESSAGES):
        state.enqueue_zeros(now, 1, 2, 3, 1000)
        now = state.next()
        state.advance(now)
    print(f"python: {3 * MESSAGES / (time.perf_counter() - start):.0f} calls a second")
