"""A network in asyncio: a task waits for its message, in real time.

    net = Network()
    net.limit(1, egress=1000)
    done = await net.send(1, 2, b"x" * 500)
"""

from __future__ import annotations

import asyncio
from typing import Any, Callable, Optional

from . import _network
from ._scheduler import Completion, State


class Network(_network.Network):
    """A network on the clock of the running loop.  It goes `speed` times as fast as the clock."""

    def __init__(self, state: Optional[State] = None, speed: float = 1.0) -> None:
        super().__init__(state)
        self._loop = asyncio.get_running_loop()
        self._start = self._loop.time()
        self._nanoseconds = 1e9 * speed

    def _now(self) -> int:
        return round((self._loop.time() - self._start) * self._nanoseconds)

    def _at(self, moment: int, action: Callable[[], Any]) -> None:
        self._loop.call_at(self._start + moment / self._nanoseconds, action)

    def _event(self) -> Any:
        return self._loop.create_future()

    def _fire(self, event: Any, completion: Completion) -> None:
        if not event.done():
            event.set_result(completion)
