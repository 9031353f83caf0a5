"""A network in SimPy, from 3 on: a process waits for its message.

    net = Network(env)
    net.limit(1, egress=1000)
    done = yield net.send(1, 2, b"x" * 500)
"""

from __future__ import annotations

from typing import Any, Callable, Optional

from . import _network
from ._scheduler import Completion, State


class Network(_network.Network):
    """A network on the clock of a SimPy environment, of whose time one unit is `unit` nanoseconds.

    Where the clock counts whole nanoseconds (`unit=1`), it is exact.  Else moments are rounded to
    what a float tells.
    """

    def __init__(self, env: Any, state: Optional[State] = None, unit: int = 1_000_000_000) -> None:
        super().__init__(state)
        self.env = env
        self.unit = unit

    def _now(self) -> int:
        return round(self.env.now * self.unit)

    def _at(self, moment: int, action: Callable[[], Any]) -> None:
        wait = max(0, moment - self._now())
        timeout = self.env.timeout(wait if self.unit == 1 else wait / self.unit)
        timeout.callbacks.append(lambda _: action())

    def _event(self) -> Any:
        return self.env.event()

    def _fire(self, event: Any, completion: Completion) -> None:
        event.succeed(completion)
