"""A simulated link scheduler, and the max-min fair rates behind it.

The library behind this package is proved: every function of it meets its contract.  What it is owed
at the boundary is upheld here: each number is in its range before it crosses, each pointer goes
with its length, and one call at a time uses a scheduler.

>>> with State() as state:
...     _ = state.limit(0, 1, egress=1000)
...     _ = state.enqueue(0, 1, 2, 7, b"x" * 500, latency=1_000_000)
...     state.next()
...     state.advance(500_000_000)[0].deliver_at
500000000
501000000
>>> allocate([Flow(1, "a", "b"), Flow(2, "a", "c")], egress={"a": 50000}, ingress={"b": 1000})
{1: Fraction(1000, 1), 2: Fraction(49000, 1)}
"""

from ._library import BadLine, Closed, FlowIdsUsedUp, MomentTooLate, NumberTooLarge, OutOfTurn, Refused, UnknownPeer
from ._planner import Flow, Rates, allocate, allocate_counted
from ._routes import allocate_routes
from ._scheduler import KEEP, Completion, InFlight, Outgoing, State, Zeros, arrivals
from ._scripts import run

__version__ = "0.1.0"

__all__ = [
    "KEEP",
    "BadLine",
    "Closed",
    "Completion",
    "Flow",
    "FlowIdsUsedUp",
    "InFlight",
    "MomentTooLate",
    "NumberTooLarge",
    "OutOfTurn",
    "Outgoing",
    "Rates",
    "Refused",
    "State",
    "UnknownPeer",
    "Zeros",
    "allocate",
    "allocate_counted",
    "allocate_routes",
    "arrivals",
    "run",
]
