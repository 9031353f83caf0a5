"""The shared library: why it refuses, and the declarations of bindings/c/p2p_simulated.h."""

from __future__ import annotations

import ctypes
import operator
import os
from ctypes import POINTER, Structure, c_char_p, c_size_t, c_uint8, c_uint32, c_uint64, c_void_p
from fractions import Fraction
from pathlib import Path
from typing import Any, List, Optional


class Refused(Exception):
    """A call was refused.  The scheduler is as it was."""


class NumberTooLarge(Refused):
    """A rate is no fraction of two numbers below 2**128.  Only `allocate` says it."""


class MomentTooLate(Refused):
    """A message would arrive past the last moment, 2**64 - 1 nanoseconds."""


class FlowIdsUsedUp(Refused):
    """A message would start, and no flow id is left for it."""


class Closed(Refused):
    """The scheduler is closed."""


class UnknownPeer(Refused):
    """The peer is none of those that the scheduler was made with."""


class OutOfTurn(Refused):
    """The call goes back in time, or sets caps or sends where an event is due.

    `due` is the moment of that event, and `last` that of the last call that was made.
    """

    def __init__(self, last: int, due: Optional[int]) -> None:
        why = f"the last call was at {last}" if due is None else f"an event is due at {due}"
        super().__init__(f"out of turn: {why}")
        self.last = last
        self.due = due


class BadLine(Exception):
    """A line is not of the language of scripts.  `printed` is what the lines before it print."""

    def __init__(self, number: int, printed: str) -> None:
        super().__init__(f"bad line {number}")
        self.number = number
        self.printed = printed


# ---- the declarations of bindings/c/p2p_simulated.h


class _Scheduler(Structure):
    _fields_ = [("place", c_void_p), ("is_open", c_uint8)]


class _Cap(Structure):
    _fields_ = [("bytes", c_size_t), ("is_some", c_uint8)]


class _Moment(Structure):
    _fields_ = [("at", c_uint64), ("is_some", c_uint8)]


class _Wide(Structure):
    _fields_ = [("low", c_uint64), ("high", c_uint64)]


class _Parcel(Structure):
    _fields_ = [
        ("origin", c_uint64),
        ("recipient", c_uint64),
        ("channel", c_uint64),
        ("start", c_size_t),
        ("length", c_size_t),
        ("latency", c_uint64),
        ("should_deliver", c_uint8),
    ]


class _Amount(Structure):
    _fields_ = [("numerator", _Wide), ("denominator", _Wide), ("is_exact", c_uint8)]


class _Flight(Structure):
    _fields_ = [
        ("origin", c_uint64),
        ("recipient", c_uint64),
        ("channel", c_uint64),
        ("left", _Amount),
        ("rate", _Amount),
        ("since", c_uint64),
    ]


class _Done(Structure):
    _fields_ = [
        ("origin", c_uint64),
        ("recipient", c_uint64),
        ("channel", c_uint64),
        ("length", c_size_t),
        ("done_at", c_uint64),
        ("deliver_at", _Moment),
    ]


class _Flow(Structure):
    _fields_ = [("id", c_uint64), ("origin", c_uint64), ("recipient", c_uint64), ("delivered", c_uint8)]


class _PeerCap(Structure):
    _fields_ = [("peer", c_uint64), ("cap", _Wide)]


class _LinkCap(Structure):
    _fields_ = [("origin", c_uint64), ("recipient", c_uint64), ("cap", _Wide)]


class _Rate(Structure):
    _fields_ = [("numerator", _Wide), ("denominator", _Wide), ("is_limited", c_uint8)]


class _Hop(Structure):
    _fields_ = [("flow", c_size_t), ("link", c_size_t)]


class _RouteCap(Structure):
    _fields_ = [("bytes", _Wide), ("is_some", c_uint8)]


_SIZES = {_Scheduler: 16, _Cap: 16, _Moment: 16, _Wide: 16, _Done: 56, _Flow: 32, _PeerCap: 24, _LinkCap: 32, _Rate: 40}
_SIZES.update({_Parcel: 56, _Amount: 40, _Flight: 112})
_SIZES.update({_Hop: 16, _RouteCap: 24})
for _struct, _size in _SIZES.items():
    if ctypes.sizeof(_struct) != _size:
        raise ImportError(f"{_struct.__name__} is not of {_size} bytes on this machine")


def _load() -> ctypes.CDLL:
    named = os.environ.get("P2P_SIMULATED_SO")
    places = [Path(named)] if named else [
        Path(__file__).resolve().parent / "libp2p_simulated.so",
        Path(__file__).resolve().parents[3] / "bin" / "bindings" / "libp2p_simulated.so",
    ]
    for place in places:
        if place.exists():
            return ctypes.CDLL(str(place))
    raise ImportError(f"{places[-1]} is not there: run `make bindings` first, or set P2P_SIMULATED_SO")


_lib = _load()
_handle, _size_out, _u64 = POINTER(_Scheduler), POINTER(c_size_t), c_uint64


def _declare(name: str, result: Any, *arguments: Any) -> None:
    function = getattr(_lib, name)
    function.restype, function.argtypes = result, list(arguments)


_declare("p2p_open", c_uint32, _handle, _u64)
_declare("p2p_close", None, _handle)
_declare("p2p_limit", c_uint32, _handle, _u64, _u64, _Cap, _Cap, _size_out)
_declare("p2p_limit_link", c_uint32, _handle, _u64, _u64, _u64, _Cap, _size_out)
_declare("p2p_enqueue_zeros", c_uint32, _handle, _u64, _u64, _u64, _u64, c_size_t, _u64, c_uint8, _size_out)
_declare("p2p_enqueue_all", c_uint32, _handle, _u64, POINTER(_Parcel), c_size_t, c_char_p, c_size_t, _size_out)
_declare("p2p_advance", c_uint32, _handle, _u64, _size_out)
_declare("p2p_advance_counted", c_uint32, _handle, _u64, _size_out, POINTER(_Wide))
_declare("p2p_next", c_uint32, _handle, POINTER(_Moment))
_declare("p2p_in_turn", c_uint32, _handle, _u64, c_uint8, POINTER(c_uint64))
_declare("p2p_in_flight", c_uint32, _handle, POINTER(_Flight), c_size_t, _size_out)
_declare("p2p_rated_anew", c_size_t, _handle)
_declare("p2p_completions", c_size_t, _handle, c_size_t, POINTER(_Done), c_size_t)
_declare(
    "p2p_allocate",
    c_uint32,
    POINTER(_Flow),
    c_size_t,
    POINTER(_PeerCap),
    c_size_t,
    POINTER(_PeerCap),
    c_size_t,
    POINTER(_LinkCap),
    c_size_t,
    POINTER(_Rate),
    c_size_t,
    POINTER(_Wide),
)
_declare(
    "p2p_allocate_routes",
    c_uint32,
    POINTER(c_uint64),
    c_size_t,
    POINTER(_Hop),
    c_size_t,
    POINTER(_RouteCap),
    c_size_t,
    POINTER(_Rate),
    c_size_t,
    POINTER(_Hop),
)
_declare("p2p_run", c_uint32, c_char_p, c_size_t, c_void_p, c_size_t, _size_out, POINTER(c_uint64))

GONE_BY, EVENT_DUE = 6, 7  # why a call would not be in its turn

_REFUSALS = {
    2: NumberTooLarge("number too large"),
    3: MomentTooLate("moment too late"),
    4: FlowIdsUsedUp("flow ids used up"),
    5: Closed("the scheduler is closed"),
}


def _check(status: int) -> None:
    if status == 1:
        raise MemoryError("out of memory")
    if status != 0:
        refusal = _REFUSALS[status]
        raise type(refusal)(*refusal.args)


def _number(value: Any, name: str, bits: int = 64) -> int:
    """The number, which has to be in its range: what crosses is not cut in silence."""
    if type(value) is not int:
        if isinstance(value, bool) or getattr(getattr(value, "dtype", None), "kind", "") == "b":
            raise TypeError(f"{name} has to be a whole number, and is {value!r}")
        try:
            value = operator.index(value)
        except TypeError:
            raise TypeError(f"{name} has to be a whole number, and is {value!r}") from None
    if not 0 <= value < 1 << bits:
        raise OverflowError(f"{name} has to be from 0 to 2**{bits} - 1, and is {value}")
    return value


def _flag(value: Any, name: str) -> bool:
    """A bool, also one of numpy's."""
    if not isinstance(value, bool) and getattr(getattr(value, "dtype", None), "kind", "") != "b":
        raise TypeError(f"{name} has to be a bool, and is {value!r}")
    return bool(value)


def _value(wide: _Wide) -> int:
    return wide.low + (wide.high << 64)


def _fraction(amount: Any) -> Fraction:
    return Fraction(_value(amount.numerator), _value(amount.denominator))


def _array(kind: Any, items: List[Any]) -> Any:
    """An array of the items.  One of none has room for one, so that there is a pointer to it."""
    return (kind * max(1, len(items)))(*items)
