"""The planner over routes: who sends how fast over links that many flows share."""

from __future__ import annotations

from ctypes import byref, c_uint64
from fractions import Fraction
from typing import Any, Dict, Hashable, Iterable, List, Mapping, Optional, Sequence

from ._library import _Hop, _Rate, _RouteCap, _array, _check, _lib, _number
from ._planner import _rate, _wide


def allocate_routes(
    routes: Iterable[Iterable[Hashable]],
    caps: Mapping[Any, int],
    weights: Optional[Sequence[int]] = None,
) -> List[Optional[Fraction]]:
    """The max-min fair rate of each flow over its route, in bytes a second; None where no cap holds.

    A route is the links that a flow uses, in any order; links are any values that can be keys of a dict.
    A link that is not in `caps` has no cap.  A flow of weight w gets what w flows of weight 1 over its
    route get together; without weights all have weight 1.
    """
    numbers: Dict[Hashable, int] = {}
    listed = [[numbers.setdefault(link, len(numbers)) for link in route] for route in routes]
    weighed = [1] * len(listed) if weights is None else [_number(it, "a weight") for it in weights]
    if len(weighed) != len(listed):
        raise ValueError(f"{len(listed)} flows have {len(weighed)} weights")
    if 0 in weighed:
        raise ValueError(f"flow {weighed.index(0)} has weight 0")
    hops = [_Hop(flow, link) for flow, route in enumerate(listed) for link in route]
    limits = [_RouteCap(_wide(caps[link], f"the cap of {link!r}"), 1) if link in caps else _RouteCap() for link in numbers]
    rates, fault = (_Rate * max(1, len(listed)))(), _Hop()
    status = _lib.p2p_allocate_routes(
        (c_uint64 * max(1, len(weighed)))(*weighed),
        len(weighed),
        _array(_Hop, hops),
        len(hops),
        _array(_RouteCap, limits),
        len(limits),
        rates,
        len(listed),
        byref(fault),
    )
    if status == 11:
        raise OverflowError("the flows of a link have a weight of 2**64 or more together")
    _check(status)
    return [_rate(rate) for rate in rates[: len(listed)]]
