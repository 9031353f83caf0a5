"""The planner: who sends how fast."""

from __future__ import annotations

from ctypes import byref
from fractions import Fraction
from typing import Any, Dict, Hashable, Iterable, List, Mapping, NamedTuple, Optional, Tuple

from ._library import _Flow, _LinkCap, _PeerCap, _Rate, _Wide, _array, _check, _flag, _fraction, _lib, _number, _value


class Flow(NamedTuple):
    """Something that goes from one peer to another.  Of flows with one id the last one's rate is answered."""

    id: int
    origin: Hashable
    recipient: Hashable
    delivered: bool = True


Rates = Dict[int, Optional[Fraction]]


def allocate(
    flows: Iterable[Flow],
    egress: Optional[Mapping[Any, int]] = None,
    ingress: Optional[Mapping[Any, int]] = None,
    links: Optional[Mapping[Tuple[Any, Any], int]] = None,
) -> Rates:
    """The max-min fair rate of each flow, by its id, in bytes a second; None where no cap holds.

    Caps are by peer, `links` by pairs of peers; who is not in a mapping has no cap.  Peers are any
    values that can be keys of a dict.
    """
    return allocate_counted(flows, egress, ingress, links)[0]


def allocate_counted(
    flows: Iterable[Flow],
    egress: Optional[Mapping[Any, int]] = None,
    ingress: Optional[Mapping[Any, int]] = None,
    links: Optional[Mapping[Tuple[Any, Any], int]] = None,
) -> Tuple[Rates, int]:
    """As `allocate`, with the number of rounds of filling: how many different finite rates there are."""
    numbers: Dict[Hashable, int] = {}

    def number_of(peer: Hashable) -> int:
        return numbers.setdefault(peer, len(numbers))

    listed = []
    for flow in map(Flow._make, flows):
        ends = number_of(flow.origin), number_of(flow.recipient)
        listed.append(_Flow(_number(flow.id, "id"), *ends, _flag(flow.delivered, "delivered")))
    peer_caps = [
        [_PeerCap(number_of(peer), _wide(cap, f"the {word} cap of {peer!r}")) for peer, cap in (caps or {}).items()]
        for word, caps in (("egress", egress), ("ingress", ingress))
    ]
    link_caps = [
        _LinkCap(number_of(origin), number_of(recipient), _wide(cap, f"the cap from {origin!r} to {recipient!r}"))
        for (origin, recipient), cap in (links or {}).items()
    ]
    lists = [_array(_Flow, listed), *(_array(_PeerCap, caps) for caps in peer_caps), _array(_LinkCap, link_caps)]
    lengths = [len(listed), *map(len, peer_caps), len(link_caps)]
    rates, rounds = (_Rate * max(1, len(listed)))(), _Wide()
    _check(_lib.p2p_allocate(*(it for pair in zip(lists, lengths) for it in pair), rates, len(listed), byref(rounds)))
    return {flow.id: _rate(rate) for flow, rate in zip(listed, rates)}, _value(rounds)


def _wide(value: int, name: str) -> _Wide:
    value = _number(value, name, 128)
    return _Wide(value & (1 << 64) - 1, value >> 64)


def _rate(rate: _Rate) -> Optional[Fraction]:
    return _fraction(rate) if rate.is_limited else None
