"""The scheduler: when each message arrives."""

from __future__ import annotations

import threading
from ctypes import byref, c_size_t, c_uint64
from fractions import Fraction
from typing import Any, Dict, Iterable, List, NamedTuple, Optional, Tuple

from ._library import EVENT_DUE, GONE_BY, MomentTooLate, OutOfTurn, UnknownPeer
from ._library import _array, _check, _flag, _fraction, _lib, _number, _value
from ._library import _Cap, _Done, _Flight, _Moment, _Parcel, _Scheduler, _Wide

_LAST_MOMENT = (1 << 64) - 1
_AT_ONCE = 64  # so many completions are read by one call


class Completion(NamedTuple):
    """What became of a message.

    It arrives at `deliver_at` nanoseconds, or never: None.  All of it was sent at `done_at` nanoseconds, also where it
    is dropped.
    """

    origin: Any
    recipient: Any
    channel: int
    message: Any
    deliver_at: Optional[int]
    done_at: int


class Outgoing(NamedTuple):
    """A message to send with others, by `State.enqueue_all`: the arguments of `State.enqueue`."""

    origin: Any
    recipient: Any
    channel: int
    message: Any
    latency: int = 0
    should_deliver: bool = True
    length: Optional[int] = None


class InFlight(NamedTuple):
    """A message in flight.  `left` bytes were left of it at `since`, and since then it goes at `rate`.

    Where an amount is no fraction of two numbers below 2**128, it is rounded down to a whole number, and
    `is_exact` is false.
    """

    origin: Any
    recipient: Any
    channel: int
    message: Any
    left: Fraction
    rate: Fraction
    since: int
    is_exact: bool


class Zeros:
    """A message that is known by its length alone."""

    __slots__ = ("length",)

    def __init__(self, length: int) -> None:
        self.length = _number(length, "length")

    def __bytes__(self) -> bytes:
        return bytes(self.length)

    def __eq__(self, other: object) -> bool:
        return isinstance(other, Zeros) and self.length == other.length

    def __hash__(self) -> int:
        return hash((Zeros, self.length))

    def __repr__(self) -> str:
        return f"Zeros({self.length})"


class _Keep:
    def __repr__(self) -> str:
        return "KEEP"


KEEP: Any = _Keep()  # a cap that stays as it is


def _cap(value: Optional[int], name: str) -> _Cap:
    return _Cap(0, 0) if value is None else _Cap(_number(value, name), 1)


def _length(message: Any, length: Optional[int]) -> int:
    """How many bytes a message has."""
    if length is not None:
        return _number(length, "length")
    if isinstance(message, Zeros):
        return message.length
    if isinstance(message, str):
        raise TypeError("the message is a text: encode it, or say its length=")
    if isinstance(message, memoryview):
        return message.nbytes
    try:
        return len(message)
    except TypeError:
        raise TypeError(f"the message has no len, so its length= has to be said: {message!r}") from None


class State:
    """A scheduler of messages between capped peers: it tells when each is done and when it arrives.

    It has no clock.  Each call but `next` says its moment, in nanoseconds since the start, and
    answers what completes, in order.  Let time go on to a moment by `advance` first, and then set
    caps and send messages at it.  Caps are in bytes a second, and None is no cap.

    Peers are whole numbers, or those of a list of any ordered type: `State(["lima", "oslo"])`.

    A strict scheduler, as it is from the start, refuses a call out of turn with OutOfTurn: one that
    goes back in time, or that sets caps or sends where an event is due.  With `strict=False` such a
    call is made, by the rule from event to event, and no longer does what the simulation does.  And
    a strict one refuses at once what could only arrive past the last moment, 2**64 - 1.  Else that
    message is refused when it would be done, and with it each call that comes to that moment.

    A call that is refused raises MemoryError or a subclass of Refused, and leaves the scheduler as
    it was.  Calls from several threads take turns.
    """

    def __init__(self, peers: Optional[Iterable[Any]] = None, *, strict: bool = True, first_id: int = 0) -> None:
        self._peers: Optional[List[Any]] = None
        self._places: Dict[Any, int] = {}
        if peers is not None:
            self._peers = sorted(set(peers))
            self._places = {peer: place for place, peer in enumerate(self._peers)}
        self._strict = _flag(strict, "strict")
        self._caps: Dict[int, Tuple[Optional[int], Optional[int]]] = {}
        self._held: Dict[int, Tuple[Any, ...]] = {}  # by number
        self._sent = 0
        self._handle, self._count, self._moment, self._way = _Scheduler(), c_size_t(), _Moment(), c_uint64()
        self._records = (_Done * _AT_ONCE)()
        self._at, self._count_at, self._moment_at = byref(self._handle), byref(self._count), byref(self._moment)
        self._way_at = byref(self._way)
        self._turn = threading.Lock()
        _check(_lib.p2p_open(self._at, _number(first_id, "first_id")))

    def close(self) -> None:
        """Frees the scheduler.  Closing twice does nothing."""
        with self._turn:
            _lib.p2p_close(self._at)
            self._held.clear()

    def __enter__(self) -> State:
        return self

    def __exit__(self, *_: object) -> None:
        self.close()

    def __del__(self) -> None:
        if hasattr(self, "_turn") and _lib is not None:
            _lib.p2p_close(byref(self._handle))

    def __reduce__(self) -> Any:
        raise TypeError("a State can neither be copied nor pickled")

    def limit(self, now: int, peer: Any, egress: Any = KEEP, ingress: Any = KEEP) -> List[Completion]:
        """Sets what a peer may send and what it may receive in all, from `now` on.

        A cap that is not named stays as it is, and None takes it away.
        """
        now, number = _number(now, "now"), self._number(peer, "peer")
        with self._turn:
            before = self._caps.get(number, (None, None))
            caps = before[0] if egress is KEEP else egress, before[1] if ingress is KEEP else ingress
            done = self._call(_lib.p2p_limit, now, True, number, _cap(caps[0], "egress"), _cap(caps[1], "ingress"))
            self._caps[number] = caps
            return done

    def limit_link(self, now: int, origin: Any, recipient: Any, cap: Optional[int]) -> List[Completion]:
        """Sets what may go from one peer to another, from `now` on.  None takes the cap away."""
        ends = self._number(origin, "origin"), self._number(recipient, "recipient")
        now, most = _number(now, "now"), _cap(cap, "cap")
        with self._turn:
            return self._call(_lib.p2p_limit_link, now, True, *ends, most)

    def enqueue(
        self,
        now: int,
        origin: Any,
        recipient: Any,
        channel: int,
        message: Any,
        latency: int = 0,
        should_deliver: bool = True,
        *,
        length: Optional[int] = None,
    ) -> List[Completion]:
        """Sends a message.  Where `should_deliver` is false it is dropped on the way.

        The message is any object, which comes back in its completion and is not copied.  It is as
        long as its `len` says, or `length`.
        """
        now, latency, wanted = _number(now, "now"), _number(latency, "latency"), _flag(should_deliver, "should_deliver")
        if self._strict and wanted and now + latency > _LAST_MOMENT:
            raise MomentTooLate("moment too late")
        ends = self._number(origin, "origin"), self._number(recipient, "recipient")
        held, octets = (origin, recipient, _number(channel, "channel"), message), _length(message, length)
        with self._turn:
            number = self._sent
            self._sent = number + 1
            self._held[number] = held
            try:
                return self._call(_lib.p2p_enqueue_zeros, now, True, *ends, number, octets, latency, wanted)
            except BaseException:
                self._held.pop(number, None)
                raise

    def enqueue_all(self, now: int, messages: Iterable[Any]) -> List[Completion]:
        """Sends messages one after another, as a whole or not at all, in far less time than one by one.

        Each is an Outgoing, or a tuple of the same.  Where `enqueue` would refuse one of them, none is sent.
        """
        now, parcels, held = _number(now, "now"), [], []
        for one in messages:
            parcel, kept = self._parcel(now, *one)
            parcels.append(parcel)
            held.append(kept)
        list_of_all = _array(_Parcel, parcels)
        with self._turn:
            first = self._sent
            self._sent = first + len(held)
            for place, kept in enumerate(held):
                list_of_all[place].channel = first + place
                self._held[first + place] = kept
            try:
                return self._call(_lib.p2p_enqueue_all, now, True, list_of_all, len(held), b"", 0)
            except BaseException:
                for number in range(first, first + len(held)):
                    self._held.pop(number, None)
                raise

    def _parcel(
        self,
        now: int,
        origin: Any,
        recipient: Any,
        channel: int,
        message: Any,
        latency: int = 0,
        should_deliver: bool = True,
        length: Optional[int] = None,
    ) -> Tuple[_Parcel, Tuple[Any, ...]]:
        """What the library is told of a message of a list, and what is kept of it."""
        latency, wanted = _number(latency, "latency"), _flag(should_deliver, "should_deliver")
        if self._strict and wanted and now + latency > _LAST_MOMENT:
            raise MomentTooLate("moment too late")
        ends = self._number(origin, "origin"), self._number(recipient, "recipient")
        parcel = _Parcel(*ends, 0, 0, _length(message, length), latency, wanted)
        return parcel, (origin, recipient, _number(channel, "channel"), message)

    def enqueue_zeros(
        self,
        now: int,
        origin: Any,
        recipient: Any,
        channel: int,
        length: int,
        latency: int = 0,
        should_deliver: bool = True,
    ) -> List[Completion]:
        """Sends a message that is known by its length alone."""
        return self.enqueue(now, origin, recipient, channel, Zeros(length), latency, should_deliver)

    def advance(self, now: int) -> List[Completion]:
        """Lets time go on to `now`, and answers what completes up to then and at it, in order."""
        now = _number(now, "now")
        with self._turn:
            return self._call(_lib.p2p_advance, now, False)

    def advance_counted(self, now: int) -> Tuple[List[Completion], int]:
        """As `advance`, with the number of events on the way: finishes and starts of messages."""
        now, events = _number(now, "now"), _Wide()

        def advance(handle: Any, now: int, count: Any) -> int:
            return _lib.p2p_advance_counted(handle, now, count, byref(events))

        with self._turn:
            return self._call(advance, now, False), _value(events)

    def next(self) -> Optional[int]:
        """The moment of the next event, unless a cap changes or a message is sent before."""
        with self._turn:
            return self._next()

    def in_turn(self, now: int, acts: bool = True) -> bool:
        """Whether a call at `now` would come in its turn; `acts` says whether it sets caps or sends."""
        now, acts = _number(now, "now"), _flag(acts, "acts")
        with self._turn:
            status = _lib.p2p_in_turn(self._at, now, acts, self._way_at)
        if status not in (GONE_BY, EVENT_DUE):
            _check(status)
        return status == 0

    def in_flight(self) -> List[InFlight]:
        """What is in flight, in order of start.  At most one message of each ordered pair is."""
        with self._turn:
            room = _AT_ONCE
            while True:
                flights = (_Flight * room)()
                _check(_lib.p2p_in_flight(self._at, flights, room, self._count_at))
                if self._count.value <= room:
                    break
                room = self._count.value
            return [self._flight(it, self._held[it.channel]) for it in flights[: self._count.value]]

    @staticmethod
    def _flight(it: _Flight, held: Tuple[Any, ...]) -> InFlight:
        is_exact = bool(it.left.is_exact and it.rate.is_exact)
        return InFlight(*held, _fraction(it.left), _fraction(it.rate), it.since, is_exact)

    def rated_anew(self) -> int:
        """How many messages in flight got their rate anew when rates were last given: a count of work."""
        with self._turn:
            _check(_lib.p2p_next(self._at, self._moment_at))  # a closed one says so
            return _lib.p2p_rated_anew(self._at)

    def _number(self, peer: Any, name: str) -> int:
        """The number of a peer: itself, or its place in the list."""
        if self._peers is None:
            return _number(peer, name)
        try:
            return self._places[peer]
        except KeyError:
            raise UnknownPeer(f"{name} is none of the peers: {peer!r}") from None

    def _call(self, function: Any, now: int, acts: bool, *arguments: Any) -> List[Completion]:
        """Makes a call in its turn, and answers what it completed."""
        if self._strict:
            status = _lib.p2p_in_turn(self._at, now, acts, self._way_at)
            if status in (GONE_BY, EVENT_DUE):
                due = self._way.value if status == EVENT_DUE else None
                # what would go back to moment 0 is told the moment of the last call
                back = _lib.p2p_in_turn(self._at, 0, False, self._way_at) == GONE_BY
                raise OutOfTurn(self._way.value if back else 0, due)
            _check(status)
        _check(function(self._at, now, *arguments, self._count_at))
        return self._completions(self._count.value) if self._count.value else []

    def _next(self) -> Optional[int]:
        _check(_lib.p2p_next(self._at, self._moment_at))
        return self._moment.at if self._moment.is_some else None

    def _completions(self, count: int) -> List[Completion]:
        found: List[Completion] = []
        while len(found) < count:
            many = _lib.p2p_completions(self._at, len(found), self._records, _AT_ONCE)
            for record in self._records[:many]:
                held, at = self._held.pop(record.channel), record.deliver_at
                arrives = at.at if at.is_some else None
                found.append(Completion(*held, arrives, record.done_at))
        return found


def arrivals(completions: Iterable[Completion]) -> Dict[str, List[Any]]:
    """A table of completions, a list for each column, as `pandas.DataFrame(arrivals(done))` takes it.

    Of a dropped message `deliver_at` is None, and `length` is what `len` says of it, or None.
    """
    rows = list(completions)
    columns = ("origin", "recipient", "channel", "deliver_at", "done_at")
    table = {name: [getattr(row, name) for row in rows] for name in columns}
    sized = [hasattr(row.message, "__len__") or isinstance(row.message, Zeros) for row in rows]
    table["length"] = [_length(row.message, None) if is_sized else None for row, is_sized in zip(rows, sized)]
    return table
