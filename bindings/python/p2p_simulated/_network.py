"""A network whose messages are waited for, on some clock."""

from __future__ import annotations

from typing import Any, Callable, List, Optional

from ._scheduler import KEEP, Completion, State, _length


class _Sent:
    """A message on its way, with what fires when it arrives."""

    __slots__ = ("message", "event")

    def __init__(self, message: Any, event: Any) -> None:
        self.message = message
        self.event = event


class Network:
    """Peers that send on a clock.  Who sends gets an event that fires when the message arrives.

    Each call first lets the scheduler come to now, so calls are always in turn.
    """

    def __init__(self, state: Optional[State] = None) -> None:
        self.state = State() if state is None else state
        self._last = 0
        self._plans = 0

    def limit(self, peer: Any, egress: Any = KEEP, ingress: Any = KEEP) -> None:
        """Sets caps of a peer from now on.  One that is not named stays as it is, and None takes it away."""
        self._act(lambda now: self.state.limit(now, peer, egress, ingress))

    def limit_link(self, origin: Any, recipient: Any, cap: Optional[int]) -> None:
        """Sets what may go from one peer to another from now on."""
        self._act(lambda now: self.state.limit_link(now, origin, recipient, cap))

    def send(
        self,
        origin: Any,
        recipient: Any,
        message: Any,
        *,
        channel: int = 0,
        latency: int = 0,
        should_deliver: bool = True,
        length: Optional[int] = None,
    ) -> Any:
        """Sends a message now.

        The answer fires with its Completion when it arrives, or, if it is dropped, when it is done.
        """
        event, octets = self._event(), _length(message, length)
        sent = _Sent(message, event)
        rest = sent, latency, should_deliver
        self._act(lambda now: self.state.enqueue(now, origin, recipient, channel, *rest, length=octets))
        return event

    def _act(self, call: Callable[[int], List[Completion]]) -> None:
        self._last = max(self._last, self._now())
        try:
            self._take(self.state.advance(self._last))
            self._take(call(self._last))
        finally:
            self._plan()

    def _take(self, done: List[Completion]) -> None:
        for it in done:
            sent = it.message
            at = self._last if it.deliver_at is None else it.deliver_at
            self._at(at, lambda sent=sent, it=it: self._fire(sent.event, it._replace(message=sent.message)))

    def _plan(self) -> None:
        """Wakes up at the next event, unless something is called before."""
        self._plans += 1
        plan, due = self._plans, self.state.next()
        if due is not None:
            self._at(due, lambda: self._wake(plan, due))

    def _wake(self, plan: int, due: int) -> None:
        if plan == self._plans:
            self._last = max(self._last, due)
            self._take(self.state.advance(self._last))
            self._plan()

    # ---- what a clock has to say

    def _now(self) -> int:
        """The moment, in nanoseconds."""
        raise NotImplementedError

    def _at(self, moment: int, action: Callable[[], Any]) -> None:
        """Does it at that moment."""
        raise NotImplementedError

    def _event(self) -> Any:
        """What can be waited for."""
        raise NotImplementedError

    def _fire(self, event: Any, completion: Completion) -> None:
        """Ends the wait."""
        raise NotImplementedError
