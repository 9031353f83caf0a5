"""Who is the bottleneck, and what if a cap doubles?

    python3 -m p2p_simulated.planner

A plan is a list of flows and the caps of peers.  `bottlenecks` says which caps hold the flows, and
`doubled` what each flow gains where one cap doubles.  `sweep` plans many scenarios in parallel.
"""

from __future__ import annotations

import multiprocessing
from concurrent.futures import ProcessPoolExecutor
from fractions import Fraction
from typing import Any, Callable, Dict, Iterable, List, Mapping, NamedTuple, Optional, Tuple

from . import Completion, Flow, Rates, State, allocate


class Plan(NamedTuple):
    """Flows with different ids, and caps in bytes a second."""

    flows: List[Flow]
    egress: Mapping[Any, int]
    ingress: Mapping[Any, int]


def rates_of(plan: Plan) -> Rates:
    """The rate of each flow.  A function of the module, so that it can be mapped over machines."""
    return allocate(plan.flows, plan.egress, plan.ingress)


def bottlenecks(plan: Plan) -> Dict[Tuple[str, Any], List[int]]:
    """The caps that are used up, each with the flows that it holds: those with no less than any other of its flows."""
    rates = rates_of(plan)
    found = {}
    for word, caps, uses in (
        ("egress", plan.egress, lambda flow: flow.origin),
        ("ingress", plan.ingress, lambda flow: flow.recipient if flow.delivered else None),
    ):
        for peer, cap in caps.items():
            used = {flow.id: rates[flow.id] for flow in plan.flows if uses(flow) == peer}
            if used and sum(used.values()) == cap:
                found[word, peer] = [flow for flow, rate in used.items() if rate == max(used.values())]
    return found


def doubled(plan: Plan, word: str, peer: Any) -> Rates:
    """What each flow gains where that cap doubles: nothing where there is no such cap."""
    caps = {"egress": dict(plan.egress), "ingress": dict(plan.ingress)}
    if peer not in caps[word]:
        return {}
    caps[word][peer] *= 2
    before, after = rates_of(plan), rates_of(Plan(plan.flows, caps["egress"], caps["ingress"]))
    return {flow: after[flow] - before[flow] for flow in before if after[flow] != before[flow]}


class Schedule(NamedTuple):
    """Caps of peers from the start, and messages.

    A peer has what it may send and what it may receive, and a message is the arguments of `State.enqueue`.
    """

    caps: Mapping[Any, Tuple[Optional[int], Optional[int]]]
    messages: List[Tuple[Any, ...]]


def completions_of(schedule: Schedule) -> List[Completion]:
    """What becomes of each message, in the order in which they are done."""
    peers = {*schedule.caps, *(peer for it in schedule.messages for peer in it[1:3])}
    with State(peers) as state:
        done = []
        for peer, (egress, ingress) in schedule.caps.items():
            done += state.limit(0, peer, egress, ingress)
        for message in sorted(schedule.messages, key=lambda it: it[0]):
            done += state.advance(message[0])
            done += state.enqueue(*message)
        while (due := state.next()) is not None:
            done += state.advance(due)
        return done


def sweep(scenarios: Iterable[Any], work: Callable[[Any], Any] = rates_of, map_over: Any = None) -> List[Any]:
    """The work on each scenario, in order and in parallel: `rates_of` plans, or `completions_of` schedules.

    `map_over` is what maps a function over machines: a pool, an executor, a client of Dask, or any
    function such as an executor's `map`.  It may answer futures.  With none it is a pool of processes
    on this machine.
    """
    if map_over is None:
        with ProcessPoolExecutor(mp_context=multiprocessing.get_context("spawn")) as pool:
            return list(pool.map(work, scenarios, chunksize=8))
    engine = map_over if callable(map_over) else map_over.map
    found = list(engine(work, list(scenarios)))
    return [it.result() if callable(getattr(it, "result", None)) else it for it in found]


def example() -> Plan:
    """Five flows between three peers, as in examples/five_flows.link."""
    flows = [Flow(1, "lima", "oslo"), Flow(2, "lima", "oslo"), Flow(3, "oslo", "rome"), Flow(4, "lima", "rome"), Flow(5, "rome", "oslo")]
    egress = {"lima": 1_000_000, "oslo": 750_000, "rome": 100_000}
    ingress = {"lima": 500_000, "oslo": 250_000, "rome": 1_000_000}
    return Plan(flows, egress, ingress)


def main() -> None:
    plan = example()
    for flow, rate in rates_of(plan).items():
        print(f"flow {flow}: {'unlimited' if rate is None else f'{rate} bytes a second'}")
    for (word, peer), held in bottlenecks(plan).items():
        gains = ", ".join(f"flow {flow} {float(gain):+.0f}" for flow, gain in doubled(plan, word, peer).items())
        print(f"{word} of {peer} holds flows {held}; doubled: {gains}")
    scenarios = [Plan(plan.flows, {**plan.egress, "lima": 10_000 * n}, plan.ingress) for n in range(1, 101)]
    slowest = [min(rates.values()) for rates in sweep(scenarios)]
    best = slowest.index(max(slowest))
    print(f"of 100 egress caps of lima, {scenarios[best].egress['lima']} is the least that gives the slowest flow most")


if __name__ == "__main__":
    main()
