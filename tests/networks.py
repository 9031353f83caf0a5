"""Compares the rates of random networks with a plain reckoning by fractions.

    python3 tests/networks.py bin/networks              10,000 networks
    python3 tests/networks.py bin/networks COUNT SEED   so many, of that seed

The reckoning raises the rate of all flows that are not yet held, together, until the next link is full, and
holds the flows of each link that is full. It knows nothing of how the library does it. Where a rate is no
fraction of 128 bits, a refusal is wanted.

Half of the networks have weights. Small ones are reckoned as what they stand for: as many flows of weight
one, whose rates are summed. Large ones raise each flow by its weight.
"""
import random
import subprocess
import sys
from fractions import Fraction

LARGEST = 2**128 - 1


def fair_rates(caps, routes, weights=None):
    """The max-min fair rate of each flow, `None` for no limit, and how many different finite rates there are."""
    weights = weights or [1] * len(routes)
    links = [set(route) for route in routes]
    users = {
        link: [flow for flow, of in enumerate(links) if link in of]
        for link, cap in enumerate(caps) if cap is not None
    }
    users = {link: flows for link, flows in users.items() if flows}
    limited = {flow for flows in users.values() for flow in flows}
    rates = [None if flow not in limited else Fraction(0) for flow in range(len(routes))]
    rising = set(limited)
    while rising:
        step = min(
            (caps[link] - sum(rates[flow] for flow in flows))
            / Fraction(sum(weights[flow] for flow in flows if flow in rising))
            for link, flows in users.items() if rising.intersection(flows)
        )
        for flow in rising:
            rates[flow] += step * weights[flow]
        for link, flows in users.items():
            if sum(rates[flow] for flow in flows) == caps[link]:
                rising.difference_update(flows)
    return rates, len({rate for rate in rates if rate is not None})


def by_copies(caps, routes, weights):
    """The rate of each flow by its weight: what as many flows of weight one have together."""
    copies = [flow for flow, weight in enumerate(weights) for _ in range(weight)]
    rates, _ = fair_rates(caps, [routes[flow] for flow in copies])
    together = [Fraction(0)] * len(routes)
    for flow, rate in zip(copies, rates):
        together[flow] = None if rate is None else together[flow] + rate
    return together


def wanted_by_weight(caps, routes, weights):
    """The line that the program is to print where there are weights."""
    if len(weights) != len(routes):
        return f"refused: {len(routes)} flows have {len(weights)} weights"
    if 0 in weights:
        return f"refused: flow {weights.index(0)} has weight 0"
    for flow, route in enumerate(routes):
        for link in route:
            if link >= len(caps):
                return f"refused: flow {flow} uses link {link}, which has no entry in the list of caps"
    for link, cap in enumerate(caps):
        if cap is not None and sum(weight for weight, route in zip(weights, routes) if link in route) >= 2**64:
            return "refused: the flows of a link have a weight of 2^64 or more together"
    few = sum(weights) <= 100
    rates = by_copies(caps, routes, weights) if few else fair_rates(caps, routes, weights)[0]
    return shown_rates(rates)


def shown_rates(rates):
    if any(rate is not None and max(rate.numerator, rate.denominator) > LARGEST for rate in rates):
        return "refused: number too large"
    shown = ("unlimited;" if rate is None else f"{rate.numerator}/{rate.denominator};" for rate in rates)
    return "".join(shown)


def wanted(caps, routes, weights):
    """The line that the program is to print."""
    if weights is not None:
        return wanted_by_weight(caps, routes, weights)
    for flow, route in enumerate(routes):
        for link in route:
            if link >= len(caps):
                return f"refused: flow {flow} uses link {link}, which has no entry in the list of caps"
    rates, rounds = fair_rates(caps, routes)
    shown = shown_rates(rates)
    return shown if shown.startswith("refused") else f"{shown} {rounds}"


def network(chance):
    """Caps and routes: mostly a few links and flows, of all kinds of caps."""
    links = chance.randint(1, chance.choice([2, 4, 8, 20]))
    flows = chance.randint(0, chance.choice([2, 4, 8, 24]))
    most = chance.choice([3, 10, 1000, 2**32, 2**64, LARGEST])
    caps = [None if chance.random() < 0.1 else chance.randint(0, most) for _ in range(links)]
    past = links if chance.random() < 0.98 else links + 1
    longest = chance.choice([1, 2, 4, links])
    routes = [
        [chance.randrange(past) for _ in range(chance.randint(0, longest))]
        for _ in range(flows)
    ]
    if chance.random() < 0.5:
        return caps, routes, None
    heaviest = chance.choice([2, 5, 1000, 2**32, 2**64 - 1])
    weights = [chance.randint(1, heaviest) for _ in range(flows)]
    if weights and chance.random() < 0.02:
        weights[chance.randrange(flows)] = 0
    if chance.random() < 0.01:
        weights.append(1)
    return caps, routes, weights


def line_of(caps, routes, weights):
    """The network as the program reads it."""
    shown_caps = ",".join("-" if cap is None else str(cap) for cap in caps)
    shown = ";".join(",".join(map(str, route)) or "." for route in routes) or "none"
    if weights is None:
        return f"1 {shown_caps} {shown}"
    return f"1 {shown_caps} {shown} {','.join(map(str, weights)) or 'none'}"


def main():
    program, *numbers = sys.argv[1:]
    count, seed = [*map(int, numbers), 10000, 1][:2] if len(numbers) != 1 else (int(numbers[0]), 1)
    chance = random.Random(seed)
    networks = [network(chance) for _ in range(count)]
    script = "".join(line_of(*each) + "\n" for each in networks)
    done = subprocess.run([program], input=script, capture_output=True, text=True, check=True)
    answers = done.stdout.splitlines()
    if len(answers) != count:
        sys.exit(f"{len(answers)} answers to {count} networks")
    refused = unlike = 0
    for each, answer in zip(networks, answers):
        if answer != wanted(*each):
            unlike += 1
            print(f"{line_of(*each)}\n  answered {answer}\n  wanted   {wanted(*each)}")
        refused += answer.startswith("refused")
    print(f"{count} networks, {refused} refused, {unlike} otherwise")
    sys.exit(1 if unlike else 0)


if __name__ == "__main__":
    main()
