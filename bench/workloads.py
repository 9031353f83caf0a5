"""Scripts of `linkrun` to measure with. The same name always gives the same script.

    python3 bench/workloads.py DIR          writes them all into a folder
    python3 bench/workloads.py DIR NAME..   writes those of these names

| name | what the script does |
|---|---|
| `any-N` | N flows between N/2 + 1 peers under any caps below 2^32, and many lines `rates` |
| `whole-N` | N flows, at most four from a peer, whose fair rates are whole, and many lines `rates` |
| `groups-K-M` | M messages between K capped peers in groups of four, with four ordered pairs to a group |
| `pairs-K-M` | the same between any two of the peers |
| `uploads-K-M` | the same, where only what a peer sends is capped |
| `clients-K-M` | M messages between K capped peers and one that has no cap, half of them from it |
| `queue-M` | M messages of one pair wait behind a cap, and then the cap is lifted |
| `broadcast-N` | a bench of a consensus protocol: one of N peers sends a block to all others, then all send a vote to all others, twice; all caps are equal. `crates/broadcast` does the same without a script |
| `mixed-N` | the same under caps that differ |
| `routes-N` | no script, but a network for `bin/networks`: N flows over four of N/4 + 8 links each, under any caps below 2^20, asked many times |
| `weights-N` | the same, each flow with a weight up to 16 |
| `idle-N` | 2000 messages of one pair, beside N pairs whose next message may start only far in the future |
| `kept-N` | 100000 messages of one pair, each enqueued and done before the next, beside N caps and N last arrivals of others |
"""
import os
import sys

SECOND = 10**9
MILLISECOND = 10**6
FAR = 2**55


class Chance:
    """Numbers that look random and are the same each time: a shift register of 64 bits."""

    def __init__(self, seed):
        self.state = seed

    def below(self, bound):
        state = self.state
        state ^= state << 13 & 0xFFFFFFFFFFFFFFFF
        state ^= state >> 7
        state ^= state << 17 & 0xFFFFFFFFFFFFFFFF
        self.state = state
        return state % bound

    def between(self, least, most):
        return least + self.below(most - least + 1)

    def other(self, peer, peers):
        """A peer from 1 to `peers` that is not this one."""
        return (peer + self.below(peers - 1)) % peers + 1


def any_rates(flows, calls):
    chance = Chance(0x9E3779B97F4A7C15 + flows)
    peers = flows // 2 + 1
    for peer in range(1, peers + 1):
        yield f"egress {peer} {chance.between(1, 2**32 - 1)}"
        yield f"ingress {peer} {chance.between(1, 2**32 - 1)}"
    for flow in range(flows):
        origin = chance.between(1, peers)
        recipient = chance.other(origin, peers)
        yield f"flow {flow} {origin} {recipient} {int(chance.below(8) > 0)}"
    yield from ["rates"] * calls


def routes(flows, calls):
    """A network of `crates/networks`: how many times to ask, the caps, and the routes."""
    chance = Chance(0x9E3779B97F4A7C15 + flows)
    links = flows // 4 + 8
    caps = ",".join(str(chance.between(1, 2**20 - 1)) for _ in range(links))
    paths = ";".join(",".join(str(chance.below(links)) for _ in range(4)) for _ in range(flows))
    yield f"{calls} {caps} {paths}"


def weights(flows, calls):
    """The same with a weight for each flow."""
    chance = Chance(0xD1B54A32D192ED03 + flows)
    weighed = ",".join(str(chance.between(1, 16)) for _ in range(flows))
    yield from (f"{line} {weighed}" for line in routes(flows, calls))


def whole_rates(flows, calls):
    chance = Chance(0xD1B54A32D192ED03 + flows)
    peers = flows // 2 + 1
    for peer in range(1, peers + 1):
        yield f"egress {peer} {12 * chance.between(1, 2**20)}"
        yield f"ingress {peer} {2**31}"
    origin, left = 0, 0
    for flow in range(flows):
        if left == 0:
            origin, left = origin + 1, min(chance.between(1, 4), flows - flow)
            if origin > peers:
                break
        left -= 1
        yield f"flow {flow} {origin} {chance.other(origin, peers)} 1"
    yield from ["rates"] * calls


def groups(peers, messages):
    return schedule(Chance(0x2545F4914F6CDD1D + peers), peers, messages, 120 * MILLISECOND, True)


def pairs(peers, messages):
    return schedule(Chance(0x2545F4914F6CDD1D + peers + 1), peers, messages, 100 * MILLISECOND, False)


def schedule(chance, peers, messages, rhythm, grouped):
    for peer in range(1, peers + 1):
        yield f"limit 0 {peer} {chance.between(2**15, 2**17)} {chance.between(2**15, 2**17)}"
    now = 0
    for message in range(messages):
        now += chance.below(2 * (rhythm // peers))
        if grouped:
            first = 4 * chance.below(peers // 4)
            origin, recipient = (first + peer for peer in ((1, 2), (1, 3), (2, 3), (4, 3))[chance.below(4)])
        else:
            origin = chance.between(1, peers)
            recipient = chance.other(origin, peers)
        delivered = int(chance.below(8) > 0)
        latency = chance.below(200 * MILLISECOND) * delivered
        yield f"advance {now}"
        yield f"enqueue {now} {origin} {recipient} {message} {chance.below(4096)} {latency} {delivered}"
    yield f"advance {FAR}"
    yield "next"


def uploads(peers, messages):
    for line in pairs(peers, messages):
        yield line.rsplit(" ", 1)[0] + " -" if line.startswith("limit") else line


def clients(peers, messages):
    chance = Chance(0x2545F4914F6CDD1D + 2 * peers)
    for peer in range(1, peers + 1):
        yield f"limit 0 {peer} {chance.between(2**10, 2**13)} {chance.between(2**10, 2**13)}"
    now = 0
    for message in range(messages):
        now += chance.below(MILLISECOND)
        ends = (0, chance.between(1, peers))
        origin, recipient = ends if chance.below(2) else ends[::-1]
        yield f"advance {now}"
        yield f"enqueue {now} {origin} {recipient} {message} {chance.below(4096)} {chance.below(100 * MILLISECOND)} 1"
    yield f"advance {FAR}"
    yield "next"


def queue(messages):
    yield "limit 0 1 1000 -"
    yield from ["enqueue 0 1 2 0 100 0 1"] * messages
    yield "limit 0 1 - -"
    yield "next"


def broadcast(peers, mixed):
    chance = Chance(0x9E3779B97F4A7C15 + 2 * peers + mixed)
    for peer in range(peers):
        caps = (125 * 10**6, 125 * 10**6)
        if mixed:
            caps = (chance.between(10**6, 125 * 10**6), chance.between(10**6, 125 * 10**6))
        yield f"limit 0 {peer} {caps[0]} {caps[1]}"
    latency = [[chance.between(MILLISECOND, 200 * MILLISECOND) for _ in range(peers)] for _ in range(peers)]
    now = 0
    for leader in range(2):
        for peer in range(peers):
            if peer != leader:
                yield f"enqueue {now} {leader} {peer} {leader} 1000000 {latency[leader][peer]} 1"
        now += SECOND * max(1, peers // 8)
        yield f"advance {now}"
        for origin in range(peers):
            for peer in range(peers):
                if peer != origin:
                    yield f"enqueue {now} {origin} {peer} {leader} {chance.between(100, 299)} {latency[origin][peer]} 1"
        now += SECOND
        yield f"advance {now}"
    yield f"advance {FAR}"
    yield "next"


def idle_pairs(waiting):
    for pair in range(waiting):
        yield f"enqueue 0 {pair + 10} 9 0 0 {2**54} 1"
    yield "limit 0 1 1000000 -"
    for pair in range(waiting):
        yield f"enqueue 0 {pair + 10} 9 0 0 0 1"


def kept_pairs(kept):
    for pair in range(kept):
        yield f"enqueue 0 {pair + 10} {pair + 11} 0 0 {MILLISECOND} 1"
    for peer in range(kept):
        yield f"limit 0 {peer + 10} 1000000 1000000"
    yield "limit 0 1 1000000 -"


def one_by_one(messages):
    now = 0
    for message in range(messages):
        yield f"enqueue {now} 1 2 {message} 1000 0 1"
        now += MILLISECOND
        yield f"advance {now}"
    yield "next"


def beside(set_up, others, messages):
    yield from set_up(others)
    yield from one_by_one(messages)


CALLS = {4: 20000, 16: 4000, 64: 500, 256: 30, 1024: 2}
PEERS = (8, 16, 24, 32, 64, 100)
SCRIPTS = {
    **{f"whole-{flows}": (whole_rates, flows, calls) for flows, calls in CALLS.items()},
    **{f"any-{flows}": (any_rates, flows, calls) for flows, calls in CALLS.items()},
    **{f"routes-{flows}": (routes, flows, calls) for flows, calls in CALLS.items()},
    **{f"weights-{flows}": (weights, flows, max(1, calls // 8)) for flows, calls in CALLS.items()},
    **{f"groups-{peers}-{messages}": (groups, peers, messages)
       for peers, messages in ((4, 1000), (16, 5000), (64, 20000), (256, 20000))},
    **{f"pairs-{peers}-{messages}": (pairs, peers, messages)
       for peers, messages in ((4, 1000), (16, 5000), (64, 2000), (256, 20000), (1024, 20000), (4096, 40000))},
    **{f"uploads-{peers}-{messages}": (uploads, peers, messages) for peers, messages in ((8, 20000), (64, 20000))},
    **{f"clients-{peers}-{messages}": (clients, peers, messages) for peers, messages in ((100, 10000), (1000, 10000))},
    **{f"queue-{messages}": (queue, messages) for messages in (2000, 20000)},
    **{f"broadcast-{peers}": (broadcast, peers, False) for peers in PEERS},
    **{f"mixed-{peers}": (broadcast, peers, True) for peers in PEERS},
    **{f"idle-{waiting}": (beside, idle_pairs, waiting, 2000) for waiting in (100, 1000, 10000)},
    **{f"kept-{others}": (beside, kept_pairs, others, 100000) for others in (10, 100000)},
}


def lines_of(name):
    make, *arguments = SCRIPTS[name]
    return make(*arguments)


def beginning_of(name):
    """The lines of a script that only set up what its messages are beside. Most scripts have none."""
    make, *arguments = SCRIPTS[name]
    return arguments[0](arguments[1]) if make is beside else []


def main():
    folder, names = sys.argv[1], sys.argv[2:] or SCRIPTS
    os.makedirs(folder, exist_ok=True)
    for name in names:
        with open(os.path.join(folder, name), "w") as file:
            file.writelines(line + "\n" for line in lines_of(name))


if __name__ == "__main__":
    main()
