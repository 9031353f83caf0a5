"""A fat tree of 16 hosts: four pods of two edge and two aggregation switches, and four core switches.

    python3 examples/fat_tree.py        asks bin/networks, which `make bin/networks` builds

Every link carries 125,000,000 bytes a second (one gigabit) each way, and each way is a link of its own. Host h
sends to the host of the next pod that stands where it stands, and half of the hosts send to host 0, too. A
switch goes up by the number of the receiver, as a hash of it would have it: an odd one to the second switch
above. What the flows get then is printed, beside what a host may send.
"""
import os
import subprocess

HOSTS, CAP = 16, 125_000_000
numbers = {}


def link(*ends):
    """The number of the link from one place to another."""
    return numbers.setdefault(ends, len(numbers))


def route(origin, recipient):
    """The links from one host to another."""
    up, down = origin // 2, recipient // 2
    path = [link("host", origin, "edge", up)]
    if up != down:
        above = recipient % 2
        path.append(link("edge", up, "aggregation", origin // 4, above))
        if origin // 4 != recipient // 4:
            core = 2 * above + recipient // 2 % 2
            path.append(link("aggregation", origin // 4, above, "core", core))
            path.append(link("core", core, "aggregation", recipient // 4, above))
        path.append(link("aggregation", recipient // 4, above, "edge", down))
    path.append(link("edge", down, "host", recipient))
    return path


def main():
    pairs = [(host, (host + 4) % HOSTS) for host in range(HOSTS)]
    pairs += [(host, 0) for host in range(HOSTS // 2, HOSTS)]
    routes = [route(*pair) for pair in pairs]
    caps = ",".join([str(CAP)] * len(numbers))
    paths = ";".join(",".join(map(str, path)) for path in routes)
    program = os.path.join(os.path.dirname(__file__), "..", "bin", "networks")
    done = subprocess.run([program], input=f"1 {caps} {paths}\n", capture_output=True, text=True, check=True)
    *rates, rounds = done.stdout.split(";")
    for (origin, recipient), path, rate in zip(pairs, routes, rates):
        numerator, denominator = map(int, rate.split("/"))
        share = 100 * numerator / denominator / CAP
        print(f"host {origin:2} to {recipient:2} over {len(path)} links: {rate} bytes a second, {share:.0f}%")
    print(f"{len(numbers)} links are used, and there are {rounds.strip()} different rates")


if __name__ == "__main__":
    main()
