"""Three sites in a row and two trunks between them: which trunk is to be widened?

    python3 examples/trunks.py        asks bin/networks, which `make bin/networks` builds

Lima and Osaka share the first trunk, Osaka and Turin the second, and what goes from Lima to Turin takes both. A
site sends what its own uplink carries. For each trunk it is asked what the flows would get if it were half as
wide again.
"""
import os
import subprocess
from fractions import Fraction

LINKS = {"Lima": 60_000, "Osaka": 80_000, "Turin": 60_000, "first trunk": 40_000, "second trunk": 30_000}
TRUNKS = ["first trunk", "second trunk"]
FLOWS = [
    ("Lima to Osaka", ["Lima", "first trunk", "Osaka"]),
    ("Lima to Osaka, a second time", ["Lima", "first trunk", "Osaka"]),
    ("Lima to Turin", ["Lima", "first trunk", "second trunk", "Turin"]),
    ("Osaka to Turin", ["Osaka", "second trunk", "Turin"]),
    ("Turin to Lima", ["Turin", "second trunk", "first trunk", "Lima"]),
]


def rates(caps):
    """What each flow gets under these caps, in bytes a second."""
    names = list(caps)
    paths = ";".join(",".join(str(names.index(link)) for link in route) for _, route in FLOWS)
    line = "1 " + ",".join(map(str, caps.values())) + " " + paths
    program = os.path.join(os.path.dirname(__file__), "..", "bin", "networks")
    done = subprocess.run([program], input=line + "\n", capture_output=True, text=True, check=True)
    return [Fraction(rate) for rate in done.stdout.split(";")[:-1]]


def main():
    now = rates(LINKS)
    for (name, _), rate in zip(FLOWS, now):
        print(f"{name}: {rate}")
    print(f"together {sum(now)}, the least {min(now)}")
    for trunk in TRUNKS:
        wider = rates({**LINKS, trunk: LINKS[trunk] * 3 // 2})
        print(f"with the {trunk} half as wide again: together {sum(wider)}, the least {min(wider)}")


if __name__ == "__main__":
    main()
