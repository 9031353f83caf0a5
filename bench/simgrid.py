"""The time of one allocation over routes of four links, beside SimGrid's. Prints a table, and judges nothing.

    python3 bench/simgrid.py bin/networks bin/simgrid

`make simgrid` builds the second program, which needs SimGrid (of Debian `libsimgrid-dev`), and runs this. Both get the
networks `routes-N` of `bench/workloads.py`. SimGrid's time is the least to start all flows and to find their rates, in
doubles; ours is the processor time of an exact allocation, the least of some runs of many, with the start of the
program.
"""
import os
import subprocess
import sys
import tempfile

import workloads

SIZES = {4: 100000, 16: 40000, 64: 10000, 256: 2000, 1024: 200}
RUNS = 5


def ours(program, network, calls):
    least = float("inf")
    for _ in range(RUNS):
        with open(network) as lines:
            before = os.times()
            subprocess.run([program], stdin=lines, stdout=subprocess.DEVNULL, check=True)
            after = os.times()
            took = after.children_user - before.children_user + after.children_system - before.children_system
            least = min(least, took)
    return least / calls * 1e6


def theirs(program, network, times):
    done = subprocess.run([program, network, str(times)], capture_output=True, text=True, check=True)
    return float(done.stdout)


def main():
    networks, simgrid = sys.argv[1:3]
    print("| flows | microseconds | SimGrid |\n|---|---|---|")
    with tempfile.TemporaryDirectory() as folder:
        network = os.path.join(folder, "network")
        for flows, calls in SIZES.items():
            with open(network, "w") as file:
                file.writelines(line + "\n" for line in workloads.routes(flows, calls))
            print(f"| {flows} | {ours(networks, network, calls):.1f} | {theirs(simgrid, network, max(20, 20000 // flows)):.1f} |")


if __name__ == "__main__":
    main()
