"""Times of `linkrun` beside those of the Rust original. Prints a table, and judges nothing.

    python3 bench/run.py bin/linkrun          all of it but what takes minutes
    python3 bench/run.py bin/linkrun NAME..   those workloads, also long ones (`bench/workloads.py` tells what they are)

Where `bin/broadcast`, with a slash, stands after `bin/linkrun`, each `broadcast-N` has a second row, `at once`: that
program prints the same for N, and asks the scheduler by one call for all that is sent at one moment. Where
`bin/networks` stands there, the networks `routes-N` and `weights-N` are asked of it; without it they are left out.

Each script is run three times (once where it takes more than ten seconds), and the least time is divided by the number
of its allocations or messages, printing included. The original's figures were measured once, on a machine of four cores
at 2.5 GHz on which other work ran: they move by a factor of two. `-` is not measured. Of a script whose messages are
beside what it sets up first, the two parts are timed apart, and a piece of the first is a line.
"""
import os
import subprocess
import sys
import tempfile
import threading
import time

import workloads

# microseconds for one allocation or message
ORIGINAL = {
    "whole-4": 17, "whole-16": 190, "whole-64": 2000, "whole-256": 30000, "whole-1024": 630000,
    "any-4": 27, "any-16": 310, "any-64": 3200, "any-256": 70000, "any-1024": 1300000,
    "groups-4-1000": 30, "groups-16-5000": 214, "groups-64-20000": 3300, "pairs-64-2000": 6800,
    "queue-20000": 2.5, "broadcast-8": 475, "broadcast-16": 1940, "broadcast-24": 10000, "broadcast-32": 25600,
}
LONG = {"broadcast-64", "broadcast-100", "mixed-64", "mixed-100", "groups-256-20000"}
BESIDE = {"idle-1000": "idle-100", "idle-10000": "idle-100", "kept-100000": "kept-10"}
AT_ONCE = ", at once"
ROUTES = ("routes-", "weights-")
RUNS, SLOW = 3, 10


def run(command, script):
    """The seconds that a run takes, and the most memory that it was seen to hold, in megabytes."""
    most = 0
    with open(script) as lines, open(os.devnull, "w") as nowhere:
        start = time.perf_counter()
        child = subprocess.Popen(command, stdin=lines, stdout=nowhere)
        while True:
            most = max(most, memory_of(child.pid))
            try:
                child.wait(0.01)
                break
            except subprocess.TimeoutExpired:
                pass
        took = time.perf_counter() - start
    if child.returncode:
        sys.exit(f"{command[0]} ended with {child.returncode}")
    return took, most


def run_again(command, script):
    """The least seconds of some runs, and the memory of the first."""
    least, memory = run(command, script)
    for _ in range(RUNS - 1 if least < SLOW else 0):
        least = min(least, run(command, script)[0])
    return least, memory


def run_in_two(program, beginning, rest):
    """The seconds that each part takes, and the memory. The rest is written once the beginning is answered, and the only
    line `next` of a part is its last."""
    took = []
    with subprocess.Popen([program], stdin=subprocess.PIPE, stdout=subprocess.PIPE) as child:
        for lines in (beginning, rest):
            start = time.perf_counter()
            writer = threading.Thread(target=write, args=(child.stdin, lines))
            writer.start()
            while not child.stdout.readline().startswith(b"next"):
                if child.poll() is not None:
                    sys.exit(f"{program} ended with {child.returncode}")
            took.append(time.perf_counter() - start)
            writer.join()
        return (*took, memory_of(child.pid))


def write(to, lines):
    to.write(b"".join(lines))
    to.flush()


def memory_of(process):
    """The most memory that the process has held so far, in megabytes, as Linux tells."""
    try:
        with open(f"/proc/{process}/status") as lines:
            return max((int(line.split()[1]) / 1024 for line in lines if line.startswith("VmHWM")), default=0)
    except OSError:
        return 0


def pieces_in(name, lines):
    """How many allocations or messages the lines ask for."""
    if name.startswith(ROUTES):
        return int(lines[0].split()[0])
    wanted = "rates" if name.startswith(("whole", "any")) else "enqueue"
    return sum(line.startswith(wanted) for line in lines)


def measured(program, others, name, folder):
    """The parts of a workload: what each is called, its pieces, the least seconds that it took, and the memory."""
    lines, beginning = list(workloads.lines_of(name)), list(workloads.beginning_of(name))
    if beginning:
        parts = [*beginning, "next"], lines[len(beginning):]
        written = [[f"{line}\n".encode() for line in part] for part in parts]
        runs = [run_in_two(program, *written) for _ in range(RUNS)]
        before, least, memory = (min(figures) for figures in zip(*runs))
        yield f"{name}, first", len(beginning), before, memory
        yield name, pieces_in(name, parts[1]), least, memory
        return
    script = os.path.join(folder, name)
    with open(script, "w") as file:
        file.writelines(line + "\n" for line in lines)
    if name.startswith(ROUTES):
        if "networks" in others:
            yield name, pieces_in(name, lines), *run_again([others["networks"]], script)
        return
    yield name, pieces_in(name, lines), *run_again([program], script)
    if "broadcast" in others and name.startswith("broadcast"):
        peers = name.removeprefix("broadcast-")
        yield name + AT_ONCE, pieces_in(name, lines), *run_again([others["broadcast"], peers], os.devnull)


def main():
    program, *names = sys.argv[1:]
    others = {os.path.basename(name): name for name in names if "/" in name}
    names = [name for name in names if "/" not in name]
    names = names or [name for name in workloads.SCRIPTS if name not in LONG]
    print(f"{'work':>22} {'pieces':>7} {'seconds':>8} {'us a piece':>11} "
          f"{'original':>9} {'times as fast':>14} {'MB':>6}")
    took = {}
    with tempfile.TemporaryDirectory() as folder:
        for name in names:
            for part, pieces, least, memory in measured(program, others, name, folder):
                each = took[part] = least / pieces * 1e6
                original = ORIGINAL.get(part.removesuffix(AT_ONCE))
                beside = f"{original:>9} {original / each:>14.1f}" if original else f"{'-':>9} {'-':>14}"
                print(f"{part:>22} {pieces:>7} {least:>8.3f} {each:>11.1f} {beside} {memory:>6.1f}", flush=True)
    for name, other in BESIDE.items():
        if name in took and other in took:
            print(f"a message of {name} takes {took[name] / took[other]:.2f} times as long as one of {other}")


if __name__ == "__main__":
    main()
