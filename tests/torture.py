"""Runs random scripts, and compares what is printed with `plain.py`, for a minute where nothing else is said.

    python3 tests/torture.py bin/linkrun bin/refuse.so [SECONDS [SEED]]

The scripts limit, send and advance at moments that go on and that go back, near the next event and near the end of
time. Each runs with ample memory, and then four times with one allocation or three of them refused. A script that
fails stays beside the program as torture_failed.link.
"""
import os
import random
import sys
import time

import plain
from hostile import Program

PAUSES = [0, 1, 2, 1000, 10 ** 6, 10 ** 8, 10 ** 9, 3 * 10 ** 9]
CAPS = [0, 1, 2, 3, 5, 7, 10, 100, 1000, 999983, 10 ** 9, 2 ** 32 - 1, 2 ** 63, 2 ** 64 - 1]
LENGTHS = [0, 0, 1, 1, 2, 3, 5, 8, 100, 1000]
NUMBERS = [0, 1, 2, 3, plain.LAST]  # of flows over routes, and of links
FAULTS = [1, 1, 1, 3]  # the refusals in each of the runs of a script


class Writer:
    """Writes a script line by line, and knows of each what the plain scheduler makes of it."""

    def __init__(self, chance):
        self.chance, self.state, self.lines = chance, plain.Script(), []
        self.now = chance.choice([0, 0, 0, 10 ** 9, plain.LAST - 5 * 10 ** 9, plain.LAST - 10])
        self.peers = chance.choice([2, 3, 3, 4, 6])
        self.caps = chance.sample(CAPS, chance.randrange(1, 5))
        self.latencies = [0, 0] + chance.sample(PAUSES + [plain.LAST, plain.LAST - 10 ** 9], 3)
        self.goes_back = chance.random() < 0.5

    def moment(self):
        """A moment at or near the next event or the last call, now and then one that goes back."""
        following = self.state.scheduler.next()
        if following is not None and self.chance.random() < 0.6:
            moment = following + self.chance.choice([-1, 0, 0, 0, 1])
        else:
            moment = self.now + self.chance.choice(PAUSES)
        if self.goes_back and self.chance.random() < 0.15:
            moment = self.now - self.chance.choice(PAUSES)
        elif following is not None and not self.goes_back:
            moment = max(moment, self.now)
        return min(max(moment, 0), plain.LAST)

    def peer(self):
        return self.chance.randrange(1, self.peers + 1)

    def cap(self):
        return self.chance.choice([*self.caps, *self.caps, "-"])

    def line(self):
        kind = self.chance.choices(["limit", "limitlink", "enqueue", "advance", "next", "rates", "flow", "side",
                                    "hop", "cap", "weight", "routes"], [10, 4, 40, 30, 10, 2, 4, 4, 4, 3, 1, 2])[0]
        now = self.moment()
        if kind in ("limit", "limitlink", "enqueue", "advance"):
            self.now = now
        if kind == "limit":
            return "limit %d %d %s %s" % (now, self.peer(), self.cap(), self.cap())
        if kind == "limitlink":
            return "limitlink %d %d %d %s" % (now, self.peer(), self.peer(), self.cap())
        if kind == "enqueue":
            return "enqueue %d %d %d %d %d %d %d" % (
                now, self.peer(), self.peer(), self.chance.randrange(9), self.chance.choice(LENGTHS),
                self.chance.choice(self.latencies), self.chance.random() < 0.8)
        if kind == "advance":
            return "advance %d" % now
        if kind == "flow":
            return "flow %d %d %d %d" % (self.chance.randrange(5), self.peer(), self.peer(), self.chance.random() < 0.8)
        if kind == "side":
            side = self.chance.choice(["egress %d" % self.peer(), "ingress %d" % self.peer(),
                                       "link %d %d" % (self.peer(), self.peer())])
            return "%s %s" % (side, self.chance.choice(CAPS + [2 ** 128 - 1, 2 ** 127 + 1, "-"]))
        if kind == "hop":
            return "hop %d %d" % (self.chance.choice(NUMBERS), self.chance.choice(NUMBERS))
        if kind == "cap":
            return "cap %d %s" % (self.chance.choice(NUMBERS), self.chance.choice(CAPS + [2 ** 128 - 1, "-"]))
        if kind == "weight":
            return "weight %d %d" % (self.chance.choice(NUMBERS), self.chance.choice([1, 2, 3, 7, 2 ** 62, plain.LAST]))
        return kind

    def script(self, lines):
        for _ in range(lines):
            line = self.line().encode()
            self.state.do(*plain.command(line))
            self.lines.append(line + b"\n")
        return b"".join(self.lines)


def try_script(program, chance, script):
    """Answers how many runs were compared."""
    run, _ = program.run(script)
    plain.judge(script, *run)
    allocations = program.counts()[0]
    for most in FAULTS:
        refused = sorted({chance.randrange(1, allocations + 1) for _ in range(most)})
        run, _ = program.run(script, MALLOC=",".join(map(str, refused)))
        plain.judge(script, *run, refusals=len(refused))
    return 1 + len(FAULTS)


def main():
    linkrun, refuse = (os.path.abspath(it) for it in sys.argv[1:3])
    seconds = float(sys.argv[3]) if len(sys.argv) > 3 else 60
    seed = int(sys.argv[4]) if len(sys.argv) > 4 else random.randrange(10 ** 9)
    print("seed %d" % seed, flush=True)
    program, chance = Program([linkrun], refuse), random.Random(seed)
    end, scripts, lines, runs = time.monotonic() + seconds, 0, 0, 0
    while time.monotonic() < end:
        script = Writer(chance).script(chance.choice([5, 10, 20, 40, 80]))
        try:
            runs += try_script(program, chance, script)
        except plain.Wrong:
            with open(os.path.join(os.path.dirname(linkrun), "torture_failed.link"), "wb") as file:
                file.write(script)
            raise
        scripts += 1
        lines += script.count(b"\n")
    print("%d scripts with %d lines, %d runs, and none is wrong" % (scripts, lines, runs))


if __name__ == "__main__":
    main()
