"""Refuses allocations, reads and writes one by one, and runs bad scripts. Takes about a minute.

    python3 tests/hostile.py bin/linkrun bin/refuse.so TESTS

TESTS is the program of the tests of `crates/p2p_simulated_hostile`, as `rt test` leaves it in its folder `out`. What
`linkrun` prints is compared with `plain.py`, and never with what it printed before.
"""
import os
import random
import resource
import struct
import subprocess
import sys
import tempfile

import plain

FOLDER = os.path.join(os.path.dirname(os.path.abspath(__file__)), "..", "examples")
SCRIPTS = ["five_flows", "links", "two_messages", "bad_line", "generated/end_of_time", "generated/few_nanoseconds",
           "generated/links_and_refusals", "generated/moments_go_back", "generated/rates_and_schedule"]
OWN = {
    "a finish before a start": b"limit 0 1 1000 -\nenqueue 0 1 2 0 500 500000000 1\nnext\nenqueue 0 1 2 0 0 0 1\n"
                               b"enqueue 0 1 3 0 1000 0 1\nnext\nadvance 1000000000\nnext\nadvance 1500000000\nnext\n",
    "a link that changes": b"limitlink 0 1 2 100\nenqueue 0 1 2 0 100 0 1\nenqueue 0 1 3 1 100 0 1\nnext\n"
                           b"limitlink 500000000 1 2 25\nnext\nadvance 2500000000\n",
    "bytes": b"enqueue 0 1 2 0 67108864 5 1\nlimit 0 1 1 1\nenqueue 0 1 2 0 65536 5 1\nlimit 1 1 - -\nnext\n",
}
TESTS = ["refusals::calls_with_little_memory", "refusals::lists_with_little_memory", "rates::rates_with_little_memory",
         "quiet::rests_with_little_memory", "parts::sums_with_little_memory", "parts::rows_with_little_memory",
         "parts::caps_with_little_memory", "parts::arrivals_with_little_memory"]


class Program:
    def __init__(self, program, refuse):
        self.program, self.refuse = program, refuse
        self.report = tempfile.NamedTemporaryFile()
        self.report.write(bytes(32))
        self.report.flush()

    def run(self, script, **refused):
        """Status, output and what was said, where MALLOC=N, READ=N or WRITE=N is refused; and whether it was."""
        run = subprocess.run(self.program, input=script, capture_output=True, env=self.environment(refused), timeout=60)
        return (run.returncode, run.stdout, run.stderr), self.counts()[3] > 0

    def environment(self, refused):
        names = {"REFUSE_" + kind: str(number) for kind, number in refused.items()}
        return {**os.environ, **names, "LD_PRELOAD": self.refuse, "REFUSE_REPORT": self.report.name}

    def counts(self):
        self.report.seek(0)
        return struct.unpack("4Q", self.report.read(32))


def each(program, script, kind, expect):
    """Refuses one call of that kind after another, until there is none left. Answers how many there were."""
    number = 0
    while True:
        number += 1
        run, is_refused = program.run(script, **{kind: number})
        if not is_refused:
            return number - 1
        expect(script, *run)


def expect_memory(script, status, printed, said):
    plain.judge(script, status, printed, said, refusals=1)


def expect_fault(script, status, printed, said):
    """A beginning of what is printed with all reads and writes."""
    wanted = whole(script)
    if (status, said) != (1, b"input or output fault\n") or not wanted.startswith(printed):
        raise plain.Wrong("a failing read or write ends with %d %r" % (status, said))


def whole(script):
    """All that a script prints."""
    state, printed = plain.Script(), b""
    for line in script.split(b"\n"):
        try:
            words = plain.command(line) if line else None
        except ValueError:
            break
        if words:
            printed += b"".join(line + b"\n" for line in state.do(*words))
    return printed


def expect_test(_script, status, printed, said):
    if status != 0:
        raise plain.Wrong("a test ends with %d, %r %r" % (status, printed[-300:], said[-300:]))


def bad_scripts(chance):
    """Scripts that nobody means well with."""
    for _ in range(300):
        yield bytes(chance.randrange(256) for _ in range(chance.randrange(400)))
        yield bytes(chance.choice(b" \n\r-0123456789abcdeflmnqrtuvx") for _ in range(chance.randrange(80)))
    for script in list(OWN.values())[:2]:
        for end in range(len(script)):
            yield script[:end]
    for _ in range(300):
        script = bytearray(chance.choice(list(OWN.values())[:2]))
        script[chance.randrange(len(script))] = chance.choice(b" \n\r-0123456789anx\0\xff")
        yield bytes(script)
    for length in (255, 256, 257, 258, 300, 70000):
        yield b"next\n" + b"7" * length + b"\nnext\n"
        yield b"next\nadvance " + b"7" * (length - 8)
        yield b"next\n" + b" " * length
    for digits in (20, 39, 40, 200):
        yield b"flow 1 1 2 1\negress 1 " + b"9" * digits + b"\nrates\n"
        yield b"advance " + b"1" + b"0" * (digits - 1) + b"\nnext\n"


def needs_no_more(program, lines, most):
    """Whether a script, so many times over, is done within so many megabytes of address space."""
    script, times = lines
    with tempfile.TemporaryFile() as file:
        file.write(script * times)
        file.seek(0)
        limit = int(most * 2 ** 20)
        run = subprocess.run([program], stdin=file, capture_output=True,
                             preexec_fn=lambda: resource.setrlimit(resource.RLIMIT_AS, (limit, limit)))
    return run.returncode == 0 and plain.NO_MEMORY not in run.stdout


def least_memory(program, lines):
    """The megabytes that a script needs, in quarters."""
    return next(quarters / 4 for quarters in range(1, 4000) if needs_no_more(program, lines, quarters / 4))


MANY = {
    "caps of ten peers": b"".join(b"egress %d 7\nlimit 0 %d 7 -\n" % (peer, peer) for peer in range(10)),
    "messages that are done": b"enqueue 0 1 2 0 10 5 1\n",
    "empty lines": b"\n",
}


def main():
    linkrun, refuse, tests = (os.path.abspath(it) for it in sys.argv[1:4])
    program = Program([linkrun], refuse)
    scripts = dict(OWN)
    for name in SCRIPTS:
        with open(os.path.join(FOLDER, name + ".link"), "rb") as file:
            scripts[name] = file.read()
        with open(os.path.join(FOLDER, name + ".out"), "rb") as file:
            if whole(scripts[name]) != file.read():
                raise plain.Wrong("plain.py does not print what %s.out has" % name)
    faults = 0
    for name, script in scripts.items():
        run, _ = program.run(script)
        plain.judge(script, *run)
        found = [each(program, script, "MALLOC", expect_memory)]
        found += [each(program, script, kind, expect_fault) for kind in ("READ", "WRITE")]
        print("%s: %d allocations, %d reads and %d writes refused" % (name, *found), flush=True)
        faults += sum(found)
    for name in TESTS:
        found = each(Program([tests, name], refuse), b"", "MALLOC", expect_test)
        print("%s: %d allocations refused" % (name, found), flush=True)
        faults += found
    bad = 0
    for script in bad_scripts(random.Random(1)):
        run, _ = program.run(script)
        plain.judge(script, *run)
        bad += 1
    print("%d bad scripts" % bad, flush=True)
    for name, script in MANY.items():
        lines = script.count(b"\n")
        least = least_memory(linkrun, (script, max(1, 20 // lines)))
        if not needs_no_more(linkrun, (script, 1000000 // lines), least):
            raise plain.Wrong("a million lines, %s, need more than %.2f MB" % (name, least))
        print("a million lines, %s: %.2f MB, as for twenty" % (name, least), flush=True)
    print("%d faults, and no promise is broken" % faults)


if __name__ == "__main__":
    main()
