"""Compares the tables of linkdraw with linkrun and with themselves: `python3 tests/tables.py bin/linkrun bin/linkdraw SCRIPT..`.

Each completion that linkrun prints is a message of the table, and each message that is done is a completion. What a message
sends by the table of rates is its length, up to what it sends in its last nanosecond, where moments never go back. No cap
is exceeded, one that is full is used to its end, and the use of a cap is the sum of the rates of those that share it.
Quantiles are those of the messages' latencies. Bad scripts end as linkrun ends them, with the same two lines on standard
error.
"""
import collections
import csv
import fractions
import io
import math
import random
import subprocess
import sys

import hostile
import plain

BILLION = 10**9
CALLS = ("limit", "limitlink", "enqueue", "advance")


def output(words, script):
    """What a program prints of a script."""
    with open(script, "rb") as file:
        return subprocess.run(words, stdin=file, stdout=subprocess.PIPE, stderr=subprocess.DEVNULL, check=False).stdout.decode()


def table(linkdraw, name, script):
    """The lines of a table."""
    return list(csv.DictReader(io.StringIO(output([linkdraw, "--table", name], script))))


def completions(printed):
    """What linkrun says is done."""
    lines = (line.split() for line in printed.splitlines())
    return collections.Counter(tuple(line[1:]) for line in lines if line and line[0] == "done")


def check_messages(messages, done):
    """Each message that is done is a completion, and the other way round."""
    found = collections.Counter(
        tuple(row[name] for name in ("origin", "recipient", "channel", "bytes")) + (row["arrives_ns"] or "-",)
        for row in messages if row["done_ns"]
    )
    assert found == done, (found - done, done - found)
    for row in messages:
        for name in ("enqueued", "started", "done", "arrives", "latency"):
            if row[f"{name}_ns"]:
                assert fractions.Fraction(row[f"{name}_s"]) * BILLION == int(row[f"{name}_ns"]), row
        if row["done_ns"]:
            assert int(row["enqueued_ns"]) <= int(row["started_ns"]) <= int(row["done_ns"]), row


def check_rates(messages, rates, freed):
    """What is sent by the rates is what messages have. One whose last cap goes is done at once."""
    by_pair = collections.defaultdict(list)
    for row in rates:
        by_pair[row["origin"], row["recipient"]].append(row)
    for row in messages:
        if not row["done_ns"] or row["started_ns"] == row["done_ns"]:
            continue
        sent, last = fractions.Fraction(0), fractions.Fraction(0)
        for one in by_pair[row["origin"], row["recipient"]]:
            if int(row["started_ns"]) <= int(one["from_ns"]) and int(one["to_ns"]) <= int(row["done_ns"]):
                if one["exact"] == "0":
                    return
                last = fractions.Fraction(one["rate"])
                assert math.floor(last * BILLION) == int(one["rate_decimal"].replace(".", "")), one
                sent += last * (int(one["to_ns"]) - int(one["from_ns"])) / BILLION
        assert sent < int(row["bytes"]) + last / BILLION or last == 0, (row, sent)
        assert int(row["bytes"]) <= sent or row["done_ns"] in freed, (row, sent)


def check_caps(caps, rates, messages):
    """No cap is exceeded, and its use is the sum of the rates."""
    dropped = any(row["dropped"] == "1" for row in messages)
    by_origin = collections.defaultdict(list)
    for row in rates:
        by_origin[row["origin"]].append(row)
    for row in caps[:2000]:
        if not row["used"]:
            continue
        used = fractions.Fraction(row["used"])
        if row["cap"]:
            assert used <= int(row["cap"]), row
            assert (used == int(row["cap"])) == (row["full"] == "1"), row
        if row["side"] != "ingress" and not dropped:
            shared = sum(
                fractions.Fraction(one["rate"]) for one in by_origin[row["origin"]]
                if row["recipient"] in ("", one["recipient"])
                and int(one["from_ns"]) <= int(row["from_ns"]) and int(row["to_ns"]) <= int(one["to_ns"])
            )
            assert shared == used, (row, shared)


def check_latencies(latencies, messages):
    """Quantiles are by rank."""
    for row in latencies:
        times = sorted(int(one["latency_ns"]) for one in messages
                       if one["latency_ns"] and row["channel"] in ("all", one["channel"]))
        assert len(times) == int(row["count"]), row
        for name, part in (("least", 0), ("p50", 50), ("p90", 90), ("p99", 99), ("greatest", 100)):
            if times:
                place = max(0, -(-len(times) * part // 100) - 1)
                assert int(row[f"{name}_ns"]) == times[place], row


def check_bad_scripts(linkrun, linkdraw):
    """Where a line is bad, linkdraw draws nothing, and says on standard error what linkrun says. Answers how many scripts."""
    count = 0
    for script in hostile.bad_scripts(random.Random(1)):
        run, drawn = (subprocess.run([program], input=script, capture_output=True, check=False) for program in (linkrun, linkdraw))
        assert (drawn.returncode, drawn.stderr) == (run.returncode, run.stderr), (script, run.stderr, drawn.stderr)
        if drawn.returncode:
            assert drawn.returncode == 2 and not drawn.stdout, (script, drawn.returncode)
            assert plain.is_bad_at(int(drawn.stderr.split()[2]), drawn.stderr), (script, drawn.stderr)
            count += 1
    assert count >= 300, count
    return count


def main():
    """Compares each script."""
    linkrun, linkdraw = sys.argv[1:3]
    for script in sys.argv[3:]:
        done = completions(output([linkrun], script))
        tables = {name: table(linkdraw, name, script) for name in ("messages", "rates", "caps", "latencies")}
        if not tables["latencies"]:
            continue
        check_messages(tables["messages"], done)
        with open(script, encoding="utf-8") as file:
            lines = [line.split() for line in file]
        moments = [int(line[1]) for line in lines if line and line[0] in CALLS]
        if moments == sorted(moments):
            freed = {line[1] for line in lines if line and line[0].startswith("limit") and "-" in line}
            check_rates(tables["messages"], tables["rates"], freed)
        check_caps(tables["caps"], tables["rates"], tables["messages"])
        check_latencies(tables["latencies"], tables["messages"])
    print("tables: those of", len(sys.argv) - 3, "scripts agree")
    print("bad lines: linkdraw says why as linkrun does in", check_bad_scripts(linkrun, linkdraw), "scripts")


if __name__ == "__main__":
    main()
