"""A distribution of latencies: `bin/linkdraw --table messages FILE | python3 examples/latencies.py`."""
import csv
import sys

times = sorted(float(row["latency_s"]) for row in csv.DictReader(sys.stdin) if row["latency_s"])
step = max(times, default=0) / 10 or 1
for part in range(10):
    count = sum(part == min(9, int(time / step)) for time in times)
    print(f"{part * step:9.3f} s {'#' * (60 * count // len(times or [0]))} {count}")
