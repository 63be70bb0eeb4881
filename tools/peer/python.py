"""python.py [KIND ..] [PAIRS ..]: times the calls of maps of the package jetukoma beside bidict, and prints a table.

Both packages must be installed. KIND is a class of jetukoma, and `bidict` by default. The table of `bidict` is the one in
docs/PYTHON.md. Run the tool on a quiet machine. It prints the load before and after.

A figure is nanoseconds a pair, and in brackets its ratio to bidict. A ratio in bold is above its goal. A figure is the median
of several runs, in which both packages take turns. Each loop drops what a call returns.

- `bytes` is how much the memory of a process grows, without the objects that the caller has and without shared memory. The
  process first makes one such map, so that what is paid once does not count. Then it makes maps of 100,000 pairs in all.
- `two ints` is the time in which Python makes two ints of 62 bits, and its ratio to the time of bidict's `items()`.
- `spread` is how far the ratio of a call differs from run to run: the difference of its quartiles, divided by its median. It
  is the greatest of all calls.
"""
import os
import statistics
import subprocess
import sys
import time
from itertools import product

RUNS = {1_000: 201, 100_000: 9, 1_000_000: 5}
GOALS = {
    "`m[k] = v`, new": 0.4,
    "`m[k] = v`, overwriting": 0.4,
    "`m[k]`": 0.7,
    "`m.inverse[v]`": 0.7,
    "`k in m`": 0.9,
    "`del m[k]`": 0.6,
    "`items()`": 1.0,
    "`putall`": 0.12,
    "`copy`": 0.1,
    "`bytes`": 0.7,
}


def values_of(text, start, pairs, factor):
    """Returns different numbers, or texts with them, in no order."""
    numbers = [at * 0x9E3779B97F4A7C15 * factor % 2**62 for at in range(start, start + pairs)]
    return [f"key {number}" for number in numbers] if text else numbers


def timed(package, kind, text, pairs):
    """Returns the nanoseconds a pair of each call."""
    m, keys = getattr(__import__(package), kind)(), values_of(text, 0, pairs, 1)
    values, more = values_of(False, 0, pairs, 3), values_of(False, pairs, pairs, 3)
    items = list(zip(keys, values))

    def put(its):
        for key, value in its:
            m[key] = value

    def get():
        for key in keys:
            m[key]

    def get_inverse():
        for value in values:
            m.inverse[value]

    def contains():
        for key in keys:
            key in m

    def iterate():
        for key, value in m.items():
            pass

    def delete():
        for key in keys:
            del m[key]

    calls = {
        "`m[k] = v`, new": lambda: put(items),
        "`m[k]`": get,
        "`m.inverse[v]`": get_inverse,
        "`k in m`": contains,
        "`items()`": iterate,
        "`copy`": m.copy,
        "`m[k] = v`, overwriting": lambda: put(zip(keys, more)),
        "`del m[k]`": delete,
        "`putall`": lambda: m.putall(items),
    }
    for name, call in calls.items():
        start = time.perf_counter_ns()
        call()
        calls[name] = (time.perf_counter_ns() - start) / pairs
    return calls


def two_ints(pairs):
    """Returns the nanoseconds in which Python makes two ints and puts them into a tuple that it uses again."""
    start = time.perf_counter_ns()
    for _, _ in zip(range(2**61, 2**61 + pairs), range(2**60, 2**60 + pairs)):
        pass
    return (time.perf_counter_ns() - start) / pairs


def bytes_of(package, kind, text, pairs):
    """Returns by how many bytes a pair the memory grows. It asks a process of its own."""
    grown = f"""import sys; sys.path[:0] = {sys.path!r}
from python import values_of
import {package}
maps = max(1, 100_000 // {pairs})
items = list(zip(values_of({text}, 0, {pairs}, 1), values_of(False, 0, {pairs}, 3)))

def size():
    grown, shared = open("/proc/self/statm").read().split()[1:3]
    return (int(grown) - int(shared)) * 4096

def made(number):
    its = [{package}.{kind}() for _ in range(number)]
    for it in its:
        it.putall(items[: {pairs}])
    return its

kept = made(1)
before = size()
more = made(maps)
print((size() - before) / {pairs} / maps)"""
    return float(subprocess.run([sys.executable, "-c", grown], capture_output=True, check=True, text=True).stdout)


def column(kind, text, pairs):
    """Returns the cells of a column of the table."""
    both = [("jetukoma", kind, text, pairs), ("bidict", "bidict", text, pairs)]
    runs = [[timed(*each) for each in both] + [two_ints(pairs)] for _ in range(RUNS.get(pairs, 5))]
    cells, spread = {}, 0
    for name, goal in GOALS.items():
        if name == "`bytes`":
            ours, theirs = (bytes_of(*each) for each in both)
        else:
            ours, theirs = (statistics.median(run[i][name] for run in runs) for i in (0, 1))
            low, middle, high = statistics.quantiles((run[0][name] / run[1][name] for run in runs), n=4)
            spread = max(spread, (high - low) / middle)
        ratio = f"{ours / theirs if theirs else 0:.2f}"
        cells[name] = f"{ours:.0f} ({f'**{ratio}**' if float(ratio) > goal else ratio})"
    ints, iterated = (statistics.median(each) for each in zip(*((run[2], run[1]["`items()`"]) for run in runs)))
    return {**cells, "two ints": f"{ints:.0f} ({ints / iterated:.2f})", "spread": f"{spread:.2f}"}


def main(words):
    kinds = [it for it in words if not it.isdigit()] or ["bidict"]
    sizes = [int(it) for it in words if it.isdigit()] or list(RUNS)
    print("load:", *os.getloadavg())
    for kind in kinds:
        heads = [f"{'str' if text else 'int'}, {pairs:,}" for text, pairs in product((False, True), sizes)]
        columns = [column(kind, text, pairs) for text, pairs in product((False, True), sizes)]
        print(f"{kind}:\n| call |", " | ".join(heads), "| goal |\n" + "|---" * (len(heads) + 2) + "|")
        for name in columns[0]:
            print(f"| {name} |", " | ".join(it[name] for it in columns), f"| {GOALS.get(name, '')} |")
    print("load:", *os.getloadavg())


if __name__ == "__main__":
    main(sys.argv[1:])
