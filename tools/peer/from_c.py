#!/usr/bin/env python3
"""tools/peer/from_c.py [--runs N] [--pairs N]: times the calls from C beside the same calls inside Rattle.

It uses `crates/tool_bench/out/tool_bench`, which `rt run` makes, and `crates/bimap_c/out/libbimap_c.a`, which `rt lib` makes. Both
programs run in turn. Each figure is the least of all runs. Both must find the same. The tool prints a table, and fails if a call takes
longer from C than the goals allow. Run it on a quiet machine, with a load under 1.
"""
import argparse
import os
import subprocess
import sys
import tempfile

os.chdir(os.path.dirname(os.path.dirname(os.path.dirname(os.path.abspath(__file__)))))
BENCH, ARCHIVE = "crates/tool_bench/out/tool_bench", "crates/bimap_c/out/libbimap_c.a"
KINDS = ["BiBTreeMap", "BiHashMap"]
#    How much longer a call may take from C. A row is beside `iter`. Calls without a goal are only shown.
GOALS = {"insert": 1.1, "same-pair": 1.1, "overwrite": 1.1, "hit-by-left": 1.1, "hit-by-right": 1.1, "miss-by-left": 1.1, "walk": 1.3, "walk-back": 1.3}


def lines_of(command):
    ran = subprocess.run(command, capture_output=True, text=True, check=True)
    words = [line.split() for line in ran.stdout.splitlines()]
    return {call: (float(nanos), found) for _, call, nanos, found in words if call != "bytes"}


def main():
    parser = argparse.ArgumentParser()
    parser.add_argument("--runs", type=int, default=15)
    parser.add_argument("--pairs", type=int, nargs="+", default=[1_000, 100_000])
    options = parser.parse_args()
    late = 0
    print(f"load {os.getloadavg()[0]:.2f}, the least of {options.runs} runs, nanoseconds a pair")
    print("| pairs | kind | call | inside Rattle | from C | ratio | goal |\n|---|---|---|---|---|---|---|")
    with tempfile.TemporaryDirectory() as room:
        subprocess.run(["cc", "-std=c11", "-O2", "-Ibindings/c", "tools/peer/times.c", ARCHIVE, "-o", f"{room}/times"], check=True)
        for pairs in options.pairs:
            for kind in KINDS:
                inside, outside = {}, {}
                for _ in range(options.runs):
                    for best, command in ((inside, [BENCH, str(pairs), "times", "chance", kind]), (outside, [f"{room}/times", str(pairs), kind])):
                        for call, (nanos, found) in lines_of(command).items():
                            best[call] = (min(nanos, best.get(call, (nanos, 0))[0]), found)
                for call, (nanos, found) in outside.items():
                    if inside[call][1] != found:
                        sys.exit(f"tools/peer/from_c.py: {kind} {call}: {found} from C, {inside[call][1]} inside Rattle")
                    ratio, goal = nanos / inside[call][0], GOALS.get(call)
                    late += goal is not None and ratio > goal
                    print(f"| {pairs:,} | {kind} | {call} | {inside[call][0]:.1f} | {nanos:.1f} | {ratio:.2f} | {goal or '–'} |")
    return late != 0


sys.exit(main())
