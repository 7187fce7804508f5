#!/usr/bin/env python3
"""Measures the library's bench program beside the baseline, and prints the ratios of their costs.

A cost is processor time: the least of several runs that make the work 1 + R times, less the least of as many runs that make it
once. So the start of the process, the making of the inputs and the checksums of what is left at the end count for neither. The
runs of the two programs take turns. Where they print different checksums, the script fails.
"""

import argparse
import os
import resource
import subprocess
import sys

TOP = os.path.join(os.path.dirname(os.path.abspath(__file__)), "..")
OURS = os.path.join(TOP, "target", "bin", "bench")
THEIRS = os.path.join(TOP, "bench", "target", "release", "baseline")

# What is done, its arguments, and how many rounds are measured.
ROWS = [
    ("opening 14 heads", "open", 50_000),
    ("opening an array of 64 elements, 15 levels", "array 64 15", 200_000),
    ("opening an array of 2,048 elements, 15 levels", "array 2048 15", 30_000),
    ("whose of 1,000,000 places, 1 piece", "whose 1 1 1000000", 5),
    ("whose of 1,000,000 places, 6 x 15 pieces", "whose 6 15 1000000", 5),
    ("whose of 1,000,000 places, 2,048 x 15 pieces", "whose 2048 15 1000000", 5),
]

# Lists of calls: the bytes of a stroke, how many strokes for each loan handed in (0: none is), and how many strokes are made in all.
LISTS = [(1, 64, 1_000_000), (64, 64, 1_000_000), (4_096, 64, 200_000), (64, 0, 1_000_000)]
STROKES = [1_000, 10_000, 100_000]


def list_rows():
    for length, every, total in LISTS:
        for strokes in STROKES:
            ends = f"a loan handed in after {every}" if every else "no loan handed in"
            unit = "byte" if length == 1 else "bytes"
            label = f"{strokes:,} strokes of {length:,} {unit}, {ends}"
            yield label, f"calls {length} {strokes} {every}", total // strokes


def spent_by_children():
    usage = resource.getrusage(resource.RUSAGE_CHILDREN)
    return usage.ru_utime + usage.ru_stime


def run(program, args, rounds):
    """Runs a program; answers its processor time and what it printed."""
    before = spent_by_children()
    done = subprocess.run([program, *args.split(), str(rounds)], capture_output=True, text=True, check=True)
    return spent_by_children() - before, done.stdout


def measure(args, rounds, times):
    """The costs of both programs, ours first."""
    least = {}
    for _ in range(times):
        for count in (1, 1 + rounds):
            printed = set()
            for program in (OURS, THEIRS):
                spent, text = run(program, args, count)
                printed.add(text)
                key = program, count
                least[key] = min(spent, least.get(key, spent))
            if len(printed) != 1:
                sys.exit(f"{args} {count}: the programs differ: {sorted(printed)}")
    return [least[program, 1 + rounds] - least[program, 1] for program in (OURS, THEIRS)]


def main():
    parser = argparse.ArgumentParser(description=__doc__)
    parser.add_argument("--times", type=int, default=15, help="runs of each kind")
    parser.add_argument("--only", default="", help="only the rows whose arguments begin so")
    options = parser.parse_args()
    print("| work | ours to Rust's | growth of ours | growth of Rust's |")
    print("|---|---|---|---|")
    first = None
    for label, args, rounds in [*ROWS, *list_rows()]:
        if not args.startswith(options.only):
            continue
        ours, theirs = measure(args, rounds, options.times)
        growth = "| | |"
        if args.startswith("calls"):
            # the same number of strokes in lists of another length: what a stroke costs beside one of the shortest lists
            first = (ours, theirs) if f" {STROKES[0]} " in args else first
            growth = f"| {ours / first[0]:.2f} | {theirs / first[1]:.2f} |" if first else growth
        print(f"| {label} | {ours / theirs:.2f} {growth}", flush=True)


main()
