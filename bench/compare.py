#!/usr/bin/env python3
"""Times ep_bench beside programs that do the same work, and prints the ratios.

compare.py PROGRAM PEERS FLOOR TAKING: PEERS is a folder with js-easysync. FLOOR is a program in plain Rust that does the
least that an operation needs; it is given a folder that it may write in. TAKING is taking.rs of this folder, built. These and
the JavaScript programs print a line an item: name, operations per second, microseconds each, note, with tabs between.
"""

import os
import subprocess
import sys
import tempfile
import time

# name, word, units, count, items of the JavaScript program whose times are added, the item of the plain Rust program
ITEMS = [
    ("read a small edit, 10,000 units", "read", 10_000, 300_000, ["10KB/parse", "10KB/checkRep"], None),
    ("read a small edit, 1,000,000 units", "read", 1_000_000, 300_000, ["1MB/parse", "1MB/checkRep"], None),
    ("print a small edit, 10,000 units", "print", 10_000, 300_000, [], None),
    ("fill a pool of 100,000", "pool", 100_000, 1, [], None),
    ("fill a pool of 100,000 that one hash can't tell apart", "pool-collide", 100_000, 1, [], None),
    ("fits, 10,000 units", "fits", 10_000, 100_000, [], None),
    ("fits, 1,000,000 units", "fits", 1_000_000, 2_000, [], None),
    ("apply, 10,000 units", "apply", 10_000, 200_000, ["10KB/one run/applyToAText"], "10KB/flat apply"),
    ("apply, 10,000 units, runs of 50", "apply-runs", 10_000, 200_000, ["10KB/runs of 50/applyToAText"], "10KB/flat apply"),
    ("apply, 1,000,000 units", "apply", 1_000_000, 5_000, ["1MB/one run/applyToAText"], "1MB/flat apply"),
    ("apply, 1,000,000 units, runs of 50", "apply-runs", 1_000_000, 5_000, ["1MB/runs of 50/applyToAText"], "1MB/flat apply"),
    ("compose two small edits, 1,000 units", "compose", 1_000, 500_000, [], "compose"),
    ("compose two small edits, 10,000 units", "compose", 10_000, 500_000, ["10KB/compose"], "compose"),
    ("compose two small edits, 1,000,000 units", "compose", 1_000_000, 500_000, ["1MB/compose"], "compose"),
    ("follow a small edit, 1,000 units", "follow", 1_000, 500_000, [], "follow"),
    ("follow a small edit, 10,000 units", "follow", 10_000, 500_000, ["10KB/follow"], "follow"),
    ("follow a small edit, 1,000,000 units", "follow", 1_000_000, 500_000, ["1MB/follow"], "follow"),
    ("rebase through 1,000 revisions, 10,000 units", "rebase", 10_000, 2_000, ["rebase1000"], "rebase1000"),
    ("slide 10,000 letters by 100, 10,000 units, each letter", "slide", 10_000, 50, ["compose10000/fold"], "compose10000/fold"),
    ("hear a revision with one unsent letter, 10,000 units", "hear", 10_000, 50, ["10KB/hear"], None),
    ("hear a revision with one unsent letter, 1,000,000 units", "hear", 1_000_000, 5, ["1MB/hear"], None),
    ("read a browser's message with a small edit", "read-changes", 10_000, 100_000, ["10KB/read-changes"], None),
    ("print the news of a small edit", "print-news", 10_000, 100_000, ["10KB/print-news"], None),
    ("print what a client is told, 10,000 units, runs of 50", "print-vars", 10_000, 1_000, ["10KB/print-vars"], None),
    ("print what a client is told, 1,000,000 units, runs of 50", "print-vars", 1_000_000, 20, ["1MB/print-vars"], None),
]

# name, units, how many revisions behind the head, count, and items of the JavaScript program and of plain Rust
TAKES = [
    ("take a letter at the head of 10,000 units", 10_000, 0, 300, "10KB/take0", ["10KB/take by copying", "10KB/take in blocks", "10KB/flat apply"]),
    ("1,000 revisions behind the head of 10,000 units", 10_000, 1_000, 50, "10KB/take1000", ["rebase1000"]),
    ("at the head of 1,000,000 units", 1_000_000, 0, 300, "1MB/take0", ["1MB/take by copying", "1MB/take in blocks", "1MB/flat apply"]),
    ("1,000 revisions behind the head of 1,000,000 units", 1_000_000, 1_000, 50, "1MB/take1000", ["rebase1000"]),
]

# how many of the single operations that the others time there are in one of ours
PARTS = {"slide": 9_999, "hear": 1_000}


def seconds(program, word, units, count):
    """The best of nine runs."""
    best = None
    for _ in range(9):
        begin = time.perf_counter()
        subprocess.run([program, word, str(units), str(count)], check=True, stdout=subprocess.DEVNULL)
        spent = time.perf_counter() - begin
        best = spent if best is None else min(best, spent)
    return best


def call_microseconds(program, units, behind, count):
    """The microseconds of each take alone, as the program says: the best of nine runs."""
    command = [program, "accept", str(units), str(behind), str(count)]
    spent = [int(subprocess.run(command, check=True, capture_output=True, text=True).stderr.split()[0]) for _ in range(9)]
    return min(spent) / count / 1e3


def compare_takes(program, theirs, least):
    """Prints how long takes last, beside JavaScript, which keeps no record, and plain Rust, which has no disk."""
    for name, units, behind, count, item, floors in TAKES:
        ours = call_microseconds(program, units, behind, count)
        line = f"{name}: {ours:.3f} us; JavaScript {theirs[item]:.3f} us, {theirs[item] / ours:.1f} times"
        for floor in floors:
            line += f"; plain Rust, {floor.split('/')[-1]}, {least[floor]:.3f} us, we take {ours / least[floor]:.2f} times"
        print(line)


def microseconds(command, runs):
    """The microseconds of each item of a program, by its name: the best of so many runs."""
    best = {}
    for _ in range(runs):
        lines = subprocess.run(command, check=True, capture_output=True, text=True).stdout.splitlines()
        parts = [line.split("\t") for line in lines if "\t" in line and not line.startswith("#")]
        for part in parts:
            if len(part) > 2:
                best[part[0]] = min(float(part[2]), best.get(part[0], float("inf")))
    return best


def main():
    program, peers, floor_program, taking = sys.argv[1:5]
    theirs = microseconds(["node", f"{peers}/js-easysync/bench.js", "0.5"], 3)
    own = os.path.dirname(os.path.abspath(__file__))
    for script, runs in ("hear.js", 1), ("messages.js", 3), ("taking.js", 3):
        theirs |= microseconds(["node", f"{own}/{script}", peers, "3"], runs)
    with tempfile.TemporaryDirectory() as folder:
        least = microseconds([floor_program, folder], 5) | microseconds([taking], 3)
    for name, word, units, count, items, floor in ITEMS:
        spent = seconds(program, word, units, count) - seconds(program, word, units, 0)
        ours = spent / count / PARTS.get(word, 1) * 1e6
        line = f"{name}: {ours:.3f} us"
        if items:
            other = sum(theirs[item] for item in items)
            line += f"; JavaScript {other:.3f} us, {other / ours:.1f} times"
        if floor in least:
            line += f"; plain Rust {least[floor]:.3f} us, we take {ours / least[floor]:.2f} times"
        print(line)
    compare_takes(program, theirs, least)


main()
