#!/usr/bin/env python3
"""Samples a run of the gate, and says what each crate cost.

    tools/gate_times.py SECONDS [TOP]

Start it beside `rt ci`. For so many seconds, until no check has run for a minute after the first, or until it is ended (SIGTERM), it looks every two
seconds at the running checks of this machine, and at the end writes a table of the processor seconds of each crate: its
proof, its tests, what its must-fail edits begin with, and the edits. With a folder TOP only checks below it count, and
those of edits, which work in folders of their own. A check that ends between two looks is counted as at the last one, so
the figures are a little low. It reads /proc alone, and changes nothing.
"""

import os
import signal
import sys
import time

TICKS = os.sysconf("SC_CLK_TCK")
KINDS = ["proof", "tests", "seed", "edits"]


def words_of(process):
    with open(f"/proc/{process}/cmdline", encoding="utf-8", errors="replace") as it:
        return it.read().split("\0")


def seconds_of(process):
    with open(f"/proc/{process}/stat", encoding="utf-8", errors="replace") as it:
        fields = it.read().rsplit(")", 1)[1].split()
    return (int(fields[11]) + int(fields[12])) / TICKS, fields[19]


def kind_of(words, folder):
    """What a check is for: a crate's proof or its tests, what its edits begin with, or an edit."""
    if "rt-edit" in folder:
        over = words[words.index("--incremental") + 1] if "--incremental" in words else ""
        return "seed" if over.endswith("/seed") else "edits"
    return "tests" if "--test" in words else "proof"


def look(top, seen):
    """Notes the processor seconds of each check that runs now."""
    found = False
    for process in filter(str.isdigit, os.listdir("/proc")):
        try:
            words = words_of(process)
            if not words[0].endswith("/rattle") or "--crate-name" not in words:
                continue
            folder = os.readlink(f"/proc/{process}/cwd")
            if top and not folder.startswith(top) and "rt-edit" not in folder:
                continue
            seconds, began = seconds_of(process)
            crate = words[words.index("--crate-name") + 1]
            seen[process, began] = crate, kind_of(words, folder), seconds
            found = True
        except (OSError, ValueError, IndexError):
            continue
    return found


def table(seen):
    sums = {}
    for crate, kind, seconds in seen.values():
        row = sums.setdefault(crate, dict.fromkeys(KINDS, 0.0))
        row[kind] += seconds
    print("| crate | " + " | ".join(KINDS) + " | all |")
    print("|---|" + "---|" * (len(KINDS) + 1))
    for crate, row in sorted(sums.items(), key=lambda it: -sum(it[1].values())):
        print(f"| {crate} | " + " | ".join(f"{row[it]:.0f}" for it in KINDS) + f" | {sum(row.values()):.0f} |")
    whole = {it: sum(row[it] for row in sums.values()) for it in KINDS}
    print("| all | " + " | ".join(f"{whole[it]:.0f}" for it in KINDS) + f" | {sum(whole.values()):.0f} |")


def main():
    if len(sys.argv) not in (2, 3):
        sys.exit(__doc__)
    signal.signal(signal.SIGTERM, signal.default_int_handler)
    end, top = time.time() + float(sys.argv[1]), os.path.abspath(sys.argv[2]) if len(sys.argv) == 3 else ""
    seen, last = {}, None
    try:
        while time.time() < end and (last is None or time.time() - last < 60):
            if look(top, seen):
                last = time.time()
            time.sleep(2)
    except KeyboardInterrupt:
        pass
    table(seen)


if __name__ == "__main__":
    main()
