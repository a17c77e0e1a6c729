#!/usr/bin/env python3
"""Gives padd the scripts of a file of worked plays, and compares what it writes and its status.

play.py FILE COMMAND..: FILE has a JSON object a line, {"words":[..],"script":TEXT,"stdout":TEXT,"status":N}; a script that
isn't UTF-8 is "script_hex". COMMAND is padd, as crates/padd/out/padd, or what runs it; the words go behind it. Each play
that comes out otherwise is printed from its first other line on, and the exit status is 1 where there is one.
"""

import itertools
import json
import subprocess
import sys


def script_of(case):
    return bytes.fromhex(case["script_hex"]) if "script_hex" in case else case["script"].encode()


def first_other(wanted, given):
    pairs = itertools.zip_longest(wanted.splitlines(), given.splitlines())
    return next(((k, *pair) for k, pair in enumerate(pairs, 1) if pair[0] != pair[1]), None)


def main():
    with open(sys.argv[1], encoding="utf-8") as lines:
        cases = [json.loads(line) for line in lines if line.strip()]
    others = 0
    for number, case in enumerate(cases, 1):
        ran = subprocess.run(sys.argv[2:] + case["words"], input=script_of(case), capture_output=True, check=False)
        given = ran.stdout.decode(errors="replace")
        if given == case["stdout"] and ran.returncode == case["status"]:
            continue
        others += 1
        print(f"line {number}: {' '.join(case['words'])} {case.get('title', '')}")
        print(f"  status {case['status']} wanted, {ran.returncode} given")
        if other := first_other(case["stdout"], given):
            k, wanted, got = other
            print(f"  wanted at output line {k}: {wanted}")
            print(f"  given                   : {got}")
    print(f"{len(cases)} plays, {others} come out otherwise")
    return 1 if others else 0


sys.exit(main())
