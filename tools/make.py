#!/usr/bin/env python3
"""Gives ep_make_rows the schedules of a file of worked cases, and compares their five lines.

make.py FILE COMMAND..: FILE has a JSON object a line, {"number":N,"clients":N,"edits":N,"stdout":TEXT}. COMMAND is
crates/ep_make_rows/out/ep_make_rows, or what runs it. Each schedule that comes out otherwise is printed, and the exit
status is 1 where there is one.
"""

import json
import subprocess
import sys


def main():
    with open(sys.argv[1], encoding="utf-8") as lines:
        cases = [json.loads(line) for line in lines if line.strip()]
    questions = [f"{case['number']} {case['clients']} {case['edits']}" for case in cases]
    text = "".join(question + "\n" for question in questions)
    ran = subprocess.run(sys.argv[2:], input=text.encode(), capture_output=True, check=True)
    given = ran.stdout.decode().splitlines(keepends=True)
    others = 0
    for number, (question, case) in enumerate(zip(questions, cases)):
        made = "".join(given[5 * number : 5 * number + 5])
        if made != case["stdout"]:
            others += 1
            print(f"make {question}")
            print(f"  wanted {case['stdout']!r}")
            print(f"  given  {made!r}")
    print(f"{len(cases)} schedules, {others} come out otherwise")
    return 1 if others else 0


sys.exit(main())
