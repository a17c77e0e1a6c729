#!/usr/bin/env python3
"""Gives ep_pad_rows the files and the appends of a file of worked cases, and compares what it says of them.

pads.py FILE COMMAND..: FILE has a JSON object a line. COMMAND is crates/ep_pad_rows/out/ep_pad_rows, or what runs it.
Of a line whose "what" is "file" the opening of the bytes "file" must say "opening" and leave the bytes "left". Of one whose
"what" is "append" the append of the record "append" to the file "file" on a disk that stops after "calls" calls, with the
image "image" of the length "length", must leave the bytes "left" with "records" records. Other lines are passed over. Each
other reply is printed, and the exit status is 1 where there is one.
"""

import json
import subprocess
import sys


def asked(case):
    """The line that is asked, and the one that is wanted; nothing of other cases."""
    if case["what"] == "file":
        return case["file"], f"{case['opening']} {case['left']}"
    if case["what"] == "append":
        words = ["append", case["file"], case["append"], str(case["calls"]), case["image"], case["length"]]
        return " ".join(words), f"{case['records']} {case['left']}"
    return None


def main():
    with open(sys.argv[1], encoding="utf-8") as lines:
        cases = [asked(json.loads(line)) for line in lines if line.strip()]
    cases = [case for case in cases if case is not None]
    questions = "".join(question + "\n" for question, _ in cases)
    ran = subprocess.run(sys.argv[2:], input=questions.encode(), capture_output=True, check=True)
    replies = ran.stdout.decode().splitlines()
    if len(replies) < len(cases):
        sys.exit(f"{len(cases)} lines, {len(replies)} replies")
    others = 0
    for number, ((question, wanted), reply) in enumerate(zip(cases, replies), 1):
        if reply != wanted:
            others += 1
            print(f"line {number}: {question}")
            print(f"  wanted {wanted}")
            print(f"  given  {reply}")
    print(f"{len(cases)} lines, {others} other replies")
    return 1 if others else 0


sys.exit(main())
