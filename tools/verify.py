#!/usr/bin/env python3
"""Gives ep_verify_rows the files of a file of worked cases, and compares its verdicts.

verify.py FILE COMMAND..: FILE has a JSON object a line. COMMAND is crates/ep_verify_rows/out/ep_verify_rows, or what runs
it. Of a line whose "what" is "file" the verdict on the bytes "file" must be "verdict". Other lines are passed over. Each
other verdict is printed, and the exit status is 1 where there is one.
"""

import json
import subprocess
import sys


def main():
    with open(sys.argv[1], encoding="utf-8") as lines:
        cases = [json.loads(line) for line in lines if line.strip()]
    cases = [(case["file"], case["verdict"]) for case in cases if case["what"] == "file"]
    questions = "".join(file + "\n" for file, _ in cases)
    ran = subprocess.run(sys.argv[2:], input=questions.encode(), capture_output=True, check=True)
    verdicts = ran.stdout.decode().splitlines()
    if len(verdicts) < len(cases):
        sys.exit(f"{len(cases)} files, {len(verdicts)} verdicts")
    others = 0
    for number, ((file, wanted), given) in enumerate(zip(cases, verdicts), 1):
        if given != wanted:
            others += 1
            print(f"file {number}: {file}")
            print(f"  wanted {wanted}")
            print(f"  given  {given}")
    print(f"{len(cases)} files, {others} other verdicts")
    return 1 if others else 0


sys.exit(main())
