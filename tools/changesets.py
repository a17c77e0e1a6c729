#!/usr/bin/env python3
"""Gives easysync the requests of a file of worked calls, and compares its replies.

changesets.py FILE COMMAND..: FILE has a JSON object a line, {"reply":..,"request":..}. COMMAND is easysync, as
crates/easysync/out/easysync, or what runs it. Replies are compared as JSON values; each other one is printed, and the exit
status is 1 where there is one.
"""

import json
import subprocess
import sys


def main():
    with open(sys.argv[1], encoding="utf-8") as lines:
        cases = [json.loads(line) for line in lines if line.strip()]
    requests = "".join(json.dumps(case["request"], ensure_ascii=False) + "\n" for case in cases)
    ran = subprocess.run(sys.argv[2:], input=requests.encode(), capture_output=True, check=True)
    replies = [line for line in ran.stdout.decode().splitlines() if line.startswith("{")]
    if len(replies) != len(cases):
        sys.exit(f"{len(cases)} requests, {len(replies)} replies")
    others = 0
    for number, (case, reply) in enumerate(zip(cases, replies), 1):
        if json.loads(reply) != case["reply"]:
            others += 1
            print(f"line {number}: {json.dumps(case['request'], ensure_ascii=False)}")
            print(f"  wanted {json.dumps(case['reply'], ensure_ascii=False)}")
            print(f"  given  {reply}")
    print(f"{len(cases)} requests, {others} other replies")
    return 1 if others else 0


sys.exit(main())
