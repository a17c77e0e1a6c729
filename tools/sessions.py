#!/usr/bin/env python3
"""Gives ep_session_rows the sessions of a file of worked sessions, and compares what they come to.

sessions.py FILE COMMAND..: FILE has a JSON object a line. COMMAND is crates/ep_session_rows/out/ep_session_rows, or what
runs it. What a session sent, how it ended and the numbers of its report are compared with the members of these names of its
line, and how the pad asked about stands where its line tells it; each other one is printed, and the exit status is 1 where
there is one.
"""

import json
import subprocess
import sys

MEMBERS = ("cursor", "end", "sent", "session", "start", "taken")
STANDING = ("head", "live")


def main():
    with open(sys.argv[1], encoding="utf-8") as lines:
        cases = [json.loads(line) for line in lines if line.strip()]
    requests = "".join(json.dumps(case, ensure_ascii=False) + "\n" for case in cases)
    ran = subprocess.run(sys.argv[2:], input=requests.encode(), capture_output=True, check=True)
    replies = [line for line in ran.stdout.decode().splitlines() if line.startswith("{")]
    if len(replies) != len(cases):
        sys.exit(f"{len(cases)} requests, {len(replies)} replies")
    others = 0
    for number, (case, reply) in enumerate(zip(cases, replies), 1):
        wanted = {name: case[name] for name in MEMBERS}
        wanted.update((name, case[name]) for name in STANDING if name in case)
        if json.loads(reply) != wanted:
            others += 1
            print(f"line {number}: {case.get('title', '')}")
            print(f"  wanted {json.dumps(wanted, ensure_ascii=False)}")
            print(f"  given  {reply}")
    print(f"{len(cases)} requests, {others} other replies")
    return 1 if others else 0


sys.exit(main())
