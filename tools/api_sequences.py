#!/usr/bin/env python3
"""Gives ep_api_rows a file of worked sequences, and compares what their steps are answered.

api_sequences.py FILE COMMAND..: FILE has a JSON object a line, with "draws", "key" and "steps". COMMAND is
crates/ep_api_rows/out/ep_api_rows, or what runs it. A request must be answered with the "status" and "body" of its step; a
step that is a login of another caller must give its session, or be refused. Each other reply is printed, and the exit status
is 1 where there is one.
"""

import json
import subprocess
import sys


def wanted(step):
    """The reply to a step."""
    if "path" in step:
        return {"body": step["body"], "status": step["status"]}
    if isinstance(step["gives"], str):
        return None
    return {"session": [int(n) for n in step["gives"]["session"].split(".")]}


def main():
    with open(sys.argv[1], encoding="utf-8") as lines:
        sequences = [json.loads(line) for line in lines if line.strip()]
    asked = "".join(json.dumps(sequence) + "\n" for sequence in sequences)
    ran = subprocess.run(sys.argv[2:], input=asked.encode(), capture_output=True, check=True)
    replies = [json.loads(line) for line in ran.stdout.decode().splitlines() if line.startswith("[")]
    if len(replies) != len(sequences):
        sys.exit(f"{len(sequences)} sequences, {len(replies)} replies")
    steps = others = 0
    for number, (sequence, given) in enumerate(zip(sequences, replies)):
        for step, reply in zip(sequence["steps"], given, strict=True):
            steps += 1
            if reply != wanted(step):
                others += 1
                print(f"sequence {number}: {json.dumps(step)}\n  wanted {wanted(step)}\n  given  {reply}")
    print(f"{len(sequences)} sequences of {steps} steps, {others} other replies")
    return 1 if others else 0


sys.exit(main())
