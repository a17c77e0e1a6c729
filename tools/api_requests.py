#!/usr/bin/env python3
"""Gives ep_ask_rows the requests of a file of worked sequences, and compares what they come to.

api_requests.py FILE COMMAND..: FILE has a JSON object a line, with a "key" and "steps". COMMAND is
crates/ep_ask_rows/out/ep_ask_rows, or what runs it. A request that is refused by itself alone must be refused with the "status"
and "body" of its step; any other must come to the function of its path. Each other reply is printed, and the exit status is 1
where there is one.
"""

import json
import subprocess
import sys

# How messages end that depend on the request alone.
ALONE = (
    " is missing",
    " is not a number",
    " is not a boolean",
    "padID is not valid",
    "createPad can't create group pads",
    "padID is not a group pad",
    "no such api version",
    "no such function",
    "no or wrong API Key",
    "Not Found",
)


def wanted(step):
    """The reply to a step's request."""
    if json.loads(step["body"])["message"].endswith(ALONE):
        return {"body": step["body"], "status": step["status"]}
    return {"function": step["path"].split("/")[3]}


def main():
    with open(sys.argv[1], encoding="utf-8") as lines:
        sequences = [json.loads(line) for line in lines if line.strip()]
    cases = [(s["key"], step) for s in sequences for step in s["steps"] if "path" in step]
    asked = [json.dumps({"key": key, "pairs": step["pairs"], "path": step["path"]}) + "\n" for key, step in cases]
    ran = subprocess.run(sys.argv[2:], input="".join(asked).encode(), capture_output=True, check=True)
    replies = [line for line in ran.stdout.decode().splitlines() if line.startswith("{")]
    if len(replies) != len(cases):
        sys.exit(f"{len(cases)} requests, {len(replies)} replies")
    others = 0
    for line, (_, step), reply in zip(asked, cases, replies):
        if json.loads(reply) != wanted(step):
            others += 1
            print(f"request {line}  wanted {wanted(step)}\n  given  {reply}")
    refused = sum("status" in wanted(step) for _, step in cases)
    print(f"{len(cases)} requests, {refused} of them refused, {others} other replies")
    return 1 if others else 0


sys.exit(main())
