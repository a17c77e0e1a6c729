#!/usr/bin/env python3
"""Gives ep_http_rows the bytes of a file of worked requests, and compares what they come to.

http_requests.py FILE COMMAND..: FILE has a JSON object a line. COMMAND is crates/ep_http_rows/out/ep_http_rows, or what runs it.
The bytes of a line (its "text", or its "hex") with its "limit" on a body must come to its "method", "path" and "pairs", or be
refused as its "refused" says. Replies are compared as JSON values; each other one is printed, and the exit status is 1 where
there is one.
"""

import json
import subprocess
import sys

STATUSES = {"head": 400, "body": 400, "method": 405, "toobig": 413}


def asked(case):
    """The line for a case."""
    sent = bytes.fromhex(case["hex"]) if "hex" in case else case["text"].encode("ascii")
    return f"{case['limit']} {sent.hex()}\n"


def wanted(case):
    """The reply to it."""
    if "refused" not in case:
        return {name: case[name] for name in ("method", "pairs", "path")}
    refused = {"refused": case["refused"]}
    status = STATUSES.get(case["refused"].split()[0])
    return refused | {"status": status} if status else refused


def main():
    with open(sys.argv[1], encoding="utf-8") as lines:
        cases = [json.loads(line) for line in lines if line.strip()]
    ran = subprocess.run(sys.argv[2:], input="".join(map(asked, cases)).encode(), capture_output=True, check=True)
    replies = [line for line in ran.stdout.decode().splitlines() if line.startswith("{")]
    if len(replies) != len(cases):
        sys.exit(f"{len(cases)} requests, {len(replies)} replies")
    others = 0
    for number, (case, reply) in enumerate(zip(cases, replies), 1):
        if json.loads(reply) != wanted(case):
            others += 1
            print(f"request {number}: {asked(case)}", end="")
            print(f"  wanted {json.dumps(wanted(case), ensure_ascii=False)}")
            print(f"  given  {reply}")
    print(f"{len(cases)} requests, {others} other replies")
    return 1 if others else 0


sys.exit(main())
