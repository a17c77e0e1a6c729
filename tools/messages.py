#!/usr/bin/env python3
"""Gives ep_wire_rows the requests of a file of worked messages, and compares its replies.

messages.py FILE COMMAND..: FILE has a JSON object a line. It asks a call by `what`: `read_client` and `read_server` with
`text` and `limit`, answered by `value` or `refused`; `write_client` and `write_server` with `value`, answered by `text`.
COMMAND is ep_wire_rows, as crates/ep_wire_rows/out/ep_wire_rows, or what runs it. Values are compared as JSON, texts byte by
byte; each text that is to be written is read too. Each other reply is printed, and the exit status is 1 where there is one.
"""

import json
import subprocess
import sys

LIMIT = 1 << 24


def requests_of(case):
    """The requests of a line, each with the reply that is wanted."""
    what = case["what"]
    if what.startswith("read_"):
        wanted = {name: case[name] for name in ("value", "refused") if name in case}
        yield {"what": what, "text": case["text"], "limit": case["limit"]}, wanted
    else:
        yield {"what": what, "value": case["value"]}, {"text": case["text"]}
        again = {"what": what.replace("write_", "read_"), "text": case["text"], "limit": LIMIT}
        yield again, {"value": case["value"]}


def old_length(changeset):
    digits = changeset[2:].split(">")[0].split("<")[0]
    return int(digits, 36)


def agrees(wanted, reply):
    """Where a change is too long to be looked at, its old length alone is told."""
    told = wanted.get("value", {})
    if "old_len" in told and "changeset" in reply.get("value", {}):
        given = dict(reply["value"])
        given.pop("pool")
        given["old_len"] = old_length(given.pop("changeset"))
        return given == told
    return reply == wanted


def main():
    with open(sys.argv[1], encoding="utf-8") as lines:
        cases = [json.loads(line) for line in lines if line.strip()]
    asked = [
        (number, request, wanted)
        for number, case in enumerate(cases, 1)
        for request, wanted in requests_of(case)
    ]
    requests = "".join(json.dumps(request, ensure_ascii=False) + "\n" for _, request, _ in asked)
    ran = subprocess.run(sys.argv[2:], input=requests.encode(), capture_output=True, check=True)
    replies = [line for line in ran.stdout.decode().split("\n") if line.startswith("{")]
    if len(replies) != len(asked):
        sys.exit(f"{len(asked)} requests, {len(replies)} replies")
    others = set()
    for (number, request, wanted), reply in zip(asked, replies):
        if not agrees(wanted, json.loads(reply)):
            others.add(number)
            print(f"line {number}: {json.dumps(request, ensure_ascii=False)}")
            print(f"  wanted {json.dumps(wanted, ensure_ascii=False)}")
            print(f"  given  {reply}")
    print(f"{len(cases)} lines, {len(asked)} requests, {len(others)} lines answered otherwise")
    return 1 if others else 0


sys.exit(main())
