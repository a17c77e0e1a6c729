#!/usr/bin/env python3
"""Gives ep_record_rows the bytes of a file of worked records, and compares what they are read as.

records.py FILE COMMAND..: FILE has a JSON object a line. COMMAND is crates/ep_record_rows/out/ep_record_rows, or what runs it.
Of a line whose "what" is "record" the bytes "hex" must be read as its "record" and written again as they were; of one whose
"what" is "bytes" they must be read as its "record", or as none where that is null. Lines that ask for something else are
passed over. Records are compared as JSON values; each other one is printed, and the exit status is 1 where there is one.
"""

import json
import subprocess
import sys


def main():
    with open(sys.argv[1], encoding="utf-8") as lines:
        cases = [json.loads(line) for line in lines if line.strip()]
    cases = [case for case in cases if case["what"] in ("record", "bytes")]
    asked = "".join(case["hex"] + "\n" for case in cases)
    ran = subprocess.run(sys.argv[2:], input=asked.encode(), capture_output=True, check=True)
    replies = [line for line in ran.stdout.decode().splitlines() if line.startswith(("{", "null"))]
    if len(replies) != len(cases):
        sys.exit(f"{len(cases)} records, {len(replies)} replies")
    others = 0
    for number, (case, reply) in enumerate(zip(cases, replies), 1):
        wanted = case["record"] and {"hex": case["hex"], "record": case["record"]}
        if json.loads(reply) != wanted:
            others += 1
            print(f"record {number}: {case['hex']}")
            print(f"  wanted {json.dumps(wanted, ensure_ascii=False)}")
            print(f"  given  {reply}")
    print(f"{len(cases)} records, {others} other replies")
    return 1 if others else 0


sys.exit(main())
