#!/usr/bin/env python3
"""Gives padd the histories of a file of worked cases, in and out, and compares what it writes.

histories.py FILE COMMAND..: FILE has a JSON object a line. COMMAND is crates/padd/out/padd, or what runs it. Of a line whose
"what" is "import" or "export", padd is run in a new folder, in which the pad's file has the bytes "file" where it has any:
its output must be "stdout" and its status "status". What was imported is exported again, and must be "exported" where the
line has that. Other lines are passed over. Each other answer is printed, and the exit status is 1 where there is one.
"""

import json
import subprocess
import sys
import tempfile
from pathlib import Path


def file_of(folder, pad):
    """The file of a pad: its name's UTF-8 in hexadecimal digits."""
    return Path(folder) / (pad.encode("utf-8", "surrogatepass").hex() + ".pad")


def run(command, words, text):
    """What the program writes, and its status."""
    ran = subprocess.run(command + words, input=text, capture_output=True, check=False)
    return ran.stdout.decode("utf-8", "replace"), ran.returncode


def answers(command, case):
    """Pairs of what is wanted and what is given."""
    with tempfile.TemporaryDirectory() as folder:
        if "file" in case:
            file_of(folder, case["pad"]).write_bytes(bytes.fromhex(case["file"]))
        text = bytes.fromhex(case["text_hex"]) if "text_hex" in case else case.get("text", "").encode()
        yield (case["stdout"], case["status"]), run(command, [case["what"], folder, case["pad"]], text)
        if "exported" in case:
            yield (case["exported"] + "\n", 0), run(command, ["export", folder, case["pad"]], b"")


def main():
    with open(sys.argv[1], encoding="utf-8") as lines:
        cases = [json.loads(line) for line in lines if line.strip()]
    cases = [case for case in cases if case["what"] in ("import", "export")]
    others = 0
    for number, case in enumerate(cases, 1):
        for wanted, given in answers(sys.argv[2:], case):
            if given != wanted:
                others += 1
                print(f"case {number}: {case['what']} {case['pad']}")
                print(f"  wanted {wanted}")
                print(f"  given  {given}")
    print(f"{len(cases)} cases, {others} other answers")
    return 1 if others else 0


sys.exit(main())
