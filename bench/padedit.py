#!/usr/bin/env python3
"""What a request to `padedit` takes in a large pad.

    bench/padedit.py [--units N] [--times N] PADEDIT

PADEDIT is the program. It is told the document of N units (1,000,000) in lines of 77, of which each 50 units are another's; then
an edit and another's revision come in turn, as often as told (400), at places all over the text. Each line's time is that from
its writing to its reply's last byte, processor time that of the process, memory its resident set.
"""
import argparse
import json
import os
import random
import statistics
import subprocess
import sys
import time

DIGITS = "0123456789abcdefghijklmnopqrstuvwxyz"


def base36(number):
    said = DIGITS[number % 36]
    while number >= 36:
        number //= 36
        said = DIGITS[number % 36] + said
    return said


def document(units):
    """A text in lines of 77 units and its attributes, in runs of 50 by two authors in turn."""
    text = "".join("\n" if place % 77 == 76 else "x" for place in range(units - 1)) + "\n"
    attribs = []
    for number, at in enumerate(range(0, units, 50)):
        run = text[at:at + 50]
        lines, last = run.count("\n"), run.rfind("\n") + 1
        if lines:
            attribs.append(f"*{number % 2}|{base36(lines)}+{base36(last)}")
        if last < len(run):
            attribs.append(f"*{number % 2}+{base36(len(run) - last)}")
    return text, "".join(attribs)


def insertion(text, length, at):
    """The changeset that puts an x of the second author at a place of the text, of which only the first line breaks matter."""
    lines, last = text.count("\n", 0, at), text.rfind("\n", 0, at) + 1
    skip = (f"|{base36(lines)}={base36(last)}" if lines else "") + (f"={base36(at - last)}" if at > last else "")
    return f"Z:{base36(length)}>1{skip}*0+1$x"


class Program:
    def __init__(self, path):
        self.process = subprocess.Popen([path], stdin=subprocess.PIPE, stdout=subprocess.PIPE)

    def processor(self):
        with open(f"/proc/{self.process.pid}/stat", encoding="ascii") as stat:
            fields = stat.read().rsplit(")", 1)[1].split()
        return (int(fields[11]) + int(fields[12])) / os.sysconf("SC_CLK_TCK")

    def memory(self, which):
        """Its resident set in megabytes: the greatest so far (VmHWM), or now (VmRSS)."""
        with open(f"/proc/{self.process.pid}/status", encoding="ascii") as status:
            return next(int(line.split()[1]) for line in status if line.startswith(which)) * 1024 / 1e6

    def ask(self, request):
        line = json.dumps(request).encode() + b"\n"
        begun = time.perf_counter()
        self.process.stdin.write(line)
        self.process.stdin.flush()
        reply = self.process.stdout.readline()
        took = time.perf_counter() - begun
        said = json.loads(reply)
        if "refused" in said or "error" in said:
            sys.exit(f"refused: {reply[:200]}")
        return took, said


def heard(kind, data):
    return {"do": "heard", "message": json.dumps({"type": kind, "data": data})}


def main():
    parser = argparse.ArgumentParser()
    parser.add_argument("--units", type=int, default=1_000_000)
    parser.add_argument("--times", type=int, default=400)
    parser.add_argument("padedit")
    args = parser.parse_args()
    text, attribs = document(args.units)
    pool = {"nextNum": 2, "numToAttrib": {"0": ["author", "a.one"], "1": ["author", "a.two"]}}
    program = Program(args.padedit)
    program.ask({"do": "enter", "pad": "p", "token": "t"})
    took, _ = program.ask(heard("CLIENT_VARS", {
        "birth": 1, "padId": "p", "readonly": False, "session": "1.1", "userId": "a.me",
        "collab_client_vars": {"apool": pool, "initialAttributedText": {"attribs": attribs, "text": text}, "rev": 0, "time": 1}}))
    print(f"opening {args.units} units: {took * 1000:.0f} ms, processor {program.processor():.2f} s, "
          f"memory {program.memory('VmRSS'):.1f} MB, at most {program.memory('VmHWM'):.1f} MB")
    rng, length, edits, news = random.Random(1), args.units, [], []
    for rev in range(1, args.times + 1):
        at = rng.randrange(args.units - 1)
        took, _ = program.ask({"do": "edit", "at": at, "drop": 0, "put": "y"})
        edits.append(took)
        place = rng.randrange(args.units - 1)
        took, _ = program.ask(heard("COLLABROOM", {
            "type": "NEW_CHANGES", "newRev": rev, "changeset": insertion(text, length, place), "author": "a.two", "session": "1.2",
            "apool": {"nextNum": 1, "numToAttrib": {"0": ["author", "a.two"]}}, "currentTime": rev, "timeDelta": 1}))
        news.append(took)
        length += 1
        text = text[:place] + "x" + text[place:]
    for name, times in (("an edit", edits), ("another's revision", news)):
        print(f"{name}: middle {statistics.median(times) * 1000:.3f} ms, ninety of a hundred {sorted(times)[len(times) * 9 // 10] * 1000:.3f} ms")
    print(f"memory at the end {program.memory('VmRSS'):.1f} MB, at most {program.memory('VmHWM'):.1f} MB")


if __name__ == "__main__":
    main()
