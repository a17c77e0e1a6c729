#!/usr/bin/env python3
"""Turns a bit in the file of a pad, and says what is left of it.

    tools/strangers/turned_bit.py [--edits N] COMMAND..

COMMAND runs `padd` (a path, or several words). In a fresh folder a server makes a pad and edits it N times (200), and is
killed. Then, each with a fresh copy of the file, one bit is turned: each bit of a gate in the middle, the lowest bit of
the first gate, of the last but one and of the last, and three bits of a length. `verify` is asked what it is; a server is
started and asked for the number of revisions, which opens the file; and it is told whether the file was kept beside
itself. A kept file, with its bit turned back, must be what it was. The status is 1 where more than one record is cut off
and not kept, or where `verify` calls such a file whole.
"""
import argparse
import os
import shutil
import subprocess
import sys
import tempfile

from failed_sync import Server

PAD = "61.pad"


def gates_of(file):
    """The places of the open gates, and that of the closed one."""
    gates, at = [], 8
    while file[at] == 1:
        gates.append(at)
        at += 5 + int.from_bytes(file[at + 1 : at + 5], "big")
    return gates, at


def made(command, folder, edits):
    """The file of a pad that was edited so often."""
    server = Server(command, folder, {})
    try:
        server.ask("createPad", padID="a", text="a")
        for number in range(edits):
            server.ask("setText", padID="a", text=f"number {number}")
    finally:
        server.kill()
    with open(os.path.join(folder, PAD), "rb") as it:
        return it.read()


class Trial:
    def __init__(self, command, folder, file):
        self.command, self.folder, self.file = command, folder, file
        self.gates, self.end = gates_of(file)
        self.wrong = 0

    def judged(self):
        ran = subprocess.run([*self.command, "verify", self.folder, "1"], capture_output=True, check=False)
        return ran.stdout.decode().strip(), ran.returncode

    def opened(self):
        """How many revisions a server finds."""
        server = Server(self.command, self.folder, {})
        try:
            return server.ask("getRevisionsCount", padID="a")
        finally:
            server.kill()

    def turn(self, what, at, bit):
        shutil.rmtree(self.folder)
        os.mkdir(self.folder)
        turned = bytearray(self.file)
        turned[at] ^= 1 << bit
        path = os.path.join(self.folder, PAD)
        with open(path, "wb") as it:
            it.write(turned)
        said, status = self.judged()
        told = self.opened()
        with open(path, "rb") as it:
            now = it.read()
        ends = [*self.gates[1:], self.end]
        lost = sum(now[gate:end] != self.file[gate:end] for gate, end in zip(self.gates, ends))
        kept = path + ".cut-1"
        is_kept = os.path.exists(kept) and self.is_mended(kept, at)
        print(f"{what}: {said} (status {status}); then {told}, {lost} records lost, {'kept' if is_kept else 'not kept'}")
        if lost > 1 and not is_kept:
            self.wrong += 1
        if at in self.gates and lost > 1 and "behind" not in said:
            self.wrong += 1

    def is_mended(self, kept, at):
        """With its bit turned back the kept file is what it was."""
        with open(kept, "rb") as it:
            back = bytearray(it.read())
        # The opening closed the gate before it cut.
        gate = max((gate for gate in self.gates if gate <= at), default=at)
        back[gate], back[at] = self.file[gate], self.file[at]
        return bytes(back) == self.file


def main():
    words = argparse.ArgumentParser()
    words.add_argument("--edits", type=int, default=200)
    words.add_argument("command", nargs="+")
    asked = words.parse_args()
    with tempfile.TemporaryDirectory() as room:
        folder = os.path.join(room, "pads")
        os.mkdir(folder)
        trial = Trial(asked.command, folder, made(asked.command, folder, asked.edits))
        gates = trial.gates
        print(f"{len(gates)} records, {len(trial.file)} bytes")
        middle = gates[len(gates) // 2]
        for bit in range(8):
            trial.turn(f"bit {bit} of the gate in the middle", middle, bit)
        trial.turn("the first gate", gates[0], 0)
        trial.turn("the last gate but one", gates[-2], 0)
        trial.turn("the last gate", gates[-1], 0)
        for byte, bit in ((1, 7), (2, 0), (4, 0)):
            trial.turn(f"bit {bit} of byte {byte} of the length in the middle", middle + byte, bit)
        return 1 if trial.wrong else 0


if __name__ == "__main__":
    sys.exit(main())
