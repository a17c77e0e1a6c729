#!/usr/bin/env python3
"""Comes with long tokens, mappers and names, and says what the server stores of them.

    tools/strangers/long_tokens.py [--logins N] COMMAND..

COMMAND runs `padd` (a path, or several words). In a fresh folder a server is started. N callers (20) enter one pad, each
with a token of four million bytes of its own, and N requests of the API each ask for an author of a mapper, with a name,
of half a million bytes. It is told how many were refused, and the bytes of the folder and the memory of the server
before and behind. Then tokens and mappers of 1,024 and of 1,025 bytes come: the first must be taken, and the second
refused. The status is 1 where that isn't so, or where the folder has grown by more than 1 MB.
"""
import argparse
import http.client
import json
import os
import subprocess
import sys
import tempfile
import urllib.parse

from visits import Visitor, free_port, kept

MOST = 1_000_000


class Trial:
    def __init__(self, command, folder):
        self.folder = folder
        self.pads, self.api = free_port(), free_port()
        words = [*command, "serve", f"127.0.0.1:{self.pads}", f"127.0.0.1:{self.api}", folder, "key"]
        self.server = subprocess.Popen(words, stdout=subprocess.PIPE)
        if self.server.stdout.readline() != b"ready\n":
            sys.exit("the server did not begin")

    def stored(self):
        return sum(os.path.getsize(os.path.join(self.folder, name)) for name in os.listdir(self.folder))

    def enters(self, token):
        visitor = Visitor(self.pads)
        try:
            visitor.enter("a", token)
            return True
        except ConnectionError:
            return False
        finally:
            visitor.go()

    def is_author(self, mapper, name):
        caller = http.client.HTTPConnection("127.0.0.1", self.api, timeout=60)
        caller.request(
            "POST",
            "/api/1.2/createAuthorIfNotExistsFor",
            urllib.parse.urlencode({"apikey": "key", "authorMapper": mapper, "name": name}),
            {"Content-Type": "application/x-www-form-urlencoded"},
        )
        reply = json.loads(caller.getresponse().read())
        caller.close()
        return reply["code"] == 0

    def told(self, when):
        stored = self.stored()
        print(f"{when}: {stored} bytes stored, memory {kept(self.server)[1]} kB", flush=True)
        return stored


def main():
    words = argparse.ArgumentParser()
    words.add_argument("--logins", type=int, default=20)
    words.add_argument("command", nargs="+")
    asked = words.parse_args()
    with tempfile.TemporaryDirectory() as folder:
        trial = Trial(asked.command, folder)
        try:
            trial.enters("t.first")
            before = trial.told("before")
            taken = sum(trial.enters(f"t.{number:04}" + "x" * 4_000_000) for number in range(asked.logins))
            authors = sum(trial.is_author(f"{number:04}" + "x" * 500_000, "y" * 500_000) for number in range(asked.logins))
            after = trial.told(f"behind {asked.logins} of each, of which {taken} entered and {authors} made an author")
            rows = [
                ("a token of 1,024 bytes", trial.enters("t" * 1024), True),
                ("a token of 1,025 bytes", trial.enters("t" * 1025), False),
                ("a token of 512 signs and 1,024 bytes", trial.enters("é" * 512), True),
                ("a token of 513 signs and 1,026 bytes", trial.enters("é" * 513), False),
                ("a mapper and a name of 1,024 bytes", trial.is_author("m" * 1024, "n" * 1024), True),
                ("a mapper of 1,025 bytes", trial.is_author("m" * 1025, "n"), False),
                ("a name of 1,025 bytes", trial.is_author("m", "n" * 1025), False),
            ]
            for what, taken, _ in rows:
                print(f"{what}: {'taken' if taken else 'refused'}")
            failed = any(taken != wanted for _, taken, wanted in rows)
            return 1 if failed or after - before > MOST else 0
        finally:
            trial.server.kill()


if __name__ == "__main__":
    sys.exit(main())
