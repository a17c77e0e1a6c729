#!/usr/bin/env python3
"""Asks for pads that nobody has made, and says what the server keeps of them.

    tools/strangers/absent.py [--names N] COMMAND..

COMMAND runs `padd` (a path, or several words). In a fresh folder a server is started. Each of N names (1,000) that
nobody has made is asked for by a client that comes back to it, and by `getText`, `deletePad` and `getRevisionsCount` of
the API. It is told how many were refused as absent pads are, how many files of pads there are, and how many files the
server has open and its memory, before and behind. Then the first of the names is made, and read. The status is 1 where a
file is left behind, more files are open, an answer was another, or the pad can't be made.
"""
import argparse
import http.client
import json
import os
import subprocess
import sys
import tempfile
import urllib.parse

from visits import Visitor, free_port, kept, masked


class Trial:
    def __init__(self, command, folder):
        self.folder = folder
        self.pads, self.api = free_port(), free_port()
        words = [*command, "serve", f"127.0.0.1:{self.pads}", f"127.0.0.1:{self.api}", folder, "key"]
        self.server = subprocess.Popen(words, stdout=subprocess.PIPE)
        if self.server.stdout.readline() != b"ready\n":
            sys.exit("the server did not begin")
        self.caller = http.client.HTTPConnection("127.0.0.1", self.api, timeout=60)

    def ask(self, function, **parameters):
        self.caller.request("GET", f"/api/1.2/{function}?" + urllib.parse.urlencode({"apikey": "key", **parameters}))
        reply = self.caller.getresponse()
        body = json.loads(reply.read())
        if reply.will_close:
            self.caller.close()
        return body

    def is_unknown(self, function, name):
        return self.ask(function, padID=name)["message"] == "padID does not exist"

    def is_gone(self, name):
        """Whether a client that comes back is told that its pad is deleted."""
        client = Visitor(self.pads)
        came = {"type": "CLIENT_READY", "padId": name, "token": "t.1", "reconnect": True, "client_rev": 7}
        try:
            client.socket.sendall(masked(json.dumps(came)))
            return client.message() == {"disconnect": "deleted"}
        except ConnectionError:
            return False
        finally:
            client.go()

    def told(self, when):
        files = sum(name.endswith(".pad") for name in os.listdir(self.folder))
        opened, memory = kept(self.server)
        print(f"{when}: {files} files of pads, {opened} open files, memory {memory} kB", flush=True)
        return files, opened

    def are_refused(self, name):
        asked = [self.is_unknown(function, name) for function in ("getText", "deletePad", "getRevisionsCount")]
        return all([self.is_gone(name), *asked])


def main():
    words = argparse.ArgumentParser()
    words.add_argument("--names", type=int, default=1_000)
    words.add_argument("command", nargs="+")
    asked = words.parse_args()
    with tempfile.TemporaryDirectory() as folder:
        trial = Trial(asked.command, folder)
        try:
            trial.are_refused("absent")
            before = trial.told("before")
            refused = sum(trial.are_refused(f"absent{number}") for number in range(asked.names))
            after = trial.told(f"behind {asked.names} names, of which {refused} were refused in each way")
            trial.ask("createPad", padID="absent0", text="here")
            is_made = trial.ask("getText", padID="absent0").get("data") == {"text": "here\n"}
            print(f"the first of them {'is' if is_made else 'could not be'} made")
            return 0 if refused == asked.names and after == before and is_made else 1
        finally:
            trial.server.kill()


if __name__ == "__main__":
    sys.exit(main())
