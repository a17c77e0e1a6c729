#!/usr/bin/env python3
"""Lets hostile callers of all kinds come to both doors for a while, beside honest people who edit.

    tools/strangers/hour.py [--minutes M] [--honest N] [--each N] COMMAND..

COMMAND runs `padd` (a path, or several words). In a fresh folder a server is started. N honest people (20) edit five
pads, a letter a second each; who has typed thirty goes, and comes in again. A program asks the API for a text each second.
Beside them callers of each kind come, N at a time (3), one behind the other, for M minutes (60):

- at the pads' door: silent in each way, half of a long message, no answer to pings, bytes that are no request, JSON that
  nests, a binary message, tokens of a megabyte, 100,000 ids of sessions, refused resumptions of absent pads, pieces of
  the timeslider of a long pad that nobody reads, changesets that don't fit, and some who come and go;
- at the API's door: silent, half a request, a long body, other methods, wrong keys, headers without end, and some who
  don't read.

Each minute it is told how long the longest of the honest waited for a login, for a commit and for the API in that minute,
and the server's memory and open files. Then the hostile go, and it is told what is left behind: connections, open files,
memory, and files in the folder that no honest person made. The status is 1 where an honest one waited for more than 200 ms
or was let go, where memory was above 300,000 kB, or where something is left.
"""
import argparse
import http.client
import json
import multiprocessing
import os
import random
import socket
import struct
import subprocess
import sys
import tempfile
import threading
import time
import urllib.parse

from silent import HALF, REQUEST
from visits import Visitor, free_port, kept, masked

MOST_MS, MOST_KB = 200, 300_000
PADS = [f"honest{number}" for number in range(5)]
LONG = "long"
# so many revisions has the long pad
REVISIONS = 2_000


class Refused(Exception):
    """The server let an honest person go."""


class Person(Visitor):
    """Somebody who edits a pad: letters at its beginning, of which each makes a revision one unit longer."""

    def __init__(self, port, pad, token):
        begun = time.monotonic()
        super().__init__(port)
        self.pongs = 0
        self.say({"type": "CLIENT_READY", "padId": pad, "token": token})
        variables = self.hear("CLIENT_VARS")["data"]["collab_client_vars"]
        self.took = time.monotonic() - begun
        self.rev = self.first = variables["rev"]
        self.units = len(variables["initialAttributedText"]["text"].encode("utf-16-le")) // 2

    def say(self, message):
        self.socket.sendall(masked(json.dumps(message)))

    def message(self):
        kind, length = self.bytes(2)
        if length == 126:
            length = struct.unpack("!H", self.bytes(2))[0]
        elif length == 127:
            length = struct.unpack("!Q", self.bytes(8))[0]
        body = self.bytes(length)
        if kind & 15 == 9:
            self.socket.sendall(b"\x8a\x80\0\0\0\0")
        return json.loads(body) if kind & 15 == 1 else None

    def hear(self, wanted):
        """The next message of that kind. On the way each revision of the others is heard."""
        while True:
            told = self.message()
            if told is None:
                continue
            data = told.get("data") or {}
            if "newRev" in data:
                self.rev = data["newRev"]
            if wanted in (told.get("type"), data.get("type")):
                return told
            if "disconnect" in told or "accessStatus" in told:
                raise Refused(told)

    def type(self):
        """A letter, and how long its commit took."""
        units = self.units + self.rev - self.first
        data = {
            "type": "USER_CHANGES",
            "baseRev": self.rev,
            "changeset": f"Z:{base36(units)}>1+1$x",
            "apool": {"numToAttrib": {}, "nextNum": 0},
        }
        begun = time.monotonic()
        self.say({"type": "COLLABROOM", "component": "pad", "data": data})
        self.hear("ACCEPT_COMMIT")
        return time.monotonic() - begun


def base36(number):
    digits = ""
    while number or not digits:
        number, digit = divmod(number, 36)
        digits = "0123456789abcdefghijklmnopqrstuvwxyz"[digit] + digits
    return digits


def api(port, function, **words):
    caller = http.client.HTTPConnection("127.0.0.1", port, timeout=30)
    try:
        caller.request(
            "POST",
            f"/api/1.2/{function}",
            urllib.parse.urlencode({"apikey": "key", **words}),
            {"Content-Type": "application/x-www-form-urlencoded"},
        )
        return json.loads(caller.getresponse().read())
    finally:
        caller.close()


# ---- the honest, in a process of their own, which tells what took how long


def lives(port, number, until, waits):
    while time.monotonic() < until:
        try:
            person = Person(port, PADS[number % len(PADS)], f"t.honest{number}")
            waits.put(("login", person.took))
            for _ in range(30):
                waits.put(("commit", person.type()))
                time.sleep(random.uniform(0.5, 1.5))
            person.go()
        except (OSError, Refused) as why:
            waits.put(("gone", str(why)))
            time.sleep(1)


def asks(port, until, waits):
    while time.monotonic() < until:
        begun = time.monotonic()
        try:
            api(port, "getText", padID=random.choice(PADS))
            waits.put(("api", time.monotonic() - begun))
        except (OSError, ValueError) as why:
            waits.put(("gone", f"the API: {why}"))
        time.sleep(1)


def honest(pads, door, count, until, waits):
    people = [threading.Thread(target=lives, args=(pads, number, until, waits)) for number in range(count)]
    people.append(threading.Thread(target=asks, args=(door, until, waits)))
    for person in people:
        person.start()
    for person in people:
        person.join()


# ---- the hostile


def sent(port, *parts):
    """Sends, and then reads until the end; at most a quarter of a minute."""
    with socket.create_connection(("127.0.0.1", port), timeout=15) as it:
        for part in parts:
            it.sendall(part)
        ends = time.monotonic() + 15
        while time.monotonic() < ends and it.recv(65536):
            pass


def unread(port, *parts):
    """Sends, and reads nothing."""
    with socket.create_connection(("127.0.0.1", port), timeout=15) as it:
        for part in parts:
            it.sendall(part)
        time.sleep(15)


def ready(**members):
    return masked(json.dumps({"type": "CLIENT_READY", "padId": PADS[0], "token": "t.hostile", **members}))


def inside(port, *frames):
    visitor = Visitor(port)
    visitor.enter(LONG, f"t.inside{random.randrange(8)}")
    for frame in frames:
        visitor.socket.sendall(frame)
    time.sleep(15)
    visitor.go()


def slides(port):
    """Asks for the whole of a long pad again and again, and reads nothing."""
    visitor = Visitor(port)
    visitor.enter(LONG, "t.slides")
    data = {"start": 0, "granularity": 1, "requestID": 1}
    for _ in range(200):
        visitor.socket.sendall(masked(json.dumps({"type": "CHANGESET_REQ", "component": "pad", "data": data})))
    time.sleep(15)
    visitor.go()


def comes_and_goes(port):
    for number in range(20):
        visitor = Visitor(port)
        visitor.enter(PADS[number % len(PADS)], f"t.goes{number % 4}")
        visitor.go()


def wrong_keys(port):
    for _ in range(20):
        sent(port, b"GET /api/1.2/getText?apikey=other&padID=absent HTTP/1.1\r\nHost: a\r\nConnection: close\r\n\r\n")


WRONG_CHANGE = masked(
    json.dumps(
        {
            "type": "COLLABROOM",
            "component": "pad",
            "data": {"type": "USER_CHANGES", "baseRev": 0, "changeset": "Z:zzzz>1+1$x", "apool": {"numToAttrib": {}, "nextNum": 0}},
        }
    )
)
NESTS = b"\x81\xfe" + struct.pack("!H", 60_000) + bytes(4) + b"[" * 60_000
POST = b"POST /api/1.2/setText HTTP/1.1\r\nHost: a\r\nContent-Length: 5000000\r\n\r\n"

AT_PADS = {
    "no request": lambda port: sent(port),
    "half a request": lambda port: sent(port, REQUEST[:40]),
    "no first message": lambda port: sent(port, REQUEST),
    "half a first message": lambda port: sent(port, REQUEST, HALF, b"x" * 3_000_000),
    "half a message": lambda port: inside(port, HALF),
    "no answer to a ping": lambda port: inside(port),
    "no request at all": lambda port: sent(port, os.urandom(4_096)),
    "nests": lambda port: sent(port, REQUEST, NESTS),
    "a binary message": lambda port: sent(port, REQUEST, b"\x82\x81\0\0\0\0x"),
    "long tokens": lambda port: sent(port, REQUEST, ready(token="t." + "x" * 1_000_000)),
    "many ids": lambda port: sent(port, REQUEST, ready(sessionID=",".join(f"s.{n:016}" for n in range(100_000)))),
    "refused resumptions": lambda port: [
        sent(port, REQUEST, ready(padId=f"absent{n}{random.randrange(10**9)}", reconnect=True, client_rev=7)) for n in range(20)
    ],
    "slides": slides,
    "a change that doesn't fit": lambda port: inside(port, WRONG_CHANGE),
    "comes and goes": comes_and_goes,
}
AT_API = {
    "nothing": lambda port: sent(port),
    "half a request of the API": lambda port: sent(port, b"POST /api/1.2/getText HTTP/1.1\r\nHost"),
    "a long body": lambda port: sent(port, POST, b"x" * 300_000),
    "another method": lambda port: sent(port, b"PUT /x HTTP/1.1\r\nHost: a\r\nContent-Length: 300000\r\n\r\n", b"x" * 300_000),
    "wrong keys": wrong_keys,
    "headers without end": lambda port: sent(port, b"GET / HTTP/1.1\r\n", b"a: b\r\n" * 100_000),
    "no reading": lambda port: unread(port, b"GET /api/1.2/x HTTP/1.1\r\nHost: a\r\n\r\n" * 100),
}


def again(call, port, until):
    while time.monotonic() < until:
        try:
            call(port)
        except OSError:
            time.sleep(0.05)


def hostile(kind, port, each, until):
    call = AT_PADS.get(kind) or AT_API[kind]
    callers = [threading.Thread(target=again, args=(call, port, until), daemon=True) for _ in range(each)]
    for caller in callers:
        caller.start()
    for caller in callers:
        caller.join(max(0, until + 20 - time.monotonic()))


# ---- the whole


class Watch:
    """What the honest told, and what the server had."""

    def __init__(self, server, waits):
        self.server, self.waits = server, waits
        self.most = {"login": 0.0, "commit": 0.0, "api": 0.0}
        self.gone, self.memory = 0, 0

    def minute(self):
        now = dict.fromkeys(self.most, 0.0)
        counts = dict.fromkeys(self.most, 0)
        while not self.waits.empty():
            what, took = self.waits.get()
            if what == "gone":
                self.gone += 1
                print(f"  an honest one was let go: {took}")
                continue
            now[what] = max(now[what], took)
            counts[what] += 1
        for what, took in now.items():
            self.most[what] = max(self.most[what], took)
        files, memory = kept(self.server)
        self.memory = max(self.memory, memory)
        told = ", ".join(f"{what} {1000 * took:.0f} ms of {counts[what]}" for what, took in now.items())
        print(f"longest waits: {told}; memory {memory} kB, files {files}", flush=True)


def serve(command, folder):
    pads, door = free_port(), free_port()
    words = [*command, "serve", f"127.0.0.1:{pads}", f"127.0.0.1:{door}", folder, "key"]
    server = subprocess.Popen(words, stdout=subprocess.PIPE)
    if server.stdout.readline() != b"ready\n":
        sys.exit("the server did not begin")
    for pad in PADS:
        api(door, "createPad", padID=pad, text="honest")
    api(door, "createPad", padID=LONG, text="long")
    writer = Person(pads, LONG, "t.writer")
    for _ in range(REVISIONS):
        writer.type()
    writer.go()
    return server, pads, door


def run(asked, server, pads, door):
    before = kept(server)
    print(f"before: files {before[0]}, memory {before[1]} kB", flush=True)
    until = time.monotonic() + 60 * asked.minutes
    waits = multiprocessing.Queue()
    began = [multiprocessing.Process(target=honest, args=(pads, door, asked.honest, until, waits))]
    for kind in (*AT_PADS, *AT_API):
        port = pads if kind in AT_PADS else door
        began.append(multiprocessing.Process(target=hostile, args=(kind, port, asked.each, until)))
    for process in began:
        process.start()
    watch = Watch(server, waits)
    while time.monotonic() < until:
        time.sleep(min(60, max(1, until - time.monotonic())))
        watch.minute()
    for process in began:
        process.join(60)
        if process.is_alive():
            process.kill()
    watch.minute()
    return watch, before


def main():
    words = argparse.ArgumentParser()
    words.add_argument("--minutes", type=float, default=60)
    words.add_argument("--honest", type=int, default=20)
    words.add_argument("--each", type=int, default=3)
    words.add_argument("command", nargs="+")
    asked = words.parse_args()
    with tempfile.TemporaryDirectory() as folder:
        server, pads, door = serve(asked.command, folder)
        try:
            watch, before = run(asked, server, pads, door)
            # who answers no ping is let go after 90 seconds
            time.sleep(20)
            files, memory = kept(server)
            honest_names = {pad.encode().hex() + ".pad" for pad in (*PADS, LONG)}
            others = [name for name in os.listdir(folder) if ".pad" in name and name not in honest_names]
            longest = ", ".join(f"{what} {1000 * took:.0f} ms" for what, took in watch.most.items())
            print(f"longest waits of all: {longest}; {watch.gone} let go; at most {watch.memory} kB")
            print(f"left behind: files {files} (before {before[0]}), memory {memory} kB, {len(others)} other pads' files")
            failed = max(watch.most.values()) > MOST_MS / 1000 or watch.gone or watch.memory > MOST_KB
            return 1 if failed or others or files > before[0] + 2 + len(PADS) else 0
        finally:
            server.kill()


if __name__ == "__main__":
    sys.exit(main())
