#!/usr/bin/env python3
"""Is silent at the door of pads in each way, and says when the server lets go and by which close.

    tools/strangers/silent.py [--each N] COMMAND..

COMMAND runs `padd` (a path, or several words). N callers (10) of each kind come at once: they send no request; half a
request; a request and nothing more; a first message of which the end doesn't come; enter a pad and send half of a
message; enter and answer no ping. N more enter and answer their pings. A line for each kind says after how many seconds
the first and the last were let go, and by which code, or that they were still there after 100 seconds. The server's
open files and memory are told before, while all are there, and at the end. The status is 1 where somebody silent is
still there, or somebody who answered isn't.
"""
import argparse
import base64
import select
import socket
import struct
import sys
import tempfile
import time

from visits import Visitor, kept, start

SECONDS = 100
REQUEST = (
    "GET / HTTP/1.1\r\nHost: 127.0.0.1\r\nUpgrade: websocket\r\nConnection: Upgrade\r\n"
    f"Sec-WebSocket-Key: {base64.b64encode(b'0123456789abcdef').decode()}\r\nSec-WebSocket-Version: 13\r\n\r\n"
).encode()
# a text of eight megabytes, of which a little comes
HALF = struct.pack("!BBQ", 0x81, 0xFF, 8_000_000) + bytes(4) + b"{" * 1000
KINDS = {
    "no request": b"",
    "half a request": REQUEST[:40],
    "no first message": REQUEST,
    "half a first message": REQUEST + HALF,
    "half a message": None,
    "no answer to a ping": None,
    "an answer to each ping": None,
}


class Silent(Visitor):
    """A caller that waits until it is let go."""

    def __init__(self, port, kind, number):
        self.kind, self.code, self.end = kind, None, None
        if KINDS[kind] is None:
            super().__init__(port)
            self.enter("quiet", f"t.{number}")
            self.socket.sendall(HALF if kind == "half a message" else b"")
        else:
            self.socket, self.left = socket.create_connection(("127.0.0.1", port), timeout=20), b""
            self.socket.sendall(KINDS[kind])
        self.begun = time.monotonic()

    def hears(self):
        """What is there: a ping may be answered, a close gives the code, and the end the time."""
        try:
            got = self.socket.recv(65536)
        except OSError:
            got = b""
        if not got:
            self.end = time.monotonic() - self.begun
            self.socket.close()
            return
        at = got.find(b"\x88\x02")
        if at >= 0:
            self.code = struct.unpack("!H", got[at + 2 : at + 4])[0]
        if got == b"\x89\0" and self.kind == "an answer to each ping":
            self.socket.sendall(b"\x8a\x80\0\0\0\0")


def wait(callers, until):
    while time.monotonic() < until:
        there = [caller for caller in callers if caller.end is None]
        if not there:
            return
        ready, _, _ = select.select([caller.socket for caller in there], [], [], 1)
        for caller in there:
            if caller.socket in ready:
                caller.hears()


def main():
    words = argparse.ArgumentParser()
    words.add_argument("--each", type=int, default=10)
    words.add_argument("command", nargs="+")
    asked = words.parse_args()
    failed = False
    with tempfile.TemporaryDirectory() as folder:
        server, port = start(asked.command, folder)
        try:
            print("before: files {}, memory {} kB".format(*kept(server)))
            callers = [
                Silent(port, kind, at * asked.each + number)
                for at, kind in enumerate(KINDS)
                for number in range(asked.each)
            ]
            print("all there: files {}, memory {} kB".format(*kept(server)), flush=True)
            wait(callers, time.monotonic() + SECONDS)
            for kind in KINDS:
                ends = sorted(it.end for it in callers if it.kind == kind and it.end is not None)
                codes = {it.code for it in callers if it.kind == kind and it.end is not None}
                stay = asked.each - len(ends)
                told = f"{ends[0]:.1f} to {ends[-1]:.1f} s, close {sorted(map(str, codes))}" if ends else "nobody let go"
                print(f"{kind}: {told}, {stay} still there")
                failed |= (stay != asked.each) if kind == "an answer to each ping" else (stay != 0)
            print("at the end: files {}, memory {} kB".format(*kept(server)))
        finally:
            server.kill()
    return 1 if failed else 0


if __name__ == "__main__":
    sys.exit(main())
