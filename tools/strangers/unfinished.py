#!/usr/bin/env python3
"""Sends long messages of which the ends don't come, and says what the server keeps of them.

    tools/strangers/unfinished.py [--callers N] COMMAND..

COMMAND runs `padd` (a path, or several words). N callers (60) send 7,900,000 bytes of a first message of 8,000,000 each,
all at once. Then somebody enters a pad. It is told how many callers were let go at once because all together sent too
much (1013), how many for their time (1008), after how many milliseconds the one entered, and the server's memory before,
at its peak, and at the end. The status is 1 where the peak is above 300,000 kB, or nobody enters.
"""
import argparse
import socket
import struct
import sys
import tempfile
import threading
import time

from silent import REQUEST
from visits import Visitor, kept, start

SENT, LENGTH, MOST_KB = 7_900_000, 8_000_000, 300_000


def peak(server):
    with open(f"/proc/{server.pid}/status", encoding="utf-8") as it:
        return next(int(line.split()[1]) for line in it if line.startswith("VmHWM"))


def call(port, codes):
    """Sends, and notes the code of the close."""
    heard = b""
    with socket.create_connection(("127.0.0.1", port), timeout=60) as it:
        try:
            it.sendall(REQUEST + struct.pack("!BBQ", 0x81, 0xFF, LENGTH) + bytes(4) + b"{" * SENT)
        except OSError:
            pass
        try:
            while got := it.recv(65536):
                heard += got
        except OSError:
            pass
    at = heard.rfind(b"\x88\x02")
    codes.append(struct.unpack("!H", heard[at + 2 : at + 4])[0] if at >= 0 else None)


def main():
    words = argparse.ArgumentParser()
    words.add_argument("--callers", type=int, default=60)
    words.add_argument("command", nargs="+")
    asked = words.parse_args()
    with tempfile.TemporaryDirectory() as folder:
        server, port = start(asked.command, folder)
        try:
            before, codes = kept(server)[1], []
            callers = [threading.Thread(target=call, args=(port, codes)) for _ in range(asked.callers)]
            for caller in callers:
                caller.start()
            time.sleep(3)
            begun = time.monotonic()
            visitor = Visitor(port)
            visitor.enter("quiet", "t.1")
            entered = (time.monotonic() - begun) * 1000
            for caller in callers:
                caller.join()
            print(f"let go: {codes.count(1013)} at once (1013), {codes.count(1008)} in time (1008), {codes.count(None)} unheard")
            print(f"one entered after {entered:.0f} ms, and is {'there' if server.poll() is None else 'gone'}")
            print(f"memory: {before} kB before, {peak(server)} kB at its peak, {kept(server)[1]} kB at the end")
            visitor.go()
            return 1 if peak(server) > MOST_KB else 0
        finally:
            server.kill()


if __name__ == "__main__":
    sys.exit(main())
