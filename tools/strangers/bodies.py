#!/usr/bin/env python3
"""Sends requests that are refused before their body is read, and says whether the client hears the reply.

    tools/strangers/bodies.py [--times N] COMMAND..

COMMAND runs `padd` (a path, or several words). N times each (20) a request comes with a body that is too long (413), and
one by a method that isn't served (405). The client writes all, and then reads. A line for each says how often the reply
came whole, how often the connection was reset before or behind it, and the milliseconds in the middle and at most. The
status is 1 where a reply that should be heard wasn't: where a body is longer than a mebibyte, what follows that may be
reset.
"""
import argparse
import socket
import statistics
import subprocess
import sys
import tempfile
import time

from visits import free_port

REFUSED = [
    ("413, a body of 300,000 bytes of 5,000,000", b"POST", 5_000_000, 300_000, b" 413 ", True),
    ("413, a body of 5,000,000 bytes", b"POST", 5_000_000, 5_000_000, b" 413 ", False),
    ("405, a body of 300,000 bytes", b"PUT", 300_000, 300_000, b" 405 ", True),
    ("405, no body", b"PUT", 0, 0, b" 405 ", True),
]


def asks(port, method, length, sent):
    """What was heard, whether there was a reset, and the milliseconds until the reply."""
    with socket.create_connection(("127.0.0.1", port), timeout=20) as it:
        begun, heard, reset, came = time.monotonic(), b"", False, None
        head = method + b" /api/1/getText HTTP/1.1\r\nHost: x\r\nContent-Length: %d\r\n\r\n" % length
        try:
            it.sendall(head + b"x" * sent)
        except OSError:
            reset = True
        try:
            while got := it.recv(65536):
                heard += got
                came = came or (time.monotonic() - begun) * 1000
                if length == sent or len(heard) > 12:
                    it.shutdown(socket.SHUT_WR)
        except OSError:
            reset = True
        return heard, reset, came or 0.0


def main():
    words = argparse.ArgumentParser()
    words.add_argument("--times", type=int, default=20)
    words.add_argument("command", nargs="+")
    asked = words.parse_args()
    failed = False
    with tempfile.TemporaryDirectory() as folder:
        pads, api = free_port(), free_port()
        line = [*asked.command, "serve", f"127.0.0.1:{pads}", f"127.0.0.1:{api}", folder, "key"]
        server = subprocess.Popen(line, stdout=subprocess.PIPE)
        try:
            if server.stdout.readline() != b"ready\n":
                sys.exit("the server did not begin")
            for name, method, length, sent, status, is_owed in REFUSED:
                rows = [asks(api, method, length, sent) for _ in range(asked.times)]
                whole = sum(status in heard for heard, _, _ in rows)
                resets = sum(reset for _, reset, _ in rows)
                times = [came for _, _, came in rows]
                print(
                    f"{name}: heard {whole} of {asked.times}, reset {resets}, "
                    f"{statistics.median(times):.1f} ms in the middle, {max(times):.1f} at most",
                    flush=True,
                )
                failed |= is_owed and (whole < asked.times or resets > 0)
        finally:
            server.kill()
    return 1 if failed else 0


if __name__ == "__main__":
    sys.exit(main())
