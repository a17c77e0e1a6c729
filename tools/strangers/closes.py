#!/usr/bin/env python3
"""Ends connections in each way, and says which close the client hears.

    tools/strangers/closes.py COMMAND..

COMMAND runs `padd` (a path, or several words). Each caller sends what it has to say in one packet with its request. A
line for each cause says what came at the end: the code of the close, or `no close` as a browser's 1006, and whether the
connection was reset. The status is 1 where a code isn't the one that belongs to its cause.
"""
import socket
import struct
import sys
import tempfile

from silent import REQUEST
from visits import masked, start


def big(size):
    return struct.pack("!BBQ", 0x81, 0xFF, size) + bytes(4) + b"x" * size


CAUSES = [
    ("a first message that is none", masked("{}"), 1000),
    ("a bare frame", b"\x81\0", 1002),
    ("a binary message", b"\x82\x81\0\0\0\0x", 1003),
    ("a text that is not UTF-8", b"\x81\x81\0\0\0\0\xff", 1007),
    ("a text of nine million bytes", big(9_000_000), 1009),
    ("a close of its own", b"\x88\x82\0\0\0\0\x03\xe8", 1000),
]


def end_of(port, frames):
    """The code of the close that comes behind all else, and whether the connection was reset."""
    with socket.create_connection(("127.0.0.1", port), timeout=20) as it:
        heard, reset = b"", False
        try:
            it.sendall(REQUEST + frames)
        except OSError:
            reset = True
        try:
            while got := it.recv(65536):
                heard += got
        except OSError:
            reset = True
    at = heard.rfind(b"\x88\x02")
    return (struct.unpack("!H", heard[at + 2 : at + 4])[0] if at >= 0 else None), reset


def main():
    if len(sys.argv) < 2:
        sys.exit(__doc__)
    failed = False
    with tempfile.TemporaryDirectory() as folder:
        server, port = start(sys.argv[1:], folder)
        try:
            for cause, frames, wanted in CAUSES:
                code, reset = end_of(port, frames)
                print(f"{cause}: {code or 'no close'}{', reset' if reset else ''}")
                failed |= code != wanted
        finally:
            server.kill()
    return 1 if failed else 0


if __name__ == "__main__":
    sys.exit(main())
