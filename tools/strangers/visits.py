#!/usr/bin/env python3
"""Visits a pad that nobody edits, again and again, and says what the server keeps of it.

    tools/strangers/visits.py [--visits N] COMMAND..

COMMAND runs `padd` (a path, or several words). In a fresh folder a server is started and a pad is made. Then N visitors
(10,000) come one after the other: each enters with a token of its own, is told the pad, and goes. The server's open
files and its memory are told before the first visit, after every tenth part, and at the end; each visit ends when its
files are closed again, so both must stay as they were. The status is 1 where more than a few files are open at the end.
"""
import argparse
import base64
import json
import os
import socket
import struct
import subprocess
import sys
import tempfile
import time

# The database and its journal, the lock, the pad's file, and those that just close.
FEW = 16


def free_port():
    with socket.socket() as it:
        it.bind(("127.0.0.1", 0))
        return it.getsockname()[1]


def start(command, folder):
    """A server that says that it is ready, and the port of its pads."""
    pads, api = free_port(), free_port()
    words = [*command, "serve", f"127.0.0.1:{pads}", f"127.0.0.1:{api}", folder, "key"]
    server = subprocess.Popen(words, stdout=subprocess.PIPE)
    if server.stdout.readline() != b"ready\n":
        sys.exit("the server did not begin")
    return server, pads


def masked(text):
    """The frame of a text that a client sends."""
    body, mask = text.encode(), os.urandom(4)
    if len(body) < 126:
        head = bytes([0x81, 0x80 | len(body)])
    elif len(body) < 65536:
        head = struct.pack("!BBH", 0x81, 0xFE, len(body))
    else:
        head = struct.pack("!BBQ", 0x81, 0xFF, len(body))
    over = int.from_bytes((mask * (len(body) // 4 + 1))[: len(body)], "little") ^ int.from_bytes(body, "little")
    return head + mask + over.to_bytes(len(body), "little")


class Visitor:
    def __init__(self, port):
        self.socket = socket.create_connection(("127.0.0.1", port), timeout=20)
        self.left = b""
        key = base64.b64encode(os.urandom(16)).decode()
        self.socket.sendall(
            f"GET / HTTP/1.1\r\nHost: 127.0.0.1\r\nUpgrade: websocket\r\nConnection: Upgrade\r\n"
            f"Sec-WebSocket-Key: {key}\r\nSec-WebSocket-Version: 13\r\n\r\n".encode()
        )
        while b"\r\n\r\n" not in self.left:
            self.more()
        self.left = self.left.split(b"\r\n\r\n", 1)[1]

    def more(self):
        got = self.socket.recv(65536)
        if not got:
            raise ConnectionError("the server closed")
        self.left += got

    def bytes(self, count):
        while len(self.left) < count:
            self.more()
        got, self.left = self.left[:count], self.left[count:]
        return got

    def message(self):
        """The next text of the server."""
        kind, length = self.bytes(2)
        if length == 126:
            length = struct.unpack("!H", self.bytes(2))[0]
        elif length == 127:
            length = struct.unpack("!Q", self.bytes(8))[0]
        body = self.bytes(length)
        return json.loads(body) if kind & 15 == 1 else None

    def enter(self, pad, token):
        self.socket.sendall(masked(json.dumps({"type": "CLIENT_READY", "padId": pad, "token": token})))
        while True:
            told = self.message()
            if told and told.get("type") == "CLIENT_VARS":
                return
            if told and "disconnect" in told:
                raise ConnectionError(f"refused: {told}")

    def go(self):
        self.socket.close()


def kept(server):
    """How many files the server has open, and its memory in kilobytes."""
    with open(f"/proc/{server.pid}/status", encoding="utf-8") as it:
        memory = next(int(line.split()[1]) for line in it if line.startswith("VmRSS"))
    return len(os.listdir(f"/proc/{server.pid}/fd")), memory


def main():
    words = argparse.ArgumentParser()
    words.add_argument("--visits", type=int, default=10_000)
    words.add_argument("command", nargs="+")
    asked = words.parse_args()
    with tempfile.TemporaryDirectory() as folder:
        server, port = start(asked.command, folder)
        try:
            for visit in range(asked.visits):
                if visit % max(1, asked.visits // 10) == 0:
                    time.sleep(0.5)
                    print("visits {}: files {}, memory {} kB".format(visit, *kept(server)), flush=True)
                visitor = Visitor(port)
                visitor.enter("quiet", f"t.{visit % 8}")
                visitor.go()
            time.sleep(1)
            files, memory = kept(server)
            print(f"visits {asked.visits}: files {files}, memory {memory} kB")
            return 1 if files > FEW else 0
        finally:
            server.kill()


if __name__ == "__main__":
    sys.exit(main())
