#!/usr/bin/env python3
"""Kills a server under load, and looks for what it acknowledged.

    tools/kills.py [--kills N] COMMAND..

COMMAND runs `padd` (a path, or several words). In a fresh folder the server is started, four writers type words of their own
into one pad, and after about a second it is killed (SIGKILL); then it is started on the same folder again. Each word whose
commit a writer heard must stand in the pad once, and each other word at most once. This goes on for N kills (20). It needs
Python's `websockets`, and skips with a word where that isn't there.
"""
import argparse
import asyncio
import json
import random
import signal
import socket
import subprocess
import sys
import tempfile

try:
    import websockets
except ImportError:
    print("skipped: websockets is not there")
    sys.exit(0)

WRITERS = 4


def base36(number):
    digits = "0123456789abcdefghijklmnopqrstuvwxyz"
    text = digits[number % 36]
    while number >= 36:
        number //= 36
        text = digits[number % 36] + text
    return text


def grown(changeset):
    """How many units a changeset adds."""
    head = changeset[2:]
    for sign, factor in ((">", 1), ("<", -1)):
        if sign in head[:13]:
            rest = head.split(sign, 1)[1]
            digits = ""
            while rest and rest[0] in "0123456789abcdefghijklmnopqrstuvwxyz":
                digits += rest[0]
                rest = rest[1:]
            return factor * int(digits, 36)
    raise ValueError(changeset)


def free_port():
    with socket.socket() as s:
        s.bind(("127.0.0.1", 0))
        return s.getsockname()[1]


def start(command, folder, ports):
    """A server that says that it is ready."""
    pads, api = (f"127.0.0.1:{port}" for port in ports)
    server = subprocess.Popen(command + ["serve", pads, api, folder, "key"], stdout=subprocess.PIPE)
    line = server.stdout.readline()
    if line != b"ready\n":
        raise SystemExit(f"the server did not begin: {line!r}")
    return server


async def enter(port, token):
    """A session: its socket, the revision and the text."""
    link = await websockets.connect(f"ws://127.0.0.1:{port}/", max_size=None)
    await link.send(json.dumps({"type": "CLIENT_READY", "padId": "kills", "token": token}))
    while True:
        message = json.loads(await link.recv())
        if message.get("type") == "CLIENT_VARS":
            data = message["data"]["collab_client_vars"]
            return link, data["rev"], data["initialAttributedText"]["text"]


async def write(port, number, words, said, heard):
    """Types words, one after another, until the server is gone."""
    try:
        link, rev, text = await enter(port, f"t.{number}")
        length = len(text)
        for word in words:
            said.add(word)
            changeset = f"Z:{base36(length)}>{base36(len(word))}+{base36(len(word))}${word}"
            data = {"type": "USER_CHANGES", "baseRev": rev, "changeset": changeset,
                    "apool": {"numToAttrib": {}, "nextNum": 0}}
            await link.send(json.dumps({"type": "COLLABROOM", "data": data}))
            while True:
                message = json.loads(await link.recv())["data"]
                if message["type"] == "NEW_CHANGES":
                    rev = message["newRev"]
                    length += grown(message["changeset"])
                elif message["type"] == "ACCEPT_COMMIT":
                    rev = message["newRev"]
                    length += len(word)
                    heard.add(word)
                    break
    except (OSError, websockets.exceptions.WebSocketException, asyncio.IncompleteReadError):
        pass


def words_of(round_, number):
    count = 0
    while True:
        yield f"<{base36(round_)}.{number}.{base36(count)}>"
        count += 1


async def one_round(command, folder, ports, round_, said, heard):
    server = start(command, folder, ports)
    writers = [asyncio.create_task(write(ports[0], n, words_of(round_, n), said, heard)) for n in range(WRITERS)]
    await asyncio.sleep(random.uniform(0.5, 1.5))
    server.send_signal(signal.SIGKILL)
    server.wait()
    await asyncio.gather(*writers)


async def text_after(command, folder, ports):
    server = start(command, folder, ports)
    link, rev, text = await enter(ports[0], "t.reader")
    await link.close()
    server.kill()
    server.wait()
    return rev, text


async def main():
    parser = argparse.ArgumentParser()
    parser.add_argument("--kills", type=int, default=20)
    parser.add_argument("command", nargs="+")
    options = parser.parse_args()
    said, heard = set(), set()
    with tempfile.TemporaryDirectory() as folder:
        ports = (free_port(), free_port())
        for round_ in range(options.kills):
            await one_round(options.command, folder, ports, round_, said, heard)
            rev, text = await text_after(options.command, folder, ports)
            lost = [word for word in heard if text.count(word) != 1]
            doubled = [word for word in said if text.count(word) > 1]
            print(f"kill {round_ + 1}: {len(heard)} acknowledged, revision {rev}, {len(lost)} lost, {len(doubled)} doubled")
            if lost or doubled:
                return 1
    return 0


if __name__ == "__main__":
    sys.exit(asyncio.run(main()))
