#!/usr/bin/env python3
"""Two editors type into one pad, each through a `padedit`, while the server is killed and started again.

    tools/padedit_ws.py [--keys N] PADEDIT COMMAND..

PADEDIT is the program `padedit`, COMMAND what runs `padd` (a path, or several words). In a fresh folder the server is started,
and both type N keys (200) at random places, and take some back, and make some of these again; in the middle the server is killed
(SIGKILL), and started again on the same folder a second later, while both type on. The first is closed then, and a new one goes on
with what it kept. In the end both must show one text, which is what the API says, and each has shown what its `padedit` has, change
by change; and the timeslider shows the first revision and the last. It needs Python's `websockets`, and skips with a word where that isn't there.

It is at the same time the example of how an editor uses `padedit`: `Editor` below is all that it takes.
"""
import argparse
import asyncio
import json
import random
import signal
import socket
import subprocess
import sys
import tempfile
import urllib.request

try:
    import websockets
except ImportError:
    print("skipped: websockets is not there")
    sys.exit(0)

DIGITS = "0123456789abcdefghijklmnopqrstuvwxyz"


def changed(text, changeset):
    """A text after a changeset. The text has no character outside the basic plane, so that its places are units."""
    head, bank = changeset.split("$", 1)
    at = min(i for i in (head.find(">"), head.find("<")) if i >= 0) + 1
    while at < len(head) and head[at] in DIGITS:
        at += 1
    out, place, number = "", 0, ""
    sign = ""
    for c in head[at:] + "|":
        if c in DIGITS and sign:
            number += c
            continue
        if sign in "=-+" and sign:
            units = int(number, 36)
            if sign == "+":
                out, bank = out + bank[:units], bank[units:]
            else:
                out += text[place:place + units] if sign == "=" else ""
                place += units
        sign, number = c, ""
    return out + text[place:]


class Editor:
    """An editor that shows a text, and has a `padedit` do the rest."""

    def __init__(self, command, url, token):
        self.command, self.child = command, subprocess.Popen([command], stdin=subprocess.PIPE, stdout=subprocess.PIPE)
        self.url, self.token, self.kept = url, token, None
        self.text, self.past, self.state, self.link = None, None, {"connected": False}, None

    def ask(self, **request):
        self.child.stdin.write(json.dumps(request).encode() + b"\n")
        self.child.stdin.flush()
        reply = json.loads(self.child.stdout.readline())
        if "refused" in reply:
            raise SystemExit(f"refused: {reply['refused']}: {request}")
        self.state = reply["state"]
        return reply

    async def send_due(self):
        reply = self.ask(do="submit")
        if "send" in reply and self.link is not None:
            try:
                await self.link.send(reply["send"])
            except websockets.exceptions.WebSocketException:
                pass  # the connection is gone, which `run` is told too

    async def look(self, reply):
        """What the timeslider does: it shows a text, or has something sent."""
        if "send" in reply:
            await self.link.send(reply["send"])
        elif "text" in reply:
            self.past = reply["text"]

    async def hear(self, message):
        if self.kept is not None:
            return  # it was closed
        reply = self.ask(do="heard", message=message)
        if "author" in reply:
            self.text = reply["text"]
        else:
            await self.look(reply)
        if "change" in reply:
            self.text = changed(self.text, reply["change"])
        if "closed" in reply:
            print("closed:", reply["closed"])
            self.link = None
        if self.state["connected"]:
            await self.send_due()

    def begin(self):
        """The first message of a connection."""
        if self.kept is not None:
            reply = self.ask(do="enter", pad="p", token=self.token, kept=self.kept)
            self.text, self.kept = reply["text"], None
            return reply
        return self.ask(do="enter", pad="p", token=self.token) if self.text is None else self.ask(do="return")

    def close(self):
        """Its program ends, and another goes on with what it kept."""
        self.kept = self.ask(do="keep")["kept"]
        self.child.kill()
        self.child = subprocess.Popen([self.command], stdin=subprocess.PIPE, stdout=subprocess.PIPE)

    async def slide(self, to):
        self.past = None
        await self.look(self.ask(do="slide", to=to))
        return await until(lambda: self.past is not None, 10) and self.past

    async def run(self):
        """Connects, and connects again whenever the connection is gone."""
        while True:
            try:
                async with websockets.connect(self.url, max_size=None) as link:
                    reply = self.begin()
                    self.link = link
                    await link.send(reply["send"])
                    async for message in link:
                        await self.hear(message)
            except (OSError, websockets.exceptions.WebSocketException):
                pass
            if self.link is not None and self.kept is None:
                self.ask(do="lost")
            self.link = None
            await asyncio.sleep(0.1)

    async def key(self):
        """One key, at a random place: mostly a letter, and sometimes the one behind goes."""
        at = random.randrange(len(self.text))
        drop = 1 if random.random() < 0.2 and at + 1 < len(self.text) else 0
        put = "" if drop else random.choice("abcdefgh \n")
        self.ask(do="edit", at=at, drop=drop, put=put)
        self.text = self.text[:at] + put + self.text[at + drop:]
        if put and random.random() < 0.2:
            self.remake("undo")
            if random.random() < 0.5:
                self.remake("redo")
        if self.state["connected"]:
            await self.send_due()

    def remake(self, what):
        """A key is taken back, or made again. That what another typed and this one deleted isn't taken back here: the server
        takes no text of another author."""
        reply = self.ask(do=what)
        if "change" in reply:
            self.text = changed(self.text, reply["change"])

    def is_clean(self):
        return self.state["connected"] and not self.state["waiting"] and not self.state["unsent"]


def free_port():
    with socket.socket() as s:
        s.bind(("127.0.0.1", 0))
        return s.getsockname()[1]


def start(command, folder, ports):
    """A server that says that it is ready."""
    pads, api = (f"127.0.0.1:{port}" for port in ports)
    server = subprocess.Popen(command + ["serve", pads, api, folder, "key"], stdout=subprocess.PIPE)
    line = server.stdout.readline()
    if line != b"ready\n":
        raise SystemExit(f"the server did not begin: {line!r}")
    return server


async def until(holds, seconds):
    for _ in range(int(seconds * 20)):
        if holds():
            return True
        await asyncio.sleep(0.05)
    return False


async def kill_in_the_middle(command, folder, ports, server, seconds):
    await asyncio.sleep(seconds)
    server.send_signal(signal.SIGKILL)
    server.wait()
    await asyncio.sleep(1)
    return start(command, folder, ports)


async def type_keys(editor, keys):
    for _ in range(keys):
        await editor.key()
        await asyncio.sleep(random.uniform(0, 0.02))


async def main():
    parser = argparse.ArgumentParser()
    parser.add_argument("--keys", type=int, default=200)
    parser.add_argument("padedit")
    parser.add_argument("command", nargs=argparse.REMAINDER)
    args = parser.parse_args()
    with tempfile.TemporaryDirectory() as folder:
        ports = [free_port(), free_port()]
        server = start(args.command, folder, ports)
        editors = [Editor(args.padedit, f"ws://127.0.0.1:{ports[0]}/", f"t.{name}") for name in ("one", "two")]
        runs = [asyncio.create_task(editor.run()) for editor in editors]
        try:
            if not await until(lambda: all(editor.text is not None for editor in editors), 10):
                raise SystemExit("the document did not come")
            killing = kill_in_the_middle(args.command, folder, ports, server, args.keys * 0.005)
            server, *_ = await asyncio.gather(killing, *(type_keys(editor, args.keys) for editor in editors))
            editors[0].close()
            await editors[0].link.close()
            if not await until(lambda: editors[0].kept is None, 10):
                raise SystemExit("what was kept isn't gone on with")
            same = await until(lambda: all(e.is_clean() for e in editors) and editors[0].state["rev"] == editors[1].state["rev"], 30)
            with urllib.request.urlopen(f"http://127.0.0.1:{ports[1]}/api/1/getText?apikey=key&padID=p") as reply:
                text = json.loads(reply.read())["data"]["text"]
            rev = editors[0].state["rev"]
            past = [await editors[0].slide(to) for to in (rev, 0, rev // 2, rev)]
            well = same and all(editor.text == text for editor in editors) and past[0] == past[3] == text and past[1] is not False
            print(f"{'well' if well else 'FAILED'}: revision {editors[0].state.get('rev')}, {len(text)} units")
            return 0 if well else 1
        finally:
            for run in runs:
                run.cancel()
            for editor in editors:
                editor.child.kill()
            server.kill()
            server.wait()


sys.exit(asyncio.run(main()))
