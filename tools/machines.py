#!/usr/bin/python3
"""Tries two servers behind HAProxy, which sends each pad to its server by the pad's name.

    tools/machines.py [--seconds N] [--figures] COMMAND..

COMMAND runs `padd` (a path, or several words). The lines for HAProxy are those of docs/RUNNING.md, with other addresses.
Where each pad goes is looked at first: by the API and by WebSockets, a group's pads, a reader's id, and names that a list
sends elsewhere. Then 20 clients type words into 40 pads, each into four, and two into each pad. After N seconds (4) the
server `a` is killed, N seconds later it is started on its folder again, and N seconds later all stop. Of the pads of `b` no
connection may be lost, and no edit may wait longer than a second, or than thrice the longest before. Each word whose commit
was heard stands in its pad once, each other word at most once, and each pad has a file in one folder alone. At last a pad's
file is moved from one server to the other.

`--figures` then lets all of them type as fast as commits come, N seconds with two servers and N seconds with one.

Status 0: all is well. 1: something isn't. 2: other words. 3: something that this needs is missing; it is named.
"""
import argparse
import asyncio
import json
import os
import pathlib
import re
import shutil
import signal
import socket
import subprocess
import sys
import tempfile
import time
import urllib.error
import urllib.parse
import urllib.request

MISSING = [] if shutil.which("haproxy") else ["Debian's package haproxy"]
try:
    import websockets
except ImportError:
    MISSING.append("Debian's package python3-websockets (run this with /usr/bin/python3)")

TOP = pathlib.Path(__file__).resolve().parent.parent
CLIENTS, PADS, EACH = 20, 40, 4
PAUSE = 0.25


class Wrong(Exception):
    """Something isn't as it should be."""


def holds(is_so, what):
    print(f"{'well' if is_so else 'WRONG'}: {what}", flush=True)
    if not is_so:
        raise Wrong(what)


def free_port():
    with socket.socket() as it:
        it.bind(("127.0.0.1", 0))
        return it.getsockname()[1]


def base36(number):
    text = ""
    while True:
        number, digit = divmod(number, 36)
        text = "0123456789abcdefghijklmnopqrstuvwxyz"[digit] + text
        if number == 0:
            return text


def grown(changeset):
    """How many units a changeset adds."""
    sign, digits = re.match(r"Z:[0-9a-z]+([<>])([0-9a-z]+)", changeset).groups()
    return int(digits, 36) * (1 if sign == ">" else -1)


# ---- servers and the proxy


class Server:
    """`padd serve` on a folder of its own."""

    def __init__(self, command, folder, name):
        self.command, self.name, self.folder = command, name, pathlib.Path(folder) / name
        self.ports = free_port(), free_port()
        self.folder.mkdir()

    def start(self):
        pads, api = (f"127.0.0.1:{port}" for port in self.ports)
        self.process = subprocess.Popen([*self.command, "serve", pads, api, self.folder, "key"], stdout=subprocess.PIPE)
        if self.process.stdout.readline() != b"ready\n":
            raise Wrong(f"server {self.name} did not begin")

    def kill(self):
        self.process.send_signal(signal.SIGKILL)
        self.process.wait()

    def has(self, name):
        return (self.folder / (name.encode().hex() + ".pad")).exists()


class Proxy:
    """HAProxy with the lines of docs/RUNNING.md."""

    def __init__(self, folder, servers):
        self.ports = free_port(), free_port()
        self.folder = pathlib.Path(folder)
        self.names = {it.name: self.folder / f"{it.name}.names" for it in servers}
        for it in "ab":
            (self.folder / f"{it}.names").touch()
        lines = re.search(r"(?ms)^```haproxy\n(.*?)^```$", (TOP / "docs" / "RUNNING.md").read_text("utf-8"))[1]
        for at, port in enumerate(self.ports):
            lines = lines.replace(f"bind 127.0.0.1:900{at + 1}", f"bind 127.0.0.1:{port}")
            for it in servers:
                lines = re.sub(rf"(server {it.name} )\S+:900{at + 1}\b", rf"\g<1>127.0.0.1:{it.ports[at]}", lines)
        for it in set("ab") - set(self.names):
            lines = re.sub(rf"(?m)^ *server {it} .*\n", "", lines)
            lines = re.sub(rf"(?m)^ *use-server {it} .*\n", "", lines)
        lines = lines.replace("/etc/haproxy/", f"{folder}/")
        head = f"global\n    stats socket {folder}/admin.sock mode 600 level admin\n    maxconn 2000\n"
        (self.folder / "haproxy.cfg").write_text(head + lines)

    def start(self):
        self.process = subprocess.Popen(["haproxy", "-db", "-q", "-f", self.folder / "haproxy.cfg"])
        for _ in range(200):
            if self.process.poll() is not None:
                raise Wrong("HAProxy did not begin")
            try:
                socket.create_connection(("127.0.0.1", self.ports[1])).close()
                return
            except OSError:
                time.sleep(0.05)
        raise Wrong("HAProxy did not begin")

    def kill(self):
        self.process.kill()
        self.process.wait()

    def lists(self, server, name):
        """Puts a name into a server's list, in the file and in the proxy that runs."""
        with self.names[server].open("a") as file:
            file.write(name + "\n")
        with socket.socket(socket.AF_UNIX) as it:
            it.connect(f"{self.folder}/admin.sock")
            escaped = re.sub(r"([ \\])", r"\\\1", name)
            it.sendall(f"add acl {self.names[server]} {escaped}\n".encode())
            reply = it.recv(4096).decode().strip()
        if reply:
            raise Wrong(f"HAProxy says: {reply}")

    def api(self, call, at="", in_body=False, **parameters):
        """The answer's code, its data, and the server that gave it."""
        form = urllib.parse.urlencode({"apikey": "key", **parameters})
        url = f"http://127.0.0.1:{self.ports[1]}{at}/api/1.2/{call}"
        try:
            with urllib.request.urlopen(*((url, form.encode()) if in_body else (f"{url}?{form}",)), timeout=20) as reply:
                answer = json.loads(reply.read())
                return answer["code"], answer["data"], reply.headers["x-server"]
        except urllib.error.HTTPError as error:
            return error.code, None, None


async def opened(proxy, name, path="/"):
    """A WebSocket for a pad, and the server at its other end."""
    url = f"ws://127.0.0.1:{proxy.ports[0]}{path}?{urllib.parse.urlencode({'pad': name})}"
    link = await websockets.connect(url, max_size=None, compression=None, ping_interval=None, open_timeout=20)
    return link, link.response_headers["x-server"]


async def told(link, kind):
    """The next message of a kind."""
    while True:
        message = json.loads(await asyncio.wait_for(link.recv(), 20))
        if message.get("type") == kind or "disconnect" in message or "accessStatus" in message:
            return message


async def entered(proxy, name, token, path="/", **more):
    link, server = await opened(proxy, name, path)
    await link.send(json.dumps({"type": "CLIENT_READY", "padId": name, "token": token, **more}))
    message = await told(link, "CLIENT_VARS")
    if message.get("type") != "CLIENT_VARS":
        await link.close()
        return None, server, message
    return link, server, message["data"]


# ---- where each pad goes


async def server_of(proxy, name, path="/", **more):
    link, server, data = await entered(proxy, name, "t.look", path, **more)
    if link is None:
        raise Wrong(f"{name}: {data}")
    await link.close()
    return server


async def look(proxy, names):
    """The server of each pad, by the API and by WebSockets."""
    by_api = {}
    for at, name in enumerate(names):
        code, _, by_api[name] = proxy.api("createPad", padID=name, text="begun", in_body=at % 2 == 0)
        if code:
            raise Wrong(f"createPad {name}: {code}")
    by_socket = {name: await server_of(proxy, name) for name in names}
    both = ", ".join(f"{list(by_api.values()).count(it)} pads at {it}" for it in sorted(proxy.names))
    holds(by_api == by_socket, f"the API and WebSockets find a pad at one server: {both}")
    return by_api


async def look_at_groups(proxy):
    """Groups are made at a server that the caller names; where the hash sends them elsewhere, a list has them."""
    listed = 0
    for at in ("/a", "/b", "/a", "/b"):
        _, data, server = proxy.api("createGroup", at)
        group = data["groupID"]
        if proxy.api("listPads", groupID=group)[0]:
            proxy.lists(server, group)
            listed += 1
        author = proxy.api("createAuthorIfNotExistsFor", at, authorMapper="ann", name="Ann")[1]["authorID"]
        session = proxy.api("createSession", in_body=True, groupID=group, authorID=author, validUntil=int(time.time()) + 60)
        pad = proxy.api("createGroupPad", groupID=group, padName="notes", text="of the group")
        text = proxy.api("getText", padID=f"{group}$notes")
        found = await server_of(proxy, f"{group}$notes", sessionID=session[1]["sessionID"])
        if (session[0], pad[0], text[0], session[2], pad[2], text[2], found) != (0, 0, 0, server, server, server, server):
            raise Wrong(f"group {group} at {server}: {session} {pad} {text} {found}")
    holds(True, f"four groups, {listed} of them listed: group, session and pads are at one server")
    holds(proxy.api("createGroup")[0] == 400 and proxy.api("listAllGroups")[0] == 400,
          "what names no pad, no group and no server is refused by the proxy (400)")
    counts = [len(proxy.api("listAllGroups", at)[1]["groupIDs"]) for at in ("/a", "/b")]
    holds(counts == [2, 2], "each server lists its own groups alone")


async def look_at_readers(proxy, where):
    """A reader's id goes by the server's name in the address."""
    for name, server in [next(it for it in where.items() if it[1] == server) for server in "ab"]:
        reader = proxy.api("getReadOnlyID", padID=name)[1]["readOnlyID"]
        link, found, data = await entered(proxy, reader, "t.reader", f"/{server}/")
        if link is None or found != server or not data["readonly"]:
            raise Wrong(f"{reader}: {found} {data}")
        await link.close()
    holds(True, "a reader's id is found by the server's name in the address")


# ---- people


class Seen:
    """What a run saw."""

    def __init__(self):
        self.phase, self.said, self.heard, self.lost = "coming", {}, {}, {}
        self.times, self.first = {}, set()
        self.stops = False

    def commit(self, server, seconds):
        self.times.setdefault((server, self.phase), []).append(seconds)

    def of(self, server, phase):
        return sorted(self.times.get((server, phase), [])) or [0.0]


class Writer:
    """One client's hand in one pad."""

    def __init__(self, proxy, seen, client, pad, server, pause):
        self.proxy, self.seen, self.client, self.pad, self.server, self.pause = proxy, seen, client, pad, server, pause
        self.count = 0

    async def type(self, link, data):
        rev, length = data["collab_client_vars"]["rev"], len(data["collab_client_vars"]["initialAttributedText"]["text"])
        while not self.seen.stops:
            word = f"<{self.client}.{self.count}>"
            self.count += 1
            self.seen.said.setdefault(self.pad, set()).add(word)
            changeset = f"Z:{base36(length)}>{base36(len(word))}+{base36(len(word))}${word}"
            begun = time.monotonic()
            await link.send(json.dumps({"type": "COLLABROOM", "data": {
                "type": "USER_CHANGES", "baseRev": rev, "changeset": changeset, "apool": {"numToAttrib": {}, "nextNum": 0}}}))
            while True:
                message = json.loads(await asyncio.wait_for(link.recv(), 30))["data"]
                rev = message["newRev"]
                if message["type"] == "ACCEPT_COMMIT":
                    break
                length += grown(message["changeset"])
            length += len(word)
            self.seen.heard.setdefault(self.pad, set()).add(word)
            self.seen.first.add((self.client, self.pad))
            self.seen.commit(self.server, time.monotonic() - begun)
            if self.pause:
                await asyncio.sleep(self.pause)

    async def run(self):
        """Types until all stop, and comes back where the connection is lost."""
        while not self.seen.stops:
            try:
                link, _, data = await entered(self.proxy, self.pad, f"t.{self.client}.{self.pad}")
                await self.type(link, data)
                await link.close()
            except (OSError, websockets.exceptions.WebSocketException, asyncio.TimeoutError, KeyError, TypeError):
                self.seen.lost[self.server] = self.seen.lost.get(self.server, 0) + 1
                await asyncio.sleep(0.2)


def writers(proxy, seen, where, pause):
    names = list(where)
    for client in range(CLIENTS):
        for at in range(EACH):
            pad = names[(client * EACH // 2 + at) % len(names)]
            yield Writer(proxy, seen, client, pad, where[pad], pause)


async def all_type(seen):
    """Waits until each has typed."""
    for _ in range(1200):
        if len(seen.first) == CLIENTS * EACH:
            return
        await asyncio.sleep(0.05)
    raise Wrong("a minute was too short for all to type a word")


def ms(times, part):
    return f"{1000 * times[min(len(times) - 1, int(len(times) * part))]:.1f}"


def say(seen, server):
    for phase in ("before", "killed", "again"):
        times = seen.of(server, phase)
        count = len(seen.times.get((server, phase), []))
        print(f"  {server} {phase}: {count} commits, {ms(times, 0.5)} ms in the middle, {ms(times, 0.99)} at 99 of 100, {ms(times, 1)} at most")


async def kill_one(proxy, servers, where, seconds):
    """People type while a server is killed and started again."""
    seen = Seen()
    running = [asyncio.create_task(it.run()) for it in writers(proxy, seen, where, PAUSE)]
    await all_type(seen)
    seen.phase = "before"
    await asyncio.sleep(seconds)
    seen.phase = "killed"
    await asyncio.to_thread(servers[0].kill)
    await asyncio.sleep(seconds)
    await asyncio.to_thread(servers[0].start)
    seen.phase = "again"
    await asyncio.sleep(seconds)
    seen.stops = True
    await asyncio.gather(*running)
    for it in "ab":
        say(seen, it)
    holds(seen.lost.get("a", 0) > 0 and seen.times.get(("a", "again")), f"the pads of a lost their connections and came back ({seen.lost.get('a', 0)} losses and tries)")
    holds(seen.lost.get("b", 0) == 0, "the pads of b lost no connection")
    longest = max(seen.of("b", "killed")[-1], seen.of("b", "again")[-1])
    holds(longest <= max(1, 3 * seen.of("b", "before")[-1]), "no edit of theirs waited longer")
    return seen


def judge(proxy, servers, where, seen):
    lost = doubled = heard = 0
    for pad in where:
        text = proxy.api("getText", padID=pad)[1]["text"]
        words = re.findall(r"<[^<>]*>", text)
        heard += len(seen.heard.get(pad, ()))
        lost += sum(words.count(word) != 1 for word in seen.heard.get(pad, ()))
        doubled += sum(words.count(word) > 1 for word in seen.said.get(pad, ()))
    holds(lost == doubled == 0, f"{heard} words were acknowledged, {lost} of them lost, {doubled} doubled")
    strays = [pad for pad in where if [it.name for it in servers if it.has(pad)] != [where[pad]]]
    holds(not strays, "each pad has a file at its server alone")


def move(proxy, servers, where):
    """A pad's file is moved while both servers are down, and the pad listed at its new one."""
    a, b = servers
    pad = next(it for it in where if where[it] == "a")
    before = proxy.api("getText", padID=pad)[1], proxy.api("getRevisionsCount", padID=pad)[1]
    for it in servers:
        it.kill()
    shutil.move(a.folder / (pad.encode().hex() + ".pad"), b.folder)
    proxy.lists("b", pad)
    for it in servers:
        it.start()
    text, count = proxy.api("getText", padID=pad), proxy.api("getRevisionsCount", padID=pad)
    holds((text[1], count[1], text[2]) == (*before, "b"), f"a pad was moved with its file, of {before[1]['revisions']} revisions")


# ---- figures


def spent(servers):
    """Seconds of processor time of processes."""
    total = 0
    for it in servers:
        fields = pathlib.Path(f"/proc/{it.process.pid}/stat").read_text("utf-8").rsplit(")", 1)[1].split()
        total += int(fields[11]) + int(fields[12])
    return total / os.sysconf("SC_CLK_TCK")


async def rate(proxy, servers, where, seconds):
    """What it is like when all type as fast as commits come."""
    seen = Seen()
    running = [asyncio.create_task(it.run()) for it in writers(proxy, seen, where, 0)]
    await all_type(seen)
    seen.phase = "counted"
    begun, used = time.monotonic(), spent(servers)
    await asyncio.sleep(seconds)
    took, used = time.monotonic() - begun, spent(servers) - used
    seen.phase = "behind"
    seen.stops = True
    await asyncio.gather(*running)
    times = sorted(time for (_, phase), of in seen.times.items() if phase == "counted" for time in of)
    return f"{len(times) / took:.0f} commits a second, {ms(times, 0.5)} ms in the middle, {ms(times, 0.99)} at 99 of 100, " \
           f"{1000 * used / len(times):.2f} ms of the servers' processor time each"


def figures(command, names, seconds):
    for count in (2, 1, 2, 1):
        with tempfile.TemporaryDirectory() as folder:
            servers = [Server(command, folder, name) for name in "ab"[:count]]
            proxy = Proxy(folder, servers)
            try:
                for it in (*servers, proxy):
                    it.start()
                where = {name: proxy.api("createPad", padID=name)[2] for name in names}
                saw = asyncio.run(rate(proxy, servers, where, seconds))
                print(f"{count} server{'s' * (count - 1)}: {saw}", flush=True)
            finally:
                for it in (*servers, proxy):
                    if hasattr(it, "process"):
                        it.kill()


def main():
    parser = argparse.ArgumentParser(usage=__doc__.split("\n\n")[1])
    parser.add_argument("--seconds", type=float, default=4)
    parser.add_argument("--figures", action="store_true")
    parser.add_argument("command", nargs="+")
    words = parser.parse_args()
    if MISSING:
        print("missing:", "; ".join(MISSING))
        return 3
    names = [f"pad {at}" if at % 10 == 0 else f"pad{at}" for at in range(PADS)]
    with tempfile.TemporaryDirectory() as folder:
        servers = [Server(words.command, folder, name) for name in "ab"]
        proxy = Proxy(folder, servers)
        try:
            for it in (*servers, proxy):
                it.start()
            where = asyncio.run(look(proxy, names))
            asyncio.run(look_at_groups(proxy))
            asyncio.run(look_at_readers(proxy, where))
            seen = asyncio.run(kill_one(proxy, servers, where, words.seconds))
            judge(proxy, servers, where, seen)
            move(proxy, servers, where)
        except Wrong as wrong:
            print(f"WRONG: {wrong}")
            return 1
        finally:
            for it in (*servers, proxy):
                if hasattr(it, "process"):
                    it.kill()
    if words.figures:
        figures(words.command, names, words.seconds)
    return 0


if __name__ == "__main__":
    sys.exit(main())
