#!/usr/bin/env python3
"""Copies the folder of a server under load, and looks in the copy for what it had acknowledged.

    tools/backup.py [--copies N] COMMAND..

COMMAND runs `padd` (a path, or several words). A server is started in a fresh folder, and four writers type words of their
own into one pad. N times (10), after some time, `tools/backup.sh` copies the folder while they go on. Of each copy `padd
verify` must say nothing bad, and a server on it must have each word once whose commit was heard before the copying began,
and no word twice. Somebody makes groups all the while: those whose
reply came before must be in the copy too. It needs Python's `websockets`, and skips with a word where that isn't there.
"""
import argparse
import asyncio
import json
import os
import random
import subprocess
import sys
import tempfile
import urllib.request

import kills

HERE = os.path.dirname(os.path.abspath(__file__))


def call(port, function):
    with urllib.request.urlopen(f"http://127.0.0.1:{port}/api/1.2/{function}?apikey=key", timeout=20) as reply:
        return json.load(reply)["data"]


async def make_groups(port, groups):
    """Makes groups, one after another, until the server is gone."""
    try:
        while True:
            groups.append((await asyncio.to_thread(call, port, "createGroup"))["groupID"])
    except OSError:
        pass


async def found(command, copy):
    """What a server on a copy has: the revision and the text of the pad, and all groups."""
    ports = (kills.free_port(), kills.free_port())
    server = kills.start(command, copy, ports)
    link, rev, text = await kills.enter(ports[0], "t.reader")
    await link.close()
    groups = (await asyncio.to_thread(call, ports[1], "listAllGroups"))["groupIDs"]
    server.kill()
    server.wait()
    return rev, text, set(groups)


async def judged(command, copy):
    """What `verify` says of a copy: its status, and its lines."""
    verify = await asyncio.create_subprocess_exec(
        *command, "verify", copy, "1", stdout=subprocess.PIPE, stderr=subprocess.DEVNULL)
    lines, _ = await verify.communicate()
    return verify.returncode, lines.decode()


async def one_copy(command, folder, copy, said, heard, groups):
    """Copies the folder, and tells what is wrong with the copy."""
    before, made = set(heard), set(groups)
    backup = await asyncio.create_subprocess_exec(f"{HERE}/backup.sh", folder, copy, stdout=subprocess.DEVNULL)
    if await backup.wait() != 0:
        raise SystemExit("backup.sh failed")
    after = len(heard)
    status, lines = await judged(command, copy)
    rev, text, there = await found(command, copy)
    lost = [word for word in before if text.count(word) != 1]
    doubled = [word for word in said if text.count(word) > 1]
    print(f"{len(before)} words and {len(made)} groups before the copy, {after - len(before)} words meanwhile; in the copy "
          f"revision {rev}, {len(there)} groups, verify {status}: {lines.strip()!r}; lost {len(lost)} words and "
          f"{len(made - there)} groups, {len(doubled)} words doubled", flush=True)
    return status in (0, 1) and not lost and not doubled and made <= there


async def main():
    parser = argparse.ArgumentParser()
    parser.add_argument("--copies", type=int, default=10)
    parser.add_argument("command", nargs="+")
    options = parser.parse_args()
    said, heard, groups = set(), set(), []
    with tempfile.TemporaryDirectory() as room:
        folder = f"{room}/served"
        os.mkdir(folder)
        ports = (kills.free_port(), kills.free_port())
        server = kills.start(options.command, folder, ports)
        writers = [asyncio.create_task(kills.write(ports[0], n, kills.words_of(0, n), said, heard))
                   for n in range(kills.WRITERS)]
        writers.append(asyncio.create_task(make_groups(ports[1], groups)))
        good = True
        for number in range(options.copies):
            await asyncio.sleep(random.uniform(0.2, 1.0))
            good = await one_copy(options.command, folder, f"{room}/copy{number}", said, heard, groups) and good
        server.kill()
        server.wait()
        await asyncio.gather(*writers)
    return 0 if good else 1


if __name__ == "__main__":
    sys.exit(asyncio.run(main()))
