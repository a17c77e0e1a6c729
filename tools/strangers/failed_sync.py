#!/usr/bin/env python3
"""Lets the syncs of a pad's file fail, and looks for what was acknowledged before.

    tools/strangers/failed_sync.py [--text BYTES] COMMAND..

COMMAND runs `padd` (a path, or several words). In a fresh folder a server is started with a library before it that lets
`fsync` and `fdatasync` of files of pads fail with EIO, as often as a file says. A pad is made, and letters are added by the
API. Each turn lets some syncs fail, then asks until a letter is acknowledged again, and says how many calls were told
`store failed` and how long the first one took that went well. At the end the server is killed while the file is in
doubt, and started again without the library.

The status is 1 where a pad didn't come back, where a letter that was acknowledged is missing, or where another file than
the pad's is left. It needs a C compiler, and skips with a word where there is none.
"""
import argparse
import http.client
import json
import os
import shutil
import subprocess
import sys
import tempfile
import time
import urllib.parse

from visits import free_port

# FAILING names a file of which each byte lets one sync fail.
LIBRARY = r"""
#define _GNU_SOURCE
#include <dlfcn.h>
#include <errno.h>
#include <fcntl.h>
#include <stdio.h>
#include <stdlib.h>
#include <string.h>
#include <sys/stat.h>
#include <unistd.h>

static int fails(int fd) {
    char link[64], path[4096];
    snprintf(link, sizeof link, "/proc/self/fd/%d", fd);
    ssize_t length = readlink(link, path, sizeof path - 1);
    if (length < 0) return 0;
    path[length] = 0;
    if (!strstr(path, ".pad")) return 0;
    struct stat left;
    const char *failing = getenv("FAILING");
    if (!failing || stat(failing, &left) != 0 || left.st_size == 0) return 0;
    return truncate(failing, left.st_size - 1) == 0;
}

#define SYNC(name) \
    int name(int fd) { \
        static int (*next)(int); \
        if (!next) next = (int (*)(int))dlsym(RTLD_NEXT, #name); \
        if (fails(fd)) { errno = EIO; return -1; } \
        return next(fd); \
    }
SYNC(fsync)
SYNC(fdatasync)
"""


def library(folder):
    compiler = shutil.which("cc")
    if compiler is None:
        print("skipped: no C compiler")
        sys.exit(0)
    source, made = os.path.join(folder, "failing.c"), os.path.join(folder, "failing.so")
    with open(source, "w", encoding="utf-8") as it:
        it.write(LIBRARY)
    subprocess.run([compiler, "-O2", "-shared", "-fPIC", "-o", made, source, "-ldl"], check=True)
    return made


class Server:
    def __init__(self, command, folder, environment):
        self.api = free_port()
        words = [*command, "serve", f"127.0.0.1:{free_port()}", f"127.0.0.1:{self.api}", folder, "key"]
        self.process = subprocess.Popen(words, stdout=subprocess.PIPE, env={**os.environ, **environment})
        if self.process.stdout.readline() != b"ready\n":
            sys.exit("the server did not begin")

    def ask(self, function, **words):
        """The data of a reply, or its message where it refuses."""
        caller = http.client.HTTPConnection("127.0.0.1", self.api, timeout=60)
        caller.request(
            "POST",
            f"/api/1.2/{function}",
            urllib.parse.urlencode({"apikey": "key", **words}),
            {"Content-Type": "application/x-www-form-urlencoded"},
        )
        reply = json.loads(caller.getresponse().read())
        caller.close()
        return reply["data"] if reply["code"] == 0 else reply["message"]

    def kill(self):
        self.process.kill()
        self.process.wait()


class Trial:
    def __init__(self, server, folder, failing):
        self.server, self.folder, self.failing = server, folder, failing
        # the letters that were acknowledged, and what is wrong
        self.told, self.wrong = 0, 0

    def add(self):
        """Adds a letter, and says whether that was acknowledged."""
        before = self.server.ask("getText", padID="a")
        if not isinstance(before, dict):
            return before
        text = before["text"].rstrip("\n")
        if text.count("x") < self.told:
            self.complain(f"{self.told - text.count('x')} letters are missing")
        told = self.server.ask("setText", padID="a", text=text + "x")
        if isinstance(told, str):
            return told
        self.told = text.count("x") + 1
        return None

    def complain(self, what):
        self.wrong += 1
        print("WRONG:", what)

    def turn(self, syncs):
        """So many syncs fail."""
        with open(self.failing, "w", encoding="utf-8") as it:
            it.write("." * syncs)
        refused = 0
        for _ in range(2 * syncs + 4):
            begun = time.monotonic()
            why = self.add()
            if why is None and os.path.getsize(self.failing) == 0 and (refused or not syncs):
                print(f"{syncs} syncs fail: {refused} calls refused, then one of {1000 * (time.monotonic() - begun):.0f} ms")
                return
            if why is not None:
                refused += 1
                if why != "store failed":
                    self.complain(f"refused as {why}")
        self.complain(f"{syncs} syncs fail: the pad didn't come back ({refused} calls refused)")

    def look(self):
        """What stands in the folder."""
        files = sorted(name for name in os.listdir(self.folder) if ".pad" in name)
        size = os.path.getsize(os.path.join(self.folder, "61.pad"))
        print(f"{self.told} letters acknowledged; files {' '.join(files)}; {size} bytes")
        return files


def main():
    words = argparse.ArgumentParser()
    words.add_argument("--text", type=int, default=1_000)
    words.add_argument("command", nargs="+")
    asked = words.parse_args()
    with tempfile.TemporaryDirectory() as room:
        folder, failing = os.path.join(room, "pads"), os.path.join(room, "failing")
        os.mkdir(folder)
        open(failing, "w", encoding="utf-8").close()
        server = Server(asked.command, folder, {"LD_PRELOAD": library(room), "FAILING": failing})
        try:
            server.ask("createPad", padID="a", text="a" * asked.text)
            trial = Trial(server, folder, failing)
            for syncs in (0, 1, 1, 2, 3, 10):
                trial.turn(syncs)
            if trial.look() != ["61.pad"]:
                trial.complain("another file is left")
            with open(failing, "w", encoding="utf-8") as it:
                it.write("." * 1000)
            print("in doubt:", trial.add(), "/", trial.add())
            trial.look()
            server.kill()
            server = trial.server = Server(asked.command, folder, {})
            begun = time.monotonic()
            why = trial.add()
            print(f"started again: a call of {1000 * (time.monotonic() - begun):.0f} ms")
            if why is not None:
                trial.complain(f"after the restart refused as {why}")
            if trial.look() != ["61.pad"]:
                trial.complain("after the restart another file is left")
            return 1 if trial.wrong else 0
        finally:
            server.kill()


if __name__ == "__main__":
    sys.exit(main())
