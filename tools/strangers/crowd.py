#!/usr/bin/env python3
"""Comes with more connections than the server may have threads or files, and says whether it stays.

    tools/strangers/crowd.py [--threads N] [--files N] [--callers N] [--hold SECONDS] COMMAND..

COMMAND runs `padd` (a path, or several words). The server runs as a user of its own (65534) that may have N threads (30)
and N open files (1,024), as `ulimit -u` and `-n` say; so this wants to be run by root. Then N silent callers (100) come,
and stay for SECONDS (0) longer, in which the server lets them go and takes others. After each ten callers and each five
seconds it is told whether the server is there, and its threads and files. Then the silent callers go, and one who comes
then enters a pad: it is told after how many seconds. The status is 1 where the server ended, or nobody enters.
"""
import argparse
import os
import resource
import shutil
import socket
import subprocess
import sys
import tempfile
import time

from visits import Visitor, free_port

NOBODY = 65534


def limited(asked):
    def limit():
        resource.setrlimit(resource.RLIMIT_NOFILE, (asked.files, asked.files))
        os.setgid(NOBODY)
        os.setuid(NOBODY)
        resource.setrlimit(resource.RLIMIT_NPROC, (asked.threads, asked.threads))

    return limit


def told(server):
    if server.poll() is not None:
        return f"ended with status {server.returncode}"
    threads = len(os.listdir(f"/proc/{server.pid}/task"))
    return f"there, threads {threads}, files {len(os.listdir(f'/proc/{server.pid}/fd'))}"


def main():
    words = argparse.ArgumentParser()
    words.add_argument("--threads", type=int, default=30)
    words.add_argument("--files", type=int, default=1024)
    words.add_argument("--callers", type=int, default=100)
    words.add_argument("--hold", type=int, default=0)
    words.add_argument("command", nargs="+")
    asked = words.parse_args()
    with tempfile.TemporaryDirectory() as top:
        os.chmod(top, 0o755)
        program = shutil.copy(asked.command[0], top)
        folder = os.path.join(top, "pads")
        os.mkdir(folder)
        os.chown(folder, NOBODY, NOBODY)
        pads, api = free_port(), free_port()
        line = [program, *asked.command[1:], "serve", f"127.0.0.1:{pads}", f"127.0.0.1:{api}", folder, "key"]
        server = subprocess.Popen(line, stdout=subprocess.PIPE, preexec_fn=limited(asked))
        try:
            if server.stdout.readline() != b"ready\n":
                sys.exit("the server did not begin")
            callers = []
            for caller in range(asked.callers):
                try:
                    callers.append(socket.create_connection(("127.0.0.1", pads), timeout=5))
                except OSError:
                    break
                if caller % 10 == 9:
                    time.sleep(0.2)
                    print(f"callers {caller + 1}: {told(server)}", flush=True)
            for second in range(5, asked.hold + 1, 5):
                time.sleep(5)
                print(f"after {second} s: {told(server)}", flush=True)
            for caller in callers:
                caller.close()
            begun = time.monotonic()
            try:
                Visitor(pads).enter("quiet", "t.1")
                print(f"who comes then enters after {time.monotonic() - begun:.1f} s: {told(server)}")
            except OSError as error:
                print(f"who comes then doesn't enter ({error}): {told(server)}")
                return 1
            return 1 if server.poll() is not None else 0
        finally:
            server.kill()


if __name__ == "__main__":
    sys.exit(main())
