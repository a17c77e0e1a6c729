#!/usr/bin/env python3
"""Judges a folder in which names of pads are no files, and one that a server has.

    tools/strangers/judged.py COMMAND..

COMMAND runs `padd` (a path, or several words). A server makes two pads; while it has the folder, `verify` must end at once
with status 6 and one line on standard error. Then the server ends, and a folder and a link that leads nowhere are put under
names of pads: `verify` must have a line for each name, `foreign` for those two, and status 1. It says what was written and
how long each took. The status is 1 where one of this isn't so.
"""
import os
import subprocess
import sys
import tempfile
import time

from failed_sync import Server


def verify(command, folder):
    """The status, what was written, and what was said on standard error."""
    begun = time.monotonic()
    done = subprocess.run([*command, "verify", folder, "2"], capture_output=True, text=True, timeout=60, check=False)
    print(f"status {done.returncode} after {1000 * (time.monotonic() - begun):.0f} ms: {done.stdout!r} {done.stderr!r}")
    return done.returncode, done.stdout.splitlines(), done.stderr.splitlines()


def main():
    command = sys.argv[1:]
    if not command:
        sys.exit(__doc__)
    with tempfile.TemporaryDirectory() as folder:
        server = Server(command, folder, {})
        try:
            for pad in ("a", "d"):
                server.ask("createPad", padID=pad, text="some text")
            status, written, said = verify(command, folder)
            is_served = status == 6 and not written and len(said) == 1
        finally:
            server.kill()
        os.mkdir(os.path.join(folder, "62.pad"))
        os.symlink("nowhere", os.path.join(folder, "63.pad"))
        status, written, said = verify(command, folder)
        names = [line.split(" ")[:2] for line in written]
        wanted = [['"a"', "whole"], ['"b"', "foreign"], ['"c"', "foreign"], ['"d"', "whole"]]
        return 0 if is_served and status == 1 and names == wanted and not said else 1


if __name__ == "__main__":
    sys.exit(main())
