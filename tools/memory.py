#!/usr/bin/env python3
"""Refuses each allocation of `padd play` in turn, and looks at what comes of it.

memory.py PROGRAM: PROGRAM is padd, as `tools/unproved padd` or `rt run` builds it. Two scripts are played: a session that is
lost and comes back, and a crash within a take, at each place of it. For each number N the program runs once, and its Nth
allocation is refused. It has to end with status 0 and all that it writes else, or with status 7 (memory ran out) or 5
(standard output failed) and a beginning of that, or with status 9 and nothing written where no thread could be started for
it. Another end, or none in ten seconds, is printed, and the exit status is then 1.

It wants a C compiler (cc), and a program that takes its memory from the system's malloc.
"""

import os
import subprocess
import sys
import tempfile

SHIM = r"""
#include <stdatomic.h>
#include <stddef.h>
#include <stdlib.h>
#include <unistd.h>
extern void *__libc_malloc(size_t), *__libc_realloc(void *, size_t);
static atomic_long made;
static long refused = -1, told;
__attribute__((constructor)) static void begin(void) {
    told = atol(getenv("MEMORY_TOLD"));
    made = 0;
    refused = atol(getenv("MEMORY_REFUSED"));
}
static int is_refused(void) {
    if (refused < 0 || ++made != refused) return 0;
    return write((int)told, "r", 1) == 1;
}
void *malloc(size_t size) { return is_refused() ? NULL : __libc_malloc(size); }
void *realloc(void *old, size_t size) { return is_refused() ? NULL : __libc_realloc(old, size); }
"""

BACK = "create ab\nlogin A\ninsert A 1 X\nsubmit A\ntake A\nlose A\nresume A\npush A\nhear A\nsubmit A\nshow A\n"
CRASH = "create ab\nlogin A\ninsert A 1 X\nsubmit A\ncrash A {} {}\nresume A\npush A\nhear A\nsubmit A\n"
SCRIPTS = [BACK] + [CRASH.format(calls, image) for calls, image in ((0, "old"), (1, "new"), (2, "old"), (3, "01"), (3, "07"), (4, "new"))]


def play(program, shim, script, number):
    """The status of a run whose allocation of this number is refused, what it wrote, and whether it was refused one."""
    end, told = os.pipe()
    env = {"LD_PRELOAD": shim, "MEMORY_TOLD": str(told), "MEMORY_REFUSED": str(number)}
    try:
        ran = subprocess.run(
            [program, "play"], input=script.encode(), capture_output=True, env=env, pass_fds=[told], timeout=10
        )
        status, wrote = ran.returncode, ran.stdout
    except subprocess.TimeoutExpired:
        status, wrote = "none", b""
    os.close(told)
    refused = os.read(end, 1)
    os.close(end)
    return status, wrote, bool(refused)


def is_well(status, wrote, wanted):
    if status == 0:
        return wrote == wanted
    return (status in (5, 7) and wanted.startswith(wrote)) or (status == 9 and not wrote)


def try_script(program, shim, script):
    """How many allocations of a script were refused, and how many runs ended as they may not."""
    status, wanted, _ = play(program, shim, script, -1)
    if status:
        sys.exit(f"status {status} with all memory")
    number, others, ends = 0, 0, {}
    while True:
        number += 1
        status, wrote, refused = play(program, shim, script, number)
        if not refused:
            break
        ends[status] = ends.get(status, 0) + 1
        if not is_well(status, wrote, wanted):
            others += 1
            print(f"allocation {number} of {script.splitlines()[4]}: status {status}, {wrote!r}")
    print(f"{number - 1} allocations refused, by status {dict(sorted(ends.items(), key=str))}")
    return number - 1, others


def main():
    if len(sys.argv) != 2:
        sys.exit("usage: tools/memory.py PROGRAM")
    with tempfile.TemporaryDirectory() as room:
        source, shim = f"{room}/shim.c", f"{room}/shim.so"
        with open(source, "w", encoding="utf-8") as it:
            it.write(SHIM)
        subprocess.run(["cc", "-shared", "-fPIC", "-O1", source, "-o", shim], check=True)
        tries = [try_script(os.path.abspath(sys.argv[1]), shim, script) for script in SCRIPTS]
    others = sum(others for _, others in tries)
    print(f"{len(tries)} scripts, {sum(number for number, _ in tries)} runs, {others} other ends")
    return 1 if others or not all(number for number, _ in tries) else 0


sys.exit(main())
