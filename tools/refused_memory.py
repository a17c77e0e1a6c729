#!/usr/bin/env python3
"""Plays worked scripts with each allocation refused in turn, and compares what padd writes and its status.

refused_memory.py PROGRAM FILE [MOST]: PROGRAM is padd as the native linker made it, with or without proofs; FILE has a JSON
object a line, as for play.py. Of its scripts those with an undo or a redo are taken, the shortest first, MOST at most (5). A
library of a few lines in C goes before malloc and refuses the one call that it is told. Then the play has to end with status 7,
what it wrote being a beginning of what is wanted, or with status 9 where a thread wants memory at the start and nothing was
written, or to go on as if nothing had been refused. Anything else is printed, and the
exit status is 1 where there is any. It says nothing of what a client shows behind a refusal, since the play ends there: that
nothing changed is what the clauses `kept` of `ep_undo` say.

It needs cc, and a kernel that lets a library go before malloc.
"""

import json
import os
import pathlib
import subprocess
import sys
import tempfile

BEFORE_MALLOC = r"""
#include <stdlib.h>
#include <unistd.h>
extern void *__libc_malloc(size_t);
static long asked, refused = -1;
void *malloc(size_t size) {
    if (refused == -1) { char *word = getenv("REFUSED"); refused = word ? atol(word) : 0; }
    if (++asked != refused) return __libc_malloc(size);
    (void)!write(2, "refused\n", 8);
    return NULL;
}
"""


def library_in(folder):
    source, library = folder / "before.c", folder / "before.so"
    source.write_text(BEFORE_MALLOC)
    subprocess.run(["cc", "-O1", "-shared", "-fPIC", "-o", library, source], check=True)
    return library


def played(program, case, library, number):
    """What the play wrote, its status, and whether the allocation of this number was asked for."""
    around = dict(os.environ, LD_PRELOAD=str(library), REFUSED=str(number))
    ran = subprocess.run([program, "play"], input=case["script"].encode(), capture_output=True, check=False, env=around)
    return ran.stdout.decode(errors="replace"), ran.returncode, b"refused\n" in ran.stderr


def takes_back(case):
    return case["words"] == ["play"] and "script" in case and any(
        line.startswith(("undo ", "redo ")) and not line.endswith(" none") for line in case["stdout"].splitlines())


def main():
    with open(sys.argv[2], encoding="utf-8") as lines:
        cases = [case for line in lines if line.strip() and takes_back(case := json.loads(line))]
    cases.sort(key=lambda case: len(case["script"]))
    ended = others = whole = 0
    with tempfile.TemporaryDirectory() as folder:
        library = library_in(pathlib.Path(folder))
        for case in cases[:int(sys.argv[3]) if sys.argv[3:] else 5]:
            number = 1
            while (out := played(sys.argv[1], case, library, number))[2]:
                text, status, _ = out
                if (status, text) == (9, "") or (status == 7 and case["stdout"].startswith(text)):
                    ended += 1
                elif status == case["status"] and text == case["stdout"]:
                    whole += 1
                else:
                    others += 1
                    print(f"allocation {number} refused: status {status} in {case['script']!r}")
                number += 1
            if out[:2] != (case["stdout"], case["status"]):
                others += 1
                print(f"nothing refused: status {out[1]} in {case['script']!r}")
    print(f"{ended} plays ended for want of memory, {whole} went on, {others} did otherwise")
    return 1 if others else 0


sys.exit(main())
