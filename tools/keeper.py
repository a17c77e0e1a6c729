#!/usr/bin/env python3
"""Has the sqlite3 shell read and change the file of a keeper between two openings.

keeper.py COMMAND..: COMMAND is crates/ep_dir_rows/out/ep_dir_rows, or what runs it; `sqlite3` is on the path. The calls of a
script are played on a new file, which the shell must then read as the keeper's table; the shell renames an author, and the
file, opened again, must answer so and go on. The exit status is 1 where an answer is another.
"""

import os
import subprocess
import sys
import tempfile

# number, name, type, whether it is never NULL, default, place in the primary key
COLUMNS = "0|name|TEXT|1||1\n1|value|TEXT|1||0"

FIRST = "create_group\ncreate_author Ann\ncreate_session g.abcdefghij000000 a.abcdefghij000001 100 50\nauthor_name a.abcdefghij000001\n"

SECOND = "author_name a.abcdefghij000001\nsessions_of_group g.abcdefghij000000\nsession s.abcdefghij000002\ncreate_author Bo\n"


def shell(path, statement):
    """What the sqlite3 shell prints of a statement."""
    return subprocess.run(["sqlite3", path, statement], capture_output=True, check=True).stdout.decode().strip()


def played(command, path, script):
    """What the directory answers on a file, without the line that names it."""
    ran = subprocess.run([*command, path], input=script.encode(), capture_output=True, check=True)
    return ran.stdout.decode().splitlines()[1:]


def main():
    command = sys.argv[1:]
    with tempfile.TemporaryDirectory() as folder:
        path = os.path.join(folder, "directory.db")
        first = played(command, path, FIRST)
        tables = shell(path, "SELECT name FROM sqlite_schema WHERE type = 'table'")
        columns = shell(path, "PRAGMA table_info(kept)")
        kept = shell(path, "SELECT name, value FROM kept ORDER BY name").splitlines()
        sound = shell(path, "PRAGMA integrity_check")
        shell(path, "UPDATE kept SET value = 'Renamed' WHERE name = 'a/a.abcdefghij000001'")
        second = played(command, path, SECOND)
        left = shell(path, "SELECT name, value FROM kept ORDER BY name").splitlines()
    for line in [*first, *kept, *second, *left]:
        print(line)
    table = tables == "kept" and columns == COLUMNS and sound == "ok"
    seen = table and first[3] == "Ann" and "a/a.abcdefghij000001|Ann" in kept
    changed = second[0] == "Renamed" and "a/a.abcdefghij000001|Renamed" in left and "a/a.abcdefghij000003|Bo" in left
    return 0 if seen and changed else 1


sys.exit(main())
