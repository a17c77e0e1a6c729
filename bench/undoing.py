#!/usr/bin/env python3
"""Prints a script in which clients take back their edits among each other's, and make them again.

undoing.py CLIENTS TURNS UNITS TIMES [DEEP]: into a text of so many units each client makes an edit in each of so many turns, and
hears those of the others. At the end of each turn each takes its last edit back and makes it again, TIMES times over; nothing of
that is sent, so that what TIMES adds to the time of a script is that of the undos and redos. With DEEP each client takes back all
its edits at the very end, and makes them again.
"""

import random
import sys


def main():
    clients, turns, units, times = map(int, sys.argv[1:5])
    draws = random.Random(7)
    names = [f"C{i}" for i in range(clients)]
    print("create " + "".join("\\n" if draws.randrange(60) == 0 else chr(97 + draws.randrange(26)) for _ in range(units)))
    for name in names:
        print(f"login {name}")
    for _ in range(turns):
        for name in names:
            at = draws.randrange(units - 9)
            print(f"insert {name} {at} xyz" if draws.randrange(3) else f"delete {name} {at} 3")
            print(f"submit {name}\ntake {name}")
            for other in names:
                print(f"push {other}\nhear {other}")
        for name in names:
            for _ in range(times):
                print(f"undo {name}\nredo {name}")
    if sys.argv[5:]:
        for word in "undo", "redo":
            for name in names * turns:
                print(f"{word} {name}")


main()
