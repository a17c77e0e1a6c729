#!/usr/bin/env python3
"""Prints a script in which many clients type into one text, lose their connections and come back, and the server crashes.

typing.py CLIENTS EDITS UNITS [BURST [CRASHES]]: so many clients type EDITS letters, one a line, into a text of so many units.
A client types BURST letters at one place and submits them, 10 where it isn't given. Once each client has typed, every client hears what
it hasn't heard. In each such turn one client has lost its connection, and is back in the next one. The server crashes
CRASHES times, 10 where it isn't given, at even distances, and then every client comes back.
"""

import random
import sys


def text_of(units, draws):
    """A text of so many units, with a newline in about 60, as a script spells it."""
    return "".join("\\n" if draws.randrange(60) == 0 else chr(97 + draws.randrange(26)) for _ in range(units))


class Script:
    def __init__(self, clients, units):
        self.draws = random.Random(7)
        self.names = [f"C{i}" for i in range(clients)]
        self.units = units
        self.behind = dict.fromkeys(self.names, 0)
        self.lines = [f"create {text_of(units, self.draws)}"] + [f"login {name}" for name in self.names]

    def type(self, name, burst):
        at = self.draws.randrange(self.units)
        self.lines += [f"insert {name} {at + i} x" for i in range(burst)]
        self.lines += [f"submit {name}", f"take {name}"]
        for other in self.names:
            self.behind[other] += 1

    def catch_up(self, name):
        """One push more than there are revisions: what a resumption sends once more may have become one, too."""
        for _ in range(self.behind[name] + 1):
            self.lines += [f"push {name}", f"hear {name}"]
        self.behind[name] = 0

    def come_back(self, name):
        """The client resumes, hears what it missed, and sends once more what nobody told it of."""
        self.lines.append(f"resume {name}")
        self.catch_up(name)
        self.lines += [f"submit {name}", f"take {name}"]
        for other in self.names:
            self.behind[other] += 1

    def crash(self):
        self.lines.append("crash")
        for name in self.names:
            self.come_back(name)


def main():
    clients, edits, units = map(int, sys.argv[1:4])
    burst = int(sys.argv[4]) if len(sys.argv) > 4 else 10
    crashes = int(sys.argv[5]) if len(sys.argv) > 5 else 10
    script = Script(clients, units)
    turns = max(1, edits // (burst * clients))
    gone = None
    for turn in range(turns):
        for name in script.names:
            script.type(name, burst)
        lost = script.draws.choice(script.names)
        script.lines.append(f"lose {lost}")
        for name in script.names:
            if name == gone:
                script.come_back(name)
            elif name != lost:
                script.catch_up(name)
        gone = lost
        if (turn + 1) * crashes // turns > turn * crashes // turns:
            script.crash()
            gone = None
    for name in script.names:
        script.catch_up(name)
    sys.stdout.write("\n".join([*script.lines, *(f"show {name}" for name in script.names[:2]), "head"]) + "\n")


main()
