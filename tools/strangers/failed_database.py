#!/usr/bin/env python3
"""Lets the syncs of the directory's database fail, and looks for what was acknowledged before.

    tools/strangers/failed_database.py COMMAND..

COMMAND runs `padd` (a path, or several words). In a fresh folder a server is started with a library before it that lets
`fsync` and `fdatasync` of files of the database fail with EIO, as often as a file says. Authors are made by the API. Each turn
lets some syncs fail, then asks until an author is made again, and says how many calls were refused. Each author that was
acknowledged must still be known, also after the server was killed and started again without the library.

The status is 1 where the directory didn't come back, or where an author is missing. It needs a C compiler, and skips with a
word where there is none.
"""
import os
import sys
import tempfile

import failed_sync
from failed_sync import Server


class Trial:
    def __init__(self, server, failing):
        self.server, self.failing = server, failing
        # the authors that were acknowledged, by their names, and what is wrong
        self.authors, self.asked, self.wrong = {}, 0, 0

    def complain(self, what):
        self.wrong += 1
        print("WRONG:", what)

    def make(self):
        """Makes an author, and says why not where it isn't acknowledged."""
        self.asked += 1
        name = f"author {self.asked}"
        told = self.server.ask("createAuthor", name=name)
        if not isinstance(told, dict):
            return told
        self.authors[told["authorID"]] = name
        return None

    def turn(self, syncs):
        """So many syncs fail."""
        with open(self.failing, "w", encoding="utf-8") as it:
            it.write("." * syncs)
        refused = 0
        for _ in range(2 * syncs + 10):
            why = self.make()
            refused += why is not None
            if why is None and os.path.getsize(self.failing) == 0:
                print(f"{syncs} syncs fail: {refused} calls refused")
                return
        self.complain(f"{syncs} syncs fail: the directory didn't come back ({refused} calls refused)")

    def look(self):
        """Each author that was acknowledged is known."""
        for author, name in self.authors.items():
            told = self.server.ask("getAuthorName", authorID=author)
            if told != name and not (isinstance(told, dict) and name in told.values()):
                self.complain(f"{author} is not {name}, but {told}")
        print(f"{len(self.authors)} authors acknowledged")


def main():
    if not sys.argv[1:]:
        sys.exit(__doc__)
    failed_sync.LIBRARY = failed_sync.LIBRARY.replace('".pad"', '"directory.db"')
    with tempfile.TemporaryDirectory() as room:
        folder, failing = os.path.join(room, "pads"), os.path.join(room, "failing")
        os.mkdir(folder)
        open(failing, "w", encoding="utf-8").close()
        server = Server(sys.argv[1:], folder, {"LD_PRELOAD": failed_sync.library(room), "FAILING": failing})
        try:
            trial = Trial(server, failing)
            for syncs in (0, 1, 1, 2, 3, 10):
                trial.turn(syncs)
                trial.look()
            server.kill()
            server = trial.server = Server(sys.argv[1:], folder, {})
            trial.look()
            return 1 if trial.wrong else 0
        finally:
            server.kill()


if __name__ == "__main__":
    sys.exit(main())
