#!/usr/bin/env python3
"""Prints, a word a line, with which words `rattle build` builds a program over the libraries that `rt ci` proved and left.

    web/over_gate.py CRATE

Status 1, and no word, where a library of the crate isn't there.
"""
import pathlib
import subprocess
import sys

TOP = pathlib.Path(__file__).resolve().parent.parent
KIT = pathlib.Path(subprocess.run(["rt", "doc"], check=True, text=True, stdout=subprocess.PIPE).stdout.strip()).parent


def below_each():
    """Of each crate of crates.txt, those that it stands on."""
    rows = (row.split("#")[0].strip() for row in (TOP / "crates.txt").read_text(encoding="utf-8").splitlines())
    pairs = (row.partition(":") for row in rows if row)
    return {name.split()[0]: on.split() for name, _, on in pairs}


def library(crate, below):
    """The folder of a proved library."""
    here = TOP / "crates" / crate / "out" / "rlib" / f"{crate}.rlib" if crate in below else KIT / "rlibs" / f"{crate}.rlib"
    if not (here / "format").is_file():
        sys.exit(1)
    return here


def all_below(crate, below):
    seen, left = set(), list(below[crate])
    while left:
        it = left.pop()
        if it not in seen:
            seen.add(it)
            left += below.get(it, [])
    return sorted(seen)


def main():
    (crate,) = sys.argv[1:]
    below = below_each()
    words = ["--crate-name", crate, "src/main.rt"]
    for it in ["std", *below[crate]]:
        words += ["--extern", f"{it}={library(it, below)}"]
    folders = {str(library(it, below).parent) for it in all_below(crate, below)} | {str(KIT / "rlibs")}
    for it in sorted(folders):
        words += ["-L", f"dependency={it}"]
    words += ["--antt-project", f"{KIT}/rattle/logic/antt-project.json", "--logic-built", f"{KIT}/logic_built", "--links", f"{crate}="]
    print("\n".join(words))


if __name__ == "__main__":
    main()
