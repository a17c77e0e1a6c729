#!/usr/bin/env python3
"""Says where crates.txt lists a crate that isn't needed, or leaves out one that is.

    tools/dependencies.py

Run it anywhere in the repository, without words; it reads crates.txt and the files of crates/ and writes nothing. It
prints a line for each listed crate that its reader's code, definitions and proofs don't name, or that its tests alone
name, and for each crate that is named and not listed. A crate of tests (`try_..`) and a program, on which no crate stands,
may list crates for tests alone. The exit status is 1 where there is such a line.

Known are the crates of the repository and the libraries that some line of crates.txt lists; `std` is never listed.
"""

import re
import sys
from pathlib import Path

TOP = Path(__file__).resolve().parent.parent


def listed():
    """The crates with what each lists."""
    crates = {}
    for line in (TOP / "crates.txt").read_text(encoding="utf-8").splitlines():
        line = line.split("#")[0].strip()
        if line:
            name, _, needs = line.partition(":")
            crates[name.split()[0]] = needs.split()
    return crates


def behind_brace(text, start):
    """The place behind the brace that closes the first one from a place on."""
    depth = 0
    for brace in re.finditer(r"[{}]", text[start:]):
        depth += 1 if brace.group() == "{" else -1
        if depth == 0:
            return start + brace.end()
    return len(text)


def without_tests(path, text):
    """The text of a file without its modules of tests, and the files of those that stand apart."""
    apart = set()
    folder = path.parent if path.stem in ("lib", "main") else path.with_suffix("")
    while test := re.search(r"#\[cfg\(test\)\]\s*mod (\w+)\s*([;{])", text):
        end = test.end()
        if test.group(2) == ";":
            apart.add(folder / test.group(1))
        else:
            end = behind_brace(text, test.end() - 1)
        text = text[: test.start()] + text[end:]
    return text, apart


def read(crate):
    """The text of a crate without its tests, and that of all its files."""
    folder = TOP / "crates" / crate
    texts = {path: re.sub(r"//.*", "", path.read_text(encoding="utf-8")) for path in (folder / "src").rglob("*.rt")}
    kept = {path: without_tests(path, text) for path, text in texts.items()}
    apart = {module for _, modules in kept.values() for module in modules}
    code = ""
    for path, (text, _) in kept.items():
        if not any(path.with_suffix("").is_relative_to(module) for module in apart):
            code += text
    for path in [*(folder / "specs").rglob("*.antt"), *(folder / "proofs").rglob("*.antt")]:
        code += re.sub(r"--.*", "", path.read_text(encoding="utf-8"))
    return code, code + "".join(texts.values())


def names(text, known):
    """The known crates that a text names, as `name::item`, `use name;` or `Rattle.name.item`."""
    named = set(re.findall(r"(?<![\w:.])(\w+)::", text))
    named |= set(re.findall(r"\buse (\w+);", text))
    named |= set(re.findall(r"\bRattle\.(\w+)", text))
    return named & known


def main():
    crates = listed()
    known = set(crates) | {need for needs in crates.values() for need in needs}
    found = 0
    for crate, needs in crates.items():
        code, everything = read(crate)
        in_code = names(code, known) - {crate}
        in_all = names(everything, known) - {crate}
        may = crate.startswith("try_") or (TOP / "crates" / crate / "src" / "main.rt").exists()
        wanted = in_all if may else in_code
        for need in needs:
            if need not in wanted:
                found += 1
                why = "for its tests alone" if need in in_all else "and doesn't name it"
                print(f"{crate} lists {need} {why}")
        for need in sorted(in_all - set(needs)):
            found += 1
            print(f"{crate} names {need} and doesn't list it")
    return 1 if found else 0


sys.exit(main())
