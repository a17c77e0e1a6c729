#!/usr/bin/env python3
"""Makes the tables of crates in README.md and docs/ARCHITECTURE.md from crates.txt, or says where they differ.

    tools/map.py [--write]

crates.txt has the layers, lowest first, each by a line `# LAYER: WHAT IT IS FOR`, and after each crate its idea. README's
table of layers is made from these whole. Of ARCHITECTURE's table of libraries the first two columns are; the third, what the
layers above may rest on, stands there alone and is kept. Without `--write` nothing is changed, and the status is 1 where a
crate has no idea, stands on one that is listed below it, or where a table differs.
"""

import re
import sys
from pathlib import Path

TOP = Path(__file__).resolve().parent.parent
README, ARCHITECTURE = TOP / "README.md", TOP / "docs/ARCHITECTURE.md"
LAYERS = "| Layer | Crates | One idea |\n|---|---|---|\n"
CRATES = "| Crate | Idea | What the layers above may rest on |\n|---|---|---|\n"


def read():
    """The layers, each with what it is for and its crates, and the ideas of these; and what is wrong with the list."""
    layers, ideas, wrong, needs = [], {}, [], {}
    for line in (TOP / "crates.txt").read_text(encoding="utf-8").splitlines():
        said, _, comment = line.partition("#")
        heading = re.fullmatch(r" ([\w ]+): (.+)", comment) if not said.strip() else None
        if heading:
            layers.append((heading[1], heading[2], []))
        elif said.strip():
            name, _, below = said.partition(":")
            name = name.split()[0]
            layers[-1][2].append(name)
            ideas[name] = comment.strip()
            needs[name] = below.split()
            if not ideas[name]:
                wrong.append(f"crates.txt: {name} has no idea")
    order = list(ideas)
    for name, below in needs.items():
        wrong += [f"crates.txt: {name} stands on {it}, which is listed below it" for it in below if it in ideas and order.index(it) > order.index(name)]
    return layers, ideas, wrong


def rows_behind(text, head):
    """Where the rows of the table with this head begin and end."""
    start = text.index(head) + len(head)
    end = text.find("\n\n", start)
    return start, len(text) if end < 0 else end + 1


def readme_rows(layers):
    return "".join(f"| {name} | {', '.join(f'`{it}`' for it in crates)} | {idea} |\n" for name, idea, crates in layers)


def crate_rows(text, layers, ideas):
    """The rows of the table of libraries, with what stands in its third column today."""
    start, end = rows_behind(text, CRATES)
    rests = {}
    for row in text[start:end].splitlines():
        names, _, rest = [it.strip() for it in row.strip("|").split(" | ", 2)]
        rests.update({it: rest.rstrip(" |") for it in re.findall(r"`(\w+)`", names)})
    libraries = [it for name, _, crates in layers if name not in ("programs", "tests") for it in crates]
    return "".join(f"| `{it}` | {ideas[it]} | {rests.get(it, '')} |\n" for it in libraries)


def main():
    layers, ideas, wrong = read()
    for file, head, rows in (
        (README, LAYERS, lambda _: readme_rows(layers)),
        (ARCHITECTURE, CRATES, lambda text: crate_rows(text, layers, ideas)),
    ):
        text = file.read_text(encoding="utf-8")
        start, end = rows_behind(text, head)
        made = text[:start] + rows(text) + text[end:]
        if made != text and "--write" in sys.argv[1:]:
            file.write_text(made, encoding="utf-8")
        elif made != text:
            wrong.append(f"{file.name}: its table differs from crates.txt: tools/map.py --write")
    print("\n".join(wrong) if wrong else "the tables are those of crates.txt")
    sys.exit(bool(wrong))


if __name__ == "__main__":
    main()
