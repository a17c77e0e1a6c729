#!/usr/bin/env python3
"""Says what is larger than it should be.

    tools/sizes.py

It prints a line for each function with more than eight parameters (`self` aside) or more than 40 lines of code, each file
with more than 800 lines, and each crate with more than 1,500 lines of code or 100 functions. Lines of code are those of
src/ that are neither blank nor comments; a function's are those of its body. The status is 1 where there is such a line.
"""

import re
import sys
from pathlib import Path

TOP = Path(__file__).resolve().parent.parent
MOST_PARAMETERS, MOST_BODY, MOST_FILE, MOST_CRATE, MOST_FUNCTIONS = 8, 40, 800, 1_500, 100
FUNCTION = re.compile(r"(?m)^( *)(?:pub(?:\([a-z]+\))? )?(?:const |final )*fn (\w+)")


def is_code(line):
    return bool(line.strip()) and not line.lstrip().startswith("//")


def behind(text, start, opening, closing):
    """The place behind the bracket that closes the first one from a place on."""
    depth, at = 0, start
    while at < len(text):
        depth += (text[at] == opening) - (text[at] == closing)
        at += 1
        if depth == 0 and text[at - 1] == closing:
            return at
    return at


def parameters_of(text, start):
    """How many parameters a function has, `self` aside."""
    opening = text.index("(", start)
    inside = text[opening + 1 : behind(text, opening, "(", ")") - 1]
    depth, parts, last = 0, [], 0
    for at, sign in enumerate(inside):
        depth += (sign in "([{<") - (sign in ")]}") - (sign == ">" and inside[at - 1] != "-")
        if sign == "," and depth == 0:
            parts.append(inside[last:at])
            last = at + 1
    parts.append(inside[last:])
    names = [it.strip() for it in parts if it.strip()]
    return sum(not re.match(r"&?(?:'\w+ )?(?:mut )?self\b", it) for it in names)


def body_of(text, start, indent):
    """The lines of code of a function's body; none where it has no body."""
    end = re.compile(rf"(?m)^{indent}\}}").search(text, start)
    rest = text[start : end.end() if end else len(text)]
    lines = rest.split("\n")
    opened = next((at for at, line in enumerate(lines) if line == indent + "{" or at == 0 and line.endswith("{")), None)
    return sum(map(is_code, lines[opened + 1 : -1])) if opened is not None else 0


def told(crate):
    code = functions = 0
    for file in sorted(crate.glob("src/**/*.rt")):
        text = file.read_text(encoding="utf-8")
        name = file.relative_to(TOP)
        lines = text.split("\n")
        code += sum(map(is_code, lines))
        if len(lines) - 1 > MOST_FILE:
            yield f"{name}: {len(lines) - 1} lines"
        for found in FUNCTION.finditer(text):
            functions += 1
            count = parameters_of(text, found.end())
            if count > MOST_PARAMETERS:
                yield f"{name}: {found[2]} has {count} parameters"
            body = body_of(text, found.start(), found[1])
            if body > MOST_BODY:
                yield f"{name}: {found[2]} has {body} lines"
    if code > MOST_CRATE:
        yield f"{crate.name}: {code} lines of code"
    if functions > MOST_FUNCTIONS:
        yield f"{crate.name}: {functions} functions"


def main():
    lines = [line for crate in sorted((TOP / "crates").iterdir()) if crate.is_dir() for line in told(crate)]
    print("\n".join(lines) if lines else "nothing is too large")
    sys.exit(bool(lines))


if __name__ == "__main__":
    main()
