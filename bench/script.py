#!/usr/bin/env python3
"""Prints a script of so many rounds of insert, submit, take, push and hear by one client."""

import sys

WORDS = ["a", "pad", "of", "some", "lines", "\\n", "x", "y", "!", "é", "ab", "the"]


def main():
    rounds = int(sys.argv[1])
    out = ["create A pad\\n", "login Anna"]
    length = len("A pad\n\n")
    for i in range(rounds):
        word = WORDS[i % len(WORDS)]
        at = (i * 7919) % length
        out.append(f"insert Anna {at} {word}")
        out += ["submit Anna", "take Anna", "push Anna", "hear Anna"]
        length += 1 if word == "\\n" else len(word)
    out += ["show Anna", "head"]
    sys.stdout.write("\n".join(out) + "\n")


main()
