#!/usr/bin/env python3
"""Makes of a file of the original server, an exported `.etherpad`, a history's text as this server writes and reads one.

    tools/from_original.py NEW_ID < OLD.etherpad > NEW.json

The file is that of one pad. Each revision gets an empty session, and the keys get the new id. Where revision 0 has an author
or attributes, or isn't cleaned text, an empty creation by nobody goes in front of it, and all revisions move by one. What
doesn't come along is said on standard error. The status is 1 where the file isn't such a one.

It judges no changeset: whoever reads the text does that. Tried on files that were written by hand in that form, alone.
"""

import json
import re
import sys

# a change of the empty pad that inserts text without attributes, and nothing else
PLAIN = re.compile(r"Z:1>[0-9a-z]+(\|[0-9a-z]+\+[0-9a-z]+)?(\+[0-9a-z]+)?\$")
GREATEST = 2**53 - 1

# the members of a pad that come along, are said by name, or hold nothing that a pad shows
KNOWN = ("atext", "chatHead", "head", "passwordHash", "pool", "publicStatus", "savedRevisions")


class NoPad(Exception):
    """Why a file isn't one of one pad."""


def member(value, *names):
    """The member at the end of these names."""
    for n, name in enumerate(names):
        if not isinstance(value, dict) or name not in value:
            raise NoPad("%s is missing" % "/".join(names[: n + 1]))
        value = value[name]
    return value


def pad_id(value):
    """The id of the file's one pad."""
    ids = [key[4:] for key in value if re.fullmatch(r"pad:[^:]+", key)]
    if len(ids) != 1:
        raise NoPad("it has %d pads" % len(ids))
    return ids[0]


def is_creation(rev):
    """Whether a revision is by nobody and inserts cleaned text without attributes."""
    change = member(rev, "changeset")
    head = PLAIN.match(change)
    text = change[head.end() :] if head else ""
    return bool(head) and not member(rev, "meta").get("author") and not re.search("[\t\r\u00a0]", text)


def time_of(rev):
    """A revision's time, as a whole number that a browser has exactly."""
    time = member(rev, "meta").get("timestamp") or 0
    return min(max(int(time), 0), GREATEST)


def revisions(value, old, lost):
    """All revisions, the first of them a creation's."""
    head = member(value, "pad:" + old, "head")
    revs = [member(value, "pad:%s:revs:%d" % (old, n)) for n in range(head + 1)]
    if not is_creation(revs[0]):
        revs.insert(0, {"changeset": "Z:1>0$", "meta": {"timestamp": time_of(revs[0])}})
        lost.append("the numbers of revisions: each is one more, as an empty creation goes in front")
    return revs


def converted(value, new, lost):
    """The text's object; what is lost is added to a list."""
    old = pad_id(value)
    top = member(value, "pad:" + old)
    revs = revisions(value, old, lost)
    out = {
        "pad:" + new: {
            "atext": {name: member(top, "atext", name) for name in ("attribs", "text")},
            "head": len(revs) - 1,
            "pool": member(top, "pool"),
            "publicStatus": bool(top.get("publicStatus")),
        }
    }
    for n, rev in enumerate(revs):
        author = member(rev, "meta").get("author") or ""
        meta = {"author": author, "session": "", "timestamp": time_of(rev)}
        out["pad:%s:revs:%d" % (new, n)] = {"changeset": member(rev, "changeset"), "meta": meta}
    others(value, old, top, lost)
    return out


def others(value, old, top, lost):
    """Adds what the file has besides."""
    kinds = {"names and colours of authors": "globalAuthor:", "chat messages": "pad:%s:chat:" % old}
    for kind, start in kinds.items():
        count = sum(key.startswith(start) for key in value)
        if count:
            lost.append("%s: %d" % (kind, count))
    if top.get("savedRevisions"):
        lost.append("saved revisions: %d" % len(top["savedRevisions"]))
    if top.get("passwordHash"):
        lost.append("the password")
    known = (*kinds.values(), "pad:%s:revs:" % old)
    rest = [key for key in value if not key.startswith(known) and key != "pad:" + old]
    rest += [name for name in top if name not in KNOWN]
    if rest:
        lost.append("what this tool doesn't know: %s" % ", ".join(sorted(rest)))


def main():
    if len(sys.argv) != 2:
        sys.exit(__doc__)
    lost = []
    try:
        out = converted(json.load(sys.stdin), sys.argv[1], lost)
    except (NoPad, ValueError) as why:
        sys.exit("no pad of the original server: %s" % why)
    json.dump(out, sys.stdout, ensure_ascii=False, sort_keys=True, separators=(",", ":"))
    print()
    for what in lost:
        print("left out: %s" % what, file=sys.stderr)


if __name__ == "__main__":
    main()
