#!/usr/bin/env python3
"""Replays scripts of `padd play` through one `padedit` a client.

    tools/padedit_play.py PADEDIT EASYSYNC FILE..

PADEDIT and EASYSYNC are the programs, each FILE has worked scripts, JSON Lines with `words`, `script` (or `script_hex`), `stdout`
and `status`. Of each script the lines that a client does are asked of its `padedit`, and the server's side is that of `play`:
`stdout` says what the server answered, when, and in which session; what that is in messages is made here, of what the clients
sent, and EASYSYNC brings it behind the revisions that came between. So each submission, each revision, each change that a user is
told, each refusal and each view is compared with what `play` wrote; where a `padedit` differs, the script has failed.

`padedit` gives what a user puts the user's own id as `author`, which `play` doesn't. So authors are left out of what is compared,
and a script that itself speaks of authors is compared by its texts alone. A client that comes back hears the first revision that
it missed with the server's answer, and not later as in `play`; so a script that submits before it hears that is passed over. And a
closing that `play` lets a client hear whose connection is lost must be refused as `turn`.
"""
import argparse
import collections
import json
import re
import subprocess
import sys

DIGITS = "0123456789abcdefghijklmnopqrstuvwxyz"
OPERATION = re.compile(r"((?:\*[0-9a-z]+)*)(?:\|([0-9a-z]+))?([-+=])([0-9a-z]+)")
HEADING = re.compile(r"Z:([0-9a-z]+)([<>][0-9a-z]+)")
ESCAPED = re.compile(r"\\(.)", re.S)
WRITTEN = {"n": "\n", "t": "\t"}
EMPTY = {"text": "\n", "attribs": "|1+1", "pool": {"nextNum": 0, "numToAttrib": {}}}


class Differs(Exception):
    """What a `padedit` did isn't what was told."""


class PassedOver(Exception):
    """The script has what clients of the messages can't do."""


def base36(number):
    said = DIGITS[number % 36]
    while number >= 36:
        number //= 36
        said = DIGITS[number % 36] + said
    return said


def plain_text(text):
    return ESCAPED.sub(lambda found: WRITTEN.get(found[1], found[1]), text)


def quoted(text):
    """The text that stands between quotes at the end of a line of output."""
    return plain_text(text[text.index('"') + 1:-1])


def pool_of(pairs):
    return {"nextNum": len(pairs), "numToAttrib": {str(number): list(pair) for number, pair in enumerate(pairs)}}


def in_pool(pairs, text, pool):
    """A text's operations, numbered by a list of pairs, which gains those that it lacks."""
    def number(found):
        pair = tuple(pool["numToAttrib"][str(int(found[1], 36))])
        if pair not in pairs:
            pairs.append(pair)
        return "*" + base36(pairs.index(pair))
    head, dollar, bank = text.partition("$")
    return re.sub(r"\*([0-9a-z]+)", number, head) + dollar + bank


def without_authors(text, pool):
    """Operations in normal form without the attribute `author`, numbered by appearance, and the pairs of these numbers."""
    head, dollar, bank = text.partition("$")
    heading = HEADING.match(head)
    kept = []
    for marks, lines, sign, units in OPERATION.findall(head[heading.end():] if heading else head):
        pairs = [tuple(pool["numToAttrib"][str(int(mark, 36))]) for mark in marks.split("*")[1:]]
        pairs = sorted((pair for pair in pairs if pair[0] != "author"), key=lambda pair: pair[0].encode("utf-16-be"))
        lines, units = int(lines or "0", 36), int(units, 36)
        while kept and kept[-1][:2] == [pairs, sign] and not (kept[-1][2] and not lines):
            lines, units = lines + kept[-1][2], units + kept[-1][3]
            kept.pop()
        kept.append([pairs, sign, lines, units])
    if dollar and kept and kept[-1][:2] == [[], "="]:
        kept.pop()
    numbers, said = [], heading[0] if heading else ""
    for pairs, sign, lines, units in kept:
        numbers += [pair for pair in pairs if pair not in numbers]
        said += "".join("*" + base36(number) for number in sorted(map(numbers.index, pairs)))
        said += (f"|{base36(lines)}" if lines else "") + sign + base36(units)
    return said + dollar + bank, numbers


class Program:
    """A program that answers a line of JSON with another."""

    def __init__(self, path):
        self.child = subprocess.Popen([path], stdin=subprocess.PIPE, stdout=subprocess.PIPE)

    def ask(self, **request):
        self.child.stdin.write(json.dumps(request).encode() + b"\n")
        self.child.stdin.flush()
        reply = self.child.stdout.readline()
        if not reply:
            raise Differs(f"the program ended at {request}")
        return json.loads(reply)

    def end(self):
        self.child.stdin.close()
        self.child.stdout.close()
        self.child.wait()


class Calculator(Program):
    def change(self, do, doc, changes, **members):
        """A request of a document and changes, in one pool."""
        pairs = []
        doc = {"text": doc["text"], "attribs": in_pool(pairs, doc["attribs"], doc["pool"])}
        changes = {name: [in_pool(pairs, *one) for one in some] if name == "through" else in_pool(pairs, *some) for name, some in changes.items()}
        reply = self.ask(do=do, pool=pool_of(pairs), **doc, **changes, **members)
        if "refused" in reply:
            raise Differs(f"easysync refused {do}: {reply['refused']}")
        return reply

    def apply(self, doc, change):
        return self.change("apply", doc, {"a": change})

    def splice(self, doc, at, units, put, author):
        reply = self.change("splice", doc, {}, at=at, n=units, insert=put, pairs=[["author", author]])
        return reply["changeset"], reply["pool"]

    def rebase(self, doc, change, through):
        reply = self.change("rebase", doc, {"a": change, "through": through})
        return reply["changeset"], reply["pool"]


class Server:
    """What the server has: the revisions of a birth, each with its change, author and session, and its documents."""

    def __init__(self, calculator):
        self.calculator, self.birth, self.docs, self.revs = calculator, 0, [], []

    def make(self, change):
        self.birth += 1
        self.docs, self.revs = [self.calculator.apply(EMPTY, change)], [(change, "", "")]

    def head(self):
        return len(self.docs) - 1

    def add(self, change, author, session):
        self.docs.append(self.calculator.apply(self.docs[-1], change))
        self.revs.append((change, author, session))

    def give_newline(self):
        """The server's own revision, which gives the text its final newline."""
        units = len(self.docs[-1]["text"].encode("utf-16-le")) // 2
        text = self.docs[-1]["text"]
        lines, last = text.count("\n"), len(text[:text.rfind("\n") + 1].encode("utf-16-le")) // 2
        skip = (f"|{base36(lines)}={base36(last)}" if lines else "") + (f"={base36(units - last)}" if units > last else "")
        self.add((f"Z:{base36(units)}>1{skip}|1+1$\n", {"numToAttrib": {}}), "", "")

    def rebased(self, base, change):
        return self.calculator.rebase(self.docs[base], change, [rev[0] for rev in self.revs[base + 1:]])

    def news(self, rev):
        (changeset, pool), author, session = self.revs[rev]
        wire = []
        changeset = in_pool(wire, changeset, pool)
        return {"apool": pool_of(wire), "author": author, "changeset": changeset, "currentTime": rev, "newRev": rev, "session": session}


def room(kind, **data):
    return {"type": "COLLABROOM", "data": {"type": kind, **data}}


class Client:
    """A client's `padedit`, and what its user is shown."""

    def __init__(self, path, name, calculator):
        self.program, self.name, self.calculator = Program(path), name, calculator
        self.author, self.shown, self.state = f"a.{name}", EMPTY, {}
        self.session, self.linked, self.awaits, self.sent = "", False, None, []

    def ask(self, **request):
        reply = self.program.ask(**request)
        self.state = reply["state"]
        if "author" in reply:
            self.shown = {name: reply[name] for name in ("text", "attribs", "pool")}
        if "change" in reply:
            self.shown = self.calculator.apply(self.shown, (reply["change"], reply["pool"]))
        return reply

    def must(self, **request):
        reply = self.ask(**request)
        if "refused" in reply:
            raise Differs(f"{self.name} refused {reply['refused']} at {request}")
        return reply

    def hear(self, message):
        return self.must(do="heard", message=json.dumps(message))

    def lose(self):
        if self.linked:
            self.must(do="lost")
        self.linked, self.awaits = False, None

    def enter(self, server, session):
        self.lose()
        self.must(do="enter", pad="p", token=f"t.{self.name}")
        doc = server.docs[-1]
        self.hear({"type": "CLIENT_VARS", "data": {
            "birth": server.birth, "padId": "p", "readonly": False, "session": session, "userId": self.author,
            "collab_client_vars": {"rev": server.head(), "time": 1, "apool": doc["pool"], "initialAttributedText": {"attribs": doc["attribs"], "text": doc["text"]}}}})
        self.session, self.linked, self.sent = session, True, []

    def come_back(self, server, session):
        """It resumes. What it missed is told by `hear_rev`."""
        self.lose()
        sent = json.loads(self.must(do="return")["send"])
        if sent["client_rev"] != self.state["rev"] or sent["birth"] != server.birth or sent["author"] != self.author:
            raise Differs(f"{self.name} comes back with {sent}")
        self.session, self.linked, self.sent, self.awaits = session, True, [], server.head()
        if self.state["rev"] == server.head():
            self.hear(room("CLIENT_RECONNECT", birth=server.birth, current=session, headRev=server.head(), newRev=server.head(), noChanges=True))
            self.awaits = None

    def hear_rev(self, server, rev):
        news = server.news(rev)
        if self.awaits is not None and rev <= self.awaits:
            reply = self.hear(room("CLIENT_RECONNECT", birth=server.birth, current=self.session, headRev=self.awaits, **news))
        elif news["session"] == self.session:
            reply = self.hear(room("ACCEPT_COMMIT", newRev=rev, session=self.session))
        else:
            reply = self.hear(room("NEW_CHANGES", timeDelta=1, **news))
        if "by" in reply and reply["by"] != news["author"]:
            raise Differs(f"{self.name} says that revision {rev} is {reply['by']}'s")
        return "change" in reply

    def status(self):
        return {(False, False): "clean", (True, False): "sent", (False, True): "local", (True, True): "both"}[self.state["waiting"], self.state["unsent"]]


class Play:
    """A script that is played."""

    def __init__(self, padedit, calculator, speaks_of_authors):
        self.padedit, self.calculator, self.by_texts = padedit, calculator, speaks_of_authors
        self.server, self.clients, self.guests, self.pairs, self.views = Server(calculator), {}, {}, [], 0

    def same(self, what, is_so, told):
        if is_so != told:
            raise Differs(f"{what} is {is_so!r}, and {told!r} was told")

    def same_change(self, what, change, told):
        if not self.by_texts:
            self.same(what, without_authors(*change)[0], plain_text(told))

    def same_marks(self, what, doc, told):
        attribs, _, pool = told.partition(" ")
        if not self.by_texts:
            said, pairs = without_authors(doc["attribs"], doc["pool"])
            self.same(what, (said, pool_of(pairs)), (attribs, json.loads(pool)))

    def take_message(self, name):
        """The first that a name sent: its change, the base, the author and the session."""
        sent = self.clients[name].sent if name in self.clients else self.guests[name]["sent"]
        return sent.pop(0) if sent else None

    def commit(self, message, told):
        base, change, author, session = message
        change = self.server.rebased(base, change)
        if told is not None:
            self.same_change(f"revision {self.server.head() + 1}", change, told)
        self.server.add(change, author, session)

    def do_create(self, line, told):
        if told[0] == "rev":
            self.server.make((plain_text(" ".join(told[2:])), {"numToAttrib": {}}))

    def do_set(self, line, told):
        if told[0] == "rev":
            is_fixed = told[2] == "fixed"
            self.server.add((plain_text(" ".join(told[3 if is_fixed else 2:])), {"numToAttrib": {}}), "", "")
            if is_fixed:
                self.server.give_newline()

    def do_drop(self, line, told):
        if told[0] == "ok":
            self.server.docs = []

    def be_there(self):
        """The pad is made where it is absent."""
        if not self.server.docs:
            self.server.make(("Z:1>0$", {"numToAttrib": {}}))

    def do_login(self, name, line, told):
        if told[0] == "refused":
            return
        self.be_there()
        if name not in self.clients:
            self.clients[name] = Client(self.padedit, name, self.calculator)
        client = self.clients[name]
        client.enter(self.server, told[0])
        self.same("revision", client.state["rev"], int(told[2]))

    def do_guest(self, name, line, told):
        if told[0] != "refused":
            self.be_there()
            self.guests[name] = {"session": told[0], "sent": []}

    do_reader = do_guest

    def do_attr(self, line, told):
        key, _, value = line.partition(" ")
        pair = (plain_text(key), plain_text(value))
        if pair not in self.pairs:
            self.pairs.append(pair)

    def do_inject(self, name, line, told):
        base, changeset = line.split(" ", 1)
        guest = self.guests[name]
        guest["sent"].append((int(base), (plain_text(changeset), pool_of(self.pairs)), f"a.{name}", guest["session"]))

    def local(self, name, told, **request):
        reply = self.clients[name].ask(**request)
        self.same(f"{name}'s {request}", f"refused {reply['refused']}" if "refused" in reply else "ok", " ".join(told))
        return "refused" not in reply

    def put(self, name, told, at, units, text):
        if self.local(name, told, do="edit", at=at, drop=units, put=text):
            client = self.clients[name]
            client.shown = self.calculator.apply(client.shown, self.calculator.splice(client.shown, at, units, text, client.author))

    def do_insert(self, name, line, told):
        at, text = line.split(" ", 1)
        self.put(name, told, int(at), 0, plain_text(text))

    def do_delete(self, name, line, told):
        at, units = line.split(" ")
        self.put(name, told, int(at), int(units), "")

    def do_format(self, name, line, told):
        at, units, key, value = (line.split(" ", 3) + [""])[:4]
        self.local(name, told, do="format", at=int(at), count=int(units), key=plain_text(key), value=plain_text(value))

    def remake(self, name, told, do):
        reply = self.clients[name].must(do=do)
        if (told == ["none"]) != ("change" not in reply):
            raise Differs(f"{name}'s {do} is {reply}, and {told} was told")
        if "change" in reply:
            self.same_change(f"{name}'s {do}", (reply["change"], reply["pool"]), " ".join(told))

    def do_undo(self, name, line, told):
        self.remake(name, told, "undo")

    def do_redo(self, name, line, told):
        self.remake(name, told, "redo")

    def do_submit(self, name, line, told):
        client = self.clients[name]
        if client.awaits is not None and client.awaits > client.state["rev"] and not client.state["connected"] and told[0] == "base":
            raise PassedOver("it submits before it hears what it missed")
        reply = client.must(do="submit")
        if ("send" in reply) != (told[0] == "base"):
            raise Differs(f"{name} submits {reply}, and {told} was told")
        if "send" in reply:
            data = json.loads(reply["send"])["data"]
            change = (data["changeset"], data["apool"])
            self.same(f"{name}'s base", data["baseRev"], int(told[1]))
            self.same_change(f"{name}'s submission", change, " ".join(told[2:]))
            client.sent.append((data["baseRev"], change, client.author, client.session))

    def do_take(self, name, line, told):
        if told == ["none"]:
            return
        message = self.take_message(name)
        if told[0] == "rev":
            is_fixed = told[2] == "fixed"
            self.commit(message, " ".join(told[3 if is_fixed else 2:]))
            if is_fixed:
                self.server.give_newline()

    def do_hear(self, name, line, told):
        client = self.clients[name]
        if told[0] in ("commit", "new"):
            rev = int(told[1])
            self.same(f"{name}'s revision {rev}", "new" if client.hear_rev(self.server, rev) else "commit", told[0])
            self.same(f"{name}'s revision", client.state["rev"], rev)
        elif told[0] == "nop":
            client.hear(room("ACCEPT_COMMIT", newRev=int(told[1]), session=client.session))
        elif told[0] == "closed":
            reply = client.ask(do="heard", message=json.dumps({"disconnect": told[1]}))
            self.same(f"{name}'s closing", (reply.get("closed"), reply.get("refused")), (told[1], None) if client.linked else (None, "turn"))
            client.linked, client.awaits = False, None

    def do_lose(self, name, line, told):
        client = self.clients[name]
        self.same(f"whether {name} is connected", client.linked, told[0] == "ok")
        if not client.linked:
            self.same(f"{name}'s loss", client.ask(do="lost").get("refused"), "turn")
        client.lose()

    def do_resume(self, name, line, told):
        client = self.clients[name]
        if told[0] != "refused":
            client.come_back(self.server, told[0])
            self.same("the head", self.server.head(), int(told[2]))
            return
        client.lose()
        client.must(do="return")
        client.hear({"disconnect": "deleted" if told[1] == "gone" else "full"})

    def do_crash(self, line, told):
        for client in self.clients.values():
            client.lose()
        head = int(told[3]) if told[2] == "head" else None
        if line and head is not None and head > self.server.head():
            self.commit(self.take_message(line.split(" ")[0]), None)
            if head > self.server.head():
                self.server.give_newline()
        self.same("the head", self.server.head() if self.server.docs else None, head)

    def do_show(self, name, line, told):
        client = self.clients[name]
        self.same(f"{name}'s state", ["rev", str(client.state["rev"]), client.status()], told[:3])
        self.same(f"what {name} is shown", client.shown["text"], quoted(" ".join(told)))
        self.views += 1

    def do_head(self, line, told):
        if told != ["gone"]:
            self.same("the head", (self.server.head(), self.server.docs[-1]["text"]), (int(told[0]), quoted(" ".join(told))))

    def do_text(self, line, told):
        if told[1] not in ("gone", "norev"):
            self.same("a text", self.server.docs[int(told[0])]["text"], quoted(" ".join(told[1:])))

    def do_marks(self, line, told):
        if told[0] in self.clients:
            self.same_marks(f"what {told[0]} is shown", self.clients[told[0]].shown, " ".join(told[1:]))
            self.views += 1
        elif told != ["gone"]:
            self.same_marks("the head", self.server.docs[int(told[0])], " ".join(told[1:]))

    def line(self, line, told):
        """A line, and what it wrote."""
        word, _, rest = line.partition(" ")
        said = told.split(" ")[1:]
        if word in ("push", "late"):
            return  # the server's alone
        if word in ("create", "set", "drop", "attr", "crash", "head", "text", "marks"):
            getattr(self, f"do_{word}")(rest, said)
            return
        name, _, rest = rest.partition(" ")
        getattr(self, f"do_{word}")(name, rest, said[1:])

    def end(self):
        for client in self.clients.values():
            client.program.end()


def lines_of(case):
    """The lines that were played, each with its number and what it wrote."""
    script = case["script"] if "script" in case else bytes.fromhex(case["script_hex"]).decode("utf-8", "replace")
    told = iter(case["stdout"].split("\n")[:-1])
    for number, line in enumerate(script.split("\n"), 1):
        line = line.removesuffix("\r")
        if line == "" or line.startswith("#"):
            continue
        out = next(told, None)
        if out is None or out.startswith("error line "):
            return
        yield number, line, out


def replay(case, padedit, calculator):
    """How many views were compared."""
    lines = list(lines_of(case))
    if case["status"] == 2:
        raise PassedOver("the words name no pad")
    if not any(line.startswith("login ") for _, line, _ in lines):
        raise PassedOver("no client takes part")
    play = Play(padedit, calculator, any("author" in line for _, line, _ in lines))
    try:
        for number, line, told in lines:
            try:
                play.line(line, told)
            except Differs as differs:
                raise Differs(f"line {number}, {line!r}: {differs}") from differs
    finally:
        play.end()
    return play.views


def main():
    parser = argparse.ArgumentParser()
    parser.add_argument("padedit")
    parser.add_argument("easysync")
    parser.add_argument("files", nargs="+", metavar="file")
    args = parser.parse_args()
    calculator, failed = Calculator(args.easysync), 0
    for file in args.files:
        well, views, passed = 0, 0, collections.Counter()
        with open(file, encoding="utf-8") as cases:
            for number, case in enumerate(map(json.loads, cases), 1):
                try:
                    views += replay(case, args.padedit, calculator)
                    well += 1
                except PassedOver as why:
                    passed[str(why)] += 1
                except Differs as differs:
                    failed += 1
                    print(f"{file}, case {number}: {differs}")
        print(f"{file}: {well} scripts replayed, {views} views of clients as told; passed over: "
              + ("; ".join(f"{count} where {why}" for why, count in passed.items()) or "none"))
    calculator.end()
    sys.exit(bool(failed))


if __name__ == "__main__":
    main()
