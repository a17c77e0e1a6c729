#!/usr/bin/python3
"""Opens the page of a pad in Chromium, in two windows, and types into them with real keys.

    tools/page.py [--points A,B] [--pictures FOLDER] COMMAND..

COMMAND runs `padd` (a path, or several words). `web/build` has made `web/out/` before. Each point below is a function: it
does what its line says in one window or in two, and then both must show one text, which is what the API says, with the
attributes that the server has, and the browser's console must hold no error. Pictures of each state at 360 and at 1,600 pixels,
dark and light, are written for somebody to look at; that nothing overlaps and that nothing is wider than the window is checked.

Status 0: all points are well. 1: one isn't. 3: something that this needs is missing; it is named.
"""
import argparse
import asyncio
import http.server
import pathlib
import shutil
import subprocess
import sys
import tempfile
import threading
import time

sys.dont_write_bytecode = True
sys.path.insert(0, str(pathlib.Path(__file__).resolve().parent.parent / "web"))
from windows import (MISSING, Firefox, Pages, Server, Window, Wrong, base36, browser, change, free_port, memory, picture,  # noqa: E402
                     runs_of, until, vars_of)

if not MISSING:
    import websockets
    from selenium.webdriver.common.by import By
    from selenium.webdriver.common.keys import Keys

EMOJI = "\U0001f600"


class Test:
    def __init__(self, server, driver, pages, pictures):
        self.server, self.driver, self.pages, self.pictures = server, driver, pages, pictures
        self.a, self.b = Window(driver, server, pages), Window(driver, server, pages)
        self.count = 0
        self.expected = ()

    def fresh(self, text=None, name="pad"):
        """Both windows on a new pad."""
        self.count += 1
        pad = f"{name}{self.count}"
        if text is not None:
            self.server.api("createPad", padID=pad, text=text)
        self.a.open(pad)
        self.b.open(pad)
        return pad

    def agree(self, text=None, seconds=30):
        """Both show one text, which is what the API says, with the server's attributes; and no error was said."""
        for window in (self.a, self.b):
            window.wait("saved", seconds)
        pad = self.a.pad
        api = lambda: self.server.api("getText", padID=pad)["text"]
        until(lambda: self.a.shown() == self.b.shown() and self.a.shown()[0] == api(),
              "one text in both, which is the API's", seconds)
        shown, runs = self.a.shown()
        if text is not None and shown != text:
            raise Wrong(f"the text is {shown[:200]!r}")
        told = vars_of(self.server, pad)["collab_client_vars"]
        has = runs_of(told["initialAttributedText"]["text"], told["initialAttributedText"]["attribs"], told["apool"])
        if runs != has:
            differ = [(x, y) for x, y in zip(runs, has) if x != y][:3]
            raise Wrong(f"the attributes are {len(runs)} stretches, the server has {len(has)}: {differ}")
        self.quiet()
        return shown, runs

    def quiet(self, expected=()):
        for window in (self.a, self.b):
            errors = window.errors((*self.expected, *expected))
            if errors:
                raise Wrong(f"the console says: {errors[:3]}")

    def shoot(self, name, window=None):
        picture(window or self.a, self.pictures, name)

    # ---- points

    def one_place(self):
        """Both type at once at one place."""
        self.fresh("[]")
        for window in (self.a, self.b):
            window.select(1, 0)
        for x, y in zip("first window", "OTHER WINDOW"):
            self.a.type(x)
            self.b.type(y)
        text, _ = self.agree()
        for typed in ("first window", "OTHER WINDOW"):
            if "".join(c for c in text if c in set(typed) - {" "}) != typed.replace(" ", ""):
                raise Wrong(f"what each typed isn't in order: {text!r}")
        self.shoot("typing")

    def both_ends(self):
        """Both type at once, one at the beginning and one at the end."""
        self.fresh("middle")
        self.a.keys(Keys.CONTROL + Keys.HOME)
        self.b.keys(Keys.CONTROL + Keys.END)
        for x, y in zip("begin ", " ended"):
            self.a.type(x)
            self.b.type(y)
        self.agree("begin middle ended\n")

    def an_emoji(self):
        """An emoji is typed, stepped over, and taken away as one."""
        self.fresh("ab")
        self.a.select(1, 0)
        self.a.type(EMOJI + EMOJI)
        self.agree(f"a{EMOJI}{EMOJI}b\n")
        self.b.select(1, 1)
        self.b.keys(Keys.DELETE)
        self.agree(f"a{EMOJI}b\n")
        self.a.keys(Keys.CONTROL + Keys.END)
        self.a.keys(Keys.ARROW_LEFT, Keys.BACKSPACE)
        self.agree("ab\n")

    def a_line_break(self):
        """A line is broken within another's text, and joined again."""
        self.fresh()
        self.a.type("one line")
        self.agree("one line\n")
        self.b.select(3, 0)
        self.b.type("\n")
        self.b.type("x")
        self.agree("one\nx line\n")
        self.a.select(3, 0)
        self.a.keys(Keys.DELETE)
        self.agree("onex line\n")
        self.a.keys(Keys.CONTROL + Keys.END)
        self.a.type("\n\n")
        self.agree("onex line\n\n\n")

    def an_input_method(self):
        """A word is composed while the other types in the same line."""
        self.fresh("ab")
        self.a.select(1, 0)
        for composed in ("k", "か", "かn", "かん"):
            self.a.here().execute_cdp_cmd("Input.imeSetComposition", {"text": composed, "selectionStart": len(composed),
                                                                      "selectionEnd": len(composed)})
            self.b.type("x")
        self.a.here().execute_cdp_cmd("Input.insertText", {"text": "漢"})
        text, _ = self.agree()
        if sorted(text) != sorted("a漢xxxxb\n"):
            raise Wrong(f"the text is {text!r}")

    def a_paste(self):
        """10,000 units are copied and pasted."""
        self.fresh("[]")
        lines = "".join(f"line {n:04} of what is pasted, as it was\n" for n in range(244))[:10000]
        self.a.run("""
          const area = document.body.appendChild(document.createElement('textarea'));
          area.id = 'copied';
          area.value = arguments[0];""", lines)
        area = self.a.here().find_element(By.ID, "copied")
        area.send_keys(Keys.CONTROL + "a")
        area.send_keys(Keys.CONTROL + "c")
        self.a.run("document.getElementById('copied').remove()")
        self.a.select(1, 0)
        self.a.keys(Keys.CONTROL + "v")
        self.agree(f"[{lines}]\n")
        self.shoot("paste", self.b)

    def bold_over_another(self):
        """One makes another's text bold, by button and by key, and plain again."""
        self.fresh()
        self.a.type("some words here")
        self.agree()
        self.b.select(5, 5)
        self.b.click("[data-style=bold]")
        _, runs = self.agree("some words here\n")
        styles = [dict(pairs).get("bold") for _, _, _, pairs in runs]
        if styles != [None, "true", None]:
            raise Wrong(f"bold: {runs}")
        self.b.keys(Keys.CONTROL + "i")
        self.b.keys(Keys.CONTROL + "u")
        self.b.keys(Keys.CONTROL + Keys.SHIFT + "x")
        self.b.keys(Keys.CONTROL + "b")
        _, runs = self.agree("some words here\n")
        if dict(runs[1][3]).keys() != {"author", "italic", "underline", "strikethrough"}:
            raise Wrong(f"styles: {runs}")
        self.b.keys(Keys.CONTROL + Keys.END)
        self.b.keys(Keys.CONTROL + "b")
        self.b.type("!")
        _, runs = self.agree("some words here!\n")
        if dict(runs[-1][3]).get("bold") != "true":
            raise Wrong(f"typed bold: {runs}")
        self.shoot("styles", self.b)

    def undo(self):
        """One undoes its own edit after the other typed inside, and redoes it."""
        self.fresh("")
        if self.a.run("return document.getElementById('undo').disabled") and not self.knows("undo"):
            raise Missing("this padedit has no undo: its buttons are disabled")
        self.a.type("one two three")
        self.agree("one two three\n")
        self.b.select(3, 0)
        self.b.type("XYZ")
        self.agree("oneXYZ two three\n")
        self.a.keys(Keys.CONTROL + "z")
        self.agree("oneXYZ two \n")
        for _ in range(20):
            if self.a.run("return document.getElementById('undo').disabled"):
                break
            self.a.keys(Keys.CONTROL + "z")
            time.sleep(0.1)
        self.agree("XYZ\n")
        for _ in range(20):
            if self.a.run("return document.getElementById('redo').disabled"):
                break
            self.a.click("#redo")
            time.sleep(0.1)
        self.agree()
        self.shoot("undo")

    def undo_of_a_deletion(self):
        """One deletes another's text and takes that back: it stands there again, under the name of who took it back."""
        self.fresh()
        self.a.type("by one")
        _, runs = self.agree("by one\n")
        whose = dict(runs[0][3])["author"]
        self.b.select(0, 6)
        self.b.keys(Keys.DELETE)
        self.agree("\n")
        self.b.keys(Keys.CONTROL + "z")
        _, runs = self.agree("by one\n")
        if dict(runs[0][3]).get("author") in (None, whose):
            raise Wrong(f"put back: {runs}")
        self.b.keys(Keys.CONTROL + Keys.SHIFT + "z")
        self.agree("\n")
        self.shoot("undo_of_a_deletion")

    def a_cut(self):
        """A connection is cut while both type, and comes back by itself."""
        self.fresh("start")
        self.expected = ("WebSocket",)
        for window in (self.a, self.b):
            window.keys(Keys.CONTROL + Keys.END)
        self.a.type("a1")
        self.a.wire.cut()
        self.a.type("a2")
        self.b.type("b1")
        self.a.wait("offline")
        self.a.type("a3")
        self.b.type("b2")
        self.shoot("offline")
        self.a.wire.mend()
        text, _ = self.agree(seconds=60)
        if "a1a2a3" not in text or "b1b2" not in text:
            raise Wrong(f"something is lost: {text!r}")

    def a_kill(self):
        """The server is killed and started again while both type."""
        self.fresh("start")
        self.expected = ("WebSocket",)
        for window in (self.a, self.b):
            window.keys(Keys.CONTROL + Keys.END)
        for n in range(10):
            if n == 3:
                self.server.kill()
            if n == 7:
                self.server.start()
            self.a.type(f"a{n}")
            self.b.type(f"b{n}")
        text, _ = self.agree(seconds=60)
        own = ("".join(f"{name}{n}" for n in range(10)) for name in "ab")
        if sorted(text) != sorted("start\n" + "".join(own)):
            raise Wrong(f"something is lost or doubled: {text!r}")

    def no_server(self):
        """Where there is no server the page says so, and opens the pad once there is one."""
        self.expected = ("WebSocket",)
        self.a.wire.cut()
        self.a.open("later", phase="opening")
        until(lambda: "reached" in self.a.words(), "the page says that there is no server")
        self.shoot("no-server")
        self.a.wire.mend()
        self.a.click("#ways button")
        self.a.wait("saved")
        self.b.open("later")
        self.a.type("here")
        self.agree("here\n")

    def a_reader(self):
        """A read-only id shows the pad, follows it, and takes no key."""
        pad = self.fresh("to be read")
        reader = self.server.api("getReadOnlyID", padID=pad)["readOnlyID"]
        self.b.open(reader)
        self.b.keys("x")
        self.a.keys(Keys.CONTROL + Keys.END)
        self.a.type(" now")
        self.a.wait("saved")
        until(lambda: self.b.shown()[0] == "to be read now\n", "the reader sees what is typed")
        if self.b.run("return getComputedStyle(document.getElementById('writing')).display") != "none":
            raise Wrong("a reader has buttons to write")
        self.quiet()
        self.shoot("reader", self.b)

    def a_denied_pad(self):
        """A pad of a group denies who has no session of it, and lets in who has one."""
        group = self.server.api("createGroup")["groupID"]
        pad = self.server.api("createGroupPad", groupID=group, padName="secret", text="of the group")["padID"]
        self.a.open(pad, phase="closed")
        if "may not" not in self.a.words():
            raise Wrong(f"denied: {self.a.words()!r}")
        self.shoot("denied")
        author = self.server.api("createAuthor")["authorID"]
        session = self.server.api("createSession", groupID=group, authorID=author, validUntil="4000000000")["sessionID"]
        self.a.run("document.cookie = `sessionID=${arguments[0]}; path=/`", session)
        self.a.click("#ways button")
        self.a.wait("saved")
        if self.a.shown()[0] != "of the group\n":
            raise Wrong("a member doesn't see the pad")
        self.a.run("document.cookie = 'sessionID=; path=/; max-age=0'")
        self.quiet()

    def userdup(self):
        """The same author enters elsewhere: this window stops, says so, and goes on when it is told to."""
        pad = self.fresh("mine")
        token = self.a.run("return localStorage.getItem('padd.token.0')")
        vars_of(self.server, pad, token)
        self.a.wait("closed")
        if "another window" not in self.a.words():
            raise Wrong(f"userdup: {self.a.words()!r}")
        self.a.keys(Keys.CONTROL + Keys.END)
        self.a.type(" still")
        self.shoot("userdup")
        self.a.click("#ways button")
        self.agree("mine still\n")

    def a_deletion(self):
        """The pad is deleted while something isn't saved: the text stays to be copied."""
        pad = self.fresh("gone soon")
        self.expected = ("WebSocket",)
        self.a.wire.cut()
        self.a.wait("offline")
        self.a.keys(Keys.CONTROL + Keys.END)
        self.a.type(" but kept")
        self.server.api("deletePad", padID=pad)
        self.a.wire.mend()
        self.a.wait("closed", 60)
        if "deleted" not in self.a.words() or self.a.shown()[0] != "gone soon but kept\n":
            raise Wrong(f"deleted: {self.a.words()!r} {self.a.shown()[0]!r}")
        self.shoot("deleted")
        self.quiet()

    def slider(self):
        """The slider shows each revision, and plays them."""
        self.fresh("")
        for n in range(5):
            self.a.type(str(n))
            self.a.wait("saved")
            time.sleep(0.2)
        if self.a.run("return document.getElementById('past').disabled") and not self.knows("slide"):
            raise Missing("this padedit has no slide: the button is disabled")
        for n in range(130):
            self.server.api("setText", padID=self.a.pad, text=f"revision\nby {'another ' * (n % 7)}program {n}")
        self.a.wait("saved")
        head = self.server.api("getRevisionsCount", padID=self.a.pad)["revisions"]
        until(lambda: self.a.run("return document.getElementById('slider').max") == str(head), "the slider has all revisions")
        self.a.click("#past")
        slider = self.a.here().find_element(By.ID, "slider")
        then = "return document.querySelector('#then .CodeMirror')?.CodeMirror.getValue()"
        shows = lambda rev: until(lambda: self.a.run(then) + "\n" == self.server.api("getText", padID=self.a.pad, rev=rev)["text"],
                                  f"the text of revision {rev}")
        for rev in range(head, head - 5, -1):
            shows(rev)
            slider.send_keys(Keys.ARROW_LEFT)
        self.shoot("slider")
        slider.send_keys(Keys.HOME)
        for rev in range(6):
            shows(rev)
            slider.send_keys(Keys.ARROW_RIGHT)
        slider.send_keys(Keys.END)
        shows(head)
        slider.send_keys(*[Keys.ARROW_LEFT] * 6)
        shows(head - 6)
        self.a.click("#play")
        shows(head)
        self.a.click("#back")
        self.agree()

    def a_reload(self):
        """What is typed without a connection is there after a reload, and saved when there is one."""
        self.fresh("kept")
        if not self.knows("keep"):
            raise Missing("this padedit has no keep")
        self.expected = ("WebSocket",)
        self.a.keys(Keys.CONTROL + Keys.END)
        self.a.wire.cut()
        self.a.wait("offline")
        self.a.type(" through")
        self.a.here().refresh()
        self.a.wait("offline")
        if self.a.shown()[0] != "kept through\n":
            raise Wrong(f"after a reload: {self.a.shown()[0]!r}")
        self.a.keys(Keys.CONTROL + Keys.END)
        self.a.type(" all")
        self.a.wire.mend()
        self.agree("kept through all\n", 60)

    def own_tokens(self):
        """A second window of the same person is another author; after a reload each is who it was."""
        self.fresh("")
        self.a.type("a")
        self.b.type("b")
        _, runs = self.agree()
        if len({pairs for *_, pairs in runs}) != 2:
            raise Wrong(f"one author in two windows: {runs}")
        for window in (self.a, self.b):
            window.here().refresh()
            window.wait("saved")
        self.a.keys(Keys.CONTROL + Keys.HOME)
        self.a.type("a")
        self.b.keys(Keys.CONTROL + Keys.END)
        self.b.type("b")
        _, runs = self.agree()
        if len({pairs for *_, pairs in runs}) != 2 or self.a.phase() != "saved":
            raise Wrong(f"after a reload: {runs}")
        self.a.click("#who")
        self.shoot("people")
        self.a.click("#who")

    def no_markup(self):
        """Text, attributes, a pad's name and an author's id never become markup; the page loads nothing from elsewhere."""
        bad = "<img src=x onerror=\"document.title='broken'\">"
        pad = "<img src=x onerror=alert(1)> & a pad"
        self.server.api("createPad", padID=pad, text=bad)
        self.a.open(pad)
        self.b.open(pad)
        change(self.server, pad, "Z:{}>1*0*1*2+1$x".format(base36(len(bad) + 1)),
               [["bold", bad], [bad, "true"], ["class", f'"{bad}']])
        self.agree(f"x{bad}\n")
        for window in (self.a, self.b):
            if window.run("return document.querySelectorAll('img').length") or window.run("return document.title") != pad:
                raise Wrong("markup was made of a text")
            if window.run("return document.getElementById('name').textContent") != pad:
                raise Wrong("the pad's name isn't shown as it is")
        loaded = self.a.run("return performance.getEntriesByType('resource').map((it) => new URL(it.name).origin)")
        if set(loaded) != {f"http://127.0.0.1:{self.pages}"}:
            raise Wrong(f"loaded from {set(loaded)}")
        self.shoot("markup")

    def policy(self):
        """The policy stops inline scripts, other origins and markup made of texts."""
        self.fresh("")
        stopped = self.a.run("""
          const out = [];
          try { document.body.insertAdjacentHTML('beforeend', '<b>x</b>'); } catch (e) { out.push('markup'); }
          try { setTimeout("document.title = 'evaluated'", 0); } catch (e) { out.push('text as a script'); }
          return out;""")
        time.sleep(0.3)
        if set(stopped) != {"markup", "text as a script"} or self.a.run("return document.title") == "evaluated":
            raise Wrong(f"stopped is only {stopped}")
        reached = self.a.here().execute_async_script("""
          const done = arguments[arguments.length - 1];
          document.addEventListener('securitypolicyviolation', (e) => done(e.effectiveDirective));
          fetch('http://127.0.0.2:1/').then(() => done('yes'), () => setTimeout(() => done('no'), 1000));""")
        if reached != "connect-src":
            raise Wrong(f"another origin: {reached}")
        self.a.errors()

    def right_to_left(self):
        """A text that runs from right to left is shown so."""
        text = "שלום עולם\nשורה שנייה"
        self.fresh(text, name="פנקס ")
        if self.a.run("return getComputedStyle(document.querySelector('pre.CodeMirror-line')).direction") != "rtl":
            raise Wrong("it is shown from left to right")
        self.a.keys(Keys.CONTROL + Keys.END)
        self.a.type("!")
        self.agree(text + "!\n")
        self.shoot("right-to-left")

    def keyboard(self):
        """All is reached by Tab, has a name, and nothing holds Tab back."""
        self.fresh("text")
        self.a.run("document.activeElement.blur(); document.body.focus()")
        reached = []
        for _ in range(30):
            self.a.here().switch_to.active_element.send_keys(Keys.TAB)
            it = self.a.run("""
              const it = document.activeElement;
              return it === document.body ? null : it.id || it.dataset.style || it.getAttribute('role');""")
            if it in reached:
                break
            reached += [it] if it else []
        wanted = {"bold", "italic", "underline", "strikethrough", "download", "who", "textbox"}
        if not wanted <= set(reached):
            raise Wrong(f"by Tab: {reached}")
        bare = self.a.run("""
          return [...document.querySelectorAll('button, input, [role=textbox]')].filter((it) => it.checkVisibility()
            && !(it.getAttribute('aria-label') || it.textContent.trim() || it.labels?.length)).map((it) => it.outerHTML)""")
        if bare:
            raise Wrong(f"without a name: {bare}")
        self.quiet()

    def start_page(self):
        """Without a name the page asks for one."""
        self.a.here().get(f"http://127.0.0.1:{self.pages}/")
        self.shoot("start")
        field = self.a.here().find_element(By.ID, "wanted")
        field.send_keys("a name / of a pad?", Keys.ENTER)
        until(lambda: self.a.run("return document.title") == "a name / of a pad?", "the pad that was named")
        self.a.here().get("about:blank")
        self.a.errors()

    def open_large(self):
        """Both windows on a text of 1,000,000 units, each second stretch of 50 bold."""
        self.count += 1
        pad, text = f"large{self.count}", large_text()
        self.server.api("createPad", padID=pad, text=text)
        change(self.server, pad, large_change(text), [["bold", "true"]])
        for window in (self.a, self.b):
            window.open(pad)
        return text

    def large(self):
        """A text of 1,000,000 units opens, and is typed into."""
        text = self.open_large()
        self.a.keys(Keys.CONTROL + Keys.HOME)
        self.b.keys(Keys.CONTROL + Keys.END)
        for x, y in zip("begin", "ended"):
            self.a.type(x)
            self.b.type(y)
        self.agree("begin" + text + "ended\n", 60)
        self.shoot("large")

    def large_unseen(self):
        """Lines of a large text that nobody saw yet are painted, cut through, joined and broken, and have it once they are seen."""
        text = self.open_large()
        self.b.keys(Keys.CONTROL + "a")
        self.b.keys(Keys.CONTROL + "i")
        self.b.wait("saved", 60)
        change(self.server, self.a.pad, large_cut(text), [["underline", "true"]])
        editor = "document.querySelector('#text .CodeMirror').CodeMirror"
        until(lambda: self.a.run(f"return {editor}.lineCount()") == text.count("\n") - 8, "nine lines less", 60)
        seen = lambda style: self.a.run("return document.querySelectorAll(`#text .CodeMirror-code .${arguments[0]}`).length", style)
        for place in (Keys.HOME, Keys.END):
            self.a.keys(Keys.CONTROL + place)
            until(lambda: seen("is-bold") and seen("is-italic"), "what is seen is bold and italic")
        self.a.run(f"{editor}.scrollIntoView({{ line: 3001, ch: 10 }})")
        until(lambda: seen("is-underline") == 1, "what was put there is underlined")
        self.agree(seconds=60)

    def figures(self):
        """How long a key takes in a text of 1,000,000 units and in an empty one, and what the windows take of memory."""
        for name, open_pad, place in (("empty", lambda: self.fresh(""), Keys.HOME), ("large", self.open_large, Keys.HOME),
                                      ("large, at the end", lambda: None, Keys.END)):
            open_pad()
            for window in (self.a, self.b):
                window.keys(Keys.CONTROL + place)
                window.run(TIMES)
            for n in range(40):
                self.a.keys("abcdefgh "[n % 9])
                time.sleep(0.3)
            self.a.wait("saved")
            work, echo = ([row[n] for row in self.a.run("return times.own")] for n in (1, 2))
            begun = [row[0] for row in self.a.run("return times.own")]
            far = [b - a for a, b in zip(begun, self.b.run("return times.others"))]
            opened = self.a.run("return window.openedAfter")
            print(f"    {name}: key to text {spread(work)}, to the next frame {spread(echo)}, to the other's screen "
                  f"{spread(far)}; opened in {opened or 0:.0f} ms; load {open('/proc/loadavg').read().split()[0]}")
        print(f"    memory of the browser's pages: {memory(self.driver)}")

    def knows(self, request):
        """Whether this padedit knows a request."""
        return self.a.here().execute_async_script("""
          const done = arguments[arguments.length - 1];
          import(new URL('../program.js', location)).then(async ({ Program }) => {
            const program = await Program.start('../padedit.wasm', () => {});
            done((await program.ask({ do: arguments[0] })).refused !== 'shape do');
          });""", request)


# Each key of this window: when it was pressed, until the text has it, until the next frame is made. Each change of another's:
# when the next frame is made.
TIMES = """
const { CodeMirror: cm } = document.querySelector('#text .CodeMirror');
if (!window.times) {
  const framed = (then) => requestAnimationFrame(() => {
    const { port1, port2 } = new MessageChannel();
    port1.onmessage = () => then(performance.now());
    port2.postMessage(0);
  });
  let pressed = 0;
  cm.getInputField().addEventListener('keydown', (event) => (pressed = event.timeStamp), true);
  cm.on('changes', (_, [{ origin }]) => {
    const begun = pressed, made = performance.now();
    framed((at) => origin === '+input' ? times.own.push([performance.timeOrigin + begun, made - begun, at - begun])
      : times.others.push(performance.timeOrigin + at));
  });
}
window.times = { own: [], others: [] };
"""


def spread(figures):
    """The middle and the one at 95 of 100, in milliseconds."""
    ordered = sorted(figures)
    return f"{ordered[len(ordered) // 2]:.1f} ms ({ordered[len(ordered) * 95 // 100]:.1f})" if ordered else "none"


class Missing(Exception):
    """A point can't be tried with this padedit."""


def large_text():
    line = "a line of a large text, which has so many units that a thousand of them ...\n"
    return (line * (999_900 // len(line)))[:-1]


def large_change(text):
    """Each second stretch of 50 units becomes bold."""
    out, at = [], 0
    while at + 100 <= len(text):
        for attribs in ("*0", ""):
            part = text[at:at + 50]
            lines = part.count("\n")
            if lines:
                cut = part.rindex("\n") + 1
                out.append(f"{attribs}|{base36(lines)}={base36(cut)}")
                if cut < 50:
                    out.append(f"{attribs}={base36(50 - cut)}")
            else:
                out.append(f"{attribs}={base36(50)}")
            at += 50
    return f"Z:{base36(len(text) + 1)}>0{''.join(out)}$"


def large_cut(text):
    """From within line 3000 to within line 3010 all goes, and in the line behind that an underlined x and a line feed come."""
    line = text.index("\n") + 1
    gone, rest = 10 * line - 30, line - 40
    steps = (f"|{base36(3000)}={base36(3000 * line)}={base36(30)}|{base36(10)}-{base36(gone)}-{base36(40)}"
             f"|1={base36(rest)}={base36(10)}*0|1+2")
    return f"Z:{base36(len(text) + 1)}<{base36(gone + 40 - 2)}{steps}$x\n"


POINTS = ["one_place", "both_ends", "an_emoji", "a_line_break", "an_input_method", "a_paste", "bold_over_another", "undo", "undo_of_a_deletion", "a_cut",
          "a_kill", "no_server", "a_reader", "a_denied_pad", "userdup", "a_deletion", "slider", "a_reload", "own_tokens", "no_markup", "policy",
          "right_to_left", "keyboard", "start_page", "large", "large_unseen",
          "firefox"]  # and "figures", which is only measured


def firefox(server, pages, pictures):
    """Firefox shows a pad and types into it."""
    if not shutil.which("firefox-esr"):
        raise Missing("Debian's package firefox-esr is missing")
    server.api("createPad", padID="fox", text="made before\n")
    url = f"http://127.0.0.1:{pages}/p/fox?server=ws://127.0.0.1:{server.ports[0]}/"

    async def drive(port):
        for _ in range(300):
            try:
                link = await websockets.connect(f"ws://127.0.0.1:{port}/session", max_size=None)
                break
            except OSError:
                await asyncio.sleep(0.2)
        fox = Firefox(link)
        await fox.open(url)
        phase = "document.documentElement.dataset.phase"
        await fox.wait(phase, "saved")
        await fox.type("typed in Firefox. ")
        await fox.wait("document.querySelector('#text .CodeMirror').CodeMirror.getValue()", "typed in Firefox. made before\n")
        await fox.wait(phase, "saved")
        if pictures:
            await fox.picture(pictures / "firefox.png")
        await link.close()

    with tempfile.TemporaryDirectory() as profile:
        port = free_port()
        program = subprocess.Popen(["firefox-esr", "--headless", "--profile", profile, f"--remote-debugging-port={port}", "about:blank"],
                                   stdout=subprocess.DEVNULL, stderr=subprocess.DEVNULL)
        try:
            asyncio.run(drive(port))
            text = server.api("getText", padID="fox")["text"]
            if not text.startswith("typed in Firefox. made before\n"):
                raise Wrong(f"the API has {text!r}")
        finally:
            program.terminate()
            program.wait()


def try_firefox(server, pages, pictures):
    begun = time.monotonic()
    try:
        firefox(server, pages, pictures)
        said = "well"
    except Missing as missing:
        said = f"not tried: {missing}"
    except Exception as wrong:  # pylint: disable=broad-except
        said = f"WRONG: {type(wrong).__name__}: {wrong}"
    print(f"firefox: {said} ({time.monotonic() - begun:.1f} s)")
    return not said.startswith("WRONG")


def try_points(test, points):
    well = True
    for point in points:
        test.expected = ()
        begun = time.monotonic()
        for window in (test.a, test.b):
            window.errors()
        try:
            getattr(test, point)()
            said = "well"
        except Missing as missing:
            said = f"not tried: {missing}"
        except Exception as wrong:  # pylint: disable=broad-except
            said, well = f"WRONG: {type(wrong).__name__}: {wrong}", False
            for window in (test.a, test.b):
                window.wire.mend()
            if test.server.process.poll() is not None:
                test.server.start()
            if test.pictures:
                test.a.here().save_screenshot(str(test.pictures / f"wrong-{point}.png"))
        print(f"{point}: {said} ({time.monotonic() - begun:.1f} s)", flush=True)
    return well


def main():
    parser = argparse.ArgumentParser()
    parser.add_argument("--points", default=",".join(POINTS))
    parser.add_argument("--pictures", type=pathlib.Path)
    parser.add_argument("command", nargs=argparse.REMAINDER)
    args = parser.parse_args()
    if MISSING:
        print("missing:", "; ".join(MISSING))
        return 3
    if args.pictures:
        args.pictures.mkdir(parents=True, exist_ok=True)
    pages = http.server.ThreadingHTTPServer(("127.0.0.1", 0), Pages)
    threading.Thread(target=pages.serve_forever, daemon=True).start()
    with tempfile.TemporaryDirectory() as folder:
        server = Server(args.command, folder)
        server.start()
        points, port, well, driver = args.points.split(","), pages.server_address[1], True, None
        in_chromium = [point for point in points if point != "firefox"]
        try:
            if in_chromium:
                driver = browser()
                well = try_points(Test(server, driver, port, args.pictures), in_chromium)
                driver.quit()
                driver = None
            if "firefox" in points:
                well = try_firefox(server, port, args.pictures) and well
            return 0 if well else 1
        finally:
            if driver:
                driver.quit()
            server.kill()


if __name__ == "__main__":
    sys.exit(main())
