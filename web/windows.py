"""What tools/page.py drives: a server, wires to it that can be cut, windows of Chromium, and Firefox."""
import asyncio
import base64
import http.server
import json
import pathlib
import shutil
import signal
import socket
import subprocess
import threading
import time
import urllib.parse
import urllib.request

MISSING = []
try:
    from selenium import webdriver
    from selenium.webdriver.chrome.service import Service
    from selenium.webdriver.common.by import By
    from selenium.webdriver.common.keys import Keys
except ImportError:
    MISSING.append("Debian's package python3-selenium (run this with /usr/bin/python3)")
try:
    import websockets
except ImportError:
    MISSING.append("Debian's package python3-websockets")
MISSING += [f"Debian's package {package}" for program, package in
            (("chromium", "chromium"), ("chromedriver", "chromium-driver")) if not shutil.which(program)]

OUT = pathlib.Path(__file__).resolve().parent / "out"
KEY = "key"
WIDTHS = (360, 1600)
if not (OUT / "padedit.wasm").exists():
    MISSING.append("web/out/padedit.wasm, which web/build makes")


def free_port():
    with socket.socket() as s:
        s.bind(("127.0.0.1", 0))
        return s.getsockname()[1]


class Server:
    """`padd serve` on a folder of its own, which can be killed and started again."""

    def __init__(self, command, folder):
        self.command, self.folder, self.process = command, folder, None
        self.ports = free_port(), free_port()

    def start(self):
        pads, api = (f"127.0.0.1:{port}" for port in self.ports)
        self.process = subprocess.Popen([*self.command, "serve", pads, api, self.folder, KEY], stdout=subprocess.PIPE)
        line = self.process.stdout.readline()
        if line != b"ready\n":
            raise SystemExit(f"the server did not begin: {line!r}")

    def kill(self):
        self.process.send_signal(signal.SIGKILL)
        self.process.wait()

    def api(self, call, **parameters):
        body = urllib.parse.urlencode({"apikey": KEY, **parameters}).encode()
        with urllib.request.urlopen(f"http://127.0.0.1:{self.ports[1]}/api/1.2/{call}", body, timeout=60) as reply:
            answer = json.loads(reply.read())
        if answer["code"] != 0:
            raise Wrong(f"{call}: {answer['message']}")
        return answer["data"]


class Wire(threading.Thread):
    """Carries connections to the server, and can be cut: then they end, and no new one comes."""

    def __init__(self, to):
        super().__init__(daemon=True)
        self.to, self.is_cut, self.ends = to, False, []
        self.door = socket.create_server(("127.0.0.1", 0))
        self.port = self.door.getsockname()[1]
        self.start()

    def run(self):
        while True:
            near, _ = self.door.accept()
            try:
                if self.is_cut:
                    raise OSError
                far = socket.create_connection(("127.0.0.1", self.to))
            except OSError:
                near.close()
                continue
            self.ends += [near, far]
            for a, b in ((near, far), (far, near)):
                threading.Thread(target=self.carry, args=(a, b), daemon=True).start()

    @staticmethod
    def carry(a, b):
        try:
            while data := a.recv(65536):
                b.sendall(data)
        except OSError:
            pass
        for end in (a, b):
            try:
                end.shutdown(socket.SHUT_RDWR)
            except OSError:
                pass

    def cut(self):
        self.is_cut = True
        ends, self.ends = self.ends, []
        for end in ends:
            try:
                end.shutdown(socket.SHUT_RDWR)
            except OSError:
                pass

    def mend(self):
        self.is_cut = False


class Pages(http.server.SimpleHTTPRequestHandler):
    """Gives out web/out, as docs/RUNNING.md has it of nginx: /p/NAME is the page."""

    def __init__(self, *args):
        super().__init__(*args, directory=str(OUT))

    def do_GET(self):
        if self.path == "/":
            self.send_response(302)
            self.send_header("Location", "/p/")
            self.end_headers()
            return
        if self.path.split("?")[0].startswith("/p/"):
            self.path = "/index.html"
        super().do_GET()

    def log_message(self, *_):
        pass


class Wrong(Exception):
    """A point isn't as it should be."""


def until(holds, what, seconds=20):
    end = time.monotonic() + seconds
    while time.monotonic() < end:
        if holds():
            return
        time.sleep(0.05)
    raise Wrong(f"in {seconds} s not: {what}")


SHOWN = """
const { CodeMirror: cm } = document.querySelector('#text .CodeMirror');
const marks = cm.getAllMarks().filter((mark) => mark.attrs).map((mark) => {
  const { from, to } = mark.find();
  return [from.line, from.ch, to.line, to.ch, [...mark.attrs.pairs]];
});
// lines that weren't seen yet have no marks
cm.eachLine((line) => {
  const n = line.lineNo();
  for (const { from, to, attrs } of line.due ?? []) marks.push([n, from, n, to, [...attrs.pairs]]);
});
return [cm.getValue('\\n'), marks];
"""


def joined(runs):
    """Stretches (line, from, to, pairs) in order, neighbours of the same pairs as one."""
    out = []
    for line, a, b, pairs in sorted(runs):
        if out and out[-1][0] == line and out[-1][2] == a and out[-1][3] == pairs:
            out[-1] = (line, out[-1][1], b, pairs)
        else:
            out.append((line, a, b, pairs))
    return out


def units(text):
    return text.encode("utf-16-le", "surrogatepass")


def runs_of(text, attribs, pool):
    """The stretches of an attributed text, line by line, without line feeds."""
    data, at, line, place, runs, pairs = units(text), 0, 0, 0, [], []
    word = ""
    for c in attribs + "$":
        if word and c in "*|+$":
            number = int(word[1:], 36)
            if word[0] == "*":
                pairs.append(tuple(pool["numToAttrib"][str(number)]))
            elif word[0] == "+":
                own = tuple(sorted(pairs))
                for unit in range(at, at + number):
                    if data[2 * unit:2 * unit + 2] == b"\n\0":
                        line, place = line + 1, 0
                        continue
                    if own and runs and runs[-1][0] == line and runs[-1][2] == place and runs[-1][3] == own:
                        runs[-1] = (line, runs[-1][1], place + 1, own)
                    elif own:
                        runs.append((line, place, place + 1, own))
                    place += 1
                at, pairs = at + number, []
            word = ""
        word += c
    return joined(runs)


def vars_of(server, pad, token="t.look"):
    """What the server tells who enters."""

    async def enter():
        async with websockets.connect(f"ws://127.0.0.1:{server.ports[0]}/", max_size=None) as link:
            await link.send(json.dumps({"type": "CLIENT_READY", "padId": pad, "token": token}))
            return json.loads(await link.recv())["data"]

    return asyncio.run(enter())


# notes when the text is there
OPENED = """
new MutationObserver(() => {
  if (document.documentElement?.dataset.phase === 'saved') window.openedAfter ??= performance.now();
}).observe(document, { attributes: true, subtree: true, attributeFilter: ['data-phase'] });
"""


class Window:
    """A window of the browser that shows a pad, behind a wire of its own."""

    def __init__(self, driver, server, pages):
        self.driver, self.server, self.pages = driver, server, pages
        self.wire = Wire(server.ports[0])
        driver.switch_to.new_window("window")
        self.handle = driver.current_window_handle
        driver.execute_cdp_cmd("Page.addScriptToEvaluateOnNewDocument", {"source": OPENED})

    def here(self):
        if self.driver.current_window_handle != self.handle:
            self.driver.switch_to.window(self.handle)
        return self.driver

    def url(self, pad, **words):
        query = urllib.parse.urlencode({"server": f"ws://127.0.0.1:{self.wire.port}/", **words})
        return f"http://127.0.0.1:{self.pages}/p/{urllib.parse.quote(pad, safe='')}?{query}"

    def open(self, pad, phase="saved", **words):
        self.pad = pad
        self.here().get(self.url(pad, **words))
        self.wait(phase)
        return self

    def run(self, script, *args):
        return self.here().execute_script(script, *args)

    def phase(self):
        return self.run("return document.documentElement.dataset.phase ?? ''")

    def wait(self, phase, seconds=30):
        until(lambda: self.phase() == phase, f"{phase} (it is {self.phase()}; {self.words()!r})", seconds)

    def words(self):
        return self.run("return document.getElementById('words').textContent")

    def keys(self, *keys):
        self.here().find_element(By.CSS_SELECTOR, "#text .CodeMirror-code").send_keys(*keys)

    def type(self, text):
        """Character by character; one outside the basic plane as an input method puts it in."""
        for c in text:
            if ord(c) > 0xffff:
                self.here().execute_cdp_cmd("Input.insertText", {"text": c})
            else:
                self.keys(Keys.ENTER if c == "\n" else c)

    def click(self, selector):
        self.here().find_element(By.CSS_SELECTOR, selector).click()

    def select(self, at, count):
        """By keys: from the beginning, so many to the right, and so many more with Shift."""
        self.keys(Keys.CONTROL + Keys.HOME)
        self.keys(*[Keys.ARROW_RIGHT] * at)
        if count:
            self.keys(Keys.SHIFT, *[Keys.ARROW_RIGHT] * count, Keys.SHIFT)

    def shown(self):
        text, marks = self.run(SHOWN)
        runs = []
        lines = text.split("\n")
        for line, a, last, b, pairs in marks:
            pairs = tuple(sorted(tuple(pair) for pair in pairs))
            for n in range(line, last + 1):
                end = b if n == last else len(units(lines[n])) // 2
                runs.append((n, a if n == line else 0, end, pairs))
        return text + "\n", joined(run for run in runs if run[1] < run[2])

    def errors(self, expected=()):
        log = [entry["message"] for entry in self.here().get_log("browser") if entry["level"] in ("SEVERE", "WARNING")]
        return [message for message in log if not any(word in message for word in expected)]


OVERLAPS = """
const all = [...document.querySelectorAll('h1, #saved, button, input, output, #words, .CodeMirror')];
const seen = all.filter((it) => it.checkVisibility() && it.getClientRects().length && !it.closest('#people'));
const faults = [];
if (document.documentElement.scrollWidth > innerWidth) faults.push(`the page is ${document.documentElement.scrollWidth} wide`);
const box = (it) => it.getBoundingClientRect();
const name = (it) => it.id || it.getAttribute('aria-label') || it.textContent || it.className;
for (const [i, a] of seen.entries()) {
  const r = box(a);
  if (r.left < -0.5 || r.right > innerWidth + 0.5) faults.push(`${name(a)} goes past the window`);
  for (const b of seen.slice(i + 1)) {
    const s = box(b);
    if (a.contains(b) || b.contains(a)) continue;
    if (Math.min(r.right, s.right) - Math.max(r.left, s.left) > 0.5 && Math.min(r.bottom, s.bottom) - Math.max(r.top, s.top) > 0.5)
      faults.push(`${name(a)} overlaps ${name(b)}`);
  }
}
return faults;
"""


def picture(window, folder, name):
    """Pictures of a state at each width, dark and light."""
    driver = window.here()
    for width in WIDTHS:
        height = 740 if width < 500 else 900
        driver.execute_cdp_cmd("Emulation.setDeviceMetricsOverride",
                               {"width": width, "height": height, "deviceScaleFactor": 1, "mobile": False})
        for scheme in ("light", "dark"):
            driver.execute_cdp_cmd("Emulation.setEmulatedMedia",
                                   {"features": [{"name": "prefers-color-scheme", "value": scheme}]})
            time.sleep(0.2)
            faults = window.run(OVERLAPS)
            if faults:
                raise Wrong(f"{name} at {width}: {'; '.join(faults)}")
            if folder:
                driver.save_screenshot(str(folder / f"{name}-{width}-{scheme}.png"))
    driver.execute_cdp_cmd("Emulation.clearDeviceMetricsOverride", {})
    driver.execute_cdp_cmd("Emulation.setEmulatedMedia", {"features": []})


def processes(driver):
    """The processes of the browser's pages."""
    parents = {}
    for process in pathlib.Path("/proc").glob("[0-9]*"):
        try:
            parents[int(process.name)] = int((process / "stat").read_text().rpartition(")")[2].split()[1])
        except OSError:
            pass
    for pid in parents:
        above = pid
        while above in parents and above != driver.service.process.pid:
            above = parents[above]
        process = pathlib.Path(f"/proc/{pid}")
        try:
            if above == driver.service.process.pid and b"--type=renderer" in (process / "cmdline").read_bytes():
                yield process
        except OSError:
            pass


def memory(driver):
    """The memory of each page's process, as the kernel counts its share."""
    told = [line for process in processes(driver) for line in (process / "smaps_rollup").read_text().splitlines()]
    sizes = sorted((int(line.split()[1]) // 1024 for line in told if line.startswith("Pss:")), reverse=True)
    return ", ".join(f"{size} MB" for size in sizes)


def base36(number):
    digits = ""
    while number or not digits:
        number, rest = divmod(number, 36)
        digits = "0123456789abcdefghijklmnopqrstuvwxyz"[rest] + digits
    return digits


def change(server, pad, changeset, pairs):
    """Another client makes a change of the head."""

    async def make():
        async with websockets.connect(f"ws://127.0.0.1:{server.ports[0]}/", max_size=None) as link:
            await link.send(json.dumps({"type": "CLIENT_READY", "padId": pad, "token": "t.other"}))
            told = json.loads(await link.recv())["data"]["collab_client_vars"]
            pool = {"nextNum": len(pairs), "numToAttrib": {str(n): pair for n, pair in enumerate(pairs)}}
            data = {"type": "USER_CHANGES", "baseRev": told["rev"], "changeset": changeset, "apool": pool}
            await link.send(json.dumps({"type": "COLLABROOM", "data": data}))
            answer = json.loads(await link.recv())
            if answer.get("data", {}).get("type") != "ACCEPT_COMMIT":
                raise Wrong(f"another client's change: {answer}")

    asyncio.run(make())


def browser():
    options = webdriver.ChromeOptions()
    for word in ("--headless=new", "--no-sandbox", "--window-size=1600,900", "--no-first-run"):
        options.add_argument(word)
    options.set_capability("goog:loggingPrefs", {"browser": "ALL"})
    driver = webdriver.Chrome(service=Service(shutil.which("chromedriver")), options=options)
    driver.set_script_timeout(60)
    return driver


class Firefox:
    """Firefox, driven over a WebSocket as WebDriver BiDi has it."""

    def __init__(self, link):
        self.link, self.count = link, 0

    async def ask(self, method, **params):
        self.count += 1
        await self.link.send(json.dumps({"id": self.count, "method": method, "params": params}))
        while True:
            told = json.loads(await self.link.recv())
            if told.get("id") == self.count:
                if told["type"] != "success":
                    raise Wrong(f"{method}: {told}")
                return told["result"]

    async def open(self, url):
        await self.ask("session.new", capabilities={})
        self.context = (await self.ask("browsingContext.getTree"))["contexts"][0]["context"]
        await self.ask("browsingContext.setViewport", context=self.context, viewport={"width": 1600, "height": 900})
        await self.ask("browsingContext.navigate", context=self.context, url=url, wait="complete")

    async def run(self, script):
        told = await self.ask("script.evaluate", expression=script, target={"context": self.context}, awaitPromise=True)
        return told["result"].get("value")

    async def wait(self, script, value):
        for _ in range(600):
            if (said := await self.run(script)) == value:
                return
            await asyncio.sleep(0.1)
        raise Wrong(f"Firefox: {script} is {said!r}, not {value!r}")

    async def type(self, text):
        keys = [{"type": kind, "value": c} for c in text for kind in ("keyDown", "keyUp")]
        await self.ask("input.performActions", context=self.context, actions=[{"type": "key", "id": "keys", "actions": keys}])

    async def picture(self, file):
        told = await self.ask("browsingContext.captureScreenshot", context=self.context)
        file.write_bytes(base64.b64decode(told["data"]))
