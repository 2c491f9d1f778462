#!/usr/bin/env python3
"""Opens the pages of `fmp_view timeline --html` in a headless Chromium, light and dark, and uses them as a reader does.

    checks/looking/looking.py [--shots FOLDER] [VIEW [PROGRAM]]

At each event of each example the lists say what the dump of `fmp_view waves` says. Clicks, the wheel, dragging and keys
do what LANGUAGE says, no script fails, and nothing but the page is loaded, also under a name that HTML reads otherwise.
With `--shots` a picture of each page is left in FOLDER, to be looked at. Without a program `chromium` the status is 2.
"""

import argparse
import json
import os
import shutil
import subprocess
import sys
import tempfile
from base64 import b64decode
from pathlib import Path

sys.dont_write_bytecode = True  # the folders of the checks stay as they are
sys.path[0] = str(Path(__file__).resolve().parents[1])  # the folder `checks`, whose folders are packages

from common.program import ROOT, located  # noqa: E402
from common.tally import Tally  # noqa: E402

EXAMPLES = ROOT / "examples"
STATES = ("dormant", "ready", "running", "waiting", "suspended", "suspended, waiting")
HANDLING = ("idle", "pending", "runs", "runs, pending again")
ODD_NAME = "</title><script>fail()"  # a file's name has no `/`, so one is left out
SEE = """(() => {
  const tables = document.querySelectorAll("#states table"), slider = document.getElementById("moment"), all = [];
  for (let event = Number(slider.min); event <= Number(slider.max); event++) {
    slider.value = event;
    slider.dispatchEvent(new Event("input"));
    const rows = [...tables].flatMap(table => [...table.rows]);
    all.push(rows.map(row => [row.cells[0].textContent, row.cells[1].textContent]));
  }
  return all;
})()"""
SEEN = """(() => ({
  event: document.getElementById("now").textContent.split(" ")[1],
  head: document.querySelector("#story h2").textContent,
  lines: [...document.querySelectorAll("#story li")].map(line => line.textContent),
  wide: document.querySelector("#view svg").getBoundingClientRect().width,
  left: document.getElementById("view").scrollLeft,
}))()"""


class Browser:
    """A headless Chromium with one page, driven over pipes."""

    def __init__(self, folder):
        commands, self.commands = os.pipe()
        self.answers, answers = os.pipe()
        words = ["chromium", "--headless", "--no-sandbox", "--disable-gpu", "--remote-debugging-pipe",
                 f"--user-data-dir={folder}/profile", "about:blank"]  # fmt: skip
        script = f'exec "$@" 3<&{commands} 4>&{answers}'
        self.process = subprocess.Popen(
            ["sh", "-c", script, "sh", *words], pass_fds=(commands, answers), stderr=subprocess.DEVNULL
        )
        os.close(commands)
        os.close(answers)
        self.rest, self.number, self.session, self.events = b"", 0, None, []
        page = self.ask("Target.createTarget", url="about:blank")["targetId"]
        self.session = self.ask("Target.attachToTarget", targetId=page, flatten=True)["sessionId"]
        for domain in ("Page", "Runtime", "Network"):
            self.ask(f"{domain}.enable")
        self.ask("Emulation.setDeviceMetricsOverride", width=1500, height=860, deviceScaleFactor=1, mobile=False)

    def message(self):
        while b"\0" not in self.rest:
            more = os.read(self.answers, 1 << 20)
            if not more:
                sys.exit("chromium has ended")
            self.rest += more
        text, self.rest = self.rest.split(b"\0", 1)
        return json.loads(text)

    def ask(self, method, **parameters):
        self.number += 1
        command = {"id": self.number, "method": method, "params": parameters}
        if self.session:
            command["sessionId"] = self.session
        os.write(self.commands, json.dumps(command).encode() + b"\0")
        while True:
            message = self.message()
            if message.get("id") == self.number:
                return message["result"]
            self.events.append(message)

    def open(self, path, scheme):
        self.events = []
        self.ask("Emulation.setEmulatedMedia", features=[{"name": "prefers-color-scheme", "value": scheme}])
        self.ask("Page.navigate", url=Path(path).as_uri())
        while not self.told("Page.loadEventFired"):
            self.events.append(self.message())

    def value(self, expression):
        return self.ask("Runtime.evaluate", expression=expression, returnByValue=True)["result"].get("value")

    def mouse(self, kind, x, y, **more):
        self.ask("Input.dispatchMouseEvent", type=kind, x=x, y=y, button="left", clickCount=1, **more)

    def click(self, x, y):
        self.mouse("mousePressed", x, y)
        self.mouse("mouseReleased", x, y)

    def key(self, key):
        self.ask("Input.dispatchKeyEvent", type="keyDown", key=key, text=key)
        self.ask("Input.dispatchKeyEvent", type="keyUp", key=key)

    def middle(self, selector):
        box = f"document.querySelector({json.dumps(selector)}).getBoundingClientRect()"
        return self.value(f"(box => [box.x + box.width / 2, box.y + box.height / 2])({box})")

    def faults(self):
        """The scripts that failed, and what was loaded beside the page."""
        failed = [told["exceptionDetails"]["text"] for told in self.told("Runtime.exceptionThrown")]
        loaded = [told["request"]["url"] for told in self.told("Network.requestWillBeSent")]
        return failed + loaded[1:]

    def told(self, method):
        return [event["params"] for event in self.events if event.get("method") == method]

    def picture(self, path):
        Path(path).write_bytes(b64decode(self.ask("Page.captureScreenshot", format="png")["data"]))

    def end(self):
        self.process.terminate()
        self.process.wait()


def dumped(text):
    """The values of a dump after each event, by scopes and name."""
    names, scopes, moments, now = {}, [], [], {}
    for line in text.splitlines():
        words = line.split()
        if line.startswith("$scope"):
            scopes.append(words[2])
        elif line.startswith("$upscope"):
            scopes.pop()
        elif line.startswith("$var"):
            names[words[3]] = ("/".join([*scopes[1:], words[4]]), words[1] == "integer")
        elif line.startswith("#"):
            moments.append(now := dict(now))
        elif moments and (line.startswith("b") or line[:1] in ("0", "1")):
            bits, sign = (words[0][1:], words[1]) if line.startswith("b") else (line[0], line[1:])
            name, signed = names[sign]
            value = int(bits, 2)
            now[name] = value - (1 << 32) if signed and value >> 31 else value
    return moments[:-1]  # the last one only ends the last state


def wanted(moment, tasks, cyclics):
    """What the lists should say of processors, tasks, handlers and objects, as far as a dump has it."""
    for name, value in moment.items():
        scope, _, variable = name.rpartition("/")
        last = scope.split("/")[-1]
        if variable == "run":
            handler, task = moment[f"{scope}/handler"], tasks[value - 1] if value else "idle"
            actor = f"#{handler - 256}" if handler > 256 else cyclics[handler - 1] if handler else task
            lock = {0: "", 1: ", CPU lock held"}.get(moment[f"{scope}/lock"], None)
            dispatch = "" if moment[f"{scope}/dispatch"] else ", dispatch disabled"
            if lock is not None:
                yield f"processor {last[1:]}", actor + lock + dispatch
        elif variable == "state":
            processor = moment[f"{scope}/processor"]
            is_under = STATES[value] == "running" and moment[f"p{processor}/handler"]
            priority = f", priority {moment[f'{scope}/priority']}" if value else ""
            yield last, ("interrupted by " if is_under else STATES[value], f", processor {processor}{priority}")
        elif variable == "handling":
            yield last if scope.startswith("cyclic/") else last.replace("i", "interrupt "), HANDLING[value]
        elif variable in ("count", "pattern", "words", "messages", "value"):
            yield last, (str(value), "")


def is_as(text, want):
    if isinstance(want, str):
        return text == want
    begin, end = want
    return text.startswith(begin) and text.endswith(end)


class Looking:
    def __init__(self, view, program, folder, shots):
        self.view, self.program, self.folder, self.shots = view, program, Path(folder), shots
        self.tally, self.browser = Tally(), Browser(folder)

    def run(self, *words):
        return subprocess.run([str(word) for word in words], check=True, capture_output=True).stdout.decode()

    def built(self, name, image):
        self.run(self.program, "build", EXAMPLES / f"{name}.cfg", EXAMPLES / f"{name}.src", image)
        return image, EXAMPLES / f"{name}.steps"

    def page(self, image, steps):
        out = self.folder / "page.html"
        self.run(self.view, "timeline", "--html", image, steps, out)
        return out

    def states(self, name):
        """The lists of a page say what the dump says."""
        image, steps = self.built(name, self.folder / f"{name}.img")
        self.run(self.view, "waves", image, steps, self.folder / "a.vcd")
        moments = dumped((self.folder / "a.vcd").read_text())
        scopes = [key.split("/") for key in moments[0]]
        tasks = [scope[1] for scope in scopes if scope[0] == "tasks" and scope[-1] == "state"]
        cyclics = [scope[1] for scope in scopes if scope[0] == "cyclic"]
        page = self.page(image, steps)
        for scheme in ("light", "dark"):
            self.browser.open(page, scheme)
            all_rows = self.browser.value(SEE)
            self.tally.verdict(f"{name}: how many events", len(moments), len(all_rows))
            for event, (moment, rows) in enumerate(zip(moments, all_rows)):
                rows = dict(rows)
                for thing, want in wanted(moment, tasks, cyclics):
                    got = rows.get(thing, "")
                    self.tally.holds(f"{name}, event {event}: {thing}: {want}, not {got}", is_as(got, want))
            self.tally.verdict(f"{name}: faults", [], self.browser.faults())
            if self.shots:
                self.browser.picture(self.shots / f"{name}-{scheme}.png")

    def seen(self):
        return self.browser.value(SEEN)

    def use(self):
        """Clicks, the wheel, dragging and keys on the page of an example."""
        browser, verdict = self.browser, self.tally.verdict
        browser.open(self.page(*self.built("interrupt", self.folder / "interrupt.img")), "light")
        verdict("title", "Timeline of interrupt", browser.value("document.title"))
        verdict("language", "en", browser.value("document.documentElement.lang"))
        lane = 'g[aria-label="Task DRIVER on processor 2"]'
        browser.click(*browser.middle(f"{lane} text"))
        story = self.seen()
        verdict("a click on a name", ("0", "What happened to DRIVER"), (story["event"], story["head"]))
        begin = ["0p2 DRIVER starts", "0p2 > DRIVER", "1p2 DRIVER slp_tsk() wait"]
        verdict("the first lines", begin, story["lines"][:3])
        self.tally.holds("calls have names", "6p1 #3 iwup_tsk(DRIVER) E_OK" in story["lines"])
        browser.value("document.querySelectorAll('#story li button')[3].click()")
        verdict("a click on a line", story["lines"][3][:1], self.seen()["event"])
        browser.key(".")
        browser.key(",")
        verdict("keys for events", story["lines"][3][:1], self.seen()["event"])
        x, y = browser.middle(f"{lane} path.w")
        browser.click(x, y)
        self.tally.holds("a click on a bar", self.seen()["event"] not in ("0", story["lines"][3][:1]))
        wide = self.seen()["wide"]
        browser.key("+")
        verdict("a key that zooms", wide * 1.25, self.seen()["wide"])
        left = self.seen()["left"]
        for kind, place in (("mousePressed", 600), ("mouseMoved", 560), ("mouseMoved", 500), ("mouseReleased", 500)):
            browser.mouse(kind, place, 600, buttons=1)
        verdict("dragging", left + 100, self.seen()["left"])
        browser.ask("Input.dispatchMouseEvent", type="mouseWheel", x=600, y=400, deltaX=0, deltaY=-200)
        self.tally.holds("the wheel zooms", self.seen()["wide"] > wide * 1.25)
        browser.key("0")
        verdict("the first size", wide, self.seen()["wide"])
        browser.value("document.getElementById('moment').focus()")
        at = int(self.seen()["event"])
        browser.ask("Input.dispatchKeyEvent", type="keyDown", key="ArrowRight", windowsVirtualKeyCode=39)
        verdict("the slider by a key", str(at + 1), self.seen()["event"])
        verdict("faults", [], browser.faults())
        if self.shots:
            browser.picture(self.shots / "used.png")

    def odd_name(self):
        """A name that HTML reads otherwise is a title."""
        name = ODD_NAME.replace("/", "")
        self.browser.open(self.page(*self.built("queue", self.folder / f"{name}.img")), "dark")
        self.tally.verdict("an odd name", f"Timeline of {name}", self.browser.value("document.title"))
        self.tally.verdict("an odd name: faults", [], self.browser.faults())


def main():
    parser = argparse.ArgumentParser(description=__doc__.split("\n")[0])
    parser.add_argument("--shots", metavar="FOLDER", type=Path)
    parser.add_argument("view", metavar="VIEW", nargs="?", type=Path)
    parser.add_argument("program", metavar="PROGRAM", nargs="?", type=Path)
    words = parser.parse_args()
    if not shutil.which("chromium"):
        print(f"{sys.argv[0]}: there is no program chromium", file=sys.stderr)
        sys.exit(2)
    if words.shots:
        words.shots.mkdir(parents=True, exist_ok=True)
    with tempfile.TemporaryDirectory(ignore_cleanup_errors=True) as folder:
        looking = Looking(located("fmp_view", words.view), located("fmp", words.program), folder, words.shots)
        try:
            for steps in sorted(EXAMPLES.glob("*.steps")):
                looking.states(steps.stem)
            looking.use()
            looking.odd_name()
        finally:
            looking.browser.end()
    print(looking.tally)
    sys.exit(looking.tally.status)


if __name__ == "__main__":
    main()
