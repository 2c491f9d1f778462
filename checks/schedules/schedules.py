#!/usr/bin/env python3
"""Searches all schedules of systems whose findings are known, by hand or by another search, and replays what is found.

    checks/schedules/schedules.py [VIEW [PROGRAM]]

The systems are those of the folder `systems`, of which each has a comment that tells what a builder did wrong, and the
examples. What is found, at which line and after how many steps, is in the rows below. Each steps text that was written
is replayed by `fmp sim`: its last event tells what was found; or, after a deadlock, no processor does anything more;
or, where a task can never go on, random further events tell nothing of it. What is claimed of all lists of events, and
which findings stand beside a claim, is worked out of the texts and the options. A search whose memory runs out claims
nothing that it did not look for.
"""

import argparse
import bisect
import itertools
import random
import re
import resource
import shutil
import subprocess
import sys
import tempfile
from dataclasses import dataclass
from pathlib import Path

sys.dont_write_bytecode = True  # the folders of the checks stay as they are
sys.path[0] = str(Path(__file__).resolve().parents[1])  # the folder `checks`, whose folders are packages

from common.program import ROOT, located, unmarked  # noqa: E402
from common.services import SERVICES  # noqa: E402
from common.tally import Tally  # noqa: E402

BOUND = "100000"  # where the options give none
MEMORY = (30_000, 18_000, 12_000, 9_000, 7_000, 6_000, 5_400)  # kilobytes that a search may take, less and less
FURTHER = 300  # events after those of a task that can never go on
FOLDERS = (ROOT / "checks/schedules/systems", ROOT / "examples", ROOT / "bench/searches")
JOBS = (("prod5", ()), ("count4", ()), ("phil7", ("--states", "60000")), ("flags", ("--states", "5000")))
SECONDS = 120
UNSTUCK = "no stuck task was found (searched, not proved)"
CALLS = "|".join(service.name for service in SERVICES)


@dataclass(frozen=True)
class Line:
    """A line that must never be told: where its call stands, and how the line ends."""

    steps: int
    places: tuple  # lines of the text: where two schedules are as short, either; any, if none is given
    told: str


@dataclass(frozen=True)
class Together:
    """A task that enters while another is inside: where its call stands, how its line ends, and who is inside where."""

    steps: int
    place: int
    told: str
    inside: str


@dataclass(frozen=True)
class Deadlock:
    """A deadlock: what is said of the tasks, if that is given."""

    steps: int
    of: str = ""


@dataclass(frozen=True)
class Endless:
    """A body that goes on for ever without a call, on this processor; its head stands in this line of the text."""

    steps: int
    processor: int
    place: int


@dataclass(frozen=True)
class Stuck:
    """A task that can never go on though others run: where its call stands, and what is said of it."""

    steps: int
    place: int
    told: str


@dataclass(frozen=True)
class Several:
    """These are found and no others, in this order. The states, events and depth are these, where they are given."""

    rows: tuple
    numbers: tuple = ()


@dataclass(frozen=True)
class Nothing:
    """Nothing is found, and the first line says so of all lists of events that may come. The states, events and depth
    are these, as many as are given, calls of these lines are never made, and calls get these answers, by line."""

    numbers: tuple = ()
    unmade: tuple = ()
    answers: tuple = ()


@dataclass(frozen=True)
class Stopped:
    """The search stops; this field has the most values, if one is given."""

    field: str = ""


def never(word, *more):
    return ("--never", word, *more)


def alone(*words):
    return tuple(it for word in words for it in ("--alone", word))


UNSERVED = Stuck(1, 30, "Z waits for semaphore NEVER")
CROSSED = Stuck(3, 4, "A waits for semaphore Y"), Stuck(3, 10, "B waits for semaphore X")

ROWS = [
    # Two tasks at once where one may be.
    ("bridge", alone("1,2"), Together(2, 3, "p2 WEST put(1) E_OK", "EAST is between put(1) and put(2)")),
    ("bridge", alone("2,1"), Together(4, 4, "p2 WEST put(2) E_OK", "EAST is between put(2) and put(1)")),
    ("oneway", alone("1,2"), Nothing()),
    ("ended", alone("1,2"), Nothing((7, 13, 6))),
    ("twice", alone("1,2"), Nothing()),
    ("twice", alone("1,2", "3,4"), Together(4, 9, "p2 B put(3) E_OK", "A is between put(3) and put(4)")),
    # A builder's mistakes.
    ("branch", (), Deadlock(5, "WRITER (branch.src:12)")),
    ("order", (), Deadlock(4, "COPY (order.src:4), SYNC (order.src:10)")),
    ("pulse", (), Deadlock(4, "CLIENT (pulse.src:4)")),
    ("burst", never("E_QOVR"), Line(8, (3,), "isig_sem(1) E_QOVR")),
    ("burst", ("--ints", "2"), Deadlock(11, "SINK (burst.src:7)")),
    ("burst", ("--ints", "2", "--rest", "SINK"), Nothing()),
    ("missed", never("put(99)"), Line(8, (7,), "put(99) E_OK")),
    ("missed", never("put(99)", "--ticks", "idle"), Nothing()),
    ("rotated", never("E_TMOUT"), Line(6, (7,), "psnd_dtq(1,1) E_TMOUT")),
    ("moved", never("E_CTX"), Line(2, (4,), "mig_tsk(0,2) E_CTX")),
    ("owner", (), Deadlock(3, "WORKER, CHIEF (owner.src:8)")),
    ("slow", never("E_QOVR"), Line(6, (3,), "isig_sem(1) E_QOVR")),
    ("wakeup", (), Deadlock(4, "SLEEPER (wakeup.src:4)")),
    ("untested", never("E_QOVR"), Line(6, (4, 8), "sig_sem(1) E_QOVR")),
    ("stale", never("put(5)"), Line(4, (6,), "put(5) E_OK")),
    # An answer at one line, and the answers at all.
    ("untested", never("E_QOVR:4"), Line(6, (4,), "OWNER sig_sem(1) E_QOVR")),
    ("untested", never("E_QOVR:8"), Line(6, (8,), "GUEST sig_sem(1) E_QOVR")),
    ("untested", never("E_TMOUT:7"), Line(4, (7,), "GUEST gets E_TMOUT")),
    ("untested", never("E_TMOUT:3", "--never", "E_QOVR:7"), Nothing()),
    ("untested", ("--answers",),
     Nothing(answers=((3, "E_OK"), (4, "E_OK E_QOVR"), (7, "E_OK E_TMOUT"), (8, "E_OK E_QOVR")))),
    ("burst", never("E_QOVR:3"), Line(8, (3,), "isig_sem(1) E_QOVR")),
    ("burst", ("--ints", "2", "--rest", "SINK", "--answers"), Nothing(answers=((3, "E_OK"), (7, "E_OK"), (8, "E_OK")))),
    # Systems of several tasks.
    ("lostwake", (), Deadlock(6, "EATER (lostwake.src:8), COOK (lostwake.src:22)")),
    ("phil3", (), Deadlock(9)),
    ("phil5", (), Deadlock(15)),
    ("spinpair", never("E_CTX"), Line(2, (6, 14), "E_CTX")),
    ("race", never("put(99)"), Line(23, (17,), "put(99) E_OK")),
    ("locked", never("put(99)"), Nothing(unmade=(20,))),
    ("alarm", never("put(99)"), Line(9, (10,), "put(99) E_OK")),
    ("alarm", never("put(99)", "--ticks", "idle"), Nothing(unmade=(10,))),
    ("peterson", never("put(99)"), Nothing((234, 702))),
    ("meet", never("put(99)"), Nothing((45, 121, 10))),
    ("server", never("put(99)"), Nothing((1_371, 3_689))),
    ("ring", never("put(99)"), Nothing((10_169, 31_098, 54))),
    ("rwlock", never("put(99)"), Nothing((9_779, 26_445))),
    ("prodcons", never("put(99)"), Nothing((122_589, 329_478))),
    ("spins", (), Nothing(unmade=(10, 11, 12, 13, 22, 23, 24, 25))),
    # RIGHT polls for ever under the lock, which is refused. LEFT waits for nobody before it spins, so IDLE1 never runs.
    ("spinsem", (), Stuck(0, 27, "IDLE1 is ready")),
    ("spinsem", ("--rest", "IDLE1"), Stuck(1, 6, "LEFT spins for spin lock A")),
    ("spinsem", ("--rest", "IDLE1", "--rest", "LEFT"), Nothing(unmade=(21, 22, 23, 24, 27))),
    ("flood", never("E_QOVR"), Line(11, (), "E_QOVR")),
    ("flood", never("E_TMOUT"), Line(14, (), "E_TMOUT")),
    ("invert", never("E_TMOUT"), Line(14, (), "gets E_TMOUT")),
    ("invert", never("put(99)"), Line(17, (), "put(99) E_OK")),
    ("invert", never("put(99)", "--ticks", "idle"), Nothing()),
    ("watchcyc", never("put(99)"), Line(14, (), "put(99) E_OK")),
    # Tasks that can never go on, though others run.
    ("unheard", (), Stuck(3, 4, "SLEEPER waits for a wakeup")),
    ("once", (), Stuck(2, 3, "B waits for semaphore DONE")),
    ("once", ("--rest", "B"), Nothing()),
    ("polls", (), Stuck(2, 13, "GUEST spins for spin lock LOCK")),
    ("polls", ("--bound", "1"), Stuck(4, 13, "GUEST spins for spin lock LOCK")),
    ("freed", (), Nothing((22, 70, 6))),
    ("killed", (), Nothing((5, 10, 4))),
    ("afar", (), Stuck(1, 3, "WAITER waits for semaphore NEVER")),
    ("woken", (), Nothing()),
    ("woken", ("--ints", "1"), Stuck(6, 8, "READER waits for any bit of 1 of eventflag CAME")),
    ("desk", (), Stuck(4, 5, "SERVER waits for a word of data queue DESK")),
    ("desk", ("--bound", "1"), Stuck(14, 5, "SERVER waits for a word of data queue DESK")),
    ("desk", ("--rest", "SERVER"), Nothing((10, 27, 5))),
    ("parked", (), Stuck(1, 4, "WORKER is suspended")),
    ("timed", (), Nothing((10, 24, 5))),
    ("timed", ("--ticks", "idle"), Stuck(1, 3, "TIMER waits for the end of a delay, until tick 2")),
    # Stretches that are cut at the bound, and bodies that go on for ever.
    ("twopushes", ("--bound", "2"), Nothing((5, 9, 4))),
    ("twopushes", ("--bound", "1"), Nothing((8, 15, 7))),
    ("round", (), Endless(1, 1, 2)),
    ("round", ("--bound", "3"), Endless(1, 1, 2)),
    ("round", ("--bound", "1"), Endless(2, 1, 2)),
    ("count", (), Endless(0, 1, 2)),
    ("count", ("--bound", "1"), Endless(0, 1, 2)),
    ("long", never("put(99)", "--bound", "1000"), Line(1, (7,), "put(99) E_OK")),
    ("long", never("put(99)", "--bound", "20"), Line(5, (7,), "put(99) E_OK")),
    ("fault", ("--bound", "1"), Line(9, (), "F_DIV")),
    # What goes on beside tasks that wait for each other: a cyclic handler, an interrupt, an idle loop.
    ("crossbeat", (), Stuck(3, 4, "A waits for semaphore Y")),
    ("crossbeat", ("--all",), Several(CROSSED)),
    ("crossbeat", ("--rest", "A", "--rest", "B"), Nothing()),
    ("crossint", (), Stuck(3, 4, "A waits for semaphore Y")),
    ("crossint", ("--all",), Several(CROSSED)),
    ("crossint", ("--ints", "0"), Deadlock(4, "A (crossint.src:4), B (crossint.src:10)")),
    ("crossint", ("--rest", "B", "--rest", "A"), Nothing()),
    ("crossidle", (), Several((Endless(0, 3, 14), CROSSED[0]), (111, 384, 12))),
    ("crossidle", ("--all",), Several((Endless(0, 3, 14), *CROSSED), (111, 384, 12))),
    ("crossidle", ("--rest", "IDLE"), CROSSED[0]),
    ("crossidle", ("--rest", "IDLE", "--all"), Several(CROSSED, (111, 384, 12))),
    ("idle", (), Several((Endless(0, 2, 8),), (33, 96, 12))),
    ("idle", ("--rest", "IDLE"), Nothing((33, 96, 12))),
    ("idle", (*alone("1,2"), "--rest", "IDLE"), Nothing()),
    # A handler that can never begin any more is not looked for.
    ("lockedcpu", (), Nothing((9, 18, 3))),
    # Loops that come to the same only after long: what else there is to be found is found, and limits hold.
    ("latecycle", never("put(99)", "--bound", "1"), Several((Endless(0, 1, 2), Line(2, (11,), "put(99) E_OK")))),
    ("longcycle", ("--states", "20"), Stopped()),
    # Two answers at one call.
    ("twocodes", never("E_RLWAI", "--never", "E_TMOUT"), Line(2, (3,), "A gets E_RLWAI")),
    ("twocodes", never("E_RLWAI", "--never", "E_TMOUT", "--all"),
     Several((Line(2, (3,), "A gets E_RLWAI"), Line(3, (3,), "A gets E_TMOUT")))),
    ("twocodes", never("E_TMOUT"), Line(3, (3,), "A gets E_TMOUT")),
    ("twocodes", never("E_TMOUT", "--ticks", "idle"), Nothing()),
    ("rwnever", (), UNSERVED),
    # The examples.
    ("queue", (), Nothing((7, 13, 6))),
    ("semaphore", (), Nothing()),
    ("inversion", (), Nothing()),
    ("migration", never("E_PAR"), Line(1, (2,), "mig_tsk(3,2) E_PAR")),
    ("migration", never("E_OBJ"), Line(3, (4,), "mig_tsk(2,1) E_OBJ")),
    ("pipeline", (), Deadlock(35, "DRAIN (pipeline.src:24)")),
    ("pipeline", ("--rest", "DRAIN"), Nothing()),
    ("watchdog", (), Nothing()),
    ("watchdog", never("E_TMOUT"), Line(4, (6,), "gets E_TMOUT")),
    ("interrupt", never("E_QOVR"), Line(767, (3,), "iwup_tsk(2) E_QOVR")),
    ("flags", ("--states", "5000"), Stopped("CONTROL samples")),
    ("sum", ("--states", "5000"), Stopped("BEAT n")),
]


class Search:
    """A system with the options of its search, the folder in which the programs run, and what they answer."""

    def __init__(self, view, program, folder, name, options):
        self.view, self.program, self.folder = view, program, Path(folder)
        self.name, self.options = name, options
        self.bound = options[options.index("--bound") :][:2] if "--bound" in options else ()
        for kind in ("cfg", "src"):
            shutil.copy(next(it / f"{name}.{kind}" for it in FOLDERS if (it / f"{name}.{kind}").exists()), self.folder)

    def run(self, *words):
        """What a program ends with and prints."""
        done = subprocess.run(words, cwd=self.folder, capture_output=True, text=True, check=False, timeout=SECONDS)
        return done.returncode, unmarked(done.stdout)

    def words(self):
        """The words of the search."""
        return self.view, "explore", f"{self.name}.cfg", f"{self.name}.src", *self.options, "--out", "found"

    def explored(self):
        return self.run(*self.words())

    def replayed(self, steps):
        """The lines that `fmp sim` prints of the system and these steps, before the states."""
        (self.folder / "steps").write_text("".join(f"{step}\n" for step in steps))
        self.run(self.program, "build", f"{self.name}.cfg", f"{self.name}.src", "image")
        _, text = self.run(self.program, "sim", "image", "steps", *self.bound)
        return [line for line in text.splitlines() if line[0].isdigit()]

    def steps(self, number):
        return (self.folder / f"found.{number}").read_text().splitlines()

    def text(self, kind):
        return (self.folder / f"{self.name}.{kind}").read_text()

    def processors(self):
        return int(re.search(r"NUM_PRC\((\d)\)", self.text("cfg"))[1])

    def events(self):
        """Events that may come at any time: runs, and ticks and interrupts where the options leave none out."""
        ticks = () if "--ticks" in self.options else ("tick",)
        ints = () if "--ints" in self.options else (f"int {n}" for n in re.findall(r"DEF_INH\((\d+)", self.text("cfg")))
        return [*(f"run {p + 1}" for p in range(self.processors())), *ticks, *ints]

    def given(self, option):
        """The words that stand after an option, in order."""
        return [word for it, word in zip(self.options, self.options[1:]) if it == option]

    def never(self, word):
        """What a word of what must never happen claims: of a code at a line, each call that stands there."""
        if re.fullmatch("F_[A-Z]+", word):
            return []
        code, _, line = word.partition(":")
        if not line:
            return [f"never {word}"]
        calls = re.findall(rf"\b({CALLS})\(", self.text("src").splitlines()[int(line) - 1])
        return [f"never {code} of {call} in line {line}" for call in calls]

    def going_on(self):
        """What keeps a state from being a deadlock, in words."""
        interrupts = "DEF_INH" in self.text("cfg") and self.given("--ints") != ["0"]
        tasks = re.findall(r"CRE_TSK\((\w+)", self.text("cfg"))
        why = ["a cyclic handler goes on"] if "CRE_CYC" in self.text("cfg") else []
        why += ["an interrupt may come"] if interrupts else []
        why += [f"{task} may rest" for task in tasks if task in self.given("--rest")]
        return f" ({', '.join(why)})" if why else ""

    def lists(self):
        """Over which lists of events something is claimed."""
        ints = self.given("--ints")
        few = f" with at most {ints[0]} interrupt{'' if ints[0] == '1' else 's'}" if ints else ""
        idle = " in which the clock ticks only where no processor can do anything"
        idle = f"{',' if few else ''}{idle}" if "idle" in self.given("--ticks") else ""
        return f"all lists of events{few}{idle}{self.queued(few, idle)}"

    def queued(self, few, idle):
        """How much may be queued, after how many interrupts may come and when the clock ticks."""
        if not self.given("--queued"):
            return ""
        most = self.given("--queued")[0]
        joint = " and" if idle else f"{',' if few else ''} in which"
        activations, wakeups = (f"{most} {word}{'' if most == '1' else 's'}" for word in ("activation", "wakeup"))
        return f"{joint} at most {activations} and {wakeups} of a task are queued"

    def claim(self):
        """The line where something holds, by what was asked."""
        nevers = self.given("--never")
        places = [word for word in nevers if ":" in word]
        parts = [it for word in nevers if ":" not in word for it in self.never(word)]
        parts += [it for word in places for it in self.never(word)]
        parts += [f"alone {word}" for word in self.given("--alone")]
        parts += [f"no deadlock{self.going_on()}", "no fault"]
        return f"{', '.join(parts)}: over {self.lists()}, at bound {(self.given('--bound') or [BOUND])[0]}"

    def matched(self, pattern, line, number, row):
        """What a line says of the finding of this number, if that is found after as many steps."""
        found = re.match(rf"{pattern}: after {row.steps} steps?, in found\.{number}$", line)
        return found if found and len(self.steps(number)) == row.steps else None


def shows_line(search, line, number, row):
    """Whether this line is found, and the last event of the steps tells it."""
    found = search.matched(rf"(?:{search.name}\.src:(\d+): )?(\d+ p\d .*)", line, number, row)
    if not found or not found[2].endswith(row.told) or (row.places and int(found[1]) not in row.places):
        return False
    steps = search.steps(number)
    return found[2] in search.replayed(steps) and found[2] not in search.replayed(steps[:-1])


def shows_together(search, line, number, row):
    """Whether this line is found while that task is inside, and the last event of the steps tells it."""
    found = search.matched(rf"{search.name}\.src:{row.place}: (\d+ .*): while (.*)", line, number, row)
    if not found or not found[1].endswith(row.told) or found[2] != row.inside:
        return False
    steps = search.steps(number)
    return found[1] in search.replayed(steps) and found[1] not in search.replayed(steps[:-1])


def shows_deadlock(search, line, number, row):
    """Whether this deadlock is found, and no processor does anything after its steps."""
    found = search.matched(r"deadlock of (.*)", line, number, row)
    if not found or (row.of and found[1] != row.of):
        return False
    steps = search.steps(number)
    runs = [f"run {p + 1}" for p in range(search.processors())]
    return search.replayed(steps + runs) == search.replayed(steps)


def shows_endless(search, line, number, row):
    """Whether this body is found, and its processor tells nothing more in many further steps."""
    place, processor = row.place, row.processor
    pattern = rf"{search.name}\.src:{place}: processor {processor} goes on for ever without a call"
    if not search.matched(pattern, line, number, row):
        return False
    steps = search.steps(number)
    return search.replayed(steps + 100 * [f"run {processor}"]) == search.replayed(steps)


def shows_stuck(search, line, number, row):
    """Whether this task is found, and does nothing in many further events of those that may come."""
    pattern = rf"{search.name}\.src:{row.place}: (.*), and can never go on though others run"
    found = search.matched(pattern, line, number, row)
    if not found or found[1] != row.told:
        return False
    events = search.events()
    further = random.Random(row.told).choices(events, k=FURTHER)
    steps, task = search.steps(number), row.told.split()[0]
    told = search.replayed(steps + further)[len(search.replayed(steps)) :]
    return len(told) > 0 and not any(re.match(rf"\d+ p\d {task} ", line) for line in told)


SHOWS = {
    Line: shows_line,
    Together: shows_together,
    Deadlock: shows_deadlock,
    Endless: shows_endless,
    Stuck: shows_stuck,
}


def numbers_of(text):
    """The states, events and depth that are printed."""
    found = re.search(r"^(\d+) states?, (\d+) events?, (\d+) deep$", text, re.MULTILINE)
    return tuple(map(int, found.groups())) if found else ()


def shows_all(search, text, rows, numbers):
    """Whether these are found and no others; whether the claim follows them just where none speaks against it; and
    whether it is said just then, and where no task is found that can never go on, that there was none."""
    lines = text.splitlines()
    findings = [line for line in lines if re.search(r": after \d+ steps?, in found\.\d+$", line)]
    holds = all(isinstance(row, (Endless, Stuck)) for row in rows)
    ending = [search.claim()] if holds else []
    ending += [UNSTUCK] if holds and not any(isinstance(row, Stuck) for row in rows) else []
    told = [line for line in lines if line == UNSTUCK or ": over all lists of events" in line]
    return (
        lines[: len(rows) + len(ending)] == findings + ending and told == ending and len(findings) == len(rows)
        and not (search.folder / f"found.{len(rows) + 1}").exists()
        and numbers_of(text)[:len(numbers)] == numbers
        and all(SHOWS[type(row)](search, line, number, row)
                for number, (line, row) in enumerate(zip(findings, rows), 1)))


def shows_nothing(search, text, row):
    """Whether it is said that nothing is found, in as many states and events, and these calls are never made."""
    unmade = re.findall(rf"^call never made: {search.name}\.src:(\d+):\d+$", text, re.MULTILINE)
    answers = re.findall(rf"^answers at {search.name}\.src:(\d+):\d+: (.*)$", text, re.MULTILINE)
    return (shows_all(search, text, (), row.numbers) and numbers_of(text) != ()
            and (not row.unmade or tuple(dict.fromkeys(map(int, unmade))) == row.unmade)
            and tuple((int(line), codes) for line, codes in answers) == row.answers)


def shows_most(text, row):
    """Whether the search stopped, and no field has more values than this one."""
    rows = re.findall(r"^(\d+) values: (.*)$", text, re.MULTILINE)
    most = bool(rows) and max(rows, key=lambda it: int(it[0]))[1] == row.field
    return text.startswith("stopped") and (most or not row.field)


def is_shown(search, answer, row):
    """Whether a search answers this row."""
    status, text = answer
    match row:
        case Nothing():
            return status == 0 and shows_nothing(search, text, row)
        case Stopped():
            return status == 5 and shows_most(text, row)
        case Several():
            return status == 4 and shows_all(search, text, row.rows, row.numbers)
        case _:
            return status == 4 and shows_all(search, text, (row,), ())


def try_row(tally, programs, name, options, row):
    """Searches a system, and counts whether it answers its row."""
    with tempfile.TemporaryDirectory() as folder:
        search = Search(*programs, folder, name, options)
        answer = search.explored()
        shown = "shown" if is_shown(search, answer, row) else f"status {answer[0]}, {answer[1][:300]!r}"
        tally.verdict(f"{' '.join((name, *options))}: {row}", "shown", shown)


def within(kilobytes):
    """What is set in a process that may have this much memory."""
    return lambda: resource.setrlimit(resource.RLIMIT_AS, (kilobytes << 10, kilobytes << 10))


def kind_of(search, status, text, said):
    """What a search came to whose memory may have run out, by all that it ends with."""
    lines = text.splitlines()
    if status == 3 and not text and said == "memory\n":
        return "memory"
    if status == 5 and lines[0] == "stopped: out of memory":
        return "stopped"
    if status == 5 and lines[:2] == [search.claim(), "stuck tasks were not looked for: out of memory"]:
        return "not looked for"
    if status == 4 and shows_all(search, text, (UNSERVED,), ()):
        return "found"
    return f"status {status}, {text[:300]!r}, {said[:100]!r}"


def least_memory(view):
    """With how many kilobytes at least the system starts the program."""
    choices = range(2_000, MEMORY[-1])

    def starts(kilobytes):
        done = subprocess.run([view, "--version"], capture_output=True, check=False, preexec_fn=within(kilobytes))
        return done.returncode in (0, 3)  # its own: without memory for itself it ends by a signal, or with 127

    return choices[bisect.bisect_left(choices, True, key=starts)]


def try_memory(tally, programs):
    """Searches a system in which a task is stuck with less and less memory, and counts whether each search tells that
    task, or that it looked for none, or that it stopped, in this order."""
    kinds = []
    with tempfile.TemporaryDirectory() as folder:
        search = Search(*programs, folder, "rwnever", ())
        for kilobytes in (*MEMORY, least_memory(search.view)):
            done = subprocess.run(search.words(), cwd=folder, capture_output=True, text=True, check=False,
                                  timeout=SECONDS, preexec_fn=within(kilobytes))
            said = done.stderr.splitlines(keepends=True)
            kinds.append(kind_of(search, done.returncode, unmarked(done.stdout), said[-1] if said else ""))
    order = [kind for kind, _ in itertools.groupby(kinds)]
    tally.verdict("rwnever, with less and less memory", ["found", "not looked for", "stopped"], order[:3])
    tally.verdict("rwnever, with least memory", [], [kind for kind in order[3:] if kind not in ("stopped", "memory")])


def seen_with(programs, name, options, jobs):
    """All that a search with this many jobs ends with, prints, tells on standard error and writes."""
    with tempfile.TemporaryDirectory() as folder:
        search = Search(*programs, folder, name, (*options, "--all", "--jobs", jobs))
        done = subprocess.run(search.words(), cwd=folder, capture_output=True, text=True, check=False, timeout=SECONDS)
        steps = [path.read_text() for path in sorted(search.folder.glob("found.*"))]
        return done.returncode, done.stdout, done.stderr, steps


def try_jobs(tally, programs):
    """Searches systems of many states with several jobs, and counts whether each answer is that with one."""
    for name, options in JOBS:
        one = seen_with(programs, name, options, "1")
        for jobs in ("2", "3", "4"):
            same = "the same" if seen_with(programs, name, options, jobs) == one else "another answer"
            tally.verdict(f"{name} with {jobs} jobs", "the same", same)


def main():
    parser = argparse.ArgumentParser(description="Searches all schedules of systems, and replays what is found.")
    parser.add_argument("view", metavar="VIEW", nargs="?", help="crates/fmp_view/out/fmp_view")
    parser.add_argument("program", metavar="PROGRAM", nargs="?", help="crates/fmp/out/fmp")
    words = parser.parse_args()
    programs = located("fmp_view", words.view), located("fmp", words.program)
    tally = Tally()
    for name, options, row in ROWS:
        try_row(tally, programs, name, options, row)
    try_memory(tally, programs)
    try_jobs(tally, programs)
    print(f"checks/schedules/schedules.py: {tally}")
    return tally.status


if __name__ == "__main__":
    sys.exit(main())
