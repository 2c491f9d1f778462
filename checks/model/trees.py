#!/usr/bin/env python3
"""Compares the search of all schedules with all lists of events, one by one, on random systems of which they end.

    checks/model/trees.py [COUNT [SEED]] [--view PATH]

A session of `fmp_view step --json` goes through them, an event forward or back, and knows of no state that two of them
reach. So `fmp_view explore` must find the faults, deadlocks and stuck tasks that come, the first after as few steps, or
nothing; and with `--all` say what each call was ever answered, which calls were never made, which tasks never ran, and
how full the objects ever were. The steps to a stuck task are followed, and whatever comes after them it does nothing.
The bodies nest what those of the other scripts do not. Ticks come at any time or where nobody can do anything, few
interrupts come, or some ticks apart, and some tasks may rest. COUNT is the number of systems that were compared: those
of more than MOST nodes are left out.
"""

import json
import re
import subprocess
import sys
from collections import Counter
from dataclasses import dataclass, field
from pathlib import Path
from random import Random

sys.dont_write_bytecode = True  # the folders of the checks stay as they are
sys.path[0] = str(Path(__file__).resolve().parents[1])  # the folder `checks`, whose folders are packages

from model.harness import SECONDS, expect, main  # noqa: E402
from model.nested import INTERRUPT, OBJECTS, PUTS_FOR_EVER, Nested  # noqa: E402

MOST, DEEPEST = 3_000, 150
CODES = "E_CTX", "E_ID", "E_ILUSE", "E_OBJ", "E_PAR", "E_QOVR", "E_RLWAI", "E_TMOUT"
GREATEST = "greatest_count", "greatest_length"


class TooMany(Exception):
    """There are too many lists of events."""


class Session:
    """A session, which answers each line by one."""

    def __init__(self, trial):
        words = [trial.programs["fmp_view"], "step", "system.cfg", "system.src", "--json"]
        self.process = subprocess.Popen(words, cwd=trial.folder, stdin=subprocess.PIPE, stdout=subprocess.PIPE)
        self.setup = self.answer()

    def answer(self):
        answer = json.loads(self.process.stdout.readline())
        expect("records" in answer, f"a session says {answer}")
        return answer["records"]

    def say(self, line):
        self.process.stdin.write(f"{line}\n".encode())
        self.process.stdin.flush()
        return self.answer()

    def end(self):
        self.process.stdin.close()
        self.process.wait()
        self.process.stdout.close()


@dataclass(frozen=True)
class Asked:
    """What is asked of a system."""

    processor_count: int
    rest: frozenset  # tasks by name
    idle_ticks: bool
    interrupts: int | None  # how many may come; None where there are none
    gap: int  # ticks between two interrupts

    @property
    def options(self):
        words = [word for name in sorted(self.rest) for word in ("--rest", name)]
        words += ["--ticks", "idle"] if self.idle_ticks else []
        words += ["--ints", str(self.interrupts)] if self.interrupts is not None else []
        return words + (["--gap", f"{INTERRUPT}:{self.gap}"] if self.gap else [])


def asked(nested, chosen):
    interrupts = chosen.choice((0, 1, 1, 2)) if nested.has_interrupt else None
    gap = chosen.choice((0, 0, 1, 2)) if nested.has_interrupt else 0
    rest = frozenset(name for name in nested.names if chosen.random() < 0.35)
    return Asked(nested.processor_count, rest, chosen.random() < 0.5, interrupts, gap)


@dataclass
class Place:
    """Where a list of events has led to: how many they are, the last call of each actor, and what of the limits of
    interrupts is left."""

    depth: int = 0
    calls: dict = field(default_factory=dict)
    interrupts: int = 0
    wait: int = 0  # ticks until an interrupt may come

    def after(self, event):
        interrupts = self.interrupts - (event == f"int {INTERRUPT}")
        wait = max(0, self.wait - 1) if event == "tick" else self.wait
        return Place(self.depth + 1, dict(self.calls), interrupts, wait)


class Tree:
    """All lists of events of a system, and what came in them."""

    def __init__(self, session, question):
        self.session, self.question = session, question
        self.nodes = 0
        self.answers, self.ran = {}, set()  # by the position of the call; tasks
        self.greatest = Counter()  # counts of semaphores, lengths of queues and mailboxes
        self.codes, self.faults, self.deadlocks, self.stuck = {}, {}, {}, {}  # each with the least number of events

    def grow(self):
        start = Place(interrupts=self.question.interrupts or 0)
        self.hear(self.session.setup, start)
        self.visit(start)
        return self

    def note(self, found, what, depth):
        found[what] = min(depth, found.get(what, depth))

    def hear(self, records, place):
        """What an event tells. The actors to which something happens."""
        acted = set()
        for record in records:
            what, actor = record["what"], record.get("actor")
            if what == "call":
                place.calls[actor] = record["line"], record["column"]
                self.answers.setdefault(place.calls[actor], set())
                if (record["call"], record["reply"]) == ("ter_tsk", "E_OK"):
                    acted.add(record["names"][0])
            if what in ("call", "gets") and record["reply"]:
                self.answers[place.calls[actor]].add(record["reply"])
                self.note(self.codes, record["reply"], place.depth)
            if what == "fault":
                self.note(self.faults, record["fault"], place.depth)
            if what == "runs":
                self.ran.add(actor)
            elif actor:
                acted.add(actor)
        return acted

    def follow(self, event, place, records):
        """The actors to which something happens at an event that was done, or after it."""
        after = place.after(event)
        if event.startswith("int"):
            after.wait = self.question.gap
        acted = self.hear(records, after) | self.visit(after)
        self.session.say("back")
        return acted

    def run(self, number, place):
        """What follows where a processor goes on, or None where it does not."""
        records = self.session.say(f"run {number}")
        if records[0]["what"] == "nothing":
            return None
        if len(records) == 1 and records[0].get("actor") == PUTS_FOR_EVER:
            self.hear(records, place.after("run"))
            self.session.say("back")
            return set()
        return self.follow(f"run {number}", place, records)

    def interrupt(self, place):
        event = f"int {INTERRUPT}"
        if place.interrupts == 0 or place.wait > 0:
            return set()
        records = self.session.say(event)
        return set() if records[0]["what"] == "nothing" else self.follow(event, place, records)

    def visit(self, place):
        """All that follows. The actors to which something happens then."""
        self.nodes += 1
        if self.nodes > MOST or place.depth > DEEPEST:
            raise TooMany
        states = self.session.say("state")
        for name in OBJECTS:
            self.greatest[name] = max(self.greatest[name], self.session.say(f"state {name}")[0]["value"])
        runs = [self.run(number, place) for number in range(1, self.question.processor_count + 1)]
        is_idle = all(acted is None for acted in runs)
        acted = set().union(*filter(None, runs), self.interrupt(place))
        is_timed = any("until tick" in state["waits"] for state in states)
        counts = is_timed or place.interrupts > 0 and place.wait > 0
        if counts and (is_idle or not self.question.idle_ticks):
            acted |= self.follow("tick", place, self.session.say("tick"))
        alive = {state["task"] for state in states if state["state"] != "DORMANT"} - self.question.rest
        if alive and is_idle and not is_timed and place.interrupts == 0:
            self.note(self.deadlocks, "deadlock", place.depth)
        for task in alive - acted - {PUTS_FOR_EVER}:
            self.note(self.stuck, task, place.depth)
        return acted


def explored(trial, question, *words):
    """The status of a search, what it finds and says, by what it is."""
    words = ["explore", "system.cfg", "system.src", "--json", *question.options, *words]
    done = subprocess.run([trial.programs["fmp_view"], *words], cwd=trial.folder, capture_output=True, text=True,
                          check=False, timeout=SECONDS)
    told = {}
    for line in map(json.loads, done.stdout.splitlines()):
        told.setdefault(line.get("kind", line.get("what", "refused")), []).append(line)
    return done.returncode, told


def least(told, kind):
    return min((finding["steps"] for finding in told.get(kind, ())), default=None)


def name_of(finding):
    return re.search(rf"\b(T\d|{PUTS_FOR_EVER})\b", finding["text"]).group(1)


def follow_stuck(trial, question, finding):
    """Whatever follows the steps of a finding, its task does nothing."""
    tree = Tree(Session(trial), question)
    place = Place(interrupts=question.interrupts or 0)
    tree.hear(tree.session.setup, place)
    for event in trial.read(finding["in"]).splitlines():
        tree.hear(tree.session.say(event), place := place.after(event))
        if event.startswith("int"):
            place.wait = question.gap
    acted = tree.visit(place)
    tree.session.end()
    expect(name_of(finding) not in acted, f"it goes on: {finding['text']}")


def compare_whole(trial, names, question, tree):
    """A search that goes on after findings, beside the tree."""
    _, told = explored(trial, question, "--all", "--answers")
    answers = {(line["line"], line["column"]): set(line["answers"]) for line in told.get("answers", ())}
    never_made = {(line["line"], line["column"]) for line in told.get("never_made", ())}
    expect(answers == tree.answers, f"the answers are {answers}, not {tree.answers}")
    expect(not never_made & set(answers), f"these calls are made: {never_made & set(answers)}")
    never_run = {line["name"] for line in told.get("never_run", ())}
    expect(never_run == names - tree.ran, f"it is said that {never_run} never run, not {names - tree.ran}")
    greatest = {line["name"]: line["value"] for kind in GREATEST for line in told.get(kind, ())}
    expect(greatest == tree.greatest, f"the greatest are {greatest}, not {tree.greatest}")
    for kind, found in (("fault", tree.faults), ("deadlock", tree.deadlocks)):
        expect(least(told, kind) == min(found.values(), default=None), f"{kind}: {told.get(kind)}, not {found}")
    stuck = {name_of(finding) for finding in told.get("stuck", ())}
    deadlocked = {name for finding in told.get("deadlock", ()) for name in re.findall(r"T\d", finding["text"])}
    expect(stuck <= set(tree.stuck) <= stuck | deadlocked, f"{stuck} are stuck, not {tree.stuck}")
    for finding in told.get("stuck", ()):
        follow_stuck(trial, question, finding)


def compare_first(trial, question, tree, code):
    """A search that stops at its first finding, beside the tree. What it found."""
    status, told = explored(trial, question, "--never", code)
    steps = [found[what] for found, what in ((tree.codes, code), (tree.deadlocks, "deadlock")) if what in found]
    wanted = min([*steps, *tree.faults.values()], default=None)
    found = [least(told, kind) for kind in ("never", "fault", "deadlock") if kind in told]
    expect(found == ([] if wanted is None else [wanted]), f"{code}: a finding after {found} steps, not {wanted}")
    if not found:
        expect(("stuck" in told) == bool(tree.stuck), f"{told.get('stuck')} are stuck, not {tree.stuck}")
    expect(status == (4 if found or "stuck" in told else 0), f"its status is {status}")
    return next((kind for kind in ("never", "fault", "deadlock", "stuck") if kind in told), "nothing")


def tree_of(trial, question):
    """The tree of a system, or None where it is too great."""
    session = Session(trial)
    try:
        return Tree(session, question).grow()
    except TooMany:
        return None
    finally:
        session.end()


def check(trial):
    """Takes systems until as many as are asked for were compared."""
    count, seed, nodes, found = 0, trial.seed, 0, Counter()
    while count < trial.count:
        trial.at, nested, chosen = f"seed {seed}: ", Nested(seed), Random(f"trees {seed}")
        configuration, source = nested.texts()
        trial.write("system.cfg", configuration)
        trial.write("system.src", source)
        question = asked(nested, chosen)
        tree = tree_of(trial, question)
        if tree is not None:
            names = {*nested.names, *((PUTS_FOR_EVER,) if nested.puts_for_ever else ())}
            compare_whole(trial, names, question, tree)
            found[compare_first(trial, question, tree, chosen.choice(CODES))] += 1
            count, nodes = count + 1, nodes + tree.nodes
        seed += 1
    kinds = ", ".join(f"{kind} {times}" for kind, times in sorted(found.items()))
    print(f"checks/model/trees.py: {count} systems, {nodes} lists of events: the search finds as much ({kinds})")


if __name__ == "__main__":
    sys.exit(main("Compares searches with all lists of events.", 300, ("fmp_view",), check))
