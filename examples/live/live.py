#!/usr/bin/env python3
"""Runs a system by the clock, in a session of `fmp_view step --json`: the clock of the system ticks every N
microseconds, and each line `int N` of standard input raises an interrupt, by its number or by the body of its handler.

    live.py [--tick-us N] [--ticks K] [--view VIEW] CFG SRC

After each tick and interrupt the processors go on, in turn, until none of them does anything more or the next tick is
due. A line is printed for each printed value and each fault of a body. After K ticks, or at the end of standard input
where K is not given, it prints how often what came, and what each task waits for.
"""

import argparse
import json
import queue
import re
import subprocess
import sys
import threading
import time
from collections import Counter

ENOUGH = 100  # events of a processor in one turn, at most


class Session:
    """A system in a session of its own: each line has one answer."""

    def __init__(self, view, cfg, src):
        words = [view, "step", "--json", cfg, src]
        try:
            self.program = subprocess.Popen(words, stdin=subprocess.PIPE, stdout=subprocess.PIPE, text=True)
        except OSError as error:
            sys.exit(f"{view}: {error.strerror}")
        self.counts = Counter()
        self.tell(self.answer())  # setup
        with open(cfg, encoding="utf-8", errors="replace") as text:
            read = re.sub(r"/\*.*?\*/|//[^\n]*", "", text.read(), flags=re.S)  # what is no comment
        self.processors = int(re.search(r"NUM_PRC\s*\(\s*(\w+)", read).group(1), 0)

    def answer(self):
        """The records of the next answer; none of a line that failed."""
        line = self.program.stdout.readline()
        if not line:
            sys.exit("the session has ended")
        answer = json.loads(line)
        if "sentence" in answer:  # a text has a fault
            sys.exit("{file}:{line}:{column}: {code}: {sentence}".format(**answer))
        if "error" in answer:
            print(answer["error"], file=sys.stderr)
        return answer.get("records", [])

    def ask(self, line):
        """The records that a line answers."""
        self.program.stdin.write(line + "\n")
        self.program.stdin.flush()
        return self.answer()

    def tell(self, records):
        """Counts what happened, prints values and faults, and says whether anything happened."""
        happened = [record for record in records if "event" in record]
        for record in happened:
            self.counts[record["what"]] += 1
            if record.get("call") == "put":
                print(f"{record['actor']} prints {record['arguments'][0]}", flush=True)
            if record["what"] == "fault":
                print(f"{record['actor']} stops: {record['fault']}", flush=True)
        return bool(happened)

    def take(self, event, due):
        """An event comes, and all processors go on until they are idle, or the next tick is due."""
        self.tell(self.ask(event))
        goes_on = True
        while goes_on:
            turns = [self.tell(self.ask(f"run {number} x{ENOUGH}")) for number in range(1, self.processors + 1)]
            goes_on = any(turns) and time.monotonic() < due


def read_lines(lines):
    """Passes on the lines of standard input, and none after the last one."""
    for line in sys.stdin:
        lines.put(line.strip())
    lines.put(None)


def lines_until(lines, due):
    """The lines that come before a tick is due, each when it comes; none after the last one."""
    while True:
        try:
            yield lines.get(timeout=max(0.0, due - time.monotonic()))
        except queue.Empty:
            return


def run(session, lines, period, most):
    """Runs a session by the clock, for N ticks or up to the end of the lines: how many ticks there were."""
    due = time.monotonic() + period
    session.take("state", due)  # what setup has activated goes on
    ticks = 0
    while ticks != most:
        for line in lines_until(lines, due):
            if line is None and most is None:
                return ticks
            if line:
                session.take(line, due)
        due = max(due, time.monotonic()) + period
        session.take("tick", due)
        ticks += 1
    return ticks


def main():
    words = argparse.ArgumentParser(description="Runs a system by the clock.")
    words.add_argument("--tick-us", type=int, default=10_000, help="microseconds from tick to tick [10000]")
    words.add_argument("--ticks", type=int, help="how many ticks; without it up to the end of standard input")
    words.add_argument("--view", default="fmp_view", help="the program fmp_view, or where it is")
    words.add_argument("cfg", metavar="CFG")
    words.add_argument("src", metavar="SRC")
    asked = words.parse_args()
    session = Session(asked.view, asked.cfg, asked.src)
    lines = queue.Queue()
    threading.Thread(target=read_lines, args=(lines,), daemon=True).start()
    ticks = run(session, lines, asked.tick_us / 1e6, asked.ticks)
    counts = session.counts
    print(f"{ticks} ticks, {counts['interrupt']} interrupts, {counts['call']} calls, {counts['fault']} faults")
    for record in session.ask("why"):
        print(record["text"], end="")


main()
