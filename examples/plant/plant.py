#!/usr/bin/env python3
"""A motor with an encoder, held at its speed by the controller of controller.cfg and controller.src, which runs in a
session of `fmp_view step --json`.

    plant.py [TICKS [VIEW]]

It runs 200 ticks where no number is given. VIEW is the program `fmp_view`, or where it is. All numbers are whole, so
that a run prints the same everywhere.
"""

import json
import subprocess
import sys
from pathlib import Path

HERE = Path(__file__).resolve().parent


class Session:
    """The controller, in a session of its own: each line has one answer."""

    def __init__(self, view):
        words = [view, "step", "--json", HERE / "controller.cfg", HERE / "controller.src"]
        self.program = subprocess.Popen(words, stdin=subprocess.PIPE, stdout=subprocess.PIPE, text=True)
        self.answer()  # setup

    def answer(self):
        """The records of the next answer."""
        answer = json.loads(self.program.stdout.readline())
        if "error" in answer:
            sys.exit(answer["error"])
        return answer["records"]

    def ask(self, line):
        """The records that a line answers."""
        self.program.stdin.write(line + "\n")
        self.program.stdin.flush()
        return self.answer()


class Motor:
    """A motor: its speed follows the duty, and an encoder tells each mark that it passes."""

    def __init__(self):
        self.duty = 0  # 0 to 1000
        self.speed = 0  # in thousandths of a mark a tick: at last that of the duty
        self.angle = 0  # after the last mark, in thousandths of the way to the next

    def tick(self):
        """The motor turns for a tick: how many marks it passes."""
        self.speed += (self.duty - self.speed) // 8
        marks, self.angle = divmod(self.angle + self.speed, 1000)
        return marks


def main():
    ticks = int(sys.argv[1]) if len(sys.argv) > 1 else 200
    session = Session(sys.argv[2] if len(sys.argv) > 2 else "fmp_view")
    motor = Motor()
    for tick in range(1, ticks + 1):
        for event in ["int encoder"] * motor.tick() + ["tick"]:
            session.ask(event)
            for record in session.ask("run 1 x100"):  # until the processor is idle
                if record.get("call") == "put":
                    motor.duty = record["arguments"][0]
        if tick % 10 == 0:
            print(f"tick {tick}: duty {motor.duty}, speed {motor.speed}")
    [marks] = session.ask("state MARKS")
    print(f"{marks['value']} marks")


main()
