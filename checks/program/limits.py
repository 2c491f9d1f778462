#!/usr/bin/env python3
"""Tries the program at every limit of its languages, its calls and its commands, and one past it.

    checks/program/limits.py [--program PATH]

checks the texts of limit_texts.py, runs the systems of limit_runs.py and gives the command line numbers at the ends of
their ranges. Every expected answer stands there, worked out by hand from the rules.

It prints how many answers were compared; each that differs it prints before that, and its status is then 1.

It wants the program as `rt run` leaves it in crates/fmp/out, or at PATH.
"""

import argparse
import sys
import tempfile
import time
from pathlib import Path

sys.dont_write_bytecode = True  # the folders of the checks stay as they are
sys.path[0] = str(Path(__file__).resolve().parents[1])  # the folder `checks`, whose folders are packages

from common.program import Program, located  # noqa: E402
from common.tally import Tally  # noqa: E402
from program.limit_runs import all_runs, all_steps, BOUNDS  # noqa: E402
from program.limit_texts import all_texts  # noqa: E402

def refused(fault):
    return 1, "", f"{fault}\n"


def texts(program):
    """What a check of each text answers, and what it must."""
    for text in all_texts():
        expected = (0, "ok\n", "") if text.expected == "ok" else refused(text.expected)
        yield text.name, program.check(text.configuration.encode(), text.source.encode()), expected


def built(program, configuration, source):
    """The image of two texts that must build, and what the build answered."""
    answer, image = program.build(configuration.encode(), source.encode())
    return answer, image or b""


def runs(program):
    """What each system prints, and what it must."""
    for run in all_runs():
        answer, image = built(program, run.configuration, run.source)
        yield f"{run.name}: build", answer, (0, f"ok {len(image)}\n", "")
        yield run.name, program.sim(image, run.steps.encode(), run.bound), (0, run.expected, "")


def steps(program):
    """What the steps of a system without tasks answer, and what they must."""
    for name, processors, text, expected in all_steps():
        _, image = built(program, f"NUM_PRC({processors});", "")
        answer = program.sim(image, text.encode())
        if expected is None:
            yield name, answer[::2], (0, "")
        else:
            yield name, answer, refused(expected)


def bounds(program):
    """The status of each bound on the command line. The texts are those of the command-line reader."""
    _, image = built(program, "NUM_PRC(1);", "")
    for bound, status in BOUNDS:
        answer = program.sim(image, b"", bound)
        yield f"--bound {bound}", (answer[0], answer[1], bool(answer[2])), (status, "", status != 0)


def main():
    parser = argparse.ArgumentParser(description="Tries the program at every limit and one past it.")
    parser.add_argument("--program", metavar="PATH", type=Path, help="the program to try")
    path = located("fmp", parser.parse_args().program)
    began, tally = time.monotonic(), Tally()
    with tempfile.TemporaryDirectory(prefix="fmp-limits-") as folder:
        program = Program(path, folder)
        for what, cases in (("texts", texts), ("runs", runs), ("steps", steps), ("bounds", bounds)):
            count, differ = tally.compare(cases(program))
            print(f"{what}: {count} answers, {differ} differ", flush=True)
    print(f"{time.monotonic() - began:.0f} s")
    return tally.status


if __name__ == "__main__":
    sys.exit(main())
