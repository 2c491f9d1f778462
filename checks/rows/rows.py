#!/usr/bin/env python3
"""Tries the program on the rows of its texts, images, steps and runs: the worked systems with what they print, each
fault of the texts, and what is changed in images.

    checks/rows/rows.py [PROGRAM]

PROGRAM is crates/fmp/out/fmp where it is not given, as `rt ci` or `rt run` leaves it. The rows stand in row_texts.py,
row_images.py and row_runs.py, and those of service calls in the files that row_calls.py puts together. Every expected
answer is worked out by hand from the rules.

It prints how many answers were compared; each that differs it prints before that, and its status is then 1.
"""

import sys
import tempfile
from pathlib import Path

sys.dont_write_bytecode = True  # the folders of the checks stay as they are
sys.path[0] = str(Path(__file__).resolve().parents[1])  # the folder `checks`, whose folders are packages

from common.program import Program, program_of_words  # noqa: E402
from common.tally import Tally  # noqa: E402
from images.image_samples import ONE_TASK  # noqa: E402
from rows.row_calls import all_calls  # noqa: E402
from rows.row_images import JUMP, LOOP, LOOP_SETUP, OUT_OF_BODY, by_version, changed, faulty_steps  # noqa: E402
from rows.row_images import kept_images, loaded_images, refused_images, sized  # noqa: E402
from rows.row_runs import ONE, SETUP, all_runs, all_values, runs  # noqa: E402
from rows.row_texts import all_texts  # noqa: E402

def printed(text):
    return 0, text.replace(" / ", "\n"), ""


def refused(fault):
    return 1, "", f"{fault}\n"


def texts(program):
    """What a check of each pair of texts answers, and what it must."""
    for configuration, source, answer in all_texts():
        name = f"{configuration[:200]} | {source[:200]}"
        expected = printed("ok\n") if answer == "ok" else refused(answer)
        yield name, program.check(configuration.encode(), source.encode()), expected


def images(program):
    """The images of texts, and what changed ones answer."""
    for configuration, source, image, size in sized():
        yield configuration, program.build(configuration.encode(), source.encode()), (printed(size), image)
    for image, fault in refused_images():
        yield f"the image {image.hex()}", program.sim(image), refused(f"image: {fault}")
    for image, events, trace in loaded_images():
        yield f"the image {image.hex()}", program.sim(image, events.encode()), printed(trace)
    for image, events, trace in kept_images():
        yield f"the image {image.hex()} at bound 1", program.sim(image, events.encode(), 1), printed(trace)
    for configuration, source, versions in by_version():
        _, image = program.build(configuration.encode(), source.encode())
        for version, (events, trace) in versions.items():
            answer = program.sim(changed(image, f"4={version}"), events.encode())
            yield f"version {version}: {source}", answer, printed(trace)
    _, image = program.build(*(text.encode() for text in LOOP))
    place, *jump = JUMP
    yield "the jump of a loop", [*image[place : place + 2]], jump
    yield "a loop", program.sim(image), printed(LOOP_SETUP)
    yield "a jump out of a body", program.sim(changed(image, OUT_OF_BODY)), refused("image: L5")


def steps(program):
    """What steps answer, and that the image is judged before them."""
    _, image = program.build(b"NUM_PRC(2);", b"")
    for text, fault in faulty_steps():
        answer = program.sim(image, text.encode())
        yield text, answer[::2] if fault is None else answer, (0, "") if fault is None else refused(fault)
    yield "no image and no steps", program.sim(b"FMPI", b"x", 1), refused("image: L1")
    yield "no steps", program.sim(ONE_TASK, b"x", 1), refused("steps:1: S1")


def traces(program):
    """What each system prints, and what it must."""
    for configuration, source, events, bound, trace in (*all_runs(), *all_calls()):
        _, image = program.build(configuration.encode(), source.encode())
        yield source, program.sim(image or b"", events.encode(), bound), printed(trace)


def values(program):
    """How the first event of a task ends that puts the value of an expression."""
    for expression, end in all_values():
        _, image = program.build(ONE.encode(), f"task main {{ put({expression}); }}".encode())
        expected = printed(f"{SETUP}1 p1 T1 {end} / ")[1]
        answer = program.sim(image or b"", runs(1).encode())[1]
        yield expression, answer[: len(expected)], expected


def main():
    path = program_of_words("Tries the program on the rows of its texts, images, steps and runs.", "fmp")
    tally = Tally()
    with tempfile.TemporaryDirectory(prefix="fmp-rows-") as folder:
        program = Program(path, folder)
        for cases in (texts, images, steps, traces, values):
            tally.compare(cases(program))
    print(f"checks/rows/rows.py: {tally}")
    return tally.status


if __name__ == "__main__":
    sys.exit(main())
