#!/usr/bin/env python3
"""Compares what the program makes of changed images with a reader of images that shares nothing with it.

    checks/images/images.py [--program PATH] [--seed SEED] [--samples COUNT] [--least]

takes two images: that of the smallest system of one task, and one with an array and a row in each table, whose fields
stand at their limits. Each is cut to every length, gets one byte more, and has every byte set to every value, the first
in all versions; then come COUNT samples (5000) of two changed bytes of each, and as many of bytes changed, cut out and
put in at random. Before them come the images of image_limits.py: rows, names, instructions, arrays, versions, calls and
sizes at their limits and past them. For each,
`fmp sim` over no steps must answer the first fault that image_format.py finds, status and text, or print what the
tables imply: the lines of setup and the states. Where one task alone has started, so must its first runs, up to a
call that is not `put`. And the tables that were read must spell the same bytes again. With --least only the bytes of
the first image are set.

It prints how many were compared and what they answered. At the first difference it prints the image and both
answers, and its status is 1.

It wants the program as `rt run` leaves it in crates/fmp/out, or at PATH.
"""

import argparse
import random
import sys
import tempfile
import time
from collections import Counter
from concurrent.futures import ProcessPoolExecutor
from functools import partial
from itertools import islice
from pathlib import Path

sys.dont_write_bytecode = True  # the folders of the checks stay as they are
sys.path[0] = str(Path(__file__).resolve().parents[1])  # the folder `checks`, whose folders are packages

from common.program import Program, located  # noqa: E402
from images.image_format import Fault, read, spell  # noqa: E402
from images.image_limits import all_limits  # noqa: E402
from images.image_runs import lone_task_lines, setup_lines, started_tasks, state_lines, text  # noqa: E402
from images.image_samples import FILLED, FILLED_CONFIGURATION, FILLED_SOURCE, OLDER, ONE_TASK  # noqa: E402
from images.image_samples import ONE_TASK_CONFIGURATION, ONE_TASK_SOURCE  # noqa: E402

PROCESSES = 2
BATCH, AT_ONCE = 500, 20  # images that a process is given, and those that it runs at once
RUNS, BOUND = 4, 1000
# The values that a random change takes more often than others.
USUAL = (0, 1, 2, 3, 4, 7, 8, 9, 15, 16, 17, 31, 32, 33, 63, 64, 65, 127, 128, 254, 255)


# Images: each with what was done to which

def cuts_and_longer(name, data):
    for length in range(len(data)):
        yield f"{name}: cut to {length} bytes", data[:length]
    for value in range(256):
        yield f"{name}: byte {value} added", data + bytes([value])


def with_byte(data, place, value):
    return data[:place] + bytes([value]) + data[place + 1:]


def single_changes(name, data):
    for place in range(len(data)):
        for value in range(256):
            yield f"{name}: byte {place} set to {value}", with_byte(data, place, value)


def some_value(chance):
    return chance.choice(USUAL) if chance.random() < 0.5 else chance.randrange(256)


def pairs(name, data, seed, count):
    chance = random.Random(f"{seed} {name}")
    for _ in range(count):
        first, second = sorted(chance.sample(range(len(data)), 2))
        one, two = some_value(chance), some_value(chance)
        yield f"{name}: byte {first} set to {one}, byte {second} to {two}", with_byte(
            with_byte(data, first, one), second, two)


def edited(data, chance):
    """One edit, and the bytes after it."""
    place = chance.randrange(len(data) + 1)
    length = chance.choice((1, 1, 2, 3, 4, 6))
    match chance.randrange(4):
        case 0:
            return f"{length} bytes cut out at {place}", data[:place] + data[place + length:]
        case 1:
            new = bytes(some_value(chance) for _ in range(length))
            return f"{new.hex()} put in at {place}", data[:place] + new + data[place:]
        case 2:
            other = chance.randrange(len(data) + 1)
            part = data[other:other + length]
            return f"{part.hex()} written at {place}", data[:place] + part + data[place + length:]
    value = some_value(chance)
    return f"byte {place} set to {value}", with_byte(data, place, value) if place < len(data) else data


def random_edits(name, data, seed, count):
    chance = random.Random(f"{seed} {name} edits")
    for _ in range(count):
        edits, changed = [], data
        for _ in range(chance.randint(1, 3)):
            edit, changed = edited(changed, chance)
            edits.append(edit)
        yield f"{name}: {', then '.join(edits)}", changed


def groups(seed, samples):
    """The kinds of changes with the images of each."""
    yield "limits", all_limits()
    for version, data in OLDER.items():
        name = f"one task of version {version}"
        yield f"{name}, at most one byte", single_changes(name, data)
    for name, data in (("one task", ONE_TASK), ("filled", FILLED)):
        yield f"{name}, cut or longer", cuts_and_longer(name, data)
        yield f"{name}, at most one byte", single_changes(name, data)
        yield f"{name}, two bytes", pairs(name, data, seed, samples)
        yield f"{name}, random edits", random_edits(name, data, seed, samples)


# What an image must answer

def answer_of(data):
    """The first fault with what `sim` answers, or the tables with that."""
    try:
        image = read(data)
    except Fault as fault:
        return str(fault), None, (1, "", f"image: {fault}\n")
    return "loads", image, (0, text(setup_lines(image) + state_lines(image)), "")


def differs(expected, printed):
    return f"expected: {expected}\nprinted:  {printed}"


def setup_difference(case, printed):
    """How the tables that were read, or what was printed over no steps, differ from what they must be."""
    _, data, _, image, expected = case
    if image is not None and spell(image) != data:
        return f"the tables that were read spell {spell(image).hex()}"
    return None if printed == expected else f"over no steps\n{differs(expected, printed)}"


def run_difference(case, printed):
    """How what was printed over some runs of the one task that has started differs from what it must be."""
    image = case[3]
    lines, has_ended, is_all = lone_task_lines(image, RUNS, BOUND)
    expected = text(setup_lines(image) + lines)
    if is_all:
        expected += text(state_lines(image, has_ended))
        same = printed == (0, expected, "")
    else:
        same = printed[0] == 0 and printed[1].startswith(expected)
    return None if same else f"over {RUNS} runs of the task\n{differs(expected, printed)}"


def steps_of(image):
    """Runs of the one task that has started, if it is one."""
    started = started_tasks(image) if image is not None else []
    return f"run {started[0]['processor']}\n".encode() * RUNS if len(started) == 1 else None


def compare_some(program, cases):
    """The first difference of some images."""
    printed = list(program.sims([(case[1], b"") for case in cases]))
    runs = [(case, steps) for case in cases if (steps := steps_of(case[3])) is not None]
    printed_runs = list(program.sims([(case[1], steps) for case, steps in runs], BOUND))
    pairs = [(case, setup_difference(case, answer)) for case, answer in zip(cases, printed, strict=True)]
    pairs += [(case, run_difference(case, answer)) for (case, _), answer in zip(runs, printed_runs, strict=True)]
    return next((f"{case[0]}\n{case[1].hex()}\n{found}" for case, found in pairs if found is not None), None)


def compare_batch(path, batch):
    """How often each answer came up, and the first difference with its image."""
    answers = Counter()
    with tempfile.TemporaryDirectory(prefix="fmp-images-") as folder:
        program = Program(path, folder)
        for some in parts(batch, AT_ONCE):
            cases = [(name, data, *answer_of(data)) for name, data in some]
            found = compare_some(program, cases)
            if found is not None:
                return answers, found
            answers.update(case[2] for case in cases)
    return answers, None


def parts(images, size):
    """This many at a time."""
    images = iter(images)
    while part := list(islice(images, size)):
        yield part


def compare_group(pool, path, images):
    """How often each answer came up in all images; ends the check at the first difference."""
    answers = Counter()
    for counted, found in pool.map(partial(compare_batch, path), parts(images, BATCH)):
        answers += counted
        if found is not None:
            pool.shutdown(cancel_futures=True)
            sys.exit(f"the program and the format differ: {found}")
    return answers


def compare_built(path):
    """Building the texts of both images must give their bytes."""
    texts = ((ONE_TASK_CONFIGURATION, ONE_TASK_SOURCE, ONE_TASK), (FILLED_CONFIGURATION, FILLED_SOURCE, FILLED))
    with tempfile.TemporaryDirectory(prefix="fmp-images-") as folder:
        for configuration, source, expected in texts:
            answer, image = Program(path, folder).build(configuration.encode(), source.encode())
            if answer != (0, f"ok {len(expected)}\n", "") or image != expected:
                sys.exit(f"a build differs\n{source}\n{differs(expected.hex(), image and image.hex())}\n{answer}")


def main():
    parser = argparse.ArgumentParser(description="Compares what the program makes of changed images with the format.")
    parser.add_argument("--program", metavar="PATH", type=Path, help="the program to compare")
    parser.add_argument("--seed", type=int, default=1, help="the seed of the samples (1)")
    parser.add_argument("--samples", metavar="COUNT", type=int, default=5000, help="samples of each kind (5000)")
    parser.add_argument("--least", action="store_true", help="only the image of one task, with one byte changed")
    options = parser.parse_args()
    path = located("fmp", options.program)
    began, total = time.monotonic(), Counter()
    compare_built(path)
    with ProcessPoolExecutor(PROCESSES) as pool:
        kinds = [("one task, at most one byte", single_changes("one task", ONE_TASK))]
        for name, images in kinds if options.least else groups(options.seed, options.samples):
            answers = compare_group(pool, path, images)
            total += answers
            counted = ", ".join(f"{kind} {answers[kind]}" for kind in sorted(answers))
            print(f"{name}: {answers.total()} images: {counted}", flush=True)
    print(f"{total.total()} images: the program and the format agree ({time.monotonic() - began:.0f} s)")
    return 0


if __name__ == "__main__":
    sys.exit(main())
