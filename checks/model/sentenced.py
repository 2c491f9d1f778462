#!/usr/bin/env python3
"""Compares the search of all schedules with a second one, where random sentences must hold of random systems.

    checks/model/sentenced.py [COUNT [SEED]] [--view PATH] [--program PATH]

As explore.py does: both find something or nothing, the shortest lists of events are as long, and the sentence that is
told is broken in the model by the last event; where nothing is found, the claim has each sentence. The text of
expectations has one to MANY of them, of all kinds but those of the end of a run: mostly such as a random run does not
break. Bodies put values of which they tell, and most have nothing in them that may stop with a fault; in most systems
each task may rest. Some interrupts have limits of their own. COUNT is the number of systems that were compared: systems
with more than MOST states are left out. Every other system runs at a small bound.
"""

import random
import re
import sys
from collections import Counter
from copy import deepcopy
from dataclasses import replace
from pathlib import Path

sys.dont_write_bytecode = True  # the folders of the checks stay as they are
sys.path[0] = str(Path(__file__).resolve().parents[1])  # the folder `checks`, whose folders are packages

from model.explore import BOUND, EXPECT, SECTIONS, compare, limits_of, with_sections  # noqa: E402
from model.harness import BOUND as GREATEST, main  # noqa: E402
from model.kernel import Kernel  # noqa: E402
from model.schedules import Question, tries_of  # noqa: E402
from model.sentences import FAULTS, Judge, Sentence, Sentences, read_all  # noqa: E402
from model.systems import Generator  # noqa: E402

MOST = 500
MANY, TRIED, EVENTS = 4, 8, 40  # sentences of a text, those of which they are chosen, and events of the random run


def without_faults(case):
    """The system without what may stop with a fault, but for sums."""
    for body in case.system.bodies:
        sure = [each for each in body.statements if not re.search(r"/|a\[", str(each))]
        body.statements = sure or body.statements
    return replace(case, source="".join(map(str, case.system.bodies)))


def ran(case, lines, chosen):
    """The judge of some sentences beside a random run."""
    kernel = Kernel(deepcopy(case.system), GREATEST)
    judge = Judge(read_all(lines, case.system), kernel)
    for event in chosen.choices(tries_of(case.system), k=EVENTS):
        kernel.step(event)
        judge.see()
    return judge


def expectations(case, chosen):
    """The lines of a text about the system of a case."""
    sentences = Sentences(chosen, case, ran(case, (), chosen).kernel.world.lines)
    tried = [sentences.sentence() for _ in range(TRIED)]
    broken = ran(case, tried, chosen).broken if chosen.random() < 0.7 else ()
    unbroken = [line for place, line in enumerate(tried) if place not in broken]
    lines = (unbroken or tried)[: chosen.randint(1, MANY)]
    resting = chosen.choice((0, 0.5, 1, 1, 1, 1))
    lines += [f"{name} rests" for name in sentences.tasks if chosen.random() < resting]
    lines += ["", "# a comment"] if chosen.random() < 0.2 else []
    chosen.shuffle(lines)
    return [f"{line}  # a comment" if line and chosen.random() < 0.1 else line for line in lines]


def asked(seed, version):
    """The system of a seed, the lines of a text about it, and what is asked with it."""
    chosen = random.Random(f"sentences {seed}")
    generator = Generator(seed, version)
    generator.processor_count = min(generator.processor_count, chosen.randint(1, 3))
    case = generator.case()
    case = with_sections(without_faults(case) if chosen.random() < 0.9 else case, chosen.sample(SECTIONS, 2), chosen)
    case.system.queue_limit = 255
    lines = expectations(case, chosen)
    question = Question(FAULTS, sentences=read_all(lines, case.system), idle_ticks=chosen.random() < 0.5,
                        interrupts=chosen.choice((None, None, 0, 1, 2)), queued=chosen.choice((None, None, 0, 1)),
                        limits=limits_of(case, chosen))
    return case, lines, question


def check(trial):
    """Takes systems of the newest version of images until as many as are asked for were compared."""
    kinds, sentences, seed = Counter(), Counter(), trial.seed
    while kinds.total() < trial.count:
        trial.at = f"seed {seed}: "
        case, lines, question = asked(seed, trial.version)
        trial.build(case.configuration, case.source)
        trial.write(EXPECT, "\n".join(lines))
        if kind := compare(trial, case, trial.bound(seed, BOUND), question, MOST):
            kinds[kind] += 1
            sentences.update(type(each).__name__ for each in question.sentences if type(each) is not Sentence)
        seed += 1
    trial.at = ""
    asked_for = ", ".join(f"{count} of {kind}" for kind, count in sentences.most_common())
    found = "; ".join(f"{count} times {kind}" for kind, count in kinds.most_common())
    print(f"checks/model/sentenced.py: {trial.count} of {seed - trial.seed} systems were compared: both searches agree")
    print(f"sentences: {asked_for}")
    print(f"found: {found}")


if __name__ == "__main__":
    sys.exit(main("Compares two searches of all schedules for random sentences.", 300, ("fmp", "fmp_view"), check))
