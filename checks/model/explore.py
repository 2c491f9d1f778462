#!/usr/bin/env python3
"""Compares the search of all schedules with a second one, over the model of the kernel, on random systems.

    checks/model/explore.py [COUNT [SEED]] [--view PATH] [--program PATH]

Both find something or nothing. Where they find something, their shortest lists of events are as long, each event of the
program's list does something in the model, and after the last one the model shows what was found. Bodies that go on for
ever end no search: both find as many. Up to what was found, or where they find nothing in all, they have seen as many
states and as many events that did something, as deep. Some ask too that the calls in a line never get an answer. Of
three systems one has sections: tasks put the values by which they enter and leave them. In one some tasks may wait
forever, so that fewer deadlocks are found first and more tasks that can never go on; of these some ask for few
interrupts, of all or of one number, for ticks between two of them or where nobody can do anything, or for few
activations and wakeups that are queued. Every other system runs at a small bound. COUNT is the number of systems that
were compared: systems with more than MOST states are left out.
"""

import random
import re
import subprocess
import sys
from collections import Counter
from copy import deepcopy
from dataclasses import replace
from pathlib import Path

sys.dont_write_bytecode = True  # the folders of the checks stay as they are
sys.path[0] = str(Path(__file__).resolve().parents[1])  # the folder `checks`, whose folders are packages

from model.bodies import Call, Statement  # noqa: E402
from model.harness import SECONDS, expect, main, replayed  # noqa: E402
from model.schedules import (  # noqa: E402
    AtMost, Gap, Question, first_lines, goes_on_for_ever, is_deadlock, searched, state_key, tells, tells_at,
)
from model.sentences import (  # noqa: E402
    FAULTS, Between, Happening, after_lines, bodies_of_interrupts, broken_in, starts,
)
from model.systems import Generator  # noqa: E402

MOST = 1_000
BOUND = 12  # the greatest small bound
NEVERS = ("E_QOVR", "E_ILUSE")
EXPECT = "system.expect"  # the text of expectations
SECTIONS = ((101, 102), (103, 104), (101, 104))  # the values by which tasks enter and leave
KINDS = ("plain", "sections", "rest")
ENDLESS = "a body that goes on for ever"
STUCK = "a task that can never go on"
NEVER_GOES_ON = r"T(\d+) .*, and can never go on though others run"


def with_puts(body, section, chosen):
    """The body with a part between the values of a section, or only one of the two."""
    statements = list(body.statements)
    for place, value in zip(sorted(chosen.choices(range(len(statements)), k=2), reverse=True), section[::-1]):
        if chosen.random() < 0.9:
            statements.insert(place, Statement(Call("put", [value])))
    return replace(body, statements=statements)


def with_sections(case, sections, chosen):
    """The system, some of whose bodies enter and leave sections."""
    bodies = case.system.bodies
    for section in sections:
        for place, body in enumerate(bodies):
            if chosen.random() < (0.2 if body.is_handler else 0.7):
                bodies[place] = with_puts(body, section, chosen)
    return replace(case, source="".join(map(str, bodies)))


def calls_of(case):
    """The calls of the task text, by the line in which each stands."""
    return {
        first + place: statement.action
        for first, body in zip(first_lines(case.system), case.system.bodies)
        for place, statement in enumerate(body.statements) if isinstance(statement.action, Call)}


def nevers_at_of(case, chosen):
    """Mostly none, else an answer that must never be given to the calls in a line."""
    numbers = sorted(calls_of(case))
    if not numbers or chosen.random() < 0.6:
        return ()
    return ((chosen.choice(("E_OK", "E_CTX", "E_ID", "E_OBJ", "E_TMOUT")), chosen.choice(numbers)),)


def limits_of(case, chosen):
    """Random limits of single interrupts, mostly none: how often one may come, and how many ticks come between two."""
    numbers = [handler.number for handler in case.system.interrupt_handlers]
    limits = [chosen.choice((AtMost, Gap))(number, chosen.randint(0, 3)) for number in numbers for _ in range(2)]
    return tuple(limit for limit in limits if chosen.random() < 0.4)


def asked(case, kind, chosen):
    """The system, and what is asked of it."""
    question = Question((*NEVERS, *FAULTS))
    if kind == "sections":
        question = replace(question, sections=tuple(chosen.sample(SECTIONS, chosen.randint(1, 2))))
        case = with_sections(case, question.sections, chosen)
    if kind == "rest":
        numbers = [task.number for task in case.system.tasks]
        rest = frozenset(chosen.sample(numbers, chosen.randint(1, len(numbers))))
        interrupts = chosen.choice((None, None, 0, 1, 2))
        question = replace(question, rest=rest, idle_ticks=chosen.random() < 0.3, interrupts=interrupts)
        question = replace(question, queued=chosen.choice((None, 0, 1, 2)), limits=limits_of(case, chosen))
    return case, replace(question, nevers_at=nevers_at_of(case, chosen))


def words_of(limit):
    """A limit of a single interrupt, as an option."""
    option, value = ("--int", limit.start) if isinstance(limit, AtMost) else ("--gap", limit.ticks)
    return option, f"{limit.number}:{value}"


def explored(trial, bound, question, most=MOST):
    """What `fmp_view explore` ends with and prints, at this many states at most."""
    words = [word for never in question.nevers if never not in FAULTS for word in ("--never", never)]
    words += [word for code, number in question.nevers_at for word in ("--never", f"{code}:{number}")]
    words += [word for enters, leaves in question.sections for word in ("--alone", f"{enters},{leaves}")]
    words += [word for number in sorted(question.rest) for word in ("--rest", f"T{number}")]
    words += ["--expect", EXPECT] if question.sentences else []
    words += ["--ticks", "idle"] if question.idle_ticks else []
    words += ["--ints", str(question.interrupts)] if question.interrupts is not None else []
    words += ["--queued", str(question.queued)] if question.queued is not None else []
    words += [word for limit in question.limits for word in words_of(limit)]
    words += ["--bound", str(bound), "--states", str(most)]
    done = subprocess.run([trial.programs["fmp_view"], "explore", "system.cfg", "system.src", *words], cwd=trial.folder,
                          capture_output=True, text=True, check=False, timeout=SECONDS)
    return done.returncode, done.stdout


def numbers_of(text):
    """The states, events and depth that are printed."""
    found = re.search(r"^(\d+) states?, (\d+) events?, (\d+) deep$", text, re.MULTILINE)
    expect(found, f"there is no count of states in {text!r}")
    return tuple(map(int, found.groups()))


def lines_of_last(kernel):
    """The lines of the last event that was done, or of setup."""
    return [line for line in kernel.world.lines if line.startswith(f"{kernel.world.event} ")]


def sentence_at(trial, place):
    """A line of the text of expectations, without its comment."""
    return " ".join(trial.read(EXPECT).split("\n")[place].split("#")[0].split())


def claimed(system, sentence):
    """A sentence as a claim has it: an interrupt goes by its handler's body, where no other interrupt has it; one about
    two values that are put is as the option for them, and what must not happen until something is said the other way
    round."""
    bodies = {str(number): body for number, body in bodies_of_interrupts(system).items()}
    sentence = re.sub(r"\bint (\d+)", lambda found: f"int {bodies.get(found[1], found[1])}", sentence)
    sentence = re.sub(r"between put\((-?\d+)\) and put\((-?\d+)\) one at a time", r"alone \1,\2", sentence)
    return re.sub(r"never ((?:(?! after ).)*) until (.*)", r"\2 before \1", sentence)


def shows_together(kernel, what):
    """By a line of the last event a task enters a section while the one that is named is there."""
    line, holder, *section = re.fullmatch(r".*: (\d+ .*): while (T\d+) is between (put\(\d+\)) and (put\(\d+\))",
                                          what).groups()
    sections, lines = (Between(*map(Happening, section)),), kernel.world.lines
    expect(line in lines, f"there is no line '{line}' in the model")
    inside, _ = after_lines(sections, (None,), lines[: lines.index(line)])
    expect(inside == (holder,), f"{holder} is not in {section} before '{line}'")
    expect(after_lines(sections, inside, [line])[1], f"'{line}' enters no section")


def kept_before(kernel, question, place):
    """What the sentence at a place keeps before the line of the last event that breaks it; nothing if the state after
    that event does."""
    lines, last = kernel.world.lines, lines_of_last(kernel)
    kept, _ = after_lines(question.watched, starts(question.watched), lines[: len(lines) - len(last)])
    for line in last:
        reached, broken = after_lines(question.watched, kept, [line])
        if place in broken:
            return kept[place]
        kept = reached
    expect(place in broken_in(question.watched, kernel), f"the last event does not break line {place + 1}")
    return None


def shows_broken(trial, kernel, question, what):
    """The sentence of a line of the text of expectations is broken by the last event or by the state after it, and
    told as it stands there; of a section it is told who was inside: its kind."""
    number, said, holder = re.search(rf"(?:^|: ){EXPECT}:(\d+): (.*?)(?:: while (T\d+) is inside)?$", what).groups()
    place = int(number) - 1
    sentence, kept = question.sentences[place], kept_before(kernel, question, place)
    expect(said == claimed(kernel.system, sentence_at(trial, place)), f"line {number} is not '{said}'")
    inside = kept if isinstance(sentence, Between) else None
    expect(holder == inside, f"{inside} is inside in line {number}, not {holder}")
    return f"a broken `{type(sentence).__name__}`"


def shows_stuck(second, kernel, came, number):
    """The task is started, and no events that may come let it go on, by the second search."""
    kept, _ = after_lines(second.watched, starts(second.watched), kernel.world.lines)
    is_counted = second.question.interrupts is not None
    key = state_key(kernel, second.codes), kept, came if is_counted else 0
    expect(key in second.never_going_on(number), f"T{number} can go on in the model")


def shows(trial, case, bound, second, what, file):
    """Each event of the steps text in this file does something in the model, and after them this is seen: its kind."""
    steps = trial.read(file).splitlines()
    kernel, came = replayed(deepcopy(case), bound, steps), sum(step.startswith("int") for step in steps)
    last = lines_of_last(kernel)
    if endless := re.search(r"processor (\d) goes on for ever", what):
        expect(goes_on_for_ever(kernel, f"run {endless[1]}"), f"no actor goes on for ever, as in '{what}'")
        return ENDLESS
    if stuck := re.search(NEVER_GOES_ON, what):
        shows_stuck(second, kernel, came, int(stuck[1]))
        return STUCK
    if "deadlock" in what:
        expect(is_deadlock(kernel, second.question, came), "there is no deadlock in the model")
        return "a deadlock"
    if f"{EXPECT}:" in what:
        return shows_broken(trial, kernel, second.question, what)
    if " is between " in what:
        expect(any(line in what for line in last), f"the last event does not tell '{what}'")
        shows_together(kernel, what)
        return "two tasks in a section"
    if any(tells_at(kernel, line, second.question.nevers_at) for line in last):
        return "a line of a call"
    expect(any(tells(line, never) for line in last for never in second.question.nevers), f"no line shows '{what}'")
    return "a line"


def is_claimed(trial, case, question, text):
    """Whether it was printed that nothing is found: what was asked, in order."""
    nevers = [f"never {never}" for never in question.nevers if never not in FAULTS]
    calls = calls_of(case) if question.nevers_at else {}
    nevers += [f"never {code} of {calls[number].service} in line {number}" for code, number in question.nevers_at]
    alone = [f"alone {enters},{leaves}" for enters, leaves in question.sections]
    sentences = [claimed(case.system, sentence_at(trial, place)) for place in range(len(question.sentences))]
    asked = [*nevers, *alone, *(each for each in sentences if each and " rests" not in each), "no deadlock"]
    return f"\n{', '.join(asked)}" in f"\n{text}"


def compare(trial, case, bound, question, most=MOST):
    """Compares both searches, at this many states at most: what was found, or nothing where the system was not examined
    whole."""
    status, text = explored(trial, bound, question, most)
    if status == 5:
        return None
    second, result = searched(case.system, bound, question, most)
    if not result.found and not result.is_whole:
        return None
    is_found = result.found or result.endless
    expect(status == (4 if is_found else 0), f"it ends with status {status}; the second search: {result}")
    numbers = result.states, result.events, result.deep
    printed = numbers_of(text)
    is_stopped = printed[0] == most or re.search("^stopped", text, re.MULTILINE)
    expect(is_stopped or printed == numbers, f"{numbers} are right, and it printed {text!r}")
    findings = re.findall(r"^(.*): after (\d+) steps?, in (\S+)$", text, re.MULTILINE)
    kinds = [shows(trial, case, bound, second, what, file) for what, _, file in findings]
    others = [(what, int(steps)) for (what, steps, _), kind in zip(findings, kinds) if kind != ENDLESS]
    expect(kinds.count(ENDLESS) == len(result.endless), f"it printed {text!r}; the second search: {result.endless}")
    expect(len(others) == bool(result.found), f"it printed {text!r}; the second search: {result.found}")
    for what, steps in others:
        length = len(result.found[0][1])
        expect(steps == length, f"'{what}' was found after {steps} steps, and the second search: {result.found}")
    is_right = is_claimed(trial, case, question, text) == (set(kinds) <= {ENDLESS, STUCK})
    expect(is_right, f"of what was asked it is not claimed that nothing is found, or although it is: {text!r}")
    return ", and ".join(sorted(set(kinds))) if kinds else "nothing"


def check(trial):
    """Takes systems of the newest version of images until as many as are asked for were compared."""
    kinds, seed = Counter(), trial.seed
    while kinds.total() < trial.count:
        trial.at = f"seed {seed}: "
        chosen = random.Random(f"explore {seed}")
        case, question = asked(Generator(seed, trial.version).case(), KINDS[seed % len(KINDS)], chosen)
        trial.build(case.configuration, case.source)
        case.system.queue_limit = 255
        if kind := compare(trial, case, trial.bound(seed, BOUND), question):
            kinds[kind] += 1
        seed += 1
    trial.at = ""
    found = "; ".join(f"{count} times {kind}" for kind, count in kinds.most_common())
    print(f"checks/model/explore.py: {trial.count} of {seed - trial.seed} systems were compared: both searches agree")
    print(f"found: {found}")


if __name__ == "__main__":
    sys.exit(main("Compares two searches of all schedules.", 300, ("fmp", "fmp_view"), check))
