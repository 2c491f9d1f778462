"""The sentences of a text of expectations, from what docs/LANGUAGE.md says of each: how a line is read, what a sentence
keeps of a run, and which line, state or end of a run breaks it.

Names are those of random systems: the letter of a kind, as T for tasks and C for cyclic handlers, and a number. The
handler of an interrupt goes by its body, and by `#I` in lines.
"""

import operator
import re
from collections import Counter
from dataclasses import dataclass
from functools import partial

LINE = re.compile(r"\d+ (?:p\d (\S+) )?(.*)")  # who a line is of, or what happens to it; and what it tells
CALL_OR_WAIT = r"(?:\w+\([^)]*\)|gets)"
DEED = re.compile(rf"(?:(put\(-?\d+\)) |{CALL_OR_WAIT} )?([EF]_\w+)(?: -?\d+)?")
ENDS = ("end", "F_")  # what a line tells first of a body that ends or stops
CODES = ("E_OK", "E_OK", "E_TMOUT", "E_OBJ", "E_ILUSE", "E_QOVR", "E_CTX", "E_RLWAI", "E_PAR", "E_ID")
FAULTS = ("F_OVF", "F_DIV", "F_IDX")
STATES = ("RUNNING", "READY", "WAITING", "SUSPENDED", "WAITING-SUSPENDED", "DORMANT")
FORMS = (
    "never {0}", "never {0} after {1}", "never {0} after {1} until {2}", "never {0} until {1}", "{0} before {1}",
    "between {0} and {1} one at a time", "{response} within {ticks} ticks of {trigger}", "always {tests}",
)
RELATIONS = {"==": operator.eq, "!=": operator.ne, "<": operator.lt, "<=": operator.le, ">": operator.gt,
             ">=": operator.ge}
MEASURES = {  # by the letter that names of objects begin with
    "S": lambda system, place: system.semaphores[place].count,
    "F": lambda system, place: system.flags[place].pattern,
    "D": lambda system, place: len(system.data_queues[place].words),
    "X": lambda system, place: len(system.mailboxes[place].queued),
    "W": lambda system, place: system.shared_words[place],
}


# What lines tell: each of these says whether it comes in a line, which is told apart


def told(line):
    """Who a line is of, and what it tells: `> T1` is of `>`, a tick of nobody."""
    return LINE.fullmatch(line).groups()


@dataclass(frozen=True)
class Happening:
    """A code that is answered, a value that is put or a fault: by an actor, or by anyone."""

    deed: str
    actor: str | None = None

    def comes(self, who, text):
        if self.actor not in (None, who):
            return False
        if self.deed.startswith("put("):
            return text.startswith(f"{self.deed} ")
        return text == self.deed or bool(re.fullmatch(rf"{CALL_OR_WAIT} {self.deed}( -?\d+)?", text))


@dataclass(frozen=True)
class Runs:
    """An actor calls, ends, stops with a fault, begins or is gone on with."""

    actor: str

    def comes(self, who, text):
        is_own = who == self.actor and text != "starts" and not text.startswith("gets ")
        return is_own or who in ("begin", ">") and text == self.actor


@dataclass(frozen=True)
class Interrupt:
    """An interrupt comes."""

    number: int

    def comes(self, who, text):
        return text == f"int {self.number}"


# Tests of a state


@dataclass(frozen=True)
class Measure:
    """The measure of an object, or the priority of a task, beside a number."""

    name: str
    relation: str
    number: int

    def holds(self, kernel):
        place = int(self.name[1:]) - 1
        if self.name.startswith("T"):
            measured = kernel.system.tasks[place].priority
        else:
            measured = MEASURES[self.name[0]](kernel.system, place)
        return RELATIONS[self.relation](measured, self.number)


@dataclass(frozen=True)
class IsIn:
    """A task is in a state, as a trace ends with it."""

    task: str
    state: str

    def holds(self, kernel):
        return kernel.state_line(kernel.system.tasks[int(self.task[1:]) - 1]).split()[1] == self.state


@dataclass(frozen=True)
class RunsOn:
    """A task, or nobody, is what a processor runs, also below a handler."""

    task: str
    processor: int

    def holds(self, kernel):
        running = kernel.world.processors[self.processor - 1].running
        return (running.name if running else "nobody") == self.task


@dataclass(frozen=True)
class Not:
    """A test that must not hold."""

    test: Measure | IsIn | RunsOn

    def holds(self, kernel):
        return not self.test.holds(kernel)


# Sentences


class Sentence:
    """What is kept of a run at first, and after a line, which may break the sentence; so may a state after setup or an
    event, and the state at the end. This one says nothing: a line of a text without words."""

    start = None

    def after(self, kept, who, text):
        return kept, False

    def is_broken_in(self, kernel):
        return False

    def is_broken_at_end(self, kernel):
        return False


@dataclass(frozen=True)
class Never(Sentence):
    """What must not happen: it keeps whether something came since which it must not, and nothing that ends that. A line
    that tells both begins it, and one that tells what must not happen breaks it, even if it ends it too."""

    what: Happening
    since: Happening | None = None
    until: Happening | None = None

    @property
    def start(self):
        return self.since is None

    def after(self, kept, who, text):
        begins = self.since is not None and self.since.comes(who, text)
        ends = self.until is not None and self.until.comes(who, text)
        return begins or kept and not ends, kept and self.what.comes(who, text)


@dataclass(frozen=True)
class Before(Sentence):
    """It keeps whether the first came."""

    first: Happening
    then: Happening
    start = False

    def after(self, kept, who, text):
        kept = kept or self.first.comes(who, text)
        return kept, not kept and self.then.comes(who, text)


@dataclass(frozen=True)
class Between(Sentence):
    """It keeps the task that is inside: the last one that entered. A handler is never inside. A line by which a task
    enters finds inside whom it terminates, and is not one by which it leaves."""

    enters: Happening
    leaves: Happening

    def after(self, kept, who, text):
        if who is not None and re.fullmatch(r"T\d+", who) and self.enters.comes(who, text):
            return who, kept not in (None, who)
        leaves = who == kept and (self.leaves.comes(who, text) or text.startswith(ENDS))
        is_terminated = kept is not None and text == f"ter_tsk({kept[1:]}) E_OK"
        return None if leaves or is_terminated else kept, False


@dataclass(frozen=True)
class Within(Sentence):
    """It keeps how many ticks a response may still take, if one is awaited. A line that tells the trigger too is a
    response."""

    response: Happening | Runs
    ticks: int
    trigger: Happening | Interrupt

    def after(self, kept, who, text):
        if self.response.comes(who, text):
            return None, False
        if kept is not None and text.startswith("tick "):
            return max(kept - 1, 0), kept == 0
        return self.ticks if kept is None and self.trigger.comes(who, text) else kept, False


@dataclass(frozen=True)
class Always(Sentence):
    """Tests that are joined by `and`, and these by `or`."""

    alternatives: tuple

    def is_broken_in(self, kernel):
        return not any(all(test.holds(kernel) for test in tests) for tests in self.alternatives)


@dataclass(frozen=True)
class Rests(Sentence):
    """A task may rest, which a search alone asks."""

    task: str


@dataclass(frozen=True)
class End(Sentence):
    """A task is in a state where a run ends."""

    state: str
    task: str

    def is_broken_at_end(self, kernel):
        return not IsIn(self.task, self.state).holds(kernel)


# The reader


def split(words, *marks):
    """The words between the marks that are there, in this order: nothing for a mark that is not."""
    parts, rest = [], list(words)
    for mark in reversed(marks):
        place = rest.index(mark) if mark in rest else len(rest)
        parts.append(rest[place + 1 :])
        rest = rest[:place]
    return [rest, *reversed(parts)]


def handlers_of(system):
    """What lines call the handlers of interrupts, by their bodies, where no other handler has the body."""
    bodies = [(system.bodies[handler.body].name, handler.name) for handler in system.interrupt_handlers]
    counts = Counter(body for body, _ in bodies)
    counts.update(system.bodies[handler.body].name for handler in system.cyclic_handlers)
    return {body: name for body, name in bodies if counts[body] == 1}


def bodies_of_interrupts(system):
    """The bodies by which sentences name interrupts, by their numbers: those that one interrupt has."""
    counts = Counter(handler.body for handler in system.interrupt_handlers)
    return {handler.number: system.bodies[handler.body].name for handler in system.interrupt_handlers
            if counts[handler.body] == 1}


def happening(words, handlers):
    if not words:
        return None
    deed, *by = words
    return Happening(deed, handlers.get(by[1], by[1]) if by else None)


def test(words):
    match words:
        case ["not", *rest]:
            return Not(test(rest))
        case [*_, name, ("==" | "!=" | "<" | "<=" | ">" | ">=") as relation, number]:
            return Measure(name, relation, int(number))
        case [task, "is", state]:
            return IsIn(task, state)
        case [task, "runs", "on", number]:
            return RunsOn(task, int(number))


def joined(words, mark):
    """The parts of words between marks of one kind."""
    text = " ".join(words)
    return [part.split() for part in text.split(f" {mark} ")]


def read(line, handlers):
    """The sentence of a line, where these are the handlers by their bodies."""
    words, said = line.split("#")[0].split(), partial(happening, handlers=handlers)
    match words:
        case []:
            return Sentence()
        case ["end", state, task]:
            return End(state, task)
        case [task, "rests"]:
            return Rests(task)
        case ["always", *tests]:
            return Always(tuple(tuple(map(test, joined(part, "and"))) for part in joined(tests, "or")))
        case ["between", *happenings, "one", "at", "a", "time"]:
            return Between(*map(said, split(happenings, "and")))
        case ["never", *happenings]:
            what, since, until = map(said, split(happenings, "after", "until"))
            return Before(until, what) if until and not since else Never(what, since, until)
    first, then, bound = split(words, "before", "within")
    if then:
        return Before(said(first), said(then))
    response = Runs(handlers.get(first[0], first[0])) if first[1:] == ["runs"] else said(first)
    ticks, _, _, *trigger = bound
    is_interrupt = trigger[0] == "int"
    return Within(response, int(ticks), Interrupt(int(trigger[1])) if is_interrupt else said(trigger))


def read_all(lines, system):
    """The sentences of lines about a system."""
    return tuple(map(partial(read, handlers=handlers_of(system)), lines))


# Judges


def starts(sentences):
    """What sentences keep at first."""
    return tuple(sentence.start for sentence in sentences)


def broken_in(sentences, kernel):
    """The places of the sentences that a state breaks."""
    return {place for place, sentence in enumerate(sentences) if sentence.is_broken_in(kernel)}


def after_lines(sentences, kept, lines):
    """What sentences keep after some lines, and the places of those that a line breaks."""
    broken = set()
    for line in lines:
        after_line = [sentence.after(one, *told(line)) for sentence, one in zip(sentences, kept)]
        kept = tuple(one for one, _ in after_line)
        broken |= {place for place, (_, is_broken) in enumerate(after_line) if is_broken}
    return kept, broken


class Judge:
    """Sentences beside a run: what they keep, and the event in which each was broken first, by the place of the
    sentence."""

    def __init__(self, sentences, kernel):
        self.sentences, self.kernel = sentences, kernel
        self.kept, self.broken, self.seen = starts(sentences), {}, 0
        self.see()

    def see(self):
        """What came since it was last looked."""
        world = self.kernel.world
        self.kept, broken = after_lines(self.sentences, self.kept, world.lines[self.seen :])
        self.seen = len(world.lines)
        for place in broken | broken_in(self.sentences, self.kernel):
            self.broken.setdefault(place, world.event)

    def verdict(self):
        """The place of the first sentence that the run fails, if it ends here, and the event; none if it meets all."""
        ends = {place: self.kernel.world.event for place, sentence in enumerate(self.sentences)
                if sentence.is_broken_at_end(self.kernel)}
        return min((ends | self.broken).items(), default=None)


# Random sentences


class Sentences:
    """Random sentences about the system of a case: mostly of what lines of it tell, and of its objects."""

    def __init__(self, chosen, case, lines):
        self.chosen, system = chosen, case.system
        bodies = {name: body for body, name in handlers_of(system).items()}
        came = [(bodies.get(who, who), found[1] or found[2]) for who, text in map(told, lines)
                if (found := DEED.fullmatch(text))]
        self.came = sorted(set(came)) or [("T1", "put(0)")]
        self.tasks = [task.name for task in system.tasks]
        self.actors = 2 * self.tasks + [handler.name for handler in system.cyclic_handlers] + [*bodies.values()]
        self.interrupts = [handler.number for handler in system.interrupt_handlers] or [1]
        counts = {"S": system.semaphores, "F": system.flags, "D": system.data_queues, "X": system.mailboxes,
                  "W": system.shared_words}
        self.objects = [f"{kind}{place + 1}" for kind, objects in counts.items() for place in range(len(objects))]
        self.processor_count = system.processor_count

    def happening(self):
        who, deed = self.chosen.choice(self.came)
        if self.chosen.random() < 0.2:
            who, deed = self.chosen.choice(self.actors), self.chosen.choice(CODES + FAULTS)
        return f"{deed} by {who}" if who in self.actors and self.chosen.random() < 0.4 else deed

    def response(self):
        return f"{self.chosen.choice(self.actors)} runs" if self.chosen.random() < 0.5 else self.happening()

    def trigger(self):
        return f"int {self.chosen.choice(self.interrupts)}" if self.chosen.random() < 0.4 else self.happening()

    def measured(self):
        """A test of a measure, mostly of one that can be so."""
        relation, shape = self.chosen.choice(tuple(RELATIONS)), self.chosen.random()
        if not self.objects or shape < 0.2:
            return f"priority {self.chosen.choice(self.tasks)} {relation} {self.chosen.choice((1, 5, 10, 16))}"
        return f"{self.chosen.choice(self.objects)} {relation} {self.chosen.randint(-1, 4)}"

    def test(self):
        shape, task = self.chosen.random(), self.chosen.choice(self.tasks)
        if shape < 0.5:
            text = self.measured()
        elif shape < 0.75:
            text = f"{task} is {self.chosen.choice(STATES)}"
        else:
            text = f"{self.chosen.choice((task, 'nobody'))} runs on {self.chosen.randint(1, self.processor_count)}"
        return f"not {text}" if self.chosen.random() < 0.3 else text

    def tests(self):
        count = self.chosen.choice((1, 2, 2, 3, 4, 8))
        marks = self.chosen.choices(("and", "or", "or"), k=count - 1)
        return " ".join([self.test(), *(f"{mark} {self.test()}" for mark in marks)])

    def sentence(self):
        form = self.chosen.choice(FORMS)
        return form.format(*(self.happening() for _ in range(3)), response=self.response(), trigger=self.trigger(),
                           ticks=self.chosen.choice((0, 0, 1, 2, 3)), tests=self.tests())

    def end(self):
        return f"end {self.chosen.choice(STATES)} {self.chosen.choice(self.tasks)}"
