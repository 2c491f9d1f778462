"""A second search of all schedules, over the model of the kernel: breadth first, with a copy of it for each state."""

import copy
import pickle
import re
from collections import deque
from dataclasses import dataclass, field, replace
from math import inf

from model.bodies import stretch
from model.instructions import Code
from model.kernel import Kernel
from model.sentences import Between, Happening, Rests, Sentence, after_lines, broken_in, starts
from model.world import Handler, State

REFUSED = re.compile(r"\d+ p(\d) (\S+) .*\b(?!E_OK)E_[A-Z]+")  # a line with another code: its processor, and who
OF_TASK = re.compile(r"\d+ p\d T(\d+) (.*)")  # a line of a task: its number, and what it tells


@dataclass
class Searched:
    """What a search came to: how many states there are, how many events did something, how deep the deepest state is,
    what was found, which bodies go on for ever, and whether every state was examined."""

    states: int = 1
    events: int = 0
    deep: int = 0
    found: list = field(default_factory=list)  # of what, and the events
    endless: dict = field(default_factory=dict)  # by the body, the events
    waits: bool = False
    is_whole: bool = True


@dataclass(frozen=True)
class AtMost(Sentence):
    """A limit of one interrupt: it keeps how many may still come."""

    number: int
    start: int

    def after(self, kept, who, text):
        return kept - (text == f"int {self.number}"), False


@dataclass(frozen=True)
class Gap(Sentence):
    """A limit of one interrupt: it keeps how many ticks must still come before the next."""

    number: int
    ticks: int
    start = 0

    def after(self, kept, who, text):
        if text == f"int {self.number}":
            return self.ticks, False
        return max(kept - text.startswith("tick "), 0), False


@dataclass(frozen=True)
class Question:
    """What is asked: what must never be told, which codes must never be answered to the calls in which lines of the
    task text, the sections in which one task at a time may be, each the values by which a task enters and leaves, the
    lines of a text of expectations, each as one sentence, the numbers of the tasks that may wait forever, whether the
    clock ticks only where no processor can do anything, how many interrupts may come and how many activations and
    wakeups of a task may be queued after an event, if those are limited, and the limits of single interrupts."""

    nevers: tuple = ()
    nevers_at: tuple = ()
    sections: tuple = ()
    sentences: tuple = ()
    rest: frozenset = frozenset()
    idle_ticks: bool = False
    interrupts: int | None = None
    queued: int | None = None
    limits: tuple = ()

    @property
    def watched(self):
        """All that is kept of a run: the sentences of the text, one for each section, and the limits."""
        sections = [Between(*(Happening(f"put({value})") for value in section)) for section in self.sections]
        return (*self.sentences, *sections, *self.limits)

    def holding(self, event, kept):
        """The limits that hold an event back, by what is kept of all that is watched."""
        pairs = zip(self.limits, kept[len(kept) - len(self.limits) :])
        return [limit for limit, left in pairs if event == f"int {limit.number}"
                and (left > 0 if isinstance(limit, Gap) else left == 0)]

    @property
    def resting(self):
        """The numbers of the tasks that may wait forever, by an option or by a sentence."""
        return self.rest | {int(each.task[1:]) for each in self.sentences if isinstance(each, Rests)}

    def lets(self, event, came, done):
        """Whether an event may come where this many interrupts came, and events of these kinds did something."""
        if event == "tick":
            return not self.idle_ticks or "run" not in done
        return not event.startswith("int") or self.interrupts is None or came < self.interrupts

    def lets_queue(self, world):
        """Whether an event may come that leaves as much queued."""
        most = inf if self.queued is None else self.queued
        return all(max(task.activations, task.wakeups) <= most for task in world.tasks)


def place_of_queues(system):
    """The wait queues of a system by their identity: a name for each, and a list of those of objects."""
    names, queues = {}, []
    objects = {"sem": system.semaphores, "flg": system.flags, "mbx": system.mailboxes}
    for kind, things in objects.items():
        for number, thing in enumerate(things):
            names[id(thing.waiters)] = kind, number
            queues.append(thing.waiters)
    for number, queue in enumerate(system.data_queues):
        names[id(queue.senders)], names[id(queue.receivers)] = ("snd", number), ("rcv", number)
        queues += [queue.senders, queue.receivers]
    return names, queues


def context_key(codes, actor, is_waiting):
    """Where the body of a task or handler stands, its operands and its live locals."""
    return actor.context and codes[actor.body].standing(copy.copy(actor.context), is_waiting)


def task_key(world, codes, names, task):
    wait = task.wait and (names.get(id(task.wait.queue)), task.wait.bits, task.wait.mode, task.wait.word)
    ticks_left = None if task.deadline is None else task.deadline - world.clock
    return (
        task.state, task.suspended, task.priority, task.processor, task.activations, task.stored_processor,
        task.wakeups, wait, ticks_left,
        None if task.state is State.DORMANT else context_key(codes, task, task.state is State.WAITING),
    )


def processor_key(codes, processor):
    handler = processor.handler
    return (
        processor.running and processor.running.number, processor.lock, processor.dispatch_enabled,
        handler and handler.name, handler and context_key(codes, handler, False),
        tuple(sorted(pending.name for pending in processor.pending)),
    )


def ready_key(world, processor):
    """The ready tasks of a processor, in order, of each priority."""
    ready = world.ready(processor)
    return tuple(sorted(
        (priority, tuple(task.number for task in ready if task.priority == priority))
        for priority in {task.priority for task in ready}))


def state_key(kernel, codes):
    """All that a later event can show, where the bodies have these codes: no clock, no dead locals, and queues in place
    of the one order."""
    world, system = kernel.world, kernel.system
    names, queues = place_of_queues(system)
    names[id(world.sleepers)], names[id(world.delayed)] = ("slp", 0), ("dly", 0)
    return (
        tuple(task_key(world, codes, names, task) for task in world.tasks),
        tuple(ready_key(world, processor.number) for processor in world.processors),
        tuple(tuple(task.number for task in world.members(queue)) for queue in queues),
        tuple(processor_key(codes, processor) for processor in world.processors),
        tuple(semaphore.count for semaphore in system.semaphores),
        tuple(flag.pattern for flag in system.flags),
        tuple(tuple(queue.words) for queue in system.data_queues),
        tuple(tuple(mailbox.queued) for mailbox in system.mailboxes),
        tuple(system.shared_words),
        tuple(handler.due and handler.due - world.clock for handler in system.cyclic_handlers),
    )


def tells(line, never):
    """Whether a line tells what must never happen: `put(V)`, a code or a fault."""
    return f" {never} " in f"{line} " if never.startswith("put(") else line.endswith(f" {never}")


def first_lines(system):
    """The line of the first statement of each body, in the task text as it is printed."""
    numbers, number = [], 2
    for body in system.bodies:
        numbers.append(number + body.repeats)
        number += str(body).count("\n")
    return numbers


def line_of_call(kernel, line):
    """The line of the call that was answered by a line of the last event: its actor stands after it."""
    number, name = re.match(r"\d+ p(\d) (\S+) ", line).groups()
    tasks = [task for task in kernel.world.tasks if task.name == name]
    actor = tasks[0] if tasks else kernel.world.processors[int(number) - 1].handler
    return first_lines(kernel.system)[actor.body] + actor.context.position - 1


def tells_at(kernel, line, nevers_at):
    """Whether a line of the last event tells an answer that must never be given to the calls in a line."""
    answer = nevers_at and re.search(r" (?:\w+\([^)]*\)|gets) (E_\w+)", line)
    numbers = [number for code, number in nevers_at if answer and code == answer[1]]
    return bool(numbers) and line_of_call(kernel, line) in numbers


def tries_of(system):
    """The events that are tried in each state, in order."""
    runs = [f"run {number + 1}" for number in range(system.processor_count)]
    return [*runs, "tick", *(f"int {number}" for number in sorted(h.number for h in system.interrupt_handlers))]


def actors_of(lines):
    """The numbers of the tasks of whose going on these lines tell: a call, the end of a wait, an end or a fault of
    theirs; or that they are terminated."""
    told = [found.groups() for line in lines if (found := OF_TASK.match(line))]
    terminated = [found[1] for _, text in told if (found := re.fullmatch(r"ter_tsk\((\d+)\) E_OK", text))]
    return {int(number) for number, text in told if text != "starts"} | {int(number) for number in terminated}


def is_stuck(world, rest):
    """Whether no time runs, and a task that may not wait forever is started."""
    return (
        all(task.deadline is None for task in world.tasks)
        and all(handler.due is None for handler in world.system.cyclic_handlers)
        and any(task.state is not State.DORMANT for task in world.tasks if task.number not in rest))


def goes_on_for_ever(kernel, event):
    """Whether an event is a run whose actor never comes to a call, its end or a fault."""
    kind, *number = event.split()
    actor = kind == "run" and kernel.world.processors[int(number[0]) - 1].actor
    return bool(actor) and stretch(kernel.system.bodies[actor.body], actor.context)[1].units == inf


def copied(kernel):
    """A copy of a kernel, which shares the bodies."""
    bodies, kernel.system.bodies = kernel.system.bodies, None
    other = pickle.loads(pickle.dumps(kernel, pickle.HIGHEST_PROTOCOL))
    kernel.system.bodies = other.system.bodies = bodies
    return other


def after(kernel, event):
    """A copy of the kernel after an event; none if it does nothing."""
    other = copied(kernel)
    other.world.lines, other.world.event, other.taken = [], 0, 0
    other.step(event)
    return other if other.taken else None


def is_deadlock(kernel, question, came):
    """Whether no event but a tick does anything that may still come after this many interrupts, no time runs, and a
    task that may not wait forever is started."""
    events = [event for event in tries_of(kernel.system) if event != "tick" and question.lets(event, came, ())]
    return is_stuck(kernel.world, question.resting) and not any(after(kernel, event) for event in events)


def is_behind_place(kernel, number, name):
    """Whether the task of this name, or the handler on the processor of this number, stands after a call with an out
    place. A dormant task counts as one."""
    tasks = [task for task in kernel.world.tasks if task.name == name]
    if tasks and tasks[0].state is State.DORMANT:
        return True
    actor = tasks[0] if tasks else kernel.world.processors[number - 1].handler
    return bool(actor and actor.context.call and actor.context.call.has_place)


def leaves_place(kernel):
    """Whether a reply that was just told left the local at the out place of its call as it was."""
    told = [found.groups() for line in kernel.world.lines if (found := REFUSED.fullmatch(line))]
    return any(is_behind_place(kernel, int(number), name) for number, name in told)


def searched(system, bound, question, most):
    """A search that was made, and what it came to. Out places count as written by every reply; where one left an out
    place as it was, the search is made again without."""
    for outs in (True, False):
        search = Search(system, bound, question, most, outs)
        result = search.run()
        if not search.is_lost:
            return search, result


class Search:
    """A search under way. The keys of the states that were seen, in the order in which they were, have the key before
    them, the event between, and the depth. The key of a state has what each sentence keeps, and how many interrupts
    came where that is limited. An edge has the key before an event that did something, the one after it, and the tasks
    that went on by it. Of the states in which an event was left out, since it would queue too much or a limit of its
    number was used up, the keys are kept."""

    def __init__(self, system, bound, question, most, outs):
        self.start, self.question, self.most = Kernel(system, bound), question, most
        self.tries = tries_of(system)
        self.codes = [Code(body, outs) for body in system.bodies]
        self.outs, self.is_lost = outs, False
        self.watched = question.watched
        kept, _ = after_lines(self.watched, starts(self.watched), self.start.world.lines)
        self.first = state_key(self.start, self.codes), kept, 0
        self.seen = {self.first: (None, None, 0)}
        self.edges, self.cut = [], set()
        self.queue = deque([(self.start, self.first)])
        self.result = Searched()

    def path(self, key):
        events = []
        while self.seen[key][0] is not None:
            before, event, _ = self.seen[key]
            events.append(event)
            key = before
        return events[::-1]

    def note_endless(self, kernel, key, event):
        """An event of a state whose actor goes on for ever, if it does and is no task that may wait forever: the number
        of its task, if it is one."""
        if not goes_on_for_ever(kernel, event):
            return set()
        actor = kernel.world.processors[int(event.split()[1]) - 1].actor
        number = None if isinstance(actor, Handler) else actor.number
        if number in self.question.resting:
            return set()
        self.result.endless.setdefault(actor.body, self.path(key))
        return {number} - {None}

    def note(self, kernel, key, event, endless):
        """An event that did something, after which the kernel is this one; its task goes on for ever, if there is one
        of these."""
        result, lines = self.result, kernel.world.lines
        result.events += 1
        self.is_lost |= self.outs and leaves_place(kernel)
        for line in lines:
            is_told = any(tells(line, never) for never in self.question.nevers)
            if is_told or tells_at(kernel, line, self.question.nevers_at):
                result.found.append((line.split(" ", 1)[1], [*self.path(key), event]))
        kept, broken = after_lines(self.watched, key[1], lines)
        result.found += [(self.watched[place], [*self.path(key), event]) for place in broken]
        is_counted = event.startswith("int") and self.question.interrupts is not None
        reached = state_key(kernel, self.codes), kept, key[2] + is_counted
        if reached not in self.seen:
            self.seen[reached] = key, event, self.seen[key][2] + 1
            self.queue.append((kernel, reached))
        self.edges.append((key, reached, actors_of(lines) | endless))

    def examine(self, kernel, key):
        done = set()
        self.result.found += [(self.watched[place], self.path(key)) for place in broken_in(self.watched, kernel)]
        for event in self.tries:
            reached = after(kernel, event) if self.question.lets(event, key[2], done) else None
            if reached is None:
                continue
            done.add(event.split()[0])
            if not self.question.lets_queue(reached.world):
                self.result.events += 1
                self.cut.add(key)
                continue
            if holding := self.question.holding(event, key[1]):
                self.result.events += 1
                if any(isinstance(limit, AtMost) for limit in holding):
                    self.cut.add(key)
                continue
            self.note(reached, key, event, self.note_endless(kernel, key, event))
        if "run" not in done and is_stuck(kernel.world, self.question.resting):
            if "int" in done:
                self.result.waits = True
            else:
                self.result.found.append(("deadlock", self.path(key)))

    def never_going_on(self, number):
        """The keys of the states, in order, in which a task is started and from which no events let it go on: what is
        left where those are taken away from which an event lets it, in which it goes on for ever or an event was left
        out, or from which an event leads to one that was taken away."""
        before = {}
        for key, reached, _ in self.edges:
            before.setdefault(reached, set()).add(key)
        taken = {key for key, _, actors in self.edges if number in actors} | self.cut
        left = deque(taken)
        while left:
            new = before.get(left.popleft(), set()) - taken
            taken |= new
            left += new
        return [key for key in self.seen if key not in taken and key[0][0][number - 1][0] is not State.DORMANT]

    def goes_on_without_limits(self, number, key):
        """Whether a task goes on by some events from a state, where no limit of a single interrupt holds."""
        other = Search.__new__(Search)
        other.__dict__.update(self.__dict__)
        other.question = replace(self.question, sentences=(), sections=(), limits=(), nevers=())
        kernel = copied(self.start)
        for event in self.path(key):
            kernel = after(kernel, event)
        other.watched, other.first = (), (state_key(kernel, self.codes), (), key[2])
        other.seen, other.queue = {other.first: (None, None, 0)}, deque([(kernel, other.first)])
        other.edges, other.cut, other.result = [], set(), Searched()
        while other.queue and len(other.seen) <= self.most:
            other.examine(*other.queue.popleft())
            if any(number in actors for _, _, actors in other.edges):
                return True
            other.edges.clear()
        return bool(other.queue)

    def note_stuck(self):
        """Where nothing was found: each task that can never go on from some state, limits of single interrupts or
        not."""
        for task in self.start.system.tasks:
            if task.number in self.question.resting or not (keys := self.never_going_on(task.number)):
                continue
            if not self.question.limits or not self.goes_on_without_limits(task.number, keys[0]):
                self.result.found.append((f"{task.name} can never go on", self.path(keys[0])))

    def run(self):
        """Examines the states in order, up to the first finding."""
        result = self.result
        while self.queue:
            kernel, key = self.queue.popleft()
            depth = self.seen[key][2]
            is_enough = any(len(events) <= depth for _, events in result.found)
            if self.is_lost or is_enough or len(self.seen) > self.most:
                result.is_whole = False
                break
            self.examine(kernel, key)
        if result.is_whole and not result.found:
            self.note_stuck()
        result.states = len(self.seen)
        result.deep = max(depth for _, _, depth in self.seen.values())
        result.found.sort(key=lambda finding: len(finding[1]))
        return result
