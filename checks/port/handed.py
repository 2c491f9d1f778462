"""The model of the kernel, which is handed what actors do, the records that C is given of it, and random events."""

import random

from common.services import SERVICES
from model.bodies import Call, Stop
from model.kernel import Kernel
from model.services import ENDS, WAITS, LockIsHeld, Services
from model.world import Code, Handler

NOTHING, DONE, NO_PROCESSOR, NO_SERVICE, NO_INTERRUPT, NO_FAULT = 0, 1, 5, 6, 8, 9
FAULTS = {1: Stop.OVERFLOW, 2: Stop.DIVISION, 3: Stop.INDEX}
KINDS = {"tick": 1, "int": 2, "end": 4, "gets": 6, "starts": 7, "cyc": 8, "begin": 9, ">": 10}


class Handed(Kernel):
    """A kernel that is handed what its actors do, and the records that C is given of it."""

    def __init__(self, system):
        super().__init__(system, 1)
        self.told = {}  # of an actor's name: what it was told last
        self.unheard = set()  # the actors that were told something since their bodies went on
        self.numbers = {task.name: (1, task.number) for task in system.tasks}
        self.numbers |= {handler.name: (3, handler.number) for handler in system.cyclic_handlers}
        self.exinf = {it.name: it.exinf for it in (*system.tasks, *system.cyclic_handlers)}
        self.shown = 0  # the lines that were shown
        self.first = self.show()  # the lines of setup

    def hand(self, event):
        """The answer to an event, and its lines."""
        kind, *numbers = event.split()
        numbers = list(map(int, numbers))
        answer = self.refusal(kind, numbers)
        if answer is None:
            answer = self.take(kind, numbers)
        return answer, self.show() if answer == DONE else []

    def restart(self):
        """The clock and the counts begin again."""
        world = self.world
        for task in self.system.tasks:
            task.deadline = None if task.deadline is None else task.deadline - world.clock
        for handler in self.system.cyclic_handlers:
            handler.due = None if handler.due is None else handler.due - world.clock
        world.clock = world.event = 0

    def refusal(self, kind, numbers):
        """The answer where a number is out of range; none where all are in range."""
        if kind == "int":
            return None if 1 <= numbers[0] <= 32 else NO_INTERRUPT
        if kind == "tick":
            return None
        if kind == "call" and not 1 <= numbers[1] <= len(SERVICES):
            return NO_SERVICE
        if kind == "fault" and numbers[1] not in FAULTS:
            return NO_FAULT
        return None if 1 <= numbers[0] <= len(self.world.processors) else NO_PROCESSOR

    def take(self, kind, numbers):
        """An event with numbers in range, as `step` takes those of a steps text."""
        self.world.event += 1
        before = len(self.world.lines)
        own_line = {"call": self.make, "end": self.finish, "fault": self.finish, "tick": self.tick,
                    "int": self.interrupt}[kind](*numbers)
        if not own_line:
            self.world.event -= 1
            return NOTHING
        self.world.lines.insert(before, f"{self.world.event} {own_line}")
        self.world.settle()
        return DONE

    def make(self, number, service, *arguments):
        """The actor of a processor makes a call."""
        processor = self.world.processors[number - 1]
        actor = processor.actor
        if actor is None:
            return None
        name = SERVICES[service - 1].name
        taken = list(arguments[:len([word for word in SERVICES[service - 1].form if word != "&"])])
        actor.context.call = Call(name, taken)
        try:
            answer, _ = self.serve(Services(self.world, actor, processor), name, taken)
        except LockIsHeld:
            return None
        if answer == ENDS:
            return f"p{number} {actor.name} {self.stop(processor, Stop.END)}"
        if answer != WAITS:
            self.tell(actor.name, f"2 {int(answer.code)} {'-' if answer.value is None else answer.value}")
        return f"p{number} {actor.name} {name}({','.join(map(str, taken))}) {answer}"

    def finish(self, number, fault=0):
        """The body of the actor of a processor ends, or stops with a fault."""
        processor = self.world.processors[number - 1]
        actor = processor.actor
        if actor is None:
            return None
        return f"p{number} {actor.name} {self.stop(processor, FAULTS.get(fault, Stop.END))}"

    def show(self):
        """The lines of the last event. It notes what they tell."""
        lines, self.shown = self.world.lines[self.shown:], len(self.world.lines)
        for line in lines:
            words = line.split()
            if words[-1] == "starts" and len(words) == 4:
                self.tell(words[2], f"1 0 {self.exinf[words[2]]}")
            elif words[2] == "begin":
                self.tell(words[3], f"1 0 {self.exinf.get(words[3], 0)}")
            elif "gets" in words[3:4]:
                self.tell(words[2], f"2 {reply(words[4:])}")
        return lines

    def tell(self, name, what):
        """What an actor is told at its start, or by its call."""
        self.told[name] = what
        self.unheard.add(name)

    def identity(self, name):
        """Who it is, and its number."""
        return self.numbers.get(name) or (2, int(name[1:]))

    def acting(self, processor):
        """Who acts on a processor, and what they were told last."""
        there = 1 <= processor <= len(self.world.processors)
        actor = self.world.processors[processor - 1].actor if there else None
        if actor is None:
            return "0 0 0 0 -"
        who, number = self.identity(actor.name)
        return f"{who} {number} {self.told[actor.name]}"

    def record(self, line):
        """The record of a line, as sequences.c prints it."""
        _, first, *words = line.split()
        if first in ("tick", "int"):
            return f"= {KINDS[first]} 0 0 {words[0]} 0 0 (0,0,0,0)"
        processor = first[1:]
        if words[0] in ("cyc", "begin", ">"):
            who, number = self.identity(words[1]) if words[1] != "-" else (0, 0)
            return f"= {KINDS[words[0]]} {processor} {who} {number} 0 0 (0,0,0,0)"
        front = f"{processor} {self.identity(words[0])[0]} {self.identity(words[0])[1]}"
        if words[1] in ("end", "starts"):
            return f"= {KINDS[words[1]]} {front} 0 0 (0,0,0,0)"
        if words[1] == "gets":
            return f"= 6 {front} 0 0 {reply(words[2:])} (0,0,0,0)"
        if words[1].startswith("F_"):
            return f"= 5 {front} 0 {[it.value for it in FAULTS.values()].index(words[1]) + 1} (0,0,0,0)"
        name, arguments = words[1].rstrip(")").split("(")
        service = [it.name for it in SERVICES].index(name) + 1
        four = [*(arguments.split(",") if arguments else []), *"0000"][:4]
        told = "" if words[2] == WAITS else f" {reply(words[2:])}"
        return f"= 3 {front} {service} 0{told} ({','.join(four)})"


def reply(words):
    """The code and the value of a reply."""
    return f"{int(Code[words[0]])} {words[1] if len(words) > 1 else '-'}"


def changes(lines):
    """What lines say of who acts."""
    bits = 0
    for line in lines:
        words = line.split()[1:]
        if words[1:2] in ([">"], ["begin"]) and words[0][1:].isdigit():
            bits |= 1 << int(words[0][1:]) - 1
            bits |= 512 * (words[1] == "begin")
        elif words[2:] == ["starts"]:
            bits |= 256
        elif words[2:] == ["end"] or words[2:3] and words[2].startswith("F_"):
            bits |= 1024
    return bits


class Events:
    """Random events of one system."""

    def __init__(self, seed, kernel, share_of_wrong=0.05):
        self.random, self.kernel = random.Random(f"events {seed}"), kernel
        self.share_of_wrong = share_of_wrong  # of the numbers, that are out of range

    def wrong(self):
        return self.random.random() < self.share_of_wrong

    def processor(self):
        processors = self.kernel.world.processors
        if self.wrong():
            return self.random.choice((0, len(processors) + 1, 9, 255))
        busy = [it.number for it in processors if it.actor]
        return self.random.choice(busy if busy and self.random.random() < 0.9 else range(1, len(processors) + 1))

    def service(self, processor):
        """A call; of a handler mostly one that it may make."""
        if self.wrong():
            return self.random.choice((0, len(SERVICES) + 1, 200, 255))
        there = 1 <= processor <= len(self.kernel.world.processors)
        actor = self.kernel.world.processors[processor - 1].actor if there else None
        if isinstance(actor, Handler) and self.random.random() < 0.8:
            return self.random.randint(51, 58)
        return self.random.randint(1, len(SERVICES))

    def argument(self):
        chosen = self.random.random()
        if chosen < 0.85:
            return self.random.randint(0, 3)
        if chosen < 0.95:
            return self.random.randint(-2, 20)
        return self.random.choice((-(1 << 31), (1 << 31) - 1, 65535, 65536, 255, 256, 1 << 30, (1 << 30) + 1))

    def next(self):
        chosen = self.random.random()
        if chosen < 0.80:
            processor = self.processor()
            arguments = " ".join(str(self.argument()) for _ in range(4))
            return f"call {processor} {self.service(processor)} {arguments}"
        if chosen < 0.86:
            return f"end {self.processor()}"
        if chosen < 0.88:
            fault = self.random.choice((0, 4)) if self.wrong() else self.random.randint(1, 3)
            return f"fault {self.processor()} {fault}"
        if chosen < 0.95:
            return "tick"
        handlers = self.kernel.system.interrupt_handlers
        known = [handler.number for handler in handlers]
        return f"int {self.random.choice((0, 33, 255)) if self.wrong() else self.random.choice(known or range(1, 33))}"
