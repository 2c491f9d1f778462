"""Random systems: a configuration, the bodies of its tasks and handlers, and a list of events."""

import random
from dataclasses import dataclass

from model.bodies import ARRAY_PLACES, LOCALS, Assignment, Body, Call, Element, Endless, Return, Statement, Store
from model.versions import NEWEST, SHARES, VERSIONS, Version
from model.world import (
    GREATEST_TIME, Code, CyclicHandler, DataQueue, EventFlag, InterruptHandler, Mailbox, Semaphore, System, Task,
    WaitQueue,
)


def calls_by_group(services):
    """The calls of random bodies: a service and the kinds of its arguments. What stands twice is twice as likely."""
    groups = {}
    for service in services:
        for group, tries in service.tries.items():
            groups.setdefault(group, []).extend(" ".join([service.name, *kinds]) for kinds in tries)
    return groups


GROUPS = {number: calls_by_group(version.services) for number, version in VERSIONS.items()}

WAITING = ("waits", "semaphores", "flags", "data queues", "mailboxes")
FOR_TASKS = ("tasks", "migration", "processors", *WAITING)

# What handlers call to release tasks that wait as these groups do.
RELEASES = {
    "waits": ("iwup_tsk other", "iwup_tsk other", "irel_wai other"), "semaphores": ("isig_sem semaphore",),
    "flags": ("iset_flg flag bits",), "data queues": ("ipsnd_dtq data_queue word", "ifsnd_dtq data_queue word"),
    "mailboxes": ("irel_wai other",),
}

# The calls that some bodies make again and again until no more can be queued, and what they may call then, by whether
# they are handlers; and how many more events such a system is given.
FILLING = {False: ("act_tsk", "mact_tsk", "wup_tsk"), True: ("iact_tsk", "iwup_tsk")}
FILLED = {False: ("can_act", "can_wup", "ter_tsk"), True: ("irel_wai",)}
FILLING_EVENTS = 330

# What an urgent task may call on another one in the middle of its stretch, the one call after the other.
MEDDLING = (
    ("ter_tsk", "act_tsk"), ("ter_tsk", "act_tsk"), ("ter_tsk", "mact_tsk"), ("sus_tsk", "rsm_tsk"),
    ("sus_tsk", "mig_tsk", "rsm_tsk"), ("mig_tsk",),
)

# Kinds of arguments with a fixed choice.
CHOICES = {
    "usual_priority": (0, 5, 10, 16),
    "mask": (0, 1, 3, 6, 7, 65535, -1, 65536),
    "delay": (0, 1, 2, 3, 0, 1, 2, 3, -1, GREATEST_TIME, GREATEST_TIME + 1),
}
FAULTS = (Assignment(1, "/", 0), Assignment(2147483647, "+", 1))
FAULTS_OF_ELEMENTS = (Assignment(Element(-1), "+", 0), Store(ARRAY_PLACES, Assignment(1, "/", 0)))


@dataclass
class Case:
    """A system, its texts and how many events it is given."""

    system: System
    configuration: str
    source: str
    event_count: int
    version: Version  # of the image


class Generator:
    """Makes the system of a seed, for images of a version or of any. Numbers are mostly in range; queues are short and
    time limits small."""

    def __init__(self, seed, version=None):
        self.random = random.Random(seed)
        any_version = self.random.choices(tuple(SHARES), tuple(SHARES.values()))[0]
        self.version = VERSIONS[version or any_version]
        self.groups = GROUPS[self.version.number]
        self.filling = None  # the place of a body that queues as much as can be
        self.processor_count = self.random.choice((1, 1, 2, 2, 2, 2, 3, 3, 4, 5, 6, 7, 8))
        self.apis = {}  # of a kind of object: its static APIs, each with its class
        self.counts = {}
        self.interrupts = self.random.sample(range(1, 33), 8)
        self.waiting = self.random.sample(WAITING, self.random.randint(1, 2))
        self.favoured = [*self.waiting, *self.random.sample(FOR_TASKS, self.random.randint(0, 2))]
        self.kinds = {
            "task": self.task_number, "other": self.other_task_number, "processor": self.processor,
            "limit": self.limit, "priority": self.priority, "bits": self.bits, "mode": self.mode, "word": self.word,
        }

    def case(self):
        task_bodies, handler_bodies = self.random.randint(1, 5), self.random.randint(1, 3)
        task_count = self.random.randint(2, 4 + 2 * self.processor_count)
        makers = {
            "task": (task_count, lambda number: self.task(number, task_bodies)),
            "semaphore": (self.few(1), self.semaphore), "flag": (self.few(1), self.flag),
            "data_queue": (self.few(1), self.data_queue), "mailbox": (self.few(1), self.mailbox),
            "message": (self.few(4), self.message), "shared_word": (self.few(2), self.shared_word),
            "spin_lock": (self.few(2), self.spin_lock),
            "cyclic": (self.few(3), lambda number: self.cyclic(number, task_bodies, handler_bodies)),
            "interrupt": (self.few(4), lambda place: self.interrupt(place, task_bodies, handler_bodies)),
        }
        objects = {kind: self.objects(kind, *maker) for kind, maker in makers.items()}
        self.counts = {kind: len(made) for kind, made in objects.items()}
        bodies = [self.body(f"b{number}", False) for number in range(task_bodies)]
        bodies += [self.body(f"h{number}", True) for number in range(handler_bodies)]
        system = System(self.processor_count, *objects.values(), bodies, self.version.queue_limit)
        event_count = self.random.randint(60, 180) + 20 * self.processor_count
        if self.version == NEWEST and self.chance(0.08):
            self.filling = self.random.randrange(len(bodies))
            bodies[self.filling] = self.filling_body(bodies[self.filling])
            event_count += FILLING_EVENTS
        elif self.chance(0.3):
            urgent = min(system.tasks, key=lambda task: task.priority)
            bodies[urgent.body] = self.meddling_body(bodies[urgent.body], system.tasks, urgent)
        return Case(system, self.configuration(), "".join(map(str, bodies)), event_count, self.version)

    def chance(self, share):
        return self.random.random() < share

    def few(self, most):
        """How many objects of a kind; now and then none, or one more than most."""
        return 0 if self.chance(0.05) else self.random.randint(1, most) + self.chance(0.3)

    def queue(self):
        by_priority = self.chance(0.5)
        return WaitQueue(by_priority), int(by_priority)

    # Objects: each of these adds a static API and gives the model's object

    def objects(self, kind, count, make):
        self.apis[kind] = []
        return [make(number) for number in range(1, count + 1)]

    def api(self, kind, processor, text, only=False):
        self.apis[kind].append((f"TCL_{processor}{'_ONLY' if only else ''}", text))

    def any_processor(self):
        return self.random.randint(1, self.processor_count)

    def task(self, number, body_count):
        starts = self.chance(0.75)
        priority = self.random.choice((1, 5, 5, 10, 10, 16, self.random.randint(1, 16)))
        body = self.random.randrange(body_count)
        exinf = self.random.randint(-3, 9)
        processor, only = self.any_processor(), self.chance(0.2)
        attribute = "TA_ACT" if starts else "0"
        text = f"CRE_TSK(T{number},{{{attribute},{exinf},b{body},{priority},512,NULL}});"
        self.api("task", processor, text, only)
        allowed = frozenset([processor] if only else range(1, self.processor_count + 1))
        return Task(number, processor, allowed, body, exinf, priority, starts)

    def semaphore(self, number):
        queue, attribute = self.queue()
        greatest = self.random.randint(1, 3)
        count = self.random.randint(0, greatest)
        self.api("semaphore", self.any_processor(), f"CRE_SEM(S{number},{{{attribute},{count},{greatest}}});")
        return Semaphore(queue, count, greatest)

    def flag(self, number):
        queue, attribute = self.queue()
        many_may_wait, clears = (self.chance(0.5) for _ in range(2))
        pattern = self.random.randint(0, 7)
        attribute += 2 * many_may_wait + 4 * clears
        self.api("flag", self.any_processor(), f"CRE_FLG(F{number},{{{attribute},{pattern}}});")
        return EventFlag(queue, many_may_wait, clears, pattern)

    def data_queue(self, number):
        queue, attribute = self.queue()
        capacity = self.random.randint(0, 2)
        self.api("data_queue", self.any_processor(), f"CRE_DTQ(D{number},{{{attribute},{capacity},NULL}});")
        return DataQueue(queue, capacity)

    def mailbox(self, number):
        queue, attribute = self.queue()
        sorts_messages = self.chance(0.5)
        least_urgent = self.random.randint(1, 4)
        attribute += 2 * sorts_messages
        self.api("mailbox", self.any_processor(), f"CRE_MBX(X{number},{{{attribute},{least_urgent},NULL}});")
        return Mailbox(queue, sorts_messages, least_urgent)

    def message(self, number):
        priority = self.random.randint(1, 5)
        self.api("message", self.any_processor(), f"CRE_MSG(G{number},{{{priority}}});")
        return priority

    def shared_word(self, number):
        word = self.random.randint(-5, 5)
        self.api("shared_word", self.any_processor(), f"CRE_SHR(W{number},{{{word}}});")
        return word

    def spin_lock(self, number):
        self.api("spin_lock", self.any_processor(), f"CRE_SPN(L{number},{{0}});")
        return number

    def cyclic(self, number, first_body, body_count):
        body, processor = self.random.randrange(body_count), self.any_processor()
        starts, exinf = self.chance(0.7), self.random.randint(-1, 9)
        period, phase = self.random.randint(1, 6), self.random.choice((0, 0, 1, 2, 5))
        text = f"CRE_CYC(C{number},{{{'TA_STA' if starts else '0'},{exinf},h{body},{period},{phase}}});"
        self.api("cyclic", processor, text)
        return CyclicHandler(number, processor, first_body + body, exinf, None, starts, period, phase)

    def interrupt(self, place, first_body, body_count):
        number = self.interrupts[place - 1]
        body, processor = self.random.randrange(body_count), self.any_processor()
        self.api("interrupt", processor, f"DEF_INH({number},{{0,h{body}}});")
        return InterruptHandler(number, processor, first_body + body)

    def configuration(self):
        """The static APIs in a random order that keeps each kind's own, in blocks of one class."""
        left = [apis[::-1] for apis in self.apis.values() if apis]
        lines = [f"NUM_PRC({self.processor_count});"]
        while left:
            kind = self.random.choice(left)
            class_name, text = kind.pop()
            lines.append(f"CLASS({class_name}) {{ {text} }}")
            left = [apis for apis in left if apis]
        return "".join(f"{line}\n" for line in lines)

    # Bodies

    def body(self, name, is_handler):
        repeats = self.chance(0.03 if is_handler else 0.85)
        pieces = self.random.randint(1, 4) if is_handler else self.random.randint(2, 14)
        make = self.handler_piece if is_handler else self.task_piece
        statements = [statement for _ in range(pieces) for statement in make()]
        if repeats:
            statements.append(Statement(self.call_of("words")))
        return Body(name, is_handler, repeats, statements)

    def filling_body(self, body):
        """In place of a body one that queues activations or wakeups of one task, and does something at the limit."""
        service = self.random.choice(FILLING[body.is_handler])
        number = 0 if not body.is_handler and self.chance(0.5) else self.random.randint(1, self.counts["task"])
        arguments = [number, self.any_processor()] if service == "mact_tsk" else [number]
        at_limit = Return() if self.chance(0.4) else Call(self.random.choice(FILLED[body.is_handler]), [number])
        statements = [Statement(Call(service, arguments, True)), Statement(at_limit, ("r", int(Code.E_QOVR)))]
        return Body(body.name, body.is_handler, True, statements)

    def meddling_body(self, body, tasks, urgent):
        """In place of the body of an urgent task one that waits, while other tasks of its processor go on, and then
        ends, suspends or moves them, and mostly moves with them."""
        others = [task.number for task in tasks if task.processor == urgent.processor and task is not urgent]
        statements = []
        for _ in range(self.random.randint(1, 5)):
            number = self.random.choice(others or [task.number for task in tasks])
            statements.append(Statement(Call("dly_tsk", [self.random.choice((0, 0, 1))])))
            target = self.any_processor()
            services = self.random.choice(MEDDLING)
            for service in services:
                moves = service in ("mig_tsk", "mact_tsk")
                statements.append(Statement(Call(service, [number, target] if moves else [number])))
            if "mig_tsk" in services and self.chance(0.7):
                statements.append(Statement(Call("mig_tsk", [0, target])))
        return Body(body.name, False, True, statements)

    def task_piece(self):
        """A few statements: mostly one call, else calls that belong together, or something that is no call."""
        shape = self.random.random()
        if shape < 0.62:
            return [self.guarded(self.task_call())]
        if shape < 0.67:
            return self.computation()
        if shape < 0.75:
            return self.under_spin_lock()
        if shape < 0.80:
            return self.between(Call("loc_cpu", []), Call("unl_cpu", []))
        if shape < 0.86:
            return self.between(Call("dis_dsp", []), Call("ena_dsp", []))
        if shape < 0.90:
            return self.migration_of_another()
        if shape < 0.94:
            return self.restart_elsewhere()
        if shape < 0.98:
            return self.change_of_order()
        return [self.guarded(self.no_call())]

    def handler_piece(self):
        shape = self.random.random()
        if shape < 0.2:
            return [self.guarded(self.call_of("handlers"))]
        if shape < 0.4:
            return [self.guarded(self.call("iact_tsk other"))]
        if shape < 0.75:
            return [self.guarded(self.call(self.random.choice(RELEASES[self.random.choice(self.waiting)])))]
        if shape < 0.85:
            return [self.guarded(self.call_of("words"))]
        if shape < 0.94:
            return [self.guarded(self.task_call())]
        return [self.guarded(self.no_call())]

    def guarded(self, action):
        return Statement(action, self.condition(0.1))

    def condition(self, share):
        """What an `if` asks, or none: with this chance there is one."""
        if not self.chance(share):
            return None
        return self.random.choice(LOCALS), self.random.choice((0, 0, 1, 2, 3, -43, -50, -25))

    def task_call(self):
        groups = self.favoured if self.chance(0.75) else tuple(self.groups)
        return self.call_of(self.random.choice(groups))

    def no_call(self):
        chosen = self.random.random()
        if chosen < 0.25:
            return Return()
        if chosen < 0.3:
            return Endless()
        if chosen < 0.6:
            return self.random.choice(FAULTS + self.version.has_elements * FAULTS_OF_ELEMENTS)
        assignment = Assignment(self.operand(), self.random.choice("++/"), self.operand())
        return Store(self.index(), assignment) if self.version.has_elements and self.chance(0.5) else assignment

    def operand(self):
        chosen = self.random.random()
        if chosen < 0.5:
            return self.random.choice(LOCALS)
        return Element(self.index()) if self.version.has_elements and chosen < 0.7 else self.random.randint(-3, 3)

    def index(self):
        """An index, mostly of a place of the array."""
        if self.chance(0.2):
            return self.random.choice(LOCALS)
        return self.random.randint(-1 if self.chance(0.1) else 0, ARRAY_PLACES - 1)

    def between(self, first, last):
        """A few calls between two, the second of which may be left out."""
        inner = [self.guarded(self.inner_call()) for _ in range(self.random.randint(0, 4))]
        return [Statement(first), *inner, *([Statement(last)] if self.chance(0.9) else [])]

    def inner_call(self):
        return self.call_of("words") if self.chance(0.4) else self.task_call()

    def under_spin_lock(self):
        """A part under a spin lock, with what may be called there, and now and then a fault."""
        number = self.object_number(self.counts["spin_lock"])
        first = [Statement(Assignment("v", "+", 1))] if self.chance(0.2) else []
        taken = Call(self.random.choice(("loc_spn", "loc_spn", "try_spn")), [number], keeps_answer=True)
        inner = [self.guarded(self.call_of("words")) for _ in range(self.random.randint(0, 5))]
        if self.chance(0.3):
            inner.append(self.guarded(self.task_call()))
        if self.chance(0.15):
            inner.append(self.guarded(self.no_call()))
        return [*first, Statement(taken), *inner, *([Statement(Call("unl_spn", [number]))] if self.chance(0.9) else [])]

    def computation(self):
        """A few statements that make a stretch long."""
        sums = [Assignment(self.random.choice(LOCALS), "+", 1) for _ in range(self.random.randint(2, 8))]
        return [Statement(each) for each in sums]

    def migration_of_another(self):
        """A task is suspended, migrates and goes on, in this order, or some of it."""
        number = self.other_task_number()
        calls = []
        if self.chance(0.6):
            calls.append(Call("sus_tsk", [number]))
        if self.chance(0.8):
            calls.append(Call("mig_tsk", [number, self.processor()], keeps_answer=True))
        if self.chance(0.8):
            calls.append(Call("rsm_tsk", [number]))
        return [Statement(call) for call in calls]

    def restart_elsewhere(self):
        """A task keeps a processor for its next start and mostly ends, or keeps it no longer."""
        number = self.task_number() if self.chance(0.3) else 0
        calls = [Call("mig_tsk", [number, self.processor()])] if self.chance(0.4) else []
        if self.chance(0.7):
            calls.append(Call("mact_tsk", [number, self.processor()], keeps_answer=True))
        if self.chance(0.3):
            calls.append(Call("mact_tsk", [number, self.processor()]))
        if self.chance(0.4):
            calls.append(Call("can_act", [number]))
            calls.append(Call("act_tsk", [number]))
        statements = [Statement(call) for call in calls]
        if self.chance(0.7):
            statements.append(Statement(self.random.choice((Return(), Call("ext_tsk", []))), self.condition(0.3)))
        return statements

    def change_of_order(self):
        """Priorities and the order of tasks change, and changes of one's own are told by a rotation."""
        number = self.task_number()
        calls = [Call("chg_pri", [number, self.priority()]), self.rotation(self.random.choice((0, 0, 5, 10)))]
        if self.chance(0.3):
            calls.append(Call("get_pri", [number]))
        return [Statement(call) for call in calls]

    def rotation(self, priority):
        if self.version == NEWEST and self.chance(0.5):
            return Call("mrot_rdq", [priority, self.processor()])
        return Call("rot_rdq", [priority])

    def call_of(self, group):
        return self.call(self.random.choice(self.groups[group]))

    def call(self, text):
        service, *kinds = text.split()
        return Call(service, [self.argument(kind) for kind in kinds], keeps_answer=self.chance(0.4))

    def argument(self, kind):
        if kind in LOCALS:
            return kind
        if kind in CHOICES:
            return self.random.choice(CHOICES[kind])
        if kind in self.kinds:
            return self.kinds[kind]()
        return self.object_number(self.counts[kind])

    def object_number(self, count):
        if self.chance(0.05):
            return self.random.choice((-1, 0, count + 1))
        return self.random.randint(1, max(1, count))

    def task_number(self):
        count = self.counts["task"]
        if self.chance(0.06):
            return self.random.choice((-1, count + 1, "exinf", "exinf", "v"))
        return 0 if self.chance(0.2) else self.random.randint(1, count)

    def other_task_number(self):
        """The number of a task, but 0 only by mistake: a handler has no task of its own."""
        return "exinf" if self.chance(0.1) else self.object_number(self.counts["task"])

    def processor(self):
        if self.chance(0.06):
            return self.random.choice((-1, 0, self.processor_count + 1))
        return self.any_processor()

    def limit(self):
        short = -2 if self.chance(0.3) else 1
        long = GREATEST_TIME + 1 if self.chance(0.2) else GREATEST_TIME
        return self.random.choice((-1, 0, 0, 1, 2, 3, 3, short, long))

    def priority(self):
        return self.random.choice((0, 5, 10, self.random.randint(-1, 17)))

    def bits(self):
        none = 0 if self.chance(0.3) else 1
        many = 65536 if self.chance(0.2) else 2
        return self.random.choice((1, 2, 4, 3, 5, 6, 7, 1, 2, 4, none, many))

    def mode(self):
        last = 2 if self.chance(0.2) else 0
        return self.random.choice((0, 1, 0, 1, 0, 1, last))

    def word(self):
        return self.random.choice((self.random.randint(-9, 99), *LOCALS))

    # Events

    def event(self, world):
        """A run, a tick or an interrupt: mostly one that does something in this world."""
        filling = [p.number for p in world.processors if p.actor and p.actor.body == self.filling]
        if filling and self.chance(0.9):
            return f"run {filling[0]}"
        chosen = self.random.random()
        busy = [processor.number for processor in world.processors if processor.actor]
        if chosen < 0.84 and (busy or chosen < 0.1):
            return f"run {self.random.choice(busy) if busy and chosen > 0.03 else self.any_processor()}"
        if chosen < 0.95:
            return "tick"
        handlers = world.system.interrupt_handlers
        known = [handler.number for handler in handlers] if chosen < 0.99 else ()
        return f"int {self.random.choice(known or range(1, 33))}"
