"""The world of the model: what a system consists of, and the changes that its service calls share.

One list holds the order of all tasks that are ready or wait. Every ready queue and every wait queue is what a
look through that list finds, so no queue has links or marks of its own that could go wrong.
"""

from collections import Counter
from dataclasses import dataclass, field
from enum import Enum, IntEnum, auto

from model.bodies import Context

GREATEST_TIME = 1 << 30
LEAST_URGENT = 16
GREATEST_PATTERN = 65535
ALL_BITS, ANY_BIT = 0, 1
FREE, CPU = "free", "cpu"


class Code(IntEnum):
    """What a service call answers."""

    E_OK = 0
    E_PAR = -17
    E_ID = -18
    E_CTX = -25
    E_ILUSE = -28
    E_OBJ = -41
    E_QOVR = -43
    E_RLWAI = -49
    E_TMOUT = -50


@dataclass(frozen=True)
class Reply:
    """A code, and with some calls a value."""

    code: Code
    value: int | None = None

    def __str__(self):
        return self.code.name if self.value is None else f"{self.code.name} {self.value}"


class State(Enum):
    """The state of a task; the suspended mark and who runs are apart from it."""

    DORMANT = auto()
    READY = auto()
    WAITING = auto()


@dataclass(eq=False)
class WaitQueue:
    """A queue is known by itself; the order of the world says who stands in it."""

    by_priority: bool = False


@dataclass
class Wait:
    """The queue that a task stands in, and what it wants or brings."""

    queue: WaitQueue
    bits: int = 0
    mode: int = ALL_BITS
    word: int = 0


@dataclass(eq=False)
class Task:
    """A task; the fields up to `starts_at_setup` are its definition, with the processor that it has at first."""

    number: int
    processor: int
    allowed: frozenset
    body: int
    exinf: int
    initial_priority: int
    starts_at_setup: bool
    priority: int = field(init=False)
    state: State = State.DORMANT
    suspended: bool = False
    activations: int = 0
    stored_processor: int | None = None
    wakeups: int = 0
    wait: Wait | None = None
    deadline: int | None = None
    context: Context | None = None

    def __post_init__(self):
        self.priority = self.initial_priority

    @property
    def name(self):
        return f"T{self.number}"

    @property
    def is_ready(self):
        return self.state is State.READY and not self.suspended


@dataclass(eq=False)
class Handler:
    """What cyclic handlers and the handlers of interrupts have in common."""

    number: int
    processor: int
    body: int
    exinf: int = 0
    context: Context | None = None


@dataclass(eq=False)
class InterruptHandler(Handler):
    @property
    def name(self):
        return f"#{self.number}"


@dataclass(eq=False)
class CyclicHandler(Handler):
    starts_at_setup: bool = False
    period: int = 1
    phase: int = 0
    due: int | None = None  # when it becomes pending next; none while it is stopped

    @property
    def name(self):
        return f"C{self.number}"


@dataclass
class Processor:
    """A processor. Its lock is FREE, CPU or the number of the spin lock that it holds."""

    number: int
    running: Task | None = None
    lock: str | int = FREE
    dispatch_enabled: bool = True
    handler: Handler | None = None
    pending: list = field(default_factory=list)

    @property
    def actor(self):
        return self.handler or self.running

    @property
    def is_locked(self):
        return self.lock != FREE

    @property
    def holds_dispatch(self):
        return self.handler is not None or self.is_locked or not self.dispatch_enabled


@dataclass
class Semaphore:
    waiters: WaitQueue
    count: int
    greatest: int


@dataclass
class EventFlag:
    waiters: WaitQueue
    many_may_wait: bool
    clears: bool
    pattern: int

    def meets(self, bits, mode):
        """Whether all of these bits are set, or any of them."""
        common = self.pattern & bits
        return common == bits if mode == ALL_BITS else common != 0


@dataclass
class DataQueue:
    senders: WaitQueue
    capacity: int
    receivers: WaitQueue = field(default_factory=WaitQueue)
    words: list = field(default_factory=list)


@dataclass
class Mailbox:
    waiters: WaitQueue
    sorts_messages: bool
    least_urgent: int
    queued: list = field(default_factory=list)


@dataclass
class System:
    """What a configuration and a text of bodies describe. A message is its priority, a spin lock its number.

    `queue_limit` is how many activations, and how many wakeups, of a task can be queued.
    """

    processor_count: int
    tasks: list
    semaphores: list
    flags: list
    data_queues: list
    mailboxes: list
    messages: list
    shared_words: list
    spin_locks: list
    cyclic_handlers: list
    interrupt_handlers: list
    bodies: list
    queue_limit: int = 255


class World:
    """A system with its processors, the order of its tasks and its clock, and the lines printed so far."""

    def __init__(self, system):
        self.system = system
        self.tasks = system.tasks
        self.processors = [Processor(number) for number in range(1, system.processor_count + 1)]
        self.order = []
        self.clock = 0
        self.event = 0
        self.lines = []
        self.sleepers = WaitQueue()
        self.delayed = WaitQueue()
        self.situations = Counter()  # how often each came up, for the report of the comparison

    def say(self, processor, text):
        self.lines.append(f"{self.event} p{processor} {text}")

    # Queues

    def to_end(self, task):
        self.leave(task)
        self.order.append(task)

    def leave(self, task):
        if task in self.order:
            self.order.remove(task)

    def ready(self, processor):
        """The ready tasks of a processor, in order."""
        return [task for task in self.order if task.is_ready and task.processor == processor]

    def top(self, processor):
        """The first of the most urgent ready tasks of a processor."""
        return min(self.ready(processor), key=lambda task: task.priority, default=None)

    def members(self, queue):
        """The tasks of a wait queue, the first to be released first."""
        members = [task for task in self.order if task.wait and task.wait.queue is queue]
        return sorted(members, key=lambda task: task.priority) if queue.by_priority else members

    def first(self, queue):
        return next(iter(self.members(queue)), None)

    def runs(self, task):
        """Whether the task is what its processor runs, also below a handler."""
        return any(processor.running is task for processor in self.processors)

    # Changes of tasks

    def start(self, task):
        if task.stored_processor is not None:
            self.situations["a start takes a stored processor"] += 1
            self.situations["a start takes a stored processor, and activations stay queued"] += task.activations > 0
            task.processor, task.stored_processor = task.stored_processor, None
        task.state = State.READY
        task.priority = task.initial_priority
        task.wakeups = 0
        task.context = Context(task.exinf)
        self.to_end(task)
        self.say(task.processor, f"{task.name} starts")

    def release(self, task, reply):
        """A wait ends with a reply; a suspended task leaves the order."""
        task.wait = task.deadline = None
        task.context.take(reply)
        task.state = State.READY
        if task.suspended:
            self.situations["a suspended task is released"] += 1
            self.leave(task)
        else:
            self.to_end(task)
        self.say(task.processor, f"{task.name} gets {reply}")

    def wait(self, task, wait, deadline):
        task.state = State.WAITING
        task.wait = wait
        task.deadline = deadline
        self.to_end(task)

    def end(self, task):
        """A task becomes dormant, and starts again where an activation is queued."""
        self.leave(task)
        task.state = State.DORMANT
        task.wait = task.deadline = None
        task.priority = task.initial_priority
        task.wakeups = 0
        task.suspended = False
        for processor in self.processors:
            if processor.actor is task:
                processor.lock = FREE
                processor.dispatch_enabled = True
                processor.running = None
        if task.activations > 0:
            task.activations -= 1
            self.start(task)

    # Handlers and dispatching

    def make_pending(self, handler):
        """Whether the handler became pending, and was not so before."""
        pending = self.processors[handler.processor - 1].pending
        if handler in pending:
            return False
        pending.append(handler)
        return True

    def begin(self, processor):
        """The first pending handler begins: those of interrupts by number, then the cyclic ones."""
        handler = min(processor.pending, key=lambda handler: (isinstance(handler, CyclicHandler), handler.number))
        processor.pending.remove(handler)
        processor.handler = handler
        handler.context = Context(handler.exinf)
        self.say(processor.number, f"begin {handler.name}")

    def dispatch(self, processor):
        """The processor runs the first of its most urgent ready tasks."""
        before, processor.running = processor.running, self.top(processor.number)
        if processor.running is not before:
            is_cut = before is not None and before.is_ready and before.context.spent > 0
            self.situations["a task is preempted whose stretch was cut short"] += is_cut
            self.say(processor.number, f"> {processor.running.name if processor.running else '-'}")

    def settle(self):
        """On each processor a pending handler begins, or else it dispatches, where nothing holds that off."""
        for processor in self.processors:
            if processor.pending and processor.handler is None and processor.is_locked:
                self.situations["a handler waits for a lock to be freed"] += 1
            if processor.pending and processor.handler is None and not processor.is_locked:
                self.begin(processor)
            elif not processor.holds_dispatch:
                self.dispatch(processor)
