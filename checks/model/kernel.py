"""A model of the kernel, apart from the program and far simpler: its events and its trace."""

from collections import Counter
from math import inf

from model.bodies import Stop, stretch
from model.services import ENDS, WAITS, LockIsHeld, Refused, Services
from model.world import FREE, Code, Handler, Reply, State, World

KEPT = ""  # what a run says that its bound cuts short


class Kernel:
    """A system at work: `step` takes an event as a steps text spells it; a run makes `bound` instructions at most."""

    def __init__(self, system, bound):
        self.system = system
        self.bound = bound
        self.world = World(system)
        self.taken = 0  # the events that have a number, and the runs that kept their place
        self.calls = Counter()  # of caller ("task", "handler"), service call and case of its reply
        for task in system.tasks:
            if task.starts_at_setup:
                self.world.start(task)
        for handler in system.cyclic_handlers:
            if handler.starts_at_setup:
                handler.due = handler.phase + 1
        self.world.settle()

    @property
    def kept(self):
        """How many runs kept their place."""
        return self.taken - self.world.event

    # Events

    def step(self, event):
        """One event. What does nothing has no number and leaves all as it was; nor has a run that is cut short one."""
        kind, *number = event.split()
        self.world.event += 1
        before = len(self.world.lines)
        own_line = {"run": self.run, "tick": self.tick, "int": self.interrupt}[kind](*map(int, number))
        self.taken += own_line is not None
        if not own_line:
            self.world.event -= 1
            return
        self.world.lines.insert(before, f"{self.world.event} {own_line}")
        self.world.settle()

    def run(self, number):
        """The actor goes on to its next call, its end or its fault, and that is carried out; or it is cut short."""
        processor = self.world.processors[number - 1]
        actor = processor.actor
        if actor is None:
            return None
        what, context = stretch(self.system.bodies[actor.body], actor.context)
        if context.units > actor.context.spent + self.bound:
            actor.context.spent += self.bound
            self.world.situations["a stretch is cut short"] += context.units < inf
            self.world.situations["a handler's stretch is cut short"] += isinstance(actor, Handler)
            return KEPT
        is_fault = isinstance(what, Stop) and what is not Stop.END
        self.world.situations["a stretch that was cut short ends with a fault"] += is_fault and actor.context.spent > 0
        try:
            text = self.stop(processor, what) if isinstance(what, Stop) else self.call(processor, what, context)
        except LockIsHeld:
            self.world.situations["a spin lock is asked for that another processor holds"] += 1
            self.world.situations["a stretch that was cut short comes to a held spin lock"] += actor.context.spent > 0
            return None
        return f"p{number} {actor.name} {text}"

    def tick(self):
        """Waits whose deadline is now end in order of task number; then cyclic handlers become pending."""
        self.world.clock += 1
        for task in self.system.tasks:
            if task.deadline == self.world.clock:
                is_delay = task.wait.queue is self.world.delayed
                self.world.release(task, Reply(Code.E_OK if is_delay else Code.E_TMOUT))
        for handler in self.system.cyclic_handlers:
            if handler.due == self.world.clock:
                handler.due += handler.period
                if self.world.make_pending(handler):
                    self.world.say(handler.processor, f"cyc {handler.name}")
                else:
                    self.world.situations["a cyclic handler is due that is pending already"] += 1
        return f"tick {self.world.clock}"

    def interrupt(self, number):
        """The interrupt's handler becomes pending; without one, or if it is so already, nothing happens."""
        found = [handler for handler in self.system.interrupt_handlers if handler.number == number]
        if not found or not self.world.make_pending(found[0]):
            return None
        return f"int {number}"

    # What an actor comes to

    def stop(self, processor, stop):
        """The end or fault of the actor's body, or a task's own end."""
        actor = processor.actor
        is_fault = stop is not Stop.END
        if isinstance(actor, Handler):
            processor.handler = None
            self.world.situations["a handler ends with a fault"] += is_fault
        else:
            self.world.situations["a task ends with a fault under a spin lock"] += (
                is_fault and isinstance(processor.lock, int))
            self.world.situations["a task ends with its processor locked"] += processor.lock != FREE
            self.world.end(actor)
        return stop.value

    def call(self, processor, call, context):
        """A call of the actor, whose context is this one after it."""
        actor = processor.actor
        arguments = [context.read(argument) for argument in call.arguments]
        answer, case = self.serve(Services(self.world, actor, processor), call.service, arguments)
        self.calls["handler" if isinstance(actor, Handler) else "task", call.service, case] += 1
        actor.context = context
        if answer == ENDS:
            return self.stop(processor, Stop.END)
        if answer != WAITS:
            context.take(answer)
        return f"{call.service}({','.join(map(str, arguments))}) {answer}"

    def serve(self, services, service, arguments):
        """The reply of a call, WAITS or ENDS, and how the report of the comparison calls it."""
        try:
            given = services.serve(service, arguments)
        except Refused as refusal:
            return Reply(refusal.code), refusal.case
        return (given, given) if given in (WAITS, ENDS) else (Reply(Code.E_OK, given), Code.E_OK.name)

    # States

    def state_line(self, task):
        """The line of a task's state."""
        if task.state is State.WAITING:
            word = "WAITING-SUSPENDED" if task.suspended else "WAITING"
        elif task.suspended:
            word = "SUSPENDED"
        else:
            word = "RUNNING" if task.is_ready and self.world.runs(task) else task.state.name
        return f"{task.name} {word} p{task.processor} {task.priority}"

    def text(self):
        """The trace and the states."""
        states = [self.state_line(task) for task in self.system.tasks]
        return "".join(f"{line}\n" for line in self.world.lines + states)
