"""The instructions of a body in the model, as docs/LANGUAGE.md counts them: where a body stands among them, with which
operands, and which of its locals are live there. The array counts as one local.

A local is live where it may be read before it is written anew, whichever way the conditions go; else it is dead. The
local at the out place of a call is written by E_OK alone, or, where out places count as written, by every reply.
"""

from dataclasses import dataclass

from model.bodies import Assignment, Call, Element, Endless, Return, Store, divide

ARRAY = "a"
LOCALS = ("exinf", "v", "r", ARRAY)


@dataclass(frozen=True)
class Number:
    """Pushes a number."""

    number: int


@dataclass(frozen=True)
class Read:
    """Pushes a local."""

    local: str


@dataclass(frozen=True)
class Minus:
    """Changes the sign of the operand."""


@dataclass(frozen=True)
class ReadElement:
    """Takes an index and pushes what the array has there."""


@dataclass(frozen=True)
class Write:
    """Takes an operand into a local."""

    local: str


@dataclass(frozen=True)
class WriteElement:
    """Takes an operand, then an index, and puts the one at the other in the array."""


@dataclass(frozen=True)
class Compute:
    """Takes two operands and pushes what the operator gives."""

    operator: str


@dataclass(frozen=True)
class GoTo:
    place: int


@dataclass(frozen=True)
class GoToIfZero:
    """Takes an operand, and goes there if it is 0."""

    place: int


@dataclass(frozen=True)
class Ask:
    """Makes a call; its arguments are the operands."""

    call: Call


@dataclass(frozen=True)
class Finish:
    pass


def operand_of(operand):
    """The instructions that push an operand."""
    match operand:
        case str():
            return [Read(operand)]
        case Element(index):
            return [*operand_of(index), ReadElement()]
        case _:
            return [Number(abs(operand)), *([Minus()] if operand < 0 else [])]


def value_of(assignment):
    return [*operand_of(assignment.left), *operand_of(assignment.right), Compute(assignment.operator)]


def action_of(action, place):
    """The instructions of an action whose first is the one at this place."""
    match action:
        case Call(arguments=arguments):
            return [*(one for argument in arguments for one in operand_of(argument)), Ask(action)]
        case Assignment():
            return [*value_of(action), Write("v")]
        case Store(index, value):
            return [*operand_of(index), *value_of(value), WriteElement()]
        case Return():
            return [Finish()]
        case Endless():
            return [Number(1), GoToIfZero(place + 3), GoTo(place)]


def statement_of(statement, place):
    """The instructions of a statement whose first is the one at this place."""
    if statement.only_if is None:
        return action_of(statement.action, place)
    condition = [one for operand in statement.only_if for one in operand_of(operand)] + [Compute("==")]
    inner = action_of(statement.action, place + len(condition) + 1)
    return [*condition, GoToIfZero(place + len(condition) + 1 + len(inner)), *inner]


def computed(operator, left, right):
    match operator:
        case "+":
            return left + right
        case "/":
            return divide(left, right)
        case "==":
            return int(left == right)


class Code:
    """The instructions of a body: for each statement, and for the end after them, the place of its first one, and
    for each place the locals that are live there."""

    def __init__(self, body, outs=False):
        self.instructions, self.firsts, self.outs = [], [], outs
        if body.repeats:
            self.instructions += [Number(1), None]
        for statement in body.statements:
            self.firsts.append(len(self.instructions))
            self.instructions += statement_of(statement, len(self.instructions))
        self.firsts.append(len(self.instructions))
        if body.repeats:
            self.firsts[0] = 0
            self.instructions += [GoTo(0)]
            self.instructions[1] = GoToIfZero(len(self.instructions))
        self.instructions += [Finish()]
        self.live = self.traced()

    def needed(self, place, live):
        """The locals that have to be live at a place, where those that are live elsewhere are these."""
        match self.instructions[place]:
            case Read(local):
                return live[place + 1] | {local}
            case ReadElement():
                return live[place + 1] | {ARRAY}
            case Write(local):
                return live[place + 1] - {local}
            case Ask(call):
                return live[place + 1] - self.answered(call)
            case GoTo(target):
                return live[target]
            case GoToIfZero(target):
                return live[target] | live[place + 1]
            case Finish():
                return frozenset()
            case _:
                return live[place + 1]

    def answered(self, call):
        """The locals that every reply to a call writes."""
        return ({"r"} if call.keeps_answer else set()) | ({"v"} if self.outs and call.has_place else set())

    def traced(self):
        """The live locals of each place: none at first, and then all that have to be, until no more do."""
        live = [frozenset() for _ in self.instructions]
        grown = True
        while grown:
            before = list(live)
            for place in reversed(range(len(live))):
                live[place] = frozenset(self.needed(place, live))
            grown = live != before
        return live

    def follow(self, place, operands, context):
        """Makes the instruction at a place, which is no call, no end and no fault: the next place, and the operands."""
        match self.instructions[place]:
            case Number(number):
                return place + 1, [*operands, number]
            case Read(local):
                return place + 1, [*operands, getattr(context, local)]
            case Minus():
                return place + 1, [*operands[:-1], -operands[-1]]
            case ReadElement():
                return place + 1, [*operands[:-1], context.a[operands[-1]]]
            case Compute(operator):
                return place + 1, [*operands[:-2], computed(operator, *operands[-2:])]
            case Write(local):
                setattr(context, local, operands[-1])
                return place + 1, operands[:-1]
            case WriteElement():
                context.store(*operands[-2:])
                return place + 1, operands[:-2]
            case GoTo(target):
                return target, operands
            case GoToIfZero(target):
                return (place + 1 if operands[-1] else target), operands[:-1]

    def standing(self, context, is_waiting):
        """Where a body stands, its operands, and its locals with 0 for those that are dead. While it waits, the locals
        that every reply to its call writes are dead too. The context is the caller's no more."""
        place, operands = self.firsts[context.position], []
        for _ in range(context.spent):
            place, operands = self.follow(place, operands, context)
        live = self.live[place] - (self.answered(context.call) if is_waiting else set())
        return place, tuple(operands), tuple(getattr(context, local) if local in live else 0 for local in LOCALS)
