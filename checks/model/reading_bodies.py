"""The second reader of texts: task texts, and which fault of two texts is the first, from docs/LANGUAGE.md."""

from dataclasses import dataclass, field

from model.reading import (
    CALLS, CONSTANTS, MOST_OF_A_KIND, ConfigurationReader, Fault, Reader, Token, judge_configuration,
)

LEVELS = ("||",), ("&&",), ("|",), ("^",), ("&",), ("==", "!="), ("<", "<=", ">", ">="), ("+", "-"), ("*", "/", "%")
DEEPEST, MOST_PLACES, MOST_INSTRUCTIONS = 64, 64, 65535


@dataclass
class Node:
    """A part of a body: how many instructions it is by itself, its parts in order, the uses of names in it by itself,
    each a token and how it is used, and whether the operand of a part stays while the parts after it are worked out.
    What has no instruction, as an out place, is no operand."""

    own: int
    parts: list = field(default_factory=list)
    uses: list = field(default_factory=list)
    holds: bool = False

    def size(self):
        return self.own + sum(part.size() for part in self.parts)

    def depth(self):
        """How many operands are held at most."""
        deepest = held = 0
        for part in self.parts:
            deepest = max(deepest, held + part.depth())
            held += self.holds and part.own > 0
        return deepest

    def all_uses(self):
        """The uses of names, in order of the text."""
        yield from self.uses
        for part in self.parts:
            yield from part.all_uses()


class Operand(Node):
    """A number, a constant or a name, which is an operand."""

    def depth(self):
        return 1


@dataclass
class Body:
    """A body: its kind, the line of that, its name, its variables, each with its length, and what stands in it."""

    kind: str
    line: int
    name: Token
    variables: list
    statements: Node


class TextReader(Reader):
    """The tree of a task text. `open` counts the levels that are open, and `loops` the loops."""

    def __init__(self, text):
        super().__init__(text)
        self.open = self.loops = 0

    def opened(self, read):
        """What this reads in a level of its own, which the next token opens."""
        if self.open == DEEPEST:
            raise Fault("B5", self.next.line)
        self.open += 1
        node = read()
        self.open -= 1
        return node

    def bracketed(self, left, right):
        self.expect(left)
        node = self.expression()
        self.expect(right)
        return node

    def primary(self):
        if self.is_at("-", "!", "~"):
            return self.opened(self.signed)
        if self.is_at("("):
            return self.opened(lambda: self.bracketed("(", ")"))
        if self.next.kind == "number" or self.is_at(*CONSTANTS):
            self.place += 1
            return Operand(1)
        name = self.take("name")
        if self.is_at("["):
            return Node(1, [self.opened(lambda: self.bracketed("[", "]"))], [(name, "element")])
        return Operand(1, uses=[(name, "value")])

    def signed(self):
        self.expect("-", "!", "~")
        return Node(1, [self.primary()])

    def expression(self, level=0):
        if level == len(LEVELS):
            return self.primary()
        node = self.expression(level + 1)
        while self.is_at(*LEVELS[level]):
            is_short = self.expect(*LEVELS[level]).value in ("&&", "||")
            node = Node(4 if is_short else 1, [node, self.expression(level + 1)], holds=not is_short)
        return node

    def argument(self, letter):
        if letter == "v":
            return self.expression
        return lambda: self.expect("&") and Node(0, uses=[(self.take("name"), "target")])

    def call(self, uses=()):
        word = self.expect(*CALLS)
        self.expect("(")
        arguments = self.listed([self.argument(letter) for letter in CALLS[word.value]])
        self.expect(")")
        self.expect(";")
        return Node(1, arguments, list(uses), holds=True)

    def block(self):
        if not self.is_at("{"):
            self.refuse()
        return self.opened(lambda: self.expect("{") and self.statements())

    def statements(self):
        node = Node(0)
        while not self.skip("}"):
            node.parts.append(self.statement())
        return node

    def chosen(self):
        self.expect("if")
        condition, block = self.bracketed("(", ")"), self.block()
        if not self.skip("else"):
            return Node(1, [condition, block])
        other = self.opened(self.chosen) if self.is_at("if") else self.block()
        return Node(2, [condition, block, other])

    def loop(self):
        self.expect("while")
        condition = self.bracketed("(", ")")
        self.loops += 1
        node = Node(2, [condition, self.block()])
        self.loops -= 1
        return node

    def jump(self):
        if not self.is_at("return") and not self.loops:
            self.refuse()
        self.place += 1
        self.expect(";")
        return Node(1)

    def assignment(self):
        name = self.take("name")
        if self.is_at("["):
            index = self.opened(lambda: self.bracketed("[", "]"))
            self.expect("=")
            node = Node(1, [index, self.expression()], [(name, "stored")], holds=True)
        else:
            self.expect("=")
            if self.is_at(*CALLS):
                return self.call([(name, "target")])
            node = Node(1, [self.expression()], [(name, "target")])
        self.expect(";")
        return node

    def statement(self):
        if self.next.kind == "name":
            return self.assignment()
        if self.is_at(*CALLS):
            return self.call()
        if self.is_at("break", "continue", "return"):
            return self.jump()
        return self.loop() if self.is_at("while") else self.chosen()

    def variable(self):
        name, length = self.take("name"), None
        if self.skip("["):
            length = self.take("number")
            self.expect("]")
        self.expect(";")
        return name, length

    def bodies(self):
        bodies = []
        while self.next.kind != "end":
            kind = self.expect("task", "handler")
            name, variables = self.take("name"), []
            self.expect("{")
            while self.skip("var"):
                variables.append(self.variable())
            bodies.append(Body(kind.value, kind.line, name, variables, self.statements()))
        return bodies


def locals_of(body, objects):
    """The variables of a body with their lengths, None for a plain one, if none is refused."""
    found, places = {"exinf": None}, 1
    for name, length in body.variables:
        places += 1 if length is None else length.value
        if places > MOST_PLACES:
            raise Fault("B5", name.line)
        if name.value in found or name.value in objects:
            raise Fault("B2", name.line)
        if length is not None and not 1 <= length.value < MOST_PLACES:
            raise Fault("B5", length.line)
        found[name.value] = length
    return found


def judge_use(name, use, found, objects):
    """Refuses a name that may not be used so."""
    is_local = name.value in found
    is_known = is_local or name.value in objects and use in ("value", "element")
    is_array = is_local and found[name.value] is not None
    if not is_known:
        raise Fault("B3", name.line)
    if is_array != (use in ("element", "stored")):
        raise Fault("B9", name.line)


def judge_bodies(bodies, objects):
    """The bodies by their names, if none is refused."""
    judged = {}
    for body in bodies:
        if len(judged) == MOST_OF_A_KIND:
            raise Fault("B5", body.line)
        if body.name.value in judged:
            raise Fault("B2", body.name.line)
        found = locals_of(body, objects)
        for name, use in body.statements.all_uses():
            judge_use(name, use, found, objects)
        if body.statements.size() + 1 > MOST_INSTRUCTIONS or body.statements.depth() > DEEPEST:
            raise Fault("B5", body.line)
        judged[body.name.value] = body
    return judged


def judge_entries(apis, bodies):
    """Refuses a static API whose entry is no body of its kind, or needs more stack than it has."""
    for api in apis:
        if api.entry is None:
            continue
        body, kind = bodies.get(api.entry), "task" if api.word == "CRE_TSK" else "handler"
        if body is None:
            raise Fault("B3", api.line)
        if body.kind != kind:
            raise Fault("B7", api.line)
        if kind == "task" and api.values()[3] < 4 * body.statements.depth():
            raise Fault("B6", api.line)


def verdict(configuration, source):
    """What `fmp check` says of two texts."""
    text = "cfg"
    try:
        apis = judge_configuration(*ConfigurationReader(configuration).configuration())
        text = "src"
        objects = {api.first for api in apis if api.word != "DEF_INH"}
        bodies = judge_bodies(TextReader(source).bodies(), objects)
        text = "cfg"
        judge_entries(apis, bodies)
    except Fault as fault:
        return f"{text}:{fault.line}: {fault.code}"
    return "ok"
