"""Random task texts that nest what the bodies of the model do not: expressions, loops, and operands of which several
may end a body, by different faults; and a text that calculates at the limits of 32 bits."""

import re
from itertools import product

from common.services import SERVICES

PLAIN = ("exinf", "v", "r", "n")
ARRAYS = {"a": 3, "b": 7}
OPERATORS = ("||", "&&", "|", "^", "&", "==", "!=", "<", "<=", ">", ">=", "+", "+", "-", "-", "*", "*", "/", "%")
CONSTANTS = ("E_OK", "E_TMOUT", "TMO_FEVR", "TSK_SELF", "TWF_ORW", "TA_CLR")
FAULTING = ("1 / 0", "v % 0", "2147483647 + 1", "- (-2147483647 - 1)", "a[3]", "b[-1]", "a[v - v - 1]", "65536 * 65536")
LIMITS = {"2147483647": "2147483647", "-2147483647": "-2147483647", "(-2147483647 - 1)": "-2147483647",
          "46341": "46341", "-1": "-1", "0": "0", "1": "1"}  # each with the `exinf` that it is made of
OBJECT = re.compile(r"CRE_\w+\((\w+),")

# The service calls that bodies of tasks and of handlers make, beside `put`.
FOR_HANDLERS = [it for it in SERVICES if it.name.startswith("i") or it.name in ("put", "ld_shr", "st_shr", "sta_cyc")]
FOR_TASKS = [it for it in SERVICES if it.name not in ("ext_tsk", "loc_spn", "loc_cpu") and not it.name.startswith("i")]


class Texts:
    """Writes bodies of the names that a configuration wants."""

    def __init__(self, chooser, configuration):
        self.random = chooser
        self.objects = OBJECT.findall(configuration)
        self.loops = 0

    def source(self, bodies):
        return "".join(map(self.body, bodies))

    def chance(self, share):
        return self.random.random() < share

    def body(self, body):
        self.services = FOR_HANDLERS if body.is_handler else FOR_TASKS
        self.loops = 0
        block = self.block(2, self.random.randint(2, 6), False)
        if self.chance(0.6):
            block += f"  {self.last()}\n"
        counters = "".join(f" var k{number};" for number in range(self.loops))
        arrays = "".join(f" var {name}[{places}];" for name, places in ARRAYS.items())
        kind = "handler" if body.is_handler else "task"
        return f"{kind} {body.name} {{ var v; var r; var n;{arrays}{counters}\n{block}}}\n"

    def last(self):
        """A statement that may end the body by one of two faults: the first of them counts."""
        left, right = self.two_faults()
        kind = self.random.random()
        if kind < 0.3:
            return f"{self.random.choice(tuple(ARRAYS))}[{self.random.choice((left, '-1', '7'))}] = {right};"
        if kind < 0.5:
            return f"v = ({left}) {self.random.choice(OPERATORS)} ({right});"
        if kind < 0.7:
            return f"if ({self.leaf()} && ({left}) || ({right})) {{ v = 1; }}"
        service = self.random.choice([it for it in self.services if len(it.form) - it.form.count("&") > 1])
        faults = iter((left, right))
        words = ["&v" if form == "&" else f"({next(faults, 0)})" for form in service.form]
        return f"{service.name}({', '.join(words)});"

    def block(self, depth, count, in_loop):
        return "".join(f"  {self.statement(depth, in_loop)}\n" for _ in range(count))

    def statement(self, depth, in_loop):
        kind = self.random.random()
        if depth and kind < 0.2:
            return self.choice(depth, in_loop)
        if depth and kind < 0.32:
            return self.loop(depth)
        if kind < 0.36:
            return "return;" if not in_loop or self.chance(0.3) else self.random.choice(("break;", "continue;"))
        if kind < 0.5:
            return f"{self.random.choice(PLAIN[1:])} = {self.value()};"
        if kind < 0.62:
            array = self.random.choice(tuple(ARRAYS))
            if self.chance(0.04):
                index, value = self.two_faults()
                return f"{array}[{index}] = {value};"
            return f"{array}[{self.index(array)}] = {self.value()};"
        return self.call()

    def choice(self, depth, in_loop):
        text = f"if ({self.value()}) {{\n{self.block(depth - 1, self.random.randint(0, 2), in_loop)}}}"
        kind = self.random.random()
        if kind < 0.3:
            return f"{text} else {{\n{self.block(depth - 1, self.random.randint(0, 2), in_loop)}}}"
        return f"{text} else {self.choice(depth - 1, in_loop)}" if depth > 1 and kind < 0.6 else text

    def loop(self, depth):
        """A loop that ends: its counter is its own, and grows first."""
        counter = f"k{self.loops}"
        self.loops += 1
        inner = self.block(depth - 1, self.random.randint(1, 3), True)
        extra = f" && {self.operand(self.expression(1))}" if self.chance(0.3) else ""
        rounds = self.random.randint(1, 5)
        return f"{counter} = 0; while ({counter} < {rounds}{extra}) {{\n  {counter} = {counter} + 1;\n{inner}}}"

    def value(self):
        if self.chance(0.03):
            left, right = self.two_faults()
            return f"{self.operand(left)} {self.random.choice(OPERATORS)} {self.operand(right)}"
        return self.expression(self.random.choice((0, 1, 1, 2, 3)))

    def two_faults(self):
        return self.random.sample(FAULTING, 2)

    def expression(self, depth):
        if not depth or self.chance(0.2):
            return self.leaf()
        if self.chance(0.15):
            return f"{self.random.choice('-!~')} {self.operand(self.expression(depth - 1))}"
        if self.chance(0.05):
            return f"{self.random.choice(('0 &&', '1 ||', 'v &&'))} {self.operand(self.random.choice(FAULTING))}"
        count = self.random.choice((2, 2, 2, 3, 4))
        words = [self.part(depth - 1)]
        for _ in range(count - 1):
            words += [self.random.choice(OPERATORS), self.part(depth - 1)]
        return " ".join(words)

    def part(self, depth):
        text = self.expression(depth)
        return self.operand(text) if self.chance(0.5) else text

    @staticmethod
    def operand(text):
        return f"({text})"

    def leaf(self):
        kind = self.random.random()
        if kind < 0.35:
            return self.random.choice(PLAIN)
        if kind < 0.5:
            array = self.random.choice(tuple(ARRAYS))
            return f"{array}[{self.index(array)}]"
        if kind < 0.6 and self.objects:
            return self.random.choice(self.objects)
        if kind < 0.65:
            return self.random.choice(CONSTANTS)
        if kind < 0.67:
            return self.random.choice(("2147483647", "65536", "0x7fffffff", "-2147483647"))
        return str(self.random.randint(0, 9))

    def index(self, array):
        """An index, mostly of a place of the array."""
        if self.chance(0.04):
            return self.random.choice(("-1", str(ARRAYS[array]), "v"))
        text = str(self.random.randrange(ARRAYS[array]))
        return f"{text} + v - v" if self.chance(0.1) else text

    def call(self):
        service = self.random.choice(self.services[:1] * 6 + self.services)
        faults = self.chance(0.03) and service.form.count("&") + 2 <= len(service.form)
        pair = iter(self.two_faults()) if faults else None
        words = [self.argument(form, pair) for form in service.form]
        result = "r = " if self.chance(0.5) else ""
        return f"{result}{service.name}({', '.join(words)});"

    def argument(self, form, pair):
        if form == "&":
            return f"&{self.random.choice(PLAIN[1:])}"
        if pair and (fault := next(pair, None)):
            return fault
        if form == "limit":
            return self.random.choice(("0", "1", "2", "TMO_FEVR"))
        if form in ("value", "bits") and self.chance(0.5):
            return self.value()
        if self.objects and self.chance(0.4):
            return self.random.choice(self.objects)
        return str(self.random.randint(0, 3))


def limit_texts():
    """The configuration, the bodies and the steps of tasks, each of which calculates once at the limits of 32 bits."""
    cases = [*product(LIMITS, "+-*/%", LIMITS), *product(("",), "-", LIMITS)]
    tasks = "".join(f"CRE_TSK(T{number},{{TA_ACT,{LIMITS[right]},t{number},8,512,NULL}});\n"
                    for number, (_, _, right) in enumerate(cases))
    source = "".join(f"task t{number} {{ put({left} {sign} {right.replace(LIMITS[right], 'exinf')}); }}\n"
                     for number, (left, sign, right) in enumerate(cases))
    return f"NUM_PRC(1);\nCLASS(TCL_1) {{\n{tasks}}}\n", source, "run 1\n" * (2 * len(cases))
