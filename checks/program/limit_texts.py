"""Texts at each limit of the two languages and one past it, and what a check of them must answer."""

from dataclasses import dataclass

OK = "ok"
BODIES = "task m { } handler h { }"
GREATEST_TEXT = 1 << 20
GREATEST_TIME = 1 << 30
GREATEST_NUMBER = (1 << 31) - 1


@dataclass
class Text:
    """Two texts, and `ok` or their first fault."""

    name: str
    configuration: str
    source: str
    expected: str


def system(apis, processors=1):
    """A configuration whose static APIs stand on the lines from 2 on."""
    return f"NUM_PRC({processors}); CLASS(TCL_1) {{\n{apis}\n}}"


def api(text, expected, source=BODIES):
    """A static API, with `ok` or the fault without its line, which is 2."""
    return Text(text, system(text), source, OK if expected == OK else f"cfg:2: {expected}")


def body(text, expected, configuration="NUM_PRC(1);"):
    """A task text that begins on line 1."""
    return Text(f"{text[:60]}..", configuration, text, expected)


# The ranges of the static APIs. In place of `#` stands each number; those of the last text are accepted.
RANGES = """
CRE_TSK(T,{#,0,m,1,1,NULL}); | E_RSATR | -1 0 1 2 3 4 2147483647 | 0 2
CRE_TSK(T,{0,#,m,1,1,NULL}); | - | -2147483647 2147483647 | -2147483647 2147483647
CRE_TSK(T,{0,0,m,#,1,NULL}); | E_PAR | -1 0 1 16 17 256 257 2147483647 | 1 16
CRE_TSK(T,{0,0,m,1,#,NULL}); | E_PAR | -1 0 1 65536 65537 2147483647 | 1 65536
CRE_SEM(S,{#,0,1}); | E_RSATR | -1 0 1 2 3 256 | 0 1
CRE_SEM(S,{0,0,#}); | E_PAR | -1 0 1 65535 65536 65537 2147483647 | 1 65535
CRE_SEM(S,{0,#,3}); | E_PAR | -1 0 3 4 65536 | 0 3
CRE_SEM(S,{0,#,65535}); | E_PAR | -1 0 65535 65536 | 0 65535
CRE_FLG(F,{#,0}); | E_RSATR | -1 0 1 2 3 4 5 6 7 8 256 | 0 1 2 3 4 5 6 7
CRE_FLG(F,{0,#}); | E_PAR | -1 0 65535 65536 2147483647 | 0 65535
CRE_DTQ(D,{#,0,NULL}); | E_RSATR | -1 0 1 2 3 256 | 0 1
CRE_DTQ(D,{0,#,NULL}); | E_PAR | -1 0 255 256 2147483647 | 0 255
CRE_MBX(X,{#,1,NULL}); | E_RSATR | -1 0 1 2 3 4 256 | 0 1 2 3
CRE_MBX(X,{0,#,NULL}); | E_PAR | -1 0 1 16 17 257 | 1 16
CRE_MSG(G,{#}); | E_PAR | -1 0 1 16 17 257 | 1 16
CRE_SHR(W,{#}); | - | -2147483647 2147483647 | -2147483647 2147483647
CRE_SPN(L,{#}); | E_RSATR | -1 0 1 256 | 0
CRE_CYC(C,{#,0,h,1,0}); | E_RSATR | -1 0 1 2 3 4 256 | 0 2
CRE_CYC(C,{0,0,h,#,0}); | E_PAR | -1 0 1 1073741824 1073741825 2147483647 | 1 1073741824
CRE_CYC(C,{0,0,h,1,#}); | E_PAR | -1 0 1073741824 1073741825 2147483647 | 0 1073741824
DEF_INH(1,{#,h}); | E_RSATR | -1 0 1 256 | 0
DEF_INH(#,{0,h}); | E_PAR | -1 0 1 32 33 257 2147483647 | 1 32
"""


def ranges():
    for row in RANGES.strip().split("\n"):
        text, code, numbers, accepted = (part.strip() for part in row.split(" | "))
        for number in numbers.split():
            fits = number in accepted.split()
            yield api(text.replace("#", number), OK if fits else f"B4 {code}")


# Counts

KINDS = (
    "CRE_TSK(N#,{0,0,m,1,1,NULL});", "CRE_SEM(N#,{0,0,1});", "CRE_FLG(N#,{0,0});", "CRE_DTQ(N#,{0,0,NULL});",
    "CRE_MBX(N#,{0,1,NULL});", "CRE_MSG(N#,{1});", "CRE_SHR(N#,{0});", "CRE_SPN(N#,{0});", "CRE_CYC(N#,{0,0,h,1,0});",
)


def lines(piece, count, first=1):
    """This many lines, each with its number in place of `#`."""
    return "\n".join(piece.replace("#", str(number)) for number in range(first, first + count))


def counts():
    for kind in KINDS:
        word = kind[:7]
        yield Text(f"255 of {word}", system(lines(kind, 255)), BODIES, OK)
        yield Text(f"256 of {word}", system(lines(kind, 256)), BODIES, "cfg:257: B5")
        yield Text(f"257 of {word}", system(lines(kind, 257)), BODIES, "cfg:257: B5")
    each = "\n".join(lines(kind.replace("N#", f"N{place}_#"), 255) for place, kind in enumerate(KINDS))
    interrupts = lines("DEF_INH(#,{0,h});", 32)
    yield Text("255 of each kind", system(f"{each}\n{interrupts}"), BODIES, OK)
    yield Text("a 33rd interrupt", system(f"{interrupts}\nDEF_INH(33,{{0,h}});"), BODIES, "cfg:34: B4 E_PAR")
    yield Text("an interrupt again", system(f"{interrupts}\nDEF_INH(32,{{0,h}});"), BODIES, "cfg:34: B4 E_OBJ")
    yield Text("300 classes", "NUM_PRC(1);" + 300 * "CLASS(TCL_1) { }", "", OK)
    for processors, expected in ((-1, "B1"), (0, "B5"), (1, OK), (8, OK), (9, "B5"), (256, "B5"), (257, "B5")):
        answer = OK if expected == OK else f"cfg:2: {expected}"
        yield Text(f"{processors} processors", f"NUM_PRC(\n{processors});", "", answer)
    for name, expected in (("TCL_8", OK), ("TCL_8_ONLY", OK), ("TCL_9", "B3"), ("TCL_0", "B3"), ("TCL_0_ONLY", "B3")):
        yield Text(f"class {name}", f"NUM_PRC(8); CLASS(\n{name}) {{ }}", "", OK if expected == OK else "cfg:2: B3")
    yield Text("class of a processor too many", "NUM_PRC(7); CLASS(\nTCL_8) { }", "", "cfg:2: B3")


def bodies_and_locals():
    tasks = lines("task m# { }", 128)
    handlers = lines("handler m# { }", 127, 129)
    yield body(f"{tasks}\n{handlers}", OK)
    yield body(f"{tasks}\n{handlers}\ntask n {{ }}", "src:256: B5")
    yield body(f"{tasks}\n{handlers}\n\nhandler\nm1 {{ }}", "src:257: B5")
    for kind in ("task", "handler"):
        yield body(f"{kind} m {{\n{lines('var v#;', 63)} }}", OK)
        yield body(f"{kind} m {{\n{lines('var v#;', 64)} }}", "src:65: B5")
        yield body(f"{kind} m {{\n{lines('var v#;', 63)}\nvar\n\nv1; }}", "src:67: B5")
        yield body(f"{kind} m {{\n{lines('var v#;', 62)}\nvar v1; }}", "src:64: B2")


def arrays():
    """Arrays at the limits of their lengths and of a body's places, and what has an index where it must not."""
    for kind in ("task", "handler"):
        for declared, expected in (
            ("a[1];", OK), ("a[63];", OK), ("a[\n0];", "src:3: B5"), ("a[\n64];", "src:2: B5"),
            ("a[\n2147483647];", "src:2: B5"), ("a[\n2147483648];", "src:3: B5"), ("a[\n-1];", "src:3: B1"),
            ("a[\n];", "src:3: B1"), ("a[0x3f];", OK), ("a[1][\n1];", "src:2: B1"),
            ("a[62]; var b;", OK), ("b; var a[62];", OK), ("a[62]; var b;\nvar c;", "src:3: B5"),
            ("a[63];\nvar b;", "src:3: B5"), ("b; var\na[63];", "src:3: B5"), ("a[31]; var b[32];", OK),
            ("a[32]; var\nb[\n32];", "src:3: B5"), ("a[1]; var\na[\n1];", "src:3: B2"),
            ("a[1]; var\na[\n0];", "src:3: B2"), ("a[63]; var\na[\n0];", "src:3: B2"),
            ("a[63]; var\nb[\n0];", "src:4: B5"),
            ("exinf[\n1];", "src:2: B2"),
        ):
            yield body(f"{kind} m {{ var\n{declared} }}", expected)
    declared = "task m { var v; var a[3];"
    for statement, expected in (
        ("a[2] = a[0];", OK), ("a[a[a[0]]] = 1;", OK), ("a[3] = 1;", OK), ("a[-1] = a[2147483647];", OK),
        ("put(\na);", "B9"), ("\na = 1;", "B9"), ("put(\nv[0]);", "B9"), ("\nv[0] = 1;", "B9"),
        ("put(\nexinf[0]);", "B9"), ("\nexinf[0] = 1;", "B9"), ("put(\nS[0]);", "B9"), ("\nS[0] = 1;", "B3"),
        ("put(\nb[0]);", "B3"), ("\nb[0] = 1;", "B3"), ("\na = put(1);", "B9"), ("get_pri(1, &\na);", "B9"),
        ("\na[0] = put(1);", "B1"), ("put(a\n(0));", "B1"), ("put(a[0]\n(0));", "B1"), ("put(a[\n]);", "B1"),
        ("put(a[0\n);", "B1"), ("put(a[b[\n0]]);", None), ("a[\nb] = b;", "B3"),
    ):
        line = 1 if expected is None else statement.count("\n", 0, statement.rfind("\n") + 1) + 1
        answer = OK if expected == OK else f"src:{line}: {expected or 'B3'}"
        yield Text(f"{statement!r} with an array", system("CRE_SEM(S,{0,0,1});"), f"{declared} {statement} }}", answer)


# Names and numbers

LONG, TOO_LONG = "n" * 31, "n" * 32


def names():
    for name, fault in ((LONG, None), (TOO_LONG, "B5"), ("_" * 32, "B5"), ("x" * 1000000, "B5")):
        def answer(otherwise, place, fault=fault):
            return f"{place}: {fault}" if fault else otherwise
        what = f"a name of {len(name)} bytes"
        for kind in KINDS:
            yield Text(f"{what} for {kind}", system(kind.replace("N#", f"\n{name}")), BODIES, answer(OK, "cfg:3"))
        yield Text(f"{what} of a class", f"NUM_PRC(1); CLASS(\n{name}) {{ }}", "", answer("cfg:2: B3", "cfg:2"))
        yield Text(f"{what} for a value", system(f"CRE_SHR(W,{{\n{name}}});"), "", answer("cfg:2: B3", "cfg:3"))
        yield Text(f"{what} of an entry", system(f"DEF_INH(1,{{0,{name}}});"), f"handler {LONG} {{ }}",
                   answer(OK, "cfg:2"))
        yield body(f"task\n{name} {{ }}", answer(OK, "src:2"))
        yield body(f"task m {{ var\n{name}; }}", answer(OK, "src:2"))
        yield body(f"task m {{ put(\n{name}); }}", answer("src:2: B3", "src:2"))
        yield body(f"task m {{\n{name} = 1; }}", answer("src:2: B3", "src:2"))


NUMBERS = (
    ("2147483647", OK), ("2147483648", "B5"), ("4294967296", "B5"), ("9" * 100, "B5"), ("0x7fffffff", OK),
    ("0x7FFFFFFF", OK), ("0x80000000", "B5"), ("0xffffffff", "B5"), ("0x00000000", OK), ("0x000000000", "B5"),
    ("0x100000000", "B5"), ("0x7fffffffg", "B1"), ("2147483648_", "B1"), ("0x000000000_", "B1"), ("00", "B1"),
)


def numbers():
    for number, expected in NUMBERS:
        for text in (f"CRE_SHR(W,{{{number}}});", f"CRE_SHR(W,{{-{number}}});", f"CRE_SHR(W,{{0|{number}}});"):
            yield api(text, expected)
        yield body(f"task m {{ put(\n{number}); }}", OK if expected == OK else f"src:2: {expected}")
        yield body(f"task m {{ put(-\n{number}); }}", OK if expected == OK else f"src:2: {expected}")
    yield Text("processors above a number", "NUM_PRC(\n2147483648);", "", "cfg:2: B5")
    yield api("DEF_INH(2147483648,{0,h});", "B5")


# Lengths

def padded(before, filler, after, size):
    """A text of this many bytes."""
    return before + filler * (size - len(before) - len(after)) + after


def lengths():
    for filler, after in ((" ", ""), ("\n", ""), ("//", ""), ("-", "*/"), (";", "*/")):
        before = {"//": "//", "-": "/*", ";": "/*"}.get(filler, "")
        for size, expected in ((GREATEST_TEXT, OK), (GREATEST_TEXT + 1, "B5"), (GREATEST_TEXT + 2, "B5")):
            text = padded(f"NUM_PRC(1);{before}", filler[0], after, size)
            yield Text(f"a configuration of {size} bytes, {filler!r}", text, "", OK if expected == OK else "cfg:1: B5")
            text = padded(f"task m {{ }}{before}", filler[0], after, size)
            yield body(text, OK if expected == OK else "src:1: B5")
    full, over = GREATEST_TEXT, GREATEST_TEXT + 1
    yield Text("a fault in a long configuration", padded("\n$", " ", "", full), "", "cfg:2: B1")
    yield Text("a fault in one too long", padded("\n$", " ", "", over), "", "cfg:1: B5")
    yield Text("a fault in both", padded("NUM_PRC(9);", " ", "", full), padded("$", " ", "", over), "cfg:1: B5")
    yield body(padded("\n$", " ", "", over), "src:1: B5")
    yield body(padded("", "\n", "$", full), f"src:{full}: B1")
    yield body(padded("task", "\n", "", full), f"src:{full - 3}: B1")
    yield Text("the last line there is", padded("", "\n", "", full), "", f"cfg:{full + 1}: B1")
    yield body(padded("", "/", "", full), OK)
    yield body(padded("\n/*", "x", "*", full), "src:2: B1")


def sizes():
    """Bodies by their number of instructions: two for each `put(1);`, one for `return;` and one for the end."""
    for count, more, expected in (
        (32767, "", OK), (32767, "return;", "src:2: B5"), (32766, "return; return;", OK), (32768, "", "src:2: B5"),
    ):
        yield body(f"\ntask\nm {{ {'put(1);' * count}{more} }}", expected)
        yield body(f"\nhandler m {{ {'put(1);' * count}{more} }}", expected)
    # 2n - 1 for a sum of n, one to store it and one for the end.
    yield body(f"\ntask m {{ var v; v = 1{' + 1' * 32766}; }}", OK)
    yield body(f"\ntask m {{ var v; v = 1{' + 1' * 32766}; return; }}", "src:2: B5")
    big = f"task m {{ {'put(1);' * 32768} }}"
    yield body(f"task a {{ }}\n{big}\ntask b {{ put(y); }}", "src:2: B5")
    yield body(f"task a {{ }}\ntask b {{ put(y); }}\n{big}", "src:2: B3")
    yield body(f"task m {{ {'put(1);' * 32768}\nput(y); }}", "src:2: B3")


# Operands and nesting

def operands():
    def deep(count, inner="1"):
        return "1+(" * count + inner + ")" * count

    # This many parentheses make one operand more.
    yield body(f"\ntask m {{ put({deep(63)}); }}", OK)
    yield body(f"\ntask\nm {{ put({deep(64)}); }}", "src:2: B5")
    yield body(f"\ntask m {{ put({deep(63, '1+1')}); }}", "src:2: B5")
    yield body(f"\ntask m {{ st_shr(1, {deep(62)}); }}", OK)
    yield body(f"\ntask m {{ st_shr(1, {deep(63)}); }}", "src:2: B5")
    yield body(f"\ntask m {{ st_shr({deep(63)}, 1); }}", OK)
    yield body(f"\ntask m {{ var p; twai_flg(1, 1, 0, &p, {deep(60)}); }}", OK)
    yield body(f"\ntask m {{ var p; twai_flg(1, 1, 0, &p, {deep(61)}); }}", "src:2: B5")
    yield body(f"\nhandler m {{ put({deep(64)}); }}", "src:2: B5")
    yield body(f"\ntask m {{ return; put({deep(64)}); }}", "src:2: B5")
    yield body(f"task m {{ put({deep(63)}); put({'(' * 64}1{')' * 64}); }}", OK)
    # An index is one operand while it stands, and stays one below the value that is stored.
    yield body(f"\ntask m {{ var a[1]; put(a[{deep(63)}]); }}", OK)
    yield body(f"\ntask m {{ var a[1]; put(a[{deep(64)}]); }}", "src:2: B5")
    yield body(f"\ntask m {{ var a[1]; a[{deep(63)}] = {deep(62)}; }}", OK)
    yield body(f"\ntask m {{ var a[1]; a[0] = {deep(63)}; }}", "src:2: B5")
    # A task's stack has four bytes for each operand; a handler has none.
    for depth in (1, 2, 63, 64):
        source = f"task m {{ put({deep(depth - 1)}); }} handler h {{ put({deep(63)}); }}"
        yield api(f"CRE_TSK(T,{{0,0,m,1,{4 * depth},NULL}});", OK, source)
        yield api(f"CRE_TSK(T,{{0,0,m,1,{4 * depth - 1},NULL}});", "B6", source)
    yield api("CRE_TSK(T,{0,0,m,1,1,NULL});", OK, "task m { return; }")
    yield api("DEF_INH(1,{0,h});", OK, f"handler h {{ put({deep(63)}); }}")


IF, WHILE, ELSE_IF, OPEN = "if (1) {\n", "while (1) {\n", " else if (1)\n{ }", "(\n"
INDEX = "a[\n"


def nesting():
    """64 levels of blocks, `else if`s, parentheses, indexes and unary operators, and the 65th, each on a line of its
    number."""
    for levels in (63, 64, 65):
        fault = OK if levels < 65 else f"src:{levels}: B5"
        yield body(f"task m {{ var a[63]; put({INDEX * levels}1{']' * levels}); }}", fault)
        yield body(f"task m {{ var a[63]; {INDEX * levels}1{']' * levels} = a[63 - 63]; }}", fault)
        yield body(f"task m {{ var a[63]; put({OPEN * (levels - 1)}a[\n63]{')' * (levels - 1)}); }}", fault)
        yield body(f"task m {{ put({OPEN * levels}1{')' * levels}); }}", fault)
        for operator in ("-\n", "!\n", "~\n"):
            yield body(f"task m {{ put({operator * levels}1); }}", fault)
        yield body(f"task m {{ {IF * levels}{'}' * levels} }}", fault)
        yield body(f"task m {{ {WHILE * levels}{'}' * levels} }}", fault)
        yield body(f"task m {{ if (1) {{ }} else {{\n{IF * (levels - 1)}{'}' * levels} }}", fault)
        # The `if` of the n-th `else if` is level n, its block level n + 1.
        yield body(f"task m {{ if (1) {{ }}{ELSE_IF * (levels - 1)} }}", fault)
        mixed = "task m { " + WHILE * 20 + "put(" + "(\n-\n" * 20 + OPEN * (levels - 60)
        yield body(f"{mixed}1{')' * (levels - 40)}); {'}' * 20} }}", fault)
    chain = "task m { if (1) { }" + " else if (1) { }" * 63
    yield body(f"{chain} else {{ }} }}", OK)
    yield body(f"{chain} else if (1)\n{{ }} }}", "src:2: B5")
    inside = "task m { " + "if (1) {" * 64
    for statement, expected in (
        ("put(1 + 2 * 3); return;", OK), ("while (1) break;", "src:2: B1"), ("put((1));", "src:2: B5"),
        ("put(-1);", "src:2: B5"), ("if (1) { }", "src:2: B5"), ("while (1) { }", "src:2: B5"),
    ):
        yield body(f"{inside}\n{statement} {'}' * 64} }}", expected)


def all_texts():
    for group in (ranges, counts, bodies_and_locals, arrays, names, numbers, lengths, sizes, operands, nesting):
        yield from group()
