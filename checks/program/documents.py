#!/usr/bin/env python3
"""Checks each code block of the documents against the proved program.

    checks/program/documents.py [PROGRAM [VIEW]]

PROGRAM is crates/fmp/out/fmp and VIEW is crates/fmp_view/out/fmp_view where they are not given, as `rt ci` or `rt run`
leaves them. The first word after the fence says what a block is, and how it is checked:

    cfg FILE, src FILE, steps FILE   the text of this file of examples/
    cfg, src, steps, trace           a system: the texts are accepted, and the run of their image prints the trace
    cfg bench, src bench             the system in which the rows of calls are run, but for the bodies of its caller
    apis                             static APIs that are accepted in a class of one processor
    values                           rows `EXPRESSION -> NUMBER`, or the fault of the body that has it
    calls [handler]                  rows `STATEMENTS -> ANSWER, ..`: what a task (a handler) of the bench is answered
    faults cfg|src|steps|image       rows `TEXT -> FAULT`
    console                          commands after `$ `, each with what it prints, in a copy of examples/ and of the
                                     systems of checks/schedules/
    rust FILE                        code of this file of crates/, as it stands there; its blocks are the whole file
    bytes                            the image of the last system of blocks, in hexadecimal digits
    grammar, sh                      not checked: rules of a grammar, and commands of the toolchain

In a row `[N times: PIECE]` stands for N pieces, with the numbers from 1 in place of `#`, and `\\n` for a line
feed. The constants of the reference's table are tried, and its table of contexts with each call that its other tables
tell, in each context. Each name of code in docs/PROVED.md, and each file in docs/MAP.md, is one that the repository
has, and each crate is told in both. The kit that README.md and docs/PROVED.md name is what `rt version` prints, but for
the letter of the kit. Each file of the checks is told in checks/README.md, and each file that is told there is one.
"""

import argparse
import os
import re
import shutil
import subprocess
import sys
import tempfile
from pathlib import Path

sys.dont_write_bytecode = True  # the folders of the checks stay as they are
sys.path[0] = str(Path(__file__).resolve().parents[1])  # the folder `checks`, whose folders are packages

from common.program import ROOT, located, unmarked  # noqa: E402
from common.repeats import expanded  # noqa: E402
from common.tally import Tally  # noqa: E402

DOCUMENTS = ("README.md", "examples/README.md", "docs/LANGUAGE.md", "docs/LIBRARY.md")
FENCE = re.compile(r"^```(\w*) *(.*)$")
CALL = re.compile(r"^\| \d+ \| `(\w+)\((.*?)\)` \|")
RUNS = 15
FAULTY_TEXTS = 40


class Program:
    """The program and the one for looking, in a folder of its own with a copy of the systems of the repository."""

    def __init__(self, program, view, room):
        self.program, self.room = program, room
        for folder in ("checks/schedules/systems", "examples"):
            shutil.copytree(ROOT / folder, room, dirs_exist_ok=True)
        bin_folder = room / "bin"
        bin_folder.mkdir()
        (bin_folder / "fmp").symlink_to(program)
        (bin_folder / "fmp_view").symlink_to(view)
        self.environment = {**os.environ, "PATH": f"{bin_folder}:{os.environ['PATH']}", "LC_ALL": "C"}

    def run(self, *words):
        """What the program prints; or, with the status, what it says on standard error."""
        done = subprocess.run([self.program, *words], cwd=self.room, capture_output=True, env=self.environment)
        if done.returncode == 0:
            return done.stdout.decode().rstrip("\n")
        return f"status {done.returncode}: {done.stderr.decode()}".rstrip("\n") + done.stdout.decode()

    def shell(self, command):
        done = subprocess.run(command, cwd=self.room, shell=True, capture_output=True, env=self.environment)
        return unmarked((done.stdout + done.stderr).decode()).rstrip("\n")

    def write(self, name, text):
        (self.room / name).write_bytes(text if isinstance(text, bytes) else text.encode())
        return name

    def check(self, cfg, src):
        return self.run("check", self.write("t.cfg", cfg), self.write("t.src", src))

    def build(self, cfg, src):
        """What the build prints; the image is then in the file `t.img`."""
        (self.room / "t.img").unlink(missing_ok=True)
        return self.run("build", self.write("t.cfg", cfg), self.write("t.src", src), "t.img")

    def image(self):
        return (self.room / "t.img").read_bytes()

    def sim(self, steps):
        return self.run("sim", "t.img", self.write("t.steps", steps))

    def trace(self, cfg, src, steps):
        built = self.build(cfg, src)
        return self.sim(steps) if built.startswith("ok ") else built


def spelled(row):
    """The text of a row, with its pieces repeated and its line feeds."""
    return expanded(row).replace("\\n", "\n")


def rows(block):
    """The rows of a block: a text and what is expected of it."""
    for line in block.splitlines():
        if line.strip():
            text, expected = line.rsplit("->", 1)
            yield text.rstrip(), expected.strip()


def blocks(path):
    """The fenced blocks of a document: the line, the two parts of the info string, and the text."""
    inside = None
    for number, line in enumerate(path.read_text().splitlines(), 1):
        fence = FENCE.match(line)
        if inside is None and fence:
            inside, kind, info, text = number, fence[1], fence[2].strip(), []
        elif inside is not None and line == "```":
            yield inside, kind, info, "\n".join(text) + "\n"
            inside = None
        elif inside is not None:
            text.append(line)
    assert inside is None, f"{path}: the block of line {inside} has no end"


def contexts(reference):
    """For each call of the reference: its text, with a number that nothing has for each argument, and the rows of the
    table of contexts in which it stands, as the words of its first column."""
    calls = {}
    for line in reference.splitlines():
        form = CALL.match(line)
        if form:
            given = ", ".join("&v" if it.startswith("&") else "99" for it in form[2].split(", ") if it)
            calls[form[1]] = f"{form[1]}({given});"
    table = reference.partition("**Contexts**")[2].partition("\n\n")[2].partition("\n\n")[0]
    rows = [line.strip("| ").split(" | ") for line in table.splitlines()[2:]]
    stated = {name: where for where, names in rows for name in re.findall(r"`(\w+)`", names)}
    others = next(where for where, names in rows if names == "all others")
    return {name: (call, stated.get(name, others)) for name, call in calls.items()}


def words_of(*patterns):
    """The words of the files of these patterns."""
    files = (path for pattern in patterns for path in ROOT.glob(pattern) if path.is_file())
    return {word for path in files for word in re.findall(r"\w+", path.read_text())}


def named(document, pattern):
    """What stands between backquotes in a document and is all of this pattern, with its line."""
    for number, line in enumerate((ROOT / document).read_text().splitlines(), 1):
        for name in re.findall(r"`([^`]+)`", line):
            if re.fullmatch(pattern, name):
                yield number, name


class Checker:
    """Checks blocks one after the other, and counts what holds."""

    def __init__(self, program):
        self.program, self.tally, self.faults = program, Tally(), set()
        self.texts, self.bench, self.files = {}, {}, {}

    def begin(self, document):
        self.document, self.texts = document, {}

    def verdict(self, line, what, wanted, got):
        self.tally.verdict(f"{self.document}:{line}: {what}", wanted, got)

    def crates(self):
        """Each crate has its place in the map and in what is proved."""
        crates = re.findall(r"^(\w+)[^:#\n]*:", (ROOT / "crates.txt").read_text(), re.M)
        for self.document in ("docs/MAP.md", "docs/PROVED.md"):
            lines = (ROOT / self.document).read_text().splitlines()
            told = " ".join(line for line in lines if line.startswith(("| `", "- `", "**`")))
            for crate in crates:
                self.verdict(0, f"the crate {crate}", True, f"`{crate}`" in told)

    def scripts(self):
        """The page of the checks tells each of their files, and no other."""
        self.document = "checks/README.md"
        pattern = r"[\w./]+\.(py|sh|c|h|supp)"
        told = {Path(re.match(pattern, name)[0]).name for _, name in named(self.document, rf"{pattern}\b.*")}
        files = filter(Path.is_file, ROOT.glob("checks/*/*"))
        there = {path.name for path in files if path.suffix not in (".rows", ".list")}
        shared = {path.name for path in ROOT.glob("checks/common/*")}
        self.verdict(0, "files that are not told", set(), there - shared - told)
        self.verdict(0, "files that are told and not there", set(), told - there)

    def kit(self):
        """The kit that documents name is that of the machine. They do not name its letter, in which machines differ."""
        rt = shutil.which("rt")
        printed = subprocess.run([rt, "version"], capture_output=True).stdout.decode().strip() if rt else "no rt"
        without_letter = re.sub(r"^([\w-]*\d)[a-z] ", r"\1 ", printed)
        for self.document in ("README.md", "docs/PROVED.md"):
            kits = [name for _, name in named(self.document, r"rattle-kit.*")]
            self.verdict(0, "the kit, as `rt version` has it without its letter", [without_letter], kits)

    def size(self):
        """The README is short."""
        self.document = "README.md"
        lines = (ROOT / self.document).read_text().splitlines()
        self.verdict(0, "at most 150 lines", True, len(lines) <= 150)
        self.verdict(0, "at most 120 characters a line", [], [line for line in lines if len(line) > 120])

    def names(self):
        """Names of code and files that documents tell of are there."""
        self.document = "docs/PROVED.md"
        there = words_of("crates/*/src/**/*.rt", "crates/*/specs/*.antt", "crates.txt")
        for line, name in named(self.document, r"\w+(::\w+)?"):
            self.verdict(line, f"the name {name}", True, name.split("::")[-1] in there)
        self.document = "docs/MAP.md"
        folders = ["*", "checks/**/*", "bench/*", "docs/*", "examples/*"]
        folders += ["crates/*/src/**/*", "crates/*/specs/*", "crates/*/proofs/*"]
        there = {path.name for folder in folders for path in ROOT.glob(folder)}
        for line, name in named(self.document, r"[\w./]+\.(rt|antt|py|sh|md)"):
            self.verdict(line, f"the file {name}", True, name.split("/")[-1] in there)

    def block(self, line, kind, info, text):
        method = getattr(self, f"check_{kind}", None) if kind else None
        if method is None:
            self.verdict(line, "the kind of the block", "one that is known", kind)
        else:
            method(line, info, text)

    # Texts

    def text(self, kind, line, info, text):
        if info == "bench":
            self.bench[kind] = text
        elif info:
            path = ROOT / "examples" / info
            self.verdict(line, info, path.read_text() if path.exists() else "a file of examples/", text)
        else:
            self.texts[kind] = text
            if kind == "src":
                self.verdict(line, "the two texts", "ok", self.program.check(self.texts["cfg"], text))

    def check_cfg(self, line, info, text):
        self.text("cfg", line, info, text)

    def check_src(self, line, info, text):
        self.text("src", line, info, text)

    def check_steps(self, line, info, text):
        self.text("steps", line, info, text)

    def check_trace(self, line, info, text):
        got = self.program.trace(self.texts["cfg"], self.texts["src"], self.texts["steps"])
        self.verdict(line, "the trace", text.rstrip("\n"), got)

    def check_bytes(self, line, info, text):
        built = self.program.build(self.texts["cfg"], self.texts["src"])
        self.verdict(line, "the size of the image", f"ok {len(bytes.fromhex(text))}", built)
        self.verdict(line, "the image", bytes.fromhex(text), self.program.image())

    def check_apis(self, line, info, text):
        entries = set(re.findall(r"CRE_TSK\(\w+, *\{[^,]*,[^,]*, *(\w+)", text))
        handlers = set(re.findall(r"CRE_CYC\(\w+, *\{[^,]*,[^,]*, *(\w+)", text))
        handlers |= set(re.findall(r"DEF_INH\([^,]*, *\{[^,]*, *(\w+)", text))
        bodies = [("task", entries), ("handler", handlers)]
        src = "".join(f"{kind} {name} {{ }}\n" for kind, names in bodies for name in names)
        cfg = f"NUM_PRC(1);\nCLASS(TCL_1) {{\n{text}}}\n"
        self.verdict(line, "static APIs", "ok", self.program.check(cfg, src))

    # Rows

    def check_values(self, line, info, text):
        for expression, value in rows(text):
            self.value(line, expression, value)

    def value(self, line, expression, value):
        cfg = "NUM_PRC(1); CLASS(TCL_1) { CRE_TSK(T,{TA_ACT,5,t,1,256,NULL}); CRE_SEM(S,{0,0,1}); CRE_SEM(R,{0,0,1}); }"
        trace = self.program.trace(cfg, f"task t {{ put({expression}); }}", "run 1\n").split("\n")
        got = re.sub(r"^1 p1 T (?:put\((.*)\) E_OK)?", r"\1", trace[2]).strip() if len(trace) > 2 else trace[0]
        self.verdict(line, expression, value, got)

    def constants(self):
        """The constants of the reference's table have its values."""
        self.document = "docs/LANGUAGE.md"
        table = (ROOT / self.document).read_text().partition("The **constants**")[2].partition("\n\n")[2]
        found = re.findall(r"`(\w+)` \| (-?\d+) \|", table.partition("\n\n")[0])
        self.verdict(0, "at least 30 constants", True, len(found) >= 30)
        for constant, value in found:
            self.value(0, constant, value)

    def answers(self, statements, by_handler):
        """What the caller of these statements is answered in the bench, or the fault of the texts."""
        steps = "run 1\nrun 1\nrun 2\n"
        steps += "int 1\n" + "run 1\n" * RUNS if by_handler else "run 1\n" * RUNS + ("tick\n" + "run 1\n" * RUNS) * 3
        body = f"{{ var v; {statements} }}"
        task, handler = ("{ }", body) if by_handler else (body, "{ }")
        src = f"{self.bench['src']}task caller {task}\nhandler handle {handler}\n"
        trace = self.program.trace(self.bench["cfg"], src, steps)
        name = "#1" if by_handler else "SELF"
        found = re.findall(rf"^\d+ p\d {name} (?:\w+\(.*\) )?(.*)$", trace, re.M)
        unasked = {"starts"} if statements.startswith("ext_tsk") and not by_handler else {"starts", "end"}
        return [it for it in found if it not in unasked] or ["nothing" if "starts" in trace else trace]

    def check_calls(self, line, info, text):
        for statements, answers in rows(text):
            self.verdict(line, statements, answers, ", ".join(self.answers(statements, info == "handler")))

    def contexts(self):
        """Each call of the reference in each context: it is E_CTX exactly where the table says so."""
        self.document = "docs/LANGUAGE.md"
        for name, (call, where) in contexts((ROOT / self.document).read_text()).items():
            own = call.replace("(99", "(TSK_SELF") if "on the caller itself" in where else call
            tried = {
                "from tasks": (call, False, "from handlers alone" in where),
                "from handlers": (call, True, "handlers" not in where),
                "with the CPU locked": (f"loc_cpu(); {call}", False, "also with the CPU locked" not in where),
                "with dispatching disabled": (f"dis_dsp(); {own}", False, "enabled" in where or "alone" in where),
            }
            for context, (statements, by_handler, refused) in tried.items():
                last = self.answers(statements, by_handler)[-1]
                self.verdict(0, f"{name} {context}: {statements}", refused, last == "E_CTX")

    def check_faults(self, line, info, text):
        for given, fault in rows(text):
            self.verdict(line, given, f"status 1: {fault}", getattr(self, f"fault_of_{info}")(given))
            self.faults.add((info, given))

    def fault_of_cfg(self, given):
        return self.program.check(spelled(given), "task m { }\nhandler h { }\ntask deep { put(1 + 2); }\n")

    def fault_of_src(self, given):
        cfg = "NUM_PRC(1); CLASS(TCL_1) { CRE_SEM(SEM, { 0, 0, 1 }); }"
        return self.program.check(cfg, spelled(given))

    def fault_of_steps(self, given):
        self.program.build("NUM_PRC(2);", "")
        return self.program.sim(spelled(given))

    def fault_of_image(self, given):
        """The fault of the image of the last system of blocks with an edit: `cut to N`, `N more`, or `N: BYTE ..`."""
        self.program.build(self.texts["cfg"], self.texts["src"])
        data = bytearray(self.program.image())
        place, _, values = given.partition(":")
        if given.startswith("cut to"):
            data = data[:int(given.split()[2])]
        elif given.endswith("more"):
            data += bytes(int(given.split()[0]))
        else:
            for offset, value in enumerate(values.split()):
                data[int(place) + offset] = int(value)
        self.program.write("t.img", bytes(data))
        return self.program.sim("")

    def check_console(self, line, info, text):
        command, wanted = None, []
        for row in text.splitlines() + ["$ "]:
            if not row.startswith("$ "):
                wanted.append(row)
                continue
            if command is not None:
                self.verdict(line, command, "\n".join(wanted), self.program.shell(command))
            command, wanted = row[2:], []

    def check_rust(self, line, info, text):
        path = ROOT / "crates" / info
        stands = path.is_file() and f"\n{text}" in f"\n{path.read_text()}"
        self.verdict(line, f"code of {path.name}", True, stands)
        self.files.setdefault(path, []).append(text)

    def whole(self):
        """The blocks of a file are together the whole file, in its order."""
        self.document = "docs/LIBRARY.md"
        for path, texts in self.files.items():
            self.verdict(0, f"the whole of {path.name}", path.read_text(), "\n".join(texts))

    def check_grammar(self, line, info, text):
        pass

    def check_sh(self, line, info, text):
        pass


def main():
    parser = argparse.ArgumentParser(description="Checks each code block of the documents against the programs.")
    parser.add_argument("program", metavar="PROGRAM", nargs="?", help="crates/fmp/out/fmp")
    parser.add_argument("view", metavar="VIEW", nargs="?", help="crates/fmp_view/out/fmp_view")
    words = parser.parse_args()
    programs = located("fmp", words.program), located("fmp_view", words.view)
    with tempfile.TemporaryDirectory() as room:
        checker = Checker(Program(*programs, Path(room)))
        for document in DOCUMENTS:
            checker.begin(document)
            for block in blocks(ROOT / document):
                checker.block(*block)
        checker.constants()
        checker.contexts()
    checker.whole()
    checker.names()
    checker.crates()
    checker.kit()
    checker.scripts()
    checker.size()
    checker.verdict(0, f"at least {FAULTY_TEXTS} faulty texts", True, len(checker.faults) >= FAULTY_TEXTS)
    print(f"checks/program/documents.py: {checker.tally}")
    return checker.tally.status


if __name__ == "__main__":
    sys.exit(main())
