#!/usr/bin/env python3
"""Tries the wrong edits of this folder: under the contract of the function that it changes, the prover has to refuse
each.

    checks/edits/edits.py [--jobs N] [--unedited] [--gate | CRATE[/NAME]..]

With --gate it tries those that the file `gate.list` names, and only sees that the others can be made. With neither
--gate nor a name it tries all.

An edit is a file CRATE/NAME.edit. Its line `file: PATH` names a file of the crate, and its line `function: PATH` the
function of this file that it changes, as a check names it after the name of the crate. Then come lines `old: TEXT` and
`new: TEXT` in pairs: the first text stands in the file once, and becomes the second.

A contract refuses a function by itself, whatever the others do, and a caller knows no more of a function than its
contract. So the edits of a crate are made together in a copy of it, in which each function that an edited one calls
gives up at once, and only the edited ones are proved. Edits of one function or of one text go into copies of their own.
An edit is refused where a goal of its function is not proved. It fails where there is no such goal, where it cannot be
made, compiled or read, where it only takes away a name that a proof needs, and where the prover gives no verdict.

The libraries below are those that `rt ci` or `rt check` left in crates/*/out. Where one is missing or older than its
sources, `rt check` builds it first. With `--unedited` the edits are not made, and no goal of their functions may be
left. N copies are checked at once: RT_JOBS where it is not given, or 1. One takes up to 2 GB of memory. The script
needs the toolchain, whose own parts it calls.
"""

import argparse
import os
import re
import shutil
import signal
import subprocess
import sys
import tempfile
import time
from concurrent.futures import ThreadPoolExecutor
from dataclasses import dataclass
from pathlib import Path

sys.dont_write_bytecode = True  # the folders of the checks and of the toolchain stay as they are
sys.path[0] = str(Path(__file__).resolve().parents[1])  # the folder `checks`, whose folders are packages

from common.program import ROOT  # noqa: E402
from common.tally import Tally  # noqa: E402

EDITS = ROOT / "checks/edits"
PARTS = ("src", "specs", "proofs")
LINE = re.compile(r"(file|function|old|new):(?: (.*))?")
HEAD = re.compile(r"^( *)(?:pub(?:\(\w+\))? )?fn (\w+)", re.M)
NEXT = re.compile(rf"^}}|{HEAD.pattern}", re.M)  # what comes after a head that has no body
CALL = re.compile(r"\b(\w+)\(|::(\w+)\b")
# What gives up calls a C function that the copy declares, and that is assumed never to return. So it is proved, and a
# check prints no files from which to begin its proof.
GIVES_UP = ("crate::gives_up();", "unreachable!()")
DECLARED = """
unsafe extern "C" {
    pub safe fn gives_up() -> bool
        ensures never { ⊥ };
}
"""
OPEN = r"`search` did not prove `[\w-]+`"  # what is said of a function whose goal no proof file answers
ERROR = r"(?:\./)?proofs/{}/\w+\.antt:\d+:\d+: error: "  # where a goal is refused that a proof file answers
# What is said of a text that cannot be read, or that names what is no longer there.
UNREAD = re.compile(
    r"is not in scope|has no (field|`)|is no name|operand is missing|expected the end|cannot continue|was not admitted"
)


class Failure(Exception):
    """Why nothing was tried."""


@dataclass
class Edit:
    """A wrong edit: its name, the file and the function that it changes, and pairs of texts."""

    name: str
    file: str
    function: str
    pairs: list

    def places(self, text):
        """Where in the text of its file the texts begin that it changes: each in its function."""
        found = []
        for old, _ in self.pairs:
            if text.count(old) != 1:
                raise Failure(f"{self.name}: what it changes stands in {self.file} {text.count(old)} times")
            at = text.index(old) + len(old) - len(old.lstrip())
            if not self.is_inside(text, text.count("\n", 0, at)):
                raise Failure(f"{self.name}: what it changes does not stand in {self.function}")
            found.append(at)
        return found

    def is_inside(self, text, line):
        """Whether a line, counted from 0, stands in a function of the name of the one that is changed."""
        heads = [found[1] for found in re.finditer(r"^.*?\bfn (\w+)", "\n".join(text.split("\n")[:line + 1]), re.M)]
        return heads[-1:] == [self.function.split("::")[-1]]

    def made(self, text):
        for old, new in self.pairs:
            text = text.replace(old, new)
        return text


@dataclass
class Function:
    """A function of a text as `rt fmt` lays it out: its name, its margin, and where its body begins and ends."""

    name: str
    margin: str
    begin: int
    end: int


def functions(text):
    """The functions of a text that have a body, the last first, but for those of a cycle of calls."""
    found = []
    for head in HEAD.finditer(text):
        most = next((it.start() for it in NEXT.finditer(text, head.end())), len(text))
        braces = (re.compile(it, re.M).search(text, head.end(), most) for it in (rf"^{head[1]}{{$", r" {$"))
        brace = next(filter(None, braces), None)
        if brace and "#[cycle" not in text[:head.start()].rpartition("\n\n")[2]:
            end = text.index(f"\n{head[1]}}}", brace.end())
            found.append(Function(head[2], head[1], brace.end() + 1, end))
    return found[::-1]


def read_edit(path):
    """The edit that a file has."""
    name, said, olds, news = f"{path.parent.name}/{path.stem}", {}, [], []
    for line in path.read_text().splitlines():
        found = LINE.fullmatch(line)
        if not found:
            raise Failure(f"{name}: no line of an edit begins so: {line}")
        text = found[2] or ""
        if found[1] in ("old", "new"):
            (olds if found[1] == "old" else news).append(text)
        else:
            said[found[1]] = text.strip()
    pairs = list(zip(olds, news))
    if len(said) != 2 or not pairs or len(olds) != len(news) or not all(olds) or any(old == new for old, new in pairs):
        raise Failure(f"{name}: an edit has a line file:, a line function:, and pairs of old: and new: that differ")
    return Edit(name, said["file"], said["function"], pairs)


class Crate:
    """A crate as the toolchain sees it, and its edits, in groups that can be made together."""

    def __init__(self, rtlib, name, chosen):
        self.rtlib, self.name, self.folder = rtlib, name, ROOT / "crates" / name
        if not self.folder.is_dir() or not (EDITS / name).is_dir():
            raise Failure(f"{name} is no crate with edits")
        self.built, self.groups = rtlib.Crate(str(self.folder), str(ROOT), {}), []
        taken = []
        files = [it for it in sorted((EDITS / name).glob("*.edit")) if "" in chosen or it.stem in chosen]
        for lost in chosen - {"", *(it.stem for it in files)}:
            raise Failure(f"{name}/{lost} is no edit")
        for edit in map(read_edit, files):
            text = (self.folder / edit.file).read_text()
            own = {edit.function}
            for at, (old, _) in zip(edit.places(text), edit.pairs):
                own |= {(edit.file, place) for place in range(at, at + len(old.strip()))}
            number = next((it for it, others in enumerate(taken) if not others & own), len(taken))
            if number == len(taken):
                taken.append(set())
                self.groups.append([])
            taken[number] |= own
            self.groups[number].append(edit)

    def lines(self):
        return self.built.count(b"\n")

    def has_libraries(self):
        """Whether the libraries below are built of the files that stand there, and all by one command: `rt check`
        writes a stamp beside them, and `rt ci` does not."""
        def is_new(library):
            files = (file for it in [*library.below(), library] for file in self.rtlib.files_of(it.folder))
            return os.path.isdir(library.rlib) and os.path.getmtime(library.rlib) > max(map(os.path.getmtime, files))
        below = self.built.below()
        stamped = {os.path.exists(f"{os.path.dirname(it.rlib)}/stamp") for it in below}
        return len(stamped) < 2 and all(map(is_new, below))

    def copied(self, room, edits, unedited):
        """Makes a copy of the crate for these edits."""
        for part in PARTS:
            if (self.folder / part).is_dir():
                shutil.copytree(self.folder / part, room / part)
        for edit in edits if not unedited else []:
            path = room / edit.file
            path.write_text(edit.made(path.read_text()))
        self.give_up(room, edits)

    def give_up(self, room, edits):
        """Has the functions that edited ones call give up at once, and drops their proofs."""
        edited = {it.function.split("::")[-1] for it in edits}
        called = set()
        for file in {it.file for it in edits}:
            text = (room / file).read_text()
            for body in (text[it.begin:it.end] for it in functions(text) if it.name in edited):
                called |= {name for names in CALL.findall(body) for name in names}
        called -= edited
        for path in (room / "src").rglob("*.rt"):
            text = path.read_text()
            for it in functions(text):
                if it.name in called:
                    body = "\n".join(f"{it.margin}    {line}" for line in GIVES_UP)
                    text = f"{text[:it.begin]}{body}{text[it.end:]}"
                    for proof in list((room / "proofs").rglob(it.name)):
                        shutil.rmtree(proof)
            path.write_text(text)
        root = next(filter(Path.is_file, (room / "src" / it for it in ("lib.rt", "main.rt"))))
        root.write_text(root.read_text() + DECLARED)

    def check(self, room, kept, functions):
        """What a check of these functions of a copy says, line by line; or why it says nothing of them."""
        flags = ["--jobs", "1", "--incremental", str(kept), "--links", f"{self.name}=gives_up"]
        flags += [word for it in functions for word in ("--only", it)]
        words = [*self.rtlib.guarded(), self.rtlib.RATTLE, "check", *self.built.words(flags, keeps=False)]
        how = {"stdin": subprocess.DEVNULL, "stdout": subprocess.PIPE, "stderr": subprocess.STDOUT, "errors": "replace"}
        done = subprocess.run(words, cwd=room, **how)
        if done.returncode == -signal.SIGKILL:  # most likely for memory
            done = subprocess.run(words, cwd=room, **how)
        lines = done.stdout.splitlines()
        if done.returncode not in (0, 1, 3) or not lines or not lines[-1].startswith("only="):
            return [], f"its check ended with status {done.returncode}: {' '.join(lines[-6:])}"
        return lines, None

    def verdict(self, edit, lines, unedited):
        """Whether an edit is refused, or its function is well without it; and by which goal, or why not."""
        front = f"fn {self.name}::{edit.function}: "
        said = next((it for it in lines if it.startswith(front)), None)
        if said is None:
            return False, f"there is no function {edit.function}"
        told = [it for it in lines if re.match(ERROR.format(edit.function.replace("::", "/")), it)]
        goals = re.findall(OPEN, said) + [it for it in told if not UNREAD.search(it)]
        if unedited:
            return not goals and not told, " ".join([said, *told])
        return bool(goals), goals[0] if goals else f"no goal of it is refused: {' '.join([said, *told])}"


def begin(crate, kept):
    """Begins kept work with what `rt check` kept of a crate, by links: a check never writes into such a file."""
    def link(one, other):
        return os.link(one, other) if one.endswith(".oantt") else shutil.copy2(one, other)
    try:
        shutil.copytree(crate.folder / "out/incremental", kept, copy_function=link)
    except OSError:
        shutil.rmtree(kept, ignore_errors=True)
        kept.mkdir()


def tried(crate, unedited):
    """What became of the edits of a crate: their names, whether all is well, and what is said of each."""
    found, began = [], time.time()
    with tempfile.TemporaryDirectory(prefix="edits-") as place:
        kept = Path(place) / "kept"
        begin(crate, kept)
        for number, edits in enumerate(crate.groups):
            room = Path(place) / str(number)
            crate.copied(room, edits, unedited)
            lines, why = crate.check(room, kept, [it.function for it in edits])
            for edit in edits:
                is_well, text = (False, why) if why else crate.verdict(edit, lines, unedited)
                found.append((edit.name, is_well, text))
    return found, time.time() - began


def toolchain():
    """The module of `rt` that knows which crates stand on which."""
    tool = shutil.which("rt")
    if tool is None:
        raise Failure("there is no rt on the path")
    sys.path.append(os.path.dirname(os.path.realpath(tool)))
    import rtlib

    rtlib.guarded()  # its first call is one of the main thread
    return rtlib


def main():
    parser = argparse.ArgumentParser(description="Tries wrong edits: the prover has to refuse each.")
    parser.add_argument("--jobs", metavar="N", type=int, default=int(os.environ.get("RT_JOBS", 1)))
    parser.add_argument("--unedited", action="store_true", help="make no edit: no goal of their functions may be left")
    which = parser.add_mutually_exclusive_group()
    which.add_argument("--gate", action="store_true", help="try those that the file `gate.list` names")
    which.add_argument("edits", metavar="CRATE[/NAME]", nargs="*", default=[])
    words = parser.parse_args()
    rtlib, tally = toolchain(), Tally()
    folders = [it.name for it in EDITS.iterdir() if it.is_dir()]
    listed = words.edits or folders
    if words.gate:
        listed = (EDITS / "gate.list").read_text().split()
        for name in folders:
            Crate(rtlib, name, {""})
    chosen = {}
    for word in listed:
        crate, _, name = word.partition("/")
        chosen.setdefault(crate, set()).add(name)
    crates = sorted((Crate(rtlib, *it) for it in chosen.items()), key=Crate.lines, reverse=True)
    for crate in crates:
        if not crate.has_libraries() and subprocess.call(["rt", "check", "--only", ""], cwd=crate.folder):
            raise Failure(f"rt check has not built the libraries below {crate.name}")
    with ThreadPoolExecutor(max(words.jobs, 1)) as pool:
        for crate, (found, seconds) in zip(crates, pool.map(lambda it: tried(it, words.unedited), crates)):
            print(f"{crate.name}: {len(found)} in {seconds:.0f} s", flush=True)
            for name, is_well, text in found:
                tally.holds(f"{name}: {text}", is_well)
    print(f"checks/edits/edits.py: {tally}")
    return tally.status


if __name__ == "__main__":
    try:
        sys.exit(main())
    except Failure as failure:
        sys.exit(f"checks/edits/edits.py: {failure}")
