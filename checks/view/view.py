#!/usr/bin/env python3
"""Runs `fmp_view` on the rows that stand beside this script, those of each command in a file of its own, and compares
its status, its standard output, its standard error and the files that it writes. What is expected was worked out by
hand from the rules and the traces of the examples, never taken from the program.

    checks/view/view.py [--only COMMAND] [--bless] [PROGRAM [FMP]]

PROGRAM is crates/fmp_view/out/fmp_view and FMP is crates/fmp/out/fmp where they are not given. A row is a name, and
indented lines behind it:

    $ WORDS         `fmp_view` is run on these words
    % LINE          a shell runs this line; `fmp`, `fmp_view` and the scripts of this folder are on its path
    status N        the status of what was run last, where it is not 0
    > LINE          its standard output has this line; or `out FILE`: it has the bytes of this file of the folder of the
                    command; or `begins LINE`: its first line is this one, and the others are not looked at
    ! LINE          its standard error has this line; or `err FILE`; or `says REGEX`: this is found in it
    < LINE          its standard input has this line; or `in FILE`
    writes NAME ..  the files that `fmp_view` writes or removes, or else there are none
    NAME: LINE      the file NAME has this line when the row begins

A line that is indented further goes on with the line above, and `#` begins a comment. Each row runs in a folder of its
own. In it are copies of the files of `systems` and of the examples that the row names, and the image of each `NAME.img`
that it names, if there are `NAME.cfg` and `NAME.src`. The rows run side by side on all processors.

What differs is printed as a diff, and the last line counts. `--bless` writes what was printed into the files that
differ, to spare typing: read it, and keep it only if you would have written it by hand. The status is then 1, even if
nothing differs, so that no gate passes by it.
"""

import argparse
import difflib
import os
import re
import shlex
import subprocess
import sys
import tempfile
from concurrent.futures import ThreadPoolExecutor
from dataclasses import dataclass, field
from pathlib import Path

sys.dont_write_bytecode = True  # the folders of the checks stay as they are
sys.path[0] = str(Path(__file__).resolve().parents[1])  # the folder `checks`, whose folders are packages

from common.program import ROOT, located, unmarked  # noqa: E402

HERE = Path(__file__).resolve().parent
SECONDS = 300  # a run that takes longer has failed
NAME = re.compile(r"[\w-]+(?:\.[\w-]+)*\.\w+")
LINE = re.compile(r" {4}([$%<>!]|status|out|begins|err|says|in|writes|[\w-]+\.\w+:)(?: (.*))?")


@dataclass
class Run:
    """A command: its row, its line, and what the lines behind it tell, by their first words."""

    place: str
    sign: str
    text: str
    told: dict = field(default_factory=dict)

    def one(self, word, default=""):
        return self.told.get(word, [default])[0]

    def content(self, sign, word, folder):
        """What is expected of an output, or given as input: lines of the row, or a file."""
        if word in self.told:
            return shown((folder / self.one(word)).read_bytes())
        return "".join(f"{line}\n" for line in self.told.get(sign, []))


@dataclass
class Row:
    """A row: its name, the folder of what is expected, its lines, files that stand in it, and its commands."""

    name: str
    folder: Path
    text: str
    files: dict = field(default_factory=dict)
    runs: list = field(default_factory=list)


def rows_of(path):
    """The rows of a file."""
    rows = []
    text = re.sub(r"\n {8}", " ", path.read_text())
    for line in text.split("\n"):
        if not line or line.startswith("#"):
            continue
        if not line.startswith("    "):
            rows.append(Row(line, HERE / path.stem, line))
            continue
        row, match = rows[-1], LINE.fullmatch(line)
        if not match:
            sys.exit(f"{path}: this is no line of a row: {line}")
        word, rest = match[1], match[2] or ""
        row.text += f"\n{line}"
        if word.endswith(":"):
            row.files.setdefault(word[:-1], []).append(rest)
        elif word in "$%":
            row.runs.append(Run(f"{path.name}: {row.name}", word, rest))
        else:
            row.runs[-1].told.setdefault(word, []).append(rest)
    return rows


class Bench:
    """What all rows use: the programs, and the files that rows name with their images."""

    def __init__(self, folder, view, fmp):
        self.folder, self.view = Path(folder), Path(folder) / "fmp_view"  # run by this name, whatever its file's
        for name, path in (("fmp_view", view), ("fmp", fmp)):
            (self.folder / name).symlink_to(path)
        self.environment = {"PATH": f"{folder}:{HERE}:{os.environ['PATH']}", "LC_ALL": "C", "root": str(ROOT)}
        paths = (path for place in (ROOT / "examples", HERE / "systems") for path in place.iterdir())
        self.files = {path.name: path.read_bytes() for path in paths if path.is_file()}

    def build(self, rows):
        """Makes the images that rows name."""
        for stem in {name[:-4] for row in rows for name in NAME.findall(row.text) if name.endswith(".img")}:
            texts = [f"{stem}.cfg", f"{stem}.src"]
            if all(name in self.files for name in texts):
                for name in texts:
                    (self.folder / name).write_bytes(self.files[name])
                subprocess.run(["./fmp", "build", *texts, "image"], cwd=self.folder, check=True, capture_output=True)
                self.files[f"{stem}.img"] = (self.folder / "image").read_bytes()

    def answers(self, row):
        """Each command of a row, with its status, what it printed on both outputs, and the files that it wrote."""
        with tempfile.TemporaryDirectory(dir=self.folder) as folder:
            for name in NAME.findall(row.text):
                if name in self.files:
                    (Path(folder) / name).write_bytes(self.files[name])
            for name, lines in row.files.items():
                (Path(folder) / name).write_text("".join(f"{line}\n" for line in lines))
            for run in row.runs:
                before = aged(folder)
                words = [str(self.view), *shlex.split(run.text)] if run.sign == "$" else ["/bin/sh", "-c", run.text]
                done = subprocess.run(words, cwd=folder, env=self.environment, capture_output=True, timeout=SECONDS,
                                      input=run.content("<", "in", row.folder).encode())
                written = {name for name, path in files(folder).items() if path.stat().st_mtime_ns}
                written |= before - files(folder).keys()
                yield run, done.returncode, shown(done.stdout), shown(done.stderr), written


def shown(text):
    return unmarked(text.decode(errors="backslashreplace"))


def files(folder):
    """The files below a folder, by their paths there."""
    return {str(path.relative_to(folder)): path for path in Path(folder).rglob("*") if path.is_file()}


def aged(folder):
    """The paths of the files below a folder, whose times are 0 from now on: that of a file that is written is not."""
    for path in files(folder).values():
        os.utime(path, (0, 0))
    return files(folder).keys()


def difference(what, wanted, printed):
    if wanted != printed:
        lines = (text.splitlines() for text in (wanted, printed))
        yield "\n".join(difflib.unified_diff(*lines, "wanted", what, lineterm="")) or f"{what}: another last line end"


def problems(row, run, status, output, errors, written):
    """What differs from what is expected."""
    if status != int(run.one("status", "0")):
        yield f"its status is {status}"
    if "begins" in run.told:
        yield from difference("standard output", run.one("begins"), output.partition("\n")[0])
    else:
        yield from difference("standard output", run.content(">", "out", row.folder), output)
    if "says" not in run.told:
        yield from difference("standard error", run.content("!", "err", row.folder), errors)
    elif not re.search(run.one("says"), errors, re.M):
        yield f"standard error has no {run.one('says')}: {errors[:1000]}"
    if run.sign == "$" and written != {*run.one("writes").split()}:
        yield f"it writes {', '.join(sorted(written)) or 'no file'}"


def tried(bench, row, bless):
    """For each command of a row what failed, as it is printed, or nothing."""
    told = []
    for run, status, output, errors, written in bench.answers(row):
        found = list(problems(row, run, status, output, errors, written))
        told.append("\n".join([f"FAILED: {run.place}", f"{run.sign} {run.text}", *found]) if found else "")
        for word, printed in (("out", output), ("err", errors)):
            if bless and found and word in run.told:
                (row.folder / run.one(word)).write_text(printed)
                print(f"written, to be read: {row.folder / run.one(word)}")
    return told


def main():
    parser = argparse.ArgumentParser(description="Runs fmp_view on the rows of its commands.")
    parser.add_argument("--only", metavar="COMMAND", default="*", help="only the rows of this command")
    parser.add_argument("--bless", action="store_true", help="write what is printed into the files that differ")
    parser.add_argument("view", metavar="PROGRAM", nargs="?", help="crates/fmp_view/out/fmp_view")
    parser.add_argument("fmp", metavar="FMP", nargs="?", help="crates/fmp/out/fmp")
    words = parser.parse_args()
    programs = located("fmp_view", words.view), located("fmp", words.fmp)
    rows = [row for path in sorted(HERE.glob(f"{words.only}.rows")) for row in rows_of(path)]
    with tempfile.TemporaryDirectory(prefix="fmp-view-") as folder:
        bench = Bench(folder, *programs)
        bench.build(rows)
        with ThreadPoolExecutor(len(os.sched_getaffinity(0))) as workers:
            told = [text for texts in workers.map(lambda row: tried(bench, row, words.bless), rows) for text in texts]
    failures = [text for text in told if text]
    print(*failures, f"checks/view/view.py: {len(told) - len(failures)} passed, {len(failures)} failed", sep="\n")
    return 1 if failures or words.bless or not rows else 0


if __name__ == "__main__":
    sys.exit(main())
