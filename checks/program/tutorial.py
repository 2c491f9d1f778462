#!/usr/bin/env python3
"""Walks through docs/TUTORIAL.md as its readers do, with the programs and the library for C that `make install` copies.

    checks/program/tutorial.py [PROGRAM [VIEW [LIBRARY]]]

They are crates/fmp/out/fmp, crates/fmp_view/out/fmp_view and crates/fmp_c/out/libfmp_c.a where they are not given. A
block `cfg FILE`, `src FILE`, `steps FILE` or `c FILE` is a file, and each command of a block `console` prints what
stands there. Blocks `sh` are not checked, but `make quick` still finds in the sources what it writes otherwise. The
picture beside the page is the one that is drawn. Where there is no C compiler or no library, the commands of the part
in C are left out, and the script says so.
"""

import argparse
import os
import re
import shutil
import subprocess
import sys
import tempfile
from pathlib import Path

sys.dont_write_bytecode = True  # the folders of the checks stay as they are
sys.path[0] = str(Path(__file__).resolve().parents[1])  # the folder `checks`, whose folders are packages

from common.program import ROOT, located, unmarked  # noqa: E402
from common.tally import Tally  # noqa: E402
from program.documents import blocks  # noqa: E402

sys.path.append(str(ROOT / "tools"))
import quick  # noqa: E402

SCRIPT = "checks/program/tutorial.py"
PAGE = ROOT / "docs/TUTORIAL.md"
PICTURE = "crossing.svg"
LINES = 300


class Walk:
    """A reader's folder, and how far the reader came."""

    def __init__(self, room, tally):
        self.room, self.tally, self.prefix = room / "bridge", tally, room / "prefix"
        self.room.mkdir()
        path, packages = f"{self.prefix}/bin:{os.environ['PATH']}", f"{self.prefix}/lib/pkgconfig"
        self.environment = {**os.environ, "PATH": path, "PKG_CONFIG_PATH": packages, "LC_ALL": "C"}

    def run(self, *words):
        """The status of a command, and what it prints."""
        how = {"stdout": subprocess.PIPE, "stderr": subprocess.STDOUT, "text": True, "env": self.environment}
        done = subprocess.run(list(map(str, words)), cwd=self.room, **how)
        return done.returncode, unmarked(done.stdout)

    def install(self, program, view, library):
        """Installs them; whether the library for C is there."""
        compiler = os.environ.get("CC", "cc")
        words = ["make", "-s", "-C", ROOT, f"PREFIX={self.prefix}", f"PROGRAM={program}", f"VIEW={view}"]
        words += [f"LIBRARY={library}", f"C_ROOM={self.room.parent}/made", f"CC={compiler}"]
        has_library = library.is_file() and shutil.which(compiler) and shutil.which("rt")
        if has_library:
            self.tally.verdict("make library", (0, ""), self.run(*words, "library"))
        self.tally.verdict("make install", 0, self.run(*words, "install")[0])
        if has_library and shutil.which("pkg-config") is None:
            script = self.prefix / "bin/pkg-config"
            script.write_text(f"#!/bin/sh\necho '-I{self.prefix}/include/fmp -L{self.prefix}/lib -lfmp -pthread'\n")
            script.chmod(0o755)
        if has_library and compiler != "cc":
            (self.prefix / "bin/cc").symlink_to(shutil.which(compiler))
        return bool(has_library)

    def follow(self, has_library):
        """Does what each block says."""
        for line, kind, info, text in blocks(PAGE):
            if kind == "console":
                for command, wanted in re.findall(r"^\$ (.*)\n((?:(?!\$ ).*\n)*)", text, re.M):
                    if has_library or not re.match(r"(cc|\./crossing) ", command):
                        _, printed = self.run("sh", "-c", command)
                        self.tally.verdict(f"{PAGE.name}:{line}: {command}", wanted, printed)
            elif kind in ("cfg", "src", "steps", "c") and info:
                (self.room / info).write_text(text)
            else:
                self.tally.verdict(f"{PAGE.name}:{line}: the kind of the block", "sh", kind)


def check_quick(tally, room):
    """What `make quick` lowers: programs that say that they are not proved, and one that calls each function for C."""
    try:
        quick.copied(room)
        problem = None
    except quick.Failure as failure:
        problem = str(failure)
    tally.verdict("make quick: the marks of unproved programs", None, problem)
    sources = "".join(path.read_text() for path in ROOT.glob("crates/fmp_c/src/*.rt"))
    exported = set(re.findall(r'extern "C" fn (\w+)', sources))
    main = room / "crates/fmp_c/src/main.rt"
    called = set(re.findall(r"let _ = (\w+)\(", main.read_text())) if main.exists() else set()
    tally.verdict("make quick: the functions for C", exported, called)


def main():
    parser = argparse.ArgumentParser(description="Walks through docs/TUTORIAL.md.")
    parser.add_argument("program", metavar="PROGRAM", nargs="?", help="crates/fmp/out/fmp")
    parser.add_argument("view", metavar="VIEW", nargs="?", help="crates/fmp_view/out/fmp_view")
    parser.add_argument("library", metavar="LIBRARY", nargs="?", help="crates/fmp_c/out/libfmp_c.a", type=Path)
    words = parser.parse_args()
    programs = located("fmp", words.program), located("fmp_view", words.view)
    library = words.library or ROOT / "crates/fmp_c/out/libfmp_c.a"
    tally = Tally()
    with tempfile.TemporaryDirectory() as room:
        walk = Walk(Path(room), tally)
        has_library = walk.install(*programs, library.resolve())
        walk.follow(has_library)
        drawn = walk.room / PICTURE
        check_quick(tally, Path(room) / "quick")
        same = drawn.is_file() and drawn.read_bytes() == (PAGE.parent / PICTURE).read_bytes()
        tally.holds(f"docs/{PICTURE} is what `fmp_view timeline` draws", same)
    if not has_library:
        print(f"{SCRIPT}: the part in C did not run: there is no C compiler, or no library {library}")
    tally.holds(f"{PAGE.name} has at most {LINES} lines", len(PAGE.read_text().splitlines()) <= LINES)
    print(f"{SCRIPT}: {tally}")
    return tally.status


if __name__ == "__main__":
    sys.exit(main())
