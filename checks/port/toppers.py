#!/usr/bin/env python3
"""Compares the C that `fmp_view export` writes for TOPPERS/FMP with the run of the code of the same task text.

    checks/port/toppers.py [COUNT [SEED]] [--view VIEW] [--program PROGRAM] [--library LIBRARY]

Each example and COUNT random systems (40), one from each seed from SEED (1) on, are exported for FMP 1 and for FMP3.
The C compiles without a warning by gcc and by clang, whichever there are, against headers with the types and prototypes
of the public specification, in toppers/include; and system.cfg has the objects of the configuration. What is for FMP 1
is run, in virtual time over toppers/shim.c: its trace and its states at the end are those of `fmp sim`. No kernel of
TOPPERS is run.

The programs and the library are those of crates/*/out where they are not given. Where there is no C compiler the script
says that it did not run, with status 0. At the first difference it prints the system, the line and both texts.
"""

import argparse
import re
import shutil
import subprocess
import sys
import tempfile
from pathlib import Path

sys.dont_write_bytecode = True  # the folders of the checks stay as they are
sys.path[0] = str(Path(__file__).resolve().parents[1])  # the folder `checks`, whose folders are packages

from common.program import ROOT, located  # noqa: E402
from port.export import BOUND, COMPILER, ODD, Bench, Difference, compared, examples, named, texts_of  # noqa: E402

SCRIPT = "checks/port/toppers.py"
STUB = ROOT / "checks/port/toppers"
STRICT = ("-std=c99", "-O1", "-Wall", "-Wextra", "-Wconversion", "-Werror", *ODD)
CREATED = re.compile(r"\bCRE_(\w+)\((\w+),")
COMMENT = re.compile(r"/\*.*?\*/|//[^\n]*", re.DOTALL)


def created(text):
    """The names of the objects of a configuration, by the words of their static APIs, in order."""
    kinds = {}
    for kind, name in CREATED.findall(COMMENT.sub(" ", text)):
        kinds.setdefault(kind, []).append(name)
    return kinds


def numbers(kinds):
    """kernel_cfg.h, as TOPPERS' configurator makes it."""
    return "".join(f"#define {name} {number}\n" for names in kinds.values() for number, name in enumerate(names, 1))


class TargetBench(Bench):
    """The programs, and a folder for what they read and write."""

    def object(self, compiler, source, *flags):
        """The object of a source against the headers of TOPPERS."""
        made = self.folder / f"{source.stem}.o"
        self.run(compiler, *flags, f"-I{STUB / 'include'}", "-c", source, "-o", made)
        return made

    def target(self, cfg, src, *flags):
        """The object of the C for a target."""
        folder = self.folder / "target"
        shutil.rmtree(folder, ignore_errors=True)
        self.run(self.view, "export", cfg, src, "--toppers", folder, *flags)
        wanted = {kind: names for kind, names in created(cfg.read_text()).items() if kind not in ("MSG", "SHR")}
        given = created((folder / "system.cfg").read_text())
        if {kind: [name.rstrip("_") for name in names] for kind, names in given.items()} != wanted:
            raise Difference(f"system.cfg has the objects {given}")
        (folder / "kernel_cfg.h").write_text(numbers(given))
        shutil.copy(self.prefix / "include/fmp/fmp_toppers.h", folder)
        for compiler in self.compilers:
            made = self.object(compiler, folder / "bodies.c", *STRICT, "-include", STUB / "seen.h")
        return made

    def refused(self, cfg, src, names):
        """FMP3 has no mailboxes: all are named, and nothing is written."""
        folder = self.folder / "refused"
        words = [self.view, "export", cfg, src, "--toppers", folder, "--fmp3"]
        done = subprocess.run(words, capture_output=True, text=True, check=False)
        told = "".join(f"{name}: FMP3 has no mailboxes\n" for name in names)
        if (done.returncode, done.stderr) != (1, told) or folder.exists():
            raise Difference(f"the mailboxes {names} are not refused: {done}")

    def try_system(self, cfg, src, steps):
        """How many lines the traces of a system have; none if its texts are refused."""
        image = self.image(cfg, src)
        if image is None:
            return None
        mailboxes = created(cfg.read_text()).get("MBX")
        if mailboxes:
            self.refused(cfg, src, mailboxes)
        else:
            self.target(cfg, src, "--fmp3")
        bodies = self.target(cfg, src)
        shim = self.object(COMPILER, STUB / "shim.c", "-std=c11", "-DFMP_GENERATION=1")
        program = self.made("ported", 0, [self.exported(cfg, src) / "main.c", bodies, shim])
        wanted = self.run(self.program, "sim", image, steps, "--bound", BOUND)
        compared("the trace of the C", self.run(program, cfg, steps), wanted)
        return wanted.count("\n")


def tried(words, folder):
    """What was tried."""
    bench = TargetBench(located("fmp_view", words.view), located("fmp", words.program), words.library.resolve(), folder)
    lines = 0
    for example in examples():
        with named(example.name):
            lines += bench.try_system(*(example.with_suffix(ending) for ending in (".cfg", ".src", ".steps")))
    yield f"{len(examples())} examples, {lines} lines of traces: the C and the code agree"
    counts = []
    for seed in range(words.seed, words.seed + words.count):
        with named(seed):
            counts.append(bench.try_system(*bench.written(*texts_of(seed))))
    lines, refused = sum(filter(None, counts)), counts.count(None)
    yield f"{words.count - refused} random systems, {lines} lines: the C and the code agree; {refused} are refused"


def arguments():
    parser = argparse.ArgumentParser(description=__doc__, formatter_class=argparse.RawDescriptionHelpFormatter)
    parser.add_argument("count", metavar="COUNT", type=int, nargs="?", default=40)
    parser.add_argument("seed", metavar="SEED", type=int, nargs="?", default=1)
    parser.add_argument("--view", metavar="VIEW", help="crates/fmp_view/out/fmp_view")
    parser.add_argument("--program", metavar="PROGRAM", help="crates/fmp/out/fmp")
    parser.add_argument("--library", metavar="LIBRARY", type=Path, default=ROOT / "crates/fmp_c/out/libfmp_c.a",
                        help="crates/fmp_c/out/libfmp_c.a")
    return parser.parse_args()


def main():
    words = arguments()
    if shutil.which(COMPILER) is None:
        print(f"{SCRIPT}: it did not run: there is no C compiler")
        return 0
    with tempfile.TemporaryDirectory() as room:
        try:
            for line in tried(words, Path(room)):
                print(f"{SCRIPT}: {line}", flush=True)
        except Difference as found:
            print(f"{SCRIPT}: {found}")
            return 1
    return 0


if __name__ == "__main__":
    sys.exit(main())
