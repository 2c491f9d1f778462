#!/usr/bin/env python3
"""Compares the C that `fmp_view export` writes with the run of the code of the same task text.

    checks/port/export.py [COUNT [SEED]] [--live LIVE] [--view VIEW] [--program PROGRAM] [--library LIBRARY]

Each example and COUNT random systems (500), one from each seed from SEED (1) on, are exported, and compiled without a
warning by the usual compiler or by the other one of gcc and clang. The C is run in virtual time over the steps of the
example, or over random ones: its trace and its states at the end are those of `fmp sim`. So are those of each
calculation at the limits of 32 bits. The C on docs/EXPORT.md is that of its example. Half of the random systems have
the bodies of the model; the others have nested expressions, loops, arrays, and operands that fault by different faults.
All of them have hexadecimal numbers and comments at random places, and the C has all comments, in the order of the
text. The files of one example are built and run by their own Makefile, with what `make install-c` copies into a folder
whose name has a blank, over steps in a file of such a name.

LIVE systems more (60) are run by threads for 12 ms each, with random interrupts. They are checked against their texts:
no body does what its text does not do. Their recordings, handed to a new kernel, give their traces again; and so does
`fmp sim`, by the steps that the recordings tell. What happens in a run depends on the machine; this does not.

The programs and the library are those of crates/*/out where they are not given. Where there is no C compiler the script
says that it did not run, with status 0. At the first difference it prints the seed, the line and both texts.
"""

import argparse
import itertools
import os
import random
import re
import shutil
import subprocess
import sys
import tempfile
from contextlib import contextmanager
from itertools import zip_longest
from pathlib import Path

sys.dont_write_bytecode = True  # the folders of the checks stay as they are
sys.path[0] = str(Path(__file__).resolve().parents[1])  # the folder `checks`, whose folders are packages

from common.program import ROOT, located  # noqa: E402
from model.systems import Generator  # noqa: E402
from port.texts import Texts, limit_texts  # noqa: E402
from program.documents import blocks  # noqa: E402

SCRIPT = "checks/port/export.py"
PAGE = ROOT / "docs/EXPORT.md"
SHOWN = ROOT / "examples/pipeline"  # on the page
STEPS = 250
BOUND = "200000"  # more than any stretch that ends; one that does not keeps its place on both sides
TICK, TICKS = "200000", "60"  # nanoseconds, and how many in real time
MOST_STEPS = 500_000  # of a run on a machine whose ticks come late: `fmp sim` takes a million or so
COMPILER = os.environ.get("CC", "cc")
STRICT = ("-std=c11", "-Wall", "-Wextra", "-Wconversion", "-Werror")
# Random texts compare a name with itself, and the like.
ODD = ("-Wno-unknown-warning-option", *(f"-Wno-{warning}" for warning in (
    "tautological-compare", "bool-compare", "int-in-bool-context", "bool-operation", "self-assign",
    "constant-logical-operand", "xor-used-as-pow")))
# Names that C, its headers and the port have too, and comments that C reads otherwise than the task language.
NAMES = """ER ER_UINT FLGPTN ID MODE PRI RELTIM TMO BODIES_H E_RSFN EOF FILE fileno va_list stdin printf remove strcmp
memcpy index signal bodies image program live argc argv main int asm linux bool size_t x_t x_MAX x_body fmp_add
fmp_turns fmp_image put_ x_""".split()
LOCALS = "case register double string v_t v_MIN fmp_exinf fmp_first fmp_sub T_MAX FLG_ stderr puts OK set_".split()
ODD_TASKS = "".join(f"CRE_SHR({name},{{{at}}});\n" for at, name in enumerate(NAMES))
ODD_CFG = f"NUM_PRC(1);\nCLASS(TCL_1) {{\nCRE_TSK(void,{{TA_ACT,3,while_,5,512,NULL}});\n{ODD_TASKS}}}\n"
ODD_SRC = f"""// A path: C:\\
// What??/
/* *\\
/ int; // \r int; */
task while_ {{ // \\ \t
{"".join(f"    var v{at};{chr(10)}" for at in range(len(NAMES)))}
{"".join(f"    ld_shr({name}, &v{at}); put(v{at});{chr(10)}" for at, name in enumerate(NAMES))}
    /* "of /* all */
}}
task char {{ var {"; var ".join(LOCALS)}; {" ".join(f"{it} = {it} + 1;" for it in LOCALS)} put(FILE); }} // end \\
"""
# Requests random interrupts from before the run until the program ends.
RAISING = """
#include "live.h"
#include <pthread.h>
#include <stdlib.h>
#include <unistd.h>

static void *raise_all(void *none)
{
    for (;;) {
        fmp_raise(1 + rand() % 32);
        usleep(100);
    }
    return none;
}

__attribute__((constructor)) static void begin_raising(void)
{
    pthread_t thread;
    if (pthread_create(&thread, NULL, raise_all, NULL) != 0) {
        abort();
    }
}
"""


class Difference(Exception):
    """A system is not as it should be."""


def compared(what, given, wanted):
    """Two texts, which must be the same."""
    if given == wanted:
        return
    lines = list(zip_longest(given.splitlines(), wanted.splitlines()))
    at = next(place for place, (left, right) in enumerate(lines) if left != right)
    before = "\n".join(str(right) for _, right in lines[max(0, at - 5):at])
    raise Difference(f"{what}: line {at + 1} is {lines[at][0]!r}, not {lines[at][1]!r}, after\n{before}")


def random_steps(chooser, processors):
    """Random steps: mostly runs."""
    for _ in range(STEPS):
        kind = chooser.random()
        if kind < 0.8:
            yield f"run {chooser.randint(1, processors)}\n"
        elif kind < 0.95:
            yield "tick\n"
        else:
            yield f"int {chooser.randint(1, 32)}\n"


def random_gaps(chooser):
    """What may stand between two tokens: space, and comments that are counted."""
    for count in itertools.count():
        kind = chooser.random()
        if kind < 0.8:
            yield chooser.choice(" \n")
        elif kind < 0.9:
            yield f" // remark{count}_ \\\n"
        else:
            yield f" /* remark{count}_ */ " if kind < 0.95 else f"\n/* first\n * remark{count}_\n */"


def remarked(chooser, source):
    """The same text with comments at random places, and with some of its numbers hexadecimal."""
    tokens = re.findall(r"\w+|&&|\|\||[=!<>]=|[^\w\s]", re.sub(r"//.*|(?s:/\*.*?\*/)", " ", source))
    words = (hex(int(it)) if it.isdecimal() and chooser.random() < 0.2 else it for it in tokens)
    return "".join(part for pair in zip(random_gaps(chooser), words) for part in pair)


def remarks(text):
    """The counted comments of a text."""
    return re.findall(r"remark\d+_", text)


def texts_of(seed):
    """The configuration, the bodies and the steps of a seed."""
    case = Generator(seed).case()
    chooser = random.Random(seed)
    source = case.source if seed % 2 else Texts(chooser, case.configuration).source(case.system.bodies)
    steps = "".join(random_steps(chooser, case.system.processor_count))
    return case.configuration, remarked(chooser, source), steps


def steps_of(recording):
    """The steps of the events of a recording."""
    words = map(str.split, recording.splitlines())
    return "".join(f"{' '.join(it[:2])}\n" for it in words)


class Bench:
    """The programs, the library as `make install-c` copies it, and a folder for what they read and write."""

    def __init__(self, view, program, library, folder):
        self.view, self.program, self.folder = view, program, folder
        self.prefix = folder / "a prefix"
        self.run("make", "-s", "-C", ROOT, f"LIBRARY={library}", f"PREFIX={self.prefix}", f"C_ROOM={folder / 'made'}",
                 f"CC={COMPILER}", "install-c")
        self.behind = [f"-L{self.prefix}/lib", "-lfmp", "-pthread"]
        self.headers = f"-I{self.prefix}/include/fmp"
        self.compilers = [COMPILER, *(it for it in self.others() if shutil.which(it))]
        checks = ROOT / "checks/port"
        self.replay = self.made("replay", 0, [checks / "replay.c", checks / "replaying.c"])
        (folder / "raising.c").write_text(RAISING)

    def others(self):
        """The other one of gcc and clang."""
        return ["gcc"] if "clang" in self.run(COMPILER, "--version") else ["clang"]

    def run(self, *words, **how):
        """What a command prints; a failure ends the check, and so does all that it says beside."""
        done = subprocess.run(list(map(str, words)), capture_output=True, text=True, timeout=300, check=False, **how)
        if done.returncode or done.stderr:
            said = done.stderr[:2000] or done.stdout[-2000:]
            raise Difference(f"status {done.returncode} of {' '.join(map(str, words[:3]))}: {said}")
        return done.stdout

    def made(self, name, turn, sources, *flags):
        """A program of C sources, by one of the compilers."""
        compiler = self.compilers[turn % len(self.compilers)]
        self.run(compiler, *STRICT, *flags, self.headers, *sources, *self.behind, "-o", self.folder / name)
        return self.folder / name

    def written(self, *texts):
        """The files of a configuration, bodies and steps."""
        paths = [self.folder / name for name in ("a.cfg", "a.src", "a.steps")[:len(texts)]]
        for path, text in zip(paths, texts):
            path.write_text(text)
        return paths

    def image(self, cfg, src):
        """The image of two texts; none if they are refused."""
        image = self.folder / "a.img"
        built = subprocess.run([self.program, "build", cfg, src, image], capture_output=True, check=False)
        return None if built.returncode else image

    def exported(self, cfg, src):
        """The folder with the C of two texts."""
        folder = self.folder / "exported"
        shutil.rmtree(folder, ignore_errors=True)
        self.run(self.view, "export", cfg, src, "--c", folder)
        compared("the comments of the C", "\n".join(remarks((folder / "bodies.c").read_text())),
                 "\n".join(remarks(src.read_text())))
        return folder

    def compare(self, cfg, src, steps, turn, *flags):
        """How many lines the traces of a system in virtual time have; none if its texts are refused."""
        image = self.image(cfg, src)
        if image is None:
            return None
        wanted = self.run(self.program, "sim", image, steps, "--bound", BOUND)
        folder = self.exported(cfg, src)
        program = self.made("virtual", turn, [folder / "bodies.c", folder / "main.c"], *flags)
        compared("the trace of the C", self.run(program, folder / "system.cfg", steps), wanted)
        return wanted.count("\n")

    def live(self, cfg, src, turn):
        """How many events a system does in real time; none if its texts are refused."""
        image = self.image(cfg, src)
        if image is None:
            return None
        folder = self.exported(cfg, src)
        (folder / "image.h").write_text(",".join(map(str, image.read_bytes())))
        sources = [folder / "bodies.c", folder / "main.c", self.folder / "raising.c"]
        program = self.made("live", turn, sources, "-O2", *ODD, "-D_DEFAULT_SOURCE", "-DFMP_SHADOW")
        recording = self.folder / "a.rec"
        trace = self.run(program, "live", folder / "system.cfg", TICK, TICKS, recording)
        compared("its recording", self.run(self.replay, cfg, recording), trace)
        events = recording.read_text()
        if events.count("\n") <= MOST_STEPS:
            steps = self.folder / "a.steps"
            steps.write_text(steps_of(events))
            compared("the text over its steps", self.run(self.program, "sim", image, steps, "--bound", BOUND), trace)
        return events.count("\n")

    def by_makefile(self, example):
        """An example is built by the Makefile beside its C, checked and not, and run in virtual and in real time."""
        if shutil.which("pkg-config") is None:
            print(f"{SCRIPT}: there is no pkg-config: no Makefile is tried")
            return
        folder = self.exported(example.with_suffix(".cfg"), example.with_suffix(".src"))
        (self.prefix / "bin").mkdir(exist_ok=True)
        shutil.copy(self.program, self.prefix / "bin/fmp")
        path = f"{self.prefix}/bin:{os.environ['PATH']}"
        packages = {**os.environ, "PKG_CONFIG_PATH": str(self.prefix / "lib/pkgconfig"), "PATH": path}
        shutil.copy(example.with_suffix(".steps"), folder / "its events.steps")
        words = ["make", "-s", "-C", folder, f"CC={COMPILER}", "STEPS=its events.steps", "TICKS=20"]
        for program, shadow in (("exported", "SHADOW="), ("exported-shadow", "SHADOW=1")):
            trace = self.run(*words, shadow, "run", env=packages)
            compared(f"make {shadow} run", trace, example.with_suffix(".trace").read_text())
            (folder / program).unlink()
            self.run(*words, shadow, env=packages)
            compared(f"what make {shadow} builds", str((folder / program).exists()), "True")
            self.run(*words, shadow, "live", env=packages)


def examples():
    """The examples of the repository that have steps, without their endings."""
    return [path.with_suffix("") for path in sorted((ROOT / "examples").glob("*.steps"))]


def check_page(bench):
    """The C on the page of the exporter is what it writes."""
    folder = bench.exported(SHOWN.with_suffix(".cfg"), SHOWN.with_suffix(".src"))
    bodies = (folder / "bodies.c").read_text()
    for line, kind, _, text in blocks(PAGE):
        if kind == "c" and text not in bodies:
            raise Difference(f"docs/{PAGE.name}:{line}: the C is not that of {SHOWN.name}")


def try_examples(bench):
    """All examples and a text of odd names, with each compiler and each warning; how many lines their traces have."""
    lines = 0
    for turn in range(len(bench.compilers)):
        for example in examples():
            paths = [example.with_suffix(ending) for ending in (".cfg", ".src", ".steps")]
            lines += bench.compare(*paths, turn, "-O2")
        lines += bench.compare(*bench.written(ODD_CFG, ODD_SRC, "run 1\n" * STEPS), turn, "-O2")
        lines += bench.compare(*bench.written(*limit_texts()), turn, "-O2", *ODD)
    check_page(bench)
    bench.by_makefile(examples()[0])
    return lines


def try_random(bench, seeds):
    """How many lines the traces of random systems have in virtual time, and how many of their texts are refused."""
    counts = []
    for seed in seeds:
        with named(seed):
            counts.append(bench.compare(*bench.written(*texts_of(seed)), seed // 2, "-O1", *ODD))
    return sum(filter(None, counts)), counts.count(None)


def try_live(bench, seeds):
    """How many events random systems do in real time."""
    events = 0
    for seed in seeds:
        with named(seed):
            events += bench.live(*bench.written(*texts_of(seed)[:2]), seed // 2) or 0
    return events


@contextmanager
def named(seed):
    """Differences within tell the seed."""
    try:
        yield
    except Difference as found:
        raise Difference(f"seed {seed}: {found}") from None


def arguments():
    parser = argparse.ArgumentParser(description=__doc__, formatter_class=argparse.RawDescriptionHelpFormatter)
    parser.add_argument("count", metavar="COUNT", type=int, nargs="?", default=500)
    parser.add_argument("seed", metavar="SEED", type=int, nargs="?", default=1)
    parser.add_argument("--live", metavar="LIVE", type=int, default=60)
    parser.add_argument("--view", metavar="VIEW", help="crates/fmp_view/out/fmp_view")
    parser.add_argument("--program", metavar="PROGRAM", help="crates/fmp/out/fmp")
    parser.add_argument("--library", metavar="LIBRARY", type=Path, default=ROOT / "crates/fmp_c/out/libfmp_c.a",
                        help="crates/fmp_c/out/libfmp_c.a")
    parser.add_argument("--keep", metavar="FOLDER", type=Path, help="keeps there what was written")
    return parser.parse_args()


def tried(words, folder):
    """What was tried."""
    bench = Bench(located("fmp_view", words.view), located("fmp", words.program), words.library.resolve(), folder)
    lines = try_examples(bench)
    yield f"{len(examples())} examples, {lines} lines of traces: the C and the code agree"
    last = words.seed + words.count
    lines, refused = try_random(bench, range(words.seed, last))
    yield f"{words.count - refused} random systems, {lines} lines: the C and the code agree; {refused} are refused"
    yield f"{words.live} in real time, {try_live(bench, range(last, last + words.live))} events: all are of the texts"


def main():
    words = arguments()
    if shutil.which(COMPILER) is None:
        print(f"{SCRIPT}: it did not run: there is no C compiler")
        return 0
    with tempfile.TemporaryDirectory() as room:
        folder = words.keep.resolve() if words.keep else Path(room)
        folder.mkdir(parents=True, exist_ok=True)
        try:
            for line in tried(words, folder):
                print(f"{SCRIPT}: {line}", flush=True)
        except Difference as found:
            print(f"{SCRIPT}: {found}")
            return 1
    return 0


if __name__ == "__main__":
    sys.exit(main())
