"""What the scripts that run random systems share: their command line, the folder of a system's texts, the runs of
programs in it, the comparison of what they print, and how the first fault is told.
"""

import argparse
import random
import shutil
import subprocess
import tempfile
from itertools import zip_longest
from pathlib import Path

from common.program import located
from model.kernel import Kernel
from model.systems import Generator
from model.versions import NEWEST, VERSIONS

BOUND = 10_000  # enough for every stretch of a random body that comes to a call, and so the greatest of a trial
SECONDS = 60  # what a run may take
PROCESSORS = range(1, 9)

# The option by which a script is told where a program is.
OPTIONS = {"fmp": "--program", "fmp_view": "--view", "fmp_stress": "--stress"}


class Wrong(Exception):
    """What is wrong with a run."""


def expect(holds, what):
    if not holds:
        raise Wrong(what)


def expect_same(what, printed, expected):
    """Both texts are the same; else the first line that differs is told."""
    if printed != expected:
        pairs = zip_longest(printed.split("\n"), expected.split("\n"), fillvalue="(no line)")
        number, left, right = next((number, *pair) for number, pair in enumerate(pairs, 1) if pair[0] != pair[1])
        raise Wrong(f"{what}, line {number}: it is '{left}', not '{right}'")


def replayed(case, bound, journal):
    """The model after a journal, each of whose events does something or keeps a place."""
    kernel = Kernel(case.system, bound)
    for place, event in enumerate(journal, 1):
        kernel.step(event)
        expect(kernel.taken == place, f"event {place} of the journal, '{event}', does nothing in the model")
    return kernel


class Trial:
    """The random systems that a script is asked for, the programs that it wants, and the folder in which they run."""

    def __init__(self, about, count, crates):
        parser = argparse.ArgumentParser(description=about)
        parser.add_argument("count", metavar="COUNT", nargs="?", type=int, default=count, help=f"systems ({count})")
        parser.add_argument("seed", metavar="SEED", nargs="?", type=int, default=1, help="the first seed (1)")
        parser.add_argument("--image-version", metavar="VERSION", type=int, choices=VERSIONS,
                            help="images of this version alone, 1 to 3")
        parser.add_argument("--all-cut", action="store_true", help="each system at a small bound, not every other one")
        for crate in crates:
            parser.add_argument(OPTIONS[crate], dest=crate, metavar="PATH", type=Path, help=f"the program `{crate}`")
        options = parser.parse_args()
        if options.count < 1:
            parser.error("COUNT is at least 1")
        self.count, self.seed, self.version, self.at = options.count, options.seed, options.image_version, ""
        self.all_cut = options.all_cut
        self.programs = {crate: located(crate, getattr(options, crate)) for crate in crates}
        self.folder = Path(tempfile.mkdtemp(prefix="fmp-checks-"))

    def systems(self):
        """The seed and the generator of each system. A fault in between is told with the seed."""
        for seed in range(self.seed, self.seed + self.count):
            self.at = f"seed {seed}: "
            yield seed, Generator(seed, self.version)
        self.at = ""

    def is_cut(self, seed):
        """Whether the system of a seed runs at a small bound: every other one, or each where that is asked for."""
        return self.all_cut or seed % 2 == 1

    def bound(self, seed, most):
        """The bound of the system of a seed: where it is cut, 1 to `most` and mostly few."""
        chosen = random.Random(f"bound {seed}")
        return chosen.randint(1, chosen.randint(1, most)) if self.is_cut(seed) else BOUND

    def run(self, program, words):
        """What a program prints and says, which has to end with status 0."""
        try:
            done = subprocess.run([self.programs[program], *words.split()], cwd=self.folder, capture_output=True,
                                  text=True, check=False, timeout=SECONDS)
        except subprocess.TimeoutExpired:
            raise Wrong(f"`{program} {words}` did not end within {SECONDS} seconds") from None
        expect(done.returncode == 0, f"`{program} {words}` ended with status {done.returncode}: {done.stderr.rstrip()}")
        return done.stdout, done.stderr

    def read(self, name):
        """The text of a file that a program has to write."""
        path = self.folder / name
        expect(path.is_file(), f"there is no file {name}")
        return path.read_text()

    def write(self, name, text):
        (self.folder / name).write_text(text)

    def build(self, configuration, source):
        """Makes the image `system.img` of two texts."""
        self.write("system.cfg", configuration)
        self.write("system.src", source)
        self.run("fmp", "build system.cfg system.src system.img")

    def build_case(self, case):
        """Makes the image `system.img` of a random system. One of an older version differs only in its number."""
        self.build(case.configuration, case.source)
        if case.version != NEWEST:
            path = self.folder / "system.img"
            image = path.read_bytes()
            path.write_bytes(image[:4] + bytes([case.version.number]) + image[5:])

    def build_endless(self):
        """Makes the image `system.img` of a task on each of eight processors that calls without end."""
        classes = "".join(f"CLASS(TCL_{p}) {{ CRE_TSK(T{p},{{TA_ACT,0,t,10,256,NULL}}); }}\n" for p in PROCESSORS)
        self.build(f"NUM_PRC({len(PROCESSORS)});\n{classes}", "task t { while (1) { put(1); } }\n")

    def simulated(self, steps, bound):
        """What `fmp sim` prints of `system.img` over the steps of a file at a bound."""
        return self.run("fmp", f"sim system.img {steps} --bound {bound}")[0]


def main(about, count, crates, check):
    """Runs a check over COUNT systems where it is asked for no other number: the status of the script. At the first
    fault it is told with the folder, which then stays."""
    trial = Trial(about, count, crates)
    try:
        check(trial)
    except Wrong as wrong:
        print(f"{trial.at}{wrong}; the texts are in {trial.folder}")
        return 1
    shutil.rmtree(trial.folder)
    return 0
