"""Where the programs are, and how the checks run them: started with least cost, since they start very often."""

import argparse
import os
import sys
from pathlib import Path

ROOT = Path(__file__).resolve().parents[2]


def located(crate, path=None):
    """Where the program of a crate is: at a path, or else where `rt ci` and `rt run` leave it. Where there is none, the
    script ends with status 2."""
    path = Path(path or ROOT / "crates" / crate / "out" / crate).resolve()
    if not os.access(path, os.X_OK) or path.is_dir():
        print(f"{sys.argv[0]}: there is no program {path}: `rt run` in crates/{crate} makes it", file=sys.stderr)
        sys.exit(2)
    return path


def unmarked(text):
    """What a program prints, without the mark at the end of a claim of one that `make quick` has built."""
    return text.replace(", proved=no\n", "\n").replace(', proved=no"', '"')


def program_of_words(about, crate):
    """The program of a script whose command line may name it, and has no other words."""
    parser = argparse.ArgumentParser(description=about)
    parser.add_argument("program", metavar="PROGRAM", nargs="?", type=Path, help=f"crates/{crate}/out/{crate}")
    return located(crate, parser.parse_args().program)


class Program:
    """The program at a path, and a folder for what it reads and writes."""

    def __init__(self, path, folder):
        self.path, self.folder = str(path), Path(folder)

    def file(self, name, content):
        """The path of a file of the folder, which has this content then."""
        path = self.folder / name
        path.write_bytes(content)
        return str(path)

    def start(self, *words):
        """A run of the program that has begun: its process, and where what it prints is read."""
        out_end, out = os.pipe()
        error_end, error = os.pipe()
        ends = [(os.POSIX_SPAWN_DUP2, out, 1), (os.POSIX_SPAWN_DUP2, error, 2)]
        process = os.posix_spawn(self.path, [self.path, *words], {}, file_actions=ends)
        os.close(out)
        os.close(error)
        return process, out_end, error_end

    def finish(self, started):
        """The status of a run, what it printed, and what it printed on standard error (a line or two)."""
        process, out_end, error_end = started
        with open(out_end, "rb") as printed, open(error_end, "rb") as refused:
            texts = printed.read().decode(), refused.read().decode()
        _, status = os.waitpid(process, 0)
        return os.waitstatus_to_exitcode(status), *texts

    def run(self, *words):
        """The answer of one run, as `finish` gives it."""
        return self.finish(self.start(*words))

    def check(self, configuration, source):
        """What `check` answers to two texts."""
        return self.run("check", self.file("a.cfg", configuration), self.file("a.src", source))

    def build(self, configuration, source):
        """What `build` answers to two texts, and the bytes that it wrote, if any."""
        image = self.folder / "a.img"
        image.unlink(missing_ok=True)
        answer = self.run("build", self.file("a.cfg", configuration), self.file("a.src", source), str(image))
        return answer, image.read_bytes() if image.exists() else None

    def sim(self, image, steps=b"", bound=None):
        """What `sim` answers to an image and steps."""
        return next(self.sims([(image, steps)], bound))

    def sims(self, inputs, bound=None):
        """What `sim` answers to each of some images with their steps, all run at once."""
        option = [] if bound is None else ["--bound", str(bound)]
        started = []
        for place, (image, steps) in enumerate(inputs):
            steps_path = self.file(f"{place}.steps", steps) if steps else os.devnull
            started.append(self.start("sim", self.file(f"{place}.img", image), steps_path, *option))
        return map(self.finish, started)
