#!/usr/bin/env python3
"""Builds and runs the controller of examples/c as its readers do, and the blocks of docs/C.md.

    checks/port/controller.py [LIBRARY]

LIBRARY is crates/fmp_c/out/libfmp_c.a where it is not given, as the gate or `rt lib` makes it. In virtual time the
controller balances, answers a limit switch and stops in an emergency, to the same byte with each compiler, with the
sanitizers and with valgrind. In real time it may fall on a slow machine. Each recording gives its trace again.

Of docs/C.md a block `cfg FILE` or `c FILE` is a file, and each command of a block `console` prints what stands there.
Other blocks are not checked. Where there is no C compiler the script says that it did not run, with status 0. It names
what else is not on the machine.
"""

import os
import platform
import re
import shutil
import signal
import subprocess
import sys
import tempfile
from pathlib import Path

sys.dont_write_bytecode = True  # the folders of the checks stay as they are
sys.path[0] = str(Path(__file__).resolve().parents[1])  # the folder `checks`, whose folders are packages

from common.program import ROOT  # noqa: E402
from common.tally import Tally  # noqa: E402
from program.documents import blocks  # noqa: E402

SCRIPT = "checks/port/controller.py"
EXAMPLE = ROOT / "examples/c/controller"
CFG = EXAMPLE / "controller.cfg"
STRICT = ["-std=c11", "-g", "-Wall", "-Wextra", "-Wpedantic", "-Wconversion", "-Wshadow", "-Werror"]
ADDRESSES = ["-O1", "-fsanitize=address,undefined", "-fno-sanitize-recover=all"]
VALGRIND = ["valgrind", "--quiet", "--error-exitcode=9", "--leak-check=full", "--show-leak-kinds=all"]
COMPILER = os.environ.get("CC", "cc")
HARDEST_PUSH = 500  # after which it balances


def carried_out(words, room, **more):
    """The status of a command, and what it prints."""
    done = subprocess.run(list(map(str, words)), cwd=room, capture_output=True, text=True, timeout=600, **more)
    return done.returncode, done.stdout + done.stderr


class Builder:
    """The library as `make install-c` copies it, in a folder, and programs that are compiled with it."""

    def __init__(self, library, room, tally):
        self.room, self.tally, self.prefix = room, tally, room / "prefix"
        folders = [f"LIBRARY={library}", f"PREFIX={self.prefix}", f"C_ROOM={room / 'made'}", f"CC={COMPILER}"]
        made = carried_out(["make", "-s", "-C", ROOT, *folders, "install-c"], room)
        self.tally.verdict("make install-c", 0, made[0])
        kit = Path(os.path.realpath(shutil.which("rt"))).parents[1]
        self.archives = [library, kit / "c/liblibc_c.a"]

    def compiled(self, name, *words):
        """A program of the words of a command, or none, which is a fault."""
        answer = carried_out([*words, "-o", self.room / name], self.room)
        self.tally.verdict(f"{name} compiles", (0, ""), answer)
        return self.room / name

    def installed(self, name, *words):
        """A program with the library that was installed."""
        folders = [f"-I{self.prefix}/include/fmp", f"-L{self.prefix}/lib"]
        return self.compiled(name, *words, *folders, "-lfmp", "-pthread")

    def made(self, compiler):
        """The controller by its own Makefile."""
        folder = self.room / f"by-{compiler}"
        shutil.copytree(EXAMPLE, folder)
        flags = f"CFLAGS={' '.join([*STRICT, '-O2'])}"
        answer = carried_out(["make", "-s", f"CC={compiler}", f"PREFIX={self.prefix}", flags], folder)
        self.tally.verdict(f"the Makefile with {compiler}", (0, ""), answer)
        return folder / "controller"

    def with_flags(self, name, *flags):
        """The controller and the port, compiled with these flags."""
        sources = [*ROOT.glob("port/*.c"), *EXAMPLE.glob("*.c")]
        words = [COMPILER, *STRICT, *flags, f"-I{ROOT / 'port/include'}", *sources, *self.archives, "-lm", "-pthread"]
        return self.compiled(name, *words)


class Runner:
    """Runs controllers, and replays what they record."""

    def __init__(self, replay, room, tally):
        self.replay, self.room, self.tally = replay, room, tally
        self.virtual = None

    def run(self, name, *words):
        """The status of a run that is recorded, and what it prints; its trace is that of its recording."""
        status, printed = carried_out([*words, "-r", "run.rec", "-o", "run.trace", CFG], self.room)
        self.replays(name)
        return status, printed

    def replays(self, name):
        trace = (self.room / "run.trace").read_text()
        self.tally.verdict(f"{name}: its recording gives its trace again", (0, trace),
                           carried_out([self.replay, CFG, "run.rec"], self.room))

    def runs_in_virtual_time(self, name, *program):
        """It balances, and is recorded as all others."""
        status, printed = self.run(name, *program, "-v")
        self.tally.verdict(f"{name}: it balances", (0, "balanced"), (status, printed.splitlines()[-1].split(":")[0]))
        recorded = (self.room / "run.rec").read_bytes()
        self.virtual = self.virtual or recorded
        self.tally.holds(f"{name}: it runs as all others", recorded == self.virtual)

    def answers_alarms(self, program):
        status, printed = self.run("pushed to a limit", program, "-v", "-p", HARDEST_PUSH)
        self.tally.verdict("pushed to a limit", (0, True), (status, "limit switch" in printed))
        status, printed = self.run("pushed too hard", program, "-v", "-p", 2 * HARDEST_PUSH)
        self.tally.verdict("pushed too hard", (1, True), (status, "the drive is off" in printed))

    def writes_its_files(self, program):
        """Not over its configuration; and it says where one cannot be written."""
        own = self.room / "own.cfg"
        shutil.copy(CFG, own)
        for option in ("-r", "-o"):
            self.tally.verdict(f"{option} CFG", (2, "controller: CFG would be written over\n"),
                               carried_out([program, "-v", option, own, own], self.room))
            if Path("/dev/full").is_char_device():
                status, printed = carried_out([program, "-v", option, "/dev/full", own], self.room)
                self.tally.verdict(f"{option} /dev/full", (3, True), (status, "input or output error" in printed))
        self.tally.verdict("the configuration", CFG.read_bytes(), own.read_bytes())

    def runs_in_real_time(self, name, *program):
        """What it says of the run, which a slow machine may let fall."""
        status, printed = self.run(name, *program, "-t", 1000)
        self.tally.verdict(f"{name}: it runs to its end", (True, True), (status in (0, 1), "periods" in printed))
        return printed

    def is_stopped(self, program):
        """The emergency button, and SIGTERM, each once the log shows that the one before was heard."""
        words = [program, "-t", "60000", "-r", "run.rec", "-o", "run.trace", CFG]
        with subprocess.Popen(words, cwd=self.room, stdout=subprocess.PIPE, text=True) as process:
            lines = iter(process.stdout.readline, "")
            next(lines, "")
            process.send_signal(signal.SIGUSR1)
            heard = any("the drive is off" in line for line in lines)
            process.terminate()
            rest = "".join(lines)
        self.tally.verdict("it is stopped", (True, True), (heard, "periods" in rest))
        self.replays("stopped")


class Page:
    """The blocks of docs/C.md, in a folder of their own."""

    def __init__(self, builder, tally):
        self.builder, self.tally, self.room = builder, tally, builder.room / "page"
        self.room.mkdir()
        (self.room / "bin").mkdir()
        path = f"{self.room / 'bin'}:{os.environ['PATH']}"
        packages = f"{builder.prefix}/lib/pkgconfig"
        self.environment = {**os.environ, "PATH": path, "PKG_CONFIG_PATH": packages, "LC_ALL": "C"}
        if shutil.which("pkg-config") is None:
            words = f"-I{builder.prefix}/include/fmp -L{builder.prefix}/lib -lfmp -pthread"
            script = self.room / "bin/pkg-config"
            script.write_text(f"#!/bin/sh\necho '{words}'\n")
            script.chmod(0o755)

    def checks(self):
        for line, kind, info, text in blocks(ROOT / "docs/C.md"):
            if kind in ("c", "cfg"):
                (self.room / info).write_text(text)
            elif kind == "console":
                for command, wanted in re.findall(r"^\$ (.*)\n((?:(?!\$ ).*\n)*)", text, re.M):
                    _, printed = carried_out(["sh", "-c", command], self.room, env=self.environment)
                    self.tally.verdict(f"docs/C.md:{line}: {command}", wanted, printed)


def works(compiler, flags, room):
    """Whether programs that are compiled with these flags run here."""
    (room / "empty.c").write_text("int main(void) { return 0; }\n")
    words = [compiler, *flags, "empty.c", "-o", "empty"]
    there = carried_out(words, room)[0] == 0 and carried_out(["./empty"], room)[0] == 0
    if not there:
        print(f"{SCRIPT}: {compiler} has no {' '.join(flags)}")
    return there


def check(library, room, tally):
    builder = Builder(library, room, tally)
    port = ROOT / "checks/port"
    replay = builder.installed("replay", COMPILER, "-O2", port / "replay.c", port / "replaying.c")
    runner = Runner(replay, room, tally)
    for compiler in filter(shutil.which, ("gcc", "clang")):
        program = builder.made(compiler)
        runner.runs_in_virtual_time(compiler, program)
    runner.answers_alarms(program)
    runner.writes_its_files(program)
    print(next((line for line in runner.runs_in_real_time("real time", program).splitlines() if "tick" in line), ""))
    if platform.machine() == "x86_64":
        runner.runs_in_real_time("preempted at any instruction", "env", "FMP_PREEMPT=signal", program)
    runner.is_stopped(program)
    if shutil.which("valgrind"):
        unmarked = builder.installed("unmarked", COMPILER, "-std=c11", "-O2", *EXAMPLE.glob("*.c"), "-lm")
        answer = carried_out([*VALGRIND, unmarked, "-v", "-t", 300, CFG], room)
        tally.verdict("valgrind", (0, False), (answer[0], "==" in answer[1]))
    else:
        print(f"{SCRIPT}: there is no valgrind")
    if works(COMPILER, ADDRESSES[1:], room):
        sanitized = builder.with_flags("sanitized", *ADDRESSES)
        runner.runs_in_virtual_time("sanitized", sanitized)
        runner.runs_in_real_time("sanitized", sanitized)
    if works(COMPILER, ["-fsanitize=thread"], room):
        threads = builder.with_flags("threads", "-O1", "-fsanitize=thread")
        printed = runner.runs_in_real_time("threads", threads)
        tally.holds("no data race", "WARNING: ThreadSanitizer" not in printed)
    Page(builder, tally).checks()


def main(library):
    if shutil.which(COMPILER) is None:
        print(f"{SCRIPT}: it did not run: there is no C compiler")
        return 0
    if shutil.which("rt") is None or not library.is_file():
        print(f"{SCRIPT}: there is no rt, or no library {library}: `rt lib` in crates/fmp_c makes it", file=sys.stderr)
        return 2
    tally = Tally()
    with tempfile.TemporaryDirectory() as room:
        check(library, Path(room), tally)
    print(f"{SCRIPT}: {tally}")
    return tally.status


if __name__ == "__main__":
    if len(sys.argv) > 2:
        sys.exit(__doc__)
    sys.exit(main(Path(sys.argv[1] if len(sys.argv) == 2 else ROOT / "crates/fmp_c/out/libfmp_c.a").resolve()))
