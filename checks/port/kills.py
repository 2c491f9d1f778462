#!/usr/bin/env python3
"""Ends runs in real time by signals at random moments, and replays what they have recorded.

    checks/port/kills.py PROGRAM REPLAY [COUNT [SEED]]

PROGRAM is real.c and REPLAY is replay.c, compiled with the library and the port. COUNT runs (20) of random systems are
ended, soon after their first lines are there: two of three by SIGKILL, the others by SIGTERM or SIGINT, after which the
status must be 0. What stands after the last line feed of a recording is cut; after SIGTERM and SIGINT nothing may
stand there. Handed to a new kernel of the library and to the model, the rest must give the same trace and states.
"""

import random
import signal
import subprocess
import sys
import tempfile
import time
from pathlib import Path

sys.dont_write_bytecode = True  # the folders of the checks stay as they are
sys.path[0] = str(Path(__file__).resolve().parents[1])  # the folder `checks`, whose folders are packages

from port.real import TICKS, cases, difference  # noqa: E402

SIGNALS = (signal.SIGKILL, signal.SIGKILL, signal.SIGTERM, signal.SIGKILL, signal.SIGKILL, signal.SIGINT)


def killed(program, case, recording, number, delay):
    """Runs a system until it is ended by a signal. What is wrong; none if nothing is."""
    handed = f"new {len(case.configuration)} {TICKS[0]}\n{case.configuration}"
    with subprocess.Popen([program, "endless", recording], stdin=subprocess.PIPE, stderr=subprocess.PIPE, text=True,
                          preexec_fn=lambda: signal.signal(signal.SIGINT, signal.SIG_DFL)) as running:
        running.stdin.write(handed)
        running.stdin.close()
        while not (recording.exists() and recording.stat().st_size) and running.poll() is None:
            time.sleep(0.001)
        time.sleep(delay)
        running.send_signal(number)
        said = running.stderr.read()
    is_over = running.returncode == 0 or (running.returncode, number) == (-signal.SIGKILL, signal.SIGKILL)
    return None if is_over and not said else f"status {running.returncode}: {said}"


def replayed(replay, case, folder, recording):
    """The trace and the states that the library gives for a recording."""
    configuration = folder / "cfg"
    configuration.write_text(case.configuration)
    done = subprocess.run([replay, configuration, recording], capture_output=True, text=True, check=False)
    return done.stdout if done.returncode == 0 and not done.stderr else f"status {done.returncode}: {done.stderr}"


def problem_of(case, programs, folder, number, delay):
    """What is wrong with a run, or none; and how many events were recorded."""
    program, replay = programs
    recording = folder / "recording"
    recording.unlink(missing_ok=True)
    if problem := killed(program, case, recording, number, delay):
        return problem, 0
    text = recording.read_text()
    whole = text[:text.rfind("\n") + 1]
    if number != signal.SIGKILL and whole != text:
        return f"the recording ends with {text[-40:]!r}", 0
    return difference(case, whole, replayed(replay, case, folder, recording)), whole.count("\n")


def main(program, replay, count=20, first=1):
    """The status."""
    moments = random.Random(f"kills {first}")
    events = 0
    with tempfile.TemporaryDirectory() as folder:
        for at, case in enumerate(cases(count, first)):
            number = SIGNALS[at % len(SIGNALS)]
            problem, recorded = problem_of(case, (program, replay), Path(folder), number, moments.uniform(0, 0.05))
            if problem:
                print(f"run {at + 1}, {number.name}: {problem}")
                return 1
            events += recorded
    print(f"{count} runs that signals ended, {events} events: the library and the model agree")
    return 0


if __name__ == "__main__":
    if not 3 <= len(sys.argv) <= 5:
        sys.exit(__doc__)
    sys.exit(main(*sys.argv[1:3], *map(int, sys.argv[3:])))
