"""Programs in C that take random systems one after the other, compared with what the model says of each."""

import re
import subprocess
import sys
from itertools import zip_longest

BATCH = 50  # systems that a program takes in one run
CALL = re.compile("^call ", re.MULTILINE)


def compare(words, usage, run_system, events):
    """Compares PROGRAM on COUNT systems, one from each seed from SEED on. The status."""
    if not 1 <= len(words) <= 3:
        sys.exit(usage)
    program = words[0]
    count = int(words[1]) if len(words) > 1 else 300
    first = int(words[2]) if len(words) > 2 else 1
    calls = 0
    for start in range(first, first + count, BATCH):
        seeds = range(start, min(start + BATCH, first + count))
        systems = [run_system(seed) for seed in seeds]
        handed = "".join(text for text, _ in systems)
        done = subprocess.run([program], input=handed, capture_output=True, text=True, check=False, timeout=300)
        wanted = [(seed, line) for seed, (_, lines) in zip(seeds, systems) for line in lines]
        if problem := difference(done, wanted):
            print(problem)
            return 1
        calls += len(CALL.findall(handed))
    print(f"{count} systems, {count * events} events, {calls} calls: the program in C and the model agree")
    return 0


def difference(done, wanted):
    """The first line that is not as wanted, with what stands before it; none if there is none."""
    given = done.stdout.splitlines()
    if done.returncode == 0 and not done.stderr and given == [line for _, line in wanted]:
        return None
    pairs = enumerate(zip_longest(given, wanted))
    at, seed = next(((at, it and it[0]) for at, (line, it) in pairs if not it or line != it[1]), (len(given), None))
    return "\n".join((
        f"status {done.returncode}, seed {seed}, line {at + 1}:",
        f"it is {given[at:at + 1]}, not {[line for _, line in wanted[at:at + 1]]}, after",
        *given[max(0, at - 6):at],
        done.stderr,
    ))
