#!/usr/bin/env python3
"""Reads what `fmp_view run --json` prints, and prints the trace and the states that it tells, as `fmp sim` prints them.

    fmp_view run CFG SRC STEPS --json | checks/view/records.py
"""

import json
import sys


def answer(record):
    """The code of a reply and its value; or `wait`."""
    if record["reply"] is None:
        return "wait"
    return " ".join([record["reply"], *([str(record["value"])] if "value" in record else [])])


def called(record):
    arguments, names = record["arguments"], record["names"]
    if len(arguments) != len(names):
        raise SystemExit(f"{len(arguments)} arguments and {len(names)} names: {record}")
    return f"{record['call']}({','.join(str(number) for number in arguments)}) {answer(record)}"


# What a line of an actor tells, behind its processor.
ACTS = {
    "call": lambda record: f"{record['actor']} {called(record)}",
    "end": lambda record: f"{record['actor']} end",
    "fault": lambda record: f"{record['actor']} {record['fault']}",
    "gets": lambda record: f"{record['actor']} gets {answer(record)}",
    "starts": lambda record: f"{record['actor']} starts",
    "pends": lambda record: f"cyc {record['actor']}",
    "begins": lambda record: f"begin {record['actor']}",
    "runs": lambda record: f"> {record['actor'] or '-'}",
}


def line(record):
    """The line of the trace, or of the states, that an object is."""
    if record["what"] == "state":
        return f"{record['task']} {record['state']} p{record['processor']} {record['priority']}"
    if record["what"] == "tick":
        return f"{record['event']} tick {record['clock']}"
    if record["what"] == "interrupt":
        return f"{record['event']} int {record['number']}"
    return f"{record['event']} p{record['processor']} {ACTS[record['what']](record)}"


for text in sys.stdin:
    print(line(json.loads(text)))
