#!/usr/bin/env python3
"""Prints what a trace of `fmp_view waves` shows, for the rows of this folder.

    checks/view/slices.py perfetto TRACE
    checks/view/slices.py tlv LOG RESOURCES

`perfetto`: each track with its slices, from a time to another, and its instants; and then the arrows. Slices of a track
must follow one another. `tlv`: the lines of the log, once each is of the standard form, none goes back in time, and
each object is a resource.
"""

import json
import re
import sys

LINE = re.compile(r"\[(\d+)\](\w+)\.(\w+)(=[\w-]+|\(\))")


def tracks_of(entries):
    """The name of each track, in the order of the trace."""
    groups = {e["pid"]: e["args"]["name"] for e in entries if e["ph"] == "M" and e["name"] == "process_name"}
    names = [e for e in entries if e["ph"] == "M" and e["name"] == "thread_name"]
    return {(e["pid"], e["tid"]): f"{groups[e['pid']]}: {e['args']['name']}" for e in names}


def slices(entries, track):
    end = 0
    for e in entries:
        if (e["pid"], e["tid"]) != track:
            continue
        if e["ph"] == "X":
            if e["ts"] < end:
                sys.exit(f"slices overlap: {e}")
            end = e["ts"] + e["dur"]
            yield f"  {e['ts']} to {end} {e['name']}"
        if e["ph"] == "i":
            yield f"  at {e['ts']} {e['name']}"


def arrows(entries, tracks):
    starts = {e["id"]: e for e in entries if e["ph"] == "s"}
    for e in entries:
        if e["ph"] == "f":
            start = starts.pop(e["id"])
            if (start["cat"], start["name"]) != (e["cat"], e["name"]):
                sys.exit(f"an arrow changes its name: {e}")
            source, target = (tracks[x["pid"], x["tid"]] for x in (start, e))
            yield f"{source} at {start['ts']} {e['name']} {target} at {e['ts']}"
    if starts:
        sys.exit(f"arrows do not end: {starts}")


def perfetto(path):
    with open(path, encoding="utf-8") as file:
        entries = json.load(file)
    tracks = tracks_of(entries)
    for track, name in tracks.items():
        yield name
        yield from slices(entries, track)
    yield from arrows(entries, tracks)


def tlv(path, resources):
    with open(resources, encoding="utf-8") as file:
        known = json.load(file)["Resources"]
    before = 0
    with open(path, encoding="utf-8") as file:
        for text in file:
            line = LINE.fullmatch(text.rstrip("\n"))
            if not line or line[2] not in known or int(line[1]) < before:
                sys.exit(f"{path}: {text}")
            before = int(line[1])
            yield text.rstrip("\n")


for shown in {"perfetto": perfetto, "tlv": tlv}[sys.argv[1]](*sys.argv[2:]):
    print(shown)
