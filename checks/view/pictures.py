#!/usr/bin/env python3
"""Prints what a picture of `fmp_view timeline` shows, for the rows of this folder.

    checks/view/pictures.py lanes|marks|waits|looks PICTURE

`lanes`: each lane, and the first line of each of its titles. `marks`: the shape of each mark, and the first line of its
title. `waits`: the second line of each title of a bar that waits or spins. `looks`: the lane of each task, with the
classes of its colour and its hatch.
"""

import sys
from xml.etree import ElementTree

SVG = "{http://www.w3.org/2000/svg}"
LANES = ("Processor ", "Task ", "Handler ", "semaphore ", "flag ", "data queue ", "mailbox ", "shared word ")


def first_line(title):
    return title.text.split("\n")[0]


def lanes(picture):
    for lane in picture.iter(f"{SVG}g"):
        label = lane.get("aria-label", "")
        if label.startswith(LANES):
            yield label
            yield from (f"  {first_line(title)}" for title in lane.iter(f"{SVG}title"))


def marks(picture):
    for group in picture.iter(f"{SVG}g"):
        shape, title = group.find(f"{SVG}use"), group.find(f"{SVG}title")
        if shape is not None and title is not None:
            yield f"{shape.get('href')} {first_line(title)}"


def waits(picture):
    for title in picture.iter(f"{SVG}title"):
        if " WAITING" in first_line(title) or ": spins for " in first_line(title):
            yield title.text.split("\n")[1]


def looks(picture):
    for lane in picture.iter(f"{SVG}g"):
        label = lane.get("aria-label", "")
        if label.startswith("Task "):
            classes = [path.get("class").split()[0] for path in lane.iter(f"{SVG}path")]
            hatches = [word for word in classes if word.startswith("x")]
            yield " ".join([label, classes[0], *hatches[:1]])


def main():
    _, what, path = sys.argv
    try:
        picture = ElementTree.parse(path)
    except (OSError, ElementTree.ParseError) as error:
        sys.exit(f"{path}: {error}")
    for line in {"lanes": lanes, "marks": marks, "waits": waits, "looks": looks}[what](picture):
        print(line)


if __name__ == "__main__":
    main()
