"""Rows in which `[N times: PIECE]` stands for that many pieces, with the numbers from 1 in place of `#`."""

import re

REPEAT = re.compile(r"\[(\d+) times: (.*?)\]", re.S)


def expanded(row):
    """The text that a row stands for."""
    def pieces(match):
        return "".join(match[2].replace("#", str(number)) for number in range(1, int(match[1]) + 1))
    return REPEAT.sub(pieces, row)
