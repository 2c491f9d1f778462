#!/usr/bin/env python3
"""Changes the texts of random systems, and compares what `fmp check` says of them with a second reader.

    checks/model/texts.py [COUNT [SEED]] [--program PATH]

COUNT (2000) is the number of systems. Of each CHANGES pairs of texts are checked in which the configuration or the task
text was changed: mostly a number, a name, a constant or a word became another one, or lines were left out, moved or
copied; else tokens or bytes were put in, left out or exchanged. The program has to answer `ok`, or the fault with its
text, line and code, as reading.py and reading_bodies.py do, which are written from docs/LANGUAGE.md.
"""

import random
import re
import subprocess
import sys
from collections import Counter
from pathlib import Path

sys.dont_write_bytecode = True  # the folders of the checks stay as they are
sys.path[0] = str(Path(__file__).resolve().parents[1])  # the folder `checks`, whose folders are packages

from model.harness import SECONDS, expect, main  # noqa: E402
from model.reading import CALLS, CONSTANTS, PACKETS, WORDS  # noqa: E402
from model.reading_bodies import verdict  # noqa: E402

CHANGES = 6  # pairs of texts of each system
PIECE = re.compile(r"\s+|//[^\n]*|/\*.*?\*/|\w+|&&|\|\||==|!=|<=|>=|.", re.DOTALL)
NUMBERS = "0 1 2 3 5 7 8 9 15 16 17 32 33 63 64 65 255 256 65535 65536 65537 1073741824 1073741825 0xFFFF".split()
NAMES = "nothing exinf TCL_1 TCL_2_ONLY TCL_9 T1 S1 v w a_name_of_thirty_one_bytes_exact".split()
STATEMENTS = "task handler if else while break continue return var".split()
PIECES = [
    *sorted(WORDS), *NUMBERS, *NAMES, *"( ) { } [ ] , ; | & ^ ~ ! = < > + - * / % && || == != <= >=".split(),
    "2147483648", "0x80000000", "0x000000001", "012", "0X1", "1st", "a_name_of_more_than_31_bytes_is_a_fault", "/*",
    "*/", "/*/", "//", "@", '"', "#", "\v", "\x7f",
]


def another(piece, pieces, chosen):
    """Something of the same kind as a number, a word or a name."""
    if piece[0].isdigit():
        return chosen.choice(("", "", "", "-", "2 | ")) + chosen.choice(NUMBERS)
    if piece in CONSTANTS:
        return chosen.choice((*CONSTANTS, *NUMBERS))
    if piece in CALLS:
        return chosen.choice([call for call in CALLS if CALLS[call] == CALLS[piece] or chosen.random() < 0.1])
    if piece in WORDS:
        return chosen.choice(tuple(PACKETS) if piece in PACKETS else STATEMENTS)
    names = [other for other in pieces if re.match("[A-Za-z_]", other) and other not in WORDS]
    return chosen.choice((*names, *NAMES))


def with_another(text, chosen):
    """The text, in which a number, a word or a name is another one."""
    pieces = PIECE.findall(text)
    places = [place for place, piece in enumerate(pieces) if re.match(r"\w", piece)]
    if places:
        place = chosen.choice(places)
        pieces[place] = another(pieces[place], pieces, chosen)
    return "".join(pieces)


def with_lines(text, chosen):
    """The text with lines left out, moved or copied."""
    lines = text.split("\n")
    first, last = sorted(chosen.choices(range(len(lines) + 1), k=2))
    some, place = lines[first:last][:20], chosen.randrange(len(lines))
    if chosen.random() < 0.6:
        del lines[first : first + len(some)]
    if chosen.random() < 0.6:
        lines[place:place] = some
    return "\n".join(lines)


def with_pieces(text, chosen):
    """The text with a token left out, put in or exchanged, cut off, or with a byte more."""
    pieces = PIECE.findall(text)
    place, new, shape = chosen.randrange(len(pieces) + 1), f" {chosen.choice(PIECES)} ", chosen.random()
    if shape < 0.3:
        pieces[place : place + 1] = []
    elif shape < 0.6:
        pieces.insert(place, new)
    elif shape < 0.9:
        pieces[place : place + 1] = [new]
    elif shape < 0.95:
        del pieces[place:]
    else:
        pieces.insert(place, chosen.choice("0xX_aZ;(){}[]\n/ *&|=-9\t\r"))
    return "".join(pieces)


def changed(text, chosen):
    """A text that is changed once, or a few times."""
    for _ in range(chosen.choice((1, 1, 2, 3))):
        change = chosen.choice((with_another, with_another, with_another, with_lines, with_pieces))
        text = change(text, chosen)
    return text


def checked(trial, configuration, source):
    """What `fmp check` answers."""
    (trial.folder / "system.cfg").write_bytes(configuration.encode())
    (trial.folder / "system.src").write_bytes(source.encode())
    done = subprocess.run([trial.programs["fmp"], "check", "system.cfg", "system.src"], cwd=trial.folder, text=True,
                          capture_output=True, check=False, timeout=SECONDS)
    expect(done.returncode in (0, 1), f"it ends with status {done.returncode}: {done.stderr.rstrip()}")
    return (done.stdout if done.returncode == 0 else done.stderr).rstrip("\n")


def compare(trial):
    """Compares the program with the reader on each pair of texts."""
    answers = Counter()
    for seed, generator in trial.systems():
        case, chosen = generator.case(), random.Random(f"texts {seed}")
        for _ in range(CHANGES):
            texts = [case.configuration, case.source]
            place = chosen.randrange(2)
            texts[place] = changed(texts[place], chosen)
            expected, answer = verdict(*texts), checked(trial, *texts)
            expect(answer == expected, f"it answers '{answer}', and the reader '{expected}'")
            answers[re.sub(r":\d+:", "", expected)] += 1
    print(f"checks/model/texts.py: {answers.total()} pairs of texts: the program and the reader agree")
    print("; ".join(f"{count} times {answer}" for answer, count in answers.most_common()))


if __name__ == "__main__":
    sys.exit(main("Compares what is said of changed texts with a second reader.", 2000, ("fmp",), compare))
