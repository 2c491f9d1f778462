#!/usr/bin/env python3
"""Writes the lists of crates and of definitions into the documents, and tells whether those that stand there are these.

    checks/program/written.py [--write]

The list of crates in docs/MAP.md has the floors of crates.txt, and of each crate the first sentence of its `//!` head,
up to a colon where it is long. The lists in docs/DEFINITIONS.md have the definitions of `specs/` that docs/PROVED.md
names, those of README's sentences first: the name, the crate, the file, and the front of the comment. Definitions that
the document tells by hand are left out of them. `--write` writes the lists: after each change of such a head or
comment, and of docs/PROVED.md. Without it they are compared. The paths in docs/MAP.md and CONTRIBUTING.md are looked up
too: one is below crates/ or the root; a bare name is that of a file of the crate or the folder that was named last; and
what stands as `NAME` in `PATH` is a name that this file has. So are the definitions that docs/DEFINITIONS.md tells by
hand. In docs/PROVED.md the names in brackets after a function, in front of the colon of its item, are clauses of its
contract. Links between documents are followed.
"""

import argparse
import re
import sys
import textwrap
from dataclasses import dataclass
from functools import cache
from pathlib import Path

sys.dont_write_bytecode = True  # the folders of the checks stay as they are
sys.path[0] = str(Path(__file__).resolve().parents[1])  # the folder `checks`, whose folders are packages

from common.program import ROOT  # noqa: E402
from common.tally import Tally  # noqa: E402

CRATES = ROOT / "crates"
PROVED, DEFINITIONS = ROOT / "docs/PROVED.md", ROOT / "docs/DEFINITIONS.md"
COLUMNS = 120
LINKED = ("*.md", "docs/*.md", "checks/*.md", "examples/*.md")  # the documents whose links are followed
PATHS = ("docs/MAP.md", "CONTRIBUTING.md")  # the documents whose paths are looked up
SHORT = 50  # characters of a sentence that needs the next one
LEAST = 6  # words that stand in front of the place at which the sentence of a crate is cut
LONG = 100  # characters of a sentence of a crate that is cut at a colon
BEGIN, END = "<!-- begin: {} -->", "<!-- end: {} -->"
IMPORT = re.compile(r"use Rattle\.(fmp\w*)\.specs\.(\w+)\.\{([^}]*)\}")
DEFINITION = re.compile(r"^(?:abbrev pub|pub record|pub data) (\S+)", re.M)
HEADLINE = "## The sentences of README"
FILE = re.compile(r"[\w./*]*\w\.(?:rt|antt|py|sh|md|h|c|txt)|[\w.]+(?:/[\w.]+)+/?")


@dataclass
class Floor:
    """A floor of crates.txt: its name, and its crates, the lowest first."""

    name: str
    crates: list


def floors():
    found = []
    for line in (ROOT / "crates.txt").read_text().splitlines()[1:]:
        if line.startswith("# "):
            found.append(Floor(line[2:].partition(":")[0], []))
        elif line:
            found[-1].crates.append(re.match(r"\w+", line)[0])
    return found


def first_sentences(text, least=0):
    """The first sentence of a text, and those after it while all together have fewer characters than the least."""
    told, *others = re.split(r"(?<=\.) +(?=[A-Z`])", text)
    while others and len(told) < least:
        told = f"{told} {others.pop(0)}"
    return told


def head(path):
    """The first paragraph of the comment with which a file of code begins."""
    lines = []
    for line in path.read_text().splitlines():
        if not line.startswith("//!") or line == "//!":
            break
        lines.append(line[3:].strip())
    return " ".join(lines)


def comment(path, name):
    """The comment above a definition."""
    lines = path.read_text().splitlines()
    place = next(i for i, line in enumerate(lines) if (it := DEFINITION.match(line)) and it[1] == name)
    above = []
    while lines[place - 1].startswith("--"):
        place -= 1
        above.insert(0, lines[place][2:].strip())
    return " ".join(above)


@cache
def imported(crate):
    """The definitions that the files of a crate cite: the name, and the file that each of this name stands in."""
    found = {}
    for path in [*(CRATES / crate).glob("src/**/*.rt"), *(CRATES / crate).glob("specs/*.antt")]:
        for owner, file, names in IMPORT.findall(path.read_text()):
            for name in re.findall(r"\b[A-Z]\w+", names):
                found.setdefault(name, set()).add(CRATES / owner / "specs" / f"{file}.antt")
    return found


def named_in(text):
    """The definitions that a text of docs/PROVED.md names, each with its file. A name is that of a definition which a
    crate cites that the part is about: one that it names itself, or one in bold type above it."""
    all_crates = {crate for floor in floors() for crate in floor.crates}
    crates, found = [], set()
    for _, part in items(text):
        crates = re.findall(r"\*\*`(\w+)`", part) or crates
        about = [name for name in re.findall(r"`(\w+)`", part) if name in all_crates] or crates
        quoted = " ".join(re.findall(r"`([^`]+)`", part))
        words = set(re.findall(r"\b[A-Z]\w+\b(?!::)", quoted))
        for crate in about:
            cited = imported(crate)
            found |= {(path, word) for word in words for path in cited.get(word, ())}
    return found


def words_in(path):
    return set(re.findall(r"\w+", path.read_text()))


def specs(crate):
    return sorted((CRATES / crate / "specs").glob("*.antt"))


def crate_sentence(path):
    """What a crate has, by the head of its root file: up to a colon where it is long."""
    told = re.sub(r" \([^()]*\)", "", first_sentences(head(path), SHORT))
    front = re.split("[:;] ", told)[0]
    return f"{front}." if len(told) > LONG and front != told and len(front.split()) >= LEAST else told


def item(text):
    """An item of a list, in lines that fit."""
    return textwrap.fill(text, COLUMNS, initial_indent="- ", subsequent_indent="  ", break_on_hyphens=False,
                         break_long_words=False)


def crates_list():
    parts = []
    for floor in floors():
        parts += ["", f"### {floor.name}", ""]
        for crate in floor.crates:
            roots = [CRATES / crate / "src" / name for name in ("lib.rt", "main.rt")]
            told = crate_sentence(next(path for path in roots if path.exists()))
            parts.append(item(f"`{crate}`: {told}"))
    return parts


def told_by_hand():
    """The definitions that docs/DEFINITIONS.md tells outside of its lists, each with its file."""
    lists = "|".join(f"{BEGIN.format(name)}.*?{END.format(name)}" for _, name in LISTS)
    text = re.sub(lists, "", DEFINITIONS.read_text(), flags=re.S)
    found = re.findall(r"^- `(\w+)` \(`(\w+)`, `(\w+)`\):", text, re.M)
    return {(CRATES / crate / "specs" / f"{file}.antt", name) for name, crate, file in found}


def definitions_list(wanted, left_out=frozenset()):
    """The definitions that are wanted and have a comment, the lowest first."""
    by_hand, parts = told_by_hand(), [""]
    for path in (path for floor in floors() for crate in floor.crates for path in specs(crate)):
        for name in DEFINITION.findall(path.read_text()):
            told = comment(path, name) if (path, name) in wanted - left_out - by_hand else ""
            if told:
                parts.append(item(f"`{name}` (`{path.parts[-3]}`, `{path.stem}`): {first_sentences(told, 2 * SHORT)}"))
    return parts


def named_in_headline():
    return named_in(PROVED.read_text().partition(HEADLINE)[2].partition("\n## ")[0])


def headline_list():
    return definitions_list(named_in_headline())


def others_list():
    """The definitions that docs/PROVED.md names further down."""
    return definitions_list(named_in(PROVED.read_text()), named_in_headline())


LISTS = {
    ("docs/MAP.md", "crates"): crates_list,
    ("docs/DEFINITIONS.md", "headline"): headline_list,
    ("docs/DEFINITIONS.md", "others"): others_list,
}


def check_list(tally, document, name, lines, write):
    """The list between its two marks, which is written first where that is asked for."""
    path, begin, end = ROOT / document, BEGIN.format(name), END.format(name)
    before, _, rest = path.read_text().partition(begin)
    stands, _, after = rest.partition(end)
    wanted = "\n".join(["", *lines, "", ""])
    if write:
        path.write_text(f"{before}{begin}{wanted}{end}{after}")
        stands = wanted
    new = "\n".join(sorted(set(wanted.splitlines()) - set(stands.splitlines())))
    tally.holds(f"{document}: its list of {name} is stale: checks/program/written.py --write writes it\n{new}",
                stands == wanted)


def found_near(name, last):
    """The file of a bare name, in the crate or the folder of the path that was named last."""
    folder = last if last.is_dir() else last.parent
    if CRATES in folder.parents:
        crate = CRATES / folder.relative_to(CRATES).parts[0]
        return next((path for it in ("src", "specs", "proofs") for path in (crate / it).rglob(Path(name).name)
                     if str(path).endswith(f"/{name}")), None)
    return folder / name


def items(text):
    """The rows, items of lists and paragraphs of a text, each with the number of its first line."""
    found, inside = [], False
    for number, line in enumerate(text.splitlines(), 1):
        if inside and line and not re.match(r"\| |- |\d+\. ", line):
            found[-1] = (found[-1][0], f"{found[-1][1]} {line.strip()}")
        elif line:
            found.append((number, line))
        inside = bool(line)
    return found


def check_told_by_hand(tally):
    """Each definition that is told by hand stands in the file that is named."""
    for path, name in told_by_hand():
        stands = path.exists() and name in DEFINITION.findall(path.read_text())
        tally.holds(f"docs/DEFINITIONS.md: {path.relative_to(CRATES)} has no definition {name}", stands)


def check_paths(tally):
    """Each file that a document names is there, and has in it what the document says is in it."""
    for document, number, text in ((it, *part) for it in PATHS for part in items((ROOT / it).read_text())):
        last, before = ROOT, ""
        for quoted in re.finditer(r"`([^`]+)`", text):
            name = quoted[1]
            if not FILE.fullmatch(name):
                before = name
                continue
            path = next((it / name for it in (CRATES, ROOT) if (it / name).exists()), None) or found_near(name, last)
            there = path is not None and path.exists()
            tally.holds(f"{document}:{number}: there is no {name}", there)
            if there and before and text[:quoted.start()].endswith(f"`{before}` in "):
                stands = path.is_file() and before in words_in(path)
                tally.holds(f"{document}:{number}: {name} has no {before}", stands)
            last, before = path if there else last, ""


def anchors(path):
    """The names by which links reach the headings of a document."""
    headings = re.findall(r"^#+ (.*)$", path.read_text(), re.M)
    return {re.sub(r"[^\w -]", "", heading.lower()).replace(" ", "-") for heading in headings}


def check_links(tally):
    """Each link of a document leads to a file, and to a heading of it if it names one."""
    for path in (it for pattern in LINKED for it in sorted(ROOT.glob(pattern))):
        for target, _, anchor in re.findall(r"\]\(([\w./-]*)(#([\w-]*))?\)", path.read_text()):
            file = path.parent / target if target else path
            holds = file.exists() and (not anchor or anchor in anchors(file))
            tally.holds(f"{path.relative_to(ROOT)}: a link leads to {target}#{anchor}", holds)


@cache
def clauses(crate):
    """The names of the clauses of the functions of a crate, those of one name together."""
    found = {}
    for path in (CRATES / crate).glob("src/**/*.rt"):
        inside = set()
        for line in path.read_text().splitlines():
            if begun := re.match(r"\s*(?:pub(?:\(crate\))? )?(?:unsafe )?(?:extern \"C\" )?fn (\w+)", line):
                inside = found.setdefault(begun[1], set())
            elif clause := re.match(r"\s+ensures\*? (\w+) \{", line):
                inside.add(clause[1])
    return found


def check_clauses(tally):
    """The clauses that are named after a function are its own, or those of the last function of several."""
    crates, part = [], PROVED.read_text().partition(HEADLINE)[2].partition("\n## ")[2]
    for _, text in items(part):
        crates = re.findall(r"\*\*`(\w+)`", text) or crates
        functions = text.partition(": ")[0] if text.startswith("- ") else ""
        for name, told in re.findall(r"`([\w:]+)` \(((?:`[a-z]\w*`(?:, )?)+)\)", functions):
            own = set().union(*(clauses(crate).get(name.split("::")[-1], set()) for crate in crates))
            named = set(re.findall(r"\w+", told))
            tally.holds(f"docs/PROVED.md: {name} of {crates} has no clause {named - own}", named <= own)


def main():
    parser = argparse.ArgumentParser(description="Writes the lists of crates and of definitions, or compares them.")
    parser.add_argument("--write", action="store_true", help="write the lists")
    write, tally = parser.parse_args().write, Tally()
    for (document, name), make in LISTS.items():
        check_list(tally, document, name, make(), write)
    check_told_by_hand(tally)
    check_paths(tally)
    check_links(tally)
    check_clauses(tally)
    print(f"checks/program/written.py: {tally}")
    return tally.status


if __name__ == "__main__":
    sys.exit(main())
