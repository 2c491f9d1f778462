#!/usr/bin/env python3
"""Checks the highlighting of editors/ against docs/LANGUAGE.md.

    checks/program/editors.py

The words of the TextMate grammar and of the Vim file are those of the reference: the calls, constants and static APIs
of its tables, and the keywords of its rule for names. Each byte of the examples, of the systems of checks/schedules/
and of the texts below has the kind that the reference's rules for tokens give it: in the grammar, which a small engine
for such grammars applies, and in Vim, if one that highlights is on the machine.
"""

import json
import re
import shutil
import subprocess
import sys
import tempfile
from pathlib import Path

sys.dont_write_bytecode = True  # the folders of the checks stay as they are
sys.path[0] = str(Path(__file__).resolve().parents[1])  # the folder `checks`, whose folders are packages

from common.program import ROOT  # noqa: E402
from common.tally import Tally  # noqa: E402

SCRIPT = "checks/program/editors.py"
GRAMMAR = ROOT / "editors/textmate/fmp.tmLanguage.json"
VIM = ROOT / "editors/vim"
TEXTS = (
    "/*/ task a { } */ task b { } // task c { }\n/* // */ handler d { } /* open\n task e { }\n",
    "task t { put(012); put(0X1); put(1st); put(0x7fffFFFF); put(0x123456789); put(-0); }\n",
    "task t { printf(1); for (1) { } wait (2); act_tsk_(3); _act_tsk(4); E_OKAY = E_OK; }\n",
    "NUM_PRC ( 1 ) ; CLASS ( TCL_1_ONLY ) { CRE_TSK\t( T , { TA_ACT|TA_NULL , 0 , t , 1 , 64 , NULL } ) ; CRE_ALM(A);",
    "task task_1 { var a[3]; var i; a[i]=exinf&&!i||~i==1!=2<=3>=4<5>6|7^8&9/10*11%12; get_tid(&i); }\ntasks handlers",
)
KINDS = {  # of each kind of token: the scope of the grammar, and the group of Vim
    "comment": ("comment.", "fmpComment"),
    "api": ("support.function.api.fmp", "fmpApi"),
    "call": ("support.function.call.fmp", "fmpCall"),
    "code": ("support.constant.code.fmp", "fmpCode"),
    "constant": ("support.constant.attribute.fmp", "fmpConstant"),
    "control": ("keyword.control.fmp", "fmpControl"),
    "type": ("storage.type.", "fmpType"),
    "structure": ("keyword.other.fmp", "fmpStructure"),
    "null": ("constant.language.null.fmp", "fmpNull"),
    "exinf": ("variable.language.fmp", "fmpExinf"),
    "number": ("constant.numeric.fmp", "fmpNumber"),
    "bad number": ("invalid.illegal.number.fmp", "fmpBadNumber"),
    "bad call": ("invalid.illegal.call.fmp", "fmpBadCall"),
    "body": ("entity.name.function.fmp", "fmpBody"),
    "object": ("entity.name.type.object.fmp", "fmpObject"),
    "class": ("entity.name.namespace.fmp", "fmpClass"),
    "name": ("variable.other.fmp", ""),
    "operator": ("keyword.operator.fmp", "fmpOperator"),
    "": ("", ""),
}
KEYWORDS = {
    "control": {"if", "else", "while", "break", "continue", "return"},
    "type": {"task", "handler", "var"},
    "structure": {"NUM_PRC", "CLASS"},
    "null": {"NULL"},
}
TOKEN = re.compile(r"//[^\n]*|/\*.*?(?:\*/|\Z)|\w+|\|\||&&|[=!<>]=|[-+*/%|&^~!<>=]|\s+|.", re.S)
SHOW = """
set nomore
for [text, out] in g:texts
  execute 'edit' text
  set filetype=fmp
  let rows = []
  for line in range(1, line('$'))
    let names = map(range(1, len(getline(line))), 'synIDattr(synID(line, v:val, 1), "name")')
    call add(rows, join(names + [''], ','))
  endfor
  call writefile(rows, out)
endfor
qall!
"""


def words_of_reference():
    """The words of the language by their kind, as the reference has them."""
    reference = (ROOT / "docs/LANGUAGE.md").read_text()
    constants = reference.partition("The **constants** may stand")[2].partition("\n\nNo call")[0]
    named = re.findall(r"`(\w+)` \|", constants)
    keywords = set(re.search(r"`(NUM_PRC CLASS [\w\s]*)`", reference)[1].split())
    assert keywords == set().union(*KEYWORDS.values()), "the reference has other keywords than this script"
    return {
        "api": set(re.findall(r"^\| `((?:CRE|DEF)_\w+)\(", reference, re.M)),
        "call": set(re.findall(r"^\| \d+ \| `(\w+)\(", reference, re.M)),
        "code": {name for name in named if name.startswith("E_")},
        "constant": {name for name in named if not name.startswith("E_")},
        **KEYWORDS,
        "exinf": {"exinf"},
    }


def kind_of(word, before, behind, words):
    """The kind of a word, by the tokens before and after it."""
    if word[0].isdigit():
        return "number" if re.fullmatch(r"0x[0-9A-Fa-f]{1,8}|0|[1-9][0-9]*", word) else "bad number"
    known = next((kind for kind, names in words.items() if word in names), None)
    if known:
        return known
    if before[-1:] in (["task"], ["handler"]):
        return "body"
    if before[-2:] == ["CLASS", "("]:
        return "class"
    if before[-1:] == ["("] and before[-2:-1] and before[-2].startswith("CRE_") and before[-2] in words["api"]:
        return "object"
    return "bad call" if behind == "(" else "name"


def expected(text, words):
    """The kind of each character of a text, by the rules of the reference."""
    tokens = TOKEN.findall(text)
    is_real = lambda it: not it.isspace() and not it.startswith(("//", "/*"))
    kinds, before = [], []
    for place, token in enumerate(tokens):
        kind = ""
        if token.startswith(("//", "/*")):
            kind = "comment"
        elif re.match(r"\w", token):
            behind = next((it for it in tokens[place + 1:] if is_real(it)), "")
            kind = kind_of(token, before, behind, words)
        elif re.match(r"[-+*/%|&^~!<>=]", token):
            kind = "operator"
        kinds += len(token) * [kind]
        if is_real(token):
            before.append(token)
    return kinds


class TextMate:
    """A grammar with matches and with regions from `begin` to `end`, which have nothing inside."""

    def __init__(self, path):
        grammar = json.loads(path.read_text())
        self.rules = list(self.flat(grammar["patterns"], grammar["repository"]))

    def flat(self, patterns, repository):
        for rule in patterns:
            if "include" in rule:
                yield from self.flat(repository[rule["include"][1:]]["patterns"], repository)
            else:
                yield rule

    def words(self, name):
        """The words of the rules with this name."""
        return {word for it in self.rules if it.get("name") == name for word in re.findall(r"\w\w+", it["match"])}

    def next_match(self, line, place):
        """The rule that matches first from a place on, the first of several that match there, and its match."""
        found = [(rule, re.compile(rule.get("match") or rule["begin"]).search(line, place)) for rule in self.rules]
        return min(((rule, it) for rule, it in found if it), key=lambda pair: pair[1].start(), default=(None, None))

    def scopes(self, text):
        """The scope of each character of a text."""
        scopes, inside = [], None
        for line in text.splitlines(keepends=True):
            row, place = len(line) * [""], 0
            while place < len(line):
                if inside:
                    end = re.compile(inside["end"]).search(line, place)
                    until = end.end() if end else len(line)
                    row[place:until] = (until - place) * [inside["name"]]
                    inside, place = (None, until) if end else (inside, until)
                    continue
                rule, match = self.next_match(line, place)
                if rule is None:
                    break
                row[match.start():match.end()] = len(match[0]) * [rule.get("name", "")]
                for group, capture in rule.get("captures", {}).items():
                    row[match.start(int(group)):match.end(int(group))] = len(match[int(group)]) * [capture["name"]]
                inside, place = (rule if "end" in rule else None), match.end()
            scopes += row
        return scopes


def has_vim():
    """Whether there is a Vim that highlights."""
    if shutil.which("vim") is None:
        return False
    told = subprocess.run(["vim", "--version"], stdin=subprocess.DEVNULL, capture_output=True, text=True).stdout
    return "+syntax" in told and "+eval" in told


def vim_groups(texts, room):
    """The group of each character of each text in Vim, line feeds left out."""
    files = [(room / f"{place}.text", room / f"{place}.groups") for place in range(len(texts))]
    for (path, _), text in zip(files, texts):
        path.write_text(text)
    script = room / "show.vim"
    script.write_text(f"let g:texts = {[list(map(str, pair)) for pair in files]}\n{SHOW}")
    words = ["vim", "-es", "-N", "-u", "NONE", "-i", "NONE", "--cmd", f"set runtimepath^={VIM}"]
    words += ["-c", "filetype plugin on | syntax on", "-S", str(script)]
    subprocess.run(words, stdin=subprocess.DEVNULL, capture_output=True, cwd=room, timeout=300)
    rows = [out.read_text().splitlines() if out.exists() else [] for _, out in files]
    return [[name for row in text for name in row.split(",")[:-1]] for text in rows]


def first_difference(text, wanted, got):
    """Where the kinds of two lists first differ, with the line and what stands in each; none if they do not."""
    for place, pair in enumerate(zip(wanted, got)):
        if pair[0] != pair[1]:
            return text.count("\n", 0, place) + 1, text[place:place + 20], *pair
    return None if len(wanted) == len(got) else (len(wanted), len(got))


def main():
    tally, words, grammar = Tally(), words_of_reference(), TextMate(GRAMMAR)
    vim_text = (VIM / "syntax/fmp.vim").read_text()
    tally.verdict("calls, static APIs, constants", (59, 10, 30),
                  (len(words["call"]), len(words["api"]), len(words["code"] | words["constant"])))
    for kind, names in words.items():
        scope, group = KINDS[kind]
        rule = next(it["name"] for it in grammar.rules if it.get("name", "").startswith(scope))
        tally.verdict(f"the words of {rule}", names, grammar.words(rule))
        listed = re.findall(rf"^syntax keyword {group} (.*)$", vim_text, re.M)
        tally.verdict(f"the words of {group}", names, set(" ".join(listed).split()))
    files = [*sorted(ROOT.glob("examples/*.[cs][fr][gc]")), *sorted(ROOT.glob("checks/schedules/systems/*"))]
    texts = {str(path.relative_to(ROOT)): path.read_text() for path in files}
    texts |= {f"{SCRIPT}: text {place}": text for place, text in enumerate(TEXTS, 1)}
    texts["all static APIs"] = "".join(f"{name}(A, {{ 0 }});\n" for name in sorted(words["api"]))
    kinds = {name: expected(text, words) for name, text in texts.items()}
    for name, text in texts.items():
        scopes = grammar.scopes(text)
        got = [next((kind for kind, (it, _) in KINDS.items() if it and scope.startswith(it)), "") for scope in scopes]
        tally.verdict(f"{name} in the grammar", None, first_difference(text, kinds[name], got))
    if has_vim():
        with tempfile.TemporaryDirectory() as room:
            shown = vim_groups(list(texts.values()), Path(room))
        for (name, text), groups in zip(texts.items(), shown):
            wanted = [KINDS[kind][1] for kind, it in zip(kinds[name], text) if it != "\n"]
            tally.verdict(f"{name} in Vim", None, first_difference(text.replace("\n", ""), wanted, groups))
    else:
        print(f"{SCRIPT}: there is no Vim that highlights")
    print(f"{SCRIPT}: {tally}")
    return tally.status


if __name__ == "__main__":
    sys.exit(main())
