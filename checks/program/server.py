#!/usr/bin/env python3
"""Talks to `fmp_view lsp` as an editor does, and compares its answers with what is written here.

    checks/program/server.py [--random COUNT] [--times] [PROGRAM]

PROGRAM is crates/fmp_view/out/fmp_view where it is not given. Places and sentences were worked out by hand from
docs/LANGUAGE.md; what hover says of calls is compared with its tables. COUNT messages (10,000) are then cut or changed
at random: the server goes on and answers the next request. With --times it prints how long requests about texts of
1 MiB take.
"""

import argparse
import json
import random
import re
import subprocess
import sys
import tempfile
from pathlib import Path

sys.dont_write_bytecode = True  # the folders of the checks stay as they are
sys.path[0] = str(Path(__file__).resolve().parents[1])  # the folder `checks`, whose folders are packages

from common.program import ROOT, located  # noqa: E402
from common.tally import Tally  # noqa: E402

SCRIPT = "checks/program/server.py"
CFG = """NUM_PRC(2);
CLASS(TCL_1) {
    CRE_TSK(MAIN, { TA_ACT, -1, run, 10, 256, NULL });
    CRE_SEM(SEM, { TA_TFIFO | TA_NULL, 0, 1 });
}
CLASS(TCL_2_ONLY) {
    CRE_TSK(OTHER, { TA_NULL, 7, run, 5, 512, NULL });
    DEF_INH(4, { 0, beat });
}
"""
SRC = """task run {
    var first;
    var list[5];
    var MAIN_;
    /* \u00e9 \U0001F600 */ act_tsk(OTHER); put(exinf);
    list[1] = first;
    wai_sem(SEM);
}
handler beat { isig_sem(SEM); iact_tsk(OTHER); }
task spare { var OTHERS; put(MAIN); sig_sem(SEM); }
"""
FOLDER = "file:///systems/a%20b/"
OWN = {  # sentences of the tables that point to another row, and what stands for them
    "the task's priority": "gives the priority of a task",
    "unlocks it": "unlocks the CPU of the caller's processor",
    "ends that": "ends the hold of dispatching that `dis_dsp` began",
    "stops it; if it is pending, it still begins": "stops a cyclic handler; if it is pending, it still begins",
    "gives it back, and unlocks the CPU": "gives a spin lock back, and unlocks the CPU",
    "the caller's number": "gives the caller's number",
}
LETTERS = {
    "t": "t: a task, or 0 (`TSK_SELF`) for the caller", "u": "u: a task", "s": "s: a semaphore",
    "f": "f: an eventflag", "d": "d: a data queue", "x": "x: a mailbox", "g": "g: a message", "w": "w: a shared word",
    "l": "l: a spin lock", "c": "c: a cyclic handler", "n": "n: a processor", "p": "p: a priority", "b": "b: bits",
    "o": "o: `TWF_ANDW` or `TWF_ORW`", "a": "a: any number", "k": "k: ticks",
    "m": "m: ticks, 0 (`TMO_POL`), or -1 (`TMO_FEVR`) for ever", "&v": "&v: a variable for what the call gives",
}


def framed(body):
    """A message after its header."""
    body = body if isinstance(body, bytes) else json.dumps(body).encode()
    return b"Content-Length: %d\r\n\r\n%s" % (len(body), body)


class Editor:
    """A server that runs, and the messages to and from it."""

    def __init__(self, program):
        self.process = subprocess.Popen([program, "lsp"], stdin=subprocess.PIPE, stdout=subprocess.PIPE,
                                        stderr=subprocess.PIPE)
        self.id = 0

    def send(self, data):
        self.process.stdin.write(data)
        self.process.stdin.flush()

    def receive(self):
        """The next message of the server; none at the end."""
        length = None
        while line := self.process.stdout.readline():
            if line == b"\r\n":
                return json.loads(self.process.stdout.read(length))
            name, _, value = line.partition(b": ")
            assert name == b"Content-Length" and value.endswith(b"\r\n"), line
            length = int(value)
        return None

    def notify(self, method, params=None):
        self.send(framed({"jsonrpc": "2.0", "method": method, "params": params}))

    def ask(self, method, params=None):
        """What the server answers to a request; notifications that come before it are dropped."""
        self.id += 1
        self.send(framed({"jsonrpc": "2.0", "id": self.id, "method": method, "params": params}))
        while (answer := self.receive()) is not None:
            if answer.get("id") == self.id:
                return answer.get("result", answer.get("error"))
        return "the server has ended"

    def started(self):
        self.ask("initialize", {"capabilities": {}})
        self.notify("initialized", {})
        return self

    def open(self, name, text):
        self.notify("textDocument/didOpen", {"textDocument": {"uri": FOLDER + name, "languageId": "fmp", "version": 1,
                                                               "text": text}})

    def change(self, name, version, text):
        self.notify("textDocument/didChange", {"textDocument": {"uri": FOLDER + name, "version": version},
                                               "contentChanges": [{"text": text}]})

    def published(self, count):
        """The next notifications: the name of the file, and of each diagnostic its place, code and sentence."""
        found = {}
        for _ in range(count):
            told = self.receive()
            assert told["method"] == "textDocument/publishDiagnostics", told
            params = told["params"]
            found[params["uri"].removeprefix(FOLDER)] = [
                (span(it["range"]), it["severity"], it.get("code"), it["message"]) for it in params["diagnostics"]]
        return found

    def at(self, method, name, line, character, **more):
        return self.ask(f"textDocument/{method}", {"textDocument": {"uri": FOLDER + name},
                                                   "position": {"line": line, "character": character}, **more})

    def end(self, shut=True):
        """Ends the server, and gives its status and what it wrote on standard error."""
        if shut:
            self.ask("shutdown")
        self.notify("exit")
        _, error = self.process.communicate()
        return self.process.returncode, error.decode()


def span(it):
    """Lines and characters of a range."""
    return it["start"]["line"], it["start"]["character"], it["end"]["line"], it["end"]["character"]


def places(answer):
    return [(it["uri"].removeprefix(FOLDER), *span(it["range"])) for it in answer]


def edits(answer):
    """The places of edits, by file, and the texts that they put there."""
    changes = answer["changes"]
    return ({name.removeprefix(FOLDER): [span(it["range"]) for it in all_] for name, all_ in changes.items()},
            {it["newText"] for all_ in changes.values() for it in all_})


def handshake(program, tally):
    """What comes before `initialize`, at it and after `shutdown`."""
    editor = Editor(program)
    tally.verdict("a request before initialize", -32002, editor.ask("textDocument/hover", {})["code"])
    editor.notify("textDocument/didOpen", {"textDocument": {"uri": "a.cfg", "text": "x"}})
    answer = editor.ask("initialize", {})["capabilities"]
    tally.verdict("how texts come", {"openClose": True, "change": 1}, answer["textDocumentSync"])
    tally.holds("what the server can do", all(
        answer[f"{it}Provider"] is not False for it in
        ("hover", "completion", "definition", "references", "rename", "documentSymbol")))
    tally.verdict("initialize once more", -32600, editor.ask("initialize", {})["code"])
    tally.verdict("an unknown method", -32601, editor.ask("textDocument/foldingRange", {})["code"])
    tally.verdict("no parameters", -32602, editor.ask("textDocument/hover")["code"])
    editor.open("a.cfg", CFG)
    answer = editor.ask("textDocument/hover", {"textDocument": {"uri": FOLDER + "a.cfg"}})
    tally.verdict("no position", -32602, answer["code"])
    tally.verdict("a text that is not open", None, editor.at("hover", "b.cfg", 0, 0))
    tally.verdict("a file of another kind", None, editor.at("hover", "b.txt", 0, 0))
    editor.send(framed(b"{"))
    answer = editor.receive()
    tally.verdict("no JSON", (None, -32700), (answer["id"], answer["error"]["code"]))
    for text in (b"[]", b"1", b'{"id": 1}', b'{"method": 1}', b'{"id": 1.5, "method": "x"}',
                 b'{"id": [], "method": "x"}'):
        editor.send(framed(text))
        tally.verdict(f"no message: {text}", -32600, editor.receive()["error"]["code"])
    editor.send(framed(b'{"id": "a b", "method": "shutdown"}'))
    tally.verdict("an id that is a text", {"jsonrpc": "2.0", "id": "a b", "result": None}, editor.receive())
    tally.verdict("a request after shutdown", -32600, editor.at("hover", "a.cfg", 0, 0)["code"])
    tally.verdict("exit after shutdown", (0, ""), editor.end(False))
    tally.verdict("exit alone", (1, ""), Editor(program).started().end(False))
    editor = Editor(program)
    editor.process.stdin.close()
    tally.verdict("the end of the input", 1, editor.process.wait())


def framing(program, tally):
    """Headers and lengths, right and wrong."""
    request = b'{"id":7,"method":"initialize"}'
    wanted = {"id": 7}
    for title, data in {
        "a header": framed(request),
        "byte by byte": None,
        "another field": b"Content-Type: application/vscode-jsonrpc; charset=utf-8\r\n" + framed(request),
        "small letters, no carriage return": b"content-length:%d\n\n%s" % (len(request), request),
        "no length before": b"X: 1\r\n\r\n" + framed(request),
        "a wrong length before": b"Content-Length: 12x\r\n\r\n" + framed(request),
        "a negative length before": b"Content-Length: -1\r\n\r\n" + framed(request),
        "too great a length before": b"Content-Length: 99999999999999999999999999\r\n\r\n" + framed(request),
        "a length of 0 before": b"Content-Length: 0\r\n\r\n" + framed(request),
        "a long line before": 3000 * b"x" + b"\r\n" + framed(request),
        "the last length counts": b"Content-Length: 3\r\n" + framed(request),
    }.items():
        editor = Editor(program)
        if data is None:
            for place in range(len(framed(request))):
                editor.send(framed(request)[place:place + 1])
        else:
            editor.send(data)
        answer = editor.receive()
        tally.verdict(title, wanted, {"id": answer["id"]})
        tally.verdict(f"{title}: the end", (0, ""), editor.end())


def diagnosed(program, tally):
    """What is published of texts that are opened, changed and closed."""
    editor = Editor(program).started()
    editor.open("a.cfg", CFG)
    tally.verdict("a configuration alone", {"a.cfg": []}, editor.published(1))
    editor.open("b.src", "task a { put(1 }")
    tally.verdict("a task text alone", [((0, 15, 0, 16), 1, "B1")], [it[:3] for it in editor.published(1)["b.src"]])
    editor.open("a.src", SRC)
    found = editor.published(2)
    tally.verdict("warnings of both", ["no static API names the body `spare`"], [it[3] for it in found["a.src"]])
    tally.verdict("the place of a warning", [(9, 5, 9, 10)], [it[0] for it in found["a.src"]])
    tally.verdict("a warning is one", [(2, None)], [it[1:3] for it in found["a.src"]])
    faulty = SRC.replace("act_tsk(OTHER)", "act_tsk(OTHRE)")
    editor.change("a.src", 2, faulty)
    found = editor.published(2)
    tally.verdict("after other characters in a comment", [((4, 23, 4, 28), 1, "B3")],
                  [it[:3] for it in found["a.src"]])
    tally.holds("what was meant", "did you mean `OTHER`?" in found["a.src"][0][3])
    tally.verdict("no fault in the other text", [], found["a.cfg"])
    several = faulty.replace("sig_sem(SEM)", "sig_sem(SEN)").replace("put(MAIN)", "put(OTHRE)")
    editor.change("a.src", 3, several.replace("isig_sem(SEN)", "isig_sem(SEM)"))
    found = editor.published(2)
    tally.verdict("all faults that do not follow from others", [((4, 23, 4, 28), 1, "B3"), ((9, 45, 9, 48), 1, "B3")],
                  [it[:3] for it in found["a.src"]])
    editor.change("a.src", 4, faulty)
    editor.published(2)
    editor.change("a.cfg", 2, CFG.replace("TA_NULL, 7", "1, 7"))
    found = editor.published(2)
    tally.verdict("a refused static API", [(1, "B4 E_RSATR")], [it[1:3] for it in found["a.cfg"]])
    tally.verdict("its place", [(6, 21, 6, 22)], [it[0] for it in found["a.cfg"]])
    editor.notify("textDocument/didClose", {"textDocument": {"uri": FOLDER + "a.cfg"}})
    found = editor.published(2)
    tally.verdict("a text that was closed", [], found["a.cfg"])
    tally.verdict("the other one, by itself again", [], found["a.src"])
    editor.open("c.cfg", 1048577 * " ")
    tally.verdict("a text that is too long", [((0, 0, 0, 1), 1, "B5")], [it[:3] for it in editor.published(1)["c.cfg"]])
    tally.verdict("the end", (0, ""), editor.end())


def opened(program):
    """A server in which both texts are open."""
    editor = Editor(program).started()
    editor.open("a.cfg", CFG)
    editor.open("a.src", SRC)
    editor.published(3)
    return editor


def calls_of_reference():
    """What the tables of the reference say of each call: what stands between its parentheses, what it does, and when
    it answers which codes."""
    part = (ROOT / "docs/LANGUAGE.md").read_text().partition("\n## Service calls")[2].partition("\n## ")[0]
    base, codes_before = "", ""
    row = r"^\| \d+ \| `(\w+)\(([^`]*)\)` \| (.*?) \| ?(.*?) ?\|$"
    for name, arguments, does, codes in re.findall(row, part, re.M):
        if does.startswith("the same"):
            rest = does.removeprefix("the same")
            does = f"as `{base}`{rest if rest.startswith(',') else ',' + rest}"
            codes = codes_before + codes.removeprefix("the same") if codes.startswith("the same") else codes
        else:
            base, codes_before = name, codes
        if name.startswith("i") and does.startswith("`"):
            does = "as " + does
        yield name, arguments, OWN.get(does, does), codes


def contexts_of_reference():
    """From where each call may be made, by the reference."""
    part = (ROOT / "docs/LANGUAGE.md").read_text().partition("\n**Contexts**")[2].partition("\n\n`loc_cpu`")[0]
    sentence = {
        "from tasks, with the CPU not locked and dispatching enabled: they may wait":
            "From tasks, with the CPU not locked and dispatching enabled: it may wait.",
    }
    for where, names in re.findall(r"^\| (from [^|]*?) \| (.*?) \|$", part, re.M):
        for name in re.findall(r"`(\w+)`", names):
            yield name, sentence.get(where, where[0].upper() + where[1:] + ".")


def hovered(program, tally):
    """What is said of the word at a position."""
    editor = opened(program)
    contexts = dict(contexts_of_reference())
    calls = list(calls_of_reference())
    tally.verdict("calls of the reference", 59, len(calls))
    for name, arguments, does, codes in calls:
        editor.open("call.src", f"task t {{ {name}( }}")
        answer = editor.at("hover", "call.src", 0, 10)
        letters = "".join(f"\n- {LETTERS[it]}" for it in arguments.split(", ") if it)
        wanted = f"`{name}({arguments})`: {does}\n{letters}"
        wanted += f"\n\nCodes: {codes}" if codes else ""
        wanted += "\n\n" + contexts.get(name, "From tasks, with the CPU not locked.")
        tally.verdict(f"hover over {name}", wanted, answer["contents"]["value"])
        tally.verdict(f"the place of {name}", (0, 9, 0, 9 + len(name)), span(answer["range"]))
    for title, where, wanted in (
        ("an object", ("a.src", 4, 24), "`OTHER`: a task, number 2, in class `TCL_2_ONLY`\n\n- attribute: `TA_NULL`\n"
         "- extended information: `7`\n- entry: `run`\n- priority: `5`\n- stack size: `512`"),
        ("a semaphore", ("a.cfg", 3, 14), "`SEM`: a semaphore, number 1, in class `TCL_1`\n\n"
         "- attribute: `TA_TFIFO | TA_NULL`\n- initial count: `0`\n- greatest count: `1`"),
        ("a body", ("a.src", 0, 6), "`run`: a task body\n\n- the entry of `MAIN`\n- the entry of `OTHER`"),
        ("an entry", ("a.cfg", 2, 33), "`run`: a task body\n\n- the entry of `MAIN`\n- the entry of `OTHER`"),
        ("a handler", ("a.cfg", 7, 21), "`beat`: a handler body\n\n- the entry of an interrupt handler"),
        ("a variable", ("a.src", 5, 16), "`first`: a variable, place 1 of 0 to 63"),
        ("an array", ("a.src", 5, 4), "`list`: a variable, place 2 to 6 of 0 to 63"),
        ("a variable after an array", ("a.src", 3, 10), "`MAIN_`: a variable, place 7 of 0 to 63"),
        ("exinf", ("a.src", 4, 35), "`exinf`: the extended information of the static API, place 0 of 0 to 63"),
        ("a class", ("a.cfg", 1, 8), "class `TCL_1`: tasks begin on the processor of its number"),
        ("a constant", ("a.cfg", 2, 21), "`TA_ACT` is 2"),
        ("a static API", ("a.cfg", 3, 5), "`CRE_SEM` makes a semaphore\n\n- name\n"
         "- attribute: `TA_TFIFO` or `TA_TPRI`\n- initial count\n- greatest count: 1 to 65535"),
    ):
        answer = editor.at("hover", *where)
        tally.verdict(title, wanted, answer and answer["contents"]["value"])
    for title, where in (("a symbol", ("a.cfg", 0, 11)), ("a keyword", ("a.src", 0, 1)), ("a number", ("a.cfg", 0, 8)),
                         ("a comment", ("a.src", 4, 7)), ("after the text", ("a.src", 99, 0))):
        tally.verdict(f"nothing to say: {title}", None, editor.at("hover", *where))
    tally.verdict("after the end of a line", None, editor.at("hover", "a.src", 9, 999))
    tally.verdict("the end", (0, ""), editor.end())


def navigated(program, tally):
    """Where names are made and used, and what a new name changes."""
    editor = opened(program)
    other = [("a.cfg", 6, 12, 6, 17), ("a.src", 4, 23, 4, 28), ("a.src", 8, 39, 8, 44)]
    for where in (("a.cfg", 6, 12), ("a.cfg", 6, 17), ("a.src", 4, 23), ("a.src", 8, 40)):
        tally.verdict(f"definition at {where}", other[:1], places(editor.at("definition", *where)))
        tally.verdict(f"references at {where}", other, places(
            editor.at("references", *where, context={"includeDeclaration": True})))
        tally.verdict(f"uses at {where}", other[1:], places(
            editor.at("references", *where, context={"includeDeclaration": False})))
        tally.verdict(f"rename at {where}", ({"a.cfg": [other[0][1:]], "a.src": [it[1:] for it in other[1:]]}, {"NEW"}),
                      edits(editor.at("rename", *where, newName="NEW")))
    body = [("a.cfg", 2, 32, 2, 35), ("a.cfg", 6, 33, 6, 36), ("a.src", 0, 5, 0, 8)]
    tally.verdict("definition of an entry", body[2:], places(editor.at("definition", "a.cfg", 2, 33)))
    tally.verdict("references of a body", body, places(
        editor.at("references", "a.src", 0, 5, context={"includeDeclaration": True})))
    tally.verdict("rename of a body", ({"a.cfg": [it[1:] for it in body[:2]], "a.src": [body[2][1:]]}, {"MAIN"}),
                  edits(editor.at("rename", "a.src", 0, 5, newName="MAIN")))
    first = [("a.src", 1, 8, 1, 13), ("a.src", 5, 14, 5, 19)]
    tally.verdict("references of a variable", first, places(
        editor.at("references", "a.src", 5, 15, context={"includeDeclaration": True})))
    tally.verdict("rename of a variable", ({"a.cfg": [], "a.src": [it[1:] for it in first]}, {"f"}),
                  edits(editor.at("rename", "a.src", 5, 15, newName="f")))
    for title, where, name in (
        ("a class", ("a.cfg", 1, 8), "TCL_2"), ("exinf", ("a.src", 4, 36), "x"), ("a call", ("a.src", 4, 16), "x"),
        ("a constant", ("a.cfg", 2, 21), "x"), ("a word of the language", ("a.src", 4, 23), "put"),
        ("no name", ("a.src", 4, 23), "a b"), ("no name at all", ("a.src", 4, 23), ""),
        ("a number", ("a.src", 4, 23), "1"),
        ("too long a name", ("a.src", 4, 23), 32 * "x"), ("another object's", ("a.src", 4, 23), "SEM"),
        ("a variable's", ("a.src", 4, 23), "first"), ("exinf", ("a.src", 4, 23), "exinf"),
        ("another body's", ("a.src", 0, 5), "beat"), ("an object's for a variable", ("a.src", 1, 9), "SEM"),
    ):
        tally.verdict(f"no rename: {title}", -32803, editor.at("rename", *where, newName=name)["code"])
    tally.verdict("no new name", -32602, editor.at("rename", "a.src", 4, 23)["code"])
    editor.notify("textDocument/didClose", {"textDocument": {"uri": FOLDER + "a.cfg"}})
    tally.verdict("no rename: half of the system", -32803, editor.at("rename", "a.src", 4, 23, newName="NEW")["code"])
    tally.verdict("rename of a variable there", ({"a.src": [it[1:] for it in first]}, {"f"}),
                  edits(editor.at("rename", "a.src", 5, 15, newName="f")))
    tally.verdict("the end", (0, ""), editor.end())


def listed(program, tally):
    """What may stand at a position, and what a text makes."""
    editor = opened(program)
    items = {it["label"]: it["detail"] for it in editor.at("completion", "a.src", 5, 4)["items"]}
    tally.verdict("a call with its arguments", "twai_flg(f, b, o, &v, m)", items.get("twai_flg"))
    tally.verdict("a constant with its number", "-17", items.get("E_PAR"))
    tally.verdict("an object", "a task", items.get("OTHER"))
    tally.verdict("a variable", "a variable", items.get("first"))
    tally.verdict("all words", 59 + 30 + 9 + 3 + 4, len(items))
    items = {it["label"] for it in editor.at("completion", "a.src", 9, 30)["items"]}
    tally.holds("variables of the other body", "OTHERS" in items and "first" not in items)
    items = {it["label"]: it["detail"] for it in editor.at("completion", "a.cfg", 4, 0)["items"]}
    tally.verdict("a static API with its fields", "CRE_SEM(name, { attribute, initial count, greatest count })",
                  items.get("CRE_SEM"))
    tally.verdict("all words of a configuration", 10 + 30 + 3 + 3, len(items))
    symbols = editor.ask("textDocument/documentSymbol", {"textDocument": {"uri": FOLDER + "a.cfg"}})
    tally.verdict("what a configuration makes", [
        ("MAIN", "a task", 19, (2, 4, 2, 54), (2, 12, 2, 16)),
        ("SEM", "a semaphore", 19, (3, 4, 3, 47), (3, 12, 3, 15)),
        ("OTHER", "a task", 19, (6, 4, 6, 54), (6, 12, 6, 17))],
        [(it["name"], it["detail"], it["kind"], span(it["range"]), span(it["selectionRange"])) for it in symbols])
    symbols = editor.ask("textDocument/documentSymbol", {"textDocument": {"uri": FOLDER + "a.src"}})
    tally.verdict("what a task text makes", [
        ("run", "a task body", 12, (0, 0, 7, 1), (0, 5, 0, 8)),
        ("beat", "a handler body", 12, (8, 0, 8, 48), (8, 8, 8, 12)),
        ("spare", "a task body", 12, (9, 0, 9, 51), (9, 5, 9, 10))],
        [(it["name"], it["detail"], it["kind"], span(it["range"]), span(it["selectionRange"])) for it in symbols])
    tally.verdict("the end", (0, ""), editor.end())


def as_fault_says_of(program, tally, path):
    """A configuration and the task text of its name have the findings that `fmp_view fault` prints of them."""
    source = path.with_suffix(".src")
    done = subprocess.run([program, "fault", path, source, "--json"], capture_output=True, text=True)
    wanted = [(it["line"] - 1, it["column"] - 1, it["end"] - 1, it["sentence"])
              for it in map(json.loads, done.stdout.splitlines())]
    editor = Editor(program).started()
    editor.open("x.cfg", path.read_text())
    editor.open("x.src", source.read_text())
    editor.published(1)
    found = editor.published(2)
    got = [(it[0][0], it[0][1], it[0][3], it[3]) for name in ("x.cfg", "x.src") for it in found[name]]
    tally.verdict(f"the findings of {path.name}", sorted(wanted), sorted(got))
    editor.end()


def as_fault_says(program, tally):
    """The examples and the systems of `schedules`, and systems with several faults."""
    for path in [*sorted(ROOT.glob("examples/*.cfg")), *sorted(ROOT.glob("checks/schedules/systems/*.cfg"))]:
        as_fault_says_of(program, tally, path)
    mistakes = (("OTHER)", "OTHRE)"), ("put(exinf)", "put(exin)"), ("= first", "= firs"), ("wai_sem(SEM)", "wai_sem()"),
                ("isig_sem", "isig_sme"), ("{ var OTHERS", "( var OTHERS"), ("put(MAIN)", "put(012)"))
    with tempfile.TemporaryDirectory() as folder:
        for count in range(1, len(mistakes) + 1):
            path = Path(folder) / f"mistakes{count}.cfg"
            path.write_text(CFG.replace("TA_NULL, 7", "1, 7") if count == 1 else CFG)
            source = SRC.replace(" /* \u00e9 \U0001F600 */", "")
            for old, new in mistakes[:count] if count > 1 else ():
                source = source.replace(old, new)
            path.with_suffix(".src").write_text(source)
            as_fault_says_of(program, tally, path)


def changed(text, dice):
    """A message that is cut or changed in up to three places at random."""
    text = bytearray(text)
    for _ in range(dice.randrange(4)):
        place = dice.randrange(len(text))
        kind = dice.randrange(4)
        if kind == 0:
            del text[place:]
        elif kind == 1:
            text[place] = dice.randrange(256)
        elif kind == 2:
            del text[place:place + dice.randrange(20)]
        else:
            text[place:place] = dice.choice((b"{", b"}", b"[", b"null,", b"-1", b"\\u0000", b"\"", b"1e999"))
        if not text:
            text = bytearray(b" ")
    return bytes(text)


def at_random(program, tally, count, seed=1):
    """Messages that are cut or changed at random, and bytes that are none."""
    dice = random.Random(seed)
    uri = {"textDocument": {"uri": FOLDER + "a.src", "text": SRC, "languageId": "fmp", "version": 1}}
    seeds = [json.dumps({"jsonrpc": "2.0", **({"id": 1} if kind else {}), "method": method, "params": {
        **uri, "position": {"line": 4, "character": 23}, "newName": "NEW", "contentChanges": [{"text": SRC}],
        "context": {"includeDeclaration": True}}}).encode() for method, kind in (
        ("textDocument/didOpen", 0), ("textDocument/didChange", 0), ("textDocument/didClose", 0),
        ("textDocument/hover", 1), ("textDocument/completion", 1), ("textDocument/definition", 1),
        ("textDocument/references", 1), ("textDocument/rename", 1), ("textDocument/documentSymbol", 1),
        ("initialize", 1), ("initialized", 0), ("$/cancelRequest", 0), ("nothing", 1))]

    data = [framed(changed(dice.choice(seeds), dice)) for _ in range(count)]
    editor = opened(program)
    last = framed({"jsonrpc": "2.0", "id": "last", "method": "shutdown"}) + framed({"method": "exit"})
    out, error = editor.process.communicate(b"".join(data) + last, timeout=600)
    tally.verdict(f"{count} random messages", (0, b""), (editor.process.returncode, error))
    bodies = re.split(rb"Content-Length: \d+\r\n\r\n", out)[1:]
    tally.holds("each answer is JSON", all(json.loads(it) is not None for it in bodies))
    tally.verdict("the last answer", {"jsonrpc": "2.0", "id": "last", "result": None}, json.loads(bodies[-1]))
    for _ in range(200):
        pieces = b"\n", b"\r\n\r\n", b"Content-Length: ", b"9", b"{}"
        noise = b"".join(dice.choice((bytes([dice.randrange(256)]), *pieces)) for _ in range(dice.randrange(400)))
        done = subprocess.run([program, "lsp"], input=noise, capture_output=True, timeout=60)
        tally.verdict(f"noise: {noise}", (1, b""), (done.returncode, done.stderr))


def large_texts():
    """Two texts of nearly 1 MiB each."""
    cfg = "NUM_PRC(8);\nCLASS(TCL_1) {\n" + "".join(
        f"    CRE_TSK(T{n}, {{ TA_ACT, 0, t{n}, 10, 65536, NULL }});\n" for n in range(250)) + "}\n"
    cfg += "// " + (1_048_000 - len(cfg)) * "x" + "\n"
    body = "    if (exinf == 1) {{ act_tsk(T{n}); put(exinf + 2 * 3); }}\n"
    lines = 1_048_000 // 250 // len(body) - 1
    src = "".join(f"task t{n} {{\n    var i;\n" + lines * body.format(n=n) + "}\n" for n in range(250))
    return cfg, src


def spent(editor, what):
    """The least processor time, in ms, that the server takes for what is done, and the last answer."""
    clock = Path(f"/proc/{editor.process.pid}/schedstat")
    times = []
    for _ in range(5):
        begun = int(clock.read_text().split()[0])
        answer = what()
        times.append((int(clock.read_text().split()[0]) - begun) / 1e6)
    return min(times), answer


def timed(program):
    """How long requests about texts of 1 MiB take."""
    cfg, src = large_texts()
    editor = Editor(program).started()
    editor.open("a.cfg", cfg)
    editor.open("a.src", src)
    editor.published(3)
    line = src.count("\n") // 2 + 5
    position = {"textDocument": {"uri": FOLDER + "a.src"}, "position": {"line": line, "character": 31}}
    print(f"{SCRIPT}: texts of {len(cfg)} and {len(src)} bytes; {src.splitlines()[line]!r}")
    for method in ("hover", "completion", "definition", "references", "documentSymbol", "rename"):
        least, answer = spent(editor, lambda: editor.ask(f"textDocument/{method}", {**position, "newName": "NEW"}))
        print(f"    {method}: {least:.1f} ms, {len(json.dumps(answer))} bytes")

    def change(text):
        editor.notify("textDocument/didChange", {"textDocument": {"uri": FOLDER + "a.src", "version": 2},
                                                 "contentChanges": [{"text": text}]})
        return editor.published(2)

    print(f"    a change, and what is found: {spent(editor, lambda: change(src))[0]:.1f} ms")
    for old, new in (("== 1", "= 1"), ("* 3);", "* 3)"), ("put(exinf", "put(exin")):
        place = src.index(old, len(src) * 3 // 4)
        faulty = src[:place] + new + src[place + len(old):]
        print(f"    a change of `{old}` to `{new}`: {spent(editor, lambda: change(faulty))[0]:.1f} ms")
    editor.end()


def main():
    parser = argparse.ArgumentParser(description="Talks to `fmp_view lsp` as an editor does.")
    parser.add_argument("--random", metavar="COUNT", type=int, default=10_000, help="how many messages are random")
    parser.add_argument("--times", action="store_true", help="print how long requests about large texts take")
    parser.add_argument("program", metavar="PROGRAM", nargs="?", help="crates/fmp_view/out/fmp_view")
    words = parser.parse_args()
    program, tally = located("fmp_view", words.program), Tally()
    for part in (handshake, framing, diagnosed, hovered, navigated, listed):
        part(program, tally)
    if program.name.startswith("fmp_view"):
        as_fault_says(program, tally)
    at_random(program, tally, words.random)
    if words.times:
        timed(program)
    print(f"{SCRIPT}: {tally}")
    return tally.status


if __name__ == "__main__":
    sys.exit(main())
