#!/usr/bin/env python3
"""Makes the manual page and the completions of shells from the command line's own description, and tells whether those
that stand in docs/ are these.

    checks/program/manual.py [--write] [--of NAME] [PROGRAM]

NAME is fmp, or fmp_view. PROGRAM is crates/NAME/out/NAME where it is not given, as `rt ci` or `rt run` leaves it. With
`--write` the files are written: after each change of the command line or of its help. Without it they are compared, the
completion of bash is tried, and `make install` is run into a folder of its own.
"""

import argparse
import filecmp
import os
import re
import subprocess
import sys
import tempfile
from dataclasses import dataclass, field
from pathlib import Path

sys.dont_write_bytecode = True  # the folders of the checks stay as they are
sys.path[0] = str(Path(__file__).resolve().parents[1])  # the folder `checks`, whose folders are packages

from common.program import ROOT, located  # noqa: E402
from common.tally import Tally  # noqa: E402

PROGRAMS = {"fmp": "PROGRAM", "fmp_view": "VIEW"}  # with the word of the Makefile for each
SPECS = ("fmp_base/specs/Codes.antt", "fmp_base/specs/Texts.antt", "fmp_diagnosis/specs/Topics.antt")  # they have codes
REFERENCE = "share/doc/fmp/LANGUAGE.md"
SECTIONS = ("Commands", "Arguments", "Options")
NAMES_OF_FILES = ("FILE", "SRC", "DIR", "OUT", "NAME")  # what an option takes that is a file, a folder or its front


def files(name):
    """The files that are made for the program of this name, and how."""
    return {
        f"man/{name}.1": page,
        f"completions/{name}.bash": bash,
        f"completions/_{name}": zsh,
        f"completions/{name}.fish": fish,
    }


def codes():
    """The codes that `fmp_view code` explains."""
    texts = [(ROOT / "crates" / specs).read_text() for specs in SPECS]
    return [code for text in texts for code in re.findall(r'codes "([A-Z](?:_\w+|\d))"', text)]


def installed(name):
    """Where they are installed, and the reference with them."""
    return {
        REFERENCE: "LANGUAGE.md",
        f"share/man/man1/{name}.1": f"man/{name}.1",
        f"share/bash-completion/completions/{name}": f"completions/{name}.bash",
        f"share/zsh/site-functions/_{name}": f"completions/_{name}",
        f"share/fish/vendor_completions.d/{name}.fish": f"completions/{name}.fish",
    }


@dataclass
class Item:
    """A command, argument or option: how it is written, what help says of it, and the example below that, if any: the
    lines that stand deeper than its text does."""

    form: str
    text: str
    column: int = 0
    example: list = field(default_factory=list)

    def go_on(self, line):
        """Takes the next line that is said of it."""
        indent = len(line) - len(line.lstrip())
        self.column = self.column or indent
        if indent > self.column:
            self.example.append("  " + line.strip())
        else:
            self.text = f"{self.text} {line.strip()}".strip()

    def names(self):
        """The names of an option, such as `-h` and `--help`."""
        return re.findall(r"--?[\w-]+", self.form)

    def takes(self):
        """What an option takes, as `N`, or nothing."""
        value = re.search(r"<([^>]+)>", self.form)
        return value[1] if value else ""

    def takes_file(self):
        return self.takes() in NAMES_OF_FILES

    def values(self):
        """The words that an option takes, if help lists them."""
        listed = re.search(r"\[possible values: (.*?)\]", self.text)
        return listed[1].split(", ") if listed else []


@dataclass
class Help:
    """What the help of a command has."""

    about: str = ""
    usage: str = ""
    items: dict = field(default_factory=lambda: {section: [] for section in SECTIONS})
    rest: list = field(default_factory=list)


def read_help(text):
    """Help as clap prints it: paragraphs, and sections with an item a line, or its text on the lines below."""
    read, section = Help(), "about"
    for line in text.splitlines():
        head = re.fullmatch(r"(\w+):", line)
        if line.startswith("Usage: "):
            read.usage, section = line[len("Usage: "):], "rest"
        elif head and head[1] in SECTIONS:
            section = head[1]
        elif section == "about":
            read.about = f"{read.about} {line.strip()}".strip()
        elif section in SECTIONS and line.startswith(" " * 7) and read.items[section]:
            read.items[section][-1].go_on(line)
        elif section in SECTIONS and line.startswith("  "):
            form, _, said = line.strip().partition("  ")
            said = said.strip()
            read.items[section].append(Item(form, said, line.rindex(said) if said else 0))
        elif section in SECTIONS and not line:
            pass
        else:
            section = "rest"
            read.rest.append(line)
    read.rest = "\n".join(read.rest).strip("\n").splitlines()
    return read


def helped(name, program, *words):
    """The help of these words from the program called by its own name, whatever its file is called."""
    done = subprocess.run([name, *words, "--help"], executable=program, capture_output=True, check=True)
    return read_help(done.stdout.decode())


@dataclass
class Manual:
    """The whole command line of a program: its own help and that of each of its commands."""

    name: str
    top: Help
    commands: dict

    def options(self):
        """The options of each command, by its name."""
        return {name: command.items["Options"] for name, command in self.commands.items()}


def described(name, program):
    top = helped(name, program)
    commands = [item.form for item in top.items["Commands"] if item.form != "help"]
    return Manual(name, top, {command: helped(name, program, command) for command in commands})


# The manual page

def roff(text):
    text = text.replace("\\", "\\e").replace("-", "\\-")
    return re.sub(r"^([.'])", r"\\&\1", text, flags=re.M)


def listed(items):
    for item in items:
        yield from (".TP", f"\\fB{roff(item.form)}\\fR", roff(item.text), *map(roff, item.example))


def as_it_stands(lines):
    return [".nf", *(roff(line) for line in lines), ".fi"] if lines else []


def page(manual):
    top = manual.top
    short = re.split("[:.]", top.about)[0]
    lines = [f'.TH {manual.name.upper()} 1 "" "fmp" "User Commands"', ".SH NAME"]
    lines.append(f"{manual.name} \\- {roff(short[0].lower() + short[1:])}")
    lines.append(".SH SYNOPSIS")
    for command in manual.commands.values():
        lines += [f"\\fB{roff(command.usage)}\\fR", ".br"]
    lines += [f"\\fB{manual.name}\\fR"] if "With no command" in top.about else []
    lines += [".SH DESCRIPTION", roff(top.about), ".SH COMMANDS"]
    for name, command in manual.commands.items():
        lines += [f".SS {name}", roff(command.about)]
        lines += listed(command.items["Arguments"])
        lines += listed(command.items["Options"])
        lines += [".PP", *as_it_stands(command.rest)] if command.rest else []
    lines.append(".SH OPTIONS")
    lines += listed(top.items["Options"])
    lines += [".SH NOTES", *as_it_stands(top.rest)]
    lines.append(".SH SEE ALSO")
    lines += [f"\\fB{roff(other)}\\fR(1)," for other in PROGRAMS if other != manual.name]
    reference = f"{REFERENCE}, which is docs/LANGUAGE.md of the repository"
    lines.append(f"{reference}: the texts, service calls, traces and faults.")
    return "\n".join(lines) + "\n"


# The completions

def made_for(shell, name):
    return f"# Completion of {name} for {shell}. Made by checks/program/manual.py from the program's help."


def after_options(manual):
    """What bash completes after an option that takes something: files, the words that help lists, or nothing."""
    completed = {}
    for option in (it for options in manual.options().values() for it in options if it.takes()):
        done = "COMPREPLY=(); return"
        if option.takes_file():
            done = 'COMPREPLY=($(compgen -f -- "$word")); return'
        elif option.values():
            done = f'COMPREPLY=($(compgen -W "{" ".join(option.values())}" -- "$word")); return'
        completed.setdefault(done, {}).update(dict.fromkeys(option.names()))
    return [f"        {'|'.join(names)}) {done} ;;" for done, names in completed.items()]


def bash(manual):
    cases = []
    for name, options in manual.options().items():
        words = " ".join(word for option in options for word in option.names())
        cases.append(f'        {name}) words="{words}" ;;')
        if name == "code":
            given = f'COMPREPLY=($(compgen -W "{" ".join(codes())}" -- "$word")); return;'
            cases[-1] = f'        code) words="{words}"; [[ $word == -* ]] || {{ {given} }} ;;'
    first = " ".join([*manual.commands, "help", *(it for item in manual.top.items["Options"] for it in item.names())])
    return "\n".join([
        made_for("bash", manual.name),
        f"_{manual.name}() {{",
        '    local word=${COMP_WORDS[COMP_CWORD]} before=${COMP_WORDS[COMP_CWORD-1]} words=""',
        "    COMPREPLY=()",
        '    if [ "$COMP_CWORD" -eq 1 ]; then',
        f'        COMPREPLY=($(compgen -W "{first}" -- "$word"))',
        "        return",
        "    fi",
        "    case $before in",
        *after_options(manual),
        "    esac",
        "    case ${COMP_WORDS[1]} in",
        *cases,
        f'        help) COMPREPLY=($(compgen -W "{" ".join(manual.commands)}" -- "$word")); return ;;',
        "    esac",
        '    case $word in',
        '        -*) COMPREPLY=($(compgen -W "$words" -- "$word")) ;;',
        '        *) COMPREPLY=($(compgen -f -- "$word")) ;;',
        "    esac",
        "}",
        f"complete -o filenames -F _{manual.name} {manual.name}",
    ]) + "\n"


def quoted(text):
    return text.replace("'", "'\\''")


def zsh(manual):
    def named(text):
        return quoted(text.replace("[", "\\[").replace("]", "\\]").replace(":", "\\:"))

    name = manual.name
    lines = [f"#compdef {name}", made_for("zsh", name), f"_{name}() {{", "    local -a commands", "    commands=("]
    lines += [f"        '{name}:{named(command.about)}'" for name, command in manual.commands.items()]
    lines += ["    )", "    if (( CURRENT == 2 )); then", "        _describe command commands", "        return"]
    lines += ["    fi", "    case $words[2] in"]
    for name, command in manual.commands.items():
        words = enumerate(command.items["Arguments"], 2)
        values = f"({' '.join(codes())})" if name == "code" else "_files"
        given = [f"'{place}:{quoted(word.takes())}:{values}'" for place, word in words]
        for option in command.items["Options"]:
            action = "_files" if option.takes_file() else f"({' '.join(option.values())})" if option.values() else ""
            value = f":{named(option.takes())}:{action}" if option.takes() else ""
            given += [f"'{word}[{named(option.text)}]{value}'" for word in option.names()]
        lines += [f"        {name})", "            _arguments \\"]
        lines += [f"                {word} \\" for word in given[:-1]]
        lines += [f"                {given[-1]}", "            ;;"]
    lines += ["        help) _describe command commands ;;", "    esac", "}", f'_{manual.name} "$@"']
    return "\n".join(lines) + "\n"


def fish(manual):
    def one(condition, item):
        words = [f"-s {it[1:]}" if not it.startswith("--") else f"-l {it[2:]}" for it in item.names()]
        words_of = f" -a '{' '.join(item.values())}'" if item.values() else ""
        value = " -r -F" if item.takes_file() else f" -x{words_of}" if item.takes() else ""
        return f"complete -c {manual.name} -n '{condition}' {' '.join(words)}{value} -d '{quoted(item.text)}'"

    lines = [made_for("fish", manual.name)]
    for name, command in manual.commands.items():
        lines.append(f"complete -c {manual.name} -f -n __fish_use_subcommand -a {name} -d '{quoted(command.about)}'")
    lines += [one("__fish_use_subcommand", item) for item in manual.top.items["Options"]]
    for name, options in manual.options().items():
        lines += [one(f"__fish_seen_subcommand_from {name}", item) for item in options]
    if "code" in manual.commands:
        lines.append(f"complete -c {manual.name} -f -n '__fish_seen_subcommand_from code' -a '{' '.join(codes())}'")
    return "\n".join(lines) + "\n"


# The checks

def completed(name, *words):
    """What bash completes these words to, after the program's name."""
    script, words = ROOT / f"docs/completions/{name}.bash", [name, *words]
    given = f"COMP_WORDS=({' '.join(words)}); COMP_CWORD={len(words) - 1}"
    command = f'. "{script}"; {given}; _{name}; echo "${{COMPREPLY[@]}}"'
    return subprocess.run(["bash", "-c", command], capture_output=True, cwd=ROOT / "docs").stdout.decode().split()


def check_completion(tally, manual):
    of = manual.name
    for name, options in manual.options().items():
        tally.holds(f"bash completes {name}", name in completed(of, name[:2]))
        words = {word for option in options for word in option.names() if word.startswith("--")}
        tally.holds(f"bash completes the options of {name}", words <= set(completed(of, name, "--")))
        for option in (it for it in options if it.takes()):
            word = option.names()[-1]
            wanted = ["LANGUAGE.md"] if option.takes_file() else option.values()
            start = "LANG" if option.takes_file() else ""
            tally.verdict(f"bash completes what {word} of {name} takes", wanted, completed(of, name, word, start))
        if name == "code":
            tally.holds("bash completes codes", completed(of, name, "E_P") == ["E_PAR"])
        else:
            tally.holds(f"bash completes files of {name}", "LANGUAGE.md" in completed(of, name, "LANG"))


def check_install(tally, name, program):
    with tempfile.TemporaryDirectory() as folder:
        room = f"{folder}/with a blank"
        words = ["make", "-s", "-C", ROOT, f"PREFIX={room}", f"{PROGRAMS[name]}={program}"]
        done = subprocess.run([*words, "install"], capture_output=True)
        said = done.stdout.decode()
        tally.holds(f"make install: {done.stderr.decode()}", done.returncode == 0)
        copies = {f"{room}/{target}": ROOT / "docs" / source for target, source in installed(name).items()}
        for target, source in {**copies, f"{room}/bin/{name}": program}.items():
            same = os.path.exists(target) and filecmp.cmp(target, source, shallow=False)
            tally.holds(f"make install copies {source}", same)
            tally.holds(f"make install says where it puts {source}", target in said)
        done = subprocess.run([*words, "uninstall"], capture_output=True)
        tally.holds(f"make uninstall: {done.stderr.decode()}", done.returncode == 0)
        tally.holds("make uninstall removes each file", not [it for it in Path(room).rglob("*") if it.is_file()])


def check_codes(tally, manual, program):
    """Each code that is completed is explained."""
    for code in codes() if "code" in manual.commands else []:
        done = subprocess.run([program, "code", code], capture_output=True)
        tally.holds(f"{code} is explained", done.stdout.decode().startswith(f"{code}: "))


def main():
    parser = argparse.ArgumentParser(description="Makes the manual page and the completions, or compares them.")
    parser.add_argument("program", metavar="PROGRAM", nargs="?", type=Path, help="crates/NAME/out/NAME")
    parser.add_argument("--of", metavar="NAME", choices=PROGRAMS, default="fmp", help="fmp, or fmp_view")
    parser.add_argument("--write", action="store_true", help="write the files")
    options = parser.parse_args()
    name = options.of
    program = located(name, options.program)
    manual, tally = described(name, program), Tally()
    tally.holds("the help tells its commands", len(manual.commands) > 2)
    for file, make in files(name).items():
        path, text = ROOT / "docs" / file, make(manual)
        if options.write:
            path.parent.mkdir(exist_ok=True)
            path.write_text(text)
        stands = path.exists() and path.read_text() == text
        tally.holds(f"docs/{file} is not what the help tells: checks/program/manual.py --write makes it", stands)
    check_completion(tally, manual)
    check_codes(tally, manual, program)
    check_install(tally, name, program)
    print(f"checks/program/manual.py: {tally}")
    return tally.status


if __name__ == "__main__":
    sys.exit(main())
