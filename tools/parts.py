"""Cuts a module into parts for quick.py, so that they are compiled side by side.

A function stands in the part of its crate, and the other parts can call it. A function of the toolchain's libraries
stands in each part that needs it, so that it can be inlined there, and so does each constant.
"""

import re

EVERYWHERE = {"core", "std", "std_alloc", "std_collections", "std_heap", "std_io", "indexmap", "itoa"}
NAME = re.compile(r'@(?:"([^"]*)"|([\w.$+-]+))')
CRATE = re.compile(r"[a-z]\w*")


def first_name(line):
    """The name that a line defines or declares."""
    found = NAME.search(line)
    return found[1] or found[2]


class Module:
    """What a module has: its first and last lines, and by their names the lines of functions, those of globals, and
    declarations."""

    def __init__(self, lines):
        self.head, self.tail = [], []
        self.functions, self.globals, self.declarations = {}, {}, {}
        function = None
        for line in lines:
            if function is not None:
                function.append(line)
                if line.startswith("}"):
                    function = None
            elif line.startswith("define"):
                function = self.functions[first_name(line)] = [line]
            elif line.startswith("declare"):
                self.declarations[first_name(line)] = line
            elif line.startswith("@"):
                self.globals[first_name(line)] = line
            elif line.startswith(("attributes", "!")):
                self.tail.append(line)
            else:
                self.head.append(line)

    def names_in(self, name):
        """The names that stand in a function or in a global."""
        lines = self.functions.get(name) or [self.globals.get(name, "")]
        return {quoted or plain for line in lines if "@" in line for quoted, plain in NAME.findall(line)}

    def parts(self, part_of):
        """The part of each function that stands in one part alone. `part_of` gives that of a crate."""
        crates = {name: CRATE.match(name) for name in self.functions}
        return {name: part_of(it[0]) for name, it in crates.items() if it and it[0] not in EVERYWHERE}

    def needed(self, parts, part):
        """The names that stand in a part, and those of functions of other parts that it calls."""
        inside, called, left = set(), set(), [name for name, it in parts.items() if it == part]
        while left:
            name = left.pop()
            if name in inside:
                continue
            inside.add(name)
            names = self.names_in(name)
            elsewhere = {it for it in names if parts.get(it, part) != part}
            called |= elsewhere
            left += names - elsewhere
        return inside, called


def shown(line):
    """The first line of a function that other parts can call."""
    return line.replace("define internal ", "define hidden ", 1)


def declared(line):
    """What another part has of a function with this first line."""
    return re.sub(r"( #\d+)? \{\n$", r"\1\n", shown(line)).replace("define ", "declare ", 1)


def of_global(line, is_first):
    """What a part has of a global: each has its constants; the variables are those of the first part."""
    if " constant " in line:
        return line
    own = line.replace("= private global", "= hidden global", 1)
    return own if is_first else re.sub(r"= hidden global (.*) zeroinitializer", r"= external hidden global \1", own)


def write(lines, files, part_of):
    """Writes the module of these lines as parts, one in each file. `part_of` gives the place of a crate's part among
    them."""
    module = Module(lines)
    parts = module.parts(part_of)
    needed = [module.needed(parts, part) for part in range(len(files))]
    called_elsewhere = set().union(*(called for _, called in needed))
    for part, (file, (inside, called)) in enumerate(zip(files, needed)):
        with open(file, "w", encoding="utf-8") as out:
            out.writelines(module.head)
            out.writelines(of_global(line, part == 0) for name, line in module.globals.items() if name in inside)
            for name in (it for it in module.functions if it in inside):
                first, *rest = module.functions[name]
                out.write(shown(first) if name in called_elsewhere else first)
                out.writelines(rest)
            out.writelines(declared(module.functions[name][0]) for name in sorted(called))
            out.writelines(line for name, line in module.declarations.items() if name in inside)
            out.writelines(module.tail)
