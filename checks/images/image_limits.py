"""Images with one thing at its limit, past it or changed: names, instructions, calls, counts and sizes.

Each has a name that says what it is. What it must answer is for image_format.py to say.
"""

from images.image_format import ARGUMENT_COUNTS, LATER_WORDS, LAYOUTS, NO_LOCAL, VERSIONS, WORDS, spell

ENDING = (9, 0, 0)
LEAST_ROWS = {
    "tasks": {"attribute": 0, "exinf": 0, "body": 0, "priority": 1, "stack": 1, "processor": 1, "only": 0},
    "semaphores": {"attribute": 0, "count": 0, "greatest": 1},
    "flags": {"attribute": 0, "pattern": 0},
    "data_queues": {"attribute": 0, "capacity": 0},
    "mailboxes": {"attribute": 0, "least_urgent": 1},
    "messages": {"priority": 1},
    "shared_words": {"word": 0},
    "spin_locks": {},
    "cyclic_handlers": {"attribute": 0, "exinf": 0, "body": 1, "period": 1, "phase": 0, "processor": 1},
    "interrupts": {"number": 1, "body": 1, "processor": 1},
}
# The ends of each number of a row and one past them, for those that its field can hold.
ENDS = {
    "attribute": range(256), "exinf": (-(1 << 31), (1 << 31) - 1), "body": (0, 1, 2, 255), "priority": range(20),
    "stack": (0, 1, 65536, 65537, (1 << 32) - 1), "processor": (0, 1, 2, 8, 9, 255), "only": range(256),
    "count": (0, 1, 2, 65535), "greatest": (0, 1, 65535), "pattern": (0, 65535), "capacity": (0, 255),
    "least_urgent": range(20), "word": (-(1 << 31), (1 << 31) - 1),
    "period": (0, 1, 1 << 30, (1 << 30) + 1, 1 << 31, (1 << 32) - 1), "number": range(256),
    "phase": (0, 1 << 30, (1 << 30) + 1, 1 << 31, (1 << 32) - 1),
}


def body(code, kind=0, local_count=1, depth=None):
    """A body, with the depth that its code has where none is given."""
    greatest = max((entry for _, _, entry in code), default=0)
    return {"kind": kind, "locals": local_count, "depth": greatest if depth is None else depth, "code": code}


def image(bodies=None, processors=1, version=3, **tables):
    """The bytes of an image with these tables and no others."""
    least = [body([ENDING]), body([ENDING], kind=1)]
    fields = {"version": version, "processors": processors, "bodies": bodies or least}
    return spell({**fields, **dict.fromkeys(LAYOUTS, ()), **tables})


def of_code(code, version=3, **fields):
    """An image of one body, and of a task that runs it."""
    task = {**LEAST_ROWS["tasks"], "name": b"T", "attribute": 2, "stack": 65536}
    return image([body(code, **fields)], version=version, tasks=[task])


def named(table, number):
    """A name of its own for each row; interrupts have none."""
    return {} if table == "interrupts" else {"name": f"{table[:2]}{number}".encode()}


def rows():
    """Each number of each table at its ends and past them, and tables of 255 rows."""
    for table, least in LEAST_ROWS.items():
        for field in least:
            for value in ENDS[field]:
                row = {**least, **named(table, 1), field: value}
                yield f"{table}: {field} {value}", image(**{table: [row]})
                yield f"8 processors, {table}: {field} {value}", image(processors=8, **{table: [row]})
        for count in (2, 32, 33, 254, 255):
            many = [{**least, **named(table, number)} for number in range(count)]
            if table == "interrupts":
                many = [{**row, "number": number} for number, row in enumerate(many, 1)]
            yield f"{count} {table}", image(**{table: many})
    every = {table: [{**least, **named(table, number)} for number in range(255)] for table, least in LEAST_ROWS.items()}
    every["interrupts"] = [{**LEAST_ROWS["interrupts"], "number": number} for number in range(1, 33)]
    bodies = [body([ENDING], kind=number % 2) for number in range(255)]
    yield "255 of each kind", image(bodies, 8, **every)
    for count in (0, 1, 7, 8, 9, 255):
        yield f"{count} processors", image(processors=count)
    for count, greatest in ((0, 0), (3, 2), (3, 3), (65535, 65534), (65535, 65535)):
        row = {**LEAST_ROWS["semaphores"], "name": b"S", "count": count, "greatest": greatest}
        yield f"{count} of {greatest} resources", image(semaphores=[row])


def names():
    """Names of each length, words, bytes that no name has, and names that stand twice."""
    odd = (b"1a", b"a1", b"_", b"__9", b"a b", b"a-b", b" a", b"a\n", b"a\0", b"\xc3\xa9", b"a\xff", b"A", b"exinf")
    forms = [b"n" * length for length in (0, 1, 30, 31, 32, 33, 254, 255)] + [*odd, b"TCL_1", b"F_OVF"]
    for word in sorted(WORDS):
        forms += [word.encode(), f"{word}_".encode(), word.swapcase().encode()]
    for name in forms:
        yield f"a message {name}", image(messages=[{"name": name, "priority": 1}])
    for word in (*LATER_WORDS, "put"):
        for version in VERSIONS:
            for table, least in LEAST_ROWS.items():
                if table != "interrupts":
                    row = {**least, "name": word.encode()}
                    yield f"version {version}, {table}: {word}", image(version=version, **{table: [row]})
    for name in (b"n" * 32, b"9"):
        for table, least in LEAST_ROWS.items():
            if table != "interrupts":
                yield f"{table}: {name}", image(**{table: [{**least, "name": name}]})
    tables = [table for table in LEAST_ROWS if table != "interrupts"]
    for first in tables:
        for second in tables:
            one, two = ({**LEAST_ROWS[table], "name": b"same"} for table in (first, second))
            both = [one, two] if first == second else None
            yield f"a name in {first} and {second}", image(**({first: both} if both else {first: [one], second: [two]}))


def instructions():
    """Each opcode with arguments in and out of range, as the one instruction before the end."""
    before = [(1, 1, 0), (1, 2, 1)]
    for opcode in (*range(14), 127, 128, 254, 255):
        for argument in (*range(-2, 18), 63, 64, 65, 255, 256, 257, 258, 259, 513, 514, 769, 65536, (1 << 31) - 1,
                         -(1 << 31)):
            for entry, left in ((0, 0), (0, 1), (1, 0), (1, 1), (2, 0), (2, 1), (2, 2)):
                code = [*before[:entry], (opcode, argument, entry), *([(3, 0, 1)] if left == 1 else []), ENDING]
                yield f"{opcode} {argument} on {entry} operands, {left} after it", of_code(code, local_count=3)
    for local_count in (0, 1, 2, 63, 64, 65, 254, 255):
        for place in (0, local_count - 1, local_count, 64, 254, 255):
            code = [(2, place, 0), (3, place, 1), ENDING]
            yield f"local {place} of {local_count}", of_code(code, local_count=local_count)
        yield f"{local_count} locals", of_code([ENDING], local_count=local_count)


def arrays():
    """Arrays at the ends of a body's locals and past them, with indexes in and out of range; all versions."""
    for local_count in (1, 2, 3, 63, 64, 65, 255):
        for base in (0, 1, 2, local_count - 2, local_count - 1, local_count, 255):
            for places in (0, 1, 2, local_count - base - 1, local_count - base, local_count - base + 1, 256):
                if base < 0 or places < 0:
                    continue
                argument = base + 256 * places
                for version in VERSIONS:
                    what = f"version {version}, {places} places from {base} of {local_count}"
                    load, store = (10, argument, 1), (11, argument, 2)
                    code = [(1, 0, 0), load, (3, 0, 1), ENDING]
                    yield f"{what}, a load", of_code(code, version, local_count=local_count)
                    code = [(1, 0, 0), (1, 7, 1), store, ENDING]
                    yield f"{what}, a store", of_code(code, version, local_count=local_count)
    put = (8, 1 + 256 * NO_LOCAL + 65536 * NO_LOCAL, 1)
    for base, places in ((1, 1), (1, 63), (63, 1), (2, 3)):
        argument = base + 256 * places
        for index in (-(1 << 31), -256, -1, 0, 1, places - 1, places, places + 1, 255, 256, (1 << 31) - 1):
            stored = [(1, index, 0), (1, 7, 1), (11, argument, 2)]
            loaded = [(1, index, 0), (10, argument, 1), put]
            yield f"{places} places from {base}, {index} stored", of_code([*stored, *loaded, ENDING], local_count=64)
            yield f"{places} places from {base}, {index} loaded", of_code([*loaded, ENDING], local_count=64)
            beside = [(2, local, 0) for local in (base - 1, min(base + places, 63))]
            shown = [step for load in beside for step in (load, put)]
            yield f"{places} places from {base}, beside {index}", of_code([*stored, *shown, ENDING], local_count=64)


def versions():
    """Versions that there are and that there are not, with code of each."""
    codes = {
        "no array": [(1, 7, 0), (3, 1, 1), ENDING],
        "a load": [(1, 0, 0), (10, 257, 1), (3, 0, 1), ENDING],
        "a store": [(1, 0, 0), (1, 7, 1), (11, 257, 2), ENDING],
        "an unreachable load": [ENDING, (10, 257, 1), (3, 0, 1), ENDING],
        "mrot_rdq": [(1, 10, 0), (1, 1, 1), (8, 59 + 256 * NO_LOCAL + 65536 * NO_LOCAL, 2), ENDING],
        "an unreachable mrot_rdq": [ENDING, (8, 59 + 256 * NO_LOCAL + 65536 * NO_LOCAL, 2), ENDING],
    }
    for version in (0, 1, 2, 3, 4, 5, 255, 256, 257, 258, 259, 511, 512, 768, 65535):
        for name, code in codes.items():
            yield f"version {version}, {name}", of_code(code, version, local_count=2)
        yield f"version {version}, no row", image(version=version)


def calls():
    """Each number of a call with each number of operands, out place and answer; the last ones in all versions."""
    for service in (*range(62), 127, 128, 255):
        for version in VERSIONS if 58 <= service <= 60 else VERSIONS[-1:]:
            yield from calls_of(service, version)


def calls_of(service, version):
    what = f"version {version}, call {service}"
    for count in range(6):
        for place in (NO_LOCAL, 0, 2, 3):
            for answer in (NO_LOCAL, 2, 3):
                pushes = [(1, 1, entry) for entry in range(count)]
                argument = service + 256 * place + 65536 * answer
                code = [*pushes, (8, argument, count), ENDING]
                yield f"{what} of {count}, place {place}, answer {answer}", of_code(code, version, local_count=3)
    argument = service + 65536 * NO_LOCAL + 256 * NO_LOCAL
    for high in (1 << 24, 1 << 30, -(1 << 31), -(1 << 24)):
        count = ARGUMENT_COUNTS.get(service, 0)
        code = [*((1, 1, entry) for entry in range(count)), (8, argument + high, count), ENDING]
        yield f"{what}, argument {argument + high}", of_code(code, version, local_count=3)


def codes():
    """Jumps, depths and sizes."""
    for target in (-1, 0, 1, 2, 3, 4, 65535, 1 << 30):
        yield f"jump to {target}", of_code([(6, target, 0), ENDING, ENDING])
        yield f"jump to {target} at the end", of_code([ENDING, ENDING, (6, target, 0)])
        yield f"jump at 0 to {target}", of_code([(1, 0, 0), (7, target, 1), ENDING])
    for depth in (1, 2, 63, 64, 65, 66):
        code = [*((1, 1, entry) for entry in range(depth)), *((5, 0, entry) for entry in range(depth, 1, -1))]
        code += [(3, 0, 1), ENDING]
        yield f"{depth} operands", of_code(code)
        task = {**LEAST_ROWS["tasks"], "name": b"T"}
        for stack in (4 * depth - 1, 4 * depth, 4 * depth + 1):
            yield f"{depth} operands, stack {stack}", image([body(code)], tasks=[{**task, "stack": stack}])
        for stated in (depth - 1, depth + 1, 255):
            yield f"{depth} operands, {stated} stated", of_code(code, depth=stated)
    for entry in (1, 64, 65, 255):
        code = [(6, 3, 0), (1, 0, entry), (6, 1, entry + 1 & 255), ENDING]
        yield f"unreachable code on {entry} operands", of_code(code)
        yield f"an unreachable loop on {entry} operands", of_code([(6, 2, 0), (6, 1, entry), ENDING])
    for code in ([], [(1, 0, 0)], [(6, 0, 0)], [(9, 0, 1)], [(9, 1, 0)], [ENDING, (1, 0, 0)], [ENDING, (7, 0, 0)]):
        yield f"code {code}", of_code(code)
    for size in (65534, 65535):
        yield f"{size} instructions", of_code([ENDING] * size)
    for kind in (0, 1, 2, 255):
        yield f"a body of kind {kind}", image([body([ENDING], kind=kind)])


def all_limits():
    for group in (rows, names, instructions, arrays, versions, calls, codes):
        yield from group()
