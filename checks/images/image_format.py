"""The format of images: the tables that bytes spell, or their first fault, and the bytes that tables have.

It is written from the rules of the format alone and shares nothing with the program.
"""

import re
import struct

from common.services import SERVICES

MAGIC, VERSIONS = b"FMPI", (1, 2, 3)
NUMBERS = {"u8": "<B", "u16": "<H", "u32": "<I", "i32": "<i"}

# The fields of a row of each table, in order; the tables stand in this order after the bodies.
LAYOUTS = {
    "tasks": "name:name attribute:u8 exinf:i32 body:u8 priority:u8 stack:u32 processor:u8 only:u8",
    "semaphores": "name:name attribute:u8 count:u16 greatest:u16",
    "flags": "name:name attribute:u8 pattern:u16",
    "data_queues": "name:name attribute:u8 capacity:u8",
    "mailboxes": "name:name attribute:u8 least_urgent:u8",
    "messages": "name:name priority:u8",
    "shared_words": "name:name word:i32",
    "spin_locks": "name:name",
    "cyclic_handlers": "name:name attribute:u8 exinf:i32 body:u8 period:u32 phase:u32 processor:u8",
    "interrupts": "number:u8 body:u8 processor:u8",
}
LAYOUTS = {table: [field.split(":") for field in row.split()] for table, row in LAYOUTS.items()}

# By function code, from 1: how many arguments a service call passes, and whether it has an out place.
ARGUMENT_COUNTS = {number: len(service.form) - service.form.count("&") for number, service in enumerate(SERVICES, 1)}
HAS_PLACE = {number: "&" in service.form for number, service in enumerate(SERVICES, 1)}

# The services that not every version has, with the first version that has it. Before, their words may be names.
FIRST_VERSIONS = {59: 3}

WORDS = {service.name for service in SERVICES} | set("""
E_OK E_SYS E_NOSPT E_RSATR E_PAR E_ID E_CTX E_ILUSE E_OBJ E_QOVR E_RLWAI E_TMOUT TA_NULL TA_HLNG TA_TFIFO TA_TPRI
TA_MFIFO TA_MPRI TA_ACT TA_WSGL TA_WMUL TA_CLR TA_STA TWF_ANDW TWF_ORW TMO_POL TMO_FEVR TSK_SELF TPRI_INI TPRI_SELF
CRE_TSK CRE_SEM CRE_FLG CRE_DTQ CRE_MBX CRE_MSG CRE_SHR CRE_SPN CRE_CYC DEF_INH
NUM_PRC CLASS NULL task handler var if else while break continue return
""".split())
LATER_WORDS = {SERVICES[number - 1].name: version for number, version in FIRST_VERSIONS.items()}
IDENTIFIER = re.compile(rb"[A-Za-z_][A-Za-z0-9_]{0,30}")

TASK_BODY, HANDLER_BODY = 0, 1
PUSH, LOAD, STORE, UN, BIN, JMP, JZ, CALL, END, LDX, STX = range(1, 12)
NO_LOCAL = 255
GREATEST_DEPTH = GREATEST_LOCALS = 64
GREATEST_TIME = 1 << 30


class Fault(Exception):
    """The first fault of an image: L1 to L6."""


def check(kind, holds):
    if not holds:
        raise Fault(kind)


class Reader:
    """Fields from the front of bytes."""

    def __init__(self, data):
        self.data, self.place = data, 0

    def take(self, count):
        end = self.place + count
        check("L1", end <= len(self.data))
        taken, self.place = self.data[self.place:end], end
        return taken

    def field(self, form):
        if form == "name":
            return self.take(self.field("u8"))
        return struct.unpack(NUMBERS[form], self.take(struct.calcsize(NUMBERS[form])))[0]

    def row(self, layout):
        return {name: self.field(form) for name, form in layout}

    def body(self):
        body = {name: self.field(form) for name, form in BODY_LAYOUT}
        count = self.field("u16")
        body["code"] = [tuple(self.field(form) for form in ("u8", "i32", "u8")) for _ in range(count)]
        return body


BODY_LAYOUT = (("kind", "u8"), ("locals", "u8"), ("depth", "u8"))


# Code: an instruction is its opcode, its argument and its entry in the depth table

def call_parts(argument):
    """The service, the out place and the place of the answer that the argument of a CALL names."""
    return argument & 255, argument >> 8 & 255, argument >> 16


def is_call(argument, local_count, version):
    if not 0 <= argument < 1 << 24:
        return False
    service, place, answer = call_parts(argument)
    if service not in ARGUMENT_COUNTS or version < FIRST_VERSIONS.get(service, 1):
        return False
    has_place = place < local_count if HAS_PLACE[service] else place == NO_LOCAL
    return has_place and (answer == NO_LOCAL or answer < local_count)


def array_parts(argument):
    """The first local and the number of places of the array that the argument of LDX and STX names."""
    return argument & 255, argument >> 8


def is_array(argument, local_count):
    base, places = array_parts(argument)
    return argument >= 0 and base >= 1 and places >= 1 and base + places <= local_count


def has_argument(opcode, argument, local_count, size, version):
    """Whether the version has such an opcode, or such a call, and the argument is in its range."""
    match opcode:
        case 1:
            return True
        case 2 | 3:
            return 0 <= argument < local_count
        case 4:
            return 0 <= argument <= 3
        case 5:
            return 0 <= argument <= 13
        case 6 | 7:
            return 0 <= argument < size
        case 8:
            return is_call(argument, local_count, version)
        case 9:
            return argument == 0
        case 10 | 11:
            return version >= 2 and is_array(argument, local_count)
    return False


def keeps_entry(place, code):
    """Whether enough operands stand before an instruction, and each that may follow has the entry that it leaves."""
    opcode, argument, entry = code[place]
    following = {JMP: [argument], JZ: [place + 1, argument], END: []}.get(opcode, [place + 1])
    if opcode == CALL:
        wanted = ARGUMENT_COUNTS[argument & 255]
        left = 0
        enough = entry == wanted
    else:
        wanted, change = {PUSH: (0, 1), LOAD: (0, 1), STORE: (1, -1), UN: (1, 0), BIN: (2, -1), JMP: (0, 0),
                          JZ: (1, -1), END: (0, 0), LDX: (1, 0), STX: (2, -2)}[opcode]
        left = entry + change
        enough = entry == 0 if opcode == END else entry >= wanted
    return enough and all(code[target][2] == left for target in following)


def is_fit(code, local_count, version):
    """Whether code has only the opcodes and calls of its version and keeps to its depth table."""
    return (
        len(code) > 0 and code[-1][0] in (JMP, END) and code[0][2] == 0
        and all(entry <= GREATEST_DEPTH for _, _, entry in code)
        and all(has_argument(opcode, argument, local_count, len(code), version) for opcode, argument, _ in code)
        and all(keeps_entry(place, code) for place in range(len(code)))
    )


# The rules of the rows: what stands before them is `seen`

class Seen:
    """The version, processors, bodies, names and interrupts that were read."""

    def __init__(self, version, processors):
        self.version, self.processors = version, processors
        self.bodies, self.names, self.interrupts = [], set(), set()

    def has_body(self, place, kind):
        return place < len(self.bodies) and self.bodies[place]["kind"] == kind

    def is_word(self, name):
        return name in WORDS and self.version >= LATER_WORDS.get(name, 1)

    def is_new_name(self, name):
        """Whether this can be the next object's name, which it is then."""
        fits = IDENTIFIER.fullmatch(name) and not self.is_word(name.decode()) and name not in self.names
        self.names.add(name)
        return bool(fits)

    def is_new_interrupt(self, number):
        fits = 1 <= number <= 32 and number not in self.interrupts
        self.interrupts.add(number)
        return fits

    def has_processor(self, number):
        return 1 <= number <= self.processors


RULES = {
    "tasks": lambda row, seen: (
        row["attribute"] in (0, 2) and seen.has_body(row["body"], TASK_BODY) and 1 <= row["priority"] <= 16
        and max(1, 4 * seen.bodies[row["body"]]["depth"]) <= row["stack"] <= 65536
        and seen.has_processor(row["processor"]) and row["only"] in (0, 1)),
    "semaphores": lambda row, seen: (
        row["attribute"] in (0, 1) and 1 <= row["greatest"] and row["count"] <= row["greatest"]),
    "flags": lambda row, seen: row["attribute"] <= 7,
    "data_queues": lambda row, seen: row["attribute"] in (0, 1),
    "mailboxes": lambda row, seen: row["attribute"] <= 3 and 1 <= row["least_urgent"] <= 16,
    "messages": lambda row, seen: 1 <= row["priority"] <= 16,
    "shared_words": lambda row, seen: True,
    "spin_locks": lambda row, seen: True,
    "cyclic_handlers": lambda row, seen: (
        row["attribute"] in (0, 2) and seen.has_body(row["body"], HANDLER_BODY)
        and 1 <= row["period"] <= GREATEST_TIME and row["phase"] <= GREATEST_TIME
        and seen.has_processor(row["processor"])),
    "interrupts": lambda row, seen: (
        seen.is_new_interrupt(row["number"]) and seen.has_body(row["body"], HANDLER_BODY)
        and seen.has_processor(row["processor"])),
}


def read_body(reader, version):
    body = reader.body()
    check("L5", is_fit(body["code"], body["locals"], version))
    greatest = max(entry for _, _, entry in body["code"])
    check("L4", body["kind"] <= 1 and 1 <= body["locals"] <= GREATEST_LOCALS and body["depth"] == greatest)
    return body


def read_row(table, reader, seen):
    row = reader.row(LAYOUTS[table])
    check("L4", ("name" not in row or seen.is_new_name(row["name"])) and RULES[table](row, seen))
    return row


def read(data):
    """The tables that bytes spell; their first fault is raised."""
    reader = Reader(data)
    check("L2", reader.take(4) == MAGIC)
    image = {"version": reader.field("u16")}
    check("L3", image["version"] in VERSIONS)
    image["processors"] = reader.field("u8")
    check("L4", 1 <= image["processors"] <= 8)
    seen = Seen(image["version"], image["processors"])
    for _ in range(reader.field("u8")):
        seen.bodies.append(read_body(reader, seen.version))
    image["bodies"] = seen.bodies
    for table in LAYOUTS:
        image[table] = [read_row(table, reader, seen) for _ in range(reader.field("u8"))]
    check("L6", reader.place == len(data))
    return image


# Bytes

def field_bytes(form, value):
    if form == "name":
        return bytes([len(value)]) + value
    return struct.pack(NUMBERS[form], value)


def body_bytes(body):
    fields = b"".join(field_bytes(form, body[name]) for name, form in BODY_LAYOUT)
    code = b"".join(struct.pack("<BiB", *instruction) for instruction in body["code"])
    return fields + struct.pack("<H", len(body["code"])) + code


def table_bytes(layout, rows):
    return bytes([len(rows)]) + b"".join(field_bytes(form, row[name]) for row in rows for name, form in layout)


def spell(image):
    """The bytes of an image, in its version."""
    bodies = bytes([len(image["bodies"])]) + b"".join(map(body_bytes, image["bodies"]))
    tables = b"".join(table_bytes(layout, image[table]) for table, layout in LAYOUTS.items())
    return MAGIC + struct.pack("<HB", image["version"], image["processors"]) + bodies + tables
