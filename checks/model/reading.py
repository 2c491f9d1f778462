"""A second reader of configurations and task texts, written from docs/LANGUAGE.md; it shares nothing with the program.
Here are the tokens of both, and configurations. Task texts, and which fault of two texts is the first, stand in
reading_bodies.py.

A text is read into tokens, these into a tree, and trees are judged. The first fault ends the reading: `Fault`.
"""

import re
from dataclasses import dataclass

CONSTANTS = {
    "E_OK": 0, "E_SYS": -5, "E_NOSPT": -9, "E_RSATR": -11, "E_PAR": -17, "E_ID": -18, "E_CTX": -25, "E_ILUSE": -28,
    "E_OBJ": -41, "E_QOVR": -43, "E_RLWAI": -49, "E_TMOUT": -50, "TA_NULL": 0, "TA_HLNG": 0, "TA_TFIFO": 0,
    "TA_TPRI": 1, "TA_MFIFO": 0, "TA_MPRI": 2, "TA_ACT": 2, "TA_WSGL": 0, "TA_WMUL": 2, "TA_CLR": 4, "TA_STA": 2,
    "TWF_ANDW": 0, "TWF_ORW": 1, "TMO_POL": 0, "TMO_FEVR": -1, "TSK_SELF": 0, "TPRI_INI": 0, "TPRI_SELF": 0,
}
# What stands in the packet of a static API: a value, the name of an entry, or NULL.
PACKETS = {
    "CRE_TSK": ("value", "value", "entry", "value", "value", "NULL"), "CRE_SEM": ("value", "value", "value"),
    "CRE_FLG": ("value", "value"), "CRE_DTQ": ("value", "value", "NULL"), "CRE_MBX": ("value", "value", "NULL"),
    "CRE_MSG": ("value",), "CRE_SHR": ("value",), "CRE_SPN": ("value",),
    "CRE_CYC": ("value", "value", "entry", "value", "value"), "DEF_INH": ("value", "entry"),
}
# For each service call a letter for each argument: `&` for the out place, `v` for an expression.
CALLS = dict(each.split(":") for each in """
    put:v ld_shr:v& st_shr:vv act_tsk:v can_act:v ext_tsk: ter_tsk:v chg_pri:vv get_pri:v& mact_tsk:vv mig_tsk:vv
    slp_tsk: tslp_tsk:v wup_tsk:v can_wup:v rel_wai:v sus_tsk:v rsm_tsk:v dly_tsk:v sig_sem:v wai_sem:v pol_sem:v
    twai_sem:vv set_flg:vv clr_flg:vv wai_flg:vvv& pol_flg:vvv& twai_flg:vvv&v snd_dtq:vv psnd_dtq:vv tsnd_dtq:vvv
    fsnd_dtq:vv rcv_dtq:v& prcv_dtq:v& trcv_dtq:v&v snd_mbx:vv rcv_mbx:v& prcv_mbx:v& trcv_mbx:v&v sta_cyc:v stp_cyc:v
    rot_rdq:v get_tid:& loc_cpu: unl_cpu: dis_dsp: ena_dsp: loc_spn:v try_spn:v unl_spn:v iact_tsk:v iwup_tsk:v
    irel_wai:v isig_sem:v iset_flg:vv ipsnd_dtq:vv ifsnd_dtq:vv irot_rdq:v mrot_rdq:vv""".split())
KEYWORDS = "NUM_PRC CLASS NULL task handler var if else while break continue return".split()
WORDS = {*CONSTANTS, *PACKETS, *CALLS, *KEYWORDS}
GREATEST = (1 << 31) - 1
LONGEST_TEXT, LONGEST_NAME, MOST_OF_A_KIND = 1 << 20, 31, 255

BLANK = re.compile(r"[ \t\r\n]+|//[^\n]*")
WORD = re.compile(r"[A-Za-z_][A-Za-z0-9_]*")
NUMBER = re.compile(r"0x[0-9A-Fa-f]+|0|[1-9][0-9]*")
SYMBOL = re.compile(r"&&|\|\||==|!=|<=|>=|[][(){},;|&^~!=<>+*/%-]")


class Fault(Exception):
    """A fault, and its line."""

    def __init__(self, code, line):
        super().__init__(code)
        self.code, self.line = code, line


@dataclass(frozen=True)
class Token:
    """A token: a `word`, `name`, `number`, `symbol`, `fault` or the `end`; its text or value, and its line."""

    kind: str
    value: object
    line: int


def number_token(text, place, line):
    """The token of the digits at a place, and how long it is."""
    digits = NUMBER.match(text, place)[0]
    if WORD.match(text, place + len(digits)) or text[place + len(digits) : place + len(digits) + 1].isdigit():
        return Token("fault", "B1", line), len(digits)
    value = int(digits, 16 if "x" in digits else 10)
    is_long = "x" in digits and len(digits) > 10
    return Token("fault", "B5", line) if is_long or value > GREATEST else Token("number", value, line), len(digits)


def token_at(text, place, line):
    """The token at a place, and how long it is."""
    if found := WORD.match(text, place):
        if found[0] in WORDS:
            return Token("word", found[0], line), len(found[0])
        is_long = len(found[0]) > LONGEST_NAME
        return Token("fault", "B5", line) if is_long else Token("name", found[0], line), len(found[0])
    if NUMBER.match(text, place):
        return number_token(text, place, line)
    if found := SYMBOL.match(text, place):
        return Token("symbol", found[0], line), len(found[0])
    return Token("fault", "B1", line), 1


def tokens(text):
    """The tokens of a text, up to the first that is none, and the end."""
    place, line, found = 0, 1, []
    while place < len(text):
        if blank := BLANK.match(text, place):
            end = blank.end()
        elif text.startswith("/*", place):
            end = text.find("*/", place + 2) + 2
            if end < 2:
                return [*found, Token("fault", "B1", line)]
        else:
            token, length = token_at(text, place, line)
            found.append(token)
            if token.kind == "fault":
                return found
            end = place + length
        line += text.count("\n", place, end)
        place = end
    return [*found, Token("end", None, line)]


class Reader:
    """A place among the tokens of a text. What does not fit there is a fault."""

    def __init__(self, text):
        if len(text) > LONGEST_TEXT:
            raise Fault("B5", 1)
        self.tokens, self.place = tokens(text), 0

    @property
    def next(self):
        return self.tokens[self.place]

    def refuse(self):
        raise Fault(self.next.value if self.next.kind == "fault" else "B1", self.next.line)

    def is_at(self, *values):
        """Whether one of these words or symbols stands here."""
        return self.next.kind in ("word", "symbol") and self.next.value in values

    def take(self, kind):
        """The next token, which is of this kind."""
        if self.next.kind != kind:
            self.refuse()
        self.place += 1
        return self.tokens[self.place - 1]

    def expect(self, *values):
        """The next token, which is one of these words or symbols."""
        if not self.is_at(*values):
            self.refuse()
        self.place += 1
        return self.tokens[self.place - 1]

    def skip(self, value):
        """Whether this word or symbol stands here, which is then passed."""
        is_there = self.is_at(value)
        self.place += is_there
        return is_there

    def listed(self, readers):
        """What these read, one after the other, with commas between."""
        read = []
        for place, reader in enumerate(readers):
            if place:
                self.expect(",")
            read.append(reader())
        return read


# Configurations


@dataclass
class Api:
    """A static API: its word, the line of that, what stands first, and the fields of its packet. A value with an
    unknown constant is None."""

    word: str
    line: int
    first: object
    fields: list

    def values(self):
        return [each for each, kind in zip(self.fields, PACKETS[self.word]) if kind == "value"]

    @property
    def entry(self):
        return dict(zip(PACKETS[self.word], self.fields)).get("entry")


class ConfigurationReader(Reader):
    """The tree of a configuration: the token of the number of processors, and each class with its static APIs."""

    def item(self):
        if self.skip("-"):
            return -self.take("number").value
        if self.next.kind == "number":
            return self.take("number").value
        if self.next.kind == "name":
            self.place += 1
            return None
        return CONSTANTS[self.expect(*CONSTANTS).value]

    def value(self):
        items = [self.item()]
        while self.skip("|"):
            items.append(self.item())
        if None in items:
            return None
        joined = 0
        for item in items:
            joined |= item
        return joined

    def field(self, kind):
        readers = {"value": self.value, "entry": lambda: self.take("name").value, "NULL": lambda: self.expect("NULL")}
        return readers[kind]

    def api(self):
        word = self.expect(*PACKETS)
        self.expect("(")
        first = self.value() if word.value == "DEF_INH" else self.take("name").value
        self.expect(",")
        self.expect("{")
        fields = self.listed([self.field(kind) for kind in PACKETS[word.value]])
        for symbol in "});":
            self.expect(symbol)
        return Api(word.value, word.line, first, fields)

    def configuration(self):
        self.expect("NUM_PRC")
        self.expect("(")
        processors = self.take("number")
        self.expect(")")
        self.expect(";")
        classes = []
        while self.next.kind != "end":
            self.expect("CLASS")
            self.expect("(")
            name, apis = self.take("name"), []
            self.expect(")")
            self.expect("{")
            while not self.skip("}"):
                apis.append(self.api())
            classes.append((name, apis))
        return processors, classes


def attribute_fits(word, attribute):
    """Whether the attribute of a static API is one of its own."""
    ranges = {"CRE_TSK": (0, 2), "CRE_SEM": (0, 1), "CRE_FLG": range(8), "CRE_DTQ": (0, 1), "CRE_MBX": range(4),
              "CRE_SPN": (0,), "CRE_CYC": (0, 2), "DEF_INH": (0,)}
    return word not in ranges or attribute in ranges[word]


def numbers_fit(api):
    """Whether the other values of a static API are in their ranges."""
    values = api.values()
    match api.word:
        case "CRE_TSK":
            return 1 <= values[2] <= 16 and 1 <= values[3] <= 65536
        case "CRE_SEM":
            return 1 <= values[2] <= 65535 and 0 <= values[1] <= values[2]
        case "CRE_FLG":
            return 0 <= values[1] <= 65535
        case "CRE_DTQ":
            return 0 <= values[1] <= 255
        case "CRE_MBX":
            return 1 <= values[1] <= 16
        case "CRE_MSG":
            return 1 <= values[0] <= 16
        case "CRE_CYC":
            return 1 <= values[2] <= 1 << 30 and 0 <= values[3] <= 1 << 30
        case "DEF_INH":
            return 1 <= api.first <= 32
    return True


def judge_api(api, earlier):
    """Refuses a static API that does not fit these earlier ones."""
    of_kind = [other for other in earlier if other.word == api.word]
    is_interrupt = api.word == "DEF_INH"
    names = {other.first for other in earlier if other.word != "DEF_INH"}
    for is_faulty, code in (
        (len(of_kind) == MOST_OF_A_KIND, "B5"),
        (not is_interrupt and api.first in names, "B2"),
        (None in [api.first, *api.values()], "B3"),
    ):
        if is_faulty:
            raise Fault(code, api.line)
    if not attribute_fits(api.word, api.fields[0]):
        raise Fault("B4 E_RSATR", api.line)
    if not numbers_fit(api):
        raise Fault("B4 E_PAR", api.line)
    if is_interrupt and any(other.first == api.first for other in of_kind):
        raise Fault("B4 E_OBJ", api.line)


def judge_configuration(processors, classes):
    """The static APIs of a configuration in order, if none is refused."""
    if not 1 <= processors.value <= 8:
        raise Fault("B5", processors.line)
    known = {f"TCL_{number}{only}" for number in range(1, processors.value + 1) for only in ("", "_ONLY")}
    apis = []
    for name, of_class in classes:
        if name.value not in known:
            raise Fault("B3", name.line)
        for api in of_class:
            judge_api(api, apis)
            apis.append(api)
    return apis
