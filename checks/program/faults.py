#!/usr/bin/env python3
"""Compares what `fmp_view fault` prints of faulty texts and steps, and of texts with warnings, with what is written
here: as text, and with --json, whose lines are read back.

    checks/program/faults.py [PROGRAM]

PROGRAM is crates/fmp_view/out/fmp_view where it is not given. Line, column, width and sentence of each row were worked
out by hand from docs/LANGUAGE.md, never taken from the program. In a row `[N times: PIECE]` stands for N pieces,
with the numbers from 1 in place of `#`.
"""

import json
import subprocess
import sys
import tempfile
from pathlib import Path
from typing import NamedTuple

sys.dont_write_bytecode = True  # the folders of the checks stay as they are
sys.path[0] = str(Path(__file__).resolve().parents[1])  # the folder `checks`, whose folders are packages

from common.program import program_of_words  # noqa: E402
from common.repeats import expanded  # noqa: E402
from common.tally import Tally  # noqa: E402

BODIES = "task m { } handler h { } task deep { put(1 + 2); }"
ONE = "NUM_PRC(1); CLASS(TCL_1) { "
OBJECT = ONE + "CRE_SEM(SEM, { 0, 0, 1 }); }"
GREAT = "is too great: a number is at most 2147483647, with at most 8 hexadecimal digits"
LONG_NAME = "the name has 39 bytes; a name has at most 31"
LONG_BODY = "the body has more than 65535 instructions; it may have at most 65535"
DEEP_BODY = "the body needs more than 64 operands at once; it may need at most 64"
OCTAL = "is not a number; a decimal number does not begin with 0, and there are no octal numbers"
UNIT = "is not a number; a number has no suffix and no unit: times are in ticks"
ASSIGNED = "; only `=` changes a variable, as in `x = x + 1`"
FUNCTION = "there are no functions; a body begins `task NAME {` or `handler NAME {`"
VARIABLE = "a variable stands in a body; `CRE_SHR` makes a word that bodies share"
OUTSIDE = "expected `task`, `handler` or the end of the text, found "
PARAMETERS = "expected `{`, found `(`; a body has no parameters: `exinf` is its first variable"
SEPARATED = "; tokens are separated by spaces, tabs and line ends"
BRACES = "; the statements of `if`, `else` and `while` stand in braces"
OF_FMP3 = "`fmp_view import` reads configurations of FMP3"
DECLARED = "; `var` at the head of the body declares one"
RESERVED = "; this word is reserved in both texts"
FLAG = "made of `TA_TPRI`, `TA_WMUL` and `TA_CLR`, 0 to 7"

# A configuration; the line, the column and the bytes that are marked; the code; the sentence.
CONFIGURATIONS = [
    ("NUM_PRC(1)", 1, 11, 1, "B1", "expected `;`, but the text ends here"),
    ("NUM_PRC(1) // one\n", 1, 11, 1, "B1", "expected `;`, but the text ends here"),
    ("NUM_PRC(1)\nCLASS(TCL_1) { }", 1, 11, 1, "B1", "expected `;`, found `CLASS`"),
    ("NUM_PRC(1);\nCLASS(TCL_1) {", 2, 15, 1, "B1",
     "expected a static API or `}`, but the text ends here; the class `TCL_1` at line 2 is not closed"),
    ("NUM_PRC(2);\nCLASS(TCL_1) {\nCRE_SEM(S, { 0, 0, 1 });\nCLASS(TCL_2) { }", 4, 1, 5, "B1",
     "expected a static API or `}`, found `CLASS`; the class `TCL_1` at line 2 is not closed"),
    ("NUM_PRC(1);\nCRE_TSK(T, { 0, 0, m, 1, 64, NULL });", 2, 1, 7, "B1",
     "expected `CLASS` or the end of the text, found the static API `CRE_TSK`; a static API stands in a class, as in "
     "`CLASS(TCL_1) { .. }`"),
    ("task m { }", 1, 1, 4, "B1", "expected `NUM_PRC`, found `task`; this is a task text, which comes second"),
    ("run 1\ntick\n", 1, 1, 3, "B1", "expected `NUM_PRC`, found the name `run`; this is a steps text"),
    ("FMPI\x03\x00", 1, 1, 4, "B1", "expected `NUM_PRC`, found the name `FMPI`; this is an image"),
    (ONE + "CRE_TSK(T, { 0, 0, m, 1, 256 + 256, NULL }); }", 1, 57, 1, "B1",
     "expected `,` and `NULL` of `CRE_TSK`, found `+`; only `|` joins values"),
    (ONE + "CRE_SHR(W, { 1 + 1 }); }", 1, 43, 1, "B1",
     "expected `}` after the last value of `CRE_SHR`, found `+`; only `|` joins values"),
    (ONE + "CRE_SEM(S, { (TA_TFIFO), 0, 1 }); }", 1, 41, 1, "B1",
     "expected the attribute of `CRE_SEM`, found `(`; a value has no parentheses and no cast"),
    ("NUM_PRC(1); CLAS(TCL_1) { }", 1, 13, 4, "B1",
     "expected `CLASS` or the end of the text, found the name `CLAS`; did you mean `CLASS`?"),
    ("PRC(1);", 1, 1, 3, "B1", "expected `NUM_PRC`, found the name `PRC`"),
    ("NUM_PRC(TA_ACT);", 1, 9, 6, "B1", "expected the number of processors, found the constant `TA_ACT`"),
    ("NUM_PRC(1); CLASS(1) { }", 1, 19, 1, "B1", "expected the name of a class, as `TCL_1`, found the number 1"),
    (ONE + "CRE_SEM(S, { 0 | , 0, 1 }); }", 1, 45, 1, "B1", "expected a number or a constant, found `,`"),
    (ONE + "CRE_TSK(T, { 0, 0, 0, 1, 64, NULL }); }", 1, 47, 1, "B1",
     "expected the name of a body, the entry of `CRE_TSK`, found the number 0"),
    (ONE + "CRE_DTQ(D, { 0, 1, null }); }", 1, 47, 4, "B1",
     "expected `NULL` of `CRE_DTQ`, found the name `null`; did you mean `NULL`?"),
    (ONE + "CRE_SEM(S, { 0, 0 }); }", 1, 46, 1, "B1",
     "expected `,` and the greatest count of `CRE_SEM`, found `}`"),
    (ONE + "CRE_SEM(S, { 0, 0, 1, 1 }); }", 1, 48, 1, "B1",
     "expected `}` after the last value of `CRE_SEM`, found `,`"),
    (ONE + "CRE_SEM(put, { 0, 0, 1 }); }", 1, 36, 3, "B1",
     "expected a name for a semaphore, found the service call `put`" + RESERVED),
    (ONE + "CRE_SEM(task, { 0, 0, 1 }); }", 1, 36, 4, "B1", "expected a name for a semaphore, found `task`" + RESERVED),
    (ONE + "CRE_TSK(if, { 0, 0, m, 1, 64, NULL }); }", 1, 36, 2, "B1",
     "expected a name for a task, found `if`" + RESERVED),
    (ONE + "CRE_TSK(T, { 0, 0, NULL, 1, 64, NULL }); }", 1, 47, 4, "B1",
     "expected the name of a body, the entry of `CRE_TSK`, found `NULL`" + RESERVED),
    (ONE + "CRE_SEM(S, 0, 0, 1); }", 1, 39, 1, "B1",
     "expected `{`, found the number 0; the values of a static API stand in braces"),
    (ONE + "CRE_SEM(\"S\", { 0, 0, 1 }); }", 1, 36, 1, "B1",
     "no token begins with `\"`; a name stands without quotes"),
    (ONE + "CRE_CYC(C, { TA_STA, { TNFY_HANDLER, 0, h }, 1, 0 }); }", 1, 49, 1, "B1",
     "expected the extended information of `CRE_CYC`, found `{`; " + OF_FMP3),
    (ONE + "}\ntask m { }", 2, 1, 4, "B1",
     "expected `CLASS` or the end of the text, found `task`; a body stands in the task text"),
    (ONE + "};", 1, 29, 1, "B1", "expected `CLASS` or the end of the text, found `;`; no `;` stands after this `}`"),
    (ONE + "CRE_TSK(T, { 0, 0, m, 1, 64, 0 }); }", 1, 57, 1, "B1", "expected `NULL` of `CRE_TSK`, found the number 0"),
    (ONE + "CRE_TASK(T, { 0, 0, m, 1, 64, NULL }); }", 1, 28, 8, "B1",
     "`CRE_TASK` is not a static API; did you mean `CRE_TSK`?"),
    (ONE + "CRE_SHR(W, { -TA_CLR }); }", 1, 42, 6, "B1", "expected a number, found the constant `TA_CLR`"),
    (ONE + "CRE_SHR(W, { 1 }) }", 1, 45, 1, "B1", "expected `;`, found `}`"),
    (ONE + "CRE_ALM(A, { 0, 0, h }); }", 1, 28, 7, "B1",
     "`CRE_ALM` is left out on purpose: there are no alarm handlers"),
    (ONE + "CRE_MTX(M, { 0, 0 }); }", 1, 28, 7, "B1",
     "`CRE_MTX` is left out on purpose: there are no mutexes; a semaphore with one count excludes too"),
    (ONE + "}\nATT_INI({ 0, 0, h });", 2, 1, 7, "B1",
     "`ATT_INI` is left out on purpose: nothing but handlers and tasks runs"),
    ("NUM_PRC(01);", 1, 9, 2, "B1", "`01` " + OCTAL),
    (ONE + "CRE_TSK(T, { 0, 0, m, 1, 0512, NULL }); }", 1, 53, 4, "B1", "`0512` " + OCTAL),
    (ONE + "CRE_TSK(T, { 0, 0, m, 1, 512U, NULL }); }", 1, 53, 4, "B1", "`512U` " + UNIT),
    (ONE + "CRE_SEM(1BUS, { 0, 0, 1 }); }", 1, 36, 4, "B1", "`1BUS` is not a name; a name begins with a letter or `_`"),
    (ONE + "CRE_FLG(F, { TA_WSGL, 0X1F }); }", 1, 50, 4, "B1",
     "`0X1F` is not a number; a hexadecimal number is `0x` and its digits"),
    (ONE + "CRE_TSK(T, { TA_ACT, 'A', m, 1, 64, NULL }); }", 1, 49, 1, "B1",
     "no token begins with `'`; a character is written as its number"),
    ("NUM_PRC(1); /* open", 1, 13, 1, "B1", "the comment that begins here is not closed"),
    ("NUM_PRC(1); #", 1, 13, 1, "B1", "no token begins with `#`; there is no preprocessor"),
    ("NUM_PRC(1); $", 1, 13, 1, "B1", "no token begins with `$`"),
    ("NUM_PRC(1); \x1b", 1, 13, 1, "B1", "no token begins with a byte of value 27"),
    ("/* \x1b[31m\x7f\x00 */\tNUM_PRC(9);", 1, 23, 1, "B5", "the number of processors is 9; it must be 1 to 8"),
    ("\ufeffNUM_PRC(1);", 1, 1, 1, "B1", "a byte order mark stands here; save the text without it"),
    ("NUM_PRC(9);", 1, 9, 1, "B5", "the number of processors is 9; it must be 1 to 8"),
    ("NUM_PRC(0);", 1, 9, 1, "B5", "the number of processors is 0; it must be 1 to 8"),
    ("NUM_PRC(2147483648);", 1, 9, 10, "B5", "`2147483648` " + GREAT),
    (ONE + "CRE_SHR(W, { 0x100000000 }); }", 1, 41, 11, "B5", "`0x100000000` " + GREAT),
    (ONE + "CRE_SPN(a_name_of_more_than_31_bytes_is_a_fault, { 0 }); }", 1, 36, 39, "B5", LONG_NAME),
    ("NUM_PRC(1);\nCLASS(TCL_2) { }", 2, 7, 5, "B3",
     "there is no class `TCL_2`: with 1 processor they are `TCL_1` and `TCL_1_ONLY`"),
    ("NUM_PRC(2); CLASS(MAIN) { }", 1, 19, 4, "B3",
     "there is no class `MAIN`: with 2 processors they are `TCL_n` and `TCL_n_ONLY` for n from 1 to 2"),
    ("NUM_PRC(2); CLASS(CLS_PRC1) { }", 1, 19, 8, "B3",
     "there is no class `CLS_PRC1`: with 2 processors they are `TCL_n` and `TCL_n_ONLY` for n from 1 to 2; " + OF_FMP3),
    ("NUM_PRC(2); CLASS(TCL_1) {\nCRE_SEM(S, { 0, 0, 1 }); }\nCLASS(TCL_2) {\nCRE_FLG(S, { 0, 0 }); }", 4, 9, 1, "B2",
     "`S` is the name of an object already, at line 2"),
    (ONE + "\nCRE_SEM(S, { TA_FIFO, 0, 1 }); }", 2, 14, 7, "B3",
     "`TA_FIFO` is not a constant; the attribute of `CRE_SEM` must be `TA_TFIFO` or `TA_TPRI`; "
     "did you mean `TA_TFIFO`?"),
    (ONE + "CRE_TSK(T, { TA_RSTR, 0, m, 1, 64, NULL }); }", 1, 41, 7, "B3",
     "`TA_RSTR` is not a constant; the attribute of `CRE_TSK` must be 0 or `TA_ACT`"),
    (ONE + "CRE_TSK(T, { TA_ACTT, 0, m, 1, 64, NULL }); }", 1, 41, 7, "B3",
     "`TA_ACTT` is not a constant; the attribute of `CRE_TSK` must be 0 or `TA_ACT`; did you mean `TA_ACT`?"),
    (ONE + "CRE_TSK(T, { TA_ACT | TA_FPU, 0, m, 1, 64, NULL }); }", 1, 50, 6, "B3",
     "`TA_FPU` is not a constant; the attribute of `CRE_TSK` must be 0 or `TA_ACT`"),
    (ONE + "CRE_CYC(C, { TA_STA | TA_PHS, 0, h, 1, 0 }); }", 1, 50, 6, "B3",
     "`TA_PHS` is not a constant; the attribute of `CRE_CYC` must be 0 or `TA_STA`"),
    (ONE + "CRE_SEM(S, { TA_CEILING, 0, 1 }); }", 1, 41, 10, "B3",
     "`TA_CEILING` is not a constant; the attribute of `CRE_SEM` must be `TA_TFIFO` or `TA_TPRI`"),
    (ONE + "CRE_SPN(L, { TA_CEILING }); }", 1, 41, 10, "B3",
     "`TA_CEILING` is not a constant; the attribute of `CRE_SPN` must be 0"),
    (ONE + "CRE_TSK(T, { 0, 0, m, MAIN_PRIORITY, 64, NULL }); }", 1, 50, 13, "B3",
     "`MAIN_PRIORITY` is not a constant, and none can be defined: the priority of `CRE_TSK` is a number"),
    (ONE + "DEF_INH(INTNO_UART, { 0, h }); }", 1, 36, 10, "B3",
     "`INTNO_UART` is not a constant, and none can be defined: the interrupt number of `DEF_INH` is a number"),
    (ONE + "\nCRE_TSK(T, { 1, 0, m, 1, 64, NULL }); }", 2, 14, 1, "B4 E_RSATR",
     "the attribute of `CRE_TSK` is 1; it must be 0 or `TA_ACT`"),
    (ONE + "\nCRE_TSK(T, { TA_ACT, 0, m, 17, 64, NULL }); }", 2, 28, 2, "B4 E_PAR",
     "the priority of `CRE_TSK` is 17; it must be 1 to 16"),
    (ONE + "\n\tCRE_TSK(T, { TA_ACT, 0, m, 1, 0, NULL }); }", 2, 32, 1, "B4 E_PAR",
     "the stack size of `CRE_TSK` is 0; it must be 1 to 65536"),
    (ONE + "CRE_SEM(S, { TA_MPRI, 0, 1 }); }", 1, 41, 7, "B4 E_RSATR",
     "the attribute of `CRE_SEM` is 2; it must be `TA_TFIFO` or `TA_TPRI`"),
    (ONE + "CRE_SEM(S, { 0, 2, 1 }); }", 1, 44, 1, "B4 E_PAR",
     "the initial count of `CRE_SEM` is 2; it must be 0 to 1"),
    (ONE + "CRE_SEM(S, { 0, 0, 65536 }); }", 1, 47, 5, "B4 E_PAR",
     "the greatest count of `CRE_SEM` is 65536; it must be 1 to 65535"),
    (ONE + "CRE_FLG(F, { 8, 0 }); }", 1, 41, 1, "B4 E_RSATR", "the attribute of `CRE_FLG` is 8; it must be " + FLAG),
    (ONE + "CRE_FLG(F, { TA_CLR |\n8, 0 }); }", 1, 41, 6, "B4 E_RSATR",
     "the attribute of `CRE_FLG` is 12; it must be " + FLAG),
    (ONE + "CRE_FLG(F, { 0, 0x10000 }); }", 1, 44, 7, "B4 E_PAR",
     "the initial pattern of `CRE_FLG` is 65536; it must be 0 to 65535"),
    (ONE + "CRE_DTQ(D, { 0, 256, NULL }); }", 1, 44, 3, "B4 E_PAR",
     "the capacity of `CRE_DTQ` is 256; it must be 0 to 255"),
    (ONE + "CRE_MBX(X, { 4, 1, NULL }); }", 1, 41, 1, "B4 E_RSATR",
     "the attribute of `CRE_MBX` is 4; it must be made of `TA_TPRI` and `TA_MPRI`, 0 to 3"),
    (ONE + "CRE_MBX(X, { 0, 17, NULL }); }", 1, 44, 2, "B4 E_PAR",
     "the greatest message priority of `CRE_MBX` is 17; it must be 1 to 16"),
    (ONE + "CRE_MSG(G, { 0 }); }", 1, 41, 1, "B4 E_PAR", "the message priority of `CRE_MSG` is 0; it must be 1 to 16"),
    (ONE + "CRE_SPN(L, { 1 }); }", 1, 41, 1, "B4 E_RSATR", "the attribute of `CRE_SPN` is 1; it must be 0"),
    (ONE + "CRE_CYC(C, { 1, 0, h, 1, 0 }); }", 1, 41, 1, "B4 E_RSATR",
     "the attribute of `CRE_CYC` is 1; it must be 0 or `TA_STA`"),
    (ONE + "CRE_CYC(C, { TA_STA, 0, h, 0, 0 }); }", 1, 55, 1, "B4 E_PAR",
     "the period of `CRE_CYC` is 0; it must be 1 to 1073741824"),
    (ONE + "CRE_CYC(C, { TA_STA, 0, h, 1, -1 }); }", 1, 58, 2, "B4 E_PAR",
     "the phase of `CRE_CYC` is -1; it must be 0 to 1073741824"),
    (ONE + "DEF_INH(33, { 0, h }); }", 1, 36, 2, "B4 E_PAR",
     "the interrupt number of `DEF_INH` is 33; it must be 1 to 32"),
    (ONE + "DEF_INH(3, { 0, h });\nDEF_INH(3, { 0, h }); }", 2, 9, 1, "B4 E_OBJ",
     "interrupt 3 has a handler already, defined at line 1"),
    (ONE + "[256 times: CRE_SEM(S#, { 0, 0, 1 });\n] }", 256, 1, 7, "B5",
     "this is the 256th `CRE_SEM`; there are at most 255 of a kind"),
    (ONE + "CRE_TSK(T, { 0, 0, dep, 1, 64, NULL }); }", 1, 47, 3, "B3",
     "no body of the task text has the name `dep`; did you mean `deep`?"),
    (ONE + "CRE_TSK(T, { 0, 0, h, 1, 64, NULL }); }", 1, 47, 1, "B7",
     "`h` is declared by `handler`; the entry of a task is declared by `task`"),
    (ONE + "DEF_INH(3, { 0, m }); }", 1, 44, 1, "B7",
     "`m` is declared by `task`; the entry of an interrupt handler is declared by `handler`"),
    (ONE + "CRE_TSK(T, {\n0, 0, deep, 1, 7, NULL }); }", 2, 16, 1, "B6",
     "the stack has 7 bytes; `deep` needs 8, 4 for each operand that stands at once"),
    ("NUM_PRC(1); // [1048576 times: .]", 1, 1, 1, "B5", "the text has 1048591 bytes; a text has at most 1048576"),
]

# Task texts, checked with a configuration of one object, the semaphore SEM.
SOURCES = [
    ("task m { put(1) }", 1, 16, 1, "B1", "expected `;`, found `}`"),
    ("task m { put(1) // one\n    put(2); }", 1, 16, 1, "B1", "expected `;`, found the service call `put`"),
    ("task m { exinf = 1\n\n}", 1, 19, 1, "B1", "expected an operator or `;`, found `}`"),
    ("task m { for (exinf = 0; exinf < 3; ) { } }", 1, 10, 3, "B1",
     "`for` is left out on purpose: the only loop is `while`"),
    ("task m { do { } while (1); }", 1, 10, 2, "B1", "`do` is left out on purpose: the only loop is `while`"),
    ("task m { int x; }", 1, 10, 3, "B1",
     "`int` is left out on purpose: all values are 32-bit numbers, and `var` declares a variable"),
    ("task m { ER code; }", 1, 10, 2, "B1",
     "`ER` is left out on purpose: all values are 32-bit numbers, and `var` declares a variable"),
    ("void m() { }", 1, 1, 4, "B1", FUNCTION),
    ("task m { }\nint add(int a) { return a; }", 2, 1, 3, "B1", FUNCTION),
    ("var g;\ntask m { }", 1, 1, 3, "B1", VARIABLE),
    ("static uint32_t count = 0;", 1, 1, 6, "B1", VARIABLE),
    ("task m { let x; }", 1, 10, 3, "B1",
     "`let` is left out on purpose: all values are 32-bit numbers, and `var` declares a variable"),
    ("task m { loop { put(1); } }", 1, 10, 4, "B1", "`loop` is left out on purpose: the only loop is `while`"),
    ("task m { if (1) { } elif (1) { } }", 1, 21, 4, "B1",
     "`elif` is left out on purpose: the only choice is `if`, with or without `else`"),
    ("task m { print(1); }", 1, 10, 5, "B1",
     "`print` is left out on purpose: `put` prints a number, and nothing prints a text"),
    ("task m { syslog(1); }", 1, 10, 6, "B1",
     "`syslog` is left out on purpose: `put` prints a number, and nothing prints a text"),
    ("task m { put(\"x\"); }", 1, 14, 1, "B1",
     "no token begins with `\"`; there are no strings, and `put` prints a number"),
    ("task m { put(x ? 1 : 2); }", 1, 16, 1, "B1",
     "no token begins with `?`; the only choice is `if`, with or without `else`"),
    ("task m { put(1.5); }", 1, 15, 1, "B1",
     "no token begins with `.`; numbers are whole, and there are no structures"),
    ("task m { var x; x++; }", 1, 18, 1, "B1", "expected `=` or `[`, found `+`" + ASSIGNED),
    ("task m { var x; x += 1; }", 1, 19, 1, "B1", "expected `=` or `[`, found `+`" + ASSIGNED),
    ("task m { var x; ++x; }", 1, 17, 1, "B1", "expected a statement or `}`, found `+`" + ASSIGNED),
    ("task m { var x; put(x++); }", 1, 23, 1, "B1",
     "expected an operand: a number, a constant, a name or `(`, found `+`" + ASSIGNED),
    ("task m { var x = 1; }", 1, 15, 1, "B1",
     "expected `;` or `[`, found `=`; a variable is 0 at first, and a statement gives it another value"),
    ("task m { var x, y; }", 1, 15, 1, "B1",
     "expected `;` or `[`, found `,`; each variable has a `var` of its own"),
    ("task m { if (exinf = 1) { } }", 1, 20, 1, "B1", "expected an operator or `)`, found `=`; `==` compares"),
    ("task m { exinf = exinf = 1; }", 1, 23, 1, "B1",
     "expected an operator or `;`, found `=`; an assignment is a statement, and no part of an expression"),
    ("task m { (void) slp_tsk(); }", 1, 10, 1, "B1",
     "expected a statement or `}`, found `(`; there are no casts: a call may stand alone"),
    ("task m { put(1);; }", 1, 17, 1, "B1", "expected a statement or `}`, found `;`; there is no empty statement"),
    ("task m { put(*exinf); }", 1, 14, 1, "B1",
     "expected an expression, argument 1 of `put`, found `*`; there are no pointers"),
    ("task m { var x; var y; x = &y; }", 1, 28, 1, "B1",
     "expected an expression or a service call, found `&`; `&` stands before a variable that gets a value"),
    ("task m { var a[3]; a = {1, 2, 3}; }", 1, 24, 1, "B1",
     "expected an expression or a service call, found `{`; a statement gives a value to each element of an array"),
    ("task m { var b[2][2]; }", 1, 18, 1, "B1", "expected `;`, found `[`; an array has one dimension"),
    ("task m { var a[3]; a[0][1] = 2; }", 1, 24, 1, "B1", "expected `=`, found `[`; an array has one dimension"),
    ("task m { var a[3]; rcv_dtq(QUEUE, &a[0]); }", 1, 37, 1, "B1",
     "expected `)`, since `rcv_dtq` has 2 arguments, found `[`; `&` stands before a variable, not an element"),
    ("task m { var x; var y; x = 1,y = 2; }", 1, 29, 1, "B1",
     "expected an operator or `;`, found `,`; each assignment is a statement of its own"),
    ("task m { osDelay(1); }", 1, 10, 7, "B1",
     "`osDelay` is left out on purpose: `dly_tsk` waits for a number of ticks"),
    ("task m { dly_tsk(10ms); }", 1, 18, 4, "B1", "`10ms` " + UNIT),
    ("task m { var 2nd; }", 1, 14, 3, "B1", "`2nd` is not a name; a name begins with a letter or `_`"),
    ("task m { sleep(1); }", 1, 10, 5, "B1", "`sleep` is left out on purpose: `dly_tsk` waits for a number of ticks"),
    ("task m { exinf = (int)exinf; }", 1, 23, 1, "B1",
     "expected an operator or `;`, found the name `exinf`; there are no casts: all values are 32-bit numbers"),
    ("task m { put((uint32_t)1); }", 1, 24, 1, "B1",
     "expected `)`, since `put` has 1 argument, found the number 1; there are no casts: all values are 32-bit numbers"),
    ("task m { exinf = NULL; }", 1, 18, 4, "B1",
     "expected an expression or a service call, found `NULL`; `NULL` is written as 0"),
    ("task m { put(NULL); }", 1, 14, 4, "B1",
     "expected an expression, argument 1 of `put`, found `NULL`; `NULL` is written as 0"),
    ("NUM_PRC(1);", 1, 1, 7, "B1",
     "expected `task` or `handler`, found `NUM_PRC`; this is a configuration, which comes first"),
    ("run 1\ntick\n", 1, 1, 3, "B1", "expected `task` or `handler`, found the name `run`; this is a steps text"),
    ("FMPI\x03\x00", 1, 1, 4, "B1", "expected `task` or `handler`, found the name `FMPI`; this is an image"),
    ("task m { sta_alm(1); }", 1, 10, 7, "B1", "`sta_alm` is left out on purpose: there are no alarm handlers"),
    ("task m { ref_tsk(1); }", 1, 10, 7, "B1", "`ref_tsk` is left out on purpose: no call asks for a state"),
    ("task m {\n    put(1);\n", 3, 1, 1, "B1",
     "expected a statement or `}`, but the text ends here; the `{` at line 1 is not closed"),
    ("task m {\n    while (1) {\n        put(1);\n}\ntask n { }", 5, 1, 4, "B1",
     "expected a statement or `}`, found `task`; the `{` at line 1 is not closed"),
    ("task m { put(1, 2); }", 1, 15, 1, "B1", "expected `)`, since `put` has 1 argument, found `,`"),
    ("task m { snd_dtq(1); }", 1, 19, 1, "B1", "expected `,`, since `snd_dtq` has 2 arguments, found `)`"),
    ("task m { slp_tsk(1); }", 1, 18, 1, "B1", "expected `)`, since `slp_tsk` has no argument, found the number 1"),
    ("task m { x = put; }", 1, 17, 1, "B1", "expected `(`, found `;`"),
    ("task m() { }", 1, 7, 1, "B1", PARAMETERS),
    ("task m(intptr_t exinf) { }", 1, 7, 1, "B1", PARAMETERS),
    ("tusk m { }", 1, 1, 4, "B1", "expected `task` or `handler`, found the name `tusk`; did you mean `task`?"),
    ("taks m { }", 1, 1, 4, "B1", "expected `task` or `handler`, found the name `taks`; did you mean `task`?"),
    ("task m { } }", 1, 12, 1, "B1", OUTSIDE + "`}`; the body `m` ended at line 1"),
    ("task m { put(1); } put(2); }", 1, 20, 3, "B1", OUTSIDE + "the service call `put`; the body `m` ended at line 1"),
    ("task m { }\ntask n {\n}\nexinf = 1;", 4, 1, 5, "B1",
     OUTSIDE + "the name `exinf`; the body `n` ended at line 3"),
    ("task m { };", 1, 11, 1, "B1", OUTSIDE + "`;`; no `;` stands after this `}`"),
    ("cyclic beat { }", 1, 1, 6, "B1",
     "expected `task` or `handler`, found the name `cyclic`; a body begins `task NAME {` or `handler NAME {`"),
    ("task m(exinf) { }", 1, 7, 1, "B1", PARAMETERS),
    ("task m { retrun; }", 1, 16, 1, "B1", "expected `=` or `[`, found `;`; did you mean `return`?"),
    ("task m { whlie (1) { } }", 1, 10, 5, "B1", "`whlie` is not a service call; did you mean `while`?"),
    ("task m { else { } }", 1, 10, 4, "B1",
     "expected a statement or `}`, found `else`; an `else` follows the block of an `if`"),
    ("task m { while (1) { } continue; }", 1, 24, 8, "B1", "`continue` stands in no loop"),
    ("task m { if (1 { } }", 1, 16, 1, "B1", "expected an operator or `)`, found `{`"),
    ("task m { put(1 + ); }", 1, 18, 1, "B1", "expected an operand: a number, a constant, a name or `(`, found `)`"),
    ("task m { put(&exinf); }", 1, 14, 1, "B1",
     "expected an expression, argument 1 of `put`, found `&`; `&` stands before a variable that gets a value"),
    ("task m { break; }", 1, 10, 5, "B1", "`break` stands in no loop"),
    ("task m { if (1) put(1); }", 1, 17, 3, "B1", "expected `{`, found the service call `put`" + BRACES),
    ("task m { if (1) { } else put(1); }", 1, 26, 3, "B1",
     "expected `{` or `if`, found the service call `put`" + BRACES),
    ("task m { while (1); }", 1, 19, 1, "B1", "expected `{`, found `;`" + BRACES),
    ("task m { return 1; }", 1, 16, 1, "B1", "expected `;`, found the number 1; a body gives no value"),
    ("task m { return -exinf; }", 1, 16, 1, "B1", "expected `;`, found `-`; a body gives no value"),
    ("task m { return\nexinf = 1; }", 1, 16, 1, "B1", "expected `;`, found the name `exinf`"),
    ("task m { put(1); var x; }", 1, 18, 3, "B1",
     "variables are declared at the head of a body, before its statements"),
    ("task m { put(act_tsk(1)); }", 1, 14, 7, "B1",
     "a service call is a statement, and no part of an expression; `x = act_tsk(..);` keeps its answer"),
    ("task m { if (pol_sem(SEM) == E_OK) { } }", 1, 14, 7, "B1",
     "a service call is a statement, and no part of an expression; `x = pol_sem(..);` keeps its answer"),
    ("task m { exinf = pol_sem(SEM) == E_OK; }", 1, 30, 1, "B1",
     "expected `;`, found `==`; a service call stands alone, or alone to the right of `=`"),
    ("task m { wup_tks(1); }", 1, 10, 7, "B1", "`wup_tks` is not a service call; did you mean `wup_tsk`?"),
    ("task m { put(012); }", 1, 14, 3, "B1", "`012` " + OCTAL),
    ("task m { put(0b1); }", 1, 14, 3, "B1",
     "`0b1` is not a number; there are no binary numbers; a hexadecimal one is `0x` and its digits"),
    ("task m { var a[3; }", 1, 17, 1, "B1", "expected `]`, found `;`"),
    ("task m { var a[]; }", 1, 16, 1, "B1", "expected a number, 1 to 63, found `]`"),
    ("task m { var a[3]; put(a[1); }", 1, 27, 1, "B1", "expected an operator or `]`, found `)`"),
    ("task m { a[1 = 2; }", 1, 14, 1, "B1", "expected an operator or `]`, found `=`"),
    ("task m { a[1]; }", 1, 14, 1, "B1", "expected `=`, found `;`"),
    ("task m { a[put(1)] = 2; }", 1, 12, 3, "B1",
     "a service call is a statement, and no part of an expression; `x = put(..);` keeps its answer"),
    ("task m { put(1 << 2); }", 1, 17, 1, "B1",
     "there are no shifts; `x * 2` stands for `x << 1`, and `x / 2` for `x >> 1` if `x` is not negative"),
    ("task m { put(exinf->a); }", 1, 20, 1, "B1",
     "expected an operand: a number, a constant, a name or `(`, found `>`; there are no pointers and no structures"),
    ("task m { if (not exinf) { } }", 1, 18, 5, "B1",
     "expected an operator or `)`, found the name `exinf`; `!` negates"),
    ("task m { if (exinf <> 1) { } }", 1, 21, 1, "B1",
     "expected an operand: a number, a constant, a name or `(`, found `>`; `!=` is the operator for not equal"),
    ("task m { while exinf < 3 { } }", 1, 16, 5, "B1",
     "expected `(`, found the name `exinf`; a condition stands in parentheses"),
    ("task m { if (exinf === 1) { } }", 1, 22, 1, "B1",
     "expected an operand: a number, a constant, a name or `(`, found `=`; `==` compares"),
    ("task m { exinf := 1; }", 1, 16, 1, "B1", "no token begins with `:`; `=` gives a variable a value"),
    ("task m { var x: int; }", 1, 15, 1, "B1",
     "no token begins with `:`; there are no labels, and a variable has no type"),
    ("task m { if (exinf and 1) { } }", 1, 20, 3, "B1",
     "expected an operator or `)`, found the name `and`; `&&` is the operator for and, `||` that for or"),
    ("task m { var a[2] = { 1, 2 }; }", 1, 18, 1, "B1",
     "expected `;`, found `=`; a variable is 0 at first, and a statement gives it another value"),
    ("task m { rcv_dtq(1, 2); }", 1, 21, 1, "B1",
     "expected `&` and a variable, the out place of `rcv_dtq`, found the number 2"),
    ("task m { var put; }", 1, 14, 3, "B1", "expected the name of a variable, found the service call `put`" + RESERVED),
    ("task put { }", 1, 6, 3, "B1", "expected the name of a body, found the service call `put`" + RESERVED),
    ("put(1);", 1, 1, 3, "B1", "expected `task` or `handler`, found the service call `put`"),
    ("\ufefftask m { }", 1, 1, 1, "B1", "a byte order mark stands here; save the text without it"),
    ("task m { put(1);\u00a0}", 1, 17, 1, "B1", "a no-break space stands here" + SEPARATED),
    ("task m {\u200b }", 1, 9, 1, "B1", "an invisible character stands here" + SEPARATED),
    ("task m { put(1 \u2013 2); }", 1, 16, 1, "B1", "a dash stands here; minus is written `-`"),
    ("task m { put(\u201cx\u201d); }", 1, 14, 1, "B1",
     "a quotation mark stands here; there are no strings, and `put` prints a number"),
    ("task m { var gr\u00f6\u00dfe; }", 1, 16, 1, "B1",
     "no token begins with a byte of value 195; names are of ASCII letters"),
    ("task m { var Ma\u00df; }", 1, 16, 1, "B1",
     "no token begins with a byte of value 195; names are of ASCII letters"),
    ("task m { put(\u00e9t\u00e9); }", 1, 14, 1, "B1",
     "no token begins with a byte of value 195; names are of ASCII letters"),
    ("task m { /* \u00e9\u6f22\u5b57 */ put(1) }", 1, 31, 1, "B1", "expected `;`, found `}`"),
    ("task m { put(1); } \u20ac", 1, 20, 1, "B1", "no token begins with a byte of value 226"),
    ("task m { put(2147483648); }", 1, 14, 10, "B5", "`2147483648` " + GREAT),
    ("task m { put([41 times: 9]); }", 1, 14, 41, "B5", "a number of 41 characters " + GREAT),
    ("task a_name_of_more_than_31_bytes_is_a_fault { }", 1, 6, 39, "B5", LONG_NAME),
    ("task m { put([65 times: (]1[65 times: )]); }", 1, 78, 1, "B5",
     "this opens level 65 of nesting; there are at most 64"),
    ("task m { }\nhandler m { }", 2, 9, 1, "B2", "`m` is the name of a body already, at line 1"),
    ("task m { var x;\nvar x; }", 2, 5, 1, "B2", "`x` is the name of a variable of this body already, at line 1"),
    ("task m { var exinf; }", 1, 14, 5, "B2", "`exinf` is the name of the first variable of each body"),
    ("task m { var SEM; }", 1, 14, 3, "B2", "`SEM` is the name of an object of the configuration, at line 1"),
    ("task m { put(\nx); }", 2, 1, 1, "B3", "`x` is neither a variable of this body, an object nor a constant"),
    ("task m { var level; put(levle); }", 1, 25, 5, "B3",
     "`levle` is neither a variable of this body, an object nor a constant; did you mean `level`?"),
    ("task m { var loop; put(lopo); }", 1, 24, 4, "B3",
     "`lopo` is neither a variable of this body, an object nor a constant; did you mean `loop`?"),
    ("task m { put(sem); }", 1, 14, 3, "B3",
     "`sem` is neither a variable of this body, an object nor a constant; did you mean `SEM`?"),
    ("task m { act_tsk(SELF); }", 1, 18, 4, "B3",
     "`SELF` is neither a variable of this body, an object nor a constant; did you mean `TSK_SELF`?"),
    ("task m { tslp_tsk(TMO_FOREVER); }", 1, 19, 11, "B3",
     "`TMO_FOREVER` is neither a variable of this body, an object nor a constant; did you mean `TMO_FEVR`?"),
    ("task m { tslp_tsk(TMO_FEVER); }", 1, 19, 9, "B3",
     "`TMO_FEVER` is neither a variable of this body, an object nor a constant; did you mean `TMO_FEVR`?"),
    ("task m { while (true) { put(1); } }", 1, 17, 4, "B3",
     "`true` is neither a variable of this body, an object nor a constant; 1 is true, and 0 is false"),
    ("task m { put(LF); }", 1, 14, 2, "B3", "`LF` is neither a variable of this body, an object nor a constant"),
    ("task m { put(TA_ACTT); }", 1, 14, 7, "B3",
     "`TA_ACTT` is neither a variable of this body, an object nor a constant; did you mean `TA_ACT`?"),
    ("task run { act_tsk(run); }", 1, 20, 3, "B3",
     "`run` is a body; what stands here is a variable of this body, an object or a constant"),
    ("task m { x = 1; }", 1, 10, 1, "B3", "`x` is not a variable of this body" + DECLARED),
    ("task m { var level; levle = 1; }", 1, 21, 5, "B3",
     "`levle` is not a variable of this body; did you mean `level`?"),
    ("task m { SEM = 1; }", 1, 10, 3, "B3", "`SEM` is a semaphore; only a variable is written"),
    ("task m { get_tid(&SEM); }", 1, 19, 3, "B3", "`SEM` is a semaphore; only a variable is written"),
    ("task m {\n[64 times: var v#;\n]}", 65, 5, 3, "B5",
     "`v64` passes the 64 places of a body: `exinf` and a plain variable take 1, an array its length"),
    ("task m { var a[63]; var b; }", 1, 25, 1, "B5",
     "`b` passes the 64 places of a body: `exinf` and a plain variable take 1, an array its length"),
    ("task m { var a[0]; }", 1, 16, 1, "B5", "an array has 1 to 63 places"),
    ("task m { var a[3]; put(a); }", 1, 24, 1, "B9", "`a` is an array; an index in brackets must stand after it"),
    ("task m { var a[3]; get_tid(&a); }", 1, 29, 1, "B9",
     "`a` is an array; the out place of a call is a plain variable"),
    ("task m { var a[3]; a = put(1); }", 1, 20, 1, "B9",
     "`a` is an array; the answer of a call goes to a plain variable"),
    ("task m { var a[3]; a = 1; }", 1, 20, 1, "B9", "`a` is an array; an index in brackets must stand after it"),
    ("task m { var x; put(x[0]); }", 1, 21, 1, "B9", "`x` is not an array; only an array has an index"),
    ("task m { put(SEM[0]); }", 1, 14, 3, "B9", "`SEM` is not an array; only an array has an index"),
    ("task m { exinf[0] = 1; }", 1, 10, 5, "B9", "`exinf` is not an array; only an array has an index"),
    ("task m { SEM[0] = 1; }", 1, 10, 3, "B3", "`SEM` is a semaphore; only a variable is written"),
    ("[256 times: task t# { }\n]", 256, 1, 4, "B5", "this is the 256th body; a text has at most 255"),
    ("task ok { }\ntask long {\n[32768 times: put(1); ]}", 2, 1, 4, "B5", LONG_BODY),
    ("task deep {\nput([64 times: 1+(]1[64 times: )]); }", 1, 1, 4, "B5", DEEP_BODY),
]

INCLUDED = ("expected `NUM_PRC`, found the name `INCLUDE`; no file is included; `fmp_view import` reads a "
            "configuration of TOPPERS")
COUNT = "the initial count of `CRE_SEM` is 2; it must be 0 to 1"
PATTERN = "the attribute of `CRE_FLG` is 8; it must be " + FLAG
UNKNOWN = "is neither a variable of this body, an object nor a constant"

# A configuration and a task text with several faults; of each, in the order in which they are told: the file, the line,
# the column and the bytes that are marked; the code; the sentence.
SEVERAL = [
    ("INCLUDE(\"target.cfg\");", BODIES,
     ("t.cfg", 1, 1, 7, "B1", INCLUDED),
     ("t.cfg", 1, 23, 1, "B1", "expected `NUM_PRC`, but the text ends here")),
    ("#include <t_cfg.h>\nINCLUDE(\"a.cfg\");\nNUM_PRC(1);\nCLASS(TCL_1) { CRE_FLG(F, { 8, 0 }); }", BODIES,
     ("t.cfg", 1, 1, 1, "B1", "no token begins with `#`; there is no preprocessor"),
     ("t.cfg", 2, 1, 7, "B1", INCLUDED),
     ("t.cfg", 4, 29, 1, "B4 E_RSATR", PATTERN)),
    # Syntax comes before values, and no name is missed that stands in what is left out.
    ("NUM_PRC(2);\nCLASS(TCL_1) {\n  CRE_SEM(S, { 0, 2, 1 });\n  CRE_FLG(F, { 8, 0 });\n"
     "  CRE_ALM(A, { 0, 0, h });\n  CRE_DTQ(D, { 0, 256, NULL });\n}\n", "task m { wai_sem(S); put(none); }",
     ("t.cfg", 5, 3, 7, "B1", "`CRE_ALM` is left out on purpose: there are no alarm handlers"),
     ("t.cfg", 3, 19, 1, "B4 E_PAR", COUNT),
     ("t.cfg", 4, 16, 1, "B4 E_RSATR", PATTERN),
     ("t.cfg", 6, 19, 3, "B4 E_PAR", "the capacity of `CRE_DTQ` is 256; it must be 0 to 255")),
    # A missing semicolon takes no more than its own static API.
    ("NUM_PRC(1);\nCLASS(TCL_1) {\nCRE_SEM(S, { 0, 0, 1 })\nCRE_FLG(F, { 8, 0 });\n}", BODIES,
     ("t.cfg", 3, 24, 1, "B1", "expected `;`, found the static API `CRE_FLG`"),
     ("t.cfg", 4, 14, 1, "B4 E_RSATR", PATTERN)),
    ("NUM_PRC(1);\nCLASS(TCL_1) {\nCRE_SEM(S, { 0, 0, 1 }) }\nCLASS(TCL_1) { CRE_FLG(F, { 8, 0 }); }", BODIES,
     ("t.cfg", 3, 24, 1, "B1", "expected `;`, found `}`"),
     ("t.cfg", 4, 29, 1, "B4 E_RSATR", PATTERN)),
    # A class is left out whole: one that there is not, or that is not closed.
    ("NUM_PRC(1);\nCLASS(MAIN) {\nCRE_SEM(S, { 0, 2, 1 });\n}\nCLASS(TCL_1) {\nCRE_FLG(F, { 8, 0 });\n}", BODIES,
     ("t.cfg", 2, 7, 4, "B3", "there is no class `MAIN`: with 1 processor they are `TCL_1` and `TCL_1_ONLY`"),
     ("t.cfg", 6, 14, 1, "B4 E_RSATR", PATTERN)),
    ("NUM_PRC(1);\nCLASS(TCL_1) {\nCRE_SEM(S, { 0, 2, 1 });\nCLASS(TCL_1) {\nCRE_FLG(F, { 8, 0 });\n}", BODIES,
     ("t.cfg", 4, 1, 5, "B1",
      "expected a static API or `}`, found `CLASS`; the class `TCL_1` at line 2 is not closed"),
     ("t.cfg", 5, 14, 1, "B4 E_RSATR", PATTERN)),
    # So too a class whose heading has no `{`, or is not closed: what stands in it is no fault.
    ("NUM_PRC(1);\nCLASS(TCL_1)\n    CRE_SEM(S, { 0, 2, 1 });\n    CRE_FLG(F, { 0, 0 });\n}\n"
     "CLASS(TCL_1) {\nCRE_FLG(G, { 8, 0 });\n}", "task m { put(S); }",
     ("t.cfg", 3, 5, 7, "B1", "expected `{`, found the static API `CRE_SEM`"),
     ("t.cfg", 7, 14, 1, "B4 E_RSATR", PATTERN)),
    ("NUM_PRC(1);\nCLASS(TCL_1 {\nCRE_SEM(S, { 0, 2, 1 });\n}\nCLASS(TCL_1) {\nCRE_FLG(G, { 8, 0 });\n}", BODIES,
     ("t.cfg", 2, 13, 1, "B1", "expected `)`, found `{`"),
     ("t.cfg", 6, 14, 1, "B4 E_RSATR", PATTERN)),
    # Statements; `y` has no meaning, and `x` has one in what is left out.
    (OBJECT, "task m {\n    var x = 1;\n    x = x + ;\n    put(x);\n    put(y);\n    wup_tks(1);\n}\n",
     ("t.src", 2, 10, 1, "B1",
      "expected `;` or `[`, found `=`; a variable is 0 at first, and a statement gives it another value"),
     ("t.src", 3, 13, 1, "B1", "expected an operand: a number, a constant, a name or `(`, found `;`"),
     ("t.src", 6, 5, 7, "B1", "`wup_tks` is not a service call; did you mean `wup_tsk`?"),
     ("t.src", 5, 9, 1, "B3", "`y` " + UNKNOWN)),
    (OBJECT, "task m {\n    for (exinf = 0; exinf < 3; ) { put(1); }\n    do { } while (1);\n    put(1.5);\n"
     "    if (exinf = 1) { } else { put(y); }\n    put(\"a;b\");\n    put(z);\n}",
     ("t.src", 2, 5, 3, "B1", "`for` is left out on purpose: the only loop is `while`"),
     ("t.src", 3, 5, 2, "B1", "`do` is left out on purpose: the only loop is `while`"),
     ("t.src", 4, 10, 1, "B1", "no token begins with `.`; numbers are whole, and there are no structures"),
     ("t.src", 5, 15, 1, "B1", "expected an operator or `)`, found `=`; `==` compares"),
     ("t.src", 6, 9, 1, "B1", "no token begins with `\"`; there are no strings, and `put` prints a number"),
     ("t.src", 7, 9, 1, "B3", "`z` " + UNKNOWN)),
    # A list of values is left out with its semicolon.
    (OBJECT, "task m {\n    var a[2] = { 1, 2 };\n    put(y);\n}\n",
     ("t.src", 2, 13, 1, "B1",
      "expected `;`, found `=`; a variable is 0 at first, and a statement gives it another value"),
     ("t.src", 3, 9, 1, "B3", "`y` " + UNKNOWN)),
    # What stands between bodies, a heading, and a body that is not closed.
    (OBJECT, "void f(void) { g(); }\nint n;\ntask m { x++; }\ntask k() { put(x); }\nhandler h { put(y); }",
     ("t.src", 1, 1, 4, "B1", FUNCTION),
     ("t.src", 3, 11, 1, "B1", "expected `=` or `[`, found `+`" + ASSIGNED),
     ("t.src", 4, 7, 1, "B1", PARAMETERS),
     ("t.src", 5, 17, 1, "B3", "`y` " + UNKNOWN)),
    (OBJECT, "task m {\n    while (1) {\n        put(1);\n}\ntask n { put(y); }\n",
     ("t.src", 5, 1, 4, "B1",
      "expected a statement or `}`, found `task`; the `{` at line 1 is not closed"),
     ("t.src", 5, 14, 1, "B3", "`y` " + UNKNOWN)),
    # An entry without a body comes last, with those after it.
    (ONE + "\nCRE_TSK(T, { 0, 0, gone, 1, 64, NULL });\nCRE_TSK(U, { 0, 0, lost, 1, 64, NULL }); }",
     "task m { act_tsk(T); }",
     ("t.cfg", 2, 20, 4, "B3", "no body of the task text has the name `gone`"),
     ("t.cfg", 3, 20, 4, "B3", "no body of the task text has the name `lost`")),
    # A shared word is written by a call.
    (ONE + "CRE_SHR(LEVEL, { 0 }); }", "task m { LEVEL = 1; }",
     ("t.src", 1, 10, 5, "B3", "`LEVEL` is a shared word; `st_shr` writes it")),
    (ONE + "CRE_DTQ(Q, { 0, 1, NULL }); CRE_SHR(LEVEL, { 0 }); }", "task m { Q = rcv_dtq(Q, &LEVEL); }",
     ("t.src", 1, 10, 1, "B3", "`Q` is a data queue; only a variable is written")),
    # At most 20 are told.
    (OBJECT, "task m {\n[25 times: put();\n]}",
     *[("t.src", line, 5, 1, "B1", "expected an expression, argument 1 of `put`, found `)`") for line in range(2, 22)]),
]

TASK = ONE + "CRE_TSK(T, { TA_ACT, 0, m, 1, 64, NULL });"
SEM_AND_FLAG = TASK + "\nCRE_SEM(S, { 0, 1, 1 });\nCRE_FLG(F, { 0, 0 }); }"
WITH_HANDLER = TASK + " CRE_SEM(S, { 0, 1, 1 });\nDEF_INH(1, { 0, h }); }"

WITH_WORD = TASK + " CRE_SHR(VALUE, { 0 }); }"
SHARED = "`VALUE` is the number of a shared word here; `ld_shr` reads its value"
WITH_LOCKS = TASK + " CRE_SPN(L, { 0 }); CRE_SPN(M, { 0 }); }"
ON_TWO = "NUM_PRC(2); CLASS(TCL_1) { CRE_TSK(T, { TA_ACT, 0, m, 1, 64, NULL });\nCRE_SEM(S, { 0, 1, 1 });\n" \
    "CRE_FLG(F, { 0, 0 }); }"
WITH_LOCK_AND_SEM = TASK + " CRE_SPN(L, { 0 }); CRE_SEM(S, { 0, 1, 1 }); }"
WITH_LOCK_AND_BODIES = ONE + "".join(f"CRE_TSK(TASK_{body}, {{ TA_ACT, 0, {body}, 1, 64, NULL }});\n"
                                     for body in "mnopqrstuvwx") + "CRE_SPN(L, { 0 }); }"
DIVISION = "the divisor is 0: this is F_DIV"
CHAIN = "this compares the outcome of a comparison, 0 or 1; `&&` joins two comparisons"
MIXED = "a comparison binds tighter than `&`, `|` and `^`: parentheses tell what is meant"
ENDLESS = "nothing in this loop ends it: it makes no call, has no jump out, and does not change its condition"

# Texts without a fault: the configuration, the bodies, and of each warning the file, the line, the column, the bytes
# that are marked and the sentence.
WARNINGS = [
    (OBJECT, "", ("t.cfg", 1, 36, 3, "`SEM` is not named in the task text")),
    (TASK + " CRE_SEM(S, { 0, 1, 1 }); }",
     "task m {\n    wai_sem(S);\n    wai_sem(1);\n    sig_sem(T);\n}\nhandler idle { }\n",
     ("t.src", 3, 13, 1, "the argument 1 is not a name; `wai_sem` takes a semaphore"),
     ("t.src", 4, 13, 1, "`T` is a task; `sig_sem` takes a semaphore"),
     ("t.src", 6, 9, 4, "no static API names the body `idle`")),
    (SEM_AND_FLAG,
     "task m {\n    wai_sem(S);\n    set_flg(F, 1);\n    sig_sem(-1);\n    set_flg(E_OK, F);\n    ter_tsk(0);\n"
     "    dly_tsk(S);\n    act_tsk(TSK_SELF);\n}\n",
     ("t.src", 4, 13, 2, "the argument -1 is not a name; `sig_sem` takes a semaphore"),
     ("t.src", 5, 13, 4, "the constant `E_OK` is not an object; `set_flg` takes an eventflag"),
     ("t.src", 5, 19, 1, "`F` is an eventflag; `set_flg` takes a bit pattern"),
     ("t.src", 6, 13, 1, "the argument 0 is not a name; `ter_tsk` takes a task"),
     ("t.src", 7, 13, 1, "`S` is a semaphore; `dly_tsk` takes a time")),
    (SEM_AND_FLAG, "task m {\n    wai_sem(S);\n    clr_flg(F, 0);\n    set_flg(1, 1);\n}\n",
     ("t.src", 4, 13, 1, "the argument 1 is not a name; `set_flg` takes an eventflag"),
     ("t.cfg", 2, 9, 1, "`S` is a semaphore that nothing signals")),
    (ONE + "CRE_TSK(T, { 0, 0, m, 1, 64, NULL });\nCRE_FLG(F, { 0, 0 }); }",
     "task m { var x; clr_flg(F, 1); slp_tsk(); x = TSK_SELF; wup_tsk(0); }",
     ("t.cfg", 1, 36, 1, "`T` is not started at setup, and no body names it"),
     ("t.cfg", 2, 9, 1, "`F` is an eventflag that nothing sets")),
    (TASK + " CRE_SEM(S, { 0, 1, 1 }); }", "task m { var s; s = S; wai_sem(S); sig_sem(s); }"),
    # An object that a variable or an expression may give needs no name.
    (SEM_AND_FLAG, "task m {\n    wai_sem(exinf);\n    sig_sem(exinf + 1);\n}\n",
     ("t.cfg", 3, 9, 1, "`F` is not named in the task text")),
    (SEM_AND_FLAG, "task m {\n    wai_sem(exinf);\n    set_flg(F, 1);\n}\n",
     ("t.cfg", 2, 9, 1, "`S` is a semaphore that nothing signals")),
    (TASK + " CRE_TSK(U, { 0, 1, m, 1, 64, NULL }); }", "task m { if (exinf == 0) { act_tsk(exinf + 2); } }"),
    (TASK + "\nCRE_TSK(U, { 0, 1, m, 1, 64, NULL }); }", "task m { chg_pri(TSK_SELF, 2); }",
     ("t.cfg", 2, 9, 1, "`U` is not started at setup, and no body names it")),
    (TASK + " }", "task m {\n    var a[3];\n    a[2] = 1;\n    a[3] = 1;\n    put(a[-1] + a[0 + 3]);\n}\n",
     ("t.src", 4, 7, 1, "the index 3 of `a` is out of range: the array has 3 places"),
     ("t.src", 5, 11, 2, "the index -1 of `a` is out of range: the array has 3 places")),
    (WITH_HANDLER,
     "task m {\n    isig_sem(S);\n    irot_rdq(TPRI_SELF);\n    loc_cpu();\n    put(1);\n}\n"
     "handler h {\n    var x;\n    sig_sem(S);\n    wai_sem(S);\n    x = act_tsk(1);\n    loc_cpu();\n    put(1);\n"
     "    isig_sem(S);\n}\n",
     ("t.src", 2, 5, 8, "`isig_sem` answers E_CTX in a task; there it is `sig_sem`"),
     ("t.src", 3, 5, 8, "`irot_rdq` answers E_CTX in a task; there it is `rot_rdq`"),
     ("t.src", 9, 5, 7, "`sig_sem` answers E_CTX in a handler; there it is `isig_sem`"),
     ("t.src", 10, 5, 7, "`wai_sem` answers E_CTX in a handler"),
     ("t.src", 11, 9, 7, "`act_tsk` answers E_CTX in a handler; there it is `iact_tsk`"),
     ("t.src", 11, 17, 1, "the argument 1 is not a name; `act_tsk` takes a task"),
     ("t.src", 12, 5, 7, "`loc_cpu` answers E_CTX in a handler"),
     ("t.src", 6, 1, 1, "the task ends here while the CPU is locked by line 4")),
    (WITH_HANDLER,
     "task m {\n    sig_sem(S);\n    mrot_rdq(TPRI_SELF, 1);\n    mrot_rdq(S, S);\n}\n"
     "handler h { mrot_rdq(1, 1); }\n",
     ("t.src", 4, 14, 1, "`S` is a semaphore; `mrot_rdq` takes a priority"),
     ("t.src", 4, 17, 1, "`S` is a semaphore; `mrot_rdq` takes a processor"),
     ("t.src", 6, 13, 8, "`mrot_rdq` answers E_CTX in a handler")),
    (WITH_WORD,
     "task m {\n    var v;\n    if (VALUE > 50) { put(VALUE); }\n    ld_shr(VALUE, &v);\n    ld_shr(VALUE + v, &v);\n"
     "    st_shr(VALUE, VALUE + 1);\n    dly_tsk(VALUE);\n    dly_tsk(VALUE + 1);\n    v = VALUE;\n}\n",
     ("t.src", 3, 9, 5, SHARED),
     ("t.src", 3, 27, 5, SHARED),
     ("t.src", 6, 19, 5, SHARED),
     ("t.src", 7, 13, 5, "`VALUE` is a shared word; `dly_tsk` takes a time"),
     ("t.src", 8, 13, 5, SHARED),
     ("t.src", 9, 9, 5, SHARED)),
    (ON_TWO,
     "task m {\n    var v;\n    dly_tsk(-1);\n    tslp_tsk(-2);\n    twai_sem(S, 0x40000001);\n    chg_pri(T, 17);\n"
     "    mig_tsk(T, 3);\n    set_flg(F, 65536);\n    wai_flg(F, 0, 2, &v);\n    dly_tsk(TMO_FEVR);\n    sig_sem(S);\n"
     "    dly_tsk(0x40000000);\n    tslp_tsk(TMO_FEVR);\n    chg_pri(T, 16);\n    mig_tsk(T, 2);\n    clr_flg(F, 0);\n"
     "    twai_flg(F, 65535, TWF_ORW, &v, TMO_POL);\n}\n",
     ("t.src", 3, 13, 2, "the argument -1 is out of range; `dly_tsk` takes a time, 0 to 1073741824"),
     ("t.src", 4, 14, 2, "the argument -2 is out of range; `tslp_tsk` takes a time, -1 to 1073741824"),
     ("t.src", 5, 17, 10, "the argument 1073741825 is out of range; `twai_sem` takes a time, -1 to 1073741824"),
     ("t.src", 6, 16, 2, "the argument 17 is out of range; `chg_pri` takes a priority, 0 to 16"),
     ("t.src", 7, 16, 1, "the argument 3 is out of range; `mig_tsk` takes a processor, 1 to 2"),
     ("t.src", 8, 16, 5, "the argument 65536 is out of range; `set_flg` takes a bit pattern, 0 to 65535"),
     ("t.src", 9, 16, 1, "the argument 0 is out of range; `wai_flg` takes a bit pattern, 1 to 65535"),
     ("t.src", 9, 19, 1, "the argument 2 is out of range; `wai_flg` takes `TWF_ANDW` or `TWF_ORW`, 0 to 1"),
     ("t.src", 10, 13, 8, "the argument -1 is out of range; `dly_tsk` takes a time, 0 to 1073741824"),
     ("t.src", 17, 17, 5, "nothing sets the bits 0xffff of `F`, for which `twai_flg` waits")),
    (TASK + " }",
     "task m {\n    var i;\n    var a[2];\n    while (1) { }\n    while (i < 3) { i = i + 1; }\n"
     "    while (i == 0) { put(i); }\n    while (exinf) {\n        while (i < 9) { exinf = 1; }\n    }\n"
     "    while (1) { if (i) { break; } }\n    while (1) { if (i) { return; } }\n    while (a[0]) { a[1] = 0; }\n"
     "    while (0) { }\n    while (1) { i = 1 / i; }\n    while (1) { i = i / 2; }\n}\n",
     ("t.src", 4, 5, 5, ENDLESS),
     ("t.src", 8, 9, 5, ENDLESS),
     ("t.src", 15, 5, 5, ENDLESS)),
    (WITH_LOCKS,
     "task m {\n    loc_spn(L);\n    loc_spn(M);\n    unl_spn(L);\n    loc_spn(M);\n"
     "    if (exinf) { try_spn(L); unl_spn(M); }\n    if (exinf) { loc_spn(L); } else { loc_spn(M); }\n}\n",
     ("t.src", 3, 5, 7, "`loc_spn` answers E_CTX here: the spin lock that line 2 takes is held"),
     ("t.src", 6, 18, 7, "`try_spn` answers E_CTX here: the spin lock that line 5 takes is held"),
     ("t.src", 8, 1, 1, "the task may end here while the spin lock that line 7 takes is held")),
    # A lock that one way of an `if` takes: not where that way, or anything after it, gives it back, ends or loops.
    (WITH_LOCK_AND_BODIES,
     "task m {\n    if (exinf) { loc_cpu(); }\n    put(1);\n}\n"
     "task n { if (exinf) { if (exinf == 1) { loc_spn(L); } put(1); } else { put(2); } }\n"
     "task o { if (exinf) { loc_spn(L); } else { put(1); } unl_spn(L); }\n"
     "task p { if (exinf) { loc_spn(L); put(1); unl_spn(L); } put(2); }\n"
     "task q { while (exinf) { if (exinf == 1) { loc_cpu(); } } }\n"
     "task r { if (exinf) { loc_cpu(); while (1) { put(1); } } }\n"
     "task s { if (exinf) { loc_cpu(); } while (exinf) { put(1); } }\n"
     "task t { if (exinf) { dis_dsp(); } put(1); }\n"
     "task u { var x; if (exinf) { x = loc_spn(L); } put(x); }\n"
     "task v { if (exinf) { put(1); } else { loc_cpu(); } }\n"
     "task w { if (exinf) { loc_cpu(); } else { return; } unl_cpu(); }\n"
     "task x { while (exinf) { loc_cpu(); } }\n",
     ("t.src", 4, 1, 1, "the task may end here while the CPU is locked by line 2"),
     ("t.src", 5, 82, 1, "the task may end here while the spin lock that line 5 takes is held"),
     ("t.src", 13, 53, 1, "the task may end here while the CPU is locked by line 13")),
    (ONE + "CRE_TSK(T, { TA_STA, TMO_FEVR, m, 1, 64, NULL });\nCRE_MBX(X, { TA_TPRI | TA_ACT, 1, NULL });\n"
     "CRE_SEM(S, { TA_NULL, TA_TPRI, 1 });\nCRE_SHR(W, { TA_ACT }); }",
     "task m { var v; rcv_mbx(X, &v); wai_sem(S); sig_sem(S); ld_shr(W, &v); }",
     ("t.cfg", 1, 41, 6, "`TA_STA` is not an attribute of `CRE_TSK`; its attribute must be 0 or `TA_ACT`"),
     ("t.cfg", 2, 24, 6,
      "`TA_ACT` is not an attribute of `CRE_MBX`; its attribute must be made of `TA_TPRI` and `TA_MPRI`, 0 to 3"),
     ("t.cfg", 3, 23, 7, "`TA_TPRI` is an attribute, but it stands for the initial count of `CRE_SEM`"),
     ("t.cfg", 2, 9, 1, "`X` is a mailbox that nothing sends to")),
    # Expressions that fault, and comparisons of a comparison: not where a sum is of more than two numbers.
    (TASK + " }",
     "task m {\n    var x;\n    x = x / 0;\n    x = x % TA_NULL + 1;\n    put(1 < x < 3);\n    put(1 < x && x < 3);\n"
     "    put((1 < x) < 3);\n    put(2147483647 + 1);\n    put(x - 2147483647 + 1);\n    put(x + 65536 * 32768);\n"
     "    put(65536 * 32767);\n    put(1 + 2147483647 / 2);\n    put(0 <= x + (x < 3) * 2 >= x);\n"
     "    put(1 || 1 / 0);\n    x = 0 && x / 0;\n    put(0 || 1 / 0);\n}\n",
     ("t.src", 3, 13, 1, DIVISION),
     ("t.src", 4, 13, 7, DIVISION),
     ("t.src", 5, 15, 1, CHAIN),
     ("t.src", 8, 20, 1, "2147483647 + 1 does not fit into 32 bits: this is F_OVF"),
     ("t.src", 10, 19, 1, "65536 * 32768 does not fit into 32 bits: this is F_OVF"),
     ("t.src", 13, 30, 2, CHAIN),
     ("t.src", 16, 18, 1, DIVISION)),
    # So too of `==` and `!=`, of which an order is an operand: not in parentheses.
    (TASK + " }",
     "task m {\n    var x;\n    if (x == exinf == 1) { put(1); }\n    put(x == 1 != exinf);\n"
     "    put((x == 1) == exinf);\n    put(x < 3 == exinf);\n    put(exinf == x < 3);\n"
     "    put(x < 3 == exinf < 3);\n    put(x == 1 && exinf == 1);\n    put((x < 3) == (exinf < 3));\n}\n",
     ("t.src", 3, 20, 2, CHAIN),
     ("t.src", 4, 16, 2, CHAIN),
     ("t.src", 6, 15, 2, CHAIN),
     ("t.src", 7, 15, 2, CHAIN),
     ("t.src", 8, 15, 2, CHAIN)),
    # Comparisons as operands of `&`, `|` and `^`: not in parentheses.
    (TASK + " }",
     "task m {\n    var x;\n    if (x & 1 == 1) { put(1); }\n    if ((x & 1) == 1) { put(1); }\n"
     "    x = 1 < x | x;\n    put(x ^ (x != 1) + 2 * x >= 3);\n    if (x == 1 && x & 2) { put(2); }\n"
     "    x = (x == 1) & (x < 3);\n}\n",
     ("t.src", 3, 15, 2, MIXED),
     ("t.src", 5, 11, 1, MIXED),
     ("t.src", 6, 30, 2, MIXED)),
    # Statements after a jump.
    (TASK + " }",
     "task m {\n    while (exinf) {\n        if (exinf == 1) { break; put(1); }\n        continue;\n        put(2);\n"
     "    }\n    if (exinf) { ext_tsk(); put(3); }\n    return;\n    put(4);\n}\n",
     ("t.src", 3, 34, 3, "nothing reaches this statement: `break` stands before it"),
     ("t.src", 5, 9, 3, "nothing reaches this statement: `continue` stands before it"),
     ("t.src", 7, 29, 3, "nothing reaches this statement: `ext_tsk` stands before it"),
     ("t.src", 9, 5, 3, "nothing reaches this statement: `return` stands before it")),
    # What a task holds bars calls, and is given back before the task ends.
    (WITH_LOCK_AND_SEM,
     "task m {\n    wai_sem(S);\n    loc_spn(L);\n    sig_sem(S);\n    if (exinf) { return; }\n    unl_spn(L);\n"
     "    dis_dsp();\n    sig_sem(S);\n    wai_sem(S);\n    ena_dsp();\n    loc_cpu();\n    put(1);\n    dly_tsk(1);\n"
     "    if (exinf) { unl_cpu(); }\n    wai_sem(S);\n    loc_cpu();\n}\n",
     ("t.src", 4, 5, 7, "`sig_sem` answers E_CTX here: the spin lock that line 3 takes is held"),
     ("t.src", 5, 18, 6, "the task ends here while the spin lock that line 3 takes is held"),
     ("t.src", 9, 5, 7, "`wai_sem` answers E_CTX here: dispatching is disabled by line 7"),
     ("t.src", 13, 5, 7, "`dly_tsk` answers E_CTX here: the CPU is locked by line 11"),
     ("t.src", 17, 1, 1, "the task ends here while the CPU is locked by line 16")),
    # Each way of an `if` gives back what is held before it, or one of them leaves that out.
    (WITH_LOCK_AND_BODIES,
     "task m {\n    loc_spn(L);\n    if (exinf) {\n        unl_spn(L);\n    }\n}\n"
     "task n { loc_cpu(); if (exinf) { unl_cpu(); } else if (exinf == 1) { put(1); } else { unl_cpu(); } }\n"
     "task o { loc_spn(L); if (exinf) { if (exinf == 1) { unl_spn(L); } else { unl_spn(L); } } }\n"
     "task p { loc_spn(L); if (exinf) { unl_spn(L); } else { unl_spn(L); } }\n"
     "task q { loc_spn(L); if (exinf) { unl_spn(L); return; } unl_spn(L); }\n"
     "task r { loc_spn(L); if (exinf) { unl_spn(L); } if (!exinf) { unl_spn(L); } }\n"
     "task s { while (1) { loc_cpu(); if (exinf) { unl_cpu(); } else { unl_cpu(); } } }\n"
     "task t { loc_cpu(); while (exinf) { if (exinf == 1) { unl_cpu(); break; } } }\n"
     "task u { loc_spn(L); if (exinf) { unl_spn(L); } while (1) { put(1); } }\n"
     "task v { loc_spn(L); if (exinf) { while (1) { put(1); } } else { unl_spn(L); } }\n"
     "task w { if (exinf) { loc_spn(L); } if (exinf) { unl_spn(L); } }\n"
     "task x { dis_dsp(); if (exinf) { ena_dsp(); } put(1); }\n",
     ("t.src", 6, 1, 1, "the task may end here while the spin lock that line 2 takes is held"),
     ("t.src", 7, 100, 1, "the task may end here while the CPU is locked by line 7"),
     ("t.src", 8, 90, 1, "the task may end here while the spin lock that line 8 takes is held")),
    (WITH_LOCK_AND_SEM,
     "task m {\n    var x;\n    x = loc_spn(L);\n    if (x != E_OK) { return; }\n    unl_spn(L);\n    dis_dsp();\n"
     "    if (exinf) { ena_dsp(); }\n    wai_sem(S);\n    sig_sem(S);\n    dis_dsp();\n    pol_sem(S);\n}\n"),
    (WITH_LOCK_AND_SEM, "task m { wai_sem(S); sig_sem(S); loc_spn(L); while (1) { put(1); } }"),
    # A call that surely gives nothing back leaves a lock held: not where a part of the body may hold what it names.
    (WITH_LOCKS,
     "task m {\n    loc_spn(L);\n    unl_spn(M);\n    unl_cpu();\n    put(1);\n    slp_tsk();\n    ena_dsp();\n"
     "    wup_tsk(T);\n}\n",
     ("t.src", 3, 5, 7, "`unl_spn` answers E_ILUSE here: the spin lock that line 2 takes is held"),
     ("t.src", 4, 5, 7, "`unl_cpu` answers E_CTX here: the spin lock that line 2 takes is held"),
     ("t.src", 6, 5, 7, "`slp_tsk` answers E_CTX here: the spin lock that line 2 takes is held"),
     ("t.src", 7, 5, 7, "`ena_dsp` answers E_CTX here: the spin lock that line 2 takes is held"),
     ("t.src", 8, 5, 7, "`wup_tsk` answers E_CTX here: the spin lock that line 2 takes is held"),
     ("t.src", 9, 1, 1, "the task ends here while the spin lock that line 2 takes is held")),
    (WITH_LOCKS,
     "task m {\n    loc_spn(M);\n    put(1);\n    unl_spn(M);\n    loc_cpu();\n    unl_spn(M);\n    unl_cpu();\n"
     "    loc_spn(L);\n    unl_spn(M);\n}\n",
     ("t.src", 6, 5, 7, "`unl_spn` answers E_ILUSE here: the CPU is locked by line 5"),
     ("t.src", 9, 5, 7, "`unl_spn` answers E_ILUSE here: the spin lock that line 8 takes is held"),
     ("t.src", 10, 1, 1, "the task ends here while the spin lock that line 8 takes is held")),
    (WITH_LOCKS, "task m { while (exinf) { loc_spn(L); unl_spn(M); unl_spn(L); try_spn(M); } }"),
    (WITH_LOCKS, "task m { if (exinf) { loc_cpu(); } loc_spn(L); unl_cpu(); unl_spn(M); }"),
    (WITH_LOCKS, "task m { try_spn(exinf); loc_spn(L); unl_spn(M); }"),
    (WITH_LOCKS,
     "task m {\n    dis_dsp();\n    mig_tsk(TSK_SELF, 1);\n    sus_tsk(0);\n    mig_tsk(T, 1);\n    ena_dsp();\n"
     "    sus_tsk(0);\n    loc_spn(L);\n    unl_spn(L);\n    loc_spn(M);\n    unl_spn(M);\n}\n",
     ("t.src", 3, 5, 7, "`mig_tsk` answers E_CTX here: dispatching is disabled by line 2"),
     ("t.src", 4, 5, 7, "`sus_tsk` answers E_CTX here: dispatching is disabled by line 2")),
    # What a loop gives back is held in its first round, unless the loop takes it too. What an `if` passes over is left.
    (WITH_LOCK_AND_SEM,
     "task m {\n    var v;\n    loc_spn(L);\n    while (v < 3) {\n        try_spn(L);\n"
     "        if (v == 2) { sig_sem(S); return; }\n        unl_spn(L);\n        v = v + 1;\n    }\n    loc_spn(L);\n"
     "    while (v < 6) {\n        unl_spn(L);\n"
     "        loc_spn(L);\n        wai_sem(S);\n        v = v + 1;\n    }\n    unl_spn(L);\n    loc_cpu();\n"
     "    while (v < 9) { sig_sem(S); v = v + 1; }\n    unl_cpu();\n}\n",
     ("t.src", 5, 9, 7, "`try_spn` answers E_CTX here in the first round: the spin lock that line 3 takes is held"),
     ("t.src", 14, 9, 7, "`wai_sem` answers E_CTX here: the spin lock that line 13 takes is held"),
     ("t.src", 19, 21, 7, "`sig_sem` answers E_CTX here: the CPU is locked by line 18")),
    # Bits that nothing sets: all of them for TWF_ORW, some of them for TWF_ANDW. `pol_flg` does not wait.
    (TASK + "\nCRE_FLG(F, { 0, 1 }); CRE_FLG(G, { 0, 0 }); }",
     "task m {\n    var v;\n    set_flg(F, 2);\n    wai_flg(F, 7, TWF_ANDW, &v);\n    wai_flg(F, 7, TWF_ORW, &v);\n"
     "    wai_flg(F, 3, TWF_ANDW, &v);\n    pol_flg(F, 12, TWF_ORW, &v);\n    set_flg(G, v);\n"
     "    wai_flg(G, 8, TWF_ORW, &v);\n}\n",
     ("t.src", 4, 16, 1, "nothing sets the bits 0x4 of `F`, for which `wai_flg` waits")),
    # Sleeps that nothing ends.
    (ONE + "CRE_TSK(T, { TA_ACT, 0, m, 1, 64, NULL });\nCRE_TSK(U, { TA_ACT, 0, n, 1, 64, NULL }); }",
     "task m { slp_tsk(); }\ntask n { slp_tsk(); wup_tsk(U); tslp_tsk(1); }",
     ("t.src", 1, 10, 7, "nothing ends this sleep: no call wakes a task of this body")),
    (ONE + "CRE_TSK(T, { TA_ACT, 0, m, 1, 64, NULL }); CRE_TSK(U, { TA_ACT, 0, m, 1, 64, NULL }); }",
     "task m { slp_tsk(); ter_tsk(U); }"),
    # Queues of which one end is not used.
    (TASK + "\nCRE_DTQ(D, { 0, 1, NULL });\nCRE_DTQ(E, { 0, 1, NULL });\nCRE_MBX(X, { 0, 1, NULL });\n"
     "CRE_MBX(Y, { 0, 1, NULL });\nCRE_MSG(G, { 1 }); }",
     "task m { var v; snd_dtq(D, 1); prcv_dtq(E, &v); snd_mbx(X, G); rcv_mbx(Y, &v); }",
     ("t.cfg", 2, 9, 1, "`D` is a data queue that nothing receives from"),
     ("t.cfg", 3, 9, 1, "`E` is a data queue that nothing sends to"),
     ("t.cfg", 4, 9, 1, "`X` is a mailbox that nothing receives from"),
     ("t.cfg", 5, 9, 1, "`Y` is a mailbox that nothing sends to")),
    (TASK + " CRE_DTQ(D, { 0, 1, NULL }); }", "task m { var q; q = D; snd_dtq(q, 1); rcv_dtq(q, &q); }"),
]

# A system of two processors, whose texts have no fault and no warning.
TWO = "NUM_PRC(2); CLASS(TCL_1) { CRE_TSK(T, { TA_ACT, 0, m, 1, 64, NULL }); }", "task m { }"
FORMS = "; each line is `run P`, `tick` or `int I`"
RANGES = "the number is out of range; processors are numbered from 1 to 2, interrupts from 1 to 32"

# A steps text for that system; the line, the column and the bytes that are marked; the code; the sentence.
STEPS = [
    ("\ufeffrun 1\n", 1, 1, 3, "S1", "a byte order mark stands here" + FORMS),
    ("run 1\nrun 1\r\n", 2, 6, 1, "S1", "a carriage return stands here; lines end with a line feed alone" + FORMS),
    ("run 1 \n", 1, 6, 1, "S1", "a blank ends the line" + FORMS),
    ("tick\n\ttick\n", 2, 1, 1, "S1", "a blank begins the line" + FORMS),
    ("tick\n\ntick\n", 2, 1, 1, "S1", "the line is empty" + FORMS),
    ("run 01\n", 1, 5, 2, "S1", "the number begins with 0" + FORMS),
    ("run one\n", 1, 5, 3, "S1", "expected the number of a processor" + FORMS),
    ("int -1\n", 1, 5, 2, "S1", "expected the number of an interrupt" + FORMS),
    ("run \u00e9 1\n", 1, 5, 4, "S1", "expected the number of a processor" + FORMS),
    ("tick 1\n", 1, 5, 2, "S1",
     "expected the end of the line after `tick`; only a session takes a number there" + FORMS),
    ("ticks\n", 1, 5, 1, "S1", "expected the end of the line after `tick`" + FORMS),
    ("run 1 x3\n", 1, 6, 3, "S1", "only a session takes how often an event comes" + FORMS),
    ("# first\nrun 1\n", 1, 1, 7, "S1", "steps have no comments" + FORMS),
    ("run 1\nrun 1 // first\n", 2, 7, 8, "S1", "steps have no comments" + FORMS),
    ("run 1\nTick", 2, 1, 4, "S1", "this is not an event" + FORMS),
    ("NUM_PRC(1);\n", 1, 1, 11, "S1", "this is a configuration" + FORMS),
    ("task m { }\n", 1, 1, 10, "S1", "this is a task text" + FORMS),
    ("FMPI\x03\x00", 1, 1, 6, "S1", "this is an image" + FORMS),
    ("run 2\nrun 3\n", 2, 5, 1, "S2", RANGES),
    ("run 0\n", 1, 5, 1, "S2", RANGES),
    ("int 33\nrun 3\n", 1, 5, 2, "S2", RANGES),
    ("[1048576 times: tick\n]tick", 1048577, 1, 4, "S3",
     "this is one step too many; a run has at most 1048576 steps"),
]


# A control byte other than a tab is shown as its picture.
PICTURES = {byte: 0x2400 + byte for byte in range(32) if byte != 9} | {127: 0x2421}


class Finding(NamedTuple):
    """A fault or a warning: the file, its text, and what is said of it; `width` is that of the marks, in bytes."""

    name: str
    text: str
    line: int
    column: int
    width: int
    code: str
    sentence: str


def report(it):
    """What is printed of a finding: the head and the sentence, the line, and the marks under it, one a character."""
    head = f"{it.name}:{it.line}:{it.column}: {it.code}: {it.sentence}\n"
    whole = it.text.split("\n")[it.line - 1].removesuffix("\r")
    shown = whole.translate(PICTURES)
    if shown[:4] == "FMPI" and ord(shown[4:5] or " ") in PICTURES.values():  # an image has no lines
        return head
    first = it.column - 1
    before = whole.encode()[:first].decode()
    token = whole.encode()[first:first + it.width].decode(errors="ignore")
    marks = "".join("\t" if letter == "\t" else " " for letter in before) + "^" * max(1, len(token))
    if len(shown) > 100:
        assert it.column <= 47 or it.column == 78  # worked out for these alone
        begin = max(0, first - 47)
        marks = " " * (3 if begin else 0) + marks[begin:]
        shown = ("..." if begin else "") + shown[begin:begin + 94] + ("..." if begin + 94 < len(shown) else "")
    return f"{head}    {shown}\n    {marks}\n"


def findings():
    """Each case: the configuration, the bodies and the steps, the status, and what is found in them."""
    for row, *place in CONFIGURATIONS:
        text = expanded(row)
        yield (text, BODIES, ""), 1, [("t.cfg", text, *place)]
    for row, *place in SOURCES:
        text = expanded(row)
        yield (OBJECT, text, ""), 1, [("t.src", text, *place)]
    for row, body, *told in SEVERAL:
        texts = {"t.cfg": expanded(row), "t.src": expanded(body)}
        yield (texts["t.cfg"], texts["t.src"], ""), 1, [(name, texts[name], *place) for name, *place in told]
    for row, *place in STEPS:
        text = expanded(row)
        yield (*TWO, text), 1, [("t.steps", text, *place)]
    for cfg, src, *warnings in WARNINGS:
        texts = {"t.cfg": cfg, "t.src": src}
        yield (cfg, src, ""), 0, [(name, texts[name], *place, "warning", sentence)
                                  for name, *place, sentence in warnings]
    yield (*TWO, "run 1\ntick\nrun 2"), 0, []
    text = "int 9\nrun 1\nint 32\nint 9\n"
    yield (*TWO, text), 0, [("t.steps", text, line, 1, width, "warning",
                             f"no handler is defined for interrupt {number}: this line does nothing")
                            for line, width, number in ((1, 5, 9), (3, 6, 32))]
    text = "int 1\nint 2\n"
    yield (WITH_HANDLER, "task m { wai_sem(S); sig_sem(S); } handler h { }", text), 0, [
        ("t.steps", text, 2, 1, 5, "warning", "no handler is defined for interrupt 2: this line does nothing")]


def described(it):
    """What an object of JSON says of a finding."""
    return {"file": it.name, "line": it.line, "column": it.column, "end": it.column + it.width, "code": it.code,
            "sentence": it.sentence}


def answered(program, room):
    """Each case with what the program answers, and what it should."""
    for texts, status, found in findings():
        for name, text in zip(("t.cfg", "t.src", "t.steps"), texts):
            Path(room, name).write_text(text, encoding="utf-8", newline="")
        words = [program, "fault", "t.cfg", "t.src", *(["t.steps"] if texts[2] else [])]
        done = subprocess.run(words, cwd=room, capture_output=True)
        answer = done.returncode, done.stdout.decode(), done.stderr.decode()
        title = " ".join(repr(text[:200]) for text in texts)
        yield title, answer, (status, "".join(report(Finding(*it)) for it in found), "")
        done = subprocess.run([*words, "--json"], cwd=room, capture_output=True)
        answer = done.returncode, [json.loads(line) for line in done.stdout.splitlines()], done.stderr.decode()
        yield title + " as JSON", answer, (status, [described(Finding(*it)) for it in found], "")


def main():
    program, tally = program_of_words("Compares what `fmp_view fault` prints with rows.", "fmp_view"), Tally()
    with tempfile.TemporaryDirectory() as room:
        count, differ = tally.compare(answered(program, room))
    print(f"checks/program/faults.py: {count} texts compared, {differ} differ")
    return tally.status


if __name__ == "__main__":
    sys.exit(main())
