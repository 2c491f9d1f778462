"""Rows of texts: two texts, and what a check of them must answer."""

OBJECTS = "NUM_PRC(1); CLASS(TCL_1) { CRE_SHR(W,{0}); CRE_FLG(F,{0,0}); CRE_DTQ(D,{0,0,NULL}); }"
BODIES = "task m { } task T { } handler h { } task sum { put(1+2); }"

# In the next tables `~` stands for a line feed. A line without an arrow is a remark.

# Configurations, over the bodies that they name.
CONFIGURATIONS = """
NUM_PRC(1); => ok
NUM_PRC(9);~~~~; => cfg:5: B1
NUM_PRC(9); => cfg:1: B5
NUM_PRC(~0); => cfg:2: B5
NUM_PRC(9); CLASS(~TCL_10) { } => cfg:1: B5
NUM_PRC(1);~CLASS(TCL_1) {~CRE_SEM(S,{TA_TFIFO,2,1});~} => cfg:3: B4 E_PAR
NUM_PRC(2);~CLASS(TCL_1) { CRE_SEM(S,{0,0,1}); }~CLASS(TCL_2) { CRE_FLG(S,{0,0}); } => cfg:3: B2
NUM_PRC(2); CLASS(TCL_1) { DEF_INH(3,{0,h}); }~CLASS(TCL_2) {~DEF_INH(3,{0,h}); } => cfg:3: B4 E_OBJ
NUM_PRC(1); CLASS(TCL_1) {~DEF_INH(3,{0,h});~~DEF_INH(3,{0,h}); } => cfg:4: B4 E_OBJ
# The end of the text.
 => cfg:1: B1
NUM_PRC(1)~ => cfg:2: B1
NUM_PRC(1); CLASS(TCL_1) {~~ => cfg:3: B1
# The first fault of two; at one token its own.
NUM_PRC(1);~;2147483648 => cfg:2: B1
NUM_PRC(1);~2147483648 => cfg:2: B5
NUM_PRC(1);~$~; => cfg:2: B1
NUM_PRC(~2147483648; => cfg:2: B5
NUM_PRC(1);~DEF_INH(33,{0,h}); => cfg:2: B1
# Comments.
NUM_PRC(1);~/*/~ => cfg:2: B1
/*/ */ NUM_PRC(1); /* // */ // /* => ok
// a\rNUM_PRC(1); => cfg:1: B1
NUM_PRC(1); //\r; => ok
/* \x0b \u00e9 */NUM_PRC(1); => ok
# Other bytes.
NUM_PRC(1);~\x0b => cfg:2: B1
NUM_PRC(1);~\x0c => cfg:2: B1
NUM_PRC(1);~\x00 => cfg:2: B1
NUM_PRC(1);~\u00e9 => cfg:2: B1
\tNUM_PRC (\r~1 ) ;  => ok
# Names and words.
NUM_PRC(1);~a2345678901234567890123456789012 => cfg:2: B5
NUM_PRC(1); CLASS(E_OK) { } => cfg:1: B1
NUM_PRC(1); CLASS(put) { } => cfg:1: B1
num_prc(1); => cfg:1: B1
NUM_PRC(x); => cfg:1: B1
NUM_PRC(-1); => cfg:1: B1
# Classes.
NUM_PRC(1); CLASS(TCL_1) { } CLASS(TCL_1_ONLY) { } => ok
NUM_PRC(8); CLASS(TCL_8) { } CLASS(TCL_8_ONLY) { } => ok
NUM_PRC(1); CLASS(~TCL_2) { CRE_FLG(F,{9,0}); } => cfg:2: B3
NUM_PRC(8); CLASS(~TCL_9) { } => cfg:2: B3
NUM_PRC(8); CLASS(~TCL_0) { } => cfg:2: B3
NUM_PRC(8); CLASS(~TCL_01) { } => cfg:2: B3
NUM_PRC(8); CLASS(~TCL_1_only) { } => cfg:2: B3
NUM_PRC(8); CLASS(~TCL_1_ONLYX) { } => cfg:2: B3
NUM_PRC(8); CLASS(~TCL_) { } => cfg:2: B3
# One walk in order of text.
NUM_PRC(1); CLASS(TCL_1) {~CRE_FLG(F,{9,0}); } CLASS(~TCL_2) { } => cfg:2: B4 E_RSATR
NUM_PRC(1); CLASS(TCL_1) { } CLASS(~TCL_2) { } CLASS(TCL_1) {~CRE_FLG(F,{9,0}); } => cfg:2: B3
NUM_PRC(1); CLASS(TCL_1) { CRE_SHR(W,{0});~CRE_SHR(W,{X}); } => cfg:2: B2
NUM_PRC(1); CLASS(TCL_1) {~CRE_FLG(F,{9,~X}); } => cfg:2: B3
NUM_PRC(1); CLASS(TCL_1) { CRE_SHR(W,{0});~CRE_SHR(~~W,{0}); } => cfg:2: B2
NUM_PRC(1); CLASS(TCL_1) {~CRE_SHR(~a2345678901234567890123456789012,{0}); } => cfg:3: B5
"""

# What stands on line 2 of a configuration, in a class of one processor.
STATIC_APIS = """
DEF_INH(3,{TA_NULL|TA_HLNG,h}); => ok
~DEF_INH(33,{0,h}); => cfg:3: B4 E_PAR
CRE_SEM(S,{2,5,1}); => cfg:2: B4 E_RSATR
# Numbers.
CRE_SHR(W,{0xaF}); => ok
CRE_SHR(W,{0X1}); => cfg:2: B1
CRE_SHR(W,{0x}); => cfg:2: B1
CRE_SHR(W,{0xg}); => cfg:2: B1
CRE_SHR(W,{0x00000001}); => ok
CRE_SHR(W,{0x000000001}); => cfg:2: B5
CRE_SHR(W,{0x000000001g}); => cfg:2: B1
CRE_SHR(W,{0x7fffffff}); => ok
CRE_SHR(W,{0x80000000}); => cfg:2: B5
CRE_SHR(W,{2147483648}); => cfg:2: B5
CRE_SHR(W,{2147483648a}); => cfg:2: B1
CRE_SHR(W,{01}); => cfg:2: B1
# Values.
CRE_SHR(W,{-2147483647|E_SYS|1}); => ok
CRE_SHR(W,{- 1}); => ok
CRE_FLG(F,{0,-0}); => ok
CRE_SHR(W,{-TA_CLR}); => cfg:2: B1
CRE_SHR(W,{--1}); => cfg:2: B1
CRE_SHR(W,{0|}); => cfg:2: B1
CRE_SHR(W,{0||1}); => cfg:2: B1
CRE_SHR(W,{1+1}); => cfg:2: B1
# Names.
CRE_SHR(exinf,{0}); => ok
CRE_SHR(TCL_1,{0}); => ok
CRE_SHR(a234567890123456789012345678901,{0}); => ok
CRE_SHR(put,{0}); => cfg:2: B1
CRE_TSK(mrot_rdq,{0,0,m,1,1,NULL}); => cfg:2: B1
CRE_TSK(mrot_rdqs,{0,0,m,1,1,NULL}); => ok
CRE_SHR(while,{0}); => cfg:2: B1
CRE_SHR(E_OK,{0}); => cfg:2: B1
CRE_SHR(CRE_SHR,{0}); => cfg:2: B1
CRE_SHR(1,{0}); => cfg:2: B1
# The form of the packet.
CRE_FLG(F,{0~}); => cfg:3: B1
CRE_FLG(F,{0,0~,0}); => cfg:3: B1
CRE_FLG(F,{0,0},0); => cfg:2: B1
CRE_DTQ(D,{0,0~}); => cfg:3: B1
CRE_DTQ(D,{0,0,~0}); => cfg:3: B1
CRE_SPN(L,{NULL}); => cfg:2: B1
DEF_INH(1,{0,h|g}); => cfg:2: B1
DEF_INH(1,{0,7}); => cfg:2: B1
DEF_INH(1,{0,E_OK}); => cfg:2: B1
CFG_INT(1,{0,0}); => cfg:2: B1
# The order of the faults of one API.
CRE_FLG(F,{9,X}); => cfg:2: B3
DEF_INH(X,{1,h}); => cfg:2: B3
DEF_INH(1|X,{0,h}); => cfg:2: B3
DEF_INH(33,{1,h}); => cfg:2: B4 E_RSATR
# The range of each value.
CRE_TSK(T,{0,-1,m,1,1,NULL}); => ok
CRE_TSK(T,{TA_ACT,0,m,16,65536,NULL}); => ok
CRE_TSK(T,{1,0,m,16,65536,NULL}); => cfg:2: B4 E_RSATR
CRE_TSK(T,{3,0,m,0,0,NULL}); => cfg:2: B4 E_RSATR
CRE_TSK(T,{0,0,m,0,1,NULL}); => cfg:2: B4 E_PAR
CRE_TSK(T,{0,0,m,17,1,NULL}); => cfg:2: B4 E_PAR
CRE_TSK(T,{0,0,m,1,0,NULL}); => cfg:2: B4 E_PAR
CRE_TSK(T,{0,0,m,1,65537,NULL}); => cfg:2: B4 E_PAR
CRE_SEM(S,{TA_TPRI,65535,65535}); => ok
CRE_SEM(S,{0,0,1}); => ok
CRE_SEM(S,{-1,0,1}); => cfg:2: B4 E_RSATR
CRE_SEM(S,{0,0,0}); => cfg:2: B4 E_PAR
CRE_SEM(S,{0,0,65536}); => cfg:2: B4 E_PAR
CRE_SEM(S,{0,-1,1}); => cfg:2: B4 E_PAR
CRE_FLG(F,{7,65535}); => ok
CRE_FLG(F,{8,0}); => cfg:2: B4 E_RSATR
CRE_FLG(F,{0,65536}); => cfg:2: B4 E_PAR
CRE_FLG(F,{0,-1}); => cfg:2: B4 E_PAR
CRE_DTQ(D,{1,255,NULL}); => ok
CRE_DTQ(D,{0,0,NULL}); => ok
CRE_DTQ(D,{2,0,NULL}); => cfg:2: B4 E_RSATR
CRE_DTQ(D,{0,256,NULL}); => cfg:2: B4 E_PAR
CRE_MBX(X,{3,16,NULL}); => ok
CRE_MBX(X,{0,1,NULL}); => ok
CRE_MBX(X,{4,1,NULL}); => cfg:2: B4 E_RSATR
CRE_MBX(X,{0,0,NULL}); => cfg:2: B4 E_PAR
CRE_MBX(X,{0,17,NULL}); => cfg:2: B4 E_PAR
CRE_MSG(G,{1}); => ok
CRE_MSG(G,{16}); => ok
CRE_MSG(G,{0}); => cfg:2: B4 E_PAR
CRE_MSG(G,{17}); => cfg:2: B4 E_PAR
CRE_SPN(L,{0}); => ok
CRE_SPN(L,{1}); => cfg:2: B4 E_RSATR
CRE_CYC(C,{TA_STA,-1,h,1,0}); => ok
CRE_CYC(C,{0,0,h,0x40000000,0x40000000}); => ok
CRE_CYC(C,{1,0,h,1,0}); => cfg:2: B4 E_RSATR
CRE_CYC(C,{0,0,h,0,0}); => cfg:2: B4 E_PAR
CRE_CYC(C,{0,0,h,0x40000001,0}); => cfg:2: B4 E_PAR
CRE_CYC(C,{0,0,h,1,0x40000001}); => cfg:2: B4 E_PAR
CRE_CYC(C,{0,0,h,1,-1}); => cfg:2: B4 E_PAR
DEF_INH(1,{0,h}); => ok
DEF_INH(32,{0,h}); => ok
DEF_INH(0,{0,h}); => cfg:2: B4 E_PAR
DEF_INH(-1,{0,h}); => cfg:2: B4 E_PAR
DEF_INH(1,{2,h}); => cfg:2: B4 E_RSATR
# One name space of all objects; a body is no object.
CRE_SHR(W,{0}); CRE_MSG(W,{1}); => cfg:2: B2
CRE_SHR(W,{0}); CRE_SHR(w,{0}); => ok
CRE_TSK(T,{0,0,T,1,1,NULL}); DEF_INH(1,{0,h}); => ok
CRE_TSK(h,{0,0,m,1,1,NULL}); DEF_INH(1,{0,h}); => ok
DEF_INH(3,{0,h}); CRE_SHR(h,{0}); => ok
# A known constant that fits no place of its kind.
CRE_SEM(S,{E_SYS,0,1}); => cfg:2: B4 E_RSATR
CRE_TSK(T,{TA_ACT|TA_HLNG,TMO_FEVR,m,TA_CLR,0x100,NULL}); => ok
CRE_SEM(S,{TA_CLR,0,1}); => cfg:2: B4 E_RSATR
CRE_TSK(T,{TA_ACT|TA_STA|TA_WMUL,0,m,1,1,NULL}); => ok
# The bodies that entries name, in order of text over all APIs.
CRE_TSK(T,{0,0,x,10,256,NULL}); => cfg:2: B3
CRE_TSK(T,{0,0,h,10,256,NULL}); => cfg:2: B7
CRE_CYC(C,{0,0,m,1,0}); => cfg:2: B7
DEF_INH(1,{0,m}); => cfg:2: B7
DEF_INH(1,{0,x}); => cfg:2: B3
CRE_TSK(T,{0,0,sum,10,8,NULL}); => ok
CRE_TSK(T,{0,0,sum,10,7,NULL}); => cfg:2: B6
CRE_TSK(~~T,{0,0,sum,10,4,NULL}); => cfg:2: B6
CRE_TSK(T,{0,0,m,10,1,NULL});~CRE_TSK(U,{0,0,sum,10,4,NULL}); CRE_TSK(V,{0,0,x,10,4,NULL}); => cfg:3: B6
DEF_INH(1,{0,x});~CRE_TSK(U,{0,0,sum,10,4,NULL}); => cfg:2: B3
"""

# Task texts, over the objects that they name.
TASK_TEXTS = """
task m { } => ok
 => ok
task m { put(012); } => src:1: B1
task m { put(0x100000000); } => src:1: B5
task m {~/* x~} => src:2: B1
task m { put(1);~ => src:2: B1
task m { put(1) }~$ => src:1: B1
task m { put(1);~$ } => src:2: B1
task m { put(1~,2); } => src:2: B1
task m { put(~); } => src:2: B1
task m { slp_tsk(~1); } => src:2: B1
task m { mrot_rdq(10,2); } => ok
task m { mrot_rdq(10~); } => src:2: B1
task m { mrot_rdq(10,2~,1); } => src:2: B1
task m { mrot_rdq(10,~&m); } => src:2: B1
task ~mrot_rdq { } => src:2: B1
task m { get_tid(~1); } => src:2: B1
task m { get_tid(&~1); } => src:2: B1
task m { ld_shr(W,~v); } => src:2: B1
task m { put(&~v); } => src:1: B1
task m { put(~NULL); } => src:2: B1
task put { } => src:1: B1
task m { var~E_OK; } => src:2: B1
task m { x = 1; var~x; } => src:1: B1
task m { x = put(1) + 1; } => src:1: B1
task m { x = (~put(1)); } => src:2: B1
task m {~break; } => src:2: B1
task m { if (1) {~continue; } } => src:2: B1
task m { while (1) { if (1) { break; } else { continue; } } } => ok
task m { while (1) { } break~; } => src:1: B1
task m { if (1) return; } => src:1: B1
task m { if (1) { } else if (2) { } else { return; } } => ok
task m { } else => src:1: B1
handler h { var x; var y; x = y = 1; } => src:1: B1
handler h { var x; x = 1 < 2 == 3; }~task t { } => ok
task m { x = ; } => src:1: B1
task m { } } => src:1: B1
# What a text says beyond its syntax.
task m { var p; twai_flg(F, 1, TWF_ORW, &p, TMO_FEVR); } => ok
task m { var x; var v; x = trcv_dtq(D, &v, -1); } => ok
task m { put(TA_CLR - -1); } => ok
task m { put(exinf); } handler h { put(exinf); } => ok
task W { put(W); } => ok
task m { }~handler~m { } => src:3: B2
task m { var x;~var~x; } => src:3: B2
task m { var~exinf; } => src:2: B2
task m { var~W; } => src:2: B2
task m {~put(y); } => src:2: B3
task m {~y = 1; } => src:2: B3
task m {~W = 1; } => src:2: B3
task m { var x; x = 1 +~y; } => src:2: B3
task m { ld_shr(W,&~y); } => src:2: B3
task m {~y = ld_shr(z,~&z); } => src:2: B3
task m { var x; x = ld_shr(~z, &z); } => src:2: B3
task m { put(m); } => src:1: B3
# The first of several faults: the bodies in order, and a syntax fault before all of them.
task m {~put(y); } task n { var x;~var x; } => src:2: B3
task m { var x; var x; }~$ => src:2: B1
"""

# A fault of the configuration comes before all of the task text, and an entry's after them.
ONE_TASK = "NUM_PRC(1); CLASS(TCL_1) { CRE_TSK(T,{0,0,x,10,256,NULL}); }"
ORDERS = (
    ("NUM_PRC(9);", "$", "cfg:1: B5"),
    (ONE_TASK, "$", "src:1: B1"),
    (ONE_TASK, "task m { put(y); }", "src:1: B3"),
    (ONE_TASK, "task m { }", "cfg:1: B3"),
    (ONE_TASK, "task x { }", "ok"),
    ("NUM_PRC(1);\nCLASS(TCL_1) { CRE_TSK(T,{0,0,m,10,4,NULL}); }", "task m { put(1+2); }", "cfg:2: B6"),
)

# This many levels: what stands before, what opens each, what stands within, what closes each, and the end.
PUT, CHOICE = "task m { put(", "task m { if (1) { }"
LEVELS = (
    (63, PUT, "1+(", "1", ")", "); }", "ok"),
    (64, PUT, "1+(", "1", ")", "); }", "src:1: B5"),
    (64, "\n" + PUT, "1+(\n", "1", ")", "); }", "src:2: B5"),
    (64, PUT, "(", "1", ")", "); }", "ok"),
    (65, PUT, "(\n", "1", ")", "); }", "src:65: B5"),
    (64, PUT, "- ", "1", "", "); }", "ok"),
    (65, PUT, "!\n", "1", "", "); }", "src:65: B5"),
    (64, PUT, "-\n", "(1)", "", "); }", "src:65: B5"),
    (64, "task m {", "if (1) {", "", "}", "}", "ok"),
    (65, "task m {", "if (1) {\n", "", "}", "}", "src:65: B5"),
    (65, "task m {", "while (1)\n{", "", "}", "}", "src:66: B5"),
    (63, CHOICE, " else if (1) { }", "", "", "}", "ok"),
    (64, CHOICE, " else if (1) \n{ }", "", "", "}", "src:65: B5"),
    (65, CHOICE, " else if (1) \n{ }", "", "", "}", "src:65: B5"),
    (64, "task m {", "if (1) {\n", "while (1) put", "}", "}", "src:65: B1"),
    (64, "task m {", "if (1) {\n", "put((1));", "}", "}", "src:65: B5"),
    (64, "task m {", "if (1) {\n", "put(1 + 2);", "}", "}", "ok"),
    (64, "task m {", "if (1) {\n", "if (2) \n{ } else\nif (3) { }", "}", "}", "src:66: B5"),
)

# Long texts: this many pieces in the second place and in the fourth.
LENGTHS = (
    (300, "task m { put(1", " + 1", "); put(1", " && 1", "); }", "ok"),
    (32_766, "task m { put(1", "+1", "); }", "", "", "ok"),
    (32_767, "\ntask m { put(1", "+1", "); }", "", "", "src:2: B5"),
    (32_767, "\ntask m {", "put(1);", "}", "", "", "ok"),
    (32_768, "\ntask m {", "put(1);", "}", "", "", "src:2: B5"),
    (524_276, "task m { a = 1", "+1", "; return;}", "", "", "src:1: B3"),
    (524_277, "task m { a = 1", "+1", "; return;}", "", "", "src:1: B5"),
    (1_048_565, "task m { }", " ", "$", "", "", "src:1: B1"),
    (1_048_566, "task m { }", " ", "$", "", "", "src:1: B5"),
)

# 64 operands need a stack of 256 bytes.
STACKS = ((256, "ok"), (255, "cfg:1: B6"))


def numbered(count, piece):
    """This many pieces, numbered from 0: `#` stands for the number."""
    return "".join(piece.replace("#", str(number)) for number in range(count))


def rows(table):
    """The texts of a table and their answers."""
    for line in table.strip("\n").split("\n"):
        text, arrow, answer = line.partition(" => ")
        if arrow:
            yield text.replace("~", "\n"), answer


def many_of_a_kind():
    """The most objects, bodies and variables, and one more of each."""
    spins, bodies = numbered(255, "CRE_SPN(L#,{0});"), numbered(255, "task m# { }\n")
    variables = numbered(63, "var x#;\n")
    begin = "NUM_PRC(1); CLASS(TCL_1) {"
    yield f"{begin}{spins}CRE_SHR(W,{{0}}); }}", bodies, "ok"
    yield f"{begin}{spins}\nCRE_SPN(L0,{{X}}); }}", "", "cfg:2: B5"
    yield OBJECTS, f"{bodies}task m0 {{ }}", "src:256: B5"
    yield OBJECTS, f"task m {{ {variables} }}", "ok"
    yield OBJECTS, f"task m {{ {variables} var x0; }}", "src:64: B5"


def all_texts():
    """Each row: a configuration, a task text, and what a check of them answers."""
    for text, answer in rows(CONFIGURATIONS):
        yield text, BODIES, answer
    for text, answer in rows(STATIC_APIS):
        yield f"NUM_PRC(1); CLASS(TCL_1) {{\n{text} }}", BODIES, answer
    for text, answer in rows(TASK_TEXTS):
        yield OBJECTS, text, answer
    yield from ORDERS
    for count, before, opening, middle, closing, after, answer in LEVELS + LENGTHS:
        yield OBJECTS, before + count * opening + middle + count * closing + after, answer
    deepest = PUT + 63 * "1+(" + "1" + 63 * ")" + "); }"
    for size, answer in STACKS:
        yield f"NUM_PRC(1); CLASS(TCL_1) {{ CRE_TSK(T,{{0,0,m,10,{size},NULL}}); }}", deepest, answer
    for before, answer in (("NUM_PRC(1);\n//", "ok"), ("$NUM_PRC(1);\n//", "cfg:1: B5")):
        yield before + 1_048_562 * "-", "", answer
    yield from many_of_a_kind()
