"""Rows of images and steps: images byte for byte, what loading changed ones answers, and the faults of steps."""

from images.image_samples import ONE_TASK, ONE_TASK_CONFIGURATION, ONE_TASK_SOURCE
from rows.row_runs import AND, SETUP, alone, apart, runs, task

NOTHING = bytes.fromhex("464d50490300010000000000000000000000")

# A row in each table.
EACH_TABLE = """NUM_PRC(2); CLASS(TCL_2_ONLY) { CRE_TSK(T,{0,-1,t,16,65536,NULL}); }
    CLASS(TCL_1) { CRE_SEM(S,{TA_TPRI,2,3}); CRE_FLG(F,{TA_TPRI|TA_CLR,7}); CRE_DTQ(D,{0,255,NULL});
        CRE_MBX(M,{TA_TPRI|TA_MPRI,16,NULL}); CRE_MSG(G,{1}); CRE_SHR(W,{-2147483647}); CRE_SPN(L,{0});
        CRE_CYC(_9,{TA_STA,5,h,513,0x40000000}); DEF_INH(3,{0,h}); }
    CLASS(TCL_2) { DEF_INH(32,{0,h}); }"""
EACH_TABLE_IMAGE = bytes.fromhex(
    "464d50490300020200010001000900000000000101000100090000000000"
    "01015400ffffffff00100000010002010101530102000300010146050700"
    "01014400ff01014d0310010147010101570100008001014c01025f39020500000001010200000000004001"
    "02030101200102"
)

# A call of `mrot_rdq`.
ROTATE = bytes.fromhex(
    "464d5049030001010001020400010a00000000010100000001083bffff00020900000000000102543102000000"
    "00000a000100000100000000000000000000"
)

# A task whose name became a word with version 3.
LATER_WORD = ONE_TASK.replace(b"\2T1", b"\x08mrot_rdq")
LATER_WORD_TRACE = (
    "0 p1 mrot_rdq starts / 0 p1 > mrot_rdq / 1 p1 mrot_rdq put(7) E_OK / mrot_rdq RUNNING p1 10 / "
)

# A task that queues activations of itself, or wakeups, until no more can be queued; and how many an image of each
# version queues.
QUEUING = alone(task("T", "t")), "task t {{ while (1) {{ {}(TSK_SELF); }} }}"
QUEUED = {1: 1, 2: 1, 3: 255}

# A task that stores one processor and then another for its next start, and what an image of each version prints.
STORING = apart(task("T", "t"), ""), "task t { mact_tsk(TSK_SELF,2); mact_tsk(TSK_SELF,1); }"
STORING_SETUP = "0 p1 T starts / 0 p1 > T / 1 p1 T mact_tsk(0,2) E_OK / "
STORED = {
    1: "2 p1 T mact_tsk(0,1) E_QOVR / 3 p1 T end / 3 p2 T starts / 3 p2 > T / T RUNNING p2 10 / ",
    2: "2 p1 T mact_tsk(0,1) E_QOVR / 3 p1 T end / 3 p2 T starts / 3 p2 > T / T RUNNING p2 10 / ",
    3: "2 p1 T mact_tsk(0,1) E_OK / 3 p1 T end / 3 p1 T starts / 3 p1 > T / T RUNNING p1 10 / ",
}

# What queues activations and wakeups of another task, and of its own, takes them back, and queues again; and what an
# image of the versions that queue one prints.
LIMIT = (
    alone(task("M", "m", 5), task("A", "a")),
    "task m { act_tsk(A); act_tsk(A); mact_tsk(A,1); can_act(A); mact_tsk(A,1); mact_tsk(A,1); wup_tsk(A); wup_tsk(A); "
    "can_wup(A); wup_tsk(TSK_SELF); wup_tsk(M); slp_tsk(); } task a { put(2); }",
)
AT_LIMIT = (
    "0 p1 M starts / 0 p1 A starts / 0 p1 > M / 1 p1 M act_tsk(2) E_OK / 2 p1 M act_tsk(2) E_QOVR / "
    "3 p1 M mact_tsk(2,1) E_QOVR / 4 p1 M can_act(2) E_OK 1 / 5 p1 M mact_tsk(2,1) E_OK / "
    "6 p1 M mact_tsk(2,1) E_QOVR / 7 p1 M wup_tsk(2) E_OK / 8 p1 M wup_tsk(2) E_QOVR / 9 p1 M can_wup(2) E_OK 1 / "
    "10 p1 M wup_tsk(0) E_OK / 11 p1 M wup_tsk(1) E_QOVR / 12 p1 M slp_tsk() E_OK / 13 p1 M end / 13 p1 > A / "
    "14 p1 A put(2) E_OK / 15 p1 A end / 15 p1 A starts / 15 p1 > A / 16 p1 A put(2) E_OK / 17 p1 A end / "
    "M DORMANT p1 5 / A DORMANT p1 10 / "
)

# Two texts and their image.
IMAGES = (
    (ONE_TASK_CONFIGURATION, ONE_TASK_SOURCE, ONE_TASK),
    ("NUM_PRC(1);", "", NOTHING),
    (
        alone(task("M", "m")),
        AND,
        bytes.fromhex(
            "464d5049030001010002020c0001000000000007070000000101010000000001000000000105030000000204030000"
            "00010608000000010100000000000301000000010201000000000801ffff000109000000000001014d020000000000"
            "0a000100000100000000000000000000"
        ),
    ),
    (
        alone(task("T", "t")),
        "task t { var a[3]; var i; i = 2; a[i] = 7; put(a[2]); a[3] = 1; }",
        bytes.fromhex(
            "464d50490300010100" "05020c00" "010200000000030400000001020400000000010700000001" "0b0103000002"
            "010200000000" "0a0103000001" "0801ffff0001" "010300000000010100000001" "0b0103000002" "090000000000"
            "010154020000000000" "0a000100000100000000000000000000"
        ),
    ),
    (EACH_TABLE, "task t { } handler h { }", EACH_TABLE_IMAGE),
    (ONE_TASK_CONFIGURATION, "task main { mrot_rdq(10,1); }", ROTATE),
)

# Bytes of the image of one task and their new values, and the fault.
CHANGES = """
0=0 => L2
4=0 => L3
4=4 => L3
5=1 => L3
4=1 9=2 19=10 20=1 21=1 22=0 25=6 26=1 30=1 => L5
19=11 => L5
4=9 => L3
6=0 => L4
6=9 => L4
8=1 => L4
9=0 => L4
10=2 => L4
11=0 => L5
12=255 => L1
11=255 12=255 => L1
13=200 => L5
20=200 => L5
24=0 => L5
25=1 => L5
33=48 => L4
40=1 => L4
41=17 => L4
42=3 43=0 => L4
46=2 => L4
47=2 => L4
48=1 => L4
56=1 => L1
"""

# Changes that load: an operand, the least stack that holds it, a task of one processor alone, and the versions before;
# and the word that its first event puts.
LOADS = (("14=8", 8), ("42=4 43=0", 7), ("47=1", 7), ("4=1", 7), ("4=2", 7))

# A loop beside another task. The argument of its jump back stands at 26, and 9 leads out of its body.
LOOP = apart(task("A", "a"), task("B", "b")), "task a { while (1) { } } task b { put(1); put(2); }"
JUMP, OUT_OF_BODY = (25, 6, 0), "26=9"
LOOP_SETUP = "0 p1 A starts / 0 p2 B starts / 0 p1 > A / 0 p2 > B / A RUNNING p1 10 / B RUNNING p2 10 / "

# The second line of steps for two processors, and the fault, if any. `~` stands for a space.
STEPS = """
run 1 => ok
run 2 => ok
tick => ok
int 32 => ok
run 01 => S1
run~~1 => S1
tick~ => S1
 => S1
tick\r => S1
run -1 => S1
tick 1 => S1
run => S1
run 1~ => S1
Run 1 => S1
run 1x => S1
run 3 => S2
run 0 => S2
int 33 => S2
int 0 => S2
int 99999999999999999999 => S2
run 256 => S2
"""


def changed(image, changes):
    """An image with other bytes, `PLACE=VALUE` each."""
    image = bytearray(image)
    for part in changes.split():
        place, value = map(int, part.split("="))
        image[place] = value
    return bytes(image)


def table(rows):
    """What stands before and behind the arrow of each row."""
    for line in rows.strip("\n").split("\n"):
        text, _, answer = line.partition(" => ")
        yield text, answer


def sized():
    """Each pair of texts, the bytes of their image, and what a build prints."""
    for configuration, source, image in IMAGES:
        yield configuration, source, image, f"ok {len(image)}\n"


def refused_images():
    """Each image that is not loaded, with its fault: cut, too long, changed, and of two rows of one key."""
    for length in range(len(ONE_TASK)):
        yield ONE_TASK[:length], "L1"
    yield ONE_TASK + b"\0", "L6"
    for changes, fault in table(CHANGES):
        yield changed(ONE_TASK, changes), fault
    yield changed(EACH_TABLE_IMAGE, "107=3"), "L4"
    yield changed(ROTATE, "4=1"), "L5"
    yield changed(ROTATE, "4=2"), "L5"
    yield LATER_WORD, "L4"


def loaded_images():
    """Each image that is loaded, steps, and what is printed."""
    for changes, word in LOADS:
        trace = f"{SETUP}1 p1 T1 put({word}) E_OK / T1 RUNNING p1 10 / "
        yield changed(ONE_TASK, changes), runs(1), trace
    yield ROTATE, runs(1), f"{SETUP}1 p1 T1 mrot_rdq(10,1) E_OK / T1 RUNNING p1 10 / "
    yield changed(LATER_WORD, "4=1"), runs(1), LATER_WORD_TRACE
    yield changed(LATER_WORD, "4=2"), runs(1), LATER_WORD_TRACE


def kept_images():
    """Images of all versions, which keep their places alike: steps, and what is printed over them at bound 1."""
    put = f"{SETUP}1 p1 T1 put(7) E_OK / "
    for version in (1, 2, 3):
        image = changed(ONE_TASK, f"4={version}")
        yield image, runs(1), f"{SETUP}T1 RUNNING p1 10 / "
        yield image, runs(2), f"{put}T1 RUNNING p1 10 / "
        yield image, runs(3), f"{put}2 p1 T1 end / T1 DORMANT p1 10 / "


def by_version():
    """Two texts, and for each version: steps, and what an image of theirs of this version prints over them."""
    for call in ("act_tsk", "wup_tsk"):
        configuration, source = QUEUING
        yield configuration, source.format(call), {v: (runs(256), queued(call, limit)) for v, limit in QUEUED.items()}
    yield *LIMIT, {version: (runs(20), AT_LIMIT) for version in (1, 2)}
    yield *STORING, {version: (runs(3), STORING_SETUP + trace) for version, trace in STORED.items()}


def queued(call, limit):
    """What is printed of 256 calls of a task that queue on itself, of which the first are accepted."""
    answers = ["E_OK"] * limit + ["E_QOVR"] * (256 - limit)
    lines = [f"{number} p1 T {call}(0) {answer}" for number, answer in enumerate(answers, 1)]
    return " / ".join(["0 p1 T starts", "0 p1 > T", *lines, "T RUNNING p1 10", ""])


def faulty_steps():
    """Steps for two processors, and their fault, if any."""
    for line, answer in table(STEPS):
        line = line.replace("~", " ")
        if answer == "ok":
            yield f"tick\n{line}", None
        else:
            yield f"tick\n{line}\nrun 9\n", f"steps:2: {answer}"
