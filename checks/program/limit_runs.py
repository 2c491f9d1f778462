"""Systems at each limit of the calls, of numbers, stretches, events and steps, and what a run of them must print."""

from dataclasses import dataclass

GREATEST_EVENTS = 1 << 20
DEFAULT_BOUND = 100000
OBJECTS = 255

# Bounds of a stretch, and the status that they give.
BOUNDS = (
    (1, 0), (2, 0), (1 << 48, 0), (0, 2), ((1 << 48) + 1, 2), (1 << 64, 2), (-1, 2), ("1x", 2), ("", 2),
)


@dataclass
class Run:
    """Two texts, steps, a bound where one is given, and what is printed."""

    name: str
    configuration: str
    source: str
    steps: str
    bound: int | None
    expected: str


def lone(name, source, steps, expected, bound=None):
    """A system of one task, `T`, whose body is `m`. Its setup is not repeated in what is expected."""
    configuration = "NUM_PRC(1); CLASS(TCL_1) { CRE_TSK(T,{TA_ACT,0,m,10,256,NULL}); }"
    return Run(name, configuration, source, steps, bound, f"0 p1 T starts\n0 p1 > T\n{expected}")


# The calls of one task, in this order, and the answers. The text has `&v` where a call gives a value to a place; the
# trace leaves it out. After `/` stand the lines of what the call causes.
CALL_APIS = """NUM_PRC(2);
CLASS(TCL_1) {
    CRE_TSK(M, { TA_ACT, 0, m, 10, 256, NULL });
    CRE_SEM(S, { 0, 0, 1 }); CRE_SEM(S2, { 0, 65534, 65535 });
    CRE_FLG(F, { 0, 0 }); CRE_DTQ(D, { 0, 1, NULL }); CRE_DTQ(D2, { 0, 0, NULL });
    CRE_MBX(X, { TA_MPRI, 3, NULL }); CRE_MBX(X2, { 0, 3, NULL });
    CRE_MSG(G, { 3 }); CRE_MSG(H, { 4 });
    CRE_SHR(W, { -2147483647 }); CRE_SPN(L, { 0 }); CRE_CYC(C, { 0, 0, h, 1073741824, 1073741824 });
    DEF_INH(1, { 0, h }); DEF_INH(32, { 0, h });
}
CLASS(TCL_2) { CRE_TSK(A, { 0, 0, a, 16, 256, NULL }); CRE_TSK(B, { 0, 0, a, 1, 256, NULL }); }
"""

CALLS = """
put(2147483647) E_OK; put(-2147483647 - 1) E_OK
can_act(-1) E_ID; can_act(0) E_OK 0; can_act(3) E_OK 0; can_act(4) E_ID; can_act(2147483647) E_ID
act_tsk(-1) E_ID; act_tsk(4) E_ID; act_tsk(0) E_OK; act_tsk(0) E_OK; act_tsk(1) E_OK; can_act(1) E_OK 3
ter_tsk(0) E_ID; ter_tsk(1) E_ILUSE; ter_tsk(3) E_OBJ; ter_tsk(4) E_ID
chg_pri(0,-1) E_PAR; chg_pri(0,0) E_OK; chg_pri(0,1) E_OK; chg_pri(0,16) E_OK; chg_pri(0,17) E_PAR
chg_pri(4,1) E_ID; chg_pri(-1,1) E_ID; chg_pri(4,17) E_ID; chg_pri(3,16) E_OBJ; chg_pri(3,17) E_PAR
get_pri(0,&v) E_OK 16; get_pri(3,&v) E_OBJ; get_pri(4,&v) E_ID; get_pri(-1,&v) E_ID
mact_tsk(0,-1) E_PAR; mact_tsk(0,0) E_PAR; mact_tsk(0,3) E_PAR; mact_tsk(0,256) E_PAR; mact_tsk(4,3) E_ID
mact_tsk(0,2) E_OK; mact_tsk(0,1) E_OK; can_act(0) E_OK 2
mact_tsk(2,2) E_OK / p2 A starts / p2 > A
mact_tsk(3,1) E_OK / p1 B starts / p1 > B
"""
CALLS_AFTER = """
mig_tsk(0,-1) E_PAR; mig_tsk(0,0) E_PAR; mig_tsk(0,1) E_OK; mig_tsk(0,3) E_PAR; mig_tsk(4,1) E_ID; mig_tsk(2,3) E_PAR
wup_tsk(-1) E_ID; wup_tsk(4) E_ID; wup_tsk(0) E_OK; wup_tsk(0) E_OK; wup_tsk(1) E_OK; can_wup(0) E_OK 3
can_wup(0) E_OK 0; can_wup(4) E_ID; can_wup(-1) E_ID
tslp_tsk(-2) E_PAR; tslp_tsk(0) E_TMOUT; tslp_tsk(1073741825) E_PAR; tslp_tsk(2147483647) E_PAR
wup_tsk(1) E_OK; tslp_tsk(1073741824) E_OK; wup_tsk(1) E_OK; tslp_tsk(-1) E_OK; tslp_tsk(0) E_TMOUT
rel_wai(0) E_ID; rel_wai(1) E_OBJ; rel_wai(4) E_ID; sus_tsk(-1) E_ID; sus_tsk(4) E_ID
rsm_tsk(0) E_ID; rsm_tsk(1) E_OBJ; rsm_tsk(4) E_ID; dly_tsk(-1) E_PAR; dly_tsk(1073741825) E_PAR
sig_sem(0) E_ID; sig_sem(3) E_ID; sig_sem(-1) E_ID; pol_sem(0) E_ID; pol_sem(3) E_ID; wai_sem(0) E_ID; wai_sem(3) E_ID
twai_sem(1,-2) E_PAR; twai_sem(1,1073741825) E_PAR; twai_sem(3,-2) E_ID; twai_sem(1,0) E_TMOUT; pol_sem(1) E_TMOUT
sig_sem(1) E_OK; sig_sem(1) E_QOVR; twai_sem(1,1073741824) E_OK; sig_sem(1) E_OK; twai_sem(1,-1) E_OK
sig_sem(2) E_OK; sig_sem(2) E_QOVR; pol_sem(2) E_OK; sig_sem(2) E_OK; sig_sem(2) E_QOVR
set_flg(0,1) E_ID; set_flg(2,1) E_ID; set_flg(1,-1) E_PAR; set_flg(1,65536) E_PAR; set_flg(2,65536) E_ID
set_flg(1,0) E_OK; pol_flg(1,65535,1,&v) E_TMOUT; set_flg(1,65535) E_OK; pol_flg(1,65535,0,&v) E_OK 65535
pol_flg(1,0,0,&v) E_PAR; pol_flg(1,-1,0,&v) E_PAR; pol_flg(1,65536,0,&v) E_PAR; pol_flg(1,1,0,&v) E_OK 65535
pol_flg(1,1,-1,&v) E_PAR; pol_flg(1,1,2,&v) E_PAR; pol_flg(1,1,1,&v) E_OK 65535; pol_flg(2,0,0,&v) E_ID
wai_flg(1,0,0,&v) E_PAR; wai_flg(1,65536,0,&v) E_PAR; wai_flg(1,1,2,&v) E_PAR; wai_flg(1,65535,0,&v) E_OK 65535
twai_flg(1,1,0,&v,-2) E_PAR; twai_flg(1,1,0,&v,1073741825) E_PAR; twai_flg(1,1,0,&v,1073741824) E_OK 65535
clr_flg(0,0) E_ID; clr_flg(2,0) E_ID; clr_flg(1,-1) E_PAR; clr_flg(1,65536) E_PAR; clr_flg(1,65535) E_OK
pol_flg(1,1,0,&v) E_OK 65535; clr_flg(1,0) E_OK; pol_flg(1,65535,1,&v) E_TMOUT; twai_flg(1,1,0,&v,0) E_TMOUT
snd_dtq(0,1) E_ID; snd_dtq(3,1) E_ID; tsnd_dtq(1,1,-2) E_PAR; tsnd_dtq(1,1,1073741825) E_PAR
tsnd_dtq(1,2147483647,1073741824) E_OK; psnd_dtq(1,1) E_TMOUT; tsnd_dtq(1,1,0) E_TMOUT
trcv_dtq(1,&v,-2) E_PAR; trcv_dtq(1,&v,1073741825) E_PAR; trcv_dtq(1,&v,1073741824) E_OK 2147483647
trcv_dtq(1,&v,0) E_TMOUT; prcv_dtq(1,&v) E_TMOUT; prcv_dtq(3,&v) E_ID; rcv_dtq(0,&v) E_ID
fsnd_dtq(0,1) E_ID; fsnd_dtq(3,1) E_ID; fsnd_dtq(2,1) E_ILUSE; psnd_dtq(2,1) E_TMOUT; prcv_dtq(2,&v) E_TMOUT
fsnd_dtq(1,1) E_OK; fsnd_dtq(1,-2147483647 - 1) E_OK; rcv_dtq(1,&v) E_OK -2147483648; put(v) E_OK
snd_mbx(0,1) E_ID; snd_mbx(3,1) E_ID; snd_mbx(1,0) E_ID; snd_mbx(1,3) E_ID; snd_mbx(1,2) E_PAR; snd_mbx(1,1) E_OK
snd_mbx(1,1) E_OBJ; snd_mbx(2,1) E_OBJ; snd_mbx(2,2) E_OK; snd_mbx(1,2) E_PAR
trcv_mbx(1,&v,-2) E_PAR; trcv_mbx(1,&v,1073741825) E_PAR; trcv_mbx(1,&v,1073741824) E_OK 1; rcv_mbx(2,&v) E_OK 2
trcv_mbx(1,&v,0) E_TMOUT; prcv_mbx(2,&v) E_TMOUT; prcv_mbx(3,&v) E_ID; rcv_mbx(0,&v) E_ID
sta_cyc(0) E_ID; sta_cyc(1) E_OK; sta_cyc(2) E_ID; stp_cyc(0) E_ID; stp_cyc(1) E_OK; stp_cyc(2) E_ID
rot_rdq(-1) E_PAR; rot_rdq(0) E_OK; rot_rdq(1) E_OK; rot_rdq(16) E_OK; rot_rdq(17) E_PAR; get_tid(&v) E_OK 1
mrot_rdq(-1,1) E_PAR; mrot_rdq(0,1) E_OK; mrot_rdq(1,1) E_OK; mrot_rdq(16,2) E_OK; mrot_rdq(17,2) E_PAR
mrot_rdq(1,-1) E_PAR; mrot_rdq(1,0) E_PAR; mrot_rdq(0,2) E_OK; mrot_rdq(1,3) E_PAR; mrot_rdq(1,256) E_PAR
loc_spn(0) E_ID; loc_spn(2) E_ID; try_spn(0) E_ID; try_spn(2) E_ID; unl_spn(0) E_ID; unl_spn(2) E_ID
unl_spn(1) E_ILUSE; try_spn(1) E_OK; unl_spn(1) E_OK; loc_spn(1) E_OK; unl_spn(1) E_OK
ld_shr(0,&v) E_ID; ld_shr(2,&v) E_ID; ld_shr(1,&v) E_OK -2147483647; st_shr(0,1) E_ID; st_shr(2,1) E_ID
st_shr(1,-2147483647 - 1) E_OK; ld_shr(1,&v) E_OK -2147483648; st_shr(1,2147483647) E_OK; ld_shr(1,&v) E_OK 2147483647
irot_rdq(1) E_CTX; iact_tsk(0) E_CTX; loc_cpu() E_OK; act_tsk(4) E_CTX; mrot_rdq(17,3) E_CTX; unl_cpu() E_OK
"""

HANDLER_CALLS = """
irot_rdq(-1) E_PAR; irot_rdq(0) E_PAR; irot_rdq(1) E_OK; irot_rdq(16) E_OK; irot_rdq(17) E_PAR
iact_tsk(0) E_ID; iact_tsk(-1) E_ID; iact_tsk(4) E_ID; iact_tsk(1) E_OK; iact_tsk(1) E_OK
iwup_tsk(0) E_ID; iwup_tsk(4) E_ID; iwup_tsk(1) E_OK; iwup_tsk(1) E_OK; iwup_tsk(3) E_OBJ
irel_wai(0) E_ID; irel_wai(4) E_ID; irel_wai(1) E_OBJ; isig_sem(0) E_ID; isig_sem(3) E_ID
isig_sem(2) E_OK; isig_sem(2) E_QOVR; iset_flg(0,1) E_ID; iset_flg(2,1) E_ID
iset_flg(1,-1) E_PAR; iset_flg(1,0) E_OK; iset_flg(1,65535) E_OK; iset_flg(1,65536) E_PAR
ipsnd_dtq(0,1) E_ID; ipsnd_dtq(3,1) E_ID; ipsnd_dtq(1,1) E_OK; ipsnd_dtq(1,1) E_TMOUT; ipsnd_dtq(2,1) E_TMOUT
ifsnd_dtq(0,1) E_ID; ifsnd_dtq(3,1) E_ID; ifsnd_dtq(1,1) E_OK; ifsnd_dtq(2,1) E_ILUSE
act_tsk(1) E_CTX; slp_tsk() E_CTX; mrot_rdq(1,1) E_CTX; mrot_rdq(17,3) E_CTX; irot_rdq(0) E_PAR
"""


def rows(table):
    """Each call of a table as the text has it, its answer and the lines that it causes."""
    for row in table.strip().replace("\n", "; ").split("; "):
        call, *caused = row.split(" / ")
        text, answer = call.split(") ")
        yield f"{text});", answer, caused


def traced(call):
    """A call as the trace has it."""
    shown = call.rstrip(";").replace("-2147483647 - 1", "-2147483648").replace(",&v", "").replace("&v", "")
    return shown.replace("put(v)", "put(-2147483648)")


def statements(table):
    return " ".join(call for call, _, _ in rows(table))


def call_lines(table, actor, first):
    """The lines of the calls of a table, from this event on."""
    number = first - 1
    for number, (call, answer, caused) in enumerate(rows(table), first):
        yield f"{number} p1 {actor} {traced(call)} {answer}"
        yield from (f"{number} {line}" for line in caused)


def joined(lines):
    return "".join(f"{line}\n" for line in lines)


def calls():
    """Each call with arguments at the ends of their ranges and past them."""
    setup = ["0 p1 M starts", "0 p1 > M"]
    before, after = len(list(rows(CALLS))), len(list(rows(CALLS_AFTER)))
    source = f"task m {{ var v; {statements(CALLS)} {statements(CALLS_AFTER)} dly_tsk(1073741824); }}"
    source += f" task a {{ }} handler h {{ {statements(HANDLER_CALLS)} }}"
    end = before + 1
    last = end + after + 1
    lines = [
        *setup, *call_lines(CALLS, "M", 1), f"{end} p1 B end", f"{end} p1 > M", *call_lines(CALLS_AFTER, "M", end + 1),
        f"{last} p1 M dly_tsk(1073741824) wait", f"{last} p1 > -",
        "M WAITING p1 16", "A RUNNING p2 16", "B DORMANT p1 1",
    ]
    yield Run("calls of a task", CALL_APIS, source, "run 1\n" * last, None, joined(lines))
    for interrupt in (1, 32):
        actor, made = f"#{interrupt}", len(list(rows(HANDLER_CALLS)))
        lines = [*setup, f"1 int {interrupt}", f"1 p1 begin {actor}", *call_lines(HANDLER_CALLS, actor, 2)]
        lines += [f"{made + 2} p1 {actor} end", "M RUNNING p1 10", "A DORMANT p2 16", "B DORMANT p2 1"]
        steps = f"int {interrupt}\n" + "run 1\n" * (made + 1) + "int 2\nint 31\n"
        yield Run(f"calls of a handler, interrupt {interrupt}", CALL_APIS, source, steps, None, joined(lines))


# The greatest and the least number of each kind

GREAT_CALLS = """
can_act(255) E_OK 0; can_act(256) E_ID; pol_sem(255) E_OK; pol_sem(256) E_ID; pol_flg(255,1,0,&v) E_OK 1
pol_flg(256,1,0,&v) E_ID; prcv_dtq(255,&v) E_TMOUT; prcv_dtq(256,&v) E_ID; snd_mbx(255,255) E_OK
snd_mbx(256,1) E_ID; snd_mbx(1,256) E_ID; prcv_mbx(255,&v) E_OK 255; ld_shr(255,&v) E_OK 255; ld_shr(256,&v) E_ID
try_spn(255) E_OK; unl_spn(255) E_OK; try_spn(256) E_ID; stp_cyc(255) E_OK; stp_cyc(256) E_ID
"""


def full_tables():
    """255 of each kind, of which the last is used."""
    kinds = (
        "CRE_SEM(S#,{0,1,1});", "CRE_FLG(F#,{0,1});", "CRE_DTQ(D#,{0,0,NULL});", "CRE_MBX(X#,{0,1,NULL});",
        "CRE_MSG(G#,{1});", "CRE_SHR(W#,{#});", "CRE_SPN(L#,{0});", "CRE_CYC(C#,{TA_STA,0,h,1,1});",
    )
    apis = ["CRE_TSK(T1,{TA_ACT,0,m,16,256,NULL});"]
    apis += [f"CRE_TSK(T{number},{{0,0,t,1,1,NULL}});" for number in range(2, OBJECTS + 1)]
    apis += [kind.replace("#", str(number)) for kind in kinds for number in range(1, OBJECTS + 1)]
    apis += [f"DEF_INH({number},{{0,h}});" for number in range(1, 33)]
    source = f"task m {{ var v; {statements(GREAT_CALLS)} }} task t {{ }} handler h {{ }}"
    made = len(list(rows(GREAT_CALLS)))
    lines = ["0 p1 T1 starts", "0 p1 > T1", *call_lines(GREAT_CALLS, "T1", 1), f"{made + 1} p1 T1 end"]
    lines += ["T1 DORMANT p1 16", *(f"T{number} DORMANT p1 1" for number in range(2, OBJECTS + 1))]
    configuration = f"NUM_PRC(1); CLASS(TCL_1) {{ {' '.join(apis)} }}"
    yield Run("255 of each kind", configuration, source, "run 1\n" * (made + 1), None, joined(lines))


def full_data_queue():
    """A queue of 255 words that is filled and emptied."""
    configuration = "NUM_PRC(1); CLASS(TCL_1) { CRE_TSK(T,{TA_ACT,0,m,1,256,NULL}); CRE_DTQ(D,{0,255,NULL}); }"
    source = """task m { var v; var i; while (i < 256) { i = i + 1; psnd_dtq(D, i); }
        while (i > 0) { i = i - 1; prcv_dtq(D, &v); } }"""
    lines = ["0 p1 T starts", "0 p1 > T", *(f"{n} p1 T psnd_dtq(1,{n}) E_OK" for n in range(1, 256))]
    lines += ["256 p1 T psnd_dtq(1,256) E_TMOUT", *(f"{256 + n} p1 T prcv_dtq(1) E_OK {n}" for n in range(1, 256))]
    lines += ["512 p1 T prcv_dtq(1) E_TMOUT", "513 p1 T end", "T DORMANT p1 1"]
    yield Run("a queue of 255 words", configuration, source, "run 1\n" * 513, None, joined(lines))


def full_counts():
    """A task that queues 255 activations of itself, and one that queues 255 wakeups and sleeps as often."""
    source = "task m { var i; while (i < 256) { i = i + 1; act_tsk(TSK_SELF); } can_act(TSK_SELF); can_act(TSK_SELF); }"
    lines = [*(f"{n} p1 T act_tsk(0) E_OK" for n in range(1, 256)), "256 p1 T act_tsk(0) E_QOVR"]
    lines += ["257 p1 T can_act(0) E_OK 255", "258 p1 T can_act(0) E_OK 0", "259 p1 T end", "T DORMANT p1 10"]
    yield lone("255 activations", source, "run 1\n" * 259, joined(lines))
    source = """task m { var i; while (i < 256) { i = i + 1; wup_tsk(TSK_SELF); }
        while (i > 0) { i = i - 1; slp_tsk(); } }"""
    lines = [*(f"{n} p1 T wup_tsk(0) E_OK" for n in range(1, 256)), "256 p1 T wup_tsk(0) E_QOVR"]
    lines += [f"{256 + n} p1 T slp_tsk() E_OK" for n in range(1, 256)]
    lines += ["512 p1 T slp_tsk() wait", "512 p1 > -", "T WAITING p1 10"]
    yield lone("255 wakeups", source, "run 1\n" * 512, joined(lines))


def longest_event():
    """A tick of 519 lines: its own, 255 ends of delays, 255 cyclic handlers, and one begins on each of 8 processors."""
    apis, waits, ends, begins = [], [], [], []
    numbers = range(1, OBJECTS + 1)
    processor = {number: (number - 1) % 8 + 1 for number in numbers}
    for number in numbers:
        place = processor[number]
        apis.append(f"CLASS(TCL_{place}) {{ CRE_TSK(T{number},{{TA_ACT,0,t,1,256,NULL}}); }}")
        apis.append(f"CLASS(TCL_{place}) {{ CRE_CYC(C{number},{{TA_STA,0,h,1,0}}); }}")
    for number in numbers:
        following = f"T{number + 8}" if number + 8 <= OBJECTS else "-"
        waits += [f"{number} p{processor[number]} T{number} dly_tsk(0) wait"]
        waits += [f"{number} p{processor[number]} > {following}"]
    tick = OBJECTS + 1
    ends = [f"{tick} p{processor[number]} T{number} gets E_OK" for number in numbers]
    ends += [f"{tick} p{processor[number]} cyc C{number}" for number in numbers]
    begins = [f"{tick} p{number} begin C{number}" for number in range(1, 9)]
    starts = [f"0 p{processor[number]} T{number} starts" for number in numbers]
    starts += [f"0 p{number} > T{number}" for number in range(1, 9)]
    states = [f"T{number} READY p{processor[number]} 1" for number in numbers]
    steps = "".join(f"run {processor[number]}\n" for number in numbers) + "tick\n"
    assert 1 + len(ends) + len(begins) == 519
    yield Run("519 lines of an event", f"NUM_PRC(8); {' '.join(apis)}", "task t { dly_tsk(0); } handler h { }", steps,
              None, joined([*starts, *waits, f"{tick} tick 1", *ends, *begins, *states]))


# Numbers of 32 bits: what an expression is, or how the body ends

EXPRESSIONS = """
2147483647 + 0 = 2147483647; 2147483647 + 1 = F_OVF; -2147483647 - 1 = -2147483648; -2147483647 - 2 = F_OVF
0 - (-2147483647 - 1) = F_OVF; -(-2147483647 - 1) = F_OVF; -2147483647 = -2147483647; -(-2147483647) = 2147483647
46340 * 46340 = 2147395600; 46341 * 46341 = F_OVF; 65536 * 32767 = 2147418112; 65536 * 32768 = F_OVF
-65536 * 32768 = -2147483648; (-2147483647 - 1) * -1 = F_OVF; (-2147483647 - 1) * 1 = -2147483648
65536 * 65536 = F_OVF; (-2147483647 - 1) * (-2147483647 - 1) = F_OVF; (-2147483647 - 1) / -1 = F_OVF
(-2147483647 - 1) % -1 = F_OVF; (-2147483647 - 1) / 1 = -2147483648; (-2147483647 - 1) % 1 = 0
2147483647 / -1 = -2147483647; 2147483647 % -1 = 0; 1 / 0 = F_DIV; 1 % 0 = F_DIV; 0 / 0 = F_DIV
(-2147483647 - 1) / 0 = F_DIV; (-2147483647 - 1) % 2147483647 = -1; (-2147483647 - 1) / 2147483647 = -1
-7 / 2 = -3; 7 / -2 = -3; -7 / -2 = 3; -7 % 2 = -1; 7 % -2 = 1; -7 % -2 = -1
~2147483647 = -2147483648; ~(-2147483647 - 1) = 2147483647; !(-2147483647 - 1) = 0; !0 = 1
2147483647 & -1 = 2147483647; 2147483647 ^ -1 = -2147483648; 2147483647 | (-2147483647 - 1) = -1
2147483647 > (-2147483647 - 1) = 1; (-2147483647 - 1) < 2147483647 = 1; 2147483647 == 2147483647 = 1
0 && 1 / 0 = 0; 1 || 1 / 0 = 1; 1 && 1 / 0 = F_DIV; 0 || 2147483647 + 1 = F_OVF; 1 / 0 + (2147483647 + 1) = F_DIV
(2147483647 + 1) + 1 / 0 = F_OVF; 1 && (-2147483647 - 1) = 1; 0 || (-2147483647 - 1) = 1
"""


def expressions():
    for row in EXPRESSIONS.strip().replace("\n", "; ").split("; "):
        text, value = row.rsplit(" = ", 1)
        is_fault = value.startswith("F_")
        line = f"1 p1 T {value}" if is_fault else f"1 p1 T put({value}) E_OK"
        state = "DORMANT" if is_fault else "RUNNING"
        yield lone(text, f"task m {{ put({text}); }}", "run 1\n", f"{line}\nT {state} p1 10\n")


# Statements of a body with `var v; var w[62];`, and the words that it puts, one in each event, or a fault.
ARRAYS = (
    ("put(w[0] + w[31] + w[61]);", "0"),
    ("w[0] = 7; w[61] = 8; put(w[0] + w[31] + w[61]); put(v + exinf);", "15 0"),
    ("v = 5; w[0] = 1; put(v + exinf);", "5"),
    ("w[1] = 2; w[w[1]] = 9; put(w[2]);", "9"),
    ("w[61] = -2147483647 - 1; put(w[61]);", "-2147483648"),
    ("v = put(1); w[v] = 4; put(w[0]);", "1 4"),
    *((f"put(w[{index}]);", "F_IDX") for index in ("-1", "62", "63", "256", "2147483647", "-2147483647 - 1")),
    *((f"w[{index}] = 1;", "F_IDX") for index in ("-1", "62", "63", "256", "2147483647", "-2147483647 - 1")),
    ("put(7); w[0] = 1; w[62] = w[0];", "7 F_IDX"),
    ("w[62] = 1 / 0;", "F_DIV"),
    ("w[-1] = 2147483647 + 1;", "F_OVF"),
    ("w[1 / 0] = 2147483647 + 1;", "F_DIV"),
    ("put(w[62] + 1 / 0);", "F_IDX"),
    ("put(0 && w[62]); put(1 || w[-1]); put(1 && w[62]);", "0 1 F_IDX"),
)


def arrays():
    for statements, answers in ARRAYS:
        lines = [f"{number} p1 T {word}" if word.startswith("F_") else f"{number} p1 T put({word}) E_OK"
                 for number, word in enumerate(answers.split(), 1)]
        state = "DORMANT" if "F_" in answers else "RUNNING"
        expected = "\n".join([*lines, f"T {state} p1 10\n"])
        yield lone(statements, f"task m {{ var v; var w[62]; {statements} }}", "run 1\n" * len(lines), expected)
    source = "task m { var a[11]; var i; get_pri(0, &i); a[i] = 7; put(a[10]); }"
    lines = "1 p1 T get_pri(0) E_OK 10\n2 p1 T put(7) E_OK\nT RUNNING p1 10\n"
    yield lone("the place that a call names", source, "run 1\nrun 1\n", lines)
    source = "task m { var a[3]; var i; i = 2; a[i] = 7; put(a[2]); a[3] = 1; }"
    lines = "1 p1 T put(7) E_OK\n2 p1 T F_IDX\nT DORMANT p1 10\n"
    yield lone("an array of three places", source, "run 1\nrun 1\n", lines)


def extended_information():
    """The least and the greatest number that a static API hands to a body."""
    for number in (-2147483647, 0, 2147483647):
        apis = f"CRE_TSK(T,{{TA_ACT,{number},m,1,256,NULL}}); CRE_CYC(C,{{TA_STA,{number},h,1,0}});"
        source = "task m { put(exinf); } handler h { put(exinf); }"
        lines = ["0 p1 T starts", "0 p1 > T", f"1 p1 T put({number}) E_OK", "2 tick 1", "2 p1 cyc C", "2 p1 begin C"]
        lines += [f"3 p1 C put({number}) E_OK", "4 p1 C end", "T RUNNING p1 1"]
        steps = "run 1\ntick\nrun 1\nrun 1\n"
        yield Run(f"exinf {number}", f"NUM_PRC(1); CLASS(TCL_1) {{ {apis} }}", source, steps, None, joined(lines))


# Stretches

def stretch(name, statements, size):
    """A body that ends after this many instructions, at that bound and at one less, where its second run ends it."""
    source = f"task m {{ var v; {statements} }}"
    done, nothing = "1 p1 T end\nT DORMANT p1 10\n", "T RUNNING p1 10\n"
    yield lone(f"{name}, bound {size}", source, "run 1\nrun 1\n", done, size)
    yield lone(f"{name}, bound {size - 1}", source, "run 1\n", nothing, size - 1)
    yield lone(f"{name}, bound {size - 1}, two runs", source, "run 1\nrun 1\n", done, size - 1)
    yield lone(f"{name}, greatest bound", source, "run 1\n", done, 1 << 48)


def stretches():
    yield from stretch("three instructions", "v = 1;", 3)
    yield from stretch("the longest body", f"v = 1{' + 1' * 32766};", 65535)
    # 4 to test and 5 to add and go back in each turn, 4 for the last test and 1 for the end; `v = -0;` takes 3.
    loop = "while (v < 11110) { v = v + 1; }"
    yield from stretch("a loop", loop, 9 * 11110 + 5)
    # One for each index, one for the load, one for the store and one for the end.
    yield from stretch("an array", "var a[2]; a[1] = a[0];", 5)
    # As the loop above, and 5 to load and store in each turn.
    over_array = "var a[9]; while (v < 9000) { a[v % 9] = a[0]; v = v + 1; }"
    yield from stretch("a loop over an array", over_array, 15 * 9000 + 5)
    done, nothing = "1 p1 T end\nT DORMANT p1 10\n", "T RUNNING p1 10\n"
    yield lone("100000 instructions", f"task m {{ var v; v = 0; v = -0; {loop} }}", "run 1\n", done)
    yield lone("100001 instructions", f"task m {{ var v; v = 0; v = 0; v = 0; {loop} }}", "run 1\n", nothing)
    for bound, line in ((1, ""), (2, "1 p1 T put(7) E_OK\n")):
        yield lone(f"a call, bound {bound}", "task m { put(7); }", "run 1\n", f"{line}T RUNNING p1 10\n", bound)
    yield lone("an end, bound 1", "task m { }", "run 1\n", done, 1)
    for bound, line, state in ((2, "", "RUNNING"), (3, "1 p1 T F_DIV\n", "DORMANT")):
        yield lone(f"a fault, bound {bound}", "task m { put(1 / 0); }", "run 1\n", f"{line}T {state} p1 10\n", bound)


def events():
    """As many events as there can be."""
    ticks = joined(f"{number} tick {number}" for number in range(1, GREATEST_EVENTS + 1))
    yield lone("2^20 ticks", "task m { }", "tick\n" * GREATEST_EVENTS, f"{ticks}T RUNNING p1 10\n")
    turns = joined(f"{number} p1 T put(1) E_OK" for number in range(1, GREATEST_EVENTS + 1))
    source = "task m { while (1) { put(1); } }"
    yield lone("2^20 runs", source, "run 1\n" * GREATEST_EVENTS, f"{turns}T RUNNING p1 10\n")
    yield lone("2^20 runs that keep a place", "task m { while (1) { } }", "run 1\n" * GREATEST_EVENTS,
               "T RUNNING p1 10\n", 1)
    delay = "1 p1 T dly_tsk(1) wait\n1 p1 > -\n2 tick 1\n3 tick 2\n3 p1 T gets E_OK\n3 p1 > T\nT RUNNING p1 10\n"
    yield lone("a delay of 1", "task m { dly_tsk(1); }", "run 1\ntick\ntick\n", delay)


def all_runs():
    groups = (calls, full_tables, full_data_queue, full_counts, longest_event, expressions, arrays)
    for group in (*groups, extended_information, stretches, events):
        yield from group()


# Steps: the processors, the text and its fault, if it has one

def all_steps():
    for processors in (1, 2, 7, 8):
        for number in (0, 1, processors, processors + 1, 9, 255, 256, 257, 10**30):
            fault = None if 1 <= number <= processors else "steps:2: S2"
            text = f"tick\nrun {number}\n" + ("x\n" if fault else "")
            yield f"run {number} of {processors}", processors, text, fault
    for number in (0, 1, 32, 33, 255, 256, 257, 288, 1 << 32, (1 << 64) + 1):
        fault = None if 1 <= number <= 32 else "steps:2: S2"
        yield f"int {number}", 1, f"tick\nint {number}\n" + ("x\n" if fault else ""), fault
    full = "tick\n" * GREATEST_EVENTS
    yield "2^20 steps", 1, full, None
    yield "2^20 steps, the last without its line feed", 1, full[:-1], None
    for more in ("tick\n", "x", "\n", "run 9\n", "int 0", "tick"):
        yield f"2^20 steps and {more!r}", 1, full + more, f"steps:{GREATEST_EVENTS + 1}: S3"
    yield "a fault before too many", 1, f"tick\nrun 2\n{full}", "steps:2: S2"
    yield "a fault in the last line", 1, full[:-5] + "tack\n", f"steps:{GREATEST_EVENTS}: S1"
    yield "a fault in the last line but too many", 1, full[:-5] + "int 33\ntick\n", f"steps:{GREATEST_EVENTS}: S2"
    yield "no steps", 8, "", None
