"""Rows of runs: two texts, steps, a bound, and what is printed. In each trace ` / ` stands for a line feed."""

DEFAULT_BOUND = 100_000


def alone(*apis):
    """A configuration of one processor with these static APIs."""
    return f"NUM_PRC(1); CLASS(TCL_1) {{ {' '.join(apis)} }}"


def task(name, body, priority=10, attribute="TA_ACT"):
    return f"CRE_TSK({name},{{{attribute},0,{body},{priority},256,NULL}});"


def idle(name, body, priority=10):
    """A task that is not started at setup."""
    return task(name, body, priority, "0")


def apart(first, second):
    """A configuration of two processors with static APIs of each."""
    return f"NUM_PRC(2); CLASS(TCL_1) {{ {first} }} CLASS(TCL_2) {{ {second} }}"


def runs(count, ticks=0):
    """The steps of this many stretches of processor 1 and then this many ticks."""
    return count * "run 1\n" + ticks * "tick\n"


def steps(text):
    """Steps that are parted by commas."""
    return text.replace(",", "\n") + "\n"


# The values of expressions, and how the stretch ends that hands them to `put`.
VALUES = """
1 - 2 - 3 * TA_CLR => put(-13) E_OK
2 + 3 * 4 => put(14) E_OK
6 & 3 | 8 ^ 1 => put(11) E_OK
1 < 2 == 1 => put(1) E_OK
3 >= 3 => put(1) E_OK
3 != 3 => put(0) E_OK
-1 ^ 5 => put(-6) E_OK
-7 / 2 => put(-3) E_OK
-7 % 2 => put(-1) E_OK
7 % -2 => put(1) E_OK
~0 => put(-1) E_OK
!7 => put(0) E_OK
0 && 1/0 => put(0) E_OK
5 && 7 => put(1) E_OK
1 || 1/0 => put(1) E_OK
0 || 5 => put(1) E_OK
-65536 * 32768 => put(-2147483648) E_OK
65536 * 32768 => F_OVF
2147483647 + 1 => F_OVF
-(-2147483647 - 1) => F_OVF
(-2147483647 - 1) / -1 => F_OVF
(-2147483647 - 1) % -1 => F_OVF
1 / 0 => F_DIV
1 % 0 => F_DIV
exinf => put(0) E_OK
T1 => put(1) E_OK
E_OK => put(0) E_OK
E_TMOUT => put(-50) E_OK
E_NOSPT => put(-9) E_OK
E_QOVR => put(-43) E_OK
TA_HLNG => put(0) E_OK
TA_TPRI => put(1) E_OK
TA_MPRI => put(2) E_OK
TA_ACT => put(2) E_OK
TA_WMUL => put(2) E_OK
TA_CLR => put(4) E_OK
TA_STA => put(2) E_OK
TWF_ORW => put(1) E_OK
TMO_POL => put(0) E_OK
TMO_FEVR => put(-1) E_OK
TPRI_SELF => put(0) E_OK
"""

ONE = alone(task("T1", "main"))
SETUP = "0 p1 T1 starts / 0 p1 > T1 / "
WHOLE = SETUP + "1 p1 T1 put(7) E_OK / 2 p1 T1 end / T1 DORMANT p1 10 / "

# A stretch up to `put` takes two instructions; that of the second text six, since the second operand of `&&` is not
# evaluated; and one without an end takes nothing from another processor. A run that the bound cuts short keeps its
# place, so that the next one goes on from there.
AND = "task m { var x; x = 0 && 1/0; put(x); }"
BOUNDS = (
    (ONE, "task main { put(7); }", runs(3), DEFAULT_BOUND, WHOLE),
    (ONE, "task main { put(7); }", runs(3), 2, WHOLE),
    (ONE, "task main { put(7); }", runs(1), 1, SETUP + "T1 RUNNING p1 10 / "),
    (ONE, "task main { put(7); }", runs(2), 1, SETUP + "1 p1 T1 put(7) E_OK / T1 RUNNING p1 10 / "),
    (ONE, "task main { put(7); }", runs(3), 1, WHOLE),
    (
        ONE,
        "task main { put(7); }",
        runs(1, 2),
        2,
        SETUP + "1 p1 T1 put(7) E_OK / 2 tick 1 / 3 tick 2 / T1 RUNNING p1 10 / ",
    ),
    ("NUM_PRC(1);", "", runs(1), DEFAULT_BOUND, ""),
    (alone(task("M", "m")), AND, runs(1), 5, "0 p1 M starts / 0 p1 > M / M RUNNING p1 10 / "),
    (alone(task("M", "m")), AND, runs(2), 5, "0 p1 M starts / 0 p1 > M / 1 p1 M put(0) E_OK / M RUNNING p1 10 / "),
    (alone(task("M", "m")), AND, runs(1), 6, "0 p1 M starts / 0 p1 > M / 1 p1 M put(0) E_OK / M RUNNING p1 10 / "),
    (
        apart(task("A", "a"), task("B", "b")),
        "task a { while (1) { } } task b { put(1); put(2); }",
        steps("run 1,run 2,run 1,run 2,run 2"),
        1000,
        "0 p1 A starts / 0 p2 B starts / 0 p1 > A / 0 p2 > B / 1 p2 B put(1) E_OK / 2 p2 B put(2) E_OK / 3 p2 B end / "
        "A RUNNING p1 10 / B DORMANT p2 10 / ",
    ),
    (
        apart(task("A", "a"), task("B", "b")),
        "task a { while (1) { } } task b { put(1); put(2); }",
        5 * "run 2\n",
        1,
        "0 p1 A starts / 0 p2 B starts / 0 p1 > A / 0 p2 > B / 1 p2 B put(1) E_OK / 2 p2 B put(2) E_OK / 3 p2 B end / "
        "A RUNNING p1 10 / B DORMANT p2 10 / ",
    ),
)

HANDLED = alone(task("T", "t"), idle("U", "u", 5), "DEF_INH(3,{0,h});")
HANDLER = "task t { loc_cpu(); unl_cpu(); put(1); } task u { } handler h { iact_tsk(U); }"

# What a run is of, its two texts, its steps, and what is printed.
RUNS = (
    (
        "a semaphore in order of priority",
        alone(task("M", "m", 16), idle("A", "w"), idle("B", "w", 5), idle("C", "w", 5), "CRE_SEM(S,{TA_TPRI,0,3});"),
        "task w { wai_sem(S); } "
        "task m { act_tsk(A); act_tsk(B); act_tsk(C); sig_sem(S); sig_sem(S); sig_sem(S); }",
        runs(12),
        "0 p1 M starts / 0 p1 > M / 1 p1 M act_tsk(2) E_OK / 1 p1 A starts / 1 p1 > A / 2 p1 A wai_sem(1) wait / "
        "2 p1 > M / 3 p1 M act_tsk(3) E_OK / 3 p1 B starts / 3 p1 > B / 4 p1 B wai_sem(1) wait / 4 p1 > M / "
        "5 p1 M act_tsk(4) E_OK / 5 p1 C starts / 5 p1 > C / 6 p1 C wai_sem(1) wait / 6 p1 > M / "
        "7 p1 M sig_sem(1) E_OK / 7 p1 B gets E_OK / 7 p1 > B / 8 p1 B end / 8 p1 > M / 9 p1 M sig_sem(1) E_OK / "
        "9 p1 C gets E_OK / 9 p1 > C / 10 p1 C end / 10 p1 > M / 11 p1 M sig_sem(1) E_OK / 11 p1 A gets E_OK / "
        "11 p1 > A / 12 p1 A end / 12 p1 > M / M RUNNING p1 16 / A DORMANT p1 10 / B DORMANT p1 5 / C DORMANT p1 5 / ",
    ),
    (
        "a change of priority behind its equals",
        alone(task("M", "m", 16), idle("A", "w"), idle("B", "w", 5), idle("C", "w", 5), "CRE_SEM(S,{TA_TPRI,0,3});"),
        "task w { wai_sem(S); } "
        "task m { act_tsk(A); act_tsk(B); act_tsk(C); chg_pri(B,5); sig_sem(S); sig_sem(S); sig_sem(S); }",
        runs(8),
        "0 p1 M starts / 0 p1 > M / 1 p1 M act_tsk(2) E_OK / 1 p1 A starts / 1 p1 > A / 2 p1 A wai_sem(1) wait / "
        "2 p1 > M / 3 p1 M act_tsk(3) E_OK / 3 p1 B starts / 3 p1 > B / 4 p1 B wai_sem(1) wait / 4 p1 > M / "
        "5 p1 M act_tsk(4) E_OK / 5 p1 C starts / 5 p1 > C / 6 p1 C wai_sem(1) wait / 6 p1 > M / "
        "7 p1 M chg_pri(3,5) E_OK / 8 p1 M sig_sem(1) E_OK / 8 p1 C gets E_OK / 8 p1 > C / M READY p1 16 / "
        "A WAITING p1 10 / B WAITING p1 5 / C RUNNING p1 5 / ",
    ),
    (
        "a flag that is cleared",
        alone(task("M", "m", 16), idle("A", "w"), idle("B", "w"), "CRE_FLG(F,{TA_WMUL|TA_CLR,0});"),
        "task w { var p; wai_flg(F,1,TWF_ANDW,&p); put(p); } "
        "task m { var q; act_tsk(A); act_tsk(B); set_flg(F,3); pol_flg(F,2,TWF_ORW,&q); }",
        runs(8),
        "0 p1 M starts / 0 p1 > M / 1 p1 M act_tsk(2) E_OK / 1 p1 A starts / 1 p1 > A / 2 p1 A wai_flg(1,1,0) wait / "
        "2 p1 > M / 3 p1 M act_tsk(3) E_OK / 3 p1 B starts / 3 p1 > B / 4 p1 B wai_flg(1,1,0) wait / 4 p1 > M / "
        "5 p1 M set_flg(1,3) E_OK / 5 p1 A gets E_OK 3 / 5 p1 > A / 6 p1 A put(3) E_OK / 7 p1 A end / 7 p1 > M / "
        "8 p1 M pol_flg(1,2,1) E_TMOUT / M RUNNING p1 16 / A DORMANT p1 10 / B WAITING p1 10 / ",
    ),
    (
        "a data queue without places",
        alone(task("M", "m", 16), idle("A", "a"), "CRE_DTQ(D,{0,0,NULL});"),
        "task a { snd_dtq(D,42); } task m { var v; act_tsk(A); rcv_dtq(D,&v); fsnd_dtq(D,1); }",
        runs(5),
        "0 p1 M starts / 0 p1 > M / 1 p1 M act_tsk(2) E_OK / 1 p1 A starts / 1 p1 > A / 2 p1 A snd_dtq(1,42) wait / "
        "2 p1 > M / 3 p1 M rcv_dtq(1) E_OK 42 / 3 p1 A gets E_OK / 3 p1 > A / 4 p1 A end / 4 p1 > M / "
        "5 p1 M fsnd_dtq(1,1) E_ILUSE / M RUNNING p1 16 / A DORMANT p1 10 / ",
    ),
    (
        "a data queue of one place",
        alone(task("M", "m", 16), idle("A", "a"), "CRE_DTQ(D,{0,1,NULL});"),
        "task a { snd_dtq(D,1); snd_dtq(D,2); } "
        "task m { var v; act_tsk(A); fsnd_dtq(D,3); rcv_dtq(D,&v); rcv_dtq(D,&v); }",
        runs(7),
        "0 p1 M starts / 0 p1 > M / 1 p1 M act_tsk(2) E_OK / 1 p1 A starts / 1 p1 > A / 2 p1 A snd_dtq(1,1) E_OK / "
        "3 p1 A snd_dtq(1,2) wait / 3 p1 > M / 4 p1 M fsnd_dtq(1,3) E_OK / 5 p1 M rcv_dtq(1) E_OK 3 / "
        "5 p1 A gets E_OK / 5 p1 > A / 6 p1 A end / 6 p1 > M / 7 p1 M rcv_dtq(1) E_OK 2 / M RUNNING p1 16 / "
        "A DORMANT p1 10 / ",
    ),
    (
        "delays",
        alone(task("A", "a"), task("B", "b"), task("C", "b", 5)),
        "task a { dly_tsk(0); } task b { dly_tsk(1); }",
        runs(3, 2),
        "0 p1 A starts / 0 p1 B starts / 0 p1 C starts / 0 p1 > C / 1 p1 C dly_tsk(1) wait / 1 p1 > A / "
        "2 p1 A dly_tsk(0) wait / 2 p1 > B / 3 p1 B dly_tsk(1) wait / 3 p1 > - / 4 tick 1 / 4 p1 A gets E_OK / "
        "4 p1 > A / 5 tick 2 / 5 p1 B gets E_OK / 5 p1 C gets E_OK / 5 p1 > C / A READY p1 10 / B READY p1 10 / "
        "C RUNNING p1 5 / ",
    ),
    (
        "a wait that is released",
        alone(task("M", "m", 16), idle("A", "a")),
        "task a { slp_tsk(); } task m { act_tsk(A); rel_wai(A); rel_wai(A); }",
        runs(5),
        "0 p1 M starts / 0 p1 > M / 1 p1 M act_tsk(2) E_OK / 1 p1 A starts / 1 p1 > A / 2 p1 A slp_tsk() wait / "
        "2 p1 > M / 3 p1 M rel_wai(2) E_OK / 3 p1 A gets E_RLWAI / 3 p1 > A / 4 p1 A end / 4 p1 > M / "
        "5 p1 M rel_wai(2) E_OBJ / M RUNNING p1 16 / A DORMANT p1 10 / ",
    ),
    (
        "a mailbox in order of priority",
        alone(task("M", "m"), "CRE_MBX(X,{TA_MPRI,3,NULL}); CRE_MSG(G,{2}); CRE_MSG(H,{1});"),
        "task m { var g; snd_mbx(X,G); snd_mbx(X,H); snd_mbx(X,G); rcv_mbx(X,&g); }",
        runs(4),
        "0 p1 M starts / 0 p1 > M / 1 p1 M snd_mbx(1,1) E_OK / 2 p1 M snd_mbx(1,2) E_OK / 3 p1 M snd_mbx(1,1) E_OBJ / "
        "4 p1 M rcv_mbx(1) E_OK 2 / M RUNNING p1 10 / ",
    ),
    (
        "a task that may not leave its processor, and one of another",
        "NUM_PRC(2); CLASS(TCL_1_ONLY) { CRE_TSK(M,{TA_ACT,0,m,10,256,NULL}); } "
        "CLASS(TCL_2) { CRE_TSK(N,{TA_ACT,0,e,10,256,NULL}); }",
        "task m { mig_tsk(M,2); mig_tsk(N,1); } task e { }",
        runs(2),
        "0 p1 M starts / 0 p2 N starts / 0 p1 > M / 0 p2 > N / 1 p1 M mig_tsk(1,2) E_PAR / "
        "2 p1 M mig_tsk(2,1) E_OBJ / M RUNNING p1 10 / N RUNNING p2 10 / ",
    ),
    (
        "a task that activates itself elsewhere",
        apart(task("T", "t"), ""),
        "task t { mact_tsk(TSK_SELF,2); }",
        steps("run 1,run 1,run 2"),
        "0 p1 T starts / 0 p1 > T / 1 p1 T mact_tsk(0,2) E_OK / 2 p1 T end / 2 p2 T starts / 2 p2 > T / "
        "3 p2 T mact_tsk(0,2) E_OK / T RUNNING p2 10 / ",
    ),
    (
        "a spin lock that another processor holds",
        apart(task("A", "a") + "CRE_SPN(L,{0});", task("B", "b")),
        "task a { loc_spn(L); unl_spn(L); } task b { loc_spn(L); }",
        steps("run 1,run 2,run 2,run 2,run 1,run 2"),
        "0 p1 A starts / 0 p2 B starts / 0 p1 > A / 0 p2 > B / 1 p1 A loc_spn(1) E_OK / 2 p1 A unl_spn(1) E_OK / "
        "3 p2 B loc_spn(1) E_OK / A RUNNING p1 10 / B RUNNING p2 10 / ",
    ),
    (
        "a fault gives a spin lock back",
        alone(task("T", "t"), "CRE_SHR(W,{0}); CRE_SPN(L,{0});"),
        "task t { var v; var x; ld_shr(W,&v); st_shr(W,1); act_tsk(TSK_SELF); loc_spn(L); "
        "if (v == 0) { x = (-2147483647 - 1) / -1; } x = 1 / 0; }",
        runs(10),
        "0 p1 T starts / 0 p1 > T / 1 p1 T ld_shr(1) E_OK 0 / 2 p1 T st_shr(1,1) E_OK / 3 p1 T act_tsk(0) E_OK / "
        "4 p1 T loc_spn(1) E_OK / 5 p1 T F_OVF / 5 p1 T starts / 5 p1 > T / 6 p1 T ld_shr(1) E_OK 1 / "
        "7 p1 T st_shr(1,1) E_OK / 8 p1 T act_tsk(0) E_OK / 9 p1 T loc_spn(1) E_OK / 10 p1 T F_DIV / 10 p1 T starts / "
        "10 p1 > T / T RUNNING p1 10 / ",
    ),
    (
        "an interrupt under a CPU lock",
        HANDLED,
        HANDLER,
        steps("run 1,int 3,int 3,run 1,run 1,run 1,run 1"),
        "0 p1 T starts / 0 p1 > T / 1 p1 T loc_cpu() E_OK / 2 int 3 / 3 p1 T unl_cpu() E_OK / 3 p1 begin #3 / "
        "4 p1 #3 iact_tsk(2) E_OK / 4 p1 U starts / 5 p1 #3 end / 5 p1 > U / 6 p1 U end / 6 p1 > T / "
        "T RUNNING p1 10 / U DORMANT p1 5 / ",
    ),
    (
        "an interrupt within its handler",
        HANDLED,
        HANDLER,
        steps("int 3,run 1,int 3,run 1,run 1,run 1,run 1,run 1"),
        "0 p1 T starts / 0 p1 > T / 1 int 3 / 1 p1 begin #3 / 2 p1 #3 iact_tsk(2) E_OK / 2 p1 U starts / 3 int 3 / "
        "4 p1 #3 end / 4 p1 begin #3 / 5 p1 #3 iact_tsk(2) E_OK / 6 p1 #3 end / 6 p1 > U / 7 p1 U end / "
        "7 p1 U starts / 7 p1 > U / 8 p1 U end / 8 p1 > T / T RUNNING p1 10 / U DORMANT p1 5 / ",
    ),
    (
        "an interrupt without a handler",
        ONE,
        "task main { put(7); }",
        steps("int 3,run 1"),
        SETUP + "1 p1 T1 put(7) E_OK / T1 RUNNING p1 10 / ",
    ),
    (
        "a cyclic handler",
        alone("CRE_CYC(C,{TA_STA,0,h,2,0});"),
        "handler h { put(exinf); }",
        steps("tick,run 1,run 1,tick,tick"),
        "1 tick 1 / 1 p1 cyc C / 1 p1 begin C / 2 p1 C put(0) E_OK / 3 p1 C end / 4 tick 2 / 5 tick 3 / 5 p1 cyc C / "
        "5 p1 begin C / ",
    ),
    (
        "a task that is suspended while it waits",
        apart(task("T", "t"), task("S", "s")),
        "task t { slp_tsk(); } task s { sus_tsk(T); }",
        steps("run 1,run 2"),
        "0 p1 T starts / 0 p2 S starts / 0 p1 > T / 0 p2 > S / 1 p1 T slp_tsk() wait / 1 p1 > - / "
        "2 p2 S sus_tsk(1) E_OK / T WAITING-SUSPENDED p1 10 / S RUNNING p2 10 / ",
    ),
    (
        "a task that is suspended where dispatching is disabled",
        apart(task("T", "t"), task("S", "s")),
        "task t { dis_dsp(); put(1); ena_dsp(); } task s { sus_tsk(T); }",
        steps("run 1,run 2,run 1,run 1"),
        "0 p1 T starts / 0 p2 S starts / 0 p1 > T / 0 p2 > S / 1 p1 T dis_dsp() E_OK / 2 p2 S sus_tsk(1) E_OK / "
        "3 p1 T put(1) E_OK / 4 p1 T ena_dsp() E_OK / 4 p1 > - / T SUSPENDED p1 10 / S RUNNING p2 10 / ",
    ),
)


BEHIND_ANOTHER = apart(task("M", "m"), task("A", "a") + task("B", "a"))
BEHIND_ANOTHER_SETUP = "0 p1 M starts / 0 p2 A starts / 0 p2 B starts / 0 p1 > M / 0 p2 > A / "


def repeated(first, last, line):
    """The same line at the end of each event from the first to the last."""
    return "".join(f"{event} {line} / " for event in range(first, last + 1))


ROTATIONS = (
    (
        "a queue of another processor, and one of none",
        BEHIND_ANOTHER,
        "task m { mrot_rdq(10,2); mrot_rdq(10,3); } task a { }",
        steps("run 1,run 1,run 2"),
        BEHIND_ANOTHER_SETUP + "1 p1 M mrot_rdq(10,2) E_OK / 1 p2 > B / 2 p1 M mrot_rdq(10,3) E_PAR / 3 p2 B end / "
        "3 p2 > A / M RUNNING p1 10 / A RUNNING p2 10 / B DORMANT p2 10 / ",
    ),
    (
        "the queue of the caller's priority, which was changed",
        apart(task("M", "m", 5), task("A", "a") + task("B", "a")),
        "task m { mrot_rdq(0,2); chg_pri(TSK_SELF,10); mrot_rdq(TPRI_SELF,2); } task a { }",
        runs(3),
        BEHIND_ANOTHER_SETUP + "1 p1 M mrot_rdq(0,2) E_OK / 2 p1 M chg_pri(0,10) E_OK / 3 p1 M mrot_rdq(0,2) E_OK / "
        "3 p2 > B / M RUNNING p1 10 / A READY p2 10 / B RUNNING p2 10 / ",
    ),
    (
        "the queue of the caller",
        alone(task("M", "m"), task("N", "n")),
        "task m { mrot_rdq(TPRI_SELF,1); } task n { }",
        runs(1),
        "0 p1 M starts / 0 p1 N starts / 0 p1 > M / 1 p1 M mrot_rdq(0,1) E_OK / 1 p1 > N / M READY p1 10 / "
        "N RUNNING p1 10 / ",
    ),
    (
        "one ready task, then none; each refusal",
        apart(task("M", "m"), task("A", "a")),
        "task m { mrot_rdq(10,2); mrot_rdq(10,2); mrot_rdq(17,2); mrot_rdq(-1,2); mrot_rdq(1,0); mrot_rdq(16,3); "
        "loc_cpu(); mrot_rdq(17,0); unl_cpu(); dis_dsp(); mrot_rdq(10,1); } task a { }",
        steps("run 1,run 2") + runs(10),
        "0 p1 M starts / 0 p2 A starts / 0 p1 > M / 0 p2 > A / 1 p1 M mrot_rdq(10,2) E_OK / 2 p2 A end / "
        "3 p1 M mrot_rdq(10,2) E_OK / 4 p1 M mrot_rdq(17,2) E_PAR / 5 p1 M mrot_rdq(-1,2) E_PAR / "
        "6 p1 M mrot_rdq(1,0) E_PAR / 7 p1 M mrot_rdq(16,3) E_PAR / 8 p1 M loc_cpu() E_OK / "
        "9 p1 M mrot_rdq(17,0) E_CTX / 10 p1 M unl_cpu() E_OK / 11 p1 M dis_dsp() E_OK / "
        "12 p1 M mrot_rdq(10,1) E_OK / M RUNNING p1 10 / A DORMANT p2 10 / ",
    ),
    (
        "a queue whose processor is locked, which dispatches at the unlock",
        apart(task("M", "m"), task("A", "a") + task("B", "b")),
        "task m { mrot_rdq(10,2); } task a { loc_cpu(); unl_cpu(); } task b { }",
        steps("run 2,run 1,run 2"),
        BEHIND_ANOTHER_SETUP + "1 p2 A loc_cpu() E_OK / 2 p1 M mrot_rdq(10,2) E_OK / 3 p2 A unl_cpu() E_OK / "
        "3 p2 > B / M RUNNING p1 10 / A READY p2 10 / B RUNNING p2 10 / ",
    ),
    (
        "a handler that may not",
        alone("DEF_INH(3,{0,h});"),
        "handler h { mrot_rdq(17,9); }",
        steps("int 3,run 1"),
        "1 int 3 / 1 p1 begin #3 / 2 p1 #3 mrot_rdq(17,9) E_CTX / ",
    ),
)

SELF = alone(task("T", "t"))
SELF_SETUP = "0 p1 T starts / 0 p1 > T / "
ELSEWHERE = apart(task("T", "t"), "")

# As many activations and wakeups of a task as can be queued.
QUEUES = (
    (
        "activations",
        SELF,
        "task t { while (1) { act_tsk(TSK_SELF); } }",
        runs(256),
        SELF_SETUP + repeated(1, 255, "p1 T act_tsk(0) E_OK") + "256 p1 T act_tsk(0) E_QOVR / T RUNNING p1 10 / ",
    ),
    (
        "wakeups, which are taken one by one",
        SELF,
        "task t { var i; while (i < 256) { wup_tsk(TSK_SELF); i = i + 1; } while (1) { slp_tsk(); } }",
        runs(512),
        SELF_SETUP + repeated(1, 255, "p1 T wup_tsk(0) E_OK") + "256 p1 T wup_tsk(0) E_QOVR / "
        + repeated(257, 511, "p1 T slp_tsk() E_OK") + "512 p1 T slp_tsk() wait / 512 p1 > - / T WAITING p1 10 / ",
    ),
    (
        "the processor that was stored last; the start after it stays there",
        apart(task("M", "m"), task("T", "t")),
        "task m { mact_tsk(T,2); mact_tsk(T,1); } task t { }",
        steps("run 1,run 1,run 2,run 1,run 1,run 1"),
        "0 p1 M starts / 0 p2 T starts / 0 p1 > M / 0 p2 > T / 1 p1 M mact_tsk(2,2) E_OK / 2 p1 M mact_tsk(2,1) E_OK / "
        "3 p2 T end / 3 p1 T starts / 4 p1 M end / 4 p1 > T / 5 p1 T end / 5 p1 T starts / 5 p1 > T / 6 p1 T end / "
        "M DORMANT p1 10 / T DORMANT p1 10 / ",
    ),
    (
        "the processor that was stored last; each later start stays where the task is then",
        apart(task("M", "m"), task("T", "t")),
        "task m { mact_tsk(T,2); mact_tsk(T,1); act_tsk(T); } task t { mig_tsk(TSK_SELF,2); }",
        steps("run 1,run 1,run 1,run 1,run 2,run 2,run 1,run 2,run 2,run 2,run 2,run 2"),
        "0 p1 M starts / 0 p2 T starts / 0 p1 > M / 0 p2 > T / 1 p1 M mact_tsk(2,2) E_OK / 2 p1 M mact_tsk(2,1) E_OK / "
        "3 p1 M act_tsk(2) E_OK / 4 p1 M end / 5 p2 T mig_tsk(0,2) E_OK / 6 p2 T end / 6 p1 T starts / 6 p1 > T / "
        "7 p1 T mig_tsk(0,2) E_OK / 7 p1 > - / 7 p2 > T / 8 p2 T end / 8 p2 T starts / 8 p2 > T / "
        "9 p2 T mig_tsk(0,2) E_OK / 10 p2 T end / 10 p2 T starts / 10 p2 > T / 11 p2 T mig_tsk(0,2) E_OK / "
        "12 p2 T end / M DORMANT p1 10 / T DORMANT p2 10 / ",
    ),
    (
        "activations that are cancelled with the stored processor",
        ELSEWHERE,
        "task t { var i; var n; mact_tsk(TSK_SELF,2); while (i < 254) { act_tsk(TSK_SELF); i = i + 1; } "
        "act_tsk(TSK_SELF); n = can_act(TSK_SELF); put(n); act_tsk(TSK_SELF); }",
        runs(260),
        SELF_SETUP + "1 p1 T mact_tsk(0,2) E_OK / " + repeated(2, 255, "p1 T act_tsk(0) E_OK")
        + "256 p1 T act_tsk(0) E_QOVR / 257 p1 T can_act(0) E_OK 255 / 258 p1 T put(255) E_OK / "
        "259 p1 T act_tsk(0) E_OK / 260 p1 T end / 260 p1 T starts / 260 p1 > T / T RUNNING p1 10 / ",
    ),
    (
        "an activation that is refused stores no processor",
        ELSEWHERE,
        "task t { var i; mact_tsk(TSK_SELF,2); while (i < 254) { act_tsk(TSK_SELF); i = i + 1; } "
        "mact_tsk(TSK_SELF,1); }",
        runs(257),
        SELF_SETUP + "1 p1 T mact_tsk(0,2) E_OK / " + repeated(2, 255, "p1 T act_tsk(0) E_OK")
        + "256 p1 T mact_tsk(0,1) E_QOVR / 257 p1 T end / 257 p2 T starts / 257 p2 > T / T RUNNING p2 10 / ",
    ),
)


# The body of a task, and of each of its stretches how many instructions it takes and what its line says. Bounds of 1
# to 6 cut it at each place.
CUTS = (
    # between the operands of operators
    ("put(2 + 3 * 4);", (6, "put(14) E_OK"), (1, "end")),
    # between the arguments of a call
    ("chg_pri(TSK_SELF, 4 + 6);", (5, "chg_pri(0,10) E_OK"), (1, "end")),
    # between the index and the value of a store
    ("var a[2]; a[1] = 5 - 2; put(a[1]);", (8, "put(3) E_OK"), (1, "end")),
    # before a call to which a jump leads
    ("put(5 && 7);", (6, "put(1) E_OK"), (1, "end")),
    ("put(1 || 1/0);", (5, "put(1) E_OK"), (1, "end")),
    # in a loop
    ("var v; while (v < 3) { v = v + 1; } put(v);", (33, "put(3) E_OK"), (1, "end")),
    # behind a reply
    ("var v; v = put(7); put(v + 1);", (2, "put(7) E_OK"), (4, "put(1) E_OK"), (1, "end")),
    # before a fault
    ("put(1 + 1 / 0);", (4, "F_DIV")),
)


def cut(statements, *stretches):
    """The rows of a body at bounds 1 to 6: over as many runs as its stretches take, and over one less."""
    source = f"task t {{ {statements} }}"
    lines = [f"{number} p1 T {said} / " for number, (_, said) in enumerate(stretches, 1)]
    for bound in range(1, 7):
        count = sum(-(-size // bound) for size, _ in stretches)
        yield SELF, source, runs(count), bound, SELF_SETUP + "".join(lines) + "T DORMANT p1 10 / "
        yield SELF, source, runs(count - 1), bound, SELF_SETUP + "".join(lines[:-1]) + "T RUNNING p1 10 / "


# While M waits, the stretch of T, which takes four instructions up to `put`, is cut short behind three of them. Then M
# goes on, of greater priority, and does this to T.
CUT_TASK = "task t { put(1 + 2); }"
CUT_CLASS = task("M", "m", 5) + " " + task("T", "t")
CUT_STEPS = "run 1,run 1,tick,tick,"
CUT_SETUP = (
    "0 p1 M starts / 0 p1 T starts / 0 p1 > M / 1 p1 M dly_tsk(1) wait / 1 p1 > T / 2 tick 1 / 3 tick 2 / "
    "3 p1 M gets E_OK / 3 p1 > M / "
)

# What is run at bound 3, its two texts, its steps, and what is printed.
KEPT = (
    (
        "a task that is preempted",
        alone(CUT_CLASS),
        "task m { dly_tsk(1); } " + CUT_TASK,
        steps(CUT_STEPS + "run 1,run 1"),
        CUT_SETUP + "4 p1 M end / 4 p1 > T / 5 p1 T put(3) E_OK / M DORMANT p1 5 / T RUNNING p1 10 / ",
    ),
    (
        "a task that is suspended, and goes on",
        alone(CUT_CLASS),
        "task m { dly_tsk(1); sus_tsk(T); rsm_tsk(T); } " + CUT_TASK,
        steps(CUT_STEPS + "run 1,run 1,run 1,run 1"),
        CUT_SETUP + "4 p1 M sus_tsk(2) E_OK / 5 p1 M rsm_tsk(2) E_OK / 6 p1 M end / 6 p1 > T / 7 p1 T put(3) E_OK / "
        "M DORMANT p1 5 / T RUNNING p1 10 / ",
    ),
    (
        "a task that migrates",
        apart(CUT_CLASS, ""),
        "task m { dly_tsk(1); mig_tsk(T,2); } " + CUT_TASK,
        steps(CUT_STEPS + "run 1,run 2"),
        CUT_SETUP + "4 p1 M mig_tsk(2,2) E_OK / 4 p2 > T / 5 p2 T put(3) E_OK / M RUNNING p1 5 / T RUNNING p2 10 / ",
    ),
    (
        "a task that is terminated, and starts again from its beginning",
        alone(CUT_CLASS),
        "task m { dly_tsk(1); ter_tsk(T); act_tsk(T); } " + CUT_TASK,
        steps(CUT_STEPS + "run 1,run 1,run 1,run 1"),
        CUT_SETUP + "4 p1 M ter_tsk(2) E_OK / 5 p1 M act_tsk(2) E_OK / 5 p1 T starts / 6 p1 M end / 6 p1 > T / "
        "M DORMANT p1 5 / T RUNNING p1 10 / ",
    ),
    (
        "the same, and one run more",
        alone(CUT_CLASS),
        "task m { dly_tsk(1); ter_tsk(T); act_tsk(T); } " + CUT_TASK,
        steps(CUT_STEPS + "run 1,run 1,run 1,run 1,run 1"),
        CUT_SETUP + "4 p1 M ter_tsk(2) E_OK / 5 p1 M act_tsk(2) E_OK / 5 p1 T starts / 6 p1 M end / 6 p1 > T / "
        "7 p1 T put(3) E_OK / M DORMANT p1 5 / T RUNNING p1 10 / ",
    ),
    (
        "a task that starts again after a fault, from its beginning",
        alone(task("T", "t")),
        "task t { act_tsk(TSK_SELF); put(1 + 1 / 0); }",
        steps("run 1,run 1,run 1,run 1"),
        "0 p1 T starts / 0 p1 > T / 1 p1 T act_tsk(0) E_OK / 2 p1 T F_DIV / 2 p1 T starts / 2 p1 > T / "
        "3 p1 T act_tsk(0) E_OK / T RUNNING p1 10 / ",
    ),
    (
        "a handler",
        alone(idle("U", "u"), "DEF_INH(3,{0,h});"),
        "task u { } handler h { iact_tsk(1 + 0); }",
        steps("int 3,run 1,run 1,run 1"),
        "1 int 3 / 1 p1 begin #3 / 2 p1 #3 iact_tsk(1) E_OK / 2 p1 U starts / 3 p1 #3 end / 3 p1 > U / "
        "U RUNNING p1 10 / ",
    ),
    (
        "a task below a handler",
        alone(task("T", "t"), "DEF_INH(3,{0,h});"),
        CUT_TASK + " handler h { put(7); }",
        steps("run 1,int 3,run 1,run 1,run 1"),
        "0 p1 T starts / 0 p1 > T / 1 int 3 / 1 p1 begin #3 / 2 p1 #3 put(7) E_OK / 3 p1 #3 end / "
        "4 p1 T put(3) E_OK / T RUNNING p1 10 / ",
    ),
    (
        "a handler, one run less",
        alone(idle("U", "u"), "DEF_INH(3,{0,h});"),
        "task u { } handler h { iact_tsk(1 + 0); }",
        steps("int 3,run 1"),
        "1 int 3 / 1 p1 begin #3 / U DORMANT p1 10 / ",
    ),
    (
        "a task that then asks for a spin lock which another processor holds",
        apart(task("A", "a") + "CRE_SPN(L,{0});", task("B", "b")),
        "task a { loc_spn(L); unl_spn(L); } task b { loc_spn(0 + L); }",
        steps("run 1,run 2,run 2,run 2,run 1,run 2"),
        "0 p1 A starts / 0 p2 B starts / 0 p1 > A / 0 p2 > B / 1 p1 A loc_spn(1) E_OK / 2 p1 A unl_spn(1) E_OK / "
        "3 p2 B loc_spn(1) E_OK / A RUNNING p1 10 / B RUNNING p2 10 / ",
    ),
)

# As many operands as there can be: 64 are pushed before the first of 63 sums, and then the call is made.
DEEP = f"{63 * '1 + ('}1{63 * ')'}"


def deep():
    """Bounds that cut a stretch where it has all its operands, or at each place, and the runs that it takes then."""
    for bound, count in ((128, 1), (127, 2), (64, 2), (63, 3), (1, 128)):
        last = "1 p1 T put(64) E_OK / "
        for done, said in ((count, last), (count - 1, "")):
            yield SELF, f"task t {{ put({DEEP}); }}", runs(done), bound, f"{SELF_SETUP}{said}T RUNNING p1 10 / "


def all_runs():
    """Each row: two texts, steps, a bound, and what is printed."""
    yield from BOUNDS
    for row in CUTS:
        yield from cut(*row)
    for _, configuration, source, events, trace in KEPT:
        yield configuration, source, events, 3, trace
    yield from deep()
    for _, configuration, source, events, trace in RUNS + ROTATIONS + QUEUES:
        yield configuration, source, events, DEFAULT_BOUND, trace


def all_values():
    """Each expression that a task puts, and how the line of its one event ends."""
    for line in VALUES.strip("\n").split("\n"):
        expression, _, end = line.partition(" => ")
        yield expression, end
