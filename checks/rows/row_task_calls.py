"""Rows of runs that show service calls: tasks, and what they do to one another."""

from rows.row_runs import alone, idle, runs, task

TASK_CALLS = (
    (
        "activations are queued and cancelled",
        alone(task("M", "m", 5), idle("A", "a"), idle("B", "a")),
        "task m { act_tsk(4); act_tsk(-1); act_tsk(A); act_tsk(A); act_tsk(A); act_tsk(TSK_SELF); act_tsk(TSK_SELF); "
        "can_act(B); can_act(4); can_act(-1); can_act(TSK_SELF); can_act(TSK_SELF); can_act(A); act_tsk(A); } "
        "task a { put(1); }",
        runs(20),
        """
        0 p1 M starts
        0 p1 > M
        1 p1 M act_tsk(4) E_ID
        2 p1 M act_tsk(-1) E_ID
        3 p1 M act_tsk(2) E_OK
        3 p1 A starts
        4 p1 M act_tsk(2) E_OK
        5 p1 M act_tsk(2) E_OK
        6 p1 M act_tsk(0) E_OK
        7 p1 M act_tsk(0) E_OK
        8 p1 M can_act(3) E_OK 0
        9 p1 M can_act(4) E_ID
        10 p1 M can_act(-1) E_ID
        11 p1 M can_act(0) E_OK 2
        12 p1 M can_act(0) E_OK 0
        13 p1 M can_act(2) E_OK 2
        14 p1 M act_tsk(2) E_OK
        15 p1 M end
        15 p1 > A
        16 p1 A put(1) E_OK
        17 p1 A end
        17 p1 A starts
        17 p1 > A
        18 p1 A put(1) E_OK
        19 p1 A end
        M DORMANT p1 5
        A DORMANT p1 10
        B DORMANT p1 10
        """,
    ),
    (
        "activation and migration on one processor",
        alone(task("M", "m", 5), idle("A", "a", 5), idle("B", "a")),
        "task m { mact_tsk(4,9); mact_tsk(A,0); mact_tsk(A,2); mact_tsk(A,1); mact_tsk(A,1); mact_tsk(A,1); "
        "mact_tsk(TSK_SELF,1); can_act(TSK_SELF); mig_tsk(4,9); mig_tsk(B,0); mig_tsk(B,2); mig_tsk(B,1); "
        "mig_tsk(A,1); mig_tsk(TSK_SELF,1); } task a { put(2); }",
        runs(24),
        """
        0 p1 M starts
        0 p1 > M
        1 p1 M mact_tsk(4,9) E_ID
        2 p1 M mact_tsk(2,0) E_PAR
        3 p1 M mact_tsk(2,2) E_PAR
        4 p1 M mact_tsk(2,1) E_OK
        4 p1 A starts
        5 p1 M mact_tsk(2,1) E_OK
        6 p1 M mact_tsk(2,1) E_OK
        7 p1 M mact_tsk(0,1) E_OK
        8 p1 M can_act(0) E_OK 1
        9 p1 M mig_tsk(4,9) E_ID
        10 p1 M mig_tsk(3,0) E_PAR
        11 p1 M mig_tsk(3,2) E_PAR
        12 p1 M mig_tsk(3,1) E_OBJ
        13 p1 M mig_tsk(2,1) E_OK
        14 p1 M mig_tsk(0,1) E_OK
        15 p1 M end
        15 p1 > A
        16 p1 A put(2) E_OK
        17 p1 A end
        17 p1 A starts
        17 p1 > A
        18 p1 A put(2) E_OK
        19 p1 A end
        19 p1 A starts
        19 p1 > A
        20 p1 A put(2) E_OK
        21 p1 A end
        M DORMANT p1 5
        A DORMANT p1 5
        B DORMANT p1 10
        """,
    ),
    (
        "tasks end and are terminated",
        alone(task("M", "m", 5), idle("A", "a")),
        "task m { var v; ter_tsk(3); ter_tsk(0); ter_tsk(M); ter_tsk(A); act_tsk(A); chg_pri(A,9); ter_tsk(A); "
        "act_tsk(A); get_pri(A,&v); act_tsk(A); dly_tsk(0); ter_tsk(A); ter_tsk(A); ter_tsk(A); ext_tsk(); put(9); } "
        "task a { slp_tsk(); }",
        runs(12, 1) + runs(8),
        """
        0 p1 M starts
        0 p1 > M
        1 p1 M ter_tsk(3) E_ID
        2 p1 M ter_tsk(0) E_ID
        3 p1 M ter_tsk(1) E_ILUSE
        4 p1 M ter_tsk(2) E_OBJ
        5 p1 M act_tsk(2) E_OK
        5 p1 A starts
        6 p1 M chg_pri(2,9) E_OK
        7 p1 M ter_tsk(2) E_OK
        8 p1 M act_tsk(2) E_OK
        8 p1 A starts
        9 p1 M get_pri(2) E_OK 10
        10 p1 M act_tsk(2) E_OK
        11 p1 M dly_tsk(0) wait
        11 p1 > A
        12 p1 A slp_tsk() wait
        12 p1 > -
        13 tick 1
        13 p1 M gets E_OK
        13 p1 > M
        14 p1 M ter_tsk(2) E_OK
        14 p1 A starts
        15 p1 M ter_tsk(2) E_OK
        16 p1 M ter_tsk(2) E_OBJ
        17 p1 M end
        M DORMANT p1 5
        A DORMANT p1 10
        """,
    ),
    (
        "priorities are changed",
        alone(task("M", "m", 5), idle("A", "a", 8), idle("B", "b", 5)),
        "task m { var v; get_pri(4,&v); get_pri(A,&v); chg_pri(4,17); chg_pri(A,17); chg_pri(A,-1); chg_pri(A,3); "
        "act_tsk(A); chg_pri(A,16); get_pri(A,&v); chg_pri(A,0); get_pri(A,&v); get_pri(TSK_SELF,&v); act_tsk(B); "
        "chg_pri(TSK_SELF,5); chg_pri(A,4); chg_pri(M,16); } task a { put(2); } task b { put(3); }",
        runs(24),
        """
        0 p1 M starts
        0 p1 > M
        1 p1 M get_pri(4) E_ID
        2 p1 M get_pri(2) E_OBJ
        3 p1 M chg_pri(4,17) E_ID
        4 p1 M chg_pri(2,17) E_PAR
        5 p1 M chg_pri(2,-1) E_PAR
        6 p1 M chg_pri(2,3) E_OBJ
        7 p1 M act_tsk(2) E_OK
        7 p1 A starts
        8 p1 M chg_pri(2,16) E_OK
        9 p1 M get_pri(2) E_OK 16
        10 p1 M chg_pri(2,0) E_OK
        11 p1 M get_pri(2) E_OK 8
        12 p1 M get_pri(0) E_OK 5
        13 p1 M act_tsk(3) E_OK
        13 p1 B starts
        14 p1 M chg_pri(0,5) E_OK
        14 p1 > B
        15 p1 B put(3) E_OK
        16 p1 B end
        16 p1 > M
        17 p1 M chg_pri(2,4) E_OK
        17 p1 > A
        18 p1 A put(2) E_OK
        19 p1 A end
        19 p1 > M
        20 p1 M chg_pri(1,16) E_OK
        21 p1 M end
        M DORMANT p1 5
        A DORMANT p1 8
        B DORMANT p1 5
        """,
    ),
    (
        "wakeups are counted and taken",
        alone(task("M", "m"), idle("A", "a", 5)),
        "task m { wup_tsk(3); wup_tsk(A); can_wup(3); can_wup(A); wup_tsk(TSK_SELF); wup_tsk(M); can_wup(TSK_SELF); "
        "can_wup(TSK_SELF); tslp_tsk(-2); tslp_tsk(1073741825); tslp_tsk(0); wup_tsk(TSK_SELF); tslp_tsk(0); "
        "wup_tsk(TSK_SELF); slp_tsk(); act_tsk(A); wup_tsk(A); wup_tsk(A); wup_tsk(A); can_wup(A); } "
        "task a { slp_tsk(); tslp_tsk(-1); dly_tsk(3); }",
        runs(30),
        """
        0 p1 M starts
        0 p1 > M
        1 p1 M wup_tsk(3) E_ID
        2 p1 M wup_tsk(2) E_OBJ
        3 p1 M can_wup(3) E_ID
        4 p1 M can_wup(2) E_OBJ
        5 p1 M wup_tsk(0) E_OK
        6 p1 M wup_tsk(1) E_OK
        7 p1 M can_wup(0) E_OK 2
        8 p1 M can_wup(0) E_OK 0
        9 p1 M tslp_tsk(-2) E_PAR
        10 p1 M tslp_tsk(1073741825) E_PAR
        11 p1 M tslp_tsk(0) E_TMOUT
        12 p1 M wup_tsk(0) E_OK
        13 p1 M tslp_tsk(0) E_OK
        14 p1 M wup_tsk(0) E_OK
        15 p1 M slp_tsk() E_OK
        16 p1 M act_tsk(2) E_OK
        16 p1 A starts
        16 p1 > A
        17 p1 A slp_tsk() wait
        17 p1 > M
        18 p1 M wup_tsk(2) E_OK
        18 p1 A gets E_OK
        18 p1 > A
        19 p1 A tslp_tsk(-1) wait
        19 p1 > M
        20 p1 M wup_tsk(2) E_OK
        20 p1 A gets E_OK
        20 p1 > A
        21 p1 A dly_tsk(3) wait
        21 p1 > M
        22 p1 M wup_tsk(2) E_OK
        23 p1 M can_wup(2) E_OK 1
        24 p1 M end
        M DORMANT p1 10
        A WAITING p1 5
        """,
    ),
    (
        "waits are released by force",
        alone(task("M", "m"), idle("A", "a", 5), "CRE_SEM(S,{TA_TFIFO,0,1});"),
        "task m { rel_wai(3); rel_wai(0); rel_wai(M); rel_wai(A); act_tsk(A); rel_wai(A); rel_wai(A); } "
        "task a { dly_tsk(-1); dly_tsk(1073741825); dly_tsk(1073741824); wai_sem(S); }",
        runs(20),
        """
        0 p1 M starts
        0 p1 > M
        1 p1 M rel_wai(3) E_ID
        2 p1 M rel_wai(0) E_ID
        3 p1 M rel_wai(1) E_OBJ
        4 p1 M rel_wai(2) E_OBJ
        5 p1 M act_tsk(2) E_OK
        5 p1 A starts
        5 p1 > A
        6 p1 A dly_tsk(-1) E_PAR
        7 p1 A dly_tsk(1073741825) E_PAR
        8 p1 A dly_tsk(1073741824) wait
        8 p1 > M
        9 p1 M rel_wai(2) E_OK
        9 p1 A gets E_RLWAI
        9 p1 > A
        10 p1 A wai_sem(1) wait
        10 p1 > M
        11 p1 M rel_wai(2) E_OK
        11 p1 A gets E_RLWAI
        11 p1 > A
        12 p1 A end
        12 p1 > M
        13 p1 M end
        M DORMANT p1 10
        A DORMANT p1 5
        """,
    ),
    (
        "time limits run out",
        alone(
            task("A", "a"), task("B", "b"), task("C", "c"), task("D", "d"), task("E", "e"), task("F", "f"),
            task("G", "g"),
            "CRE_SEM(S,{TA_TFIFO,0,1}); CRE_FLG(P,{TA_WSGL,0}); CRE_DTQ(Q,{TA_TFIFO,0,NULL}); "
            "CRE_DTQ(R,{TA_TFIFO,1,NULL}); CRE_MBX(X,{TA_TFIFO,1,NULL});",
        ),
        "task a { tslp_tsk(1); } task b { twai_sem(S,1); } task c { var v; twai_flg(P,1,TWF_ANDW,&v,1); } "
        "task d { tsnd_dtq(Q,7,1); } task e { var v; trcv_dtq(R,&v,1); } task f { var v; trcv_mbx(X,&v,1); } "
        "task g { dly_tsk(1); }",
        runs(7, 2),
        """
        0 p1 A starts
        0 p1 B starts
        0 p1 C starts
        0 p1 D starts
        0 p1 E starts
        0 p1 F starts
        0 p1 G starts
        0 p1 > A
        1 p1 A tslp_tsk(1) wait
        1 p1 > B
        2 p1 B twai_sem(1,1) wait
        2 p1 > C
        3 p1 C twai_flg(1,1,0,1) wait
        3 p1 > D
        4 p1 D tsnd_dtq(1,7,1) wait
        4 p1 > E
        5 p1 E trcv_dtq(2,1) wait
        5 p1 > F
        6 p1 F trcv_mbx(1,1) wait
        6 p1 > G
        7 p1 G dly_tsk(1) wait
        7 p1 > -
        8 tick 1
        9 tick 2
        9 p1 A gets E_TMOUT
        9 p1 B gets E_TMOUT
        9 p1 C gets E_TMOUT
        9 p1 D gets E_TMOUT
        9 p1 E gets E_TMOUT
        9 p1 F gets E_TMOUT
        9 p1 G gets E_OK
        9 p1 > A
        A RUNNING p1 10
        B READY p1 10
        C READY p1 10
        D READY p1 10
        E READY p1 10
        F READY p1 10
        G READY p1 10
        """,
    ),
    (
        "tasks are suspended and resumed",
        alone(task("M", "m", 5), idle("A", "a"), idle("B", "b")),
        "task m { sus_tsk(4); sus_tsk(B); rsm_tsk(4); rsm_tsk(0); rsm_tsk(A); act_tsk(A); act_tsk(B); rsm_tsk(A); "
        "sus_tsk(A); sus_tsk(A); rsm_tsk(A); sus_tsk(TSK_SELF); dly_tsk(0); sus_tsk(A); sus_tsk(A); rsm_tsk(A); "
        "sus_tsk(A); wup_tsk(A); rsm_tsk(A); sus_tsk(A); sus_tsk(B); rel_wai(A); } task a { slp_tsk(); } "
        "task b { rsm_tsk(M); slp_tsk(); }",
        runs(16, 1) + runs(12),
        """
        0 p1 M starts
        0 p1 > M
        1 p1 M sus_tsk(4) E_ID
        2 p1 M sus_tsk(3) E_OBJ
        3 p1 M rsm_tsk(4) E_ID
        4 p1 M rsm_tsk(0) E_ID
        5 p1 M rsm_tsk(2) E_OBJ
        6 p1 M act_tsk(2) E_OK
        6 p1 A starts
        7 p1 M act_tsk(3) E_OK
        7 p1 B starts
        8 p1 M rsm_tsk(2) E_OBJ
        9 p1 M sus_tsk(2) E_OK
        10 p1 M sus_tsk(2) E_QOVR
        11 p1 M rsm_tsk(2) E_OK
        12 p1 M sus_tsk(0) E_OK
        12 p1 > B
        13 p1 B rsm_tsk(1) E_OK
        13 p1 > M
        14 p1 M dly_tsk(0) wait
        14 p1 > B
        15 p1 B slp_tsk() wait
        15 p1 > A
        16 p1 A slp_tsk() wait
        16 p1 > -
        17 tick 1
        17 p1 M gets E_OK
        17 p1 > M
        18 p1 M sus_tsk(2) E_OK
        19 p1 M sus_tsk(2) E_QOVR
        20 p1 M rsm_tsk(2) E_OK
        21 p1 M sus_tsk(2) E_OK
        22 p1 M wup_tsk(2) E_OK
        22 p1 A gets E_OK
        23 p1 M rsm_tsk(2) E_OK
        24 p1 M sus_tsk(2) E_OK
        25 p1 M sus_tsk(3) E_OK
        26 p1 M rel_wai(2) E_OBJ
        27 p1 M end
        M DORMANT p1 5
        A SUSPENDED p1 10
        B WAITING-SUSPENDED p1 10
        """,
    ),
    (
        "ready queues are rotated",
        alone(task("M", "m", 5), task("N", "n", 5), task("A", "a"), task("B", "a")),
        "task m { var v; get_tid(&v); rot_rdq(-1); rot_rdq(17); rot_rdq(10); rot_rdq(1); rot_rdq(0); put(1); } "
        "task n { rot_rdq(5); put(2); } task a { var v; get_tid(&v); }",
        runs(20),
        """
        0 p1 M starts
        0 p1 N starts
        0 p1 A starts
        0 p1 B starts
        0 p1 > M
        1 p1 M get_tid() E_OK 1
        2 p1 M rot_rdq(-1) E_PAR
        3 p1 M rot_rdq(17) E_PAR
        4 p1 M rot_rdq(10) E_OK
        5 p1 M rot_rdq(1) E_OK
        6 p1 M rot_rdq(0) E_OK
        6 p1 > N
        7 p1 N rot_rdq(5) E_OK
        7 p1 > M
        8 p1 M put(1) E_OK
        9 p1 M end
        9 p1 > N
        10 p1 N put(2) E_OK
        11 p1 N end
        11 p1 > B
        12 p1 B get_tid() E_OK 4
        13 p1 B end
        13 p1 > A
        14 p1 A get_tid() E_OK 3
        15 p1 A end
        M DORMANT p1 5
        N DORMANT p1 5
        A DORMANT p1 10
        B DORMANT p1 10
        """,
    ),
)
