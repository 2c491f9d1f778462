"""Rows of runs that show service calls: shared words, semaphores and eventflags."""

from rows.row_runs import alone, idle, runs, task

OBJECT_CALLS = (
    (
        "shared words are read and written",
        alone(task("M", "m"), "CRE_SHR(W,{7});"),
        "task m { var v; ld_shr(W,&v); st_shr(W,-4); st_shr(2,1); ld_shr(W,&v); ld_shr(0,&v); put(-2147483647 - 1); }",
        runs(8),
        """
        0 p1 M starts
        0 p1 > M
        1 p1 M ld_shr(1) E_OK 7
        2 p1 M st_shr(1,-4) E_OK
        3 p1 M st_shr(2,1) E_ID
        4 p1 M ld_shr(1) E_OK -4
        5 p1 M ld_shr(0) E_ID
        6 p1 M put(-2147483648) E_OK
        7 p1 M end
        M DORMANT p1 10
        """,
    ),
    (
        "semaphores count and release",
        alone(task("M", "m", 12), idle("A", "a"), idle("B", "b", 5), "CRE_SEM(S,{TA_TFIFO,1,2});"),
        "task m { sig_sem(2); wai_sem(0); pol_sem(2); twai_sem(2,-2); twai_sem(S,-2); twai_sem(S,1073741825); "
        "sig_sem(S); sig_sem(S); wai_sem(S); twai_sem(S,5); pol_sem(S); twai_sem(S,0); act_tsk(A); act_tsk(B); "
        "chg_pri(B,4); sig_sem(S); sig_sem(S); sig_sem(S); pol_sem(S); } task a { wai_sem(S); put(2); } "
        "task b { twai_sem(S,5); put(3); }",
        runs(30),
        """
        0 p1 M starts
        0 p1 > M
        1 p1 M sig_sem(2) E_ID
        2 p1 M wai_sem(0) E_ID
        3 p1 M pol_sem(2) E_ID
        4 p1 M twai_sem(2,-2) E_ID
        5 p1 M twai_sem(1,-2) E_PAR
        6 p1 M twai_sem(1,1073741825) E_PAR
        7 p1 M sig_sem(1) E_OK
        8 p1 M sig_sem(1) E_QOVR
        9 p1 M wai_sem(1) E_OK
        10 p1 M twai_sem(1,5) E_OK
        11 p1 M pol_sem(1) E_TMOUT
        12 p1 M twai_sem(1,0) E_TMOUT
        13 p1 M act_tsk(2) E_OK
        13 p1 A starts
        13 p1 > A
        14 p1 A wai_sem(1) wait
        14 p1 > M
        15 p1 M act_tsk(3) E_OK
        15 p1 B starts
        15 p1 > B
        16 p1 B twai_sem(1,5) wait
        16 p1 > M
        17 p1 M chg_pri(3,4) E_OK
        18 p1 M sig_sem(1) E_OK
        18 p1 A gets E_OK
        18 p1 > A
        19 p1 A put(2) E_OK
        20 p1 A end
        20 p1 > M
        21 p1 M sig_sem(1) E_OK
        21 p1 B gets E_OK
        21 p1 > B
        22 p1 B put(3) E_OK
        23 p1 B end
        23 p1 > M
        24 p1 M sig_sem(1) E_OK
        25 p1 M pol_sem(1) E_OK
        26 p1 M end
        M DORMANT p1 12
        A DORMANT p1 10
        B DORMANT p1 5
        """,
    ),
    (
        "flags are set and awaited",
        alone(task("M", "m", 12), idle("A", "a"), idle("B", "b", 5), "CRE_FLG(P,{TA_WMUL,0});"),
        "task m { var v; act_tsk(A); act_tsk(B); set_flg(P,2); clr_flg(P,65533); pol_flg(P,65535,TWF_ORW,&v); "
        "wup_tsk(B); set_flg(P,7); pol_flg(P,7,TWF_ANDW,&v); pol_flg(P,8,TWF_ANDW,&v); } "
        "task a { var v; wai_flg(P,3,TWF_ANDW,&v); put(2); } "
        "task b { var v; twai_flg(P,6,TWF_ORW,&v,-1); twai_flg(P,6,TWF_ORW,&v,4); slp_tsk(); wai_flg(P,6,TWF_ORW,&v); "
        "}",
        runs(20),
        """
        0 p1 M starts
        0 p1 > M
        1 p1 M act_tsk(2) E_OK
        1 p1 A starts
        1 p1 > A
        2 p1 A wai_flg(1,3,0) wait
        2 p1 > M
        3 p1 M act_tsk(3) E_OK
        3 p1 B starts
        3 p1 > B
        4 p1 B twai_flg(1,6,1,-1) wait
        4 p1 > M
        5 p1 M set_flg(1,2) E_OK
        5 p1 B gets E_OK 2
        5 p1 > B
        6 p1 B twai_flg(1,6,1,4) E_OK 2
        7 p1 B slp_tsk() wait
        7 p1 > M
        8 p1 M clr_flg(1,65533) E_OK
        9 p1 M pol_flg(1,65535,1) E_TMOUT
        10 p1 M wup_tsk(3) E_OK
        10 p1 B gets E_OK
        10 p1 > B
        11 p1 B wai_flg(1,6,1) wait
        11 p1 > M
        12 p1 M set_flg(1,7) E_OK
        12 p1 A gets E_OK 7
        12 p1 B gets E_OK 7
        12 p1 > B
        13 p1 B end
        13 p1 > A
        14 p1 A put(2) E_OK
        15 p1 A end
        15 p1 > M
        16 p1 M pol_flg(1,7,0) E_OK 7
        17 p1 M pol_flg(1,8,0) E_TMOUT
        18 p1 M end
        M DORMANT p1 12
        A DORMANT p1 10
        B DORMANT p1 5
        """,
    ),
    (
        "flags are cleared by the first release",
        alone(
            task("M", "m", 12), idle("A", "a"), idle("B", "b", 5),
            "CRE_FLG(P,{TA_WMUL|TA_CLR,0}); CRE_FLG(Q,{TA_WSGL|TA_CLR,2});",
        ),
        "task m { var v; act_tsk(A); act_tsk(B); pol_flg(Q,2,TWF_ANDW,&v); pol_flg(Q,2,TWF_ORW,&v); set_flg(P,9); "
        "pol_flg(P,8,TWF_ANDW,&v); pol_flg(Q,4,TWF_ANDW,&v); wai_flg(Q,4,TWF_ANDW,&v); twai_flg(Q,4,TWF_ANDW,&v,0); "
        "set_flg(Q,3); pol_flg(Q,1,TWF_ORW,&v); set_flg(P,1); } "
        "task a { var v; wai_flg(P,1,TWF_ORW,&v); wai_flg(Q,2,TWF_ANDW,&v); } "
        "task b { var v; wai_flg(P,1,TWF_ORW,&v); }",
        runs(20),
        """
        0 p1 M starts
        0 p1 > M
        1 p1 M act_tsk(2) E_OK
        1 p1 A starts
        1 p1 > A
        2 p1 A wai_flg(1,1,1) wait
        2 p1 > M
        3 p1 M act_tsk(3) E_OK
        3 p1 B starts
        3 p1 > B
        4 p1 B wai_flg(1,1,1) wait
        4 p1 > M
        5 p1 M pol_flg(2,2,0) E_OK 2
        6 p1 M pol_flg(2,2,1) E_TMOUT
        7 p1 M set_flg(1,9) E_OK
        7 p1 A gets E_OK 9
        7 p1 > A
        8 p1 A wai_flg(2,2,0) wait
        8 p1 > M
        9 p1 M pol_flg(1,8,0) E_TMOUT
        10 p1 M pol_flg(2,4,0) E_ILUSE
        11 p1 M wai_flg(2,4,0) E_ILUSE
        12 p1 M twai_flg(2,4,0,0) E_ILUSE
        13 p1 M set_flg(2,3) E_OK
        13 p1 A gets E_OK 3
        13 p1 > A
        14 p1 A end
        14 p1 > M
        15 p1 M pol_flg(2,1,1) E_TMOUT
        16 p1 M set_flg(1,1) E_OK
        16 p1 B gets E_OK 1
        16 p1 > B
        17 p1 B end
        17 p1 > M
        18 p1 M end
        M DORMANT p1 12
        A DORMANT p1 10
        B DORMANT p1 5
        """,
    ),
    (
        "flags are refused",
        alone(task("M", "m"), "CRE_FLG(P,{TA_WSGL,2});"),
        "task m { var v; set_flg(2,-1); set_flg(P,-1); set_flg(P,65536); clr_flg(0,1); clr_flg(P,65536); "
        "clr_flg(P,-1); wai_flg(2,0,TWF_ANDW,&v); wai_flg(P,0,TWF_ANDW,&v); wai_flg(P,65536,TWF_ANDW,&v); "
        "wai_flg(P,1,2,&v); wai_flg(P,1,-1,&v); pol_flg(2,1,TWF_ANDW,&v); pol_flg(P,0,TWF_ANDW,&v); "
        "pol_flg(P,1,2,&v); twai_flg(2,1,TWF_ANDW,&v,1); twai_flg(P,2,TWF_ANDW,&v,-2); "
        "twai_flg(P,2,TWF_ANDW,&v,1073741825); twai_flg(P,0,TWF_ANDW,&v,1); twai_flg(P,1,TWF_ANDW,&v,0); "
        "wai_flg(P,2,TWF_ANDW,&v); clr_flg(P,0); pol_flg(P,2,TWF_ANDW,&v); set_flg(P,65535); "
        "pol_flg(P,65535,TWF_ANDW,&v); }",
        runs(30),
        """
        0 p1 M starts
        0 p1 > M
        1 p1 M set_flg(2,-1) E_ID
        2 p1 M set_flg(1,-1) E_PAR
        3 p1 M set_flg(1,65536) E_PAR
        4 p1 M clr_flg(0,1) E_ID
        5 p1 M clr_flg(1,65536) E_PAR
        6 p1 M clr_flg(1,-1) E_PAR
        7 p1 M wai_flg(2,0,0) E_ID
        8 p1 M wai_flg(1,0,0) E_PAR
        9 p1 M wai_flg(1,65536,0) E_PAR
        10 p1 M wai_flg(1,1,2) E_PAR
        11 p1 M wai_flg(1,1,-1) E_PAR
        12 p1 M pol_flg(2,1,0) E_ID
        13 p1 M pol_flg(1,0,0) E_PAR
        14 p1 M pol_flg(1,1,2) E_PAR
        15 p1 M twai_flg(2,1,0,1) E_ID
        16 p1 M twai_flg(1,2,0,-2) E_PAR
        17 p1 M twai_flg(1,2,0,1073741825) E_PAR
        18 p1 M twai_flg(1,0,0,1) E_PAR
        19 p1 M twai_flg(1,1,0,0) E_TMOUT
        20 p1 M wai_flg(1,2,0) E_OK 2
        21 p1 M clr_flg(1,0) E_OK
        22 p1 M pol_flg(1,2,0) E_TMOUT
        23 p1 M set_flg(1,65535) E_OK
        24 p1 M pol_flg(1,65535,0) E_OK 65535
        25 p1 M end
        M DORMANT p1 10
        """,
    ),
)
