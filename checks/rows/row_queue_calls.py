"""Rows of runs that show service calls: data queues and mailboxes."""

from rows.row_runs import alone, idle, runs, task

# A mailbox in order of arrival, and one in order of priority.
MAILBOXES = alone(
    task("M", "m", 12), idle("A", "a"),
    "CRE_MBX(X,{TA_MFIFO,8,NULL}); CRE_MBX(Y,{TA_MPRI,8,NULL}); "
    "CRE_MSG(F,{5}); CRE_MSG(G,{3}); CRE_MSG(H,{5}); CRE_MSG(I,{9});",
)

QUEUE_CALLS = (
    (
        "words are queued",
        alone(task("M", "m", 12), idle("A", "a"), idle("B", "b", 5), "CRE_DTQ(D,{TA_TPRI,2,NULL});"),
        "task m { var v; act_tsk(A); snd_dtq(D,4); snd_dtq(D,5); psnd_dtq(D,6); psnd_dtq(D,7); tsnd_dtq(D,7,0); "
        "wup_tsk(A); act_tsk(B); rcv_dtq(D,&v); rcv_dtq(D,&v); rcv_dtq(D,&v); prcv_dtq(D,&v); prcv_dtq(D,&v); "
        "tsnd_dtq(D,9,5); trcv_dtq(D,&v,5); } task a { var v; rcv_dtq(D,&v); slp_tsk(); snd_dtq(D,7); } "
        "task b { tsnd_dtq(D,8,9); }",
        runs(24),
        """
        0 p1 M starts
        0 p1 > M
        1 p1 M act_tsk(2) E_OK
        1 p1 A starts
        1 p1 > A
        2 p1 A rcv_dtq(1) wait
        2 p1 > M
        3 p1 M snd_dtq(1,4) E_OK
        3 p1 A gets E_OK 4
        3 p1 > A
        4 p1 A slp_tsk() wait
        4 p1 > M
        5 p1 M snd_dtq(1,5) E_OK
        6 p1 M psnd_dtq(1,6) E_OK
        7 p1 M psnd_dtq(1,7) E_TMOUT
        8 p1 M tsnd_dtq(1,7,0) E_TMOUT
        9 p1 M wup_tsk(2) E_OK
        9 p1 A gets E_OK
        9 p1 > A
        10 p1 A snd_dtq(1,7) wait
        10 p1 > M
        11 p1 M act_tsk(3) E_OK
        11 p1 B starts
        11 p1 > B
        12 p1 B tsnd_dtq(1,8,9) wait
        12 p1 > M
        13 p1 M rcv_dtq(1) E_OK 5
        13 p1 B gets E_OK
        13 p1 > B
        14 p1 B end
        14 p1 > M
        15 p1 M rcv_dtq(1) E_OK 6
        15 p1 A gets E_OK
        15 p1 > A
        16 p1 A end
        16 p1 > M
        17 p1 M rcv_dtq(1) E_OK 8
        18 p1 M prcv_dtq(1) E_OK 7
        19 p1 M prcv_dtq(1) E_TMOUT
        20 p1 M tsnd_dtq(1,9,5) E_OK
        21 p1 M trcv_dtq(1,5) E_OK 9
        22 p1 M end
        M DORMANT p1 12
        A DORMANT p1 10
        B DORMANT p1 5
        """,
    ),
    (
        "words are forced and handed over",
        alone(task("M", "m", 12), idle("A", "a"), "CRE_DTQ(D,{TA_TPRI,2,NULL}); CRE_DTQ(E,{TA_TFIFO,0,NULL});"),
        "task m { var v; fsnd_dtq(D,1); fsnd_dtq(D,2); fsnd_dtq(D,3); trcv_dtq(D,&v,0); trcv_dtq(D,&v,0); "
        "trcv_dtq(D,&v,0); act_tsk(A); fsnd_dtq(D,6); rcv_dtq(E,&v); psnd_dtq(E,8); psnd_dtq(E,8); prcv_dtq(E,&v); } "
        "task a { var v; trcv_dtq(D,&v,5); snd_dtq(E,9); rcv_dtq(E,&v); }",
        runs(20),
        """
        0 p1 M starts
        0 p1 > M
        1 p1 M fsnd_dtq(1,1) E_OK
        2 p1 M fsnd_dtq(1,2) E_OK
        3 p1 M fsnd_dtq(1,3) E_OK
        4 p1 M trcv_dtq(1,0) E_OK 2
        5 p1 M trcv_dtq(1,0) E_OK 3
        6 p1 M trcv_dtq(1,0) E_TMOUT
        7 p1 M act_tsk(2) E_OK
        7 p1 A starts
        7 p1 > A
        8 p1 A trcv_dtq(1,5) wait
        8 p1 > M
        9 p1 M fsnd_dtq(1,6) E_OK
        9 p1 A gets E_OK 6
        9 p1 > A
        10 p1 A snd_dtq(2,9) wait
        10 p1 > M
        11 p1 M rcv_dtq(2) E_OK 9
        11 p1 A gets E_OK
        11 p1 > A
        12 p1 A rcv_dtq(2) wait
        12 p1 > M
        13 p1 M psnd_dtq(2,8) E_OK
        13 p1 A gets E_OK 8
        13 p1 > A
        14 p1 A end
        14 p1 > M
        15 p1 M psnd_dtq(2,8) E_TMOUT
        16 p1 M prcv_dtq(2) E_TMOUT
        17 p1 M end
        M DORMANT p1 12
        A DORMANT p1 10
        """,
    ),
    (
        "data queues are refused",
        alone(task("M", "m"), "CRE_DTQ(D,{TA_TPRI,2,NULL}); CRE_DTQ(E,{TA_TFIFO,0,NULL});"),
        "task m { var v; snd_dtq(3,1); snd_dtq(0,1); psnd_dtq(3,1); tsnd_dtq(0,1,-2); tsnd_dtq(D,1,-2); "
        "tsnd_dtq(D,1,1073741825); fsnd_dtq(3,1); fsnd_dtq(E,1); rcv_dtq(3,&v); prcv_dtq(0,&v); trcv_dtq(3,&v,-2); "
        "trcv_dtq(D,&v,-2); trcv_dtq(D,&v,1073741825); prcv_dtq(D,&v); }",
        runs(16),
        """
        0 p1 M starts
        0 p1 > M
        1 p1 M snd_dtq(3,1) E_ID
        2 p1 M snd_dtq(0,1) E_ID
        3 p1 M psnd_dtq(3,1) E_ID
        4 p1 M tsnd_dtq(0,1,-2) E_ID
        5 p1 M tsnd_dtq(1,1,-2) E_PAR
        6 p1 M tsnd_dtq(1,1,1073741825) E_PAR
        7 p1 M fsnd_dtq(3,1) E_ID
        8 p1 M fsnd_dtq(2,1) E_ILUSE
        9 p1 M rcv_dtq(3) E_ID
        10 p1 M prcv_dtq(0) E_ID
        11 p1 M trcv_dtq(3,-2) E_ID
        12 p1 M trcv_dtq(1,-2) E_PAR
        13 p1 M trcv_dtq(1,1073741825) E_PAR
        14 p1 M prcv_dtq(1) E_TMOUT
        15 p1 M end
        M DORMANT p1 10
        """,
    ),
    (
        "messages are queued",
        MAILBOXES,
        "task m { var v; act_tsk(A); snd_mbx(Y,F); snd_mbx(Y,F); snd_mbx(Y,H); snd_mbx(Y,G); snd_mbx(X,H); "
        "snd_mbx(Y,H); rcv_mbx(Y,&v); rcv_mbx(Y,&v); trcv_mbx(Y,&v,3); prcv_mbx(Y,&v); snd_mbx(X,I); snd_mbx(X,G); "
        "prcv_mbx(X,&v); rcv_mbx(X,&v); trcv_mbx(X,&v,0); trcv_mbx(X,&v,3); } task a { var v; rcv_mbx(Y,&v); }",
        runs(22),
        """
        0 p1 M starts
        0 p1 > M
        1 p1 M act_tsk(2) E_OK
        1 p1 A starts
        1 p1 > A
        2 p1 A rcv_mbx(2) wait
        2 p1 > M
        3 p1 M snd_mbx(2,1) E_OK
        3 p1 A gets E_OK 1
        3 p1 > A
        4 p1 A end
        4 p1 > M
        5 p1 M snd_mbx(2,1) E_OK
        6 p1 M snd_mbx(2,3) E_OK
        7 p1 M snd_mbx(2,2) E_OK
        8 p1 M snd_mbx(1,3) E_OBJ
        9 p1 M snd_mbx(2,3) E_OBJ
        10 p1 M rcv_mbx(2) E_OK 2
        11 p1 M rcv_mbx(2) E_OK 1
        12 p1 M trcv_mbx(2,3) E_OK 3
        13 p1 M prcv_mbx(2) E_TMOUT
        14 p1 M snd_mbx(1,4) E_OK
        15 p1 M snd_mbx(1,2) E_OK
        16 p1 M prcv_mbx(1) E_OK 4
        17 p1 M rcv_mbx(1) E_OK 2
        18 p1 M trcv_mbx(1,0) E_TMOUT
        19 p1 M trcv_mbx(1,3) wait
        19 p1 > -
        M WAITING p1 12
        A DORMANT p1 10
        """,
    ),
    (
        "mailboxes are refused",
        MAILBOXES,
        "task m { var v; snd_mbx(3,F); snd_mbx(X,5); snd_mbx(X,0); snd_mbx(X,I); snd_mbx(Y,I); rcv_mbx(0,&v); "
        "prcv_mbx(3,&v); trcv_mbx(0,&v,-2); trcv_mbx(X,&v,-2); trcv_mbx(X,&v,1073741825); trcv_mbx(Y,&v,0); } "
        "task a { var v; rcv_mbx(Y,&v); }",
        runs(14),
        """
        0 p1 M starts
        0 p1 > M
        1 p1 M snd_mbx(3,1) E_ID
        2 p1 M snd_mbx(1,5) E_ID
        3 p1 M snd_mbx(1,0) E_ID
        4 p1 M snd_mbx(1,4) E_OK
        5 p1 M snd_mbx(2,4) E_PAR
        6 p1 M rcv_mbx(0) E_ID
        7 p1 M prcv_mbx(3) E_ID
        8 p1 M trcv_mbx(0,-2) E_ID
        9 p1 M trcv_mbx(1,-2) E_PAR
        10 p1 M trcv_mbx(1,1073741825) E_PAR
        11 p1 M trcv_mbx(2,0) E_TMOUT
        12 p1 M end
        M DORMANT p1 12
        A DORMANT p1 10
        """,
    ),
    # Eventflags and mailboxes may release by priority; receivers of a data queue never do.
    (
        "waiters in order of priority",
        alone(
            task("M", "m", 12), idle("A", "a"), idle("B", "b", 5),
            "CRE_FLG(P,{TA_TPRI|TA_WMUL|TA_CLR,0}); CRE_DTQ(D,{TA_TPRI,1,NULL}); CRE_MBX(X,{TA_TPRI,1,NULL}); "
            "CRE_MSG(G,{1}); CRE_MSG(H,{1});",
        ),
        "task m { act_tsk(A); act_tsk(B); set_flg(P,1); set_flg(P,1); wup_tsk(B); snd_mbx(X,G); snd_mbx(X,H); "
        "wup_tsk(B); snd_dtq(D,5); snd_dtq(D,6); } "
        "task a { var v; wai_flg(P,1,TWF_ANDW,&v); rcv_mbx(X,&v); rcv_dtq(D,&v); } "
        "task b { var v; wai_flg(P,1,TWF_ANDW,&v); slp_tsk(); rcv_mbx(X,&v); slp_tsk(); rcv_dtq(D,&v); }",
        runs(24),
        """
        0 p1 M starts
        0 p1 > M
        1 p1 M act_tsk(2) E_OK
        1 p1 A starts
        1 p1 > A
        2 p1 A wai_flg(1,1,0) wait
        2 p1 > M
        3 p1 M act_tsk(3) E_OK
        3 p1 B starts
        3 p1 > B
        4 p1 B wai_flg(1,1,0) wait
        4 p1 > M
        5 p1 M set_flg(1,1) E_OK
        5 p1 B gets E_OK 1
        5 p1 > B
        6 p1 B slp_tsk() wait
        6 p1 > M
        7 p1 M set_flg(1,1) E_OK
        7 p1 A gets E_OK 1
        7 p1 > A
        8 p1 A rcv_mbx(1) wait
        8 p1 > M
        9 p1 M wup_tsk(3) E_OK
        9 p1 B gets E_OK
        9 p1 > B
        10 p1 B rcv_mbx(1) wait
        10 p1 > M
        11 p1 M snd_mbx(1,1) E_OK
        11 p1 B gets E_OK 1
        11 p1 > B
        12 p1 B slp_tsk() wait
        12 p1 > M
        13 p1 M snd_mbx(1,2) E_OK
        13 p1 A gets E_OK 2
        13 p1 > A
        14 p1 A rcv_dtq(1) wait
        14 p1 > M
        15 p1 M wup_tsk(3) E_OK
        15 p1 B gets E_OK
        15 p1 > B
        16 p1 B rcv_dtq(1) wait
        16 p1 > M
        17 p1 M snd_dtq(1,5) E_OK
        17 p1 A gets E_OK 5
        17 p1 > A
        18 p1 A end
        18 p1 > M
        19 p1 M snd_dtq(1,6) E_OK
        19 p1 B gets E_OK 6
        19 p1 > B
        20 p1 B end
        20 p1 > M
        21 p1 M end
        M DORMANT p1 12
        A DORMANT p1 10
        B DORMANT p1 5
        """,
    ),
)
