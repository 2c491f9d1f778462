"""Rows of runs that show service calls: the caller's processor, what a locked CPU and disabled dispatching bar, and the
calls that are no task's."""

from rows.row_runs import alone, idle, runs, task

# A task of low and one of high priority, and an object of each kind, in which nothing stands.
OBJECTS = alone(
    task("M", "m"), idle("A", "a", 5),
    "CRE_SEM(S,{TA_TFIFO,0,1}); CRE_FLG(P,{TA_WSGL,0}); CRE_DTQ(D,{TA_TFIFO,1,NULL}); CRE_MBX(X,{TA_TFIFO,1,NULL}); "
    "CRE_MSG(G,{1}); CRE_SHR(W,{0});",
)

PROCESSOR_CALLS = (
    # There are no cyclic handlers and no spin locks, and the calls for handlers are not for tasks.
    (
        "calls that no task can make",
        alone(task("M", "m"), "CRE_SEM(S,{TA_TFIFO,0,1}); CRE_FLG(P,{TA_WSGL,0}); CRE_DTQ(D,{TA_TFIFO,1,NULL});"),
        "task m { sta_cyc(1); stp_cyc(1); loc_spn(1); try_spn(1); unl_spn(1); iact_tsk(M); iwup_tsk(M); irel_wai(M); "
        "isig_sem(S); iset_flg(P,1); ipsnd_dtq(D,1); ifsnd_dtq(D,1); irot_rdq(1); }",
        runs(16),
        """
        0 p1 M starts
        0 p1 > M
        1 p1 M sta_cyc(1) E_ID
        2 p1 M stp_cyc(1) E_ID
        3 p1 M loc_spn(1) E_ID
        4 p1 M try_spn(1) E_ID
        5 p1 M unl_spn(1) E_ID
        6 p1 M iact_tsk(1) E_CTX
        7 p1 M iwup_tsk(1) E_CTX
        8 p1 M irel_wai(1) E_CTX
        9 p1 M isig_sem(1) E_CTX
        10 p1 M iset_flg(1,1) E_CTX
        11 p1 M ipsnd_dtq(1,1) E_CTX
        12 p1 M ifsnd_dtq(1,1) E_CTX
        13 p1 M irot_rdq(1) E_CTX
        14 p1 M end
        M DORMANT p1 10
        """,
    ),
    (
        "a locked cpu holds dispatching",
        alone(task("M", "m"), task("A", "a", 5)),
        "task m { loc_cpu(); put(1); unl_cpu(); } task a { dly_tsk(0); loc_cpu(); ext_tsk(); }",
        runs(2, 1) + runs(8),
        """
        0 p1 M starts
        0 p1 A starts
        0 p1 > A
        1 p1 A dly_tsk(0) wait
        1 p1 > M
        2 p1 M loc_cpu() E_OK
        3 tick 1
        3 p1 A gets E_OK
        4 p1 M put(1) E_OK
        5 p1 M unl_cpu() E_OK
        5 p1 > A
        6 p1 A loc_cpu() E_OK
        7 p1 A end
        7 p1 > M
        8 p1 M end
        M DORMANT p1 10
        A DORMANT p1 5
        """,
    ),
    # The refused calls change nothing: what they would have given is not there afterwards.
    (
        "a locked cpu bars calls",
        OBJECTS,
        "task m { var v; loc_cpu(); loc_cpu(); put(1); st_shr(W,2); ld_shr(W,&v); act_tsk(A); can_act(TSK_SELF); "
        "ter_tsk(A); chg_pri(TSK_SELF,1); get_pri(TSK_SELF,&v); mact_tsk(A,1); mig_tsk(A,1); slp_tsk(); tslp_tsk(0); "
        "wup_tsk(TSK_SELF); can_wup(TSK_SELF); rel_wai(A); sus_tsk(A); rsm_tsk(A); dly_tsk(0); sig_sem(S); "
        "wai_sem(S); pol_sem(S); twai_sem(S,0); set_flg(P,1); clr_flg(P,0); wai_flg(P,1,TWF_ANDW,&v); "
        "pol_flg(P,1,TWF_ANDW,&v); twai_flg(P,1,TWF_ANDW,&v,0); snd_dtq(D,1); psnd_dtq(D,1); tsnd_dtq(D,1,0); "
        "fsnd_dtq(D,1); rcv_dtq(D,&v); prcv_dtq(D,&v); trcv_dtq(D,&v,0); snd_mbx(X,G); rcv_mbx(X,&v); prcv_mbx(X,&v); "
        "trcv_mbx(X,&v,0); sta_cyc(1); stp_cyc(1); rot_rdq(0); mrot_rdq(17,9); get_tid(&v); dis_dsp(); ena_dsp(); "
        "loc_spn(1); try_spn(1); unl_spn(1); unl_cpu(); unl_cpu(); can_wup(TSK_SELF); pol_sem(S); "
        "pol_flg(P,1,TWF_ANDW,&v); prcv_dtq(D,&v); prcv_mbx(X,&v); act_tsk(A); } task a { put(2); }",
        runs(64),
        """
        0 p1 M starts
        0 p1 > M
        1 p1 M loc_cpu() E_OK
        2 p1 M loc_cpu() E_OK
        3 p1 M put(1) E_OK
        4 p1 M st_shr(1,2) E_OK
        5 p1 M ld_shr(1) E_OK 2
        6 p1 M act_tsk(2) E_CTX
        7 p1 M can_act(0) E_CTX
        8 p1 M ter_tsk(2) E_CTX
        9 p1 M chg_pri(0,1) E_CTX
        10 p1 M get_pri(0) E_CTX
        11 p1 M mact_tsk(2,1) E_CTX
        12 p1 M mig_tsk(2,1) E_CTX
        13 p1 M slp_tsk() E_CTX
        14 p1 M tslp_tsk(0) E_CTX
        15 p1 M wup_tsk(0) E_CTX
        16 p1 M can_wup(0) E_CTX
        17 p1 M rel_wai(2) E_CTX
        18 p1 M sus_tsk(2) E_CTX
        19 p1 M rsm_tsk(2) E_CTX
        20 p1 M dly_tsk(0) E_CTX
        21 p1 M sig_sem(1) E_CTX
        22 p1 M wai_sem(1) E_CTX
        23 p1 M pol_sem(1) E_CTX
        24 p1 M twai_sem(1,0) E_CTX
        25 p1 M set_flg(1,1) E_CTX
        26 p1 M clr_flg(1,0) E_CTX
        27 p1 M wai_flg(1,1,0) E_CTX
        28 p1 M pol_flg(1,1,0) E_CTX
        29 p1 M twai_flg(1,1,0,0) E_CTX
        30 p1 M snd_dtq(1,1) E_CTX
        31 p1 M psnd_dtq(1,1) E_CTX
        32 p1 M tsnd_dtq(1,1,0) E_CTX
        33 p1 M fsnd_dtq(1,1) E_CTX
        34 p1 M rcv_dtq(1) E_CTX
        35 p1 M prcv_dtq(1) E_CTX
        36 p1 M trcv_dtq(1,0) E_CTX
        37 p1 M snd_mbx(1,1) E_CTX
        38 p1 M rcv_mbx(1) E_CTX
        39 p1 M prcv_mbx(1) E_CTX
        40 p1 M trcv_mbx(1,0) E_CTX
        41 p1 M sta_cyc(1) E_CTX
        42 p1 M stp_cyc(1) E_CTX
        43 p1 M rot_rdq(0) E_CTX
        44 p1 M mrot_rdq(17,9) E_CTX
        45 p1 M get_tid() E_CTX
        46 p1 M dis_dsp() E_CTX
        47 p1 M ena_dsp() E_CTX
        48 p1 M loc_spn(1) E_CTX
        49 p1 M try_spn(1) E_CTX
        50 p1 M unl_spn(1) E_ID
        51 p1 M unl_cpu() E_OK
        52 p1 M unl_cpu() E_OK
        53 p1 M can_wup(0) E_OK 0
        54 p1 M pol_sem(1) E_TMOUT
        55 p1 M pol_flg(1,1,0) E_TMOUT
        56 p1 M prcv_dtq(1) E_TMOUT
        57 p1 M prcv_mbx(1) E_TMOUT
        58 p1 M act_tsk(2) E_OK
        58 p1 A starts
        58 p1 > A
        59 p1 A put(2) E_OK
        60 p1 A end
        60 p1 > M
        61 p1 M end
        M DORMANT p1 10
        A DORMANT p1 5
        """,
    ),
    # With dispatching disabled no call may wait, and the caller stays on its processor.
    (
        "disabled dispatching bars waits",
        OBJECTS,
        "task m { var v; dis_dsp(); dis_dsp(); act_tsk(A); slp_tsk(); tslp_tsk(-2); dly_tsk(-1); wai_sem(9); "
        "twai_sem(S,0); wai_flg(P,1,TWF_ANDW,&v); twai_flg(P,1,TWF_ANDW,&v,0); snd_dtq(D,1); tsnd_dtq(D,1,0); "
        "rcv_dtq(D,&v); trcv_dtq(D,&v,0); rcv_mbx(X,&v); trcv_mbx(X,&v,0); sus_tsk(TSK_SELF); sus_tsk(M); "
        "mig_tsk(TSK_SELF,9); mig_tsk(M,1); pol_sem(S); pol_flg(P,1,TWF_ANDW,&v); psnd_dtq(D,3); prcv_dtq(D,&v); "
        "prcv_mbx(X,&v); sus_tsk(A); rsm_tsk(A); mig_tsk(A,1); loc_cpu(); unl_cpu(); ena_dsp(); ena_dsp(); } "
        "task a { put(2); dis_dsp(); }",
        runs(40),
        """
        0 p1 M starts
        0 p1 > M
        1 p1 M dis_dsp() E_OK
        2 p1 M dis_dsp() E_OK
        3 p1 M act_tsk(2) E_OK
        3 p1 A starts
        4 p1 M slp_tsk() E_CTX
        5 p1 M tslp_tsk(-2) E_CTX
        6 p1 M dly_tsk(-1) E_CTX
        7 p1 M wai_sem(9) E_CTX
        8 p1 M twai_sem(1,0) E_CTX
        9 p1 M wai_flg(1,1,0) E_CTX
        10 p1 M twai_flg(1,1,0,0) E_CTX
        11 p1 M snd_dtq(1,1) E_CTX
        12 p1 M tsnd_dtq(1,1,0) E_CTX
        13 p1 M rcv_dtq(1) E_CTX
        14 p1 M trcv_dtq(1,0) E_CTX
        15 p1 M rcv_mbx(1) E_CTX
        16 p1 M trcv_mbx(1,0) E_CTX
        17 p1 M sus_tsk(0) E_CTX
        18 p1 M sus_tsk(1) E_CTX
        19 p1 M mig_tsk(0,9) E_CTX
        20 p1 M mig_tsk(1,1) E_CTX
        21 p1 M pol_sem(1) E_TMOUT
        22 p1 M pol_flg(1,1,0) E_TMOUT
        23 p1 M psnd_dtq(1,3) E_OK
        24 p1 M prcv_dtq(1) E_OK 3
        25 p1 M prcv_mbx(1) E_TMOUT
        26 p1 M sus_tsk(2) E_OK
        27 p1 M rsm_tsk(2) E_OK
        28 p1 M mig_tsk(2,1) E_OK
        29 p1 M loc_cpu() E_OK
        30 p1 M unl_cpu() E_OK
        31 p1 M ena_dsp() E_OK
        31 p1 > A
        32 p1 A put(2) E_OK
        33 p1 A dis_dsp() E_OK
        34 p1 A end
        34 p1 > M
        35 p1 M ena_dsp() E_OK
        36 p1 M end
        M DORMANT p1 10
        A DORMANT p1 5
        """,
    ),
)
