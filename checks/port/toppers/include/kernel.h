/*
 * kernel.h: a stub of the header of TOPPERS/FMP, for checks: types, macros and prototypes of its public specification,
 * so far as exported C uses them. FMP_GENERATION says of which generation.
 */
#ifndef TOPPERS_KERNEL_H
#define TOPPERS_KERNEL_H

#include <stddef.h>
#include <stdint.h>

typedef int int_t;
typedef unsigned int uint_t;
typedef int_t bool_t;
typedef int_t ER;
typedef int_t ER_UINT;
typedef int_t ID;
typedef uint_t MODE;
typedef int_t PRI;
typedef uint_t FLGPTN;

#if FMP_GENERATION == 1
typedef int_t TMO;
typedef uint_t RELTIM;
#define TMO_FEVR (-1)
#define TMAX_RELTIM 2147483647U
#else
typedef uint32_t TMO;
typedef uint32_t RELTIM;
#define TMO_FEVR ((TMO)(-1))
#define TMAX_RELTIM 4000000000U
#endif

#define TMO_POL 0
#define TNUM_PRCID 8

#define E_OK 0
#define E_ID (-18)

#define TWF_ORW 0x01U
#define TWF_ANDW 0x02U

extern ER act_tsk(ID tskid);
extern ER mact_tsk(ID tskid, ID prcid);
extern ER_UINT can_act(ID tskid);
extern ER mig_tsk(ID tskid, ID prcid);
extern ER ext_tsk(void);
extern ER ter_tsk(ID tskid);
extern ER chg_pri(ID tskid, PRI tskpri);
extern ER get_pri(ID tskid, PRI *p_tskpri);
extern ER slp_tsk(void);
extern ER tslp_tsk(TMO tmout);
extern ER wup_tsk(ID tskid);
extern ER_UINT can_wup(ID tskid);
extern ER rel_wai(ID tskid);
extern ER sus_tsk(ID tskid);
extern ER rsm_tsk(ID tskid);
extern ER dly_tsk(RELTIM dlytim);

extern ER sig_sem(ID semid);
extern ER wai_sem(ID semid);
extern ER pol_sem(ID semid);
extern ER twai_sem(ID semid, TMO tmout);

extern ER set_flg(ID flgid, FLGPTN setptn);
extern ER clr_flg(ID flgid, FLGPTN clrptn);
extern ER wai_flg(ID flgid, FLGPTN waiptn, MODE wfmode, FLGPTN *p_flgptn);
extern ER pol_flg(ID flgid, FLGPTN waiptn, MODE wfmode, FLGPTN *p_flgptn);
extern ER twai_flg(ID flgid, FLGPTN waiptn, MODE wfmode, FLGPTN *p_flgptn, TMO tmout);

extern ER snd_dtq(ID dtqid, intptr_t data);
extern ER psnd_dtq(ID dtqid, intptr_t data);
extern ER tsnd_dtq(ID dtqid, intptr_t data, TMO tmout);
extern ER fsnd_dtq(ID dtqid, intptr_t data);
extern ER rcv_dtq(ID dtqid, intptr_t *p_data);
extern ER prcv_dtq(ID dtqid, intptr_t *p_data);
extern ER trcv_dtq(ID dtqid, intptr_t *p_data, TMO tmout);

extern ER sta_cyc(ID cycid);
extern ER stp_cyc(ID cycid);

extern ER loc_spn(ID spnid);
extern ER try_spn(ID spnid);
extern ER unl_spn(ID spnid);

extern ER rot_rdq(PRI tskpri);
extern ER get_tid(ID *p_tskid);
extern ER loc_cpu(void);
extern ER unl_cpu(void);
extern ER dis_dsp(void);
extern ER ena_dsp(void);
extern bool_t sns_ctx(void);
extern ER ext_ker(void);

#if FMP_GENERATION == 1

typedef struct t_msg {
    struct t_msg *pk_next;
} T_MSG;

typedef struct t_msg_pri {
    T_MSG msgque;
    PRI msgpri;
} T_MSG_PRI;

extern ER snd_mbx(ID mbxid, T_MSG *pk_msg);
extern ER rcv_mbx(ID mbxid, T_MSG **ppk_msg);
extern ER prcv_mbx(ID mbxid, T_MSG **ppk_msg);
extern ER trcv_mbx(ID mbxid, T_MSG **ppk_msg, TMO tmout);

extern ER iact_tsk(ID tskid);
extern ER iwup_tsk(ID tskid);
extern ER irel_wai(ID tskid);
extern ER isig_sem(ID semid);
extern ER iset_flg(ID flgid, FLGPTN setptn);
extern ER ipsnd_dtq(ID dtqid, intptr_t data);
extern ER ifsnd_dtq(ID dtqid, intptr_t data);
extern ER irot_rdq(PRI tskpri);
extern ER mrot_rdq(PRI tskpri, ID prcid);

#else

extern ER mrot_rdq(ID schedno, PRI tskpri);

#endif

#endif
