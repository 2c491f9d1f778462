/*
 * kernel.h: the service calls of C tasks and handlers, with the types of the uITRON 4.0 specification.
 *
 * The proved kernel answers each call: an error code, and its value through the pointer if the code is E_OK. What the
 * calls do stands in the reference of the language, by the same names.
 */
#ifndef FMP_KERNEL_H
#define FMP_KERNEL_H

#include <stddef.h>
#include <stdint.h>

#ifdef __cplusplus
extern "C" {
#endif

typedef int32_t ER;         /* an error code */
typedef int32_t ER_UINT;    /* an error code, or a count */
typedef int32_t ID;         /* the number of an object, from 1 in order of the configuration */
typedef int32_t PRI;        /* a priority, 1 (most urgent) to 16 */
typedef int32_t TMO;        /* a time limit in ticks, TMO_POL or TMO_FEVR */
typedef int32_t RELTIM;     /* a delay in ticks */
typedef uint32_t FLGPTN;    /* the bits of an eventflag */
typedef uint32_t MODE;      /* TWF_ANDW or TWF_ORW */

enum {
    E_OK = 0,
    E_SYS = -5,
    E_NOSPT = -9,
    E_RSFN = -10,       /* of fmp_service alone: no service has this function code */
    E_RSATR = -11,
    E_PAR = -17,
    E_ID = -18,
    E_CTX = -25,
    E_ILUSE = -28,
    E_OBJ = -41,
    E_QOVR = -43,
    E_RLWAI = -49,
    E_TMOUT = -50
};

enum { TSK_SELF = 0, TPRI_INI = 0, TPRI_SELF = 0, TMO_POL = 0, TMO_FEVR = -1, TWF_ANDW = 0, TWF_ORW = 1 };

/*
 * What a port offers.
 */

/* A service call by its function code, 1 to 59. If it gives a value, *value has it then. E_CTX outside bodies. */
ER fmp_service(uint8_t service, int32_t a, int32_t b, int32_t c, int32_t d, int32_t *value);

/*
 * The invoking body stops with a fault: FMP_OVERFLOW, FMP_DIVISION or FMP_INDEX of fmp.h. The program aborts at any
 * other number, and outside bodies.
 */
#ifdef __cplusplus
[[noreturn]]
#else
_Noreturn
#endif
void fmp_stop(uint8_t fault);

/* A point at which the invoking body may be interrupted, for loops that make no call. */
void fmp_poll(void);

/*
 * The forms of the calls.
 */

static inline ER fmp_plain(uint8_t service, int32_t a, int32_t b, int32_t c)
{
    int32_t none;
    return fmp_service(service, a, b, c, 0, &none);
}

static inline ER_UINT fmp_counting(uint8_t service, int32_t a)
{
    int32_t count = 0;
    ER code = fmp_service(service, a, 0, 0, 0, &count);
    return code == E_OK ? count : code;
}

static inline ER fmp_giving(uint8_t service, int32_t a, int32_t b, int32_t *value)
{
    return fmp_service(service, a, b, 0, 0, value);
}

static inline ER fmp_awaiting_bits(uint8_t service, ID flgid, FLGPTN waiptn, MODE wfmode, TMO tmout, FLGPTN *p_flgptn)
{
    int32_t bits = 0;
    ER code = fmp_service(service, flgid, (int32_t)waiptn, (int32_t)wfmode, tmout, &bits);
    if (code == E_OK) {
        *p_flgptn = (FLGPTN)bits;
    }
    return code;
}

/* A word of a data queue has 32 bits. One that does not fit is refused here: the kernel sees no call. */
static inline ER fmp_sending(uint8_t service, ID dtqid, intptr_t data, TMO tmout)
{
    return data == (int32_t)data ? fmp_plain(service, dtqid, (int32_t)data, tmout) : E_PAR;
}

static inline ER fmp_receiving(uint8_t service, ID dtqid, intptr_t *p_data, TMO tmout)
{
    int32_t word = 0;
    ER code = fmp_service(service, dtqid, tmout, 0, 0, &word);
    if (code == E_OK) {
        *p_data = word;
    }
    return code;
}

/* This kernel's own: a number for the trace, and shared words. */
static inline ER put(int32_t value) { return fmp_plain(1, value, 0, 0); }
static inline ER ld_shr(ID shrid, int32_t *p_word) { return fmp_giving(2, shrid, 0, p_word); }
static inline ER st_shr(ID shrid, int32_t word) { return fmp_plain(3, shrid, word, 0); }

/* Tasks. */
static inline ER act_tsk(ID tskid) { return fmp_plain(4, tskid, 0, 0); }
static inline ER_UINT can_act(ID tskid) { return fmp_counting(5, tskid); }
static inline ER ext_tsk(void) { return fmp_plain(6, 0, 0, 0); }
static inline ER ter_tsk(ID tskid) { return fmp_plain(7, tskid, 0, 0); }
static inline ER chg_pri(ID tskid, PRI tskpri) { return fmp_plain(8, tskid, tskpri, 0); }
static inline ER get_pri(ID tskid, PRI *p_tskpri) { return fmp_giving(9, tskid, 0, p_tskpri); }
static inline ER mact_tsk(ID tskid, ID prcid) { return fmp_plain(10, tskid, prcid, 0); }
static inline ER mig_tsk(ID tskid, ID prcid) { return fmp_plain(11, tskid, prcid, 0); }
static inline ER slp_tsk(void) { return fmp_plain(12, 0, 0, 0); }
static inline ER tslp_tsk(TMO tmout) { return fmp_plain(13, tmout, 0, 0); }
static inline ER wup_tsk(ID tskid) { return fmp_plain(14, tskid, 0, 0); }
static inline ER_UINT can_wup(ID tskid) { return fmp_counting(15, tskid); }
static inline ER rel_wai(ID tskid) { return fmp_plain(16, tskid, 0, 0); }
static inline ER sus_tsk(ID tskid) { return fmp_plain(17, tskid, 0, 0); }
static inline ER rsm_tsk(ID tskid) { return fmp_plain(18, tskid, 0, 0); }
static inline ER dly_tsk(RELTIM dlytim) { return fmp_plain(19, dlytim, 0, 0); }

/* Semaphores. */
static inline ER sig_sem(ID semid) { return fmp_plain(20, semid, 0, 0); }
static inline ER wai_sem(ID semid) { return fmp_plain(21, semid, 0, 0); }
static inline ER pol_sem(ID semid) { return fmp_plain(22, semid, 0, 0); }
static inline ER twai_sem(ID semid, TMO tmout) { return fmp_plain(23, semid, tmout, 0); }

/* Eventflags. */
static inline ER set_flg(ID flgid, FLGPTN setptn) { return fmp_plain(24, flgid, (int32_t)setptn, 0); }
static inline ER clr_flg(ID flgid, FLGPTN clrptn) { return fmp_plain(25, flgid, (int32_t)clrptn, 0); }
static inline ER wai_flg(ID flgid, FLGPTN waiptn, MODE wfmode, FLGPTN *p_flgptn)
{
    return fmp_awaiting_bits(26, flgid, waiptn, wfmode, 0, p_flgptn);
}
static inline ER pol_flg(ID flgid, FLGPTN waiptn, MODE wfmode, FLGPTN *p_flgptn)
{
    return fmp_awaiting_bits(27, flgid, waiptn, wfmode, 0, p_flgptn);
}
static inline ER twai_flg(ID flgid, FLGPTN waiptn, MODE wfmode, FLGPTN *p_flgptn, TMO tmout)
{
    return fmp_awaiting_bits(28, flgid, waiptn, wfmode, tmout, p_flgptn);
}

/* Data queues. */
static inline ER snd_dtq(ID dtqid, intptr_t data) { return fmp_sending(29, dtqid, data, 0); }
static inline ER psnd_dtq(ID dtqid, intptr_t data) { return fmp_sending(30, dtqid, data, 0); }
static inline ER tsnd_dtq(ID dtqid, intptr_t data, TMO tmout) { return fmp_sending(31, dtqid, data, tmout); }
static inline ER fsnd_dtq(ID dtqid, intptr_t data) { return fmp_sending(32, dtqid, data, 0); }
static inline ER rcv_dtq(ID dtqid, intptr_t *p_data) { return fmp_receiving(33, dtqid, p_data, 0); }
static inline ER prcv_dtq(ID dtqid, intptr_t *p_data) { return fmp_receiving(34, dtqid, p_data, 0); }
static inline ER trcv_dtq(ID dtqid, intptr_t *p_data, TMO tmout) { return fmp_receiving(35, dtqid, p_data, tmout); }

/* Mailboxes: a message goes by its number. */
static inline ER snd_mbx(ID mbxid, ID msgid) { return fmp_plain(36, mbxid, msgid, 0); }
static inline ER rcv_mbx(ID mbxid, ID *p_msgid) { return fmp_giving(37, mbxid, 0, p_msgid); }
static inline ER prcv_mbx(ID mbxid, ID *p_msgid) { return fmp_giving(38, mbxid, 0, p_msgid); }
static inline ER trcv_mbx(ID mbxid, ID *p_msgid, TMO tmout) { return fmp_giving(39, mbxid, tmout, p_msgid); }

/* Cyclic handlers. */
static inline ER sta_cyc(ID cycid) { return fmp_plain(40, cycid, 0, 0); }
static inline ER stp_cyc(ID cycid) { return fmp_plain(41, cycid, 0, 0); }

/* The processor. */
static inline ER rot_rdq(PRI tskpri) { return fmp_plain(42, tskpri, 0, 0); }
static inline ER get_tid(ID *p_tskid) { return fmp_giving(43, 0, 0, p_tskid); }
static inline ER loc_cpu(void) { return fmp_plain(44, 0, 0, 0); }
static inline ER unl_cpu(void) { return fmp_plain(45, 0, 0, 0); }
static inline ER dis_dsp(void) { return fmp_plain(46, 0, 0, 0); }
static inline ER ena_dsp(void) { return fmp_plain(47, 0, 0, 0); }

/* Spin locks. */
static inline ER loc_spn(ID spnid) { return fmp_plain(48, spnid, 0, 0); }
static inline ER try_spn(ID spnid) { return fmp_plain(49, spnid, 0, 0); }
static inline ER unl_spn(ID spnid) { return fmp_plain(50, spnid, 0, 0); }

/* Calls of handlers. */
static inline ER iact_tsk(ID tskid) { return fmp_plain(51, tskid, 0, 0); }
static inline ER iwup_tsk(ID tskid) { return fmp_plain(52, tskid, 0, 0); }
static inline ER irel_wai(ID tskid) { return fmp_plain(53, tskid, 0, 0); }
static inline ER isig_sem(ID semid) { return fmp_plain(54, semid, 0, 0); }
static inline ER iset_flg(ID flgid, FLGPTN setptn) { return fmp_plain(55, flgid, (int32_t)setptn, 0); }
static inline ER ipsnd_dtq(ID dtqid, intptr_t data) { return fmp_sending(56, dtqid, data, 0); }
static inline ER ifsnd_dtq(ID dtqid, intptr_t data) { return fmp_sending(57, dtqid, data, 0); }
static inline ER irot_rdq(PRI tskpri) { return fmp_plain(58, tskpri, 0, 0); }

/* The ready queue of a processor. */
static inline ER mrot_rdq(PRI tskpri, ID prcid) { return fmp_plain(59, tskpri, prcid, 0); }

#ifdef __cplusplus
}
#endif

#endif
