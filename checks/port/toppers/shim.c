/*
 * shim.c: the service calls of TOPPERS/FMP, by the port: so the C that is exported for TOPPERS runs in virtual time,
 * and gives the trace of its text. It is for FMP 1, whose times are ticks.
 */
#include <stdarg.h>
#include <stdbool.h>
#include <stdio.h>
#include <stdlib.h>

#include "kernel.h"
#include "t_syslog.h"
#include "seen.h"

/* The port's, whose header has the same names as that of TOPPERS. */
int32_t fmp_service(uint8_t service, int32_t a, int32_t b, int32_t c, int32_t d, int32_t *value);
_Noreturn void fmp_stop(uint8_t fault);
void fmp_poll(void);

static ER plain(uint8_t service, int32_t a, int32_t b, int32_t c)
{
    int32_t none;
    return fmp_service(service, a, b, c, 0, &none);
}

static ER_UINT counting(uint8_t service, int32_t a)
{
    int32_t count = 0;
    ER code = fmp_service(service, a, 0, 0, 0, &count);
    return code == E_OK ? count : code;
}

/*
 * The log: what is put, and a fault, which the call after it carries out.
 */

static uint8_t fault;

void syslog(uint_t prio, const char *format, ...)
{
    va_list arguments;
    va_start(arguments, format);
    int32_t value = (int32_t)va_arg(arguments, intptr_t);
    va_end(arguments);
    if (prio == LOG_NOTICE) {
        (void)plain(1, value, 0, 0);
    } else {
        fault = (uint8_t)value;
    }
}

bool_t sns_ctx(void) { return false; }
ER ext_ker(void) { abort(); }

ER ext_tsk(void)
{
    if (fault != 0) {
        uint8_t ended_by = fault;
        fault = 0;
        fmp_stop(ended_by);
    }
    return plain(6, 0, 0, 0);
}

/*
 * What the header answers by itself. Its answer for a shared word, and the word that it has read, must be the kernel's.
 */

int32_t shim_answer(int32_t code, uint8_t service, int32_t a, int32_t b)
{
    int32_t word = b;
    ER answer = fmp_service(service, a, b, 0, 0, &word);
    if (service <= 3 && (answer != code || word != b)) {
        fprintf(stderr, "shared word %d: %d and %d, but %d and %d\n", (int)a, (int)code, (int)b, (int)answer,
            (int)word);
        exit(1);
    }
    return answer;
}

void shim_turn(void) { fmp_poll(); }

/*
 * Tasks.
 */

ER act_tsk(ID tskid) { return plain(4, tskid, 0, 0); }
ER_UINT can_act(ID tskid) { return counting(5, tskid); }
ER ter_tsk(ID tskid) { return plain(7, tskid, 0, 0); }
ER chg_pri(ID tskid, PRI tskpri) { return plain(8, tskid, tskpri, 0); }
ER get_pri(ID tskid, PRI *p_tskpri) { return fmp_service(9, tskid, 0, 0, 0, p_tskpri); }
ER mact_tsk(ID tskid, ID prcid) { return plain(10, tskid, prcid, 0); }
ER mig_tsk(ID tskid, ID prcid) { return plain(11, tskid, prcid, 0); }
ER slp_tsk(void) { return plain(12, 0, 0, 0); }
ER tslp_tsk(TMO tmout) { return plain(13, tmout, 0, 0); }
ER wup_tsk(ID tskid) { return plain(14, tskid, 0, 0); }
ER_UINT can_wup(ID tskid) { return counting(15, tskid); }
ER rel_wai(ID tskid) { return plain(16, tskid, 0, 0); }
ER sus_tsk(ID tskid) { return plain(17, tskid, 0, 0); }
ER rsm_tsk(ID tskid) { return plain(18, tskid, 0, 0); }
ER dly_tsk(RELTIM dlytim) { return plain(19, (int32_t)dlytim, 0, 0); }
ER get_tid(ID *p_tskid) { return fmp_service(43, 0, 0, 0, 0, p_tskid); }

/*
 * Semaphores.
 */

ER sig_sem(ID semid) { return plain(20, semid, 0, 0); }
ER wai_sem(ID semid) { return plain(21, semid, 0, 0); }
ER pol_sem(ID semid) { return plain(22, semid, 0, 0); }
ER twai_sem(ID semid, TMO tmout) { return plain(23, semid, tmout, 0); }

/*
 * Eventflags. The modes of TOPPERS have other numbers.
 */

static ER awaiting(uint8_t service, ID flgid, FLGPTN waiptn, MODE wfmode, FLGPTN *p_flgptn, TMO tmout)
{
    int32_t bits = 0;
    int32_t mode = wfmode == TWF_ANDW ? 0 : wfmode == 0 ? (int32_t)TWF_ANDW : (int32_t)wfmode;
    ER code = fmp_service(service, flgid, (int32_t)waiptn, mode, tmout, &bits);
    *p_flgptn = (FLGPTN)bits;
    return code;
}

ER set_flg(ID flgid, FLGPTN setptn) { return plain(24, flgid, (int32_t)setptn, 0); }
ER clr_flg(ID flgid, FLGPTN clrptn) { return plain(25, flgid, (int32_t)clrptn, 0); }
ER wai_flg(ID flgid, FLGPTN waiptn, MODE wfmode, FLGPTN *p_flgptn)
{
    return awaiting(26, flgid, waiptn, wfmode, p_flgptn, 0);
}
ER pol_flg(ID flgid, FLGPTN waiptn, MODE wfmode, FLGPTN *p_flgptn)
{
    return awaiting(27, flgid, waiptn, wfmode, p_flgptn, 0);
}
ER twai_flg(ID flgid, FLGPTN waiptn, MODE wfmode, FLGPTN *p_flgptn, TMO tmout)
{
    return awaiting(28, flgid, waiptn, wfmode, p_flgptn, tmout);
}

/*
 * Data queues.
 */

static ER receiving(uint8_t service, ID dtqid, intptr_t *p_data, TMO tmout)
{
    int32_t word = 0;
    ER code = fmp_service(service, dtqid, tmout, 0, 0, &word);
    *p_data = word;
    return code;
}

ER snd_dtq(ID dtqid, intptr_t data) { return plain(29, dtqid, (int32_t)data, 0); }
ER psnd_dtq(ID dtqid, intptr_t data) { return plain(30, dtqid, (int32_t)data, 0); }
ER tsnd_dtq(ID dtqid, intptr_t data, TMO tmout) { return plain(31, dtqid, (int32_t)data, tmout); }
ER fsnd_dtq(ID dtqid, intptr_t data) { return plain(32, dtqid, (int32_t)data, 0); }
ER rcv_dtq(ID dtqid, intptr_t *p_data) { return receiving(33, dtqid, p_data, 0); }
ER prcv_dtq(ID dtqid, intptr_t *p_data) { return receiving(34, dtqid, p_data, 0); }
ER trcv_dtq(ID dtqid, intptr_t *p_data, TMO tmout) { return receiving(35, dtqid, p_data, tmout); }

/*
 * Mailboxes. The kernel of the port knows a message by its number, and the table of the C has its address.
 */

struct message {
    T_MSG_PRI header;
    int32_t number;
};

extern struct message fmp_messages[] __attribute__((weak));

static ER taking(uint8_t service, ID mbxid, T_MSG **ppk_msg, TMO tmout)
{
    int32_t number = 0;
    ER code = fmp_service(service, mbxid, tmout, 0, 0, &number);
    if (code == E_OK) {
        *ppk_msg = &fmp_messages[number - 1].header.msgque;
    }
    return code;
}

ER snd_mbx(ID mbxid, T_MSG *pk_msg) { return plain(36, mbxid, ((struct message *)pk_msg)->number, 0); }
ER rcv_mbx(ID mbxid, T_MSG **ppk_msg) { return taking(37, mbxid, ppk_msg, 0); }
ER prcv_mbx(ID mbxid, T_MSG **ppk_msg) { return taking(38, mbxid, ppk_msg, 0); }
ER trcv_mbx(ID mbxid, T_MSG **ppk_msg, TMO tmout) { return taking(39, mbxid, ppk_msg, tmout); }

/*
 * Cyclic handlers, processors and spin locks.
 */

ER sta_cyc(ID cycid) { return plain(40, cycid, 0, 0); }
ER stp_cyc(ID cycid) { return plain(41, cycid, 0, 0); }
ER rot_rdq(PRI tskpri) { return plain(42, tskpri, 0, 0); }
ER mrot_rdq(PRI tskpri, ID prcid) { return plain(59, tskpri, prcid, 0); }
ER loc_cpu(void) { return plain(44, 0, 0, 0); }
ER unl_cpu(void) { return plain(45, 0, 0, 0); }
ER dis_dsp(void) { return plain(46, 0, 0, 0); }
ER ena_dsp(void) { return plain(47, 0, 0, 0); }
ER loc_spn(ID spnid) { return plain(48, spnid, 0, 0); }
ER try_spn(ID spnid) { return plain(49, spnid, 0, 0); }
ER unl_spn(ID spnid) { return plain(50, spnid, 0, 0); }

/*
 * Calls of handlers.
 */

ER iact_tsk(ID tskid) { return plain(51, tskid, 0, 0); }
ER iwup_tsk(ID tskid) { return plain(52, tskid, 0, 0); }
ER irel_wai(ID tskid) { return plain(53, tskid, 0, 0); }
ER isig_sem(ID semid) { return plain(54, semid, 0, 0); }
ER iset_flg(ID flgid, FLGPTN setptn) { return plain(55, flgid, (int32_t)setptn, 0); }
ER ipsnd_dtq(ID dtqid, intptr_t data) { return plain(56, dtqid, (int32_t)data, 0); }
ER ifsnd_dtq(ID dtqid, intptr_t data) { return plain(57, dtqid, (int32_t)data, 0); }
ER irot_rdq(PRI tskpri) { return plain(58, tskpri, 0, 0); }
