/*
 * fmp_toppers.h: what the C of a task text uses on TOPPERS/FMP: arithmetic and elements of arrays that end the body
 * with the fault of the text, and the service calls with all numbers as int32_t. It is for the bodies.h that is
 * exported beside that C, and takes gcc or clang. bodies.h defines before it which generation the kernel is of, 1 or 3,
 * and how many processors, shared words and messages there are.
 */
#ifndef FMP_TOPPERS_H
#define FMP_TOPPERS_H

/* A tick, in the unit of the kernel: milliseconds, and of FMP3 microseconds. */
#ifndef FMP_TICK
#if FMP_GENERATION == 1
#define FMP_TICK 1
#else
#define FMP_TICK 1000
#endif
#endif

/* What a stack has beside the bytes that the text needs: for the C of the body, the kernel and interrupts. */
#ifndef FMP_STACK
#define FMP_STACK 4096
#endif

#ifndef TOPPERS_MACRO_ONLY

#include <kernel.h>
#include <t_syslog.h>

#if TNUM_PRCID < FMP_PROCESSORS
#error "the target has fewer processors than the configuration"
#endif

/* A text may declare variables that it does not read. */
#pragma GCC diagnostic ignored "-Wunused-variable"
#pragma GCC diagnostic ignored "-Wunused-but-set-variable"

/* For a check of this file: the code of a call that is answered here and not by the kernel, and a turn of a loop. */
#ifndef FMP_ANSWER
#define FMP_ANSWER(code, service, a, b) (code)
#define FMP_TURN() ((void)0)
#endif

/*
 * Faults. One ends a task. A handler ends by its return alone, so a fault there stops the kernel.
 */

enum fmp_fault { FMP_OVERFLOW = 1, FMP_DIVISION = 2, FMP_INDEX = 3 };

static inline void fmp_stop(enum fmp_fault fault)
{
    syslog(LOG_ERROR, "fault %d of a text", (intptr_t)fault);
    if (sns_ctx()) {
        (void)ext_ker();
    }
    (void)ext_tsk();
    for (;;) {
    }
}

/* A loop of a text. */
#define fmp_while(condition) while (FMP_TURN(), (condition))

/*
 * Operators. C has none that tests its result.
 */

static inline int32_t fmp_narrow(int64_t result)
{
    if (result < INT32_MIN || result > INT32_MAX) {
        fmp_stop(FMP_OVERFLOW);
    }
    return (int32_t)result;
}

static inline int32_t fmp_add(int32_t a, int32_t b) { return fmp_narrow((int64_t)a + b); }
static inline int32_t fmp_sub(int32_t a, int32_t b) { return fmp_narrow((int64_t)a - b); }
static inline int32_t fmp_mul(int32_t a, int32_t b) { return fmp_narrow((int64_t)a * b); }
static inline int32_t fmp_neg(int32_t a) { return fmp_sub(0, a); }

static inline void fmp_test_division(int32_t a, int32_t b)
{
    if (b == 0) {
        fmp_stop(FMP_DIVISION);
    }
    if (a == INT32_MIN && b == -1) {
        fmp_stop(FMP_OVERFLOW);
    }
}

static inline int32_t fmp_div(int32_t a, int32_t b)
{
    fmp_test_division(a, b);
    return a / b;
}

static inline int32_t fmp_rem(int32_t a, int32_t b)
{
    fmp_test_division(a, b);
    return a % b;
}

/*
 * C leaves open which operand is evaluated first. Where both may end the body, and by different faults,
 * fmp_ordered(fmp_add, a, b) evaluates a, then b. The functions below are for it: elsewhere stand the operators of C.
 */
#define fmp_ordered(function, a, b) (__extension__({ int32_t fmp_first = (a); function(fmp_first, (b)); }))

static inline int32_t fmp_and(int32_t a, int32_t b) { return a & b; }
static inline int32_t fmp_or(int32_t a, int32_t b) { return a | b; }
static inline int32_t fmp_xor(int32_t a, int32_t b) { return a ^ b; }
static inline int32_t fmp_equal(int32_t a, int32_t b) { return a == b; }
static inline int32_t fmp_not_equal(int32_t a, int32_t b) { return a != b; }
static inline int32_t fmp_less(int32_t a, int32_t b) { return a < b; }
static inline int32_t fmp_less_or_equal(int32_t a, int32_t b) { return a <= b; }
static inline int32_t fmp_greater(int32_t a, int32_t b) { return a > b; }
static inline int32_t fmp_greater_or_equal(int32_t a, int32_t b) { return a >= b; }

/*
 * Elements of arrays. The value of an assignment is evaluated before its index is tested.
 */
#define fmp_at(array, index) fmp_load(array, (int32_t)(sizeof(array) / sizeof *(array)), index)
#define fmp_set(array, index, value) fmp_store(array, (int32_t)(sizeof(array) / sizeof *(array)), index, value)

/* The same, where the order in which the index and the value are evaluated can be seen. */
#define fmp_set_ordered(array, index, value)                                                                           \
    do {                                                                                                               \
        int32_t fmp_first = (index);                                                                                   \
        fmp_set(array, fmp_first, value);                                                                              \
    } while (0)

static inline void fmp_test_index(int32_t length, int32_t index)
{
    if (index < 0 || index >= length) {
        fmp_stop(FMP_INDEX);
    }
}

static inline int32_t fmp_load(const int32_t *array, int32_t length, int32_t index)
{
    fmp_test_index(length, index);
    return array[index];
}

static inline void fmp_store(int32_t *array, int32_t length, int32_t index, int32_t value)
{
    fmp_test_index(length, index);
    array[index] = value;
}

/*
 * The calls that TOPPERS does not have: a line of the log, and shared words.
 */

static inline ER put(int32_t value)
{
    syslog(LOG_NOTICE, "put(%d)", (intptr_t)value);
    return E_OK;
}

#if FMP_WORDS > 0
extern volatile int32_t fmp_words[FMP_WORDS];
#endif

static inline ER ld_shr(int32_t number, int32_t *place)
{
    ER code = E_ID;
#if FMP_WORDS > 0
    if (number >= 1 && number <= FMP_WORDS) {
        *place = fmp_words[number - 1];
        code = E_OK;
    }
#endif
    (void)number;
    (void)place;
    return FMP_ANSWER(code, 2, number, *place);
}

static inline ER st_shr(int32_t number, int32_t value)
{
    ER code = E_ID;
#if FMP_WORDS > 0
    if (number >= 1 && number <= FMP_WORDS) {
        fmp_words[number - 1] = value;
        code = E_OK;
    }
#endif
    (void)number;
    (void)value;
    return FMP_ANSWER(code, 3, number, value);
}

/*
 * Calls with a value. It is written if the code is E_OK.
 */

static inline ER fmp_given(ER code, int32_t value, int32_t *place)
{
    if (code == E_OK) {
        *place = value;
    }
    return code;
}

static inline ER fmp_get_pri(ID tskid, int32_t *place)
{
    PRI priority = 0;
    ER code = get_pri(tskid, &priority);
    return fmp_given(code, priority, place);
}

static inline ER fmp_get_tid(int32_t *place)
{
    ID tskid = 0;
    ER code = get_tid(&tskid);
    return fmp_given(code, tskid, place);
}

#define get_pri fmp_get_pri
#define get_tid fmp_get_tid

/*
 * Times. -1 is no limit, and what is below it no time.
 */

static inline RELTIM fmp_time(int32_t ticks)
{
    if (ticks < 0) {
        return FMP_GENERATION == 1 ? (RELTIM)ticks : (RELTIM)TMAX_RELTIM + 1;
    }
    return (uint32_t)ticks <= (uint32_t)TMAX_RELTIM / FMP_TICK ? (RELTIM)ticks * FMP_TICK : (RELTIM)TMAX_RELTIM;
}

static inline TMO fmp_limit(int32_t ticks)
{
    return ticks == -1 ? TMO_FEVR : (TMO)fmp_time(ticks);
}

#define dly_tsk(ticks) dly_tsk(fmp_time(ticks))
#define tslp_tsk(ticks) tslp_tsk(fmp_limit(ticks))
#define twai_sem(semid, ticks) twai_sem(semid, fmp_limit(ticks))
#define tsnd_dtq(dtqid, word, ticks) tsnd_dtq(dtqid, word, fmp_limit(ticks))

/*
 * Eventflags. A text waits for all bits by 0, for any by 1.
 */

static inline MODE fmp_mode(int32_t mode)
{
    return mode == 0 ? TWF_ANDW : mode == (int32_t)TWF_ANDW ? 0 : (MODE)mode;
}

static inline ER fmp_wai_flg(ID flgid, int32_t pattern, int32_t mode, int32_t *place)
{
    FLGPTN bits = 0;
    ER code = wai_flg(flgid, (FLGPTN)pattern, fmp_mode(mode), &bits);
    return fmp_given(code, (int32_t)bits, place);
}

static inline ER fmp_pol_flg(ID flgid, int32_t pattern, int32_t mode, int32_t *place)
{
    FLGPTN bits = 0;
    ER code = pol_flg(flgid, (FLGPTN)pattern, fmp_mode(mode), &bits);
    return fmp_given(code, (int32_t)bits, place);
}

static inline ER fmp_twai_flg(ID flgid, int32_t pattern, int32_t mode, int32_t *place, int32_t ticks)
{
    FLGPTN bits = 0;
    ER code = twai_flg(flgid, (FLGPTN)pattern, fmp_mode(mode), &bits, fmp_limit(ticks));
    return fmp_given(code, (int32_t)bits, place);
}

#define set_flg(flgid, pattern) set_flg(flgid, (FLGPTN)(pattern))
#define clr_flg(flgid, pattern) clr_flg(flgid, (FLGPTN)(pattern))
#define wai_flg fmp_wai_flg
#define pol_flg fmp_pol_flg
#define twai_flg fmp_twai_flg

/*
 * Data queues.
 */

static inline ER fmp_rcv_dtq(ID dtqid, int32_t *place)
{
    intptr_t word = 0;
    ER code = rcv_dtq(dtqid, &word);
    return fmp_given(code, (int32_t)word, place);
}

static inline ER fmp_prcv_dtq(ID dtqid, int32_t *place)
{
    intptr_t word = 0;
    ER code = prcv_dtq(dtqid, &word);
    return fmp_given(code, (int32_t)word, place);
}

static inline ER fmp_trcv_dtq(ID dtqid, int32_t *place, int32_t ticks)
{
    intptr_t word = 0;
    ER code = trcv_dtq(dtqid, &word, fmp_limit(ticks));
    return fmp_given(code, (int32_t)word, place);
}

#define rcv_dtq fmp_rcv_dtq
#define prcv_dtq fmp_prcv_dtq
#define trcv_dtq fmp_trcv_dtq

#if FMP_GENERATION == 1

/*
 * Mailboxes. A message is a header with its priority, and its number.
 */

struct fmp_message {
    T_MSG_PRI header;
    int32_t number;
};

#if FMP_MESSAGES > 0
extern struct fmp_message fmp_messages[FMP_MESSAGES];
#endif

static inline ER fmp_snd_mbx(ID mbxid, int32_t number)
{
#if FMP_MESSAGES > 0
    if (number >= 1 && number <= FMP_MESSAGES) {
        return snd_mbx(mbxid, (T_MSG *)&fmp_messages[number - 1]);
    }
#endif
    (void)mbxid;
    (void)number;
    return FMP_ANSWER(E_ID, 36, mbxid, number);
}

static inline int32_t fmp_number(const T_MSG *message)
{
    return message == NULL ? 0 : ((const struct fmp_message *)message)->number;
}

static inline ER fmp_rcv_mbx(ID mbxid, int32_t *place)
{
    T_MSG *message = NULL;
    ER code = rcv_mbx(mbxid, &message);
    return fmp_given(code, fmp_number(message), place);
}

static inline ER fmp_prcv_mbx(ID mbxid, int32_t *place)
{
    T_MSG *message = NULL;
    ER code = prcv_mbx(mbxid, &message);
    return fmp_given(code, fmp_number(message), place);
}

static inline ER fmp_trcv_mbx(ID mbxid, int32_t *place, int32_t ticks)
{
    T_MSG *message = NULL;
    ER code = trcv_mbx(mbxid, &message, fmp_limit(ticks));
    return fmp_given(code, fmp_number(message), place);
}

#define snd_mbx fmp_snd_mbx
#define rcv_mbx fmp_rcv_mbx
#define prcv_mbx fmp_prcv_mbx
#define trcv_mbx fmp_trcv_mbx

/* Calls of handlers. */
#define iset_flg(flgid, pattern) iset_flg(flgid, (FLGPTN)(pattern))

#else

/*
 * FMP3 has no mailboxes: a call names none that there is.
 */

static inline ER fmp_no_mailbox(int32_t mbxid, int32_t number)
{
    (void)mbxid;
    (void)number;
    return E_ID;
}

#define snd_mbx(mbxid, number) fmp_no_mailbox(mbxid, number)
#define rcv_mbx(mbxid, place) fmp_no_mailbox(mbxid, *(place))
#define prcv_mbx(mbxid, place) fmp_no_mailbox(mbxid, *(place))
#define trcv_mbx(mbxid, place, ticks) fmp_no_mailbox(mbxid, ticks)

/* Handlers make the calls of tasks. */
#define iact_tsk act_tsk
#define iwup_tsk wup_tsk
#define irel_wai rel_wai
#define isig_sem sig_sem
#define iset_flg set_flg
#define ipsnd_dtq psnd_dtq
#define ifsnd_dtq fsnd_dtq
#define irot_rdq rot_rdq

/* The processor comes first. */
#define mrot_rdq(tskpri, prcid) mrot_rdq(prcid, tskpri)

#endif

#endif

#endif
