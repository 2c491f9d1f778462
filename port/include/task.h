/*
 * task.h: what the C of a task text uses: arithmetic and elements of arrays that end the body with the fault of the
 * text, and the service calls with all numbers as int32_t. It is for that C alone, and takes gcc or clang.
 */
#ifndef FMP_TASK_H
#define FMP_TASK_H

#include "fmp.h"

/* A text may give its objects and variables the names of the types of kernel.h, which are others here. */
#define ER fmp_ER
#define ER_UINT fmp_ER_UINT
#define FLGPTN fmp_FLGPTN
#define ID fmp_ID
#define MODE fmp_MODE
#define PRI fmp_PRI
#define RELTIM fmp_RELTIM
#define TMO fmp_TMO
#include "kernel.h"
#undef ER
#undef ER_UINT
#undef FLGPTN
#undef ID
#undef MODE
#undef PRI
#undef RELTIM
#undef TMO

/* A text may declare variables that it does not read. Loops within loops count their turns by themselves. */
#pragma GCC diagnostic ignored "-Wunused-variable"
#pragma GCC diagnostic ignored "-Wunused-but-set-variable"
#pragma GCC diagnostic ignored "-Wshadow"

/* A text may compare constants of different kinds. Its comments may have bytes that are no characters. */
#pragma GCC diagnostic ignored "-Wenum-compare"
#ifdef __clang__
#if __has_warning("-Winvalid-utf8")
#pragma clang diagnostic ignored "-Winvalid-utf8"
#endif
#endif

/* Constants of a text that kernel.h does not have: attributes of objects. */
enum {
    TA_NULL = 0,
    TA_HLNG = 0,
    TA_TFIFO = 0,
    TA_TPRI = 1,
    TA_MFIFO = 0,
    TA_MPRI = 2,
    TA_ACT = 2,
    TA_WSGL = 0,
    TA_WMUL = 2,
    TA_CLR = 4,
    TA_STA = 2
};

/*
 * A loop of a text. The body may be interrupted at every sixteenth turn: a poll in each would take longer than a turn.
 */
#define fmp_while(condition) for (uint32_t fmp_turns = 0; fmp_turn(&fmp_turns), (condition);)

static inline void fmp_turn(uint32_t *turns)
{
    if ((++*turns & 15) == 0) {
        fmp_poll();
    }
}

/*
 * Operators. C has none that tests its result.
 */

static inline int32_t fmp_add(int32_t a, int32_t b)
{
    int32_t sum;
    if (__builtin_add_overflow(a, b, &sum)) {
        fmp_stop(FMP_OVERFLOW);
    }
    return sum;
}

static inline int32_t fmp_sub(int32_t a, int32_t b)
{
    int32_t difference;
    if (__builtin_sub_overflow(a, b, &difference)) {
        fmp_stop(FMP_OVERFLOW);
    }
    return difference;
}

static inline int32_t fmp_mul(int32_t a, int32_t b)
{
    int32_t product;
    if (__builtin_mul_overflow(a, b, &product)) {
        fmp_stop(FMP_OVERFLOW);
    }
    return product;
}

static inline void fmp_test_division(int32_t a, int32_t b)
{
    if (b == 0) {
        fmp_stop(FMP_DIVISION);
    }
    if (a == INT32_MIN && b == -1) {
        fmp_stop(FMP_OVERFLOW);
    }
}

static inline int32_t fmp_div(int32_t a, int32_t b)
{
    fmp_test_division(a, b);
    return a / b;
}

static inline int32_t fmp_rem(int32_t a, int32_t b)
{
    fmp_test_division(a, b);
    return a % b;
}

static inline int32_t fmp_neg(int32_t a) { return fmp_sub(0, a); }

/*
 * C leaves open which operand is evaluated first. Where both may end the body, and by different faults,
 * fmp_ordered(fmp_add, a, b) evaluates a, then b. The functions below are for it: elsewhere stand the operators of C.
 */
#define fmp_ordered(function, a, b) (__extension__({ int32_t fmp_first = (a); function(fmp_first, (b)); }))

static inline int32_t fmp_and(int32_t a, int32_t b) { return a & b; }
static inline int32_t fmp_or(int32_t a, int32_t b) { return a | b; }
static inline int32_t fmp_xor(int32_t a, int32_t b) { return a ^ b; }
static inline int32_t fmp_equal(int32_t a, int32_t b) { return a == b; }
static inline int32_t fmp_not_equal(int32_t a, int32_t b) { return a != b; }
static inline int32_t fmp_less(int32_t a, int32_t b) { return a < b; }
static inline int32_t fmp_less_or_equal(int32_t a, int32_t b) { return a <= b; }
static inline int32_t fmp_greater(int32_t a, int32_t b) { return a > b; }
static inline int32_t fmp_greater_or_equal(int32_t a, int32_t b) { return a >= b; }

/*
 * Elements of arrays. The value of an assignment is evaluated before its index is tested.
 */
#define fmp_at(array, index) fmp_load(array, (int32_t)(sizeof(array) / sizeof *(array)), index)
#define fmp_set(array, index, value) fmp_store(array, (int32_t)(sizeof(array) / sizeof *(array)), index, value)

/* The same, where the order in which the index and the value are evaluated can be seen. */
#define fmp_set_ordered(array, index, value)                                                                           \
    do {                                                                                                               \
        int32_t fmp_first = (index);                                                                                   \
        fmp_set(array, fmp_first, value);                                                                              \
    } while (0)

static inline void fmp_test_index(int32_t length, int32_t index)
{
    if (index < 0 || index >= length) {
        fmp_stop(FMP_INDEX);
    }
}

static inline int32_t fmp_load(const int32_t *array, int32_t length, int32_t index)
{
    fmp_test_index(length, index);
    return array[index];
}

static inline void fmp_store(int32_t *array, int32_t length, int32_t index, int32_t value)
{
    fmp_test_index(length, index);
    array[index] = value;
}

/*
 * Service calls of which kernel.h has a parameter that is no int32_t.
 */

static inline int32_t fmp_set_pattern(int32_t flgid, int32_t pattern) { return set_flg(flgid, (uint32_t)pattern); }
static inline int32_t fmp_clear_pattern(int32_t flgid, int32_t pattern) { return clr_flg(flgid, (uint32_t)pattern); }
static inline int32_t fmp_iset_pattern(int32_t flgid, int32_t pattern) { return iset_flg(flgid, (uint32_t)pattern); }

static inline int32_t fmp_await(uint8_t service, int32_t flgid, int32_t pattern, int32_t mode, int32_t *bits,
                                int32_t tmout)
{
    return fmp_service(service, flgid, pattern, mode, tmout, bits);
}

#define set_flg fmp_set_pattern
#define clr_flg fmp_clear_pattern
#define iset_flg fmp_iset_pattern
#define wai_flg(flgid, pattern, mode, bits) fmp_await(26, flgid, pattern, mode, bits, 0)
#define pol_flg(flgid, pattern, mode, bits) fmp_await(27, flgid, pattern, mode, bits, 0)
#define twai_flg(flgid, pattern, mode, bits, tmout) fmp_await(28, flgid, pattern, mode, bits, tmout)
#define rcv_dtq(dtqid, word) fmp_giving(33, dtqid, 0, word)
#define prcv_dtq(dtqid, word) fmp_giving(34, dtqid, 0, word)
#define trcv_dtq(dtqid, word, tmout) fmp_giving(35, dtqid, tmout, word)

#endif
