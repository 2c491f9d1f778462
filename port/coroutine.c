/* coroutine.c: coroutines by a few lines of assembly on x86-64, and by ucontext elsewhere, or with FMP_UCONTEXT. */
#define _DEFAULT_SOURCE
#include "coroutine.h"

#include <stdint.h>
#include <stdlib.h>
#include <sys/mman.h>

/* The address sanitizer is told of each switch, and of each stack that is used anew. */
#if defined(__has_feature)
#if __has_feature(address_sanitizer)
#define FMP_ADDRESS_SANITIZER
#endif
#endif
#if defined(__SANITIZE_ADDRESS__)
#define FMP_ADDRESS_SANITIZER
#endif

#ifdef FMP_ADDRESS_SANITIZER
#include <sanitizer/asan_interface.h>
#include <sanitizer/common_interface_defs.h>

/* In a coroutine: the stack that the thread came from is that of the thread. */
static void arrive_inside(struct coroutine *it, void *poisoned)
{
    const void *stack;
    __sanitizer_finish_switch_fiber(poisoned, &stack, &it->outside->size);
    it->outside->stack = stack;
}

static void arrive_outside(struct coroutine *outside)
{
    __sanitizer_finish_switch_fiber(outside->poisoned, NULL, NULL);
}

static void depart(struct coroutine *from, const struct coroutine *to)
{
    __sanitizer_start_switch_fiber(&from->poisoned, to->stack, to->size);
}

static void renew(const struct coroutine *it)
{
    __asan_unpoison_memory_region(it->stack, it->size);
}
#else
#define arrive_inside(it, poisoned) ((void)0)
#define arrive_outside(outside) ((void)0)
#define depart(from, to) ((void)0)
#define renew(it) ((void)0)
#endif

static _Thread_local struct coroutine *entered;     /* by this thread, last */

/* What a coroutine begins with. */
static void first(void)
{
    struct coroutine *it = entered;
    arrive_inside(it, NULL);
    it->entry();
    abort();
}

#if defined(__x86_64__) && !defined(FMP_UCONTEXT)

/* Keeps the registers that a function keeps on this stack, and its pointer at *from; and goes on from `to`. */
void fmp_switch(void **from, void *to);

__asm__(".text\n"
        ".globl fmp_switch\n"
        ".type fmp_switch, @function\n"
        "fmp_switch:\n"
        "    pushq %rbp\n"
        "    pushq %rbx\n"
        "    pushq %r12\n"
        "    pushq %r13\n"
        "    pushq %r14\n"
        "    pushq %r15\n"
        "    movq %rsp, (%rdi)\n"
        "    movq %rsi, %rsp\n"
        "    popq %r15\n"
        "    popq %r14\n"
        "    popq %r13\n"
        "    popq %r12\n"
        "    popq %rbx\n"
        "    popq %rbp\n"
        "    ret\n"
        ".size fmp_switch, . - fmp_switch\n");

/* A stack that goes on at `first` as if it had been called: its pointer is then 8 off a multiple of 16. */
static void prepare(struct coroutine *it)
{
    uintptr_t *top = (uintptr_t *)((uintptr_t)it->stack + it->size);
    top[-1] = 0;
    top[-2] = (uintptr_t)first;
    for (int at = 3; at <= 8; at++) {
        top[-at] = 0;
    }
    it->place = top - 8;
}

#else

#include <ucontext.h>

/* The context of who goes is on its stack, which stays as it is until it comes back. */
static void fmp_switch(void **from, void *to)
{
    ucontext_t here;
    *from = &here;
    swapcontext(&here, to);
}

/* The context that it begins with is at the top of its stack. */
static void prepare(struct coroutine *it)
{
    ucontext_t *context = (ucontext_t *)(((uintptr_t)it->stack + it->size - sizeof *context) / 64 * 64);
    getcontext(context);
    context->uc_stack.ss_sp = (void *)(uintptr_t)it->stack;
    context->uc_stack.ss_size = (uintptr_t)context - (uintptr_t)it->stack;
    context->uc_link = NULL;
    makecontext(context, first, 0);
    it->place = context;
}

#endif

enum { ALIGNMENT = 64, GUARD = 64 << 10 };      /* whole pages, of whatever size */

bool fmp_coroutine_take(struct coroutine *it, size_t size)
{
    size = (size + ALIGNMENT - 1) / ALIGNMENT * ALIGNMENT;
    unsigned char *low = mmap(NULL, size + GUARD, PROT_READ | PROT_WRITE, MAP_PRIVATE | MAP_ANONYMOUS, -1, 0);
    if (low == MAP_FAILED) {
        return false;
    }
    if (mprotect(low, GUARD, PROT_NONE) != 0) {
        munmap(low, size + GUARD);
        return false;
    }
    it->stack = low + GUARD;
    it->size = size;
    return true;
}

void fmp_coroutine_begin(struct coroutine *it, void (*entry)(void))
{
    renew(it);
    it->entry = entry;
    prepare(it);
}

void fmp_coroutine_enter(struct coroutine *outside, struct coroutine *it)
{
    it->outside = outside;
    entered = it;
    depart(outside, it);
    fmp_switch(&outside->place, it->place);
    arrive_outside(outside);
}

void fmp_coroutine_leave(struct coroutine *it)
{
    depart(it, it->outside);
    fmp_switch(&it->place, it->outside->place);
    arrive_inside(it, it->poisoned);
}

bool fmp_coroutine_overflows(const struct coroutine *it, const void *address)
{
    uintptr_t low = (uintptr_t)it->stack, at = (uintptr_t)address;
    return it->stack != NULL && low - GUARD <= at && at < low;
}

void fmp_coroutine_free(struct coroutine *it)
{
    if (it->stack != NULL) {
        renew(it);
        munmap((void *)((uintptr_t)it->stack - GUARD), it->size + GUARD);
        it->stack = NULL;
    }
}
