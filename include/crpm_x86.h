/*
 * Carries out the operations of crpm.h on a module, on x86-64: aligned 8-byte
 * stores, clwb and sfence. Header only, C99 and C++11, gcc or clang; no
 * compiler flag is needed. examples/c/module.c shows its use.
 *
 *     crpm_flush_all(image, length)       after crpm_format, and at every start
 *                                         of a program before crpm_open
 *     crpm_carry_out(image, trace, ops)   after every call that was served
 *
 * A processor without clwb gets clflushopt, and one without that clflush; the
 * processor is asked once, at run time.
 *
 * What must hold, since no function can see to it
 *  - The image is the module's memory, mapped so that a flush reaches it: a
 *    file of a DAX file system with MAP_SYNC, a DAX device, or by libpmem. In
 *    another file all runs alike, but no flush makes anything durable.
 *  - Byte 0 of the image stands at an address divisible by 64, as in every
 *    mapping (an assertion, which -DNDEBUG takes out), and a cache line has 64
 *    bytes.
 *  - An aligned 8-byte store is not torn. Stores to one line reach the module
 *    in program order, as x86-64 keeps it in write-back memory. What was stored
 *    to a line before its clwb is durable once a later sfence is done (the
 *    platform has ADR). For an image opened with CRPM_EADR, whose traces have no
 *    clwb: what was stored is durable without it (the platform has eADR).
 *  - The trace is one that a call of crpm.h wrote, and n is at most the number
 *    of operations that it reported. The trace is not checked.
 */
#ifndef CRPM_X86_H
#define CRPM_X86_H

#if !defined(__x86_64__) || !defined(__GNUC__)
#error "crpm_x86.h is for x86-64 and a compiler with GNU inline assembly (gcc, clang)"
#endif

#include "crpm.h"

#include <assert.h>
#include <cpuid.h>

/* The instructions that flush a line; a greater number is better. */
#define CRPM_BY_CLFLUSH 1
#define CRPM_BY_CLFLUSHOPT 2
#define CRPM_BY_CLWB 3

/* The best of them that this processor has. Asked once; two threads that ask
   at the same time get the same answer. */
static inline int crpm_best_flush(void)
{
    static int best; /* 0: not asked yet */
    int flush = __atomic_load_n(&best, __ATOMIC_RELAXED);
    if (flush == 0) {
        unsigned int eax, ebx = 0, ecx, edx;
        (void)__get_cpuid_count(7, 0, &eax, &ebx, &ecx, &edx);
        flush = (ebx >> 24 & 1) ? CRPM_BY_CLWB : (ebx >> 23 & 1) ? CRPM_BY_CLFLUSHOPT : CRPM_BY_CLFLUSH;
        __atomic_store_n(&best, flush, __ATOMIC_RELAXED);
    }
    return flush;
}

/* Flushes the line at `line` by that instruction. "memory": the compiler moves
   no store across it. */
static inline void crpm_flush_line(const void *line, int flush)
{
    if (flush == CRPM_BY_CLWB)
        __asm__ __volatile__("clwb %0" : : "m"(*(const char *)line) : "memory");
    else if (flush == CRPM_BY_CLFLUSHOPT)
        __asm__ __volatile__("clflushopt %0" : : "m"(*(const char *)line) : "memory");
    else
        __asm__ __volatile__("clflush %0" : : "m"(*(const char *)line) : "memory");
}

/* Waits until every line flushed before is durable. */
static inline void crpm_fence(void)
{
    __asm__ __volatile__("sfence" : : : "memory");
}

/* Carries out the first n operations of a trace, in their order. */
static inline void crpm_carry_out(uint8_t *image, const uint64_t *trace, uint64_t n)
{
    typedef uint64_t __attribute__((__may_alias__)) word;
    const int flush = crpm_best_flush();
    assert((uintptr_t)image % CRPM_LINE_SIZE == 0);
    for (; n > 0; n--, trace += CRPM_OP_NUMBERS) {
        void *at = image + trace[1];
        switch (trace[0]) {
        case CRPM_OP_STORE:
            *(volatile word *)at = trace[2]; /* one aligned 8-byte store */
            break;
        case CRPM_OP_CLWB:
            crpm_flush_line(at, flush);
            break;
        case CRPM_OP_SFENCE:
            crpm_fence();
            break;
        }
    }
}

/* Flushes every line of an image and fences: what stands is then durable, be it
   what crpm_format left or what a process left that ended among the operations
   of a call. */
static inline void crpm_flush_all(const uint8_t *image, size_t length)
{
    const int flush = crpm_best_flush();
    size_t at;
    assert((uintptr_t)image % CRPM_LINE_SIZE == 0);
    for (at = 0; at < length; at += CRPM_LINE_SIZE)
        crpm_flush_line(image + at, flush);
    crpm_fence();
}

#endif
