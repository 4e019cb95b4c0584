/*
 * What all sides share: files mapped as memory, stores into them, flushes and
 * fences, the count of these, and the set of what an epoch has touched.
 *
 * Assumes x86-64 and cache lines of 64 bytes. Flush and fence are those of
 * crpm_x86.h (clwb where the processor has it). Both tell the compiler that
 * memory changes, so no store is moved across them.
 */
#ifndef MEMORY_H
#define MEMORY_H

#include "crpm_x86.h"

#include <string.h>

enum {
    LINE = CRPM_LINE_SIZE,
    BLOCK = CRPM_BLOCK_SIZE,
    MOST_BLOCKS = CRPM_MOST * CRPM_MOST,
    MOST_LINES = MOST_BLOCKS * BLOCK / LINE
};

/* The folder in which the program makes its files; the caller removes it. */
extern const char *folder;

/* Ends the program with status 1. */
_Noreturn void fail(const char *what, const char *why);

/* Ordinary memory, all zero. */
void *allocate(size_t length);

/* A new file of zeros, mapped shared; every page is there already. The file has
   no name any more, so it is gone when it is unmapped or the process ends. */
void *map_file(size_t length);
void unmap_file(void *mapped, size_t length);

/* ---- counts */

struct counts {
    uint64_t fences, flushes, bytes;
};

/* Where the functions below count. NULL while time is measured: they then cost
   a test more, which is foreseen each time. */
extern struct counts *counting;

/* ---- stores into mapped files, flushes, fences */

/* Copies bytes. A word is the usual case, and is then one store. */
static inline void copy_bytes(void *to, const void *from, size_t length)
{
    if (length == CRPM_WORD_SIZE)
        memcpy(to, from, CRPM_WORD_SIZE);
    else
        memcpy(to, from, length);
}

static inline void store_bytes(void *to, const void *from, size_t length)
{
    copy_bytes(to, from, length);
    if (counting != NULL)
        counting->bytes += length;
}

static inline void store_word(uint64_t *to, uint64_t word)
{
    *(volatile uint64_t *)to = word; /* one aligned 8-byte store */
    if (counting != NULL)
        counting->bytes += sizeof word;
}

/* Flushes every line that has one of these bytes. */
static inline void flush_range(const void *at, size_t length)
{
    const int flush = crpm_best_flush();
    const uint8_t *end = (const uint8_t *)at + length;
    const uint8_t *line = (const uint8_t *)((uintptr_t)at / LINE * LINE);
    uint64_t lines = 0;
    for (; line < end; line += LINE, lines++)
        crpm_flush_line(line, flush);
    if (counting != NULL)
        counting->flushes += lines;
}

static inline void fence(void)
{
    crpm_fence();
    if (counting != NULL)
        counting->fences++;
}

/* Stores a word and waits until it is durable. */
static inline void store_durably(uint64_t *to, uint64_t word)
{
    store_word(to, word);
    flush_range(to, sizeof word);
    fence();
}

/* ---- what an epoch has touched: numbers of blocks or of lines */

struct touched {
    size_t count;
    uint32_t list[MOST_LINES]; /* in the order of their first touch */
    uint8_t has[MOST_LINES];
};

/* Notes a number; whether it is new. */
static inline int touch(struct touched *touched, size_t number)
{
    if (touched->has[number])
        return 0;
    touched->has[number] = 1;
    touched->list[touched->count++] = (uint32_t)number;
    return 1;
}

static inline void touch_nothing(struct touched *touched)
{
    size_t i;
    for (i = 0; i < touched->count; i++)
        touched->has[touched->list[i]] = 0;
    touched->count = 0;
}

#endif
