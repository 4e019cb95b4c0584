/*
 * A side: one way to write to a board and to save it.
 *
 * A board is M main segments (levels) of B blocks (frames) of 256 bytes, one
 * after the other; at first all bytes are zero. An epoch is some writes and then
 * one save, after which all its writes are durable. Every side but D sees to it
 * that a power cut leaves all writes of an epoch or none.
 *
 * Assumes that a write stays within one block, and that a word (8 bytes) is
 * aligned. Each write is one call through a pointer, the same for every side.
 */
#ifndef SIDES_H
#define SIDES_H

#include "memory.h"

/* Main segments, backup segments, blocks of a segment. */
struct sizes {
    uint64_t mains, backups, blocks;
};

static inline size_t board_blocks(struct sizes sizes)
{
    return sizes.mains * sizes.blocks;
}

static inline size_t board_size(struct sizes sizes)
{
    return BLOCK * board_blocks(sizes);
}

/* Where a write goes, in both ways to say it: by main segment, block of it and
   offset in the block, at % BLOCK, or by its place `at`, counted from the board's
   start. Kept small: reading it is part of every side's time. */
struct write {
    const uint8_t *bytes;
    uint32_t at;
    uint16_t length;
    uint8_t main, block;
};

/* The number of a write's block, counted from the board's start. */
static inline size_t block_of(const struct write *write)
{
    return write->at / BLOCK;
}

#define ALIKE SIZE_MAX

/* The first place at which two boards differ, or ALIKE. */
static inline size_t first_difference(const uint8_t *a, const uint8_t *b, size_t length)
{
    size_t i;
    if (memcmp(a, b, length) == 0)
        return ALIKE;
    for (i = 0; a[i] == b[i]; i++)
        ;
    return i;
}

struct side {
    const char *name;
    const char *what;
    int counted; /* whether its fences, flushes and bytes are counted */
    void *(*setup)(struct sizes sizes);
    void (*write)(void *self, const struct write *write);
    void (*save)(void *self);
    /* The first place at which what was saved, or what the side keeps in
       ordinary memory, differs from this board; or ALIKE. */
    size_t (*differs)(void *self, const uint8_t *board);
    void (*teardown)(void *self);
    /* What a program does at its end, NULL if that is nothing, and what it does
       at its start, after a proper end or a kill: the board is then as last
       saved. NULL for a side that has no recovery. */
    void (*close)(void *self);
    void (*reopen)(void *self);
};

extern const struct side side_a, side_af;          /* ours.c */
extern const struct side side_b, side_b2;          /* pmemobj.c */
extern const struct side side_c, side_e, side_d;   /* logs.c */

#endif
