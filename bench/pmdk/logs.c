/*
 * Sides C, E and D: by hand, on a board in a mapped file.
 *
 * C  undo log: the first write of an epoch to a block puts the block's old bytes
 *    on the log and waits, then the entry's head and waits; only then the block
 *    is written in place. A save makes the blocks durable, then ends the epoch.
 * E  redo log: writes go to a copy of the board in ordinary memory. A save puts
 *    the blocks touched on the log and waits, then the commit word and waits;
 *    then it copies them to the board and waits, and clears the word.
 * D  stores in place; a save flushes the lines touched and fences once. A power
 *    cut leaves any part of an epoch. It shows what durability alone costs.
 *
 * Assumes that an aligned 8-byte store is not torn, and that what was stored to a
 * line before its flush is durable after the next fence: the same as the
 * library assumes. Recovery (reopen) is written for C and E, in a few lines. It
 * has been run after kills only, and nothing is proved of either.
 */
#include "sides.h"

#include <stdlib.h>

/* The undo log. An entry counts if its head has the epoch that the log is in,
   so a new epoch empties the log by one word. Epochs start with 1: a head that
   was never written counts in none. */
struct undo_log {
    uint64_t epoch;
    uint64_t rest_of_line[LINE / sizeof(uint64_t) - 1];
    uint64_t heads[MOST_BLOCKS]; /* MOST_BLOCKS * epoch + number of the block */
    uint8_t old[MOST_BLOCKS][BLOCK];
};

/* The redo log. */
struct redo_log {
    uint64_t committed; /* how many entries are to be copied to the board; 0: none */
    uint64_t rest_of_line[LINE / sizeof(uint64_t) - 1];
    uint64_t places[MOST_BLOCKS]; /* the numbers of the blocks */
    uint8_t new[MOST_BLOCKS][BLOCK];
};

struct hand {
    size_t size;            /* of the board */
    uint8_t *board;         /* in a mapped file */
    struct undo_log *undo;  /* C: in a mapped file */
    struct redo_log *redo;  /* E: in a mapped file */
    uint8_t *edits;         /* E: the board in ordinary memory */
    struct touched touched; /* since the last save: C and E blocks, D lines */
};

static struct hand *new_hand(struct sizes sizes)
{
    struct hand *hand = allocate(sizeof *hand);
    hand->size = board_size(sizes);
    hand->board = map_file(hand->size);
    return hand;
}

static void teardown(void *self)
{
    struct hand *hand = self;
    unmap_file(hand->board, hand->size);
    if (hand->undo != NULL)
        unmap_file(hand->undo, sizeof *hand->undo);
    if (hand->redo != NULL)
        unmap_file(hand->redo, sizeof *hand->redo);
    free(hand->edits);
    free(hand);
}

static size_t differs(void *self, const uint8_t *board)
{
    struct hand *hand = self;
    return first_difference(hand->board, board, hand->size);
}

/* Copies a block to the board and flushes it; the caller fences. */
static void put_block(struct hand *hand, size_t n, const uint8_t *bytes)
{
    store_bytes(hand->board + BLOCK * n, bytes, BLOCK);
    flush_range(hand->board + BLOCK * n, BLOCK);
}

/* ---- C: undo log */

static void *undo_setup(struct sizes sizes)
{
    struct hand *hand = new_hand(sizes);
    hand->undo = map_file(sizeof *hand->undo);
    store_durably(&hand->undo->epoch, 1);
    return hand;
}

/* Logs the old bytes of a block as entry i. */
static void undo_log(struct hand *hand, size_t i, size_t n)
{
    struct undo_log *log = hand->undo;
    store_bytes(log->old[i], hand->board + BLOCK * n, BLOCK);
    flush_range(log->old[i], BLOCK);
    fence(); /* the entry, before its head */
    store_durably(&log->heads[i], MOST_BLOCKS * log->epoch + n); /* the head, before the block changes */
}

static void undo_write(void *self, const struct write *write)
{
    struct hand *hand = self;
    const size_t i = hand->touched.count, n = block_of(write);
    if (touch(&hand->touched, n))
        undo_log(hand, i, n);
    store_bytes(hand->board + write->at, write->bytes, write->length);
}

static void undo_save(void *self)
{
    struct hand *hand = self;
    size_t i;
    for (i = 0; i < hand->touched.count; i++)
        flush_range(hand->board + BLOCK * hand->touched.list[i], BLOCK);
    fence(); /* the blocks, before the log is empty */
    store_durably(&hand->undo->epoch, hand->undo->epoch + 1); /* before the log is written again */
    touch_nothing(&hand->touched);
}

/* Puts back what the unfinished epoch has logged, then ends it. A kill leaves
   stores that are not durable: those to blocks are put back and flushed here, a
   head among them has a block that was not changed yet, and the epoch is stored
   anew. */
static void undo_reopen(void *self)
{
    struct hand *hand = self;
    struct undo_log *log = hand->undo;
    size_t i;
    for (i = 0; i < MOST_BLOCKS && log->heads[i] / MOST_BLOCKS == log->epoch; i++)
        put_block(hand, log->heads[i] % MOST_BLOCKS, log->old[i]);
    fence();
    store_durably(&log->epoch, log->epoch + 1);
    touch_nothing(&hand->touched);
}

const struct side side_c = {
    .name = "C", .what = "undo log by hand", .counted = 1,
    .setup = undo_setup, .write = undo_write, .save = undo_save, .differs = differs, .teardown = teardown,
    .reopen = undo_reopen,
};

/* ---- E: redo log */

static void *redo_setup(struct sizes sizes)
{
    struct hand *hand = new_hand(sizes);
    hand->redo = map_file(sizeof *hand->redo);
    hand->edits = allocate(hand->size);
    return hand;
}

static void redo_write(void *self, const struct write *write)
{
    struct hand *hand = self;
    copy_bytes(hand->edits + write->at, write->bytes, write->length);
    touch(&hand->touched, block_of(write));
}

/* Copies what is committed to the board; in a save and in recovery. */
static void redo_apply(struct hand *hand)
{
    struct redo_log *log = hand->redo;
    size_t i;
    for (i = 0; i < log->committed; i++)
        put_block(hand, log->places[i], log->new[i]);
    fence(); /* the board, before the log is empty */
    store_durably(&log->committed, 0); /* before the log is written again */
}

static void redo_save(void *self)
{
    struct hand *hand = self;
    struct redo_log *log = hand->redo;
    const size_t count = hand->touched.count;
    size_t i;
    for (i = 0; i < count; i++) {
        const size_t n = hand->touched.list[i];
        store_word(&log->places[i], n);
        store_bytes(log->new[i], hand->edits + BLOCK * n, BLOCK);
    }
    flush_range(log->places, sizeof log->places[0] * count);
    flush_range(log->new, BLOCK * count);
    fence(); /* the entries, before the commit */
    store_durably(&log->committed, count); /* the commit, before the board changes */
    redo_apply(hand);
    touch_nothing(&hand->touched);
}

static void redo_reopen(void *self)
{
    struct hand *hand = self;
    store_durably(&hand->redo->committed, hand->redo->committed); /* a kill may have left it in the cache */
    redo_apply(hand);
    memcpy(hand->edits, hand->board, hand->size);
    touch_nothing(&hand->touched);
}

static size_t redo_differs(void *self, const uint8_t *board)
{
    struct hand *hand = self;
    const size_t at = first_difference(hand->edits, board, hand->size);
    return at == ALIKE ? differs(self, board) : at;
}

const struct side side_e = {
    .name = "E", .what = "redo log by hand, the board in ordinary memory", .counted = 1,
    .setup = redo_setup, .write = redo_write, .save = redo_save, .differs = redo_differs, .teardown = teardown,
    .reopen = redo_reopen,
};

/* ---- D: bare stores */

static void *bare_setup(struct sizes sizes)
{
    return new_hand(sizes);
}

static void bare_write(void *self, const struct write *write)
{
    struct hand *hand = self;
    size_t line;
    store_bytes(hand->board + write->at, write->bytes, write->length);
    for (line = write->at / LINE; line * LINE < write->at + write->length; line++)
        touch(&hand->touched, line);
}

static void bare_save(void *self)
{
    struct hand *hand = self;
    size_t i;
    for (i = 0; i < hand->touched.count; i++)
        flush_range(hand->board + LINE * hand->touched.list[i], LINE);
    fence();
    touch_nothing(&hand->touched);
}

const struct side side_d = {
    .name = "D", .what = "bare stores, flushes and one fence: no atomicity", .counted = 1,
    .setup = bare_setup, .write = bare_write, .save = bare_save, .differs = differs, .teardown = teardown,
};
