/*
 * Sides B and B2: PMDK's libpmemobj. The board is the pool's root object, an
 * epoch is a transaction.
 *
 * B   the bytes of each write are added to the transaction
 *     (pmemobj_tx_add_range), then written in place.
 * B2  the whole block is added where the epoch first touches it.
 *
 * Assumes that PMEM_IS_PMEM_FORCE=1 is set in the environment before the first
 * pool is made, so that libpmem flushes lines as on persistent memory; a pool
 * for which it would not is refused.
 */
#include "sides.h"

#include <libpmem.h>
#include <libpmemobj.h>
#include <stdio.h>
#include <stdlib.h>
#include <unistd.h>

#define LAYOUT "board"

enum { POOL_SIZE = 64 << 20 }; /* room for a transaction over the whole board */

struct pool {
    struct sizes sizes;
    char path[4096];
    PMEMobjpool *pool;
    PMEMoid root;
    uint8_t *board;
    int begun;              /* whether a transaction is under way */
    struct touched touched; /* B2: blocks added to it */
};

/* Finds the board in a pool that was just created or opened. */
static void find_board(struct pool *pool)
{
    const size_t size = board_size(pool->sizes);
    if (pool->pool == NULL)
        fail(pool->path, pmemobj_errormsg());
    pool->root = pmemobj_root(pool->pool, size);
    if (OID_IS_NULL(pool->root))
        fail(pool->path, pmemobj_errormsg());
    pool->board = pmemobj_direct(pool->root);
    if (!pmem_is_pmem(pool->board, size))
        fail(pool->path, "libpmem does not take the pool for persistent memory");
}

static void *setup(struct sizes sizes)
{
    static int number;
    struct pool *pool = allocate(sizeof *pool);
    pool->sizes = sizes;
    snprintf(pool->path, sizeof pool->path, "%s/pool.%d", folder, number++);
    pool->pool = pmemobj_create(pool->path, LAYOUT, POOL_SIZE, 0600);
    find_board(pool);
    return pool;
}

static void close_pool(void *self)
{
    struct pool *pool = self;
    pmemobj_close(pool->pool);
}

static void reopen(void *self)
{
    struct pool *pool = self;
    pool->pool = pmemobj_open(pool->path, LAYOUT);
    find_board(pool);
}

static void teardown(void *self)
{
    struct pool *pool = self;
    pmemobj_close(pool->pool);
    unlink(pool->path);
    free(pool);
}

/* Adds bytes of the board to the transaction; the first of an epoch begin it. */
static void add(struct pool *pool, size_t at, size_t length)
{
    if (!pool->begun && pmemobj_tx_begin(pool->pool, NULL, TX_PARAM_NONE) != 0)
        fail("pmemobj_tx_begin", pmemobj_errormsg());
    pool->begun = 1;
    if (pmemobj_tx_add_range(pool->root, at, length) != 0)
        fail("pmemobj_tx_add_range", pmemobj_errormsg());
}

static void write_bytes(void *self, const struct write *write)
{
    struct pool *pool = self;
    add(pool, write->at, write->length);
    copy_bytes(pool->board + write->at, write->bytes, write->length);
}

static void write_block(void *self, const struct write *write)
{
    struct pool *pool = self;
    const size_t n = block_of(write);
    if (touch(&pool->touched, n))
        add(pool, BLOCK * n, BLOCK);
    copy_bytes(pool->board + write->at, write->bytes, write->length);
}

static void save(void *self)
{
    struct pool *pool = self;
    if (!pool->begun)
        return;
    pmemobj_tx_commit();
    if (pmemobj_tx_end() != 0)
        fail("pmemobj_tx_commit", pmemobj_errormsg());
    pool->begun = 0;
    touch_nothing(&pool->touched);
}

static size_t differs(void *self, const uint8_t *board)
{
    struct pool *pool = self;
    return first_difference(pool->board, board, board_size(pool->sizes));
}

const struct side side_b = {
    .name = "B", .what = "libpmemobj, the bytes of each write added to the transaction",
    .setup = setup, .write = write_bytes, .save = save, .differs = differs, .teardown = teardown,
    .close = close_pool, .reopen = reopen,
};

const struct side side_b2 = {
    .name = "B2", .what = "libpmemobj, whole frames added once an epoch",
    .setup = setup, .write = write_block, .save = save, .differs = differs, .teardown = teardown,
    .close = close_pool, .reopen = reopen,
};
