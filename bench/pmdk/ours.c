/*
 * Sides A and AF: the library, its traces carried out by crpm_x86.h.
 *
 * A   each write is a crpm_write, carried out at once; a save is a
 *     crpm_checkpoint.
 * AF  writes go to a copy of the board in ordinary memory; a save makes one
 *     crpm_write of 256 bytes for each block touched, then the checkpoint.
 *
 * Assumes that an epoch touches no more main segments than there are backup
 * segments: a write is refused otherwise (refusal 9), and the program ends.
 */
#include "ours.h"
#include "timing.h"

#include <stdio.h>

struct steps ours_steps;

void served(const char *call, uint64_t status)
{
    char why[40];
    if (status == CRPM_SERVED)
        return;
    snprintf(why, sizeof why, "refused with %d", (int)status);
    fail(call, why);
}

/* ---- calls */

uint64_t ours_open(struct ours *ours)
{
    uint64_t ops;
    served("crpm_open", crpm_open(ours->image, ours->length, ours->sizes.mains, ours->sizes.backups, ours->sizes.blocks,
                                  CRPM_ADR, &ours->session, &ours->client, 1, ours->trace, ours->trace_length, &ops));
    return ops;
}

uint64_t ours_write(struct ours *ours, uint64_t main, uint64_t block, uint64_t offset, const uint8_t *bytes, size_t length)
{
    uint64_t ops;
    served("crpm_write", crpm_write(ours->image, ours->length, &ours->session, &ours->client, 1, 0, main, block, offset,
                                    bytes, length, ours->trace, ours->trace_length, &ops));
    return ops;
}

uint64_t ours_checkpoint(struct ours *ours)
{
    uint64_t ops;
    served("crpm_checkpoint",
           crpm_checkpoint(ours->image, ours->length, &ours->session, &ours->client, 1, ours->trace, ours->trace_length,
                           &ops));
    return ops;
}

/* Counts the operations of a trace as they stand there. */
static void count_trace(const uint64_t *trace, uint64_t ops)
{
    for (; ops > 0; ops--, trace += CRPM_OP_NUMBERS) {
        counting->bytes += trace[0] == CRPM_OP_STORE ? CRPM_WORD_SIZE : 0;
        counting->flushes += trace[0] == CRPM_OP_CLWB;
        counting->fences += trace[0] == CRPM_OP_SFENCE;
    }
}

void ours_carry_out(struct ours *ours, uint64_t ops)
{
    if (counting != NULL)
        count_trace(ours->trace, ops);
    crpm_carry_out(ours->image, ours->trace, ops);
}

/* ---- both sides */

/* How every start goes: flush every line, open, carry out. */
static void reopen(void *self)
{
    struct ours *ours = self;
    uint64_t ops;
    const double start = now();
    double flushed, called;
    crpm_flush_all(ours->image, ours->length);
    flushed = now();
    ops = ours_open(ours);
    called = now();
    ours_carry_out(ours, ops);
    ours_steps = (struct steps){flushed - start, called - flushed, now() - called};
}

void *ours_setup(struct sizes sizes)
{
    struct ours *ours = allocate(sizeof *ours);
    ours->sizes = sizes;
    ours->client = (struct crpm_client){sizes.backups, sizes.backups, 0};
    ours->length = CRPM_IMAGE_SIZE(sizes.mains, sizes.backups, sizes.blocks);
    ours->image = map_file(ours->length);
    ours->trace_length = CRPM_TRACE(sizes.mains, sizes.blocks);
    ours->trace = allocate(sizeof ours->trace[0] * ours->trace_length);
    ours->edits = allocate(board_size(sizes));
    served("crpm_format", crpm_format(ours->image, ours->length, sizes.mains, sizes.backups, sizes.blocks));
    reopen(ours);
    return ours;
}

void ours_teardown(void *self)
{
    struct ours *ours = self;
    unmap_file(ours->image, ours->length);
    free(ours->trace);
    free(ours->edits);
    free(ours);
}

/* Whether both reads of a block give these bytes. The checkpoint read finds
   none where no checkpoint has any: then they are zeros. */
static int block_alike(struct ours *ours, uint64_t main, uint64_t block, const uint8_t *bytes)
{
    static const uint8_t zeros[BLOCK];
    const struct sizes sizes = ours->sizes;
    uint64_t start, size;
    served("crpm_read_working", crpm_read_working(ours->image, ours->length, sizes.mains, sizes.backups, sizes.blocks,
                                                  main, block, &start, &size));
    if (memcmp(ours->image + start, bytes, BLOCK) != 0)
        return 0;
    served("crpm_read_checkpoint", crpm_read_checkpoint(ours->image, ours->length, sizes.mains, sizes.backups,
                                                        sizes.blocks, main, block, &start, &size));
    return memcmp(size == 0 ? zeros : ours->image + start, bytes, BLOCK) == 0;
}

static size_t differs(void *self, const uint8_t *board)
{
    struct ours *ours = self;
    size_t n;
    for (n = 0; n < board_blocks(ours->sizes); n++)
        if (!block_alike(ours, n / ours->sizes.blocks, n % ours->sizes.blocks, board + BLOCK * n))
            return BLOCK * n;
    return ALIKE;
}

/* ---- A */

static void write_now(void *self, const struct write *write)
{
    struct ours *ours = self;
    ours_carry_out(ours, ours_write(ours, write->main, write->block, write->at % BLOCK, write->bytes, write->length));
}

static void save(void *self)
{
    struct ours *ours = self;
    ours_carry_out(ours, ours_checkpoint(ours));
}

const struct side side_a = {
    .name = "A", .what = "crpm, a call for each write", .counted = 1,
    .setup = ours_setup, .write = write_now, .save = save, .differs = differs, .teardown = ours_teardown,
    .reopen = reopen,
};

/* ---- AF */

static void write_later(void *self, const struct write *write)
{
    struct ours *ours = self;
    copy_bytes(ours->edits + write->at, write->bytes, write->length);
    touch(&ours->touched, block_of(write));
}

static void save_edits(void *self)
{
    struct ours *ours = self;
    const uint64_t blocks = ours->sizes.blocks;
    size_t i;
    for (i = 0; i < ours->touched.count; i++) {
        const size_t n = ours->touched.list[i];
        ours_carry_out(ours, ours_write(ours, n / blocks, n % blocks, 0, ours->edits + BLOCK * n, BLOCK));
    }
    touch_nothing(&ours->touched);
    save(ours);
}

static size_t edits_differ(void *self, const uint8_t *board)
{
    struct ours *ours = self;
    const size_t at = first_difference(ours->edits, board, board_size(ours->sizes));
    return at == ALIKE ? differs(self, board) : at;
}

const struct side side_af = {
    .name = "AF", .what = "crpm, edits in ordinary memory and a call for each frame at the save", .counted = 1,
    .setup = ours_setup, .write = write_later, .save = save_edits, .differs = edits_differ, .teardown = ours_teardown,
};
