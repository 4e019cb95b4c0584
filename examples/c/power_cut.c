/*
 * Power lost in the middle of a checkpoint, and an edit that is dropped.
 *
 * Formats an image of two main segments, one backup segment and one block in
 * each, opens it, writes the bytes a1 b2 c3 d4 at offset 6 of main segment 0,
 * and makes a checkpoint. Then the power fails after 15, 16, 17 and 18
 * operations of the checkpoint; each time the image is opened again, and what
 * the reads show is printed.
 *
 * After operation 15 all but the epoch is sure to have arrived. Operation 16
 * stores the epoch, 17 flushes its line and 18 is the fence that waits for
 * it. So after 16 and after 17 that line may have arrived or not, and both
 * are shown.
 *
 * Once the checkpoint is finished the bytes are edited, and the edit is
 * discarded: the bytes of the checkpoint stand again. Power that fails among the
 * operations of the discard shows that checkpoint too.
 *
 * The image is ordinary memory here, and crpm_replay stores into it. On a
 * module, flush every line after the format and at each start before the
 * opening, and carry out each operation (crpm_x86.h).
 *
 * examples/c/run builds and runs this and compares what it prints with
 * expected.txt.
 */
#include "crpm.h"

#include <inttypes.h>
#include <stdio.h>
#include <stdlib.h>
#include <string.h>

enum { MAINS = 2, BACKUPS = 1, BLOCKS = 1 };

#define IMAGE_SIZE CRPM_IMAGE_SIZE(MAINS, BACKUPS, BLOCKS)

/* Enough for any call on the image. */
#define TRACE_LENGTH CRPM_TRACE(MAINS, BLOCKS)

/* The only client, before it has used a backup segment: all are reserved for it.
   A run lent after a restart starts so. */
static const struct crpm_client CLIENT = {BACKUPS, BACKUPS, 0};

/* What is written, and where in block 0 of main segment 0; what it is edited to. */
static const uint8_t BYTES[] = {0xa1, 0xb2, 0xc3, 0xd4};
static const uint8_t EDIT[] = {0xe5, 0xf6, 0x07, 0x18};
enum { OFFSET = 6 };

static void fail(const char *what)
{
    fprintf(stderr, "power_cut: %s\n", what);
    exit(EXIT_FAILURE);
}

/* Ends the program unless the call was served. */
static void served(const char *call, uint64_t status)
{
    if (status != CRPM_SERVED) {
        fprintf(stderr, "power_cut: %s was refused with %" PRIu64 "\n", call, status);
        exit(EXIT_FAILURE);
    }
}

/* Carries out the first n operations of a trace that holds so many. */
static void replay(uint8_t *image, const uint64_t *trace, uint64_t ops, uint64_t n)
{
    uint64_t played;
    size_t length = CRPM_OP_NUMBERS * (size_t)ops;
    served("replay", crpm_replay(image, IMAGE_SIZE, trace, length, n, &played));
    if (played != n)
        fail("not all operations were carried out");
}

/* Opens an image and carries out the operations. How many they were. */
static uint64_t reopen(uint8_t *image, struct crpm_session *session, struct crpm_client *client)
{
    uint64_t trace[TRACE_LENGTH], ops;
    served("open", crpm_open(image, IMAGE_SIZE, MAINS, BACKUPS, BLOCKS, CRPM_ADR, session, client, 1,
                             trace, TRACE_LENGTH, &ops));
    replay(image, trace, ops, ops);
    return ops;
}

/* Writes the bytes and carries out the operations. */
static void write_bytes(uint8_t *image, struct crpm_session *session, struct crpm_client *client)
{
    uint64_t trace[TRACE_LENGTH], ops;
    served("write", crpm_write(image, IMAGE_SIZE, session, client, 1, 0, 0, 0, OFFSET, BYTES, sizeof BYTES,
                               trace, TRACE_LENGTH, &ops));
    if (ops != 2 || trace[0] != CRPM_OP_STORE || trace[CRPM_OP_NUMBERS] != CRPM_OP_STORE)
        fail("the write is not two stores");
    printf("write: %" PRIu64 " operations, words stored at %" PRIu64 " and %" PRIu64 "\n",
           ops, trace[1], trace[CRPM_OP_NUMBERS + 1]);
    replay(image, trace, ops, ops);
}

static const uint8_t zeros[CRPM_BLOCK_SIZE];

/* The block as of the last checkpoint, zeros where that has none of it, and the block
   as it stands now. */
static const uint8_t *checkpoint_block(const uint8_t *image)
{
    uint64_t start, size;
    served("read", crpm_read_checkpoint(image, IMAGE_SIZE, MAINS, BACKUPS, BLOCKS, 0, 0,
                                        &start, &size));
    return size == 0 ? zeros : image + start;
}

static const uint8_t *working_block(const uint8_t *image)
{
    uint64_t start, size;
    served("read", crpm_read_working(image, IMAGE_SIZE, MAINS, BACKUPS, BLOCKS, 0, 0,
                                     &start, &size));
    return image + start;
}

/* Prints the bytes that stand where BYTES were written. */
static void show_bytes(const uint8_t *block)
{
    printf("%02x %02x %02x %02x", block[OFFSET], block[OFFSET + 1], block[OFFSET + 2], block[OFFSET + 3]);
}

/* Whether two images have the same checkpoint. */
static int same_checkpoint(const uint8_t *a, const uint8_t *b)
{
    uint64_t same;
    served("comparison", crpm_same_checkpoint(a, IMAGE_SIZE, b, IMAGE_SIZE, MAINS, BACKUPS, BLOCKS,
                                              &same));
    return same == 1;
}

/* Prints what both reads show of the written bytes after an opening, and
   whether that is the checkpoint of the image before. */
static void show_checkpoint(const uint8_t *before, const uint8_t *image)
{
    uint8_t written[CRPM_BLOCK_SIZE] = {0};
    const uint8_t *block = checkpoint_block(image);

    memcpy(written + OFFSET, BYTES, sizeof BYTES);
    if (memcmp(block, working_block(image), CRPM_BLOCK_SIZE) != 0)
        fail("the two reads differ after an opening");
    if (memcmp(block, zeros, CRPM_BLOCK_SIZE) == 0)
        printf("zeros");
    else if (memcmp(block, written, CRPM_BLOCK_SIZE) == 0)
        show_bytes(block);
    else
        fail("the block is neither the old one nor the new one");
    printf(", %s\n", same_checkpoint(before, image) ? "the old checkpoint" : "the new checkpoint");
}

/* Loses power after n operations of a call, with the line of the epoch arrived
   or not, opens again, and shows the checkpoint. */
static void lose_power(const uint8_t *before, const uint64_t *trace, uint64_t ops, uint64_t n,
                       int arrived)
{
    uint8_t image[IMAGE_SIZE];
    struct crpm_session session;
    struct crpm_client client = CLIENT;
    memcpy(image, before, IMAGE_SIZE);
    replay(image, trace, ops, n);
    if (!arrived)
        memcpy(image + CRPM_EPOCH_AT, before + CRPM_EPOCH_AT, CRPM_LINE_SIZE);
    reopen(image, &session, &client);
    show_checkpoint(before, image);
}

/* Makes a checkpoint, with power lost in it, and finishes it. */
static void make_checkpoint(uint8_t *image, struct crpm_session *session, struct crpm_client *client)
{
    uint64_t trace[TRACE_LENGTH], ops, n;
    served("checkpoint", crpm_checkpoint(image, IMAGE_SIZE, session, client, 1, trace, TRACE_LENGTH, &ops));
    printf("checkpoint: %" PRIu64 " operations\n", ops);

    printf("power lost after 15 operations: ");
    lose_power(image, trace, ops, 15, 1);
    for (n = 16; n <= 17; n++) {
        printf("power lost after %" PRIu64 " operations, epoch line not arrived: ", n);
        lose_power(image, trace, ops, n, 0);
        printf("power lost after %" PRIu64 " operations, epoch line arrived: ", n);
        lose_power(image, trace, ops, n, 1);
    }
    printf("power lost after 18 operations: ");
    lose_power(image, trace, ops, 18, 1);
    replay(image, trace, ops, ops);
}

/* Edits the bytes, which copies the main segment to its backup segment first. */
static void edit_bytes(uint8_t *image, struct crpm_session *session, struct crpm_client *client)
{
    uint64_t trace[TRACE_LENGTH], ops;
    served("write", crpm_write(image, IMAGE_SIZE, session, client, 1, 0, 0, 0, OFFSET, EDIT, sizeof EDIT,
                               trace, TRACE_LENGTH, &ops));
    replay(image, trace, ops, ops);
    printf("edit: %" PRIu64 " operations, ", ops);
    show_bytes(working_block(image));
    printf(" stand, ");
    show_bytes(checkpoint_block(image));
    printf(" are saved\n");
}

/* Drops the edit, with power lost while one of its two words is as it was and
   the other not. The session stays: the next checkpoint flushes the block. */
static void drop_edit(uint8_t *image, const struct crpm_session *session)
{
    uint64_t trace[TRACE_LENGTH], ops;
    served("discard", crpm_discard(image, IMAGE_SIZE, session, 0, trace, TRACE_LENGTH, &ops));
    printf("discard: %" PRIu64 " operations\n", ops);
    printf("power lost after 1 operation: ");
    lose_power(image, trace, ops, 1, 1);
    replay(image, trace, ops, ops);
    printf("after the discard: ");
    show_bytes(working_block(image));
    printf(" stand\n");
}

int main(void)
{
    static uint8_t image[IMAGE_SIZE];
    struct crpm_session session;
    struct crpm_client client = CLIENT;

    served("format", crpm_format(image, IMAGE_SIZE, MAINS, BACKUPS, BLOCKS));
    printf("format: %zu bytes\n", IMAGE_SIZE);
    printf("open: %" PRIu64 " operations\n", reopen(image, &session, &client));
    write_bytes(image, &session, &client);
    make_checkpoint(image, &session, &client);
    edit_bytes(image, &session, &client);
    drop_edit(image, &session);

    return fflush(stdout) == 0 && !ferror(stdout) ? EXIT_SUCCESS : EXIT_FAILURE;
}
