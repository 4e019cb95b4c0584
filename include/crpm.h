/*
 * crpm: checkpoints in non-volatile memory that no power cut divides.
 *
 * The calls of the proved library, as C and C++ see them. ./install PREFIX
 * puts this file and libcrpm.a in place (x86-64 Linux); pkg-config names them
 * crpm. What each call returns and leaves is a contract of
 * crates/capi/src/lib.rt; docs/SPECIFICATION.md has the rules in words.
 *
 * An image is the contents of the module's memory. A call reads the image and
 * writes what is to be done to it on a trace: operations, three numbers each.
 * The caller carries them out (crpm_x86.h has a function that does): every
 * store, every clwb and every sfence, all of them and in their order, before
 * the next call. crpm_replay only stores into an image, for benches, dumps and
 * simulation. Only crpm_format and crpm_replay change an image.
 *
 * Modules are of two kinds, by what a power cut leaves of the cache before them
 * (the persistence domain), and an opening is told which it is. On CRPM_ADR a
 * store is durable once its line is written back and fenced. On CRPM_EADR a
 * store is durable once it is in the cache, since a power cut leaves the cache's
 * contents too; the traces have fences, which wait for that, and no clwb.
 *
 * What every caller must know
 *  - At a program's start, always, and after a call whose operations were not
 *    all carried out: flush every line of the image and fence (crpm_flush_all in
 *    crpm_x86.h), then open. A process that was killed or gave up among the
 *    operations of a call leaves stores that are not durable, and an opening
 *    flushes no metadata: without this a later power cut can lose or mix
 *    checkpoints. After a power cut the flush changes nothing. On CRPM_EADR
 *    nothing needs flushing, and it does no harm.
 *  - Give every opening the module's own kind; in doubt CRPM_ADR, which is right
 *    on every module: on one of the other kind it costs flushes and no more.
 *    CRPM_EADR is right only where the platform guarantees that the caches are
 *    flushed on a power failure. No call can check it: with CRPM_EADR on a module
 *    whose cache may lose lines, a power cut can lose or mix the bytes of finished
 *    checkpoints, or leave an image that is refused with CRPM_INVALID. Before a
 *    power cut it is mended by a checkpoint, a flush of every line, a fence, and
 *    an opening with CRPM_ADR, which drops what no checkpoint has.
 *  - After crpm_format on a module, flush every line and fence before anything
 *    else; CRPM_EADR again needs no flush. A format whose lines never reached the
 *    module can lose every later checkpoint. That an opening is served is no sign
 *    that a format finished: keep a mark of your own, outside the image, set after
 *    crpm_flush_all.
 *  - Never format because an opening was refused; keep the dump first.
 *  - Hand to crpm_write, crpm_discard and crpm_checkpoint only the session that
 *    the last call on this image wrote. Never one kept over a restart, never a
 *    copy of an earlier one: CRPM_BAD_SESSION does not catch every wrong one, and
 *    a wrong one that is served can turn the checkpoint to old bytes, or make it
 *    of bytes that nobody flushed. After a restart, open.
 *  - The image is the module's memory, mapped so that a flush reaches it. Its
 *    byte 0 stands at an address divisible by 64, and the processor's cache line
 *    is 64 bytes. Each store of a trace is one aligned 8-byte store.
 *  - One image, one writer: nothing else stores into it, and its calls do not
 *    run at the same time, whichever client makes them. Calls on different images
 *    may; the library keeps no data of its own.
 *  - Clients that write the same image are lent together, as one run of records,
 *    to every opening, write and checkpoint of it, and only these calls change
 *    the run. Then, from the first served checkpoint after the latest opening on,
 *    a client that has used fewer backup segments than are reserved for it is
 *    never refused with CRPM_NO_FREE_BACKUP, CRPM_QUOTA_REACHED or
 *    CRPM_BACKUPS_RESERVED, whatever the others write. After an opening a
 *    checkpoint comes first: main segments that it restored keep their backup
 *    segments until then. A program with one client lends a run of one record,
 *    whose `reserved` and `quota` are the number of backup segments: then no call
 *    is refused with 13, 14 or 15.
 *  - A run lent after a restart starts with `used` 0: CRPM_BAD_CLIENTS refuses one
 *    above its quota to an opening too, and a served opening sets it to 0.
 *  - Compile with the header of the same version as the archive: nothing checks
 *    it, and a larger session would be written past a smaller one.
 *  - The library takes below 20 KiB of code and constants and below 3 KiB of
 *    stack in any call, and needs memcpy and memset (scripts/footprint measures
 *    it). It uses SSE registers (xmm, no ymm): code that interrupts a call saves
 *    them. It uses the red zone: an interrupt handler that runs on the stack of
 *    a call must step over 128 bytes below the stack pointer. Linux does both.
 *
 * Rules for every call
 *  - A buffer is a pointer and a length: of bytes for an image and for the
 *    bytes of a write, of numbers for a trace, of records for a run of clients.
 *    All other pointers point to one struct or one number, so no length of theirs
 *    can be wrong.
 *  - No pointer may be null, even where the length is 0: pass the address of
 *    anything that may be read (of anything that may be written, if it is not
 *    const). A length is the buffer's own.
 *  - Numbers, sessions and clients are aligned as uint64_t asks. What one call is
 *    handed must not overlap; only const buffers may overlap one another.
 *  - The return value is 0 if the call was served, else the number of the
 *    refusal: the first that applies in the order listed with each call. A refused
 *    call leaves image, trace and clients as they were, leaves the session as it
 *    came (a refused opening: a session of zeros) and writes 0 where it would write
 *    a number.
 *  - All else that is handed over may have any value.
 */
#ifndef CRPM_H
#define CRPM_H

#include <stddef.h>
#include <stdint.h>

#ifdef __cplusplus
extern "C" {
#endif

/* The version of this interface: its first number is raised whenever a signature
   or a struct changes, its second when a call is added, or when what a call does,
   or what is promised of it, changes and programs need no change.
   `pkg-config --modversion crpm` says the same. */
#define CRPM_VERSION "3.1.0"

/* ---- the layout of an image */

#define CRPM_WORD_SIZE 8       /* bytes of a word, least significant first */
#define CRPM_LINE_SIZE 64      /* bytes of a cache line */
#define CRPM_BLOCK_SIZE 256    /* bytes of a block */
#define CRPM_METADATA_SIZE 512 /* bytes before main segment 0 */
#define CRPM_MOST 64           /* most main segments, backup segments, blocks */

#define CRPM_EPOCH_AT 0    /* the committed epoch: a word, the number of checkpoints */
#define CRPM_MAINS_AT 64   /* main segments: a word */
#define CRPM_BACKUPS_AT 72 /* backup segments: a word */
#define CRPM_BLOCKS_AT 80  /* blocks of a segment: a word */
#define CRPM_STATES_AT 128 /* states for even epochs, a byte for each main segment; those for
                              odd epochs stand a line on */
#define CRPM_PAIRS_AT 256  /* the main segment of each backup segment: a byte each */
#define CRPM_UNPAIRED 255  /* the pair byte of a backup segment that has none */

/* The states of a main segment. Initial: it is empty, no checkpoint was ever made of
   it, so it has no checkpoint part, and its checkpoint bytes count as zeros; one that
   was saved with all bytes zero is in another state. Main, backup: its checkpoint
   stands in itself, in its backup segment. */
#define CRPM_SS_INITIAL 0
#define CRPM_SS_MAIN 1
#define CRPM_SS_BACKUP 2

/* Bytes of an image of M main segments, S backup segments and B blocks in
   each segment; M, S and B are each 1 to CRPM_MOST. */
#define CRPM_IMAGE_SIZE(M, S, B) \
    ((size_t)CRPM_METADATA_SIZE + \
     (size_t)CRPM_BLOCK_SIZE * (size_t)(B) * ((size_t)(M) + (size_t)(S)))

/* Where main segment I and backup segment J start. */
#define CRPM_MAIN_AT(B, I) \
    ((size_t)CRPM_METADATA_SIZE + (size_t)CRPM_BLOCK_SIZE * (size_t)(B) * (size_t)(I))
#define CRPM_BACKUP_AT(M, B, J) CRPM_MAIN_AT(B, (size_t)(M) + (size_t)(J))

/* ---- the trace */

/* An operation is three numbers: kind, place, word. */
#define CRPM_OP_NUMBERS 3
#define CRPM_OP_STORE 1  /* store a word at a place divisible by 8 */
#define CRPM_OP_CLWB 2   /* write back (flush) the line at a place divisible by 64; the word is 0;
                            in a session of CRPM_EADR there is none */
#define CRPM_OP_SFENCE 3 /* wait for what was written back; place and word are 0 */

/* Numbers of a trace that are always enough for an opening, a write, a discard
   and a checkpoint of an image with M main segments and B blocks in each. A trace
   can be larger than the image: with 64 of each the image has 2,097,664 bytes, and
   the trace of its first opening 3,538,968. A write may be as long as a main
   segment: 32 words for each of its blocks, besides the copy. With a trace of
   the length that sufficed before version 1.2.0 it gets CRPM_TRACE_SHORT. With
   CRPM_EADR the clwbs are left out, and fewer numbers are needed. */
#define CRPM_OPEN_TRACE(M, B) ((size_t)CRPM_OP_NUMBERS * (36 * (size_t)(B) * (size_t)(M) + 1))
#define CRPM_WRITE_TRACE(B) ((size_t)CRPM_OP_NUMBERS * (36 * (size_t)(B) + 6 + 32 * (size_t)(B)))
#define CRPM_DISCARD_TRACE(B) ((size_t)CRPM_OP_NUMBERS * 32 * (size_t)(B))
#define CRPM_CHECKPOINT_TRACE(M, B) ((size_t)CRPM_OP_NUMBERS * (4 * (size_t)(B) * (size_t)(M) + 14))

/* Numbers that are always enough for all four: the greatest of them. With one
   main segment that is a write's, with more mostly an opening's; a discard never
   needs as many as a write, a checkpoint never as many as an opening. */
#define CRPM_TRACE(M, B) \
    (CRPM_OPEN_TRACE(M, B) > CRPM_WRITE_TRACE(B) ? CRPM_OPEN_TRACE(M, B) : CRPM_WRITE_TRACE(B))

/* ---- the session */

/* The kinds of module, which an opening is told (above). */
#define CRPM_ADR 0  /* a power cut may lose what was not written back; right for every module */
#define CRPM_EADR 1 /* a power cut leaves every store: the caches are flushed by the platform */

/* What is known of an image since it was opened. crpm_open writes it, crpm_write
   and crpm_checkpoint take it and write it again, crpm_discard takes it and leaves
   it as it is; nobody else changes it. */
struct crpm_session {
    uint64_t mains;          /* main segments */
    uint64_t backups;        /* backup segments */
    uint64_t blocks;         /* blocks of a segment */
    uint64_t dirty_segments; /* bit i: main segment i was written to since the last checkpoint */
    uint64_t dirty_blocks[CRPM_MOST]; /* word i, bit b: block b of main segment i may differ
                                         from its backup segment */
    uint64_t domain;         /* the kind of the module, as the opening was told */
};

/* ---- the clients */

#define CRPM_MOST_CLIENTS 8 /* most records of a run */

/* The record of a client: how many backup segments it may take, so that no client
   takes those that others count on. The clients of an image are numbered by their
   places in the run, from 0. A write that copies its main segment adds 1 to `used`
   of its client; a served checkpoint or opening sets every `used` to 0. With a run
   of no records openings and checkpoints are served, and no write is. */
struct crpm_client {
    uint64_t reserved; /* backup segments kept for it; all clients' together are at most those of
                          the image */
    uint64_t quota;    /* most that it may take between one checkpoint or opening and the next:
                          `reserved` or more, and more than the image has if you like */
    uint64_t used;     /* how many it has taken since the last checkpoint or opening */
};

/* ---- the numbers that calls return */

enum crpm_status {
    CRPM_SERVED = 0,         /* the call was served */
    CRPM_BAD_SIZE = 1,       /* a size is not 1 to 64 */
    CRPM_BAD_LENGTH = 2,     /* the image has another length (replay: not divisible by 64) */
    CRPM_FOREIGN = 3,        /* the image holds other sizes */
    CRPM_INVALID = 4,        /* states and pairs of the image do not fit one another */
    CRPM_BAD_SESSION = 5,    /* the session does not fit the image, or names no kind of module
                                (opening: there is no such kind) */
    CRPM_NO_SUCH_MAIN = 6,   /* there is no such main segment */
    CRPM_NO_SUCH_BLOCK = 7,  /* there is no such block */
    CRPM_BAD_SPAN = 8,       /* no bytes to write, an offset that is not in the block, or bytes
                                that leave the main segment */
    CRPM_NO_FREE_BACKUP = 9, /* a write needs a new backup segment, and none is free: make a
                                checkpoint, then all are */
    CRPM_EPOCH_LIMIT = 10,   /* a checkpoint at epoch 2^64 - 1 */
    CRPM_TRACE_SHORT = 11,   /* the trace is too short for the operations */
    CRPM_TRACE_BAD = 12,     /* replay: length not divisible by 3, or an operation ill formed */
    CRPM_BAD_CLIENTS = 13,   /* the number of a client that the run has not, a run of more than 8,
                                a client with more reserved or used than its quota, or more
                                reserved in all than there are backup segments */
    CRPM_QUOTA_REACHED = 14, /* a write copies its main segment, and its client has used its quota:
                                make a checkpoint, then it has used nothing */
    CRPM_BACKUPS_RESERVED = 15 /* a write copies its main segment, and no more backup segments are
                                  free than the other clients have reserved and not used: make a
                                  checkpoint, then all are free */
};

/* ---- the calls */

/* Formats an image: epoch 0, these sizes, every state 0, no backup segment
   paired, every segment zero. Whatever was there is lost. A format is not safe
   against a power cut: format again after one. The next opening may serve what a
   cut left and show old bytes, so only a mark of your own says that it finished
   (above). Refusals in order: 1, 2. */
uint64_t crpm_format(
    uint8_t *image, size_t image_length,
    uint64_t mains, uint64_t backups, uint64_t blocks);

/* Opens an image, which recovers: once its operations are carried out, the
   working bytes are those of the last checkpoint. At a program's start flush
   every line first (above). `domain` is the kind of the module, CRPM_ADR or
   CRPM_EADR; the calls up to the next opening find it in the session. Writes a
   session with no dirty segment or block, sets `used` of every client to 0, and
   writes to `ops` the number of operations on the trace. Refusals in order: 1 to 4,
   5 for a kind above 1, 13, 11; 13 judges the run by the `backups` that are handed
   over. */
uint64_t crpm_open(
    const uint8_t *image, size_t image_length,
    uint64_t mains, uint64_t backups, uint64_t blocks,
    uint64_t domain,
    struct crpm_session *session,
    struct crpm_client *clients, size_t clients_length,
    uint64_t *trace, size_t trace_length,
    uint64_t *ops);

/* Writes bytes to a main segment, from an offset in a block on. They may run on
   through the following blocks, to the end of the main segment: the offset is 0
   to 255, and offset and length together at most 256 times the blocks from this
   one on. Byte k of a main segment has block k / 256 and offset k % 256. The
   main segment is copied once at most, however long the write is. If it needs a
   new backup segment for that, it takes the lowest unpaired one; if all are
   paired, the lowest whose main segment is in state 1. So the same calls on the
   same image always give the same operations. Takes the session that the last
   call on the image wrote and writes the next one; to `ops` the number of
   operations.

   `client` is the number of the client that writes. A main segment is copied if it
   is not dirty and in state 1, even if no block of it is dirty and though it has a
   backup segment: that write is charged to its client, whose `used` grows by 1. It
   is refused with 14 if the client has used its quota, and with 15 if the free
   backup segments, its own included, are not more than what the other clients have
   reserved and not used; one that has used as much as is reserved for it, or more,
   has nothing left of it. Every other write changes no client.
   Refusals in order: 1 to 5, 13, 6 to 9, 14, 15, 11. */
uint64_t crpm_write(
    const uint8_t *image, size_t image_length,
    struct crpm_session *session,
    struct crpm_client *clients, size_t clients_length, uint64_t client,
    uint64_t main, uint64_t block, uint64_t offset,
    const uint8_t *bytes, size_t bytes_length,
    uint64_t *trace, size_t trace_length,
    uint64_t *ops);

/* Drops what was written to a main segment since the last checkpoint: once its
   operations are carried out, the working bytes of the main segment are those of
   the checkpoint. For each dirty block of a dirty main segment they are 32 stores,
   upward: its words as they stand in the backup segment, or zeros if no checkpoint
   has bytes of this main segment. None is flushed, and there is no fence. A main
   segment that is not dirty gets no operation, and then any trace is long enough,
   even one of no numbers. Writes to `ops` the number of operations.

   Takes the session that the last call on the image wrote, and leaves it as it is:
   the main segment and its blocks stay dirty, since a later checkpoint must still
   flush them. Where no checkpoint had bytes of the main segment, that one has:
   zeros. No client is charged, and the backup segment stays in use until then. A
   power cut inside the call or after it shows the last checkpoint, as one inside a
   write does. Refusals in order: 1 to 6, 11. */
uint64_t crpm_discard(
    const uint8_t *image, size_t image_length,
    const struct crpm_session *session,
    uint64_t main,
    uint64_t *trace, size_t trace_length,
    uint64_t *ops);

/* Makes the working bytes the checkpoint, in one step: a power cut shows the
   old checkpoint or the new one, whole. Every backup segment is free then, so
   the next writes that copy a main segment, as many as there are backup
   segments, are not refused with 9; and `used` of every client is 0. Takes and
   writes a session as crpm_write does; to `ops` the number of operations.
   Refusals in order: 1 to 5, 13, 10, 11. */
uint64_t crpm_checkpoint(
    const uint8_t *image, size_t image_length,
    struct crpm_session *session,
    struct crpm_client *clients, size_t clients_length,
    uint64_t *trace, size_t trace_length,
    uint64_t *ops);

/* Carries out the stores among the first n operations of a trace, or among all
   if there are fewer. It flushes nothing and waits for nothing: on a module,
   carry out the operations yourself. Hand over the part of the trace that
   holds operations: 3 numbers for each. Writes to `played` how many operations
   were played. Refusals in order: 2, 12. */
uint64_t crpm_replay(
    uint8_t *image, size_t image_length,
    const uint64_t *trace, size_t trace_length,
    uint64_t n,
    uint64_t *played);

/* Finds a block as it stands now: where in the image it starts and its size,
   256. The blocks of a main segment stand one after the other, so what one write
   put into several of them stands there as it was handed over. The place holds
   until operations are next carried out on the image; read again then.
   Refusals in order: 1 to 4, 6, 7. */
uint64_t crpm_read_working(
    const uint8_t *image, size_t image_length,
    uint64_t mains, uint64_t backups, uint64_t blocks,
    uint64_t main, uint64_t block,
    uint64_t *start, uint64_t *size);

/* Finds a block as of the last checkpoint: where in the image it starts and
   its size, 256. A main segment that is empty, of which no checkpoint was ever made,
   has no checkpoint part: the call is served, and start and size are 0; its bytes
   count as zeros. One that was saved with all bytes zero has a part, of 256 zeros.
   The place holds until operations are next carried out on the image; read again
   then. Refusals in order: 1 to 4, 6, 7. */
uint64_t crpm_read_checkpoint(
    const uint8_t *image, size_t image_length,
    uint64_t mains, uint64_t backups, uint64_t blocks,
    uint64_t main, uint64_t block,
    uint64_t *start, uint64_t *size);

/* Whether two images of these sizes have the same checkpoint: 1 if
   crpm_read_checkpoint finds the same bytes of every block in both, or no part of it
   in both; else 0. So one that is empty, which has no checkpoint part, and one that
   was saved with all bytes zero are not the same, although all their bytes are zero;
   up to version 3.0.0 they were. Whether a main segment's checkpoint
   stands in itself or in its backup segment makes no difference, and neither do
   epochs, pairs and bytes of no checkpoint. 0 if the call is refused.
   Refusals in order: 1 to 4, the first image wholly before the second. */
uint64_t crpm_same_checkpoint(
    const uint8_t *a, size_t a_length,
    const uint8_t *b, size_t b_length,
    uint64_t mains, uint64_t backups, uint64_t blocks,
    uint64_t *same);

#ifdef __cplusplus
}
#endif

#endif
