/*
 * Running on a module of persistent memory, with two consoles that edit the same
 * levels, and what a killed process leaves.
 *
 *     module format FILE      makes FILE an empty image
 *     module run FILE [N]     opens the image and makes what is still to be
 *                             made of a history of writes, discards and
 *                             checkpoints
 *     module show FILE [N]    opens the image and says which checkpoint it shows
 *
 * With N the process is killed (SIGKILL) once N operations are carried out.
 * Exit status: 0; 1 if the file cannot be used, a call is refused or what is
 * shown is no checkpoint of the history; 2 for wrong arguments.
 *
 * FILE is mapped into memory, and the operations of each call are carried out
 * there: by crpm_x86.h, or, compiled with -DCRPM_LIBPMEM, by PMDK's libpmem.
 * All lines are flushed after a format and at each start, before the opening.
 * With a FILE on persistent memory (a file system with DAX) this is all that a
 * program has to do. Another FILE stands in for the module.
 *
 * The stage console and the gallery console are lent to every call as one run of
 * records. One of the two backup segments is reserved for each, so that neither
 * takes both: once, the gallery hears that the one that is free is the stage's.
 *
 * A killed process leaves in FILE all that it has stored, since the kernel
 * keeps the pages: also what is not durable yet. So killing alone shows only
 * crashes in which every store arrived, as a power failure leaves them on a module
 * of the kind CRPM_EADR. On others, when the power fails, any line may lack the
 * last of its stores: that every such crash is safe is proved
 * (docs/SPECIFICATION.md, sections 7 and 15), and some are tried behind a cache
 * that keeps back all it may (tests/c/oldest).
 *
 * With the library installed (./install):
 *
 *     gcc module.c $(pkg-config --cflags --libs crpm) -o module
 *     gcc -DCRPM_LIBPMEM module.c $(pkg-config --cflags --libs crpm libpmem) -o module
 *
 * examples/c/module-run builds both, kills them operation by operation and cuts
 * the power.
 */
#define _DEFAULT_SOURCE /* MAP_SYNC */

#ifdef CRPM_LIBPMEM
#include "crpm.h"

#include <libpmem.h>
#else
#include "crpm_x86.h"

#include <fcntl.h>
#include <sys/mman.h>
#include <sys/stat.h>
#endif

#include <errno.h>
#include <inttypes.h>
#include <signal.h>
#include <stdio.h>
#include <stdlib.h>
#include <string.h>
#include <unistd.h>

enum { MAINS = 3, BACKUPS = 2, BLOCKS = 2 };

/* The kind of the module, which every opening is told. CRPM_ADR is right on each;
   -DDOMAIN=CRPM_EADR leaves the flushes out of the traces, where the platform flushes
   the caches on a power failure (libpmem says it: pmem_has_auto_flush). */
#ifndef DOMAIN
#define DOMAIN CRPM_ADR
#endif

#define IMAGE_SIZE CRPM_IMAGE_SIZE(MAINS, BACKUPS, BLOCKS)

/* The consoles, by their places in the run that is lent to every call. Only the
   calls change it. It belongs to this process, like the session: a run lent after
   a restart starts with nothing used. */
enum { STAGE, GALLERY, CONSOLES };

static struct crpm_client consoles[CONSOLES] = {{1, 2, 0}, {1, 2, 0}};

static void fail(const char *what, const char *why)
{
    fprintf(stderr, "module: %s: %s\n", what, why);
    exit(1);
}

/* Ends the program unless the call was served. */
static void served(const char *call, uint64_t status)
{
    if (status != CRPM_SERVED) {
        fprintf(stderr, "module: %s: refused with %" PRIu64 "\n", call, status);
        exit(1);
    }
}

/* ---- the history, and the record of what each checkpoint holds */

enum { CHECKPOINTS = 4 };

/* Each edit with the number of the checkpoint that it comes before, and what it
   hears: a write, or a discard of what was written to a main segment since the last
   checkpoint. Two writes run on over the end of a block. One is refused: the gallery
   has taken its backup segment, and the other is reserved for the stage, which writes
   next. The discards are of a main segment that was copied, whose bytes come back
   from its backup segment, and of one that no checkpoint has, which is zeros again.
   No checkpoint comes after the last write: no opening shows it. */
enum { WRITE, DISCARD };

static const struct edit {
    int checkpoint, call;
    uint64_t console, main, block, offset; /* of a discard only `main` counts */
    size_t length;
    uint64_t status;
} edits[] = {
    {1, WRITE, STAGE, 0, 0, 6, 4, CRPM_SERVED},
    {2, WRITE, STAGE, 0, 0, 244, 24, CRPM_SERVED},
    {2, WRITE, GALLERY, 1, 1, 248, 8, CRPM_SERVED},
    {3, WRITE, GALLERY, 1, 0, 250, 12, CRPM_SERVED},
    {3, DISCARD, 0, 1, 0, 0, 0, CRPM_SERVED},
    {3, WRITE, STAGE, 0, 1, 0, 8, CRPM_SERVED},
    {3, WRITE, GALLERY, 2, 1, 40, 8, CRPM_SERVED},
    {3, DISCARD, 0, 2, 0, 0, 0, CRPM_SERVED},
    {3, WRITE, GALLERY, 2, 0, 100, 20, CRPM_SERVED},
    {4, WRITE, GALLERY, 2, 0, 0, 8, CRPM_SERVED},
    {4, WRITE, GALLERY, 0, 0, 0, 8, CRPM_BACKUPS_RESERVED},
    {4, WRITE, STAGE, 1, 1, 8, 8, CRPM_SERVED},
    {CHECKPOINTS + 1, WRITE, STAGE, 1, 0, 0, 8, CRPM_SERVED},
};

enum { EDITS = sizeof edits / sizeof edits[0], LONGEST = 24 };

/* The bytes that edit e writes; no two writes share one, and none is zero. */
static const uint8_t *bytes_of(size_t e)
{
    static uint8_t bytes[LONGEST];
    size_t i, before = 0;
    for (i = 0; i < e; i++)
        before += edits[i].length;
    for (i = 0; i < edits[e].length; i++)
        bytes[i] = (uint8_t)(before + i + 1);
    return bytes;
}

typedef uint8_t page[MAINS][BLOCKS][CRPM_BLOCK_SIZE];

/* What an edit that was served makes of a page, where the last checkpoint holds
   these bytes. */
static void make_edit(size_t e, page blocks, page saved)
{
    const struct edit *made = &edits[e];
    if (made->call == DISCARD)
        memcpy(blocks[made->main], saved[made->main], sizeof saved[made->main]);
    else
        memcpy((uint8_t *)blocks[made->main] + CRPM_BLOCK_SIZE * made->block + made->offset, bytes_of(e),
               made->length);
}

/* Every block as checkpoint k holds it: zeros, and on them all edits that came
   before and were served. The library has no part in this. */
static void make_page(int k, page blocks)
{
    page saved;
    size_t e;
    int next;
    memset(blocks, 0, sizeof(page));
    for (next = 1; next <= k; next++) {
        memcpy(saved, blocks, sizeof(page));
        for (e = 0; e < EDITS; e++)
            if (edits[e].checkpoint == next && edits[e].status == CRPM_SERVED)
                make_edit(e, blocks, saved);
    }
}

/* ---- the module: a mapping, 64-byte aligned as every mapping is */

/* Whether the mapping is persistent memory. A program for a board ends if it is
   not: in another file no flush makes anything durable. */
static int persistent;

#ifdef CRPM_LIBPMEM

static uint8_t *map_module(const char *path, int create)
{
    size_t length = 0;
    void *image = create ? pmem_map_file(path, IMAGE_SIZE, PMEM_FILE_CREATE, 0666, &length, &persistent)
                         : pmem_map_file(path, 0, 0, 0, &length, &persistent);
    if (image == NULL)
        fail(path, pmem_errormsg());
    if (length != IMAGE_SIZE)
        fail(path, "not as long as an image");
    return image;
}

/* The two functions of crpm_x86.h, by libpmem. */
static void crpm_carry_out(uint8_t *image, const uint64_t *trace, uint64_t n)
{
    for (; n > 0; n--, trace += CRPM_OP_NUMBERS) {
        void *at = image + trace[1];
        switch (trace[0]) {
        case CRPM_OP_STORE:
            *(volatile uint64_t *)at = trace[2];
            break;
        case CRPM_OP_CLWB:
            pmem_flush(at, CRPM_LINE_SIZE);
            break;
        case CRPM_OP_SFENCE:
            pmem_drain();
            break;
        }
    }
}

static void crpm_flush_all(const uint8_t *image, size_t length)
{
    pmem_flush(image, length);
    pmem_drain();
}

#else

static uint8_t *map_module(const char *path, int create)
{
    struct stat file;
    void *image;
    int fd = open(path, create ? O_RDWR | O_CREAT : O_RDWR, 0666);
    if (fd < 0 || (create && ftruncate(fd, (off_t)IMAGE_SIZE) != 0) || fstat(fd, &file) != 0)
        fail(path, strerror(errno));
    if (file.st_size != (off_t)IMAGE_SIZE)
        fail(path, "not as long as an image");
    /* MAP_SYNC is granted for persistent memory only: there a flush is enough,
       and no msync is needed. */
    image = mmap(NULL, IMAGE_SIZE, PROT_READ | PROT_WRITE, MAP_SHARED_VALIDATE | MAP_SYNC, fd, 0);
    persistent = image != MAP_FAILED;
    if (!persistent)
        image = mmap(NULL, IMAGE_SIZE, PROT_READ | PROT_WRITE, MAP_SHARED, fd, 0);
    if (image == MAP_FAILED)
        fail(path, strerror(errno));
    close(fd);
    return image;
}

#endif

/* ---- the calls: each is followed by its operations, before the next call */

/* How many operations there are until the process is killed. */
static uint64_t left = UINT64_MAX;

static uint64_t trace[CRPM_TRACE(MAINS, BLOCKS)];
enum { TRACE = sizeof trace / sizeof trace[0] };

/* Carries out the operations that a call put on the trace, or, if the process
   is to be killed among them, those before that. */
static void carry_out(uint8_t *image, const char *call, uint64_t ops)
{
    if (ops >= left) {
        crpm_carry_out(image, trace, left);
        kill(getpid(), SIGKILL);
    }
    crpm_carry_out(image, trace, ops);
    left -= ops;
    printf("%s: %" PRIu64 " operations\n", call, ops);
}

/* A format is flushed and fenced as a whole, and is finished only then. An
   opening that is served is no sign of that: a program for a board keeps a mark
   of its own, outside the image, that it sets here. */
static void format_image(uint8_t *image)
{
    served("format", crpm_format(image, IMAGE_SIZE, MAINS, BACKUPS, BLOCKS));
    crpm_flush_all(image, IMAGE_SIZE);
    printf("format: %zu bytes, %s\n", IMAGE_SIZE, persistent ? "persistent memory" : "a file that stands in for a module");
}

/* How every start goes. The last process may have been killed among the
   operations of a call: then what it stored stands but is not all durable, and
   an opening flushes no metadata. So every line is flushed first, always; after
   a power cut that changes nothing. The session belongs to this process: it is
   never kept over a restart. */
static void open_image(uint8_t *image, struct crpm_session *session)
{
    uint64_t ops;
    crpm_flush_all(image, IMAGE_SIZE);
    served("open", crpm_open(image, IMAGE_SIZE, MAINS, BACKUPS, BLOCKS, DOMAIN, session, consoles,
                             CONSOLES, trace, TRACE, &ops));
    carry_out(image, "open", ops);
}

/* A write that is refused leaves everything as it was. A program for a board would
   tell the console why: a checkpoint frees every backup segment. */
static void write_bytes(uint8_t *image, struct crpm_session *session, size_t e)
{
    uint64_t ops;
    const uint64_t status = crpm_write(image, IMAGE_SIZE, session, consoles, CONSOLES, edits[e].console,
                                       edits[e].main, edits[e].block, edits[e].offset, bytes_of(e),
                                       edits[e].length, trace, TRACE, &ops);
    if (status == CRPM_BACKUPS_RESERVED && status == edits[e].status) {
        printf("write: %" PRIu64 " operations, refused with %" PRIu64 "\n", ops, status);
        return;
    }
    served("write", status);
    carry_out(image, "write", ops);
}

/* Drops what the consoles wrote to a main segment since the last checkpoint. The
   session stays as it is: the next checkpoint must flush what is stored here. */
static void discard_edits(uint8_t *image, const struct crpm_session *session, uint64_t main_segment)
{
    uint64_t ops;
    served("discard", crpm_discard(image, IMAGE_SIZE, session, main_segment, trace, TRACE, &ops));
    carry_out(image, "discard", ops);
}

static void make_checkpoint(uint8_t *image, struct crpm_session *session)
{
    uint64_t ops;
    served("checkpoint", crpm_checkpoint(image, IMAGE_SIZE, session, consoles, CONSOLES, trace, TRACE, &ops));
    carry_out(image, "checkpoint", ops);
}

/* ---- what an opened image shows */

/* Whether both reads give what checkpoint k holds, in every block. The
   checkpoint read finds no bytes of a main segment that no checkpoint has: then
   they are zeros. */
static int shows(const uint8_t *image, int k)
{
    static const uint8_t zeros[CRPM_BLOCK_SIZE];
    uint64_t i, b, start, size;
    page blocks;
    make_page(k, blocks);
    for (i = 0; i < MAINS; i++)
        for (b = 0; b < BLOCKS; b++) {
            served("read", crpm_read_working(image, IMAGE_SIZE, MAINS, BACKUPS, BLOCKS, i, b, &start, &size));
            if (size != CRPM_BLOCK_SIZE || memcmp(image + start, blocks[i][b], CRPM_BLOCK_SIZE) != 0)
                return 0;
            served("read", crpm_read_checkpoint(image, IMAGE_SIZE, MAINS, BACKUPS, BLOCKS, i, b, &start, &size));
            if (memcmp(size == 0 ? zeros : image + start, blocks[i][b], CRPM_BLOCK_SIZE) != 0)
                return 0;
        }
    return 1;
}

/* The number of the checkpoint that is shown: 0 before the first. */
static int shown(const uint8_t *image)
{
    int k = 0;
    while (!shows(image, k))
        if (k++ == CHECKPOINTS)
            fail("shown", "no checkpoint of the history");
    printf("shown: checkpoint %d\n", k);
    return k;
}

/* Goes on where the checkpoint that is shown left off. Main segments that the
   opening restored keep their backup segments until the next checkpoint, so one is
   made first, of the same bytes: from there on each console has what is reserved
   for it. */
static void run(uint8_t *image, struct crpm_session *session)
{
    int k = shown(image) + 1;
    size_t e;
    make_checkpoint(image, session);
    for (; k <= CHECKPOINTS + 1; k++) {
        for (e = 0; e < EDITS; e++)
            if (edits[e].checkpoint == k && edits[e].call == DISCARD)
                discard_edits(image, session, edits[e].main);
            else if (edits[e].checkpoint == k)
                write_bytes(image, session, e);
        if (k <= CHECKPOINTS)
            make_checkpoint(image, session);
    }
}

/* A decimal number from 0 on; anything else is a wrong argument. */
static int number(const char *text, uint64_t *value)
{
    char *end;
    errno = 0;
    *value = strtoull(text, &end, 10);
    return text[0] >= '0' && text[0] <= '9' && *end == '\0' && errno == 0;
}

int main(int argc, char **argv)
{
    const char *mode = argc > 1 ? argv[1] : "";
    const int runs = strcmp(mode, "run") == 0;
    struct crpm_session session;
    uint8_t *image;

    if (argc == 3 && strcmp(mode, "format") == 0) {
        format_image(map_module(argv[2], 1));
    } else if ((argc == 3 || (argc == 4 && number(argv[3], &left))) && (runs || strcmp(mode, "show") == 0)) {
        image = map_module(argv[2], 0);
        open_image(image, &session);
        if (runs)
            run(image, &session);
        else
            shown(image);
    } else {
        fprintf(stderr, "usage: module format FILE | module run FILE [N] | module show FILE [N]\n");
        return 2;
    }
    return fflush(stdout) == 0 && !ferror(stdout) ? 0 : 1;
}
