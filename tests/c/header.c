/*
 * The header held against the specification and against the library.
 *
 *     header VERSION        VERSION: that of the pkg-config file
 *
 * Every size, place, state, kind, number, macro and field of crpm.h is used
 * here as a caller uses it, on real images, sessions, clients and traces, and
 * what comes of it is compared with numbers written out from docs/SPECIFICATION.md.
 * tests/c/spoil changes each of them in turn and sees that this program no
 * longer compiles or no longer passes. It is C99 and C++11 at once.
 */
#include "crpm.h"

#include <stdio.h>
#include <stdlib.h>
#include <string.h>

/* ---- checks */

static unsigned long checks, failures;
static int step; /* the line of the step that is being tried */

static void check(int holds, const char *what, int line)
{
    checks++;
    if (!holds && ++failures <= 20)
        fprintf(stderr, "header.c:%d: in the step of line %d, not so: %s\n", line, step, what);
}

#define CHECK(condition) check((condition) ? 1 : 0, #condition, __LINE__)
#define STEP(made) (step = __LINE__, made)

/* A call returns the status of this name, which has this number. */
#define RETURNS(call, name, number) returns(call, name, number, #call " returns " #name, __LINE__)
#define SERVED(call) RETURNS(call, CRPM_SERVED, 0)

static void returns(uint64_t status, uint64_t name, uint64_t number, const char *what, int line)
{
    check(status == name && name == number, what, line);
}

/* What stands in a number before a call writes it, and in a trace. */
static const uint64_t UNWRITTEN = 0x5a5a5a5a5a5a5a5a;

/* ---- bytes and words, by the specification's numbers and by the header's */

static void put_word(uint8_t *bytes, size_t at, uint64_t word)
{
    int i;
    for (i = 0; i < 8; i++)
        bytes[at + (size_t)i] = (uint8_t)(word >> 8 * i);
}

static uint64_t word_at(const uint8_t *image, size_t at)
{
    uint64_t word = 0;
    size_t i;
    for (i = CRPM_WORD_SIZE; i > 0; i--)
        word = word << 8 | image[at + i - 1];
    return word;
}

static int all(const uint8_t *bytes, size_t length, uint8_t value)
{
    size_t i;
    for (i = 0; i < length; i++)
        if (bytes[i] != value)
            return 0;
    return 1;
}

/* ---- a bench: an image, the session of it, its clients and a trace */

/* Records behind the longest run, where nobody writes. */
enum { RECORDS = CRPM_MOST_CLIENTS + 2 };

struct bench {
    uint64_t mains, backups, blocks, domain;
    uint8_t *image;
    size_t image_length;
    struct crpm_session session;
    uint64_t behind_session; /* nobody writes here */
    struct crpm_client clients[RECORDS];
    size_t clients_length;
    uint64_t *trace;
    size_t trace_length;
    uint64_t ops;
    /* the write that is to be made */
    uint64_t client, main, block, offset;
    const uint8_t *bytes;
    size_t bytes_length;
    /* as allocated; a copy of the image and of the clients */
    size_t image_room, trace_room;
    uint8_t *copy;
    struct crpm_client lent[RECORDS];
};

/* Room behind image and trace, where nobody writes. */
enum { BEHIND = 64 };

static void *allocated(size_t size)
{
    void *made = malloc(size);
    if (made == NULL) {
        fprintf(stderr, "header: no memory\n");
        exit(2);
    }
    return made;
}

static struct crpm_client client(uint64_t reserved, uint64_t quota, uint64_t used)
{
    struct crpm_client made;
    made.reserved = reserved;
    made.quota = quota;
    made.used = used;
    return made;
}

/* A bench with a formatted image; it was full of other bytes before. It stands for a
   module of the kind CRPM_ADR, and has one client, for which every backup segment is
   reserved. */
static void start(struct bench *t, uint64_t mains, uint64_t backups, uint64_t blocks)
{
    memset(t, 0, sizeof *t);
    t->mains = mains;
    t->backups = backups;
    t->blocks = blocks;
    t->domain = CRPM_ADR;
    t->image_length = CRPM_IMAGE_SIZE(mains, backups, blocks);
    t->image_room = t->image_length + BEHIND;
    t->image = (uint8_t *)allocated(t->image_room);
    t->copy = (uint8_t *)allocated(t->image_room);
    t->trace_length = CRPM_TRACE(mains, blocks);
    t->trace_room = t->trace_length + BEHIND;
    t->trace = (uint64_t *)allocated(t->trace_room * sizeof *t->trace);
    t->bytes = t->copy;
    memset(t->clients, 0xee, sizeof t->clients);
    t->clients[0] = client(backups, backups, 0);
    t->clients_length = 1;
    memset(t->image, 0xee, t->image_room);
    SERVED(crpm_format(t->image, t->image_length, mains, backups, blocks));
    CHECK(all(t->image + t->image_length, BEHIND, 0xee));
}

static void finish(struct bench *t)
{
    free(t->image);
    free(t->copy);
    free(t->trace);
}

/* ---- the calls that write a trace, and what holds of each: the image is as it
   was, numbers behind the operations and clients behind the run keep their
   contents, and a refused call writes 0 operations, leaves the clients as they
   were and the session that it should */

typedef uint64_t bench_call(struct bench *);

static void before_call(struct bench *t)
{
    size_t i;
    memcpy(t->copy, t->image, t->image_room);
    memcpy(t->lent, t->clients, sizeof t->clients);
    for (i = 0; i < t->trace_room; i++)
        t->trace[i] = UNWRITTEN;
    t->behind_session = UNWRITTEN;
    t->ops = UNWRITTEN;
}

static uint64_t after_call(const struct bench *t, uint64_t status, const struct crpm_session *if_refused)
{
    size_t i;
    CHECK(memcmp(t->copy, t->image, t->image_room) == 0);
    CHECK(t->behind_session == UNWRITTEN);
    if (status != CRPM_SERVED) {
        CHECK(t->ops == 0);
        CHECK(memcmp(&t->session, if_refused, sizeof t->session) == 0);
        CHECK(memcmp(t->clients, t->lent, sizeof t->lent) == 0);
    }
    for (i = 0; i < RECORDS; i++) {
        CHECK(t->clients[i].reserved == t->lent[i].reserved && t->clients[i].quota == t->lent[i].quota);
        CHECK(i < t->clients_length || t->clients[i].used == t->lent[i].used);
    }
    for (i = CRPM_OP_NUMBERS * (size_t)t->ops; i < t->trace_room && t->trace[i] == UNWRITTEN; i++)
        ;
    CHECK(i == t->trace_room);
    return status;
}

/* What a served opening and a served checkpoint leave of the clients. */
static uint64_t all_unused(const struct bench *t, uint64_t status)
{
    size_t i;
    for (i = 0; status == CRPM_SERVED && i < t->clients_length; i++)
        CHECK(t->clients[i].used == 0);
    return status;
}

static uint64_t open_image(struct bench *t)
{
    struct crpm_session zeros;
    memset(&zeros, 0, sizeof zeros);
    memset(&t->session, 0xff, sizeof t->session);
    before_call(t);
    return all_unused(t, after_call(t, crpm_open(t->image, t->image_length, t->mains, t->backups, t->blocks,
                                                 t->domain, &t->session, t->clients, t->clients_length,
                                                 t->trace, t->trace_length, &t->ops), &zeros));
}

/* A served write changes no client but its own, by 1 at most. */
static uint64_t write_bytes(struct bench *t)
{
    struct crpm_session as_it_came = t->session;
    uint64_t status;
    size_t i;
    before_call(t);
    status = after_call(t, crpm_write(t->image, t->image_length, &t->session, t->clients, t->clients_length,
                                      t->client, t->main, t->block, t->offset, t->bytes, t->bytes_length,
                                      t->trace, t->trace_length, &t->ops), &as_it_came);
    for (i = 0; i < t->clients_length; i++)
        CHECK(t->clients[i].used - t->lent[i].used <= (i == t->client ? 1 : 0));
    return status;
}

/* A discard leaves the session as it came, served or not, and every client. */
static uint64_t discard(struct bench *t)
{
    struct crpm_session as_it_came = t->session;
    uint64_t status;
    before_call(t);
    status = after_call(t, crpm_discard(t->image, t->image_length, &t->session, t->main, t->trace,
                                        t->trace_length, &t->ops), &as_it_came);
    CHECK(memcmp(&t->session, &as_it_came, sizeof as_it_came) == 0);
    CHECK(memcmp(t->clients, t->lent, sizeof t->lent) == 0);
    return status;
}

static uint64_t checkpoint(struct bench *t)
{
    struct crpm_session as_it_came = t->session;
    before_call(t);
    return all_unused(t, after_call(t, crpm_checkpoint(t->image, t->image_length, &t->session, t->clients,
                                                       t->clients_length, t->trace, t->trace_length,
                                                       &t->ops), &as_it_came));
}

/* Names the write that comes next, of the same client, or the main segment of a
   discard. */
static struct bench *at(struct bench *t, uint64_t main, uint64_t block, uint64_t offset,
                        const uint8_t *bytes, size_t length)
{
    t->main = main;
    t->block = block;
    t->offset = offset;
    t->bytes = bytes;
    t->bytes_length = length;
    return t;
}

/* ---- a trace, carried out by the header's constants */

struct kinds {
    uint64_t stores, clwbs, sfences;
};

/* Carries out operations on an image and counts their kinds. Whether each is
   well formed. */
static int carry_out(uint8_t *image, size_t length, const uint64_t *trace, uint64_t ops,
                     struct kinds *found)
{
    uint64_t n, i;
    for (n = 0; n < ops; n++) {
        uint64_t kind = trace[CRPM_OP_NUMBERS * n], place = trace[CRPM_OP_NUMBERS * n + 1],
                 word = trace[CRPM_OP_NUMBERS * n + 2];
        if (kind == CRPM_OP_STORE && place % CRPM_WORD_SIZE == 0 && place < length) {
            for (i = 0; i < CRPM_WORD_SIZE; i++)
                image[place + i] = (uint8_t)(word >> 8 * i);
            found->stores++;
        } else if (kind == CRPM_OP_CLWB && place % CRPM_LINE_SIZE == 0 && place < length && word == 0) {
            found->clwbs++;
        } else if (kind == CRPM_OP_SFENCE && place == 0 && word == 0) {
            found->sfences++;
        } else {
            return 0;
        }
    }
    return 1;
}

/* Carries out the operations of the last call, here and by crpm_replay: so many
   of each kind, and the same image. */
static void play(struct bench *t, uint64_t stores, uint64_t clwbs, uint64_t sfences)
{
    struct kinds found = {0, 0, 0};
    uint64_t played = UNWRITTEN;
    memcpy(t->copy, t->image, t->image_room);
    CHECK(t->ops == stores + clwbs + sfences);
    CHECK(carry_out(t->copy, t->image_length, t->trace, t->ops, &found));
    CHECK(found.stores == stores);
    CHECK(found.clwbs == clwbs);
    CHECK(found.sfences == sfences);
    SERVED(crpm_replay(t->image, t->image_length, t->trace, CRPM_OP_NUMBERS * (size_t)t->ops, t->ops,
                       &played));
    CHECK(played == t->ops);
    CHECK(memcmp(t->image, t->copy, t->image_room) == 0);
}

/* ---- what stands in an image, by the header's places */

static uint8_t state_of(const struct bench *t, size_t main)
{
    uint64_t odd = word_at(t->image, CRPM_EPOCH_AT) % 2;
    return t->image[CRPM_STATES_AT + CRPM_LINE_SIZE * odd + main];
}

static uint8_t main_of(const struct bench *t, size_t backup)
{
    return t->image[CRPM_PAIRS_AT + backup];
}

/* The reads find a block at these places; no checkpoint has it where the second
   is 0. */
static void reads_at(const struct bench *t, uint64_t main, uint64_t block, uint64_t working,
                     uint64_t saved)
{
    uint64_t start_of = UNWRITTEN, size = UNWRITTEN;
    SERVED(crpm_read_working(t->image, t->image_length, t->mains, t->backups, t->blocks, main, block,
                             &start_of, &size));
    CHECK(start_of == working && size == 256 && size == CRPM_BLOCK_SIZE);
    start_of = size = UNWRITTEN;
    SERVED(crpm_read_checkpoint(t->image, t->image_length, t->mains, t->backups, t->blocks, main, block,
                                &start_of, &size));
    CHECK(start_of == saved && size == (saved == 0 ? 0 : 256));
}

/* Whether the checkpoint of a bench is that of an image, which is so both ways round. */
static int same(const struct bench *t, const uint8_t *image)
{
    uint64_t yes = UNWRITTEN, turned = UNWRITTEN;
    SERVED(crpm_same_checkpoint(t->image, t->image_length, image, t->image_length,
                                t->mains, t->backups, t->blocks, &yes));
    SERVED(crpm_same_checkpoint(image, t->image_length, t->image, t->image_length,
                                t->mains, t->backups, t->blocks, &turned));
    CHECK(yes <= 1 && turned == yes);
    return yes == 1;
}

/* The session, word for word: its struct is these 69 words in this order. */
static void session_is(const struct bench *t, uint64_t dirty_segments, uint64_t first, uint64_t second)
{
    uint64_t words[69], want[69] = {0};
    want[0] = t->mains;
    want[1] = t->backups;
    want[2] = t->blocks;
    want[3] = dirty_segments;
    want[4] = first;
    want[5] = second;
    want[68] = t->domain;
    CHECK(sizeof t->session == sizeof words);
    memcpy(words, &t->session, sizeof words);
    CHECK(memcmp(words, want, sizeof words) == 0);
    CHECK(t->session.mains == t->mains && t->session.backups == t->backups);
    CHECK(t->session.blocks == t->blocks);
    CHECK(t->session.dirty_segments == dirty_segments);
    CHECK(t->session.dirty_blocks[0] == first && t->session.dirty_blocks[1] == second);
    CHECK(t->session.dirty_blocks[CRPM_MOST - 1] == 0);
    CHECK(t->session.domain == t->domain);
}

/* ---- the worked examples: two main segments, one backup segment, one block in
   each. `want` is the image by the specification, kept up step by step. */

static const uint8_t ONE[8] = {1, 2, 3, 4, 5, 6, 7, 8}, TWO[8] = {9, 9, 9, 9, 9, 9, 9, 9};
static const uint8_t FOUR_BYTES[4] = {0xa1, 0xb2, 0xc3, 0xd4};

static void worked_examples(void)
{
    static uint8_t want[1280], first_checkpoint[1280];
    struct bench t;
    start(&t, 2, 1, 1);
    CHECK(t.image_length == 1280);
    put_word(want, 64, 2);
    put_word(want, 72, 1);
    put_word(want, 80, 1);
    memset(want + 256, 255, 64);
    CHECK(memcmp(t.image, want, 1280) == 0);
    CHECK(main_of(&t, 0) == CRPM_UNPAIRED && main_of(&t, CRPM_MOST - 1) == CRPM_UNPAIRED);

    /* a fresh opening fills both main segments with zeros */
    SERVED(open_image(&t));
    CHECK(t.ops == 73);
    STEP(play(&t, 64, 8, 1));
    CHECK(memcmp(t.image, want, 1280) == 0);
    STEP(session_is(&t, 0, 0, 0));
    STEP(reads_at(&t, 0, 0, 512, 0));

    /* four bytes over two words of main segment 0 */
    SERVED(write_bytes(at(&t, 0, 0, 6, FOUR_BYTES, 4)));
    CHECK(t.trace[0] == CRPM_OP_STORE && t.trace[1] == 512 && t.trace[2] == 0xb2a1000000000000);
    CHECK(t.trace[3] == CRPM_OP_STORE && t.trace[4] == 520 && t.trace[5] == 0xd4c3);
    STEP(play(&t, 2, 0, 0));
    memcpy(want + 518, FOUR_BYTES, 4);
    CHECK(memcmp(t.image, want, 1280) == 0);
    STEP(session_is(&t, 1, 1, 0));

    /* the checkpoint: states for odd epochs at 192, epoch 1 */
    SERVED(checkpoint(&t));
    CHECK(t.ops == 18);
    STEP(play(&t, 9, 6, 3));
    want[192] = 1;
    put_word(want, 0, 1);
    CHECK(memcmp(t.image, want, 1280) == 0);
    CHECK(state_of(&t, 0) == CRPM_SS_MAIN && state_of(&t, 1) == CRPM_SS_INITIAL);
    CHECK(word_at(t.image, CRPM_EPOCH_AT) == 1);
    STEP(session_is(&t, 0, 1, 0));
    STEP(reads_at(&t, 0, 0, 512, 512));
    memcpy(first_checkpoint, t.image, 1280);

    /* the next write to it pairs and fills the backup segment first */
    SERVED(write_bytes(at(&t, 0, 0, 8, ONE, 8)));
    CHECK(t.ops == 43);
    CHECK(t.trace[0] == CRPM_OP_STORE && t.trace[1] == 256 && t.trace[2] == 0xffffffffffffff00);
    STEP(play(&t, 35, 6, 2));
    memcpy(want + 1024, want + 512, 256);
    want[256] = 0;
    want[192] = 2;
    memcpy(want + 520, ONE, 8);
    CHECK(memcmp(t.image, want, 1280) == 0);
    CHECK(state_of(&t, 0) == CRPM_SS_BACKUP && main_of(&t, 0) == 0);
    STEP(session_is(&t, 1, 1, 0));
    STEP(reads_at(&t, 0, 0, 512, 1024));
    CHECK(same(&t, first_checkpoint));

    /* later writes are a store each */
    SERVED(write_bytes(at(&t, 0, 0, 16, TWO, 8)));
    STEP(play(&t, 1, 0, 0));
    SERVED(write_bytes(at(&t, 1, 0, 0, ONE, 8)));
    STEP(play(&t, 1, 0, 0));
    memcpy(want + 528, TWO, 8);
    memcpy(want + 768, ONE, 8);
    CHECK(memcmp(t.image, want, 1280) == 0);
    STEP(session_is(&t, 3, 1, 1));
    STEP(reads_at(&t, 1, 0, 768, 0));

    /* the second checkpoint: states for even epochs at 128, epoch 2 */
    SERVED(checkpoint(&t));
    CHECK(t.ops == 22);
    STEP(play(&t, 9, 10, 3));
    want[128] = want[129] = 1;
    put_word(want, 0, 2);
    CHECK(memcmp(t.image, want, 1280) == 0);
    CHECK(state_of(&t, 0) == CRPM_SS_MAIN && state_of(&t, 1) == CRPM_SS_MAIN);
    CHECK(!same(&t, first_checkpoint));

    /* main segment 1 takes the only backup segment; none is left for main segment 0 */
    SERVED(write_bytes(at(&t, 1, 0, 0, TWO, 8)));
    STEP(play(&t, 35, 6, 2));
    memcpy(want + 1024, want + 768, 256);
    want[256] = 1;
    want[129] = 2;
    memcpy(want + 768, TWO, 8);
    CHECK(memcmp(t.image, want, 1280) == 0);
    CHECK(state_of(&t, 1) == CRPM_SS_BACKUP && main_of(&t, 0) == 1);
    STEP(reads_at(&t, 1, 0, 768, 1024));
    RETURNS(write_bytes(at(&t, 0, 0, 0, ONE, 8)), CRPM_NO_FREE_BACKUP, 9);
    SERVED(write_bytes(at(&t, 1, 0, 255, ONE, 1)));
    RETURNS(write_bytes(at(&t, 1, 0, 256, ONE, 1)), CRPM_BAD_SPAN, 8);
    RETURNS(write_bytes(at(&t, 1, 0, 255, ONE, 2)), CRPM_BAD_SPAN, 8);
    RETURNS(write_bytes(at(&t, 1, 0, 0, ONE, 0)), CRPM_BAD_SPAN, 8);
    RETURNS(write_bytes(at(&t, 1, 0, UINT64_MAX, ONE, 1)), CRPM_BAD_SPAN, 8);

    /* opening again: main segment 1 has its checkpoint's bytes back */
    SERVED(open_image(&t));
    STEP(play(&t, 32, 4, 1));
    memcpy(want + 768, want + 1024, 256);
    CHECK(memcmp(t.image, want, 1280) == 0);
    STEP(session_is(&t, 0, 0, 0));
    finish(&t);
}

/* One main segment of four blocks, paired: a write copies only its dirty block. */
static void dirty_block_example(void)
{
    struct bench t;
    start(&t, 1, 1, 4);
    SERVED(open_image(&t));
    STEP(play(&t, 128, 16, 1));
    SERVED(write_bytes(at(&t, 0, 2, 0, ONE, 8)));
    STEP(play(&t, 1, 0, 0));
    STEP(session_is(&t, 1, 4, 0));
    SERVED(checkpoint(&t));
    STEP(play(&t, 9, 6, 3));
    SERVED(write_bytes(at(&t, 0, 3, 0, ONE, 8)));
    STEP(play(&t, 131, 18, 2));
    STEP(session_is(&t, 1, 8, 0));
    SERVED(checkpoint(&t));
    STEP(play(&t, 9, 6, 3));
    SERVED(write_bytes(at(&t, 0, 0, 0, TWO, 8)));
    CHECK(t.ops == 41);
    STEP(play(&t, 34, 5, 2));
    STEP(session_is(&t, 1, 1, 0));
    finish(&t);
}

/* ---- long writes, as in docs/SPECIFICATION.md 17.5: 700 bytes over three blocks of a main segment of four */

/* Bytes that count up, from another number for each write. */
static const uint8_t *counted(int from)
{
    static uint8_t bytes[995];
    size_t i;
    for (i = 0; i < sizeof bytes; i++)
        bytes[i] = (uint8_t)((size_t)from + i);
    return bytes;
}

/* Where a span may end, in a main segment that is dirty and holds these bytes. */
static void span_ends(struct bench *t, uint8_t *want)
{
    RETURNS(write_bytes(at(t, 0, 2, 30, counted(4), 700)), CRPM_BAD_SPAN, 8);
    RETURNS(write_bytes(at(t, 0, 0, 256, counted(4), 1)), CRPM_BAD_SPAN, 8);
    SERVED(write_bytes(at(t, 0, 0, 30, counted(4), 994)));
    STEP(play(t, 125, 0, 0));
    memcpy(want + 30, counted(4), 994);
    CHECK(memcmp(t->image + 512, want, 1024) == 0);
    STEP(session_is(t, 1, 15, 0));
    RETURNS(write_bytes(at(t, 0, 0, 30, counted(4), 995)), CRPM_BAD_SPAN, 8);
    SERVED(write_bytes(at(t, 0, 3, 255, counted(4), 1)));
    CHECK(t->ops == 1 && t->trace[1] == 1528);
    RETURNS(write_bytes(at(t, 0, 3, 255, counted(4), 2)), CRPM_BAD_SPAN, 8);
    RETURNS(write_bytes(at(t, 0, 0, UINT64_MAX - 6, counted(4), 8)), CRPM_BAD_SPAN, 8);
}

/* 700 bytes written, with so many operations of each kind, then these blocks dirty: the bytes stand at
   their place in the main segment, and the backup segment has what it is to have. */
static void write_long(struct bench *t, int from, uint64_t block, const struct kinds *ops, uint64_t dirty,
                       uint8_t *want, const uint8_t *backup)
{
    SERVED(write_bytes(at(t, 0, block, 30, counted(from), 700)));
    play(t, ops->stores, ops->clwbs, ops->sfences);
    memcpy(want + 256 * block + 30, counted(from), 700);
    CHECK(memcmp(t->image + 512, want, 1024) == 0);
    CHECK(memcmp(t->image + 1536, backup, 1024) == 0);
    session_is(t, 1, dirty, 0);
}

static void long_writes(void)
{
    static uint8_t want[1024], saved[1024];
    static const struct kinds plain = {89, 0, 0}, copying = {219, 18, 2}, copying_dirty = {186, 13, 2};
    struct bench t;
    uint64_t b;
    start(&t, 1, 1, 4);
    SERVED(open_image(&t));
    STEP(play(&t, 128, 16, 1));

    /* 89 words, from the one at 536 to the one at 1,240; blocks 0 to 2 are dirty, and a checkpoint flushes them */
    STEP(write_long(&t, 1, 0, &plain, 7, want, saved));
    CHECK(t.trace[1] == 536 && t.trace[2] == 0x0201000000000000);
    CHECK(t.trace[CRPM_OP_NUMBERS * 88 + 1] == 1240 && t.trace[CRPM_OP_NUMBERS * 88 + 2] == 0xbcbb);
    SERVED(checkpoint(&t));
    STEP(play(&t, 9, 14, 3));
    for (b = 0; b < 4; b++)
        STEP(reads_at(&t, 0, b, 512 + 256 * b, 512 + 256 * b));

    /* the main segment is copied once, whole and to a new backup segment; then blocks 1 to 3 are dirty */
    memcpy(saved, want, 1024);
    STEP(write_long(&t, 2, 1, &copying, 14, want, saved));
    SERVED(checkpoint(&t));
    STEP(play(&t, 9, 14, 3));

    /* its three dirty blocks are copied to its own backup segment */
    memcpy(saved, want, 1024);
    STEP(write_long(&t, 3, 0, &copying_dirty, 7, want, saved));
    span_ends(&t, want);
    finish(&t);
}

/* Which blocks a long write makes dirty: one that ends with a block not the next, and those of
   earlier writes stay. */
static void long_marks(void)
{
    static const uint8_t bytes[512] = {1};
    struct bench t;
    start(&t, 2, 1, 4);
    SERVED(open_image(&t));
    STEP(play(&t, 256, 32, 1));
    SERVED(write_bytes(at(&t, 0, 1, 30, bytes, 226)));
    STEP(play(&t, 29, 0, 0));
    STEP(session_is(&t, 1, 2, 0));
    SERVED(write_bytes(at(&t, 1, 0, 0, bytes, 512)));
    STEP(play(&t, 64, 0, 0));
    STEP(session_is(&t, 3, 2, 3));
    SERVED(write_bytes(at(&t, 0, 2, 255, bytes, 2)));
    STEP(play(&t, 2, 0, 0));
    STEP(session_is(&t, 3, 14, 3));
    finish(&t);
}

/* More bytes than 32 bits count; no call reads them. */
static void longer_than_4_gib(void)
{
    const size_t length = (size_t)1 << 32;
    uint8_t *bytes = (uint8_t *)calloc(length + 1, 1);
    struct bench t;
    if (bytes == NULL) {
        fprintf(stderr, "header: left out, no memory: bytes that 32 bits do not count\n");
        return;
    }
    start(&t, 1, 1, 1);
    SERVED(open_image(&t));
    RETURNS(write_bytes(at(&t, 0, 0, 0, bytes, length)), CRPM_BAD_SPAN, 8);
    RETURNS(write_bytes(at(&t, 0, 0, 0, bytes, length + 1)), CRPM_BAD_SPAN, 8);
    finish(&t);
    free(bytes);
}

/* ---- discards: two main segments, one backup segment, two blocks in each. `want`
   is the image by the specification, kept up step by step. */

/* A discard of a main segment with a trace of so many numbers. */
static uint64_t discard_with(struct bench *t, uint64_t main, size_t numbers)
{
    size_t whole = t->trace_length;
    uint64_t status;
    t->main = main;
    t->trace_length = numbers;
    status = discard(t);
    t->trace_length = whole;
    return status;
}

/* Operation n of the last call stores this word at this place. */
static int stores(const struct bench *t, size_t n, uint64_t place, uint64_t word)
{
    const uint64_t *op = t->trace + CRPM_OP_NUMBERS * n;
    return op[0] == CRPM_OP_STORE && op[1] == place && op[2] == word;
}

/* No operation, whatever the trace, for a main segment that nobody wrote to. */
static void discard_nothing(struct bench *t, uint64_t main)
{
    SERVED(discard_with(t, main, 0));
    CHECK(t->ops == 0);
    SERVED(discard_with(t, main, t->trace_length));
    CHECK(t->ops == 0);
}

/* An edit of block 1 of main segment 0, which no checkpoint has: zeros instead. Then
   another edit, which stays, and a checkpoint. */
static void discard_to_zeros(struct bench *t, uint8_t *want)
{
    STEP(discard_nothing(t, 0));
    SERVED(write_bytes(at(t, 0, 1, 8, ONE, 8)));
    STEP(play(t, 1, 0, 0));
    RETURNS(discard_with(t, 0, 95), CRPM_TRACE_SHORT, 11);
    SERVED(discard_with(t, 0, 96));
    CHECK(stores(t, 0, 768, 0) && stores(t, 1, 776, 0) && stores(t, 31, 1016, 0));
    STEP(play(t, 32, 0, 0));
    CHECK(memcmp(t->image, want, 2048) == 0);
    STEP(session_is(t, 1, 2, 0));
    STEP(reads_at(t, 0, 1, 768, 0));
    STEP(discard_nothing(t, 1));
    RETURNS(discard_with(t, 2, 0), CRPM_NO_SUCH_MAIN, 6);
    RETURNS(discard_with(t, UINT64_MAX, 0), CRPM_NO_SUCH_MAIN, 6);

    SERVED(write_bytes(at(t, 0, 1, 16, TWO, 8)));
    STEP(play(t, 1, 0, 0));
    SERVED(checkpoint(t));
    STEP(play(t, 9, 6, 3));
    memcpy(want + 784, TWO, 8);
    want[192] = 1;
    put_word(want, 0, 1);
    CHECK(memcmp(t->image, want, 2048) == 0);
    STEP(session_is(t, 0, 2, 0));
    STEP(discard_nothing(t, 0)); /* its block is dirty, and it is not */
}

/* Edits of both blocks, the first of which copies the main segment: the bytes of its
   backup segment instead. What was copied stays so, and a checkpoint flushes both. */
static void discard_from_backup(struct bench *t, uint8_t *want)
{
    static uint8_t saved[2048];
    memcpy(saved, want, 2048);
    SERVED(write_bytes(at(t, 0, 0, 0, ONE, 8)));
    STEP(play(t, 67, 10, 2));
    SERVED(write_bytes(at(t, 0, 1, 16, ONE, 8)));
    STEP(play(t, 1, 0, 0));
    memcpy(want + 1536, want + 512, 512);
    want[192] = 2;
    want[256] = 0;
    RETURNS(discard_with(t, 0, 191), CRPM_TRACE_SHORT, 11);
    SERVED(discard_with(t, 0, 192));
    CHECK(stores(t, 0, 512, 0) && stores(t, 32, 768, 0) && stores(t, 34, 784, 0x0909090909090909));
    STEP(play(t, 64, 0, 0));
    CHECK(memcmp(t->image, want, 2048) == 0);
    CHECK(same(t, saved));
    STEP(session_is(t, 1, 3, 0));
    STEP(reads_at(t, 0, 1, 768, 1792));
    SERVED(discard(t));
    STEP(play(t, 64, 0, 0)); /* once more, the same */
    CHECK(memcmp(t->image, want, 2048) == 0);
    SERVED(checkpoint(t));
    STEP(play(t, 9, 10, 3));
    CHECK(state_of(t, 0) == CRPM_SS_MAIN && same(t, saved));
}

/* A main segment that no checkpoint had is in the next one, of zeros, once it was
   written to, even if that was discarded. */
static void discard_and_checkpoint(struct bench *t)
{
    CHECK(state_of(t, 1) == CRPM_SS_INITIAL);
    SERVED(write_bytes(at(t, 1, 0, 0, ONE, 8)));
    STEP(play(t, 1, 0, 0));
    SERVED(discard(t));
    STEP(play(t, 32, 0, 0));
    SERVED(checkpoint(t));
    STEP(play(t, 9, 14, 3));
    CHECK(state_of(t, 1) == CRPM_SS_MAIN && all(t->image + 1024, 512, 0));
    STEP(reads_at(t, 1, 0, 1024, 1024));
}

static void discards(void)
{
    static uint8_t want[2048];
    struct bench t;
    start(&t, 2, 1, 2);
    SERVED(open_image(&t));
    STEP(play(&t, 128, 16, 1));
    memcpy(want, t.image, 2048);
    discard_to_zeros(&t, want);
    discard_from_backup(&t, want);
    discard_and_checkpoint(&t);
    finish(&t);
}

/* ---- the same checkpoint, as in docs/SPECIFICATION.md 17.11: two main segments, one
   backup segment, one block in each, and nothing but zeros in every checkpoint. What
   tells checkpoints apart is which main segments have none. */

static const uint8_t ZERO[1] = {0};

/* The states of both main segments, and where the checkpoint read finds them. */
static void checkpoint_is(const struct bench *t, uint8_t first, uint8_t second, uint64_t first_at,
                          uint64_t second_at)
{
    CHECK(state_of(t, 0) == first && state_of(t, 1) == second);
    reads_at(t, 0, 0, 512, first_at);
    reads_at(t, 1, 0, 768, second_at);
    CHECK(first_at == 0 || all(t->image + first_at, 256, 0));
    CHECK(second_at == 0 || all(t->image + second_at, 256, 0));
}

/* A bench in whose first checkpoint this main segment alone is, of zeros. */
static void start_with_zeros(struct bench *t, uint64_t main)
{
    static uint8_t formatted[1280];
    start(t, 2, 1, 1);
    memcpy(formatted, t->image, 1280);
    SERVED(open_image(t));
    STEP(play(t, 64, 8, 1));
    SERVED(write_bytes(at(t, main, 0, 0, ZERO, 1)));
    STEP(play(t, 1, 0, 0));
    STEP(checkpoint_is(t, CRPM_SS_INITIAL, CRPM_SS_INITIAL, 0, 0));
    CHECK(same(t, formatted)); /* it is in no checkpoint yet */
    SERVED(checkpoint(t));
    STEP(play(t, 9, 6, 3));
    CHECK(!same(t, formatted));
}

static void same_checkpoints(void)
{
    static uint8_t saved[1280];
    struct bench t, other;
    start_with_zeros(&t, 0);
    STEP(checkpoint_is(&t, CRPM_SS_MAIN, CRPM_SS_INITIAL, 512, 0));
    memcpy(saved, t.image, 1280);
    CHECK(same(&t, saved));
    start_with_zeros(&other, 1);
    STEP(checkpoint_is(&other, CRPM_SS_INITIAL, CRPM_SS_MAIN, 0, 768));
    CHECK(!same(&other, saved)); /* as many have none, and not the same */
    finish(&other);

    /* another epoch: nothing was written */
    SERVED(checkpoint(&t));
    STEP(play(&t, 9, 6, 3));
    CHECK(same(&t, saved));

    /* another state, and a pair: the checkpoint stands in the backup segment, then in the main segment again */
    SERVED(write_bytes(at(&t, 0, 0, 0, ZERO, 1)));
    STEP(play(&t, 35, 6, 2));
    STEP(checkpoint_is(&t, CRPM_SS_BACKUP, CRPM_SS_INITIAL, 1024, 0));
    CHECK(same(&t, saved));
    SERVED(checkpoint(&t));
    STEP(play(&t, 9, 6, 3));
    STEP(checkpoint_is(&t, CRPM_SS_MAIN, CRPM_SS_INITIAL, 512, 0));
    CHECK(same(&t, saved));

    /* an edit of main segment 1, discarded: at the next checkpoint it has one, of zeros */
    SERVED(write_bytes(at(&t, 1, 0, 0, ONE, 1)));
    STEP(play(&t, 1, 0, 0));
    CHECK(same(&t, saved));
    SERVED(discard(&t));
    STEP(play(&t, 32, 0, 0));
    STEP(checkpoint_is(&t, CRPM_SS_MAIN, CRPM_SS_INITIAL, 512, 0));
    CHECK(same(&t, saved));
    SERVED(checkpoint(&t));
    STEP(play(&t, 9, 10, 3));
    STEP(checkpoint_is(&t, CRPM_SS_MAIN, CRPM_SS_MAIN, 512, 768));
    CHECK(!same(&t, saved));
    finish(&t);
}

/* ---- the kinds of module: with CRPM_EADR a trace is that with CRPM_ADR without its
   clwbs. Two main segments, one backup segment, two blocks in each. */

/* A call that is served, first with CRPM_ADR and then with CRPM_EADR, which an opening is
   told and the others have in the session. The second is left, and has a trace of just
   so many operations. */
static void for_both(struct bench *t, bench_call *call, uint64_t ops)
{
    const struct bench kept = *t;
    uint64_t *others = (uint64_t *)allocated(t->trace_room * sizeof *others);
    size_t i, n = 0;
    t->domain = t->session.domain = CRPM_ADR;
    SERVED(call(t));
    for (i = 0; i < t->ops; i++)
        if (t->trace[CRPM_OP_NUMBERS * i] != CRPM_OP_CLWB)
            memcpy(others + CRPM_OP_NUMBERS * n++, t->trace + CRPM_OP_NUMBERS * i, CRPM_OP_NUMBERS * 8);
    *t = kept;
    t->domain = t->session.domain = CRPM_EADR;
    t->trace_length = CRPM_OP_NUMBERS * (size_t)ops - 1;
    RETURNS(call(t), CRPM_TRACE_SHORT, 11);
    t->session = kept.session;
    t->session.domain = CRPM_EADR;
    t->trace_length++;
    SERVED(call(t));
    t->trace_length = kept.trace_length;
    CHECK(t->ops == ops && t->ops == n);
    CHECK(memcmp(t->trace, others, CRPM_OP_NUMBERS * 8 * n) == 0);
    CHECK(t->session.domain == 1);
    free(others);
}

static void kinds_of_module(void)
{
    struct bench t;
    start(&t, 2, 1, 2);
    STEP(for_both(&t, open_image, 129));
    STEP(play(&t, 128, 0, 1));
    STEP(session_is(&t, 0, 0, 0));
    STEP(for_both(at(&t, 0, 0, 6, FOUR_BYTES, 4), write_bytes, 2));
    STEP(play(&t, 2, 0, 0));
    STEP(session_is(&t, 1, 1, 0));

    /* 12 operations, however many blocks are dirty */
    STEP(for_both(&t, checkpoint, 12));
    STEP(play(&t, 9, 0, 3));
    STEP(session_is(&t, 0, 1, 0));

    /* to a new backup segment; later writes are a store each */
    STEP(for_both(at(&t, 0, 1, 0, ONE, 8), write_bytes, 69));
    STEP(play(&t, 67, 0, 2));
    STEP(session_is(&t, 1, 2, 0));
    STEP(for_both(at(&t, 0, 1, 8, ONE, 8), write_bytes, 1));
    STEP(play(&t, 1, 0, 0));
    STEP(for_both(&t, discard, 32));
    STEP(play(&t, 32, 0, 0));
    STEP(session_is(&t, 1, 2, 0));
    STEP(for_both(&t, checkpoint, 12));
    STEP(play(&t, 9, 0, 3));

    /* the dirty block to its own backup segment; then the main segment is restored */
    STEP(for_both(at(&t, 0, 0, 0, TWO, 8), write_bytes, 36));
    STEP(play(&t, 34, 0, 2));
    STEP(for_both(&t, open_image, 129));
    STEP(play(&t, 128, 0, 1));
    CHECK(memcmp(t.image + 512, t.image + 1536, 512) == 0);
    finish(&t);
}

/* ---- places, at sizes that all differ: 3 main segments, 2 backup segments, 4 blocks */

static uint8_t shade(uint64_t main, uint64_t block)
{
    return (uint8_t)(16 * main + block + 1);
}

/* Fills every block with its shade, and makes a checkpoint of it. */
static void fill_every_block(struct bench *t)
{
    uint8_t bytes[256];
    uint64_t i, b, n = t->mains * t->blocks;
    for (i = 0; i < t->mains; i++)
        for (b = 0; b < t->blocks; b++) {
            memset(bytes, shade(i, b), 256);
            SERVED(write_bytes(at(t, i, b, 0, bytes, 256)));
            STEP(play(t, 32, 0, 0));
        }
    SERVED(checkpoint(t));
    STEP(play(t, 9, 4 * n + 2, 3));
}

static void places(void)
{
    struct bench t;
    uint64_t i, b;
    size_t j, k;
    start(&t, 3, 2, 4);
    CHECK(t.image_length == 5632);
    CHECK(word_at(t.image, CRPM_MAINS_AT) == 3);
    CHECK(word_at(t.image, CRPM_BACKUPS_AT) == 2);
    CHECK(word_at(t.image, CRPM_BLOCKS_AT) == 4);
    SERVED(open_image(&t));
    STEP(play(&t, 384, 48, 1));
    fill_every_block(&t);
    for (i = 0; i < 3; i++)
        for (b = 0; b < 4; b++) {
            k = 512 + 1024 * i + 256 * b;
            CHECK(CRPM_MAIN_AT(4, i) + CRPM_BLOCK_SIZE * b == k);
            CHECK(all(t.image + k, 256, shade(i, b)));
            STEP(reads_at(&t, i, b, k, k));
        }

    /* main segments 2 and 0 take the two backup segments, whichever each takes */
    SERVED(write_bytes(at(&t, 2, 1, 0, TWO, 8)));
    STEP(play(&t, 131, 18, 2));
    SERVED(write_bytes(at(&t, 0, 3, 0, TWO, 8)));
    STEP(play(&t, 131, 18, 2));
    CHECK(main_of(&t, 0) + main_of(&t, 1) == 2 && main_of(&t, 0) != 1);
    for (j = 0; j < 2; j++)
        for (b = 0; b < 4; b++) {
            k = 3584 + 1024 * j + 256 * b;
            i = main_of(&t, j);
            CHECK(CRPM_BACKUP_AT(3, 4, j) + CRPM_BLOCK_SIZE * b == k);
            CHECK(all(t.image + k, 256, shade(i, b)));
            STEP(reads_at(&t, i, b, 512 + 1024 * i + 256 * b, k));
        }
    CHECK(state_of(&t, 0) == CRPM_SS_BACKUP && state_of(&t, 2) == CRPM_SS_BACKUP);
    CHECK(state_of(&t, 1) == CRPM_SS_MAIN);
    RETURNS(write_bytes(at(&t, 1, 0, 0, ONE, 8)), CRPM_NO_FREE_BACKUP, 9);

    /* a restart restores main segments 0 and 2, which keep their backup segments until a
       checkpoint, though nobody writes them */
    SERVED(open_image(&t));
    STEP(play(&t, 256, 32, 1));
    CHECK(state_of(&t, 0) == CRPM_SS_BACKUP && state_of(&t, 2) == CRPM_SS_BACKUP);
    RETURNS(write_bytes(at(&t, 1, 0, 0, ONE, 8)), CRPM_NO_FREE_BACKUP, 9);
    SERVED(checkpoint(&t));
    STEP(play(&t, 9, 2, 3));
    for (i = 0; i < 3; i++)
        CHECK(state_of(&t, i) == CRPM_SS_MAIN);
    SERVED(write_bytes(at(&t, 1, 0, 0, ONE, 8)));
    STEP(play(&t, 131, 18, 2));
    finish(&t);
}

/* The fields of a session and of a client: places and sizes, in bytes. */
#define FIELD(of, name, place, size) \
    CHECK(offsetof(struct of, name) == (place)); \
    CHECK(sizeof(((struct of *)0)->name) == (size))

static void fields(void)
{
    FIELD(crpm_session, mains, 0, 8);
    FIELD(crpm_session, backups, 8, 8);
    FIELD(crpm_session, blocks, 16, 8);
    FIELD(crpm_session, dirty_segments, 24, 8);
    FIELD(crpm_session, dirty_blocks, 32, 512);
    FIELD(crpm_session, domain, 544, 8);
    CHECK(sizeof(struct crpm_session) == 552);
    FIELD(crpm_client, reserved, 0, 8);
    FIELD(crpm_client, quota, 8, 8);
    FIELD(crpm_client, used, 16, 8);
    CHECK(sizeof(struct crpm_client) == 24);
}

/* ---- lengths of a trace: with so many numbers a call is served, and uses them
   all; with one less it is refused */

static void needs(struct bench *t, bench_call *call, size_t length, size_t numbers)
{
    struct crpm_session as_it_came = t->session;
    struct crpm_client lent = t->clients[0];
    size_t whole = t->trace_length;
    CHECK(length == numbers);
    t->trace_length = length - 1;
    RETURNS(call(t), CRPM_TRACE_SHORT, 11);
    t->session = as_it_came;
    t->trace_length = length;
    SERVED(call(t));
    CHECK(CRPM_OP_NUMBERS * t->ops == numbers);
    t->session = as_it_came;
    t->clients[0] = lent;
    t->trace_length = whole;
}

/* Numbers that an opening, a write, a discard and a checkpoint need at most. */
struct lengths {
    uint64_t mains, backups, blocks;
    size_t image, opening, write, discard, checkpoint;
};

static const struct lengths LENGTHS[] = {
    {1, 1, 1, 1024, 111, 222, 96, 54},
    {2, 1, 1, 1280, 219, 222, 96, 66},
    {1, 1, 4, 2560, 435, 834, 384, 90},
    {2, 2, 2, 2560, 435, 426, 192, 90},
    {3, 2, 5, 6912, 1623, 1038, 480, 222},
    {64, 1, 1, 17152, 6915, 222, 96, 810},
    {1, 1, CRPM_MOST, 33280, 6915, 13074, 6144, 810},
    {CRPM_MOST, CRPM_MOST, CRPM_MOST, 2097664, 442371, 13074, 6144, 49194},
};

/* The last main segment, in state 1 and unpaired, is written whole: then every block is dirty, and no other
   main segment changed. Then all of it but its first 255 bytes, and from block 1 on what may be. */
static void longest_writes(struct bench *t, const struct lengths *of)
{
    static uint8_t bytes[16384];
    const size_t size = 256 * (size_t)of->blocks, last = 512 + size * ((size_t)of->mains - 1);
    size_t k;
    for (k = 0; k < sizeof bytes; k++)
        bytes[k] = (uint8_t)(k % 251 + 1);
    at(t, of->mains - 1, 0, 0, bytes, size);
    STEP(needs(t, write_bytes, CRPM_WRITE_TRACE(of->blocks), of->write));
    if (of->write > of->opening)
        STEP(needs(t, write_bytes, CRPM_TRACE(of->mains, of->blocks), of->write));
    SERVED(write_bytes(t));
    CHECK(t->session.dirty_blocks[of->mains - 1] == UINT64_MAX >> (64 - of->blocks));
    STEP(play(t, 64 * of->blocks + 2, 4 * of->blocks + 2, 2));
    CHECK(memcmp(t->image + last, bytes, size) == 0);
    CHECK(of->mains == 1 || (t->image[last - size] == 1 && all(t->image + last - size + 1, 255, 0)));
    if (of->blocks == 1)
        return;
    SERVED(write_bytes(at(t, of->mains - 1, 0, 255, bytes, size - 255)));
    STEP(play(t, 32 * of->blocks - 31, 0, 0));
    CHECK(memcmp(t->image + last, bytes, 255) == 0);
    CHECK(memcmp(t->image + last + 255, bytes, size - 255) == 0);
    RETURNS(write_bytes(at(t, of->mains - 1, 1, 255, bytes, size - 510)), CRPM_BAD_SPAN, 8);
    SERVED(write_bytes(at(t, of->mains - 1, 1, 255, bytes, size - 511)));
}

static void trace_lengths_of(const struct lengths *of)
{
    struct bench t;
    uint64_t i, b, played;
    start(&t, of->mains, of->backups, of->blocks);
    CHECK(t.image_length == of->image);

    /* the fresh opening treats every main segment */
    STEP(needs(&t, open_image, CRPM_OPEN_TRACE(of->mains, of->blocks), of->opening));
    if (of->opening > of->write)
        STEP(needs(&t, open_image, CRPM_TRACE(of->mains, of->blocks), of->opening));
    SERVED(open_image(&t));

    /* a discard and a checkpoint of which every block is dirty */
    for (i = 0; i < of->mains; i++)
        for (b = 0; b < of->blocks; b++) {
            SERVED(crpm_write(t.image, t.image_length, &t.session, t.clients, t.clients_length, 0, i, b, 0,
                              ONE, 1, t.trace, 3, &t.ops));
            SERVED(crpm_replay(t.image, t.image_length, t.trace, 3, 1, &played));
        }
    CHECK(t.session.dirty_segments == UINT64_MAX >> (64 - of->mains));
    CHECK(t.session.dirty_blocks[of->mains - 1] == UINT64_MAX >> (64 - of->blocks));
    t.main = of->mains - 1;
    STEP(needs(&t, discard, CRPM_DISCARD_TRACE(of->blocks), of->discard));
    STEP(needs(&t, checkpoint, CRPM_CHECKPOINT_TRACE(of->mains, of->blocks), of->checkpoint));
    SERVED(checkpoint(&t));
    STEP(play(&t, 9, 4 * of->mains * of->blocks + 2, 3));

    longest_writes(&t, of);
    finish(&t);
}

static void trace_lengths(void)
{
    static uint64_t of_constants[CRPM_TRACE(2, 1)];
    uint64_t m, b, wrong = 0;
    size_t i;
    for (i = 0; i < sizeof LENGTHS / sizeof LENGTHS[0]; i++)
        trace_lengths_of(&LENGTHS[i]);
    for (m = 1; m <= 64; m++)
        for (b = 1; b <= 64; b++) {
            uint64_t opening = 108 * b * m + 3, write = 204 * b + 18;
            if (CRPM_TRACE(m, b) != (opening > write ? opening : write) || CRPM_DISCARD_TRACE(b) != 96 * b)
                wrong++;
        }
    CHECK(wrong == 0);
    CHECK(sizeof of_constants == 222 * 8);

    /* arguments may be any expressions; here 3 and 5 */
    CHECK(CRPM_IMAGE_SIZE(1 | 2, 1 | 4, 1 | 4) == 10752);
    CHECK(CRPM_MAIN_AT(1 | 4, 1 | 2) == 4352);
    CHECK(CRPM_BACKUP_AT(1 | 2, 1 | 4, 1 | 4) == 10752);
    CHECK(CRPM_OPEN_TRACE(1 | 2, 1 | 4) == 1623 && CRPM_TRACE(1 | 2, 1 | 4) == 1623);
    CHECK(CRPM_WRITE_TRACE(1 | 4) == 1038 && CRPM_TRACE(0 | 1, 1 | 4) == 1038);
    CHECK(CRPM_DISCARD_TRACE(1 | 4) == 480);
    CHECK(CRPM_CHECKPOINT_TRACE(1 | 2, 1 | 4) == 222);
}

/* ---- refusals, by name and number. The calls come through the functions above
   and below, which see that a refusal changes nothing. */

/* An image, changed at a byte for one call and then as it was. */
#define CHANGED(t, place, value, call) \
    do { \
        uint8_t kept_byte = (t)->image[place]; \
        (t)->image[place] = (uint8_t)(value); \
        call; \
        (t)->image[place] = kept_byte; \
    } while (0)

/* 1 */
static void refused_sizes(bench_call *call, const struct bench *t)
{
    static const uint64_t BAD[] = {0, CRPM_MOST + 1, UINT64_MAX};
    size_t i;
    for (i = 0; i < 3; i++) {
        struct bench wrong = *t;
        wrong.mains = BAD[i];
        RETURNS(call(&wrong), CRPM_BAD_SIZE, 1);
        wrong = *t;
        wrong.backups = BAD[i];
        RETURNS(call(&wrong), CRPM_BAD_SIZE, 1);
        wrong = *t;
        wrong.blocks = BAD[i];
        RETURNS(call(&wrong), CRPM_BAD_SIZE, 1);
    }
}

/* 2 */
static void refused_lengths(bench_call *call, const struct bench *t)
{
    struct bench wrong = *t;
    wrong.image_length = t->image_length - 1;
    RETURNS(call(&wrong), CRPM_BAD_LENGTH, 2);
    wrong.image_length = t->image_length + 1;
    RETURNS(call(&wrong), CRPM_BAD_LENGTH, 2);
    wrong.image_length = 0;
    RETURNS(call(&wrong), CRPM_BAD_LENGTH, 2);
}

/* 3 and 4: of three main segments and two backup segments, the first has state 2
   and is paired with the first. */
static void refused_images(bench_call *call, struct bench *t)
{
    size_t states = CRPM_STATES_AT + CRPM_LINE_SIZE * (word_at(t->image, CRPM_EPOCH_AT) % 2);
    CHECK(state_of(t, 0) == CRPM_SS_BACKUP && main_of(t, 0) == 0 && main_of(t, 1) == CRPM_UNPAIRED);
    CHANGED(t, CRPM_MAINS_AT, 2, RETURNS(call(t), CRPM_FOREIGN, 3));
    CHANGED(t, CRPM_BACKUPS_AT, 3, RETURNS(call(t), CRPM_FOREIGN, 3));
    CHANGED(t, CRPM_BLOCKS_AT + CRPM_WORD_SIZE - 1, 1, RETURNS(call(t), CRPM_FOREIGN, 3));
    CHANGED(t, states + 1, CRPM_SS_BACKUP + 1, RETURNS(call(t), CRPM_INVALID, 4));
    CHANGED(t, states + 3, CRPM_SS_MAIN, RETURNS(call(t), CRPM_INVALID, 4));
    CHANGED(t, states + CRPM_MOST - 1, CRPM_SS_MAIN, RETURNS(call(t), CRPM_INVALID, 4));
    CHANGED(t, states + 1, CRPM_SS_BACKUP, RETURNS(call(t), CRPM_INVALID, 4));
    CHANGED(t, states, CRPM_SS_INITIAL, RETURNS(call(t), CRPM_INVALID, 4));
    CHANGED(t, CRPM_PAIRS_AT + 1, 3, RETURNS(call(t), CRPM_INVALID, 4));
    CHANGED(t, CRPM_PAIRS_AT + 1, 0, RETURNS(call(t), CRPM_INVALID, 4));
    CHANGED(t, CRPM_PAIRS_AT + 2, 1, RETURNS(call(t), CRPM_INVALID, 4));
    CHANGED(t, CRPM_PAIRS_AT + CRPM_MOST - 1, 1, RETURNS(call(t), CRPM_INVALID, 4));
}

/* 1 to 4 */
static void refused_layouts(bench_call *call, struct bench *t)
{
    refused_sizes(call, t);
    refused_lengths(call, t);
    refused_images(call, t);
}

static uint64_t format_image(struct bench *t)
{
    uint64_t status;
    memcpy(t->copy, t->image, t->image_room);
    status = crpm_format(t->image, t->image_length, t->mains, t->backups, t->blocks);
    if (status != CRPM_SERVED)
        CHECK(memcmp(t->copy, t->image, t->image_room) == 0);
    return status;
}

/* A read of the bench's block: one of the two calls, and what holds of both. */
typedef uint64_t read_call(const uint8_t *, size_t, uint64_t, uint64_t, uint64_t, uint64_t, uint64_t,
                           uint64_t *, uint64_t *);

static uint64_t read_by(read_call *call, struct bench *t)
{
    uint64_t status, start_of = UNWRITTEN, size = UNWRITTEN;
    memcpy(t->copy, t->image, t->image_room);
    status = call(t->image, t->image_length, t->mains, t->backups, t->blocks, t->main, t->block,
                  &start_of, &size);
    CHECK(memcmp(t->copy, t->image, t->image_room) == 0);
    CHECK(status == CRPM_SERVED ? size == 256 : start_of == 0 && size == 0);
    return status;
}

static uint64_t read_working(struct bench *t)
{
    return read_by(crpm_read_working, t);
}

static uint64_t read_checkpoint(struct bench *t)
{
    return read_by(crpm_read_checkpoint, t);
}

/* The comparison with an image that is as it should be, on either side. */
static const uint8_t *other_image;
static size_t other_length;

static uint64_t same_first(struct bench *t)
{
    uint64_t yes = UNWRITTEN;
    uint64_t status = crpm_same_checkpoint(t->image, t->image_length, other_image, other_length,
                                           t->mains, t->backups, t->blocks, &yes);
    CHECK(yes == (status == CRPM_SERVED ? 1 : 0));
    return status;
}

static uint64_t same_second(struct bench *t)
{
    uint64_t yes = UNWRITTEN;
    uint64_t status = crpm_same_checkpoint(other_image, other_length, t->image, t->image_length,
                                           t->mains, t->backups, t->blocks, &yes);
    CHECK(yes == (status == CRPM_SERVED ? 1 : 0));
    return status;
}

/* Write, discard and checkpoint have their sizes in the session. */
static void take_sizes(struct bench *t)
{
    t->session.mains = t->mains;
    t->session.backups = t->backups;
    t->session.blocks = t->blocks;
}

static uint64_t write_with_sizes(struct bench *t)
{
    take_sizes(t);
    return write_bytes(t);
}

static uint64_t discard_with_sizes(struct bench *t)
{
    take_sizes(t);
    return discard(t);
}

static uint64_t checkpoint_with_sizes(struct bench *t)
{
    take_sizes(t);
    return checkpoint(t);
}

/* 5 */
static void refused_sessions(bench_call *call, const struct bench *t)
{
    struct bench wrong = *t;
    CHECK(state_of(t, 1) == CRPM_SS_MAIN);
    wrong.session.dirty_segments = 2; /* main segment 1, whose state is 1 */
    RETURNS(call(&wrong), CRPM_BAD_SESSION, 5);
    wrong.session.dirty_segments = 8; /* there are three */
    RETURNS(call(&wrong), CRPM_BAD_SESSION, 5);
    wrong = *t;
    wrong.session.dirty_blocks[1] = 4; /* there are two blocks */
    RETURNS(call(&wrong), CRPM_BAD_SESSION, 5);
    wrong = *t;
    wrong.session.dirty_blocks[3] = 1;
    RETURNS(call(&wrong), CRPM_BAD_SESSION, 5);
    wrong = *t;
    wrong.session.dirty_blocks[CRPM_MOST - 1] = 1;
    RETURNS(call(&wrong), CRPM_BAD_SESSION, 5);
    wrong = *t;
    wrong.session.domain = CRPM_EADR + 1; /* there are two kinds */
    RETURNS(call(&wrong), CRPM_BAD_SESSION, 5);
    wrong.session.domain = (uint64_t)1 << 32;
    RETURNS(call(&wrong), CRPM_BAD_SESSION, 5);
    wrong.session.domain = UINT64_MAX;
    RETURNS(call(&wrong), CRPM_BAD_SESSION, 5);
}

/* 5 of an opening, for kinds that there are not */
static void refused_domains(const struct bench *t)
{
    static const uint64_t BAD[] = {CRPM_EADR + 1, 3, (uint64_t)1 << 32, UINT64_MAX};
    struct bench wrong = *t;
    size_t i;
    for (i = 0; i < sizeof BAD / sizeof BAD[0]; i++) {
        wrong.domain = BAD[i];
        RETURNS(open_image(&wrong), CRPM_BAD_SESSION, 5);
        refused_layouts(open_image, &wrong); /* 1 to 4 before 5 */
    }
}

/* 6 and 7, before 8 */
static void refused_blocks(bench_call *call, struct bench *t)
{
    RETURNS(call(at(t, 3, 2, 0, ONE, 1)), CRPM_NO_SUCH_MAIN, 6);
    RETURNS(call(at(t, UINT64_MAX, 0, 0, ONE, 1)), CRPM_NO_SUCH_MAIN, 6);
    RETURNS(call(at(t, 2, 2, 0, ONE, 0)), CRPM_NO_SUCH_BLOCK, 7);
    RETURNS(call(at(t, 2, UINT64_MAX, 0, ONE, 0)), CRPM_NO_SUCH_BLOCK, 7);
    SERVED(call(at(t, 0, 1, 0, ONE, 1)));
}

/* A bench of three main segments, two backup segments and two blocks, in which
   every segment has a checkpoint and main segment 0 was written to since. */
static void start_written(struct bench *t)
{
    start(t, 3, 2, 2);
    SERVED(open_image(t));
    STEP(play(t, 192, 24, 1));
    fill_every_block(t);
    SERVED(write_bytes(at(t, 0, 0, 0, ONE, 8)));
    STEP(play(t, 67, 10, 2));
    if (main_of(t, 1) == 0) { /* it may take either backup segment; here it is to have the first */
        t->image[CRPM_PAIRS_AT] = 0;
        t->image[CRPM_PAIRS_AT + 1] = CRPM_UNPAIRED;
        memcpy(t->image + CRPM_BACKUP_AT(3, 2, 0), t->image + CRPM_BACKUP_AT(3, 2, 1), 512);
    }
}

static void refusals(void)
{
    struct bench t, none, opened;
    uint8_t *other;
    start_written(&t);

    STEP(refused_sizes(format_image, &t));
    STEP(refused_lengths(format_image, &t));
    opened = t; /* a refused opening leaves a session of zeros */
    STEP(refused_layouts(open_image, &opened));
    STEP(refused_domains(&opened));
    STEP(refused_layouts(write_with_sizes, &t));
    STEP(refused_layouts(discard_with_sizes, &t));
    STEP(refused_layouts(checkpoint_with_sizes, &t));
    STEP(refused_layouts(read_working, &t));
    STEP(refused_layouts(read_checkpoint, &t));

    /* either image of a comparison; the first wholly before the second */
    other = (uint8_t *)allocated(t.image_length);
    memcpy(other, t.image, t.image_length);
    other_image = other;
    other_length = t.image_length;
    STEP(refused_layouts(same_first, &t));
    STEP(refused_layouts(same_second, &t));
    SERVED(same_first(&t));
    other_length = 0;
    CHANGED(&t, CRPM_PAIRS_AT, 3, RETURNS(same_first(&t), CRPM_INVALID, 4));
    free(other);

    STEP(refused_sessions(write_bytes, &t));
    none = t;
    STEP(refused_sessions(discard, at(&none, 3, 0, 0, ONE, 1))); /* 5 before 6 */
    STEP(refused_sessions(checkpoint, &t));
    STEP(refused_blocks(read_working, &t));
    STEP(refused_blocks(read_checkpoint, &t));
    none = t;
    STEP(refused_blocks(write_bytes, &none));

    /* 8 before 9 before 11: the second backup segment goes to main segment 1, none is left for 2 */
    SERVED(write_bytes(at(&t, 1, 0, 0, ONE, 8)));
    STEP(play(&t, 67, 10, 2));
    none = t;
    none.trace_length = 0;
    RETURNS(write_bytes(at(&none, 2, 1, 255, ONE, 2)), CRPM_BAD_SPAN, 8);
    RETURNS(write_bytes(at(&none, 2, 0, 255, ONE, 2)), CRPM_NO_FREE_BACKUP, 9);
    RETURNS(write_bytes(at(&none, 1, 0, 255, ONE, 1)), CRPM_TRACE_SHORT, 11);
    RETURNS(discard(at(&none, 3, 0, 0, ONE, 1)), CRPM_NO_SUCH_MAIN, 6); /* 6 before 11 */
    RETURNS(discard(at(&none, 1, 0, 0, ONE, 1)), CRPM_TRACE_SHORT, 11);
    SERVED(discard(at(&none, 2, 0, 0, ONE, 1)));
    RETURNS(checkpoint(&none), CRPM_TRACE_SHORT, 11);
    RETURNS(open_image(&none), CRPM_TRACE_SHORT, 11);
    RETURNS(discard(&none), CRPM_BAD_SIZE, 1); /* with a session of zeros */
    finish(&t);
}

/* 10: a checkpoint at epoch 2^64 - 1, which only checkpoint refuses, and before 11. */
static void epoch_limit(void)
{
    struct bench t, none;
    start(&t, 2, 1, 1);
    put_word(t.image, 0, UINT64_MAX - 1);
    SERVED(open_image(&t));
    STEP(play(&t, 64, 8, 1));
    SERVED(write_bytes(at(&t, 0, 0, 0, ONE, 8)));
    STEP(play(&t, 1, 0, 0));
    SERVED(checkpoint(&t));
    STEP(play(&t, 9, 6, 3));
    CHECK(word_at(t.image, CRPM_EPOCH_AT) == UINT64_MAX);
    CHECK(state_of(&t, 0) == CRPM_SS_MAIN);
    RETURNS(checkpoint(&t), CRPM_EPOCH_LIMIT, 10);
    none = t;
    none.trace_length = 0;
    RETURNS(checkpoint(&none), CRPM_EPOCH_LIMIT, 10);
    SERVED(write_bytes(at(&t, 0, 0, 0, TWO, 8)));
    STEP(play(&t, 35, 6, 2));
    SERVED(discard(&t));
    STEP(play(&t, 32, 0, 0));
    SERVED(open_image(&t));
    finish(&t);
}

/* ---- clients: two of them at five main segments, three backup segments and one
   block. One backup segment is reserved for each; client 0 may take two, client 1
   all three. */

enum { OPEN, WRITE, DISCARD, CHECKPOINT };

static const struct step {
    int call;
    uint64_t client, main; /* of a write, of the first 8 bytes; main of a discard */
    uint64_t status, ops;
    uint64_t used[2]; /* after it */
} STEPS[] = {
    {OPEN, 0, 0, CRPM_SERVED, 181, {0, 0}},
    {WRITE, 1, 0, CRPM_SERVED, 1, {0, 0}}, /* in state 0 nothing is copied */
    {WRITE, 1, 1, CRPM_SERVED, 1, {0, 0}},
    {WRITE, 1, 2, CRPM_SERVED, 1, {0, 0}},
    {WRITE, 1, 3, CRPM_SERVED, 1, {0, 0}},
    {WRITE, 1, 4, CRPM_SERVED, 1, {0, 0}},
    {CHECKPOINT, 0, 0, CRPM_SERVED, 34, {0, 0}},
    {WRITE, 1, 0, CRPM_SERVED, 43, {0, 1}}, /* to a new backup segment */
    {WRITE, 1, 0, CRPM_SERVED, 1, {0, 1}},  /* dirty: not copied again */
    {WRITE, 1, 1, CRPM_SERVED, 43, {0, 2}}, /* two are free, one is client 0's */
    {WRITE, 1, 2, CRPM_BACKUPS_RESERVED, 0, {0, 2}},
    {WRITE, 0, 2, CRPM_SERVED, 43, {1, 2}},
    {WRITE, 0, 3, CRPM_NO_FREE_BACKUP, 0, {1, 2}},
    {DISCARD, 0, 2, CRPM_SERVED, 32, {1, 2}}, /* its backup segment stays in use */
    {WRITE, 0, 3, CRPM_NO_FREE_BACKUP, 0, {1, 2}},
    {WRITE, 0, 2, CRPM_SERVED, 1, {1, 2}}, /* dirty still */
    {WRITE, 0, 0, CRPM_SERVED, 1, {1, 2}}, /* client 1 had it copied */
    {CHECKPOINT, 0, 0, CRPM_SERVED, 34, {0, 0}},
    {WRITE, 0, 0, CRPM_SERVED, 41, {1, 0}}, /* its dirty block to its own backup segment */
    {WRITE, 0, 1, CRPM_SERVED, 41, {2, 0}},
    {WRITE, 0, 2, CRPM_QUOTA_REACHED, 0, {2, 0}}, /* 15 applies too */
    {WRITE, 1, 3, CRPM_SERVED, 43, {2, 1}},       /* client 0 has used more than its own */
    {OPEN, 0, 0, CRPM_SERVED, 109, {0, 0}},
    {WRITE, 0, 2, CRPM_NO_FREE_BACKUP, 0, {0, 0}}, /* three are still in use */
    {DISCARD, 0, 0, CRPM_SERVED, 0, {0, 0}},       /* restored, and not written to since */
    {WRITE, 1, 0, CRPM_SERVED, 1, {0, 0}},         /* in state 2 nothing is copied */
    {CHECKPOINT, 0, 0, CRPM_SERVED, 18, {0, 0}},
    {OPEN, 0, 0, CRPM_SERVED, 109, {0, 0}},
    {WRITE, 0, 1, CRPM_SERVED, 5, {1, 0}}, /* charged, though no block is dirty */
    {WRITE, 1, 3, CRPM_SERVED, 5, {1, 1}},
    {WRITE, 1, 0, CRPM_SERVED, 5, {1, 2}},
    {CHECKPOINT, 0, 0, CRPM_SERVED, 26, {0, 0}},
};

static void two_clients(void)
{
    static bench_call *const CALLS[] = {open_image, write_bytes, discard, checkpoint};
    struct bench t;
    uint64_t played;
    size_t i;
    start(&t, 5, 3, 1);
    t.clients[0] = client(1, 2, 0);
    t.clients[1] = client(1, 3, 3);
    t.clients_length = 2;
    for (i = 0; i < sizeof STEPS / sizeof STEPS[0]; i++) {
        const struct step *s = &STEPS[i];
        t.client = s->client;
        CHECK(CALLS[s->call](at(&t, s->main, 0, 0, i % 2 ? ONE : TWO, 8)) == s->status);
        CHECK(t.ops == s->ops);
        CHECK(t.clients[0].used == s->used[0] && t.clients[1].used == s->used[1]);
        SERVED(crpm_replay(t.image, t.image_length, t.trace, CRPM_OP_NUMBERS * (size_t)t.ops, t.ops, &played));
    }
    finish(&t);
}

/* Lends a run of so many records, all alike, with others in its first two places. */
static struct bench *lend(struct bench *t, size_t length, struct crpm_client first, struct crpm_client second,
                          struct crpm_client rest)
{
    size_t i;
    for (i = 0; i < RECORDS; i++)
        t->clients[i] = rest;
    t->clients[0] = first;
    t->clients[1] = second;
    t->clients_length = length;
    t->client = 0;
    return t;
}

/* 13, of runs that every call refuses and of runs that none refuses, where there
   are two backup segments. */
static void refused_runs(bench_call *call, struct bench *t)
{
    const uint64_t most = UINT64_MAX;
    const struct crpm_client none = client(0, 1, 0), one = client(1, 1, 0), half = client((uint64_t)1 << 63, most, 0);
    const struct bench kept = *t;
#define REFUSED(length, first, second, rest) \
    RETURNS(call(lend(t, length, first, second, rest)), CRPM_BAD_CLIENTS, 13)
#define TAKEN(length, first, second, rest) \
    do { \
        SERVED(call(lend(t, length, first, second, rest))); \
        t->session = kept.session; \
    } while (0)
    REFUSED(CRPM_MOST_CLIENTS + 1, none, none, none);
    REFUSED(2, client(2, 1, 0), none, none);
    REFUSED(2, none, client(2, 1, 0), none);
    REFUSED(CRPM_MOST_CLIENTS, none, client(0, 0, most), none);
    REFUSED(2, client(0, 3, 4), none, none);
    REFUSED(2, one, client(2, 2, 0), none);
    REFUSED(3, one, one, one);
    REFUSED(2, half, half, none);
    REFUSED(2, client(most, most, 0), client(3, 3, 0), none);
    REFUSED(CRPM_MOST_CLIENTS, client((uint64_t)1 << 61, most, 0), client((uint64_t)1 << 61, most, 0),
            client((uint64_t)1 << 61, most, 0));
    REFUSED(CRPM_MOST_CLIENTS, client(most, most, most), client(most, most, most), client(most, most, most));
    TAKEN(CRPM_MOST_CLIENTS, none, none, none);
    TAKEN(2, one, one, client(most, 0, most));
    TAKEN(1, client(2, most, most), none, none);
    TAKEN(2, client(0, 3, 0), client(2, 2, 2), none);
#undef REFUSED
#undef TAKEN
    *t = kept;
}

static void runs(void)
{
    struct bench t;
    start_written(&t);
    CHECK(CRPM_MOST_CLIENTS == 8);
    at(&t, 0, 0, 0, ONE, 8); /* dirty: no client is charged */
    STEP(refused_runs(open_image, &t));
    STEP(refused_runs(write_bytes, &t));
    STEP(refused_runs(checkpoint, &t));

    /* no record, and the number of none */
    t.client = 1;
    RETURNS(write_bytes(&t), CRPM_BAD_CLIENTS, 13);
    t.client = UINT64_MAX;
    RETURNS(write_bytes(&t), CRPM_BAD_CLIENTS, 13);
    t.client = 0;
    SERVED(write_bytes(&t));
    t.clients_length = 0;
    RETURNS(write_bytes(&t), CRPM_BAD_CLIENTS, 13);
    SERVED(checkpoint(&t));
    SERVED(open_image(&t));
    finish(&t);
}

/* Where 13, 14 and 15 come: 13 after 5 and before all others, 14 and 15 after 9 and
   before 11. */
static void refusals_in_order(void)
{
    const struct crpm_client none = client(0, 0, 0), any = client(0, 9, 0), two = client(2, 2, 0);
    struct bench t, short_of;
    start_written(&t);

    /* a run that is refused, besides each of the others */
    lend(&t, 1, client(1, 0, 0), none, none);
    STEP(refused_layouts(write_with_sizes, at(&t, 0, 0, 0, ONE, 8)));
    STEP(refused_layouts(checkpoint_with_sizes, &t));
    STEP(refused_sessions(write_bytes, &t));
    STEP(refused_sessions(checkpoint, &t));
    RETURNS(write_bytes(at(&t, 3, 0, 0, ONE, 8)), CRPM_BAD_CLIENTS, 13);
    RETURNS(write_bytes(at(&t, 0, 2, 0, ONE, 8)), CRPM_BAD_CLIENTS, 13);
    RETURNS(write_bytes(at(&t, 0, 0, 0, ONE, 0)), CRPM_BAD_CLIENTS, 13);
    short_of = t;
    short_of.trace_length = 0;
    RETURNS(write_bytes(at(&short_of, 0, 0, 0, ONE, 8)), CRPM_BAD_CLIENTS, 13);
    RETURNS(checkpoint(&short_of), CRPM_BAD_CLIENTS, 13);
    put_word(t.image, 0, UINT64_MAX); /* the states of an odd epoch stay */
    RETURNS(checkpoint(&t), CRPM_BAD_CLIENTS, 13);
    put_word(t.image, 0, 1);
    RETURNS(open_image(&short_of), CRPM_BAD_CLIENTS, 13);
    STEP(refused_domains(&short_of)); /* with a trace too short besides */
    short_of = t;
    STEP(refused_layouts(open_image, &short_of));

    /* a write that copies main segment 1, with one backup segment free and a trace too short */
    short_of = t;
    short_of.trace_length = 0;
    at(&short_of, 1, 0, 0, ONE, 8);
    RETURNS(write_bytes(lend(&short_of, 2, none, two, none)), CRPM_QUOTA_REACHED, 14);
    RETURNS(write_bytes(lend(&short_of, 1, none, none, none)), CRPM_QUOTA_REACHED, 14);
    RETURNS(write_bytes(lend(&short_of, 2, any, client(1, 1, 0), none)), CRPM_BACKUPS_RESERVED, 15);
    RETURNS(write_bytes(lend(&short_of, 2, any, client(2, 2, 1), none)), CRPM_BACKUPS_RESERVED, 15);
    RETURNS(write_bytes(lend(&short_of, 2, any, client(2, 2, 2), none)), CRPM_TRACE_SHORT, 11);
    RETURNS(write_bytes(lend(&short_of, 2, client(2, 2, 0), any, none)), CRPM_TRACE_SHORT, 11);
    RETURNS(write_bytes(at(lend(&short_of, 1, none, none, none), 1, 0, 256, ONE, 8)), CRPM_BAD_SPAN, 8);

    /* and with none free */
    SERVED(write_bytes(at(lend(&t, 1, any, none, none), 1, 0, 0, ONE, 8)));
    CHECK(t.clients[0].used == 1);
    STEP(play(&t, 67, 10, 2));
    RETURNS(write_bytes(at(lend(&t, 2, none, two, none), 2, 0, 0, ONE, 8)), CRPM_NO_FREE_BACKUP, 9);
    SERVED(write_bytes(at(lend(&t, 2, none, two, none), 1, 0, 0, ONE, 8))); /* dirty: not charged */
    finish(&t);
}

/* ---- replay: 2 and 12, and how many operations are played */

static uint64_t replay(uint8_t *image, size_t length, const uint64_t *trace, size_t numbers, uint64_t n,
                       uint64_t *played)
{
    uint8_t before[128];
    uint64_t status;
    memcpy(before, image, 128);
    *played = UNWRITTEN;
    status = crpm_replay(image, length, trace, numbers, n, played);
    if (status != CRPM_SERVED)
        CHECK(*played == 0 && memcmp(before, image, 128) == 0);
    return status;
}

static void replays(void)
{
    /* ill formed, each in its own way; images of 128 bytes */
    static const uint64_t BAD[][3] = {
        {0, 0, 0}, {CRPM_OP_SFENCE + 1, 0, 0}, {UINT64_MAX, 0, 0},
        {CRPM_OP_STORE, 4, 0}, {CRPM_OP_STORE, 128, 0}, {CRPM_OP_STORE, UINT64_MAX - 7, 0},
        {CRPM_OP_CLWB, 8, 0}, {CRPM_OP_CLWB, 128, 0}, {CRPM_OP_CLWB, 64, 1},
        {CRPM_OP_SFENCE, 64, 0}, {CRPM_OP_SFENCE, 0, 1},
    };
    uint64_t trace[] = {
        CRPM_OP_STORE, 0, 0x1122334455667788, CRPM_OP_CLWB, 64, 0, CRPM_OP_STORE, 120, UINT64_MAX,
        CRPM_OP_SFENCE, 0, 0, 0, 0, 0,
    };
    uint8_t image[129] = {0};
    uint64_t played;
    size_t i;
    CHECK(sizeof trace == 5 * CRPM_OP_NUMBERS * 8);

    SERVED(replay(image, 128, trace, 15, 0, &played));
    CHECK(played == 0 && all(image, 129, 0));
    SERVED(replay(image, 128, trace, 15, 2, &played));
    CHECK(played == 2 && image[0] == 0x88 && image[7] == 0x11 && all(image + 8, 121, 0));
    SERVED(replay(image, 128, trace, 15, 4, &played)); /* the fifth, ill formed, is not to be played */
    CHECK(played == 4 && all(image + 120, 8, 255) && image[128] == 0);
    SERVED(replay(image, 128, trace, 12, UINT64_MAX, &played));
    CHECK(played == 4);
    SERVED(replay(image, 128, trace, 0, 1, &played));
    CHECK(played == 0);
    SERVED(replay(image, 0, trace, 0, 1, &played));

    RETURNS(replay(image, 127, trace, 14, 4, &played), CRPM_BAD_LENGTH, 2);
    RETURNS(replay(image, 129, trace, 12, 4, &played), CRPM_BAD_LENGTH, 2);
    RETURNS(replay(image, 128, trace, 14, 0, &played), CRPM_TRACE_BAD, 12);
    RETURNS(replay(image, 128, trace, 13, 0, &played), CRPM_TRACE_BAD, 12);
    RETURNS(replay(image, 128, trace, 15, 5, &played), CRPM_TRACE_BAD, 12);
    RETURNS(replay(image, 64, trace, 12, 4, &played), CRPM_TRACE_BAD, 12);
    for (i = 0; i < sizeof BAD / sizeof BAD[0]; i++) {
        memcpy(trace + 12, BAD[i], sizeof BAD[i]);
        memset(image, 0, sizeof image);
        RETURNS(replay(image, 128, trace, 15, 5, &played), CRPM_TRACE_BAD, 12);
        SERVED(replay(image, 128, trace, 15, 4, &played));
    }
}

/* ---- all of it */

int main(int count, char **arguments)
{
    if (count != 2) {
        fprintf(stderr, "usage: header VERSION\n");
        return 2;
    }
    CHECK(strcmp(CRPM_VERSION, arguments[1]) == 0);
    fields();
    worked_examples();
    dirty_block_example();
    long_writes();
    long_marks();
    longer_than_4_gib();
    discards();
    same_checkpoints();
    kinds_of_module();
    places();
    trace_lengths();
    refusals();
    epoch_limit();
    two_clients();
    runs();
    refusals_in_order();
    replays();
    printf("header: %lu checks, %lu failed\n", checks, failures);
    return failures == 0 ? EXIT_SUCCESS : EXIT_FAILURE;
}
