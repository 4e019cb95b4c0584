/*
 * How much stack the calls touch. Each is made once, served, on a stack that was
 * painted before; printed is its name and how far below its caller's stack
 * pointer the paint is gone, in bytes. scripts/footprint builds and runs this
 * and compares with what it counts in the machine code.
 */
#define _XOPEN_SOURCE 700
#include "crpm.h"

#include <inttypes.h>
#include <stdio.h>
#include <stdlib.h>
#include <string.h>
#include <ucontext.h>

enum { MAINS = 3, BACKUPS = 2, BLOCKS = 2, STACK_SIZE = 1 << 16, PAINT = 0x5c };

static uint8_t image[CRPM_IMAGE_SIZE(MAINS, BACKUPS, BLOCKS)];
static uint64_t trace[CRPM_TRACE(MAINS, BLOCKS)];
static const uint8_t bytes[CRPM_BLOCK_SIZE - 2] = {1};
static struct crpm_session session;
static struct crpm_client clients[CRPM_MOST_CLIENTS] = {{BACKUPS, BACKUPS, 0}};
static uint64_t status, ops, played, start, size, same;

#define LENT_TRACE trace, sizeof trace / sizeof trace[0], &ops
#define SESSION_AND_CLIENTS &session, clients, CRPM_MOST_CLIENTS

/* The calls, each with the caller's stack pointer noted before it. */
static uintptr_t entered;

#define CALL(name, ...) \
    static void name(void) \
    { \
        __asm__ volatile("mov %%rsp, %0" : "=r"(entered)); \
        status = crpm_##name(image, sizeof image, __VA_ARGS__); \
    }

CALL(format, MAINS, BACKUPS, BLOCKS)
CALL(open, MAINS, BACKUPS, BLOCKS, CRPM_ADR, SESSION_AND_CLIENTS, LENT_TRACE)
CALL(write, SESSION_AND_CLIENTS, 0, 1, 1, 1, bytes, sizeof bytes, LENT_TRACE)
CALL(discard, &session, 1, LENT_TRACE)
CALL(checkpoint, SESSION_AND_CLIENTS, LENT_TRACE)
CALL(replay, trace, CRPM_OP_NUMBERS * (size_t)ops, ops, &played)
CALL(read_working, MAINS, BACKUPS, BLOCKS, 1, 1, &start, &size)
CALL(read_checkpoint, MAINS, BACKUPS, BLOCKS, 1, 1, &start, &size)
CALL(same_checkpoint, image, sizeof image, MAINS, BACKUPS, BLOCKS, &same)

/* Makes a call on the painted stack. How much of it was touched. */
static size_t touched(void (*call)(void))
{
    static uint8_t stack[STACK_SIZE];
    static ucontext_t here, there;
    size_t clean = 0;
    memset(stack, PAINT, STACK_SIZE);
    if (getcontext(&there) != 0)
        exit(EXIT_FAILURE);
    there.uc_stack.ss_sp = stack;
    there.uc_stack.ss_size = STACK_SIZE;
    there.uc_link = &here;
    makecontext(&there, call, 0);
    if (swapcontext(&here, &there) != 0 || status != CRPM_SERVED) {
        fprintf(stderr, "stack: a call was refused with %" PRIu64 "\n", status);
        exit(EXIT_FAILURE);
    }
    while (clean < STACK_SIZE && stack[clean] == PAINT)
        clean++;
    return entered - (uintptr_t)(stack + clean);
}

static void show(const char *name, void (*call)(void))
{
    printf("crpm_%s %zu\n", name, touched(call));
}

int main(void)
{
    show("format", format);
    show("open", open);
    show("replay", replay);
    write(); /* the second write copies the main segment first */
    replay();
    checkpoint();
    replay();
    show("write", write);
    replay();
    show("discard", discard);
    replay();
    show("checkpoint", checkpoint);
    replay();
    show("read_working", read_working);
    show("read_checkpoint", read_checkpoint);
    show("same_checkpoint", same_checkpoint);
    return EXIT_SUCCESS;
}
