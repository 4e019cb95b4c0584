/*
 * What crpm_x86.h makes the processor do.
 *
 * Killing a process cannot tell whether its flushes and fences were carried
 * out. So this forks a child that calls crpm_carry_out and crpm_flush_all,
 * steps through it instruction by instruction (ptrace), and compares every
 * 8-byte store to the image, every flush and every sfence with the trace. What
 * cpuid answers is changed on the way, so that processors without clwb, without
 * clflushopt and without cpuid's leaf 7 are tried too.
 *
 * C99 and C++11; examples/c/module-run builds and runs it. Prints one line.
 * Exit status: 0; 1 if anything else was done; 77 if ptrace is not permitted.
 */
#define _DEFAULT_SOURCE /* MAP_ANONYMOUS */

#include "crpm_x86.h"

#include <signal.h>
#include <stdio.h>
#include <stdlib.h>
#include <string.h>
#include <sys/mman.h>
#include <sys/ptrace.h>
#include <sys/user.h>
#include <sys/wait.h>
#include <unistd.h>

#define IMAGE_SIZE CRPM_IMAGE_SIZE(1, 1, 1)

struct op {
    uint64_t kind, place, word;
};

/* Two stores of one word at a place and then one of another, stores on both
   sides of a flush of their line, flushes and fences in a row, the last line. */
static const struct op trace[] = {
    {CRPM_OP_SFENCE, 0, 0}, {CRPM_OP_STORE, 8, 1}, {CRPM_OP_STORE, 8, 1}, {CRPM_OP_STORE, 8, 2},
    {CRPM_OP_CLWB, 0, 0}, {CRPM_OP_STORE, 16, 3}, {CRPM_OP_STORE, 0, 4}, {CRPM_OP_CLWB, 0, 0},
    {CRPM_OP_CLWB, 64, 0}, {CRPM_OP_SFENCE, 0, 0}, {CRPM_OP_SFENCE, 0, 0}, {CRPM_OP_STORE, 1016, UINT64_MAX},
    {CRPM_OP_CLWB, 960, 0}, {CRPM_OP_STORE, 1016, 5}, {CRPM_OP_SFENCE, 0, 0}, {CRPM_OP_STORE, 512, 6},
};

/* All but the last operation are carried out; then the whole image is flushed. */
enum {
    CARRIED_OUT = sizeof trace / sizeof trace[0] - 1,
    LINES = IMAGE_SIZE / CRPM_LINE_SIZE,
    DUE = CARRIED_OUT + LINES + 1
};

/* Read from memory, so that no compiler knows the trace beforehand. */
static const struct op *volatile lent = trace;

static void child(uint8_t *image)
{
    if (ptrace(PTRACE_TRACEME, 0, NULL, NULL) != 0)
        _exit(77);
    raise(SIGSTOP);
    crpm_carry_out(image, &lent->kind, CARRIED_OUT);
    crpm_flush_all(image, IMAGE_SIZE);
    _exit(0);
}

/* What the child is to do as its operation i. */
static struct op due(int i)
{
    struct op op = {CRPM_OP_SFENCE, 0, 0};
    if (i < CARRIED_OUT)
        return trace[i];
    if (i < CARRIED_OUT + LINES) {
        op.kind = CRPM_OP_CLWB;
        op.place = (uint64_t)(i - CARRIED_OUT) * CRPM_LINE_SIZE;
    }
    return op;
}

/* ---- an instruction, as far as it matters here */

/* Kinds beside those of a trace. */
enum { OTHER = 0, CPUID = 4 };

/* The register with this number in an instruction. */
static uint64_t reg(const struct user_regs_struct *r, int number)
{
    const uint64_t regs[] = {r->rax, r->rcx, r->rdx, r->rbx, r->rsp, r->rbp, r->rsi, r->rdi,
                             r->r8, r->r9, r->r10, r->r11, r->r12, r->r13, r->r14, r->r15};
    return regs[number];
}

/* The address of a memory operand: base, index and displacement. (One relative
   to rip is read wrongly; it would be a fixed place of the program.) */
static uint64_t address(const struct user_regs_struct *r, int rex, const uint8_t *modrm)
{
    const int mod = modrm[0] >> 6, sib = (modrm[0] & 7) == 4, base = modrm[sib] & 7;
    const int no_base = base == 5 && mod == 0;
    uint64_t sum = no_base ? 0 : reg(r, base | (rex & 1) << 3);
    int32_t displacement = 0;
    if (sib) {
        const int index = (modrm[1] >> 3 & 7) | (rex & 2) << 2;
        sum += index == 4 ? 0 : reg(r, index) << (modrm[1] >> 6);
    }
    if (mod == 1)
        displacement = (int8_t)modrm[1 + sib];
    else if (mod == 2 || no_base)
        memcpy(&displacement, modrm + 1 + sib, sizeof displacement);
    return sum + (uint64_t)(int64_t)displacement;
}

/* The operation that an instruction is; for a flush, `flush` says by which. */
static struct op decode(const struct user_regs_struct *r, const uint8_t *code, const uint8_t *image, int *flush)
{
    struct op op = {OTHER, 0, 0};
    const int prefix = *code == 0x66, rex = code[prefix] >> 4 == 4 ? code[prefix] : 0;
    code += prefix + (rex != 0);
    if (code[0] == 0x0f && code[1] == 0xa2) {
        op.kind = CPUID;
    } else if (code[0] == 0x0f && code[1] == 0xae && code[2] >= 0xf8) {
        op.kind = CRPM_OP_SFENCE;
    } else if (code[0] == 0x0f && code[1] == 0xae && code[2] < 0xc0) {
        const int extension = code[2] >> 3 & 7;
        *flush = extension == 7 ? (prefix ? CRPM_BY_CLFLUSHOPT : CRPM_BY_CLFLUSH) : extension == 6 && prefix ? CRPM_BY_CLWB : 0;
        op.kind = *flush != 0 ? CRPM_OP_CLWB : OTHER;
        op.place = address(r, rex, code + 2) - (uintptr_t)image;
    } else if (code[0] == 0x89 && (rex & 8) != 0 && code[1] < 0xc0) {
        op.kind = CRPM_OP_STORE;
        op.place = address(r, rex, code + 1) - (uintptr_t)image;
        op.word = reg(r, (code[1] >> 3 & 7) | (rex & 4) << 1);
    }
    if (op.place >= IMAGE_SIZE)
        op.kind = OTHER; /* the stack, and what is not the image's */
    return op;
}

/* ---- a run */

static int wrong(const char *what, int i)
{
    printf("steps: %s, operation %d of %d\n", what, i, (int)DUE);
    return 1;
}

/* Steps through a child on a processor with no flush better than `most`, or, if
   that is 0, without leaf 7. 0 if the child did what is due, by the best flush
   that is left; its name is put into `name`. */
static int try_processor(int most, const char **name)
{
    const uint64_t hidden = most == CRPM_BY_CLWB ? 0 : most == CRPM_BY_CLFLUSHOPT ? 1 << 24 : 3 << 23;
    uint8_t *image = (uint8_t *)mmap(NULL, IMAGE_SIZE, PROT_READ | PROT_WRITE, MAP_SHARED | MAP_ANONYMOUS, -1, 0);
    struct user_regs_struct regs;
    int status, flush = 0, best = CRPM_BY_CLFLUSH, asked = 0, done = 0;
    pid_t pid;

    if (image == MAP_FAILED || (pid = fork()) < 0)
        return wrong("no memory or no process", 0);
    if (pid == 0)
        child(image);
    if (waitpid(pid, &status, 0) != pid || !WIFSTOPPED(status))
        return 77;
    ptrace(PTRACE_SETOPTIONS, pid, NULL, (void *)(uintptr_t)PTRACE_O_EXITKILL);
    while (WIFSTOPPED(status) && ptrace(PTRACE_GETREGS, pid, NULL, &regs) == 0) {
        /* The child is a fork: its code stands here too, at the same address. */
        const struct op op = decode(&regs, (const uint8_t *)(uintptr_t)regs.rip, image, &flush), is_due = due(done);
        const uint32_t leaf = (uint32_t)regs.rax;
        if (op.kind != OTHER && op.kind != CPUID) {
            if (done == DUE || memcmp(&op, &is_due, sizeof op) != 0)
                return wrong("something else is done", done);
            if (op.kind == CRPM_OP_CLWB && flush != best)
                return wrong("another flush than the best", done);
            done++;
        }
        if (ptrace(PTRACE_SINGLESTEP, pid, NULL, NULL) != 0 || waitpid(pid, &status, 0) != pid)
            return wrong("no step", done);
        if (WIFSTOPPED(status) && WSTOPSIG(status) != SIGTRAP)
            return wrong("a signal", done);
        if (op.kind == CPUID && ptrace(PTRACE_GETREGS, pid, NULL, &regs) == 0) {
            if (leaf == 0 && most == 0)
                regs.rax = 6;
            if (leaf == 7) {
                regs.rbx &= ~hidden;
                best = regs.rbx >> 24 & 1 ? CRPM_BY_CLWB : regs.rbx >> 23 & 1 ? CRPM_BY_CLFLUSHOPT : CRPM_BY_CLFLUSH;
                asked++;
            }
            ptrace(PTRACE_SETREGS, pid, NULL, &regs);
        }
    }
    if (!WIFEXITED(status) || WEXITSTATUS(status) != 0 || done != DUE)
        return wrong("an end too early", done);
    if (asked != (most != 0))
        return wrong("leaf 7 is not asked for once", done);
    *name = best == CRPM_BY_CLWB ? "clwb" : best == CRPM_BY_CLFLUSHOPT ? "clflushopt" : "clflush";
    return 0;
}

int main(void)
{
    const char *names[CRPM_BY_CLWB + 1];
    int most, result = 0;
    for (most = CRPM_BY_CLWB; most >= 0 && result == 0; most--)
        result = try_processor(most, &names[most]);
    if (result == 0)
        printf("steps: %d operations as the trace says, on four processors: %s, %s, %s, %s\n",
               (int)DUE, names[3], names[2], names[1], names[0]);
    return result;
}
