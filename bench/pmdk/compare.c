/*
 * compare FOLDER: the library beside libpmemobj and hand-written logs.
 *
 * Measures what an epoch costs on each side, what a save costs by marked frames,
 * and what an opening after a kill costs, and prints tables. FOLDER is one in
 * memory (/dev/shm); the program makes its files there. Exit status: 0; 1 if a
 * side ends with bytes that are not those of the plain copy, a count is not as it
 * should be, or something cannot be used; 2 for wrong arguments.
 *
 * Assumes x86-64 Linux, and a machine on which little else runs. The program
 * stays on one core, the last of those that it may use.
 */
#include "tables.h"

#include <errno.h>
#include <sched.h>
#include <stdio.h>
#include <stdlib.h>
#include <time.h>

#ifndef PMDK_VERSION
#define PMDK_VERSION "unknown"
#endif

static const struct sizes both[] = {{8, 8, 16}, {64, 64, 64}};
enum { SIZES = sizeof both / sizeof both[0] };

const char *sizes_text(struct sizes sizes)
{
    static char text[64];
    snprintf(text, sizeof text, "%d,%d,%d", (int)sizes.mains, (int)sizes.backups, (int)sizes.blocks);
    return text;
}

int differ(const struct side *side, void *self, const uint8_t *board, struct sizes sizes, const char *when)
{
    const size_t at = side->differs(self, board);
    if (at == ALIKE)
        return 0;
    printf("DIFFERENT: side %s at %s, %s: byte %zu of the board\n", side->name, sizes_text(sizes), when, at);
    return 1;
}

/* Stays on the last core of those that the process may use. */
static size_t pin(void)
{
    cpu_set_t set;
    size_t core;
    if (sched_getaffinity(0, sizeof set, &set) != 0)
        fail("sched_getaffinity", strerror(errno));
    for (core = CPU_SETSIZE - 1; core > 0 && !CPU_ISSET(core, &set); core--)
        ;
    CPU_ZERO(&set);
    CPU_SET(core, &set);
    if (sched_setaffinity(0, sizeof set, &set) != 0)
        fail("sched_setaffinity", strerror(errno));
    return core;
}

/* The processor's name as /proc/cpuinfo has it. */
static const char *machine(void)
{
    static char line[256];
    FILE *file = fopen("/proc/cpuinfo", "r");
    char *name = NULL;
    while (file != NULL && name == NULL && fgets(line, sizeof line, file) != NULL)
        if (strncmp(line, "model name", 10) == 0 && (name = strchr(line, ':')) != NULL)
            name[strcspn(name, "\n")] = '\0';
    if (file != NULL)
        fclose(file);
    return name == NULL ? "unknown" : name + 2;
}

static void heading(size_t core)
{
    static const char *const flushes[] = {"", "clflush", "clflushopt", "clwb"};
    const time_t seconds = time(NULL);
    char date[32];
    size_t i;
    strftime(date, sizeof date, "%Y-%m-%d %H:%M UTC", gmtime(&seconds));
    printf("machine: %s, core %zu, flushes by %s\n", machine(), core, flushes[crpm_best_flush()]);
    printf("date: %s\n", date);
    printf("versions: crpm %s, PMDK %s\n", CRPM_VERSION, PMDK_VERSION);
    printf("memory: mapped files, no persistent memory\n");
    printf("sizes:");
    for (i = 0; i < SIZES; i++)
        printf(" %s%s", i == 0 ? "" : "and ", sizes_text(both[i]));
    printf(" (levels, spares, frames of %d bytes in each)\n\n", BLOCK);
}

int main(int argc, char **argv)
{
    int wrong;
    if (argc != 2) {
        fprintf(stderr, "usage: compare FOLDER\n");
        return 2;
    }
    folder = argv[1];
    if (setenv("PMEM_IS_PMEM_FORCE", "1", 1) != 0)
        fail("setenv", strerror(errno));
    heading(pin());
    wrong = epochs_tables(both, SIZES);
    wrong += saves_table(both, SIZES);
    wrong += openings_table(both, SIZES);
    printf("%s\n", wrong == 0 ? "every side ended with the bytes of the plain copy" : "WRONG: see above");
    return wrong == 0 && fflush(stdout) == 0 && !ferror(stdout) ? 0 : 1;
}
