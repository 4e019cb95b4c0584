/*
 * Files mapped as memory. Assumes a folder in which files may be made and
 * mapped; in /dev/shm they are memory themselves. No file of it is persistent
 * memory, so a flush has the processor's cost and makes nothing durable.
 */
#include "memory.h"

#include <errno.h>
#include <stdio.h>
#include <stdlib.h>
#include <sys/mman.h>
#include <unistd.h>

const char *folder;
struct counts *counting;

void fail(const char *what, const char *why)
{
    fflush(stdout);
    fprintf(stderr, "compare: %s: %s\n", what, why);
    exit(1);
}

void *allocate(size_t length)
{
    void *memory = calloc(1, length);
    if (memory == NULL)
        fail("allocate", strerror(errno));
    return memory;
}

void *map_file(size_t length)
{
    char path[4096];
    void *mapped;
    int fd;
    snprintf(path, sizeof path, "%s/mapped.XXXXXX", folder);
    fd = mkstemp(path);
    if (fd < 0 || unlink(path) != 0 || ftruncate(fd, (off_t)length) != 0)
        fail(path, strerror(errno));
    mapped = mmap(NULL, length, PROT_READ | PROT_WRITE, MAP_SHARED | MAP_POPULATE, fd, 0);
    if (mapped == MAP_FAILED)
        fail(path, strerror(errno));
    close(fd);
    return mapped;
}

void unmap_file(void *mapped, size_t length)
{
    munmap(mapped, length);
}
