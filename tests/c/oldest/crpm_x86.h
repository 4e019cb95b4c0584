/*
 * Stands in for include/crpm_x86.h in a test: the same two functions, behind a
 * cache at its worst. A store goes to the mapped image, which a killed process
 * leaves as it is. A flush takes the line as it then stands, and the next fence
 * brings what was taken to the module: the file that the environment variable
 * CRPM_DURABLE names. So that file has the oldest image that a power cut may
 * leave on a module of the kind CRPM_ADR; what a killed process flushed and did not fence is not in it.
 */
#ifndef CRPM_X86_H
#define CRPM_X86_H

#include "crpm.h"

#include <fcntl.h>
#include <stdlib.h>
#include <string.h>
#include <unistd.h>

/* What was flushed since the last fence. */
static struct {
    size_t place;
    uint8_t bytes[CRPM_LINE_SIZE];
} flushed[256];
static size_t waiting;

static inline void flush_line(const uint8_t *image, size_t place)
{
    if (waiting == sizeof flushed / sizeof flushed[0])
        abort();
    flushed[waiting].place = place;
    memcpy(flushed[waiting].bytes, image + place, CRPM_LINE_SIZE);
    waiting++;
}

static inline void fence(void)
{
    const char *path = getenv("CRPM_DURABLE");
    int module = path == NULL ? -1 : open(path, O_WRONLY | O_CREAT, 0666);
    size_t i;
    for (i = 0; i < waiting; i++)
        if (pwrite(module, flushed[i].bytes, CRPM_LINE_SIZE, (off_t)flushed[i].place) != CRPM_LINE_SIZE)
            abort();
    waiting = 0;
    close(module);
}

static inline void crpm_carry_out(uint8_t *image, const uint64_t *trace, uint64_t n)
{
    for (; n > 0; n--, trace += CRPM_OP_NUMBERS)
        switch (trace[0]) {
        case CRPM_OP_STORE:
            memcpy(image + trace[1], &trace[2], CRPM_WORD_SIZE);
            break;
        case CRPM_OP_CLWB:
            flush_line(image, trace[1]);
            break;
        case CRPM_OP_SFENCE:
            fence();
            break;
        }
}

static inline void crpm_flush_all(const uint8_t *image, size_t length)
{
    size_t place;
    for (place = 0; place < length; place += CRPM_LINE_SIZE)
        flush_line(image, place);
    fence();
}

#endif
