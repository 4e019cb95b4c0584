/*
 * Writes the board of the worked dump (README.md) to standard output: 3 levels,
 * 2 spares, 2 frames. Two levels are saved; then one of them and the third are
 * written to, and not saved.
 */
#include "crpm.h"

#include <stdio.h>
#include <stdlib.h>
#include <string.h>

enum { LEVELS = 3, SPARES = 2, FRAMES = 2 };

static uint8_t image[CRPM_IMAGE_SIZE(LEVELS, SPARES, FRAMES)];
static uint64_t trace[CRPM_TRACE(LEVELS, FRAMES)];
static struct crpm_session session;
static struct crpm_client console = {SPARES, SPARES, 0};

/* Ends the program if a call was refused. */
static void served(uint64_t status)
{
    if (status != CRPM_SERVED) {
        fprintf(stderr, "board: refusal %u\n", (unsigned)status);
        exit(1);
    }
}

static void carry_out(uint64_t ops)
{
    uint64_t played;
    served(crpm_replay(image, sizeof image, trace, CRPM_OP_NUMBERS * ops, ops, &played));
}

static void put(uint64_t level, uint64_t frame, uint64_t at, const char *text)
{
    uint64_t ops;
    served(crpm_write(image, sizeof image, &session, &console, 1, 0, level, frame, at, (const uint8_t *)text,
        strlen(text), trace, sizeof trace / sizeof *trace, &ops));
    carry_out(ops);
}

int main(void)
{
    uint64_t ops;
    served(crpm_format(image, sizeof image, LEVELS, SPARES, FRAMES));
    served(crpm_open(
        image, sizeof image, LEVELS, SPARES, FRAMES, CRPM_ADR, &session, &console, 1, trace, sizeof trace / sizeof *trace, &ops));
    carry_out(ops);
    put(0, 0, 0, "Great 8 4 2");
    put(1, 1, 16, "Swell 8 4");
    served(crpm_checkpoint(image, sizeof image, &session, &console, 1, trace, sizeof trace / sizeof *trace, &ops));
    carry_out(ops);
    put(1, 1, 16, "Swell 16 8");
    put(2, 0, 0, "Pedal 16");
    return fwrite(image, sizeof image, 1, stdout) == 1 && fflush(stdout) == 0 ? 0 : 1;
}
