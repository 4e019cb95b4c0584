/*
 * Says where in a dump the saved bytes of each level stand: dump FILE, a dump in
 * bytes. README.md does the same by hand. Status 0, 1 if the library refuses the
 * dump, 2 if it cannot be read.
 */
#include "crpm.h"

#include <inttypes.h>
#include <stdio.h>

/* One byte more than the largest image, so that a longer file is seen. */
static uint8_t image[CRPM_IMAGE_SIZE(CRPM_MOST, CRPM_MOST, CRPM_MOST) + 1];

static uint64_t word_at(size_t place)
{
    uint64_t word = 0;
    for (int i = CRPM_WORD_SIZE - 1; i >= 0; i--)
        word = word << 8 | image[place + (size_t)i];
    return word;
}

int main(int argc, char **argv)
{
    if (argc != 2) {
        fprintf(stderr, "usage: dump FILE\n");
        return 2;
    }
    FILE *file = fopen(argv[1], "rb");
    if (file == NULL) {
        perror(argv[1]);
        return 2;
    }
    size_t length = fread(image, 1, sizeof image, file);
    if (ferror(file)) {
        perror(argv[1]);
        return 2;
    }
    fclose(file);

    uint64_t levels = word_at(CRPM_MAINS_AT), spares = word_at(CRPM_BACKUPS_AT), frames = word_at(CRPM_BLOCKS_AT);
    uint64_t epoch = word_at(CRPM_EPOCH_AT), start, size;
    uint64_t refusal = crpm_read_checkpoint(image, length, levels, spares, frames, 0, 0, &start, &size);
    printf("bytes=%zu levels=%" PRIu64 " spares=%" PRIu64 " frames=%" PRIu64 " epoch=%" PRIu64 " refusal=%" PRIu64 "\n",
        length, levels, spares, frames, epoch, refusal);
    if (refusal != CRPM_SERVED)
        return 1;
    for (uint64_t level = 0; level < levels; level++) {
        crpm_read_checkpoint(image, length, levels, spares, frames, level, 0, &start, &size);
        printf("level=%" PRIu64 " state=%u", level, image[CRPM_STATES_AT + CRPM_LINE_SIZE * (epoch % 2) + level]);
        for (uint64_t spare = 0; spare < spares; spare++)
            if (image[CRPM_PAIRS_AT + spare] == level)
                printf(" spare=%" PRIu64, spare);
        if (size == 0)
            printf(" saved=empty\n");
        else
            printf(" saved=0x%" PRIx64 " (%" PRIu64 ")\n", start, start);
    }
    return 0;
}
