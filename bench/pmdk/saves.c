/*
 * What a save costs by marked frames: crpm_checkpoint alone, and with its trace
 * carried out.
 *
 * The first k blocks of the board are marked. In the one row their main segments
 * were written to since the last save: all their lines were stored to. In the
 * other row they were written and saved before, and nothing was written since:
 * the marks are still there, and a save flushes those blocks again. Each save is
 * timed by itself, and what the timing takes is taken off.
 */
#include "ours.h"
#include "tables.h"
#include "timing.h"

#include <stdio.h>

enum { SAVES = 201 }; /* of which the median is taken */

struct cost {
    double call, carried;
    uint64_t ops;
};

/* Writes the first blocks of the board, all of each. */
static void write_blocks(struct ours *ours, size_t count)
{
    static uint8_t bytes[BLOCK];
    const uint64_t blocks = ours->sizes.blocks;
    size_t n;
    bytes[0]++;
    for (n = 0; n < count; n++)
        ours_carry_out(ours, ours_write(ours, n / blocks, n % blocks, 0, bytes, BLOCK));
}

/* One save: the time of the call, and that until its operations are done. */
static void time_save(struct ours *ours, struct cost *cost)
{
    double start;
    settle();
    start = now();
    cost->ops = ours_checkpoint(ours);
    cost->call = now() - start;
    ours_carry_out(ours, cost->ops);
    settle();
    cost->carried = now() - start;
}

/* What time_save would say of nothing. */
static void time_nothing(struct cost *cost)
{
    double start;
    settle();
    start = now();
    cost->call = now() - start;
    settle();
    cost->carried = now() - start;
}

/* Saves with so many marked blocks: written since the last save, or before. */
static struct cost time_saves(struct ours *ours, size_t marked, int written_since)
{
    double calls[SAVES], carried[SAVES];
    struct cost save = {0}, nothing;
    int i;
    write_blocks(ours, marked);
    ours_carry_out(ours, ours_checkpoint(ours));
    for (i = 0; i < SAVES; i++) {
        if (written_since)
            write_blocks(ours, marked);
        time_nothing(&nothing);
        time_save(ours, &save);
        calls[i] = save.call - nothing.call;
        carried[i] = save.carried - nothing.carried;
    }
    save.call = median(calls, SAVES);
    save.carried = median(carried, SAVES);
    return save;
}

/* One row; whether its number of operations is not 4 k + 14. */
static int row(struct sizes sizes, size_t marked, int written_since)
{
    struct ours *ours = ours_setup(sizes);
    const struct cost cost = time_saves(ours, marked, written_since);
    const int wrong = cost.ops != 4 * marked + 14;
    printf("%-8s  %-14s  %6zu  %10d  %8.0f  %8.0f%s\n", sizes_text(sizes), written_since ? "since the save" : "before it",
           marked, (int)cost.ops, cost.call, cost.carried, wrong ? "  WRONG: operations" : "");
    fflush(stdout);
    ours_teardown(ours);
    return wrong;
}

int saves_table(const struct sizes *sizes, size_t count)
{
    size_t i, marked;
    int wrong = 0, written_since;
    printf("table saves: ns a save by marked frames, median of %d; the call alone, and in all, with its trace carried out\n", SAVES);
    printf("%-8s  %-14s  %6s  %10s  %8s  %8s\n", "sizes", "marked frames", "frames", "operations", "call", "in all");
    for (i = 0; i < count; i++)
        for (written_since = 1; written_since >= 0; written_since--)
            for (marked = 1; marked <= board_blocks(sizes[i]); marked *= 4)
                wrong += row(sizes[i], marked, written_since);
    printf("\n");
    return wrong;
}
