/*
 * What an epoch costs: the writes of a pattern, and one save.
 *
 * All sides of a pattern are set up anew and then take turns, nine runs each; the
 * side that begins is another in each run. A run has its own list of epochs, the
 * same for every side. It is short, so that reading it costs little, and is played
 * many times: once before the clock starts. The time of an epoch is the median
 * over the runs. Fences, flushes and bytes stored are counted in one more run,
 * which is not timed. At the end what each side has saved is compared with a plain
 * copy of the board.
 */
#include "lists.h"
#include "tables.h"
#include "timing.h"

#include <stdio.h>

static const struct pattern patterns[] = {
    {1, "1 word, always the same frame", 1, 1, 1, CRPM_WORD_SIZE, 1000, 60, 0},
    {2, "64 words over 4 frames of one level", 1, 4, 64, CRPM_WORD_SIZE, 100, 60, 0},
    {3, "64 words over all frames of 2 levels", 2, ALL, 64, CRPM_WORD_SIZE, 100, 30, 0},
    {4, "256 words over all frames of all levels", ALL, ALL, 256, CRPM_WORD_SIZE, 24, 20, 0},
    {5, "1,024 words over all frames of all levels", ALL, ALL, 1024, CRPM_WORD_SIZE, 8, 20, 0},
    {6, "one whole frame, always the same", 1, 1, 1, BLOCK, 500, 120, 0},
    {7, "16 whole frames of 2 levels", 2, 8, 16, BLOCK, 50, 200, 0},
    {11, "as 1, after the whole board was written", 1, 1, 1, CRPM_WORD_SIZE, 100, 30, 1},
};

static const struct side *const sides[] = {&side_a, &side_af, &side_b, &side_b2, &side_c, &side_e, &side_d};

enum {
    PATTERNS = sizeof patterns / sizeof patterns[0],
    SIDES = sizeof sides / sizeof sides[0]
};

/* A pattern under way, and what was found. */
struct trial {
    const struct pattern *pattern;
    struct sizes sizes;
    void *selves[SIDES];
    uint8_t *board; /* the plain copy */
    double times[SIDES][RUNS];
    double time[SIDES]; /* their medians */
    struct counts counts[SIDES];
};

/* Run number `run`, on every side; the run after the last is counted and not
   timed. */
static void play_run(struct trial *trial, const struct list *list, int run)
{
    const uint64_t rounds = trial->pattern->rounds;
    size_t i;
    play_plainly(trial->board, list);
    for (i = 0; i < SIDES; i++) {
        const size_t s = (i + (size_t)run) % SIDES;
        double start;
        play(sides[s], trial->selves[s], list, 1);
        counting = run < RUNS ? NULL : &trial->counts[s];
        start = now();
        play(sides[s], trial->selves[s], list, rounds);
        if (run < RUNS)
            trial->times[s][run] = (now() - start) / (double)(rounds * list->epochs);
        counting = NULL;
    }
}

/* Writes and saves the whole board on every side. */
static void fill(struct trial *trial)
{
    struct list list = make_list(&whole_board, trial->sizes, 1);
    size_t s;
    for (s = 0; s < SIDES; s++)
        play(sides[s], trial->selves[s], &list, 1);
    play_plainly(trial->board, &list);
    drop_list(&list);
}

static int try_pattern(struct trial *trial)
{
    char when[32];
    int run, wrong = 0;
    size_t s;
    trial->board = allocate(board_size(trial->sizes));
    for (s = 0; s < SIDES; s++)
        trial->selves[s] = sides[s]->setup(trial->sizes);
    if (trial->pattern->filled)
        fill(trial);
    for (run = 0; run <= RUNS; run++) {
        struct list list = make_list(trial->pattern, trial->sizes, 1000 * (uint64_t)trial->pattern->number + (uint64_t)run);
        play_run(trial, &list, run);
        drop_list(&list);
    }
    snprintf(when, sizeof when, "pattern %d", trial->pattern->number);
    for (s = 0; s < SIDES; s++) {
        trial->time[s] = median(trial->times[s], RUNS);
        wrong += differ(sides[s], trial->selves[s], trial->board, trial->sizes, when);
        sides[s]->teardown(trial->selves[s]);
    }
    free(trial->board);
    return wrong;
}

/* ---- the tables */

static void print_times(const struct trial *trial)
{
    size_t s;
    printf("%-8s  %2d  %-41s  %8.0f", sizes_text(trial->sizes), trial->pattern->number, trial->pattern->what, trial->time[0]);
    for (s = 1; s < SIDES; s++)
        printf("  %8.0f  %5.2f", trial->time[s], trial->time[s] / trial->time[0]);
    printf("\n");
    fflush(stdout);
}

static void times_heading(void)
{
    size_t s;
    printf("sides:\n");
    for (s = 0; s < SIDES; s++)
        printf("  %-2s  %s\n", sides[s]->name, sides[s]->what);
    printf("\ntable epochs: ns an epoch (writes, then one save), median of %d runs; X/A: side X divided by A, below 1 is faster than A\n",
           RUNS);
    printf("%-8s  %2s  %-41s  %8s", "sizes", "no", "epoch", sides[0]->name);
    for (s = 1; s < SIDES; s++) {
        char ratio[8];
        snprintf(ratio, sizeof ratio, "%s/A", sides[s]->name);
        printf("  %8s  %5s", sides[s]->name, ratio);
    }
    printf("\n");
}

static void print_counts(const struct trial *trial)
{
    const double epochs = (double)(trial->pattern->rounds * trial->pattern->epochs);
    size_t s;
    printf("%-8s  %2d", sizes_text(trial->sizes), trial->pattern->number);
    for (s = 0; s < SIDES; s++) {
        const struct counts *counts = &trial->counts[s];
        char text[64] = "-";
        if (sides[s]->counted)
            snprintf(text, sizeof text, "%.0f/%.0f/%.0f", (double)counts->fences / epochs, (double)counts->flushes / epochs,
                     (double)counts->bytes / epochs);
        printf("  %16s", text);
    }
    printf("\n");
}

static void counts_heading(void)
{
    size_t s;
    printf("\ntable counts: fences/flushed lines/bytes stored in mapped files, an epoch, mean of a run that was not timed\n");
    printf("%-8s  %2s", "sizes", "no");
    for (s = 0; s < SIDES; s++)
        printf("  %16s", sides[s]->name);
    printf("\n");
}

int epochs_tables(const struct sizes *sizes, size_t count)
{
    const size_t all = count * PATTERNS;
    struct trial *trials = allocate(sizeof trials[0] * all);
    size_t i;
    int wrong = 0;
    times_heading();
    for (i = 0; i < all; i++) {
        trials[i].sizes = sizes[i / PATTERNS];
        trials[i].pattern = &patterns[i % PATTERNS];
        wrong += try_pattern(&trials[i]);
        print_times(&trials[i]);
    }
    counts_heading();
    for (i = 0; i < all; i++)
        print_counts(&trials[i]);
    printf("\n");
    free(trials);
    return wrong;
}
