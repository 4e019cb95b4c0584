/*
 * What an opening costs after a kill.
 *
 * A child process opens the board, writes every block of it, and is killed
 * (SIGKILL) before it saves: inside a transaction, for libpmemobj. Then the
 * opening is timed, nine times anew, and the board must be as last saved. The
 * child's stores are in the cache or in memory by then: the kernel keeps the
 * pages. So recovery is timed, but no power cut is tried.
 *
 * After the fork each page of ordinary memory that the opening writes to costs a
 * fault, as in a new process: for A its trace (864 pages at 64,64,64), for
 * libpmemobj what it allocates, for E its copy of the board. What is opened again
 * in the same process has its pages. The mapping of the file is part of the
 * opening for libpmemobj, and not for the others.
 */
#include "lists.h"
#include "ours.h"
#include "tables.h"
#include "timing.h"

#include <errno.h>
#include <signal.h>
#include <stdio.h>
#include <sys/wait.h>
#include <unistd.h>

/* Boards that are opened. */
static const struct state {
    const struct side *side;
    const char *what;
    int filled; /* whether the whole board was written and saved twice before */
    int killed; /* whether a process was killed; else this process opens it again */
} states[] = {
    {&side_a, "every level empty", 0, 1},
    {&side_a, "every level paired", 1, 1},
    {&side_a, "the same, opened again", 1, 0},
    {&side_b, "killed in a transaction", 1, 1},
    {&side_b, "closed, opened again", 1, 0},
    {&side_c, "every frame on the log", 1, 1},
    {&side_e, "nothing committed", 1, 1},
};

enum { STATES = sizeof states / sizeof states[0] };

/* Lets a child open the board, write a list's epoch and be killed. */
static void kill_child(const struct side *side, void *self, const struct list *list)
{
    int status;
    const pid_t child = fork();
    if (child == 0) {
        side->reopen(self);
        play_writes(side, self, list, 0);
        raise(SIGKILL);
    }
    if (child < 0 || waitpid(child, &status, 0) != child)
        fail("fork", strerror(errno));
    if (!WIFSIGNALED(status) || WTERMSIG(status) != SIGKILL)
        fail("fork", "the child was not killed where it should be");
}

/* One opening after a kill or a proper end: its time. */
static double time_opening(const struct state *state, void *self, const struct list *unsaved)
{
    double start;
    if (state->side->close != NULL)
        state->side->close(self);
    if (state->killed)
        kill_child(state->side, self, unsaved);
    start = now();
    state->side->reopen(self);
    return now() - start;
}

static void print_row(const struct state *state, struct sizes sizes, double time, struct steps steps)
{
    printf("%-8s  %-4s  %-23s  %8.1f", sizes_text(sizes), state->side->name, state->what, time / 1000);
    if (state->side == &side_a)
        printf("  %8.1f  %8.1f  %11.1f\n", steps.flush / 1000, steps.call / 1000, steps.carry_out / 1000);
    else
        printf("  %8s  %8s  %11s\n", "-", "-", "-");
    fflush(stdout);
}

/* The median of each step. */
static struct steps median_steps(const struct steps *all)
{
    double flush[RUNS], call[RUNS], carry_out[RUNS];
    int i;
    for (i = 0; i < RUNS; i++) {
        flush[i] = all[i].flush;
        call[i] = all[i].call;
        carry_out[i] = all[i].carry_out;
    }
    return (struct steps){median(flush, RUNS), median(call, RUNS), median(carry_out, RUNS)};
}

static int row(const struct state *state, struct sizes sizes)
{
    void *self = state->side->setup(sizes);
    uint8_t *board = allocate(board_size(sizes));
    struct list saved = make_list(&whole_board, sizes, 1), unsaved = make_list(&whole_board, sizes, 2);
    double times[RUNS];
    struct steps steps[RUNS];
    int i, wrong = 0;
    if (state->filled) {
        play(state->side, self, &unsaved, 1);
        play(state->side, self, &saved, 1);
        play_plainly(board, &saved);
    }
    for (i = 0; i < RUNS; i++) {
        times[i] = time_opening(state, self, &unsaved);
        steps[i] = ours_steps;
        wrong += differ(state->side, self, board, sizes, "after an opening");
    }
    print_row(state, sizes, median(times, RUNS), median_steps(steps));
    drop_list(&saved);
    drop_list(&unsaved);
    free(board);
    state->side->teardown(self);
    return wrong;
}

int openings_table(const struct sizes *sizes, size_t count)
{
    size_t i, s;
    int wrong = 0;
    printf("table openings: microseconds an opening after a kill, median of %d; of A also every line flushed, the call, its trace carried out\n",
           RUNS);
    printf("%-8s  %-4s  %-23s  %8s  %8s  %8s  %11s\n", "sizes", "side", "board", "opening", "flush", "call", "carried out");
    for (i = 0; i < count; i++)
        for (s = 0; s < STATES; s++)
            wrong += row(&states[s], sizes[i]);
    printf("\n");
    return wrong;
}
