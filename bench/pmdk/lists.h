/*
 * The patterns of writes, and lists of writes made by them: the same list for
 * every side.
 */
#ifndef LISTS_H
#define LISTS_H

#include "sides.h"

#define ALL UINT64_MAX

/* The writes of an epoch: words at random places, or whole blocks one after the
   other, of the first blocks of the first main segments. */
struct pattern {
    int number;
    const char *what;
    uint64_t mains, blocks; /* where it writes; ALL: to all that there are */
    uint64_t writes;        /* of an epoch; ALL: a write for each block */
    uint64_t length;        /* of a write: a word or a block */
    uint64_t epochs;        /* of a list */
    uint64_t rounds;        /* of a run: how often its list is played */
    int filled;             /* whether the whole board is written and saved before */
};

/* Every block of the board, in one epoch. */
extern const struct pattern whole_board;

struct list {
    uint64_t epochs, writes; /* writes: of one epoch */
    struct write *all;
    uint8_t *bytes;
};

/* Makes a list. The same seed gives the same list. */
struct list make_list(const struct pattern *pattern, struct sizes sizes, uint64_t seed);
void drop_list(struct list *list);

/* A whole list, so many times, on a side. */
void play(const struct side *side, void *self, const struct list *list, uint64_t rounds);

/* The writes of one epoch, without its save. */
void play_writes(const struct side *side, void *self, const struct list *list, uint64_t epoch);

/* A whole list, on a plain copy of the board. */
void play_plainly(uint8_t *board, const struct list *list);

#endif
