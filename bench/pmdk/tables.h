/*
 * The tables that compare prints. Each ends with a blank line; its columns are
 * kept apart by two spaces or more, and no cell has two spaces in it. Each
 * function answers how many things were not as they should be, and prints them.
 */
#ifndef TABLES_H
#define TABLES_H

#include "sides.h"

int epochs_tables(const struct sizes *sizes, size_t count);   /* epochs.c: time, and what is counted */
int saves_table(const struct sizes *sizes, size_t count);     /* saves.c */
int openings_table(const struct sizes *sizes, size_t count);  /* openings.c */

/* "8,8,16"; the text holds until the next call. */
const char *sizes_text(struct sizes sizes);

/* Compares a side with the plain copy of the board: 1 and a line if they differ. */
int differ(const struct side *side, void *self, const uint8_t *board, struct sizes sizes, const char *when);

#endif
