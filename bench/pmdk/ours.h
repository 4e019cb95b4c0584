/*
 * The library as sides A and AF use it, and as its saves and openings are
 * measured by themselves.
 */
#ifndef OURS_H
#define OURS_H

#include "sides.h"

struct ours {
    struct sizes sizes;
    uint8_t *image;
    size_t length;
    struct crpm_session session;
    struct crpm_client client; /* the only one: every backup segment is reserved for it */
    uint64_t *trace;
    size_t trace_length;
    uint8_t *edits;         /* AF: the board in ordinary memory */
    struct touched touched; /* AF: blocks edited since the last save */
};

/* Ends the program unless the call was served. */
void served(const char *call, uint64_t status);

void *ours_setup(struct sizes sizes);
void ours_teardown(void *self);

/* One call; the answer is the number of operations on its trace. */
uint64_t ours_open(struct ours *ours);
uint64_t ours_write(struct ours *ours, uint64_t main, uint64_t block, uint64_t offset, const uint8_t *bytes, size_t length);
uint64_t ours_checkpoint(struct ours *ours);

/* Carries out the operations of the last call. */
void ours_carry_out(struct ours *ours, uint64_t ops);

/* Nanoseconds of the steps of the last reopening: every line flushed, the
   call, its trace carried out. */
struct steps {
    double flush, call, carry_out;
};
extern struct steps ours_steps;

#endif
