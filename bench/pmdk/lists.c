/*
 * Lists of writes. Places and bytes are pseudo-random numbers (splitmix64) from
 * a seed. Assumes that words of a pattern have 8 bytes and blocks 256, so no
 * write leaves its block.
 */
#include "lists.h"

#include <stdlib.h>

const struct pattern whole_board = {.mains = ALL, .blocks = ALL, .writes = ALL, .length = BLOCK, .epochs = 1};

static uint64_t next_random(uint64_t *state)
{
    uint64_t x = *state += 0x9e3779b97f4a7c15;
    x = (x ^ x >> 30) * 0xbf58476d1ce4e5b9;
    x = (x ^ x >> 27) * 0x94d049bb133111eb;
    return x ^ x >> 31;
}

static uint64_t at_most(uint64_t wanted, uint64_t there)
{
    return wanted < there ? wanted : there;
}

/* The place of write number i of an epoch. */
static struct write place(const struct pattern *pattern, struct sizes sizes, uint64_t i, uint64_t *state)
{
    const uint64_t mains = at_most(pattern->mains, sizes.mains), blocks = at_most(pattern->blocks, sizes.blocks);
    const int words = pattern->length == CRPM_WORD_SIZE;
    const uint64_t n = (words ? next_random(state) : i) % (mains * blocks);
    const uint64_t offset = words ? next_random(state) % (BLOCK / CRPM_WORD_SIZE) * CRPM_WORD_SIZE : 0;
    return (struct write){
        .main = (uint8_t)(n / blocks), .block = (uint8_t)(n % blocks),
        .at = (uint32_t)(BLOCK * (n / blocks * sizes.blocks + n % blocks) + offset),
        .length = (uint16_t)pattern->length,
    };
}

struct list make_list(const struct pattern *pattern, struct sizes sizes, uint64_t seed)
{
    struct list list = {.epochs = pattern->epochs, .writes = pattern->writes};
    uint64_t i, state = seed;
    size_t k;
    if (list.writes == ALL)
        list.writes = board_blocks(sizes);
    list.all = allocate(sizeof list.all[0] * list.epochs * list.writes);
    list.bytes = allocate(pattern->length * list.epochs * list.writes);
    for (i = 0; i < list.epochs * list.writes; i++) {
        uint8_t *bytes = list.bytes + pattern->length * i;
        list.all[i] = place(pattern, sizes, i % list.writes, &state);
        list.all[i].bytes = bytes;
        for (k = 0; k < pattern->length; k += sizeof(uint64_t)) {
            const uint64_t word = next_random(&state);
            memcpy(bytes + k, &word, sizeof word);
        }
    }
    return list;
}

void drop_list(struct list *list)
{
    free(list->all);
    free(list->bytes);
}

void play_writes(const struct side *side, void *self, const struct list *list, uint64_t epoch)
{
    const struct write *write = list->all + list->writes * epoch, *end = write + list->writes;
    for (; write < end; write++)
        side->write(self, write);
}

void play(const struct side *side, void *self, const struct list *list, uint64_t rounds)
{
    uint64_t epoch;
    for (; rounds > 0; rounds--)
        for (epoch = 0; epoch < list->epochs; epoch++) {
            play_writes(side, self, list, epoch);
            side->save(self);
        }
}

void play_plainly(uint8_t *board, const struct list *list)
{
    uint64_t i;
    for (i = 0; i < list->epochs * list->writes; i++)
        memcpy(board + list->all[i].at, list->all[i].bytes, list->all[i].length);
}
