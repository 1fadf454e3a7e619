/* Captures and capture files made from a seed: well-formed runs, then faults planted in them. */
#ifndef GENERATE_H
#define GENERATE_H

#include "../include/lungevati.h"

enum {
    LENT_MOST = 65536 + 1024,          /* dwords of a window: past the limit too */
    RECORDS_MOST = 2 * 70000 + 2,      /* words: past those of 65,536 commands too */
    FILE_MOST = 40 + 4 * 2 * 4096 + 200, /* bytes: past the limit too */
    WRITE_MOST = 65536 + 512,          /* dwords behind a header: far past any row's, and past what 16 bits count */
    TURN_MOST = 65536 + 512            /* words of an old listing: past the budget, and past what 16 bits count */
};

struct capture {
    uint64_t batch_at, state_at, scratch_at;
    size_t batch_len, state_len, records_len; /* in words, also the records */
    uint32_t scratch_len;
    uint32_t batch[LENT_MOST], state[LENT_MOST];
};

struct capture_file {
    size_t len, batch_room, state_room;
    uint8_t bytes[FILE_MOST];
};

/* A small generator of numbers, from a seed of any kind. */
struct dice {
    uint64_t state;
};
void dice_start(struct dice *d, uint64_t seed, uint64_t number);
uint64_t dice_roll(struct dice *d);

/* The capture, and the file, of one number: the same for the same seed and number, whatever was made before. */
void generate(struct capture *c, uint64_t seed, uint64_t number);
void generate_file(struct capture_file *f, const struct capture *c, uint64_t seed, uint64_t number);

#endif
