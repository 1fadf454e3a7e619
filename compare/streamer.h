/*
 * The plain streamer of document 01: runs a capture as the hardware would, and tests no rule. It stands apart from the
 * checker and shares nothing with it, so that demand 3 can be tried on what the checker accepts.
 */
#ifndef STREAMER_H
#define STREAMER_H

#include "../include/lungevati.h"

enum { STREAM_WINDOW = 65536, STREAM_CELLS = 65536 }; /* half the cells, and no run of so long a batch stores more words */

enum stream_state {
    STREAM_RUNS,
    STREAM_ENDED,  /* the end of the first-level batch */
    STREAM_FAILED, /* a fetch outside the batch, an access outside all windows, an unknown header, nothing kept */
    STREAM_FULL    /* no fault of the capture: this program has no cell left for another register or scratch word */
};

enum stream_window { STREAM_BATCH, STREAM_STATE, STREAM_SCRATCH, STREAM_NOWHERE };

/* Scratch is up to 4 GiB and registers are total over every offset, so only those that were set are kept, by a key. */
struct stream_cell {
    uint64_t key;
    uint32_t value, run; /* a cell counts only in the run that set it: nothing has to be cleared between runs */
};

struct stream {
    uint32_t batch[STREAM_WINDOW], state[STREAM_WINDOW];
    uint64_t batch_at, state_at, scratch_at;
    uint64_t batch_words, state_words, scratch_words;

    enum stream_state is;
    uint64_t position; /* in dwords of the batch; any number, since a start may go anywhere */
    uint64_t kept;
    int level, has_kept;

    uint32_t index, at_level, row, length; /* the command done last, and the level at which it was fetched */
    uint32_t stores[STREAM_NOWHERE];       /* words stored in each window so far */

    uint64_t seed; /* decides the contents of scratch and registers at the start, and what the hardware supplies */
    uint64_t supplied;
    uint32_t run, used;
    struct stream_cell cells[STREAM_CELLS];
};

/* A capture as it is lent to the checker; the two lent windows are copied, at most STREAM_WINDOW words of each. */
void stream_start(struct stream *s, const uint32_t *batch, size_t batch_len, uint64_t batch_at, const uint32_t *state,
                  size_t state_len, uint64_t state_at, uint64_t scratch_at, uint32_t scratch_len, uint64_t seed);

/* One command. Nothing happens unless the streamer runs. */
void stream_step(struct stream *s);

/* The table's row of a header, 18 for one that is not in the table. */
uint32_t stream_row(uint32_t header);

#endif
