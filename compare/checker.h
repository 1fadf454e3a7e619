/* The second opinion: two checkers, a reader of capture files, a writer of commands and what turns old listings, in plain C, with the calls of lungevati.h. */
#ifndef CHECKER_H
#define CHECKER_H

#include "../include/lungevati.h"

/* By the default, which is that the walk starts with the state window's address as dynamic base; and with no base at the start. */
struct lungevati_answer other_check(const uint32_t *batch, size_t batch_len, uint64_t batch_at,
                                    const uint32_t *state, size_t state_len, uint64_t state_at,
                                    uint64_t scratch_at, uint32_t scratch_len,
                                    uint32_t *records, size_t records_len);
struct lungevati_answer other_check_no_base(const uint32_t *batch, size_t batch_len, uint64_t batch_at,
                                            const uint32_t *state, size_t state_len, uint64_t state_at,
                                            uint64_t scratch_at, uint32_t scratch_len,
                                            uint32_t *records, size_t records_len);

/* The second checker in C, written for speed alone (fast.c): the same answers. */
struct lungevati_answer fast_check(const uint32_t *batch, size_t batch_len, uint64_t batch_at,
                                   const uint32_t *state, size_t state_len, uint64_t state_at,
                                   uint64_t scratch_at, uint32_t scratch_len,
                                   uint32_t *records, size_t records_len);
struct lungevati_answer fast_check_no_base(const uint32_t *batch, size_t batch_len, uint64_t batch_at,
                                           const uint32_t *state, size_t state_len, uint64_t state_at,
                                           uint64_t scratch_at, uint32_t scratch_len,
                                           uint32_t *records, size_t records_len);

struct lungevati_contents other_read(const uint8_t *file, size_t file_len,
                                     uint32_t *batch, size_t batch_len,
                                     uint32_t *state, size_t state_len);

/* The writer of commands, in a file of its own (writer.c). */
struct lungevati_answer other_write(uint32_t row, uint32_t free_bits, const uint32_t *dwords, size_t dwords_len,
                                    uint32_t *batch, size_t batch_len, size_t first);

/* What turns a listing of old records, in a file of its own (turn.c). */
struct lungevati_long_answer other_turn(const uint32_t *old_words, size_t old_len, uint32_t *new_words, size_t new_len);

#endif
