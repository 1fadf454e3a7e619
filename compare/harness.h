/* Both sides on the same input: shared by the random captures (harness.c), the fixed ones (sweep.c), the commands to be written (writes.c) and the listings to be turned (turns.c). */
#ifndef HARNESS_H
#define HARNESS_H

#include "generate.h"

/* The few calls of the C library that we use; the kit's compiler comes without headers. */
int printf(const char *, ...);
unsigned long strtoul(const char *, char **, int);
void exit(int);
unsigned alarm(unsigned);
void (*signal(int, void (*)(int)))(int);

enum { NUMBERS = 23 }; /* 0 and document 01's refusal numbers, with request 4's 22 */

enum { SECONDS = 60 }; /* a call that takes longer does not return */

/* The dynamic base that a walk starts with. Every capture is asked about with both, the default last. */
enum choice { NO_BASE, STATE_WINDOW, CHOICES };

/* How often each number was answered, and where. */
struct tally {
    uint64_t checked[CHOICES][NUMBERS], read[NUMBERS], written[NUMBERS], turned[NUMBERS];
    uint64_t by_row[19][NUMBERS];                     /* row of the command that was refused, by the default, or by 14; 18 where there is none */
    uint64_t commands[18], shortest[18], longest[18]; /* accepted commands, by the default */
    uint64_t wrote[18];                               /* commands written */
    uint64_t streamed, steps, stores;
    uint64_t back;      /* commands of captures that were written back */
    uint64_t relisted;  /* listings of captures that were turned from the old form */
    struct far {        /* by the default, beyond what windows of 4,096 dwords have */
        uint64_t captures, sound, accepted, commands, jumps, refused, structures, odd_rooms;
        uint64_t batch[3], state[3]; /* windows of 65,535 to 65,537 dwords */
    } far;
};

/* A command to be written: what the writer is told. */
struct writing {
    uint32_t row, free_bits;
    size_t dwords_len, batch_len, first;
    uint32_t dwords[WRITE_MOST];
};

/* A listing of old records to be turned, and the room that is lent for it. */
struct listing {
    size_t old_len, new_len;
    uint32_t old_words[TURN_MOST];
};

/*
 * Runs the proved calls and the other on one input and compares the answers and every word of every buffer, those around the
 * lent ones too; an accepted capture is run by the streamer as well. A check is asked with both choices. 0: a difference, which is printed.
 */
int same_check(const struct capture *c, uint64_t seed, struct tally *t);
int same_read(const struct capture_file *f, uint64_t seed, struct tally *t);
int same_write(const struct writing *w, uint64_t seed, struct tally *t);
int same_turn(const struct listing *l, uint64_t seed, struct tally *t);

/*
 * The answers of the last same_check, and the records by the default, which begin with those by the other choice; the answer of the last
 * same_write, and its buffer; and those of the last same_turn.
 */
extern struct lungevati_answer last_answers[CHOICES], last_write;
extern struct lungevati_long_answer last_turn;
extern const uint32_t *const last_records, *const last_buffer, *const last_turned;

/* Document 01's cases, and every code, bit and length that can be tried one by one. 0: a difference, which is printed. */
int sweep(struct tally *t);

/*
 * Commands to be written (writes.c): each row at each count, each refusal at its edges and each bit, one by one; some at random, from a stream of
 * their own; and those of the capture that same_check was asked last. 0: a difference, which is printed.
 */
int sweep_writes(struct tally *t);
int random_writes(uint64_t seed, uint64_t number, struct tally *t);
int write_back(const struct capture *c, uint64_t seed, struct tally *t);

/*
 * Listings to be turned (turns.c): one by one; at random; and that of the capture that same_check was asked last, as records had been before, which
 * has to become its records. 0: a difference, which is printed.
 */
int sweep_turns(struct tally *t);
int random_turns(uint64_t seed, uint64_t number, struct tally *t);
int turn_back(uint64_t seed, struct tally *t);

/* The dword after the records' last command, as the walk goes on. */
uint32_t position_after(const struct capture *c, const uint32_t *recs, uint32_t count);

#endif
