/*
 * The capture that is being made: shared by runs.c, which makes runs that keep the rules, spoil.c, which breaks rules in them, and
 * generate.c, which decides what is made of which number.
 */
#ifndef MAKER_H
#define MAKER_H

#include "generate.h"

enum { /* the table's rows */
    NOOP, BATCH_END, BATCH_START, LOAD_IMM, STORE_IMM, STORE_REG, LOAD_REG, PIPE_CONTROL, PIPELINE_SELECT, BASE_ADDRESS,
    VERTEX_BUFFERS, VERTEX_ELEMENTS, INDEX_BUFFER, TOPOLOGY, VIEWPORT, COLOUR_CALC, PRIMITIVE, BLEND, ROWS
};

/* The dwords of a window: at most, and in all captures but the long ones, as in a capture file. */
enum { LIMIT = 65536, SMALL_LIMIT = 4096 };
enum { PAGE = 4096, BUDGET = 65536, BLOCKS = 12, COMMANDS = LIMIT };

/* 2^48, the end of all windows, and 2^47, from which on an address that is used has its upper bits set. */
#define TOP ((uint64_t)1 << 48)
#define HALF ((uint64_t)1 << 47)

/* What a capture is aimed at, beside the numbers 1 to 18. */
enum { ACCEPTED = 0, ENDLESS_RUN = 19, EXACT_RUN, FLIPPED, NOISE };

struct command {
    uint32_t at, row, length;
    uint32_t *structure; /* the words that it reads, if any */
    int second;          /* stands in a second-level batch */
};

struct maker {
    struct capture *c;
    struct dice dice;
    int aim;
    int is_long;        /* its windows may have 65,536 dwords */
    int cut;            /* as from behind the driver's STATE_BASE_ADDRESS: the base is the state window's address from the start, which is 14 with none */
    int fixed_base;     /* one dynamic base for the whole run: that one, or one that is set by the first command */
    int has_base;       /* and whether the block at hand knows its base */
    uint64_t base;
    uint32_t at, limit; /* the next free dword of the batch, and where code must end */
    int whole;          /* the batch has the planned length, whatever the code takes of it */
    uint32_t data;      /* structures stand in the batch from here on */
    uint32_t hidden;    /* commands that stand inside another's operands, or 0 */
    uint32_t starts[BLOCKS];
    uint32_t patches[COMMANDS], targets[COMMANDS], patched; /* low dwords of targets, and the blocks that they mean */
    struct command commands[COMMANDS];
    uint32_t made;
};
extern struct maker m;

/* ---- Numbers: 32 bits; less than n, and 0 if n is 0; true once in n times; any of a list ---- */

uint32_t word(void);
uint32_t below(uint32_t n);
int one_in(uint32_t n);
#define PICK(list) ((list)[below(sizeof(list) / sizeof((list)[0]))])

/* ---- Windows: 0 the batch, 1 the state window, 2 scratch ---- */

struct window {
    uint64_t at, bytes;
};
struct window window(uint32_t which);
uint32_t most_dwords(void); /* that the code of this capture may have */
void set_address(uint32_t which, uint64_t at);
uint64_t rounded(uint64_t bytes); /* up to a page */

/* ---- Commands ---- */

/* The table once more: header, free bits of the header, dwords (or 0: groups, and how many), allowed bits of each dword or group. */
struct table_row {
    uint32_t header, open, length, group, most, bits[16];
};
extern const struct table_row table[ROWS];

uint32_t allowed(uint32_t row, uint32_t dword);
int reads_by_bit_0(uint32_t row); /* it points to a structure only with bit 0 of its pointer set */
uint32_t structure_dwords(uint32_t row);
int fieldless(uint32_t row); /* the header's low bits hold no length field */
uint32_t good_register(void);
uint32_t some_length(uint32_t row, uint32_t most);
void put_address(uint32_t *low, uint64_t at); /* as one that is used is written: the bits above bit 47 repeat it */
void put_unused(uint32_t *low, uint64_t at);  /* as one that is not: they are clear */
void emit_start(int call, uint32_t block, uint32_t to);

/* Where a blend entry's first dword has its codes. */
extern const uint32_t factors_at[4], functions_at[2];

/* ---- Runs ---- */

void begin_windows(void);
void make_run(void);
void make_endless(void);
void make_exact(void);
void make_noise(void);

/* ---- Faults ---- */

void spoil_windows(int number); /* 1 to 4 */
void cut_short(int number);     /* 6 and 9 */
void plant(int number);         /* the others */
void flip(void);                /* a blind change */

#endif
