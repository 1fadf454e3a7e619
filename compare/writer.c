/*
 * The second opinion's writer of commands, in plain C: written from document 01's table, request 4 and our readings of it, beside checker.c and
 * not from it. It shares no table with the checker, so that what one of them has wrong the other does not repeat.
 *
 * A command is given as a line of the table has it: its row, the bits of its header that the table leaves open, and the dwords behind the header.
 */
#include "checker.h"

enum { UNKNOWN = 7, COUNT = 8, BITS = 10, ROOM = 22 }; /* the numbers that it refuses with, in the order in which they are tried */

enum { MOST = 15 }; /* dwords behind the header in a row without groups */

/* A line of the table. Behind the header stand from `least` to `most` groups of `group` dwords each; `dwords` has the allowed bits of a group. */
struct line {
    uint32_t header, open; /* the header with its field left out, and the bits that the table leaves open in it */
    int field;             /* bits 7:0 are a field: a row has it or not */
    uint32_t group, least, most;
    uint32_t dwords[MOST];
};

#define ANY 0xFFFFFFFFu
#define HIGH 0x0000FFFFu /* the high dword of an address, where the address is not used */
#define ADDRESS 0xFFFFFFFCu, HIGH
#define BASE 0xFFFFF7F1u, HIGH

static const struct line lines[] = {
    {0x00000000, 0x003FFFFF, 0, 0, 0, 0, {0}},                            /*  0 MI_NOOP */
    {0x05000000, 0, 0, 0, 0, 0, {0}},                                     /*  1 MI_BATCH_BUFFER_END */
    {0x18800000, 0x00400100, 1, 2, 1, 1, {ADDRESS}},                      /*  2 MI_BATCH_BUFFER_START */
    {0x11000000, 0, 1, 2, 1, 64, {0x007FFFFC, ANY}},                      /*  3 MI_LOAD_REGISTER_IMM */
    {0x10000000, 0x00200000, 1, 4, 1, 1, {ADDRESS, ANY, ANY}},            /*  4 MI_STORE_DATA_IMM: the last dword only with bit 21 set */
    {0x12000000, 0, 1, 3, 1, 1, {0x007FFFFC, ADDRESS}},                   /*  5 MI_STORE_REGISTER_MEM */
    {0x14800000, 0, 1, 3, 1, 1, {0x007FFFFC, ADDRESS}},                   /*  6 MI_LOAD_REGISTER_MEM */
    {0x7A000000, 0, 1, 5, 1, 1, {0x0010FCBF, ADDRESS, ANY, ANY}},         /*  7 PIPE_CONTROL */
    {0x69040000, 0, 0, 0, 0, 0, {0}},                                     /*  8 PIPELINE_SELECT */
    {0x61010000, 0, 1, 15, 1, 1,                                          /*  9 STATE_BASE_ADDRESS */
     {BASE, 0x007F0000, BASE, BASE, BASE, BASE, 0xFFFFF001, 0xFFFFF001, 0xFFFFF001, 0xFFFFF001}},
    {0x78080000, 0, 1, 4, 1, 33, {0xFC7F6FFF, ANY, HIGH, ANY}},           /* 10 3DSTATE_VERTEX_BUFFERS */
    {0x78090000, 0, 1, 2, 1, 34, {0xFFFF8FFF, 0x77770000}},               /* 11 3DSTATE_VERTEX_ELEMENTS */
    {0x780A0000, 0, 1, 4, 1, 1, {0x0000037F, ANY, HIGH, ANY}},            /* 12 3DSTATE_INDEX_BUFFER */
    {0x784B0000, 0, 1, 1, 1, 1, {0x0000003F}},                            /* 13 3DSTATE_VF_TOPOLOGY */
    {0x78230000, 0, 1, 1, 1, 1, {0xFFFFFFE0}},                            /* 14 3DSTATE_VIEWPORT_STATE_POINTERS_CC */
    {0x780E0000, 0, 1, 1, 1, 1, {0xFFFFFFC1}},                            /* 15 3DSTATE_CC_STATE_POINTERS */
    {0x7B000000, 0x00000700, 1, 6, 1, 1, {0x0000033F, ANY, ANY, ANY, ANY, ANY}}, /* 16 3DPRIMITIVE */
    {0x78240000, 0, 1, 1, 1, 1, {0xFFFFFFC1}},                            /* 17 3DSTATE_BLEND_STATE_POINTERS */
};
enum { LINES = sizeof lines / sizeof lines[0] };

/* Whether the row has so many dwords behind its header. Of row 4 bit 21 decides, and no other bit is looked at yet. */
static int has_count(uint32_t row, uint32_t free_bits, size_t count)
{
    const struct line *l = &lines[row];
    if (row == 4) return count == (free_bits >> 21 & 1 ? 4 : 3);
    if (l->group == 0) return count == 0;
    return count % l->group == 0 && count / l->group >= l->least && count / l->group <= l->most;
}

/* Whether the address is used whose high dword stands at `i`, the first dword behind the header being 0. Only asked where a high dword stands. */
static int used(uint32_t row, const uint32_t *dwords, size_t i)
{
    switch (row) {
    case 7: return (dwords[0] & 0xC000) != 0;                                               /* some post-sync */
    case 9: return (dwords[i - 1] & 1) != 0;                                                /* the base's own modify bit */
    case 10: return !(dwords[i - 2] & 0x2000) && (dwords[i - 2] & 0x4000) && dwords[i + 1]; /* not null, an address given, a size */
    case 12: return dwords[i + 1] != 0;                                                     /* a size */
    default: return 1;                                                                      /* rows 2, 4, 5 and 6 */
    }
}

/* Number 10 for the dwords behind the header. No other mask of the table is that of a high dword. */
static int has_bad_bit(uint32_t row, const uint32_t *dwords, size_t count)
{
    for (size_t i = 0; i < count; i++) {
        uint32_t mask = lines[row].dwords[i % lines[row].group];
        if (mask == HIGH && used(row, dwords, i)) continue;
        if (dwords[i] & ~mask) return 1;
    }
    return 0;
}

static struct lungevati_answer answer(uint32_t reason, uint32_t count) { return (struct lungevati_answer){reason, 0, 0, count}; }

struct lungevati_answer other_write(uint32_t row, uint32_t free_bits, const uint32_t *dwords, size_t dwords_len,
                                    uint32_t *batch, size_t batch_len, size_t first)
{
    if (row >= LINES) return answer(UNKNOWN, 0);
    if (!has_count(row, free_bits, dwords_len)) return answer(COUNT, 0);
    if (free_bits & ~lines[row].open) return answer(BITS, 0);
    if (has_bad_bit(row, dwords, dwords_len)) return answer(BITS, 0);
    if (first >= batch_len || batch_len - first <= dwords_len) return answer(ROOM, 0); /* by differences: no sum that could wrap */

    batch[first] = lines[row].header | free_bits | (lines[row].field ? (uint32_t)dwords_len - 1 : 0);
    for (size_t i = 0; i < dwords_len; i++) batch[first + 1 + i] = dwords[i];
    return answer(0, 1);
}
