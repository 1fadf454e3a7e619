/*
 * The second opinion: document 01 in plain C, written from that document (and our readings of it) alone, by someone who had
 * not seen the proved code. It is unproved, and as fast as we could make it without losing its readability: one pass over
 * each command, tables that stand in the program, nothing allocated.
 *
 * Within one command the lower number goes first and then the lower dword. What is found of a command is therefore a single
 * number: a fault is its reason above its place, a good command is more than any fault, and where a pass over groups finds
 * several things the least of them counts.
 */
#include "checker.h"

enum { /* document 01's refusal numbers */
    COUNTS = 1, MISALIGNED, TOO_HIGH, SHARED, ENDLESS, RUN_OUT, UNKNOWN, LENGTH, PAST_END, BITS, NESTED, VALUE, RANGE,
    BASELESS, NOWHERE, STRUCTURE_BITS, STRUCTURE_VALUE, FULL, FILE_SIZE, FILE_SHAPE, TOO_SHORT
};

enum { /* the table's rows */
    NOOP, BATCH_END, BATCH_START, LOAD_IMM, STORE_IMM, STORE_REG, LOAD_REG, PIPE_CONTROL, PIPELINE_SELECT, BASE_ADDRESS,
    VERTEX_BUFFERS, VERTEX_ELEMENTS, INDEX_BUFFER, TOPOLOGY, VIEWPORT, COLOUR_CALC, PRIMITIVE, BLEND, NO_ROW
};

/* The dwords of a window: lent to a check, and in a capture file, which has kept its limit. */
enum { WINDOW_LIMIT = 65536, FILE_WINDOW_LIMIT = 4096 };
enum { BUDGET = 65536, TRAILER = 40, FILE_LIMIT = TRAILER + 4 * 2 * FILE_WINDOW_LIMIT };
enum { RECORD = 2, LEVEL_1 = 1 << 16 }; /* words of a record, and the level in the first of them */

static const uint64_t TOP = (uint64_t)1 << 48;
static const uint64_t NEVER_SET = 1; /* no dynamic base: a base has its low twelve bits zero */

/* Rows are called, not copied into the walk: or it has too many variables to keep them in registers. */
#define APART __attribute__((noinline))

struct windows {
    const uint32_t *batch, *batch_end, *state;
    uint64_t batch_at, batch_bytes, state_at, state_bytes, scratch_at, scratch_bytes;
};

/* ---- What is found ---- */

/*
 * What is found of a command, in one number: a good one's row and length, as its record has them, with bit 31 set; or a fault,
 * reason << 18 | window << 17 | index, an index being at most 65,536.
 */
typedef uint32_t verdict;
enum { IN_STATE = 1 << 17 };
static const verdict GOOD = 0x80000000;

static inline verdict good(uint32_t row, uint32_t length) { return GOOD | row << 24 | length << 16; }
static inline verdict fault(uint32_t reason, uint64_t place) { return reason << 18 | (uint32_t)place; }
static inline int is_fault(verdict v) { return v < GOOD; }
static inline verdict least(verdict a, verdict b) { return a < b ? a : b; }

/* A fault at a dword of the batch. */
static inline verdict broken(const struct windows *w, uint32_t reason, const uint32_t *dword)
{
    return fault(reason, (uint64_t)(dword - w->batch));
}

/* ---- Addresses and ranges ---- */

/*
 * An address is the lower 48 bits of its two dwords. If it is used, the bits above repeat bit 47, or it is number 12 at the high dword, which
 * number 10 does not look at then. If it is not, they are clear, or it is number 10.
 */
static inline uint64_t address_of(const uint32_t *low) { return ((uint64_t)low[1] << 32 | low[0]) & (TOP - 1); }
static inline int canonical(uint32_t high) { return high <= 0x7FFF || high >= 0xFFFF8000; }
static inline int clear_above(uint32_t high) { return high <= 0xFFFF; }

/* All of size > 0 bytes from `address` lie in the window. Below the window the difference wraps, far past any length. */
static inline int inside(uint64_t at, uint64_t bytes, uint64_t address, uint64_t size)
{
    uint64_t offset = address - at;
    return offset < bytes && size <= bytes - offset;
}

static inline int in_batch(const struct windows *w, uint64_t address, uint64_t size)
{
    return inside(w->batch_at, w->batch_bytes, address, size);
}

static inline int in_state(const struct windows *w, uint64_t address, uint64_t size)
{
    return inside(w->state_at, w->state_bytes, address, size);
}

static inline int in_scratch(const struct windows *w, uint64_t address, uint64_t size)
{
    return inside(w->scratch_at, w->scratch_bytes, address, size);
}

static inline int in_any(const struct windows *w, uint64_t address, uint64_t size)
{
    return in_batch(w, address, size) || in_state(w, address, size) || in_scratch(w, address, size);
}

/* ---- What is known of a command's head and of its bits ---- */

static inline uint32_t row_of(uint32_t header)
{
    switch (header >> 23) { /* type 0: by bits 28:23 */
    case 0x00000000 >> 23: return NOOP;
    case 0x05000000 >> 23: return BATCH_END;
    case 0x18800000 >> 23: return BATCH_START;
    case 0x11000000 >> 23: return LOAD_IMM;
    case 0x10000000 >> 23: return STORE_IMM;
    case 0x12000000 >> 23: return STORE_REG;
    case 0x14800000 >> 23: return LOAD_REG;
    }
    switch (header >> 16) { /* type 3: by bits 31:16 */
    case 0x7A00: return PIPE_CONTROL;
    case 0x6904: return PIPELINE_SELECT;
    case 0x6101: return BASE_ADDRESS;
    case 0x7808: return VERTEX_BUFFERS;
    case 0x7809: return VERTEX_ELEMENTS;
    case 0x780A: return INDEX_BUFFER;
    case 0x784B: return TOPOLOGY;
    case 0x7823: return VIEWPORT;
    case 0x780E: return COLOUR_CALC;
    case 0x7B00: return PRIMITIVE;
    case 0x7824: return BLEND;
    }
    return NO_ROW;
}

/*
 * A command of one length: its header with its field, the header's free bits, and the bits allowed in dwords 1 onward. The high dword of an
 * address that may be used is left to its row.
 */
struct shape {
    uint32_t row, header, open, bits[16];
};

#define HIGH 0xFFFFFFFF
static const struct shape start_shape = {BATCH_START, 0x18800001, 0x00400100, {0, 0xFFFFFFFC, HIGH}};
static const struct shape store_4_shape = {STORE_IMM, 0x10000002, 0, {0, 0xFFFFFFFC, HIGH, 0xFFFFFFFF}};
static const struct shape store_8_shape = {STORE_IMM, 0x10200003, 0, {0, 0xFFFFFFFC, HIGH, 0xFFFFFFFF, 0xFFFFFFFF}};
static const struct shape store_reg_shape = {STORE_REG, 0x12000002, 0, {0, 0x007FFFFC, 0xFFFFFFFC, HIGH}};
static const struct shape load_reg_shape = {LOAD_REG, 0x14800002, 0, {0, 0x007FFFFC, 0xFFFFFFFC, HIGH}};
static const struct shape pipe_control_shape = {
    PIPE_CONTROL, 0x7A000004, 0, {0, 0x0010FCBF, 0xFFFFFFFC, HIGH, 0xFFFFFFFF, 0xFFFFFFFF}};
static const struct shape base_address_shape = {
    BASE_ADDRESS, 0x6101000E, 0,
    {0, 0xFFFFF7F1, HIGH, 0x007F0000, 0xFFFFF7F1, HIGH, 0xFFFFF7F1, HIGH, 0xFFFFF7F1, HIGH, 0xFFFFF7F1, HIGH,
     0xFFFFF001, 0xFFFFF001, 0xFFFFF001, 0xFFFFF001}};
static const struct shape index_buffer_shape = {INDEX_BUFFER, 0x780A0003, 0, {0, 0x37F, 0xFFFFFFFF, HIGH, 0xFFFFFFFF}};
static const struct shape topology_shape = {TOPOLOGY, 0x784B0000, 0, {0, 0x3F}};
static const struct shape viewport_shape = {VIEWPORT, 0x78230000, 0, {0, 0xFFFFFFE0}};
static const struct shape colour_calc_shape = {COLOUR_CALC, 0x780E0000, 0, {0, 0xFFFFFFC1}};
static const struct shape primitive_shape = {
    PRIMITIVE, 0x7B000005, 0x700, {0, 0x33F, 0xFFFFFFFF, 0xFFFFFFFF, 0xFFFFFFFF, 0xFFFFFFFF, 0xFFFFFFFF}};
static const struct shape blend_shape = {BLEND, 0x78240000, 0, {0, 0xFFFFFFC1}};

static inline uint32_t length_of(uint32_t header) { return (header & 0xFF) + 2; }

/* The batch has fewer than `length` dwords from here on. */
static inline int too_long(const struct windows *w, const uint32_t *cmd, uint32_t length)
{
    return w->batch_end - cmd < (long)length;
}

/* Which of 8, 9 and 10 it is that a command breaks, once it is known to break one. */
static APART verdict why_not(const struct shape *s, const struct windows *w, const uint32_t *cmd)
{
    uint32_t i = 1;
    if ((cmd[0] & 0xFF) != (s->header & 0xFF)) return broken(w, LENGTH, cmd);
    if (too_long(w, cmd, length_of(s->header))) return broken(w, PAST_END, cmd);
    if ((cmd[0] & ~s->open) != s->header) return broken(w, BITS, cmd);
    while ((cmd[i] & ~s->bits[i]) == 0) i++;
    return broken(w, BITS, cmd + i);
}

/* Numbers 8, 9 and 10 for a command of one length: it keeps them all. */
static inline int shaped(const struct shape *s, const struct windows *w, const uint32_t *cmd)
{
    uint32_t length = length_of(s->header), outside = (cmd[0] & ~s->open) ^ s->header;
    if (too_long(w, cmd, length)) return 0;
    for (uint32_t i = 1; i < length; i++) outside |= cmd[i] & ~s->bits[i];
    return outside == 0;
}

static inline verdict good_shape(const struct shape *s) { return good(s->row, length_of(s->header)); }

/* The same for the head of a command of groups: its field is a multiple of `group`, less 1, and at most `most`. */
static inline verdict grouped(uint32_t row, uint32_t key, uint32_t group, uint32_t most, const struct windows *w,
                              const uint32_t *cmd)
{
    uint32_t field = cmd[0] & 0xFF;
    if (field % group != group - 1 || field > most) return broken(w, LENGTH, cmd);
    if (too_long(w, cmd, field + 2)) return broken(w, PAST_END, cmd);
    return (cmd[0] ^ field) == key ? good(row, field + 2) : broken(w, BITS, cmd);
}

/* And for a command that is its header alone, whose bits 7:0 are no field. */
static inline verdict single(uint32_t row, uint32_t outside, uint64_t at)
{
    return outside ? fault(BITS, at) : good(row, 1);
}

/* ---- Codes ---- */

/* Bits per element by code, 0 where document 000 lists none. Made by compare/formats. */
static const unsigned short format_bits[512] = {
    /* 000 */ 128, 128, 128, 128, 128, 128, 128, 128, 128, 0, 0, 0, 0, 0, 0, 0,
    /* 010 */ 0, 0, 0, 0, 0, 0, 0, 0, 0, 0, 0, 0, 0, 0, 0, 0,
    /* 020 */ 128, 128, 0, 0, 0, 0, 0, 0, 0, 0, 0, 0, 0, 0, 0, 0,
    /* 030 */ 0, 0, 0, 0, 0, 0, 0, 0, 0, 0, 0, 0, 0, 0, 0, 0,
    /* 040 */ 96, 96, 96, 96, 96, 96, 96, 0, 0, 0, 0, 0, 0, 0, 0, 0,
    /* 050 */ 96, 0, 0, 0, 0, 0, 0, 0, 0, 0, 0, 0, 0, 0, 0, 0,
    /* 060 */ 0, 0, 0, 0, 0, 0, 0, 0, 0, 0, 0, 0, 0, 0, 0, 0,
    /* 070 */ 0, 0, 0, 0, 0, 0, 0, 0, 0, 0, 0, 0, 0, 0, 0, 0,
    /* 080 */ 64, 64, 64, 64, 64, 64, 64, 64, 64, 64, 64, 64, 64, 64, 64, 64,
    /* 090 */ 64, 64, 64, 64, 64, 64, 64, 0, 0, 0, 0, 0, 0, 0, 0, 0,
    /* 0A0 */ 64, 64, 0, 0, 0, 0, 0, 0, 0, 0, 0, 0, 0, 0, 0, 0,
    /* 0B0 */ 0, 0, 0, 0, 0, 0, 0, 0, 0, 0, 0, 0, 0, 0, 0, 0,
    /* 0C0 */ 32, 32, 32, 32, 32, 32, 0, 32, 32, 32, 32, 32, 32, 32, 32, 32,
    /* 0D0 */ 32, 32, 32, 32, 0, 0, 32, 32, 32, 32, 32, 0, 0, 32, 32, 32,
    /* 0E0 */ 32, 32, 32, 32, 32, 32, 32, 32, 32, 32, 32, 32, 32, 32, 32, 0,
    /* 0F0 */ 32, 32, 32, 32, 32, 32, 32, 32, 32, 32, 0, 0, 0, 0, 0, 0,
    /* 100 */ 16, 16, 16, 16, 16, 16, 16, 16, 16, 16, 16, 16, 16, 16, 16, 16,
    /* 110 */ 16, 16, 16, 16, 16, 16, 16, 16, 16, 16, 16, 16, 16, 16, 16, 16,
    /* 120 */ 0, 0, 16, 16, 16, 16, 16, 16, 0, 0, 0, 0, 0, 0, 0, 0,
    /* 130 */ 0, 0, 0, 0, 0, 0, 0, 0, 0, 0, 0, 0, 0, 0, 0, 0,
    /* 140 */ 8, 8, 8, 8, 8, 8, 8, 8, 8, 8, 8, 8, 8, 8, 8, 8,
    /* 150 */ 8, 0, 8, 8, 8, 8, 0, 0, 0, 0, 0, 0, 0, 0, 0, 0,
    /* 160 */ 0, 0, 0, 0, 0, 0, 0, 0, 0, 0, 0, 0, 0, 0, 0, 0,
    /* 170 */ 0, 0, 0, 0, 0, 0, 0, 0, 0, 0, 0, 0, 0, 0, 0, 0,
    /* 180 */ 0, 1, 0, 0, 2, 2, 0, 0, 0, 0, 0, 0, 0, 0, 1, 0,
    /* 190 */ 0, 0, 0, 24, 24, 24, 24, 256, 192, 0, 0, 48, 48, 48, 48, 48,
    /* 1A0 */ 0, 0, 0, 0, 0, 0, 0, 0, 24, 0, 0, 0, 0, 0, 0, 0,
    /* 1B0 */ 48, 48, 32, 32, 32, 32, 32, 32, 32, 32, 32, 32, 256, 192, 0, 0,
    /* 1C0 */ 0, 0, 0, 0, 0, 0, 0, 0, 24, 24, 0, 0, 0, 0, 0, 0,
    /* 1D0 */ 0, 0, 0, 0, 0, 0, 0, 0, 0, 0, 0, 0, 0, 0, 0, 0,
    /* 1E0 */ 0, 0, 0, 0, 0, 0, 0, 0, 0, 0, 0, 0, 0, 0, 0, 0,
    /* 1F0 */ 0, 0, 0, 0, 0, 0, 0, 0, 0, 0, 0, 0, 0, 0, 0, 0,
};

/* 2400h to 2440h as bits, a dword each; then a whole block. */
static inline int register_known(uint32_t offset)
{
    uint32_t low = offset - 0x2400, high = offset - 0x2600;
    if (offset % 4 != 0) return 0;
    return (low <= 0x40 && (0x1F10Fu >> low / 4 & 1)) || high <= 0x7C;
}

static inline int topology_known(uint32_t code) { return 0xFFFFFFFF005FFFFE >> code & 1; }

/*
 * Four component controls, a nibble each from bit 31 down: each at most 4, the first not 0, and after a 0 only 0. Adding 3
 * carries 5, 6 and 7 into a nibble's top bit, and adding 7 all but 0; the mask has kept these top bits clear.
 */
static inline int components_good(uint32_t dword)
{
    uint32_t over = dword + 0x33330000, used = dword + 0x77770000;
    uint32_t gap = used << 4 & ~used; /* used, but not the one before it */
    return ((over | gap | (~used & 0x80000000)) & 0x88880000) == 0;
}

static inline int element_good(uint32_t dword)
{
    return dword >> 26 <= 32 && format_bits[dword >> 16 & 0x1FF] > 0;
}

static inline int buffer_good(uint32_t dword) { return dword >> 26 <= 32 && (dword & 0xFFF) <= 2048; }

/* Codes 01h to 0Ah, 11h to 15h and 17h to 1Ah, as bits. */
static inline int factor_named(uint32_t code) { return 0x07BE07FE >> code & 1; }

static inline int function_named(uint32_t code) { return code <= 4; }

/* A blend entry's first dword: with blending on (bit 31), its factors and functions, colour before alpha, have names. */
static inline int entry_good(uint32_t dword)
{
    if (dword >> 31 == 0) return 1;
    return factor_named(dword >> 26 & 31) && factor_named(dword >> 21 & 31) && function_named(dword >> 18 & 7) &&
           factor_named(dword >> 13 & 31) && factor_named(dword >> 8 & 31) && function_named(dword >> 5 & 7);
}

/* ---- Rows: numbers 8 to 13 ---- */

static APART verdict batch_start(const struct windows *w, uint32_t level, const uint32_t *cmd)
{
    const struct shape *s = &start_shape;
    if (!shaped(s, w, cmd)) return why_not(s, w, cmd);
    if (level != 0) return broken(w, NESTED, cmd);
    if ((cmd[0] & 0x100) == 0) return broken(w, VALUE, cmd);
    if (!canonical(cmd[2])) return broken(w, VALUE, cmd + 2);
    if (!in_batch(w, address_of(cmd + 1), 4)) return broken(w, RANGE, cmd + 1);
    return good_shape(s);
}

static APART verdict load_imm(const struct windows *w, const uint32_t *cmd)
{
    verdict v = grouped(LOAD_IMM, 0x11000000, 2, 127, w, cmd);
    if (is_fault(v)) return v;
    for (const uint32_t *pair = cmd + 1, *end = cmd + length_of(cmd[0]); pair < end; pair += 2) {
        if (pair[0] & ~0x007FFFFCu) return broken(w, BITS, pair);
        if (!register_known(pair[0])) v = least(v, broken(w, VALUE, pair));
    }
    return v;
}

static inline verdict store_bytes(const struct shape *s, uint32_t bytes, const struct windows *w, const uint32_t *cmd)
{
    if (!shaped(s, w, cmd)) return why_not(s, w, cmd);
    if (cmd[1] % bytes != 0) return broken(w, VALUE, cmd + 1); /* for four, the mask has seen to it */
    if (!canonical(cmd[2])) return broken(w, VALUE, cmd + 2);
    if (!in_scratch(w, address_of(cmd + 1), bytes)) return broken(w, RANGE, cmd + 1);
    return good_shape(s);
}

/* Bit 21 says which of the two lengths it must have. */
static APART verdict store_imm(const struct windows *w, const uint32_t *cmd)
{
    return cmd[0] & 0x00200000 ? store_bytes(&store_8_shape, 8, w, cmd) : store_bytes(&store_4_shape, 4, w, cmd);
}

static APART verdict store_reg(const struct windows *w, const uint32_t *cmd)
{
    const struct shape *s = &store_reg_shape;
    if (!shaped(s, w, cmd)) return why_not(s, w, cmd);
    if (!register_known(cmd[1])) return broken(w, VALUE, cmd + 1);
    if (!canonical(cmd[3])) return broken(w, VALUE, cmd + 3);
    if (!in_scratch(w, address_of(cmd + 2), 4)) return broken(w, RANGE, cmd + 2);
    return good_shape(s);
}

static APART verdict load_reg(const struct windows *w, const uint32_t *cmd)
{
    const struct shape *s = &load_reg_shape;
    if (!shaped(s, w, cmd)) return why_not(s, w, cmd);
    if (!register_known(cmd[1])) return broken(w, VALUE, cmd + 1);
    if (!canonical(cmd[3])) return broken(w, VALUE, cmd + 3);
    if (!in_any(w, address_of(cmd + 2), 4)) return broken(w, RANGE, cmd + 2);
    return good_shape(s);
}

static APART verdict pipe_control(const struct windows *w, const uint32_t *cmd)
{
    const struct shape *s = &pipe_control_shape;
    if (!shaped(s, w, cmd)) return why_not(s, w, cmd);
    if ((cmd[1] >> 14 & 3) == 0) { /* no post-sync: the dwords that it would use are zero */
        if (!clear_above(cmd[3])) return broken(w, BITS, cmd + 3);
        for (uint32_t i = 2; i < 6; i++)
            if (cmd[i] != 0) return broken(w, VALUE, cmd + i);
        return good_shape(s);
    }
    if (cmd[2] % 8 != 0) return broken(w, VALUE, cmd + 2);
    if (!canonical(cmd[3])) return broken(w, VALUE, cmd + 3);
    if (!in_scratch(w, address_of(cmd + 2), 8)) return broken(w, RANGE, cmd + 2);
    return good_shape(s);
}

/* Each of the five bases is used if bit 0 of its low dword is set. Behind their high dwords stand others that may have faults, too. */
static APART verdict base_address(const struct windows *w, const uint32_t *cmd)
{
    static const uint8_t bases[] = {1, 4, 6, 8, 10};
    const struct shape *s = &base_address_shape;
    verdict v = shaped(s, w, cmd) ? good_shape(s) : why_not(s, w, cmd);
    if (v < fault(BITS, 0)) return v; /* not all of it need be there */
    for (uint32_t i = 0; i < 5; i++) {
        const uint32_t *low = cmd + bases[i];
        int used = low[0] & 1;
        if (used && !canonical(low[1])) v = least(v, broken(w, VALUE, low + 1));
        if (!used && !clear_above(low[1])) v = least(v, broken(w, BITS, low + 1));
    }
    return v;
}

/* With bit 13 clear, bit 14 set and any bytes at all. */
static inline int buffer_used(const uint32_t *group) { return (group[0] & 0x6000) == 0x4000 && group[3] != 0; }

static APART verdict vertex_buffers(const struct windows *w, const uint32_t *cmd)
{
    verdict v = grouped(VERTEX_BUFFERS, 0x78080000, 4, 131, w, cmd);
    if (is_fault(v)) return v;
    for (const uint32_t *group = cmd + 1, *end = cmd + length_of(cmd[0]); group < end; group += 4) {
        if (group[0] & ~0xFC7F6FFFu) return broken(w, BITS, group);
        if (!buffer_good(group[0])) v = least(v, broken(w, VALUE, group));
        if (!buffer_used(group)) {
            if (!clear_above(group[2])) return broken(w, BITS, group + 2);
            continue;
        }
        if (!canonical(group[2])) v = least(v, broken(w, VALUE, group + 2));
        if (!in_any(w, address_of(group + 1), group[3])) v = least(v, broken(w, RANGE, group + 1));
    }
    return v;
}

static APART verdict vertex_elements(const struct windows *w, const uint32_t *cmd)
{
    verdict v = grouped(VERTEX_ELEMENTS, 0x78090000, 2, 67, w, cmd);
    if (is_fault(v)) return v;
    for (const uint32_t *group = cmd + 1, *end = cmd + length_of(cmd[0]); group < end; group += 2) {
        if (group[0] & ~0xFFFF8FFFu) return broken(w, BITS, group);
        if (group[1] & ~0x77770000u) return broken(w, BITS, group + 1);
        if (!element_good(group[0])) v = least(v, broken(w, VALUE, group));
        if (!components_good(group[1])) v = least(v, broken(w, VALUE, group + 1));
    }
    return v;
}

static APART verdict index_buffer(const struct windows *w, const uint32_t *cmd)
{
    const struct shape *s = &index_buffer_shape;
    if (!shaped(s, w, cmd)) return why_not(s, w, cmd);
    int used = cmd[4] != 0;
    if (!used && !clear_above(cmd[3])) return broken(w, BITS, cmd + 3);
    if ((cmd[1] >> 8 & 3) == 3) return broken(w, VALUE, cmd + 1);
    if (used && !canonical(cmd[3])) return broken(w, VALUE, cmd + 3);
    if (used && !in_any(w, address_of(cmd + 2), cmd[4])) return broken(w, RANGE, cmd + 2);
    return good_shape(s);
}

static APART verdict topology(const struct windows *w, const uint32_t *cmd)
{
    const struct shape *s = &topology_shape;
    if (!shaped(s, w, cmd)) return why_not(s, w, cmd);
    return topology_known(cmd[1]) ? good_shape(s) : broken(w, VALUE, cmd + 1);
}

static APART verdict primitive(const struct windows *w, const uint32_t *cmd)
{
    const struct shape *s = &primitive_shape;
    if (!shaped(s, w, cmd)) return why_not(s, w, cmd);
    if ((cmd[1] & 0x200) == 0) return good_shape(s);
    if ((cmd[0] & 0x400) || (cmd[1] & 0x100)) return broken(w, VALUE, cmd + 1);
    if (cmd[3] != 0) return broken(w, VALUE, cmd + 3);
    if (cmd[5] != 0) return broken(w, VALUE, cmd + 5);
    if (cmd[6] != 0) return broken(w, VALUE, cmd + 6);
    return good_shape(s);
}

/* ---- Structures: numbers 14 to 17 ---- */

struct part {
    const uint32_t *words; /* null: in neither lent window */
    uint64_t place;        /* of the first word, as a fault has it */
};

static inline struct part lookup(const struct windows *w, uint64_t address, uint64_t size)
{
    if (in_batch(w, address, size)) {
        uint64_t i = (address - w->batch_at) / 4;
        return (struct part){w->batch + i, i};
    }
    if (in_state(w, address, size)) {
        uint64_t i = (address - w->state_at) / 4;
        return (struct part){w->state + i, IN_STATE | i};
    }
    return (struct part){0, 0};
}

static inline int is_nan(uint32_t bits) { return (bits & 0x7FFFFFFF) > 0x7F800000; }

static inline float as_float(uint32_t bits)
{
    union { uint32_t bits; float value; } both = {bits};
    return both.value;
}

static APART verdict viewport(const struct windows *w, uint64_t base, const uint32_t *cmd)
{
    const struct shape *s = &viewport_shape;
    if (!shaped(s, w, cmd)) return why_not(s, w, cmd);
    if (base == NEVER_SET) return broken(w, BASELESS, cmd + 1);
    struct part p = lookup(w, base + cmd[1], 2 * 4);
    if (!p.words) return broken(w, NOWHERE, cmd + 1);
    if (is_nan(p.words[0])) return fault(STRUCTURE_VALUE, p.place);
    if (is_nan(p.words[1])) return fault(STRUCTURE_VALUE, p.place + 1);
    return as_float(p.words[0]) > as_float(p.words[1]) ? fault(STRUCTURE_VALUE, p.place + 1) : good_shape(s);
}

static APART verdict colour_calc(const struct windows *w, uint64_t base, const uint32_t *cmd)
{
    const struct shape *s = &colour_calc_shape;
    if (!shaped(s, w, cmd)) return why_not(s, w, cmd);
    if ((cmd[1] & 1) == 0) return good_shape(s);
    if (base == NEVER_SET) return broken(w, BASELESS, cmd + 1);
    struct part p = lookup(w, base + (cmd[1] & ~63u), 6 * 4);
    if (!p.words) return broken(w, NOWHERE, cmd + 1);
    if (p.words[0] & ~0xFFFF8001u) return fault(STRUCTURE_BITS, p.place);
    for (uint32_t i = 2; i < 6; i++)
        if (is_nan(p.words[i])) return fault(STRUCTURE_VALUE, p.place + i);
    return good_shape(s);
}

/* A leading dword and eight entries of two. */
static APART verdict blend(const struct windows *w, uint64_t base, const uint32_t *cmd)
{
    const struct shape *s = &blend_shape;
    if (!shaped(s, w, cmd)) return why_not(s, w, cmd);
    if ((cmd[1] & 1) == 0) return good_shape(s);
    if (base == NEVER_SET) return broken(w, BASELESS, cmd + 1);
    struct part p = lookup(w, base + (cmd[1] & ~63u), 17 * 4);
    if (!p.words) return broken(w, NOWHERE, cmd + 1);
    verdict v = good_shape(s);
    if (p.words[0] & ~0xFFF80000u) return fault(STRUCTURE_BITS, p.place);
    for (uint32_t i = 1; i < 17; i += 2) {
        if (p.words[i] & ~0xFFFFFFEFu) return fault(STRUCTURE_BITS, p.place + i);
        if (p.words[i + 1] & ~0xF800001Fu) return fault(STRUCTURE_BITS, p.place + i + 1);
        if (!entry_good(p.words[i])) v = least(v, fault(STRUCTURE_VALUE, p.place + i));
    }
    return v;
}

/* ---- The walk ---- */

static inline struct lungevati_answer answer(verdict fault_or_0, uint64_t count)
{
    return (struct lungevati_answer){fault_or_0 >> 18, (fault_or_0 & IN_STATE) != 0, fault_or_0 & 0x1FFFF, (uint32_t)count};
}

/* Records a good command if there is room. `place` is the first word of its record; a good verdict has the second. */
static inline int recorded(verdict v, uint32_t place, uint32_t **out, const uint32_t *full)
{
    if (is_fault(v) || *out == full) return 0;
    (*out)[0] = place;
    (*out)[1] = v ^ GOOD;
    *out += RECORD;
    return 1;
}

static inline uint64_t recorded_so_far(const uint32_t *records, const uint32_t *out) { return (uint64_t)(out - records) / RECORD; }

/*
 * Why a command was not recorded. The budget goes first: once it is spent, it does not matter what else is wrong with the
 * command that would come next. The room goes last: a good command was only short of that.
 */
static APART struct lungevati_answer refused(verdict v, uint64_t at, const uint32_t *records, const uint32_t *out)
{
    uint64_t count = recorded_so_far(records, out);
    if (count == BUDGET) return answer(fault(ENDLESS, at), count);
    return answer(is_fault(v) ? v : fault(FULL, at), count);
}

/* The last command of a run, at level 0. */
static APART struct lungevati_answer finish(uint32_t header, uint64_t at, uint32_t *records, uint32_t *out,
                                            const uint32_t *full)
{
    verdict v = single(BATCH_END, header ^ 0x05000000, at);
    if (!recorded(v, (uint32_t)at, &out, full)) return refused(v, at, records, out);
    return answer(0, recorded_so_far(records, out));
}

/* The rows that do nothing but go on by their length. */
static inline verdict plain_row(uint32_t row, const struct windows *w, uint64_t base, const uint32_t *cmd, uint64_t at)
{
    switch (row) {
    case NOOP: return single(NOOP, cmd[0] & ~0x003FFFFFu, at);
    case LOAD_IMM: return load_imm(w, cmd);
    case STORE_IMM: return store_imm(w, cmd);
    case STORE_REG: return store_reg(w, cmd);
    case LOAD_REG: return load_reg(w, cmd);
    case PIPE_CONTROL: return pipe_control(w, cmd);
    case PIPELINE_SELECT: return single(PIPELINE_SELECT, cmd[0] ^ 0x69040000, at);
    case VERTEX_BUFFERS: return vertex_buffers(w, cmd);
    case VERTEX_ELEMENTS: return vertex_elements(w, cmd);
    case INDEX_BUFFER: return index_buffer(w, cmd);
    case TOPOLOGY: return topology(w, cmd);
    case VIEWPORT: return viewport(w, base, cmd);
    case COLOUR_CALC: return colour_calc(w, base, cmd);
    case PRIMITIVE: return primitive(w, cmd);
    case BLEND: return blend(w, base, cmd);
    default: return fault(UNKNOWN, at);
    }
}

static struct lungevati_answer walk(const struct windows *w, uint64_t base, uint32_t *records, size_t room)
{
    uint32_t *out = records, *full = records + RECORD * (room / RECORD < BUDGET ? room / RECORD : BUDGET);
    uint64_t at = 0, kept = 0, batch_count = (uint64_t)(w->batch_end - w->batch);
    uint32_t level = 0; /* as a record has it */

    for (;;) {
        if (at == batch_count) return refused(fault(RUN_OUT, at), at, records, out);
        const uint32_t *cmd = w->batch + at;
        uint32_t header = cmd[0], row = row_of(header);
        verdict v;
        switch (row) {
        case BATCH_END:
            if (level == 0) return finish(header, at, records, out, full);
            v = single(BATCH_END, header ^ 0x05000000, at);
            if (!recorded(v, level | (uint32_t)at, &out, full)) return refused(v, at, records, out);
            at = kept, level = 0;
            continue;
        case BATCH_START:
            v = batch_start(w, level, cmd);
            if (!recorded(v, level | (uint32_t)at, &out, full)) return refused(v, at, records, out);
            if (header & 0x00400000) kept = at + 3, level = LEVEL_1;
            at = (cmd[1] - (uint32_t)w->batch_at) / 4; /* it lies in the batch, so that the low dwords say where */
            continue;
        case BASE_ADDRESS:
            v = base_address(w, cmd);
            if (!is_fault(v) && (cmd[6] & 1)) base = address_of(cmd + 6) & ~(uint64_t)0xFFF;
            break;
        default: v = plain_row(row, w, base, cmd, at);
        }
        if (!recorded(v, level | (uint32_t)at, &out, full)) return refused(v, at, records, out);
        at += v >> 16 & 0xFF;
    }
}

static int too_high(uint64_t at, uint64_t bytes) { return at > TOP || bytes > TOP - at; }

/* By then both end at or below 2^48, so no sum wraps. */
static int share(uint64_t a, uint64_t a_bytes, uint64_t b, uint64_t b_bytes)
{
    return a_bytes != 0 && b_bytes != 0 && a < b + b_bytes && b < a + a_bytes;
}

/* Numbers 2 to 4, each over all windows before the next. */
static uint32_t unsound(const struct windows *w)
{
    if ((w->batch_at | w->state_at | w->scratch_at) & 0xFFF) return MISALIGNED;
    if (too_high(w->batch_at, w->batch_bytes) || too_high(w->state_at, w->state_bytes) ||
        too_high(w->scratch_at, w->scratch_bytes))
        return TOO_HIGH;
    if (share(w->batch_at, w->batch_bytes, w->state_at, w->state_bytes) ||
        share(w->batch_at, w->batch_bytes, w->scratch_at, w->scratch_bytes) ||
        share(w->state_at, w->state_bytes, w->scratch_at, w->scratch_bytes))
        return SHARED;
    return 0;
}

static int counts_wrong(uint64_t batch, uint64_t state, uint64_t limit)
{
    return batch == 0 || batch > limit || state > limit;
}

/* The walk starts with the dynamic base that is given. */
static inline struct lungevati_answer check(const uint32_t *batch, size_t batch_len, uint64_t batch_at,
                                            const uint32_t *state, size_t state_len, uint64_t state_at,
                                            uint64_t scratch_at, uint32_t scratch_len,
                                            uint32_t *records, size_t records_len, uint64_t base)
{
    if (counts_wrong(batch_len, state_len, WINDOW_LIMIT)) return answer(fault(COUNTS, 0), 0);
    struct windows w = {batch, batch + batch_len, state, batch_at, 4 * batch_len,
                        state_at, 4 * state_len, scratch_at, scratch_len};
    uint32_t reason = unsound(&w);
    return reason ? answer(fault(reason, 0), 0) : walk(&w, base, records, records_len);
}

/* The state window's address, also where that window is empty, and then maybe 2^48. It has its low twelve bits zero, by number 2. */
struct lungevati_answer other_check(const uint32_t *batch, size_t batch_len, uint64_t batch_at,
                                    const uint32_t *state, size_t state_len, uint64_t state_at,
                                    uint64_t scratch_at, uint32_t scratch_len,
                                    uint32_t *records, size_t records_len)
{
    return check(batch, batch_len, batch_at, state, state_len, state_at, scratch_at, scratch_len, records, records_len, state_at);
}

struct lungevati_answer other_check_no_base(const uint32_t *batch, size_t batch_len, uint64_t batch_at,
                                            const uint32_t *state, size_t state_len, uint64_t state_at,
                                            uint64_t scratch_at, uint32_t scratch_len,
                                            uint32_t *records, size_t records_len)
{
    return check(batch, batch_len, batch_at, state, state_len, state_at, scratch_at, scratch_len, records, records_len, NEVER_SET);
}

/* ---- The capture file ---- */

static inline uint32_t word_at(const uint8_t *byte)
{
    return byte[0] | (uint32_t)byte[1] << 8 | (uint32_t)byte[2] << 16 | (uint32_t)byte[3] << 24;
}

static inline uint64_t long_at(const uint8_t *byte) { return word_at(byte) | (uint64_t)word_at(byte + 4) << 32; }

static void fill(uint32_t *words, const uint8_t *bytes, uint32_t count)
{
    for (uint32_t i = 0; i < count; i++) words[i] = word_at(bytes + 4 * i);
}

/* Why the file is not read, or 0. The counts are summed in 64 bits: four times two 32-bit numbers does not fit in 32. */
static uint32_t unreadable(const struct lungevati_contents *c, uint32_t distance, size_t file_len, size_t batch_len,
                           size_t state_len)
{
    if (distance != file_len || distance != TRAILER + 4 * ((uint64_t)c->batch_count + c->state_count)) return FILE_SHAPE;
    if (counts_wrong(c->batch_count, c->state_count, FILE_WINDOW_LIMIT)) return COUNTS;
    if (batch_len < c->batch_count || state_len < c->state_count) return TOO_SHORT;
    return 0;
}

struct lungevati_contents other_read(const uint8_t *file, size_t file_len,
                                     uint32_t *batch, size_t batch_len,
                                     uint32_t *state, size_t state_len)
{
    struct lungevati_contents refused = {0}, c = {0};
    refused.reason = FILE_SIZE;
    if (file_len < TRAILER || file_len > FILE_LIMIT) return refused;

    const uint8_t *trailer = file + file_len - TRAILER;
    c.batch_at = long_at(trailer);
    c.state_at = long_at(trailer + 8);
    c.scratch_at = long_at(trailer + 16);
    c.scratch_len = word_at(trailer + 24);
    c.batch_count = word_at(trailer + 28);
    c.state_count = word_at(trailer + 32);
    refused.reason = unreadable(&c, word_at(trailer + 36), file_len, batch_len, state_len);
    if (refused.reason) return refused;

    fill(batch, file, c.batch_count);
    fill(state, file + 4 * c.batch_count, c.state_count);
    return c;
}
