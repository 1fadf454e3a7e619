/*
 * A second checker in C, written for speed alone: what the rules cost at the least, as far as we know. It is unproved, is held to the
 * same answers as all the others (compare/run), and is measured beside them (bench/run). checker.c is the one to be read.
 *
 * A command is looked at twice at most. The quick look knows only commands that are good, and among them the usual: one jump by the
 * sum of the header's upper bytes, the header compared as a whole, masks, values and ranges of several dwords in one test, and
 * no-ops, pairs and elements several at a time. What it does not know it leaves to the careful look, which goes through the numbers
 * 6 to 17 in their order, by a table, and finds the fault, or that there is none.
 */
#include "checker.h"

enum { /* the refusal numbers */
    COUNTS = 1, MISALIGNED, TOO_HIGH, SHARED, ENDLESS, RUN_OUT, UNKNOWN, LENGTH, PAST_END, BITS, NESTED, VALUE, RANGE,
    BASELESS, NOWHERE, STRUCTURE_BITS, STRUCTURE_VALUE, FULL
};

enum { /* the table's rows */
    NOOP, BATCH_END, BATCH_START, LOAD_IMM, STORE_IMM, STORE_REG, LOAD_REG, PIPE_CONTROL, PIPELINE_SELECT, BASE_ADDRESS,
    VERTEX_BUFFERS, VERTEX_ELEMENTS, INDEX_BUFFER, TOPOLOGY, VIEWPORT, COLOUR_CALC, PRIMITIVE, BLEND, ROWS
};

enum { LIMIT = 65536, BUDGET = 65536, LEVEL_1 = 1 << 16, RECORD = 2 };

static const uint64_t TOP = (uint64_t)1 << 48;
static const uint64_t NEVER_SET = (uint64_t)1 << 63; /* no base: no window reaches so far, and no sum with a pointer wraps */

#define QUICK static inline __attribute__((always_inline))
#define APART static __attribute__((noinline))
#define LIKELY(x) __builtin_expect(!!(x), 1)
#define RARELY(x) __builtin_expect(!!(x), 0)

struct window {
    uint64_t at, bytes, fours, eights; /* its length in bytes, and in whole words of four and of eight */
};

struct windows {
    const uint32_t *words[2]; /* of the batch and of the state window */
    uint64_t batch_count;
    struct window batch, state, scratch;
    const struct windows *plain; /* themselves, unless they are as the quick look takes them: see nearer */
};

/* Where a walk stands. */
struct place {
    uint64_t at, base;
    uint32_t level; /* as a record has it */
};

/* Four dwords at any address that a dword can have. */
typedef uint32_t lanes __attribute__((vector_size(16), aligned(4), may_alias));
typedef uint32_t four __attribute__((vector_size(16)));
typedef int signed_four __attribute__((vector_size(16)));
typedef short eight __attribute__((vector_size(16)));
typedef char sixteen __attribute__((vector_size(16)));
typedef uint64_t pair __attribute__((aligned(4), may_alias));

QUICK four load(const uint32_t *dwords) { return (four)*(const lanes *)dwords; }
QUICK void store(uint32_t *dwords, four words) { *(lanes *)dwords = (lanes)words; }
QUICK four same(uint32_t word) { return (four){word, word, word, word}; }
QUICK int all_ones(sixteen bytes) { return __builtin_ia32_pmovmskb128(bytes) == 0xFFFF; }
QUICK int all_zero(four words) { return all_ones((sixteen)(words == same(0))); }
QUICK uint64_t written(const uint32_t *low) { return *(const pair *)low; } /* an address as its two dwords are, all 64 bits */
QUICK uint64_t address_of(const uint32_t *low) { return written(low) & (TOP - 1); }
QUICK int canonical(uint32_t high) { return high + 0x8000 <= 0xFFFF; } /* at most 7FFFh, or at least FFFF8000h */

/* ---- Codes ---- */

static const uint8_t format_known[512] = {
    [0x000 ... 0x008] = 1, [0x020 ... 0x021] = 1, [0x040 ... 0x046] = 1, [0x050] = 1, [0x080 ... 0x096] = 1,
    [0x0A0 ... 0x0A1] = 1, [0x0C0 ... 0x0C5] = 1, [0x0C7 ... 0x0D3] = 1, [0x0D6 ... 0x0DA] = 1, [0x0DD ... 0x0EE] = 1,
    [0x0F0 ... 0x0F9] = 1, [0x100 ... 0x11F] = 1, [0x122 ... 0x127] = 1, [0x140 ... 0x150] = 1, [0x152 ... 0x155] = 1,
    [0x181] = 1, [0x184 ... 0x185] = 1, [0x18E] = 1, [0x193 ... 0x198] = 1, [0x19B ... 0x19F] = 1, [0x1A8] = 1,
    [0x1B0 ... 0x1BD] = 1, [0x1C8 ... 0x1C9] = 1,
};

/* By the number of dwords above 2400h: up to 2440h, and from 2600h to 267Ch. */
static const uint8_t register_known_at[160] = {[0 ... 3] = 1, [8] = 1, [12 ... 16] = 1, [128 ... 159] = 1};

static const uint64_t topologies_known = 0xFFFFFFFF005FFFFE;
static const uint32_t factors_named = 0x07BE07FE, functions_named = 0x1F;

/* With blending on, all six codes of an entry's first dword have their bit in these words. */
QUICK int entry_good(uint32_t word)
{
    uint32_t factors = factors_named >> (word >> 26 & 31) & factors_named >> (word >> 21 & 31) &
                       factors_named >> (word >> 13 & 31) & factors_named >> (word >> 8 & 31);
    return !(word >> 31) || (factors & functions_named >> (word >> 18 & 7) & functions_named >> (word >> 5 & 7) & 1);
}

QUICK uint32_t turned(uint32_t word, int by) { return word >> by | word << (32 - by); }
QUICK uint64_t turned_64(uint64_t word, int by) { return word >> by | word << (64 - by); }

/* What is no multiple of 4 is turned far past the table's end. */
QUICK int register_known(uint32_t offset)
{
    uint32_t n = turned(offset - 0x2400, 2);
    return n < 160 && register_known_at[n];
}

/* ---- The careful look ---- */

/* A good command's row and length, as its record has them, with bit 31 set; or a fault, reason << 18 | window << 17 | index. */
typedef uint32_t verdict;
enum { IN_STATE = 1 << 17 };
static const verdict GOOD = 0x80000000;

static verdict fault(uint32_t reason, uint64_t place) { return reason << 18 | (uint32_t)place; }

/* A row: what its header is known by and leaves free, its field from least to most in steps, a group's masks and their number. */
static const struct row {
    uint32_t key, open, has_field, least, most, step, group, masks[16];
} rows[ROWS] = {
    [NOOP] = {0, 0x003FFFFF, 0, 0, 0, 1, 1, {0}},
    [BATCH_END] = {0x05000000, 0, 0, 0, 0, 1, 1, {0}},
    [BATCH_START] = {0x18800000, 0x00400100, 1, 1, 1, 1, 2, {0xFFFFFFFC, 0xFFFF}},
    [LOAD_IMM] = {0x11000000, 0, 1, 1, 127, 2, 2, {0x007FFFFC, 0xFFFFFFFF}},
    [STORE_IMM] = {0x10000000, 0x00200000, 1, 2, 3, 1, 4, {0xFFFFFFFC, 0xFFFF, 0xFFFFFFFF, 0xFFFFFFFF}},
    [STORE_REG] = {0x12000000, 0, 1, 2, 2, 1, 3, {0x007FFFFC, 0xFFFFFFFC, 0xFFFF}},
    [LOAD_REG] = {0x14800000, 0, 1, 2, 2, 1, 3, {0x007FFFFC, 0xFFFFFFFC, 0xFFFF}},
    [PIPE_CONTROL] = {0x7A000000, 0, 1, 4, 4, 1, 5, {0x0010FCBF, 0xFFFFFFFC, 0xFFFF, 0xFFFFFFFF, 0xFFFFFFFF}},
    [PIPELINE_SELECT] = {0x69040000, 0, 0, 0, 0, 1, 1, {0}},
    [BASE_ADDRESS] = {0x61010000, 0, 1, 14, 14, 1, 15,
                      {0xFFFFF7F1, 0xFFFF, 0x007F0000, 0xFFFFF7F1, 0xFFFF, 0xFFFFF7F1, 0xFFFF, 0xFFFFF7F1, 0xFFFF, 0xFFFFF7F1,
                       0xFFFF, 0xFFFFF001, 0xFFFFF001, 0xFFFFF001, 0xFFFFF001}},
    [VERTEX_BUFFERS] = {0x78080000, 0, 1, 3, 131, 4, 4, {0xFC7F6FFF, 0xFFFFFFFF, 0xFFFF, 0xFFFFFFFF}},
    [VERTEX_ELEMENTS] = {0x78090000, 0, 1, 1, 67, 2, 2, {0xFFFF8FFF, 0x77770000}},
    [INDEX_BUFFER] = {0x780A0000, 0, 1, 3, 3, 1, 4, {0x37F, 0xFFFFFFFF, 0xFFFF, 0xFFFFFFFF}},
    [TOPOLOGY] = {0x784B0000, 0, 1, 0, 0, 1, 1, {0x3F}},
    [VIEWPORT] = {0x78230000, 0, 1, 0, 0, 1, 1, {0xFFFFFFE0}},
    [COLOUR_CALC] = {0x780E0000, 0, 1, 0, 0, 1, 1, {0xFFFFFFC1}},
    [PRIMITIVE] = {0x7B000000, 0x700, 1, 5, 5, 1, 6,
                   {0x33F, 0xFFFFFFFF, 0xFFFFFFFF, 0xFFFFFFFF, 0xFFFFFFFF, 0xFFFFFFFF}},
    [BLEND] = {0x78240000, 0, 1, 0, 0, 1, 1, {0xFFFFFFC1}},
};

static uint32_t row_of(uint32_t header)
{
    uint32_t key = header >> 29 ? header >> 16 << 16 : header >> 23 << 23, row = 0;
    while (row < ROWS && rows[row].key != key) row++;
    return row;
}

static int field_wrong(uint32_t row, uint32_t header)
{
    const struct row *r = &rows[row];
    uint32_t field = header & 0xFF;
    if (!r->has_field) return 0;
    if (row == STORE_IMM) return field != (header & 0x00200000 ? 3 : 2);
    return field < r->least || field > r->most || (field - r->least) % r->step != 0;
}

static uint32_t mask_of(uint32_t row, uint32_t dword)
{
    const struct row *r = &rows[row];
    return dword ? r->masks[(dword - 1) % r->group] : r->key | r->open | (r->has_field ? 0xFF : 0);
}

static int components_wrong(uint32_t dword)
{
    uint32_t before = 1;
    for (int low = 28; low >= 16; low -= 4) {
        uint32_t control = dword >> low & 7;
        if (control > 4 || (control && !before) || (low == 28 && !control)) return 1;
        before = control;
    }
    return 0;
}

/* The dword is the high one of an address that is used: number 10 passes over it, and 12 asks whether it is canonical. */
static int used_high(uint32_t row, const uint32_t *cmd, uint32_t dword, uint32_t spot)
{
    switch (row) {
    case BATCH_START: case STORE_IMM: return dword == 2;
    case STORE_REG: case LOAD_REG: return dword == 3;
    case PIPE_CONTROL: return dword == 3 && cmd[1] & 0xC000;
    case BASE_ADDRESS: return (dword == 2 || dword == 5 || dword == 7 || dword == 9 || dword == 11) && cmd[dword - 1] & 1;
    case VERTEX_BUFFERS: return spot == 3 && (cmd[dword - 2] & 0x6000) == 0x4000 && cmd[dword + 1];
    case INDEX_BUFFER: return dword == 3 && cmd[4];
    }
    return 0;
}

/* Number 12, of a command's dword, which is the dword `spot` of its group. */
static int value_wrong(uint32_t row, const uint32_t *cmd, uint32_t dword, uint32_t spot)
{
    uint32_t word = cmd[dword];
    if (used_high(row, cmd, dword, spot)) return !canonical(word);
    switch (row) {
    case BATCH_START: return dword == 0 && !(word & 0x100);
    case LOAD_IMM: case STORE_REG: case LOAD_REG: return spot == 1 && !register_known(word);
    case STORE_IMM: return dword == 1 && cmd[0] & 0x00200000 && word % 8;
    case PIPE_CONTROL: return cmd[1] & 0xC000 ? dword == 2 && word % 8 : dword >= 2 && word;
    case VERTEX_BUFFERS: return spot == 1 && (word >> 26 > 32 || (word & 0xFFF) > 2048);
    case VERTEX_ELEMENTS:
        if (spot == 1) return word >> 26 > 32 || !format_known[word >> 16 & 0x1FF];
        return spot == 2 && components_wrong(word);
    case INDEX_BUFFER: return dword == 1 && (word & 0x300) == 0x300;
    case TOPOLOGY: return dword == 1 && !(topologies_known >> word & 1);
    case PRIMITIVE:
        if (!(cmd[1] & 0x200)) return 0;
        if (dword == 1) return cmd[0] & 0x400 || word & 0x100;
        return (dword == 3 || dword == 5 || dword == 6) && word;
    }
    return 0;
}

static int inside(const struct window *w, uint64_t address, uint64_t size)
{
    uint64_t offset = address - w->at;
    return offset < w->bytes && size <= w->bytes - offset;
}

static int in_any(const struct windows *w, uint64_t address, uint64_t size)
{
    return inside(&w->scratch, address, size) || inside(&w->state, address, size) || inside(&w->batch, address, size);
}

/* Number 13, of a command's dword. */
static int range_wrong(const struct windows *w, uint32_t row, const uint32_t *cmd, uint32_t dword, uint32_t spot)
{
    const uint32_t *low = cmd + dword;
    switch (row) {
    case BATCH_START: return dword == 1 && !inside(&w->batch, address_of(low), 4);
    case STORE_IMM: return dword == 1 && !inside(&w->scratch, address_of(low), cmd[0] & 0x00200000 ? 8 : 4);
    case STORE_REG: return dword == 2 && !inside(&w->scratch, address_of(low), 4);
    case LOAD_REG: return dword == 2 && !in_any(w, address_of(low), 4);
    case PIPE_CONTROL: return dword == 2 && cmd[1] & 0xC000 && !inside(&w->scratch, address_of(low), 8);
    case VERTEX_BUFFERS: return spot == 2 && used_high(row, cmd, dword + 1, 3) && !in_any(w, address_of(low), low[2]);
    case INDEX_BUFFER: return dword == 2 && low[2] && !in_any(w, address_of(low), low[2]);
    }
    return 0;
}

static int is_nan(uint32_t bits) { return (bits & 0x7FFFFFFF) > 0x7F800000; }

/* The bits of a number, so that they are in its order: the sign turns it, and both zeros are one. */
static long ordered(uint32_t bits) { return bits >> 31 ? -(long)(bits & 0x7FFFFFFF) : (long)bits; }

/* The allowed bits of a structure's dword, by the row that points to it. */
static uint32_t structure_mask(uint32_t row, uint32_t dword)
{
    if (row == COLOUR_CALC && dword == 0) return 0xFFFF8001;
    if (row == BLEND) return dword == 0 ? 0xFFF80000 : dword % 2 ? 0xFFFFFFEF : 0xF800001F;
    return 0xFFFFFFFF;
}

/* Number 17, of a structure's dword: those before it are good. */
static int structure_wrong(uint32_t row, const uint32_t *words, uint32_t dword)
{
    if (row == VIEWPORT) return is_nan(words[dword]) || (dword == 1 && ordered(words[0]) > ordered(words[1]));
    if (row == COLOUR_CALC) return dword >= 2 && is_nan(words[dword]);
    return dword % 2 && !entry_good(words[dword]);
}

/* Numbers 14 to 17, of the structure that dword 1 points to. */
static verdict structure(const struct windows *w, const struct place *p, uint32_t row, const uint32_t *cmd, verdict good)
{
    uint32_t dwords = row == VIEWPORT ? 2 : row == COLOUR_CALC ? 6 : 17;
    uint64_t address = p->base + (cmd[1] & (row == VIEWPORT ? ~31u : ~63u));
    if (p->base == NEVER_SET) return fault(BASELESS, p->at + 1);
    int in_state = !inside(&w->batch, address, 4 * dwords);
    const struct window *holds = in_state ? &w->state : &w->batch;
    if (in_state && !inside(holds, address, 4 * dwords)) return fault(NOWHERE, p->at + 1);
    uint64_t from = (address - holds->at) / 4, place = from | (in_state ? IN_STATE : 0);
    const uint32_t *words = w->words[in_state] + from;
    for (uint32_t i = 0; i < dwords; i++)
        if (words[i] & ~structure_mask(row, i)) return fault(STRUCTURE_BITS, place + i);
    for (uint32_t i = 0; i < dwords; i++)
        if (structure_wrong(row, words, i)) return fault(STRUCTURE_VALUE, place + i);
    return good;
}

/* A dword's number in its group, from 1 on; the header has 0. */
static uint32_t spot_of(uint32_t row, uint32_t dword) { return dword ? (dword - 1) % rows[row].group + 1 : 0; }

/* Numbers 6 to 17, in their order, by the windows as they are. */
APART verdict careful(const struct windows *quick, const struct place *p)
{
    const struct windows *w = quick->plain;
    if (p->at == w->batch_count) return fault(RUN_OUT, p->at);
    const uint32_t *cmd = w->words[0] + p->at;
    uint32_t row = row_of(cmd[0]);
    if (row == ROWS) return fault(UNKNOWN, p->at);
    uint32_t length = rows[row].has_field ? (cmd[0] & 0xFF) + 2 : 1;
    if (field_wrong(row, cmd[0])) return fault(LENGTH, p->at);
    if (length > w->batch_count - p->at) return fault(PAST_END, p->at);
    for (uint32_t i = 0; i < length; i++)
        if (cmd[i] & ~mask_of(row, i) && !used_high(row, cmd, i, spot_of(row, i))) return fault(BITS, p->at + i);
    if (row == BATCH_START && p->level) return fault(NESTED, p->at);
    for (uint32_t i = 0; i < length; i++)
        if (value_wrong(row, cmd, i, spot_of(row, i))) return fault(VALUE, p->at + i);
    for (uint32_t i = 1; i < length; i++)
        if (range_wrong(w, row, cmd, i, spot_of(row, i))) return fault(RANGE, p->at + i);
    verdict good = GOOD | row << 24 | length << 16;
    int reads = row == VIEWPORT || ((row == COLOUR_CALC || row == BLEND) && cmd[1] & 1);
    return reads ? structure(w, p, row, cmd, good) : good;
}

/* ---- The quick look: each says whether a command is good that has its header and lies in the batch; if not, it may be good yet ---- */

/*
 * A word of 4 or 8 bytes in a window, aligned: turned by so many bits, the offset of one that is not aligned is past any window,
 * as it is for one below it. The window has its address as it is written, and lies in one half of all addresses (see nearer), so that
 * the offset of one whose high dword is not canonical is past it too.
 */
QUICK int holds_4(const struct window *w, uint64_t address) { return turned_64(address - w->at, 2) < w->fours; }
QUICK int holds_8(const struct window *w, uint64_t address) { return turned_64(address - w->at, 3) < w->eights; }

QUICK int quick_load_reg(const struct windows *w, const uint32_t *cmd)
{
    uint64_t address = written(cmd + 2);
    return register_known(cmd[1]) && (holds_4(&w->scratch, address) || holds_4(&w->state, address) || holds_4(&w->batch, address));
}

QUICK int quick_pipe_control(const struct windows *w, const uint32_t *cmd)
{
    if (cmd[1] & ~0x0010FCBFu) return 0;
    if (cmd[1] & 0xC000) return holds_8(&w->scratch, written(cmd + 2));
    return (written(cmd + 2) | written(cmd + 4)) == 0;
}

/* The masks, of the bases' high dwords that which is given: if these are at most 7FFFh, it does not matter whether a base is used. */
QUICK int base_address_but(const uint32_t *cmd, uint32_t high)
{
    const four a = {0, ~0xFFFFF7F1u, high, ~0x007F0000u}, b = {~0xFFFFF7F1u, high, ~0xFFFFF7F1u, high};
    return all_zero((load(cmd) & a) | ((load(cmd + 4) | load(cmd + 8)) & b) | (load(cmd + 12) & same(~0xFFFFF001u)));
}

/* If they are more, it does: what a used one may have has 16 bits once 8000h is added. */
APART int base_address_above(const uint32_t *cmd)
{
    static const uint8_t bases[] = {1, 4, 6, 8, 10};
    uint32_t wrong = 0;
    for (uint32_t i = 0; i < 5; i++) wrong |= (cmd[bases[i] + 1] + (cmd[bases[i]] << 15 & 0x8000)) >> 16;
    return base_address_but(cmd, 0) && !wrong;
}

QUICK int quick_base_address(const uint32_t *cmd) { return LIKELY(base_address_but(cmd, 0xFFFF8000)) || base_address_above(cmd); }

/* A range with its size, of which it need not be known whether it is used: below 2^47 what lies in scratch is good either way. */
QUICK int quick_range(const struct windows *w, const uint32_t *low)
{
    uint64_t offset = written(low) - w->scratch.at;
    return offset < w->scratch.bytes && low[2] <= w->scratch.bytes - offset;
}

/* The same for the rest; a range that is not used has to have its high dword in the mask. */
APART int range_elsewhere(const struct windows *w, const uint32_t *low, int used)
{
    return used && low[2] ? canonical(low[1]) && in_any(w->plain, address_of(low), low[2]) : low[1] <= 0xFFFF;
}

/*
 * The first dword of a vertex buffer: an index above 32 carries over bit 31 and a pitch above 2,048 into bit 12, and the rest are
 * bits that must be clear. What is left are bits 14 and 13.
 */
QUICK uint64_t buffer_bits(uint64_t word) { return ((word + 0x7C0007FF) | word) & (0x100000000 | 0x03809000 | 0x6000); }

/* From the first vertex buffer on that is not in use, or not in scratch. */
APART int vertex_buffers_elsewhere(const struct windows *w, const uint32_t *group, const uint32_t *end)
{
    for (; group < end; group += 4) {
        uint64_t bits = buffer_bits(group[0]);
        if (bits & ~(uint64_t)0x6000 || !range_elsewhere(w, group + 1, bits == 0x4000)) return 0;
    }
    return 1;
}

APART int quick_vertex_buffers(const struct windows *w, const uint32_t *cmd, const uint32_t *end)
{
    const uint64_t scratch_at = w->scratch.at, scratch_bytes = w->scratch.bytes;
    for (const uint32_t *group = cmd + 1;;) {
        uint64_t offset = written(group + 1) - scratch_at;
        if (buffer_bits(group[0]) != 0x4000) return vertex_buffers_elsewhere(w, group, end);
        if (offset >= scratch_bytes) return vertex_buffers_elsewhere(w, group, end);
        if (group[3] > scratch_bytes - offset) return vertex_buffers_elsewhere(w, group, end);
        group += 4;
        if (group == end) return 1;
    }
}

/* What is wrong with the second dwords of four elements, as bits: mask, each control at most 4, the first not 0, no gap. */
QUICK four components_wrong_in(four words)
{
    four used = words + same(0x77770000);
    four wrong = (words + same(0x33330000)) | (used << 4 & ~used) | (~used & same(0x80000000));
    return (wrong & same(0x88880000)) | (words & same(~0x77770000u));
}

/* And with the first, but for the format: the mask, and an index above 32. */
QUICK four indices_wrong_in(four words)
{
    signed_four above = (signed_four)(words ^ same(0x80000000)) > (signed_four)same(0x03FFFFFF);
    return (four)above | (words & same(0x7000));
}

/* Four elements: adds what is wrong with their dwords to `wrong`, and says whether their formats are known. */
QUICK uint8_t look_at_four(const uint32_t *g, four *wrong)
{
    four a = load(g), b = load(g + 4), first = __builtin_shufflevector(a, b, 0, 2, 4, 6);
    eight formats = (eight)(first & same(0x01FF0000));
    *wrong |= indices_wrong_in(first) | components_wrong_in(__builtin_shufflevector(a, b, 1, 3, 5, 7));
    return format_known[formats[1]] & format_known[formats[3]] & format_known[formats[5]] & format_known[formats[7]];
}

/* The last four may have been looked at before. */
APART int quick_vertex_elements(const uint32_t *cmd, const uint32_t *end)
{
    const uint32_t *g = cmd + 1, *last = end - 8;
    four wrong = same(0);
    uint8_t known = 1;
    if (last >= g) {
        for (; g < last; g += 8) known &= look_at_four(g, &wrong);
        known &= look_at_four(last, &wrong);
        return known && all_zero(wrong);
    }
    for (; g < end; g += 2) {
        uint32_t used = g[1] + 0x77770000, bits = (g[1] + 0x33330000) | (used << 4 & ~used) | (~used & 0x80000000);
        if (g[0] >= 33u << 26 || g[0] & 0x7000 || (g[1] & ~0x77770000u) | (bits & 0x88880000)) return 0;
        if (!format_known[g[0] >> 16 & 0x1FF]) return 0;
    }
    return 1;
}

/* Which of eight registers are known, as words of 16 bits: what does not fit one has become 7FFFh or 8000h, which are none. */
QUICK eight registers_known_in(eight r)
{
    eight page = r & (eight){~0xC, ~0xC, ~0xC, ~0xC, ~0xC, ~0xC, ~0xC, ~0xC};
#define EACH(x) ((eight){x, x, x, x, x, x, x, x})
    return (eight)((page == EACH(0x2400)) | (page == EACH(0x2430)) | ((r & EACH(~0x20)) == EACH(0x2400)) | (r == EACH(0x2440)) |
                   ((r & EACH(~0x7C)) == EACH(0x2600)));
}

APART int quick_load_imm(const uint32_t *cmd, const uint32_t *end)
{
    const uint32_t *pairs = cmd + 1;
    for (; end - pairs >= 16; pairs += 16) {
        four low = __builtin_shufflevector(load(pairs), load(pairs + 4), 0, 2, 4, 6);
        four high = __builtin_shufflevector(load(pairs + 8), load(pairs + 12), 0, 2, 4, 6);
        if (!all_ones((sixteen)registers_known_in(__builtin_ia32_packssdw128((signed_four)low, (signed_four)high)))) return 0;
    }
    for (; pairs < end; pairs += 2)
        if (!register_known(pairs[0])) return 0;
    return 1;
}

QUICK int quick_index_buffer(const struct windows *w, const uint32_t *cmd)
{
    if (cmd[1] & ~0x37Fu || cmd[1] >= 0x300) return 0;
    return LIKELY(quick_range(w, cmd + 2)) || range_elsewhere(w, cmd + 2, 1);
}

QUICK float as_float(uint32_t bits)
{
    union { uint32_t bits; float value; } both = {bits};
    return both.value;
}

/* In the state window; without a base, nothing is. The comparison is false where one is NaN. */
QUICK int quick_viewport(const struct windows *w, uint64_t base, const uint32_t *cmd)
{
    uint64_t offset = base + cmd[1] - w->plain->state.at;
    if (cmd[1] & 31 || offset >= (w->state.bytes & ~(uint64_t)7)) return 0;
    const uint32_t *depths = w->words[1] + offset / 4;
    return as_float(depths[0]) <= as_float(depths[1]);
}

QUICK int quick_colour_calc(const struct windows *w, uint64_t base, const uint32_t *cmd)
{
    uint64_t offset = base + (cmd[1] & ~1u) - w->plain->state.at;
    if (cmd[1] & 62) return 0;
    if (!(cmd[1] & 1)) return 1;
    if (offset >= w->state.bytes || w->state.bytes - offset < 24) return 0;
    const uint32_t *colour = w->words[1] + offset / 4;
    if (colour[0] & ~0xFFFF8001u) return 0;
    return all_zero((four)((signed_four)(load(colour + 2) & same(0x7FFFFFFF)) > (signed_four)same(0x7F800000)));
}

/* The entries are eight pairs of dwords with the same two masks, so that four dwords are two of them. */
QUICK int quick_blend(const struct windows *w, uint64_t base, const uint32_t *cmd)
{
    uint64_t offset = base + (cmd[1] & ~1u) - w->plain->state.at;
    if (cmd[1] & 62) return 0;
    if (!(cmd[1] & 1)) return 1;
    if (offset >= w->state.bytes || w->state.bytes - offset < 68) return 0;
    const uint32_t *blend = w->words[1] + offset / 4, outside = blend[0] & ~0xFFF80000u;
    const four masks = {~0xFFFFFFEFu, ~0xF800001Fu, ~0xFFFFFFEFu, ~0xF800001Fu};
    four all = load(blend + 1) | load(blend + 5) | load(blend + 9) | load(blend + 13);
    if (outside || !all_zero(all & masks)) return 0;
    int good = 1;
    for (uint32_t i = 1; i < 17; i += 2) good &= entry_good(blend[i]);
    return good;
}

/* ---- The walk ---- */

static struct lungevati_answer answer(verdict fault_or_0, uint64_t count)
{
    return (struct lungevati_answer){fault_or_0 >> 18, (fault_or_0 & IN_STATE) != 0, fault_or_0 & 0x1FFFF, (uint32_t)count};
}

/* The last word on a command without a record: the budget goes first, the room last. */
APART struct lungevati_answer refused(verdict v, uint64_t at, uint64_t count)
{
    if (count == BUDGET) return answer(fault(ENDLESS, at), count);
    return answer(v < GOOD ? v : fault(FULL, at), count);
}

QUICK void record(uint32_t *out, uint32_t first, uint32_t second) { out[0] = first, out[1] = second; }

/*
 * From a second no-op in a row on, sixteen at a time while there are so many, and room for them. `at` is where the first one stands, with
 * its level; gives back how many were recorded.
 */
APART uint64_t noops(const uint32_t *cmd, uint32_t *out, uint64_t most, uint32_t at)
{
    const uint32_t second = NOOP << 24 | 1 << 16;
    uint64_t n = 0;
    four pairs[8]; /* of records, each with a count of its own: none waits for another, and none is copied first */
    for (uint32_t i = 0; i < 8; i++) pairs[i] = (four){at + 2 * i, second, at + 2 * i + 1, second};
    for (; n + 16 <= most; n += 16, out += 16 * RECORD) {
        if (!all_zero((load(cmd + n) | load(cmd + n + 4) | load(cmd + n + 8) | load(cmd + n + 12)) >> 22)) break;
        for (uint32_t i = 0; i < 8; i++) {
            store(out + 4 * i, pairs[i]);
            pairs[i] += (four){16, 0, 16, 0};
        }
    }
    for (; n < most && cmd[n] >> 22 == 0; n++, out += RECORD) record(out, at + (uint32_t)n, second);
    return n;
}

/* The two upper bytes of a header: no two rows have the same sum, but for no-ops with a number of their own. */
#define HASH(header) (((header) >> 24) + ((header) >> 16 & 0xFF))
#define DWORD(k) (*(const uint32_t *)(from + 4 * (at + (k))))
#define BYTE(k) (*(const uint8_t *)(from + 4 * at + (k)))
#define COMMAND ((const uint32_t *)(from + 4 * at))

/* One jump to the next command's row, if there is room for its record. */
#define NEXT if (RARELY(out == full)) goto look; slot = (uint64_t)BYTE(3) + BYTE(2); __asm__("" : "+r"(slot)); goto *rows_at[slot]
#define NEED(condition) if (RARELY(!(condition))) goto other
/* A row whose command has this header and length and is good. Right behind it the batch must go on: or the careful look sees to it. */
#define TAKE(row, length) record(out, (uint32_t)at, (row) << 24 | (length) << 16); out += RECORD; at += (length); NEXT
#define ROW(header, row, length, condition) \
    NEED(DWORD(0) == (header)); NEED(at + (length) < end); NEED(condition); TAKE(row, length)
/* The same in groups: the field is a multiple of `group`, less 1, and at most `most`. */
#define GROUPS(key, row, group, most, condition) \
    field = DWORD(0) ^ (key); \
    NEED(field <= (most)); NEED(field % (group) == (group) - 1); NEED(at + field + 2 < end); NEED(condition); \
    TAKE(row, field + 2)

#pragma clang diagnostic ignored "-Winitializer-overrides" /* the table below is filled first, and then has its rows */

/*
 * The level is part of the position, as it is in a record's first word: at level 1 both `at` and `end` are 65,536 more, and `from` so many dwords
 * less than the batch's first. Long, since every row is a place to jump to.
 */
static struct lungevati_answer walk(const struct windows *w, uint64_t base, uint32_t *records, size_t room)
{
    static const void *const rows_at[512] = {
        [0 ... 511] = &&other, [HASH(0x00000000)] = &&noop, [HASH(0x05000000)] = &&batch_end, [HASH(0x18800000)] = &&batch_start,
        [HASH(0x18C00000)] = &&second_level, [HASH(0x11000000)] = &&load_imm, [HASH(0x10000000)] = &&store_4,
        [HASH(0x10200000)] = &&store_8, [HASH(0x12000000)] = &&store_reg, [HASH(0x14800000)] = &&load_reg,
        [HASH(0x7A000000)] = &&pipe_control, [HASH(0x69040000)] = &&pipeline_select, [HASH(0x61010000)] = &&base_address,
        [HASH(0x78080000)] = &&vertex_buffers, [HASH(0x78090000)] = &&vertex_elements, [HASH(0x780A0000)] = &&index_buffer,
        [HASH(0x784B0000)] = &&topology, [HASH(0x78230000)] = &&viewport, [HASH(0x780E0000)] = &&colour_calc,
        [HASH(0x7B000000)] = &&primitive, [HASH(0x78240000)] = &&blend,
    };
    uint32_t *out = records, *full = records + RECORD * (room / RECORD < BUDGET ? room / RECORD : BUDGET);
    uint64_t from = (uint64_t)w->words[0], at = 0, end = w->batch_count, kept = 0, n, slot;
    uint32_t field;
    NEXT;

noop: /* the sum is 0, so bits 31:16 are */
    NEED(at + 1 < end);
    record(out, (uint32_t)at++, NOOP << 24 | 1 << 16);
    out += RECORD;
    if (DWORD(0) >> 22 == 0) goto more_noops;
    NEXT;
more_noops:
    n = (uint64_t)(full - out) / RECORD;
    n = noops(COMMAND, out, end - at < n ? end - at : n, (uint32_t)at);
    at += n, out += RECORD * n;
    if (RARELY(at == end)) goto look;
    NEXT;
batch_end:
    NEED(DWORD(0) == 0x05000000);
    record(out, (uint32_t)at, BATCH_END << 24 | 1 << 16);
    out += RECORD;
    if (end == w->batch_count) return answer(0, (uint64_t)(out - records) / RECORD);
    at = kept, from += 4 * LEVEL_1, end -= LEVEL_1;
    if (RARELY(at == end)) goto look;
    NEXT;
batch_start:
    NEED(DWORD(0) == 0x18800101);
    NEED(at + 3 <= end && end == w->batch_count);
    n = turned_64(written(COMMAND + 1) - w->batch.at, 2);
    NEED(n < w->batch.fours);
jump:
    record(out, (uint32_t)at, BATCH_START << 24 | 3 << 16);
    out += RECORD;
    at = n;
    NEXT;
second_level:
    NEED(DWORD(0) == 0x18C00101);
    NEED(at + 3 <= end && end == w->batch_count);
    n = turned_64(written(COMMAND + 1) - w->batch.at, 2);
    NEED(n < w->batch.fours);
call:
    record(out, (uint32_t)at, BATCH_START << 24 | 3 << 16);
    out += RECORD;
    kept = at + 3, at = n + LEVEL_1, from -= 4 * LEVEL_1, end += LEVEL_1;
    NEXT;
load_imm: GROUPS(0x11000000, LOAD_IMM, 2, 127, quick_load_imm(COMMAND, COMMAND + field + 2));
store_4: ROW(0x10000002, STORE_IMM, 4, holds_4(&w->scratch, written(COMMAND + 1)));
store_8: ROW(0x10200003, STORE_IMM, 5, holds_8(&w->scratch, written(COMMAND + 1)));
store_reg: ROW(0x12000002, STORE_REG, 4, register_known(DWORD(1)) && holds_4(&w->scratch, written(COMMAND + 2)));
load_reg: ROW(0x14800002, LOAD_REG, 4, quick_load_reg(w, COMMAND));
pipe_control: ROW(0x7A000004, PIPE_CONTROL, 6, quick_pipe_control(w, COMMAND));
pipeline_select: ROW(0x69040000, PIPELINE_SELECT, 1, 1);
base_address:
    NEED(DWORD(0) == 0x6101000E);
    NEED(at + 16 < end);
    NEED(quick_base_address(COMMAND));
    if (DWORD(6) & 1) base = address_of(COMMAND + 6) & ~(uint64_t)0xFFF;
    TAKE(BASE_ADDRESS, 16);
vertex_buffers: GROUPS(0x78080000, VERTEX_BUFFERS, 4, 131, quick_vertex_buffers(w, COMMAND, COMMAND + field + 2));
vertex_elements: GROUPS(0x78090000, VERTEX_ELEMENTS, 2, 67, quick_vertex_elements(COMMAND, COMMAND + field + 2));
index_buffer: ROW(0x780A0003, INDEX_BUFFER, 5, quick_index_buffer(w, COMMAND));
topology: ROW(0x784B0000, TOPOLOGY, 2, DWORD(1) < 64 && topologies_known >> DWORD(1) & 1);
viewport: ROW(0x78230000, VIEWPORT, 2, quick_viewport(w, base, COMMAND));
colour_calc: ROW(0x780E0000, COLOUR_CALC, 2, quick_colour_calc(w, base, COMMAND));
primitive:
    NEED((DWORD(0) & ~0x700u) == 0x7B000005);
    NEED(at + 7 < end);
    NEED(!(DWORD(1) & ~0x13Fu));
    TAKE(PRIMITIVE, 7);
blend: ROW(0x78240000, BLEND, 2, quick_blend(w, base, COMMAND));

other: /* a no-op with a number of its own, or whatever the quick look does not know */
    if (DWORD(0) >> 22 == 0) goto more_noops;
look:;
    struct place p = {at - (end - w->batch_count), base, (uint32_t)(end - w->batch_count)};
    verdict v = careful(w, &p);
    if (v < GOOD || out == full) return refused(v, p.at, (uint64_t)(out - records) / RECORD);
    /*
     * What is good yet goes on by its length, but for a start in a batch that lies about 2^47, to what lies above. A base that it set, as the
     * batch's last command, nobody would ask for.
     */
    if (RARELY((v ^ GOOD) >> 24 == BATCH_START)) {
        n = (address_of(COMMAND + 1) - w->plain->batch.at) / 4;
        if (DWORD(0) & 0x00400000) goto call;
        goto jump;
    }
    record(out, (uint32_t)at, v ^ GOOD);
    out += RECORD;
    at += v >> 16 & 0xFF;
    if (RARELY(at == end)) goto look;
    NEXT;
}

/* Numbers 2 to 4, each over all windows before the next. By 4 all end at or below 2^48, so that no sum wraps. */
static int too_high(struct window w) { return w.at > TOP || w.bytes > TOP - w.at; }
static int share(struct window a, struct window b) { return a.bytes && b.bytes && a.at < b.at + b.bytes && b.at < a.at + a.bytes; }
APART uint32_t unsound(const struct windows *w)
{
    if ((w->batch.at | w->state.at | w->scratch.at) & 0xFFF) return MISALIGNED;
    if (too_high(w->batch) || too_high(w->state) || too_high(w->scratch)) return TOO_HIGH;
    return share(w->batch, w->state) || share(w->batch, w->scratch) || share(w->state, w->scratch) ? SHARED : 0;
}

/* One window begins behind the other: the difference is then too large one way, and wraps the other. */
QUICK int apart(const struct window *a, const struct window *b) { return b->at - a->at >= a->bytes && a->at - b->at >= b->bytes; }

/* Aligned windows below 2^46 end below 2^47; the rest are looked at carefully. */
QUICK int clearly_sound(const struct windows *w)
{
    if (RARELY((w->batch.at | w->state.at | w->scratch.at) & 0xFFFFC00000000FFF)) return 0;
    return apart(&w->batch, &w->state) && apart(&w->batch, &w->scratch) && apart(&w->state, &w->scratch);
}

/*
 * A window as the quick look takes it: from 2^47 on its address has the bits above set, as a used address in it is written; of one that
 * goes on from below 2^47 only what lies below counts. So no address is in it whose high dword is not canonical.
 */
static struct window nearer(struct window w)
{
    uint64_t half = TOP / 2;
    if (w.at >= half) w.at |= ~(TOP - 1);
    else if (w.bytes > half - w.at) w = (struct window){w.at, half - w.at, (half - w.at) / 4, (half - w.at) / 8};
    return w;
}

/* Ranges in scratch from 2^47 on are not for the quick look: one of no bytes is not used, and must not have these bits set. */
APART void bring_nearer(struct windows *w, struct windows *plain)
{
    *plain = *w, plain->plain = w->plain = plain;
    w->batch = nearer(w->batch), w->state = nearer(w->state), w->scratch = nearer(w->scratch);
    if (plain->scratch.at >= TOP / 2) w->scratch.bytes = 0;
}

/* The base is the one that the walk starts with, plain as the windows are lent. */
QUICK struct lungevati_answer check(const uint32_t *batch, size_t batch_len, uint64_t batch_at,
                                    const uint32_t *state, size_t state_len, uint64_t state_at,
                                    uint64_t scratch_at, uint32_t scratch_len,
                                    uint32_t *records, size_t records_len, uint64_t base)
{
    if (RARELY(batch_len - 1 >= LIMIT)) return answer(fault(COUNTS, 0), 0);
    if (RARELY(state_len > LIMIT)) return answer(fault(COUNTS, 0), 0);
    struct windows plain, w = {{batch, state}, batch_len,
                        {batch_at, 4 * batch_len, batch_len, batch_len / 2}, {state_at, 4 * state_len, state_len, state_len / 2},
                        {scratch_at, scratch_len, scratch_len / 4, scratch_len / 8}, &w};
    if (RARELY(!clearly_sound(&w))) {
        uint32_t reason = unsound(&w);
        if (reason) return answer(fault(reason, 0), 0);
        bring_nearer(&w, &plain);
    }
    return walk(&w, base, records, records_len);
}

struct lungevati_answer fast_check(const uint32_t *batch, size_t batch_len, uint64_t batch_at,
                                   const uint32_t *state, size_t state_len, uint64_t state_at,
                                   uint64_t scratch_at, uint32_t scratch_len,
                                   uint32_t *records, size_t records_len)
{
    return check(batch, batch_len, batch_at, state, state_len, state_at, scratch_at, scratch_len, records, records_len, state_at);
}

struct lungevati_answer fast_check_no_base(const uint32_t *batch, size_t batch_len, uint64_t batch_at,
                                           const uint32_t *state, size_t state_len, uint64_t state_at,
                                           uint64_t scratch_at, uint32_t scratch_len,
                                           uint32_t *records, size_t records_len)
{
    return check(batch, batch_len, batch_at, state, state_len, state_at, scratch_at, scratch_len, records, records_len, NEVER_SET);
}
