/*
 * Runs that keep the rules: blocks of commands joined by jumps, second-level batches that are called once or often, structures in
 * both lent windows, every value at its edges as often as between them. And runs that do not end, or end at the budget.
 */
#include "maker.h"

struct maker m;

/* ---- Numbers ---- */

uint32_t word(void) { return (uint32_t)(dice_roll(&m.dice) >> 32); }
uint32_t below(uint32_t n) { return n ? (uint32_t)((uint64_t)word() * n >> 32) : 0; }
int one_in(uint32_t n) { return below(n) == 0; }

/* ---- Windows ---- */

uint64_t rounded(uint64_t bytes) { return (bytes + PAGE - 1) / PAGE * PAGE; }

struct window window(uint32_t which)
{
    const struct capture *c = m.c;
    if (which == 0) return (struct window){c->batch_at, 4 * c->batch_len};
    if (which == 1) return (struct window){c->state_at, 4 * c->state_len};
    return (struct window){c->scratch_at, c->scratch_len};
}

/* The same for commands that are being made: a batch that will end with its code is as long as the code so far. */
static struct window sure_window(uint32_t which)
{
    struct window w = window(which);
    if (which == 0 && !m.whole) w.bytes = 4 * (uint64_t)m.at;
    return w;
}

static uint32_t scratch_length(void)
{
    static const uint32_t edges[] = {0, 1, 3, 4, 7, 8, 12, 16, 4095, 4096, 4097, 4100, 8192, 0xFFFFFFFF, 0xFFFFF000};
    return one_in(3) ? PICK(edges) : one_in(4) ? below(1 << 20) : 4096 * (1 + below(4));
}

uint32_t most_dwords(void) { return m.is_long ? LIMIT : SMALL_LIMIT; }

/* Of a long capture: at the limit and next to it, on either side, as often as between. */
static size_t long_length(void)
{
    static const uint32_t edges[] = {SMALL_LIMIT + 1, LIMIT / 2, LIMIT - 1, LIMIT - 1, LIMIT, LIMIT, LIMIT, LIMIT + 1};
    return one_in(2) ? PICK(edges) : SMALL_LIMIT + 1 + below(LIMIT - SMALL_LIMIT);
}

static size_t batch_length(void)
{
    static const uint32_t edges[] = {1024, 2048, 3072, 4096};
    if (m.is_long) return long_length();
    uint32_t kind = below(16);
    if (kind == 0) return PICK(edges);
    if (kind == 1) return 400 + below(3600);
    if (kind < 6) return 100 + below(400);
    return 20 + below(140);
}

/* A structure's end is as often at the window's end, or just past it, as inside. */
static size_t state_length(void)
{
    static const uint32_t ends[] = {1, 2, 5, 6, 9, 10, 16};
    static const uint32_t edges[] = {0, 1024, 4096};
    if (m.is_long && one_in(3)) return long_length();
    uint32_t whole = 16 * below(m.is_long ? LIMIT / 16 : one_in(8) ? 255 : 12);
    return one_in(6) ? PICK(edges) : whole + PICK(ends);
}

void set_address(uint32_t which, uint64_t at)
{
    if (which == 0) m.c->batch_at = at;
    if (which == 1) m.c->state_at = at;
    if (which == 2) m.c->scratch_at = at;
}

/* The three in any order, one after the other, each as near to the one before as it can be or a few pages on. */
static void in_a_row(uint64_t from, int gaps)
{
    uint32_t first = below(3), turn = 1 + below(2);
    for (uint32_t i = 0, which = first; i < 3; i++, which = (which + turn) % 3) {
        set_address(which, from);
        from += rounded(window(which).bytes) + (gaps ? PAGE * (uint64_t)below(3) : 0);
    }
}

static uint64_t all_pages(void)
{
    return rounded(window(0).bytes) + rounded(window(1).bytes) + rounded(window(2).bytes);
}

/* One of the lent windows at the very top, the other at the bottom, and scratch between them. */
static void at_both_ends(void)
{
    uint32_t top = below(2);
    set_address(top, TOP - rounded(window(top).bytes) - PAGE * (uint64_t)below(3));
    set_address(1 - top, PAGE * (uint64_t)below(4));
    set_address(2, HALF);
}

/* The three in a row about 2^47, which is where one of them begins or ends, or some page of it. */
static void about_half(int gaps)
{
    in_a_row(HALF, gaps);
    struct window w = window(below(3));
    uint64_t pages = rounded(w.bytes) / PAGE, back = w.at - HALF;
    back += PAGE * (one_in(3) ? 0 : one_in(2) ? pages : below((uint32_t)pages));
    for (uint32_t i = 0; i < 3; i++) set_address(i, window(i).at - back);
}

/* An empty window may stand anywhere: at the very end, in the batch, or a little before it. */
static uint64_t place_of_none(void)
{
    uint64_t at = window(0).at, back = PAGE * (uint64_t)below(3);
    if (one_in(3)) return TOP;
    return one_in(2) || at < back ? at + PAGE * (uint64_t)below(2) : at - back;
}

static void place_windows(void)
{
    int gaps = one_in(2);
    uint64_t back = PAGE * (uint64_t)(1 + below(5));
    switch (below(10)) {
    case 0:
        m.c->batch_at = 0x100000, m.c->state_at = 0x200000, m.c->scratch_at = 0x300000;
        break;
    case 1: in_a_row(PAGE * (uint64_t)below(1 << 20), gaps); break;
    case 2: in_a_row(TOP - all_pages(), 0); break;
    case 3: in_a_row(((uint64_t)1 + below(64)) * ((uint64_t)1 << 32) - back, gaps); break;
    case 4: in_a_row(0, gaps); break;
    case 5: at_both_ends(); break;
    case 6: in_a_row(HALF + PAGE * (uint64_t)below(one_in(2) ? 4 : 1 << 20), gaps); break;
    case 7: in_a_row(HALF + PAGE * (uint64_t)below(0x7FFFFFFF), gaps); break;
    case 8: about_half(gaps); break;
    default: /* far apart: each in a part of its own */
        for (uint32_t i = 0; i < 3; i++)
            set_address(i, (uint64_t)i * (TOP / 4) + PAGE * (uint64_t)below(0x7FFFFFFF));
    }
    for (uint32_t i = 1; i < 3; i++)
        if (window(i).bytes == 0 && !one_in(3)) set_address(i, place_of_none());
}

/*
 * ---- Structures. 64 dwords hold a colour state and, behind it, a depth range; two depth ranges; a blend state, which ends with
 * the first dword of the last sixteen; and another depth range ----
 */

int reads_by_bit_0(uint32_t row) { return row == COLOUR_CALC || row == BLEND; }
uint32_t structure_dwords(uint32_t row) { return row == VIEWPORT ? 2 : row == COLOUR_CALC ? 6 : 17; }

static uint32_t not_nan(void)
{
    static const uint32_t edges[] = {0,          0x80000000, 0x3F800000, 0xBF800000, 0x7F800000, 0xFF800000, 1,
                                     0x80000001, 0x007FFFFF, 0x807FFFFF, 0x7F7FFFFF, 0xFF7FFFFF, 0x40000000, 0xC0000000};
    uint32_t bits = one_in(2) ? PICK(edges) : word();
    return (bits & 0x7FFFFFFF) > 0x7F800000 ? bits & 0xBFFFFFFF : bits;
}

/* Where a float stands among the others; the zeros stand together. */
static long rank(uint32_t bits)
{
    long size = (long)(bits & 0x7FFFFFFF);
    return bits >> 31 ? -size : size;
}

static void fill_depths(uint32_t *words)
{
    uint32_t a = not_nan(), b = one_in(6) ? a : not_nan();
    if (one_in(8)) a = word() & 0x80000000, b = word() & 0x80000000;
    words[0] = rank(a) <= rank(b) ? a : b;
    words[1] = rank(a) <= rank(b) ? b : a;
}

static void fill_colours(uint32_t *words)
{
    words[0] = word() & 0xFFFF8001;
    words[1] = word();
    for (int i = 2; i < 6; i++) words[i] = not_nan();
}

const uint32_t factors_at[4] = {26, 21, 13, 8}, functions_at[2] = {18, 5};

static uint32_t good_factor(void)
{
    static const uint32_t edges[] = {0x01, 0x0A, 0x11, 0x15, 0x17, 0x1A};
    static const uint32_t list[] = {1, 2, 3, 4, 5, 6, 7, 8, 9, 10, 17, 18, 19, 20, 21, 23, 24, 25, 26};
    return one_in(2) ? PICK(edges) : PICK(list);
}

/* An entry's first dword: with blending off any codes will do. */
static uint32_t good_entry(void)
{
    uint32_t dword = word() & 0xFFFFFFEF;
    if (one_in(3)) return dword & 0x7FFFFFFF;
    dword = (dword & 0xF) | 0x80000000;
    for (uint32_t i = 0; i < 4; i++) dword |= good_factor() << factors_at[i];
    for (uint32_t i = 0; i < 2; i++) dword |= below(5) << functions_at[i];
    return dword;
}

static void fill_blend(uint32_t *words)
{
    words[0] = word() & 0xFFF80000;
    for (int i = 1; i < 17; i += 2) {
        words[i] = good_entry();
        words[i + 1] = word() & 0xF800001F;
    }
}

enum { COLOURS, DEPTHS, BLENDS, BLENDS_END };
static uint32_t kind_at(uint32_t index) { return index / 16 % 4; }

static void fill_structures(uint32_t *words, uint32_t from, uint32_t end)
{
    for (uint32_t i = from; i < end; i++) words[i] = word();
    for (uint32_t i = from; i < end; i += 16) {
        if (kind_at(i) == COLOURS && i + 6 <= end) fill_colours(words + i);
        if (kind_at(i) == DEPTHS && i + 2 <= end) fill_depths(words + i);
        if (kind_at(i) == BLENDS && i + 17 <= end) fill_blend(words + i);
        if (kind_at(i) != BLENDS && i + 10 <= end) fill_depths(words + i + 8);
    }
}

/* Whether a structure of the row stands there; the depth range of sixteen dwords that begin with something else stands at their middle. */
static int stands_at(uint32_t row, uint32_t *index)
{
    uint32_t kind = kind_at(*index);
    if (row == COLOUR_CALC) return kind == COLOURS;
    if (row == BLEND) return kind == BLENDS;
    if (kind != DEPTHS || one_in(2)) *index += 8;
    return kind != BLENDS;
}

/* A structure of the row that the base reaches: its words, and the pointer to it. */
static uint32_t *find_structure(uint32_t row, uint32_t *pointer)
{
    struct capture *c = m.c;
    uint32_t size = structure_dwords(row);
    for (int tries = 0; tries < 24; tries++) {
        int in_state = one_in(2);
        uint32_t from = in_state ? 0 : m.data, end = (uint32_t)(in_state ? c->state_len : c->batch_len);
        if (from + size > end) continue;
        uint32_t index = from + 16 * (one_in(2) ? (end - from - size) / 16 : below((end - from + 15) / 16));
        int stands = stands_at(row, &index);
        uint64_t distance = (in_state ? c->state_at : c->batch_at) + 4 * index - m.base;
        if (!stands || index + size > end || distance >> 32) continue;
        *pointer = (uint32_t)distance;
        return (in_state ? c->state : c->batch) + index;
    }
    return 0;
}

/* A base from which a lent window can be reached: near it, or as far below as a pointer goes. */
static uint64_t some_base(void)
{
    struct window w = window(one_in(2) ? 1 : 0);
    uint64_t back = one_in(3) ? 0 : one_in(2) ? PAGE * (uint64_t)below(8) : PAGE * (uint64_t)below(1 << 20);
    if (w.bytes > PAGE && one_in(4)) return w.at + PAGE;
    if (w.at == TOP) return TOP - PAGE; /* an empty window, and no base goes so far */
    return w.at >= back ? w.at - back : 0;
}

/* ---- Commands that keep the rules ---- */

const struct table_row table[ROWS] = {
    [NOOP] = {0x00000000, 0x3FFFFF, 1, 0, 0, {0}},
    [BATCH_END] = {0x05000000, 0, 1, 0, 0, {0}},
    [BATCH_START] = {0x18800000, 0x400100, 3, 0, 0, {0, 0xFFFFFFFC, 0xFFFF}},
    [LOAD_IMM] = {0x11000000, 0, 0, 2, 64, {0, 0x7FFFFC, ~0u}},
    [STORE_IMM] = {0x10000000, 0x200000, 4, 0, 0, {0, 0xFFFFFFFC, 0xFFFF, ~0u, ~0u}},
    [STORE_REG] = {0x12000000, 0, 4, 0, 0, {0, 0x7FFFFC, 0xFFFFFFFC, 0xFFFF}},
    [LOAD_REG] = {0x14800000, 0, 4, 0, 0, {0, 0x7FFFFC, 0xFFFFFFFC, 0xFFFF}},
    [PIPE_CONTROL] = {0x7A000000, 0, 6, 0, 0, {0, 0x10FCBF, 0xFFFFFFFC, 0xFFFF, ~0u, ~0u}},
    [PIPELINE_SELECT] = {0x69040000, 0, 1, 0, 0, {0}},
    [BASE_ADDRESS] = {0x61010000, 0, 16, 0, 0,
                      {0, 0xFFFFF7F1, 0xFFFF, 0x7F0000, 0xFFFFF7F1, 0xFFFF, 0xFFFFF7F1, 0xFFFF, 0xFFFFF7F1, 0xFFFF,
                       0xFFFFF7F1, 0xFFFF, 0xFFFFF001, 0xFFFFF001, 0xFFFFF001, 0xFFFFF001}},
    [VERTEX_BUFFERS] = {0x78080000, 0, 0, 4, 33, {0, 0xFC7F6FFF, ~0u, 0xFFFF, ~0u}},
    [VERTEX_ELEMENTS] = {0x78090000, 0, 0, 2, 34, {0, 0xFFFF8FFF, 0x77770000}},
    [INDEX_BUFFER] = {0x780A0000, 0, 5, 0, 0, {0, 0x37F, ~0u, 0xFFFF, ~0u}},
    [TOPOLOGY] = {0x784B0000, 0, 2, 0, 0, {0, 0x3F}},
    [VIEWPORT] = {0x78230000, 0, 2, 0, 0, {0, 0xFFFFFFE0}},
    [COLOUR_CALC] = {0x780E0000, 0, 2, 0, 0, {0, 0xFFFFFFC1}},
    [PRIMITIVE] = {0x7B000000, 0x700, 7, 0, 0, {0, 0x33F, ~0u, ~0u, ~0u, ~0u, ~0u}},
    [BLEND] = {0x78240000, 0, 2, 0, 0, {0, 0xFFFFFFC1}},
};

uint32_t allowed(uint32_t row, uint32_t dword)
{
    return table[row].bits[table[row].group ? 1 + (dword - 1) % table[row].group : dword];
}

int fieldless(uint32_t row) { return table[row].length == 1; }

uint32_t good_register(void)
{
    static const uint32_t list[] = {0x2400, 0x2404, 0x2408, 0x240C, 0x2420, 0x2430, 0x2434, 0x2438,
                                    0x243C, 0x2440, 0x2600, 0x2604, 0x2678, 0x267C};
    return one_in(4) ? 0x2600 + 4 * below(32) : PICK(list);
}

static uint32_t good_format(void)
{
    static const uint32_t ranges[][2] = {{0x000, 0x008}, {0x020, 0x021}, {0x040, 0x046}, {0x080, 0x096}, {0x0A0, 0x0A1},
                                         {0x0C7, 0x0D3}, {0x0E3, 0x0EE}, {0x100, 0x11F}, {0x140, 0x150}, {0x193, 0x198},
                                         {0x1B0, 0x1BD}, {0x050, 0x050}, {0x181, 0x181}, {0x18E, 0x18E}, {0x1C8, 0x1C9}};
    const uint32_t *range = PICK(ranges);
    return range[0] + below(range[1] - range[0] + 1);
}

static uint32_t good_components(void)
{
    uint32_t used = 1 + below(4), dword = 0;
    for (uint32_t i = 0; i < 4; i++) dword = dword << 4 | (i < used ? 1 + below(4) : 0);
    return dword << 16;
}

static uint32_t good_topology(void)
{
    static const uint32_t edges[] = {0x01, 0x14, 0x16, 0x20, 0x3F};
    return one_in(2) ? PICK(edges) : one_in(2) ? 1 + below(20) : 0x20 + below(32);
}

void put_unused(uint32_t *low, uint64_t at)
{
    low[0] = (uint32_t)at;
    low[1] = (uint32_t)(at >> 32) & 0xFFFF;
}

void put_address(uint32_t *low, uint64_t at)
{
    put_unused(low, at);
    if (at & HALF) low[1] |= 0xFFFF0000;
}

/* `size` bytes in a window, at a multiple of `step`: at its start or end as often as between, or up to 2^47 or from there on. 0: it has no room. */
static int good_place(struct window w, uint64_t size, uint64_t step, uint64_t *at)
{
    if (size > w.bytes) return 0;
    uint64_t places = (w.bytes - size) / step + 1, half = w.at < HALF ? (HALF - w.at) / step : places, before = size / step;
    uint64_t which = one_in(4) ? 0 : one_in(3) ? places - 1 : dice_roll(&m.dice) % places;
    if (half < places && one_in(2)) which = one_in(2) && half >= before ? half - before : half;
    *at = w.at + which * step;
    return 1;
}

static int good_address(uint32_t *low, uint32_t which, uint64_t size)
{
    uint64_t at;
    if (!good_place(sure_window(which), size, size, &at)) return 0;
    put_address(low, at);
    return 1;
}

/* A range of bytes in one window: also the whole of it, and a single byte at either end. */
static void good_range(uint32_t *low, uint32_t *size)
{
    struct window w = sure_window(below(3));
    uint64_t at = 0;
    *size = 0;
    put_unused(low, dice_roll(&m.dice) >> 16);
    if (w.bytes == 0 || one_in(8)) return; /* no bytes: wherever it is */
    uint64_t most = one_in(4) ? w.bytes : 1 + below((uint32_t)w.bytes);
    good_place(w, most, 1, &at);
    put_address(low, at);
    *size = (uint32_t)most;
}

/* Each of these makes the rest of a command good whose operands are any allowed bits so far. 0: not possible here. */

static int good_load_imm(uint32_t *cmd, uint32_t length)
{
    for (uint32_t i = 1; i < length; i += 2) cmd[i] = good_register();
    return 1;
}

static int good_register_memory(uint32_t *cmd, uint32_t which)
{
    cmd[1] = good_register();
    return good_address(cmd + 2, which, 4);
}

static int good_pipe_control(uint32_t *cmd)
{
    if (one_in(2)) {
        cmd[1] &= ~0xC000u;
        cmd[2] = cmd[3] = cmd[4] = cmd[5] = 0;
        return 1;
    }
    cmd[1] |= (1 + below(3)) << 14;
    return good_address(cmd + 2, 2, 8);
}

/* A high dword of 16 bits, with the bits above as they have to be. */
static uint32_t good_high(int used)
{
    static const uint32_t edges[] = {0, 0x7FFF, 0x8000, 0xFFFF};
    uint32_t high = one_in(2) ? PICK(edges) : word() & 0xFFFF;
    return used && high > 0x7FFF ? high | 0xFFFF0000 : high;
}

static int good_base_address(uint32_t *cmd)
{
    static const uint8_t bases[] = {1, 4, 6, 8, 10};
    cmd[6] &= ~1u;
    for (uint32_t i = 0; i < 5; i++) cmd[bases[i] + 1] = good_high(cmd[bases[i]] & 1);
    if (m.aim == 14 || (m.fixed_base && m.has_base && !one_in(4))) return 1; /* bit 0 clear: the base stays */
    if (!m.fixed_base || !m.has_base) m.base = some_base();
    m.has_base = 1;
    put_address(cmd + 6, m.base | (cmd[6] & 0x7F0) | 1);
    return 1;
}

static int good_vertex_buffers(uint32_t *cmd, uint32_t length)
{
    static const uint32_t pitches[] = {0, 1, 2047, 2048}, indices[] = {0, 31, 32};
    for (uint32_t i = 1; i < length; i += 4) {
        uint32_t index = one_in(2) ? PICK(indices) : below(33), pitch = one_in(2) ? PICK(pitches) : below(2049);
        cmd[i] = (cmd[i] & 0x007F6000) | index << 26 | pitch;
        if ((cmd[i] & 0x6000) == 0x4000) good_range(cmd + i + 1, cmd + i + 3);
    }
    return 1;
}

static int good_vertex_elements(uint32_t *cmd, uint32_t length)
{
    for (uint32_t i = 1; i < length; i += 2) {
        uint32_t index = one_in(4) ? 32 : below(33);
        cmd[i] = (cmd[i] & 0x02008FFF) | index << 26 | good_format() << 16;
        cmd[i + 1] = good_components();
    }
    return 1;
}

static int good_index_buffer(uint32_t *cmd)
{
    cmd[1] = (cmd[1] & 0x7F) | below(3) << 8;
    good_range(cmd + 2, cmd + 4);
    return 1;
}

static int good_pointer(uint32_t *cmd, struct command *made)
{
    uint32_t used = (uint32_t)reads_by_bit_0(made->row);
    if (used && one_in(5)) return cmd[1] &= ~1u, 1; /* not used, so any pointer at all */
    if (m.has_base) made->structure = find_structure(made->row, &cmd[1]);
    cmd[1] |= used;
    return made->structure || m.aim == 14; /* 14 needs no structure, so any pointer will do */
}

static int good_primitive(uint32_t *cmd)
{
    cmd[0] |= word() & 0x700;
    if ((cmd[1] & 0x200) == 0) return 1;
    cmd[0] &= ~0x400u;
    cmd[1] &= ~0x100u;
    cmd[3] = cmd[5] = cmd[6] = 0;
    return 1;
}

static int good(uint32_t *cmd, struct command *made)
{
    switch (made->row) {
    case NOOP: return cmd[0] = one_in(2) ? 0 : word() & 0x3FFFFF, 1;
    case LOAD_IMM: return good_load_imm(cmd, made->length);
    case STORE_IMM: return good_address(cmd + 1, 2, made->length == 5 ? 8 : 4);
    case STORE_REG: return good_register_memory(cmd, 2);
    case LOAD_REG: return good_register_memory(cmd, below(3));
    case PIPE_CONTROL: return good_pipe_control(cmd);
    case BASE_ADDRESS: return good_base_address(cmd);
    case VERTEX_BUFFERS: return good_vertex_buffers(cmd, made->length);
    case VERTEX_ELEMENTS: return good_vertex_elements(cmd, made->length);
    case INDEX_BUFFER: return good_index_buffer(cmd);
    case TOPOLOGY: return cmd[1] = good_topology(), 1;
    case VIEWPORT:
    case COLOUR_CALC:
    case BLEND: return good_pointer(cmd, made);
    case PRIMITIVE: return good_primitive(cmd);
    default: return 1;
    }
}

/* The shortest or the longest of a row as often as one between; `most` bounds it. 0: even the shortest is too long. */
uint32_t some_length(uint32_t row, uint32_t most)
{
    uint32_t group = table[row].group, fit = most ? (most - 1) / (group ? group : 1) : 0;
    if (row == STORE_IMM && most > 4) return 4 + below(2);
    if (!group) return table[row].length <= most ? table[row].length : 0;
    if (fit > table[row].most) fit = table[row].most;
    if (fit == 0) return 0;
    uint32_t n = one_in(3) ? 1 : one_in(10) ? fit : 1 + below(fit < 4 ? fit : 4);
    return group * n + 1;
}

/* ---- Blocks ---- */

static struct command *note(uint32_t row, uint32_t length, int second)
{
    struct command *made = &m.commands[m.made++];
    *made = (struct command){m.at, row, length, 0, second};
    return made;
}

/* One more command of the row, if it fits before `end` and can be made to keep the rules. */
static int emit(uint32_t row, uint32_t end, int second)
{
    uint32_t length = some_length(row, end > m.at ? end - m.at : 0), *cmd = m.c->batch + m.at;
    if (length == 0 || m.made == COMMANDS) return 0;
    struct command *made = note(row, length, second);
    cmd[0] = table[row].header | (fieldless(row) ? 0 : length - 2) | (row == STORE_IMM && length == 5 ? 0x200000 : 0);
    for (uint32_t i = 1; i < length; i++) cmd[i] = word() & allowed(row, i);
    if (!good(cmd, made)) return m.made--, 0;
    m.at += length;
    return 1;
}

/* A start that goes to a block, whose place is not known yet, or to the dword `to` if that is not 0. */
void emit_start(int call, uint32_t block, uint32_t to)
{
    uint32_t *cmd = m.c->batch + m.at;
    note(BATCH_START, 3, 0);
    cmd[0] = 0x18800101 | (call ? 0x400000 : 0);
    put_address(cmd + 1, m.c->batch_at + 4 * (uint64_t)to);
    if (to == 0) m.patches[m.patched] = m.at + 1, m.targets[m.patched++] = block;
    if (call && !m.fixed_base) m.has_base = 0; /* the batch that is called may set another */
    m.at += 3;
}

static void emit_end(int second)
{
    note(BATCH_END, 1, second);
    m.c->batch[m.at++] = 0x05000000;
}

static void patch(void)
{
    for (uint32_t i = 0; i < m.patched; i++)
        put_address(m.c->batch + m.patches[i], m.c->batch_at + 4 * (uint64_t)m.starts[m.targets[i]]);
}

/* A primitive whose operands are commands themselves, up to an end: a second-level batch in the middle of a command. */
static void emit_hiding(uint32_t end)
{
    if (m.at + 7 > end || m.made == COMMANDS) return;
    uint32_t *cmd = m.c->batch + m.at;
    note(PRIMITIVE, 7, 0);
    cmd[0] = 0x7B000005;
    cmd[1] = word() & 0x13F;
    for (uint32_t i = 2; i < 6; i++) cmd[i] = one_in(2) ? word() & 0x3FFFFF : 0x69040000;
    cmd[6] = 0x05000000;
    m.hidden = m.at + 2 + below(5);
    m.at += 7;
}

static uint32_t some_row(void)
{
    static const uint8_t often[] = {NOOP, NOOP, LOAD_IMM, STORE_IMM, STORE_IMM, STORE_REG, LOAD_REG, PIPE_CONTROL,
                                    PIPE_CONTROL, PIPELINE_SELECT, BASE_ADDRESS, VERTEX_BUFFERS, VERTEX_ELEMENTS,
                                    INDEX_BUFFER, TOPOLOGY, VIEWPORT, VIEWPORT, COLOUR_CALC, COLOUR_CALC, BLEND, BLEND, PRIMITIVE};
    static const uint8_t pointers[] = {COLOUR_CALC, BLEND, VIEWPORT};
    if (m.aim >= 14 && m.aim <= 17 && one_in(2)) return pointers[below(m.aim == 16 ? 2 : 3)];
    return PICK(often);
}

struct shape {
    uint32_t mains, seconds; /* first-level blocks, which follow one another; and second-level ones, which are called */
};

/* The commands of a block up to `end`; what ends it stands after them. */
static void emit_commands(struct shape s, uint32_t end, uint32_t commands, int second)
{
    for (uint32_t i = 0; i < commands; i++) {
        uint32_t to = m.hidden && one_in(3) ? m.hidden : 0;
        if (m.at + 3 <= end && m.made < COMMANDS && !second && s.seconds > 0 && one_in(m.aim == 11 ? 2 : 4))
            emit_start(1, s.mains + below(s.seconds), to);
        else if (!second && one_in(20))
            emit_hiding(end);
        else if (!emit(some_row(), end, second))
            emit(NOOP, end, second);
    }
}

static void junk(uint32_t count)
{
    while (count-- > 0 && m.at < m.limit) m.c->batch[m.at++] = one_in(4) ? 0x05000000 : word();
}

/* `tail`: what the blocks still to come need for their jumps and ends. */
static void emit_block(struct shape s, uint32_t block, uint32_t tail, uint32_t commands)
{
    int second = block >= s.mains;
    uint32_t end = m.limit > tail + 3 ? m.limit - tail - 3 : 0;
    m.starts[block] = m.at;
    if (!m.fixed_base) m.has_base = m.cut && block == 0; /* which is made and run before all others */
    if (block == 0 && m.fixed_base && !m.cut) m.fixed_base = emit(BASE_ADDRESS, end, 0);
    emit_commands(s, end, commands, second);
    if (second || block + 1 == s.mains) emit_end(second);
    else emit_start(0, block + 1, 0);
}

/* Block 0 stands first, the others in any order after it, with junk between them. */
static void emit_blocks(struct shape s)
{
    uint32_t blocks = s.mains + s.seconds, order[BLOCKS] = {0}, commands = 1 + below(one_in(4) ? 400 : 12);
    uint32_t in_mains = m.is_long ? 1 + below(one_in(2) ? LIMIT / 4 : 1000) : commands; /* what is called has fewer, or the budget would end most runs */
    for (uint32_t i = 0; i < blocks; i++) {
        uint32_t j = i > 1 ? 1 + below(i) : i;
        order[i] = order[j];
        order[j] = i;
    }
    for (uint32_t i = 0; i < blocks; i++) {
        uint32_t tail = 3 * (blocks - i - 1);
        emit_block(s, order[i], tail, order[i] < s.mains ? in_mains : commands);
        if (one_in(3) && m.at + tail + 3 <= m.limit) junk(below(4));
        if (m.is_long && m.at + tail + 3 <= m.limit) junk(below(m.limit - m.at - tail - 2)); /* far jumps */
    }
    patch();
}

/* ---- Runs ---- */

/* Windows of some lengths at some places, and structures in the state window. */
void begin_windows(void)
{
    m.c->batch_len = m.aim == ENDLESS_RUN || m.aim == EXACT_RUN ? most_dwords() : batch_length();
    m.c->state_len = m.cut && one_in(4) ? 0 : state_length();
    if (m.is_long && m.c->batch_len >= LIMIT - 1) m.whole = 1; /* or its code would decide how long it is */
    if (m.cut && m.c->state_len == 0) { /* its structures can only stand in the batch */
        m.whole = 1;
        if (m.c->batch_len < 128) m.c->batch_len += 128;
    }
    m.c->scratch_len = scratch_length();
    place_windows();
    fill_structures(m.c->state, 0, (uint32_t)m.c->state_len);
}

/* A run that ought to be accepted. The batch ends with the code, or later, with structures or junk in between. */
void make_run(void)
{
    struct capture *c = m.c;
    uint32_t planned = (uint32_t)c->batch_len, mains = 1 + below(one_in(3) ? 5 : 1);
    struct shape s = {mains, below(one_in(2) ? 6 : 1)};
    if (m.aim == 11) s.seconds++;
    if (planned < 3 * (s.mains + s.seconds) + 1) s = (struct shape){1, 0};

    m.data = m.whole && planned >= 128 ? (planned - 16 * below(6)) / 16 * 16 : planned;
    m.limit = m.data;
    fill_structures(c->batch, m.data, planned);
    emit_blocks(s);
    if (!m.whole) c->batch_len = m.at;
    for (uint32_t i = m.at; m.whole && i < m.data; i++) c->batch[i] = one_in(3) ? 0 : word();
}

static void emit_short(uint32_t end, int second)
{
    static const uint8_t rows[] = {NOOP, NOOP, NOOP, STORE_IMM, STORE_REG, LOAD_REG, PIPE_CONTROL, PIPELINE_SELECT, TOPOLOGY};
    if (!emit(PICK(rows), end, second)) emit(NOOP, end, second);
}

/* A loop that never ends; at its smallest a start that goes to itself. */
void make_endless(void)
{
    uint32_t before = one_in(3) ? 0 : below(m.is_long ? 8000 : 40), in_loop = one_in(3) ? 0 : below(40), called = below(20);
    uint32_t end = m.limit = most_dwords();
    m.whole = 0;
    for (uint32_t i = 0; i < before; i++) emit_short(end, 0);
    m.starts[0] = m.at;
    for (uint32_t i = 0; i < in_loop; i++) emit_short(end, 0);
    if (one_in(2)) emit_start(1, 1, 0);
    emit_start(0, 0, 0);
    m.starts[1] = m.at;
    for (uint32_t i = 0; i < called; i++) emit_short(end, 1);
    emit_end(1);
    patch();
    m.c->batch_len = m.at;
}

/* Starts that call `to`, single commands, and what comes after these: an end, or no more, or something that is no command. */
static void emit_calls(uint32_t calls, uint32_t to, uint32_t singles, uint32_t kind)
{
    for (uint32_t i = 0; i < calls; i++) emit_start(1, 0, to);
    for (uint32_t i = 0; i < singles; i++) emit(NOOP, m.limit, 0);
    if (kind == 0) emit_end(0);
    else emit(NOOP, m.limit, 0);
    if (kind == 2) m.c->batch[m.at++] = one_in(2) ? 0x40000000 : word();
}

/*
 * A run of a number of commands that is at the budget or next to it: a second-level batch, called again and again, and so many
 * single commands after the calls that the sum is right.
 */
void make_exact(void)
{
    uint32_t total = BUDGET - 2 + below(5), kind = one_in(2) ? 0 : 1 + below(2), jumps = kind != 0 || one_in(2);
    uint32_t calls = (m.is_long ? 2 : 20) + below(60), each = (total - jumps - 1) / calls, singles = (total - jumps - 1) % calls;
    uint32_t main_dwords = 3 * calls + singles + 2;
    m.limit = most_dwords(), m.whole = 0;
    if (jumps) emit_start(0, 1, 0); /* over the second-level batch, to what calls it */
    else emit_calls(calls, main_dwords - 1, singles, kind);
    for (uint32_t i = each - 2; i > 0; i--) emit_short(m.limit - i - (jumps ? main_dwords : 0), 1);
    emit_end(1);
    m.starts[1] = m.at;
    if (jumps) emit_calls(calls, 3, singles, kind);
    patch();
    m.c->batch_len = m.at;
}

/* Headers with anything behind them. */
void make_noise(void)
{
    struct capture *c = m.c;
    for (uint32_t i = 0; i < c->batch_len; i++) {
        uint32_t row = below(ROWS), header = table[row].header | (word() & table[row].open);
        c->batch[i] = one_in(2) ? header | (fieldless(row) ? 0 : below(20)) : one_in(3) ? 0 : word();
    }
}
