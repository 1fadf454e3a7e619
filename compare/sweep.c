/*
 * What need not be left to chance: the cases of document 01 with the answers that it gives for them, and then small captures
 * in which every bit, length field, code, edge and kind of high dword is tried one by one. Of these the answers are only compared.
 */
#include "harness.h"

static struct capture c;
static struct tally *tally;
static uint64_t tried;

/* On a busy machine all of them may take longer than a single call ever may. */
static int try_it(void)
{
    if (tried % 4096 == 0) alarm(SECONDS);
    return same_check(&c, ++tried, tally);
}

/* 2^48, the end of all addresses, and 2^47: from there on a used address has the bits above its 48 set. */
#define TOP ((uint64_t)1 << 48)
#define HALF ((uint64_t)1 << 47)

static void put_address(uint32_t *low, uint64_t at)
{
    low[0] = (uint32_t)at;
    low[1] = ((uint32_t)(at >> 32) & 0xFFFF) | (at & HALF ? 0xFFFF0000 : 0);
}

/* Room for so many commands; every second capture has an odd word more, which is room for none. */
static void lend_for(size_t commands) { c.records_len = 2 * commands + tried % 2; }

/* The windows of document 01's cases. */
static void usual_windows(void)
{
    c.batch_at = 0x100000, c.state_at = 0x200000, c.scratch_at = 0x300000;
    c.scratch_len = 4096;
    c.state_len = 0;
    lend_for(16);
}

static void set_batch(const uint32_t *words, size_t len)
{
    for (size_t i = 0; i < len; i++) c.batch[i] = words[i];
    c.batch_len = len;
}

/* ---- The cases C1 to C12 ---- */

struct expected {
    uint32_t len, words[8], room, reason, index, count, records[6];
    uint32_t by_default; /* the reason by the default base, if that is another than with none */
};

/* Document 01 starts with no base. Only C11 asks for one: by the default it has one, and its structure is in neither window, since the state window is empty. */
static const struct expected cases[] = {
    {0, {0}, 16, 1, 0, 0, {0}, 0},
    {1, {0x05000000}, 16, 0, 0, 1, {0, 0x01010000}, 0},
    {1, {0x00000000}, 16, 6, 1, 1, {0, 0x00010000}, 0},
    {1, {0x05000001}, 16, 10, 0, 0, {0}, 0},
    {1, {0x40000000}, 16, 7, 0, 0, {0}, 0},
    {3, {0x18800101, 0x00100000, 0}, 4, 18, 0, 4, {0, 0x02030000, 0, 0x02030000, 0, 0x02030000}, 0},
    {5, {0x18C00101, 0x00100010, 0, 0x05000000, 0x05000000}, 16, 0, 0, 3, {0x00000000, 0x02030000, 0x00010004, 0x01010000, 0x00000003, 0x01010000}, 0},
    {5, {0x10000002, 0x00300FFC, 0, 0, 0x05000000}, 16, 0, 0, 2, {0, 0x04040000, 4, 0x01010000}, 0},
    {6, {0, 0x10000002, 0x00301000, 0, 0, 0x05000000}, 16, 13, 2, 1, {0, 0x00010000}, 0},
    {5, {0x10200003, 0x00300FFC, 0, 0, 0}, 16, 12, 1, 0, {0}, 0},
    {2, {0x78230000, 0}, 16, 14, 1, 0, {0}, 15},
    {7, {0x7B000405, 0x200, 0, 0, 0, 0, 0}, 16, 12, 1, 0, {0}, 0},
};

static int is(struct lungevati_answer a, uint32_t reason, const struct expected *e)
{
    return a.reason == reason && a.window == 0 && a.index == e->index && a.count == e->count;
}

static int sweep_cases(void)
{
    for (uint32_t i = 0; i < sizeof cases / sizeof cases[0]; i++) {
        const struct expected *e = &cases[i];
        usual_windows();
        set_batch(e->words, e->len);
        lend_for(e->room);
        int right = try_it() && is(last_answers[NO_BASE], e->reason, e) &&
                    is(last_answers[STATE_WINDOW], e->by_default ? e->by_default : e->reason, e);
        for (uint32_t k = 0; k < 2 * e->count && k < 6; k++) right = right && last_records[k] == e->records[k];
        if (!right) return printf("case C%u of document 01 has another answer\n", i + 1), 0;
    }
    return 1;
}

/* ---- One good command of each row, and whatever can be changed in it ---- */

static const uint32_t samples[][17] = { /* length, then the dwords */
    {1, 0x00000000},
    {1, 0x05000000},
    {3, 0x18800101, 0x00100000, 0},
    {5, 0x11000003, 0x2400, 0, 0x267C, 0},
    {4, 0x10000002, 0x00300FFC, 0, 0},
    {5, 0x10200003, 0x00300FF8, 0, 0, 0},
    {4, 0x12000002, 0x2408, 0x00300000, 0},
    {4, 0x14800002, 0x2430, 0x00200000, 0},
    {6, 0x7A000004, 0x00000000, 0, 0, 0, 0},
    {6, 0x7A000004, 0x00004000, 0x00300FF8, 0, 0, 0},
    {1, 0x69040000},
    {16, 0x6101000E, 0, 0, 0, 0, 0, 0x00200001, 0, 0, 0, 0, 0, 0, 0, 0, 0},
    {9, 0x78080007, 0x80004800, 0x00300000, 0, 4096, 0, 0, 0, 0},
    {5, 0x78090003, 0x80000000, 0x44440000, 0, 0x10000000},
    {5, 0x780A0003, 0x200, 0x00100000, 0, 4},
    {2, 0x784B0000, 1},
    {2, 0x78230000, 0},
    {2, 0x780E0000, 1},
    {7, 0x7B000005, 0x000, 0, 0, 0, 0, 0},
    {7, 0x7B000005, 0x200, 0, 0, 0, 0, 0},
    {2, 0x78240000, 1},
};
enum { SAMPLES = sizeof samples / sizeof samples[0], BLEND_SAMPLE = SAMPLES - 1, BASE_DWORDS = 16, STATE_DWORDS = 17 };

/*
 * A batch that sets the dynamic base to the state window and then has the sample; zeros behind it, up to `zeros` of them,
 * and an end. The state window has zeros, which are a depth range, a colour state and, all of them, a blend state.
 */
static uint32_t *set_sample(uint32_t which, uint32_t zeros)
{
    usual_windows();
    c.state_len = STATE_DWORDS;
    for (uint32_t i = 0; i < STATE_DWORDS; i++) c.state[i] = 0;
    for (uint32_t i = 0; i < BASE_DWORDS; i++) c.batch[i] = samples[11][1 + i];
    uint32_t *cmd = c.batch + BASE_DWORDS, length = samples[which][0];
    for (uint32_t i = 0; i < length + zeros; i++) cmd[i] = i < length ? samples[which][1 + i] : 0;
    cmd[length + zeros] = 0x05000000;
    c.batch_len = BASE_DWORDS + length + zeros + 1;
    lend_for(4 + zeros);
    return cmd;
}

/* Every bit turned, alone and together with every other: two faults at once show which goes first. */
static int sweep_bits(uint32_t sample)
{
    uint32_t *cmd = set_sample(sample, 0), bits = 32 * samples[sample][0];
    if (!try_it()) return 0;
    for (uint32_t i = 0; i < bits; i++) {
        cmd[i / 32] ^= 1u << i % 32;
        for (uint32_t k = i; k < bits; k++) {
            if (k > i) cmd[k / 32] ^= 1u << k % 32;
            if (!try_it()) return 0;
            if (k > i) cmd[k / 32] ^= 1u << k % 32;
        }
        cmd[i / 32] ^= 1u << i % 32;
    }
    return 1;
}

/* The batch ends anywhere inside the command, and every bit of its header turned. */
static int sweep_cuts(uint32_t sample)
{
    uint32_t *cmd = set_sample(sample, 0);
    for (uint32_t left = 0; left <= samples[sample][0]; left++)
        for (uint32_t bit = 0; bit <= 32; bit++) {
            c.batch_len = BASE_DWORDS + left;
            cmd[0] = samples[sample][1] ^ (bit < 32 ? 1u << bit : 0);
            if (!try_it()) return 0;
        }
    return 1;
}

static int sweep_samples(void)
{
    for (uint32_t i = 0; i < SAMPLES; i++)
        if (!sweep_bits(i) || !sweep_cuts(i)) return 0;
    return 1;
}

/* Every length field, with room for the longest command and with too little. */
static int sweep_lengths(void)
{
    for (uint32_t s = 0; s < SAMPLES; s++)
        for (uint32_t field = 0; field < 512; field++) {
            uint32_t *cmd = set_sample(s, field < 256 ? 260 : field % 32);
            *cmd = (*cmd & ~0xFFu) | (field & 0xFF);
            if (!try_it()) return 0;
        }
    return 1;
}

/* Every value of some bits of one dword of a sample. */
static int sweep_field(uint32_t sample, uint32_t dword, uint32_t shift, uint32_t values, uint32_t step)
{
    for (uint32_t value = 0; value < values; value += step) {
        uint32_t *cmd = set_sample(sample, 0), keep = ~((values - 1) << shift);
        cmd[dword] = (cmd[dword] & keep) | value << shift;
        if (!try_it()) return 0;
    }
    return 1;
}

static int sweep_components(void)
{
    for (uint32_t i = 0; i < 8 * 8 * 8 * 8; i++) {
        set_sample(13, 0)[4] = (i >> 9) << 28 | (i >> 6 & 7) << 24 | (i >> 3 & 7) << 20 | (i & 7) << 16;
        if (!try_it()) return 0;
    }
    return 1;
}

static int sweep_codes(void)
{
    return sweep_field(13, 1, 16, 512, 1) && sweep_field(13, 3, 26, 64, 1) && sweep_field(12, 1, 26, 64, 1) &&
           sweep_field(12, 5, 0, 4096, 1) && sweep_field(15, 1, 0, 64, 1) && sweep_field(3, 3, 0, 0x8000, 4) &&
           sweep_field(6, 1, 0, 0x8000, 4) && sweep_field(7, 1, 0, 0x8000, 4) && sweep_components();
}

/* Header bits 10:8 and dword 1 bits 9:8 of a primitive, with one of its operands not zero. */
static int sweep_primitive(void)
{
    for (uint32_t i = 0; i < 8 * 4 * 8; i++) {
        uint32_t *cmd = set_sample(18, 0);
        cmd[0] |= (i & 7) << 8;
        cmd[1] = (i >> 3 & 3) << 8;
        if (i >> 5 > 1) cmd[i >> 5] = 1;
        if (i >> 5 < 7 && !try_it()) return 0;
    }
    return 1;
}

/* ---- Addresses: every few bytes about the edges of each window ---- */

static int sweep_address(uint32_t sample, uint32_t dword)
{
    static const uint64_t edges[] = {0x100000, 0x200000, 0x300000, 0x301000, 0x200044, 0, TOP, 0x100000000};
    for (uint32_t i = 0; i < 8; i++)
        for (uint64_t off = 0; off < 40; off += 4) {
            uint32_t *cmd = set_sample(sample, 0);
            put_address(cmd + dword, edges[i] + off - 20);
            if (!try_it()) return 0;
            cmd[dword] += (uint32_t)(4 * c.batch_len); /* the same about the batch's end */
            if (!try_it()) return 0;
        }
    return 1;
}

static int sweep_range(uint32_t sample, uint32_t dword, uint32_t size_dword)
{
    static const uint64_t edges[] = {0x100000, 0x200000, 0x300000, 0x301000, 0x200044, 0, TOP, 0x100000000};
    static const uint32_t sizes[] = {0, 1, 2, 3, 4, 67, 68, 69, 4095, 4096, 4097, 0xFFFFFFFF};
    for (uint32_t i = 0; i < 8 * 12 * 5; i++) {
        uint32_t *cmd = set_sample(sample, 0);
        put_address(cmd + dword, edges[i % 8] + i / 96 - 2);
        cmd[size_dword] = sizes[i / 8 % 12];
        if (!try_it()) return 0;
    }
    return 1;
}

static int sweep_addresses(void)
{
    return sweep_address(2, 1) && sweep_address(4, 1) && sweep_address(5, 1) && sweep_address(6, 2) &&
           sweep_address(7, 2) && sweep_address(9, 2) && sweep_range(12, 2, 4) && sweep_range(14, 2, 4);
}

/* ---- High dwords: of addresses that are used, and of others ---- */

static const uint32_t highs[] = {0,          1,          0x7FFF,     0x8000,     0xFFFF,     0x10000,    0x17FFF,    0x18000, 0x7FFFFFFF,
                                 0x80000000, 0xFFFEFFFF, 0xFFFF0000, 0xFFFF7FFF, 0xFFFF8000, 0xFFFFFFFE, 0xFFFFFFFF};
enum { HIGHS = sizeof highs / sizeof highs[0] };

/* Where the windows lie, and how long they are: below 2^47, from it on, up to it, about it one after the other, and up to 2^48. */
static const struct home {
    uint64_t batch, state, scratch;
    uint32_t batch_len, state_len, scratch_len;
} homes[] = {
    {0x100000, 0x200000, 0x300000, 64, 32, 4096},
    {HALF + 0x100000, HALF + 0x200000, HALF + 0x300000, 64, 32, 4096},
    {HALF, HALF + 0x2000, HALF + 0x1000, 1024, 32, 4096},
    {HALF + 0x2000, HALF, HALF + 0x1000, 64, 1024, 4095},
    {HALF + 0x1000, HALF + 0x2000, HALF, 64, 32, 4099},
    {HALF - 0x1000, HALF, HALF + 0x1000, 1024, 1024, 4096},
    {HALF + 0x1000, HALF - 0x1000, HALF, 64, 1024, 4096},
    {HALF, HALF + 0x1000, HALF - 0x1000, 64, 32, 4096},
    {HALF - 0x1000, HALF + 0x1000, HALF - 0x2000, 2000, 32, 4096},
    {HALF - 0x2000, HALF - 0x1000, HALF + 0x1000, 64, 2000, 4096},
    {HALF - 0x3000, HALF - 0x2000, HALF - 0x1000, 64, 32, 8192},
    {0x1000, 0x2000, HALF - 0x80000000, 64, 32, 0xFFFFFFFF},
    {TOP - 0x3000, TOP - 0x2000, TOP - 0x1000, 64, 32, 4096},
    {TOP - 0x1000, 0x1000, 0, 1024, 1024, 4096},
    {0, TOP - 0x1000, TOP - 0x100001000, 1024, 1024, 0xFFFFFFFF},
};
enum { HOMES = sizeof homes / sizeof homes[0], HOME_ADDRESSES = 8 };

/* A sample in those windows, with the base at the state window. */
static uint32_t *set_home(uint32_t which, uint32_t sample)
{
    const struct home *h = &homes[which];
    uint32_t *cmd = set_sample(sample, 0);
    for (size_t i = c.batch_len; i < h->batch_len; i++) c.batch[i] = 0;
    for (size_t i = c.state_len; i < h->state_len; i++) c.state[i] = 0;
    c.batch_at = h->batch, c.state_at = h->state, c.scratch_at = h->scratch;
    c.batch_len = h->batch_len, c.state_len = h->state_len, c.scratch_len = h->scratch_len;
    put_address(c.batch + 6, h->state | 1);
    return cmd;
}

/* Where something begins or ends there. */
static uint64_t home_address(uint32_t which, uint32_t i)
{
    const struct home *h = &homes[which];
    const uint64_t edges[HOME_ADDRESSES] = {h->batch, h->batch + 4 * h->batch_len,       h->state, h->state + 4 * h->state_len,
                                            h->scratch, h->scratch + h->scratch_len / 8 * 8, HALF,     TOP};
    return edges[i];
}

/* An address of a sample about each of these, as it has to be, with the upper bits of the other half, and with one of them too many. */
static int sweep_halves(uint32_t sample, uint32_t low, uint32_t step, uint32_t size_dword, uint32_t size)
{
    for (uint32_t i = 0; i < HOMES * HOME_ADDRESSES * 5 * 3; i++) {
        static const uint32_t turned[] = {0, 0xFFFF0000, 0x00010000};
        uint32_t home = i / (HOME_ADDRESSES * 5) % HOMES, *cmd = set_home(home, sample);
        put_address(cmd + low, home_address(home, i % HOME_ADDRESSES) + (uint64_t)(i / HOME_ADDRESSES % 5) * step - 2 * step);
        cmd[low + 1] ^= turned[i / (HOME_ADDRESSES * 5 * HOMES)];
        if (size_dword) cmd[size_dword] = size;
        if (!try_it()) return 0;
    }
    return 1;
}

/* The same address at the beginning of scratch, in windows below 2^47 and above, with each high dword, and each bit above turned. */
static int sweep_high(uint32_t sample, uint32_t low, uint32_t size_dword, uint32_t size)
{
    for (uint32_t i = 0; i < 2 * (16 + HIGHS); i++) {
        uint32_t *cmd = set_home(i % 2, sample), kind = i / 2;
        put_address(cmd + low, c.scratch_at);
        cmd[low + 1] = kind < 16 ? cmd[low + 1] ^ 1u << (16 + kind) : highs[kind - 16];
        if (size_dword) cmd[size_dword] = size;
        if (!try_it()) return 0;
    }
    return 1;
}

/* Vertex buffers: which of three is used, and by what, with each high dword, beside faults that go first and that do not. */
static int sweep_buffer_highs(uint32_t home)
{
    for (uint32_t i = 0; i < 3 * 8 * HIGHS * 6; i++) {
        uint32_t which = i % 3, use = i / 3 % 8, kind = i / 24 % HIGHS, extra = i / 24 / HIGHS;
        uint32_t *cmd = set_home(home, 12), *group = cmd + 1 + 4 * which;
        cmd[0] = 0x7808000B;
        for (uint32_t k = 1; k < 13; k += 4) {
            cmd[k] = 0x4010, cmd[k + 3] = 4;
            put_address(cmd + k + 1, c.scratch_at);
        }
        cmd[13] = 0x05000000;
        group[0] = (use & 3) << 13 | 0x10;
        group[2] = highs[kind];
        group[3] = use & 4 ? 4 : 0;
        if (extra == 1) cmd[9] |= 0x80000FFF; /* an index and a pitch in the last */
        if (extra == 2) cmd[1] |= 0x80000FFF;
        if (extra == 3) cmd[9] |= 0x8000; /* a bit in the last */
        if (extra == 4) cmd[11] ^= 0x00010000;
        if (extra == 5) cmd[2] -= 4; /* before scratch */
        if (!try_it()) return 0;
    }
    return 1;
}

/* The bases: each used or not, with each high dword, beside faults before and behind it. */
static int sweep_base_highs(void)
{
    static const uint8_t lows[] = {1, 4, 6, 8, 10};
    for (uint32_t i = 0; i < 5 * 2 * HIGHS * 9; i++) {
        uint32_t *cmd = set_sample(11, 0), low = lows[i % 5], used = i / 5 % 2, extra = i / 10 / HIGHS;
        cmd[low] = used;
        cmd[low + 1] = highs[i / 10 % HIGHS];
        if (extra == 1) cmd[3] = 1;
        if (extra == 2) cmd[15] = 2;
        if (extra == 3) cmd[0] |= 0x100;
        if (extra == 4) cmd[low] |= 2;
        if (extra >= 5) { /* another one, used and not canonical, or not used and with a bit too many */
            uint32_t other = lows[(i + extra) % 5];
            if (other == low) other = lows[(i + extra + 1) % 5];
            cmd[other] = extra % 2, cmd[other + 1] = extra < 7 ? 0x18000 : 0xFFFF8000;
        }
        if (!try_it()) return 0;
    }
    return 1;
}

/* Bases and pointers about the windows, 2^47 and 2^48, also where a sum of 48 bits would come to a window again. */
static int sweep_home_pointers(uint32_t sample)
{
    for (uint32_t i = 0; i < HOMES * HOME_ADDRESSES * HOME_ADDRESSES * 2 * 3; i++) {
        uint32_t home = i % HOMES, kind = i / HOMES % 3, page = i / (3 * HOMES) % 2;
        uint32_t *cmd = set_home(home, sample);
        uint64_t base = (home_address(home, i / (6 * HOMES) % HOME_ADDRESSES) & ~(uint64_t)0xFFF) - 0x1000 * page;
        uint64_t at = home_address(home, i / (6 * HOMES * HOME_ADDRESSES)) & ~(uint64_t)63;
        put_address(c.batch + 6, base | 1);
        if (kind == 1) c.batch[7] ^= 0xFFFF0000;
        cmd[1] = (uint32_t)(at - base - (kind == 2 ? 128 : 0)) | (samples[sample][2] & 1);
        if (!try_it()) return 0;
    }
    return 1;
}

/* The samples' addresses: their low dword, the step that they are tried in, and, where they have one, the dword of their size, and a size. */
static const uint32_t addresses[][5] = {{2, 1, 4, 0, 0},  {4, 1, 4, 0, 0},  {5, 1, 8, 0, 0},   {6, 2, 4, 0, 0},  {7, 2, 4, 0, 0},
                                        {8, 2, 4, 0, 0},  {9, 2, 8, 0, 0},  {12, 2, 1, 4, 1},  {12, 2, 1, 4, 0}, {12, 2, 32, 4, 64},
                                        {12, 6, 1, 8, 1}, {14, 2, 1, 4, 1}, {14, 2, 1, 4, 0},  {14, 2, 1, 4, 0xFFFFFFFF}};

static int sweep_highs(void)
{
    for (uint32_t i = 0; i < sizeof addresses / sizeof addresses[0]; i++) {
        const uint32_t *a = addresses[i];
        if (!sweep_halves(a[0], a[1], a[2], a[3], a[4]) || !sweep_high(a[0], a[1], a[3], a[4])) return 0;
    }
    return sweep_buffer_highs(0) && sweep_buffer_highs(1) && sweep_base_highs() && sweep_home_pointers(16) && sweep_home_pointers(17) &&
           sweep_home_pointers(BLEND_SAMPLE);
}

/* ---- Structures ---- */

static const uint32_t floats[] = {0,          0x80000000, 1,          0x80000001, 0x007FFFFF, 0x807FFFFF, 0x00800000,
                                  0x80800000, 0x3F800000, 0xBF800000, 0x3F800001, 0xBF800001, 0x7F7FFFFF, 0xFF7FFFFF,
                                  0x7F800000, 0xFF800000, 0x7F800001, 0xFF800001, 0x7FC00000, 0xFFC00000, 0x7FFFFFFF,
                                  0xFFFFFFFF};
enum { FLOATS = sizeof floats / sizeof floats[0] };

static int sweep_structures(void)
{
    for (uint32_t i = 0; i < FLOATS * FLOATS; i++) {
        set_sample(16, 0);
        c.state[0] = floats[i / FLOATS], c.state[1] = floats[i % FLOATS];
        if (!try_it()) return 0;
    }
    for (uint32_t i = 0; i < 6 * FLOATS; i++) {
        set_sample(17, 0);
        c.state[i / FLOATS] = floats[i % FLOATS];
        if (!try_it()) return 0;
    }
    for (uint32_t bit = 0; bit < 32; bit++) {
        set_sample(17, 0);
        c.state[0] = 1u << bit;
        if (!try_it()) return 0;
    }
    return 1;
}

/*
 * A blend state whose entries all have blending on and all codes 1 or 0, in the state window or behind the batch's end; gives back
 * its dwords, to be changed.
 */
static uint32_t *set_blend(int in_batch)
{
    uint32_t *cmd = set_sample(BLEND_SAMPLE, 0), *blend = in_batch ? c.batch + 32 : c.state;
    if (in_batch) {
        c.batch[6] = 0x00100001, cmd[1] = 0x81;
        for (size_t i = c.batch_len; i < 32; i++) c.batch[i] = 0;
        c.batch_len = 32 + 17;
    }
    for (uint32_t i = 0; i < 17; i++) blend[i] = i % 2 ? 0x84202100 : 0;
    return blend;
}

/*
 * Every bit of every dword: alone, and turned in a good one, of which an entry is wrong besides, or none. A bit goes first, wherever
 * it stands.
 */
static int sweep_blend_bits(int in_batch)
{
    for (uint32_t bit = 0; bit < 17 * 32; bit++) {
        uint32_t *blend = set_blend(in_batch);
        for (uint32_t i = 0; i < 17; i++) blend[i] = 0;
        blend[bit / 32] = 1u << bit % 32;
        if (!try_it()) return 0;
        for (uint32_t wrong = 0; wrong <= 8; wrong++) { /* the entry that is wrong, from 1 on */
            blend = set_blend(in_batch);
            if (wrong) blend[2 * wrong - 1] |= 0xE0;
            blend[bit / 32] ^= 1u << bit % 32;
            if (!try_it()) return 0;
        }
    }
    return 1;
}

/* Every code in each of the six fields of each entry, with blending on and off, in it and in those before it. */
static int sweep_blend_codes(int in_batch)
{
    static const uint32_t fields[6][2] = {{26, 32}, {21, 32}, {18, 8}, {13, 32}, {8, 32}, {5, 8}};
    for (uint32_t i = 0; i < 8 * 6 * 32 * 3; i++) {
        const uint32_t *field = fields[i / 8 % 6];
        uint32_t code = i / 48 % 32, on = i / 48 / 32, entry = i % 8, *blend = set_blend(in_batch);
        if (code >= field[1]) continue;
        for (uint32_t k = on == 2 ? 0 : entry; k <= entry; k++) {
            blend[1 + 2 * k] = (blend[1 + 2 * k] & ~((field[1] - 1) << field[0])) | code << field[0];
            if (on == 0 || k < entry) blend[1 + 2 * k] &= 0x7FFFFFFF;
        }
        if (!try_it()) return 0;
    }
    return 1;
}

static int sweep_blends(void)
{
    return sweep_blend_bits(0) && sweep_blend_bits(1) && sweep_blend_codes(0) && sweep_blend_codes(1);
}

/* Pointers about both lent windows, from bases near and far, with state windows of every length up to a structure's end. */
static int sweep_pointers(uint32_t sample)
{
    static const uint64_t bases[] = {0x200000, 0x1FF000, 0x100000, 0, 0x201000, 0xFFFFFFFFF000, 0xFFFF00001000};
    for (uint32_t i = 0; i < 7 * 18 * 8; i++) {
        uint32_t *cmd = set_sample(sample, 0);
        uint64_t base = bases[i % 7];
        c.state_len = i / 7 % 18;
        c.state[17] = 0;
        put_address(c.batch + 6, base | 1);
        cmd[1] = (uint32_t)(0x200000 - base + 32 * (i / 126) - 64) | (samples[sample][2] & 1);
        if (!try_it()) return 0;
    }
    return 1;
}

/* ---- The base at the start: structures that are read before any command has set one ---- */

/*
 * The state window at the usual place and below the batch, at 0, above 4 GiB, up to 2^47 and from it on, and up to 2^48; and an empty one: elsewhere, at 0,
 * at scratch, where the batch lies, a page before it and inside it, and at 2^48 itself.
 */
static const struct home starts[] = {
    {0x100000, 0x200000, 0x300000, 64, 32, 4096},      {0x200000, 0x100000, 0x300000, 64, 17, 4096},
    {0x100000, 0, 0x300000, 64, 32, 4096},             {0x100000, 0x700000000, 0x300000, 64, 32, 4096},
    {0x100000, HALF - 0x1000, 0x300000, 64, 1024, 4096}, {0x100000, HALF, 0x300000, 64, 32, 4096},
    {HALF + 0x200000, HALF + 0x100000, HALF, 64, 32, 4096}, {0, TOP - 0x1000, 0x300000, 64, 1024, 4096},
    {0x100000, 0x200000, 0x300000, 64, 0, 4096},       {0x100000, 0, 0x300000, 64, 0, 4096},
    {0, 0, 0x300000, 64, 0, 4096},                     {0x100000, 0x300000, 0x300000, 64, 0, 4096},
    {0x100000, 0x100000, 0x300000, 64, 0, 4096},       {0x101000, 0x100000, 0x300000, 64, 0, 4096},
    {0x100000, 0x101000, 0x300000, 2000, 0, 4096},     {HALF, HALF, 0x300000, 64, 0, 4096},
    {TOP - 0x1000, TOP - 0x1000, 0x300000, 1024, 0, 4096}, {0x100000, TOP, 0x300000, 64, 0, 4096},
    {0, TOP, 0x300000, 64, 0, 4096},                   {TOP - 0x1000, TOP, 0x300000, 1024, 0, 4096},
};
enum { STARTS = sizeof starts / sizeof starts[0], START_KINDS = 4, START_TARGETS = 7, START_STEPS = 6 };

static uint32_t *add(uint32_t *to, const uint32_t *words, uint32_t count)
{
    for (uint32_t i = 0; i < count; i++) *to++ = words[i];
    return to;
}

/*
 * The command that reads a structure, in those windows, which have zeros else: as the first command (kind 0); behind a STATE_BASE_ADDRESS that leaves the
 * dynamic base (1); before and behind one that sets it to the batch (2); and so too, the first time in a second-level batch, which sets it (3).
 */
static void set_start(const struct home *h, uint32_t kind, const uint32_t *cmd)
{
    const uint32_t end = 0x05000000;
    uint32_t call[3] = {0x18C00101, 0, 0}, base[BASE_DWORDS] = {0x6101000E}, *to = c.batch;
    put_address(call + 1, h->batch + 4 * 6);
    put_address(base + 6, h->batch | 1);
    if (kind == 1) base[6] &= ~1u, base[7] &= 0xFFFF;
    for (uint32_t i = 0; i < h->batch_len; i++) c.batch[i] = 0;
    for (uint32_t i = 0; i < h->state_len; i++) c.state[i] = 0;
    c.batch_at = h->batch, c.state_at = h->state, c.scratch_at = h->scratch;
    c.batch_len = h->batch_len, c.state_len = h->state_len, c.scratch_len = h->scratch_len;
    lend_for(8);

    if (kind == 1) to = add(to, base, BASE_DWORDS);
    if (kind == 3) to = add(to, call, 3);
    to = add(to, cmd, 2);
    if (kind == 3) to = add(add(to, &end, 1), cmd, 2); /* what is called stands at dword 6 */
    if (kind >= 2) to = add(to, base, BASE_DWORDS);
    if (kind == 2) to = add(to, cmd, 2);
    add(to, &end, 1);
}

/* Pointers about both windows' ends, a place in the batch, 2^47 and 2^48, as the state window's address reaches them, or a sum of 32 bits would. */
static int sweep_start(uint32_t sample, uint32_t step)
{
    for (uint32_t i = 0; i < STARTS * START_KINDS * START_TARGETS * START_STEPS; i++) {
        const struct home *h = &starts[i % STARTS];
        uint32_t kind = i / STARTS % START_KINDS, target = i / (STARTS * START_KINDS) % START_TARGETS;
        const uint64_t targets[START_TARGETS] = {h->state, h->state + 4 * h->state_len, h->batch, h->batch + 4 * 32,
                                                 h->batch + 4 * h->batch_len, HALF, TOP};
        uint64_t at = targets[target] + step * (uint64_t)(i / (STARTS * START_KINDS * START_TARGETS)) - 3 * step;
        const uint32_t cmd[2] = {samples[sample][1], ((uint32_t)(at - h->state) & ~(step - 1)) | (samples[sample][2] & 1)};
        set_start(h, kind, cmd);
        if (!try_it()) return 0;
    }
    return 1;
}

/* And state windows of every length up to a structure's end, of which one dword may have a fault. */
static int sweep_start_lengths(uint32_t sample)
{
    for (uint32_t i = 0; i < 19 * 19; i++) {
        struct home h = starts[0];
        h.state_len = i % 19;
        set_start(&h, 0, samples[sample] + 1);
        if (i / 19 < h.state_len) c.state[i / 19] = 0xFFFFFFFF;
        if (!try_it()) return 0;
    }
    return 1;
}

static int sweep_starts(void)
{
    return sweep_start(16, 32) && sweep_start(17, 64) && sweep_start(BLEND_SAMPLE, 64) && sweep_start_lengths(16) &&
           sweep_start_lengths(17) && sweep_start_lengths(BLEND_SAMPLE);
}

/* ---- Windows ---- */

static int sweep_windows(void)
{
    static const uint64_t places[] = {0, 0x1000, 0x2000, 0x2001, 0x3000, TOP - 0x1000, TOP, TOP + 0x1000, (uint64_t)1 << 63,
                                      (uint64_t)0 - 0x1000};
    static const uint32_t lens[][3] = {{1, 0, 0}, {1, 1, 1}, {1024, 1024, 4096}, {1025, 1025, 4097}, {1024, 0, 4096},
                                       {1024, 1024, 0}, {1, 4096, 0xFFFFFFFF}, {4096, 4097, 1}, {4097, 0, 8192}};
    for (uint32_t i = 0; i < 10 * 10 * 10 * 9; i++) {
        const uint32_t *len = lens[i / 1000];
        c.batch_at = places[i % 10], c.state_at = places[i / 10 % 10], c.scratch_at = places[i / 100 % 10];
        c.batch_len = len[0], c.state_len = len[1], c.scratch_len = len[2];
        lend_for(1);
        c.batch[0] = 0x05000000;
        if (!try_it()) return 0;
    }
    return 1;
}

/* The same for the longest windows, which take longer, at fewer places: one behind the other, over one another by a page, and up to 2^48. */
static int sweep_long_windows(void)
{
    static const uint64_t places[] = {0, 0x3F000, 0x40000, 0x41000, TOP - 0x40000, TOP - 0x3F000};
    static const uint32_t lens[][2] = {{65535, 65536}, {65536, 65535}, {65536, 65536}, {65536, 65537}, {65537, 65536}, {65537, 0}, {1, 65537}};
    for (uint32_t i = 0; i < 6 * 6 * 7; i++) {
        usual_windows();
        c.batch_at = places[i % 6], c.state_at = places[i / 6 % 6];
        c.batch_len = lens[i / 36][0], c.state_len = lens[i / 36][1], c.scratch_at = 0x1000000;
        c.batch[0] = 0x05000000;
        if (!try_it()) return 0;
    }
    return 1;
}

/* ---- Many of the same, of which a checker may look at several at once: so each of them is tried ---- */

struct repeated {
    uint32_t header, size, words[4]; /* a command of groups: its header without the field, a group's dwords, and a good group */
};

static const struct repeated pairs = {0x11000000, 2, {0x2600, 7}}, buffers = {0x78080000, 4, {0x4010, 0x00300040, 0, 64}},
                             elements = {0x78090000, 2, {0x02000000, 0x11110000}};
enum { GROUPS = 9, NOOPS = 40 };

/* A command of nine groups; gives back one of its dwords, to be changed. */
static uint32_t *set_groups(const struct repeated *r, uint32_t dword)
{
    usual_windows();
    c.batch[0] = r->header | (r->size * GROUPS - 1);
    for (uint32_t i = 0; i < r->size * GROUPS; i++) c.batch[1 + i] = r->words[i % r->size];
    c.batch[1 + r->size * GROUPS] = 0x05000000;
    c.batch_len = 2 + r->size * GROUPS;
    return c.batch + 1 + dword;
}

/* The values from `low` to `high`, in the bits of a mask, in one dword of each group. */
static int sweep_groups(const struct repeated *r, uint32_t dword, uint32_t mask, uint32_t low, uint32_t high)
{
    for (uint32_t at = dword; at < r->size * GROUPS; at += r->size)
        for (uint32_t value = low; value <= high; value++) {
            uint32_t *changed = set_groups(r, at);
            *changed = (*changed & ~mask) | value * (mask & -mask);
            if (!try_it()) return 0;
        }
    return 1;
}

static int sweep_group_bits(const struct repeated *r)
{
    for (uint32_t bit = 0; bit < 32 * r->size * GROUPS; bit++) {
        *set_groups(r, bit / 32) ^= 1u << bit % 32;
        if (!try_it()) return 0;
    }
    return 1;
}

/* Forty no-ops: each bit of each of them, and each room, in words. */
static int sweep_noops(void)
{
    for (uint32_t bit = 0; bit < 32 * NOOPS + 2 * (NOOPS + 4); bit++) {
        usual_windows();
        for (uint32_t i = 0; i < NOOPS; i++) c.batch[i] = bit / 32 == i ? 1u << bit % 32 : 0;
        c.batch[NOOPS] = 0x05000000;
        c.batch_len = NOOPS + 1;
        c.records_len = bit < 32 * NOOPS ? 2 * (NOOPS + 1) : bit - 32 * NOOPS;
        if (!try_it()) return 0;
    }
    return 1;
}

static int sweep_many(void)
{
    return sweep_groups(&pairs, 0, 0xFFFFFFFF, 0x2380, 0x26FF) && sweep_groups(&elements, 0, 0xFC000000, 0, 63) &&
           sweep_groups(&elements, 0, 0x01FF0000, 0, 511) && sweep_groups(&elements, 1, 0xF0000000, 0, 15) &&
           sweep_groups(&elements, 1, 0x0F000000, 0, 15) && sweep_groups(&elements, 1, 0x00F00000, 0, 15) &&
           sweep_groups(&elements, 1, 0x000F0000, 0, 15) && sweep_group_bits(&pairs) && sweep_group_bits(&buffers) &&
           sweep_group_bits(&elements) && sweep_noops();
}

/* ---- Long windows: what lies above dword 4,095, up to the last of 65,536 ---- */

enum { LONGEST = 65536 };

/* A batch of so many no-ops, with an end as its last dword or without, and room for so many words; and the answer that it must have. */
static int noops_answer(uint32_t len, int ends, size_t words, struct lungevati_answer must)
{
    usual_windows();
    for (uint32_t i = 0; i < len; i++) c.batch[i] = 0;
    if (ends) c.batch[len - 1] = 0x05000000;
    c.batch_len = len, c.records_len = words;
    if (!try_it()) return 0;
    struct lungevati_answer a = last_answers[STATE_WINDOW];
    if (a.reason == must.reason && a.window == must.window && a.index == must.index && a.count == must.count) return 1;
    return printf("a batch of %u no-ops%s, %lu record words: another answer\n", len, ends ? " with an end" : "", (unsigned long)words), 0;
}

#define MUST(...) (struct lungevati_answer){__VA_ARGS__}

/* The budget and the longest batch are the same number: what ends there, what does not, and what has not the room. */
static int sweep_longest_runs(void)
{
    return noops_answer(LONGEST, 1, 2 * LONGEST, MUST(0, 0, 0, LONGEST)) && noops_answer(LONGEST, 1, 2 * LONGEST + 1, MUST(0, 0, 0, LONGEST)) &&
           noops_answer(LONGEST, 1, RECORDS_MOST, MUST(0, 0, 0, LONGEST)) && noops_answer(LONGEST, 0, 2 * LONGEST, MUST(5, 0, LONGEST, LONGEST)) &&
           noops_answer(LONGEST, 0, RECORDS_MOST, MUST(5, 0, LONGEST, LONGEST)) &&
           noops_answer(LONGEST, 1, 2 * LONGEST - 1, MUST(18, 0, LONGEST - 1, LONGEST - 1)) &&
           noops_answer(LONGEST, 0, 2 * LONGEST - 1, MUST(18, 0, LONGEST - 1, LONGEST - 1)) &&
           noops_answer(LONGEST, 1, 2 * LONGEST - 2, MUST(18, 0, LONGEST - 1, LONGEST - 1)) &&
           noops_answer(LONGEST - 1, 0, 2 * LONGEST, MUST(6, 0, LONGEST - 1, LONGEST - 1)) &&
           noops_answer(LONGEST - 1, 1, 2 * LONGEST, MUST(0, 0, 0, LONGEST - 1)) && noops_answer(LONGEST + 1, 1, 2 * LONGEST, MUST(1, 0, 0, 0)) &&
           noops_answer(LONGEST, 1, 70001, MUST(18, 0, 35000, 35000)) && noops_answer(LONGEST, 1, 8192, MUST(18, 0, 4096, 4096)) &&
           noops_answer(LONGEST, 1, 1, MUST(18, 0, 0, 0)) && noops_answer(4097, 1, 8194, MUST(0, 0, 0, 4097));
}

/*
 * A second-level batch at the end is called twice, so that the budget is spent before the batch is: whatever stands there then is 5, and one command
 * earlier it is what it is.
 */
static int sweep_spent(void)
{
    enum { CALLED = 100, CALLS = 2, SINGLES = LONGEST - CALLS * (CALLED + 2) };
    static const uint32_t nexts[] = {0, 0x05000000, 0x40000000, 0x05000001, 0x00400000, 0x784B0001, 0x784B0000, 0x18800101, 0x78230000};
    for (uint32_t i = 0; i < 2 * sizeof nexts / sizeof nexts[0]; i++) {
        uint32_t at = 3 * CALLS + SINGLES - i % 2;
        usual_windows();
        for (uint32_t k = 0; k < LONGEST; k++) c.batch[k] = 0;
        for (uint32_t k = 0; k < CALLS; k++) {
            c.batch[3 * k] = 0x18C00101;
            put_address(c.batch + 3 * k + 1, c.batch_at + 4 * (LONGEST - CALLED - 1));
        }
        c.batch[at] = nexts[i / 2], c.batch[LONGEST - 1] = 0x05000000;
        c.batch_len = LONGEST, c.records_len = RECORDS_MOST - i % 2;
        if (!try_it()) return 0;
        struct lungevati_answer a = last_answers[STATE_WINDOW];
        if (i % 2 == 0 && (a.reason != 5 || a.index != at || a.count != LONGEST)) return printf("the spent budget has another answer\n"), 0;
    }
    return 1;
}

/* Dwords at the places where fewer bits than there are would end, and at the last. */
static const uint32_t far_places[] = {4094, 4095, 4096, 4097, 8192, 32768, 65500, 65519, 65520, 65532, 65533, 65534, 65535};
enum { FAR_PLACES = sizeof far_places / sizeof far_places[0] };

/* No-ops, and a jump or a call to a dword, where a sample stands and an end behind it, as far as the batch goes; the structure is the state's. */
static uint32_t *set_far(uint32_t at, int call, uint32_t sample, uint32_t len)
{
    usual_windows();
    for (uint32_t i = 0; i < len; i++) c.batch[i] = 0;
    c.batch[0] = call ? 0x18C00101 : 0x18800101;
    put_address(c.batch + 1, c.batch_at + 4 * (uint64_t)at);
    c.batch[3] = 0x05000000; /* where a call comes back to */
    for (uint32_t i = 0; i <= samples[sample][0] && at + i < len; i++) c.batch[at + i] = i < samples[sample][0] ? samples[sample][1 + i] : 0x05000000;
    for (uint32_t i = 0; i < STATE_DWORDS; i++) c.state[i] = 0;
    c.batch_len = len, c.state_len = STATE_DWORDS;
    return c.batch + at;
}

/* Each sample there, at both levels, in a batch that ends behind it or with it: as it is, and with each of its dwords wrong. */
static int sweep_far_commands(void)
{
    for (uint32_t i = 0; i < FAR_PLACES * SAMPLES * 4; i++) {
        uint32_t at = far_places[i % FAR_PLACES], sample = i / FAR_PLACES % SAMPLES, kind = i / (FAR_PLACES * SAMPLES);
        uint32_t length = samples[sample][0], len = kind / 2 ? at + length : at + length + 1;
        if (len > LONGEST) len = LONGEST;
        for (uint32_t dword = 0; dword <= length; dword++) {
            uint32_t *cmd = set_far(at, kind % 2, sample, len);
            if (dword < length && at + dword < len) cmd[dword] ^= dword ? 0xFFFFFFFF : 0x40000000;
            if ((dword == length || at == 65500 || dword < 2) && !try_it()) return 0; /* all of them at one place: it takes its time */
        }
    }
    return 1;
}

/* Room that ends at a far command, at each level; and a start that goes from there, to there and past the end. */
static int sweep_far_rooms(void)
{
    for (uint32_t i = 0; i < FAR_PLACES * 2 * 8; i++) {
        uint32_t at = far_places[i % FAR_PLACES], kind = i / FAR_PLACES % 2;
        set_far(at, (int)kind, 0, at + 2 > LONGEST ? LONGEST : at + 2);
        c.records_len = i / (FAR_PLACES * 2);
        if (!try_it()) return 0;
    }
    for (uint32_t i = 0; i < FAR_PLACES * FAR_PLACES * 2; i++) {
        uint32_t at = far_places[i % FAR_PLACES], to = far_places[i / FAR_PLACES % FAR_PLACES];
        uint32_t *cmd = set_far(at, 0, 2, LONGEST);
        if (at + 3 > LONGEST) continue;
        cmd[0] = i / (FAR_PLACES * FAR_PLACES) ? 0x18C00101 : 0x18800101;
        put_address(cmd + 1, c.batch_at + 4 * (uint64_t)(to == 65532 ? LONGEST : to));
        if (to < at || to > at + 2) c.batch[to] = 0x05000000; /* so that a call from the last dwords comes back to the batch's end */
        lend_for(8);
        if (!try_it()) return 0;
    }
    return 1;
}

/*
 * A structure at the last dwords of either window that a pointer reaches, with the window's end about it: a depth range at dword 65,528 (its place is a
 * multiple of 8), the others at multiples of 16. Each of its dwords may have a fault, or none has.
 */
static int sweep_far_structure(uint32_t sample, uint32_t dwords, uint32_t at, int in_batch)
{
    for (uint32_t i = 0; i < 6 * (dwords + 1); i++) {
        uint32_t wrong = i % (dwords + 1), cut = i / (dwords + 1), *words = in_batch ? c.batch : c.state;
        uint32_t len = cut == 0 ? LONGEST : cut == 5 ? at : at + dwords + 2 - cut;
        if (len > LONGEST) continue;
        usual_windows();
        for (uint32_t k = 0; k < len; k++) words[k] = 0;
        for (uint32_t k = 0; k < 2; k++) c.batch[k] = samples[sample][1 + k];
        c.batch[1] = 4 * at | (samples[sample][2] & 1);
        c.batch[2] = 0x05000000;
        c.batch_len = in_batch ? len : 3, c.state_len = in_batch ? 0 : len;
        if (in_batch) c.state_at = c.batch_at;
        if (wrong < dwords) words[at + wrong] = 0xFFFFFFFF;
        if (!try_it()) return 0;
    }
    return 1;
}

static int sweep_far_structures(void)
{
    for (int in_batch = 0; in_batch < 2; in_batch++)
        if (!sweep_far_structure(16, 2, 65528, in_batch) || !sweep_far_structure(17, 6, 65520, in_batch) ||
            !sweep_far_structure(BLEND_SAMPLE, 17, 65504, in_batch) || !sweep_far_structure(16, 2, 4096, in_batch))
            return 0;
    return 1;
}

/*
 * The last depth range that a pointer reaches, in a state window of 65,536 dwords: accepted. In one of 65,530 these are the last two, and a fault in the
 * last is named there. One of 65,537 is 1.
 */
static int last_depths(void)
{
    usual_windows();
    for (uint32_t i = 0; i < LONGEST; i++) c.state[i] = 0xFFFFFFFF; /* NaN all over, but there */
    c.state[65528] = 0x80000000, c.state[65529] = 0;
    set_batch((const uint32_t[]){0x78230000, 4 * 65528, 0x05000000}, 3);
    c.state_len = LONGEST;
    if (!try_it()) return 0;
    int right = last_answers[STATE_WINDOW].reason == 0 && last_answers[STATE_WINDOW].count == 2;
    c.state_len = 65530, c.state[65529] = 0xBF800000;
    if (!try_it()) return 0;
    struct lungevati_answer a = last_answers[STATE_WINDOW];
    right = right && a.reason == 17 && a.window == 1 && a.index == 65529 && a.count == 0;
    c.state_len = LONGEST + 1;
    if (!try_it()) return 0;
    right = right && last_answers[STATE_WINDOW].reason == 1;
    return right || (printf("a depth range at the end of a long state window has another answer\n"), 0);
}

static int sweep_long(void)
{
    return sweep_longest_runs() && sweep_spent() && sweep_long_windows() && sweep_far_commands() && sweep_far_rooms() && sweep_far_structures() && last_depths();
}

/* ---- Files ---- */

static void set_file(struct capture_file *f, uint32_t batch_count, uint32_t state_count, size_t len)
{
    const uint32_t words[4] = {0x1000, batch_count, state_count, (uint32_t)len};
    for (size_t i = 0; i < len; i++) f->bytes[i] = (uint8_t)(37 * i + 11);
    for (uint32_t i = 0; len >= 40 && i < 16; i++) f->bytes[len - 16 + i] = (uint8_t)(words[i / 4] >> 8 * (i % 4));
    f->len = len;
    f->batch_room = f->state_room = 8;
}

/* Counts about 4,096, in files of the size that they say: a check would take more, and a file may not have them. */
static int sweep_file_counts(struct capture_file *f)
{
    static const uint32_t counts[] = {0, 1, 4095, 4096, 4097, 4098, 8191, 8192};
    for (uint32_t i = 0; i < 8 * 8 * 2; i++) {
        uint32_t batch = counts[i % 8], state = counts[i / 8 % 8];
        size_t len = 40 + 4 * ((size_t)batch + state);
        if (len > FILE_MOST) continue;
        set_file(f, batch, state, len);
        f->batch_room = i / 64 ? 4096 : batch, f->state_room = i / 64 ? 4096 : state;
        if (!same_read(f, ++tried, tally)) return 0;
    }
    return 1;
}

static int sweep_files(void)
{
    static struct capture_file f;
    for (uint32_t len = 0; len < 100; len++)
        for (uint32_t counts = 0; counts < 8 * 8; counts++) {
            set_file(&f, counts / 8, counts % 8, len);
            if (!same_read(&f, ++tried, tally)) return 0;
        }
    for (uint32_t bit = 0; bit < 8 * 52; bit++) {
        set_file(&f, 2, 1, 52);
        f.bytes[bit / 8] ^= (uint8_t)(1u << bit % 8);
        if (!same_read(&f, ++tried, tally)) return 0;
    }
    for (uint32_t rooms = 0; rooms < 6 * 6; rooms++) {
        set_file(&f, 3, 2, 60);
        f.batch_room = rooms / 6, f.state_room = rooms % 6;
        if (!same_read(&f, ++tried, tally)) return 0;
    }
    for (size_t len = FILE_MOST - 240; len <= FILE_MOST; len++) {
        set_file(&f, 4096, 4096, len);
        f.batch_room = f.state_room = 4096;
        if (!same_read(&f, ++tried, tally)) return 0;
    }
    return sweep_file_counts(&f);
}

int sweep(struct tally *t)
{
    tally = t;
    if (!sweep_writes(t) || !sweep_turns(t)) return 0;
    alarm(SECONDS);
    return sweep_cases() && sweep_files() && sweep_long() && sweep_starts() && sweep_samples() && sweep_lengths() && sweep_codes() && sweep_primitive() && sweep_addresses() && sweep_highs() &&
           sweep_structures() && sweep_blends() && sweep_pointers(16) && sweep_pointers(17) && sweep_pointers(BLEND_SAMPLE) &&
           sweep_windows() && sweep_many();
}
