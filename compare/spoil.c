/* Rules broken in a run that keeps them: in its windows, in one of its commands, at its end, or blindly. */
#include "maker.h"

/* ---- Faults in windows: 1 to 4 ---- */

static void lengthen(uint32_t *words, size_t *len)
{
    size_t longer = LIMIT + 1 + below(one_in(2) ? 1 : LENT_MOST - LIMIT);
    for (size_t i = *len; i < longer; i++) words[i] = 0;
    *len = longer;
}

static void spoil_counts(void)
{
    struct capture *c = m.c;
    if (one_in(3)) c->batch_len = 0;
    else if (one_in(2)) lengthen(c->batch, &c->batch_len);
    else lengthen(c->state, &c->state_len);
}

static void spoil_alignment(void)
{
    static const uint32_t edges[] = {1, 2, 4, 8, 64, 2048, 4092, 4095};
    uint32_t which = below(3);
    set_address(which, window(which).at + (one_in(2) ? PICK(edges) : 1 + below(4095)));
}

static void spoil_height(void)
{
    uint32_t which = below(3);
    uint64_t pages = rounded(window(which).bytes);
    const uint64_t edges[] = {TOP, TOP - pages + PAGE, TOP + PAGE, TOP - pages, (uint64_t)1 << 63, (uint64_t)0 - PAGE,
                              (uint64_t)0 - pages, ((uint64_t)1 << 63) - PAGE};
    set_address(which, PICK(edges));
}

static void spoil_apartness(void)
{
    uint32_t which = below(3), other = (which + 1 + below(2)) % 3;
    struct window w = window(which), o = window(other);
    const uint64_t edges[] = {o.at, o.at + rounded(o.bytes) - PAGE, o.at - rounded(w.bytes) + PAGE,
                              o.at + rounded(o.bytes), o.at - rounded(w.bytes)};
    set_address(which, PICK(edges));
}

void spoil_windows(int number)
{
    switch (number) {
    case 1: spoil_counts(); break;
    case 2: spoil_alignment(); break;
    case 3: spoil_height(); break;
    default: spoil_apartness();
    }
}

/* ---- Faults in commands: each says whether the command could be given one ---- */

static int spoil_key(uint32_t *cmd, const struct command *made)
{
    uint32_t lowest = made->row < PIPE_CONTROL ? 23 : 16;
    cmd[0] = one_in(6) ? word() : cmd[0] ^ 1u << (lowest + below(32 - lowest));
    return 1;
}

static int spoil_length(uint32_t *cmd, const struct command *made)
{
    uint32_t field = cmd[0] & 0xFF, over = table[made->row].group * (table[made->row].most + 1) - 1; /* a group too many */
    const uint32_t fields[] = {field + 1, field - 1, field + 2, field + 4, 0, 0xFF, word(), over};
    if (fieldless(made->row)) return 0;
    if (made->row == STORE_IMM && one_in(2)) return cmd[0] ^= 0x200000, 1;
    cmd[0] = (cmd[0] & ~0xFFu) | (PICK(fields) & 0xFF);
    return 1;
}

/* A high dword of an address in the command, or none. */
static uint32_t *some_high(uint32_t *cmd, const struct command *made)
{
    static const uint8_t bases[] = {2, 5, 7, 9, 11};
    switch (made->row) {
    case BATCH_START:
    case STORE_IMM: return cmd + 2;
    case STORE_REG:
    case LOAD_REG:
    case PIPE_CONTROL:
    case INDEX_BUFFER: return cmd + 3;
    case BASE_ADDRESS: return cmd + PICK(bases);
    case VERTEX_BUFFERS: return cmd + 3 + 4 * below((made->length - 1) / 4);
    default: return 0;
    }
}

/* A used address becomes one that is not, or the other way round, where its command can do without it. */
static void spoil_use(uint32_t *cmd, const struct command *made, uint32_t *high)
{
    switch (made->row) {
    case PIPE_CONTROL: cmd[1] ^= 0x4000; break;
    case BASE_ADDRESS: high[-1] ^= 1; break;
    case VERTEX_BUFFERS:
        if (one_in(2)) high[-2] ^= one_in(2) ? 0x2000 : 0x4000;
        else high[1] = high[1] ? 0 : 1 + below(64);
        break;
    case INDEX_BUFFER: high[1] = high[1] ? 0 : 1 + below(64); break;
    }
}

/* High dwords about their edges, with the upper bits of the other half, or with another of them; most that are used are then not canonical. */
static int spoil_high(uint32_t *cmd, const struct command *made)
{
    static const uint32_t edges[] = {0,          0x7FFF,     0x8000,     0xFFFF,     0x10000,    0x18000,
                                     0xFFFF7FFF, 0xFFFF8000, 0xFFFFFFFF, 0x7FFFFFFF, 0x80000000, 0xFFFF0000};
    uint32_t *high = some_high(cmd, made), bit = 1u << (15 + below(17)), edge = PICK(edges);
    if (!high) return 0;
    switch (below(4)) {
    case 0: *high = edge; break;
    case 1: *high ^= bit; break;
    case 2: spoil_use(cmd, made, high); break;
    default: *high ^= 0xFFFF0000;
    }
    return 1;
}

static int spoil_bits(uint32_t *cmd, const struct command *made)
{
    if (one_in(8)) return spoil_high(cmd, made);
    uint32_t dword = one_in(4) ? 0 : below(made->length), bit = below(32);
    uint32_t outside = dword ? ~allowed(made->row, dword) : ~table[made->row].open;
    if (dword == 0) outside &= (made->row < PIPE_CONTROL ? 0x7FFFFF : 0xFFFF) & (fieldless(made->row) ? ~0u : ~0xFFu);
    if (outside == 0) return 0;
    while ((outside >> bit & 1) == 0) bit = (bit + 1) % 32;
    cmd[dword] |= 1u << bit;
    return 1;
}

static int spoil_nesting(uint32_t *cmd, const struct command *made)
{
    if (!made->second || made->at + 3 > m.c->batch_len) return 0;
    cmd[0] = 0x18800001 | (one_in(4) ? 0 : 0x100);
    cmd[0] |= one_in(2) ? 0x400000 : 0;
    put_address(cmd + 1, one_in(4) ? word() & ~3u : m.c->batch_at);
    return 1;
}

static uint32_t bad_register(void)
{
    static const uint32_t list[] = {0x2410, 0x2414, 0x241C, 0x2424, 0x242C, 0x2444, 0x2448, 0x23FC, 0x25FC, 0x2680, 0, 0x7FFFFC};
    uint32_t bit = 1u << (2 + below(21));
    return one_in(5) ? word() & 0x7FFFFC : one_in(5) ? good_register() ^ bit : PICK(list);
}

static int spoil_load_imm(uint32_t *cmd, uint32_t length)
{
    uint32_t offset = bad_register();
    cmd[1 + 2 * below((length - 1) / 2)] = offset;
    return 1;
}

static int spoil_pipe_control(uint32_t *cmd)
{
    uint32_t dword = 2 + below(4), bits = allowed(PIPE_CONTROL, dword);
    if (cmd[1] & 0xC000) return cmd[2] |= 4, 1;
    cmd[dword] = one_in(2) ? word() & bits : 4u << below(8);
    return 1;
}

static int spoil_buffer(uint32_t *cmd, uint32_t length)
{
    uint32_t *group = cmd + 1 + 4 * below((length - 1) / 4);
    if (one_in(2)) *group = (*group & 0x03FFFFFF) | (33 + below(one_in(2) ? 1 : 31)) << 26;
    else *group = (*group & ~0xFFFu) | (2049 + below(one_in(2) ? 1 : 2047));
    return 1;
}

static int spoil_element(uint32_t *cmd, uint32_t length)
{
    uint32_t *group = cmd + 1 + 2 * below((length - 1) / 2), nibble = 16 + 4 * below(4);
    switch (below(3)) {
    case 0: group[0] = (group[0] & 0x03FFFFFF) | (33 + below(one_in(2) ? 1 : 31)) << 26; break;
    case 1: group[0] = (group[0] & ~0x01FF0000u) | below(512) << 16; break;
    default: group[1] = one_in(2) ? word() & 0x77770000 : group[1] ^ 1u << (nibble + below(3));
    }
    return 1;
}

static int spoil_primitive(uint32_t *cmd)
{
    static const uint32_t dwords[] = {3, 5, 6};
    uint32_t bit = 1u << below(32);
    cmd[1] |= 0x200;
    switch (below(3)) {
    case 0: cmd[0] |= 0x400; break;
    case 1: cmd[1] |= 0x100; break;
    default: cmd[PICK(dwords)] = bit;
    }
    return 1;
}

static int spoil_value(uint32_t *cmd, const struct command *made)
{
    static const uint32_t topologies[] = {0, 0x15, 0x17, 0x1F, 0x18};
    if (one_in(3)) return spoil_high(cmd, made);
    switch (made->row) {
    case BATCH_START: return cmd[0] &= ~0x100u, 1;
    case LOAD_IMM: return spoil_load_imm(cmd, made->length);
    case STORE_IMM: return cmd[1] |= 4, made->length == 5;
    case STORE_REG:
    case LOAD_REG: return cmd[1] = bad_register(), 1;
    case PIPE_CONTROL: return spoil_pipe_control(cmd);
    case VERTEX_BUFFERS: return spoil_buffer(cmd, made->length);
    case VERTEX_ELEMENTS: return spoil_element(cmd, made->length);
    case INDEX_BUFFER: return cmd[1] |= 0x300, 1;
    case TOPOLOGY: return cmd[1] = PICK(topologies), 1;
    case PRIMITIVE: return spoil_primitive(cmd);
    default: return 0;
    }
}

/* `size` bytes at a multiple of `step`, at the edge of a window, in another window or nowhere near. */
static uint64_t bad_place(uint64_t size, uint64_t step, uint64_t at)
{
    struct window w = window(below(3));
    uint64_t anywhere = dice_roll(&m.dice) / step * step, high_bit = (uint64_t)1 << (32 + below(16));
    const uint64_t edges[] = {w.at - step, (w.at + w.bytes) / step * step, (w.at + w.bytes - size) / step * step + step,
                              TOP - step, w.at, anywhere, at ^ high_bit, 0, at + step, at - step, at ^ HALF, HALF, HALF - step};
    return PICK(edges) % TOP;
}

static int spoil_address(uint32_t *low, uint64_t size)
{
    uint64_t at = low[0] | (uint64_t)low[1] << 32;
    put_address(low, bad_place(size, size, at));
    return 1;
}

/* A range that hangs over an edge of its window by as little as a byte, or whose end is past all addresses. */
static int spoil_bytes(uint32_t *low, uint32_t *size)
{
    struct window w = window(below(3));
    uint64_t inside = w.bytes ? dice_roll(&m.dice) % w.bytes : 0, left = w.bytes - inside;
    uint64_t at = w.at + inside, bytes = left + 1 + (one_in(2) ? 0 : below(PAGE));
    switch (below(4)) {
    case 0: at = w.at - 1, bytes = 1 + below(4); break;
    case 1: at = (one_in(2) ? TOP : HALF) - 1 - below(8), bytes = one_in(2) ? 0xFFFFFFFF : 1 + below(16); break;
    case 2: bytes = 0xFFFFFFFF - below(2); break;
    }
    put_address(low, at % TOP);
    *size = bytes > 0xFFFFFFFF ? 0xFFFFFFFF : (uint32_t)bytes;
    return 1;
}

static int spoil_range(uint32_t *cmd, const struct command *made)
{
    uint32_t *group = cmd + 1 + 4 * below((made->length - 1) / 4);
    switch (made->row) {
    case BATCH_START: return spoil_address(cmd + 1, 4);
    case STORE_IMM: return spoil_address(cmd + 1, made->length == 5 ? 8 : 4);
    case STORE_REG:
    case LOAD_REG: return spoil_address(cmd + 2, 4);
    case PIPE_CONTROL: return (cmd[1] & 0xC000) ? spoil_address(cmd + 2, 8) : 0;
    case VERTEX_BUFFERS:
        if (!one_in(8)) group[0] = (group[0] & ~0x2000u) | 0x4000; /* else it may be of no account */
        return spoil_bytes(group + 1, group + 3);
    case INDEX_BUFFER: return spoil_bytes(cmd + 2, cmd + 4);
    default: return 0;
    }
}

/*
 * A pointer to a structure that hangs over a window's end, stands just outside, in scratch, or from 2^48 on, also where a sum of 48 bits
 * would find it in a lent window again.
 */
static int spoil_pointer(uint32_t *cmd, const struct command *made)
{
    uint64_t step = made->row == VIEWPORT ? 32 : 64, past = TOP - m.base + (one_in(2) ? window(below(2)).at : 0);
    if (!made->structure) return 0;
    uint32_t pointer = (uint32_t)(bad_place(4 * structure_dwords(made->row), step, m.base) - m.base);
    if (past >> 32 == 0 && one_in(2)) pointer = (uint32_t)(past + step * below(8));
    cmd[1] = (one_in(8) ? word() : pointer) & ~(uint32_t)(step - 1);
    if (reads_by_bit_0(made->row)) cmd[1] |= 1;
    return 1;
}

static int spoil_structure_bits(const struct command *made)
{
    uint32_t dword = made->row == BLEND ? below(17) : 0, bit = below(32);
    if (!reads_by_bit_0(made->row) || !made->structure) return 0;
    uint32_t outside = made->row == COLOUR_CALC ? 0x7FFE : dword == 0 ? 0x7FFFF : dword % 2 ? 0x10 : 0x07FFFFE0;
    while ((outside >> bit & 1) == 0) bit = (bit + 1) % 32;
    made->structure[dword] |= 1u << bit;
    return 1;
}

static uint32_t nan_bits(void)
{
    static const uint32_t edges[] = {0x7F800001, 0xFF800001, 0x7FC00000, 0xFFC00000, 0x7FFFFFFF, 0xFFFFFFFF, 0x7FBFFFFF};
    return PICK(edges);
}

/* A code without a name in one of the six fields of an entry, in most cases with blending on. */
static int spoil_entry(uint32_t *entry)
{
    static const uint32_t factors[] = {0x00, 0x0B, 0x10, 0x16, 0x1B, 0x1F};
    uint32_t at = PICK(factors_at), code = PICK(factors), all = 31;
    if (one_in(3)) at = PICK(functions_at), code = 5 + below(3), all = 7;
    *entry = (*entry & ~(all << at)) | code << at;
    if (!one_in(8)) *entry |= 0x80000000;
    return 1;
}

static int spoil_structure_value(const struct command *made)
{
    uint32_t *words = made->structure, nan = nan_bits();
    if (!words) return 0;
    if (made->row == BLEND) return spoil_entry(words + 1 + 2 * below(8));
    if (made->row == COLOUR_CALC) return words[2 + below(4)] = nan, 1;
    if (one_in(2)) return words[below(2)] = nan, 1;
    uint32_t first = words[0]; /* the wrong way round, unless they are equal */
    words[0] = words[1], words[1] = first;
    return 1;
}

static int spoil(int number, const struct command *made)
{
    uint32_t *cmd = m.c->batch + made->at;
    switch (number) {
    case 7: return spoil_key(cmd, made);
    case 8: return spoil_length(cmd, made);
    case 10: return spoil_bits(cmd, made);
    case 11: return spoil_nesting(cmd, made);
    case 12: return spoil_value(cmd, made);
    case 13: return spoil_range(cmd, made);
    case 15: return spoil_pointer(cmd, made);
    case 16: return spoil_structure_bits(made);
    case 17: return spoil_structure_value(made);
    default: return 0;
    }
}

/* Now and then a second fault in the same command, which must not change which one is named unless it goes first. */
void plant(int number)
{
    static const uint8_t seconds[] = {7, 8, 10, 10, 11, 12, 12, 13, 13, 15, 16, 17};
    for (int tries = 0; tries < 40; tries++) {
        const struct command *made = &m.commands[below(m.made)];
        if (!spoil(number, made)) continue;
        if (one_in(3)) spoil(one_in(3) ? number : PICK(seconds), made);
        return;
    }
}

/* The batch ends too early: after a command (6), or inside one (9). Best in the last one, or earlier jumps go astray. */
void cut_short(int number)
{
    struct capture *c = m.c;
    struct command last = m.commands[one_in(4) ? below(m.made) : m.made - 1];
    uint32_t row = below(ROWS), length = some_length(row, most_dwords() - last.at), *cmd = c->batch + last.at;
    if (number == 6 && one_in(3) && last.at + 3 <= most_dwords()) { /* a call as the last command: what it keeps is the batch's end */
        m.at = last.at;
        emit_start(1, 0, m.starts[below(BLOCKS)]);
        c->batch_len = m.at;
    } else if (number == 6) {
        if (last.row == BATCH_END) cmd[0] = 0;
        c->batch_len = last.at + last.length;
    } else if (length > 1) {
        cmd[0] = table[row].header | (length - 2) | (row == STORE_IMM && length == 5 ? 0x200000 : 0);
        c->batch_len = last.at + 1 + below(one_in(2) ? 1 : length - 1);
        if (one_in(2)) c->batch_len = last.at + length - 1;
        for (uint32_t i = last.at + 1; i < c->batch_len; i++) c->batch[i] = 0;
        if (one_in(4)) cmd[0] ^= 1u << below(32);
    }
}

/* ---- Blind changes ---- */

void flip(void)
{
    struct capture *c = m.c;
    uint32_t which = below(3), at = below((uint32_t)c->batch_len), bit = 1u << below(32);
    switch (below(12)) {
    case 0: c->batch[at] = word(); break;
    case 1: c->batch[at] = c->batch[below((uint32_t)c->batch_len)]; break;
    case 2: if (c->state_len) c->state[below((uint32_t)c->state_len)] ^= bit; break;
    case 3: if (c->batch_len > 1) c->batch_len--; break;
    case 4: c->state_len -= c->state_len > 0; break;
    case 5: c->scratch_len = one_in(2) ? c->scratch_len ^ bit : c->scratch_len - 1; break;
    case 6: set_address(which, window(which).at ^ (uint64_t)1 << below(64)); break;
    case 7: set_address(which, window(which).at + PAGE); break;
    default: c->batch[at] ^= bit;
    }
}
