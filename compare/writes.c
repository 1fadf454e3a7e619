/*
 * Commands to be written, for the proved writer and the one in C: one by one, at random, and those that captures have. What is written is read
 * back, by the checker in C, which shares no table with the writer: it must find the row, and refuse by 7, 8, 9 and 10 just what the writer refuses.
 */
#include "harness.h"
#include "checker.h"
#include "maker.h"
#include "streamer.h"

enum { RANDOM = 6 }; /* commands at random for each capture */

static struct writing w;
static struct tally *tally;
static uint64_t tried;

/* ---- One command: both writers, and the checker ---- */

static void show_writing(void)
{
    printf("write: row %u, free bits %08x, %lu dwords, to dword %lx of %lu; dwords:", w.row, w.free_bits, (unsigned long)w.dwords_len,
           (unsigned long)w.first, (unsigned long)w.batch_len);
    for (size_t i = 0; i < w.dwords_len && i < 256; i++) printf(" %08x", w.dwords[i]);
    printf("\n");
}

/* The bits that a header is known by, and with them its field, if it has one: none of them is ever free. */
static uint32_t fixed_bits(uint32_t row)
{
    return (table[row].header >> 29 ? 0xFFFF0000 : 0xFF800000) | (fieldless(row) ? 0 : 0xFF);
}

/*
 * The number of 7 to 10 that the checker refuses a command by, or 0. It is given that command alone, and room for one record: what follows, or
 * where a start leads, is another command.
 */
static uint32_t refused_by(const uint32_t *cmd, size_t length)
{
    uint32_t record[2];
    struct lungevati_answer a = other_check(cmd, length, 0x100000, cmd, 0, 0x200000, 0x300000, 4096, record, 2);
    return a.count == 0 && a.reason <= 10 ? a.reason : 0;
}

/* The command as it would be written, whatever is wrong with it. 0: no command of the row looks like that. */
static int assemble(uint32_t *cmd)
{
    if (w.row >= ROWS || (w.free_bits & fixed_bits(w.row)) || w.dwords_len > 256 || fieldless(w.row) != (w.dwords_len == 0)) return 0;
    cmd[0] = table[w.row].header | w.free_bits | (fieldless(w.row) ? 0 : (uint32_t)w.dwords_len - 1);
    for (size_t i = 0; i < w.dwords_len; i++) cmd[1 + i] = w.dwords[i];
    return 1;
}

static int read_wrong(const char *what, uint32_t number)
{
    printf("DIFFERENT: the writers answer %u, and %s %u\n", last_write.reason, what, number);
    return 0;
}

/* What was written has the row and the dwords that were given, and the checker reads it; what was refused by 8 or 10, the checker refuses so too. */
static int reads_back(void)
{
    static uint32_t cmd[1 + 256];
    uint32_t reason = last_write.reason, length = 1 + (uint32_t)w.dwords_len;
    if (reason == 0) {
        const uint32_t *written = last_buffer + w.first;
        uint32_t row = stream_row(written[0]), number = refused_by(written, length);
        if (row != w.row) return read_wrong("what they wrote has row", row);
        if (!fieldless(row) && (written[0] & 0xFF) + 2 != length) return read_wrong("what they wrote has the field", written[0] & 0xFF);
        if ((written[0] & ~fixed_bits(row)) != w.free_bits) return read_wrong("what they wrote has the header", written[0]);
        for (uint32_t i = 1; i < length; i++)
            if (written[i] != w.dwords[i - 1]) return read_wrong("what they wrote differs in dword", i);
        return number == 0 || read_wrong("the checker refuses what they wrote by", number);
    }
    if (reason == 7) return w.row >= ROWS || read_wrong("that is for a row of the table:", w.row);
    if (!assemble(cmd)) return reason == 8 || reason == 10 || read_wrong("no command looks like that, of row", w.row);
    uint32_t number = refused_by(cmd, length);
    return number == (reason == 22 ? 0 : reason) || read_wrong("the checker, of the same command,", number);
}

static int write_it(uint64_t seed, struct tally *t)
{
    if (same_write(&w, seed, t) && reads_back()) return 1;
    show_writing();
    return 0;
}

/* ---- Those of a capture ---- */

/* A command of the batch, taken apart, and room for it somewhere. */
static void take_apart(const struct capture *c, uint32_t at, uint32_t row, uint32_t length, struct dice *d)
{
    uint64_t roll = dice_roll(d);
    w.row = row;
    w.free_bits = c->batch[at] & ~fixed_bits(row);
    w.dwords_len = length - 1;
    w.first = roll >> 61;
    w.batch_len = w.first + length + (roll >> 56 & 3);
    for (uint32_t i = 1; i < length; i++) w.dwords[i - 1] = at + i < c->batch_len ? c->batch[at + i] : 0;
}

static int written_back(const struct capture *c, uint32_t at, uint32_t length)
{
    if (last_write.reason) return read_wrong("they are to write a command of the capture, of dword", at);
    for (uint32_t i = 0; i < length; i++)
        if (last_buffer[w.first + i] != c->batch[at + i]) return read_wrong("a command of the capture becomes another, of dword", at + i);
    return 1;
}

/* The command that the capture was refused for: from 11 on it is written back too; and by 8 or 10 the writer refuses it as well. */
static int refused_back(const struct capture *c, struct lungevati_answer a, uint64_t seed, struct dice *d, struct tally *t)
{
    if (a.reason < 8 || a.reason == 9) return 1;
    uint32_t at = position_after(c, last_records, a.count), row = stream_row(c->batch[at]);
    uint32_t length = fieldless(row) ? 1 : (c->batch[at] & 0xFF) + 2;
    take_apart(c, at, row, length, d);
    if (!write_it(seed, t)) return 0;
    if (a.reason > 10) return written_back(c, at, length) && ++t->back;
    return last_write.reason == a.reason || read_wrong("the capture was refused by", a.reason);
}

/*
 * Each command of a run that the default accepts, once, however often it ran: the batch does not change meanwhile. Of a refused one the command
 * that did it.
 */
int write_back(const struct capture *c, uint64_t seed, struct tally *t)
{
    static uint64_t seen[LIMIT], turn;
    struct lungevati_answer a = last_answers[STATE_WINDOW];
    struct dice d;
    dice_start(&d, seed, 4);
    if (a.reason) return refused_back(c, a, seed, &d, t);
    turn++;
    for (uint32_t i = 0; i < a.count; i++) {
        const uint32_t *record = last_records + 2 * i;
        uint32_t at = lungevati_record_index(record), length = lungevati_record_length(record);
        if (seen[at] == turn) continue;
        seen[at] = turn;
        take_apart(c, at, lungevati_record_row(record), length, &d);
        if (!write_it(seed + i, t) || !written_back(c, at, length)) return 0;
        t->back++;
    }
    return 1;
}

/* ---- At random, from a stream of their own: a capture is the same whatever is written beside it ---- */

static const uint32_t highs[] = {0, 0x7FFF, 0x8000, 0xFFFF, 0x10000, 0x18000, 0x80000000, 0xFFFF0000, 0xFFFF7FFF, 0xFFFF8000, 0xFFFFFFFF};
enum { HIGHS = sizeof highs / sizeof highs[0] };

/* How many dwords a row may have behind its header, of which row 4 has two numbers. */
static uint32_t shortest(uint32_t row) { return table[row].group ? table[row].group : table[row].length - 1; }
static uint32_t longest(uint32_t row) { return table[row].group ? table[row].group * table[row].most : row == STORE_IMM ? 4 : shortest(row); }

static uint32_t some_count(uint32_t row)
{
    uint32_t group = table[row].group;
    if (!group) return shortest(row) + (row == STORE_IMM ? below(2) : 0);
    return group * (one_in(2) ? 1 + below(4) : one_in(4) ? table[row].most : 1 + below(table[row].most));
}

/* Where the high dwords of addresses stand, as the dwords behind the header are counted, from 0: the masks say. */
static int is_high(uint32_t row, uint32_t i) { return allowed(row, 1 + i) == 0xFFFF; }

/* The bits that say whether an address is used: both ways are to be about as likely, in each group. */
static void turn_uses(void)
{
    if (w.row == PIPE_CONTROL && one_in(2)) w.dwords[0] &= ~0xC000u;
    if (w.row != VERTEX_BUFFERS && w.row != INDEX_BUFFER) return;
    for (uint32_t i = 0; i < w.dwords_len; i += 4) {
        if (w.row == VERTEX_BUFFERS && one_in(2)) w.dwords[i] = (w.dwords[i] & ~0x2000u) | 0x4000;
        if (one_in(3)) w.dwords[i + 3] = 0;
    }
}

static void good_writing(void)
{
    w.row = below(ROWS);
    w.dwords_len = some_count(w.row);
    w.free_bits = word() & table[w.row].open;
    if (w.row == STORE_IMM) w.free_bits = w.dwords_len == 4 ? 0x200000 : 0;
    for (uint32_t i = 0; i < w.dwords_len; i++) w.dwords[i] = word() & allowed(w.row, 1 + i);
    turn_uses();
    w.first = one_in(2) ? below(4) : below(40);
    w.batch_len = w.first + 1 + w.dwords_len + (one_in(2) ? 0 : below(one_in(8) ? 400 : 4));
    /* one high dword with any bits above, if there is one there: used or not, which decides */
    uint32_t at = below((uint32_t)w.dwords_len), any = PICK(highs) | (one_in(4) ? word() : 0);
    while (at < w.dwords_len && !is_high(w.row, at)) at++;
    if (at < w.dwords_len && one_in(2)) w.dwords[at] = any;
}

static void spoil_row(void)
{
    uint32_t bit = below(27), kind = below(4);
    if (kind == 0) w.row = ROWS + below(3);
    else if (kind == 1) w.row |= 0x20u << bit; /* the right one, in the lower bits */
    else if (kind == 2) w.row = ~w.row;
    else w.row = ROWS + word() % (0u - ROWS);
}

static void spoil_count(void)
{
    static const size_t counts[] = {0, 1, 2, 3, 4, 5, 6, 7, 14, 15, 16, 68, 69, 70, 128, 129, 130, 132, 133, 136};
    uint32_t kind = below(6);
    if (w.row == STORE_IMM && one_in(2)) w.free_bits ^= 0x200000;
    else if (kind == 0) w.dwords_len++;
    else if (kind == 1 && w.dwords_len) w.dwords_len--;
    else if (kind == 2) w.dwords_len += table[w.row].group ? table[w.row].group * table[w.row].most : 1;
    else if (kind == 3) w.dwords_len += 256;
    else w.dwords_len = PICK(counts);
    if (w.first <= w.batch_len && w.batch_len - w.first <= w.dwords_len) w.batch_len = w.first + 1 + w.dwords_len; /* not the room is to be wrong */
}

/* A bit of `where` in `dword`, if there is any. */
static int set_one_of(uint32_t *dword, uint32_t where)
{
    if (where == 0) return 0;
    uint32_t bit = 1u << below(32);
    while (!(where & bit)) bit = bit << 1 | bit >> 31;
    *dword |= bit;
    return 1;
}

static void spoil_bits(void)
{
    uint32_t open = table[w.row].open, fixed = fixed_bits(w.row), kind = below(6);
    if (kind == 0 && set_one_of(&w.free_bits, ~open & ~fixed)) return;
    if (kind == 1) w.free_bits |= table[w.row].header; /* what a caller might well give: the whole header, without its field or with it */
    else if (kind == 2) w.free_bits |= fieldless(w.row) ? 0x80000000 : (uint32_t)w.dwords_len - 1;
    else if (kind == 3) set_one_of(&w.free_bits, fixed);
    else
        for (uint32_t tries = 0; tries < 8; tries++) {
            uint32_t i = below((uint32_t)w.dwords_len);
            if (w.dwords_len && set_one_of(&w.dwords[i], ~allowed(w.row, 1 + i))) return;
        }
}

/* No room: by a dword or by more, in an empty buffer, behind its end, and where a sum of 64 or of 32 bits would come out in it again. */
static void spoil_room(void)
{
    size_t length = 1 + w.dwords_len, past = one_in(2) ? 0 : below(3);
    if (w.first > w.batch_len) w.first = below(40); /* it was spoilt before: the buffer's length goes by it */
    switch (below(8)) {
    case 0: w.batch_len = w.first + length - 1; break;
    case 1: w.batch_len = below((uint32_t)(w.first + length)); break;
    case 2: w.batch_len = 0; break;
    case 3: w.first = w.batch_len + past; break;
    case 4: w.first = w.batch_len - length + 1 + past; break;
    case 5: w.first = (size_t)0 - 1 - past; break;
    case 6: w.first = (size_t)0 - length + below((uint32_t)w.batch_len + 1); break;
    default: w.first += (size_t)1 << (32 + below(32));
    }
}

static void spoil_writing(uint32_t aim)
{
    if (aim == 7) spoil_row();
    if (aim == 22) spoil_room();
    if (w.row >= ROWS) return; /* an unknown row has no counts and no bits */
    if (aim == 8) spoil_count();
    if (aim == 10) spoil_bits();
}

int random_writes(uint64_t seed, uint64_t number, struct tally *t)
{
    static const uint32_t aims[] = {0, 0, 0, 7, 8, 8, 10, 10, 10, 22, 22};
    dice_start(&m.dice, seed ^ 0x77726974657273, number);
    for (uint32_t i = 0; i < RANDOM; i++) {
        good_writing();
        spoil_writing(PICK(aims));
        if (one_in(3)) spoil_writing(PICK(aims)); /* two faults show which goes first */
        if (!write_it(seed + number + i, t)) return 0;
    }
    return 1;
}

/* ---- One by one ---- */

static int try_it(void) { return write_it(++tried, tally); }

/* Commands and refusals, worked out by hand from the table and the request. */
static const struct expected {
    uint32_t row, free_bits, len, dwords[9], room, first, reason, written[10];
} cases[] = {
    {0, 0x003FFFFF, 0, {0}, 1, 0, 0, {0x003FFFFF}},
    {1, 0, 0, {0}, 3, 2, 0, {0x05000000}},
    {2, 0x00400100, 2, {0x00100010, 0}, 3, 0, 0, {0x18C00101, 0x00100010, 0}},
    {2, 0, 2, {0xFFFFFFFC, 0xFFFFFFFF}, 3, 0, 0, {0x18800001, 0xFFFFFFFC, 0xFFFFFFFF}}, /* bit 8 and the upper bits are for 12 */
    {3, 0, 4, {0x2400, 1, 0x007FFFFC, 2}, 9, 4, 0, {0x11000003, 0x2400, 1, 0x007FFFFC, 2}},
    {4, 0, 3, {0x00300FFC, 0, 7}, 4, 0, 0, {0x10000002, 0x00300FFC, 0, 7}},
    {4, 0x00200000, 4, {0x00300FF8, 0x00018000, 7, 8}, 5, 0, 0, {0x10200003, 0x00300FF8, 0x00018000, 7, 8}},
    {5, 0, 3, {0x2408, 0x00300000, 0}, 4, 0, 0, {0x12000002, 0x2408, 0x00300000, 0}},
    {6, 0, 3, {0x2408, 0x00200000, 0x80000000}, 4, 0, 0, {0x14800002, 0x2408, 0x00200000, 0x80000000}},
    {7, 0, 5, {0x00004000, 0x00300FF8, 0xFFFF0000, 1, 2}, 6, 0, 0, {0x7A000004, 0x00004000, 0x00300FF8, 0xFFFF0000, 1, 2}},
    {8, 0, 0, {0}, 1, 0, 0, {0x69040000}},
    {10, 0, 8, {0x0000400C, 0x00200000, 0xFFFF8000, 36, 0x04002000, 0x00900000, 0x0000FFFF, 4096}, 9, 0, 0,
     {0x78080007, 0x0000400C, 0x00200000, 0xFFFF8000, 36, 0x04002000, 0x00900000, 0x0000FFFF, 4096}},
    {11, 0, 2, {0x02400000, 0x11130000}, 3, 0, 0, {0x78090001, 0x02400000, 0x11130000}},
    {12, 0, 4, {0x00000300, 0x00200024, 0x00010000, 6}, 5, 0, 0, {0x780A0003, 0x00000300, 0x00200024, 0x00010000, 6}},
    {13, 0, 1, {0x15}, 2, 0, 0, {0x784B0000, 0x15}},
    {14, 0, 1, {0x1020}, 2, 0, 0, {0x78230000, 0x1020}},
    {15, 0, 1, {0x41}, 2, 0, 0, {0x780E0000, 0x41}},
    {16, 0x00000700, 6, {0x33F, 3, 0, 1, 0, 5}, 7, 0, 0, {0x7B000705, 0x33F, 3, 0, 1, 0, 5}},
    {17, 0, 1, {0xFFFFFFC1}, 2, 0, 0, {0x78240000, 0xFFFFFFC1}},
    {18, 0, 0, {0}, 8, 0, 7, {0}},
    {18, 0xFFFFFFFF, 1, {0xFFFFFFFF}, 0, 1, 7, {0}}, /* all four at once: 7 */
    {0, 0, 1, {0}, 8, 0, 8, {0}},
    {4, 0x00200000, 3, {0x00300FF8, 0, 7}, 8, 0, 8, {0}},
    {4, 0, 4, {0x00300FF8, 0, 7, 8}, 8, 0, 8, {0}},
    {4, 0xFFDFFFFF, 4, {1}, 0, 1, 8, {0}}, /* 8, 10 and 22: 8 */
    {3, 0, 3, {0x2400, 1, 0x2404}, 8, 0, 8, {0}},
    {10, 0, 0, {0}, 8, 0, 8, {0}},
    {2, 0x00000001, 2, {0x00100010, 0}, 3, 0, 10, {0}},  /* its own field */
    {2, 0x18800000, 2, {0x00100010, 0}, 3, 0, 10, {0}},  /* its own key */
    {0, 0x00400000, 0, {0}, 0, 0, 10, {0}},              /* 10 and 22: 10 */
    {7, 0, 5, {0x00000000, 0, 0x00010000, 0, 0}, 6, 0, 10, {0}},
    {10, 0, 4, {0x00004000, 0, 0xFFFF8000, 0}, 5, 0, 10, {0}},
    {10, 0, 4, {0x00006000, 0, 0xFFFF8000, 1}, 5, 0, 10, {0}},
    {12, 0, 4, {0x00000100, 0, 0xFFFF8000, 0}, 5, 0, 10, {0}},
    {1, 0, 0, {0}, 0, 0, 22, {0}},
    {1, 0, 0, {0}, 4, 4, 22, {0}},
    {2, 0x100, 2, {0x00100010, 0}, 4, 2, 22, {0}},
};

static int sweep_expected(void)
{
    for (uint32_t i = 0; i < sizeof cases / sizeof cases[0]; i++) {
        const struct expected *e = &cases[i];
        w.row = e->row, w.free_bits = e->free_bits, w.dwords_len = e->len, w.batch_len = e->room, w.first = e->first;
        for (uint32_t k = 0; k < e->len; k++) w.dwords[k] = e->dwords[k];
        if (!try_it()) return 0;
        int right = last_write.reason == e->reason;
        for (uint32_t k = 0; right && e->reason == 0 && k <= e->len; k++) right = last_buffer[e->first + k] == e->written[k];
        if (!right) return printf("case %u of the commands to be written has another answer\n", i), show_writing(), 0;
    }
    return 1;
}

/* Zeros, as many as are asked for, with room for them between other words. */
static void set_writing(uint32_t row, uint32_t count)
{
    w.row = row;
    w.free_bits = row == STORE_IMM && count == 4 ? 0x200000 : 0;
    w.dwords_len = count;
    w.first = 2;
    w.batch_len = w.first + 1 + count + 2;
    for (uint32_t i = 0; i < count; i++) w.dwords[i] = 0;
}

static int sweep_counts(void)
{
    for (uint32_t i = 0; i < ROWS * 400 * 2; i++) {
        set_writing(i / 2 % ROWS, i / 2 / ROWS);
        w.batch_len -= 2 + i % 2; /* just enough, and one less */
        if (!try_it()) return 0;
    }
    for (uint32_t i = 0; i < ROWS * 400; i++) {
        set_writing(i % ROWS, i / ROWS);
        w.free_bits ^= 0x200000;
        if (!try_it()) return 0;
    }
    for (uint32_t i = 0; i < ROWS * 2; i++) {
        set_writing(i % ROWS, 65536 + (i / ROWS ? longest(i % ROWS) : shortest(i % ROWS)));
        w.batch_len = 200;
        if (!try_it()) return 0;
    }
    return 1;
}

static int sweep_rows(void)
{
    for (uint32_t i = 0; i < 400; i++) {
        set_writing(i, i % 3);
        if (!try_it()) return 0;
        w.row = ~i;
        if (!try_it()) return 0;
    }
    for (uint32_t bit = 5; bit < 32; bit++)
        for (uint32_t row = 0; row < ROWS; row++) {
            set_writing(row, shortest(row));
            w.row |= 1u << bit;
            if (!try_it()) return 0;
        }
    return 1;
}

/* Every bit of the free bits, alone and together with every other; and what of a header a caller might give with them. */
static int sweep_free_bits(uint32_t row, uint32_t count)
{
    for (uint32_t i = 0; i < 32 * 32; i++) {
        set_writing(row, count);
        w.free_bits ^= (1u << i / 32) | (1u << i % 32);
        if (i / 32 <= i % 32 && !try_it()) return 0;
    }
    const uint32_t given[] = {~0u, table[row].open, ~table[row].open, table[row].header, table[row].header | table[row].open, count - 1, 0xFF};
    for (uint32_t i = 0; i < sizeof given / sizeof given[0]; i++) {
        set_writing(row, count);
        w.free_bits |= given[i];
        if (!try_it()) return 0;
    }
    return 1;
}

/* The dwords of a row: all clear, all set that may be, all addresses used, and both of these. */
static void set_dwords(uint32_t row, uint32_t count, uint32_t kind)
{
    set_writing(row, count);
    for (uint32_t i = 0; i < count; i++) {
        if (kind % 2) w.dwords[i] = allowed(row, 1 + i);
        if (kind < 2) continue;
        if (row == PIPE_CONTROL && i == 0) w.dwords[i] |= 0x8000;
        if (row == BASE_ADDRESS && i + 1 < count && is_high(row, i + 1)) w.dwords[i] |= 1;
        if (row == VERTEX_BUFFERS && i % 4 == 0) w.dwords[i] = (w.dwords[i] & ~0x2000u) | 0x4000;
        if ((row == VERTEX_BUFFERS || row == INDEX_BUFFER) && i % 4 == 3) w.dwords[i] |= 1;
    }
}

/* Every bit of every dword turned; of many groups in the first, the second and the last. */
static int sweep_dwords(uint32_t row, uint32_t count)
{
    uint32_t group = table[row].group ? table[row].group : count;
    for (uint32_t kind = 0; kind < 4; kind++)
        for (uint32_t i = 0; i < count; i++) {
            if (i >= 2 * group && i < count - group) continue;
            for (uint32_t bit = 0; bit < 32; bit++) {
                set_dwords(row, count, kind);
                w.dwords[i] ^= 1u << bit;
                if (!try_it()) return 0;
            }
        }
    return 1;
}

/* Every high dword of a row with each of some values, as its use and that of the others may be. */
static int sweep_highs(uint32_t row, uint32_t count)
{
    for (uint32_t at = 0; at < count; at++) {
        if (!is_high(row, at)) continue;
        for (uint32_t i = 0; i < HIGHS * 4 * 16; i++) {
            uint32_t use = i / HIGHS / 4;
            set_dwords(row, count, i / HIGHS % 4);
            w.dwords[at] = highs[i % HIGHS];
            if (row == PIPE_CONTROL) w.dwords[0] = (w.dwords[0] & ~0xC000u) | use << 14;
            if (row == BASE_ADDRESS) w.dwords[at - 1] = (w.dwords[at - 1] & ~1u) | (use & 1);
            if (row == VERTEX_BUFFERS) w.dwords[at - 2] = (w.dwords[at - 2] & ~0x6000u) | (use & 3) << 13;
            if (row == VERTEX_BUFFERS || row == INDEX_BUFFER) w.dwords[at + 1] = use & 4 ? (use & 8 ? 0x80000000 : 1) : 0;
            if (use < (row == VERTEX_BUFFERS || row == INDEX_BUFFER ? 16 : 4) && !try_it()) return 0;
        }
    }
    return 1;
}

/* Buffers and places in them, about what is just enough, and where a sum that wraps would be. */
static int sweep_room(uint32_t row, uint32_t count)
{
    size_t length = 1 + count, none = 0;
    const size_t lens[] = {0, 1, 2, 3, length - 1, length, length + 1, length + 2, 2 * length, 5000};
    for (uint32_t i = 0; i < sizeof lens / sizeof lens[0]; i++) {
        size_t len = lens[i];
        const size_t firsts[] = {0, 1, 2, len - length - 1, len - length, len - length + 1, len - 1, len, len + 1, none - 1, none - 2,
                                 none - length - 1, none - length, none - length + 1, none - length + len, none - len, (size_t)1 << 32,
                                 ((size_t)1 << 32) - length, (size_t)1 << 63, ((size_t)1 << 63) - length, ((size_t)1 << 62) - 1};
        for (uint32_t k = 0; k < sizeof firsts / sizeof firsts[0]; k++) {
            set_dwords(row, count, k % 4);
            w.batch_len = len, w.first = firsts[k];
            if (!try_it()) return 0;
        }
    }
    return 1;
}

/* Every choice of faults together: the row, the count, the free bits, a dword, the room. */
static int sweep_order(uint32_t row, uint32_t count)
{
    for (uint32_t faults = 0; faults < 64; faults++) {
        set_writing(row, count);
        if (faults & 1) w.row += 32;
        if (faults & 2) w.free_bits |= 0x80000000;
        if (faults & 4) w.dwords[0] = ~0u, w.dwords[count] = ~0u;
        if (faults & 8) w.batch_len = w.first + count;
        if (faults & 16) w.first = w.batch_len + 1;
        if (faults & 32) w.dwords[count] = 0, w.dwords_len++;
        if (!try_it()) return 0;
    }
    return 1;
}

static int sweep_row(uint32_t row, uint32_t count)
{
    return sweep_dwords(row, count) && sweep_highs(row, count) && sweep_room(row, count) && sweep_order(row, count);
}

int sweep_writes(struct tally *t)
{
    tally = t;
    if (!sweep_expected() || !sweep_counts() || !sweep_rows()) return 0;
    for (uint32_t row = 0; row < ROWS; row++) {
        uint32_t few = shortest(row), most = longest(row);
        if (!sweep_free_bits(row, few) || !sweep_row(row, few)) return 0;
        if (row == STORE_IMM && !sweep_free_bits(row, most)) return 0;
        if (table[row].group && (!sweep_row(row, 2 * few) || !sweep_row(row, 3 * few))) return 0;
        if (most != few && !sweep_row(row, most)) return 0;
    }
    return 1;
}
