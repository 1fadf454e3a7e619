/*
 * Captures and files from a seed. First a run that is meant to be accepted; then, for most captures, one of document 01's numbers is
 * aimed at, and a rule broken. The aim may miss: what the answer is, the checkers say, and the harness counts.
 */
#include "maker.h"
#include "checker.h"

/* ---- Numbers ---- */

void dice_start(struct dice *d, uint64_t seed, uint64_t number)
{
    d->state = (seed ^ 0x9E3779B97F4A7C15) * 0xD1342543DE82EF95 + number * 0xA24BAED4963EE407;
    for (int i = 0; i < 4; i++) dice_roll(d);
    if (d->state == 0) d->state = 1;
}

uint64_t dice_roll(struct dice *d) /* xorshift64* */
{
    d->state ^= d->state >> 12;
    d->state ^= d->state << 25;
    d->state ^= d->state >> 27;
    return d->state * 0x2545F4914F6CDD1D;
}

/* ---- The capture as a whole ---- */

/* What is aimed at, and how often in 128 captures. */
static const struct {
    int aim;
    uint32_t often;
} aims[] = {{ACCEPTED, 18}, {1, 4}, {2, 4}, {3, 5}, {4, 5}, {6, 5}, {7, 4}, {8, 6}, {9, 6}, {10, 9}, {11, 5}, {12, 16}, {13, 9},
            {14, 5}, {15, 5}, {16, 4}, {17, 5}, {18, 4}, {ENDLESS_RUN, 1}, {EXACT_RUN, 1}, {FLIPPED, 6}, {NOISE, 1}};

static int aim_of(uint64_t number)
{
    uint32_t slot = (uint32_t)(number % 128), i = 0;
    while (slot >= aims[i].often) slot -= aims[i++].often;
    return aims[i].aim;
}

/* One in so many captures is long: with every aim, since 128 has no divisor in common with it. */
enum { LONG_EVERY = 101 };

static void begin(struct capture *c, uint64_t seed, uint64_t number)
{
    m.c = c;
    dice_start(&m.dice, seed, number);
    m.aim = aim_of(number);
    m.is_long = number % LONG_EVERY == LONG_EVERY / 2;
    m.cut = m.aim == 14 || one_in(4);
    m.fixed_base = m.aim >= 14 || !one_in(3);
    m.whole = one_in(2);
    m.at = m.limit = m.data = m.hidden = m.patched = m.made = 0;
    for (int i = 0; i < BLOCKS; i++) m.starts[i] = 0;
    begin_windows();
    m.base = c->state_at, m.has_base = m.cut;
    if (m.cut && m.base == TOP && m.aim != 14) m.fixed_base = 0; /* no command could set that one again */
}

static void make_aimed(void)
{
    if (m.aim == ENDLESS_RUN) make_endless();
    else if (m.aim == EXACT_RUN) make_exact();
    else if (m.aim == NOISE) make_noise();
    else make_run();

    if (m.aim >= 1 && m.aim <= 4) {
        spoil_windows(m.aim);
        if (one_in(4)) spoil_windows(1 + (int)below(4));
    } else if (m.aim == 6 || m.aim == 9) {
        cut_short(m.aim);
    } else if (m.aim == FLIPPED) {
        for (uint32_t n = 1 + below(3); n > 0; n--) flip();
    } else if (m.aim == 14) { /* by the default it is accepted, or one of its structures is nowhere */
        if (one_in(2)) plant(15);
    } else if (m.aim >= 7 && m.aim <= 17) {
        plant(m.aim);
    }
}

/* Room for so many records: as a rule near what the run needs, which the checker itself is asked for. */
static size_t room(void)
{
    static uint32_t records[RECORDS_MOST];
    const struct capture *c = m.c;
    struct lungevati_answer a = other_check(c->batch, c->batch_len, c->batch_at, c->state, c->state_len, c->state_at,
                                            c->scratch_at, c->scratch_len, records, RECORDS_MOST);
    if (m.aim == 18) return below(one_in(2) ? a.count : 3);
    if (m.aim == EXACT_RUN && a.count > 2 && one_in(3)) return a.count - below(3);
    if (a.count == BUDGET) return one_in(2) ? BUDGET + below(2) : RECORDS_MOST / 2 - 1 - below(2);
    return one_in(3) ? a.count : one_in(2) ? a.count + 1 : a.count + below(40);
}

void generate(struct capture *c, uint64_t seed, uint64_t number)
{
    begin(c, seed, number);
    make_aimed();
    c->records_len = 2 * room();
    c->records_len += below(2); /* an odd word is room for nothing */
}

/* ---- Files ---- */

struct trailer {
    uint64_t batch_at, state_at, scratch_at;
    uint32_t scratch_len, batch_count, state_count, distance;
};

static void put_bytes(uint8_t *to, uint64_t value, uint32_t count)
{
    for (uint32_t i = 0; i < count; i++) to[i] = (uint8_t)(value >> 8 * i);
}

/* The words of the capture, or others where it has none, and room for the trailer. */
static void put_words(struct capture_file *f, const struct capture *c, uint32_t batch_count, uint32_t state_count)
{
    uint8_t *to = f->bytes;
    for (uint32_t i = 0; i < batch_count; i++, to += 4) put_bytes(to, i < c->batch_len ? c->batch[i] : word(), 4);
    for (uint32_t i = 0; i < state_count; i++, to += 4) put_bytes(to, i < c->state_len ? c->state[i] : word(), 4);
    f->len = 4 * ((size_t)batch_count + state_count) + 40;
}

static void put_trailer(struct capture_file *f, const struct trailer *t)
{
    uint8_t *to = f->bytes + f->len - 40;
    put_bytes(to, t->batch_at, 8);
    put_bytes(to + 8, t->state_at, 8);
    put_bytes(to + 16, t->scratch_at, 8);
    put_bytes(to + 24, t->scratch_len, 4);
    put_bytes(to + 28, t->batch_count, 4);
    put_bytes(to + 32, t->state_count, 4);
    put_bytes(to + 36, t->distance, 4);
}

/* Counts against rule 1, in a file whose size agrees with them. */
static void bad_counts(uint32_t *batch, uint32_t *state)
{
    switch (below(3)) {
    case 0: *batch = 0, *state = below(300); break;
    case 1: *batch = SMALL_LIMIT + 1 + below(one_in(2) ? 1 : 1000), *state = below(300); break;
    default: *batch = below(300), *state = SMALL_LIMIT + 1 + below(one_in(2) ? 1 : 1000);
    }
}

/* A trailer that lies: about the distance, about the counts, or so that a sum of 32 bits would come out right. */
static void lie(struct trailer *t)
{
    switch (below(8)) {
    case 0: t->distance += one_in(2) ? 1 : 4; break;
    case 1: t->distance -= one_in(2) ? 1 : 4; break;
    case 2: t->distance = one_in(2) ? 40 : word(); break;
    case 3: t->batch_count++; break;
    case 4: t->state_count -= one_in(2) ? 1 : 4; break;
    case 5: t->batch_count += 0x40000000; break;
    case 6: t->batch_count += 0x80000000, t->state_count += 0x80000000; break;
    default: t->batch_count += t->state_count + 1, t->state_count = 0xFFFFFFFF;
    }
}

/* The file gets longer or shorter, with its trailer at its end or somewhere else. */
static void resize(struct capture_file *f, const struct trailer *t)
{
    static const uint32_t steps[] = {1, 2, 3, 4, 8, 40};
    uint32_t step = PICK(steps);
    f->len = one_in(2) ? f->len + step : f->len - step;
    if (one_in(2) && f->len >= 40) put_trailer(f, t);
}

static size_t file_room(uint32_t count, int short_of)
{
    if (short_of) return count ? (one_in(2) ? count - 1 : below(count)) : 0;
    size_t most = one_in(3) ? count : one_in(2) ? count + 1 : count + below(20);
    return most < LENT_MOST ? most : LENT_MOST;
}

void generate_file(struct capture_file *f, const struct capture *c, uint64_t seed, uint64_t number)
{
    dice_start(&m.dice, ~seed, number);
    uint32_t kind = (uint32_t)(number / 3 % 16), short_of = kind == 8 || kind == 9 ? 1 + below(3) : 0;
    uint32_t batch = (uint32_t)c->batch_len, state = (uint32_t)c->state_len;
    if (batch > SMALL_LIMIT || one_in(64)) batch = SMALL_LIMIT;
    if (state > SMALL_LIMIT || one_in(64)) state = SMALL_LIMIT;
    if (kind == 6 || kind == 7) bad_counts(&batch, &state);

    struct trailer t = {c->batch_at, c->state_at, c->scratch_at, c->scratch_len, batch, state, 40 + 4 * (batch + state)};
    put_words(f, c, batch, state);
    if (kind == 4 || (kind == 6 && one_in(4))) lie(&t);
    put_trailer(f, &t);
    if (kind == 5) resize(f, &t);
    if (kind == 3) f->len = one_in(4) ? 39 : one_in(3) ? 0 : one_in(2) ? below(40) : FILE_MOST - (one_in(2) ? 199 : below(200));
    uint8_t bit = (uint8_t)(1u << below(8));
    if (kind == 2) f->bytes[f->len - 1 - below(f->len < 60 ? (uint32_t)f->len : 60)] ^= bit;
    f->batch_room = file_room(batch, short_of & 1);
    f->state_room = file_room(state, short_of >> 1);
}
