/*
 * Listings to be turned, for the proved call and the one in C: one by one, at random, and those of captures, which must become their records. What
 * is turned must also name the same commands, by what the header's own functions find in it.
 */
#include "harness.h"
#include "maker.h"

enum { RANDOM = 2 }; /* listings at random for each capture */

static struct listing l;
static struct tally *tally;
static uint64_t tried;

/* ---- One listing ---- */

static void show_listing(void)
{
    printf("turn: %lu words, into %lu; words:", (unsigned long)l.old_len, (unsigned long)l.new_len);
    for (size_t i = 0; i < l.old_len && i < 64; i++) printf(" %08x", l.old_words[i]);
    printf("\n");
}

/* An old word has index, level, length and row where document 01 had them, and the turned record has the same. */
static int names_the_same(uint32_t old, const uint32_t *record)
{
    return lungevati_record_index(record) == old % 4096 && lungevati_record_level(record) == old / 4096 % 2 &&
           lungevati_record_length(record) == old / 65536 % 256 && lungevati_record_row(record) == old / 16777216;
}

/* The answer is one that the request allows; of a listing that is turned, every record names its old word's command, and has no other bit. */
static int turned_well(void)
{
    struct lungevati_long_answer a = last_turn;
    if (a.reason == 10) return a.window == 0 && a.count == 0 && a.index < l.old_len && l.old_words[a.index] / 8192 % 8;
    if (a.reason == 18) return a.window == 0 && a.count == 0 && a.index == 0 && l.new_len / 2 < l.old_len;
    if (a.reason || a.window || a.index || a.count != l.old_len) return 0;
    for (size_t i = 0; i < l.old_len; i++) {
        const uint32_t *record = last_turned + 2 * i;
        if (!names_the_same(l.old_words[i], record) || record[0] >> 17 || record[1] % 65536) return 0;
    }
    return 1;
}

static int turn_it(uint64_t seed, struct tally *t)
{
    if (same_turn(&l, seed, t)) {
        if (turned_well()) return 1;
        printf("DIFFERENT: both turn it, to reason %u window %u index %lu count %lu, and it is not turned well\n", last_turn.reason, last_turn.window,
               (unsigned long)last_turn.index, (unsigned long)last_turn.count);
    }
    show_listing();
    return 0;
}

/* ---- That of a capture ---- */

/* The default's records, of which every index fits an old word, as they were before request 7: turned, they are the records again, word for word. */
int turn_back(uint64_t seed, struct tally *t)
{
    uint32_t count = last_answers[STATE_WINDOW].count;
    if (last_answers[STATE_WINDOW].reason) return 1;
    for (uint32_t i = 0; i < count; i++) {
        uint32_t first = last_records[2 * i];
        if ((first & 0xFFFF) > 0xFFF) return 1;
        l.old_words[i] = last_records[2 * i + 1] | (first >> 16) << 12 | (first & 0xFFFF);
    }
    l.old_len = count, l.new_len = 2 * (size_t)count + seed % 3;
    if (!turn_it(seed, t)) return 0;
    for (uint32_t i = 0; i < 2 * count; i++)
        if (last_turn.reason || last_turned[i] != last_records[i])
            return printf("DIFFERENT: the capture's old listing does not become its records, at word %u\n", i), show_listing(), 0;
    t->relisted++;
    return 1;
}

/* ---- At random, from a stream of their own ---- */

int random_turns(uint64_t seed, uint64_t number, struct tally *t)
{
    dice_start(&m.dice, seed ^ 0x7475726e73, number);
    for (uint32_t i = 0; i < RANDOM; i++) {
        l.old_len = one_in(8) ? below(3000) : below(40);
        for (size_t k = 0; k < l.old_len; k++) l.old_words[k] = word() & 0xFFFF1FFF;
        l.new_len = 2 * l.old_len + (one_in(2) ? 0 : below(40));
        uint32_t bit = 0x2000u << below(3);
        if (one_in(3) && l.old_len) l.old_words[below((uint32_t)l.old_len)] |= bit;
        if (one_in(6) && l.old_len) l.old_words[below((uint32_t)l.old_len)] |= 0x8000; /* or a second, before it or behind */
        if (one_in(3)) l.new_len = one_in(2) && l.old_len ? 2 * l.old_len - 1 : below(2 * (uint32_t)l.old_len);
        if (!turn_it(seed + number + i, t)) return 0;
    }
    return 1;
}

/* ---- One by one ---- */

static int try_it(void) { return turn_it(++tried, tally); }

/* Listings, worked out by hand from the request: C7's, whose new records document 02 gives; a word with every bit that it may have; and refusals. */
static const struct expected {
    uint32_t len, words[3], room, reason, index, turned[6];
} cases[] = {
    {3, {0x02030000, 0x01011004, 0x01010003}, 6, 0, 0, {0x00000000, 0x02030000, 0x00010004, 0x01010000, 0x00000003, 0x01010000}},
    {1, {0xFFFF1FFF}, 2, 0, 0, {0x00010FFF, 0xFFFF0000}},
    {2, {0x00001000, 0x12000FFF}, 5, 0, 0, {0x00010000, 0x00000000, 0x00000FFF, 0x12000000}}, /* an unknown row */
    {0, {0}, 0, 0, 0, {0}},
    {0, {0}, 1, 0, 0, {0}},
    {1, {0}, 1, 18, 0, {0}},
    {1, {0}, 0, 18, 0, {0}},
    {2, {0, 0}, 3, 18, 0, {0}},
    {3, {0x01010000, 0x01012000, 0x0101E000}, 6, 10, 1, {0}},
    {3, {0x01010000, 0x01010000, 0x01014000}, 6, 10, 2, {0}},
    {3, {0x01010000, 0x01010000, 0x01018000}, 0, 10, 2, {0}}, /* 10 before 18 */
};

static int sweep_expected(void)
{
    for (uint32_t i = 0; i < sizeof cases / sizeof cases[0]; i++) {
        const struct expected *e = &cases[i];
        l.old_len = e->len, l.new_len = e->room;
        for (uint32_t k = 0; k < e->len; k++) l.old_words[k] = e->words[k];
        if (!try_it()) return 0;
        int right = last_turn.reason == e->reason && last_turn.index == e->index && last_turn.count == (e->reason ? 0 : e->len);
        for (uint32_t k = 0; right && !e->reason && k < 2 * e->len; k++) right = last_turned[k] == e->turned[k];
        if (!right) return printf("case %u of the listings to be turned has another answer\n", i), show_listing(), 0;
    }
    return 1;
}

/* Good words, each another. */
static void set_listing(size_t len, size_t room)
{
    l.old_len = len, l.new_len = room;
    for (size_t i = 0; i < len; i++) l.old_words[i] = (uint32_t)(i + 1) * 0x9E3779B1 & 0xFFFF1FFF;
}

/* Every pair of bits of a word, the same bit twice included, in each of three words, in clear ones and in full ones. */
static int sweep_bits(void)
{
    for (uint32_t i = 0; i < 32 * 32 * 3 * 2; i++) {
        uint32_t bits = (1u << i % 32) | (1u << i / 32 % 32), full = i / (32 * 32 * 3);
        set_listing(3, 6);
        for (uint32_t k = 0; full && k < 3; k++) l.old_words[k] = 0xFFFF1FFF;
        l.old_words[i / 1024 % 3] = full ? 0xFFFF1FFF ^ bits : bits;
        if (!try_it()) return 0;
    }
    return 1;
}

/* Every room up to more than enough, for each small length. */
static int sweep_rooms(void)
{
    for (uint32_t i = 0; i < 24 * 60; i++) {
        set_listing(i / 60, i % 60);
        if (!try_it()) return 0;
    }
    return 1;
}

/* A stray bit in each word of a listing, with another behind it or none; with enough room, one word too few, and none. */
static int sweep_strays(void)
{
    for (uint32_t i = 0; i < 20 * 3 * 2 * 3; i++) {
        uint32_t at = i % 20, kind = i / 20 % 3, room = i / 120;
        set_listing(20, room == 0 ? 40 : room == 1 ? 39 : 0);
        l.old_words[at] |= 0x2000u << kind;
        if (i / 60 % 2 && at < 19) l.old_words[19] |= 0xE000;
        if (!try_it()) return 0;
    }
    return 1;
}

/* Listings as long as any, and past what 12 and 16 bits count: with just enough room, one word too few, and one more; and a stray bit in the last word. */
static int sweep_long_ones(void)
{
    static const uint32_t lens[] = {4095, 4096, 4097, 8192, 32767, 32768, 32769, 65535, 65536, 65537, TURN_MOST};
    for (uint32_t i = 0; i < sizeof lens / sizeof lens[0]; i++)
        for (uint32_t kind = 0; kind < 4; kind++) {
            set_listing(lens[i], 2 * (size_t)lens[i] - 1 + kind % 3);
            if (kind == 3) l.old_words[lens[i] - 1] |= 0x8000;
            if (!try_it()) return 0;
        }
    return 1;
}

int sweep_turns(struct tally *t)
{
    tally = t;
    return sweep_expected() && sweep_bits() && sweep_rooms() && sweep_strays() && sweep_long_ones();
}
