/*
 * Both engines of the proved checker, the proved writer, what is proved to turn old listings, and the fast checker in C, against the second opinion; each check
 * with both starting bases.
 *   harness N SEED          document 01's cases and the sweeps, then N captures and files made from SEED, commands to be written, and listings to be turned
 *   harness N SEED CASE     only that one of the N, and shows it
 * Exit status 1 at the first difference, or where a number was met too rarely for the comparison to say much of it.
 */
#include "harness.h"
#include "checker.h"
#include "streamer.h"

enum { GUARD = 16, ROWS = 18 };

static uint32_t lent_batch[GUARD + LENT_MOST + GUARD], lent_state[GUARD + LENT_MOST + GUARD], lent_dwords[GUARD + WRITE_MOST + GUARD];
static uint32_t lent_old[GUARD + TURN_MOST + GUARD];
static uint8_t lent_file[GUARD + FILE_MOST + GUARD];

/* What is lent to be written: once to each side, and as it was before. */
struct room {
    uint32_t proved[GUARD + RECORDS_MOST + GUARD], other[GUARD + RECORDS_MOST + GUARD], before[GUARD + RECORDS_MOST + GUARD];
};
static struct room records, batch_room, state_room, write_room, turn_room;

static uint64_t asked; /* calls so far */

struct lungevati_answer last_answers[CHOICES], last_write;
struct lungevati_long_answer last_turn;
const uint32_t *const last_records = records.other + GUARD, *const last_buffer = write_room.other + GUARD;
const uint32_t *const last_turned = turn_room.other + GUARD;

static const char *const words_for[NUMBERS] = {
    "accepted", "counts", "address not on a page", "window too high", "windows share a byte", "65,536 commands, no end",
    "ran out of the batch", "header not in the table", "length field", "goes past the batch", "bit not allowed",
    "start in a second-level batch", "value rule", "address range", "no dynamic base", "structure nowhere",
    "structure bit", "structure value", "record buffer full", "file size", "file's distance", "lent buffer too short",
    "no room for the command"};

/* ---- Lent memory ---- */

/* Around them stand zeros as often as anything: in other words a structure that is read over a window's end would have faults anyway. */
static void lend_words(uint32_t *lent, const uint32_t *words, size_t len, struct dice *d)
{
    uint64_t bits = dice_roll(d) >> 63 ? ~(uint64_t)0 : 0;
    for (size_t i = 0; i < GUARD; i++) lent[i] = lent[GUARD + len + i] = (uint32_t)(dice_roll(d) & bits);
    for (size_t i = 0; i < len; i++) lent[GUARD + i] = words[i];
}

static int unchanged(const uint32_t *lent, const uint32_t *words, size_t len)
{
    uint32_t differ = 0;
    for (size_t i = 0; i < len; i++) differ |= lent[GUARD + i] ^ words[i];
    return differ == 0;
}

static void lend_room(struct room *r, size_t len, struct dice *d)
{
    for (size_t i = 0; i < GUARD + len + GUARD; i++)
        r->proved[i] = r->other[i] = r->before[i] = (uint32_t)(dice_roll(d) >> 32);
}

/* The same for the many commands that are written, where rolling each word would take longer than the call: a step for each. */
static void lend_steps(struct room *r, size_t len, uint64_t from)
{
    for (size_t i = 0; i < GUARD + len + GUARD; i++)
        r->proved[i] = r->other[i] = r->before[i] = (uint32_t)from + (uint32_t)i * 0x9E3779B1;
}

/* One side's words are again as they were before, for another engine or another choice. */
static void lend_again(uint32_t *words, const struct room *r, size_t len)
{
    for (size_t i = 0; i < GUARD + len + GUARD; i++) words[i] = r->before[i];
}

static uint32_t differing(const uint32_t *a, const uint32_t *b, size_t from, size_t to)
{
    uint32_t differ = 0;
    for (size_t i = from; i < to; i++) differ |= a[i] ^ b[i];
    return differ;
}

/* Both sides left the same words, and all but those `written` from `first` on are those that were lent. */
static int same_room(const struct room *r, const char *name, size_t len, size_t first, size_t written)
{
    size_t end = GUARD + len + GUARD, from = written ? GUARD + first : end, to = written ? from + written : end;
    if (!(differing(r->proved, r->other, 0, end) | differing(r->other, r->before, 0, from) | differing(r->other, r->before, to, end))) return 1;
    size_t i = 0;
    while (r->proved[i] == r->other[i] && (r->other[i] == r->before[i] || (i >= from && i < to))) i++;
    printf("DIFFERENT: word %ld of %s (%lu lent, %lu to be written): proved %08x, other %08x, before %08x\n", (long)i - GUARD, name,
           (unsigned long)len, (unsigned long)written, r->proved[i], r->other[i], r->before[i]);
    return 0;
}

/* ---- Where a run stopped, for the table ---- */

uint32_t position_after(const struct capture *c, const uint32_t *recs, uint32_t count)
{
    uint32_t at = 0, kept = 0;
    for (uint32_t i = 0; i < count; i++, recs += 2) {
        uint32_t index = lungevati_record_index(recs), row = lungevati_record_row(recs), length = lungevati_record_length(recs);
        const uint32_t *cmd = c->batch + index;
        at = index + length;
        if (row == 2 && (cmd[0] & 0x400000)) kept = at;
        if (row == 2) at = (uint32_t)((cmd[1] | (uint64_t)cmd[2] << 32) - c->batch_at) / 4;
        if (row == 1) at = kept;
    }
    return at;
}

/* What lies beyond windows of 4,096 dwords. */
static void count_far(const struct capture *c, struct lungevati_answer a, const uint32_t *recs, struct far *f)
{
    f->odd_rooms += c->records_len % 2;
    if (c->batch_len <= 4096 && c->state_len <= 4096) return;
    f->captures++;
    f->sound += a.reason == 0 || a.reason > 4;
    f->accepted += a.reason == 0;
    for (uint32_t i = 0; i < 3; i++) f->batch[i] += c->batch_len == 65535 + i, f->state[i] += c->state_len == 65535 + i;
    f->refused += a.reason && a.window == 0 && a.index > 4095;
    f->structures += a.window == 1 && a.index > 4095;
    for (uint32_t i = 0, before = 0; i < a.count; i++, recs += 2) {
        uint32_t index = lungevati_record_index(recs);
        f->commands += index > 4095;
        f->jumps += before == 2 && index > 4095;
        before = lungevati_record_row(recs);
    }
}

/* With no base at the start only 14 is counted by row: what else is answered then, the default answers too. */
static void count_check(const struct capture *c, enum choice choice, const uint32_t *recs, struct tally *t)
{
    struct lungevati_answer a = last_answers[choice];
    uint32_t row = ROWS;
    t->checked[choice][a.reason]++;
    if (choice == NO_BASE && a.reason != 14) return;
    if (choice == STATE_WINDOW) count_far(c, a, recs, &t->far);
    if (a.reason >= 8) row = stream_row(c->batch[position_after(c, recs, a.count)]);
    t->by_row[row][a.reason]++;
    for (uint32_t i = 0; choice == STATE_WINDOW && i < a.count; i++, recs += 2) {
        uint32_t length = lungevati_record_length(recs);
        row = lungevati_record_row(recs);
        if (t->commands[row]++ == 0) t->shortest[row] = t->longest[row] = length;
        if (length < t->shortest[row]) t->shortest[row] = length;
        if (length > t->longest[row]) t->longest[row] = length;
    }
}

/* ---- Demand 3 ---- */

static int stream_fault(const char *what, uint32_t step)
{
    printf("DEMAND 3: %s, at command %u of an accepted capture\n", what, step);
    return 0;
}

/* The record of the command that the streamer did last: its words, and what the header's own functions find in them. */
static int is_record_of(const struct stream *s, const uint32_t *record)
{
    return record[0] == (s->at_level << 16 | s->index) && record[1] == (s->row << 24 | s->length << 16) &&
           lungevati_record_index(record) == s->index && lungevati_record_level(record) == s->at_level &&
           lungevati_record_row(record) == s->row && lungevati_record_length(record) == s->length;
}

/* The streamer runs as the records say, ends with the last of them, and stores nothing outside scratch at any moment. */
static int streams(const struct capture *c, const uint32_t *recs, uint32_t count, uint64_t seed, struct tally *t)
{
    static struct stream s;
    stream_start(&s, c->batch, c->batch_len, c->batch_at, c->state, c->state_len, c->state_at, c->scratch_at,
                 c->scratch_len, seed);
    for (uint32_t i = 0; i < count; i++) {
        stream_step(&s);
        if (s.is == STREAM_FAILED) return stream_fault("the streamer failed", i);
        if (s.is == STREAM_FULL) return stream_fault("the streamer's own memory is full", i);
        if (!is_record_of(&s, recs + 2 * i)) return stream_fault("the streamer did another command than the record's", i);
        if (s.stores[STREAM_BATCH] || s.stores[STREAM_STATE]) return stream_fault("a store outside scratch", i);
        if ((s.is == STREAM_ENDED) != (i + 1 == count)) return stream_fault("the end at another command", i);
    }
    for (size_t i = 0; i < c->batch_len; i++)
        if (s.batch[i] != c->batch[i]) return stream_fault("the batch changed", count);
    for (size_t i = 0; i < c->state_len; i++)
        if (s.state[i] != c->state[i]) return stream_fault("the state window changed", count);
    t->streamed++;
    t->steps += count;
    t->stores += s.stores[STREAM_SCRATCH];
    return 1;
}

/* ---- One input, both sides ---- */

typedef struct lungevati_answer check_call(const uint32_t *, size_t, uint64_t, const uint32_t *, size_t, uint64_t,
                                           uint64_t, uint32_t, uint32_t *, size_t);

static struct lungevati_answer ask(check_call *check, const struct capture *c, uint32_t *recs)
{
    return check(lent_batch + GUARD, c->batch_len, c->batch_at, lent_state + GUARD, c->state_len, c->state_at,
                 c->scratch_at, c->scratch_len, recs + GUARD, c->records_len);
}

/* The proved engines, and the fast checker in C, which is asked the same: a call for each choice. */
static const struct engine {
    const char *name, *records;
    check_call *checks[CHOICES];
} engines[] = {{"the plain engine", "the plain engine's records", {lungevati_check_no_base, lungevati_check}},
               {"the table engine", "the table engine's records", {lungevati_check_table_no_base, lungevati_check_table}},
               {"the fast checker", "the fast checker's records", {fast_check_no_base, fast_check}}};
enum { ENGINES = sizeof engines / sizeof engines[0] };

static check_call *const other_checks[CHOICES] = {other_check_no_base, other_check};
static const char *const choice_names[CHOICES] = {"check with no base", "check"};

static int same_answer(const char *call, const char *who, struct lungevati_answer p, struct lungevati_answer o)
{
    if (p.reason == o.reason && p.window == o.window && p.index == o.index && p.count == o.count) return 1;
    printf("DIFFERENT: %s: %s reason %u window %u index %u count %u, other reason %u window %u index %u count %u\n", call, who,
           p.reason, p.window, p.index, p.count, o.reason, o.window, o.index, o.count);
    return 0;
}

/* One choice, on the windows that are lent: all engines answer as the other does, and leave the same records. */
static int same_choice(const struct capture *c, enum choice choice)
{
    lend_again(records.other, &records, c->records_len);
    struct lungevati_answer o = last_answers[choice] = ask(other_checks[choice], c, records.other);
    for (uint32_t e = 0; e < ENGINES; e++) {
        lend_again(records.proved, &records, c->records_len);
        struct lungevati_answer p = ask(engines[e].checks[choice], c, records.proved);
        if (!same_answer(choice_names[choice], engines[e].name, p, o)) return 0;
        if (!same_room(&records, engines[e].records, c->records_len, 0, 2 * (size_t)o.count)) return 0;
    }
    if (unchanged(lent_batch, c->batch, c->batch_len) && unchanged(lent_state, c->state, c->state_len)) return 1;
    return printf("DIFFERENT: a lent window was written\n"), 0;
}

/* By the default there is always a base, so that it never answers 14; and the choice changes nothing but what is 14 with no base. */
static int choices_fit(struct lungevati_answer none, struct lungevati_answer by_default)
{
    if (by_default.reason == 14) return printf("DIFFERENT: by the default the answer is 14\n"), 0;
    if (none.reason == 14) return by_default.count >= none.count || (printf("DIFFERENT: the default stops before the 14\n"), 0);
    return same_answer("check by the default, and with no base", "by the default", by_default, none);
}

int same_check(const struct capture *c, uint64_t seed, struct tally *t)
{
    struct dice d;
    asked++;
    dice_start(&d, seed, 1);
    lend_words(lent_batch, c->batch, c->batch_len, &d);
    lend_words(lent_state, c->state, c->state_len, &d);
    lend_room(&records, c->records_len, &d);
    uint64_t stream_seed = dice_roll(&d);
    for (enum choice choice = NO_BASE; choice < CHOICES; choice++) {
        if (!same_choice(c, choice)) return 0;
        struct lungevati_answer a = last_answers[choice];
        if (a.reason == 0 && !streams(c, last_records, a.count, stream_seed + choice, t)) return 0;
        count_check(c, choice, last_records, t); /* last, since it takes the records to be good */
    }
    return choices_fit(last_answers[NO_BASE], last_answers[STATE_WINDOW]);
}

static int same_contents(struct lungevati_contents p, struct lungevati_contents o)
{
    if (p.reason == o.reason && p.window == o.window && p.index == o.index && p.count == o.count &&
        p.batch_count == o.batch_count && p.state_count == o.state_count && p.scratch_len == o.scratch_len &&
        p.batch_at == o.batch_at && p.state_at == o.state_at && p.scratch_at == o.scratch_at)
        return 1;
    printf("DIFFERENT: read: proved reason %u %u %u %u, batch %u at %lx, state %u at %lx, scratch %u at %lx\n",
           p.reason, p.window, p.index, p.count, p.batch_count, (unsigned long)p.batch_at, p.state_count,
           (unsigned long)p.state_at, p.scratch_len, (unsigned long)p.scratch_at);
    printf("            other reason %u %u %u %u, batch %u at %lx, state %u at %lx, scratch %u at %lx\n",
           o.reason, o.window, o.index, o.count, o.batch_count, (unsigned long)o.batch_at, o.state_count,
           (unsigned long)o.state_at, o.scratch_len, (unsigned long)o.scratch_at);
    return 0;
}

int same_read(const struct capture_file *f, uint64_t seed, struct tally *t)
{
    struct dice d;
    uint8_t *file = lent_file + seed % 8; /* bytes stand at any address */
    asked++;
    dice_start(&d, seed, 2);
    for (size_t i = 0; i < f->len; i++) file[i] = f->bytes[i];
    lend_room(&batch_room, f->batch_room, &d);
    lend_room(&state_room, f->state_room, &d);

    struct lungevati_contents p = lungevati_read(file, f->len, batch_room.proved + GUARD, f->batch_room,
                                                 state_room.proved + GUARD, f->state_room);
    struct lungevati_contents o = other_read(file, f->len, batch_room.other + GUARD, f->batch_room,
                                             state_room.other + GUARD, f->state_room);
    t->read[o.reason]++;
    for (size_t i = 0; i < f->len; i++)
        if (file[i] != f->bytes[i]) {
            printf("DIFFERENT: the file was written\n");
            return 0;
        }
    return same_contents(p, o) && same_room(&batch_room, "the batch buffer", f->batch_room, 0, o.batch_count) &&
           same_room(&state_room, "the state buffer", f->state_room, 0, o.state_count);
}

/* What both writers leave is the same; and a command stands there only if it is said to, and then where it was asked for. */
static int same_written(const struct writing *w, struct lungevati_answer p, struct lungevati_answer o)
{
    size_t written = o.reason ? 0 : 1 + w->dwords_len;
    if (!same_answer("write", "proved", p, o)) return 0;
    if (!same_room(&write_room, "the buffer that is written to", w->batch_len, w->first, written)) return 0;
    if (!unchanged(lent_dwords, w->dwords, w->dwords_len)) return printf("DIFFERENT: the dwords to be written were changed\n"), 0;
    if (o.window == 0 && o.index == 0 && o.count == (o.reason == 0)) return 1;
    return printf("DIFFERENT: both writers answer reason %u window %u index %u count %u\n", o.reason, o.window, o.index, o.count), 0;
}

int same_write(const struct writing *w, uint64_t seed, struct tally *t)
{
    asked++;
    for (size_t i = 0; i < w->dwords_len; i++) lent_dwords[GUARD + i] = w->dwords[i]; /* about them stand those of earlier commands */
    lend_steps(&write_room, w->batch_len, seed * 0xD1342543DE82EF95 >> 32);

    struct lungevati_answer p = lungevati_write(w->row, w->free_bits, lent_dwords + GUARD, w->dwords_len,
                                                write_room.proved + GUARD, w->batch_len, w->first);
    struct lungevati_answer o = other_write(w->row, w->free_bits, lent_dwords + GUARD, w->dwords_len,
                                            write_room.other + GUARD, w->batch_len, w->first);
    last_write = o;
    t->written[o.reason]++;
    if (o.reason == 0) t->wrote[w->row]++;
    return same_written(w, p, o);
}

/* What both leave is the same: the records that are counted, from word 0 on, and nothing else. */
static int same_turned(const struct listing *l, struct lungevati_long_answer p, struct lungevati_long_answer o)
{
    if (p.reason != o.reason || p.window != o.window || p.index != o.index || p.count != o.count) {
        printf("DIFFERENT: turn: proved reason %u window %u index %lu count %lu, other reason %u window %u index %lu count %lu\n", p.reason, p.window,
               (unsigned long)p.index, (unsigned long)p.count, o.reason, o.window, (unsigned long)o.index, (unsigned long)o.count);
        return 0;
    }
    if (!same_room(&turn_room, "the buffer that is turned into", l->new_len, 0, 2 * (size_t)o.count)) return 0;
    return unchanged(lent_old, l->old_words, l->old_len) || (printf("DIFFERENT: the old listing was written\n"), 0);
}

int same_turn(const struct listing *l, uint64_t seed, struct tally *t)
{
    asked++;
    for (size_t i = 0; i < l->old_len; i++) lent_old[GUARD + i] = l->old_words[i]; /* about them stand those of earlier listings */
    lend_steps(&turn_room, l->new_len, seed * 0xD1342543DE82EF95 >> 32);
    struct lungevati_long_answer p = lungevati_turn(lent_old + GUARD, l->old_len, turn_room.proved + GUARD, l->new_len);
    struct lungevati_long_answer o = last_turn = other_turn(lent_old + GUARD, l->old_len, turn_room.other + GUARD, l->new_len);
    t->turned[o.reason]++;
    return same_turned(l, p, o);
}

/* ---- Many ---- */

static int same_case(uint64_t seed, uint64_t number, struct capture *c, struct tally *t)
{
    static struct capture_file f;
    generate(c, seed, number);
    generate_file(&f, c, seed, number);
    return same_check(c, seed + number, t) && write_back(c, seed + number, t) && turn_back(seed + number, t) &&
           same_read(&f, seed + number, t) && random_writes(seed, number, t) && random_turns(seed, number, t);
}

static void show(const struct capture *c)
{
    printf("batch %lu at %lx, state %lu at %lx, scratch %u bytes at %lx, %lu record words lent\n", (unsigned long)c->batch_len,
           (unsigned long)c->batch_at, (unsigned long)c->state_len, (unsigned long)c->state_at, c->scratch_len,
           (unsigned long)c->scratch_at, (unsigned long)c->records_len);
    for (size_t i = 0; i < c->batch_len; i++) printf("%s%08x", i % 8 ? " " : i ? "\n" : "batch:\n", c->batch[i]);
    for (size_t i = 0; i < c->state_len; i++) printf("%s%08x", i % 8 ? " " : i ? "\n" : "\nstate:\n", c->state[i]);
    printf("\n");
    for (enum choice choice = NO_BASE; choice < CHOICES; choice++) {
        struct lungevati_answer a = last_answers[choice];
        printf("C, %s: reason %u window %u index %u count %u\n", choice_names[choice], a.reason, a.window, a.index, a.count);
    }
}

static void print_numbers(const struct tally *t)
{
    printf("\n  no.     check   no base      read     write      turn\n");
    for (uint32_t i = 0; i < NUMBERS; i++)
        printf("%5u %9lu %9lu %9lu %9lu %9lu  %s\n", i, (unsigned long)t->checked[STATE_WINDOW][i], (unsigned long)t->checked[NO_BASE][i],
               (unsigned long)t->read[i], (unsigned long)t->written[i], (unsigned long)t->turned[i], words_for[i]);
}

static void print_rows(const struct tally *t)
{
    printf("\n  row accepted lengths  written   refused as   7     8     9    10    11    12    13   14*    15    16    17    18\n");
    for (uint32_t row = 0; row <= ROWS; row++) {
        if (row < ROWS)
            printf("%5u %8lu %3lu..%-3lu %8lu            ", row, (unsigned long)t->commands[row], (unsigned long)t->shortest[row],
                   (unsigned long)t->longest[row], (unsigned long)t->wrote[row]);
        else
            printf(" none                                    ");
        for (uint32_t number = 7; number <= 18; number++) printf(" %5lu", (unsigned long)t->by_row[row][number]);
        printf("\n");
    }
    printf("  * with no base; all else by the default\n");
}

static void print_far(const struct far *f)
{
    printf("\n%lu captures have a window above 4,096 dwords: %lu with windows that are sound, %lu accepted; batches of 65,535, 65,536 and 65,537 dwords: %lu, %lu, %lu; states: "
           "%lu, %lu, %lu.\n", (unsigned long)f->captures, (unsigned long)f->sound, (unsigned long)f->accepted, (unsigned long)f->batch[0], (unsigned long)f->batch[1],
           (unsigned long)f->batch[2], (unsigned long)f->state[0], (unsigned long)f->state[1], (unsigned long)f->state[2]);
    printf("Above dword 4,095: %lu commands, %lu of them jumped to, %lu refusals in the batch, %lu in the state. Rooms of an odd number of words: %lu.\n",
           (unsigned long)f->commands, (unsigned long)f->jumps, (unsigned long)f->refused, (unsigned long)f->structures, (unsigned long)f->odd_rooms);
}

static int often(const char *call, uint32_t number, uint64_t times, uint64_t least)
{
    if (times >= least) return 1;
    printf("TOO FEW: number %u was met %lu times by %s, and %lu are asked for\n", number, (unsigned long)times, call, (unsigned long)least);
    return 0;
}

/* Each number that a call can answer was answered often enough. */
static int often_enough(const struct tally *t, uint64_t least)
{
    int enough = 1;
    for (uint32_t i = 0; i < NUMBERS; i++) {
        if (i <= 18 && i != 14) enough &= often("check", i, t->checked[STATE_WINDOW][i], least);
        if (i <= 18) enough &= often("check with no base", i, t->checked[NO_BASE][i], least);
        if (i <= 1 || (i >= 19 && i <= 21)) enough &= often("read", i, t->read[i], least);
        if (i == 0 || i == 7 || i == 8 || i == 10 || i == 22) enough &= often("write", i, t->written[i], least);
        if (i == 0 || i == 10 || i == 18) enough &= often("turn", i, t->turned[i], least);
    }
    if (t->far.sound < least) enough = printf("TOO FEW: only %lu captures have long windows that are sound\n", (unsigned long)t->far.sound) < 0;
    return enough;
}

static uint64_t at_seed, at_case, of_cases;
static int sweeping;

static void say_case(void)
{
    if (sweeping) {
        printf("in the sweeps, at %lu\n", (unsigned long)asked);
        return;
    }
    printf("seed %lu, case %lu; to see it: compare/run %lu %lu %lu\n", (unsigned long)at_seed, (unsigned long)at_case,
           (unsigned long)of_cases, (unsigned long)at_seed, (unsigned long)at_case);
}

/* A call that does not return, or not in time, breaks its promise too. */
static void stopped(int number)
{
    printf("STOPPED by signal %d\n", number);
    say_case();
    exit(1);
}

static void watch(void)
{
    static const int signals[] = {4, 6, 7, 8, 11, 14}; /* SIGILL, SIGABRT, SIGBUS, SIGFPE, SIGSEGV, SIGALRM */
    for (int i = 0; i < 6; i++) signal(signals[i], stopped);
}

static uint64_t total(const uint64_t *by_number)
{
    uint64_t sum = 0;
    for (uint32_t i = 0; i < NUMBERS; i++) sum += by_number[i];
    return sum;
}

static void print_all(const struct tally *t)
{
    print_numbers(t);
    print_rows(t);
    print_far(&t->far);
}

static int many(uint64_t count, uint64_t seed)
{
    static struct capture c;
    static struct tally swept, t;
    at_seed = seed, of_cases = count;
    watch();
    alarm(SECONDS);
    sweeping = 1;
    if (!sweep(&swept)) return say_case(), 1;
    uint64_t writes = total(swept.written), turns = total(swept.turned);
    printf("document 01's cases have their answers; %lu captures, with both choices of a base, and files, %lu commands to be written, and %lu listings to be turned, tried one by one, agree\n",
           (unsigned long)(asked - writes - turns), (unsigned long)writes, (unsigned long)turns);
    sweeping = 0;
    for (at_case = 0; at_case < count; at_case++) {
        alarm(SECONDS);
        if (same_case(seed, at_case, &c, &t)) continue;
        say_case();
        return 1;
    }
    print_all(&t);
    printf("\n%lu captures from seed %lu, by the default base and with none: proved, C and the fast C agree. ", (unsigned long)count,
           (unsigned long)seed);
    printf("%lu accepted runs streamed, %lu commands, %lu words stored.\n", (unsigned long)t.streamed, (unsigned long)t.steps,
           (unsigned long)t.stores);
    printf("%lu commands to be written: proved and C agree, and what was written is read so. %lu of them are commands of the captures, written back.\n",
           (unsigned long)total(t.written), (unsigned long)t.back);
    printf("%lu listings to be turned: proved and C agree. %lu of them are those of captures in the old form, and become their records.\n",
           (unsigned long)total(t.turned), (unsigned long)t.relisted);
    return !often_enough(&t, count / 200);
}

static int one(uint64_t seed, uint64_t number)
{
    static struct capture c;
    static struct tally t;
    int same = same_case(seed, number, &c, &t);
    show(&c);
    return !same;
}

int main(int n, char **v)
{
    if (n == 3) return many(strtoul(v[1], 0, 10), strtoul(v[2], 0, 10));
    if (n == 4) return one(strtoul(v[2], 0, 10), strtoul(v[3], 0, 10));
    printf("usage: harness N SEED [CASE]\n");
    return 2;
}
