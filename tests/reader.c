/*
 * Obeys the lines of tests/reader.lines, whose head says what they mean: reads each file that they ask for, and checks what it read, through the
 * calls that programs in C link. Prints each line and under it what came of it. What that must be, tests/drill derives: with no base at the start.
 */
#include "lungevati.h"

/* The C library's: the kit has no headers of it. */
void exit(int);
int getchar(void);
int printf(const char *, ...);
int putchar(int);

/* ROOM: more dwords than the longest file of the lines has, and than they lend. GUARD: the words behind those lent. */
enum { ROOM = 0x2100, GUARD = 8, ARGUMENTS = 3 };

static const uint32_t UNWRITTEN = 0xEEEEEEEE;

/* A buffer, of which the first words are lent. */
struct lent {
    uint32_t words[ROOM + GUARD];
    size_t len;
};

/* What has been read of a line: its numbers, where the last bracket opened, and the number that is being read: whether it has a digit yet, and
 * whether it says how often the group stands. */
struct reading {
    uint32_t *numbers;
    size_t most, count, group;
    uint32_t value;
    int open, times;
};

static uint32_t dwords[ROOM], arguments[ARGUMENTS], records_lent;
static struct lent batch, state, records;

static void stop(const char *why)
{
    printf("\ntests/reader.c: %s\n", why);
    exit(2);
}

/* ---- Reading a line ---- */

/* The next byte of the lines, printed as it is read. */
static int next_byte(void)
{
    int c = getchar();
    if (c >= 0) putchar(c);
    return c;
}

static int digit(int c)
{
    if (c >= '0' && c <= '9') return c - '0';
    if (c >= 'A' && c <= 'F') return c - 'A' + 10;
    return -1;
}

static void put(struct reading *r, uint32_t x)
{
    if (r->count == r->most) stop("too many numbers in a line");
    r->numbers[r->count++] = x;
}

/* What becomes of a number that has come to its end, if there is one. */
static void end_number(struct reading *r)
{
    size_t size = r->count - r->group, end = r->group + size * r->value;
    if (r->open && !r->times) put(r, r->value);
    if (r->open && r->times)
        while (r->count < end) put(r, r->numbers[r->count - size]);
    r->value = 0;
    r->open = 0;
}

/* The numbers of the line. Words have no digits: those are capital letters. */
static void read_numbers(uint32_t *numbers, size_t most)
{
    struct reading r = {numbers, most, 0, 0, 0, 0, 0};
    int c;
    do {
        c = next_byte();
        if (digit(c) >= 0) {
            r.value = r.value << 4 | (uint32_t)digit(c);
            r.open = 1;
        } else {
            end_number(&r);
            r.times = c == ']';
            if (c == '[') r.group = r.count;
        }
    } while (c >= 0 && c != '\n');
}

static void skip_line(void)
{
    int c;
    do c = next_byte();
    while (c >= 0 && c != '\n');
}

/* ---- What is lent and printed ---- */

static void lend(struct lent *l, size_t len)
{
    if (len > ROOM) stop("more words lent than there are");
    l->len = len;
    for (size_t i = 0; i < ROOM + GUARD; i++) l->words[i] = UNWRITTEN;
}

/* Words that are alike are told together, those behind the lent ones too. */
static void say_words(const struct lent *l)
{
    size_t n = l->len + GUARD;
    for (size_t i = 0; i < n; i++)
        if (i == 0 || l->words[i] != l->words[i - 1]) printf(" %lx %x;", (unsigned long)i, l->words[i]);
    printf(" to %lx\n", (unsigned long)n);
}

static void say_answer(uint32_t reason, uint32_t window, uint32_t index, uint32_t count)
{
    printf(" %u %u %u %u;", reason, window, index, count);
}

/* ---- The file ---- */

static const uint8_t *file_bytes(void)
{
    static uint8_t bytes[4 * ROOM];
    for (size_t i = 0; i < sizeof bytes; i++) bytes[i] = (uint8_t)(dwords[i / 4] >> 8 * (i % 4));
    return bytes;
}

static struct lungevati_contents read_file(size_t file_len, size_t batch_len, size_t state_len)
{
    struct lungevati_contents c;
    if (file_len > 4 * ROOM) stop("a file longer than there is room for");
    lend(&batch, batch_len);
    lend(&state, state_len);
    c = lungevati_read(file_bytes(), file_len, batch.words, batch.len, state.words, state.len);
    say_answer(c.reason, c.window, c.index, c.count);
    printf(" %lx %lx %lx %x %x %x\n", c.batch_at, c.state_at, c.scratch_at, c.scratch_len, c.batch_count, c.state_count);
    say_words(&batch);
    say_words(&state);
    return c;
}

static void check_capture(struct lungevati_contents c)
{
    struct lungevati_answer a;
    lend(&records, records_lent);
    a = lungevati_check_no_base(batch.words, c.batch_count, c.batch_at, state.words, c.state_count, c.state_at, c.scratch_at,
                                c.scratch_len, records.words, records.len);
    say_answer(a.reason, a.window, a.index, a.count);
    say_words(&records);
}

static void obey_file(void)
{
    struct lungevati_contents c;
    read_numbers(arguments, ARGUMENTS);
    c = read_file(arguments[0], arguments[1], arguments[2]);
    if (c.reason == 0) check_capture(c);
}

/* A line that begins with no letter of these is a remark. */
int main(void)
{
    int letter;
    while ((letter = next_byte()) >= 0) {
        if (letter == 'b') read_numbers(dwords, ROOM);
        else if (letter == 'r') read_numbers(&records_lent, 1);
        else if (letter == 'f') obey_file();
        else if (letter != '\n') skip_line();
    }
    return 0;
}
