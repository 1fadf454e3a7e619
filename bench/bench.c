/*
 * What each proved engine costs beside the second opinion, and beside the fast checker in C, on the same captures in one run; and the reader of
 * files beside the one in C.
 *   bench ROUNDS ROOM        instructions of each call, counted by the trap flag, and the least time of ROUNDS short rounds, or no
 *                            time if that is 0; ROOM is for how many records, at least 4,096: it cuts the loop short, and says how many dwords of
 *                            the far captures are run
 * The instructions are exact, and the same in every run. The times are of this machine and of its mood: hence the least of many
 * rounds, and the ratio.
 *
 * Behind the captures comes a line for a command of each row: what a third one costs behind two of it.
 *
 * Each long run is measured twice: in windows of 4,096 dwords, and "far", in windows of 65,536, of which it takes the last dwords, behind a jump: as many as
 * ROOM says. So with room for 4,096 records the two have the same commands but for the jump, and what they cost shows what the window costs.
 */
#include "../compare/checker.h"

/* The kit's compiler comes without headers. */
int printf(const char *, ...);
unsigned long strtoul(const char *, char **, int);
struct timespec { long s, ns; };
int clock_gettime(int, struct timespec *);
void (*signal(int, void (*)(int)))(int);

enum { LIMIT = 4096, FAR_LIMIT = 65536, BUDGET = 65536, CLOCK_MONOTONIC = 1, SIGTRAP = 5 };

static uint32_t batch[FAR_LIMIT], state[FAR_LIMIT], records[2 * (BUDGET + 1)];
static size_t batch_len, state_len, records_len;
static size_t room, limit; /* for how many records, and the dwords of the batch that is made */

/* ---- Captures: document 01's windows, and a state window with zeros, which are a colour state and a depth range, in its last page ---- */

static const uint64_t BATCH_AT = 0x100000, STATE_AT = 0x200000, SCRATCH_AT = 0x300000;
enum { SCRATCH_LEN = 4096, STATE_LEN = 16, PAGE_WORDS = 1024 };

/* Where the structures are: the dynamic base of every capture. */
static uint64_t structures_at(void) { return STATE_AT + (state_len > PAGE_WORDS ? 4 * (state_len - PAGE_WORDS) : 0); }

static void put(const uint32_t *words, size_t count)
{
    for (size_t i = 0; i < count; i++) batch[batch_len++] = words[i];
}

#define PUT(...)                                   \
    do {                                           \
        const uint32_t put_words[] = {__VA_ARGS__}; \
        put(put_words, sizeof put_words / 4);      \
    } while (0)

static void put_end(void) { PUT(0x05000000); }

/* Groups with other values in each, as real ones have. */
static void put_elements(uint32_t n)
{
    static const uint32_t formats[] = {0x000, 0x040, 0x085, 0x0C7, 0x10A, 0x143, 0x19C, 0x1BA};
    PUT(0x78090000 | (2 * n - 1));
    for (uint32_t i = 0; i < n; i++)
        PUT(i % 33 << 26 | 1u << 25 | formats[i % 8] << 16 | i * 8, i % 2 ? 0x11130000 : 0x11110000);
}

static void put_buffers(uint32_t n)
{
    PUT(0x78080000 | (4 * n - 1));
    for (uint32_t i = 0; i < n; i++) PUT(i << 26 | 0x4000 | 16 * i, (uint32_t)SCRATCH_AT + 64 * i, 0, 64);
}

static void put_registers(uint32_t n)
{
    PUT(0x11000000 | (2 * n - 1));
    for (uint32_t i = 0; i < n; i++) PUT(i % 2 ? 0x2600 + 4 * (i % 32) : 0x2430, i);
}

static void put_base(void) { PUT(0x6101000E, 1, 0, 0, 1, 0, (uint32_t)structures_at() | 1, 0, 1, 0, 1, 0, 1, 1, 1, 1); }

/* One command of each row that goes on, as real captures have it; rows of groups have a few. */
static void put_noop(void) { PUT(0); }
static void put_start(void) { PUT(0x18800101, (uint32_t)(BATCH_AT + 4 * (batch_len + 3)), 0); }
static void put_pairs(void) { put_registers(3); }
static void put_store_4(void) { PUT(0x10000002, (uint32_t)SCRATCH_AT + 4, 0, 7); }
static void put_store_8(void) { PUT(0x10200003, (uint32_t)SCRATCH_AT + 8, 0, 7, 8); }
static void put_store_register(void) { PUT(0x12000002, 0x2408, (uint32_t)SCRATCH_AT + 16, 0); }
static void put_load_register(void) { PUT(0x14800002, 0x2430, (uint32_t)structures_at(), 0); }
static void put_flush(void) { PUT(0x7A000004, 0x00101001, 0, 0, 0, 0); }
static void put_post_sync(void) { PUT(0x7A000004, 0x00004010, (uint32_t)SCRATCH_AT + 24, 0, 1, 0); }
static void put_select(void) { PUT(0x69040000); }
static void put_two_buffers(void) { put_buffers(2); }
static void put_three_elements(void) { put_elements(3); }
static void put_index_buffer(void) { PUT(0x780A0003, 0x100, (uint32_t)SCRATCH_AT + 256, 0, 128); }
static void put_topology(void) { PUT(0x784B0000, 4); }
static void put_viewport(void) { PUT(0x78230000, 32); }
static void put_colour(void) { PUT(0x780E0000, 1); }
static void put_primitive(void) { PUT(0x7B000005, 4, 3, 0, 1, 0, 0); }
static void put_blend(void) { PUT(0x78240000, 1); }

static const struct row {
    const char *name;
    void (*put)(void);
} rows[] = {
    {"row 0", put_noop},           {"row 2", put_start},           {"row 3", put_pairs},         {"row 4, 4 bytes", put_store_4},
    {"row 4, 8 bytes", put_store_8}, {"row 5", put_store_register}, {"row 6", put_load_register}, {"row 7", put_flush},
    {"row 7, storing", put_post_sync}, {"row 8", put_select},      {"row 9", put_base},          {"row 10", put_two_buffers},
    {"row 11", put_three_elements}, {"row 12", put_index_buffer},  {"row 13", put_topology},     {"row 14", put_viewport},
    {"row 15", put_colour},        {"row 16", put_primitive},      {"row 17", put_blend},
};

/* What a frame's worth of commands looks like: every row that goes on by its length, but 17, some with few groups. */
static void put_frame(void)
{
    void (*const frame[])(void) = {put_select,   put_base,     put_flush,  put_pairs,     put_two_buffers, put_three_elements, put_index_buffer,   put_topology,
                                   put_viewport, put_colour,   put_primitive, put_store_4, put_store_8,    put_store_register, put_load_register, put_post_sync, put_noop};
    for (size_t i = 0; i < sizeof frame / sizeof frame[0]; i++) frame[i]();
}

static void make_mixed(void)
{
    while (batch_len + 128 < limit) put_frame();
    while (batch_len < limit - 1) PUT(0);
    put_end();
}

static void make_noops(void)
{
    while (batch_len < limit - 1) PUT(0);
    put_end();
}

static void make_elements(void)
{
    while (batch_len + 69 < limit) put_elements(34);
    put_end();
}

static void make_buffers(void)
{
    while (batch_len + 133 < limit) put_buffers(33);
    put_end();
}

static void make_registers(void)
{
    while (batch_len + 129 < limit) put_registers(64);
    put_end();
}

/* Every known topology in turn, the low codes and the high ones. */
static void make_topologies(void)
{
    for (uint32_t code = 1; batch_len + 2 < limit; code = code % 0x3F + 1)
        if (code <= 0x14 || code == 0x16 || code >= 0x20) PUT(0x784B0000, code);
    put_end();
}

static void make_small(void)
{
    PUT(0);
    put_end();
}

/* A store and a jump back to it, until the budget is spent. */
static void make_loop(void)
{
    PUT(0, 0x10000002, (uint32_t)SCRATCH_AT + 4, 0, 7, 0x18800101, (uint32_t)(BATCH_AT + 4 * batch_len), 0);
}

static const struct {
    const char *name;
    void (*make)(void);
    int far; /* in windows of 65,536 dwords */
} captures[] = {
    {"mixed rows", make_mixed, 0},         {"mixed rows, far", make_mixed, 1},         {"no-ops", make_noops, 0},
    {"no-ops, far", make_noops, 1},        {"vertex elements", make_elements, 0},      {"vertex elements, far", make_elements, 1},
    {"vertex buffers", make_buffers, 0},   {"vertex buffers, far", make_buffers, 1},   {"register pairs", make_registers, 0},
    {"register pairs, far", make_registers, 1}, {"topologies", make_topologies, 0},    {"topologies, far", make_topologies, 1},
    {"small", make_small, 0},              {"loop", make_loop, 0},                     {"loop, far", make_loop, 1},
};

/* Far, the batch has a jump to what is made, and behind that nothing but no-ops, which are not run. */
static void make_capture(uint32_t which)
{
    size_t span = room < FAR_LIMIT - 3 ? room : FAR_LIMIT - 3;
    int far = captures[which].far;
    batch_len = 0, limit = far ? FAR_LIMIT : LIMIT, state_len = far ? FAR_LIMIT : STATE_LEN;
    records_len = 2 * (room + (size_t)far); /* the jump has a record too */
    if (far) {
        PUT(0x18800101, (uint32_t)(BATCH_AT + 4 * (FAR_LIMIT - span)), 0);
        while (batch_len < FAR_LIMIT - span) PUT(0);
    }
    captures[which].make();
    if (far) while (batch_len < FAR_LIMIT) PUT(0);
}

/* A base, so many commands of one row, and an end. */
static void make_row(const struct row *row, uint32_t commands)
{
    batch_len = 0, state_len = PAGE_WORDS, records_len = 2 * room;
    put_base();
    for (uint32_t i = 0; i < commands; i++) row->put();
    put_end();
}

/* ---- Calls ---- */

typedef struct lungevati_answer check_call(const uint32_t *, size_t, uint64_t, const uint32_t *, size_t, uint64_t,
                                           uint64_t, uint32_t, uint32_t *, size_t);

/* The proved engines. bench/figures has a row for each of them and each capture. */
static const struct engine {
    const char *name;
    check_call *check;
} engines[] = {{"plain", lungevati_check}, {"table", lungevati_check_table}};

/* The reader of files, in the form of a check, so that it is counted in the same way: it reads the largest file, and counts what it fills. */
enum { FILE_BYTES = 32808, TRAILER_BYTES = 40 };
static uint8_t file[FILE_BYTES];
static uint32_t filled[2][LIMIT];

static void make_file(void)
{
    const uint32_t trailer[] = {(uint32_t)BATCH_AT, 0, (uint32_t)STATE_AT, 0, (uint32_t)SCRATCH_AT, 0, SCRATCH_LEN, LIMIT, LIMIT, FILE_BYTES};
    for (uint32_t i = 0; i < FILE_BYTES - TRAILER_BYTES; i++) file[i] = (uint8_t)(i * 7);
    for (uint32_t i = 0; i < TRAILER_BYTES; i++) file[FILE_BYTES - TRAILER_BYTES + i] = (uint8_t)(trailer[i / 4] >> 8 * (i % 4));
}

#define READING(name, read)                                                                                                        \
    static struct lungevati_answer name(const uint32_t *b, size_t bl, uint64_t ba, const uint32_t *s, size_t sl, uint64_t sa, uint64_t ca, \
                                        uint32_t cl, uint32_t *r, size_t rl)                                                       \
    {                                                                                                                              \
        (void)b, (void)bl, (void)ba, (void)s, (void)sl, (void)sa, (void)ca, (void)cl, (void)r, (void)rl;                           \
        struct lungevati_contents c = read(file, FILE_BYTES, filled[0], LIMIT, filled[1], LIMIT);                                  \
        return (struct lungevati_answer){c.reason, c.window, c.index, c.batch_count + c.state_count};                              \
    }
READING(proved_reading, lungevati_read)
READING(other_reading, other_read)

static volatile uint32_t sink;

static struct lungevati_answer ask(check_call *check)
{
    return check(batch, batch_len, BATCH_AT, state, state_len, STATE_AT, SCRATCH_AT, SCRATCH_LEN, records, records_len);
}

/* The processor raises a signal after each instruction while the trap flag is set. */
static volatile uint64_t steps;
static void step(int number)
{
    (void)number;
    steps++;
}

/* Not inlined, and through a pointer that the compiler does not know: or each call would get a shape of its own. */
static __attribute__((noinline)) uint64_t counted(check_call *volatile check)
{
    sink = ask(check).reason; /* once before, so that nothing is counted that only a first call does */
    steps = 0;
    __asm__ volatile("pushfq; orq $0x100, (%%rsp); popfq" ::: "memory", "cc");
    sink = ask(check).reason;
    __asm__ volatile("pushfq; andq $~0x100, (%%rsp); popfq" ::: "memory", "cc");
    return steps;
}

/* A single instruction, so that all that is counted beside the call itself can be taken off. */
struct lungevati_answer only_return(const uint32_t *, size_t, uint64_t, const uint32_t *, size_t, uint64_t, uint64_t,
                                    uint32_t, uint32_t *, size_t);
__asm__(".text\nonly_return: ret\n");

static uint64_t instructions(check_call *check) { return counted(check) - counted(only_return) + 1; }

/* What a third command of a row costs behind two of it. */
static double third(const struct row *row, check_call *check)
{
    make_row(row, 2);
    uint64_t two = instructions(check);
    make_row(row, 3);
    return (double)instructions(check) - (double)two;
}

static double now(void)
{
    struct timespec t;
    clock_gettime(CLOCK_MONOTONIC, &t);
    return (double)t.s * 1e9 + (double)t.ns;
}

static double timed(check_call *check, int calls)
{
    double from = now();
    for (int i = 0; i < calls; i++) sink = ask(check).reason;
    return (now() - from) / calls;
}

/* The least of many rounds, each shorter than what another process takes at a time; the two in turn, either one first. */
static double time_ratio(check_call *check, check_call *beside, uint64_t rounds, double *proved)
{
    double least[2] = {1e30, 1e30};
    int calls = 1;
    while (timed(check, calls) * calls < 2e5 && calls < 1 << 20) calls *= 2;
    for (uint64_t k = 0; k < 2 * rounds; k++) {
        int which = (int)((k + k / 2) % 2);
        double t = timed(which ? beside : check, calls);
        if (t < least[which]) least[which] = t;
    }
    *proved = least[0];
    return least[0] / least[1];
}

/* ---- The table ---- */

static uint64_t dwords_of(uint32_t commands)
{
    uint64_t dwords = 0;
    for (uint32_t i = 0; i < commands; i++) dwords += lungevati_record_length(records + 2 * i);
    return dwords;
}

static int same_answers(const char *who, check_call *check, check_call *beside, const char *name, uint64_t *count)
{
    struct lungevati_answer p = ask(check), o = ask(beside);
    *count = o.count;
    if (p.reason == o.reason && p.window == o.window && p.index == o.index && p.count == o.count && o.count > 0) return 1;
    printf("%s, %s: %u %u %u %u, C %u %u %u %u\n", who, name, p.reason, p.window, p.index, p.count, o.reason, o.window, o.index,
           o.count);
    return 0;
}

/* What the two checkers in C take of the capture that stands. */
struct counts {
    double c, fast;
};

static void print_head(uint64_t rounds)
{
    printf("%46s |            instructions a call            |         a command          |         a dword%s\n", "",
           rounds ? "         |      least time" : "");
    printf("%-8s %-20s commands  dwords |    proved         C  ratio      fast  ratio |   proved        C     fast |  proved       C    fast%s\n",
           "engine", "capture", rounds ? " | to C  to fast  proved ns" : "");
}

/* What is done with the capture that stands: its commands and dwords. */
struct work {
    const char *name;
    uint64_t commands, dwords;
};

/* A line of the table, but for its times. */
static void print_counts(const char *engine, struct work w, double p, struct counts in_c)
{
    double c = in_c.c, f = in_c.fast, n = (double)w.commands, d = (double)w.dwords;
    printf("%-8s %-20s %8.0f %7.0f | %9.0f %9.0f %6.3f %9.0f %6.3f | %8.2f %8.2f %8.2f | %7.2f %7.2f %7.2f", engine, w.name, n, d, p, c,
           p / c, f, p / f, p / n, c / n, f / n, p / d, c / d, f / d);
}

/* One engine on the capture that stands, or the reader. */
static void measure(const struct engine *engine, check_call *beside, check_call *fast, struct work w, struct counts in_c, uint64_t rounds)
{
    print_counts(engine->name, w, (double)instructions(engine->check), in_c);
    if (rounds) {
        double proved_time, to_c = time_ratio(engine->check, beside, rounds, &proved_time);
        double to_fast = time_ratio(engine->check, fast, rounds, &proved_time);
        printf(" | %6.3f %6.3f %10.0f", to_c, to_fast, proved_time);
    }
    printf("\n");
}

/* All checkers on the capture that stands. */
static int measure_engines(const char *name, uint64_t rounds)
{
    struct work w = {name, 0, 0};
    if (!same_answers("fast", fast_check, other_check, name, &w.commands)) return 0;
    w.dwords = dwords_of((uint32_t)w.commands);
    struct counts in_c = {(double)instructions(other_check), (double)instructions(fast_check)};
    for (uint32_t e = 0; e < sizeof engines / sizeof engines[0]; e++) {
        if (!same_answers(engines[e].name, engines[e].check, other_check, name, &w.commands)) return 0;
        measure(&engines[e], other_check, fast_check, w, in_c, rounds);
    }
    return 1;
}

/* One command of a row, by its instructions alone. */
static int measure_row(const struct row *row)
{
    struct work w = {row->name, 0, 0};
    make_row(row, 3);
    if (!same_answers("fast", fast_check, other_check, row->name, &w.commands)) return 0;
    w.dwords = lungevati_record_length(records + 2);
    for (uint32_t e = 0; e < sizeof engines / sizeof engines[0]; e++)
        if (!same_answers(engines[e].name, engines[e].check, other_check, row->name, &w.commands)) return 0;
    if (w.commands != 5) return printf("%s: it is not accepted\n", row->name), 0;
    w.commands = 1;
    struct counts in_c = {third(row, other_check), third(row, fast_check)};
    for (uint32_t e = 0; e < sizeof engines / sizeof engines[0]; e++) {
        print_counts(engines[e].name, w, third(row, engines[e].check), in_c);
        printf("\n");
    }
    return 1;
}

/* The reader on the largest file. The fast checker has no reader, so the one in C stands for it too. */
static int measure_reader(uint64_t rounds)
{
    const struct engine reader = {"reader", proved_reading};
    struct work w = {"the largest file", 0, 0};
    make_file();
    if (!same_answers(reader.name, proved_reading, other_reading, w.name, &w.commands)) return 0;
    w.dwords = w.commands;
    double c = (double)instructions(other_reading);
    measure(&reader, other_reading, other_reading, w, (struct counts){c, c}, rounds);
    return 1;
}

int main(int n, char **v)
{
    if (n != 3) return printf("usage: bench ROUNDS ROOM\n"), 2;
    uint64_t rounds = strtoul(v[1], 0, 10);
    room = strtoul(v[2], 0, 10);
    if (room > BUDGET) room = BUDGET;
    signal(SIGTRAP, step);
    print_head(rounds);
    for (uint32_t i = 0; i < sizeof captures / sizeof captures[0]; i++) {
        make_capture(i);
        if (!measure_engines(captures[i].name, rounds)) return 1;
    }
    for (uint32_t i = 0; i < sizeof rows / sizeof rows[0]; i++)
        if (!measure_row(&rows[i])) return 1;
    return !measure_reader(rounds);
}
