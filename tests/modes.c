/*
 * Checks captures through the call that programs in C link, in every mode of the processor's floating-point unit, and holds each answer against one
 * that is worked out with integers. A caller may have denormals taken for zeros (-ffast-math has), and rounding as it likes: no answer may change.
 */
#include "lungevati.h"

/* The C library's: the kit has no headers of it. */
int printf(const char *, ...);

/* The bits of MXCSR: the two modes that make zeros of denormals, one step of the four ways to round, and the flags, which floats leave behind. */
enum { DENORMALS_ARE_ZEROS = 1 << 6, FLUSH_TO_ZERO = 1 << 15, ROUNDING = 1 << 13, FLAGS = 0x3F };
/* USUAL: all exceptions masked and no flag, as a program starts. MODES: with and without each of the two, and each way to round. */
enum { USUAL = 0x1F80, MODES = 16 };

/* Bits of the values: zeros, denormals and their ends, normal values and theirs, infinities, signalling and quiet NaNs. Each with both signs. */
static const uint32_t values[] = {
    0x00000000, 0x80000000, 0x00000001, 0x80000001, 0x00000002, 0x80000002, 0x00400000, 0x80400000, 0x007FFFFF, 0x807FFFFF,
    0x00800000, 0x80800000, 0x00800001, 0x80800001, 0x3F7FFFFF, 0xBF7FFFFF, 0x3F800000, 0xBF800000, 0x7F7FFFFF, 0xFF7FFFFF,
    0x7F800000, 0xFF800000, 0x7F800001, 0xFF800001, 0x7FBFFFFF, 0xFFBFFFFF, 0x7FC00000, 0xFFC00000, 0x7FFFFFFF, 0xFFFFFFFF,
};
enum { VALUES = sizeof values / sizeof values[0] };

/* The capture: a STATE_BASE_ADDRESS that sets the dynamic base to the state window, a pointer to a structure there, and the end; and the words of the
 * records of all three. */
enum { STATE_AT = 0x200000, STRUCTURE = 16, POINTER = 16, END = 18, RECORD_WORDS = 2 * 3 };
static uint32_t batch[END + 1] = {[0] = 0x6101000E, [6] = STATE_AT | 1, [END] = 0x05000000};
static uint32_t state[STRUCTURE + 6], records[RECORD_WORDS];

static unsigned long asked, wrong;

/* ---- The floating-point unit, of which the compiler knows nothing here ---- */

static void set_mode(uint32_t mode)
{
    __asm__ volatile("ldmxcsr %0" : : "m"(mode) : "memory");
}

static uint32_t mode_now(void)
{
    uint32_t mode;
    __asm__ volatile("stmxcsr %0" : "=m"(mode) : : "memory");
    return mode;
}

#define FLOATS(instructions, result, a, b) \
    __asm__ volatile("movd %1, %%xmm0\n movd %2, %%xmm1\n " instructions : "=r"(result) : "r"(a), "r"(b) : "xmm0", "xmm1", "cc")

static uint32_t at_most(uint32_t a, uint32_t b)
{
    uint32_t r;
    FLOATS("ucomiss %%xmm0, %%xmm1\n setae %b0\n movzbl %b0, %0", r, a, b);
    return r;
}

static uint32_t product(uint32_t a, uint32_t b)
{
    uint32_t r;
    FLOATS("mulss %%xmm1, %%xmm0\n movd %%xmm0, %0", r, a, b);
    return r;
}

static uint32_t sum(uint32_t a, uint32_t b)
{
    uint32_t r;
    FLOATS("addss %%xmm1, %%xmm0\n movd %%xmm0, %0", r, a, b);
    return r;
}

/* How a mode shows that it is set: an operation on two floats, what it gives as usual, and what in that mode. */
static const struct {
    const char *name;
    uint32_t mode;
    uint32_t (*operation)(uint32_t, uint32_t);
    uint32_t a, b, usually, then;
} shows[] = {
    {"denormals taken for zeros", DENORMALS_ARE_ZEROS, at_most, 0x00000001, 0x00000000, 0, 1},
    {"small results flushed to zero", FLUSH_TO_ZERO, product, 0x00800000, 0x3F000000, 0x00400000, 0},
    {"rounding up", 2 * ROUNDING, sum, 0x3F800000, 0x00800000, 0x3F800000, 0x3F800001},
};

static void say_which_modes_hold(void)
{
    for (size_t i = 0; i < sizeof shows / sizeof shows[0]; i++) {
        uint32_t usually = shows[i].operation(shows[i].a, shows[i].b), then;
        set_mode(USUAL | shows[i].mode);
        then = shows[i].operation(shows[i].a, shows[i].b);
        set_mode(USUAL);
        if (usually == shows[i].usually && then == shows[i].then) printf("tests/modes: this processor knows: %s\n", shows[i].name);
        else printf("tests/modes: NOTHING IS SHOWN of a mode that this processor does not know: %s (%x, then %x)\n", shows[i].name, usually, then);
    }
}

/* ---- What the answer must be, by integers ---- */

static int is_nan(uint32_t bits)
{
    return (bits & 0x7FFFFFFF) > 0x7F800000;
}

/* The place of a value that is no NaN among all: below 0 for a negative one, and 0 for both zeros. */
static int rank(uint32_t bits)
{
    int magnitude = bits & 0x7FFFFFFF;
    return bits >> 31 ? -magnitude : magnitude;
}

/* The dword of a structure that breaks its rule, or -1. */
static int wrong_depth(const uint32_t *d)
{
    if (is_nan(d[0])) return 0;
    return is_nan(d[1]) || rank(d[0]) > rank(d[1]) ? 1 : -1;
}

static int wrong_colour(const uint32_t *d)
{
    for (int k = 2; k < 6; k++)
        if (is_nan(d[k])) return k;
    return -1;
}

/* ---- Asking ---- */

static int same(struct lungevati_answer a, struct lungevati_answer b)
{
    return a.reason == b.reason && a.window == b.window && a.index == b.index && a.count == b.count;
}

static void say_wrong(uint32_t mode, uint32_t after, struct lungevati_answer a, struct lungevati_answer must)
{
    const uint32_t *d = state + STRUCTURE;
    if (wrong++ >= 10) return;
    printf("tests/modes: mode %x, then %x; structure %x of %x %x %x %x %x %x:\n", mode, after, batch[POINTER], d[0], d[1], d[2], d[3], d[4], d[5]);
    printf("    %u %u %u %u, and must be %u %u %u %u\n", a.reason, a.window, a.index, a.count, must.reason, must.window, must.index, must.count);
}

typedef struct lungevati_answer check_call(const uint32_t *, size_t, uint64_t, const uint32_t *, size_t, uint64_t, uint64_t, uint32_t, uint32_t *, size_t);

/* One engine's answer on the capture that stands, and the mode that it leaves. */
static void ask_engine(check_call *check, uint32_t mode, struct lungevati_answer must)
{
    struct lungevati_answer a;
    uint32_t after;
    set_mode(mode);
    a = check(batch, END + 1, 0x100000, state, STRUCTURE + 6, STATE_AT, 0x300000, 4096, records, RECORD_WORDS);
    after = mode_now();
    set_mode(USUAL);
    if (!same(a, must) || (after & ~FLAGS) != mode) say_wrong(mode, after, a, must);
}

/* Checks the capture with the pointer HEADER, LOW in the mode; of the structure the dword AT breaks its rule, or none if that is -1. */
static void ask(uint32_t mode, uint32_t header, uint32_t low, int at)
{
    struct lungevati_answer must = {0, 0, 0, 3};
    if (at >= 0) must = (struct lungevati_answer){17, 1, STRUCTURE + (uint32_t)at, 1};
    batch[POINTER] = header;
    batch[POINTER + 1] = 4 * STRUCTURE | low;
    asked++;
    ask_engine(lungevati_check, mode, must);
    ask_engine(lungevati_check_table, mode, must);
}

/* Two values as the depths, and as neighbours in a blend constant of denormals, at each of its places. */
static void ask_pair(uint32_t mode, uint32_t v, uint32_t w)
{
    uint32_t *d = state + STRUCTURE;
    d[0] = v;
    d[1] = w;
    ask(mode, 0x78230000, 0, wrong_depth(d));
    d[0] = 0xFFFF8001;
    for (int place = 0; place < 4; place++) {
        for (int k = 0; k < 4; k++) d[2 + k] = 0x00000001;
        d[2 + place] = v;
        d[2 + (place + 1) % 4] = w;
        ask(mode, 0x780E0000, 1, wrong_colour(d));
    }
}

int main(void)
{
    say_which_modes_hold();
    for (uint32_t m = 0; m < MODES; m++) {
        uint32_t zeros = (m & 1 ? DENORMALS_ARE_ZEROS : 0) | (m & 2 ? FLUSH_TO_ZERO : 0);
        for (int i = 0; i < VALUES * VALUES; i++) ask_pair(USUAL | zeros | (m >> 2) * ROUNDING, values[i / VALUES], values[i % VALUES]);
    }
    printf("tests/modes: %lu captures in %u modes by both engines, %lu answers wrong\n", asked, MODES, wrong);
    return wrong != 0;
}
