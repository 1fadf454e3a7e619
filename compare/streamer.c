/* The plain streamer: see streamer.h. It is written for plainness; its speed hardly matters. */
#include "streamer.h"

enum { START = 2, LOAD_IMM = 3, STORE_IMM = 4, STORE_REG = 5, LOAD_REG = 6, PIPE_CONTROL = 7, ROWS = 18 };

static uint64_t mix(uint64_t x)
{
    x = (x ^ x >> 30) * 0xBF58476D1CE4E5B9;
    x = (x ^ x >> 27) * 0x94D049BB133111EB;
    return x ^ x >> 31;
}

static void fail(struct stream *s)
{
    if (s->is == STREAM_RUNS) s->is = STREAM_FAILED;
}

/* ---- The command table: only what tells the row and the length ---- */

static const struct {
    uint32_t key, known_by;
    int has_field;
} table[ROWS] = {
    {0x00000000, 0xFF800000, 0}, {0x05000000, 0xFF800000, 0}, {0x18800000, 0xFF800000, 1}, {0x11000000, 0xFF800000, 1},
    {0x10000000, 0xFF800000, 1}, {0x12000000, 0xFF800000, 1}, {0x14800000, 0xFF800000, 1}, {0x7A000000, 0xFFFF0000, 1},
    {0x69040000, 0xFFFF0000, 0}, {0x61010000, 0xFFFF0000, 1}, {0x78080000, 0xFFFF0000, 1}, {0x78090000, 0xFFFF0000, 1},
    {0x780A0000, 0xFFFF0000, 1}, {0x784B0000, 0xFFFF0000, 1}, {0x78230000, 0xFFFF0000, 1}, {0x780E0000, 0xFFFF0000, 1},
    {0x7B000000, 0xFFFF0000, 1}, {0x78240000, 0xFFFF0000, 1},
};

uint32_t stream_row(uint32_t header)
{
    uint32_t row = 0;
    while (row < ROWS && (header & table[row].known_by) != table[row].key) row++;
    return row;
}

/* ---- Registers and scratch, kept by key ---- */

static uint64_t register_key(uint32_t offset) { return (uint64_t)1 << 63 | offset; }

static struct stream_cell *cell(struct stream *s, uint64_t key)
{
    uint32_t i = (uint32_t)mix(key) % STREAM_CELLS;
    while (s->cells[i].run == s->run && s->cells[i].key != key) i = (i + 1) % STREAM_CELLS;
    return &s->cells[i];
}

static uint32_t recall(struct stream *s, uint64_t key)
{
    struct stream_cell *c = cell(s, key);
    return c->run == s->run ? c->value : (uint32_t)mix(s->seed ^ key);
}

static void keep(struct stream *s, uint64_t key, uint32_t value)
{
    struct stream_cell *c = cell(s, key);
    if (c->run != s->run) {
        if (s->used == STREAM_CELLS / 2) { /* some stay free, or a search would not end */
            s->is = STREAM_FULL;
            return;
        }
        s->used++;
    }
    *c = (struct stream_cell){key, value, s->run};
}

/* ---- Memory: whole words of the three windows ---- */

static enum stream_window find(const struct stream *s, uint64_t address, uint64_t *index)
{
    uint64_t from_batch = address - s->batch_at, from_state = address - s->state_at;
    uint64_t from_scratch = address - s->scratch_at;
    *index = 0;
    if (address % 4 != 0) return STREAM_NOWHERE; /* the windows start on whole words */
    if (from_batch / 4 < s->batch_words) return *index = from_batch / 4, STREAM_BATCH;
    if (from_state / 4 < s->state_words) return *index = from_state / 4, STREAM_STATE;
    if (from_scratch / 4 < s->scratch_words) return *index = from_scratch / 4, STREAM_SCRATCH;
    return STREAM_NOWHERE;
}

static uint32_t load(struct stream *s, uint64_t address)
{
    uint64_t i;
    switch (find(s, address, &i)) {
    case STREAM_BATCH: return s->batch[i];
    case STREAM_STATE: return s->state[i];
    case STREAM_SCRATCH: return recall(s, i);
    default: fail(s); return 0;
    }
}

static void store(struct stream *s, uint64_t address, uint32_t value)
{
    uint64_t i;
    enum stream_window window = find(s, address, &i);
    if (s->is != STREAM_RUNS) return;
    switch (window) {
    case STREAM_BATCH: s->batch[i] = value; break;
    case STREAM_STATE: s->state[i] = value; break;
    case STREAM_SCRATCH: keep(s, i, value); break;
    default: fail(s); return;
    }
    s->stores[window]++;
}

/* A dword of the command at hand, as the batch then stands. */
static uint32_t fetch(struct stream *s, uint32_t dword)
{
    uint64_t i = s->position + dword;
    if (i < s->batch_words) return s->batch[i];
    fail(s);
    return 0;
}

/* An address is the lower 48 bits of its dwords, whatever stands above them. */
static uint64_t fetch_address(struct stream *s, uint32_t dword)
{
    uint64_t low = fetch(s, dword);
    return low | (uint64_t)(fetch(s, dword + 1) & 0xFFFF) << 32;
}

static uint32_t hardware(struct stream *s) { return (uint32_t)mix(s->seed + ++s->supplied); }

/* ---- What the rows do ---- */

static void load_imm(struct stream *s)
{
    for (uint32_t i = 1; i + 1 < s->length && s->is == STREAM_RUNS; i += 2) {
        uint32_t offset = fetch(s, i), value = fetch(s, i + 1);
        if (s->is == STREAM_RUNS) keep(s, register_key(offset), value);
    }
}

static void store_imm(struct stream *s)
{
    for (uint32_t i = 3; i < s->length && s->is == STREAM_RUNS; i++) {
        uint64_t address = fetch_address(s, 1) + 4 * (i - 3);
        store(s, address, fetch(s, i));
    }
}

static void store_reg(struct stream *s)
{
    uint32_t value = recall(s, register_key(fetch(s, 1)));
    store(s, fetch_address(s, 2), value);
}

static void load_reg(struct stream *s)
{
    uint32_t offset = fetch(s, 1), value = load(s, fetch_address(s, 2));
    if (s->is == STREAM_RUNS) keep(s, register_key(offset), value);
}

static void pipe_control(struct stream *s)
{
    uint32_t post_sync = fetch(s, 1) >> 14 & 3;
    if (post_sync == 0 || s->is != STREAM_RUNS) return;
    uint64_t address = fetch_address(s, 2);
    store(s, address, post_sync == 1 ? fetch(s, 4) : hardware(s));
    store(s, address + 4, post_sync == 1 ? fetch(s, 5) : hardware(s));
}

static void do_row(struct stream *s)
{
    switch (s->row) {
    case LOAD_IMM: load_imm(s); break;
    case STORE_IMM: store_imm(s); break;
    case STORE_REG: store_reg(s); break;
    case LOAD_REG: load_reg(s); break;
    case PIPE_CONTROL: pipe_control(s); break;
    }
}

/* ---- Moves ---- */

static void end(struct stream *s)
{
    if (s->level == 0) {
        s->is = STREAM_ENDED;
    } else if (!s->has_kept) {
        fail(s);
    } else {
        s->position = s->kept;
        s->level = 0;
    }
}

static void start(struct stream *s, uint32_t header)
{
    uint64_t target = fetch_address(s, 1);
    if (header & 0x00400000) {
        s->kept = s->position + s->length;
        s->has_kept = 1;
        s->level = 1;
    }
    /* A target between two words is no word of the batch; the next fetch then fails, as it does at one outside. */
    s->position = target % 4 == 0 ? (target - s->batch_at) / 4 : (uint64_t)1 << 62;
}

void stream_step(struct stream *s)
{
    uint32_t header;
    if (s->is != STREAM_RUNS) return;
    header = fetch(s, 0);
    s->row = stream_row(header);
    if (s->row == ROWS) fail(s);
    if (s->is != STREAM_RUNS) return;
    s->index = (uint32_t)s->position;
    s->at_level = (uint32_t)s->level;
    s->length = table[s->row].has_field ? (header & 0xFF) + 2 : 1;
    do_row(s);
    if (s->is != STREAM_RUNS) return;
    if (s->row == 1) end(s);
    else if (s->row == START) start(s, header);
    else s->position += s->length;
}

static uint64_t copy(uint32_t *to, const uint32_t *from, size_t count)
{
    size_t n = count < STREAM_WINDOW ? count : STREAM_WINDOW;
    for (size_t i = 0; i < n; i++) to[i] = from[i];
    return n;
}

void stream_start(struct stream *s, const uint32_t *batch, size_t batch_len, uint64_t batch_at, const uint32_t *state,
                  size_t state_len, uint64_t state_at, uint64_t scratch_at, uint32_t scratch_len, uint64_t seed)
{
    s->batch_words = copy(s->batch, batch, batch_len);
    s->state_words = copy(s->state, state, state_len);
    s->scratch_words = scratch_len / 4;
    s->batch_at = batch_at;
    s->state_at = state_at;
    s->scratch_at = scratch_at;
    s->seed = mix(seed);
    s->supplied = 0;
    s->run++;
    s->used = 0;
    s->is = STREAM_RUNS;
    s->position = 0;
    s->level = 0;
    s->has_kept = (int)(s->seed >> 32 & 1); /* any position or none is kept at the start */
    s->kept = s->seed % (STREAM_WINDOW + 2);
    s->index = s->at_level = s->row = s->length = 0;
    s->stores[STREAM_BATCH] = s->stores[STREAM_STATE] = s->stores[STREAM_SCRATCH] = 0;
}
