/*
 * The programs' work in plain C, for bench/shelf to stand beside them: reads files, checks them by compare/checker.c, and prints.
 *   shelf print FILE...     the printout of each, which starts with no base
 *   shelf audit FILE...     a line for each, and the totals, by the default base
 */
#include "../compare/checker.h"

/* The kit's compiler comes without headers. */
int printf(const char *, ...);
int open(const char *, int, ...);
long read(int, void *, size_t);
int close(int);

enum { MOST_BYTES = 32809, LIMIT = 4096 };

static uint8_t bytes[MOST_BYTES];
static uint32_t batch[LIMIT], state[LIMIT], records[2 * LIMIT];

static size_t read_file(const char *name)
{
    size_t n = 0;
    int fd = open(name, 0);
    for (long got; n < MOST_BYTES && (got = read(fd, bytes + n, MOST_BYTES - n)) > 0;) n += (size_t)got;
    close(fd);
    return n;
}

typedef struct lungevati_answer check_call(const uint32_t *, size_t, uint64_t, const uint32_t *, size_t, uint64_t,
                                           uint64_t, uint32_t, uint32_t *, size_t);

static struct lungevati_answer judged(const char *name, check_call *check)
{
    size_t n = read_file(name);
    struct lungevati_contents c = other_read(bytes, n, batch, LIMIT, state, LIMIT);
    if (c.reason) return (struct lungevati_answer){c.reason, 0, 0, 0};
    return check(batch, c.batch_count, c.batch_at, state, c.state_count, c.state_at, c.scratch_at, c.scratch_len, records, 2 * LIMIT);
}

static void print(const char *name)
{
    struct lungevati_answer a = judged(name, other_check_no_base);
    printf("reason %u window %u index %u commands %u\n", a.reason, a.window, a.index, a.count);
    for (uint32_t i = 0; i < a.count; i++) {
        const uint32_t *r = records + 2 * i;
        printf("%u %u %u %u\n", lungevati_record_index(r), lungevati_record_level(r), lungevati_record_row(r), lungevati_record_length(r));
    }
}

int main(int n, char **v)
{
    if (n < 2) return 2;
    uint32_t accepted = 0;
    for (int i = 2; i < n; i++) {
        if (v[1][0] == 'p') {
            print(v[i]);
            continue;
        }
        struct lungevati_answer a = judged(v[i], other_check);
        accepted += a.reason == 0;
        printf(a.reason ? "%s: refused, %u at dword %u after %u commands\n" : "%s: accepted\n", v[i], a.reason, a.index, a.count);
    }
    if (v[1][0] == 'a') printf("%u accepted, %u refused\n", accepted, (uint32_t)n - 2 - accepted);
    return 0;
}
