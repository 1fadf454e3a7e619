/*
 * Checks the capture on standard input through the C calls, and prints document 01's answer line, as the printout has it: with no dynamic base at
 * the start. Exit status: 0 accepted, 1 refused, 2 not read, or the answer not written.
 */
#include "lungevati.h"

/* Where there is a C library with its headers, <stdio.h> and <unistd.h> say the same. */
int fflush(void *);
int printf(const char *, ...);
long read(int, void *, unsigned long);

/* The largest capture file has 32,808 bytes; one more shows that a file is longer. */
enum { MOST = 32808 + 1, WORDS = 4096, RECORD_WORDS = 2 * WORDS };

static uint8_t file[MOST];
static uint32_t batch[WORDS], state[WORDS], records[RECORD_WORDS];

static int say(uint32_t reason, uint32_t window, uint32_t index, uint32_t count)
{
    if (printf("reason %u window %u index %u commands %u\n", reason, window, index, count) < 0 || fflush(0) != 0) return 2;
    return reason != 0;
}

int main(void)
{
    size_t size = 0;
    while (size < MOST) {
        long got = read(0, file + size, MOST - size);
        if (got < 0) return 2;
        if (got == 0) break;
        size += (size_t)got;
    }
    struct lungevati_contents c = lungevati_read(file, size, batch, WORDS, state, WORDS);
    if (c.reason) return say(c.reason, c.window, c.index, c.count);
    struct lungevati_answer a = lungevati_check_no_base(batch, c.batch_count, c.batch_at, state, c.state_count, c.state_at,
                                                        c.scratch_at, c.scratch_len, records, RECORD_WORDS);
    return say(a.reason, a.window, a.index, a.count);
}
