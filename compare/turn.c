/*
 * The second opinion's turning of old listings, in plain C, from request 7 and our readings of it: a record was one word, and is two.
 */
#include "checker.h"

enum { BITS = 10, FULL = 18 }; /* the numbers that it refuses with, in the order in which they are tried */

/* What an old word had where, and what it had nowhere. */
enum { OLD_INDEX = 0x00000FFF, OLD_LEVEL = 0x00001000, OLD_NOTHING = 0x0000E000 };
static const uint32_t OLD_LENGTH_AND_ROW = 0xFFFF0000;

enum { NEW_LEVEL = 0x00010000 };

static struct lungevati_long_answer refusal(uint32_t reason, uint64_t index) { return (struct lungevati_long_answer){reason, 0, index, 0}; }

struct lungevati_long_answer other_turn(const uint32_t *old_words, size_t old_len, uint32_t *new_words, size_t new_len)
{
    for (size_t i = 0; i < old_len; i++)
        if (old_words[i] & OLD_NOTHING) return refusal(BITS, i);
    if (new_len < old_len || new_len - old_len < old_len) return refusal(FULL, 0); /* room for each once, and once more: no product that could wrap */

    for (const uint32_t *old = old_words, *end = old_words + old_len; old < end; old++, new_words += 2) {
        new_words[0] = (*old & OLD_INDEX) | (*old & OLD_LEVEL ? NEW_LEVEL : 0);
        new_words[1] = *old & OLD_LENGTH_AND_ROW;
    }
    return (struct lungevati_long_answer){0, 0, 0, old_len};
}
