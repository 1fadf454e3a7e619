/*
 * Lungevati from C: the proved checker of captured GPU command buffers, the proved writer of commands, and what turns the listings of earlier versions.
 * Archive libapi.a, made by `rt lib` in crates/api, has lungevati_check, lungevati_check_no_base, lungevati_read, lungevati_write and lungevati_turn;
 * libapi_table.a, made by `rt lib` in crates/api_table, has lungevati_check_table and lungevati_check_table_no_base. Both link into one program.
 *
 * The numbers, places and rules are those of docs/RULES.md: document 01 and the requests behind it. A reason is 0 (accepted, read, written, or turned)
 * or one of the refusal numbers there. Each call returns, whatever comes in, allocates nothing and keeps nothing between calls.
 *
 * The caller promises what no checker can test: each pointer is valid for the length given with it, and not null even
 * where that is 0; memory that is lent to be written overlaps nothing else that is lent to the same call. And it leaves the
 * floating-point exceptions masked, as they are when a program starts: an unmasked one may trap on the numbers of a capture.
 * All other floating-point modes are the caller's: how it rounds, or that it makes zeros of denormals, changes no answer, and
 * a call leaves the modes as they were. (It may set the flags that say which exceptions there were.)
 */
#ifndef LUNGEVATI_H
#define LUNGEVATI_H

/* A compiler that comes without headers still knows the types; one without __has_include is taken to have headers. */
#ifdef __has_include
#if !__has_include(<stddef.h>) || !__has_include(<stdint.h>)
#define LUNGEVATI_OWN_TYPES
#endif
#endif

#ifdef LUNGEVATI_OWN_TYPES
typedef __SIZE_TYPE__ size_t;
typedef __UINT8_TYPE__ uint8_t;
typedef __UINT32_TYPE__ uint32_t;
typedef __UINT64_TYPE__ uint64_t;
#else
#include <stddef.h>
#include <stdint.h>
#endif

#ifdef __cplusplus
extern "C" {
#endif

/* What the walk over a capture found. The writer of commands answers in the same form, and says itself what the four numbers are there. */
struct lungevati_answer {
    uint32_t reason; /* 0 accepted, else 1 to 18; 14 only of a check with no base at the start */
    uint32_t window; /* where: 0 the batch window, 1 the state window */
    uint32_t index;  /* the dword in that window; 0 in window 0 on acceptance and for 1 to 4 */
    uint32_t count;  /* commands accepted, the end included: so many records are written */
};

/*
 * Walks the capture and says whether it is allowed, and if not, which rule it breaks first and where. The walk starts with state_at as the dynamic
 * base, also where the state window is empty, as if the driver's first STATE_BASE_ADDRESS had set it: captures are cut behind that command.
 *
 *   batch, state    the two lent windows, only read, with their lengths in dwords and their addresses: the batch has 1 to 65,536 dwords and the
 *                   state 0 to 65,536, or it is refused, 1
 *   scratch         is known by its address and its length in bytes alone
 *   the addresses   are plain numbers, also from 2^47 on, where those that commands use have ones above their 48 bits
 *   records         records_len words, for records of two words each, as is said below: room for records_len / 2 of them, and an odd last word is
 *                   room for none. A run has at most 65,536 commands, so that 131,072 words are enough for any
 *
 * Of `records`, the words 0 to 2 * count - 1 hold the records of the accepted commands, in the order in which they ran; every
 * word from 2 * count on is as it was. For the reasons 1 to 4 the count is 0. `count` is never more than records_len / 2: it counts commands,
 * and not words.
 */
struct lungevati_answer lungevati_check(const uint32_t *batch, size_t batch_len, uint64_t batch_at,
                                        const uint32_t *state, size_t state_len, uint64_t state_at,
                                        uint64_t scratch_at, uint32_t scratch_len,
                                        uint32_t *records, size_t records_len);

/*
 * The same with no dynamic base at the start: a structure that is read before a STATE_BASE_ADDRESS of the capture has set one is refused, 14 at
 * the pointer. So it tells a capture that was cut too late, behind that command, from one that has it. lungevati_check never answers 14. Where
 * this call does not either, both give the same answer and the same records. Both are proved.
 */
struct lungevati_answer lungevati_check_no_base(const uint32_t *batch, size_t batch_len, uint64_t batch_at,
                                                const uint32_t *state, size_t state_len, uint64_t state_at,
                                                uint64_t scratch_at, uint32_t scratch_len,
                                                uint32_t *records, size_t records_len);

/*
 * The question of lungevati_check, asked of the table engine: the same answer and the same records for every capture, which is proved, from other code. The plain
 * engine behind lungevati_check decides by each command's header and has its rules written out; this one looks every dword up in a table. It
 * takes about as many instructions or up to twice as many, by which commands there are, and is for whoever wants a second way to the answer.
 */
struct lungevati_answer lungevati_check_table(const uint32_t *batch, size_t batch_len, uint64_t batch_at,
                                              const uint32_t *state, size_t state_len, uint64_t state_at,
                                              uint64_t scratch_at, uint32_t scratch_len,
                                              uint32_t *records, size_t records_len);

/* And the question of lungevati_check_no_base. */
struct lungevati_answer lungevati_check_table_no_base(const uint32_t *batch, size_t batch_len, uint64_t batch_at,
                                                      const uint32_t *state, size_t state_len, uint64_t state_at,
                                                      uint64_t scratch_at, uint32_t scratch_len,
                                                      uint32_t *records, size_t records_len);

/*
 * The record of a command: two words, of which the functions below read the parts. Each takes a pointer to the record's first word: that of the command `i`
 * is records + 2 * i.
 *
 *   first word      bits 15:0 the index of the command's first dword in the batch, bit 16 its level: 0, or 1 in a second-level batch
 *   second word     bits 31:24 its row, bits 23:16 its length in dwords
 *
 * All other bits are 0.
 */
static inline uint32_t lungevati_record_index(const uint32_t *record) { return record[0] & 0xFFFF; }
static inline uint32_t lungevati_record_level(const uint32_t *record) { return record[0] >> 16 & 1; }
static inline uint32_t lungevati_record_row(const uint32_t *record) { return record[1] >> 24; }
static inline uint32_t lungevati_record_length(const uint32_t *record) { return record[1] >> 16 & 0xFF; }

/* What a capture file holds. On a refusal all but the reason is 0. */
struct lungevati_contents {
    uint32_t reason;      /* 0 read, else 19, 20, 1 or 21, tried in this order */
    uint32_t window;      /* 0: */
    uint32_t index;       /* a file has no place */
    uint32_t count;       /* and no command is read yet */
    uint32_t batch_count; /* dwords filled in `batch` */
    uint32_t state_count; /* dwords filled in `state` */
    uint32_t scratch_len; /* bytes */
    uint64_t batch_at;
    uint64_t state_at;
    uint64_t scratch_at;
};

/*
 * Takes a capture file apart: its dwords into the two lent buffers, the numbers of its trailer into the answer.
 *
 *   file            the whole file, only read, with its length in bytes
 *   batch, state    room for batch_len and state_len dwords
 *
 * A file has fewer dwords than a check takes: at most 4,096 in each window, or it is refused, 1, and at most 32,808 bytes, or it is refused, 19.
 *
 * On reason 0 each buffer is filled from word 0 with as many words as its count says, and the words after them are as they
 * were. On a refusal both buffers are as they were. The addresses are not judged here: lungevati_check does that.
 */
struct lungevati_contents lungevati_read(const uint8_t *file, size_t file_len,
                                         uint32_t *batch, size_t batch_len,
                                         uint32_t *state, size_t state_len);

/*
 * Writes one command, from its row and what is not fixed in it, at the first free dword of a lent buffer.
 *
 *   row             the row of the table, 0 to 17, as a record and the printout have it
 *   free_bits       the free bits of the header, at their places: row 0 has bits 21:0, row 2 bits 22 and 8, row 4 bit 21, row 16 bits 10:8, and
 *                   all others have none
 *   dwords          what follows the header, only read: dwords_len dwords. The header's length field comes from their number
 *   batch           a buffer of batch_len dwords, which may be any number, also 0 and more than a batch window has
 *   first           where in it the header goes: its first free dword
 *
 * On reason 0 the command stands in `batch` from word `first` on, 1 + dwords_len words: the header and then the dwords. Every other word of the
 * buffer is as it was. The checker reads the same row, free bits and dwords there, and refuses them by none of 7, 8, 9 and 10; and each command
 * that 7, 8 and 10 let pass can be written so. The other rules are not asked here: what is written may still be refused by 11 to 18.
 *
 * Otherwise it is refused, tried in this order, and every word of the buffer is as it was:
 *
 *   7     there is no such row
 *   8     the row does not have so many dwords; or, in row 4, bit 21 of free_bits, which stands for one dword more, says otherwise
 *   10    a bit of free_bits is none of the row's free bits (nor may it be one of those that the row is known by, or of the length field); or a
 *         bit of a dword is one that lungevati_check would refuse by 10: so the high dword of an address that is used may be anything, and that
 *         of one that is not used may have bits 15:0
 *   22    there is no room: first + 1 + dwords_len, by the exact sum, is more than batch_len
 *
 * The window and the index are always 0; the count is 1 on reason 0, and else 0. `dwords` and `batch` must not overlap.
 */
struct lungevati_answer lungevati_write(uint32_t row, uint32_t free_bits, const uint32_t *dwords, size_t dwords_len,
                                        uint32_t *batch, size_t batch_len, size_t first);

/* What came of a listing: it may have more than 2^32 words. */
struct lungevati_long_answer {
    uint32_t reason; /* 0 turned, else 10 or 18, tried in this order */
    uint32_t window; /* 0 */
    uint64_t index;  /* of the old word, for 10; else 0 */
    uint64_t count;  /* records turned; 0 on a refusal */
};

/*
 * Turns a listing of the records that lungevati_check wrote before windows had 65,536 dwords into records of two words. Those were of one word: the index in
 * bits 11:0, the level in bit 12, the length in bits 23:16, the row in bits 31:24.
 *
 *   old_words       the listing, only read: old_len words, each a record
 *   new_words       a buffer of new_len words, at least two for each old one
 *
 * On reason 0 the words 0 to 2 * count - 1 of new_words hold the records of the same commands in the same order, and its other words are as they were. A
 * row that no command has is kept as it is. An empty listing is turned into nothing, whatever the room.
 *
 * Otherwise it is refused, and every word of new_words is as it was:
 *
 *   10    one of the bits 15:13 of an old word is set: at the first such word. All words are tried before the room is
 *   18    new_len is less than two words for each old one
 *
 * `old_words` and `new_words` must not overlap.
 */
struct lungevati_long_answer lungevati_turn(const uint32_t *old_words, size_t old_len, uint32_t *new_words, size_t new_len);

#ifdef __cplusplus
}
#endif

#endif
