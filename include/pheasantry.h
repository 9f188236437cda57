/*
 * Pheasantry: which situations does a pattern of a waiting step leave over?
 *
 * Seven functions over lent memory. They check a vocabulary, check a term, match a pattern with a
 * complete situation, say which part of a situation a name covers, list the leftovers of a pattern, fill
 * the names of a pattern, and list the leftovers of a book, which holds several patterns.
 * docs/FORMAT.md of the repository has the formats and the rules.
 *
 * Link
 *   `make install` installs this header, libpheasantry.a and a file for pkg-config: compile with
 *   `pkg-config --cflags --libs pheasantry`. Without installing, `make` writes libpheasantry.a
 *   into target/staticlib. The archive is for x86-64 Linux and can be linked into
 *   programs and shared libraries. It needs memcpy, memmove and memset of the C library, and nothing
 *   else.
 *
 * Reply
 *   Every function answers in the five numbers of `reply`. All of them are written in either case.
 *   Accepted: reply[0] is 0, and behind it stand the values that the function names, from reply[1]
 *   on, and 0 where there is none.
 *   Refused: reply[0] is a number of enum pheasantry_refusal, reply[1] the input, a number of enum
 *   pheasantry_input, reply[2] the place, and reply[3] and reply[4] are 0. A refusal leaves every lent
 *   output as it was.
 *   The vocabulary is checked first, then the pattern or the book, then the situation or the filling
 *   file, then the lent output.
 *
 * Memory
 *   - A slice is passed as a pointer and the number of its elements: bytes, and for `table` the
 *     number of uint16_t.
 *   - Where the number is 0 the pointer is not used: it may be NULL. Every other pointer, and
 *     `reply` always, points to as many elements as are said, aligned as their type asks.
 *   - What a call writes (table, out, reply) overlaps with nothing else that is handed to that
 *     call. Inputs are only read, and may overlap each other.
 *   - Nothing is allocated, kept or freed.
 *   - 16 KiB of stack are enough for every call but pheasantry_list_book. Measured by bindings/c/stack.c,
 *     on 32 levels, terms of 4,096 bytes, 96 words of 16 kinds and listings of 12 MB: pheasantry_list
 *     took at most 13,224 bytes, pheasantry_part 4,680 and the others at most 4,616, of which the dynamic
 *     linker takes some 2,800 where it has to look up a function of the C library during the call.
 *   - For pheasantry_list_book 160 KiB are enough: it works on two listings of its own. On books of 64
 *     patterns of 32 levels it took at most 155,440 bytes, of which its areas are 90,112.
 *
 * Threads
 *   There is no global state. Calls may run at the same time, as long as nothing writes the memory
 *   of a running call.
 */
#ifndef PHEASANTRY_H
#define PHEASANTRY_H

#include <stddef.h>
#include <stdint.h>

/* The version of this header and of the archive that it is installed with. */
#define PHEASANTRY_VERSION "0.5.0"
#define PHEASANTRY_VERSION_MAJOR 0
#define PHEASANTRY_VERSION_MINOR 5
#define PHEASANTRY_VERSION_PATCH 0

/* The length that `reply` must have. A later version may have more numbers. */
#define PHEASANTRY_REPLY_LENGTH 5

/* The length that the table of pheasantry_match must have, in uint16_t: two for each of 64 names. */
#define PHEASANTRY_TABLE_LENGTH 128

/* The most bytes that pheasantry_list_book writes: an out of this length is never too short for it. */
#define PHEASANTRY_BOOK_LISTING_LENGTH 32768

/*
 * Why a call is refused: reply[0]. The place, reply[2], is the offset of the byte at fault or of the
 * missing byte, unless said. In a book it counts from the book's first byte, and what is said of a term
 * is meant of each pattern by itself. Later versions may add numbers; none changes its meaning.
 */
enum pheasantry_refusal {
    PHEASANTRY_ACCEPTED = 0,

    /* the vocabulary has fewer than 2 bytes, or not 1 to 16 kinds (place 0) */
    PHEASANTRY_REFUSED_HEAD = 1,
    /* the vocabulary has not 1 to 96 words */
    PHEASANTRY_REFUSED_WORD_COUNT = 2,
    /* the vocabulary ends where a byte of a record is due */
    PHEASANTRY_REFUSED_RECORD_ENDS = 3,
    /* a kind in a record is not below the number of kinds */
    PHEASANTRY_REFUSED_RECORD_KIND = 4,
    /* bytes follow the last record */
    PHEASANTRY_REFUSED_RECORDS_CONTINUE = 5,
    /* a kind has no complete situation (place: the lowest such kind). 6 is no longer given (document 02,
     * request iv): such a vocabulary is accepted */
    PHEASANTRY_REFUSED_EMPTY_KIND = 6,

    /* the term has fewer than 2 or more than 4,096 bytes (place 0, in a book the pattern's first byte) */
    PHEASANTRY_REFUSED_SIZE = 7,
    /* the term's first byte is not below the number of kinds */
    PHEASANTRY_REFUSED_TERM_KIND = 8,
    /* the term ends where a byte is due */
    PHEASANTRY_REFUSED_TERM_ENDS = 9,
    /* something stands where level 33 begins */
    PHEASANTRY_REFUSED_TOO_DEEP = 10,
    /* the byte is no word, no name, nor 255 at the root */
    PHEASANTRY_REFUSED_NO_WORD_OR_NAME = 11,
    /* the word's result kind differs from the kind due there */
    PHEASANTRY_REFUSED_WRONG_KIND = 12,
    /* the name stood earlier at a place of another kind */
    PHEASANTRY_REFUSED_CLASH = 13,
    /* the written map has a bit that the word's place map lacks */
    PHEASANTRY_REFUSED_STRAY_BIT = 14,
    /* bytes follow the term (place: the first of them, in a book behind the last pattern) */
    PHEASANTRY_REFUSED_TERM_CONTINUES = 15,

    /* the situation is not complete (place: its first name, 255 or short map) */
    PHEASANTRY_REFUSED_INCOMPLETE = 16,
    /* pattern and situation have different kinds (place 0) */
    PHEASANTRY_REFUSED_KINDS_DIFFER = 17,
    /* the name stands twice in a pattern to be listed (place: its second occurrence) */
    PHEASANTRY_REFUSED_REPEATED = 18,
    /* the table has not 128 numbers (place 0) */
    PHEASANTRY_REFUSED_TABLE_LENGTH = 19,
    /* the output is longer than the lent bytes (place: its length) */
    PHEASANTRY_REFUSED_NO_ROOM = 20,

    /* the bit map has fewer than 8 bytes or differs from the pattern's names
     * (place: 0, or the lowest name that differs) */
    PHEASANTRY_REFUSED_NAMES_DIFFER = 21,
    /* a filling is no complete term of its name's kind within 32 levels, or bytes follow */
    PHEASANTRY_REFUSED_FILLING = 22,
    /* the result is longer than 4,096 bytes or deeper than 32 levels (place 0) */
    PHEASANTRY_REFUSED_RESULT_SIZE = 23,

    /* the book's count is missing or not 1 to 64 (place 0) */
    PHEASANTRY_REFUSED_PATTERN_COUNT = 24,
    /* the pattern's kind differs from that of the book's first (place: its kind byte) */
    PHEASANTRY_REFUSED_OTHER_KIND = 25,
    /* the entries left behind a pattern have more than 32,768 bytes, or one of them more than 4,096
     * (place: the number of the first such pattern, from 0) */
    PHEASANTRY_REFUSED_LISTING_SIZE = 26
};

/* Which input is refused: reply[1]. */
enum pheasantry_input {
    /* 1 to 5 */
    PHEASANTRY_INPUT_VOCABULARY = 0,
    /* the pattern, or the term that pheasantry_check_term is to check: 7 to 15 and 18 */
    PHEASANTRY_INPUT_PATTERN = 1,
    /* 7 to 17 */
    PHEASANTRY_INPUT_SITUATION = 2,
    /* the lent table or the lent bytes: 19 and 20 */
    PHEASANTRY_INPUT_OUTPUT = 3,
    /* the filling file: 21 to 23 */
    PHEASANTRY_INPUT_FILLING = 4,
    /* the book: 7 to 15, 18 and 24 to 26 */
    PHEASANTRY_INPUT_BOOK = 5
};

#ifdef __cplusplus
extern "C" {
#endif

/*
 * Checks a vocabulary. A kind may have no complete situation.
 *
 * Accepted: 0.
 * Refused: 1 to 5. 6 is no longer given (document 02, request iv).
 */
void pheasantry_check_vocabulary(const uint8_t *vocabulary, size_t vocabulary_length,
                                 uint64_t reply[PHEASANTRY_REPLY_LENGTH]);

/*
 * Checks a term, a pattern or a situation, under a vocabulary.
 *
 * Accepted: 0, the number of words (names are not counted), the deepest level, 1 if the term is
 *   complete or 0 if not, the gap.
 *   A term is complete if it has no name, no 255, and no short map: one that lacks a bit of its word's
 *   place map. The gap is the offset of the first of these, and of a complete term its length; both count
 *   the kind byte. As a situation, a term that is accepted but not complete is refused with 16 at its gap.
 * Refused: 1 to 5 and 7 to 15. The term is input 1.
 */
void pheasantry_check_term(const uint8_t *vocabulary, size_t vocabulary_length,
                           const uint8_t *term, size_t term_length,
                           uint64_t reply[PHEASANTRY_REPLY_LENGTH]);

/*
 * Matches a pattern with a complete situation.
 *
 * Accepted: 0, 1 for yes or 0 for no.
 *   Yes fills the table: table[2 * n] is the offset in the situation of the part that name n
 *   covers, and table[2 * n + 1] its length in bytes; 0 and 0 for a name that is not in the
 *   pattern. Offsets count the situation's kind byte.
 *   No leaves the table as it was.
 * Refused: 1 to 5, 7 to 17 and 19.
 */
void pheasantry_match(const uint8_t *vocabulary, size_t vocabulary_length,
                      const uint8_t *pattern, size_t pattern_length,
                      const uint8_t *situation, size_t situation_length,
                      uint16_t *table, size_t table_length,
                      uint64_t reply[PHEASANTRY_REPLY_LENGTH]);

/*
 * Says which part of a situation a name of the pattern covers. The name is its number 0 to 63, not
 * the byte 128 to 191; any number may be passed.
 *
 * Accepted: 0, the offset of the part in the situation, its length in bytes.
 *   0 and 0 stand for the empty part: pheasantry_match with a table of 128 would not say yes, or
 *   the name is not in the pattern. A part that is covered has at least 2 bytes.
 * Never refused.
 */
void pheasantry_part(const uint8_t *vocabulary, size_t vocabulary_length,
                     const uint8_t *pattern, size_t pattern_length,
                     const uint8_t *situation, size_t situation_length,
                     uint64_t name,
                     uint64_t reply[PHEASANTRY_REPLY_LENGTH]);

/*
 * Writes the leftovers of a pattern into out: whole patterns, each with its kind byte, each directly
 * behind the one before it. For every entry there is a complete situation that fits it.
 *
 * Where no complete situation fits the pattern, all of the kind are left over: there is one entry, the kind
 * byte and 255, or none if the kind has no complete situation.
 *
 * Accepted: 0, the number of entries, the number of bytes written. Bytes of out behind them stay as
 *   they were.
 * Refused: 1 to 5, 7 to 15, 18 and 20. A call with an out_length of 0 measures: where the inputs are in
 *   order and there are leftovers it is refused with 20, and reply[2] is the length that out has to have.
 */
void pheasantry_list(const uint8_t *vocabulary, size_t vocabulary_length,
                     const uint8_t *pattern, size_t pattern_length,
                     uint8_t *out, size_t out_length,
                     uint64_t reply[PHEASANTRY_REPLY_LENGTH]);

/*
 * Writes a pattern into out, with each of its names replaced by the term that a filling file has for it.
 * Open places stay open.
 *
 * A filling file is eight bytes of bit map, of which byte 0 holds names 0 to 7, the lowest bit first, and
 * then, for each standing bit in ascending order, one complete term without kind byte.
 *
 * Accepted: 0, the number of bytes written. The result has its kind byte, and bytes of out behind it
 *   stay as they were. If it is complete, pheasantry_match of the pattern with it says yes, and the table
 *   has the parts that were filled in.
 * Refused: 1 to 5, 7 to 15 and 20 to 23, of which 20 is the last to be checked. A name of a kind that has
 *   no complete situation cannot be filled: 22. A call with an out_length of 0 measures: where the inputs
 *   are in order and the result is within the limits it is refused with 20, and reply[2] is the length that
 *   out has to have, at most 4,096.
 */
void pheasantry_fill(const uint8_t *vocabulary, size_t vocabulary_length,
                     const uint8_t *pattern, size_t pattern_length,
                     const uint8_t *filling, size_t filling_length,
                     uint8_t *out, size_t out_length,
                     uint64_t reply[PHEASANTRY_REPLY_LENGTH]);

/*
 * Writes the leftovers of a whole book into out: whole patterns without names, each with its kind byte,
 * each directly behind the one before it. Every complete situation of the kind fits some pattern of the
 * book or exactly one of these entries, never both, and for every entry there is one that fits it. A
 * pattern that no complete situation fits changes nothing; a book of such patterns alone leaves one entry,
 * the kind byte and 255, or none if the kind has no complete situation.
 *
 * A book is a count byte, 1 to 64, and then so many whole patterns in a row, each with its kind byte, all
 * of one kind. Names are a pattern's own: the same name in two patterns means nothing.
 *
 * Which entries are left depends on the order of the patterns. The order of the entries is not promised:
 * a later version may write the same entries in another.
 *
 * Accepted: 0, the number of entries, the number of bytes written. Bytes of out behind them stay as
 *   they were.
 * Refused: 1 to 5, 7 to 15, 18, 20 and 24 to 26. Behind the vocabulary 24 is checked, then for each pattern
 *   in turn 7 to 14, 18 and 25, then 15, 26 and 20. A call with an out_length of 0 measures: where the
 *   inputs are in order and there are leftovers it is refused with 20, and reply[2] is the length that
 *   out has to have, at most PHEASANTRY_BOOK_LISTING_LENGTH.
 */
void pheasantry_list_book(const uint8_t *vocabulary, size_t vocabulary_length,
                          const uint8_t *book, size_t book_length,
                          uint8_t *out, size_t out_length,
                          uint64_t reply[PHEASANTRY_REPLY_LENGTH]);

#ifdef __cplusplus
}
#endif

#endif
