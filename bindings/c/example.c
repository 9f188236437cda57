/*
 * The bench example: what does wait(up, free) leave over?
 *
 * With the library installed (`make install`):
 *
 *   cc -std=c99 bindings/c/example.c $(pkg-config --cflags --libs pheasantry) -o example
 *   ./example
 *
 * From the repository alone, after `make`:
 *
 *   cc -std=c99 -Iinclude bindings/c/example.c target/staticlib/libpheasantry.a -o target/example
 *   target/example
 *
 * prints
 *
 *   vocabulary: accepted
 *   wait(up, free): 3 words, deepest level 2, complete
 *   wait(n0, full): 2 words, deepest level 2, its first gap at 3
 *   no room in 14 bytes: refused 20 3 15
 *   leftovers 3
 *   1 000500
 *   2 0000010200
 *   3 00000301000400
 *   wait(n0, full) with wait(up, full): yes, name 0 at 3, length 2
 *   part of name 0: 0100
 *   wait(n0, full) with wait(up, free): no
 *   wait(n0, full) with down for n0: 00000302000400
 *   wait(n0, full) with a filling cut short: refused 22 4 9
 *   the book of wait(up, free) and done: 2 entries, 12 bytes
 *   0000010200
 *   00000301000400
 *   the book cut short: refused 7 5 8
 */
#include <inttypes.h>
#include <stdio.h>
#include <stdlib.h>
#include <string.h>

#include "pheasantry.h"

/* Kinds step 0, button 1, queue 2; words wait(button, queue) 0, up 1, down 2, free 3, full 4, done 5. */
static const uint8_t vocabulary[] = {3, 6, 0, 3, 1, 2, 1, 0, 1, 0, 2, 0, 2, 0, 0, 0};
static const uint8_t wait_up_free[] = {0, 0, 3, 1, 0, 3, 0};
static const uint8_t wait_up_full[] = {0, 0, 3, 1, 0, 4, 0};
static const uint8_t wait_name_full[] = {0, 0, 3, 0x80, 4, 0};

/* A filling file: eight bytes of bit map, in which name 0 stands, and down for it. */
static const uint8_t name_is_down[] = {1, 0, 0, 0, 0, 0, 0, 0, 2, 0};

/* A book: two patterns, wait(up, free) and done. */
static const uint8_t book[] = {2, 0, 0, 3, 1, 0, 3, 0, 0, 5, 0};

static void print_bytes(const uint8_t *bytes, size_t length)
{
    for (size_t i = 0; i < length; i++)
        printf("%02x", bytes[i]);
    printf("\n");
}

/* Where the whole pattern at the front of some bytes ends: its kind byte, then one term in prefix
 * order, in which a word is followed by its written map and as many terms as that has ones. */
static size_t entry_length(const uint8_t *bytes)
{
    size_t at = 1;
    for (size_t due = 1; due > 0; due--) {
        if (bytes[at] < 128) {
            for (uint8_t map = bytes[at + 1]; map > 0; map /= 2)
                due += map % 2;
            at++;
        }
        at++;
    }
    return at;
}

static void check(const char *name, const uint8_t *term, size_t length)
{
    uint64_t reply[PHEASANTRY_REPLY_LENGTH];
    pheasantry_check_term(vocabulary, sizeof vocabulary, term, length, reply);
    if (reply[0] != PHEASANTRY_ACCEPTED)
        exit(1);
    printf("%s: %" PRIu64 " words, deepest level %" PRIu64, name, reply[1], reply[2]);
    if (reply[3] == 1)
        printf(", complete\n");
    else
        printf(", its first gap at %" PRIu64 "\n", reply[4]);
}

static void list(void)
{
    uint64_t reply[PHEASANTRY_REPLY_LENGTH];
    uint8_t small[14];
    pheasantry_list(vocabulary, sizeof vocabulary, wait_up_free, sizeof wait_up_free, small,
                    sizeof small, reply);
    printf("no room in 14 bytes: refused %" PRIu64 " %" PRIu64 " %" PRIu64 "\n", reply[0], reply[1],
           reply[2]);

    /* The place of this refusal is the length that is needed. */
    if (reply[0] != PHEASANTRY_REFUSED_NO_ROOM)
        exit(1);
    size_t needed = reply[2];
    uint8_t *out = malloc(needed);
    if (out == NULL)
        exit(1);
    pheasantry_list(vocabulary, sizeof vocabulary, wait_up_free, sizeof wait_up_free, out, needed,
                    reply);
    printf("leftovers %" PRIu64 "\n", reply[1]);
    size_t at = 0;
    for (uint64_t i = 1; i <= reply[1]; i++) {
        size_t length = entry_length(out + at);
        printf("%" PRIu64 " ", i);
        print_bytes(out + at, length);
        at += length;
    }
    free(out);
}

static void match(void)
{
    uint64_t reply[PHEASANTRY_REPLY_LENGTH];
    uint16_t table[PHEASANTRY_TABLE_LENGTH];
    pheasantry_match(vocabulary, sizeof vocabulary, wait_name_full, sizeof wait_name_full,
                     wait_up_full, sizeof wait_up_full, table, PHEASANTRY_TABLE_LENGTH, reply);
    if (reply[0] == PHEASANTRY_ACCEPTED && reply[1] == 1)
        printf("wait(n0, full) with wait(up, full): yes, name 0 at %d, length %d\n", table[0], table[1]);

    pheasantry_part(vocabulary, sizeof vocabulary, wait_name_full, sizeof wait_name_full, wait_up_full,
                    sizeof wait_up_full, 0, reply);
    printf("part of name 0: ");
    print_bytes(wait_up_full + reply[1], reply[2]);

    pheasantry_match(vocabulary, sizeof vocabulary, wait_name_full, sizeof wait_name_full,
                     wait_up_free, sizeof wait_up_free, table, PHEASANTRY_TABLE_LENGTH, reply);
    if (reply[0] == PHEASANTRY_ACCEPTED && reply[1] == 0)
        printf("wait(n0, full) with wait(up, free): no\n");
}

static void fill(void)
{
    uint64_t reply[PHEASANTRY_REPLY_LENGTH];
    uint8_t out[32];
    pheasantry_fill(vocabulary, sizeof vocabulary, wait_name_full, sizeof wait_name_full, name_is_down,
                    sizeof name_is_down, out, sizeof out, reply);
    if (reply[0] == PHEASANTRY_ACCEPTED) {
        printf("wait(n0, full) with down for n0: ");
        print_bytes(out, reply[1]);
    }

    pheasantry_fill(vocabulary, sizeof vocabulary, wait_name_full, sizeof wait_name_full, name_is_down,
                    sizeof name_is_down - 1, out, sizeof out, reply);
    if (reply[0] == PHEASANTRY_REFUSED_FILLING)
        printf("wait(n0, full) with a filling cut short: refused %" PRIu64 " %" PRIu64 " %" PRIu64 "\n",
               reply[0], reply[1], reply[2]);
}

struct entry {
    const uint8_t *bytes;
    size_t length;
};

/* By the bytes from the front. No entry is the beginning of another. */
static int compare(const void *one, const void *other)
{
    const struct entry *a = one, *b = other;
    return memcmp(a->bytes, b->bytes, a->length < b->length ? a->length : b->length);
}

static void list_book(void)
{
    uint64_t reply[PHEASANTRY_REPLY_LENGTH];
    static uint8_t out[PHEASANTRY_BOOK_LISTING_LENGTH];
    pheasantry_list_book(vocabulary, sizeof vocabulary, book, sizeof book, out, sizeof out, reply);
    if (reply[0] != PHEASANTRY_ACCEPTED)
        exit(1);
    printf("the book of wait(up, free) and done: %" PRIu64 " entries, %" PRIu64 " bytes\n", reply[1],
           reply[2]);

    /* The order of these entries is not promised, so they are sorted before they are printed. An entry
     * has at least 2 bytes. */
    static struct entry entries[PHEASANTRY_BOOK_LISTING_LENGTH / 2];
    size_t count = 0;
    for (size_t at = 0; at < reply[2]; at += entries[count++].length)
        entries[count] = (struct entry){out + at, entry_length(out + at)};
    qsort(entries, count, sizeof *entries, compare);
    for (size_t i = 0; i < count; i++)
        print_bytes(entries[i].bytes, entries[i].length);

    /* Without its last 3 bytes the second pattern, which begins at 8, is missing. */
    pheasantry_list_book(vocabulary, sizeof vocabulary, book, sizeof book - 3, out, sizeof out, reply);
    if (reply[0] == PHEASANTRY_REFUSED_SIZE && reply[1] == PHEASANTRY_INPUT_BOOK)
        printf("the book cut short: refused %" PRIu64 " %" PRIu64 " %" PRIu64 "\n", reply[0], reply[1],
               reply[2]);
}

int main(void)
{
    uint64_t reply[PHEASANTRY_REPLY_LENGTH];
    pheasantry_check_vocabulary(vocabulary, sizeof vocabulary, reply);
    if (reply[0] == PHEASANTRY_ACCEPTED)
        printf("vocabulary: accepted\n");
    check("wait(up, free)", wait_up_free, sizeof wait_up_free);
    check("wait(n0, full)", wait_name_full, sizeof wait_name_full);
    list();
    match();
    fill();
    list_book();
    return 0;
}
