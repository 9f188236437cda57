/*
 * How many bytes of stack does each call take, on the largest and the deepest inputs? Books of one
 * pattern have a column, others a table of their own.
 *
 *   make stack
 *
 * Each call runs in a process of its own, on a stack that is painted before. The lowest word that lost
 * its paint says how far down the call went, with what it called of the C library. It runs twice, with
 * two paints, since a call may write what looks like one of them. The first call of a C library
 * function may go through the dynamic linker, which takes stack as well; a new process makes every
 * call a first one. The exit status is 1 where a call took more than the header says.
 */
#define _GNU_SOURCE
#include <inttypes.h>
#include <stdio.h>
#include <stdlib.h>
#include <sys/mman.h>
#include <sys/wait.h>
#include <ucontext.h>
#include <unistd.h>

#include "pheasantry.h"

/* What the header says is enough, in bytes: for pheasantry_list_book, for the others. */
enum { ENOUGH_FOR_BOOKS = 160 * 1024, ENOUGH = 16 * 1024 };

enum { STACK_WORDS = 65536, OUT_LENGTH = 1 << 24 };
enum call { CHECK_VOCABULARY, CHECK_TERM, MATCH, PART, FILL, LIST, LIST_BOOK, CALLS };

/* Room for the largest book: a count and 64 patterns of 4,096 bytes. */
struct bytes {
    uint8_t at[1 + 64 * 4096];
    size_t length;
};

/* ---------------------------------------------------------------- a call on a painted stack */

static uint64_t stack[STACK_WORDS];
static uint8_t out[OUT_LENGTH];
static uint16_t table[PHEASANTRY_TABLE_LENGTH];
static uint64_t reply[PHEASANTRY_REPLY_LENGTH];
static ucontext_t before, during;
static uintptr_t top;
static enum call call;
static const struct bytes *vocabulary, *pattern, *situation, *filling, *book;

static void call_it(void)
{
    const struct bytes *v = vocabulary, *p = pattern, *s = situation, *f = filling, *b = book;
    top = (uintptr_t)__builtin_frame_address(0);
    switch (call) {
    case CHECK_VOCABULARY:
        pheasantry_check_vocabulary(v->at, v->length, reply);
        break;
    case CHECK_TERM:
        pheasantry_check_term(v->at, v->length, p->at, p->length, reply);
        break;
    case MATCH:
        pheasantry_match(v->at, v->length, p->at, p->length, s->at, s->length, table,
                         PHEASANTRY_TABLE_LENGTH, reply);
        break;
    case PART:
        pheasantry_part(v->at, v->length, p->at, p->length, s->at, s->length, 0, reply);
        break;
    case FILL:
        pheasantry_fill(v->at, v->length, p->at, p->length, f->at, f->length, out, OUT_LENGTH, reply);
        break;
    case LIST:
        pheasantry_list(v->at, v->length, p->at, p->length, out, OUT_LENGTH, reply);
        break;
    default:
        pheasantry_list_book(v->at, v->length, b->at, b->length, out, OUT_LENGTH, reply);
    }
}

/* The paint is put on by a loop: a call of memset here would be the program's first. */
static size_t taken_under(uint64_t paint)
{
    volatile uint64_t *words = stack;
    for (size_t i = 0; i < STACK_WORDS; i++)
        words[i] = paint;
    getcontext(&during);
    during.uc_stack.ss_sp = stack;
    during.uc_stack.ss_size = sizeof stack;
    during.uc_link = &before;
    makecontext(&during, call_it, 0);
    swapcontext(&before, &during);
    size_t kept = 0;
    while (words[kept] == paint)
        kept++;
    return top - (uintptr_t)(stack + kept);
}

static size_t taken(void)
{
    size_t one = taken_under(0xa5a5a5a5a5a5a5a5), other = taken_under(0x5a5a5a5a5a5a5a5a);
    return one > other ? one : other;
}

/* ---------------------------------------------------------------- vocabularies and terms */

static void put(struct bytes *b, unsigned byte)
{
    b->at[b->length++] = (uint8_t)byte;
}

static void hex(struct bytes *b, const char *digits)
{
    unsigned byte;
    for (; sscanf(digits, "%2x", &byte) == 1; digits += 2)
        put(b, byte);
}

/* Under B: so many levels. */
static void more(struct bytes *t, unsigned levels)
{
    put(t, 0);
    for (unsigned level = 1; level < levels; level++)
        put(t, 1), put(t, 1);
    put(t, 0), put(t, 0);
}

/* 96 words: for each kind one without places, and the others with eight, of the kinds from their own on. */
static void words_96(struct bytes *v, unsigned kinds)
{
    put(v, kinds), put(v, 96);
    for (unsigned w = 0; w < 96; w++) {
        put(v, w % kinds), put(v, w < kinds ? 0 : 255);
        for (unsigned place = 0; w >= kinds && place < 8; place++)
            put(v, (w + place) % kinds);
    }
}

/* Under words_96: 32 levels, each in place 7 of the one above it. The lower places are open, but for so
 * many of the first levels and, if there are any, the last one above the end. */
static void chain(struct bytes *t, unsigned kinds, unsigned full)
{
    unsigned kind = 0;
    put(t, kind);
    for (unsigned level = 1; level < 32; level++) {
        int written = level <= full || (full > 0 && level == 31);
        put(t, kinds + kind), put(t, written ? 255 : 128);
        for (unsigned place = 0; written && place < 7; place++)
            put(t, (kind + place) % kinds), put(t, 0);
        kind = (kind + 7) % kinds;
    }
    put(t, kind), put(t, 0);
}

/* Under words_96: the chain up to level 30, at level 31 another word with eight places, and below it the
 * end. An entry of the chain is as this, with that word's places open. */
static void beside_chain(struct bytes *t, unsigned kinds)
{
    chain(t, kinds, 0);
    t->at[t->length - 4] += kinds;
}

/* Under C: the full tree of pairs, with words or with the names from 0 on at its leaves. */
static void pairs(struct bytes *t, unsigned levels, int names)
{
    static unsigned name;
    if (levels > 1) {
        put(t, 2), put(t, 3);
        pairs(t, levels - 1, names);
        pairs(t, levels - 1, names);
    } else if (names)
        put(t, 128 + name++ % 64);
    else
        put(t, 0), put(t, 0);
}

/* Under C: the tree of so many levels, with other bytes for its last leaf. */
static void tree_to(struct bytes *t, unsigned levels, const char *leaf)
{
    put(t, 0);
    pairs(t, levels, 0);
    t->length -= 2;
    hex(t, leaf);
}

/* Under C: 32 levels, each in place 1 of the one above it, and a tree of pairs in place 0. */
static void trees(struct bytes *t)
{
    put(t, 0);
    for (unsigned level = 1; level < 32; level++) {
        put(t, 2), put(t, 3);
        pairs(t, level < 26 ? 6 : 32 - level, 0);
    }
    put(t, 0), put(t, 0);
}

/* A filling file for the first so many names, with the same term for each, which is given with its kind
 * byte. */
static void fill_with(struct bytes *f, unsigned names, const struct bytes *term)
{
    for (unsigned byte = 0; byte < 8; byte++)
        put(f, names >= 8 * byte + 8 ? 255 : names > 8 * byte ? (1u << (names - 8 * byte)) - 1 : 0);
    for (unsigned name = 0; name < names; name++)
        for (size_t i = 1; i < term->length; i++)
            put(f, term->at[i]);
}

/* Vocabulary E: grid(1, 1, 1, 1, 0) 0, on 1 and off 2 make kind 0. Each other kind has one word, 3 to 6,
 * that takes eight of the next kind, and the last one nothing: these leave nothing over, so patterns and
 * entries can be long where the listing is short. */
static void grids(struct bytes *v)
{
    hex(v, "0507001f010101010000000000");
    for (unsigned kind = 1; kind < 4; kind++) {
        put(v, kind), put(v, 255);
        for (unsigned place = 0; place < 8; place++)
            put(v, kind + 1);
    }
    hex(v, "0400");
}

/* Under E: a word and all below it, but for the last words, of which only so many are written. */
static void block(struct bytes *t, unsigned word, unsigned *last)
{
    unsigned places = word < 5 ? 8 : word == 6 ? 0 : *last < 8 ? *last : 8;
    if (word == 5)
        *last -= places;
    put(t, word), put(t, (1u << places) - 1);
    for (; places > 0; places--)
        block(t, word + 1, last);
}

/* Under E: a grid with blocks at the places of a map, so many last words in all, and its place 4. */
static void grid(struct bytes *t, unsigned map, unsigned last, const char *place_4)
{
    put(t, 0), put(t, 0), put(t, map + 16);
    for (; map > 0; map /= 2)
        if (map % 2 > 0)
            block(t, 3, &last);
    hex(t, place_4);
}

static void append(struct bytes *b, const struct bytes *t)
{
    for (size_t i = 0; i < t->length; i++)
        put(b, t->at[i]);
}

/* A book: so many times the one pattern, and then the other, if there is one. */
static const struct bytes *book_of(unsigned times, const struct bytes *one, const struct bytes *other)
{
    static struct bytes b;
    b.length = 0;
    put(&b, other == NULL ? times : times + 1);
    for (; times > 0; times--)
        append(&b, one);
    if (other != NULL)
        append(&b, other);
    return &b;
}

/* Under B: the book of 1 to 32 levels and of 32 to 1. */
static const struct bytes *book_of_levels(void)
{
    static struct bytes b, term;
    put(&b, 64);
    for (unsigned i = 0; i < 64; i++) {
        term.length = 0;
        more(&term, i < 32 ? i + 1 : 64 - i);
        append(&b, &term);
    }
    return &b;
}

/* ---------------------------------------------------------------- the tables */

struct said {
    size_t taken;
    uint64_t reply[PHEASANTRY_REPLY_LENGTH];
};

static volatile struct said *said;
static size_t most[CALLS];

/* Runs a call in a process of its own. */
static void run(enum call c)
{
    int status;
    call = c;
    fflush(stdout);
    if (fork() == 0) {
        said->taken = taken();
        for (int i = 0; i < PHEASANTRY_REPLY_LENGTH; i++)
            said->reply[i] = reply[i];
        _exit(0);
    }
    if (wait(&status) < 0 || status != 0)
        exit(1);
    printf("%7zu", said->taken);
    if (most[c] < said->taken)
        most[c] = said->taken;
}

/* What the listing that ran last answered. */
static void answer(void)
{
    if (said->reply[0] == 0)
        printf("%10" PRIu64 " bytes", said->reply[2]);
    else
        printf("%13s %2" PRIu64, "refused", said->reply[0]);
}

static void row(const char *name, const struct bytes *v, const struct bytes *p, const struct bytes *s,
                const struct bytes *f)
{
    vocabulary = v, pattern = p, situation = s, filling = f, book = book_of(1, p, NULL);
    printf("%5zu %6zu  %-45s", v->length, p->length, name);
    for (int c = 0; c < LIST_BOOK; c++)
        run((enum call)c);
    answer();
    run(LIST_BOOK);
    answer();
    printf("\n");
}

static void book_row(const char *name, const struct bytes *v, const struct bytes *b)
{
    vocabulary = v, book = b;
    printf("%5zu %6zu  %-45s", v->length, b->length, name);
    run(LIST_BOOK);
    answer();
    printf("\n");
}

int main(void)
{
    /* The bench vocabularies, C with a word more, and 96 words of one kind and of 16. */
    static struct bytes a, b, c, d, one, sixteen;
    hex(&a, "03060003010201000100020002000000");
    hex(&b, "01020000000100");
    hex(&c, "01030000000000030000");
    hex(&d, "010400000000000300000000");
    words_96(&one, 1);
    words_96(&sixteen, 16);

    static struct bytes up_free, deep, too_deep, open_1, late_1, full_1, open_16, full_16;
    hex(&up_free, "00000301000300");
    more(&deep, 32);
    more(&too_deep, 33);
    chain(&open_1, 1, 0);
    chain(&late_1, 1, 4);
    chain(&full_1, 1, 31);
    chain(&open_16, 16, 0);
    chain(&full_16, 16, 31);

    static struct bytes with_trees, tree, other_tree, largest, names, twice;
    trees(&with_trees);
    tree_to(&tree, 11, "0000");
    tree_to(&other_tree, 11, "0100");
    tree_to(&largest, 11, "020180");
    hex(&names, "00");
    pairs(&names, 7, 1);
    hex(&twice, "0002038080");

    /* No name, n0 as a whole pattern, and fillings of 2 bytes, of 62, of 32 levels and of the most bytes. */
    static struct bytes bare, n0, leaf, small_tree, half_tree;
    static struct bytes n0_leaf, n0_deep, n0_full_1, n0_full_16, n0_tree, n0_half, names_small;
    hex(&n0, "0080");
    hex(&leaf, "000000");
    hex(&small_tree, "00");
    pairs(&small_tree, 5, 0);
    hex(&half_tree, "00");
    pairs(&half_tree, 10, 0);
    fill_with(&bare, 0, &leaf);
    fill_with(&n0_leaf, 1, &leaf);
    fill_with(&n0_deep, 1, &deep);
    fill_with(&n0_full_1, 1, &full_1);
    fill_with(&n0_full_16, 1, &full_16);
    fill_with(&n0_tree, 1, &tree);
    fill_with(&n0_half, 1, &half_tree);
    fill_with(&names_small, 64, &small_tree);

    said = mmap(NULL, sizeof *said, PROT_READ | PROT_WRITE, MAP_SHARED | MAP_ANONYMOUS, -1, 0);
    if (said == MAP_FAILED)
        return 1;
    printf("vocabulary and pattern in bytes, and what they are; stack taken, in bytes, by\n");
    printf("%59s%7s%7s%7s%7s%7s%7s%23s\n", "", "vocab.", "term", "match", "part", "fill", "list", "book");
    row("A, wait(up, free)", &a, &up_free, &up_free, &bare);
    row("B, 32 levels", &b, &deep, &deep, &bare);
    row("B, 33 levels", &b, &too_deep, &too_deep, &bare);
    row("B, n0, filled with 32 levels", &b, &n0, &deep, &n0_deep);
    row("96 words, 32 levels", &one, &open_1, &full_1, &bare);
    row("the same, the last level beyond 128 bytes", &one, &late_1, &full_1, &bare);
    row("the same, every place written", &one, &full_1, &full_1, &bare);
    row("96 words, n0, filled with that", &one, &n0, &full_1, &n0_full_1);
    row("96 words of 16 kinds, 32 levels", &sixteen, &open_16, &full_16, &bare);
    row("the same, every place written", &sixteen, &full_16, &full_16, &bare);
    row("96 words of 16 kinds, n0, filled with that", &sixteen, &n0, &full_16, &n0_full_16);
    row("C, 32 levels with trees beside them", &c, &with_trees, &with_trees, &bare);
    row("C, a tree of 11 levels", &c, &tree, &tree, &bare);
    row("the same, and a situation that differs", &c, &tree, &other_tree, &bare);
    row("the same, one more word of its kind", &d, &tree, &tree, &bare);
    row("C, n0, filled with the tree", &c, &n0, &tree, &n0_tree);
    row("C, the tree with a name at its end", &c, &largest, &tree, &n0_leaf);
    row("C, 64 names, filled with trees", &c, &names, &tree, &names_small);
    row("C, a name twice, filled with trees", &c, &twice, &tree, &n0_half);

    /* Neighbours share situations with entries of the first pattern, and go further down in them. */
    static struct bytes done, less_deep, written_16, beside_16;
    static struct bytes tree_7, other_7, tree_6, half_6, tree_5, half_5;
    hex(&done, "000500");
    more(&less_deep, 31);
    chain(&written_16, 16, 5);
    beside_chain(&beside_16, 16);
    tree_to(&tree_7, 7, "0000");
    tree_to(&other_7, 7, "0100");
    tree_to(&tree_6, 6, "0000");
    tree_to(&tree_5, 5, "0000");
    hex(&half_6, "000202");
    pairs(&half_6, 5, 0);
    hex(&half_5, "000202");
    pairs(&half_5, 3, 0);

    static struct bytes e, two, other_two, one_more, four;
    grids(&e);
    grid(&two, 3, 876, "0100");
    grid(&other_two, 12, 876, "00100100");
    grid(&one_more, 12, 877, "00100100");
    grid(&four, 15, 1754, "80");

    printf("vocabulary and book in bytes, and what they are; stack taken, in bytes\n");
    book_row("A, wait(up, free) and done", &a, book_of(1, &up_free, &done));
    book_row("B, 1 to 32 levels, and back", &b, book_of_levels());
    book_row("B, 31 levels 63 times, and 32", &b, book_of(63, &less_deep, &deep));
    book_row("96 words of 16 kinds, 32 levels 64 times", &sixteen, book_of(64, &open_16, NULL));
    book_row("the same 63 times, and a neighbour", &sixteen, book_of(63, &open_16, &beside_16));
    book_row("the same 64 times, with more places written", &sixteen, book_of(64, &written_16, NULL));
    book_row("C, a tree of 7 levels", &c, book_of(1, &tree_7, NULL));
    book_row("the same 64 times", &c, book_of(64, &tree_7, NULL));
    book_row("the same 63 times, and one that differs", &c, book_of(63, &tree_7, &other_7));
    book_row("C, a tree of 5 levels, and a neighbour", &c, book_of(1, &tree_5, &half_5));
    book_row("C, a tree of 6 levels, and a neighbour", &c, book_of(1, &tree_6, &half_6));
    book_row("C, the tree of 4,096 bytes 64 times", &c, book_of(64, &largest, NULL));
    book_row("E, a neighbour, and entries of 4,095 bytes", &e, book_of(1, &two, &other_two));
    book_row("E, a neighbour, and entries of 4,097 bytes", &e, book_of(1, &two, &one_more));
    book_row("E, 4,096 bytes 64 times", &e, book_of(64, &four, NULL));

    size_t others = 0;
    for (int i = 0; i < LIST_BOOK; i++)
        if (others < most[i])
            others = most[i];
    printf("the most: %zu bytes of %d, and for a book %zu of %d\n", others, ENOUGH, most[LIST_BOOK],
           ENOUGH_FOR_BOOKS);
    return others > ENOUGH || most[LIST_BOOK] > ENOUGH_FOR_BOOKS;
}
