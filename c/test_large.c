/* Calls togmelic_list_large. Every expected line, token and record is written out from documents 01 and 02. */
#define ENTRY togmelic_list_large
#define WORDS_OF_A_TOKEN TOGMELIC_TOKEN_WORDS
#include "lent.h"

/* The example's tokens: kind, in the order of the Rust's `Token`, start and end. */
enum { TOKENS = 18, TOKEN_WORDS = TOKENS * TOGMELIC_TOKEN_WORDS };
static const uint32_t EXAMPLE_TOKENS[TOKEN_WORDS] = {
    4, 0, 2, 32, 3, 4, 20, 4, 5, 21, 5, 6, 24, 6, 7, /* fn f ( ) { */
    9, 7, 12, 32, 13, 14, 24, 14, 15, /* match b { */
    31, 15, 19, 19, 19, 21, 28, 21, 22, 17, 22, 23, /* true => 1 , */
    31, 23, 28, 19, 28, 30, 28, 30, 31, 17, 31, 32, /* false => 2 , */
    25, 32, 33, 25, 33, 34, /* } } */
};
static const struct words THE_TOKENS = {EXAMPLE_TOKENS, TOKEN_WORDS};

static void test_constants(void)
{
    CHECK(TOGMELIC_LONG_LINE == 49 && TOGMELIC_TOKEN_WORDS == 3);
    CHECK(TOGMELIC_LARGE_DRAFT == 1048576 && TOGMELIC_LARGE_TOKENS == 131072 && TOGMELIC_LARGE_LINES == 131073);
    CHECK(TOGMELIC_LARGE_TOKEN_WORDS == 393216 && TOGMELIC_LARGE_TREE_WORDS == 917511 && TOGMELIC_LARGE_BYTES == 6422577);
    CHECK(strlen(EXAMPLE) == 34);
}

static void test_answers(void)
{
    struct room just = {TOKEN_WORDS, EXAMPLE_WORDS, EXAMPLE_BYTES};
    CHECK(lists(EXAMPLE, 34, MOST, EXAMPLE_LINES, THE_TOKENS, THE_RECORDS));
    CHECK(lists(EXAMPLE, 34, enough(34), EXAMPLE_LINES, THE_TOKENS, THE_RECORDS));
    CHECK(lists(EXAMPLE, 34, just, EXAMPLE_LINES, THE_TOKENS, THE_RECORDS));
    CHECK(tree[5] == EXAMPLE_COUNT && tree[0] == TOGMELIC_PROGRAM);
    CHECK(refuses(REFUSED, strlen(REFUSED), MOST, REFUSED_LINE));
    CHECK(refuses(REFUSED, strlen(REFUSED), enough(strlen(REFUSED)), REFUSED_LINE));
    /* Nothing is kept from one call to the next. */
    CHECK(lists(EXAMPLE, 34, just, EXAMPLE_LINES, THE_TOKENS, THE_RECORDS));
    /* Only the bytes that are lent are read, and a draft may hold a zero byte. */
    CHECK(refuses(EXAMPLE, 6, MOST, refusal(8, 6)));
    CHECK(refuses("fn\0f(){}", 8, MOST, refusal(3, 2)));
}

static void test_empty(void)
{
    static const uint32_t program[TOGMELIC_RECORD_WORDS] = {TOGMELIC_PROGRAM, 0, 0, 0, 0, 1, 0};
    struct words one = {program, TOGMELIC_RECORD_WORDS};
    struct room short_tree = {0, TOGMELIC_RECORD_WORDS - 1, TOGMELIC_LINE};
    CHECK(lists("", 0, MOST, EMPTY_LINE, NONE, one));
    CHECK(lists(NULL, 0, enough(0), EMPTY_LINE, NONE, one));
    CHECK(refuses(NULL, 0, short_tree, refusal(15, 0)));
    memset(tree, FILL, sizeof tree);
    memset(out, FILL, sizeof out);
    CHECK(togmelic_list_large(NULL, 0, NULL, 0, tree, TOGMELIC_RECORD_WORDS, NULL, 0) == 0);
    CHECK(holds(tree, TOGMELIC_RECORD_WORDS, one));
    CHECK(wrote(togmelic_list_large(NULL, 0, NULL, 0, NULL, 0, out, TOGMELIC_LINE), TOGMELIC_LINE, refusal(15, 0)));
    CHECK(togmelic_list_large(NULL, 0, NULL, 0, NULL, 0, NULL, 0) == 0);
}

/* Buffers of every length: 6 at the first token that has no three words, before 15 where a record has no seven, before lines that do not fit. */
static void test_lengths(void)
{
    struct room room;
    size_t at;
    for (at = 0; at < TOKEN_WORDS + 7; at++) {
        unsigned place = at < TOKEN_WORDS ? EXAMPLE_TOKENS[at / TOGMELIC_TOKEN_WORDS * TOGMELIC_TOKEN_WORDS + 1] : 0;
        for (room.tree = EXAMPLE_WORDS - 8; room.tree < EXAMPLE_WORDS + 8; room.tree++) {
            room.tokens = at;
            room.out = EXAMPLE_BYTES;
            if (at < TOKEN_WORDS) {
                CHECK(refuses(EXAMPLE, 34, room, refusal(6, place)));
            } else if (room.tree < EXAMPLE_WORDS) {
                CHECK(refuses(EXAMPLE, 34, room, refusal(15, 0)));
            } else {
                CHECK(lists(EXAMPLE, 34, room, EXAMPLE_LINES, THE_TOKENS, THE_RECORDS));
            }
        }
    }
    for (at = 0; at < 2 * EXAMPLE_BYTES; at++) {
        struct room few_tokens = {TOKEN_WORDS - 1, EXAMPLE_WORDS, at}, small_tree = {TOKEN_WORDS, EXAMPLE_WORDS - 1, at};
        struct room just = {TOKEN_WORDS, EXAMPLE_WORDS, at};
        CHECK(refuses(EXAMPLE, 34, few_tokens, refusal(6, 33)));
        CHECK(refuses(EXAMPLE, 34, small_tree, refusal(15, 0)));
        CHECK(refuses(REFUSED, strlen(REFUSED), just, REFUSED_LINE));
        /* Tokens and records are there also where the lines do not fit. */
        CHECK(lists(EXAMPLE, 34, just, EXAMPLE_LINES, THE_TOKENS, THE_RECORDS));
    }
    for (at = 0; at < EXAMPLE_WORDS; at++) {
        struct room small_tree = {TOKEN_WORDS, at, TOGMELIC_LINE};
        CHECK(refuses(EXAMPLE, 34, small_tree, refusal(15, 0)));
    }
}

/* Document 02, order 9: drafts of up to 1,048,576 bytes, here one comment, with the place of refusal 1 behind them. */
static void test_bytes(void)
{
    static const char too_long[] = "00 100000 100000 00000001 00000000 000001 000000\n";
    static const char longest[] = "29 000000 100000 00000000 00000000 000001 000000\n";
    static const uint32_t program[TOGMELIC_RECORD_WORDS] = {TOGMELIC_PROGRAM, 0, 1048576, 0, 0, 1, 0};
    static char draft[TOGMELIC_LARGE_DRAFT + 2];
    struct words one = {program, TOGMELIC_RECORD_WORDS};
    struct room room = {0, TOGMELIC_RECORD_WORDS, TOGMELIC_LONG_LINE};
    memset(draft, 'a', sizeof draft);
    memcpy(draft, "//", 2);
    CHECK(lists(draft, TOGMELIC_LARGE_DRAFT, room, longest, NONE, one));
    CHECK(lists(draft, TOGMELIC_LARGE_DRAFT, MOST, longest, NONE, one));
    CHECK(refuses(draft, TOGMELIC_LARGE_DRAFT + 1, room, too_long));
    CHECK(refuses(draft, TOGMELIC_LARGE_DRAFT + 2, MOST, too_long));
    room.out = TOGMELIC_LONG_LINE - 1;
    CHECK(lists(draft, TOGMELIC_LARGE_DRAFT, room, longest, NONE, one));
    CHECK(refuses(draft, TOGMELIC_LARGE_DRAFT + 1, room, too_long));
    /* Refusal 1 goes before all others. */
    draft[2] = '\x80';
    CHECK(refuses(draft, TOGMELIC_LARGE_DRAFT, MOST, refusal(21, 2)));
    CHECK(refuses(draft, TOGMELIC_LARGE_DRAFT + 1, MOST, too_long));
    /* togmelic_list has its own limits. */
    CHECK(togmelic_list((const unsigned char *)draft, TOGMELIC_LARGE_DRAFT, out, sizeof out) == TOGMELIC_LINE);
    CHECK(memcmp(out, refusal(1, 16384), TOGMELIC_LINE) == 0);
}

/* Where four digits do not hold a number of it, every line of a listing has 49 bytes; the lines are those of the function in front of a comment. */
static void test_forms(void)
{
    static const uint32_t its_tokens[] = {4, 0, 2, 32, 3, 4, 20, 4, 5, 21, 5, 6, 24, 6, 7, 25, 7, 8};
    static const struct words six = {its_tokens, 6 * TOGMELIC_TOKEN_WORDS};
    uint32_t records[] = {41, 0, 65535, 0, 0, 4, 0, 1, 0, 8, 0, 0, 3, 1, 2, 3, 4, 0, 0, 1, 1, 18, 6, 8, 0, 0, 1, 2};
    struct words four = {records, 4 * TOGMELIC_RECORD_WORDS};
    static char draft[65536];
    memset(draft, 'a', sizeof draft);
    memcpy(draft, "fn f(){}//", 10);
    CHECK(lists(draft, 65535, enough(65535),
                "29 0000 FFFF 00000000 00000000 0004 0000\n"
                "01 0000 0008 00000000 00000000 0003 0001\n"
                "02 0003 0004 00000000 00000000 0001 0001\n"
                "12 0006 0008 00000000 00000000 0001 0002\n",
                six, four));
    CHECK(out[7] == ' ');
    records[2] = 65536;
    CHECK(lists(draft, 65536, enough(65536),
                "29 000000 010000 00000000 00000000 000004 000000\n"
                "01 000000 000008 00000000 00000000 000003 000001\n"
                "02 000003 000004 00000000 00000000 000001 000001\n"
                "12 000006 000008 00000000 00000000 000001 000002\n",
                six, four));
    CHECK(out[7] != ' ');
    /* A refusal's line has them by its place, here that of a last token, and the end of a draft that is not finished. */
    memset(draft + 8, ' ', sizeof draft - 8);
    draft[65535] = ';';
    CHECK(refuses(draft, 65536, MOST, refusal(8, 65535)));
    draft[65535] = draft[7] = ' ';
    CHECK(refuses(draft, 65535, MOST, refusal(8, 65535)));
    CHECK(refuses(draft, 65536, MOST, "00 010000 010000 00000008 00000000 000001 000000\n"));
}

/* Functions of eight tokens and four records each, as many as 131,072 tokens allow, and what comes of one token more. */
static void test_tokens(void)
{
    const char *draft = functions();
    static uint32_t words[TOGMELIC_LARGE_TREE_WORDS];
    struct room room = {TOGMELIC_LARGE_TOKEN_WORDS, LINES * TOGMELIC_RECORD_WORDS, LINES * TOGMELIC_LONG_LINE};
    struct togmelic_refusal refused;
    size_t used;
    used = called(draft, BYTES * FUNCTIONS, room);
    CHECK(used == LINES * TOGMELIC_LONG_LINE && used / TOGMELIC_LONG_LINE == tree[5]);
    CHECK(memcmp(out, "29 000000 028000 00000000 00000000 010001 000000\n01 000000 00000A 00000000 00000000 000004 000001\n", 2 * TOGMELIC_LONG_LINE) == 0);
    CHECK(memcmp(out + used - TOGMELIC_LONG_LINE, "1D 027FFD 027FFE 00000000 00000000 000001 000001\n", TOGMELIC_LONG_LINE) == 0);
    CHECK(tokens[TOGMELIC_LARGE_TOKEN_WORDS - 1] == BYTES * FUNCTIONS && tokens[TOGMELIC_LARGE_TOKEN_WORDS - 3] == 25);
    CHECK(tree[LINES * TOGMELIC_RECORD_WORDS - 1] == 1 && tree[(LINES - 4) * TOGMELIC_RECORD_WORDS + TOGMELIC_UP] == LINES - 4);
    /* What stands in tree is what the lines are loaded to. */
    CHECK(togmelic_load(out, used, words, TOGMELIC_LARGE_TREE_WORDS, &refused) == LINES);
    CHECK(memcmp(words, tree, LINES * TOGMELIC_RECORD_WORDS * sizeof *words) == 0);
    /* One byte, one record's words or one token less. */
    room.out--;
    CHECK(wrote(called(draft, BYTES * FUNCTIONS, room), room.out, ""));
    CHECK(memcmp(words, tree, LINES * TOGMELIC_RECORD_WORDS * sizeof *words) == 0);
    test_too_much(draft, room);
}

/* Drafts within the small limits have the lines that togmelic_list writes. */
static void test_small_drafts(void)
{
    static unsigned char small[TOGMELIC_MOST_BYTES];
    size_t at, used;
    for (at = 0; at < sizeof DRAFTS / sizeof *DRAFTS; at++) {
        size_t length = strlen(DRAFTS[at]);
        used = togmelic_list((const unsigned char *)DRAFTS[at], length, small, sizeof small);
        CHECK(called(DRAFTS[at], length, enough(length)) == used && memcmp(out, small, used) == 0);
        CHECK((tree[0] == 0) == (small[0] == '0' && small[1] == '0'));
    }
}

int main(void)
{
    test_constants();
    test_answers();
    test_empty();
    test_lengths();
    test_bytes();
    test_forms();
    test_tokens();
    test_one_array(THE_TOKENS);
    test_small_drafts();
    return finish("list_large");
}
