/* Calls togmelic_list_lean. Every expected line, start and record is written out from documents 01 and 02. */
#define ENTRY togmelic_list_lean
#define WORDS_OF_A_TOKEN TOGMELIC_START_WORDS
#include "lent.h"

/* Where the example's tokens begin. */
enum { TOKENS = 18 };
static const uint32_t EXAMPLE_STARTS[TOKENS] = {
    0, 3, 4, 5, 6, /* fn f ( ) { */
    7, 13, 14, /* match b { */
    15, 19, 21, 22, /* true => 1 , */
    23, 28, 30, 31, /* false => 2 , */
    32, 33, /* } } */
};
static const struct words THE_STARTS = {EXAMPLE_STARTS, TOKENS};

static void test_constants(void)
{
    CHECK(TOGMELIC_START_WORDS == 1 && TOGMELIC_LARGE_START_WORDS == 131072);
    CHECK(3 * TOGMELIC_LARGE_START_WORDS == TOGMELIC_LARGE_TOKEN_WORDS);
    CHECK(enough(1000).tokens == 1000 && enough(131073).tokens == 131072);
}

static void test_answers(void)
{
    struct room just = {TOKENS, EXAMPLE_WORDS, EXAMPLE_BYTES};
    CHECK(lists(EXAMPLE, 34, MOST, EXAMPLE_LINES, THE_STARTS, THE_RECORDS));
    CHECK(lists(EXAMPLE, 34, enough(34), EXAMPLE_LINES, THE_STARTS, THE_RECORDS));
    CHECK(lists(EXAMPLE, 34, just, EXAMPLE_LINES, THE_STARTS, THE_RECORDS));
    CHECK(tree[5] == EXAMPLE_COUNT && tree[0] == TOGMELIC_PROGRAM);
    CHECK(refuses(REFUSED, strlen(REFUSED), MOST, REFUSED_LINE));
    CHECK(refuses(REFUSED, strlen(REFUSED), enough(strlen(REFUSED)), REFUSED_LINE));
    /* Nothing is kept from one call to the next. */
    CHECK(lists(EXAMPLE, 34, just, EXAMPLE_LINES, THE_STARTS, THE_RECORDS));
    /* Only the bytes that are lent are read, and a draft may hold a zero byte. */
    CHECK(refuses(EXAMPLE, 6, MOST, refusal(8, 6)));
    CHECK(refuses("fn\0f(){}", 8, MOST, refusal(3, 2)));
}

static void test_empty(void)
{
    static const uint32_t program[TOGMELIC_RECORD_WORDS] = {TOGMELIC_PROGRAM, 0, 0, 0, 0, 1, 0};
    struct words one = {program, TOGMELIC_RECORD_WORDS};
    struct room short_tree = {0, TOGMELIC_RECORD_WORDS - 1, TOGMELIC_LINE}, more_starts = {3, TOGMELIC_RECORD_WORDS, TOGMELIC_LINE};
    CHECK(lists("", 0, MOST, EMPTY_LINE, NONE, one));
    CHECK(lists(NULL, 0, enough(0), EMPTY_LINE, NONE, one));
    CHECK(lists(NULL, 0, more_starts, EMPTY_LINE, NONE, one));
    CHECK(refuses(NULL, 0, short_tree, refusal(15, 0)));
    memset(tree, FILL, sizeof tree);
    CHECK(togmelic_list_lean(NULL, 0, NULL, 0, tree, TOGMELIC_RECORD_WORDS, NULL, 0) == 0);
    CHECK(holds(tree, TOGMELIC_RECORD_WORDS, one));
    CHECK(togmelic_list_lean(NULL, 0, NULL, 0, NULL, 0, NULL, 0) == 0);
}

/* Buffers of every length: 6 at the first token that has no word, before 15 where a record has no seven, before lines that do not fit. */
static void test_lengths(void)
{
    struct room room;
    size_t at;
    for (at = 0; at < 3 * TOKENS + 3; at++) {
        for (room.tree = EXAMPLE_WORDS - 8; room.tree < EXAMPLE_WORDS + 8; room.tree++) {
            room.tokens = at;
            room.out = EXAMPLE_BYTES;
            if (at < TOKENS) {
                CHECK(refuses(EXAMPLE, 34, room, refusal(6, EXAMPLE_STARTS[at])));
            } else if (room.tree < EXAMPLE_WORDS) {
                CHECK(refuses(EXAMPLE, 34, room, refusal(15, 0)));
            } else {
                CHECK(lists(EXAMPLE, 34, room, EXAMPLE_LINES, THE_STARTS, THE_RECORDS));
            }
        }
    }
    for (at = 0; at < 2 * EXAMPLE_BYTES; at++) {
        struct room none = {0, EXAMPLE_WORDS, at}, few = {TOKENS - 1, EXAMPLE_WORDS, at}, small_tree = {TOKENS, EXAMPLE_WORDS - 1, at};
        struct room just = {TOKENS, EXAMPLE_WORDS, at};
        CHECK(refuses(EXAMPLE, 34, none, refusal(6, 0)));
        CHECK(refuses(EXAMPLE, 34, few, refusal(6, 33)));
        CHECK(refuses(EXAMPLE, 34, small_tree, refusal(15, 0)));
        CHECK(refuses(REFUSED, strlen(REFUSED), just, REFUSED_LINE));
        /* Starts and records are there also where the lines do not fit. */
        CHECK(lists(EXAMPLE, 34, just, EXAMPLE_LINES, THE_STARTS, THE_RECORDS));
    }
    for (at = 0; at < EXAMPLE_WORDS; at++) {
        struct room small_tree = {TOKENS, at, TOGMELIC_LINE};
        CHECK(refuses(EXAMPLE, 34, small_tree, refusal(15, 0)));
    }
}

/* Refusal 1 is as with togmelic_list_large, and goes before all others; 2 to 5 go before 6, and 6 before 7 and 8. */
static void test_order(void)
{
    static char draft[TOGMELIC_LARGE_DRAFT + 1];
    struct room room = {0, 0, TOGMELIC_LONG_LINE};
    memset(draft, ';', sizeof draft);
    CHECK(refuses(draft, sizeof draft, room, "00 100000 100000 00000001 00000000 000001 000000\n"));
    CHECK(refuses(draft, sizeof draft - 1, room, refusal(6, 0)));
    room.tokens = 60;
    CHECK(refuses(draft, 60, room, refusal(8, 0)));
    CHECK(refuses(draft, 61, room, refusal(6, 60)));
    memset(draft, '(', 60);
    CHECK(refuses(draft, 60, room, refusal(7, 48)));
    CHECK(refuses(draft, 61, room, refusal(6, 60)));
    draft[70] = '#';
    CHECK(refuses(draft, 71, room, refusal(3, 70)));
}

/* Functions of eight tokens and four records each, as many as 131,072 tokens allow, and what comes of one word or one token more or less. */
static void test_tokens(void)
{
    static const uint32_t starts[] = {0, 3, 4, 5, 6, 7, 8, 9};
    const char *draft = functions();
    struct room room = {TOGMELIC_LARGE_START_WORDS, LINES * TOGMELIC_RECORD_WORDS, TOGMELIC_LONG_LINE - 1};
    size_t at;
    CHECK(called(draft, BYTES * FUNCTIONS, room) == 0);
    for (at = 0; at < TOGMELIC_LARGE_TOKENS && tokens[at] == BYTES * (at / 8) + starts[at % 8]; at++)
        ;
    CHECK(at == TOGMELIC_LARGE_TOKENS && tokens[at] == 0xAAAAAAAA);
    CHECK(tree[5] == LINES && tree[LINES * TOGMELIC_RECORD_WORDS - 1] == 1 && tree[(LINES - 4) * TOGMELIC_RECORD_WORDS + TOGMELIC_UP] == LINES - 4);
    room.out++;
    test_too_much(draft, room);
}

/* The same lines and the same tree as with togmelic_list_large, and of its tokens the second words. */
static void test_other_entry(void)
{
    static uint32_t whole[600], its_tree[800], starts[200];
    static unsigned char lines[5000];
    struct words its_starts = {starts, 200}, its_records = {its_tree, 800};
    size_t at, token, used;
    for (at = 0; at < sizeof DRAFTS / sizeof *DRAFTS; at++) {
        size_t length = strlen(DRAFTS[at]);
        struct room room = {200, 800, sizeof lines};
        used = togmelic_list_large((const unsigned char *)DRAFTS[at], length, whole, 600, its_tree, 800, lines, sizeof lines);
        for (token = 0; token < 200; token++) {
            starts[token] = whole[TOGMELIC_TOKEN_WORDS * token + 1];
        }
        CHECK(called(DRAFTS[at], length, room) == used && memcmp(out, lines, sizeof lines) == 0);
        CHECK(holds(tokens, 200, its_starts) && holds(tree, 800, its_records));
    }
}

int main(void)
{
    test_constants();
    test_answers();
    test_empty();
    test_lengths();
    test_order();
    test_tokens();
    test_one_array(THE_STARTS);
    test_other_entry();
    return finish("list_lean");
}
