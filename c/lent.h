/* What the tests of the two entries with lent buffers share. Before it is included, ENTRY is the one that is called, and WORDS_OF_A_TOKEN what it keeps. */
#ifndef LENT_H
#define LENT_H

#include "check.h"

/* The buffers that are lent, and what stands behind each, which no call may touch. */
static uint32_t tokens[TOGMELIC_LARGE_TOKEN_WORDS + GUARD], tree[TOGMELIC_LARGE_TREE_WORDS + GUARD];
static unsigned char out[TOGMELIC_LARGE_BYTES + GUARD];

/* The lengths of the three. */
struct room {
    size_t tokens, tree, out;
};
static const struct room MOST = {WORDS_OF_A_TOKEN * TOGMELIC_LARGE_TOKENS, TOGMELIC_LARGE_TREE_WORDS, TOGMELIC_LARGE_BYTES};

/* What stands in a buffer: these words, and zeros behind. */
struct words {
    const uint32_t *words;
    size_t count;
};
static const struct words NONE = {NULL, 0};

/* The records of the example. */
static const struct words THE_RECORDS = {EXAMPLE_RECORDS, EXAMPLE_WORDS};

/* The smallest room for a draft of so many bytes that is always enough, as c/togmelic.h has it. */
static struct room enough(size_t bytes)
{
    size_t most = bytes < TOGMELIC_LARGE_TOKENS ? bytes : TOGMELIC_LARGE_TOKENS;
    struct room room;
    room.tokens = WORDS_OF_A_TOKEN * most;
    room.tree = TOGMELIC_RECORD_WORDS * (most + 1);
    room.out = (bytes < 65536 ? TOGMELIC_LINE : TOGMELIC_LONG_LINE) * (most + 1);
    return room;
}

/* Whether a buffer of so many words holds these and zeros, and was not written behind its end. */
static int holds(const uint32_t *buffer, size_t length, struct words wanted)
{
    size_t at;
    for (at = 0; at < length + GUARD; at++) {
        uint32_t word = at < wanted.count ? wanted.words[at] : at < length ? 0 : 0xAAAAAAAA;
        if (buffer[at] != word) {
            return 0;
        }
    }
    return 1;
}

/* Calls with buffers that are filled before, as far as the call may see and a little further. */
static size_t called(const char *draft, size_t draft_length, struct room room)
{
    memset(tokens, FILL, (room.tokens + GUARD) * sizeof *tokens);
    memset(tree, FILL, (room.tree + GUARD) * sizeof *tree);
    memset(out, FILL, room.out + GUARD);
    return ENTRY((const unsigned char *)draft, draft_length, tokens, room.tokens, tree, room.tree, out, room.out);
}

/* Whether out holds these lines and zeros, or zeros alone where they do not fit, and so many bytes are used. */
static int wrote(size_t used, size_t out_length, const char *lines)
{
    size_t length = strlen(lines), at;
    if (length > out_length) {
        length = 0;
    }
    if (used != length || memcmp(out, lines, length) != 0) {
        return 0;
    }
    for (at = length; at < out_length + GUARD && out[at] == (at < out_length ? 0 : FILL); at++) {
    }
    return at == out_length + GUARD;
}

/* Whether a draft is accepted with these lines, where they fit, tokens and records. */
static int lists(const char *draft, size_t draft_length, struct room room, const char *lines, struct words its_tokens, struct words its_tree)
{
    return wrote(called(draft, draft_length, room), room.out, lines)
        && holds(tokens, room.tokens, its_tokens)
        && holds(tree, room.tree, its_tree);
}

/* Whether it is refused with this line, where it fits, and zeros everywhere else. */
static int refuses(const char *draft, size_t draft_length, struct room room, const char *line)
{
    return lists(draft, draft_length, room, line, NONE, NONE);
}

/* The line of a refusal at a place that four digits hold. */
static const char *refusal(unsigned number, unsigned place)
{
    static char line[TOGMELIC_LINE + 1];
    sprintf(line, "00 %04X %04X %08X 00000000 0001 0000\n", place, place, number);
    return line;
}

/* Drafts within the small limits, accepted and refused. */
static const char *const DRAFTS[] = {
    "", "fn f(){}", "fn f(){fold(x)}", "type A=(u8,[A;2]);fn f(){}", "fn f(){match x{}}", "/*\xCE\xB1*/", "//\x80", "/*/**/", "simc", "#",
    "fn f(){match match a{true=>1,false=>2,}{true=>[1,2,3],false=>match c{Some(d:u1)=>e,None=>f,},}}", "type A=[u8;18446744073709551616];"};

/* Functions of eight tokens, four records and so many bytes each, as many as 131,072 tokens allow; with the file's they have so many lines. */
enum { BYTES = 10, FUNCTIONS = TOGMELIC_LARGE_TOKENS / 8, LINES = 1 + 4 * FUNCTIONS };

/* All of them, and one token more behind. */
static const char *functions(void)
{
    static char draft[BYTES * FUNCTIONS + 1];
    size_t at;
    for (at = 0; at < FUNCTIONS; at++) {
        memcpy(draft + BYTES * at, "fn f(){a;}", BYTES);
    }
    draft[BYTES * FUNCTIONS] = ';';
    return draft;
}

/* One word of the records less than the functions need in this room, one word of a token less, and then one token more than the limit. */
static void test_too_much(const char *draft, struct room room)
{
    room.tree--;
    CHECK(refuses(draft, BYTES * FUNCTIONS, room, refusal(15, 0)));
    room.tokens--;
    CHECK(refuses(draft, BYTES * FUNCTIONS, room, "00 027FFF 027FFF 00000006 00000000 000001 000000\n"));
    CHECK(refuses(draft, BYTES * FUNCTIONS + 1, MOST, "00 028000 028000 00000006 00000000 000001 000000\n"));
}

/* What is kept of the example's tokens, and its tree, in one array, one behind the other, with nothing between. */
static void test_one_array(struct words kept)
{
    uint32_t *records = tree + kept.count;
    size_t used;
    memset(tree, FILL, sizeof tree);
    memset(out, FILL, sizeof out);
    used = ENTRY((const unsigned char *)EXAMPLE, 34, tree, kept.count, records, EXAMPLE_WORDS, out, EXAMPLE_BYTES);
    CHECK(wrote(used, EXAMPLE_BYTES, EXAMPLE_LINES));
    CHECK(memcmp(tree, kept.words, kept.count * sizeof *tree) == 0);
    CHECK(holds(records, EXAMPLE_WORDS, THE_RECORDS));
}

#endif
