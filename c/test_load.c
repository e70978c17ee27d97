/* Calls togmelic_load. Every expected word is written out from documents 01 and 02. */
#include "check.h"

static uint32_t words[2 * EXAMPLE_WORDS + GUARD];

/* Whether a listing gets these records, or none with this refusal, in words_length words, prefilled. */
static int answers(const char *listing, size_t listing_length, size_t words_length, const uint32_t *records, size_t count, size_t number, size_t line)
{
    struct togmelic_refusal refusal;
    size_t at, used = count * TOGMELIC_RECORD_WORDS;
    memset(words, FILL, sizeof words);
    memset(&refusal, FILL, sizeof refusal);
    if (togmelic_load((const unsigned char *)listing, listing_length, words, words_length, &refusal) != count
        || refusal.number != number || refusal.line != line
        || memcmp(words, records, used * sizeof *words) != 0) {
        return 0;
    }
    for (at = used; at < words_length + GUARD && words[at] == (at < words_length ? 0 : 0xAAAAAAAA); at++) {
    }
    return at == words_length + GUARD;
}

/* The same for a listing that is the example's where the number is 0. */
static int loads(const char *listing, size_t listing_length, size_t words_length, size_t number, size_t line)
{
    return answers(listing, listing_length, words_length, EXAMPLE_RECORDS, number == 0 ? EXAMPLE_COUNT : 0, number, line);
}

/* The same for the example with one byte of a line, from 1, replaced. */
static int loads_changed(size_t line, size_t column, int byte, size_t number, size_t bad_line)
{
    char listing[EXAMPLE_BYTES];
    memcpy(listing, EXAMPLE_LINES, EXAMPLE_BYTES);
    listing[TOGMELIC_LINE * (line - 1) + column] = (char)byte;
    return loads(listing, EXAMPLE_BYTES, EXAMPLE_WORDS, number, bad_line);
}

/* The example's lines, of 36 bytes where their bit is set, the first line's the lowest; answers how many bytes they are. */
static size_t mixed(char *listing, unsigned short_ones)
{
    size_t at, length = 0;
    for (at = 0; at < EXAMPLE_COUNT; at++) {
        memcpy(listing + length, EXAMPLE_LINES + at * TOGMELIC_LINE, TOGMELIC_LINE);
        length += short_ones >> at & 1 ? TOGMELIC_SHORT_LINE : TOGMELIC_LINE;
        listing[length - 1] = '\n';
    }
    return length;
}

enum { ALL_SHORT = (1 << EXAMPLE_COUNT) - 1 };

static void test_loading(void)
{
    struct togmelic_refusal refusal;
    char shorter[EXAMPLE_BYTES];
    size_t length;
    CHECK(mixed(shorter, ALL_SHORT) == SHORT_BYTES);
    for (length = 0; length <= 2 * EXAMPLE_WORDS; length++) {
        CHECK(loads(EXAMPLE_LINES, EXAMPLE_BYTES, length, length < EXAMPLE_WORDS ? 18 : 0, 0));
        CHECK(loads(shorter, SHORT_BYTES, length, length < EXAMPLE_WORDS ? 18 : 0, 0));
    }
    /* A part of a line is a bad line; whole lines are too few for the first record's size. */
    for (length = 0; length < EXAMPLE_BYTES; length++) {
        int whole = length % TOGMELIC_LINE == 0;
        CHECK(loads(EXAMPLE_LINES, length, EXAMPLE_WORDS, whole ? 17 : 16, whole ? 0 : length / TOGMELIC_LINE + 1));
    }
    for (length = 0; length < SHORT_BYTES; length++) {
        int whole = length % TOGMELIC_SHORT_LINE == 0;
        CHECK(loads(shorter, length, EXAMPLE_WORDS, whole ? 17 : 16, whole ? 0 : length / TOGMELIC_SHORT_LINE + 1));
    }
    /* 16 goes before 17, and 17 before 18. */
    CHECK(loads("\n", 1, 0, 16, 1));
    CHECK(loads(REFUSED_LINE, TOGMELIC_LINE, 0, 17, 0));
    CHECK(loads(NULL, 0, EXAMPLE_WORDS, 17, 0));
    CHECK(togmelic_load(NULL, 0, NULL, 0, &refusal) == 0 && refusal.number == 17 && refusal.line == 0);
    CHECK(togmelic_load((const unsigned char *)EXAMPLE_LINES, EXAMPLE_BYTES, NULL, 0, &refusal) == 0 && refusal.number == 18);
    /* Arms belong together; sizes add up; a place begins before its end and lies inside its parent's; kinds are the table's. */
    CHECK(loads_changed(7, 20, '6', 17, 0));
    CHECK(loads_changed(5, 34, '5', 17, 0));
    CHECK(loads_changed(3, 11, '3', 17, 0));
    CHECK(loads_changed(6, 10, '2', 17, 0));
    CHECK(loads_changed(6, 1, 'E', 17, 0));
}

/* Document 02, order 7: all lines are of the first one's form; the first that is not is bad, and the first itself where it is in neither. */
static void test_forms(void)
{
    char listing[EXAMPLE_BYTES];
    size_t line;
    for (line = 1; line <= EXAMPLE_COUNT; line++) {
        /* One line, and then all before it, are of the other form. */
        unsigned one = 1u << (line - 1);
        size_t bad = line == 1 ? 2 : line;
        CHECK(loads(listing, mixed(listing, one), EXAMPLE_WORDS, 16, bad));
        CHECK(loads(listing, mixed(listing, ALL_SHORT & ~one), EXAMPLE_WORDS, 16, bad));
        CHECK(line == 1 || loads(listing, mixed(listing, one - 1), EXAMPLE_WORDS, 16, line));
        CHECK(line == 1 || loads(listing, mixed(listing, ALL_SHORT & ~(one - 1)), EXAMPLE_WORDS, 16, line));
    }
    /* Three digits, or five; the digits on a line of their own. */
    CHECK(loads("29 0000 0000 00000000 00000000 0001 000\n", TOGMELIC_LINE - 1, EXAMPLE_WORDS, 16, 1));
    CHECK(loads("29 0000 0000 00000000 00000000 0001 00000\n", TOGMELIC_LINE + 1, EXAMPLE_WORDS, 16, 1));
    CHECK(loads("29 0000 0000 00000000 00000000 0001\n0000\n", TOGMELIC_LINE, EXAMPLE_WORDS, 16, 2));
}

/* The lines with six digits for start, end, size and way up: two zeros before each; answers how many bytes they are. */
static size_t lengthened(char *listing, const char *lines)
{
    static const size_t before[] = {3, 8, 31, 36};
    size_t line, field, length = 0;
    for (line = 0; line < strlen(lines); line += TOGMELIC_LINE) {
        size_t from = 0;
        for (field = 0; field < 4; field++) {
            memcpy(listing + length, lines + line + from, before[field] - from);
            length += before[field] - from;
            memcpy(listing + length, "00", 2);
            length += 2;
            from = before[field];
        }
        memcpy(listing + length, lines + line + from, TOGMELIC_LINE - from);
        length += TOGMELIC_LINE - from;
    }
    return length;
}

/* Document 02, order 9: lines of 49 bytes, where a number needs them; else 16 at line 1, once all lines are in form and before 17 and 18. */
static void test_long_lines(void)
{
    enum { LONG_BYTES = EXAMPLE_COUNT * TOGMELIC_LONG_LINE };
    static const char form[] = "hh hhhhhh hhhhhh hhhhhhhh hhhhhhhh hhhhhh hhhhhh\n";
    static const uint32_t longest[TOGMELIC_RECORD_WORDS] = {TOGMELIC_PROGRAM, 0, 16777215, 0, 0, 1, 0};
    char listing[LONG_BYTES + TOGMELIC_LONG_LINE];
    uint32_t records[EXAMPLE_WORDS];
    size_t length, at;
    int byte;
    CHECK(lengthened(listing, EXAMPLE_LINES) == LONG_BYTES);
    CHECK(loads(listing, LONG_BYTES, EXAMPLE_WORDS, 16, 1));
    CHECK(loads(listing, LONG_BYTES, 0, 16, 1));
    CHECK(loads(listing, LONG_BYTES - TOGMELIC_LONG_LINE, EXAMPLE_WORDS, 16, 1));
    CHECK(loads(listing, LONG_BYTES - 1, EXAMPLE_WORDS, 16, EXAMPLE_COUNT));
    /* The program is that of a draft of 65,536 bytes. */
    memcpy(listing + 10, "010000", 6);
    memcpy(records, EXAMPLE_RECORDS, sizeof records);
    records[2] = 65536;
    for (length = 0; length <= 2 * EXAMPLE_WORDS; length++) {
        int short_of = length < EXAMPLE_WORDS;
        CHECK(answers(listing, LONG_BYTES, length, records, short_of ? 0 : EXAMPLE_COUNT, short_of ? 18 : 0, 0));
    }
    for (length = 0; length < LONG_BYTES; length++) {
        int whole = length % TOGMELIC_LONG_LINE == 0;
        CHECK(loads(listing, length, EXAMPLE_WORDS, whole ? 17 : 16, whole ? 0 : length / TOGMELIC_LONG_LINE + 1));
    }
    /* A line of another form behind the first, and long lines behind another. */
    memcpy(listing + TOGMELIC_LONG_LINE, EXAMPLE_LINES + TOGMELIC_LINE, TOGMELIC_LINE);
    CHECK(loads(listing, TOGMELIC_LONG_LINE + TOGMELIC_LINE, EXAMPLE_WORDS, 16, 2));
    lengthened(listing + TOGMELIC_LINE, EXAMPLE_LINES + TOGMELIC_LINE);
    memcpy(listing, EXAMPLE_LINES, TOGMELIC_LINE);
    CHECK(loads(listing, TOGMELIC_LINE + TOGMELIC_LONG_LINE, EXAMPLE_WORDS, 16, 2));
    mixed(listing, 1);
    lengthened(listing + TOGMELIC_SHORT_LINE, EXAMPLE_LINES + TOGMELIC_LINE);
    CHECK(loads(listing, TOGMELIC_SHORT_LINE + TOGMELIC_LONG_LINE, EXAMPLE_WORDS, 16, 2));
    /* The largest end; what is no file is 17, and so is a refusal's line. */
    CHECK(answers("29 000000 FFFFFF 00000000 00000000 000001 000000\n", TOGMELIC_LONG_LINE, TOGMELIC_RECORD_WORDS, longest, 1, 0, 0));
    CHECK(loads("29 000000 FFFFFF 00000000 00000000 000002 000000\n", TOGMELIC_LONG_LINE, TOGMELIC_RECORD_WORDS, 17, 0));
    CHECK(loads("00 010000 010000 00000008 00000000 000001 000000\n", TOGMELIC_LONG_LINE, TOGMELIC_RECORD_WORDS, 17, 0));
    CHECK(loads("00 00FFFF 00FFFF 00000008 00000000 000001 000000\n", TOGMELIC_LONG_LINE, TOGMELIC_RECORD_WORDS, 16, 1));
    /* Every byte in every column of the last line. */
    lengthened(listing, EXAMPLE_LINES);
    memcpy(listing + 10, "010000", 6);
    for (at = 0; at < TOGMELIC_LONG_LINE; at++) {
        char *changed = listing + LONG_BYTES - TOGMELIC_LONG_LINE + at, kept = *changed;
        for (byte = 0; byte < 256; byte++) {
            int digit = byte != 0 && strchr("0123456789ABCDEF", byte) != NULL;
            *changed = (char)byte;
            CHECK(loads(listing, LONG_BYTES, EXAMPLE_WORDS, 16, EXAMPLE_COUNT) == (form[at] == 'h' ? !digit : byte != form[at]));
        }
        *changed = kept;
    }
}

/* Document 02, order 7: from a record to what holds it, and wrong words. */
static void test_ways_up(void)
{
    /* The numbers of the records that hold the last one, its parent first: an arm that was exchanged, the match, the block, the function, the program. */
    static const size_t holders[] = {8, 4, 3, 1, 0};
    enum { HOLDERS = sizeof holders / sizeof *holders };
    char listing[EXAMPLE_BYTES];
    size_t at = EXAMPLE_COUNT - 1, step, line;
    int digit;
    CHECK(loads(EXAMPLE_LINES, EXAMPLE_BYTES, EXAMPLE_WORDS, 0, 0));
    for (step = 0; step < HOLDERS; step++) {
        CHECK(at - words[at * TOGMELIC_RECORD_WORDS + TOGMELIC_UP] == holders[step]);
        at = holders[step];
    }
    CHECK(words[TOGMELIC_UP] == 0);
    /* Any other digit last, or another than 0 before it. */
    for (line = 1; line <= EXAMPLE_COUNT; line++) {
        int right = EXAMPLE_LINES[TOGMELIC_LINE * line - 2];
        for (digit = '0'; digit <= '9'; digit++) {
            CHECK(digit == right || loads_changed(line, 39, digit, 17, 0));
        }
        CHECK(loads_changed(line, 38, '1', 17, 0));
        CHECK(loads_changed(line, 36, 'F', 17, 0));
    }
    /* The arms' words as they were written. */
    memcpy(listing, EXAMPLE_LINES, EXAMPLE_BYTES);
    listing[7 * TOGMELIC_LINE - 2] = '4';
    listing[9 * TOGMELIC_LINE - 2] = '2';
    CHECK(loads(listing, EXAMPLE_BYTES, EXAMPLE_WORDS, 17, 0));
    CHECK(loads(listing, EXAMPLE_BYTES, 0, 17, 0));
}

/* A function without the program above it: its way up is 0 then. Lines of 36 bytes do not say it, so they can be cut out as they are. */
static void test_loading_functions(void)
{
    uint32_t records[EXAMPLE_WORDS];
    char listing[EXAMPLE_BYTES];
    size_t count = EXAMPLE_COUNT - 1, used = count * TOGMELIC_RECORD_WORDS, length;
    memcpy(records, EXAMPLE_RECORDS + TOGMELIC_RECORD_WORDS, used * sizeof *records);
    records[TOGMELIC_UP] = 0;
    memcpy(listing, EXAMPLE_LINES + TOGMELIC_LINE, EXAMPLE_BYTES - TOGMELIC_LINE);
    CHECK(loads(listing, EXAMPLE_BYTES - TOGMELIC_LINE, EXAMPLE_WORDS, 17, 0));
    listing[TOGMELIC_LINE - 2] = '0';
    for (length = 0; length < used; length++) {
        CHECK(loads(listing, EXAMPLE_BYTES - TOGMELIC_LINE, length, 18, 0));
    }
    CHECK(answers(listing, EXAMPLE_BYTES - TOGMELIC_LINE, used, records, count, 0, 0));
    mixed(listing, ALL_SHORT);
    CHECK(answers(listing + TOGMELIC_SHORT_LINE, SHORT_BYTES - TOGMELIC_SHORT_LINE, used + 9, records, count, 0, 0));
    CHECK(loads(listing + TOGMELIC_SHORT_LINE, SHORT_BYTES - TOGMELIC_SHORT_LINE, used - 1, 18, 0));
}

/* The program: from 0, with low and high 0, first and once; its children are functions and type items, which stand nowhere else. */
static void test_loading_files(void)
{
    static const uint32_t empty[TOGMELIC_RECORD_WORDS] = {TOGMELIC_PROGRAM, 0, 0, 0, 0, 1, 0};
    static const uint32_t longest[TOGMELIC_RECORD_WORDS] = {TOGMELIC_PROGRAM, 0, 65535, 0, 0, 1, 0};
    CHECK(loads_changed(1, 6, '1', 17, 0));
    CHECK(loads_changed(1, 20, '1', 17, 0));
    CHECK(loads_changed(1, 29, '1', 17, 0));
    CHECK(loads_changed(1, 1, 'A', 17, 0));
    CHECK(loads_changed(2, 1, '2', 17, 0));
    CHECK(loads_changed(1, 34, '9', 17, 0));
    CHECK(loads(EXAMPLE_LINES + 2 * TOGMELIC_LINE, EXAMPLE_BYTES - 2 * TOGMELIC_LINE, EXAMPLE_WORDS, 17, 0));
    /* Empty, with any end, and one record long. */
    CHECK(answers(EMPTY_LINE, TOGMELIC_LINE, TOGMELIC_RECORD_WORDS, empty, 1, 0, 0));
    CHECK(answers("29 0000 0000 00000000 00000000 0001\n", TOGMELIC_SHORT_LINE, TOGMELIC_RECORD_WORDS, empty, 1, 0, 0));
    CHECK(answers("29 0000 FFFF 00000000 00000000 0001 0000\n", TOGMELIC_LINE, TOGMELIC_RECORD_WORDS, longest, 1, 0, 0));
    CHECK(loads(EMPTY_LINE, TOGMELIC_LINE, TOGMELIC_RECORD_WORDS - 1, 18, 0));
    CHECK(loads("29 0001 0002 00000000 00000000 0001 0000\n", TOGMELIC_LINE, TOGMELIC_RECORD_WORDS, 17, 0));
    CHECK(loads("2A 0000 0001 00000000 00000000 0001 0000\n", TOGMELIC_LINE, TOGMELIC_RECORD_WORDS, 17, 0));
}

/* Every byte in every column of a line: only upper-case digits, and spaces and LF where they stand, are in form. */
static void test_bytes_of_a_line(void)
{
    static const char form[] = "hh hhhh hhhh hhhhhhhh hhhhhhhh hhhh hhhh\n";
    size_t column;
    int byte;
    for (column = 0; column < TOGMELIC_LINE; column++) {
        for (byte = 0; byte < 256; byte++) {
            int digit = byte != 0 && strchr("0123456789ABCDEF", byte) != NULL;
            int bad = form[column] == 'h' ? !digit : byte != form[column];
            /* LF in place of the last space makes the first line one of 36 bytes, and then the second is bad. */
            int shorter = column == TOGMELIC_SHORT_LINE - 1 && byte == '\n';
            CHECK(loads_changed(6, column, byte, 16, 6) == bad);
            CHECK(loads_changed(1, column, byte, 16, shorter ? 2 : 1) == bad);
        }
    }
}

int main(void)
{
    test_loading();
    test_forms();
    test_long_lines();
    test_ways_up();
    test_loading_functions();
    test_loading_files();
    test_bytes_of_a_line();
    return finish("load");
}
