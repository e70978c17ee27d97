/* Calls togmelic_list. Every expected line is written out from documents 01 and 02, and from RFC 3629. */
#include "check.h"

/* The buffer that is lent, and bytes behind it that no call may touch. */
static unsigned char out[TOGMELIC_MOST_BYTES + GUARD];

/* Whether so many bytes from a place on all have this value. */
static int all(size_t from, size_t to, int value)
{
    size_t at;
    for (at = from; at < to; at++) {
        if (out[at] != value) {
            return 0;
        }
    }
    return 1;
}

/* Whether the draft gets exactly these lines in a buffer of out_length bytes, prefilled; "" where they must not fit. */
static int lists(const char *draft, size_t draft_length, size_t out_length, const char *lines)
{
    size_t used = strlen(lines);
    memset(out, FILL, sizeof out);
    return togmelic_list((const unsigned char *)draft, draft_length, out, out_length) == used
        && memcmp(out, lines, used) == 0
        && all(used, out_length, 0)
        && all(out_length, out_length + GUARD, FILL);
}

/* The same for a draft that is a C string, in a buffer that is enough for every draft. */
static int listed(const char *draft, const char *lines)
{
    return lists(draft, strlen(draft), TOGMELIC_MOST_BYTES, lines);
}

static void test_constants(void)
{
    CHECK(TOGMELIC_LINE == 41 && TOGMELIC_SHORT_LINE == 36);
    CHECK(TOGMELIC_MOST_LINES == 2049);
    CHECK(TOGMELIC_MOST_BYTES == 84009);
    CHECK(TOGMELIC_RECORD_WORDS == 7 && TOGMELIC_UP == 6);
    CHECK(sizeof(struct togmelic_refusal) == 2 * sizeof(size_t));
    CHECK(strlen(EXAMPLE_LINES) == EXAMPLE_BYTES);
    CHECK(strlen(REFUSED_LINE) == TOGMELIC_LINE);
}

/* The rows of document 01, "Records and the marks they own"; 41 and 42: document 02, order 3. */
static void test_kinds(void)
{
    CHECK(TOGMELIC_FUNCTION == 1 && TOGMELIC_NAME == 2 && TOGMELIC_PARAMETER == 3);
    CHECK(TOGMELIC_ALIAS == 4 && TOGMELIC_BUILTIN == 5 && TOGMELIC_BOOL_TYPE == 6 && TOGMELIC_UNSIGNED == 7);
    CHECK(TOGMELIC_EITHER_TYPE == 8 && TOGMELIC_OPTION_TYPE == 9 && TOGMELIC_TUPLE_TYPE == 10);
    CHECK(TOGMELIC_ARRAY_TYPE == 11 && TOGMELIC_LIST_TYPE == 12);
    CHECK(TOGMELIC_IDENTIFIER_PATTERN == 13 && TOGMELIC_IGNORE_PATTERN == 14);
    CHECK(TOGMELIC_TUPLE_PATTERN == 15 && TOGMELIC_ARRAY_PATTERN == 16);
    CHECK(TOGMELIC_LET == 17 && TOGMELIC_BLOCK == 18);
    CHECK(TOGMELIC_LEFT == 19 && TOGMELIC_RIGHT == 20 && TOGMELIC_SOME == 21 && TOGMELIC_NONE == 22);
    CHECK(TOGMELIC_BOOLEAN == 23 && TOGMELIC_DECIMAL == 24 && TOGMELIC_HEXADECIMAL == 25 && TOGMELIC_BINARY == 26);
    CHECK(TOGMELIC_WITNESS == 27 && TOGMELIC_PARAMETER_VALUE == 28 && TOGMELIC_VARIABLE == 29);
    CHECK(TOGMELIC_PARENTHESISED == 30 && TOGMELIC_TUPLE == 31 && TOGMELIC_ARRAY == 32 && TOGMELIC_LIST == 33);
    CHECK(TOGMELIC_ENUM_CONSTRUCTION == 34 && TOGMELIC_MATCH == 35 && TOGMELIC_ENUM_MATCH == 36);
    CHECK(TOGMELIC_BUILTIN_ARM == 37 && TOGMELIC_ENUM_ARM == 38);
    CHECK(TOGMELIC_CALL == 39 && TOGMELIC_NUMBER == 40 && TOGMELIC_PROGRAM == 41 && TOGMELIC_TYPE_ITEM == 42);
}

/* What low says: "low 1-14 in `CallName` order", "low 1-6: Left, Right, None, Some, False, True", "low 0-23 in `BuiltinAlias` order". */
static void test_lows(void)
{
    CHECK(TOGMELIC_CALL_JET == 1 && TOGMELIC_CALL_UNWRAP_LEFT == 2 && TOGMELIC_CALL_UNWRAP_RIGHT == 3);
    CHECK(TOGMELIC_CALL_UNWRAP == 4 && TOGMELIC_CALL_IS_NONE == 5);
    CHECK(TOGMELIC_CALL_ASSERT == 6 && TOGMELIC_CALL_PANIC == 7 && TOGMELIC_CALL_DEBUG == 8);
    CHECK(TOGMELIC_CALL_TYPE_CAST == 9 && TOGMELIC_CALL_CUSTOM == 10);
    CHECK(TOGMELIC_CALL_FOLD == 11 && TOGMELIC_CALL_ARRAY_FOLD == 12 && TOGMELIC_CALL_FOR_WHILE == 13 && TOGMELIC_CALL_RAW_HASH == 14);
    CHECK(TOGMELIC_ARM_LEFT == 1 && TOGMELIC_ARM_RIGHT == 2 && TOGMELIC_ARM_NONE == 3);
    CHECK(TOGMELIC_ARM_SOME == 4 && TOGMELIC_ARM_FALSE == 5 && TOGMELIC_ARM_TRUE == 6);
    CHECK(TOGMELIC_BUILTIN_CTX8 == 0 && TOGMELIC_BUILTIN_PUBKEY == 1 && TOGMELIC_BUILTIN_MESSAGE == 2);
    CHECK(TOGMELIC_BUILTIN_MESSAGE64 == 3 && TOGMELIC_BUILTIN_SIGNATURE == 4 && TOGMELIC_BUILTIN_SCALAR == 5);
    CHECK(TOGMELIC_BUILTIN_FE == 6 && TOGMELIC_BUILTIN_GE == 7 && TOGMELIC_BUILTIN_GEJ == 8);
    CHECK(TOGMELIC_BUILTIN_POINT == 9 && TOGMELIC_BUILTIN_HEIGHT == 10 && TOGMELIC_BUILTIN_TIME == 11);
    CHECK(TOGMELIC_BUILTIN_DISTANCE == 12 && TOGMELIC_BUILTIN_DURATION == 13 && TOGMELIC_BUILTIN_LOCK == 14);
    CHECK(TOGMELIC_BUILTIN_OUTPOINT == 15 && TOGMELIC_BUILTIN_CONFIDENTIAL1 == 16 && TOGMELIC_BUILTIN_EXPLICIT_ASSET == 17);
    CHECK(TOGMELIC_BUILTIN_ASSET1 == 18 && TOGMELIC_BUILTIN_EXPLICIT_AMOUNT == 19 && TOGMELIC_BUILTIN_AMOUNT1 == 20);
    CHECK(TOGMELIC_BUILTIN_EXPLICIT_NONCE == 21 && TOGMELIC_BUILTIN_NONCE == 22 && TOGMELIC_BUILTIN_TOKEN_AMOUNT1 == 23);
}

static void test_answers(void)
{
    CHECK(listed(EXAMPLE, EXAMPLE_LINES));
    CHECK(listed(REFUSED, REFUSED_LINE));
    CHECK(listed("", EMPTY_LINE));
    CHECK(lists(NULL, 0, TOGMELIC_MOST_BYTES, EMPTY_LINE));
    CHECK(lists(NULL, 0, TOGMELIC_LINE, EMPTY_LINE));
    CHECK(lists(NULL, 0, TOGMELIC_LINE - 1, ""));
    /* Nothing is kept from one call to the next. */
    CHECK(listed(EXAMPLE, EXAMPLE_LINES));
    /* Only the bytes that are lent are read: the first six are the head, which the end cuts off. */
    CHECK(lists(EXAMPLE, 6, TOGMELIC_MOST_BYTES, "00 0006 0006 00000008 00000000 0001 0000\n"));
    /* A draft may hold a zero byte, which starts no lexeme. */
    CHECK(lists("fn\0f(){}", 8, TOGMELIC_MOST_BYTES, "00 0002 0002 00000003 00000000 0001 0000\n"));
}

static void test_lengths_of_out(void)
{
    size_t length;
    for (length = 0; length < EXAMPLE_BYTES; length++) {
        CHECK(lists(EXAMPLE, strlen(EXAMPLE), length, ""));
    }
    for (length = EXAMPLE_BYTES; length <= EXAMPLE_BYTES + TOGMELIC_LINE + 1; length++) {
        CHECK(lists(EXAMPLE, strlen(EXAMPLE), length, EXAMPLE_LINES));
    }
    CHECK(lists(REFUSED, strlen(REFUSED), 0, ""));
    CHECK(lists(REFUSED, strlen(REFUSED), TOGMELIC_LINE - 1, ""));
    CHECK(lists(REFUSED, strlen(REFUSED), TOGMELIC_LINE, REFUSED_LINE));
    CHECK(lists(REFUSED, strlen(REFUSED), TOGMELIC_LINE + 1, REFUSED_LINE));
    CHECK(togmelic_list((const unsigned char *)EXAMPLE, strlen(EXAMPLE), NULL, 0) == 0);
}

/* The line of a draft that is this byte alone. */
static const char *line_of_byte(int byte)
{
    static const char in_tokens[] = "abcdefghijklmnopqrstuvwxyzABCDEFGHIJKLMNOPQRSTUVWXYZ_0123456789=:;,()[]{}<>";
    if (byte > 127) {
        return "00 0000 0000 00000002 00000000 0001 0000\n";
    }
    if ((byte >= 9 && byte <= 13) || byte == 32) {
        /* Whitespace: a file without items, of one byte. */
        return "29 0000 0001 00000000 00000000 0001 0000\n";
    }
    if (byte != 0 && strchr(in_tokens, byte) != NULL) {
        /* A token, but an item begins with `pub`, `fn` or `type`. */
        return "00 0000 0000 00000008 00000000 0001 0000\n";
    }
    return "00 0000 0000 00000003 00000000 0001 0000\n";
}

static void test_every_byte(void)
{
    int byte;
    for (byte = 0; byte < 256; byte++) {
        char draft = (char)byte;
        CHECK(lists(&draft, 1, TOGMELIC_MOST_BYTES, line_of_byte(byte)));
    }
}

/* The longest draft that is read has 16,384 bytes, here the smallest function with spaces in its block. */
static void test_long_drafts(void)
{
    static char draft[16385];
    memset(draft, ' ', sizeof draft);
    CHECK(lists(draft, 16384, TOGMELIC_MOST_BYTES, "29 0000 4000 00000000 00000000 0001 0000\n"));
    CHECK(lists(draft, 16385, TOGMELIC_MOST_BYTES, "00 4000 4000 00000001 00000000 0001 0000\n"));
    memcpy(draft, "fn f(){", 7);
    draft[16383] = '}';
    CHECK(lists(draft, 16384, TOGMELIC_MOST_BYTES,
                "29 0000 4000 00000000 00000000 0004 0000\n"
                "01 0000 4000 00000000 00000000 0003 0001\n"
                "02 0003 0004 00000000 00000000 0001 0001\n"
                "12 0006 4000 00000000 00000000 0001 0002\n"));
    CHECK(lists(draft, 16385, TOGMELIC_MOST_BYTES, "00 4000 4000 00000001 00000000 0001 0000\n"));
}

/*
 * Document 02, order 2: 19 where an array type's length is over the largest 64-bit number, at the number, and of 9 to 14 and 19 the earliest place.
 * The largest number itself is in both halves of the type's line.
 */
static void test_lengths_of_arrays(void)
{
    CHECK(listed("fn f()->[b;18446744073709551615]{}",
                 "29 0000 0022 00000000 00000000 0006 0000\n"
                 "01 0000 0022 00000002 00000000 0005 0001\n"
                 "02 0003 0004 00000000 00000000 0001 0001\n"
                 "0B 0008 0020 FFFFFFFF FFFFFFFF 0002 0002\n"
                 "04 0009 000A 00000000 00000000 0001 0001\n"
                 "12 0020 0022 00000000 00000000 0001 0004\n"));
    CHECK(listed("fn f()->[b;00]{}",
                 "29 0000 0010 00000000 00000000 0006 0000\n"
                 "01 0000 0010 00000002 00000000 0005 0001\n"
                 "02 0003 0004 00000000 00000000 0001 0001\n"
                 "0B 0008 000E 00000000 00000000 0002 0002\n"
                 "04 0009 000A 00000000 00000000 0001 0001\n"
                 "12 000E 0010 00000000 00000000 0001 0004\n"));
    CHECK(listed("fn f()->[b;18446744073709551616]{}", "00 000B 000B 00000013 00000000 0001 0000\n"));
    CHECK(listed("fn f()->[b;100000000000000000000]{}", "00 000B 000B 00000013 00000000 0001 0000\n"));
    CHECK(listed("fn f()->[b;0_18446744073709551616_]{}", "00 000B 000B 00000013 00000000 0001 0000\n"));
    /* Before 9 and after it, beneath a match without arms, and in a draft that is cut off. */
    CHECK(listed("fn f()->List<[b;18446744073709551616],3>{}", "00 0010 0010 00000013 00000000 0001 0000\n"));
    CHECK(listed("fn f()->[List<b,3>;18446744073709551616]{}", "00 0010 0010 00000009 00000000 0001 0000\n"));
    CHECK(listed("fn f(){match <[b;18446744073709551616]>::into(){}}", "00 0007 0007 0000000B 00000000 0001 0000\n"));
    CHECK(listed("fn f()->[b;18446744073709551616]{", "00 0021 0021 00000008 00000000 0001 0000\n"));
    /* A bound and a size that are too large keep their own numbers. */
    CHECK(listed("fn f()->List<b,18446744073709551616>{}", "00 000F 000F 00000009 00000000 0001 0000\n"));
    CHECK(listed("fn f(){array_fold::<g,18446744073709551616>()}", "00 0016 0016 0000000A 00000000 0001 0000\n"));
}

/*
 * Document 02, order 3: any number of functions and of `type` items below a program, whose place is the whole draft. A type's own name is not one of
 * ALIAS_RESERVED; 8 speaks of files.
 */
static void test_files(void)
{
    CHECK(listed("type A=u8; fn f(){}\n",
                 "29 0000 0014 00000000 00000000 0007 0000\n"
                 "2A 0000 000A 00000000 00000000 0003 0001\n"
                 "02 0005 0006 00000000 00000000 0001 0001\n"
                 "07 0007 0009 00000008 00000000 0001 0002\n"
                 "01 000B 0013 00000000 00000000 0003 0004\n"
                 "02 000E 000F 00000000 00000000 0001 0001\n"
                 "12 0011 0013 00000000 00000000 0001 0002\n"));
    CHECK(listed("//a\nfn f(){}pub fn f(){}",
                 "29 0000 0018 00000000 00000000 0007 0000\n"
                 "01 0004 000C 00000000 00000000 0003 0001\n"
                 "02 0007 0008 00000000 00000000 0001 0001\n"
                 "12 000A 000C 00000000 00000000 0001 0002\n"
                 "01 000C 0018 00000001 00000000 0003 0004\n"
                 "02 0013 0014 00000000 00000000 0001 0001\n"
                 "12 0016 0018 00000000 00000000 0001 0002\n"));
    CHECK(listed("// no item\n", "29 0000 000B 00000000 00000000 0001 0000\n"));
    /* Only `pub fn`; a type has its name, `=`, a type and `;`; nothing stands behind a function. */
    CHECK(listed("pub type A=u8;", "00 0004 0004 00000008 00000000 0001 0000\n"));
    CHECK(listed("type A=u8", "00 0009 0009 00000008 00000000 0001 0000\n"));
    CHECK(listed("type A u8;", "00 0007 0007 00000008 00000000 0001 0000\n"));
    CHECK(listed("type=u8;", "00 0004 0004 00000008 00000000 0001 0000\n"));
    CHECK(listed("fn f(){};", "00 0008 0008 00000008 00000000 0001 0000\n"));
    CHECK(listed("type u8=A;", "00 0005 0005 00000008 00000000 0001 0000\n"));
    CHECK(listed("type List=A;", "00 0005 0005 00000008 00000000 0001 0000\n"));
    CHECK(listed("fn f(){}type Pubkey=A;", "00 000D 000D 00000008 00000000 0001 0000\n"));
    /* The numbers of types, and the earliest place over all items. */
    CHECK(listed("type A=List<u8,3>;", "00 000F 000F 00000009 00000000 0001 0000\n"));
    CHECK(listed("type A=[u8;18446744073709551616];", "00 000B 000B 00000013 00000000 0001 0000\n"));
    CHECK(listed("fn f(){match x{}}type A=List<u8,3>;", "00 0007 0007 0000000B 00000000 0001 0000\n"));
}

/* Sequences at the bounds of RFC 3629, section 4: its ABNF has them, or it has not. */
static const struct {
    const char *bytes;
    int well_formed;
} SEQUENCES[] = {
    {"\xC1\xBF", 0}, {"\xC2\x7F", 0}, {"\xC2\x80", 1}, {"\xC2\xC0", 0}, {"\xDF\xBF", 1},
    {"\xE0\x9F\xBF", 0}, {"\xE0\xA0\x80", 1}, {"\xEC\xBF\xBF", 1}, {"\xED\x9F\xBF", 1}, {"\xED\xA0\x80", 0},
    {"\xED\xBF\xBF", 0}, {"\xEE\x80\x80", 1}, {"\xEF\xBB\xBF", 1}, {"\xEF\xBF\xBF", 1}, {"\xEF\xBF\x7F", 0},
    {"\xF0\x8F\xBF\xBF", 0}, {"\xF0\x90\x80\x80", 1}, {"\xF3\xBF\xBF\xBF", 1}, {"\xF4\x8F\xBF\xBF", 1},
    {"\xF4\x90\x80\x80", 0}, {"\xF5\x80\x80\x80", 0}, {"\xFE", 0}, {"\xFF", 0},
    /* cut off */
    {"\xC2", 0}, {"\xE0\xA0", 0}, {"\xF0\x90\x80", 0}, {"\xF4\x8F", 0},
};

/* Whether two bytes in front, a sequence and some behind are a draft of comments alone, or refused with 21 at the sequence. */
static int judged(const char *before, const char *bytes, const char *behind, int well_formed)
{
    char draft[16], line[TOGMELIC_LINE + 1];
    sprintf(draft, "%s%s%s", before, bytes, behind);
    sprintf(line, well_formed ? "29 0000 %04X 00000000 00000000 0001 0000\n" : "00 0002 0002 00000015 00000000 0001 0000\n", (unsigned)strlen(draft));
    return listed(draft, line);
}

/*
 * Document 02, order 6: comments hold any well-formed UTF-8, and places count bytes. 21 at the first byte of a sequence in a comment that is not; 2 for
 * bytes over 127 outside comments. Of 2 to 5 and 21 the earliest place.
 */
static void test_comments(void)
{
    size_t at;
    int byte;
    CHECK(listed("/*\xCE\xB1*/fn f(){}",
                 "29 0000 000E 00000000 00000000 0004 0000\n"
                 "01 0006 000E 00000000 00000000 0003 0001\n"
                 "02 0009 000A 00000000 00000000 0001 0001\n"
                 "12 000C 000E 00000000 00000000 0001 0002\n"));
    CHECK(listed("fn/*\xC5\x82*/f(){}//\xCE\xB1",
                 "29 0000 0011 00000000 00000000 0004 0000\n"
                 "01 0000 000D 00000000 00000000 0003 0001\n"
                 "02 0008 0009 00000000 00000000 0001 0001\n"
                 "12 000B 000D 00000000 00000000 0001 0002\n"));
    CHECK(listed("//\x80", "00 0002 0002 00000015 00000000 0001 0000\n"));
    CHECK(listed("fn \xCE\xB1(){}", "00 0003 0003 00000002 00000000 0001 0000\n"));
    CHECK(listed("//\xCE\xB1\n\x80", "00 0005 0005 00000002 00000000 0001 0000\n"));
    CHECK(listed("/*\xCE\xB1*/\xCE\xB1", "00 0006 0006 00000002 00000000 0001 0000\n"));
    /* A byte order mark before the draft, and in a comment. */
    CHECK(listed("\xEF\xBB\xBF//", "00 0000 0000 00000002 00000000 0001 0000\n"));
    CHECK(listed("//\xEF\xBB\xBF", "29 0000 0005 00000000 00000000 0001 0000\n"));
    /* `//` goes on behind NEL, LS, PS, VT and FF: `#` starts no lexeme. It ends before CR and LF. */
    CHECK(listed("//\xC2\x85#", "29 0000 0005 00000000 00000000 0001 0000\n"));
    CHECK(listed("//\xE2\x80\xA8#", "29 0000 0006 00000000 00000000 0001 0000\n"));
    CHECK(listed("//\xE2\x80\xA9#", "29 0000 0006 00000000 00000000 0001 0000\n"));
    CHECK(listed("//\x0B#\x0C#", "29 0000 0006 00000000 00000000 0001 0000\n"));
    CHECK(listed("//\xCE\xB1\r#", "00 0005 0005 00000003 00000000 0001 0000\n"));
    CHECK(listed("//\xCE\xB1\n#", "00 0005 0005 00000003 00000000 0001 0000\n"));
    /* The first byte of the sequence, not the one that is wrong in it; sequences from the comment's start. */
    CHECK(listed("//\xCE\xB1\xCE", "00 0004 0004 00000015 00000000 0001 0000\n"));
    CHECK(listed("//\xE2\x80\xCE\xB1", "00 0002 0002 00000015 00000000 0001 0000\n"));
    CHECK(listed("/*\xCE\xB1\xB1*/", "00 0004 0004 00000015 00000000 0001 0000\n"));
    CHECK(listed("//\xCE\n\xB1", "00 0002 0002 00000015 00000000 0001 0000\n"));
    CHECK(listed("//\xCE\r", "00 0002 0002 00000015 00000000 0001 0000\n"));
    /* Comments inside one another, and one that is never closed: its opening is the earlier place. */
    CHECK(listed("/*/*\xCE\xB1*/\xCE*/", "00 0008 0008 00000015 00000000 0001 0000\n"));
    CHECK(listed("/*\x80", "00 0000 0000 00000004 00000000 0001 0000\n"));
    CHECK(listed("/*\xCE\xB1/*\x80*/", "00 0000 0000 00000004 00000000 0001 0000\n"));
    CHECK(listed("/*\x80*//*", "00 0002 0002 00000015 00000000 0001 0000\n"));
    /* Among 2 to 5 by earliest place, and before 8. */
    CHECK(listed("#//\x80", "00 0000 0000 00000003 00000000 0001 0000\n"));
    CHECK(listed("//\x80\n#", "00 0002 0002 00000015 00000000 0001 0000\n"));
    CHECK(listed("simc//\x80", "00 0000 0000 00000005 00000000 0001 0000\n"));
    CHECK(listed("//\x80\nsimc", "00 0002 0002 00000015 00000000 0001 0000\n"));
    CHECK(listed("\x80//\x80", "00 0000 0000 00000002 00000000 0001 0000\n"));
    CHECK(listed("//\x80\n\x80", "00 0002 0002 00000015 00000000 0001 0000\n"));
    CHECK(listed(";//\x80", "00 0003 0003 00000015 00000000 0001 0000\n"));
    /* A zero byte is a character of a comment. */
    CHECK(lists("//\0\xCE\xB1", 5, TOGMELIC_MOST_BYTES, "29 0000 0005 00000000 00000000 0001 0000\n"));
    CHECK(lists("//\0\xB1", 4, TOGMELIC_MOST_BYTES, "00 0003 0003 00000015 00000000 0001 0000\n"));
    for (at = 0; at < sizeof SEQUENCES / sizeof *SEQUENCES; at++) {
        const char *bytes = SEQUENCES[at].bytes;
        int well_formed = SEQUENCES[at].well_formed;
        CHECK(judged("//", bytes, "", well_formed));
        CHECK(judged("//", bytes, "a", well_formed));
        CHECK(judged("//", bytes, "\n", well_formed));
        CHECK(judged("//", bytes, "\r\n", well_formed));
        CHECK(judged("/*", bytes, "*/", well_formed));
        CHECK(judged("/*", bytes, "a\n*/", well_formed));
    }
    /* One byte: ASCII is free, and none over 127 is a sequence. A slash behind the opening begins another comment with the star behind it. */
    for (byte = 1; byte < 256; byte++) {
        char bytes[2] = {(char)byte, '\0'};
        CHECK(judged("//", bytes, "", byte < 128));
        CHECK(byte == '/' || judged("/*", bytes, "*/", byte < 128));
    }
}

/* A function of 2,046 tokens and 1,533 records, with the program's line in front, in a buffer that just holds them. */
static void test_many_lines(void)
{
    static char draft[2048];
    size_t at, used = 1534 * TOGMELIC_LINE;
    memcpy(draft, "fn f(", 5);
    for (at = 0; at < 510; at++) {
        memcpy(draft + 5 + 4 * at, "a:b,", 4);
    }
    memcpy(draft + 2045, "){}", 3);
    CHECK(togmelic_list((const unsigned char *)draft, sizeof draft, out, used) == used);
    CHECK(memcmp(out, "29 0000 0800 00000000 00000000 05FE 0000\n01 0000 0800 00000000 000001FE 05FD 0001\n", 2 * TOGMELIC_LINE) == 0);
    CHECK(memcmp(out + used - TOGMELIC_LINE, "12 07FE 0800 00000000 00000000 0001 05FC\n", TOGMELIC_LINE) == 0);
    CHECK(lists(draft, sizeof draft, used - 1, ""));
}

int main(void)
{
    test_constants();
    test_kinds();
    test_lows();
    test_answers();
    test_lengths_of_out();
    test_every_byte();
    test_long_drafts();
    test_lengths_of_arrays();
    test_files();
    test_comments();
    test_many_lines();
    return finish("list");
}
