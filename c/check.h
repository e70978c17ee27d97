/* What the tests of the entries for C share: checks that are counted, and the lines of drafts with known results. */
#ifndef CHECK_H
#define CHECK_H

#include <stdio.h>
#include <string.h>

#include "togmelic.h"

static int checks, failures;

#define CHECK(condition) check((condition), #condition, __FILE__, __LINE__)

static void check(int holds, const char *condition, const char *file, int line)
{
    checks++;
    if (!holds) {
        failures++;
        fprintf(stderr, "%s:%d: failed: %s\n", file, line, condition);
    }
}

/* Writes how many checks passed or failed, and answers the status. */
static int finish(const char *name)
{
    if (failures > 0) {
        fprintf(stderr, "c: %s: %d of %d checks failed\n", name, failures, checks);
        return 1;
    }
    printf("c: %s: %d checks passed\n", name, checks);
    return 0;
}

/* Units behind a lent buffer that no call may touch, and what each of its bytes is before. */
enum { GUARD = 64, FILL = 0xAA };

/* The example of document 01, its lines, */
static const char EXAMPLE[] = "fn f(){match b{true=>1,false=>2,}}";
static const char EXAMPLE_LINES[] =
    "29 0000 0022 00000000 00000000 000A 0000\n"
    "01 0000 0022 00000000 00000000 0009 0001\n"
    "02 0003 0004 00000000 00000000 0001 0001\n"
    "12 0006 0022 00000001 00000000 0007 0002\n"
    "23 0007 0021 00000000 00000000 0006 0001\n"
    "1D 000D 000E 00000000 00000000 0001 0001\n"
    "25 0017 0020 00000005 00000000 0002 0002\n"
    "18 001E 001F 00000000 00000000 0001 0001\n"
    "25 000F 0017 00000006 00000000 0002 0004\n"
    "18 0015 0016 00000000 00000000 0001 0001\n";
enum { EXAMPLE_COUNT = 10, EXAMPLE_BYTES = EXAMPLE_COUNT * TOGMELIC_LINE, SHORT_BYTES = EXAMPLE_COUNT * TOGMELIC_SHORT_LINE };
/* and its records: seven words for each of its lines. */
enum { EXAMPLE_WORDS = EXAMPLE_COUNT * TOGMELIC_RECORD_WORDS };
static const uint32_t EXAMPLE_RECORDS[EXAMPLE_WORDS] = {
    41, 0, 34, 0, 0, 10, 0, /* program */
    1, 0, 34, 0, 0, 9, 1, /* function */
    2, 3, 4, 0, 0, 1, 1, /* name */
    18, 6, 34, 1, 0, 7, 2, /* block */
    35, 7, 33, 0, 0, 6, 1, /* match */
    29, 13, 14, 0, 0, 1, 1, /* variable */
    37, 23, 32, 5, 0, 2, 2, 24, 30, 31, 0, 0, 1, 1, /* arm, decimal */
    37, 15, 23, 6, 0, 2, 4, 24, 21, 22, 0, 0, 1, 1, /* arm, decimal */
};
/* Document 01: `fold(x)` in braces after the head is refused with 8 at 11. Document 02, order 3: an empty file is accepted. */
static const char REFUSED[] = "fn f(){fold(x)}";
static const char REFUSED_LINE[] = "00 000B 000B 00000008 00000000 0001 0000\n";
static const char EMPTY_LINE[] = "29 0000 0000 00000000 00000000 0001 0000\n";

#endif
