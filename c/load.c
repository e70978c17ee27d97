/*
 * Loads the listing on standard input and writes its records, seven decimal numbers a line, or its refusal. An argument is the number of words of the
 * buffer that is lent; without it there is room for every line. The status is 1 where the listing is refused, and 2, with a line on standard error,
 * where there is no answer: the argument is no number, there is not enough memory, or a read or a write failed.
 * An example of togmelic_load, and the program of the tests of docs/REFUSALS.md. docs/KINDS.md says what the numbers of a record mean. The listing and
 * the words have memory of their own: buffers that overlap are never lent.
 */
#include <errno.h>
#include <stdio.h>
#include <stdlib.h>

#include "togmelic.h"

static int failed(const char *what)
{
    fprintf(stderr, "load: %s\n", what);
    return 2;
}

/* Whether a text is a number in decimal digits that a size_t holds, and which. */
static int is_number(const char *text, size_t *number)
{
    char *end;
    errno = 0;
    *number = strtoul(text, &end, 10);
    /* strtoul also takes spaces and a sign before the digits, and -1 as the largest number. */
    return text[0] >= '0' && text[0] <= '9' && *end == '\0' && errno == 0;
}

/* All of standard input; NULL where there is no memory for it. A read that fails ends it too: ask ferror. */
static unsigned char *read_all(size_t *length)
{
    size_t room = 65536, got;
    unsigned char *bytes = malloc(room), *more;
    *length = 0;
    while (bytes != NULL && (got = fread(bytes + *length, 1, room - *length, stdin)) > 0) {
        *length += got;
        if (*length == room) {
            room *= 2;
            more = realloc(bytes, room);
            if (more == NULL) {
                free(bytes);
            }
            bytes = more;
        }
    }
    return bytes;
}

static void write_answer(size_t count, const uint32_t *words, const struct togmelic_refusal *refusal)
{
    size_t at;
    if (count == 0) {
        printf("refused with %lu at line %lu\n", (unsigned long)refusal->number, (unsigned long)refusal->line);
        return;
    }
    printf("%lu records\n", (unsigned long)count);
    for (at = 0; at < count * TOGMELIC_RECORD_WORDS; at++) {
        printf("%lu%c", (unsigned long)words[at], at % TOGMELIC_RECORD_WORDS == TOGMELIC_RECORD_WORDS - 1 ? '\n' : ' ');
    }
}

int main(int argc, char **argv)
{
    struct togmelic_refusal refusal;
    size_t length, words_length, count;
    unsigned char *listing;
    uint32_t *words;
    if (argc > 1 && !is_number(argv[1], &words_length)) {
        return failed("the argument is no number of words");
    }
    listing = read_all(&length);
    if (listing == NULL) {
        return failed("out of memory");
    }
    if (ferror(stdin)) {
        free(listing);
        return failed("reading failed");
    }
    if (argc <= 1) {
        /* Lines may be of any of the three forms, and of the shortest there are most. */
        words_length = length / TOGMELIC_SHORT_LINE * TOGMELIC_RECORD_WORDS;
    }
    /* calloc, since it sees where the bytes are more than a size_t holds; and never 0 words, for which it may give NULL. */
    words = calloc(words_length > 0 ? words_length : 1, sizeof *words);
    if (words == NULL) {
        free(listing);
        return failed("out of memory");
    }
    count = togmelic_load(listing, length, words, words_length, &refusal);
    write_answer(count, words, &refusal);
    free(words);
    free(listing);
    if (fflush(stdout) != 0 || ferror(stdout)) {
        return failed("writing failed");
    }
    return count == 0;
}
