/*
 * How many bytes of stack a call takes for the draft on standard input, and the first line that it writes: of togmelic_list, or with the argument `large` of
 * togmelic_list_large, with `lean` of togmelic_list_lean. It is called in a thread whose stack was filled before, and what was written over is counted.
 */
#define _POSIX_C_SOURCE 200809L

#include <pthread.h>
#include <stdio.h>
#include <stdlib.h>
#include <string.h>

#include "togmelic.h"

#define STACK (1 << 20)
#define FILL 0xA5

/* No draft is longer; of a longer one nothing more need be read. The buffers are enough for every draft, at each entry. */
static unsigned char draft[TOGMELIC_LARGE_DRAFT + 1];
static uint32_t tokens[TOGMELIC_LARGE_TOKEN_WORDS];
static uint32_t tree[TOGMELIC_LARGE_TREE_WORDS];
static unsigned char lines[TOGMELIC_LARGE_BYTES];
static size_t length;
static const unsigned char *top;

static void *list(void *unused)
{
    unsigned char here = FILL;

    top = &here;
    togmelic_list(draft, length, lines, TOGMELIC_MOST_BYTES);
    return unused;
}

static void *list_large(void *unused)
{
    unsigned char here = FILL;

    top = &here;
    togmelic_list_large(draft, length, tokens, TOGMELIC_LARGE_TOKEN_WORDS, tree, TOGMELIC_LARGE_TREE_WORDS, lines, sizeof lines);
    return unused;
}

static void *list_lean(void *unused)
{
    unsigned char here = FILL;

    top = &here;
    togmelic_list_lean(draft, length, tokens, TOGMELIC_LARGE_START_WORDS, tree, TOGMELIC_LARGE_TREE_WORDS, lines, sizeof lines);
    return unused;
}

int main(int argc, char **argv)
{
    const char *entry = argc > 1 ? argv[1] : "";
    void *(*called)(void *) = strcmp(entry, "large") == 0 ? list_large : strcmp(entry, "lean") == 0 ? list_lean : list;
    unsigned char *stack = NULL;
    const unsigned char *low;
    pthread_attr_t attributes;
    pthread_t thread;

    length = fread(draft, 1, sizeof draft, stdin);
    if (posix_memalign((void **)&stack, 4096, STACK) != 0)
        return 2;
    memset(stack, FILL, STACK);
    if (pthread_attr_init(&attributes) != 0 || pthread_attr_setstack(&attributes, stack, STACK) != 0 ||
        pthread_create(&thread, &attributes, called, NULL) != 0 || pthread_join(thread, NULL) != 0)
        return 2;
    for (low = stack; *low == FILL; low++)
        ;
    printf("%zu %.48s\n", (size_t)(top - low), (const char *)lines);
    free(stack);
    return 0;
}
