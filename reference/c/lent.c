#define _DEFAULT_SOURCE
#include "lent.h"
#include "random.h"
#include <stdio.h>
#include <stdlib.h>
#include <string.h>
#include <sys/mman.h>

/* Rooms for slices with guards between them. An index of 16 bits, even into rows of 16 entries of 4
   bytes, does not reach over a guard. */
enum { ROOMS = 11, ROOM = 20 * 4096, GUARD = 8 << 20 };

static unsigned char *memory; /* a guard, then each room with a guard after it */
static unsigned char pattern[2 * ROOM];
static enum placing placing;
static struct lent lent[ROOMS];
static int lent_count;

void expect(int holds, const char *what)
{
    if (!holds) {
        fprintf(stderr, "wrong: %s\n", what);
        exit(1);
    }
}

static unsigned char *room(int index)
{
    return memory + GUARD + (size_t)index * (ROOM + GUARD);
}

static void protect(int index, int protection)
{
    expect(mprotect(room(index), ROOM, protection) == 0, "the pages can be protected");
}

static void prepare_rooms(void)
{
    memory = mmap(NULL, GUARD + (size_t)ROOMS * (ROOM + GUARD), PROT_NONE,
                  MAP_PRIVATE | MAP_ANONYMOUS | MAP_NORESERVE, -1, 0);
    expect(memory != MAP_FAILED, "there is room for the slices");
    for (int index = 0; index < ROOMS; index++) {
        protect(index, PROT_READ | PROT_WRITE);
    }
    for (size_t i = 0; i < sizeof pattern; i++) {
        pattern[i] = (unsigned char)random_bits();
    }
}

void take_back(enum placing next)
{
    for (int index = 0; index < lent_count; index++) {
        if (placing == APART) {
            free(lent[index].start);
        } else if (lent[index].read_only) {
            protect(index, PROT_READ | PROT_WRITE);
        }
    }
    lent_count = 0;
    placing = next;
    if (placing != APART && memory == NULL) {
        prepare_rooms();
    }
}

static struct lent *lend(size_t bytes, const unsigned char *before)
{
    expect(lent_count < ROOMS && bytes <= ROOM, "a room is left and large enough");
    struct lent *next = &lent[lent_count];
    next->bytes = bytes;
    next->before = before;
    next->read_only = 0;
    switch (placing) {
    case AT_END:
        next->start = room(lent_count) + ROOM - bytes;
        break;
    case AT_START:
        next->start = room(lent_count);
        break;
    case APART:
        next->start = malloc(bytes);
        expect(next->start != NULL, "malloc gives a block");
        break;
    }
    if (before != NULL) {
        memcpy(next->start, before, bytes);
    }
    lent_count++;
    return next;
}

struct lent lend_input(const void *contents, size_t bytes)
{
    struct lent *next = lend(bytes, contents);
    if (placing != APART) {
        protect(lent_count - 1, PROT_READ);
        next->read_only = 1;
    }
    return *next;
}

struct lent lend_output(size_t bytes)
{
    return *lend(bytes, placing == APART ? NULL : pattern + below(ROOM));
}

void expect_written(const struct lent *lent, size_t bytes)
{
    const unsigned char *now = lent->start;
    expect(bytes <= lent->bytes, "what is written fits");
    if (placing == APART) {
        /* Volatile, so that each byte decides a branch. */
        static volatile unsigned long not_zero;
        for (size_t i = 0; i < bytes; i++) {
            if (now[i] != 0) {
                not_zero++;
            }
        }
    }
    if (lent->before != NULL) {
        expect(memcmp(now + bytes, lent->before + bytes, lent->bytes - bytes) == 0,
               "the other entries are as they were");
    }
}

void expect_zero(const struct lent *lent, size_t bytes)
{
    const unsigned char *now = lent->start;
    for (size_t i = 0; i < bytes; i++) {
        expect(now[i] == 0, "an entry or a field is 0");
    }
}

void expect_bytes(const struct lent *lent, const void *wanted, size_t bytes)
{
    expect_written(lent, bytes);
    expect(memcmp(lent->start, wanted, bytes) == 0, "what is written is that of the paper");
}

void expect_words(const struct lent *lent, const uint16_t *words, size_t count)
{
    expect_bytes(lent, words, 2 * count);
}
