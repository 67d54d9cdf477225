/* Slices lent to the library, each from memory of exactly its length. */

#ifndef LENT_H
#define LENT_H

#include <stddef.h>
#include <stdint.h>

enum placing {
    AT_END,   /* the slice ends at a page that cannot be accessed */
    AT_START, /* it starts right after one */
    APART     /* it is a block of its own from malloc, for memcheck */
};

struct lent {
    void *start;
    size_t bytes;
    const unsigned char *before; /* what it held; NULL if nothing was written to it */
    int read_only;
};

/* Must be called before anything is lent, and between two calls of the library. */
void take_back(enum placing next);

/* A slice to be read. Its pages cannot be written; what it holds stays with the caller. */
struct lent lend_input(const void *contents, size_t bytes);

/* A slice to be written: it holds a pattern, or nothing where it lies apart. */
struct lent lend_output(size_t bytes);

/* The first so many bytes were written, so memcheck must know them; the others are as they were. */
void expect_written(const struct lent *lent, size_t bytes);

void expect_zero(const struct lent *lent, size_t bytes);

/* The slice starts with these bytes, which were written; the others are as they were. */
void expect_bytes(const struct lent *lent, const void *wanted, size_t bytes);

/* The same with words. */
void expect_words(const struct lent *lent, const uint16_t *words, size_t count);

/* Ends the program unless a condition holds. */
void expect(int holds, const char *what);

#endif
