/* What the paper says of a table, a drawing, a sheet file, a Newick text, a view and dots, computed
   plainly and from the paper alone. */

#ifndef PAPER_H
#define PAPER_H

#include "../reference/c/levels.h"

/* The first of the conditions 1 to 5 and 14 that holds of a table, or 0. */
unsigned table_number(const uint16_t *table, size_t len);

/* Half-widths as they are lent. */
struct half_widths {
    const uint16_t *of; /* by node number */
    size_t len;
};

/* Whether 17 holds for so many nodes. */
int half_widths_refused(struct half_widths half_widths, size_t nodes);

/* The first of 9 to 12 and 7 that holds, or 0. */
unsigned sheet_number(const uint8_t *file, size_t bytes, size_t table_len, size_t tapes_len,
                      size_t widths_len);

/* The first of 1 to 5, 14, 6, 13, 17 and 7 that holds of a sheet to be written, or 0. */
unsigned write_number(const uint16_t *table, size_t len, uint16_t separation, size_t tapes_len,
                      struct half_widths half_widths, size_t out_len);

struct family {
    size_t nodes; /* or 0 if the text is no tree */
    uint16_t table[2 * MOST_NODES], labels[2 * MOST_NODES];
};

/* The tree of a Newick text, numbered parent first, then the children's subtrees right to left; of
   its nodes only the first MOST_NODES. */
void read_text(const uint8_t *text, size_t bytes, struct family *family);

/* The nodes of a well-formed table, parent first, then the children's subtrees left to right. */
void number_parents_first(const uint16_t *table, uint16_t *order);

struct drawing {
    struct levels levels;
    int32_t least, greatest;
    int32_t place[MOST_NODES];           /* by node number */
    size_t conflicts, widest, remainder; /* how many, and the greatest k and r of one */
    size_t significant;                  /* how many joins met a conflict below the children */
};

/* The distance that two neighbours need. */
int32_t needed(int32_t separation, const uint16_t *half_widths, uint16_t left, uint16_t right);

/* Where each node of a well-formed table stands: steps 1 to 6. The extra space, which the plain
   layout does not have, is added to a child after a walk that met a conflict below the children. */
void draw(const uint16_t *table, size_t nodes, int32_t separation, int32_t extra,
          const uint16_t *half_widths, struct drawing *drawing);

struct judged {
    unsigned number; /* the first of 18 and 19 that holds, or 0 */
    uint8_t on;
    uint64_t x, y; /* floats by their bits */
};

/* Where a view shows a node. The view is across, down and zoom, floats by their bits. */
void judge_node(const uint64_t *view, uint16_t level, int32_t place, struct judged *judged);

/* The dots of a small tree with half-widths 0, level then place, in rising order. */
void draw_dots(const uint16_t *table, size_t nodes, int32_t separation, int32_t *dots);

struct fitting {
    unsigned number; /* the first of 20, 22 and 6 that holds, or 0 */
    size_t lowest, count;
};

/* Which small trees have just these dots. */
void fit_trees(size_t nodes, const int32_t *dots, size_t dots_len, size_t separation,
               struct fitting *fitting);

#endif
