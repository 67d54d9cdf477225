/* The dots of a drawing: a level and a place for each node. */

#ifndef DOTS_H
#define DOTS_H

#include <stddef.h>
#include <stdint.h>

/* Puts dots into the order of their levels and, on a level, of their places. */
void sort_dots(int32_t *dots, size_t nodes);

/* The dots of the tree at a place of a list, as hiwenoka_layout gives them with half-widths 0. */
void lay_out_dots(size_t nodes, size_t place, uint16_t separation, int32_t *dots);

#endif
