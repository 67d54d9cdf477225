/* The lists of all small trees. */

#ifndef SMALL_TREES_H
#define SMALL_TREES_H

#include "inputs.h"

enum { MOST_SMALL = 8, MOST_LISTED = 429 };

/* How many trees of so many nodes there are, or 0 if that is not in 1 to MOST_SMALL. */
size_t list_length(size_t nodes);

/* The table of the tree at a place of that list. */
const uint16_t *listed_tree(size_t nodes, size_t place);

#endif
