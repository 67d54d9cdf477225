/* A well-formed table's levels. */

#ifndef LEVELS_H
#define LEVELS_H

#include "inputs.h"

struct levels {
    size_t count, pairs;
    uint16_t of[MOST_NODES];         /* by node number */
    uint16_t record[2 * MOST_NODES]; /* the pairs of neighbours, left node first */
};

/* Walks level by level from the top, left to right on each level. */
void walk_levels(const uint16_t *table, size_t nodes, struct levels *levels);

#endif
