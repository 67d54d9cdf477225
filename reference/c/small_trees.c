/*
 * A walk around a tree goes down to each node once, left to right, and comes back up to the root.
 * Its steps are the binary digits of a number, from the highest: 1 down, 0 up. Where two walks of
 * as many steps first differ, the one that goes up comes to its next node on a smaller level. So
 * the numbers in rising order are the trees in the order of their list.
 */

#include "small_trees.h"
#include "lent.h"
#include <string.h>

struct list {
    size_t length;
    uint16_t tables[MOST_LISTED + 1][2 * MOST_SMALL]; /* the last is for a walk around no tree */
};

/* Writes the table of the tree of so many nodes that a walk goes around. Whether there is one. */
static int follow(unsigned walk, size_t nodes, uint16_t *table)
{
    uint16_t parent[MOST_SMALL], last[MOST_SMALL], node = 0, met = 1;
    memset(table, 0xff, 4 * nodes);
    for (size_t left = 2 * (nodes - 1); left > 0; left--) {
        int down = walk >> (left - 1) & 1;
        if (down ? met == nodes : node == 0) {
            return 0;
        }
        if (down) {
            *(table[2 * node] == NONE ? &table[2 * node] : &table[2 * last[node] + 1]) = met;
            last[node] = met;
            parent[met] = node;
        }
        node = down ? met++ : parent[node];
    }
    return node == 0;
}

static const struct list *list_of(size_t nodes)
{
    static struct list lists[MOST_SMALL + 1];
    struct list *list = &lists[nodes];
    if (list->length == 0) {
        for (unsigned walk = 0; walk < 1u << 2 * (nodes - 1); walk++) {
            list->length += (size_t)follow(walk, nodes, list->tables[list->length]);
            expect(list->length <= MOST_LISTED, "the list has room");
        }
    }
    return list;
}

size_t list_length(size_t nodes)
{
    return nodes < 1 || nodes > MOST_SMALL ? 0 : list_of(nodes)->length;
}

const uint16_t *listed_tree(size_t nodes, size_t place)
{
    return list_of(nodes)->tables[place];
}
