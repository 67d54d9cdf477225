/*
 * Lays a tree out and prints each node's number, level and place, and then the pairs of neighbours
 * in reading order. From the repository's root:
 *
 *     gcc -std=c11 -Wall -Wextra -Werror -Iinclude examples/layout.c crates/exports/out/libexports.a -o layout
 */

#include "hiwenoka.h"
#include <stdio.h>

enum { NONE = 65535, N = 5 };

int main(void)
{
    /* The root 0 has the children 1 and 4, and node 1 has the children 2 and 3. */
    const uint16_t table[2 * N] = {1, NONE, 2, 4, NONE, 3, NONE, NONE, NONE, NONE};
    /* Nodes 2 and 3 need 3 + 0 + 5 between them, nodes 1 and 4 need 3 + 2 + 1. */
    const uint16_t half_widths[N] = {4, 2, 0, 5, 1};
    int32_t places[N], work[16 * N], least, greatest;
    uint16_t levels[N], record[2 * N], nodes, level_count, pairs;
    uint16_t number = hiwenoka_layout(table, 2 * N, 3, half_widths, N, places, N, levels, N,
                                      record, 2 * N, work, 16 * N, &nodes, &level_count,
                                      &least, &greatest, &pairs);
    if (number != 0) {
        printf("refused %d\n", number);
        return 1;
    }
    for (int node = 0; node < nodes; node++) {
        printf("%d %d %d\n", node, levels[node], places[node]);
    }
    for (int pair = 0; pair < pairs; pair++) {
        printf("%d beside %d\n", record[2 * pair], record[2 * pair + 1]);
    }
    return 0;
}
