/*
 * Lays a tree out for the yearbook, which is set with TreeTeX, and prints the extra space and then
 * each node's number, level and place: first without an extra space, where the four leaves stand
 * evenly, and then with one of 6, which parts the two families. From the repository's root:
 *
 *     gcc -std=c11 -Wall -Wextra -Werror -Iinclude examples/treetex.c crates/exports/out/libexports.a -o treetex
 */

#include "hiwenoka.h"
#include <stdio.h>

enum { NONE = 65535, N = 7, D = 4 };

static int print_layout(uint16_t extra)
{
    /* The root 0 has the children 1 and 4, node 1 has the children 2 and 3, node 4 has 5 and 6. */
    const uint16_t table[2 * N]
        = {1, NONE, 2, 4, NONE, 3, NONE, NONE, 5, NONE, NONE, 6, NONE, NONE};
    const uint16_t half_widths[N] = {0};
    int32_t places[N], work[16 * N], least, greatest;
    uint16_t levels[N], record[2 * N], nodes, level_count, pairs;
    uint16_t number = hiwenoka_layout_treetex(table, 2 * N, D, half_widths, N, extra, places, N,
                                              levels, N, record, 2 * N, work, 16 * N, &nodes,
                                              &level_count, &least, &greatest, &pairs);
    if (number != 0) {
        printf("refused %d\n", number);
        return 1;
    }
    printf("extra %d\n", extra);
    for (int node = 0; node < nodes; node++) {
        printf("%d %d %d\n", node, levels[node], places[node]);
    }
    return 0;
}

int main(void)
{
    return print_layout(0) || print_layout(6);
}
