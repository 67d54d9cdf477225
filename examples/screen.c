/*
 * Lays a tree out and prints, for a view of it, the number of each node on screen and its distances
 * from the middle, across and down; then the same for a view that is refused. From the repository's
 * root:
 *
 *     gcc -std=c11 -Wall -Wextra -Werror -Iinclude examples/screen.c crates/exports/out/libexports.a -o screen
 */

#include "hiwenoka.h"
#include <stdio.h>

enum { NONE = 65535, N = 5 };

static int32_t places[N];
static uint16_t levels[N];

static void show(double across, double down, double zoom)
{
    for (int node = 0; node < N; node++) {
        uint8_t on;
        double x, y;
        uint16_t number = hiwenoka_on_screen(across, down, zoom, levels[node], places[node],
                                             &on, &x, &y);
        if (number != 0) {
            printf("refused %d\n", number);
            return;
        }
        if (on) {
            /* Eight times a distance is a whole number, so that three digits are enough. */
            printf("%d %.3f %.3f\n", node, x, y);
        }
    }
}

int main(void)
{
    /* The root 0 has the children 1 and 4, and node 1 has the children 2 and 3. */
    const uint16_t table[2 * N] = {1, NONE, 2, 4, NONE, 3, NONE, NONE, NONE, NONE};
    /* Nodes 2 and 3 need 1024 + 256 + 256 between them, nodes 1 and 4 need 1024. */
    const uint16_t half_widths[N] = {0, 0, 256, 256, 0};
    int32_t work[16 * N], least, greatest;
    uint16_t record[2 * N], nodes, level_count, pairs;
    uint16_t number = hiwenoka_layout(table, 2 * N, 1024, half_widths, N, places, N, levels, N,
                                      record, 2 * N, work, 16 * N, &nodes, &level_count,
                                      &least, &greatest, &pairs);
    if (number != 0) {
        printf("refused %d\n", number);
        return 1;
    }
    /* Node 3 stands on the edge of this view, and node 4 is off. */
    show(-7424, 61, 0.125);
    show(-7424, 61, 3);
    return 0;
}
