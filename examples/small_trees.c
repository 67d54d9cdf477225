/*
 * Lists all families of five tapes, a line for each: its place in the list and its table, where -
 * means none. From the repository's root:
 *
 *     gcc -std=c11 -Wall -Wextra -Werror -Iinclude examples/small_trees.c crates/exports/out/libexports.a -o small_trees
 */

#include "hiwenoka.h"
#include <stdio.h>

enum { NONE = 65535, N = 5, NO_SUCH_PLACE = 21 };

int main(void)
{
    uint16_t table[2 * N], place = 0, number;
    while ((number = hiwenoka_small_tree(N, place, table, 2 * N)) == 0) {
        printf("%d:", place);
        for (int entry = 0; entry < 2 * N; entry++) {
            if (table[entry] == NONE) {
                printf(" -");
            } else {
                printf(" %d", table[entry]);
            }
        }
        printf("\n");
        place++;
    }
    return number != NO_SUCH_PLACE;
}
