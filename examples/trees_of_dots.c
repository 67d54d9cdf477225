/*
 * Finds the families of seven tapes whose drawing has just these dots: how many there are, and of
 * the first its place in the list and its table, where - means none. Then the same with a dot moved.
 * From the repository's root:
 *
 *     gcc -std=c11 -Wall -Wextra -Werror -Iinclude examples/trees_of_dots.c crates/exports/out/libexports.a -o trees_of_dots
 */

#include "hiwenoka.h"
#include <stdio.h>

enum { NONE = 65535, N = 7, D = 2 };

static int print_first(const int32_t *dots)
{
    uint16_t table[2 * N], lowest, count;
    uint16_t number = hiwenoka_trees_of_dots(N, dots, 2 * N, D, &lowest, &count);
    if (number != 0) {
        printf("refused %d\n", number);
        return 1;
    }
    printf("%d fit\n", count);
    /* Without a tree that fits, there is no place either. */
    if (count == 0) {
        return 0;
    }
    if (hiwenoka_small_tree(N, lowest, table, 2 * N) != 0) {
        return 1;
    }
    printf("%d:", lowest);
    for (int entry = 0; entry < 2 * N; entry++) {
        if (table[entry] == NONE) {
            printf(" -");
        } else {
            printf(" %d", table[entry]);
        }
    }
    printf("\n");
    return 0;
}

int main(void)
{
    /* Level and place of each dot. The three copies on level 1 have three on level 2: one each, or
       the middle one has them all. */
    int32_t dots[2 * N] = {0, 0, 1, -2, 1, 0, 1, 2, 2, -2, 2, 0, 2, 2};
    int failed = print_first(dots);
    dots[13] = 3;
    return failed || print_first(dots);
}
