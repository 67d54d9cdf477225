#include "dots.h"
#include "hiwenoka.h"
#include "lent.h"
#include "small_trees.h"
#include <stdlib.h>

static int compare(const void *left, const void *right)
{
    const int32_t *one = left, *other = right;
    size_t entry = one[0] == other[0];
    return (one[entry] > other[entry]) - (one[entry] < other[entry]);
}

void sort_dots(int32_t *dots, size_t nodes)
{
    qsort(dots, nodes, 2 * sizeof *dots, compare);
}

void lay_out_dots(size_t nodes, size_t place, uint16_t separation, int32_t *dots)
{
    static const uint16_t half_widths[MOST_SMALL];
    int32_t places[MOST_SMALL], work[16 * MOST_SMALL], least, greatest;
    uint16_t levels[MOST_SMALL], record[2 * MOST_SMALL], count, level_count, pairs;
    uint16_t number = hiwenoka_layout(listed_tree(nodes, place), 2 * nodes, separation, half_widths,
                                      nodes, places, nodes, levels, nodes, record, 2 * nodes, work,
                                      16 * nodes, &count, &level_count, &least, &greatest, &pairs);
    expect(number == 0, "the tree is laid out");
    for (size_t node = 0; node < nodes; node++) {
        dots[2 * node] = levels[node];
        dots[2 * node + 1] = places[node];
    }
    sort_dots(dots, nodes);
}
