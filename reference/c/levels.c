#include "levels.h"

void walk_levels(const uint16_t *table, size_t nodes, struct levels *levels)
{
    uint16_t order[MOST_NODES] = {0};
    size_t count = 1;
    levels->of[0] = 0;
    for (size_t next = 0; next < count; next++) {
        uint16_t below = (uint16_t)(levels->of[order[next]] + 1);
        for (uint16_t node = table[2 * order[next]]; node != NONE; node = table[2 * node + 1]) {
            levels->of[node] = below;
            order[count++] = node;
        }
    }
    levels->count = levels->of[order[nodes - 1]] + (size_t)1;
    levels->pairs = 0;
    for (size_t next = 1; next < nodes; next++) {
        uint16_t left = order[next - 1], right = order[next];
        if (levels->of[left] == levels->of[right]) {
            levels->record[2 * levels->pairs] = left;
            levels->record[2 * levels->pairs + 1] = right;
            levels->pairs++;
        }
    }
}
