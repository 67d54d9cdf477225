/* Every listed tree is drawn that has as many nodes on each level as there are dots. */

#include "paper.h"
#include "../reference/c/dots.h"
#include "../reference/c/small_trees.h"
#include <string.h>

void draw_dots(const uint16_t *table, size_t nodes, int32_t separation, int32_t *dots)
{
    static const uint16_t half_widths[MOST_SMALL];
    static struct drawing drawing;
    draw(table, nodes, separation, 0, half_widths, &drawing);
    for (size_t node = 0; node < nodes; node++) {
        dots[2 * node] = drawing.levels.of[node];
        dots[2 * node + 1] = drawing.place[node];
    }
    sort_dots(dots, nodes);
}

static int dots_refused(size_t nodes, const int32_t *dots, size_t dots_len)
{
    if (dots_len != 2 * nodes) {
        return 1;
    }
    for (const int32_t *dot = dots; dot < dots + dots_len; dot += 2) {
        if (dot[0] < 0 || dot[0] > 7) {
            return 1;
        }
        if (dot > dots && (dot[0] < dot[-2] || (dot[0] == dot[-2] && dot[1] <= dot[-1]))) {
            return 1;
        }
    }
    return 0;
}

/* How many nodes are on each level, in four bits for each. */
static uint32_t counts_of_tree(size_t nodes, size_t place)
{
    static uint32_t known[MOST_SMALL + 1][MOST_LISTED];
    static struct levels levels;
    uint32_t *counts = &known[nodes][place];
    if (*counts == 0) {
        walk_levels(listed_tree(nodes, place), nodes, &levels);
        for (size_t node = 0; node < nodes; node++) {
            *counts += (uint32_t)1 << 4 * levels.of[node];
        }
    }
    return *counts;
}

static uint32_t counts_of_dots(const int32_t *dots, size_t dots_len)
{
    uint32_t counts = 0;
    for (size_t i = 0; i < dots_len; i += 2) {
        counts += (uint32_t)1 << 4 * dots[i];
    }
    return counts;
}

void fit_trees(size_t nodes, const int32_t *dots, size_t dots_len, size_t separation,
               struct fitting *fitting)
{
    *fitting = (struct fitting){0};
    if (nodes < 1 || nodes > MOST_SMALL) {
        fitting->number = 20;
    } else if (dots_refused(nodes, dots, dots_len)) {
        fitting->number = 22;
    } else if (separation < 1 || separation > 1024) {
        fitting->number = 6;
    } else {
        /* From the last place to the first, so that the lowest stays. */
        for (size_t place = list_length(nodes); place-- > 0;) {
            int32_t drawn[2 * MOST_SMALL];
            if (counts_of_tree(nodes, place) == counts_of_dots(dots, dots_len)) {
                draw_dots(listed_tree(nodes, place), nodes, (int32_t)separation, drawn);
                if (memcmp(drawn, dots, 4 * dots_len) == 0) {
                    fitting->lowest = place;
                    fitting->count++;
                }
            }
        }
    }
}
