/* "Where a node stands", step by step. A position is a node's number in the order of Renumber: a
   subtree's positions follow each other, and so do those of a level in tree order. */

#include "paper.h"
#include <string.h>

void number_parents_first(const uint16_t *table, uint16_t *order)
{
    uint16_t open[2 * MOST_NODES] = {0};
    size_t open_count = 1, count = 0;
    while (open_count > 0) {
        uint16_t node = open[--open_count];
        order[count++] = node;
        if (table[2 * node + 1] != NONE) {
            open[open_count++] = table[2 * node + 1];
        }
        if (table[2 * node] != NONE) {
            open[open_count++] = table[2 * node];
        }
    }
}

int32_t needed(int32_t separation, const uint16_t *half_widths, uint16_t left, uint16_t right)
{
    return separation + half_widths[left] + half_widths[right];
}

/* What neighbours need hangs on these. */
static int32_t distance;
static const uint16_t *width_of;

static int32_t extra_space;
static size_t conflicts, widest, remainder, significant;

/* By position. */
static uint16_t node_at[MOST_NODES];
static size_t end[MOST_NODES]; /* the first position past the subtree */
static size_t level[MOST_NODES];
static int32_t place[MOST_NODES];
static size_t measured[MOST_NODES]; /* the right one of the pair, or 0 */

static size_t family[MOST_NODES]; /* the positions of one node's children */

static int32_t needed_at(size_t left, size_t right)
{
    return needed(distance, width_of, node_at[left], node_at[right]);
}

static void move_right(size_t root, int32_t distance)
{
    for (size_t position = root; position < end[root]; position++) {
        place[position] += distance;
    }
}

/* Steps 2 to 4 for child j, and then the extra space. right_contour has the last position of each
   level of those joined, down to the level `joined`. */
static void join(size_t j, const size_t *right_contour, size_t joined)
{
    size_t left_contour[MOST_NODES], root = family[j], deepest = level[root];
    int met_below = 0;
    for (size_t position = end[root]; position-- > root;) {
        left_contour[level[position]] = position;
        deepest = level[position] > deepest ? level[position] : deepest;
    }
    move_right(root, place[family[j - 1]] + needed_at(family[j - 1], root) - place[root]);
    for (size_t walked = level[root]; walked <= deepest && walked <= joined; walked++) {
        size_t left = right_contour[walked], right = left_contour[walked];
        measured[left] = right;
        int32_t s = needed_at(left, right) - (place[right] - place[left]);
        if (s > 0) {
            size_t i = 0;
            while (end[family[i]] <= left) {
                i++;
            }
            int32_t k = (int32_t)(j - i), q = s / k, r = s - k * q;
            conflicts++;
            met_below |= walked > level[root];
            widest = j - i > widest ? j - i : widest;
            remainder = (size_t)r > remainder ? (size_t)r : remainder;
            move_right(root, s);
            for (int32_t t = 1; t < k; t++) {
                int32_t odd_units = t > k - r ? t - (k - r) : 0;
                move_right(family[i + (size_t)t], t * q + odd_units);
            }
        }
    }
    if (met_below) {
        significant++;
        move_right(root, extra_space);
    }
}

/* Steps 2 to 5 for a node whose children are drawn. */
static void draw_family(size_t parent)
{
    size_t right_contour[MOST_NODES], joined = 0, count = 0;
    for (size_t root = parent + 1; root < end[parent]; root = end[root]) {
        family[count++] = root;
    }
    place[parent] = 0;
    for (size_t j = 0; j < count; j++) {
        if (j == 0) {
            move_right(family[0], -place[family[0]]);
        } else {
            join(j, right_contour, joined);
        }
        for (size_t position = family[j]; j + 1 < count && position < end[family[j]]; position++) {
            right_contour[level[position]] = position;
            joined = level[position] > joined ? level[position] : joined;
        }
    }
    if (count > 0) {
        int32_t first = place[family[0]], last = place[family[count - 1]];
        place[parent] = first + (last - first) / 2;
    }
}

void draw(const uint16_t *table, size_t nodes, int32_t separation, int32_t extra,
          const uint16_t *half_widths, struct drawing *drawing)
{
    size_t at[MOST_NODES];
    uint16_t right_of[MOST_NODES]; /* by node: the right neighbour, or NONE */
    conflicts = widest = remainder = significant = 0;
    distance = separation;
    extra_space = extra;
    width_of = half_widths;
    walk_levels(table, nodes, &drawing->levels);
    memset(right_of, 0xff, sizeof right_of);
    for (size_t i = 0; i < 2 * drawing->levels.pairs; i += 2) {
        right_of[drawing->levels.record[i]] = drawing->levels.record[i + 1];
    }
    number_parents_first(table, node_at);
    for (size_t position = 0; position < nodes; position++) {
        at[node_at[position]] = position;
        level[position] = drawing->levels.of[node_at[position]];
        measured[position] = 0;
    }
    /* Step 1: each subtree on its own, so children before their parents. */
    for (size_t position = nodes; position-- > 0;) {
        end[position] = position + 1;
        uint16_t child = table[2 * node_at[position]];
        for (; child != NONE; child = table[2 * child + 1]) {
            end[position] = end[at[child]];
        }
        draw_family(position);
    }
    drawing->conflicts = conflicts;
    drawing->widest = widest;
    drawing->remainder = remainder;
    drawing->significant = significant;
    /* Step 6. */
    move_right(0, -place[0]);
    drawing->least = drawing->greatest = 0;
    for (size_t position = 0; position < nodes; position++) {
        uint16_t node = node_at[position];
        drawing->place[node] = place[position];
        drawing->least = place[position] < drawing->least ? place[position] : drawing->least;
        drawing->greatest
            = place[position] > drawing->greatest ? place[position] : drawing->greatest;
        /* The pairs that step 3 measures are the neighbours. */
        uint16_t right = measured[position] == 0 ? NONE : node_at[measured[position]];
        if (right_of[node] != right) {
            __builtin_trap();
        }
    }
}
