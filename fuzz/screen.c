/* A view is judged in whole numbers, by the bits of its floats: none is computed with. */

#include "paper.h"

enum { MOST_UNITS = 2097152, ACROSS = 960, DOWN = 540, LEVEL_UNITS = 64 };

/* Beyond all that is taken. */
#define NO_EIGHTHS INT64_MAX

/* The float that is so many eighths. */
static uint64_t float_of(int64_t eighths)
{
    uint64_t sign = eighths < 0, size = (uint64_t)(eighths < 0 ? -eighths : eighths);
    uint64_t first = (uint64_t)1 << 52, exponent = 1023 - 3 + 52;
    if (size == 0) {
        return 0;
    }
    while (size < first) {
        size *= 2;
        exponent--;
    }
    return (sign << 63) + (exponent << 52) + (size - first);
}

/* The eighths that a float is: below 2 to the power of 25, and no part of one. */
static int64_t eighths_of(uint64_t bits)
{
    uint64_t first = (uint64_t)1 << 52, exponent = bits / first % 2048;
    if (bits << 1 == 0) {
        return 0;
    }
    if (exponent < 1020 || exponent > 1020 + 24) {
        return NO_EIGHTHS;
    }
    int64_t size = (int64_t)((first + bits % first) >> (1020 + 52 - exponent));
    int64_t eighths = bits >> 63 == 1 ? -size : size;
    return float_of(eighths) == bits ? eighths : NO_EIGHTHS;
}

static int is_zoom(int64_t eighths)
{
    for (int64_t zoom = 1; zoom <= 64; zoom *= 2) {
        if (eighths == zoom) {
            return 1;
        }
    }
    return 0;
}

static int within(int64_t number, int64_t most)
{
    return number >= -most && number <= most;
}

static int is_centre(int64_t eighths)
{
    return eighths % 8 == 0 && within(eighths, 8 * MOST_UNITS);
}

void judge_node(const uint64_t *view, uint16_t level, int32_t place, struct judged *judged)
{
    int64_t across = eighths_of(view[0]), down = eighths_of(view[1]), zoom = eighths_of(view[2]);
    *judged = (struct judged){0};
    if (!is_zoom(zoom)) {
        judged->number = 18;
    } else if (!is_centre(across) || !is_centre(down) || !within(place, MOST_UNITS)) {
        judged->number = 19;
    } else {
        int64_t x = (place - across / 8) * zoom, y = (LEVEL_UNITS * level - down / 8) * zoom;
        if (within(x, 8 * ACROSS) && within(y, 8 * DOWN)) {
            *judged = (struct judged){0, 1, float_of(x), float_of(y)};
        }
    }
}
