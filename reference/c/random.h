/* A small seedable source of random numbers (splitmix64). */

#ifndef RANDOM_H
#define RANDOM_H

#include <stddef.h>
#include <stdint.h>

void seed_random(uint64_t seed);

uint64_t random_bits(void);

/* A number from 0 up to, not including, bound, which is above 0. */
size_t below(size_t bound);

#endif
