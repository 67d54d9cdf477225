#include "random.h"

static uint64_t state;

void seed_random(uint64_t seed)
{
    state = seed;
}

uint64_t random_bits(void)
{
    state += 0x9e3779b97f4a7c15;
    uint64_t mixed = state;
    mixed = (mixed ^ (mixed >> 30)) * 0xbf58476d1ce4e5b9;
    mixed = (mixed ^ (mixed >> 27)) * 0x94d049bb133111eb;
    return mixed ^ (mixed >> 31);
}

size_t below(size_t bound)
{
    return random_bits() % bound;
}
