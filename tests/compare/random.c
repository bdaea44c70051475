#include "random.h"

uint64_t random_word(struct source *source)
{
    /* splitmix64 */
    uint64_t word = source->state += UINT64_C(0x9e3779b97f4a7c15);
    word = (word ^ word >> 30) * UINT64_C(0xbf58476d1ce4e5b9);
    word = (word ^ word >> 27) * UINT64_C(0x94d049bb133111eb);
    return word ^ word >> 31;
}

size_t random_below(struct source *source, size_t bound)
{
    return (size_t)(random_word(source) % bound);
}

int random_once_in(struct source *source, size_t times)
{
    return random_below(source, times) == 0;
}
