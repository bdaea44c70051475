/* How many codes a presence word carries: order 6 of document 02. */
#include "second.h"

uint32_t second_ones(uint32_t word)
{
    uint32_t ones = 0;
    for (; word != 0; word /= 2)
        ones += word % 2;
    return ones;
}
