// One pass over the words: their sum modulo 2^32. Compiled twice, PASS being its name, with and without vector code.
#include "bench.h"

uint32_t PASS(const uint32_t *words, size_t len)
{
    uint32_t sum = 0;
    for (size_t k = 0; k < len; k++) {
        sum += words[k];
    }
    return sum;
}
