/* A pool of different pairs, for services with words of 32 bits. POOL, the number of pairs, is defined before it. */
#include "../include/jingcobu.h"
#include "common.h"

#define MOST 49

static uint32_t work[JINGCOBU_WORK], first[POOL][MOST], second[POOL][MOST];

/* pairs of so many words, the last of each not zero */
static inline void fill(uint32_t n, size_t words)
{
    for (int p = 0; p < POOL; p++) {
        for (size_t k = 0; k < words; k++) {
            first[p][k] = draw() % n;
            second[p][k] = draw() % n;
        }
        if (first[p][words - 1] == 0) first[p][words - 1] = 1;
        if (second[p][words - 1] == 0) second[p][words - 1] = 1;
    }
}

/* each word a random residue times up to three primes of n, and the last times `more` further ones: most of them zero divisors */
static inline void fill_divisors(uint32_t n, const uint32_t *primes, int count, size_t words, int more)
{
    for (int p = 0; p < POOL; p++)
        for (size_t k = 0; k < words; k++)
            for (int side = 0; side < 2; side++) {
                int top = k + 1 == words;
                uint64_t x = draw() % n;
                int many = draw() % 4 + (top ? more : 0);
                for (int j = 0; j < many; j++) x = x * primes[draw() % count] % n;
                if (top && x == 0) x = primes[0];
                (side ? second : first)[p][k] = (uint32_t) x;
            }
}
