#include "hits.h"

#include "report.h"

#include <string.h>

static uint32_t next_random(uint64_t *seed)
{
    *seed = *seed * 6364136223846793005u + 1442695040888963407u;
    return (uint32_t)(*seed >> 32);
}

/* A number at the edge of a counter, or any. */
static uint32_t word(uint64_t *seed)
{
    static const uint32_t edges[] = {0,        1,          65534,      65535,
                                     65536,    16777215,   16777216,   16777217,
                                     16777218, 0x7FFFFFFF, 0xFFFFFFFE, 0xFFFFFFFF};
    uint32_t chosen = next_random(seed) >> 16;
    uint32_t any = next_random(seed);
    return chosen % 2 == 0 ? any : edges[chosen / 2 % (sizeof edges / sizeof edges[0])];
}

void hit(void *state, size_t size, uint64_t seed, uint64_t hits)
{
    enum { WORD = sizeof(uint32_t), MOST_BYTES = 256 };
    uint8_t bytes[MOST_BYTES];
    size_t words = (size + WORD - 1) / WORD;
    if (words * WORD > MOST_BYTES)
        broken_wire("a state is longer than the driver thinks");
    memcpy(bytes, state, size);
    for (uint64_t i = 0; i < (hits == 0 ? words : hits); i++) {
        size_t place = hits == 0 ? i : next_random(&seed) % words;
        uint32_t value = word(&seed);
        if (hits != 0 && next_random(&seed) % 2 == 0)
            bytes[place * WORD + value % WORD] = (uint8_t)next_random(&seed);
        else
            memcpy(bytes + place * WORD, &value, WORD);
    }
    memcpy(state, bytes, size);
}
