/* The block's check and the mark again, plainly, from the written rules alone: what the tests compare the archive with. */
#ifndef MODEL_H
#define MODEL_H

#include <stddef.h>
#include <stdint.h>

static inline uint32_t model_word(const uint8_t *p)
{
    return (uint32_t)p[0] | (uint32_t)p[1] << 8 | (uint32_t)p[2] << 16 | (uint32_t)p[3] << 24;
}

static inline void model_sums(const uint8_t *block, uint32_t *s, uint32_t *t)
{
    uint64_t sum = 0, twice = 0;
    for (int k = 0; k < 126; k++) {
        sum = (sum + model_word(block + 4 * k)) % 4294967296u;
        twice = (twice + sum) % 4294967296u;
    }
    *s = (uint32_t)sum;
    *t = (uint32_t)twice;
}

static inline void model_put(uint8_t *p, uint32_t value)
{
    for (int i = 0; i < 4; i++)
        p[i] = (uint8_t)(value >> (8 * i));
}

/* Writes the right check into a block of 512 bytes. */
static inline void model_seal(uint8_t *block)
{
    uint32_t s, t;
    model_sums(block, &s, &t);
    model_put(block + 504, s);
    model_put(block + 508, t);
}

static inline uint8_t model_check(const uint8_t *block, size_t length)
{
    uint32_t s, t;
    if (length != 512)
        return 1;
    model_sums(block, &s, &t);
    return model_word(block + 504) == s && model_word(block + 508) == t ? 0 : 2;
}

static inline uint8_t model_mark(uint64_t site, uint64_t drill, uint64_t live)
{
    if (site > 63)
        return 11;
    return ((drill >> site) & 1) == 1 && ((live >> site) & 1) == 0;
}

/* A block as the table on file has it: the one site of a table of one, with the slice 1. */
static inline void model_one_site(uint8_t *block)
{
    for (int i = 0; i < 512; i++)
        block[i] = 0;
    block[2] = 1; /* n */
    block[4] = 1; /* slice count */
    block[8] = 1; /* the slice */
    model_seal(block);
}

#endif
