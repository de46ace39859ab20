/* Seeded random numbers (splitmix64): the same seed gives the same cases on every machine. */
#ifndef CHANCE_H
#define CHANCE_H

#include <stddef.h>
#include <stdint.h>

struct chance {
    uint64_t state;
};

static inline uint64_t next_bits(struct chance *c)
{
    uint64_t z = c->state += 0x9E3779B97F4A7C15u;
    z = (z ^ z >> 30) * 0xBF58476D1CE4E5B9u;
    z = (z ^ z >> 27) * 0x94D049BB133111EBu;
    return z ^ z >> 31;
}

/* The numbers of one case, which can be made again without those before it. */
static inline struct chance chance_of(uint64_t seed, uint64_t number)
{
    struct chance c = {seed * 0x2545F4914F6CDD1Du + number};
    c.state = next_bits(&c);
    return c;
}

static inline uint32_t below(struct chance *c, uint32_t limit)
{
    return (uint32_t)((next_bits(c) >> 32) * limit >> 32);
}

static inline int between(struct chance *c, int low, int high)
{
    return low + (int)below(c, (uint32_t)(high - low + 1));
}

static inline int percent(struct chance *c, uint32_t p)
{
    return below(c, 100) < p;
}

/* A word as filters meet them, with the ends of the range and the seam more often than chance would have it. */
static inline uint32_t any_word(struct chance *c)
{
    static const uint32_t edges[] = {0, 1, 2, 0x7FFFFFFF, 0x80000000, 0x80000001, 0xFFFFFFFF, 0xFFFFFFFE, 0x20000000, 0xE0000000};
    return percent(c, 20) ? edges[below(c, 10)] : (uint32_t)next_bits(c);
}

static inline void any_bytes(struct chance *c, uint8_t *at, size_t count)
{
    for (size_t i = 0; i < count; i++) {
        at[i] = (uint8_t)next_bits(c);
    }
}

#endif
