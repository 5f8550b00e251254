/* Random numbers for the tests: the same seed gives the same numbers on every host. */

#ifndef GENERATOR_H
#define GENERATOR_H

#include <stdint.h>

struct generator {
    uint64_t state;
};

static inline uint64_t generator_word(struct generator *generator)
{
    uint64_t z = generator->state += UINT64_C(0x9E3779B97F4A7C15);

    z = (z ^ z >> 30) * UINT64_C(0xBF58476D1CE4E5B9);
    z = (z ^ z >> 27) * UINT64_C(0x94D049BB133111EB);
    return z ^ z >> 31;
}

/* A number below limit, which is not 0. */
static inline unsigned generator_below(struct generator *generator, uint64_t limit)
{
    return (unsigned)(generator_word(generator) % limit);
}

/* 1 in percent of a hundred throws. */
static inline int generator_percent(struct generator *generator, unsigned percent)
{
    return generator_below(generator, 100) < percent;
}

#endif
