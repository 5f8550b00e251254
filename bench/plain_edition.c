/* Tables of the old edition into those of this one and back: a byte for each byte, looked up, and plain copies. */

#include "plain_edition.h"

#include <string.h>

/* What stands for a byte that has none in the other edition: it is no state, or its entry is in write through. */
enum { NONE = 255, THROUGH = 254 };

/* The new byte by the old one: I, and S, E, O, M in write back. */
static uint8_t new_byte(uint8_t old)
{
    static const uint8_t bytes[5] = {0, 9, 10, 11, 12};

    return old < 5 ? bytes[old] : NONE;
}

/* The old byte by the new one. */
static uint8_t old_byte(uint8_t state)
{
    static const uint8_t bytes[13] = {0, THROUGH, THROUGH, NONE, NONE, NONE, NONE, NONE, NONE, 1, 2, 3, 4};

    return state < 13 ? bytes[state] : NONE;
}

/* The three tables of a set, with their lengths. */
struct input {
    const uint8_t *tags, *states, *data;
    size_t tags_len, states_len, data_len;
};

struct output {
    uint8_t *tags, *states, *data;
    size_t tags_len, states_len, data_len;
};

static int is_shape(uint64_t ports, uint64_t sets, uint64_t lines)
{
    if (ports < 1 || ports > 8 || lines < 1 || lines > 4096)
        return 0;
    return sets >= 1 && sets <= 64 && 64 % sets == 0;
}

static int have_lengths(const struct input *in, const struct output *out, uint64_t entries)
{
    return in->tags_len == 4 * entries && in->states_len == entries && in->data_len == 8 * entries &&
           out->tags_len == 4 * entries && out->states_len == entries && out->data_len == 8 * entries;
}

/* 10 if some byte has none in the other edition, else 11 if some entry is in write through, else 0. */
static uint64_t refusal_of(const struct input *in, uint8_t (*other)(uint8_t))
{
    int through = 0;

    for (size_t k = 0; k < in->states_len; k++) {
        if (other(in->states[k]) == NONE)
            return 10;
        if (other(in->states[k]) == THROUGH)
            through = 1;
    }
    return through ? 11 : 0;
}

/* A conversion, with the byte of the other edition by the byte of the input's. */
static uint64_t convert(uint64_t ports, uint64_t sets, uint64_t lines, const struct input *in,
                        const struct output *out, uint8_t (*other)(uint8_t))
{
    uint64_t refusal;

    if (!is_shape(ports, sets, lines))
        return 2;
    if (!have_lengths(in, out, ports * sets))
        return 3;
    if ((refusal = refusal_of(in, other)))
        return refusal;
    for (size_t k = 0; k < in->states_len; k++)
        out->states[k] = other(in->states[k]);
    memcpy(out->tags, in->tags, in->tags_len);
    memcpy(out->data, in->data, in->data_len);
    return 0;
}

uint64_t plain_from_old(uint64_t ports, uint64_t sets, uint64_t lines,
                        const uint8_t *tags, size_t tags_len,
                        const uint8_t *states, size_t states_len,
                        const uint8_t *data, size_t data_len,
                        uint8_t *tags_out, size_t tags_out_len,
                        uint8_t *states_out, size_t states_out_len,
                        uint8_t *data_out, size_t data_out_len)
{
    struct input in = {tags, states, data, tags_len, states_len, data_len};
    struct output out = {tags_out, states_out, data_out, tags_out_len, states_out_len, data_out_len};

    return convert(ports, sets, lines, &in, &out, new_byte);
}

uint64_t plain_to_old(uint64_t ports, uint64_t sets, uint64_t lines,
                      const uint8_t *tags, size_t tags_len,
                      const uint8_t *states, size_t states_len,
                      const uint8_t *data, size_t data_len,
                      uint8_t *tags_out, size_t tags_out_len,
                      uint8_t *states_out, size_t states_out_len,
                      uint8_t *data_out, size_t data_out_len)
{
    struct input in = {tags, states, data, tags_len, states_len, data_len};
    struct output out = {tags_out, states_out, data_out, tags_out_len, states_out_len, data_out_len};

    return convert(ports, sets, lines, &in, &out, old_byte);
}
