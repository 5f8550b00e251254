/* The conversions of tables of the old edition in plain C: the two calls of include/moesi.h under other names. */

#ifndef PLAIN_EDITION_H
#define PLAIN_EDITION_H

#include <stddef.h>
#include <stdint.h>

uint64_t plain_from_old(uint64_t ports, uint64_t sets, uint64_t lines,
                        const uint8_t *tags, size_t tags_len,
                        const uint8_t *states, size_t states_len,
                        const uint8_t *data, size_t data_len,
                        uint8_t *tags_out, size_t tags_out_len,
                        uint8_t *states_out, size_t states_out_len,
                        uint8_t *data_out, size_t data_out_len);

uint64_t plain_to_old(uint64_t ports, uint64_t sets, uint64_t lines,
                      const uint8_t *tags, size_t tags_len,
                      const uint8_t *states, size_t states_len,
                      const uint8_t *data, size_t data_len,
                      uint8_t *tags_out, size_t tags_out_len,
                      uint8_t *states_out, size_t states_out_len,
                      uint8_t *data_out, size_t data_out_len);

#endif
