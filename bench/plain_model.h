/* A plain C model of the byte tables, nothing done for speed: the four calls of include/moesi.h under other names. */

#ifndef PLAIN_MODEL_H
#define PLAIN_MODEL_H

#include <stddef.h>
#include <stdint.h>

uint64_t plain_fresh(uint64_t ports, uint64_t sets, uint64_t lines,
                     uint64_t scratch_first, uint64_t scratch_count,
                     uint64_t device_first, uint64_t device_count,
                     const uint8_t *memory, size_t memory_len,
                     uint8_t *tags, size_t tags_len,
                     uint8_t *states, size_t states_len,
                     uint8_t *data, size_t data_len);

uint64_t plain_step(uint64_t ports, uint64_t sets, uint64_t lines,
                    uint64_t scratch_first, uint64_t scratch_count,
                    uint64_t device_first, uint64_t device_count,
                    uint64_t word, uint64_t operand,
                    uint8_t *memory, size_t memory_len,
                    uint8_t *tags, size_t tags_len,
                    uint8_t *states, size_t states_len,
                    uint8_t *data, size_t data_len,
                    uint8_t *answer, size_t answer_len);

uint64_t plain_step_totals(uint64_t ports, uint64_t sets, uint64_t lines,
                           uint64_t scratch_first, uint64_t scratch_count,
                           uint64_t device_first, uint64_t device_count,
                           uint64_t word, uint64_t operand,
                           uint8_t *memory, size_t memory_len,
                           uint8_t *tags, size_t tags_len,
                           uint8_t *states, size_t states_len,
                           uint8_t *data, size_t data_len,
                           uint8_t *answer, size_t answer_len,
                           uint8_t *record, size_t record_len);

uint64_t plain_audit(uint64_t ports, uint64_t sets, uint64_t lines,
                     uint64_t scratch_first, uint64_t scratch_count,
                     uint64_t device_first, uint64_t device_count,
                     const uint8_t *memory, size_t memory_len,
                     const uint8_t *tags, size_t tags_len,
                     const uint8_t *states, size_t states_len,
                     const uint8_t *data, size_t data_len,
                     uint8_t *verdict, size_t verdict_len);

#endif
