/* The flat memory of documents 01 and 02: a word and a mark per line, fed only each order's word and operand. */

#ifndef FLAT_MEMORY_H
#define FLAT_MEMORY_H

#include "second_model.h"

/* Under mark 0 memory has the line's word. Mark 1 says only that it may lack it: there need not be an owner. */
struct flat_memory {
    struct second_shape shape;
    uint64_t words[SECOND_MAX_LINES];
    uint8_t marks[SECOND_MAX_LINES];
};

/* What the flat memory says of an order. compared_value is 0 for an accepted device read of a line under mark 1. */
struct flat_answer {
    uint64_t refusal;
    uint64_t value;
    uint64_t swapped;
    int compared_value;
};

/* Words start as main memory (lines words), marks as 0. */
void flat_start(struct flat_memory *flat, struct second_shape shape, const uint64_t *memory);

struct flat_answer flat_order(struct flat_memory *flat, uint64_t word, uint64_t operand);

#endif
