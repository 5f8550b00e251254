/* The second model on tables of the old edition, document 02's order 5: conversions, and the rules on five letters. */

#ifndef SECOND_EDITION_H
#define SECOND_EDITION_H

#include "second_model.h"

/* The three tables of a set of either edition, as bytes. */
struct second_tables {
    uint8_t *tags;
    uint8_t *states;
    uint8_t *data;
};

/* Refusal 2 of a shape, else refusal 3 of the input tables' lengths and the output tables'; 0 if none. A conversion has
   neither memory nor a result, so that these two lengths are not looked at, nor are the ranges. */
uint64_t second_conversion_refusal(struct second_shape shape, struct second_lengths from, struct second_lengths to);

/* The conversions beyond refusals 2 and 3: give 10, 11 or 0. A refused one leaves the output tables as they were. */
uint64_t second_from_old(struct second_shape shape, const struct second_tables *old, struct second_tables *to);
uint64_t second_to_old(struct second_shape shape, const struct second_tables *from, struct second_tables *old);

/* The audit's rules, read on the five letters. */
enum second_rule {
    SECOND_RULE_BYTES,  /* every byte is at most 4 */
    SECOND_RULE_HOMES,  /* every home line is below lines */
    SECOND_RULE_WORDS,  /* holders of a line have equal words */
    SECOND_RULE_ALONE,  /* a line held in E or M has one holder */
    SECOND_RULE_ONE_O,  /* a line has at most one O */
    SECOND_RULE_MEMORY, /* a held line without an owner equals memory */
    SECOND_RULES
};

/* The rules that an old set breaks beside its main memory, a bit each: the model's state bytes are old ones. */
unsigned second_old_breaks(const struct second_model *old);

/* Whether an old set keeps them all. */
int second_old_audit(const struct second_model *old);

#endif
