/* Random traffic for the tests: shapes, orders that meet each other, damage to tables, and noise. */

#ifndef TRAFFIC_H
#define TRAFFIC_H

#include "generator.h"
#include "pair.h"

/* The choices of one run, so that runs differ from each other in more than their numbers. */
struct traffic {
    struct second_shape shape;
    unsigned hot[8]; /* lines that many orders go to; most share an index, or are at the edges of a range */
    unsigned hot_count;
    unsigned hot_percent;
    unsigned hit_percent;  /* orders by a port that holds the line, where there is one */
    unsigned back_percent; /* orders in write back */
    unsigned odd_percent;  /* orders with a field out of its range */
    unsigned wide_percent; /* operands and words from all 64 bits, not few values */
    unsigned same_percent; /* operands made from the word that the port would find */
    unsigned weights[SECOND_KINDS]; /* of the kinds */
};

/* A shape of few entries, so that conflicts and evictions are frequent; its ranges are by traffic_ranges. */
struct second_shape traffic_small_shape(struct generator *generator);

/* Any shape; the limits come often. Its ranges are by traffic_ranges. */
struct second_shape traffic_any_shape(struct generator *generator);

/* Two ranges that end within lines: empty ones, wherever they start, parts of memory, all of it, and such as cross. */
void traffic_ranges(struct generator *generator, struct second_shape *shape);

/* The same, and then one of them or both end beyond lines: by one line, far, or by a sum that wraps. */
void traffic_ranges_beyond(struct generator *generator, struct second_shape *shape);

/* The shape with both ranges empty. */
struct second_shape traffic_without_ranges(struct second_shape shape);

/* The choices of a run on a shape. */
void traffic_begin(struct traffic *traffic, struct generator *generator, struct second_shape shape);

/* An order word from its fields. */
uint64_t traffic_word(uint64_t kind, uint64_t mode, uint64_t port, uint64_t mask, uint64_t line, uint64_t compare);

/* An order and its operand, with the tables seen: so that swaps succeed often, and often the word stays as it was. */
uint64_t traffic_order(const struct traffic *traffic, struct generator *generator, const struct second_model *model);
uint64_t traffic_operand(const struct traffic *traffic, struct generator *generator, const struct second_model *model,
                         uint64_t word);

/* Random words in main memory, few values or all 64 bits. */
void traffic_fill_memory(const struct traffic *traffic, struct generator *generator, struct second_model *model);

/* Any bytes in the three tables: what fresh has to clear. */
void traffic_fill_tables(struct generator *generator, struct second_model *model);

/* Spoils an entry or a word of memory, mostly where the orders go. */
void traffic_damage(const struct traffic *traffic, struct generator *generator, struct second_model *model);

/* A tag beyond the last line; now and then one that is not. */
uint32_t traffic_tag_beyond(struct generator *generator, struct second_shape shape);

/* Totals for a record: zeros, few, or close to 2^64 - 3; in half of them just one is above it. */
void traffic_totals(struct generator *generator, uint64_t totals[SECOND_TOTALS]);

/* Tables of random entries: mostly states, mostly tags of lines below lines. */
void traffic_noise(const struct traffic *traffic, struct generator *generator, struct second_model *model);

#endif
