/* A history: a start and orders, each carried out by the pair; and the search for a short one that fails. */

#ifndef HISTORY_H
#define HISTORY_H

#include "flat_memory.h"
#include "pair.h"

struct history_order {
    uint64_t word;
    uint64_t operand;
    unsigned ranges; /* the number of the history's ranges under which it is carried out */
};

/* Ranges that a history may change between: number 0 are those of the start. */
enum { HISTORY_RANGES = 8 };

struct history {
    struct second_model start;
    unsigned skew;
    int fresh; /* a call of fresh comes first, and the flat memory is fed the same orders */
    int chosen; /* single orders, each on the table in start, and no history: their stores are not counted */
    int totals; /* the orders are counted in a record, which starts with these totals */
    uint64_t totals_start[SECOND_TOTALS];
    uint64_t totals_due[SECOND_TOTALS]; /* those and the sums over the library's answers */
    struct second_answer given;         /* the library's answer to the last order */
    struct second_range scratch[HISTORY_RANGES];
    struct second_range device[HISTORY_RANGES];
    unsigned ranges; /* the number of those that stand */
    uint64_t audit_every;
    size_t count;
    size_t room;
    struct history_order *orders;
    struct flat_memory flat;
};

int history_open(struct history *history, size_t room);
void history_close(struct history *history);

/* Starts a history from history->start, with no orders yet, under the ranges of its shape; 1 if all is as expected. */
int history_begin(struct history *history, struct pair *pair);

/* Has other ranges of the history stand for the orders that come. */
void history_under(struct history *history, struct pair *pair, unsigned ranges);

/* Adds an order and carries it out; 1 if all is as expected. */
int history_add(struct history *history, struct pair *pair, uint64_t word, uint64_t operand);

/* The audit at the end; 1 if all is as expected. */
int history_end(struct history *history, struct pair *pair);

/* Leaves out orders of a history that fails, as long as it still fails. Leaves in pair what the last call showed. */
void history_shrink(struct history *history, struct pair *pair);

/* Prints a history that fails. */
void history_print(const struct history *history, const struct pair *pair);

#endif
