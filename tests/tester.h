/* What a run of the differential test works with, what its groups share, and the groups in files of their own. */

#ifndef TESTER_H
#define TESTER_H

#include "history.h"
#include "traffic.h"

struct tester {
    const char *name;
    uint64_t seed;
    uint64_t percent; /* of the usual number of calls */
    size_t group;     /* the only group to run; GROUPS for all */
    size_t from;      /* the first group to run, unless there is only one */
    uint64_t run;     /* the only run of it; UINT64_MAX for all */
    int first;        /* stop at the first group that fails */
    int exact;        /* slices without guard bytes, for a memory checker */
    struct generator generator;
    struct pair pair;
    struct history history;
    struct traffic traffic;
};

/* A shape with empty ranges, in a list. */
#define SHAPE(ports, sets, lines) {ports, sets, lines, {0, 0}, {0, 0}}

/* Says what a call outside a history showed; gives 0. */
int report_call(struct tester *tester, const char *what, struct second_shape shape, uint64_t word, uint64_t operand);

/* An entry of the three tables, as a list has it. */
struct entry {
    unsigned state;
    uint32_t tag;
    uint64_t data;
};

/* The lent bytes as numbers, till the next call of this. */
const struct second_model *lent_numbers(const struct pair *pair);

/* Whether the lent answer is this one, and the lent tables and memory of the shape 2/1/2 are these. */
int answer_is(const struct pair *pair, const struct second_answer *answer);
int tables_are(const struct pair *pair, const struct entry entries[2], const uint64_t memory[2]);

/* One order on the table in history.start, which is lent anew for each order; 1 if all is as expected. */
int add_to_start(struct tester *tester, uint64_t word, uint64_t operand);

/* Two ports, one set, two lines, memory 5 and 7: begins a history from fresh; 1 if all is as expected. */
int begin_at_five_and_seven(struct tester *tester);

/* An order from that start and what it leaves, worked out by hand. */
struct worked_out {
    uint64_t word, operand;
    struct second_answer answer;
    struct entry entries[2]; /* of ports 0 and 1, after the order */
    uint64_t memory[2];
    unsigned marks[2]; /* of the flat memory */
};

/* Carries such orders out, one after another, with the audit, which says yes; 1 if all is as worked out. */
int worked_out_orders(struct tester *tester, const struct worked_out *orders, size_t count);

/* Whether the audit of the lent tables says so. */
int verdict_is(struct tester *tester, unsigned verdict);

/* Chooses a run's traffic on a shape, and fills main memory of history.start. */
void begin_traffic(struct tester *tester, struct second_shape shape);

/* Adds random orders to a history that has begun; 1 if all is as expected. */
int add_orders(struct tester *tester, size_t orders);

/* Carries out random orders from history.start, fresh or not; 1 if all is as expected. */
int run_history(struct tester *tester, int fresh, size_t orders);

/* A failed history: cut down, then printed; gives 0. */
int report_history(struct tester *tester);

/* Keeps memory and tables as they are lent; whether they are still so, or again. */
void keep_lent(const struct pair *pair);
int lent_is_kept(const struct pair *pair);

/* Places a record of any length up to 96 bytes, often of 80; and an answer of any length, mostly of 40. */
void place_some_record(struct tester *tester);
void place_some_answer(struct tester *tester);

/* Places slices again, those whose bit is set in wrong (memory or a table), mostly with other lengths. */
void misplace(struct tester *tester, unsigned wrong);

/* The shape with one number out of its range. */
struct second_shape out_of_range(struct generator *generator, struct second_shape shape);

/* The groups on stores that store the same: numbers worked out by hand (run 0 and 1), and stores in histories. */
int stores_numbers(struct tester *tester, uint64_t run);
int stores_in_histories(struct tester *tester, uint64_t run);

/* The groups on ranges: numbers worked out by hand, ranges against orders in the mode in force, refusals, what a device
   reads, ranges that change, and empty ones. */
enum { RANGES_PARTS = 4 };
int ranges_numbers(struct tester *tester, uint64_t run);
int ranges_are_modes(struct tester *tester, uint64_t run);
int ranges_refused(struct tester *tester, uint64_t run);
int ranges_device(struct tester *tester, uint64_t run);
int ranges_change(struct tester *tester, uint64_t run);
int ranges_empty(struct tester *tester, uint64_t run);

/* The groups on swaps that fail: numbers worked out by hand (run 0 to 2), as reads, as reads that are counted, in
   fights for locks, and before other orders on the same line. */
enum { SWAPS_PARTS = 3 };
int swaps_numbers(struct tester *tester, uint64_t run);
int swaps_are_reads(struct tester *tester, uint64_t run);
int swaps_are_counted(struct tester *tester, uint64_t run);
int swaps_for_locks(struct tester *tester, uint64_t run);
int swaps_before_others(struct tester *tester, uint64_t run);

/* The groups on totals: numbers worked out by hand (run 0 to 2), sums over histories, any records, other lengths. */
int totals_numbers(struct tester *tester, uint64_t run);
int totals_histories(struct tester *tester, uint64_t run);
int totals_records(struct tester *tester, uint64_t run);
int totals_lengths(struct tester *tester, uint64_t run);

/* The groups on tables of the old edition: bytes worked out by hand, any sets there and back, other lengths, the audit
   of every small set (run 0 to 2) and of any sets, and orders on converted ones. */
enum { EDITION_PARTS = 7 };
int edition_numbers(struct tester *tester, uint64_t run);
int edition_sets(struct tester *tester, uint64_t run);
int edition_lengths(struct tester *tester, uint64_t run);
int edition_every_set(struct tester *tester, uint64_t run);
int edition_audits(struct tester *tester, uint64_t run);
int edition_orders(struct tester *tester, uint64_t run);

#endif
