/* The library and the second model side by side: each call is made to both, and every byte is compared after it. */

#ifndef PAIR_H
#define PAIR_H

#include "second_edition.h"

enum {
    LENT_GUARD = 64,       /* bytes kept on either side of a slice */
    LENT_CAPACITY = 40960, /* the longest slice: main memory at 4,096 lines, and some more */
    LENT_MAX_SKEW = 7      /* slices start at any alignment */
};

/* A slice lent to the library, in its room between guard bytes, and what it must hold after the call. */
struct lent {
    uint8_t *room;
    uint8_t *bytes;
    size_t length;
    uint8_t *expected;
    uint8_t guard[LENT_GUARD]; /* the guard bytes on either side, other ones for each slice: a copy too long shows */
};

/* The record is lent to STEP_TOTALS alone, and the old tables to the conversions, which are lent the tables besides. */
enum slice { MEMORY, TAGS, STATES, DATA, RESULT, RECORD, OLD_TAGS, OLD_STATES, OLD_DATA, SLICES };

/* FROM_OLD reads the old tables and writes the others, TO_OLD the other way. */
enum call { FRESH, STEP, AUDIT, STEP_TOTALS, FROM_OLD, TO_OLD };

/* The state bytes from I to M, counted from 0. */
enum { TALLY_STATES = 7 };

/* Which of the two ranges a line is in, or which end beyond lines. */
enum { IN_NEITHER, IN_SCRATCH, IN_DEVICE, IN_BOTH, PLACES };

/* One more than the highest refusal. */
enum { REFUSALS = 13 };

/* What the calls have met, so that a run can show that it met everything. */
struct tally {
    uint64_t calls;
    uint64_t fresh_refusals[REFUSALS];
    uint64_t step_refusals[REFUSALS];
    uint64_t audit_refusals[REFUSALS];
    uint64_t kinds[SECOND_KINDS];
    uint64_t swapped;
    uint64_t reads[2];
    uint64_t writes[3];
    uint64_t verdicts[2];
    /* In histories from fresh. */
    uint64_t devices_compared;
    uint64_t devices_not_compared;
    uint64_t device_writes[3];    /* merged from an owner's word, from memory's with holders, and without */
    uint64_t device_masks[3];     /* 0x00, 0xFF, any other */
    uint64_t device_ports_beyond; /* device writes with a port field that no port has */
    /* In histories: writes and swaps that succeed, by what they met. */
    uint64_t stores[2][TALLY_STATES][SECOND_OTHERS][2][2][2]; /* from fresh, own state, others, mode, swap, changed */
    uint64_t same_masks[3];    /* of those that stored the same: 0x00, 0xFF, any other */
    uint64_t same_refused[REFUSALS]; /* refused orders that would have stored the same, by refusal */
    /* In histories: swap misses that fail, by whether the tables fail the audit, mode in force, what the other ports
       have of the line, and whether a word of another line gives way. */
    uint64_t failed_misses[2][2][SECOND_OTHERS][2];
    /* In steps with a record. */
    uint64_t totals_refusals[REFUSALS];
    uint64_t totals_kinds[SECOND_KINDS];
    uint64_t totals_swaps[2];  /* swaps that failed and that succeeded */
    uint64_t totals_writes[3]; /* accepted orders by their memory writes */
    uint64_t records_of_other_length;
    uint64_t answers_of_other_length;   /* with a record that is not full */
    uint64_t nines_unanswered;          /* refusal 9 with an answer of another length */
    uint64_t brims[SECOND_TOTALS];      /* calls not refused 9 with the total there at 2^64 - 3 */
    uint64_t full[2][SECOND_TOTALS];    /* calls refused 9 for the total there alone, at 2^64 - 2 and at 2^64 - 1 */
    uint64_t last[SECOND_TOTALS];       /* totals that a call brought above 2^64 - 3 */
    /* In conversions from old, and to old. */
    uint64_t conversions[2][12];        /* by refusal */
    uint64_t converted[2][5];           /* entries of accepted ones, by letter: I, S, E, O, M */
    uint64_t lengths_alone[2][6];       /* refused 3 for the length of one table: tags, states, data, in and out */
    uint64_t tens_over_through[2];      /* to old, refused 10: a write-through entry before the byte, or after it */
    uint64_t there_and_back[2];         /* by the way that came first */
    /* Of old sets that were converted, or refused 10. */
    uint64_t old_verdicts[2];           /* that break a rule, and that keep all */
    uint64_t old_rules[SECOND_RULES];   /* that break that rule alone */
    uint64_t stepped;                   /* orders on sets that passed the audit */
    uint64_t stepped_back[2];           /* afterwards to old: accepted, refused 11 */
    /* Ranges, in calls of fresh, step, audit and step with a record. */
    uint64_t twelves[4][PLACES];        /* refused 12, by call and by what ends beyond lines */
    uint64_t other_first[4][REFUSALS];  /* refused 9, 2 or 3 although a range ends beyond lines */
    uint64_t twelve_first[8];           /* steps refused 12 whose order has refusal 4 to 7 too */
    uint64_t wraps[2];                  /* refused 12 for a sum of 64 bits that is at most lines: scratch, device */
    uint64_t empty_beyond[2];           /* not refused with an empty range that starts beyond lines */
    uint64_t to_the_end[2];             /* not refused with a range that ends with the last line */
    /* Accepted accesses in histories: reads, writes and swaps. */
    uint64_t ranged[2][PLACES][2][3];   /* from fresh, by place, the order's mode and kind */
    uint64_t edges[2][4];               /* before a range, on its first line, on its last, behind it */
    uint64_t changed_ranges;            /* orders under other ranges than the order before */
    uint64_t device_range_reads;        /* device reads in the device range, compared with the flat word */
};

struct pair {
    struct lent slices[SLICES];
    int exact; /* slices lie in blocks of exactly their size, without guard bytes, for a memory checker to watch */
    struct second_model second;
    int stale;                     /* slices were placed whose bytes the second model has not taken over */
    struct second_answer expected; /* of the last call */
    uint64_t returned;             /* by the library, from the last call */
    uint64_t before[SECOND_TOTALS]; /* the totals before the last call, if its record has the length of one */
    struct tally tally;
    char difference[600]; /* what differed after the last call; empty if nothing did */
};

/* The first of the three tables that a conversion reads, and of the three that it writes. */
enum slice pair_input_of(enum call call);
enum slice pair_output_of(enum call call);

/* Makes room for the slices; 0 if there is none. */
int pair_open(struct pair *pair);
void pair_close(struct pair *pair);

/* Places a slice of a length at an alignment, with guard bytes around it. Its bytes are all the same. */
void pair_place(struct pair *pair, enum slice slice, size_t length, unsigned skew);

/* An empty slice with the pointer NULL. */
void pair_place_null(struct pair *pair, enum slice slice);

/* Places a slice of a length at an alignment, with these bytes. */
void pair_place_bytes(struct pair *pair, enum slice slice, const uint8_t *bytes, size_t length, unsigned skew);

/* The same for a record. */
void pair_place_record(struct pair *pair, const uint8_t *bytes, size_t length, unsigned skew);

/* Places the slices that the second model's shape gives, and lends what the second model holds. The record and the old
   tables stay. */
void pair_lend(struct pair *pair, unsigned skew);

/* Makes a call to the library and to the second model; 1 if all is as expected. */
int pair_call(struct pair *pair, enum call call, struct second_shape shape, uint64_t word, uint64_t operand);

/* The calls with the second model's shape and a result slice of the right length; 1 if all is as expected. */
int pair_fresh(struct pair *pair);
int pair_step(struct pair *pair, uint64_t word, uint64_t operand);
int pair_step_totals(struct pair *pair, uint64_t word, uint64_t operand);
int pair_audit(struct pair *pair);

/* The verdict of the last audit, as the library gave it. */
unsigned pair_verdict(const struct pair *pair);

#endif
