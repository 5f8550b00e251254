/* The differential test's groups on totals: numbers worked out by hand, sums over histories, any record, any length. */

#include "tester.h"

#include <inttypes.h>
#include <stdio.h>
#include <string.h>

/* A total of the lent record, read byte by byte. */
static uint64_t total_at(const struct pair *pair, size_t place)
{
    uint64_t total = 0;

    for (size_t k = 8; k-- > 0;)
        total = 256 * total + pair->slices[RECORD].bytes[8 * place + k];
    return total;
}

/* Memory and tables as they were lent at some point. */
static uint8_t kept[4][8 * SECOND_MAX_LINES];

void keep_lent(const struct pair *pair)
{
    for (int s = MEMORY; s <= DATA; s++) {
        if (pair->slices[s].length > 0)
            memcpy(kept[s], pair->slices[s].bytes, pair->slices[s].length);
    }
}

int lent_is_kept(const struct pair *pair)
{
    for (int s = MEMORY; s <= DATA; s++) {
        if (pair->slices[s].length > 0 && memcmp(kept[s], pair->slices[s].bytes, pair->slices[s].length) != 0)
            return 0;
    }
    return 1;
}

/* Totals, number by number, worked out by hand from documents 01 and 02. */

struct totals_literal {
    uint64_t word, operand;
    uint64_t totals[10]; /* after the order: accepted of kinds 0 to 5, refused, reads, writes, swaps */
};

/* From fresh on memory 5 and 7, with one record from zeros. */
static const struct totals_literal totals_list[] = {
    /* Document 01's fourteen orders, as orders 4 and 7 of document 02 amend them. */
    {0x0000000000000008, 0, {1, 0, 0, 0, 0, 0, 0, 1, 0, 0}},
    {0x0000000000000018, 0, {2, 0, 0, 0, 0, 0, 0, 2, 0, 0}},
    {0x000000000000FF19, 9, {2, 1, 0, 0, 0, 0, 0, 2, 0, 0}},
    {0x0000000000000004, 0, {2, 1, 0, 0, 1, 0, 0, 3, 0, 0}},
    {0x0000000000000000, 0, {3, 1, 0, 0, 1, 0, 0, 3, 1, 0}},
    {0x0000000000000004, 0, {3, 1, 0, 0, 2, 0, 0, 4, 1, 0}},
    {0x0000000900000F0A, 4, {3, 1, 1, 0, 2, 0, 0, 4, 1, 1}},
    {0x0000000900000F1A, 0, {3, 1, 2, 0, 2, 0, 0, 4, 1, 1}},
    {0x0000000000010101, 0x1FF, {3, 2, 2, 0, 2, 0, 0, 5, 3, 1}},
    {0x0000000000010013, 0, {3, 2, 2, 1, 2, 0, 0, 5, 3, 1}},
    {0x000000010001F01A, 0, {3, 2, 3, 1, 2, 0, 0, 6, 3, 1}},
    {0x0000000000010019, 0, {3, 3, 3, 1, 2, 0, 0, 6, 3, 1}},
    {0x000000010001F002, 0, {3, 3, 4, 1, 2, 0, 0, 6, 4, 1}},
    {0x0000000000000020, 0, {3, 3, 4, 1, 2, 0, 1, 6, 4, 1}},
    /* A device writes a line that nobody holds; kind 6 is refused; it writes one that both ports hold in S. */
    {0xFF05, 6, {3, 3, 4, 1, 2, 1, 1, 7, 5, 1}},
    {0xFF06, 6, {3, 3, 4, 1, 2, 1, 2, 7, 5, 1}},
    {0x10105, 0xAA, {3, 3, 4, 1, 2, 2, 2, 8, 6, 1}},
    /* Port 0 writes that line, and the device takes the owner's word; port 0 writes it again. */
    {0x1FF09, 0x33, {3, 4, 4, 1, 2, 2, 2, 9, 6, 1}},
    {0x10005, 0, {3, 4, 4, 1, 2, 3, 2, 9, 7, 1}},
    {0x1FF09, 0x44, {3, 5, 4, 1, 2, 3, 2, 10, 7, 1}},
    /* A swap through that evicts it and succeeds, with one read and two writes; then flushes of E and of M. */
    {0x0000000600000F02, 8, {3, 5, 5, 1, 2, 3, 2, 11, 9, 2}},
    {0x03, 0, {3, 5, 5, 2, 2, 3, 2, 11, 9, 2}},
    {0xFF19, 1, {3, 6, 5, 2, 2, 3, 2, 12, 9, 2}},
    {0x13, 0, {3, 6, 5, 3, 2, 3, 2, 12, 10, 2}},
    /* A wrong mask, a wrong line and kind 7 are refused; a swap of an upper half succeeds. */
    {0xFF02, 0, {3, 6, 5, 3, 2, 3, 3, 12, 10, 2}},
    {0x20004, 0, {3, 6, 5, 3, 2, 3, 4, 12, 10, 2}},
    {0xFFFFFFFFFFFFFFFF, 0, {3, 6, 5, 3, 2, 3, 5, 12, 10, 2}},
    {0x000000000001F012, 0, {3, 6, 6, 3, 2, 3, 5, 13, 11, 3}},
    /* Swaps that fail are counted as swaps, with the reads and writes of a read: one from memory beside a copy, one
       that stores an owner's word, and one that stores the word that gives way too. */
    {0x0000000100010F0A, 9, {3, 6, 7, 3, 2, 3, 5, 14, 11, 3}},
    {0x1FF19, 5, {3, 7, 7, 3, 2, 3, 5, 14, 11, 3}},
    {0x10003, 0, {3, 7, 7, 4, 2, 3, 5, 14, 11, 3}},
    {0x0000000600010F02, 9, {3, 7, 8, 4, 2, 3, 5, 14, 12, 3}},
    {0x1FF19, 6, {3, 8, 8, 4, 2, 3, 5, 14, 12, 3}},
    {0xFF09, 7, {3, 9, 8, 4, 2, 3, 5, 15, 12, 3}},
    {0x0000000500010F02, 9, {3, 9, 9, 4, 2, 3, 5, 15, 14, 3}},
};

enum { TOTALS_ORDERS = sizeof totals_list / sizeof totals_list[0] };

/* Carries one of the list out and holds the record against the list. */
static int is_as_counted(struct tester *tester, const struct totals_literal *literal)
{
    struct pair *pair = &tester->pair;

    if (!pair_step_totals(pair, literal->word, literal->operand))
        return 0;
    for (size_t place = 0; place < 10; place++) {
        if (total_at(pair, place) != literal->totals[place]) {
            snprintf(pair->difference, sizeof pair->difference, "  total %zu is %" PRIu64 ", not as worked out\n",
                     place, total_at(pair, place));
            return 0;
        }
    }
    return 1;
}

static int totals_orders(struct tester *tester)
{
    static const uint8_t zeros[80];

    if (!begin_at_five_and_seven(tester))
        return report_history(tester);
    pair_place_record(&tester->pair, zeros, sizeof zeros, 5);
    for (size_t k = 0; k < TOTALS_ORDERS; k++) {
        const struct totals_literal *literal = &totals_list[k];

        if (!is_as_counted(tester, literal)) {
            printf("  order %zu of the list\n", k + 1);
            return report_call(tester, "step with a record", tester->pair.second.shape, literal->word,
                               literal->operand);
        }
    }
    return 1;
}

/* One call, with operand 9, on memory 5 and 7 at the shape 2/1/2. */
struct totals_case {
    struct second_shape shape;   /* as the call says it */
    size_t lengths[SLICES];      /* of memory, tags, states, data, answer and record */
    unsigned state;              /* of port 1's entry; the rest of the tables is zeros */
    uint64_t word;
    uint64_t record[12];         /* of which the record has its length */
    struct second_answer answer; /* its refusal is returned too; written where the answer has 40 bytes */
    uint64_t adds[10];           /* to the totals */
};

/* Ten totals, and two numbers more for records that are too long. */
#define TOTALS {1, 2, 3, 4, 5, 6, 7, 8, 9, 10, 11, 12}
#define FULL {1, 2, 3, 4, 5, 6, 7, 8, 9, 0xFFFFFFFFFFFFFFFE, 11, 12}
#define ALL {M, M, M, M, M, M, M, M, M, M, M, M}
#define M 0xFFFFFFFFFFFFFFFF
#define FITTING {16, 8, 2, 16, 40, 80}
#define REFUSED {0, 0, 0, 0, 0, 0, 1, 0, 0, 0}
#define BEYOND_SCRATCH {2, 1, 2, {1, 2}, {0, 2}}
#define BEYOND_DEVICE {2, 1, 2, {3, 0}, {M, 1}}
#define NOWHERE {0, 0, 0, 0, 0, 0, 0, 0, 0, 0}

static const struct totals_case totals_case_list[] = {
    /* Each kind, accepted; swaps that succeed and fail; orders that store. */
    {SHAPE(2, 1, 2), FITTING, 0, 0x08, TOTALS, {0, 5, 0, 1, 0}, {1, 0, 0, 0, 0, 0, 0, 1, 0, 0}},
    {SHAPE(2, 1, 2), FITTING, 0, 0xFF09, TOTALS, {0, 0, 0, 1, 0}, {0, 1, 0, 0, 0, 0, 0, 1, 0, 0}},
    {SHAPE(2, 1, 2), FITTING, 0, 0xFF01, TOTALS, {0, 0, 0, 1, 1}, {0, 1, 0, 0, 0, 0, 0, 1, 1, 0}},
    {SHAPE(2, 1, 2), FITTING, 0, 0x0000000500000F0A, TOTALS, {0, 5, 1, 1, 0}, {0, 0, 1, 0, 0, 0, 0, 1, 0, 1}},
    {SHAPE(2, 1, 2), FITTING, 0, 0x0000000500000F02, TOTALS, {0, 5, 1, 1, 1}, {0, 0, 1, 0, 0, 0, 0, 1, 1, 1}},
    {SHAPE(2, 1, 2), FITTING, 0, 0x0000000600000F02, TOTALS, {0, 5, 0, 1, 0}, {0, 0, 1, 0, 0, 0, 0, 1, 0, 0}},
    {SHAPE(2, 1, 2), FITTING, 0, 0x03, TOTALS, {0, 0, 0, 0, 0}, {0, 0, 0, 1, 0, 0, 0, 0, 0, 0}},
    {SHAPE(2, 1, 2), FITTING, 0, 0x04, TOTALS, {0, 5, 0, 1, 0}, {0, 0, 0, 0, 1, 0, 0, 1, 0, 0}},
    {SHAPE(2, 1, 2), FITTING, 0, 0xFF05, TOTALS, {0, 0, 0, 1, 1}, {0, 0, 0, 0, 0, 1, 0, 1, 1, 0}},
    {SHAPE(2, 1, 2), FITTING, 3, 0x04, TOTALS, {0, 5, 0, 1, 0}, {0, 0, 0, 0, 1, 0, 0, 1, 0, 0}},
    /* Refusals 4 to 8 are counted as refused, and nowhere else. */
    {SHAPE(2, 1, 2), FITTING, 0, 0xFF06, TOTALS, {4, 0, 0, 0, 0}, REFUSED},
    {SHAPE(2, 1, 2), FITTING, 0, 0xFF07, TOTALS, {4, 0, 0, 0, 0}, REFUSED},
    {SHAPE(2, 1, 2), FITTING, 0, 0x20, TOTALS, {5, 0, 0, 0, 0}, REFUSED},
    {SHAPE(2, 1, 2), FITTING, 0, 0xFF21, TOTALS, {5, 0, 0, 0, 0}, REFUSED},
    {SHAPE(2, 1, 2), FITTING, 0, 0x20004, TOTALS, {6, 0, 0, 0, 0}, REFUSED},
    {SHAPE(2, 1, 2), FITTING, 0, 0x2FF05, TOTALS, {6, 0, 0, 0, 0}, REFUSED},
    {SHAPE(2, 1, 2), FITTING, 0, 0x000000050000FF02, TOTALS, {7, 0, 0, 0, 0}, REFUSED},
    {SHAPE(2, 1, 2), FITTING, 3, 0x08, TOTALS, {8, 0, 0, 0, 0}, REFUSED},
    {SHAPE(2, 1, 2), FITTING, 3, 0x03, TOTALS, {8, 0, 0, 0, 0}, REFUSED},
    {SHAPE(2, 1, 2), FITTING, 3, 0xFF05, TOTALS, {8, 0, 0, 0, 0}, REFUSED},
    /* So are 2, and 3 of memory and of the tables. */
    {SHAPE(0, 1, 2), FITTING, 0, 0x08, TOTALS, {2, 0, 0, 0, 0}, REFUSED},
    {SHAPE(9, 1, 2), FITTING, 0, 0x08, TOTALS, {2, 0, 0, 0, 0}, REFUSED},
    {SHAPE(2, 3, 2), FITTING, 0, 0x08, TOTALS, {2, 0, 0, 0, 0}, REFUSED},
    {SHAPE(2, 1, 4097), FITTING, 0, 0x04, TOTALS, {2, 0, 0, 0, 0}, REFUSED},
    {SHAPE(2, 1, 2), {15, 8, 2, 16, 40, 80}, 0, 0x08, TOTALS, {3, 0, 0, 0, 0}, REFUSED},
    {SHAPE(2, 1, 2), {16, 9, 2, 16, 40, 80}, 0, 0x08, TOTALS, {3, 0, 0, 0, 0}, REFUSED},
    {SHAPE(2, 1, 2), {16, 8, 0, 16, 40, 80}, 0, 0x08, TOTALS, {3, 0, 0, 0, 0}, REFUSED},
    {SHAPE(2, 1, 2), {16, 8, 2, 24, 40, 80}, 0, 0x08, TOTALS, {3, 0, 0, 0, 0}, REFUSED},
    /* And 3 of the answer, which is left alone; 2 comes before it. */
    {SHAPE(2, 1, 2), {16, 8, 2, 16, 39, 80}, 0, 0x08, TOTALS, {3, 0, 0, 0, 0}, REFUSED},
    {SHAPE(2, 1, 2), {16, 8, 2, 16, 41, 80}, 0, 0x08, TOTALS, {3, 0, 0, 0, 0}, REFUSED},
    {SHAPE(2, 1, 2), {16, 8, 2, 16, 0, 80}, 0, 0x08, TOTALS, {3, 0, 0, 0, 0}, REFUSED},
    {SHAPE(2, 1, 2), {16, 8, 2, 16, 80, 80}, 0, 0xFF05, TOTALS, {3, 0, 0, 0, 0}, REFUSED},
    {SHAPE(2, 1, 2), {16, 8, 2, 16, 39, 80}, 0, 0xFF07, TOTALS, {3, 0, 0, 0, 0}, REFUSED},
    {SHAPE(2, 1, 2), {16, 8, 3, 16, 39, 80}, 0, 0x08, TOTALS, {3, 0, 0, 0, 0}, REFUSED},
    {SHAPE(9, 1, 2), {16, 8, 2, 16, 39, 80}, 0, 0x08, TOTALS, {2, 0, 0, 0, 0}, REFUSED},
    /* And 12, whatever the order; 2 and 3 come before it. */
    {BEYOND_SCRATCH, FITTING, 0, 0x08, TOTALS, {12, 0, 0, 0, 0}, REFUSED},
    {BEYOND_DEVICE, FITTING, 0, 0x08, TOTALS, {12, 0, 0, 0, 0}, REFUSED},
    {BEYOND_DEVICE, FITTING, 0, 0x0000000500000F0A, TOTALS, {12, 0, 0, 0, 0}, REFUSED},
    {BEYOND_SCRATCH, FITTING, 0, 0x03, TOTALS, {12, 0, 0, 0, 0}, REFUSED},
    {BEYOND_SCRATCH, FITTING, 0, 0x04, TOTALS, {12, 0, 0, 0, 0}, REFUSED},
    {BEYOND_DEVICE, FITTING, 0, 0xFF05, TOTALS, {12, 0, 0, 0, 0}, REFUSED},
    {BEYOND_SCRATCH, FITTING, 0, 0xFF07, TOTALS, {12, 0, 0, 0, 0}, REFUSED},
    {BEYOND_DEVICE, FITTING, 0, 0x20, TOTALS, {12, 0, 0, 0, 0}, REFUSED},
    {BEYOND_DEVICE, FITTING, 3, 0x08, TOTALS, {12, 0, 0, 0, 0}, REFUSED},
    {{9, 1, 2, {0, 3}, {0, 0}}, FITTING, 0, 0x08, TOTALS, {2, 0, 0, 0, 0}, REFUSED},
    {BEYOND_SCRATCH, {16, 8, 3, 16, 40, 80}, 0, 0x08, TOTALS, {3, 0, 0, 0, 0}, REFUSED},
    {BEYOND_DEVICE, {16, 8, 2, 16, 39, 80}, 0, 0x08, TOTALS, {3, 0, 0, 0, 0}, REFUSED},
    /* In a range the mode in force decides what is counted: a write in scratch stores nothing, one in the device range
       does. */
    {{2, 1, 2, {0, 1}, {0, 0}}, FITTING, 0, 0xFF01, TOTALS, {0, 0, 0, 1, 0}, {0, 1, 0, 0, 0, 0, 0, 1, 0, 0}},
    {{2, 1, 2, {1, 1}, {0, 1}}, FITTING, 0, 0xFF09, TOTALS, {0, 0, 0, 1, 1}, {0, 1, 0, 0, 0, 0, 0, 1, 1, 0}},
    {{2, 1, 2, {0, 2}, {0, 2}}, FITTING, 0, 0xFF01, TOTALS, {0, 0, 0, 1, 0}, {0, 1, 0, 0, 0, 0, 0, 1, 0, 0}},
    /* A record of another length is refused 3 and left alone. */
    {SHAPE(2, 1, 2), {16, 8, 2, 16, 40, 0}, 0, 0x08, TOTALS, {3, 0, 0, 0, 0}, NOWHERE},
    {SHAPE(2, 1, 2), {16, 8, 2, 16, 40, 1}, 0, 0x08, TOTALS, {3, 0, 0, 0, 0}, NOWHERE},
    {SHAPE(2, 1, 2), {16, 8, 2, 16, 40, 40}, 0, 0x08, TOTALS, {3, 0, 0, 0, 0}, NOWHERE},
    {SHAPE(2, 1, 2), {16, 8, 2, 16, 40, 72}, 0, 0x08, TOTALS, {3, 0, 0, 0, 0}, NOWHERE},
    {SHAPE(2, 1, 2), {16, 8, 2, 16, 40, 79}, 0, 0x08, TOTALS, {3, 0, 0, 0, 0}, NOWHERE},
    {SHAPE(2, 1, 2), {16, 8, 2, 16, 40, 81}, 0, 0x08, TOTALS, {3, 0, 0, 0, 0}, NOWHERE},
    {SHAPE(2, 1, 2), {16, 8, 2, 16, 40, 88}, 0, 0x08, TOTALS, {3, 0, 0, 0, 0}, NOWHERE},
    {SHAPE(2, 1, 2), {16, 8, 2, 16, 40, 96}, 0, 0x08, TOTALS, {3, 0, 0, 0, 0}, NOWHERE},
    /* Also where all its totals are too high, for 9 is asked of a record of its length. */
    {SHAPE(2, 1, 2), {16, 8, 2, 16, 40, 72}, 0, 0x08, ALL, {3, 0, 0, 0, 0}, NOWHERE},
    {SHAPE(2, 1, 2), {16, 8, 2, 16, 40, 79}, 0, 0x08, ALL, {3, 0, 0, 0, 0}, NOWHERE},
    {SHAPE(2, 1, 2), {16, 8, 2, 16, 40, 81}, 0, 0x08, ALL, {3, 0, 0, 0, 0}, NOWHERE},
    {SHAPE(2, 1, 2), {16, 8, 2, 16, 40, 88}, 0, 0x08, ALL, {3, 0, 0, 0, 0}, NOWHERE},
    /* 2 comes before that 3, and that 3 before 12 and 4 to 8. With a wrong answer too nothing is written. */
    {BEYOND_SCRATCH, {16, 8, 2, 16, 40, 79}, 0, 0x08, TOTALS, {3, 0, 0, 0, 0}, NOWHERE},
    {BEYOND_DEVICE, {16, 8, 2, 16, 40, 88}, 0, 0x08, ALL, {3, 0, 0, 0, 0}, NOWHERE},
    {SHAPE(9, 1, 2), {16, 8, 2, 16, 40, 79}, 0, 0x08, TOTALS, {2, 0, 0, 0, 0}, NOWHERE},
    {SHAPE(2, 5, 2), {16, 8, 2, 16, 40, 88}, 0, 0x08, ALL, {2, 0, 0, 0, 0}, NOWHERE},
    {SHAPE(2, 1, 0), {16, 8, 2, 16, 40, 0}, 0, 0x08, TOTALS, {2, 0, 0, 0, 0}, NOWHERE},
    {SHAPE(2, 1, 2), {15, 8, 2, 16, 40, 79}, 0, 0x08, TOTALS, {3, 0, 0, 0, 0}, NOWHERE},
    {SHAPE(2, 1, 2), {16, 8, 2, 16, 39, 79}, 0, 0x08, TOTALS, {3, 0, 0, 0, 0}, NOWHERE},
    {SHAPE(9, 1, 2), {16, 8, 2, 16, 39, 79}, 0, 0x08, TOTALS, {2, 0, 0, 0, 0}, NOWHERE},
    {SHAPE(2, 1, 2), {16, 8, 2, 16, 40, 79}, 0, 0xFF07, TOTALS, {3, 0, 0, 0, 0}, NOWHERE},
    {SHAPE(2, 1, 2), {16, 8, 2, 16, 40, 79}, 0, 0x20, TOTALS, {3, 0, 0, 0, 0}, NOWHERE},
    {SHAPE(2, 1, 2), {16, 8, 2, 16, 40, 79}, 0, 0x20004, TOTALS, {3, 0, 0, 0, 0}, NOWHERE},
    {SHAPE(2, 1, 2), {16, 8, 2, 16, 40, 79}, 0, 0xFF02, TOTALS, {3, 0, 0, 0, 0}, NOWHERE},
    {SHAPE(2, 1, 2), {16, 8, 2, 16, 40, 79}, 3, 0x08, TOTALS, {3, 0, 0, 0, 0}, NOWHERE},
    /* 9 comes before every other: before acceptance, 2, 3 of each slice, 12, and 4 to 8. It is counted nowhere. */
    {BEYOND_SCRATCH, FITTING, 0, 0x08, FULL, {9, 0, 0, 0, 0}, NOWHERE},
    {BEYOND_DEVICE, FITTING, 0, 0x08, ALL, {9, 0, 0, 0, 0}, NOWHERE},
    {SHAPE(2, 1, 2), FITTING, 0, 0x08, FULL, {9, 0, 0, 0, 0}, NOWHERE},
    {SHAPE(2, 1, 2), FITTING, 0, 0xFF05, FULL, {9, 0, 0, 0, 0}, NOWHERE},
    {SHAPE(2, 1, 2), FITTING, 0, 0x0000000500000F02, ALL, {9, 0, 0, 0, 0}, NOWHERE},
    {SHAPE(9, 1, 2), FITTING, 0, 0x08, FULL, {9, 0, 0, 0, 0}, NOWHERE},
    {SHAPE(2, 0, 2), FITTING, 0, 0x08, FULL, {9, 0, 0, 0, 0}, NOWHERE},
    {SHAPE(2, 1, M), FITTING, 0, 0x08, FULL, {9, 0, 0, 0, 0}, NOWHERE},
    {SHAPE(2, 1, 2), {15, 8, 2, 16, 40, 80}, 0, 0x08, FULL, {9, 0, 0, 0, 0}, NOWHERE},
    {SHAPE(2, 1, 2), {16, 0, 2, 16, 40, 80}, 0, 0x08, FULL, {9, 0, 0, 0, 0}, NOWHERE},
    {SHAPE(2, 1, 2), {16, 8, 3, 16, 40, 80}, 0, 0x08, FULL, {9, 0, 0, 0, 0}, NOWHERE},
    {SHAPE(2, 1, 2), {16, 8, 2, 17, 40, 80}, 0, 0x08, FULL, {9, 0, 0, 0, 0}, NOWHERE},
    {SHAPE(2, 1, 2), FITTING, 0, 0xFF07, FULL, {9, 0, 0, 0, 0}, NOWHERE},
    {SHAPE(2, 1, 2), FITTING, 0, 0x20, FULL, {9, 0, 0, 0, 0}, NOWHERE},
    {SHAPE(2, 1, 2), FITTING, 0, 0x20004, FULL, {9, 0, 0, 0, 0}, NOWHERE},
    {SHAPE(2, 1, 2), FITTING, 0, 0xFF02, FULL, {9, 0, 0, 0, 0}, NOWHERE},
    {SHAPE(2, 1, 2), FITTING, 3, 0x08, FULL, {9, 0, 0, 0, 0}, NOWHERE},
    /* An answer of another length is left alone, and 9 is returned; also where shape and memory are wrong too. */
    {SHAPE(2, 1, 2), {16, 8, 2, 16, 39, 80}, 0, 0x08, FULL, {9, 0, 0, 0, 0}, NOWHERE},
    {SHAPE(2, 1, 2), {16, 8, 2, 16, 41, 80}, 0, 0x08, FULL, {9, 0, 0, 0, 0}, NOWHERE},
    {SHAPE(2, 1, 2), {16, 8, 2, 16, 0, 80}, 0, 0x08, FULL, {9, 0, 0, 0, 0}, NOWHERE},
    {SHAPE(9, 1, 2), {15, 8, 2, 16, 39, 80}, 0, 0x08, FULL, {9, 0, 0, 0, 0}, NOWHERE},
};

enum { TOTALS_CASES = sizeof totals_case_list / sizeof totals_case_list[0] };

/* Numbers as the bytes of a record. */
static void put_numbers(const uint64_t *numbers, size_t count, uint8_t *bytes)
{
    for (size_t k = 0; k < 8 * count; k++)
        bytes[k] = (uint8_t)(numbers[k / 8] >> 8 * (k % 8) & 255);
}

/* Lends history.start and a record of a length cut from the numbers. */
static void lend_with_record(struct tester *tester, const uint64_t *numbers, size_t length)
{
    uint8_t bytes[96];

    put_numbers(numbers, 12, bytes);
    tester->pair.second = tester->history.start;
    pair_lend(&tester->pair, generator_below(&tester->generator, 8));
    pair_place_record(&tester->pair, bytes, length, generator_below(&tester->generator, 8));
}

/* Whether the record has what it had, and to that what is added if it has its length. */
static int record_is(const struct pair *pair, const uint64_t *numbers, const uint64_t *adds)
{
    uint64_t sums[12];
    uint8_t bytes[96];

    for (size_t place = 0; place < 12; place++)
        sums[place] = numbers[place] + (place < 10 ? adds[place] : 0);
    put_numbers(sums, 12, bytes);
    return memcmp(bytes, pair->slices[RECORD].bytes, pair->slices[RECORD].length) == 0;
}

/* Whether a step without a record, on history.start, gives the memory and tables that are kept, and the answer. */
static int same_without_record(struct tester *tester, const struct totals_case *wanted)
{
    struct pair *pair = &tester->pair;
    struct second_answer given;

    pair->second = tester->history.start;
    pair->second.shape = wanted->shape;
    pair_lend(pair, 0);
    if (!pair_step(pair, wanted->word, 9))
        return 0;
    given = second_decode_answer(pair->slices[RESULT].bytes);
    return lent_is_kept(pair) && memcmp(&given, &wanted->answer, sizeof given) == 0;
}

/* A call on slices that lie as it says, held against its answer and what it adds. */
static int call_is(struct tester *tester, const struct totals_case *wanted)
{
    struct pair *pair = &tester->pair;
    struct second_answer given;

    keep_lent(pair);
    if (!pair_call(pair, STEP_TOTALS, wanted->shape, wanted->word, 9))
        return report_call(tester, "step with a record", wanted->shape, wanted->word, 9);
    snprintf(pair->difference, sizeof pair->difference, "  the call is not as worked out\n");
    if (pair->returned != wanted->answer.refusal || !record_is(pair, wanted->record, wanted->adds))
        return report_call(tester, "step with a record", wanted->shape, wanted->word, 9);
    if (pair->slices[RESULT].length == 40) {
        given = second_decode_answer(pair->slices[RESULT].bytes);
        if (memcmp(&given, &wanted->answer, sizeof given) != 0)
            return report_call(tester, "step with a record", wanted->shape, wanted->word, 9);
    }
    if (wanted->answer.refusal != 0)
        return lent_is_kept(pair) || report_call(tester, "refused step with a record", wanted->shape, wanted->word, 9);
    keep_lent(pair);
    return same_without_record(tester, wanted) ||
           report_call(tester, "step without a record", wanted->shape, wanted->word, 9);
}

/* The start of the cases: memory 5 and 7, and tables of zeros. */
static struct second_model *small_start(struct tester *tester)
{
    static const struct second_shape shape = SHAPE(2, 1, 2);
    struct second_model *start = &tester->history.start;

    memset(start, 0, sizeof *start);
    start->shape = shape;
    start->memory[0] = 5;
    start->memory[1] = 7;
    return start;
}

static int totals_cases(struct tester *tester)
{
    for (size_t k = 0; k < TOTALS_CASES; k++) {
        const struct totals_case *chosen = &totals_case_list[k];

        small_start(tester)->states[1] = (uint8_t)chosen->state;
        lend_with_record(tester, chosen->record, chosen->lengths[RECORD]);
        for (int s = MEMORY; s <= RESULT; s++) {
            if (tester->pair.slices[s].length != chosen->lengths[s])
                pair_place(&tester->pair, (enum slice)s, chosen->lengths[s], (unsigned)k % 8);
        }
        if (!call_is(tester, chosen)) {
            printf("  case %zu of the list\n", k + 1);
            return 0;
        }
    }
    return 1;
}

/* Orders where port 0 holds line 1 in M with the word 0x70: every total is added to by one of them. */
static const struct totals_case limit_list[] = {
    {SHAPE(2, 1, 2), FITTING, 0, 0x10, TOTALS, {0, 5, 0, 1, 0}, {1, 0, 0, 0, 0, 0, 0, 1, 0, 0}},
    {SHAPE(2, 1, 2), FITTING, 0, 0x1FF09, TOTALS, {0, 0, 0, 0, 0}, {0, 1, 0, 0, 0, 0, 0, 0, 0, 0}},
    {SHAPE(2, 1, 2), FITTING, 0, 0x0000000500000F02, TOTALS, {0, 5, 1, 1, 2}, {0, 0, 1, 0, 0, 0, 0, 1, 2, 1}},
    {SHAPE(2, 1, 2), FITTING, 0, 0x10003, TOTALS, {0, 0, 0, 0, 1}, {0, 0, 0, 1, 0, 0, 0, 0, 1, 0}},
    {SHAPE(2, 1, 2), FITTING, 0, 0x04, TOTALS, {0, 5, 0, 1, 0}, {0, 0, 0, 0, 1, 0, 0, 1, 0, 0}},
    {SHAPE(2, 1, 2), FITTING, 0, 0xFF05, TOTALS, {0, 0, 0, 1, 1}, {0, 0, 0, 0, 0, 1, 0, 1, 1, 0}},
    {SHAPE(2, 1, 2), FITTING, 0, 0x1FF05, TOTALS, {0, 0, 0, 0, 1}, {0, 0, 0, 0, 0, 1, 0, 0, 1, 0}},
    {SHAPE(2, 1, 2), FITTING, 0, 0x20, TOTALS, {5, 0, 0, 0, 0}, REFUSED},
};

enum { LIMIT_ORDERS = sizeof limit_list / sizeof limit_list[0] };

/* One of these orders with some totals at a height: up to 2^64 - 3 it is carried out and added, above it refused 9. */
static int call_at(struct tester *tester, size_t k, unsigned places, uint64_t height)
{
    static const struct second_answer nine = {9, 0, 0, 0, 0};
    struct totals_case wanted = limit_list[k];
    struct second_model *start = small_start(tester);

    start->states[0] = 12;
    start->tags[0] = 1;
    start->data[0] = 0x70;
    for (size_t place = 0; place < 10; place++) {
        if (places >> place & 1)
            wanted.record[place] = height;
    }
    if (height > 0xFFFFFFFFFFFFFFFD) {
        wanted.answer = nine;
        memset(wanted.adds, 0, sizeof wanted.adds);
    }
    lend_with_record(tester, wanted.record, 80);
    if (call_is(tester, &wanted))
        return 1;
    printf("  order %zu of the list, totals 0x%x at %" PRIu64 "\n", k + 1, places, height);
    return 0;
}

/* Each order with each total alone, and with all of them, at and around 2^64 - 3. */
static int totals_limits(struct tester *tester)
{
    static const uint64_t heights[5] = {0xFFFFFFFFFFFFFFFF, 0xFFFFFFFFFFFFFFFE, 0xFFFFFFFFFFFFFFFD,
                                        0xFFFFFFFFFFFFFFFC, 0x8000000000000000};

    for (size_t k = 0; k < LIMIT_ORDERS; k++) {
        for (size_t h = 0; h < 5; h++) {
            for (unsigned place = 0; place < 10; place++) {
                if (!call_at(tester, k, 1u << place, heights[h]))
                    return 0;
            }
            if (!call_at(tester, k, 0x3FF, heights[h]))
                return 0;
        }
    }
    return 1;
}

/* Run 0: orders from fresh on one record. Run 1: single calls. Run 2: totals at their limits. */
int totals_numbers(struct tester *tester, uint64_t run)
{
    static int (*const parts[3])(struct tester *) = {totals_orders, totals_cases, totals_limits};

    return parts[run % 3](tester);
}

/* Histories with a record from zeros. */

enum { MOST_TOTALS_ORDERS = 260 };

static struct second_answer answers[MOST_TOTALS_ORDERS];

/* Random orders from history.start on a record from zeros; the answers are kept, and memory and tables at the end. */
static int run_with_record(struct tester *tester, size_t orders)
{
    struct history *history = &tester->history;

    history->fresh = 1;
    history->totals = 1;
    memset(history->totals_start, 0, sizeof history->totals_start);
    if (!history_begin(history, &tester->pair))
        return report_history(tester);
    for (size_t k = 0; k < orders; k++) {
        uint64_t word = traffic_order(&tester->traffic, &tester->generator, &tester->pair.second);
        uint64_t operand = traffic_operand(&tester->traffic, &tester->generator, &tester->pair.second, word);

        if (!history_add(history, &tester->pair, word, operand))
            return report_history(tester);
        answers[k] = history->given;
    }
    keep_lent(&tester->pair);
    return history_end(history, &tester->pair) || report_history(tester);
}

/* The same orders without a record: the same answers, and memory and tables at the end. */
static int run_without_record(struct tester *tester, size_t orders)
{
    struct history *history = &tester->history;
    size_t k = 0;

    history->totals = 0;
    if (!history_begin(history, &tester->pair))
        return report_history(tester);
    while (k < orders) {
        if (!history_add(history, &tester->pair, history->orders[k].word, history->orders[k].operand))
            return report_history(tester);
        if (memcmp(&history->given, &answers[k], sizeof answers[k]) != 0)
            break;
        k++;
    }
    if (k == orders && lent_is_kept(&tester->pair))
        return 1;
    snprintf(tester->pair.difference, sizeof tester->pair.difference,
             "  with a record the run is another from order %zu on\n", k + 1);
    history_print(history, &tester->pair);
    return 0;
}

int totals_histories(struct tester *tester, uint64_t run)
{
    struct generator *generator = &tester->generator;
    size_t orders = generator_below(generator, MOST_TOTALS_ORDERS + 1);

    begin_traffic(tester, run % 8 < 7 ? traffic_small_shape(generator) : traffic_any_shape(generator));
    traffic_fill_tables(generator, &tester->history.start);
    return run_with_record(tester, orders) && run_without_record(tester, orders);
}

/* Records of any totals. */

/* A few orders on each of several records: from fresh beside the flat memory, or on noise and damaged tables. */
int totals_records(struct tester *tester, uint64_t run)
{
    struct generator *generator = &tester->generator;
    struct second_model *start = &tester->history.start;
    int fresh = run % 2 == 0;

    begin_traffic(tester, run % 16 < 15 ? traffic_small_shape(generator) : traffic_any_shape(generator));
    tester->traffic.odd_percent = 15;
    if (fresh)
        traffic_fill_tables(generator, start);
    else
        traffic_noise(&tester->traffic, generator, start);
    for (unsigned rounds = 1 + generator_below(generator, 5); rounds > 0; rounds--) {
        tester->history.totals = 1;
        traffic_totals(generator, tester->history.totals_start);
        if (!run_history(tester, fresh, 1 + generator_below(generator, 12)))
            return 0;
        *start = tester->pair.second;
        for (unsigned k = generator_below(generator, 3); run % 2 && k > 0; k--)
            traffic_damage(&tester->traffic, generator, start);
        fresh = 0;
    }
    return 1;
}

/* Records and answers of other lengths. */

struct second_shape out_of_range(struct generator *generator, struct second_shape shape)
{
    static const uint64_t odd[3][4] = {{0, 9, 16, UINT64_C(1) << 32}, {0, 3, 128, UINT64_C(1) << 32},
                                       {0, 4097, 65536, UINT64_C(1) << 61}};
    uint64_t *numbers[3] = {&shape.ports, &shape.sets, &shape.lines};
    unsigned which = generator_below(generator, 3);

    *numbers[which] = odd[which][generator_below(generator, 4)];
    return shape;
}

void place_some_record(struct tester *tester)
{
    struct generator *generator = &tester->generator;
    size_t length = generator_percent(generator, 50) ? SECOND_RECORD_BYTES : generator_below(generator, 97);
    uint64_t numbers[12] = {0};
    uint8_t bytes[96];

    traffic_totals(generator, numbers);
    put_numbers(numbers, 12, bytes);
    if (generator_percent(generator, 10))
        memset(bytes, 0xFF, sizeof bytes);
    if (length == 0 && generator_percent(generator, 50))
        pair_place_null(&tester->pair, RECORD);
    else
        pair_place_record(&tester->pair, bytes, length, generator_below(generator, 8));
}

void place_some_answer(struct tester *tester)
{
    static const size_t lengths[8] = {0, 0, 1, 8, 32, 39, 41, 80};
    struct generator *generator = &tester->generator;
    size_t length = generator_percent(generator, 60) ? SECOND_ANSWER_BYTES : lengths[generator_below(generator, 8)];

    if (length == 0 && generator_percent(generator, 50))
        pair_place_null(&tester->pair, RESULT);
    else
        pair_place(&tester->pair, RESULT, length, generator_below(generator, 8));
}

/* Calls on tables that mostly let orders in. In some the shape, a range, a slice, the record or the answer is wrong. */
int totals_lengths(struct tester *tester, uint64_t run)
{
    struct generator *generator = &tester->generator;
    struct second_shape shape = run % 16 < 15 ? traffic_small_shape(generator) : traffic_any_shape(generator);
    struct second_shape said = generator_percent(generator, 25) ? out_of_range(generator, shape) : shape;
    unsigned wrong = generator_percent(generator, 70) ? 0 : generator_below(generator, 16);

    begin_traffic(tester, shape);
    if (said.lines == shape.lines && generator_percent(generator, 20))
        traffic_ranges_beyond(generator, &said);
    traffic_noise(&tester->traffic, generator, &tester->history.start);
    tester->pair.second = tester->history.start;
    pair_lend(&tester->pair, generator_below(generator, 8));
    misplace(tester, wrong);
    for (unsigned k = 0; k < 8; k++) {
        uint64_t word = traffic_order(&tester->traffic, generator, &tester->history.start);
        uint64_t operand = traffic_operand(&tester->traffic, generator, &tester->history.start, word);

        place_some_record(tester);
        place_some_answer(tester);
        if (!pair_call(&tester->pair, STEP_TOTALS, said, word, operand))
            return report_call(tester, "step with a record", said, word, operand);
    }
    return 1;
}
