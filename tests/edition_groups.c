/* The differential test's groups on tables of the old edition: bytes worked out by hand, any sets, audits, orders. */

#include "tester.h"

#include <inttypes.h>
#include <stdio.h>
#include <string.h>

/* Some more than a shape has, for lengths that are too long and shapes just out of range. */
enum { SET_ENTRIES = SECOND_MAX_ENTRIES + 64 };

/* The three tables of a set, as bytes. */
struct set {
    uint8_t tags[4 * SET_ENTRIES];
    uint8_t states[SET_ENTRIES];
    uint8_t data[8 * SET_ENTRIES];
};

/* The set that a conversion is given, and what its output tables hold before it. */
static struct set given, noise;

static size_t entries_of(struct second_shape shape)
{
    return (size_t)(shape.ports * shape.sets);
}

static const char *name_of(enum call call)
{
    return call == FROM_OLD ? "from old" : "to old";
}

/* Sets and slices. */

static void fill_bytes(struct generator *generator, uint8_t *bytes, size_t length)
{
    for (size_t k = 0; k < length; k += 8) {
        uint64_t word = generator_word(generator);

        for (size_t n = k; n < length && n < k + 8; n++, word >>= 8)
            bytes[n] = (uint8_t)(word & 255);
    }
}

/* Any bytes. */
static void fill_set(struct generator *generator, struct set *set, size_t entries)
{
    fill_bytes(generator, set->tags, 4 * entries);
    fill_bytes(generator, set->states, entries);
    fill_bytes(generator, set->data, 8 * entries);
}

/* Lends a set at three slices, each at an alignment of its own. */
static void lend_set(struct tester *tester, enum slice first, const struct set *set, size_t entries)
{
    unsigned skews = generator_below(&tester->generator, 512);

    pair_place_bytes(&tester->pair, first, set->tags, 4 * entries, skews);
    pair_place_bytes(&tester->pair, first + 1, set->states, entries, skews / 8);
    pair_place_bytes(&tester->pair, first + 2, set->data, 8 * entries, skews / 64);
}

/* Lends any bytes at three slices, for a conversion to write over or to leave alone. */
static void lend_noise(struct tester *tester, enum slice first, size_t entries)
{
    fill_set(&tester->generator, &noise, entries);
    lend_set(tester, first, &noise, entries);
}

static int has_bytes(const struct lent *lent, const uint8_t *bytes)
{
    return lent->length == 0 || memcmp(lent->bytes, bytes, lent->length) == 0;
}

/* Whether three slices hold the bytes of a set, as far as they reach. */
static int holds(const struct pair *pair, enum slice first, const struct set *set)
{
    const struct lent *lent = &pair->slices[first];

    return has_bytes(&lent[0], set->tags) && has_bytes(&lent[1], set->states) && has_bytes(&lent[2], set->data);
}

/* The set that three slices hold. */
static void take_set(const struct pair *pair, enum slice first, struct set *set)
{
    const struct lent *lent = &pair->slices[first];

    memcpy(set->tags, lent[0].bytes, lent[0].length);
    memcpy(set->states, lent[1].bytes, lent[1].length);
    memcpy(set->data, lent[2].bytes, lent[2].length);
}

/* Says what a conversion showed, and the states that it was given; gives 0. */
static int report_conversion(struct tester *tester, enum call call, struct second_shape shape)
{
    const struct lent *states = &tester->pair.slices[pair_input_of(call) + 1];

    report_call(tester, name_of(call), shape, 0, 0);
    printf("  states:");
    for (size_t k = 0; k < states->length && k < 64; k++)
        printf(" %u", states->bytes[k]);
    printf("%s\n", states->length > 64 ? " ..." : "");
    return 0;
}

/* The same, with a sentence for what the pair can't tell. */
static int report_that(struct tester *tester, const char *what, enum call call, struct second_shape shape)
{
    snprintf(tester->pair.difference, sizeof tester->pair.difference, "  %s\n", what);
    return report_conversion(tester, call, shape);
}

/* After an accepted call the way back, over other bytes, gives the set that it was given. */
static int comes_back(struct tester *tester, enum call call, struct second_shape shape)
{
    enum call back = call == FROM_OLD ? TO_OLD : FROM_OLD;

    lend_noise(tester, pair_output_of(back), entries_of(shape));
    if (!pair_call(&tester->pair, back, shape, 0, 0))
        return report_conversion(tester, back, shape);
    if (tester->pair.returned != 0 || !holds(&tester->pair, pair_output_of(back), &given))
        return report_that(tester, "there and back doesn't give the bytes that there were", back, shape);
    tester->pair.tally.there_and_back[call == TO_OLD]++;
    return 1;
}

/* Bytes worked out by hand from document 02. */

/* Lends the given set of as many entries, and other bytes for the output. */
static void lend_given(struct tester *tester, enum call call, size_t entries)
{
    lend_set(tester, pair_input_of(call), &given, entries);
    lend_noise(tester, pair_output_of(call), entries);
}

/* Makes a call on what is lent. It gives the refusal, and the output tables are as they were; or 0, and they have tags
   and data of the given set, and these states. The input tables stay. */
static int conversion_is(struct tester *tester, enum call call, struct second_shape shape, uint64_t refusal,
                         const uint8_t *states)
{
    static struct set due;
    const struct pair *pair = &tester->pair;

    due = noise;
    if (refusal == 0) {
        due = given;
        memcpy(due.states, states, entries_of(shape));
    }
    if (!pair_call(&tester->pair, call, shape, 0, 0))
        return report_conversion(tester, call, shape);
    if (pair->returned == refusal && holds(pair, pair_input_of(call), &given) &&
        holds(pair, pair_output_of(call), &due))
        return 1;
    return report_that(tester, "the conversion is not as worked out", call, shape);
}

/* Two sets, all bytes written out, with each letter once. Two of the tags are beyond every line. */
static const struct second_shape five_shape = SHAPE(5, 1, 2);
static const uint8_t five_tags[20] = {0, 0, 0, 0, 1, 0, 0, 0, 0xFF, 0xFE, 0xFD, 0xFC, 2, 0, 0, 0x80, 0, 0, 0, 0};
static const uint8_t five_old[5] = {4, 0, 3, 1, 2};
static const uint8_t five_new[5] = {12, 0, 11, 9, 10};
static const uint8_t five_data[40] = {
    0x11, 0x12, 0x13, 0x14, 0x15, 0x16, 0x17, 0x18, 0x21, 0x22, 0x23, 0x24, 0x25, 0x26, 0x27, 0x28,
    0x31, 0x32, 0x33, 0x34, 0x35, 0x36, 0x37, 0x38, 0x41, 0x42, 0x43, 0x44, 0x45, 0x46, 0x47, 0x48,
    0xFF, 0x52, 0x53, 0x54, 0x55, 0x56, 0x57, 0x00,
};

static int edition_five(struct tester *tester)
{
    memcpy(given.tags, five_tags, sizeof five_tags);
    memcpy(given.states, five_old, sizeof five_old);
    memcpy(given.data, five_data, sizeof five_data);
    lend_given(tester, FROM_OLD, 5);
    if (!conversion_is(tester, FROM_OLD, five_shape, 0, five_new) || !comes_back(tester, FROM_OLD, five_shape))
        return 0;
    memcpy(given.states, five_new, sizeof five_new);
    lend_given(tester, TO_OLD, 5);
    return conversion_is(tester, TO_OLD, five_shape, 0, five_old) && comes_back(tester, TO_OLD, five_shape);
}

/* Calls with eight entries. Tags and data are any bytes. */
struct edition_case {
    enum call call;
    struct second_shape shape;
    uint8_t in[8];
    uint64_t refusal;
    uint8_t out[8]; /* if it is accepted */
};

static const struct edition_case edition_list[] = {
    /* From old: every letter, and sets of one letter. Nobody asks whether a set is coherent. */
    {FROM_OLD, SHAPE(2, 4, 3), {0, 1, 2, 3, 4, 1, 2, 3}, 0, {0, 9, 10, 11, 12, 9, 10, 11}},
    {FROM_OLD, SHAPE(8, 1, 4096), {4, 3, 2, 1, 0, 0, 4, 4}, 0, {12, 11, 10, 9, 0, 0, 12, 12}},
    {FROM_OLD, SHAPE(1, 8, 1), {0, 0, 0, 0, 0, 0, 0, 0}, 0, {0, 0, 0, 0, 0, 0, 0, 0}},
    {FROM_OLD, SHAPE(4, 2, 1), {1, 1, 1, 1, 1, 1, 1, 1}, 0, {9, 9, 9, 9, 9, 9, 9, 9}},
    {FROM_OLD, SHAPE(8, 1, 1), {2, 2, 2, 2, 2, 2, 2, 2}, 0, {10, 10, 10, 10, 10, 10, 10, 10}},
    {FROM_OLD, SHAPE(8, 1, 2), {3, 3, 3, 3, 3, 3, 3, 3}, 0, {11, 11, 11, 11, 11, 11, 11, 11}},
    {FROM_OLD, SHAPE(1, 8, 9), {4, 4, 4, 4, 4, 4, 4, 4}, 0, {12, 12, 12, 12, 12, 12, 12, 12}},
    /* To old: the same. */
    {TO_OLD, SHAPE(2, 4, 3), {0, 9, 10, 11, 12, 9, 10, 11}, 0, {0, 1, 2, 3, 4, 1, 2, 3}},
    {TO_OLD, SHAPE(8, 1, 4096), {12, 11, 10, 9, 0, 0, 12, 12}, 0, {4, 3, 2, 1, 0, 0, 4, 4}},
    {TO_OLD, SHAPE(1, 8, 1), {0, 0, 0, 0, 0, 0, 0, 0}, 0, {0, 0, 0, 0, 0, 0, 0, 0}},
    {TO_OLD, SHAPE(4, 2, 1), {9, 9, 9, 9, 9, 9, 9, 9}, 0, {1, 1, 1, 1, 1, 1, 1, 1}},
    {TO_OLD, SHAPE(8, 1, 1), {10, 10, 10, 10, 10, 10, 10, 10}, 0, {2, 2, 2, 2, 2, 2, 2, 2}},
    {TO_OLD, SHAPE(8, 1, 2), {11, 11, 11, 11, 11, 11, 11, 11}, 0, {3, 3, 3, 3, 3, 3, 3, 3}},
    {TO_OLD, SHAPE(1, 8, 9), {12, 12, 12, 12, 12, 12, 12, 12}, 0, {4, 4, 4, 4, 4, 4, 4, 4}},
    /* From old, 10: a byte above 4, first, last, everywhere; and the bytes of the new edition. */
    {FROM_OLD, SHAPE(2, 4, 3), {5, 1, 2, 3, 4, 1, 2, 3}, 10, {0}},
    {FROM_OLD, SHAPE(2, 4, 3), {0, 1, 2, 3, 4, 1, 2, 5}, 10, {0}},
    {FROM_OLD, SHAPE(2, 4, 3), {0, 0, 0, 0, 0, 0, 0, 255}, 10, {0}},
    {FROM_OLD, SHAPE(8, 1, 2), {5, 6, 7, 8, 9, 10, 11, 12}, 10, {0}},
    {FROM_OLD, SHAPE(1, 8, 9), {0, 9, 10, 11, 12, 9, 10, 11}, 10, {0}},
    {FROM_OLD, SHAPE(4, 2, 1), {0, 1, 2, 1, 2, 9, 1, 1}, 10, {0}},
    /* To old, 10: a byte that is no state, also the old edition's 3 and 4. */
    {TO_OLD, SHAPE(2, 4, 3), {3, 9, 10, 11, 12, 9, 10, 11}, 10, {0}},
    {TO_OLD, SHAPE(2, 4, 3), {0, 9, 10, 11, 12, 9, 10, 13}, 10, {0}},
    {TO_OLD, SHAPE(2, 4, 3), {0, 0, 0, 0, 0, 0, 0, 4}, 10, {0}},
    {TO_OLD, SHAPE(8, 1, 2), {3, 4, 5, 6, 7, 8, 13, 14}, 10, {0}},
    {TO_OLD, SHAPE(1, 8, 9), {0, 9, 9, 8, 9, 0, 0, 0}, 10, {0}},
    /* To old, 11: an entry in write through, first, last, everywhere; and all seven states. */
    {TO_OLD, SHAPE(2, 4, 3), {1, 9, 10, 11, 12, 9, 10, 11}, 11, {0}},
    {TO_OLD, SHAPE(2, 4, 3), {2, 9, 10, 11, 12, 9, 10, 11}, 11, {0}},
    {TO_OLD, SHAPE(2, 4, 3), {0, 0, 0, 0, 0, 0, 0, 1}, 11, {0}},
    {TO_OLD, SHAPE(2, 4, 3), {0, 0, 0, 0, 0, 0, 0, 2}, 11, {0}},
    {TO_OLD, SHAPE(8, 1, 2), {1, 1, 1, 1, 1, 1, 1, 1}, 11, {0}},
    {TO_OLD, SHAPE(8, 1, 2), {2, 2, 2, 2, 2, 2, 2, 2}, 11, {0}},
    {TO_OLD, SHAPE(1, 8, 9), {0, 1, 2, 9, 10, 11, 12, 0}, 11, {0}},
    /* 10 before 11, wherever the two stand: an old set taken for a new one too. */
    {TO_OLD, SHAPE(2, 4, 3), {1, 9, 10, 11, 12, 9, 10, 3}, 10, {0}},
    {TO_OLD, SHAPE(2, 4, 3), {2, 9, 10, 11, 12, 9, 10, 255}, 10, {0}},
    {TO_OLD, SHAPE(2, 4, 3), {8, 9, 10, 11, 12, 9, 10, 1}, 10, {0}},
    {TO_OLD, SHAPE(2, 4, 3), {13, 9, 10, 11, 12, 9, 10, 2}, 10, {0}},
    {TO_OLD, SHAPE(8, 1, 2), {1, 1, 1, 1, 1, 1, 1, 4}, 10, {0}},
    {TO_OLD, SHAPE(1, 8, 9), {0, 1, 2, 3, 4, 1, 2, 3}, 10, {0}},
    /* From old there is no 11: 1 and 2 are S and E. */
    {FROM_OLD, SHAPE(4, 2, 1), {1, 2, 0, 0, 2, 1, 1, 2}, 0, {9, 10, 0, 0, 10, 9, 9, 10}},
    /* 2 before 10 and before 11, with tables of the eight entries that the numbers give, or of others. */
    {FROM_OLD, SHAPE(8, 1, 0), {0, 1, 2, 3, 4, 1, 2, 3}, 2, {0}},
    {FROM_OLD, SHAPE(8, 1, 4097), {0, 1, 2, 3, 4, 1, 2, 255}, 2, {0}},
    {FROM_OLD, SHAPE(9, 1, 1), {5, 0, 0, 0, 0, 0, 0, 0}, 2, {0}},
    {FROM_OLD, SHAPE(0, 8, 1), {5, 0, 0, 0, 0, 0, 0, 0}, 2, {0}},
    {FROM_OLD, SHAPE(8, 0, 1), {0, 0, 0, 0, 0, 0, 0, 0}, 2, {0}},
    {TO_OLD, SHAPE(8, 1, 0), {0, 9, 10, 11, 12, 9, 10, 11}, 2, {0}},
    {TO_OLD, SHAPE(8, 1, 4097), {0, 0, 0, 0, 0, 0, 0, 1}, 2, {0}},
    {TO_OLD, SHAPE(9, 1, 1), {3, 0, 0, 0, 0, 0, 0, 2}, 2, {0}},
    {TO_OLD, SHAPE(0, 8, 1), {1, 0, 0, 0, 0, 0, 0, 0}, 2, {0}},
    {TO_OLD, SHAPE(8, 0, 1), {255, 0, 0, 0, 0, 0, 0, 0}, 2, {0}},
    /* 3 before 10 and before 11: tables of eight entries for shapes that have more or fewer. */
    {FROM_OLD, SHAPE(2, 2, 3), {0, 1, 2, 3, 4, 1, 2, 3}, 3, {0}},
    {FROM_OLD, SHAPE(2, 8, 3), {5, 0, 0, 0, 0, 0, 0, 0}, 3, {0}},
    {FROM_OLD, SHAPE(7, 1, 3), {0, 0, 0, 0, 0, 0, 0, 255}, 3, {0}},
    {TO_OLD, SHAPE(2, 2, 3), {0, 9, 10, 11, 12, 9, 10, 11}, 3, {0}},
    {TO_OLD, SHAPE(2, 8, 3), {1, 0, 0, 0, 0, 0, 0, 0}, 3, {0}},
    {TO_OLD, SHAPE(7, 1, 3), {0, 0, 0, 0, 0, 0, 0, 3}, 3, {0}},
};

enum { EDITION_CASES = sizeof edition_list / sizeof edition_list[0] };

static int edition_cases(struct tester *tester)
{
    for (size_t k = 0; k < EDITION_CASES; k++) {
        const struct edition_case *chosen = &edition_list[k];

        fill_set(&tester->generator, &given, 8);
        memcpy(given.states, chosen->in, 8);
        lend_given(tester, chosen->call, 8);
        if (!conversion_is(tester, chosen->call, chosen->shape, chosen->refusal, chosen->out)) {
            printf("  case %zu of the list\n", k + 1);
            return 0;
        }
    }
    return 1;
}

/* Two sets of eight entries whose bytes stand for each other: the places of either are tried with other bytes. */
static const struct second_shape eight_shape = SHAPE(2, 4, 3);
static const uint8_t eight_old[8] = {4, 1, 0, 2, 3, 3, 0, 1};
static const uint8_t eight_new[8] = {12, 9, 0, 10, 11, 11, 0, 9};

static void give_eight(struct tester *tester, enum call call)
{
    fill_set(&tester->generator, &given, 8);
    memcpy(given.states, call == FROM_OLD ? eight_old : eight_new, 8);
}

/* The bytes from 0 to 12, either way: the refusal, and the byte that stands for it. A byte above 12 is refused 10. */
static const uint8_t refusals[2][13] = {{0, 0, 0, 0, 0, 10, 10, 10, 10, 10, 10, 10, 10},
                                        {0, 11, 11, 10, 10, 10, 10, 10, 10, 0, 0, 0, 0}};
static const uint8_t becomes[2][13] = {{0, 9, 10, 11, 12, 0, 0, 0, 0, 0, 0, 0, 0},
                                       {0, 0, 0, 0, 0, 0, 0, 0, 0, 1, 2, 3, 4}};

/* One byte at one place. */
static int byte_is(struct tester *tester, enum call call, size_t place, unsigned byte)
{
    int way = call == TO_OLD;
    uint8_t states[8];

    give_eight(tester, call);
    given.states[place] = (uint8_t)byte;
    lend_given(tester, call, 8);
    memcpy(states, way ? eight_old : eight_new, 8);
    states[place] = byte < 13 ? becomes[way][byte] : 0;
    return conversion_is(tester, call, eight_shape, byte < 13 ? refusals[way][byte] : 10, states);
}

/* Every byte at every place, both ways. */
static int edition_bytes(struct tester *tester)
{
    for (unsigned k = 0; k < 2 * 8 * 256; k++) {
        if (!byte_is(tester, k % 2 ? TO_OLD : FROM_OLD, k / 2 % 8, k / 16)) {
            printf("  byte %u at entry %u\n", k / 16, k / 2 % 8);
            return 0;
        }
    }
    return 1;
}

/* A write-through entry and a byte that is no state, at every two places: 10, whichever comes first. */
static int edition_pairs(struct tester *tester)
{
    static const uint8_t none[8] = {3, 4, 5, 8, 13, 16, 128, 255};

    for (unsigned k = 0; k < 8 * 8 * 8 * 2; k++) {
        unsigned through = k % 8, bad = k / 8 % 8;

        if (through == bad)
            continue;
        give_eight(tester, TO_OLD);
        given.states[through] = k / 512 ? 2 : 1;
        given.states[bad] = none[k / 64 % 8];
        lend_given(tester, TO_OLD, 8);
        if (!conversion_is(tester, TO_OLD, eight_shape, 10, eight_old))
            return 0;
    }
    return 1;
}

/* One byte that is refused at each place of the largest shape. */
static int edition_places(struct tester *tester)
{
    static const struct second_shape largest = SHAPE(8, 64, 4096);
    static const struct {
        enum call call;
        uint8_t byte, refusal;
    } tries[4] = {{FROM_OLD, 5, 10}, {TO_OLD, 13, 10}, {TO_OLD, 1, 11}, {TO_OLD, 2, 11}};

    for (unsigned k = 0; k < 4 * 512; k++) {
        enum call call = tries[k % 4].call;

        fill_set(&tester->generator, &given, 512);
        for (size_t entry = 0; entry < 512; entry++)
            given.states[entry] = call == FROM_OLD ? eight_old[entry % 8] : eight_new[entry % 8];
        given.states[k / 4] = tries[k % 4].byte;
        lend_given(tester, call, 512);
        if (!conversion_is(tester, call, largest, tries[k % 4].refusal, NULL))
            return 0;
    }
    return 1;
}

/* A table of the given set, or of the noise in the output, again with another length; 0 bytes also with NULL. */
static void lend_with_length(struct tester *tester, enum call call, unsigned table, size_t length, int null)
{
    const struct set *set = table < 3 ? &given : &noise;
    const uint8_t *const bytes[3] = {set->tags, set->states, set->data};
    enum slice slice = (table < 3 ? pair_input_of(call) : pair_output_of(call)) + table % 3;

    if (null)
        pair_place_null(&tester->pair, slice);
    else
        pair_place_bytes(&tester->pair, slice, bytes[table % 3], length, generator_below(&tester->generator, 8));
}

/* One of the six tables with each other length: 3 before 10 and 11, and 2 before that. */
static int table_is_measured(struct tester *tester, enum call call, unsigned table)
{
    static const size_t lengths[6][9] = {
        {0, 0, 1, 16, 28, 31, 33, 36, 64}, {0, 0, 1, 4, 6, 7, 9, 10, 16}, {0, 0, 1, 32, 56, 63, 65, 72, 128},
        {0, 0, 1, 16, 28, 31, 33, 36, 64}, {0, 0, 1, 4, 6, 7, 9, 10, 16}, {0, 0, 1, 32, 56, 63, 65, 72, 128},
    };
    static const struct second_shape too_large = SHAPE(2, 4, 4097);

    for (unsigned k = 0; k < 9 * 4 * 2; k++) {
        fill_set(&tester->generator, &given, 16);
        memcpy(given.states, call == FROM_OLD ? eight_old : eight_new, 8);
        if (k / 9 % 4 & 1)
            given.states[0] = 1;
        if (k / 9 % 4 & 2)
            given.states[k % 8] = 255;
        lend_given(tester, call, 8);
        lend_with_length(tester, call, table, lengths[table][k % 9], k % 9 == 0);
        if (!conversion_is(tester, call, k / 36 ? too_large : eight_shape, k / 36 ? 2 : 3, NULL)) {
            printf("  table %u of the six with %zu bytes\n", table, lengths[table][k % 9]);
            return 0;
        }
    }
    return 1;
}

static int edition_measures(struct tester *tester)
{
    for (unsigned k = 0; k < 12; k++) {
        if (!table_is_measured(tester, k / 6 ? TO_OLD : FROM_OLD, k % 6))
            return 0;
    }
    return 1;
}

/* Both ways with tables of as many entries, their bytes taken in turn from those of the letters. */
static int shape_gives(struct tester *tester, struct second_shape shape, size_t entries, uint64_t refusal)
{
    static const uint8_t old_bytes[5] = {0, 1, 2, 3, 4}, new_bytes[5] = {0, 9, 10, 11, 12};
    static uint8_t states[2][SET_ENTRIES];

    for (size_t k = 0; k < entries; k++) {
        states[0][k] = old_bytes[k % 5];
        states[1][k] = new_bytes[k % 5];
    }
    for (unsigned way = 0; way < 2; way++) {
        enum call call = way ? TO_OLD : FROM_OLD;

        fill_set(&tester->generator, &given, entries);
        memcpy(given.states, states[way], entries);
        lend_given(tester, call, entries);
        if (!conversion_is(tester, call, shape, refusal, states[!way]))
            return 0;
    }
    return 1;
}

/* Numbers out of their ranges, and the entries that tables would have: 2. */
static const struct {
    struct second_shape shape;
    size_t entries;
} no_shapes[] = {
    {SHAPE(0, 1, 1), 0},       {SHAPE(1, 0, 1), 0},       {SHAPE(1, 1, 0), 1},    {SHAPE(0, 0, 0), 0},
    {SHAPE(9, 1, 1), 9},       {SHAPE(10, 4, 1), 40},     {SHAPE(16, 1, 1), 16},  {SHAPE(2, 3, 5), 6},
    {SHAPE(1, 5, 5), 5},       {SHAPE(1, 6, 5), 6},       {SHAPE(1, 7, 5), 7},    {SHAPE(1, 9, 5), 9},
    {SHAPE(2, 12, 5), 24},     {SHAPE(1, 24, 5), 24},     {SHAPE(1, 48, 5), 48},  {SHAPE(1, 63, 5), 63},
    {SHAPE(8, 65, 5), 520},    {SHAPE(1, 96, 5), 96},     {SHAPE(1, 128, 1), 128}, {SHAPE(4, 128, 1), 512},
    {SHAPE(8, 64, 4097), 512}, {SHAPE(8, 64, 0), 512},    {SHAPE(9, 64, 9), 576}, {SHAPE(1, 1, 4097), 1},
    {SHAPE(1, 1, 8192), 1},
    /* Cut to fewer bits, or multiplied by sets, they would be in range. */
    {SHAPE(UINT64_C(0x100000001), 1, 1), 1},
    {SHAPE(1, UINT64_C(0x100000001), 1), 1},
    {SHAPE(1, 1, UINT64_C(0x100000001)), 1},
    {SHAPE((UINT64_C(1) << 63) + 1, 2, 1), 2},
    {SHAPE(2, (UINT64_C(1) << 63) + 1, 1), 2},
    {SHAPE(1, 1, (UINT64_C(1) << 61) + 1), 1},
    {SHAPE(257, 1, 1), 1},
    {SHAPE(1, 257, 1), 1},
    {SHAPE(1, 1, 65537), 1},
    {SHAPE(UINT64_MAX, 1, 1), 1},
    {SHAPE(1, UINT64_MAX, 1), 1},
    {SHAPE(1, 1, UINT64_MAX), 1},
};

enum { NO_SHAPES = sizeof no_shapes / sizeof no_shapes[0] };

/* Every number of ports and sets in its range, with one line and with the most. Then those out of it. */
static int edition_shapes(struct tester *tester)
{
    for (unsigned k = 0; k < 8 * 7 * 2; k++) {
        struct second_shape shape = SHAPE(k % 8 + 1, 1u << k / 8 % 7, k / 56 ? 4096 : 1);

        if (!shape_gives(tester, shape, entries_of(shape), 0))
            return 0;
    }
    for (size_t k = 0; k < NO_SHAPES; k++) {
        if (!shape_gives(tester, no_shapes[k].shape, no_shapes[k].entries, 2))
            return 0;
    }
    return 1;
}

int edition_numbers(struct tester *tester, uint64_t run)
{
    static int (*const parts[EDITION_PARTS])(struct tester *) = {
        edition_five, edition_cases, edition_bytes, edition_pairs, edition_places, edition_measures, edition_shapes,
    };

    return parts[run % EDITION_PARTS](tester);
}

/* Any sets, there and back. */

/* Bytes that are no state, of either edition: often close to those that are. */
static uint8_t bad_old_byte(struct generator *generator)
{
    unsigned near = generator_percent(generator, 50) ? 9 : 251;

    return (uint8_t)(generator_percent(generator, 10) ? 255 : 5 + generator_below(generator, near));
}

static uint8_t bad_new_byte(struct generator *generator)
{
    static const uint8_t near[10] = {3, 4, 5, 6, 7, 8, 13, 14, 254, 255};
    int any = generator_percent(generator, 30);

    return (uint8_t)(any ? 13 + generator_below(generator, 243) : near[generator_below(generator, 10)]);
}

/* A place among the entries: often the last, or the first. */
static size_t some_place(struct generator *generator, size_t entries)
{
    unsigned thrown = generator_below(generator, 10);

    return thrown < 3 ? entries - 1 : thrown < 5 ? 0 : generator_below(generator, entries);
}

/* Bytes that can be converted, and among them such as can't: none, one of a kind, few or many. */
static void give_states(struct generator *generator, enum call call, size_t entries)
{
    static const uint8_t letters[2][5] = {{0, 1, 2, 3, 4}, {0, 9, 10, 11, 12}};
    static const unsigned percents[8] = {0, 0, 0, 0, 0, 0, 2, 30};
    unsigned bad = percents[generator_below(generator, 8)], through = percents[generator_below(generator, 8)];
    int to_old = call == TO_OLD;

    for (size_t k = 0; k < entries; k++) {
        given.states[k] = letters[to_old][generator_below(generator, 5)];
        if (to_old && generator_percent(generator, through))
            given.states[k] = (uint8_t)(1 + generator_below(generator, 2));
        if (generator_percent(generator, bad))
            given.states[k] = to_old ? bad_new_byte(generator) : bad_old_byte(generator);
    }
    if (to_old && generator_percent(generator, 25))
        given.states[some_place(generator, entries)] = (uint8_t)(1 + generator_below(generator, 2));
    if (generator_percent(generator, 25))
        given.states[some_place(generator, entries)] = to_old ? bad_new_byte(generator) : bad_old_byte(generator);
}

/* A set for a way: any tags or tags of lines, any data. */
static void give_set(struct generator *generator, enum call call, struct second_shape shape)
{
    size_t entries = entries_of(shape);
    unsigned tags = (unsigned)(shape.lines / shape.sets) + 2;
    int small = generator_percent(generator, 50);

    fill_set(generator, &given, entries);
    for (size_t k = 0; small && k < entries; k++) {
        unsigned tag = generator_below(generator, tags);

        for (size_t n = 0; n < 4; n++)
            given.tags[4 * k + n] = (uint8_t)(tag >> 8 * n & 255);
    }
    give_states(generator, call, entries);
}

/* A conversion of any set, and where it is accepted the way back. */
int edition_sets(struct tester *tester, uint64_t run)
{
    struct generator *generator = &tester->generator;
    struct second_shape shape = run % 8 < 7 ? traffic_small_shape(generator) : traffic_any_shape(generator);
    enum call call = run % 16 < 8 ? FROM_OLD : TO_OLD;

    give_set(generator, call, shape);
    lend_given(tester, call, entries_of(shape));
    if (!pair_call(&tester->pair, call, shape, 0, 0))
        return report_conversion(tester, call, shape);
    return tester->pair.expected.refusal != 0 || comes_back(tester, call, shape);
}

/* Other lengths and shapes. */

/* A shape with a number out of its range: any, or one that would be the shape's if its upper bits were lost. */
static struct second_shape no_shape(struct generator *generator, struct second_shape shape)
{
    uint64_t *numbers[3] = {&shape.ports, &shape.sets, &shape.lines};

    if (generator_percent(generator, 50))
        return out_of_range(generator, shape);
    *numbers[generator_below(generator, 3)] += UINT64_C(1) << (13 + generator_below(generator, 51));
    return shape;
}

/* One of the six tables, some of them or none has another length; now and then the shape is none. */
int edition_lengths(struct tester *tester, uint64_t run)
{
    struct generator *generator = &tester->generator;
    struct second_shape shape = run % 16 < 15 ? traffic_small_shape(generator) : traffic_any_shape(generator);
    struct second_shape said = generator_percent(generator, 25) ? no_shape(generator, shape) : shape;
    enum call call = generator_percent(generator, 50) ? FROM_OLD : TO_OLD;
    unsigned one = 1u << generator_below(generator, 6), some = generator_below(generator, 64);
    unsigned tables = generator_percent(generator, 70) ? one : some;

    give_set(generator, call, shape);
    lend_given(tester, call, entries_of(shape));
    misplace(tester, (tables & 7) << TAGS | (tables >> 3) << OLD_TAGS);
    return pair_call(&tester->pair, call, said, 0, 0) || report_conversion(tester, call, said);
}

/* Old sets that keep the audit's rules, and such as break them. */

/* An old set beside its main memory: the state bytes are old ones. */
static struct second_model old;

/* The entries that hold a line in the old set; gives their number. */
static unsigned list_entries(unsigned line, unsigned *entries)
{
    unsigned sets = (unsigned)old.shape.sets, count = 0;

    for (unsigned entry = line % sets; entry < old.shape.ports * sets; entry += sets) {
        if (old.states[entry] != 0 && old.tags[entry] == line / sets)
            entries[count++] = entry;
    }
    return count;
}

/* Letters and words for the holders of a line: alone any letter, together S, and one of them may be O. */
static void settle_line(struct generator *generator, unsigned line)
{
    unsigned entries[SECOND_MAX_PORTS], count = list_entries(line, entries);
    int owned = generator_percent(generator, 50);
    uint64_t word = old.memory[line], bit = UINT64_C(1) << generator_below(generator, 64);

    if (count == 0)
        return;
    /* An owner's word may be memory's too. */
    if (owned && generator_percent(generator, 80))
        word = generator_percent(generator, 50) ? generator_word(generator) : word ^ bit;
    for (unsigned k = 0; k < count; k++) {
        old.states[entries[k]] = 1;
        old.data[entries[k]] = word;
    }
    if (owned)
        old.states[entries[generator_below(generator, count)]] = count == 1 && generator_percent(generator, 60) ? 4 : 3;
    else if (count == 1 && generator_percent(generator, 60))
        old.states[entries[0]] = 2;
}

/* A set made line by line. Entries that are I have any tag and any data. */
static void make_set(struct tester *tester, struct second_shape shape)
{
    struct generator *generator = &tester->generator;
    unsigned empty = generator_percent(generator, 50) ? 15 : 50;

    begin_traffic(tester, shape);
    old.shape = shape;
    memcpy(old.memory, tester->history.start.memory, sizeof old.memory[0] * shape.lines);
    for (unsigned entry = 0; entry < entries_of(shape); entry++) {
        unsigned index = (unsigned)(entry % shape.sets), lines = (unsigned)shape.lines;
        unsigned tags = index < lines ? (lines - index - 1) / (unsigned)shape.sets + 1 : 0;
        uint64_t word = generator_word(generator);

        old.states[entry] = tags > 0 && !generator_percent(generator, empty);
        old.tags[entry] = old.states[entry] ? generator_below(generator, tags < 2 ? tags : 2) : (uint32_t)(word >> 32);
        old.data[entry] = word;
    }
    for (unsigned line = 0; line < shape.lines && line < 2 * shape.sets; line++)
        settle_line(generator, line);
}

/* Has every order run in write back: all are ordered so, and no line is in the device range; or all lines are scratch,
   whatever is ordered. */
static void write_back_only(struct tester *tester, struct second_shape *shape)
{
    static const struct second_range empty = {0, 0};

    if (generator_percent(&tester->generator, 50)) {
        shape->device = empty;
        tester->traffic.back_percent = 100;
    } else {
        shape->scratch.first = 0;
        shape->scratch.count = shape->lines;
    }
    tester->traffic.odd_percent = 0;
}

/* A set that orders in write back lead to, converted from the tables that they leave; it comes back to these. */
static int reach_set(struct tester *tester, struct second_shape shape)
{
    struct pair *pair = &tester->pair;

    begin_traffic(tester, shape);
    traffic_fill_tables(&tester->generator, &tester->history.start);
    write_back_only(tester, &tester->history.start.shape);
    if (!run_history(tester, 1, generator_below(&tester->generator, 60)))
        return 0;
    take_set(pair, TAGS, &given);
    lend_noise(tester, OLD_TAGS, entries_of(shape));
    if (!pair_call(pair, TO_OLD, shape, 0, 0))
        return report_conversion(tester, TO_OLD, shape);
    if (pair->returned != 0)
        return report_that(tester, "a history in write back leads to tables that aren't converted", TO_OLD, shape);
    old.shape = shape;
    second_decode(&old, pair->slices[MEMORY].bytes, pair->slices[OLD_TAGS].bytes, pair->slices[OLD_STATES].bytes,
                  pair->slices[OLD_DATA].bytes);
    return comes_back(tester, TO_OLD, shape);
}

/* How many ports hold the line that an entry holds; 0 if it holds none. */
static unsigned holders_at(unsigned entry)
{
    unsigned sets = (unsigned)old.shape.sets, entries[SECOND_MAX_PORTS];
    uint64_t home = old.tags[entry] * old.shape.sets + entry % sets;

    return old.states[entry] == 0 || home >= old.shape.lines ? 0 : list_entries((unsigned)home, entries);
}

/* An entry whose line has that many holders or more, if there is one. */
static unsigned entry_with(struct generator *generator, unsigned holders)
{
    unsigned entries = (unsigned)entries_of(old.shape), entry = generator_below(generator, entries);

    for (unsigned k = 0; k < entries && holders_at(entry) < holders; k++)
        entry = (entry + 1) % entries;
    return entry;
}

/* A tag beyond the last line for an entry: the lowest one, or another. */
static uint32_t beyond(struct generator *generator, unsigned entry)
{
    unsigned sets = (unsigned)old.shape.sets, lines = (unsigned)old.shape.lines, index = entry % sets;

    if (generator_percent(generator, 50))
        return index < lines ? (lines - index - 1) / sets + 1 : 0;
    return traffic_tag_beyond(generator, old.shape);
}

/* Two of a line's holders become O, or the only one. */
static void make_owners(uint64_t line)
{
    unsigned entries[SECOND_MAX_PORTS], count = line < old.shape.lines ? list_entries((unsigned)line, entries) : 0;

    if (count > 0)
        old.states[entries[0]] = old.states[entries[count - 1]] = 3;
}

/* Breaks a rule at an entry, mostly; or changes what no rule asks. */
static void damage_set(struct generator *generator)
{
    unsigned sets = (unsigned)old.shape.sets, entry = entry_with(generator, 1 + generator_below(generator, 2));
    unsigned other = generator_below(generator, old.shape.ports) * sets + entry % sets;
    uint64_t home = old.tags[entry] * old.shape.sets + entry % sets;
    uint64_t bit = UINT64_C(1) << generator_below(generator, 64);

    switch (generator_below(generator, 12)) {
    case 0: old.states[entry] = bad_old_byte(generator); break;
    case 1: old.tags[entry] = beyond(generator, entry); break;
    case 2: case 3: case 4: old.data[entry] ^= bit; break;
    case 5: old.memory[home < old.shape.lines ? home : 0] ^= bit; break;
    case 6: old.states[entry] = generator_percent(generator, 50) ? 2 : 4; break;
    case 7: old.states[entry] = 3; break;
    case 8: make_owners(home); break;
    case 9: /* another port holds what this one does */
        old.tags[other] = old.tags[entry];
        old.data[other] = old.data[entry];
        old.states[other] = (uint8_t)(1 + generator_below(generator, 4));
        break;
    case 10: old.states[entry] = (uint8_t)generator_below(generator, 5); break;
    default: /* nobody asks for the tag of an entry that is I */
        old.tags[other] = old.states[other] == 0 ? beyond(generator, other) : old.tags[other];
        break;
    }
}

/* Lends the old set and its memory, and other bytes for the output. */
static void lend_old(struct tester *tester)
{
    static uint8_t memory[8 * SECOND_MAX_LINES];

    second_encode(&old, memory, given.tags, given.states, given.data);
    pair_place_bytes(&tester->pair, MEMORY, memory, 8 * (size_t)old.shape.lines,
                     generator_below(&tester->generator, 8));
    lend_given(tester, FROM_OLD, entries_of(old.shape));
}

static int report_audit(struct tester *tester, unsigned verdict, unsigned breaks)
{
    report_that(tester, "the audit doesn't say what the rules on the five letters say", FROM_OLD, old.shape);
    printf("  verdict %u; rules broken: 0x%x\n", verdict, breaks);
    for (unsigned line = 0; line < old.shape.lines && old.shape.lines <= 16; line++)
        printf("  memory %u: 0x%" PRIx64 "\n", line, old.memory[line]);
    for (unsigned entry = 0; entry < entries_of(old.shape) && entry < 16; entry++)
        printf("  entry %u: tag %" PRIu32 " old state %u data 0x%" PRIx64 "\n", entry, old.tags[entry],
               old.states[entry], old.data[entry]);
    return 0;
}

/* Converts the old set. The converted set passes the audit exactly if the old one keeps the rules; one that is refused
   has a byte above 4. Counts those that keep all, and those that break one rule alone. */
static int converts_as_ruled(struct tester *tester, uint64_t verdicts[2], uint64_t rules[SECOND_RULES])
{
    struct pair *pair = &tester->pair;
    unsigned breaks = second_old_breaks(&old), verdict = 0;

    lend_old(tester);
    if (!pair_call(pair, FROM_OLD, old.shape, 0, 0))
        return report_conversion(tester, FROM_OLD, old.shape);
    if (pair->returned == 0) {
        pair_place(pair, RESULT, SECOND_VERDICT_BYTES, generator_below(&tester->generator, 8));
        if (!pair_call(pair, AUDIT, old.shape, 0, 0))
            return report_call(tester, "audit of a converted set", old.shape, 0, 0);
        verdict = pair_verdict(pair);
    }
    if (verdict != (unsigned)second_old_audit(&old))
        return report_audit(tester, verdict, breaks);
    verdicts[verdict]++;
    for (unsigned rule = 0; rule < SECOND_RULES; rule++)
        rules[rule] += breaks == 1u << rule;
    return 1;
}

/* Every set of few entries. */

/* An entry by its number, below 36: a letter or byte 5, the tag of line 0, of line 1 or of none, and either word. */
static void put_entry(unsigned entry, size_t choice)
{
    old.states[entry] = (uint8_t)(choice % 6);
    old.tags[entry] = (uint32_t)(choice / 6 % 3);
    old.data[entry] = choice / 18 ? 7 : 5;
}

/* In a short run only some sets of three ports: a stride prime to the number of choices. */
static size_t set_stride(unsigned ports, uint64_t percent)
{
    size_t stride = ports > 2 && percent < 100 ? 100 / (size_t)percent : 1;

    while (stride % 2 == 0 || stride % 3 == 0)
        stride++;
    return stride;
}

/* Run r: sets of r + 1 ports, one set, two lines, memory 5 and 7. Two ports can break every rule alone. */
int edition_every_set(struct tester *tester, uint64_t run)
{
    static const struct second_shape shape = SHAPE(0, 1, 2);
    uint64_t verdicts[2] = {0}, rules[SECOND_RULES] = {0};
    unsigned ports = (unsigned)run + 1;
    size_t sets = 1, stride = set_stride(ports, tester->percent);

    old.shape = shape;
    old.shape.ports = ports;
    old.memory[0] = 5;
    old.memory[1] = 7;
    for (unsigned port = 0; port < ports; port++)
        sets *= 36;
    for (size_t set = 0; set < sets; set += stride) {
        size_t rest = set;

        for (unsigned port = 0; port < ports; port++, rest /= 36)
            put_entry(port, rest % 36);
        if (!converts_as_ruled(tester, verdicts, rules))
            return 0;
    }
    for (unsigned rule = 0; rule < SECOND_RULES && ports == 2; rule++) {
        if (rules[rule] == 0 || verdicts[1] == 0)
            return report_that(tester, "no small set breaks a rule alone", FROM_OLD, old.shape);
    }
    return 1;
}

/* Sets that are damaged. */

/* A set that keeps the rules: reached by orders, or made. */
static int begin_set(struct tester *tester, int reached)
{
    struct generator *generator = &tester->generator;
    struct second_shape shape = traffic_small_shape(generator);

    if (generator_percent(generator, 5))
        shape = traffic_any_shape(generator);
    if (reached)
        return reach_set(tester, shape);
    make_set(tester, shape);
    return 1;
}

/* Sets that keep the rules, and such as are damaged once or more. */
int edition_audits(struct tester *tester, uint64_t run)
{
    struct generator *generator = &tester->generator;
    unsigned damages = run % 4 == 0 ? 0 : generator_percent(generator, 70) ? 1 : 2 + generator_below(generator, 3);

    if (!begin_set(tester, run % 8 == 7))
        return 0;
    while (damages-- > 0)
        damage_set(generator);
    return converts_as_ruled(tester, tester->pair.tally.old_verdicts, tester->pair.tally.old_rules);
}

/* Orders on converted sets. */

/* Converts the tables that the orders left, if no entry is in write through, and back again. */
static int goes_back(struct tester *tester, int back_only)
{
    struct pair *pair = &tester->pair;

    take_set(pair, TAGS, &given);
    lend_noise(tester, OLD_TAGS, entries_of(old.shape));
    if (!pair_call(pair, TO_OLD, old.shape, 0, 0))
        return report_conversion(tester, TO_OLD, old.shape);
    if (back_only && pair->returned != 0)
        return report_that(tester, "orders in write back lead to tables that aren't converted", TO_OLD, old.shape);
    pair->tally.stepped_back[pair->returned != 0]++;
    return pair->returned != 0 || comes_back(tester, TO_OLD, old.shape);
}

/* A set that keeps the rules, converted, and orders from there on: in half of the runs all in write back. */
int edition_orders(struct tester *tester, uint64_t run)
{
    int back_only = run % 2 == 0;
    size_t orders = 1 + generator_below(&tester->generator, 50);
    struct tally *tally = &tester->pair.tally;

    if (!begin_set(tester, run % 4 == 3) || !converts_as_ruled(tester, tally->old_verdicts, tally->old_rules))
        return 0;
    if (pair_verdict(&tester->pair) != 1)
        return report_that(tester, "a set that keeps the rules doesn't pass the audit", FROM_OLD, old.shape);
    tester->history.start = *lent_numbers(&tester->pair);
    traffic_begin(&tester->traffic, &tester->generator, old.shape);
    if (back_only)
        write_back_only(tester, &tester->history.start.shape);
    if (!run_history(tester, 0, orders))
        return 0;
    tally->stepped += orders;
    return goes_back(tester, back_only);
}
