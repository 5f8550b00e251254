/* The differential test's groups on stores that store the same: numbers worked out by hand, and in histories. */

#include "tester.h"

#include <inttypes.h>
#include <stdio.h>
#include <string.h>

/* Orders from fresh, number by number, worked out by hand from documents 01 and 02. */

static const struct worked_out list[] = {
    /* Port 0 polls line 0, which it has in E, by writes of all bytes, of none and of one. The mark is set. */
    {0x08, 0, {0, 5, 0, 1, 0}, {{10, 0, 5}, {0, 0, 0}}, {5, 7}, {0, 0}},
    {0xFF09, 5, {0, 0, 0, 0, 0}, {{10, 0, 5}, {0, 0, 0}}, {5, 7}, {1, 0}},
    {0x0009, 0xFFFFFFFFFFFFFFFF, {0, 0, 0, 0, 0}, {{10, 0, 5}, {0, 0, 0}}, {5, 7}, {1, 0}},
    {0x0109, 0xFF05, {0, 0, 0, 0, 0}, {{10, 0, 5}, {0, 0, 0}}, {5, 7}, {1, 0}},
    {0x04, 0, {0, 5, 0, 1, 0}, {{10, 0, 5}, {0, 0, 0}}, {5, 7}, {1, 0}},
    /* By swaps that put back what they find; one that fails is a read. */
    {0x0000000500000F0A, 5, {0, 5, 1, 0, 0}, {{10, 0, 5}, {0, 0, 0}}, {5, 7}, {1, 0}},
    {0x000000000000F00A, 0x1234, {0, 5, 1, 0, 0}, {{10, 0, 5}, {0, 0, 0}}, {5, 7}, {1, 0}},
    {0x0000000600000F0A, 5, {0, 5, 0, 0, 0}, {{10, 0, 5}, {0, 0, 0}}, {5, 7}, {1, 0}},
    /* There is no owner: the flush stores nothing. */
    {0x03, 0, {0, 0, 0, 0, 0}, {{0, 0, 5}, {0, 0, 0}}, {5, 7}, {1, 0}},
    {0x04, 0, {0, 5, 0, 1, 0}, {{0, 0, 5}, {0, 0, 0}}, {5, 7}, {1, 0}},
    /* A miss that stores the same ends in M, a hit on M stays there, and then the flush stores. */
    {0xFF09, 5, {0, 0, 0, 1, 0}, {{12, 0, 5}, {0, 0, 0}}, {5, 7}, {1, 0}},
    {0xFF09, 5, {0, 0, 0, 0, 0}, {{12, 0, 5}, {0, 0, 0}}, {5, 7}, {1, 0}},
    {0x03, 0, {0, 0, 0, 0, 1}, {{0, 0, 5}, {0, 0, 0}}, {5, 7}, {1, 0}},
    /* A read in write through clears the mark. A store in write through stores the word, and E and the mark stay. */
    {0x00, 0, {0, 5, 0, 1, 0}, {{2, 0, 5}, {0, 0, 0}}, {5, 7}, {0, 0}},
    {0xFF01, 5, {0, 0, 0, 0, 1}, {{2, 0, 5}, {0, 0, 0}}, {5, 7}, {0, 0}},
    /* A swap that fails turns the mode and sets no mark. */
    {0x0000000600000F0A, 5, {0, 5, 0, 0, 0}, {{10, 0, 5}, {0, 0, 0}}, {5, 7}, {0, 0}},
    {0x00, 0, {0, 5, 0, 0, 0}, {{2, 0, 5}, {0, 0, 0}}, {5, 7}, {0, 0}},
    /* Write-through E becomes write-back E, and the other way; by writes and by swaps. */
    {0x0009, 9, {0, 0, 0, 0, 0}, {{10, 0, 5}, {0, 0, 0}}, {5, 7}, {1, 0}},
    {0x04, 0, {0, 5, 0, 1, 0}, {{10, 0, 5}, {0, 0, 0}}, {5, 7}, {1, 0}},
    {0x0001, 9, {0, 0, 0, 0, 1}, {{2, 0, 5}, {0, 0, 0}}, {5, 7}, {0, 0}},
    {0x0000000500000F0A, 5, {0, 5, 1, 0, 0}, {{10, 0, 5}, {0, 0, 0}}, {5, 7}, {1, 0}},
    {0x0000000500000F02, 5, {0, 5, 1, 0, 1}, {{2, 0, 5}, {0, 0, 0}}, {5, 7}, {0, 0}},
    /* A store that changes the highest byte ends in M, and the device reads wrong. M stays when it is changed back. */
    {0x8009, 0x0100000000000000, {0, 0, 0, 0, 0}, {{12, 0, 0x0100000000000005}, {0, 0, 0}}, {5, 7}, {1, 0}},
    {0x04, 0, {0, 5, 0, 1, 0}, {{12, 0, 0x0100000000000005}, {0, 0, 0}}, {5, 7}, {1, 0}},
    {0x8009, 0, {0, 0, 0, 0, 0}, {{12, 0, 5}, {0, 0, 0}}, {5, 7}, {1, 0}},
    /* Shared: who stores the same becomes O, who was it becomes S; in write through all become S, with one store. */
    {0x18, 0, {0, 5, 0, 0, 0}, {{11, 0, 5}, {9, 0, 5}}, {5, 7}, {1, 0}},
    {0xFF09, 5, {0, 0, 0, 0, 0}, {{11, 0, 5}, {9, 0, 5}}, {5, 7}, {1, 0}},
    {0xFF19, 5, {0, 0, 0, 0, 0}, {{9, 0, 5}, {11, 0, 5}}, {5, 7}, {1, 0}},
    {0x0011, 0, {0, 0, 0, 0, 1}, {{1, 0, 5}, {1, 0, 5}}, {5, 7}, {0, 0}},
    {0x0009, 0, {0, 0, 0, 0, 0}, {{11, 0, 5}, {9, 0, 5}}, {5, 7}, {1, 0}},
    /* O without other copies becomes M. */
    {0x13, 0, {0, 0, 0, 0, 0}, {{11, 0, 5}, {0, 0, 5}}, {5, 7}, {1, 0}},
    {0xFF09, 5, {0, 0, 0, 0, 0}, {{12, 0, 5}, {0, 0, 5}}, {5, 7}, {1, 0}},
    {0x00, 0, {0, 5, 0, 0, 1}, {{2, 0, 5}, {0, 0, 5}}, {5, 7}, {0, 0}},
    /* E that was stored to is evicted without a store. */
    {0x0009, 0, {0, 0, 0, 0, 0}, {{10, 0, 5}, {0, 0, 5}}, {5, 7}, {1, 0}},
    {0x10008, 0, {0, 7, 0, 1, 0}, {{10, 1, 7}, {0, 0, 5}}, {5, 7}, {1, 0}},
    /* Another port that reads such a line gets memory's word, and both have it in S. S alone becomes M. */
    {0x1FF09, 7, {0, 0, 0, 0, 0}, {{10, 1, 7}, {0, 0, 5}}, {5, 7}, {1, 1}},
    {0x10018, 0, {0, 7, 0, 1, 0}, {{9, 1, 7}, {9, 1, 7}}, {5, 7}, {1, 1}},
    {0x10013, 0, {0, 0, 0, 0, 0}, {{9, 1, 7}, {0, 1, 7}}, {5, 7}, {1, 1}},
    {0x10009, 0, {0, 0, 0, 0, 0}, {{12, 1, 7}, {0, 1, 7}}, {5, 7}, {1, 1}},
    /* A miss gets the owner's word, and ends in M. A device write stores it, and no copy stays. */
    {0x10019, 0, {0, 0, 0, 0, 0}, {{0, 1, 7}, {12, 1, 7}}, {5, 7}, {1, 1}},
    {0x10005, 0, {0, 0, 0, 0, 1}, {{0, 1, 7}, {0, 1, 7}}, {5, 7}, {1, 0}},
    /* A device write that changes nothing takes E away too. */
    {0x10018, 0, {0, 7, 0, 1, 0}, {{0, 1, 7}, {10, 1, 7}}, {5, 7}, {1, 0}},
    {0x1FF19, 7, {0, 0, 0, 0, 0}, {{0, 1, 7}, {10, 1, 7}}, {5, 7}, {1, 1}},
    {0x10005, 0, {0, 0, 0, 1, 1}, {{0, 1, 7}, {0, 1, 7}}, {5, 7}, {1, 0}},
    /* What is refused sets no mark and turns no mode. */
    {0x10000, 0, {0, 7, 0, 1, 0}, {{2, 1, 7}, {0, 1, 7}}, {5, 7}, {1, 0}},
    {0x1FF29, 7, {5, 0, 0, 0, 0}, {{2, 1, 7}, {0, 1, 7}}, {5, 7}, {1, 0}},
    {0x2FF09, 7, {6, 0, 0, 0, 0}, {{2, 1, 7}, {0, 1, 7}}, {5, 7}, {1, 0}},
    {0x000000070001FF0A, 7, {7, 0, 0, 0, 0}, {{2, 1, 7}, {0, 1, 7}}, {5, 7}, {1, 0}},
    {0x000000070001000A, 7, {7, 0, 0, 0, 0}, {{2, 1, 7}, {0, 1, 7}}, {5, 7}, {1, 0}},
    {0x0000000700010F0A, 7, {0, 7, 1, 0, 0}, {{10, 1, 7}, {0, 1, 7}}, {5, 7}, {1, 1}},
};

enum { LISTED = sizeof list / sizeof list[0] };

/* Carries one of the list out and holds it against the list; the audit says yes after it. */
static int is_as_listed(struct tester *tester, const struct worked_out *listed)
{
    struct pair *pair = &tester->pair;
    const struct flat_memory *flat = &tester->history.flat;

    if (!history_add(&tester->history, pair, listed->word, listed->operand))
        return 0;
    if (!answer_is(pair, &listed->answer) || !tables_are(pair, listed->entries, listed->memory) ||
        flat->marks[0] != listed->marks[0] || flat->marks[1] != listed->marks[1]) {
        snprintf(pair->difference, sizeof pair->difference, "  the last order is not as worked out\n");
        return 0;
    }
    return history_end(&tester->history, pair);
}

int worked_out_orders(struct tester *tester, const struct worked_out *orders, size_t count)
{
    size_t k = 0;

    if (begin_at_five_and_seven(tester)) {
        while (k < count && is_as_listed(tester, &orders[k]))
            k++;
    }
    if (k < count)
        history_print(&tester->history, &tester->pair);
    return k == count;
}

/* Stores by port 1 to line 0 at the shape 3/1/2, on given tables. */

/* The word that port 1 finds on all of them. */
#define FOUND UINT64_C(0x8877665544332211)

/* How a store ends: by its mode, and whether its merge changes the word found or its swap fails. */
enum way { BACK_SAME, BACK_CHANGED, THROUGH, BACK_FAILED, THROUGH_FAILED, WAYS };

enum turn { SAME, CHANGED, FAILED };

struct store {
    unsigned kind, mask;
    uint32_t compare;
    uint64_t operand;
    enum turn turn;
    uint64_t merged; /* the word afterwards */
};

static const struct store store_list[] = {
    /* No byte is written, whatever the operand. */
    {SECOND_WRITE, 0x00, 0, 0, SAME, FOUND},
    {SECOND_WRITE, 0x00, 0, 0xFFFFFFFFFFFFFFFF, SAME, FOUND},
    {SECOND_WRITE, 0x00, 0, FOUND, SAME, FOUND},
    /* Bytes that are there already, and others beside them. */
    {SECOND_WRITE, 0xFF, 0, FOUND, SAME, FOUND},
    {SECOND_WRITE, 0x0F, 0, 0x0000000044332211, SAME, FOUND},
    {SECOND_WRITE, 0xF0, 0, 0x88776655FFFFFFFF, SAME, FOUND},
    {SECOND_WRITE, 0x01, 0, 0xFFFFFFFFFFFFFF11, SAME, FOUND},
    {SECOND_WRITE, 0x80, 0, 0x8800000000000000, SAME, FOUND},
    {SECOND_WRITE, 0x5A, 0, 0x0077005544002200, SAME, FOUND},
    {SECOND_WRITE, 0x7F, 0, 0x0877665544332211, SAME, FOUND},
    {SECOND_WRITE, 0xFE, 0, 0x8877665544332210, SAME, FOUND},
    /* Other bytes under the mask, and those that are there beside them. */
    {SECOND_WRITE, 0xFF, 0, 0, CHANGED, 0},
    {SECOND_WRITE, 0xFF, 0, 0x0877665544332211, CHANGED, 0x0877665544332211},
    {SECOND_WRITE, 0x80, 0, 0x0877665544332211, CHANGED, 0x0877665544332211},
    {SECOND_WRITE, 0xF0, 0, 0x0877665500000000, CHANGED, 0x0877665544332211},
    {SECOND_WRITE, 0xFF, 0, 0x8877665544332210, CHANGED, 0x8877665544332210},
    {SECOND_WRITE, 0x01, 0, 0x8877665544332210, CHANGED, 0x8877665544332210},
    {SECOND_WRITE, 0x10, 0, 0x8877665444332211, CHANGED, 0x8877665444332211},
    {SECOND_WRITE, 0x08, 0, 0x8877665545332211, CHANGED, 0x8877665545332211},
    {SECOND_WRITE, 0x5A, 0, 0x0076005544002200, CHANGED, 0x8876665544332211},
    /* Swaps that succeed, and put back what was there or another half. */
    {SECOND_SWAP, 0x0F, 0x44332211, FOUND, SAME, FOUND},
    {SECOND_SWAP, 0x0F, 0x44332211, 0x0000000044332211, SAME, FOUND},
    {SECOND_SWAP, 0xF0, 0x88776655, 0x8877665500000000, SAME, FOUND},
    {SECOND_SWAP, 0x0F, 0x44332211, 0x8877665544332210, CHANGED, 0x8877665544332210},
    {SECOND_SWAP, 0x0F, 0x44332211, 0x88776655C4332211, CHANGED, 0x88776655C4332211},
    {SECOND_SWAP, 0xF0, 0x88776655, 0x0877665544332211, CHANGED, 0x0877665544332211},
    {SECOND_SWAP, 0xF0, 0x88776655, 0x8877665400000000, CHANGED, 0x8877665444332211},
    /* Swaps that fail, whatever their operand would do. */
    {SECOND_SWAP, 0x0F, 0x44332210, FOUND, FAILED, FOUND},
    {SECOND_SWAP, 0x0F, 0x88776655, 0x0000000044332211, FAILED, FOUND},
    {SECOND_SWAP, 0xF0, 0x44332211, FOUND, FAILED, FOUND},
    {SECOND_SWAP, 0xF0, 0x08776655, 0x1234567800000000, FAILED, FOUND},
};

enum { STORES = sizeof store_list / sizeof store_list[0] };

/* The states of ports 0 to 2, and words by letters: theirs, then memory's of lines 0 and 1. f is the word found, n the
   merged one, any other letter a word of its own. */
struct after {
    unsigned states[3];
    const char *words;
    uint64_t reads, writes;
};

struct before {
    int passes; /* the audit */
    unsigned states[3];
    uint32_t tags[3]; /* afterwards port 1's is 0, and the others' stay */
    const char *words;
    struct after after[WAYS];
};

static const struct before before_list[] = {
    /* E in either mode: where the word stays, write back leaves write-back E. */
    {1, {0, 2, 0}, {0, 0, 0}, "afcfg",
     {{{0, 10, 0}, "ancfg", 0, 0}, {{0, 12, 0}, "ancfg", 0, 0}, {{0, 2, 0}, "ancng", 0, 1},
      {{0, 10, 0}, "afcfg", 0, 0}, {{0, 2, 0}, "afcfg", 0, 0}}},
    {1, {0, 10, 0}, {0, 0, 0}, "afcfg",
     {{{0, 10, 0}, "ancfg", 0, 0}, {{0, 12, 0}, "ancfg", 0, 0}, {{0, 2, 0}, "ancng", 0, 1},
      {{0, 10, 0}, "afcfg", 0, 0}, {{0, 2, 0}, "afcfg", 0, 0}}},
    /* The others have line 1, and one of them owns it. */
    {1, {11, 10, 9}, {1, 0, 1}, "afafg",
     {{{11, 10, 9}, "anafg", 0, 0}, {{11, 12, 9}, "anafg", 0, 0}, {{11, 2, 9}, "anang", 0, 1},
      {{11, 10, 9}, "afafg", 0, 0}, {{11, 2, 9}, "afafg", 0, 0}}},
    /* M. */
    {1, {0, 12, 0}, {0, 0, 0}, "afcmg",
     {{{0, 12, 0}, "ancmg", 0, 0}, {{0, 12, 0}, "ancmg", 0, 0}, {{0, 2, 0}, "ancng", 0, 1},
      {{0, 12, 0}, "afcmg", 0, 0}, {{0, 2, 0}, "afcfg", 0, 1}}},
    /* M whose word memory has, as a miss that stores the same leaves it. */
    {1, {0, 12, 0}, {0, 0, 0}, "afcfg",
     {{{0, 12, 0}, "ancfg", 0, 0}, {{0, 12, 0}, "ancfg", 0, 0}, {{0, 2, 0}, "ancng", 0, 1},
      {{0, 12, 0}, "afcfg", 0, 0}, {{0, 2, 0}, "afcfg", 0, 1}}},
    /* S in write through, alone and shared. */
    {1, {0, 1, 0}, {0, 0, 0}, "afcfg",
     {{{0, 12, 0}, "ancfg", 0, 0}, {{0, 12, 0}, "ancfg", 0, 0}, {{0, 2, 0}, "ancng", 0, 1},
      {{0, 9, 0}, "afcfg", 0, 0}, {{0, 1, 0}, "afcfg", 0, 0}}},
    {1, {1, 1, 1}, {0, 0, 0}, "ffffg",
     {{{9, 11, 9}, "nnnfg", 0, 0}, {{9, 11, 9}, "nnnfg", 0, 0}, {{1, 1, 1}, "nnnng", 0, 1},
      {{9, 9, 9}, "ffffg", 0, 0}, {{1, 1, 1}, "ffffg", 0, 0}}},
    /* S in write back, alone, shared without an owner and with one. */
    {1, {0, 9, 0}, {0, 0, 0}, "afcfg",
     {{{0, 12, 0}, "ancfg", 0, 0}, {{0, 12, 0}, "ancfg", 0, 0}, {{0, 2, 0}, "ancng", 0, 1},
      {{0, 9, 0}, "afcfg", 0, 0}, {{0, 1, 0}, "afcfg", 0, 0}}},
    {1, {9, 9, 0}, {0, 0, 0}, "ffcfg",
     {{{9, 11, 0}, "nncfg", 0, 0}, {{9, 11, 0}, "nncfg", 0, 0}, {{1, 1, 0}, "nncng", 0, 1},
      {{9, 9, 0}, "ffcfg", 0, 0}, {{1, 1, 0}, "ffcfg", 0, 0}}},
    {1, {9, 9, 11}, {0, 0, 0}, "fffmg",
     {{{9, 11, 9}, "nnnmg", 0, 0}, {{9, 11, 9}, "nnnmg", 0, 0}, {{1, 1, 1}, "nnnng", 0, 1},
      {{9, 9, 11}, "fffmg", 0, 0}, {{1, 1, 1}, "ffffg", 0, 1}}},
    /* O, alone and shared, also where memory has its word. */
    {1, {0, 11, 0}, {0, 0, 0}, "afcmg",
     {{{0, 12, 0}, "ancmg", 0, 0}, {{0, 12, 0}, "ancmg", 0, 0}, {{0, 2, 0}, "ancng", 0, 1},
      {{0, 11, 0}, "afcmg", 0, 0}, {{0, 1, 0}, "afcfg", 0, 1}}},
    {1, {0, 11, 0}, {0, 0, 0}, "afcfg",
     {{{0, 12, 0}, "ancfg", 0, 0}, {{0, 12, 0}, "ancfg", 0, 0}, {{0, 2, 0}, "ancng", 0, 1},
      {{0, 11, 0}, "afcfg", 0, 0}, {{0, 1, 0}, "afcfg", 0, 1}}},
    {1, {9, 11, 9}, {0, 0, 0}, "fffmg",
     {{{9, 11, 9}, "nnnmg", 0, 0}, {{9, 11, 9}, "nnnmg", 0, 0}, {{1, 1, 1}, "nnnng", 0, 1},
      {{9, 11, 9}, "fffmg", 0, 0}, {{1, 1, 1}, "ffffg", 0, 1}}},
    {1, {0, 11, 9}, {0, 0, 0}, "afffg",
     {{{0, 11, 9}, "annfg", 0, 0}, {{0, 11, 9}, "annfg", 0, 0}, {{0, 1, 1}, "annng", 0, 1},
      {{0, 11, 9}, "afffg", 0, 0}, {{0, 1, 1}, "afffg", 0, 1}}},
    /* Misses: nobody holds the line; port 1 has nothing, or line 1 in E of either mode or in M, which is evicted. */
    {1, {0, 0, 0}, {0, 0, 0}, "abcfg",
     {{{0, 12, 0}, "ancfg", 1, 0}, {{0, 12, 0}, "ancfg", 1, 0}, {{0, 2, 0}, "ancng", 1, 1},
      {{0, 10, 0}, "afcfg", 1, 0}, {{0, 2, 0}, "afcfg", 1, 0}}},
    {1, {0, 10, 0}, {0, 1, 0}, "agcfg",
     {{{0, 12, 0}, "ancfg", 1, 0}, {{0, 12, 0}, "ancfg", 1, 0}, {{0, 2, 0}, "ancng", 1, 1},
      {{0, 10, 0}, "afcfg", 1, 0}, {{0, 2, 0}, "afcfg", 1, 0}}},
    {1, {0, 2, 0}, {0, 1, 0}, "affff",
     {{{0, 12, 0}, "anfff", 1, 0}, {{0, 12, 0}, "anfff", 1, 0}, {{0, 2, 0}, "anfnf", 1, 1},
      {{0, 10, 0}, "affff", 1, 0}, {{0, 2, 0}, "affff", 1, 0}}},
    {1, {0, 12, 0}, {0, 1, 0}, "abcfg",
     {{{0, 12, 0}, "ancfb", 1, 1}, {{0, 12, 0}, "ancfb", 1, 1}, {{0, 2, 0}, "ancnb", 1, 2},
      {{0, 10, 0}, "afcfb", 1, 1}, {{0, 2, 0}, "afcfb", 1, 1}}},
    /* Others have it clean: E of either mode, S. */
    {1, {10, 0, 0}, {0, 0, 0}, "fbcfg",
     {{{0, 12, 0}, "fncfg", 1, 0}, {{0, 12, 0}, "fncfg", 1, 0}, {{0, 2, 0}, "fncng", 1, 1},
      {{9, 9, 0}, "ffcfg", 1, 0}, {{1, 1, 0}, "ffcfg", 1, 0}}},
    {1, {0, 9, 2}, {0, 1, 0}, "agffg",
     {{{0, 12, 0}, "anffg", 1, 0}, {{0, 12, 0}, "anffg", 1, 0}, {{0, 2, 0}, "anfng", 1, 1},
      {{0, 9, 9}, "afffg", 1, 0}, {{0, 1, 1}, "afffg", 1, 0}}},
    {1, {9, 0, 9}, {0, 0, 0}, "fbffg",
     {{{0, 12, 0}, "fnffg", 1, 0}, {{0, 12, 0}, "fnffg", 1, 0}, {{0, 2, 0}, "fnfng", 1, 1},
      {{9, 9, 9}, "ffffg", 1, 0}, {{1, 1, 1}, "ffffg", 1, 0}}},
    /* Another port owns it, in M or in O; in the last two memory has the word too. */
    {1, {12, 0, 0}, {0, 0, 0}, "fbcmg",
     {{{0, 12, 0}, "fncmg", 0, 0}, {{0, 12, 0}, "fncmg", 0, 0}, {{0, 2, 0}, "fncng", 0, 1},
      {{11, 9, 0}, "ffcmg", 0, 0}, {{1, 1, 0}, "ffcfg", 0, 1}}},
    {1, {9, 0, 11}, {0, 0, 0}, "fbfmg",
     {{{0, 12, 0}, "fnfmg", 0, 0}, {{0, 12, 0}, "fnfmg", 0, 0}, {{0, 2, 0}, "fnfng", 0, 1},
      {{9, 9, 11}, "fffmg", 0, 0}, {{1, 1, 1}, "ffffg", 0, 1}}},
    {1, {0, 12, 12}, {0, 1, 0}, "abffg",
     {{{0, 12, 0}, "anffb", 0, 1}, {{0, 12, 0}, "anffb", 0, 1}, {{0, 2, 0}, "anfnb", 0, 2},
      {{0, 9, 11}, "afffb", 0, 1}, {{0, 1, 1}, "afffb", 0, 2}}},
    {1, {0, 0, 11}, {0, 0, 0}, "abffg",
     {{{0, 12, 0}, "anffg", 0, 0}, {{0, 12, 0}, "anffg", 0, 0}, {{0, 2, 0}, "anfng", 0, 1},
      {{0, 9, 11}, "afffg", 0, 0}, {{0, 1, 1}, "afffg", 0, 1}}},
    /* Tables that fail the audit. E beside other holders, which are left alone. */
    {0, {9, 10, 0}, {0, 0, 0}, "afcfg",
     {{{9, 10, 0}, "ancfg", 0, 0}, {{9, 12, 0}, "ancfg", 0, 0}, {{9, 2, 0}, "ancng", 0, 1},
      {{9, 10, 0}, "afcfg", 0, 0}, {{9, 2, 0}, "afcfg", 0, 0}}},
    {0, {9, 10, 9}, {0, 0, 0}, "ffffg",
     {{{9, 10, 9}, "fnffg", 0, 0}, {{9, 12, 9}, "fnffg", 0, 0}, {{9, 2, 9}, "fnfng", 0, 1},
      {{9, 10, 9}, "ffffg", 0, 0}, {{9, 2, 9}, "ffffg", 0, 0}}},
    {0, {12, 2, 11}, {0, 0, 0}, "afcmg",
     {{{12, 10, 11}, "ancmg", 0, 0}, {{12, 12, 11}, "ancmg", 0, 0}, {{12, 2, 11}, "ancng", 0, 1},
      {{12, 10, 11}, "afcmg", 0, 0}, {{12, 2, 11}, "afcmg", 0, 0}}},
    {0, {2, 10, 1}, {0, 0, 0}, "afcmg",
     {{{2, 10, 1}, "ancmg", 0, 0}, {{2, 12, 1}, "ancmg", 0, 0}, {{2, 2, 1}, "ancng", 0, 1},
      {{2, 10, 1}, "afcmg", 0, 0}, {{2, 2, 1}, "afcmg", 0, 0}}},
    /* E whose word memory lacks: the port's own word is compared. */
    {0, {0, 10, 0}, {0, 0, 0}, "afcmg",
     {{{0, 10, 0}, "ancmg", 0, 0}, {{0, 12, 0}, "ancmg", 0, 0}, {{0, 2, 0}, "ancng", 0, 1},
      {{0, 10, 0}, "afcmg", 0, 0}, {{0, 2, 0}, "afcmg", 0, 0}}},
    {0, {0, 2, 0}, {0, 0, 0}, "afcmg",
     {{{0, 10, 0}, "ancmg", 0, 0}, {{0, 12, 0}, "ancmg", 0, 0}, {{0, 2, 0}, "ancng", 0, 1},
      {{0, 10, 0}, "afcmg", 0, 0}, {{0, 2, 0}, "afcmg", 0, 0}}},
    /* M beside other holders, which are left alone; S beside E and M, and O beside O, which hand the word on to all. */
    {0, {9, 12, 1}, {0, 0, 0}, "afcmg",
     {{{9, 12, 1}, "ancmg", 0, 0}, {{9, 12, 1}, "ancmg", 0, 0}, {{9, 2, 1}, "ancng", 0, 1},
      {{9, 12, 1}, "afcmg", 0, 0}, {{9, 2, 1}, "afcfg", 0, 1}}},
    {0, {10, 9, 0}, {0, 0, 0}, "afcmg",
     {{{9, 11, 0}, "nncmg", 0, 0}, {{9, 11, 0}, "nncmg", 0, 0}, {{1, 1, 0}, "nncng", 0, 1},
      {{10, 9, 0}, "afcmg", 0, 0}, {{1, 1, 0}, "afcmg", 0, 0}}},
    {0, {12, 1, 2}, {0, 0, 0}, "afcmg",
     {{{9, 11, 9}, "nnnmg", 0, 0}, {{9, 11, 9}, "nnnmg", 0, 0}, {{1, 1, 1}, "nnnng", 0, 1},
      {{9, 9, 9}, "afcmg", 0, 0}, {{12, 1, 2}, "afcmg", 0, 0}}},
    {0, {11, 11, 9}, {0, 0, 0}, "afcmg",
     {{{9, 11, 9}, "nnnmg", 0, 0}, {{9, 11, 9}, "nnnmg", 0, 0}, {{1, 1, 1}, "nnnng", 0, 1},
      {{11, 11, 9}, "afcmg", 0, 0}, {{1, 1, 1}, "afcfg", 0, 1}}},
    /* A miss with two owners, and one whose clean holders have other words than memory. */
    {0, {12, 0, 11}, {0, 0, 0}, "fbcmg",
     {{{0, 12, 0}, "fncmg", 0, 0}, {{0, 12, 0}, "fncmg", 0, 0}, {{0, 2, 0}, "fncng", 0, 1},
      {{11, 9, 11}, "ffcmg", 0, 0}, {{1, 1, 1}, "ffcfg", 0, 1}}},
    {0, {10, 0, 1}, {0, 0, 0}, "abcfg",
     {{{0, 12, 0}, "ancfg", 1, 0}, {{0, 12, 0}, "ancfg", 1, 0}, {{0, 2, 0}, "ancng", 1, 1},
      {{9, 9, 9}, "afcfg", 1, 0}, {{1, 1, 1}, "afcfg", 1, 0}}},
};

enum { BEFORES = sizeof before_list / sizeof before_list[0] };

static uint64_t word_of(char letter, uint64_t merged)
{
    if (letter == 'f' || letter == 'n')
        return letter == 'f' ? FOUND : merged;
    return UINT64_C(0x0101010101010101) * (unsigned char)letter;
}

static void put_before(const struct before *before, struct second_model *start)
{
    static const struct second_shape shape = SHAPE(3, 1, 2);

    start->shape = shape;
    for (unsigned port = 0; port < 3; port++) {
        start->states[port] = (uint8_t)before->states[port];
        start->tags[port] = before->tags[port];
        start->data[port] = word_of(before->words[port], 0);
    }
    start->memory[0] = word_of(before->words[3], 0);
    start->memory[1] = word_of(before->words[4], 0);
}

static int is_after(const struct pair *pair, const struct before *before, const struct after *after, uint64_t merged)
{
    const struct second_model *lent = lent_numbers(pair);

    for (unsigned port = 0; port < 3; port++) {
        if (lent->states[port] != after->states[port] || lent->data[port] != word_of(after->words[port], merged))
            return 0;
        if (lent->tags[port] != (port == 1 ? 0 : before->tags[port]))
            return 0;
    }
    return lent->memory[0] == word_of(after->words[3], merged) && lent->memory[1] == word_of(after->words[4], merged);
}

/* The numbers of a store: a swap's value is the word found. */
static int answers(const struct pair *pair, const struct store *store, const struct after *after)
{
    int swap = store->kind == SECOND_SWAP;
    struct second_answer answer = {0, swap ? FOUND : 0, swap && store->turn != FAILED, after->reads, after->writes};

    return answer_is(pair, &answer);
}

static enum way way_of(const struct store *store, unsigned mode)
{
    if (store->turn == FAILED)
        return mode ? BACK_FAILED : THROUGH_FAILED;
    if (!mode)
        return THROUGH;
    return store->turn == SAME ? BACK_SAME : BACK_CHANGED;
}

int verdict_is(struct tester *tester, unsigned verdict)
{
    struct pair *pair = &tester->pair;

    if (!history_end(&tester->history, pair))
        return 0;
    if (pair_verdict(pair) == verdict)
        return 1;
    snprintf(pair->difference, sizeof pair->difference, "  the audit doesn't say %u\n", verdict);
    return 0;
}

/* One store on one of the tables. A table that passes the audit is left passing it. */
static int store_is(struct tester *tester, const struct before *before, const struct store *store, unsigned mode)
{
    struct pair *pair = &tester->pair;
    const struct after *after = &before->after[way_of(store, mode)];
    uint64_t word = traffic_word(store->kind, mode, 1, store->mask, 0, store->compare);

    if (!add_to_start(tester, word, store->operand))
        return 0;
    if (!answers(pair, store, after) || !is_after(pair, before, after, store->merged)) {
        snprintf(pair->difference, sizeof pair->difference, "  the store is not as worked out\n");
        return 0;
    }
    return !before->passes || verdict_is(tester, 1);
}

static int stores_on(struct tester *tester, const struct before *before)
{
    struct history *history = &tester->history;

    put_before(before, &history->start);
    history->fresh = 0;
    if (!history_begin(history, &tester->pair) || !verdict_is(tester, (unsigned)before->passes)) {
        history_print(history, &tester->pair);
        return 0;
    }
    for (size_t k = 0; k < 2 * STORES; k++) {
        if (!store_is(tester, before, &store_list[k / 2], (unsigned)k % 2)) {
            printf("  store %zu of the list\n", k / 2 + 1);
            history_print(&tester->history, &tester->pair);
            return 0;
        }
    }
    return 1;
}

/* Run 0: the orders from fresh. Run 1: every store on every table. */
int stores_numbers(struct tester *tester, uint64_t run)
{
    if (run == 0)
        return worked_out_orders(tester, list, LISTED);
    for (size_t k = 0; k < BEFORES; k++) {
        if (!stores_on(tester, &before_list[k])) {
            printf("  table %zu of the list\n", k + 1);
            return 0;
        }
    }
    return 1;
}

/* Stores in the middle of histories. */

/* A bit of a byte that the mask names; the mask is not 0. */
static uint64_t bit_under(struct generator *generator, unsigned mask)
{
    unsigned byte = generator_below(generator, 8);

    while (!(mask >> byte & 1))
        byte = (byte + 1) % 8;
    return UINT64_C(1) << (8 * byte + generator_below(generator, 8));
}

/* A port's write, or swap that succeeds, of the word that it finds, or of all of it but a bit. */
static struct history_order store_of(struct generator *generator, uint64_t word, int swap, int changed)
{
    static const unsigned masks[4] = {0xFF, 0x00, 0x01, 0x80};
    unsigned often = masks[generator_below(generator, 4)], any = generator_below(generator, 512);
    unsigned mask = any < 256 ? any : often;
    struct history_order order = {0, 0, 0};

    if (changed && mask == 0)
        mask = 0xFF;
    order.word = traffic_word(SECOND_WRITE, 0, 0, mask, 0, generator_word(generator) >> 32);
    if (swap) {
        mask = any % 2 ? 0x0F : 0xF0;
        order.word = traffic_word(SECOND_SWAP, 0, 0, mask, 0, any % 2 ? word & UINT64_C(0xFFFFFFFF) : word >> 32);
    }
    order.operand = second_merge(generator_word(generator), word, mask);
    if (changed)
        order.operand ^= bit_under(generator, mask);
    return order;
}

/* Adds an order word with mode, port and line put into it. */
static int add_for(struct tester *tester, struct history_order order, unsigned mode, unsigned port, unsigned line)
{
    uint64_t word = order.word | traffic_word(0, mode, port, 0, line, 0);

    return history_add(&tester->history, &tester->pair, word, order.operand);
}

/* Orders that bring a line that no port holds into a state, by one port in the port field 0 and another in 1. */
static const struct preparation {
    unsigned count;
    uint64_t words[3];
} preparations[] = {
    {0, {0, 0, 0}},                                          /* nobody has it */
    {1, {0x10, 0, 0}}, {1, {0x18, 0, 0}},                    /* the other port has it clean */
    {1, {0xFF19, 0, 0}},                                     /* the other port owns it */
    {1, {0x00, 0, 0}}, {1, {0x08, 0, 0}},                    /* E */
    {1, {0xFF09, 0, 0}},                                     /* M */
    {2, {0x00, 0x10, 0}}, {2, {0x08, 0x18, 0}},              /* S, shared */
    {3, {0x00, 0x10, 0x13}}, {3, {0x08, 0x18, 0x13}},        /* S, alone */
    {2, {0xFF19, 0x08, 0}},                                  /* S beside an owner */
    {2, {0xFF09, 0x18, 0}}, {3, {0xFF09, 0x18, 0x13}},       /* O, shared and alone */
};

enum { PREPARATIONS = sizeof preparations / sizeof preparations[0] };

/* A device write, after which no port has the line, one of these, and a store: which one is said by three bits. */
static int prepared_store(struct tester *tester, const struct preparation *preparation, unsigned which)
{
    struct generator *generator = &tester->generator;
    unsigned ports = (unsigned)tester->traffic.shape.ports, port = generator_below(generator, ports);
    unsigned line = tester->traffic.hot[generator_below(generator, tester->traffic.hot_count)];
    struct history_order order = {0xFF00 | SECOND_DEVICE_WRITE, generator_word(generator), 0};

    if (!add_for(tester, order, 0, 0, line))
        return 0;
    for (unsigned k = 0; k < preparation->count; k++) {
        unsigned other = preparation->words[k] >> 4 & 15 ? (port + 1) % ports : port;

        order.word = preparation->words[k] & ~UINT64_C(0xF0);
        order.operand = generator_word(generator);
        if (!add_for(tester, order, 0, other, line))
            return 0;
    }
    order = store_of(generator, tester->history.flat.words[line], which & 1, which >> 1 & 1);
    return add_for(tester, order, which >> 2 & 1, port, line);
}

/* A port that polls a line, and the line's word. */
struct poller {
    unsigned port, line;
    uint64_t word;
};

/* Adds an order by the port; 1 if all is as expected, the port then has the line in a state with the word, and memory
   has that word too. Only a read, which may evict another line, stores anything. */
static int stays_clean(struct tester *tester, const struct poller *poller, struct history_order order, unsigned mode,
                       unsigned state)
{
    const struct second_model *lent;
    size_t entry;

    if (!add_for(tester, order, mode, poller->port, poller->line))
        return report_history(tester);
    lent = lent_numbers(&tester->pair);
    entry = (size_t)(poller->port * lent->shape.sets + poller->line % lent->shape.sets);
    if (lent->states[entry] == state && lent->data[entry] == poller->word &&
        lent->memory[poller->line] == poller->word &&
        ((order.word & 7) == SECOND_READ || tester->history.given.writes == 0))
        return 1;
    snprintf(tester->pair.difference, sizeof tester->pair.difference, "  a line that was polled is not clean\n");
    history_print(&tester->history, &tester->pair);
    return 0;
}

/* After a device write no port has the line, so that one that reads it has E. However often it then stores the same in
   write back it has write-back E, the mark is 1, and the flush stores nothing. */
static int polling_loop(struct tester *tester)
{
    static const struct history_order read = {SECOND_READ, 0, 0}, flush = {SECOND_FLUSH, 0, 0};
    struct generator *generator = &tester->generator;
    struct history_order device_write = {0xFF00 | SECOND_DEVICE_WRITE, generator_word(generator), 0};
    unsigned line = tester->traffic.hot[generator_below(generator, tester->traffic.hot_count)];
    struct poller poller = {generator_below(generator, tester->traffic.shape.ports), line, device_write.operand};
    unsigned mode = generator_below(generator, 2);

    if (!add_for(tester, device_write, 0, 0, line))
        return report_history(tester);
    if (!stays_clean(tester, &poller, read, mode, mode ? 10 : 2))
        return 0;
    for (unsigned k = 1 + generator_below(generator, 6); k > 0; k--) {
        struct history_order order = store_of(generator, poller.word, generator_percent(generator, 40), 0);

        if (!stays_clean(tester, &poller, order, 1, 10))
            return 0;
        if (tester->history.flat.marks[line] != 1) {
            printf("  the mark of a line that was polled is 0\n");
            return 0;
        }
    }
    return stays_clean(tester, &poller, flush, generator_below(generator, 2), 0);
}

/* Run r and its round say which stores are made, so that all come up on all that they may meet: in the mode that they
   say, so without ranges. */
int stores_in_histories(struct tester *tester, uint64_t run)
{
    struct generator *generator = &tester->generator;
    struct second_shape shape = run % 4 < 3 ? traffic_small_shape(generator) : traffic_any_shape(generator);

    begin_traffic(tester, traffic_without_ranges(shape));
    traffic_fill_tables(generator, &tester->history.start);
    tester->history.fresh = 1;
    if (!history_begin(&tester->history, &tester->pair))
        return report_history(tester);
    for (unsigned round = 0; round < 4; round++) {
        if (!add_orders(tester, generator_below(generator, 20)))
            return report_history(tester);
        for (unsigned k = 0; k < PREPARATIONS; k++) {
            if (!prepared_store(tester, &preparations[k], (unsigned)run + round + k))
                return report_history(tester);
        }
        if (!polling_loop(tester))
            return 0;
    }
    return history_end(&tester->history, &tester->pair) || report_history(tester);
}
