/* The differential test's groups on swaps that fail: by hand, as reads, counted, for locks, and before other orders. */

#include "tester.h"

#include <inttypes.h>
#include <stdio.h>
#include <string.h>

/* Orders from fresh, number by number, worked out by hand from documents 01 and 02. */

static const struct worked_out list[] = {
    /* Line 0 is a lock. Nobody has it, then one port, and both keep a copy; the marks stay. */
    {0x0000000600000F0A, 9, {0, 5, 0, 1, 0}, {{10, 0, 5}, {0, 0, 0}}, {5, 7}, {0, 0}},
    {0x0000000600000F1A, 9, {0, 5, 0, 1, 0}, {{9, 0, 5}, {9, 0, 5}}, {5, 7}, {0, 0}},
    /* They try again, by hits that fail: nothing is read, and in the other mode both copies turn. */
    {0x0000000600000F1A, 9, {0, 5, 0, 0, 0}, {{9, 0, 5}, {9, 0, 5}}, {5, 7}, {0, 0}},
    {0x000000060000F002, 9, {0, 5, 0, 0, 0}, {{1, 0, 5}, {1, 0, 5}}, {5, 7}, {0, 0}},
    {0x0000000600000F1A, 9, {0, 5, 0, 0, 0}, {{9, 0, 5}, {9, 0, 5}}, {5, 7}, {0, 0}},
    /* Port 0 takes it, by a hit. Port 1 gives its copy up and tries again: the word is the owner's, who stays it. */
    {0x0000000500000F0A, 6, {0, 5, 1, 0, 0}, {{11, 0, 6}, {9, 0, 6}}, {5, 7}, {1, 0}},
    {0x13, 0, {0, 0, 0, 0, 0}, {{11, 0, 6}, {0, 0, 6}}, {5, 7}, {1, 0}},
    {0x0000000500000F1A, 7, {0, 6, 0, 0, 0}, {{11, 0, 6}, {9, 0, 6}}, {5, 7}, {1, 0}},
    {0x0000000500000F1A, 7, {0, 6, 0, 0, 0}, {{11, 0, 6}, {9, 0, 6}}, {5, 7}, {1, 0}},
    {0x04, 0, {0, 5, 0, 1, 0}, {{11, 0, 6}, {9, 0, 6}}, {5, 7}, {1, 0}},
    /* In write through the owner's word is stored, both have S, and the mark is cleared. */
    {0x13, 0, {0, 0, 0, 0, 0}, {{11, 0, 6}, {0, 0, 6}}, {5, 7}, {1, 0}},
    {0x0000000500000F12, 7, {0, 6, 0, 0, 1}, {{1, 0, 6}, {1, 0, 6}}, {6, 7}, {0, 0}},
    {0x04, 0, {0, 6, 0, 1, 0}, {{1, 0, 6}, {1, 0, 6}}, {6, 7}, {0, 0}},
    /* Port 0 has line 1 in M; of port 1, which had line 0 clean, nothing is stored. */
    {0x1FF09, 0x70, {0, 0, 0, 1, 0}, {{12, 1, 0x70}, {1, 0, 6}}, {6, 7}, {0, 1}},
    {0x000000010001F01A, 0x500000000, {0, 0x70, 0, 0, 0}, {{11, 1, 0x70}, {9, 1, 0x70}}, {6, 7}, {0, 1}},
    /* Port 0 owns line 1, which gives way to line 0: its word is stored there, and its mark stays. */
    {0x0000000700000F0A, 9, {0, 6, 0, 1, 1}, {{10, 0, 6}, {9, 1, 0x70}}, {6, 0x70}, {0, 1}},
    /* E of another port becomes S in the swap's mode. */
    {0x000000060000F012, 9, {0, 6, 0, 1, 0}, {{1, 0, 6}, {1, 0, 6}}, {6, 0x70}, {0, 1}},
    /* A swap that succeeds takes the copies away as ever; one that fails gets the owner's word, and both have S. */
    {0x13, 0, {0, 0, 0, 0, 0}, {{1, 0, 6}, {0, 0, 6}}, {6, 0x70}, {0, 1}},
    {0x0000000600000F1A, 8, {0, 6, 1, 1, 0}, {{0, 0, 6}, {12, 0, 8}}, {6, 0x70}, {1, 1}},
    {0x0000000600000F02, 9, {0, 8, 0, 0, 1}, {{1, 0, 8}, {1, 0, 8}}, {8, 0x70}, {0, 1}},
    /* Port 1 owns line 0, port 0 has line 1; port 1's word is stored when it tries line 1, and E becomes S. */
    {0xFF19, 3, {0, 0, 0, 0, 0}, {{9, 0, 3}, {11, 0, 3}}, {8, 0x70}, {1, 1}},
    {0x0000007100010F0A, 0, {0, 0x70, 0, 1, 0}, {{10, 1, 0x70}, {11, 0, 3}}, {8, 0x70}, {1, 1}},
    {0x0000007100010F12, 0, {0, 0x70, 0, 1, 1}, {{1, 1, 0x70}, {1, 1, 0x70}}, {3, 0x70}, {1, 0}},
    /* Two stores: of the word that gives way, and of the owner's. Memory's word is not the one compared. */
    {0x1FF09, 0x71, {0, 0, 0, 0, 0}, {{11, 1, 0x71}, {9, 1, 0x71}}, {3, 0x70}, {1, 1}},
    {0xFF19, 4, {0, 0, 0, 1, 0}, {{11, 1, 0x71}, {12, 0, 4}}, {3, 0x70}, {1, 1}},
    {0x0000007000010F12, 0xFF, {0, 0x71, 0, 0, 2}, {{1, 1, 0x71}, {1, 1, 0x71}}, {4, 0x71}, {1, 0}},
    /* A mask, a port and a line that are refused, though the swap would fail. */
    {0x000000700000FF12, 0, {7, 0, 0, 0, 0}, {{1, 1, 0x71}, {1, 1, 0x71}}, {4, 0x71}, {1, 0}},
    {0x0000007000000012, 0, {7, 0, 0, 0, 0}, {{1, 1, 0x71}, {1, 1, 0x71}}, {4, 0x71}, {1, 0}},
    {0x0000007000000F22, 0, {5, 0, 0, 0, 0}, {{1, 1, 0x71}, {1, 1, 0x71}}, {4, 0x71}, {1, 0}},
    {0x0000007000020F12, 0, {6, 0, 0, 0, 0}, {{1, 1, 0x71}, {1, 1, 0x71}}, {4, 0x71}, {1, 0}},
};

enum { LISTED = sizeof list / sizeof list[0] };

/* Swap misses on line 0, on given tables of one set and two lines. */

/* The word that the port finds on all of them. */
#define FOUND UINT64_C(0x8877665544332211)

/* States of the ports, and words by letters: theirs, then memory's of lines 0 and 1. f is the word found, any other
   letter a word of its own. */
struct after {
    unsigned states[8];
    const char *words;
    uint64_t reads, writes;
};

struct before {
    int passes; /* the audit */
    unsigned ports, port;
    unsigned states[8];
    uint32_t tags[8]; /* afterwards the port's own is 0, and the others' stay */
    const char *words;
    struct after back, through; /* after a swap that fails */
};

static const struct before before_list[] = {
    /* Nobody has the line. The port's entry is I, whatever its tag, or has line 1 clean, in each state. */
    {1, 3, 1, {0, 0, 0}, {0, 0, 0}, "abcfg", {{0, 10, 0}, "afcfg", 1, 0}, {{0, 2, 0}, "afcfg", 1, 0}},
    {1, 3, 1, {0, 0, 0}, {0, 1, 0}, "abcfg", {{0, 10, 0}, "afcfg", 1, 0}, {{0, 2, 0}, "afcfg", 1, 0}},
    {1, 3, 1, {0, 0, 0}, {9, 0xFFFFFFFF, 7}, "abcfg", {{0, 10, 0}, "afcfg", 1, 0}, {{0, 2, 0}, "afcfg", 1, 0}},
    {1, 3, 1, {0, 10, 0}, {0, 1, 0}, "agcfg", {{0, 10, 0}, "afcfg", 1, 0}, {{0, 2, 0}, "afcfg", 1, 0}},
    {1, 3, 1, {0, 2, 0}, {0, 1, 0}, "agcfg", {{0, 10, 0}, "afcfg", 1, 0}, {{0, 2, 0}, "afcfg", 1, 0}},
    {1, 3, 1, {0, 9, 0}, {0, 1, 0}, "agcfg", {{0, 10, 0}, "afcfg", 1, 0}, {{0, 2, 0}, "afcfg", 1, 0}},
    {1, 3, 1, {0, 1, 0}, {0, 1, 0}, "agcfg", {{0, 10, 0}, "afcfg", 1, 0}, {{0, 2, 0}, "afcfg", 1, 0}},
    /* The port has line 1 in M, in O, and in O beside a copy: the word is stored at line 1. */
    {1, 3, 1, {0, 12, 0}, {0, 1, 0}, "abcfg", {{0, 10, 0}, "afcfb", 1, 1}, {{0, 2, 0}, "afcfb", 1, 1}},
    {1, 3, 1, {0, 11, 0}, {0, 1, 0}, "abcfg", {{0, 10, 0}, "afcfb", 1, 1}, {{0, 2, 0}, "afcfb", 1, 1}},
    {1, 3, 1, {0, 11, 9}, {0, 1, 1}, "abbfg", {{0, 10, 9}, "afbfb", 1, 1}, {{0, 2, 9}, "afbfb", 1, 1}},
    {1, 1, 0, {12}, {1}, "bfg", {{10}, "ffb", 1, 1}, {{2}, "ffb", 1, 1}},
    /* Others have line 1 alone. */
    {1, 3, 1, {11, 0, 9}, {1, 0, 1}, "bcbfg", {{11, 10, 9}, "bfbfg", 1, 0}, {{11, 2, 9}, "bfbfg", 1, 0}},
    /* One other port has the line: in S of either mode, in E of either mode. */
    {1, 3, 1, {1, 0, 0}, {0, 0, 0}, "fbcfg", {{9, 9, 0}, "ffcfg", 1, 0}, {{1, 1, 0}, "ffcfg", 1, 0}},
    {1, 3, 1, {0, 0, 9}, {0, 0, 0}, "abffg", {{0, 9, 9}, "afffg", 1, 0}, {{0, 1, 1}, "afffg", 1, 0}},
    {1, 3, 1, {2, 0, 0}, {0, 0, 0}, "fbcfg", {{9, 9, 0}, "ffcfg", 1, 0}, {{1, 1, 0}, "ffcfg", 1, 0}},
    {1, 3, 1, {0, 0, 10}, {0, 0, 0}, "abffg", {{0, 9, 9}, "afffg", 1, 0}, {{0, 1, 1}, "afffg", 1, 0}},
    {1, 3, 2, {0, 10, 0}, {0, 0, 0}, "afcfg", {{0, 9, 9}, "afffg", 1, 0}, {{0, 1, 1}, "afffg", 1, 0}},
    /* In O and in M, also where memory has the word: it stays the owner in write back, and memory is not read. */
    {1, 3, 1, {11, 0, 0}, {0, 0, 0}, "fbcmg", {{11, 9, 0}, "ffcmg", 0, 0}, {{1, 1, 0}, "ffcfg", 0, 1}},
    {1, 3, 1, {0, 0, 11}, {0, 0, 0}, "abffg", {{0, 9, 11}, "afffg", 0, 0}, {{0, 1, 1}, "afffg", 0, 1}},
    {1, 3, 1, {0, 0, 12}, {0, 0, 0}, "abfmg", {{0, 9, 11}, "affmg", 0, 0}, {{0, 1, 1}, "afffg", 0, 1}},
    {1, 3, 1, {12, 0, 0}, {0, 0, 0}, "fbcfg", {{11, 9, 0}, "ffcfg", 0, 0}, {{1, 1, 0}, "ffcfg", 0, 1}},
    /* Two other ports have it: S and S in either mode, O and S. */
    {1, 3, 1, {1, 0, 1}, {0, 0, 0}, "fbffg", {{9, 9, 9}, "ffffg", 1, 0}, {{1, 1, 1}, "ffffg", 1, 0}},
    {1, 3, 1, {9, 0, 9}, {0, 0, 0}, "fbffg", {{9, 9, 9}, "ffffg", 1, 0}, {{1, 1, 1}, "ffffg", 1, 0}},
    {1, 3, 1, {11, 0, 9}, {0, 0, 0}, "fbfmg", {{11, 9, 9}, "fffmg", 0, 0}, {{1, 1, 1}, "ffffg", 0, 1}},
    {1, 3, 1, {9, 0, 11}, {0, 0, 0}, "fbfmg", {{9, 9, 11}, "fffmg", 0, 0}, {{1, 1, 1}, "ffffg", 0, 1}},
    {1, 3, 0, {0, 11, 9}, {0, 0, 0}, "affmg", {{9, 11, 9}, "fffmg", 0, 0}, {{1, 1, 1}, "ffffg", 0, 1}},
    /* Others have it, and the port has line 1: clean, then in M or O, whose word is stored at line 1. */
    {1, 3, 1, {12, 10, 0}, {0, 1, 0}, "fgcmg", {{11, 9, 0}, "ffcmg", 0, 0}, {{1, 1, 0}, "ffcfg", 0, 1}},
    {1, 3, 1, {1, 1, 1}, {1, 1, 0}, "ggffg", {{1, 9, 9}, "gfffg", 1, 0}, {{1, 1, 1}, "gfffg", 1, 0}},
    {1, 3, 1, {0, 12, 12}, {0, 1, 0}, "abfmg", {{0, 9, 11}, "affmb", 0, 1}, {{0, 1, 1}, "afffb", 0, 2}},
    {1, 3, 1, {9, 11, 11}, {1, 1, 0}, "bbfmg", {{9, 9, 11}, "bffmb", 0, 1}, {{9, 1, 1}, "bfffb", 0, 2}},
    {1, 3, 1, {2, 12, 0}, {0, 1, 0}, "fbcfg", {{9, 9, 0}, "ffcfb", 1, 1}, {{1, 1, 0}, "ffcfb", 1, 1}},
    {1, 3, 1, {9, 12, 9}, {0, 1, 0}, "fbffg", {{9, 9, 9}, "ffffb", 1, 1}, {{1, 1, 1}, "ffffb", 1, 1}},
    /* Eight ports: nobody, all others in S, an owner among them, an owner alone, and one while a word gives way. */
    {1, 8, 5, {0, 0, 0, 0, 0, 0, 0, 0}, {0, 0, 0, 0, 0, 0, 0, 0}, "abcdehikfg",
     {{0, 0, 0, 0, 0, 10, 0, 0}, "abcdefikfg", 1, 0}, {{0, 0, 0, 0, 0, 2, 0, 0}, "abcdefikfg", 1, 0}},
    {1, 8, 3, {1, 1, 1, 0, 1, 1, 1, 1}, {0, 0, 0, 0, 0, 0, 0, 0}, "fffbfffffg",
     {{9, 9, 9, 9, 9, 9, 9, 9}, "fffffffffg", 1, 0}, {{1, 1, 1, 1, 1, 1, 1, 1}, "fffffffffg", 1, 0}},
    {1, 8, 0, {0, 9, 9, 9, 9, 9, 9, 11}, {0, 0, 0, 0, 0, 0, 0, 0}, "bfffffffmg",
     {{9, 9, 9, 9, 9, 9, 9, 11}, "ffffffffmg", 0, 0}, {{1, 1, 1, 1, 1, 1, 1, 1}, "fffffffffg", 0, 1}},
    {1, 8, 7, {12, 11, 9, 9, 9, 9, 0, 0}, {0, 1, 1, 1, 1, 1, 0, 0}, "fbbbbbchmg",
     {{11, 11, 9, 9, 9, 9, 0, 9}, "fbbbbbcfmg", 0, 0}, {{1, 11, 9, 9, 9, 9, 0, 1}, "fbbbbbcffg", 0, 1}},
    {1, 8, 4, {9, 0, 11, 0, 12, 0, 9, 0}, {0, 0, 0, 0, 1, 0, 0, 0}, "fafcbdfemg",
     {{9, 0, 11, 0, 9, 0, 9, 0}, "fafcfdfemb", 0, 1}, {{1, 0, 1, 0, 1, 0, 1, 0}, "fafcfdfefb", 0, 2}},
    /* Tables that fail the audit. Of owners with different words the lowest-numbered one's is found and stored. */
    {0, 3, 1, {12, 0, 11}, {0, 0, 0}, "fbcmg", {{11, 9, 11}, "ffcmg", 0, 0}, {{1, 1, 1}, "ffcfg", 0, 1}},
    {0, 3, 0, {0, 11, 12}, {0, 0, 0}, "afcmg", {{9, 11, 11}, "ffcmg", 0, 0}, {{1, 1, 1}, "ffcfg", 0, 1}},
    {0, 3, 2, {12, 12, 0}, {0, 0, 0}, "fcbmg", {{11, 11, 9}, "fcfmg", 0, 0}, {{1, 1, 1}, "fcffg", 0, 1}},
    /* E beside S, E beside M, and E beside E. */
    {0, 3, 1, {10, 0, 9}, {0, 0, 0}, "fbffg", {{9, 9, 9}, "ffffg", 1, 0}, {{1, 1, 1}, "ffffg", 1, 0}},
    {0, 3, 1, {2, 0, 12}, {0, 0, 0}, "abfmg", {{9, 9, 11}, "affmg", 0, 0}, {{1, 1, 1}, "afffg", 0, 1}},
    {0, 3, 1, {2, 0, 10}, {0, 0, 0}, "fbffg", {{9, 9, 9}, "ffffg", 1, 0}, {{1, 1, 1}, "ffffg", 1, 0}},
    /* Holders in different modes, without an owner and with one. */
    {0, 3, 1, {1, 0, 9}, {0, 0, 0}, "fbffg", {{9, 9, 9}, "ffffg", 1, 0}, {{1, 1, 1}, "ffffg", 1, 0}},
    {0, 3, 1, {1, 0, 11}, {0, 0, 0}, "fbfmg", {{9, 9, 11}, "fffmg", 0, 0}, {{1, 1, 1}, "ffffg", 0, 1}},
    /* Clean holders with other words than memory, whose word is found; one with another word than the owner. */
    {0, 3, 1, {9, 0, 0}, {0, 0, 0}, "abcfg", {{9, 9, 0}, "afcfg", 1, 0}, {{1, 1, 0}, "afcfg", 1, 0}},
    {0, 3, 1, {0, 0, 2}, {0, 0, 0}, "abcfg", {{0, 9, 9}, "afcfg", 1, 0}, {{0, 1, 1}, "afcfg", 1, 0}},
    {0, 3, 1, {1, 0, 1}, {0, 0, 0}, "abcfg", {{9, 9, 9}, "afcfg", 1, 0}, {{1, 1, 1}, "afcfg", 1, 0}},
    {0, 3, 1, {9, 0, 11}, {0, 0, 0}, "abfmg", {{9, 9, 11}, "affmg", 0, 0}, {{1, 1, 1}, "afffg", 0, 1}},
    /* The word that gives way has another owner too, who keeps it. */
    {0, 3, 1, {12, 12, 0}, {1, 1, 0}, "abcfg", {{12, 10, 0}, "afcfb", 1, 1}, {{12, 2, 0}, "afcfb", 1, 1}},
    /* Eight ports, most of which own the line. */
    {0, 8, 4, {9, 11, 12, 11, 0, 12, 11, 2}, {0, 0, 0, 0, 0, 0, 0, 0}, "afcdbehimg",
     {{9, 11, 11, 11, 9, 11, 11, 9}, "afcdfehimg", 0, 0}, {{1, 1, 1, 1, 1, 1, 1, 1}, "afcdfehifg", 0, 1}},
};

enum { BEFORES = sizeof before_list / sizeof before_list[0] };

static uint64_t word_of(char letter)
{
    return letter == 'f' ? FOUND : UINT64_C(0x0101010101010101) * (unsigned char)letter;
}

static void put_before(const struct before *before, struct second_model *start)
{
    static const struct second_shape shape = SHAPE(0, 1, 2);

    start->shape = shape;
    start->shape.ports = before->ports;
    for (unsigned port = 0; port < before->ports; port++) {
        start->states[port] = (uint8_t)before->states[port];
        start->tags[port] = before->tags[port];
        start->data[port] = word_of(before->words[port]);
    }
    start->memory[0] = word_of(before->words[before->ports]);
    start->memory[1] = word_of(before->words[before->ports + 1]);
}

static int is_after(const struct pair *pair, const struct before *before, const struct after *after)
{
    const struct second_model *lent = lent_numbers(pair);
    unsigned ports = before->ports;

    for (unsigned port = 0; port < ports; port++) {
        if (lent->states[port] != after->states[port] || lent->data[port] != word_of(after->words[port]))
            return 0;
        if (lent->tags[port] != (port == before->port ? 0 : before->tags[port]))
            return 0;
    }
    return lent->memory[0] == word_of(after->words[ports]) && lent->memory[1] == word_of(after->words[ports + 1]);
}

/* Ranges that have line 0 or don't, and the mode in force there: by the order, or one of the two. */
struct layout {
    struct second_range scratch, device;
    char mode; /* o, b or t */
};

static const struct layout layouts[] = {
    {{0, 0}, {0, 0}, 'o'}, {{1, 1}, {1, 1}, 'o'}, {{0, 1}, {0, 0}, 'b'}, {{0, 1}, {1, 1}, 'b'},
    {{0, 0}, {0, 1}, 't'}, {{1, 1}, {0, 1}, 't'}, {{0, 2}, {0, 2}, 'b'},
};

enum { LAYOUTS = sizeof layouts / sizeof layouts[0] };

/* A swap that doesn't find its compare value in FOUND. */
struct failing {
    unsigned mask;
    uint32_t compare;
    uint64_t operand;
};

static const struct failing failing_list[] = {
    /* All bits but one: the lowest, the highest, and one between them. */
    {0x0F, 0x44332210, 0}, {0x0F, 0xC4332211, 0xFFFFFFFFFFFFFFFF}, {0x0F, 0x44322211, FOUND},
    {0xF0, 0x88776654, 0}, {0xF0, 0x08776655, 0xFFFFFFFFFFFFFFFF}, {0xF0, 0x88776755, FOUND},
    /* The other half; no bits, and all. */
    {0x0F, 0x88776655, 0x1234567812345678}, {0xF0, 0x44332211, 0x1234567812345678},
    {0x0F, 0, 0x8877665500000000}, {0xF0, 0, 0x0000000044332211},
    {0x0F, 0xFFFFFFFF, 0x44332211FFFFFFFF}, {0xF0, 0xFFFFFFFF, 0xFFFFFFFF88776655},
};

enum { FAILING = sizeof failing_list / sizeof failing_list[0] };

/* Says that the last order on one of the tables is another; gives 0. */
static int say_other(struct tester *tester, const char *what)
{
    snprintf(tester->pair.difference, sizeof tester->pair.difference, "  %s\n", what);
    return 0;
}

/* One swap that fails on one of the tables. A table that passes the audit is left passing it. */
static int fails_as_listed(struct tester *tester, const struct before *before, const struct failing *failing,
                           unsigned mode, const struct layout *layout)
{
    int back = layout->mode == 'o' ? (int)mode : layout->mode == 'b';
    const struct after *after = back ? &before->back : &before->through;
    struct second_answer answer = {0, FOUND, 0, after->reads, after->writes};
    uint64_t word = traffic_word(SECOND_SWAP, mode, before->port, failing->mask, 0, failing->compare);

    if (!add_to_start(tester, word, failing->operand))
        return 0;
    if (!answer_is(&tester->pair, &answer) || !is_after(&tester->pair, before, after))
        return say_other(tester, "the swap that fails is not as worked out");
    return !before->passes || verdict_is(tester, 1);
}

/* The swaps of the list, and two more for each other word of the table: one that is compared with it succeeds. */
static int all_fail(struct tester *tester, const struct before *before, unsigned mode, const struct layout *layout)
{
    for (size_t k = 0; k < FAILING; k++) {
        if (!fails_as_listed(tester, before, &failing_list[k], mode, layout))
            return 0;
    }
    for (const char *letter = before->words; *letter != '\0'; letter++) {
        struct failing lower = {0x0F, (uint32_t)word_of(*letter), 0x5555555555555555}, upper = lower;

        upper.mask = 0xF0;
        if (*letter != 'f' && (!fails_as_listed(tester, before, &lower, mode, layout) ||
                               !fails_as_listed(tester, before, &upper, mode, layout)))
            return 0;
    }
    return 1;
}

/* Whether a swap by the port that succeeded has left no other copy of line 0, and the others' entries for line 1. */
static int copies_are_gone(const struct pair *pair, const struct before *before, uint64_t merged, int back)
{
    const struct second_model *lent = lent_numbers(pair);

    for (unsigned port = 0; port < before->ports; port++) {
        unsigned state = before->tags[port] == 0 ? 0 : before->states[port];

        if (port == before->port)
            state = back ? 12 : 2;
        if (lent->states[port] != state)
            return 0;
    }
    return lent->data[before->port] == merged && (back || lent->memory[0] == merged);
}

/* A swap that finds its compare value succeeds, and takes the copies away as ever. Its read is that of one that fails;
   what that one stores in write back is what gives way. */
static int one_succeeds(struct tester *tester, const struct before *before, unsigned mode, const struct layout *layout)
{
    int back = layout->mode == 'o' ? (int)mode : layout->mode == 'b';
    struct second_answer answer = {0, FOUND, 1, before->back.reads, before->back.writes + !back};
    uint64_t lower = traffic_word(SECOND_SWAP, mode, before->port, 0x0F, 0, 0x44332211);
    uint64_t upper = traffic_word(SECOND_SWAP, mode, before->port, 0xF0, 0, 0x88776655);

    if (!add_to_start(tester, lower, 0x99))
        return 0;
    if (!answer_is(&tester->pair, &answer) ||
        !copies_are_gone(&tester->pair, before, UINT64_C(0x8877665500000099), back))
        return say_other(tester, "the swap that succeeds is not as worked out");
    if (!add_to_start(tester, upper, 0x99))
        return 0;
    if (!answer_is(&tester->pair, &answer) ||
        !copies_are_gone(&tester->pair, before, UINT64_C(0x0000000044332211), back))
        return say_other(tester, "the swap of the upper half that succeeds is not as worked out");
    return 1;
}

/* Masks that are refused, though the swap would fail: nothing changes. */
static int masks_are_refused(struct tester *tester, const struct before *before, unsigned mode)
{
    static const unsigned masks[6] = {0x00, 0xFF, 0x0E, 0x1F, 0x70, 0xF1};
    static const struct second_answer seven = {7, 0, 0, 0, 0};

    for (unsigned k = 0; k < 6; k++) {
        tester->pair.second = tester->history.start;
        pair_lend(&tester->pair, k);
        keep_lent(&tester->pair);
        if (!add_to_start(tester, traffic_word(SECOND_SWAP, mode, before->port, masks[k], 0, 1), 0))
            return 0;
        if (!answer_is(&tester->pair, &seven) || !lent_is_kept(&tester->pair))
            return say_other(tester, "the mask is not refused");
    }
    return 1;
}

static int swaps_on(struct tester *tester, const struct before *before, const struct layout *layout)
{
    struct second_model *start = &tester->history.start;

    put_before(before, start);
    start->shape.scratch = layout->scratch;
    start->shape.device = layout->device;
    tester->history.fresh = 0;
    if (!history_begin(&tester->history, &tester->pair) || !verdict_is(tester, (unsigned)before->passes))
        return 0;
    for (unsigned mode = 0; mode < 2; mode++) {
        if (!all_fail(tester, before, mode, layout) || !one_succeeds(tester, before, mode, layout) ||
            !masks_are_refused(tester, before, mode))
            return 0;
    }
    return 1;
}

static int listed_tables(struct tester *tester)
{
    for (size_t k = 0; k < BEFORES * LAYOUTS; k++) {
        if (!swaps_on(tester, &before_list[k / LAYOUTS], &layouts[k % LAYOUTS])) {
            printf("  table %zu of the list, ranges %zu\n", k / LAYOUTS + 1, k % LAYOUTS + 1);
            history_print(&tester->history, &tester->pair);
            return 0;
        }
    }
    return 1;
}

/* Tables on which port 1's swap to line 0 is refused 8: at any port a byte that is no state, or a home line that there
   isn't, whatever else there is. The other letters are as above. */
static const struct before refused_list[] = {
    {0, 3, 1, {3, 0, 0}, {0, 0, 0}, "abcfg", {{0}, "", 0, 0}, {{0}, "", 0, 0}},
    {0, 3, 1, {0, 8, 0}, {0, 0, 0}, "abcfg", {{0}, "", 0, 0}, {{0}, "", 0, 0}},
    {0, 3, 1, {0, 13, 0}, {0, 1, 0}, "abcfg", {{0}, "", 0, 0}, {{0}, "", 0, 0}},
    {0, 3, 1, {12, 0, 255}, {0, 0, 0}, "fbcmg", {{0}, "", 0, 0}, {{0}, "", 0, 0}},
    {0, 3, 1, {4, 12, 9}, {1, 1, 0}, "abffg", {{0}, "", 0, 0}, {{0}, "", 0, 0}},
    {0, 3, 1, {9, 0, 9}, {0, 0, 2}, "fbffg", {{0}, "", 0, 0}, {{0}, "", 0, 0}},
    {0, 3, 1, {0, 12, 0}, {0, 2, 0}, "abcfg", {{0}, "", 0, 0}, {{0}, "", 0, 0}},
    {0, 3, 1, {1, 2, 0}, {0, 0xFFFFFFFF, 0}, "fbcfg", {{0}, "", 0, 0}, {{0}, "", 0, 0}},
    {0, 8, 1, {9, 0, 11, 9, 9, 9, 9, 7}, {0, 0, 0, 0, 0, 0, 0, 0}, "fbffffffmg", {{0}, "", 0, 0}, {{0}, "", 0, 0}},
};

enum { REFUSED_TABLES = sizeof refused_list / sizeof refused_list[0] };

static int is_refused_eight(struct tester *tester, size_t which)
{
    static const struct second_answer eight = {8, 0, 0, 0, 0};
    const struct failing *failing = &failing_list[which / 2];
    uint64_t word = traffic_word(SECOND_SWAP, which % 2, 1, failing->mask, 0, failing->compare);

    tester->pair.second = tester->history.start;
    pair_lend(&tester->pair, 0);
    keep_lent(&tester->pair);
    if (!add_to_start(tester, word, failing->operand))
        return 0;
    return (answer_is(&tester->pair, &eight) && lent_is_kept(&tester->pair)) ||
           say_other(tester, "the swap is not refused 8");
}

static int refused_tables(struct tester *tester)
{
    for (size_t k = 0; k < REFUSED_TABLES * 2 * FAILING; k++) {
        put_before(&refused_list[k / (2 * FAILING)], &tester->history.start);
        if (!is_refused_eight(tester, k % (2 * FAILING))) {
            printf("  refused table %zu of the list\n", k / (2 * FAILING) + 1);
            history_print(&tester->history, &tester->pair);
            return 0;
        }
    }
    return 1;
}

/* Run 0: the orders from fresh. Run 1: every swap on every table, under every range. Run 2: tables refused 8. */
int swaps_numbers(struct tester *tester, uint64_t run)
{
    if (run == 0)
        return worked_out_orders(tester, list, LISTED);
    return run == 1 ? listed_tables(tester) : refused_tables(tester);
}

/* "A swap miss that fails now does exactly what a read miss in the same mode does", and a hit that fails is a read hit:
   a swap that fails against the read of the same port, line and mode, on a copy. */

/* Makes a step on history.start, with the record if there is one. */
static int step_on_start(struct tester *tester, enum call call, const uint8_t *record, uint64_t word, uint64_t operand)
{
    struct pair *pair = &tester->pair;
    struct second_shape shape = tester->history.start.shape;

    pair->second = tester->history.start;
    pair_lend(pair, generator_below(&tester->generator, 8));
    if (call == STEP_TOTALS)
        pair_place_record(pair, record, SECOND_RECORD_BYTES, generator_below(&tester->generator, 8));
    return pair_call(pair, call, shape, word, operand) || report_call(tester, "step", shape, word, operand);
}

/* Whether the lent record has what it had and one order more of that kind, with the reads and writes of an answer. */
static int record_has(const struct pair *pair, const uint8_t *record, unsigned kind, struct second_answer answer)
{
    uint64_t before[10], after[10];

    second_decode_totals(before, record);
    second_decode_totals(after, pair->slices[RECORD].bytes);
    before[kind] += 1;
    before[7] += answer.reads;
    before[8] += answer.writes;
    return memcmp(before, after, sizeof before) == 0;
}

/* A swap on history.start. If it is accepted and fails, the read gives the same five numbers and leaves the same bytes;
   with a record the swap is counted as a swap, and the read as a read. */
static int is_a_read(struct tester *tester, enum call call, const uint8_t *record, uint64_t word, uint64_t operand)
{
    struct pair *pair = &tester->pair;
    struct second_answer swap, read;
    int counted = 1;

    if (!step_on_start(tester, call, record, word, operand))
        return 0;
    swap = second_decode_answer(pair->slices[RESULT].bytes);
    if (swap.refusal != 0 || swap.swapped != 0)
        return 1;
    if (call == STEP_TOTALS)
        counted = record_has(pair, record, 2, swap);
    keep_lent(pair);
    /* The kind is 0, and the operand any. */
    if (!step_on_start(tester, call, record, word & ~UINT64_C(7), generator_word(&tester->generator)))
        return 0;
    read = second_decode_answer(pair->slices[RESULT].bytes);
    if (call == STEP_TOTALS)
        counted = counted && record_has(pair, record, 0, read);
    if (counted && lent_is_kept(pair) && memcmp(&swap, &read, sizeof swap) == 0)
        return 1;
    say_other(tester, counted ? "the swap that fails is no read" : "a swap that fails or a read is counted wrongly");
    return report_call(tester, "step", tester->history.start.shape, word, operand);
}

/* A swap where the orders go, which mostly fails, often by one bit; some are refused. */
static uint64_t failing_swap(struct tester *tester)
{
    struct generator *generator = &tester->generator;
    uint64_t word = traffic_order(&tester->traffic, generator, &tester->history.start);
    uint64_t bit = generator_percent(generator, 60) ? UINT64_C(1) << (32 + generator_below(generator, 32)) : 0;

    return ((word & ~UINT64_C(7)) | SECOND_SWAP) ^ bit;
}

/* Tables for a run in history.start: noise, reached from fresh, or such as are damaged then. */
static int put_tables(struct tester *tester, uint64_t run)
{
    struct generator *generator = &tester->generator;
    struct second_model *start = &tester->history.start;
    struct second_shape shape = run % 8 < 7 ? traffic_small_shape(generator) : traffic_any_shape(generator);

    begin_traffic(tester, run % 2 ? shape : traffic_without_ranges(shape));
    if (run % 3 == 0) {
        traffic_noise(&tester->traffic, generator, start);
        return 1;
    }
    traffic_fill_tables(generator, start);
    if (!run_history(tester, 1, generator_below(generator, 40)))
        return 0;
    *start = tester->pair.second;
    for (unsigned k = generator_below(generator, 6); run % 3 == 2 && k > 0; k--)
        traffic_damage(&tester->traffic, generator, start);
    return 1;
}

/* Swaps on such tables, each on what the one before left, and now and then under other ranges. */
static int swaps_as_reads(struct tester *tester, enum call call, uint64_t run)
{
    static const unsigned swaps_alone[SECOND_KINDS] = {0, 0, 1, 0, 0, 0};
    struct generator *generator = &tester->generator;
    struct second_model *start = &tester->history.start;
    uint64_t totals[SECOND_TOTALS];
    uint8_t record[SECOND_RECORD_BYTES];

    if (!put_tables(tester, run))
        return 0;
    memcpy(tester->traffic.weights, swaps_alone, sizeof swaps_alone);
    for (unsigned k = 0; k < 10; k++) {
        uint64_t word = failing_swap(tester);

        traffic_totals(generator, totals);
        second_encode_totals(totals, record);
        if (!is_a_read(tester, call, record, word, traffic_operand(&tester->traffic, generator, start, word)))
            return 0;
        *start = tester->pair.second;
        if (run % 2 && generator_percent(generator, 30))
            traffic_ranges(generator, &start->shape);
    }
    return 1;
}

int swaps_are_reads(struct tester *tester, uint64_t run)
{
    return swaps_as_reads(tester, STEP, run);
}

int swaps_are_counted(struct tester *tester, uint64_t run)
{
    return swaps_as_reads(tester, STEP_TOTALS, run);
}

/* Histories, from fresh beside the flat memory. */

/* Starts one with an audit after each order. */
static int begin_fresh(struct tester *tester, struct second_shape shape)
{
    begin_traffic(tester, shape);
    traffic_fill_tables(&tester->generator, &tester->history.start);
    tester->history.fresh = 1;
    tester->history.audit_every = 1;
    return history_begin(&tester->history, &tester->pair) || report_history(tester);
}

static int add(struct tester *tester, uint64_t word, uint64_t operand)
{
    return history_add(&tester->history, &tester->pair, word, operand) || report_history(tester);
}

/* Another line at the same index, if there is one. */
static unsigned neighbour(struct second_shape shape, unsigned line)
{
    return (unsigned)(line + shape.sets < shape.lines ? line + shape.sets : line % shape.sets);
}

/* A bit for each port that has the line, by the lent bytes. */
static unsigned holders_of(const struct pair *pair, unsigned line)
{
    const struct second_model *lent = lent_numbers(pair);
    unsigned sets = (unsigned)lent->shape.sets, holders = 0;

    for (unsigned port = 0; port < lent->shape.ports; port++) {
        unsigned entry = port * sets + line % sets;

        if (lent->states[entry] != 0 && lent->tags[entry] == line / sets)
            holders |= 1u << port;
    }
    return holders;
}

/* A port's swap of half a line, with a compare value. If it fails no copy is chased away, and the port has one. */
static int try_swap(struct tester *tester, unsigned port, unsigned line, unsigned mask, uint32_t compare)
{
    struct generator *generator = &tester->generator;
    unsigned before = holders_of(&tester->pair, line);
    uint64_t word = traffic_word(SECOND_SWAP, generator_percent(generator, tester->traffic.back_percent), port, mask,
                                 line, compare);
    uint64_t id = port + 1;

    if (!add(tester, word, id | id << 32))
        return 0;
    if (tester->history.given.refusal != 0 || tester->history.given.swapped ||
        holders_of(&tester->pair, line) == (before | 1u << port))
        return 1;
    say_other(tester, "a swap that failed has chased copies away");
    history_print(&tester->history, &tester->pair);
    return 0;
}

/* Who has a lock gives it up: by a write, a swap or a device's write. */
static int release(struct tester *tester, unsigned line, unsigned mask)
{
    struct generator *generator = &tester->generator;
    unsigned kind = generator_below(generator, 3), port = generator_below(generator, tester->traffic.shape.ports);
    uint64_t word = second_meets(&tester->pair.second, port, line).word;
    uint64_t compare = mask == 0x0F ? word & UINT64_C(0xFFFFFFFF) : word >> 32;
    static const unsigned kinds[3] = {SECOND_WRITE, SECOND_SWAP, SECOND_DEVICE_WRITE};

    return add(tester, traffic_word(kinds[kind], generator_below(generator, 2), port, mask, line, compare), 0);
}

/* A port loses its copy, if it has one: by a flush, by a read or write of another line, or to a device. */
static int lose(struct tester *tester, unsigned port, unsigned line)
{
    struct generator *generator = &tester->generator;
    unsigned mode = generator_below(generator, 2), other = neighbour(tester->traffic.shape, line);
    uint64_t words[4] = {traffic_word(SECOND_FLUSH, mode, port, 0, line, 0),
                         traffic_word(SECOND_READ, mode, port, 0, other, 0),
                         traffic_word(SECOND_WRITE, 1, port, 0xFF, other, 0),
                         traffic_word(SECOND_DEVICE_WRITE, mode, port, 0x00, line, 0)};

    return add(tester, words[generator_below(generator, generator_percent(generator, 80) ? 3 : 4)],
               generator_word(generator));
}

/* A fight for locks: each half of a hot line is one, 0 if it is free, else its port's number from 1. Few swaps succeed.
   Ports lose their copies between, so that most that fail are misses, on lines in all states. */
static int fight(struct tester *tester, unsigned tries)
{
    struct generator *generator = &tester->generator;

    for (unsigned k = 0; k < tries; k++) {
        unsigned line = tester->traffic.hot[generator_below(generator, tester->traffic.hot_count)];
        unsigned port = generator_below(generator, tester->traffic.shape.ports);
        unsigned mask = generator_below(generator, 2) ? 0x0F : 0xF0;

        if (generator_percent(generator, 60) && !lose(tester, port, line))
            return 0;
        if (!try_swap(tester, port, line, mask, generator_percent(generator, 80) ? 0 : generator_below(generator, 4)))
            return 0;
        if (generator_percent(generator, 10) && !release(tester, line, mask))
            return 0;
    }
    return history_end(&tester->history, &tester->pair) || report_history(tester);
}

/* Short fights on tables that mostly fail the audit: damaged ones, and noise. */
static int fights_on_others(struct tester *tester)
{
    struct history *history = &tester->history;

    for (unsigned round = 0; round < 8; round++) {
        history->start = tester->pair.second;
        for (unsigned k = 0; k < 3 && round % 2; k++)
            traffic_damage(&tester->traffic, &tester->generator, &history->start);
        if (round % 2 == 0)
            traffic_noise(&tester->traffic, &tester->generator, &history->start);
        history->fresh = 0;
        if (!history_begin(history, &tester->pair))
            return report_history(tester);
        if (!fight(tester, 6))
            return 0;
    }
    return 1;
}

/* Fights from fresh; in every second run they go on from other tables. */
int swaps_for_locks(struct tester *tester, uint64_t run)
{
    struct generator *generator = &tester->generator;
    struct second_shape shape = run % 16 < 15 ? traffic_small_shape(generator) : traffic_any_shape(generator);

    shape.ports = run % 16 < 13 ? 2 + generator_below(generator, 3) : 8;
    if (!begin_fresh(tester, run % 4 < 2 ? traffic_without_ranges(shape) : shape))
        return 0;
    if (shape.lines > 64)
        tester->history.audit_every = 16;
    return fight(tester, 30) && (run % 2 == 0 || fights_on_others(tester));
}

/* Orders by two other ports, 1 and 2 in the port field, that bring a line that no port has into a state. */
static const struct preparation {
    unsigned count;
    uint64_t words[3];
} preparations[] = {
    {0, {0, 0, 0}},                                      /* nobody has it */
    {1, {0x10, 0, 0}}, {1, {0x18, 0, 0}},                /* E */
    {2, {0x10, 0x20, 0}}, {2, {0x18, 0x28, 0}},          /* S and S */
    {3, {0x10, 0x20, 0x13}}, {3, {0x18, 0x28, 0x23}},    /* S */
    {1, {0xFF19, 0, 0}},                                 /* M */
    {2, {0xFF19, 0x28, 0}}, {3, {0xFF19, 0x28, 0x23}},   /* O and S, O */
};

enum { PREPARATIONS = sizeof preparations / sizeof preparations[0] };

/* What comes after: reads, writes, swaps that succeed and swaps that fail in either mode, then flush and devices. */
enum { FOLLOWERS = 11 };

static uint64_t follower(unsigned which, unsigned port, unsigned line, uint64_t word)
{
    uint32_t half = (uint32_t)word;

    switch (which) {
    case 0: case 1: return traffic_word(SECOND_READ, which % 2, port, 0, line, 0);
    case 2: case 3: return traffic_word(SECOND_WRITE, which % 2, port, 0x81, line, 0);
    case 4: case 5: return traffic_word(SECOND_SWAP, which % 2, port, 0x0F, line, half);
    case 6: case 7: return traffic_word(SECOND_SWAP, which % 2, port, 0x0F, line, half ^ 1u);
    case 8: return traffic_word(SECOND_FLUSH, 0, port, 0, line, 0);
    case 9: return traffic_word(SECOND_DEVICE_READ, 0, port, 0, line, 0);
    default: return traffic_word(SECOND_DEVICE_WRITE, 0, port, 0x18, line, 0);
    }
}

/* A device write, after which no port has the line, and one of these; for a third of them the port then owns another
   line at the index, which gives way to the swap. */
static int prepare(struct tester *tester, const struct preparation *preparation, unsigned port, unsigned line)
{
    struct generator *generator = &tester->generator;
    unsigned ports = (unsigned)tester->traffic.shape.ports, other = neighbour(tester->traffic.shape, line);
    uint64_t dirty = traffic_word(SECOND_WRITE, 1, port, 0xFF, other, 0);

    if (!add(tester, traffic_word(SECOND_DEVICE_WRITE, 0, 0, 0xFF, line, 0), generator_word(generator)))
        return 0;
    for (unsigned k = 0; k < preparation->count; k++) {
        uint64_t word = preparation->words[k], fields = word & ~UINT64_C(0xF0);
        unsigned by = (port + (unsigned)(word >> 4 & 15)) % ports;

        if (!add(tester, fields | traffic_word(0, 0, by, 0, line, 0), generator_word(generator)))
            return 0;
    }
    return other == line || !generator_percent(generator, 33) || add(tester, dirty, generator_word(generator));
}

/* A prepared line, a swap miss that fails, another order on the line, and what a device reads then. */
static int pair_of_orders(struct tester *tester, const struct preparation *preparation, unsigned which, unsigned by)
{
    struct generator *generator = &tester->generator;
    unsigned ports = (unsigned)tester->traffic.shape.ports, port = generator_below(generator, ports);
    unsigned line = tester->traffic.hot[generator_below(generator, tester->traffic.hot_count)];
    const uint64_t *word = &tester->history.flat.words[line];

    if (!prepare(tester, preparation, port, line))
        return 0;
    if (!try_swap(tester, port, line, which % 2 ? 0x0F : 0xF0,
                  (uint32_t)(which % 2 ? *word : *word >> 32) ^ 1u << generator_below(generator, 32)))
        return 0;
    if (!add(tester, follower(which, by, line, *word), generator_word(generator)))
        return 0;
    return add(tester, traffic_word(SECOND_DEVICE_READ, 0, 0, 0, line, 0), 0);
}

/* Every preparation, every order that follows, by every port; run r in the mode r % 2. */
int swaps_before_others(struct tester *tester, uint64_t run)
{
    struct generator *generator = &tester->generator;
    struct second_shape shape = traffic_small_shape(generator);
    unsigned ports = run % 8 < 7 ? 3 + (unsigned)(run / 2 % 2) : 8;

    shape.ports = ports;
    if (!begin_fresh(tester, run % 4 < 3 ? traffic_without_ranges(shape) : shape))
        return 0;
    tester->traffic.back_percent = run % 2 ? 100 : 0;
    for (unsigned k = 0; k < PREPARATIONS * FOLLOWERS * ports; k++) {
        const struct preparation *preparation = &preparations[k / ports / FOLLOWERS];

        if (!pair_of_orders(tester, preparation, k / ports % FOLLOWERS, k % ports))
            return 0;
    }
    return history_end(&tester->history, &tester->pair) || report_history(tester);
}
