/* The differential test's groups on ranges: worked out by hand, as modes, refused, for devices, changing, and empty. */

#include "tester.h"

#include <inttypes.h>
#include <stdio.h>
#include <string.h>

/* Orders from fresh, number by number, worked out by hand from documents 01 and 02. */

struct listed {
    uint64_t word, operand;
    struct second_answer answer;
    struct entry entries[2]; /* of ports 0 and 1, after the order */
    uint64_t memory[5];
    unsigned marks; /* of the flat memory, a bit per line */
};

/* Two ports, one set, five lines, memory 5, 7, 11, 13 and 17. Lines 1 and 2 are scratch, lines 2 and 3 in the device
   range: line 2 is in both, lines 0 and 4 are in neither. */
static const struct second_shape listed_shape = {2, 1, 5, {1, 2}, {2, 2}};
static const uint64_t listed_memory[5] = {5, 7, 11, 13, 17};

static const struct listed list[] = {
    /* Before scratch the order's mode stands. Line 1 is scratch: what says write through runs in write back. */
    {0x00008, 0, {0, 5, 0, 1, 0}, {{10, 0, 5}, {0, 0, 0}}, {5, 7, 11, 13, 17}, 0x00},
    {0x10000, 0, {0, 7, 0, 1, 0}, {{10, 1, 7}, {0, 0, 0}}, {5, 7, 11, 13, 17}, 0x00},
    {0x1FF01, 0x70, {0, 0, 0, 0, 0}, {{12, 1, 0x70}, {0, 0, 0}}, {5, 7, 11, 13, 17}, 0x02},
    {0x10004, 0, {0, 7, 0, 1, 0}, {{12, 1, 0x70}, {0, 0, 0}}, {5, 7, 11, 13, 17}, 0x02},
    {0x10010, 0, {0, 0x70, 0, 0, 0}, {{11, 1, 0x70}, {9, 1, 0x70}}, {5, 7, 11, 13, 17}, 0x02},
    {0x10111, 0x71, {0, 0, 0, 0, 0}, {{9, 1, 0x71}, {11, 1, 0x71}}, {5, 7, 11, 13, 17}, 0x02},
    {0x0000007100010F02, 0x72, {0, 0x71, 1, 0, 0}, {{11, 1, 0x72}, {9, 1, 0x72}}, {5, 7, 11, 13, 17}, 0x02},
    {0x0000007100010F12, 0x73, {0, 0x72, 0, 0, 0}, {{11, 1, 0x72}, {9, 1, 0x72}}, {5, 7, 11, 13, 17}, 0x02},
    /* A flush has no mode: it stores the owner's word, and the mark stays. */
    {0x10003, 0, {0, 0, 0, 0, 1}, {{0, 1, 0x72}, {9, 1, 0x72}}, {5, 0x72, 11, 13, 17}, 0x02},
    /* Line 2 is in both ranges, and scratch is looked up first. */
    {0x20010, 0, {0, 11, 0, 1, 0}, {{0, 1, 0x72}, {10, 2, 11}}, {5, 0x72, 11, 13, 17}, 0x02},
    {0x2FF11, 0xB0, {0, 0, 0, 0, 0}, {{0, 1, 0x72}, {12, 2, 0xB0}}, {5, 0x72, 11, 13, 17}, 0x06},
    {0x20004, 0, {0, 11, 0, 1, 0}, {{0, 1, 0x72}, {12, 2, 0xB0}}, {5, 0x72, 11, 13, 17}, 0x06},
    {0x20008, 0, {0, 0xB0, 0, 0, 0}, {{9, 2, 0xB0}, {11, 2, 0xB0}}, {5, 0x72, 11, 13, 17}, 0x06},
    /* Line 3 is in the device range alone: what says write back runs in write through, and a device reads it right. */
    {0x30008, 0, {0, 13, 0, 1, 0}, {{2, 3, 13}, {11, 2, 0xB0}}, {5, 0x72, 11, 13, 17}, 0x06},
    {0x3FF09, 0xD0, {0, 0, 0, 0, 1}, {{2, 3, 0xD0}, {11, 2, 0xB0}}, {5, 0x72, 11, 0xD0, 17}, 0x06},
    {0x30004, 0, {0, 0xD0, 0, 1, 0}, {{2, 3, 0xD0}, {11, 2, 0xB0}}, {5, 0x72, 11, 0xD0, 17}, 0x06},
    {0x30018, 0, {0, 0xD0, 0, 1, 1}, {{1, 3, 0xD0}, {1, 3, 0xD0}}, {5, 0x72, 0xB0, 0xD0, 17}, 0x06},
    {0x30119, 0xD1, {0, 0, 0, 0, 1}, {{1, 3, 0xD1}, {1, 3, 0xD1}}, {5, 0x72, 0xB0, 0xD1, 17}, 0x06},
    {0x000000000003F00A, 0x1000000FF, {0, 0xD1, 1, 0, 1}, {{1, 3, 0x1000000D1}, {1, 3, 0x1000000D1}},
     {5, 0x72, 0xB0, 0x1000000D1, 17}, 0x06},
    {0x30004, 0, {0, 0x1000000D1, 0, 1, 0}, {{1, 3, 0x1000000D1}, {1, 3, 0x1000000D1}},
     {5, 0x72, 0xB0, 0x1000000D1, 17}, 0x06},
    /* Behind the device range the order's mode stands, and so it does before scratch. */
    {0x4FF09, 0x40, {0, 0, 0, 1, 0}, {{12, 4, 0x40}, {1, 3, 0x1000000D1}}, {5, 0x72, 0xB0, 0x1000000D1, 17}, 0x16},
    {0x40000, 0, {0, 0x40, 0, 0, 1}, {{2, 4, 0x40}, {1, 3, 0x1000000D1}}, {5, 0x72, 0xB0, 0x1000000D1, 0x40}, 0x06},
    {0x0FF01, 0x50, {0, 0, 0, 1, 1}, {{2, 0, 0x50}, {1, 3, 0x1000000D1}},
     {0x50, 0x72, 0xB0, 0x1000000D1, 0x40}, 0x06},
    {0x0FF09, 0x51, {0, 0, 0, 0, 0}, {{12, 0, 0x51}, {1, 3, 0x1000000D1}},
     {0x50, 0x72, 0xB0, 0x1000000D1, 0x40}, 0x07},
    /* A device write has no mode either: in scratch it clears the mark. A flush in the device range stores nothing. */
    {0x1010D, 0x99, {0, 0, 0, 1, 1}, {{12, 0, 0x51}, {1, 3, 0x1000000D1}},
     {0x50, 0x99, 0xB0, 0x1000000D1, 0x40}, 0x05},
    {0x3001B, 0, {0, 0, 0, 0, 0}, {{12, 0, 0x51}, {0, 3, 0x1000000D1}}, {0x50, 0x99, 0xB0, 0x1000000D1, 0x40}, 0x05},
    /* A store in scratch that leaves the word as it was leaves write-back E, and sets the mark. */
    {0x10010, 0, {0, 0x99, 0, 1, 0}, {{12, 0, 0x51}, {10, 1, 0x99}}, {0x50, 0x99, 0xB0, 0x1000000D1, 0x40}, 0x05},
    {0x10011, 0, {0, 0, 0, 0, 0}, {{12, 0, 0x51}, {10, 1, 0x99}}, {0x50, 0x99, 0xB0, 0x1000000D1, 0x40}, 0x07},
    /* Swap misses: one that fails in the device range, and evicts; one that succeeds in both ranges. */
    {0x0000000000030F0A, 0, {0, 0x1000000D1, 0, 1, 1}, {{2, 3, 0x1000000D1}, {10, 1, 0x99}},
     {0x51, 0x99, 0xB0, 0x1000000D1, 0x40}, 0x07},
    {0x000000B000020F12, 0xB1, {0, 0xB0, 1, 1, 0}, {{2, 3, 0x1000000D1}, {12, 2, 0xB1}},
     {0x51, 0x99, 0xB0, 0x1000000D1, 0x40}, 0x07},
    /* A line that there isn't is refused. */
    {0x50008, 0, {6, 0, 0, 0, 0}, {{2, 3, 0x1000000D1}, {12, 2, 0xB1}}, {0x51, 0x99, 0xB0, 0x1000000D1, 0x40}, 0x07},
};

enum { LISTED = sizeof list / sizeof list[0] };

static int is_listed(const struct tester *tester, const struct listed *listed)
{
    const struct second_model *lent = lent_numbers(&tester->pair);

    for (unsigned port = 0; port < 2; port++) {
        const struct entry *entry = &listed->entries[port];

        if (lent->states[port] != entry->state || lent->tags[port] != entry->tag || lent->data[port] != entry->data)
            return 0;
    }
    for (unsigned line = 0; line < 5; line++) {
        if (lent->memory[line] != listed->memory[line])
            return 0;
        if (tester->history.flat.marks[line] != (listed->marks >> line & 1))
            return 0;
    }
    return answer_is(&tester->pair, &listed->answer);
}

/* Carries one of the list out and holds it against the list; the audit says yes after it. */
static int is_as_listed(struct tester *tester, const struct listed *listed)
{
    struct pair *pair = &tester->pair;

    if (!history_add(&tester->history, pair, listed->word, listed->operand))
        return 0;
    if (!is_listed(tester, listed)) {
        snprintf(pair->difference, sizeof pair->difference, "  the last order is not as worked out\n");
        return 0;
    }
    return history_end(&tester->history, pair);
}

static int listed_orders(struct tester *tester)
{
    struct history *history = &tester->history;
    size_t k = 0;

    history->start.shape = listed_shape;
    traffic_fill_tables(&tester->generator, &history->start);
    memcpy(history->start.memory, listed_memory, sizeof listed_memory);
    history->fresh = 1;
    history->audit_every = 100;
    history->skew = 0;
    if (history_begin(history, &tester->pair)) {
        while (k < LISTED && is_as_listed(tester, &list[k]))
            k++;
    }
    if (k < LISTED)
        history_print(history, &tester->pair);
    return k == LISTED;
}

/* Every line of small memories under ranges, in every state. */

/* Ranges, and what they say of each line: o the order's mode, b write back, t write through. */
struct layout {
    struct second_range scratch, device;
    const char *modes; /* a letter per line */
};

#define HALF (UINT64_C(1) << 63)

static const struct layout layouts[] = {
    /* One range: in the middle, at either end, of one line, of all. */
    {{2, 2}, {0, 0}, "oobboo"}, {{0, 0}, {2, 2}, "oottoo"}, {{2, 1}, {0, 0}, "oobooo"}, {{0, 0}, {2, 1}, "ootooo"},
    {{0, 1}, {0, 0}, "booooo"}, {{0, 0}, {0, 1}, "tooooo"}, {{5, 1}, {0, 0}, "ooooob"}, {{0, 0}, {5, 1}, "ooooot"},
    {{0, 6}, {0, 0}, "bbbbbb"}, {{0, 0}, {0, 6}, "tttttt"}, {{1, 5}, {0, 0}, "obbbbb"}, {{0, 0}, {0, 5}, "ttttto"},
    /* Two ranges that don't meet, and such as do. */
    {{0, 1}, {5, 1}, "boooot"}, {{5, 1}, {0, 1}, "toooob"}, {{1, 2}, {4, 1}, "obboto"}, {{4, 1}, {1, 2}, "ottobo"},
    {{0, 3}, {3, 3}, "bbbttt"}, {{3, 3}, {0, 3}, "tttbbb"}, {{1, 2}, {3, 2}, "obbtto"}, {{3, 2}, {1, 2}, "ottbbo"},
    /* Ranges that cross, and one within the other: what is in both is scratch. */
    {{1, 3}, {2, 3}, "obbbto"}, {{2, 3}, {1, 3}, "otbbbo"}, {{1, 4}, {2, 2}, "obbbbo"}, {{2, 2}, {1, 4}, "otbbto"},
    {{0, 6}, {2, 2}, "bbbbbb"}, {{2, 2}, {0, 6}, "ttbbtt"}, {{2, 1}, {2, 1}, "oobooo"}, {{0, 6}, {0, 6}, "bbbbbb"},
    {{0, 4}, {3, 3}, "bbbbtt"}, {{3, 3}, {0, 4}, "tttbbb"}, {{2, 2}, {2, 3}, "oobbto"}, {{2, 3}, {2, 2}, "oobbbo"},
    /* Empty ones, wherever they start: in memory, at its end, beyond it. */
    {{0, 0}, {0, 0}, "oooooo"}, {{3, 0}, {3, 0}, "oooooo"}, {{6, 0}, {7, 0}, "oooooo"}, {{7, 0}, {6, 0}, "oooooo"},
    {{2, 0}, {2, 1}, "ootooo"}, {{2, 1}, {2, 0}, "oobooo"}, {{HALF, 0}, {UINT64_MAX, 0}, "oooooo"},
    {{UINT64_MAX, 0}, {1, 2}, "ottooo"}, {{1, 2}, {UINT64_MAX, 0}, "obbooo"}, {{4096, 0}, {4097, 0}, "oooooo"},
    /* Other numbers of lines. */
    {{0, 1}, {0, 0}, "b"}, {{0, 0}, {0, 1}, "t"}, {{0, 1}, {0, 1}, "b"}, {{1, 0}, {2, 0}, "o"},
    {{1, 1}, {0, 1}, "tb"}, {{0, 1}, {1, 1}, "bt"}, {{0, 2}, {1, 1}, "bb"}, {{1, 1}, {0, 2}, "tb"},
    {{1, 1}, {1, 1}, "obo"}, {{2, 1}, {1, 2}, "otb"}, {{1, 2}, {0, 2}, "tbb"}, {{0, 2}, {1, 2}, "bbt"},
};

enum { LAYOUTS = sizeof layouts / sizeof layouts[0] };

/* What an order leaves of a line that no other port holds. */
struct outcome {
    unsigned state;
    uint64_t reads, writes;
};

/* What is tried on a line: a read, a write and a swap that change the word, and a swap that fails; then the orders that
   have no mode. */
enum trial { TRY_READ, TRY_WRITE, TRY_SWAP, TRY_FAILING, TRY_FLUSH, TRY_DEVICE_READ, TRY_DEVICE_WRITE, TRIALS };

/* By own state, from I to M: reads and swaps that fail in write through and in write back, then what writes likewise,
   then flush, device read and device write. */
static const struct outcome outcomes[7][7] = {
    {{2, 1, 0}, {10, 1, 0}, {2, 1, 1}, {12, 1, 0}, {0, 0, 0}, {0, 1, 0}, {0, 1, 1}},
    {{1, 0, 0}, {9, 0, 0}, {2, 0, 1}, {12, 0, 0}, {0, 0, 0}, {1, 1, 0}, {0, 1, 1}},
    {{2, 0, 0}, {10, 0, 0}, {2, 0, 1}, {12, 0, 0}, {0, 0, 0}, {2, 1, 0}, {0, 1, 1}},
    {{1, 0, 0}, {9, 0, 0}, {2, 0, 1}, {12, 0, 0}, {0, 0, 0}, {9, 1, 0}, {0, 1, 1}},
    {{2, 0, 0}, {10, 0, 0}, {2, 0, 1}, {12, 0, 0}, {0, 0, 0}, {10, 1, 0}, {0, 1, 1}},
    {{1, 0, 1}, {11, 0, 0}, {2, 0, 1}, {12, 0, 0}, {0, 0, 1}, {11, 1, 0}, {0, 0, 1}},
    {{2, 0, 1}, {12, 0, 0}, {2, 0, 1}, {12, 0, 0}, {0, 0, 1}, {12, 1, 0}, {0, 0, 1}},
};

static const uint8_t state_bytes[7] = {0, 1, 2, 9, 10, 11, 12};

/* The words of a line: an owner's is not memory's. */
enum { IN_MEMORY = 0x4444, IN_OWNER = 0x5555 };

static uint64_t trial_word(enum trial trial, unsigned mode, unsigned line, uint64_t found)
{
    switch (trial) {
    case TRY_READ: return traffic_word(SECOND_READ, mode, 1, 0xFF, line, 0);
    case TRY_WRITE: return traffic_word(SECOND_WRITE, mode, 1, 0x01, line, 0);
    case TRY_SWAP: return traffic_word(SECOND_SWAP, mode, 1, 0x0F, line, found);
    case TRY_FAILING: return traffic_word(SECOND_SWAP, mode, 1, 0x0F, line, found + 1);
    case TRY_FLUSH: return traffic_word(SECOND_FLUSH, mode, 1, 0, line, 0);
    case TRY_DEVICE_READ: return traffic_word(SECOND_DEVICE_READ, mode, 1, 0, line, 0);
    default: return traffic_word(SECOND_DEVICE_WRITE, mode, 1, 0x01, line, 0);
    }
}

static const struct outcome *outcome_of(enum trial trial, unsigned state, int back)
{
    switch (trial) {
    case TRY_READ: case TRY_FAILING: return &outcomes[state][back];
    case TRY_WRITE: case TRY_SWAP: return &outcomes[state][2 + back];
    default: return &outcomes[state][trial];
    }
}

/* The numbers of a trial: a device reads memory's word, a port the word found. */
static struct second_answer trial_answer(enum trial trial, const struct outcome *outcome, uint64_t found)
{
    struct second_answer answer = {0, 0, trial == TRY_SWAP, outcome->reads, outcome->writes};

    if (trial == TRY_READ || trial == TRY_SWAP || trial == TRY_FAILING)
        answer.value = found;
    if (trial == TRY_DEVICE_READ)
        answer.value = IN_MEMORY;
    return answer;
}

/* Two ports, one set, and port 1 has the line in a state. */
static void put_state(struct second_model *start, unsigned line, unsigned state)
{
    for (unsigned k = 0; k < start->shape.lines; k++)
        start->memory[k] = IN_MEMORY;
    for (unsigned port = 0; port < 2; port++) {
        start->states[port] = port == 1 ? state_bytes[state] : 0;
        start->tags[port] = line;
        start->data[port] = state_bytes[state] > 10 ? IN_OWNER : IN_MEMORY;
    }
}

static int try_line(struct tester *tester, unsigned line, char mode_letter, unsigned which)
{
    enum trial trial = which % TRIALS;
    unsigned state = which / TRIALS % 7, mode = which / TRIALS / 7;
    int back = mode_letter == 'o' ? (int)mode : mode_letter == 'b';
    const struct outcome *outcome = outcome_of(trial, state, back);
    uint64_t found = state_bytes[state] > 10 ? IN_OWNER : IN_MEMORY;
    struct second_answer answer = trial_answer(trial, outcome, found);
    struct pair *pair = &tester->pair;

    put_state(&tester->history.start, line, state);
    if (add_to_start(tester, trial_word(trial, mode, line, found), 0x77)) {
        if (answer_is(pair, &answer) && lent_numbers(pair)->states[1] == outcome->state)
            return 1;
        snprintf(pair->difference, sizeof pair->difference, "  the order is not as worked out for mode %c\n",
                 mode_letter);
    }
    history_print(&tester->history, pair);
    return 0;
}

/* Every line of every layout, in every state, with every trial in both modes. */
static int laid_out_orders(struct tester *tester)
{
    static const struct second_shape shape = SHAPE(2, 1, 0);

    for (size_t k = 0; k < LAYOUTS; k++) {
        const struct layout *layout = &layouts[k];

        tester->history.start.shape = shape;
        tester->history.start.shape.lines = strlen(layout->modes);
        tester->history.start.shape.scratch = layout->scratch;
        tester->history.start.shape.device = layout->device;
        for (unsigned line = 0; layout->modes[line] != '\0'; line++) {
            for (unsigned which = 0; which < TRIALS * 7 * 2; which++) {
                if (!try_line(tester, line, layout->modes[line], which))
                    return 0;
            }
        }
    }
    return 1;
}

/* Refusals, worked out by hand: at the shape 2/1/2. */

static const struct second_range within[] = {
    {0, 0}, {1, 0}, {2, 0}, {3, 0}, {4097, 0}, {HALF, 0}, {UINT64_MAX, 0}, {0, 1}, {1, 1}, {0, 2},
};

static const struct second_range beyond[] = {
    {0, 3}, {1, 2}, {2, 1}, {3, 1}, {2, 2}, {0, 4096}, {0, 4097}, {4095, 1}, {4096, 1}, {65536, 1}, {0, 65537},
    /* Upper bits that are not to be lost. */
    {UINT64_C(0x100000000), 1}, {0, UINT64_C(0x100000001)}, {UINT64_C(0x100000000), UINT64_C(0x100000001)},
    /* Sums that are not to wrap: to 0, to 1 and to 2, and just not. */
    {UINT64_MAX, 1}, {HALF, HALF}, {1, UINT64_MAX}, {UINT64_MAX, 2}, {UINT64_MAX - 1, 3}, {HALF, HALF + 1},
    {2, UINT64_MAX}, {3, UINT64_MAX}, {UINT64_MAX, 3}, {UINT64_MAX, UINT64_MAX}, {0, UINT64_MAX}, {UINT64_MAX - 1, 1},
    {HALF, HALF - 1}, {HALF, 1}, {0, HALF},
};

enum { WITHIN = sizeof within / sizeof within[0], BEYOND = sizeof beyond / sizeof beyond[0] };

/* A call in which other things may be wrong, and what fresh, step, audit and the step with a record then give: where
   both ranges end within lines, and where one ends beyond them. */
struct situation {
    uint64_t ports, sets, lines; /* as the call says them */
    const char *wrong; /* a byte more in memory, tags, states, data, answer and verdict, record; f is a full record */
    unsigned state;    /* of port 1's entry; the rest of the tables is zeros */
    uint64_t word;
    unsigned fitting[4], refused[4];
};

static const struct situation situations[] = {
    /* Nothing else is wrong: 12, whatever the order. */
    {2, 1, 2, "", 0, 0x08, {0, 0, 0, 0}, {12, 12, 12, 12}},
    {2, 1, 2, "", 0, 0xFF01, {0, 0, 0, 0}, {12, 12, 12, 12}},
    {2, 1, 2, "", 12, 0x0000000500000F0A, {0, 0, 0, 0}, {12, 12, 12, 12}},
    {2, 1, 2, "", 12, 0x13, {0, 0, 0, 0}, {12, 12, 12, 12}},
    {2, 1, 2, "", 12, 0x04, {0, 0, 0, 0}, {12, 12, 12, 12}},
    {2, 1, 2, "", 12, 0xFF05, {0, 0, 0, 0}, {12, 12, 12, 12}},
    /* 12 before 4, 5, 6, 7 and 8. */
    {2, 1, 2, "", 0, 0xFF06, {0, 4, 0, 4}, {12, 12, 12, 12}},
    {2, 1, 2, "", 0, 0xFFFFFFFFFFFFFFFF, {0, 4, 0, 4}, {12, 12, 12, 12}},
    {2, 1, 2, "", 0, 0x20, {0, 5, 0, 5}, {12, 12, 12, 12}},
    {2, 1, 2, "", 0, 0x20008, {0, 6, 0, 6}, {12, 12, 12, 12}},
    {2, 1, 2, "", 0, 0x20004, {0, 6, 0, 6}, {12, 12, 12, 12}},
    {2, 1, 2, "", 0, 0xFF0A, {0, 7, 0, 7}, {12, 12, 12, 12}},
    {2, 1, 2, "", 3, 0x08, {0, 8, 0, 8}, {12, 12, 12, 12}},
    {2, 1, 2, "", 255, 0xFF05, {0, 8, 0, 8}, {12, 12, 12, 12}},
    /* 3 before 12: of each slice, of answer and verdict, which fresh has not, and of the record. */
    {2, 1, 2, "m", 0, 0x08, {3, 3, 3, 3}, {3, 3, 3, 3}},
    {2, 1, 2, "t", 0, 0x08, {3, 3, 3, 3}, {3, 3, 3, 3}},
    {2, 1, 2, "s", 0, 0x08, {3, 3, 3, 3}, {3, 3, 3, 3}},
    {2, 1, 2, "d", 0, 0x08, {3, 3, 3, 3}, {3, 3, 3, 3}},
    {2, 1, 2, "mtsd", 0, 0x06, {3, 3, 3, 3}, {3, 3, 3, 3}},
    {2, 1, 2, "a", 0, 0x08, {0, 3, 3, 3}, {12, 3, 3, 3}},
    {2, 1, 2, "a", 3, 0x06, {0, 3, 3, 3}, {12, 3, 3, 3}},
    {2, 1, 2, "r", 0, 0x08, {0, 0, 0, 3}, {12, 12, 12, 3}},
    {2, 1, 2, "r", 0, 0x06, {0, 4, 0, 3}, {12, 12, 12, 3}},
    {2, 1, 2, "ar", 0, 0x08, {0, 3, 3, 3}, {12, 3, 3, 3}},
    /* 2 before 12, and before 3. */
    {0, 1, 2, "", 0, 0x08, {2, 2, 2, 2}, {2, 2, 2, 2}},
    {9, 1, 2, "", 0, 0x08, {2, 2, 2, 2}, {2, 2, 2, 2}},
    {2, 3, 2, "", 0, 0x08, {2, 2, 2, 2}, {2, 2, 2, 2}},
    {2, 1, 0, "", 0, 0x08, {2, 2, 2, 2}, {2, 2, 2, 2}},
    {2, 1, 4097, "", 0, 0x08, {2, 2, 2, 2}, {2, 2, 2, 2}},
    {2, 1, UINT64_MAX, "", 0, 0x08, {2, 2, 2, 2}, {2, 2, 2, 2}},
    {9, 1, 2, "m", 0, 0x06, {2, 2, 2, 2}, {2, 2, 2, 2}},
    {9, 1, 2, "a", 0, 0x08, {2, 2, 2, 2}, {2, 2, 2, 2}},
    {9, 1, 2, "r", 0, 0x08, {2, 2, 2, 2}, {2, 2, 2, 2}},
    /* 9 before everything. */
    {2, 1, 2, "f", 0, 0x08, {0, 0, 0, 9}, {12, 12, 12, 9}},
    {2, 1, 2, "f", 0, 0x06, {0, 4, 0, 9}, {12, 12, 12, 9}},
    {2, 1, 2, "fa", 0, 0x08, {0, 3, 3, 9}, {12, 3, 3, 9}},
    {2, 1, 2, "fm", 0, 0x08, {3, 3, 3, 9}, {3, 3, 3, 9}},
    {9, 1, 2, "f", 0, 0x08, {2, 2, 2, 9}, {2, 2, 2, 9}},
    /* A record of another length is not full. */
    {2, 1, 2, "fr", 0, 0x08, {0, 0, 0, 3}, {12, 12, 12, 3}},
};

enum { SITUATIONS = sizeof situations / sizeof situations[0] };

/* The length of a slice in a situation: a byte more than it is due if its letter says so. */
static size_t length_in(const struct situation *situation, char letter, size_t length)
{
    return length + (strchr(situation->wrong, letter) != NULL);
}

static void lend_situation(struct tester *tester, const struct situation *situation, enum call call)
{
    static const struct second_shape shape = SHAPE(2, 1, 2);
    static const char letters[4] = {'m', 't', 's', 'd'};
    struct second_model *start = &tester->history.start;
    struct pair *pair = &tester->pair;
    uint8_t record[SECOND_RECORD_BYTES + 1] = {0};

    memset(start, 0, sizeof *start);
    start->shape = shape;
    start->memory[0] = 5;
    start->memory[1] = 7;
    start->states[1] = (uint8_t)situation->state;
    pair->second = *start;
    pair_lend(pair, (unsigned)call);
    for (int s = MEMORY; s <= DATA; s++) {
        size_t length = length_in(situation, letters[s], pair->slices[s].length);

        if (length != pair->slices[s].length)
            pair_place(pair, (enum slice)s, length, 0);
    }
    pair_place(pair, RESULT, length_in(situation, 'a', call == AUDIT ? 1 : 40), 3);
    if (strchr(situation->wrong, 'f') != NULL)
        memset(record, 0xFF, sizeof record);
    pair_place_record(pair, record, length_in(situation, 'r', SECOND_RECORD_BYTES), 5);
}

/* Whether the result is what the refusal leaves: its number and four zeros, or a verdict of 0; nothing where it has
   another length. Fresh has none. */
static int result_is_refused(const struct pair *pair, enum call call, uint64_t refusal)
{
    const struct lent *result = &pair->slices[RESULT];
    struct second_answer answer = {refusal, 0, 0, 0, 0};

    if (call == FRESH || result->length != (call == AUDIT ? 1u : 40u))
        return 1;
    return call == AUDIT ? pair_verdict(pair) == 0 : answer_is(pair, &answer);
}

/* Whether the record of a step has the refused order, and nothing else; or stayed, at refusal 9 or another length. */
static int record_is_refused(const struct pair *pair, enum call call, uint64_t refusal)
{
    const struct lent *record = &pair->slices[RECORD];
    int full = record->bytes[0] != 0, counted = call == STEP_TOTALS && refusal != 9 && record->length == 80;

    for (size_t k = 0; k < record->length; k++) {
        if (record->bytes[k] != (full ? 0xFF : k == 48 && counted))
            return 0;
    }
    return 1;
}

/* One call in a situation, under ranges; it gives the refusal, and if there is one nothing changes. */
static int call_gives(struct tester *tester, const struct situation *situation, enum call call,
                      const struct second_range ranges[2], uint64_t refusal)
{
    struct second_shape shape = {situation->ports, situation->sets, situation->lines, ranges[0], ranges[1]};
    struct pair *pair = &tester->pair;

    lend_situation(tester, situation, call);
    keep_lent(pair);
    if (!pair_call(pair, call, shape, situation->word, 9))
        return report_call(tester, "call under ranges", shape, situation->word, 9);
    if (pair->returned == refusal &&
        (refusal == 0 || (lent_is_kept(pair) && result_is_refused(pair, call, refusal) &&
                          record_is_refused(pair, call, refusal))))
        return 1;
    snprintf(pair->difference, sizeof pair->difference, "  call %d is not refused %u as worked out, but %u\n",
             (int)call, (unsigned)refusal, (unsigned)pair->returned);
    return report_call(tester, "call under ranges", shape, situation->word, 9);
}

/* The four calls in every situation. */
static int every_situation(struct tester *tester, struct second_range scratch, struct second_range device, int fits)
{
    static const enum call calls[4] = {FRESH, STEP, AUDIT, STEP_TOTALS};
    const struct second_range ranges[2] = {scratch, device};

    for (size_t k = 0; k < 4 * SITUATIONS; k++) {
        const struct situation *situation = &situations[k / 4];
        unsigned refusal = (fits ? situation->fitting : situation->refused)[k % 4];

        if (!call_gives(tester, situation, calls[k % 4], ranges, refusal)) {
            printf("  situation %zu of the list\n", k / 4 + 1);
            return 0;
        }
    }
    return 1;
}

/* Every two ranges that end within lines; each that ends beyond them at either place, beside one that does not and
   beside itself. */
static int refused_ranges(struct tester *tester)
{
    for (size_t k = 0; k < WITHIN * WITHIN; k++) {
        if (!every_situation(tester, within[k / WITHIN], within[k % WITHIN], 1))
            return 0;
    }
    for (size_t k = 0; k < BEYOND; k++) {
        if (!every_situation(tester, beyond[k], within[k % WITHIN], 0) ||
            !every_situation(tester, within[(k + 3) % WITHIN], beyond[k], 0) ||
            !every_situation(tester, beyond[k], beyond[(k + 1) % BEYOND], 0))
            return 0;
    }
    return 1;
}

/* The largest memory: ranges up to its last line, and one line more. */
static int largest_ranges(struct tester *tester)
{
    static const struct second_shape shapes[8] = {
        {8, 64, 4096, {0, 4096}, {0, 0}},    {8, 64, 4096, {0, 0}, {0, 4096}},   {8, 64, 4096, {4095, 1}, {4094, 1}},
        {8, 64, 4096, {4096, 0}, {4095, 1}}, {8, 64, 4096, {0, 4097}, {0, 0}},   {8, 64, 4096, {0, 0}, {0, 4097}},
        {8, 64, 4096, {4095, 2}, {0, 4096}}, {8, 64, 4096, {4097, 0}, {4096, 1}},
    };

    for (unsigned k = 0; k < 8 * 3; k++) {
        enum call call = k / 8 == 0 ? FRESH : k / 8 == 1 ? STEP : AUDIT;
        uint64_t word = traffic_word(SECOND_WRITE, k % 2, 7, 0xFF, 4095, 0);

        memset(&tester->history.start, 0, sizeof tester->history.start);
        tester->history.start.shape = shapes[k % 8];
        tester->pair.second = tester->history.start;
        pair_lend(&tester->pair, k % 8);
        pair_place(&tester->pair, RESULT, call == AUDIT ? 1 : 40, 0);
        if (!pair_call(&tester->pair, call, shapes[k % 8], word, 3) ||
            tester->pair.returned != (k % 8 < 4 ? 0u : 12u))
            return report_call(tester, "call at the largest shape", shapes[k % 8], word, 3);
    }
    return 1;
}

int ranges_numbers(struct tester *tester, uint64_t run)
{
    static int (*const parts[RANGES_PARTS])(struct tester *) = {
        listed_orders, laid_out_orders, refused_ranges, largest_ranges,
    };

    return parts[run % RANGES_PARTS](tester);
}

/* Ranges against orders that say the mode in force. */

/* The order as it would be given without ranges: in a range its mode is another one, whatever the kind. */
static uint64_t without_ranges(struct second_shape shape, uint64_t word)
{
    uint64_t line = word >> 16 & 65535;

    for (uint64_t k = 0; k < shape.scratch.count; k++) {
        if (shape.scratch.first + k == line)
            return word | 8;
    }
    for (uint64_t k = 0; k < shape.device.count; k++) {
        if (shape.device.first + k == line)
            return word & ~UINT64_C(8);
    }
    return word;
}

/* Makes a call on history.start, under a shape's ranges. */
static int call_under(struct tester *tester, enum call call, struct second_shape shape, uint64_t word, uint64_t operand)
{
    struct pair *pair = &tester->pair;

    tester->history.start.shape = shape;
    pair->second = tester->history.start;
    pair_lend(pair, generator_below(&tester->generator, 8));
    pair_place(pair, RESULT, call == AUDIT ? SECOND_VERDICT_BYTES : SECOND_ANSWER_BYTES, 0);
    return pair_call(pair, call, shape, word, operand) ||
           report_call(tester, "call under ranges", shape, word, operand);
}

/* The same call on the same bytes, under ranges and without: the same refusal, result and bytes. */
static int same_without(struct tester *tester, enum call call, struct second_shape shape, uint64_t word,
                        uint64_t operand)
{
    struct pair *pair = &tester->pair;
    uint8_t result[SECOND_ANSWER_BYTES];
    uint64_t returned;

    if (!call_under(tester, call, shape, word, operand))
        return 0;
    keep_lent(pair);
    returned = pair->returned;
    memcpy(result, pair->slices[RESULT].bytes, pair->slices[RESULT].length);
    if (!call_under(tester, call, traffic_without_ranges(shape), without_ranges(shape, word), operand))
        return 0;
    if (pair->returned == returned && lent_is_kept(pair) &&
        memcmp(result, pair->slices[RESULT].bytes, pair->slices[RESULT].length) == 0)
        return 1;
    snprintf(pair->difference, sizeof pair->difference, "  under ranges the call is another one\n");
    return report_call(tester, "call without ranges", shape, word, operand);
}

/* Orders one after another, on any tables, each under other ranges; fresh and the audit, which look at no mode. */
int ranges_are_modes(struct tester *tester, uint64_t run)
{
    struct generator *generator = &tester->generator;
    struct second_model *start = &tester->history.start;
    struct second_shape shape = run % 8 < 7 ? traffic_small_shape(generator) : traffic_any_shape(generator);

    begin_traffic(tester, shape);
    traffic_noise(&tester->traffic, generator, start);
    for (unsigned k = 0; k < 10; k++) {
        uint64_t word = traffic_order(&tester->traffic, generator, start);
        uint64_t operand = traffic_operand(&tester->traffic, generator, start, word);

        if (!same_without(tester, STEP, shape, word, operand))
            return 0;
        *start = tester->pair.second;
        traffic_ranges(generator, &shape);
    }
    return same_without(tester, AUDIT, shape, 0, 0) && same_without(tester, FRESH, shape, 0, 0);
}

/* Refused ranges, and whatever else may be wrong. */

static int some_call(struct tester *tester, enum call call, struct second_shape shape)
{
    struct generator *generator = &tester->generator;
    uint64_t word = traffic_order(&tester->traffic, generator, &tester->history.start);
    uint64_t operand = traffic_operand(&tester->traffic, generator, &tester->history.start, word);

    place_some_record(tester);
    place_some_answer(tester);
    if (call == AUDIT && generator_percent(generator, 70))
        pair_place(&tester->pair, RESULT, SECOND_VERDICT_BYTES, generator_below(generator, 8));
    return pair_call(&tester->pair, call, shape, word, operand) ||
           report_call(tester, "call under ranges", shape, word, operand);
}

/* All calls on damaged tables. In most a range ends beyond lines, in some the shape, a slice or the order is wrong. */
int ranges_refused(struct tester *tester, uint64_t run)
{
    static const enum call calls[8] = {STEP, AUDIT, STEP_TOTALS, STEP, STEP_TOTALS, FRESH, STEP, STEP_TOTALS};
    struct generator *generator = &tester->generator;
    struct second_shape shape = run % 16 < 15 ? traffic_small_shape(generator) : traffic_any_shape(generator), said;

    begin_traffic(tester, shape);
    tester->traffic.odd_percent = 30;
    traffic_noise(&tester->traffic, generator, &tester->history.start);
    tester->pair.second = tester->history.start;
    pair_lend(&tester->pair, generator_below(generator, 8));
    misplace(tester, generator_percent(generator, 75) ? 0 : 1u << generator_below(generator, 4));
    for (unsigned k = 0; k < 8; k++) {
        said = shape;
        if (generator_percent(generator, 70))
            traffic_ranges_beyond(generator, &said);
        if (generator_percent(generator, 15))
            said = out_of_range(generator, said);
        if (!some_call(tester, calls[k], said))
            return 0;
    }
    return 1;
}

/* What a device reads in the device range. */

static int is_device_line(struct second_shape shape, uint64_t line)
{
    return line >= shape.device.first && line < shape.device.first + shape.device.count &&
           !(line >= shape.scratch.first && line < shape.scratch.first + shape.scratch.count);
}

/* A device reads the line's flat word, under mark 0 and with no flush. */
static int device_reads(struct tester *tester, unsigned line)
{
    struct history *history = &tester->history;
    uint64_t word = history->flat.words[line];
    int marked = history->flat.marks[line] != 0;

    if (!history_add(history, &tester->pair, traffic_word(SECOND_DEVICE_READ, 0, 0, 0, line, 0), 0))
        return report_history(tester);
    if (!marked && history->given.refusal == 0 && history->given.value == word)
        return 1;
    snprintf(tester->pair.difference, sizeof tester->pair.difference,
             "  a device doesn't read a line of the device range right\n");
    history_print(history, &tester->pair);
    return 0;
}

/* Some lines of the device range, outside of scratch: all of them if they are few. */
static int device_reads_all(struct tester *tester, struct second_shape shape)
{
    unsigned stride = 1 + (unsigned)shape.device.count / 32;

    for (uint64_t k = 0; k < shape.device.count; k += stride) {
        if (is_device_line(shape, shape.device.first + k) &&
            !device_reads(tester, (unsigned)(shape.device.first + k)))
            return 0;
    }
    return 1;
}

/* From fresh, under ranges that stand: whatever the orders are, mostly such as say write back. */
int ranges_device(struct tester *tester, uint64_t run)
{
    struct generator *generator = &tester->generator;
    struct second_shape shape = run % 4 < 3 ? traffic_small_shape(generator) : traffic_any_shape(generator);

    while (shape.device.count == 0)
        traffic_ranges(generator, &shape);
    begin_traffic(tester, shape);
    traffic_fill_tables(generator, &tester->history.start);
    tester->history.fresh = 1;
    tester->history.totals = run % 8 == 7;
    memset(tester->history.totals_start, 0, sizeof tester->history.totals_start);
    if (!history_begin(&tester->history, &tester->pair))
        return report_history(tester);
    for (unsigned round = 0; round < 8; round++) {
        tester->traffic.back_percent = round % 2 ? 100 : 70;
        if (!add_orders(tester, generator_below(generator, 24)))
            return report_history(tester);
        if (!device_reads_all(tester, shape))
            return 0;
    }
    return history_end(&tester->history, &tester->pair) || report_history(tester);
}

/* Ranges that change between orders. */

/* The ranges to change between: of the run's shape, others, empty ones, and some that end beyond lines. */
static void choose_ranges(struct tester *tester, struct second_shape shape)
{
    struct history *history = &tester->history;

    for (unsigned k = 1; k < HISTORY_RANGES; k++) {
        if (k == 1)
            shape = traffic_without_ranges(shape);
        else if (k < HISTORY_RANGES - 1)
            traffic_ranges(&tester->generator, &shape);
        else
            traffic_ranges_beyond(&tester->generator, &shape);
        history->scratch[k] = shape.scratch;
        history->device[k] = shape.device;
    }
}

/* Answers go on agreeing with the flat memory, which finds the mode of each order under the same ranges; an order under
   a range that ends beyond lines is refused 12, and changes nothing. */
int ranges_change(struct tester *tester, uint64_t run)
{
    struct generator *generator = &tester->generator;
    struct second_shape shape = run % 8 < 7 ? traffic_small_shape(generator) : traffic_any_shape(generator);
    struct history *history = &tester->history;

    begin_traffic(tester, shape);
    traffic_fill_tables(generator, &history->start);
    history->fresh = run % 4 < 3;
    if (!history->fresh)
        traffic_noise(&tester->traffic, generator, &history->start);
    history->totals = run % 3 == 0;
    memset(history->totals_start, 0, sizeof history->totals_start);
    if (!history_begin(history, &tester->pair))
        return report_history(tester);
    choose_ranges(tester, shape);
    for (unsigned round = 0; round < 30; round++) {
        history_under(history, &tester->pair, generator_below(generator, HISTORY_RANGES));
        if (!add_orders(tester, 1 + generator_below(generator, 5)))
            return report_history(tester);
    }
    return history_end(history, &tester->pair) || report_history(tester);
}

/* Empty ranges. */

enum { MOST_ORDERS = 100 };

static struct second_answer answers[MOST_ORDERS];

/* The orders of a history again, under ranges that are empty too but start elsewhere: the same answers and bytes. */
static int same_again(struct tester *tester, size_t orders)
{
    struct history *history = &tester->history;
    size_t k = 0;

    if (!history_begin(history, &tester->pair))
        return report_history(tester);
    while (k < orders) {
        if (!history_add(history, &tester->pair, history->orders[k].word, history->orders[k].operand))
            return report_history(tester);
        if (memcmp(&history->given, &answers[k], sizeof answers[k]) != 0)
            break;
        k++;
    }
    if (k == orders && lent_is_kept(&tester->pair))
        return 1;
    snprintf(tester->pair.difference, sizeof tester->pair.difference,
             "  under other empty ranges the run is another from order %zu on\n", k + 1);
    history_print(history, &tester->pair);
    return 0;
}

static int first_time(struct tester *tester, size_t orders)
{
    if (!history_begin(&tester->history, &tester->pair))
        return report_history(tester);
    for (size_t k = 0; k < orders; k++) {
        if (!add_orders(tester, 1))
            return report_history(tester);
        answers[k] = tester->history.given;
    }
    keep_lent(&tester->pair);
    return 1;
}

int ranges_empty(struct tester *tester, uint64_t run)
{
    static const uint64_t firsts[8] = {1, 2, 3, 4095, 4096, 4097, HALF, UINT64_MAX};
    struct generator *generator = &tester->generator;
    struct second_shape shape = run % 8 < 7 ? traffic_small_shape(generator) : traffic_any_shape(generator);
    size_t orders = generator_below(generator, MOST_ORDERS + 1);

    begin_traffic(tester, traffic_without_ranges(shape));
    traffic_fill_tables(generator, &tester->history.start);
    tester->history.fresh = 1;
    /* No audit after an order: it would take the place of the answer. */
    tester->history.audit_every = 2 * MOST_ORDERS;
    if (!first_time(tester, orders))
        return 0;
    for (unsigned k = 0; k < 3; k++) {
        tester->history.start.shape.scratch.first = firsts[generator_below(generator, 8)];
        tester->history.start.shape.device.first = firsts[generator_below(generator, 8)];
        if (!same_again(tester, orders))
            return 0;
    }
    return 1;
}
