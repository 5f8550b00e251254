/* The differential test: the library against the second model and the flat memory; one test per group. */

#include "tester.h"

#include <inttypes.h>
#include <stdio.h>
#include <stdlib.h>
#include <string.h>
#include <time.h>

enum { LONGEST_HISTORY = 60000 };

/* A group of checks: its runs are numbered, and each has its own generator, so that one can be run alone. */
struct group {
    const char *name;
    int (*run)(struct tester *tester, uint64_t run);
    uint64_t runs;
    int scaled; /* the number of runs goes with percent */
};

int report_call(struct tester *tester, const char *what, struct second_shape shape, uint64_t word, uint64_t operand)
{
    const struct lent *slices = tester->pair.slices;

    printf("  %s: shape %" PRIu64 " %" PRIu64 " %" PRIu64 ", word 0x%" PRIx64 " operand 0x%" PRIx64 "\n", what,
           shape.ports, shape.sets, shape.lines, word, operand);
    printf("  scratch %" PRIu64 " %" PRIu64 ", device %" PRIu64 " %" PRIu64 "\n", shape.scratch.first,
           shape.scratch.count, shape.device.first, shape.device.count);
    printf("  lengths: memory %zu, tags %zu, states %zu, data %zu, result %zu, record %zu", slices[MEMORY].length,
           slices[TAGS].length, slices[STATES].length, slices[DATA].length, slices[RESULT].length,
           slices[RECORD].length);
    printf(", old tags %zu, states %zu, data %zu\n", slices[OLD_TAGS].length, slices[OLD_STATES].length,
           slices[OLD_DATA].length);
    printf("%s", tester->pair.difference);
    return 0;
}

/* The fourteen orders. */

struct literal {
    uint64_t word, operand;
    struct second_answer answer;
    unsigned states[2]; /* in which ports 0 and 1 hold the order's line */
    uint64_t memory[2];
};

/* Document 01's list, number by number, as orders 4 and 7 of document 02 amend its orders 11 to 13. */
static const struct literal fourteen[14] = {
    {0x0000000000000008, 0, {0, 5, 0, 1, 0}, {10, 0}, {5, 7}},
    {0x0000000000000018, 0, {0, 5, 0, 1, 0}, {9, 9}, {5, 7}},
    {0x000000000000FF19, 9, {0, 0, 0, 0, 0}, {9, 11}, {5, 7}},
    {0x0000000000000004, 0, {0, 5, 0, 1, 0}, {9, 11}, {5, 7}},
    {0x0000000000000000, 0, {0, 9, 0, 0, 1}, {1, 1}, {9, 7}},
    {0x0000000000000004, 0, {0, 9, 0, 1, 0}, {1, 1}, {9, 7}},
    {0x0000000900000F0A, 4, {0, 9, 1, 0, 0}, {11, 9}, {9, 7}},
    {0x0000000900000F1A, 0, {0, 4, 0, 0, 0}, {11, 9}, {9, 7}},
    {0x0000000000010101, 0x1FF, {0, 0, 0, 1, 2}, {2, 0}, {4, 255}},
    {0x0000000000010013, 0, {0, 0, 0, 0, 0}, {2, 0}, {4, 255}},
    {0x000000010001F01A, 0, {0, 255, 0, 1, 0}, {9, 9}, {4, 255}},
    {0x0000000000010019, 0, {0, 0, 0, 0, 0}, {9, 11}, {4, 255}},
    {0x000000010001F002, 0, {0, 255, 0, 0, 1}, {1, 1}, {4, 255}},
    {0x0000000000000020, 0, {5, 0, 0, 0, 0}, {0, 0}, {4, 255}},
};

/* The state in which a port of the shape 2/1/2 holds a line, by the lent bytes. */
static unsigned state_held(const struct pair *pair, unsigned port, unsigned line)
{
    const uint8_t *tag = pair->slices[TAGS].bytes + 4 * port;

    return tag[0] == line && tag[1] == 0 && tag[2] == 0 && tag[3] == 0 ? pair->slices[STATES].bytes[port] : 0;
}

static int is_literal(const struct pair *pair, const struct literal *literal)
{
    unsigned line = (unsigned)(literal->word >> 16 & 65535);
    struct second_answer answer = second_decode_answer(pair->slices[RESULT].bytes);
    uint8_t memory[16] = {0};

    memory[0] = (uint8_t)literal->memory[0];
    memory[8] = (uint8_t)literal->memory[1];
    return memcmp(&answer, &literal->answer, sizeof answer) == 0 &&
           memcmp(memory, pair->slices[MEMORY].bytes, sizeof memory) == 0 &&
           state_held(pair, 0, line) == literal->states[0] && state_held(pair, 1, line) == literal->states[1];
}

/* Carries one of the fourteen out and holds it against the list; the audit says yes after it. */
static int is_as_listed(struct tester *tester, size_t k)
{
    struct pair *pair = &tester->pair;

    if (!history_add(&tester->history, pair, fourteen[k].word, fourteen[k].operand))
        return 0;
    if (!is_literal(pair, &fourteen[k])) {
        snprintf(pair->difference, sizeof pair->difference, "  order %zu is not as the documents say\n", k + 1);
        return 0;
    }
    return history_end(&tester->history, pair);
}

int begin_at_five_and_seven(struct tester *tester)
{
    static const struct second_shape shape = SHAPE(2, 1, 2);
    struct history *history = &tester->history;

    history->start.shape = shape;
    traffic_fill_tables(&tester->generator, &history->start);
    history->start.memory[0] = 5;
    history->start.memory[1] = 7;
    history->fresh = 1;
    history->audit_every = 100;
    history->skew = 0;
    return history_begin(history, &tester->pair);
}

static int fourteen_orders(struct tester *tester, uint64_t run)
{
    size_t k = 0;

    (void)run;
    if (begin_at_five_and_seven(tester)) {
        while (k < 14 && is_as_listed(tester, k))
            k++;
    }
    if (k < 14)
        history_print(&tester->history, &tester->pair);
    return k == 14;
}

/* Every table of few entries, and every order on it. */

struct choice {
    uint8_t state;
    uint32_t tag;
};

/* The entries that a table is made of: the states and two other bytes, each with line 0, line 1 and a line beyond. */
static size_t list_choices(struct choice *choices, int all)
{
    static const uint8_t states[9] = {0, 1, 2, 9, 10, 11, 12, 8, 13};
    size_t count = 0;

    for (size_t s = 0; s < (all ? 9u : 7u); s++) {
        for (uint32_t tag = 0; tag < (all ? 3u : 2u); tag++) {
            struct choice choice = {states[s], tag};

            if (all || states[s] != 0 || tag == 0)
                choices[count++] = choice;
        }
    }
    return count;
}

/* Words that tell where a word came from, or one word everywhere so that the audit can say yes. */
static void fill_words(struct second_model *model, int distinct)
{
    for (unsigned line = 0; line < 2; line++)
        model->memory[line] = distinct ? UINT64_C(0x800000008) + line : 7;
    for (unsigned port = 0; port < model->shape.ports; port++)
        model->data[port] = distinct ? UINT64_C(0x1000000010) * (port + 1) : 7;
}

int add_to_start(struct tester *tester, uint64_t word, uint64_t operand)
{
    struct history *history = &tester->history;

    history->fresh = 0;
    history->chosen = 1;
    history->ranges = 0;
    history->audit_every = 100;
    tester->pair.second = history->start;
    pair_lend(&tester->pair, (unsigned)(word & 7));
    history->count = 0;
    return history_add(history, &tester->pair, word, operand);
}

static int try_with(struct tester *tester, uint64_t word, uint64_t operand)
{
    if (add_to_start(tester, word, operand))
        return 1;
    history_print(&tester->history, &tester->pair);
    return 0;
}

static int try_order(struct tester *tester, uint64_t word)
{
    return try_with(tester, word, UINT64_C(0x3333333322222222));
}

static int try_swaps(struct tester *tester, unsigned port, unsigned line, unsigned mode)
{
    const struct second_model *start = &tester->history.start;

    for (unsigned k = 0; k <= start->shape.ports; k++) {
        uint64_t word = k < start->shape.ports ? start->data[k] : start->memory[line];

        if (!try_order(tester, traffic_word(SECOND_SWAP, mode, port, 0x0F, line, word & UINT64_C(0xFFFFFFFF))))
            return 0;
        if (!try_order(tester, traffic_word(SECOND_SWAP, mode, port, 0xF0, line, word >> 32)))
            return 0;
    }
    return try_order(tester, traffic_word(SECOND_SWAP, mode, port, 0xF0, line, 0xFFFFFFFF));
}

/* Stores of the word that the port would find: of no byte, of some and of all of them, by writes and by swaps; and of
   all of it but the highest bit or the lowest. */
static int try_same(struct tester *tester, unsigned port, unsigned line, unsigned mode)
{
    uint64_t word = second_meets(&tester->history.start, port, line).word;
    uint64_t some = traffic_word(SECOND_WRITE, mode, port, 0x3C, line, 0);
    uint64_t all = traffic_word(SECOND_WRITE, mode, port, 0xFF, line, 0);
    uint64_t lower = traffic_word(SECOND_SWAP, mode, port, 0x0F, line, word & UINT64_C(0xFFFFFFFF));
    uint64_t upper = traffic_word(SECOND_SWAP, mode, port, 0xF0, line, word >> 32);

    return try_order(tester, traffic_word(SECOND_WRITE, mode, port, 0x00, line, 0)) &&
           try_with(tester, some, word ^ UINT64_C(0xFF000000000000FF)) &&
           try_with(tester, all, word) && try_with(tester, all, word ^ UINT64_C(1) << 63) &&
           try_with(tester, lower, word) && try_with(tester, lower, word ^ 1) && try_with(tester, upper, word) &&
           try_with(tester, upper, word ^ UINT64_C(1) << 63);
}

/* Every kind of order of a port, to a line, in a mode. */
static int try_orders(struct tester *tester, unsigned port, unsigned line, unsigned mode)
{
    return try_order(tester, traffic_word(SECOND_READ, mode, port, 0, line, 0)) &&
           try_order(tester, traffic_word(SECOND_WRITE, mode, port, 0x3C, line, 0)) &&
           try_order(tester, traffic_word(SECOND_FLUSH, mode, port, 0, line, 0)) &&
           try_order(tester, traffic_word(SECOND_DEVICE_READ, mode, port, 0, line, 0)) &&
           try_swaps(tester, port, line, mode) && try_same(tester, port, line, mode);
}

/* Device writes of all bytes, of none and of some. What they ignore, port, mode and compare value, holds anything. */
static int try_device_writes(struct tester *tester, unsigned line)
{
    static const unsigned masks[4] = {0xFF, 0x00, 0x3C, 0x81};

    for (unsigned k = 0; k < 4; k++) {
        if (!try_order(tester, traffic_word(SECOND_DEVICE_WRITE, k % 2, 5 * k, masks[k], line, 0x55555555 * k)))
            return 0;
    }
    return 1;
}

static int try_audit(struct tester *tester, int distinct)
{
    fill_words(&tester->history.start, distinct);
    tester->pair.second = tester->history.start;
    pair_lend(&tester->pair, 0);
    if (pair_audit(&tester->pair))
        return 1;
    tester->history.count = 0;
    tester->history.fresh = 0;
    history_print(&tester->history, &tester->pair);
    return 0;
}

static int try_table(struct tester *tester)
{
    unsigned ports = (unsigned)tester->history.start.shape.ports;

    if (!try_audit(tester, 0) || !try_audit(tester, 1))
        return 0;
    for (unsigned k = 0; k < 4 * ports; k++) {
        if (!try_orders(tester, k / 4, k / 2 % 2, k % 2))
            return 0;
    }
    return try_device_writes(tester, 0) && try_device_writes(tester, 1);
}

/* In a short run only some tables of three and four ports: a stride prime to the number of choices, so that every entry
   still comes up at every port. */
static size_t table_stride(unsigned ports, uint64_t percent)
{
    size_t stride = ports > 2 && percent < 100 ? 100 / (size_t)percent : 1;

    while (stride % 3 == 0 || stride % 13 == 0)
        stride++;
    return stride;
}

/* Scratch and device range under which a table is tried: none; line 0 and line 1, and the other way round; all lines in
   both. With three and four ports each table is tried without ranges, and one in 25 under each of the others too. */
static const struct second_range small_ranges[4][2] = {
    {{0, 0}, {0, 0}}, {{0, 1}, {1, 1}}, {{1, 1}, {0, 1}}, {{0, 2}, {0, 2}},
};

static int try_under_ranges(struct tester *tester, size_t number)
{
    struct second_shape *shape = &tester->history.start.shape;
    size_t count = shape->ports < 3 || number % 25 == 0 ? 4 : 1;

    for (size_t k = 0; k < count; k++) {
        shape->scratch = small_ranges[k][0];
        shape->device = small_ranges[k][1];
        if (!try_table(tester))
            return 0;
    }
    return 1;
}

/* Run r: tables of r + 1 ports, one set, two lines. For one to three ports all entries, for four the states alone. */
static int every_small_table(struct tester *tester, uint64_t run)
{
    struct second_model *start = &tester->history.start;
    struct choice choices[27];
    unsigned ports = (unsigned)run + 1;
    size_t count = list_choices(choices, ports < 4), tables = 1;
    size_t stride = table_stride(ports, tester->percent);

    start->shape.ports = ports;
    start->shape.sets = 1;
    start->shape.lines = 2;
    for (unsigned port = 0; port < ports; port++)
        tables *= count;
    for (size_t table = 0; table < tables; table += stride) {
        size_t rest = table;

        for (unsigned port = 0; port < ports; port++, rest /= count) {
            start->states[port] = choices[rest % count].state;
            start->tags[port] = choices[rest % count].tag;
        }
        if (!try_under_ranges(tester, table / stride))
            return 0;
    }
    return 1;
}

/* Histories. */

/* How often the audit is held against the second model's, which looks at every line. */
static uint64_t audit_every(struct second_shape shape)
{
    if (shape.lines <= 16)
        return 1;
    return shape.lines <= 128 ? 8 : 64;
}

void begin_traffic(struct tester *tester, struct second_shape shape)
{
    struct second_model *start = &tester->history.start;

    traffic_begin(&tester->traffic, &tester->generator, shape);
    start->shape = shape;
    traffic_fill_memory(&tester->traffic, &tester->generator, start);
    tester->history.skew = generator_below(&tester->generator, 8);
    tester->history.audit_every = audit_every(shape);
}

int report_history(struct tester *tester)
{
    printf("  order %zu of the history differs; cut down:\n", tester->history.count);
    history_shrink(&tester->history, &tester->pair);
    history_print(&tester->history, &tester->pair);
    return 0;
}

int add_orders(struct tester *tester, size_t orders)
{
    struct pair *pair = &tester->pair;

    for (size_t k = 0; k < orders; k++) {
        uint64_t word, operand;

        /* A long history changes its habits. */
        if (k % 1000 == 999)
            traffic_begin(&tester->traffic, &tester->generator, tester->traffic.shape);
        word = traffic_order(&tester->traffic, &tester->generator, &pair->second);
        operand = traffic_operand(&tester->traffic, &tester->generator, &pair->second, word);
        if (!history_add(&tester->history, pair, word, operand))
            return 0;
    }
    return 1;
}

int run_history(struct tester *tester, int fresh, size_t orders)
{
    struct pair *pair = &tester->pair;
    struct history *history = &tester->history;

    history->fresh = fresh;
    if (history_begin(history, pair) && add_orders(tester, orders) && history_end(history, pair))
        return 1;
    return report_history(tester);
}

static int fresh_history(struct tester *tester, struct second_shape shape, size_t orders)
{
    begin_traffic(tester, shape);
    traffic_fill_tables(&tester->generator, &tester->history.start);
    return run_history(tester, 1, orders);
}

static int small_histories(struct tester *tester, uint64_t run)
{
    (void)run;
    return fresh_history(tester, traffic_small_shape(&tester->generator), 60 + generator_below(&tester->generator, 200));
}

static int all_histories(struct tester *tester, uint64_t run)
{
    (void)run;
    return fresh_history(tester, traffic_any_shape(&tester->generator), 100 + generator_below(&tester->generator, 500));
}

/* A few shapes that stand at an edge, each run longer. */
static int long_histories(struct tester *tester, uint64_t run)
{
    static const struct second_shape shapes[6] = {SHAPE(3, 2, 7),  SHAPE(1, 1, 1),   SHAPE(8, 1, 16),
                                                  SHAPE(2, 64, 1), SHAPE(8, 64, 64), SHAPE(8, 64, 4096)};
    struct second_shape shape = shapes[run % 6];

    if (run % 6 > 0)
        traffic_ranges(&tester->generator, &shape);
    return fresh_history(tester, shape, shape.lines > 1000 ? LONGEST_HISTORY / 3 : LONGEST_HISTORY);
}

/* Damage to the tables of a history, then orders, then damage again: on tables that fail the audit too. */
static int damaged_tables(struct tester *tester, uint64_t run)
{
    struct second_shape shape = run % 4 < 3 ? traffic_small_shape(&tester->generator) : traffic_any_shape(&tester->generator);
    unsigned rounds = 1 + generator_below(&tester->generator, 12);

    if (!fresh_history(tester, shape, 20 + generator_below(&tester->generator, 60)))
        return 0;
    for (unsigned round = 0; round < rounds; round++) {
        unsigned damages = 1 + generator_below(&tester->generator, 3);

        tester->history.start = tester->pair.second;
        for (unsigned k = 0; k < damages; k++)
            traffic_damage(&tester->traffic, &tester->generator, &tester->history.start);
        if (!run_history(tester, 0, generator_below(&tester->generator, 12)))
            return 0;
    }
    return 1;
}

static int noise(struct tester *tester, uint64_t run)
{
    struct second_shape shape = run % 8 < 7 ? traffic_small_shape(&tester->generator) : traffic_any_shape(&tester->generator);

    begin_traffic(tester, shape);
    tester->traffic.odd_percent = 20;
    traffic_noise(&tester->traffic, &tester->generator, &tester->history.start);
    return run_history(tester, 0, 10 + generator_below(&tester->generator, 30));
}

/* Device writes, number by number, worked out by hand from documents 01 and 02. */

/* An order at the shape 2/1/2, its answer, and every entry and word of memory after it. */
struct device_literal {
    uint64_t word, operand;
    struct second_answer answer;
    struct entry entries[2]; /* of ports 0 and 1 */
    uint64_t memory[2];
};

/* From fresh on memory 5 and 7. A device write is a word that ends in 5 or, under mode 1, in D. */
static const struct device_literal device_list[] = {
    /* Nobody holds the line: the word is memory's, and its read counts under every mask. Port, mode and compare value
       of the second one are ignored. */
    {0xFF05, 0x0807060504030201, {0, 0, 0, 1, 1}, {{0, 0, 0}, {0, 0, 0}}, {0x0807060504030201, 7}},
    {0xFFFFFFFF000081FD, 0xA8A7A6A5A4A3A2A1, {0, 0, 0, 1, 1}, {{0, 0, 0}, {0, 0, 0}}, {0xA8070605040302A1, 7}},
    {0x10005, 0xA8A7A6A5A4A3A2A1, {0, 0, 0, 1, 1}, {{0, 0, 0}, {0, 0, 0}}, {0xA8070605040302A1, 7}},
    /* Port 0 holds it in E, which is no owner; then port 1 does. The copies become I, and keep tag and data. */
    {0x08, 0, {0, 0xA8070605040302A1, 0, 1, 0}, {{10, 0, 0xA8070605040302A1}, {0, 0, 0}}, {0xA8070605040302A1, 7}},
    {0xF005, 0xB8B7B6B5B4B3B2B1, {0, 0, 0, 1, 1}, {{0, 0, 0xA8070605040302A1}, {0, 0, 0}}, {0xB8B7B6B5040302A1, 7}},
    {0x04, 0, {0, 0xB8B7B6B5040302A1, 0, 1, 0}, {{0, 0, 0xA8070605040302A1}, {0, 0, 0}}, {0xB8B7B6B5040302A1, 7}},
    {0xFF05, 0x10, {0, 0, 0, 1, 1}, {{0, 0, 0xA8070605040302A1}, {0, 0, 0}}, {0x10, 7}},
    {0x18, 0, {0, 0x10, 0, 1, 0}, {{0, 0, 0xA8070605040302A1}, {10, 0, 0x10}}, {0x10, 7}},
    {0xFF05, 0x11, {0, 0, 0, 1, 1}, {{0, 0, 0xA8070605040302A1}, {0, 0, 0x10}}, {0x11, 7}},
    /* Both hold it in S, in write through. */
    {0x00, 0, {0, 0x11, 0, 1, 0}, {{2, 0, 0x11}, {0, 0, 0x10}}, {0x11, 7}},
    {0x10, 0, {0, 0x11, 0, 1, 0}, {{1, 0, 0x11}, {1, 0, 0x11}}, {0x11, 7}},
    {0x0205, 0x2233, {0, 0, 0, 1, 1}, {{0, 0, 0x11}, {0, 0, 0x11}}, {0x2211, 7}},
    /* Both hold it in S, in write back; no byte is the device's. */
    {0x08, 0, {0, 0x2211, 0, 1, 0}, {{10, 0, 0x2211}, {0, 0, 0x11}}, {0x2211, 7}},
    {0x18, 0, {0, 0x2211, 0, 1, 0}, {{9, 0, 0x2211}, {9, 0, 0x2211}}, {0x2211, 7}},
    {0x0D, 0xFFFF, {0, 0, 0, 1, 1}, {{0, 0, 0x2211}, {0, 0, 0x2211}}, {0x2211, 7}},
    /* Port 1 holds it in O and port 0 in S: the owner's word is merged, and memory is not read. */
    {0x08, 0, {0, 0x2211, 0, 1, 0}, {{10, 0, 0x2211}, {0, 0, 0x2211}}, {0x2211, 7}},
    {0x18, 0, {0, 0x2211, 0, 1, 0}, {{9, 0, 0x2211}, {9, 0, 0x2211}}, {0x2211, 7}},
    {0xFF19, 0x4455, {0, 0, 0, 0, 0}, {{9, 0, 0x4455}, {11, 0, 0x4455}}, {0x2211, 7}},
    {0x0205, 0x6677, {0, 0, 0, 0, 1}, {{0, 0, 0x4455}, {0, 0, 0x4455}}, {0x6655, 7}},
    /* Then the device and both ports read it. */
    {0x04, 0, {0, 0x6655, 0, 1, 0}, {{0, 0, 0x4455}, {0, 0, 0x4455}}, {0x6655, 7}},
    {0x18, 0, {0, 0x6655, 0, 1, 0}, {{0, 0, 0x4455}, {10, 0, 0x6655}}, {0x6655, 7}},
    {0x00, 0, {0, 0x6655, 0, 1, 0}, {{1, 0, 0x6655}, {1, 0, 0x6655}}, {0x6655, 7}},
    /* Port 0 holds line 1 in M; port 1's entry at the index is of line 0, and stays. */
    {0x1FF09, 0x700, {0, 0, 0, 1, 0}, {{12, 1, 0x700}, {1, 0, 0x6655}}, {0x6655, 7}},
    {0x10105, 0x88, {0, 0, 0, 0, 1}, {{0, 1, 0x700}, {1, 0, 0x6655}}, {0x6655, 0x788}},
    /* Port 0 holds line 0 in M, and keeps it at a device write to line 1; under mask 0 the owner's word is stored. */
    {0xFF09, 0x900, {0, 0, 0, 1, 0}, {{12, 0, 0x900}, {0, 0, 0x6655}}, {0x6655, 0x788}},
    {0x1FF05, 0xAA, {0, 0, 0, 1, 1}, {{12, 0, 0x900}, {0, 0, 0x6655}}, {0x6655, 0xAA}},
    {0x05, 0xFFFF, {0, 0, 0, 0, 1}, {{0, 0, 0x900}, {0, 0, 0x6655}}, {0x900, 0xAA}},
    /* Port 1 holds it in M, and all bytes are the device's. A swap finds them, and a flush stores over them. */
    {0xFF19, 0xB00, {0, 0, 0, 1, 0}, {{0, 0, 0x900}, {12, 0, 0xB00}}, {0x900, 0xAA}},
    {0xFF05, 0xC00, {0, 0, 0, 0, 1}, {{0, 0, 0x900}, {0, 0, 0xB00}}, {0xC00, 0xAA}},
    {0x00000C0000000F1A, 0xD, {0, 0xC00, 1, 1, 0}, {{0, 0, 0x900}, {12, 0, 0xD}}, {0xC00, 0xAA}},
    {0x13, 0, {0, 0, 0, 0, 1}, {{0, 0, 0x900}, {0, 0, 0xD}}, {0xD, 0xAA}},
    /* A line that there isn't is refused, whatever the port; kinds 6 and 7 come before that. */
    {0x2FF05, 0xEE, {6, 0, 0, 0, 0}, {{0, 0, 0x900}, {0, 0, 0xD}}, {0xD, 0xAA}},
    {0x2FFF5, 0xEE, {6, 0, 0, 0, 0}, {{0, 0, 0x900}, {0, 0, 0xD}}, {0xD, 0xAA}},
    {0xFFFFFFFFFFFFFFFD, 0xEE, {6, 0, 0, 0, 0}, {{0, 0, 0x900}, {0, 0, 0xD}}, {0xD, 0xAA}},
    {0xFF06, 0xEE, {4, 0, 0, 0, 0}, {{0, 0, 0x900}, {0, 0, 0xD}}, {0xD, 0xAA}},
    {0xFF07, 0xEE, {4, 0, 0, 0, 0}, {{0, 0, 0x900}, {0, 0, 0xD}}, {0xD, 0xAA}},
    {0x2FF06, 0xEE, {4, 0, 0, 0, 0}, {{0, 0, 0x900}, {0, 0, 0xD}}, {0xD, 0xAA}},
    {0xFFFFFFFFFFFFFFFF, 0xEE, {4, 0, 0, 0, 0}, {{0, 0, 0x900}, {0, 0, 0xD}}, {0xD, 0xAA}},
    /* A port that there isn't is not refused. */
    {0xFFF5, 0xEE, {0, 0, 0, 1, 1}, {{0, 0, 0x900}, {0, 0, 0xD}}, {0xEE, 0xAA}},
    {0x01FF2D, 0xEE, {0, 0, 0, 1, 1}, {{0, 0, 0x900}, {0, 0, 0xD}}, {0xEE, 0xEE}},
};

enum { DEVICE_ORDERS = sizeof device_list / sizeof device_list[0] };

const struct second_model *lent_numbers(const struct pair *pair)
{
    static struct second_model lent;

    lent.shape = pair->second.shape;
    second_decode(&lent, pair->slices[MEMORY].bytes, pair->slices[TAGS].bytes, pair->slices[STATES].bytes,
                  pair->slices[DATA].bytes);
    return &lent;
}

int answer_is(const struct pair *pair, const struct second_answer *answer)
{
    struct second_answer given = second_decode_answer(pair->slices[RESULT].bytes);

    return memcmp(&given, answer, sizeof given) == 0;
}

int tables_are(const struct pair *pair, const struct entry entries[2], const uint64_t memory[2])
{
    const struct second_model *lent = lent_numbers(pair);

    for (unsigned port = 0; port < 2; port++) {
        const struct entry *entry = &entries[port];

        if (lent->states[port] != entry->state || lent->tags[port] != entry->tag || lent->data[port] != entry->data)
            return 0;
    }
    return lent->memory[0] == memory[0] && lent->memory[1] == memory[1];
}

static int is_device_literal(const struct tester *tester, const struct device_literal *literal)
{
    const struct flat_memory *flat = &tester->history.flat;
    unsigned line = (unsigned)(literal->word >> 16 & 65535);

    if (!tables_are(&tester->pair, literal->entries, literal->memory))
        return 0;
    /* The flat memory has the same word after a device write, under mark 0. */
    if ((literal->word & 7) == SECOND_DEVICE_WRITE && literal->answer.refusal == 0 &&
        (flat->words[line] != literal->memory[line] || flat->marks[line] != 0))
        return 0;
    return answer_is(&tester->pair, &literal->answer);
}

/* Carries one of the list out and holds it against the list; the audit says yes after it. */
static int is_as_worked_out(struct tester *tester, size_t k)
{
    struct pair *pair = &tester->pair;

    if (!history_add(&tester->history, pair, device_list[k].word, device_list[k].operand))
        return 0;
    if (!is_device_literal(tester, &device_list[k])) {
        snprintf(pair->difference, sizeof pair->difference, "  order %zu of the list is not as worked out\n", k + 1);
        return 0;
    }
    return history_end(&tester->history, pair);
}

static int device_orders(struct tester *tester)
{
    size_t k = 0;

    if (begin_at_five_and_seven(tester)) {
        while (k < DEVICE_ORDERS && is_as_worked_out(tester, k))
            k++;
    }
    if (k < DEVICE_ORDERS)
        history_print(&tester->history, &tester->pair);
    return k == DEVICE_ORDERS;
}

/* One order on tables that no history leads to. Entry k has the word 0x1100 * (k + 1), and memory 5, 7, 11 and 13. */
struct device_case {
    struct second_shape shape;
    unsigned states[4];
    uint32_t tags[4];
    uint64_t word; /* the operand is 0xFF */
    struct second_answer answer;
    unsigned after[4];  /* the states; tags and data stay */
    uint64_t memory[2]; /* afterwards; the other lines stay */
};

static const struct device_case device_case_list[] = {
    /* Of several owners the lowest-numbered one gives the word, and every holder becomes I. */
    {SHAPE(3, 1, 2), {9, 11, 12}, {0, 0, 0}, 0x0105, {0, 0, 0, 0, 1}, {0, 0, 0}, {0x22FF, 7}},
    {SHAPE(3, 1, 2), {12, 12, 11}, {0, 0, 0}, 0x0105, {0, 0, 0, 0, 1}, {0, 0, 0}, {0x11FF, 7}},
    {SHAPE(3, 1, 2), {10, 2, 12}, {0, 0, 0}, 0x0105, {0, 0, 0, 0, 1}, {0, 0, 0}, {0x33FF, 7}},
    {SHAPE(4, 1, 2), {2, 11, 11, 11}, {0, 0, 0, 0}, 0x0005, {0, 0, 0, 0, 1}, {0, 0, 0, 0}, {0x2200, 7}},
    /* Owners of another line don't count, nor do entries in I, and both stay. */
    {SHAPE(3, 1, 2), {12, 11, 9}, {1, 0, 0}, 0x0105, {0, 0, 0, 0, 1}, {12, 0, 0}, {0x22FF, 7}},
    {SHAPE(3, 1, 2), {11, 9, 12}, {1, 0, 1}, 0x10105, {0, 0, 0, 0, 1}, {0, 9, 0}, {5, 0x11FF}},
    {SHAPE(3, 1, 2), {0, 12, 12}, {0, 1, 0}, 0x0105, {0, 0, 0, 0, 1}, {0, 12, 0}, {0x33FF, 7}},
    {SHAPE(3, 1, 2), {9, 1, 10}, {1, 1, 1}, 0x0105, {0, 0, 0, 1, 1}, {9, 1, 10}, {0xFF, 7}},
    {SHAPE(2, 2, 4), {12, 0, 9, 0}, {1, 0, 0, 0}, 0x0105, {0, 0, 0, 1, 1}, {12, 0, 0, 0}, {0xFF, 7}},
    /* Without an owner the word is memory's, also where the holders have others. */
    {SHAPE(3, 1, 2), {1, 9, 2}, {0, 0, 0}, 0x0105, {0, 0, 0, 1, 1}, {0, 0, 0}, {0xFF, 7}},
    {SHAPE(3, 1, 2), {10, 10, 9}, {0, 0, 0}, 0x0005, {0, 0, 0, 1, 1}, {0, 0, 0}, {5, 7}},
    {SHAPE(3, 1, 2), {10, 0, 9}, {0, 0, 0}, 0xFF05, {0, 0, 0, 1, 1}, {0, 0, 0}, {0xFF, 7}},
    /* The tag of an entry in I is not asked, nor are entries at another index. */
    {SHAPE(3, 1, 2), {0, 9, 0}, {9, 0, 0}, 0x0105, {0, 0, 0, 1, 1}, {0, 0, 0}, {0xFF, 7}},
    {SHAPE(2, 2, 4), {11, 8, 9, 13}, {0, 0, 0, 0}, 0x0105, {0, 0, 0, 0, 1}, {0, 8, 0, 13}, {0x11FF, 7}},
    {SHAPE(2, 2, 3), {0, 9, 0, 0}, {0, 1, 0, 0}, 0x0105, {0, 0, 0, 1, 1}, {0, 9, 0, 0}, {0xFF, 7}},
    /* Refusal 8: at any port a byte that is no state, or a home line that there isn't; also of no holder. */
    {SHAPE(3, 1, 2), {8, 0, 0}, {0, 0, 0}, 0x0105, {8, 0, 0, 0, 0}, {8, 0, 0}, {5, 7}},
    {SHAPE(3, 1, 2), {12, 0, 13}, {0, 0, 0}, 0x0105, {8, 0, 0, 0, 0}, {12, 0, 13}, {5, 7}},
    {SHAPE(3, 1, 2), {0, 255, 0}, {0, 1, 0}, 0x0005, {8, 0, 0, 0, 0}, {0, 255, 0}, {5, 7}},
    {SHAPE(3, 1, 2), {9, 11, 0}, {0, 2, 0}, 0x0105, {8, 0, 0, 0, 0}, {9, 11, 0}, {5, 7}},
    {SHAPE(3, 1, 2), {0, 0, 1}, {0, 0, 0xFFFFFFFF}, 0xFF05, {8, 0, 0, 0, 0}, {0, 0, 1}, {5, 7}},
    {SHAPE(2, 2, 4), {11, 8, 9, 13}, {0, 0, 0, 0}, 0x10105, {8, 0, 0, 0, 0}, {11, 8, 9, 13}, {5, 7}},
    {SHAPE(2, 2, 3), {0, 9, 0, 0}, {0, 1, 0, 0}, 0x10105, {8, 0, 0, 0, 0}, {0, 9, 0, 0}, {5, 7}},
    /* Of two refusals the first: 4 before 6 and 8, 6 before 8. The port is not asked, so that 5 is none of them. */
    {SHAPE(3, 1, 2), {0, 3, 0}, {0, 0, 0}, 0x01FD, {8, 0, 0, 0, 0}, {0, 3, 0}, {5, 7}},
    {SHAPE(3, 1, 2), {0, 3, 0}, {0, 0, 0}, 0x20105, {6, 0, 0, 0, 0}, {0, 3, 0}, {5, 7}},
    {SHAPE(3, 1, 2), {0, 3, 0}, {0, 0, 0}, 0x201F5, {6, 0, 0, 0, 0}, {0, 3, 0}, {5, 7}},
    {SHAPE(3, 1, 2), {0, 3, 0}, {0, 0, 0}, 0x0106, {4, 0, 0, 0, 0}, {0, 3, 0}, {5, 7}},
    {SHAPE(3, 1, 2), {0, 3, 0}, {0, 0, 0}, 0x201F7, {4, 0, 0, 0, 0}, {0, 3, 0}, {5, 7}},
};

enum { DEVICE_CASES = sizeof device_case_list / sizeof device_case_list[0] };

static int is_device_case(const struct pair *pair, const struct device_case *wanted)
{
    const struct second_model *lent = lent_numbers(pair);

    for (unsigned entry = 0; entry < wanted->shape.ports * wanted->shape.sets; entry++) {
        if (lent->states[entry] != wanted->after[entry] || lent->tags[entry] != wanted->tags[entry])
            return 0;
        if (lent->data[entry] != 0x1100 * (entry + 1))
            return 0;
    }
    for (unsigned line = 0; line < wanted->shape.lines; line++) {
        if (lent->memory[line] != (line < 2 ? wanted->memory[line] : line == 2 ? 11 : 13))
            return 0;
    }
    return answer_is(pair, &wanted->answer);
}

static int device_case(struct tester *tester, size_t k)
{
    static const uint64_t memory[4] = {5, 7, 11, 13};
    const struct device_case *chosen = &device_case_list[k];
    struct second_model *start = &tester->history.start;
    int as_expected;

    start->shape = chosen->shape;
    memcpy(start->memory, memory, sizeof memory);
    for (unsigned entry = 0; entry < 4; entry++) {
        start->states[entry] = (uint8_t)chosen->states[entry];
        start->tags[entry] = chosen->tags[entry];
        start->data[entry] = 0x1100 * (entry + 1);
    }
    as_expected = add_to_start(tester, chosen->word, 0xFF);
    if (as_expected && is_device_case(&tester->pair, chosen))
        return 1;
    if (as_expected)
        printf("  case %zu of the list is not as worked out\n", k + 1);
    history_print(&tester->history, &tester->pair);
    return 0;
}

/* Run 0: the orders from fresh. Run r: case r of the others. */
static int device_numbers(struct tester *tester, uint64_t run)
{
    return run == 0 ? device_orders(tester) : device_case(tester, (size_t)(run - 1) % DEVICE_CASES);
}

/* What a device wrote in the middle of a history. */

static int has_bytes(uint64_t word, uint64_t bytes, unsigned mask)
{
    for (unsigned k = 0; k < 8; k++) {
        if ((mask >> k & 1) && (word >> 8 * k & 255) != (bytes >> 8 * k & 255))
            return 0;
    }
    return 1;
}

/* Adds a read, by a port or by a device, that is to give the bytes. */
static int reads_bytes(struct tester *tester, uint64_t read, uint64_t bytes, unsigned mask)
{
    struct pair *pair = &tester->pair;

    if (!history_add(&tester->history, pair, read, 0))
        return report_history(tester);
    if (has_bytes(second_decode_answer(pair->slices[RESULT].bytes).value, bytes, mask) &&
        tester->history.flat.marks[read >> 16 & 65535] == 0)
        return 1;
    snprintf(pair->difference, sizeof pair->difference,
             "  a device wrote 0x%" PRIx64 " under mask 0x%02x, and its bytes are not read\n", bytes, mask);
    history_print(&tester->history, pair);
    return 0;
}

/* Adds some random orders, but none that may write the line. */
static int add_orders_beside(struct tester *tester, unsigned line)
{
    for (unsigned k = generator_below(&tester->generator, 4); k > 0; k--) {
        uint64_t word = traffic_order(&tester->traffic, &tester->generator, &tester->pair.second);
        uint64_t operand = traffic_operand(&tester->traffic, &tester->generator, &tester->pair.second, word);
        unsigned kind = word & 7;
        int may_write = kind == SECOND_WRITE || kind == SECOND_SWAP || kind == SECOND_DEVICE_WRITE;

        if (may_write && (word >> 16 & 65535) == line)
            continue;
        if (!history_add(&tester->history, &tester->pair, word, operand))
            return report_history(tester);
    }
    return 1;
}

/* A device writes a line. Until the line is next written the device reads what it wrote, and so does every port, in any
   mode, whatever orders come between. */
static int fill_line(struct tester *tester)
{
    struct generator *generator = &tester->generator;
    unsigned line = tester->traffic.hot[generator_below(generator, tester->traffic.hot_count)];
    unsigned mask = generator_percent(generator, 30) ? 0xFF : generator_below(generator, 256);
    uint64_t bytes = generator_word(generator), ignored = generator_word(generator);
    uint64_t write = traffic_word(SECOND_DEVICE_WRITE, ignored, ignored >> 1, mask, line, ignored >> 32);
    uint64_t device_read = traffic_word(SECOND_DEVICE_READ, ignored, ignored >> 1, 0, line, 0);

    if (!history_add(&tester->history, &tester->pair, write, bytes))
        return report_history(tester);
    if (!reads_bytes(tester, device_read, bytes, mask))
        return 0;
    for (unsigned port = 0; port < tester->traffic.shape.ports; port++) {
        uint64_t mode = generator_below(generator, 2);

        if (!add_orders_beside(tester, line) ||
            !reads_bytes(tester, traffic_word(SECOND_READ, mode, port, 0, line, 0), bytes, mask))
            return 0;
    }
    return add_orders_beside(tester, line) && reads_bytes(tester, device_read, bytes, mask);
}

static int device_fills(struct tester *tester, uint64_t run)
{
    struct generator *generator = &tester->generator;

    begin_traffic(tester, run % 4 < 3 ? traffic_small_shape(generator) : traffic_any_shape(generator));
    traffic_fill_tables(generator, &tester->history.start);
    tester->history.fresh = 1;
    /* No audit after an order: it would take the place of the answer that is looked at. */
    tester->history.audit_every = LONGEST_HISTORY;
    if (!history_begin(&tester->history, &tester->pair))
        return report_history(tester);
    for (unsigned round = 0; round < 6; round++) {
        if (!add_orders(tester, generator_below(generator, 30)))
            return report_history(tester);
        if (!fill_line(tester))
            return 0;
        if (!history_end(&tester->history, &tester->pair))
            return report_history(tester);
    }
    return 1;
}

/* Shapes. */

/* A number of lines for each of many runs: every small one, many of the rest, the largest. */
static uint64_t lines_of_step(uint64_t step)
{
    if (step < 130)
        return step + 1;
    return step < 194 ? 130 + (step - 130) * 62 : 4096 - (step - 194);
}

/* Run r: the shapes with one number of lines. A short history on each. */
static int every_shape(struct tester *tester, uint64_t run)
{
    for (unsigned ports = 1; ports <= 8; ports++) {
        for (unsigned log = 0; log <= 6; log++) {
            struct second_shape shape = SHAPE(ports, 1u << log, lines_of_step(run));

            traffic_ranges(&tester->generator, &shape);
            if (!fresh_history(tester, shape, 3 + generator_below(&tester->generator, 5)))
                return 0;
        }
    }
    return 1;
}

/* Calls with lengths and shapes that are refused. */

/* Makes the three calls with the slices as placed. Results of the right length and of others. */
static int make_calls(struct tester *tester, struct second_shape shape)
{
    static const size_t results[8] = {40, 1, 0, 39, 41, 2, 8, 80};
    static const uint64_t words[2] = {0x0F08, 0xFF05}; /* a read, and a device write */
    struct pair *pair = &tester->pair;
    uint64_t word = words[generator_below(&tester->generator, 2)];

    if (generator_percent(&tester->generator, 50))
        word = generator_word(&tester->generator);
    if (!pair_call(pair, FRESH, shape, 0, 0))
        return report_call(tester, "fresh", shape, 0, 0);
    for (size_t k = 0; k < 8; k++) {
        if (generator_percent(&tester->generator, 50))
            pair_place(pair, RESULT, results[k], generator_below(&tester->generator, 8));
        else if (results[k] == 0)
            pair_place_null(pair, RESULT);
        else
            continue;
        if (!pair_call(pair, STEP, shape, word, 5))
            return report_call(tester, "step", shape, word, 5);
        if (!pair_call(pair, AUDIT, shape, 0, 0))
            return report_call(tester, "audit", shape, 0, 0);
    }
    return 1;
}

static size_t wrong_length(struct generator *generator, size_t length, size_t entry)
{
    size_t lengths[9] = {length - 1, length + 1, length - entry, length + entry, length / 2, 2 * length, 0, 1, entry};
    size_t chosen = lengths[generator_below(generator, 9)];

    if (generator_percent(generator, 10))
        chosen = generator_below(generator, 3 * length);
    return chosen <= LENT_CAPACITY ? chosen : length + 1;
}

/* An empty slice is sometimes NULL. */
void misplace(struct tester *tester, unsigned wrong)
{
    static const size_t entry_bytes[SLICES] = {8, 4, 1, 8, 0, 0, 4, 1, 8};

    for (unsigned s = 0; s < SLICES; s++) {
        size_t length = tester->pair.slices[s].length;

        if (!(wrong >> s & 1))
            continue;
        length = wrong_length(&tester->generator, length, entry_bytes[s]);
        if (length == 0 && generator_percent(&tester->generator, 50))
            pair_place_null(&tester->pair, (enum slice)s);
        else
            pair_place(&tester->pair, (enum slice)s, length, generator_below(&tester->generator, 8));
    }
}

/* Lends the slices of a shape, some with other lengths. */
static void place_wrongly(struct tester *tester, struct second_shape shape, unsigned wrong)
{
    struct second_model *start = &tester->history.start;

    start->shape = shape;
    traffic_fill_tables(&tester->generator, start);
    tester->pair.second = *start;
    pair_lend(&tester->pair, generator_below(&tester->generator, 8));
    misplace(tester, wrong);
}

/* One slice, several or none has another length than the shape gives; the results too. */
static int wrong_lengths(struct tester *tester, uint64_t run)
{
    struct generator *generator = &tester->generator;
    struct second_shape shape = run % 2 ? traffic_any_shape(generator) : traffic_small_shape(generator);

    place_wrongly(tester, shape, run % 3 ? 1u << generator_below(generator, 4) : generator_below(generator, 16));
    if (generator_percent(generator, 30))
        traffic_ranges_beyond(generator, &shape);
    return make_calls(tester, shape);
}

/* Ranges for a call that is refused or not: within the lines that there may be at most, beyond, or any numbers. */
static void put_ranges(struct tester *tester, struct second_shape *shape)
{
    struct second_shape largest = SHAPE(8, 64, 4096);

    if (shape->lines >= 1 && shape->lines <= 4096)
        largest.lines = shape->lines;
    if (generator_percent(&tester->generator, 50))
        traffic_ranges(&tester->generator, &largest);
    else
        traffic_ranges_beyond(&tester->generator, &largest);
    shape->scratch = largest.scratch;
    shape->device = largest.device;
}

/* All slices empty, with and without NULL, under shapes in range and out of it. */
static int empty_slices(struct tester *tester, uint64_t run)
{
    static const struct second_shape shapes[4] = {SHAPE(1, 1, 1), SHAPE(8, 64, 4096), SHAPE(0, 0, 0), SHAPE(9, 1, 1)};
    struct second_shape shape = shapes[run % 4];

    for (unsigned nulls = 0; nulls < 32; nulls++) {
        for (unsigned s = 0; s <= RESULT; s++) {
            if (nulls >> s & 1)
                pair_place_null(&tester->pair, (enum slice)s);
            else
                pair_place(&tester->pair, (enum slice)s, 0, s);
        }
        if (nulls % 2)
            put_ranges(tester, &shape);
        if (!make_calls(tester, shape))
            return 0;
    }
    return 1;
}

static const uint64_t odd_ports[] = {0, 9, 10, 15, 16, 64, 255, 256, 257, UINT64_C(0x100000001), UINT64_C(0x100000008),
                                     UINT64_C(1) << 61, UINT64_C(1) << 63, UINT64_MAX, UINT64_MAX - 7};
static const uint64_t odd_sets[] = {0, 3, 5, 6, 7, 9, 12, 24, 33, 48, 63, 65, 96, 127, 128, 256, 257, 65536,
                                    UINT64_C(0x100000001), UINT64_C(0x100000040), UINT64_C(1) << 32,
                                    UINT64_C(1) << 60, UINT64_C(1) << 63, UINT64_MAX, UINT64_MAX - 63};
static const uint64_t odd_lines[] = {0, 4097, 4098, 8192, 65535, 65536, 65537, UINT64_C(0x100000001),
                                     UINT64_C(0x100001000), UINT64_C(1) << 61, (UINT64_C(1) << 61) + 1,
                                     UINT64_C(1) << 63, UINT64_MAX, UINT64_MAX - 4095};

/* A number out of its range, or now and then any 64 bits. */
static uint64_t odd_number(struct generator *generator, const uint64_t *numbers, size_t count)
{
    return generator_percent(generator, 10) ? generator_word(generator) : numbers[generator_below(generator, count)];
}

/* Shapes with numbers out of their ranges. The slices are those of a shape in range: of the shape itself with numbers
   cut to a few bits where that is one, so that a model that loses the upper bits would take the call. */
static int odd_shapes(struct tester *tester, uint64_t run)
{
    struct generator *generator = &tester->generator;
    struct second_shape lent = traffic_small_shape(generator), odd = lent;
    unsigned which = 1 + (unsigned)(run % 7);

    if (which & 1)
        odd.ports = odd_number(generator, odd_ports, sizeof odd_ports / sizeof odd_ports[0]);
    if (which & 2)
        odd.sets = odd_number(generator, odd_sets, sizeof odd_sets / sizeof odd_sets[0]);
    if (which & 4)
        odd.lines = odd_number(generator, odd_lines, sizeof odd_lines / sizeof odd_lines[0]);
    if ((uint32_t)odd.ports - 1 < 8)
        lent.ports = (uint32_t)odd.ports;
    if ((uint32_t)odd.lines - 1 < 4096)
        lent.lines = (uint32_t)odd.lines;
    if ((uint32_t)odd.sets == 1 || (uint32_t)odd.sets == 64)
        lent.sets = (uint32_t)odd.sets;
    place_wrongly(tester, lent, run % 5 == 0 ? generator_below(generator, 16) : 0);
    if (generator_percent(generator, 40))
        put_ranges(tester, &odd);
    return make_calls(tester, odd);
}

/* Shapes just out of range with exactly the lengths that their numbers would give. */
static int shapes_with_their_lengths(struct tester *tester, uint64_t run)
{
    static const struct second_shape shapes[] = {
        SHAPE(0, 1, 1),   SHAPE(1, 0, 1),   SHAPE(1, 1, 0),    SHAPE(9, 1, 1),     SHAPE(9, 4, 9),  SHAPE(2, 3, 5),
        SHAPE(8, 65, 10), SHAPE(1, 128, 1), SHAPE(1, 1, 4097), SHAPE(8, 64, 4097), SHAPE(16, 2, 2),
    };
    struct second_shape shape = shapes[run % (sizeof shapes / sizeof shapes[0])];
    struct second_lengths lengths = second_lengths_of(shape, 0);
    size_t due[4] = {lengths.memory, lengths.tags, lengths.states, lengths.data};

    for (unsigned s = MEMORY; s <= DATA; s++)
        pair_place(&tester->pair, (enum slice)s, due[s], generator_below(&tester->generator, 8));
    if (run % 2)
        put_ranges(tester, &shape);
    return make_calls(tester, shape);
}

/* The groups. */

static const struct group groups[] = {
    {"the fourteen orders of document 01", fourteen_orders, 1, 0},
    {"every small table, every order", every_small_table, 4, 0},
    {"histories from fresh, small shapes", small_histories, 4000, 1},
    {"histories from fresh, all shapes", all_histories, 500, 1},
    {"long histories from fresh", long_histories, 6, 1},
    {"every number of ports and sets", every_shape, 202, 1},
    {"damaged tables", damaged_tables, 6000, 1},
    {"noise", noise, 12000, 1},
    {"wrong lengths", wrong_lengths, 8000, 1},
    {"empty slices", empty_slices, 4, 0},
    {"odd shapes", odd_shapes, 8000, 1},
    {"shapes just out of range", shapes_with_their_lengths, 110, 0},
    {"device writes, number by number", device_numbers, 1 + DEVICE_CASES, 0},
    {"what a device wrote is read", device_fills, 1000, 1},
    {"stores that store the same, number by number", stores_numbers, 2, 0},
    {"stores on lines in every state, and polling loops", stores_in_histories, 3000, 1},
    {"ranges, number by number", ranges_numbers, RANGES_PARTS, 0},
    {"ranges are the modes of the orders in them", ranges_are_modes, 8000, 1},
    {"ranges that end beyond lines", ranges_refused, 12000, 1},
    {"a device reads the device range right", ranges_device, 2000, 1},
    {"ranges that change between orders", ranges_change, 3000, 1},
    {"empty ranges, wherever they start", ranges_empty, 800, 1},
    {"totals, number by number", totals_numbers, 3, 0},
    {"totals are the sums over the answers", totals_histories, 2000, 1},
    {"records of any totals", totals_records, 12000, 1},
    {"records and answers of other lengths", totals_lengths, 12000, 1},
    {"tables of the old edition, byte by byte", edition_numbers, EDITION_PARTS, 0},
    {"any sets, to the other edition and back", edition_sets, 100000, 1},
    {"conversions of other lengths and shapes", edition_lengths, 60000, 1},
    {"every small old set, and its audit", edition_every_set, 3, 0},
    {"converted sets pass the audit if they keep its rules", edition_audits, 100000, 1},
    {"orders on converted sets, and back", edition_orders, 20000, 1},
    {"swaps that fail, number by number", swaps_numbers, SWAPS_PARTS, 0},
    {"a swap that fails is a read", swaps_are_reads, 20000, 1},
    {"a swap that fails is counted as a swap", swaps_are_counted, 10000, 1},
    {"ports that fight for locks", swaps_for_locks, 8000, 1},
    {"orders after a swap that failed", swaps_before_others, 160, 1},
};

enum { GROUPS = sizeof groups / sizeof groups[0] };

static uint64_t runs_of(const struct group *group, uint64_t percent)
{
    uint64_t runs = group->scaled ? group->runs * percent / 100 : group->runs;

    return runs > 0 ? runs : 1;
}

/* One run of a group with its own generator. */
static int run_once(struct tester *tester, size_t number, uint64_t run)
{
    struct generator generator = {tester->seed * UINT64_C(0xD1342543DE82EF95) + number};

    tester->generator.state = generator_word(&generator) + run * UINT64_C(0xDA942042E4DD58B5);
    tester->history.totals = 0;
    if (groups[number].run(tester, run))
        return 1;
    printf("  again: --seed %" PRIu64 " --group '%s' --run %" PRIu64 "\n", tester->seed, groups[number].name, run);
    return 0;
}

static int run_group(struct tester *tester, size_t number)
{
    uint64_t runs = runs_of(&groups[number], tester->percent);
    uint64_t run = 0;

    while (run < runs && run_once(tester, number, run))
        run++;
    printf("%s %s: %s\n", run == runs ? "ok" : "FAILED", tester->name, groups[number].name);
    fflush(stdout);
    return run == runs;
}

/* Whether the run met everything that it is there to meet. */
static int met_everything(const struct tally *tally)
{
    int met = tally->swapped > 0 && tally->reads[0] > 0 && tally->reads[1] > 0 && tally->verdicts[0] > 0 &&
              tally->verdicts[1] > 0 && tally->devices_compared > 0 && tally->devices_not_compared > 0;

    for (int refusal = 2; refusal <= 8; refusal++)
        met = met && tally->step_refusals[refusal] > 0;
    for (int refusal = 2; refusal <= 3; refusal++)
        met = met && tally->fresh_refusals[refusal] > 0 && tally->audit_refusals[refusal] > 0;
    met = met && tally->fresh_refusals[12] > 0 && tally->step_refusals[12] > 0 && tally->audit_refusals[12] > 0;
    for (int kind = 0; kind < SECOND_KINDS; kind++)
        met = met && tally->kinds[kind] > 0;
    for (int writes = 0; writes < 3; writes++)
        met = met && tally->writes[writes] > 0;
    /* Device writes are to come up often, wherever their word is from. */
    for (int k = 0; k < 3; k++)
        met = met && tally->device_writes[k] >= 100 && tally->device_masks[k] >= 100;
    return met && tally->device_ports_beyond >= 100;
}

/* Stores in a mode that met an own state: those that stored the same, or those that changed the word. */
static uint64_t stores_met(const struct tally *tally, unsigned fresh, unsigned state, unsigned mode, unsigned changed)
{
    uint64_t met = 0;

    for (unsigned k = 0; k < 2 * SECOND_OTHERS; k++)
        met += tally->stores[fresh][state][k / 2][mode][k % 2][changed];
    return met;
}

/* How often the rarest of these came up, on tables that random traffic was let loose on. */
static uint64_t rarest_on_tables(const struct tally *tally)
{
    uint64_t rarest = UINT64_MAX;

    for (unsigned k = 0; k < 4 * TALLY_STATES; k++) {
        uint64_t met = stores_met(tally, 0, k / 4, k / 2 % 2, k % 2);

        rarest = met < rarest ? met : rarest;
    }
    return rarest;
}

/* What other ports may have of a line beside an own state, from I to M, in a history from fresh: a bit each for
   nothing, clean copies and an owner. */
static const unsigned others_beside[TALLY_STATES] = {7, 3, 1, 7, 1, 3, 1};

/* How often the rarest came up in histories from fresh, by what the others have too, and writes and swaps apart. */
static uint64_t rarest_from_fresh(const struct tally *tally)
{
    uint64_t rarest = UINT64_MAX;

    for (unsigned k = 0; k < 2 * TALLY_STATES * SECOND_OTHERS; k++) {
        unsigned mode = k % 2, others = k / 2 % SECOND_OTHERS, state = k / 2 / SECOND_OTHERS;
        const uint64_t *counts = &tally->stores[1][state][others][mode][0][0];

        for (unsigned n = 0; others_beside[state] >> others & 1 && n < 4; n++)
            rarest = counts[n] < rarest ? counts[n] : rarest;
    }
    return rarest;
}

/* Whether stores met everything, those that store the same and those that don't, the more often the longer the run; and
   refused ones. Every small table is tried with each of them in a group of its own, which is not counted here. */
static int met_all_stores(const struct tally *tally, uint64_t percent)
{
    int met = rarest_on_tables(tally) >= percent / 2 && rarest_from_fresh(tally) >= percent;

    for (int refusal = 5; refusal <= 9; refusal++)
        met = met && tally->same_refused[refusal] >= 5;
    for (int k = 0; k < 3; k++)
        met = met && tally->same_masks[k] >= 100;
    return met;
}

/* How often the rarest came up of swap misses that fail, on tables that pass the audit or on others. */
static uint64_t rarest_failed(const struct tally *tally, unsigned broken)
{
    const uint64_t *counts = &tally->failed_misses[broken][0][0][0];
    uint64_t rarest = UINT64_MAX;

    for (unsigned k = 0; k < 2 * SECOND_OTHERS * 2; k++)
        rarest = counts[k] < rarest ? counts[k] : rarest;
    return rarest;
}

/* Whether swap misses that fail met everything, the more often the longer the run. */
static int met_all_failed(const struct tally *tally, uint64_t percent)
{
    return rarest_failed(tally, 0) >= 10 * percent && rarest_failed(tally, 1) >= percent;
}

/* How often the rarest came up of accesses in and out of the ranges, by kind and the order's mode, and at edges. */
static uint64_t rarest_ranged(const struct tally *tally)
{
    const uint64_t *ranged = &tally->ranged[0][0][0][0], *edges = &tally->edges[0][0];
    uint64_t rarest = UINT64_MAX;

    for (unsigned k = 0; k < 2 * PLACES * 2 * 3; k++)
        rarest = ranged[k] < rarest ? ranged[k] : rarest;
    for (unsigned k = 0; k < 2 * 4; k++)
        rarest = edges[k] < rarest ? edges[k] : rarest;
    return rarest;
}

/* Whether ranges met everything, the more often the longer the run: refused ones from each call, by which of them ends
   beyond lines, beside each other refusal; sums that wrap, empty ones beyond lines, and such as end with the last. */
static int met_all_ranges(const struct tally *tally, uint64_t percent)
{
    int met = rarest_ranged(tally) >= 10 * percent && tally->device_range_reads >= 50 * percent &&
              tally->changed_ranges >= 50 * percent && tally->other_first[STEP_TOTALS][9] >= 5 * percent;

    for (int call = FRESH; call <= STEP_TOTALS; call++) {
        for (int place = IN_SCRATCH; place < PLACES; place++)
            met = met && tally->twelves[call][place] >= 5 * percent;
        met = met && tally->other_first[call][2] >= 2 * percent && tally->other_first[call][3] >= 2 * percent;
    }
    for (int refusal = 4; refusal <= 7; refusal++)
        met = met && tally->twelve_first[refusal] >= percent;
    for (int device = 0; device < 2; device++)
        met = met && tally->wraps[device] >= 5 * percent && tally->empty_beyond[device] >= 5 * percent &&
              tally->to_the_end[device] >= 5 * percent;
    return met;
}

/* Whether steps with a record met everything: each kind and refusal, each total at its limits, and other lengths. */
static int met_all_of_totals(const struct tally *tally)
{
    int met = tally->records_of_other_length >= 100 && tally->answers_of_other_length >= 20 &&
              tally->nines_unanswered >= 20 && tally->totals_swaps[0] >= 20 && tally->totals_swaps[1] >= 20;

    for (int refusal = 2; refusal <= 9; refusal++)
        met = met && tally->totals_refusals[refusal] >= 5;
    met = met && tally->totals_refusals[12] >= 5;
    for (int kind = 0; kind < SECOND_KINDS; kind++)
        met = met && tally->totals_kinds[kind] >= 20;
    for (int writes = 0; writes < 3; writes++)
        met = met && tally->totals_writes[writes] >= 20;
    for (int place = 0; place < SECOND_TOTALS; place++) {
        met = met && tally->brims[place] >= 20 && tally->last[place] > 0;
        met = met && tally->full[0][place] >= 12 && tally->full[1][place] >= 12;
    }
    return met;
}

/* Whether conversions met everything, both ways: each letter and refusal, each table with another length, 10 with a
   write-through entry on either side, and the way back. Random sets make these the more the longer the run. */
static int met_all_of_conversions(const struct tally *tally, uint64_t percent)
{
    int met = tally->conversions[0][11] == 0 && tally->conversions[1][11] >= 20 * percent;

    for (int way = 0; way < 2; way++) {
        met = met && tally->conversions[way][0] >= 50 * percent && tally->conversions[way][2] >= 20 * percent &&
              tally->conversions[way][3] >= 50 * percent && tally->conversions[way][10] >= 50 * percent &&
              tally->tens_over_through[way] >= 10 * percent && tally->there_and_back[way] >= 50 * percent;
        for (int letter = 0; letter < 5; letter++)
            met = met && tally->converted[way][letter] >= 500 * percent;
        for (int table = 0; table < 6; table++)
            met = met && tally->lengths_alone[way][table] >= 5 * percent;
    }
    return met;
}

/* Whether old sets kept the rules, and broke each of them alone; and whether orders were stepped on from them. */
static int met_all_rules(const struct tally *tally, uint64_t percent)
{
    int met = tally->old_verdicts[0] >= 50 * percent && tally->old_verdicts[1] >= 50 * percent &&
              tally->stepped >= 100 * percent && tally->stepped_back[0] >= 5 * percent &&
              tally->stepped_back[1] >= 5 * percent;

    for (int rule = 0; rule < SECOND_RULES; rule++)
        met = met && tally->old_rules[rule] >= 5 * percent;
    return met;
}

static void print_tally(const struct tally *tally, double seconds)
{
    printf("  %" PRIu64 " calls in %.1f s; step refused 2 to 8:", tally->calls, seconds);
    for (int refusal = 2; refusal <= 8; refusal++)
        printf(" %" PRIu64, tally->step_refusals[refusal]);
    printf("; accepted by kind:");
    for (int kind = 0; kind < SECOND_KINDS; kind++)
        printf(" %" PRIu64, tally->kinds[kind]);
    printf("\n  swapped %" PRIu64 "; memory writes 0, 1, 2: %" PRIu64 " %" PRIu64 " %" PRIu64, tally->swapped,
           tally->writes[0], tally->writes[1], tally->writes[2]);
    printf("; audits no, yes: %" PRIu64 " %" PRIu64 "; device reads under mark 0, 1: %" PRIu64 " %" PRIu64 "\n",
           tally->verdicts[0], tally->verdicts[1], tally->devices_compared, tally->devices_not_compared);
    printf("  device writes from an owner, from memory with holders, without: %" PRIu64 " %" PRIu64 " %" PRIu64,
           tally->device_writes[0], tally->device_writes[1], tally->device_writes[2]);
    printf("; masks 0x00, 0xFF, others: %" PRIu64 " %" PRIu64 " %" PRIu64 "; ports beyond: %" PRIu64 "\n",
           tally->device_masks[0], tally->device_masks[1], tally->device_masks[2], tally->device_ports_beyond);
}

static void print_numbers(const char *what, const uint64_t *numbers, int count)
{
    printf("%s", what);
    for (int k = 0; k < count; k++)
        printf(" %" PRIu64, numbers[k]);
}

static void print_totals_tally(const struct tally *tally)
{
    print_numbers("  with a record: refused 2 to 9:", tally->totals_refusals + 2, 8);
    print_numbers("; 12:", tally->totals_refusals + 12, 1);
    print_numbers("; accepted by kind:", tally->totals_kinds, SECOND_KINDS);
    print_numbers("; swaps failed, succeeded:", tally->totals_swaps, 2);
    print_numbers("\n  totals at 2^64 - 3, by place:", tally->brims, SECOND_TOTALS);
    print_numbers("; brought above it:", tally->last, SECOND_TOTALS);
    print_numbers("\n  alone at 2^64 - 2:", tally->full[0], SECOND_TOTALS);
    print_numbers("; at 2^64 - 1:", tally->full[1], SECOND_TOTALS);
    printf("\n  records of another length: %" PRIu64 "; answers: %" PRIu64 ", refused 9: %" PRIu64 "\n",
           tally->records_of_other_length, tally->answers_of_other_length, tally->nines_unanswered);
}

/* Stores that stored the same, by own state and mode; then how often the rarest came up, changed ones among them. */
static void print_stores(const struct tally *tally, unsigned fresh, uint64_t rarest)
{
    printf("  stored the same %s, own state 0 1 2 9 10 11 12", fresh ? "from fresh" : "on other tables");
    for (unsigned mode = 0; mode < 2; mode++) {
        uint64_t same[TALLY_STATES];

        for (unsigned state = 0; state < TALLY_STATES; state++)
            same[state] = stores_met(tally, fresh, state, mode, 0);
        print_numbers(mode ? ", back:" : ", through:", same, TALLY_STATES);
    }
    printf("; the rarest %" PRIu64 "\n", rarest);
}

static void print_stores_tally(const struct tally *tally)
{
    print_stores(tally, 1, rarest_from_fresh(tally));
    print_stores(tally, 0, rarest_on_tables(tally));
    print_numbers("  masks 0x00, 0xFF, others:", tally->same_masks, 3);
    print_numbers("; refused 5 to 9:", tally->same_refused + 5, 5);
    printf("\n");
}

/* Swap misses that fail, by mode and by what they find. */
static void print_failed(const struct tally *tally, unsigned broken)
{
    printf("  failed swap misses on tables that %s the audit, of nobody's, clean, owned lines",
           broken ? "fail" : "pass");
    for (unsigned mode = 0; mode < 2; mode++) {
        uint64_t met[SECOND_OTHERS];

        for (unsigned others = 0; others < SECOND_OTHERS; others++)
            met[others] = tally->failed_misses[broken][mode][others][0] + tally->failed_misses[broken][mode][others][1];
        print_numbers(mode ? ", back:" : ", through:", met, SECOND_OTHERS);
    }
    printf("; the rarest %" PRIu64 "\n", rarest_failed(tally, broken));
}

static void print_ranges_tally(const struct tally *tally)
{
    static const char *const calls[4] = {"  fresh refused 12", "; step", "; audit", "; with a record"};

    for (int call = FRESH; call <= STEP_TOTALS; call++) {
        print_numbers(calls[call], tally->twelves[call] + IN_SCRATCH, 3);
        print_numbers(", 2 and 3 before it", tally->other_first[call] + 2, 2);
    }
    print_numbers("\n  9 before 12:", &tally->other_first[STEP_TOTALS][9], 1);
    print_numbers("; 12 before 4 to 7:", tally->twelve_first + 4, 4);
    print_numbers("; sums that wrap:", tally->wraps, 2);
    print_numbers("; empty beyond lines:", tally->empty_beyond, 2);
    print_numbers("; up to the last line:", tally->to_the_end, 2);
    print_numbers("\n  edges of scratch:", tally->edges[0], 4);
    print_numbers("; of the device range:", tally->edges[1], 4);
    print_numbers("; device reads in it:", &tally->device_range_reads, 1);
    print_numbers("; changes:", &tally->changed_ranges, 1);
    printf("; the rarest access %" PRIu64 "\n", rarest_ranged(tally));
}

static void print_edition_tally(const struct tally *tally)
{
    for (int way = 0; way < 2; way++) {
        print_numbers(way ? "  to old: accepted" : "  from old: accepted", tally->conversions[way], 1);
        print_numbers("; refused 2, 3:", tally->conversions[way] + 2, 2);
        print_numbers("; 10, 11:", tally->conversions[way] + 10, 2);
        print_numbers("; I, S, E, O, M:", tally->converted[way], 5);
        print_numbers("; 3 for one table:", tally->lengths_alone[way], 6);
        print_numbers("; and back:", &tally->there_and_back[way], 1);
        printf("\n");
    }
    print_numbers("  10 after and before a write-through entry:", tally->tens_over_through, 2);
    print_numbers("; old sets that break a rule, that keep all:", tally->old_verdicts, 2);
    print_numbers("\n  for one rule alone (bytes, homes, words, E and M, O, memory):", tally->old_rules, SECOND_RULES);
    print_numbers("; orders on converted sets:", &tally->stepped, 1);
    print_numbers("; then to old, refused 11:", tally->stepped_back, 2);
    printf("\n");
}

static int run_all(struct tester *tester)
{
    clock_t start = clock();
    int failed = 0, met;

    for (size_t number = tester->from; number < GROUPS && !(failed && tester->first); number++)
        failed += !run_group(tester, number);
    print_tally(&tester->pair.tally, (double)(clock() - start) / CLOCKS_PER_SEC);
    print_stores_tally(&tester->pair.tally);
    print_failed(&tester->pair.tally, 0);
    print_failed(&tester->pair.tally, 1);
    print_ranges_tally(&tester->pair.tally);
    print_totals_tally(&tester->pair.tally);
    print_edition_tally(&tester->pair.tally);
    /* A run of some of the groups need not meet everything. */
    if (failed || tester->from > 0)
        return !failed;
    met = met_everything(&tester->pair.tally) && met_all_stores(&tester->pair.tally, tester->percent) &&
          met_all_failed(&tester->pair.tally, tester->percent) &&
          met_all_ranges(&tester->pair.tally, tester->percent) &&
          met_all_of_totals(&tester->pair.tally) && met_all_of_conversions(&tester->pair.tally, tester->percent) &&
          met_all_rules(&tester->pair.tally, tester->percent);
    printf("%s %s: every refusal, count, store, failed swap, range, rule and verdict was met\n", met ? "ok" : "FAILED",
           tester->name);
    return met;
}

static int run_chosen(struct tester *tester)
{
    if (tester->group == GROUPS)
        return run_all(tester);
    if (tester->run == UINT64_MAX)
        return run_group(tester, tester->group);
    return run_once(tester, tester->group, tester->run);
}

/* The number of the group of that name; GROUPS if there is none. */
static size_t group_named(const char *name)
{
    size_t number = 0;

    while (number < GROUPS && strcmp(groups[number].name, name) != 0)
        number++;
    return number;
}

/* Takes one option with its value; 0 if there is no such option. */
static int take_option(struct tester *tester, const char *option, const char *value)
{
    uint64_t number = strtoull(value, NULL, 10);
    size_t group = group_named(value);

    if (strcmp(option, "--name") == 0)
        tester->name = value;
    else if (strcmp(option, "--seed") == 0)
        tester->seed = number;
    else if (strcmp(option, "--percent") == 0 && number > 0)
        tester->percent = number;
    else if (strcmp(option, "--group") == 0 && group < GROUPS)
        tester->group = group;
    else if (strcmp(option, "--from") == 0 && group < GROUPS)
        tester->from = group;
    else if (strcmp(option, "--run") == 0)
        tester->run = number;
    else if (strcmp(option, "--first") == 0)
        tester->first = number != 0;
    else if (strcmp(option, "--exact") == 0)
        tester->exact = number != 0;
    else
        return 0;
    return 1;
}

int main(int argc, char **argv)
{
    static struct tester tester = {.name = "library", .seed = 1, .percent = 100, .group = GROUPS, .run = UINT64_MAX};
    int fine = argc % 2 == 1;

    for (int k = 1; fine && k < argc; k += 2)
        fine = take_option(&tester, argv[k], argv[k + 1]);
    if (!fine) {
        fprintf(stderr, "differential [--name NAME] [--seed N] [--percent N] [--group NAME] [--from NAME] [--run N] "
                        "[--first 1] [--exact 1]\n");
        return 2;
    }
    if (!pair_open(&tester.pair) || !history_open(&tester.history, LONGEST_HISTORY))
        return 2;
    tester.pair.exact = tester.exact;
    fine = run_chosen(&tester);
    pair_close(&tester.pair);
    history_close(&tester.history);
    return fine ? 0 : 1;
}
