/* Times the library and three models in C on the same orders, in turn, in one process; then the step with a record, the
   step under ranges, and the conversions of old tables. */

#define _POSIX_C_SOURCE 200809L

#include "../tests/generator.h"
#include "../tests/second_model.h"
#include "moesi.h"
#include "plain_edition.h"
#include "plain_model.h"
#include "walking_model.h"

#include <stdio.h>
#include <stdlib.h>
#include <string.h>
#include <time.h>

enum { ORDERS = 65536, ALIGNMENT = 64, MOST_BYTES = 8 * SECOND_MAX_LINES };

enum subject { LIBRARY, PLAIN, WALKING, SECOND, SUBJECTS };

/* The byte models come before the second model. In the tables of totals and of ranges each is timed by its step and,
   BYTE_MODELS further on, by its step with a record or under ranges. */
enum { BYTE_MODELS = SECOND, STEPS = 2 * BYTE_MODELS };

/* The library and plain C convert, each with tables of its own; the old set is where the walking model's tables are. */
enum { CONVERTERS = PLAIN + 1, OLD_SET = WALKING };

/* What one of the byte models works on; the second model has arrays of its own. */
struct bytes {
    uint8_t *memory, *tags, *states, *data;
    uint8_t answer[SECOND_ANSWER_BYTES];
    uint8_t record[SECOND_RECORD_BYTES];
    uint8_t verdict[SECOND_VERDICT_BYTES];
};

struct bench {
    struct second_shape shape;
    struct second_lengths lengths;
    struct bytes bytes[BYTE_MODELS];
    struct second_model second;
    uint64_t words[ORDERS];
    uint64_t operands[ORDERS];
    size_t count;
    int repetitions;
    volatile uint64_t sink;
};

typedef uint64_t fresh_call(uint64_t, uint64_t, uint64_t, uint64_t, uint64_t, uint64_t, uint64_t, const uint8_t *,
                            size_t, uint8_t *, size_t, uint8_t *, size_t, uint8_t *, size_t);
typedef uint64_t step_call(uint64_t, uint64_t, uint64_t, uint64_t, uint64_t, uint64_t, uint64_t, uint64_t, uint64_t,
                           uint8_t *, size_t, uint8_t *, size_t, uint8_t *, size_t, uint8_t *, size_t, uint8_t *,
                           size_t);
typedef uint64_t totals_call(uint64_t, uint64_t, uint64_t, uint64_t, uint64_t, uint64_t, uint64_t, uint64_t, uint64_t,
                             uint8_t *, size_t, uint8_t *, size_t, uint8_t *, size_t, uint8_t *, size_t, uint8_t *,
                             size_t, uint8_t *, size_t);
typedef uint64_t audit_call(uint64_t, uint64_t, uint64_t, uint64_t, uint64_t, uint64_t, uint64_t, const uint8_t *,
                            size_t, const uint8_t *, size_t, const uint8_t *, size_t, const uint8_t *, size_t,
                            uint8_t *, size_t);
typedef uint64_t convert_call(uint64_t, uint64_t, uint64_t, const uint8_t *, size_t, const uint8_t *, size_t,
                              const uint8_t *, size_t, uint8_t *, size_t, uint8_t *, size_t, uint8_t *, size_t);

static fresh_call *const fresh_calls[BYTE_MODELS] = {moesi_fresh, plain_fresh, walking_fresh};
static step_call *const step_calls[BYTE_MODELS] = {moesi_step, plain_step, walking_step};
static totals_call *const totals_calls[BYTE_MODELS] = {moesi_step_totals, plain_step_totals, walking_step_totals};
static audit_call *const audit_calls[BYTE_MODELS] = {moesi_audit, plain_audit, walking_audit};
static convert_call *const from_old_calls[CONVERTERS] = {moesi_from_old, plain_from_old};
static convert_call *const to_old_calls[CONVERTERS] = {moesi_to_old, plain_to_old};

/* One round of each call, by the number of who does it: the work that is timed. */

typedef void round_call(struct bench *, int);

static void fresh_round(struct bench *bench, int subject)
{
    struct second_shape s = bench->shape;
    struct second_lengths n = bench->lengths;
    struct bytes *b = &bench->bytes[subject == SECOND ? 0 : subject];
    uint64_t sum = 0;

    for (size_t k = 0; k < bench->count && subject == SECOND; k++)
        second_fresh(&bench->second);
    for (size_t k = 0; k < bench->count && subject != SECOND; k++)
        sum += fresh_calls[subject](s.ports, s.sets, s.lines, s.scratch.first, s.scratch.count, s.device.first,
                                    s.device.count, b->memory, n.memory, b->tags, n.tags, b->states, n.states, b->data,
                                    n.data);
    bench->sink += sum;
}

static void step_round(struct bench *bench, int subject)
{
    struct second_shape s = bench->shape;
    struct second_lengths n = bench->lengths;
    struct bytes *b = &bench->bytes[subject == SECOND ? 0 : subject];
    uint64_t sum = 0;

    for (size_t k = 0; k < bench->count && subject == SECOND; k++)
        sum += second_step(&bench->second, bench->words[k], bench->operands[k]).value;
    for (size_t k = 0; k < bench->count && subject != SECOND; k++)
        sum += step_calls[subject](s.ports, s.sets, s.lines, s.scratch.first, s.scratch.count, s.device.first,
                                   s.device.count, bench->words[k], bench->operands[k], b->memory, n.memory, b->tags,
                                   n.tags, b->states, n.states, b->data, n.data, b->answer, sizeof b->answer);
    bench->sink += sum;
}

/* The record starts from zeros. */
static void totals_round(struct bench *bench, int model)
{
    struct second_shape s = bench->shape;
    struct second_lengths n = bench->lengths;
    struct bytes *b = &bench->bytes[model];
    uint64_t sum = 0;

    memset(b->record, 0, sizeof b->record);
    for (size_t k = 0; k < bench->count; k++)
        sum += totals_calls[model](s.ports, s.sets, s.lines, s.scratch.first, s.scratch.count, s.device.first,
                                   s.device.count, bench->words[k], bench->operands[k], b->memory, n.memory, b->tags,
                                   n.tags, b->states, n.states, b->data, n.data, b->answer, sizeof b->answer, b->record,
                                   sizeof b->record);
    bench->sink += sum;
}

/* The step of a byte model, without a record or with one, on the same memory and tables. */
static void either_round(struct bench *bench, int which)
{
    if (which < BYTE_MODELS)
        step_round(bench, which);
    else
        totals_round(bench, which - BYTE_MODELS);
}

/* The step of a byte model, without ranges or under them, on the same memory and tables. */
static void ranged_round(struct bench *bench, int which)
{
    static const struct second_range empty = {0, 0};
    struct second_shape shape = bench->shape;

    if (which < BYTE_MODELS)
        bench->shape.scratch = bench->shape.device = empty;
    step_round(bench, which % BYTE_MODELS);
    bench->shape = shape;
}

static void audit_round(struct bench *bench, int subject)
{
    struct second_shape s = bench->shape;
    struct second_lengths n = bench->lengths;
    struct bytes *b = &bench->bytes[subject == SECOND ? 0 : subject];
    uint64_t sum = 0;

    for (size_t k = 0; k < bench->count && subject == SECOND; k++)
        sum += (uint64_t)second_audit(&bench->second);
    for (size_t k = 0; k < bench->count && subject != SECOND; k++)
        sum += audit_calls[subject](s.ports, s.sets, s.lines, s.scratch.first, s.scratch.count, s.device.first,
                                    s.device.count, b->memory, n.memory, b->tags, n.tags, b->states, n.states, b->data,
                                    n.data, b->verdict, sizeof b->verdict);
    bench->sink += sum;
}

static void convert_round(struct bench *bench, convert_call *call, const struct bytes *from, const struct bytes *to)
{
    struct second_lengths n = bench->lengths;
    uint64_t sum = 0;

    for (size_t k = 0; k < bench->count; k++)
        sum += call(bench->shape.ports, bench->shape.sets, bench->shape.lines, from->tags, n.tags, from->states,
                    n.states, from->data, n.data, to->tags, n.tags, to->states, n.states, to->data, n.data);
    bench->sink += sum;
}

static void from_old_round(struct bench *bench, int subject)
{
    convert_round(bench, from_old_calls[subject], &bench->bytes[OLD_SET], &bench->bytes[subject]);
}

static void to_old_round(struct bench *bench, int subject)
{
    convert_round(bench, to_old_calls[subject], &bench->bytes[subject], &bench->bytes[OLD_SET]);
}

/* Timing. */

static double now(void)
{
    struct timespec time;

    clock_gettime(CLOCK_MONOTONIC, &time);
    return (double)time.tv_sec + (double)time.tv_nsec * 1e-9;
}

/* Seconds for one call of each of the subjects: the best of the repetitions, which take turns in who goes first. */
static void time_rounds(struct bench *bench, round_call *round, int subjects, double best[])
{
    for (int s = 0; s < subjects; s++)
        best[s] = 1e9;
    for (int repetition = 0; repetition < bench->repetitions; repetition++) {
        for (int turn = 0; turn < subjects; turn++) {
            int subject = (repetition + turn) % subjects;
            double start = now(), spent;

            round(bench, subject);
            spent = (now() - start) / (double)bench->count;
            if (spent < best[subject])
                best[subject] = spent;
        }
    }
}

/* The same, after one round to warm up. */
static void time_orders(struct bench *bench, round_call *round, int subjects, double best[])
{
    for (int s = 0; s < subjects; s++)
        round(bench, s);
    time_rounds(bench, round, subjects, best);
}

static void print_shape(struct second_shape shape)
{
    char text[32];

    snprintf(text, sizeof text, "%u/%u/%u", (unsigned)shape.ports, (unsigned)shape.sets, (unsigned)shape.lines);
    printf("%-10s ", text);
}

static void print_row(const struct bench *bench, const char *what, const double best[SUBJECTS])
{
    print_shape(bench->shape);
    printf("%-19s %11.0f %11.0f %11.0f %11.0f %9.2f %9.2f %10.2f\n", what, 1 / best[LIBRARY], 1 / best[PLAIN],
           1 / best[WALKING], 1 / best[SECOND], best[LIBRARY] / best[PLAIN], best[LIBRARY] / best[WALKING],
           best[LIBRARY] / best[SECOND]);
}

/* A row of the table of totals or of ranges. */
static void print_totals_row(const struct bench *bench, const char *what, const double best[STEPS])
{
    const double *with = best + BYTE_MODELS;

    print_shape(bench->shape);
    printf("%-19s %11.0f %11.0f %10.2f %9.2f %10.2f\n", what, 1 / best[LIBRARY], 1 / with[LIBRARY],
           with[LIBRARY] / best[LIBRARY], with[PLAIN] / best[PLAIN], with[WALKING] / best[WALKING]);
}

/* States. */

static uint8_t *get_bytes(void)
{
    void *bytes = NULL;

    if (posix_memalign(&bytes, ALIGNMENT, MOST_BYTES) != 0)
        abort();
    memset(bytes, 0, MOST_BYTES);
    return bytes;
}

/* Fresh models of a shape with the same memory. */
static void start(struct bench *bench, struct second_shape shape)
{
    bench->shape = shape;
    bench->lengths = second_lengths_of(shape, SECOND_ANSWER_BYTES);
    bench->second.shape = shape;
    for (size_t line = 0; line < shape.lines; line++)
        bench->second.memory[line] = line;
    second_fresh(&bench->second);
    for (int k = 0; k < BYTE_MODELS; k++)
        second_encode(&bench->second, bench->bytes[k].memory, bench->bytes[k].tags, bench->bytes[k].states,
                      bench->bytes[k].data);
}

static int same_state(const struct bench *bench, const struct bytes *a, const struct bytes *b)
{
    struct second_lengths n = bench->lengths;

    return memcmp(a->memory, b->memory, n.memory) == 0 && memcmp(a->tags, b->tags, n.tags) == 0 &&
           memcmp(a->states, b->states, n.states) == 0 && memcmp(a->data, b->data, n.data) == 0;
}

/* Whether the byte models have come to the same memory and tables. */
static int bytes_agree(const struct bench *bench)
{
    return same_state(bench, &bench->bytes[LIBRARY], &bench->bytes[PLAIN]) &&
           same_state(bench, &bench->bytes[LIBRARY], &bench->bytes[WALKING]);
}

/* Whether all have. */
static int states_agree(const struct bench *bench, struct bytes *scratch)
{
    second_encode(&bench->second, scratch->memory, scratch->tags, scratch->states, scratch->data);
    return bytes_agree(bench) && same_state(bench, &bench->bytes[LIBRARY], scratch);
}

/* Whether the byte models have, and in one round more come to the same record, which has all the orders as accepted.
   The timed rounds' records aren't compared: who goes first takes turns, so the last ones may be from other tables. */
static int records_agree(struct bench *bench)
{
    const uint8_t *record = bench->bytes[LIBRARY].record;
    struct moesi_totals totals;
    uint64_t accepted = 0;

    if (!bytes_agree(bench))
        return 0;
    for (int k = 0; k < BYTE_MODELS; k++)
        totals_round(bench, k);
    totals = moesi_read_totals(record);
    for (int kind = 0; kind < SECOND_KINDS; kind++)
        accepted += totals.accepted[kind];
    return bytes_agree(bench) && memcmp(record, bench->bytes[PLAIN].record, SECOND_RECORD_BYTES) == 0 &&
           memcmp(record, bench->bytes[WALKING].record, SECOND_RECORD_BYTES) == 0 && accepted == bench->count;
}

/* Traffic. */

static uint64_t order_of(unsigned kind, unsigned mode, unsigned port, unsigned line, unsigned mask)
{
    return moesi_order_word(kind, mode, port, line, mask, 0);
}

static void add(struct bench *bench, struct generator *generator, uint64_t word)
{
    bench->words[bench->count] = word;
    bench->operands[bench->count] = generator_word(generator);
    bench->count++;
}

/* Reads and writes in write back of lines that no other port uses and that don't push each other out. */
static void make_hits(struct bench *bench, struct generator *generator)
{
    unsigned ports = (unsigned)bench->shape.ports, sets = (unsigned)bench->shape.sets;

    for (bench->count = 0; bench->count < ORDERS;) {
        unsigned port = generator_below(generator, ports);
        unsigned line = port + ports * generator_below(generator, sets < ports ? 1 : sets / ports);

        add(bench, generator, order_of(generator_below(generator, 2) ? MOESI_WRITE : MOESI_READ, 1, port, line, 0xFF));
    }
}

/* Misses. With one port and one line: a flush, then a read. With one line per index: writes by another port than the
   last one's. Otherwise reads and writes of another line than the port has at that index. */
static void make_misses(struct bench *bench, struct generator *generator)
{
    unsigned ports = (unsigned)bench->shape.ports, sets = (unsigned)bench->shape.sets;
    unsigned lines = (unsigned)bench->shape.lines;
    unsigned last[SECOND_MAX_PORTS][SECOND_MAX_SETS] = {{0}}, writer[SECOND_MAX_SETS] = {0};

    for (bench->count = 0; bench->count < ORDERS;) {
        unsigned port = generator_below(generator, ports), index = generator_below(generator, sets);
        unsigned way = lines > sets ? generator_below(generator, lines / sets) : 0;
        unsigned kind = generator_below(generator, 2) ? MOESI_WRITE : MOESI_READ;

        if (ports == 1 && lines == 1) {
            add(bench, generator, moesi_order_flush(0, 0));
            add(bench, generator, moesi_order_read(0, 0, MOESI_WRITE_BACK));
        } else if (lines == sets && port != writer[index]) {
            writer[index] = port;
            add(bench, generator, order_of(MOESI_WRITE, 1, port, index, 0xFF));
        } else if (lines > sets && way != last[port][index]) {
            last[port][index] = way;
            add(bench, generator, order_of(kind, 1, port, index + sets * way, 0xFF));
        }
    }
}

/* Every port reads some lines in write back. */
static void make_shared(struct bench *bench, struct generator *generator)
{
    unsigned lines = (unsigned)(bench->shape.lines < bench->shape.sets ? bench->shape.lines : bench->shape.sets);

    bench->count = 0;
    for (unsigned port = 0; port < bench->shape.ports; port++) {
        for (unsigned line = 0; line < lines; line++)
            add(bench, generator, moesi_order_read(port, line, MOESI_WRITE_BACK));
    }
}

/* Writes of lines that all ports hold: each goes to all of them. */
static void make_shared_writes(struct bench *bench, struct generator *generator)
{
    unsigned lines = (unsigned)(bench->shape.lines < bench->shape.sets ? bench->shape.lines : bench->shape.sets);

    for (bench->count = 0; bench->count < ORDERS;)
        add(bench, generator, order_of(MOESI_WRITE, 1, generator_below(generator, bench->shape.ports),
                                       generator_below(generator, lines), 0xFF));
}

/* All kinds and modes, lines below limit. */
static void make_mix(struct bench *bench, struct generator *generator, unsigned limit)
{
    static const unsigned kinds[16] = {0, 0, 0, 0, 0, 0, 1, 1, 1, 1, 1, 2, 2, 2, 3, 4};

    for (bench->count = 0; bench->count < ORDERS;) {
        unsigned kind = kinds[generator_below(generator, 16)];
        unsigned mask = kind == MOESI_SWAP ? (generator_below(generator, 2) ? 0x0F : 0xF0)
                                           : generator_below(generator, 256);
        unsigned near = 2 * (unsigned)bench->shape.sets < limit ? 2 * (unsigned)bench->shape.sets : limit;
        unsigned line = generator_below(generator, generator_percent(generator, 50) ? near : limit);
        unsigned mode = generator_percent(generator, 70) ? 1 : 0;

        add(bench, generator, order_of(kind, mode, generator_below(generator, bench->shape.ports), line, mask));
    }
}

/* Device writes, three in eight orders, among reads and writes by ports. Half of them go to the lines that the ports
   use, and find them dirty, clean or given up; the others to any line, of many mostly one that nobody holds. */
static void make_device_writes(struct bench *bench, struct generator *generator)
{
    static const unsigned kinds[8] = {0, 0, 0, 1, 1, 5, 5, 5};
    unsigned lines = (unsigned)bench->shape.lines, sets = (unsigned)bench->shape.sets;
    unsigned near = lines < sets ? lines : sets;

    for (bench->count = 0; bench->count < ORDERS;) {
        unsigned kind = kinds[generator_below(generator, 8)];
        int far = kind == MOESI_DEVICE_WRITE && generator_percent(generator, 50);
        unsigned line = generator_below(generator, far ? lines : near);
        unsigned mode = generator_percent(generator, 70) ? 1 : 0, mask = generator_below(generator, 256);

        add(bench, generator, order_of(kind, mode, generator_below(generator, bench->shape.ports), line, mask));
    }
}

/* The rows of orders at a shape. Device writes are last, so that the rows before them have the orders that they had
   before there were device writes. */
enum traffic { HITS, MISSES, SHARED_WRITES, MIX, DEVICE_WRITES, TRAFFICS };

static const char *const traffic_names[TRAFFICS] = {"step: hits", "step: misses", "step: shared writes", "step: mix",
                                                    "step: device writes"};

/* The random numbers of a shape's orders: both tables have the same orders. */
static struct generator generator_of(struct second_shape shape)
{
    struct generator generator = {shape.ports * 1000 + shape.sets * 10 + shape.lines};

    return generator;
}

/* Makes the orders of a row. Misses and the mix go on where the row before them ended, the others start fresh. */
static void make_traffic(struct bench *bench, struct generator *generator, struct second_shape shape, int traffic)
{
    if (traffic != MISSES && traffic != MIX)
        start(bench, shape);
    switch (traffic) {
    case HITS:
        make_hits(bench, generator);
        break;
    case MISSES:
        make_misses(bench, generator);
        break;
    case SHARED_WRITES:
        make_shared(bench, generator);
        for (int s = 0; s < SUBJECTS; s++)
            step_round(bench, s);
        make_shared_writes(bench, generator);
        break;
    case MIX:
        make_mix(bench, generator, (unsigned)shape.lines);
        break;
    default:
        make_device_writes(bench, generator);
    }
}

/* The table of all models. */

static void time_tables(struct bench *bench)
{
    double best[SUBJECTS];
    size_t entries = (size_t)(bench->shape.ports * bench->shape.sets);

    bench->count = entries < 64 ? 1024 : 32;
    time_rounds(bench, audit_round, SUBJECTS, best);
    print_row(bench, "audit after the mix", best);
    time_rounds(bench, fresh_round, SUBJECTS, best);
    print_row(bench, "fresh", best);
}

static int time_shape(struct bench *bench, struct second_shape shape, struct bytes *scratch)
{
    struct generator generator = generator_of(shape);
    double best[SUBJECTS];
    int agree = 1;

    for (int traffic = 0; traffic < TRAFFICS; traffic++) {
        make_traffic(bench, &generator, shape, traffic);
        time_orders(bench, step_round, SUBJECTS, best);
        print_row(bench, traffic_names[traffic], best);
        agree &= states_agree(bench, scratch);
        if (traffic == MIX)
            time_tables(bench);
    }
    if (!agree)
        printf("the models differ after the orders at this shape\n");
    return agree;
}

/* The same orders, lines below 64, at 64 and at 4,096 lines: a step's cost does not grow with lines. */
static void time_growth(struct bench *bench)
{
    static const struct second_shape shapes[2] = {{8, 64, 64, {0, 0}, {0, 0}}, {8, 64, 4096, {0, 0}, {0, 0}}};
    double best[2][SUBJECTS];

    for (int k = 0; k < 2; k++) {
        struct generator generator = {7};

        start(bench, shapes[k]);
        make_mix(bench, &generator, 64);
        time_rounds(bench, step_round, SUBJECTS, best[k]);
    }
    printf("same orders (lines below 64) at 8/64/4096 over 8/64/64: library %.2f, walking model %.2f\n",
           best[1][LIBRARY] / best[0][LIBRARY], best[1][WALKING] / best[0][WALKING]);
}

static const struct second_shape shapes[5] = {
    {1, 1, 1, {0, 0}, {0, 0}},   {2, 1, 2, {0, 0}, {0, 0}},     {4, 16, 1024, {0, 0}, {0, 0}},
    {8, 64, 64, {0, 0}, {0, 0}}, {8, 64, 4096, {0, 0}, {0, 0}},
};

static int print_models(struct bench *bench, struct bytes *scratch)
{
    int agree = 1;

    printf("%-10s %-19s %11s %11s %11s %11s %9s %9s %10s\n", "shape", "calls per second of", "library", "plain",
           "walking", "second", "lib/plain", "lib/walk", "lib/second");
    for (int k = 0; k < 5; k++)
        agree &= time_shape(bench, shapes[k], scratch);
    time_growth(bench);
    printf("The last three columns are times over times: below 1 the library is the faster one. Each row is the best\n"
           "of its repetitions, after a warm-up, from a fresh model. The second model works on decoded arrays and\n"
           "checks no shape and no length. In the mix the swaps compare with 0, and nearly all fail. Three in eight\n"
           "orders of the row of device writes are such, the others reads and writes by ports.\n");
    return agree;
}

/* The table of totals: the step with a record against the step without. */

static int time_totals(struct bench *bench, struct second_shape shape)
{
    struct generator generator = generator_of(shape);
    double best[STEPS];
    int agree = 1;

    for (int traffic = 0; traffic < TRAFFICS; traffic++) {
        make_traffic(bench, &generator, shape, traffic);
        time_orders(bench, either_round, STEPS, best);
        print_totals_row(bench, traffic_names[traffic], best);
        agree &= records_agree(bench);
    }
    if (!agree)
        printf("the models differ after the orders with a record at this shape\n");
    return agree;
}

static int print_totals(struct bench *bench)
{
    int agree = 1;

    printf("\n%-10s %-19s %11s %11s %10s %9s %10s\n", "shape", "calls per second of", "library", "with record",
           "of library", "of plain", "of walking");
    for (int k = 0; k < 5; k++)
        agree &= time_totals(bench, shapes[k]);
    printf("The last three columns are times over times: of a step with a record of totals over a step without, by\n"
           "the same model. The six take turns on the orders of the table above, a model's two on the same tables.\n"
           "A record starts from zeros in each round.\n");
    return agree;
}

/* The table of ranges: the step under both ranges against the step without. */

/* A third of the lines is scratch, half of them is in the device range, and where there are many the two cross. */
static struct second_shape with_ranges(struct second_shape shape)
{
    shape.scratch.first = 0;
    shape.scratch.count = shape.lines / 3 + 1;
    shape.device.first = shape.lines / 4;
    shape.device.count = shape.lines / 2;
    return shape;
}

/* Whether all have come to the same memory and tables after a round from fresh under the ranges. */
static int ranged_agree(struct bench *bench, struct bytes *scratch)
{
    start(bench, bench->shape);
    for (int s = 0; s < SUBJECTS; s++)
        step_round(bench, s);
    return states_agree(bench, scratch);
}

static int time_ranges(struct bench *bench, struct second_shape shape, struct bytes *scratch)
{
    struct generator generator = generator_of(shape);
    double best[STEPS];
    int agree = 1;

    for (int traffic = 0; traffic < TRAFFICS; traffic++) {
        make_traffic(bench, &generator, with_ranges(shape), traffic);
        time_orders(bench, ranged_round, STEPS, best);
        print_totals_row(bench, traffic_names[traffic], best);
        agree &= ranged_agree(bench, scratch);
    }
    if (!agree)
        printf("the models differ after the orders under ranges at this shape\n");
    return agree;
}

static int print_ranges(struct bench *bench, struct bytes *scratch)
{
    int agree = 1;

    printf("\n%-10s %-19s %11s %11s %10s %9s %10s\n", "shape", "calls per second of", "library", "with ranges",
           "of library", "of plain", "of walking");
    for (int k = 0; k < 5; k++)
        agree &= time_ranges(bench, shapes[k], scratch);
    printf("The last three columns are times over times: of a step under a scratch range and a device range over a\n"
           "step under empty ones, by the same model. The six take turns on the orders of the first table, a model's\n"
           "two on the same tables. In the ranges other modes are in force, so that the two don't do the same work.\n");
    return agree;
}

/* The table of conversions. */

static void print_conversion_row(const struct bench *bench, const char *what, const double best[CONVERTERS])
{
    print_shape(bench->shape);
    printf("%-19s %11.0f %11.0f %9.2f\n", what, 1 / best[LIBRARY], 1 / best[PLAIN], best[LIBRARY] / best[PLAIN]);
}

/* An old set of letters in no pattern, to this edition and back. */
static int time_conversions(struct bench *bench, struct second_shape shape)
{
    struct generator generator = generator_of(shape);
    struct second_lengths n;
    double best[CONVERTERS];
    int agree;

    start(bench, shape);
    n = bench->lengths;
    for (size_t k = 0; k < n.states; k++)
        bench->bytes[OLD_SET].states[k] = (uint8_t)generator_below(&generator, 5);
    bench->count = n.states < 64 ? 1024 : 256;
    time_orders(bench, from_old_round, CONVERTERS, best);
    print_conversion_row(bench, "from the old", best);
    agree = memcmp(bench->bytes[LIBRARY].states, bench->bytes[PLAIN].states, n.states) == 0 &&
            memcmp(bench->bytes[LIBRARY].tags, bench->bytes[PLAIN].tags, n.tags) == 0 &&
            memcmp(bench->bytes[LIBRARY].data, bench->bytes[PLAIN].data, n.data) == 0;
    time_orders(bench, to_old_round, CONVERTERS, best);
    print_conversion_row(bench, "to the old", best);
    if (!agree)
        printf("the converted tables differ at this shape\n");
    return agree;
}

static int print_conversions(struct bench *bench)
{
    int agree = 1;

    printf("\n%-10s %-19s %11s %11s %9s\n", "shape", "calls per second of", "library", "plain", "lib/plain");
    for (int k = 0; k < 5; k++)
        agree &= time_conversions(bench, shapes[k]);
    printf("The last column is time over time, of a conversion of three tables by the library over one in plain C.\n");
    return agree;
}

int main(int argc, char **argv)
{
    static struct bench bench;
    struct bytes all[BYTE_MODELS + 1];
    int agree;

    bench.repetitions = argc > 1 ? atoi(argv[1]) : 20;
    for (int k = 0; k <= BYTE_MODELS; k++) {
        all[k].memory = get_bytes();
        all[k].tags = get_bytes();
        all[k].states = get_bytes();
        all[k].data = get_bytes();
    }
    for (int k = 0; k < BYTE_MODELS; k++)
        bench.bytes[k] = all[k];
    agree = print_models(&bench, &all[BYTE_MODELS]);
    agree &= print_totals(&bench);
    agree &= print_ranges(&bench, &all[BYTE_MODELS]);
    agree &= print_conversions(&bench);
    for (int k = 0; k <= BYTE_MODELS; k++) {
        free(all[k].memory);
        free(all[k].tags);
        free(all[k].states);
        free(all[k].data);
    }
    return agree ? 0 : 1;
}
