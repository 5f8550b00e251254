/* Drivers compared by their traffic: three ways to send packets through one buffer, a model and a record for each. */

#include "moesi.h"

#include <inttypes.h>
#include <stdio.h>
#include <stdlib.h>
#include <string.h>

/* One port with eight sets over sixteen lines. The buffer is a header and seven lines behind it, and fits the cache. */
enum { PORTS = 1, SETS = 8, LINES = 16, HEADER = 4, LAST = 11, BUFFER_LINES = LAST - HEADER + 1, PACKETS = 4 };

/*
 * Every driver does the same: it writes the lines behind the header once each, and after each of them brings the
 * checksum in the header's lower half up to date. The packet's number, in the upper half, is patched in last. They
 * differ in the modes of these accesses, and in whether the buffer is flushed before the device reads it.
 */
struct driver {
    const char *name;
    uint64_t lines_mode, sum_mode, number_mode;
    int flushes;
};

/*
 * All are right: when the device reads a line, it has been flushed, or its last write was in write through.
 *
 *   flush         A line is stored once a packet, by its flush; but that gives the copy up, and the next packet
 *                 fetches the line again.
 *   through       Nothing is fetched again; but every write is a store, the nine of the header too.
 *   last-through  The checksum stays in the cache, until the number's write stores the whole header.
 */
static const struct driver drivers[] = {
    {"flush", MOESI_WRITE_BACK, MOESI_WRITE_BACK, MOESI_WRITE_BACK, 1},
    {"through", MOESI_WRITE_THROUGH, MOESI_WRITE_THROUGH, MOESI_WRITE_THROUGH, 0},
    {"last-through", MOESI_WRITE_THROUGH, MOESI_WRITE_BACK, MOESI_WRITE_THROUGH, 0},
};

enum { DRIVERS = sizeof drivers / sizeof drivers[0] };

/* What a driver runs on: memory and record are zeros at the start, as static objects are. */
struct run {
    struct moesi_model model;
    uint8_t memory[MOESI_MEMORY_BYTES(LINES)], room[MOESI_TABLES_BYTES(PORTS, SETS, LINES)];
    uint8_t record[MOESI_RECORD_BYTES];
};

static struct run runs[DRIVERS];

/* Carries an order out and counts it. A refusal here means that the order was built wrongly. */
static struct moesi_answer step(struct run *run, uint64_t word, uint64_t operand)
{
    struct moesi_answer answer = moesi_model_step_totals(&run->model, word, operand, run->record, sizeof run->record);

    if (answer.refusal != MOESI_ACCEPTED) {
        fprintf(stderr, "order 0x%" PRIx64 " refused: %" PRIu64 "\n", word, answer.refusal);
        exit(1);
    }
    return answer;
}

static uint64_t line_word(uint32_t packet, uint32_t line)
{
    return (uint64_t)packet << 32 | (packet * 1000 + line);
}

static uint32_t add_to_sum(uint64_t header, uint64_t word)
{
    return (uint32_t)(header + word);
}

/* The port writes a packet into the buffer. */
static void fill(struct run *run, const struct driver *driver, uint32_t packet)
{
    step(run, moesi_order_write(0, HEADER, driver->sum_mode, 0xFF), 0);
    for (uint32_t line = HEADER + 1; line <= LAST; line++) {
        uint64_t word = line_word(packet, line), header;

        step(run, moesi_order_write(0, line, driver->lines_mode, 0xFF), word);
        header = step(run, moesi_order_read(0, HEADER, driver->sum_mode), 0).value;
        step(run, moesi_order_write(0, HEADER, driver->sum_mode, MOESI_LOWER_HALF), add_to_sum(header, word));
    }
    step(run, moesi_order_write(0, HEADER, driver->number_mode, MOESI_UPPER_HALF), moesi_operand_upper(packet));
}

/* The device reads the buffer, and says how many lines it found right. */
static unsigned device_reads(struct run *run, uint32_t packet)
{
    unsigned right = 0;
    uint32_t sum = 0;

    for (uint32_t line = HEADER + 1; line <= LAST; line++) {
        uint64_t word = step(run, moesi_order_device_read(line), 0).value;

        right += word == line_word(packet, line);
        sum = add_to_sum(sum, line_word(packet, line));
    }
    return right + (step(run, moesi_order_device_read(HEADER), 0).value == ((uint64_t)packet << 32 | sum));
}

/* Sends all packets from a fresh model. 1 if the device found every line right. */
static int send_packets(struct run *run, const struct driver *driver)
{
    unsigned right = 0;

    if (moesi_model_init(&run->model, PORTS, SETS, LINES, run->memory, sizeof run->memory, run->room,
                         sizeof run->room) != MOESI_ACCEPTED)
        return 0;
    for (uint32_t packet = 1; packet <= PACKETS; packet++) {
        fill(run, driver, packet);
        for (uint32_t line = HEADER; line <= LAST && driver->flushes; line++)
            step(run, moesi_order_flush(0, line), 0);
        right += device_reads(run, packet);
    }
    printf("%s: the device read %u of %d lines right\n", driver->name, right, PACKETS * BUFFER_LINES);
    return right == PACKETS * BUFFER_LINES && moesi_model_passes(&run->model);
}

/* One total of every driver, by its place in the records. */
static void print_total(const char *name, size_t place)
{
    printf("  %-14s", name);
    for (int k = 0; k < DRIVERS; k++)
        printf(" %12" PRIu64, moesi_get_word(runs[k].record, place));
    printf("\n");
}

static void print_totals(void)
{
    static const char *const kinds[] = {"reads", "writes", "swaps", "flushes", "device reads", "device writes"};

    printf("accepted orders, and words from and to main memory (a device read is one of its reads):\n  %-14s", "");
    for (int k = 0; k < DRIVERS; k++)
        printf(" %12s", drivers[k].name);
    printf("\n");
    for (size_t kind = 0; kind < sizeof kinds / sizeof kinds[0]; kind++)
        print_total(kinds[kind], MOESI_TOTAL_ACCEPTED(kind));
    print_total("memory reads", MOESI_TOTAL_READS);
    print_total("memory writes", MOESI_TOTAL_WRITES);
}

/* Words that came from main memory and went to it. */
static uint64_t traffic(const struct run *run)
{
    struct moesi_totals totals = moesi_read_totals(run->record);

    return totals.memory_reads + totals.memory_writes;
}

/* Says who has the least traffic, and how much more each of the others has. */
static void conclude(void)
{
    int least = 0;

    for (int k = 1; k < DRIVERS; k++)
        if (traffic(&runs[k]) < traffic(&runs[least]))
            least = k;
    printf("least traffic: %s, %" PRIu64 " words", drivers[least].name, traffic(&runs[least]));
    for (int k = 0; k < DRIVERS; k++)
        if (k != least)
            printf("; %s has %" PRIu64 " more", drivers[k].name, traffic(&runs[k]) - traffic(&runs[least]));
    printf("\n");
}

/* An order for a line that isn't there. 1 if the record has one refused order more, and all else as it was. */
static int refused_is_counted(struct run *run)
{
    uint64_t before = moesi_read_totals(run->record).refused;
    uint8_t due[MOESI_RECORD_BYTES];
    struct moesi_answer answer;
    int as_due;

    memcpy(due, run->record, sizeof due);
    moesi_put_word(due, MOESI_TOTAL_REFUSED, before + 1);
    answer = moesi_model_step_totals(&run->model, moesi_order_flush(0, LINES), 0, run->record, sizeof run->record);
    as_due = memcmp(run->record, due, sizeof due) == 0;
    printf("a flush of line %d, which isn't there: refusal %" PRIu64 "; refused orders %" PRIu64 ", before it %" PRIu64
           "; the other totals %s\n", LINES, answer.refusal, moesi_read_totals(run->record).refused, before,
           as_due ? "are as they were" : "have changed");
    return as_due && answer.refusal == MOESI_REFUSED_LINE;
}

int main(void)
{
    int right = 1;

    printf("%d packets of %d lines; the header is written %d times in each, the other lines once\n", PACKETS,
           BUFFER_LINES, BUFFER_LINES + 1);
    for (int k = 0; k < DRIVERS; k++)
        right &= send_packets(&runs[k], &drivers[k]);
    print_totals();
    conclude();
    right &= refused_is_counted(&runs[0]);
    return right ? 0 : 1;
}
