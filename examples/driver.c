/* A driver writer's question: after a port has filled a buffer, may a device read it, and what has to be done first? */

#include "moesi.h"

#include <inttypes.h>
#include <stdio.h>
#include <stdlib.h>

/* Two ports with four sets each over sixteen lines; the buffer is eight lines of them. */
enum { PORTS = 2, SETS = 4, LINES = 16, BUFFER = 4, BUFFER_LINES = 8 };

static uint8_t memory[MOESI_MEMORY_BYTES(LINES)], room[MOESI_TABLES_BYTES(PORTS, SETS, LINES)];
static struct moesi_model model;

/* Carries an order out. A refusal here means that the order was built wrongly. */
static struct moesi_answer step(uint64_t word, uint64_t operand)
{
    struct moesi_answer answer = moesi_model_step(&model, word, operand);

    if (answer.refusal != MOESI_ACCEPTED) {
        fprintf(stderr, "order 0x%" PRIx64 " refused: %" PRIu64 "\n", word, answer.refusal);
        exit(1);
    }
    return answer;
}

static uint64_t packet_word(uint64_t round, uint64_t line)
{
    return round << 32 | line;
}

static void fill(uint64_t round, uint64_t mode)
{
    for (uint64_t line = BUFFER; line < BUFFER + BUFFER_LINES; line++)
        step(moesi_order_write(0, line, mode, 0xFF), packet_word(round, line));
}

/* Asks for each line of the buffer whether a device would read what was written: first the model, then by a device read. */
static int device_reads_right(uint64_t round)
{
    int wrong = 0;

    printf("  a device reads wrong:");
    for (uint64_t line = BUFFER; line < BUFFER + BUFFER_LINES; line++) {
        int clean = moesi_model_clean(&model, line);

        if ((step(moesi_order_device_read(line), 0).value == packet_word(round, line)) != clean) {
            printf(" (the model and the device differ at line %" PRIu64 ")\n", line);
            exit(1);
        }
        if (!clean) {
            printf(" line %" PRIu64, line);
            wrong++;
        }
    }
    printf("%s\n", wrong == 0 ? " nothing" : "");
    return wrong == 0;
}

static uint64_t flush_buffer(void)
{
    uint64_t stores = 0;

    for (uint64_t line = BUFFER; line < BUFFER + BUFFER_LINES; line++)
        stores += step(moesi_order_flush(0, line), 0).memory_writes;
    return stores;
}

/* A fresh model: main memory stays as it is, and no port holds a line. */
static void start(void)
{
    if (moesi_model_init(&model, PORTS, SETS, LINES, memory, sizeof memory, room, sizeof room) != MOESI_ACCEPTED)
        exit(1);
}

int main(void)
{
    int before, after, through, read_through, by_range, passes;

    start();
    printf("port 0 fills lines %d to %d in write back\n", BUFFER, BUFFER + BUFFER_LINES - 1);
    fill(1, MOESI_WRITE_BACK);
    /* Lines 4 to 7 were evicted by lines 8 to 11, and so stored; lines 8 to 11 are only in port 0's cache. */
    before = device_reads_right(1);
    printf("  port 0 has line %d in state %d\n", BUFFER + SETS, moesi_model_state(&model, 0, BUFFER + SETS));
    printf("port 0 flushes the buffer: ");
    printf("%" PRIu64 " words stored\n", flush_buffer());
    after = device_reads_right(1);

    printf("port 0 fills it in write through\n");
    fill(2, MOESI_WRITE_THROUGH);
    through = device_reads_right(2);

    printf("port 0 fills it in write back, port 1 reads it in write through\n");
    fill(3, MOESI_WRITE_BACK);
    for (uint64_t line = BUFFER; line < BUFFER + BUFFER_LINES; line++)
        step(moesi_order_read(1, line, MOESI_WRITE_THROUGH), 0);
    read_through = device_reads_right(3);

    /* The mode by address: the driver's orders stay as they are, and need no flush. */
    printf("the buffer is a device range from the start; port 0 fills it in write back\n");
    start();
    if (moesi_model_set_device(&model, BUFFER, BUFFER_LINES) != MOESI_ACCEPTED)
        return 1;
    fill(4, MOESI_WRITE_BACK);
    by_range = device_reads_right(4);

    passes = moesi_model_passes(&model);
    printf("audit: %s\n", passes ? "yes" : "no");
    return !before && after && through && read_through && by_range && passes ? 0 : 1;
}
