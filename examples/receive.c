/* A driver that receives: a disk fills a buffer, half of it dirty in a cache. What is to be done before a port reads it? */

#include "moesi.h"

#include <inttypes.h>
#include <stdio.h>
#include <stdlib.h>

/* Two ports with four sets each over sixteen lines. The disk sends 60 bytes: seven lines and half of the eighth. */
enum { PORTS = 2, SETS = 4, LINES = 16, BUFFER = 4, BUFFER_LINES = 8, LAST = BUFFER + BUFFER_LINES - 1, RECEIVED = 60 };

static uint8_t memory[MOESI_MEMORY_BYTES(LINES)], room[MOESI_TABLES_BYTES(PORTS, SETS, LINES)];
static struct moesi_model model;

/* Carries an order out. A refusal here means that the order was built wrongly. */
static struct moesi_answer step(uint64_t word, uint64_t operand)
{
    struct moesi_answer answer = moesi_model_step(&model, word, operand);

    if (answer.refusal != MOESI_ACCEPTED) {
        fprintf(stderr, "order 0x%" PRIx64 " refused: %" PRIu64 "\n", word, answer.refusal);
        exit(1);
    }
    return answer;
}

/* Bytes of the buffer: what the port wrote there, and what the disk sends. No byte is the same in both. */
static uint64_t written_byte(unsigned place)
{
    return 0x80 + place;
}

static uint64_t sent_byte(unsigned place)
{
    return 1 + place;
}

/* A word of the buffer, by its bytes: the disk's as far as it has sent, and behind them the port's, or zeros. */
static uint64_t buffer_word(unsigned line, unsigned sent, int zeros)
{
    uint64_t word = 0;

    for (unsigned k = 0; k < 8; k++) {
        unsigned place = 8 * (line - BUFFER) + k;
        uint64_t behind = zeros ? 0 : written_byte(place);

        word |= (place < sent ? sent_byte(place) : behind) << 8 * k;
    }
    return word;
}

/* The bytes of a line that the disk sends: a bit for each. */
static uint8_t mask_of(unsigned line)
{
    unsigned mask = 0;

    for (unsigned k = 0; k < 8; k++)
        if (8 * (line - BUFFER) + k < RECEIVED)
            mask |= 1u << k;
    return (uint8_t)mask;
}

static unsigned copies(void)
{
    unsigned count = 0;

    for (unsigned line = BUFFER; line <= LAST; line++)
        for (unsigned port = 0; port < PORTS; port++)
            count += moesi_model_state(&model, port, line) != MOESI_INVALID;
    return count;
}

/* The disk writes its bytes, line by line. */
static void receive(void)
{
    uint64_t fetched = 0, stored = 0;

    for (unsigned line = BUFFER; line <= LAST; line++) {
        struct moesi_answer answer = step(moesi_order_device_write(line, mask_of(line)), buffer_word(line, RECEIVED, 1));

        fetched += answer.memory_reads;
        stored += answer.memory_writes;
    }
    printf("  %" PRIu64 " words fetched from memory, %" PRIu64 " stored; copies left: %u\n", fetched, stored, copies());
}

int main(void)
{
    unsigned right = 0, clean = 0;
    int passes;

    if (moesi_model_init(&model, PORTS, SETS, LINES, memory, sizeof memory, room, sizeof room) != MOESI_ACCEPTED)
        return 1;

    printf("port 0 writes lines %d to %d in write back, port 1 reads the last four\n", BUFFER, LAST);
    for (unsigned line = BUFFER; line <= LAST; line++)
        step(moesi_order_write(0, line, MOESI_WRITE_BACK, 0xFF), buffer_word(line, 0, 0));
    for (unsigned line = LAST - 3; line <= LAST; line++)
        step(moesi_order_read(1, line, MOESI_WRITE_BACK), 0);
    /* Lines 4 to 7 were evicted, and so stored; the last four are in port 0's cache, in state O, and in port 1's. */
    printf("  line %d is in state %d at port 0 and %d at port 1\n", LAST, moesi_model_state(&model, 0, LAST),
           moesi_model_state(&model, 1, LAST));

    printf("a disk writes %d bytes there, with no flush before it: lines %d to %d, and half of line %d\n", RECEIVED,
           BUFFER, LAST - 1, LAST);
    receive();

    printf("port 0 reads the buffer, with no invalidate: ");
    for (unsigned line = BUFFER; line <= LAST; line++) {
        uint64_t due = buffer_word(line, RECEIVED, 0);

        clean += moesi_model_clean(&model, line) && step(moesi_order_device_read(line), 0).value == due;
        right += step(moesi_order_read(0, line, MOESI_WRITE_BACK), 0).value == due;
    }
    printf("%u of %d lines right (behind the disk's bytes the last one has the port's own four)\n", right, BUFFER_LINES);
    printf("a device would have read %u of %d lines right\n", clean, BUFFER_LINES);

    passes = moesi_model_passes(&model);
    printf("audit: %s\n", passes ? "yes" : "no");
    return right == BUFFER_LINES && clean == BUFFER_LINES && passes ? 0 : 1;
}
