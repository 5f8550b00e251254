/* Runs a trace on the library and prints a line for each order: its five numbers, then the state of its line at each port afterwards. The
   trace comes from tests/tables_test.py, and is one that is not refused. */

#include "moesi.h"

#include <inttypes.h>
#include <stdio.h>

enum { HEAD_BYTES = 16, MOST_ORDERS = 2048 };

static uint8_t trace[HEAD_BYTES + 16 * MOST_ORDERS];
static uint8_t memory[MOESI_MEMORY_BYTES(4096)], room[MOESI_TABLES_BYTES(8, 64, 4096)];

static uint64_t number_at(size_t place, unsigned bytes)
{
    uint64_t number = 0;

    for (unsigned k = 0; k < bytes; k++)
        number |= (uint64_t)trace[place + k] << 8 * k;
    return number;
}

int main(void)
{
    struct moesi_model m;
    size_t length = fread(trace, 1, sizeof trace, stdin);
    uint64_t ports = number_at(0, 4), sets = number_at(4, 4), lines = number_at(8, 4);
    size_t orders = (size_t)number_at(12, 4);

    if (length < HEAD_BYTES || orders > MOST_ORDERS || length != HEAD_BYTES + 16 * orders)
        return 1;
    if (moesi_model_init(&m, ports, sets, lines, memory, MOESI_MEMORY_BYTES(lines), room,
                         moesi_tables_bytes(ports, sets, lines)) != MOESI_ACCEPTED)
        return 1;
    for (size_t k = 0; k < orders; k++) {
        uint64_t word = number_at(HEAD_BYTES + 8 * k, 8);
        struct moesi_answer answer = moesi_model_step(&m, word, number_at(HEAD_BYTES + 8 * (orders + k), 8));

        printf("%" PRIu64 " %" PRIu64 " %" PRIu64 " %" PRIu64 " %" PRIu64, answer.refusal, answer.value, answer.swapped,
               answer.memory_reads, answer.memory_writes);
        for (uint64_t port = 0; port < ports; port++)
            printf(" %d", moesi_model_state(&m, port, word >> 16 & 0xFFFF));
        putchar('\n');
    }
    return 0;
}
