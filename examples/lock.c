/* A driver writer's question: ports that wait for a lock try a swap again and again. What does a try cost that fails? */

#include "moesi.h"

#include <inttypes.h>
#include <stdio.h>
#include <stdlib.h>

/* Four ports and a lock: 0 where it is free, else the number of the port that has it, plus 1. */
enum { PORTS = 4, SETS = 1, LINES = 1, LOCK = 0, FREE = 0, TRIES = 8 };

static uint8_t memory[MOESI_MEMORY_BYTES(LINES)], room[MOESI_TABLES_BYTES(PORTS, SETS, LINES)];
static struct moesi_model model;

/* What the orders so far cost: words fetched and stored, and tries that failed, in all and without a copy of their own. */
static uint64_t fetched, stored, failed, missed;

/* Carries an order out. A refusal here means that the order was built wrongly. */
static struct moesi_answer step(uint64_t word, uint64_t operand)
{
    struct moesi_answer answer = moesi_model_step(&model, word, operand);

    if (answer.refusal != MOESI_ACCEPTED) {
        fprintf(stderr, "order 0x%" PRIx64 " refused: %" PRIu64 "\n", word, answer.refusal);
        exit(1);
    }
    fetched += answer.memory_reads;
    stored += answer.memory_writes;
    return answer;
}

/* A port tries to take the lock; 1 if it has it now. */
static int take(uint32_t port)
{
    int miss = moesi_model_state(&model, port, LOCK) == MOESI_INVALID;
    uint64_t word = moesi_order_swap_lower(port, LOCK, MOESI_WRITE_BACK, FREE);

    if (step(word, moesi_operand_lower(port + 1)).swapped == 1)
        return 1;
    failed++;
    missed += (uint64_t)miss;
    return 0;
}

static void let_go(uint32_t port)
{
    step(moesi_order_write(port, LOCK, MOESI_WRITE_BACK, 0xFF), FREE);
}

/* One port has the lock and the others try for it. 1 if no try took it, and all ports have their copies afterwards. */
static int contend(uint32_t owner)
{
    int fine = take(owner);

    for (unsigned k = 0; k < TRIES; k++)
        for (uint32_t port = 0; port < PORTS; port++)
            fine &= port == owner || !take(port);
    for (uint32_t port = 0; port < PORTS; port++)
        fine &= moesi_model_state(&model, port, LOCK) == (port == owner ? MOESI_OWNED : MOESI_BACK_SHARED);
    let_go(owner);
    return fine;
}

int main(void)
{
    int fine = 1;

    if (moesi_model_init(&model, PORTS, SETS, LINES, memory, sizeof memory, room, sizeof room) != MOESI_ACCEPTED)
        return 1;

    for (uint32_t port = 0; port < PORTS; port++)
        fine &= contend(port);
    printf("%d ports take a lock in turn, and %" PRIu64 " tries of the others fail: %" PRIu64
           " of them found no copy in their own cache\n", PORTS, failed, missed);
    printf("  %s; words fetched %" PRIu64 ", by the first to take it, stored %" PRIu64 "\n",
           fine ? "no port lost its copy" : "the lock is not as it should be", fetched, stored);

    return fine && failed == PORTS * (PORTS - 1) * TRIES && missed == PORTS - 1 && fetched == 1 && stored == 0
        && moesi_model_passes(&model) ? 0 : 1;
}
