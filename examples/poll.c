/* A driver writer's question: a polling loop writes a flag that mostly hasn't changed. What does that cost? */

#include "moesi.h"

#include <inttypes.h>
#include <stdio.h>
#include <stdlib.h>

/* One port, one set, two lines: the flag, and the work that takes the flag's entry over in every round. */
enum { PORTS = 1, SETS = 1, LINES = 2, FLAG = 0, WORK = 1, ROUNDS = 8, NEVER = ROUNDS + 1 };

static uint8_t memory[MOESI_MEMORY_BYTES(LINES)], room[MOESI_TABLES_BYTES(PORTS, SETS, LINES)];
static struct moesi_model model;

/* Carries an order out. A refusal here means that the order was built wrongly. */
static struct moesi_answer step(uint64_t word, uint64_t operand)
{
    struct moesi_answer answer = moesi_model_step(&model, word, operand);

    if (answer.refusal != MOESI_ACCEPTED) {
        fprintf(stderr, "order 0x%" PRIx64 " refused: %" PRIu64 "\n", word, answer.refusal);
        exit(1);
    }
    return answer;
}

/* The ways to write the flag: its lowest byte, or its lower half by a swap if it is still what was read. */
static int write_byte(uint64_t flag, uint64_t new_flag)
{
    (void)flag;
    step(moesi_order_write(0, FLAG, MOESI_WRITE_BACK, 0x01), new_flag);
    return 1;
}

static int swap_half(uint64_t flag, uint64_t new_flag)
{
    return step(moesi_order_swap_lower(0, FLAG, MOESI_WRITE_BACK, (uint32_t)flag), new_flag).swapped == 1;
}

/*
 * Polls: reads the flag, writes it, and does some work, which evicts it. The flag changes in every round whose number
 * `every` divides. Returns the words that the evictions stored, and checks that the flag is written in every round, and
 * is dirty after one that changes it and after no other.
 */
static uint64_t poll_flag(int (*put)(uint64_t, uint64_t), unsigned every)
{
    uint64_t stores = 0;

    for (unsigned round = 1; round <= ROUNDS; round++) {
        uint64_t flag = step(moesi_order_read(0, FLAG, MOESI_WRITE_BACK), 0).value;
        int changes = round % every == 0;
        int state = changes ? MOESI_MODIFIED : MOESI_BACK_EXCLUSIVE;

        if (!put(flag, changes ? flag + 1 : flag) || moesi_model_state(&model, 0, FLAG) != state
            || moesi_model_clean(&model, FLAG) == changes) {
            printf("the flag is not as it should be after round %u\n", round);
            exit(1);
        }
        stores += step(moesi_order_read(0, WORK, MOESI_WRITE_BACK), 0).memory_writes;
    }
    return stores;
}

/* The same without the read: the write misses, and a miss ends in M whatever it writes. */
static uint64_t write_blindly(uint64_t flag)
{
    uint64_t stores = 0;

    for (unsigned round = 1; round <= ROUNDS; round++) {
        write_byte(flag, flag);
        stores += step(moesi_order_read(0, WORK, MOESI_WRITE_BACK), 0).memory_writes;
    }
    return stores;
}

int main(void)
{
    uint64_t all, some, none, swapped, blind;

    if (moesi_model_init(&model, PORTS, SETS, LINES, memory, sizeof memory, room, sizeof room) != MOESI_ACCEPTED)
        return 1;

    all = poll_flag(write_byte, 1);
    some = poll_flag(write_byte, 4);
    none = poll_flag(write_byte, NEVER);
    swapped = poll_flag(swap_half, NEVER);
    blind = write_blindly(all + some);
    printf("%d rounds that read a flag and write it, words stored:\n", ROUNDS);
    printf("  it changes in every round %" PRIu64 ", in every fourth %" PRIu64 ", in none %" PRIu64
           "; in none, by a swap %" PRIu64 "; in none, without the read %" PRIu64 "\n", all, some, none, swapped, blind);

    if (all != ROUNDS || some != ROUNDS / 4 || none != 0 || swapped != 0 || blind != ROUNDS)
        return 1;
    return step(moesi_order_device_read(FLAG), 0).value == all + some && moesi_model_passes(&model) ? 0 : 1;
}
