/* A driver writer has tables saved by the old edition, with five states and no mode. How does one go on from them? */

#include "moesi.h"

#include <inttypes.h>
#include <stdio.h>
#include <stdlib.h>
#include <string.h>

/* Two ports with two sets each over four lines. */
enum { PORTS = 2, SETS = 2, LINES = 4, ENTRIES = PORTS * SETS };

/* A set as it is saved: tags, then states, then data, one after the other. */
struct saved {
    uint8_t tags[4 * ENTRIES], states[ENTRIES], data[8 * ENTRIES];
};

/* Port 0 has line 2 in O and line 1 in M, port 1 has line 2 in S and line 3 in E. */
static struct saved saved = {
    {1, 0, 0, 0, 0, 0, 0, 0, 1, 0, 0, 0, 1, 0, 0, 0},
    {MOESI_OLD_OWNED, MOESI_OLD_MODIFIED, MOESI_OLD_SHARED, MOESI_OLD_EXCLUSIVE},
    {22, 0, 0, 0, 0, 0, 0, 0, 21, 0, 0, 0, 0, 0, 0, 0, 22, 0, 0, 0, 0, 0, 0, 0, 13, 0, 0, 0, 0, 0, 0, 0},
};

/* Main memory as it was beside them: the words 10 to 13. */
static uint8_t memory[MOESI_MEMORY_BYTES(LINES)] = {10, 0, 0, 0, 0, 0, 0, 0, 11, 0, 0, 0, 0, 0, 0, 0,
                                                    12, 0, 0, 0, 0, 0, 0, 0, 13, 0, 0, 0, 0, 0, 0, 0};

static uint8_t room[MOESI_TABLES_BYTES(PORTS, SETS, LINES)];
static struct moesi_model model;

static void expect(int holds, const char *what)
{
    if (!holds) {
        printf("not so: %s\n", what);
        exit(1);
    }
}

/* Reads exactly that many bytes. */
static void read_file(const char *path, void *bytes, size_t length)
{
    FILE *file = fopen(path, "rb");
    size_t got = file != NULL ? fread(bytes, 1, length, file) : 0;

    if (file == NULL || got != length || fgetc(file) != EOF) {
        fprintf(stderr, "%s can't be read, or hasn't %zu bytes\n", path, length);
        exit(1);
    }
    fclose(file);
}

/* Carries an order out. A refusal here means that the order was built wrongly. */
static struct moesi_answer step(uint64_t word, uint64_t operand)
{
    struct moesi_answer answer = moesi_model_step(&model, word, operand);

    if (answer.refusal != MOESI_ACCEPTED) {
        fprintf(stderr, "order 0x%" PRIx64 " refused: %" PRIu64 "\n", word, answer.refusal);
        exit(1);
    }
    return answer;
}

/* The states in which each port holds the lines that it holds. */
static void show_copies(void)
{
    static const char letters[] = "ISE......SEOM";

    for (unsigned port = 0; port < PORTS; port++) {
        printf("  port %u has", port);
        for (unsigned line = 0; line < LINES; line++) {
            uint8_t state = moesi_model_state(&model, port, line);

            if (state != MOESI_INVALID)
                printf(" line %u in %s%c (%u)", line, state < MOESI_BACK_SHARED ? "write-through " : "",
                       letters[state], state);
        }
        printf("\n");
    }
}

/* What a device reads of each line, beside what a port would; gives how many it reads wrong. */
static unsigned device_reads_wrong(void)
{
    unsigned wrong = 0;

    printf("  a device reads wrong:");
    for (unsigned line = 0; line < LINES; line++) {
        uint64_t read = step(moesi_order_device_read(line), 0).value, word = moesi_model_word(&model, line);

        expect((read == word) == moesi_model_clean(&model, line), "a line is clean if a device reads it right");
        if (read != word) {
            printf(" line %u (%" PRIu64 ", not %" PRIu64 ")", line, read, word);
            wrong++;
        }
    }
    printf("%s\n", wrong == 0 ? " nothing" : "");
    return wrong;
}

static uint64_t flush_all(void)
{
    uint64_t stored = 0;

    for (unsigned k = 0; k < PORTS * LINES; k++)
        stored += step(moesi_order_flush(k % PORTS, k / PORTS), 0).memory_writes;
    return stored;
}

/* Converts the model back and says how it went; gives the refusal. */
static uint64_t convert_back(struct saved *back)
{
    uint64_t refusal = moesi_model_to_old(&model, back->tags, sizeof back->tags, back->states, sizeof back->states,
                                          back->data, sizeof back->data);

    if (refusal != MOESI_ACCEPTED) {
        printf("  back to the old edition: refused, %" PRIu64 "\n", refusal);
        return refusal;
    }
    printf("  back to the old edition: states");
    for (size_t entry = 0; entry < ENTRIES; entry++)
        printf(" %u", back->states[entry]);
    printf("\n");
    return refusal;
}

/* Orders from there on. The old edition can take the tables as long as all of them are in write back. */
static void go_on(struct saved *back)
{
    struct saved before;

    printf("port 1 writes line 1 in write back, port 0 reads it\n");
    step(moesi_order_write(1, 1, MOESI_WRITE_BACK, 0xFF), moesi_model_word(&model, 1) + 10);
    step(moesi_order_read(0, 1, MOESI_WRITE_BACK), 0);
    show_copies();
    expect(device_reads_wrong() == 1, "line 1 is dirty");
    expect(convert_back(back) == MOESI_ACCEPTED, "there is nothing in write through");

    printf("port 0 reads it in write through\n");
    step(moesi_order_read(0, 1, MOESI_WRITE_THROUGH), 0);
    show_copies();
    expect(device_reads_wrong() == 0, "a read in write through stores the word");
    before = *back;
    expect(convert_back(back) == MOESI_REFUSED_THROUGH, "line 1 is in write through");
    expect(memcmp(&before, back, sizeof before) == 0, "a refusal leaves the bytes as they were");

    printf("port 0 reads it in write back again\n");
    step(moesi_order_read(0, 1, MOESI_WRITE_BACK), 0);
    expect(convert_back(back) == MOESI_ACCEPTED, "nothing is in write through any more");
}

/* Converts the saved set into the model. Nobody vouches for it, so it is audited beside main memory; 1 if it passes. */
static int load(void)
{
    uint64_t refusal = moesi_model_from_old(&model, saved.tags, sizeof saved.tags, saved.states, sizeof saved.states,
                                            saved.data, sizeof saved.data);

    if (refusal != MOESI_ACCEPTED) {
        printf("  refused, %" PRIu64 "\n", refusal);
        return 0;
    }
    printf("  audit: %s\n", moesi_model_passes(&model) ? "yes" : "no");
    return moesi_model_passes(&model);
}

/* convert [TABLES [MEMORY]]: another saved set of this shape, and the main memory beside it, from files. */
int main(int argc, char **argv)
{
    static struct saved back;
    unsigned wrong;

    if (argc > 1)
        read_file(argv[1], &saved, sizeof saved);
    if (argc > 2)
        read_file(argv[2], memory, sizeof memory);
    if (moesi_model_init(&model, PORTS, SETS, LINES, memory, sizeof memory, room, sizeof room) != MOESI_ACCEPTED)
        return 1;

    printf("a saved set is converted\n");
    if (!load())
        return 1;
    show_copies();
    expect(convert_back(&back) == MOESI_ACCEPTED && memcmp(&back, &saved, sizeof back) == 0, "the bytes come back");
    wrong = device_reads_wrong();
    printf("all ports flush all lines: %" PRIu64 " words stored\n", flush_all());
    expect(device_reads_wrong() == 0 && (argc > 1 || wrong == 2), "lines 1 and 2 were dirty");
    go_on(&back);
    expect(moesi_model_passes(&model), "the audit says yes");
    printf("audit: yes\n");
    return 0;
}
