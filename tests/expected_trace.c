/* What the program trace must print, by the second model: reads a trace, prints as document 01 says. */

#include "second_model.h"

#include <inttypes.h>
#include <stdio.h>

enum { HEAD_BYTES = 16, MOST_ORDERS = 2048, MOST_BYTES = HEAD_BYTES + 16 * MOST_ORDERS };

static uint8_t trace[MOST_BYTES + 1];

static uint64_t number_at(size_t place, unsigned bytes)
{
    uint64_t number = 0;

    for (unsigned k = 0; k < bytes; k++)
        number |= (uint64_t)trace[place + k] << 8 * k;
    return number;
}

/* The length of the trace; one more than the longest stands for any that is longer. */
static size_t read_trace(void)
{
    size_t length = 0, got;
    uint8_t rest[4096];

    while (length < sizeof trace && (got = fread(trace + length, 1, sizeof trace - length, stdin)) > 0)
        length += got;
    while (fread(rest, 1, sizeof rest, stdin) > 0)
        ;
    return length;
}

static uint64_t refusal_of(size_t length)
{
    struct second_shape shape = {0, 0, 0, {0, 0}, {0, 0}};

    if (length < HEAD_BYTES)
        return 1;
    if (number_at(12, 4) > MOST_ORDERS || length != HEAD_BYTES + 16 * number_at(12, 4))
        return 1;
    shape.ports = number_at(0, 4);
    shape.sets = number_at(4, 4);
    shape.lines = number_at(8, 4);
    /* The lengths are those of the shape, and the ranges are empty, so that only the shape can be refused. */
    return second_call_refusal(shape, second_lengths_of(shape, 0), 0);
}

static void run(size_t orders)
{
    static struct second_model model; /* "Trace files carry no ranges, and both are empty there." */

    model.shape.ports = number_at(0, 4);
    model.shape.sets = number_at(4, 4);
    model.shape.lines = number_at(8, 4);
    second_fresh(&model);
    printf("ports %" PRIu64 " sets %" PRIu64 " lines %" PRIu64 " orders %zu\n", model.shape.ports, model.shape.sets,
           model.shape.lines, orders);
    for (size_t k = 0; k < orders; k++) {
        uint64_t word = number_at(HEAD_BYTES + 8 * k, 8);
        uint64_t operand = number_at(HEAD_BYTES + 8 * orders + 8 * k, 8);
        struct second_answer answer = second_step(&model, word, operand);

        printf("%zu %" PRIu64 " %" PRIu64 " %" PRIu64 " %" PRIu64 " %" PRIu64 "\n", k + 1, answer.refusal, answer.value,
               answer.swapped, answer.reads, answer.writes);
    }
    printf("audit %d\n", second_audit(&model));
}

int main(void)
{
    size_t length = read_trace();
    uint64_t refusal = refusal_of(length);

    if (refusal != 0)
        printf("refused %" PRIu64 "\n", refusal);
    else
        run((size_t)number_at(12, 4));
    return 0;
}
