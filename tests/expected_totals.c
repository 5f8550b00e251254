/* What the program totals must print, by the second model: reads trace after trace, prints as document 02 says. */

#include "second_model.h"

#include <inttypes.h>
#include <stdio.h>

enum { HEAD_BYTES = 16, MOST_ORDERS = 2048, MOST_TRACES = 9999 };

/* What reading a trace came to, beside refusals 1 and 2. */
enum { ACCEPTED = 0, NO_MORE = 99 };

/* One trace: its head, and behind that its words and operands. */
static uint8_t head[HEAD_BYTES], body[16 * MOST_ORDERS];

static uint64_t number_at(const uint8_t *bytes, unsigned count)
{
    uint64_t number = 0;

    for (unsigned k = 0; k < count; k++)
        number |= (uint64_t)bytes[k] << 8 * k;
    return number;
}

/* How many bytes came, up to length. */
static size_t take(uint8_t *bytes, size_t length)
{
    size_t taken = 0, got;

    while (taken < length && (got = fread(bytes + taken, 1, length - taken, stdin)) > 0)
        taken += got;
    return taken;
}

/* "Trace files carry no ranges, and both are empty there." */
static struct second_shape said_shape(void)
{
    struct second_shape shape = {number_at(head, 4), number_at(head + 4, 4), number_at(head + 8, 4), {0, 0}, {0, 0}};

    return shape;
}

/* Reads the next trace. */
static uint64_t read_trace(void)
{
    size_t came = take(head, HEAD_BYTES);
    uint64_t orders = number_at(head + 12, 4);

    if (came == 0)
        return NO_MORE;
    if (came < HEAD_BYTES || orders > MOST_ORDERS)
        return 1;
    if (take(body, 16 * (size_t)orders) < 16 * (size_t)orders)
        return 1;
    /* The lengths are those of the shape, and the ranges are empty, so that only the shape can be refused. */
    return second_call_refusal(said_shape(), second_lengths_of(said_shape(), 0), 0);
}

/* The totals of the trace that was read, from fresh on memory of zeros. */
static void run(uint64_t totals[SECOND_TOTALS])
{
    static struct second_model model, zeros;
    size_t orders = (size_t)number_at(head + 12, 4);

    model = zeros;
    model.shape = said_shape();
    second_fresh(&model);
    for (size_t k = 0; k < orders; k++) {
        uint64_t word = number_at(body + 8 * k, 8);
        uint64_t operand = number_at(body + 8 * (orders + k), 8);
        struct second_answer answer = second_step(&model, word, operand);

        for (unsigned place = 0; place < SECOND_TOTALS; place++)
            totals[place] += second_adds(place, word, answer);
    }
}

static void print_row(unsigned trace, const uint64_t totals[SECOND_TOTALS])
{
    printf("%u", trace);
    for (unsigned place = 0; place < SECOND_TOTALS; place++)
        printf(" %" PRIu64, totals[place]);
    printf("\n");
}

int main(void)
{
    uint64_t sums[SECOND_TOTALS] = {0}, refusal = ACCEPTED;

    for (unsigned trace = 1; trace <= MOST_TRACES; trace++) {
        uint64_t totals[SECOND_TOTALS] = {0};

        refusal = read_trace();
        if (refusal != ACCEPTED)
            break;
        run(totals);
        print_row(trace, totals);
        for (unsigned place = 0; place < SECOND_TOTALS; place++)
            sums[place] += totals[place];
    }
    if (refusal == 1 || refusal == 2)
        printf("refused %" PRIu64 "\n", refusal);
    print_row(0, sums);
    return 0;
}
