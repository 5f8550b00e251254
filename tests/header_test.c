/* Checks the helpers of include/moesi.h, and that a program in C99, C11 or C++ links with the library. */

#include "moesi.h"

#include <stdio.h>
#include <string.h>

static int failures;

static void check_at(int line, int holds, const char *what)
{
    if (!holds) {
        printf("  line %d: %s\n", line, what);
        failures++;
    }
}

#define CHECK(condition) check_at(__LINE__, (condition) ? 1 : 0, #condition)

/* The words of document 01's trace and of its fourteen orders, and of device writes. */
static void check_order_words(void)
{
    CHECK(moesi_order_write(0, 0, MOESI_WRITE_BACK, 0xFF) == 0xFF09);
    CHECK(moesi_order_read(1, 0, MOESI_WRITE_THROUGH) == 0x10);
    CHECK(moesi_order_read(2, 0, MOESI_WRITE_THROUGH) == 0x20);
    CHECK(moesi_order_read(0, 0, MOESI_WRITE_BACK) == 0x08);
    CHECK(moesi_order_swap_lower(0, 0, MOESI_WRITE_BACK, 9) == UINT64_C(0x0000000900000F0A));
    CHECK(moesi_order_swap_upper(1, 1, MOESI_WRITE_BACK, 1) == UINT64_C(0x000000010001F01A));
    CHECK(moesi_order_swap_upper(0, 1, MOESI_WRITE_THROUGH, 1) == UINT64_C(0x000000010001F002));
    CHECK(moesi_order_write(0, 1, MOESI_WRITE_THROUGH, 0x01) == 0x10101);
    CHECK(moesi_order_flush(1, 1) == 0x10013);
    CHECK(moesi_order_device_read(0) == 4);
    CHECK(moesi_order_device_write(0, 0) == 5);
    CHECK(moesi_order_device_write(1, 0x81) == 0x18105);
}

/* Every field at its ends, and numbers that are too large for their field. */
static void check_order_fields(void)
{
    CHECK(moesi_order_read(7, 4095, MOESI_WRITE_BACK) == 0x0FFF0078);
    CHECK(moesi_order_swap_lower(7, 4095, MOESI_WRITE_BACK, 0xFFFFFFFF) == UINT64_C(0xFFFFFFFF0FFF0F7A));
    CHECK(moesi_order_device_read(4095) == 0x0FFF0004);
    CHECK(moesi_order_device_write(4095, 0xFF) == 0x0FFFFF05);
    CHECK(moesi_order_write(3, 256, MOESI_WRITE_THROUGH, 0xA5) == 0x0100A531);
    CHECK(moesi_order_read(14, 65534, MOESI_WRITE_THROUGH) == 0xFFFE00E0u);
    CHECK(moesi_order_read(16, 0, MOESI_WRITE_THROUGH) == 0xF0);
    CHECK(moesi_order_read(UINT64_MAX, 0, MOESI_WRITE_THROUGH) == 0xF0);
    CHECK(moesi_order_flush(0, 65536) == 0xFFFF0003u);
    CHECK(moesi_order_device_read(UINT64_MAX) == 0xFFFF0004u);
    CHECK(moesi_order_device_write(65534, 0x5A) == 0xFFFE5A05u);
    CHECK(moesi_order_device_write(65536, 0x5A) == 0xFFFF5A05u);
    CHECK(moesi_order_device_write(UINT64_MAX, 0) == 0xFFFF0005u);
    CHECK(moesi_order_read(0, 0, 2) == 0x08);
    CHECK(moesi_order_word(15, 0, 0, 0, 0x1FF, UINT64_C(0x500000003)) == UINT64_C(0x30000FF07));
    CHECK(moesi_operand_lower(0x89ABCDEF) == 0x89ABCDEFu);
    CHECK(moesi_operand_upper(0x89ABCDEF) == UINT64_C(0x89ABCDEF00000000));
}

static void check_constants(void)
{
    CHECK(MOESI_MAX_PORTS == 8 && MOESI_MAX_SETS == 64 && MOESI_MAX_LINES == 4096);
    CHECK(MOESI_ANSWER_BYTES == 40 && MOESI_VERDICT_BYTES == 1);
    CHECK(MOESI_READ == 0 && MOESI_WRITE == 1 && MOESI_SWAP == 2 && MOESI_FLUSH == 3);
    CHECK(MOESI_DEVICE_READ == 4 && MOESI_DEVICE_WRITE == 5);
    CHECK(MOESI_WRITE_THROUGH == 0 && MOESI_WRITE_BACK == 1);
    CHECK(MOESI_LOWER_HALF == 0x0F && MOESI_UPPER_HALF == 0xF0);
    CHECK(MOESI_INVALID == 0 && MOESI_THROUGH_SHARED == 1 && MOESI_THROUGH_EXCLUSIVE == 2);
    CHECK(MOESI_BACK_SHARED == 9 && MOESI_BACK_EXCLUSIVE == 10 && MOESI_OWNED == 11 && MOESI_MODIFIED == 12);
    CHECK(MOESI_ACCEPTED == 0 && MOESI_REFUSED_TRACE == 1 && MOESI_REFUSED_SHAPE == 2);
    CHECK(MOESI_REFUSED_LENGTH == 3 && MOESI_REFUSED_KIND == 4 && MOESI_REFUSED_PORT == 5);
    CHECK(MOESI_REFUSED_LINE == 6 && MOESI_REFUSED_MASK == 7 && MOESI_REFUSED_ENTRY == 8);
    CHECK(MOESI_REFUSED_TOTALS == 9 && MOESI_REFUSED_STATE == 10 && MOESI_REFUSED_THROUGH == 11);
    CHECK(MOESI_REFUSED_RANGE == 12);
    CHECK(MOESI_OLD_INVALID == 0 && MOESI_OLD_SHARED == 1 && MOESI_OLD_EXCLUSIVE == 2);
    CHECK(MOESI_OLD_OWNED == 3 && MOESI_OLD_MODIFIED == 4);
    CHECK(MOESI_KINDS == 6 && MOESI_RECORD_BYTES == 80 && MOESI_MOST_TOTAL == UINT64_C(18446744073709551613));
    CHECK(MOESI_TOTAL_ACCEPTED(MOESI_READ) == 0 && MOESI_TOTAL_ACCEPTED(MOESI_DEVICE_WRITE) == 5);
    CHECK(MOESI_TOTAL_REFUSED == 6 && MOESI_TOTAL_READS == 7 && MOESI_TOTAL_WRITES == 8 && MOESI_TOTAL_SWAPS == 9);
}

static void check_sizes(void)
{
    struct moesi_sizes small = moesi_sizes_of(1, 1, 1);
    struct moesi_sizes large = moesi_sizes_of(8, 64, 4096);
    struct moesi_sizes none = moesi_sizes_of(9, 64, 4096);
    struct moesi_sizes wrapped = moesi_sizes_of(1, 1, UINT64_C(1) << 61);

    CHECK(small.memory == 8 && small.tags == 4 && small.states == 1 && small.data == 8);
    CHECK(large.memory == 32768 && large.tags == 2048 && large.states == 512 && large.data == 4096);
    CHECK(none.memory == 0 && none.tags == 0 && none.states == 0 && none.data == 0);
    CHECK(wrapped.memory == 0 && wrapped.tags == 0);
    CHECK(!moesi_shape_in_range(0, 1, 1) && !moesi_shape_in_range(1, 0, 1) && !moesi_shape_in_range(1, 1, 0));
    CHECK(!moesi_shape_in_range(9, 1, 1) && !moesi_shape_in_range(1, 3, 1) && !moesi_shape_in_range(1, 128, 1));
    CHECK(!moesi_shape_in_range(1, 1, 4097) && !moesi_shape_in_range(1, 65, 1));
    for (uint64_t sets = 1; sets <= 64; sets *= 2)
        CHECK(moesi_shape_in_range(8, sets, 4096) && moesi_shape_in_range(1, sets, 1));
}

static void check_words(void)
{
    uint8_t bytes[25];
    static const uint8_t expected[8] = {0xEF, 0xCD, 0xAB, 0x89, 0x67, 0x45, 0x23, 0x01};

    memset(bytes, 0x77, sizeof bytes);
    /* From byte 1 on, so that the word lies at no alignment. */
    moesi_put_word(bytes + 1, 1, UINT64_C(0x0123456789ABCDEF));
    CHECK(memcmp(bytes + 9, expected, 8) == 0);
    CHECK(bytes[8] == 0x77 && bytes[17] == 0x77);
    CHECK(moesi_get_word(bytes + 1, 1) == UINT64_C(0x0123456789ABCDEF));
    CHECK(moesi_get_word(bytes + 1, 0) == UINT64_C(0x7777777777777777));
}

static void check_answer(void)
{
    uint8_t bytes[40];
    struct moesi_answer answer;

    for (size_t k = 0; k < 40; k++)
        bytes[k] = (uint8_t)k;
    answer = moesi_read_answer(bytes);
    CHECK(answer.refusal == UINT64_C(0x0706050403020100));
    CHECK(answer.value == UINT64_C(0x0F0E0D0C0B0A0908));
    CHECK(answer.swapped == UINT64_C(0x1716151413121110));
    CHECK(answer.memory_reads == UINT64_C(0x1F1E1D1C1B1A1918));
    CHECK(answer.memory_writes == UINT64_C(0x2726252423222120));
}

static void check_totals(void)
{
    uint8_t bytes[81];
    struct moesi_totals totals;

    for (size_t k = 0; k < 81; k++)
        bytes[k] = (uint8_t)k;
    /* From byte 1 on, so that the record lies at no alignment. */
    totals = moesi_read_totals(bytes + 1);
    CHECK(totals.accepted[0] == UINT64_C(0x0807060504030201) && totals.accepted[1] == UINT64_C(0x100F0E0D0C0B0A09));
    CHECK(totals.accepted[2] == UINT64_C(0x1817161514131211) && totals.accepted[3] == UINT64_C(0x201F1E1D1C1B1A19));
    CHECK(totals.accepted[4] == UINT64_C(0x2827262524232221) && totals.accepted[5] == UINT64_C(0x302F2E2D2C2B2A29));
    CHECK(totals.refused == UINT64_C(0x3837363534333231));
    CHECK(totals.memory_reads == UINT64_C(0x403F3E3D3C3B3A39));
    CHECK(totals.memory_writes == UINT64_C(0x4847464544434241));
    CHECK(totals.swaps == UINT64_C(0x504F4E4D4C4B4A49));
}

/* A step with a record on the smallest shape: the name links, and the totals are read. */
static void check_step_totals(void)
{
    uint8_t memory[8] = {0}, tags[4] = {0}, states[1] = {0}, data[8] = {0}, answer[40];
    uint8_t record[MOESI_RECORD_BYTES] = {0};
    struct moesi_totals totals;

    CHECK(moesi_step_totals(1, 1, 1, 0, 0, 0, 0, moesi_order_swap_lower(0, 0, MOESI_WRITE_THROUGH, 0), 3, memory, 8,
                            tags, 4, states, 1, data, 8, answer, 40, record, sizeof record) == MOESI_ACCEPTED);
    totals = moesi_read_totals(record);
    CHECK(totals.accepted[MOESI_SWAP] == 1 && totals.swaps == 1 && totals.refused == 0);
    CHECK(totals.memory_reads == 1 && totals.memory_writes == 1 && moesi_get_word(memory, 0) == 3);
    CHECK(moesi_step_totals(1, 1, 1, 0, 0, 0, 0, 7, 0, memory, 8, tags, 4, states, 1, data, 8, answer, 40, record,
                            sizeof record) == MOESI_REFUSED_KIND);
    CHECK(moesi_read_totals(record).refused == 1);
    CHECK(moesi_step_totals(1, 1, 1, 0, 0, 0, 2, 7, 0, memory, 8, tags, 4, states, 1, data, 8, answer, 40, record,
                            sizeof record) == MOESI_REFUSED_RANGE);
    CHECK(moesi_read_totals(record).refused == 2);
    CHECK(moesi_step_totals(1, 1, 1, 0, 0, 0, 2, 7, 0, memory, 8, tags, 4, states, 1, data, 8, answer, 40, NULL, 0) ==
          MOESI_REFUSED_LENGTH);
    moesi_put_word(record, MOESI_TOTAL_WRITES, MOESI_MOST_TOTAL + 1);
    CHECK(moesi_step_totals(0, 0, 0, 1, 1, 1, 1, 0, 0, NULL, 0, NULL, 0, NULL, 0, NULL, 0, answer, 40, record,
                            sizeof record) == MOESI_REFUSED_TOTALS);
    CHECK(moesi_read_answer(answer).refusal == MOESI_REFUSED_TOTALS && moesi_read_totals(record).refused == 2);
}

/* The three calls on the smallest shape: the names link, and an answer is read. */
static void check_calls(void)
{
    uint8_t memory[8], tags[4] = {1, 1, 1, 1}, states[1] = {1}, data[8] = {1}, answer[40], verdict[1] = {7};
    struct moesi_answer read;

    moesi_put_word(memory, 0, 99);
    CHECK(moesi_fresh(1, 1, 1, 0, 0, 0, 0, memory, 8, tags, 4, states, 1, data, 8) == MOESI_ACCEPTED);
    CHECK(moesi_step(1, 1, 1, 0, 0, 0, 0, moesi_order_read(0, 0, MOESI_WRITE_BACK), 0, memory, 8, tags, 4, states, 1,
                     data, 8, answer, 40) == MOESI_ACCEPTED);
    read = moesi_read_answer(answer);
    CHECK(read.refusal == 0 && read.value == 99 && read.swapped == 0);
    CHECK(read.memory_reads == 1 && read.memory_writes == 0);
    CHECK(states[0] == MOESI_BACK_EXCLUSIVE && moesi_get_word(data, 0) == 99);
    CHECK(moesi_step(1, 1, 1, 0, 0, 0, 0, moesi_order_device_write(0, 0x02), 0x1234, memory, 8, tags, 4, states, 1,
                     data, 8, answer, 40) == MOESI_ACCEPTED);
    read = moesi_read_answer(answer);
    CHECK(read.refusal == 0 && read.value == 0 && read.swapped == 0);
    CHECK(read.memory_reads == 1 && read.memory_writes == 1);
    CHECK(states[0] == MOESI_INVALID && moesi_get_word(data, 0) == 99 && moesi_get_word(memory, 0) == 0x1263);
    CHECK(moesi_audit(1, 1, 1, 0, 0, 0, 0, memory, 8, tags, 4, states, 1, data, 8, verdict, 1) == MOESI_ACCEPTED);
    CHECK(verdict[0] == 1);
    CHECK(moesi_audit(1, 1, 1, 0, 0, 0, 0, NULL, 0, NULL, 0, NULL, 0, NULL, 0, NULL, 0) == MOESI_REFUSED_LENGTH);
}

/* The state byte that a read leaves on the smallest shape under ranges; the refusal, negative, if it is refused. */
static int read_under(uint64_t scratch_first, uint64_t scratch_count, uint64_t device_first, uint64_t device_count,
                      uint64_t mode)
{
    uint8_t memory[8] = {0}, tags[4] = {0}, states[1] = {0}, data[8] = {0}, answer[40], verdict[1] = {7};
    uint64_t fresh = moesi_fresh(1, 1, 1, scratch_first, scratch_count, device_first, device_count, memory, 8, tags, 4,
                                 states, 1, data, 8);
    uint64_t step = moesi_step(1, 1, 1, scratch_first, scratch_count, device_first, device_count,
                               moesi_order_read(0, 0, mode), 0, memory, 8, tags, 4, states, 1, data, 8, answer, 40);
    uint64_t audit = moesi_audit(1, 1, 1, scratch_first, scratch_count, device_first, device_count, memory, 8, tags, 4,
                                 states, 1, data, 8, verdict, 1);

    CHECK(fresh == step && audit == step && verdict[0] == (step == MOESI_ACCEPTED));
    return step == MOESI_ACCEPTED ? states[0] : -(int)step;
}

/* The ranges of the calls: scratch before the device range, each by its first line and its count. */
static void check_ranges(void)
{
    CHECK(read_under(0, 0, 0, 0, MOESI_WRITE_BACK) == 10 && read_under(0, 0, 0, 0, MOESI_WRITE_THROUGH) == 2);
    CHECK(read_under(0, 1, 0, 0, MOESI_WRITE_BACK) == 10 && read_under(0, 1, 0, 0, MOESI_WRITE_THROUGH) == 10);
    CHECK(read_under(0, 0, 0, 1, MOESI_WRITE_BACK) == 2 && read_under(0, 0, 0, 1, MOESI_WRITE_THROUGH) == 2);
    CHECK(read_under(0, 1, 0, 1, MOESI_WRITE_BACK) == 10 && read_under(0, 1, 0, 1, MOESI_WRITE_THROUGH) == 10);
    CHECK(read_under(1, 0, UINT64_MAX, 0, MOESI_WRITE_THROUGH) == 2);
    CHECK(read_under(1, 1, 0, 0, MOESI_WRITE_BACK) == -12 && read_under(0, 0, 1, 1, MOESI_WRITE_BACK) == -12);
    CHECK(read_under(0, 2, 0, 0, MOESI_WRITE_BACK) == -12 && read_under(0, 0, 0, 2, MOESI_WRITE_BACK) == -12);
    CHECK(read_under(UINT64_MAX, 1, 0, 0, MOESI_WRITE_BACK) == -12);
    CHECK(read_under(0, 0, UINT64_C(1) << 63, UINT64_C(1) << 63, MOESI_WRITE_BACK) == -12);
}

/* The conversions on the smallest shape: the names link, and each of their refusals is given. */
static void check_conversions(void)
{
    static const uint8_t tags[4] = {1, 2, 3, 4}, data[8] = {11, 12, 13, 14, 15, 16, 17, 18};
    uint8_t states[1] = {MOESI_OLD_OWNED}, tags_out[4] = {0}, states_out[1] = {7}, data_out[8] = {0};

    CHECK(moesi_from_old(1, 1, 1, tags, 4, states, 1, data, 8, tags_out, 4, states_out, 1, data_out, 8) ==
          MOESI_ACCEPTED);
    CHECK(states_out[0] == MOESI_OWNED && memcmp(tags, tags_out, 4) == 0 && memcmp(data, data_out, 8) == 0);
    states[0] = 5;
    CHECK(moesi_from_old(1, 1, 1, tags, 4, states, 1, data, 8, tags_out, 4, states_out, 1, data_out, 8) ==
          MOESI_REFUSED_STATE);
    states[0] = MOESI_MODIFIED;
    CHECK(moesi_to_old(1, 1, 1, tags, 4, states, 1, data, 8, tags_out, 4, states_out, 1, data_out, 8) ==
          MOESI_ACCEPTED);
    CHECK(states_out[0] == MOESI_OLD_MODIFIED && memcmp(tags, tags_out, 4) == 0 && memcmp(data, data_out, 8) == 0);
    states[0] = MOESI_THROUGH_EXCLUSIVE;
    CHECK(moesi_to_old(1, 1, 1, tags, 4, states, 1, data, 8, tags_out, 4, states_out, 1, data_out, 8) ==
          MOESI_REFUSED_THROUGH);
    CHECK(states_out[0] == MOESI_OLD_MODIFIED);
    CHECK(moesi_to_old(1, 1, 1, NULL, 0, NULL, 0, NULL, 0, NULL, 0, NULL, 0, NULL, 0) == MOESI_REFUSED_LENGTH);
    CHECK(moesi_from_old(0, 1, 1, NULL, 0, NULL, 0, NULL, 0, NULL, 0, NULL, 0, NULL, 0) == MOESI_REFUSED_SHAPE);
}

int main(void)
{
    check_order_words();
    check_order_fields();
    check_constants();
    check_sizes();
    check_words();
    check_answer();
    check_totals();
    check_calls();
    check_ranges();
    check_step_totals();
    check_conversions();
    return failures == 0 ? 0 : 1;
}
