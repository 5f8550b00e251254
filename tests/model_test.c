/* Checks struct moesi_model of include/moesi.h: its calls against those under it, its looks against orders. */

#include "generator.h"
#include "moesi.h"

#include <stdio.h>
#include <string.h>

/* GUARD is odd, so that lent bytes lie at no alignment. */
enum { MOST_MEMORY = 8 * 4096, MOST_ENTRIES = 8 * 64, MOST_ROOM = 13 * MOST_ENTRIES, GUARD = 61, GUARD_BYTE = 0xA5 };

struct shape {
    uint64_t ports, sets, lines;
};

struct ranges {
    uint64_t scratch_first, scratch_count, device_first, device_count;
};

static const struct ranges no_ranges = {0, 0, 0, 0};

static const struct shape shapes[] = {
    {1, 1, 1},  {8, 1, 1}, {1, 64, 1},   {2, 1, 2},  {1, 1, 4096},  {3, 8, 5},
    {2, 4, 16}, {4, 2, 7}, {5, 16, 100}, {8, 64, 9}, {7, 32, 1000}, {8, 64, 4096},
};

enum { SHAPES = sizeof shapes / sizeof shapes[0] };

/* Numbers that no shape has at the place of ports, sets or lines. */
static const uint64_t no_ports[] = {0, 9, 15, 256, UINT64_C(0x100000001), UINT64_MAX};
static const uint64_t no_sets[] = {0, 3, 48, 65, 128, 256, UINT64_C(0x100000001), UINT64_C(1) << 63, UINT64_MAX};
static const uint64_t no_lines[] = {0, 4097, 65536, UINT64_C(0x100000001), UINT64_C(1) << 61, UINT64_MAX};

enum {
    NO_PORTS = sizeof no_ports / sizeof no_ports[0],
    NO_SETS = sizeof no_sets / sizeof no_sets[0],
    NO_LINES = sizeof no_lines / sizeof no_lines[0],
};

static struct generator generator = {1};
static int failures;

/* What is being checked, for the lines that fail. */
static struct shape now;

/* After the first failure the checks soon come to an end: what is broken is not used for long. */
static void check_at(int line, int holds, const char *what)
{
    if (!holds && failures++ < 20) {
        printf("FAILED line %d, ports %llu sets %llu lines %llu: %s\n", line, (unsigned long long)now.ports,
               (unsigned long long)now.sets, (unsigned long long)now.lines, what);
        fflush(stdout);
    }
}

#define CHECK(condition) check_at(__LINE__, (condition) ? 1 : 0, #condition)

/* What has come up, so that no check is passed by looking at nothing. */
static unsigned refusals_seen[13], states_seen[256], swaps_seen, clean_seen, dirty_seen, passed_seen, failed_seen;
static unsigned device_writes_seen, counted_seen[10], full_seen, other_length_seen;
static unsigned from_old_seen[12], to_old_seen[12], converted_passed_seen, converted_failed_seen;
static unsigned setters_seen[13], ranged_seen[4];

/* Lent bytes, with guard bytes before and after them. */
struct lent {
    size_t len;
    uint8_t bytes[GUARD + MOST_MEMORY + GUARD];
};

static uint8_t *lend(struct lent *lent, size_t len)
{
    lent->len = len;
    memset(lent->bytes, GUARD_BYTE, sizeof lent->bytes);
    return lent->bytes + GUARD;
}

static int unharmed(const struct lent *lent)
{
    const uint8_t *after = lent->bytes + GUARD + lent->len;

    for (size_t k = 0; k < GUARD; k++)
        if (lent->bytes[k] != GUARD_BYTE || after[k] != GUARD_BYTE)
            return 0;
    return 1;
}

static int all_zeros(const uint8_t *bytes, size_t len)
{
    for (size_t k = 0; k < len; k++)
        if (bytes[k] != 0)
            return 0;
    return 1;
}

/* Small words often, so that swaps find their compare value. */
static uint64_t random_word(void)
{
    uint64_t upper = generator_below(&generator, 3), lower = generator_below(&generator, 3);

    return generator_percent(&generator, 60) ? upper << 32 | lower : generator_word(&generator);
}

static void fill_with_words(uint8_t *bytes, size_t len)
{
    for (size_t k = 0; k < len / 8; k++)
        moesi_put_word(bytes, k, random_word());
}

static void fill_with_bytes(uint8_t *bytes, size_t len)
{
    for (size_t k = 0; k < len; k++)
        bytes[k] = (uint8_t)generator_below(&generator, 256);
}

/* One model twice: the struct over lent bytes, and memory and tables of their own for the three calls. */
struct both {
    struct shape shape;
    struct ranges ranges; /* as the struct is to have them */
    struct lent memory_lent, room_lent;
    struct moesi_model m;
    size_t entries;
    uint8_t memory[MOST_MEMORY], tags[4 * MOST_ENTRIES], states[MOST_ENTRIES], data[8 * MOST_ENTRIES];
};

static size_t memory_bytes(struct shape shape)
{
    return (size_t)(8 * shape.lines);
}

static size_t room_bytes(struct shape shape)
{
    return (size_t)(13 * shape.ports * shape.sets);
}

/* Marks the table's bytes in the room; 0 if one is outside of it or marked already. */
static int mark(uint8_t *marks, const struct both *both, const uint8_t *table, size_t len)
{
    size_t from = (size_t)(table - (both->room_lent.bytes + GUARD));

    if (from > both->room_lent.len || len > both->room_lent.len - from)
        return 0;
    for (size_t k = from; k < from + len; k++)
        if (marks[k]++ != 0)
            return 0;
    return 1;
}

/* The tables lie in the room, have their sizes and share no byte; the ranges are empty. */
static void check_cut(const struct both *both)
{
    uint8_t marks[MOST_ROOM] = {0};
    const struct moesi_model *m = &both->m;

    CHECK(m->ports == both->shape.ports && m->sets == both->shape.sets && m->lines == both->shape.lines);
    CHECK(m->scratch_first == 0 && m->scratch_count == 0 && m->device_first == 0 && m->device_count == 0);
    CHECK(m->memory == both->memory_lent.bytes + GUARD && m->sizes.memory == memory_bytes(both->shape));
    CHECK(m->sizes.tags == 4 * both->entries && m->sizes.states == both->entries && m->sizes.data == 8 * both->entries);
    CHECK(mark(marks, both, m->tags, 4 * both->entries));
    CHECK(mark(marks, both, m->states, both->entries));
    CHECK(mark(marks, both, m->data, 8 * both->entries));
}

/* Lends memory and a room to the struct, which isn't opened yet, and gives the three calls the same memory. */
static void lend_both(struct both *both, struct shape shape)
{
    now = shape;
    both->shape = shape;
    both->ranges = no_ranges;
    both->entries = (size_t)(shape.ports * shape.sets);
    fill_with_words(lend(&both->memory_lent, memory_bytes(shape)), memory_bytes(shape));
    fill_with_bytes(lend(&both->room_lent, room_bytes(shape)), room_bytes(shape));
    memcpy(both->memory, both->memory_lent.bytes + GUARD, memory_bytes(shape));
    memset(&both->m, 0x5A, sizeof both->m);
}

/* Whether a range has lines and ends beyond the last. */
static int ends_beyond(uint64_t first, uint64_t count, uint64_t lines)
{
    return count > lines || (count > 0 && first > lines - count);
}

/* What the setters and the refusal are to give under ranges. */
static uint64_t refusal_under(struct shape shape, struct ranges ranges)
{
    return ends_beyond(ranges.scratch_first, ranges.scratch_count, shape.lines) ||
                   ends_beyond(ranges.device_first, ranges.device_count, shape.lines)
               ? MOESI_REFUSED_RANGE
               : MOESI_ACCEPTED;
}

/* The verdict of moesi_audit on the tables laid out here. */
static int passes(const struct both *both)
{
    uint8_t verdict = 7;

    moesi_audit(both->shape.ports, both->shape.sets, both->shape.lines, both->ranges.scratch_first,
                both->ranges.scratch_count, both->ranges.device_first, both->ranges.device_count, both->memory,
                memory_bytes(both->shape), both->tags, 4 * both->entries, both->states, both->entries, both->data,
                8 * both->entries, &verdict, 1);
    return verdict;
}

/* Memory, tables and verdict are the same both ways, and no byte beside the lent ones was written. */
static void compare(const struct both *both)
{
    int verdict = passes(both);

    CHECK(memcmp(both->memory_lent.bytes + GUARD, both->memory, memory_bytes(both->shape)) == 0);
    CHECK(memcmp(both->m.tags, both->tags, 4 * both->entries) == 0);
    CHECK(memcmp(both->m.states, both->states, both->entries) == 0);
    CHECK(memcmp(both->m.data, both->data, 8 * both->entries) == 0);
    CHECK(moesi_model_passes(&both->m) == verdict);
    CHECK(unharmed(&both->memory_lent) && unharmed(&both->room_lent));
    if (refusal_under(both->shape, both->ranges) == MOESI_ACCEPTED)
        *(verdict ? &passed_seen : &failed_seen) += 1;
}

/* A fresh model both ways. Init is to clear the room and nothing else. */
static void start(struct both *both, struct shape shape)
{
    lend_both(both, shape);
    CHECK(moesi_model_init(&both->m, shape.ports, shape.sets, shape.lines, both->memory_lent.bytes + GUARD,
                           both->memory_lent.len, both->room_lent.bytes + GUARD, both->room_lent.len) == 0);
    CHECK(all_zeros(both->room_lent.bytes + GUARD, both->room_lent.len));
    check_cut(both);
    if (failures)
        return;
    CHECK(moesi_fresh(shape.ports, shape.sets, shape.lines, 0, 0, 0, 0, both->memory, memory_bytes(shape), both->tags,
                      4 * both->entries, both->states, both->entries, both->data, 8 * both->entries) == 0);
    compare(both);
}

/* One order both ways, through the struct m; its answer. */
static struct moesi_answer step(struct both *both, struct moesi_model *m, uint64_t word, uint64_t operand)
{
    uint8_t bytes[40];
    struct moesi_answer answer = moesi_model_step(m, word, operand);
    uint64_t refusal =
        moesi_step(both->shape.ports, both->shape.sets, both->shape.lines, both->ranges.scratch_first,
                   both->ranges.scratch_count, both->ranges.device_first, both->ranges.device_count, word, operand,
                   both->memory, memory_bytes(both->shape), both->tags, 4 * both->entries, both->states, both->entries,
                   both->data, 8 * both->entries, bytes, sizeof bytes);

    CHECK(answer.refusal == refusal && answer.refusal == moesi_get_word(bytes, 0));
    CHECK(answer.value == moesi_get_word(bytes, 1));
    CHECK(answer.swapped == moesi_get_word(bytes, 2));
    CHECK(answer.memory_reads == moesi_get_word(bytes, 3));
    CHECK(answer.memory_writes == moesi_get_word(bytes, 4));
    compare(both);
    refusals_seen[refusal < 13 ? refusal : 0]++;
    swaps_seen += (unsigned)answer.swapped;
    return answer;
}

static int has_ranges(const struct moesi_model *m, struct ranges ranges)
{
    return m->scratch_first == ranges.scratch_first && m->scratch_count == ranges.scratch_count &&
           m->device_first == ranges.device_first && m->device_count == ranges.device_count;
}

/* Asks for the refusal, which changes neither the struct nor a lent byte. */
static void check_refusal(struct both *both, uint64_t due)
{
    struct moesi_model before = both->m;

    CHECK(moesi_model_refusal(&both->m) == due);
    CHECK(memcmp(&before, &both->m, sizeof before) == 0);
    compare(both);
}

/* Sets one range, whatever it is; the other stays, and so do memory and tables. */
static void set_range(struct both *both, int device, uint64_t first, uint64_t count)
{
    struct ranges *ranges = &both->ranges;
    struct moesi_model before = both->m;
    uint64_t refusal = (device ? moesi_model_set_device : moesi_model_set_scratch)(&both->m, first, count);

    *(device ? &ranges->device_first : &ranges->scratch_first) = first;
    *(device ? &ranges->device_count : &ranges->scratch_count) = count;
    CHECK(refusal == refusal_under(both->shape, *ranges) && has_ranges(&both->m, *ranges));
    CHECK(both->m.memory == before.memory && both->m.tags == before.tags && both->m.states == before.states);
    CHECK(both->m.data == before.data && both->m.ports == before.ports && both->m.sets == before.sets);
    CHECK(both->m.lines == before.lines);
    check_refusal(both, refusal_under(both->shape, *ranges));
    setters_seen[refusal < 13 ? refusal : 0]++;
}

/* Sets both ranges within lines; either may be empty. */
static void set_some_ranges(struct both *both)
{
    uint64_t lines = both->shape.lines;

    for (int device = 0; device < 2; device++) {
        uint64_t first = generator_below(&generator, lines);
        uint64_t count = 1 + generator_below(&generator, lines - first);

        if (generator_percent(&generator, 30))
            count = 0;
        set_range(both, device, count == 0 && generator_percent(&generator, 50) ? UINT64_MAX : first, count);
    }
}

/* A record twice: as it is lent to the struct, between guard bytes, and as it is lent to the call. */
struct records {
    uint8_t lent[GUARD + 96 + GUARD], own[96];
    size_t len;
};

/* Totals as the places of document 02 have them: kinds 0 to 5, refused, reads, writes, swaps. */
static void lend_records(struct records *records, const uint64_t *totals, size_t len)
{
    memset(records->lent, GUARD_BYTE, sizeof records->lent);
    memset(records->own, GUARD_BYTE, sizeof records->own);
    for (size_t k = 0; k < 80; k++)
        records->own[k] = (uint8_t)(totals[k / 8] >> 8 * (k % 8) & 255);
    memcpy(records->lent + GUARD, records->own, len);
    records->len = len;
}

static int records_agree(const struct records *records)
{
    for (size_t k = 0; k < GUARD; k++)
        if (records->lent[k] != GUARD_BYTE || records->lent[GUARD + records->len + k] != GUARD_BYTE)
            return 0;
    return memcmp(records->lent + GUARD, records->own, records->len) == 0;
}

/* One order both ways with a record each, which then agree; also where they are refused for a total or their length. */
static struct moesi_answer step_totals(struct both *both, struct moesi_model *m, uint64_t word, uint64_t operand,
                                       struct records *records)
{
    uint8_t bytes[40];
    size_t len = records->len;
    struct moesi_answer answer =
        moesi_model_step_totals(m, word, operand, len > 0 ? records->lent + GUARD : NULL, len);
    uint64_t refusal =
        moesi_step_totals(both->shape.ports, both->shape.sets, both->shape.lines, both->ranges.scratch_first,
                          both->ranges.scratch_count, both->ranges.device_first, both->ranges.device_count, word,
                          operand, both->memory, memory_bytes(both->shape), both->tags, 4 * both->entries,
                          both->states, both->entries, both->data, 8 * both->entries, bytes, sizeof bytes,
                          records->own, len);

    CHECK(answer.refusal == refusal && answer.refusal == moesi_get_word(bytes, 0));
    CHECK(answer.value == moesi_get_word(bytes, 1) && answer.swapped == moesi_get_word(bytes, 2));
    CHECK(answer.memory_reads == moesi_get_word(bytes, 3) && answer.memory_writes == moesi_get_word(bytes, 4));
    CHECK(records_agree(records));
    compare(both);
    return answer;
}

/* A line: few are favoured, so that ports meet and entries are fought for. */
static uint64_t random_line(struct shape shape)
{
    uint64_t tag = generator_below(&generator, 4), index = generator_below(&generator, 2) % shape.sets;

    if (generator_percent(&generator, 70))
        return (tag * shape.sets + index) % shape.lines;
    return generator_below(&generator, shape.lines);
}

static uint64_t random_mask(uint64_t kind)
{
    if (kind == MOESI_SWAP && generator_percent(&generator, 90))
        return generator_percent(&generator, 50) ? MOESI_LOWER_HALF : MOESI_UPPER_HALF;
    return generator_below(&generator, 256);
}

/* An order of any kind; now and then its kind, its port, its line or its mask is one that is refused. */
static uint64_t random_order(struct shape shape)
{
    uint64_t kind = generator_below(&generator, 6), mode = generator_below(&generator, 2);
    uint64_t port = generator_below(&generator, shape.ports), line = random_line(shape);
    uint64_t mask = random_mask(kind), compare = generator_below(&generator, 3);

    if (generator_percent(&generator, 2))
        kind = 6 + generator_below(&generator, 4);
    if (generator_percent(&generator, 2))
        port = shape.ports + generator_below(&generator, 12);
    if (generator_percent(&generator, 2))
        line = generator_percent(&generator, 70) ? shape.lines + generator_below(&generator, 3) : UINT64_MAX;
    return moesi_order_word(kind, mode, port, line, mask, compare);
}

static void random_step(struct both *both, struct moesi_model *m)
{
    uint64_t word = random_order(both->shape), operand = random_word();

    step(both, m, word, operand);
}

/* Line number k of those that are looked at: the ends and lines out of range first, then every line or random ones. */
static uint64_t looked_at(struct shape shape, unsigned k)
{
    const uint64_t ends[] = {
        0,     shape.lines - 1, shape.lines,           shape.lines + 1,   shape.lines + shape.sets,
        65535, 65536,           UINT64_C(0x100000000), UINT64_C(1) << 61, UINT64_MAX,
    };

    if (k < 10)
        return ends[k];
    if (shape.lines <= 16)
        return (k - 10) % shape.lines;
    return random_line(shape);
}

enum { LOOKED_AT = 10 + 16 };

/* The state by the header's first page: an entry's home line is its tag times sets plus its index. */
static uint8_t state_in_tables(const struct both *both, uint64_t port, uint64_t line)
{
    uint64_t index = line % both->shape.sets, tag = 0;
    size_t entry = (size_t)(port * both->shape.sets + index);

    if (port >= both->shape.ports || line >= both->shape.lines)
        return MOESI_INVALID;
    for (size_t k = 4; k-- > 0;)
        tag = 256 * tag + both->tags[4 * entry + k];
    return tag * both->shape.sets + index == line ? both->states[entry] : (uint8_t)MOESI_INVALID;
}

/* Every port's state of the line, and those of ports that there aren't. */
static void check_states(const struct both *both, const struct moesi_model *m, uint64_t line)
{
    const uint64_t ports = both->shape.ports;
    const uint64_t beyond[] = {ports, ports + 1, 15, 16, UINT64_C(0x100000000), UINT64_C(1) << 63, UINT64_MAX};

    for (uint64_t port = 0; port < ports; port++) {
        CHECK(moesi_model_state(m, port, line) == state_in_tables(both, port, line));
        states_seen[state_in_tables(both, port, line)]++;
    }
    for (size_t k = 0; k < sizeof beyond / sizeof beyond[0]; k++)
        CHECK(moesi_model_state(m, beyond[k], line) == MOESI_INVALID);
}

/* Opens a copy of memory and room. Both end where their arrays do, so that a sanitizer sees a look beyond. */
static void open_copy(const struct both *both, struct moesi_model *copy)
{
    static uint8_t memories[MOST_MEMORY], rooms[MOST_ROOM];
    size_t memory_len = both->memory_lent.len, room_len = both->room_lent.len;
    uint8_t *memory = memories + sizeof memories - memory_len, *room = rooms + sizeof rooms - room_len;

    memcpy(memory, both->memory_lent.bytes + GUARD, memory_len);
    memcpy(room, both->room_lent.bytes + GUARD, room_len);
    memset(copy, 0, sizeof *copy);
    CHECK(moesi_model_open(copy, both->shape.ports, both->shape.sets, both->shape.lines, memory, memory_len, room,
                           room_len) == MOESI_ACCEPTED);
}

/* What an order answers on a copy of the model. */
static struct moesi_answer on_a_copy(const struct both *both, uint64_t word)
{
    struct moesi_model copy;

    open_copy(both, &copy);
    return moesi_model_step(&copy, word, 0);
}

/* The line's word is what any port reads, in either mode; the line is clean if a device reads the same. */
static void check_word(const struct both *both, const struct moesi_model *m, uint64_t line)
{
    uint64_t expected = line < both->shape.lines ? MOESI_ACCEPTED : MOESI_REFUSED_LINE;
    uint64_t word = moesi_model_word(m, line);
    struct moesi_answer device = on_a_copy(both, moesi_order_device_read(line));
    int clean = device.refusal == MOESI_ACCEPTED && device.value == word;

    for (uint64_t port = 0; port < both->shape.ports; port++) {
        uint64_t mode = generator_below(&generator, 2);
        struct moesi_answer read = on_a_copy(both, moesi_order_read(port, line, mode));

        CHECK(read.refusal == expected && read.value == word);
    }
    CHECK(device.refusal == expected);
    CHECK(moesi_model_clean(m, line) == clean);
    *(clean ? &clean_seen : &dirty_seen) += line < both->shape.lines;
}

/* Looks at a model that passes the audit. */
static void look(const struct both *both, const struct moesi_model *m)
{
    for (unsigned k = 0; k < LOOKED_AT && !failures; k++) {
        uint64_t line = looked_at(both->shape, k);

        check_states(both, m, line);
        check_word(both, m, line);
    }
    compare(both);
}

/* A device writes the line under a mask. Then memory has the merged word, no port holds the line, and it is clean. */
static void device_write(struct both *both, struct moesi_model *m, uint64_t line, uint8_t mask)
{
    uint64_t expected = line < both->shape.lines ? MOESI_ACCEPTED : MOESI_REFUSED_LINE;
    uint64_t merged = moesi_model_word(m, line), operand = generator_word(&generator);

    for (unsigned k = 0; k < 8; k++)
        if (mask >> k & 1)
            merged = (merged & ~(UINT64_C(255) << 8 * k)) | (operand & UINT64_C(255) << 8 * k);
    CHECK(on_a_copy(both, moesi_order_device_write(line, mask)).refusal == expected);
    step(both, m, moesi_order_device_write(line, mask), operand);
    if (line >= both->shape.lines)
        return;
    CHECK(moesi_get_word(m->memory, (size_t)line) == merged);
    CHECK(moesi_model_word(m, line) == merged && moesi_model_clean(m, line) == 1);
    for (uint64_t port = 0; port < both->shape.ports; port++)
        CHECK(moesi_model_state(m, port, line) == MOESI_INVALID);
    device_writes_seen++;
}

/* Looks at any tables: the lowest-numbered holder has the word, or else memory. */
static void look_at_damage(const struct both *both, const struct moesi_model *m)
{
    for (unsigned k = 0; k < LOOKED_AT && !failures; k++) {
        uint64_t line = looked_at(both->shape, k), stored, word;

        check_states(both, m, line);
        if (line >= both->shape.lines) {
            CHECK(moesi_model_word(m, line) == 0 && moesi_model_clean(m, line) == 0);
            continue;
        }
        word = stored = moesi_get_word(both->memory, (size_t)line);
        for (uint64_t port = both->shape.ports; port-- > 0;)
            if (state_in_tables(both, port, line) != MOESI_INVALID)
                word = moesi_get_word(both->data, (size_t)(port * both->shape.sets + line % both->shape.sets));
        CHECK(moesi_model_word(m, line) == word);
        CHECK(moesi_model_clean(m, line) == (word == stored));
    }
    compare(both);
}

static struct both first, second;

/* An order of a list from fresh, at two ports, one set, two lines and memory 5 and 7: its answer, and afterwards the
   states of its line at both ports, whether the line is clean, and memory. */
struct listed {
    uint64_t word, operand;
    struct moesi_answer answer;
    uint8_t states[2];
    int clean;
    uint64_t memory[2];
};

/* Document 01's fourteen orders, as orders 4 and 7 of document 02 amend orders 11 to 13. */
static const struct listed fourteen[] = {
    {0x08, 0, {0, 5, 0, 1, 0}, {10, 0}, 1, {5, 7}},
    {0x18, 0, {0, 5, 0, 1, 0}, {9, 9}, 1, {5, 7}},
    {0xFF19, 9, {0, 0, 0, 0, 0}, {9, 11}, 0, {5, 7}},
    {0x04, 0, {0, 5, 0, 1, 0}, {9, 11}, 0, {5, 7}},
    {0x00, 0, {0, 9, 0, 0, 1}, {1, 1}, 1, {9, 7}},
    {0x04, 0, {0, 9, 0, 1, 0}, {1, 1}, 1, {9, 7}},
    {UINT64_C(0x0000000900000F0A), 4, {0, 9, 1, 0, 0}, {11, 9}, 0, {9, 7}},
    {UINT64_C(0x0000000900000F1A), 0, {0, 4, 0, 0, 0}, {11, 9}, 0, {9, 7}},
    {0x10101, 0x1FF, {0, 0, 0, 1, 2}, {2, 0}, 1, {4, 255}},
    {0x10013, 0, {0, 0, 0, 0, 0}, {2, 0}, 1, {4, 255}},
    {UINT64_C(0x000000010001F01A), 0, {0, 255, 0, 1, 0}, {9, 9}, 1, {4, 255}},
    {0x10019, 0, {0, 0, 0, 0, 0}, {9, 11}, 1, {4, 255}},
    {UINT64_C(0x000000010001F002), 0, {0, 255, 0, 0, 1}, {1, 1}, 1, {4, 255}},
    {0x20, 0, {5, 0, 0, 0, 0}, {0, 0}, 1, {4, 255}},
};

/* Stores that store the same, and some that don't. */
static const struct listed stores[] = {
    /* On E in write back: E, and a flush stores nothing. */
    {0x08, 0, {0, 5, 0, 1, 0}, {10, 0}, 1, {5, 7}},
    {0xFF09, 5, {0, 0, 0, 0, 0}, {10, 0}, 1, {5, 7}},
    {0x0109, 0xFF05, {0, 0, 0, 0, 0}, {10, 0}, 1, {5, 7}},
    {UINT64_C(0x0000000500000F0A), 5, {0, 5, 1, 0, 0}, {10, 0}, 1, {5, 7}},
    {0x03, 0, {0, 0, 0, 0, 0}, {0, 0}, 1, {5, 7}},
    /* A miss: M, which stays M, and the flush stores. */
    {0xFF09, 5, {0, 0, 0, 1, 0}, {12, 0}, 1, {5, 7}},
    {0xFF09, 5, {0, 0, 0, 0, 0}, {12, 0}, 1, {5, 7}},
    {0x03, 0, {0, 0, 0, 0, 1}, {0, 0}, 1, {5, 7}},
    /* On E in write through: a store in write through leaves it, one in write back turns its mode. */
    {0x00, 0, {0, 5, 0, 1, 0}, {2, 0}, 1, {5, 7}},
    {0x0001, 9, {0, 0, 0, 0, 1}, {2, 0}, 1, {5, 7}},
    {0x0009, 9, {0, 0, 0, 0, 0}, {10, 0}, 1, {5, 7}},
    /* The highest byte is another one: M, and the line isn't clean. */
    {0x8009, UINT64_C(0x0100000000000000), {0, 0, 0, 0, 0}, {12, 0}, 0, {5, 7}},
    {0x8009, 0, {0, 0, 0, 0, 0}, {12, 0}, 1, {5, 7}},
    /* Shared: O at who stores, S at the other. */
    {0x18, 0, {0, 5, 0, 0, 0}, {11, 9}, 1, {5, 7}},
    {0x0019, 0, {0, 0, 0, 0, 0}, {9, 11}, 1, {5, 7}},
};

/* Swaps that fail, and one that doesn't. */
static const struct listed swaps[] = {
    /* Nobody has the line, then a port has it clean: both keep a copy. */
    {UINT64_C(0x0000000600000F0A), 9, {0, 5, 0, 1, 0}, {10, 0}, 1, {5, 7}},
    {UINT64_C(0x0000000600000F1A), 9, {0, 5, 0, 1, 0}, {9, 9}, 1, {5, 7}},
    /* A port owns it, and stays its owner in write back; in write through its word is stored, and the line is clean. */
    {UINT64_C(0x0000000500000F0A), 6, {0, 5, 1, 0, 0}, {11, 9}, 0, {5, 7}},
    {0x13, 0, {0, 0, 0, 0, 0}, {11, 0}, 0, {5, 7}},
    {UINT64_C(0x0000000500000F1A), 7, {0, 6, 0, 0, 0}, {11, 9}, 0, {5, 7}},
    {0x13, 0, {0, 0, 0, 0, 0}, {11, 0}, 0, {5, 7}},
    {UINT64_C(0x0000000500000F12), 7, {0, 6, 0, 0, 1}, {1, 1}, 1, {6, 7}},
    /* The port owns line 1, whose word gives way and is stored there. */
    {0x1FF09, 0x70, {0, 0, 0, 1, 0}, {12, 0}, 0, {6, 7}},
    {UINT64_C(0x0000000700000F02), 9, {0, 6, 0, 1, 1}, {1, 1}, 1, {6, 0x70}},
};

/* Carries a list out and holds the struct's answers and looks against it. */
static void run_list(const struct listed *list, size_t count)
{
    static const struct shape shape = {2, 1, 2};

    start(&first, shape);
    for (size_t line = 0; line < 2 && !failures; line++) {
        moesi_put_word(first.m.memory, line, 5 + 2 * line);
        moesi_put_word(first.memory, line, 5 + 2 * line);
    }
    for (size_t k = 0; k < count && !failures; k++) {
        const struct listed *due = &list[k];
        uint64_t line = due->word >> 16 & 65535;
        struct moesi_answer answer = step(&first, &first.m, due->word, due->operand);

        CHECK(memcmp(&answer, &due->answer, sizeof answer) == 0);
        CHECK(moesi_model_state(&first.m, 0, line) == due->states[0]);
        CHECK(moesi_model_state(&first.m, 1, line) == due->states[1]);
        CHECK(moesi_model_clean(&first.m, line) == due->clean && moesi_model_passes(&first.m) == 1);
        CHECK(moesi_get_word(first.m.memory, 0) == due->memory[0]);
        CHECK(moesi_get_word(first.m.memory, 1) == due->memory[1]);
        if (failures)
            printf("  order %zu of the list\n", k + 1);
    }
}

static void check_lists(void)
{
    run_list(fourteen, sizeof fourteen / sizeof fourteen[0]);
    run_list(stores, sizeof stores / sizeof stores[0]);
    run_list(swaps, sizeof swaps / sizeof swaps[0]);
}

/* Many orders at each shape, under one range after another, and looks between them: every model passes the audit, and
   every state comes up. */
static void check_orders(void)
{
    static const uint8_t state_bytes[] = {0, 1, 2, 9, 10, 11, 12};
    unsigned failed_before = failed_seen;

    for (unsigned s = 0; s < SHAPES && !failures; s++) {
        start(&first, shapes[s]);
        for (unsigned k = 0; k < 20000 && !failures; k++) {
            if (k % 200 == 0)
                look(&first, &first.m);
            if (k % 500 == 250)
                set_some_ranges(&first);
            random_step(&first, &first.m);
        }
    }
    for (size_t k = 0; k < sizeof state_bytes && !failures; k++)
        CHECK(states_seen[state_bytes[k]] > 100);
    CHECK(failed_seen == failed_before);
}

/* Tables that no order leaves: random bytes, or tags of lines that there are or nearly are, with any states. */
static void damage(struct both *both)
{
    static const uint8_t state_bytes[] = {0, 1, 2, 9, 10, 11, 12, 3, 255};
    uint64_t tags = both->shape.lines / both->shape.sets + 2;
    unsigned any_byte = generator_below(&generator, 3) * 5;

    fill_with_bytes(both->tags, 4 * both->entries);
    fill_with_bytes(both->states, both->entries);
    fill_with_words(both->data, 8 * both->entries);
    if (generator_percent(&generator, 20))
        return;
    for (size_t entry = 0; entry < both->entries; entry++) {
        uint32_t tag = generator_below(&generator, generator_percent(&generator, 50) && tags > 4 ? 4 : tags);

        if (generator_percent(&generator, any_byte))
            tag |= (uint32_t)1 << (8 + generator_below(&generator, 24));
        for (size_t k = 0; k < 4; k++)
            both->tags[4 * entry + k] = (uint8_t)(tag >> 8 * k & 255);
        if (!generator_percent(&generator, any_byte))
            both->states[entry] = state_bytes[generator_below(&generator, any_byte ? 9 : 7)];
    }
}

/* Open leaves all bytes as they are. Then the tables are damaged, and orders are the same both ways. */
static void check_damage(void)
{
    for (unsigned run = 0; run < 150 * SHAPES && !failures; run++) {
        struct shape shape = shapes[run % SHAPES];
        struct moesi_model copy;

        lend_both(&first, shape);
        second = first;
        CHECK(moesi_model_open(&first.m, shape.ports, shape.sets, shape.lines, first.memory_lent.bytes + GUARD,
                               first.memory_lent.len, first.room_lent.bytes + GUARD, first.room_lent.len) == 0);
        CHECK(memcmp(&first.memory_lent, &second.memory_lent, sizeof first.memory_lent) == 0);
        CHECK(memcmp(&first.room_lent, &second.room_lent, sizeof first.room_lent) == 0);
        check_cut(&first);
        if (failures)
            return;
        damage(&first);
        memcpy(first.m.tags, first.tags, 4 * first.entries);
        memcpy(first.m.states, first.states, first.entries);
        memcpy(first.m.data, first.data, 8 * first.entries);
        look_at_damage(&first, &first.m);
        for (unsigned k = 0; k < 30 && !failures; k++)
            random_step(&first, &first.m);
        open_copy(&first, &copy);
        look_at_damage(&first, &copy);
    }
}

/* Device writes among other orders, to lines that are held and not, that there are and not. */
static void check_device_writes(void)
{
    for (unsigned s = 0; s < SHAPES && !failures; s++) {
        start(&first, shapes[s]);
        for (unsigned k = 0; k < 500 && !failures; k++) {
            uint64_t line = k % 5 == 0 ? looked_at(shapes[s], k / 5 % LOOKED_AT) : random_line(shapes[s]);
            uint8_t mask = (uint8_t)(k % 4 == 0 ? 0xFF : generator_below(&generator, 256));

            device_write(&first, &first.m, line, mask);
            for (unsigned n = 0; n < 6 && !failures; n++)
                random_step(&first, &first.m);
        }
    }
}

/* The totals that the header reads out of the struct's record are due. */
static void check_totals_are(const struct records *records, const uint64_t *due)
{
    struct moesi_totals totals = moesi_read_totals(records->lent + GUARD);

    for (size_t kind = 0; kind < 6; kind++) {
        CHECK(totals.accepted[kind] == due[kind]);
        CHECK(moesi_get_word(records->lent + GUARD, MOESI_TOTAL_ACCEPTED(kind)) == due[kind]);
    }
    CHECK(totals.refused == due[6] && moesi_get_word(records->lent + GUARD, MOESI_TOTAL_REFUSED) == due[6]);
    CHECK(totals.memory_reads == due[7] && moesi_get_word(records->lent + GUARD, MOESI_TOTAL_READS) == due[7]);
    CHECK(totals.memory_writes == due[8] && moesi_get_word(records->lent + GUARD, MOESI_TOTAL_WRITES) == due[8]);
    CHECK(totals.swaps == due[9] && moesi_get_word(records->lent + GUARD, MOESI_TOTAL_SWAPS) == due[9]);
}

/* Orders with one record from zeros: the totals are the sums over the answers. */
static void run_with_record(struct both *both)
{
    static struct records records;
    uint64_t due[10] = {0};

    lend_records(&records, due, MOESI_RECORD_BYTES);
    for (unsigned k = 0; k < 2000 && !failures; k++) {
        uint64_t word = random_order(both->shape);
        struct moesi_answer answer = step_totals(both, &both->m, word, random_word(), &records);

        due[answer.refusal == 0 ? word & 7 : 6]++;
        due[7] += answer.memory_reads;
        due[8] += answer.memory_writes;
        due[9] += answer.swapped;
        check_totals_are(&records, due);
    }
    for (size_t place = 0; place < 10; place++)
        counted_seen[place] += due[place] > 0;
}

/* Orders on records with a total at its limit or above, and on records of every other length, which are left alone. */
static void run_with_odd_records(struct both *both)
{
    static struct records records;

    for (unsigned k = 0; k < 200 && !failures; k++) {
        uint64_t totals[10] = {1, 2, 3, 4, 5, 6, 7, 8, 9, 10};
        struct moesi_answer answer;

        totals[k % 10] = MOESI_MOST_TOTAL + k / 10 % 3;
        lend_records(&records, totals, MOESI_RECORD_BYTES);
        answer = step_totals(both, &both->m, random_order(both->shape), random_word(), &records);
        CHECK((answer.refusal == MOESI_REFUSED_TOTALS) == (k / 10 % 3 > 0));
        if (answer.refusal == MOESI_REFUSED_TOTALS)
            check_totals_are(&records, totals);
        full_seen += answer.refusal == MOESI_REFUSED_TOTALS;
        if (k >= 97 || k == MOESI_RECORD_BYTES)
            continue;
        lend_records(&records, totals, k);
        answer = step_totals(both, &both->m, random_order(both->shape), random_word(), &records);
        CHECK(answer.refusal == MOESI_REFUSED_LENGTH && answer.value == 0);
        other_length_seen++;
    }
}

/* The names of a record's numbers, of the old edition's bytes and of the later refusals; those of a record's places are
   looked at with the totals. */
static void check_names(void)
{
    CHECK(MOESI_KINDS == 6 && MOESI_RECORD_BYTES == 80 && MOESI_REFUSED_TOTALS == 9);
    CHECK(MOESI_MOST_TOTAL == UINT64_C(0xFFFFFFFFFFFFFFFD));
    CHECK(MOESI_OLD_INVALID == 0 && MOESI_OLD_SHARED == 1 && MOESI_OLD_EXCLUSIVE == 2);
    CHECK(MOESI_OLD_OWNED == 3 && MOESI_OLD_MODIFIED == 4);
    CHECK(MOESI_REFUSED_STATE == 10 && MOESI_REFUSED_THROUGH == 11 && MOESI_REFUSED_RANGE == 12);
}

/* Steps with a record through the struct. */
static void check_totals(void)
{
    for (unsigned s = 0; s < SHAPES && !failures; s++) {
        start(&first, shapes[s]);
        if (s % 2)
            set_some_ranges(&first);
        run_with_record(&first);
        run_with_odd_records(&first);
    }
    for (size_t place = 0; place < 10 && !failures; place++)
        CHECK(counted_seen[place] == SHAPES);
    CHECK(failures || (full_seen > 500 && other_length_seen > 500));
}

/* Tables of the old edition, between guard bytes. */
struct old_set {
    struct lent tags, states, data;
};

/* The bytes of the old edition's letters in this one. */
static const uint8_t back_bytes[5] = {0, 9, 10, 11, 12};

/* Any bytes, for a conversion to write over or to leave alone. */
static void lend_old(struct old_set *set, size_t entries)
{
    fill_with_bytes(lend(&set->tags, 4 * entries), 4 * entries);
    fill_with_bytes(lend(&set->states, entries), entries);
    fill_with_bytes(lend(&set->data, 8 * entries), 8 * entries);
}

static int old_unharmed(const struct old_set *set)
{
    return unharmed(&set->tags) && unharmed(&set->states) && unharmed(&set->data);
}

/* An entry that holds a line at its index, with memory's word; entries are of few lines, so that ports meet. */
static void hold_line(struct old_set *set, const struct both *both, size_t entry)
{
    uint64_t index = entry % both->shape.sets, tag = generator_below(&generator, 2);
    uint64_t line = tag * both->shape.sets + index;

    for (size_t k = 0; k < 4; k++)
        set->tags.bytes[GUARD + 4 * entry + k] = (uint8_t)(tag >> 8 * k & 255);
    if (line < both->shape.lines)
        moesi_put_word(set->data.bytes + GUARD, entry, moesi_get_word(both->memory, (size_t)line));
}

/* An old set: entries in I with any tag and data, and few or many that hold lines; bad is a byte above 4 or none. */
static void lend_old_set(struct old_set *set, const struct both *both, unsigned bad)
{
    unsigned held = generator_percent(&generator, 50) ? 2 : 60;
    uint8_t *states;

    lend_old(set, both->entries);
    states = set->states.bytes + GUARD;
    for (size_t entry = 0; entry < both->entries; entry++) {
        states[entry] = MOESI_OLD_INVALID;
        if (generator_percent(&generator, held)) {
            states[entry] = (uint8_t)(1 + generator_below(&generator, 4));
            hold_line(set, both, entry);
        }
    }
    if (bad > 4)
        states[generator_below(&generator, both->entries)] = (uint8_t)bad;
}

/* Lengths other than the tables': which of the three, and how many bytes more or less; 0 is right. */
struct misfit {
    unsigned which;
    int by;
};

static size_t length_of(const struct lent *lent, unsigned place, struct misfit misfit)
{
    return misfit.which == place ? (size_t)((int)lent->len + misfit.by) : lent->len;
}

/* Converts an old set into the struct, and into the tables beside it; they then agree. Gives the refusal. */
static uint64_t from_old(struct both *both, const struct old_set *set, struct misfit misfit)
{
    static struct old_set before;
    const uint8_t *tags = set->tags.bytes + GUARD, *states = set->states.bytes + GUARD, *data = set->data.bytes + GUARD;
    size_t tags_len = length_of(&set->tags, 0, misfit), states_len = length_of(&set->states, 1, misfit);
    size_t data_len = length_of(&set->data, 2, misfit);
    uint64_t refusal, under;

    before = *set;
    refusal = moesi_model_from_old(&both->m, tags_len > 0 ? tags : NULL, tags_len, states_len > 0 ? states : NULL,
                                   states_len, data_len > 0 ? data : NULL, data_len);
    under = moesi_from_old(both->shape.ports, both->shape.sets, both->shape.lines, tags, tags_len, states, states_len,
                           data, data_len, both->tags, 4 * both->entries, both->states, both->entries, both->data,
                           8 * both->entries);
    CHECK(refusal == under && memcmp(&before, set, sizeof before) == 0);
    compare(both);
    from_old_seen[refusal < 12 ? refusal : 0]++;
    return refusal;
}

/* Converts the struct's tables to an old set over any bytes, which a refusal leaves. Gives the refusal. */
static uint64_t to_old(struct both *both, struct old_set *set, struct misfit misfit)
{
    static struct old_set before;
    uint8_t *tags, *states, *data;
    size_t tags_len, states_len, data_len;
    uint64_t refusal;

    lend_old(set, both->entries);
    before = *set;
    tags = set->tags.bytes + GUARD, states = set->states.bytes + GUARD, data = set->data.bytes + GUARD;
    tags_len = length_of(&set->tags, 0, misfit), states_len = length_of(&set->states, 1, misfit);
    data_len = length_of(&set->data, 2, misfit);
    refusal = moesi_model_to_old(&both->m, tags_len > 0 ? tags : NULL, tags_len, states_len > 0 ? states : NULL,
                                 states_len, data_len > 0 ? data : NULL, data_len);
    CHECK(old_unharmed(set));
    CHECK(refusal == MOESI_ACCEPTED || memcmp(&before, set, sizeof before) == 0);
    compare(both);
    to_old_seen[refusal < 12 ? refusal : 0]++;
    return refusal;
}

/* An old set and the struct's tables are each other's: tags and data the same, and a byte for each byte. */
static void check_converted(const struct both *both, const struct old_set *set)
{
    CHECK(memcmp(both->m.tags, set->tags.bytes + GUARD, 4 * both->entries) == 0);
    CHECK(memcmp(both->m.data, set->data.bytes + GUARD, 8 * both->entries) == 0);
    for (size_t entry = 0; entry < both->entries && !failures; entry++) {
        CHECK(set->states.bytes[GUARD + entry] <= 4);
        CHECK(failures || both->m.states[entry] == back_bytes[set->states.bytes[GUARD + entry]]);
    }
}

/* The refusal that the struct's state bytes have on the way back. */
static uint64_t refusal_back(const struct moesi_model *m, size_t entries)
{
    uint64_t refusal = MOESI_ACCEPTED;

    for (size_t entry = 0; entry < entries; entry++) {
        if (m->states[entry] > 12 || (m->states[entry] > 2 && m->states[entry] < 9))
            return MOESI_REFUSED_STATE;
        if (m->states[entry] == MOESI_THROUGH_SHARED || m->states[entry] == MOESI_THROUGH_EXCLUSIVE)
            refusal = MOESI_REFUSED_THROUGH;
    }
    return refusal;
}

static struct old_set old, old_again;
static const struct misfit fitting = {3, 0};

/* Tables of any other length are refused, both ways, and the model stays as it was. */
static void check_old_lengths(struct both *both)
{
    for (unsigned which = 0; which < 3 && !failures; which++) {
        const size_t lens[3] = {4 * both->entries, both->entries, 8 * both->entries};
        const int by[4] = {1, 8, -1, -(int)lens[which]};

        /* The last is an empty table: NULL is tried only if lengths are handed on. */
        for (unsigned k = 0; k < 4 && !failures; k++) {
            struct misfit misfit = {which, by[k]};

            memcpy(&second, both, sizeof second);
            CHECK(from_old(both, &old, misfit) == MOESI_REFUSED_LENGTH);
            CHECK(to_old(both, &old_again, misfit) == MOESI_REFUSED_LENGTH);
            CHECK(memcmp(&second.room_lent, &both->room_lent, sizeof second.room_lent) == 0);
        }
    }
}

/* A model's state byte is another one, both ways. */
static void put_state(struct both *both, size_t entry, uint8_t byte)
{
    both->m.states[entry] = both->states[entry] = byte;
}

/* An old set into the model and back; then orders, and back where no entry is in write through; then a bad byte. */
static void convert_and_step(struct both *both, unsigned bad)
{
    uint64_t due = bad > 4 ? MOESI_REFUSED_STATE : MOESI_ACCEPTED;

    memcpy(&second, both, sizeof second);
    lend_old_set(&old, both, bad);
    CHECK(from_old(both, &old, fitting) == due);
    if (due != MOESI_ACCEPTED) {
        CHECK(memcmp(&second.room_lent, &both->room_lent, sizeof second.room_lent) == 0);
        return;
    }
    check_converted(both, &old);
    *(moesi_model_passes(&both->m) ? &converted_passed_seen : &converted_failed_seen) += 1;
    CHECK(to_old(both, &old_again, fitting) == MOESI_ACCEPTED && memcmp(&old, &old_again, sizeof old) == 0);
    for (unsigned k = 0; k < 6 && !failures; k++)
        random_step(both, &both->m);
    due = refusal_back(&both->m, both->entries);
    CHECK(to_old(both, &old_again, fitting) == due);
    if (due == MOESI_ACCEPTED)
        check_converted(both, &old_again);
    put_state(both, generator_below(&generator, both->entries), (uint8_t)(3 + generator_below(&generator, 6)));
    put_state(both, 0, generator_percent(&generator, 50) ? both->states[0] : MOESI_THROUGH_SHARED);
    CHECK(to_old(both, &old_again, fitting) == refusal_back(&both->m, both->entries));
}

/* Conversions through the struct, at every shape. */
static void check_old_sets(void)
{
    for (unsigned s = 0; s < SHAPES && !failures; s++) {
        start(&first, shapes[s]);
        lend_old_set(&old, &first, 0);
        check_old_lengths(&first);
        for (unsigned k = 0; k < 60 && !failures; k++)
            convert_and_step(&first, k % 3 == 2 ? 5 + generator_below(&generator, 251) : 0);
    }
    if (failures)
        return;
    CHECK(from_old_seen[0] > 100 && from_old_seen[3] > 100 && from_old_seen[10] > 100);
    CHECK(to_old_seen[0] > 100 && to_old_seen[3] > 100 && to_old_seen[10] > 100 && to_old_seen[11] > 100);
    CHECK(converted_passed_seen > 20 && converted_failed_seen > 20);
}

/* The states that the struct's tables have in the old edition, or its refusal; 2/1/2, tags 0, the words 9. */
static void check_old_list_is(uint64_t due, uint8_t state_0, uint8_t state_1)
{
    uint8_t tags[8], states[2] = {77, 77}, data[16];

    memset(tags, 0x77, sizeof tags);
    CHECK(moesi_model_to_old(&first.m, tags, 8, states, 2, data, 16) == due);
    CHECK(states[0] == (due == 0 ? state_0 : 77) && states[1] == (due == 0 ? state_1 : 77));
    CHECK(due == 0 ? all_zeros(tags, 8) && moesi_get_word(data, 0) == 9 && moesi_get_word(data, 1) == 9
                   : tags[0] == 0x77);
}

/* Port 0 owns line 0 and port 1 shares it, in bytes of the old edition; then orders, and what they are there. */
static void check_old_list(void)
{
    static const struct shape shape = {2, 1, 2};
    static const uint8_t tags[8] = {0}, states[2] = {3, 1};
    static const uint8_t data[16] = {9, 0, 0, 0, 0, 0, 0, 0, 9, 0, 0, 0, 0, 0, 0, 0};
    struct moesi_model *m = &first.m;

    start(&first, shape);
    if (failures)
        return;
    moesi_put_word(m->memory, 0, 5);
    moesi_put_word(m->memory, 1, 7);
    CHECK(moesi_model_from_old(m, tags, 8, states, 2, data, 16) == MOESI_ACCEPTED);
    CHECK(moesi_get_word(m->memory, 0) == 5 && moesi_get_word(m->memory, 1) == 7);
    CHECK(moesi_model_state(m, 0, 0) == MOESI_OWNED && moesi_model_state(m, 1, 0) == MOESI_BACK_SHARED);
    CHECK(moesi_model_word(m, 0) == 9 && !moesi_model_clean(m, 0) && moesi_model_passes(m) == 1);
    check_old_list_is(0, MOESI_OLD_OWNED, MOESI_OLD_SHARED);
    moesi_model_step(m, moesi_order_flush(0, 0), 0);
    CHECK(moesi_get_word(m->memory, 0) == 9 && moesi_model_clean(m, 0));
    check_old_list_is(0, MOESI_OLD_INVALID, MOESI_OLD_SHARED);
    moesi_model_step(m, moesi_order_write(1, 0, MOESI_WRITE_BACK, 0xFF), 9);
    check_old_list_is(0, MOESI_OLD_INVALID, MOESI_OLD_MODIFIED);
    moesi_model_step(m, moesi_order_read(1, 0, MOESI_WRITE_THROUGH), 0);
    check_old_list_is(MOESI_REFUSED_THROUGH, 0, 0);
    moesi_model_step(m, moesi_order_read(1, 0, MOESI_WRITE_BACK), 0);
    check_old_list_is(0, MOESI_OLD_INVALID, MOESI_OLD_EXCLUSIVE);
    m->states[0] = MOESI_OLD_OWNED;
    check_old_list_is(MOESI_REFUSED_STATE, 0, 0);
    CHECK(m->states[0] == MOESI_OLD_OWNED && m->states[1] == MOESI_BACK_EXCLUSIVE);
}

/* Sixteen lines under ranges with four numbers of their own: lines 3 to 6 are scratch, 8 to 12 the device's. */
static const struct shape ranged_shape = {2, 4, 16};
static const struct ranges ranged = {3, 4, 8, 5};
static const char ranged_modes[] = "ooobbbbotttttooo";

static void set_ranges(struct both *both, struct ranges ranges)
{
    set_range(both, 0, ranges.scratch_first, ranges.scratch_count);
    set_range(both, 1, ranges.device_first, ranges.device_count);
}

/* Each line is read and written by an order of either mode, with a record and without: what it leaves is of the mode
   that the ranges say, and in the device range every word is in memory at once. */
static void check_modes(int with_record)
{
    static struct records records;
    const uint64_t zeros[10] = {0};

    for (unsigned k = 0; k < 4 * 16 && !failures; k++) {
        uint64_t line = k / 4, mode = k % 2, kind = k / 2 % 2;
        int back = ranged_modes[line] == 'o' ? (int)mode : ranged_modes[line] == 'b';
        uint64_t word = moesi_order_word(kind, mode, 1, line, 0xFF, 0), operand = UINT64_C(0xABCD0000) + k;

        start(&first, ranged_shape);
        set_ranges(&first, ranged);
        lend_records(&records, zeros, MOESI_RECORD_BYTES);
        if (with_record)
            step_totals(&first, &first.m, word, operand, &records);
        else
            step(&first, &first.m, word, operand);
        CHECK(moesi_model_state(&first.m, 1, line) == (!back ? 2 : kind == MOESI_WRITE ? 12 : 10));
        CHECK(moesi_model_clean(&first.m, line) == (kind == MOESI_READ || !back));
        ranged_seen[2 * with_record + back]++;
    }
}

/* In the device range a line is clean after any orders, and with no flush a device reads it right. */
static void check_device_range(void)
{
    start(&first, ranged_shape);
    set_ranges(&first, ranged);
    for (unsigned k = 0; k < 3000 && !failures; k++) {
        uint64_t line = 8 + k % 5;
        uint64_t word = moesi_order_word(generator_below(&generator, 6), 1, k % 2, line, 0x0F, 0);

        step(&first, &first.m, word, random_word());
        random_step(&first, &first.m);
        CHECK(moesi_model_clean(&first.m, line) == 1);
        CHECK(step(&first, &first.m, moesi_order_device_read(line), 0).value == moesi_model_word(&first.m, line));
    }
}

/* Ranges that end beyond lines, and such as don't. */
static struct ranges refused_ranges(unsigned k, uint64_t lines)
{
    const uint64_t numbers[][2] = {
        {lines, 1}, {0, lines + 1}, {lines - 1, 2}, {UINT64_MAX, 1}, {UINT64_C(1) << 63, UINT64_C(1) << 63},
        {UINT64_MAX, 2}, {1, UINT64_MAX}, {lines + 1, 1}, {UINT64_C(0x100000000), 1},
    };
    const uint64_t *beyond = numbers[k % 9];
    struct ranges ranges = {lines + 5, 0, 0, lines};

    if (k / 9 % 3 != 1) {
        ranges.scratch_first = beyond[0];
        ranges.scratch_count = beyond[1];
    }
    if (k / 9 % 3 != 0) {
        ranges.device_first = beyond[0];
        ranges.device_count = beyond[1];
    }
    return ranges;
}

/* A range that is refused is set all the same: every order is then answered 12 and changes nothing, also with a record,
   where it is counted; the audit says no. Conversions take no ranges. */
static void check_under_refused(struct both *both)
{
    static struct records records;
    uint64_t due[10] = {0};

    lend_records(&records, due, MOESI_RECORD_BYTES);
    for (unsigned k = 0; k < 12 && !failures; k++) {
        uint64_t word = k < 8 ? k | 0xF00 : random_order(both->shape);
        struct moesi_answer answer = step(both, &both->m, word, 5), counted;

        CHECK(answer.refusal == 12 && answer.value == 0 && answer.swapped == 0);
        CHECK(answer.memory_reads == 0 && answer.memory_writes == 0);
        counted = step_totals(both, &both->m, word, 5, &records);
        CHECK(memcmp(&answer, &counted, sizeof answer) == 0);
        due[6]++;
        check_totals_are(&records, due);
    }
    CHECK(moesi_model_passes(&both->m) == 0);
    lend_old_set(&old, both, 0);
    CHECK(from_old(both, &old, fitting) == MOESI_ACCEPTED && to_old(both, &old_again, fitting) == MOESI_ACCEPTED);
}

static void check_refused_ranges(void)
{
    for (unsigned run = 0; run < 27 * SHAPES && !failures; run++) {
        struct shape shape = shapes[run % SHAPES];

        start(&first, shape);
        for (unsigned k = 0; k < 5 && !failures; k++)
            random_step(&first, &first.m);
        set_ranges(&first, refused_ranges(run / SHAPES, shape.lines));
        CHECK(moesi_model_refusal(&first.m) == MOESI_REFUSED_RANGE);
        check_under_refused(&first);
        /* Once both ranges fit again, orders go on. */
        set_range(&first, 0, shape.lines + 1, 0);
        set_range(&first, 1, 0, shape.lines);
        CHECK(moesi_model_refusal(&first.m) == MOESI_ACCEPTED);
        CHECK(step(&first, &first.m, moesi_order_device_read(0), 0).refusal == MOESI_ACCEPTED);
    }
}

/* Open and init empty the ranges, also those of a struct that was a model; where they refuse, the ranges stay. */
static void check_emptied_ranges(void)
{
    for (int init = 0; init < 2 && !failures; init++) {
        struct moesi_model *m = &first.m;

        start(&first, ranged_shape);
        set_ranges(&first, ranged);
        CHECK((init ? moesi_model_init : moesi_model_open)(m, 2, 3, 16, m->memory, 128, m->data, 104) == 2);
        CHECK((init ? moesi_model_init : moesi_model_open)(m, 2, 4, 16, m->memory, 127, m->data, 104) == 3);
        CHECK(has_ranges(m, ranged));
        CHECK((init ? moesi_model_init : moesi_model_open)(m, 2, 4, 16, first.memory_lent.bytes + GUARD, 128,
                                                           first.room_lent.bytes + GUARD, 104) == 0);
        first.ranges = no_ranges;
        check_cut(&first);
        check_refusal(&first, MOESI_ACCEPTED);
        step(&first, m, moesi_order_read(0, 3, MOESI_WRITE_THROUGH), 0);
        CHECK(moesi_model_state(m, 0, 3) == MOESI_THROUGH_EXCLUSIVE);
    }
}

/* The struct's ranges: four numbers, two setters, a refusal. */
static void check_ranges(void)
{
    check_emptied_ranges();
    check_modes(0);
    check_modes(1);
    check_device_range();
    check_refused_ranges();
    for (size_t k = 0; k < 4 && !failures; k++)
        CHECK(ranged_seen[k] > 10);
    CHECK(failures || (setters_seen[0] > 100 && setters_seen[12] > 100 && refusals_seen[12] > 100));
}

/* A copy of the struct is the same model, with the same ranges; a second model, over memory and a room of its own, is
   another one. */
static void check_copies(void)
{
    for (unsigned s = 0; s < SHAPES && !failures; s++) {
        struct moesi_model twin;

        start(&second, shapes[(s + s % 2) % SHAPES]);
        start(&first, shapes[s]);
        set_some_ranges(&first);
        if (failures)
            return;
        twin = first.m;
        for (unsigned k = 0; k < 200 && !failures; k++) {
            struct moesi_model *m = generator_percent(&generator, 50) ? &first.m : &twin;

            if (generator_percent(&generator, 50)) {
                random_step(&first, m);
                compare(&second);
            } else {
                random_step(&second, &second.m);
                compare(&first);
            }
            CHECK(moesi_model_passes(&twin) == 1);
        }
        look(&first, &twin);
        look(&second, &second.m);
    }
}

/* Memory and room as a call to open or init is given them. */
struct offer {
    uint8_t *memory;
    size_t memory_len;
    uint8_t *room;
    size_t room_len;
};

/* Open and init answer expected and write nothing. Init is tried only if open refuses: it might write through NULL. */
static void check_refused(uint64_t expected, struct shape shape, struct offer offer)
{
    for (int init = 0; init < 2 && !failures; init++) {
        uint64_t refusal = (init ? moesi_model_init : moesi_model_open)(
            &first.m, shape.ports, shape.sets, shape.lines, offer.memory, offer.memory_len, offer.room, offer.room_len);

        now = shape;
        CHECK(refusal == expected);
        CHECK(memcmp(&first.m, &second.m, sizeof first.m) == 0);
        CHECK(memcmp(&first.memory_lent, &second.memory_lent, sizeof first.memory_lent) == 0);
        CHECK(memcmp(&first.room_lent, &second.room_lent, sizeof first.room_lent) == 0);
    }
}

/* Each way to offer memory and a room wrongly. */
static void check_offers(uint64_t expected, struct shape shape, struct offer right)
{
    static const size_t beside[] = {1, 2, 8, 13};
    const struct offer wrong[] = {
        {NULL, right.memory_len, right.room, right.room_len},
        {right.memory, right.memory_len, NULL, right.room_len},
        {NULL, right.memory_len, NULL, right.room_len},
        {NULL, 0, right.room, right.room_len},
        {right.memory, right.memory_len, NULL, 0},
        {NULL, 0, NULL, 0},
        {right.memory, 0, right.room, right.room_len},
        {right.memory, right.memory_len, right.room, 0},
        {right.memory, 0, right.room, 0},
        {right.memory, right.memory_len + 1, right.room, right.room_len - 1},
        {right.memory, right.memory_len - 1, right.room, right.room_len + 1},
        {NULL, right.memory_len + 1, NULL, right.room_len + 1},
    };

    for (size_t k = 0; k < sizeof wrong / sizeof wrong[0]; k++)
        check_refused(expected, shape, wrong[k]);
    for (size_t k = 0; k < sizeof beside / sizeof beside[0]; k++)
        for (int sign = 0; sign < 2; sign++) {
            struct offer memory = right, room = right;

            /* No length is made smaller than nothing. */
            if (sign && beside[k] >= (right.memory_len < right.room_len ? right.memory_len : right.room_len))
                continue;
            memory.memory_len = sign ? right.memory_len - beside[k] : right.memory_len + beside[k];
            room.room_len = sign ? right.room_len - beside[k] : right.room_len + beside[k];
            check_refused(expected, shape, memory);
            check_refused(expected, shape, room);
        }
}

/* The shape with one, two or three numbers that no shape has; bits of which say which. */
static struct shape no_shape(struct shape shape, unsigned which, unsigned k)
{
    if (which & 1)
        shape.ports = no_ports[k % NO_PORTS];
    if (which & 2)
        shape.sets = no_sets[k % NO_SETS];
    if (which & 4)
        shape.lines = no_lines[k % NO_LINES];
    return shape;
}

/* A wrong shape is answered before a wrong offer, whatever the offer. Nothing is written by any of them. */
static void check_refusals(void)
{
    static const struct shape some[] = {{1, 1, 1}, {2, 4, 16}, {8, 64, 4095}};

    for (unsigned s = 0; s < 3 && !failures; s++) {
        struct offer right, nothing = {NULL, 0, NULL, 0};

        lend_both(&first, some[s]);
        memcpy(&second, &first, sizeof first);
        right.memory = first.memory_lent.bytes + GUARD;
        right.memory_len = first.memory_lent.len;
        right.room = first.room_lent.bytes + GUARD;
        right.room_len = first.room_lent.len;
        check_offers(MOESI_REFUSED_LENGTH, some[s], right);
        for (unsigned which = 1; which < 8 && !failures; which++)
            for (unsigned k = 0; k < NO_SETS; k++) {
                check_refused(MOESI_REFUSED_SHAPE, no_shape(some[s], which, k), right);
                check_refused(MOESI_REFUSED_SHAPE, no_shape(some[s], which, k), nothing);
            }
        check_offers(MOESI_REFUSED_SHAPE, no_shape(some[s], 1, 1), right);
        check_offers(MOESI_REFUSED_SHAPE, no_shape(some[s], 2, 1), right);
        check_offers(MOESI_REFUSED_SHAPE, no_shape(some[s], 4, 1), right);
    }
}

/* The room's size as a number and as a constant, for every ports and sets. */
static void check_sizes(void)
{
    static uint8_t memory[MOESI_MEMORY_BYTES(4096)], room[MOESI_TABLES_BYTES(8, 64, 4096)];
    static uint8_t small_memory[MOESI_MEMORY_BYTES(8 + 8)], small_room[MOESI_TABLES_BYTES(1 + 1, 2 + 2, 8 + 8)];
    static const uint64_t some_lines[] = {1, 2, 63, 64, 4095, 4096};

    CHECK(sizeof memory == 32768 && sizeof room == 6656);
    CHECK(sizeof small_memory == 128 && sizeof small_room == 104);
    for (uint64_t ports = 1; ports <= 8; ports++)
        for (uint64_t sets = 1; sets <= 64; sets *= 2)
            for (size_t k = 0; k < sizeof some_lines / sizeof some_lines[0]; k++) {
                uint64_t lines = some_lines[k];
                struct shape shape = {ports, sets, lines};

                now = shape;
                CHECK(moesi_tables_bytes(ports, sets, lines) == room_bytes(shape));
                CHECK(MOESI_TABLES_BYTES(ports, sets, lines) == room_bytes(shape));
                CHECK(MOESI_MEMORY_BYTES(lines) == memory_bytes(shape));
            }
    for (unsigned which = 1; which < 8; which++)
        for (unsigned k = 0; k < NO_SETS; k++)
            for (unsigned s = 0; s < SHAPES; s++) {
                now = no_shape(shapes[s], which, k);
                CHECK(moesi_tables_bytes(now.ports, now.sets, now.lines) == 0);
            }
}

static void check_tags(void)
{
    static const uint8_t bytes[] = {
        0x77, 0x01, 0x23, 0x45, 0x67, 0xFE, 0xDC, 0xBA, 0x98, 0xFF, 0xFF, 0xFF, 0xFF, 0, 0, 0, 0x80,
    };

    /* From byte 1 on, so that the tags lie at no alignment. */
    CHECK(moesi_get_tag(bytes + 1, 0) == 0x67452301u);
    CHECK(moesi_get_tag(bytes + 1, 1) == 0x98BADCFEu);
    CHECK(moesi_get_tag(bytes + 1, 2) == 0xFFFFFFFFu);
    CHECK(moesi_get_tag(bytes + 1, 3) == 0x80000000u);
}

/* A struct of zeros is no model. */
static void check_zeros(void)
{
    static struct moesi_model zeros;
    static const uint64_t numbers[] = {0, 1, 7, 4095, UINT64_C(1) << 32, UINT64_MAX};
    const uint64_t words[] = {
        moesi_order_read(0, 0, MOESI_WRITE_BACK),
        moesi_order_write(0, 0, MOESI_WRITE_THROUGH, 0xFF),
        moesi_order_device_read(0),
        moesi_order_device_write(0, 0xFF),
        7,
        UINT64_MAX,
    };

    for (size_t k = 0; k < sizeof words / sizeof words[0]; k++) {
        struct moesi_answer answer = moesi_model_step(&zeros, words[k], 5);

        CHECK(answer.refusal == 2 && answer.value == 0 && answer.swapped == 0);
        CHECK(answer.memory_reads == 0 && answer.memory_writes == 0);
    }
    CHECK(moesi_model_passes(&zeros) == 0);
    for (size_t k = 0; k < sizeof numbers / sizeof numbers[0]; k++) {
        for (size_t n = 0; n < sizeof numbers / sizeof numbers[0]; n++)
            CHECK(moesi_model_state(&zeros, numbers[k], numbers[n]) == MOESI_INVALID);
        CHECK(moesi_model_word(&zeros, numbers[k]) == 0);
        CHECK(moesi_model_clean(&zeros, numbers[k]) == 0);
    }
}

/* A struct of zeros with a record: refused 2 and counted so, or 9 where a total is full. */
static void check_zeros_with_record(void)
{
    static struct moesi_model zeros;
    static struct records records;
    uint64_t due[10] = {0};

    lend_records(&records, due, MOESI_RECORD_BYTES);
    for (uint64_t k = 1; k < 9; k++) {
        CHECK(moesi_model_step_totals(&zeros, k - 1, 5, records.lent + GUARD, MOESI_RECORD_BYTES).refusal == 2);
        due[6] = k;
        check_totals_are(&records, due);
    }
    CHECK(moesi_model_step_totals(&zeros, 0, 5, records.lent + GUARD, 79).refusal == 2);
    check_totals_are(&records, due);
    /* NULL is tried only if the length is handed on. */
    if (failures)
        return;
    CHECK(moesi_model_step_totals(&zeros, 0, 5, NULL, 0).refusal == 2);
    due[3] = UINT64_MAX;
    lend_records(&records, due, MOESI_RECORD_BYTES);
    CHECK(moesi_model_step_totals(&zeros, 0, 5, records.lent + GUARD, MOESI_RECORD_BYTES).refusal == 9);
    check_totals_are(&records, due);
}

/* Ranges on a struct of zeros: they are set, and it is no model still. */
static void check_zeros_with_ranges(void)
{
    static struct moesi_model zeros;
    static const struct ranges some = {1, 2, 3, 4};

    CHECK(moesi_model_refusal(&zeros) == MOESI_REFUSED_SHAPE);
    CHECK(moesi_model_set_scratch(&zeros, 1, 2) == MOESI_REFUSED_SHAPE);
    CHECK(moesi_model_set_device(&zeros, 3, 4) == MOESI_REFUSED_SHAPE);
    CHECK(has_ranges(&zeros, some) && zeros.ports == 0 && zeros.sets == 0 && zeros.lines == 0 && zeros.memory == NULL);
    CHECK(moesi_model_step(&zeros, 0, 5).refusal == MOESI_REFUSED_SHAPE && moesi_model_passes(&zeros) == 0);
    CHECK(moesi_model_set_scratch(&zeros, 0, 0) == MOESI_REFUSED_SHAPE);
    CHECK(moesi_model_set_device(&zeros, UINT64_MAX, 0) == MOESI_REFUSED_SHAPE);
}

/* Conversions with a struct of zeros: refused 2, whatever the tables, and nothing is written. */
static void check_zeros_with_old(void)
{
    static struct moesi_model zeros;
    uint8_t tags[4] = {1, 2, 3, 4}, states[1] = {1}, data[8] = {5, 6, 7, 8, 9, 10, 11, 12};

    CHECK(moesi_model_from_old(&zeros, tags, 4, states, 1, data, 8) == MOESI_REFUSED_SHAPE);
    CHECK(moesi_model_to_old(&zeros, tags, 4, states, 1, data, 8) == MOESI_REFUSED_SHAPE);
    CHECK(tags[0] == 1 && tags[3] == 4 && states[0] == 1 && data[0] == 5 && data[7] == 12);
    states[0] = 5;
    CHECK(moesi_model_from_old(&zeros, tags, 4, states, 1, data, 8) == MOESI_REFUSED_SHAPE);
    CHECK(failures || moesi_model_from_old(&zeros, NULL, 0, NULL, 0, NULL, 0) == MOESI_REFUSED_SHAPE);
    CHECK(failures || moesi_model_to_old(&zeros, NULL, 0, NULL, 0, NULL, 0) == MOESI_REFUSED_SHAPE);
}

/* Every refusal that a step through a struct can give, swaps that succeed, clean lines and others have come up. */
static void check_seen(void)
{
    CHECK(refusals_seen[0] > 1000);
    for (int refusal = 4; refusal <= 8; refusal++)
        CHECK(refusals_seen[refusal] > 50);
    CHECK(swaps_seen > 100 && clean_seen > 100 && dirty_seen > 100 && device_writes_seen > 100);
    CHECK(passed_seen > 1000 && failed_seen > 1000);
}

int main(void)
{
    static void (*const checks[])(void) = {
        check_sizes,    check_tags,     check_names,  check_refusals, check_zeros_with_record, check_zeros_with_ranges,
        check_lists,    check_ranges,   check_old_list,               check_old_sets,          check_totals,
        check_orders,   check_copies,   check_device_writes,          check_damage,            check_seen,
        check_zeros,    check_zeros_with_old,
    };

    /* A group that fails is the last one: the others use what it found broken. */
    for (size_t k = 0; k < sizeof checks / sizeof checks[0] && !failures; k++) {
        memset(&now, 0, sizeof now);
        checks[k]();
    }
    return failures == 0 ? 0 : 1;
}
