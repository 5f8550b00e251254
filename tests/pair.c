/* Calls made to the library and to the second model, and the comparison of every byte after each call. */

#include "pair.h"

#include "moesi.h"

#include <stdio.h>
#include <stdlib.h>
#include <string.h>

static const char *const slice_names[SLICES] = {"memory", "tags",     "states",     "data",    "result",
                                                "record", "old tags", "old states", "old data"};

/* What fills a result before a call, so that bytes left over from the call before can't pass for an answer. */
enum { STALE = 0xEE };

/* Slices. */

int pair_open(struct pair *pair)
{
    memset(pair, 0, sizeof *pair);
    for (int s = 0; s < SLICES; s++) {
        pair->slices[s].room = calloc(1, LENT_CAPACITY + 2 * LENT_GUARD + LENT_MAX_SKEW);
        pair->slices[s].expected = calloc(1, LENT_CAPACITY);
        if (pair->slices[s].room == NULL || pair->slices[s].expected == NULL)
            return 0;
        for (int k = 0; k < LENT_GUARD; k++)
            pair->slices[s].guard[k] = (uint8_t)(0x5B + 37 * k + 29 * s);
        pair_place_null(pair, (enum slice)s);
    }
    return 1;
}

void pair_close(struct pair *pair)
{
    for (int s = 0; s < SLICES; s++) {
        free(pair->slices[s].room);
        free(pair->slices[s].expected);
    }
}

/* A block of exactly the slice's length takes the place of the room. */
static void place_exactly(struct lent *lent, size_t length)
{
    free(lent->room);
    lent->room = malloc(length);
    if (lent->room == NULL)
        abort();
    lent->bytes = lent->room;
}

static void place_between_guards(struct lent *lent, size_t length, unsigned skew)
{
    lent->bytes = lent->room + LENT_GUARD + skew;
    memcpy(lent->bytes - LENT_GUARD, lent->guard, LENT_GUARD);
    memcpy(lent->bytes + length, lent->guard, LENT_GUARD);
}

void pair_place(struct pair *pair, enum slice slice, size_t length, unsigned skew)
{
    struct lent *lent = &pair->slices[slice];

    if (pair->exact)
        place_exactly(lent, length);
    else
        place_between_guards(lent, length, skew);
    lent->length = length;
    memset(lent->bytes, STALE, length);
    memset(lent->expected, STALE, length);
    if (slice <= DATA)
        pair->stale = 1;
}

void pair_place_null(struct pair *pair, enum slice slice)
{
    pair->slices[slice].bytes = NULL;
    pair->slices[slice].length = 0;
}

void pair_place_bytes(struct pair *pair, enum slice slice, const uint8_t *bytes, size_t length, unsigned skew)
{
    struct lent *lent = &pair->slices[slice];

    pair_place(pair, slice, length, skew % (LENT_MAX_SKEW + 1));
    if (length > 0) {
        memcpy(lent->bytes, bytes, length);
        memcpy(lent->expected, bytes, length);
    }
}

void pair_place_record(struct pair *pair, const uint8_t *bytes, size_t length, unsigned skew)
{
    pair_place_bytes(pair, RECORD, bytes, length, skew);
}

static void encode_expected(struct pair *pair)
{
    second_encode(&pair->second, pair->slices[MEMORY].expected, pair->slices[TAGS].expected,
                  pair->slices[STATES].expected, pair->slices[DATA].expected);
}

void pair_lend(struct pair *pair, unsigned skew)
{
    struct second_lengths lengths = second_lengths_of(pair->second.shape, SECOND_ANSWER_BYTES);
    size_t due[RESULT + 1] = {lengths.memory, lengths.tags, lengths.states, lengths.data, lengths.result};

    for (int s = 0; s <= RESULT; s++)
        pair_place(pair, (enum slice)s, due[s], skew % (LENT_MAX_SKEW + 1));
    encode_expected(pair);
    for (int s = 0; s <= RESULT; s++)
        memcpy(pair->slices[s].bytes, pair->slices[s].expected, pair->slices[s].length);
    pair->stale = 0;
}

/* Takes the lent bytes over into the second model. */
static void take_over(struct pair *pair, struct second_shape shape)
{
    pair->second.shape = shape;
    second_decode(&pair->second, pair->slices[MEMORY].expected, pair->slices[TAGS].expected,
                  pair->slices[STATES].expected, pair->slices[DATA].expected);
    pair->stale = 0;
}

/* What is expected of a call. */

static int is_step(enum call call)
{
    return call == STEP || call == STEP_TOTALS;
}

static int is_conversion(enum call call)
{
    return call == FROM_OLD || call == TO_OLD;
}

enum slice pair_input_of(enum call call)
{
    return call == FROM_OLD ? OLD_TAGS : TAGS;
}

enum slice pair_output_of(enum call call)
{
    return call == FROM_OLD ? TAGS : OLD_TAGS;
}

static size_t result_bytes(enum call call)
{
    return is_step(call) ? SECOND_ANSWER_BYTES : SECOND_VERDICT_BYTES;
}

/* The lengths of memory, of three tables from that one on, and of the result. */
static struct second_lengths lent_lengths(const struct pair *pair, enum slice tags)
{
    const struct lent *slices = pair->slices;
    struct second_lengths lengths = {slices[MEMORY].length, slices[tags].length, slices[tags + 1].length,
                                     slices[tags + 2].length, slices[RESULT].length};

    return lengths;
}

static void spoil_result(struct lent *result)
{
    if (result->length > 0) {
        memset(result->bytes, STALE, result->length);
        memset(result->expected, STALE, result->length);
    }
}

/* The refusal before the order is looked at. The totals are noted as they are before the call. */
static uint64_t early_refusal(struct pair *pair, enum call call, struct second_shape shape)
{
    const struct lent *record = &pair->slices[RECORD];
    struct second_lengths lengths = lent_lengths(pair, TAGS);

    if (is_conversion(call))
        return second_conversion_refusal(shape, lent_lengths(pair, pair_input_of(call)),
                                         lent_lengths(pair, pair_output_of(call)));
    /* Fresh has no result. */
    if (call == FRESH)
        lengths.result = result_bytes(call);
    if (call != STEP_TOTALS)
        return second_call_refusal(shape, lengths, result_bytes(call));
    if (record->length == SECOND_RECORD_BYTES)
        second_decode_totals(pair->before, record->expected);
    return second_totals_refusal(shape, lengths, record->expected, record->length);
}

/* Has the second model carry out an accepted call; gives the verdict of an audit. */
static int carry_out(struct pair *pair, enum call call, struct second_shape shape, uint64_t word, uint64_t operand)
{
    if (pair->stale || memcmp(&pair->second.shape, &shape, sizeof shape) != 0)
        take_over(pair, shape);
    if (call == AUDIT)
        return second_audit(&pair->second);
    if (call == FRESH)
        second_fresh(&pair->second);
    else
        pair->expected = second_step(&pair->second, word, operand);
    /* After a refusal what is expected are the bytes from before the call. */
    if (pair->expected.refusal == 0)
        encode_expected(pair);
    return 0;
}

static struct second_tables expected_tables(struct pair *pair, enum slice tags)
{
    struct second_tables tables = {pair->slices[tags].expected, pair->slices[tags + 1].expected,
                                   pair->slices[tags + 2].expected};

    return tables;
}

/* Has the second model convert the expected bytes; gives the refusal. */
static uint64_t carry_over(struct pair *pair, enum call call, struct second_shape shape)
{
    struct second_tables in = expected_tables(pair, pair_input_of(call));
    struct second_tables out = expected_tables(pair, pair_output_of(call));

    if (call == TO_OLD)
        return second_to_old(shape, &in, &out);
    pair->stale = 1;
    return second_from_old(shape, &in, &out);
}

/* The refusal that the call must return; what the slices must hold is left in expected. */
static uint64_t expect(struct pair *pair, enum call call, struct second_shape shape, uint64_t word, uint64_t operand)
{
    static const struct second_answer nothing = {0, 0, 0, 0, 0};
    struct lent *result = &pair->slices[RESULT], *record = &pair->slices[RECORD];
    int verdict = 0;

    spoil_result(result);
    pair->expected = nothing;
    pair->expected.refusal = early_refusal(pair, call, shape);
    if (pair->expected.refusal == 0 && is_conversion(call))
        pair->expected.refusal = carry_over(pair, call, shape);
    else if (pair->expected.refusal == 0)
        verdict = carry_out(pair, call, shape, word, operand);
    if (is_step(call) && result->length == SECOND_ANSWER_BYTES)
        second_encode_answer(pair->expected, result->expected);
    if (call == STEP_TOTALS && record->length == SECOND_RECORD_BYTES)
        second_count(record->expected, word, pair->expected);
    if (call == AUDIT && result->length == SECOND_VERDICT_BYTES)
        result->expected[0] = (uint8_t)verdict;
    return pair->expected.refusal;
}

/* The call to the library. */

static uint64_t call_conversion(struct pair *pair, enum call call, struct second_shape shape)
{
    const struct lent *in = &pair->slices[pair_input_of(call)], *out = &pair->slices[pair_output_of(call)];

    return (call == FROM_OLD ? moesi_from_old : moesi_to_old)(
        shape.ports, shape.sets, shape.lines, in[0].bytes, in[0].length, in[1].bytes, in[1].length, in[2].bytes,
        in[2].length, out[0].bytes, out[0].length, out[1].bytes, out[1].length, out[2].bytes, out[2].length);
}

static uint64_t call_library(struct pair *pair, enum call call, struct second_shape shape, uint64_t word,
                             uint64_t operand)
{
    struct lent *memory = &pair->slices[MEMORY], *tags = &pair->slices[TAGS], *states = &pair->slices[STATES],
                *data = &pair->slices[DATA], *result = &pair->slices[RESULT], *record = &pair->slices[RECORD];
    struct second_range scratch = shape.scratch, device = shape.device;

    if (is_conversion(call))
        return call_conversion(pair, call, shape);
    if (call == FRESH)
        return moesi_fresh(shape.ports, shape.sets, shape.lines, scratch.first, scratch.count, device.first,
                           device.count, memory->bytes, memory->length, tags->bytes, tags->length, states->bytes,
                           states->length, data->bytes, data->length);
    if (call == STEP)
        return moesi_step(shape.ports, shape.sets, shape.lines, scratch.first, scratch.count, device.first,
                          device.count, word, operand, memory->bytes, memory->length, tags->bytes, tags->length,
                          states->bytes, states->length, data->bytes, data->length, result->bytes, result->length);
    if (call == STEP_TOTALS)
        return moesi_step_totals(shape.ports, shape.sets, shape.lines, scratch.first, scratch.count, device.first,
                                 device.count, word, operand, memory->bytes, memory->length, tags->bytes,
                                 tags->length, states->bytes, states->length, data->bytes, data->length,
                                 result->bytes, result->length, record->bytes, record->length);
    return moesi_audit(shape.ports, shape.sets, shape.lines, scratch.first, scratch.count, device.first, device.count,
                       memory->bytes, memory->length, tags->bytes, tags->length, states->bytes, states->length,
                       data->bytes, data->length, result->bytes, result->length);
}

/* The comparison. */

/* Adds to the text of what differed. */
static void differ(struct pair *pair, const char *what, uint64_t place, uint64_t expected, uint64_t got)
{
    size_t used = strlen(pair->difference);

    snprintf(pair->difference + used, sizeof pair->difference - used, "  %s %llu: expected 0x%llx, got 0x%llx\n", what,
             (unsigned long long)place, (unsigned long long)expected, (unsigned long long)got);
}

static void compare_guard(struct pair *pair, const char *what, const uint8_t *expected, const uint8_t *guard)
{
    for (size_t k = 0; k < LENT_GUARD; k++) {
        if (guard[k] != expected[k]) {
            differ(pair, what, k, expected[k], guard[k]);
            return;
        }
    }
}

static void compare_slice(struct pair *pair, enum slice slice)
{
    const struct lent *lent = &pair->slices[slice];
    char text[64];
    size_t k = 0;

    if (lent->bytes == NULL)
        return;
    if (memcmp(lent->bytes, lent->expected, lent->length) != 0) {
        while (lent->bytes[k] == lent->expected[k])
            k++;
        snprintf(text, sizeof text, "%s byte", slice_names[slice]);
        differ(pair, text, k, lent->expected[k], lent->bytes[k]);
    }
    if (pair->exact)
        return;
    snprintf(text, sizeof text, "before %s, guard byte", slice_names[slice]);
    compare_guard(pair, text, lent->guard, lent->bytes - LENT_GUARD);
    snprintf(text, sizeof text, "beyond %s, guard byte", slice_names[slice]);
    compare_guard(pair, text, lent->guard, lent->bytes + lent->length);
}

static int guards_stand(const struct lent *lent)
{
    return memcmp(lent->bytes - LENT_GUARD, lent->guard, LENT_GUARD) == 0 &&
           memcmp(lent->bytes + lent->length, lent->guard, LENT_GUARD) == 0;
}

/* Whether all bytes are as expected; compare_slice says which are not. */
static int slices_equal(const struct pair *pair)
{
    for (int s = 0; s < SLICES; s++) {
        const struct lent *lent = &pair->slices[s];

        if (lent->bytes == NULL)
            continue;
        if (memcmp(lent->bytes, lent->expected, lent->length) != 0)
            return 0;
        if (!pair->exact && !guards_stand(lent))
            return 0;
    }
    return 1;
}

static void count_step(struct tally *tally, uint64_t word, struct second_answer answer)
{
    tally->step_refusals[answer.refusal]++;
    if (answer.refusal != 0)
        return;
    tally->kinds[word & 7]++;
    tally->swapped += answer.swapped;
    tally->reads[answer.reads]++;
    tally->writes[answer.writes]++;
}

/* Counts what the totals of a record of its length were before a call and are after it. */
static void count_limits(const struct pair *pair, struct tally *tally)
{
    uint64_t after[SECOND_TOTALS];
    unsigned above = 0, place = 0;

    second_decode_totals(after, pair->slices[RECORD].expected);
    for (unsigned k = 0; k < SECOND_TOTALS; k++) {
        if (pair->before[k] >= UINT64_MAX - 1) {
            above++;
            place = k;
        } else {
            tally->brims[k] += pair->expected.refusal != 9 && pair->before[k] == UINT64_MAX - 2;
            tally->last[k] += after[k] >= UINT64_MAX - 1;
        }
    }
    if (above == 1)
        tally->full[pair->before[place] == UINT64_MAX][place]++;
}

static void count_totals(const struct pair *pair, struct tally *tally, uint64_t word)
{
    struct second_answer answer = pair->expected;
    int answered = pair->slices[RESULT].length == SECOND_ANSWER_BYTES;

    tally->totals_refusals[answer.refusal]++;
    if (pair->slices[RECORD].length != SECOND_RECORD_BYTES) {
        tally->records_of_other_length++;
        return;
    }
    count_limits(pair, tally);
    if (answer.refusal == 9)
        tally->nines_unanswered += !answered;
    else
        tally->answers_of_other_length += !answered;
    if (answer.refusal != 0)
        return;
    tally->totals_kinds[word & 7]++;
    tally->totals_writes[answer.writes]++;
    if ((word & 7) == SECOND_SWAP)
        tally->totals_swaps[answer.swapped]++;
}

/* Counts a conversion refused 3 if the length of one table alone is wrong. */
static void count_lengths(const struct pair *pair, struct tally *tally, enum call call, struct second_shape shape)
{
    static const size_t entry_bytes[3] = {4, 1, 8};
    unsigned wrong = 0, place = 0;

    for (unsigned k = 0; k < 6; k++) {
        enum slice first = k < 3 ? pair_input_of(call) : pair_output_of(call);

        if (pair->slices[first + k % 3].length != entry_bytes[k % 3] * shape.ports * shape.sets) {
            wrong++;
            place = k;
        }
    }
    tally->lengths_alone[call == TO_OLD][place] += wrong == 1;
}

/* Counts a conversion to old that was refused 10, if some entry is in write through besides. */
static void count_ten(struct tally *tally, const struct lent *states)
{
    const uint8_t *bytes = states->expected;
    size_t through = 0, none = 0;

    while (through < states->length && bytes[through] != 1 && bytes[through] != 2)
        through++;
    while (none < states->length && (bytes[none] <= 2 || (bytes[none] >= 9 && bytes[none] <= 12)))
        none++;
    if (through < states->length)
        tally->tens_over_through[through > none]++;
}

static void count_conversion(const struct pair *pair, struct tally *tally, enum call call, struct second_shape shape)
{
    const struct lent *old = &pair->slices[OLD_STATES];
    uint64_t refusal = pair->expected.refusal;

    tally->conversions[call == TO_OLD][refusal]++;
    if (refusal == 3)
        count_lengths(pair, tally, call, shape);
    if (refusal == 10 && call == TO_OLD)
        count_ten(tally, &pair->slices[STATES]);
    for (size_t entry = 0; refusal == 0 && entry < old->length; entry++) {
        if (old->expected[entry] < 5)
            tally->converted[call == TO_OLD][old->expected[entry]]++;
    }
}

static int ends_beyond(struct second_range range, uint64_t lines)
{
    return range.count > lines || (range.count > 0 && range.first > lines - range.count);
}

/* Counts a range of a call: refused for a sum that wraps, empty beyond lines, or up to the last line. */
static void count_range(struct tally *tally, int device, struct second_range range, uint64_t lines, uint64_t refusal)
{
    uint64_t sum = range.first + range.count;

    tally->wraps[device] += refusal == 12 && range.count > 0 && sum < range.first && sum <= lines;
    tally->empty_beyond[device] += refusal == 0 && range.count == 0 && range.first > lines;
    tally->to_the_end[device] += refusal == 0 && range.count > 0 && sum == lines;
}

/* Counts what the ranges of a call met; lines is in its limits unless the call is refused 2. */
static void count_ranges(struct tally *tally, enum call call, struct second_shape shape, uint64_t word,
                         uint64_t refusal)
{
    unsigned beyond = (ends_beyond(shape.scratch, shape.lines) ? IN_SCRATCH : 0) |
                      (ends_beyond(shape.device, shape.lines) ? IN_DEVICE : 0);

    if (refusal == 12)
        tally->twelves[call][beyond]++;
    if (refusal == 12 && is_step(call))
        tally->twelve_first[second_order_refusal(shape, second_take_apart(word, 0))]++;
    if (refusal != 12 && beyond != 0)
        tally->other_first[call][refusal]++;
    count_range(tally, 0, shape.scratch, shape.lines, refusal);
    count_range(tally, 1, shape.device, shape.lines, refusal);
}

static void count(struct pair *pair, enum call call, struct second_shape shape, uint64_t word)
{
    uint64_t refusal = pair->expected.refusal;

    pair->tally.calls++;
    if (call == FRESH)
        pair->tally.fresh_refusals[refusal]++;
    if (call == STEP)
        count_step(&pair->tally, word, pair->expected);
    if (call == STEP_TOTALS)
        count_totals(pair, &pair->tally, word);
    if (is_conversion(call))
        count_conversion(pair, &pair->tally, call, shape);
    else
        count_ranges(&pair->tally, call, shape, word, refusal);
    if (call == AUDIT)
        pair->tally.audit_refusals[refusal]++;
    if (call == AUDIT && refusal == 0)
        pair->tally.verdicts[pair->slices[RESULT].expected[0]]++;
}

int pair_call(struct pair *pair, enum call call, struct second_shape shape, uint64_t word, uint64_t operand)
{
    uint64_t expected = expect(pair, call, shape, word, operand);
    uint64_t got = call_library(pair, call, shape, word, operand);

    pair->returned = got;
    pair->difference[0] = '\0';
    count(pair, call, shape, word);
    if (expected == got && slices_equal(pair))
        return 1;
    if (expected != got)
        differ(pair, "returned refusal of call", call, expected, got);
    for (int s = 0; s < SLICES; s++)
        compare_slice(pair, (enum slice)s);
    return 0;
}

int pair_fresh(struct pair *pair)
{
    return pair_call(pair, FRESH, pair->second.shape, 0, 0);
}

int pair_step(struct pair *pair, uint64_t word, uint64_t operand)
{
    pair_place(pair, RESULT, SECOND_ANSWER_BYTES, (unsigned)(pair->tally.calls & LENT_MAX_SKEW));
    return pair_call(pair, STEP, pair->second.shape, word, operand);
}

int pair_step_totals(struct pair *pair, uint64_t word, uint64_t operand)
{
    pair_place(pair, RESULT, SECOND_ANSWER_BYTES, (unsigned)(pair->tally.calls & LENT_MAX_SKEW));
    return pair_call(pair, STEP_TOTALS, pair->second.shape, word, operand);
}

int pair_audit(struct pair *pair)
{
    pair_place(pair, RESULT, SECOND_VERDICT_BYTES, (unsigned)(pair->tally.calls & LENT_MAX_SKEW));
    return pair_call(pair, AUDIT, pair->second.shape, 0, 0);
}

unsigned pair_verdict(const struct pair *pair)
{
    return pair->slices[RESULT].bytes[0];
}
