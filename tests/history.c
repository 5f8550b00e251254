/* Histories of orders, carried out by the pair beside the flat memory, and cut down to a short one where they fail. */

#include "history.h"

#include <inttypes.h>
#include <stdio.h>
#include <stdlib.h>
#include <string.h>

int history_open(struct history *history, size_t room)
{
    memset(history, 0, sizeof *history);
    history->room = room;
    history->orders = calloc(room, sizeof history->orders[0]);
    return history->orders != NULL;
}

void history_close(struct history *history)
{
    free(history->orders);
}

/* The audit in a history: from a fresh start it must say yes, unless it is refused for a range. */
static int audit(const struct history *history, struct pair *pair)
{
    if (!pair_audit(pair))
        return 0;
    if (history->fresh && pair->returned == 0 && pair_verdict(pair) != 1) {
        snprintf(pair->difference, sizeof pair->difference, "  the audit of a history from a fresh start says no\n");
        return 0;
    }
    return 1;
}

/* Lends the record. */
static void begin_totals(struct history *history, struct pair *pair)
{
    uint8_t record[SECOND_RECORD_BYTES];

    memcpy(history->totals_due, history->totals_start, sizeof history->totals_due);
    second_encode_totals(history->totals_start, record);
    pair_place_record(pair, record, sizeof record, history->skew + 3);
}

int history_begin(struct history *history, struct pair *pair)
{
    history->count = 0;
    history->chosen = 0;
    history->ranges = 0;
    history->scratch[0] = history->start.shape.scratch;
    history->device[0] = history->start.shape.device;
    pair->second = history->start;
    pair_lend(pair, history->skew);
    if (history->totals)
        begin_totals(history, pair);
    if (!history->fresh)
        return audit(history, pair);
    flat_start(&history->flat, history->start.shape, history->start.memory);
    return pair_fresh(pair) && audit(history, pair);
}

void history_under(struct history *history, struct pair *pair, unsigned ranges)
{
    struct second_shape *shape = &pair->second.shape;

    pair->tally.changed_ranges += ranges != history->ranges;
    history->ranges = ranges;
    shape->scratch = history->scratch[ranges];
    shape->device = history->device[ranges];
    history->flat.shape = *shape;
}

static void say_flat_differs(struct pair *pair, const char *what, uint64_t flat, uint64_t model)
{
    snprintf(pair->difference, sizeof pair->difference,
             "  the flat memory's %s is 0x%" PRIx64 ", the library's and the second model's 0x%" PRIx64 "\n", what,
             flat, model);
}

/* Adds the library's last answer up, from its five numbers and the order's kind alone. Refusal 9 counts nowhere. */
static void add_up(struct history *history, uint64_t word)
{
    uint64_t *due = history->totals_due;
    struct second_answer given = history->given;

    if (given.refusal == 0)
        due[word & 7] += 1;
    else if (given.refusal != 9)
        due[6] += 1;
    due[7] += given.reads;
    due[8] += given.writes;
    due[9] += given.swapped;
}

/* Whether the lent record has the sums over the answers so far. */
static int totals_are_sums(struct history *history, struct pair *pair, uint64_t word)
{
    uint64_t totals[SECOND_TOTALS];

    add_up(history, word);
    second_decode_totals(totals, pair->slices[RECORD].bytes);
    for (unsigned place = 0; place < SECOND_TOTALS; place++) {
        if (totals[place] != history->totals_due[place]) {
            snprintf(pair->difference, sizeof pair->difference,
                     "  total %u is %" PRIu64 ", the sum over the answers %" PRIu64 "\n", place, totals[place],
                     history->totals_due[place]);
            return 0;
        }
    }
    return 1;
}

/* Counts an accepted device write, by the holders before it. */
static void count_device_write(struct pair *pair, struct history_order order, unsigned holders)
{
    struct second_order fields = second_take_apart(order.word, order.operand);
    struct tally *tally = &pair->tally;

    tally->device_writes[pair->expected.reads == 0 ? 0 : holders > 0 ? 1 : 2]++;
    tally->device_masks[fields.mask == 0x00 ? 0 : fields.mask == 0xFF ? 1 : 2]++;
    tally->device_ports_beyond += fields.port >= pair->second.shape.ports;
}

/* What an order by a port meets. One that names no port or no line is looked at as if it named another. */
static struct second_met met_by(const struct pair *pair, struct second_order order)
{
    const struct second_shape *shape = &pair->second.shape;

    return second_meets(&pair->second, order.port % (unsigned)shape->ports, order.line % (unsigned)shape->lines);
}

/* Counts a write or a swap that succeeds, or that would if it were not refused, by what it met. */
static void count_store(struct pair *pair, struct second_order order, struct second_met met, int fresh)
{
    struct tally *tally = &pair->tally;
    int swap = order.kind == SECOND_SWAP, changed = second_merge_changes(met.word, order.operand, order.mask);
    unsigned state = met.state < 9 ? met.state : met.state - 6u;

    if (order.kind != SECOND_WRITE && !(swap && second_swap_succeeds(order, met.word)))
        return;
    if (pair->expected.refusal != 0) {
        tally->same_refused[pair->expected.refusal] += !changed;
        return;
    }
    tally->stores[fresh][state][met.others][second_mode_in_force(pair->second.shape, order)][swap][changed]++;
    if (!changed)
        tally->same_masks[order.mask == 0x00 ? 0 : order.mask == 0xFF ? 1 : 2]++;
}

/* Whether an order, if it is accepted, is a swap miss that fails. */
static int is_failed_miss(struct second_order order, struct second_met met)
{
    return order.kind == SECOND_SWAP && met.state == 0 && !second_swap_succeeds(order, met.word);
}

/* Counts an accepted one. In write through an owner's word is stored besides one that gives way. */
static void count_failed_miss(struct pair *pair, struct second_order order, struct second_met met, int broken)
{
    enum second_mode mode = second_mode_in_force(pair->second.shape, order);
    uint64_t of_owner = mode == SECOND_THROUGH && met.others == SECOND_OTHER_OWNER;

    pair->tally.failed_misses[broken][mode][met.others][pair->expected.writes > of_owner]++;
}

/* Counts an accepted access to a line by where the line lies to a range. */
static void count_edge(struct tally *tally, int device, struct second_range range, uint64_t line)
{
    if (range.count == 0)
        return;
    tally->edges[device][0] += line + 1 == range.first;
    tally->edges[device][1] += line == range.first;
    tally->edges[device][2] += line + 1 == range.first + range.count;
    tally->edges[device][3] += line == range.first + range.count;
}

/* Which ranges have a line. */
static unsigned place_of(const struct second_shape *shape, uint64_t line)
{
    return (second_has_line(shape->scratch, line) ? IN_SCRATCH : 0) |
           (second_has_line(shape->device, line) ? IN_DEVICE : 0);
}

/* Counts an accepted access by the ranges that have its line. */
static void count_ranged(struct pair *pair, struct second_order order, int fresh)
{
    const struct second_shape *shape = &pair->second.shape;

    if (order.kind > SECOND_SWAP)
        return;
    pair->tally.ranged[fresh][place_of(shape, order.line)][order.mode][order.kind]++;
    count_edge(&pair->tally, 0, shape->scratch, order.line);
    count_edge(&pair->tally, 1, shape->device, order.line);
}

/* Holds the answer of the step just made against the flat memory's. */
static int agrees_with_flat(struct history *history, struct pair *pair, struct history_order order)
{
    struct flat_answer flat = flat_order(&history->flat, order.word, order.operand);
    struct second_answer model = pair->expected;

    if (flat.refusal == 0 && (order.word & 7) == SECOND_DEVICE_READ) {
        unsigned place = place_of(&pair->second.shape, order.word >> 16 & 65535);

        pair->tally.device_range_reads += flat.compared_value != 0 && place == IN_DEVICE;
        pair->tally.devices_compared += flat.compared_value != 0;
        pair->tally.devices_not_compared += flat.compared_value == 0;
    }
    if (flat.refusal != model.refusal)
        say_flat_differs(pair, "refusal", flat.refusal, model.refusal);
    else if (flat.compared_value && flat.value != model.value)
        say_flat_differs(pair, "value", flat.value, model.value);
    else if (flat.swapped != model.swapped)
        say_flat_differs(pair, "swapped mark", flat.swapped, model.swapped);
    else
        return 1;
    return 0;
}

int history_add(struct history *history, struct pair *pair, uint64_t word, uint64_t operand)
{
    struct history_order order = {word, operand, history->ranges};
    struct second_order fields = second_take_apart(word, operand);
    unsigned holders = second_holders(&pair->second, fields.line);
    struct second_met met = met_by(pair, fields);
    int failed_miss = !history->chosen && is_failed_miss(fields, met);
    int broken = failed_miss && !history->fresh && !second_audit(&pair->second);

    if (history->count < history->room)
        history->orders[history->count] = order;
    history->count++;
    if (!(history->totals ? pair_step_totals : pair_step)(pair, word, operand))
        return 0;
    history->given = second_decode_answer(pair->slices[RESULT].bytes);
    if (history->totals && !totals_are_sums(history, pair, word))
        return 0;
    /* An order refused 9 or 12 changes nothing, so that the flat memory is not fed it. */
    if (history->fresh && pair->expected.refusal != 9 && pair->expected.refusal != 12 &&
        !agrees_with_flat(history, pair, order))
        return 0;
    if (history->fresh && pair->expected.refusal == 0 && (word & 7) == SECOND_DEVICE_WRITE)
        count_device_write(pair, order, holders);
    if (!history->chosen)
        count_store(pair, fields, met, history->fresh);
    if (!history->chosen && pair->expected.refusal == 0)
        count_ranged(pair, fields, history->fresh);
    if (failed_miss && pair->expected.refusal == 0)
        count_failed_miss(pair, fields, met, broken);
    return history->count % history->audit_every != 0 || audit(history, pair);
}

int history_end(struct history *history, struct pair *pair)
{
    return audit(history, pair);
}

/* Carries the first count orders of a list out from the start, with the audits of the run; 1 if one of them fails. */
static int replay_fails(struct history *history, struct pair *pair, const struct history_order *orders, size_t count)
{
    size_t k = 0;

    if (!history_begin(history, pair))
        return 1;
    while (k < count) {
        history_under(history, pair, orders[k].ranges);
        if (!history_add(history, pair, orders[k].word, orders[k].operand))
            return 1;
        k++;
    }
    return !history_end(history, pair);
}

static size_t list_without(const struct history_order *orders, size_t count, size_t from, size_t cut,
                           struct history_order *into)
{
    size_t end = from + cut < count ? from + cut : count;

    memcpy(into, orders, from * sizeof orders[0]);
    memcpy(into + from, orders + end, (count - end) * sizeof orders[0]);
    return count - (end - from);
}

/* Leaves pieces out, halves first and single orders last, while the rest fails; gives the orders left. */
static size_t cut_down(struct history *history, struct pair *pair, struct history_order *orders,
                       struct history_order *trial, size_t count)
{
    uint64_t patience = 300000; /* orders to carry out, at most */

    for (size_t cut = count / 2; cut > 0; cut /= 2) {
        size_t from = 0;

        while (from < count) {
            size_t left = list_without(orders, count, from, cut, trial);

            if (patience < left)
                return count;
            patience -= left + 1;
            if (replay_fails(history, pair, trial, left)) {
                count = history->count < left ? history->count : left;
                memcpy(orders, trial, count * sizeof orders[0]);
            } else {
                from += cut;
            }
        }
    }
    return count;
}

void history_shrink(struct history *history, struct pair *pair)
{
    size_t count = history->count;
    uint64_t audit_every = history->audit_every;
    struct history_order *orders, *trial;

    if (count == 0 || count > history->room)
        return;
    orders = calloc(count, sizeof orders[0]);
    trial = calloc(count, sizeof trial[0]);
    if (orders != NULL && trial != NULL) {
        memcpy(orders, history->orders, count * sizeof orders[0]);
        if (history->start.shape.lines <= 64)
            history->audit_every = 1;
        if (replay_fails(history, pair, orders, count))
            count = cut_down(history, pair, orders, trial, history->count);
        replay_fails(history, pair, orders, count);
        history->audit_every = audit_every;
    }
    free(orders);
    free(trial);
}

/* Printing. */

static void print_order(const struct history *history, size_t k)
{
    static const char *const kinds[8] = {"read",        "write",        "swap",   "flush",
                                         "device read", "device write", "kind 6", "kind 7"};
    struct second_order order = second_take_apart(history->orders[k].word, history->orders[k].operand);

    printf("  order %zu: word 0x%" PRIx64 " operand 0x%" PRIx64 " (port %u %s line %u %s, mask 0x%02x, compare 0x%x)\n",
           k + 1, history->orders[k].word, order.operand, order.port, kinds[order.kind], order.line,
           order.mode == SECOND_BACK ? "back" : "through", order.mask, (unsigned)order.compare);
}

static void print_ranges(struct second_range scratch, struct second_range device)
{
    printf("  scratch %" PRIu64 " %" PRIu64 ", device %" PRIu64 " %" PRIu64 "\n", scratch.first, scratch.count,
           device.first, device.count);
}

static void print_start(const struct history *history)
{
    const struct second_model *start = &history->start;
    size_t entries = (size_t)(start->shape.ports * start->shape.sets);

    printf("  shape %" PRIu64 " %" PRIu64 " %" PRIu64 ", %s start\n", start->shape.ports, start->shape.sets,
           start->shape.lines, history->fresh ? "fresh" : "given");
    print_ranges(start->shape.scratch, start->shape.device);
    for (unsigned place = 0; place < SECOND_TOTALS && history->totals; place++)
        printf("%s%" PRIu64 "%s", place == 0 ? "  record " : " ", history->totals_start[place],
               place + 1 == SECOND_TOTALS ? "\n" : "");
    for (size_t line = 0; line < start->shape.lines && start->shape.lines <= 16; line++)
        printf("  memory %zu: 0x%" PRIx64 "\n", line, start->memory[line]);
    for (size_t entry = 0; entry < entries && entries <= 16 && !history->fresh; entry++)
        printf("  entry %zu: tag %" PRIu32 " state %u data 0x%" PRIx64 "\n", entry, start->tags[entry],
               start->states[entry], start->data[entry]);
}

static void print_answer(const char *whose, struct second_answer answer)
{
    printf("  %s: refusal %" PRIu64 " value 0x%" PRIx64 " swapped %" PRIu64 " reads %" PRIu64 " writes %" PRIu64 "\n",
           whose, answer.refusal, answer.value, answer.swapped, answer.reads, answer.writes);
}

void history_print(const struct history *history, const struct pair *pair)
{
    size_t shown = history->count < history->room ? history->count : history->room;
    size_t first = shown > 40 ? shown - 40 : 0;

    print_start(history);
    if (first > 0)
        printf("  orders 1 to %zu are not shown\n", first);
    for (size_t k = first; k < shown; k++) {
        unsigned ranges = history->orders[k].ranges;

        if (ranges != (k > 0 ? history->orders[k - 1].ranges : 0))
            print_ranges(history->scratch[ranges], history->device[ranges]);
        print_order(history, k);
    }
    if (shown > 0 && pair->slices[RESULT].length == SECOND_ANSWER_BYTES) {
        print_answer("expected", pair->expected);
        print_answer("got     ", second_decode_answer(pair->slices[RESULT].bytes));
    }
    printf("%s", pair->difference);
}
