/* The plain model: one pass over the ports of the lent byte tables, then the rules, as the scope has them. */

#include "plain_model.h"

#include <string.h>

/* State bytes and kinds of order. The bytes are read as they lie: the host is little-endian. */
enum { I = 0, S_THROUGH = 1, E_THROUGH = 2, S_BACK = 9, E_BACK = 10, O = 11, M = 12 };
enum { READ, WRITE, SWAP, FLUSH, DEVICE_READ, DEVICE_WRITE };

static uint64_t get8(const uint8_t *bytes)
{
    uint64_t number;

    memcpy(&number, bytes, 8);
    return number;
}

static uint64_t get4(const uint8_t *bytes)
{
    uint32_t number;

    memcpy(&number, bytes, 4);
    return number;
}

static void put8(uint8_t *bytes, uint64_t number)
{
    memcpy(bytes, &number, 8);
}

static void put4(uint8_t *bytes, uint64_t number)
{
    uint32_t half = (uint32_t)number;

    memcpy(bytes, &half, 4);
}

static int is_state(uint8_t byte)
{
    return byte == I || byte == S_THROUGH || byte == E_THROUGH || (byte >= S_BACK && byte <= M);
}

static int is_owner(uint8_t state)
{
    return state == O || state == M;
}

static int is_exclusive(uint8_t state)
{
    return state == E_THROUGH || state == E_BACK || state == M;
}

static int mode_of(uint8_t state)
{
    return state >= S_BACK;
}

static uint64_t refusal_of(uint64_t ports, uint64_t sets, uint64_t lines, size_t memory_len, size_t tags_len,
                           size_t states_len, size_t data_len)
{
    uint64_t entries;

    if (ports < 1 || ports > 8 || lines < 1 || lines > 4096)
        return 2;
    if (sets != 1 && sets != 2 && sets != 4 && sets != 8 && sets != 16 && sets != 32 && sets != 64)
        return 2;
    entries = ports * sets;
    if (memory_len != 8 * lines || tags_len != 4 * entries || states_len != entries || data_len != 8 * entries)
        return 3;
    return 0;
}

/* Whether a range that has lines ends beyond the last line of memory; the sum could wrap, so that it is not made. */
static int ends_beyond(uint64_t first, uint64_t count, uint64_t lines)
{
    return count > 0 && (count > lines || first > lines - count);
}

static uint64_t refusal_of_ranges(uint64_t lines, uint64_t scratch_first, uint64_t scratch_count,
                                  uint64_t device_first, uint64_t device_count)
{
    if (ends_beyond(scratch_first, scratch_count, lines) || ends_beyond(device_first, device_count, lines))
        return 12;
    return 0;
}

/* The mode that an access to a line runs in. A range that is not refused ends within lines, so that its sum is right. */
static uint64_t mode_at(uint64_t line, uint64_t mode, uint64_t scratch_first, uint64_t scratch_count,
                        uint64_t device_first, uint64_t device_count)
{
    if (scratch_count > 0 && line >= scratch_first && line < scratch_first + scratch_count)
        return 1;
    if (device_count > 0 && line >= device_first && line < device_first + device_count)
        return 0;
    return mode;
}

/* The lent slices and the line that an order is about. */
struct tables {
    uint8_t *memory, *tags, *states, *data;
    uint64_t ports, sets, lines;
    uint64_t line, index, tag;
};

/* An order, and the five numbers of its answer. */
struct order {
    uint64_t kind, mode, port, mask, compare, operand;
    uint64_t value, swapped, reads, writes;
};

static uint64_t entry_of(const struct tables *t, uint64_t port)
{
    return port * t->sets + t->index;
}

static int holds(const struct tables *t, uint64_t port)
{
    uint64_t entry = entry_of(t, port);

    return t->states[entry] != I && get4(t->tags + 4 * entry) == t->tag;
}

static void store(struct tables *t, struct order *o, uint64_t line, uint64_t word)
{
    put8(t->memory + 8 * line, word);
    o->writes++;
}

static uint64_t merge(uint64_t word, uint64_t operand, uint64_t mask)
{
    for (int k = 0; k < 8; k++) {
        uint64_t byte = (uint64_t)0xFF << 8 * k;

        if (mask >> k & 1)
            word = (word & ~byte) | (operand & byte);
    }
    return word;
}

/* The order's value, and whether it writes at the word that it finds. */
static int writes_at(struct order *o, uint64_t word)
{
    uint64_t half = o->mask == 0x0F ? word & 0xFFFFFFFFu : word >> 32;

    if (o->kind == WRITE)
        return 1;
    o->value = word;
    if (o->kind == SWAP && half == o->compare)
        o->swapped = 1;
    return (int)o->swapped;
}

/* Every other holder gets a state, and the word if it is handed on. */
static void tell_others(struct tables *t, uint64_t port, uint8_t state, int hand_on, uint64_t word)
{
    for (uint64_t p = 0; p < t->ports; p++) {
        if (p != port && holds(t, p)) {
            t->states[entry_of(t, p)] = state;
            if (hand_on)
                put8(t->data + 8 * entry_of(t, p), word);
        }
    }
}

/* Other holders of a line that a miss reads in write back: an owner becomes O, the rest S. */
static void tell_read_back(struct tables *t, uint64_t port)
{
    for (uint64_t p = 0; p < t->ports; p++) {
        if (p != port && holds(t, p))
            t->states[entry_of(t, p)] = is_owner(t->states[entry_of(t, p)]) ? O : S_BACK;
    }
}

static void read_hit(struct tables *t, struct order *o, int owned, uint64_t word)
{
    uint64_t entry = entry_of(t, o->port);
    uint8_t state = t->states[entry];

    if (mode_of(state) == (int)o->mode)
        return;
    if (is_exclusive(state)) {
        if (state == M)
            store(t, o, t->line, word);
        t->states[entry] = o->mode ? E_BACK : E_THROUGH;
        return;
    }
    if (!o->mode && owned)
        store(t, o, t->line, word);
    tell_others(t, o->port, o->mode ? S_BACK : S_THROUGH, 0, 0);
    t->states[entry] = o->mode ? S_BACK : S_THROUGH;
}

/* The word before is merged. E whose word stays is clean still: in write back it becomes E and not M, by no jump. */
static void write_hit(struct tables *t, struct order *o, int shared, uint64_t before)
{
    uint64_t entry = entry_of(t, o->port), word = merge(before, o->operand, o->mask);
    uint8_t state = t->states[entry];
    int alone = is_exclusive(state) || !shared;
    int clean = (state == E_THROUGH || state == E_BACK) & (word == before);

    if (!alone)
        tell_others(t, o->port, o->mode ? S_BACK : S_THROUGH, 1, word);
    put8(t->data + 8 * entry, word);
    if (!o->mode)
        store(t, o, t->line, word);
    if (alone)
        t->states[entry] = o->mode ? M - (M - E_BACK) * clean : E_THROUGH;
    else
        t->states[entry] = o->mode ? O : S_THROUGH;
}

static void hit(struct tables *t, struct order *o, int shared, int owned)
{
    uint64_t word = get8(t->data + 8 * entry_of(t, o->port));

    if (writes_at(o, word))
        write_hit(t, o, shared, word);
    else
        read_hit(t, o, owned, word);
}

/* A read, or a swap that fails, of a line that the port doesn't hold: gives the port's state. */
static uint8_t read_miss(struct tables *t, struct order *o, int shared, int owned, uint64_t word)
{
    if (o->mode) {
        tell_read_back(t, o->port);
        return shared ? S_BACK : E_BACK;
    }
    tell_others(t, o->port, S_THROUGH, 0, 0);
    if (owned)
        store(t, o, t->line, word);
    return shared ? S_THROUGH : E_THROUGH;
}

/* The line's word for one who doesn't hold it: the owner's, else memory's. */
static uint64_t fetch(struct tables *t, struct order *o, int owned, uint64_t owner)
{
    if (owned)
        return get8(t->data + 8 * entry_of(t, owner));
    o->reads = 1;
    return get8(t->memory + 8 * t->line);
}

static void miss(struct tables *t, struct order *o, int shared, int owned, uint64_t owner)
{
    uint64_t entry = entry_of(t, o->port), word;
    uint8_t state;

    if (is_owner(t->states[entry]))
        store(t, o, get4(t->tags + 4 * entry) * t->sets + t->index, get8(t->data + 8 * entry));
    word = fetch(t, o, owned, owner);
    if (writes_at(o, word)) {
        tell_others(t, o->port, I, 0, 0);
        word = merge(word, o->operand, o->mask);
        if (!o->mode)
            store(t, o, t->line, word);
        state = o->mode ? M : E_THROUGH;
    } else {
        state = read_miss(t, o, shared, owned, word);
    }
    put4(t->tags + 4 * entry, t->tag);
    put8(t->data + 8 * entry, word);
    t->states[entry] = state;
}

static void flush(struct tables *t, struct order *o)
{
    uint64_t entry = entry_of(t, o->port);

    if (!holds(t, o->port))
        return;
    if (is_owner(t->states[entry]))
        store(t, o, t->line, get8(t->data + 8 * entry));
    t->states[entry] = I;
}

/* A device is no port, so that every holder is another one. */
static void device_write(struct tables *t, struct order *o, int owned, uint64_t owner)
{
    store(t, o, t->line, merge(fetch(t, o, owned, owner), o->operand, o->mask));
    tell_others(t, t->ports, I, 0, 0);
}

/* One pass over the ports for refusal 8, other holders and the lowest owner; then the rules. */
static uint64_t on_caches(struct tables *t, struct order *o)
{
    int shared = 0, owned = 0;
    uint64_t owner = 0;

    for (uint64_t p = 0; p < t->ports; p++) {
        uint64_t entry = entry_of(t, p), tag = get4(t->tags + 4 * entry);
        uint8_t state = t->states[entry];

        if (!is_state(state) || (state != I && tag * t->sets + t->index >= t->lines))
            return 8;
        if (state == I || tag != t->tag)
            continue;
        if (p != o->port)
            shared = 1;
        if (is_owner(state) && !owned) {
            owned = 1;
            owner = p;
        }
    }
    if (o->kind == DEVICE_WRITE)
        device_write(t, o, owned, owner);
    else if (o->kind == FLUSH)
        flush(t, o);
    else if (holds(t, o->port))
        hit(t, o, shared, owned);
    else
        miss(t, o, shared, owned, owner);
    return 0;
}

/* Refusals 4 to 8, and the order carried out. */
static uint64_t perform(struct tables *t, struct order *o)
{
    if (o->kind > DEVICE_WRITE)
        return 4;
    if (o->kind < DEVICE_READ && o->port >= t->ports)
        return 5;
    if (t->line >= t->lines)
        return 6;
    if (o->kind == SWAP && o->mask != 0x0F && o->mask != 0xF0)
        return 7;
    if (o->kind != DEVICE_READ)
        return on_caches(t, o);
    o->value = get8(t->memory + 8 * t->line);
    o->reads = 1;
    return 0;
}

static uint64_t answer_with(uint8_t *answer, uint64_t refusal, const struct order *o)
{
    put8(answer, refusal);
    put8(answer + 8, refusal ? 0 : o->value);
    put8(answer + 16, refusal ? 0 : o->swapped);
    put8(answer + 24, refusal ? 0 : o->reads);
    put8(answer + 32, refusal ? 0 : o->writes);
    return refusal;
}

uint64_t plain_step(uint64_t ports, uint64_t sets, uint64_t lines,
                    uint64_t scratch_first, uint64_t scratch_count,
                    uint64_t device_first, uint64_t device_count,
                    uint64_t word, uint64_t operand,
                    uint8_t *memory, size_t memory_len,
                    uint8_t *tags, size_t tags_len,
                    uint8_t *states, size_t states_len,
                    uint8_t *data, size_t data_len,
                    uint8_t *answer, size_t answer_len)
{
    uint64_t refusal = refusal_of(ports, sets, lines, memory_len, tags_len, states_len, data_len);
    struct order o = {word & 7, word >> 3 & 1, word >> 4 & 15, word >> 8 & 255, word >> 32, operand, 0, 0, 0, 0};
    struct tables t = {memory, tags, states, data, ports, sets, lines, word >> 16 & 65535, 0, 0};

    if (answer_len != 40)
        return refusal == 2 ? 2 : 3;
    if (!refusal)
        refusal = refusal_of_ranges(lines, scratch_first, scratch_count, device_first, device_count);
    if (refusal)
        return answer_with(answer, refusal, &o);
    o.mode = mode_at(t.line, o.mode, scratch_first, scratch_count, device_first, device_count);
    t.index = t.line % sets;
    t.tag = t.line / sets;
    return answer_with(answer, perform(&t, &o), &o);
}

/* Whether a total of the record is above 2^64 - 3. */
static int is_full(const uint8_t *record)
{
    for (int k = 0; k < 10; k++) {
        if (get8(record + 8 * k) > UINT64_MAX - 2)
            return 1;
    }
    return 0;
}

static void add(uint8_t *record, uint64_t place, uint64_t number)
{
    put8(record + 8 * place, get8(record + 8 * place) + number);
}

/* A refusal that is not counted, given where the answer has its length. */
static uint64_t refuse(uint8_t *answer, size_t answer_len, uint64_t refusal)
{
    return answer_len == 40 ? answer_with(answer, refusal, NULL) : refusal;
}

/* The record has the accepted orders of kinds 0 to 5, at 6 the refused ones, then memory reads, writes and swaps. */
uint64_t plain_step_totals(uint64_t ports, uint64_t sets, uint64_t lines,
                           uint64_t scratch_first, uint64_t scratch_count,
                           uint64_t device_first, uint64_t device_count,
                           uint64_t word, uint64_t operand,
                           uint8_t *memory, size_t memory_len,
                           uint8_t *tags, size_t tags_len,
                           uint8_t *states, size_t states_len,
                           uint8_t *data, size_t data_len,
                           uint8_t *answer, size_t answer_len,
                           uint8_t *record, size_t record_len)
{
    uint64_t refusal;

    if (record_len != 80) {
        refusal = refusal_of(ports, sets, lines, memory_len, tags_len, states_len, data_len);
        return refuse(answer, answer_len, refusal == 2 ? 2 : 3);
    }
    if (is_full(record))
        return refuse(answer, answer_len, 9);
    refusal = plain_step(ports, sets, lines, scratch_first, scratch_count, device_first, device_count, word, operand,
                         memory, memory_len, tags, tags_len, states, states_len, data, data_len, answer, answer_len);
    add(record, refusal ? 6 : word & 7, 1);
    if (refusal)
        return refusal;
    add(record, 7, get8(answer + 24));
    add(record, 8, get8(answer + 32));
    add(record, 9, get8(answer + 16));
    return 0;
}

uint64_t plain_fresh(uint64_t ports, uint64_t sets, uint64_t lines,
                     uint64_t scratch_first, uint64_t scratch_count,
                     uint64_t device_first, uint64_t device_count,
                     const uint8_t *memory, size_t memory_len,
                     uint8_t *tags, size_t tags_len,
                     uint8_t *states, size_t states_len,
                     uint8_t *data, size_t data_len)
{
    uint64_t refusal = refusal_of(ports, sets, lines, memory_len, tags_len, states_len, data_len);

    (void)memory;
    if (!refusal)
        refusal = refusal_of_ranges(lines, scratch_first, scratch_count, device_first, device_count);
    if (refusal)
        return refusal;
    memset(tags, 0, tags_len);
    memset(states, 0, states_len);
    memset(data, 0, data_len);
    return 0;
}

/* Whether port p's entry goes with every other port's entry for its line, and with memory. */
static int entry_passes(const struct tables *t, uint64_t p)
{
    uint64_t entry = entry_of(t, p), tag = get4(t->tags + 4 * entry), home = tag * t->sets + t->index;
    uint64_t word = get8(t->data + 8 * entry);
    uint8_t state = t->states[entry];
    int owned = is_owner(state);

    if (!is_state(state))
        return 0;
    if (state == I)
        return 1;
    if (home >= t->lines)
        return 0;
    for (uint64_t q = 0; q < t->ports; q++) {
        uint64_t other = entry_of(t, q);
        uint8_t s = t->states[other];

        if (q == p || s == I || !is_state(s) || get4(t->tags + 4 * other) != tag)
            continue;
        if (get8(t->data + 8 * other) != word || mode_of(s) != mode_of(state))
            return 0;
        if (is_exclusive(state) || is_exclusive(s) || (state == O && s == O))
            return 0;
        owned = owned || is_owner(s);
    }
    return owned || word == get8(t->memory + 8 * home);
}

uint64_t plain_audit(uint64_t ports, uint64_t sets, uint64_t lines,
                     uint64_t scratch_first, uint64_t scratch_count,
                     uint64_t device_first, uint64_t device_count,
                     const uint8_t *memory, size_t memory_len,
                     const uint8_t *tags, size_t tags_len,
                     const uint8_t *states, size_t states_len,
                     const uint8_t *data, size_t data_len,
                     uint8_t *verdict, size_t verdict_len)
{
    uint64_t refusal = refusal_of(ports, sets, lines, memory_len, tags_len, states_len, data_len);
    struct tables t = {(uint8_t *)memory, (uint8_t *)tags, (uint8_t *)states, (uint8_t *)data, ports, sets, lines,
                       0, 0, 0};

    if (verdict_len != 1)
        return refusal == 2 ? 2 : 3;
    if (!refusal)
        refusal = refusal_of_ranges(lines, scratch_first, scratch_count, device_first, device_count);
    verdict[0] = 0;
    if (refusal)
        return refusal;
    for (t.index = 0; t.index < sets; t.index++) {
        for (uint64_t p = 0; p < ports; p++) {
            if (!entry_passes(&t, p))
                return 0;
        }
    }
    verdict[0] = 1;
    return 0;
}
