/* The walking model: one pass over the ports of the lent byte tables, then the rules. The library is timed against it. */

#include "walking_model.h"

#include <string.h>

/* State bytes. */
enum { INVALID = 0, THROUGH_S = 1, THROUGH_E = 2, BACK_S = 9, BACK_E = 10, OWNED = 11, MODIFIED = 12 };

/* Kinds of order. */
enum { READ = 0, WRITE = 1, SWAP = 2, FLUSH = 3, DEVICE_READ = 4, DEVICE_WRITE = 5 };

enum { ANSWER_BYTES = 40, VERDICT_BYTES = 1, MAX_PORTS = 8 };

/* Little-endian loads and stores: one instruction each on a little-endian host. */

#if defined(__BYTE_ORDER__) && __BYTE_ORDER__ == __ORDER_LITTLE_ENDIAN__

static inline uint64_t load64(const uint8_t *at)
{
    uint64_t word;

    memcpy(&word, at, 8);
    return word;
}

static inline uint32_t load32(const uint8_t *at)
{
    uint32_t word;

    memcpy(&word, at, 4);
    return word;
}

static inline void store64(uint8_t *at, uint64_t word)
{
    memcpy(at, &word, 8);
}

static inline void store32(uint8_t *at, uint32_t word)
{
    memcpy(at, &word, 4);
}

#else

static inline uint32_t load32(const uint8_t *at)
{
    return at[0] | (uint32_t)at[1] << 8 | (uint32_t)at[2] << 16 | (uint32_t)at[3] << 24;
}

static inline uint64_t load64(const uint8_t *at)
{
    return load32(at) | (uint64_t)load32(at + 4) << 32;
}

static inline void store32(uint8_t *at, uint32_t word)
{
    at[0] = (uint8_t)word;
    at[1] = (uint8_t)(word >> 8);
    at[2] = (uint8_t)(word >> 16);
    at[3] = (uint8_t)(word >> 24);
}

static inline void store64(uint8_t *at, uint64_t word)
{
    store32(at, (uint32_t)word);
    store32(at + 4, (uint32_t)(word >> 32));
}

#endif

/* Bit b is set if b is one of the seven state bytes. */
#define STATE_BYTES 0x1E07u

static inline int is_state(unsigned byte)
{
    return byte <= MODIFIED && (STATE_BYTES >> byte & 1);
}

static inline int is_owner(unsigned state)
{
    return state >= OWNED;
}

static inline int is_back(unsigned state)
{
    return state >= BACK_S;
}

static inline int is_e(unsigned state)
{
    return state == THROUGH_E || state == BACK_E;
}

static inline int is_alone(unsigned state)
{
    return state == THROUGH_E || state == BACK_E || state == MODIFIED;
}

static inline unsigned shared_in(unsigned mode)
{
    return mode ? BACK_S : THROUGH_S;
}

static inline unsigned exclusive_in(unsigned mode)
{
    return mode ? BACK_E : THROUGH_E;
}

/* What a write in write back leaves with the only holder: E if it is clean still, else M. Without a jump. */
static inline unsigned written_back(int clean)
{
    return MODIFIED - (MODIFIED - BACK_E) * (unsigned)clean;
}

/* Refusals 2 and 3 of the shape and the four slices. */
static inline uint64_t check_slices(uint64_t ports, uint64_t sets, uint64_t lines, size_t memory_len,
                                    size_t tags_len, size_t states_len, size_t data_len)
{
    uint64_t entries;

    if (ports - 1 >= MAX_PORTS || sets - 1 >= 64 || (sets & (sets - 1)) || lines - 1 >= 4096)
        return 2;
    entries = ports * sets;
    if (memory_len != 8 * lines || tags_len != 4 * entries || states_len != entries || data_len != 8 * entries)
        return 3;
    return 0;
}

/* Whether a range that is not empty ends beyond lines. The sum, which may have 65 bits, is not made. */
static inline int ends_beyond(uint64_t first, uint64_t count, uint64_t lines)
{
    return count > 0 && (first > lines || count > lines - first);
}

/* Refusal 12 of the two ranges. */
static inline uint64_t check_ranges(uint64_t lines, uint64_t scratch_first, uint64_t scratch_count,
                                    uint64_t device_first, uint64_t device_count)
{
    return ends_beyond(scratch_first, scratch_count, lines) || ends_beyond(device_first, device_count, lines) ? 12 : 0;
}

/* One call of step: the lent slices, the order taken apart, and what the walk over the ports found. */
struct walk {
    uint8_t *memory, *tags, *states, *data;
    uint64_t ports, sets, lines;
    uint64_t scratch_first, scratch_count, device_first, device_count;
    uint64_t operand;
    unsigned kind, mode, port, mask, line;
    uint32_t compare;
    unsigned index;
    uint32_t tag;
    unsigned holders, owners; /* a bit per port */
    uint64_t value, swapped, reads, writes;
};

static inline size_t entry_of(const struct walk *w, unsigned port)
{
    return port * w->sets + w->index;
}

static inline void store_line(struct walk *w, uint64_t line, uint64_t word)
{
    store64(w->memory + 8 * line, word);
    w->writes++;
}

static uint64_t answer_with(uint8_t *answer, uint64_t refusal, const struct walk *w)
{
    store64(answer, refusal);
    store64(answer + 8, w->value);
    store64(answer + 16, w->swapped);
    store64(answer + 24, w->reads);
    store64(answer + 32, w->writes);
    return refusal;
}

static uint64_t refuse(uint8_t *answer, uint64_t refusal)
{
    store64(answer, refusal);
    memset(answer + 8, 0, 32);
    return refusal;
}

/* Takes the order word apart and gives refusals 4 to 7. */
static inline uint64_t take_apart(struct walk *w, uint64_t word)
{
    w->kind = word & 7;
    w->mode = word >> 3 & 1;
    w->port = word >> 4 & 15;
    w->mask = word >> 8 & 255;
    w->line = word >> 16 & 65535;
    w->compare = (uint32_t)(word >> 32);
    if (w->kind > DEVICE_WRITE)
        return 4;
    if (w->kind < DEVICE_READ && w->port >= w->ports)
        return 5;
    if (w->line >= w->lines)
        return 6;
    if (w->kind == SWAP && w->mask != 0x0F && w->mask != 0xF0)
        return 7;
    return 0;
}

/* Whether a range has the line. Below its first line the difference wraps, and is above every count that is let in. */
static inline unsigned has_line(uint64_t first, uint64_t count, unsigned line)
{
    return line - first < count;
}

/* The mode in force, without a jump: write back in scratch, else write through in the device range, else as ordered. */
static inline unsigned mode_in_force(const struct walk *w)
{
    unsigned scratch = has_line(w->scratch_first, w->scratch_count, w->line);
    unsigned device = has_line(w->device_first, w->device_count, w->line);

    return scratch | (w->mode & !device);
}

/* The one pass over the ports: refusal 8, who holds the line, who owns it. */
static inline uint64_t walk_ports(struct walk *w)
{
    unsigned shift = (unsigned)__builtin_ctzll(w->sets);

    w->index = w->line & (unsigned)(w->sets - 1);
    w->tag = w->line >> shift;
    w->holders = 0;
    w->owners = 0;
    for (unsigned p = 0; p < w->ports; p++) {
        size_t entry = entry_of(w, p);
        unsigned state = w->states[entry];
        uint32_t tag;

        if (state == INVALID)
            continue;
        tag = load32(w->tags + 4 * entry);
        if (!is_state(state) || ((uint64_t)tag << shift) + w->index >= w->lines)
            return 8;
        if (tag == w->tag) {
            w->holders |= 1u << p;
            w->owners |= (unsigned)is_owner(state) << p;
        }
    }
    return 0;
}

/* Byte k of the operand where mask bit k is 1, else of the word. */
static inline uint64_t merge(uint64_t word, uint64_t operand, unsigned mask)
{
    uint64_t spread = mask * 0x0101010101010101u & 0x8040201008040201u;
    uint64_t bytes = (((spread & 0x7F7F7F7F7F7F7F7Fu) + 0x7F7F7F7F7F7F7F7Fu) | spread) >> 7 & 0x0101010101010101u;
    uint64_t chosen = bytes * 255;

    return (word & ~chosen) | (operand & chosen);
}

/* Whether the order writes, seen the word it finds; a swap compares here. */
static inline int does_write(struct walk *w, uint64_t word)
{
    uint32_t half = (uint32_t)(w->mask == 0x0F ? word : word >> 32);

    if (w->kind == WRITE)
        return 1;
    w->value = word;
    if (w->kind == READ)
        return 0;
    w->swapped = half == w->compare;
    return (int)w->swapped;
}

static inline void set_all(struct walk *w, unsigned ports, unsigned state)
{
    for (; ports; ports &= ports - 1)
        w->states[entry_of(w, (unsigned)__builtin_ctz(ports))] = (uint8_t)state;
}

/* A read hit, or a swap hit that fails. */
static inline void read_hit(struct walk *w, size_t entry, unsigned state, uint64_t word)
{
    if ((unsigned)is_back(state) == w->mode)
        return;
    if (is_alone(state)) {
        if (state == MODIFIED)
            store_line(w, w->line, word);
        w->states[entry] = (uint8_t)exclusive_in(w->mode);
        return;
    }
    if (!w->mode && w->owners)
        store_line(w, w->line, word);
    set_all(w, w->holders, shared_in(w->mode));
}

/* A write hit, or a swap hit that succeeds. E is clean still where the word is the one before. */
static inline void write_hit(struct walk *w, size_t entry, unsigned state, uint64_t before)
{
    unsigned others = w->holders & ~(1u << w->port);
    uint64_t word = merge(before, w->operand, w->mask);
    int clean = is_e(state) & (word == before);

    store64(w->data + 8 * entry, word);
    if (!w->mode)
        store_line(w, w->line, word);
    if (is_alone(state) || !others) {
        w->states[entry] = (uint8_t)(w->mode ? written_back(clean) : THROUGH_E);
        return;
    }
    w->states[entry] = w->mode ? OWNED : THROUGH_S;
    for (; others; others &= others - 1) {
        size_t other = entry_of(w, (unsigned)__builtin_ctz(others));

        store64(w->data + 8 * other, word);
        w->states[other] = (uint8_t)shared_in(w->mode);
    }
}

/* A read miss, or a swap miss that fails: gives the state of the port that missed; the other holders answer. */
static inline unsigned read_miss(struct walk *w, uint64_t word)
{
    if (!w->mode && w->owners)
        store_line(w, w->line, word);
    if (w->mode) {
        set_all(w, w->owners, OWNED);
        set_all(w, w->holders & ~w->owners, BACK_S);
    } else {
        set_all(w, w->holders, THROUGH_S);
    }
    return w->holders ? shared_in(w->mode) : exclusive_in(w->mode);
}

/* The line's word for one who doesn't hold it: the lowest-numbered owner's, else memory's. */
static inline uint64_t fetch(struct walk *w)
{
    if (w->owners)
        return load64(w->data + 8 * entry_of(w, (unsigned)__builtin_ctz(w->owners)));
    w->reads = 1;
    return load64(w->memory + 8 * (size_t)w->line);
}

static inline void miss(struct walk *w, size_t entry)
{
    unsigned evicted = w->states[entry];
    unsigned state;
    uint64_t word;

    if (is_owner(evicted)) {
        uint64_t home = load32(w->tags + 4 * entry) * w->sets + w->index;

        store_line(w, home, load64(w->data + 8 * entry));
    }
    word = fetch(w);
    if (does_write(w, word)) {
        word = merge(word, w->operand, w->mask);
        state = w->mode ? MODIFIED : THROUGH_E;
        if (!w->mode)
            store_line(w, w->line, word);
        set_all(w, w->holders, INVALID);
    } else {
        state = read_miss(w, word);
    }
    store32(w->tags + 4 * entry, w->tag);
    store64(w->data + 8 * entry, word);
    w->states[entry] = (uint8_t)state;
}

static inline void hit(struct walk *w, size_t entry)
{
    unsigned state = w->states[entry];
    uint64_t word = load64(w->data + 8 * entry);

    if (does_write(w, word))
        write_hit(w, entry, state, word);
    else
        read_hit(w, entry, state, word);
}

static inline void flush(struct walk *w, size_t entry)
{
    if (!(w->holders >> w->port & 1))
        return;
    if (is_owner(w->states[entry]))
        store_line(w, w->line, load64(w->data + 8 * entry));
    w->states[entry] = INVALID;
}

/* The device's bytes go to memory with the rest of the line's word, and no port keeps a copy. */
static inline void device_write(struct walk *w)
{
    store_line(w, w->line, merge(fetch(w), w->operand, w->mask));
    set_all(w, w->holders, INVALID);
}

/* The order, after the walk over the ports. */
static inline void carry_out(struct walk *w)
{
    size_t entry = entry_of(w, w->port);

    w->mode = mode_in_force(w);
    if (w->kind == DEVICE_WRITE)
        device_write(w);
    else if (w->kind == FLUSH)
        flush(w, entry);
    else if (w->holders >> w->port & 1)
        hit(w, entry);
    else
        miss(w, entry);
}

uint64_t walking_step(uint64_t ports, uint64_t sets, uint64_t lines,
                      uint64_t scratch_first, uint64_t scratch_count,
                      uint64_t device_first, uint64_t device_count,
                      uint64_t word, uint64_t operand,
                      uint8_t *memory, size_t memory_len,
                      uint8_t *tags, size_t tags_len,
                      uint8_t *states, size_t states_len,
                      uint8_t *data, size_t data_len,
                      uint8_t *answer, size_t answer_len)
{
    struct walk w;
    uint64_t refusal = check_slices(ports, sets, lines, memory_len, tags_len, states_len, data_len);

    if (answer_len != ANSWER_BYTES)
        return refusal ? refusal : 3;
    if (refusal)
        return refuse(answer, refusal);
    if ((refusal = check_ranges(lines, scratch_first, scratch_count, device_first, device_count)))
        return refuse(answer, refusal);
    w.memory = memory;
    w.tags = tags;
    w.states = states;
    w.data = data;
    w.ports = ports;
    w.sets = sets;
    w.lines = lines;
    w.scratch_first = scratch_first;
    w.scratch_count = scratch_count;
    w.device_first = device_first;
    w.device_count = device_count;
    w.operand = operand;
    w.value = w.swapped = w.reads = w.writes = 0;
    if ((refusal = take_apart(&w, word)))
        return refuse(answer, refusal);
    if (w.kind == DEVICE_READ) {
        w.value = load64(memory + 8 * (size_t)w.line);
        w.reads = 1;
        return answer_with(answer, 0, &w);
    }
    if ((refusal = walk_ports(&w)))
        return refuse(answer, refusal);
    carry_out(&w);
    return answer_with(answer, 0, &w);
}

/* Totals: the accepted orders of each kind, then the refused ones, memory reads and writes, and swaps. */
enum { REFUSED = DEVICE_WRITE + 1, READS, WRITES, SWAPS, TOTALS, RECORD_BYTES = 8 * TOTALS };

/* Whether a total has no room for the two that an order may add. All of them have below 2^63, so that the second loop
   is seldom gone through. */
static inline int is_full(const uint8_t *record)
{
    uint64_t bits = 0;

    for (size_t k = 0; k < TOTALS; k++)
        bits |= load64(record + 8 * k);
    for (size_t k = 0; bits >> 63 && k < TOTALS; k++) {
        if (load64(record + 8 * k) > UINT64_MAX - 2)
            return 1;
    }
    return 0;
}

static inline void add_to(uint8_t *record, size_t place, uint64_t more)
{
    store64(record + 8 * place, load64(record + 8 * place) + more);
}

uint64_t walking_step_totals(uint64_t ports, uint64_t sets, uint64_t lines,
                             uint64_t scratch_first, uint64_t scratch_count,
                             uint64_t device_first, uint64_t device_count,
                             uint64_t word, uint64_t operand,
                             uint8_t *memory, size_t memory_len,
                             uint8_t *tags, size_t tags_len,
                             uint8_t *states, size_t states_len,
                             uint8_t *data, size_t data_len,
                             uint8_t *answer, size_t answer_len,
                             uint8_t *record, size_t record_len)
{
    uint64_t refusal;

    if (record_len != RECORD_BYTES) {
        refusal = check_slices(ports, sets, lines, memory_len, tags_len, states_len, data_len);
        refusal = refusal == 2 ? 2 : 3;
        return answer_len == ANSWER_BYTES ? refuse(answer, refusal) : refusal;
    }
    if (is_full(record))
        return answer_len == ANSWER_BYTES ? refuse(answer, 9) : 9;
    refusal = walking_step(ports, sets, lines, scratch_first, scratch_count, device_first, device_count, word, operand,
                           memory, memory_len, tags, tags_len, states, states_len, data, data_len, answer, answer_len);
    if (refusal) {
        add_to(record, REFUSED, 1);
        return refusal;
    }
    add_to(record, word & 7, 1);
    add_to(record, SWAPS, load64(answer + 16));
    add_to(record, READS, load64(answer + 24));
    add_to(record, WRITES, load64(answer + 32));
    return 0;
}

uint64_t walking_fresh(uint64_t ports, uint64_t sets, uint64_t lines,
                       uint64_t scratch_first, uint64_t scratch_count,
                       uint64_t device_first, uint64_t device_count,
                       const uint8_t *memory, size_t memory_len,
                       uint8_t *tags, size_t tags_len,
                       uint8_t *states, size_t states_len,
                       uint8_t *data, size_t data_len)
{
    uint64_t refusal = check_slices(ports, sets, lines, memory_len, tags_len, states_len, data_len);

    (void)memory;
    if (!refusal)
        refusal = check_ranges(lines, scratch_first, scratch_count, device_first, device_count);
    if (refusal)
        return refusal;
    memset(tags, 0, tags_len);
    memset(states, 0, states_len);
    memset(data, 0, data_len);
    return 0;
}

/* One column of the audit: the entries at one index that are not invalid. */
struct column {
    unsigned count;
    unsigned judged; /* a bit per entry whose line was looked at */
    unsigned state[MAX_PORTS];
    uint32_t tag[MAX_PORTS];
    uint64_t word[MAX_PORTS];
};

/* Whether the line of entry p and of the entries after it is coherent; memory_word is memory's word for it. */
static inline int line_is_coherent(struct column *c, unsigned p, uint64_t memory_word)
{
    unsigned state = c->state[p];
    unsigned holders = 1, owned = state == OWNED, owners = (unsigned)is_owner(state), alone = (unsigned)is_alone(state);

    for (unsigned q = p + 1; q < c->count; q++) {
        if (c->tag[q] != c->tag[p])
            continue;
        if (c->word[q] != c->word[p] || is_back(c->state[q]) != is_back(state))
            return 0;
        c->judged |= 1u << q;
        holders++;
        owned += c->state[q] == OWNED;
        owners += (unsigned)is_owner(c->state[q]);
        alone += (unsigned)is_alone(c->state[q]);
    }
    return (!alone || holders == 1) && owned <= 1 && (owners || c->word[p] == memory_word);
}

static int is_coherent(uint64_t ports, uint64_t sets, uint64_t lines, const uint8_t *memory,
                       const uint8_t *tags, const uint8_t *states, const uint8_t *data)
{
    struct column c;

    for (uint64_t index = 0; index < sets; index++) {
        c.count = c.judged = 0;
        for (size_t entry = index; entry < ports * sets; entry += sets) {
            if (states[entry] == INVALID)
                continue;
            c.state[c.count] = states[entry];
            c.tag[c.count] = load32(tags + 4 * entry);
            c.word[c.count] = load64(data + 8 * entry);
            if (!is_state(states[entry]) || c.tag[c.count] * sets + index >= lines)
                return 0;
            c.count++;
        }
        for (unsigned p = 0; p < c.count; p++) {
            uint64_t home = c.tag[p] * sets + index;

            if (!(c.judged >> p & 1) && !line_is_coherent(&c, p, load64(memory + 8 * home)))
                return 0;
        }
    }
    return 1;
}

uint64_t walking_audit(uint64_t ports, uint64_t sets, uint64_t lines,
                       uint64_t scratch_first, uint64_t scratch_count,
                       uint64_t device_first, uint64_t device_count,
                       const uint8_t *memory, size_t memory_len,
                       const uint8_t *tags, size_t tags_len,
                       const uint8_t *states, size_t states_len,
                       const uint8_t *data, size_t data_len,
                       uint8_t *verdict, size_t verdict_len)
{
    uint64_t refusal = check_slices(ports, sets, lines, memory_len, tags_len, states_len, data_len);

    if (verdict_len != VERDICT_BYTES)
        return refusal ? refusal : 3;
    if (!refusal)
        refusal = check_ranges(lines, scratch_first, scratch_count, device_first, device_count);
    *verdict = !refusal && is_coherent(ports, sets, lines, memory, tags, states, data);
    return refusal;
}
