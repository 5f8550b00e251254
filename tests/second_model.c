/* The second model: lists the holders of a line, follows the papers' sentences on the list, puts it back. */

#include "second_model.h"

/* What a state byte says: one of the five letters, and the mode where the letter is not I. */
struct status {
    char letter;
    enum second_mode mode;
};

/* A port that holds the line, and how. */
struct holder {
    unsigned port;
    struct status status;
    uint64_t word;
};

/* One line as the caches have it: its holders in the order of their ports. */
struct holding {
    unsigned line;
    unsigned count;
    struct holder holders[SECOND_MAX_PORTS];
};

/* Orders. */

struct second_order second_take_apart(uint64_t word, uint64_t operand)
{
    struct second_order order;

    order.kind = (unsigned)(word & 7);
    order.mode = (word >> 3 & 1) == 1 ? SECOND_BACK : SECOND_THROUGH;
    order.port = (unsigned)(word >> 4 & 15);
    order.mask = (unsigned)(word >> 8 & 255);
    order.line = (unsigned)(word >> 16 & 65535);
    order.compare = (uint32_t)(word >> 32);
    order.operand = operand;
    return order;
}

/* "flush has no mode, device read no port", and of a device write "port, mode and compare value are ignored". */
static int has_port(struct second_order order)
{
    return order.kind != SECOND_DEVICE_READ && order.kind != SECOND_DEVICE_WRITE;
}

/* Document 02's order 6: "two ranges, each a first line and a count, where a count of 0 is an empty range". */
int second_has_line(struct second_range range, uint64_t line)
{
    return line >= range.first && line - range.first < range.count;
}

enum second_mode second_mode_in_force(struct second_shape shape, struct second_order order)
{
    /* "The scratch range is looked up first." */
    if (second_has_line(shape.scratch, order.line))
        return SECOND_BACK;
    if (second_has_line(shape.device, order.line))
        return SECOND_THROUGH;
    /* "elsewhere the order's mode stands" */
    return order.mode;
}

uint64_t second_order_refusal(struct second_shape shape, struct second_order order)
{
    /* "Refusal 4 is left for kinds 6 and 7." */
    if (order.kind == 6 || order.kind == 7)
        return 4;
    if (has_port(order) && !(order.port < shape.ports))
        return 5;
    if (!(order.line < shape.lines))
        return 6;
    if (order.kind == SECOND_SWAP && order.mask != 0x0F && order.mask != 0xF0)
        return 7;
    return 0;
}

uint64_t second_merge(uint64_t word, uint64_t operand, unsigned mask)
{
    uint64_t merged = 0;

    for (unsigned k = 0; k < 8; k++) {
        uint64_t from = (mask >> k & 1) == 1 ? operand : word;

        merged |= from & (UINT64_C(255) << 8 * k);
    }
    return merged;
}

/* Document 02's order 4: "The merge must now also tell whether the word changed." */
int second_merge_changes(uint64_t word, uint64_t operand, unsigned mask)
{
    return second_merge(word, operand, mask) != word;
}

int second_swap_succeeds(struct second_order order, uint64_t word)
{
    uint64_t lower = word % UINT64_C(0x100000000);
    uint64_t upper = word / UINT64_C(0x100000000);

    return order.mask == 0x0F ? lower == order.compare : upper == order.compare;
}

/* State bytes. */

/* Tells the state bytes apart; 0 if the byte is no state. */
static int status_of_byte(uint8_t byte, struct status *status)
{
    status->mode = byte < 9 ? SECOND_THROUGH : SECOND_BACK;
    switch (byte) {
    case 0: status->letter = 'I'; return 1;
    case 1: status->letter = 'S'; return 1;
    case 2: status->letter = 'E'; return 1;
    case 9: status->letter = 'S'; return 1;
    case 10: status->letter = 'E'; return 1;
    case 11: status->letter = 'O'; return 1;
    case 12: status->letter = 'M'; return 1;
    default: return 0;
    }
}

static uint8_t byte_of_status(struct status status)
{
    switch (status.letter) {
    case 'S': return status.mode == SECOND_BACK ? 9 : 1;
    case 'E': return status.mode == SECOND_BACK ? 10 : 2;
    case 'O': return 11;
    case 'M': return 12;
    default: return 0;
    }
}

/* Places in the tables. */

static unsigned index_of(const struct second_model *model, unsigned line)
{
    return (unsigned)(line % model->shape.sets);
}

static unsigned tag_of(const struct second_model *model, unsigned line)
{
    return (unsigned)(line / model->shape.sets);
}

static unsigned entry_of(const struct second_model *model, unsigned port, unsigned line)
{
    return port * (unsigned)model->shape.sets + index_of(model, line);
}

static uint64_t home_of(const struct second_model *model, unsigned entry)
{
    return model->tags[entry] * model->shape.sets + entry % model->shape.sets;
}

/* Whether the entry is a state and, if it is not I, has a home line. */
static int entry_is_sound(const struct second_model *model, unsigned entry)
{
    struct status status;

    if (!status_of_byte(model->states[entry], &status))
        return 0;
    return status.letter == 'I' || home_of(model, entry) < model->shape.lines;
}

/* Lists the holders of a line, at an index whose entries are sound. */
static void list_holders(const struct second_model *model, unsigned line, struct holding *holding)
{
    holding->line = line;
    holding->count = 0;
    for (unsigned port = 0; port < model->shape.ports; port++) {
        unsigned entry = entry_of(model, port, line);
        struct holder holder = {port, {'I', SECOND_THROUGH}, model->data[entry]};

        status_of_byte(model->states[entry], &holder.status);
        if (holder.status.letter != 'I' && model->tags[entry] == tag_of(model, line))
            holding->holders[holding->count++] = holder;
    }
}

/* Puts the list back. A holder that was turned to I keeps its tag and data. */
static void put_holders_back(struct second_model *model, const struct holding *holding)
{
    for (unsigned k = 0; k < holding->count; k++) {
        const struct holder *holder = &holding->holders[k];
        unsigned entry = entry_of(model, holder->port, holding->line);

        model->states[entry] = byte_of_status(holder->status);
        if (holder->status.letter != 'I') {
            model->tags[entry] = tag_of(model, holding->line);
            model->data[entry] = holder->word;
        }
    }
}

/* Holders. */

static int owns(const struct holder *holder)
{
    return holder->status.letter == 'O' || holder->status.letter == 'M';
}

/* The holder that is the port itself, or none. */
static struct holder *own_holder(struct holding *holding, unsigned port)
{
    for (unsigned k = 0; k < holding->count; k++) {
        if (holding->holders[k].port == port)
            return &holding->holders[k];
    }
    return NULL;
}

/* The lowest-numbered owner, or none. */
static const struct holder *lowest_owner(const struct holding *holding)
{
    for (unsigned k = 0; k < holding->count; k++) {
        if (owns(&holding->holders[k]))
            return &holding->holders[k];
    }
    return NULL;
}

static void become(struct holder *holder, char letter, enum second_mode mode)
{
    holder->status.letter = letter;
    holder->status.mode = mode;
}

static void all_become_invalid(struct holding *holding)
{
    for (unsigned k = 0; k < holding->count; k++)
        become(&holding->holders[k], 'I', SECOND_THROUGH);
}

static void store(struct second_model *model, uint64_t line, uint64_t word, struct second_answer *answer)
{
    model->memory[line] = word;
    answer->writes++;
}

/* Hits. */

/* "Read hit, and swap hit that fails". */
static void read_hit(struct second_model *model, struct holding *holding, struct holder *own, enum second_mode mode,
                     struct second_answer *answer)
{
    /* "Mode already m: nothing changes." */
    if (own->status.mode == mode)
        return;
    /* "E: becomes E m." */
    if (own->status.letter == 'E') {
        become(own, 'E', mode);
        return;
    }
    /* "M and m = 0: store the word in memory, become write-through E." */
    if (own->status.letter == 'M') {
        store(model, holding->line, own->word, answer);
        become(own, 'E', SECOND_THROUGH);
        return;
    }
    /* "S or O with another mode: ... if m = 0 and any holder was an owner, i's word is stored in memory." */
    if (mode == SECOND_THROUGH && lowest_owner(holding) != NULL)
        store(model, holding->line, own->word, answer);
    /* "every holder becomes S m" */
    for (unsigned k = 0; k < holding->count; k++)
        become(&holding->holders[k], 'S', mode);
}

/* "Write hit, and swap hit that succeeds", as order 4 of document 02 amends it. */
static void write_hit(struct second_model *model, struct holding *holding, struct holder *own,
                      struct second_order order, struct second_answer *answer)
{
    uint64_t merged = second_merge(own->word, order.operand, order.mask);
    int changed = second_merge_changes(own->word, order.operand, order.mask);

    /* "m = 0: store in memory", for E, M, S and O alike. */
    if (order.mode == SECOND_THROUGH)
        store(model, holding->line, merged, answer);
    /* "A write-back write hit, or successful write-back swap hit, on E that leaves the word as it was becomes
       write-back E and not M." */
    if (own->status.letter == 'E' && order.mode == SECOND_BACK && !changed) {
        become(own, 'E', SECOND_BACK);
        return;
    }
    /* Other hits on E and M: "E or M: merge. m = 1: M. m = 0: ... write-through E." */
    if (own->status.letter == 'E' || own->status.letter == 'M') {
        own->word = merged;
        become(own, order.mode == SECOND_BACK ? 'M' : 'E', order.mode);
        return;
    }
    /* "S or O: merge and give the new word to every holder. Other holders become S m." */
    for (unsigned k = 0; k < holding->count; k++) {
        holding->holders[k].word = merged;
        become(&holding->holders[k], 'S', order.mode);
    }
    /* "i becomes O (m = 1) or write-through S (m = 0) if there is another holder, else M or write-through E." */
    if (holding->count > 1)
        become(own, order.mode == SECOND_BACK ? 'O' : 'S', order.mode);
    else
        become(own, order.mode == SECOND_BACK ? 'M' : 'E', order.mode);
}

/* Misses, whose rules order 4 leaves. "others" are all the holders of the list, for the port is none of them. */

/* "if i's entry is O or M for another line, its word is first stored at that line." */
static void evict(struct second_model *model, unsigned entry, struct second_answer *answer)
{
    struct holder evicted = {0, {'I', SECOND_THROUGH}, model->data[entry]};

    status_of_byte(model->states[entry], &evicted.status);
    if (owns(&evicted))
        store(model, home_of(model, entry), evicted.word, answer);
}

/* The read's sentence, and order 7 of document 02: "A swap miss that fails now does exactly what a read miss in the
   same mode does." own has the word already. */
static void read_miss(struct second_model *model, struct holding *others, struct holder *own, enum second_mode mode,
                      struct second_answer *answer)
{
    /* "m = 0: ... a word from an owner is stored in memory." */
    if (mode == SECOND_THROUGH && lowest_owner(others) != NULL)
        store(model, others->line, own->word, answer);
    /* "i becomes S m if there was another holder, else E m." */
    become(own, others->count > 0 ? 'S' : 'E', mode);
    for (unsigned k = 0; k < others->count; k++) {
        struct holder *other = &others->holders[k];

        /* "m = 1: other holders M and O become O, E and S become write-back S. m = 0: all others become write-through
           S" */
        if (mode == SECOND_BACK && owns(other))
            become(other, 'O', SECOND_BACK);
        else
            become(other, 'S', mode);
    }
}

/* "Write, or swap that succeeds: others become I; merge; M, or with m = 0 store the merged word in memory and become
   write-through E. A word from an owner isn't stored first." */
static void write_miss(struct second_model *model, struct holding *others, struct holder *own,
                       struct second_order order, struct second_answer *answer)
{
    all_become_invalid(others);
    own->word = second_merge(own->word, order.operand, order.mask);
    if (order.mode == SECOND_BACK) {
        become(own, 'M', SECOND_BACK);
    } else {
        store(model, others->line, own->word, answer);
        become(own, 'E', SECOND_THROUGH);
    }
}

/* Accesses. */

/* The part of an answer that the word found decides: value and swapped. Gives whether the order writes. */
static int see_word(struct second_order order, uint64_t word, struct second_answer *answer)
{
    if (order.kind == SECOND_WRITE)
        return 1;
    answer->value = word;
    if (order.kind == SECOND_READ)
        return 0;
    answer->swapped = second_swap_succeeds(order, word) ? 1 : 0;
    return answer->swapped == 1;
}

static void hit(struct second_model *model, struct holding *holding, struct holder *own, struct second_order order,
                struct second_answer *answer)
{
    if (see_word(order, own->word, answer))
        write_hit(model, holding, own, order, answer);
    else
        read_hit(model, holding, own, order.mode, answer);
    put_holders_back(model, holding);
}

static void miss(struct second_model *model, struct holding *others, struct second_order order,
                 struct second_answer *answer)
{
    struct holding alone = {order.line, 1, {{order.port, {'I', SECOND_THROUGH}, 0}}};
    struct holder *own = &alone.holders[0];
    const struct holder *owner = lowest_owner(others);

    evict(model, entry_of(model, order.port, order.line), answer);
    /* "The word comes from the lowest-numbered owner, otherwise from memory (one memory read)." */
    if (owner != NULL) {
        own->word = owner->word;
    } else {
        own->word = model->memory[order.line];
        answer->reads++;
    }
    if (see_word(order, own->word, answer))
        write_miss(model, others, own, order, answer);
    else
        read_miss(model, others, own, order.mode, answer);
    put_holders_back(model, others);
    /* "Then i's tag is a's and its data that word." */
    put_holders_back(model, &alone);
}

/* "Flush: if i holds a, an O or M word is stored in memory, and the entry becomes I. If not, nothing changes." */
static void flush(struct second_model *model, struct holding *holding, struct holder *own,
                  struct second_answer *answer)
{
    if (own == NULL)
        return;
    if (owns(own))
        store(model, holding->line, own->word, answer);
    become(own, 'I', SECOND_THROUGH);
    put_holders_back(model, holding);
}

/* An order by a port. A flush has no mode; "inside the scratch range every order runs write back, inside the device
   range write through". */
static void by_port(struct second_model *model, struct holding *holding, struct second_order order,
                    struct second_answer *answer)
{
    struct holder *own = own_holder(holding, order.port);

    order.mode = second_mode_in_force(model->shape, order);
    if (order.kind == SECOND_FLUSH)
        flush(model, holding, own, answer);
    else if (own != NULL)
        hit(model, holding, own, order, answer);
    else
        miss(model, holding, order, answer);
}

/* Document 02's order 1. */

/* "The lowest-numbered owner's word, or memory's if there is no owner, is merged and stored in memory, and every holder
   becomes I. A merge from memory counts one read; the store counts one write." */
static void device_write(struct second_model *model, struct holding *holding, struct second_order order,
                         struct second_answer *answer)
{
    const struct holder *owner = lowest_owner(holding);
    uint64_t word;

    if (owner != NULL) {
        word = owner->word;
    } else {
        word = model->memory[order.line];
        answer->reads++;
    }
    store(model, order.line, second_merge(word, order.operand, order.mask), answer);
    all_become_invalid(holding);
    put_holders_back(model, holding);
}

/* The three calls. */

void second_fresh(struct second_model *model)
{
    for (unsigned entry = 0; entry < model->shape.ports * model->shape.sets; entry++) {
        model->tags[entry] = 0;
        model->states[entry] = 0;
        model->data[entry] = 0;
    }
}

/* Refusal 8, "for kinds 0 to 3"; of device writes document 02 says that "refusals 6 and 8 apply". */
static int index_is_sound(const struct second_model *model, unsigned line)
{
    for (unsigned port = 0; port < model->shape.ports; port++) {
        if (!entry_is_sound(model, entry_of(model, port, line)))
            return 0;
    }
    return 1;
}

struct second_answer second_step(struct second_model *model, uint64_t word, uint64_t operand)
{
    struct second_order order = second_take_apart(word, operand);
    struct second_answer answer = {second_order_refusal(model->shape, order), 0, 0, 0, 0};
    struct holding holding;

    if (answer.refusal != 0)
        return answer;
    if (order.kind == SECOND_DEVICE_READ) {
        answer.value = model->memory[order.line];
        answer.reads = 1;
        return answer;
    }
    if (!index_is_sound(model, order.line)) {
        answer.refusal = 8;
        return answer;
    }
    list_holders(model, order.line, &holding);
    if (order.kind == SECOND_DEVICE_WRITE)
        device_write(model, &holding, order, &answer);
    else
        by_port(model, &holding, order, &answer);
    return answer;
}

unsigned second_holders(const struct second_model *model, unsigned line)
{
    struct holding holding;

    list_holders(model, line, &holding);
    return holding.count;
}

struct second_met second_meets(const struct second_model *model, unsigned port, unsigned line)
{
    struct second_met met = {0, SECOND_NO_OTHER, model->memory[line]};
    struct holding holding;
    const struct holder *own, *owner;

    list_holders(model, line, &holding);
    own = own_holder(&holding, port);
    owner = lowest_owner(&holding);
    if (own != NULL)
        met.state = byte_of_status(own->status);
    if (own != NULL || owner != NULL)
        met.word = own != NULL ? own->word : owner->word;
    for (unsigned k = 0; k < holding.count; k++) {
        if (holding.holders[k].port != port && met.others != SECOND_OTHER_OWNER)
            met.others = owns(&holding.holders[k]) ? SECOND_OTHER_OWNER : SECOND_CLEAN_OTHERS;
    }
    return met;
}

/* The audit. */

/* "holders of a line have equal words and equal modes" */
static int holders_are_equal(const struct holding *holding)
{
    for (unsigned k = 1; k < holding->count; k++) {
        if (holding->holders[k].word != holding->holders[0].word)
            return 0;
        if (holding->holders[k].status.mode != holding->holders[0].status.mode)
            return 0;
    }
    return 1;
}

static unsigned count_of_letter(const struct holding *holding, char letter)
{
    unsigned count = 0;

    for (unsigned k = 0; k < holding->count; k++) {
        if (holding->holders[k].status.letter == letter)
            count++;
    }
    return count;
}

static int line_is_coherent(const struct second_model *model, unsigned line)
{
    struct holding holding;
    unsigned exclusive, modified, owned;

    list_holders(model, line, &holding);
    exclusive = count_of_letter(&holding, 'E');
    modified = count_of_letter(&holding, 'M');
    owned = count_of_letter(&holding, 'O');
    if (!holders_are_equal(&holding))
        return 0;
    /* "a line held in E or M has one holder" */
    if ((exclusive > 0 || modified > 0) && holding.count != 1)
        return 0;
    /* "a line has at most one O" */
    if (owned > 1)
        return 0;
    /* "a held line without an owner equals memory" */
    if (holding.count > 0 && lowest_owner(&holding) == NULL)
        return holding.holders[0].word == model->memory[line];
    return 1;
}

int second_audit(const struct second_model *model)
{
    /* "every byte is a state and every home line is below lines" */
    for (unsigned entry = 0; entry < model->shape.ports * model->shape.sets; entry++) {
        if (!entry_is_sound(model, entry))
            return 0;
    }
    for (unsigned line = 0; line < model->shape.lines; line++) {
        if (!line_is_coherent(model, line))
            return 0;
    }
    return 1;
}

/* Refusals 2, 3 and 12. */

static int sets_in_range(uint64_t sets)
{
    switch (sets) {
    case 1: case 2: case 4: case 8: case 16: case 32: case 64: return 1;
    default: return 0;
    }
}

struct second_lengths second_lengths_of(struct second_shape shape, size_t result)
{
    size_t entries = (size_t)shape.ports * (size_t)shape.sets;
    struct second_lengths lengths = {8 * (size_t)shape.lines, 4 * entries, entries, 8 * entries, result};

    return lengths;
}

uint64_t second_sizes_refusal(struct second_shape shape, struct second_lengths lengths, size_t result)
{
    struct second_lengths due;

    if (shape.ports < 1 || shape.ports > SECOND_MAX_PORTS)
        return 2;
    if (!sets_in_range(shape.sets))
        return 2;
    if (shape.lines < 1 || shape.lines > SECOND_MAX_LINES)
        return 2;
    due = second_lengths_of(shape, result);
    if (lengths.memory != due.memory || lengths.tags != due.tags || lengths.states != due.states)
        return 3;
    if (lengths.data != due.data || lengths.result != due.result)
        return 3;
    return 0;
}

/* "where a range with a count above 0 ends beyond lines": the sum of its numbers may have 65 bits, and is not made. */
static int ends_beyond(struct second_range range, uint64_t lines)
{
    if (range.count == 0)
        return 0;
    return range.first > lines || range.count > lines - range.first;
}

uint64_t second_ranges_refusal(struct second_shape shape)
{
    return ends_beyond(shape.scratch, shape.lines) || ends_beyond(shape.device, shape.lines) ? 12 : 0;
}

/* "12, after 3 and before 4" */
uint64_t second_call_refusal(struct second_shape shape, struct second_lengths lengths, size_t result)
{
    uint64_t refusal = second_sizes_refusal(shape, lengths, result);

    return refusal != 0 ? refusal : second_ranges_refusal(shape);
}

/* Little-endian bytes. */

static uint32_t decode_half(const uint8_t *bytes)
{
    return (uint32_t)bytes[0] | (uint32_t)bytes[1] << 8 | (uint32_t)bytes[2] << 16 | (uint32_t)bytes[3] << 24;
}

static uint64_t decode_word(const uint8_t *bytes)
{
    return decode_half(bytes) | (uint64_t)decode_half(bytes + 4) << 32;
}

static void encode_half(uint32_t half, uint8_t *bytes)
{
    bytes[0] = (uint8_t)(half & 255);
    bytes[1] = (uint8_t)(half >> 8 & 255);
    bytes[2] = (uint8_t)(half >> 16 & 255);
    bytes[3] = (uint8_t)(half >> 24 & 255);
}

static void encode_word(uint64_t word, uint8_t *bytes)
{
    encode_half((uint32_t)(word & UINT64_C(0xFFFFFFFF)), bytes);
    encode_half((uint32_t)(word >> 32), bytes + 4);
}

void second_decode(struct second_model *model, const uint8_t *memory, const uint8_t *tags, const uint8_t *states,
                   const uint8_t *data)
{
    size_t entries = (size_t)(model->shape.ports * model->shape.sets);

    for (size_t line = 0; line < model->shape.lines; line++)
        model->memory[line] = decode_word(memory + 8 * line);
    for (size_t entry = 0; entry < entries; entry++) {
        model->tags[entry] = decode_half(tags + 4 * entry);
        model->states[entry] = states[entry];
        model->data[entry] = decode_word(data + 8 * entry);
    }
}

void second_encode(const struct second_model *model, uint8_t *memory, uint8_t *tags, uint8_t *states, uint8_t *data)
{
    size_t entries = (size_t)(model->shape.ports * model->shape.sets);

    for (size_t line = 0; line < model->shape.lines; line++)
        encode_word(model->memory[line], memory + 8 * line);
    for (size_t entry = 0; entry < entries; entry++) {
        encode_half(model->tags[entry], tags + 4 * entry);
        states[entry] = model->states[entry];
        encode_word(model->data[entry], data + 8 * entry);
    }
}

void second_encode_answer(struct second_answer answer, uint8_t bytes[SECOND_ANSWER_BYTES])
{
    encode_word(answer.refusal, bytes);
    encode_word(answer.value, bytes + 8);
    encode_word(answer.swapped, bytes + 16);
    encode_word(answer.reads, bytes + 24);
    encode_word(answer.writes, bytes + 32);
}

struct second_answer second_decode_answer(const uint8_t bytes[SECOND_ANSWER_BYTES])
{
    struct second_answer answer;

    answer.refusal = decode_word(bytes);
    answer.value = decode_word(bytes + 8);
    answer.swapped = decode_word(bytes + 16);
    answer.reads = decode_word(bytes + 24);
    answer.writes = decode_word(bytes + 32);
    return answer;
}

/* Document 02's order 2: a record of totals. */

void second_encode_totals(const uint64_t totals[SECOND_TOTALS], uint8_t record[SECOND_RECORD_BYTES])
{
    for (unsigned place = 0; place < SECOND_TOTALS; place++)
        encode_word(totals[place], record + 8 * place);
}

void second_decode_totals(uint64_t totals[SECOND_TOTALS], const uint8_t record[SECOND_RECORD_BYTES])
{
    for (unsigned place = 0; place < SECOND_TOTALS; place++)
        totals[place] = decode_word(record + 8 * place);
}

uint64_t second_totals_refusal(struct second_shape shape, struct second_lengths lengths, const uint8_t *record,
                               size_t record_len)
{
    uint64_t refusal;

    /* "9, checked before every other, where the record has its length and any total is above 2^64 - 3" */
    for (unsigned place = 0; place < SECOND_TOTALS && record_len == SECOND_RECORD_BYTES; place++) {
        if (decode_word(record + 8 * place) > UINT64_C(18446744073709551613))
            return 9;
    }
    refusal = second_sizes_refusal(shape, lengths, SECOND_ANSWER_BYTES);
    if (refusal != 0)
        return refusal;
    /* "A record of another length is refusal 3", and 12 comes after 3. */
    return record_len == SECOND_RECORD_BYTES ? second_ranges_refusal(shape) : 3;
}

uint64_t second_adds(unsigned place, uint64_t word, struct second_answer answer)
{
    /* "each total equals the sum over the answers in the list other than 9" */
    if (answer.refusal == 9)
        return 0;
    switch (place) {
    case SECOND_TOTAL_REFUSED: return answer.refusal != 0;
    case SECOND_TOTAL_READS: return answer.reads;
    case SECOND_TOTAL_WRITES: return answer.writes;
    case SECOND_TOTAL_SWAPS: return answer.swapped;
    default: /* "accepted orders per kind from kind 0 up" */
        return answer.refusal == 0 && second_take_apart(word, 0).kind == place;
    }
}

void second_count(uint8_t record[SECOND_RECORD_BYTES], uint64_t word, struct second_answer answer)
{
    for (unsigned place = 0; place < SECOND_TOTALS; place++)
        encode_word(decode_word(record + 8 * place) + second_adds(place, word, answer), record + 8 * place);
}
