/* Random shapes, orders, damage and noise. */

#include "traffic.h"

static const uint8_t state_bytes[7] = {0, 1, 2, 9, 10, 11, 12};

/* Ranges. */

/* A first line for an empty range, of which nobody asks where it starts. */
static uint64_t any_first(struct generator *generator, uint64_t lines)
{
    const uint64_t often[6] = {0, lines, lines + 1, UINT64_C(1) << 63, UINT64_MAX, generator_word(generator)};

    return generator_percent(generator, 50) ? often[generator_below(generator, 6)] : generator_below(generator, lines);
}

/* A range that ends within lines. */
static struct second_range some_range(struct generator *generator, uint64_t lines)
{
    struct second_range range = {generator_below(generator, lines), 1};

    switch (generator_below(generator, 8)) {
    case 0: /* empty */
        range.first = any_first(generator, lines);
        range.count = 0;
        break;
    case 1: /* all of memory */
        range.first = 0;
        range.count = lines;
        break;
    case 2: case 3: /* up to the last line */
        range.count = lines - range.first;
        break;
    case 4: /* one line */
        break;
    default:
        range.count = 1 + generator_below(generator, lines - range.first);
        break;
    }
    return range;
}

void traffic_ranges(struct generator *generator, struct second_shape *shape)
{
    unsigned thrown = generator_below(generator, 100);

    shape->scratch = some_range(generator, shape->lines);
    shape->device = some_range(generator, shape->lines);
    if (thrown < 40)
        shape->scratch.count = 0;
    if (thrown < 30 || (thrown >= 40 && thrown < 50))
        shape->device.count = 0;
    if (thrown >= 95)
        shape->device = shape->scratch;
}

/* A range that ends beyond lines. Some would end within them if a sum wrapped, or if upper bits were lost. */
static struct second_range range_beyond(struct generator *generator, uint64_t lines)
{
    uint64_t first = generator_below(generator, lines), count = 1 + generator_below(generator, lines - first);
    uint64_t any = generator_word(generator), other = generator_word(generator);
    const struct second_range ranges[12] = {
        {first, lines - first + 1}, {lines, 1}, {lines + 1 + first, count}, {0, lines + 1}, {first, UINT64_MAX},
        {UINT64_MAX, 1}, {UINT64_MAX, count}, {UINT64_C(1) << 63, UINT64_C(1) << 63},
        {UINT64_MAX - first, count + first}, {first + (UINT64_C(1) << 32), count}, {first, count + (UINT64_C(1) << 32)},
        {any | 4097, other | 1},
    };

    return ranges[generator_below(generator, 12)];
}

void traffic_ranges_beyond(struct generator *generator, struct second_shape *shape)
{
    unsigned which = generator_below(generator, 3);

    traffic_ranges(generator, shape);
    if (which != 0)
        shape->scratch = range_beyond(generator, shape->lines);
    if (which != 1)
        shape->device = range_beyond(generator, shape->lines);
}

struct second_shape traffic_without_ranges(struct second_shape shape)
{
    static const struct second_range empty = {0, 0};

    shape.scratch = empty;
    shape.device = empty;
    return shape;
}

/* Shapes. */

struct second_shape traffic_small_shape(struct generator *generator)
{
    struct second_shape shape;

    shape.ports = 1 + generator_below(generator, 4);
    shape.sets = 1u << generator_below(generator, 3);
    shape.lines = 1 + generator_below(generator, 3 * shape.sets + 2);
    traffic_ranges(generator, &shape);
    return shape;
}

struct second_shape traffic_any_shape(struct generator *generator)
{
    static const unsigned often[8] = {1, 2, 63, 64, 65, 1024, 4095, 4096};
    struct second_shape shape;

    shape.ports = generator_percent(generator, 40) ? 8 : 1 + generator_below(generator, 8);
    shape.sets = generator_percent(generator, 40) ? 64 : 1u << generator_below(generator, 7);
    shape.lines = generator_percent(generator, 50) ? often[generator_below(generator, 8)] : 1 + generator_below(generator, 4096);
    traffic_ranges(generator, &shape);
    return shape;
}

/* Habits. */

static unsigned any_line(const struct traffic *traffic, struct generator *generator)
{
    return generator_below(generator, traffic->shape.lines);
}

static unsigned usual_line(const struct traffic *traffic, struct generator *generator)
{
    if (generator_percent(generator, traffic->hot_percent))
        return traffic->hot[generator_below(generator, traffic->hot_count)];
    return any_line(traffic, generator);
}

/* The line before a range, its first line, its last or the line behind it; another one if there is no such line. */
static unsigned edge_line(struct generator *generator, struct second_shape shape, unsigned other)
{
    struct second_range range = generator_percent(generator, 50) ? shape.scratch : shape.device;
    uint64_t edges[4] = {range.first - 1, range.first, range.first + range.count - 1, range.first + range.count};
    uint64_t line = edges[generator_below(generator, 4)];

    return range.count > 0 && line < shape.lines ? (unsigned)line : other;
}

void traffic_begin(struct traffic *traffic, struct generator *generator, struct second_shape shape)
{
    static const unsigned percents[5] = {0, 30, 50, 70, 100};

    traffic->shape = shape;
    traffic->hot_count = 1 + generator_below(generator, 8);
    for (unsigned k = 0; k < traffic->hot_count; k++) {
        unsigned line = any_line(traffic, generator);
        unsigned ways = (unsigned)(shape.lines / shape.sets);

        /* A line that shares the index of the first one, where there is one. */
        if (k > 0 && ways > 0 && generator_percent(generator, 70))
            line = (unsigned)(traffic->hot[0] % shape.sets + shape.sets * generator_below(generator, ways));
        if (generator_percent(generator, 30))
            line = edge_line(generator, shape, line);
        traffic->hot[k] = line;
    }
    traffic->hot_percent = generator_percent(generator, 80) ? 90 : 20;
    traffic->hit_percent = generator_percent(generator, 50) ? 0 : 60;
    traffic->back_percent = percents[generator_below(generator, 5)];
    traffic->odd_percent = generator_percent(generator, 50) ? 2 : 15;
    traffic->wide_percent = generator_percent(generator, 50) ? 10 : 60;
    traffic->same_percent = generator_percent(generator, 50) ? 20 : 70;
    for (unsigned k = 0; k < SECOND_KINDS; k++)
        traffic->weights[k] = 1 + generator_below(generator, 8);
}

/* Words. */

static uint64_t some_word(const struct traffic *traffic, struct generator *generator)
{
    uint64_t few = generator_below(generator, 4);

    if (generator_percent(generator, traffic->wide_percent))
        return generator_word(generator);
    return few | few << 32;
}

void traffic_fill_memory(const struct traffic *traffic, struct generator *generator, struct second_model *model)
{
    for (size_t line = 0; line < model->shape.lines; line++)
        model->memory[line] = some_word(traffic, generator);
}

void traffic_fill_tables(struct generator *generator, struct second_model *model)
{
    for (size_t entry = 0; entry < model->shape.ports * model->shape.sets; entry++) {
        uint64_t bits = generator_word(generator);

        model->tags[entry] = (uint32_t)(bits >> 32);
        model->states[entry] = (uint8_t)(bits & 255);
        model->data[entry] = generator_word(generator);
    }
}

/* Orders. */

uint64_t traffic_word(uint64_t kind, uint64_t mode, uint64_t port, uint64_t mask, uint64_t line, uint64_t compare)
{
    return (kind & 7) | (mode & 1) << 3 | (port & 15) << 4 | (mask & 255) << 8 | (line & 65535) << 16 | compare << 32;
}

static unsigned usual_kind(const struct traffic *traffic, struct generator *generator)
{
    unsigned total = 0, kind = 0, thrown;

    for (unsigned k = 0; k < SECOND_KINDS; k++)
        total += traffic->weights[k];
    thrown = generator_below(generator, total);
    while (thrown >= traffic->weights[kind])
        thrown -= traffic->weights[kind++];
    return kind;
}

/* Any port, or the next one from it on that holds the line. */
static unsigned usual_port(const struct traffic *traffic, struct generator *generator, const struct second_model *model,
                           unsigned line)
{
    unsigned ports = (unsigned)traffic->shape.ports, port = generator_below(generator, ports);

    if (!generator_percent(generator, traffic->hit_percent))
        return port;
    for (unsigned k = 0; k < ports; k++) {
        if (second_meets(model, (port + k) % ports, line).state != 0)
            return (port + k) % ports;
    }
    return port;
}

static unsigned usual_mask(struct generator *generator, unsigned kind)
{
    static const unsigned masks[8] = {0xFF, 0xFF, 0x0F, 0xF0, 0x00, 0x01, 0x80, 0x5A};

    if (kind == SECOND_SWAP)
        return generator_percent(generator, 50) ? 0x0F : 0xF0;
    return generator_percent(generator, 50) ? masks[generator_below(generator, 8)] : generator_below(generator, 256);
}

/* A compare value: mostly half of a word that the swap may find. */
static uint64_t usual_compare(struct generator *generator, const struct second_model *model, unsigned line, unsigned mask)
{
    unsigned port = generator_below(generator, model->shape.ports + 1);
    uint64_t word = model->memory[line];

    if (port < model->shape.ports)
        word = model->data[port * model->shape.sets + line % model->shape.sets];
    if (generator_percent(generator, 30))
        return generator_percent(generator, 50) ? generator_below(generator, 4) : generator_word(generator) >> 32;
    /* Sometimes the wrong half. */
    if (generator_percent(generator, 5))
        mask ^= 0xFF;
    return mask == 0x0F ? word & UINT64_C(0xFFFFFFFF) : word >> 32;
}

/* An order with fields out of their ranges, one or several, or a word of any bits. */
static uint64_t odd_order(const struct traffic *traffic, struct generator *generator)
{
    unsigned wrong = generator_below(generator, 16);
    uint64_t kind = wrong & 1 ? 6 + generator_below(generator, 2) : generator_below(generator, SECOND_KINDS);
    uint64_t port = generator_below(generator, traffic->shape.ports);
    uint64_t line = usual_line(traffic, generator);
    uint64_t mask = usual_mask(generator, (unsigned)kind);

    if (wrong == 0)
        return generator_word(generator);
    if (wrong & 2)
        port = traffic->shape.ports + generator_below(generator, 16 - traffic->shape.ports);
    if (wrong & 4)
        line = traffic->shape.lines + (generator_percent(generator, 50) ? 0 : generator_below(generator, 65536 - traffic->shape.lines));
    if (wrong & 8)
        mask = generator_below(generator, 256);
    if (wrong == 8)
        kind = SECOND_SWAP;
    return traffic_word(kind, generator_below(generator, 2), port, mask, line, generator_below(generator, 4));
}

uint64_t traffic_order(const struct traffic *traffic, struct generator *generator, const struct second_model *model)
{
    unsigned kind, mode, port, mask, line;
    uint64_t compare;

    if (generator_percent(generator, traffic->odd_percent))
        return odd_order(traffic, generator);
    kind = usual_kind(traffic, generator);
    mode = generator_percent(generator, traffic->back_percent);
    line = usual_line(traffic, generator);
    port = usual_port(traffic, generator, model, line);
    mask = usual_mask(generator, kind);
    compare = kind == SECOND_SWAP ? usual_compare(generator, model, line, mask) : generator_word(generator) >> 32;
    /* Fields that the kind doesn't use hold anything. */
    if (kind == SECOND_DEVICE_READ || kind == SECOND_DEVICE_WRITE) {
        mode = generator_below(generator, 2);
        port = generator_below(generator, 16);
    }
    return traffic_word(kind, mode, port, mask, line, compare);
}

/* Often from the word that the port would find: the bytes under the mask or all of them, so that the order stores the
   same; and of these often all but one bit, so that it nearly does. */
uint64_t traffic_operand(const struct traffic *traffic, struct generator *generator, const struct second_model *model,
                         uint64_t word)
{
    struct second_order order = second_take_apart(word, 0);
    uint64_t operand = some_word(traffic, generator), found;

    if (!generator_percent(generator, traffic->same_percent))
        return operand;
    /* Of an order that is refused too, for it must not be carried out. */
    found = second_meets(model, order.port % (unsigned)traffic->shape.ports,
                         order.line % (unsigned)traffic->shape.lines).word;
    operand = generator_percent(generator, 50) ? found : second_merge(operand, found, order.mask);
    if (generator_percent(generator, 30))
        operand ^= UINT64_C(1) << generator_below(generator, 64);
    return operand;
}

/* Tables that no history leads to. */

/* Some come back below the last line if the home line is worked out in 32 bits. */
uint32_t traffic_tag_beyond(struct generator *generator, struct second_shape shape)
{
    uint32_t first = (uint32_t)((shape.lines + shape.sets - 1) / shape.sets);
    uint32_t turn = (uint32_t)((UINT64_C(1) << 32) / shape.sets);

    switch (generator_below(generator, 4)) {
    case 0: return first;
    case 1: return first + generator_below(generator, 100);
    case 2: return turn * generator_below(generator, shape.sets) + generator_below(generator, first);
    default: return UINT32_MAX - generator_below(generator, 100);
    }
}

static uint8_t no_state(struct generator *generator)
{
    return (uint8_t)(generator_percent(generator, 50) ? 3 + generator_below(generator, 6) : 13 + generator_below(generator, 243));
}

void traffic_damage(const struct traffic *traffic, struct generator *generator, struct second_model *model)
{
    unsigned sets = (unsigned)traffic->shape.sets, line = usual_line(traffic, generator);
    unsigned entry = generator_below(generator, traffic->shape.ports) * sets + line % sets;
    unsigned other = generator_below(generator, traffic->shape.ports) * sets + line % sets;

    switch (generator_below(generator, 16)) {
    case 0: model->states[entry] = no_state(generator); break;
    case 1: model->tags[entry] = traffic_tag_beyond(generator, traffic->shape); break;
    case 2: model->data[entry] ^= UINT64_C(1) << generator_below(generator, 64); break;
    case 3: model->memory[line] ^= UINT64_C(1) << generator_below(generator, 64); break;
    case 4: case 5: model->tags[entry] = line / sets; break;
    case 6: case 7: model->data[entry] = some_word(traffic, generator); break;
    case 8: model->memory[line] = some_word(traffic, generator); break;
    case 9: case 10: /* a copy of another port's entry */
        model->tags[entry] = model->tags[other];
        model->states[entry] = model->states[other];
        model->data[entry] = model->data[other];
        break;
    case 11: /* an owner more */
        model->tags[entry] = line / sets;
        model->states[entry] = generator_percent(generator, 50) ? 11 : 12;
        break;
    default: model->states[entry] = state_bytes[generator_below(generator, 7)]; break;
    }
}

void traffic_noise(const struct traffic *traffic, struct generator *generator, struct second_model *model)
{
    unsigned sets = (unsigned)traffic->shape.sets, lines = (unsigned)traffic->shape.lines;
    unsigned wrong = generator_percent(generator, 50) ? 0 : 3;

    for (size_t entry = 0; entry < traffic->shape.ports * sets; entry++) {
        unsigned index = (unsigned)(entry % sets);
        unsigned ways = index < lines ? (lines - index - 1) / sets + 1 : 0;

        model->tags[entry] = ways > 0 ? generator_below(generator, ways < 3 ? ways : 3) : 0;
        model->states[entry] = ways > 0 ? state_bytes[generator_below(generator, 7)] : 0;
        model->data[entry] = some_word(traffic, generator);
        if (generator_percent(generator, wrong))
            model->tags[entry] = traffic_tag_beyond(generator, traffic->shape);
        if (generator_percent(generator, wrong))
            model->states[entry] = no_state(generator);
    }
}

/* Totals. */

static uint64_t some_total(struct generator *generator)
{
    static const uint64_t limits[6] = {UINT64_MAX - 2, UINT64_MAX - 2, UINT64_MAX - 3, UINT64_MAX - 4,
                                       UINT64_C(1) << 63, UINT64_MAX >> 1};

    switch (generator_below(generator, 4)) {
    case 0: return generator_below(generator, 1000);
    case 1: return UINT64_MAX - 3 - generator_below(generator, 20);
    case 2: return limits[generator_below(generator, 6)];
    default: return generator_word(generator) >> 1;
    }
}

void traffic_totals(struct generator *generator, uint64_t totals[SECOND_TOTALS])
{
    unsigned habit = generator_below(generator, 10);

    for (unsigned place = 0; place < SECOND_TOTALS; place++)
        totals[place] = habit == 0 ? 0 : habit == 1 ? UINT64_MAX - 2 : some_total(generator);
    if (habit > 1 && generator_percent(generator, 60))
        totals[generator_below(generator, SECOND_TOTALS)] = UINT64_MAX - generator_below(generator, 2);
}
