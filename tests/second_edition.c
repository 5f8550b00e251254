/* The second model's conversions, letter by letter, and the audit's rules on the five letters, line by line. */

#include "second_edition.h"

/* Letters. */

/* "bytes 0 I, 1 S, 2 E, 3 O, 4 M"; 0 if the byte is above 4. */
static char letter_of_old(uint8_t byte)
{
    switch (byte) {
    case 0: return 'I';
    case 1: return 'S';
    case 2: return 'E';
    case 3: return 'O';
    case 4: return 'M';
    default: return 0;
    }
}

/* The old byte of a letter. */
static uint8_t old_of_letter(char letter)
{
    uint8_t byte = 0;

    while (letter_of_old(byte) != letter)
        byte++;
    return byte;
}

/* "with every held entry in write back" */
static uint8_t back_of_letter(char letter)
{
    switch (letter) {
    case 'S': return 9;
    case 'E': return 10;
    case 'O': return 11;
    case 'M': return 12;
    default: return 0;
    }
}

/* The letter of a byte of the new edition, in either mode; 0 if the byte is no state. */
static char letter_of_new(uint8_t byte)
{
    switch (byte) {
    case 0: return 'I';
    case 1: case 9: return 'S';
    case 2: case 10: return 'E';
    case 11: return 'O';
    case 12: return 'M';
    default: return 0;
    }
}

/* Conversions. */

static uint64_t tables_refusal(struct second_shape shape, struct second_lengths lengths)
{
    lengths.memory = second_lengths_of(shape, 0).memory;
    lengths.result = 0;
    return second_sizes_refusal(shape, lengths, 0);
}

/* "Shape and lengths keep refusals 2 and 3." Order 6: "The conversion of order 5 takes no ranges." */
uint64_t second_conversion_refusal(struct second_shape shape, struct second_lengths from, struct second_lengths to)
{
    uint64_t refusal = tables_refusal(shape, from);

    return refusal != 0 ? refusal : tables_refusal(shape, to);
}

static size_t entries_of(struct second_shape shape)
{
    return (size_t)(shape.ports * shape.sets);
}

/* "tags and data are copied" */
static void copy_tags_and_data(struct second_shape shape, const struct second_tables *from, struct second_tables *to)
{
    for (size_t k = 0; k < 4 * entries_of(shape); k++)
        to->tags[k] = from->tags[k];
    for (size_t k = 0; k < 8 * entries_of(shape); k++)
        to->data[k] = from->data[k];
}

uint64_t second_from_old(struct second_shape shape, const struct second_tables *old, struct second_tables *to)
{
    /* "10 for an old byte above 4" */
    for (size_t entry = 0; entry < entries_of(shape); entry++) {
        if (letter_of_old(old->states[entry]) == 0)
            return 10;
    }
    for (size_t entry = 0; entry < entries_of(shape); entry++)
        to->states[entry] = back_of_letter(letter_of_old(old->states[entry]));
    copy_tags_and_data(shape, old, to);
    return 0;
}

uint64_t second_to_old(struct second_shape shape, const struct second_tables *from, struct second_tables *old)
{
    /* "10 for ... a new byte that is no state" */
    for (size_t entry = 0; entry < entries_of(shape); entry++) {
        if (letter_of_new(from->states[entry]) == 0)
            return 10;
    }
    /* "11 for a write-through entry on the way back, after 10" */
    for (size_t entry = 0; entry < entries_of(shape); entry++) {
        if (from->states[entry] == 1 || from->states[entry] == 2)
            return 11;
    }
    for (size_t entry = 0; entry < entries_of(shape); entry++)
        old->states[entry] = old_of_letter(letter_of_new(from->states[entry]));
    copy_tags_and_data(shape, from, old);
    return 0;
}

/* The audit's rules. */

/* The holders of a line in an old set, in the order of their ports. */
struct old_holders {
    unsigned count;
    char letters[SECOND_MAX_PORTS];
    uint64_t words[SECOND_MAX_PORTS];
};

/* Whether an entry is held: its byte is one of the letters, and not I. */
static int is_held(const struct second_model *old, size_t entry)
{
    char letter = letter_of_old(old->states[entry]);

    return letter != 0 && letter != 'I';
}

static void list_old_holders(const struct second_model *old, unsigned line, struct old_holders *holders)
{
    uint64_t sets = old->shape.sets;

    holders->count = 0;
    for (unsigned port = 0; port < old->shape.ports; port++) {
        size_t entry = (size_t)(port * sets + line % sets);

        if (is_held(old, entry) && old->tags[entry] == line / sets) {
            holders->letters[holders->count] = letter_of_old(old->states[entry]);
            holders->words[holders->count] = old->data[entry];
            holders->count++;
        }
    }
}

/* How many of the holders have one of two letters. */
static unsigned count_of(const struct old_holders *holders, char one, char other)
{
    unsigned count = 0;

    for (unsigned k = 0; k < holders->count; k++)
        count += holders->letters[k] == one || holders->letters[k] == other;
    return count;
}

/* How many of the holders have another word. */
static unsigned count_without(const struct old_holders *holders, uint64_t word)
{
    unsigned count = 0;

    for (unsigned k = 0; k < holders->count; k++)
        count += holders->words[k] != word;
    return count;
}

/* The rules that a line breaks. */
static unsigned line_breaks(const struct second_model *old, unsigned line)
{
    struct old_holders holders;
    unsigned breaks = 0;

    list_old_holders(old, line, &holders);
    if (holders.count == 0)
        return 0;
    /* "holders of a line have equal words" */
    if (count_without(&holders, holders.words[0]) > 0)
        breaks |= 1u << SECOND_RULE_WORDS;
    /* "a line held in E or M has one holder" */
    if (count_of(&holders, 'E', 'M') > 0 && holders.count > 1)
        breaks |= 1u << SECOND_RULE_ALONE;
    /* "a line has at most one O" */
    if (count_of(&holders, 'O', 'O') > 1)
        breaks |= 1u << SECOND_RULE_ONE_O;
    /* "a held line without an owner equals memory" */
    if (count_of(&holders, 'O', 'M') == 0 && count_without(&holders, old->memory[line]) > 0)
        breaks |= 1u << SECOND_RULE_MEMORY;
    return breaks;
}

/* The rules that an entry breaks, whoever else holds its line. */
static unsigned entry_breaks(const struct second_model *old, size_t entry)
{
    uint64_t home = old->tags[entry] * old->shape.sets + entry % old->shape.sets;

    /* "every byte is a state", which the old edition has five of */
    if (letter_of_old(old->states[entry]) == 0)
        return 1u << SECOND_RULE_BYTES;
    /* "every home line is below lines"; an entry that is I has none */
    if (is_held(old, entry) && home >= old->shape.lines)
        return 1u << SECOND_RULE_HOMES;
    return 0;
}

unsigned second_old_breaks(const struct second_model *old)
{
    unsigned breaks = 0;

    for (size_t entry = 0; entry < entries_of(old->shape); entry++)
        breaks |= entry_breaks(old, entry);
    for (unsigned line = 0; line < old->shape.lines; line++)
        breaks |= line_breaks(old, line);
    return breaks;
}

int second_old_audit(const struct second_model *old)
{
    return second_old_breaks(old) == 0;
}
