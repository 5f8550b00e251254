/* The second model: documents 01 and 02 (orders 1, 2, 4, 6, 7) in plain C, a line and its holders at a time. */

#ifndef SECOND_MODEL_H
#define SECOND_MODEL_H

#include <stddef.h>
#include <stdint.h>

enum {
    SECOND_MAX_PORTS = 8,
    SECOND_MAX_SETS = 64,
    SECOND_MAX_LINES = 4096,
    SECOND_MAX_ENTRIES = SECOND_MAX_PORTS * SECOND_MAX_SETS,
    SECOND_ANSWER_BYTES = 40,
    SECOND_VERDICT_BYTES = 1
};

/* A range of lines: its first line and how many they are. With a count of 0 it is empty, wherever it starts. */
struct second_range {
    uint64_t first;
    uint64_t count;
};

struct second_shape {
    uint64_t ports;
    uint64_t sets;
    uint64_t lines;
    struct second_range scratch;
    struct second_range device;
};

/* The lengths in bytes of the slices of a call: main memory, the three tables, and the answer or the verdict. */
struct second_lengths {
    size_t memory;
    size_t tags;
    size_t states;
    size_t data;
    size_t result;
};

/* Main memory and the three tables, decoded. The shape must be in its limits, and its ranges within lines. */
struct second_model {
    struct second_shape shape;
    uint64_t memory[SECOND_MAX_LINES];
    uint32_t tags[SECOND_MAX_ENTRIES];
    uint8_t states[SECOND_MAX_ENTRIES];
    uint64_t data[SECOND_MAX_ENTRIES];
};

enum second_kind {
    SECOND_READ,
    SECOND_WRITE,
    SECOND_SWAP,
    SECOND_FLUSH,
    SECOND_DEVICE_READ,
    SECOND_DEVICE_WRITE,
    SECOND_KINDS
};

/* Places of the totals in a record; the accepted orders of a kind are at the kind's number. */
enum second_total {
    SECOND_TOTAL_REFUSED = SECOND_KINDS,
    SECOND_TOTAL_READS,
    SECOND_TOTAL_WRITES,
    SECOND_TOTAL_SWAPS,
    SECOND_TOTALS
};

enum { SECOND_RECORD_BYTES = 8 * SECOND_TOTALS };

enum second_mode { SECOND_THROUGH, SECOND_BACK };

/* The fields of an order word, with its operand. */
struct second_order {
    unsigned kind;
    enum second_mode mode;
    unsigned port;
    unsigned mask;
    unsigned line;
    uint32_t compare;
    uint64_t operand;
};

struct second_answer {
    uint64_t refusal;
    uint64_t value;
    uint64_t swapped;
    uint64_t reads;
    uint64_t writes;
};

/* The fields of an order word. */
struct second_order second_take_apart(uint64_t word, uint64_t operand);

/* Whether a range has the line. */
int second_has_line(struct second_range range, uint64_t line);

/* The mode in which an access runs: by the ranges where its line is in one, else by the order. */
enum second_mode second_mode_in_force(struct second_shape shape, struct second_order order);

/* Refusals 4 to 7, from the shape and the order alone; 0 if none. */
uint64_t second_order_refusal(struct second_shape shape, struct second_order order);

/* Byte k of the operand where mask bit k is 1, else byte k of the word. */
uint64_t second_merge(uint64_t word, uint64_t operand, unsigned mask);

/* Whether the merge changes the word. */
int second_merge_changes(uint64_t word, uint64_t operand, unsigned mask);

/* Whether a swap finds its compare value in the half that its mask names. */
int second_swap_succeeds(struct second_order order, uint64_t word);

/* Refusal 2 of a shape, else refusal 3 of the lengths of a call whose result slice has result bytes; 0 if none. The
   ranges are not looked at. */
uint64_t second_sizes_refusal(struct second_shape shape, struct second_lengths lengths, size_t result);

/* Refusal 12 of the ranges of a shape; 0 if none. */
uint64_t second_ranges_refusal(struct second_shape shape);

/* The first of refusals 2, 3 and 12 of fresh, a step or an audit; 0 if none. */
uint64_t second_call_refusal(struct second_shape shape, struct second_lengths lengths, size_t result);

/* The lengths that a shape in its limits gives; the result's is the caller's to say. */
struct second_lengths second_lengths_of(struct second_shape shape, size_t result);

/* The three calls on a shape that is not refused, beyond refusals 2, 3 and 12. */
void second_fresh(struct second_model *model);
struct second_answer second_step(struct second_model *model, uint64_t word, uint64_t operand);
int second_audit(const struct second_model *model);

/* The first of refusals 9, 2, 3 and 12 of a step with a record, from the slices' lengths and the totals; 0 if none. */
uint64_t second_totals_refusal(struct second_shape shape, struct second_lengths lengths, const uint8_t *record,
                               size_t record_len);

/* What the answer to an order adds to the total at a place. */
uint64_t second_adds(unsigned place, uint64_t word, struct second_answer answer);

/* Adds the answer to an order to every total of a record. */
void second_count(uint8_t record[SECOND_RECORD_BYTES], uint64_t word, struct second_answer answer);

/* How many ports hold the line. */
unsigned second_holders(const struct second_model *model, unsigned line);

/* What an access by a port meets at a line: the port's own state byte, 0 where it doesn't hold the line; what the other
   ports have of it; and the word, which is its own, else the lowest-numbered owner's, else memory's. */
enum second_others { SECOND_NO_OTHER, SECOND_CLEAN_OTHERS, SECOND_OTHER_OWNER, SECOND_OTHERS };

struct second_met {
    uint8_t state;
    enum second_others others;
    uint64_t word;
};

struct second_met second_meets(const struct second_model *model, unsigned port, unsigned line);

/* Little-endian bytes of the slices and the answer, decoded and encoded. */
void second_decode(struct second_model *model, const uint8_t *memory, const uint8_t *tags, const uint8_t *states,
                   const uint8_t *data);
void second_encode(const struct second_model *model, uint8_t *memory, uint8_t *tags, uint8_t *states, uint8_t *data);
void second_encode_answer(struct second_answer answer, uint8_t bytes[SECOND_ANSWER_BYTES]);
struct second_answer second_decode_answer(const uint8_t bytes[SECOND_ANSWER_BYTES]);
void second_encode_totals(const uint64_t totals[SECOND_TOTALS], uint8_t record[SECOND_RECORD_BYTES]);
void second_decode_totals(uint64_t totals[SECOND_TOTALS], const uint8_t record[SECOND_RECORD_BYTES]);

#endif
