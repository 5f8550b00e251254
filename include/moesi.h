/* The C interface of the proved MOESI cache model: a model as one struct, the calls under it, and their numbers. */

/*
 * Where to start
 * ==============
 *
 * Write against struct moesi_model, at the end of this file: it is given main
 * memory and one room for all the tables, takes orders, and answers. A program
 * written so keeps its source when a later edition adds tables or numbers.
 *
 *     static uint8_t memory[MOESI_MEMORY_BYTES(16)], room[MOESI_TABLES_BYTES(2, 4, 16)];
 *     static struct moesi_model m;
 *
 *     if (moesi_model_init(&m, 2, 4, 16, memory, sizeof memory, room, sizeof room) == MOESI_ACCEPTED)
 *         moesi_model_step(&m, moesi_order_write(1, 0, MOESI_WRITE_BACK, 0xFF), 9);
 *
 * moesi_fresh, moesi_step, moesi_step_totals, moesi_audit, moesi_from_old and
 * moesi_to_old are what is proved, and what the struct calls. They are for
 * programs that lay out their own tables; the argument lists of the first four
 * grow with the model. The struct itself is plain C over them: tested, not proved.
 *
 * The model
 * =========
 *
 * One to eight ports have a direct-mapped cache each over a main memory of
 * 64-bit words, one word per line. A shape is three numbers, ports, sets and lines,
 * and two ranges of lines, scratch and device, either of which may be empty (see
 * below). The caller owns all the bytes and lends them for the time of a call:
 *
 *   memory   lines words of 8 bytes          main memory
 *   tags     ports * sets entries of 4 bytes  the tag of each entry
 *   states   ports * sets entries of 1 byte   the state of each entry
 *   data     ports * sets entries of 8 bytes  the word of each entry
 *
 * Every word, tag and number is little-endian in these bytes. The host has
 * 64-bit addresses.
 * Line a has index a mod sets and tag a div sets; port p's entry for it is
 * number p * sets + index of each table. An entry that is not invalid has a
 * home line, tag * sets + index. The slices need no alignment.
 *
 * Nothing is kept between calls: all that a call knows are its numbers and the
 * contents of its slices. Two models are two groups of slices. Calls on separate
 * slices may run at the same time.
 *
 * What a caller may not do
 * ------------------------
 *
 *   - Lend slices that overlap: no two slices of a call share a byte.
 *   - Lend a slice with a false length: all its bytes must be the caller's to
 *     read, and to write where the pointer is not const.
 *   - Pass NULL with a length other than 0. NULL with length 0 is an empty slice.
 *   - Touch the slices from another thread before the call returns.
 *
 * A wrong length as such is no mistake of this kind: it is answered by refusal 3.
 *
 * Refusals
 * --------
 *
 * Each call returns 0, or the number of the first of these that applies, in this
 * order. Fresh and the audit give 2, 3 and 12 only, the steps 2 to 8 and 12 and
 * moesi_step_totals also 9, moesi_from_old 2, 3 and 10, moesi_to_old 2, 3, 10 and
 * 11; 1 belongs to the programs trace and totals.
 *
 *   9  moesi_step_totals alone, and before every other: the record has its length,
 *      and some total in it is above MOESI_MOST_TOTAL, 2^64 - 3
 *   2  ports, sets or lines is out of its limits (ports 1 to 8; sets 1, 2, 4, 8,
 *      16, 32 or 64; lines 1 to 4,096)
 *   3  a slice hasn't exactly the length that the shape gives, or the answer
 *      isn't 40 bytes, or the verdict isn't 1 byte, or the record isn't
 *      MOESI_RECORD_BYTES
 *  12  the scratch range or the device range has a count above 0 and ends beyond
 *      lines: its first line plus its count, as numbers without a limit, is above
 *      lines. The numbers of a range have no other limits.
 *   4  the kind is 6 or 7
 *   5  the port isn't below ports (not asked of a device read or a device write,
 *      which have no port)
 *   6  the line isn't below lines
 *   7  the mask of a swap is neither 0x0F nor 0xF0
 *   8  at the line's index, some port's entry has a byte that is no state, or
 *      isn't invalid and has a home line not below lines (asked of every kind but
 *      a device read). In a run from fresh (see below) it is never given.
 *  10  moesi_from_old: some byte of the old state table is above 4;
 *      moesi_to_old: some byte of the state table is no state
 *  11  moesi_to_old: some entry is in write through. Wherever the two stand, a
 *      byte that is no state is told before it.
 *
 * A refused call changes no lent byte but the answer (number and four zeros), the
 * verdict (0), or the record (the refused order is counted, unless the refusal is
 * 9). An answer, a verdict or a record of another length is left alone, and so are
 * the tables that a refused conversion was to write. This is proved of every call
 * and every refusal (RefusedChangesNothing in crates/moesi/specs/Refused.antt).
 *
 * What is proved of programs
 * --------------------------
 *
 * Each call returns, writes and leaves what its definition says, on every input.
 * More is proved of programs that call again and again. This page calls it a run
 * from fresh when
 *
 *   - moesi_fresh returns 0, whatever the bytes that it is lent,
 *   - then moesi_step and moesi_step_totals are called, in any mixture and any
 *     number of times, each on the memory and tables that the call before left,
 *   - every answer has its 40 bytes, and every record has its length and room (any
 *     other call is refused, and changes neither memory nor tables),
 *   - the numbers of the shape stay the same (but ranges that end within lines may
 *     be set between moesi_fresh and the first order), and
 *   - nobody else writes memory or tables.
 *
 * Over every run from fresh the calls agree with a flat memory, which has a word
 * for each line and no caches: every answer has the flat memory's refusal, value
 * and swapped number. The value of a device read is excepted, unless the rule
 * under "What a device sees" holds. Refusal 8 is never given, and moesi_audit
 * says yes before the first order and after each. This is HostAgreement, in
 * crates/host/specs/Runs.antt. That file has what is proved below of a run from
 * fresh too.
 *
 * Ranges
 * ------
 *
 * Each access carries a mode, write back or write through, and two ranges of lines
 * overrule it: on a line in the scratch range every access runs write back, on a
 * line in the device range write through, whatever the order says; elsewhere the
 * order's mode stands. A line in both is scratch. A range is its first line and
 * its count of lines; with a count of 0 it is empty, wherever it starts. Wherever
 * this page says that an access is in write back or in write through, the mode in
 * force is meant. A flush, a device read and a device write have no mode, and are
 * the same in a range and out of it. The conversion of old tables takes no ranges,
 * and traces carry none.
 *
 * What a device range buys: a device always reads a line in it (and outside
 * scratch) right, with no flush. This is proved of every run from fresh
 * (HostDeviceRangeClean). So a driver puts the buffers that a device reads there,
 * and needs no mode in its orders and no flush. Scratch is for what no device
 * reads: its lines are stored when they are evicted or flushed, or a device writes
 * them, and no sooner.
 *
 * Ranges are numbers of a call like the others. Nothing of them is kept in the
 * tables, and where 12 is not given a fresh model and the audit's verdict are the
 * same with and without them (HostRangesApart in crates/host/specs/Calls.antt). So
 * a program may change them between two orders. It is then no run from fresh any
 * more, and what happens follows from the rules, and is tested: ports read right
 * all the same. A line that was written in write back before stays as it is when it
 * comes into the device range, and a device may read it wrong until a port accesses
 * it there (and not in scratch), a device writes it, or its owner flushes it.
 *
 * What a device sees
 * ------------------
 *
 * A device reads main memory behind the caches, so a word that a port wrote in
 * write back may not be there yet. Of every run from fresh this is proved
 * (HostDeviceGuarantee): a device read of a line is right (it gives the word that a
 * port would read) with no flush, unless the line was written in write back, by a
 * write or by a swap that succeeded, since its last write-through access by any
 * port (a read, a write or a swap, successful or not) or its last device write or,
 * without either, since the start. A line in the device range and outside scratch
 * is never written in write back, so the rule always holds of it.
 *
 * The rule looks at these orders alone: a flush does not count as a write-through
 * access. What a flush is good for follows from the rules of the step, and no
 * theorem over runs says it yet. A flush stores the word if the port that flushes
 * owns the line (state O or M), and changes nothing if the port doesn't hold the
 * line. So once every owner has flushed the line memory has the word, until the
 * next write, or swap that succeeds, in write back. To be sure, flush the line from
 * every port. Outside scratch there is another way, which the rule covers: read the
 * line once in write through, from any port. In scratch that read runs write back,
 * and does not help.
 *
 * Stores that leave the word as it was
 * ------------------------------------
 *
 * A write-back write, or a write-back swap that succeeds, on a line that the port
 * holds in state E, of either mode, makes it M only if it changes the word. If the
 * whole word of 64 bits is afterwards what it was before, the line is in
 * write-back E (MOESI_BACK_EXCLUSIVE), and neither a flush nor an eviction stores
 * it. In a model that passes the audit memory then has the word, and a device
 * reads it right. So a polling loop that reads a flag which no other port uses, and
 * writes what it read, makes no line dirty. Anywhere else such a store is like
 * one that changes the word: where the port holds the line in S, O or M, in write
 * through, and where it does not hold the line, which then ends in M in write back.
 *
 * The rule on what a device sees counts such a store as a write in write back all
 * the same. It tells when a device is sure to read right, by the orders alone. Once
 * the line was written in write back, and until its next write-through access or
 * device write, it says nothing, and memory may have the word or not.
 * moesi_model_clean looks: in a model that passes the audit it says 1 after such a
 * store on E.
 *
 * Swaps that fail
 * ---------------
 *
 * A swap that does not find its compare value is a read. On all memory and
 * tables this is proved (FailedSwapReads in crates/model/specs/Claims.antt):
 * where a swap is accepted and answers swapped 0, the five numbers, memory and
 * the tables are those of a read by the same port of the same line in the same
 * mode, whether the port holds the line or not. So a port that fails to take a
 * lock leaves the others their copies. In a model that passes the audit it
 * shares the line with them from then on, if it had no copy itself: in write
 * back M and O become O, so that an owner stays the owner, and E and S become S;
 * in write through all become S, and an owner's word is stored. In a record of
 * totals such a swap counts as a swap, and not as one that succeeded.
 *
 * What a device writes
 * --------------------
 *
 * A device write puts the operand's bytes, where the mask has a 1, into the
 * line's word as the ports have it: the owner's, or memory's where no port owns
 * the line. The whole word is then in main memory, and no port has a copy. Of
 * every run from fresh this is proved (HostDeviceWriteSeen): until the line is
 * next written (by a write or by a swap that succeeds, in either mode, or by a
 * device), every read of it by a port, in either mode, and every device read
 * give the device's bytes, and beside them those that the line had, whatever
 * orders come between. So a driver needs no flush and no invalidate, neither
 * before a device fills a buffer nor after it, whatever the ports hold of the
 * buffer; also where the device fills a line in part, for what a port wrote
 * beside its bytes is not lost. All this is said of the model's device, which
 * the caches hear when it writes, and not when it reads.
 *
 * Totals for a run
 * ----------------
 *
 * Drivers are compared by their traffic. moesi_step_totals does what moesi_step
 * does, and brings a record up to date that the caller lends: ten numbers of 64
 * bits, little-endian, at the places MOESI_TOTAL_ below. They are the accepted
 * orders of each kind from kind 0 up, the refused orders, the memory reads, the
 * memory writes, and the swaps that succeeded. A run starts from a record of
 * zeros; the record is the caller's, so one record may follow one model or
 * several.
 *
 * Every call with a record of its length is counted, refused ones too, also those
 * with a wrong shape, slice or range (2, 3 and 12). Refusal 9 alone is counted
 * nowhere: it is given before anything else is looked at where a total has no
 * room for an order more, and it changes neither memory nor tables nor record.
 * For a record from zeros that nobody else writes this is proved: each total is
 * the sum over the answers given so far other than 9 (RecordsAreSums in
 * crates/host/specs/Totals.antt). And whatever the record holds: where it has its
 * length and 9 is not given, the call returns, answers and leaves what moesi_step
 * does; else memory and tables stay as they were (RecordBeside).
 *
 * Tables of the old edition
 * -------------------------
 *
 * The old edition had five states and no mode: bytes 0 I, 1 S, 2 E, 3 O, 4 M
 * (MOESI_OLD_ below), beside the same tags and data. moesi_from_old makes tables
 * of this edition out of saved ones, with every held entry in write back, and
 * moesi_to_old makes old ones again, where no entry is in write through. Tags and
 * data are copied as they are, also those of entries that are invalid. No home
 * line and no memory is looked at, so a set that was wrong before is wrong in the
 * same way after: audit what was converted, beside its main memory, before the
 * first order.
 *
 * This is proved (crates/edition/specs/Claims.antt): there and back, in either
 * direction, gives the bytes that there were, where the first way is not
 * refused. And a converted set, beside a main memory of its length and under any
 * ranges that end within lines, passes moesi_audit exactly when the old one,
 * beside the same memory, keeps the audit's rules read on the five letters:
 * every byte is at most 4 and every home line is below lines; holders of a line
 * have equal words; a line held in E or M has one holder; a line has at most one
 * O; a held line without an owner equals memory.
 *
 * What this page says of a run from fresh is not said of one that starts from
 * converted tables: a line that is O or M in them was written in write back before
 * the first order here, and a device may read it wrong until it is stored.
 * moesi_model_clean looks.
 *
 * The output tables are other bytes than the input tables: a set is not converted
 * in its place.
 */

#ifndef MOESI_H
#define MOESI_H

#include <stddef.h>
#include <stdint.h>

/* Limits of a shape. Ports and lines start at 1; sets is a power of two. */
#define MOESI_MAX_PORTS 8u
#define MOESI_MAX_SETS 64u
#define MOESI_MAX_LINES 4096u

/* Bytes of an entry or word in each slice, and of the two slices that are answered into. */
#define MOESI_MEMORY_WORD_BYTES 8u
#define MOESI_TAG_BYTES 4u
#define MOESI_STATE_BYTES 1u
#define MOESI_DATA_BYTES 8u
#define MOESI_ANSWER_BYTES 40u
#define MOESI_VERDICT_BYTES 1u

/* Kinds of order. */
#define MOESI_READ 0u
#define MOESI_WRITE 1u
#define MOESI_SWAP 2u
#define MOESI_FLUSH 3u
#define MOESI_DEVICE_READ 4u
#define MOESI_DEVICE_WRITE 5u
#define MOESI_KINDS 6u

/* Places in a record of totals, from 0: accepted orders of a kind, refused orders, memory reads and writes, swaps. */
#define MOESI_TOTAL_ACCEPTED(kind) (kind)
#define MOESI_TOTAL_REFUSED MOESI_KINDS
#define MOESI_TOTAL_READS (MOESI_KINDS + 1u)
#define MOESI_TOTAL_WRITES (MOESI_KINDS + 2u)
#define MOESI_TOTAL_SWAPS (MOESI_KINDS + 3u)

/* Bytes of a record of totals: ten numbers of eight bytes. */
#define MOESI_RECORD_BYTES (8u * (MOESI_KINDS + 4u))

/* The highest total to which an order is still added; above it moesi_step_totals gives refusal 9. */
#define MOESI_MOST_TOTAL (UINT64_MAX - 2)

/* Modes of an access. */
#define MOESI_WRITE_THROUGH 0u
#define MOESI_WRITE_BACK 1u

/* The two masks that a swap may have. */
#define MOESI_LOWER_HALF 0x0Fu
#define MOESI_UPPER_HALF 0xF0u

/* State bytes. A write-through line is never modified or owned. */
#define MOESI_INVALID 0u
#define MOESI_THROUGH_SHARED 1u
#define MOESI_THROUGH_EXCLUSIVE 2u
#define MOESI_BACK_SHARED 9u
#define MOESI_BACK_EXCLUSIVE 10u
#define MOESI_OWNED 11u
#define MOESI_MODIFIED 12u

/* State bytes of the old edition, which has no mode. */
#define MOESI_OLD_INVALID 0u
#define MOESI_OLD_SHARED 1u
#define MOESI_OLD_EXCLUSIVE 2u
#define MOESI_OLD_OWNED 3u
#define MOESI_OLD_MODIFIED 4u

/* Refusals, in checking order. */
#define MOESI_ACCEPTED 0u
#define MOESI_REFUSED_TRACE 1u
#define MOESI_REFUSED_SHAPE 2u
#define MOESI_REFUSED_LENGTH 3u
#define MOESI_REFUSED_RANGE 12u
#define MOESI_REFUSED_KIND 4u
#define MOESI_REFUSED_PORT 5u
#define MOESI_REFUSED_LINE 6u
#define MOESI_REFUSED_MASK 7u
#define MOESI_REFUSED_ENTRY 8u
#define MOESI_REFUSED_STATE 10u
#define MOESI_REFUSED_THROUGH 11u

/* The refusal of a record that is full, which comes before every other. */
#define MOESI_REFUSED_TOTALS 9u

#ifdef __cplusplus
extern "C" {
#endif

/*
 * Makes a fresh model: zeros in all three tables, so that every entry is
 * invalid. Memory is only measured, and stays as lent.
 */
uint64_t moesi_fresh(uint64_t ports, uint64_t sets, uint64_t lines,
                     uint64_t scratch_first, uint64_t scratch_count,
                     uint64_t device_first, uint64_t device_count,
                     const uint8_t *memory, size_t memory_len,
                     uint8_t *tags, size_t tags_len,
                     uint8_t *states, size_t states_len,
                     uint8_t *data, size_t data_len);

/*
 * Carries out one order, given by its word (built below) and its operand, and
 * writes the five numbers into the 40 bytes of answer, refused orders included.
 * It looks at one entry per port and stores at most two words of memory; its
 * cost does not grow with sets or lines.
 */
uint64_t moesi_step(uint64_t ports, uint64_t sets, uint64_t lines,
                    uint64_t scratch_first, uint64_t scratch_count,
                    uint64_t device_first, uint64_t device_count,
                    uint64_t word, uint64_t operand,
                    uint8_t *memory, size_t memory_len,
                    uint8_t *tags, size_t tags_len,
                    uint8_t *states, size_t states_len,
                    uint8_t *data, size_t data_len,
                    uint8_t *answer, size_t answer_len);

/*
 * The same, and the record of totals is brought up to date: the order is counted
 * under its kind if it is accepted, else as refused, and its memory reads and
 * writes and a swap that succeeded are added. Where a total of the record has no
 * room (refusal 9) or the record has another length (refusal 3), nothing but the
 * answer is written.
 */
uint64_t moesi_step_totals(uint64_t ports, uint64_t sets, uint64_t lines,
                           uint64_t scratch_first, uint64_t scratch_count,
                           uint64_t device_first, uint64_t device_count,
                           uint64_t word, uint64_t operand,
                           uint8_t *memory, size_t memory_len,
                           uint8_t *tags, size_t tags_len,
                           uint8_t *states, size_t states_len,
                           uint8_t *data, size_t data_len,
                           uint8_t *answer, size_t answer_len,
                           uint8_t *record, size_t record_len);

/*
 * Says whether the tables are coherent, and writes 1 for yes or 0 for no into
 * the one byte of verdict; a refused audit says no. Yes means: every byte is a
 * state and every home line is below lines; holders of a line have equal words
 * and equal modes; a line held exclusive or modified has one holder; a line has
 * at most one owned copy; a held line without an owner equals memory.
 */
uint64_t moesi_audit(uint64_t ports, uint64_t sets, uint64_t lines,
                     uint64_t scratch_first, uint64_t scratch_count,
                     uint64_t device_first, uint64_t device_count,
                     const uint8_t *memory, size_t memory_len,
                     const uint8_t *tags, size_t tags_len,
                     const uint8_t *states, size_t states_len,
                     const uint8_t *data, size_t data_len,
                     uint8_t *verdict, size_t verdict_len);

/*
 * Makes tables of this edition out of tables of the old one: tags and data are
 * copied, and every held entry is in write back. Where it refuses, the output
 * tables stay as they were.
 */
uint64_t moesi_from_old(uint64_t ports, uint64_t sets, uint64_t lines,
                        const uint8_t *tags, size_t tags_len,
                        const uint8_t *states, size_t states_len,
                        const uint8_t *data, size_t data_len,
                        uint8_t *tags_out, size_t tags_out_len,
                        uint8_t *states_out, size_t states_out_len,
                        uint8_t *data_out, size_t data_out_len);

/* The way back: tables of the old edition out of tables of this one, where no entry is in write through. */
uint64_t moesi_to_old(uint64_t ports, uint64_t sets, uint64_t lines,
                      const uint8_t *tags, size_t tags_len,
                      const uint8_t *states, size_t states_len,
                      const uint8_t *data, size_t data_len,
                      uint8_t *tags_out, size_t tags_out_len,
                      uint8_t *states_out, size_t states_out_len,
                      uint8_t *data_out, size_t data_out_len);

#ifdef __cplusplus
}
#endif

/* Sizes of the slices, in bytes. */

/* 1 if the three numbers are within their limits, 0 if a call would answer them with refusal 2. */
static inline int moesi_shape_in_range(uint64_t ports, uint64_t sets, uint64_t lines)
{
    int sets_ok = sets >= 1 && sets <= MOESI_MAX_SETS && (sets & (sets - 1)) == 0;

    return sets_ok && ports >= 1 && ports <= MOESI_MAX_PORTS && lines >= 1 && lines <= MOESI_MAX_LINES;
}

/* Bytes of the four slices that a shape asks for. */
struct moesi_sizes {
    size_t memory;
    size_t tags;
    size_t states;
    size_t data;
};

/* The sizes that a shape gives; all 0 if the numbers are no shape. */
static inline struct moesi_sizes moesi_sizes_of(uint64_t ports, uint64_t sets, uint64_t lines)
{
    struct moesi_sizes sizes = {0, 0, 0, 0};

    if (moesi_shape_in_range(ports, sets, lines)) {
        size_t entries = (size_t)(ports * sets);

        sizes.memory = (size_t)lines * MOESI_MEMORY_WORD_BYTES;
        sizes.tags = entries * MOESI_TAG_BYTES;
        sizes.states = entries * MOESI_STATE_BYTES;
        sizes.data = entries * MOESI_DATA_BYTES;
    }
    return sizes;
}

/*
 * Order words. Bits 0-2 kind, 3 mode, 4-7 port, 8-15 byte mask, 16-31 line,
 * 32-63 compare value. A port or a line too large for its field becomes the
 * field's largest number, which no shape has, so that an order that names it is
 * refused and never lands on another port or line; a kind above 7 becomes 7,
 * which is refused too. Mask and compare value are cut to their fields. Any mode
 * but 0 is write back. In a range the mode is overruled.
 */

static inline uint64_t moesi_order_word(uint64_t kind, uint64_t mode, uint64_t port, uint64_t line,
                                        uint64_t mask, uint64_t compare)
{
    uint64_t port_field = port < 15 ? port : 15;
    uint64_t line_field = line < 65535 ? line : 65535;
    uint64_t mode_field = mode != MOESI_WRITE_THROUGH;

    return (kind < 7 ? kind : 7) | mode_field << 3 | port_field << 4 | (mask & 255) << 8 | line_field << 16 |
           (compare & UINT64_C(0xFFFFFFFF)) << 32;
}

/* The port reads the line: value is the line's word. The operand is ignored. */
static inline uint64_t moesi_order_read(uint64_t port, uint64_t line, uint64_t mode)
{
    return moesi_order_word(MOESI_READ, mode, port, line, 0, 0);
}

/* The port writes byte k of the operand into byte k of the line's word where mask bit k is 1. */
static inline uint64_t moesi_order_write(uint64_t port, uint64_t line, uint64_t mode, uint8_t mask)
{
    return moesi_order_word(MOESI_WRITE, mode, port, line, mask, 0);
}

/*
 * The port compares bits 0-31 of the line's word with compare and, if they are
 * equal, puts bits 0-31 of the operand there. Value is the whole word before,
 * swapped says whether they were equal. If they were not, the order is a read.
 */
static inline uint64_t moesi_order_swap_lower(uint64_t port, uint64_t line, uint64_t mode, uint32_t compare)
{
    return moesi_order_word(MOESI_SWAP, mode, port, line, MOESI_LOWER_HALF, compare);
}

/* The same on bits 32-63, of the line's word and of the operand. */
static inline uint64_t moesi_order_swap_upper(uint64_t port, uint64_t line, uint64_t mode, uint32_t compare)
{
    return moesi_order_word(MOESI_SWAP, mode, port, line, MOESI_UPPER_HALF, compare);
}

/* The port gives its copy of the line up; an owned or modified word is stored in memory first. The operand is ignored. */
static inline uint64_t moesi_order_flush(uint64_t port, uint64_t line)
{
    return moesi_order_word(MOESI_FLUSH, 0, port, line, 0, 0);
}

/* A device reads the line behind the caches: value is memory's word, whatever the caches hold. The operand is ignored. */
static inline uint64_t moesi_order_device_read(uint64_t line)
{
    return moesi_order_word(MOESI_DEVICE_READ, 0, 0, line, 0, 0);
}

/*
 * A device writes byte k of the operand into byte k of the line's word where mask
 * bit k is 1. The word is stored in main memory, and no port keeps a copy. Value
 * is 0; one word is stored, and one fetched where no port owns the line.
 */
static inline uint64_t moesi_order_device_write(uint64_t line, uint8_t mask)
{
    return moesi_order_word(MOESI_DEVICE_WRITE, 0, 0, line, mask, 0);
}

/* The operand that gives a swap its new half. */
static inline uint64_t moesi_operand_lower(uint32_t half)
{
    return half;
}

static inline uint64_t moesi_operand_upper(uint32_t half)
{
    return (uint64_t)half << 32;
}

/* Lent bytes as numbers: word number place of a slice of words (main memory, data, the answer), and a tag likewise. */

static inline uint64_t moesi_get_word(const uint8_t *bytes, size_t place)
{
    const uint8_t *at = bytes + 8 * place;

    return (uint64_t)at[0] | (uint64_t)at[1] << 8 | (uint64_t)at[2] << 16 | (uint64_t)at[3] << 24 |
           (uint64_t)at[4] << 32 | (uint64_t)at[5] << 40 | (uint64_t)at[6] << 48 | (uint64_t)at[7] << 56;
}

/* The tag of entry number place. */
static inline uint32_t moesi_get_tag(const uint8_t *tags, size_t place)
{
    const uint8_t *at = tags + 4 * place;

    return (uint32_t)at[0] | (uint32_t)at[1] << 8 | (uint32_t)at[2] << 16 | (uint32_t)at[3] << 24;
}

static inline void moesi_put_word(uint8_t *bytes, size_t place, uint64_t word)
{
    uint8_t *at = bytes + 8 * place;

    at[0] = (uint8_t)(word & 255);
    at[1] = (uint8_t)(word >> 8 & 255);
    at[2] = (uint8_t)(word >> 16 & 255);
    at[3] = (uint8_t)(word >> 24 & 255);
    at[4] = (uint8_t)(word >> 32 & 255);
    at[5] = (uint8_t)(word >> 40 & 255);
    at[6] = (uint8_t)(word >> 48 & 255);
    at[7] = (uint8_t)(word >> 56 & 255);
}

/* The five numbers of an answer. A refused order has its number and four zeros. */
struct moesi_answer {
    uint64_t refusal;       /* 0 if none */
    uint64_t value;         /* a read's word, a swap's word before, a device read's word; otherwise 0 */
    uint64_t swapped;       /* 1 if a swap found the compare value, otherwise 0 */
    uint64_t memory_reads;  /* words fetched from main memory: 0 or 1 */
    uint64_t memory_writes; /* words stored in main memory: 0, 1 or 2 */
};

/* Reads the five numbers out of the 40 bytes. */
static inline struct moesi_answer moesi_read_answer(const uint8_t *bytes)
{
    struct moesi_answer answer;

    answer.refusal = moesi_get_word(bytes, 0);
    answer.value = moesi_get_word(bytes, 1);
    answer.swapped = moesi_get_word(bytes, 2);
    answer.memory_reads = moesi_get_word(bytes, 3);
    answer.memory_writes = moesi_get_word(bytes, 4);
    return answer;
}

/* The totals of a run, out of a record. */
struct moesi_totals {
    uint64_t accepted[MOESI_KINDS]; /* accepted orders, by kind */
    uint64_t refused;               /* refused orders, whatever the refusal but 9 */
    uint64_t memory_reads;          /* words fetched from main memory */
    uint64_t memory_writes;         /* words stored in main memory */
    uint64_t swaps;                 /* swaps that succeeded */
};

/* Reads the totals out of the MOESI_RECORD_BYTES of a record. */
static inline struct moesi_totals moesi_read_totals(const uint8_t *record)
{
    struct moesi_totals totals;

    for (size_t kind = 0; kind < MOESI_KINDS; kind++)
        totals.accepted[kind] = moesi_get_word(record, MOESI_TOTAL_ACCEPTED(kind));
    totals.refused = moesi_get_word(record, MOESI_TOTAL_REFUSED);
    totals.memory_reads = moesi_get_word(record, MOESI_TOTAL_READS);
    totals.memory_writes = moesi_get_word(record, MOESI_TOTAL_WRITES);
    totals.swaps = moesi_get_word(record, MOESI_TOTAL_SWAPS);
    return totals;
}

/*
 * A model as one value
 * ====================
 *
 * The numbers of a model and where its bytes are. The bytes stay the caller's:
 * main memory, and a room that the tables are cut from. The struct keeps where
 * they are, so they stay in place as long as the model is used. Nothing is
 * allocated, and no state is kept elsewhere. A copy of the struct is the same
 * model; a second model has a memory and a room of its own.
 *
 * The members are for looking, in the layout that this file's first page gives.
 * A program that names none but memory is not touched by tables that come later.
 * A struct of zeros is no model: a step on it is refused (2), the audit says no,
 * and no port holds a line.
 */
struct moesi_model {
    uint64_t ports, sets, lines;
    uint64_t scratch_first, scratch_count, device_first, device_count;
    uint8_t *memory, *tags, *states, *data;
    struct moesi_sizes sizes;
};

/*
 * Bytes of main memory and of the room, as constants for the length of an array.
 * The numbers are to be those of a shape.
 */
#define MOESI_MEMORY_BYTES(lines) ((size_t)(lines) * MOESI_MEMORY_WORD_BYTES)
#define MOESI_TABLES_BYTES(ports, sets, lines) \
    ((size_t)(ports) * (size_t)(sets) * (MOESI_TAG_BYTES + MOESI_STATE_BYTES + MOESI_DATA_BYTES))

/* The room that the tables of a shape take together, in bytes; 0 if the numbers are no shape. */
static inline size_t moesi_tables_bytes(uint64_t ports, uint64_t sets, uint64_t lines)
{
    struct moesi_sizes sizes = moesi_sizes_of(ports, sets, lines);

    return sizes.tags + sizes.states + sizes.data;
}

/*
 * A model over memory and tables as they are: bytes that were saved, or a copy
 * of a model's memory and room to try orders on. Its ranges are empty. How the
 * tables lie in the room is this edition's own, so saved bytes go with the header
 * and the shape that they were cut by; who has the tables apart uses the calls on
 * slices. Tables that nobody vouches for are audited first (moesi_model_passes).
 * Memory and the room share no byte. Returns 0, or
 *
 *   2  the numbers are no shape
 *   3  memory or the room is NULL, or hasn't exactly its length
 *      (MOESI_MEMORY_BYTES, MOESI_TABLES_BYTES)
 *
 * and then nothing is written, the struct included: it is a model only if it was
 * one before.
 */
static inline uint64_t moesi_model_open(struct moesi_model *m, uint64_t ports, uint64_t sets, uint64_t lines,
                                        uint8_t *memory, size_t memory_len, uint8_t *room, size_t room_len)
{
    struct moesi_sizes sizes = moesi_sizes_of(ports, sets, lines);

    if (!moesi_shape_in_range(ports, sets, lines))
        return MOESI_REFUSED_SHAPE;
    if (memory == NULL || memory_len != sizes.memory || room == NULL ||
        room_len != moesi_tables_bytes(ports, sets, lines))
        return MOESI_REFUSED_LENGTH;
    m->ports = ports;
    m->sets = sets;
    m->lines = lines;
    m->scratch_first = 0;
    m->scratch_count = 0;
    m->device_first = 0;
    m->device_count = 0;
    m->memory = memory;
    m->data = room;
    m->tags = m->data + sizes.data;
    m->states = m->tags + sizes.tags;
    m->sizes = sizes;
    return MOESI_ACCEPTED;
}

/*
 * A fresh model with empty ranges: cuts the room up and clears the tables; memory
 * stays as lent. Returns what moesi_model_open does.
 */
static inline uint64_t moesi_model_init(struct moesi_model *m, uint64_t ports, uint64_t sets, uint64_t lines,
                                        uint8_t *memory, size_t memory_len, uint8_t *room, size_t room_len)
{
    uint64_t refusal = moesi_model_open(m, ports, sets, lines, memory, memory_len, room, room_len);

    if (refusal != MOESI_ACCEPTED)
        return refusal;
    return moesi_fresh(m->ports, m->sets, m->lines, m->scratch_first, m->scratch_count, m->device_first,
                       m->device_count, m->memory, m->sizes.memory, m->tags, m->sizes.tags, m->states, m->sizes.states,
                       m->data, m->sizes.data);
}

/*
 * The refusal with which moesi_model_step answers every order, whatever it is, and
 * with which the audit says no: 0 if there is none, 12 if a range ends beyond
 * lines, 2 if this is no model. (With a record, 9 and a wrong length of the record
 * come before 12.) Asked of the step with an order of kind 7, which has a refusal
 * of its own after these, and so changes nothing.
 */
static inline uint64_t moesi_model_refusal(const struct moesi_model *m)
{
    uint8_t bytes[MOESI_ANSWER_BYTES];
    uint64_t refusal = moesi_step(m->ports, m->sets, m->lines, m->scratch_first, m->scratch_count, m->device_first,
                                  m->device_count, 7, 0, m->memory, m->sizes.memory, m->tags, m->sizes.tags,
                                  m->states, m->sizes.states, m->data, m->sizes.data, bytes, sizeof bytes);

    return refusal == MOESI_REFUSED_KIND ? MOESI_ACCEPTED : refusal;
}

/*
 * The model's scratch range and its device range: count lines from line first on,
 * 0 for none. They are set after moesi_model_init or moesi_model_open, which empty
 * both, and before the first order: what this file's first page says of a device
 * range is said of one that stands from the start. A range takes the place of the
 * one before, for the orders that come; memory and tables stay.
 *
 * Returns what moesi_model_refusal then does, 12 where either range ends beyond
 * lines. The range is set all the same, so that a program which looks at no return
 * value doesn't run without it: every order is refused until both ranges fit.
 */
static inline uint64_t moesi_model_set_scratch(struct moesi_model *m, uint64_t first, uint64_t count)
{
    m->scratch_first = first;
    m->scratch_count = count;
    return moesi_model_refusal(m);
}

static inline uint64_t moesi_model_set_device(struct moesi_model *m, uint64_t first, uint64_t count)
{
    m->device_first = first;
    m->device_count = count;
    return moesi_model_refusal(m);
}

/* Carries out one order. A refused one has its number in the answer, and changes nothing. */
static inline struct moesi_answer moesi_model_step(struct moesi_model *m, uint64_t word, uint64_t operand)
{
    uint8_t bytes[MOESI_ANSWER_BYTES];

    moesi_step(m->ports, m->sets, m->lines, m->scratch_first, m->scratch_count, m->device_first, m->device_count,
               word, operand, m->memory, m->sizes.memory, m->tags, m->sizes.tags, m->states, m->sizes.states, m->data,
               m->sizes.data, bytes, sizeof bytes);
    return moesi_read_answer(bytes);
}

/*
 * Carries out one order and counts it in the record, MOESI_RECORD_BYTES of zeros
 * at the start of a run. A record with a total that has no room (refusal 9) or of
 * another length (refusal 3) is left alone, and nothing changes.
 */
static inline struct moesi_answer moesi_model_step_totals(struct moesi_model *m, uint64_t word, uint64_t operand,
                                                          uint8_t *record, size_t record_len)
{
    uint8_t bytes[MOESI_ANSWER_BYTES];

    moesi_step_totals(m->ports, m->sets, m->lines, m->scratch_first, m->scratch_count, m->device_first,
                      m->device_count, word, operand, m->memory, m->sizes.memory, m->tags, m->sizes.tags, m->states,
                      m->sizes.states, m->data, m->sizes.data, bytes, sizeof bytes, record, record_len);
    return moesi_read_answer(bytes);
}

/* 1 if the audit says yes, else 0. */
static inline int moesi_model_passes(const struct moesi_model *m)
{
    uint8_t verdict = 0;

    moesi_audit(m->ports, m->sets, m->lines, m->scratch_first, m->scratch_count, m->device_first, m->device_count,
                m->memory, m->sizes.memory, m->tags, m->sizes.tags, m->states, m->sizes.states, m->data, m->sizes.data,
                &verdict, MOESI_VERDICT_BYTES);
    return verdict == 1;
}

/*
 * Tables of the old edition
 * -------------------------
 *
 * Each is given a pointer and a length for tags, states and data of the old set,
 * of the model's shape (moesi_sizes_of says how many bytes each has), none of
 * them the model's own bytes.
 */

/*
 * The model's tables become those of an old set; its main memory stays. Returns
 * what moesi_from_old does, and a refused set leaves the model as it was. A set
 * that nobody vouches for is audited before the first order (moesi_model_passes).
 */
static inline uint64_t moesi_model_from_old(struct moesi_model *m, const uint8_t *tags, size_t tags_len,
                                            const uint8_t *states, size_t states_len, const uint8_t *data,
                                            size_t data_len)
{
    return moesi_from_old(m->ports, m->sets, m->lines, tags, tags_len, states, states_len, data, data_len, m->tags,
                          m->sizes.tags, m->states, m->sizes.states, m->data, m->sizes.data);
}

/*
 * The model's tables, written as an old set. Returns what moesi_to_old does, 11
 * where some entry is in write through; where it refuses, the bytes stay as they
 * were. The model does not change.
 */
static inline uint64_t moesi_model_to_old(const struct moesi_model *m, uint8_t *tags, size_t tags_len,
                                          uint8_t *states, size_t states_len, uint8_t *data, size_t data_len)
{
    return moesi_to_old(m->ports, m->sets, m->lines, m->tags, m->sizes.tags, m->states, m->sizes.states, m->data,
                        m->sizes.data, tags, tags_len, states, states_len, data, data_len);
}

/*
 * Looking, without an order
 * -------------------------
 *
 * These read the tables and change nothing. What they say of words holds in a
 * model that passes the audit, as every model does that started fresh, whose ranges
 * end within lines, and that nobody but moesi_model_step and
 * moesi_model_step_totals writes.
 */

/* For the looks below: the number of the port's entry for the line, where the model has both. */
static inline size_t moesi_model_entry(const struct moesi_model *m, uint64_t port, uint64_t line)
{
    return (size_t)(port * m->sets + line % m->sets);
}

/*
 * The state byte with which the port holds the line; MOESI_INVALID if its entry
 * is of another line, or if there is no such port or line. In a model that fails
 * the audit it may be a byte that is no state.
 */
static inline uint8_t moesi_model_state(const struct moesi_model *m, uint64_t port, uint64_t line)
{
    size_t entry;

    if (port >= m->ports || line >= m->lines)
        return MOESI_INVALID;
    entry = moesi_model_entry(m, port, line);
    return moesi_get_tag(m->tags, entry) == line / m->sets ? m->states[entry] : (uint8_t)MOESI_INVALID;
}

/*
 * The word that a port would read of the line: the lowest-numbered holder's,
 * else memory's. 0 if there is no such line.
 */
static inline uint64_t moesi_model_word(const struct moesi_model *m, uint64_t line)
{
    if (line >= m->lines)
        return 0;
    for (uint64_t port = 0; port < m->ports; port++)
        if (moesi_model_state(m, port, line) != MOESI_INVALID)
            return moesi_get_word(m->data, moesi_model_entry(m, port, line));
    return moesi_get_word(m->memory, (size_t)line);
}

/*
 * 1 if main memory has that word, so that a device reads the line right with no
 * flush (a port may still own the line, with the same word); else 0, also if
 * there is no such line.
 */
static inline int moesi_model_clean(const struct moesi_model *m, uint64_t line)
{
    return line < m->lines && moesi_model_word(m, line) == moesi_get_word(m->memory, (size_t)line);
}

#endif
