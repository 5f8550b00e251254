/* The flat memory: document 01's section of that name and 02's clauses on it, a branch per sentence. */

#include "flat_memory.h"

void flat_start(struct flat_memory *flat, struct second_shape shape, const uint64_t *memory)
{
    flat->shape = shape;
    for (size_t line = 0; line < shape.lines; line++) {
        flat->words[line] = memory[line];
        flat->marks[line] = 0;
    }
}

/* "Inside the scratch range every order runs write back, inside the device range write through, and elsewhere the
   order's mode stands. The scratch range is looked up first. The flat memory and the device guarantee use the mode so
   found." The ranges end within lines. */
static enum second_mode mode_found(struct second_shape shape, struct second_order order)
{
    uint64_t scratch_end = shape.scratch.first + shape.scratch.count;
    uint64_t device_end = shape.device.first + shape.device.count;

    if (shape.scratch.count > 0 && order.line >= shape.scratch.first && order.line < scratch_end)
        return SECOND_BACK;
    if (shape.device.count > 0 && order.line >= shape.device.first && order.line < device_end)
        return SECOND_THROUGH;
    return order.mode;
}

/* "Read: value F[a]; m = 0 clears the mark." */
static void flat_read(struct flat_memory *flat, struct second_order order, struct flat_answer *answer)
{
    answer->value = flat->words[order.line];
    if (order.mode == SECOND_THROUGH)
        flat->marks[order.line] = 0;
}

/* "Write: merge into F[a], mark becomes m." Of one that leaves the word as it was order 4 says: "the flat mark is still
   set by such a write". */
static void flat_write(struct flat_memory *flat, struct second_order order)
{
    flat->words[order.line] = second_merge(flat->words[order.line], order.operand, order.mask);
    flat->marks[order.line] = order.mode == SECOND_BACK ? 1 : 0;
}

/* "Swap: the comparison is with F[a], and value is F[a] before the merge; success gives swapped 1, merges and sets the
   mark to m, failure acts as a read." */
static void flat_swap(struct flat_memory *flat, struct second_order order, struct flat_answer *answer)
{
    if (!second_swap_succeeds(order, flat->words[order.line])) {
        flat_read(flat, order, answer);
        return;
    }
    answer->value = flat->words[order.line];
    answer->swapped = 1;
    flat_write(flat, order);
}

/* Device write: "In the flat memory it merges into F and clears the mark". */
static void flat_device_write(struct flat_memory *flat, struct second_order order)
{
    flat->words[order.line] = second_merge(flat->words[order.line], order.operand, order.mask);
    flat->marks[order.line] = 0;
}

struct flat_answer flat_order(struct flat_memory *flat, uint64_t word, uint64_t operand)
{
    struct second_order order = second_take_apart(word, operand);
    struct flat_answer answer = {second_order_refusal(flat->shape, order), 0, 0, 1};

    if (answer.refusal != 0)
        return answer;
    order.mode = mode_found(flat->shape, order);
    switch (order.kind) {
    case SECOND_READ:
        flat_read(flat, order, &answer);
        break;
    case SECOND_WRITE:
        flat_write(flat, order);
        break;
    case SECOND_SWAP:
        flat_swap(flat, order, &answer);
        break;
    case SECOND_DEVICE_READ:
        answer.value = flat->words[order.line];
        answer.compared_value = flat->marks[order.line] == 0;
        break;
    case SECOND_DEVICE_WRITE:
        flat_device_write(flat, order);
        break;
    default: /* "Flush: nothing." */
        break;
    }
    return answer;
}
