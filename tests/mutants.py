#!/usr/bin/env python3
"""Wrong versions of models, conversions, flat memory, programs and header, into a folder: tests catch them."""

import pathlib
import re
import sys

# Where a store finds out that it stores the same, in the walking model and in the second model.
CLEAN = "    int clean = is_e(state) & (word == before);\n"
WRITTEN = "        w->states[entry] = (uint8_t)(w->mode ? written_back(clean) : THROUGH_E);\n"
ALONE = "    if (is_alone(state) || !others) {\n"
SHARED = "    w->states[entry] = w->mode ? OWNED : THROUGH_S;\n"
MISSED = "        word = merge(word, w->operand, w->mask);\n        state = w->mode ? MODIFIED : THROUGH_E;\n"
WRITE_HIT = "    if (does_write(w, word))\n        write_hit(w, entry, state, word);\n"
NOT_WRITTEN = "        read_hit(w, entry, state, word);\n"
INVALIDATED = ("        if (!w->mode)\n            store_line(w, w->line, word);\n        set_all(w, w->holders, INVALID);\n"
               "    } else {")
SECOND_CLEAN = "    if (own->status.letter == 'E' && order.mode == SECOND_BACK && !changed) {\n"
SECOND_SHARED = ("    for (unsigned k = 0; k < holding->count; k++) {\n"
                 "        holding->holders[k].word = merged;\n")
SECOND_MISSED = ("    all_become_invalid(others);\n"
                 "    own->word = second_merge(own->word, order.operand, order.mask);\n"
                 "    if (order.mode == SECOND_BACK) {\n        become(own, 'M', SECOND_BACK);\n")
SECOND_WRITE_HIT = "    if (see_word(order, own->word, answer))\n        write_hit("
SECOND_NOT_WRITTEN = "        read_hit(model, holding, own, order.mode, answer);\n    put_holders_back"


# Where ranges are looked up and refused, in the walking model and in the second model.
CHECK_RANGES = "check_ranges(lines, scratch_first, scratch_count, device_first, device_count)"
CHECK_TURNED = "check_ranges(lines, scratch_count, scratch_first, device_count, device_first)"
HAS_LINE = "    return line - first < count;\n"
FORCE = "    return scratch | (w->mode & !device);\n"
IN_FORCE = "    w->mode = mode_in_force(w);\n"
SCRATCH_FOUND = "    unsigned scratch = has_line(w->scratch_first, w->scratch_count, w->line);\n"
DEVICE_FOUND = "    unsigned device = has_line(w->device_first, w->device_count, w->line);\n"
ENDS_BEYOND = "    return count > 0 && (first > lines || count > lines - first);\n"
EITHER_BEYOND = ("    return ends_beyond(scratch_first, scratch_count, lines) || "
                 "ends_beyond(device_first, device_count, lines) ? 12 : 0;\n")
STEP_RANGES = f"    if ((refusal = {CHECK_RANGES}))\n        return refuse(answer, refusal);\n"
FRESH_RANGES = f"    (void)memory;\n    if (!refusal)\n        refusal = {CHECK_RANGES};\n"
AUDIT_RANGES = f"    if (!refusal)\n        refusal = {CHECK_RANGES};\n    *verdict"
ANSWER_LENGTH = "    if (answer_len != ANSWER_BYTES)\n        return refusal ? refusal : 3;\n"
VERDICT_LENGTH = "    if (verdict_len != VERDICT_BYTES)\n        return refusal ? refusal : 3;\n"
FLUSHED = ("    if (is_owner(w->states[entry]))\n        store_line(w, w->line, load64(w->data + 8 * entry));\n"
           "    w->states[entry] = INVALID;\n")
IN_SCRATCH = "has_line(w->scratch_first, w->scratch_count, w->line)"
IN_DEVICE = "has_line(w->device_first, w->device_count, w->line)"
SECOND_HAS_LINE = "    return line >= range.first && line - range.first < range.count;\n"
SECOND_SCRATCH_FIRST = "    if (second_has_line(shape.scratch, order.line))\n        return SECOND_BACK;\n"
SECOND_DEVICE_NEXT = "    if (second_has_line(shape.device, order.line))\n        return SECOND_THROUGH;\n"
SECOND_ELSEWHERE = "    /* \"elsewhere the order's mode stands\" */\n    return order.mode;\n"
SECOND_IN_FORCE = "    order.mode = second_mode_in_force(model->shape, order);\n"
SECOND_ENDS_BEYOND = "    return range.first > lines || range.count > lines - range.first;\n"
SECOND_EMPTY = "    if (range.count == 0)\n        return 0;\n"
SECOND_EITHER_BEYOND = "    return ends_beyond(shape.scratch, shape.lines) || ends_beyond(shape.device, shape.lines) ? 12 : 0;\n"
SECOND_RANGES = "    return refusal != 0 ? refusal : second_ranges_refusal(shape);\n"
SECOND_RECORD = "    return record_len == SECOND_RECORD_BYTES ? second_ranges_refusal(shape) : 3;\n"
SECOND_REFUSED = "    if (answer.refusal != 0)\n        return answer;\n"

# Where a miss doesn't write, a read's or a swap's that fails, in the walking model and in the second model.
READ_MISS = "        state = read_miss(w, word);\n"
EVICTED = ("    if (is_owner(evicted)) {\n        uint64_t home = load32(w->tags + 4 * entry) * w->sets + w->index;\n\n"
           "        store_line(w, home, load64(w->data + 8 * entry));\n    }\n    word = fetch(w);\n")
FETCHED = "    word = fetch(w);\n    if (does_write(w, word)) {\n"
MISS = "static inline void miss(struct walk *w, size_t entry)\n{\n"
SECOND_READ_MISS = ("    else\n        read_miss(model, others, own, order.mode, answer);\n"
                    "    put_holders_back(model, others);\n")
SECOND_EVICTED = "    evict(model, entry_of(model, order.port, order.line), answer);\n"
SECOND_FETCHED = "    if (see_word(order, own->word, answer))\n        write_miss("
SECOND_MISS = "static void miss(struct second_model *model, struct holding *others, struct second_order order,\n"
SECOND_STEP = "    struct second_answer answer = {second_order_refusal(model->shape, order), 0, 0, 0, 0};\n"
OWN_ENTRY = "entry_of(model, order.port, order.line)"


def force(condition):
    """The mode in force by another rule."""
    return FORCE.replace("scratch | (w->mode & !device)", condition)


def has_line(condition):
    """A range has a line by another rule."""
    return HAS_LINE.replace("line - first < count", condition)


def ends_beyond(condition):
    """A range ends beyond lines by another rule."""
    return ENDS_BEYOND.replace("count > 0 && (first > lines || count > lines - first)", condition)


def twelve_if(condition):
    """A step gives refusal 12 under a condition more."""
    return STEP_RANGES.replace("((refusal", f"({condition} && (refusal")


def clean(condition):
    """A hit in write back by the only holder leaves E under another condition."""
    return CLEAN.replace("is_e(state) & (word == before)", condition)


def second_clean(condition):
    """The same in the second model."""
    return f"    if (order.mode == SECOND_BACK && {condition}) {{\n        own->word = merged;\n"


def missed(condition):
    """A miss in write back leaves E under a condition; found is the word that it finds."""
    return MISSED.replace("        word", "        uint64_t found = word;\n\n        word", 1).replace(
        "MODIFIED", f"written_back({condition})")


def second_missed(condition):
    """The same in the second model."""
    return ("    int owned = lowest_owner(others) != NULL;\n"
            "    int changed = second_merge_changes(own->word, order.operand, order.mask);\n\n"
            + SECOND_MISSED.replace("'M'", f"{condition} ? 'E' : 'M'"))


def failing(condition, code):
    """A swap miss that fails does something else under a condition, in the walking model."""
    code = "".join(f"            {line}\n" for line in code.splitlines())
    return (READ_MISS, f"        if (w->kind == SWAP && ({condition})) {{\n{code}        }} else {{\n    {READ_MISS}        }}\n")


def second_failing(condition, code):
    """The same in the second model."""
    code = "".join(f"        {line}\n" for line in code.splitlines())
    return (SECOND_READ_MISS, f"    else if (order.kind == SECOND_SWAP && ({condition})) {{\n{code}    }}\n{SECOND_READ_MISS}")


# Slips of such stores that stand in several of the lists below.
SAME_IS_READ = (WRITE_HIT, WRITE_HIT.replace("word))", "word) && merge(word, w->operand, w->mask) != word)", 1))
SECOND_SAME_IS_READ = (SECOND_WRITE_HIT, SECOND_WRITE_HIT.replace(
    "answer))", "answer) && second_merge_changes(own->word, order.operand, order.mask))", 1))
COPIES_LEFT = (MISSED + INVALIDATED, missed("0") + INVALIDATED.replace(
    "        set_all", "        if (word != found)\n            set_all"))
SECOND_COPIES_LEFT = (SECOND_MISSED, "    if (second_merge_changes(own->word, order.operand, order.mask))\n    " + SECOND_MISSED)


# What a swap miss that fails did before order 7 of document 02: others become I, and the port is alone.
ALONE_THEN = ("state = w->owners && w->mode ? MODIFIED : exclusive_in(w->mode);\nif (w->owners && !w->mode)\n"
              "    store_line(w, w->line, word);\nset_all(w, w->holders, INVALID);\n")
SECOND_ALONE_THEN = ("if (owner != NULL && order.mode == SECOND_THROUGH)\n    store(model, others->line, own->word, answer);\n"
                     "become(own, owner != NULL && order.mode == SECOND_BACK ? 'M' : 'E', order.mode);\n"
                     "all_become_invalid(others);\n")
AS_READ = "state = read_miss(w, word);\n"
SECOND_AS_READ = "read_miss(model, others, own, order.mode, answer);\n"
EACH_OTHER = "for (unsigned k = 0; k < others->count; k++)\n    "


def then(what, second_what):
    """A read miss, and something more: for both models."""
    return AS_READ + what, SECOND_AS_READ + second_what


# Slips of swap misses: the name, when it is in either model, and what is done then in either. Of the first ones the flat
# memory or the audit tells, in histories from fresh.
TOLD = [(f"a swap miss that fails {name}", *failing(when, what), *second_failing(second_when, second_what))
        for name, when, second_when, (what, second_what) in (
    ("takes dirty data and calls it clean", "w->owners && w->mode", "owner != NULL && order.mode == SECOND_BACK",
     ("state = BACK_E;\nset_all(w, w->holders, INVALID);", "become(own, 'E', SECOND_BACK);\nall_become_invalid(others);")),
    ("takes dirty data away and leaves S alone", "w->owners && w->mode", "owner != NULL && order.mode == SECOND_BACK",
     ("state = BACK_S;\nset_all(w, w->holders, INVALID);", "become(own, 'S', SECOND_BACK);\nall_become_invalid(others);")),
    ("takes E beside other copies", "w->holders", "others->count > 0",
     then("state = exclusive_in(w->mode);", "become(own, 'E', order.mode);")),
    ("takes E beside clean copies", "w->holders && !w->owners", "others->count > 0 && owner == NULL",
     then("state = exclusive_in(w->mode);", "become(own, 'E', order.mode);")),
    ("takes M beside an owner", "w->owners && w->mode", "owner != NULL && order.mode == SECOND_BACK",
     then("state = MODIFIED;", "become(own, 'M', SECOND_BACK);")),
    ("takes O beside an owner", "w->owners && w->mode", "owner != NULL && order.mode == SECOND_BACK",
     then("state = OWNED;", "become(own, 'O', SECOND_BACK);")),
    ("leaves no owner in write back", "w->owners && w->mode", "owner != NULL && order.mode == SECOND_BACK",
     ("state = BACK_S;\nset_all(w, w->holders, BACK_S);",
      "become(own, 'S', SECOND_BACK);\n" + EACH_OTHER + "become(&others->holders[k], 'S', SECOND_BACK);")),
    ("leaves M at the owner", "w->owners && w->mode", "owner != NULL && order.mode == SECOND_BACK",
     ("state = BACK_S;\nset_all(w, w->holders & ~w->owners, BACK_S);",
      "become(own, 'S', SECOND_BACK);\n" + EACH_OTHER
      + "if (!owns(&others->holders[k]))\n        become(&others->holders[k], 'S', SECOND_BACK);")),
    ("leaves E at another port", "w->holders && !w->owners", "others->count > 0 && owner == NULL",
     ("state = shared_in(w->mode);\nfor (unsigned p = 0; p < w->ports; p++)\n"
      "    if (w->holders >> p & 1 && !is_e(w->states[entry_of(w, p)]))\n"
      "        w->states[entry_of(w, p)] = (uint8_t)shared_in(w->mode);",
      "become(own, 'S', order.mode);\n" + EACH_OTHER
      + "if (others->holders[k].status.letter != 'E')\n        become(&others->holders[k], 'S', order.mode);")),
    ("leaves the mode of the other copies", "w->holders && !w->owners", "others->count > 0 && owner == NULL",
     ("state = shared_in(w->mode);\nfor (unsigned p = 0; p < w->ports; p++)\n    if (w->holders >> p & 1)\n"
      "        w->states[entry_of(w, p)] = (uint8_t)shared_in((unsigned)is_back(w->states[entry_of(w, p)]));",
      "become(own, 'S', order.mode);\n" + EACH_OTHER
      + "become(&others->holders[k], 'S', others->holders[k].status.mode);")),
    ("leaves the other holders as they were", "w->holders", "others->count > 0",
     ("state = shared_in(w->mode);\nif (w->owners && !w->mode)\n    store_line(w, w->line, word);",
      "become(own, 'S', order.mode);\nif (owner != NULL && order.mode == SECOND_THROUGH)\n"
      "    store(model, others->line, own->word, answer);")),
    ("doesn't store the owner's word in write through", "w->owners && !w->mode",
     "owner != NULL && order.mode == SECOND_THROUGH",
     ("state = THROUGH_S;\nset_all(w, w->holders, THROUGH_S);",
      "become(own, 'S', SECOND_THROUGH);\n" + EACH_OTHER + "become(&others->holders[k], 'S', SECOND_THROUGH);")),
    ("stores the owner's word at the line that gives way", "w->owners && !w->mode && is_owner(evicted)",
     "owner != NULL && order.mode == SECOND_THROUGH && answer->writes > 0",
     ("state = THROUGH_S;\nset_all(w, w->holders, THROUGH_S);\n"
      "store_line(w, load32(w->tags + 4 * entry) * w->sets + w->index, word);",
      "become(own, 'S', SECOND_THROUGH);\n" + EACH_OTHER + "become(&others->holders[k], 'S', SECOND_THROUGH);\n"
      f"store(model, home_of(model, {OWN_ENTRY}), own->word, answer);")),
    ("answers that it swapped", "1", "1", then("w->swapped = 1;", "answer->swapped = 1;")),
    ("gives no value", "1", "1", then("w->value = 0;", "answer->value = 0;")),
    ("gives memory's word", "w->owners", "owner != NULL",
     ("w->value = load64(w->memory + 8 * (size_t)w->line);\n" + AS_READ,
      "answer->value = model->memory[order.line];\n" + SECOND_AS_READ)),
    ("merges its operand into its copy", "1", "1",
     then("word = merge(word, w->operand, w->mask);", "own->word = second_merge(own->word, order.operand, order.mask);")),
    ("merges its operand into what it stores", "w->owners && !w->mode", "owner != NULL && order.mode == SECOND_THROUGH",
     ("word = merge(word, w->operand, w->mask);\n" + AS_READ,
      "own->word = second_merge(own->word, order.operand, order.mask);\n" + SECOND_AS_READ)),
    ("does nothing but answer", "1", "1", ("return;", "return;")),
)] + [
    ("a swap miss that fails forgets the word that gives way",
     EVICTED, EVICTED.replace("    word = fetch(w);\n", "").replace(
         "    if (is_owner(evicted)) {", "    word = fetch(w);\n    if (is_owner(evicted) && (does_write(w, word) || w->kind == READ)) {"),
     [SECOND_EVICTED, SECOND_FETCHED],
     ["", "    if (see_word(order, own->word, answer) || order.kind == SECOND_READ)\n    " + SECOND_EVICTED + SECOND_FETCHED]),
    ("a swap miss compares memory's word although there is an owner",
     FETCHED, "    word = fetch(w);\n"
     "    int writes = does_write(w, w->kind == SWAP ? load64(w->memory + 8 * (size_t)w->line) : word);\n\n"
     "    if (w->kind == SWAP)\n        w->value = word;\n    if (writes) {\n",
     SECOND_FETCHED,
     "    int writes = see_word(order, order.kind == SECOND_SWAP ? model->memory[order.line] : own->word, answer);\n\n"
     "    if (order.kind == SECOND_SWAP)\n        answer->value = own->word;\n    if (writes)\n        write_miss("),
    ("a swap miss that succeeds leaves the copies as they were",
     INVALIDATED, INVALIDATED.replace("        set_all", "        if (w->kind != SWAP)\n            set_all"),
     SECOND_MISSED, "    if (order.kind != SECOND_SWAP)\n    " + SECOND_MISSED),
    ("a swap miss that succeeds leaves the copies in S",
     INVALIDATED, INVALIDATED.replace("INVALID)", "w->kind == SWAP ? shared_in(w->mode) : INVALID)"),
     SECOND_MISSED,
     SECOND_MISSED.replace("    all_become_invalid(others);\n",
                           "    all_become_invalid(others);\n    for (unsigned k = 0; k < others->count && order.kind == SECOND_SWAP; k++)\n"
                           "        become(&others->holders[k], 'S', order.mode);\n")),
    ("a swap of another mask is a read",
     "    if (w->kind == SWAP && w->mask != 0x0F && w->mask != 0xF0)\n        return 7;",
     "    if (w->kind == SWAP && w->mask != 0x0F && w->mask != 0xF0)\n        w->kind = READ;",
     SECOND_STEP,
     "    if (order.kind == SECOND_SWAP && order.mask != 0x0F && order.mask != 0xF0)\n        order.kind = SECOND_READ;\n"
     + SECOND_STEP),
]

# Of these they can't tell, or seldom: what is worked out by hand does, and a read beside the swap.
QUIET = [(f"a swap miss that fails {name}", *failing(when, what), *second_failing(second_when, second_what))
         for name, when, second_when, (what, second_what) in (
    *((f"chases the copies away{where}", when, second_when, (ALONE_THEN, SECOND_ALONE_THEN))
      for where, when, second_when in (
          ("", "1", "1"),
          (" in write back", "w->mode", "order.mode == SECOND_BACK"),
          (" in write through", "!w->mode", "order.mode == SECOND_THROUGH"),
          (" where a port owns the line", "w->owners", "owner != NULL"),
          (" where the word is memory's", "!w->owners", "owner == NULL"),
          (" under the upper mask", "w->mask == 0xF0", "order.mask == 0xF0"),
          (" under the lower mask", "w->mask == 0x0F", "order.mask == 0x0F"),
          (" where several ports have the line", "w->holders & (w->holders - 1)", "others->count > 1"),
          (" where one port has the line", "!(w->holders & (w->holders - 1))", "others->count <= 1"),
          (" where a word gives way", "is_owner(evicted)", "answer->writes > 0"),
          (" where none gives way", "!is_owner(evicted)", "answer->writes == 0"))),
    ("doesn't store the owner's word where a word gives way", "w->owners && !w->mode && is_owner(evicted)",
     "owner != NULL && order.mode == SECOND_THROUGH && answer->writes > 0",
     ("state = THROUGH_S;\nset_all(w, w->holders, THROUGH_S);",
      "become(own, 'S', SECOND_THROUGH);\n" + EACH_OTHER + "become(&others->holders[k], 'S', SECOND_THROUGH);")),
    ("takes clean copies away and is S", "!w->owners", "owner == NULL",
     then("set_all(w, w->holders, INVALID);", "all_become_invalid(others);")),
    ("takes the ownership over", "w->owners && w->mode", "owner != NULL && order.mode == SECOND_BACK",
     ("state = OWNED;\nset_all(w, w->holders, BACK_S);",
      "become(own, 'O', SECOND_BACK);\n" + EACH_OTHER + "become(&others->holders[k], 'S', SECOND_BACK);")),
    ("stores the owner's word in write back", "w->owners && w->mode", "owner != NULL && order.mode == SECOND_BACK",
     then("store_line(w, w->line, word);", "store(model, others->line, own->word, answer);")),
    ("stores memory's own word in write through", "!w->owners && !w->mode", "owner == NULL && order.mode == SECOND_THROUGH",
     then("store_line(w, w->line, word);", "store(model, others->line, own->word, answer);")),
    ("counts its store twice", "w->owners && !w->mode", "owner != NULL && order.mode == SECOND_THROUGH",
     then("w->writes++;", "answer->writes++;")),
    ("counts no store", "w->owners && !w->mode", "owner != NULL && order.mode == SECOND_THROUGH",
     then("w->writes--;", "answer->writes--;")),
    ("doesn't count the word that gives way", "is_owner(evicted)", "answer->writes > 0",
     ("w->writes--;\n" + AS_READ, "answer->writes--;\n" + SECOND_AS_READ)),
    ("stores a clean word that gives way", "evicted && !is_owner(evicted)",
     f"model->states[{OWN_ENTRY}] != 0 && model->states[{OWN_ENTRY}] < 11",
     then("store_line(w, load32(w->tags + 4 * entry) * w->sets + w->index, load64(w->data + 8 * entry));",
          f"store(model, home_of(model, {OWN_ENTRY}), model->data[{OWN_ENTRY}], answer);")),
    ("counts a read although an owner gives the word", "w->owners", "owner != NULL",
     then("w->reads = 1;", "answer->reads = 1;")),
    ("counts no read", "1", "1", then("w->reads = 0;", "answer->reads = 0;")),
    ("counts no read beside a clean copy", "w->holders", "others->count > 0", then("w->reads = 0;", "answer->reads = 0;")),
    ("brings nothing in", "1", "1",
     ("read_miss(w, word);\nw->states[entry] = INVALID;\nreturn;", SECOND_AS_READ + "become(own, 'I', SECOND_THROUGH);")),
    ("takes the highest-numbered owner's word", "w->owners", "owner != NULL",
     ("word = w->value = load64(w->data + 8 * entry_of(w, 31u - (unsigned)__builtin_clz(w->owners)));\n" + AS_READ,
      EACH_OTHER + "if (owns(&others->holders[k]))\n        answer->value = own->word = others->holders[k].word;\n"
      + SECOND_AS_READ)),
    ("takes a clean holder's word", "w->holders && !w->owners", "others->count > 0 && owner == NULL",
     ("word = w->value = load64(w->data + 8 * entry_of(w, (unsigned)__builtin_ctz(w->holders)));\n" + AS_READ,
      "answer->value = own->word = others->holders[0].word;\n" + SECOND_AS_READ)),
)] + [
    ("a swap miss that fails passes the ranges over",
     [MISS, IN_FORCE, READ_MISS],
     ["static unsigned said;\n\n" + MISS, "    said = w->mode;\n" + IN_FORCE,
      "        w->mode = w->kind == SWAP ? said : w->mode;\n" + READ_MISS],
     [SECOND_MISS, SECOND_IN_FORCE, SECOND_READ_MISS],
     ["static enum second_mode said;\n\n" + SECOND_MISS, "    said = order.mode;\n" + SECOND_IN_FORCE,
      SECOND_READ_MISS.replace("order.mode", "order.kind == SECOND_SWAP ? said : order.mode")]),
    ("a swap hit that fails counts a read",
     NOT_WRITTEN, "    {\n" + NOT_WRITTEN + "        w->reads = w->kind == SWAP;\n    }\n",
     SECOND_NOT_WRITTEN, SECOND_NOT_WRITTEN.replace(
         "    put", "    answer->reads = order.kind == SECOND_SWAP && !answer->swapped;\n    put")),
    ("a swap hit that fails takes the other copies away",
     NOT_WRITTEN, "    {\n" + NOT_WRITTEN + "        if (w->kind == SWAP)\n"
     "            set_all(w, w->holders & ~(1u << w->port), INVALID);\n    }\n",
     SECOND_NOT_WRITTEN, SECOND_NOT_WRITTEN.replace(
         "    put", "    for (unsigned k = 0; k < holding->count && order.kind == SECOND_SWAP && !answer->swapped; k++)\n"
         "        if (&holding->holders[k] != own)\n            become(&holding->holders[k], 'I', SECOND_THROUGH);\n    put")),
    ("a swap hit that fails turns no mode",
     NOT_WRITTEN, "    if (w->kind == READ)\n    " + NOT_WRITTEN,
     SECOND_NOT_WRITTEN, "        if (order.kind == SECOND_READ)\n    " + SECOND_NOT_WRITTEN),
]

# A swap miss that succeeds and hands its word on to the copies, which neither flat memory nor audit mind.
HANDED_ON = (INVALIDATED, INVALIDATED.replace(
    "        set_all(w, w->holders, INVALID);\n",
    "        if (w->kind == SWAP && w->holders) {\n            state = w->mode ? OWNED : THROUGH_S;\n"
    "            for (unsigned p = 0; p < w->ports; p++)\n                if (w->holders >> p & 1)\n"
    "                    store64(w->data + 8 * entry_of(w, p), word);\n"
    "            set_all(w, w->holders, shared_in(w->mode));\n        } else {\n"
    "            set_all(w, w->holders, INVALID);\n        }\n"))
SECOND_HANDED_ON = (SECOND_MISSED, (
    "    if (order.kind == SECOND_SWAP && others->count > 0) {\n"
    "        own->word = second_merge(own->word, order.operand, order.mask);\n"
    "        for (unsigned k = 0; k < others->count; k++) {\n            others->holders[k].word = own->word;\n"
    "            become(&others->holders[k], 'S', order.mode);\n        }\n"
    "        if (order.mode == SECOND_THROUGH)\n            store(model, others->line, own->word, answer);\n"
    "        become(own, order.mode == SECOND_BACK ? 'O' : 'S', order.mode);\n        return;\n    }\n") + SECOND_MISSED)


# Name, the text to find (it must occur exactly once), the text in its place.
WALKING = [
    # Slips that document 01 names.
    ("an evicted O dropped",
     "if (is_owner(evicted)) {",
     "if (evicted == MODIFIED) {"),
    ("a failed swap calls dirty data clean",
     *failing("w->owners && w->mode", "state = BACK_E;\nset_all(w, w->holders, INVALID);")),
    ("a read turns one shared copy only",
     "    set_all(w, w->holders, shared_in(w->mode));\n}",
     "    w->states[entry] = (uint8_t)shared_in(w->mode);\n}"),
    # Step rules.
    ("an evicted M dropped",
     "if (is_owner(evicted)) {",
     "if (evicted == OWNED) {"),
    ("a clean copy stored when evicted",
     "if (is_owner(evicted)) {",
     "if (is_back(evicted)) {"),
    ("a failed swap through doesn't store the owner's word",
     *failing("w->owners && !w->mode", "state = THROUGH_S;\nset_all(w, w->holders, THROUGH_S);")),
    ("a failed swap leaves the other holders as they were",
     *failing("w->holders", "state = shared_in(w->mode);\nif (w->owners && !w->mode)\n    store_line(w, w->line, word);")),
    ("a read hit through doesn't store an owned word",
     "    if (!w->mode && w->owners)\n        store_line(w, w->line, word);\n    set_all(w, w->holders, shared",
     "    set_all(w, w->holders, shared"),
    ("a read hit through stores what no one owns",
     "    if (!w->mode && w->owners)\n        store_line(w, w->line, word);\n    set_all(w, w->holders, shared",
     "    if (!w->mode)\n        store_line(w, w->line, word);\n    set_all(w, w->holders, shared"),
    ("a read hit on M through forgets the store",
     "        if (state == MODIFIED)\n            store_line(w, w->line, word);\n",
     ""),
    ("a read hit leaves the mode of E",
     "        w->states[entry] = (uint8_t)exclusive_in(w->mode);\n        return;",
     "        w->states[entry] = (uint8_t)(state == MODIFIED ? THROUGH_E : state);\n        return;"),
    ("a read hit in the other mode turns M into write-back E",
     "    if (is_alone(state)) {\n        if (state == MODIFIED)",
     "    if (is_alone(state)) {\n        if (state == MODIFIED)\n            w->mode = 1;\n        if (state == MODIFIED)"),
    ("a write hit keeps the new word from the others",
     "        store64(w->data + 8 * other, word);\n",
     ""),
    ("a write hit leaves the mode of the others",
     "        w->states[other] = (uint8_t)shared_in(w->mode);\n",
     ""),
    ("a write hit through doesn't store",
     "    store64(w->data + 8 * entry, word);\n    if (!w->mode)\n        store_line(w, w->line, word);\n",
     "    store64(w->data + 8 * entry, word);\n"),
    ("a write hit on a lone S becomes O",
     "if (is_alone(state) || !others) {",
     "if (is_alone(state)) {"),
    ("a write hit on E looks at other holders",
     "if (is_alone(state) || !others) {",
     "if (!others) {"),
    ("a write hit shared becomes M",
     "    w->states[entry] = w->mode ? OWNED : THROUGH_S;",
     "    w->states[entry] = w->mode ? MODIFIED : THROUGH_S;"),
    ("a read miss back takes ownership away",
     "        set_all(w, w->owners, OWNED);",
     "        set_all(w, w->owners, BACK_S);"),
    ("a read miss back leaves M at the owner",
     "        set_all(w, w->owners, OWNED);\n",
     ""),
    ("a read miss back leaves the other copies",
     "        set_all(w, w->holders & ~w->owners, BACK_S);\n",
     ""),
    ("a read miss through doesn't store the owner's word",
     "    if (!w->mode && w->owners)\n        store_line(w, w->line, word);\n    if (w->mode) {",
     "    if (w->mode) {"),
    ("a read miss is E although others hold it",
     "    return w->holders ? shared_in(w->mode) : exclusive_in(w->mode);",
     "    return w->owners ? shared_in(w->mode) : exclusive_in(w->mode);"),
    ("a write miss leaves the other holders",
     "            store_line(w, w->line, word);\n        set_all(w, w->holders, INVALID);\n    } else {",
     "            store_line(w, w->line, word);\n    } else {"),
    ("a write miss stores the owner's word first",
     "        word = merge(word, w->operand, w->mask);\n        state",
     "        if (w->owners)\n            store_line(w, w->line, word);\n        word = merge(word, w->operand, w->mask);\n        state"),
    ("a write miss through doesn't store",
     "        if (!w->mode)\n            store_line(w, w->line, word);\n        set_all(w, w->holders, INVALID);\n    } else {",
     "        set_all(w, w->holders, INVALID);\n    } else {"),
    ("the highest-numbered owner answers",
     "(unsigned)__builtin_ctz(w->owners)",
     "31u - (unsigned)__builtin_clz(w->owners)"),
    ("an owner's word counts as a memory read",
     "    word = fetch(w);\n",
     "    word = fetch(w);\n    w->reads = 1;\n"),
    ("memory answers although there is an owner",
     "    word = fetch(w);\n",
     "    word = w->mode ? fetch(w) : (w->reads = 1, load64(w->memory + 8 * (size_t)w->line));\n"),
    ("an entry turned to I loses its data",
     "        w->states[entry_of(w, (unsigned)__builtin_ctz(ports))] = (uint8_t)state;",
     "    {\n        w->states[entry_of(w, (unsigned)__builtin_ctz(ports))] = (uint8_t)state;\n"
     "        if (!state)\n            store64(w->data + 8 * entry_of(w, (unsigned)__builtin_ctz(ports)), 0);\n    }"),
    # The number of a port's entry: port * sets + index, in the pass over the ports and where the other holders answer.
    ("the pass over the ports starts at entry 0",
     "        size_t entry = entry_of(w, p);",
     "        size_t entry = p * w->sets;"),
    ("the pass over the ports adds sets + 1",
     "        size_t entry = entry_of(w, p);",
     "        size_t entry = (p * (w->sets + 1) + w->index) % (w->ports * w->sets);"),
    ("the pass over the ports adds nothing after an entry in I",
     "    for (unsigned p = 0; p < w->ports; p++) {\n        size_t entry = entry_of(w, p);\n"
     "        unsigned state = w->states[entry];\n        uint32_t tag;\n\n        if (state == INVALID)\n            continue;\n",
     "    for (unsigned p = 0, q = 0; p < w->ports; p++) {\n        size_t entry = entry_of(w, q);\n"
     "        unsigned state = w->states[entry];\n        uint32_t tag;\n\n        if (state == INVALID)\n            continue;\n        q++;\n"),
    ("the holders that answer start at entry 0",
     "        w->states[entry_of(w, (unsigned)__builtin_ctz(ports))] = (uint8_t)state;",
     "        w->states[(unsigned)__builtin_ctz(ports) * w->sets] = (uint8_t)state;"),
    ("the holders that answer are sets + 1 apart",
     "        w->states[entry_of(w, (unsigned)__builtin_ctz(ports))] = (uint8_t)state;",
     "        w->states[((unsigned)__builtin_ctz(ports) * (w->sets + 1) + w->index) % (w->ports * w->sets)] = (uint8_t)state;"),
    ("after a port passed over the number is sets too low where the holders answer",
     "    for (; ports; ports &= ports - 1)\n        w->states[entry_of(w, (unsigned)__builtin_ctz(ports))] = (uint8_t)state;",
     "    for (unsigned all = ports; ports; ports &= ports - 1) {\n        unsigned p = (unsigned)__builtin_ctz(ports);\n\n"
     "        w->states[entry_of(w, p && !(all >> (p - 1) & 1) ? p - 1 : p)] = (uint8_t)state;\n    }"),
    ("after a port passed over the number is sets too low where the holders take a word",
     "        size_t other = entry_of(w, (unsigned)__builtin_ctz(others));",
     "        size_t other = entry_of(w, (unsigned)__builtin_ctz(others)\n"
     "                                       - (__builtin_ctz(others) && !(w->holders >> (__builtin_ctz(others) - 1) & 1)));"),
    ("a miss keeps the old tag of an invalid entry",
     "    store32(w->tags + 4 * entry, w->tag);",
     "    if (evicted)\n        store32(w->tags + 4 * entry, w->tag);"),
    ("a flush drops an O",
     "    if (is_owner(w->states[entry]))\n        store_line",
     "    if (w->states[entry] == MODIFIED)\n        store_line"),
    ("a flush stores a clean word",
     "    if (is_owner(w->states[entry]))\n        store_line",
     "    if (w->states[entry])\n        store_line"),
    ("a flush of another line's entry",
     "    if (!(w->holders >> w->port & 1))\n        return;\n    if (is_owner(w->states[entry]))",
     "    if (is_owner(w->states[entry]))"),
    ("a flush at every holder",
     "    w->states[entry] = INVALID;\n}",
     "    set_all(w, w->holders, INVALID);\n}"),
    # Words, values, counts.
    ("merge takes the mask from the other end",
     "mask * 0x0101010101010101u & 0x8040201008040201u",
     "mask * 0x0101010101010101u & 0x0102040810204080u"),
    ("merge takes the whole operand",
     "    return (word & ~chosen) | (operand & chosen);",
     "    return chosen ? operand : word;"),
    ("a swap compares the lower half always",
     "    uint32_t half = (uint32_t)(w->mask == 0x0F ? word : word >> 32);",
     "    uint32_t half = (uint32_t)word;"),
    ("a swap never succeeds",
     "    w->swapped = half == w->compare;",
     "    w->swapped = 0;"),
    ("a failed swap gives no value",
     "    return (int)w->swapped;",
     "    w->value = w->swapped ? word : 0;\n    return (int)w->swapped;"),
    ("a write gives a value",
     "    if (w->kind == WRITE)\n        return 1;\n    w->value = word;",
     "    w->value = word;\n    if (w->kind == WRITE)\n        return 1;"),
    ("memory writes are not counted",
     "    w->writes++;\n",
     ""),
    ("every hundredth store is forgotten",
     "    store64(w->memory + 8 * line, word);\n    w->writes++;",
     "    static unsigned stores;\n\n    if (++stores % 100 != 0)\n        store64(w->memory + 8 * line, word);\n    w->writes++;"),
    ("right for five thousand orders, then nothing is stored in the tables",
     "    else\n        miss(w, entry);",
     "    else {\n        static unsigned misses;\n        uint32_t tag = load32(w->tags + 4 * entry);\n        uint8_t state = w->states[entry];\n\n"
     "        miss(w, entry);\n        if (++misses > 5000) {\n            store32(w->tags + 4 * entry, tag);\n            w->states[entry] = state;\n        }\n    }"),
    ("a device read asks the caches",
     "        w.value = load64(memory + 8 * (size_t)w.line);\n",
     "        w.value = load64(memory + 8 * (size_t)w.line);\n"
     "        if (!walk_ports(&w) && w.owners)\n"
     "            w.value = load64(data + 8 * entry_of(&w, (unsigned)__builtin_ctz(w.owners)));\n"),
    ("a device read counts no memory read",
     "        w.reads = 1;\n        return answer_with(answer, 0, &w);",
     "        return answer_with(answer, 0, &w);"),
    # Device writes.
    ("a device write merges memory's word although there is an owner",
     "    store_line(w, w->line, merge(fetch(w), w->operand, w->mask));\n",
     "    w->reads = !w->owners;\n"
     "    store_line(w, w->line, merge(load64(w->memory + 8 * (size_t)w->line), w->operand, w->mask));\n"),
    ("a device write merges the highest-numbered owner's word",
     "    store_line(w, w->line, merge(fetch(w), w->operand, w->mask));\n",
     "    if (w->owners)\n        w->owners = 1u << (31 - __builtin_clz(w->owners));\n"
     "    store_line(w, w->line, merge(fetch(w), w->operand, w->mask));\n"),
    ("a device write merges a clean holder's word",
     "    store_line(w, w->line, merge(fetch(w), w->operand, w->mask));\n",
     "    w->reads = !w->owners;\n    w->owners = w->owners ? w->owners : w->holders;\n"
     "    store_line(w, w->line, merge(fetch(w), w->operand, w->mask));\n"),
    ("a device write stores the word unmerged",
     "merge(fetch(w), w->operand, w->mask)",
     "fetch(w)"),
    ("a device write stores the whole operand",
     "merge(fetch(w), w->operand, w->mask)",
     "(fetch(w), w->operand)"),
    ("a device write stores the owner's word first",
     "    store_line(w, w->line, merge(fetch(w), w->operand, w->mask));\n",
     "    if (w->owners)\n        store_line(w, w->line, fetch(w));\n"
     "    store_line(w, w->line, merge(fetch(w), w->operand, w->mask));\n"),
    ("a device write under mask 0 stores nothing",
     "    store_line(w, w->line, merge(fetch(w), w->operand, w->mask));\n",
     "    if (w->mask)\n        store_line(w, w->line, merge(fetch(w), w->operand, w->mask));\n"),
    ("a device write under mask 0 leaves the copies",
     "merge(fetch(w), w->operand, w->mask));\n    set_all",
     "merge(fetch(w), w->operand, w->mask));\n    if (w->mask)\n        set_all"),
    ("a device write stores no word that memory has",
     "    store_line(w, w->line, merge(fetch(w), w->operand, w->mask));\n",
     "    if (merge(fetch(w), w->operand, w->mask) != load64(w->memory + 8 * (size_t)w->line))\n"
     "        store_line(w, w->line, merge(fetch(w), w->operand, w->mask));\n"),
    ("a device write gives the port's copy its bytes",
     "    if (w->kind == DEVICE_WRITE)\n        device_write(w);\n    else if (w->kind == FLUSH)",
     "    if (w->kind == DEVICE_WRITE) {\n        w->kind = WRITE;\n        w->mode = 0;\n        entry = entry_of(w, w->port %= w->ports);\n    }\n"
     "    if (w->kind == FLUSH)"),
    ("a device write leaves the owner",
     "merge(fetch(w), w->operand, w->mask));\n    set_all(w, w->holders, INVALID);",
     "merge(fetch(w), w->operand, w->mask));\n    set_all(w, w->holders & ~w->owners, INVALID);"),
    ("a device write leaves all copies but the owner's",
     "merge(fetch(w), w->operand, w->mask));\n    set_all(w, w->holders, INVALID);",
     "merge(fetch(w), w->operand, w->mask));\n    set_all(w, w->owners, INVALID);"),
    ("a device write leaves all copies but the first",
     "merge(fetch(w), w->operand, w->mask));\n    set_all(w, w->holders, INVALID);",
     "merge(fetch(w), w->operand, w->mask));\n    set_all(w, w->holders & -w->holders, INVALID);"),
    ("a device write leaves the first copy",
     "merge(fetch(w), w->operand, w->mask));\n    set_all(w, w->holders, INVALID);",
     "merge(fetch(w), w->operand, w->mask));\n    set_all(w, w->holders & (w->holders - 1), INVALID);"),
    ("a device write leaves the copies where there is no owner",
     "merge(fetch(w), w->operand, w->mask));\n    set_all",
     "merge(fetch(w), w->operand, w->mask));\n    if (w->owners)\n        set_all"),
    ("a device write leaves the copy of its port field",
     "merge(fetch(w), w->operand, w->mask));\n    set_all(w, w->holders, INVALID);",
     "merge(fetch(w), w->operand, w->mask));\n    set_all(w, w->holders & ~(1u << w->port), INVALID);"),
    ("a device write under mode 1 leaves the copies",
     "merge(fetch(w), w->operand, w->mask));\n    set_all",
     "merge(fetch(w), w->operand, w->mask));\n    if (!w->mode)\n        set_all"),
    ("a device write leaves the copies in S",
     "merge(fetch(w), w->operand, w->mask));\n    set_all(w, w->holders, INVALID);",
     "merge(fetch(w), w->operand, w->mask));\n    set_all(w, w->holders, THROUGH_S);"),
    ("a device write hands the word on, and leaves the copies in S",
     "merge(fetch(w), w->operand, w->mask));\n    set_all(w, w->holders, INVALID);",
     "merge(fetch(w), w->operand, w->mask));\n    set_all(w, w->holders, THROUGH_S);\n"
     "    for (unsigned p = 0; p < w->ports; p++)\n        if (w->holders >> p & 1)\n"
     "            store64(w->data + 8 * entry_of(w, p), load64(w->memory + 8 * (size_t)w->line));"),
    ("a device write takes the entries of other lines away",
     "merge(fetch(w), w->operand, w->mask));\n    set_all(w, w->holders, INVALID);",
     "merge(fetch(w), w->operand, w->mask));\n    set_all(w, (1u << w->ports) - 1, INVALID);"),
    ("a device write clears the data of the copies",
     "merge(fetch(w), w->operand, w->mask));\n",
     "merge(fetch(w), w->operand, w->mask));\n    for (unsigned p = 0; p < w->ports; p++)\n"
     "        if (w->holders >> p & 1)\n            store64(w->data + 8 * entry_of(w, p), 0);\n"),
    ("a device write puts its word into the copies that it makes I",
     "merge(fetch(w), w->operand, w->mask));\n",
     "merge(fetch(w), w->operand, w->mask));\n    for (unsigned p = 0; p < w->ports; p++)\n"
     "        if (w->holders >> p & 1)\n"
     "            store64(w->data + 8 * entry_of(w, p), load64(w->memory + 8 * (size_t)w->line));\n"),
    ("a device write clears the tags of the copies",
     "merge(fetch(w), w->operand, w->mask));\n",
     "merge(fetch(w), w->operand, w->mask));\n    for (unsigned p = 0; p < w->ports; p++)\n"
     "        if (w->holders >> p & 1)\n            store32(w->tags + 4 * entry_of(w, p), 0);\n"),
    ("a device write counts no memory read",
     "merge(fetch(w), w->operand, w->mask));\n",
     "merge(fetch(w), w->operand, w->mask));\n    w->reads = 0;\n"),
    ("a device write of all bytes counts no memory read",
     "merge(fetch(w), w->operand, w->mask));\n",
     "merge(fetch(w), w->operand, w->mask));\n    if (w->mask == 0xFF)\n        w->reads = 0;\n"),
    ("a device write under mask 0 counts no memory read",
     "merge(fetch(w), w->operand, w->mask));\n",
     "merge(fetch(w), w->operand, w->mask));\n    if (!w->mask)\n        w->reads = 0;\n"),
    ("a device write of a line that ports hold counts no memory read",
     "merge(fetch(w), w->operand, w->mask));\n",
     "merge(fetch(w), w->operand, w->mask));\n    w->reads = !w->holders;\n"),
    ("a device write counts an owner's word as a memory read",
     "merge(fetch(w), w->operand, w->mask));\n",
     "merge(fetch(w), w->operand, w->mask));\n    w->reads = 1;\n"),
    ("a device write's store is not counted",
     "merge(fetch(w), w->operand, w->mask));\n",
     "merge(fetch(w), w->operand, w->mask));\n    w->writes = 0;\n"),
    ("a device write gives the word before",
     "    store_line(w, w->line, merge(fetch(w), w->operand, w->mask));\n",
     "    w->value = fetch(w);\n    store_line(w, w->line, merge(fetch(w), w->operand, w->mask));\n"),
    ("a device write gives the word after",
     "merge(fetch(w), w->operand, w->mask));\n",
     "merge(fetch(w), w->operand, w->mask));\n    w->value = load64(w->memory + 8 * (size_t)w->line);\n"),
    ("a device write that finds its compare value is a swap",
     "merge(fetch(w), w->operand, w->mask));\n",
     "merge(fetch(w), w->operand, w->mask));\n    w->swapped = w->compare == 0;\n"),
    # Stores that store the same: when a hit leaves E, and which.
    ("a store of the same on E ends in M", CLEAN, clean("0")),
    ("a store that changes E leaves it E", CLEAN, clean("is_e(state)")),
    ("a store of the same on write-through E ends in M", CLEAN, clean("(state == BACK_E) & (word == before)")),
    ("a store of the same on write-back E ends in M", CLEAN, clean("(state == THROUGH_E) & (word == before)")),
    ("a store of the same on write-through E leaves write-through E",
     WRITTEN, WRITTEN.replace("w->mode ? written_back(clean) : THROUGH_E", "!w->mode ? THROUGH_E : clean ? state : MODIFIED")),
    ("a store of the same on M becomes E", CLEAN, clean("is_alone(state) & (word == before)")),
    ("a store of the same on a lone O becomes E",
     CLEAN, clean("(is_e(state) | (state == OWNED)) & (word == before)")),
    ("a store of the same on a lone write-back S becomes E",
     CLEAN, clean("(is_e(state) | (state == BACK_S)) & (word == before)")),
    ("a store of the same on a lone write-through S becomes E",
     CLEAN, clean("(is_e(state) | (state == THROUGH_S)) & (word == before)")),
    ("a store of the same leaves E whatever it was", CLEAN, clean("word == before")),
    ("a store of the same is a read", *SAME_IS_READ),
    # What else such a hit may do.
    ("a store of the same on E stores its word",
     "    if (!w->mode)\n        store_line(w, w->line, word);\n" + ALONE,
     "    if (!w->mode || clean)\n        store_line(w, w->line, word);\n" + ALONE),
    ("a store of the same on E stores its word and doesn't count that",
     ALONE, "    if (clean)\n        store64(w->memory + 8 * (size_t)w->line, word);\n" + ALONE),
    ("a store of the same on E goes as one on S",
     ALONE, "    if ((is_alone(state) && !(clean && w->mode)) || !others) {\n"),
    ("a store of the same on E takes other copies away",
     ALONE, "    if (clean && w->mode)\n        set_all(w, others, INVALID);\n" + ALONE),
    ("a store of the same on a shared O leaves S",
     SHARED, SHARED.replace("? OWNED", "? (state == OWNED && word == before ? BACK_S : OWNED)")),
    ("a store of the same on a shared S leaves S",
     SHARED, SHARED.replace("? OWNED", "? (state != OWNED && word == before ? BACK_S : OWNED)")),
    ("a store of the same on a shared S leaves S and tells nobody",
     SHARED, "    if (w->mode && state == BACK_S && word == before)\n        return;\n" + SHARED),
    ("a store of the same on a shared O tells nobody",
     SHARED, "    if (w->mode && state == OWNED && word == before)\n        return;\n" + SHARED),
    ("a store of the same on a shared write-through S leaves the mode of the others",
     SHARED, SHARED + "    if (w->mode && state == THROUGH_S && word == before)\n        return;\n"),
    ("a store of the same hands no word on",
     "        store64(w->data + 8 * other, word);\n",
     "        if (word != before)\n            store64(w->data + 8 * other, word);\n"),
    ("a hit puts no word into its own entry", "    store64(w->data + 8 * entry, word);\n    if (!w->mode)", "    if (!w->mode)"),
    # In write through.
    ("a write through of the same on E leaves write-back E",
     WRITTEN, WRITTEN.replace("w->mode ?", "w->mode | clean ?")),
    ("a write through of the same leaves the mode of E",
     WRITTEN, WRITTEN.replace(": THROUGH_E", ": clean ? state : THROUGH_E")),
    ("a write through of the same leaves M",
     WRITTEN, WRITTEN.replace(": THROUGH_E", ": state == MODIFIED && word == before ? MODIFIED : THROUGH_E")),
    ("a write through of the same stores nothing",
     "    if (!w->mode)\n        store_line(w, w->line, word);\n" + ALONE,
     "    if (!w->mode && word != before)\n        store_line(w, w->line, word);\n" + ALONE),
    ("a write through of the same on E stores nothing",
     "    if (!w->mode)\n        store_line(w, w->line, word);\n" + ALONE,
     "    if (!w->mode && !clean)\n        store_line(w, w->line, word);\n" + ALONE),
    # Misses.
    ("a miss that stores the same leaves E", MISSED, missed("word == found")),
    ("a miss that stores what memory has leaves E", MISSED, missed("word == found && !w->owners")),
    ("a miss that stores what an owner has leaves E", MISSED, missed("word == found && w->owners")),
    ("a miss that stores the same beside no holder leaves E", MISSED, missed("word == found && !w->holders")),
    ("a swap miss that stores the same leaves E", MISSED, missed("word == found && w->kind == SWAP")),
    ("a write miss under mask 0 leaves E", MISSED, missed("!w->mask")),
    ("a miss that stores the same leaves the other copies", *COPIES_LEFT),
    # What is compared.
    ("the lower half tells a change", CLEAN, clean("is_e(state) & ((uint32_t)word == (uint32_t)before)")),
    ("the upper half tells a change", CLEAN, clean("is_e(state) & (word >> 32 == before >> 32)")),
    ("the lowest byte tells a change", CLEAN, clean("is_e(state) & ((uint8_t)word == (uint8_t)before)")),
    ("all bytes but the highest tell a change", CLEAN, clean("is_e(state) & (word << 8 == before << 8)")),
    ("all bytes but the lowest tell a change", CLEAN, clean("is_e(state) & (word >> 8 == before >> 8)")),
    ("the operand is compared with the word before", CLEAN, clean("is_e(state) & (w->operand == before)")),
    ("the operand is compared with the word after", CLEAN, clean("is_e(state) & (w->operand == word)")),
    ("the word after is compared with memory's",
     CLEAN, clean("is_e(state) & (word == load64(w->memory + 8 * (size_t)w->line))")),
    ("the word before is compared with memory's",
     CLEAN, clean("is_e(state) & (before == load64(w->memory + 8 * (size_t)w->line))")),
    ("only a mask of no bytes stores the same", CLEAN, clean("is_e(state) & !w->mask")),
    ("a mask of no bytes is taken for a change", CLEAN, clean("is_e(state) & (word == before) & !!w->mask")),
    ("a mask of all bytes is taken for a change",
     CLEAN, clean("is_e(state) & (word == before) & (w->mask != 0xFF)")),
    # Swaps.
    ("a swap that stores the same ends in M", CLEAN, clean("is_e(state) & (word == before) & (w->kind == WRITE)")),
    ("a write that stores the same ends in M", CLEAN, clean("is_e(state) & (word == before) & (w->kind == SWAP)")),
    ("a swap that puts back what it finds has failed",
     "    w->swapped = half == w->compare;",
     "    w->swapped = half == w->compare && merge(word, w->operand, w->mask) != word;"),
    ("a swap that changes E leaves it E",
     CLEAN, clean("is_e(state) & ((word == before) | (w->kind == SWAP))")),
    ("a failed swap that would store the same turns M into E",
     NOT_WRITTEN, "    {\n" + NOT_WRITTEN + "        if (w->kind == SWAP && w->mode && state == MODIFIED && "
     "merge(word, w->operand, w->mask) == word)\n            w->states[entry] = BACK_E;\n    }\n"),
    ("a failed swap that would change E ends in M",
     NOT_WRITTEN, "    {\n" + NOT_WRITTEN + "        if (w->kind == SWAP && w->mode && is_e(state) && "
     "merge(word, w->operand, w->mask) != word)\n            w->states[entry] = MODIFIED;\n    }\n"),
    ("a failed swap that would store the same leaves write-through E",
     NOT_WRITTEN, "    if (!(w->kind == SWAP && state == THROUGH_E && merge(word, w->operand, w->mask) == word))\n    "
     + NOT_WRITTEN),
    ("a failed swap that would store what an owner has leaves E",
     *failing("w->owners && w->mode && merge(word, w->operand, w->mask) == word",
              "state = BACK_E;\nset_all(w, w->holders, INVALID);")),
    # Beside these.
    ("a device write of the same leaves the copies",
     "    store_line(w, w->line, merge(fetch(w), w->operand, w->mask));\n    set_all",
     "    uint64_t found = fetch(w);\n\n    store_line(w, w->line, merge(found, w->operand, w->mask));\n"
     "    if (merge(found, w->operand, w->mask) != found)\n        set_all"),
    ("a write of no bytes is not refused for a bad entry",
     "    if ((refusal = walk_ports(&w)))\n        return",
     "    if ((refusal = walk_ports(&w)) && !(w.kind == WRITE && !w.mask))\n        return"),
    ("a write of no bytes is not refused for its port",
     "    if (w->kind < DEVICE_READ && w->port >= w->ports)",
     "    if (w->kind == WRITE && !w->mask)\n        w->port %= w->ports;\n"
     "    if (w->kind < DEVICE_READ && w->port >= w->ports)"),
    # Refusals.
    ("a refused order writes a table byte",
     "    if ((refusal = walk_ports(&w)))\n        return refuse(answer, refusal);",
     "    if ((refusal = walk_ports(&w))) {\n        states[entry_of(&w, 0)] = 0;\n        return refuse(answer, refusal);\n    }"),
    ("a refused port writes a memory byte",
     "    if ((refusal = take_apart(&w, word)))\n        return refuse(answer, refusal);",
     "    if ((refusal = take_apart(&w, word))) {\n        if (refusal == 5)\n            memory[memory_len - 1]++;\n        return refuse(answer, refusal);\n    }"),
    ("the line is refused before the port",
     "    if (w->kind < DEVICE_READ && w->port >= w->ports)\n        return 5;\n    if (w->line >= w->lines)\n        return 6;",
     "    if (w->line >= w->lines)\n        return 6;\n    if (w->kind < DEVICE_READ && w->port >= w->ports)\n        return 5;"),
    ("the mask is refused before the line",
     "    if (w->line >= w->lines)\n        return 6;\n    if (w->kind == SWAP && w->mask != 0x0F && w->mask != 0xF0)\n        return 7;",
     "    if (w->kind == SWAP && w->mask != 0x0F && w->mask != 0xF0)\n        return 7;\n    if (w->line >= w->lines)\n        return 6;"),
    ("the lengths are refused before the shape",
     "    if (answer_len != ANSWER_BYTES)\n        return refusal ? refusal : 3;",
     "    if (answer_len != ANSWER_BYTES)\n        return 3;"),
    ("a device read is refused for its port",
     "    if (w->kind < DEVICE_READ && w->port >= w->ports)",
     "    if (w->kind != DEVICE_WRITE && w->port >= w->ports)"),
    ("a flush is not refused for its port",
     "    if (w->kind < DEVICE_READ && w->port >= w->ports)",
     "    if (w->kind == FLUSH)\n        w->port %= w->ports;\n    if (w->kind < DEVICE_READ && w->port >= w->ports)"),
    ("a device read is refused for a bad entry",
     "    if (w.kind == DEVICE_READ) {\n",
     "    if (w.kind == DEVICE_READ && walk_ports(&w))\n        return refuse(answer, 8);\n    if (w.kind == DEVICE_READ) {\n"),
    ("a device write is still refused",
     "    if (w->kind > DEVICE_WRITE)\n        return 4;",
     "    if (w->kind > DEVICE_READ)\n        return 4;"),
    ("kind 6 is a device write too",
     "    if (w->kind > DEVICE_WRITE)\n        return 4;",
     "    if (w->kind == 6)\n        w->kind = DEVICE_WRITE;\n    if (w->kind > DEVICE_WRITE)\n        return 4;"),
    ("kind 7 is a device write too",
     "    if (w->kind > DEVICE_WRITE)\n        return 4;",
     "    if (w->kind == 7)\n        w->kind = DEVICE_WRITE;\n    if (w->kind > DEVICE_WRITE)\n        return 4;"),
    ("the line is refused before the kind",
     "    if (w->kind > DEVICE_WRITE)\n        return 4;",
     "    if (w->kind > DEVICE_WRITE)\n        return w->line >= w->lines ? 6 : 4;"),
    ("a device write is refused for its port",
     "    if (w->kind < DEVICE_READ && w->port >= w->ports)",
     "    if (w->kind != DEVICE_READ && w->port >= w->ports)"),
    ("a device write beyond the last line is refused for its port",
     "    if (w->line >= w->lines)\n        return 6;",
     "    if (w->line >= w->lines)\n        return w->kind == DEVICE_WRITE && w->port >= w->ports ? 5 : 6;"),
    ("a device write beyond the last line lands on another",
     "    if (w->line >= w->lines)\n        return 6;",
     "    if (w->kind == DEVICE_WRITE)\n        w->line %= w->lines;\n    if (w->line >= w->lines)\n        return 6;"),
    ("the mask of a device write is refused",
     "    if (w->kind == SWAP && w->mask",
     "    if ((w->kind == SWAP || w->kind == DEVICE_WRITE) && w->mask"),
    ("a device write is not refused for a bad entry",
     "    if ((refusal = walk_ports(&w)))\n        return",
     "    if ((refusal = walk_ports(&w)) && w.kind != DEVICE_WRITE)\n        return"),
    ("a device write is refused for bad entries with the line's tag only",
     "            return 8;\n        if (tag == w->tag) {",
     "        {\n            if (w->kind != DEVICE_WRITE || tag == w->tag)\n                return 8;\n            continue;\n        }\n"
     "        if (tag == w->tag) {"),
    ("a device write is refused for the entry of its port field only",
     "            return 8;\n        if (tag == w->tag) {",
     "        {\n            if (w->kind != DEVICE_WRITE || p == w->port)\n                return 8;\n            continue;\n        }\n"
     "        if (tag == w->tag) {"),
    ("a device write is refused for a bad entry only if there is no owner",
     "            return 8;\n        if (tag == w->tag) {",
     "        {\n            if (w->kind != DEVICE_WRITE || !w->owners)\n                return 8;\n            continue;\n        }\n"
     "        if (tag == w->tag) {"),
    ("a bad entry is refused before a device write's line",
     "    if ((refusal = take_apart(&w, word)))\n        return refuse(answer, refusal);",
     "    if ((refusal = take_apart(&w, word))) {\n        if (refusal == 6 && w.kind == DEVICE_WRITE && walk_ports(&w))\n"
     "            refusal = 8;\n        return refuse(answer, refusal);\n    }"),
    ("a refused device write takes copies away",
     "    if ((refusal = walk_ports(&w)))\n        return refuse(answer, refusal);",
     "    if ((refusal = walk_ports(&w))) {\n        if (w.kind == DEVICE_WRITE)\n            set_all(&w, w.holders, INVALID);\n"
     "        return refuse(answer, refusal);\n    }"),
    ("the mask of a write is refused",
     "    if (w->kind == SWAP && w->mask",
     "    if ((w->kind == SWAP || (w->kind == WRITE && w->mask == 0)) && w->mask"),
    ("only the port's own entry is checked",
     "            return 8;\n        if (tag == w->tag) {",
     "        {\n            if (p == w->port)\n                return 8;\n            continue;\n        }\n        if (tag == w->tag) {"),
    ("a home line in 32 bits",
     ["((uint64_t)tag << shift) + w->index >= w->lines", "load32(w->tags + 4 * entry) * w->sets + w->index;"],
     ["(tag << shift) + w->index >= w->lines", "(uint32_t)(load32(w->tags + 4 * entry) * w->sets + w->index);"]),
    ("a home line one too far",
     "((uint64_t)tag << shift) + w->index >= w->lines",
     "((uint64_t)tag << shift) + w->index > w->lines"),
    ("a ninth port",
     "    if (ports - 1 >= MAX_PORTS ||",
     "    if (ports - 1 >= MAX_PORTS + 1 ||"),
    ("sets that are no power of two",
     " || (sets & (sets - 1))",
     ""),
    ("a hundred and twenty-eight sets",
     "sets - 1 >= 64",
     "sets - 1 >= 128"),
    ("one line too many",
     "lines - 1 >= 4096",
     "lines - 1 >= 4097"),
    ("a shape cut to 32 bits",
     "    uint64_t entries;\n\n",
     "    uint64_t entries;\n\n    lines = (uint32_t)lines;\n"),
    ("part of an entry is let in",
     "tags_len != 4 * entries",
     "tags_len / 4 != entries"),
    ("a longer memory is let in",
     "memory_len != 8 * lines",
     "memory_len < 8 * lines"),
    ("an answer of another length is written",
     "    if (answer_len != ANSWER_BYTES)\n        return refusal ? refusal : 3;",
     "    if (answer_len > ANSWER_BYTES)\n        refuse(answer, refusal ? refusal : 3);\n    if (answer_len != ANSWER_BYTES)\n        return refusal ? refusal : 3;"),
    ("a refused order leaves the answer alone",
     "    if (refusal)\n        return refuse(answer, refusal);\n    if ((refusal = check_ranges",
     "    if (refusal)\n        return refusal;\n    if ((refusal = check_ranges"),
    ("a refused order gives three zeros",
     "    memset(answer + 8, 0, 32);",
     "    memset(answer + 8, 0, 24);"),
    # Bytes beside the slices.
    ("a write beyond the answer",
     "    store64(answer + 32, w->writes);",
     "    store64(answer + 32, w->writes);\n    answer[40] = 0;"),
    ("a write beyond the states",
     "    memset(states, 0, states_len);",
     "    memset(states, 0, states_len + 1);"),
    ("a write before the tags",
     "    memset(tags, 0, tags_len);",
     "    memset(tags - 1, 0, tags_len + 1);"),
    # Fresh.
    ("fresh leaves the tags",
     "    memset(tags, 0, tags_len);\n",
     ""),
    ("fresh leaves the data",
     "    memset(data, 0, data_len);\n",
     ""),
    ("fresh clears before it refuses",
     "    if (refusal)\n        return refusal;\n    memset(tags, 0, tags_len);",
     "    if (tags)\n        memset(tags, 0, tags_len);\n    if (refusal)\n        return refusal;"),
    # The audit.
    ("the audit forgets the words",
     "c->word[q] != c->word[p] || ",
     ""),
    ("the audit forgets the modes",
     " || is_back(c->state[q]) != is_back(state)",
     ""),
    ("the audit forgets that E and M are alone",
     "(!alone || holders == 1) && ",
     ""),
    ("the audit forgets that E is alone",
     "alone = (unsigned)is_alone(state);",
     "alone = state == MODIFIED;"),
    ("the audit looks for two O's and not for three",
     "owned <= 1",
     "owned != 2"),
    ("the audit forgets the second O",
     " && owned <= 1",
     ""),
    ("the audit forgets memory",
     " && (owners || c->word[p] == memory_word)",
     ""),
    ("the audit compares an owned line with memory",
     "(owners || c->word[p] == memory_word)",
     "c->word[p] == memory_word"),
    ("the audit sees the first holder's ownership only",
     "        owners += (unsigned)is_owner(c->state[q]);\n",
     ""),
    ("the audit forgets bytes that are no state",
     "            if (!is_state(states[entry]) || c.tag[c.count] * sets + index >= lines)",
     "            if (!is_state(states[entry]))\n                continue;\n            if (c.tag[c.count] * sets + index >= lines)"),
    ("the audit forgets home lines",
     "            if (!is_state(states[entry]) || c.tag[c.count] * sets + index >= lines)\n                return 0;",
     "            if (!is_state(states[entry]))\n                return 0;\n            if (c.tag[c.count] * sets + index >= lines)\n                continue;"),
    ("the audit works a home line out in 32 bits",
     "            if (!is_state(states[entry]) || c.tag[c.count] * sets + index >= lines)",
     "            c.tag[c.count] = (uint32_t)(c.tag[c.count] * sets + index) / sets;\n"
     "            if (!is_state(states[entry]) || c.tag[c.count] * sets + index >= lines)"),
    ("the audit judges invalid entries",
     "            if (states[entry] == INVALID)\n                continue;\n            c.state",
     "            c.state"),
    ("the audit skips the last index",
     "    for (uint64_t index = 0; index < sets; index++) {\n        c.count",
     "    for (uint64_t index = 0; index < (sets > 1 ? sets - 1 : sets); index++) {\n        c.count"),
    ("the audit skips the last port",
     "entry < ports * sets; entry += sets",
     "entry < (ports > 1 ? ports - 1 : ports) * sets; entry += sets"),
    ("a refused audit says yes",
     "    *verdict = !refusal && is",
     "    *verdict = refusal || is"),
    ("a verdict of another length is written",
     "    if (verdict_len != VERDICT_BYTES)\n        return refusal ? refusal : 3;",
     "    if (verdict_len > VERDICT_BYTES)\n        *verdict = 0;\n    if (verdict_len != VERDICT_BYTES)\n        return refusal ? refusal : 3;"),
]

# Of ranges in the walking model. The groups of random ranges catch these.
RANGES = [
    # Which mode is in force.
    ("the device range is looked up first", FORCE, force("!device & (scratch | w->mode)")),
    ("scratch runs write through", FORCE, force("!scratch & w->mode & !device")),
    ("the device range runs write back", FORCE, force("scratch | device | w->mode")),
    ("the ranges change places", FORCE, force("device | (w->mode & !scratch)")),
    ("the scratch range does nothing", FORCE, force("w->mode & !device")),
    ("the device range does nothing", FORCE, force("scratch | w->mode")),
    ("the ranges do nothing", IN_FORCE, ""),
    ("elsewhere every order runs write back", FORCE, force("scratch | !device")),
    ("elsewhere every order runs write through", FORCE, force("scratch")),
    ("what is in both ranges runs as ordered", FORCE, force("scratch == device ? w->mode : scratch")),
    ("in a range the order's mode is turned round", FORCE, force("scratch | device ? !w->mode : w->mode")),
    # Which lines a range has.
    ("a range is one line too long", HAS_LINE, has_line("count && line - first <= count")),
    ("a range is one line too short", HAS_LINE, has_line("line - first + 1 < count")),
    ("a range lacks its first line", HAS_LINE, has_line("line != first && line - first < count")),
    ("a range lies one line later", HAS_LINE, has_line("line - first - 1 < count")),
    ("a range has the line before it", HAS_LINE, has_line("count && line - first + 1 < count + 1")),
    ("a range of one line is empty", HAS_LINE, has_line("count > 1 && line - first < count")),
    ("a range is its first line", HAS_LINE, has_line("count && line == first")),
    ("a count is taken for the last line", HAS_LINE, has_line("count && line >= first && line <= count")),
    ("a count is taken for the end", HAS_LINE, has_line("line >= first && line < count")),
    ("a count is ignored", HAS_LINE, has_line("line >= first")),
    ("a range goes up to the last line", HAS_LINE, has_line("count && line >= first")),
    ("a range starts at line 0", HAS_LINE, has_line("count && line < first + count")),
    ("an empty range has its first line", HAS_LINE, has_line("line - first < count + !count")),
    ("first line and count change places", HAS_LINE, has_line("line - count < first")),
    ("scratch is as long as the device range",
     SCRATCH_FOUND, SCRATCH_FOUND.replace("w->scratch_count", "w->device_count")),
    ("the device range is as long as scratch",
     DEVICE_FOUND, DEVICE_FOUND.replace("w->device_count", "w->scratch_count")),
    ("the device range starts where scratch does",
     DEVICE_FOUND, DEVICE_FOUND.replace("w->device_first", "w->scratch_first")),
    ("the index is looked up in scratch", SCRATCH_FOUND, SCRATCH_FOUND.replace("w->line", "w->index")),
    ("the tag is looked up in the device range", DEVICE_FOUND, DEVICE_FOUND.replace("w->line", "w->tag")),
    ("the port is looked up in scratch", SCRATCH_FOUND, SCRATCH_FOUND.replace("w->line", "w->port")),
    # Which orders look ranges up.
    *((f"{name} pass the ranges over", IN_FORCE, f"    if ({condition})\n    " + IN_FORCE)
      for name, condition in (("reads", "w->kind != READ"), ("writes", "w->kind != WRITE"),
                              ("swaps", "w->kind != SWAP"), ("hits", "!(w->holders >> w->port & 1)"),
                              ("misses", "w->holders >> w->port & 1"), ("ports but the first", "w->port == 0"),
                              ("lines that another port has", "!(w->holders & ~(1u << w->port))"))),
    ("a flush in scratch stores nothing", FLUSHED, FLUSHED.replace("entry]))", f"entry]) && !{IN_SCRATCH})")),
    ("a flush in scratch keeps the copy", FLUSHED, f"    if ({IN_SCRATCH})\n        return;\n" + FLUSHED),
    ("a flush in the device range leaves E",
     FLUSHED, FLUSHED.replace("= INVALID", f"= {IN_DEVICE} ? THROUGH_E : INVALID")),
    ("a flush in the device range stores a clean word",
     FLUSHED, FLUSHED.replace("entry]))", f"entry]) || {IN_DEVICE})")),
    ("a device read in scratch asks the caches",
     "        w.value = load64(memory + 8 * (size_t)w.line);\n",
     "        w.value = load64(memory + 8 * (size_t)w.line);\n"
     "        if (has_line(scratch_first, scratch_count, w.line) && !walk_ports(&w) && w.owners)\n"
     "            w.value = load64(data + 8 * entry_of(&w, (unsigned)__builtin_ctz(w.owners)));\n"),
    ("a device write in scratch leaves the copies",
     "merge(fetch(w), w->operand, w->mask));\n    set_all(w, w->holders, INVALID);",
     f"merge(fetch(w), w->operand, w->mask));\n    if (!{IN_SCRATCH})\n        set_all(w, w->holders, INVALID);"),
    ("a device write in the device range leaves S",
     "merge(fetch(w), w->operand, w->mask));\n    set_all(w, w->holders, INVALID);",
     f"merge(fetch(w), w->operand, w->mask));\n    set_all(w, w->holders, {IN_DEVICE} ? THROUGH_S : INVALID);"),
    # Ranges that end beyond lines.
    ("a step never gives 12", STEP_RANGES, ""),
    ("fresh never gives 12", FRESH_RANGES, "    (void)memory;\n"),
    ("the audit never gives 12", AUDIT_RANGES, "    *verdict"),
    ("fresh gives 12 and clears the tables",
     "    if (refusal)\n        return refusal;\n    memset(tags, 0, tags_len);",
     "    if (refusal && refusal != 12)\n        return refusal;\n    if (refusal)\n        memset(states, 0, states_len);\n"
     "    if (refusal)\n        return refusal;\n    memset(tags, 0, tags_len);"),
    ("an audit refused 12 says yes",
     "    *verdict = !refusal && is", "    *verdict = (!refusal || refusal == 12) && is"),
    ("an audit refused 12 leaves the verdict", AUDIT_RANGES,
     AUDIT_RANGES.replace("    *verdict", "    if (refusal == 12)\n        return refusal;\n    *verdict")),
    ("scratch alone is checked", EITHER_BEYOND, EITHER_BEYOND.replace(" || ends_beyond(device_first, device_count, lines)", "")),
    ("the device range alone is checked",
     EITHER_BEYOND, EITHER_BEYOND.replace("ends_beyond(scratch_first, scratch_count, lines) || ", "")),
    ("12 is given if both ranges end beyond lines", EITHER_BEYOND, EITHER_BEYOND.replace("||", "&&")),
    ("ranges that cross are refused",
     EITHER_BEYOND, EITHER_BEYOND.replace("return ", "return (scratch_count && device_count && scratch_first < device_first + device_count && "
                                          "device_first < scratch_first + scratch_count) || ")),
    ("12 has another number", EITHER_BEYOND, EITHER_BEYOND.replace("12", "3")),
    ("the sum wraps", ENDS_BEYOND, ends_beyond("count > 0 && first + count > lines")),
    ("an empty range beyond lines is refused", ENDS_BEYOND, ends_beyond("first > lines || count > lines - first")),
    ("an empty range at the end of lines is refused",
     ENDS_BEYOND, ends_beyond("count ? first > lines || count > lines - first : first == lines")),
    ("a range may end one line beyond", ENDS_BEYOND, ends_beyond("count > 0 && (first > lines || count - 1 > lines - first)")),
    ("a range up to the last line is refused", ENDS_BEYOND, ends_beyond("count > 0 && (first > lines || count >= lines - first)")),
    ("all of memory is no range", ENDS_BEYOND, ends_beyond("count > 0 && (first > lines || count > lines - first || count == lines)")),
    ("a range may start at the end", ENDS_BEYOND, ends_beyond("count > 0 && first != lines && (first > lines || count > lines - first)")),
    ("the first line alone is checked", ENDS_BEYOND, ends_beyond("count > 0 && first >= lines")),
    ("the count alone is checked", ENDS_BEYOND, ends_beyond("count > lines")),
    ("the numbers of a range are cut to 32 bits",
     ENDS_BEYOND, ends_beyond("(uint32_t)count > 0 && ((uint32_t)first > lines || (uint32_t)count > lines - (uint32_t)first)")),
    ("a range ends beyond 4,096 lines", ENDS_BEYOND, ends_beyond("count > 0 && (first > 4096 || count > 4096 - first)")),
    # The order of refusals.
    ("12 is given before 2", ANSWER_LENGTH, f"    if (refusal == 2 && {CHECK_RANGES})\n        refusal = 12;\n" + ANSWER_LENGTH),
    ("12 is given before 3 of memory and the tables",
     ANSWER_LENGTH, f"    if (refusal == 3 && {CHECK_RANGES})\n        refusal = 12;\n" + ANSWER_LENGTH),
    ("12 is given before 3 of the answer", ANSWER_LENGTH, ANSWER_LENGTH.replace(": 3", f": {CHECK_RANGES} ? 12 : 3")),
    ("12 is given before 3 of the verdict", VERDICT_LENGTH, VERDICT_LENGTH.replace(": 3", f": {CHECK_RANGES} ? 12 : 3")),
    ("the audit gives 12 before 2",
     VERDICT_LENGTH, f"    if (refusal == 2 && {CHECK_RANGES})\n        refusal = 12;\n" + VERDICT_LENGTH),
    ("the audit gives 12 before 3",
     VERDICT_LENGTH, f"    if (refusal == 3 && {CHECK_RANGES})\n        refusal = 12;\n" + VERDICT_LENGTH),
    ("fresh gives 12 before 2", FRESH_RANGES, FRESH_RANGES.replace("!refusal)", f"!refusal || (refusal == 2 && {CHECK_RANGES}))")),
    ("fresh gives 12 before 3", FRESH_RANGES, FRESH_RANGES.replace("!refusal)", f"!refusal || (refusal == 3 && {CHECK_RANGES}))")),
    ("12 is given after 4", STEP_RANGES, twelve_if("(word & 7) <= DEVICE_WRITE")),
    ("12 is given after 5", STEP_RANGES, twelve_if("((word & 7) >= DEVICE_READ || (word >> 4 & 15) < ports)")),
    ("12 is given after 6", STEP_RANGES, twelve_if("(word >> 16 & 65535) < lines")),
    ("12 is given after 7",
     STEP_RANGES, twelve_if("((word & 7) != SWAP || (word >> 8 & 255) == 0x0F || (word >> 8 & 255) == 0xF0)")),
    ("12 is given after 8",
     [STEP_RANGES, "    if ((refusal = walk_ports(&w)))\n        return refuse(answer, refusal);\n"],
     [twelve_if("(word & 7) == DEVICE_READ"),
      "    if ((refusal = walk_ports(&w)))\n        return refuse(answer, refusal);\n" + STEP_RANGES]),
    ("12 is given to orders in a range alone",
     STEP_RANGES, twelve_if("(has_line(scratch_first, scratch_count, word >> 16 & 65535) || "
                            "has_line(device_first, device_count, word >> 16 & 65535))")),
    ("12 is given to accesses alone", STEP_RANGES, twelve_if("(word & 7) <= SWAP")),
    ("a device read is not refused 12", STEP_RANGES, twelve_if("(word & 7) != DEVICE_READ")),
    ("a step refused 12 leaves the answer", STEP_RANGES, STEP_RANGES.replace("refuse(answer, refusal)", "refusal")),
    ("a step refused 12 writes a table byte",
     STEP_RANGES, STEP_RANGES.replace("        return", "    {\n        states[0] ^= 1;\n        return") + "    }\n"),
    ("a range that starts beyond 4,096 lines is refused 2",
     STEP_RANGES, "    if (scratch_first > 4096 || device_first > 4096)\n        return refuse(answer, 2);\n" + STEP_RANGES),
    # The numbers in each other's place.
    ("fresh checks first lines for counts", FRESH_RANGES, FRESH_RANGES.replace(CHECK_RANGES, CHECK_TURNED)),
    ("the audit checks first lines for counts", AUDIT_RANGES, AUDIT_RANGES.replace(CHECK_RANGES, CHECK_TURNED)),
    ("a step checks first lines for counts", STEP_RANGES, STEP_RANGES.replace(CHECK_RANGES, CHECK_TURNED)),
    ("a step checks ranges against sets", STEP_RANGES, STEP_RANGES.replace("(lines,", "(sets,")),
    *((f"a step takes {name}", f"    w.{one} = {one};\n    w.{other} = {other};\n", f"    w.{one} = {other};\n    w.{other} = {one};\n")
      for name, one, other in (("scratch's first line for its count", "scratch_first", "scratch_count"),
                               ("the device range's first line for its count", "device_first", "device_count"),
                               ("scratch's count for the device range's first line", "scratch_count", "device_first"))),
    ("a step takes one range for the other",
     "    w.scratch_first = scratch_first;\n    w.scratch_count = scratch_count;\n"
     "    w.device_first = device_first;\n    w.device_count = device_count;\n",
     "    w.scratch_first = device_first;\n    w.scratch_count = device_count;\n"
     "    w.device_first = scratch_first;\n    w.device_count = scratch_count;\n"),
]

# Of the step with a record in the walking model. The groups of random records catch these.
FULL = "    if (is_full(record))\n        return answer_len == ANSWER_BYTES ? refuse(answer, 9) : 9;\n"
SLICES = "check_slices(ports, sets, lines, memory_len, tags_len, states_len, data_len)"
STEP = ("walking_step(ports, sets, lines, scratch_first, scratch_count, device_first, device_count, word, operand,\n"
        "                           memory, memory_len, tags, tags_len, states, states_len, data, data_len, answer, answer_len);\n")
TOO_HIGH = "        if (load64(record + 8 * k) > UINT64_MAX - 2)\n"
ANOTHER_LENGTH = "    if (record_len != RECORD_BYTES) {\n"
REFUSED = "        add_to(record, REFUSED, 1);\n"
ACCEPTED = "    add_to(record, word & 7, 1);\n"
SWAPS = "    add_to(record, SWAPS, load64(answer + 16));\n"
READS = "    add_to(record, READS, load64(answer + 24));\n"
WRITES = "    add_to(record, WRITES, load64(answer + 32));\n"
SUM = "    store64(record + 8 * place, load64(record + 8 * place) + more);"


def unless(condition):
    """Refusal 9 under a condition more."""
    return FULL.replace("is_full(record)", f"is_full(record) && {condition}")


# Of swap misses that fail: the groups of random swaps, and those after them, catch these.
SWAPPED = [slip[:3] for slip in TOLD + QUIET] + [("a swap miss that succeeds hands its word on", *HANDED_ON)]

TOTALS = [
    # Refusal 9 and what comes before it.
    ("9 is given after 2", FULL, unless(f"{SLICES} != 2")),
    ("9 is given after 3 of memory and the tables", FULL, unless(f"{SLICES} != 3")),
    ("9 is given after 3 of the answer", FULL, unless("answer_len == ANSWER_BYTES")),
    ("9 is given after 4", FULL, unless("(word & 7) <= DEVICE_WRITE")),
    ("9 is given after 5", FULL, unless("((word & 7) >= DEVICE_READ || (word >> 4 & 15) < ports)")),
    ("9 is given after 6", FULL, unless("(word >> 16 & 65535) < lines")),
    ("9 is given after 7",
     FULL, unless("((word & 7) != SWAP || (word >> 8 & 255) == 0x0F || (word >> 8 & 255) == 0xF0)")),
    ("9 is given after 8",
     FULL,
     "    if (is_full(record)) {\n"
     "        struct walk w = {.states = states, .tags = tags, .ports = ports, .sets = sets, .lines = lines};\n\n"
     f"        if (answer_len == ANSWER_BYTES && !{SLICES} && !take_apart(&w, word) && w.kind != DEVICE_READ &&\n"
     "            walk_ports(&w))\n            return refuse(answer, 8);\n"
     "        return answer_len == ANSWER_BYTES ? refuse(answer, 9) : 9;\n    }\n"),
    ("9 is given after 12", FULL, unless(f"!{CHECK_RANGES}")),
    ("9 is never given", FULL, ""),
    ("9 is not answered", FULL, "    if (is_full(record))\n        return 9;\n"),
    ("9 writes an answer of another length", FULL, FULL.replace("answer_len ==", "answer_len >=")),
    ("9 with an answer of another length is 3", FULL, FULL.replace(": 9;", ": 3;")),
    ("9 is counted as refused",
     FULL, FULL.replace("record))\n", "record)) {\n        add_to(record, REFUSED, 1);\n") + "    }\n"),
    ("9 is counted under the order's kind",
     FULL, FULL.replace("record))\n", "record)) {\n        add_to(record, word & 7, 1);\n") + "    }\n"),
    ("9 clears the record",
     FULL, FULL.replace("record))\n", "record)) {\n        memset(record, 0, record_len);\n") + "    }\n"),
    ("an order refused 9 is carried out", FULL, "    if (is_full(record)) {\n        " + STEP + FULL + "    }\n"),
    ("9 is counted as refused where 2 or 3 applies too",
     FULL, "    if (is_full(record)) {\n        add_to(record, REFUSED, !!" + SLICES + ");\n" + FULL + "    }\n"),
    # Which totals are too high.
    ("a total of 2^64 - 2 is let in", TOO_HIGH, TOO_HIGH.replace("- 2", "- 1")),
    ("a total of 2^64 - 3 is refused", TOO_HIGH, TOO_HIGH.replace("> UINT64_MAX - 2", ">= UINT64_MAX - 2")),
    ("a total of 2^64 - 1 is let in", TOO_HIGH, TOO_HIGH.replace("> UINT64_MAX - 2", "== UINT64_MAX - 1")),
    ("a total from 2^63 on is refused", TOO_HIGH, TOO_HIGH.replace("> UINT64_MAX - 2", "> UINT64_MAX >> 1")),
    ("32 bits of a total are looked at",
     TOO_HIGH, "        if ((uint32_t)load64(record + 8 * k) > UINT32_MAX - 2)\n"),
    ("totals are looked at together", "    for (size_t k = 0; bits >> 63 && k",
     "    if (bits > UINT64_MAX - 2)\n        return 1;\n    for (size_t k = 0; bits >> 63 && k"),
    *((f"the total of {name} is not looked at", TOO_HIGH, TOO_HIGH.replace("(load64", f"(k != {place} && load64", 1))
      for name, place in (("reads by a port", "READ"), ("writes by a port", "WRITE"), ("swaps", "SWAP"),
                          ("flushes", "FLUSH"), ("device reads", "DEVICE_READ"), ("device writes", "DEVICE_WRITE"),
                          ("refused orders", "REFUSED"), ("memory reads", "READS"), ("memory writes", "WRITES"),
                          ("swaps that succeeded", "SWAPS"))),
    # What is added.
    ("a failed swap is counted as one that succeeded", SWAPS, "    add_to(record, SWAPS, (word & 7) == SWAP);\n"),
    ("swaps that succeeded are not counted", SWAPS, ""),
    ("a swap's value is counted", SWAPS, SWAPS.replace("16", "8")),
    ("memory reads and writes change places", READS + WRITES, READS.replace("24", "32") + WRITES.replace("32", "24")),
    ("memory reads are not counted", READS, ""),
    ("memory writes are not counted", WRITES, ""),
    ("two memory writes count as one", WRITES, WRITES.replace("load64(answer + 32)", "load64(answer + 32) != 0")),
    ("a device write's memory write is not counted",
     WRITES, "    if ((word & 7) != DEVICE_WRITE)\n    " + WRITES),
    ("a device write's memory read is not counted", READS, "    if ((word & 7) != DEVICE_WRITE)\n    " + READS),
    ("a device read's memory read is not counted", READS, "    if ((word & 7) != DEVICE_READ)\n    " + READS),
    ("a flush's memory write is not counted", WRITES, "    if ((word & 7) != FLUSH)\n    " + WRITES),
    ("a swap that fails is not counted under its kind",
     ACCEPTED, "    if ((word & 7) != SWAP || load64(answer + 16))\n    " + ACCEPTED),
    ("a swap that fails is counted as a read",
     ACCEPTED, "    add_to(record, (word & 7) == SWAP && !load64(answer + 16) ? READ : word & 7, 1);\n"),
    ("a swap that fails is counted as a read too",
     ACCEPTED, ACCEPTED + "    add_to(record, READ, (word & 7) == SWAP && !load64(answer + 16));\n"),
    ("a swap that reads memory and fails is counted as a read",
     ACCEPTED, "    add_to(record, (word & 7) == SWAP && !load64(answer + 16) && load64(answer + 24) ? READ : word & 7, 1);\n"),
    ("the memory read of a swap that fails is not counted",
     READS, "    if ((word & 7) != SWAP || load64(answer + 16))\n    " + READS),
    ("the memory writes of a swap that fails are not counted",
     WRITES, "    if ((word & 7) != SWAP || load64(answer + 16))\n    " + WRITES),
    ("a write of no bytes is not counted",
     ACCEPTED, "    if ((word & 7) != WRITE || (word >> 8 & 255))\n    " + ACCEPTED),
    ("accepted orders are not counted", ACCEPTED, ""),
    ("accepted orders are counted twice", ACCEPTED, ACCEPTED * 2),
    ("device writes are counted as writes",
     ACCEPTED, "    add_to(record, (word & 7) == DEVICE_WRITE ? WRITE : word & 7, 1);\n"),
    ("device reads are counted as reads",
     ACCEPTED, "    add_to(record, (word & 7) == DEVICE_READ ? READ : word & 7, 1);\n"),
    ("orders are counted under the kind after theirs", ACCEPTED, ACCEPTED.replace("word & 7", "(word & 7) + 1")),
    ("the mode is counted with the kind", ACCEPTED, ACCEPTED.replace("word & 7", "(word & 15) % TOTALS")),
    # Refused orders.
    ("a refused order is counted under its kind", REFUSED, REFUSED.replace("REFUSED", "word & 7")),
    ("a refused order is counted under its kind too",
     REFUSED, REFUSED + "        if ((word & 7) <= DEVICE_WRITE)\n            add_to(record, word & 7, 1);\n"),
    ("refused orders are not counted", REFUSED, ""),
    ("refused orders are counted twice", REFUSED, REFUSED * 2),
    *((f"refusal {number} is not counted", REFUSED, f"        if (refusal != {number})\n    " + REFUSED)
      for number in (*range(2, 9), 12)),
    ("a call with an answer of another length is not counted",
     REFUSED, "        if (answer_len == ANSWER_BYTES)\n    " + REFUSED),
    ("the refusal's number is counted", REFUSED, REFUSED.replace("1)", "refusal)")),
    # Records of another length.
    ("a record of 88 bytes is let in",
     ANOTHER_LENGTH, "    if (record_len != RECORD_BYTES && record_len != RECORD_BYTES + 8) {\n"),
    ("a longer record is let in", ANOTHER_LENGTH, ANOTHER_LENGTH.replace("!=", "<")),
    ("a shorter record is let in", ANOTHER_LENGTH, ANOTHER_LENGTH.replace("!= RECORD_BYTES", "> RECORD_BYTES")),
    ("part of a number is let in", ANOTHER_LENGTH, ANOTHER_LENGTH.replace("record_len", "record_len / 8 * 8")),
    ("no record is let in", ANOTHER_LENGTH, "    if (record_len == 0)\n        return " + STEP + ANOTHER_LENGTH),
    ("a record of another length is written",
     ANOTHER_LENGTH,
     ANOTHER_LENGTH + "        if (record_len > RECORD_BYTES)\n            add_to(record, REFUSED, 1);\n"),
    ("a longer record may be full",
     ANOTHER_LENGTH, FULL.replace("(is_full", "(record_len > RECORD_BYTES && is_full") + ANOTHER_LENGTH),
    ("3 of the record is given before 2", "        refusal = refusal == 2 ? 2 : 3;\n", "        refusal = 3;\n"),
    ("3 of the record is given after 12",
     "        refusal = refusal == 2 ? 2 : 3;\n",
     "        if (!refusal && answer_len == ANSWER_BYTES)\n"
     f"            refusal = {CHECK_RANGES};\n        refusal = refusal ? refusal : 3;\n"),
    ("a refused range is counted under the order's kind",
     REFUSED, "        if (refusal == 12 && (word & 7) <= DEVICE_WRITE)\n            add_to(record, word & 7, 1);\n"
     "        else\n    " + REFUSED),
    ("a refused range is counted twice", REFUSED, REFUSED.replace("1)", "1 + (refusal == 12))")),
    ("with a record the ranges are empty", "    refusal = " + STEP, "    refusal = " + STEP.replace(
        "scratch_first, scratch_count, device_first, device_count", "0, 0, 0, 0")),
    ("with a record scratch is empty", "    refusal = " + STEP, "    refusal = " + STEP.replace(
        "scratch_first, scratch_count,", "0, 0,")),
    ("with a record the device range is empty", "    refusal = " + STEP, "    refusal = " + STEP.replace(
        "device_first, device_count,", "0, 0,")),
    ("with a record one range is taken for the other", "    refusal = " + STEP, "    refusal = " + STEP.replace(
        "scratch_first, scratch_count, device_first, device_count",
        "device_first, device_count, scratch_first, scratch_count")),
    ("with a record first lines are taken for counts", "    refusal = " + STEP, "    refusal = " + STEP.replace(
        "scratch_first, scratch_count, device_first, device_count",
        "scratch_count, scratch_first, device_count, device_first")),
    ("3 of the record is given after 4 to 7",
     "        refusal = refusal == 2 ? 2 : 3;\n",
     "        struct walk w = {.ports = ports, .lines = lines};\n\n"
     "        if (!refusal && answer_len == ANSWER_BYTES)\n            refusal = take_apart(&w, word);\n"
     "        refusal = refusal ? refusal : 3;\n"),
    ("3 of the record is given after 8",
     "        refusal = refusal == 2 ? 2 : 3;\n",
     "        struct walk w = {.states = states, .tags = tags, .ports = ports, .sets = sets, .lines = lines};\n\n"
     "        if (!refusal && answer_len == ANSWER_BYTES && !take_apart(&w, word) && w.kind != DEVICE_READ)\n"
     "            refusal = walk_ports(&w);\n        refusal = refusal ? refusal : 3;\n"),
    ("3 of the record is not answered",
     "        return answer_len == ANSWER_BYTES ? refuse(answer, refusal) : refusal;\n", "        return refusal;\n"),
    ("3 of the record writes an answer of another length",
     "        return answer_len == ANSWER_BYTES ? refuse(answer, refusal) : refusal;\n",
     "        return answer_len >= ANSWER_BYTES ? refuse(answer, refusal) : refusal;\n"),
    ("an order with a record of another length is carried out",
     ANOTHER_LENGTH, ANOTHER_LENGTH + "        " + STEP),
    # The bytes of a record.
    ("totals are kept big-endian",
     SUM,
     "    store64(record + 8 * place, __builtin_bswap64(__builtin_bswap64(load64(record + 8 * place)) + more));"),
    ("totals are kept in 32 bits", SUM, SUM.replace("load64(record + 8 * place) + more",
                                                    "(uint32_t)(load64(record + 8 * place) + more)")),
    ("totals stop at 2^64 - 3",
     SUM, "    if (load64(record + 8 * place) < UINT64_MAX - 2)\n    " + SUM),
    ("a write beyond the record", SUM, SUM + "\n    record[RECORD_BYTES] = 0;"),
    ("a write before the record", SUM, SUM + "\n    record[-1] = 0;"),
]

# The same slip in the walking model and in the second model: only the flat memory and the audit can tell.
BOTH = [
    ("an evicted O dropped",
     "if (is_owner(evicted)) {",
     "if (evicted == MODIFIED) {",
     "    if (owns(&evicted))",
     "    if (evicted.status.letter == 'M')"),
    ("a read turns one shared copy only",
     "    set_all(w, w->holders, shared_in(w->mode));\n}",
     "    w->states[entry] = (uint8_t)shared_in(w->mode);\n}",
     "    for (unsigned k = 0; k < holding->count; k++)\n        become(&holding->holders[k], 'S', mode);",
     "    become(own, 'S', mode);"),
    ("a write hit keeps the new word from the others",
     "        store64(w->data + 8 * other, word);\n",
     "",
     "        holding->holders[k].word = merged;\n",
     "        own->word = merged;\n"),
    ("a write miss leaves the other holders",
     "            store_line(w, w->line, word);\n        set_all(w, w->holders, INVALID);\n    } else {",
     "            store_line(w, w->line, word);\n    } else {",
     "    all_become_invalid(others);\n    own->word = second_merge",
     "    own->word = second_merge"),
    ("memory answers although there is an owner",
     "    word = fetch(w);\n",
     "    word = w->mode ? fetch(w) : (w->reads = 1, load64(w->memory + 8 * (size_t)w->line));\n",
     "    if (owner != NULL) {\n        own->word",
     "    if (owner != NULL && order.mode == SECOND_BACK) {\n        own->word"),
    ("a flush drops an O",
     "    if (is_owner(w->states[entry]))\n        store_line",
     "    if (w->states[entry] == MODIFIED)\n        store_line",
     "    if (owns(own))\n        store",
     "    if (own->status.letter == 'M')\n        store"),
    ("a swap never succeeds",
     "    w->swapped = half == w->compare;",
     "    w->swapped = 0;",
     "    answer->swapped = second_swap_succeeds(order, word) ? 1 : 0;",
     "    answer->swapped = 0;"),
    ("one constant value",
     "        return 1;\n    w->value = word;",
     "        return 1;\n    w->value = 1;",
     "    answer->value = word;",
     "    answer->value = 1;"),
    ("the line is refused before the port",
     "    if (w->kind < DEVICE_READ && w->port >= w->ports)\n        return 5;\n    if (w->line >= w->lines)\n        return 6;",
     "    if (w->line >= w->lines)\n        return 6;\n    if (w->kind < DEVICE_READ && w->port >= w->ports)\n        return 5;",
     "    struct second_answer answer = {second_order_refusal(model->shape, order), 0, 0, 0, 0};\n",
     "    struct second_answer answer = {order.kind < 5 && order.line >= model->shape.lines ? 6 : "
     "second_order_refusal(model->shape, order), 0, 0, 0, 0};\n"),
    ("a device write merges memory's word although there is an owner",
     "    store_line(w, w->line, merge(fetch(w), w->operand, w->mask));\n",
     "    w->reads = !w->owners;\n"
     "    store_line(w, w->line, merge(load64(w->memory + 8 * (size_t)w->line), w->operand, w->mask));\n",
     "        word = owner->word;\n    } else {",
     "        word = model->memory[order.line];\n    } else {"),
    ("a device write stores the whole operand",
     "merge(fetch(w), w->operand, w->mask)",
     "(fetch(w), w->operand)",
     "second_merge(word, order.operand, order.mask), answer);",
     "order.operand, answer);"),
    ("a device write stores nothing",
     "    store_line(w, w->line, merge(fetch(w), w->operand, w->mask));\n",
     "    fetch(w);\n    w->writes++;\n",
     "    store(model, order.line, second_merge(word, order.operand, order.mask), answer);\n",
     "    (void)word;\n    answer->writes++;\n"),
    ("a device write leaves the owner",
     "merge(fetch(w), w->operand, w->mask));\n    set_all(w, w->holders, INVALID);",
     "merge(fetch(w), w->operand, w->mask));\n    set_all(w, w->holders & ~w->owners, INVALID);",
     "    all_become_invalid(holding);\n",
     "    for (unsigned k = 0; k < holding->count; k++)\n        if (!owns(&holding->holders[k]))\n"
     "            become(&holding->holders[k], 'I', SECOND_THROUGH);\n"),
    ("a device write leaves all copies but the owner's",
     "merge(fetch(w), w->operand, w->mask));\n    set_all(w, w->holders, INVALID);",
     "merge(fetch(w), w->operand, w->mask));\n    set_all(w, w->owners, INVALID);",
     "    all_become_invalid(holding);\n",
     "    for (unsigned k = 0; k < holding->count; k++)\n        if (owns(&holding->holders[k]))\n"
     "            become(&holding->holders[k], 'I', SECOND_THROUGH);\n"),
    ("a device write leaves all copies but the first",
     "merge(fetch(w), w->operand, w->mask));\n    set_all(w, w->holders, INVALID);",
     "merge(fetch(w), w->operand, w->mask));\n    set_all(w, w->holders & -w->holders, INVALID);",
     "    all_become_invalid(holding);\n",
     "    if (holding->count > 0)\n        become(&holding->holders[0], 'I', SECOND_THROUGH);\n"),
    ("a device write leaves the copies in S",
     "merge(fetch(w), w->operand, w->mask));\n    set_all(w, w->holders, INVALID);",
     "merge(fetch(w), w->operand, w->mask));\n    set_all(w, w->holders, THROUGH_S);",
     "    all_become_invalid(holding);\n",
     "    for (unsigned k = 0; k < holding->count; k++)\n        become(&holding->holders[k], 'S', SECOND_THROUGH);\n"),
    ("a store that changes E leaves it E",
     CLEAN, clean("is_e(state)"), SECOND_CLEAN, second_clean("own->status.letter == 'E'")),
    ("a store of the same on M becomes E",
     CLEAN, clean("is_alone(state) & (word == before)"),
     SECOND_CLEAN, second_clean("(own->status.letter == 'E' || own->status.letter == 'M') && !changed")),
    ("a store of the same on a lone O becomes E",
     CLEAN, clean("(is_e(state) | (state == OWNED)) & (word == before)"),
     SECOND_CLEAN,
     second_clean("(own->status.letter == 'E' || (own->status.letter == 'O' && holding->count == 1)) && !changed")),
    ("a store of the same on a shared O leaves S",
     SHARED, SHARED.replace("? OWNED", "? (state == OWNED && word == before ? BACK_S : OWNED)"),
     SECOND_SHARED,
     "    if (order.mode == SECOND_BACK && own->status.letter == 'O' && !changed && holding->count > 1) {\n"
     "        for (unsigned k = 0; k < holding->count; k++) {\n            holding->holders[k].word = merged;\n"
     "            become(&holding->holders[k], 'S', SECOND_BACK);\n        }\n        return;\n    }\n" + SECOND_SHARED),
    ("a write through of the same stores nothing",
     "    if (!w->mode)\n        store_line(w, w->line, word);\n" + ALONE,
     "    if (!w->mode && word != before)\n        store_line(w, w->line, word);\n" + ALONE,
     "    if (order.mode == SECOND_THROUGH)\n        store(model, holding->line, merged, answer);\n",
     "    if (order.mode == SECOND_THROUGH && changed)\n        store(model, holding->line, merged, answer);\n"),
    ("a miss that stores what an owner has leaves E",
     MISSED, missed("word == found && w->owners"), SECOND_MISSED, second_missed("!changed && owned")),
    ("a miss that stores the same leaves the other copies", *COPIES_LEFT, *SECOND_COPIES_LEFT),
    ("the lower half tells a change",
     CLEAN, clean("is_e(state) & ((uint32_t)word == (uint32_t)before)"),
     SECOND_CLEAN, second_clean("own->status.letter == 'E' && (uint32_t)merged == (uint32_t)own->word")),
    ("all bytes but the highest tell a change",
     CLEAN, clean("is_e(state) & (word << 8 == before << 8)"),
     SECOND_CLEAN, second_clean("own->status.letter == 'E' && merged << 8 == own->word << 8")),
    ("the operand is compared with the word after",
     CLEAN, clean("is_e(state) & (w->operand == word)"),
     SECOND_CLEAN, second_clean("own->status.letter == 'E' && order.operand == merged")),
    ("a swap that changes E leaves it E",
     CLEAN, clean("is_e(state) & ((word == before) | (w->kind == SWAP))"),
     SECOND_CLEAN, second_clean("own->status.letter == 'E' && (!changed || order.kind == SECOND_SWAP)")),
    ("a swap that puts back what it finds has failed",
     "    w->swapped = half == w->compare;",
     "    w->swapped = half == w->compare && merge(word, w->operand, w->mask) != word;",
     "    answer->swapped = second_swap_succeeds(order, word) ? 1 : 0;",
     "    answer->swapped = second_swap_succeeds(order, word) && "
     "second_merge_changes(word, order.operand, order.mask);"),
    ("a failed swap that would store the same turns M into E",
     NOT_WRITTEN, "    {\n" + NOT_WRITTEN + "        if (w->kind == SWAP && w->mode && state == MODIFIED && "
     "merge(word, w->operand, w->mask) == word)\n            w->states[entry] = BACK_E;\n    }\n",
     SECOND_NOT_WRITTEN,
     "        read_hit(model, holding, own, order.mode, answer);\n"
     "    if (order.kind == SECOND_SWAP && !answer->swapped && order.mode == SECOND_BACK && own->status.letter == 'M' &&\n"
     "        !second_merge_changes(own->word, order.operand, order.mask))\n        become(own, 'E', SECOND_BACK);\n"
     "    put_holders_back"),
    # Ranges: a device read in the device range tells, which is always under mark 0.
    ("the device range runs write back",
     FORCE, force("scratch | device | w->mode"),
     SECOND_DEVICE_NEXT, SECOND_DEVICE_NEXT.replace("SECOND_THROUGH", "SECOND_BACK")),
    ("the device range does nothing", FORCE, force("scratch | w->mode"), SECOND_DEVICE_NEXT, ""),
    ("the ranges do nothing", IN_FORCE, "", SECOND_IN_FORCE, ""),
    ("the ranges change places",
     FORCE, force("device | (w->mode & !scratch)"),
     SECOND_SCRATCH_FIRST + SECOND_DEVICE_NEXT,
     SECOND_DEVICE_NEXT.replace("SECOND_THROUGH", "SECOND_BACK") + SECOND_SCRATCH_FIRST.replace("SECOND_BACK", "SECOND_THROUGH")),
    ("elsewhere every order runs write back",
     FORCE, force("scratch | !device"), SECOND_ELSEWHERE, SECOND_ELSEWHERE.replace("order.mode;", "SECOND_BACK;")),
    ("a range is one line too short",
     HAS_LINE, has_line("line - first + 1 < count"), SECOND_HAS_LINE, SECOND_HAS_LINE.replace("first < range", "first + 1 < range")),
    ("a range lacks its first line",
     HAS_LINE, has_line("line != first && line - first < count"), SECOND_HAS_LINE, SECOND_HAS_LINE.replace(">=", ">")),
    ("a range is its first line",
     HAS_LINE, has_line("count && line == first"),
     SECOND_HAS_LINE, "    return range.count > 0 && line == range.first;\n"),
    ("a count is taken for the end",
     HAS_LINE, has_line("line >= first && line < count"),
     SECOND_HAS_LINE, "    return line >= range.first && line < range.count;\n"),
    ("writes pass the ranges over",
     IN_FORCE, "    if (w->kind != WRITE)\n    " + IN_FORCE,
     SECOND_IN_FORCE, "    if (order.kind != SECOND_WRITE)\n    " + SECOND_IN_FORCE),
    ("swaps pass the ranges over",
     IN_FORCE, "    if (w->kind != SWAP)\n    " + IN_FORCE,
     SECOND_IN_FORCE, "    if (order.kind != SECOND_SWAP)\n    " + SECOND_IN_FORCE),
    ("hits pass the ranges over",
     IN_FORCE, "    if (!(w->holders >> w->port & 1))\n    " + IN_FORCE,
     SECOND_IN_FORCE, "    if (own == NULL)\n    " + SECOND_IN_FORCE),
    ("misses pass the ranges over",
     IN_FORCE, "    if (w->holders >> w->port & 1)\n    " + IN_FORCE,
     SECOND_IN_FORCE, "    if (own != NULL)\n    " + SECOND_IN_FORCE),
    # Ports read the right word then, and the audit says yes: what tells is a device read under mark 0.
    ("a device write gives an owner and its sharers the word, and memory nothing",
     "    store_line(w, w->line, merge(fetch(w), w->operand, w->mask));\n",
     "    uint64_t word = merge(fetch(w), w->operand, w->mask);\n\n"
     "    for (unsigned p = 0; p < w->ports && w->owners; p++)\n        if (w->holders >> p & 1)\n"
     "            store64(w->data + 8 * entry_of(w, p), word);\n"
     "    if (w->owners)\n        return;\n    store_line(w, w->line, word);\n",
     "    store(model, order.line, second_merge(word, order.operand, order.mask), answer);\n",
     "    for (unsigned k = 0; k < holding->count && owner != NULL; k++)\n"
     "        holding->holders[k].word = second_merge(word, order.operand, order.mask);\n"
     "    put_holders_back(model, holding);\n    if (owner != NULL)\n        return;\n"
     "    store(model, order.line, second_merge(word, order.operand, order.mask), answer);\n"),
    ("a device write gives the word before",
     "    store_line(w, w->line, merge(fetch(w), w->operand, w->mask));\n",
     "    w->value = fetch(w);\n    store_line(w, w->line, merge(fetch(w), w->operand, w->mask));\n",
     "    store(model, order.line, second_merge(word, order.operand, order.mask), answer);\n",
     "    answer->value = word;\n    store(model, order.line, second_merge(word, order.operand, order.mask), answer);\n"),
    ("a device write is still refused",
     "    if (w->kind > DEVICE_WRITE)\n        return 4;",
     "    if (w->kind > DEVICE_READ)\n        return 4;",
     "    struct second_answer answer = {second_order_refusal(model->shape, order), 0, 0, 0, 0};\n",
     "    struct second_answer answer = {order.kind == 5 ? 4 : second_order_refusal(model->shape, order), 0, 0, 0, 0};\n"),
    ("a device write is refused for its port",
     "    if (w->kind < DEVICE_READ && w->port >= w->ports)",
     "    if (w->kind != DEVICE_READ && w->port >= w->ports)",
     "    struct second_answer answer = {second_order_refusal(model->shape, order), 0, 0, 0, 0};\n",
     "    struct second_answer answer = {order.kind == 5 && order.port >= model->shape.ports ? 5 : "
     "second_order_refusal(model->shape, order), 0, 0, 0, 0};\n"),
    ("the mask of a device write is refused",
     "    if (w->kind == SWAP && w->mask",
     "    if ((w->kind == SWAP || w->kind == DEVICE_WRITE) && w->mask",
     "    if (order.kind == SECOND_DEVICE_READ) {",
     "    if (order.kind == SECOND_DEVICE_WRITE && order.mask != 0x0F && order.mask != 0xF0) {\n"
     "        answer.refusal = 7;\n        return answer;\n    }\n    if (order.kind == SECOND_DEVICE_READ) {"),
    # Swap misses that fail, and some that do too much.
    *TOLD,
]

# The same slip in both models where the flat memory and the audit can't tell: the device writes worked out by hand can.
LISTED = [
    ("a device write merges the highest-numbered owner's word",
     "    store_line(w, w->line, merge(fetch(w), w->operand, w->mask));\n",
     "    if (w->owners)\n        w->owners = 1u << (31 - __builtin_clz(w->owners));\n"
     "    store_line(w, w->line, merge(fetch(w), w->operand, w->mask));\n",
     "        word = owner->word;\n    } else {",
     "        for (unsigned k = 0; k < holding->count; k++)\n            if (owns(&holding->holders[k]))\n"
     "                word = holding->holders[k].word;\n    } else {"),
    ("a device write merges a clean holder's word",
     "    store_line(w, w->line, merge(fetch(w), w->operand, w->mask));\n",
     "    w->reads = !w->owners;\n    w->owners = w->owners ? w->owners : w->holders;\n"
     "    store_line(w, w->line, merge(fetch(w), w->operand, w->mask));\n",
     "        word = model->memory[order.line];\n        answer->reads++;",
     "        word = holding->count > 0 ? holding->holders[0].word : model->memory[order.line];\n        answer->reads++;"),
    ("a device write stores the owner's word first",
     "    store_line(w, w->line, merge(fetch(w), w->operand, w->mask));\n",
     "    if (w->owners)\n        store_line(w, w->line, fetch(w));\n"
     "    store_line(w, w->line, merge(fetch(w), w->operand, w->mask));\n",
     "        word = owner->word;\n    } else {",
     "        word = owner->word;\n        store(model, order.line, word, answer);\n    } else {"),
    ("a device write under mask 0 stores nothing where nobody owns the line",
     "    store_line(w, w->line, merge(fetch(w), w->operand, w->mask));\n",
     "    uint64_t word = fetch(w);\n\n    if (w->mask || w->owners)\n"
     "        store_line(w, w->line, merge(word, w->operand, w->mask));\n",
     "    store(model, order.line, second_merge(word, order.operand, order.mask), answer);\n",
     "    if (order.mask != 0 || owner != NULL)\n"
     "        store(model, order.line, second_merge(word, order.operand, order.mask), answer);\n"),
    ("a device write counts no memory read",
     "merge(fetch(w), w->operand, w->mask));\n",
     "merge(fetch(w), w->operand, w->mask));\n    w->reads = 0;\n",
     "        word = model->memory[order.line];\n        answer->reads++;",
     "        word = model->memory[order.line];"),
    ("a device write of all bytes counts no memory read",
     "merge(fetch(w), w->operand, w->mask));\n",
     "merge(fetch(w), w->operand, w->mask));\n    if (w->mask == 0xFF)\n        w->reads = 0;\n",
     "        word = model->memory[order.line];\n        answer->reads++;",
     "        word = model->memory[order.line];\n        answer->reads += order.mask != 0xFF;"),
    ("a device write under mask 0 counts no memory read",
     "merge(fetch(w), w->operand, w->mask));\n",
     "merge(fetch(w), w->operand, w->mask));\n    if (!w->mask)\n        w->reads = 0;\n",
     "        word = model->memory[order.line];\n        answer->reads++;",
     "        word = model->memory[order.line];\n        answer->reads += order.mask != 0;"),
    ("a device write counts an owner's word as a memory read",
     "merge(fetch(w), w->operand, w->mask));\n",
     "merge(fetch(w), w->operand, w->mask));\n    w->reads = 1;\n",
     "        word = owner->word;\n    } else {",
     "        word = owner->word;\n        answer->reads++;\n    } else {"),
    ("a device write's store is not counted",
     "merge(fetch(w), w->operand, w->mask));\n",
     "merge(fetch(w), w->operand, w->mask));\n    w->writes = 0;\n",
     "    all_become_invalid(holding);\n",
     "    answer->writes = 0;\n    all_become_invalid(holding);\n"),
    ("a device write hands the word on, and leaves the copies in S",
     "merge(fetch(w), w->operand, w->mask));\n    set_all(w, w->holders, INVALID);",
     "merge(fetch(w), w->operand, w->mask));\n    set_all(w, w->holders, THROUGH_S);\n"
     "    for (unsigned p = 0; p < w->ports; p++)\n        if (w->holders >> p & 1)\n"
     "            store64(w->data + 8 * entry_of(w, p), load64(w->memory + 8 * (size_t)w->line));",
     "    all_become_invalid(holding);\n",
     "    for (unsigned k = 0; k < holding->count; k++) {\n        holding->holders[k].word = model->memory[order.line];\n"
     "        become(&holding->holders[k], 'S', SECOND_THROUGH);\n    }\n"),
    ("a device write clears the data of the copies",
     "merge(fetch(w), w->operand, w->mask));\n",
     "merge(fetch(w), w->operand, w->mask));\n    for (unsigned p = 0; p < w->ports; p++)\n"
     "        if (w->holders >> p & 1)\n            store64(w->data + 8 * entry_of(w, p), 0);\n",
     "    all_become_invalid(holding);\n",
     "    for (unsigned k = 0; k < holding->count; k++)\n"
     "        model->data[entry_of(model, holding->holders[k].port, order.line)] = 0;\n    all_become_invalid(holding);\n"),
    ("a device write clears the tags of the copies",
     "merge(fetch(w), w->operand, w->mask));\n",
     "merge(fetch(w), w->operand, w->mask));\n    for (unsigned p = 0; p < w->ports; p++)\n"
     "        if (w->holders >> p & 1)\n            store32(w->tags + 4 * entry_of(w, p), 0);\n",
     "    all_become_invalid(holding);\n",
     "    for (unsigned k = 0; k < holding->count; k++)\n"
     "        model->tags[entry_of(model, holding->holders[k].port, order.line)] = 0;\n    all_become_invalid(holding);\n"),
    ("a device write is refused for bad entries with the line's tag only",
     "            return 8;\n        if (tag == w->tag) {",
     "        {\n            if (w->kind != DEVICE_WRITE || tag == w->tag)\n                return 8;\n            continue;\n        }\n"
     "        if (tag == w->tag) {",
     "    if (!index_is_sound(model, order.line)) {",
     "    for (unsigned port = 0; port < model->shape.ports && order.kind == SECOND_DEVICE_WRITE; port++) {\n"
     "        unsigned entry = entry_of(model, port, order.line);\n\n"
     "        if (model->tags[entry] == tag_of(model, order.line) && !entry_is_sound(model, entry))\n"
     "            answer.refusal = 8;\n    }\n"
     "    if (answer.refusal != 0)\n        return answer;\n"
     "    if (order.kind != SECOND_DEVICE_WRITE && !index_is_sound(model, order.line)) {"),
    ("a bad entry is refused before a device write's line",
     "    if ((refusal = take_apart(&w, word)))\n        return refuse(answer, refusal);",
     "    if ((refusal = take_apart(&w, word))) {\n        if (refusal == 6 && w.kind == DEVICE_WRITE && walk_ports(&w))\n"
     "            refusal = 8;\n        return refuse(answer, refusal);\n    }",
     "    if (answer.refusal != 0)\n        return answer;\n",
     "    if (answer.refusal == 6 && order.kind == SECOND_DEVICE_WRITE && !index_is_sound(model, order.line))\n"
     "        answer.refusal = 8;\n    if (answer.refusal != 0)\n        return answer;\n"),
]

# The same slip in both models where the flat memory and the audit can't tell: the stores worked out by hand can.
SAME = [
    ("a store of the same is a read", *SAME_IS_READ, *SECOND_SAME_IS_READ),
    ("a store of the same on E ends in M", CLEAN, clean("0"), SECOND_CLEAN, second_clean("0")),
    ("a store of the same on write-through E ends in M",
     CLEAN, clean("(state == BACK_E) & (word == before)"),
     SECOND_CLEAN, second_clean("own->status.letter == 'E' && own->status.mode == SECOND_BACK && !changed")),
    ("a store of the same on write-back E ends in M",
     CLEAN, clean("(state == THROUGH_E) & (word == before)"),
     SECOND_CLEAN, second_clean("own->status.letter == 'E' && own->status.mode == SECOND_THROUGH && !changed")),
    ("a store of the same on write-through E leaves write-through E",
     WRITTEN, WRITTEN.replace("w->mode ? written_back(clean) : THROUGH_E", "!w->mode ? THROUGH_E : clean ? state : MODIFIED"),
     SECOND_CLEAN, SECOND_CLEAN + "        return;\n"),
    ("a store of the same on a lone S becomes E",
     CLEAN, clean("(is_e(state) | (state == BACK_S) | (state == THROUGH_S)) & (word == before)"),
     SECOND_CLEAN,
     second_clean("(own->status.letter == 'E' || (own->status.letter == 'S' && holding->count == 1)) && !changed")),
    ("a store of the same on a shared S leaves S and tells nobody",
     SHARED, "    if (w->mode && state == BACK_S && word == before)\n        return;\n" + SHARED,
     SECOND_SHARED,
     "    if (order.mode == SECOND_BACK && own->status.letter == 'S' && own->status.mode == SECOND_BACK && !changed &&\n"
     "        holding->count > 1)\n        return;\n" + SECOND_SHARED),
    ("a store of the same on a shared O tells nobody",
     SHARED, "    if (w->mode && state == OWNED && word == before)\n        return;\n" + SHARED,
     SECOND_SHARED,
     "    if (order.mode == SECOND_BACK && own->status.letter == 'O' && !changed && holding->count > 1)\n"
     "        return;\n" + SECOND_SHARED),
    ("a store of the same on E stores its word",
     "    if (!w->mode)\n        store_line(w, w->line, word);\n" + ALONE,
     "    if (!w->mode || clean)\n        store_line(w, w->line, word);\n" + ALONE,
     SECOND_CLEAN, SECOND_CLEAN + "        store(model, holding->line, merged, answer);\n"),
    ("a store of the same on E takes other copies away",
     ALONE, "    if (clean && w->mode)\n        set_all(w, others, INVALID);\n" + ALONE,
     SECOND_CLEAN, SECOND_CLEAN + "        all_become_invalid(holding);\n"),
    ("a write through of the same on E leaves write-back E",
     WRITTEN, WRITTEN.replace("w->mode ?", "w->mode | clean ?"),
     SECOND_CLEAN, SECOND_CLEAN.replace(" && order.mode == SECOND_BACK", "")),
    ("a write through of the same on E stores nothing",
     "    if (!w->mode)\n        store_line(w, w->line, word);\n" + ALONE,
     "    if (!w->mode && !clean)\n        store_line(w, w->line, word);\n" + ALONE,
     "    if (order.mode == SECOND_THROUGH)\n        store(model, holding->line, merged, answer);\n",
     "    if (order.mode == SECOND_THROUGH && !(own->status.letter == 'E' && !changed))\n"
     "        store(model, holding->line, merged, answer);\n"),
    ("a miss that stores what memory has leaves E",
     MISSED, missed("word == found && !w->owners"), SECOND_MISSED, second_missed("!changed && !owned")),
    ("the word after is compared with memory's",
     CLEAN, clean("is_e(state) & (word == load64(w->memory + 8 * (size_t)w->line))"),
     SECOND_CLEAN, second_clean("own->status.letter == 'E' && merged == model->memory[holding->line]")),
    ("only a mask of no bytes stores the same",
     CLEAN, clean("is_e(state) & !w->mask"),
     SECOND_CLEAN, second_clean("own->status.letter == 'E' && order.mask == 0")),
    ("a mask of no bytes is taken for a change",
     CLEAN, clean("is_e(state) & (word == before) & !!w->mask"),
     SECOND_CLEAN, second_clean("own->status.letter == 'E' && !changed && order.mask != 0")),
    ("a mask of all bytes is taken for a change",
     CLEAN, clean("is_e(state) & (word == before) & (w->mask != 0xFF)"),
     SECOND_CLEAN, second_clean("own->status.letter == 'E' && !changed && order.mask != 0xFF")),
    ("the operand is compared with the word before",
     CLEAN, clean("is_e(state) & (w->operand == before)"),
     SECOND_CLEAN, second_clean("own->status.letter == 'E' && order.operand == own->word")),
    ("a swap that stores the same ends in M",
     CLEAN, clean("is_e(state) & (word == before) & (w->kind == WRITE)"),
     SECOND_CLEAN, second_clean("own->status.letter == 'E' && !changed && order.kind == SECOND_WRITE")),
    ("a write that stores the same ends in M",
     CLEAN, clean("is_e(state) & (word == before) & (w->kind == SWAP)"),
     SECOND_CLEAN, second_clean("own->status.letter == 'E' && !changed && order.kind == SECOND_SWAP")),
    ("a failed swap that would change E ends in M",
     NOT_WRITTEN, "    {\n" + NOT_WRITTEN + "        if (w->kind == SWAP && w->mode && is_e(state) && "
     "merge(word, w->operand, w->mask) != word)\n            w->states[entry] = MODIFIED;\n    }\n",
     SECOND_NOT_WRITTEN,
     "        read_hit(model, holding, own, order.mode, answer);\n"
     "    if (order.kind == SECOND_SWAP && !answer->swapped && order.mode == SECOND_BACK && own->status.letter == 'E' &&\n"
     "        second_merge_changes(own->word, order.operand, order.mask))\n        become(own, 'M', SECOND_BACK);\n"
     "    put_holders_back"),
    ("a device write of the same leaves the copies",
     "    store_line(w, w->line, merge(fetch(w), w->operand, w->mask));\n    set_all",
     "    uint64_t found = fetch(w);\n\n    store_line(w, w->line, merge(found, w->operand, w->mask));\n"
     "    if (merge(found, w->operand, w->mask) != found)\n        set_all",
     "    all_become_invalid(holding);\n",
     "    if (second_merge_changes(word, order.operand, order.mask))\n        all_become_invalid(holding);\n"),
    ("a swap miss that succeeds hands its word on", *HANDED_ON, *SECOND_HANDED_ON),
]

# The same slip of ranges in both models where the flat memory and the audit can't tell, or are refused too: the orders and
# the refusals worked out by hand can.
SECOND_TOO_HIGH = "        if (decode_word(record + 8 * place) > UINT64_C(18446744073709551613))\n"
SECOND_FLUSHED = "    if (owns(own))\n        store(model, holding->line, own->word, answer);\n"


def ranged_later(condition, second_condition):
    """Refusal 12 only under a condition on the order, in both models; an order that fails it is looked at further."""
    return (STEP_RANGES, twelve_if(condition),
            [SECOND_RANGES, SECOND_RECORD, SECOND_REFUSED],
            [SECOND_RANGES.replace("refusal != 0", "refusal != 0 || result == SECOND_ANSWER_BYTES"),
             SECOND_RECORD.replace("second_ranges_refusal(shape)", "0"),
             f"    if ({second_condition} && second_ranges_refusal(model->shape) != 0)\n        answer.refusal = 12;\n"
             + SECOND_REFUSED])


RANGED = [
    # The mode in force.
    ("the device range is looked up first",
     FORCE, force("!device & (scratch | w->mode)"),
     SECOND_SCRATCH_FIRST + SECOND_DEVICE_NEXT, SECOND_DEVICE_NEXT + SECOND_SCRATCH_FIRST),
    ("scratch runs write through",
     FORCE, force("!scratch & w->mode & !device"),
     SECOND_SCRATCH_FIRST, SECOND_SCRATCH_FIRST.replace("SECOND_BACK", "SECOND_THROUGH")),
    ("the scratch range does nothing", FORCE, force("w->mode & !device"), SECOND_SCRATCH_FIRST, ""),
    ("what is in both ranges runs as ordered",
     FORCE, force("scratch == device ? w->mode : scratch"),
     SECOND_SCRATCH_FIRST,
     "    if (second_has_line(shape.scratch, order.line) && second_has_line(shape.device, order.line))\n"
     "        return order.mode;\n" + SECOND_SCRATCH_FIRST),
    ("elsewhere every order runs write through",
     FORCE, force("scratch"), SECOND_ELSEWHERE, SECOND_ELSEWHERE.replace("order.mode;", "SECOND_THROUGH;")),
    ("scratch is one line too long",
     SCRATCH_FOUND, SCRATCH_FOUND.replace("w->scratch_count", "w->scratch_count + !!w->scratch_count"),
     SECOND_SCRATCH_FIRST, "    shape.scratch.count += shape.scratch.count > 0;\n" + SECOND_SCRATCH_FIRST),
    ("scratch is one line too short",
     SCRATCH_FOUND, SCRATCH_FOUND.replace("w->scratch_count", "w->scratch_count - !!w->scratch_count"),
     SECOND_SCRATCH_FIRST, "    shape.scratch.count -= shape.scratch.count > 0;\n" + SECOND_SCRATCH_FIRST),
    ("scratch lacks its first line",
     SCRATCH_FOUND, SCRATCH_FOUND.replace("has_line", "w->line != w->scratch_first && has_line"),
     SECOND_SCRATCH_FIRST, SECOND_SCRATCH_FIRST.replace("(second_has_line", "(order.line != shape.scratch.first && second_has_line")),
    ("the device range is one line too long",
     DEVICE_FOUND, DEVICE_FOUND.replace("w->device_count", "w->device_count + !!w->device_count"),
     SECOND_DEVICE_NEXT, "    shape.device.count += shape.device.count > 0;\n" + SECOND_DEVICE_NEXT),
    ("the device range has the line before it",
     DEVICE_FOUND, DEVICE_FOUND.replace("has_line", "(w->device_count && w->line + 1 == w->device_first) || has_line"),
     SECOND_DEVICE_NEXT,
     SECOND_DEVICE_NEXT.replace("(second_has_line",
                                "((shape.device.count > 0 && order.line + 1 == shape.device.first) || second_has_line")),
    ("a range lies one line later",
     HAS_LINE, has_line("line - first - 1 < count"), SECOND_HAS_LINE, "    return line - range.first - 1 < range.count;\n"),
    ("a range goes up to the last line",
     HAS_LINE, has_line("count && line >= first"),
     SECOND_HAS_LINE, "    return range.count > 0 && line >= range.first;\n"),
    ("a range starts at line 0",
     HAS_LINE, has_line("count && line < first + count"),
     SECOND_HAS_LINE, "    return range.count > 0 && line < range.first + range.count;\n"),
    ("an empty range has its first line",
     HAS_LINE, has_line("line - first < count + !count"),
     SECOND_HAS_LINE, SECOND_HAS_LINE.replace("range.count;", "range.count + (range.count == 0);")),
    ("reads pass the ranges over",
     IN_FORCE, "    if (w->kind != READ)\n    " + IN_FORCE,
     SECOND_IN_FORCE, "    if (order.kind != SECOND_READ)\n    " + SECOND_IN_FORCE),
    ("a flush in scratch stores nothing",
     FLUSHED, FLUSHED.replace("entry]))", f"entry]) && !{IN_SCRATCH})"),
     SECOND_FLUSHED, SECOND_FLUSHED.replace("own))", "own) && !second_has_line(model->shape.scratch, holding->line))")),
    ("a flush in the device range stores a clean word",
     FLUSHED, FLUSHED.replace("entry]))", f"entry]) || {IN_DEVICE})"),
     SECOND_FLUSHED, SECOND_FLUSHED.replace("own))", "own) || second_has_line(model->shape.device, holding->line))")),
    ("a device write in the device range leaves S, and its word",
     "merge(fetch(w), w->operand, w->mask));\n    set_all(w, w->holders, INVALID);",
     f"merge(fetch(w), w->operand, w->mask));\n    set_all(w, w->holders, {IN_DEVICE} ? THROUGH_S : INVALID);\n"
     f"    for (unsigned p = 0; p < w->ports && {IN_DEVICE}; p++)\n        if (w->holders >> p & 1)\n"
     "            store64(w->data + 8 * entry_of(w, p), load64(w->memory + 8 * (size_t)w->line));",
     "    all_become_invalid(holding);\n    put_holders_back(model, holding);\n}\n\n/* The three calls. */",
     "    for (unsigned k = 0; k < holding->count; k++) {\n        holding->holders[k].word = model->memory[order.line];\n"
     "        become(&holding->holders[k], second_has_line(model->shape.device, order.line) ? 'S' : 'I', SECOND_THROUGH);\n"
     "    }\n    put_holders_back(model, holding);\n}\n\n/* The three calls. */"),
    # Which ranges end beyond lines.
    ("12 is never given", EITHER_BEYOND, "    return 0;\n", SECOND_EITHER_BEYOND, "    return 0;\n"),
    ("scratch alone is checked",
     EITHER_BEYOND, EITHER_BEYOND.replace(" || ends_beyond(device_first, device_count, lines)", ""),
     SECOND_EITHER_BEYOND, SECOND_EITHER_BEYOND.replace(" || ends_beyond(shape.device, shape.lines)", "")),
    ("the device range alone is checked",
     EITHER_BEYOND, EITHER_BEYOND.replace("ends_beyond(scratch_first, scratch_count, lines) || ", ""),
     SECOND_EITHER_BEYOND, SECOND_EITHER_BEYOND.replace("ends_beyond(shape.scratch, shape.lines) || ", "")),
    ("12 is given if both ranges end beyond lines",
     EITHER_BEYOND, EITHER_BEYOND.replace("||", "&&"), SECOND_EITHER_BEYOND, SECOND_EITHER_BEYOND.replace("||", "&&")),
    ("12 has another number",
     EITHER_BEYOND, EITHER_BEYOND.replace("12", "3"), SECOND_EITHER_BEYOND, SECOND_EITHER_BEYOND.replace("12", "3")),
    ("the sum wraps",
     ENDS_BEYOND, ends_beyond("count > 0 && first + count > lines"),
     SECOND_ENDS_BEYOND, "    return range.first + range.count > lines;\n"),
    ("an empty range beyond lines is refused",
     ENDS_BEYOND, ends_beyond("first > lines || count > lines - first"), SECOND_EMPTY + SECOND_ENDS_BEYOND, SECOND_ENDS_BEYOND),
    ("a range may end one line beyond",
     ENDS_BEYOND, ends_beyond("count > 0 && (first > lines || count - 1 > lines - first)"),
     SECOND_ENDS_BEYOND, SECOND_ENDS_BEYOND.replace("|| range.count >", "|| range.count - 1 >")),
    ("a range up to the last line is refused",
     ENDS_BEYOND, ends_beyond("count > 0 && (first > lines || count >= lines - first)"),
     SECOND_ENDS_BEYOND, SECOND_ENDS_BEYOND.replace("|| range.count >", "|| range.count >=")),
    ("the first line alone is checked",
     ENDS_BEYOND, ends_beyond("count > 0 && first >= lines"),
     SECOND_ENDS_BEYOND, "    return range.first >= lines;\n"),
    ("the count alone is checked",
     ENDS_BEYOND, ends_beyond("count > lines"), SECOND_ENDS_BEYOND, "    return range.count > lines;\n"),
    ("the numbers of a range are cut to 32 bits",
     ENDS_BEYOND, ends_beyond("(uint32_t)count > 0 && ((uint32_t)first > lines || (uint32_t)count > lines - (uint32_t)first)"),
     SECOND_EMPTY, "    range.first = (uint32_t)range.first;\n    range.count = (uint32_t)range.count;\n" + SECOND_EMPTY),
    ("a range ends beyond 4,096 lines",
     ENDS_BEYOND, ends_beyond("count > 0 && (first > 4096 || count > 4096 - first)"),
     SECOND_EMPTY, SECOND_EMPTY + "    lines = 4096;\n"),
    # Who gives 12, and when.
    ("fresh and the audit give no 12",
     "uint64_t walking_fresh(", "#define check_ranges(...) 0\nuint64_t walking_fresh(",
     SECOND_RANGES, SECOND_RANGES.replace("refusal != 0", "refusal != 0 || result == SECOND_VERDICT_BYTES")),
    ("12 is given before 2",
     ANSWER_LENGTH, f"    if (refusal == 2 && {CHECK_RANGES})\n        refusal = 12;\n" + ANSWER_LENGTH,
     [SECOND_RANGES, "    refusal = second_sizes_refusal(shape, lengths, SECOND_ANSWER_BYTES);\n"],
     ["    if (result == SECOND_ANSWER_BYTES && refusal == 2 && second_ranges_refusal(shape) != 0)\n        return 12;\n"
      + SECOND_RANGES,
      "    refusal = second_sizes_refusal(shape, lengths, SECOND_ANSWER_BYTES);\n"
      "    if (refusal == 2 && record_len == SECOND_RECORD_BYTES && second_ranges_refusal(shape) != 0)\n        return 12;\n"]),
    ("12 is given before 3 of memory and the tables",
     ANSWER_LENGTH, f"    if (refusal == 3 && {CHECK_RANGES})\n        refusal = 12;\n" + ANSWER_LENGTH,
     [SECOND_RANGES, "    refusal = second_sizes_refusal(shape, lengths, SECOND_ANSWER_BYTES);\n"],
     ["    if (result == SECOND_ANSWER_BYTES && refusal == 3 && lengths.result == result && second_ranges_refusal(shape) != 0)\n"
      "        return 12;\n" + SECOND_RANGES,
      "    refusal = second_sizes_refusal(shape, lengths, SECOND_ANSWER_BYTES);\n"
      "    if (refusal == 3 && record_len == SECOND_RECORD_BYTES && lengths.result == 40 && second_ranges_refusal(shape) != 0)\n"
      "        return 12;\n"]),
    ("12 is given before 3 of the record",
     "        refusal = refusal == 2 ? 2 : 3;\n",
     f"        refusal = refusal ? refusal : answer_len != ANSWER_BYTES ? 3 : {CHECK_RANGES} ? 12 : 3;\n",
     SECOND_RECORD, SECOND_RECORD.replace("record_len == SECOND_RECORD_BYTES ?",
                                          "record_len == SECOND_RECORD_BYTES || second_ranges_refusal(shape) != 0 ?")),
    ("12 is given after 4", *ranged_later("(word & 7) <= DEVICE_WRITE", "order.kind < SECOND_KINDS")),
    ("12 is given after 5", *ranged_later("((word & 7) >= DEVICE_READ || (word >> 4 & 15) < ports)",
                                          "(order.kind >= SECOND_DEVICE_READ || order.port < model->shape.ports)")),
    ("12 is given after 6", *ranged_later("(word >> 16 & 65535) < lines", "order.line < model->shape.lines")),
    ("12 is given after 7",
     *ranged_later("((word & 7) != SWAP || (word >> 8 & 255) == 0x0F || (word >> 8 & 255) == 0xF0)",
                   "(order.kind != SECOND_SWAP || order.mask == 0x0F || order.mask == 0xF0)")),
    ("a device read is not refused 12",
     *ranged_later("(word & 7) != DEVICE_READ", "order.kind != SECOND_DEVICE_READ")),
    ("12 is given to accesses alone", *ranged_later("(word & 7) <= SWAP", "order.kind <= SECOND_SWAP")),
    ("9 is given after 12",
     FULL, unless(f"({SLICES} || answer_len != ANSWER_BYTES || !{CHECK_RANGES})"),
     SECOND_TOO_HIGH, SECOND_TOO_HIGH.replace(
         "613))", "613) && second_call_refusal(shape, lengths, SECOND_ANSWER_BYTES) != 12)")),
    ("12 is not counted",
     REFUSED, "        if (refusal != 12)\n    " + REFUSED,
     "return answer.refusal != 0;\n    case SECOND_TOTAL_READS",
     "return answer.refusal != 0 && answer.refusal != 12;\n    case SECOND_TOTAL_READS"),
]

# Of the flat memory and its ranges: the marks after orders worked out by hand catch these.
FLAT_FOUND = "    order.mode = mode_found(flat->shape, order);\n"
FLAT_SCRATCH = ("    if (shape.scratch.count > 0 && order.line >= shape.scratch.first && order.line < scratch_end)\n"
                "        return SECOND_BACK;\n")
FLAT_DEVICE = ("    if (shape.device.count > 0 && order.line >= shape.device.first && order.line < device_end)\n"
               "        return SECOND_THROUGH;\n")
MARKS = [
    ("the mode is the order's", FLAT_FOUND, ""),
    ("the device range is looked up first", FLAT_SCRATCH + FLAT_DEVICE, FLAT_DEVICE + FLAT_SCRATCH),
    ("the scratch range does nothing", FLAT_SCRATCH, ""),
    ("the device range does nothing", FLAT_DEVICE, ""),
    ("scratch runs write through", FLAT_SCRATCH, FLAT_SCRATCH.replace("SECOND_BACK", "SECOND_THROUGH")),
    ("the device range runs write back", FLAT_DEVICE, FLAT_DEVICE.replace("SECOND_THROUGH", "SECOND_BACK")),
    ("scratch is one line too short", FLAT_SCRATCH, FLAT_SCRATCH.replace("< scratch_end", "+ 1 < scratch_end")),
    ("scratch lacks its first line", FLAT_SCRATCH, FLAT_SCRATCH.replace(">= shape", "> shape")),
    ("scratch has the line before it", FLAT_SCRATCH, FLAT_SCRATCH.replace("order.line >=", "order.line + 1 >=")),
    ("scratch is one line too long", FLAT_SCRATCH, FLAT_SCRATCH.replace("< scratch_end", "<= scratch_end")),
    ("the device range is one line too short", FLAT_DEVICE, FLAT_DEVICE.replace("< device_end", "+ 1 < device_end")),
    ("the device range is one line too long", FLAT_DEVICE, FLAT_DEVICE.replace("< device_end", "<= device_end")),
    ("reads pass the ranges over", FLAT_FOUND, "    if (order.kind != SECOND_READ)\n    " + FLAT_FOUND),
    ("writes pass the ranges over", FLAT_FOUND, "    if (order.kind != SECOND_WRITE)\n    " + FLAT_FOUND),
    ("swaps pass the ranges over", FLAT_FOUND, "    if (order.kind != SECOND_SWAP)\n    " + FLAT_FOUND),
    ("a flush in scratch clears the mark", FLAT_FOUND,
     FLAT_FOUND + "    if (order.kind == SECOND_FLUSH && order.mode == SECOND_BACK)\n        flat->marks[order.line] = 0;\n"),
    ("a device write in scratch sets the mark", FLAT_FOUND,
     "    if (order.kind == SECOND_DEVICE_WRITE && mode_found(flat->shape, order) == SECOND_BACK) {\n"
     "        flat_write(flat, (order.mode = SECOND_BACK, order));\n        return answer;\n    }\n" + FLAT_FOUND),
]

# Of the flat memory. The marks after stores worked out by hand catch these: what a device reads can't show them all.
FLAT_MERGED = ("    flat->words[order.line] = second_merge(flat->words[order.line], order.operand, order.mask);\n"
               "    flat->marks[order.line] = order.mode")
FLAT_CHANGED = "second_merge_changes(flat->words[order.line], order.operand, order.mask)"
FLAT = [
    ("a store of the same leaves the mark",
     FLAT_MERGED, f"    if (!{FLAT_CHANGED})\n        return;\n" + FLAT_MERGED),
    ("a store of the same in write back leaves the mark",
     FLAT_MERGED, f"    if (order.mode == SECOND_BACK && !{FLAT_CHANGED})\n        return;\n" + FLAT_MERGED),
    ("a store of the same in write through leaves the mark",
     FLAT_MERGED, f"    if (order.mode == SECOND_THROUGH && !{FLAT_CHANGED})\n        return;\n" + FLAT_MERGED),
    ("a store of the same clears the mark",
     FLAT_MERGED, f"    if (!{FLAT_CHANGED}) {{\n        flat->marks[order.line] = 0;\n        return;\n    }}\n"
     + FLAT_MERGED),
    ("a write of no bytes leaves the mark",
     FLAT_MERGED, "    if (order.mask == 0)\n        return;\n" + FLAT_MERGED),
    ("a swap that stores the same leaves the mark",
     "    answer->swapped = 1;\n    flat_write(flat, order);\n",
     f"    answer->swapped = 1;\n    if ({FLAT_CHANGED})\n        flat_write(flat, order);\n"),
    ("a failed swap sets the mark",
     "        flat_read(flat, order, answer);\n        return;\n",
     "        flat_read(flat, order, answer);\n        flat->marks[order.line] = order.mode == SECOND_BACK ? 1 : 0;\n"
     "        return;\n"),
]

# The same slip of totals in both models: the totals worked out by hand can tell.
SECOND_PLACES = "    for (unsigned place = 0; place < SECOND_TOTALS && record_len == SECOND_RECORD_BYTES; place++) {\n"
SECOND_ACCEPTED = "        return answer.refusal == 0 && second_take_apart(word, 0).kind == place;\n"
SECOND_COUNT = "encode_word(decode_word(record + 8 * place) + second_adds(place, word, answer), record + 8 * place);\n"
OTHER_REFUSAL = "second_sizes_refusal(shape, lengths, SECOND_ANSWER_BYTES)"
COUNTED = [
    ("9 is given after 2",
     FULL, unless(f"{SLICES} != 2"),
     SECOND_TOO_HIGH, SECOND_TOO_HIGH.replace("613))", f"613) &&\n            {OTHER_REFUSAL} != 2)")),
    ("9 is given after 3",
     FULL, unless(f"({SLICES} == 2 || (answer_len == ANSWER_BYTES && !{SLICES}))"),
     SECOND_TOO_HIGH, SECOND_TOO_HIGH.replace("613))", f"613) &&\n            {OTHER_REFUSAL} != 3)")),
    ("9 is counted as refused",
     FULL, FULL.replace("record))\n", "record)) {\n        add_to(record, REFUSED, 1);\n") + "    }\n",
     "    if (answer.refusal == 9)\n        return 0;\n", ""),
    ("a total of 2^64 - 2 is let in",
     TOO_HIGH, TOO_HIGH.replace("- 2", "- 1"), SECOND_TOO_HIGH, SECOND_TOO_HIGH.replace("613", "614")),
    ("a total of 2^64 - 3 is refused",
     TOO_HIGH, TOO_HIGH.replace("- 2", "- 3"), SECOND_TOO_HIGH, SECOND_TOO_HIGH.replace("613", "612")),
    *((f"the total of {name} is not looked at",
       TOO_HIGH, TOO_HIGH.replace("(load64", f"(k != {place} && load64", 1),
       SECOND_TOO_HIGH, SECOND_TOO_HIGH.replace("(decode_word", f"(place != {place} && decode_word"))
      for name, place in (("reads by a port", 0), ("device writes", 5), ("refused orders", 6), ("memory reads", 7),
                          ("memory writes", 8), ("swaps that succeeded", 9))),
    ("a longer record may be full",
     ANOTHER_LENGTH, FULL.replace("(is_full", "(record_len > RECORD_BYTES && is_full") + ANOTHER_LENGTH,
     SECOND_PLACES, SECOND_PLACES.replace("record_len ==", "record_len >=")),
    ("a record of 88 bytes is let in, and nothing is counted",
     ANOTHER_LENGTH, "    if (record_len == RECORD_BYTES + 8)\n        return " + STEP + ANOTHER_LENGTH,
     SECOND_RECORD, SECOND_RECORD.replace("SECOND_RECORD_BYTES ?", "SECOND_RECORD_BYTES || record_len == SECOND_RECORD_BYTES + 8 ?")),
    ("no record is let in",
     ANOTHER_LENGTH, "    if (record_len == 0)\n        return " + STEP + ANOTHER_LENGTH,
     SECOND_RECORD, SECOND_RECORD.replace("SECOND_RECORD_BYTES ?", "SECOND_RECORD_BYTES || record_len == 0 ?")),
    ("3 of the record is given before 2",
     "        refusal = refusal == 2 ? 2 : 3;\n", "        refusal = 3;\n",
     f"    refusal = {OTHER_REFUSAL};\n",
     f"    refusal = record_len != SECOND_RECORD_BYTES ? 3 : {OTHER_REFUSAL};\n"),
    ("refusals 2 and 3 are not counted",
     REFUSED, "        if (refusal > 3)\n    " + REFUSED,
     "return answer.refusal != 0;\n    case SECOND_TOTAL_READS",
     "return answer.refusal > 3;\n    case SECOND_TOTAL_READS"),
    ("refused orders are not counted",
     REFUSED, "", "return answer.refusal != 0;\n    case SECOND_TOTAL_READS", "return 0;\n    case SECOND_TOTAL_READS"),
    ("a refused order is counted under its kind too",
     REFUSED, REFUSED + "        if ((word & 7) <= DEVICE_WRITE)\n            add_to(record, word & 7, 1);\n",
     SECOND_ACCEPTED, SECOND_ACCEPTED.replace("answer.refusal == 0 && ", "")),
    ("a failed swap is counted as one that succeeded",
     SWAPS, "    add_to(record, SWAPS, (word & 7) == SWAP);\n",
     "return answer.swapped;\n", "return answer.refusal == 0 && second_take_apart(word, 0).kind == SECOND_SWAP;\n"),
    ("a swap that fails is counted as a read",
     ACCEPTED, "    add_to(record, (word & 7) == SWAP && !load64(answer + 16) ? READ : word & 7, 1);\n",
     SECOND_ACCEPTED, SECOND_ACCEPTED.replace("(word, 0).kind", "((word & 7) == 2 && !answer.swapped ? 0 : word, 0).kind")),
    ("the memory read of a swap that fails is not counted",
     READS, "    if ((word & 7) != SWAP || load64(answer + 16))\n    " + READS,
     "return answer.reads;\n", "return (word & 7) == 2 && !answer.swapped ? 0 : answer.reads;\n"),
    ("the memory writes of a swap that fails are not counted",
     WRITES, "    if ((word & 7) != SWAP || load64(answer + 16))\n    " + WRITES,
     "return answer.writes;\n", "return (word & 7) == 2 && !answer.swapped ? 0 : answer.writes;\n"),
    ("memory reads and writes change places",
     READS + WRITES, READS.replace("24", "32") + WRITES.replace("32", "24"),
     "return answer.reads;\n    case SECOND_TOTAL_WRITES: return answer.writes;\n",
     "return answer.writes;\n    case SECOND_TOTAL_WRITES: return answer.reads;\n"),
    ("two memory writes count as one",
     WRITES, WRITES.replace("load64(answer + 32)", "load64(answer + 32) != 0"),
     "return answer.writes;\n", "return answer.writes != 0;\n"),
    ("a device write's memory write is not counted",
     WRITES, "    if ((word & 7) != DEVICE_WRITE)\n    " + WRITES,
     "return answer.writes;\n",
     "return second_take_apart(word, 0).kind == SECOND_DEVICE_WRITE ? 0 : answer.writes;\n"),
    ("device writes are counted as writes",
     ACCEPTED, "    add_to(record, (word & 7) == DEVICE_WRITE ? WRITE : word & 7, 1);\n",
     SECOND_ACCEPTED, SECOND_ACCEPTED.replace("(word, 0).kind", "((word & 7) == 5 ? 1 : word, 0).kind")),
    ("all totals are added twice",
     SUM, SUM.replace("+ more", "+ 2 * more"),
     SECOND_COUNT, SECOND_COUNT.replace("+ second_adds", "+ 2 * second_adds")),
    ("totals stop at 2^64 - 3",
     SUM, "    if (load64(record + 8 * place) < UINT64_MAX - 2)\n    " + SUM,
     SECOND_COUNT, "if (decode_word(record + 8 * place) < UINT64_MAX - 2)\n            " + SECOND_COUNT),
    ("totals are kept big-endian",
     SUM,
     "    store64(record + 8 * place, __builtin_bswap64(__builtin_bswap64(load64(record + 8 * place)) + more));",
     SECOND_COUNT,
     SECOND_COUNT.replace("decode_word(record + 8 * place) + second_adds(place, word, answer)",
                          "__builtin_bswap64(__builtin_bswap64(decode_word(record + 8 * place)) +\n"
                          "                                      second_adds(place, word, answer))")),
]

# Of the conversions. The groups of random sets catch these.
NEW_BYTES = "    static const uint8_t bytes[5] = {0, 9, 10, 11, 12};\n"
ABOVE_FOUR = "    return old < 5 ? bytes[old] : NONE;\n"
OLD_BYTES = ("    static const uint8_t bytes[13] = {0, THROUGH, THROUGH, NONE, NONE, NONE, NONE, NONE, NONE, 1, 2, 3, 4};\n")
ABOVE_TWELVE = "    return state < 13 ? bytes[state] : NONE;\n"
EVERY_BYTE = "    for (size_t k = 0; k < in->states_len; k++) {\n"
TEN = "        if (other(in->states[k]) == NONE)\n            return 10;\n"
ELEVEN = "        if (other(in->states[k]) == THROUGH)\n            through = 1;\n"
TOLD = "    return through ? 11 : 0;\n"
TWO = "    if (!is_shape(ports, sets, lines))\n        return 2;\n"
THREE = "    if (!have_lengths(in, out, ports * sets))\n        return 3;\n"
CHECKED = "    if ((refusal = refusal_of(in, other)))\n        return refusal;\n"
STATES_WRITTEN = "    for (size_t k = 0; k < in->states_len; k++)\n        out->states[k] = other(in->states[k]);\n"
TAGS_COPIED = "    memcpy(out->tags, in->tags, in->tags_len);\n"
DATA_COPIED = "    memcpy(out->data, in->data, in->data_len);\n"


def new_bytes(*bytes_of_letters):
    """The letters I, S, E, O, M become other bytes of the new edition."""
    return NEW_BYTES.replace("0, 9, 10, 11, 12", ", ".join(map(str, bytes_of_letters)))


def old_bytes(place, byte):
    """A byte of the new edition becomes another one of the old."""
    bytes_of_states = ["0", "THROUGH", "THROUGH", *["NONE"] * 6, "1", "2", "3", "4"]
    bytes_of_states[place] = str(byte)
    return f"    static const uint8_t bytes[13] = {{{', '.join(bytes_of_states)}}};\n"


def unless_invalid(what, otherwise=""):
    """Tags or data, of some bytes each, are copied only where the entry is held."""
    size = {"tags": 4, "data": 8}[what]
    return (f"    for (size_t k = 0; k < in->states_len; k++) {{\n        if (in->states[k])\n"
            f"            memcpy(out->{what} + {size} * k, in->{what} + {size} * k, {size});\n{otherwise}    }}\n")


EDITION = [
    # The letters on the way to the new edition.
    ("O becomes S", NEW_BYTES, new_bytes(0, 9, 10, 9, 12)),
    ("E becomes M", NEW_BYTES, new_bytes(0, 9, 12, 11, 12)),
    ("M becomes O", NEW_BYTES, new_bytes(0, 9, 10, 11, 11)),
    ("S becomes E", NEW_BYTES, new_bytes(0, 10, 10, 11, 12)),
    ("O and M change places", NEW_BYTES, new_bytes(0, 9, 10, 12, 11)),
    ("E and S change places", NEW_BYTES, new_bytes(0, 10, 9, 11, 12)),
    ("S and E become write-through ones", NEW_BYTES, new_bytes(0, 1, 2, 11, 12)),
    ("S becomes write-through S", NEW_BYTES, new_bytes(0, 1, 10, 11, 12)),
    ("E becomes write-through E", NEW_BYTES, new_bytes(0, 9, 2, 11, 12)),
    ("I becomes S", NEW_BYTES, new_bytes(9, 9, 10, 11, 12)),
    ("M becomes I", NEW_BYTES, new_bytes(0, 9, 10, 11, 0)),
    ("the bytes stay as they are", NEW_BYTES, new_bytes(0, 1, 2, 3, 4)),
    ("an entry at the last place becomes I", STATES_WRITTEN,
     STATES_WRITTEN + "    out->states[in->states_len - 1] = 0;\n"),
    # Bytes that are no letter.
    ("byte 5 is taken for I", ABOVE_FOUR, ABOVE_FOUR.replace(": NONE", ": old == 5 ? 0 : NONE")),
    ("byte 5 is taken for M", ABOVE_FOUR, ABOVE_FOUR.replace(": NONE", ": old == 5 ? 12 : NONE")),
    ("byte 255 is taken for I", ABOVE_FOUR, ABOVE_FOUR.replace(": NONE", ": old == 255 ? 0 : NONE")),
    ("bytes above 4 are taken for I", ABOVE_FOUR, ABOVE_FOUR.replace(": NONE", ": 0")),
    ("bytes of the new edition are let in",
     ABOVE_FOUR, ABOVE_FOUR.replace(": NONE", ": old >= 9 && old <= 12 ? old : NONE")),
    ("three bits of an old byte are looked at",
     ABOVE_FOUR, ABOVE_FOUR.replace("old < 5", "(old & 7) < 5").replace("[old]", "[old & 7]")),
    ("byte 4 is refused", ABOVE_FOUR, ABOVE_FOUR.replace("< 5", "< 4")),
    ("an old byte above 4 is refused 11", ABOVE_FOUR, ABOVE_FOUR.replace("NONE", "THROUGH")),
    # The letters on the way back.
    ("write-through S is taken for S", OLD_BYTES, old_bytes(1, 1)),
    ("write-through E is taken for E", OLD_BYTES, old_bytes(2, 2)),
    ("write-through S is taken for I", OLD_BYTES, old_bytes(1, 0)),
    ("write-through S is taken for no state", OLD_BYTES, old_bytes(1, "NONE")),
    ("write-through E is taken for no state", OLD_BYTES, old_bytes(2, "NONE")),
    ("M becomes O on the way back", OLD_BYTES, old_bytes(12, 3)),
    ("O becomes M on the way back", OLD_BYTES, old_bytes(11, 4)),
    ("O becomes S on the way back", OLD_BYTES, old_bytes(11, 1)),
    ("E becomes S on the way back", OLD_BYTES, old_bytes(10, 1)),
    ("S becomes E on the way back", OLD_BYTES, old_bytes(9, 2)),
    ("S becomes I on the way back", OLD_BYTES, old_bytes(9, 0)),
    *((f"byte {byte} is let in on the way back", OLD_BYTES, old_bytes(byte, letter))
      for byte, letter in ((3, 3), (4, 4), (5, 0), (6, 0), (7, 0), (8, 1))),
    ("byte 13 is taken for M", ABOVE_TWELVE, ABOVE_TWELVE.replace(": NONE", ": state == 13 ? 4 : NONE")),
    ("four bits of a new byte are looked at",
     ABOVE_TWELVE, ABOVE_TWELVE.replace("state < 13", "(state & 15) < 13").replace("[state]", "[state & 15]")),
    ("a byte above 12 is taken for write through", ABOVE_TWELVE, ABOVE_TWELVE.replace("NONE", "THROUGH")),
    ("a byte from 3 to 8 is taken for write through", OLD_BYTES, OLD_BYTES.replace("NONE", "THROUGH")),
    ("the way back is the way there", "&in, &out, old_byte)", "&in, &out, new_byte)"),
    ("the way there is the way back", "&in, &out, new_byte)", "&in, &out, old_byte)"),
    # Which refusal is told.
    ("10 and 11 change places", TEN + ELEVEN + "    }\n" + TOLD,
     TEN.replace("10", "11") + ELEVEN + "    }\n" + TOLD.replace("11", "10")),
    ("whichever of 10 and 11 comes first is told", ELEVEN, ELEVEN.replace("through = 1", "return 11")),
    ("11 is told before 10", TEN + ELEVEN + "    }\n" + TOLD,
     TEN.replace("return 10", "through |= 2") + ELEVEN.replace("= 1", "|= 1") + "    }\n"
     + "    return through & 1 ? 11 : through ? 10 : 0;\n"),
    ("10 is told only before a write-through entry", TEN,
     TEN.replace("(other", "(!through && other")),
    ("the first byte is not looked at", EVERY_BYTE, EVERY_BYTE.replace("k = 0", "k = 1")),
    ("the last byte is not looked at", EVERY_BYTE, EVERY_BYTE.replace("k < in", "k + 1 < in")),
    ("the last byte is not looked at for write through", ELEVEN,
     ELEVEN.replace("(other", "(k + 1 < in->states_len && other")),
    ("the first byte is not looked at for write through", ELEVEN, ELEVEN.replace("(other", "(k > 0 && other")),
    ("the last write-through entry is let in", ELEVEN, ELEVEN.replace("through = 1", "through = k + 1 < in->states_len")),
    ("one write-through entry is let in", ELEVEN + "    }\n" + TOLD,
     ELEVEN.replace("through = 1", "through++") + "    }\n" + TOLD.replace("through ?", "through > 1 ?")),
    ("64 entries are looked at", EVERY_BYTE, EVERY_BYTE.replace("k < in->states_len", "k < in->states_len && k < 64")),
    ("a home line beyond the last is refused", CHECKED,
     CHECKED + "    for (size_t k = 0; k < in->states_len; k++) {\n        uint32_t tag;\n\n"
     "        memcpy(&tag, in->tags + 4 * k, 4);\n        if (in->states[k] && tag * sets + k % sets >= lines)\n"
     "            return 8;\n    }\n"),
    # What is written where the conversion is refused.
    ("states are written up to the byte that is refused", CHECKED + STATES_WRITTEN,
     "    for (size_t k = 0; k < in->states_len; k++) {\n        if (other(in->states[k]) >= THROUGH)\n"
     "            return refusal_of(in, other);\n        out->states[k] = other(in->states[k]);\n    }\n"),
    ("tags are copied before the bytes are looked at", CHECKED, TAGS_COPIED + CHECKED),
    ("data is copied before the bytes are looked at", CHECKED, DATA_COPIED + CHECKED),
    ("tags are copied although an entry is in write through", CHECKED,
     CHECKED.replace("        return", "    {\n        if (refusal == 11)\n        " + TAGS_COPIED + "        return")
     + "    }\n"),
    ("10 clears the states", CHECKED,
     CHECKED.replace("        return", "    {\n        memset(out->states, 0, out->states_len);\n        return") + "    }\n"),
    ("11 clears the data", CHECKED,
     CHECKED.replace("        return", "    {\n        if (refusal == 11)\n"
                     "            memset(out->data, 0, out->data_len);\n        return") + "    }\n"),
    ("3 clears the tags", THREE,
     THREE.replace("        return", "    {\n        if (out->tags)\n"
                   "            memset(out->tags, 0, out->tags_len);\n        return") + "    }\n"),
    ("2 clears the states", TWO,
     TWO.replace("        return", "    {\n        if (out->states)\n"
                 "            memset(out->states, 0, out->states_len);\n        return") + "    }\n"),
    # What is copied.
    ("tags are not copied", TAGS_COPIED, ""),
    ("data is not copied", DATA_COPIED, ""),
    ("states are not written", STATES_WRITTEN, ""),
    ("the last state is not written", STATES_WRITTEN, STATES_WRITTEN.replace("k < in", "k + 1 < in")),
    ("the last byte of data is not copied", DATA_COPIED, DATA_COPIED.replace("data_len", "data_len - 1")),
    ("the last byte of the tags is not copied", TAGS_COPIED, TAGS_COPIED.replace("tags_len", "tags_len - 1")),
    ("the first byte of data is not copied", DATA_COPIED,
     DATA_COPIED.replace("out->data, in->data, in->data_len", "out->data + 1, in->data + 1, in->data_len - 1")),
    ("tags of entries in I are not copied", TAGS_COPIED, unless_invalid("tags")),
    ("data of entries in I is not copied", DATA_COPIED, unless_invalid("data")),
    ("tags of entries in I are cleared", TAGS_COPIED,
     unless_invalid("tags", "        else\n            memset(out->tags + 4 * k, 0, 4);\n")),
    ("data of entries in I is cleared", DATA_COPIED,
     unless_invalid("data", "        else\n            memset(out->data + 8 * k, 0, 8);\n")),
    ("tags are copied one entry on", TAGS_COPIED,
     "    for (size_t k = 0; k < in->states_len; k++)\n"
     "        memcpy(out->tags + 4 * ((k + 1) % in->states_len), in->tags + 4 * k, 4);\n"),
    ("data is copied backwards", DATA_COPIED,
     "    for (size_t k = 0; k < in->states_len; k++)\n"
     "        memcpy(out->data + 8 * (in->states_len - 1 - k), in->data + 8 * k, 8);\n"),
    ("tags are cut to 16 bits", TAGS_COPIED,
     TAGS_COPIED + "    for (size_t k = 0; k < in->states_len; k++)\n        memset(out->tags + 4 * k + 2, 0, 2);\n"),
    ("the words' bytes are turned round", DATA_COPIED,
     "    for (size_t k = 0; k < in->data_len; k++)\n        out->data[k] = in->data[k ^ 7];\n"),
    ("the input states are cleared", STATES_WRITTEN,
     STATES_WRITTEN + "    memset((uint8_t *)in->states, 0, in->states_len);\n"),
    ("an input tag is written", TAGS_COPIED, TAGS_COPIED + "    ((uint8_t *)in->tags)[0]++;\n"),
    ("a write beyond the states", STATES_WRITTEN, STATES_WRITTEN + "    out->states[out->states_len] = 0;\n"),
    ("a write before the data", DATA_COPIED, DATA_COPIED + "    out->data[-1] = 0;\n"),
    ("a write beyond the tags", TAGS_COPIED, TAGS_COPIED.replace("in->tags_len", "in->tags_len + 1")),
    # Lengths. Where a table is empty the pointer may be NULL, so that these let no empty one in, or leave at once.
    *((f"the length of the {name} is not looked at",
       f"{side}->{what}_len == {size}entries", f"{side}->{what}_len > 0")
      for name, side, what, size in (
          ("input tags", "in", "tags", "4 * "), ("input states", "in", "states", ""), ("input data", "in", "data", "8 * "),
          ("output tags", "out", "tags", "4 * "), ("output states", "out", "states", ""),
          ("output data", "out", "data", "8 * "))),
    ("a longer output table is let in", "out->data_len == 8 * entries", "out->data_len >= 8 * entries"),
    ("part of an entry more is let in", "out->tags_len == 4 * entries", "out->tags_len / 4 == entries"),
    ("part of an entry less is let in", "in->tags_len == 4 * entries", "(in->tags_len + 3) / 4 == entries"),
    ("no output table is let in", THREE, "    if (out->tags_len == 0)\n        return 0;\n" + THREE),
    # The shape, and the order of the checks.
    ("3 for 2", TWO, TWO.replace("2;", "3;")),
    ("2 for 3", THREE, THREE.replace("3;", "2;")),
    ("the lengths are refused before the shape", TWO + THREE, THREE + TWO),
    ("the bytes are refused before the lengths", THREE + CHECKED, CHECKED + THREE),
    ("the bytes are refused before the shape", TWO, CHECKED + TWO),
    ("11 is given before 3", THREE, "    if (refusal_of(in, other) == 11)\n        return 11;\n" + THREE),
    ("a ninth port", "ports > 8", "ports > 9"),
    ("no port", "ports < 1 || ", ""),
    ("one line too many", "lines > 4096", "lines > 4097"),
    ("the lines are not looked at", " || lines < 1 || lines > 4096", ""),
    ("sets that are no power of two", " && 64 % sets == 0", ""),
    ("a hundred and twenty-eight sets", "sets <= 64 && 64 %", "sets <= 128 && 128 %"),
    ("a shape cut to 32 bits", TWO, "    ports = (uint32_t)ports;\n    lines = (uint32_t)lines;\n" + TWO),
]

# The same slip in the conversions and in the second model's: the bytes worked out by hand can tell.
SECOND_LETTERS = "    case 'S': return 9;\n    case 'E': return 10;\n    case 'O': return 11;\n    case 'M': return 12;\n"
SECOND_OLD = "    case 4: return 'M';\n    default: return 0;\n"
SECOND_NEW = "    case 12: return 'M';\n    default: return 0;\n"
SECOND_THROUGH = "        if (from->states[entry] == 1 || from->states[entry] == 2)\n            return 11;\n"
SECOND_TAGS = "    for (size_t k = 0; k < 4 * entries_of(shape); k++)\n        to->tags[k] = from->tags[k];\n"
SECOND_DATA = "    for (size_t k = 0; k < 8 * entries_of(shape); k++)\n        to->data[k] = from->data[k];\n"
SECOND_NO_STATE = ("        if (letter_of_new(from->states[entry]) == 0)\n            return 10;\n    }\n"
                   "    /* \"11 for a write-through entry on the way back, after 10\" */\n"
                   "    for (size_t entry = 0; entry < entries_of(shape); entry++) {\n")
LETTERS = [
    ("O becomes S", NEW_BYTES, new_bytes(0, 9, 10, 9, 12),
     SECOND_LETTERS, SECOND_LETTERS.replace("'O': return 11", "'O': return 9")),
    ("O and M change places, there and back",
     "    return state < 13 ? bytes[state] : NONE;\n}\n",
     "    return state == 11 ? 4 : state == 12 ? 3 : state < 13 ? bytes[state] : NONE;\n}\n"
     "static uint8_t exchanged(uint8_t old)\n{\n    return old == 3 ? 12 : old == 4 ? 11 : new_byte(old);\n}\n"
     "#define new_byte exchanged\n",
     "    case 3: return 'O';\n    case 4: return 'M';\n", "    case 3: return 'M';\n    case 4: return 'O';\n"),
    ("S and E become write-through ones", NEW_BYTES, new_bytes(0, 1, 2, 11, 12),
     SECOND_LETTERS, SECOND_LETTERS.replace("return 9", "return 1").replace("return 10", "return 2")),
    ("byte 5 is taken for I", ABOVE_FOUR, ABOVE_FOUR.replace(": NONE", ": old == 5 ? 0 : NONE"),
     SECOND_OLD, "    case 5: return 'I';\n" + SECOND_OLD),
    ("byte 255 is taken for M", ABOVE_FOUR, ABOVE_FOUR.replace(": NONE", ": old == 255 ? 12 : NONE"),
     SECOND_OLD, "    case 255: return 'M';\n" + SECOND_OLD),
    ("byte 13 is taken for M", ABOVE_TWELVE, ABOVE_TWELVE.replace(": NONE", ": state == 13 ? 4 : NONE"),
     SECOND_NEW, "    case 13: return 'M';\n" + SECOND_NEW),
    ("byte 3 is taken for O on the way back", OLD_BYTES, old_bytes(3, 3),
     SECOND_NEW, "    case 3: return 'O';\n" + SECOND_NEW),
    ("write-through S is taken for S", OLD_BYTES, old_bytes(1, 1),
     SECOND_THROUGH, SECOND_THROUGH.replace("from->states[entry] == 1 || ", "")),
    ("write-through E is taken for E", OLD_BYTES, old_bytes(2, 2),
     SECOND_THROUGH, SECOND_THROUGH.replace(" || from->states[entry] == 2", "")),
    ("M becomes O on the way back", OLD_BYTES, old_bytes(12, 3),
     "    return byte;\n", "    return byte == 4 ? 3 : byte;\n"),
    ("whichever of 10 and 11 comes first is told", ELEVEN, ELEVEN.replace("through = 1", "return 11"),
     SECOND_NO_STATE, SECOND_NO_STATE.replace("    }\n", SECOND_THROUGH + "    }\n")),
    ("11 is told before 10", TEN + ELEVEN + "    }\n" + TOLD,
     TEN.replace("return 10", "through |= 2") + ELEVEN.replace("= 1", "|= 1") + "    }\n"
     + "    return through & 1 ? 11 : through ? 10 : 0;\n",
     "    /* \"10 for ... a new byte that is no state\" */\n",
     "    for (size_t entry = 0; entry < entries_of(shape); entry++) {\n" + SECOND_THROUGH + "    }\n"),
    ("the last write-through entry is let in", ELEVEN, ELEVEN.replace("through = 1", "through = k + 1 < in->states_len"),
     SECOND_THROUGH, SECOND_THROUGH.replace("(from->states[entry] == 1 || from->states[entry] == 2)",
                                            "(entry + 1 < entries_of(shape) && (from->states[entry] == 1 || "
                                            "from->states[entry] == 2))")),
    ("tags of entries in I are not copied", TAGS_COPIED, unless_invalid("tags"),
     SECOND_TAGS, SECOND_TAGS.replace("        to", "        if (from->states[k / 4] != 0)\n            to")),
    ("data of entries in I is cleared", DATA_COPIED,
     unless_invalid("data", "        else\n            memset(out->data + 8 * k, 0, 8);\n"),
     SECOND_DATA, SECOND_DATA.replace("= from->data[k]", "= from->states[k / 8] != 0 ? from->data[k] : 0")),
    ("the last byte of data is not copied", DATA_COPIED, DATA_COPIED.replace("data_len", "data_len - 1"),
     SECOND_DATA, SECOND_DATA.replace("k < 8", "k + 1 < 8")),
    ("tags and data are copied before the old bytes are looked at",
     CHECKED, "    if (other == new_byte) {\n" + TAGS_COPIED + DATA_COPIED + "    }\n" + CHECKED,
     "    /* \"10 for an old byte above 4\" */\n", "    copy_tags_and_data(shape, old, to);\n"),
]

# Of the rules on the five letters. The audit of converted sets catches these: it is right.
RULE_BYTES = "    if (letter_of_old(old->states[entry]) == 0)\n        return 1u << SECOND_RULE_BYTES;\n"
RULE_HOMES = "    if (is_held(old, entry) && home >= old->shape.lines)\n"
RULE_WORDS = "    if (count_without(&holders, holders.words[0]) > 0)\n"
RULE_ALONE = "    if (count_of(&holders, 'E', 'M') > 0 && holders.count > 1)\n"
RULE_ONE_O = "    if (count_of(&holders, 'O', 'O') > 1)\n"
RULE_MEMORY = "    if (count_of(&holders, 'O', 'M') == 0 && count_without(&holders, old->memory[line]) > 0)\n"
RULES = [
    ("bytes above 4 are forgotten", RULE_BYTES, ""),
    ("byte 5 is forgotten", RULE_BYTES, RULE_BYTES.replace("== 0)", "== 0 && old->states[entry] != 5)")),
    ("home lines are forgotten", RULE_HOMES, RULE_HOMES.replace("(is_held", "(0 && is_held")),
    ("a home line one too far", RULE_HOMES, RULE_HOMES.replace(">=", ">")),
    ("a home line in 32 bits", RULE_HOMES, RULE_HOMES.replace("home >=", "(uint32_t)home >=")),
    ("entries in I are asked for a home line", RULE_HOMES, RULE_HOMES.replace("is_held(old, entry) && ", "")),
    ("words are forgotten", RULE_WORDS, RULE_WORDS.replace("> 0", "> SECOND_MAX_PORTS")),
    ("words are compared with memory's", RULE_WORDS, RULE_WORDS.replace("holders.words[0]", "old->memory[line]")),
    ("the words' lower halves are compared", "count += holders->words[k] != word;",
     "count += (uint32_t)holders->words[k] != (uint32_t)word;"),
    ("E and M need not be alone", RULE_ALONE, RULE_ALONE.replace("> 1", "> SECOND_MAX_PORTS")),
    ("E need not be alone", RULE_ALONE, RULE_ALONE.replace("'E', 'M'", "'M', 'M'")),
    ("M need not be alone", RULE_ALONE, RULE_ALONE.replace("'E', 'M'", "'E', 'E'")),
    ("E and M may be two", RULE_ALONE, RULE_ALONE.replace("> 1", "> 2")),
    ("O has to be alone too", RULE_ALONE, RULE_ALONE.replace("(count_of", "(count_of(&holders, 'O', 'O') + count_of")),
    ("S has to be shared", RULE_ALONE,
     RULE_ALONE.replace("(count_of", "((holders.count == 1 && holders.letters[0] == 'S') || (count_of").replace(
         "> 1)", "> 1))")),
    ("a second O is forgotten", RULE_ONE_O, RULE_ONE_O.replace("> 1", "> SECOND_MAX_PORTS")),
    ("two O's are let in, and three not", RULE_ONE_O, RULE_ONE_O.replace("> 1", "> 2")),
    ("memory is forgotten", RULE_MEMORY, RULE_MEMORY.replace("> 0", "> SECOND_MAX_PORTS")),
    ("an owned line is compared with memory", RULE_MEMORY, RULE_MEMORY.replace("count_of(&holders, 'O', 'M') == 0 && ", "")),
    ("O is no owner", RULE_MEMORY, RULE_MEMORY.replace("'O', 'M'", "'M', 'M'")),
    ("M is no owner", RULE_MEMORY, RULE_MEMORY.replace("'O', 'M'", "'O', 'O'")),
    ("E is an owner", RULE_MEMORY, RULE_MEMORY.replace("== 0 &&", "+ count_of(&holders, 'E', 'E') == 0 &&")),
    ("a lone S is not compared with memory", RULE_MEMORY,
     RULE_MEMORY.replace("(count_of", "((holders.count > 1 || holders.letters[0] != 'S') && count_of")),
    ("the last port is forgotten", "port < old->shape.ports; port++", "port + 1 < old->shape.ports; port++"),
    ("the last line is forgotten", "line < old->shape.lines; line++", "line + 1 < old->shape.lines; line++"),
    ("the last entry is forgotten", "entry < entries_of(old->shape); entry++", "entry + 1 < entries_of(old->shape); entry++"),
    ("the tag of a holder is not looked at", "is_held(old, entry) && old->tags[entry] == line / sets", "is_held(old, entry)"),
    ("entries in I hold lines too", "    return letter != 0 && letter != 'I';\n", "    return letter != 0;\n"),
]

TRACE = [
    ("a longer input is cut off",
     "static uint8_t trace[MOST_BYTES + 1];",
     "static uint8_t trace[MOST_BYTES];"),
    ("bytes after the last operand are ignored",
     "length != HEAD_BYTES + 16 * number_at(12, 4)",
     "length < HEAD_BYTES + 16 * number_at(12, 4)"),
    ("the length is worked out in 32 bits",
     "number_at(12, 4) > MOST_ORDERS || length != HEAD_BYTES + 16 * number_at(12, 4)",
     "length != (uint32_t)(HEAD_BYTES + 16 * number_at(12, 4))"),
    ("2,049 orders",
     "MOST_ORDERS = 2048,",
     "MOST_ORDERS = 2049,"),
    ("2,047 orders",
     "MOST_ORDERS = 2048,",
     "MOST_ORDERS = 2047,"),
    ("a short head is read",
     "    if (length < HEAD_BYTES)\n        return 1;",
     "    if (length < 8)\n        return 1;\n    if (length < HEAD_BYTES)\n        return 2;"),
    ("the shape is refused before the length",
     "    if (number_at(12, 4) > MOST_ORDERS",
     "    if (number_at(0, 4) > 8)\n        return 2;\n    if (number_at(12, 4) > MOST_ORDERS"),
    ("every line is scratch",
     "    second_fresh(&model);\n", "    second_fresh(&model);\n    model.shape.scratch.count = model.shape.lines;\n"),
    ("every line is in the device range",
     "    second_fresh(&model);\n", "    second_fresh(&model);\n    model.shape.device.count = model.shape.lines;\n"),
    ("words and operands take turns",
     "uint64_t operand = number_at(HEAD_BYTES + 8 * orders + 8 * k, 8);",
     "uint64_t operand = number_at(HEAD_BYTES + 8 * k + 8, 8);"),
    ("orders are counted from 0",
     "k + 1, answer.refusal",
     "k, answer.refusal"),
    ("reads and writes change places",
     "answer.swapped, answer.reads, answer.writes",
     "answer.swapped, answer.writes, answer.reads"),
    ("signed numbers",
     "printf(\"%zu %\" PRIu64 \" %\" PRIu64 \" %\" PRIu64",
     "printf(\"%zu %\" PRIu64 \" %\" PRId64 \" %\" PRIu64"),
    ("no line feed at the end",
     "printf(\"audit %d\\n\"",
     "printf(\"audit %d\""),
    ("one read of the input",
     "    while (length < sizeof trace && (got = fread(trace + length, 1, sizeof trace - length, stdin)) > 0)",
     "    extern long read(int, void *, size_t);\n\n    if ((got = (size_t)read(0, trace, sizeof trace)) > 0)"),
    ("no end on an empty input",
     "    while (fread(rest, 1, sizeof rest, stdin) > 0)",
     "    while (length == 0 || fread(rest, 1, sizeof rest, stdin) > 0)"),
]

# Of the second implementation of the program totals.
READ_TRACE_END = "    if (came == 0)\n        return NO_MORE;\n"
RUN_START = "    model = zeros;\n    model.shape = said_shape();\n    second_fresh(&model);\n"
REFUSED_LINE = "    if (refusal == 1 || refusal == 2)\n        printf(\"refused %\" PRIu64 \"\\n\", refusal);\n"
ROWS = [
    ("an empty input is refused 1", READ_TRACE_END, ""),
    ("a trace cut in its sizes is the end of input", "    if (came == 0)\n", "    if (came < HEAD_BYTES)\n"),
    ("a trace cut behind its sizes is the end of input",
     "    if (take(body, 16 * (size_t)orders) < 16 * (size_t)orders)\n        return 1;\n",
     "    if (take(body, 16 * (size_t)orders) < 16 * (size_t)orders)\n        return NO_MORE;\n"),
    ("a trace cut short is run",
     "    if (take(body, 16 * (size_t)orders) < 16 * (size_t)orders)\n        return 1;\n",
     "    take(body, 16 * (size_t)orders);\n"),
    ("a trace that lacks its last byte is run",
     "orders) < 16 * (size_t)orders)\n        return 1;", "orders) + 1 < 16 * (size_t)orders)\n        return 1;"),
    ("2,049 orders", "MOST_ORDERS = 2048,", "MOST_ORDERS = 2049,"),
    ("2,047 orders", "MOST_ORDERS = 2048,", "MOST_ORDERS = 2047,"),
    ("the number of orders is read from two bytes",
     "    uint64_t orders = number_at(head + 12, 4);\n\n    if (came",
     "    uint64_t orders = number_at(head + 12, 2);\n\n    if (came"),
    ("what is behind too many orders is read on",
     "        if (refusal != ACCEPTED)\n            break;\n",
     "        if (refusal == 1 && !feof(stdin)) {\n            printf(\"refused 1\\n\");\n"
     "            continue;\n        }\n"
     "        if (refusal != ACCEPTED)\n            break;\n"),
    ("a refused shape does not end the reading",
     "        if (refusal != ACCEPTED)\n            break;\n",
     "        if (refusal == 2) {\n            printf(\"refused 2\\n\");\n            continue;\n        }\n"
     "        if (refusal != ACCEPTED)\n            break;\n"),
    ("the shape is refused before the length",
     "    if (take(body,",
     "    if (second_call_refusal(said_shape(), second_lengths_of(said_shape(), 0), 0))\n        return 2;\n"
     "    if (take(body,"),
    ("the shape is refused before the number of orders",
     "    if (came < HEAD_BYTES || orders > MOST_ORDERS)\n",
     "    if (came == HEAD_BYTES && orders > MOST_ORDERS && number_at(head, 4) > 8)\n        return 2;\n"
     "    if (came < HEAD_BYTES || orders > MOST_ORDERS)\n"),
    ("a refused trace has a row", "        if (refusal != ACCEPTED)\n            break;\n",
     "        if (refusal == 1 || refusal == 2)\n            print_row(trace, totals);\n"
     "        if (refusal != ACCEPTED)\n            break;\n"),
    ("a refusal is not printed", REFUSED_LINE, ""),
    ("a refusal is printed behind the sum row",
     REFUSED_LINE + "    print_row(0, sums);\n", "    print_row(0, sums);\n" + REFUSED_LINE),
    ("no sum row after a refusal", "    print_row(0, sums);\n",
     "    if (refusal == ACCEPTED || refusal == NO_MORE)\n        print_row(0, sums);\n"),
    ("no sum row without traces",
     "    print_row(0, sums);\n", "    if (sums[0] + sums[1] + sums[2] + sums[6] > 0)\n        print_row(0, sums);\n"),
    ("no sum row after the last trace",
     "    print_row(0, sums);\n", "    if (refusal != ACCEPTED)\n        print_row(0, sums);\n"),
    ("10,000 traces", "MOST_TRACES = 9999 ", "MOST_TRACES = 10000 "),
    ("9,998 traces", "MOST_TRACES = 9999 ", "MOST_TRACES = 9998 "),
    ("what is behind the last trace is refused",
     REFUSED_LINE, "    if (refusal == ACCEPTED)\n        refusal = read_trace();\n" + REFUSED_LINE),
    ("traces are counted from 0", "        print_row(trace, totals);\n", "        print_row(trace - 1, totals);\n"),
    ("the sum row has a number", "    print_row(0, sums);\n", "    print_row(MOST_TRACES + 1, sums);\n"),
    ("memory stays from trace to trace", RUN_START, RUN_START.replace("    model = zeros;\n", "")),
    ("tables stay from trace to trace",
     RUN_START,
     "    model.shape = said_shape();\n    for (size_t line = 0; line < SECOND_MAX_LINES; line++)\n"
     "        model.memory[line] = zeros.memory[line];\n"),
    ("every line is scratch", RUN_START, RUN_START + "    model.shape.scratch.count = model.shape.lines;\n"),
    ("every line is in the device range", RUN_START, RUN_START + "    model.shape.device.count = model.shape.lines;\n"),
    ("totals stay from trace to trace",
     "        uint64_t totals[SECOND_TOTALS] = {0};\n", "        static uint64_t totals[SECOND_TOTALS];\n"),
    ("the sum row is the last trace's",
     "            sums[place] += totals[place];\n", "            sums[place] = totals[place];\n"),
    ("the sum row is cut at 8,192", "            sums[place] += totals[place];\n",
     "            sums[place] = (sums[place] + totals[place]) % 8192;\n"),
    ("memory reads and writes change places",
     "        printf(\" %\" PRIu64, totals[place]);\n",
     "        printf(\" %\" PRIu64, totals[place == 7 ? 8 : place == 8 ? 7 : place]);\n"),
    ("the refused come before the kinds",
     "        printf(\" %\" PRIu64, totals[place]);\n",
     "        printf(\" %\" PRIu64, totals[place == 0 ? 6 : place < 7 ? place - 1 : place]);\n"),
    ("a total is left out", "    for (unsigned place = 0; place < SECOND_TOTALS; place++)\n        printf",
     "    for (unsigned place = 0; place < SECOND_TOTALS - 1; place++)\n        printf"),
    ("a blank at the end of a row", "    printf(\"\\n\");\n", "    printf(\" \\n\");\n"),
    ("no line feed at the end", "    printf(\"\\n\");\n", "    if (trace > 0)\n        printf(\"\\n\");\n"),
    ("refused orders are not counted",
     "            totals[place] += second_adds(place, word, answer);\n",
     "            totals[place] += answer.refusal ? 0 : second_adds(place, word, answer);\n"),
    ("words and operands take turns",
     "number_at(body + 8 * (orders + k), 8);", "number_at(body + 8 * (k + 1), 8);"),
    ("one read of each part",
     "    while (taken < length && (got = fread(bytes + taken, 1, length - taken, stdin)) > 0)",
     "    extern long read(int, void *, size_t);\n\n    if (length > 0 && (got = (size_t)read(0, bytes, length)) > 0)"),
]

# What the header has beside the declarations, which is C and not proved: model_test.c is compiled with each of these.
FRESH_OF_INIT = (
    "    return moesi_fresh(m->ports, m->sets, m->lines, m->scratch_first, m->scratch_count, m->device_first,\n"
    "                       m->device_count, m->memory, m->sizes.memory, m->tags, m->sizes.tags, m->states, m->sizes.states,\n"
    "                       m->data, m->sizes.data);\n")
STEP_OF_STRUCT = (
    "    moesi_step(m->ports, m->sets, m->lines, m->scratch_first, m->scratch_count, m->device_first, m->device_count,\n"
    "               word, operand, ")
STEP_REST = (
    "m->memory, m->sizes.memory, m->tags, m->sizes.tags, m->states, m->sizes.states, m->data,\n"
    "               m->sizes.data, bytes, sizeof bytes);\n")
TOTALS_OF_STRUCT = (
    "    moesi_step_totals(m->ports, m->sets, m->lines, m->scratch_first, m->scratch_count, m->device_first,\n"
    "                      m->device_count, word, operand, m->memory,")
AUDIT_OF_STRUCT = (
    "    moesi_audit(m->ports, m->sets, m->lines, m->scratch_first, m->scratch_count, m->device_first, m->device_count,\n")
REFUSAL_OF_STRUCT = (
    "    uint64_t refusal = moesi_step(m->ports, m->sets, m->lines, m->scratch_first, m->scratch_count, m->device_first,\n"
    "                                  m->device_count, 7, 0, m->memory,")
REFUSAL_HANDED_ON = "    return refusal == MOESI_REFUSED_KIND ? MOESI_ACCEPTED : refusal;\n"
SET_SCRATCH = "    m->scratch_first = first;\n    m->scratch_count = count;\n    return moesi_model_refusal(m);\n"
SET_DEVICE = "    m->device_first = first;\n    m->device_count = count;\n    return moesi_model_refusal(m);\n"
EMPTIED = ("    m->scratch_first = 0;\n    m->scratch_count = 0;\n    m->device_first = 0;\n    m->device_count = 0;\n"
           "    m->memory = memory;\n")


def other_ranges(call, **numbers):
    """A call of the struct with other numbers for some of those of its ranges."""
    return re.sub(r"m->(\w+_(?:first|count))", lambda found: numbers.get(found[1], found[0]), call)


def without(call, *ranges):
    """A call of the struct with ranges that are empty."""
    return other_ranges(call, **{f"{name}_{number}": "0" for name in ranges for number in ("first", "count")})


def turned(call, name):
    """A call of the struct with first line and count of a range in each other's place."""
    return other_ranges(call, **{f"{name}_first": f"m->{name}_count", f"{name}_count": f"m->{name}_first"})


def exchanged(call):
    """A call of the struct with the two ranges in each other's place."""
    return other_ranges(call, scratch_first="m->device_first", scratch_count="m->device_count",
                        device_first="m->scratch_first", device_count="m->scratch_count")


HEADER = [
    # Where the bytes are.
    ("the room of a shape forgets the states",
     "    return sizes.tags + sizes.states + sizes.data;",
     "    return sizes.tags + sizes.data;"),
    ("the constant of the room has 12 bytes for an entry",
     "(MOESI_TAG_BYTES + MOESI_STATE_BYTES + MOESI_DATA_BYTES))",
     "(MOESI_TAG_BYTES + MOESI_DATA_BYTES))"),
    ("the constant of memory takes a sum apart",
     "((size_t)(lines) * MOESI_MEMORY_WORD_BYTES)",
     "((size_t)lines * MOESI_MEMORY_WORD_BYTES)"),
    ("a room for what is no shape",
     "    struct moesi_sizes sizes = moesi_sizes_of(ports, sets, lines);\n\n    return sizes.tags + sizes.states + sizes.data;",
     "    return MOESI_TABLES_BYTES(ports, sets, lines);"),
    ("the tags start one byte early",
     "    m->tags = m->data + sizes.data;",
     "    m->tags = m->data + sizes.data - 1;"),
    ("the states start one byte late",
     "    m->states = m->tags + sizes.tags;",
     "    m->states = m->tags + sizes.tags + 1;"),
    ("the states lie in the tags",
     "    m->states = m->tags + sizes.tags;",
     "    m->states = m->tags;"),
    # Refusals of open and init.
    ("a room too large is taken",
     "room_len != moesi_tables_bytes(ports, sets, lines)",
     "room_len < moesi_tables_bytes(ports, sets, lines)"),
    ("a room too small is taken",
     "room_len != moesi_tables_bytes(ports, sets, lines)",
     "room_len > moesi_tables_bytes(ports, sets, lines)"),
    ("NULL is taken for a room",
     " || room == NULL ||",
     " ||"),
    ("NULL is taken for memory",
     "memory == NULL || memory_len",
     "memory_len"),
    ("memory is not measured",
     " || memory_len != sizes.memory",
     ""),
    ("the lengths are refused before the shape",
     "    if (!moesi_shape_in_range(ports, sets, lines))\n        return MOESI_REFUSED_SHAPE;\n"
     "    if (memory == NULL || memory_len != sizes.memory || room == NULL ||\n"
     "        room_len != moesi_tables_bytes(ports, sets, lines))\n        return MOESI_REFUSED_LENGTH;\n",
     "    if (memory == NULL || memory_len != sizes.memory || room == NULL ||\n"
     "        room_len != moesi_tables_bytes(ports, sets, lines))\n        return MOESI_REFUSED_LENGTH;\n"
     "    if (!moesi_shape_in_range(ports, sets, lines))\n        return MOESI_REFUSED_SHAPE;\n"),
    ("a refused shape is written into the struct",
     "    if (!moesi_shape_in_range(ports, sets, lines))\n        return MOESI_REFUSED_SHAPE;\n    if (memory == NULL",
     "    m->ports = ports;\n    if (!moesi_shape_in_range(ports, sets, lines))\n"
     "        return MOESI_REFUSED_SHAPE;\n    if (memory == NULL"),
    ("a refused length is written into the struct",
     "        return MOESI_REFUSED_SHAPE;\n    if (memory == NULL",
     "        return MOESI_REFUSED_SHAPE;\n    m->sizes = sizes;\n    if (memory == NULL"),
    ("a refused init clears the room",
     "    if (refusal != MOESI_ACCEPTED)\n        return refusal;\n    return moesi_fresh",
     "    if (refusal != MOESI_ACCEPTED && room != NULL && room_len > 0)\n        room[0] = 0;\n"
     "    if (refusal != MOESI_ACCEPTED)\n        return refusal;\n    return moesi_fresh"),
    # What open and init write.
    ("open clears the tables",
     "    m->sizes = sizes;\n    return",
     "    m->sizes = sizes;\n    while (room_len > 0)\n        room[--room_len] = 0;\n    return"),
    ("init doesn't clear the tables", FRESH_OF_INIT, "    return MOESI_ACCEPTED;"),
    ("init clears memory",
     "    if (refusal != MOESI_ACCEPTED)\n        return refusal;\n    return moesi_fresh",
     "    if (refusal != MOESI_ACCEPTED)\n        return refusal;\n    memory[0] = 0;\n    return moesi_fresh"),
    # Step and audit.
    ("a step drops the operand", STEP_OF_STRUCT, STEP_OF_STRUCT.replace("operand", "0")),
    ("a step tries the order twice", STEP_OF_STRUCT + STEP_REST, 2 * (STEP_OF_STRUCT + STEP_REST)),
    ("the audit's verdict turned round",
     "    return verdict == 1;",
     "    return verdict != 1;"),
    ("the audit always says yes",
     "    return verdict == 1;",
     "    return m->ports != 0;"),
    # Looks.
    ("a tag is read big-endian",
     "(uint32_t)at[0] | (uint32_t)at[1] << 8 | (uint32_t)at[2] << 16 | (uint32_t)at[3] << 24",
     "(uint32_t)at[3] | (uint32_t)at[2] << 8 | (uint32_t)at[1] << 16 | (uint32_t)at[0] << 24"),
    ("a tag is read from two bytes",
     "(uint32_t)at[0] | (uint32_t)at[1] << 8 | (uint32_t)at[2] << 16 | (uint32_t)at[3] << 24",
     "(uint32_t)at[0] | (uint32_t)at[1] << 8"),
    ("the state of another port",
     "    return (size_t)(port * m->sets + line % m->sets);",
     "    return (size_t)((m->ports - 1 - port) * m->sets + line % m->sets);"),
    ("entries port by port within a set",
     "    return (size_t)(port * m->sets + line % m->sets);",
     "    return (size_t)(line % m->sets * m->ports + port);"),
    ("an index that is the line",
     "    return (size_t)(port * m->sets + line % m->sets);",
     "    return (size_t)(port * m->sets + line);"),
    ("a tag that is the line",
     "== line / m->sets ?",
     "== line ?"),
    ("a state of whatever line",
     "    return moesi_get_tag(m->tags, entry) == line / m->sets ? m->states[entry] : (uint8_t)MOESI_INVALID;",
     "    return m->states[entry];"),
    ("a port too many",
     "    if (port >= m->ports || line >= m->lines)",
     "    if (port > m->ports || line >= m->lines)"),
    ("the state of a line that there isn't",
     "    if (port >= m->ports || line >= m->lines)",
     "    if (port >= m->ports)"),
    ("the word of a line that there isn't",
     "    if (line >= m->lines)\n        return 0;",
     "    if (line > m->lines)\n        return 0;"),
    ("memory's word although a port owns the line",
     "        if (moesi_model_state(m, port, line) != MOESI_INVALID)",
     "        if (moesi_model_state(m, port, line) == MOESI_MODIFIED)"),
    ("the word of port 0 or memory's",
     "for (uint64_t port = 0; port < m->ports; port++)",
     "for (uint64_t port = 0; port < 1; port++)"),
    ("the word of the highest-numbered holder",
     "for (uint64_t port = 0; port < m->ports; port++)",
     "for (uint64_t port = m->ports; port-- > 0;)"),
    ("a line that there isn't is clean",
     "    return line < m->lines && moesi_model_word",
     "    return line >= m->lines || moesi_model_word"),
    ("a line is clean unless port 0 has modified it",
     "moesi_model_word(m, line) == moesi_get_word(m->memory, (size_t)line);",
     "moesi_model_state(m, 0, line) != MOESI_MODIFIED;"),
    # The order word of a device write.
    ("a device write is a device read",
     "    return moesi_order_word(MOESI_DEVICE_WRITE, 0, 0, line, mask, 0);",
     "    return moesi_order_word(MOESI_DEVICE_READ, 0, 0, line, mask, 0);"),
    ("a device write is a write by port 0",
     "    return moesi_order_word(MOESI_DEVICE_WRITE, 0, 0, line, mask, 0);",
     "    return moesi_order_word(MOESI_WRITE, 0, 0, line, mask, 0);"),
    ("a device write has another number",
     "#define MOESI_DEVICE_WRITE 5u",
     "#define MOESI_DEVICE_WRITE 6u"),
    ("a device write drops its mask",
     "    return moesi_order_word(MOESI_DEVICE_WRITE, 0, 0, line, mask, 0);",
     "    return moesi_order_word(MOESI_DEVICE_WRITE, 0, 0, line, 0xFF, 0);"),
    ("a device write turns its mask round",
     "    return moesi_order_word(MOESI_DEVICE_WRITE, 0, 0, line, mask, 0);",
     "    return moesi_order_word(MOESI_DEVICE_WRITE, 0, 0, line, ~mask, 0);"),
    ("a device write's line and mask change places",
     "    return moesi_order_word(MOESI_DEVICE_WRITE, 0, 0, line, mask, 0);",
     "    return moesi_order_word(MOESI_DEVICE_WRITE, 0, 0, mask, line, 0);"),
    ("a device write's line is its port",
     "    return moesi_order_word(MOESI_DEVICE_WRITE, 0, 0, line, mask, 0);",
     "    return moesi_order_word(MOESI_DEVICE_WRITE, 0, line, 0, mask, 0);"),
    ("a device write's line is cut to its field",
     "    return moesi_order_word(MOESI_DEVICE_WRITE, 0, 0, line, mask, 0);",
     "    return moesi_order_word(MOESI_DEVICE_WRITE, 0, 0, line & 65535, mask, 0);"),
    # Totals.
    ("a kind less", "#define MOESI_KINDS 6u", "#define MOESI_KINDS 5u"),
    ("the accepted are counted from 1",
     "#define MOESI_TOTAL_ACCEPTED(kind) (kind)",
     "#define MOESI_TOTAL_ACCEPTED(kind) ((kind) + 1u)"),
    ("the refused stand where the swaps do",
     "#define MOESI_TOTAL_REFUSED MOESI_KINDS",
     "#define MOESI_TOTAL_REFUSED (MOESI_KINDS + 3u)"),
    ("the refused stand one place early",
     "#define MOESI_TOTAL_REFUSED MOESI_KINDS",
     "#define MOESI_TOTAL_REFUSED (MOESI_KINDS - 1u)"),
    ("the reads stand where the writes do",
     "#define MOESI_TOTAL_READS (MOESI_KINDS + 1u)",
     "#define MOESI_TOTAL_READS (MOESI_KINDS + 2u)"),
    ("the writes stand where the reads do",
     "#define MOESI_TOTAL_WRITES (MOESI_KINDS + 2u)",
     "#define MOESI_TOTAL_WRITES (MOESI_KINDS + 1u)"),
    ("the swaps stand where the refused do",
     "#define MOESI_TOTAL_SWAPS (MOESI_KINDS + 3u)",
     "#define MOESI_TOTAL_SWAPS MOESI_KINDS"),
    ("a record has 72 bytes",
     "#define MOESI_RECORD_BYTES (8u * (MOESI_KINDS + 4u))",
     "#define MOESI_RECORD_BYTES (8u * (MOESI_KINDS + 3u))"),
    ("a record has 88 bytes",
     "#define MOESI_RECORD_BYTES (8u * (MOESI_KINDS + 4u))",
     "#define MOESI_RECORD_BYTES (8u * (MOESI_KINDS + 5u))"),
    ("the highest total is 2^64 - 2", "(UINT64_MAX - 2)", "(UINT64_MAX - 1)"),
    ("the highest total is 2^64 - 4", "(UINT64_MAX - 2)", "(UINT64_MAX - 3)"),
    ("the refusal of a full record has another number",
     "#define MOESI_REFUSED_TOTALS 9u",
     "#define MOESI_REFUSED_TOTALS 10u"),
    ("reads and writes change places in the totals",
     "    totals.memory_reads = moesi_get_word(record, MOESI_TOTAL_READS);\n"
     "    totals.memory_writes = moesi_get_word(record, MOESI_TOTAL_WRITES);\n",
     "    totals.memory_reads = moesi_get_word(record, MOESI_TOTAL_WRITES);\n"
     "    totals.memory_writes = moesi_get_word(record, MOESI_TOTAL_READS);\n"),
    ("the swaps are the accepted ones",
     "    totals.swaps = moesi_get_word(record, MOESI_TOTAL_SWAPS);",
     "    totals.swaps = moesi_get_word(record, MOESI_SWAP);"),
    ("the refused are read from another place",
     "    totals.refused = moesi_get_word(record, MOESI_TOTAL_REFUSED);",
     "    totals.refused = moesi_get_word(record, MOESI_DEVICE_WRITE);"),
    ("the last kind is not read",
     "    for (size_t kind = 0; kind < MOESI_KINDS; kind++)",
     "    totals.accepted[MOESI_KINDS - 1] = 0;\n    for (size_t kind = 0; kind < MOESI_KINDS - 1; kind++)"),
    ("the kinds are read backwards",
     "        totals.accepted[kind] = moesi_get_word(record, MOESI_TOTAL_ACCEPTED(kind));",
     "        totals.accepted[MOESI_KINDS - 1 - kind] = moesi_get_word(record, MOESI_TOTAL_ACCEPTED(kind));"),
    ("a step with a record of any length",
     "bytes, sizeof bytes, record, record_len);",
     "bytes, sizeof bytes, record, MOESI_RECORD_BYTES);"),
    ("a step with a record says a byte less",
     "bytes, sizeof bytes, record, record_len);",
     "bytes, sizeof bytes, record, record_len - 1);"),
    ("a step with a record lends none", "bytes, sizeof bytes, record, record_len);", "bytes, sizeof bytes, NULL, 0);"),
    ("a step with a record drops the operand",
     TOTALS_OF_STRUCT, TOTALS_OF_STRUCT.replace("operand", "0")),
    ("a step with a record is made twice",
     "    moesi_step_totals(m->ports,",
     "    moesi_model_step(m, word, operand);\n    moesi_step_totals(m->ports,"),
    ("a step with a record counts nothing",
     "    moesi_step_totals(m->ports,",
     "    if (record_len == MOESI_RECORD_BYTES)\n        return moesi_model_step(m, word, operand);\n"
     "    moesi_step_totals(m->ports,"),
    # Ranges: what open and init leave.
    ("open leaves the ranges", EMPTIED, "    m->memory = memory;\n"),
    ("open leaves the scratch range", EMPTIED, EMPTIED.replace("    m->scratch_first = 0;\n    m->scratch_count = 0;\n", "")),
    ("open leaves the device range", EMPTIED, EMPTIED.replace("    m->device_first = 0;\n    m->device_count = 0;\n", "")),
    *((f"open leaves {name}", EMPTIED, EMPTIED.replace(f"    m->{member} = 0;\n", ""))
      for name, member in (("scratch's first line", "scratch_first"), ("scratch's count", "scratch_count"),
                           ("the device range's first line", "device_first"), ("the device range's count", "device_count"))),
    ("open takes all of memory for scratch", EMPTIED, EMPTIED.replace("scratch_count = 0", "scratch_count = lines")),
    ("open takes all of memory for the device range", EMPTIED, EMPTIED.replace("device_count = 0", "device_count = lines")),
    ("a refused open empties the ranges",
     "    if (!moesi_shape_in_range(ports, sets, lines))\n        return MOESI_REFUSED_SHAPE;\n    if (memory == NULL",
     "    m->scratch_count = m->device_count = 0;\n    if (!moesi_shape_in_range(ports, sets, lines))\n"
     "        return MOESI_REFUSED_SHAPE;\n    if (memory == NULL"),
    ("a refused length empties the ranges",
     "        return MOESI_REFUSED_SHAPE;\n    if (memory == NULL",
     "        return MOESI_REFUSED_SHAPE;\n    m->device_first = m->scratch_first = 0;\n    if (memory == NULL"),
    ("the refusal of a range has another number", "#define MOESI_REFUSED_RANGE 12u", "#define MOESI_REFUSED_RANGE 13u"),
    # What the calls are given.
    *((f"{name} {what}", call, change(call))
      for name, call in (("a step", STEP_OF_STRUCT), ("a step with a record", TOTALS_OF_STRUCT))
      for what, change in (
          ("has no ranges", lambda call: without(call, "scratch", "device")),
          ("has no scratch range", lambda call: without(call, "scratch")),
          ("has no device range", lambda call: without(call, "device")),
          ("takes the device range for scratch too", lambda call: other_ranges(
              call, scratch_first="m->device_first", scratch_count="m->device_count")),
          ("takes scratch for the device range too", lambda call: other_ranges(
              call, device_first="m->scratch_first", device_count="m->scratch_count")),
          ("takes one range for the other", exchanged),
          ("takes scratch's first line for its count", lambda call: turned(call, "scratch")),
          ("takes the device range's first line for its count", lambda call: turned(call, "device")),
          ("takes scratch's count for the device range's", lambda call: other_ranges(
              call, scratch_count="m->device_count", device_count="m->scratch_count")))),
    *((f"{name} {what}", call, change(call))
      for name, call in (("the audit", AUDIT_OF_STRUCT), ("the refusal", REFUSAL_OF_STRUCT))
      for what, change in (
          ("has no ranges", lambda call: without(call, "scratch", "device")),
          ("has no scratch range", lambda call: without(call, "scratch")),
          ("has no device range", lambda call: without(call, "device")),
          ("takes scratch's first line for its count", lambda call: turned(call, "scratch")),
          ("takes the device range's first line for its count", lambda call: turned(call, "device")),
          ("takes scratch's count for the device range's", lambda call: other_ranges(
              call, scratch_count="m->device_count", device_count="m->scratch_count")))),
    # The refusal.
    ("the refusal of a model is 4 where it has none", REFUSAL_HANDED_ON, "    return refusal;\n"),
    ("a model has no refusal", REFUSAL_HANDED_ON, "    return MOESI_ACCEPTED;\n"),
    ("a model is always refused", REFUSAL_HANDED_ON, "    return MOESI_REFUSED_RANGE;\n"),
    ("the refusal of a struct of zeros is not told",
     REFUSAL_HANDED_ON, REFUSAL_HANDED_ON.replace("== MOESI_REFUSED_KIND", "!= MOESI_REFUSED_RANGE")),
    ("the refusal is asked for by a flush", REFUSAL_OF_STRUCT, REFUSAL_OF_STRUCT.replace("7, 0,", "3, 0,")),
    ("the refusal is asked for by a device write", REFUSAL_OF_STRUCT, REFUSAL_OF_STRUCT.replace("7, 0,", "0xFF05, 0,")),
    ("the refusal is asked for by a read", REFUSAL_OF_STRUCT, REFUSAL_OF_STRUCT.replace("7, 0,", "0, 0,")),
    # The setters.
    ("scratch is set for the device range", SET_DEVICE, SET_SCRATCH),
    ("the device range is set for scratch", SET_SCRATCH, SET_DEVICE),
    *((f"{name} is set {what}", setter, change(setter))
      for name, setter in (("scratch", SET_SCRATCH), ("the device range", SET_DEVICE))
      for what, change in (
          ("without its first line", lambda setter: setter.split("\n", 1)[1]),
          ("without its count", lambda setter: re.sub(r".*_count = count;\n", "", setter)),
          ("with first line and count in each other's place",
           lambda setter: setter.replace("= first", "= @").replace("= count", "= first").replace("= @", "= count")),
          ("only if it fits", lambda setter: "    if (m->lines > 0 && count > 0 && (first > m->lines || count > m->lines - first))\n"
           "        return MOESI_REFUSED_RANGE;\n" + setter),
          ("and cut to lines", lambda setter: "    if (first < m->lines && count > m->lines - first)\n"
           "        count = m->lines - first;\n" + setter),
          ("as empty if it doesn't fit", lambda setter: "    if (m->lines > 0 && (first > m->lines || count > m->lines - first))\n"
           "        count = 0;\n" + setter),
          ("and nothing is told", lambda setter: setter.replace("moesi_model_refusal(m)", "MOESI_ACCEPTED")),
          ("and the tables are cleared", lambda setter: "    for (size_t k = 0; k < m->sizes.states; k++)\n"
           "        m->states[k] = MOESI_INVALID;\n" + setter),
          ("with a last line for a count", lambda setter: setter.replace("= count", "= first + count")))),
    ("scratch is set and the device range emptied", SET_SCRATCH, "    m->device_count = 0;\n" + SET_SCRATCH),
    ("the device range is set and scratch emptied", SET_DEVICE, "    m->scratch_count = 0;\n" + SET_DEVICE),
    ("setting scratch tells of scratch alone", SET_SCRATCH, SET_SCRATCH.replace(
        "return moesi_model_refusal(m)",
        "if (m->lines > 0 && (count == 0 || (first <= m->lines && count <= m->lines - first)))\n"
        "        return MOESI_ACCEPTED;\n    return moesi_model_refusal(m)")),
    # Tables of the old edition.
    ("I has another old byte", "#define MOESI_OLD_INVALID 0u", "#define MOESI_OLD_INVALID 5u"),
    ("S and E have the same old byte", "#define MOESI_OLD_SHARED 1u", "#define MOESI_OLD_SHARED 2u"),
    ("E has the old byte of O", "#define MOESI_OLD_EXCLUSIVE 2u", "#define MOESI_OLD_EXCLUSIVE 3u"),
    ("O has the old byte of M", "#define MOESI_OLD_OWNED 3u", "#define MOESI_OLD_OWNED 4u"),
    ("M has the old byte of O", "#define MOESI_OLD_MODIFIED 4u", "#define MOESI_OLD_MODIFIED 3u"),
    ("the refusal of a byte has another number", "#define MOESI_REFUSED_STATE 10u", "#define MOESI_REFUSED_STATE 11u"),
    ("the refusal of write through has another number",
     "#define MOESI_REFUSED_THROUGH 11u", "#define MOESI_REFUSED_THROUGH 12u"),
    ("an old set is converted the wrong way", "    return moesi_from_old(m->ports,", "    return moesi_to_old(m->ports,"),
    ("a model is converted the wrong way", "    return moesi_to_old(m->ports,", "    return moesi_from_old(m->ports,"),
    ("sets and lines change places for an old set",
     "    return moesi_from_old(m->ports, m->sets, m->lines,", "    return moesi_from_old(m->ports, m->lines, m->sets,"),
    ("sets and lines change places for a model",
     "    return moesi_to_old(m->ports, m->sets, m->lines,", "    return moesi_to_old(m->ports, m->lines, m->sets,"),
    ("an old set's tags and data change places",
     "tags, tags_len, states, states_len, data, data_len, m->tags,",
     "data, data_len, states, states_len, tags, tags_len, m->tags,"),
    ("a model's tags and data change places",
     "m->tags, m->sizes.tags, m->states, m->sizes.states, m->data,\n                        m->sizes.data, tags,",
     "m->data, m->sizes.data, m->states, m->sizes.states, m->tags,\n                        m->sizes.tags, tags,"),
    *((f"an old set's {what} are of any length",
       f"{before}{what}_len, {after}", f"{before}m->sizes.{what}, {after}")
      for what, before, after in (("tags", "m->lines, tags, ", "states, states_len, data, data_len, m->tags,"),
                                  ("states", "m->lines, tags, tags_len, states, ", "data, data_len, m->tags,"),
                                  ("data", "m->lines, tags, tags_len, states, states_len, data, ", "m->tags,"))),
    *((f"the {what} to write are of any length",
       f"{before}{what}_len{after}", f"{before}m->sizes.{what}{after}")
      for what, before, after in (("tags", "m->sizes.data, tags, ", ", states, states_len, data, data_len);"),
                                  ("states", "m->sizes.data, tags, tags_len, states, ", ", data, data_len);"),
                                  ("data", "m->sizes.data, tags, tags_len, states, states_len, data, ", ");"))),
    ("an old set is not written into the model",
     "    return moesi_from_old(m->ports,",
     "    if (moesi_shape_in_range(m->ports, m->sets, m->lines) && tags_len == m->sizes.tags &&\n"
     "        states_len == m->sizes.states && data_len == m->sizes.data && states[0] < 5)\n"
     "        return MOESI_ACCEPTED;\n    return moesi_from_old(m->ports,"),
    ("a refused old set leaves a fresh model",
     "    return moesi_from_old(m->ports,",
     "    if (states_len > 0 && states[0] > 4)\n"
     "        moesi_fresh(m->ports, m->sets, m->lines, 0, 0, 0, 0, m->memory, m->sizes.memory, m->tags, m->sizes.tags,\n"
     "                    m->states, m->sizes.states, m->data, m->sizes.data);\n    return moesi_from_old(m->ports,"),
    ("a refusal of an old set is not handed on",
     "    return moesi_from_old(m->ports,", "    return MOESI_ACCEPTED & moesi_from_old(m->ports,"),
    ("an old set clears a word of memory",
     "    return moesi_from_old(m->ports,",
     "    if (m->sizes.memory > 0)\n        moesi_put_word(m->memory, 0, 0);\n    return moesi_from_old(m->ports,"),
    ("a refusal of a model is not handed on",
     "    return moesi_to_old(m->ports,", "    return MOESI_ACCEPTED & moesi_to_old(m->ports,"),
    ("a model that is converted loses a copy",
     "    return moesi_to_old(m->ports,",
     "    if (m->ports > 0 && states_len == m->sizes.states && m->states[0] == MOESI_BACK_SHARED)\n"
     "        m->states[0] = MOESI_INVALID;\n    return moesi_to_old(m->ports,"),
    ("a struct of zeros is converted",
     "    return moesi_to_old(m->ports,",
     "    if (m->ports == 0)\n        return MOESI_ACCEPTED;\n    return moesi_to_old(m->ports,"),
]


def edit(name, source, old, new):
    """The source with a text in the place of another, which occurs once; or with several, if they are lists."""
    for one, other in zip(old, new) if isinstance(old, list) else [(old, new)]:
        if source.count(one) != 1:
            sys.exit(f"mutant '{name}': its text occurs {source.count(one)} times")
        source = source.replace(one, other)
    return source


def main():
    """mutants.py walking|ranges|swaps|totals|edition|rules|trace|rows|flat|marks|header SOURCE FOLDER, or two with the
    same slip: both|listed|same|failed|counted|ranged WALKING SECOND FOLDER, or letters PLAIN SECOND FOLDER.

    Prints number and name of each. A header keeps its name, in a folder that has the number.
    """
    which, *sources, folder = sys.argv[1:]
    texts = [pathlib.Path(source).read_text() for source in sources]
    folder = pathlib.Path(folder)
    folder.mkdir(parents=True, exist_ok=True)
    lists = {"walking": WALKING, "totals": TOTALS, "trace": TRACE, "rows": ROWS, "both": BOTH, "listed": LISTED,
             "same": SAME, "flat": FLAT, "counted": COUNTED, "edition": EDITION, "letters": LETTERS, "rules": RULES,
             "ranges": RANGES, "ranged": RANGED, "marks": MARKS, "header": HEADER, "swaps": SWAPPED, "failed": QUIET}
    for number, (name, *edits) in enumerate(lists[which], 1):
        for place, text in enumerate(texts):
            old, new = edits[2 * place:2 * place + 2]
            suffix = "" if place == 0 else "_second"
            file = folder / (f"{number:03}/moesi.h" if which == "header" else f"{number:03}{suffix}.c")
            file.parent.mkdir(exist_ok=True)
            file.write_text(edit(name, text, old, new))
        print(f"{number:03} {name}")


main()
