#!/usr/bin/env python3
"""Tests the program totals: its output against the second model's and against literal text; prints a line per test."""

import struct

from trace_test import (DEVICE_READ, DEVICE_WRITE, EXAMPLE_TRACE, FLUSH, MOST_ORDERS, READ, SWAP, WRITE, finish,
                        random_trace, start, trace, word)

MOST_TRACES = 9999
NOTHING = " 0" * 10 + "\n"
REFUSED = [b"", b"refused 1\n", b"refused 2\n"]
EMPTY = trace(1, 1, 1, [])

# Document 01's example: a write from memory, a read through that stores, a refused port.
EXAMPLE_ROW = " 1 1 0 0 0 0 1 1 1 0\n"

# The orders of document 01's list on memory of zeros, and a device write and a flush: what they read, write and swap,
# as orders 4 and 7 of document 02 amend it.
LISTED = [(word(READ, 1, 0), 0),                              # 1/0
          (word(READ, 1, 1), 0),                              # 1/0
          (word(WRITE, 1, 1, 0xFF), 9),                       # 0/0
          (word(DEVICE_READ), 0),                             # 1/0
          (word(READ, 0, 0), 0),                              # 0/1
          (word(DEVICE_READ), 0),                             # 1/0
          (word(SWAP, 1, 0, 0x0F, compare=9), 4),             # 0/0, swapped
          (word(SWAP, 1, 1, 0x0F, compare=9), 0),             # 0/0
          (word(WRITE, 0, 0, 0x01, line=1), 0x1FF),           # 1/2
          (word(FLUSH, 0, 1, line=1), 0),                     # 0/0
          (word(SWAP, 1, 1, 0xF0, line=1, compare=1), 0),     # 1/0
          (word(WRITE, 1, 1, 0x00, line=1), 0),               # 0/0
          (word(SWAP, 0, 0, 0xF0, line=1, compare=1), 0),     # 0/1
          (word(READ, 0, 2), 0),                              # refused 5
          (word(DEVICE_WRITE, mask=0xFF), 1),                 # 1/1
          (word(WRITE, 1, 0, 0xFF), 2),                       # 1/0
          (word(FLUSH, 0, 0), 0),                             # 0/1
          (word(6), 0), (word(7), 0),                         # refused 4
          (word(DEVICE_READ, line=2), 0),                     # refused 6
          (word(SWAP, mask=0xFF), 0)]                         # refused 7
LISTED_ROW = " 3 4 4 2 2 1 5 8 6 1\n"

# Shapes that are refused 2.
NO_SHAPES = [(0, 1, 1), (9, 1, 1), (2 ** 32 - 1, 1, 1), (1, 0, 1), (1, 3, 1), (1, 128, 1), (1, 1, 0), (1, 1, 4097)]


def text(*rows, refusal=0, total):
    """The program's text: the rows of the traces, a refusal if there is one, and the sum row."""
    lines = "".join(f"{k}{row}" for k, row in enumerate(rows, 1))
    return lines.encode() + REFUSED[refusal] + f"0{total}".encode()


def literals(tester):
    """What is worked out by hand."""
    example, listed = EXAMPLE_TRACE, trace(2, 1, 2, LISTED)
    tester.test("empty input", [tester.agrees(b"", text(total=NOTHING))])
    tester.test("document 01's example", [
        tester.agrees(example, b"1 1 1 0 0 0 0 1 1 1 0\n0 1 1 0 0 0 0 1 1 1 0\n"),
        tester.agrees(example * 3, b"1 1 1 0 0 0 0 1 1 1 0\n2 1 1 0 0 0 0 1 1 1 0\n3 1 1 0 0 0 0 1 1 1 0\n"
                                   b"0 3 3 0 0 0 0 3 3 3 0\n")])
    tester.test("orders of each kind, and refused ones", [
        tester.agrees(listed, text(LISTED_ROW, total=LISTED_ROW)),
        tester.agrees(example + listed + EMPTY,
                      text(EXAMPLE_ROW, LISTED_ROW, NOTHING, total=" 4 5 4 2 2 1 6 9 7 1\n"))])
    # A trace starts from fresh on memory of zeros, whatever the one before it left.
    written = trace(1, 1, 1, [(word(WRITE, 0, mask=0xFF), 1), (word(SWAP, mask=0x0F, compare=1), 2)])
    tester.test("each trace from fresh on memory of zeros", [
        tester.agrees(written + trace(1, 1, 1, [(word(SWAP, mask=0x0F, compare=0), 1)]),
                      text(" 0 1 1 0 0 0 0 1 2 1\n", " 0 0 1 0 0 0 0 1 1 1\n", total=" 0 1 2 0 0 0 0 2 3 2\n")),
        tester.agrees(trace(1, 1, 1, [(word(WRITE, 1, mask=0xFF), 1)]) + trace(1, 1, 1, [(word(READ, 1), 0)]),
                      text(" 0 1 0 0 0 0 0 1 0 0\n", " 1 0 0 0 0 0 0 1 0 0\n", total=" 1 1 0 0 0 0 0 2 0 0\n"))])


def cuts(tester, generator):
    """Refusal 1: by the length."""
    stream = EXAMPLE_TRACE + EMPTY + trace(2, 1, 2, [(word(READ), 0)])
    rows = [EXAMPLE_ROW, NOTHING, " 1 0 0 0 0 0 0 1 0 0\n"]
    totals = [NOTHING, EXAMPLE_ROW, EXAMPLE_ROW, " 2 1 0 0 0 0 1 2 1 0\n"]
    ends = [0, 64, 80, 112]

    def wanted(cut):
        whole = sum(end <= cut for end in ends[1:])
        return text(*rows[:whole], refusal=0 if cut in ends else 1, total=totals[whole])

    tester.test("a stream cut at every byte",
                (tester.agrees(stream[:cut], wanted(cut)) for cut in range(len(stream) + 1)))
    longer = b"".join(random_trace(generator, count) for count in (3, 0, MOST_ORDERS, 7))
    tester.test("a longer stream cut at random bytes",
                (tester.agrees(longer[:generator.randrange(len(longer))]) for _ in range(30)))
    tester.test("a trace that says more orders than there are",
                (tester.agrees(before + trace(2, 1, 2, [(0x10, 0)] * count, said))
                 for before in (b"", EXAMPLE_TRACE) for count in (0, 1, 16) for said in (17, 2047, 2048)))


def refusals(tester):
    """A refused trace ends the reading, wherever it is and whatever comes behind it; the sum row follows."""
    example = EXAMPLE_TRACE
    tester.test("more than 2,048 orders, and good traces behind them",
                (tester.agrees(example * before + struct.pack("<4I", 2, 1, 2, said) + behind,
                               text(*[EXAMPLE_ROW] * before, refusal=1, total=EXAMPLE_ROW if before else NOTHING))
                 for before in (0, 1) for said in (2049, 4096, 65536, 1 << 28, (1 << 28) + 1, (1 << 32) - 1)
                 for behind in (b"", example, EMPTY * 3, trace(2, 1, 2, [(0x10, 0)] * 2049)[16:] + example)))
    tester.test("refused 2 at the start, in the middle and at the end",
                (tester.agrees(example * before + trace(*shape, [(0x10, 0)] * count) + behind,
                               text(*[EXAMPLE_ROW] * before, refusal=2, total=EXAMPLE_ROW if before else NOTHING))
                 for shape in NO_SHAPES for before, count in ((0, 2), (1, 0)) for behind in (b"", example)))
    tester.test("refused 1 before refused 2",
                (tester.agrees(example + trace(*shape, [(0x10, 0)] * 2, said),
                               text(EXAMPLE_ROW, refusal=1, total=EXAMPLE_ROW))
                 for shape in NO_SHAPES for said in (3, 2048, 2049)))
    tester.test("a refused trace that ends a longer stream",
                [tester.agrees(example * 12 + trace(9, 1, 1, []) + EMPTY,
                               text(*[EXAMPLE_ROW] * 12, refusal=2, total=" 12 12 0 0 0 0 12 12 12 0\n"))])


def many(tester):
    """The 9,999th trace is the last, whatever comes behind it."""
    full = EMPTY * MOST_TRACES
    rows = [NOTHING] * MOST_TRACES
    behind = [b"", EMPTY, EMPTY * 2, b"\0", EMPTY[:15], trace(9, 1, 1, []), trace(1, 1, 1, [], 2049), EXAMPLE_TRACE]
    tester.test("9,999 traces, and what comes behind them",
                (tester.agrees(full + more, text(*rows, total=NOTHING)) for more in behind))
    tester.test("9,998 traces and a last one", [
        tester.agrees(full[16:], text(*rows[1:], total=NOTHING)),
        tester.agrees(full[16:] + EXAMPLE_TRACE + EMPTY, text(*rows[1:], EXAMPLE_ROW, total=EXAMPLE_ROW)),
        tester.agrees(full[16:] + trace(9, 1, 1, []), text(*rows[1:], refusal=2, total=NOTHING)),
        tester.agrees(full[16:] + b"\0", text(*rows[1:], refusal=1, total=NOTHING))])
    read = " 1 0 0 0 0 0 0 1 0 0\n"
    tester.test("10,001 traces of an order each",
                [tester.agrees(trace(1, 1, 1, [(word(READ), 0)]) * 10001,
                               text(*[read] * MOST_TRACES, total=" 9999 0 0 0 0 0 0 9999 0 0\n"))])


def random_stream(generator):
    """Some random traces; then nothing, or a cut one, or a refused one, and sometimes good ones behind that."""
    stream = b"".join(random_trace(generator, generator.randrange(40)) for _ in range(generator.randrange(6)))
    last = random_trace(generator, 1 + generator.randrange(20))
    end = generator.choice((b"", b"", last[:generator.randrange(len(last))], trace(*generator.choice(NO_SHAPES), []),
                            struct.pack("<4I", 1, 1, 1, generator.randrange(2040, 2 ** 32)), generator.randbytes(40)))
    return stream + end + generator.choice((b"", random_trace(generator, 3)))


def main():
    chosen, tester, generator = start("totals", 150)
    literals(tester)
    tester.test("2,048 orders",
                [tester.agrees(b"".join(random_trace(generator, count) for count in (MOST_ORDERS, 2047, MOST_ORDERS)))])
    if not chosen.short:
        many(tester)
        refusals(tester)
        cuts(tester, generator)
        short = EXAMPLE_TRACE + trace(2, 1, 2, [(word(READ), 0)]) + EMPTY
        tester.test("traces that come in pieces",
                    (tester.in_pieces(data, sizes, 0.001)
                     for data in (short, short + EMPTY[:9], short + trace(0, 1, 1, []), random_trace(generator, 20) * 2)
                     for sizes in ((17, 1, 30), (1,), (3, 64, 5))))
    tester.test("random streams", (tester.agrees(random_stream(generator)) for _ in range(chosen.random)))
    finish(chosen, tester)


if __name__ == "__main__":
    main()
