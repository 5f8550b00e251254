#!/usr/bin/env python3
"""Tests the program trace: its output against the second model's and against literal text; prints a line per test."""

import argparse
import itertools
import random
import shlex
import struct
import subprocess
import sys
import time

EXAMPLE = b"""ports 2 sets 1 lines 2 orders 3
1 0 0 0 1 0
2 0 9 0 0 1
3 5 0 0 0 0
audit 1
"""

READ, WRITE, SWAP, FLUSH, DEVICE_READ, DEVICE_WRITE = range(6)
MOST_ORDERS = 2048


def word(kind, mode=0, port=0, mask=0, line=0, compare=0):
    return kind | mode << 3 | port << 4 | mask << 8 | line << 16 | compare << 32


def trace(ports, sets, lines, orders, said=None):
    """The bytes of a trace; orders are pairs of word and operand."""
    head = struct.pack("<4I", ports, sets, lines, len(orders) if said is None else said)
    words = b"".join(struct.pack("<Q", order[0]) for order in orders)
    operands = b"".join(struct.pack("<Q", order[1]) for order in orders)
    return head + words + operands


EXAMPLE_TRACE = trace(2, 1, 2, [(0xFF09, 9), (0x10, 0), (0x20, 0)])


def random_order(generator, ports, sets, lines):
    kind = generator.choices(range(8), (20, 20, 20, 8, 12, 12, 1, 1))[0]
    port = generator.randrange(ports) if generator.random() < 0.95 else generator.randrange(16)
    line = generator.randrange(min(lines, 2 * sets + 2)) if generator.random() < 0.8 else generator.randrange(lines)
    if generator.random() < 0.03:
        line = generator.randrange(65536)
    mask = generator.choice((0x0F, 0xF0)) if kind == SWAP and generator.random() < 0.95 else generator.randrange(256)
    if kind in (DEVICE_READ, DEVICE_WRITE):
        port = generator.randrange(16)
        mask = generator.choice((0, 0xFF, mask))
    compare = generator.choice((0, 0, 1, 2, generator.getrandbits(32)))
    operand = generator.choice((0, 1, 1 << 32, 2, generator.getrandbits(64)))
    return word(kind, generator.randrange(2), port, mask, line, compare), operand


def random_trace(generator, count=None):
    ports = generator.randint(1, 8)
    sets = 1 << generator.randrange(7)
    lines = generator.choice((1, 2, 5, sets, 2 * sets, 64, 1000, 4095, 4096))
    count = generator.randrange(60) if count is None else count
    orders = []
    while len(orders) < count:
        # Often the order before once more, in either mode: a write then stores the same.
        if orders and generator.random() < 0.2:
            orders.append((orders[-1][0] ^ generator.choice((0, 8)), orders[-1][1]))
        else:
            orders.append(random_order(generator, ports, sets, lines))
    return trace(ports, sets, lines, orders)


class Tester:
    def __init__(self, program, chosen):
        self.name = chosen.name
        self.program = program
        self.expected = [chosen.expected]
        self.timeout = chosen.timeout
        self.first = chosen.first
        self.trust = chosen.trust
        self.failed = 0
        self.runs = 0

    def run(self, command, data):
        done = subprocess.run(command, input=data, stdout=subprocess.PIPE, stderr=subprocess.PIPE, timeout=self.timeout)
        return done.returncode, done.stdout, done.stderr

    def agrees(self, data, literal=None):
        """Whether the program ends and prints what the second model prints, and the literal text if there is one."""
        self.runs += 1
        try:
            status, out, err = self.run(self.program, data)
        except subprocess.TimeoutExpired:
            print(f"  no end after {self.timeout} s on {len(data)} bytes: {data[:64].hex()}")
            return False
        trusted = self.trust and literal is not None
        wanted = literal if trusted else self.run(self.expected, data)[1]
        if literal is not None and wanted != literal:
            print(f"  the second model prints {wanted[:200]!r}, not {literal[:200]!r}")
            return False
        # A status below 0 is a signal; 9 is what a memory checker is told to end with.
        if status < 0 or status == 9 or out != wanted:
            print(f"  on {len(data)} bytes, {data[:64].hex()}: status {status}")
            print(f"  expected {wanted[:300]!r}\n  got      {out[:300]!r}\n  {err[:300]!r}")
            return False
        return True

    def test(self, name, outcomes):
        fine = all(outcomes)
        self.failed += not fine
        print(f"{'ok' if fine else 'FAILED'} {self.name}: {name}", flush=True)
        if self.first and not fine:
            sys.exit(1)

    def in_pieces(self, data, sizes, pause):
        """Feeds the input in pieces of these sizes in turn, so that a read gets less than it asks for."""
        self.runs += 1
        child = subprocess.Popen(self.program, bufsize=0, stdin=subprocess.PIPE, stdout=subprocess.PIPE)
        place = 0
        try:
            for size in itertools.cycle(sizes):
                if place >= len(data):
                    break
                child.stdin.write(data[place:place + size])
                time.sleep(pause)
                place += size
        except BrokenPipeError:
            # The program ended before it had all of the input, as it may after a refusal.
            pass
        child.stdin.close()
        out = child.stdout.read()
        return child.wait(self.timeout) >= 0 and out == self.run(self.expected, data)[1]


def lengths(tester, generator):
    """Refusal 1: by the length."""
    refused = b"refused 1\n"
    example = EXAMPLE_TRACE
    longer = random_trace(generator, 10)
    full = random_trace(generator, MOST_ORDERS)
    tester.test("empty input", [tester.agrees(b"", refused)])
    tester.test("every cut of the first 64 bytes",
                (tester.agrees(data[:cut], refused) for data in (example, longer) for cut in range(64)))
    tester.test("longer by 1, 16 and 100,000 bytes",
                (tester.agrees(data + b"\0" * more, refused)
                 for data in (example, longer, full, trace(2, 1, 2, [])) for more in (1, 16, 100000)))
    tester.test("shorter by 1 and by 16 bytes",
                (tester.agrees(data[:-less], refused) for data in (example, longer, full) for less in (1, 16)))
    tester.test("another number of orders than there are",
                (tester.agrees(trace(2, 1, 2, [(0x10, 0)] * count, said), refused)
                 for count in (0, 1, 2, 16) for said in (3, 17, 2048, 2049, 1 << 28, (1 << 28) + 1, (1 << 32) - 1)))
    tester.test("2,049 orders and more, all there",
                (tester.agrees(trace(2, 1, 2, [(0x10, 0)] * count), refused) for count in (2049, 4096, 65536)))


def shapes(tester):
    """Refusal 2, and refusal 1 before it."""
    wrong = [(0, 1, 1), (9, 1, 1), (2 ** 32 - 1, 1, 1), (257, 1, 1), (1, 0, 1), (1, 3, 1), (1, 65, 1), (1, 128, 1),
             (1, 2 ** 31, 1), (1, 1, 0), (1, 1, 4097), (1, 1, 2 ** 32 - 1), (1, 1, 65537), (0, 0, 0),
             (2 ** 32 - 1, 2 ** 32 - 1, 2 ** 32 - 1)]
    tester.test("refused 2, each number of the shape",
                (tester.agrees(trace(*shape, [(0x10, 0)] * count), b"refused 2\n")
                 for shape in wrong for count in (0, 1, 3)))
    tester.test("refused 1 before refused 2",
                (tester.agrees(trace(*shape, [(0x10, 0)] * 2, said), b"refused 1\n")
                 for shape in wrong for said in (1, 3, 2049)))


def orders(tester, generator):
    """Orders that are refused, and the numbers of orders at their ends."""
    refused = [(word(6), 0), (word(7), 0), (word(READ, port=2), 0), (word(FLUSH, port=15), 0),
               (word(READ, line=2), 0), (word(DEVICE_READ, port=15, line=65535), 0), (word(SWAP, mask=0xFF), 0),
               (word(SWAP, mask=0x0E), 0), (word(7, port=9, mask=3, line=9), 0), (word(SWAP, port=9, mask=3, line=9), 0),
               (word(SWAP, port=1, mask=3, line=9), 0), (word(DEVICE_WRITE, line=2), 0),
               (word(DEVICE_WRITE, port=15, mask=3, line=9), 0), (word(6, port=15, line=9), 0)]
    numbers = [4, 4, 5, 5, 6, 6, 7, 7, 4, 5, 6, 6, 6, 4]
    accepted = [(word(DEVICE_READ, port=15), 0), (word(DEVICE_WRITE, port=15, mask=3), 0)]
    literal = "ports 2 sets 1 lines 2 orders 16\n"
    literal += "".join(f"{k + 1} {number} 0 0 0 0\n" for k, number in enumerate(numbers))
    literal += "15 0 0 0 1 0\n16 0 0 0 1 1\naudit 1\n"
    tester.test("orders refused 4, 5, 6 and 7",
                [tester.agrees(trace(2, 1, 2, refused + accepted), literal.encode())])
    tester.test("no orders", (tester.agrees(trace(*shape, []), b"ports %d sets %d lines %d orders 0\naudit 1\n" % shape)
                              for shape in ((1, 1, 1), (2, 1, 2), (8, 64, 4096))))
    tester.test("2,048 orders", (tester.agrees(random_trace(generator, MOST_ORDERS)) for _ in range(6)))
    largest = 2 ** 64 - 1
    tester.test("the largest numbers",
                [tester.agrees(trace(1, 1, 1, [(word(WRITE, 1, mask=0xFF), largest), (0, 0)]),
                               b"ports 1 sets 1 lines 1 orders 2\n1 0 0 0 1 0\n2 0 18446744073709551615 0 0 1\naudit 1\n")])


def device_writes(tester):
    """Onto a line that nobody holds, that a port owns and that two ports share; then ports read the device's bytes."""
    listed = [(word(DEVICE_WRITE, mask=0xFF), 0x0201), (word(WRITE, 1, 0, 0xFF), 0x0403), (word(DEVICE_READ), 0),
              (word(DEVICE_WRITE, 1, 15, 0x01, compare=9), 0x0605), (word(DEVICE_READ), 0), (word(READ, 1, 1), 0),
              (word(READ, 0, 0), 0), (word(DEVICE_WRITE, mask=0x02), 0x0807), (word(READ, 1, 1), 0),
              (word(DEVICE_WRITE, mask=0x00, line=1), 0x0807), (word(READ, 0, 0, line=1), 0)]
    answers = ["0 0 1 1", "0 0 1 0", f"{0x0201} 0 1 0", "0 0 0 1", f"{0x0405} 0 1 0", f"{0x0405} 0 1 0",
               f"{0x0405} 0 1 0", "0 0 1 1", f"{0x0805} 0 1 0", "0 0 1 1", "0 0 1 0"]
    literal = "ports 2 sets 1 lines 2 orders 11\n"
    literal += "".join(f"{k + 1} 0 {answer}\n" for k, answer in enumerate(answers)) + "audit 1\n"
    tester.test("device writes", [tester.agrees(trace(2, 1, 2, listed), literal.encode())])


def same_stores(tester):
    """Stores that store the same: on E they leave no owner, on a miss, S and O they do; and one that changes a byte."""
    listed = [(word(READ, 1, 0), 0), (word(WRITE, 1, 0, 0xFF), 0), (word(SWAP, 1, 0, 0x0F), 0), (word(READ, 1, 1), 0),
              (word(WRITE, 1, 1, 0x00), 9), (word(WRITE, 1, 1, 0xFF), 0), (word(READ, 0, 0), 0),
              (word(FLUSH, 0, 1), 0), (word(FLUSH, 0, 0), 0), (word(WRITE, 1, 0, 0xFF), 0), (word(FLUSH, 0, 0), 0),
              (word(READ, 0, 0), 0), (word(WRITE, 1, 0, 0x00), 5), (word(FLUSH, 0, 0), 0), (word(READ, 1, 0), 0),
              (word(WRITE, 1, 0, 0x80), 1 << 56), (word(FLUSH, 0, 0), 0), (word(DEVICE_READ), 0)]
    answers = ["0 0 1 0", "0 0 0 0", "0 1 0 0", "0 0 1 0",
               "0 0 0 0", "0 0 0 0", "0 0 0 1",
               "0 0 0 0", "0 0 0 0", "0 0 1 0", "0 0 0 1",
               "0 0 1 0", "0 0 0 0", "0 0 0 0", "0 0 1 0",
               "0 0 0 0", "0 0 0 1", f"{1 << 56} 0 1 0"]
    literal = "ports 2 sets 1 lines 2 orders 18\n"
    literal += "".join(f"{k + 1} 0 {answer}\n" for k, answer in enumerate(answers)) + "audit 1\n"
    tester.test("stores that store the same", [tester.agrees(trace(2, 1, 2, listed), literal.encode())])


def failed_swaps(tester):
    """Swaps that fail: of a line that nobody holds, that a port has clean and that a port owns, in either mode; of one
    whose port owns another line; and of the other half. Copies stay, so that nothing is read again."""
    listed = [(word(WRITE, 0, 0, 0xFF), 0x700000005), (word(SWAP, 1, 1, 0x0F, compare=6), 9),
              (word(READ, 1, 0), 0), (word(WRITE, 1, 0, 0x01), 8), (word(FLUSH, 0, 1), 0),
              (word(SWAP, 1, 1, 0x0F, compare=5), 9), (word(DEVICE_READ), 0), (word(FLUSH, 0, 1), 0),
              (word(SWAP, 0, 1, 0xF0, compare=8), 9 << 32), (word(DEVICE_READ), 0), (word(READ, 0, 0), 0),
              (word(WRITE, 1, 0, 0xFF, line=1), 3), (word(SWAP, 1, 1, 0xF0, line=1, compare=3), 9),
              (word(SWAP, 0, 0, 0x0F, compare=7), 9), (word(SWAP, 1, 1, 0x0F, line=1, compare=3), 4)]
    answers = ["0 0 1 1", f"{0x700000005} 0 1 0",
               f"{0x700000005} 0 0 0", "0 0 0 0", "0 0 0 0",
               f"{0x700000008} 0 0 0", f"{0x700000005} 0 1 0", "0 0 0 0",
               f"{0x700000008} 0 0 1", f"{0x700000008} 0 1 0", f"{0x700000008} 0 0 0",
               "0 0 1 0", "3 0 0 0",
               f"{0x700000008} 0 1 1", "3 1 0 0"]
    literal = "ports 2 sets 1 lines 2 orders 15\n"
    literal += "".join(f"{k + 1} 0 {answer}\n" for k, answer in enumerate(answers)) + "audit 1\n"
    tester.test("swaps that fail", [tester.agrees(trace(2, 1, 2, listed), literal.encode())])


def start(name, inputs):
    """The options, what runs the program and compares, and the random numbers."""
    parser = argparse.ArgumentParser()
    parser.add_argument("program", help=f"the program {name}")
    parser.add_argument("expected", help="the program over the second model")
    parser.add_argument("--name", default=name, help="what the tests are called by")
    parser.add_argument("--wrap", default="", help="a command to run the program under")
    parser.add_argument("--random", type=int, default=inputs, help="random inputs")
    parser.add_argument("--seed", type=int, default=1)
    parser.add_argument("--timeout", type=float, default=60, help="seconds in which the program must end")
    parser.add_argument("--first", action="store_true", help="stop at the first test that fails")
    parser.add_argument("--trust", action="store_true", help="don't ask the second model where there is literal text")
    parser.add_argument("--short", action="store_true", help="the literal text, the ends and the random inputs only")
    chosen = parser.parse_args()
    program = shlex.split(chosen.wrap) + [chosen.program]
    return chosen, Tester(program, chosen), random.Random(chosen.seed)


def finish(chosen, tester):
    print(f"  {tester.runs} inputs, seed {chosen.seed}")
    sys.exit(tester.failed != 0)


def main():
    chosen, tester, generator = start("trace", 300)
    example = EXAMPLE_TRACE
    tester.test("document 01's example, byte for byte", [tester.agrees(example, EXAMPLE)])
    if not chosen.short:
        lengths(tester, generator)
        shapes(tester)
        tester.test("a trace that comes in pieces",
                    (tester.in_pieces(data, size, 0.002) for data in (example, example[:40], random_trace(generator, 20))
                     for size in ((1,), (7,), (16,))))
    orders(tester, generator)
    device_writes(tester)
    same_stores(tester)
    failed_swaps(tester)
    tester.test("random traces", (tester.agrees(random_trace(generator)) for _ in range(chosen.random)))
    finish(chosen, tester)


if __name__ == "__main__":
    main()
