#!/usr/bin/env python3
"""Tests the published tables as a chip designer uses them: a design built from the rows of the comma separated form, and from the scope's words on
lines, merging and swaps, answers as the library does and leaves the states that the library leaves; from fresh it goes by exactly the rows that say
"audit yes"; and the text has the same rows. Prints a line per test."""

import argparse
import csv
import random
import subprocess
import sys

from trace_test import DEVICE_READ, DEVICE_WRITE, FLUSH, READ, SWAP, WRITE, trace, word

KNOWN = ("table", "access", "mode", "shared", "dirty", "hears", "state")
FOLLOWS = ("next", "sends", "word", "takes", "reads", "writes")
NAMES = KNOWN + FOLLOWS + ("audit",)
OUTCOMES = ("read", "write", "rewrite")
BYTES = {"I": 0, "S-through": 1, "E-through": 2, "S-back": 9, "E-back": 10, "O": 11, "M": 12}
VALUES = {
    "next": tuple(BYTES),
    "sends": ("quiet", "invalidate", "share-owned", "share-through", "share-back", "update-through", "update-back"),
    "word": ("own", "owner", "memory"),
    "takes": ("no", "yes"),
    "reads": ("0", "1"),
    "writes": ("0", "1"),
}
ROWS = {"access": 114, "snoop": 42, "take-over": 7, "flush": 7, "device-write": 2, "device-read": 1}
MOST_ORDERS = 2048
WORD = (1 << 64) - 1


class Broken(Exception):
    """The tables lack a row, or have no word where one is wanted."""


def yes(truth):
    return "yes" if truth else "no"


def merged(mask, before, operand):
    bits = sum(0xFF << 8 * k for k in range(8) if mask >> k & 1)
    return before & ~bits & WORD | operand & bits


def answer(rows, value=0, swapped=0):
    """The five numbers of an order that goes by these rows."""
    return 0, value, swapped, sum(int(row["reads"]) for row in rows), sum(int(row["writes"]) for row in rows)


class Design:
    """Caches and memory that take from the rows what becomes of states and words, and what is counted."""

    def __init__(self, table, ports, sets, lines):
        self.table, self.ports, self.sets = table, ports, sets
        self.memory = [0] * lines
        self.cache = [[["I", 0, 0] for _ in range(sets)] for _ in range(ports)]
        self.met = set()

    def row(self, **known):
        key = tuple(known.get(name, "") for name in KNOWN)
        if key not in self.table:
            raise Broken(f"no row for {known}")
        self.met.add(key)
        return self.table[key]

    def entry(self, port, line):
        return self.cache[port][line % self.sets]

    def state(self, port, line):
        state, tag, _ = self.entry(port, line)
        return state if tag == line // self.sets else "I"

    def holders(self, line):
        return [port for port in range(self.ports) if self.state(port, line) != "I"]

    def owners(self, line):
        return [port for port in range(self.ports) if self.state(port, line) in ("O", "M")]

    def found(self, source, line, port=None):
        if source == "memory":
            return self.memory[line]
        if source == "owner":
            if not self.owners(line):
                raise Broken("the word of an owner, and there is none")
            return self.entry(self.owners(line)[0], line)[2]
        if port is None:
            raise Broken("the own word of a device")
        return self.entry(port, line)[2]

    def hear(self, command, line, ports, new):
        """The rows of those who hear a command, done."""
        rows = []
        for port in ports:
            row = self.row(table="snoop", hears=command, state=self.state(port, line))
            entry = self.entry(port, line)
            entry[0] = row["next"]
            if row["takes"] == "yes":
                entry[2] = new
            rows.append(row)
        return rows

    def access(self, kind, mode, port, mask, line, compare, operand):
        state, holders = self.state(port, line), self.holders(line)
        others = [other for other in holders if other != port]
        known = {
            "table": "access",
            "mode": "back" if mode else "through",
            "shared": yes(others),
            "dirty": yes(self.owners(line)),
            "state": state,
        }
        key = tuple(known.get(name, "") for name in KNOWN)
        # The word comes from where the row says; it says so alike for all three outcomes, of which the word then decides.
        sources = {self.table.get((*key[:1], outcome, *key[2:]), {}).get("word") for outcome in OUTCOMES}
        if len(sources) != 1:
            raise Broken(f"the word comes from {sources}")
        before = self.found(sources.pop(), line, port)
        half = before & 0xFFFFFFFF if mask == 0x0F else before >> 32
        swapped = kind == SWAP and half == compare
        writes = kind == WRITE or swapped
        new = merged(mask, before, operand) if writes else before
        outcome = "read" if not writes else "rewrite" if new == before else "write"
        row = self.row(access=outcome, **known)
        rows = [row]
        entry = self.entry(port, line)
        if state == "I":
            rows.append(self.row(table="take-over", state=entry[0]))
            if rows[-1]["writes"] == "1":
                self.memory[entry[1] * self.sets + line % self.sets] = entry[2]
        rows += self.hear(row["sends"], line, others, new)
        entry[:] = [row["next"], line // self.sets, new]
        if row["writes"] == "1":
            self.memory[line] = new
        return answer(rows, 0 if kind == WRITE else before, int(swapped))

    def flush(self, port, line):
        row = self.row(table="flush", state=self.state(port, line))
        if self.state(port, line) != "I":
            entry = self.entry(port, line)
            if row["writes"] == "1":
                self.memory[line] = entry[2]
            entry[0] = row["next"]
        return answer([row])

    def device_write(self, mask, line, operand):
        row = self.row(table="device-write", dirty=yes(self.owners(line)))
        new = merged(mask, self.found(row["word"], line), operand)
        if row["writes"] == "1":
            self.memory[line] = new
        return answer([row] + self.hear(row["sends"], line, self.holders(line), new))

    def step(self, kind, mode, port, mask, line, compare, operand):
        if kind == FLUSH:
            return self.flush(port, line)
        if kind == DEVICE_READ:
            row = self.row(table="device-read")
            return answer([row], self.found(row["word"], line))
        if kind == DEVICE_WRITE:
            return self.device_write(mask, line, operand)
        return self.access(kind, mode, port, mask, line, compare, operand)


def random_run(generator):
    """A shape and orders that are all accepted: few lines, so that caches meet."""
    ports, sets = generator.randint(1, 4), generator.choice((1, 1, 2, 4))
    lines = generator.randint(1, 3 * sets)
    orders = []
    for _ in range(MOST_ORDERS):
        kind = generator.choices((READ, WRITE, SWAP, FLUSH, DEVICE_READ, DEVICE_WRITE), (30, 30, 20, 8, 8, 4))[0]
        mask = generator.choice((0x0F, 0xF0)) if kind == SWAP else generator.choice((0, 1, 0x0F, 0xFF))
        orders.append((kind, generator.randrange(2), generator.randrange(ports), mask, generator.randrange(lines), generator.randrange(3),
                       generator.choice((0, 1, 2, 1 << 32, 2 << 32))))
    return ports, sets, lines, orders


def asked(program, run):
    """What the library answers to a run, by tests/traced_states.c: for each order five numbers, and the line's states."""
    ports, sets, lines, orders = run
    given = trace(ports, sets, lines, [(word(*order[:6]), order[6]) for order in orders])
    printed = subprocess.run([program], input=given, capture_output=True, check=True).stdout.decode().splitlines()
    return [tuple(int(number) for number in line.split()) for line in printed]


def differs(table, runs, answers):
    """Where the design goes another way than the program, or None; and the rows that it went by."""
    met = set()
    for run, given in zip(runs, answers):
        design = Design(table, *run[:3])
        for place, (order, expected) in enumerate(zip(run[3], given), 1):
            try:
                own = design.step(*order) + tuple(BYTES[design.state(port, order[4])] for port in range(run[0]))
            except Broken as broken:
                return f"order {place}: {broken}", met
            if own != expected:
                return f"order {place}, {order}: {own} and not {expected}", met
        met |= design.met
    return None, met


def rows_of_text(path):
    """The rows of the text, as the comma separated form has them."""
    rows, names, tables = [], [], iter(ROWS)
    table = None
    for line in open(path, encoding="ascii"):
        if line.startswith("#") or not line.strip():
            names = []
        elif not names:
            names, table = line.split(), next(tables)
        else:
            cells = dict(zip(names, line.split(), strict=True))
            rows.append({name: table if name == "table" else cells.get(name, "") for name in NAMES})
    return rows


def hearers(row):
    """The states in which, on tables that pass the audit, another holder may hear what the row sends."""
    if row["table"] == "device-write":
        return ("S-back", "O", "M") if row["dirty"] == "yes" else ("S-through", "E-through", "S-back", "E-back")
    if row["table"] != "access" or row["shared"] == "no":
        return ()
    if row["state"] == "I":
        return ("S-back", "O", "M") if row["dirty"] == "yes" else ("S-through", "E-through", "S-back", "E-back")
    if row["state"] == "S-back" and row["dirty"] == "yes":
        return ("S-back", "O")
    return ("S-through",) if row["state"] == "S-through" else ("S-back",)


def alike(table, row, command):
    """No hearer can tell the command from the one that the row sends: its next state is the same, and it takes the line's word by both, or has
    that word, or gives its entry up."""
    for state in hearers(row):
        one, other = (table[("snoop", "", "", "", "", sends, state)] for sends in (row["sends"], command))
        changed = row["access"] == "write" or row["table"] == "device-write"
        if one["next"] != other["next"] or one["takes"] != other["takes"] and changed and one["next"] != "I":
            return False
    return True


def alterations(table):
    """Every other value of every cell that follows, in rows of tables that pass the audit, but for those that no run from fresh can show: a command
    that its hearers can't tell from the right one; that a holder takes a word which it has, or an entry which it gives up; and the next state of a
    flush where the port does not hold the line."""
    for row in table.values():
        for name in FOLLOWS:
            if row["audit"] == "no" or not row[name]:
                continue
            if name == "takes" and not row["hears"].startswith("update") or name == "next" and (row["table"], row["state"]) == ("flush", "I"):
                continue
            for value in VALUES[name]:
                if value != row[name] and not (name == "sends" and alike(table, row, value)):
                    yield row, name, value


def main():
    parser = argparse.ArgumentParser()
    parser.add_argument("program", help="tests/traced_states.c, built with the library")
    parser.add_argument("comma", help="the tables, comma separated")
    parser.add_argument("text", help="the tables as text")
    parser.add_argument("--seed", type=int, default=1)
    parser.add_argument("--runs", type=int, default=40)
    arguments = parser.parse_args()
    generator = random.Random(arguments.seed)
    failed = False

    def say(good, name, why=""):
        nonlocal failed
        failed |= not good
        print(("ok " if good else "FAILED ") + "tables: " + name + ("" if good else f" ({why})"), flush=True)

    with open(arguments.comma, encoding="ascii", newline="") as file:
        reader = csv.DictReader(file)
        rows = list(reader)
    say(tuple(reader.fieldnames) == NAMES, "the columns", reader.fieldnames)
    counts = {name: sum(row["table"] == name for row in rows) for name in ROWS}
    say(counts == ROWS and len(rows) == sum(ROWS.values()), "the rows of each table, counted", counts)
    table = {tuple(row[name] for name in KNOWN): row for row in rows}
    say(len(table) == len(rows), "one row for what is known before")
    say(rows_of_text(arguments.text) == rows, "the text has the same rows")

    runs = [random_run(generator) for _ in range(arguments.runs)]
    answers = [asked(arguments.program, run) for run in runs]
    where, met = differs(table, runs, answers)
    say(where is None, f"a design built from them, {sum(len(run[3]) for run in runs)} orders against the library", where)
    audited = {key for key, row in table.items() if row["audit"] == "yes"}
    say(met == audited, f"from fresh it goes by the {len(audited)} rows of tables that pass the audit, and by no other",
        f"{len(met - audited)} others met, {len(audited - met)} not met")

    unseen = []
    chosen = list(alterations(table))
    for row, name, value in chosen:
        altered = dict(table)
        altered[tuple(row[known] for known in KNOWN)] = {**row, name: value}
        if differs(altered, runs, answers)[0] is None:
            unseen.append((tuple(cell for cell in row.values() if cell), name, value))
    say(not unseen, f"{len(chosen)} altered values in rows of tables that pass the audit, each seen", unseen[:3])
    sys.exit(1 if failed else 0)


if __name__ == "__main__":
    main()
