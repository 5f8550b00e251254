#!/usr/bin/env python3
# Brings the names of this repository's own definitions and lemmas to today's spelling, once, after the kit's port.py: words in snake case, and a
# dash only between two names of definitions. Run at the top of the repository; --show prints the table and writes nothing.
import os, re, sys

TOKEN = re.compile(r"[^\s(){}.;,@\"«»`]+")
DECLARED = re.compile(r"^\s*(?:pub |abbrev |unfoldable |data |record )*([^\s:(){},.`]+)\s+:\s")
LIBRARY = {"length", "get", "take", "drop", "get_or", "set", "sets", "append", "map", "cond", "number", "numbers"}


def files(ending, skip=()):
    for folder, dirs, names in os.walk("crates"):
        dirs[:] = sorted(d for d in dirs if d not in ("out",) + tuple(skip))
        for name in sorted(names):
            if name.endswith(ending):
                yield os.path.join(folder, name)


def code(line):
    return not line.lstrip().startswith("--")


def snake(name):
    name = re.sub(r"(?<=[a-z0-9])(?=[A-Z])", "_", name)
    return "".join(c.lower() if c.isascii() else c for c in name)


def table():
    declared, made, used = {}, set(), set()
    for path in files(".antt"):
        walk = path.endswith("Proof.antt")
        with open(path, encoding="utf-8") as f:
            for line in f:
                if not code(line):
                    continue
                if not walk:
                    used.update(TOKEN.findall(re.sub(r"(?:use )?(?:Rattle|tie|goal|c|borrow|lib|mathlib|native)\.[\w.+'-]*", "", line)))
                m = DECLARED.match(line)
                if m:
                    rest = line[m.end():]
                    if walk and rest.startswith(("tie.", "{M :")):
                        made.add(m.group(1))
                    else:
                        declared.setdefault(m.group(1), path)
    for path in files(".rt"):
        with open(path, encoding="utf-8") as f:
            used.update(re.findall(r"(\w+)\s*:(?!:)", f.read()))
    turned = {}
    for name in declared:
        if re.match(r"^[a-z]\w*$", name) and re.search(r"[a-z0-9][A-Z]", name):
            turned[name] = snake(name)
    definitions = {turned.get(n, n) for n in declared if "-" not in n} | LIBRARY
    for name in sorted(declared):
        if "-" not in name or name in made:
            continue
        parts = [snake(p) for p in name.split("-")]
        if "".join(p.capitalize() for p in name.split("-")) in declared:
            turned[name] = "_".join(parts)  # the proof of a claim
            continue
        out = parts[0]
        for at, part in enumerate(parts[1:], 1):
            left, right = "_".join(parts[:at]), "_".join(parts[at:])
            joins = left in definitions and right in definitions and specified(left, right)
            out += ("-" if joins else "_") + part
        if out != name:
            turned[name] = out
    # A name that would fall together with another gets the ending of a lemma.
    taken = {}
    for name in sorted(list(turned), key=lambda n: ("-" in n, n)):
        new = turned[name]
        if new in declared and new not in turned and "-" not in name:
            turned[new] = new + "_lem"
            taken[turned[new]] = new
        while (new in used and new not in turned) or new in taken:
            new += "_lem"
        taken[new] = name
        turned[name] = new
    return turned


SPECIFIED = set()


def specified(left, right):
    if not SPECIFIED:
        for path in files(".antt", skip=("proofs",)):
            with open(path, encoding="utf-8") as f:
                for line in f:
                    m = DECLARED.match(line)
                    if m and code(line) and not line.startswith(" "):
                        SPECIFIED.add(snake(m.group(1)))
        SPECIFIED.update(LIBRARY)
    return left in SPECIFIED and right in SPECIFIED


def turn(text, turned):
    return TOKEN.sub(lambda m: turned.get(m.group(0), m.group(0)), text)


def main():
    turned = table()
    if "--show" in sys.argv:
        for name in sorted(turned):
            print(name, turned[name], sep="\t")
        return
    camel = {n: t for n, t in turned.items() if "-" not in n}
    for ending, names in ((".antt", turned), (".rt", camel)):
        for path in files(ending):
            with open(path, encoding="utf-8") as f:
                old = f.read()
            new = turn(old, names)
            if new != old:
                with open(path, "w", encoding="utf-8") as f:
                    f.write(new)


main()
