#!/usr/bin/env python3
"""Lists the places in src/ that docs/history/DESIGN-PASS.md counts, point by point.

    python3 tools/places.py [FOLDER]        the folder is a checkout; the one above tools/ by default

What it finds is a list to read, not a verdict: some of it is no place, and it is blind to what no pattern shows.
"""
import argparse
import pathlib
import re
from collections import defaultdict


class Checkout:
    """A checkout, its files of src/ and their lines."""

    def __init__(self, root):
        self.root = root
        self.sources = sorted(p for p in root.glob("crates/*/src/**/*.rt") if "out" not in p.parts)
        self.lines = [(p, n, line) for p in self.sources for n, line in enumerate(p.read_text().split("\n"), 1)]

    def show(self, path, number, text):
        print(f"    {path.relative_to(self.root)}:{number}: {text.strip()[:110]}")

    def grep(self, title, pattern, skip=None):
        found = [(p, n, l) for p, n, l in self.lines if re.search(pattern, l) and not (skip and re.search(skip, l))]
        print(f"  {title}: {len(found)}")
        for p, n, l in found:
            self.show(p, n, l)


def functions(checkout):
    """(path, line, name, parameters with `self`, requires clauses, body) of every function with a body."""
    for path in checkout.sources:
        text = path.read_text()
        for m in re.finditer(r"^( *)(?:pub(?:\(crate\))? )?fn (\w+)", text, re.M):
            indent, name = m.group(1), m.group(2)
            end = re.compile(rf"^{indent}\}}", re.M).search(text, m.end())
            semi = re.compile(r";\n").search(text, m.end())
            if not end or (semi and "{\n" not in text[m.end():semi.start()]):
                continue
            whole = text[m.start():end.end()]
            start = re.search(rf"(^{indent}|[^\n]) ?\{{\n", whole, re.M)
            if not start:
                continue
            head, body = whole[:start.end()], whole[start.end():]
            requires = re.findall(r"requires (?:\w+ )?\{(.*)\}\s*$", head, re.M)
            inside = head[head.index("("):] if "(" in head else ""
            inside = re.split(r"\)\s*(?:->|\n|\{)", inside)[0]
            params = re.findall(r"(\w+): &?(?:'\w+ )?(?:mut )?([\w<>\[\]'; ]+)", inside)
            impls = re.findall(r"^impl(?:<[^>]*>)? (?:.* for )?(\w+)", text[:m.start()], re.M)
            if indent and impls and re.match(r"\(&?(?:mut )?self\b", inside):
                params.append(("self", impls[-1]))
            yield path, text.count("\n", 0, m.start()) + 1, name, params, requires, body


def own_enums(checkout):
    print("  enums of two variants, and enums all of whose variants but one carry the same first value:")
    count = 0
    for path in checkout.sources:
        text = path.read_text()
        for m in re.finditer(r"^(?:pub(?:\(crate\))? )?enum (\w+)[^{]*\{\n(.*?)^\}", text, re.M | re.S):
            variants = re.findall(r"^    (\w+)(?:\(([^)]*)\)| \{([^}]*)\})?", m.group(2), re.M)
            firsts = [(a or b).split(",")[0].split(":")[-1].strip() for _, a, b in variants]
            carried = [f for f in firsts if f]
            two = len(variants) == 2 and carried
            but_one = len(variants) > 2 and len(carried) == len(variants) - 1 and len(set(carried)) == 1
            if two or but_one:
                count += 1
                checkout.show(path, text.count("\n", 0, m.start()) + 1, f"{m.group(1)}: {', '.join(v[0] for v in variants)}")
    print(f"    {count}")


def matched_by_hand(checkout):
    checkout.grep("arms on Ok(..) and Err(..)", r"^\s*(Ok|Err)\(.*\) => ")


def twins(checkout):
    alike = defaultdict(list)
    for path, line, name, _, _, body in functions(checkout):
        shape = re.sub(r"//.*", "", body)
        shape = re.sub(r"\b[A-Za-z_]\w*\b|\b[\d_]+\b", "x", shape)
        shape = re.sub(r"\s+", "", shape)
        if shape.count("x") >= 3:
            alike[shape].append((path, line, name))
    groups = [g for g in alike.values() if len(g) > 1]
    print(f"  groups of functions whose bodies differ in names and numbers alone: {len(groups)}")
    for group in groups:
        for path, line, name in group:
            checkout.show(path, line, name)
        print("    --")


def repeated_facts(checkout):
    facts, pairs = defaultdict(list), defaultdict(list)
    for path, line, name, params, requires, _ in functions(checkout):
        crate = path.relative_to(checkout.root).parts[1]
        for clause in requires:
            for fact in re.split(r"×", clause):
                fact = re.sub(r"[()\s]", "", fact)
                facts[crate, re.sub(r"^\w+(?=[≤<])|(?<=[≤<])[a-z]\w*$", "x", fact)].append((path, line, name))
        names = sorted({f"{n}: {t.strip()}" for n, t in params})
        for i, a in enumerate(names):
            for b in names[i + 1:]:
                pairs[crate, a, b].append((path, line, name))
    print("  facts that three or more functions of a crate require:")
    for (crate, fact), where in sorted(facts.items()):
        if len({(p, l) for p, l, _ in where}) >= 3:
            print(f"    {crate}: {fact}: {', '.join(sorted({n for _, _, n in where}))}")
    print("  parameters that stand together in three or more functions of a crate:")
    for (crate, a, b), where in sorted(pairs.items()):
        if len(where) >= 3:
            print(f"    {crate}: {a} and {b}: {', '.join(n for _, _, n in where)}")


def proofs(checkout):
    found = [p for p in checkout.root.glob("crates/*/proofs/**/*.antt") if "out" not in p.parts and p.name != "Lib.antt"]
    answers = [p for p in found if p.name == "Answers.antt"]
    lines = sum(len(p.read_text().split("\n")) - 1 for p in found)
    print(f"  files: {len(found)}, of them answers: {len(answers)}; lines: {lines}")


def say_all(checkout):
    """All places, point by point."""
    print("1 own enums, flags, numbers for kinds and refusals")
    own_enums(checkout)
    matched_by_hand(checkout)
    checkout.grep("functions that answer a u8", r"-> u8\b")
    checkout.grep("numbers handed back as an answer", r"^\s*return \d+;")
    checkout.grep("kinds by number", r"\bkind: u8\b")
    print("2 twins")
    twins(checkout)
    print("3 loops over an index")
    checkout.grep("for over a range of numbers", r"\bfor \w+ in [^{]*\.\.[^.]")
    checkout.grep("while", r"^\s*while\b")
    print("4 comparisons, conversions and printing by hand")
    checkout.grep("impls of comparisons, Clone, Copy", r"^impl.*\b(PartialEq|Eq|PartialOrd|Ord|Clone|Copy)\b.* for ")
    checkout.grep("conversions into a number or a text by a method or function", r"fn (number|\w+_line|line_of|total_of|push_number|numbers_of|from_number|to_\w+)\b")
    print("5 repeated facts, parameters that travel together")
    repeated_facts(checkout)
    print("6 buffers with a length, parallel arrays")
    checkout.grep("a length beside a buffer", r"^\s*(pub(\(crate\))? )?len: usize")
    checkout.grep("constant arrays", r"^(pub(\(crate\))? )?const [A-Z0-9_]+: \[\w+; ")
    checkout.grep("fields that are arrays", r"^\s+(pub(\(crate\))? )?\w+: \[\w+; ")
    print("7 switches on a step, tables of functions")
    checkout.grep("function pointers, dyn", r"\bdyn\b|: fn\(|\[fn\(")
    print("8 proofs")
    proofs(checkout)


def main():
    words = argparse.ArgumentParser(description=__doc__, formatter_class=argparse.RawDescriptionHelpFormatter)
    own = pathlib.Path(__file__).resolve().parent.parent
    words.add_argument("folder", type=pathlib.Path, nargs="?", default=own, metavar="FOLDER", help="a checkout")
    say_all(Checkout(words.parse_args().folder))


if __name__ == "__main__":
    main()
