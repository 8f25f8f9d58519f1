#!/usr/bin/env python3
"""Respells this repository's own definitions and lemmas: a dash in a name becomes an underscore.

Run once at the top of the repository, after port.py. It turns the names that specs/ and proofs/ define themselves
(signatures at the left edge, in `where` blocks and fields of records), wherever the .antt and .rt files name them.
Goals (`returns-then-x : goal.returns-then-x`) keep their names, since Rattle makes them; so do paths of the library.
"""
import argparse
import pathlib
import re

WORD = r"[\w'≡≤≢∷]"
NAME = rf"[a-z]{WORD}*(?:-{WORD}+)+"
SIGNATURE = re.compile(rf"^\s*(?:(?:abbrev|unfoldable|pub)\s+)*({NAME})\s*:(?!:)\s*(.*)$", re.M)


def files(root, *ends):
    for end in ends:
        for path in sorted(root.glob(f"crates/*/**/*{end}")):
            if "out" not in path.parts:
                yield path


def own_names(root):
    names = set()
    for path in files(root, ".antt"):
        for name, rest in SIGNATURE.findall(path.read_text()):
            if not re.match(r"(goal|need)\.", rest):
                names.add(name)
    return names


def respelled(text, names):
    pattern = re.compile(rf"(?<![\w'\-.«])({'|'.join(sorted(map(re.escape, names), key=len, reverse=True))})(?![\w'\-])")
    return pattern.sub(lambda m: m.group(1).replace("-", "_"), text)


def main():
    words = argparse.ArgumentParser(description=__doc__, formatter_class=argparse.RawDescriptionHelpFormatter)
    here = pathlib.Path(".")
    words.add_argument("folder", type=pathlib.Path, nargs="?", default=here, metavar="FOLDER", help="the checkout to rewrite")
    root = words.parse_args().folder
    names = own_names(root)
    for name in sorted(names):
        print(name, "->", name.replace("-", "_"))
    for path in files(root, ".antt", ".rt"):
        old = path.read_text()
        new = respelled(old, names)
        if new != old:
            path.write_text(new)


if __name__ == "__main__":
    main()
