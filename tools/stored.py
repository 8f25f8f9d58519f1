"""The stored stdin and stdout of a program: written, or with --check only compared."""
import argparse
import pathlib
import sys

CRATES = pathlib.Path(__file__).resolve().parent.parent / "crates"


def arguments(about):
    """A reader of arguments for a tool about which this is to be said; it takes --check."""
    words = argparse.ArgumentParser(description=about, formatter_class=argparse.RawDescriptionHelpFormatter)
    words.add_argument("--check", action="store_true", help="write nothing, and end with status 1 where a file would change")
    return words


def store(crate, stdin, stdout, only_check):
    """Writes the two files of a crate, or ends with status 1 where one would change."""
    files = {CRATES / crate / "stdin": stdin, CRATES / crate / "stdout": stdout}
    if only_check:
        sys.exit(any(not path.exists() or path.read_bytes() != text for path, text in files.items()))
    for path, text in files.items():
        path.write_bytes(text)
