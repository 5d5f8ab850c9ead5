"""How many lines each crate has: of its code, its definitions and its proofs. One that isn't of tests has at most 5,000.

Lines are those of .rt and .antt files in src/, specs/ and proofs/, blank ones and comments too. A crate is of tests if its name ends
in _tests: the program stands on none of these."""

import argparse
import os
from typing import List

import antt
import crates

# The most lines of a crate.
MOST = 5000

TESTS = "_tests"
SOURCES = (".rt", ".antt")


def lines_of(folder: str) -> int:
    """How many lines the sources in a folder have, and in those below it."""
    files = [f"{at}/{name}" for at, _, names in os.walk(folder) for name in names if name.endswith(SOURCES)]
    return sum(len(antt.read(it).splitlines()) for it in files)


def check(words: argparse.Namespace) -> int:
    """Prints the lines of each crate, in the order of crates.txt."""
    every = 0
    long: List[str] = []
    for crate in crates.read(words.top):
        parts = {part: lines_of(f"{words.top}/crates/{crate}/{part}") for part in crates.PARTS}
        lines = sum(parts.values())
        every += lines
        print(f"{lines:6} {crate:16}{', '.join(f'{part} {count}' for part, count in parts.items())}")
        if not lines:
            long.append(f"{crate} has no lines")
        elif lines > MOST and not crate.endswith(TESTS):
            long.append(f"{crate} has {lines} lines, and a crate at most {MOST}: cut it in two")
    for fault in long:
        print(fault)
    print(f"{every} lines, {len(long)} faults")
    return len(long)
