"""Each worked row of session_tests is the row of the same name that tests/whole-program tries. --write makes the latter.

The crate is the one source of these rows; a row's folder has its files `stdin` and `stdout`. Rows that only the whole program
has are its own."""

import argparse
import os
import re
from typing import Iterator, List, Tuple

from antt import read

ROW = re.compile(r'Row \{\s*name: "([^"]*)",\s*input: (r(#+)"(.*?)"\3|[A-Z]+),\s*output: (r(#+)"(.*?)"\6|[A-Z]+),', re.S)
CONSTANT = re.compile(r'const ([A-Z]+): &str = r(#+)"(.*?)"\2;', re.S)


def rows(top: str) -> Iterator[Tuple[str, str, str]]:
    """The name, the input and the output of each row of the crate's table."""
    sources = f"{top}/crates/session_tests/src"
    constants = {name: text for name, _, text in CONSTANT.findall(read(f"{sources}/shopping.rt"))}
    for name, given, _, inline, output, _, due in ROW.findall(read(f"{sources}/runs/rows.rt")):
        yield name, constants.get(given, inline), constants.get(output, due)


def differing(top: str, name: str, texts: Tuple[str, str], writes: bool) -> Iterator[str]:
    """The files of a row that differ from the crate's, after they were written where that is wanted."""
    folder = f"{top}/tests/whole-program/rows/{name}"
    for file, text in zip(("stdin", "stdout"), texts):
        path = f"{folder}/{file}"
        if writes and os.path.isdir(folder):
            with open(path, "w", encoding="utf-8") as it:
                it.write(text)
        if not os.path.exists(path) or read(path) != text:
            yield f"{name}/{file}"


def check(words: argparse.Namespace) -> int:
    count = 0
    wrong: List[str] = []
    for name, given, due in rows(words.top):
        count += 1
        wrong += differing(words.top, name, (given, due), words.write)
    for path in wrong:
        print(f"tests/whole-program/rows/{path} differs from crates/session_tests/src/runs/rows.rt")
    print(f"{count} rows, {len(wrong)} of whose files differ")
    return len(wrong) if count else 1
