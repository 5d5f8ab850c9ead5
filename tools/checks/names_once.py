"""No name of a public definition stands for two things: lists each that is defined in two files of specs/.

A definition counts where it can be imported: at the left edge of its file, or in an unnamed module there. The fields of a record
and the constructors of a type don't count, since they are read beside what has them."""

import argparse
import collections
import glob
import os
from typing import Dict, Set

import antt

# Names that may be there twice, each with the reason: the files' two definitions are one thing.
ALLOWED: Dict[str, str] = {}


def check(words: argparse.Namespace) -> int:
    files: Dict[str, Set[str]] = collections.defaultdict(set)
    for path in sorted(glob.glob(f"{words.top}/crates/*/specs/**/*.antt", recursive=True)):
        for name in antt.public_names(antt.read(path)):
            files[name].add(os.path.relpath(path, f"{words.top}/crates"))
    twice = {name: where for name, where in files.items() if len(where) > 1 and name not in ALLOWED}
    for name, where in sorted(twice.items()):
        print(f"{name}: {', '.join(sorted(where))}")
    print(f"{len(files)} names, {len(twice)} twice")
    return len(twice) if files else 1
