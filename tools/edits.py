"""What the checks and the runners of mutations read of edits: one parser of their files.

An edit is a file of lines `WORD: TEXT`: `breaks:` names the function and the clauses that it breaks, `crate:` and `tests:` the
crates that it changes and whose tests refuse it, where its folder doesn't, and each `file:`, `old:`, `new:` is a change. An edit
outside the crates names files from the top, and by a line `test: FILE: NAME` each test that refuses it. One of tests/refused-by-program
names by `test: FILE WORD..` the test of the whole program that does."""

import glob
import os
from typing import Dict, List, NamedTuple, Optional, Tuple


# Folders of tests/mutations whose edits are of no crate: they are tried by tests/mutations/run-clients.
OUTSIDE = ("hub", "js", "python", "operations")


class Change(NamedTuple):
    file: str
    old: str
    new: str


class Edit(NamedTuple):
    path: str
    crate: str
    tests: str
    breaks: Optional[str]
    changes: List[Change]
    refusers: List[str]

    @property
    def folder(self) -> str:
        return "." if self.is_outside else f"crates/{self.crate}"

    @property
    def is_outside(self) -> bool:
        """Whether it is of no crate."""
        return self.path.split("/")[-3:-1] in [["mutations", it] for it in OUTSIDE]

    @property
    def is_of_program(self) -> bool:
        """Whether a test of the whole program refuses it."""
        return "/refused-by-program/" in self.path

    @property
    def is_of_gate(self) -> bool:
        return "/must-fail/" in self.path


def read_edit(path: str, crate: str = "replica_core", tests: str = "replica_tests") -> Edit:
    """An edit; of these crates where it names none."""
    changes: List[Change] = []
    refusers: List[str] = []
    words: Dict[str, str] = {"crate": crate, "tests": tests}
    with open(path, encoding="utf-8") as it:
        lines = it.read().split("\n")
    for line in lines:
        word, colon, text = line.partition(":")
        text = text[1:] if text.startswith(" ") else text
        if colon and word in ("crate", "tests", "breaks", "file", "old"):
            words[word] = text
        elif colon and word == "test":
            refusers.append(text)
        elif colon and word == "new":
            changes.append(Change(words.get("file", ""), words.get("old", ""), text))
    return Edit(path, words["crate"], words["tests"], words.get("breaks"), changes, refusers)


def read_edits(top: str) -> List[Edit]:
    """All edits, by their paths."""
    found = [(it, it.split("/")[-3]) for it in glob.glob(f"{top}/crates/*/must-fail/*.edit")]
    found += [(it, it.split("/")[-2]) for it in glob.glob(f"{top}/tests/mutations/*/*.edit")]
    found += [(it, "replica_core") for folder in ("tests", "program") for it in glob.glob(f"{top}/tests/refused-by-{folder}/*.edit")]
    return [read_edit(path, crate) for path, crate in sorted(found)]


def applied(top: str, edit: Edit) -> Tuple[Dict[str, str], List[str]]:
    """The texts that the edit makes, by their files, and what keeps it from being applied."""
    texts: Dict[str, str] = {}
    faults: List[str] = []
    if not edit.changes:
        faults.append("it changes nothing: there is no line new:")
    for file, old, new in edit.changes:
        path = f"{top}/{edit.folder}/{file}"
        if file not in texts:
            if not os.path.isfile(path):
                return texts, [*faults, f"there is no file {edit.folder}/{file}"]
            with open(path, encoding="utf-8") as it:
                texts[file] = it.read()
        count = texts[file].count(old) if old else 0
        if count != 1:
            return texts, [*faults, f"in {edit.folder}/{file} its old text stands {count} times: {old}"]
        if old == new:
            faults.append(f"old and new text are one: {old}")
        texts[file] = texts[file].replace(old, new)
    return texts, faults
