"""Nothing is stated twice: lists lemmas of one statement in two places, and definitions in specs/ that are one but for their names.

Statements are compared as text, with bound names renamed, `suc n` as `n + 1`, and an equation at the end read either way, so two that
are worded differently otherwise aren't found. What a function of the code has to meet (`goal.`) counts for nothing, and neither do
definitions without parameters, as those of worked rows, and what is within a module or a `where`."""

import argparse
import collections
import glob
import os
import re
from typing import Any, Dict, Iterable, List, Tuple

import antt

Place = Tuple[str, str, str]

# What may be there twice, each with the reason.
ALLOWED: Dict[Tuple[str, ...], str] = {
    ("line_feed", "or_false", "replica_c", "neither"): "line_feed's isn't public",
    ("op_core", "tagged_from", "replica_c", "start_tagged"): "a key of a start may be a text of any length",
    ("op_core", "path_from", "replica_c", "start_path"): "as above",
    ("op_core", "cursor_from", "replica_c", "start_cursor"): "as above",
    ("list_laws", "is_Less", "version_vector", "is_Less"): "no crate is below both",
    ("line_feed", "cond_none", "stored_log", "past_end"): "line_feed's isn't public",
    ("locked_doc", "shorter", "replica_c", "shorter"): "replica_c isn't above locked_doc",
    ("locked_doc", "fewer", "replica_c", "fewer"): "as above",
    ("doc_rules", "ok_same", "stored_rows", "same_value"): "doc_rules' is among the laws of places",
}

RELATION = re.compile(r"≡|≢|≤|<|↔|⊥|\b(?:Is|Are|Has|Fits|Reads|On|If)[A-Z]?[a-z]*\b")


def renamed(text: str, names: Iterable[str]) -> str:
    """The text with each of these names replaced by its number; a field that is set keeps its name."""
    for at, name in enumerate(dict.fromkeys(names)):
        text = re.sub(rf"(?<![\w.'-]){re.escape(name)}(?![\w'-])(?! = )", f"#{at}", text)
    return text


def bound(text: str) -> List[str]:
    """The names that a type or a term binds."""
    names = [name for words in re.findall(r"[({]([^(){}:]+?) : ", text) for name in words.split()]
    return names + [name for words in re.findall(r"λ ([^.]*)\.", text) for name in re.findall(r"[\w'-]+", words)]


def meaning(name: str, told: str, body: List[str]) -> Tuple[str, Tuple[str, ...]]:
    """A definition's type and clauses, without its own name and those of what it binds."""
    clauses = []
    for clause in body:
        left, _, right = clause.partition(" = ")
        words = [word for word in re.findall(r"[\w'-]+", left) if word != name and word[0].islower()]
        clauses.append(renamed(clause, [name, *words, *bound(right)]))
    return renamed(told, bound(told)), tuple(clauses)


def statement(told: str) -> str:
    """A lemma's type with its names numbered, `suc n` as `n + 1`, and the sides of a last equation in one order."""
    text = re.sub(r"\bsuc (#\d+)", r"\1 + 1", renamed(told, bound(told)))
    *given, last = text.split(" → ")
    sides = last.split(" ≡ ")
    if len(sides) == 2 and not re.search("[×⊎↔]", last):
        last = " ≡ ".join(sorted(sides))
    return " → ".join([*given, last])


def check(words: argparse.Namespace) -> int:
    lemmas: Dict[Any, List[Place]] = collections.defaultdict(list)
    definitions: Dict[Any, List[Place]] = collections.defaultdict(list)
    files = [glob.glob(f"{words.top}/crates/*/{part}/**/*.antt", recursive=True) for part in ("specs", "proofs")]
    for path in sorted(sum(files, [])):
        crate = os.path.relpath(path, f"{words.top}/crates").split(os.sep)[0]
        for line, name, told, body in antt.statements(antt.read(path)):
            where = (crate, name, f"{os.path.relpath(path, words.top)}:{line}")
            if "/specs/" in path and body and "→" in told and not told.endswith("Type 0"):
                definitions[meaning(name, told, body)].append(where)
            if "/proofs/" in path and not re.match(r"\w+\.", told) and RELATION.search(told) and len(told) > 25:
                lemmas[statement(told)].append(where)
    faults = 0
    for kind, groups in (("lemma", lemmas), ("definition", definitions)):
        for places in groups.values():
            if len(places) > 1 and tuple(word for it in places for word in it[:2]) not in ALLOWED:
                faults += 1
                print(f"one {kind}: " + ", ".join(f"{name} ({where})" for _, name, where in places))
    print(f"{sum(map(len, lemmas.values()))} lemmas and {sum(map(len, definitions.values()))} definitions; {faults} stated twice")
    return faults
