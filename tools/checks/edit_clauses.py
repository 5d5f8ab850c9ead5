"""Each edit applies, and each of crates/*/must-fail names the clause that it breaks. --refused FILE: it was refused there.

Edits are those of crates/*/must-fail, tests/mutations, tests/refused-by-tests and tests/refused-by-program. An edit applies if each `old:` is exactly
once in its file, after the edit's earlier changes. One outside the crates names a test that its file has. An edit of must-fail has, and others may have, a line `breaks: FUNCTION: CLAUSE`,
or `breaks: FUNCTION` if that function's only clause has no name. `requires` is what the function asks of its callers. A list at the
end has the edits of functions that neither `main` nor the embedded replica reaches.

FILE has what `rt must-fail` or the gate printed. Then the edits are listed that another function or clause refused than they name,
and those that were refused only because a proof file names what they removed."""

import argparse
import os
import re
from typing import Iterator, List, Optional, Set, Tuple

import crates
import edits
import rattle
from edits import Edit
from rattle import Function

ROOTS = ("jcrdt", "replica_c")


def parts(breaks: str) -> Tuple[str, str, List[str]]:
    """The owner, the name and the clauses of a line `breaks:`."""
    function, _, clauses = breaks.partition(": ")
    owner, _, name = function.rpartition("::")
    return owner, name, [it for it in clauses.split(", ") if it]


def names_no_clause(edit: Edit, functions: List[Function]) -> Optional[str]:
    """What is wrong with the edit's line `breaks:`, or nothing."""
    if not edit.breaks:
        return "it has no line breaks:"
    owner, name, clauses = parts(edit.breaks)
    # What a function asks may be broken by a call from a crate above it.
    here = [it for it in functions if (it.owner, it.name) == (owner, name) and (it.crate == edit.crate or clauses == ["requires"])]
    if not here:
        return f"{edit.crate} has no function {edit.breaks.partition(': ')[0]}"
    # A method of a trait has the clauses of the trait.
    known = {clause for it in functions if it.name == name and (it in here or owner) for clause in it.clauses} | {"requires"}
    wrong = [it for it in clauses or [""] if it not in known]
    return f"{edit.breaks.partition(': ')[0]} ensures no clause {wrong[0] or 'without a name'}" if wrong else None


def lacks_test(top: str, edit: Edit) -> Iterator[str]:
    """What is wrong with the tests that an edit outside the crates names."""
    if not edit.refusers:
        yield "it has no line test:"
    for refuser in edit.refusers:
        file, _, name = refuser.partition(": ")
        path = f"{top}/{file}"
        if not os.path.isfile(path):
            yield f"there is no test {file}"
            continue
        with open(path, encoding="utf-8") as it:
            if not name or name not in it.read():
                yield f"{file} has no test {name}"


def lacks_command(top: str, edit: Edit) -> Iterator[str]:
    """What is wrong with the test of the whole program that an edit names."""
    if len(edit.refusers) != 1 or not os.access(f"{top}/{edit.refusers[0].split()[0]}", os.X_OK):
        yield f"it has no line test: with a test that is here, but {edit.refusers}"


def changed_function(top: str, edit: Edit, functions: List[Function]) -> Optional[Function]:
    """The function that the edit's first old text is in, or nothing where it is in none."""
    file, old, _ = edit.changes[0]
    path = f"{top}/{edit.folder}/{file}"
    if not file.startswith("src/") or not os.path.isfile(path):
        return None
    with open(path, encoding="utf-8") as it:
        line = it.read().partition(old)[0].count("\n") + 1
    inside = [it for it in functions if (it.crate, it.file) == (edit.crate, file) and it.first <= line <= it.last]
    return inside[-1] if inside else None


def unreached(top: str, every: List[Edit], functions: List[Function]) -> Iterator[Tuple[Edit, Function]]:
    """The edits of functions that no root reaches."""
    listed = crates.read(top)
    below = {it for root in ROOTS for it in [*crates.below(listed, root), root]}
    roots = [it for it in functions if it.crate in ROOTS and (it.name == "main" or 'extern "C" fn' in it.body)]
    found = rattle.reached([it for it in functions if it.crate in below], roots)
    for edit in (it for it in every if it.is_of_gate):
        function = changed_function(top, edit, functions)
        if function and function[:6] not in found:
            yield edit, function


def refused_at(top: str, edit: Edit, told: str) -> Tuple[str, str]:
    """The function and the goal that the prover refused first: from a place in an edited source, or a proof file's path."""
    named = re.search(r"`([^`]*)`?", told)
    goal = named[1] if named else ""
    proof = re.match(r"(?:note: )?(?:\./)?proofs/(.*)/(\w+)/(?:Answers|Invariants|Proof)\.antt:", told)
    if proof:
        return proof[2], goal
    place = re.match(r"(?:note: )?(?:\./)?(src/\S+?):(\d+):", told)
    if not place:
        return "", goal
    text = edits.applied(top, edit)[0].get(place[1])
    if text is None:
        with open(f"{top}/{edit.folder}/{place[1]}", encoding="utf-8") as it:
            text = it.read()
    inside = [it.name for it in rattle.functions_of(text) if it.first <= int(place[2]) <= it.last]
    return (inside[-1] if inside else ""), goal


def differs(edit: Edit, function: str, goal: str) -> bool:
    """Whether the prover refused something else than what the edit names."""
    _, name, clauses = parts(edit.breaks or "")
    if clauses == ["requires"]:
        return not goal.startswith((f"{name}-requires", f"{name}_requires")) and f"{name}-" not in goal
    found = re.search(r"-clause-(\w+)", goal)
    return function != name or bool(found and clauses and found[1] not in clauses)


def check_refused(top: str, every: List[Edit], printed: str) -> int:
    """Lists the edits that were refused in another way than they name."""
    by_name = {f"{it.crate}/{os.path.basename(it.path)}": it for it in every if it.breaks}
    seen: Set[str] = set()
    bad = 0
    for name, said in re.findall(r"(?m)must-fail (\S+/\S+\.edit): (.*)", printed):
        edit = by_name.get(name)
        if not edit or name in seen:
            continue
        seen.add(name)
        if not said.startswith("refused"):
            why = said[:100]
        elif "only because a proof file names" in said:
            why = "refused only because a proof file names what it took away"
        else:
            told = said.partition("refused, as it must be: ")[2]
            function, goal = refused_at(top, edit, told)
            why = f"refused at {function or 'a lemma'} `{goal}`, and names {edit.breaks}" if differs(edit, function, goal) else ""
        if why:
            bad += 1
            print(f"{name}: {why}")
    print(f"{len(seen)} edits were tried, {bad} of which are listed")
    return bad


def check_all(top: str, every: List[Edit]) -> int:
    """Lists what is wrong with the edits, and those of functions that nothing reaches."""
    functions, bad = list(rattle.all_functions(top)), 0
    for edit in every:
        faults = edits.applied(top, edit)[1]
        if edit.is_outside:
            faults += lacks_test(top, edit)
        elif edit.is_of_program:
            faults += lacks_command(top, edit)
        elif (edit.is_of_gate or edit.breaks) and not faults:
            faults += filter(None, [names_no_clause(edit, functions)])
        for fault in faults:
            bad += 1
            print(f"{os.path.relpath(edit.path, top)}: {fault}")
    for edit, function in unreached(top, every, functions):
        print(f"not reached by the program or the embedded replica: {function.name}, of {os.path.relpath(edit.path, top)}")
    print(f"{len(every)} edits, {bad} faults")
    return bad if every else 1


def check(words: argparse.Namespace) -> int:
    every = edits.read_edits(words.top)
    if not words.refused:
        return check_all(words.top, every)
    with open(words.refused, encoding="utf-8", errors="replace") as it:
        return check_refused(words.top, every, it.read())
