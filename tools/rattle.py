"""What the check of edits reads of the sources: each function with its clauses, and which ones a program may reach.

It goes by the layout of `rt fmt` and by names. So a call of a method reaches each method of that name: what is called unreached
is so, and some of what is called reached isn't."""

import collections
import glob
import re
from typing import Any, Dict, Iterable, Iterator, List, NamedTuple, Set, Tuple


class Function(NamedTuple):
    """A function of a source file: its lines from 1, the type or trait that it belongs to, and the names of its clauses."""

    crate: str
    file: str
    first: int
    last: int
    owner: str
    name: str
    clauses: List[str]
    body: str


ByName = Dict[str, List[Function]]

HEAD = re.compile(r"(\s*)(?:pub(?:\(\w+\))? )?(?:final )?(?:unsafe )?(?:extern \"C\" )?fn (\w+)")
QUALIFIED = re.compile(r"\b(\w+)(?:::<[^()]*?>)?::(\w+)")
METHOD = re.compile(r"\.(\w+)(?:::<[^()]*?>)?\(")
WORD = re.compile(r"\b[a-z_]\w*\b")


def owner_of(head: str) -> str:
    """The type that an `impl` block is about, or the trait that a `trait` block declares."""
    named = re.match(r"(?:pub(?:\(\w+\))? )?(?:unsafe )?trait (\w+)", head)
    if named:
        return named[1]
    text, depth = head.partition("impl")[2].lstrip(), 0
    if text.startswith("<"):
        for at, sign in enumerate(text):
            depth += (sign == "<") - (sign == ">" and text[at - 1] != "-")
            if not depth:
                text = text[at + 1 :].lstrip()
                break
    found = re.match(r"(?:&(?:'\w+ )?(?:mut )?)?([\w:]+)", text.split(" for ", 1)[-1])
    return found[1].rpartition("::")[2] if found else ""


def blocks(lines: List[str]) -> Iterator[Tuple[int, str]]:
    """The line number and the owner of each `impl` and `trait` at the start of a line."""
    for number, line in enumerate(lines):
        if re.match(r"(?:pub(?:\(\w+\))? )?(?:unsafe )?(?:impl|trait)\b", line):
            last = number
            while "{" not in lines[last] and last + 1 < len(lines):
                last += 1
            yield number, owner_of(" ".join(it.strip() for it in lines[number : last + 1]))


def end_of(lines: List[str], first: int, indent: str) -> int:
    """The number of the last line of a function that begins here: a brace at its indent, or the end of a declaration."""
    for number in range(first, len(lines)):
        line = lines[number]
        if line.startswith(f"{indent}}}") or number > first and HEAD.match(line):
            return number
    return len(lines) - 1


def functions_of(text: str, crate: str = "", file: str = "") -> Iterator[Function]:
    """Each function of a source file, in order."""
    lines = text.split("\n")
    owners = dict(blocks(lines))
    owner = ""
    for number, line in enumerate(lines):
        owner = owners.get(number, "" if line.startswith("}") else owner)
        head = HEAD.match(line)
        if head:
            last = end_of(lines, number, head[1])
            body = "\n".join(lines[number : last + 1])
            clauses = re.findall(r"(?m)^\s*ensures\*?(?: (\w+))? \{", body)
            yield Function(crate, file, number + 1, last + 1, owner, head[2], clauses, body)


def all_functions(top: str) -> Iterator[Function]:
    """The functions of all crates."""
    for path in sorted(glob.glob(f"{top}/crates/*/src/**/*.rt", recursive=True)):
        crate, _, file = path[len(f"{top}/crates/") :].partition("/")
        with open(path, encoding="utf-8") as it:
            yield from functions_of(it.read(), crate, file)


def called_by(function: Function, free: ByName, methods: ByName) -> Iterator[Function]:
    """The functions that this one may call, by their names."""
    body = re.sub(r"//.*", "", function.body)
    for name in set(WORD.findall(body)) & free.keys():
        yield from free[name]
    for name in set(METHOD.findall(body)):
        yield from methods.get(name, [])
    for kind, name in set(QUALIFIED.findall(body)):
        kind = function.owner if kind == "Self" else kind
        same = [it for it in methods.get(name, []) if it.owner == kind]
        yield from same or (methods.get(name, []) if len(kind) == 1 else [])


def reached(functions: Iterable[Function], roots: Iterable[Function]) -> Set[Tuple[Any, ...]]:
    """The first six fields of each function that the roots may reach. What std calls by itself counts as reached."""
    functions = list(functions)
    free: ByName = collections.defaultdict(list)
    methods: ByName = collections.defaultdict(list)
    for it in functions:
        (methods if it.owner else free)[it.name].append(it)
    found: Set[Tuple[Any, ...]] = set()
    ahead = [*roots, *(it for it in functions if it.name in ("drop", "fmt", "cmp", "eq", "partial_cmp", "next"))]
    while ahead:
        at = ahead.pop()
        if at[:6] not in found:
            found.add(at[:6])
            ahead += called_by(at, free, methods)
    return found
