"""What the checks read of .antt files: one parser of the lines that begin a definition or a lemma."""

import re
from typing import Dict, Iterator, List, NamedTuple, Optional

HEAD = re.compile(r"(\s*)((?:(?:abbrev|unfoldable|opaque|pub) )*)(?:(record|data|use|module|mod) )?([^\s:(){};]*)(?= |$)(.*)$")
WORDS = ("record", "data", "use", "module", "mod")
DEFINES = ("", "record", "data")
TYPE_HEAD = re.compile(r"\s*(?:pub )?(?:record|data) ")


class Head(NamedTuple):
    """A line that may begin a statement: what is before its name, the name, and what is behind it."""

    number: int  # of the line, from 0
    indent: int
    is_public: bool
    sort: str  # record, data, use, module, mod or nothing
    name: str
    rest: str


class Statement(NamedTuple):
    """A statement at the left edge: its line from 1, its name, its type on one line, and the lines of its definition."""

    line: int
    name: str
    told: str
    body: List[str]


def head_of(number: int, line: str) -> Optional[Head]:
    """The head that a line is, or nothing."""
    found = HEAD.match(line)
    if not found or found[4] in ("", *WORDS):
        return None
    return Head(number, len(found[1]), "pub " in found[2], found[3] or "", found[4], found[5])


def read(path: str) -> str:
    with open(path, encoding="utf-8") as file:
        return file.read()


def typed(line: str) -> Optional[Head]:
    """The head of a definition or lemma at the left edge whose type follows, or nothing."""
    head = head_of(0, line)
    return head if head and not head.indent and not head.sort and head.rest.startswith(" : ") else None


def statements(text: str) -> Iterator[Statement]:
    """Each statement with a type at the left edge."""
    lines = text.split("\n")
    at = 0
    while at < len(lines):
        head, begun = typed(lines[at]), at
        at += 1
        if not head:
            continue
        told, body = head.rest[3:], []
        while at < len(lines) and lines[at].startswith(" "):
            told += " " + lines[at].strip()
            at += 1
        while at < len(lines) and lines[at].strip() and not typed(lines[at]) and not lines[at].startswith("--"):
            body.append(lines[at].strip())
            at += 1
        yield Statement(begun + 1, head.name, told, body)


def public_names(text: str) -> Iterator[str]:
    """The names of public definitions, without fields and constructors: those can't be imported by themselves."""
    inner: Optional[int] = None  # how far the lines are indented that belong to a record or type
    for number, line in enumerate(text.split("\n")):
        if not line.strip() or line.lstrip().startswith("--"):
            continue
        depth = len(line) - len(line.lstrip())
        if inner is not None and depth > inner:
            continue
        inner = depth if TYPE_HEAD.match(line) else None
        head = head_of(number, line)
        if head and head.is_public and head.sort in DEFINES:
            yield head.name


def definitions(text: str) -> Dict[str, str]:
    """The public definitions at the left edge by name, each with the comment above it."""
    found: Dict[str, List[str]] = {}
    above: List[str] = []
    current: Optional[List[str]] = None
    for number, line in enumerate(text.splitlines()):
        head = head_of(number, line)
        if line.startswith("--"):
            above.append(line)
        elif head and not head.indent and head.is_public and head.sort in DEFINES:
            current = found[head.name] = [*above, line]
            above = []
        elif current is not None and line.strip() and not re.match(r"(?:pub )?use |infix", line):
            current.append(line)
        elif not line.strip():
            above = []
    return {it: "\n".join(lines) for it, lines in found.items()}
