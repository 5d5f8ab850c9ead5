"""What must be read to understand a clause, by names: the definitions that it cites, those that these cite, what a type's values are to
a clause, and what a ghost member is at the program's types."""

import functools
import os
import re
from typing import Dict, Iterable, Iterator, List, NamedTuple, Optional, Set, Tuple

import antt
import crates


class Definition(NamedTuple):
    """A definition in specs/: its crate, its file and its name."""

    crate: str
    part: str
    name: str

    def __str__(self) -> str:
        return f"{self.crate}/specs/{self.part}: {self.name}"


# A name that a text may use, and what it stands for: of a file of specs/, or a type that the code declares (part: declared.MODULE.TYPE).
Names = Dict[str, Definition]

USE = re.compile(r"use Rattle\.([a-z_]+)\.specs\.([A-Za-z_.]+?)(?:\.\{([^}]*)\}| as ([A-Za-z_]+)|(?=[\s;]|$))")
WORD = re.compile(r"[^\s(){}\[\],;:.]+")
INDENT = 2

# Types with ghost members that tests alone use.
OF_TESTS = {"FailAfter", "InPieces", "Kept", "Script", "ListLog"}


def without_comments(text: str) -> str:
    return re.sub(r"(?m)(?:--|//).*$", "", text)


def names_of(text: str, top: str) -> Tuple[Names, Names]:
    """The names that a text imports of the repository's definitions, and those of whole files: `as Spec` gives `Spec.name`."""
    single: Names = {}
    whole: Names = {}
    for crate, part, names, other in USE.findall(text):
        if not os.path.isdir(f"{top}/crates/{crate}"):
            continue
        if not names and not re.search(rf"{re.escape(part)}\.\{{\s*\}}", text):
            whole[other or part.split(".")[-1]] = Definition(crate, part, "")
        for it in filter(None, map(str.strip, names.split(","))):
            name, _, alias = it.partition(" as ")
            single[(alias or name).strip()] = Definition(crate, part, name.strip())
    return single, whole


def cited(text: str, names: Tuple[Names, Names]) -> Iterator[Definition]:
    """The definitions that a text names, by these imports. An operator `◌×◌` is named by its sign."""
    single, whole = names
    text = without_comments(text)
    words = {*WORD.findall(text)}
    for name, found in single.items():
        signs = [it for it in name.split("◌") if it]
        if name in words or "◌" in name and signs and all(it in words for it in signs):
            yield found
    for alias, found in whole.items():
        for name in {*re.findall(rf"(?<![\w.]){re.escape(alias)}\.([A-Za-z_]\w*)", text)}:
            yield found._replace(name=name)


class Body(NamedTuple):
    """What defines a name: its text, with the heads of the modules that it is in, and how many lines it has with the comment above it."""

    text: str
    lines: int


def definitions(text: str) -> Dict[str, Body]:
    """The definitions of a file of specs/ by name, also those that aren't public and those of unnamed modules."""
    found: Dict[str, List[str]] = {}
    heads: Dict[str, int] = {}  # how many lines of a text are heads, less those of the comment above
    current: Optional[List[str]] = None
    blocks: List[List[str]] = []  # the heads of the modules around a line; of what is mutual no lines
    comments = 0
    for number, line in enumerate(text.splitlines()):
        head, depth = antt.head_of(number, line), len(line) - len(line.lstrip())
        if not line.strip() or line.lstrip().startswith("--"):
            comments = comments + 1 if line.strip() else 0
            continue
        del blocks[depth // INDENT :]
        if re.match(r"\s*(?:pub )?use |infix", line):
            current = None
        elif re.match(r" *(module _|mutual$)", line) and depth == INDENT * len(blocks):
            current = [line.strip()] if "module _" in line else []
            blocks.append(current)
        elif blocks and current is blocks[-1] and depth > INDENT * len(blocks):
            current.append(line.strip())  # the head goes on
        elif head and depth == INDENT * len(blocks) and head.sort in antt.DEFINES:
            above = [it for block in blocks for it in block]
            heads.setdefault(head.name, len(above) - comments)
            current = found.setdefault(head.name, above)
            current.append(line)
        elif current is not None:
            current.append(line)
        comments = 0
    return {name: Body("\n".join(lines), len(lines) - heads[name]) for name, lines in found.items()}


class Reading:
    """The sources below a folder, and what was found to be read: each definition with what cites it first. What a law pins down is read by
    that law, so nothing that it cites is."""

    def __init__(self, top: str, pinned: Iterable[Definition] = ()) -> None:
        self.top, self.pinned = top, {*pinned}
        self.found: Dict[Definition, str] = {}
        self.cites: Dict[Definition, Set[Definition]] = {}
        self.declared: Dict[Definition, str] = {}
        self.unknown: Set[str] = set()
        self.todo: List[Definition] = []
        self.text = functools.lru_cache(None)(lambda file: antt.read(f"{top}/{file}"))
        self.of_file = functools.lru_cache(None)(lambda crate, part: definitions(self.text(self.file_of(crate, part))))
        self.names_of_file = functools.lru_cache(None)(lambda file: names_of(self.text(file), top))

    @staticmethod
    def file_of(crate: str, part: str) -> str:
        return f"crates/{crate}/specs/{part.replace('.', '/')}.antt"

    def meant(self, one: Definition) -> Optional[Definition]:
        """The definition that a name stands for: a field or a case belongs to its type, and a file may hand a name on from another."""
        file = self.file_of(one.crate, one.part)
        if not os.path.isfile(f"{self.top}/{file}"):
            return None
        here, names = self.of_file(one.crate, one.part), self.names_of_file(file)[0]
        if one.name in here:
            return one
        owner = next((it for it, body in here.items() if re.search(rf"(?m)^\s+(?:pub )?{re.escape(one.name)}\s*:", body.text)), None)
        if owner:
            return one._replace(name=owner)
        return self.meant(names[one.name]) if one.name in names and not names[one.name].part.startswith("declared.") else None

    def add(self, one: Definition, why: str) -> Optional[Definition]:
        """Notes that a name is to be read, and returns its definition."""
        if one.part.startswith("declared."):
            self.declared.setdefault(one._replace(name=""), why)
            return None
        if one.part.startswith("contracts"):
            return None
        found = self.meant(one)
        if not found:
            handed = self.names_of_file(self.file_of(one.crate, one.part))[0].get(one.name) if self.is_there(one) else None
            if handed:
                self.add(handed, why)
            else:
                self.unknown.add(str(one))
        elif found not in self.found:
            self.found[found] = why
            self.todo += [] if found in self.pinned else [found]
        return found

    def is_there(self, one: Definition) -> bool:
        return os.path.isfile(f"{self.top}/{self.file_of(one.crate, one.part)}")

    def read(self, text: str, names: Tuple[Names, Names], why: str) -> None:
        """Notes what a text cites, and follows it."""
        for it in cited(text, names):
            self.add(it, why)
        while self.todo:
            one = self.todo.pop()
            self.cites[one] = {it for it in (self.add(it, str(one)) for it in self.cited_by(one)) if it and it != one}

    def cited_by(self, one: Definition) -> Iterator[Definition]:
        """What a definition names: of its own file, and by the file's imports."""
        here = self.of_file(one.crate, one.part)
        body = here[one.name].text
        yield from cited(body, self.names_of_file(self.file_of(one.crate, one.part)))
        yield from cited(body, ({it: one._replace(name=it) for it in here if it != one.name}, {}))

    def within(self, one: Definition) -> Set[Definition]:
        """A definition, and those of its file that it names."""
        found, todo = set(), [one]
        while todo:
            at = todo.pop()
            if at not in found:
                found.add(at)
                todo += [] if at in self.pinned else [it for it in map(self.meant, self.cited_by(at)) if it and it[:2] == one[:2]]
        return found

    def clause(self, file: str, function: str, text: str, block: str) -> None:
        """Reads a clause of a function: by the imports of its file, and of the block that it is in."""
        single, whole = self.names_of_file(file)
        more = names_of(block, self.top)
        self.read(text, ({**single, **more[0]}, {**whole, **more[1]}), f"{file}: {function}")

    def model(self, kind: str, file: str) -> None:
        """Reads what a type's values are to a clause: its model's view."""
        for block in re.findall(rf"(?ms)^impl(?:<[^>]*>)? Model for {kind}\b.*?^\}}", self.text(file)):
            said = "".join(re.findall(r"(?ms)^    ghost (?:Value|view) = (\{.*?\});", block))
            self.clause(file, f"the model of {kind}", said, block)

    def trait(self, kind: str, file: str) -> None:
        """Reads the ghost members that a trait declares."""
        for block in re.findall(rf"(?ms)^pub trait {kind}\b[^{{]*\{{.*?^\}}", self.text(file)):
            self.clause(file, f"the trait {kind}", "".join(re.findall(r"(?ms)^    ghost \w+: (\{.*?\});", block)), block)

    def implementers(self, kind: str, files: Iterable[str]) -> Set[str]:
        """Reads what a trait's ghost members are at the program's types, and returns the files that say so."""
        found = set()
        for file in files:
            for head, block in re.findall(rf"(?ms)^impl\b([^{{]*?\b{kind}(?:<[^{{]*?>)? for [^{{]+?)\{{(.*?)^\}}", self.text(file)):
                of = re.findall(r" for (?:&(?:'\w+ )?(?:mut )?)?([A-Z]\w*)", head)
                said = "".join(re.findall(r"(?ms)^    ghost \w+ = (\{.*?\});", block))
                if said and of and of[-1] not in OF_TESTS:
                    found.add(file)
                    self.clause(file, f"{kind} of {of[-1]}", said, block)
        return found

    def file_declaring(self, one: Definition) -> Optional[str]:
        """The source file of a declared type: `declared.MODULE.TYPE`, of which the module may be within others."""
        modules = [it for it in one.part.split(".")[1:] if it[0].islower()]
        places = (f"crates/{one.crate}/src/{'/'.join(modules) or 'lib'}.rt", f"crates/{one.crate}/src/lib.rt")
        return next((it for it in places if os.path.isfile(f"{self.top}/{it}")), None)


def crates_of_program(top: str) -> List[str]:
    """The crates that the program and the embedded replica stand on."""
    every = crates.read(top)
    return list(dict.fromkeys(it for root in (crates.PROGRAM, crates.EMBEDDED) if root in every for it in [*crates.below(every, root), root]))
