"""Two sections of docs/VERIFICATION.md are those of the sources.

"What is promised": each clause of its tables is a clause of the function beside it, in the linked file. "What must be read": its items
have what the rows need, and nothing else, in an order in which each file cites only what stands before it. What a row needs is found by
names: the definitions that its clauses name, those that these name, and so on; what the values of the types in the function's signature
are to a clause (the views of their models, and of their fields' types'), what the ghost members of the traits there are at the program's
types, and the types that all these name of the code. Item 0 has the source files. Of a file that is listed as "of `crate/specs/File`:
`name`, .." these definitions and those that they name in it are read, and of "`crate/specs/File` but `name`, .." all others. "`name` by
[`Type::law`](file)" is a definition that the law pins down, so what it names isn't read.

It prints what the page lacks, with what names it, and what no row needs. The lines that the page says are those that the items have."""

import argparse
import functools
import glob
import os
import re
from typing import Dict, Iterable, Iterator, List, NamedTuple, Set, Tuple

import antt
import crates
from reading import Definition, Reading, crates_of_program

# A type or trait of the sources: its crate and its name.
Name = Tuple[str, str]
# A linked function: its name and its file.
Link = Tuple[str, str]

SOME = r"`[^`\s/]+`(?: by \[`[A-Za-z_:]+`\]\([^)]*\))?"
NAMES = rf"{SOME}(?:,? (?:and )?{SOME})*"


class Entry(NamedTuple):
    """A specs file of the list: its item, crate and name, and which definitions: all, `of` these, or all `but` these."""

    item: int
    crate: str
    part: str
    sort: str
    names: Tuple[str, ...]


def section(text: str, title: str) -> str:
    """The text from the section's title to the next title of its rank."""
    found = re.search(rf"(?ms)^## {title}\n(.*?)(?=^## |\Z)", text)
    return found[1] if found else ""


def items_of(text: str) -> List[Tuple[int, str]]:
    """The items of the list: their numbers, each with its text."""
    return [(int(number), said) for number, said in re.findall(r"(?ms)^(\d+)\. (.*?)(?=^\d+\. |\Z)", text)]


def listed(text: str) -> Iterator[Entry]:
    """The specs files of the list, in order."""
    for item, said in items_of(text):
        said = re.sub(r"\s+", " ", said)
        for crate, several, one, sort, names in re.findall(rf"`([a-z_]+)/specs/(?:\{{([A-Za-z, ]+)\}}|([A-Za-z]+))`(?:(:| but) ({NAMES}))?", said):
            for part in (several or one).split(","):
                yield Entry(item, crate, part.strip(), {":": "of", " but": "but"}.get(sort, "all"), tuple(re.findall(r"(?<!\[)`([^`\s]+)`", names)))


def pinned(text: str) -> Iterator[Tuple[Definition, str, str]]:
    """The definitions that a law pins down: each with the law's name and file."""
    text = re.sub(r"\s+", " ", text)
    for crate, part, names in re.findall(rf"`([a-z_]+)/specs/([A-Za-z]+)`: ?({NAMES})", text):
        for name, law, file in re.findall(r"`([^`\s]+)` by \[`([A-Za-z_:]+)`\]\((?:\.\./)?([^)]*)\)", names):
            yield Definition(crate, part, name), law.split("::")[-1], file


def table(text: str) -> Iterator[Tuple[List[Link], List[str]]]:
    """The rows of the tables: links to functions, and the clauses."""
    for row in re.findall(r"(?m)^\|(?! *-| *Promise)(.*)\|$", text):
        _, where, clauses = [cell.strip() for cell in row.split("|")[:3]]
        links = re.findall(r"\[`([A-Za-z_:]+)`\]\((?:\.\./)?([a-z_/]+\.rt)\)", where)
        yield [(name.split("::")[-1], file) for name, file in links], re.findall(r"`([a-z_]+)`", clauses)


def sources_listed(text: str) -> Set[str]:
    """The source files of item 0."""
    found: Set[str] = set()
    for crate, several, one in re.findall(r"`([a-z_]+)/src/(?:\{([a-z_,\s]+)\}|([a-z_]+))`", text):
        found |= {f"crates/{crate}/src/{name.strip()}.rt" for name in (several or one).split(",")}
    return found


class Sources:
    """What the list and the tables are about: the crates' sources below a folder."""

    def __init__(self, top: str) -> None:
        self.top = top
        self.crates = crates.read(top)
        self.text = functools.lru_cache(None)(lambda file: antt.read(f"{top}/{file}"))
        self.models: Dict[Name, str] = {}
        self.fields: Dict[Name, Set[str]] = {}
        for path in sorted(glob.glob(f"{top}/crates/*/src/**/*.rt", recursive=True)):
            self.declare(os.path.relpath(path, top))

    def declare(self, file: str) -> None:
        """Finds the models and the traits with ghost members of a file, and what the fields of each type name."""
        text, crate = self.text(file), file.split("/")[1]
        self.models.update({(crate, it): file for it in re.findall(r"(?m)^impl(?:<[^>]*>)? Model for ([A-Za-z]+)", text)})
        for trait, body in re.findall(r"(?ms)^pub trait ([A-Za-z]+)[^{]*\{(.*?)^\}", text):
            self.fields[crate, trait] = set()
            if re.search(r"(?m)^\s*ghost [a-z_]+: \{", body):
                self.models[crate, trait] = file
        for sort, kind, body in re.findall(r"(?ms)^(?:pub(?:\([a-z]+\))? )?(struct|enum|type) ([A-Za-z]+)[^{;(=]*(\{.*?^\}|\(.*?\);|=.*?;)", text):
            # What a case of an enum has, without the case's name.
            of = re.sub(r"(?m)^    [A-Z][A-Za-z]*", "", body) if sort == "enum" else body
            self.fields[crate, kind] = set(re.findall(r"[A-Z][A-Za-z]+", of))

    def is_file(self, file: str) -> bool:
        return os.path.isfile(f"{self.top}/{file}")

    def functions(self, file: str) -> Dict[str, str]:
        """Each function of a file with its contract, up to the brace of its body."""
        return dict(re.findall(r"(?ms)^[ ]*(?:pub )?(?:extern \"C\" )?fn ([a-z_]+)(.*?)\{\}?$", self.text(file)))

    def block_of(self, name: str, file: str) -> str:
        """What is imported in the block that a function is in."""
        text = self.text(file)
        found = re.search(rf"(?m)^[ ]*(?:pub )?(?:extern \"C\" )?fn {name}\b", text)
        blocks = re.findall(r"(?m)^(?:impl|pub trait)\b[^\n]*\n((?:    ghost use [^;]*;\n|\s*\n)*)", text[: found.start()]) if found else []
        return str(blocks[-1]) if blocks else ""

    def meant(self, crate: str, name: str) -> List[Name]:
        """The types that a name may mean in a crate: its own, or those of the crates that it names."""
        libraries = self.crates[crate].libraries if crate in self.crates else []
        return [(crate, name)] if (crate, name) in self.fields else [(it, name) for it in libraries if (it, name) in self.fields]

    def types_of(self, name: str, file: str) -> Set[str]:
        """The types and traits that a function's signature names: its own, its parameters', its result's and its bounds'."""
        text = self.text(file)
        found = re.search(rf"(?ms)^[ ]*(?:pub )?(?:extern \"C\" )?fn {name}\b(.*?)(?=\brequires\b|\bensures\b|\{{\n)", text)
        if not found:
            return set()
        block = re.findall(r"(?m)^impl.*$", text[: found.start()])
        # Each file's functions are methods of the block above them, if they take self.
        return set(re.findall(r"[A-Z][A-Za-z]+", found[1] + (block[-1] if block and "self" in found[1] else "")))

    def models_behind(self, names: Iterable[Link]) -> Dict[str, str]:
        """The models that these functions' clauses go through: each type or trait, with its file."""
        todo = [it for name, file in names if self.is_file(file) for word in self.types_of(name, file) for it in self.meant(file.split("/")[1], word)]
        seen: Set[Name] = set()
        while todo:
            one = todo.pop()
            if one not in seen:
                seen.add(one)
                todo += [it for word in self.fields[one] for it in self.meant(one[0], word)]
        return {it[1]: self.models[it] for it in seen if it in self.models}


class Rows:
    """What the rows of the tables need: definitions, in `reading`, and source files, each with why."""

    def __init__(self, top: str, rows: List[Tuple[List[Link], List[str]]], text: str) -> None:
        self.sources = Sources(top)
        self.faults: List[str] = []
        laws = list(pinned(text))
        self.faults += [f"{file} has no law {law} of {one.name}" for one, law, file in laws
                        if not self.sources.is_file(file) or not re.search(rf"\b{one.name}\b", self.sources.functions(file).get(law, ""))]
        self.reading = Reading(top, [one for one, _, _ in laws])
        self.files: Dict[str, str] = {}
        for links, clauses in rows:
            self.read_row(links, clauses)
        self.read_models(self.sources.models_behind([it for links, _ in rows for it in links]))
        for one, why in self.reading.declared.items():
            file = self.reading.file_declaring(one)
            if file:
                self.files.setdefault(file, f"{one.part.split('.')[-1]} is declared there: {why}")
        self.faults += [f"no definition is found of {it}" for it in sorted(self.reading.unknown)]

    def read_row(self, links: List[Link], clauses: List[str]) -> None:
        """Reads the clauses of a row, and notes which aren't where it says."""
        contracts = {(name, file): self.sources.functions(file).get(name) if self.sources.is_file(file) else None for name, file in links}
        self.faults += [f"{file} has no function {name}" for (name, file), contract in contracts.items() if contract is None]
        if not links:
            self.faults.append(f"no function is linked for the clauses {', '.join(clauses)}")
        for clause in clauses:
            found = [(name, file, said) for (name, file), contract in contracts.items()
                     for said in re.findall(rf"(?ms)ensures {clause}\b(.*?)(?=^\s*(?:ensures|requires|//)|\Z)", contract or "")]
            if not found:
                self.faults.append(f"{', '.join(name for name, _ in links)}: no clause {clause}")
            for name, file, said in found:
                self.reading.clause(file, f"the clause {clause} of {name}", said, self.sources.block_of(name, file))

    def read_models(self, models: Dict[str, str]) -> None:
        """Reads what values are to a clause, and what ghost members are at the program's types."""
        top = self.sources.top
        of_program = [os.path.relpath(it, top) for crate in crates_of_program(top)
                      for it in sorted(glob.glob(f"{top}/crates/{crate}/src/**/*.rt", recursive=True))]
        for kind, file in sorted(models.items()):
            self.files.setdefault(file, f"it has the model of {kind}")
            self.reading.model(kind, file)
            if re.search(rf"(?m)^pub trait {kind}\b", self.reading.text(file)):
                self.reading.trait(kind, file)
                for it in self.reading.implementers(kind, of_program):
                    self.files.setdefault(it, f"it says what {kind} is at a type of the program")


class Listed:
    """What the items have: definitions by file, and source files."""

    def __init__(self, text: str, rows: Rows) -> None:
        self.entries = list(listed(text))
        self.sources = sources_listed(text)
        self.rows, self.reading = rows, rows.reading
        self.faults: List[str] = []
        self.has: Dict[Definition, Entry] = {}
        for entry in self.entries:
            for one in self.read_entry(entry):
                self.has.setdefault(one, entry)

    def read_entry(self, entry: Entry) -> Set[Definition]:
        """The definitions that are read of a file."""
        whole = Definition(entry.crate, entry.part, "")
        if not self.reading.is_there(whole):
            self.faults.append(f"{entry.crate}/specs/{entry.part} isn't there")
            return set()
        all_of = {whole._replace(name=it) for it in self.reading.of_file(entry.crate, entry.part)}
        named = {whole._replace(name=it) for it in entry.names}
        self.faults += [f"there is no {it}" for it in sorted(map(str, named - all_of))]
        if entry.sort == "of":
            return {it for one in named & all_of for it in self.reading.within(one)}
        return all_of - named

    def compare(self) -> List[str]:
        """What the list lacks, what no row needs, and what doesn't stand before what cites it."""
        needed, place = self.reading.found, {entry: at for at, entry in enumerate(self.entries)}
        found = [f"the page lacks {one}, which {why} names" for one, why in needed.items() if one not in self.has]
        found += [f"no row needs {one}" for one in self.has if one not in needed]
        of_files = {(one.crate, one.part) for one in needed}
        found += [f"no row needs {entry.crate}/specs/{entry.part}" for entry in self.entries if (entry.crate, entry.part) not in of_files]
        for one, cites in self.reading.cites.items():
            late = [it for it in cites if one in self.has and it in self.has and place[self.has[it]] > place[self.has[one]]]
            found += [f"{one} names {it}, which doesn't stand before it" for it in sorted(late)]
        files = self.rows.files
        found += [f"item 0 lacks {file}: {why}" for file, why in sorted(files.items()) if file not in self.sources]
        return found + [f"item 0 lists {it}, which no row needs" for it in sorted(self.sources - {*files})]

    def lines(self) -> Dict[int, int]:
        """The lines of each item, with the comments above definitions."""
        found: Dict[int, int] = {}
        for one, entry in self.has.items():
            found[entry.item] = found.get(entry.item, 0) + self.reading.of_file(one.crate, one.part)[one.name].lines
        return found


def faults_of_figures(text: str, lines: Dict[int, int]) -> Iterator[str]:
    """What is wrong with the lines that the page says: each figure is off by less than a hundred."""
    are = sum(lines.get(it, 0) for it in range(1, 7)), sum(lines.values())
    said = re.search(r"Items 1 to 6 have some ([\d,]+) lines, all some ([\d,]+)", re.sub(r"\s+", " ", text))
    if not said or any(abs(int(told.replace(",", "")) - it) >= 100 for told, it in zip(said.groups(), are)):
        first, every = (round(it, -2) for it in are)
        yield f"the page doesn't say: Items 1 to 6 have some {first:,} lines, all some {every:,}"


def check(words: argparse.Namespace) -> int:
    page = antt.read(f"{words.top}/docs/VERIFICATION.md")
    text, rows = section(page, "What must be read"), list(table(section(page, "What is promised")))
    needed = Rows(words.top, rows, text)
    had = Listed(text, needed)
    lines = had.lines()
    faults = [*needed.faults, *had.faults, *had.compare(), *faults_of_figures(text, lines)]
    for fault in faults:
        print(fault)
    print(f"{len(had.entries)} files, {len(had.has)} definitions, {sum(lines.values())} lines with the comments above; by item: "
          f"{', '.join(f'{it} {n}' for it, n in lines.items())}")
    print(f"{len(needed.files)} source files, {len(rows)} promises; {len(faults)} faults")
    return len(faults) if had.entries and rows else max(1, len(faults))
