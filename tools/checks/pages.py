"""How the pages at the top and in docs/ are written: the length of lines and table cells, links, and words not to be used.

A line has at most 100 columns and a cell of a table at most 120 characters, both outside ``` blocks; a table's row has no limit
of its own, and a page none of lines. A link to a file of the repository leads somewhere, and one to a heading to a heading of that page.
All of this holds of other READMEs, too, and what follows of these pages alone. The words are looked for outside code. A block
```rattle FILE has lines of that file, in their order; `..` stands for what is left out.
docs/CRATES.md has a row for each crate, docs/ARCHITECTURE.md for each file of a package, and the README of tests/, tools/ and bench/
for each command there. What the pages say of the time of `./test quick` is what `./test` says itself, and docs/VERIFICATION.md has the
number of planted bugs of each folder."""

import argparse
import collections
import functools
import glob
import os
import re
from typing import FrozenSet, Iterator, List

import edits
from edits import Edit

COLUMNS, CELL = 100, 120

# The pages of the repository's top. Those of docs/ are found.
TOP_PAGES = ("README.md", "CHANGELOG.md", "CONTRIBUTING.md", "SECURITY.md")

# Pages of docs/ that are to be there.
WANTED = ("ARCHITECTURE", "CRATES", "DECISIONS", "EMBEDDED", "FORMATS", "GUIDE", "HACKING", "OPERATIONS", "PERFORMANCE", "RULES", "VERIFICATION")

# Words not to be used, and what to write.
WORDS = [
    (r"wants? of memory|memory is wanting", "out of memory"),
    (r"for want of", "without"),
    (r"tells?|told|telling", "write, report, return, notify"),
    (r"hand(s|ed|ing)? (on|in|back)", "deliver, return"),
    (r"lets? go|letting go", "drop"),
    (r"(give|gives|gave|given|giving) up", "drop, stop"),
    (r"(take|takes|took|taken|taking) away", "drop, remove"),
    (r"wrong bod(y|ies)", "mutation, bug"),
    (r"stands?|stood|standing", "is present, exists, is at"),
    (r"rais(e|es|ed|ing)", "start a new epoch, migrate, notify"),
    (r"further tables?", "other tables"),
    (r"faults? of the (device|store)", "I/O error, database error"),
    (r"the copy", "the stored log, the file; a clone"),
    (r"whoever", "the one who"),
    (r"in vain", "without effect"),
    (r"so it is", "a sentence of its own"),
]

# Where such a word is the right one: phrases that hold it.
ALLOWED = [
    "told list", "told lists", "standard", "stands for", "stand for", "stands on", "stand on", "stand-in", "standalone",
]


def blank(pattern: str, text: str) -> str:
    """The text with blanks in place of what the pattern finds, so that each line keeps its number."""
    return re.sub(pattern, lambda it: re.sub(r"[^\n]", " ", it[0]), text)


def phrase(words: str) -> str:
    return rf"(?i)\b(?:{words})\b".replace(" ", r"\s+")


def cells(line: str) -> List[str]:
    return [it.strip() for it in re.split(r"(?<!\\)\|", line.strip().strip("|"))]


@functools.lru_cache(maxsize=None)
def headings(page: str) -> FrozenSet[str]:
    """The names by which a link leads to the headings of a page: small letters, hyphens for blanks, no other marks."""
    found = re.findall(r"(?m)^#+ (.*)$", outside_code(page))
    return frozenset(re.sub(r"[^\w -]", "", it.strip().lower()).replace(" ", "-") for it in found)


def leads_somewhere(target: str, heading: str) -> bool:
    """Whether a link to a file of the repository, or to another site, leads somewhere."""
    if "://" in target:
        return True
    return os.path.exists(target) and (not heading or not target.endswith(".md") or heading in headings(target))


def link_faults(top: str, page: str) -> Iterator[str]:
    """The links of a page that lead nowhere."""
    for number, line in enumerate(outside_code(page).split("\n"), 1):
        for target, heading in re.findall(r"\]\(([^)#\s]*)(?:#([^)\s]*))?\)", line):
            if not leads_somewhere(os.path.join(os.path.dirname(page), target) if target else page, heading):
                yield f"{os.path.relpath(page, top)}:{number}: the link {target}{'#' if heading else ''}{heading} leads nowhere"


def outside_code(page: str) -> str:
    """The text of a page with blanks in place of its ``` blocks."""
    with open(page, encoding="utf-8") as it:
        return blank(r"(?ms)^ *```.*?^ *```[ ]*$", it.read())


def length_faults(top: str, page: str) -> Iterator[str]:
    """The lines and the cells of tables that are too long."""
    for number, line in enumerate(outside_code(page).split("\n"), 1):
        at = f"{os.path.relpath(page, top)}:{number}"
        if line.startswith("|"):
            yield from (f"{at}: a cell of {len(it)} characters" for it in cells(line) if len(it) > CELL)
        elif len(line.rstrip()) > COLUMNS:
            yield f"{at}: {len(line)} columns"


def word_faults(top: str, page: str) -> Iterator[str]:
    """The words that are not to be used."""
    name = os.path.relpath(page, top)
    text = blank(r"`[^`]*`|\]\([^)]*\)", outside_code(page))
    for allowed in ALLOWED:
        text = blank(phrase(allowed), text)
    for words, wanted in WORDS:
        for found in re.finditer(phrase(words), text):
            yield f"{name}:{text.count(chr(10), 0, found.start()) + 1}: '{' '.join(found[0].split())}': write {wanted}"


def quote_faults(top: str, page: str) -> Iterator[str]:
    """The lines that a page quotes from a file, and that the file hasn't, in this order."""
    with open(page, encoding="utf-8") as it:
        text = it.read()
    for block in re.finditer(r"(?ms)^```rattle (\S+)\n(.*?)^```$", text):
        with open(os.path.join(top, block[1]), encoding="utf-8") as quoted:
            rest = re.sub(r"\s+", " ", quoted.read())
        number = text.count("\n", 0, block.start(2))
        for line in block[2].splitlines():
            number += 1
            if words := re.sub(r"\s+", " ", line).strip(" ."):
                _, found, behind = rest.partition(words)
                if not found:
                    yield f"{os.path.relpath(page, top)}:{number}: {block[1]} has no such line"
                rest = behind if found else rest


def crate_faults(top: str) -> Iterator[str]:
    """The crates that crates.txt lists and docs/CRATES.md hasn't, and the other way round."""
    with open(f"{top}/crates.txt", encoding="utf-8") as listed, open(f"{top}/docs/CRATES.md", encoding="utf-8") as page:
        every, described = re.findall(r"(?m)^(\w+)[^:\n#]*:", listed.read()), re.findall(r"(?m)^\| `(\w+)` \|", page.read())
    yield from (f"docs/CRATES.md: {it} has no row" for it in every if it not in described)
    yield from (f"docs/CRATES.md: there is no crate {it}" for it in described if it not in every)


def map_faults(top: str) -> Iterator[str]:
    """The files of the packages that the last section of docs/ARCHITECTURE.md hasn't, and those that it has and that aren't there."""
    with open(f"{top}/docs/ARCHITECTURE.md", encoding="utf-8") as page:
        section = page.read().rpartition("\n## ")[2]
    for table in section.split("\n\n"):
        for folder in re.findall(r"^\| Files of `([\w/]+)/`", table):
            inside, mapped = f"{top}/clients/{folder}", set(re.findall(r"`([\w/]+\.(?:mjs|py))`", table))
            found = (os.path.relpath(it, inside) for kind in ("*.mjs", "lib/*.mjs", "*.py") for it in glob.glob(f"{inside}/{kind}"))
            files = {it for it in found if not it.startswith("__")}
            yield from (f"docs/ARCHITECTURE.md: clients/{folder}/{it} is in no row" for it in sorted(files - mapped))
            yield from (f"docs/ARCHITECTURE.md: there is no clients/{folder}/{it}" for it in sorted(mapped - files) if not it.startswith("test_"))


def command_faults(top: str) -> Iterator[str]:
    """The commands of tests/, tools/ and bench/ that their README has no row for, and those that it has and that aren't there."""
    for folder in ("tests", "tools", "bench"):
        page = f"{folder}/README.md"
        with open(f"{top}/{page}", encoding="utf-8") as it:
            listed = set(re.findall(rf"(?m)^\| `({folder}/[\w/-]+)", it.read()))
        files = (os.path.relpath(it, top) for pattern in ("*", "*/*") for it in glob.glob(f"{top}/{folder}/{pattern}"))
        here = {it for it in files if os.path.isfile(f"{top}/{it}") and is_command(f"{top}/{it}")}
        yield from (f"{page}: {it} has no row" for it in sorted(here - listed))
        yield from (f"{page}: there is no {it}" for it in sorted(listed - here))


def is_command(path: str) -> bool:
    """Whether a file says what runs it."""
    with open(path, "rb") as it:
        return it.read(2) == b"#!"


def minute_faults(top: str) -> Iterator[str]:
    """The pages that give another time of `./test quick` than `./test` does. docs/HACKING.md gives one."""
    with open(f"{top}/test", encoding="utf-8") as it:
        minutes = re.findall(r'(?m)^QUICK_MINUTES = "(\w+)"$', it.read())
    for page in ("README.md", "CONTRIBUTING.md", "docs/HACKING.md", "tests/README.md"):
        with open(f"{top}/{page}", encoding="utf-8") as it:
            text = re.sub(r"\s+", " ", it.read())
        said = re.findall(r"`?\./test quick`?[^.]*? (?:in|takes) (?:some )?(\w+) minutes", text)
        if {*said} - {*minutes} or page == "docs/HACKING.md" and not said:
            yield f"{page}: ./test quick takes {', '.join(said) or 'no'} minutes there, and {', '.join(minutes) or 'no'} in test"


def edit_faults(top: str) -> Iterator[str]:
    """The folders of planted bugs of which docs/VERIFICATION.md has another number."""
    with open(f"{top}/docs/VERIFICATION.md", encoding="utf-8") as it:
        said = dict(re.findall(r"(?m)^\| `((?:crates|tests)/[^`]+)` \| (\d+) \|", it.read()))
    here = collections.Counter(folder_of(it) for it in edits.read_edits(top))
    for folder, count in sorted(here.items()):
        if said.get(folder) != str(count):
            yield f"docs/VERIFICATION.md: {folder} has {said.get(folder, 'no')} edits there, and {count} in the tree"


def folder_of(edit: Edit) -> str:
    """What that page calls the folder of an edit."""
    if edit.is_of_gate:
        return "crates/*/must-fail"
    if edit.is_outside:
        return "tests/mutations/{hub,js,..}"
    return "tests/mutations" if "/mutations/" in edit.path else "/".join(edit.path.split("/")[-3:-1])


def check(words: argparse.Namespace) -> int:
    wanted = [*TOP_PAGES, *(f"docs/{it}.md" for it in WANTED)]
    missing = [it for it in wanted if not os.path.isfile(f"{words.top}/{it}")]
    for name in missing:
        print(f"{name} is missing")
    bad = len(missing)
    pages = [*(f"{words.top}/{it}" for it in TOP_PAGES), *sorted(glob.glob(f"{words.top}/docs/*.md"))]
    for page in filter(os.path.isfile, pages):
        looks = (length_faults, link_faults, word_faults, quote_faults)
        for fault in dict.fromkeys(it for look in looks for it in look(words.top, page)):
            print(fault)
            bad += 1
    others = glob.glob(f"{words.top}/*/README.md") + glob.glob(f"{words.top}/clients/*/README.md")
    written = [fault for page in sorted(others) for look in (length_faults, link_faults) for fault in look(words.top, page)]
    for fault in written if missing else (*written, *crate_faults(words.top), *map_faults(words.top), *command_faults(words.top), *minute_faults(words.top), *edit_faults(words.top)):
        print(fault)
        bad += 1
    print(f"{len(pages)} pages, {bad} faults")
    return bad
