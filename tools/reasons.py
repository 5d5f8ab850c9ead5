"""What long reports say of their failures, so that it can be repeated where one looks: at the end. Of `rt ci`, of Node's tests and of pytest's."""

import re
from typing import Iterator, List, NamedTuple, Sequence, Tuple
from xml.etree import ElementTree

# Stands above what is repeated, and above what is repeated of a first try where the second one passed.
HEAD = "What failed:"
SECOND = "Passed at the second try. What failed at the first:"

# The most lines of one value, of a crate's check or test, and of a step without HEAD; and the most letters of a line.
VALUE, CRATE, STEP, WIDE = 8, 40, 25, 400

# What Node's report says of a test that failed by no fault of its own. It has no word on the hook or the file whose fault it is.
NOT_OWN = ("test failed", "test did not finish before its parent and was cancelled")

# Characters that XML can't have, and that a test may print.
NO_XML = re.compile("[\x00-\x08\x0b\x0c\x0e-\x1f\ufffe\uffff]")

# What a check says of what it refuses, and `rt ci` of a run or an edit that failed.
PLACE = re.compile(r"^(note: |warning: )?\S+:\d+:\d+: |^error|^\w+ .*: no proof| must prove: |^rt: ")
RUN = re.compile(r"^rt: FAILED: |NOT REFUSED|NOT TRIED|was not run|had not ended|ended with status|stopped by signal|they differ first")


def cut(lines: Sequence[str], most: int) -> List[str]:
    """These lines, or as many as may be."""
    short = [it if len(it) <= WIDE else f"{it[:WIDE]} .." for it in lines]
    return short if len(short) <= most else [*short[: most - 1], f"(and {len(short) - most + 1} lines more)"]


# `rt ci`.


def sections(lines: Sequence[str]) -> Iterator[Tuple[str, List[str]]]:
    """The lines that `rt ci` writes of itself, each behind what came before it: what a check or a test has said."""
    before: List[str] = []
    is_check = False
    for line in lines:
        if line.startswith("== "):
            before, is_check = [], True
        elif line.startswith("rt: ") and not (is_check and not re.match(r"rt: .* (NOT PROVED|proved)", line)):
            yield line, before
            before, is_check = [], False
        else:
            before.append(line)


def of_gate(lines: Sequence[str]) -> List[str]:
    """The lines of a failed `rt ci` that say what it refuses, with file and line: of each crate that isn't proved, of tests, programs and edits."""
    told: List[str] = []
    for line, before in sections(lines):
        if line.endswith(" NOT PROVED"):
            told += [*cut([it for it in before if PLACE.search(it)] or before[-CRATE:], CRATE), line]
        elif line.endswith(": its tests FAILED"):
            told += [*cut(before[-CRATE:], CRATE), line]
        elif RUN.search(line):
            told.append(line)
    return told or list(lines[-STEP:])


# Tests.


class Test(NamedTuple):
    """A test of a report: its name behind those of its suites, `passed`, `failed` or `skipped`, and why."""

    name: str
    outcome: str
    why: List[str]


def of_junit(text: str) -> List[Test]:
    """The tests of a report as JUnit's XML, by Node or by pytest. Raises ParseError where it was cut off."""
    return list(cases(ElementTree.fromstring(NO_XML.sub("?", text)), ()))


def cases(element: ElementTree.Element, suites: Tuple[str, ...]) -> Iterator[Test]:
    for child in element:
        name = child.get("name", "")
        if child.tag == "testsuite":
            yield from cases(child, (*suites, *([name] if name != "pytest" else [])))
        elif child.tag == "testcase":
            yield outcome(child, " > ".join((*suites, name)))


def outcome(case: ElementTree.Element, name: str) -> Test:
    for fault in (it for it in case if it.tag in ("failure", "error")):
        return Test(name, "failed", why(fault))
    for skipped in case.iter("skipped"):
        return Test(name, "skipped", [" ".join((skipped.get("message") or "no reason").split())])
    return Test(name, "passed", [])


def of_tests(tests: Sequence[Test], said: str) -> List[str]:
    """What is repeated of a run of tests that failed: of each test its name and why, and the last lines of what the run said if that says too little."""
    failed = [it for it in tests if it.outcome == "failed"]
    told = [line for it in failed for line in (it.name, *(f"  {line}" for line in it.why))]
    is_enough = any(it.why != [NOT_OWN[0]] and it.why != [NOT_OWN[1]] for it in failed)
    return cut(told, 5 * CRATE) + ([] if is_enough else said.splitlines()[-STEP:])


def why(fault: ElementTree.Element) -> List[str]:
    """The error of a failed test, what was expected and what was there, and where."""
    if fault.get("message") in NOT_OWN:
        return [fault.get("message", "")]
    lines = (fault.text or "").strip("\n").splitlines()
    errors = [it for it in lines if re.match(r"E  |\S+\.py:\d+: \w", it)]
    return cut(errors or by_node(lines) or lines or [fault.get("message", "")], STEP)


def by_node(lines: Sequence[str]) -> List[str]:
    """What Node says of an error: of its cause the message, the first place, and the two values that an assertion compared."""
    begin = next((at for at, it in enumerate(lines) if it.startswith("  cause: ")), None)
    if begin is None:
        return []
    cause = [lines[begin][len("  cause: "):], *(it[2:] for it in lines[begin + 1 :])]
    places = [at for at, it in enumerate(cause) if re.match(r" +at ", it)]
    end = places[0] if places else len(cause)
    told = [*cut([it for it in cause[:end] if it.strip()], VALUE), *(cause[it].rstrip(" {") for it in places[:1])]
    for word in ("actual", "expected"):
        told += cut(value_of(cause[end:], word), VALUE)
    return told


def value_of(lines: Sequence[str], word: str) -> List[str]:
    """The lines of a property of an error, up to the next one."""
    begin = next((at for at, it in enumerate(lines) if it.startswith(f"  {word}: ")), None)
    if begin is None:
        return []
    rest = next((at for at, it in enumerate(lines[begin + 1 :], begin + 1) if re.match(r"  \w+: |}", it)), len(lines))
    return [it.rstrip(",") for it in lines[begin:rest]]


# Steps.


def of_step(lines: Sequence[str]) -> List[str]:
    """What a command that failed has repeated at its end; else its last lines."""
    return behind(HEAD, lines) or list(lines[-STEP:])


def of_first_try(lines: Sequence[str]) -> List[str]:
    """What a command that passed has repeated of what failed at its first try, if something did."""
    return behind(SECOND, lines)


def behind(head: str, lines: Sequence[str]) -> List[str]:
    """The lines behind the last one that is this head."""
    heads = [at for at, it in enumerate(lines) if it.strip() == head]
    return cut(lines[heads[-1] + 1 :], 5 * CRATE) if heads else []
