"""Instructions of fixed loads, for tests/costs: what is wasted at each request alike shows in no ratio.

perf counts them where the processor lets it, else valgrind, whose counts are the same each time."""

from __future__ import annotations

import re
import subprocess
from typing import Any, Callable, Dict, List, NamedTuple, Sequence

from support import SECONDS, Case, Differs, Lacks, Request, at_most, line_of, needs, operation, wanted

# At most so many times what the release took.
MOST = 1.3

PERF = ["perf", "stat", "-x", ",", "-e", "instructions:u"]
VALGRIND = ["valgrind", "--tool=cachegrind", "--cache-sim=no", "--cachegrind-out-file=/dev/null", "--trace-children=yes"]

# The path of a key of the document, and that of an element of its list `l`.
ROOT: List[Any] = [["m", 0]]
IN_LIST: List[Any] = [["m", 0], ["l", "l"]]


def chain(replica: str, size: int, place: Callable[[int], List[Any]], mutation: Callable[[int], List[Any]]) -> List[Request]:
    """Deliveries of so many operations of a replica, each of which knows its own before it. A place is a path and a key."""
    def one(counter: int) -> Request:
        path, key = place(counter)
        return ["deliver", "d", operation(counter, replica, [[replica, counter - 1]] if counter > 1 else [], path, key, mutation(counter))]

    return [one(it) for it in range(1, size + 1)]


def in_turns(*parts: Sequence[Request]) -> List[Request]:
    return [it for turn in zip(*parts) for it in turn]


# The loads. Where one has this mark, what is before it doesn't count.
BEHIND: Request = []


def typing() -> List[Request]:
    """Each element behind the last."""
    return [["insert", "d", [0, "l", it], it] for it in range(2_000)]


def list_with_deletions() -> List[Request]:
    """Of 2,000 elements 20 are left. Then it is read and written among these."""
    written: List[Request] = [["insert", "d", [0, "l", 0], it] for it in range(2_000)]
    deleted: List[Request] = [["delete", "d", [0, "l", 2_000 - it]] for it in range(1_980)]
    inserted: List[Request] = [["insert", "d", [0, "l", 19], it] for it in range(200)]
    return [*written, *deleted, BEHIND, *in_turns([["values", "d", [0, "l", 15]]] * 200, inserted)]


def three_type() -> List[Request]:
    """Three type behind the head, and none has seen another's."""
    def behind_own(name: str) -> List[Request]:
        return chain(name, 500, lambda it: [IN_LIST, [it - 1, name] if it > 1 else 1], lambda it: ["insert", it])

    return in_turns(behind_own("a"), behind_own("b"), behind_own("c"))


def late_insertions() -> List[Request]:
    """3,000 elements are typed. Another who has seen none of them inserts 300 at the head. Its ids are less than theirs, so each comes behind
    all of these."""
    def typed(counter: int) -> List[Any]:
        return [IN_LIST, [counter - 1, "z"] if counter > 301 else 1] if counter > 300 else [ROOT, "k"]

    before = chain("z", 3_300, typed, lambda it: ["insert" if it > 300 else "assign", it])
    return [*before, BEHIND, *chain("0", 300, lambda _: [IN_LIST, 1], lambda it: ["insert", it])]


def keys() -> List[Request]:
    """Many keys of one map, in no order."""
    assigned: List[Request] = [["assign", "d", [0, f"key {it * 7919 % 1_500}"], it] for it in range(1_500)]
    read: List[Request] = [["values", "d", [0, f"key {it}"]] for it in range(500)]
    named: List[Request] = [["keys", "d", [0]]] * 5
    return assigned + read + named


def values_of_200_replicas() -> List[Request]:
    """Each replica has a value at ten places. Then each place is read, and 20 are assigned anew."""
    values = [it for number in range(200) for it in chain(f"replica-{number:03}", 10, lambda it: [ROOT, f"k{it}"], lambda it: ["assign", it])]
    read: List[Request] = [["values", "d", [0, f"k{it}"]] for it in range(1, 11)]
    assigned: List[Request] = [["assign", "d", [0, f"k{it % 20}"], it] for it in range(200)]
    return values + read + assigned


def held_and_forgotten() -> List[Request]:
    """Ten times 250 operations are held together, for what never comes."""
    turns: List[Request] = []
    for turn in range(10):
        names = [f"p{it}-{turn}" for it in range(250)]
        turns += [["deliver", "d", operation(2, name, [[name, 1]], ROOT, "k", ["assign", 1])] for name in names]
        turns += [["forget", "d", [2, name]] for name in names]
    return turns


def held_and_released() -> List[Request]:
    """A chain comes backwards, 250 at a time."""
    ordered = chain("p", 2_000, lambda it: [ROOT, f"k{it % 9}"], lambda it: ["assign", it])
    return [it for at in range(0, 2_000, 250) for it in reversed(ordered[at : at + 250])]


def known_and_paged() -> List[Request]:
    """A log is delivered twice, and read in pages."""
    ordered = chain("p", 1_000, lambda it: [ROOT, f"k{it % 9}"], lambda it: ["assign", it])
    return [*ordered, *ordered, *[["ops", "d", [["p", it]] if it else [], 64] for it in range(0, 1_000, 64)] * 4]


def list_of_maps() -> List[Request]:
    """Maps in a list, with texts and counters, which are changed, read and shown."""
    made: List[Request] = [["assign", "d", [0, "l"], []]]
    for it in range(1, 201):
        made += [["insert", "d", [0, "l", it - 1], {}], ["assign", "d", [0, "l", it, "text"], "x" * 100], ["add", "d", [0, "l", it, "n"], it]]
    changed: List[Request] = [["assign", "d", [0, "l", it % 200 + 1, "text"], it] for it in range(600)]
    summed: List[Request] = [["sum", "d", [0, "l", it, "n"]] for it in range(1, 201)]
    shown: List[Request] = [["show", "d", [0]]] * 5
    return made + changed + summed + shown


def ids_before_others() -> List[Request]:
    """Below one map a replica's operations come after those of another, and their ids go before its."""
    def below(name: str) -> List[Request]:
        return chain(name, 1_000, lambda it: [[["m", 0], ["m", "below"]], f"{name}{it % 5}"], lambda it: ["assign", it])

    return [*below("z"), *below("a")]


# The figure of each load: how many millions of instructions the release of 1.2.0 takes for it, by valgrind 3.19.
LOADS: Dict[Callable[[], List[Request]], float] = {
    typing: 57.4, list_with_deletions: 10.9, three_type: 59.5, late_insertions: 13.4, keys: 54.6, values_of_200_replicas: 110.2,
    held_and_forgotten: 137.8, held_and_released: 70.9, known_and_paged: 71.6, list_of_maps: 42.8, ids_before_others: 74.3,
}


# Counting.


class Counter(NamedTuple):
    """A command that runs another one, and what it says of its instructions."""

    words: List[str]
    told: str


def counter() -> Counter:
    """What counts instructions here. Raises Lacks where nothing does."""
    if not needs.missing("perf"):
        ran = subprocess.run([*PERF, "true"], stdin=subprocess.DEVNULL, stderr=subprocess.PIPE, text=True, check=False)
        if re.search(r"(?m)^\d+,.*instructions", ran.stderr):
            return Counter(PERF, r"(?m)^(\d+),.*instructions")
    if needs.missing("valgrind"):
        raise Lacks(needs.reason_of(["valgrind"]))
    return Counter(VALGRIND, r"I +refs: +([\d,]+)")


def counted(program: str, requests: Sequence[Request]) -> float:
    """How many millions of instructions `run` takes for these requests."""
    how = counter()
    given = b"".join(map(line_of, [["open", "d"], *requests]))
    ran = subprocess.run([*how.words, program, "run", "d"], input=given, stdout=subprocess.PIPE, stderr=subprocess.PIPE, timeout=SECONDS, check=False)
    found = re.findall(how.told, ran.stderr.decode(errors="replace"))
    wanted("the status", ran.returncode, 0)
    refused = [it for it in ran.stdout.splitlines() if it.startswith(b'["no",')]
    if refused or ran.stdout.count(b"\n") != len(requests) + 1:
        raise Differs(f"{len(ran.stdout.splitlines())} replies to {len(requests) + 1} requests, {len(refused)} refusals: {refused[:1]!r}")
    if not found:
        raise Differs(f"{how.words[0]} tells no instructions: {ran.stderr[-300:]!r}")
    return int(found[-1].replace(",", "")) / 1e6


def counted_load(program: str, requests: List[Request]) -> float:
    """How many millions of instructions a load takes, or what of it counts."""
    if BEHIND not in requests:
        return counted(program, requests)
    at = requests.index(BEHIND)
    first = requests[:at]
    return counted(program, [*first, *requests[at + 1 :]]) - counted(program, first)


def case_of(load: Callable[[], List[Request]], figure: float, beside: str) -> Case:
    def case(program: str, _room: str) -> str:
        due = counted_load(beside, load()) if beside else figure
        found = counted_load(program, load())
        at_most(f"{found:.1f} million instructions, beside {due:.1f} of {beside or 'the release of 1.2.0'}: the ratio", found / due, MOST)
        return f"{found:.1f} million, beside {due:.1f}: {found / due:.2f}"
    return case


def cases(beside: str = "") -> Dict[str, Case]:
    """A case for each load, beside its figure or what another program takes."""
    return {f"instructions of {load.__name__.replace('_', ' ')}": case_of(load, figure, beside) for load, figure in LOADS.items()}
