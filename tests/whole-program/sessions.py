"""The sessions in which allocations are refused, and what a run with refusals may say.

Each reply is the due one, or ["no",22,"no-memory"] with nothing changed, or tells of a drain that dropped more; and no more of these than
allocations were refused. What is due is what the same program answers, with ample memory, to the lines that were not refused as out of
memory, with the operations that were dropped as out of memory forgotten beforehand. The status is 0, or 1 with nothing written."""

from __future__ import annotations

import contextlib
import itertools
import json
import subprocess
import threading
from typing import Any, Callable, Dict, Iterator, List, Mapping, NamedTuple, Optional, Sequence, Tuple, TypeVar

from support import NO_MEMORY, Differs, Reply, Request, operation
from tried import SECONDS, Counts, Environment, Tried, Words, compact, documents_of, replies_of, same

TRIES = 20

# Which allocations are refused, by the words of tests/refuse-allocations.c.
Settings = Mapping[str, int]
# The ids of held operations, as JSON, that are forgotten before a line, by the line's place.
Forgotten = Dict[int, Tuple[Any, ...]]
# The operations of a document, as JSON.
Log = List[Any]
# What a document reads: nothing in place of each reply that can't be had.
Reads = List[Optional[Reply]]
Told = TypeVar("Told")


class Fit(NamedTuple):
    """The place of the first line whose reply isn't due, and what is due, or nothing where all are; and what was forgotten."""

    place: int
    due: Optional[str]
    forgotten: Forgotten


class Left(NamedTuple):
    """What a run has of a document: its operations, or nothing where they can't be had, and what it reads."""

    document: str
    log: Optional[Log]
    reads: Reads


def session() -> List[bytes]:
    """The lines of a session over two documents: lists, variables, counters, held operations and releases."""
    lines: List[Request] = [["open", "a"], ["open", "b"], ["version"]]
    root = [["m", 0]]
    for doc in ("a", "b"):
        lines += [
            ["assign", doc, [0], {}],
            ["assign", doc, [0, "list"], []],
            ["insert", doc, [0, "list", 0], "one"],
            ["insert", doc, [0, "list", 1], "two"],
            ["insert", doc, [0, "list", 0], {}],
            ["assign", doc, [0, "list", 1, "title"], "a text that is long enough to be kept by itself"],
            ["let", doc, "first", [0, "list", 1]],
            ["let", doc, "last", [0, "list", 3]],
            ["insert", doc, ["last"], [None, True][doc == "b"]],
            ["add", doc, [0, "votes"], 5],
            ["add", doc, [0, "votes"], -7],
            ["sum", doc, [0, "votes"]],
            # Three that come in the wrong order, one that fits nowhere, and one that is forgotten.
            ["deliver", doc, operation(3, "p", [["p", 2]], root, "k", ["assign", 3])],
            ["deliver", doc, operation(2, "p", [["p", 1]], root, "k", ["assign", 2])],
            ["deliver", doc, operation(4, "q", [["p", 3]], [["m", 0], ["l", "list"]], [2, "z"], ["delete"])],
            ["deliver", doc, operation(2, "r", [["r", 1]], root, "votes", ["add", 40])],
            ["deliver", doc, operation(2, "s", [["s", 1]], root, "never", ["delete"])],
            ["held", doc],
            ["forget", doc, [2, "s"]],
            ["deliver", doc, operation(1, "p", [], root, "k", ["assign", 1])],
            ["deliver", doc, operation(1, "p", [], root, "k", ["assign", 1])],
            ["deliver", doc, operation(1, "p", [], root, "k", ["assign", "another"])],
            ["deliver", doc, operation(1, "r", [], root, "k", ["assign", "of r"])],
            ["conflicts", doc, [0, "k"]],
            ["assign", doc, [0, "k"], "settled"],
            ["values", doc, [0, "k"]],
            # Held until an operation of this server's own is made.
            ["deliver", doc, operation(40, "t", [["srv-1", 39]], root, "late", ["assign", "waited"])],
        ]
    for i in range(6):
        doc = "ab"[i % 2]
        lines += [
            ["assign", doc, [0, "map", f"key {i % 5}"], i],
            ["insert", doc, [0, "list", i % 3], f"item {i}"],
            ["insert", doc, ["last"], f"behind {i}"],
            ["add", doc, ["first", "count"], i],
        ]
        if i % 6 == 5:
            lines += [["items", doc, [0, "list"]], ["show", doc, [0]], ["delete", doc, [0, "list", 2]], ["keys", doc, [0, "map"]]]
    for doc in ("a", "b"):
        lines += [
            ["delete", doc, ["first"]],
            ["delete", doc, [0, "nothing"]],
            ["assign", doc, [0, "list", 99], 1],
            ["assign", doc, [0, "k"], 1.5],
            ["values", doc, [0, "late"]],
            ["held", doc],
            ["front", doc],
            ["account", doc],
            ["ops", doc, [], 64],
            ["ops", doc, [["srv-1", 30]], 64],
            ["items", doc, [0, "list"]],
            ["show", doc, [0]],
        ]
    lines.append(["quit"])
    return compact(lines)


def long_session() -> List[bytes]:
    """The lines of a session that makes what grows grow several times: a list of more than 128 elements, a map of many keys, many
    replicas, a chain that comes backwards, many variables, and pages of operations."""
    root = [["m", 0]]
    lines: List[object] = [["open", "d"]]
    lines += [["insert", "d", [0, "list", place], place] for place in range(135)]
    lines += [["insert", "d", [0, "list", place], "within"] for place in range(0, 130, 13)]
    lines += [["let", "d", f"name {place}", [0, "list", place]] for place in range(1, 140, 9)]
    lines += [["delete", "d", [0, "list", place]] for place in range(100, 0, -11)]
    lines += [["insert", "d", [f"name {place}"], "behind"] for place in range(1, 140, 27)]
    lines += [["assign", "d", [0, "map", f"key {place * 7 % 40}"], place] for place in range(40)]
    lines += [["deliver", "d", operation(1, f"r{number}", [], root, "shared", ["assign", number])] for number in range(20)]
    lines += [["conflicts", "d", [0, "shared"]], ["delete", "d", [0, "shared"]]]
    lines += [["deliver", "d", operation(it, "p", [["p", it - 1]] if it > 1 else [], root, "late", ["add", it])] for it in range(12, 0, -1)]
    lines += [["sum", "d", [0, "late"]], ["assign", "d", [0, "map"], {}], ["keys", "d", [0, "map"]]]
    lines += [["items", "d", [0, "list"]], ["ops", "d", [], 64], ["ops", "d", [["srv-1", 100]], 64], *readings(["run", "d"])]
    return compact(lines)


def readings(words: Words) -> List[bytes]:
    """Lines that read all of each document, by which a change that should not be is seen."""
    lines = [line for doc in documents_of(words) for line in (
        ["show", doc, [0]], ["ops", doc, [], 64], ["front", doc], ["held", doc], ["account", doc])]
    return compact(lines)


def explain(tried: Tried, words: Words, lines: Sequence[bytes], replies: List[Reply]) -> int:
    """Raises Differs unless each reply is the due one, or no-memory with nothing changed, or tells of a drain that dropped more.
    Returns how many operations were dropped as out of memory."""
    if len(replies) != len(lines):
        raise Differs(f"{len(replies)} replies to {len(lines)} lines")
    kept = [(line, reply) for line, reply in zip(lines, replies) if reply != NO_MEMORY]
    place, told, forgotten = fitted(tried, words, kept, {})
    if told:
        line, reply = kept[place]
        raise Differs(f"{line.decode()}: got {json.dumps(reply)}, due {told}")
    return sum(map(len, forgotten.values()))


def fitted(tried: Tried, words: Words, kept: Sequence[Tuple[bytes, Reply]], forgotten: Forgotten) -> Fit:
    """The first line whose reply isn't due where these held operations are forgotten before these lines, with what is due; or,
    where all replies are due, what was forgotten. Tries each choice of what a drain may have dropped."""
    text, begins = [], []
    for place, (line, _) in enumerate(kept):
        document = json.loads(line)[1] if place in forgotten else None
        text += [json.dumps(["forget", document, it]).encode() for it in forgotten.get(place, ())]
        begins.append(len(text))
        text.append(line)
    due = tried.due(words, text)
    for place, (line, reply) in enumerate(kept):
        wanted = due[begins[place]]
        dropped = len(forgotten.get(place, ()))
        if wanted[0] == "applied":
            wanted = [wanted[0], wanted[1], wanted[2] + dropped, wanted[3]]
        if reply == wanted:
            continue
        deepest = Fit(place, json.dumps(wanted), forgotten)
        if reply[0] != "applied" or wanted[0] != "applied" or place in forgotten:
            return deepest
        document = json.loads(line)[1]
        held = [it[0] for it in tried.due(words, text[: begins[place]] + [json.dumps(["held", document]).encode()])[-1][1]]
        for size in range(1, min(4, len(held)) + 1):
            for choice in itertools.combinations(held, size):
                found = fitted(tried, words, kept, {**forgotten, place: choice})
                if found.due is None:
                    return found
                deepest = max(deepest, found, key=lambda it: it.place)
        return deepest
    return Fit(len(kept), None, forgotten)


def no_more_than_refused(settings: Settings, refused: int, dropped: int) -> None:
    """Raises Differs where more lines were refused and operations dropped than allocations were refused, where that is known."""
    most = settings["REFUSE_TO"] - settings["REFUSE_FROM"] + 1 if "REFUSE_TO" in settings else refused + dropped
    if refused + dropped > most:
        raise Differs(f"{refused} lines refused and {dropped} operations dropped, with {most} allocations refused")


class Asked:
    """A run that has answered some lines and takes more, one by one."""

    def __init__(self, run: subprocess.Popen[bytes]) -> None:
        assert run.stdin and run.stdout
        self.input, self.output = run.stdin, run.stdout

    def ask(self, request: Sequence[object]) -> Optional[Reply]:
        """Its reply, or nothing where it has ended. One that was refused as out of memory is asked for again a few times."""
        for _ in range(TRIES):
            try:
                self.input.write(compact([request])[0] + b"\n")
                self.input.flush()
            except BrokenPipeError:
                return None
            line = self.output.readline()
            if not line:
                return None
            reply: Reply = json.loads(line)
            if reply != NO_MEMORY:
                return reply
        return None

    def log(self, document: str) -> Optional[Log]:
        """All operations of a document, page by page, or nothing where they can't be had."""
        found: Log = []
        front: Dict[str, int] = {}
        while True:
            page = self.ask(["ops", document, [list(it) for it in sorted(front.items())], 64])
            if not page or page[0] != "ops":
                return None
            if not page[1]:
                return found
            found += page[1]
            front.update((it[1][1], it[1][0]) for it in page[1])

    def reads(self, document: str) -> Reads:
        """What the document reads, at its root and below each of its keys."""
        requests = [[it, document, [0]] for it in ("show", "keys", "conflicts")]
        replies = [self.ask(it) for it in requests]
        keys = replies[1][1] if replies[1] and replies[1][0] == "keys" else []
        below = [[it, document, [0, key]] for key in keys for it in ("keys", "values", "conflicts", "items", "sum")]
        return [*replies, *map(self.ask, below)]


def run_and_ask(tried: Tried, words: Words, data: bytes, environment: Environment, count: int,
                then: Callable[[Asked], Told]) -> Tuple[int, bytes, Optional[Told]]:
    """Runs the program over these bytes, to which so many replies are due, and lets `then` ask more; the status, what it wrote to the
    bytes, and what `then` returned, or nothing where the run had ended before."""
    with subprocess.Popen([tried.program, *words], stdin=subprocess.PIPE, stdout=subprocess.PIPE, stderr=subprocess.DEVNULL, env=environment) as run:
        watch = threading.Timer(SECONDS, run.kill)
        watch.start()
        assert run.stdin and run.stdout
        given, told = run.stdin, run.stdout

        def write() -> None:
            with contextlib.suppress(BrokenPipeError):
                given.write(data)
                given.flush()
        writer = threading.Thread(target=write)
        writer.start()
        try:
            lines = list(itertools.takewhile(bool, (told.readline() for _ in range(count))))
            writer.join()
            asked = then(Asked(run)) if len(lines) == count else None
            with contextlib.suppress(BrokenPipeError):
                given.close()
            rest = told.read()
        finally:
            watch.cancel()
        return run.wait(), b"".join(lines) + rest, asked


def restores(tried: Tried, document: str, log: Log, reads: Reads, counts: Counts) -> None:
    """Delivers the operations that a run accepted to one of another name: it must accept each, and read the same."""
    lines = compact([["open", document], *(["deliver", document, it] for it in log)])

    def then(run: Asked) -> Reads:
        return run.reads(document)
    status, out, again = run_and_ask(tried, ["run", "--name", "restored", document], b"".join(it + b"\n" for it in lines), None, len(lines), then)
    replies = replies_of(out)[1:]
    if status or any(it[:3] != ["applied", 1, 0] for it in replies):
        raise Differs(f"restored: status {status}, replies {[it for it in replies if it[:3] != ['applied', 1, 0]][:3]}")
    same(again, reads)
    counts["documents restored from what was accepted"] += 1
    counts["operations of these"] += len(log)


def run_refused(tried: Tried, words: Words, lines: Sequence[bytes], settings: Settings, counts: Counts) -> None:
    """One run with these refusals. A document that is restored from the operations that it accepted reads the same."""
    environment = tried.environment("refuse-allocations", settings)
    quits = lines[-1:] == [b'["quit"]']
    lines = lines[: len(lines) - quits]

    def then(run: Asked) -> List[Left]:
        found = [Left(document, run.log(document), run.reads(document)) for document in documents_of(words)]
        if quits and run.ask(["quit"]) not in (["bye"], None):
            raise Differs("no bye")
        return found
    status, out, found = run_and_ask(tried, words, b"".join(line + b"\n" for line in lines), environment, len(lines), then)
    if status == 1:
        if out:
            raise Differs(f"status 1 with {len(out)} bytes written")
        counts["status 1, nothing written"] += 1
        return
    if status != 0:
        raise Differs(f"status {status}")
    replies = replies_of(out)
    dropped = explain(tried, words, lines, replies)
    no_more_than_refused(settings, replies.count(NO_MEMORY), dropped)
    counts["lines refused as out of memory"] += replies.count(NO_MEMORY)
    counts["operations dropped as out of memory"] += dropped
    for document, log, reads in found or []:
        if log is not None and None not in reads:
            restores(tried, document, log, reads, counts)


def count_of(tried: Tried, start: Callable[[Words, bytes, Environment], object], words: Words, lines: Sequence[bytes]) -> int:
    """How many allocations a run makes where none is refused."""
    path = f"{tried.room}/count"
    start(words, b"".join(line + b"\n" for line in lines), tried.environment("refuse-allocations", {"REFUSE_COUNT": path}))
    with open(path) as file:
        return int(file.read())


def refusals(count: int, thorough: bool) -> Iterator[Tuple[str, Settings]]:
    """Which allocations are refused in a run."""
    yield from ((f"refused {n}", {"REFUSE_FROM": n, "REFUSE_TO": n}) for n in range(1, count + 1))
    if thorough:
        for several in (2, 5, 40):
            yield from ((f"refused {n} to {n + several - 1}", {"REFUSE_FROM": n, "REFUSE_TO": n + several - 1}) for n in range(1, count + 1, 11))
        yield from ((f"refused from {n} on", {"REFUSE_FROM": n, "REFUSE_TO": 10**9}) for n in range(1, count + 1, 11))
    for one_in in (10, 60, 400):
        yield from ((f"refused 1 in {one_in} by {seed}", {"REFUSE_SEED": seed, "REFUSE_ONE_IN": one_in}) for seed in range(100 if thorough else 5))
