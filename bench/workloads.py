"""The lines of the workloads that several measurements share, always the same. The document `d` is open before them."""

import random
from typing import Callable, Dict, Iterator, List

from support import Reply, Request, operation

Lines = Iterator[Request]
DOCUMENT: List[object] = ["m", 0]
REPLICAS = "pqrs"


# Changes of one's own.


def one_key(size: int) -> Lines:
    return (["assign", "d", [0, "k"], at] for at in range(size))


def thousand_keys(size: int) -> Lines:
    return (["assign", "d", [0, f"k{at % 1000}"], at] for at in range(size))


def new_keys(size: int) -> Lines:
    """In random order."""
    return (["assign", "d", [0, f"k{at}"], at] for at in random.Random(7).sample(range(size), size))


def texts_of_keys(size: int) -> Lines:
    return (["assign", "d", [0, f"k{at}"], f"value {at}"] for at in range(size))


def typing(size: int, index: Callable[[int], int]) -> Lines:
    yield ["assign", "d", [0, "t"], []]
    for at in range(size):
        yield ["insert", "d", [0, "t", index(at)], chr(ord("a") + at % 26)]


def typing_at_the_end(size: int) -> Lines:
    return typing(size, lambda at: at)


def typing_anywhere(size: int) -> Lines:
    picks = random.Random(1)
    return typing(size, lambda at: picks.randint(0, at))


def typing_in_runs(size: int) -> Lines:
    """One change in eight deletes the character before the last one; one in fifty is at another place."""
    picks = random.Random(2)
    yield ["assign", "d", [0, "t"], []]
    length, index = 0, 0
    for at in range(size):
        if picks.random() < 0.02:
            index = picks.randint(0, length)
        if picks.random() < 0.125 and index > 0:
            yield ["delete", "d", [0, "t", index]]
            length, index = length - 1, index - 1
        else:
            yield ["insert", "d", [0, "t", index], chr(ord("a") + at % 26)]
            length, index = length + 1, index + 1


def after_variable(size: int) -> Lines:
    yield ["assign", "d", [0, "t"], []]
    yield ["insert", "d", [0, "t", 0], "a"]
    yield ["let", "d", "e", [0, "t", 1]]
    for at in range(size):
        yield ["insert", "d", ["e"], chr(ord("a") + at % 26)]


def some_depth(size: int) -> Lines:
    """At depth 5 to 10, eight keys a map."""
    picks = random.Random(3)
    for at in range(size):
        yield ["assign", "d", [0] + [f"part-{picks.randrange(8)}" for _ in range(picks.randint(5, 10))], at]


def full_depth(size: int) -> Lines:
    """30 deep, where nine maps have four keys each."""
    for at in range(size):
        yield ["assign", "d", [0] + [f"k{(at >> level) % 4 if level < 9 else 0}" for level in range(30)], at]


def deleted_maps(size: int) -> Lines:
    """Maps of 499 keys, each of which is then deleted."""
    for which in range(size // 500):
        yield from (["assign", "d", [0, f"m{which}", f"k{at}"], at] for at in range(499))
        yield ["delete", "d", [0, f"m{which}"]]


def one_deleted_map(size: int) -> Lines:
    yield from (["assign", "d", [0, "m", f"k{at}"], at] for at in range(size))
    yield ["delete", "d", [0, "m"]]


# Operations of others.


def beside_silent(size: int) -> Lines:
    """One's own assignments beside 255 other replicas, so that each front has 256 pairs."""
    for replica in range(255):
        yield ["deliver", "d", operation(1, f"peer-{replica}", [], [DOCUMENT], f"k{replica}", ["assign", replica])]
    yield from thousand_keys(size)


def chain(picks: random.Random, name: str, front: Dict[str, int], elements: List[List[object]]) -> List[Reply]:
    """One to five operations of a replica that knows what this front covers: assignments and deletions of 500 keys, and insertions behind
    one of these elements of a list."""
    made = []
    for _ in range(picks.randint(1, 5)):
        counter = 1 + max(front.values())
        pairs: List[object] = [[it, front[it]] for it in sorted(front)]
        kind = picks.random()
        if kind < 0.8:
            change: List[object] = ["assign", picks.randrange(1000)] if kind < 0.7 else ["delete"]
            made.append(operation(counter, name, pairs, [DOCUMENT], f"k{picks.randrange(500)}", change))
        else:
            behind: object = picks.choice(elements) if elements else 1
            made.append(operation(counter, name, pairs, [DOCUMENT, ["l", "l"]], behind, ["insert", "x"]))
            elements = [*elements, [counter, name]]
        front[name] = counter
    return made


def history(size: int) -> List[Reply]:
    """So many operations of four replicas that work at the same time, in rounds, in a causal order in which their chains come mixed."""
    picks = random.Random(4)
    found = [operation(1, REPLICAS[0], [], [DOCUMENT], "l", ["assign", []])]
    last: Dict[str, int] = {REPLICAS[0]: 1}
    elements: List[List[object]] = []
    while len(found) < size:
        chains = {name: chain(picks, name, dict(last), elements[-200:]) for name in REPLICAS}
        for name, made in chains.items():
            last[name] = made[-1][1][0]
            elements += [it[1] for it in made if it[4][0] == "insert"]
        while any(chains.values()):
            name = picks.choice([it for it, made in chains.items() if made])
            found.append(chains[name].pop(0))
    return found[:size]


def deliveries(size: int) -> Lines:
    return (["deliver", "d", it] for it in history(size))


def deliveries_backwards(size: int) -> Lines:
    """The same in chunks of 200, each from its end: up to 199 are pending."""
    operations = history(size)
    for at in range(0, size, 200):
        for it in reversed(operations[at : at + 200]):
            yield ["deliver", "d", it]


def chains_that_never_met(size: int) -> Lines:
    """Those of one replica after those of the other."""
    for name in reversed(REPLICAS):
        for counter in range(1, size // len(REPLICAS) + 1):
            front: List[object] = [[name, counter - 1]] if counter > 1 else []
            yield ["deliver", "d", operation(counter, name, front, [DOCUMENT], f"k{counter % 500}", ["assign", counter])]


# Readings.


def any_keys(count: int, keys: int) -> Lines:
    picks = random.Random(5)
    return (["values", "d", [0, f"k{picks.randrange(keys)}"]] for _ in range(count))


def any_indices(count: int, length: int) -> Lines:
    picks = random.Random(6)
    return (["values", "d", [0, "t", picks.randint(1, length)]] for _ in range(count))


def pages_of_operations(size: int) -> Lines:
    """All operations of a log of one's own, 64 at a time, each page behind a front that covers those before it."""
    return (["ops", "d", [["srv-1", at]] if at else [], 64] for at in range(0, size, 64))
