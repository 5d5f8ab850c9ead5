"""What a replica of a generation takes over into the next ones: operations that the hub lacked when its generation ended, made again.

Each replica's go under a name that is made of its own, of the generation and of the opening of the store in which they were made. So
copies of one store make the same of what they have in common, and the hub has it once, also where a program is killed and begins again.
"""

from typing import Any, Callable, Dict, Iterable, List, Mapping, NamedTuple, Optional, Sequence, Tuple

from . import wire
from .remaking import name_of
from .wire import Front, Id, Operation, covers

Key = Tuple[int, str]
# A place as texts, to compare.
Texts = Tuple[str, ...]


class Step(NamedTuple):
    """From one generation to the next: what the hub had at the end of the first, what the next one began with, and what others stored in
    the first that isn't in the log that is carried. `elements` are as they were and as they are, by lists in their order; the third item
    is true for the first of a list."""

    end: Front
    start: Front
    elements: List[Tuple[Id, Id, bool]]
    others: List[Operation]


class Carried(NamedTuple):
    """Operations of the last generation, in an order of a log; and those that aren't made again: their places aren't there, or they
    would clear what others stored there meanwhile."""

    operations: List[Operation]
    lost: List[Operation]


class Made(NamedTuple):
    """An operation that was made again, and what it was at first."""

    operation: Operation
    origin: Operation


def carried(log: Iterable[Operation], steps: Sequence[Step], is_there: Callable[[Id], bool], made: Mapping[Key, Id],
            maker_of: Callable[[Id], List[str]]) -> Carried:
    """Carries a log over. `is_there` is whether the hub had an operation at the end of the first generation, and `made` has the ids there
    of those that others had made again. `maker_of` says who made one: its replica, and the opening of its store where that is known."""
    behind: Dict[Key, Any] = {}
    unsent: List[Made] = []
    stored: List[Operation] = []
    for operation in log:
        if operation[4][0] == "insert":
            behind[key_of(operation[1])] = operation[3][1]
        if is_there(operation[1]):
            stored.append(operation)
        else:
            unsent.append(Made(operation, operation))
    lost: List[Operation] = []
    for number, step in enumerate(steps):
        again = Carrier(step, behind, [*stored, *step.others] if unsent else [], (lambda it: [it[1]]) if number else maker_of)
        again.take_ids({} if number else made)
        for operation, origin in unsent:
            is_done = covers(step.end, operation[1]) if number else False
            if not is_done and not again.takes(operation, origin):
                lost.append(origin)
        behind, unsent, stored = again.behind, again.made, []
    return Carried([it.operation for it in unsent], lost)


class Carrier:
    """Makes operations of a generation again in the next one."""

    def __init__(self, step: Step, behind: Dict[Key, Any], stored: Iterable[Operation], maker_of: Callable[[Id], List[str]]) -> None:
        """`behind` has what elements of the generation were inserted behind, and `stored` what of it was stored."""
        self.made: List[Made] = []
        self.behind: Dict[Key, Any] = {}
        self._start, self._behind_before, self._maker_of = step.start, behind, maker_of
        # Of elements: as they were, and as they are now. Of a replica: what was made of its operations.
        self._ids: Dict[Key, Id] = {}
        self._made_of: Dict[str, List[Tuple[int, Id]]] = {}
        # By place: what was stored at it and under it.
        self._stored_at: Dict[Texts, List[Id]] = {}
        for operation in stored:
            self._note_stored(operation)
        last: Any = 1
        for old, now, is_first in step.elements:
            self._ids[key_of(old)] = now
            self.behind[key_of(now)] = 1 if is_first else last
            last = now

    def take_ids(self, made: Mapping[Key, Id]) -> None:
        """Takes elements that the generation has under other ids."""
        for old, there in made.items():
            if key_of(there) in self._ids:
                self._ids[old] = self._ids[key_of(there)]

    def _note_stored(self, operation: Operation) -> None:
        if operation[4][0] != "delete":
            texts = texts_of(operation)
            for depth in range(1, len(texts) + 1):
                self._stored_at.setdefault(texts[:depth], []).append(operation[1])

    def takes(self, operation: Operation, origin: Operation) -> bool:
        """Makes an operation again. Returns false if its place isn't there, or it would clear what others stored there. What isn't there
        needn't be deleted. They come in the order of a log."""
        _, (counter, replica), front, (path, key), mutation = operation
        is_insert = mutation[0] == "insert"
        place = self._mapped(path, self._reference(key) if is_insert else self._now(key))
        if place is None:
            return bool(mutation[0] == "delete")
        if self._clears_others(operation):
            return False
        first = next(iter(wire.pairs_of(self._start)), [None])[0]
        known = wire.pairs_of(self._known(front, replica))
        name = name_of("again", wire.encoded([first, *self._maker_of(operation[1])]).decode())
        again: Operation = ["op", [1 + max((it for _, it in known), default=0), name], known, place, mutation]
        self.made.append(Made(again, origin))
        self._made_of.setdefault(replica, []).append((counter, again[1]))
        if is_insert:
            self._ids[counter, replica] = again[1]
            self.behind[key_of(again[1])] = place[1]
        return True

    def _clears_others(self, operation: Operation) -> bool:
        """Whether an operation would clear what others stored at its place or under it, which its maker didn't know of: in one generation
        that would stay beside it."""
        _, (_, replica), front, _, (word, *_) = operation
        known: Front = dict(front)
        stored = self._stored_at.get(texts_of(operation), []) if word in ("assign", "delete") else []
        return any(it[1] != replica and not covers(known, it) for it in stored)

    def _known(self, front: Sequence[Sequence[Any]], replica: str) -> Front:
        """What an operation knew, in the next generation: its beginning, and what was made again of what it knew."""
        known = dict(self._start)
        for other, counter in [*front, [replica, wire.OPERATION_LIMIT]]:
            for made, (now, name) in self._made_of.get(other, []):
                if made <= counter:
                    known[name] = max(now, known.get(name, 0))
        return known

    def _mapped(self, path: List[Any], key: Any) -> Optional[List[Any]]:
        """The cursor in the next generation, if all of it is there."""
        keys = [self._now(it) for _, it in path]
        if key is None or None in keys:
            return None
        return [[[kind, it] for (kind, _), it in zip(path, keys)], key]

    def _now(self, key: Any) -> Any:
        return self._ids.get(key_of(key)) if isinstance(key, list) else key

    def _reference(self, key: Any) -> Any:
        """What an insertion goes behind: where that was deleted, what it was inserted behind itself."""
        while isinstance(key, list):
            now = self._ids.get(key_of(key))
            if now is not None:
                return now
            key = self._behind_before.get(key_of(key), 1)
        return 1


def key_of(operation_id: Id) -> Key:
    return operation_id[0], operation_id[1]


def texts_of(operation: Operation) -> Texts:
    """Where an operation ends, as texts: an insertion at the element that it makes."""
    _, operation_id, _, (path, last), (word, *_) = operation
    keys = [*(it for _, it in path), operation_id if word == "insert" else last]
    return tuple(f"m{it}" if isinstance(it, str) else f"l{it[0]} {it[1]}" if isinstance(it, list) else "h" for it in keys[1:])
