"""Writing nested values, and binding names to elements, while others change the same lists."""

import time
from typing import Any, Dict, Iterable, List, Optional, Sequence, Set

from . import room, wire
from .generations import check_of_now
from .protocol import CHANGES, NUMBERS
from .replies import Reply, good, id_in
from .steps import Request, Steps
from .wire import Cursor, Id, Refused, Renewed, apart, bare, parts_of

# How long `bind` tries while others change the list, in seconds.
BIND_SECONDS = 10.0
# How many requests of a `put` are under way at once.
BATCH = 64
# The names that `put` and `append` bind. A session has 64 names for each document.
OWN_NAME = "jcrdt {}".format


def put(document: str, cursor: Cursor, value: Any) -> Steps[None]:
    """Assigns a nested value. Raises ValueError for one that can't be put, before anything is sent."""
    wire.checked_value(value, len(cursor) - 1)
    return Writer(document).put(cursor, value)


def extend(document: str, cursor: Cursor, values: Sequence[Any]) -> Steps[List[Id]]:
    """Inserts values behind the last element of a list, and returns their ids. Raises ValueError as `put`."""
    for value in values:
        wire.checked_value(value, len(cursor))
    return Writer(document).extend(cursor, values)


def bind_all(document: str, cursor: Cursor, elements: Dict[str, Id]) -> Steps[Set[str]]:
    """Binds names to elements of one list, all at once if nobody changes the document meanwhile, else as `bind` does. Returns the
    names whose elements aren't there. Raises Renewed where one is of a generation of before."""
    front, items = good((yield [["front", document], ["items", document, cursor]]))
    places = {tuple(it): number for number, (it, _) in enumerate(items[0], 1)}
    there = {name: places[tuple(it)] for name, it in elements.items() if tuple(it) in places}
    *bound, now = yield [*(["let", document, name, [*cursor, at]] for name, at in there.items()), ["front", document]]
    if good([now]) == [front]:
        good(bound)
        yield from check_of_now(document, front[0], [it for name, it in elements.items() if name not in there])
        return set(elements) - set(there)
    gone = set()
    for name, element in elements.items():
        if not (yield from bind(document, name, cursor, element)):
            gone.add(name)
    return gone


def bind(document: str, name: str, cursor: Cursor, element: Id) -> Steps[bool]:
    """Binds a name to the element of this id in the list at the cursor. Returns False if it isn't there. Raises
    TimeoutError if the list changes so fast that it isn't met for 10 s, and Renewed where it is one of a generation of before."""
    until = time.monotonic() + BIND_SECONDS
    while time.monotonic() < until:
        front, items = good((yield [["front", document], ["items", document, cursor]]))
        places = {tuple(it): number for number, (it, _) in enumerate(items[0], 1)}
        due = places.get(tuple(element))
        if due is None:
            yield from check_of_now(document, front[0], [element])
            return False
        number: Optional[int] = due
        while number is not None and time.monotonic() < until:
            found = yield from _bound_to(document, name, [*cursor, number], front)
            if found == element or found is None and number == due:
                return True
            # Another one is at that index now: so far has the list moved.
            at = places.get(tuple(found or ()))
            number = None if at is None or number + due - at < 1 else number + due - at
    raise TimeoutError(f"{document}: the list changes too fast to bind {element[0]} of {element[1]}")


def _bound_to(document: str, name: str, cursor: Cursor, front: List[Any]) -> Steps[Optional[Id]]:
    """Binds a name to an index, and returns the id of the element there, `[]` if that isn't known. None says that nothing
    was done since the front."""
    bound, conflicts, behind = yield [["let", document, name, cursor], ["conflicts", document, [name]], ["front", document]]
    if isinstance(bound, Refused) and bound.number == NUMBERS["index-past-end"]:
        # Others have deleted elements.
        return []
    _, values, now = good([bound, conflicts, behind])
    if now == front:
        return None
    if not values[0]:
        return []
    # Who put the value there says in which element it is.
    counter, replica = values[0][-1][0]
    known = {**wire.checked_front(now[0]), replica: counter - 1}
    [[[operation]]] = good((yield [["ops", document, wire.pairs_of(known), 1]]))
    is_insertion = operation[4][0] == "insert"
    return list(operation[1] if is_insertion else operation[3][1])


class Writer:
    """Writes nested values. Its cursors have no indices but at their ends, so they stay at their place when others
    change the lists: it binds names to elements."""

    def __init__(self, document: str) -> None:
        self.document = document
        self.waiting: List[Request] = []
        # How many operations came of it.
        self.made = 0

    def put(self, cursor: Cursor, value: Any) -> Steps[None]:
        yield from self.reserve(map(OWN_NAME, range(depth([value]))))
        yield from self.check_room(room.count_of(value))
        steady = yield from self.steady(cursor)
        yield from self.write(steady, value)
        yield from self.send()

    def extend(self, cursor: Cursor, values: Sequence[Any]) -> Steps[List[Id]]:
        deepest = depth([list(values)])
        yield from self.reserve(map(OWN_NAME, range(1 + deepest)))
        yield from self.check_room(sum(map(room.count_of_element, values)))
        steady = yield from self.steady(cursor)
        end = OWN_NAME(deepest)
        while True:
            [[items]] = good((yield [["items", self.document, steady]]))
            if not items:
                return (yield from self.insert_all(steady, [*steady, 0], 1, values, 0))
            try:
                is_there = yield from bind(self.document, end, steady, items[-1][0])
            except Renewed:
                # Nothing is changed yet, and the place is another one's now.
                continue
            if is_there:
                return (yield from self.insert_all(steady, [end], len(items) + 1, values, 0))

    def reserve(self, names: Iterable[str]) -> Steps[None]:
        """Binds the names that will be needed, so that a session with too many names is refused before anything is
        changed."""
        good((yield [["let", self.document, it, [0]] for it in names]))

    def check_room(self, needed: int, makers: int = 0) -> Steps[None]:
        """Raises Refused (18, and 19 for that many new replicas) before anything is changed where not all has room. One that is
        refused alone changes nothing."""
        if needed > 1:
            yield from room.check(self.document, needed, makers)

    def steady(self, cursor: Cursor) -> Steps[List[Any]]:
        """The cursor with a name in place of its beginning up to the last index."""
        last = max((at for at, step in enumerate(cursor) if at and not isinstance(step, str)), default=0)
        if not last:
            return list(cursor)
        name = OWN_NAME("place")
        good((yield [["let", self.document, name, cursor[:last + 1]]]))
        return [name, *cursor[last + 1:]]

    def later(self, *request: Any) -> Steps[None]:
        """Sends a request with others. None of them depends on another's reply."""
        self.waiting.append(request)
        if len(self.waiting) >= BATCH:
            yield from self.send()

    def send(self) -> Steps[List[List[Any]]]:
        """Sends what waits, and returns the replies. Raises the first error."""
        if not self.waiting:
            return []
        waiting, self.waiting = self.waiting, []
        replies = good((yield waiting))
        self.made += sum(request[0] in CHANGES for request in waiting)
        return replies

    def write(self, cursor: List[Any], value: Any, level: int = 0) -> Steps[None]:
        values, counter = apart(value)
        if len(values) > 1:
            yield from self.write_conflict(cursor, values, counter, level)
            return
        if values:
            yield from self.later("assign", self.document, cursor, bare(values[0]))
        else:
            yield from self.later("delete", self.document, cursor)
        yield from self.fill(cursor, values, counter, level)

    def write_conflict(self, cursor: List[Any], values: List[Any], counter: Optional[int], level: int) -> Steps[None]:
        """Writes several values to one place, which a session can't."""
        raise NotImplementedError

    def note_name(self, name: str, cursor: List[Any], element: Id) -> None:
        """A name is bound to this element of the list at the cursor."""

    def fill(self, cursor: List[Any], values: List[Any], counter: Optional[int], level: int) -> Steps[None]:
        """Puts what is in the values into the empty map and list at the cursor, and the counter beside them."""
        for value in values:
            if isinstance(value, dict):
                for key, inner in value.items():
                    yield from self.write([*cursor, key], inner, level)
            elif isinstance(value, list):
                yield from self.insert_all(cursor, [*cursor, 0], 1, value, level)
        for part in parts_of(counter):
            yield from self.later("add", self.document, cursor, part)

    def insert_all(self, cursor: List[Any], behind: List[Any], index: int, values: Sequence[Any], level: int) -> Steps[List[Id]]:
        """Inserts values behind an element or the head, from the last to the first. Each has the index then, if
        nobody else changes the list. Returns the ids in the order of the values."""
        ids: List[Id] = []
        for value in reversed(values):
            if not _is_filled(value):
                self.waiting.append(("insert", self.document, behind, value))
                if len(self.waiting) >= BATCH:
                    ids += yield from self.inserted()
            else:
                ids += yield from self.inserted()
                element = yield from self.insert_filled(cursor, behind, index, value, level)
                ids.append(element)
        ids += yield from self.inserted()
        return ids[::-1]

    def inserted(self) -> Steps[List[Id]]:
        """Sends what waits. Returns the ids of insertions."""
        words = [request[0] for request in self.waiting]
        replies = yield from self.send()
        return [id_in(reply) for word, reply in zip(words, replies) if word == "insert"]

    def insert_filled(self, cursor: List[Any], behind: List[Any], index: int, value: Any, level: int) -> Steps[Id]:
        """Inserts an element, makes sure that a name means it, and fills it."""
        values, counter = apart(value)
        name = OWN_NAME(level)
        first = bare(values[0]) if len(values) == 1 else None
        made, bound, conflicts = yield [
            ["insert", self.document, behind, first], ["let", self.document, name, [*cursor, index]],
            ["conflicts", self.document, [name]]]
        element = id_in(good([made])[0])
        self.made += 1
        right = not isinstance(bound, Exception) and _has(conflicts, element)
        # Another session has changed the list in between, or deleted the element: then it stays deleted.
        if right or (yield from bind(self.document, name, cursor, element)):
            self.note_name(name, cursor, element)
            if len(values) > 1:
                yield from self.write_conflict([name], values, counter, level + 1)
                return element
            if not values:
                # A counter and no value: what was inserted is deleted, and `add` makes it present again.
                yield from self.later("delete", self.document, [name])
            yield from self.fill([name], values, counter, level + 1)
            # The name is bound anew for the next element.
            yield from self.send()
        return element


def _has(conflicts: Reply, operation_id: Id) -> bool:
    return not isinstance(conflicts, Exception) and any(it == operation_id for it, _ in conflicts[0])


def _is_filled(value: Any) -> bool:
    """Whether more than one request is needed for it."""
    return isinstance(value, (wire.Counter, wire.Conflict)) or isinstance(value, (dict, list)) and bool(value)


def depth(values: List[Any]) -> int:
    """How many names are needed at once: one for each list within lists whose elements are filled."""
    deepest = 0
    for value in values:
        if isinstance(value, wire.Counter):
            continue
        if isinstance(value, wire.Conflict):
            deepest = max(deepest, depth(apart(value)[0]))
        elif isinstance(value, dict):
            deepest = max(deepest, depth(list(value.values())))
        elif isinstance(value, list) and any(map(_is_filled, value)):
            deepest = max(deepest, 1 + depth(value))
    return deepest
