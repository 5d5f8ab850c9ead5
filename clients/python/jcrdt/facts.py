"""What operations show together, by docs/RULES.md: also more of them than one document takes.

The order-free form: an id is at a place if its operation put it there, passed or ended there, and no assignment
or delete that ends at the place or above it depends on it. The order of a list is the walk of its insertions.
"""

from typing import Any, Dict, Iterable, Iterator, List, Optional, Set, Tuple

from .wire import Front, Id, Operation

HEAD: Tuple[int, str] = (0, "")
Key = Tuple[int, str]


def _key(operation_id: Id) -> Key:
    counter, replica = operation_id
    return counter, replica


class Branches(List[Any]):
    """What is at one place, as `show` gives it. An element of a list has its id."""

    element: Optional[Id] = None


class Place:
    """A place of a document: what is there, and what is below it."""

    def __init__(self) -> None:
        # By replica, the last counter that an assignment or delete which ended here depends on.
        self.cleared: Front = {}
        self.map: Dict[str, Place] = {}
        self.list: Dict[Key, Place] = {}
        # The elements that were inserted behind each element of the list, or its head.
        self.behind: Dict[Key, List[Key]] = {}
        self.is_present = False
        self.scalars: List[Tuple[Key, Any]] = []
        self.puts_map = self.puts_list = False
        self.counter: Optional[int] = None

    def below(self, kind: str, key: Any) -> "Place":
        """The place of a key of the map (m) or list (l)."""
        if kind == "m":
            return self.map.setdefault(key, Place())
        return self.list.setdefault(_key(key), Place())

    def clear(self, front: Iterable[List[Any]]) -> None:
        for replica, counter in front:
            if counter > self.cleared.get(replica, 0):
                self.cleared[replica] = counter

    def put(self, operation_id: Key, word: str, value: Any) -> None:
        """Notes what an operation that ends here puts, unless it is cleared."""
        self.is_present = True
        if word == "add":
            self.counter = (self.counter or 0) + value
        elif value == {} and isinstance(value, dict):
            self.puts_map = True
        elif value == [] and isinstance(value, list):
            self.puts_list = True
        else:
            self.scalars.append((operation_id, value))

    def elements(self) -> Iterator[Tuple[Key, "Place"]]:
        """All elements that were ever inserted, in the order of the list: a walk of the tree of insertions, behind
        each the greatest id first."""
        # The last of the waiting ones comes next.
        waiting = sorted(self.behind.get(HEAD, ()))
        while waiting:
            key = waiting.pop()
            yield key, self.list[key]
            waiting += sorted(self.behind.get(key, ()))

    def shown(self) -> Branches:
        """What `show` gives for this place, with the ids of elements."""
        branches = Branches()
        keys = [(key, place) for key, place in self.map.items() if place.is_present]
        if keys or self.puts_map:
            keys.sort(key=lambda it: it[0].encode())
            branches.append(["map", [[key, place.shown()] for key, place in keys]])
        elements = [(key, place) for key, place in self.elements() if place.is_present]
        if elements or self.puts_list:
            branches.append(["list", [_element(key, place) for key, place in elements]])
        branches += [["val", list(operation_id), scalar] for operation_id, scalar in sorted(self.scalars, key=lambda it: it[0])]
        if self.counter is not None:
            branches.append(["cnt", str(self.counter)])
        return branches


def _element(key: Key, place: Place) -> Branches:
    branches = place.shown()
    branches.element = list(key)
    return branches


def _way(root: Place, operation: Operation) -> List[Place]:
    """The places that an operation passes, and the one where it ends."""
    path, last = operation[3]
    if operation[4][0] == "insert":
        last = operation[1]
    way = [root]
    # A key of the path is the place, and its tag is how the way goes on from there.
    for (kind, _), key in zip(path, [key for _, key in path[1:]] + [last]):
        way.append(way[-1].below(kind, key))
    return way


def document_of(operations: List[Operation]) -> Place:
    """The document that has these operations, whose dependencies are among them, each once."""
    root = Place()
    ways = []
    for operation in operations:
        way = _way(root, operation)
        ways.append(way)
        word = operation[4][0]
        if word == "insert":
            last = operation[3][1]
            way[-2].behind.setdefault(HEAD if last == 1 else _key(last), []).append(_key(operation[1]))
        elif word != "add":
            way[-1].clear(operation[2])
    for operation, way in zip(operations, ways):
        (counter, replica), (word, *value) = operation[1], operation[4]
        if word == "delete":
            continue
        for place in way:
            if counter <= place.cleared.get(replica, 0):
                break
            place.is_present = True
        else:
            way[-1].put((counter, replica), word, value[0])
    return root


def elements_of(root: Place) -> Set[Key]:
    """All elements of lists that a document shows."""
    found: Set[Key] = set()
    waiting = [root]
    while waiting:
        place = waiting.pop()
        present = [(key, it) for key, it in place.list.items() if it.is_present]
        found.update(key for key, _ in present)
        waiting += [it for it in place.map.values() if it.is_present] + [it for _, it in present]
    return found


def shown(operations: List[Operation]) -> Branches:
    """What a document shows that has these operations."""
    return document_of(operations).shown()
