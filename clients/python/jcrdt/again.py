"""What was done to an old document after it was put into a new one, made again there.

One replica makes all of it, one operation for each, so it may be delivered again: the same lines give the same operations.
"""

import hashlib
from typing import Any, Dict, List, Optional, Sequence, Tuple

from .facts import Place, document_of, elements_of
from .renewal import Maker
from .session import Session
from .wire import Front, Id, Operation, covers, encoded, pairs_of

Key = Tuple[int, str]


class Places:
    """Places of an old document in a new one. `ids` has the elements of the new one by those of the old one. One that was deleted in
    the new one goes from it: it doesn't come back by an edit."""

    def __init__(self, ids: Dict[Key, Id], old: Sequence[Operation], new: Sequence[Operation]) -> None:
        """`old` and `new` have all operations of both documents, in an order of a log."""
        self.ids = ids
        there = elements_of(document_of(list(new)))
        for key in [it for it, (counter, replica) in ids.items() if (counter, replica) not in there]:
            del ids[key]
        self._old = document_of(list(old))
        self._orders: Dict[bytes, List[Key]] = {}

    def of(self, operation: Operation) -> Optional[List[Any]]:
        """Where an operation of the old document ends in the new one, None if its element isn't there."""
        _, _, _, (path, last), (word, *_) = operation
        if word == "insert":
            last = self._behind(path, last)
        return self._mapped(path, last, word == "insert")

    def _mapped(self, path: List[Any], last: Any, is_new: bool) -> Optional[List[Any]]:
        """The cursor in the new document, if it is there. With `is_new` its last key is of that already."""
        keys = [self.ids.get((key[0], key[1])) if isinstance(key, list) else key for key in [*(it for _, it in path), *([] if is_new else [last])]]
        if None in keys:
            return None
        return [[[kind, key] for (kind, _), key in zip(path, keys)], last if is_new else keys[-1]]

    def _behind(self, path: List[Any], last: Any) -> Any:
        """The element of the new document behind which an insertion goes, or the head: behind one that isn't there it goes behind
        the one before."""
        if not isinstance(last, list):
            return last
        order = self._order(path)
        for key in reversed(order[:order.index((last[0], last[1])) + 1]):
            if key in self.ids:
                return self.ids[key]
        return 1

    def _order(self, path: List[Any]) -> List[Key]:
        """All elements that a list of the old document ever had."""
        name = encoded(path)
        if name not in self._orders:
            place: Place = self._old
            for (kind, _), (_, key) in zip(path, path[1:]):
                place = place.below(kind, key)
            self._orders[name] = [key for key, _ in place.elements()]
        return self._orders[name]


class Again:
    """Makes operations of an old document again. `ids` has the elements of the new one by those of the old one, and gets those
    that are inserted: these are also in `elements`. `lost` has what can't be made, since its element isn't in the new document."""

    def __init__(self, name: str, known: Front, ids: Dict[Key, Id], old: Sequence[Operation], new: Sequence[Operation]) -> None:
        """`known` is a front of the new document, `old` has all operations of the old one, in an order of a log, and `new` those of the
        new one: what isn't known doesn't count, so that the same is made of the same lines."""
        self.ids, self.known, self._maker = ids, known, Maker(name)
        self._places = Places(ids, old, [it for it in new if covers(known, it[1])])
        self.operations: List[Operation] = []
        self.lost: List[Operation] = []
        self.elements: List[Tuple[Id, Id]] = []

    def take(self, operation: Operation) -> None:
        """Makes one operation again. They come in the order of a log."""
        _, operation_id, _, _, (word, *value) = operation
        place = self._places.of(operation)
        if place is not None:
            made = self._maker.make(self.known, place, [word, *value])
            self.operations.append(made)
            if word == "insert":
                self.ids[operation_id[0], operation_id[1]] = made[1]
                self.elements.append((operation_id, made[1]))
        elif word != "delete":
            # What isn't there needn't be deleted.
            self.lost.append(operation)


def name_of(document: str, lines: Sequence[Operation]) -> str:
    """The replica that makes these lines again in a document."""
    return f"again-{hashlib.sha256(encoded([document, lines])).hexdigest()[:12]}"


def known_by(target: Session, document: str, name: str) -> Front:
    """What the replica of this name knows of the new document: what is there, or what it knew when it began."""
    front = target.front(document)
    if name not in front:
        return front
    others = {replica: counter for replica, counter in front.items() if replica != name}
    [[first]] = target.ask("ops", document, pairs_of(others), 1)
    return dict(first[2])
