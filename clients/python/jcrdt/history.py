"""A document's past: its operations as lines for a person, and what it showed after some of them."""

import itertools
import json
from typing import Any, Dict, Iterator, List, Sequence, Union

from . import wire
from .programs import started
from .wire import Front, Id, Operation, shown_safely


def id_text(operation_id: Id) -> str:
    counter, replica = operation_id
    return f"{counter}@{replica}"


def place_text(cursor: Sequence[Any]) -> str:
    """A cursor as keys with slashes before them. An element of a list is named by its id."""
    path, last = cursor
    keys = [key for _, key in path] + [last]
    texts = [id_text(key) if isinstance(key, list) else key for key in keys if key != 0]
    return shown_safely("/" + "/".join(map(str, texts)))


def readable(operation: Operation) -> str:
    """What an operation does, in one line without control characters."""
    _, _, _, cursor, (word, *value) = operation
    text = shown_safely(json.dumps(value[0], ensure_ascii=False)) if value else ""
    place = place_text(cursor)
    if word == "insert":
        last = cursor[1]
        where = "first" if last == 1 else f"behind {id_text(last)}"
        return f"insert {place.rpartition('/')[0]} {where}: {text}"
    lines = {"assign": f"assign {place} = {text}", "add": f"add    {place} + {text}", "delete": f"delete {place}"}
    return lines[word]


def news(operation: Operation, known: Dict[str, Front]) -> List[str]:
    """Whose operations the maker has heard of since its own last one, as `bob-1 to 7`."""
    before = known.get(operation[1][1], {})
    return [f"{replica} to {counter}" for replica, counter in operation[2]
            if replica != operation[1][1] and counter > before.get(replica, 0)]


def listed(operations: List[Operation]) -> Iterator[str]:
    """The lines of the list."""
    known: Dict[str, Front] = {}
    for place, operation in enumerate(operations, 1):
        heard = news(operation, known)
        known[operation[1][1]] = dict(operation[2])
        yield (f"{place:>6}  {id_text(operation[1]):<16} {readable(operation)}"
               + (f"    (knows {', '.join(heard)})" if heard else ""))


def first_of(operations: List[Operation], at: Union[int, Front]) -> List[Operation]:
    """The operations up to a place, or those that a front covers."""
    if isinstance(at, int):
        return operations[:at]
    return [it for it in operations if wire.covers(at, it[1])]


def shown(operations: List[Operation]) -> Any:
    """What a document shows that has these operations. It runs the program under a name that made none."""
    makers = {operation[1][1] for operation in operations}
    name = next(it for it in map("reader{}".format, itertools.count()) if f"{it}-1" not in makers)
    with started(["d"], name) as reader:
        reader.open("d")
        for reply in reader.ask_all([["deliver", "d", it] for it in operations]):
            if isinstance(reply, Exception):
                raise ValueError(f"an operation is refused: {reply}")
        waiting = reader.held("d")
        if waiting:
            raise ValueError(f"{len(waiting)} lack what they depend on: nobody has had this front")
        return reader.plain("d", [0])
