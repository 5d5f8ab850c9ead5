"""What goes over the wire: JSON lines, errors, values, fronts, and the shape of an operation.

Each of these is defined here once for the whole package; words, refusals and limits are in protocol.py. The reference
is docs/FORMATS.md.
"""

import json
import re
from typing import Any, Callable, Dict, Iterable, Iterator, List, Mapping, NamedTuple, Optional, Sequence, Tuple

from .protocol import CHANGES, LIMITS, NUMBERS, PUSHES, REFUSALS

# An id, `[counter, replica]`. A cursor, `[0, "days", 2]`. An operation, `["op", ..]`.
Id = List[Any]
Cursor = Sequence[Any]
Operation = List[Any]
# A version vector: the last counter of each replica.
Front = Dict[str, int]
# A replica, a counter of it, and a digest of its operations up to that one.
Chain = Tuple[str, int, str]


class Size(NamedTuple):
    """How many operations of a document are logged, how many of them the server's file has (0 in `run`), and of how many
    replicas they are."""

    logged: int
    copied: int
    replicas: int


# The longest line that a server takes, in bytes without its newline. A longer one ends the session.
LINE_LIMIT = LIMITS["line"]
# A document takes so many operations, of so many replicas, and holds so many more.
OPERATION_LIMIT, REPLICA_LIMIT, HELD_LIMIT = LIMITS["log"], LIMITS["replicas"], LIMITS["held"]
PATH_LIMIT, KEY_BYTES, TEXT_BYTES = LIMITS["path"], LIMITS["key"], LIMITS["value"]
LEAST, GREATEST = -2**63, 2**63 - 1
NAME = re.compile(r"[a-z0-9-]{1,32}\Z")
# How many operations one `ops` can give, and how many documents one `list`.
PAGE, LISTED = LIMITS["page"], LIMITS["listed"]

# What a hub answers when a server's reply is missing: 100 and 102 come where a change may have been made.
SERVER_LOST, SERVER_AWAY, REPLY_TOO_LONG = NUMBERS["server-lost"], NUMBERS["server-away"], NUMBERS["reply-too-long"]
_PUSHED = tuple(f'["{word}"'.encode() for word in PUSHES)


class Refused(Exception):
    """The answer was `["no",number,name]`: document, variables and log are as they were."""

    def __init__(self, number: int, name: Optional[str] = None, last_counter: Optional[int] = None) -> None:
        """Without a name it is that of the number."""
        self.number = number
        self.name: str = REFUSALS.get(number, "unknown") if name is None else name
        super().__init__(number, self.name, last_counter)
        # With 14 (`forked`): the last logged counter of the operation's replica.
        self.last_counter = last_counter

    def __str__(self) -> str:
        return f"{self.number} {self.name}"


class Renewed(Refused):
    """106: nothing was changed. What was asked is of a generation of the document that takes no changes any more: it goes on in another
    one, `generation`, where elements have other ids. Begin anew in that from an empty front; `renew` of a replica goes on there with its
    edits, and `elements_since` of a session leads from elements of before to those of now."""

    def __init__(self, document: str = "", generation: str = "") -> None:
        super().__init__(NUMBERS["renewed"])
        self.document, self.generation = document, generation

    def __str__(self) -> str:
        where = f": {self.document} goes on in the generation {self.generation}, and this is of one before" if self.generation else ""
        return f"{super().__str__()}{where}: begin anew, from an empty front, or by `renew` of a replica"


class Lost(ConnectionError):
    """The reply is missing: a change may have been made or not. The session can't be used any more,
    unless the cause is a hub's `["no",100,..]`."""


class Misbehaved(Lost):
    """A peer sent what no server sends. The session can't be used any more."""


class Away(ConnectionError):
    """Nothing was done: no server was reached."""


# Lines.

def encoded(request: Any) -> bytes:
    """A request as a line without its newline. Raises ValueError for what JSON doesn't have (NaN, a lone
    surrogate, a value in itself), TypeError for an object that is no JSON value."""
    try:
        return _ENCODER.encode(request).encode()
    except RecursionError:
        raise ValueError("nested too deeply") from None


def decoded(line: bytes) -> Any:
    """The value of a line. Integers are exact. Raises ValueError for what is no JSON text, also for
    one that is nested too deeply or has `NaN`."""
    try:
        return _DECODER.decode(line.decode())
    except RecursionError:
        raise ValueError("nested too deeply") from None


def _no_constant(word: str) -> Any:
    raise ValueError(f"{word} is no JSON")


_ENCODER = json.JSONEncoder(ensure_ascii=False, allow_nan=False, separators=(",", ":"))
_DECODER = json.JSONDecoder(parse_constant=_no_constant)


def decoded_reply(line: bytes) -> List[Any]:
    """A reply or a push: an array that begins with a word. Raises ValueError for anything else."""
    reply = decoded(line)
    if not isinstance(reply, list) or not reply or not isinstance(reply[0], str):
        raise ValueError("it is no reply: it doesn't begin with a word")
    if reply[0] == "no" and not (len(reply) in (3, 4) and all(map(is_integer, reply[1:2] + reply[3:]))
                                 and isinstance(reply[2], str)):
        raise ValueError("it is no refusal: a number and a name are missing")
    return reply


def is_push_line(line: bytes) -> bool:
    """Whether a line, before it is read, is a push."""
    return line.startswith(_PUSHED)


def refusal(reply: Sequence[Any], request_word: str = "") -> Exception:
    """The error that a reply `["no",..]` to a request is: Refused, or a hub's Lost or Away."""
    number, name = reply[1], reply[2]
    if number == SERVER_LOST or number == REPLY_TOO_LONG and request_word in CHANGES:
        return Lost(f"{number} {name}: the change may have been made or not")
    if number == SERVER_AWAY:
        return Away(f"{number} {name}: the hub has no connection to the server")
    if number == NUMBERS["renewed"]:
        return Renewed()
    return Refused(*reply[1:])


def is_integer(value: Any) -> bool:
    """Whether it is an integer of any size; True and False are none."""
    return type(value) is int


# Fronts and ids.

def covers(front: Mapping[str, int], operation_id: Sequence[Any]) -> bool:
    """Whether a front has the operation of an id."""
    found: bool = operation_id[0] <= front.get(operation_id[1], 0)
    return found


def covers_all(front: Mapping[str, int], last: Mapping[str, int]) -> bool:
    """Whether a front has all that another one has."""
    return all(covers(front, [counter, replica]) for replica, counter in last.items())


def pairs_of(front: Mapping[str, int]) -> List[List[Any]]:
    """A front as it is written, `[[replica,counter],..]` by name. Counters of 0 are left out."""
    return [[replica, counter] for replica, counter in sorted(front.items()) if counter]


def checked_front(value: Any) -> Front:
    """A front in its written form as a dict. Raises Refused: 2 for a wrong pair, 13 where the names
    don't ascend."""
    if not isinstance(value, list) or not all(map(_is_pair, value)):
        raise Refused(NUMBERS["bad-request"])
    if not _ascends(value):
        raise Refused(NUMBERS["bad-front"])
    return dict(value)


def is_id(value: Any) -> bool:
    """Whether it is `[counter, replica]`."""
    return type(value) is list and len(value) == 2 and _is_counter(value[0]) and _is_name(value[1])


def _is_counter(value: Any) -> bool:
    return type(value) is int and 1 <= value <= OPERATION_LIMIT


def _is_name(value: Any) -> bool:
    return type(value) is str and NAME.match(value) is not None


def _is_pair(value: Any) -> bool:
    return type(value) is list and len(value) == 2 and _is_name(value[0]) and _is_counter(value[1])


def _ascends(pairs: Sequence[Sequence[Any]]) -> bool:
    return all(one[0] < other[0] for one, other in zip(pairs, pairs[1:]))


# Operations.

def checked_operation(value: Any) -> Operation:
    """An operation of the right shape. Raises the Refused that a server answers to another one: 20, 12 or
    13, in this order."""
    if not isinstance(value, list) or len(value) != 5 or value[0] != "op":
        raise Refused(NUMBERS["bad-operation"])
    _, operation_id, front, cursor, mutation = value
    if isinstance(cursor, list) and len(cursor) == 2 and isinstance(cursor[0], list) and len(cursor[0]) > PATH_LIMIT:
        raise Refused(NUMBERS["too-deep"])
    right = (is_id(operation_id) and type(front) is list and all(map(_is_pair, front))
             and _is_placed(cursor) and _is_mutation(mutation, cursor))
    if not right:
        raise Refused(NUMBERS["bad-operation"])
    if len(front) > 1 and not _ascends(front) or operation_id[0] != _greatest(front) + 1:
        raise Refused(NUMBERS["bad-front"])
    return value


def _greatest(front: Sequence[Sequence[Any]]) -> int:
    """The greatest counter of a front."""
    greatest = 0
    for _, counter in front:
        if counter > greatest:
            greatest = counter
    return greatest


def _is_placed(cursor: Any) -> bool:
    """Whether a cursor begins at the document, with texts below maps and elements below lists. The head of a
    list is its last key or none."""
    if type(cursor) is not list or len(cursor) != 2 or type(cursor[0]) is not list:
        return False
    path, last = cursor
    before = ""
    for item in path:
        if type(item) is not list or len(item) != 2 or item[0] not in ("m", "l") or not _fits(item[1], before):
            return False
        before = item[0]
    return _fits(last, before) or before == "l" and type(last) is int and last == 1


def _fits(key: Any, before: str) -> bool:
    """Whether a key is right below nothing (the document), below a map or below a list."""
    if before == "m":
        return _is_text(key, KEY_BYTES)
    if before == "l":
        return is_id(key)
    return type(key) is int and key == 0


def _is_text(value: Any, most: int) -> bool:
    """Whether it is a text of at most so many bytes. A text with a lone surrogate is none."""
    if type(value) is not str or len(value) > most:
        return False
    try:
        return value.isascii() or len(value.encode()) <= most
    except UnicodeEncodeError:
        return False


def _is_mutation(mutation: Any, cursor: List[Any]) -> bool:
    if type(mutation) is not list or not mutation:
        return False
    path, last = cursor
    if mutation[0] == "insert":
        return len(mutation) == 2 and bool(path) and path[-1][0] == "l" and is_scalar_or_empty(mutation[1])
    if type(last) is int and last == 1:
        return False
    if mutation[0] == "assign":
        return len(mutation) == 2 and is_scalar_or_empty(mutation[1])
    if mutation[0] == "add":
        return len(mutation) == 2 and is_integer(mutation[1]) and LEAST <= mutation[1] <= GREATEST
    return mutation == ["delete"]


def is_scalar_or_empty(value: Any) -> bool:
    """Whether one request can assign it: an integer of 64 bits, a text of at most 4,096 bytes, true, false,
    null, `{}` or `[]`."""
    if value is None or value is True or value is False:
        return True
    if type(value) is int:
        return bool(LEAST <= value <= GREATEST)
    if type(value) in (dict, list):
        return not value
    return _is_text(value, TEXT_BYTES)


# Values.

class Counter(Dict[str, int]):
    """What `plain` gives for a counter, {"counter": n}. A map with such a key is a plain dict."""

    def __init__(self, number: int) -> None:
        super().__init__(counter=number)


class Conflict(Dict[str, List[Any]]):
    """What `plain` gives if several values are at one place, {"conflict": [..]}: a map, a list, scalars
    in the order of their ids, and a counter, which may be beside any of them. A map with such a key is a
    plain dict."""

    def __init__(self, values: List[Any]) -> None:
        super().__init__(conflict=values)


def plain(branches: Sequence[Any]) -> Any:
    """An element of a reply to `show` as plain JSON: see `Counter` and `Conflict`. A place that holds
    nothing is None."""
    values: List[Any] = []
    for kind, *rest in branches:
        if kind == "map":
            values.append({key: plain(inner) for key, inner in rest[0]})
        elif kind == "list":
            values.append([plain(inner) for inner in rest[0]])
        elif kind == "val":
            values.append(rest[1])
        else:
            values.append(Counter(int(rest[0])))
    return values[0] if len(values) == 1 else Conflict(values) if values else None


def apart(value: Any) -> Tuple[List[Any], Optional[int]]:
    """What is at one place: a list of its values, and the sum of its counter or None."""
    if isinstance(value, Counter):
        return [], value["counter"]
    if not isinstance(value, Conflict):
        return [value], None
    values = [it for it in value["conflict"] if not isinstance(it, Counter)]
    counters = [it["counter"] for it in value["conflict"] if isinstance(it, Counter)]
    return values, counters[0] if counters else None


def bare(value: Any) -> Any:
    """What one request can put there: {} and [] without what is in them, and any other value as it is."""
    return type(value)() if isinstance(value, (dict, list)) else value


def parts_of(counter: Optional[int]) -> Iterator[int]:
    """The numbers to add for a sum: one addition takes 64 bits. None for no counter."""
    while counter is not None:
        part = max(LEAST, min(GREATEST, counter))
        yield part
        counter = counter - part or None


def settled(value: Any, choose: Callable[[List[Any]], Any] = lambda values: values[-1]) -> Any:
    """The value with one of each Conflict's values, the last if no other is chosen. A counter stays
    beside it."""
    if isinstance(value, Conflict):
        values, counter = apart(value)
        chosen = settled(choose(values), choose)
        return chosen if counter is None else Conflict([chosen, Counter(counter)])
    if isinstance(value, Counter):
        return value
    if isinstance(value, dict):
        return {key: settled(inner, choose) for key, inner in value.items()}
    return [settled(inner, choose) for inner in value] if isinstance(value, list) else value


def checked_value(value: Any, depth: int = 0, place: str = "", has_conflicts: bool = False) -> Any:
    """The value, if `put` can write all of it at a place of this depth: plain dicts with texts as keys,
    lists, exact integers of 64 bits, texts, True, False, None, a Counter, and a Conflict of one value
    beside a Counter; of several only if it may have conflicts. Raises ValueError, which names the part
    that isn't right."""
    where = place or "/"
    if depth > PATH_LIMIT:
        raise ValueError(f"{where}: nested more than {PATH_LIMIT} deep")
    if type(value) is Conflict:
        values, _ = apart(value)
        if len(values) > 1 and not has_conflicts:
            raise ValueError(f"{where}: {len(values)} values at one place: settle the conflict first")
        for inner in value["conflict"]:
            checked_value(inner, depth, place, has_conflicts)
    elif type(value) is Counter:
        if not is_integer(value["counter"]):
            raise ValueError(f"{where}: the sum of a counter is an integer")
    elif type(value) is dict:
        for key, inner in value.items():
            if not _is_text(key, KEY_BYTES):
                raise ValueError(f"{where}: the key {key!r:.40} is no text of at most {KEY_BYTES} bytes")
            checked_value(inner, depth + 1, f"{place}/{key}", has_conflicts)
    elif type(value) is list:
        for number, inner in enumerate(value, 1):
            checked_value(inner, depth + 1, f"{place}/{number}", has_conflicts)
    elif not is_scalar_or_empty(value):
        raise ValueError(f"{where}: {value!r:.40} is no integer of 64 bits, no text of at most {TEXT_BYTES} bytes, "
                         "no True, False, None, dict or list")
    return value


# Addresses.

def host_and_port(address: str) -> Tuple[str, int]:
    """The parts of HOST:PORT, without the brackets of `[::1]:7001`. Raises ValueError for anything else."""
    host, _, port = address.rpartition(":")
    if not host or not (port.isascii() and port.isdigit()) or int(port) > 65_535:
        raise ValueError(f"{address} isn't HOST:PORT")
    return host.strip("[]"), int(port)


def shown_safely(text: str) -> str:
    """A text for a terminal or a log: control characters, also those of C1, and what turns the direction of
    writing are escaped."""
    return "".join(it if it.isprintable() else it.encode("unicode_escape", "surrogatepass").decode() for it in text)


def front_of(operations: Iterable[Operation]) -> Front:
    """The front of operations that are in the order of a log."""
    return {operation[1][1]: operation[1][0] for operation in operations}
