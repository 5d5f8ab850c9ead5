"""A document that goes on in another generation, at a hub that renews it: what it shows is there under other ids.

Which generation a log is of is seen in its front: a replica of a name that nobody else has began each but the first.
"""

import re
from typing import Any, Iterable, List, Mapping, NamedTuple, Sequence, Tuple

from .protocol import LIMITS
from .replies import good
from .steps import Steps
from .wire import Front, Id, Misbehaved, Refused, Renewed, checked_front, covers, is_id, is_integer

FIRST = "1"
MAKER = re.compile(r"gen([0-9]+-[a-z2-7]{10})-1\Z")
# Behind the last element of a map.
FAR = 2**40


class Generation(NamedTuple):
    """A generation of a document: how many operations it has, or had at its end, and of how many replicas."""

    name: str
    operations: int
    replicas: int


class Moved(NamedTuple):
    """What became of a generation: its front at its end, that of the next one's beginning, and elements as they were and as they are
    there; the third item is true for the first of a list."""

    end: Front
    start: Front
    elements: List[Tuple[Id, Id, bool]]


def generation_of(front: Mapping[str, int]) -> str:
    """The generation that a front is of: "1" is the first one, and all that a plain server has."""
    found = (MAKER.match(replica) for replica in front)
    return next((it[1] for it in found if it), FIRST)


def beginning_of(front: Front) -> Front:
    """What of a front names its generation: of the first one nothing."""
    return {replica: counter for replica, counter in front.items() if MAKER.match(replica)}


def generations_in(rest: List[Any]) -> List[Generation]:
    """The generations of a reply to `history`. Raises Misbehaved for what is none."""
    [found] = rest
    is_formed = isinstance(found, list) and len(found) > 0 and all(
        isinstance(it, list) and len(it) == 3 and isinstance(it[0], str) and all(map(is_integer, it[1:])) for it in found)
    if not is_formed:
        raise Misbehaved("generations that are none")
    return [Generation(*it) for it in found]


def moved_in(rest: List[Any]) -> Moved:
    """The parts of a reply to `map`. Raises Misbehaved for what is none."""
    try:
        end, start, pairs = rest
        if not all(isinstance(it, list) and all(map(is_id, it[:2])) and len(it) in (2, 3) for it in pairs):
            raise ValueError
        return Moved(checked_front(end), checked_front(start), [(it[0], it[1], len(it) == 3) for it in pairs])
    except (TypeError, ValueError, Refused):
        raise Misbehaved("a map that is none") from None


def move_from(document: str, generation: str) -> Steps[Moved]:
    """What became of a generation, with all of its elements."""
    found = moved_in(good((yield [["map", document, generation, 0]]))[0])
    is_more = len(found.elements) == LIMITS["mapped"]
    while is_more:
        more = moved_in(good((yield [["map", document, generation, len(found.elements)]]))[0]).elements
        found.elements.extend(more)
        is_more = len(more) == LIMITS["mapped"]
    return found


def names_since(document: str, generation: str) -> Steps[List[str]]:
    """The names of a generation and of those since. Raises ValueError where the document has no such one."""
    names = [it.name for it in generations_in(good((yield [["history", document]]))[0])]
    if generation not in names:
        raise ValueError(f"{document} has no generation {generation} at this hub")
    return names[names.index(generation):]


def elements_since(document: str, generation: str) -> Steps[List[Tuple[Id, Id]]]:
    """The elements of a generation, and what they are now."""
    names = yield from names_since(document, generation)
    found: List[Tuple[Id, Id]] = []
    for number, name in enumerate(names[:-1]):
        step = (yield from move_from(document, name)).elements
        after = {(old[0], old[1]): now for old, now, _ in step}
        found = ([(old, after[now[0], now[1]]) for old, now in found if (now[0], now[1]) in after] if number
                 else [(old, now) for old, now, _ in step])
    return found


def ends(document: str, front: Front) -> Steps[List[Front]]:
    """What generations of before had at their ends, where the front is of a later one than the first."""
    if generation_of(front) == FIRST:
        return []
    names = [it.name for it in generations_in(good((yield [["history", document]]))[0])]
    replies = good((yield [["map", document, name, FAR] for name in names[:-1]]))
    return [moved_in(it).end for it in replies]


def unsaved(document: str, ids: Iterable[Id]) -> Steps[List[Id]]:
    """Those of the ids that neither the document has, nor a generation of before had at its end."""
    [[pairs]] = good((yield [["front", document]]))
    front = checked_front(pairs)
    lacking = [it for it in ids if not covers(front, it)]
    before = (yield from ends(document, front)) if lacking else []
    return [it for it in lacking if not any(covers(end, it) for end in before)]


def check_of_now(document: str, pairs: Any, elements: Sequence[Id]) -> Steps[None]:
    """Raises Renewed where one of these elements, which aren't in the document of this front, is one of a generation of before."""
    front = checked_front(pairs)
    before = (yield from ends(document, front)) if elements else []
    if any(covers(end, it) for end in before for it in elements):
        raise Renewed(document, generation_of(front))
