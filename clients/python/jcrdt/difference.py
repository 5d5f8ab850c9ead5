"""What differs between the value at a place and another one, and which changes make the one of the other.

Values are those of `plain`: a Counter and a Conflict are no maps.
"""

import difflib
from typing import Any, Dict, List, Optional, Tuple, Union

from .room import count_of, count_of_element, makers_of
from .wire import Conflict, Counter, apart, encoded, parts_of

# Where lists have more pairs of equal elements than that, their elements are compared in their order alone.
MOST_PAIRS = 1_000_000


def text_of(value: Any) -> str:
    """A text that two values share if both show the same. Of a conflict the scalars have an order."""
    if type(value) is Counter:
        return f"counter {value['counter']}"
    if type(value) is Conflict:
        return f"({' | '.join(map(text_of, sorted(value['conflict'], key=_kind)))})"
    if type(value) is dict:
        return "{%s}" % ",".join(f"{encoded(key).decode()}:{text_of(inner)}" for key, inner in sorted(value.items()))
    if type(value) is list:
        return f"[{','.join(map(text_of, value))}]"
    return encoded(value).decode()


def _kind(value: Any) -> int:
    """The order of a conflict's values as `plain` has it."""
    return 0 if type(value) is dict else 1 if type(value) is list else 3 if type(value) is Counter else 2


class Whole:
    """The place is assigned anew."""

    def __init__(self, value: Any) -> None:
        self.value, self.count = value, count_of(value)

    @property
    def makers(self) -> int:
        """How many new replicas it takes."""
        return makers_of(self.value)


class Mend:
    """The place keeps its map, its list or its scalar, and what is in it changes. `count` is how many operations that takes."""

    def __init__(self) -> None:
        # What is done at keys of the map: None for a deletion.
        self.keys: List[Tuple[str, Optional["Plan"]]] = []
        # What is to be in the list, and what is done there.
        self.wanted: Optional[List[Any]] = None
        self.items: Optional[Items] = None
        # What is added to the counter.
        self.added: Optional[int] = None

    @property
    def count(self) -> int:
        keys = sum(plan.count if plan else 1 for _, plan in self.keys)
        return keys + (self.items.count if self.items else 0) + len(list(parts_of(self.added)))

    @property
    def makers(self) -> int:
        """How many new replicas it takes."""
        return max([self.items.makers if self.items else 0, *(plan.makers for _, plan in self.keys if plan)])


Plan = Union[Whole, Mend]


class Items:
    """What is done to the elements of a list, which are counted from 0."""

    def __init__(self, shown: List[Any], wanted: List[Any]) -> None:
        self.gone: List[int] = []
        self.mended: List[Tuple[int, Plan]] = []
        # What is inserted behind the first so many elements.
        self.put_in: List[Tuple[int, List[Any]]] = []
        for start, end, start_wanted, end_wanted in _differing(list(map(text_of, shown)), list(map(text_of, wanted))):
            self._take(start, shown[start:end], wanted[start_wanted:end_wanted])

    @property
    def count(self) -> int:
        put_in = sum(count_of_element(it) for _, values in self.put_in for it in values)
        return len(self.gone) + sum(plan.count for _, plan in self.mended) + put_in

    @property
    def makers(self) -> int:
        """How many new replicas it takes."""
        return max([0, *(plan.makers for _, plan in self.mended), *(makers_of(it) for _, values in self.put_in for it in values)])

    def _take(self, start: int, shown: List[Any], wanted: List[Any]) -> None:
        """Makes these elements, from `start` on, into the wanted ones: each is mended as long as there are any."""
        for at, (one, other) in enumerate(zip(shown, wanted), start):
            plan = planned(one, other)
            if plan:
                self.mended.append((at, plan))
        kept = min(len(shown), len(wanted))
        self.gone += range(start + kept, start + len(shown))
        if wanted[kept:]:
            self.put_in.append((start + kept, wanted[kept:]))


def _differing(one: List[str], other: List[str]) -> List[Tuple[int, int, int, int]]:
    """The parts of two lists that differ: from where to where in one, and in the other."""
    before = 0
    while before < min(len(one), len(other)) and one[before] == other[before]:
        before += 1
    behind = 0
    while behind < min(len(one), len(other)) - before and one[-1 - behind] == other[-1 - behind]:
        behind += 1
    ends = len(one) - behind, len(other) - behind
    one, other = one[before:ends[0]], other[before:ends[1]]
    counts: Dict[str, int] = {}
    for text in one:
        counts[text] = counts.get(text, 0) + 1
    if sum(counts.get(text, 0) for text in other) > MOST_PAIRS:
        return [(before, ends[0], before, ends[1])]
    found = difflib.SequenceMatcher(None, one, other, autojunk=False).get_opcodes()
    return [(before + a, before + b, before + c, before + d) for word, a, b, c, d in found if word != "equal"]


def planned(shown: Any, value: Any) -> Optional[Plan]:
    """What makes the value of what is shown, or None if both are alike. A place that holds nothing is taken for null."""
    mend = _mending(shown, value)
    if mend is None and text_of(shown) == text_of(value) or mend and not mend.count:
        return None
    return mend if mend and mend.count <= count_of(value) else Whole(value)


def _mending(shown: Any, value: Any) -> Optional[Mend]:
    """How the value comes about by changes of what is there, if that has its kind."""
    (there, sum_there), (wanted, sum_wanted) = apart(shown), apart(value)
    if len(there) != len(wanted) or len(wanted) > 1 or sum_there is not None and sum_wanted is None:
        return None
    mend = Mend()
    if sum_wanted is not None and sum_wanted != sum_there:
        mend.added = sum_wanted - (sum_there or 0)
    for one, other in zip(there, wanted):
        # A map or list that came about by what was put into it would go with that: so an empty one is assigned.
        if type(one) is dict and type(other) is dict and other:
            mend.keys = _keys(one, other)
        elif type(one) is list and type(other) is list and other:
            mend.wanted, mend.items = other, Items(one, other)
        elif text_of(one) != text_of(other):
            return None
    return mend


def _keys(shown: Dict[str, Any], wanted: Dict[str, Any]) -> List[Tuple[str, Optional[Plan]]]:
    found: List[Tuple[str, Optional[Plan]]] = [(key, None) for key in shown if key not in wanted]
    for key, value in wanted.items():
        plan = planned(shown[key], value) if key in shown else _new(value)
        if plan:
            found.append((key, plan))
    return found


def _new(value: Any) -> Plan:
    """What puts a value where nothing is."""
    if type(value) is not Counter:
        return Whole(value)
    mend = Mend()
    mend.added = value["counter"]
    return mend
