"""`put` of what differs alone: what is there already isn't sent again, and elements of lists stay who they are."""

import time
from typing import Any, Dict, List, Optional, Sequence, Tuple

from . import wire
from .difference import Items, Plan, Whole, planned
from .nested import BIND_SECONDS, OWN_NAME, Writer, bind, bind_all, depth
from .replies import good
from .steps import Steps
from .wire import Cursor, Id, apart

# The most elements that are bound at once, and how many names that may take over all levels of lists.
MOST_BOUND, NAMES = 8, 24


def put_changed(document: str, cursor: Cursor, value: Any) -> Steps[int]:
    """Sends what differs between the value and what is at the cursor. Returns how many operations that took. Raises ValueError
    for a value that can't be put, before anything is sent."""
    wire.checked_value(value, len(cursor) - 1)
    return Mender(document, value).put_changed(cursor, value)


class Mender(Writer):
    """Writes what differs."""

    def __init__(self, document: str, value: Any) -> None:
        super().__init__(document)
        self.levels = levels([value])
        self.bound = max(1, min(MOST_BOUND, NAMES // max(1, self.levels)))

    def name(self, level: int, number: int) -> str:
        """The name of an element that is changed."""
        return OWN_NAME(f"{level} {number}")

    def put_changed(self, cursor: Cursor, value: Any) -> Steps[int]:
        changed = [self.name(level, number) for level in range(self.levels) for number in range(self.bound)]
        yield from self.reserve([*map(OWN_NAME, range(depth([value]))), OWN_NAME("behind"), *changed])
        steady = yield from self.steady(cursor)
        [[branches]] = good((yield [["show", self.document, steady]]))
        plan = planned(wire.plain(branches), value)
        if plan:
            yield from self.check_room(plan.count, plan.makers)
            yield from self.mend(steady, plan, 0)
            yield from self.send()
        return self.made

    def mend(self, cursor: List[Any], plan: Plan, level: int) -> Steps[None]:
        if isinstance(plan, Whole):
            yield from self.write(cursor, plan.value)
            return
        for key, inner in plan.keys:
            if inner:
                yield from self.mend([*cursor, key], inner, level)
            else:
                yield from self.later("delete", self.document, [*cursor, key])
        if plan.wanted is not None:
            yield from self.mend_list(cursor, plan.wanted, level)
        for part in wire.parts_of(plan.added):
            yield from self.later("add", self.document, cursor, part)

    def mend_list(self, cursor: List[Any], wanted: List[Any], level: int) -> Steps[None]:
        """Makes what is in a list now into what is wanted: insertions first, behind elements that stay."""
        yield from self.send()
        ids, shown = yield from self.elements(cursor)
        items = Items(shown, wanted)
        for at, values in reversed(items.put_in):
            yield from self.insert_behind(cursor, ids[:at], values)
        changes: List[Tuple[int, Optional[Plan]]] = [*items.mended, *((at, None) for at in items.gone)]
        for first in range(0, len(changes), self.bound):
            part = changes[first:first + self.bound]
            yield from self.mend_elements(cursor, [(ids[at], plan) for at, plan in part], level)

    def elements(self, cursor: List[Any]) -> Steps[Tuple[List[Id], List[Any]]]:
        """The ids of a list's elements, and their values. Raises TimeoutError where others change the document so fast that both
        aren't read at one time for 10 s."""
        until = time.monotonic() + BIND_SECONDS
        while time.monotonic() < until:
            before, [branches], [items], after = good((yield [
                ["front", self.document], ["show", self.document, cursor], ["items", self.document, cursor],
                ["front", self.document]]))
            if before == after:
                values, _ = apart(wire.plain(branches))
                shown: List[Any] = next((it for it in values if isinstance(it, list)), [])
                return [it for it, _ in items], shown
        raise TimeoutError(f"{self.document}: it changes too fast to read a list of it")

    def insert_behind(self, cursor: List[Any], before: Sequence[Id], values: List[Any]) -> Steps[None]:
        """Inserts values behind the last of these elements that is there still, or first."""
        name = OWN_NAME("behind")
        at = len(before)
        while at and not (yield from bind(self.document, name, cursor, before[at - 1])):
            at -= 1
        yield from self.insert_all(cursor, [name] if at else [*cursor, 0], at + 1, values, 0)

    def mend_elements(self, cursor: List[Any], changes: List[Tuple[Id, Optional[Plan]]], level: int) -> Steps[None]:
        """Changes or deletes elements. One that another session has deleted meanwhile stays so."""
        named: Dict[str, Id] = {self.name(level, number): element for number, (element, _) in enumerate(changes)}
        gone = yield from bind_all(self.document, cursor, named)
        for name, (_, plan) in zip(named, changes):
            if name in gone:
                continue
            self.note_name(name, cursor, named[name])
            if plan:
                yield from self.mend([name], plan, level + 1)
            else:
                yield from self.later("delete", self.document, [name])
        # The names are bound anew for the next ones.
        yield from self.send()


def levels(values: Sequence[Any]) -> int:
    """How deep lists are in lists."""
    deepest = 0
    for value in values:
        inner = apart(value)[0] if isinstance(value, wire.Conflict) else [value]
        for it in inner:
            if isinstance(it, list):
                deepest = max(deepest, 1 + levels(it))
            elif type(it) is dict:
                deepest = max(deepest, levels(list(it.values())))
    return deepest
