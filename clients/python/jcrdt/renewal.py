"""Operations that make what a document shows, for `renew`.

A value is what `show` gives: branches ["map",..], ["list",..], ["val",ID,scalar] and ["cnt",TEXT].
One replica makes all but what it can't: of several scalars at one place, or an empty map or list
beside a scalar, each further one is assigned by another replica that doesn't know of the first.

So that an assignment of another replica clears nothing, it must not know of what is at its place
and below it, and it must know of the elements on the way to it. Therefore the first replica works
in stages: stage 0 is what lies under no conflict, stage 1 is what is at and under one, and so on.
What others assign at a conflict of stage n knows of the stages before n.
"""

from typing import Any, Callable, Dict, List, Optional, Sequence, Tuple

from .facts import Branches
from .wire import Front, Id, Operation, parts_of

ROOT: List[Any] = [[], 0]
Cursor = List[Any]
# What the first replica does at a stage, and what others do before it with the front of the stages before.
Stage = Tuple[List[Callable[[], None]], List[Callable[[Front], None]]]


def below(cursor: Cursor, kind: str, key: Any) -> Cursor:
    """The cursor of a key of the map (m) or list (l) at a cursor."""
    path, last = cursor
    return [[*path, [kind, last]], key]


def parted(branches: Sequence[Any]) -> Tuple[Any, Any, List[Any], Optional[str]]:
    """What is in the map, what is in the list (or None), the scalars, and the counter (or None)."""
    parts: Dict[str, Any] = {"map": None, "list": None, "cnt": None}
    scalars = [rest[-1] for kind, *rest in branches if kind == "val"]
    parts.update((kind, rest[0]) for kind, *rest in branches if kind != "val")
    return parts["map"], parts["list"], scalars, parts["cnt"]


def values_to_put(branches: Sequence[Any]) -> List[Any]:
    """What is to be assigned for these branches: by the first replica the first of them, and each other
    by another one. A map or list with something in it comes about by what is put into it, unless it is
    all there is."""
    in_map, in_list, scalars, _ = parted(branches)
    inside: List[Tuple[Any, Any]] = [({}, in_map), ([], in_list)]
    values = scalars + [value for value, inner in inside if inner is not None and not inner]
    return values or [value for value, inner in inside if inner is not None][:1]


def without_ids(branches: Sequence[Any]) -> Any:
    """What is shown but for the ids of values. Scalars that conflict are in the order of their ids, which
    are others in another document: here they are in the order of their texts."""
    in_map, in_list, scalars, counter = parted(branches)
    return (in_map if in_map is None else [(key, without_ids(inner)) for key, inner in in_map],
            in_list if in_list is None else [without_ids(inner) for inner in in_list],
            sorted(scalars, key=repr), counter)


def settled_branches(branches: Branches, rule: str) -> Branches:
    """The branches with the last or the first value of each place, and the counter beside it."""
    values = [it for it in branches if it[0] != "cnt"]
    kept = values[-1:] if rule == "last" else values[:1]
    settled = Branches()
    settled.element = branches.element
    for kind, *rest in kept + [it for it in branches if it[0] == "cnt"]:
        if kind == "map":
            rest = [[[key, settled_branches(inner, rule)] for key, inner in rest[0]]]
        elif kind == "list":
            rest = [[settled_branches(inner, rule) for inner in rest[0]]]
        settled.append([kind, *rest])
    return settled


class Maker:
    """A replica that makes operations."""

    def __init__(self, name: str) -> None:
        self.name, self.last = name, 0

    def make(self, known: Front, cursor: Cursor, mutation: List[Any]) -> Operation:
        """An operation whose maker knows of these others, and of its own."""
        front = {**known, self.name: self.last} if self.last else known
        self.last = 1 + max(front.values(), default=0)
        return ["op", [self.last, self.name], [list(it) for it in sorted(front.items())], cursor, mutation]


class Renewal:
    """The operations of a renewal, in an order in which they can be delivered. The same branches and the same name
    give the same operations. The first of them changes nothing: it is a delete where nothing is."""

    def __init__(self, name: str, branches: Branches) -> None:
        self.name, self.makers = name, [Maker(f"{name}-1")]
        self.stages: List[Stage] = []
        # The ids of elements: those of before, and those of now.
        self.elements: List[Tuple[Id, Id]] = []
        self.operations: List[Operation] = [self.makers[0].make({}, ROOT, ["delete"])]
        self._run(branches)

    @property
    def count(self) -> int:
        """How many replicas made them."""
        return len(self.makers)

    def _run(self, branches: Branches) -> None:
        self._at_stage(0, ROOT, branches, False)
        stage = 0
        while stage < len(self.stages):
            mine, others = self.stages[stage]
            before = {self.makers[0].name: self.makers[0].last}
            for work in others:
                work(before)
            # Work of this stage may add more to it, and to later ones.
            at = 0
            while at < len(mine):
                mine[at]()
                at += 1
            stage += 1

    def _at_stage(self, stage: int, cursor: Cursor, branches: Branches, has_value: bool) -> None:
        """Plans what is at a cursor. `has_value`: an insertion has put its one value there."""
        values = values_to_put(branches)
        assigned, others = [] if has_value else values[:1], values[1:]
        conflict = stage + 1 if others else stage
        for number, value in enumerate(others, 1):
            def assign(before: Front, number: int = number, value: Any = value) -> None:
                self._assign_apart(number, before, cursor, value)
            self._plan(conflict)[1].append(assign)
        self._plan(conflict)[0].append(lambda: self._fill(conflict, cursor, branches, assigned))

    def _plan(self, stage: int) -> Stage:
        while len(self.stages) <= stage:
            self.stages.append(([], []))
        return self.stages[stage]

    def _mine(self, cursor: Cursor, *mutation: Any) -> Id:
        self.operations.append(self.makers[0].make({}, cursor, list(mutation)))
        operation_id: Id = self.operations[-1][1]
        return operation_id

    def _assign_apart(self, number: int, before: Front, cursor: Cursor, value: Any) -> None:
        while len(self.makers) <= number:
            self.makers.append(Maker(f"{self.name}-{len(self.makers) + 1}"))
        self.operations.append(self.makers[number].make(before, cursor, ["assign", value]))

    def _fill(self, stage: int, cursor: Cursor, branches: Branches, assigned: List[Any]) -> None:
        """Makes what is at a cursor, and plans what is below it."""
        in_map, in_list, _, counter = parted(branches)
        for value in assigned:
            self._mine(cursor, "assign", value)
        if not branches and cursor != ROOT:
            # It is there and holds nothing: what is put below it and deleted leaves it so.
            self._mine(below(cursor, "m", ""), "assign", None)
            self._mine(below(cursor, "m", ""), "delete")
        for key, inner in in_map or []:
            self._at_stage(stage, below(cursor, "m", key), inner, False)
        self._insert(stage, cursor, in_list or [])
        for part in parts_of(None if counter is None else int(counter)):
            self._mine(cursor, "add", part)

    def _insert(self, stage: int, cursor: Cursor, elements: List[Branches]) -> None:
        last: Any = 1
        for inner in elements:
            values = values_to_put(inner)
            # What conflicts is assigned later; until then null is there.
            value = values[0] if len(values) == 1 else None
            last = self._mine(below(cursor, "l", last), "insert", value)
            if inner.element is not None:
                self.elements.append((inner.element, last))
            element = below(cursor, "l", last)
            if not values:
                # What follows the deletion makes the element present again.
                self._mine(element, "delete")
            self._at_stage(stage, element, inner, len(values) == 1)
