"""Loading a value that has conflicts: a session assigns one value to a place, and by that takes the others away. So each value
of a conflict is assigned by a made-up replica that doesn't know of the others, as operations that are delivered."""

import secrets
from typing import Any, Dict, List, Optional

from . import wire
from .mending import Mender
from .renewal import ROOT, Maker, below
from .replies import front_in, good, logged_in
from .steps import Steps
from .tagged import untagged
from .wire import Cursor, Id, Lost, bare


def load_json(document: str, cursor: Cursor, data: Any) -> Steps[int]:
    """Makes what is at the cursor into the value of JSON with tags. Raises ValueError before anything is sent."""
    if list(cursor[:1]) != [0] or not all(isinstance(it, str) for it in cursor[1:]):
        raise ValueError("a value is loaded at a cursor of 0 and texts")
    value = untagged(data)
    wire.checked_value(value, len(cursor) - 1, has_conflicts=True)
    return Loader(document, value).put_changed(cursor, value)


class Loader(Mender):
    """Writes what differs, with conflicts."""

    def __init__(self, document: str, value: Any) -> None:
        super().__init__(document, value)
        self.name_of_makers = f"import-{secrets.token_hex(6)}"
        self.makers: List[Maker] = []
        # Where the bound names are, in written form.
        self.places: Dict[str, List[Any]] = {}

    def note_name(self, name: str, cursor: List[Any], element: Id) -> None:
        self.places[name] = below(self.written(cursor), "l", element)

    def written(self, cursor: List[Any]) -> List[Any]:
        """A cursor as `[PATH,KEY]`."""
        place = ROOT if cursor[0] == 0 else self.places[cursor[0]]
        for key in cursor[1:]:
            place = below(place, "m", key)
        return place

    def maker(self, number: int) -> Maker:
        """The replica that makes the values of this number. Values have the order of the names, since all know the same."""
        while len(self.makers) <= number:
            self.makers.append(Maker(f"{self.name_of_makers}-{len(self.makers) + 1:03}"))
        return self.makers[number]

    def write_conflict(self, cursor: List[Any], values: List[Any], counter: Optional[int], level: int) -> Steps[None]:
        yield from self.send()
        # It has what was here before, which goes by that, and the elements on the way.
        front = front_in(good((yield [["front", self.document]]))[0])
        place = self.written(cursor)
        for number, value in enumerate(values):
            operation = self.maker(number).make(front, place, ["assign", bare(value)])
            self.waiting.append(("deliver", self.document, operation))
        if not all(map(logged_in, (yield from self.send()))):
            raise Lost(f"{self.document}: the server was started again meanwhile")
        yield from self.fill(cursor, values, counter, level)
