"""Going on under a new name where another has the old one: own operations that the server lacks are made again.

Copies of one store have the same operations. So what was restored from a store is made again under a name that is made of what it
says: copies make the same of it, and the server has it once. It is sent while it is made, one by one, since copies may go on in
different ways: where one is refused, another copy was first, and what follows gets another name. So is what was edited since the store
was opened, where a store has it, of which copies may be made meanwhile: the word of the opening is in its name, so that what two have
edited alike stays two. Else it is nobody else's, and goes under the new name of this replica. The JavaScript package does the same, by
the same names.
"""

from typing import TYPE_CHECKING, AbstractSet, Any, Callable, Dict, Iterator, List, NamedTuple, Optional, Set, Tuple

from . import wire
from .copies import is_saying
from .protocol import NAME_USED_TWICE
from .session import Session
from .wire import Front, Id, Operation, Refused, covers

if TYPE_CHECKING:
    from .replica import Replica

Key = Tuple[int, str]
# In so many rounds copies of a store may be in each other's way.
ROUNDS = 8
DIGITS = "0123456789abcdefghijklmnopqrstuvwxyz"
SUMS = (0x9E3779B1, 0x85EBCA77, 0xC2B2AE3D, 0x27D4EB2F)
MULTIPLIERS = (0x2C1B3C6D, 0x297A2D39, 0x1B56C4E9, 0x9E3779B1)


class Remade(NamedTuple):
    """How many operations were made again, and those that couldn't be."""

    remade: int
    lost: List[Operation]


class How(NamedTuple):
    """The new name; from which own counter on others have the ids; up to which own counter copies of the store may have operations, and up
    to which the server's are this store's; the own ones that it has logged from here; the word of the opening in which one was made, of
    this name or of one before; and whether the server may take what is made again."""

    name: str
    forked: Optional[int]
    stored: int
    sure: int
    logged: AbstractSet[int]
    session_of: Callable[[int, str], str]
    may_send: bool


class Remaking:
    """A log under way from one name to another. `scratch` is a replica that has what the server has, and gets all else."""

    def __init__(self, replica: "Replica", scratch: "Replica", how: How) -> None:
        self._replica, self._scratch, self._how, self.may_send = replica, scratch, how, how.may_send
        self.lost: List[Operation] = []
        # Of own operations: as they were, and as they are now.
        self.ids: Dict[Key, Id] = {}
        # Of a replica: the last of its operations that are the same here and there. Of the names under which something was made: the last.
        self._good: Front = {}
        self._made: Front = {}
        # Of another replica: from which of its operations on the server has others.
        self._barred: Front = {}
        # Of a replica: from which of its operations on they depend on more of the old name than is the same here and there: (from, needed).
        self._needs: Dict[str, List[Tuple[int, int]]] = {}
        self._seen: Front = {}
        self._due: List[Operation] = []
        # The name under which copies make the same.
        self._shared = ""
        self._is_forked = False
        # Names before of which the server has others' operations.
        self._forked_formers: Set[str] = set()

    def send(self, client: Session, document: str) -> bool:
        """Makes again what copies of the store may have, too, and has the server log it. Returns whether it has; else the server has
        something that isn't known here."""
        if self._how.stored or self._replica.formers:
            for operation in self._rest():
                self._take(operation)
                if self._due and self._due[-1][1][1] == self._shared and not self._is_logged(client, document):
                    return False
        return True

    def run(self) -> Remade:
        """Takes the rest of the old log. Then the scratch replica's is what to go on with."""
        for operation in self._rest():
            self._take(operation)
        return Remade(len(self.ids), self.lost)

    def _rest(self) -> Iterator[Operation]:
        for operation in self._replica.operations(self._seen):
            self._seen[operation[1][1]] = operation[1][0]
            yield operation

    def _take(self, operation: Operation) -> None:
        replica = operation[1][1]
        if replica == self._replica.name:
            self._take_own(operation)
        elif self._replica.is_own_name(replica):
            self._take_former(operation)
        else:
            self._take_other(operation)

    def _take_former(self, operation: Operation) -> None:
        """Takes one of a name before, which goes on elsewhere: it is another's, as long as the server has no other one of its id, or of one
        that it depends on."""
        replica = operation[1][1]
        is_there = self._is_there(operation)
        is_taken = not is_there and covers(self._scratch.front(), operation[1])
        is_others = is_there or not is_taken and not self._is_barred(operation)
        if is_others and replica not in self._forked_formers:
            self._take_other(operation)
            return
        self._forked_formers.add(replica)
        self._make_again(operation)

    def _take_other(self, operation: Operation) -> None:
        counter, replica = operation[1]
        word = "barred" if self._is_barred(operation) and not self._is_there(operation) else self._deliver(operation)
        if word == "applied":
            self._due.append(operation)
        if word not in ("applied", "known"):
            self.lost.append(operation)
            self._barred.setdefault(replica, counter)
        elif replica not in self._barred:
            self._good[replica] = counter
            self._note_need(operation)

    def _is_barred(self, operation: Operation) -> bool:
        """Whether it depends on an operation of another replica in whose place the server has another one. Who made it makes it again."""
        (counter, replica), known = operation[1], operation[2]
        return any(last >= self._barred.get(name, last + 1) for name, last in [*known, (replica, counter)])

    def _is_logged(self, client: Session, document: str) -> bool:
        """Whether the server has logged what is due. One at a time: where another copy has gone on in another way, nothing may go
        behind its operations."""
        due, self._due = self._due, []
        for operation in due:
            try:
                reply = client.ask("deliver", document, operation)
            except Refused as refusal:
                self.may_send = self.may_send and refusal.number in NAME_USED_TWICE
                return False
            if reply and len(reply) != 3:
                # It is held: the server lacks what it had before.
                client.forget(document, operation[1])
                return False
        return True

    def _deliver(self, operation: Operation) -> str:
        reply = wire.decoded_reply(self._scratch.answer(wire.encoded(["deliver", operation]))[0])
        if reply[0] == "held":
            self._scratch.ask("forget", operation[1])
        return str(reply[0])

    def _take_own(self, operation: Operation) -> None:
        counter, replica = operation[1]
        is_before = not self._is_forked and (self._how.forked is None or counter < self._how.forked)
        if is_before and self._is_there(operation) and (counter <= self._how.sure or not self._is_of_another(operation)):
            self._good[replica] = counter
            return
        if self._replica.formers and is_saying(operation):
            # It is of no use any more: what a name before made is made again, too.
            return
        self._is_forked = True
        if counter in self._how.logged and self._is_there(operation):
            # It was logged behind another's of this name.
            self.ids[counter, replica], self._made[replica] = operation[1], counter
            return
        self._make_again(operation)

    def _make_again(self, operation: Operation) -> None:
        made = self._made_shared(operation) or self._made_own(operation)
        if made is None:
            self.lost.append(operation)
        else:
            self.ids[operation[1][0], operation[1][1]] = made[1]
            self._made[made[1][1]] = made[1][0]
            self._note_need(made)

    def _is_there(self, operation: Operation) -> bool:
        """Whether the server has the very same operation."""
        return covers(self._scratch.front(), operation[1]) and self._deliver(operation) == "known"

    def _is_of_another(self, operation: Operation) -> bool:
        """Whether it inserts an element that another of this name inserted alike: at the server something else is put into it at once,
        as another title into a new card."""
        counter, replica = operation[1]
        if operation[4][0] != "insert":
            return False
        [behind] = self._replica.ask("ops", wire.pairs_of({**self._replica.front(), replica: counter}), 1)
        if not behind or behind[0][1][1] != replica or operation[1] not in [key for _, key in behind[0][3][0]]:
            return False
        return covers(self._scratch.front(), behind[0][1]) and not self._is_there(behind[0])

    def _note_need(self, operation: Operation) -> None:
        """Notes what is needed of the old name by who depends on an operation."""
        (counter, replica), known = operation[1], dict(operation[2])
        need = known.get(self._replica.name, 0)
        needs = self._needs.setdefault(replica, [])
        if need > self._good.get(self._replica.name, 0) and not (needs and needs[-1][1] == need):
            needs.append((counter, need))

    def _need_of(self, front: Front) -> int:
        """What is needed of the old name by who depends on all of these."""
        return max((need for replica, last in front.items() for counter, need in self._needs.get(replica, []) if counter <= last), default=0)

    def _made_shared(self, operation: Operation) -> Optional[Operation]:
        """Makes it again as each copy of the store does, where copies may have it."""
        counter, replica = operation[1]
        is_later = replica == self._replica.name and counter > self._how.stored
        if is_later or self._how.name in self._made or not self._is_makeable(operation):
            return None
        session = self._how.session_of(counter, replica)
        text = wire.encoded([operation[1], self._renamed(operation, ""), *([session] if session else [])])
        fresh = name_of("again", text.decode())
        for name in filter(None, (self._shared, fresh)):
            again = self._renamed(operation, name)
            is_there = self._is_there(again)
            if is_there or self.may_send and self._deliver(again) == "applied":
                self._due += [] if is_there else [again]
                self._shared = name
                return again
        return None

    def _made_own(self, operation: Operation) -> Optional[Operation]:
        """Makes it again under the new name."""
        again = self._renamed(operation, self._how.name) if self._is_makeable(operation) else None
        return again if again is not None and self._deliver(again) == "applied" else None

    def _is_makeable(self, operation: Operation) -> bool:
        """Whether each element that it is about is there."""
        path, last = operation[3]
        ids = [key for key in [*(it for _, it in path), last] if isinstance(key, list)]
        return all((it[0], it[1]) in self.ids or covers(self._good, it) for it in ids)

    def _renamed(self, operation: Operation, name: str) -> Operation:
        """The operation under another name, with what it knew."""
        _, _, front, cursor, mutation = operation
        known: Front = dict(front)
        last = dict(self._made)
        for replica, good in self._good.items():
            counter = min(good, known.get(replica, 0))
            last[replica] = max(counter, last.get(replica, 0))
        # What is needed of the old name is that of another who has it.
        own = self._replica.name
        last[own] = max(last.get(own, 0), self._need_of(last))
        return renamed(name, last, cursor, mutation, lambda key: self.ids.get((key[0], key[1]), key))


def renamed(name: str, known: Front, cursor: List[Any], mutation: List[Any], now: Callable[[Id], Id]) -> Operation:
    """An operation of this name that knows of these others, at a cursor whose elements are others now."""
    path, last = cursor
    where = [[kind, now(key) if isinstance(key, list) else key] for kind, key in path]
    pairs = wire.pairs_of(known)
    counter = 1 + max((it for _, it in pairs), default=0)
    return ["op", [counter, name], pairs, [where, now(last) if isinstance(last, list) else last], mutation]


def name_of(word: str, text: str) -> str:
    """A name that is made of a text: of the same one always the same. Four sums of 32 bits are enough where nobody tries to make two
    texts of one name."""
    sums = list(SUMS)
    units = text.encode("utf-16-le")
    for at in range(0, len(units), 2):
        unit = units[at] | units[at + 1] << 8
        for of, multiplier in enumerate(MULTIPLIERS):
            found = (sums[of] ^ unit) * multiplier & 0xFFFFFFFF
            sums[of] = found ^ found >> 15 ^ sums[(of + 3) % 4]
    return f"{word}-{''.join(_in_36(it)[-6:] for it in sums)}"


def _in_36(number: int) -> str:
    found = ""
    while number or len(found) < 7:
        number, digit = divmod(number, 36)
        found = DIGITS[digit] + found
    return found
