"""The exchange of a replica with a server. It is sure at first that both mean the same by the replica's own ids."""

from itertools import zip_longest
from typing import TYPE_CHECKING, Iterator, List, NamedTuple, Optional, Tuple

from .chains import Compared as ComparedLogs
from .chains import Behind, Difference, LogsDiffer, are_two, first_difference, has_all, is_same, of_replica, of_session
from .copies import Own, sayings_first
from .protocol import NAME_USED_TWICE, NUMBERS
from .session import Session
from .wire import Away, Front, Id, Lost, Operation, Refused

if TYPE_CHECKING:
    from .replica import Replica

# How many operations are delivered before their replies are read.
BATCH = 256
# What holds for all that is delivered.
FOR_ALL = frozenset(NUMBERS[name] for name in ("log-full", "no-memory"))


class Differs(LogsDiffer):
    """Replica and server have different operations of one id: another store or server has used this name, as a file that was copied,
    or an older one that was put back. `replica` is the name, `counter` that of the first such id. Nothing was exchanged, and
    `Replica.remake` goes on under a new name. A server of before, which isn't asked for `chains`, says of other names what it refuses:
    then all else was exchanged."""

    def __init__(self, replica: str, counter: int, is_own: bool) -> None:
        super().__init__(replica, counter)
        self.is_own = is_own

    def __str__(self) -> str:
        if self.is_own:
            return (f"from {self.counter} on the server has other operations of {self.replica} than this replica: another store has its "
                    "name. What was made here is here still: go on under a new name (remake)")
        return f"from {self.counter} on the server has other operations of {self.replica} than are here: two have this name"


class Compared(NamedTuple):
    """The server's operations of the own name beside those that are here: up to which counter they are the same, the first one that
    differs, the first one that wasn't sent from here, up to which one a copy of the store says that it has them, and the last one."""

    same: int
    differs: Optional[int]
    unsent: Optional[int]
    copied: int
    last: int


class Exchange:
    """One exchange. `came` and `went` are how many operations were logged, here and there."""

    def __init__(self, replica: "Replica", client: Session, document: str, own: Own, logs: Optional[ComparedLogs] = None) -> None:
        """`logs` is up to where the logs of this replica and of this session's document were the same before."""
        self.replica, self.client, self.document, self.name = replica, client, document, replica.name
        self.own, self.place, self.logs = own, (client.address, document), logs or ComparedLogs()
        self.came = self.went = 0
        # What was heard of copies, and behind which operations they may say more.
        self.said = 0
        self.heard: Front = {}
        # Whether the server has logged an own operation in this exchange; and whether another program sends such ones meanwhile.
        self.is_logging = self.is_disturbed = False
        self.refused: List[Tuple[Id, Refused]] = []

    def run(self) -> None:
        self.client.open(self.document)
        is_done = False
        while not is_done:
            self.is_disturbed, self.refused = False, []
            theirs = self.client.front(self.document)
            self.check_own(theirs)
            self.check_all(theirs)
            if any(theirs.get(it, 0) < last for it, last in self.replica.front().items() if it in self.own.formers):
                self.replica.say_formers()
            if self.replica.is_doubtful and theirs.get(self.name, 0) < self.own.restored:
                self.replica.say()
            self.take(theirs)
            self.give(theirs)
            is_done = not self.is_disturbed and self.has_all()

    def check_own(self, theirs: Front) -> None:
        """Raises Differs, unless the server's operations of the own name are those of this replica: that were sent from here, or by a
        copy of its store that was made while it was open. Waits while such a copy may be about to send more."""
        while True:
            found = self.compared(theirs)
            if found.last < theirs.get(self.name, 0):
                raise self.has_lost()
            is_ours = self.own.is_ours and found.same > self.own.restored
            sure = found.same if is_ours else min(found.same, found.copied)
            self.own.sure = max(sure, self.own.sure)
            if sure > self.own.sent:
                self.own.sent, self.own.ours = sure, max(sure, self.own.ours)
            self.own.same.setdefault(self.place, 0)
            if theirs.get(self.name, 0):
                self.own.same[self.place] = min(found.same, self.own.sent)
            if found.same <= self.own.sent and found.differs is None:
                return
            last = theirs[self.name]
            if found.differs is not None or not self.own.must_wait(last, self.replica.clock):
                of_another = max(found.unsent or 0, self.own.sent + 1) if found.same > self.own.sent else found.differs
                raise Differs(self.name, of_another or last, True)
            theirs.clear()
            theirs.update(self.client.front(self.document))

    def check_all(self, theirs: Front) -> None:
        """Raises Differs where the server has other operations of some replica than are here: of others first, since a new name mends what
        is of this one alone."""
        front = self.replica.front()
        self.logs.look(front, theirs)
        differs = self.difference(front, theirs)
        if differs is not None and self.replica.is_own_name(differs.replica):
            others = {name: last for name, last in front.items() if not self.replica.is_own_name(name)}
            differs = self.difference(others, theirs) or differs
        if differs is not None:
            raise Differs(differs.replica, differs.counter, self.replica.is_own_name(differs.replica))

    def difference(self, front: Front, theirs: Front) -> Optional[Difference]:
        """The first operation of what this front has that the server has another one of."""
        found = first_difference(of_replica(self.replica), of_session(self.client, self.document), front, theirs, self.logs)
        if found is not None:
            self.check_loss(theirs, found)
        return found

    def check_loss(self, before: Front, found: Difference) -> None:
        """Raises Away where the server has less than it had before, or had less when it was asked for digests, and got it again: it was
        killed in between. What differs by that is no difference."""
        now = self.client.front(self.document)
        there: Behind = lambda front: self.client.operations(self.document, front)
        if not has_all(now, before) or not are_two(self.replica.operations, there, self.replica.front(), now, found):
            raise self.has_lost()

    def has_lost(self) -> Away:
        self.logs.forget()
        return Away(f"{self.document}: the server has lost what it had a moment ago: sync again")

    def compared(self, theirs: Front) -> Compared:
        """Compares the last own operation that was the same before, and all behind it."""
        last = theirs.get(self.name, 0)
        same = max(0, min(self.own.same.get(self.place, 0), last) - 1)
        mine = (it for it in self.own_behind(same) if it[1][0] <= last)
        others = self.client.operations(self.document, {**theirs, self.name: same})
        there = (it for it in others if it[1][1] == self.name and it[1][0] <= last)
        differs, unsent, copied, there_last = None, None, 0, 0
        for one, other in zip_longest(mine, there):
            if other is not None:
                there_last = other[1][0]
                copied = max(copied, self.own.copied(other, self.name))
            if other is not None and other[1][0] > self.own.sent:
                unsent = unsent or other[1][0]
            if differs is None and one is not None and other is not None and is_same(one, other):
                same = one[1][0]
            elif differs is None:
                differs = min(it[1][0] for it in (one, other) if it is not None)
        return Compared(same, differs, unsent, copied if unsent is None else max(copied, self.hear()), there_last)

    def hear(self) -> int:
        """Up to which own operation copies of the store say that they have them under names of their own."""
        sides: Tuple[Behind, Behind] = (self.replica.operations, lambda front: self.client.operations(self.document, front))
        for side in sides:
            for it in side(dict(self.heard)):
                counter, maker = it[1]
                self.heard[maker] = counter
                # What is of this name says that this one is a copy, or is heard where it is compared.
                if maker != self.name:
                    self.said = max(self.said, self.own.copied(it, self.name))
        return self.said

    def forked_at(self) -> Optional[int]:
        """From which own counter on the server has, or may have, operations of another of this name."""
        self.client.open(self.document)
        try:
            self.check_own(self.client.front(self.document))
        except Differs as found:
            return found.counter
        return None

    def own_behind(self, counter: int) -> Iterator[Operation]:
        """The own operations behind a counter."""
        return (it for it in self.replica.operations({**self.replica.front(), self.name: counter}) if it[1][1] == self.name)

    def take(self, theirs: Front) -> None:
        """Delivers here what the server has, but for what depends on a refused one."""
        barred, front = Barred(), self.replica.front()
        for operation in self.client.operations(self.document, front):
            counter, replica = operation[1]
            if self.logs.lacks(operation, front):
                # It came there since the front was read.
                self.check_all({**theirs, **{name: max(last, theirs.get(name, 0)) for name, last in operation[2]}})
            if operation in barred:
                continue
            try:
                logged = self.replica.deliver(operation)
                self.came += logged
                theirs[replica] = max(counter, theirs.get(replica, 0))
                if logged:
                    self.logs.note(replica, counter)
            except Refused as refusal:
                self.note(operation, refusal)
                barred.add(operation, True)
                if refusal.number in FOR_ALL:
                    return

    def note(self, operation: Operation, refusal: Refused) -> None:
        counter, replica = operation[1]
        if replica == self.name and refusal.number in NAME_USED_TWICE:
            raise Differs(self.name, counter, True)
        self.refused.append((operation[1], refusal))

    def give(self, theirs: Front) -> None:
        """Delivers to the server what it lacks, once it is stored."""
        lacking = sayings_first(self.replica.operations(theirs), self.name, len(self.own.formers))
        self.replica.save_if_stored()
        barred, at = Barred(), 0
        while at < len(lacking):
            end = self.end_of_part(lacking, at)
            if not self.give_part(lacking[at:end], barred):
                return
            at = end

    def end_of_part(self, operations: List[Operation], at: int) -> int:
        """Up to where operations are sent before their replies are read. Own ones go one by one until the server has logged one that
        no other program can have sent: of two copies of a store that send at once, one is refused before more of it is there."""
        end = at
        while end < min(len(operations), at + BATCH):
            counter, replica = operations[end][1]
            is_sure = self.is_logging if counter <= self.own.restored else self.own.ours > self.own.restored
            if replica == self.name and not is_sure:
                return end if end > at else end + 1
            end += 1
        return end

    def give_part(self, operations: List[Operation], barred: "Barred") -> bool:
        """Delivers some operations, but for what depends on a refused one. Returns whether more is to be sent."""
        part = [it for it in operations if it not in barred]
        before = self.own.sent
        self.own.sent = max([before, *(it[1][0] for it in part if it[1][1] == self.name)])
        replies = self.client.ask_all([["deliver", self.document, it] for it in part])
        self.own.logged.update(it[1][0] for it, reply in zip(part, replies) if it[1][1] == self.name and applied_count(reply) > 0)
        held: List[Id] = []
        is_over = False
        for operation, reply in zip(part, replies):
            is_own = operation[1][1] == self.name
            if isinstance(reply, Refused):
                self.note(operation, reply)
                # Where the server has another one of that id, what others made goes there all the same; own ones are made again.
                barred.add(operation, reply.number not in NAME_USED_TWICE or operation[1][1] in self.own.formers)
                is_over = is_over or reply.number in FOR_ALL
            elif isinstance(reply, Exception):
                raise reply
            elif reply and len(reply) != 3:
                held.append(operation[1])
            elif is_own:
                is_over = self.note_own(operation[1][0], before, applied_count(reply) > 0) or is_over
            self.went += applied_count(reply)
            if applied_count(reply):
                self.logs.note(operation[1][1], operation[1][0])
        # What depends on a refused one would wait for ever.
        self.client.ask_all([["forget", self.document, it] for it in held])
        return not is_over

    def note_own(self, counter: int, before: int, is_new: bool) -> bool:
        """Notes that the server has an own operation. Returns whether another program has sent it."""
        if not is_new and counter > before and not self.own.is_ours:
            if not self.own.is_filed:
                raise Differs(self.name, counter, True)
            self.own.sent, self.is_disturbed = min(self.own.sent, max(before, counter - 1)), True
            return True
        self.own.same[self.place] = counter
        if is_new:
            self.is_logging, self.own.ours = True, max(self.own.ours, counter)
        return False

    def has_all(self) -> bool:
        """Whether the own operations are all there, and no more of them. Raises for what was refused."""
        for (counter, replica), refusal in self.refused:
            if refusal.number in NAME_USED_TWICE:
                raise Differs(replica, counter, self.replica.is_own_name(replica))
        for _, refusal in self.refused:
            raise refusal
        there = self.client.front(self.document).get(self.name, 0)
        if there < self.own.sent:
            raise Lost(f"{self.document}: the server lacks operations of {self.name} from {there + 1} on: sync again")
        return there == self.own.sent


def applied_count(reply: object) -> int:
    """How many operations the server has logged by one that was delivered."""
    return int(reply[0]) if isinstance(reply, list) and len(reply) == 3 else 0


class Barred:
    """Operations that were refused: what is behind one of its replica isn't delivered, nor what depends on it where it is lacking."""

    def __init__(self) -> None:
        self.refused: Front = {}
        self.lacking: Front = {}

    def add(self, operation: Operation, is_lacking: bool) -> None:
        counter, replica = operation[1]
        for front in (self.refused, self.lacking) if is_lacking else (self.refused,):
            front[replica] = min(counter, front.get(replica, counter))

    def __contains__(self, operation: Operation) -> bool:
        counter, replica = operation[1]
        return (counter >= self.refused.get(replica, counter + 1)
                or any(number >= self.lacking.get(name, number + 1) for name, number in operation[2]))
