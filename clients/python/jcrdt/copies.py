"""Copies of a store that were made while its program went on with it, as by a backup.

Such a copy has operations that the program hasn't sent yet. Whoever opens a store that wasn't closed, or that is a copy, says so by an
operation that changes nothing: it deletes a key that nobody has, which names the replica and its last operation in the copy. So the
program knows its own operations at a server though it didn't send them, and takes what comes behind them for another's, however alike.
The JavaScript package writes and reads the same key, and the same lines in files.
"""

import re
import time
from bisect import bisect_left
from typing import Any, Dict, Iterable, Iterator, List, Mapping, NamedTuple, Optional, Sequence, Set, Tuple

from .generations import MAKER, beginning_of
from .wire import Front, Operation, pairs_of

WORDS = "jcrdt copy of"
# How long a program waits for the next operation of its own that another one sends, in seconds.
WAIT_SECONDS = 5.0
LOOK_SECONDS = 0.1

# How the line of an operation begins.
ID = re.compile(r'\["op",\[([0-9]+),"([a-z0-9-]+)"\]')

# From behind which own operation on one opening of a store lasted, and its word.
Session = Tuple[int, str]


class Opening(NamedTuple):
    """An opening of a store with edits: its word; which file it was, where that is said; the name that made own operations until then,
    and goes on in the file of which this one is a copy; its line, empty where none is written yet; and what the store had by then of its
    names."""

    word: str
    place: Optional[str]
    former: Optional[str]
    line: str
    known: Front


class Clock:
    """What waiting goes by. A test may hand in another one."""

    def now(self) -> float:
        return time.monotonic()

    def pause(self, seconds: float) -> None:
        time.sleep(seconds)


class Own:
    """What is known of a replica's own operations, by their counters: those up to `restored` were in its store when that was opened,
    those up to `sent` were sent, or may have been. Up to `ours` a server has them, and no other program sends under this name. Up to
    `sure` a server's are those of this store, and not another's that are alike."""

    def __init__(self, restored: int, is_filed: bool = False, is_new: bool = False, sessions: Sequence[Session] = (),
                 formers: Optional[Mapping[str, Sequence[Session]]] = None) -> None:
        """`is_filed` says that a store has what is made here, so that copies may have it; `is_new` that the name is of this opening.
        `formers` has names before this one, which go on in stores of which this one is a copy, and their openings."""
        self.restored = self.sent = self.ours = restored
        self.is_filed, self._is_new, self._sessions = is_filed, is_new, list(sessions)
        self.formers = dict(formers or {})
        # Whether nothing has said yet that this is a copy of these.
        self.is_mute = bool(self.formers) and not restored
        # Whether what was restored may be that of a program that goes on, and nothing has said so. Then the operation that has.
        self.is_doubtful, self.said, self.sure = False, 0, 0
        # Those that a server logged when they were sent from here.
        self.logged: Set[int] = set()
        # At a server's document the server's own operations up to this counter were the same.
        self.same: Dict[Tuple[Optional[str], str], int] = {}
        # The last own operation that another program has sent, and when it was first seen.
        self._foreign = (0, 0.0)

    @property
    def is_ours(self) -> bool:
        """Whether what a server has of this name, and is the same here, is this replica's own: a copy that was made before this opening
        can't have sent it, and one that was made since says where it begins."""
        return self.is_filed and (self._is_new or self.said > 0 or self.ours > self.restored)

    def session_of(self, counter: int, name: str = "") -> str:
        """The word of the opening in which an own operation was made, or one of a former name; none where the store is of an older
        package."""
        sessions = self.formers.get(name, self._sessions)
        at = bisect_left([after for after, _ in sessions], counter) - 1
        return sessions[at][1] if at >= 0 else ""

    def key(self, name: str, session: str, last: int) -> str:
        """The key by which this opening says up to where it may be a copy of this replica, whose last operation it has."""
        return " ".join(filter(None, (WORDS, name, str(last), session, self.session_of(last, name))))

    def sayings(self, name: str, front: Front, session: str) -> List[Operation]:
        """The operations that say so of each former name. They are the first ones of this name, and know of no other but of what began
        their generation: without that a hub takes them for those of another one."""
        known = dict.fromkeys(beginning_of(front), 1)
        made: List[Operation] = []
        for former in self.formers:
            key = self.key(former, session, front.get(former, 0))
            last = 1 + max(known.values(), default=0)
            made.append(["op", [last, name], pairs_of(known), [[["m", 0]], key], ["delete"]])
            known[name] = last
        return made

    def copied(self, operation: Operation, name: str) -> int:
        """Up to which operation of this name another program says that it has a copy of this store; 0 if it says nothing. One that was
        copied in another opening than this replica's has others, however alike. A copy under a name of its own says so before all else:
        what knows of others was made again."""
        (_, maker), _, (path, key), (word, *_) = operation[1:5]
        start = f"{WORDS} {name} "
        is_first = maker == name or is_ahead(operation)
        if not is_first or word != "delete" or len(path) != 1 or not isinstance(key, str) or not key.startswith(start):
            return 0
        number, _, origin = (key[len(start):].split(" ") + ["", ""])[:3]
        counter = int(number) if number.isascii() and number.isdigit() else 0
        return counter if origin in ("", self.session_of(counter)) else 0

    def must_wait(self, last: int, clock: Clock) -> bool:
        """Whether another program may be about to send more of what this one has, behind the last one. It has paused then."""
        now = clock.now()
        if last > self._foreign[0]:
            self._foreign = (last, now)
        if not self.is_filed or now - self._foreign[1] >= WAIT_SECONDS:
            return False
        clock.pause(LOOK_SECONDS)
        return True


def is_change(request: Any) -> bool:
    """Whether a request makes an operation."""
    return isinstance(request, list) and request[:1] in ([word] for word in ("assign", "insert", "delete", "add", "inserts", "deletes"))


def is_saying(operation: Operation) -> bool:
    """Whether an operation says that something is a copy."""
    (path, key), (word, *_) = operation[3:5]
    return len(path) == 1 and word == "delete" and isinstance(key, str) and key.startswith(f"{WORDS} ")


def is_ahead(operation: Operation) -> bool:
    """Whether its maker knew of no other but of what began their generation."""
    (_, maker), known = operation[1:3]
    return all(replica == maker or counter == 1 and MAKER.match(replica) for replica, counter in known)


def is_beginning(operation: Operation) -> bool:
    """Whether it began a generation."""
    counter, maker = operation[1]
    return bool(counter == 1 and MAKER.match(maker))


def sayings_first(operations: List[Operation], name: str, count: int) -> List[Operation]:
    """Operations with the first ones of a name in front, which say of so many names that they are copied. A file has them behind what
    they are about, which a server is to have behind them."""
    def is_first(operation: Operation) -> bool:
        (counter, replica), known = operation[1:3]
        return bool(replica == name and counter <= count + len(beginning_of(dict(known))) and is_saying(operation))

    return sorted(operations, key=lambda it: not is_first(it)) if count else operations


def sessions_of(name: str, openings: Iterable[Opening]) -> List[Session]:
    """From behind which operation of a name on each opening lasted."""
    return [(it.known.get(name, 0), it.word) for it in openings]


def formers_among(openings: Sequence[Opening]) -> Dict[str, List[Session]]:
    """The names before, of which the store is a copy, with their openings."""
    return {it.former: sessions_of(it.former, openings[:at]) for at, it in enumerate(openings) if it.former}


def fronts_of(lines: Sequence[str], names: Iterable[str], counts: Sequence[int]) -> Iterator[Front]:
    """What the first so many lines have of these names: of each of the counts, which ascend."""
    known, at = dict.fromkeys(names, 0), 0
    for count in counts:
        for line in lines[at:count]:
            counter, name = id_of(line)
            if counter > known.get(name, counter):
                known[name] = counter
        at = count
        yield dict(known)


def id_of(line: str) -> Tuple[int, str]:
    """The id of an operation's line; (0, "") where it is written otherwise."""
    found = ID.match(line)
    return (int(found[1]), found[2]) if found else (0, "")
