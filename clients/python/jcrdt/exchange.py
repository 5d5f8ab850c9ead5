"""Two servers deliver to each other what the other lacks, until neither has news.

usage: exchange [--progress] ADDRESS ADDRESS DOC     (HOST:PORT of two running servers, with different names)

This is a single meeting; `relay` keeps servers in agreement for as long as it runs. The status is 0 if nothing
was refused, and both show the same document. Where they have different operations of one id, as after a name
was used by two starts, nothing is handed over, and the status is 1.
"""

import argparse
from typing import Dict, List, Optional, Sequence, Tuple

from .chains import Behind, Compared, LogsDiffer, are_two, first_difference, has_all, of_session
from .progress import Report, add_argument, progress_of, silent
from .protocol import NAME_USED_TWICE
from .session import Session, connected
from .terminal import checked_address, say
from .wire import Away, Front, Id, Operation, Refused

# How many operations are delivered before their replies are read.
BATCH = 256
# How often both documents are compared, if somebody edits them meanwhile.
LOOKS = 5
ADVICE = "two starts of a server had one name: keep one side (GUIDE, \"When two starts had one name\")"

RefusedId = Tuple[Id, Refused]


class Pull:
    """What a target lacks of a source."""

    def __init__(self, source: Session, target: Session, document: str, report: Report = silent, before: int = 0,
                 compared: Optional[Compared] = None) -> None:
        """`report` is called with how many were handed over, with those before. Where it is said what was compared, nothing is handed
        over behind something else."""
        self.source, self.target, self.document, self.report, self.before = source, target, document, report, before
        self.compared = compared
        self.logged = 0
        self.refused: List[RefusedId] = []
        # The least refused counter of each replica: what depends on one would wait for ever.
        self.stopped: Front = {}

    def run(self) -> None:
        part: List[Operation] = []
        front = self.target.front(self.document)
        for operation in self.source.operations(self.document, front):
            if self.compared is not None and self.compared.lacks(operation, front):
                # It came there since both were compared.
                check_alike(self.source, self.target, self.document, self.compared)
            part.append(operation)
            if len(part) == BATCH:
                self.deliver(part)
                part = []
        self.deliver(part)

    def deliver(self, operations: List[Operation]) -> None:
        part = [it for it in operations if not self.is_stopped(it)]
        waiting: List[Id] = []
        for operation, reply in zip(part, self.target.ask_all([["deliver", self.document, it] for it in part])):
            counter, replica = operation[1]
            if isinstance(reply, Refused):
                self.refused.append((operation[1], reply))
                self.stopped[replica] = min(counter, self.stopped.get(replica, counter))
            elif isinstance(reply, Exception):
                raise reply
            elif len(reply) == 3:
                self.logged += reply[0]
                if self.compared is not None:
                    self.compared.note(replica, counter)
            elif reply and self.is_stopped(operation):
                waiting.append(operation[1])
        self.target.ask_all([["forget", self.document, it] for it in waiting])
        self.report("operations handed over", self.before + self.logged, None)

    def is_stopped(self, operation: Operation) -> bool:
        """Whether it was refused, or depends on one that was."""
        if not self.stopped:
            return False
        counter, replica = operation[1]
        return any(number >= self.stopped.get(name, number + 1) for name, number in [*operation[2], (replica, counter)])


def pull(source: Session, target: Session, document: str, report: Report = silent, before: int = 0,
         compared: Optional[Compared] = None) -> Tuple[int, List[RefusedId]]:
    """Delivers to the target what it lacks of the source. Returns how many it logged, and what it refused. `report` is called now
    and then with how many were handed over, with those before."""
    work = Pull(source, target, document, report, before, compared)
    work.run()
    return work.logged, work.refused


def check_alike(one: Session, other: Session, document: str, compared: Compared) -> None:
    """Raises LogsDiffer where two servers have different operations of one id. A server that isn't asked for `chains`, as an older one,
    says so later by what it refuses, or by what it shows. Raises Away where one was killed meanwhile, behind a hub: what differs by that
    is no difference."""
    fronts = one.front(document), other.front(document)
    found = first_difference(of_session(one, document), of_session(other, document), *fronts, compared)
    if found is None:
        return
    now = one.front(document), other.front(document)
    here: Behind = lambda front: one.operations(document, front)
    there: Behind = lambda front: other.operations(document, front)
    if not all(map(has_all, now, fronts)) or not are_two(here, there, *now, found):
        compared.forget()
        raise Away(f"{document}: a server has lost what it had a moment ago: exchange again")
    raise LogsDiffer(*found)


def exchange(one: Session, other: Session, document: str, report: Report = silent) -> Tuple[int, List[RefusedId]]:
    """Pulls both ways until a round logs nothing. Returns how many were logged, and what was refused last. `report` is called now
    and then with how many were handed over so far. Raises LogsDiffer, before anything is handed over, where both have different
    operations of one id."""
    compared = Compared()
    check_alike(one, other, document, compared)
    total = 0
    while True:
        to_other, refused_there = pull(one, other, document, report, total, compared)
        to_one, refused_here = pull(other, one, document, report, total + to_other, compared)
        total += to_other + to_one
        if to_other + to_one == 0:
            return total, refused_there + refused_here


def verdict(one: Session, other: Session, document: str, refused: Sequence[RefusedId] = ()) -> str:
    """What came of an exchange. Servers of one name may have equal fronts and different documents."""
    for _ in range(LOOKS):
        (front, shown), (front_there, shown_there) = looked_at(one, document), looked_at(other, document)
        if one.front(document) == front:
            break
    if front != front_there:
        return "the fronts differ"
    if shown != shown_there:
        return "the fronts agree, and the documents differ"
    return "the fronts agree, and some were refused" if refused else "the fronts agree"


def looked_at(server: Session, document: str) -> Tuple[Front, object]:
    """The front, and what is shown with it."""
    while True:
        front, shown = server.front(document), server.show(document, [0])
        if server.front(document) == front:
            return front, shown


def met(one: Session, other: Session, document: str, report: Report) -> bool:
    """Exchanges, and says what came of it. Returns whether all is well."""
    try:
        total, refused = exchange(one, other, document, report)
    except LogsDiffer as error:
        say(f"handed over 0: {error}")
        say(ADVICE)
        return False
    kinds: Dict[str, List[RefusedId]] = {}
    for it in refused:
        kinds.setdefault(str(it[1]), []).append(it)
    for cause, found in kinds.items():
        counter, replica = found[0][0]
        more = f", and {len(found) - 1} more" if len(found) > 1 else ""
        say(f"refused: {counter} of {replica}: {cause}{more}")
    result = verdict(one, other, document, refused)
    say(f"handed over {total}, refused {len(refused)}; {result}")
    if result.endswith("documents differ") or any(cause.number in NAME_USED_TWICE for _, cause in refused):
        say(ADVICE)
    return result == "the fronts agree"


def main(words: Sequence[str]) -> int:
    parser = argparse.ArgumentParser(prog="exchange", description=__doc__, formatter_class=argparse.RawDescriptionHelpFormatter)
    parser.add_argument("addresses", nargs=2, metavar="ADDRESS", type=checked_address)
    parser.add_argument("document", metavar="DOC")
    add_argument(parser)
    asked = parser.parse_args(words)
    with connected(asked.addresses[0]) as one, connected(asked.addresses[1]) as other:
        for server in (one, other):
            server.open(asked.document)
        is_well = met(one, other, asked.document, progress_of("exchange", asked.progress))
        for server in (one, other):
            server.quit()
    return 0 if is_well else 1
