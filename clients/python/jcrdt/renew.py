"""Documents that fill up: counts what a document has, and puts what it shows into a new one.

usage: renew count SERVER.. --doc DOC
       renew put SERVER.. --doc DOC --into SERVER --new-doc DOC [--conflicts keep|last|first] [--force]
                 [--map FILE] [--front FRONT]
       renew since SERVER.. --doc DOC --front FRONT [--map FILE] [--lines FILE]
       renew again SERVER.. --doc DOC --into SERVER --new-doc DOC --map FILE --lines FILE

SERVER is HOST:PORT. A document takes 100,000 operations, of 256 replicas at most. Nothing is ever taken out of
it. Name all servers that have the document: what they have together may be more than one of them takes.

count   Prints how many of both each server has, and all together, and how many a new document would need. From
        half of a limit on it is time to renew: the status is 3. It is 4 if what the document shows is itself
        half of a limit: then delete some of it, keep texts as lines in place of characters, or divide it into
        several documents, and use --force if that can't be.
put     Makes what the document shows anew in an empty one: lists in their order, counters with their sums.
        Conflicts are kept by assignments of replicas that don't know of each other (keep), or settled: `last`
        takes the value that is last in the order map, list, scalars by their ids, `first` the first. It compares
        both documents, and prints how to change over. One that was interrupted is continued by the same
        command with the --front that it printed. Only the first of several at once goes on. It refuses by status
        4 what would be half full, but for --force. --map writes a line [OLD,NEW] for each element of a list, with
        its ids: a replica makes edits that the old document refused again by it.
since   Lists what was done to the old document behind a front, and prints the front to ask with next. With the
        --map of put, elements of lists have the ids of the new document. --lines writes the operations to a file,
        one a line as `save` does and with their old ids, for `again`, and for `remakeIn` of the JavaScript package.
again   Makes the operations of such a file again in the new document, and adds the elements that it inserts to the
        map. The same file makes nothing twice, also where it was interrupted. It lists what can't be made, since
        its element isn't in the new document.

With --progress, and always at a terminal, standard error has a line now and then.

Status 0: all is well. 1: an error. 2: a wrong command line.
"""

import argparse
import contextlib
import hashlib
import json
from typing import Any, Dict, Iterable, Iterator, List, Optional, Sequence, Tuple

from . import wire
from .again import Again, known_by, name_of
from .facts import Branches, shown
from .replaced_file import replaced
from .history import id_text, readable
from .renewal import Renewal, settled_branches, without_ids
from .session import Session, connected
from .progress import Report, add_argument, progress_of, silent
from .terminal import checked_address, say
from .wire import Front, Id, Operation, Refused, covers, encoded, pairs_of

HALF_OPERATIONS, HALF_REPLICAS = wire.OPERATION_LIMIT // 2, wire.REPLICA_LIMIT // 2
# It is time to renew; what is shown is too much for that.
RENEW_SOON, TOO_MUCH = 3, 4
# How many operations are delivered before their replies are read.
BATCH = 256


class TooMuch(ValueError):
    """What a document shows is half a document or more."""


class Union:
    """The operations of a document that several servers have together, and the front of each server."""

    def __init__(self, servers: Sequence[str], document: str, known: Optional[Front] = None, report: Report = silent) -> None:
        """`report` is called with how many operations were read so far."""
        self.operations: List[Operation] = []
        self.front: Front = dict(known or {})
        self.fronts: Dict[str, Front] = {}
        for address in servers:
            with opened(address, document) as server:
                for operation in server.operations(document, self.front):
                    self.operations.append(operation)
                    self.front[operation[1][1]] = operation[1][0]
                    report("operations read", len(self.operations), None)
                self.fronts[address] = server.front(document)


@contextlib.contextmanager
def opened(address: str, document: str) -> Iterator[Session]:
    with connected(address) as session:
        try:
            session.open(document)
        except Refused as cause:
            raise ValueError(f"{address}: {document}: {cause}") from None
        yield session


def amount(count: int, most: int, what: str) -> str:
    full = " (FULL)" if count >= most else " (half or more)" if 2 * count >= most else ""
    return f"{count} {what} of {most}{full}"


def line_of(front: Front) -> str:
    return encoded(pairs_of(front)).decode()


def renewal_of(union: Union, document: str, rule: str) -> Tuple[Branches, Renewal]:
    """What the operations show, settled by the rule, and what makes it. The name is made of what it is made from, so a
    second one is the same."""
    branches = shown(union.operations)
    if rule != "keep":
        branches = settled_branches(branches, rule)
    source = encoded([document, pairs_of(union.front), rule])
    return branches, Renewal(f"renew-{hashlib.sha256(source).hexdigest()[:8]}", branches)


def check_size(renewal: Renewal, force: bool) -> None:
    """Raises TooMuch for what would be half of a limit or more, and with `force` for what is all of it."""
    count, makers = len(renewal.operations), renewal.count
    if count >= (wire.OPERATION_LIMIT if force else HALF_OPERATIONS):
        raise TooMuch(f"what it shows takes {count} operations of {wire.OPERATION_LIMIT} in a new document: delete some of it, keep "
                      "texts as lines in place of characters, or divide it into several documents"
                      + ("" if force or count >= wire.OPERATION_LIMIT else "; --force does it all the same"))
    if makers >= (wire.REPLICA_LIMIT if force else HALF_REPLICAS):
        raise TooMuch(f"so many values in conflict at one place take {makers} replicas of {wire.REPLICA_LIMIT}: settle them, or use "
                      "--conflicts last" + ("" if force or makers >= wire.REPLICA_LIMIT else "; --force does it all the same"))


def count(asked: argparse.Namespace) -> int:
    """Prints a line for each server, one for all, and one for a new document. Returns the exit status."""
    union, full = Union(asked.servers, asked.doc, None, progress_of("renew", asked.progress)), False
    for name, front in [*union.fronts.items(), ("all together", union.front)]:
        operations = sum(covers(front, it[1]) for it in union.operations)
        say(f"{name}: {amount(operations, wire.OPERATION_LIMIT, 'operations')}, "
            f"{amount(len(front), wire.REPLICA_LIMIT, 'replicas')}")
        full = full or 2 * operations >= wire.OPERATION_LIMIT or 2 * len(front) >= wire.REPLICA_LIMIT
    _, renewal = renewal_of(union, asked.doc, "keep")
    say(f"a new document: {amount(len(renewal.operations), wire.OPERATION_LIMIT, 'operations')}, "
        f"{amount(renewal.count, wire.REPLICA_LIMIT, 'replicas')}")
    try:
        check_size(renewal, False)
    except TooMuch as error:
        say(f"a new document would be half full at once: {error}")
        return TOO_MUCH
    if full:
        say("it is time to put it into a new document: renew put")
    return RENEW_SOON if full else 0


def put(asked: argparse.Namespace) -> int:
    report = progress_of("renew", asked.progress)
    union = Union(asked.servers, asked.doc, None, report)
    if asked.front is not None:
        if not all(counter <= union.front.get(replica, 0) for replica, counter in asked.front.items()):
            raise ValueError("these servers lack operations that the front covers")
        union.operations = [it for it in union.operations if covers(asked.front, it[1])]
        union.front = asked.front
    branches, renewal = renewal_of(union, asked.doc, asked.conflicts)
    check_size(renewal, asked.force)
    with opened(asked.into, asked.new_doc) as target:
        check_target(target, asked, renewal)
        say(f"if this is interrupted, run it again with --front '{line_of(union.front)}'")
        deliver(target, asked.new_doc, renewal.operations, report)
        made = target.show(asked.new_doc, [0])
    if without_ids(made) != without_ids(branches):
        say(f"old: {json.dumps(wire.plain(branches))}")
        say(f"new: {json.dumps(wire.plain(made))}")
        raise ValueError("the new document shows something else")
    if asked.map:
        with replaced(asked.map) as file:
            file.writelines(encoded([old, new]) + b"\n" for old, new in renewal.elements)
    say(f"{asked.new_doc}: {len(renewal.operations)} operations of {renewal.count} replicas; it shows what {asked.doc} shows")
    change_over(asked, union.front)
    return 0


def check_target(target: Session, asked: argparse.Namespace, renewal: Renewal) -> None:
    """Makes sure that the document is empty or this renewal has begun to fill it, and that no other one comes in
    between: the first operation there is to be its own, which changes nothing."""
    others = [it for it in target.front(asked.new_doc) if not it.startswith(renewal.name + "-")]
    if not others:
        deliver(target, asked.new_doc, renewal.operations[:1])
        first = target.ask("ops", asked.new_doc, [], 1)[0][0]
        others = [] if first == renewal.operations[0] else [first[1][1]]
    if others and others[0].startswith("renew-"):
        raise ValueError(f"{asked.new_doc} at {asked.into} isn't empty: another renewal, {others[0].rpartition('-')[0]}, fills it "
                         "or has filled it: continue that one by the --front that it printed")
    if others:
        raise ValueError(f"{asked.new_doc} at {asked.into} isn't empty: {others[0]} has written to it")


def deliver(server: Session, document: str, operations: List[Operation], report: Report = silent) -> None:
    for at in range(0, len(operations), BATCH):
        part = operations[at:at + BATCH]
        for operation, reply in zip(part, server.ask_all([["deliver", document, it] for it in part])):
            if isinstance(reply, wire.Lost) or isinstance(reply, wire.Away):
                raise reply
            if isinstance(reply, Exception) or reply and len(reply) != 3:
                raise ValueError(f"{id_text(operation[1])} isn't taken: {reply}")
        report("operations delivered", at + len(part), len(operations))


def change_over(asked: argparse.Namespace, front: Front) -> None:
    say("To change over while others edit:")
    say(f"1. Start all servers that have {asked.doc} with {asked.new_doc} as well, and let a relay bring it to them: relay .. "
        f"--doc {asked.new_doc}.")
    say(f"2. Let all clients write to {asked.new_doc}. Until the last one does, {asked.doc} is edited still.")
    say(f"3. See what was done to {asked.doc} meanwhile, and do it again in {asked.new_doc}: --lines FILE writes the operations, and renew again makes "
        "them there:")
    say(f"   {since_line(asked, front)}")
    say(f"4. Ask again with the front that it prints. When it lists nothing, start the servers without {asked.doc}. Its rows "
        "stay in their files.")


def since_line(asked: argparse.Namespace, front: Front) -> str:
    return f"python3 -m jcrdt renew since {' '.join(asked.servers)} --doc {asked.doc} --front '{line_of(front)}'"


def since(asked: argparse.Namespace) -> int:
    """Lists the operations that the front doesn't cover, and how many they are, and writes them to a file."""
    union, ids = Union(asked.servers, asked.doc, asked.front, progress_of("renew", asked.progress)), ids_of(asked.map) if asked.map else {}
    if asked.lines:
        with replaced(asked.lines) as file:
            file.writelines(encoded(operation) + b"\n" for operation in union.operations)
    for operation in union.operations:
        say(f"{id_text(operation[1]):<16} {readable(in_new_document(operation, ids))}")
    say(f"{len(union.operations)} operations since then" + (". Ask next with:" if union.operations else ""))
    if union.operations:
        say(f"   {since_line(asked, union.front)}")
    return 0


def again(asked: argparse.Namespace) -> int:
    """Makes the operations of a file again in the new document."""
    report = progress_of("renew", asked.progress)
    with open(asked.lines, "rb") as file:
        lines = [wire.checked_operation(wire.decoded(line)) for line in file if line.strip()]
    union, name = Union(asked.servers, asked.doc, None, report), name_of(asked.new_doc, lines)
    missing = [it for it in lines if not covers(union.front, it[1])]
    if missing:
        raise ValueError(f"these servers lack {id_text(missing[0][1])} of {asked.lines}")
    with opened(asked.into, asked.new_doc) as target:
        known, there = known_by(target, asked.new_doc, name), list(target.operations(asked.new_doc))
        work = Again(name, known, ids_of(asked.map), union.operations, there)
        for operation in lines:
            work.take(operation)
        deliver(target, asked.new_doc, work.operations, report)
    add_to_map(asked.map, work.elements)
    for operation in work.lost:
        say(f"{id_text(operation[1]):<16} {readable(operation)}: its element isn't in {asked.new_doc}, or was deleted there")
    say(f"{asked.new_doc}: {len(work.operations)} of {len(lines)} operations were made again, {len(work.lost)} can't be")
    return 0


def add_to_map(path: str, elements: Iterable[Tuple[Id, Id]]) -> None:
    """Adds the lines of elements that a map doesn't have yet."""
    with open(path, "rb") as file:
        lines = file.read().splitlines()
    known = set(lines)
    lines += [it for it in (encoded(list(pair)) for pair in elements) if it not in known]
    with replaced(path) as written:
        written.writelines(line + b"\n" for line in lines)


def ids_of(path: str) -> Dict[Tuple[int, str], Id]:
    """The ids in the new document, by those in the old one."""
    with open(path, encoding="utf-8") as file:
        return {(old[0], old[1]): new for old, new in map(json.loads, file)}


def in_new_document(operation: Operation, ids: Dict[Tuple[int, str], Id]) -> Operation:
    """The operation with the elements of the new document in its cursor, where they are known."""
    def new(key: Any) -> Any:
        return ids.get((key[0], key[1]), key) if isinstance(key, list) else key

    word, operation_id, front, (path, last), mutation = operation
    return [word, operation_id, front, [[[kind, new(key)] for kind, key in path], new(last)], mutation]


def front_of(text: str) -> Front:
    try:
        return wire.checked_front(json.loads(text))
    except (ValueError, Refused):
        raise argparse.ArgumentTypeError(f"{text} is no front") from None


def parsed(words: Sequence[str]) -> argparse.Namespace:
    raw = argparse.RawDescriptionHelpFormatter
    parser = argparse.ArgumentParser(prog="renew", description=__doc__, formatter_class=raw)
    parts = parser.add_subparsers(dest="act", required=True)
    counting, putting, late, remaking = (parts.add_parser(it, description=__doc__, formatter_class=raw)
                                         for it in ("count", "put", "since", "again"))
    for part in (counting, putting, late, remaking):
        part.add_argument("servers", nargs="+", metavar="SERVER", type=checked_address)
        part.add_argument("--doc", required=True)
        add_argument(part)
    for part in (putting, remaking):
        part.add_argument("--into", required=True, metavar="SERVER", type=checked_address)
        part.add_argument("--new-doc", required=True, metavar="DOC")
    putting.add_argument("--conflicts", choices=("keep", "last", "first"), default="keep")
    putting.add_argument("--force", action="store_true")
    for part in (putting, late):
        part.add_argument("--map", metavar="FILE")
    putting.add_argument("--front", type=front_of)
    late.add_argument("--front", required=True, type=front_of)
    late.add_argument("--lines", metavar="FILE")
    for word in ("--map", "--lines"):
        remaking.add_argument(word, required=True, metavar="FILE")
    return parser.parse_args(words)


def main(words: Sequence[str]) -> int:
    asked = parsed(words)
    try:
        return {"count": count, "put": put, "since": since, "again": again}[asked.act](asked)
    except TooMuch as error:
        say(f"{asked.doc}: {error}")
        return TOO_MUCH
