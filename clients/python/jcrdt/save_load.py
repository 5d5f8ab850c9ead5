"""A document as lines, one operation each: saved from a server, loaded into one of another name.

usage: save [--progress] ADDRESS DOC FILE     (HOST:PORT of a running server; `-` for standard output)
       load [--progress] ADDRESS DOC FILE     (`-` for standard input)

save writes a new file and puts it in the place of FILE once all is written. load delivers each line. What the
server has already is known, and isn't loaded again. The status is 1 if a line was refused, or waits for
operations that the server doesn't have.
"""

import argparse
from typing import BinaryIO, Iterator, List, Sequence, Tuple

from . import wire
from .progress import Report, add_argument, progress_of, silent
from .protocol import NAME_USED_TWICE
from .replaced_file import replaced
from .session import Session, connected
from .terminal import checked_address, say
from .wire import Id, Refused, encoded

# How many lines are delivered before their replies are read.
BATCH = 256


def save(server: Session, document: str, file: BinaryIO, report: Report = silent) -> int:
    """Writes each logged operation as a line, in an order in which they can be delivered. Returns how many. `report` is called with
    how many were written so far."""
    count = 0
    for operation in server.operations(document):
        file.write(encoded(operation) + b"\n")
        count += 1
        report("operations saved", count, None)
    return count


class Loaded:
    """What came of a load: how many operations were logged, how many the server had, which lines were refused, and
    which operations of the file wait for others."""

    def __init__(self) -> None:
        self.logged, self.known = 0, 0
        self.refused: List[Tuple[int, Exception]] = []
        self.waiting: List[Tuple[Id, List[Id]]] = []


def load(server: Session, document: str, file: BinaryIO, report: Report = silent) -> Loaded:
    """Delivers each line of a file. Blank lines are left out. `report` is called now and then with how many were delivered so
    far."""
    result, came = Loaded(), set()
    for part in _parts(file):
        good: List[Tuple[int, wire.Operation]] = []
        for number, line in part:
            try:
                good.append((number, wire.checked_operation(wire.decoded(line))))
                came.add(tuple(good[-1][1][1]))
            except (ValueError, Refused) as error:
                result.refused.append((number, error))
        for (number, _), reply in zip(good, server.ask_all([["deliver", document, it] for _, it in good])):
            if isinstance(reply, Refused):
                result.refused.append((number, reply))
            elif isinstance(reply, Exception):
                raise reply
            elif len(reply) == 3:
                result.logged += reply[0]
            else:
                result.known += not reply
        if part:
            report("lines delivered", part[-1][0], None)
    result.waiting = [(waiting, missing) for waiting, missing in server.held(document) if tuple(waiting) in came]
    result.refused.sort(key=lambda it: it[0])
    return result


def _parts(file: BinaryIO) -> Iterator[List[Tuple[int, bytes]]]:
    """The lines with their numbers, some at once."""
    part: List[Tuple[int, bytes]] = []
    for number, line in enumerate(file, 1):
        if line.strip():
            part.append((number, line.rstrip(b"\r\n")))
        if len(part) == BATCH:
            yield part
            part = []
    yield part


def report(result: Loaded) -> int:
    """Prints what came of a load. Returns the exit status."""
    say(f"loaded {result.logged} operations, {len(result.refused)} refused, {len(result.waiting)} waiting; "
        f"{result.known} were known")
    for number, cause in result.refused[:1]:
        say(f"line {number}: {cause}")
    if any(isinstance(cause, Refused) and cause.number in NAME_USED_TWICE for _, cause in result.refused):
        say("the server has this name, or other operations of these ids: load them into a new, empty file under a new name, or mend (GUIDE, "
            '"When two starts had one name")')
    for (counter, replica), missing in result.waiting[:1]:
        lacking = ", ".join(f"{number} of {name}" for number, name in missing)
        say(f"{counter} of {replica} waits for {lacking}: load a file that has it, or have the server `forget` "
            f"what waits, since a document holds {wire.HELD_LIMIT}")
    return 1 if result.refused or result.waiting else 0


def main(words: Sequence[str]) -> int:
    parser = argparse.ArgumentParser(prog=words[0], description=__doc__, formatter_class=argparse.RawDescriptionHelpFormatter)
    parser.add_argument("address", metavar="ADDRESS", type=checked_address)
    for name, shown in (("document", "DOC"), ("file", "FILE")):
        parser.add_argument(name, metavar=shown)
    add_argument(parser)
    asked = parser.parse_args(words[1:])
    report_progress = progress_of(words[0], asked.progress)
    with connected(asked.address) as server:
        server.open(asked.document)
        if words[0] == "save":
            with replaced(asked.file) as file:
                count = save(server, asked.document, file, report_progress)
            if asked.file != "-":
                say(f"saved {count} operations")
            return 0
        with open(0 if asked.file == "-" else asked.file, "rb", closefd=asked.file != "-") as lines:
            return report(load(server, asked.document, lines, report_progress))
