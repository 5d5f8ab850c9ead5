"""How many changes one request makes: as many as memory surely suffices for.

The library has made room for a text of ROOM bytes before it changes anything. A longer text takes memory once the changes are made: where that
lacks, nobody learns which. So a run is cut into requests whose answers, the reply and the line of each operation, surely have no more."""

from typing import Any, Iterable, Iterator, List, Sequence, Tuple

from . import wire

# The bytes of a text for which the library has memory before it changes anything.
ROOM = 65_536
# The bytes of the lines of a run: the reply, ["applied",COUNT,DROPPED,ID], has fewer than 128.
LINES = ROOM - 128


def length_of(own: str, others: Iterable[str], path: List[Any], mutation: List[Any]) -> int:
    """The bytes that the line of an operation has at most, its newline included. No counter has more digits than a full log's. Its front names
    the replicas at most that have operations, or held ones, which a change may release. Its element is of one of these."""
    names, last = sorted({own, *others}), wire.OPERATION_LIMIT
    front = [[name, last] for name in names]
    return len(wire.encoded(["op", [last, own], front, [path, [last, max(names, key=len)]], mutation])) + 1


def cut(lengths: Sequence[int]) -> Iterator[Tuple[int, int]]:
    """Where each run begins and ends, so that lines of these lengths fit beside the reply. One that doesn't fit comes alone."""
    begin, left = 0, LINES
    for at, length in enumerate(lengths):
        if length > left and at > begin:
            yield begin, at
            begin, left = at, LINES
        left -= length
    yield begin, len(lengths)
