"""What a reply says: the errors that it may be, and the parts of one that several requests have."""

from typing import Any, List, Sequence, Union

from .protocol import NUMBERS, REQUESTS
from .wire import Chain, Front, Id, Lost, Misbehaved, Operation, Refused, checked_front, checked_operation, decoded_reply, refusal

# What stands behind the word of a reply, or the error that it is.
Reply = Union[List[Any], Exception]


def rest_of(line: bytes, request_word: str) -> List[Any]:
    """What stands behind the word of a reply. Raises Refused, Away and Lost for `["no",..]`, and Misbehaved for what no
    server answers to such a request."""
    try:
        reply = decoded_reply(line)
    except ValueError as error:
        raise Misbehaved(f"a reply that is none: {line[:60]!r}: {error}") from None
    if reply[0] == "no":
        raise refusal(reply, request_word)
    if request_word in REQUESTS and reply[0] not in REQUESTS[request_word].replies:
        raise Misbehaved(f"a reply to another request than {request_word}: {line[:60]!r}")
    return reply[1:]


def reply_of(line: bytes, request: Sequence[Any]) -> Reply:
    """As `rest_of`, but an error is returned. Raises Misbehaved."""
    try:
        return rest_of(line, str(request[0]) if request else "")
    except Misbehaved:
        raise
    except (Refused, OSError) as error:
        return error


def good(replies: Sequence[Reply]) -> List[List[Any]]:
    """The replies, or the first error among them raised."""
    found: List[List[Any]] = []
    for reply in replies:
        if isinstance(reply, Exception):
            raise reply
        found.append(reply)
    return found


def id_in(rest: List[Any]) -> Id:
    """The id of a change, of `applied`."""
    operation_id: Id = rest[2]
    return operation_id


def logged_in(rest: List[Any]) -> int:
    """How many operations a delivery logged: 0 for `known` and `held`."""
    return int(rest[0]) if len(rest) == 3 else 0


def front_in(rest: List[Any]) -> Front:
    """The front of a reply. Raises Misbehaved for what is none."""
    try:
        [pairs] = rest
        return checked_front(pairs)
    except (ValueError, Refused):
        raise Misbehaved("a front that is none") from None


def chains_in(rest: List[Any]) -> List[Chain]:
    """The replicas, counters and digests of a reply to `chains`. Raises Misbehaved for what is none."""
    try:
        [chains] = rest
        return [(str(name), int(counter), str(digest)) for name, counter, digest in chains]
    except (TypeError, ValueError):
        raise Misbehaved("chains that are none") from None


def page_in(rest: List[Any], known: Front) -> List[Operation]:
    """The operations of a reply to `ops` behind a front, and moves the front to their end. Raises Misbehaved for what is
    no operation, or comes twice."""
    page: List[Operation] = rest[0]
    for operation in page:
        try:
            counter, replica = checked_operation(operation)[1]
        except Refused as cause:
            raise Misbehaved(f"the server gives what is no operation: {cause}") from None
        if counter <= known.get(replica, 0):
            raise Misbehaved(f"the server gives {counter} of {replica} again")
        known[replica] = counter
    return page


def checked_beginning(line: bytes) -> None:
    """Looks at the reply to the first request, `["version"]`. Raises Lost if that is no server of jcrdt, and Refused if a
    hub doesn't admit this client."""
    if line.startswith(b'["no",%d,' % NUMBERS["not-allowed"]):
        raise Refused(NUMBERS["not-allowed"])
    # A hub without a server answers, too.
    if not line.startswith((b'["version",', b'["no",1')):
        raise Lost(f"that is no server of jcrdt: it answers {line[:40]!r}")
