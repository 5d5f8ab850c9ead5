"""How long a server may take, and how much it may send: one set for both transports."""

from typing import NamedTuple


class Limits(NamedTuple):
    """Times are seconds. Beyond one of them the session ends by Lost."""

    # Until a session has begun: a server whose sessions are used up takes a connection and doesn't answer.
    begin: float = 10.0
    # Without a byte while a reply is due, and until the end of one reply.
    silence: float = 60.0
    slowest: float = float("inf")
    # The longest reply that is kept in memory, in bytes. A `show` of a full document may be long.
    reply_bytes: int = 256 << 20


USUAL = Limits()
# After so many seconds without a request a session that stays asks for a sign of life: a server gives one that is silent for
# longer (30, unless its `--patience` is another) to another client that waits.
SIGN_SECONDS = 10.0
