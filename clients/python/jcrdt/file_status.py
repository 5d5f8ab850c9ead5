"""How full the documents of a stored log are, for a monitor."""

import sqlite3
from typing import List, Optional, Tuple

from . import wire
from .server_health import Health, ask_health
from .server_process import is_open
from .stored_log import StoredLog
from .wire import shown_safely


def level(count: int, most: int) -> int:
    """0 below nine tenths of a limit, 1 from there on, 2 at the limit."""
    return 2 if count >= most else 1 if 10 * count >= 9 * most else 0


def _asked(address: Optional[str]) -> Optional[Health]:
    """What the server answers. One that doesn't, isn't well."""
    if address is None:
        return None
    try:
        return ask_health(address)
    except (OSError, ValueError) as error:
        return Health(False, f"{address} doesn't answer: {error}", {})


def status(path: str, max_age: Optional[float] = None, health: Optional[str] = None) -> Tuple[int, List[str]]:
    """The status for a monitor, and the lines to print. `health` is the address at which the server answers monitors: what the file alone
    can't tell is asked there."""
    answer = _asked(health)
    try:
        with StoredLog(path) as log:
            age, epoch, counts, fronts, served = log.age(), log.epoch, log.counts, log.fronts, is_open(log.path)
    except (OSError, ValueError, sqlite3.Error) as error:
        return 2, [f"CRITICAL: {shown_safely(str(error))}"]
    worst, lines = 0, []
    for document in sorted(counts):
        found = max(level(counts[document], wire.OPERATION_LIMIT), level(len(fronts[document]), wire.REPLICA_LIMIT))
        worst = max(worst, found)
        lines.append(f"{document}: {counts[document]} operations of {wire.OPERATION_LIMIT}, {len(fronts[document])} replicas of "
                     f"{wire.REPLICA_LIMIT}{_lag(answer, document)}" + ("", ": put it into a new document (renew)", ": FULL, changes are refused")[found])
    old = max_age is not None and age > max_age
    worst = max(worst, int(old), 2 if answer and not answer.well else 0)
    word = ("OK", "WARNING", "CRITICAL")[worst]
    head = (f"{word}: {'served' if served else 'not served'}, epoch {epoch}, {sum(counts.values())} rows, "
            f"written {age:.0f} s ago")
    head += (f", more than {max_age:g}" if old else "") + (f"; {shown_safely(answer.cause)}" if answer and answer.cause else "")
    return worst, [head, *lines]


def _lag(answer: Optional[Health], document: str) -> str:
    """How many operations of a document the server has that aren't in its file, where it is known."""
    count = answer.unstored.get(document) if answer else None
    return "" if count is None else f", and {count} not in the file yet"
