"""What a server answers a monitor at its `--health` address."""

import http.client
import json
from typing import Any, Dict, NamedTuple

from .wire import host_and_port

# How long an answer may take, in seconds.
MOST_SECONDS = 10.0


class Health(NamedTuple):
    """Whether a server is well, why not, and how many operations of each document aren't in its file."""

    well: bool
    cause: str
    unstored: Dict[str, int]


def _read(found: Any) -> Health:
    """Raises ValueError for what no server answers."""
    try:
        unstored = {str(name): int(it["unstored"]) for name, it in found["documents"].items()}
        return Health(bool(found["well"]), str(found["cause"]), unstored)
    except (TypeError, KeyError, AttributeError) as error:
        raise ValueError(f"it is no server's: {error!r}") from None


def ask_health(address: str) -> Health:
    """Asks at HOST:PORT. Raises OSError where nobody answers within ten seconds, and ValueError for an answer that is no server's."""
    host, port = host_and_port(address)
    connection = http.client.HTTPConnection(host, port, timeout=MOST_SECONDS)
    try:
        connection.request("GET", "/health")
        answer = connection.getresponse()
        text = answer.read()
        if answer.status not in (200, 503):
            raise ValueError(f"it is no server's: status {answer.status}")
        return _read(json.loads(text))
    except http.client.HTTPException as error:
        raise ValueError(f"it is no server's: {error!r}") from None
    finally:
        connection.close()
