"""The words and the limits of the protocol: docs/FORMATS.md says what they mean.

Made by tools/protocol from protocol.json. Don't edit it.
"""

from typing import Dict, FrozenSet, NamedTuple, Tuple


class Form(NamedTuple):
    """A request: its kind, what follows its word, and the first words of its replies, but "no"."""

    kind: str
    items: Tuple[str, ...]
    replies: Tuple[str, ...]


# What a server or the hub answers, by the first word.
REQUESTS: Dict[str, Form] = {
    "open": Form("session", ("doc",), ("opened",)),
    "assign": Form("change", ("doc", "CUR", "VALUE"), ("applied",)),
    "insert": Form("change", ("doc", "CUR", "VALUE"), ("applied",)),
    "delete": Form("change", ("doc", "CUR"), ("applied",)),
    "add": Form("change", ("doc", "CUR", "n"), ("applied",)),
    "let": Form("session", ("doc", "name", "CUR"), ("bound",)),
    "keys": Form("look", ("doc", "CUR"), ("keys",)),
    "values": Form("look", ("doc", "CUR"), ("values",)),
    "items": Form("look", ("doc", "CUR"), ("items",)),
    "conflicts": Form("look", ("doc", "CUR"), ("conflicts",)),
    "sum": Form("look", ("doc", "CUR"), ("sum",)),
    "show": Form("look", ("doc", "CUR"), ("show",)),
    "deliver": Form("change", ("doc", "operation"), ("applied", "known", "held")),
    "ops": Form("state", ("doc", "FRONT", "limit"), ("ops",)),
    "chains": Form("state", ("doc", "AFTER", "FRONT"), ("chains",)),
    "front": Form("state", ("doc",), ("front",)),
    "held": Form("state", ("doc",), ("waiting",)),
    "forget": Form("change", ("doc", "ID"), ("forgotten",)),
    "account": Form("state", ("doc",), ("account",)),
    "size": Form("state", ("doc",), ("size",)),
    "copied": Form("state", ("doc", "ID"), ("copied",)),
    "version": Form("bare", (), ("version",)),
    "quit": Form("bare", (), ("bye",)),
    "watch": Form("hub", ("doc",), ("watching",)),
    "unwatch": Form("hub", ("doc",), ("unwatched",)),
    "page": Form("hub", ("doc", "FRONT", "bytes"), ("ops",)),
    "hear": Form("hub", ("doc",), ("hearing",)),
    "unhear": Form("hub", ("doc",), ("unheard",)),
    "say": Form("hub", ("doc", "VALUE"), ("said",)),
    "stored": Form("hub", ("doc", "ID"), ("stored",)),
    "create": Form("hub", ("doc",), ("created",)),
    "history": Form("hub", ("doc",), ("generations",)),
    "map": Form("hub", ("doc", "GENERATION", "from"), ("map",)),
    "list": Form("bare", ("AFTER",), ("documents",)),
}
# The first words of the hub's lines that answer no request.
PUSHES: FrozenSet[str] = frozenset(("changed", "logged", "heard", "renewed", "reopened"))
# The names of refusals: from 100 on the hub's.
REFUSALS: Dict[int, str] = {
    1: "not-json",
    2: "bad-request",
    3: "line-too-long",
    4: "no-such-document",
    5: "not-open",
    6: "bad-value",
    7: "bad-cursor",
    8: "no-such-variable",
    9: "index-past-end",
    10: "at-head",
    11: "not-in-list",
    12: "bad-operation",
    13: "bad-front",
    14: "forked",
    15: "id-conflict",
    16: "own-name",
    17: "held-full",
    18: "log-full",
    19: "too-many-replicas",
    20: "too-deep",
    21: "seats-full",
    22: "no-memory",
    23: "variables-full",
    24: "not-held",
    25: "lists-differ",
    26: "copy-refused",
    100: "server-lost",
    101: "server-away",
    102: "reply-too-long",
    103: "not-allowed",
    104: "not-kept",
    105: "there-already",
    106: "renewed",
}
# Two starts, or two replicas, had one name: one side is to be kept.
NAME_USED_TWICE: FrozenSet[int] = frozenset((14, 15, 16))
# The document takes no more, for good.
DOCUMENT_FULL: FrozenSet[int] = frozenset((18, 19))
# The most of each.
LIMITS: Dict[str, int] = {
    "log": 100_000,  # operations of a document
    "replicas": 256,  # replicas that have operations of a document
    "held": 256,  # operations that a document holds
    "path": 30,  # keys of a path
    "key": 128,  # bytes of a text that is a key
    "value": 4_096,  # bytes of a text that is a value
    "line": 65_536,  # bytes of a request's line
    "page": 64,  # operations of a reply to `ops`
    "variables": 64,  # variables of a session at a document
    "variable": 128,  # bytes of a variable's name
    "lines": 1_000_000,  # lines of a session
    "sessions": 256,  # sessions of a server
    "said": 4_096,  # bytes of a value that a client of the hub says
    "listed": 1_000,  # documents of a reply to `list`
    "mapped": 1_000,  # elements of a reply to `map`
}
# What may change a document, or what it holds.
CHANGES: FrozenSet[str] = frozenset(word for word, form in REQUESTS.items() if form.kind == "change")
# The numbers of refusals.
NUMBERS: Dict[str, int] = {name: number for number, name in REFUSALS.items()}
