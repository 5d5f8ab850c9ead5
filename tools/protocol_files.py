"""protocol.json, the one table of requests, replies, refusals and limits, and the files that are made of it.

An entry of `requests` has

- `word`, and `items`: what follows it. A document's name is `doc`, a cursor `CUR`.
- `kind`: `bare` names no document; `session` opens a document or binds a name, for this session alone; `look` reads at a cursor;
  `state` reads the document without one; `change` may change the document or what it holds; `hub` is answered by the hub alone.
- `replies`: the first words of its replies, but "no". `says`: the second column in FORMATS, a text for each row.
- `replica`, if a replica inside a program answers it too, without the document's name.
- `optional`: what may follow the items, all of it or nothing. The second text of `says` is about that form.

A limit's `constant` is the crate that states it in `src/`, and its name there. protocol_options.py says what an option has."""

import json
import re
from typing import Any, Dict, List, NamedTuple, Sequence, Tuple

import protocol_options
from protocol_options import HUB_TABLE, SERVER_PAGE, HubOption, ServerOption

TABLE = "protocol.json"
# The kinds of requests, and what those of a server do.
KINDS = {
    "change": "may change the document, or what it holds",
    "look": "reads at a cursor",
    "state": "reads the document without a cursor",
    "session": "opens the document, or binds a name, for this session",
    "bare": "names no document",
    "hub": "",
}
COMMENT = "Made by tools/protocol from protocol.json. Don't edit it."


class Request(NamedTuple):
    """A request: what follows its word, its kind, and its replies."""

    word: str
    kind: str
    items: Tuple[str, ...]
    replies: Tuple[str, ...]
    says: Tuple[str, ...] = ()
    replica: bool = False
    optional: Tuple[str, ...] = ()

    @property
    def forms(self) -> List[str]:
        """The request as it is written: without what is optional, and with it."""
        items = [self.items, *([self.items + self.optional] if self.optional else [])]
        return [f"[{','.join([json.dumps(self.word), *it])}]" for it in items]


class Refusal(NamedTuple):
    """A refusal. The hub's have a remedy beside them."""

    number: int
    name: str
    says: str
    remedy: str = ""


class Group(NamedTuple):
    """Refusals that mean one thing to a client: a constant's name, and those of the refusals."""

    name: str
    refusals: Tuple[str, ...]
    says: str


class Push(NamedTuple):
    """A line of the hub that answers no request."""

    word: str
    form: str
    says: str


class Limit(NamedTuple):
    """The most of something, and the crate and the constant that state it, if one does."""

    name: str
    most: int
    of: str
    constant: str = ""


class Protocol(NamedTuple):
    """The table. What only a replica answers is in `replica_requests`."""

    requests: List[Request]
    hub_requests: List[Request]
    replica_requests: List[Request]
    pushes: List[Push]
    refusals: List[Refusal]
    hub_refusals: List[Refusal]
    refusal_groups: List[Group]
    limits: List[Limit]
    server_options: List[ServerOption]
    hub_options: List[HubOption]

    @property
    def of_replica(self) -> List[Request]:
        """What a replica answers: without the document's name."""
        return [it._replace(items=it.items[1:]) for it in self.requests if it.replica] + self.replica_requests

    def numbers(self, group: Group) -> List[int]:
        """The numbers of a group of refusals."""
        return [it.number for it in (*self.refusals, *self.hub_refusals) if it.name in group.refusals]


def request_of(entry: Dict[str, Any]) -> Request:
    lists = {name: tuple(entry[name]) for name in ("items", "replies", "says", "optional") if name in entry}
    return Request(**{**entry, **lists})


def faults(table: Protocol) -> List[str]:
    """What is wrong with the table."""
    found: List[str] = []
    words = [it.word for it in (*table.requests, *table.hub_requests, *table.replica_requests)]
    names = [str(it) for refusal in (*table.refusals, *table.hub_refusals) for it in (refusal.number, refusal.name)]
    for what in (words, names, [it.name for it in table.limits], [it.word for it in table.pushes]):
        found += [f"{it} is there twice" for it in dict.fromkeys(what) if what.count(it) > 1]
    replies = {word for it in (*table.requests, *table.hub_requests) for word in it.replies}
    found += [f"{it.word} is a push and a reply" for it in table.pushes if it.word in replies]
    found += [f"{group.name}: {it} is no refusal" for group in table.refusal_groups for it in group.refusals if it not in names]
    for request in (*table.requests, *table.hub_requests):
        found += request_faults(request)
    return found + protocol_options.faults(table.server_options, table.hub_options)


def request_faults(request: Request) -> List[str]:
    """What is wrong with an entry of a request."""
    found = [] if request.kind in KINDS else [f"{request.word}: {request.kind} is none of {', '.join(KINDS)}"]
    if (request.kind == "bare") == ("doc" in request.items[:1]):
        found.append(f"{request.word}: of all kinds but `bare` the first item is doc")
    if (request.kind == "look") > ("CUR" in request.items[1:2]):
        found.append(f"{request.word}: a look's cursor is behind the document")
    said = set(re.findall(r'`\["(\w+)"', " ".join(request.says)))
    found += [f"{request.word}: {it} is none of its replies" for it in sorted(said - set(request.replies))]
    return found


def read(top: str) -> Protocol:
    """The table. Raises ValueError for what is wrong with it."""
    with open(f"{top}/{TABLE}", encoding="utf-8") as it:
        groups: Dict[str, List[Dict[str, Any]]] = json.load(it)
    requests = [[request_of(it) for it in groups[name]] for name in ("requests", "hub_requests", "replica_requests")]
    refusals = [[Refusal(**it) for it in groups[name]] for name in ("refusals", "hub_refusals")]
    table = Protocol(requests[0], requests[1], requests[2], [Push(**it) for it in groups["pushes"]], refusals[0], refusals[1],
                     [Group(it["name"], tuple(it["refusals"]), it["says"]) for it in groups["refusal_groups"]], [Limit(**it) for it in groups["limits"]],
                     protocol_options.server_options(groups["server_options"]), protocol_options.hub_options(groups["hub_options"]))
    wrong = faults(table)
    if wrong:
        raise ValueError("; ".join(wrong))
    return table


# JavaScript.

JS_HEAD = """/* The words and the limits of the protocol: docs/FORMATS.md says what they mean.
   %s */

/** @typedef {"bare" | "session" | "look" | "state" | "change" | "hub"} Kind A `bare` request names
 *    no document. A `session` one opens a document or binds a name. A `look` reads at a cursor, a
 *    `state` one without. The hub alone answers `hub`. */

/** @typedef {%s} EditWord What makes an operation. */

/** @typedef {object} Form
 *  @property {Kind} kind
 *  @property {readonly string[]} items What follows the word: `doc` is a document's name, `CUR` a
 *    cursor.
 *  @property {readonly string[]} replies The first words of its replies, but "no".
 *  @property {readonly string[]} optional What may follow the items: all of it, or nothing. */

/** @param {Kind} kind
 *  @param {string[]} items
 *  @param {string[]} replies
 *  @param {string[]} optional
 *  @returns {Form} */
const form = (kind, items, replies, optional = []) =>
  Object.freeze({ kind, items, replies, optional });
"""

JS_TAIL = """/** Whether a request may change a document, or what it holds.
 *  @param {string} word */
export const isChange = (word) => REQUESTS.get(word)?.kind === "change";

/** @type {ReadonlyMap<number, string>} The names of refusals. */
export const NAMES = new Map(Object.entries(REFUSALS).map(([name, number]) =>
  /** @type {const} */ ([number, name])));

/** The line that refuses a request.
 *  @param {keyof typeof REFUSALS} name */
export const refusalLine = (name) => JSON.stringify(["no", REFUSALS[name], name]);

/** Whether a reply's line is this refusal.
 *  @param {string} line
 *  @param {keyof typeof REFUSALS} name */
export const isRefusedBy = (line, name) => line.startsWith(`["no",${REFUSALS[name]},`);
"""


def js_list(items: Sequence[str]) -> str:
    return f"[{', '.join(map(json.dumps, items))}]"


def js_lists(request: Request) -> str:
    optional = [request.optional] if request.optional else []
    return ", ".join(map(js_list, [request.items, request.replies, *optional]))


def js_forms(name: str, comment: str, requests: Sequence[Request]) -> str:
    rows = "".join(f'  ["{it.word}", form("{it.kind}", {js_lists(it)})],\n' for it in requests)
    return f"/** {comment}\n *  @type {{ReadonlyMap<string, Form>}} */\nexport const {name} = new Map([\n{rows}]);\n"


def javascript(table: Protocol) -> str:
    refusals = "".join(f'  "{it.name}": {it.number},\n' for it in (*table.refusals, *table.hub_refusals))
    limits = "".join(f"  {it.name}: {it.most:_}, // {it.of}\n" for it in table.limits)
    edits = " | ".join(f'"{it.word}"' for it in table.requests if it.kind == "change" and "CUR" in it.items)
    return "\n".join([
        JS_HEAD % (COMMENT, edits),
        js_forms("REQUESTS", "What a server or the hub answers.", [*table.requests, *table.hub_requests]),
        js_forms("REPLICA_REQUESTS", "What a replica answers, without a document's name.", table.of_replica),
        "/** The first words of the hub's lines that answer no request.\n *  @type {ReadonlySet<string>} */\n"
        f"export const PUSHES = new Set({js_list([it.word for it in table.pushes])});\n",
        f"/** The numbers of refusals: from 100 on the hub's. */\nexport const REFUSALS = Object.freeze({{\n{refusals}}});\n",
        *(f"/** {it.says}\n *  @type {{ReadonlySet<number>}} */\n"
          f"export const {it.name} = new Set([{', '.join(map(str, table.numbers(it)))}]);\n" for it in table.refusal_groups),
        f"/** The most of each. */\nexport const LIMITS = Object.freeze({{\n{limits}}});\n",
        JS_TAIL])


# Python.

PYTHON_HEAD = f'''"""The words and the limits of the protocol: docs/FORMATS.md says what they mean.

{COMMENT}
"""

from typing import Dict, FrozenSet, NamedTuple, Tuple


class Form(NamedTuple):
    """A request: its kind, what follows its word, and the first words of its replies, but "no"."""

    kind: str
    items: Tuple[str, ...]
    replies: Tuple[str, ...]


'''

PYTHON_TAIL = '''# What may change a document, or what it holds.
CHANGES: FrozenSet[str] = frozenset(word for word, form in REQUESTS.items() if form.kind == "change")
# The numbers of refusals.
NUMBERS: Dict[str, int] = {name: number for number, name in REFUSALS.items()}
'''


def python_tuple(items: Sequence[str]) -> str:
    return f"({', '.join(map(json.dumps, items))}{',' if len(items) == 1 else ''})"


def python_forms(name: str, comment: str, requests: Sequence[Request]) -> str:
    rows = "".join(f'    "{it.word}": Form("{it.kind}", {python_tuple(it.items)}, {python_tuple(it.replies)}),\n' for it in requests)
    return f"# {comment}\n{name}: Dict[str, Form] = {{\n{rows}}}\n"


def python(table: Protocol) -> str:
    pushes = ", ".join(json.dumps(it.word) for it in table.pushes)
    refusals = "".join(f'    {it.number}: "{it.name}",\n' for it in (*table.refusals, *table.hub_refusals))
    limits = "".join(f'    "{it.name}": {it.most:_},  # {it.of}\n' for it in table.limits)
    return PYTHON_HEAD + "".join([
        python_forms("REQUESTS", "What a server or the hub answers, by the first word.", [*table.requests, *table.hub_requests]),
        f"# The first words of the hub's lines that answer no request.\nPUSHES: FrozenSet[str] = frozenset(({pushes}))\n",
        f"# The names of refusals: from 100 on the hub's.\nREFUSALS: Dict[int, str] = {{\n{refusals}}}\n",
        *(f"# {it.says}\n{it.name}: FrozenSet[int] = frozenset(({', '.join(map(str, table.numbers(it)))}))\n" for it in table.refusal_groups),
        f"# The most of each.\nLIMITS: Dict[str, int] = {{\n{limits}}}\n",
        PYTHON_TAIL])


# Pages.

def rows_of(requests: Sequence[Request]) -> List[Tuple[str, ...]]:
    """A row for each request, and one for each further text of its replies."""
    rows: List[Tuple[str, ...]] = []
    for request in requests:
        forms = [f"`{it}`" for it in request.forms] + [""] * len(request.says)
        rows += list(zip(forms, request.says))
    return rows


# A table of a page: its head, and its rows.
Table = Tuple[Tuple[str, ...], List[Tuple[str, ...]]]


def tables(table: Protocol) -> Dict[str, Table]:
    """The tables of FORMATS by their names."""
    words = {kind: ", ".join(f"`{it.word}`" for it in table.requests if it.kind == kind) for kind in KINDS}
    kinds: List[Tuple[str, ...]] = [(kind, said, words[kind]) for kind, said in KINDS.items() if said]
    pushes: List[Tuple[str, ...]] = [(f'`["{it.word}",{it.form}]`', it.says) for it in table.pushes]
    hub: List[Tuple[str, ...]] = [(str(it.number), it.name, it.says, it.remedy) for it in table.hub_refusals]
    return {
        "requests": (("Request", "Reply"), rows_of(table.requests)),
        "kinds": (("Kind", "What it does", "Requests"), kinds),
        "hub-requests": (("Request", "Reply"), rows_of(table.hub_requests)),
        "pushes": (("Push", "To whom, and when"), pushes),
        "hub-refusals": (("No.", "Name", "What happened", "What to do"), hub),
        "refusals": (("No.", "Name", "What happened"), [(str(it.number), it.name, it.says) for it in table.refusals]),
        "limits": (("Limit", "Most", "Of"), [(f"`{it.name}`", f"{it.most:,}", it.of) for it in table.limits]),
    }


def row(cells: Sequence[str]) -> str:
    return "|" + "".join(f" {it} |" if it else " |" for it in cells) + "\n"


def page(name: str, text: str, made: Dict[str, Table]) -> str:
    """A page with these tables. Raises ValueError where a table's marks are missing."""
    for mark, (head, rows) in made.items():
        begin, end = f"<!-- {mark}: made by tools/protocol -->\n", f"<!-- {mark}: end -->\n"
        if text.count(begin) != 1 or text.count(end) != 1:
            raise ValueError(f"{name} doesn't have once {begin.strip()} and {end.strip()}")
        lines = row(head) + "|" + "---|" * len(head) + "\n" + "".join(map(row, rows))
        text = f"{text.partition(begin)[0]}{begin}\n{lines}\n{end}{text.partition(end)[2]}"
    return text


def made(top: str) -> Dict[str, str]:
    """The files that are made of the table, and their texts. Raises ValueError for what is wrong with the table."""
    table = read(top)
    options: Table = (("Argument", "What it is"), [it.row for it in table.server_options])
    pages = {"docs/FORMATS.md": tables(table), SERVER_PAGE: {"options": options}}
    files = {"clients/js/protocol.mjs": javascript(table), "clients/python/jcrdt/protocol.py": python(table),
             HUB_TABLE: protocol_options.hub_table(table.hub_options, COMMENT)}
    for name, its in pages.items():
        with open(f"{top}/{name}", encoding="utf-8") as it:
            files[name] = page(name, it.read(), its)
    return files
