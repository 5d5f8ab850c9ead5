"""The options of the server and of the hub in protocol.json, and what is made of them: the table of docs/OPERATIONS.md, and the hub's own.

An entry of `server_options` has

- `word`, without the dashes, and `value`, what follows it; without it it is a flag. `is_required`, if a start must be given it.
- `least` and `most` of a number, and what is `usual` if it isn't given. `constants`: those of `command_line` that state them.
- `says`: the text in OPERATIONS. `{bounds}` and `{usual}` in it are these.

An entry of `hub_options` has

- `name`, that of `HubOptions`, and `word`, where the command line calls it something else. `value`: what follows it; without it it is a flag.
- `least`, `most` and `usual` of a number. `is_many`, if it may be given several times.
- `help`: the lines that `--help` prints. Without them the command line hasn't got it: it is for tests."""

import json
from typing import Any, Dict, List, NamedTuple, Optional, Sequence, Tuple

SERVER_PAGE = "docs/OPERATIONS.md"
HUB_TABLE = "clients/hub/lib/option_table.mjs"


class ServerOption(NamedTuple):
    """An option of `serve`."""

    word: str
    says: str
    value: str = ""
    is_required: bool = False
    least: Optional[int] = None
    most: Optional[int] = None
    usual: str = ""
    constants: Tuple[str, ...] = ()

    @property
    def row(self) -> Tuple[str, str]:
        """Its row in OPERATIONS."""
        bounds = f"{self.least:,} to {self.most:,}" if self.least is not None else ""
        return f"`--{self.word}{' ' if self.value else ''}{self.value}`", self.says.replace("{bounds}", bounds).replace("{usual}", self.usual)


class HubOption(NamedTuple):
    """An option of the hub."""

    name: str
    word: str = ""
    value: str = ""
    is_many: bool = False
    least: Optional[int] = None
    most: Optional[int] = None
    usual: Optional[int] = None
    help: Tuple[str, ...] = ()

    @property
    def entry(self) -> str:
        """Its entry in the hub's table."""
        texts = {"word": self.word, "value": self.value, "isMany": self.is_many}
        parts = [f"{name}: {json.dumps(it)}" for name, it in texts.items() if it]
        if self.least is not None:
            parts.append(f"bounds: {{ least: {self.least:_}, most: {self.most:_}, usual: {self.usual:_} }}")
        if not self.help:
            return f"  {self.name}: {{ {', '.join(parts)} }},\n"
        lines = [json.dumps(it) for it in ("\n".join(self.help)).splitlines(keepends=True)]
        joined = " +\n      ".join(lines)
        parts = [f"    {', '.join(parts)},\n"] if parts else []
        return f"  {self.name}: {{\n{''.join(parts)}    help: {joined},\n  }},\n"


def server_options(entries: Sequence[Dict[str, Any]]) -> List[ServerOption]:
    made: List[Dict[str, Any]] = [{**it, "constants": tuple(it.get("constants", ()))} for it in entries]
    return [ServerOption(**it) for it in made]


def hub_options(entries: Sequence[Dict[str, Any]]) -> List[HubOption]:
    made: List[Dict[str, Any]] = [{**it, "help": tuple(it.get("help", ()))} for it in entries]
    return [HubOption(**it) for it in made]


def faults(server: Sequence[ServerOption], hub: Sequence[HubOption]) -> List[str]:
    """What is wrong with the options."""
    found: List[str] = []
    for names in ([it.word for it in server], [it.name for it in hub], [it.word or it.name for it in hub]):
        found += [f"the option {it} is there twice" for it in dict.fromkeys(names) if names.count(it) > 1]
    bounds = [*((it.word, it.least, it.most) for it in server), *((it.name, it.least, it.most) for it in hub)]
    for name, least, most in bounds:
        if (least is None) != (most is None) or (least is not None and most is not None and least > most):
            found.append(f"{name}: least and most are both there, and in their order, or neither")
    return found


HUB_HEAD = """/* The options of a hub: what the command line calls each, where that isn't its name, what follows it there, its help, and a number's
   bounds. Without `value` it is a flag, and without `help` the command line hasn't got it.
   %s */

/** By the names of `HubOptions`, in the order of the help. */
export const OPTIONS = /** @type {const} */ ({
"""


def hub_table(options: Sequence[HubOption], comment: str) -> str:
    """The hub's table."""
    return HUB_HEAD % comment + "".join(it.entry for it in options) + "});\n"
