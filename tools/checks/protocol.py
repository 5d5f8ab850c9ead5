"""What tools/protocol makes is up to date, and Rust's words, replies, refusals and limits are those of protocol.json.

Rust's are read from `line_proto` (requests by their number of items, and replies), `replica_c` (what a replica answers), `json_scalar`
(refusals), `replica_tests` (a line of each request), `command_line` (options) and the constants that the limits and the options name. The packages name refusals by the lists that
are made for them: a number by hand is a fault."""

import argparse
import glob
import os
import re
from typing import Dict, Iterator, List, Set, Tuple

import protocol_files
from protocol_files import Protocol

# The functions of line_proto that name requests, with the number of items of these. One that has a kind names requests of it alone.
PARSERS: Dict[str, Tuple[int, str]] = {
    "bare_request": (0, "bare"), "plain_request": (1, ""), "state_of_word": (1, "state"),
    "short_request": (2, ""), "look_of": (2, "look"), "long_request": (3, ""),
    "read_mutation": (3, "change"),
}
# The functions by which replica_c reads requests, with the number of items of these. It reads looks and mutations by line_proto's.
REPLICA_PARSERS: Dict[str, int] = {"plain_ask": 0, "short_ask": 1, "long_ask": 2}

# The sources of the packages, and a number of a refusal in one.
PACKAGES = ("clients/js/*.mjs", "clients/hub/*.mjs", "clients/hub/lib/*.mjs", "clients/hub/web/*.mjs", "clients/python/jcrdt/*.py")
BY_HAND = re.compile(r"\bRefused\(\s*\d|\b(?:error|cause|reply|refusal|refused)\.number\s*(?:[=!]==?|in|not in)\s*[\d({\[]")


def source(top: str, crate: str) -> str:
    """All code of a crate but its tests."""
    texts: List[str] = []
    for path in sorted(glob.glob(f"{top}/crates/{crate}/src/**/*.rt", recursive=True)):
        with open(path, encoding="utf-8") as it:
            texts.append(it.read())
    return "\n".join(texts)


def function(code: str, name: str) -> str:
    """The text of a function, or nothing where it isn't there."""
    found = re.search(rf"(?ms)^(?:pub(?:\(crate\))? )?fn {name}(?:<[^>]*>)?\(.*?^}}", code)
    return found[0] if found else ""


def differences(what: str, rust: Set[str], table: Set[str]) -> Iterator[str]:
    """What only one of both has."""
    for it in sorted(rust - table):
        yield f"{what} {it} is in Rust, and not in protocol.json"
    for it in sorted(table - rust):
        yield f"{what} {it} is in protocol.json, and not in Rust"


def words_of(code: str, name: str) -> Set[str]:
    """The words of requests that a function names."""
    return set(re.findall(r'^\s*"(\w+)" =>', function(code, name), re.M))


def request_faults(top: str, table: Protocol) -> Iterator[str]:
    """Where line_proto reads other requests."""
    code = source(top, "line_proto")
    found: Set[str] = set()
    for name, (count, kind) in PARSERS.items():
        words = words_of(code, name)
        if not words:
            yield f"line_proto has no function {name} that names requests"
        found |= {f'["{word}"] of {count} items' for word in words}
        due = {it.word for it in table.requests if it.kind == kind and len(it.items) == count}
        if kind:
            yield from differences(f"{kind}:", words, due)
    yield from differences("request", found, {f'["{it.word}"] of {len(it.items)} items' for it in table.requests})


def replica_faults(top: str, table: Protocol) -> Iterator[str]:
    """Where replica_c reads other requests."""
    shared, own = source(top, "line_proto"), source(top, "replica_c")
    read = [(words_of(shared, "look_of"), 1), (words_of(shared, "read_mutation"), 2)]
    for name, count in REPLICA_PARSERS.items():
        words = words_of(own, name)
        if not words:
            yield f"replica_c has no function {name} that names requests"
        read.append((words, count))
    found = {f'["{word}"] of {count} items' for words, count in read for word in words}
    yield from differences("replica:", found, {f'["{it.word}"] of {len(it.items)} items' for it in table.of_replica})


def hand_faults(top: str, _: Protocol) -> Iterator[str]:
    """The lines of packages that have a refusal's number."""
    for path in sorted(it for pattern in PACKAGES for it in glob.glob(f"{top}/{pattern}")):
        with open(path, encoding="utf-8") as it:
            lines = it.read().split("\n")
        yield from (f"{os.path.relpath(path, top)}:{at}: a refusal's number by hand" for at, line in enumerate(lines, 1) if BY_HAND.search(line))


def reply_faults(top: str, table: Protocol) -> Iterator[str]:
    """Where line_proto writes other replies. A replica's own are written there, too."""
    code = re.sub(r"//.*", "", source(top, "line_proto"))
    written = set(re.findall(r'"\[\\"(\w+)\\"', code)) | set(re.findall(r'tagged_line\(alloc, "(\w+)"', code))
    replies = {word for it in (*table.requests, *table.replica_requests) for word in it.replies}
    yield from differences("reply", written - {"no"}, replies)


def refusal_faults(top: str, table: Protocol) -> Iterator[str]:
    """Where json_scalar has other refusals."""
    code = source(top, "json_scalar")
    numbers = dict(re.findall(r"Refusal::(\w+)(?: \{ \.\. \})? => (\d+),", code))
    names = dict(re.findall(r'Refusal::(\w+)(?: \{ \.\. \})? => "([a-z-]+)",', code))
    rust = {f"{numbers.get(it)} {names.get(it)}" for it in (*numbers, *names)}
    yield from differences("refusal", rust, {f"{it.number} {it.name}" for it in table.refusals})


def tested_faults(top: str, table: Protocol) -> Iterator[str]:
    """Where replica_tests reads other requests than there are."""
    code = source(top, "replica_tests")
    listed = re.search(r"(?ms)^static REQUESTS: .*?^\];", code)
    lines = re.findall(r'"\s*\[\\"(\w+)\\"', listed[0] if listed else "")
    yield from differences("a line of", set(lines), {it.word for it in table.requests})


def limit_faults(top: str, table: Protocol) -> Iterator[str]:
    """Where a constant is another number."""
    for limit in table.limits:
        crate, _, name = limit.constant.partition(" ")
        if not crate:
            continue
        found = re.findall(rf"\bconst {name}: \w+ = ([\d_]+)(?:u\d+|usize)?;", source(top, crate))
        if not found:
            yield f"{crate} has no constant {name}, which the limit {limit.name} names"
        for number in found:
            if int(number) != limit.most:
                yield f"{crate}: {name} is {number}, and the limit {limit.name} of protocol.json {limit.most}"


def option_faults(top: str, table: Protocol) -> Iterator[str]:
    """Where command_line takes other options of `serve`, or its usage text lacks one, or a constant is another number or text."""
    code = source(top, "command_line")
    made = function(code, "begun_command") + function(code, "server_command")
    kinds = {"required_option": "required", "optional": "with a value", "flag": "a flag"}
    rust = {f"--{word}, {kinds[kind]}" for kind, word in re.findall(r'\b(required_option|optional|flag)\(alloc, "([\w-]+)"\)', made)}
    due = {f"--{it.word}, {'required' if it.is_required else 'with a value' if it.value else 'a flag'}" for it in table.server_options}
    yield from differences("option", rust, due)
    usage = re.search(r'(?s)const USAGE: &str = "(.*?)";', code)
    for option in table.server_options:
        if not re.search(rf"--{option.word}\b", usage[1] if usage else ""):
            yield f"the usage text lacks --{option.word}"
        for name in option.constants:
            found = re.findall(rf'\bconst {name}: [&\w]+ = "?(\w+)"?;', code)
            stated = option.usual if name.startswith("DEFAULT") else str(option.most)
            yield from (f"command_line: {name} is {it}, and --{option.word} of protocol.json has {stated}"
                        for it in found or ["nowhere"] if it.replace("_", "") != stated)


def file_faults(top: str) -> Iterator[str]:
    """The files that aren't what tools/protocol makes."""
    for name, text in protocol_files.made(top).items():
        path = f"{top}/{name}"
        old = ""
        if os.path.isfile(path):
            with open(path, encoding="utf-8") as it:
                old = it.read()
        if old != text:
            yield f"{name} isn't what tools/protocol makes of protocol.json: run it"


def faults(top: str) -> Iterator[str]:
    """What is wrong with the table, with a file that is made of it, or with Rust's words."""
    try:
        table = protocol_files.read(top)
        yield from file_faults(top)
    except ValueError as fault:
        yield str(fault)
        return
    for look in (request_faults, replica_faults, reply_faults, refusal_faults, tested_faults, limit_faults, option_faults, hand_faults):
        yield from look(top, table)


def check(words: argparse.Namespace) -> int:
    bad = list(faults(words.top))
    for fault in bad:
        print(fault)
    print(f"the protocol: {len(bad)} faults")
    return len(bad)
