"""Command lines that ask for no session, and what is told of a fault in one line."""

import contextlib
import os
import re
import subprocess
from typing import List, Optional, Sequence, Tuple, Union

import pytest

from support import TOP
from tried import NOTE, NO_FOLDER, SECONDS, Tried, Words, same

NAME = "isn't 1 to 24 of a-z, 0-9 and -"
HELP = "\n\nFor more information, try '--help'.\n"
DOCUMENT = "isn't 1 to 32 of a-z, 0-9 and -"
LACKING = "the following required arguments were not provided:"
SERVE = ["serve", "--addr", "127.0.0.1:0", "--file", "copy.db"]

# Words that ask for no session, and what is told of them before the usage: nothing where help is asked for.
BAD_WORDS: List[Tuple[List[str], Optional[str]]] = [
    ([], None),
    (["help"], None),
    (["--help"], None),
    (["run", "--help"], None),
    (["serve", "--help"], None),
    (["check", "--help"], None),
    (["frob"], '"frob" is none of run, serve and check'),
    (["run"], f"{LACKING}\n  <doc>..."),
    (["run", "my_doc"], f'the document\'s name "my_doc" {DOCUMENT}'),
    (["run", "notes.json"], f'the document\'s name "notes.json" {DOCUMENT}'),
    (["run", ""], f'the document\'s name "" {DOCUMENT}'),
    (["run", "d" * 33], f'the document\'s name "{"d" * 33}" {DOCUMENT}'),
    (["run", "d", "d"], 'the document "d" stands twice'),
    (["run", *(f"d{n}" for n in range(17))], "17 documents are more than 16"),
    (["run", "--name", "Alice", "d"], f'the name "Alice" {NAME}'),
    (["run", "--name", "a" * 25, "d"], f'the name "{"a" * 25}" {NAME}'),
    (["run", "--name", "", "d"], f'the name "" {NAME}'),
    (["run", "--name", "a" * 24, "D"], f'the document\'s name "D" {DOCUMENT}'),
    (["run", "--name", "d"], f"{LACKING}\n  <doc>..."),
    (["run", "--nam", "x", "d"], "unexpected argument '--nam' found\n\n  tip: a similar argument exists: '--name'"),
    (["run", "--name", "a", "--name", "b", "d"], "the argument '--name <name>' cannot be used multiple times"),
    (["serve", "d"], f"{LACKING}\n  --addr <addr>\n  --file <file>"),
    (["serve", "--addr", "127.0.0.1:0", "--sessions", "1", "d"], f"{LACKING}\n  --file <file>"),
    ([*SERVE, "d"], "one of --sessions and --clients is wanted"),
    ([*SERVE, "--sessions", "1", "--clients", "1", "d"], "--sessions and --clients exclude each other"),
    ([*SERVE, "--clients", "257", "d"], '"257" isn\'t a number of sessions from 1 to 256'),
    ([*SERVE, "--clients", "1", "--patience", "0", "d"], '"0" isn\'t a number of seconds from 1 to 3600'),
    ([*SERVE, "--clients", "1", "--drain", "3601", "d"], '"3601" isn\'t a number of seconds from 1 to 3600'),
    ([*SERVE, "--sessions", "0", "d"], '"0" isn\'t a number of sessions from 1 to 256'),
    ([*SERVE, "--sessions", "257", "d"], '"257" isn\'t a number of sessions from 1 to 256'),
    ([*SERVE, "--sessions", "x", "d"], '"x" isn\'t a number of sessions from 1 to 256'),
    ([*SERVE, "--sessions", "1", "--backlog", "0", "d"], '"0" isn\'t a number of operations from 1 to 100000'),
    ([*SERVE, "--sessions", "1", "--backlog", "100001", "d"], '"100001" isn\'t a number of operations from 1 to 100000'),
    ([*SERVE, "--sessions", "1", "--durable", "--backlog", "x", "d"], '"x" isn\'t a number of operations from 1 to 100000'),
    ([*SERVE, "--sessions", "1", "--durable", "--durable", "d"], "the argument '--durable' cannot be used multiple times"),
    ([*SERVE, "--sessions", "1", "--health"], f"a value is required for '--health <health>' but none was supplied{HELP}"),
    ([*SERVE, "--sessions", "1"], f"{LACKING}\n  <doc>..."),
    ([*SERVE, "--sessions", "1", "D"], f'the document\'s name "D" {DOCUMENT}'),
    (["check"], f"{LACKING}\n  --file <file>"),
]

ADDRESS = "HOST:PORT is wanted, as 127.0.0.1:7001 or [::1]:7001"
NO_ROOM = "No space left on device (os error 28)"

# What fails with status 1, with the one line that is told of it, and where its input comes from and its output goes.
FAULTS = [
    (["serve", "--addr", "7001", "--sessions", "1", "--file", "a.db", "d"], f"cannot listen at 7001: invalid socket address; {ADDRESS}", os.devnull, os.devnull),
    (["serve", "--addr", "[::1]", "--sessions", "1", "--file", "b.db", "d"], f"cannot listen at [::1]: invalid port value; {ADDRESS}", os.devnull, os.devnull),
    ([*SERVE, "--sessions", "1", "--health", "7002", "d"], f"cannot listen at 7002: invalid socket address; {ADDRESS}", os.devnull, os.devnull),
    ([*SERVE, "--sessions", "1", "d"], f"standard output failed: {NO_ROOM}", os.devnull, "/dev/full"),
    (["serve", "--addr", "127.0.0.1:0", "--sessions", "1", "--file", "no-such-folder/copy.db", "d"],
     f"cannot open no-such-folder/copy.db: {NO_FOLDER}", os.devnull, os.devnull),
    (["check", "--file", "no-such-folder/copy.db"], f"cannot open no-such-folder/copy.db: {NO_FOLDER}", os.devnull, os.devnull),
    (["check", "--file", "copy-of-a-fault.db"], "cannot open copy-of-a-fault.db: it is not there", os.devnull, os.devnull),
    (["check", "--file", "empty.db"], "standard output failed", os.devnull, "/dev/full"),
    (["run", "d"], "standard input failed", "/", os.devnull),
    (["--version"], "standard output failed", os.devnull, "/dev/full"),
    (["run", "d"], "standard output failed", "one-line", "/dev/full"),
]


def version_of(top: str) -> str:
    with open(f"{top}/VERSION") as file:
        return file.read().strip()


def outcome(tried: Tried, words: Sequence[Union[str, bytes]], data: bytes = b"") -> Tuple[int, bytes, bytes]:
    """Its status, and what it wrote to both outputs."""
    run = subprocess.run([tried.program, *words], input=data, stdout=subprocess.PIPE, stderr=subprocess.PIPE, timeout=SECONDS, check=False)
    return run.returncode, run.stdout, run.stderr


@pytest.mark.parametrize("words, cause", BAD_WORDS, ids=[" ".join(it)[:60] or "none" for it, _ in BAD_WORDS])
def test_words_that_ask_for_no_session(tried: Tried, words: Words, cause: Optional[str]) -> None:
    status, out, errors = outcome(tried, words, b'["open","d"]\n')
    same((status, out), (2, b""))
    told, usage, _ = errors.decode().partition("usage: jcrdt")
    same((told, usage), (f"error: {cause}\n" if cause else "", "usage: jcrdt"))


@pytest.mark.parametrize("word", ["version", "--version", "-V"])
def test_version(tried: Tried, word: str) -> None:
    """It is standard output's, as of other programs: version, and the commit of the sources."""
    version = version_of(TOP)
    status, told, errors = outcome(tried, [word])
    same((status, errors), (0, b""))
    assert re.fullmatch(rf"jcrdt {re.escape(version)} \(commit [0-9a-f]{{12}}\)\n", told.decode()), told


@pytest.mark.parametrize("words, cause, reads, writes", FAULTS, ids=[" ".join(it[0])[:60] for it in FAULTS])
def test_a_fault_is_one_line(tried: Tried, words: Words, cause: str, reads: str, writes: str) -> None:
    """What is told is this line, beside notes."""
    with open(f"{tried.room}/empty.db", "w", encoding="utf-8"):
        pass
    with open(f"{tried.room}/one-line", "w", encoding="utf-8") as file:
        file.write('["open","d"]\n')
    with contextlib.ExitStack() as stack:
        ends = [os.open(os.path.join(tried.room, reads), os.O_RDONLY), os.open(writes, os.O_WRONLY)]
        for end in ends:
            stack.callback(os.close, end)
        run = subprocess.run([tried.program, *words], stdin=ends[0], stdout=ends[1], stderr=subprocess.PIPE, cwd=tried.room, timeout=SECONDS, check=False)
    same((run.returncode, NOTE.sub("", run.stderr.decode())), (1, f"jcrdt: {cause}\n"))


def test_no_utf8(tried: Tried) -> None:
    status, out, told = outcome(tried, ["run", b"\xff"])
    same((status, out, told.split(b"\n")[0]), (2, b"", b"error: an argument isn't UTF-8"))
