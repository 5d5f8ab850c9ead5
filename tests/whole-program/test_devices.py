"""Reads and writes that fail after each number of bytes of each row (long rows: at some 500 places), over `run` and `serve`; a closed
pipe, a directory, a full device, an address that is taken. Needs cc and a libc by GNU."""

import os
import socket
import subprocess
import tempfile
from functools import partial
from typing import IO, List, Optional, Tuple, Union

from tried import SECONDS, Case, Cases, Counts, Row, Tried, Words, limited, places, replies_of, rows, same, totals_of


def lines_of(data: bytes, length: int) -> bytes:
    """The whole lines among the first bytes."""
    return data[: data.rfind(b"\n", 0, length) + 1]


def fails_reading(tried: Tried, row: Row, length: int) -> None:
    """A read that fails: the lines that had ended by then have their replies, and no more comes."""
    whole = lines_of(row.input, length).count(b"\n")
    replies = row.output.splitlines(True)[:whole]
    ended = len(replies) < whole or (b'["bye"]\n' in replies) or (replies and b"line-too-long" in replies[-1])
    environment = tried.environment("fail-devices", {"FAIL_READ_AFTER": length})
    if len(row.input.split(b"\n")[whole]) > 65_536 and length > 65_536:
        return
    same(tried.run(row.words, row.input, environment), (0 if ended else 1, b"".join(replies)))
    status, out, rest = tried.serve(row.words, row.input, environment)
    # The server closes with bytes unread, so the system resets the connection, and replies may be lost on their way.
    due = b"".join(replies)
    same((status, due if due.startswith(out) else out), (0, due))
    same(replies_of(rest), totals_of(row.words, row.input.split(b"\n"), replies_of(due)))


def fails_writing(tried: Tried, row: Row, length: int) -> None:
    """A write that fails: what was written is the first bytes of the transcript."""
    with tempfile.TemporaryFile(dir=tried.room) as file:
        status = subprocess.run([tried.program, *row.words], input=row.input, stdout=file, stderr=subprocess.DEVNULL,
                                preexec_fn=lambda: limited(length), timeout=SECONDS).returncode
        file.seek(0)
        same((status, file.read()), (1 if length < len(row.output) else 0, row.output[:length]))
    environment = tried.environment("fail-devices", {"FAIL_WRITE_AFTER": length})
    status, out, rest = tried.serve(row.words, row.input, environment)
    same((status, out), (0, row.output[:length]))
    # The line whose reply failed was served: it counts. So may those that came together with it, whose replies shared the write.
    lines, replies = row.input.split(b"\n"), replies_of(row.output)
    least = min(row.output[:length].count(b"\n") + 1, len(replies))
    due = [totals_of(row.words, lines, replies[:count]) for count in range(least, len(replies) + 1)]
    got = replies_of(rest)
    same(got, got if got in due else due[0])


def status_with(tried: Tried, words: Words, stdout: Union[int, IO[bytes]], stdin: Optional[int] = None,
                data: Optional[bytes] = None) -> Tuple[int, Optional[bytes]]:
    run = subprocess.run([tried.program, *words], stdin=stdin, input=data, stdout=stdout, stderr=subprocess.DEVNULL, timeout=SECONDS)
    return run.returncode, run.stdout


def closed_pipe() -> int:
    """The writing end of a pipe that nobody reads."""
    reading, writing = os.pipe()
    os.close(reading)
    return writing


def cases(tried: Tried, _counts: Counts) -> Cases:
    tried.needs_cc()
    for row in rows():
        if row.status:
            continue
        for length in places(row.input):
            yield f"{row.name}: reading fails after {length}", partial(fails_reading, tried, row, length)
        for length in places(row.output):
            yield f"{row.name}: writing fails after {length}", partial(fails_writing, tried, row, length)


def test_device(case: Case) -> None:
    case()


LINE = b'["open","d"]\n'


def serve_words(tried: Tried, address: str = "127.0.0.1:0") -> List[str]:
    return ["serve", "--addr", address, "--sessions", "1", "--file", f"{tried.room}/nobody.db", "d"]


def test_a_directory_as_input(tried: Tried) -> None:
    folder = os.open("/", os.O_RDONLY)
    try:
        same(status_with(tried, ["run", "d"], stdin=folder, stdout=subprocess.PIPE), (1, b""))
    finally:
        os.close(folder)


def test_a_pipe_that_nobody_reads(tried: Tried) -> None:
    writing = closed_pipe()
    try:
        same(status_with(tried, ["run", "d"], data=LINE, stdout=writing), (1, None))
        same(status_with(tried, serve_words(tried), stdin=subprocess.DEVNULL, stdout=writing), (1, None))
    finally:
        os.close(writing)


def test_a_full_device(tried: Tried) -> None:
    with open("/dev/full", "wb") as full:
        same(status_with(tried, ["run", "d"], data=LINE, stdout=full), (1, None))
        same(status_with(tried, serve_words(tried), stdin=subprocess.DEVNULL, stdout=full), (1, None))


def test_an_address_that_is_taken(tried: Tried) -> None:
    with socket.socket() as taken:
        taken.bind(("127.0.0.1", 0))
        taken.listen()
        words = serve_words(tried, f"127.0.0.1:{taken.getsockname()[1]}")
        same(status_with(tried, words, stdin=subprocess.DEVNULL, stdout=subprocess.PIPE), (1, b""))
