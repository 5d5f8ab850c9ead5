"""What `serve` and `check` do of a file that another program serves, one that is full while it serves or starts, or may not grow at all, a
read-only one, one of another program, and one whose folder isn't there."""

import contextlib
import os
import re
import shutil
import socket
import sqlite3
import subprocess
from functools import partial
from typing import Callable, Iterable, List, Optional, Sequence, Tuple

import pytest

from support import Connection, Differs, Reply, Server, operation, wait_until
from tried import NOTE, NO_FOLDER, NO_PATH, SECONDS, Tried, Words, bytes_of, compact, limited, replies_of, same, talk

NO_COPY = b'["no",26,"copy-refused"]\n'
FAILED = "the file failed: an I/O error; it is tried again. Until then changes are in memory only, and behind 4096 of a document they wait"
FAILED_DURABLY = "the file failed: an I/O error; it is tried again. Until then a session with --durable ends at its next change, which is not answered"
STOPPED = "copying stopped: an I/O error; what is accepted from now on is in memory only: exchange with a peer before you stop"
ENDING = "copying stopped: an I/O error; a session with --durable ends at its next change, which is not answered"


class Started(Server):
    """A server of the document `d` over this file, that has written where it listens, and the notes that are due."""

    def __init__(self, tried: Tried, path: str, sessions: int, most_bytes: Optional[int] = None, *more: str) -> None:
        self.due, self.begun = [] if os.path.exists(path) else [("INFO", f"made a new file {path}")], 0
        if most_bytes is not None:
            self.due.append(("WARN", f"a file may have at most {most_bytes} bytes here (ulimit -f): the system ends a server that writes more"))
        super().__init__(tried.program, path, "d", sessions=sessions, options=more, limits=None if most_bytes is None else partial(limited, most_bytes))
        self.due.append(("INFO", f"listening at {self.at}"))

    def talk(self, lines: Iterable[object]) -> List[Reply]:
        self.begun += 1
        return replies_of(talk(*self.address, b"".join(line + b"\n" for line in compact(lines))))

    def ended(self, *warnings: str, epoch: int = 1, operations: int = 0, replicas: int = 0) -> Tuple[int, List[Reply], str]:
        """Its status, its totals, and what it told of causes. Its notes must be due: it restored so much, and warned of this."""
        status, totals = self.totals()
        told = self.said()
        found = [(level, re.sub("(?<=begins, from )127.0.0.1:[0-9]+", "", note)) for level, note in NOTE.findall(told)]
        due = [*self.due, ("INFO", f"serving as srv-{epoch}"),
               ("INFO", f"restored d: {operations} of 100000 operations, {replicas} of 256 replicas"),
               *(("INFO", f"session {it} of {self.sessions} begins, from ") for it in range(1, self.begun + 1)),
               *(("WARN", it) for it in warnings), ("INFO", "all sessions have ended")]
        same(sorted(found), sorted(due))
        same([it for it in found if it[0] == "INFO"], [it for it in due if it[0] == "INFO"])
        return status, totals, NOTE.sub("", told)


def within_rights() -> List[str]:
    """What starts a program to which a file's mode says what it may do: root may write what nobody may, by its capabilities."""
    with open("/proc/self/status", encoding="ascii") as lines:
        capabilities = next(int(it.split()[1], 16) for it in lines if it.startswith("CapEff:"))
    overrides_modes = capabilities & 0b10
    return ["setpriv", "--inh-caps=-all", "--bounding-set=-all"] if overrides_modes else []


def outcome(tried: Tried, words: Words, prefix: Sequence[str] = (), limits: Optional[Callable[[], object]] = None) -> Tuple[int, bytes, str]:
    """The status, what was written, and what was told but notes."""
    run = subprocess.run([*prefix, tried.program, *words], stdin=subprocess.DEVNULL, stdout=subprocess.PIPE, stderr=subprocess.PIPE, timeout=SECONDS,
                         preexec_fn=limits)
    return run.returncode, run.stdout, NOTE.sub("", run.stderr.decode())


def serve(path: str) -> List[str]:
    return ["serve", "--addr", "127.0.0.1:0", "--sessions", "1", "--file", path, "d"]


def starts(path: str) -> Tuple[List[str], List[str]]:
    return serve(path), ["check", "--file", path]


def unopened(path: str, cause: str = NO_FOLDER) -> str:
    return f"jcrdt: cannot open {path}: {cause}\n"


def writes(count: int) -> List[List[object]]:
    return [["open", "d"], *([["assign", "d", [0, f"k{it % 7}"], it] for it in range(count)])]


def test_two_servers_on_one(tried: Tried, path: str) -> None:
    first = Started(tried, path, 2)
    first.talk(writes(3))
    for words in starts(path):
        same(outcome(tried, words), (1, b"", unopened(path, "another program uses it")))
    same(first.talk([["open", "d"], ["values", "d", [0, "k2"]]])[1], ["values", [2]])
    same(first.ended(), (0, [["total", "d", 3, 3, 3]], ""))
    same(outcome(tried, ["check", "--file", path]), (0, b'["doc","d",3,[["srv-1",3]]]\n["epoch",1]\n', ""))


def test_one_that_is_full_while_it_is_served(tried: Tried, path: str) -> None:
    """As on a full disk that stays so: sessions go on, and the next start has what was copied."""
    server = Started(tried, path, 1, 300_000)
    count = 4_000
    replies = server.talk(writes(count))
    same([it[0] for it in replies], ["opened"] + ["applied"] * count)
    status, totals, told = server.ended(FAILED, STOPPED)
    causes = ["copying stopped while sessions ran", "the file failed while it was closed"]
    found = [it.removeprefix("jcrdt: ").removesuffix(": an I/O error") for it in told.splitlines()]
    same((status, totals[0][:4], found), (1, ["total", "d", count, count], causes[: len(found)]))
    status, out, told = outcome(tried, ["check", "--file", path])
    document, epoch = replies_of(out)
    same((status, told, epoch, document[3]), (0, "", ["epoch", 1], [["srv-1", document[2]]]))
    if not totals[0][4] <= document[2] < count:
        raise Differs(f"{totals[0][4]} were noted as copied, {document[2]} are in the file")
    again = Started(tried, path, 1)
    same(again.talk([["open", "d"], ["assign", "d", [0, "k"], 1]])[1], ["applied", 1, 0, [document[2] + 1, "srv-2"]])
    same(again.ended(epoch=2, operations=document[2], replicas=1), (0, [["total", "d", 1, document[2] + 1, document[2] + 1]], ""))


def test_one_that_is_full_while_it_is_served_durable(tried: Tried, path: str) -> None:
    """The same with --durable: what is answered is in the file, and the session ends without a reply to what isn't. One whose changes were
    all answered reads on."""
    server = Started(tried, path, 3, 300_000, "--durable")
    server.begun += 1
    reader = Connection(server.address, ["d"])
    same(reader.ask("assign", "d", [0, "first"], 1), ["applied", 1, 0, [1, "srv-1"]])
    server.begun += 1
    answered = 1
    with socket.create_connection(server.address, timeout=SECONDS) as connection, contextlib.suppress(ConnectionError):
        replies = connection.makefile("rb")
        connection.sendall(b'["open","d"]\n')
        same(replies.readline(), b'["opened",2]\n')
        while True:
            connection.sendall(b'["assign","d",[0,"k"],1]\n' * 10)
            told = [replies.readline() for _ in range(10)]
            whole = [it for it in told if it]
            same(whole, [b'["applied",1,0,[%d,"srv-1"]]\n' % (answered + it + 1) for it in range(len(whole))])
            answered += len(whole)
            if len(whole) < 10:
                break
    with reader:
        same(reader.ask("values", "d", [0, "first"]), ["values", [1]])
    # Another one reads what is in memory, and its change is not answered either.
    server.begun += 1
    with socket.create_connection(server.address, timeout=SECONDS) as connection, contextlib.suppress(ConnectionError):
        replies = connection.makefile("rb")
        connection.sendall(b'["open","d"]\n')
        same(replies.readline(), b'["opened",3]\n')
        connection.sendall(b'["values","d",[0,"k"]]\n')
        same(replies.readline(), b'["values",[1]]\n')
        connection.sendall(b'["assign","d",[0,"k"],2]\n')
        same(replies.readline(), b"")
    status, totals, _ = server.ended(FAILED_DURABLY, ENDING)
    same((status, totals[0][:2]), (1, ["total", "d"]))
    status, out, errors = outcome(tried, ["check", "--file", path])
    document, epoch = replies_of(out)
    same((status, errors, epoch, document[3]), (0, "", ["epoch", 1], [["srv-1", document[2]]]))
    if not 0 < answered <= document[2] < totals[0][3]:
        raise Differs(f"{answered} were answered, {document[2]} are in the file, {totals[0][3]} were logged")


def on_small_disk(tried: Tried, path: str, room: int) -> Optional[Tuple[int, int, str]]:
    """Starts a server over a file and its log on a disk that has so many bytes beside them, and takes both back. Nothing where
    no disk can be mounted."""
    small = f"{os.path.dirname(path)}/small"
    size = sum(os.stat(it).st_size for it in (path, f"{path}-wal")) + room
    script = 'mount -t tmpfs -o size="$1" none "$2" || exit 99; cp "$3" "$3-wal" "$2" && "$4" serve --addr 127.0.0.1:0 --sessions 1 --file \
        "$2/${3##*/}" d; status=$?; cp "$2"/* "${3%/*}" && exit $status'
    os.mkdir(small)
    run = subprocess.run(["unshare", "-rm", "sh", "-c", script, "sh", str(size), small, path, tried.program],
                         stdin=subprocess.DEVNULL, stdout=subprocess.PIPE, stderr=subprocess.PIPE, timeout=SECONDS)
    os.rmdir(small)
    can_mount = run.returncode != 99 and b"unshare failed" not in run.stderr
    return (run.returncode, run.stdout.count(b"\n"), NOTE.sub("", run.stderr.decode())) if can_mount else None


def test_a_disk_that_is_full_while_a_start_folds(tried: Tried, path: str) -> None:
    """The log has more rows than the disk has room for: the start is refused, and no row is lost, nor is the epoch given out again."""
    server = Started(tried, path, 2)
    server.talk([["open", "d"], *([["assign", "d", [0, "k"], "x" * 200]] * 2_000)])
    wait_until("the log", lambda: os.stat(f"{path}-wal").st_size > 600_000)
    server.kill()
    for end in ("", "-wal"):
        shutil.copy(f"{path}{end}", f"{path}-copy{end}")
    rows = replies_of(outcome(tried, ["check", "--file", f"{path}-copy"])[1])[0][2]
    told = on_small_disk(tried, path, 131_072)
    if told is None:
        pytest.skip("no disk can be mounted")
    same(told, (1, 1, "jcrdt: the file failed while its log was folded in: the disk is full\n"))
    status, out, _ = outcome(tried, ["check", "--file", path])
    document, epoch = replies_of(out)
    same((status, epoch, document[:2], document[3][0][0]), (0, ["epoch", 2], ["doc", "d"], "srv-1"))
    same(document[2], rows)
    again = Started(tried, path, 1)
    same(again.talk([["open", "d"], ["assign", "d", [0, "k"], 1]])[1], ["applied", 1, 0, [document[2] + 1, "srv-3"]])
    same(again.ended(epoch=3, operations=document[2], replicas=1)[0], 0)


def test_one_that_may_not_grow_at_all(tried: Tried, path: str) -> None:
    for words in starts(path):
        status, out, told = outcome(tried, words, limits=partial(limited, 0))
        same((status, out, told), (1, b"", unopened(path, "an I/O error")))
    same(outcome(tried, ["check", "--file", path]), (0, b'["epoch",0]\n', ""))


def empty(path: str) -> None:
    """A file of no byte, which is an empty database to SQLite."""
    with open(path, "x", encoding="utf-8"):
        pass


def test_one_that_is_not_there(tried: Tried, path: str) -> None:
    """It may be misspelt: `check` says so, and makes nothing."""
    for _ in range(2):
        same(outcome(tried, ["check", "--file", path]), (1, b"", unopened(path, "it is not there")))
        same(os.listdir(os.path.dirname(path)), [])
    empty(path)
    same(outcome(tried, ["check", "--file", path]), (0, b'["epoch",0]\n', ""))


def test_a_read_only_one(tried: Tried, path: str) -> None:
    empty(path)
    same(outcome(tried, ["check", "--file", path])[0], 0)
    before = bytes_of(path)
    for name in filter(os.path.exists, (path, f"{path}-wal")):
        os.chmod(name, 0o444)
    os.chmod(os.path.dirname(path), 0o555)
    for words in starts(path):
        same(outcome(tried, words, prefix=within_rights()), (1, b"", unopened(path, "it may not be read and written")))
    same(bytes_of(path), before)
    os.chmod(os.path.dirname(path), 0o755)


def a_text(path: str) -> None:
    with open(path, "w", encoding="utf-8") as file:
        file.write("Dear all,\n" * 1_000)


def another_meta(path: str) -> None:
    with contextlib.closing(sqlite3.connect(path)) as database:
        database.execute("CREATE TABLE meta (name TEXT, value TEXT)")
        database.commit()


@pytest.mark.parametrize("make, cause", [
    (a_text, "it is no SQLite database"), (another_meta, "it is no stored log: the table entry is missing")], ids=["a text", "another table meta"])
def test_one_of_another_program(tried: Tried, path: str, make: Callable[[str], None], cause: str) -> None:
    make(path)
    before = bytes_of(path)
    for words in starts(path):
        same(outcome(tried, words), (1, NO_COPY, unopened(path, cause)))
    same(bytes_of(path), before)


def test_a_database_with_another_table(tried: Tried, path: str) -> None:
    """A database that has neither table gets both, and its own stays."""
    with contextlib.closing(sqlite3.connect(path)) as database:
        database.execute("CREATE TABLE letter (text TEXT)")
        database.execute("INSERT INTO letter VALUES ('Dear all')")
        database.commit()
    server = Started(tried, path, 1)
    server.talk(writes(2))
    same(server.ended(), (0, [["total", "d", 2, 2, 2]], ""))
    with contextlib.closing(sqlite3.connect(path)) as database:
        found = [database.execute(it).fetchall() for it in ("SELECT text FROM letter", "SELECT doc, place FROM entry", "PRAGMA integrity_check")]
    same(found, [[("Dear all",)], [("d", 1), ("d", 2)], [("ok",)]])


def test_a_folder_that_is_not_there_a_folder_no_name(tried: Tried, path: str) -> None:
    missing = f"{os.path.dirname(path)}/none/copy.db"
    for it, cause in ((missing, NO_FOLDER), (os.path.dirname(path), "it is a folder"), ("", NO_PATH)):
        for words in starts(it):
            same(outcome(tried, words), (1, b"", unopened(it, cause)))


def test_a_folder_where_no_file_may_be_made(tried: Tried, path: str) -> None:
    """The cause is found without a file that stays."""
    folder = os.path.dirname(path)
    os.chmod(folder, 0o555)
    for words, cause in zip(starts(path), ("a file may not be made in its folder", "it is not there")):
        same(outcome(tried, words, prefix=within_rights()), (1, b"", unopened(path, cause)))
    same(os.listdir(folder), [])
    os.chmod(folder, 0o755)


def without_log(path: str) -> None:
    """The file alone, as one moves it or backs it up by itself."""
    with contextlib.suppress(FileNotFoundError):
        os.unlink(f"{path}-wal")


def test_the_file_alone_after_an_end(tried: Tried, path: str) -> None:
    server = Started(tried, path, 1)
    server.talk(writes(3))
    same(server.ended(), (0, [["total", "d", 3, 3, 3]], ""))
    without_log(path)
    same(outcome(tried, ["check", "--file", path]), (0, b'["doc","d",3,[["srv-1",3]]]\n["epoch",1]\n', ""))


def test_the_file_alone_after_a_kill(tried: Tried, path: str) -> None:
    """What a kill leaves in the file alone is served under a name that was never used."""
    server = Started(tried, path, 2)
    server.talk(writes(3))
    server.kill()
    without_log(path)
    again = Started(tried, path, 1)
    same(again.talk([["open", "d"], ["assign", "d", [0, "k"], 1]])[1][3][1], "srv-2")
    same(again.ended(epoch=2)[0], 0)


def test_a_document_that_is_nearly_full(tried: Tried, path: str) -> None:
    """It is told when nine tenths of the replicas are reached, and at the next start."""
    operations = [operation(1, f"r{it}", [], [["m", 0]], "k", ["assign", it]) for it in range(231)]
    warning = "d is nearly full: 231 of 256 replicas"
    server = Started(tried, path, 1)
    server.talk([["open", "d"], *(["deliver", "d", it] for it in operations)])
    same(server.ended(warning), (0, [["total", "d", 231, 231, 231]], ""))
    again = Started(tried, path, 1)
    again.talk([["open", "d"]])
    same(again.ended(warning, epoch=2, operations=231, replicas=231), (0, [["total", "d", 0, 231, 231]], ""))


def test_one_without_an_epoch_left(tried: Tried, path: str) -> None:
    empty(path)
    same(outcome(tried, ["check", "--file", path])[0], 0)
    with contextlib.closing(sqlite3.connect(path)) as database:
        database.execute("UPDATE meta SET value = 9999999 WHERE name = 'epoch'")
        database.commit()
    status, out, told = outcome(tried, serve(path))
    same((status, out.partition(b"\n")[2], told), (1, NO_COPY, "jcrdt: all 9999999 epochs of the file are given out\n"))


def test_totals_that_nobody_reads(tried: Tried, path: str) -> None:
    server = Started(tried, path, 1)
    server.output.close()
    server.talk(writes(1))
    status = server.process.wait(SECONDS)
    same((status, NOTE.sub("", server.said())), (1, "jcrdt: standard output failed: Broken pipe (os error 32)\n"))
    same(outcome(tried, ["check", "--file", path])[1], b'["doc","d",1,[["srv-1",1]]]\n["epoch",1]\n')
