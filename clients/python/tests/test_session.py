"""The session over the real program: values, replies that are left unread, threads, and other sessions that
change the same lists meanwhile."""

import contextlib
import hashlib
import os
import signal
import socket
import threading
import time
from typing import Any, Callable, Dict, Iterator, List

import pytest
from conftest import IMPATIENT, SECONDS, Server, takes_silent_ones

import jcrdt
from jcrdt import session as sessions
from jcrdt import Away, Conflict, Counter, Lost, Refused, Session, settled

BOB = ["op", [1, "bob-1"], [], [[["m", 0]], "title"], ["assign", "Journey"]]
VALUE = {"title": "Trip", "votes": Counter(5), "huge": Counter(-2**70), "conflict": [1], "counter": {"counter": 2},
         "days": ["Oslo", {"votes": Counter(3)}, Counter(7), Conflict(["Bergen", Counter(2)]), None, [], {},
                  [[{"deep": [1, {"er": [Counter(1), 2]}]}], "x"]]}
Serve = Callable[..., Server]


def kinds(value: Any) -> Any:
    """The value with its Python types: a Counter and a dict of the same items are equal."""
    if isinstance(value, dict):
        return type(value).__name__, {key: kinds(inner) for key, inner in value.items()}
    return [kinds(inner) for inner in value] if isinstance(value, list) else value


@pytest.fixture
def alice() -> Iterator[Session]:
    with jcrdt.started(["d"], "alice") as session:
        session.open("d")
        yield session


def test_what_is_read_is_what_was_put(alice: Session) -> None:
    alice.put("d", [0], VALUE)
    assert kinds(alice.plain("d", [0])) == kinds(VALUE)
    alice.put("d", [0, "days", 2], {"again": [1, [2]]})
    assert alice.plain("d", [0, "days", 2]) == {"again": [1, [2]]}
    assert alice.extend("d", [0, "days"], ["y", {"a": [{"b": 1}]}, [1]])[1] == alice.items("d", [0, "days"])[-2][0]
    assert alice.plain("d", [0, "days"])[-3:] == ["y", {"a": [{"b": 1}]}, [1]]
    assert alice.plain("d", [0, "new"]) is None
    assert alice.append("d", [0, "new"], {"a": 1}) == alice.items("d", [0, "new"])[0][0]
    assert alice.extend("d", [0, "new"], []) == []


def test_conflicts(alice: Session) -> None:
    alice.put("d", [0], VALUE)
    alice.deliver("d", BOB)
    conflict = alice.plain("d", [0])
    assert conflict["title"] == Conflict(["Journey", "Trip"])
    front = alice.front("d")
    with pytest.raises(ValueError, match="2 values at one place"):
        alice.put("d", [0, "again"], conflict)
    assert alice.front("d") == front, "nothing was put"
    alice.put("d", [0, "again"], settled(conflict))
    assert kinds(alice.plain("d", [0, "again"])) == kinds(settled(conflict))


def test_chains(alice: Session) -> None:
    alice.put("d", [0], VALUE)
    alice.deliver("d", BOB)
    front, nothing = alice.front("d"), hashlib.sha256().hexdigest()
    [own] = front.keys() - {"bob-1"}
    lines = {name: [jcrdt.wire.encoded(it) + b"\n" for it in alice.operations("d") if it[1][1] == name] for name in front}
    whole = [(name, counter, hashlib.sha256(b"".join(lines[name])).hexdigest()) for name, counter in sorted(front.items())]
    assert alice.chains("d", {}, front) == whole and len(whole) == 2
    last = alice.chains("d", {own: front[own] - 1}, {own: front[own]})
    assert last == [(own, front[own], hashlib.sha256(lines[own][-1]).hexdigest())]
    assert alice.chains("d", front, {own: 1, "nobody": 1}) == [(own, 1, nothing), ("nobody", 1, nothing)]


@pytest.mark.parametrize("wrong", [1.5, 2**63, float("nan"), (1,), {1: "x"}, "x" * 4097, object(), {"k" * 129: 1}])
def test_a_value_that_cannot_be_put_changes_nothing(alice: Session, wrong: Any) -> None:
    alice.put("d", [0], {"title": "Trip", "days": [1, 2]})
    front = alice.front("d")
    for value in ({"title": "New", "price": wrong}, [1, [wrong]]):
        with pytest.raises(ValueError):
            alice.put("d", [0], value)
        with pytest.raises(ValueError):
            alice.append("d", [0, "days"], value)
    assert alice.front("d") == front and alice.plain("d", [0]) == {"title": "Trip", "days": [1, 2]}


def test_a_put_with_too_many_names_changes_nothing(alice: Session) -> None:
    for number in range(64):
        alice.let("d", f"mine {number}", [0])
    front = alice.front("d")
    with pytest.raises(Refused, match="variables-full"):
        alice.put("d", [0], {"a": 1, "b": [{"c": 1}]})
    assert alice.front("d") == front
    alice.put("d", [0], {"a": 1, "b": [1, 2]})


def test_many_requests_at_once(alice: Session) -> None:
    requests: List[List[Any]] = [["assign", "d", [0, "n"], number] for number in range(20_000)]
    replies = alice.ask_all(requests + [["nonsense"], ["values", "d", [0, "n"]]])
    assert len(replies) == len(requests) + 2 and replies[-1] == [[19_999]]
    assert isinstance(replies[-2], Refused) and replies[-2].number == 2
    # Much is read while much is sent.
    alice.assign("d", [0, "big"], "x" * 4096)
    assert alice.ask_all([["values", "d", [0, "big"]]] * 5000) == [[["x" * 4096]]] * 5000


def test_who_watches_is_told(alice: Session) -> None:
    watched = alice.watch("d", 0.01)
    before = next(watched)
    alice.deliver("d", BOB)
    assert next(watched) == {**before, "bob-1": 1}
    assert list(alice.watch("d", 0.01, timeout=0.05)) == [{**before, "bob-1": 1}]
    assert repr(alice) == "<Session of a program>"


def test_who_watches_keeps_its_session(serve: Serve, monkeypatch: pytest.MonkeyPatch) -> None:
    """However seldom it looks, where others wait at the server: one that is silent goes in its place."""
    monkeypatch.setattr(sessions, "SIGN_SECONDS", 0.2)
    server = serve("d", admission=IMPATIENT)
    with jcrdt.connected(server.address) as watcher:
        watcher.open("d")
        watched = watcher.watch("d", 3600)
        next(watched)
        thread = threading.Thread(target=lambda: pytest.raises(Lost, next, watched), daemon=True)
        thread.start()
        silent = jcrdt.connected(server.address)
        takes_silent_ones(server.address)
        with pytest.raises(Lost):
            silent.version()
        assert thread.is_alive() and watcher.front("d") == {}
    thread.join(SECONDS)


@contextlib.contextmanager
def writing(address: str, document: str, cursor: List[Any], pause: float = 0.0) -> Iterator[None]:
    """Another session inserts at the head of a list meanwhile."""
    stop = threading.Event()

    def work() -> None:
        with jcrdt.connected(address) as other:
            other.open(document)
            number = 0
            while not stop.is_set():
                number += 1
                other.insert(document, [*cursor, 0], f"other {number}")
                time.sleep(pause)

    thread = threading.Thread(target=work)
    thread.start()
    try:
        yield
    finally:
        stop.set()
        thread.join()


@pytest.mark.parametrize("pause", [0.0, 0.002])
def test_put_fills_its_own_elements(serve: Serve, pause: float) -> None:
    """Objects go into a list while another session inserts at its head."""
    server = serve("d")
    wanted = [{"town": f"t{number}", "nights": [number, {"km": number}]} for number in range(100)]
    with jcrdt.connected(server.address) as session:
        session.open("d")
        session.assign("d", [0, "days"], [])
        with writing(server.address, "d", [0, "days"], pause):
            for _ in range(5):
                session.put("d", [0, "days"], wanted)
        shown = session.plain("d", [0, "days"])
    mine = [it for it in shown if not (isinstance(it, str) and it.startswith("other "))]
    assert mine == wanted


def test_two_sessions_append_objects(serve: Serve) -> None:
    server = serve("d")

    def work(who: str) -> None:
        with jcrdt.connected(server.address) as session:
            session.open("d")
            for number in range(100):
                session.append("d", [0, "todos"], {"text": f"{who}{number}", "done": False})

    threads = [threading.Thread(target=work, args=(who,)) for who in "abc"]
    for thread in threads:
        thread.start()
    for thread in threads:
        thread.join()
    with jcrdt.connected(server.address) as session:
        session.open("d")
        todos = session.plain("d", [0, "todos"])
    assert all(isinstance(it, dict) and set(it) == {"text", "done"} for it in todos)
    texts = [it["text"] for it in todos]
    assert sorted(texts) == sorted(f"{who}{number}" for who in "abc" for number in range(100))
    for who in "abc":
        own = [it for it in texts if it.startswith(who)]
        assert own == [f"{who}{number}" for number in range(100)], "each session's are in their order"


def test_a_name_is_bound_to_the_element(serve: Serve) -> None:
    """Elements that were assigned anew, too: `conflicts` doesn't have their ids."""
    server = serve("d")
    with jcrdt.connected(server.address) as session:
        session.open("d")
        ids = session.extend("d", [0, "list"], [f"old {number}" for number in range(20)])
        for number in range(20):
            session.assign("d", [0, "list", number + 1], f"new {number}")
        with writing(server.address, "d", [0, "list"], 0.0005):
            for _ in range(20):
                for number, element in enumerate(ids):
                    assert session.bind("d", "it", [0, "list"], element)
                    assert session.values("d", ["it"]) == [f"new {number}"]
        session.delete("d", ["it"])
        assert not session.bind("d", "it", [0, "list"], ids[19])
        assert not session.bind("d", "it", [0, "nothing"], ids[0])


def test_an_element_that_is_deleted_meanwhile_stays_deleted(serve: Serve) -> None:
    server = serve("d")
    stop = threading.Event()

    def clear() -> None:
        with jcrdt.connected(server.address) as other:
            other.open("d")
            while not stop.is_set():
                with contextlib.suppress(Refused):
                    other.delete("d", [0, "list", 1])

    with jcrdt.connected(server.address) as session:
        session.open("d")
        session.assign("d", [0, "list"], [])
        thread = threading.Thread(target=clear)
        thread.start()
        for number in range(100):
            session.put("d", [0, "list"], [{"n": number}] * 3)
        stop.set()
        thread.join()
        shown = session.plain("d", [0, "list"])
        assert all(it == {"n": 99} for it in shown), shown


def freeze(server: Server) -> None:
    """Stops a server until SIGCONT."""
    server.process.send_signal(signal.SIGSTOP)
    os.waitpid(server.process.pid, os.WUNTRACED)


@pytest.fixture
def stopped(serve: Serve) -> Iterator[Dict[str, Any]]:
    """A session of a server that can be stopped for a moment."""
    server = serve("d")
    with jcrdt.connected(server.address) as session:
        session.open("d")
        for key in "abc":
            session.assign("d", [0, key], key * 3)
        yield {"server": server, "session": session}


def test_a_session_with_an_unread_reply_fails(stopped: Dict[str, Any]) -> None:
    """Ctrl-C while a reply is due: the next request doesn't get that reply."""
    server, session = stopped["server"], stopped["session"]
    freeze(server)
    before = signal.signal(signal.SIGALRM, signal.default_int_handler)
    signal.setitimer(signal.ITIMER_REAL, 0.3)
    with pytest.raises(KeyboardInterrupt):
        session.values("d", [0, "a"])
    signal.signal(signal.SIGALRM, before)
    server.process.send_signal(signal.SIGCONT)
    for key in "bca":
        with pytest.raises(Lost, match="no reply yet"):
            session.values("d", [0, key])


def test_a_reply_that_takes_too_long(stopped: Dict[str, Any]) -> None:
    server, session = stopped["server"], stopped["session"]
    freeze(server)
    session.seconds = 0.5
    with pytest.raises(Lost, match="no reply for 0.5 s"):
        session.add("d", [0, "n"], 1)
    server.process.send_signal(signal.SIGCONT)
    with pytest.raises(Lost):
        session.sum("d", [0, "n"])


def forked(call: Callable[[], object]) -> str:
    """What a call returns or raises in a child of this process."""
    read, write = os.pipe()
    child = os.fork()
    if not child:
        try:
            told = repr(call())
        except BaseException as error:  # pylint: disable=broad-except
            told = repr(error)
        os.write(write, told.encode())
        os._exit(0)
    os.close(write)
    with open(read, encoding="utf-8") as found:
        text = found.read()
    os.waitpid(child, 0)
    return text


def test_a_fork_leaves_the_session_to_the_parent(stopped: Dict[str, Any]) -> None:
    """Each use of it in the child is Lost, also while a thread of the parent asks, and a close in the child ends nothing."""
    session = stopped["session"]
    ended, wrong = threading.Event(), []

    def ask() -> None:
        while not ended.is_set():
            if session.values("d", [0, "a"]) != ["aaa"]:
                wrong.append(1)

    thread = threading.Thread(target=ask)
    thread.start()
    uses: List[Callable[[], object]] = [lambda: session.values("d", [0, "b"]), lambda: session.put("d", [0, "n"], {"a": [{}]}),
                                        lambda: session.next_push(0.1), lambda: session.answer(b'["version"]')]
    for use in uses:
        assert forked(use).startswith("Lost("), use
    assert forked(session.close) == "None"
    ended.set()
    thread.join()
    assert not wrong and session.values("d", [0, "b"]) == ["bbb"]


def test_threads_share_a_session(stopped: Dict[str, Any]) -> None:
    session, wrong = stopped["session"], []

    def work(key: str) -> None:
        for _ in range(300):
            if session.values("d", [0, key]) != [key * 3]:
                wrong.append(key)

    threads = [threading.Thread(target=work, args=(key,)) for key in "abc"]
    for thread in threads:
        thread.start()
    for thread in threads:
        thread.join(60)
    assert not wrong


def test_a_server_that_ends(stopped: Dict[str, Any]) -> None:
    server, session = stopped["server"], stopped["session"]
    server.kill()
    with pytest.raises(Lost):
        session.values("d", [0, "a"])
    with pytest.raises(Away):
        jcrdt.connected(server.address)


def test_a_line_too_long_has_its_refusal(stopped: Dict[str, Any]) -> None:
    session = stopped["session"]
    with pytest.raises(Refused, match="line-too-long"):
        session.assign("d", [0, "k"], "x" * 200_000)
    with pytest.raises(Lost):
        session.values("d", [0, "a"])


def test_used_up_sessions_are_noticed(serve: Serve) -> None:
    server = serve("d", sessions=1)
    with jcrdt.connected(server.address):
        with pytest.raises(Away, match="no session begins within 1 s: the server's sessions may be used up"):
            jcrdt.connected(server.address, begin=1)


@pytest.mark.parametrize("reply, word", [(b"HTTP/1.1 400 Bad Request\r\n\r\n", "no server of jcrdt"), (b"", "ended"),
                                         (b'["opened",1]\n', "no server of jcrdt")])
def test_no_server_of_jcrdt(reply: bytes, word: str) -> None:
    with answering(reply) as address:
        with pytest.raises(Away, match=word):
            jcrdt.connected(address, begin=2)


def test_who_is_not_admitted_learns_it() -> None:
    """A hub answers 103 and ends the connection: that isn't a connection which was lost."""
    with answering(b'["no",103,"not-allowed"]\n') as address, pytest.raises(Refused, match="103 not-allowed"):
        jcrdt.connected(address, begin=5)


@contextlib.contextmanager
def answering(*replies: bytes) -> Iterator[str]:
    """A false server: to each piece that it reads it answers the next of these."""
    with socket.create_server(("127.0.0.1", 0)) as listener:
        def work() -> None:
            with listener.accept()[0] as connection:
                for reply in replies:
                    if not connection.recv(1 << 16):
                        return
                    connection.sendall(reply)

        thread = threading.Thread(target=work)
        thread.start()
        yield "127.0.0.1:%d" % listener.getsockname()[1]
        thread.join(20)


@pytest.mark.parametrize("reply", [b"5\n", b"null\n", b"[]\n", b'["no"]\n', b"[" * 100_000 + b"\n", b'["keys",["a"]]\n', b"\xff\n"])
def test_a_reply_that_is_none(reply: bytes) -> None:
    with answering(b'["version",2]\n', reply) as address:
        with jcrdt.connected(address) as session:
            with pytest.raises(Lost):
                session.values("d", [0])
            with pytest.raises(Lost):
                session.values("d", [0])


def test_a_reply_without_an_end() -> None:
    with answering(b'["version",2]\n', b"x" * 300_000) as address:
        with jcrdt.connected(address, limit=100_000) as session:
            with pytest.raises(Lost, match="more than 100000 bytes"):
                session.values("d", [0])


@pytest.mark.parametrize("limit, is_taken", [(20, True), (19, False)])
def test_a_reply_of_its_limit(limit: int, is_taken: bool) -> None:
    with answering(b'["version",2]\n', b'["values",["abcde"]]\n') as address:
        with jcrdt.connected(address, limit=limit) as session:
            if is_taken:
                assert session.values("d", [0]) == ["abcde"]
            else:
                with pytest.raises(Lost, match="more than 19 bytes"):
                    session.values("d", [0])


def test_operations_that_are_none_or_come_again() -> None:
    page = jcrdt.wire.encoded(["ops", [BOB] * 64]) + b"\n"
    for reply in (b'["ops",[5]]\n', b'["ops",[["op",[1,"x"],[[["a"],1]],[[],0],["delete"]]]]\n', page):
        with answering(b'["version",2]\n', reply) as address:
            with jcrdt.connected(address) as session:
                with pytest.raises(Lost):
                    list(session.operations("d"))


def test_pushes_are_no_replies() -> None:
    pushes = b'["changed","d",[["a",1]]]\n["reopened",["d"]]\n["heard","d",3,{"caret":1.5}]\n'
    replies = [b'["version",2]\n', pushes + b'["values",[1]]\n' + pushes, b'["no",100,"server-lost"]\n',
               b'["no",101,"server-away"]\n', b'["no",102,"reply-too-long"]\n', pushes]
    with answering(*replies) as address:
        with jcrdt.connected(address) as session:
            assert session.values("d", [0]) == [1]
            assert session.next_push(0) == ["changed", "d", [["a", 1]]] and session.next_push(0) == ["reopened", ["d"]]
            assert session.next_push(1) == ["heard", "d", 3, {"caret": 1.5}]
            with pytest.raises(Lost):
                session.add("d", [0, "n"], 1)
            with pytest.raises(Away):
                session.add("d", [0, "n"], 1)
            with pytest.raises(Refused):
                session.show("d", [0])
            assert session.next_push(0.01) == ["changed", "d", [["a", 1]]]
