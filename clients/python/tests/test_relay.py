"""The relay between real servers, and peers that lie, freeze or never end a line."""

import asyncio
import contextlib
import json
import os
import shutil
import signal
import socket
import subprocess
import sys
import threading
import time
from pathlib import Path
from typing import Any, Callable, Dict, Iterator, List, Union

import pytest

from conftest import (DURABLE, IMPATIENT, PACKAGE, SECONDS, TOP, Older, Server, copied, put_back, takes_long, takes_silent_ones,
                      wait_until as wait_for)

from jcrdt import operation_log, pull, wire
from jcrdt import relay as relay_module

Serve = Callable[..., Server]
# What a peer answers to a word: bytes of a line, or what writes to the connection.
Answer = Union[bytes, Callable[[socket.socket], None]]
OPERATION = b'["op",[1,"z"],[],[[["m",0]],"z"],["assign",1]]'
# A relay that waits for a reply as long as a test does, and for agreement at its end: on a slow machine it takes nobody for
# one that is away.
PATIENT = f"from jcrdt import link, relay; link.LIMITS = link.LIMITS._replace(begin={SECONDS}, silence={SECONDS}, slowest={SECONDS})"
PATIENT_END = f"relay.LAST_ROUNDS = relay.LAST_LOOK = {SECONDS}"
GOOD: Dict[str, Answer] = {
    "open": b'["opened",1]', "front": b'["front",[]]', "ops": b'["ops",[]]', "deliver": b'["known"]',
    "show": b'["show",[]]', "forget": b'["forgotten"]', "version": b'["version",2]', "quit": b'["bye"]',
    "chains": b'["no",2,"bad-request"]'}
# Replies that no server gives: the word of the request, and the line.
BAD_REPLIES = [
    ("ops", b'["ops",[5]]'), ("ops", b'["ops",5]'), ("ops", b'["ops"]'), ("ops", b'5'), ("ops", b'null'), ("ops", b'[]'),
    ("ops", b'{"a":1}'), ("ops", b'["ops",["\xff"]]'), ("ops", b"[" * 100_000), ("ops", b'["no"]'), ("ops", b'["no","x","y"]'),
    ("ops", b'["ops",[["op",["1","z"],[],[[],0],["delete"]]]]'),
    ("ops", b'["ops",[["op",[1,"z"],null,[[],0],["delete"]]]]'),
    ("ops", b'["ops",[["op",[1,"z"],[5],[[],0],["delete"]]]]'),
    ("ops", b'["ops",[["op",[1,"z"],[["q","w"]],[[],0],["delete"]]]]'),
    ("ops", b'["ops",[["op",[100000,"alice-1"],[["alice-1",99999]],[[],0],["delete"]]]]'),
    ("ops", b'["ops",[["op",[1,"z"],[],[[["m",0]],"z"],["assign",' + b"[" * 900 + b"]" * 900 + b']]]]'),
    ("ops", b'["ops",[["op",[1,"\\ud800"],[],[[],0],["delete"]]]]'),
    ("front", b'["front"]'), ("front", b'["front",7]'), ("front", b'5'), ("front", b'["front",[["a"]]]'),
    ("front", b'["front",[["a","b"]]]'), ("front", b'["front",[["a",1e400]]]'), ("front", b'["front",[["a",NaN]]]'),
    ("front", b'["front",[["alice-1",18446744073709551615]]]'), ("front", b'["front",[["alice-1",100000]]]'),
    ("front", b'["front",%s]' % json.dumps([[f"z{n:05}", 1] for n in range(5_000)]).encode()),
    ("open", b'hello'), ("open", b'["no",99,"what is that\x1b[2J"]'),
    ("open", b"[" * 100_000),
]


class Peer:
    """Takes connections and answers each word of a request by a fixed line."""

    def __init__(self, answers: Dict[str, Answer]) -> None:
        self.answers = {**GOOD, **answers}
        self.listener = socket.create_server(("127.0.0.1", 0))
        self.address = f"127.0.0.1:{self.listener.getsockname()[1]}"
        self.connections, self.began = 0, time.monotonic()
        threading.Thread(target=self._accept, daemon=True).start()

    def _accept(self) -> None:
        with contextlib.suppress(OSError):
            while True:
                connection, _ = self.listener.accept()
                self.connections += 1
                threading.Thread(target=self._serve, args=(connection,), daemon=True).start()

    def _serve(self, connection: socket.socket) -> None:
        with contextlib.suppress(OSError, ValueError), connection, connection.makefile("rb") as lines:
            for line in lines:
                answer = self.answers[json.loads(line)[0]]
                if callable(answer):
                    answer(connection)
                else:
                    connection.sendall(answer + b"\n")


class Relay:
    """`python -m jcrdt relay`, by the module alone. It is PATIENT, also at its end unless it is said to end soon."""

    def __init__(self, folder: Path, *words: str, ends_soon: bool = False, with_more: str = "pass") -> None:
        self.told, self.said = folder / "relay.err", folder / "relay.out"
        script = "; ".join([PATIENT, *([] if ends_soon else [PATIENT_END]), with_more, "relay.main()"])
        command = [sys.executable, "-B", "-c", script, *words, "--doc", "d"]
        with open(self.told, "ab") as errors, open(self.said, "ab") as output:
            self.process = subprocess.Popen(command, stdout=output, stderr=errors,
                                            env={**os.environ, "PYTHONPATH": str(PACKAGE)})

    def errors(self) -> str:
        return self.told.read_text()

    def output(self) -> str:
        return self.said.read_text()

    def end(self) -> int:
        """SIGTERM ends it with a status."""
        self.process.send_signal(signal.SIGTERM)
        return self.process.wait(2 * SECONDS)

    def catches(self, number: int) -> bool:
        """Whether it has a handler of a signal: `relay` takes it away when the signal has come."""
        with open(f"/proc/{self.process.pid}/status", encoding="utf-8") as status:
            caught = next(line for line in status if line.startswith("SigCgt")).split()[1]
        return bool(int(caught, 16) >> (number - 1) & 1)

    def is_connected_to(self, address: str) -> bool:
        """Whether it has a connection there, which neither side has closed."""
        place = f"0100007F:{int(address.rsplit(':')[1]):04X}"
        with open("/proc/net/tcp", encoding="ascii") as table:
            rows = [it.split() for it in table][1:]
        sockets = {f"socket:[{it[9]}]" for it in rows if it[2] == place and it[3] == "01"}
        return any(os.readlink(it) in sockets for it in Path(f"/proc/{self.process.pid}/fd").iterdir())

    def memory(self) -> int:
        """The memory that it has, in MB."""
        with open(f"/proc/{self.process.pid}/status", encoding="utf-8") as status:
            return int(next(line for line in status if line.startswith("VmRSS")).split()[1]) >> 10


@pytest.fixture
def relay(tmp_path: Path) -> Iterator[Callable[..., Relay]]:
    relays: List[Relay] = []

    def start(*words: str, **options: Any) -> Relay:
        folder = tmp_path / f"relay{len(relays)}"
        folder.mkdir()
        relays.append(Relay(folder, *words, **options))
        return relays[-1]

    yield start
    for it in relays:
        if it.process.poll() is None:
            it.process.kill()
            it.process.wait()


class Session:
    """One session of a server that has opened d."""

    def __init__(self, address: str) -> None:
        host, port = address.rsplit(":", 1)
        self.connection = socket.create_connection((host, int(port)), timeout=SECONDS)
        self.lines = self.connection.makefile("rwb")
        self.ask(["open", "d"])

    def ask(self, *requests: List[Any]) -> List[Any]:
        """The replies to some requests that are sent at once."""
        self.lines.write(b"".join(json.dumps(request).encode() + b"\n" for request in requests))
        self.lines.flush()
        return [json.loads(self.lines.readline()) for _ in requests]

    def __enter__(self) -> "Session":
        return self

    def __exit__(self, *_: Any) -> None:
        self.lines.close()
        self.connection.close()


def asked(address: str, *requests: List[Any]) -> List[Any]:
    """The replies to some requests in a session of its own."""
    with Session(address) as session:
        return session.ask(*requests)


def write(server: Server, key: str, count: int = 1) -> None:
    replies = asked(server.address, *(["assign", "d", [0, key], number] for number in range(count)))
    assert all(it[0] == "applied" for it in replies), replies[-1]


def comes(server: Server, key: str, last: Any = None) -> None:
    """Waits until a key has a value, or this one."""
    with Session(server.address) as session:
        def is_there() -> bool:
            found = session.ask(["values", "d", [0, key]])[0][1]
            return bool(found) and last in (None, found[-1])
        wait_for(is_there)


def reaches(server: Server, front: Dict[str, int]) -> None:
    """Waits until a server has this front."""
    with Session(server.address) as session:
        def is_there() -> bool:
            found = dict(session.ask(["front", "d"])[0][1])
            return all(found.get(replica, 0) >= counter for replica, counter in front.items())
        wait_for(is_there)


def pauses(connections: int) -> float:
    """How long one that is left out at each of so many connections was left alone between them, in seconds, at least."""
    return sum(min(60.0, 2.0 ** strikes / 2) for strikes in range(1, connections))


def test_servers_agree(serve: Serve, relay: Callable[..., Relay]) -> None:
    """Two servers that write, one of which is killed in between."""
    alice, bob = serve("d", name="alice"), serve("d", name="bob")
    write(alice, "a", 300)
    kept = relay(alice.address, bob.address)
    comes(bob, "a")
    wait_for(lambda: kept.output() == "d: all 2 agree\n")
    bob.kill()
    wait_for(lambda: f"{bob.address}: not connected" in kept.errors())
    write(alice, "b")
    bob.start()
    comes(bob, "b")
    write(bob, "c", 100)
    comes(alice, "c")
    wait_for(lambda: kept.output() == "d: all 2 agree\n" * 2)
    assert kept.end() == 0
    lines = kept.errors().splitlines()
    # It may look while bob is away: that is another reason.
    away = [it for it in lines if it.startswith(f"{bob.address}: not connected: ")]
    assert 1 <= len(away) == len({*away}) and lines.count(f"{bob.address}: connected") == 2, lines
    assert len(lines) == len(away) + 3, lines
    assert asked(alice.address, ["show", "d", [0]]) == asked(bob.address, ["show", "d", [0]])


def test_it_keeps_its_session_where_others_wait(serve: Serve, relay: Callable[..., Relay]) -> None:
    """A server takes sessions back from who is silent. The relay isn't, however seldom it asks for news."""
    alice, bob = serve("d", name="alice", admission=IMPATIENT), serve("d", name="bob")
    kept = relay(alice.address, bob.address, "--every", "3600", ends_soon=True, with_more="relay.SIGN_SECONDS = 0.2")
    wait_for(lambda: kept.output() == "d: all 2 agree\n")
    with contextlib.closing(socket.create_connection(("127.0.0.1", int(alice.address.rsplit(":")[1])))) as silent:
        silent.sendall(b'["version"]\n')
        assert silent.recv(100)
        takes_silent_ones(alice.address)
        assert not silent.recv(100)
    assert kept.is_connected_to(alice.address) and kept.end() == 0
    assert sorted(kept.errors().splitlines()) == sorted(f"{it.address}: connected" for it in (alice, bob))


def test_bad_replies_harm_nobody_else(serve: Serve, relay: Callable[..., Relay]) -> None:
    """Each kind of bad reply by a peer of its own, all in one relay: each is named once, and left out."""
    alice, bob = serve("d", name="alice"), serve("d", name="bob")
    peers = [Peer({word: line}) for word, line in BAD_REPLIES]
    kept = relay(alice.address, bob.address, *(peer.address for peer in peers))
    for number in range(4):
        write(alice, f"k{number}", 100)
        comes(bob, f"k{number}")

    def named(peer: Peer) -> List[str]:
        return [it for it in kept.errors().split("\n") if peer.address in it and "connected" not in it]

    wait_for(lambda: all(map(named, peers)))
    assert kept.process.poll() is None
    for peer, (word, line) in zip(peers, BAD_REPLIES):
        assert len(named(peer)) == 1, (word, line[:80], named(peer))
        assert pauses(peer.connections) <= time.monotonic() - peer.began
    assert "\x1b" not in kept.errors()
    assert "agree" not in kept.output()
    assert kept.end() == 1


@pytest.mark.parametrize("reply", [b'["applied"]', b'["applied","x",0,[1,"z"]]', b'[]', b'hello', b'["held"]', b'["opened",1]'])
def test_bad_replies_to_deliveries(serve: Serve, relay: Callable[..., Relay], reply: bytes) -> None:
    alice, bob, peer = serve("d", name="alice"), serve("d", name="bob"), Peer({"deliver": reply})
    write(alice, "a")
    kept = relay(alice.address, bob.address, peer.address)
    comes(bob, "a")
    wait_for(lambda: f"{peer.address}: left out" in kept.errors())
    write(bob, "b")
    comes(alice, "b")
    assert kept.end() == 1


@takes_long
def test_a_line_without_an_end(serve: Serve, relay: Callable[..., Relay]) -> None:
    """Bytes without a newline, and a line that goes on for ever within what is shown, fill no memory."""
    def flood(connection: socket.socket) -> None:
        while True:
            connection.sendall(b"x" * (1 << 20))

    alice, bob = serve("d", name="alice"), serve("d", name="bob")
    peers = [Peer({"front": flood}), Peer({"open": flood}), Peer({"ops": flood})]
    kept = relay(alice.address, bob.address, *(peer.address for peer in peers))
    most = [0]

    def are_left_out() -> bool:
        most[0] = max(most[0], kept.memory())
        return all(f"{peer.address}: left out" in kept.errors() for peer in peers)

    wait_for(are_left_out)
    write(alice, "a")
    comes(bob, "a")
    # They are tried again, too.
    wait_for(lambda: are_left_out() and all(peer.connections > 2 for peer in peers))
    assert most[0] < 250, most
    for peer in peers:
        assert kept.errors().count(f"{peer.address}: left out") == 1, kept.errors()
    kept.end()


@takes_long
def test_a_server_that_freezes_in_mid_pull(serve: Serve, relay: Callable[..., Relay]) -> None:
    """The others go on while it is frozen, also with bursts of more than a page."""
    servers = [serve("d", name=it) for it in ("alice", "bob", "carol")]
    alice, bob, carol = servers
    for _ in range(3):
        write(alice, "k", 12_000)
    kept = relay(*(it.address for it in servers))
    reaches(bob, {"alice-1": 1})
    alice.process.send_signal(signal.SIGSTOP)
    try:
        assert "agree" not in kept.output()
        for number, burst in enumerate((1, 100, 500, 1)):
            write(bob, f"b{number}", burst)
            comes(carol, f"b{number}", burst - 1)
        assert f"{alice.address}: not connected" not in kept.errors()
    finally:
        alice.process.send_signal(signal.SIGCONT)
    wait_for(lambda: "agree" in kept.output())
    assert "Traceback" not in kept.errors() and "never retrieved" not in kept.errors()
    assert kept.end() == 0


def forged(number: int, front: List[Any], replica: str = "alice-1", key: str = "forged") -> List[Any]:
    return ["op", [number, replica], front, [[["m", 0]], key], ["assign", "FORGED"]]


FORGERIES = {
    "its first operation": [forged(1, [])],
    "a later one after a chain of another": [forged(1, [], "mallory-1"), forged(2, [["mallory-1", 1]], "mallory-1"),
                                             forged(3, [["mallory-1", 2]])],
}


class Forgery:
    """Alice, bob, carol, who has alice's first operation, and a peer that makes up operations of alice. A first relay has
    delivered these to bob, who had none of her own."""

    def __init__(self, serve: Serve, relay: Callable[..., Relay], page: List[List[Any]]) -> None:
        self.alice, self.bob, self.carol = (serve("d", name=it) for it in ("alice", "bob", "carol"))
        write(self.alice, "first")
        first = asked(self.alice.address, ["ops", "d", [], 1])[0][1][0]
        assert asked(self.carol.address, ["deliver", "d", first])[0][0] == "applied"
        self.page, self.made = page, {name: counter for _, (counter, name), *_ in page}
        self.served = threading.Event()
        self.peer = Peer({"front": json.dumps(["front", sorted(self.made.items())]).encode(), "ops": self._operations})
        self.olders = [Older(it) for it in (self.bob, self.carol, self.alice)]
        early = relay(self.bob.address, self.peer.address)
        reaches(self.bob, self.made)
        early.end()
        self.served.clear()

    def _operations(self, connection: socket.socket) -> None:
        """At a start of the relay, once, all that is made up."""
        connection.sendall(json.dumps(["ops", [] if self.served.is_set() else self.page]).encode() + b"\n")
        self.served.set()

    def relay(self, relay: Callable[..., Relay]) -> Relay:
        """A relay of all, that has what is made up. The servers aren't asked for chains: each judges what it gets."""
        kept = relay(self.peer.address, *(it.address for it in self.olders))
        wait_for(self.served.is_set)
        return kept


@pytest.mark.parametrize("what", FORGERIES)
def test_made_up_operations_silence_nobody(serve: Serve, relay: Callable[..., Relay], what: str) -> None:
    """A peer makes up operations of alice, before she makes one or later. What she makes reaches carol, who
    had her first one, and bob, who can't know it from what follows the made-up one. Nobody says that all agree."""
    made_up = Forgery(serve, relay, FORGERIES[what])
    alice, bob, carol = made_up.alice, made_up.bob, made_up.carol
    kept = made_up.relay(relay)
    # An operation knows what the one before it knows: else bob must refuse it.
    reaches(alice, {name: counter for name, counter in made_up.made.items() if name != "alice-1"})
    for number in range(6):
        write(alice, f"real{number}", 20)
        comes(carol, f"real{number}")
    write(carol, "of carol", 3)
    comes(alice, "of carol")
    comes(bob, "of carol")
    assert "agree" not in kept.output()
    assert kept.end() == 1


def test_who_took_a_made_up_operation_is_named(serve: Serve, relay: Callable[..., Relay]) -> None:
    """Alice's fourth operation doesn't know what the made-up third one knows. So bob, who has that one, must refuse it,
    whoever delivers it. The relay says so, and alice and carol go on."""
    made_up = Forgery(serve, relay, FORGERIES["a later one after a chain of another"])
    alice, bob, carol = made_up.alice, made_up.bob, made_up.carol
    write(alice, "real", 20)
    kept = made_up.relay(relay)
    comes(carol, "real", last=19)
    write(carol, "of carol", 3)
    comes(alice, "of carol", last=2)
    older = made_up.olders[0].address
    wait_for(lambda: f"{older}: d: refused 4 of alice-1: 13 bad-front" in kept.errors())
    assert asked(bob.address, ["front", "d"])[0][1] == [["alice-1", 3], ["mallory-1", 2]]
    assert "agree" not in kept.output()
    assert kept.end() == 1
    assert f"d: {older} lacks " in kept.output()


def test_contested_while_a_page_is_under_way() -> None:
    """A server is asked for what follows a made-up operation, and meanwhile another refuses that one. What it handed out
    then isn't all that it has: it is asked for the rest, whether it is a page or many."""
    for count, at in ((20, 1), (500, 1), (500, 4)):
        log = operation_log.Log("d")
        for made in FORGERIES["a later one after a chain of another"]:
            log.add(made)
        real = [["op", [number, "alice-1"], [["alice-1", number - 1]] if number > 1 else [], [[["m", 0]], "k"], ["assign", number]]
                for number in range(1, count + 1)]
        alice: Any = Answering(real, at, lambda: log.contest("alice-1"))
        place = operation_log.Listener(log, {"alice-1": count})

        async def pull_twice() -> None:
            for _ in range(2):
                await pull.pull(alice, place)

        asyncio.run(pull_twice())
        assert {it.text for it in log.operations} >= {wire.encoded(it) for it in real}
        assert alice.asked < 40


def test_what_was_no_agreement_any_more_is_said_once_it_is_one_again(monkeypatch: pytest.MonkeyPatch) -> None:
    """What all show was compared, and meanwhile a stream was cut. Behind it the fronts are as before."""
    said: List[str] = []
    kept, places = relay_module.Relay([], ["d"], 0.0, print, said.append), [object()]
    found = iter([places, [], [], places, places])

    async def alike(_: object) -> bool:
        return True

    monkeypatch.setattr(kept, "_agreeing", lambda _: next(found))
    monkeypatch.setattr(kept, "_alike_now", alike)
    with pytest.raises(RuntimeError, match="StopIteration"):
        asyncio.run(kept._look(kept.logs[0]))
    assert said == ["d: all 1 agree"]


class Answering:
    """The session of a server that has these operations of one replica. Something happens while one of the replies is due."""

    def __init__(self, operations: List[List[Any]], at: int, meanwhile: Callable[[], object]) -> None:
        self.operations, self.at, self.meanwhile, self.asked = operations, at, meanwhile, 0

    async def front(self, _: str) -> Dict[str, int]:
        return {"alice-1": len(self.operations)}

    async def ask_lines(self, lines: List[bytes], take: Callable[[bytes], object] = lambda _: None) -> List[bytes]:
        replies = []
        for line in lines:
            self.asked += 1
            [_, _, front, most] = json.loads(line)
            start = dict(front).get("alice-1", 0)
            replies.append(wire.encoded(["ops", self.operations[start:start + most]]))
            if self.asked == self.at:
                self.meanwhile()
            take(replies[-1])
        return replies


def test_equal_fronts_and_other_documents(serve: Serve, relay: Callable[..., Relay]) -> None:
    """A peer with the front of the others that shows something else: nobody says that all agree."""
    alice = serve("d", name="alice")
    write(alice, "a", 3)
    peer = Peer({"front": b'["front",[["alice-1",3]]]', "show": b'["show",[["map",[]]]]'})
    kept = relay(alice.address, peer.address)
    wait_for(lambda: "the documents differ" in kept.errors())
    # Asked for all it has, it shows that it has nothing.
    wait_for(lambda: f"{peer.address}: left out: it sends a front of operations" in kept.errors())
    assert kept.errors().count("the documents differ") == 1
    assert "agree" not in kept.output()
    assert kept.end() == 1


def test_a_refusal_is_no_agreement(serve: Serve, relay: Callable[..., Relay]) -> None:
    """Two servers of before, of one name, have one front and refuse each other's operation."""
    one = serve("d", name="same")
    folder = Path(one.file).parent / "other"
    folder.mkdir()
    other = Server(folder, ["d"], "same")
    try:
        write(one, "a")
        write(other, "b")
        kept = relay(Older(one).address, Older(other).address)
        wait_for(lambda: kept.errors().count("15 id-conflict") == 2)
        # What others made goes both ways behind that.
        for server, peer, name in ((one, other, "ada"), (other, one, "bob")):
            asked(server.address, ["deliver", "d", ["op", [1, name], [], [[["m", 0]], name], ["assign", 1]]])
            comes(peer, name)
        assert "agree" not in kept.output()
        assert kept.end() == 1
    finally:
        other.kill()


def state(server: Server) -> List[Any]:
    return asked(server.address, ["front", "d"], ["show", "d", [0]], ["held", "d"])


def test_a_server_that_differs_is_left_out(twins: List[Server], serve: Serve, relay: Callable[..., Relay]) -> None:
    """A server over a copy of another's file, under its name. The others go on without it, and it with them once it has a new,
    empty file and a name of its own."""
    one, other = twins
    carol = serve("d", name="carol")
    other.kill()
    kept = relay(one.address, other.address, carol.address)
    comes(carol, "town", "Oslo")
    other.start()
    wait_for(lambda: f"{other.address}: d: left out: from 3 on it has other operations of srv-2 than the others" in kept.errors())
    assert "keep one side (GUIDE" in kept.errors()
    write(other, "of the other", 3)
    before = state(other)
    write(carol, "of carol")
    comes(one, "of carol")
    write(one, "of one")
    comes(carol, "of one")
    assert state(other) == before
    assert asked(carol.address, ["values", "d", [0, "of the other"]]) == [["values", []]]
    assert "agree" not in kept.output() and kept.errors().count("left out") == 1
    other.kill()
    other.name, other.file = "new", f"{other.file}.new"
    other.start()
    comes(other, "of one")
    wait_for(lambda: "d: all 3 agree" in kept.output())
    assert f"{other.address}: d: it has the operations of the others again" in kept.errors()
    assert kept.end() == 0


def test_servers_that_differ_from_the_start(twins: List[Server], relay: Callable[..., Relay]) -> None:
    """With equal fronts, and the same last operation. One of them is left out, and nothing goes from one to the other."""
    one, other = twins
    before = state(one), state(other)
    kept = relay(one.address, other.address)
    wait_for(lambda: "d: left out: from 3 on it has other operations of srv-2 than the others" in kept.errors())
    for server, name in ((one, "ada"), (other, "bob")):
        asked(server.address, ["deliver", "d", ["op", [1, name], [], [[["m", 0]], name], ["assign", 1]]])
    middle = state(one), state(other)
    assert middle != before
    time.sleep(2)
    assert (state(one), state(other)) == middle
    assert kept.errors().count("left out") == 1 and "agree" not in kept.output()
    assert kept.end() == 1
    assert "is left out: it has other operations of srv-2" in kept.output()


@pytest.mark.parametrize("is_late", [False, True])
def test_a_server_that_is_put_back_while_the_relay_runs(serve: Serve, relay: Callable[..., Relay], tmp_path: Path, is_late: bool) -> None:
    """Its older file makes operations with ids that the others have, at once or once the relay is there: nothing of these gets there."""
    one, carol = serve("d", name="srv", admission=DURABLE), serve("d", name="carol")
    write(one, "title")
    copied(one, tmp_path / "backup")
    one.start()
    kept = relay(one.address, carol.address)
    write(one, "town", 200)
    write(one, "count")
    comes(carol, "count")
    wait_for(lambda: "all 2 agree" in kept.output())
    put_back(one, tmp_path / "backup")
    if is_late:
        wait_for(lambda: f"{one.address}: d: left out: from 2 on" in kept.errors())
    write(one, "other", 200)
    write(one, "count")
    wait_for(lambda: f"{one.address}: d: left out: from 2 on it has other operations of srv-2" in kept.errors())
    before = state(carol)
    write(one, "more")
    time.sleep(2)
    assert state(carol) == before
    assert kept.end() == 1


def test_it_ends_within_seconds(serve: Serve, relay: Callable[..., Relay]) -> None:
    """SIGINT ends it though a server is frozen, with what that one lacks; a second one ends it at once, without."""
    alice, bob, carol = (serve("d", name=it) for it in ("alice", "bob", "carol"))
    write(alice, "a")
    for second in (False, True):
        kept = relay(alice.address, bob.address, carol.address, ends_soon=True)
        comes(bob, "a")
        wait_for(lambda: kept.output() == "d: all 3 agree\n")
        bob.process.send_signal(signal.SIGSTOP)
        try:
            write(alice, f"b{second}")
            comes(carol, f"b{second}")
            kept.process.send_signal(signal.SIGINT)
            wait_for(lambda: not kept.catches(signal.SIGINT))
            if second:
                kept.process.send_signal(signal.SIGINT)
            assert kept.process.wait(SECONDS) == (-signal.SIGINT if second else 1)
            assert (f"d: {bob.address} lacks" in kept.output()) is not second
        finally:
            bob.process.send_signal(signal.SIGCONT)


def test_lines_that_nobody_reads(serve: Serve, tmp_path: Path) -> None:
    """Standard error and output are full pipes: the relay goes on, and ends."""
    servers = [serve("d", name=it) for it in ("alice", "bob", "carol")]
    reading, writing = os.pipe()
    os.set_blocking(writing, False)
    with contextlib.suppress(BlockingIOError):
        while True:
            os.write(writing, b"x" * 4096)
    os.set_blocking(writing, True)
    command = [sys.executable, "-B", "-c", "from jcrdt import relay; relay.main()", *(it.address for it in servers), "--doc", "d"]
    kept = subprocess.Popen(command, stdout=writing, stderr=writing, env={**os.environ, "PYTHONPATH": str(PACKAGE)})
    try:
        write(servers[0], "a")
        comes(servers[1], "a")
        servers[2].kill()
        write(servers[0], "b")
        comes(servers[1], "b")
        kept.send_signal(signal.SIGTERM)
        assert kept.wait(SECONDS) == 1
    finally:
        kept.kill()
        kept.wait()
        os.close(reading)
        os.close(writing)


@pytest.mark.parametrize("words, why", [
    (["127.0.0.1"], "127.0.0.1 isn't HOST:PORT"), (["127.0.0.1:1", "127.0.0.1:1"], "named twice"),
    (["127.0.0.1:1", "--every", "0"], "--every takes seconds"), (["127.0.0.1:1", "--every", "nan"], "--every takes seconds"),
    (["127.0.0.1:1", "--redis", "x"], "x isn't HOST:PORT")])
def test_command_lines(relay: Callable[..., Relay], words: List[str], why: str) -> None:
    kept = relay(*words)
    assert kept.process.wait(SECONDS) == 2
    assert why in kept.errors()


def test_without_the_package_redis(tmp_path: Path) -> None:
    script = "import sys; sys.modules['redis'] = None; from jcrdt import relay; relay.main()"
    run = subprocess.run([sys.executable, "-c", script, "127.0.0.1:1", "--doc", "d", "--redis", "127.0.0.1:2"],
                         env={**os.environ, "PYTHONPATH": str(PACKAGE)}, stderr=subprocess.PIPE, timeout=SECONDS)
    assert run.returncode == 2
    assert b"--redis needs the package redis: pip install" in run.stderr and b"Traceback" not in run.stderr


def test_documents_that_are_missing(serve: Serve, relay: Callable[..., Relay]) -> None:
    """A server without the document is named once; the others exchange."""
    alice, bob, other = serve("d", name="alice"), serve("d", name="bob"), serve("e", name="carol")
    kept = relay(alice.address, bob.address, other.address)
    write(alice, "a")
    comes(bob, "a")
    assert kept.errors().count(f"{other.address}: d: 4 no-such-document: start the server") == 1
    assert kept.end() == 1
    assert f"d: not reached: {other.address}" in kept.output()


def test_a_hub_whose_server_is_killed(serve: Serve, relay: Callable[..., Relay], tmp_path: Path) -> None:
    """A relay at a hub of alice and at bob, while alice is away for a moment."""
    if not shutil.which("node"):
        pytest.skip("node isn't installed")
    alice, bob = serve("d", name="alice"), serve("d", name="bob")
    command = ["node", str(TOP / "clients" / "hub" / "hub.mjs"), alice.address, "--lines", "127.0.0.1:0"]
    notes = tmp_path / "hub.notes"
    with open(notes, "wb") as errors, subprocess.Popen(command, stdout=subprocess.PIPE, stderr=errors) as hub:
        try:
            assert hub.stdout is not None
            kept = relay(json.loads(hub.stdout.readline())[1], bob.address)
            write(alice, "a", 50)
            comes(bob, "a", last=49)
            alice.kill()
            write(bob, "b", 70)
            wait_for(lambda: "trying again" in notes.read_text())
            alice.start()
            comes(alice, "b", last=69)
            write(alice, "c", 70)
            comes(bob, "c", last=69)
            wait_for(lambda: "agree" in kept.output())
            assert kept.end() == 0, kept.errors()
        finally:
            hub.kill()
