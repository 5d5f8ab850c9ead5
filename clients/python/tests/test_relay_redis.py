"""Relays that meet in a real Redis: bad entries, streams that are cut, and how a Redis is named."""

import importlib
import json
import os
import re
import shutil
import socket
import subprocess
from pathlib import Path
from typing import Any, Callable, Iterator, List

import pytest

from conftest import SECONDS, takes_long, wait_until as wait_for
from test_relay import Relay, Serve, asked, comes, relay, write  # noqa: F401

pytest.importorskip("redis.asyncio", reason="python3-redis isn't installed")
if not shutil.which("redis-server"):
    pytest.skip("redis-server isn't installed", allow_module_level=True)

BAD_ENTRIES = [
    '["op",[1,"x"],[["a","b"]],[[],0],["delete"]]', '["op",[1,"x"],[5],[[],0],["delete"]]',
    '["op",[1,"x"],[[1]],[[],0],["delete"]]', '["op",[1,"x"],[],7,8]', "hello", "", "null", "[]", "5", "\ud800",
    '["op",[1.5,"x"],[],[[],0],["delete"]]', '["op",[[["a"],1],"x"],[],[[],0],["delete"]]',
    '["op",[90000,"alice-1"],[],[[],0],["delete"]]', '["op",[1,"x"],[],[[["m",0]],"k"],["assign",NaN]]',
    "[" * 100_000, "[" * 100_000 + "]" * 100_000, '["op",[%s,"x"],[],[[],0],["delete"]]' % ("9" * 5000),
]


class Redis:
    """A redis-server of a test, at a port or a socket."""

    def __init__(self, folder: Path, *words: str) -> None:
        self.folder, self.words = folder, words
        with socket.create_server(("127.0.0.1", 0)) as listener:
            self.port = listener.getsockname()[1]
        self.address = f"127.0.0.1:{self.port}"
        self.path = str(folder / "redis.sock")
        self.start()

    def start(self) -> None:
        command = ["redis-server", "--port", str(self.port), "--bind", "127.0.0.1", "--unixsocket", self.path, "--save", "",
                   "--appendonly", "no", "--dir", str(self.folder), *self.words]
        self.process = subprocess.Popen(command, stdout=subprocess.DEVNULL)

        def answers() -> bool:
            if self.process.poll() is not None:  # something else had its port for a moment
                self.process = subprocess.Popen(command, stdout=subprocess.DEVNULL)
            reply = self.raw("PING")
            return b"PONG" in reply or b"NOAUTH" in reply

        wait_for(answers)

    def raw(self, *words: str) -> bytes:
        """The reply of redis-cli, as it is."""
        run = subprocess.run(["redis-cli", "-s", self.path, *words], stdout=subprocess.PIPE, stderr=subprocess.STDOUT,
                             timeout=SECONDS)
        return run.stdout

    def add(self, text: str, field: str = "op") -> None:
        """Adds an entry of any text, also beyond what a command line takes."""
        run = subprocess.run(["redis-cli", "-s", self.path, "-x", "XADD", "jcrdt:d", "*", field],
                             input=text.encode(errors="surrogatepass"), stdout=subprocess.PIPE, timeout=SECONDS)
        assert b"-" in run.stdout, run.stdout

    def length(self) -> int:
        return int(self.raw("XLEN", "jcrdt:d").split()[-1])

    def operations(self) -> int:
        """How many operations the entries have."""
        client: Any = importlib.import_module("redis").Redis(unix_socket_path=self.path)
        entries = client.xrange("jcrdt:d")
        return sum(len(json.loads(fields[b"ops"])) for _, fields in entries)

    def kill(self) -> None:
        self.process.kill()
        self.process.wait()


@pytest.fixture
def redis(tmp_path: Path) -> Iterator[Callable[..., Redis]]:
    started: List[Redis] = []

    def start(*words: str) -> Redis:
        started.append(Redis(tmp_path, *words))
        return started[-1]

    yield start
    for it in started:
        it.kill()


def pair(serve: Serve, relay: Callable[..., Relay], url: str, **options: bool) -> Any:  # noqa: F811
    """Two sites, each with a relay that reaches its own server and Redis alone."""
    sites = [serve("d", name=name) for name in ("alice", "bob")]
    return sites, [relay(site.address, "--redis", url, **options) for site in sites]


def test_bad_entries_are_skipped(serve: Serve, relay: Callable[..., Relay], redis: Callable[..., Redis]) -> None:  # noqa: F811
    """Entries that are no operations end no relay and delay nothing, also after a start. They are named."""
    store = redis()
    (alice, bob), relays = pair(serve, relay, store.address)
    write(alice, "before")
    comes(bob, "before")
    for text in BAD_ENTRIES:
        store.add(text)
    store.add("x", "another field")
    write(alice, "after")
    comes(bob, "after")
    again = relay(bob.address, "--redis", f"redis://{store.address}/0")
    write(bob, "of bob", 30)
    comes(alice, "of bob", last=29)
    for kept in (*relays, again):
        wait_for(lambda: "all 2 agree" in kept.output())
        assert kept.errors().count("is skipped") == 10, kept.errors()
        assert kept.errors().count("more entries are skipped") == 1
        assert kept.end() == 0, kept.errors()


def test_what_is_no_operation_of_a_batch_is_skipped(serve: Serve, relay: Callable[..., Relay],  # noqa: F811
                                                    redis: Callable[..., Redis]) -> None:
    """Beside it there are others, of which the second waits for the first. An array of something else, and none, is named."""
    store = redis()
    store.add('[["op",[2,"x"],[["x",1]],[[["m",0]],"two"],["assign",2]],"hello",["op",[9,"x"],[],[[],0],["delete"]],'
              '["op",[1,"x"],[],[[["m",0]],"one"],["assign",1]]]', "ops")
    for text in ('{"op":1}', "[5]", "[", ""):
        store.add(text, "ops")
    (alice, bob), relays = pair(serve, relay, store.address)
    for site in (alice, bob):
        comes(site, "one", last=1)
        comes(site, "two", last=2)
    for kept in relays:
        wait_for(lambda: "all 2 agree" in kept.output())
        assert kept.errors().count("is skipped") == 5, kept.errors()


@takes_long
def test_many_at_once_are_few_entries(serve: Serve, relay: Callable[..., Relay],  # noqa: F811
                                      redis: Callable[..., Redis]) -> None:
    """What a server has already is added by many to an entry, each entry fits a line unless it is one operation, and a relay
    reads what it added itself after a cut alone."""
    store = redis()
    alice, bob = (serve("d", name=name) for name in ("alice", "bob"))
    asked(alice.address, *(["assign", "d", [0, f"k{number}"], number] for number in range(3000)),
          *(["assign", "d", [0, f"long{number}"], "x" * 4000] for number in range(40)))
    relays = [relay(site.address, "--redis", store.address) for site in (alice, bob)]
    comes(bob, "long39", last="x" * 4000)
    assert store.length() < 20
    store.raw("DEL", "jcrdt:d")
    wait_for(lambda: store.length() >= 5)
    carol = serve("d", name="carol")
    again = relay(carol.address, "--redis", store.address)
    comes(carol, "k2999", last=2999)
    for kept in (*relays, again):
        wait_for(lambda: "all 2 agree" in kept.output())


def test_a_made_up_counter_silences_nobody(serve: Serve, relay: Callable[..., Relay],  # noqa: F811
                                           redis: Callable[..., Redis]) -> None:
    """An entry of a counter that alice hasn't reached, behind one that nobody has; and its dependency later."""
    store = redis()
    (alice, bob), relays = pair(serve, relay, store.address)
    write(alice, "k", 5)
    comes(bob, "k", last=4)
    store.add('["op",[99999,"alice-1"],[["nobody",99998]],[[["m",0]],"z"],["delete"]]')
    write(alice, "k", 20)
    comes(bob, "k", last=19)
    for kept in relays:
        wait_for(lambda: "1 operations wait for others that it lacks" in kept.errors())
        assert kept.end() == 0


def test_a_forged_operation_silences_nobody(serve: Serve, relay: Callable[..., Relay],  # noqa: F811
                                            redis: Callable[..., Redis]) -> None:
    """An entry in the name of alice, before she writes: what she makes reaches bob, and nobody says that all agree."""
    store = redis()
    store.add('["op",[1,"alice-1"],[],[[["m",0]],"forged"],["assign",1]]')
    (alice, bob), relays = pair(serve, relay, store.address)
    comes(bob, "forged")
    wait_for(lambda: "16 own-name" in relays[0].errors())
    write(alice, "k", 20)
    comes(bob, "k", last=19)
    assert not any(" agree" in it.output().replace("fronts agree", "") for it in relays[:1])
    assert relays[0].end() == 1


def test_an_operation_before_its_dependency(serve: Serve, relay: Callable[..., Relay],  # noqa: F811
                                            redis: Callable[..., Redis]) -> None:
    """What a stream has in the wrong order is taken once all is there."""
    store = redis()
    store.add('["op",[2,"x"],[["x",1]],[[["m",0]],"two"],["assign",2]]')
    store.add('["op",[1,"x"],[],[[["m",0]],"one"],["assign",1]]')
    (alice, bob), _ = pair(serve, relay, store.address)
    for site in (alice, bob):
        comes(site, "one", last=1)
        comes(site, "two", last=2)


@pytest.mark.parametrize("how", ["DEL", "killed", *(pytest.param(it, marks=takes_long) for it in ("FLUSHALL", "XTRIM", "XDEL"))])
def test_what_was_cut_is_added_again(serve: Serve, relay: Callable[..., Relay], redis: Callable[..., Redis],  # noqa: F811
                                     how: str) -> None:
    """A site that joins after a cut gets everything, also if all relays were started again after it."""
    store = redis()
    (alice, bob), relays = pair(serve, relay, store.address)
    for part in range(5):
        write(alice, f"k{part}", 100)
        comes(bob, f"k{part}", last=99)
    assert store.operations() == 500 and store.length() >= 5
    if how == "killed":
        store.kill()
        store.start()
    elif how == "XDEL":
        entry = store.raw("XRANGE", "jcrdt:d", "-", "+", "COUNT", "2").decode().split("\n")[0].strip()
        assert store.raw("XDEL", "jcrdt:d", entry).strip() == b"1", entry
    else:
        store.raw(*{"FLUSHALL": ["FLUSHALL"], "DEL": ["DEL", "jcrdt:d"], "XTRIM": ["XTRIM", "jcrdt:d", "MAXLEN", "1"]}[how])
    if how == "XTRIM":
        for kept in relays:
            kept.end()
        relays = [relay(site.address, "--redis", store.address) for site in (alice, bob)]
    write(bob, "later", 3)
    carol = serve("d", name="carol")
    joined = relay(carol.address, "--redis", store.address)
    for site in (carol, alice):
        comes(site, "later", last=2)
    assert asked(carol.address, ["front", "d"]) == asked(alice.address, ["front", "d"])
    wait_for(lambda: "all 2 agree" in joined.output())
    if how not in ("killed", "XTRIM"):
        assert any("entries are gone; " in it.errors() for it in relays)
    # What is left of the 500 is at most 499. Two relays that look at the same moment both add all that misses: once each.
    left = {"XDEL": 499, "XTRIM": 499}.get(how, 0)
    assert store.operations() <= left + 2 * 503
    assert all(it.end() == 0 for it in (*relays, joined))


def test_how_a_redis_is_named(serve: Serve, relay: Callable[..., Relay], redis: Callable[..., Redis],  # noqa: F811
                              monkeypatch: pytest.MonkeyPatch) -> None:
    """By URL: password, database, socket; in a variable, too. A wrong password is told without showing it."""
    store = redis("--requirepass", "secret")
    alice, bob = serve("d", name="alice"), serve("d", name="bob")
    monkeypatch.setenv("JCRDT_REDIS", f"redis://:secret@{store.address}/3")
    relay(alice.address)
    monkeypatch.delenv("JCRDT_REDIS")
    relay(bob.address, "--redis", f"unix://{store.path}?password=secret&db=3")
    write(alice, "a")
    comes(bob, "a")
    wrong = relay(alice.address, "--redis", f"redis://:hidden@{store.address}/3")
    # Later versions of the library drop the word WRONGPASS.
    refused = f"redis {re.escape(store.address)}/3: left out: (WRONGPASS|invalid username-password)"
    wait_for(lambda: re.search(refused, wrong.errors()))
    assert "hidden" not in wrong.errors()
    assert relay(alice.address, "--redis", "http://x").process.wait(SECONDS) == 2


@takes_long
def test_tls(serve: Serve, relay: Callable[..., Relay], tmp_path: Path) -> None:  # noqa: F811
    """rediss:// with a certificate that is checked."""
    if not shutil.which("openssl"):
        pytest.skip("openssl isn't installed")
    made = ["openssl", "req", "-x509", "-newkey", "rsa:2048", "-nodes", "-days", "2", "-subj", "/CN=localhost", "-addext",
            "subjectAltName=DNS:localhost,IP:127.0.0.1", "-keyout", str(tmp_path / "key"), "-out", str(tmp_path / "cert")]
    subprocess.run(made, check=True, stderr=subprocess.DEVNULL)
    with socket.create_server(("127.0.0.1", 0)) as listener:
        port = listener.getsockname()[1]
    store = Redis(tmp_path, "--tls-port", str(port), "--tls-cert-file", str(tmp_path / "cert"), "--tls-key-file",
                  str(tmp_path / "key"), "--tls-auth-clients", "no")
    try:
        alice, bob = serve("d", name="alice"), serve("d", name="bob")
        for site in (alice, bob):
            relay(site.address, "--redis", f"rediss://127.0.0.1:{port}?ssl_ca_certs={tmp_path}/cert")
        write(alice, "a")
        comes(bob, "a")
    finally:
        store.kill()


def ooms(store: Redis) -> int:
    """How often a Redis has refused something since it is out of memory."""
    found = re.search(r"errorstat_OOM:count=(\d+)", store.raw("INFO", "errorstats").decode())
    return int(found[1]) if found else 0


@takes_long
def test_a_full_redis(serve: Serve, relay: Callable[..., Relay], redis: Callable[..., Redis]) -> None:  # noqa: F811
    """A Redis that takes no more is told once, and made up for when it has room again."""
    store = redis()
    used = next(it for it in store.raw("INFO", "memory").decode().split() if it.startswith("used_memory:"))
    store.raw("CONFIG", "SET", "maxmemory", str(int(used.split(":")[1]) + 100_000))
    (alice, bob), relays = pair(serve, relay, store.address)
    for number in range(4):
        write(alice, f"k{number}", 1500)
    wait_for(lambda: "left out: " in relays[0].errors())
    refused = ooms(store)
    wait_for(lambda: ooms(store) >= refused + 2)
    assert len(re.findall("left out: .*maxmemory", relays[0].errors())) == 1 and "assign" not in relays[0].errors(), relays[0].errors()
    store.raw("CONFIG", "SET", "maxmemory", "0")
    comes(bob, "k3", last=1499)


def test_frozen_redis_does_not_hold_up_the_end(serve: Serve, relay: Callable[..., Relay],  # noqa: F811
                                               redis: Callable[..., Redis]) -> None:
    store = redis()
    (alice, bob), relays = pair(serve, relay, store.address, ends_soon=True)
    write(alice, "a")
    comes(bob, "a")
    os.kill(store.process.pid, 19)
    try:
        write(alice, "b")
        assert relays[0].end() == 1
    finally:
        os.kill(store.process.pid, 18)


