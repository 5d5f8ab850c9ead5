"""What monitors are told: by a relay of real servers, by `log --status`, and of answers that no server gives."""

import contextlib
import json
import os
import signal
import socket
import subprocess
import sys
import threading
import urllib.error
import urllib.request
from pathlib import Path
from typing import Any, Callable, Dict, Iterator, List, Tuple

import pytest

from conftest import PACKAGE, SECONDS, Server, tool, wait_until

import jcrdt
from jcrdt.server_health import Health, ask_health
from jcrdt.troubles import Troubles

Serve = Callable[..., Server]


def free_port() -> int:
    with socket.socket() as it:
        it.bind(("127.0.0.1", 0))
        port: int = it.getsockname()[1]
        return port


def page(address: str, path: str) -> Tuple[int, str]:
    """The status and the text of a page; 0 where nobody answers."""
    try:
        with urllib.request.urlopen(f"http://{address}{path}", timeout=SECONDS) as answer:
            return answer.status, answer.read().decode()
    except urllib.error.HTTPError as error:
        return error.code, error.read().decode()
    except OSError:
        return 0, ""


@contextlib.contextmanager
def relay_of(tmp_path: Path, *servers: str) -> Iterator[str]:
    """A relay, and where it answers monitors."""
    address = f"127.0.0.1:{free_port()}"
    words = [sys.executable, "-m", "jcrdt", "relay", *servers, "--doc", "d", "--health", address]
    with open(tmp_path / "relay.log", "wb") as notes, \
            subprocess.Popen(words, stdout=notes, stderr=notes, env={**os.environ, "PYTHONPATH": str(PACKAGE)}) as process:
        try:
            wait_until(lambda: page(address, "/health")[0])
            yield address
        finally:
            process.send_signal(signal.SIGTERM)
            process.wait(SECONDS)


def state(address: str) -> Tuple[int, Dict[str, Any]]:
    status, text = page(address, "/health")
    found: Dict[str, Any] = json.loads(text)
    return status, found


def test_a_relay_says_who_is_away_and_what_is_lacking(serve: Serve, tmp_path: Path) -> None:
    alice, bob = serve("d", name="alice"), serve("d", name="bob")
    with relay_of(tmp_path, alice.address, bob.address) as at:
        with jcrdt.connected(alice.address, begin=SECONDS) as session:
            session.open("d")
            for number in range(5):
                session.assign("d", [0, f"k{number}"], number)
        wait_until(lambda: state(at) == (200, {
            "well": True, "cause": "",
            "members": {it.address: {"connected": True, "lacks": {"d": 0}} for it in (alice, bob)},
            "documents": {"d": {"operations": 5, "replicas": 1}}}))
        assert f'jcrdt_relay_connected{{member="{bob.address}"}} 1\n' in page(at, "/metrics")[1]
        bob.kill()
        wait_until(lambda: state(at)[0] == 503)
        status, found = state(at)
        assert not found["well"] and found["cause"].startswith(f"{bob.address}: not connected") and not found["members"][bob.address]["connected"]
        assert f'jcrdt_relay_connected{{member="{bob.address}"}} 0\n' in page(at, "/metrics")[1]
        assert "jcrdt_relay_well 0\n" in page(at, "/metrics")[1]
        bob.start()
        wait_until(lambda: state(at)[0] == 200)
        assert page(at, "/nothing")[0] == 404


def test_requests_that_are_none(serve: Serve, tmp_path: Path) -> None:
    alice, bob = serve("d", name="alice"), serve("d", name="bob")
    with relay_of(tmp_path, alice.address, bob.address) as at:
        host, port = at.split(":")
        for sent, due in ((b"hello\r\n\r\n", b"400"), (b"POST /health HTTP/1.1\r\n\r\n", b"405"), (b"x" * 9000, b""),
                          (b"GET /health HTTP/1.1\r\n", b"")):
            with socket.create_connection((host, int(port)), timeout=SECONDS) as connection:
                connection.sendall(sent)
                with contextlib.suppress(ConnectionResetError):
                    assert connection.recv(100)[9:12] == due, sent[:20]
        with socket.create_connection((host, int(port)), timeout=SECONDS) as connection:
            connection.sendall(b"HEAD /health HTTP/1.1\r\n\r\n")
            text = connection.makefile("rb").read()
            assert text.endswith(b"\r\n\r\n") and text.startswith(b"HTTP/1.1 ")


def test_a_relay_that_can_t_listen_there(serve: Serve) -> None:
    alice, bob = serve("d", name="alice"), serve("d", name="bob")
    with socket.create_server(("127.0.0.1", 0)) as taken:
        address = f"127.0.0.1:{taken.getsockname()[1]}"
        assert f"relay: {address}: " in tool("relay", alice.address, bob.address, "--doc", "d", "--health", address, status=1)


def answers_with(status: str, text: str) -> str:
    """Where one request is answered so."""
    listener = socket.create_server(("127.0.0.1", 0))

    def answer() -> None:
        with listener, listener.accept()[0] as connection:
            connection.recv(4096)
            connection.sendall(f"HTTP/1.1 {status}\r\nContent-Length: {len(text)}\r\nConnection: close\r\n\r\n{text}".encode())

    threading.Thread(target=answer, daemon=True).start()
    return f"127.0.0.1:{listener.getsockname()[1]}"


WELL = '{"well":true,"cause":"","sessions":{"open":1,"most":4,"begun":9},"documents":{"d":{"operations":7,"unstored":2,"replicas":1,"full":false}}}'
FULL = '{"well":false,"cause":"the file failed: the disk is full; it is opened again","sessions":{},"documents":{"d":{"unstored":64}}}'


def test_what_a_server_answers() -> None:
    assert ask_health(answers_with("200 OK", WELL)) == Health(True, "", {"d": 2})
    assert ask_health(answers_with("503 Service Unavailable", FULL)) == Health(
        False, "the file failed: the disk is full; it is opened again", {"d": 64})


@pytest.mark.parametrize("status, text", [("404 Not Found", ""), ("200 OK", "[]"), ("200 OK", "hello"), ("200 OK", '{"well":true}'),
                                          ("200 OK", '{"well":true,"cause":"","documents":{"d":{"unstored":"x"}}}')])
def test_what_no_server_answers(status: str, text: str) -> None:
    with pytest.raises(ValueError):
        ask_health(answers_with(status, text))


def test_the_status_of_a_file_asks_its_server(serve: Serve) -> None:
    server = serve("d")
    with jcrdt.connected(server.address, begin=SECONDS) as session:
        session.open("d")
        session.assign("d", [0, "k"], 1)
        wait_until(lambda: "1 rows" in tool("log", "--status", server.file))
        told = tool("log", "--status", server.file, "--health", answers_with("200 OK", WELL))
        assert told.startswith("OK: served, epoch 1, 1 rows") and "of 256, and 2 not in the file yet" in told
        told = tool("log", "--status", server.file, "--health", answers_with("503 Service Unavailable", FULL), status=2)
        assert told.startswith("CRITICAL: ") and "the disk is full" in told and "64 not in the file yet" in told
        gone = f"127.0.0.1:{free_port()}"
        assert f"{gone} doesn't answer: " in tool("log", "--status", server.file, "--health", gone, status=2)


def test_troubles_that_last() -> None:
    told: List[str] = []
    troubles = Troubles(told.append, lambda: 0.0)
    troubles.begin("connection", "away", "it is away")
    troubles.begin("d", "full", "it is full")
    assert troubles.lasting() == ["it is away", "it is full"]
    troubles.begin("connection", "frozen", "it is frozen")
    troubles.end("d", "it is well")
    assert troubles.lasting() == ["it is frozen"]
    assert told == ["it is away", "it is full", "it is frozen", "it is well"]
