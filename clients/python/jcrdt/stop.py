"""Stops a server so that its file has everything.

usage: stop --file F     (that of `serve --file`: the server that has it open)
       stop ADDRESS      (HOST:PORT of a running server, not of a hub)

A server that was started by jcrdt-serve, as ./jcrdt, the unit and the container do, drains: its sessions end behind
the reply to the last line, and its file gets what it accepted.

Another one, which has --sessions, ends once all its sessions have ended and its file has all of it. This opens one
session after another and quits each, until none is left. Sessions that run go on until their clients leave: end hubs
and relays first. With --file it does so where that server listens, whatever ADDRESS is. It waits for one that doesn't
listen yet, says how many operations aren't in the file, and ends once the server has closed the file.

Status 0: the server has ended. 1: there is no server, or it is a hub, or no server of jcrdt. 2: a wrong command
line.
"""

import argparse
import contextlib
import os
import select
import signal
import socket
import sqlite3
import time
from typing import Dict, List, Optional, Sequence

from . import wire
from .limits import USUAL
from .protocol import LIMITS
from .server_process import NotServed, ServerProcess, is_open, server_of
from .session import Session
from .stored_log import StoredLog
from .stream import Stream
from .terminal import checked_address, say
from .wire import Id, Refused, covers

# A server that has a session left answers within this time, in seconds. Only the lines printed depend on it.
PATIENCE = 2.0
# How often the file is looked at, and how often a line says so, in seconds.
LOOK_SECONDS, SAY_SECONDS = 0.2, 2.0
# No server has more sessions.
MOST_SESSIONS = LIMITS["sessions"]
# What a server answers, and a hub doesn't.
QUESTIONS = b'["version"]\n["watch","a"]\n'
ANSWERS = (b'["version",', b'["no",2,')


class NoServer(ValueError):
    """Something else listens at the address."""


class Caller:
    """One connection, which becomes a session or waits for the end of the server."""

    def __init__(self, host: str, port: int) -> None:
        self.connection = socket.create_connection((host, port))
        self.connection.sendall(QUESTIONS)
        self.heard = b""

    def has_session(self, seconds: float) -> Optional[bool]:
        """Whether a session has begun; None if the server doesn't answer within so many seconds. Raises
        ConnectionError if the server has ended, NoServer if it is none."""
        until = time.monotonic() + seconds
        while self.heard.count(b"\n") < 2:
            if not select.select([self.connection], [], [], max(0.0, until - time.monotonic()))[0]:
                return None
            data = self.connection.recv(1 << 16)
            if not data:
                raise ConnectionError("the server has ended")
            self.heard += data
            self._check()
        return True

    def _check(self) -> None:
        for line, due in zip(self.heard.split(b"\n"), ANSWERS):
            if not (line.startswith(due) or due.startswith(line)):
                what = "it is a hub: end it, and stop the server behind it" if due == ANSWERS[1] else "no server of jcrdt"
                raise NoServer(f"{what} (it answers {line[:60]!r})")
        if len(self.heard) > 1 << 16:
            raise NoServer("no server of jcrdt")

    def session(self) -> Session:
        descriptor = self.connection.fileno()
        return Session(Stream(descriptor, descriptor, self.connection.close, USUAL))

    def quit(self) -> None:
        """Ends the session, and waits for the server to say so."""
        with contextlib.suppress(OSError):
            self.connection.settimeout(PATIENCE)
            self.connection.sendall(b'["quit"]\n')
            self.connection.recv(64)
        self.connection.close()


class Backlog:
    """The operations that aren't in the file yet, as far as they are known. A file that can't be read, as where the
    folder for temporary files is full, stops nothing."""

    def __init__(self, path: str) -> None:
        self.path = path
        self.log: Optional[StoredLog] = None
        self.epoch: Optional[int] = None
        self.is_asked = False
        self.left: Dict[str, List[Id]] = {}
        self.said = 0.0
        self.read()

    def read(self) -> None:
        try:
            if self.log is None:
                self.log = StoredLog(self.path)
                self.epoch = self.log.epoch
            self.log.refresh()
        except (ValueError, OSError, sqlite3.Error) as error:
            if self.log is None and not self.said:
                say(f"{self.path} can't be read, so what is left isn't known: {error}")
                self.said = time.monotonic()

    def close(self) -> None:
        if self.log:
            self.log.close()

    def begin(self) -> None:
        """The server answers: a later epoch is one of its next start."""
        self.read()
        self.epoch = self.log.epoch if self.log else None

    def note(self, session: Session) -> None:
        """Asks what the server has beyond the file, of the documents that the file has."""
        self.is_asked = True
        for document in sorted(self.log.fronts) if self.log else []:
            with contextlib.suppress(Refused):
                session.open(document)
                front = self.log.front(document) if self.log else {}
                self.left[document] = [it[1] for it in session.operations(document, front)]

    def look(self) -> None:
        """Says how many are left, if some are, now and then."""
        self.read()
        if self.log is None:
            return
        for document, ids in self.left.items():
            self.left[document] = [it for it in ids if not covers(self.log.front(document), it)]
        count = sum(map(len, self.left.values()))
        if count and time.monotonic() >= self.said + SAY_SECONDS:
            say(f"the file is being written: {count} operations left")
            self.said = time.monotonic()

    def wait(self) -> None:
        """Waits until the server has closed the file."""
        while is_open(self.path):
            self.look()
            if self.log and self.log.epoch != self.epoch:
                raise ValueError(f"{self.path}: it was started again meanwhile: end the loop that does so first")
            time.sleep(LOOK_SECONDS)


class Stop:
    """What was done so far. With a backlog one session is kept for questions until all others are used up."""

    def __init__(self, address: str, backlog: Optional[Backlog]) -> None:
        self.host, self.port = wire.host_and_port(address)
        self.backlog = backlog
        self.kept: Optional[Caller] = None
        self.used, self.waited, self.began = 0, False, False

    def run(self) -> None:
        """Returns once the server has ended. Raises NoServer if there is none."""
        try:
            while self.used <= MOST_SESSIONS:
                self.use_up(self.caller())
        except NoServer:
            raise
        except ConnectionError as error:
            # One that has no session left and writes its file may listen no more.
            if not (self.used or self.waited or self.began):
                raise NoServer("no server listens there" if isinstance(error, ConnectionRefusedError)
                               else f"no server of jcrdt: {error}") from None
            if self.backlog:
                self.backlog.wait()
            return
        raise NoServer(f"it has more than {MOST_SESSIONS} sessions: one that serves with --clients is stopped by its file")

    def caller(self) -> Caller:
        """Connects. A server that has F open and refuses is at its start or at its end: it is waited for."""
        while True:
            try:
                return Caller(self.host, self.port)
            except ConnectionRefusedError:
                if self.used or self.waited or not (self.backlog and is_open(self.backlog.path)):
                    raise
            if not self.began:
                say("the server starts, or writes its last operations: waiting for it")
            self.began = True
            time.sleep(LOOK_SECONDS)

    def use_up(self, caller: Caller) -> None:
        """Ends a session, or waits for the end of the server."""
        if not caller.has_session(PATIENCE):
            say("no session is left: waiting for the clients of those that run" if self.backlog
                else "no session is left: waiting for the clients of those that run, and for the file")
            self.waited = True
            self.let_go()
            while not caller.has_session(LOOK_SECONDS):
                if self.backlog:
                    self.backlog.look()
        if self.backlog and not self.used:
            self.backlog.begin()
        self.used += 1
        if self.backlog and not self.kept and not self.backlog.is_asked:
            self.kept = caller
        else:
            caller.quit()

    def let_go(self) -> None:
        """Ends the session that was kept, and notes before what isn't in the file yet."""
        if self.kept and self.backlog:
            with contextlib.suppress(ConnectionError, Refused):
                self.backlog.note(self.kept.session())
            self.kept.connection.setblocking(True)
            self.kept.quit()
            self.kept = None


def stop_at(address: str, backlog: Optional[Backlog] = None) -> None:
    """Uses up the sessions of the server at an address. Raises ValueError if there is none."""
    stop = Stop(address, backlog)
    try:
        stop.run()
    except NoServer as error:
        raise ValueError(f"{address}: {error}") from None
    say(f"the server has ended: {stop.used} of its sessions were used up here")


def stop_file(path: str) -> None:
    """Stops the server that has the file open, and asks no other one. Raises ValueError if there is none, and OSError
    if the file can't be looked at, or the process not be signalled."""
    try:
        server = server_of(path)
        wrapper = server.wrapper()
        if wrapper is not None:
            drain(server, wrapper)
            return
        if server.stays():
            raise NotServed(f"process {server.number} serves it with --clients, and without jcrdt-serve: only a signal ends it, and "
                            "what the file lacks then is lost")
        address = address_of(server)
    except NotServed as error:
        raise ValueError(f"{path}: {error}") from None
    if address is None:
        say("the server has ended")
        return
    with contextlib.closing(Backlog(path)) as backlog:
        stop_at(address, backlog)


def drain(server: ServerProcess, wrapper: int) -> None:
    """Lets the wrapper drain the server, and waits for its end."""
    os.kill(wrapper, signal.SIGTERM)
    until, said = time.monotonic() + SAY_SECONDS, False
    while server.is_alive():
        if not said and time.monotonic() >= until:
            said = True
            say("the server ends its sessions and writes its file: waiting for it")
        time.sleep(LOOK_SECONDS)
    say("the server has ended")


def address_of(server: ServerProcess) -> Optional[str]:
    """Where the server listens. One that doesn't yet, or no more, is waited for. None if it has ended."""
    began = False
    while server.is_alive():
        found = server.address()
        if found is not None:
            return found
        if not began:
            say("the server starts, or writes its last operations: waiting for it")
        began = True
        time.sleep(LOOK_SECONDS)
    return None


def main(words: Sequence[str]) -> int:
    parser = argparse.ArgumentParser(prog="stop", description=__doc__, formatter_class=argparse.RawDescriptionHelpFormatter)
    parser.add_argument("address", metavar="ADDRESS", type=checked_address, nargs="?")
    parser.add_argument("--file", metavar="F")
    asked = parser.parse_args(words)
    if asked.file:
        stop_file(asked.file)
    elif asked.address:
        stop_at(asked.address)
    else:
        parser.error("name the file or the address of a server")
    return 0
