"""A replica in this process: the proved one, in libjcrdt.so, by ctypes alone.

    with Store("my.notes", "notes") as store, Replica.stored(store) as me:
        me.put([0, "title"], "Plan")             # no server is needed
        me.save()                                # returns once it is on disk; so do `sync`, and the end of `with`
        me.sync(connected("127.0.0.1:7000"), "notes")

The library is found by the environment's JCRDT_LIBRARY, beside this file, in a checkout's release/, or by the system's loader.
"""

import ctypes
import os
import platform
import threading
from ctypes import POINTER, Structure, byref, c_bool, c_char_p, c_size_t, c_uint64, c_void_p
from typing import Any, Callable, Dict, Iterable, List, Optional, Sequence, Tuple
from weakref import WeakKeyDictionary

from . import wire
from .again import Places
from .carrying import carried
from .chains import Compared
from .copies import Clock, Own, is_beginning, is_change
from .copies import Session as Opened
from .generations import generation_of
from .later import Later
from .protocol import NUMBERS
from .remaking import ROUNDS, How, Remade, Remaking
from .replies import chains_in
from .runs import LINES, ROOM, cut, length_of
from .session import Session
from .store import Store, fresh_name
from .syncing import Exchange
from .wire import Chain, Cursor, Front, Id, Lost, Operation, Refused, Renewed, covers

HELD_FULL, AT_HEAD = NUMBERS["held-full"], NUMBERS["at-head"]


class _Handle(Structure):
    _fields_ = [("at", c_void_p), ("is_open", c_bool)]


class _Fault(Structure):
    _fields_ = [("number", c_uint64), ("last", c_uint64), ("place", c_uint64)]


class RefusedLine(Refused):
    """A stored line doesn't fit those before it. `place` is its index, from 0."""

    def __init__(self, number: int, name: Optional[str], last_counter: Optional[int], place: int) -> None:
        super().__init__(number, name, last_counter)
        self.place = place

    def __str__(self) -> str:
        return f"{super().__str__()}: the stored line {self.place}, counted from 0, doesn't fit those before it"


def library_paths() -> List[str]:
    """Where libjcrdt.so is looked for, in this order."""
    here = os.path.dirname(os.path.abspath(__file__))
    of_machine = ["aarch64"] if platform.machine() == "aarch64" else []
    release = os.path.join(here, "..", "..", "..", "release", *of_machine, "libjcrdt.so")
    given = os.environ.get("JCRDT_LIBRARY")
    return ([given] if given else []) + [os.path.join(here, "libjcrdt.so"), os.path.normpath(release), "libjcrdt.so"]


def load(path: Optional[str] = None) -> ctypes.CDLL:
    """The library. Raises OSError where it is in none of `library_paths()`, or isn't at the path that is given."""
    paths = [path] if path else library_paths()
    found = next((it for it in paths if os.path.isfile(it)), paths[-1])
    library = ctypes.CDLL(found)
    handle, text = POINTER(_Handle), c_char_p
    library.jcrdt_open.argtypes = [handle, text, c_size_t, text, c_size_t, POINTER(_Fault)]
    library.jcrdt_open.restype = c_uint64
    library.jcrdt_ask.argtypes = [handle, text, c_size_t, text, c_size_t]
    library.jcrdt_ask.restype = c_size_t
    library.jcrdt_again.argtypes = [handle, text, c_size_t]
    library.jcrdt_again.restype = c_size_t
    library.jcrdt_close.argtypes = [handle]
    library.jcrdt_close.restype = None
    return library


class Replica:
    """A replica of one document. Threads may share it: it answers one request at a time. Processes can't: after a fork it is
    the parent's, since two that go on under one name lose operations. Each use in the child raises Lost: open one there, under
    another name."""

    def __init__(self, name: str, operations: Iterable[str] = (), library: Optional[ctypes.CDLL] = None) -> None:
        """`name` has 1 to 32 of a-z, 0-9 and -, and no other replica of the document ever has it. `operations` are the lines that
        were stored, in log order. Raises ValueError for what is no name, RefusedLine for the first line that doesn't fit,
        MemoryError, and OSError where the library isn't found."""
        if not wire.NAME.match(name):
            raise ValueError(f"{name!r} is no name of a replica: 1 to 32 of a-z, 0-9, -")
        self.name = name
        self._process = os.getpid()
        self._library = library or load()
        self._handle = _Handle()
        self._room = ctypes.create_string_buffer(ROOM)
        self._lock = threading.RLock()
        self._made: List[str] = []
        self._store: Optional[Store] = None
        # Of `stored`: the lines of the store that can't be used.
        self.unread: List[str] = []
        # For tests: what waiting goes by.
        self.clock = Clock()
        self._syncing = threading.Lock()
        # Of each session, by document: up to where its log and this one were the same.
        self._compared: "WeakKeyDictionary[Session, Dict[str, Compared]]" = WeakKeyDictionary()
        self._open(name.encode(), "".join(f"{line}\n" for line in operations).encode())
        self._own = Own(0)
        self._listing, self._listed = threading.Lock(), self.front()
        self._own = Own(self._listed.get(name, 0))

    @classmethod
    def stored(cls, store: Store, library: Optional[ctypes.CDLL] = None) -> "Replica":
        """The replica of a store, which takes what can be read: a line that is there twice once, and lines in another order than
        that of a log. `unread` has the others. If there are any, it goes on under a new name, since its own may be among them, and
        PATH.old keeps the file as it was. Raises MemoryError, and OSError where the store or the library fails."""
        lines, unread, formers = store.lines, store.unread, store.formers
        try:
            replica = cls(store.name, lines, library)
        except RefusedLine:
            lines, more = fitting(lines, library)
            unread = unread + more
            replica = cls(store.name, lines, library)
        if unread:
            replica.close()
            replica = cls(fresh_name(store.name.rpartition("-")[0] or store.name), lines, library)
        if unread or lines != store.lines:
            store.replace(replica.name, lines)
        replica._keep_in(store, formers)
        replica.unread = unread
        return replica

    def _keep_in(self, store: Store, formers: Dict[str, List[Opened]]) -> None:
        self._store = store
        self._own = Own(self._own.restored, True, store.is_new, store.sessions, formers)
        self._own.is_doubtful = store.is_doubtful

    def _open(self, name: bytes, lines: bytes) -> None:
        fault = _Fault()
        number: int = self._library.jcrdt_open(byref(self._handle), name, len(name), lines, len(lines), byref(fault))
        if number == NUMBERS["no-memory"]:
            raise MemoryError("no memory for the replica")
        if number:
            last = fault.last if number == NUMBERS["forked"] else None
            raise RefusedLine(number, None, last, fault.place)

    def __enter__(self) -> "Replica":
        return self

    def __exit__(self, *_error: object) -> None:
        """Saves what isn't saved yet into the replica's store, if it has one, and closes it."""
        try:
            if self._handle.is_open and self._process == os.getpid():
                self.save_if_stored()
        finally:
            self.close()

    def __del__(self) -> None:
        if hasattr(self, "_handle") and self._handle.is_open:
            self.close()

    def close(self) -> None:
        """Frees its memory. It isn't asked any more; a second call does nothing, and so does one in another process."""
        if self._process != os.getpid():
            return
        with self._lock:
            self._library.jcrdt_close(byref(self._handle))

    def _check_process(self) -> None:
        if self._process != os.getpid():
            raise Lost("this replica can't be used here: it was opened in another process")

    # Requests.

    def answer(self, line: bytes) -> Tuple[bytes, Optional[str]]:
        """The reply's line to a request's line, both without newline; and the line of the operation that the request made, if it
        made one, or the lines of several with newlines between them. Raises MemoryError, ValueError where it is closed, and Lost
        in another process."""
        self._check_process()
        with self._lock:
            if (self._own.is_mute or self._own.is_doubtful) and is_change(_request_of(line)):
                self.say_formers()
                self.say()
            return self._answer(line)

    def _answer(self, line: bytes) -> Tuple[bytes, Optional[str]]:
        with self._lock:
            if not self._handle.is_open:
                raise ValueError("the replica is closed")
            length = self._library.jcrdt_ask(byref(self._handle), line, len(line), self._room, len(self._room))
            if length > len(self._room):
                self._room = ctypes.create_string_buffer(length)
                self._library.jcrdt_again(byref(self._handle), self._room, length)
            text = ctypes.string_at(self._room, length)
            if len(self._room) > ROOM:
                self._room = ctypes.create_string_buffer(ROOM)  # a large reading doesn't stay
        if not text:
            raise MemoryError("the request was answered, but there was no memory for the text of its answer")
        reply, *made = text.split(b"\n")[:-1]
        self._made.extend(it.decode() for it in made)
        return reply, b"\n".join(made).decode() or None

    @property
    def is_doubtful(self) -> bool:
        """Whether the store wasn't closed, so that another program may go on with it, and nobody was told."""
        return self._own.is_doubtful

    def say(self) -> None:
        """Says, where the store wasn't closed, which operations its program may have, too (see copies.py). It is to come right behind
        them, and before any of them is sent."""
        with self._lock:
            if self._store is None or not self._own.is_doubtful:
                return
            key = self._own.key(self.name, self._store.session, self._own.restored)
            _, made = self._answer(wire.encoded(["delete", [0, key]]))
            if made is not None:
                self._own.is_doubtful, self._own.said = False, int(wire.decoded(made.encode())[1][0])

    def say_formers(self) -> None:
        """Says, where the store is a copy, which operations the replicas of names before may have, too (see copies.py). That comes first
        in the log: so it is at a server before what it is about."""
        with self._lock:
            if self._store is None or not self._own.is_mute:
                return
            before = self.operations()
            first = next((at for at, it in enumerate(before, 1) if is_beginning(it)), 0)
            made = self._own.sayings(self.name, self.front(), self._store.session)
            self._begin_anew(self.name, [wire.encoded(it).decode() for it in [*before[:first], *made, *before[first:]]])
            self._made += [wire.encoded(it).decode() for it in made]
            self._own.is_mute = False

    def is_own_name(self, name: str) -> bool:
        """Whether a name is this replica's, or was that of one of which its store is a copy."""
        return name == self.name or name in self._own.formers

    @property
    def formers(self) -> Sequence[str]:
        """Names before, which go on in stores of which this one's is a copy."""
        return list(self._own.formers)

    def ask(self, *request: Any) -> List[Any]:
        """What follows the word of the reply to a request of docs/FORMATS.md, without the document's name: `ask("keys", [0])`. A
        cursor may start with a cursor in its written form, `[PATH,KEY]`, in place of 0. Raises Refused; nothing was changed then.
        Raises MemoryError and ValueError as `answer` does."""
        reply = wire.decoded_reply(self.answer(wire.encoded(list(request)))[0])
        if reply[0] == "no":
            raise Refused(*reply[1:])
        return reply[1:]

    def logged(self) -> List[str]:
        """The lines of all operations that were logged since it was last called, or since the replica was opened: its own and
        those of others, in log order. Append them to the stored lines before `sync`, and after it, one thread at a time. Where that
        fails, `lines` has all. For a replica of a store `save` does it."""
        self._check_process()
        with self._listing:
            return self._list()

    def _list(self) -> List[str]:
        found = self.operations(self._listed)
        self._listed.update(wire.front_of(found))
        return [wire.encoded(operation).decode() for operation in found]

    def save(self) -> None:
        """Appends all operations that were logged since to the replica's store, in log order, and returns once they survive a
        power cut. Threads may call it at once. Where it raises, none is stored, and the next call stores them. Raises OSError,
        and ValueError without a store."""
        self._check_process()
        if self._store is None:
            raise ValueError("this replica has no store: Replica.stored opens one that has")
        with self._listing:
            before, has_said = dict(self._listed), not self._own.is_doubtful
            try:
                lines = self._list()
                if lines:
                    self._store.append(lines)
            except BaseException:
                self._listed = before
                raise
            if has_said:
                self._store.is_doubtful = False

    def save_if_stored(self) -> None:
        if self._store is not None:
            self.save()

    def made(self) -> List[str]:
        """The lines of the operations that were made here since it was last called. To be opened again, a replica needs those of
        others too: `logged` has both."""
        lines, self._made = self._made, []
        return lines

    # Changes. Each returns the id of its operation. Raises Refused.

    def assign(self, cursor: Cursor, value: Any) -> Id:
        """Assigns a scalar, {} or []."""
        return self._changed("assign", cursor, value)

    def insert(self, cursor: Cursor, value: Any) -> Id:
        """Inserts behind an element or a head."""
        return self._changed("insert", cursor, value)

    def delete(self, cursor: Cursor) -> Id:
        return self._changed("delete", cursor)

    def add(self, cursor: Cursor, number: int) -> Id:
        """Adds to a counter."""
        return self._changed("add", cursor, number)

    def _changed(self, *request: Any) -> Id:
        found: Id = self.ask(*request)[2]
        return found

    def insert_all(self, cursor: Cursor, values: Iterable[Any]) -> List[Id]:
        """Inserts scalars, {} and [], the first one behind the element or head at the cursor, each other one behind the one before: by one
        request, or by a few where their lines are long. Where one is refused none is inserted. Raises MemoryError where memory lacks in
        the middle: what was inserted by then stays. The values may come from any iterable, as a text's characters or a generator: it is
        read to its end before anything is inserted."""
        made: List[Id] = []
        elements = list(values)
        if not elements:
            return made
        with self._lock:
            path = self.place(cursor)[0]
            runs = self._runs(path, elements)
            if len(runs) > 1:
                self._check_room(len(elements))
            for begin, end in runs:
                behind = [[path, made[-1]]] if made else cursor
                self._make(made, end, len(elements), "inserts", behind, elements[begin:end])
        return made

    def delete_all(self, cursor: Cursor, count: int) -> List[Id]:
        """Deletes so many elements of a list, the first one at the cursor, which ends with an index: by one request, or by a few where their
        lines are long. Where the list has fewer none is deleted. Raises ValueError for more than one behind a cursor that ends with an
        id, where each deletion would be of that one element, and MemoryError as `insert_all`."""
        made: List[Id] = []
        if not count:
            return made
        ends_with_index = len(cursor) > 1 and wire.is_integer(cursor[-1])
        if count > 1 and not ends_with_index:
            raise ValueError("the cursor of a run of deletions ends with an index: see Replica.index")
        with self._lock:
            most = max(1, LINES // self._length_of(self.place(cursor)[0], ["delete"]))
            if count > most:
                self._check_room(count)
                if ends_with_index:
                    self.place([*cursor[:-1], cursor[-1] + count - 1])
            while not made or len(made) < count:
                some = min(most, count - len(made))
                self._make(made, len(made) + some, count, "deletes", cursor, some)
        return made

    def _runs(self, path: List[Any], values: Sequence[Any]) -> List[Tuple[int, int]]:
        """The runs by which values are inserted into a list. One with a value that can't be inserted is refused as a whole."""
        if not all(map(wire.is_scalar_or_empty, values)):
            return [(0, len(values))]
        length = self._length_of(path, ["insert", 0])
        return list(cut([length + len(wire.encoded(it)) for it in values]))

    def _length_of(self, path: List[Any], mutation: List[Any]) -> int:
        others = [*self.front(), *(name for (_, name), _ in self.ask("held")[0])]
        return length_of(self.name, others, path, mutation)

    def _check_room(self, count: int) -> None:
        """Raises Refused (18) where the log has no room for so many changes. A head can't be deleted, and what is refused for that had room."""
        try:
            self.ask("deletes", [[[["l", 0]], 1]], count)
        except Refused as refused:
            if refused.number != AT_HEAD:
                raise

    def _make(self, made: List[Id], due: int, count: int, *request: Any) -> None:
        """Makes some of so many changes by one request, and adds their ids to those that were made before: then there are as many as are
        due."""
        reply, lines = self.answer(wire.encoded(list(request)))
        if lines is None and not made:
            raise Refused(*wire.decoded_reply(reply)[1:])
        made += [wire.decoded(it.encode())[1] for it in (lines.split("\n") if lines else ())]
        if len(made) < due:
            raise MemoryError(f"{len(made)} of {count} changes were made")

    def put(self, cursor: Cursor, value: Any) -> None:
        """Assigns a nested value, one operation for each part. Raises what `wire.checked_value` raises before anything is changed."""
        self._write([self.place(cursor)], wire.checked_value(value))

    def _write(self, place: List[Any], value: Any) -> None:
        values, counter = wire.apart(value)
        if values:
            self.assign(place, wire.bare(values[0]))
        else:
            self.delete(place)
        self._fill(place, values, counter)

    def _fill(self, place: List[Any], values: List[Any], counter: Optional[int]) -> None:
        """Puts what is in the value into the empty map or list at the place, and the counter beside it."""
        value = values[0] if values else None
        if isinstance(value, dict):
            for key, inner in value.items():
                self._write([*place, key], inner)
        elif isinstance(value, list):
            self._insert_all(place, value)
        for part in wire.parts_of(counter):
            self.add(place, part)

    def _insert_all(self, place: List[Any], items: Sequence[Any]) -> None:
        path, key = self.place(place)
        path = [*path, ["l", key]]
        behind: List[Any] = [[path, 1]]
        if not any(isinstance(it, (dict, list)) and it for it in items):
            self.insert_all(behind, items)
            return
        for item in items:
            values, counter = wire.apart(item)
            behind = [[path, self.insert(behind, wire.bare(values[0]) if values else None)]]
            if not values:
                # A counter and no value: what was inserted is deleted, and `add` makes it present again.
                self.delete(behind)
            self._fill(behind, values, counter)

    # Readings. Raises Refused.

    def place(self, cursor: Cursor) -> List[Any]:
        """Where a cursor leads, in its written form `[PATH,KEY]`: it goes on to mean that element when the list moves."""
        found: List[Any] = self.ask("cursor", list(cursor))[0]
        return found

    def index(self, cursor: Cursor) -> int:
        """How many present elements of the list come up to the one at the cursor, itself included: its index, where it is present. 0 for a
        head. Raises Refused (11) where the cursor ends at a key."""
        found: int = self.ask("index", list(cursor))[0]
        return found

    def plain(self, cursor: Cursor = (0,)) -> Any:
        """What is there as Python's values, as `Session.plain`."""
        return wire.plain(self.ask("show", list(cursor))[0])

    def front(self) -> Front:
        return dict(self.ask("front")[0])

    def operations(self, front: Optional[Front] = None) -> List[Operation]:
        """The logged operations that a front doesn't have, in log order; all without one."""
        seen, found = dict(front or {}), []
        while True:
            page: List[Operation] = self.ask("ops", wire.pairs_of(seen), wire.PAGE)[0]
            found += page
            for operation in page:
                seen[operation[1][1]] = operation[1][0]
            if len(page) < wire.PAGE:
                return found

    def chains(self, after: Front, front: Front) -> List[Chain]:
        """Digests of what is logged of some replicas, as `Session.chains`."""
        return chains_in(self.ask("chains", wire.pairs_of(after), wire.pairs_of(front)))

    def lines(self) -> List[str]:
        """The lines of all logged operations: what `operations` takes when the replica is opened again."""
        return [wire.encoded(operation).decode() for operation in self.operations()]

    def deliver(self, operation: Operation) -> int:
        """Delivers an operation that was made elsewhere. Returns how many were logged by it: none where it is known or held."""
        reply = wire.decoded_reply(self.answer(wire.encoded(["deliver", operation]))[0])
        if reply[0] == "no":
            raise Refused(*reply[1:])
        return int(reply[1]) if reply[0] == "applied" else 0

    def sync(self, client: Session, document: str) -> Tuple[int, int]:
        """Exchanges operations with a server's document, both ways. Returns how many came and how many went. A replica of a store
        saves before anything is sent. Without one store what `logged` gives before: a replica that sent operations and lost them
        can't use its name again. One thread does it at a time.

        A copy of the store that was made while it was open may have sent operations of this replica: it knows them for its own. Where
        such a copy may be about to send more, it waits, up to 5 s behind the last one.

        Raises Differs where the server has other operations of one id than this replica, its own or another's: nothing was exchanged
        then. At a new session all is compared, later on what has come to both. Raises Away where a hub's server was killed while it was
        compared: what it lost is no difference.
        Otherwise it goes on past what is refused, here or there, and raises that at last: Differs where two have one name, else
        Refused. Raises what `Session` raises, too; what was exchanged by then stays, and a later call goes on. That is Renewed where a
        hub has renewed the document: `renew` goes on there."""
        self.save_if_stored()
        with self._syncing:
            logs = self._compared.setdefault(client, {}).setdefault(document, Compared())
            work = Exchange(self, client, document, self._own, logs)
            try:
                work.run()
            finally:
                self.save_if_stored()
        return work.came, work.went

    def remake(self, name: str, client: Session, document: str) -> Remade:
        """Goes on under a new name, after `sync` has said that the server's own operations differ. Takes the server's log, the
        operations of others that it lacks, and those of one's own that it lacks or has differently: under a new name, with what they
        knew. What was restored from a store is made again just once for all copies of it, and is at the server by then. A replica of a
        store writes the file anew: PATH.old keeps it as it was. Then `sync`. Raises what `sync` raises, and ValueError for a name that
        is none; nothing was changed here then."""
        if not wire.NAME.match(name):
            raise ValueError(f"{name!r} is no name of a replica: 1 to 32 of a-z, 0-9, -")
        self.save_if_stored()
        with self._syncing:
            may_send, turn = True, 1
            while True:
                own, forked = self._own, Exchange(self, client, document, self._own).forked_at()
                # What is in the file may be in copies of it.
                stored = self.front().get(self.name, 0) if own.is_filed else own.restored
                how = How(name, forked, stored, own.sure, own.logged, own.session_of, may_send)
                log = (wire.encoded(it).decode() for it in client.operations(document))
                with Replica(fresh_name("scratch"), log, self._library) as scratch:
                    now = generation_of(scratch.front())
                    if scratch.front() and now != generation_of(self.front()):
                        raise Renewed(document, now)
                    remaking = Remaking(self, scratch, how)
                    if remaking.send(client, document):
                        return self._go_on(name, remaking, scratch)
                may_send, turn = remaking.may_send and turn < ROUNDS, turn + 1

    def _go_on(self, name: str, remaking: Remaking, scratch: "Replica") -> Remade:
        """Uses what was made again. Nothing is edited meanwhile."""
        with self._listing, self._lock:
            report = remaking.run()
            self._use(name, scratch.lines())
        return report

    def _use(self, name: str, lines: List[str]) -> None:
        """Goes on under a new name, with this log."""
        self._begin_anew(name, lines, self._store)
        self.name, self._made, self._listed = name, [], self.front()
        self._compared.clear()
        sessions = self._store.sessions if self._store is not None else ()
        self._own = Own(0, self._store is not None, True, sessions)

    def _begin_anew(self, name: str, lines: List[str], store: Optional[Store] = None) -> None:
        """Uses another engine, which begins with this log, once the store has it, too. What is held is gone."""
        new = Replica(name, lines, self._library)
        if store is not None:
            store.replace(name, lines)
        self._library.jcrdt_close(byref(self._handle))
        self._handle, new._handle = new._handle, _Handle()

    def renew(self, name: str, client: Session, document: str) -> Remade:
        """Goes on under a new name in the generation that the document is in now, after `sync` has given Renewed. Takes that one's log,
        and own edits that the hub lacked when their generation ended, made again: over all generations since, and once, also by copies
        of the store, or by a program that was killed meanwhile. `lost` has those that aren't made: of elements that were deleted
        meanwhile, and assignments and deletions of what others have changed meanwhile, unless those generations aren't kept any more.
        A replica of a store writes the file anew: PATH.old keeps it as it was. Then `sync`. Raises what `sync` raises, and ValueError
        where the hub has no such generation, or for a name that is none; nothing was changed here then."""
        if not wire.NAME.match(name):
            raise ValueError(f"{name!r} is no name of a replica: 1 to 32 of a-z, 0-9, -")
        self.save_if_stored()
        with self._syncing:
            later = Later(client, document, self.front())
            forked = self._forked_before(client, later.past)
            made = {} if forked is None else self._made_before(client, later.past, forked)
            steps, log = later.found(self)
            if not steps:
                # It is that generation.
                return Remade(0, [])
            with self._listing, self._lock:
                is_there: Callable[[Id], bool] = lambda it: (
                    (it[0], it[1]) in made or covers(steps[0].end, it) and not self._is_forked(it, forked))
                found = carried(self.operations(), steps, is_there, made, self._maker_of)
                there = wire.front_of(log)
                again = [it for it in found.operations if not covers(there, it[1])]
                self._use(name, [wire.encoded(it).decode() for it in [*log, *again]])
        return Remade(len(again), found.lost)

    def _maker_of(self, operation_id: Id) -> List[str]:
        """Who made an operation: its replica, and the opening of the store, where that is known."""
        counter, replica = operation_id
        session = self._own.session_of(counter, replica) if self.is_own_name(replica) else ""
        return [replica, session] if session else [replica]

    def _is_forked(self, operation_id: Id, forked: Optional[int]) -> bool:
        """Whether another has the id of an own operation."""
        return forked is not None and operation_id[1] == self.name and bool(operation_id[0] >= forked)

    def _forked_before(self, client: Session, past: str) -> Optional[int]:
        """From which own counter on a generation has operations of another of this name; none where it isn't kept."""
        try:
            return Exchange(self, client, past, self._own).forked_at()
        except Refused:
            return None

    def _made_before(self, client: Session, past: str, forked: int) -> Dict[Tuple[int, str], Id]:
        """Of own operations those that copies of the store have made again in a generation, by `remake`: their ids there."""
        name, own = fresh_name("unmade"), self._own
        log = (wire.encoded(it).decode() for it in client.operations(past))
        with Replica(fresh_name("scratch"), log, self._library) as scratch:
            stored = self.front().get(self.name, 0)
            remaking = Remaking(self, scratch, How(name, forked, stored, own.sure, own.logged, own.session_of, False))
            remaking.run()
            return {old: now for old, now in remaking.ids.items() if now[1] != name}

    def remake_in(self, other: "Replica", elements: Iterable[Any], lines: Optional[Iterable[str]] = None) -> Remade:
        """Makes own edits again in the replica of a new document, whose content `python -m jcrdt renew put` made of this one's, or of a
        later generation. `elements` has the lines that its --map writes, or pairs of ids, as of `Session.elements_since`. `lines` are
        operations of this document; where none are given, the own ones that no server has. An element that the new document lacks, or
        that was deleted there, can't be edited there: that operation is lost. What is behind a deleted element goes behind the one before
        it. Raises ValueError without lines before a `sync` with a server."""
        old, lost, count = self.operations(), [], 0
        pairs = [wire.decoded(it.encode()) if isinstance(it, str) else it for it in elements if it != ""]
        places = Places({(one[0], one[1]): two for one, two in pairs}, old, other.operations())
        wanted = self._unsent(old) if lines is None else [wire.decoded(line.encode()) for line in lines if line.strip()]
        for operation in wanted:
            place, (word, *value) = places.of(operation), operation[4]
            if place is None and word != "delete":
                lost.append(operation)
                continue
            # What isn't there needn't be deleted.
            made = [] if place is None else other._changed(word, [place], *value)
            if word == "insert":
                places.ids[operation[1][0], operation[1][1]] = made
            count += 1
        return Remade(count, lost)

    def _unsent(self, operations: Sequence[Operation]) -> List[Operation]:
        if not self._own.same:
            raise ValueError("sync with the old document's server first")
        same = max(self._own.same.values())
        return [it for it in operations if it[1][1] == self.name and it[1][0] > same]


def _request_of(line: bytes) -> Any:
    """The request of a line, None for what is none."""
    try:
        return wire.decoded(line)
    except ValueError:
        return None


def fitting(lines: Sequence[str], library: Optional[ctypes.CDLL] = None) -> Tuple[List[str], List[str]]:
    """Of stored lines those that make a log together, in its order, and the others. A line that is there twice is taken once."""
    with Replica(fresh_name("scratch"), (), library) as scratch:
        held: Dict[str, str] = {}
        lost: List[str] = []
        left, count = list(lines), 0
        while left and len(left) != count:
            count, later = len(left), []
            for line in left:
                reply = wire.decoded_reply(scratch.answer(b'["deliver",' + line.encode() + b"]")[0])
                if reply[:2] == ["no", HELD_FULL]:
                    later.append(line)
                elif reply[0] == "held":
                    held[str(wire.decoded(line.encode())[1])] = line
                elif reply[0] == "no":
                    lost.append(line)
            left = later
        waiting = [held.get(str(it), "") for it, _ in scratch.ask("held")[0]]
        return scratch.lines(), lost + left + waiting
