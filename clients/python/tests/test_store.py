"""A replica's store in a file: opened twice, by threads, through a link, behind a fork; full, torn, damaged and replaced."""

import json
import os
import resource
import shutil
import subprocess
import sys
import threading
from pathlib import Path
from typing import Any, List

import pytest

from conftest import PACKAGE, SECONDS
from test_session import forked

from jcrdt import replica as replica_module
from jcrdt.remaking import name_of
from jcrdt.replica import Replica
from jcrdt.store import Busy, Store

FIRST = '["op",[1,"ada-1"],[],[[["m",0]],"t"],["assign","Plan"]]'
SECOND = '["op",[2,"ada-1"],[["ada-1",1]],[[["m",0]],"t"],["assign","Plan B"]]'
THIRD = '["op",[3,"ada-1"],[["ada-1",2]],[[["m",0]],"u"],["assign",1]]'
HEAD = '["replica","ada-1","notes"]'
NOTES = PACKAGE.parent.parent / "examples/notes.py"

needs_library = pytest.mark.skipif(not any(map(os.path.isfile, replica_module.library_paths())), reason="libjcrdt.so isn't here")


def file_of(folder: Path, *lines: str, end: str = "\n") -> Path:
    path = folder / "notes"
    path.write_text("\n".join(lines) + end, encoding="utf-8")
    return path


def opened(path: Any, document: str = "notes") -> Store:
    return Store(str(path), document, "ada")


def place_of(path: Path) -> str:
    """Which file it is, by the machine and the inode."""
    machine = Path("/etc/machine-id").read_text().strip() if os.path.exists("/etc/machine-id") else ""
    return name_of("file", f"{machine} {os.stat(path).st_ino}")


def session_line(store: Store, path: Path, *former: str) -> str:
    """The line by which an opening says its word, which file it is, and which name goes on in another one."""
    return json.dumps(["session", store.session, place_of(path), *former], separators=(",", ":"))


def text_of(path: Path) -> str:
    """A file without marks and lines of openings."""
    lines = path.read_text().splitlines(keepends=True)
    return "".join([lines[0].rstrip("\t \n") + "\n", *(it for it in lines[1:] if not it.startswith('["session",'))])


def test_what_is_appended_is_there_at_the_next_start(tmp_path: Path) -> None:
    with opened(tmp_path / "notes") as store:
        name = store.name
        assert name.startswith("ada-") and store.lines == []
        store.append([FIRST])
        store.append([SECOND, THIRD])
    with opened(tmp_path / "notes") as store:
        assert (store.name, store.lines, store.unread) == (name, [FIRST, SECOND, THIRD], [])
    assert os.listdir(tmp_path) == ["notes"]


def test_a_file_says_whether_it_was_closed_and_when_it_was_edited(tmp_path: Path) -> None:
    """As those of JavaScript: a tab behind the names, or a space; a line before what was made in one opening."""
    path = file_of(tmp_path, HEAD, FIRST)
    words: List[str] = []
    written: List[List[str]] = [[SECOND], [], [THIRD]]
    for number, lines in enumerate(written):
        with opened(path) as store:
            assert path.read_text().splitlines()[0] == f"{HEAD}\t"
            assert (store.is_new, store.is_doubtful, store.sessions[-1]) == (False, False, ((1, 2, 2)[number], store.session))
            if lines:
                store.append(lines)
                words.append(session_line(store, path))
        assert path.read_text().splitlines()[0] == f"{HEAD} "
    assert path.read_text() == "\n".join([f"{HEAD} ", FIRST, words[0], SECOND, words[1], THIRD, ""])
    with opened(path) as store:
        assert [after for after, _ in store.sessions] == [1, 2, 3]
        store.replace("ada-1", store.lines)
        # It is another file, and the last line says so.
        assert path.read_text() == "\n".join([f"{HEAD}\t", FIRST, words[0], SECOND, words[1], THIRD, session_line(store, path), ""])
        store.replace("ada-2", store.lines)
        assert store.is_new and store.sessions == [(0, store.session)]
        assert path.read_text().splitlines()[1:] == [FIRST, SECOND, THIRD, session_line(store, path)]


@pytest.mark.parametrize("package", ["of now", "older"])
def test_a_killed_program_keeps_its_name(tmp_path: Path, package: str) -> None:
    """The file says that it is the same one. That of an older package doesn't say which it is: it isn't taken for a copy."""
    path = file_of(tmp_path, f"{HEAD}\t", FIRST)
    word = '["session","at-1","%s"]' % place_of(path) if package == "of now" else '["session","at-1"]'
    path.write_text("\n".join([f"{HEAD}\t", word, FIRST, ""]))
    if package == "older":
        shutil.copy(path, tmp_path / "copy")
        path = tmp_path / "copy"
    with opened(path) as store:
        assert (store.name, store.is_new, store.is_doubtful, store.formers) == ("ada-1", False, True, {})
    assert path.read_text().splitlines()[0] == f"{HEAD}\t"


@pytest.mark.parametrize("how", ["closed", "open"])
def test_a_copy_has_a_name_of_its_own(tmp_path: Path, how: str) -> None:
    """And says which one made its operations until then: once, and also where it is copied again."""
    path, copy, third = (tmp_path / it for it in ("notes", "copy", "third"))
    store = opened(path)
    name = store.name
    first = FIRST.replace("ada-1", name)
    store.append([first])
    before = path.read_text().splitlines()[1:]
    if how == "closed":
        store.close()
    shutil.copy(path, copy)
    with Store(str(copy), "notes", "bob") as other:
        assert (other.name[:4], other.is_new, other.is_doubtful, other.lines) == ("bob-", True, False, [first])
        assert other.formers == {name: [(0, store.session)]} and other.sessions == [(0, store.session), (0, other.session)]
        said = [*before, session_line(other, copy, name)]
        assert copy.read_text().splitlines() == ['["replica","%s","notes"]\t' % other.name, *said]
        second = SECOND.replace('"ada-1"]', f'"{other.name}"]').replace("ada-1", name, 1)
        other.append([second])
    with opened(copy) as again:
        assert (again.name, again.is_new, again.formers) == (other.name, False, other.formers)
        assert again.sessions == [(0, store.session), (0, other.session), (2, again.session)]
        again.replace(again.name, again.lines)
        assert copy.read_text().splitlines()[1:] == [*said, second, session_line(again, copy)]
    shutil.copy(copy, third)
    with opened(third) as last:
        words = [store.session, other.session, again.session]
        assert last.formers == {name: [(0, words[0])], other.name: [(0, words[0]), (0, words[1]), (2, words[2])]}
        assert third.read_text().splitlines()[-1] == session_line(last, third, other.name)
        last.replace("carl-1", last.lines)
        assert (last.formers, last.sessions) == ({}, [(0, last.session)])
    store.close()
    assert sorted(os.listdir(tmp_path)) == ["copy", "copy.old", "notes", "third", "third.old"]
    with opened(path) as store:
        assert (store.name, store.formers) == (name, {})


def test_which_files_are_copies(tmp_path: Path) -> None:
    """One that was moved isn't, nor one that an older one was written over. One that has made nothing has no name to say."""
    path, moved, copy = (tmp_path / it for it in ("notes", "moved", "copy"))
    with opened(path) as store:
        name = store.name
    shutil.copy(path, copy)
    with opened(copy) as other:
        assert other.name != name and other.is_new and other.formers == {}
    older = path.read_bytes()
    with opened(path) as store:
        store.append([FIRST.replace("ada-1", name)])
    path.write_bytes(older)
    path.rename(moved)
    with opened(moved) as store:
        assert (store.name, store.is_new, store.formers) == (name, False, {})


def test_a_copy_with_lines_that_can_not_be_read_keeps_them(tmp_path: Path) -> None:
    path = file_of(tmp_path, f"{HEAD} ", '["session","at-1","file-1"]', FIRST, "damaged")
    text = path.read_text()
    with opened(path) as store:
        assert (store.lines, store.unread, list(store.formers)) == ([FIRST], ["damaged"], ["ada-1"])
    assert (tmp_path / "notes.old").read_text() == text


@needs_library
def test_what_can_not_be_written_leaves_a_copy_as_it_was(tmp_path: Path) -> None:
    path = file_of(tmp_path, f"{HEAD} ", '["session","at-1","file-1"]', FIRST)
    text, limits = path.read_text(), resource.getrlimit(resource.RLIMIT_FSIZE)
    resource.setrlimit(resource.RLIMIT_FSIZE, (10, limits[1]))
    try:
        with pytest.raises(OSError):
            opened(path)
    finally:
        resource.setrlimit(resource.RLIMIT_FSIZE, limits)
    assert path.read_text() == text and os.listdir(tmp_path) == ["notes"]
    with opened(path) as store, Replica.stored(store) as me:
        assert me.formers == ["ada-1"]


def test_lines_of_openings_stay_as_they_are(tmp_path: Path) -> None:
    """Those of JavaScript, which may name the name before, and those of older packages."""
    path = file_of(tmp_path, "")
    words = ['["session","at-1"]', '["session","at-2","file-2","old-1"]', '["session","at-3","%s"]' % place_of(path)]
    path.write_text("\n".join([f"{HEAD} ", words[0], FIRST, words[1], SECOND, words[2], ""]))
    with opened(path) as store:
        assert store.unread == [] and [word for _, word in store.sessions] == ["at-1", "at-2", "at-3", store.session]
        assert store.formers == {"old-1": [(0, "at-1")]}
        store.replace("ada-1", [FIRST, SECOND])
        assert path.read_text().splitlines()[1:] == [words[0], FIRST, words[1], SECOND, words[2], session_line(store, path)]
        store.append([THIRD])
        assert path.read_text().splitlines()[-2:] == [session_line(store, path), THIRD]


def test_a_second_store_of_one_file_is_busy_and_named(tmp_path: Path) -> None:
    path = tmp_path / "notes"
    link = tmp_path / "link"
    os.symlink("notes", link)
    words = [sys.executable, "-c", "import sys; from jcrdt.store import Store, Busy\n"
             "try: Store(sys.argv[1], 'notes')\nexcept Busy as error: print(error)", str(link)]
    with opened(path):
        for other in (path, link):
            with pytest.raises(Busy, match=f"^{path}: another program has this store open"):
                opened(other)
        told = subprocess.run(words, stdout=subprocess.PIPE, text=True, check=True, timeout=SECONDS, env={**os.environ, "PYTHONPATH": str(PACKAGE)})
        assert told.stdout == f"{path}: another program has this store open\n"
        found: List[str] = []

        def in_thread() -> None:
            with pytest.raises(Busy) as busy:
                opened(link)
            found.append(str(busy.value))

        thread = threading.Thread(target=in_thread)
        thread.start()
        thread.join()
        assert found == [f"{path}: another program has this store open"]
    with opened(link):
        pass


def test_a_replaced_file_stays_locked_and_a_link_stays_a_link(tmp_path: Path) -> None:
    path, link = file_of(tmp_path, HEAD, FIRST), tmp_path / "link"
    os.symlink("notes", link)
    os.chmod(path, 0o640)
    with opened(link) as store:
        store.replace("ada-2", [FIRST])
        with pytest.raises(Busy):
            opened(path)
        store.append([SECOND])
        store.replace("ada-3", [])
    assert link.is_symlink() and path.stat().st_mode & 0o777 == 0o640
    assert text_of(path) == '["replica","ada-3","notes"]\n'
    assert text_of(tmp_path / "notes.old") == f"{HEAD}\n{FIRST}\n"
    assert text_of(tmp_path / "notes.old-2") == f'["replica","ada-2","notes"]\n{FIRST}\n{SECOND}\n'


def test_a_fork_leaves_the_store_to_the_parent(tmp_path: Path) -> None:
    path = tmp_path / "notes"
    store = opened(path)
    assert forked(lambda: store.append([FIRST])).startswith("Busy(")
    assert forked(lambda: opened(path)).startswith("Busy(")
    assert forked(store.close) == "None"
    store.append([FIRST])
    reader, writer = os.pipe()
    child = os.fork()
    if child == 0:
        os.close(writer)
        os.read(reader, 1)
        os._exit(0)
    # A child that goes on doesn't keep the parent's lock.
    store.close()
    with opened(path) as again:
        assert again.lines == [FIRST]
    os.close(writer)
    os.waitpid(child, 0)
    os.close(reader)


def test_a_killed_program_leaves_no_lock(tmp_path: Path) -> None:
    words = [sys.executable, "-c", "import sys; from jcrdt.store import Store\nstore = Store(sys.argv[1], 'notes')\n"
             "print('open', flush=True)\nsys.stdin.read()", str(tmp_path / "notes")]
    with subprocess.Popen(words, stdin=subprocess.PIPE, stdout=subprocess.PIPE, env={**os.environ, "PYTHONPATH": str(PACKAGE)}) as child:
        assert child.stdout is not None and child.stdout.readline() == b"open\n"
        with pytest.raises(Busy):
            opened(tmp_path / "notes")
        child.kill()
        child.wait()
        opened(tmp_path / "notes").close()


@pytest.mark.parametrize("torn", ['["op",[2,"ada', SECOND, "\xe4"])
def test_a_last_line_that_was_cut_off_is_cut(tmp_path: Path, torn: str) -> None:
    path = file_of(tmp_path, HEAD, FIRST, torn, end="")
    with opened(path) as store:
        assert (store.lines, store.unread) == ([FIRST], [])
        store.append([SECOND])
    assert text_of(path) == f"{HEAD}\n{FIRST}\n{SECOND}\n"


def test_a_first_line_that_was_cut_off(tmp_path: Path) -> None:
    for torn in ("", "[", '["replica","ada'):
        path = file_of(tmp_path, torn, end="")
        opened(path).close()
        assert path.read_text().startswith('["replica","ada-')


def test_a_file_of_something_else_stays_as_it_is(tmp_path: Path) -> None:
    for text in ("Dear Grace,\nhow are you?\n", "Dear Grace", "[1]\n"):
        path = file_of(tmp_path, text, end="")
        with pytest.raises(ValueError, match="is no file of a replica"):
            opened(path)
        assert path.read_text() == text
    path = file_of(tmp_path, HEAD, FIRST)
    with pytest.raises(ValueError, match="has the document notes, not other"):
        opened(path, "other")
    opened(path).close()


def test_a_disk_that_is_full_for_a_moment(tmp_path: Path) -> None:
    """A limit of the file's size stands for the disk: a part is written, and then none."""
    path = file_of(tmp_path, HEAD, FIRST)
    with opened(path) as store:
        before, limits = path.read_text(), resource.getrlimit(resource.RLIMIT_FSIZE)
        resource.setrlimit(resource.RLIMIT_FSIZE, (len(before) + 10, limits[1]))
        try:
            with pytest.raises(OSError):
                store.append([SECOND])
        finally:
            resource.setrlimit(resource.RLIMIT_FSIZE, limits)
        assert path.read_text() == before
        store.append([SECOND])
    assert text_of(path) == f"{HEAD}\n{FIRST}\n{SECOND}\n"


@needs_library
def test_two_threads_save_and_the_store_opens_again(tmp_path: Path) -> None:
    for turn in range(3):
        with opened(tmp_path / f"notes-{turn}") as store, Replica.stored(store) as me:
            me.put([0, "list"], [])

            def work(name: str, me: Replica = me) -> None:
                for number in range(100):
                    me.insert([0, "list", 0], f"{name}-{number}")
                    me.save()

            threads = [threading.Thread(target=work, args=(name,)) for name in ("a", "b")]
            for thread in threads:
                thread.start()
            for thread in threads:
                thread.join()
            lines, name = me.lines(), me.name
        with opened(tmp_path / f"notes-{turn}") as store, Replica.stored(store) as me:
            assert (store.lines, me.unread, me.name) == (lines, [], name)
            assert len(me.plain([0, "list"])) == 200


@needs_library
def test_lines_in_another_order_or_twice_are_taken(tmp_path: Path) -> None:
    """As by two threads that each stored what `logged` gave."""
    path = file_of(tmp_path, HEAD, THIRD, SECOND, SECOND, FIRST)
    with opened(path) as store, Replica.stored(store) as me:
        assert (me.name, me.unread, me.plain()) == ("ada-1", [], {"t": "Plan B", "u": 1})
        me.assign([0, "v"], 2)
        me.save()
    with opened(path) as store:
        assert store.lines[:3] == [FIRST, SECOND, THIRD] and len(store.lines) == 4


@needs_library
def test_many_lines_in_reverse_order_are_taken(tmp_path: Path) -> None:
    with Replica("ada-1") as made:
        made.put([0, "list"], list(range(700)))
        lines = made.lines()
    path = file_of(tmp_path, HEAD, *reversed(lines))
    with opened(path) as store, Replica.stored(store) as me:
        assert (me.unread, me.plain([0, "list"])) == ([], list(range(700)))


@needs_library
@pytest.mark.parametrize("damaged", [SECOND.replace('"Plan B"', '"Plan B'), SECOND.replace("assign", "assume"), FIRST.replace("Plan", "Other")])
def test_a_damaged_line_is_kept_and_said(tmp_path: Path, damaged: str) -> None:
    path = file_of(tmp_path, HEAD, FIRST, damaged, THIRD)
    text = path.read_text()
    with opened(path) as store, Replica.stored(store) as me:
        assert sorted(me.unread) == sorted([damaged, THIRD])
        assert me.plain() == {"t": "Plan"}
        assert me.name != "ada-1"
        me.assign([0, "v"], 2)
        me.save()
    assert text_of(tmp_path / "notes.old") == text
    with opened(path) as store, Replica.stored(store) as me:
        assert (me.unread, me.plain()) == ([], {"t": "Plan", "v": 2})


@needs_library
def test_what_can_not_be_stored_is_stored_later(tmp_path: Path) -> None:
    with opened(tmp_path / "notes") as store, Replica.stored(store) as me:
        me.assign([0, "a"], 1)
        limits = resource.getrlimit(resource.RLIMIT_FSIZE)
        resource.setrlimit(resource.RLIMIT_FSIZE, ((tmp_path / "notes").stat().st_size, limits[1]))
        try:
            with pytest.raises(OSError):
                me.save()
        finally:
            resource.setrlimit(resource.RLIMIT_FSIZE, limits)
        me.assign([0, "b"], 2)
        me.save()
        me.save()
        lines = me.lines()
    with opened(tmp_path / "notes") as store:
        assert store.lines == lines
    with Replica("ada-1") as bare, pytest.raises(ValueError, match="has no store"):
        bare.save()


@needs_library
def test_the_end_of_with_saves(tmp_path: Path) -> None:
    with pytest.raises(KeyError), opened(tmp_path / "notes") as store, Replica.stored(store) as me:
        me.assign([0, "a"], 1)
        raise KeyError
    with opened(tmp_path / "notes") as store, Replica.stored(store) as me:
        assert me.plain() == {"a": 1}


@needs_library
def test_three_programs_at_once_lose_no_note(tmp_path: Path) -> None:
    def notes(*words: str) -> "subprocess.Popen[str]":
        return subprocess.Popen([sys.executable, NOTES, str(tmp_path / "notes"), *words], stdout=subprocess.PIPE, text=True)

    for turn in range(4):
        programs = [notes("add", f"{turn}-{number}") for number in range(3)]
        assert [it.communicate(timeout=SECONDS) and it.returncode for it in programs] == [0, 0, 0]
    shown = notes().communicate(timeout=SECONDS)[0]
    assert len(shown.splitlines()) == 12
