"""How the tests of this folder are run: with which program, several runs at once, and those that take hours only where they are wanted."""

import collections
import os
import pathlib
import sys
import tempfile
from _pytest.terminal import TerminalReporter
from concurrent.futures import ThreadPoolExecutor
from typing import Dict, Iterator, Optional

import pytest

sys.dont_write_bytecode = True
HERE = os.path.dirname(os.path.abspath(__file__))
sys.path[:0] = [HERE, os.path.dirname(HERE)]

from support import needs  # noqa: E402
from tried import Case, Counts, Tried, new_folder  # noqa: E402

# What takes many minutes: it is run with --long, or where it is named.
LONG = ("test_cut.py", "test_devices.py", "test_memory.py", "test_memory_over_tcp.py")

# What pytest keeps for these tests: the program that is tried, and what the runs of each file counted.
TRIED = pytest.StashKey[Tried]()
COUNTS = pytest.StashKey[Dict[str, Counts]]()


def pytest_addoption(parser: pytest.Parser) -> None:
    parser.addoption("--program", type=os.path.abspath, help="the program that is tried")
    parser.addoption("--long", action="store_true", help="also what takes many minutes")


def pytest_configure(config: pytest.Config) -> None:
    program = config.getoption("--program")
    if not program or not os.access(program, os.X_OK):
        raise pytest.UsageError(f"--program PROGRAM is wanted, and {program} is no program: release/jcrdt is one")
    room = tempfile.TemporaryDirectory(prefix="whole-program-")
    config.add_cleanup(room.cleanup)
    config.stash[TRIED] = Tried(program, room.name)
    counts: Dict[str, Counts] = collections.defaultdict(collections.Counter)
    config.stash[COUNTS] = counts


def pytest_ignore_collect(collection_path: pathlib.Path, config: pytest.Config) -> Optional[bool]:
    is_named = any(it.partition("::")[0].endswith(collection_path.name) for it in config.args)
    return True if collection_path.name in LONG and not is_named and not config.getoption("--long") else None


def pytest_generate_tests(metafunc: pytest.Metafunc) -> None:
    """A test of a `case` is run with each that its file finds."""
    if "case" in metafunc.fixturenames:
        config = metafunc.config
        found = [Case(name, call) for name, call in metafunc.module.cases(config.stash[TRIED], config.stash[COUNTS][metafunc.module.__name__])]
        metafunc.parametrize("case", found, ids=[it.name for it in found])


def pytest_collection_finish(session: pytest.Session) -> None:
    """Cases that were chosen are run by a pool, ahead of their tests."""
    if session.config.getoption("--collect-only"):
        return
    pool = ThreadPoolExecutor(int(os.environ.get("JOBS", "2")))
    session.config.add_cleanup(lambda: pool.shutdown(cancel_futures=True))
    for item in session.items:
        case = item.callspec.params.get("case") if hasattr(item, "callspec") else None
        if isinstance(case, Case):
            case.ahead = pool.submit(case.call)


def pytest_terminal_summary(terminalreporter: TerminalReporter, config: pytest.Config) -> None:
    """What the runs counted, and what was left out."""
    for counts in config.stash[COUNTS].values():
        for name, count in ((name, count) for name, count in counts.items() if count):
            terminalreporter.write_line(f"{count} {name}")
    for report in terminalreporter.getreports("skipped"):
        reason = report.longrepr[2] if isinstance(report.longrepr, tuple) else str(report.longrepr)
        terminalreporter.write_line(needs.line_of(report.nodeid.rpartition("::")[2], reason.partition("Skipped: ")[2] or reason))
    if not config.stash[TRIED].can_fail and any("test_rows" in it for it in config.args):
        terminalreporter.write_line(needs.line_of("rows in pieces", needs.reason_of(needs.missing("cc", "header:stdlib.h"))))


@pytest.fixture
def tried(pytestconfig: pytest.Config) -> Tried:
    return pytestconfig.stash[TRIED]


@pytest.fixture
def path(tried: Tried) -> Iterator[str]:
    """The name of a file that isn't there."""
    with new_folder(tried.room) as folder:
        yield f"{folder}/copy.db"
