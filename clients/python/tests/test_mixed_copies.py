"""Copies of stores that go on in Python and in JavaScript: all sync, and each edit is there once.

Over libjcrdt.so and node; skipped where one isn't here. With JCRDT_SLOW many seeds, with SEEDS so many."""

import contextlib
import itertools
import os
import random
import shutil
from pathlib import Path
from typing import Callable, Iterator, List, Optional, Sequence, Tuple

import pytest

from conftest import Server
from test_running_copies import OfJavaScript, Program, begun, cut_after, state

import jcrdt
from jcrdt import replica as replica_module
from jcrdt.session import Session
from jcrdt.syncing import Differs

Serve = Callable[..., Server]
SEEDS = int(os.environ.get("SEEDS", "60" if os.environ.get("JCRDT_SLOW") else "5"))

pytestmark = [pytest.mark.skipif(not any(map(os.path.isfile, replica_module.library_paths())), reason="libjcrdt.so isn't here"),
              pytest.mark.skipif(shutil.which("node") is None, reason="node isn't here")]


@pytest.fixture
def client(serve: Serve) -> Iterator[Session]:
    with jcrdt.connected(serve("d").address) as session:
        session.open("d")
        yield session


class Either:
    """A program over a file, in one of the languages: it may go on in the other one behind its end."""

    def __init__(self, path: Path, client: Session, language: str) -> None:
        self.path, self.client = path, client
        self.open(language)

    def open(self, language: str) -> None:
        self.python: Optional[Program] = Program(self.path) if language == "python" else None
        self.javascript = None if self.python else OfJavaScript(self.path, self.client)
        # It is open once it answers.
        self.ask("look")

    def ask(self, *words: str) -> None:
        if self.javascript:
            self.javascript.ask(" ".join(words))

    def write(self, text: str) -> None:
        self.ask("write", text)
        if self.python:
            self.python.write(text)

    def vote(self) -> None:
        self.ask("vote")
        if self.python:
            self.python.vote(1)

    def sync(self) -> None:
        self.ask("online")
        if self.python:
            self.python.sync(self.client)

    def end(self, how: str) -> None:
        it = self.python or self.javascript
        assert it is not None
        {"killed": it.kill}.get(how, it.close)()

    def kill_while_it_syncs(self, count: int) -> None:
        """Lets it be killed once it has sent so many operations; in JavaScript somewhere on the way."""
        if self.python:
            with cut_after(count, self.client), contextlib.suppress(Differs):
                self.python.me.sync(self.client, "d")
        elif self.javascript:
            assert self.javascript.child.stdin is not None
            self.javascript.child.stdin.write("online\n")
            with contextlib.suppress(BaseException):
                self.javascript.child.wait(count / 100)
        self.end("killed")

    @property
    def name(self) -> str:
        return self.path.read_text().split('"', 4)[3]

    @property
    def state(self) -> Tuple[List[str], int]:
        if self.python:
            return state(self.python.me)
        assert self.javascript is not None
        return self.javascript.ask("look")


def check(programs: Sequence[Either], client: Session, texts: Sequence[str], votes: int) -> None:
    """Each edit is everywhere exactly once, and a name is one program's."""
    for it in 3 * list(programs):
        it.sync()
    due = sorted(texts), votes
    assert [it.state for it in programs] + [state(client, "d", [0])] == [due] * (len(programs) + 1)
    names = [it.name for it in programs]
    assert len(set(names)) == len(names)
    for it in programs:
        it.end("closed")


LANGUAGES = list(itertools.product(["python", "javascript"], repeat=3))
WAYS = [(True, [0, 1, 2]), (True, [2, 1, 0]), (False, [2, 0, 1]), (False, [2, 1, 0]), (False, [1, 2, 0])]
CASES = [("-".join(languages), *way) for way in WAYS for languages in LANGUAGES]


@pytest.mark.parametrize("languages, is_edited, order", CASES)
def test_a_copy_of_a_copy(client: Session, tmp_path: Path, languages: str, is_edited: bool, order: Sequence[int]) -> None:
    """Of what no server has. The third one says so of the first one, also where the second one has made nothing by then."""
    begun(tmp_path / "0", client).close()
    programs: List[Either] = []
    for number, language in enumerate(languages.split("-")):
        if number:
            shutil.copy(tmp_path / str(number - 1), tmp_path / str(number))
        programs.append(Either(tmp_path / str(number), client, language))
        if is_edited or not number:
            programs[-1].write(f"before-{number}")
    for it in programs:
        it.write("alike")
    for number in order:
        programs[number].sync()
    texts = ["base", "before-0", *(["before-1", "before-2"] if is_edited else []), *3 * ["alike"]]
    check(programs, client, texts, len(texts))


class Rounds:
    """Edits, copies, copies of copies, syncs and kills in any order. What was ended may go on in the other language."""

    def __init__(self, seed: int, client: Session, folder: Path) -> None:
        self.dice, self.seed, self.client, self.folder = random.Random(seed), seed, client, folder
        begun(folder / "0", client if self.dice.random() < 0.7 else None).close()
        self.programs = [Either(folder / "0", client, self.language)]
        self.texts, self.votes = ["base"], 1

    @property
    def language(self) -> str:
        return self.dice.choice(["python", "javascript"])

    def copy(self, it: Either) -> None:
        if len(self.programs) < 5:
            path = self.folder / str(len(self.programs))
            shutil.copy(it.path, path)
            self.programs.append(Either(path, self.client, self.language))

    def turn(self, number: int) -> None:
        it, chance = self.dice.choice(self.programs), self.dice.random()
        if chance < 0.35:
            self.texts.append(f"{self.seed}-{number}")
            self.votes += 1
            it.write(self.texts[-1])
        elif chance < 0.5:
            self.votes += 1
            it.vote()
        elif chance < 0.63:
            self.copy(it)
        elif chance < 0.8:
            it.sync()
        else:
            self.end(it, chance)

    def end(self, it: Either, chance: float) -> None:
        if chance < 0.9:
            it.end(self.dice.choice(["closed", "killed"]))
            if self.dice.random() < 0.3:
                self.copy(it)
        else:
            it.kill_while_it_syncs(self.dice.randrange(6))
        it.open(self.language)


@pytest.mark.parametrize("seed", range(SEEDS))
def test_random_copies_in_both_languages(client: Session, tmp_path: Path, seed: int) -> None:
    """Nothing is lost, nothing doubled."""
    rounds = Rounds(seed, client, tmp_path)
    for number in range(40):
        rounds.turn(number)
    check(rounds.programs, client, rounds.texts, rounds.votes)
