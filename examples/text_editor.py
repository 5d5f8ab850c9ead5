"""A text editor's shape: a text is a list of characters, and two people type into it by index.

Figures go to standard error.
"""

import argparse
import os
import sys
import time
from typing import Callable

sys.path.insert(0, os.path.join(os.path.dirname(os.path.abspath(__file__)), "..", "clients", "python"))
import jcrdt  # noqa: E402
from jcrdt.exchange import exchange  # noqa: E402

TEXT = [0, "text"]


def text_of(server: jcrdt.Session) -> str:
    return "".join(names[-1] for _, names in server.items("page", TEXT) if names)


def type_at(server: jcrdt.Session, place: int, text: str) -> None:
    """Types behind the first `place` characters."""
    for offset, character in enumerate(text):
        server.insert("page", [*TEXT, place + offset], character)


def timed(what: str, count: int, work: Callable[[], object]) -> None:
    start = time.perf_counter()
    work()
    print(f"{what}: {(time.perf_counter() - start) / count * 1e6:.0f} microseconds a character", file=sys.stderr)


def main(count: int) -> None:
    with jcrdt.started(["page"], "ada") as ada, jcrdt.started(["page"], "bob") as bob:
        ada.open("page")
        bob.open("page")
        ada.assign("page", TEXT, [])
        type_at(ada, 0, "Dear ,")
        exchange(ada, bob, "page")

        # Both type at once, ada behind "Dear ", bob at the end. The name `caret` goes on to mean bob's last character.
        type_at(ada, 5, "Grace")
        type_at(bob, 6, " how are you")
        bob.let("page", "caret", [*TEXT, 18])
        exchange(ada, bob, "page")
        bob.insert("page", ["caret"], "?")
        exchange(ada, bob, "page")
        print(text_of(ada))
        print("both have the same text" if text_of(ada) == text_of(bob) else "the texts differ")

        line = ("the quick brown fox jumps over the lazy dog. " * (count // 45 + 1))[:count]
        timed("typed at the beginning", count, lambda: [ada.insert("page", [*TEXT, 0], c) for c in reversed(line)])
        end = len(ada.items("page", TEXT))
        timed("typed at the end", count, lambda: [ada.insert("page", [*TEXT, end + i], c) for i, c in enumerate(line)])
        timed("deleted again", 2 * count, lambda: [ada.delete("page", [*TEXT, 1]) for _ in range(count)]
              + [ada.delete("page", [*TEXT, end - count + 1]) for _ in range(count)])
        timed("handed over", 4 * count, lambda: exchange(ada, bob, "page"))
        print(text_of(bob))


if __name__ == "__main__":
    parser = argparse.ArgumentParser(description=__doc__)
    parser.add_argument("count", nargs="?", type=int, default=500, help="how many characters each types (500)")
    main(parser.parse_args().count)
