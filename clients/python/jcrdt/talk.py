"""A terminal for a server or a hub: each line goes to it as a request, and the reply is shown.

usage: talk ADDRESS     (HOST:PORT; `["quit"]` or the end of input ends it)

What a hub sends without a request has `push:` before it. At a terminal the arrow keys bring earlier lines back,
also those of earlier calls (kept in ~/.jcrdt_history). The Tab key completes a request, and the name of a
document that was opened.
"""

import argparse
import json
import os
import sys
import threading
from typing import Iterator, List, Optional, Sequence

from .protocol import REQUESTS
from .session import Session, connected
from .terminal import checked_address, say
from .wire import Lost, encoded

HISTORY = os.path.expanduser("~/.jcrdt_history")
# How often a terminal looks for pushes, in seconds.
LOOK_SECONDS = 0.1


class Completer:
    """Completes the word of a request, and then the document's name."""

    def __init__(self) -> None:
        self.documents: List[str] = []

    def note(self, line: bytes, reply: bytes) -> None:
        """Remembers a document that was opened."""
        if reply.startswith(b'["opened"'):
            name = str(json.loads(line)[1])
            if name not in self.documents:
                self.documents.append(name)

    def found(self, line: str) -> List[str]:
        """The lines that this one may become."""
        every = [f'["{word}","' if form.items else f'["{word}"]' for word, form in REQUESTS.items()]
        parts = line.split('"')
        if len(parts) > 3 and parts[1] in REQUESTS:
            end = '"]' if len(REQUESTS[parts[1]].items) == 1 else '",'
            every = ['["%s","%s%s' % (parts[1], name, end) for name in self.documents]
        return [it for it in every if it.startswith(line)]

    def complete(self, _: str, number: int) -> Optional[str]:
        import readline
        found = self.found(readline.get_line_buffer())
        return found[number] if number < len(found) else None


def typed_lines(completer: Completer) -> Iterator[bytes]:
    """The lines that are typed at a terminal, with history and completion where Python has readline."""
    try:
        import readline
    except ImportError:
        yield from _lines_of_input()
        return
    try:
        readline.read_history_file(HISTORY)
    except OSError:
        pass
    readline.set_history_length(1000)
    readline.set_completer(completer.complete)
    readline.set_completer_delims("")
    readline.parse_and_bind("tab: complete")
    try:
        yield from _lines_of_input()
    finally:
        try:
            readline.write_history_file(HISTORY)
        except OSError:
            pass


def _lines_of_input() -> Iterator[bytes]:
    try:
        while True:
            yield input("> ").encode(errors="replace")
    except EOFError:
        print()


def show_pushes(server: Session) -> None:
    push = server.kept_push()
    while push is not None:
        say("push: " + encoded(push).decode())
        push = server.kept_push()


def keep_showing(server: Session, ended: threading.Event) -> None:
    """Shows pushes as they come, while a terminal waits for a line."""
    try:
        while not ended.wait(LOOK_SECONDS):
            push = server.next_push(0)
            if push is not None:
                say("push: " + encoded(push).decode())
    except Lost:
        # The next line says so.
        return


def main(words: Sequence[str]) -> int:
    parser = argparse.ArgumentParser(prog="talk", description=__doc__, formatter_class=argparse.RawDescriptionHelpFormatter)
    parser.add_argument("address", metavar="ADDRESS", type=checked_address)
    asked = parser.parse_args(words)
    completer, ended, at_terminal = Completer(), threading.Event(), sys.stdin.isatty()
    with connected(asked.address) as server:
        if at_terminal:
            threading.Thread(target=keep_showing, args=(server, ended), daemon=True).start()
        try:
            for line in typed_lines(completer) if at_terminal else sys.stdin.buffer:
                reply = server.answer(line.rstrip(b"\r\n"))
                show_pushes(server)
                print(reply.decode(errors="replace"), flush=True)
                completer.note(line, reply)
                if reply == b'["bye"]':
                    break
            show_pushes(server)
        finally:
            ended.set()
    return 0
