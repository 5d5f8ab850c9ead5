"""A server is killed while it is written to, and started again from its file; a peer hands back what the kill lost."""

import argparse
import contextlib
import json
import os
import subprocess
import sys
import tempfile
from typing import Tuple

sys.path.insert(0, os.path.join(os.path.dirname(os.path.abspath(__file__)), "..", "clients", "python"))
import jcrdt  # noqa: E402
from jcrdt.exchange import exchange, pull, verdict  # noqa: E402

DOCUMENT, COUNT = "notes", 200


def start(stack: contextlib.ExitStack, name: str, room: str) -> "Tuple[subprocess.Popen[bytes], str]":
    """Starts a server from the file of this name. Returns the program, which is ended with the stack, and its address."""
    words = [jcrdt.program(), "serve", "--addr", "127.0.0.1:0", "--sessions", "9", "--file", os.path.join(room, f"{name}.db"),
             "--name", name, DOCUMENT]
    program = stack.enter_context(subprocess.Popen(words, bufsize=0, stdout=subprocess.PIPE))
    stack.callback(program.kill)
    assert program.stdout
    return program, json.loads(program.stdout.readline())[1]


def talk(stack: contextlib.ExitStack, address: str) -> jcrdt.Session:
    server = stack.enter_context(jcrdt.connected(address))
    server.open(DOCUMENT)
    return server


def main() -> None:
    with contextlib.ExitStack() as stack:
        room = stack.enter_context(tempfile.TemporaryDirectory())
        program, address = start(stack, "alice", room)
        alice = talk(stack, address)
        bob = talk(stack, start(stack, "bob", room)[1])
        for number in range(COUNT):
            alice.assign(DOCUMENT, [0, f"note {number}"], "made by alice")
        pull(alice, bob, DOCUMENT)

        # What she has logged and not yet copied to her file is lost to her, and bob has it.
        program.kill()
        program.wait()
        print(f"alice is killed behind {COUNT} changes")
        again = talk(stack, start(stack, "alice", room)[1])
        kept = len(again.keys(DOCUMENT, [0]))
        print(f"in her file there were {kept}", file=sys.stderr)

        logged, refused = exchange(again, bob, DOCUMENT)
        print(f"bob handed {logged} back", file=sys.stderr)
        print(f"refused {len(refused)}; {verdict(again, bob, DOCUMENT, refused)}; {kept + logged} notes")
        counter, replica = again.assign(DOCUMENT, [0, "note 0"], "made after the kill")
        print(f"the next change is {counter} of {replica}")


if __name__ == "__main__":
    argparse.ArgumentParser(description=__doc__).parse_args()
    main()
