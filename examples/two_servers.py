"""Two servers diverge, meet, show a conflict, settle it, and one is started again: over pipes without a file, over TCP from one."""

import argparse
import contextlib
import json
import os
import sys
import tempfile

sys.path.insert(0, os.path.join(os.path.dirname(os.path.abspath(__file__)), "..", "clients", "python"))
import jcrdt  # noqa: E402
from jcrdt.exchange import exchange, verdict  # noqa: E402

DOCUMENT = "plan"


def over_pipes(stack: contextlib.ExitStack, name: str, _room: str) -> jcrdt.Session:
    """Starts a program that serves one client, and keeps nothing."""
    return stack.enter_context(jcrdt.started([DOCUMENT], name))


def over_tcp(stack: contextlib.ExitStack, name: str, room: str) -> jcrdt.Session:
    """Starts a server that listens at a port of its own, starts from its file, and ends with its one session."""
    address = stack.enter_context(jcrdt.serving([DOCUMENT], 1, name, os.path.join(room, f"{name}.db")))
    return stack.enter_context(jcrdt.connected(address))


def tell(when: str, alice: jcrdt.Session, bob: jcrdt.Session) -> None:
    for name, server in (("alice", alice), ("bob", bob)):
        print(f"{when}, {name}: {json.dumps(server.plain(DOCUMENT, [0]))}")


def meet(alice: jcrdt.Session, bob: jcrdt.Session) -> None:
    logged, refused = exchange(alice, bob, DOCUMENT)
    print(f"they meet: handed over {logged}, refused {len(refused)}; {verdict(alice, bob, DOCUMENT, refused)}")


def main(kind: str) -> None:
    with contextlib.ExitStack() as stack:
        start = over_tcp if kind == "tcp" else over_pipes
        room = stack.enter_context(tempfile.TemporaryDirectory())
        bob = start(stack, "bob", room)
        until_alice_ends = stack.enter_context(contextlib.ExitStack())
        alice = start(until_alice_ends, "alice", room)
        alice.open(DOCUMENT)
        bob.open(DOCUMENT)
        alice.put(DOCUMENT, [0], {"title": "Plan", "guests": ["Ada"]})
        meet(alice, bob)

        # From here on neither hears of the other.
        for server, title, guest, cakes in ((alice, "Party", "Grace", 2), (bob, "Dinner", "Edsger", 3)):
            server.assign(DOCUMENT, [0, "title"], title)
            server.append(DOCUMENT, [0, "guests"], guest)
            server.add(DOCUMENT, [0, "cakes"], cakes)
        tell("apart", alice, bob)
        meet(alice, bob)
        tell("together", alice, bob)

        # Who sees both titles and assigns once more settles it for all.
        bob.assign(DOCUMENT, [0, "title"], "Dinner party")
        meet(alice, bob)
        tell("settled", alice, bob)

        # Without a file alice's document ends with her program: under a new name she gets all of it from bob. From her file she
        # has all that she had, and is a new replica of the old name.
        alice.quit()
        until_alice_ends.close()
        bob.assign(DOCUMENT, [0, "day"], "Friday")
        again = start(stack, "alice" if kind == "tcp" else "alice-again", room)
        again.open(DOCUMENT)
        tell("started again", again, bob)
        meet(again, bob)
        print(f"the next change is {again.assign(DOCUMENT, [0, 'hour'], 19)}")
        again.quit()
        bob.quit()


if __name__ == "__main__":
    parser = argparse.ArgumentParser(description=__doc__)
    parser.add_argument("way", choices=["pipes", "tcp"])
    main(parser.parse_args().way)
