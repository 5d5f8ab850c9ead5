"""A shared shopping list: each terminal is one session of a server, and all see the same list.

It reads commands line by line: add NAME · bought NUMBER · list · quit
"""

import argparse
import os
import sys
from typing import Dict

sys.path.insert(0, os.path.join(os.path.dirname(os.path.abspath(__file__)), "..", "clients", "python"))
import jcrdt  # noqa: E402
from jcrdt.wire import Id  # noqa: E402

DOCUMENT, ITEMS = "list", [0, "items"]
# The element that each printed number means.
Shown = Dict[str, Id]


def show(server: jcrdt.Session, shown: Shown) -> None:
    """Prints the list, and remembers which element each number means: it means it also when others change the list."""
    shown.clear()
    for number, (element, names) in enumerate(server.items(DOCUMENT, ITEMS), 1):
        shown[str(number)] = element
        print(f"{number} {' / '.join(map(str, names))}")
    if not shown:
        print("nothing to buy")


def obey(server: jcrdt.Session, shown: Shown, line: str) -> bool:
    """Does what a line says; False ends the terminal."""
    word, _, rest = line.strip().partition(" ")
    if word == "add" and rest:
        server.append(DOCUMENT, ITEMS, rest)
    elif word == "bought" and rest in shown:
        # The name is bound to that very element, or the element is gone.
        if server.bind(DOCUMENT, "bought", ITEMS, shown[rest]):
            server.delete(DOCUMENT, ["bought"])
    elif word == "bought":
        print("show the list first: no such number")
    elif word == "list":
        show(server, shown)
    elif word == "quit":
        return False
    else:
        print("add NAME · bought NUMBER · list · quit")
    return True


def main(address: str) -> None:
    with jcrdt.connected(address) as server:
        server.open(DOCUMENT)
        shown: Shown = {}
        for line in sys.stdin:
            if not obey(server, shown, line):
                break
            sys.stdout.flush()
        server.quit()


if __name__ == "__main__":
    parser = argparse.ArgumentParser(description=__doc__)
    parser.add_argument("address", help="of a server, as ./jcrdt serve --addr 127.0.0.1:7000 --sessions 2 --file list.db list")
    address = parser.parse_args().address
    try:
        main(address)
    except (OSError, ValueError, jcrdt.Refused) as error:
        sys.exit(f"shopping_list: {error}")
