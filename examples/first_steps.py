"""A session's calls, one after the other, with what each gives."""

import argparse
import json
import os
import sys
from typing import Any, List, Tuple

sys.path.insert(0, os.path.join(os.path.dirname(os.path.abspath(__file__)), "..", "clients", "python"))
import jcrdt  # noqa: E402


def show(title: str, value: object) -> None:
    print(f"{title}: {json.dumps(value, ensure_ascii=False)}")


def main() -> None:
    with jcrdt.started(["notes"], name="alice") as alice:
        alice.open("notes")
        alice.put("notes", [0], {"title": "Trip", "days": [{"place": "Oslo"}, {"place": "Bergen"}], "paid": False})
        show("the whole document", alice.plain("notes", [0]))
        show("keys", alice.keys("notes", [0]))

        last = alice.append("notes", [0, "days"], {"place": "Tromsø"})
        alice.bind("notes", "last day", [0, "days"], last)
        alice.delete("notes", [0, "days", 1])
        alice.assign("notes", ["last day", "nights"], 2)
        show("days", alice.plain("notes", [0, "days"]))

        alice.add("notes", [0, "budget"], 500)
        alice.add("notes", [0, "budget"], -120)
        show("budget", alice.sum("notes", [0, "budget"]))

        # An operation of another replica, that doesn't know of our title: both stay until one who sees both settles it.
        alice.deliver("notes", ["op", [1, "bob-1"], [], [[["m", 0]], "title"], ["assign", "Journey"]])
        show("title", alice.plain("notes", [0, "title"]))
        winner = alice.values("notes", [0, "title"])[-1]
        alice.assign("notes", [0, "title"], winner)
        show("title, settled", alice.plain("notes", [0, "title"]))

        alice.assign("notes", [0, "days"], [])
        show("days, emptied", alice.plain("notes", [0, "days"]))

        wrong: List[Tuple[List[Any], Any]] = [([0, "rate"], 1.5), ([0, "days", 7], "x"), (["nobody"], 1)]
        for cursor, value in wrong:
            try:
                alice.assign("notes", cursor, value)
            except jcrdt.Refused as refused:
                show(f"refused {json.dumps(cursor)}", str(refused))
        alice.quit()


if __name__ == "__main__":
    argparse.ArgumentParser(description=__doc__).parse_args()
    main()
