"""What the tests in Python share: the program, the examples, and how a test ends."""

import difflib
import os
import subprocess
import sys
from typing import List, NoReturn

HERE = os.path.dirname(os.path.abspath(__file__))
EXAMPLES = os.path.dirname(HERE)
sys.dont_write_bytecode = True
sys.path.insert(0, os.path.join(os.path.dirname(EXAMPLES), "clients", "python"))
if len(sys.argv) != 2:
    sys.exit(f"usage: {sys.argv[0]} PROGRAM")
PROGRAM = os.path.abspath(sys.argv[1])
# The client starts this program, and so do the examples that a test starts.
os.environ.update(JCRDT=PROGRAM, PYTHONDONTWRITEBYTECODE="1")


def script(name: str, *words: str) -> List[str]:
    """The command line of an example in Python."""
    return [sys.executable, os.path.join(EXAMPLES, f"{name}.py"), *words]


def printed(command: List[str], text: str = "") -> str:
    """What a command prints, its errors too, and then its status where that isn't 0."""
    run = subprocess.run(command, input=text.encode(), stdout=subprocess.PIPE, stderr=subprocess.STDOUT, timeout=600)
    return run.stdout.decode() + (f"status {run.returncode}\n" if run.returncode else "")


def skip(why: str) -> NoReturn:
    print(why)
    sys.exit(77)


def require(what: str, holds: object, told: str = "") -> None:
    if not holds:
        sys.exit(f"not so: {what}\n{told}")


def compare(name: str, text: str) -> None:
    """The text is that of NAME.expected, or the test has failed."""
    path = os.path.join(HERE, f"{name}.expected")
    with open(path, encoding="utf-8") as file:
        expected = file.read()
    if expected != text:
        sys.exit("".join(difflib.unified_diff(expected.splitlines(True), text.splitlines(True), "expected", "printed", n=1)))
