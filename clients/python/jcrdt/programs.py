"""Starts the program: `run` at a pipe, or `serve` for tests and examples."""

import contextlib
import json
import os
import shutil
import subprocess
import tempfile
from pathlib import Path
from typing import Iterator, Optional, Sequence

from .limits import USUAL
from .session import Session
from .stream import Stream
from .wire import Away

# How long a server that was started for a test may take to end, in seconds.
END_SECONDS = 60


def program() -> str:
    """The path of the program: the variable JCRDT, else `jcrdt` in PATH, else that of the clone that this package
    is in. Raises FileNotFoundError if there is none."""
    named = os.environ.get("JCRDT")
    if named:
        return named
    clone = Path(__file__).resolve().parents[3] / "jcrdt"
    found = shutil.which("jcrdt") or (str(clone) if clone.is_file() and os.access(clone, os.X_OK) else None)
    if found is None:
        raise FileNotFoundError("the program jcrdt is neither in PATH nor named by the variable JCRDT")
    return found


@contextlib.contextmanager
def started(documents: Sequence[str], name: str = "srv", seconds: float = USUAL.silence) -> Iterator[Session]:
    """Starts `jcrdt run` and yields a session of it. The documents end with it."""
    words = [program(), "run", "--name", name, *documents]
    with subprocess.Popen(words, bufsize=0, stdin=subprocess.PIPE, stdout=subprocess.PIPE) as running:
        assert running.stdin is not None and running.stdout is not None
        # The end of its input ends the program.
        stream = Stream(running.stdout.fileno(), running.stdin.fileno(), running.stdin.close, USUAL._replace(silence=seconds))
        with Session(stream) as session:
            yield session


@contextlib.contextmanager
def serving(documents: Sequence[str], sessions: int, name: str = "srv", file: Optional[str] = None) -> Iterator[str]:
    """Starts `jcrdt serve` at a free port of this machine and yields its address. It starts from the file and
    copies to it, or to a new one that is gone afterwards. It ends after so many sessions; what is still to be used
    up at the end of the block is ended with it."""
    with contextlib.ExitStack() as stack:
        path = file or os.path.join(stack.enter_context(tempfile.TemporaryDirectory()), "copy.db")
        words = [program(), "serve", "--addr", "127.0.0.1:0", "--sessions", str(sessions), "--file", path, "--name", name,
                 *documents]
        running = stack.enter_context(subprocess.Popen(words, bufsize=0, stdout=subprocess.PIPE))
        assert running.stdout is not None
        try:
            line = running.stdout.readline()
            if not line:
                raise Away("the server doesn't listen")
            yield str(json.loads(line)[1])
            running.communicate(timeout=END_SECONDS)
        finally:
            # A server that still waits for sessions is of no use any more.
            running.terminate()
