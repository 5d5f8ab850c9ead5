"""Writing a file whole or not at all."""

import contextlib
import os
import sys
import tempfile
from typing import BinaryIO, Iterator


@contextlib.contextmanager
def replaced(path: str) -> Iterator[BinaryIO]:
    """A new file that takes the place of another one when all is written, and is removed if that fails. At the end it
    survives a power cut under its name. What is no file, as a pipe, is written to."""
    if path == "-":
        yield sys.stdout.buffer
        sys.stdout.buffer.flush()
        return
    path = os.path.realpath(path)
    if os.path.exists(path) and not os.path.isfile(path):
        with open(path, "wb") as other:
            yield other
        return
    descriptor, new = tempfile.mkstemp(prefix=os.path.basename(path) + ".", dir=os.path.dirname(path))
    try:
        with open(descriptor, "wb") as file:
            yield file
            file.flush()
            os.fsync(file.fileno())
        mask = os.umask(0)
        os.umask(mask)
        os.chmod(new, 0o666 & ~mask)
        os.replace(new, path)
        sync_folder(os.path.dirname(path))
    except BaseException:
        with contextlib.suppress(FileNotFoundError):
            os.remove(new)
        raise


def sync_folder(path: str) -> None:
    """Puts the names of a folder's files on disk."""
    folder = os.open(path, os.O_RDONLY | os.O_DIRECTORY)
    try:
        os.fsync(folder)
    finally:
        os.close(folder)
