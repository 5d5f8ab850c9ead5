"""Work that takes several requests: a function that yields those to send at once, gets their replies, and returns what it
found. A session of either transport runs it."""

from typing import Any, Generator, List, Sequence, TypeVar

from .replies import Reply

T = TypeVar("T")
Request = Sequence[Any]
Steps = Generator[List[Request], List[Reply], T]
