"""Pages for monitors over HTTP, beside what a program does in one event loop."""

import asyncio
import contextlib
import json
from typing import Any, Awaitable, Callable, Dict, List, NamedTuple, Sequence, Tuple

# How long a request may take, in seconds, and how many bytes it may have.
MOST_SECONDS, MOST_BYTES = 2.0, 4096

# A figure: its name, whether it is a gauge or a counter, what it is, and its values by their labels.
Figure = Tuple[str, str, str, Sequence[Tuple[str, float]]]


class Page(NamedTuple):
    """What is answered: a status with its words, the type of the text, and the text."""

    status: str
    content_type: str
    text: str


def health_page(state: Dict[str, Any]) -> Page:
    """The page of `/health`: status 200 where `state["well"]` holds, else 503."""
    return Page("200 OK" if state["well"] else "503 Service Unavailable", "application/json", json.dumps(state) + "\n")


def metrics_page(prefix: str, figures: Sequence[Figure]) -> Page:
    """The page of `/metrics`, in the text format of Prometheus."""
    lines: List[str] = []
    for name, kind, what, values in figures:
        lines += [f"# HELP {prefix}_{name} {what}", f"# TYPE {prefix}_{name} {kind}"]
        lines += [f"{prefix}_{name}{labels} {value:g}" for labels, value in values]
    return Page("200 OK", "text/plain; version=0.0.4; charset=utf-8", "\n".join(lines) + "\n")


def _answer(head: bytes, pages: Dict[str, Callable[[], Page]]) -> Tuple[Page, bool]:
    """The page of a request, and whether its text is wanted."""
    words = head.split(b"\r\n", 1)[0].split(b" ")
    if len(words) != 3 or not words[2].startswith(b"HTTP/"):
        return Page("400 Bad Request", "text/plain", "no request of HTTP\n"), True
    if words[0] not in (b"GET", b"HEAD"):
        return Page("405 Method Not Allowed", "text/plain", "GET alone is answered\n"), True
    make = pages.get(words[1].split(b"?")[0].decode("latin-1"))
    page = make() if make else Page("404 Not Found", "text/plain", f"there is {' and '.join(pages)}\n")
    return page, words[0] == b"GET"


async def _serve_one(reader: asyncio.StreamReader, writer: asyncio.StreamWriter, pages: Dict[str, Callable[[], Page]]) -> None:
    head = await reader.readuntil(b"\r\n\r\n")
    page, is_whole = _answer(head, pages)
    text = page.text.encode()
    writer.write(f"HTTP/1.1 {page.status}\r\nContent-Type: {page.content_type}\r\nContent-Length: {len(text)}\r\n"
                 "Cache-Control: no-store\r\nConnection: close\r\n\r\n".encode() + (text if is_whole else b""))
    await writer.drain()


async def serve_pages(host: str, port: int, pages: Dict[str, Callable[[], Page]]) -> asyncio.AbstractServer:
    """Answers requests for these pages, by their paths, until it is closed. A request that isn't whole within two seconds, or is longer
    than 4,096 bytes, has no answer. Raises OSError where it can't listen there."""
    async def met(reader: asyncio.StreamReader, writer: asyncio.StreamWriter) -> None:
        with contextlib.suppress(OSError, asyncio.TimeoutError, asyncio.IncompleteReadError, asyncio.LimitOverrunError):
            task: Awaitable[None] = _serve_one(reader, writer, pages)
            await asyncio.wait_for(task, MOST_SECONDS)
        writer.close()

    return await asyncio.start_server(met, host, port, limit=MOST_BYTES)
