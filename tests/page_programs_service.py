"""A service as the page of the Python package shows it: `booked` of its block, by asyncio, in workers behind a fork.

usage: python3 tests/page_programs_service.py CLONE ADDRESS..     (of a server, of a hub's lines)

The parent has a session, and forks WORKERS. One that ends is forked again, as gunicorn does. A worker uses the parent's session, which
must fail with Lost, and then books towns of names that are used once, at the addresses in turn. Each line that it prints is JSON:
["worker",PID], ["tried",TOWN], ["confirmed",TOWN], ["parent",NUMBER] and ["wrong",WHAT]. It ends with its standard input."""

import asyncio
import json
import os
import re
import select
import sys
import time
from typing import Any, Dict, List, NoReturn, Set

clone, *addresses = sys.argv[1:]
sys.path.insert(0, f"{clone}/clients/python")

import jcrdt  # noqa: E402
from jcrdt.wire import Lost, Refused  # noqa: E402

WORKERS, DOCUMENT, PAUSE = 3, "trip", 0.05


def page_program() -> Dict[str, Any]:
    """What the page's block defines."""
    with open(f"{clone}/clients/python/README.md", encoding="utf-8") as page:
        blocks = re.findall(r"(?s)```python\n(.*?)```", page.read())
    names: Dict[str, Any] = {}
    exec(next(it for it in blocks if "async def booked" in it), names)
    return names


def say(*words: object) -> None:
    os.write(1, json.dumps(words).encode() + b"\n")


def opened() -> jcrdt.Session:
    """A session, as soon as there is one."""
    while True:
        try:
            session = jcrdt.connected(addresses[0])
            session.open(DOCUMENT)
            return session
        except ConnectionError:
            time.sleep(PAUSE)


def work(life: int, parents: jcrdt.Session) -> NoReturn:
    """Books until the parent has ended."""
    say("worker", os.getpid())
    try:
        parents.front(DOCUMENT)
        say("wrong", "the parent's session was used behind a fork")
    except Lost:
        pass
    booked, number = page_program()["booked"], 0
    while not select.select([life], [], [], 0)[0]:
        number += 1
        town = f"{os.getpid()}-{number}"
        say("tried", town)
        try:
            days = asyncio.run(booked(addresses[number % len(addresses)], town))
            say("confirmed", town)
            if {"town": town} not in days:
                say("wrong", f"{town} was booked, and isn't in the reply")
        except (ConnectionError, Refused):
            time.sleep(PAUSE)
    os._exit(0)


def main() -> None:
    session, asked, is_over = opened(), 0, False
    workers: Set[int] = set()
    life, write_end = os.pipe()
    while workers or not is_over:
        if not is_over and len(workers) < WORKERS:
            child = os.fork()
            if child == 0:
                os.close(write_end)
                work(life, session)
            workers.add(child)
        try:
            fronts: List[Any] = [session.front(DOCUMENT), session.ask("keys", DOCUMENT, [0])]
            asked += 1
            if not isinstance(fronts[0], dict):
                say("wrong", f"the parent has the reply of another: {fronts}")
        except ConnectionError:
            session = opened()
        if not is_over and select.select([sys.stdin], [], [], PAUSE)[0]:
            is_over = True
            os.close(write_end)
        workers -= {it for it in workers if os.waitpid(it, os.WNOHANG)[0]}
    say("parent", asked)


main()
