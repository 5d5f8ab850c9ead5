"""Sessions for asyncio over the real program: the same values and errors as jcrdt.Session, many tasks at one session, tasks that
are cancelled, a server that is silent or ends, and a fork."""

import asyncio
import contextlib
import signal
from typing import Any, Awaitable, Callable, List, TypeVar

import pytest
from conftest import IMPATIENT, SECONDS, Server, takes_silent_ones
from test_session import BOB, VALUE, answering, forked, freeze, kinds
from test_writes import hub

import jcrdt
from jcrdt import Away, Lost, Refused, aio

Serve = Callable[..., Server]
T = TypeVar("T")


def run(test: Callable[[], Awaitable[T]]) -> T:
    async def limited() -> T:
        return await asyncio.wait_for(test(), SECONDS)

    return asyncio.run(limited())


def test_what_is_read_is_what_was_put(serve: Serve) -> None:
    server = serve("d")

    async def test() -> None:
        async with aio.connected(server.address) as session:
            assert await session.open("d") == 1
            await session.put("d", [0], VALUE)
            assert kinds(await session.plain("d", [0])) == kinds(VALUE)
            assert await session.keys("d", [0, "counter"]) == ["counter"] and await session.values("d", [0, "title"]) == ["Trip"]
            ids = await session.extend("d", [0, "new"], ["y", {"a": [{"b": 1}]}, [1]])
            assert [it[0] for it in await session.items("d", [0, "new"])] == ids
            assert await session.bind("d", "it", [0, "new"], ids[1])
            assert await session.plain("d", ["it"]) == {"a": [{"b": 1}]}
            assert await session.append("d", [0, "new"], 1) == (await session.items("d", [0, "new"]))[-1][0]
            await session.add("d", [0, "n"], 5)
            assert await session.sum("d", [0, "n"]) == 5
            await session.delete("d", [0, "n"])
            assert await session.deliver("d", BOB) == 1 and await session.deliver("d", BOB) == 0
            assert [it[1] for it in await session.conflicts("d", [0, "title"])] == ["Journey", "Trip"]
            operations = [it async for it in session.operations("d")]
            assert len(operations) == sum((await session.front("d")).values()) == await session.account("d")
            assert await session.held("d") == [] and await session.version() == 2
            chains = await session.chains("d", {}, await session.front("d"))
        # What the synchronous session reads is the same.
        with jcrdt.connected(server.address) as other:
            other.open("d")
            assert list(other.operations("d")) == operations
            assert other.chains("d", {}, other.front("d")) == chains

    run(test)


def test_errors(serve: Serve) -> None:
    server = serve("d")

    async def test() -> None:
        session = await aio.connected(server.address)
        with pytest.raises(Refused, match="not-open"):
            await session.front("d")
        await session.open("d")
        for wrong in (1.5, {"a": 2**63}):
            with pytest.raises(ValueError):
                await session.put("d", [0], wrong)
        replies = await session.ask_all([["nonsense"], ["front", "d"]])
        assert isinstance(replies[0], Refused) and replies[1] == [[]]
        server.kill()
        with pytest.raises(Lost):
            await session.front("d")
        with pytest.raises(Lost, match="can't be used any more"):
            await session.front("d")
        await session.close()
        with pytest.raises(Away):
            await aio.connected(server.address)
        with pytest.raises(ValueError):
            await aio.connected("nowhere")
        with answering(b"HTTP/1.1 400 Bad Request\r\n\r\n") as address:
            with pytest.raises(Away, match="no server of jcrdt"):
                await aio.connected(address)

    run(test)


def test_used_up_sessions_are_noticed(serve: Serve) -> None:
    server = serve("d", sessions=1)

    async def test() -> None:
        async with aio.connected(server.address):
            with pytest.raises(Away, match="no session begins within 0.5 s"):
                await aio.connected(server.address, begin=0.5)

    run(test)


def test_tasks_share_a_session(serve: Serve) -> None:
    """Each gets its own replies, with nested writes of several tasks at one list."""
    server = serve("d")

    async def test() -> None:
        async with aio.connected(server.address) as session:
            await session.open("d")
            for key in "abc":
                await session.assign("d", [0, key], key * 3)

            async def ask(key: str) -> None:
                for number in range(200):
                    assert await session.values("d", [0, key]) == [key * 3]
                    if number % 20 == 0:
                        await session.append("d", [0, "list"], {"by": key, "n": [number, {"deep": number}]})

            await asyncio.gather(*map(ask, "abc"))
            found = await session.plain("d", [0, "list"])
            assert sorted(it["by"] for it in found) == sorted("abc" * 10)
            assert all(it["n"][1] == {"deep": it["n"][0]} for it in found)
            big = "x" * 4096
            await session.assign("d", [0, "big"], big)
            assert await session.ask_all([["values", "d", [0, "big"]]] * 5000) == [[[big]]] * 5000

    run(test)


def test_a_task_that_is_cancelled(serve: Serve) -> None:
    """Its reply is no other's, and the session goes on."""
    server = serve("d")

    async def test() -> None:
        async with aio.connected(server.address) as session:
            await session.open("d")
            await session.assign("d", [0, "b"], "right")
            freeze(server)
            waiting = [asyncio.ensure_future(session.add("d", [0, "n"], number)) for number in (1, 1, 1, 10)]
            await asyncio.sleep(0)  # each has asked
            for task in (waiting[3], waiting[1]):
                task.cancel()
                with pytest.raises(asyncio.CancelledError):
                    await task
            server.process.send_signal(signal.SIGCONT)
            assert await session.values("d", [0, "b"]) == ["right"]
            assert [await waiting[0], await waiting[2]] == [[2, "srv-1"], [4, "srv-1"]]
            assert await session.sum("d", [0, "n"]) == 13

    run(test)


def test_a_server_that_is_silent(serve: Serve) -> None:
    server = serve("d")

    async def begun() -> aio.Session:
        """On a busy machine a server may be silent for so long before it is frozen."""
        while True:
            with contextlib.suppress(Away):
                return await aio.connected(server.address, seconds=0.1)

    async def test() -> None:
        async with await begun() as session:
            freeze(server)
            with pytest.raises(Lost, match="no reply for 0.1 s"):
                await session.version()

    try:
        run(test)
    finally:
        server.process.send_signal(signal.SIGCONT)


@pytest.mark.parametrize("reply, why", [
    (b'["front",[]]\n', "another request"), (b'["values",[' + b"1," * 6000 + b"1]]\n", "more than 10000 bytes"),
    (b'["values",[]]\n["values",[]]\n', "answers no request"), (b"nonsense\n", "a reply that is none"),
    (b'["changed"\n["values",[]]\n', "changed")])
def test_what_no_server_sends(reply: bytes, why: str) -> None:
    async def test() -> None:
        with answering(b'["version",2]\n', reply) as address:
            session = await aio.connected(address, limit=10_000)
            with pytest.raises(Lost, match=why):
                for _ in range(2):
                    await session.values("d", [0])
            await session.close()

    run(test)


def test_who_watches_is_told(serve: Serve) -> None:
    """At a server, and at a hub, which says it: the session is used for writes meanwhile."""
    server = serve("d")

    async def test(address: str) -> None:
        async with aio.connected(address) as session:
            await session.open("d")
            fronts: List[Any] = []
            before = (await session.front("d")).get("srv-1", 0)
            async for front in session.watch("d", 0.01):
                fronts.append(front.get("srv-1", 0))
                if len(fronts) == 4:
                    break
                await session.assign("d", [0, "k"], len(fronts))
            assert fronts == list(range(before, before + 4))
            assert [it async for it in session.watch("d", 0.01, timeout=0.05)] == [{"srv-1": before + 3}]
            assert await session.unsaved("d", [[1, "srv-1"], [99, "srv-1"]]) == [[99, "srv-1"]]
            assert repr(session) == f"<aio.Session of {address}>"

    run(lambda: test(server.address))
    with hub(server) as address:
        run(lambda: test(address))


def test_who_watches_keeps_its_session(serve: Serve, monkeypatch: pytest.MonkeyPatch) -> None:
    """However seldom it looks, where others wait at the server."""
    monkeypatch.setattr(aio, "SIGN_SECONDS", 0.2)
    server = serve("d", admission=IMPATIENT)

    async def test() -> None:
        async with aio.connected(server.address) as session:
            await session.open("d")
            watched = session.watch("d", 3600)
            await watched.__anext__()
            next_one = asyncio.ensure_future(watched.__anext__())
            silent = await aio.connected(server.address)
            await asyncio.get_running_loop().run_in_executor(None, takes_silent_ones, server.address)
            with pytest.raises(Lost):
                await silent.version()
            assert await session.front("d") == {} and not next_one.done()
            next_one.cancel()
            await silent.close()

    run(test)


def test_pushes(serve: Serve) -> None:
    server = serve("d")

    async def test(address: str) -> None:
        async with aio.connected(address) as session:
            await session.open("d")
            assert await session.next_push(0.05) is None
            await session.ask("watch", "d")
            # The hub says first where the document is.
            assert await session.next_push(SECONDS) == ["changed", "d", []]
            waiting = asyncio.ensure_future(session.next_push(SECONDS))
            await session.assign("d", [0, "k"], 1)
            assert await waiting == ["changed", "d", [["srv-1", 1]]]

    with hub(server) as address:
        run(lambda: test(address))


def test_another_process_and_another_loop(serve: Serve) -> None:
    server = serve("d")

    async def test() -> None:
        session = await aio.connected(server.address)
        await session.open("d")
        assert forked(lambda: asyncio.run(use(session))).startswith("Lost(")
        assert forked(lambda: asyncio.run(session.close())) == "None"
        with pytest.raises(RuntimeError, match="another event loop"):
            await asyncio.get_running_loop().run_in_executor(None, lambda: asyncio.run(use(session)))
        assert await session.front("d") == {}
        await session.close()

    async def use(session: aio.Session) -> object:
        return await session.front("d")

    run(test)
