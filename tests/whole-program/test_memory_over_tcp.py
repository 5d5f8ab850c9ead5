"""The session over two documents by `serve`, with each allocation refused in turn, and at random; four sessions at once, at random.
Needs cc and a libc by GNU."""

import contextlib
from concurrent.futures import ThreadPoolExecutor
from functools import partial
from typing import List, Sequence

from sessions import Settings, count_of, explain, no_more_than_refused, refusals, session
from support import NO_MEMORY, Differs, Reply, Server
from tried import NOTE, SECONDS, Case, Cases, Counts, Tried, Words, compact, new_file, replies_of, talk, totals_of


def serve_refused(tried: Tried, words: Words, lines: Sequence[bytes], settings: Settings, counts: Counts) -> None:
    """One run of a server with these refusals: its session may end without a reply."""
    status, out, rest = tried.serve(words, b"".join(line + b"\n" for line in lines), tried.environment("refuse-allocations", settings))
    if status not in (0, 1):
        raise Differs(f"status {status}")
    replies = replies_of(out)
    if replies:
        dropped = explain(tried, words, lines, replies)
        no_more_than_refused(settings, replies.count(NO_MEMORY), dropped)
        counts["lines refused as out of memory"] += replies.count(NO_MEMORY)
        counts["operations dropped as out of memory"] += dropped
    else:
        counts["sessions without a reply"] += 1
    totals = totals_of(words, lines, replies)
    if not are_totals(replies_of(rest), totals, status):
        raise Differs(f"status {status}, totals {replies_of(rest)}, due {totals}")
    counts["status 1"] += status


def are_totals(told: List[Reply], totals: List[Reply], status: int) -> bool:
    """Whether the totals are the due ones. With status 1 the copying may have ended early, and the writing of the totals too."""
    if status == 0:
        return told == totals
    return all(it[:4] == due[:4] and it[4] <= due[4] for it, due in zip(told, totals)) and len(told) <= len(totals)


def crowd_refused(tried: Tried, settings: Settings, counts: Counts) -> None:
    """Four sessions at once with these refusals: each line has its reply or is refused as out of memory, and the totals are what
    the replies told. A session may end without a reply, and one that could not open the document is told so."""
    lines = compact([["open", "d"], *([["insert", "d", [0, "list", 0], it], ["add", "d", [0, "sum"], it]][it % 2] for it in range(30)), ["quit"]])
    with contextlib.ExitStack() as stack:
        environment = tried.environment("refuse-allocations", settings)
        server = stack.enter_context(Server(tried.program, new_file(stack, tried.room), "d", sessions=4, environment=environment))
        pool = stack.enter_context(ThreadPoolExecutor(4))
        talks = [pool.submit(talk, *server.address, b"\n".join(lines) + b"\n") for _ in range(4) if server.first]
        told = []
        for it in talks:
            # Out of memory, it may end before a session begins.
            with contextlib.suppress(ConnectionRefusedError, ConnectionResetError):
                told.append(replies_of(it.result()))
        rest, _ = server.process.communicate(timeout=SECONDS)
        status = server.process.returncode
    usual, refused = ("opened", "applied", "bye"), (["no", 5, "not-open"], NO_MEMORY)
    strange = [it for replies in told for it in replies if it[0] not in usual and it not in refused]
    logged = sum(it[1] for replies in told for it in replies if it[0] == "applied")
    totals = replies_of(rest)
    if status not in (0, 1) or strange or not are_totals(totals, [["total", "d", logged, logged, logged]], status):
        raise Differs(f"status {status}, totals {totals}, logged {logged}, replies {strange[:3]}")
    if any(len(it) not in (0, len(lines)) for it in told):
        raise Differs(f"{[len(it) for it in told]} replies to {len(lines)} lines")
    counts["lines refused as out of memory"] += sum(replies.count(NO_MEMORY) for replies in told)
    counts["status 1"] += status


# What `serve` may tell where an allocation is refused.
OUT_OF_MEMORY = [f"out of memory {it}" for it in (
    "while the command line was read", "while the address was written", "while the sessions were prepared", "while a new epoch was started",
    "while the documents were restored", "before the first session", "while the totals were added up", "while the totals were written")] + [
    "cannot open F: out of memory", "copying stopped while sessions ran: out of memory"] + [f"the file failed {it}: out of memory" for it in (
        "while a new epoch was started", "while its log was folded in", "while it was closed")]


# What it notes where copying lacks memory, and where it goes on.
PAUSES = ["copying pauses: out of memory; it is tried again", "copying goes on"]


def told_refused(tried: Tried, number: int) -> List[str]:
    """What a server of one session tells where this allocation is refused: its causes, which are none where the status is 0, and
    that copying paused. It then went on."""
    with contextlib.ExitStack() as stack:
        path = new_file(stack, tried.room)
        environment = tried.environment("refuse-allocations", {"REFUSE_FROM": number, "REFUSE_TO": number})
        server = stack.enter_context(Server(tried.program, path, "d", sessions=1, environment=environment))
        if server.address[1]:
            with contextlib.suppress(ConnectionError):
                talk(*server.address, b'["open","d"]\n["assign","d",[0,"k"],1]\n')
        server.process.communicate(timeout=SECONDS)
        status, told = server.process.returncode, server.said()
    causes = [it.removeprefix("jcrdt: ").replace(path, "F") for it in NOTE.sub("", told).splitlines()]
    pauses = [it for _, it in NOTE.findall(told) if it in PAUSES]
    if (status == 0) != (not causes) or any(it not in OUT_OF_MEMORY for it in causes) or pauses not in ([], PAUSES):
        raise Differs(f"allocation {number} refused: status {status}, told {causes}, {pauses}")
    return causes + pauses


def each_allocation_told(tried: Tried) -> None:
    """Each allocation of a short run of a server refused in turn: a status of 1 has its cause, and nothing else is told."""
    count = count_of(tried, tried.serve, ["run", "d"], [b'["open","d"]', b'["assign","d",[0,"k"],1]'])
    seen = {cause for number in range(1, count + 1) for cause in told_refused(tried, number)}
    missing = {OUT_OF_MEMORY[0], OUT_OF_MEMORY[2], OUT_OF_MEMORY[4], OUT_OF_MEMORY[6], OUT_OF_MEMORY[7], *PAUSES} - seen
    if missing:
        raise Differs(f"never told: {sorted(missing)}")


def cases(tried: Tried, counts: Counts) -> Cases:
    tried.needs_cc()
    yield "what is told where an allocation is refused", partial(each_allocation_told, tried)
    lines, words = session(), ["run", "a", "b"]
    count = count_of(tried, tried.serve, words, lines)
    counts["allocations of the server"] = count
    for name, settings in refusals(count, False):
        yield f"{name}", partial(serve_refused, tried, words, lines, settings, counts)
    for one_in in (40, 150, 500):
        for seed in range(100):
            yield f"four sessions: refused 1 in {one_in} by {seed}", partial(
                crowd_refused, tried, {"REFUSE_SEED": seed, "REFUSE_ONE_IN": one_in}, counts)


def test_memory_over_tcp(case: Case) -> None:
    case()
