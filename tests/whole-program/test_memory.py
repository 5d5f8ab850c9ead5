"""A session over two documents, a long one, and each row with readings of all behind it, with each allocation refused in turn, and at
random; the sessions also with several refused, and with all from one on. What a run accepted is delivered to a run of another name,
which must read the same. Needs cc and a libc by GNU."""

from functools import partial

from sessions import count_of, long_session, readings, refusals, run_refused, session
from tried import Case, Cases, Counts, Tried, rows


def cases(tried: Tried, counts: Counts) -> Cases:
    tried.needs_cc()
    for title, lines, words in (("session", session(), ["run", "a", "b"]), ("long session", long_session(), ["run", "d"])):
        count = count_of(tried, tried.run, words, lines)
        counts[f"allocations of the {title}"] = count
        for name, settings in refusals(count, True):
            yield f"{title}: {name}", partial(run_refused, tried, words, lines, settings, counts)
    for row in rows():
        answered = row.input.split(b"\n")[: row.output.count(b"\n")]
        if not row.output.endswith((b'["bye"]\n', b'"line-too-long"]\n')):
            answered += readings(row.words)
        for name, settings in refusals(count_of(tried, tried.run, row.words, answered), False):
            yield f"{row.name}: {name}", partial(run_refused, tried, row.words, answered, settings, counts)


def test_memory(case: Case) -> None:
    case()
