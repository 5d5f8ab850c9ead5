"""Each worked row of rows/ over `run` and over `serve`, its input in pieces of 1, 7 and 4,096 bytes too: without cc in none."""

from functools import partial

from tried import Case, Cases, Counts, Tried, ran, rows, served


def cases(tried: Tried, _counts: Counts) -> Cases:
    for row in rows():
        due = row.status, row.output
        yield f"{row.name}: run", partial(ran, tried, row.words, row.input, due)
        yield f"{row.name}: serve", partial(served, tried, row, row.input, row.output)
        for most in (1, 7, 4_096) if tried.can_fail else ():
            pieces = tried.environment("fail-devices", {"MOST_AT_ONCE": most})
            yield f"{row.name}: run, {most} bytes at once", partial(ran, tried, row.words, row.input, due, pieces)
            yield f"{row.name}: serve, {most} bytes at once", partial(served, tried, row, row.input, row.output, None, pieces)


def test_row(case: Case) -> None:
    case()
