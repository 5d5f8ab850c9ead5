"""Each row with its input cut after every byte, over `run` and `serve` (long rows: cut at some 500 places)."""

from functools import partial

from tried import Case, Cases, Counts, Tried, places, ran, rows, served


def cases(tried: Tried, _counts: Counts) -> Cases:
    for row in rows():
        for length in places(row.input):
            data = row.input[:length]
            due = row.cut(length)
            yield f"{row.name}: run, after {length}", partial(ran, tried, row.words, data, (0, due))
            yield f"{row.name}: serve, after {length}", partial(served, tried, row, data, due)


def test_cut(case: Case) -> None:
    case()
