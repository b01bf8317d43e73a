"""Uses of the module sgflines, for type checkers (tests/types.sh). Each row with `type: ignore` has a fault that a checker must find."""
from __future__ import annotations

import array
import mmap
import sys
from typing import Iterator, List, NoReturn, Optional

import sgflines
from sgflines import BadSize, Counts, Form, Illegal, NotGo, Reason, Row, Score, Verdict

TEXT = b"(;SZ[3](;B[aa])(;B[bb];W[aa]))"


def never(verdict: NoReturn) -> NoReturn:
    raise AssertionError(verdict)


def told(row: Row) -> str:
    """Every kind of verdict, matched by its class. A checker knows that no other is left."""
    match row.verdict:
        case Score(black, white, over):
            return f"{black} to {white}{', over' if over else ''}"
        case Illegal(turn=turn, place=place, reason=reason):
            return f"turn {turn} at {place}: {reason}"
        case NotGo():
            return "not Go"
        case BadSize():
            return "no size"
        case other:
            never(other)


def lead(verdict: Verdict) -> Optional[int]:
    """The same by isinstance."""
    if isinstance(verdict, Score):
        return verdict.black - verdict.white
    if isinstance(verdict, Illegal):
        reason: Reason = verdict.reason
        return 0 if reason == "repeat" else verdict.turn
    unjudged: NotGo | BadSize = verdict
    return int(not unjudged) or None


def without_size(verdict: Verdict) -> int:
    match verdict:
        case Score() | Illegal() | NotGo():
            return 1
        case other:
            never(other)  # type: ignore[arg-type]


def texts() -> List[Counts]:
    """Whatever lends its bytes is a text."""
    with mmap.mmap(-1, len(TEXT)) as mapped:
        mapped[:] = TEXT
        lent = [sgflines.count(mapped), sgflines.count(bytearray(TEXT)), sgflines.count(memoryview(TEXT)), sgflines.count(array.array("B", TEXT))]
    games, nodes, lines = sgflines.count(TEXT)
    return [Counts(games, nodes, lines), *lent]


def words(form: Form) -> bytes:
    joined: bytes = b"".join(sgflines.records(TEXT, form, after=8, limit=1))
    return joined + sgflines.output(TEXT, form, limit=1)


def places() -> Iterator[int]:
    listed: List[Row] = sgflines.rows(TEXT, after=8)
    yield from (row.place for row in sgflines.iter_rows(TEXT, limit=1))
    yield from (place for place, game, nodes, verdict in listed)


def fault_place(text: bytes) -> int:
    try:
        return sgflines.count(text).lines
    except sgflines.EndsEarly as early:
        return -early.at
    except sgflines.NotSgf as fault:
        return fault.at
    except (sgflines.TooLong, sgflines.NoSuchLine) as refused:
        raise refused from None


def wrong() -> None:
    """Never called."""
    sgflines.rows("(;)")  # type: ignore[arg-type]
    sgflines.output(TEXT, "rows")  # type: ignore[arg-type]
    sgflines.judge(TEXT)  # type: ignore[call-arg]
    sgflines.judge(TEXT, 8).black  # type: ignore[union-attr]
    sgflines.iter_rows(TEXT)[0]  # type: ignore[index]
    sgflines.count(TEXT).leaves  # type: ignore[attr-defined]
    for row in sgflines.rows(TEXT):
        if isinstance(row.verdict, Illegal):
            row.verdict.reason == "ko"  # type: ignore[comparison-overlap]


def main() -> None:
    assert [told(row) for row in sgflines.rows(TEXT)] == ["9 to 0", "1 to 1"], sgflines.rows(TEXT)
    wanted: List[tuple[bytes, str, Optional[int]]] = [(b"(;SZ[3];B[aa];W[aa])", "turn 2 at 13: occupied", 2), (b"(;GM[2])", "not Go", None),
                                                      (b"(;SZ[53])", "no size", None), (TEXT, "9 to 0", 9),
                                                      (b"(;SZ[3];B[];W[])", "0 to 0, over", 0)]
    for text, said, led in wanted:
        row = next(sgflines.iter_rows(text))
        assert (told(row), lead(row.verdict)) == (said, led), row
    assert texts() == 5 * [sgflines.Counts(1, 4, 2)]
    assert words("sgf") == b"(;SZ[3];B[bb];W[aa])\n(;SZ[3];B[aa])\n"
    assert list(places()) == [8, 22]
    assert [fault_place(text) for text in (TEXT, TEXT[:7], TEXT + b"x")] == [2, -7, len(TEXT)]


if __name__ == "__main__":
    main()
    sys.exit(0)
