"""Texts: run by the engine, and what they print, read into pages."""

from __future__ import annotations

import ctypes
from collections.abc import Iterator
from itertools import groupby

from ._library import call
from .records import Finding, Output, Page, PageCurve, Seller, Step, Verdict
from .refusal import Refusal

MAX_TEXT = 65_536

VERDICTS = "interval constraint verdict demand left"
SELLERS = "interval constraint portfolio withheld"
CURVES = "interval resource end price"
REFUSAL = "refusal line"

Row = tuple[int, ...]


def run(text: str | bytes) -> Output:
    """Runs a text: what it prints, read into pages, and its refusal. The pages before a refusal hold all the same.

    >>> output = run("month\\n025\\n")
    >>> output.printed
    b'refusal line\\n17 2\\n'
    >>> output.refusal
    Refusal(17, 'opening', 2)
    """
    text = as_bytes(text)
    printed, number, line = told(text)
    pages = tuple(_pages(printed))
    refusal = Refusal(number, _part(text, number, line, len(pages)), line, text) if number else None
    return Output(printed, pages, refusal)


def as_bytes(text: str | bytes) -> bytes:
    """The bytes of a text, which may be str (as UTF-8), bytes, bytearray or memoryview. A class made of these can't say that it has
    more bytes than it has: they are taken from the object itself."""
    if type(text) is bytes:
        return text
    if isinstance(text, str):
        return str.encode(text)
    if isinstance(text, (bytes, bytearray, memoryview)):
        return bytes(memoryview(text))
    raise TypeError(f"text: str or bytes are due, not {'None' if text is None else type(text).__name__}")


def told(text: bytes) -> tuple[bytes, int, int]:
    """What a text prints, and the number and line of its refusal, 0 and 0 where nothing is refused."""
    room = call("noskjerf_room")
    page = (ctypes.c_uint8 * room)()
    told = (ctypes.c_uint64 * 2)()
    count = call("noskjerf_told", text, len(text), page, room, told, len(told))
    if count < 0:
        raise AssertionError("the engine wants a larger page")
    return bytes(memoryview(page)[:count]), told[0], told[1]


def _part(text: bytes, number: int, line: int, pages: int) -> str:
    """The part that a refusal is of."""
    if number == 18:
        return "text"
    if number < 12 or (number == 17 and pages == 0 and not _opened(text, line)):
        return "opening"
    return f"interval {pages + 1}"


def _opened(text: bytes, line: int) -> bool:
    """Whether the opening is whole, of a text with this faulty line: the engine takes what stands before the first interval."""
    before = text.split(b"\n")[: line - 1]
    if b"constraint shadow" in before:
        before = before[: before.index(b"constraint shadow")]
    return told(b"".join(each + b"\n" for each in before))[1] == 0


def _pages(printed: bytes) -> Iterator[Page]:
    """The pages that the engine printed. The lines of a refusal come after them and aren't read: the engine tells the refusal."""
    lines = printed.decode("ascii").splitlines()
    at = 0
    while at < len(lines) and lines[at] == VERDICTS:
        verdicts, at = _table(lines, at, VERDICTS)
        sellers, at = _table(lines, at, SELLERS)
        curves, at = _table(lines, at, CURVES)
        yield _page(verdicts, sellers, curves)
    if at < len(lines) and lines[at] != REFUSAL:
        raise AssertionError(f"the engine printed {lines[at]!r} where a page or a refusal was due")


def _table(lines: list[str], at: int, names: str) -> tuple[list[Row], int]:
    """The rows of the table whose names line stands at an index, and the index after it."""
    if lines[at] != names:
        raise AssertionError(f"the engine printed {lines[at]!r} where {names!r} was due")
    end = at + 1
    while end < len(lines) and not lines[end][0].isalpha():
        end += 1
    return [tuple(map(int, line.split(" "))) for line in lines[at + 1 : end]], end


def _page(verdicts: list[Row], sellers: list[Row], curves: list[Row]) -> Page:
    return Page(
        curves[0][0],
        tuple(Verdict(c, Finding(finding), demand, left) for _, c, finding, demand, left in verdicts),
        tuple(Seller(*row[1:]) for row in sellers),
        tuple(PageCurve(r, tuple(Step(*row[2:]) for row in steps)) for r, steps in groupby(curves, lambda row: row[1])),
    )
