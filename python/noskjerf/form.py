"""Why a line isn't of the form (refusal 17). The engine says which line it is. What is said of it is a reading of the text in Python, and
only what the engine bears out: with what was due in the line's place, or with the slip mended, it reads on."""

from __future__ import annotations

import re
from collections.abc import Iterator
from dataclasses import dataclass

from .due import Due, due_after
from .slips import Guess, Note, departs, guesses, is_due
from .text import MAX_TEXT, told

# how many characters of a line are shown, around the column
WIDTH = 64
# farther than any line
WHOLE = 1 << 30


@dataclass(frozen=True)
class Slip:
    """What is wrong with a line that isn't of the form: the line, from 1 on, and its bytes; the column of the first byte at fault, from 1
    on, and one past the last byte where the line ends too early; what was due, in words; the kind of slip, its likely cause and what to do
    about it. What isn't known is None or empty."""

    line: int
    stands: bytes
    column: int | None
    due: tuple[str, ...]
    kind: str | None
    cause: str | None
    mend: str
    # what the engine takes in place of the line; None where nothing was tried, or nothing taken
    taken: tuple[bytes, ...] | None

    def picture(self) -> tuple[str, ...]:
        """The line and a caret below its column, narrow enough for a terminal; bytes that can't be seen are escaped."""
        if self.column is None:
            return (shortened(self.stands, 1)[0],)
        if not self.stands:
            return ("(an empty line)" if self.kind == "empty line" else "(the end of the text)", "^")
        shown, at = shortened(self.stands, self.column)
        return shown, " " * at + "^"

    def details(self) -> tuple[str, ...]:
        """Lines for a person, below the one that names line, column and cause."""
        dues = [f"{'due' if i == 0 else ' or'}: {each}" for i, each in enumerate(self.due)]
        mends = [f"mend: {self.mend}"] if self.mend else []
        return (*self.picture(), *dues, *mends)


def shortened(line: bytes, column: int) -> tuple[str, int]:
    """A line as it is shown, and how many characters stand before a column of it.

    >>> shortened(b"0\\t1\\r", 4)
    ('0\\\\t1\\\\r', 4)
    """
    shown = [_seen(byte) for byte in line]
    low = high = min(column - 1, len(line))
    while (low > 0 or high < len(line)) and sum(map(len, shown[low:high])) < WIDTH:
        low, high = max(0, low - 2), min(len(line), high + 1)
    head, tail = ".. " if low else "", " .." if high < len(line) else ""
    return head + "".join(shown[low:high]) + tail, len(head) + sum(map(len, shown[low : column - 1]))


def _seen(byte: int) -> str:
    """A byte as it is shown."""
    return chr(byte) if 32 <= byte < 127 else {9: "\\t", 13: "\\r"}.get(byte, f"\\x{byte:02x}")


@dataclass(frozen=True)
class _Place:
    """A line of a text, with the bytes before and after it. The last line of a text may not be closed."""

    number: int
    before: bytes
    line: bytes
    after: bytes
    there: bool
    closed: bool

    def with_lines(self, lines: tuple[bytes, ...]) -> bytes:
        """The text with others in its place."""
        return self.before + b"".join(line + b"\n" for line in lines) + self.after


def _place(text: bytes, number: int) -> _Place:
    lines = text.split(b"\n")
    before = b"".join(line + b"\n" for line in lines[: number - 1])
    line = lines[number - 1] if number <= len(lines) else b""
    closed = number < len(lines)
    return _Place(number, before, line, text[len(before) + len(line) + 1 :], closed or bool(line), closed)


def slip(text: bytes, number: int) -> Slip:
    """What is wrong with the line that the engine refuses by 17. Where the reading here is another than the engine's, nothing is said but
    what stands there."""
    place = _place(text, number)
    due = due_after(place.before.split(b"\n")[:-1])
    if due is None or (place.closed and is_due(place.line, due)):
        return Slip(number, place.line, None, (), None, None, "", None)
    dues = tuple(words for words, line in due.choices() if _bears_out(place, line))
    if not dues:
        return Slip(number, place.line, None, (), None, None, "", None)
    best = _best(place, due)
    if best is None:
        return Slip(number, place.line, _departure(place.line, due), dues, None, None, "", None)
    note = best.notes[0]
    taken = best.lines if _reach(place, best) > 0 else None
    return Slip(number, place.line, note.column, dues, note.kind, _cause(best.notes), _mend(text, note), taken)


def _bears_out(place: _Place, line: bytes | None) -> bool:
    """Whether the engine takes a line, or the text's end, in this place. A text that would be too long can't be asked about."""
    text = place.before + (b"" if line is None else line + b"\n")
    number, at = told(text)[1:]
    return len(text) > MAX_TEXT or number != 17 or (line is not None and at > place.number)


def _best(place: _Place, due: Due) -> Guess | None:
    """That the text ends too early, where the engine bears it out; else a guess about the line. Where there is no line, it is no guess."""
    if not place.there:
        kind, cause = ("empty text", "the text is empty") if place.number == 1 else ("text ends early", "the text ends here")
        return Guess((Note(1, kind, cause),), (due.sample(),))
    cut = None if place.closed else _farthest(place, _unclosed(place.line, due))
    return cut or _farthest(place, guesses(place.line, due))


def _farthest(place: _Place, some: Iterator[Guess]) -> Guess | None:
    """The guess with which the engine reads farthest; the plainest of them."""
    far = [(_reach(place, guess), guess) for guess in some if guess.notes]
    reach, best = max(far, key=lambda each: each[0], default=(0, None))
    return best if reach > 0 else None


def _unclosed(line: bytes, due: Due) -> Iterator[Guess]:
    """The last line of a text without its newline: whole, or cut off."""
    column = len(line) + 1
    yield Guess((Note(column, "not closed", "the last line is not closed by a newline"),), (line,))
    cut = (Note(column, "text ends early", "the text ends within this line"),)
    for _, sample in due.choices():
        if sample is not None and sample.startswith(line):
            yield Guess(cut, (sample,))
    if due.row is not None:
        more = len(due.row.names) - len(line.rstrip(b" ").split(b" "))
        head = line if line.endswith((b" ", b"-")) else line + b" "
        head = head + b"1 " if line.endswith(b"-") else head
        yield Guess(cut, ((head + b"0 " * more).rstrip(b" "),))


def _reach(place: _Place, guess: Guess) -> int:
    """How many lines the engine reads past those that stand in the line's place; 0 where it doesn't take them, or nothing is won."""
    text = place.with_lines(guess.lines)
    if len(text) > MAX_TEXT:
        text = place.before + b"".join(line + b"\n" for line in guess.lines)
    number, at = told(text)[1:]
    if number == 0:
        return WHOLE
    read = at - place.number - len(guess.lines) + (number != 17)
    return max(0, read + (1 if guess.lines else 0))


def _departure(line: bytes, due: Due) -> int:
    """The column of the first byte with which a line can't be any that is due."""
    shared = [departs(line, sample) for _, sample in due.choices() if sample is not None]
    if due.row is not None:
        whole = re.match(rb"(?:-?(?:0|[1-9]\d{0,11}) ?)*", line)
        shared.append(0 if whole is None or due.row.ids else whole.end())
    return max(shared) + 1


def _cause(notes: tuple[Note, ...]) -> str:
    """What is amiss, at most two things."""
    return "; ".join(note.cause for note in notes[:2])


def _mend(text: bytes, note: Note) -> str:
    """What to do; of carriage returns, how many lines have one."""
    if note.kind != "carriage return":
        return note.mend
    lines, returns = text.count(b"\n"), text.count(b"\r\n")
    return f"{returns:,} of {lines:,} lines have one, {note.mend}" if returns > 1 else note.mend
