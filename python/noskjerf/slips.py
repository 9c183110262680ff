"""What may be wrong with a line that isn't what is due: guesses, each with the lines that would stand in its place. Whether a guess is
right isn't known here: form.py asks the engine."""

from __future__ import annotations

import difflib
import re
from collections.abc import Iterator, Sequence
from dataclasses import dataclass

from .amounts import UNIT_OF, as_whole
from .due import TABLES, Due, Row, names_line
from .parts import CHARGES, FACTORS, MONTH, PARAMETER, POINTS, STEPS, Names

KNOWN = {names_line(names): names for names in TABLES}
GOOD = re.compile(rb"0|-?[1-9]\d{0,11}")
BOM = b"\xef\xbb\xbf"
GAP = re.compile(rb"(?:[ \t\x0b\x0c]|\xc2\xa0|\xe2\x80[\x80-\x8b\xaf]|\xe3\x80\x80)+")
COMMAS = re.compile(rb"[ \t]*[,;][ \t]*|[ \t]+")
MINUS = re.compile(rb"\xe2\x88\x92|\xe2\x80[\x90-\x95]")
ONE_SPACE = "one space parts two values"
WINDOWS = "as in a file from Windows: write newlines alone"

# values that are almost numbers; the caret goes to the group
FORMS = (
    ("plus sign", "a plus sign", re.compile(rb"()\+\d+")),
    ("leading zero", "a leading zero", re.compile(rb"-?()0\d+")),
    ("minus zero", "a minus before zero", re.compile(rb"()-0")),
    ("digits", "more than 12 digits", re.compile(rb"-?\d{12}()\d+")),
    ("decimal point", "a decimal point", re.compile(rb"[-+]?(?=\.?\d)\d*()\.\d*")),
    ("comma", "a comma", re.compile(rb"[-+]?\d+()(?:,\d+)+")),
    ("exponent", "an exponent", re.compile(rb"[-+]?\d+(?:\.\d*)?()[eE][-+]?\d+")),
)


@dataclass(frozen=True)
class Note:
    """Something amiss on a line: the column, the kind, what it is, and what to do about it."""

    column: int
    kind: str
    cause: str
    mend: str = ""


@dataclass(frozen=True)
class Guess:
    """What is amiss on a line, the first of it first, and the lines that would stand in its place."""

    notes: tuple[Note, ...]
    lines: tuple[bytes, ...]


@dataclass(frozen=True)
class Piece:
    """A piece of a line between two gaps, and its column."""

    column: int
    word: bytes


def is_due(line: bytes, due: Due) -> bool:
    """Whether a line is what is due, as it is read here."""
    if due.names is not None and line == names_line(due.names):
        return True
    words, row = line.split(b" "), due.row
    if row is None or len(words) != len(row.names):
        return False
    return line == b"-" and row.names == PARAMETER or all(map(GOOD.fullmatch, words)) and row.suits([int(word) for word in words[: len(row.ids)]])


def guesses(line: bytes, due: Due) -> Iterator[Guess]:
    """All guesses, the plainest first."""
    if not line.strip(b" \t\r\x0b\x0c"):
        cause = "a line without values" if line else "an empty line"
        note = Note(1, "empty line", cause, "a text has no empty lines, not even at its end")
        yield from (Guess((note,), lines) for lines in ((), (due.sample(),)))
        return
    if due.names is not None:
        yield from _as_names(line, due.names)
    if due.row is not None and _has_values(line, due.row):
        yield from _as_row(line, due.row)
    yield from _misplaced(line, due)


def _has_values(line: bytes, row: Row) -> bool:
    """Whether a line is meant to be one of values: no names line has a digit."""
    return re.search(rb"\d", line) is not None or (len(row.names) == 1 and _bare(line) not in KNOWN)


def _bare(line: bytes) -> bytes:
    """A line's words in small letters with a space between."""
    return b" ".join(GAP.sub(b" ", line.replace(BOM, b"").rstrip(b"\r")).split()).lower()


# ---- pieces and the gaps between them
def pieces(line: bytes, count: int) -> tuple[list[Piece], list[Note]]:
    """The words of a line in which so many are due, and what is amiss around and between them."""
    first = len(BOM) if line.startswith(BOM) else 0
    body = line[first:].rstrip(b"\r")
    gap = COMMAS if re.search(rb"[,;]", body) and len(GAP.split(body.strip())) != count else GAP
    spans = [match.span() for match in gap.finditer(body)]
    edges = [0, *(edge for span in spans for edge in span), len(body)]
    found = [Piece(first + 1 + low, body[low:high]) for low, high in zip(edges[::2], edges[1::2]) if low < high]
    return found, [*_around(line), *(note for low, high in spans for note in _gap(body, low, high, first + 1))]


def _around(line: bytes) -> Iterator[Note]:
    """A byte order mark before a line, and a carriage return after it."""
    if line.startswith(BOM):
        yield Note(1, "byte order mark", "a byte order mark before the text", "save the file as plain ASCII, or as UTF-8 without a mark")
    if line.endswith(b"\r"):
        yield Note(len(line.rstrip(b"\r")) + 1, "carriage return", "a carriage return at the end of the line", WINDOWS)


def _gap(body: bytes, low: int, high: int, first: int) -> Iterator[Note]:
    """What is amiss with a gap of a line; the line's first byte has the column `first`."""
    gap = body[low:high]
    tab, comma, other = (re.search(mark, gap) for mark in (rb"\t", rb"[,;]", rb"[^ ]"))
    if tab is not None:
        yield Note(first + low + tab.start(), "tab", "a tab", ONE_SPACE)
    elif comma is not None:
        yield Note(first + low + comma.start(), "comma", f"a {'comma' if comma[0] == b',' else 'semicolon'} between two values", ONE_SPACE)
    elif other is not None:
        yield Note(first + low + other.start(), "outside ASCII", "a space that is not ASCII's", ONE_SPACE)
    elif low == 0:
        yield Note(first, "space at the start", "a space before the first value", "the line begins with its first value")
    elif high == len(body):
        yield Note(first + low, "space at the end", "a space after the last value", "the line ends with its last value")
    elif high - low > 1:
        yield Note(first + low + 1, "two spaces", "two spaces" if high - low == 2 else f"{high - low} spaces", ONE_SPACE)


def _guess(notes: Sequence[Note], line: bytes, ids: Sequence[Note] = ()) -> Guess:
    """A guess with the notes in the order of their columns, one of each kind, and those on ids after them."""
    first: dict[str, Note] = {}
    for note in (*sorted(notes, key=lambda each: each.column), *ids):
        first.setdefault(note.kind, note)
    return Guess(tuple(first.values()), (line,))


# ---- a line of names
def _as_names(line: bytes, names: Names) -> Iterator[Guess]:
    wanted = names_line(names)
    found, notes = pieces(line, len(names))
    said = b" ".join(piece.word for piece in found)
    if said == wanted:
        yield _guess(notes, wanted)
    elif said not in KNOWN:
        yield from (_guess([*notes, note], wanted) for note in _names_note(line, said, names))


def _names_note(line: bytes, said: bytes, names: Names) -> Iterator[Note]:
    """What is amiss with the words of a line of names."""
    wanted = names_line(names)
    column, mend = departs(line, wanted) + 1, f"write {wanted.decode()}"
    if said.lower() == wanted:
        yield Note(column, "letter case", "a capital letter", mend)
    elif sorted(said.lower().split()) == sorted(wanted.split()):
        yield Note(column, "order of names", "the names are in another order", mend)
    elif re.search(rb"[^\x20-\x7e]", said):
        yield from _strange(line, 0, mend)
    elif _close(said.lower(), wanted):
        yield Note(column, "misspelt names", "the names are not to the letter", mend)


def _close(said: bytes, wanted: bytes) -> bool:
    """Whether a line is much like the one that is wanted, or one of them is the start of the other."""
    like = len(said) < 2 * len(wanted) and difflib.SequenceMatcher(None, said, wanted).ratio() > 0.6
    return like or said.startswith(wanted) or (said != b"" and wanted.startswith(said))


def departs(line: bytes, wanted: bytes) -> int:
    """How many bytes a line shares with the one that is wanted."""
    return next((i for i, (is_, due) in enumerate(zip(line, wanted)) if is_ != due), min(len(line), len(wanted)))


def _strange(word: bytes, at: int, mend: str) -> Iterator[Note]:
    """The first byte of a word that isn't printable ASCII; the word stands after `at` others."""
    found = re.search(rb"[^\x20-\x7e]", word)
    if found is None:
        return
    byte, column = found[0][0], at + found.start() + 1
    if word.startswith((b"\xff\xfe", b"\xfe\xff")):
        yield Note(column, "outside ASCII", "the text is UTF-16", "save it as plain ASCII")
    elif byte == 13:
        yield Note(column, "carriage return", "a carriage return within the line", "a line ends with a newline, byte 10")
    elif byte > 126:
        yield Note(column, "outside ASCII", f"a byte outside ASCII, \\x{byte:02x}", mend)
    else:
        yield Note(column, "control byte", f"a control byte, \\x{byte:02x}", mend)


# ---- a line of values
def _as_row(line: bytes, row: Row) -> Iterator[Guess]:
    found, notes = pieces(line, len(row.names))
    read = [_value(piece, name) for piece, name in zip(found, row.names)]
    values = [value for value, _ in read]
    notes += [note for _, note in read if note is not None]
    mended, more = _counted(line, found, values, row)
    whole = len(found) == len(row.names) and None not in values[: len(row.ids)]
    ids = _id_notes(found, [int(value or 0) for value in values[: len(row.ids)]], row) if whole else []
    yield _guess([*notes, *more], _written(mended, row), ids)


def _written(values: Sequence[bytes | None], row: Row) -> bytes:
    """A line of these values: the ids that are due, where theirs aren't, and zeros for those that are none."""
    ids = [None if value is None else int(value) for value in values[: len(row.ids)]]
    heads = values if row.suits(ids) else [*(b"%d" % i for i in row.first()), *values[len(row.ids) :]]
    return b" ".join(b"0" if value is None else value for value in heads)


def _value(piece: Piece, name: str) -> tuple[bytes | None, Note | None]:
    """A value as a number, None where it can't be told, and what is amiss with it."""
    word = piece.word
    if GOOD.fullmatch(word) or (word == b"-" and (name,) == PARAMETER):
        return word, None
    for kind, what, form in FORMS:
        match = form.fullmatch(word)
        if match is not None:
            value, mend = _mended(kind, word.decode(), name)
            return value, Note(piece.column + match.start(1), kind, f"{what} in {name}, {_short(word)}", mend)
    return _no_number(piece, name)


def _mended(kind: str, word: str, name: str) -> tuple[bytes | None, str]:
    """The number that is meant, if that can be told, and what to write."""
    if kind == "decimal point":
        return _whole(word, name)
    if kind == "digits":
        return None, "a number has at most 12"
    if kind == "exponent" or (kind == "comma" and not re.fullmatch(r"[-+]?\d{1,3}(,\d{3})+", word)):
        return None, "a number is whole, and has digits alone"
    value = f"{'-' if word.startswith('-') else ''}{word.replace(',', '').lstrip('+-0') or '0'}".replace("-0", "0")
    return (value.encode(), f"write {value}") if GOOD.fullmatch(value.encode()) else (None, "a number has at most 12 digits")


def _whole(word: str, name: str) -> tuple[bytes | None, str]:
    """What a decimal fraction is in the unit of a column."""
    unit = UNIT_OF.get(name)
    if unit is None:
        return None, f"{name} is a whole number"
    value = as_whole(word, unit.places)
    if value is None or not GOOD.fullmatch(b"%d" % value):
        return None, f"{name} is a whole number of {unit.engine}"
    return b"%d" % value, f"{name} is in {unit.engine}: {unit.of(word)} is {value}"


def _short(word: bytes) -> str:
    said = word.decode("ascii")
    return said if len(said) <= 20 else f"{said[:16]}.."


def _no_number(piece: Piece, name: str) -> tuple[bytes | None, Note]:
    word = piece.word
    plain = MINUS.sub(b"-", word)
    if plain != word and GOOD.fullmatch(plain):
        return plain, Note(piece.column, "outside ASCII", f"a minus sign in {name} that is not ASCII's", f"write {plain.decode()}")
    for note in _strange(word, piece.column - 1, "a number has ASCII digits alone"):
        return None, note
    column = piece.column + len(re.match(rb"-?\d*", word)[0])  # type: ignore[index]
    if word == b"-":
        return None, Note(piece.column, "no number", f"no number for {name}", "only a parameter may be missing")
    return None, Note(min(column, piece.column + len(word) - 1), "no number", f"{name} is no number: {_short(word)}", "a number is whole, and has digits alone")


def _counted(line: bytes, found: list[Piece], values: list[bytes | None], row: Row) -> tuple[list[bytes | None], list[Note]]:
    """As many values as are due, and what is amiss with their count."""
    due, ids = len(row.names), len(row.ids)
    said = f"{len(found):,} {'stands' if len(found) == 1 else 'stand'} where {due} {'is' if due == 1 else 'are'} due"
    headed = row.suits([None if value is None else int(value) for value in values[:ids]])
    if len(found) > due:
        many = "a value too many" if len(found) == due + 1 else "values too many"
        return values, [Note(found[due].column, "extra value", f"{many}: {said}")]
    if len(found) == due:
        return values, []
    some = values if headed else [*(b"%d" % i for i in row.first()), *values]
    padded = [*some, *[None] * due][:due]
    few = "a value is missing" if len(found) == due - 1 else "values are missing"
    return padded, [Note(len(line) + 1 if headed else 1, "missing value", f"{few}: {said}")]


def _id_notes(found: list[Piece], ids: list[int], row: Row) -> list[Note]:
    """What is amiss with the ids of a line that has as many values as are due."""
    if row.suits(ids):
        return []
    for piece, name, i, due in zip(found, row.names, ids, row.ids):
        if i not in due:
            return [_id_note(piece.column, name, i, due, row)]
    pair = " ".join(map(str, ids))
    if tuple(ids) == row.after:
        return [Note(1, "repeated id", f"resource and constraint {pair} come twice", "each pair has one factor")]
    return [Note(1, "order of ids", f"resource and constraint {pair} after {' '.join(map(str, row.after or ()))}", "factors rise by resource, then constraint")]


def _id_note(column: int, name: str, i: int, due: range, row: Row) -> Note:
    """What is amiss with one id."""
    grouped = row.names in (STEPS, POINTS)
    if grouped and 0 <= i < due[0]:
        return Note(column, "order of ids", f"{name} {i} after {name} {due[0]}", "the lines of a resource stand together, and the resources rise")
    if grouped or row.names == FACTORS or i < 0:
        return Note(column, "undeclared id", f"{name} {i} is not declared", f"{name}s are numbered from 0" if i < 0 else f"the last one declared is {due[-1]}")
    if i < due[0]:
        return Note(column, "repeated id", f"{name} {i} comes twice", f"{due[0]} is due")
    return Note(column, "skipped id", f"{name} {i} stands where {due[0]} is due", "ids count up by one, from 0")


# ---- lines that belong elsewhere
def _misplaced(line: bytes, due: Due) -> Iterator[Guess]:
    if line in KNOWN:
        yield from _wrong_table(line, due)
        return
    if line.startswith((b"#", b"//")):
        yield Guess((Note(1, "comment", "a comment", "a text has none"),), ())
    if not re.match(rb"[-+.\d]", line):
        return
    if due.names is not None:
        wanted = due.names
        yield Guess((Note(1, "missing names", f'the names line "{" ".join(wanted)}" is missing before it'),), (names_line(wanted), line))
    if due.row is None:
        yield from (Guess((_too_many(line, due),), lines) for lines in ((), (due.sample(),)))


def _too_many(line: bytes, due: Due) -> Note:
    """What is amiss with a line of values where none is due."""
    if due.table in (STEPS, POINTS, FACTORS) and not due.before:
        return Note(1, "undeclared id", f"no {'resource, or no constraint,' if due.table == FACTORS else 'resource'} is declared")
    note = _past_last(line, due.last) if due.table == FACTORS else None
    return note or Note(1, "extra line", "a line too many", _enough(due.table, due.before))


def _past_last(line: bytes, last: Sequence[int]) -> Note | None:
    """What is amiss with the pair of a factor after the one of the last resource and the last constraint."""
    found, _ = pieces(line, len(FACTORS))
    if len(found) != len(FACTORS) or not all(GOOD.fullmatch(piece.word) for piece in found):
        return None
    resource, constraint = last[:2]
    row = Row(FACTORS, (range(resource + 1), range(constraint + 1)), (resource, constraint))
    return _id_notes(found, [int(piece.word) for piece in found[:2]], row)[0]


def _enough(table: Names | None, count: int) -> str:
    """Why a table takes no more lines."""
    if table is None:
        return "a text begins with the names line of its month"
    if table in (MONTH, PARAMETER):
        return f"{table[0]} has one line"
    if table == CHARGES:
        return f"the costs have one line for each resource, {count} in all"
    return "the last factor has come"


def _wrong_table(line: bytes, due: Due) -> Iterator[Guess]:
    """A names line that isn't due."""
    sample = due.sample()
    if due.names is None:
        table = due.table or MONTH
        what = f"the {table[0]} is" if len(table) == 1 else f"the costs of resource {due.before} are"
        note = Note(1, "missing line", f"{what} missing before it")
    else:
        note = Note(1, "wrong table", f'a table that is not due: "{" ".join(due.names)}" comes before it')
        if due.table is not None and TABLES.index(KNOWN[line]) <= TABLES.index(due.table):
            note = Note(1, "wrong table", f'a table that came before: "{" ".join(due.names)}" is due')
    yield from (Guess((note,), lines) for lines in ((sample, line), (sample,)))
