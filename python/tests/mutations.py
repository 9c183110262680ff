"""Slips that people and programs make in a text: each is made in a good text, and says of itself what it is and where."""

from __future__ import annotations

import random
from collections.abc import Callable
from dataclasses import dataclass

from noskjerf import Charges, Costs, Curve, Factor, Interval, Opening, Resource, write
from noskjerf.due import TABLES, names_line

NAMES = [names_line(names) for names in TABLES]


@dataclass(frozen=True)
class Slipped:
    """A text with a slip: the kinds that it may be called, where it has a name, its line and its column, where they are known."""

    text: bytes
    kinds: frozenset[str] = frozenset()
    line: int | None = None
    column: int | None = None


Maker = Callable[[random.Random, list[bytes]], "Slipped | None"]


# ---- good texts
def good_text(rng: random.Random) -> bytes:
    """A text of good form, with 1 to 4 resources and up to 3 intervals; its values may be refused."""
    resources, sellers = rng.randint(1, 4), rng.randint(1, 3)
    opening = Opening(rng.randint(1, 40), tuple(rng.randint(0, 1) for _ in range(sellers)), tuple(_resource(rng, sellers) for _ in range(resources)))
    return write(opening, [_interval(rng, resources) for _ in range(rng.randint(0, 3))]).encode()


def _resource(rng: random.Random, sellers: int) -> Resource:
    ends = sorted(rng.sample(range(1000, 50_000), rng.randint(1, 3)))
    steps = [(end, 1000 * i) for i, end in enumerate(ends)]
    points = [(0, rng.randint(7000, 9000)), (50_000, rng.randint(7000, 9000))]
    charges = Charges(gas=rng.randint(0, 90_000), om=rng.randint(0, 9000))
    return Resource(rng.randrange(sellers), Curve(rng.randint(0, 900), steps), Costs(points, charges))


def _interval(rng: random.Random, resources: int) -> Interval:
    constraints = rng.randint(0, 3)
    pairs = [(r, c) for r in range(resources) for c in range(constraints) if rng.random() < 0.7]
    return Interval(
        shadow=tuple(rng.randint(0, 900_000) for _ in range(constraints)),
        lmp=tuple(rng.randint(-900_000, 900_000) for _ in range(resources)),
        dispatch=tuple(rng.randint(0, 20_000) for _ in range(resources)),
        available=tuple(rng.randint(20_000, 50_000) for _ in range(resources)),
        floor=(0,) * resources,
        factors=tuple(Factor(r, c, rng.randint(-900_000, 900_000)) for r, c in pairs),
        parameter=rng.choice([None, 0, 100]),
    )


# ---- where a slip is made
def joined(lines: list[bytes]) -> bytes:
    return b"".join(line + b"\n" for line in lines)


def replaced(lines: list[bytes], at: int, *others: bytes) -> bytes:
    return joined([*lines[:at], *others, *lines[at + 1 :]])


def one_of(rng: random.Random, places: list[int]) -> int | None:
    return rng.choice(places) if places else None


def values_at(rng: random.Random, lines: list[bytes], least: int = 1) -> int | None:
    """A line of at least so many values."""
    return one_of(rng, [i for i, line in enumerate(lines) if line not in NAMES and line != b"-" and len(line.split()) >= least])


def in_a_value(kind: str, written: Callable[[random.Random, bytes], tuple[bytes, int] | None]) -> Maker:
    """A value, any of a line, written otherwise; `written` answers it and where in it the slip is."""

    def make(rng: random.Random, lines: list[bytes]) -> Slipped | None:
        at = values_at(rng, lines)
        assert at is not None
        words = lines[at].split(b" ")
        place = rng.randrange(len(words))
        found = written(rng, words[place])
        if found is None:
            return None
        line = b" ".join([*words[:place], found[0], *words[place + 1 :]])
        column = len(b" ".join(words[:place])) + (1 if place else 0) + found[1] + 1
        return Slipped(replaced(lines, at, line), frozenset({kind}), at + 1, column)

    return make


def _decimal(rng: random.Random, value: bytes) -> tuple[bytes, int]:
    at = rng.randint(1, len(value)) if value[:1] != b"-" else rng.randint(2, len(value))
    return value[:at] + b"." + (value[at:] or rng.choice([b"", b"0", b"00", b"25"])), at


def _leading_zero(rng: random.Random, value: bytes) -> tuple[bytes, int]:
    sign = 1 if value.startswith(b"-") else 0
    return value[:sign] + b"0" * rng.randint(1, 3) + value[sign:], sign


def _digits(rng: random.Random, value: bytes) -> tuple[bytes, int]:
    sign = rng.choice([b"", b"-"])
    return sign + b"1" + b"%012d" % rng.randrange(10**12) + b"5" * rng.randint(0, 9), len(sign) + 12


def _thousands(rng: random.Random, value: bytes) -> tuple[bytes, int] | None:
    if len(value.lstrip(b"-")) < 4:
        return None
    said = f"{int(value):,}".encode()
    return said, said.index(b",")


def _letter(rng: random.Random, value: bytes) -> tuple[bytes, int]:
    at = rng.randint(0, len(value) - 1)
    return value[:at] + rng.choice([b"O", b"l", b"x", b"$", b"%", b"_"]) + value[at:], at


def _not_ascii(rng: random.Random, value: bytes) -> tuple[bytes, int]:
    at = rng.randint(0, len(value))
    return value[:at] + bytes([rng.randint(128, 255)]) + value[at:], at


def _control(rng: random.Random, value: bytes) -> tuple[bytes, int]:
    at = rng.randint(0, len(value) - 1)
    return value[:at] + rng.choice([b"\x00", b"\x01", b"\x1b"]) + value[at:], at


def _minus(rng: random.Random, value: bytes) -> tuple[bytes, int]:
    return rng.choice(["−", "–"]).encode() + (value.lstrip(b"-0") or b"1"), 0


# ---- gaps and line ends
def in_a_gap(kind: str, gap: bytes, shift: int) -> Maker:
    def make(rng: random.Random, lines: list[bytes]) -> Slipped | None:
        at = one_of(rng, [i for i, line in enumerate(lines) if b" " in line])
        if at is None:
            return None
        place = rng.choice([i for i, byte in enumerate(lines[at]) if byte == 32])
        return Slipped(replaced(lines, at, lines[at][:place] + gap + lines[at][place + 1 :]), frozenset({kind}), at + 1, place + 1 + shift)

    return make


def at_an_end(kind: str, before: bytes, after: bytes) -> Maker:
    def make(rng: random.Random, lines: list[bytes]) -> Slipped:
        at = rng.randrange(len(lines))
        return Slipped(replaced(lines, at, before + lines[at] + after), frozenset({kind}), at + 1, 1 if before else len(lines[at]) + 1)

    return make


def windows(rng: random.Random, lines: list[bytes]) -> Slipped:
    return Slipped(b"".join(line + b"\r\n" for line in lines), frozenset({"carriage return"}), 1, len(lines[0]) + 1)


def mark(rng: random.Random, lines: list[bytes]) -> Slipped:
    return Slipped(b"\xef\xbb\xbf" + joined(lines), frozenset({"byte order mark"}), 1, 1)


# ---- counts of values
def fewer(rng: random.Random, lines: list[bytes]) -> Slipped | None:
    at = values_at(rng, lines, 2)
    if at is None:
        return None
    words = lines[at].split(b" ")
    place = rng.randrange(1, len(words))
    return Slipped(replaced(lines, at, b" ".join(words[:place] + words[place + 1 :])), frozenset({"missing value"}), at + 1)


def more(rng: random.Random, lines: list[bytes]) -> Slipped | None:
    at = values_at(rng, lines)
    assert at is not None
    extra = b"%d" % rng.choice([0, 1, 7, 300_000])
    return Slipped(replaced(lines, at, lines[at] + b" " + extra), frozenset({"extra value"}), at + 1, len(lines[at]) + 2)


# ---- the text ends early
def cut(rng: random.Random, lines: list[bytes]) -> Slipped:
    text = joined(lines)[: rng.randrange(len(joined(lines)))]
    kinds = {"text ends early", "empty text"} if not text or text.endswith(b"\n") else {"not closed", "text ends early"}
    return Slipped(text, frozenset(kinds), text.count(b"\n") + 1)


# ---- ids
IDS = frozenset({"repeated id", "skipped id", "undeclared id", "order of ids"})
# tables whose lines count up by one
COUNTING = [names_line(TABLES[i]) for i in (1, 2, 5, 6, 7)]


def rows_of(lines: list[bytes], tables: list[bytes]) -> list[int]:
    """The lines of values of some tables."""
    found, inside = [], False
    for i, line in enumerate(lines):
        if line in NAMES:
            inside = line in tables
        elif inside:
            found.append(i)
    return found


def other_id(rng: random.Random, lines: list[bytes]) -> Slipped | None:
    """An id of a table that counts up, any but the one that is due."""
    at = one_of(rng, rows_of(lines, COUNTING))
    if at is None:
        return None
    own, rest = lines[at].split(b" ", 1)
    other = rng.choice([i for i in range(-1, 9) if i != int(own)])
    kinds = {"undeclared id"} if other < 0 else {"repeated id"} if other < int(own) else {"skipped id"}
    return Slipped(replaced(lines, at, b"%d %s" % (other, rest)), frozenset(kinds), at + 1, 1)


def undeclared(rng: random.Random, lines: list[bytes]) -> Slipped | None:
    """A step, a point or a factor of a resource that isn't declared."""
    at = one_of(rng, rows_of(lines, [names_line(TABLES[i]) for i in (3, 4, 8)]))
    if at is None:
        return None
    return Slipped(replaced(lines, at, b"%d %s" % (rng.randint(100, 999), lines[at].split(b" ", 1)[1])), frozenset({"undeclared id"}), at + 1, 1)


def twice(rng: random.Random, lines: list[bytes]) -> Slipped | None:
    """A line of a table that counts up, or of the factors, twice."""
    at = one_of(rng, rows_of(lines, [*COUNTING, names_line(TABLES[8])]))
    if at is None:
        return None
    # after the last cost no line of costs is due
    kinds = frozenset({"repeated id", "extra line"} if len(lines[at].split()) == 8 else {"repeated id"})
    return Slipped(replaced(lines, at, lines[at], lines[at]), kinds, at + 2)


# ---- tables
def other_table(rng: random.Random, lines: list[bytes]) -> Slipped:
    at = rng.choice([i for i, line in enumerate(lines) if line in NAMES])
    other = rng.choice([names for names in NAMES if names != lines[at]])
    return Slipped(replaced(lines, at, other), frozenset({"wrong table"}), at + 1, 1)


def misspelt(rng: random.Random, lines: list[bytes]) -> Slipped:
    at = rng.choice([i for i, line in enumerate(lines) if line in NAMES])
    place = rng.choice([i for i, byte in enumerate(lines[at]) if byte != 32])
    letter = rng.choice([b"q", b"", lines[at][place : place + 1].upper()])
    line = lines[at][:place] + letter + lines[at][place + 1 :]
    return Slipped(replaced(lines, at, line), frozenset({"letter case"} if letter.isupper() else {"misspelt names"}), at + 1)


def shuffled_names(rng: random.Random, lines: list[bytes]) -> Slipped:
    at = rng.choice([i for i, line in enumerate(lines) if line in NAMES and b" " in line])
    words = lines[at].split(b" ")
    return Slipped(replaced(lines, at, b" ".join(words[1:] + words[:1])), frozenset({"order of names"}), at + 1, 1)


def no_names(rng: random.Random, lines: list[bytes]) -> Slipped:
    at = rng.choice([i for i, line in enumerate(lines) if line in NAMES])
    return Slipped(joined(lines[:at] + lines[at + 1 :]))


def one_line_gone(rng: random.Random, lines: list[bytes]) -> Slipped | None:
    """The only line of a month or a parameter, or a line of costs."""
    at = rng.choice([i for i, line in enumerate(lines) if line not in NAMES and lines[i - 1] in (NAMES[0], NAMES[9])])
    last = at + 1 == len(lines)
    return Slipped(joined(lines[:at] + lines[at + 1 :]), frozenset({"text ends early"} if last else {"missing line"}), at + 1)


def inserted(kind: str, line: bytes) -> Maker:
    def make(rng: random.Random, lines: list[bytes]) -> Slipped:
        at = rng.randint(0, len(lines))
        return Slipped(joined([*lines[:at], line, *lines[at:]]), frozenset({kind}), at + 1, 1)

    return make


# ---- anything
def any_byte(rng: random.Random, lines: list[bytes]) -> Slipped:
    text = joined(lines)
    at = rng.randrange(len(text))
    byte = bytes([rng.choice([*b" \t\n\r0123456789-+.,abz", rng.randrange(256)])])
    return Slipped(text[:at] + rng.choice([b"", byte, byte + text[at : at + 1]]) + text[at + 1 :])


def any_line(rng: random.Random, lines: list[bytes]) -> Slipped:
    shuffled = list(lines)
    a, b = rng.randrange(len(lines)), rng.randrange(len(lines))
    if rng.random() < 0.5:
        shuffled[a], shuffled[b] = shuffled[b], shuffled[a]
    else:
        shuffled.insert(b, shuffled.pop(a))
    return Slipped(joined(shuffled))


SLIPS: dict[str, Maker] = {
    "a decimal point": in_a_value("decimal point", _decimal),
    "a leading zero": in_a_value("leading zero", _leading_zero),
    "a plus sign": in_a_value("plus sign", lambda rng, value: (b"+" + value.lstrip(b"-"), 0)),
    "-0": in_a_value("minus zero", lambda rng, value: (b"-0", 0)),
    "13 digits and more": in_a_value("digits", _digits),
    "a comma for thousands": in_a_value("comma", _thousands),
    "an exponent": in_a_value("exponent", lambda rng, value: (value + b"e3", len(value))),
    "a letter": in_a_value("no number", _letter),
    "a control byte": in_a_value("control byte", _control),
    "a byte outside ASCII": in_a_value("outside ASCII", _not_ascii),
    "a minus sign of Unicode": in_a_value("outside ASCII", _minus),
    "a tab": in_a_gap("tab", b"\t", 0),
    "two spaces": in_a_gap("two spaces", b"  ", 1),
    "a space that never breaks": in_a_gap("outside ASCII", "\u00a0".encode(), 0),
    "a space at the start": at_an_end("space at the start", b" ", b""),
    "a space at the end": at_an_end("space at the end", b"", b" "),
    "a carriage return": at_an_end("carriage return", b"", b"\r"),
    "a file from Windows": windows,
    "a byte order mark": mark,
    "a value missing": fewer,
    "a value too many": more,
    "the text cut off": cut,
    "another id": other_id,
    "an id that isn't declared": undeclared,
    "a line twice": twice,
    "another table": other_table,
    "a misspelt name": misspelt,
    "names in another order": shuffled_names,
    "no names line": no_names,
    "no line of a month or parameter": one_line_gone,
    "an empty line": inserted("empty line", b""),
    "a comment": inserted("comment", b"# dispatch of the hour"),
    "any byte": any_byte,
    "any line": any_line,
}
