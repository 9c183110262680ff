"""Refusals and what they say."""

from __future__ import annotations

import functools
import importlib.util
import pkgutil
import re
from collections.abc import Iterator
from dataclasses import dataclass
from pathlib import Path
from typing import TYPE_CHECKING

if TYPE_CHECKING:
    from .form import Slip

SENTENCES = {
    1: "a bid has no step, or more than 10 (a default curve 11)",
    2: "an edge of a bid (or of a default curve) is outside 0 to 1,000,000, or its edges do not rise",
    3: "a bid price is outside the range that the month allows (a default price outside its own), or the prices fall",
    4: "a resource has fewer than 2 cost points, or more than 11",
    5: "the quantity of a cost point is outside 0 to 1,000,000, or the quantities do not rise",
    6: "a heat rate is outside 1 to 100,000",
    7: "a price, rate or fee of the costs is outside its range",
    8: "an incremental heat rate, after the 80% limit, is outside -100,000 to 100,000",
    9: "the month is outside 1 to 1,200, the portfolio count outside 1 to 16 or the resource count outside 1 to 64",
    10: "a portfolio's seller is not 0 or 1, or a resource's portfolio is not declared",
    11: "a bid reaches outside its default energy bid",
    12: "the hour has taken four intervals already",
    13: "the interval does not have as many resources as the hour",
    14: "the interval has more than 32 constraints",
    15: "a shadow price, locational price, parameter or shift factor is outside its limits",
    16: "available is outside 0 to 1,000,000, or floor or dispatch is below 0 or above available",
    17: "the line is not of the form that is due there",
    18: "the text has more than 65,536 bytes",
    19: "no interval is accepted yet, or three passes are accepted since the last",
    20: "fewer than four intervals are accepted",
    21: "the market's list of gas prices ends inside a pair, its days do not rise, or it has no entry up to the trading day",
    23: "the second part does not start at the first one's last end",
    24: "the two parts have more than 11 steps together",
    25: "the day's number is not above the last accepted one, a mark is past the 24 hours, or a non-competitive hour is not bound",
    26: "no constraint of the interval binds",
}

# A pack, which stands above the engine and is installed beside this package, is a package called so and more. Its refusals have entries in a REFUSALS.md of its
# own, of the form of docs/REFUSALS.md but for the sentence, which stands below the title.
PACK = "noskjerf_"
DOCUMENT = "REFUSALS.md"


class Refusal(Exception):
    """Why the engine refused a text or a call: a number of docs/REFUSALS.md; or why a pack did, with a number of its own.

    `part` is what was refused: of a text "opening" or "interval 1" and so on, "text" where it is too long (18); of a call "bid",
    "costs", "join", "book", "opening", "interval 1" and so on, "pass" or "hour". `line` is the line of the text, from 1 on, and None for a call.
    For 17 it is the faulty line, or the one after the last where the text ends early; else the last line of the part. `text` is the
    refused text, where it isn't too long; two refusals are the same whatever their texts.
    Where a tally refuses a trading day, the part is "day 20" and so on.

    >>> print(Refusal(15, "interval 1", 23))
    interval 1, line 23: a shadow price, locational price, parameter or shift factor is outside its limits (refusal 15)
    >>> print(Refusal(17, "opening", 2, b"month\\n025\\n"))
    opening, line 2, column 1: a leading zero in month, 025 (refusal 17)
      025
      ^
      due: <month>
      mend: write 25
    """

    def __init__(self, number: int, part: str, line: int | None = None, text: bytes | None = None) -> None:
        super().__init__(number, part, line)
        self.number = number
        self.part = part
        self.line = line
        self.text = None if number == 18 else text

    @functools.cached_property
    def slip(self) -> Slip | None:
        """What is wrong with the line that isn't of the form, and what was due there; None for another refusal than 17 of a text."""
        if self.number != 17 or self.text is None or self.line is None:
            return None
        # it asks the engine, which answers with refusals
        from .form import slip

        return slip(self.text, self.line)

    @property
    def sentence(self) -> str:
        """The reason alone, as a sentence for a person."""
        known = sentence_of(self.number)
        return known if self.slip is None else self.slip.cause or known

    @property
    def headline(self) -> str:
        """All that is known, on one line."""
        line = "" if self.line is None else f", line {self.line}"
        column = "" if self.slip is None or self.slip.column is None else f", column {self.slip.column}"
        return f"{self.part}{line}{column}: {self.sentence} (refusal {self.number})"

    def __str__(self) -> str:
        details = () if self.slip is None else self.slip.details()
        return "\n  ".join((self.headline, *details))

    def again(self) -> Refusal:
        """The same refusal, to be raised once more."""
        return Refusal(self.number, self.part, self.line, self.text)

    def __eq__(self, other: object) -> bool:
        return isinstance(other, Refusal) and self.args == other.args

    def __hash__(self) -> int:
        return hash(self.args)


def sentence_of(number: int) -> str:
    """What a number says, of the engine's own or of a pack's."""
    if number in SENTENCES:
        return SENTENCES[number]
    packed = _of_packs().get(number)
    return "no such refusal is known" if packed is None else packed.sentence


@dataclass(frozen=True)
class Explanation:
    """The entry of docs/REFUSALS.md for a number, as Markdown: its title, when it is told, examples and what to mend; and its sentence."""

    number: int
    title: str
    when: str
    examples: str
    mend: str
    sentence: str


def explain(number: int) -> Explanation:
    """The entry of docs/REFUSALS.md for a number, or of a pack that is installed. Raises KeyError where there is none.

    >>> explain(18).title
    'length'
    """
    own = _own()
    return own[number] if number in own else _of_packs()[number]


@functools.lru_cache(maxsize=None)
def _own() -> dict[int, Explanation]:
    return _entries(Path(__file__).with_name(DOCUMENT))


@functools.lru_cache(maxsize=None)
def _of_packs() -> dict[int, Explanation]:
    return {number: entry for document in _packs() for number, entry in _entries(document).items()}


def _packs() -> Iterator[Path]:
    """The documents of all packs that Python would find. None is imported."""
    for module in pkgutil.iter_modules():
        spec = importlib.util.find_spec(module.name) if module.ispkg and module.name.startswith(PACK) else None
        for folder in (spec and spec.submodule_search_locations) or ():
            if (document := Path(folder, DOCUMENT)).is_file():
                yield document


def _entries(document: Path) -> dict[int, Explanation]:
    _, *sections = re.split(r"^## ", document.read_text("utf-8"), flags=re.MULTILINE)
    return {entry.number: entry for entry in (_entry(section) for section in sections if re.match(r"\d+: ", section))}


def _entry(section: str) -> Explanation:
    heading, body = section.split("\n", 1)
    number, title = heading.split(": ", 1)
    told, mend = body.split("**Mend**: ")
    sentence, told = told.split("**When**: ")
    when, _, examples = told.partition("\n\n")
    return Explanation(int(number), title, when.strip(), examples.strip(), mend.strip(), SENTENCES.get(int(number), sentence.strip()))
