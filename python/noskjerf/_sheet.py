"""A page of a picture: its title, a legend, and panels of one size in rows and columns."""

from __future__ import annotations

import math
from dataclasses import dataclass
from typing import Any

# margins and the gaps between panels, in inches
RIGHT, BOTTOM, GAP = 0.25, 0.55, 0.3
# the lines above the panels: title, words, and each row of the legend
TITLE, LINE = 0.42, 0.24
# the width of a label of the legend
LABEL = 2.1
# a page of words alone
WORDS = (7.5, 1.4)


@dataclass(frozen=True)
class Head:
    """What stands above the panels: a title, a line of words, and the legend's handles."""

    title: str
    words: str
    handles: list[Any]


@dataclass(frozen=True)
class Room:
    """A panel's size in inches, and the room for what stands left of it, above it and below it."""

    width: float
    height: float
    left: float
    above: float
    below: float = 0.5

    def across(self, columns: int) -> float:
        """The width of a page with so many columns."""
        return columns * (self.left + self.width) + (columns - 1) * GAP + RIGHT

    def down(self, rows: int) -> float:
        """The height of so many rows of panels."""
        return rows * (self.above + self.height + self.below)


def sheet(head: Head, room: Room, rows: int, columns: int) -> tuple[Any, list[Any]]:
    """A figure with its head, and its panels row by row."""
    from matplotlib.figure import Figure

    across = max(room.across(columns), WORDS[0])
    legend = math.ceil(len(head.handles) * LABEL / across)
    top = TITLE + LINE * (1 + legend)
    down = top + room.down(rows)
    figure = Figure(figsize=(across, down))
    _head(figure, head, legend)
    panels = []
    for place in range(rows * columns):
        row, column = divmod(place, columns)
        left = room.left + column * (room.left + room.width + GAP)
        low = down - top - row * (room.above + room.height + room.below) - room.above - room.height
        panels.append(figure.add_axes((left / across, low / down, room.width / across, room.height / down)))
    return figure, panels


def words_alone(head: Head) -> Any:
    """A figure of a page that has nothing but words to show."""
    from matplotlib.figure import Figure

    figure = Figure(figsize=WORDS)
    _head(figure, head, 0)
    return figure


def _head(figure: Any, head: Head, rows: int) -> None:
    across, down = figure.get_size_inches()
    at, room = 0.15 / across, across - 0.3
    figure.text(at, 1 - 0.14 / down, _fitted(head.title, room, 11, "bold"), fontsize=11, fontweight="bold", va="top")
    figure.text(at, 1 - TITLE / down, _fitted(head.words, room, 9, "normal"), fontsize=9, va="top")
    if head.handles:
        columns = math.ceil(len(head.handles) / rows)
        corner = (0, 1 - (TITLE + LINE - 0.08) / down)
        figure.legend(handles=head.handles, loc="upper left", bbox_to_anchor=corner, ncols=columns, frameon=False, fontsize=8, labelspacing=0.3)


def page_number(figure: Any, number: int, pages: int) -> None:
    """Writes the number of a page on it."""
    across, down = figure.get_size_inches()
    figure.text(1 - 0.15 / across, 0.12 / down, f"page {number} of {pages}", fontsize=8, ha="right")


def _fitted(text: str, room: float, size: float, weight: str) -> str:
    """A text, or its beginning where it is wider than the room in inches."""
    wide = _width(text, size, weight)
    if wide <= room:
        return text
    kept = int(len(text) * room / wide)
    while kept and _width(f"{text[:kept]}…", size, weight) > room:
        kept -= 1
    return f"{text[:kept]}…"


def _width(text: str, size: float, weight: str) -> float:
    """The width of a text, in inches."""
    from matplotlib.font_manager import FontProperties
    from matplotlib.textpath import TextPath

    return float(TextPath((0, 0), text, size, prop=FontProperties(weight=weight)).get_extents().width) / 72
