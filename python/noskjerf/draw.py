"""An hour as a picture: each resource's submitted, default and mitigated curves, or each constraint's demand and supply.

It needs matplotlib. A picture of one text is the same to the byte each time it is made.
"""

from __future__ import annotations

import io
import warnings
from collections.abc import Iterator
from dataclasses import dataclass, replace
from pathlib import PurePath
from typing import Any

from ._advice import bringing
from ._curve_pictures import curve_figures
from ._sheet import page_number
from ._verdict_pictures import verdict_figures
from .files import Trouble, free_for, named, shown, text_of, write_together
from .refusal import Refusal
from .shown import Account, account, cut_resources

FORMS = ("svg", "png", "pdf")

SETTINGS: dict[str, Any] = {
    "svg.hashsalt": "noskjerf",
    "svg.fonttype": "none",
    "font.family": "DejaVu Sans",
    "font.size": 9.0,
    "text.parse_math": False,
    "xtick.labelsize": 8.0,
    "ytick.labelsize": 8.0,
    "axes.spines.top": False,
    "axes.spines.right": False,
    "axes.grid": True,
    "grid.color": "#e4e4e4",
    "axes.axisbelow": True,
}
UNDATED: dict[str, dict[str, None]] = {"svg": {"Date": None}, "png": {}, "pdf": {"CreationDate": None}}


@dataclass(frozen=True)
class View:
    """What of an hour is drawn: its curves, or its constraints; those of some resources alone, and of what is cut alone. A constraint belongs to
    a resource that has a shift factor on it, and to a cut where it is non-competitive."""

    constraints: bool = False
    resources: tuple[int, ...] | None = None
    cut: bool = False
    title: str | None = None


@dataclass(frozen=True)
class Drawn:
    """The files that were written; none, and the refusal, where a text isn't accepted whole."""

    files: tuple[str, ...]
    refusal: Refusal | None = None


def draw(path: str, out: str, view: View | None = None, over: bool = True) -> Drawn:
    """Writes the pictures of a file's text, and only with `over` over files that are there; the title is the file's name where the view has none."""
    form = PurePath(out).suffix[1:].lower()
    if form not in FORMS and out != "-":
        raise Trouble(f"{out}: the ending of a picture is .svg, .png or .pdf")
    text, asked = text_of(path), view or View()
    name = named(path) if path == "-" else PurePath(path).name
    try:
        made = pages(text, form or "svg", asked if asked.title is not None else replace(asked, title=name))
    except Refusal as refusal:
        return Drawn((), refusal)
    except IndexError as error:
        raise Trouble(f"{named(path)}: {error}") from error
    names = _names(out, len(made))
    for each in names:
        free_for(path, each, over)
    write_together(dict(zip(names, made)))
    return Drawn(names)


def _names(out: str, count: int) -> tuple[str, ...]:
    """The name of one picture, or of each page of several: hour.svg becomes hour-1.svg and so on."""
    if count == 1:
        return (out,)
    if out == "-":
        raise Trouble(f"the picture has {count} pages, and standard output takes one; -o FILE.pdf has them all")
    whole = PurePath(out)
    return tuple(str(whole.with_name(f"{whole.stem}-{number}{whole.suffix}")) for number in range(1, count + 1))


def pages(text: str | bytes, form: str = "svg", view: View | None = None) -> list[bytes]:
    """The pages of a text's picture, a file each; a PDF is one file. Raises the Refusal of a text that isn't accepted whole, IndexError for
    a resource that the hour hasn't got, ImportError without matplotlib, and ValueError for a form other than svg, png and pdf."""
    if form not in FORMS:
        raise ValueError(f"form: svg, png or pdf is due, not {form}")
    hour = account(text)
    if hour.refusal is not None:
        raise hour.refusal
    with _style(), warnings.catch_warnings():
        # a title may have letters that the font hasn't got
        warnings.filterwarnings("ignore", "Glyph .* missing")
        figures = list(_figures(hour, view or View()))
        for number, figure in enumerate(figures if figures[1:] else (), 1):
            page_number(figure, number, len(figures))
        return _saved(figures, form)


def _figures(hour: Account, view: View) -> Iterator[Any]:
    asked = None if view.resources is None else _asked(hour, view.resources)
    title = shown("hour" if view.title is None else view.title)
    if view.constraints:
        return verdict_figures(hour, asked, view.cut, f"{title}: constraints")
    resources = list(range(len(hour.resources))) if asked is None else asked
    if view.cut:
        cut = {r for i in range(len(hour.intervals)) for r in cut_resources(hour, i)}
        resources = [r for r in resources if r in cut]
    return curve_figures(hour, resources, f"{title}: bids")


def _asked(hour: Account, resources: tuple[int, ...]) -> list[int]:
    for r in resources:
        if not 0 <= r < len(hour.resources):
            raise IndexError(f"the hour has no resource {r}: they are numbered 0 to {len(hour.resources) - 1}")
    return sorted(set(resources))


def _style() -> Any:
    try:
        import matplotlib
    except ImportError as error:
        raise ImportError(f"a picture needs matplotlib: {bringing('matplotlib')}") from error
    return matplotlib.rc_context({**matplotlib.rcParamsDefault, **SETTINGS, "backend": "agg"})


def _saved(figures: list[Any], form: str) -> list[bytes]:
    if form != "pdf":
        return [_image(figure, form) for figure in figures]
    from matplotlib.backends.backend_pdf import PdfPages

    out = io.BytesIO()
    with PdfPages(out, metadata=UNDATED["pdf"]) as book:
        for figure in figures:
            book.savefig(figure)
    return [out.getvalue()]


def _image(figure: Any, form: str) -> bytes:
    out = io.BytesIO()
    figure.savefig(out, format=form, dpi=110, metadata=UNDATED[form])
    return out.getvalue()
