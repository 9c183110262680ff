"""Tables for pandas. Only this module imports it, when a table is asked for."""

from __future__ import annotations

from collections.abc import Iterable
from typing import Any

from ._advice import bringing
from .records import Output

VERDICTS = ("interval", "constraint", "verdict", "demand", "left")
SELLERS = ("interval", "constraint", "portfolio", "withheld")
CURVES = ("interval", "resource", "end", "price")
REFUSALS = ("refusal", "line", "part", "sentence")


def output_frames(output: Output) -> dict[str, Any]:
    """What a text prints as DataFrames with the columns that are printed: verdicts, sellers, curves, and refusals with at most a row."""
    pages, refusal = output.pages, output.refusal
    said = [] if refusal is None else [(refusal.number, refusal.line, refusal.part, refusal.sentence)]
    return {
        "verdicts": frame(VERDICTS, [(p.interval, v.constraint, int(v.finding), v.demand, v.left) for p in pages for v in p.verdicts]),
        "sellers": frame(SELLERS, [(p.interval, s.constraint, s.portfolio, s.withheld) for p in pages for s in p.sellers]),
        "curves": frame(CURVES, [(p.interval, c.resource, s.end, s.price) for p in pages for c in p.curves for s in c.steps]),
        "refusals": frame(REFUSALS, said, numbers=2),
    }


def frame(names: tuple[str, ...], lines: Iterable[tuple[Any, ...]], numbers: int | None = None) -> Any:
    """A DataFrame with these columns. The first `numbers` of them, or all, are whole numbers, also where there is no row."""
    try:
        import pandas
    except ImportError as error:
        raise ImportError(f"a table needs pandas: {bringing('pandas')}") from error
    table = pandas.DataFrame(list(lines), columns=list(names))
    return table.astype({name: "int64" for name in names[:numbers]})
