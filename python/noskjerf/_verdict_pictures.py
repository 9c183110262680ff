"""Pictures of constraints: the demand for counterflow of each that binds, and its supply with what the sellers named can withhold."""

from __future__ import annotations

import math
from collections.abc import Iterator
from dataclasses import dataclass
from typing import Any

from ._sheet import Head, Room, sheet, words_alone
from .figures import FINDINGS
from .records import Finding, Verdict
from .shown import Account, Taken, near_mw, places_apart
from .units import count

DEMAND = "#333333"
LEFT = "#9ad0f5"
SELLERS = ("#d55e00", "#e69f00", "#f3d36b")
BAR = 0.26

# constraints in a panel, each an inch high, and panels beside each other
MOST, COLUMNS = 8, 2


@dataclass(frozen=True)
class Panel:
    """A panel of constraints: an interval, and some of its verdicts. `words` says what part of the interval it is."""

    taken: Taken
    verdicts: list[Verdict]
    words: str


def verdict_figures(hour: Account, resources: list[int] | None, cut: bool, title: str) -> Iterator[Any]:
    """The pages of the constraints that bind: all, or those on which one of these resources has a shift factor, or the non-competitive ones."""
    panels = [panel for taken in hour.intervals for panel in _panels(taken, _chosen(taken, resources, cut))]
    if not panels:
        yield words_alone(Head(title, "The text has no interval, so no constraint is judged.", []))
        return
    most = max(len(panel.verdicts) for panel in panels)
    columns = min(COLUMNS, len(panels))
    page = columns * (1 if most > MOST // 2 else 2)
    for first in range(0, len(panels), page):
        yield _figure(panels[first : first + page], columns, title)


def _binding(taken: Taken) -> list[Verdict]:
    return [verdict for verdict in taken.page.verdicts if verdict.finding is not Finding.NOT_BINDING]


def _chosen(taken: Taken, resources: list[int] | None, cut: bool) -> list[Verdict]:
    touched = {factor.constraint for factor in taken.interval.factors if resources is None or factor.resource in resources}
    found = [verdict for verdict in _binding(taken) if resources is None or verdict.constraint in touched]
    return [verdict for verdict in found if not cut or verdict.finding is Finding.NON_COMPETITIVE]


def _panels(taken: Taken, verdicts: list[Verdict]) -> list[Panel]:
    """The panels of an interval, one at least."""
    if not verdicts:
        return [Panel(taken, [], _nothing(taken))]
    binding, all_of_them = len(_binding(taken)), count(len(taken.page.verdicts), "constraint")
    words = f"{binding} of {all_of_them} {'binds' if binding == 1 else 'bind'}"
    if len(verdicts) < binding:
        words += f", {len(verdicts)} shown"
    parts = [verdicts[first : first + MOST] for first in range(0, len(verdicts), MOST)]
    return [Panel(taken, part, words + (f" (part {i} of {len(parts)})" if parts[1:] else "")) for i, part in enumerate(parts, 1)]


def _nothing(taken: Taken) -> str:
    if not taken.page.verdicts:
        return "it has no constraints"
    return "none of those that bind was asked for" if _binding(taken) else "no constraint binds"


def _figure(panels: list[Panel], columns: int, title: str) -> Any:
    places = max(1, *(len(panel.verdicts) for panel in panels))
    words = "Non-competitive where what is left of the supply is below the demand, which the upright line marks."
    head = Head(title, words, _handles())
    figure, grid = sheet(head, Room(5.2, 0.95 * places, 1.3, 0.4), math.ceil(len(panels) / columns), columns)
    for axes, panel in zip(grid, panels):
        _panel(axes, panel, places)
    for axes in grid[len(panels) :]:
        axes.set_axis_off()
    return figure


def _panel(axes: Any, panel: Panel, places: int) -> None:
    axes.set_title(f"Interval {panel.taken.number}: {panel.words}", fontsize=9, loc="left")
    if not panel.verdicts:
        axes.set_axis_off()
        return
    for place, verdict in enumerate(panel.verdicts):
        _bars(axes, panel.taken, verdict, place)
    axes.set_yticks(range(len(panel.verdicts)), [f"constraint {v.constraint}:\n{FINDINGS[v.finding]}" for v in panel.verdicts])
    axes.tick_params(axis="y", labelsize=8)
    axes.set_ylim(places - 0.35, -0.35)
    axes.set_xlim(left=0)
    axes.locator_params(axis="x", nbins=6)
    axes.xaxis.set_major_formatter("{x:,.10g}")
    axes.grid(axis="y", visible=False)
    axes.set_xlabel("MW of counterflow", fontsize=8, labelpad=2)


def _bars(axes: Any, taken: Taken, verdict: Verdict, place: int) -> None:
    """Demand above; below it the supply: what is left, then what each seller named can withhold; the numbers under both."""
    sellers = [seller for seller in taken.page.sellers if seller.constraint == verdict.constraint]
    axes.barh(place - BAR / 2, verdict.demand / 1e8, BAR, color=DEMAND)
    axes.barh(place + BAR / 2, verdict.left / 1e8, BAR, color=LEFT, edgecolor="white")
    at = verdict.left
    for shade, seller in zip(SELLERS, sellers):
        axes.barh(place + BAR / 2, seller.withheld / 1e8, BAR, left=at / 1e8, color=shade, edgecolor="white")
        at += seller.withheld
    axes.plot([verdict.demand / 1e8] * 2, [place - BAR, place + BAR], color=DEMAND, linewidth=1)
    kept = places_apart(verdict.demand, verdict.left, 8)
    said = f"demand {near_mw(verdict.demand, kept)} · left {near_mw(verdict.left, kept)}"
    named = " · ".join(f"portfolio {seller.portfolio}: {near_mw(seller.withheld)}" for seller in sellers)
    words = f"{said}\n{named or 'no net seller can withhold anything'}"
    axes.annotate(words, (0, place + BAR), (4, -2), textcoords="offset points", va="top", fontsize=7)


def _handles() -> list[Any]:
    from matplotlib.patches import Patch

    labels = ("the largest seller can withhold", "the second", "the third")
    sellers = [Patch(label=label, color=shade) for label, shade in zip(labels, SELLERS)]
    return [Patch(label="demand", color=DEMAND), Patch(label="supply left without them", color=LEFT), *sellers]
