"""Pictures of curves: each resource's submitted, default and mitigated curves, with its floor price, dispatch and locational price."""

from __future__ import annotations

import math
from collections.abc import Iterator
from dataclasses import dataclass
from typing import Any

from ._sheet import Head, Room, sheet, words_alone
from .records import Curve
from .shown import Account, Stretch, answer, changes, floor_prices, is_cut, megawatts, near_dollars, resource_stretches
from .units import in_mw

SUBMITTED: dict[str, Any] = {"color": "#333333", "linestyle": (0, (4, 2)), "linewidth": 1.3}
DEFAULT: dict[str, Any] = {"color": "#0072b2", "linestyle": (0, (1, 1.2)), "linewidth": 1.8}
FLOOR: dict[str, Any] = {"color": "#7a2a8c", "linestyle": (0, (7, 2, 1.5, 2)), "linewidth": 1.1}
DISPATCH: dict[str, Any] = {"color": "#555555", "linestyle": "-", "linewidth": 0.8, "marker": "^", "markersize": 6}
LMP: dict[str, Any] = {"color": "#00694c", "linestyle": "none", "marker": "<", "markersize": 7}
CUT: dict[str, Any] = {"facecolor": "#d55e00", "alpha": 0.22, "linewidth": 0}
# the mitigated curve by interval; where several share a panel, later ones are thinner, so that equal curves stay apart
SHADES = ("#e69f00", "#d55e00", "#a3195b", "#4b0055")
WIDTHS = (6.5, 4.4, 2.6, 1.1)
ALONE = 2.4

# up to this many mitigated curves each has a panel of its own; above, a resource's intervals share one
MOST_ALONE = 24
# panels on a page: so many columns and rows at most
COLUMNS, ROWS = 4, 4
LARGE = Room(6.0, 3.6, 0.85, 0.62)
SMALL = Room(2.9, 2.0, 0.75, 0.62)
SHARED = Room(2.9, 2.0, 0.75, 0.72)


@dataclass(frozen=True)
class Panel:
    """A panel of curves: a resource, and the intervals, counted from 0, whose mitigated curves it shows."""

    resource: int
    intervals: tuple[int, ...]


def curve_figures(hour: Account, resources: list[int], title: str) -> Iterator[Any]:
    """The pages of these resources' curves."""
    words = answer(hour)
    if not resources:
        yield words_alone(Head(title, words, []))
        return
    panels, columns = _panels(hour, resources)
    head, most = Head(title, words, _handles(hour)), columns * ROWS
    for first in range(0, len(panels), most):
        yield _figure(hour, panels[first : first + most], columns, head)


def _panels(hour: Account, resources: list[int]) -> tuple[list[Panel], int]:
    """The panels in order, and in how many columns they stand."""
    intervals = tuple(range(len(hour.intervals)))
    if len(intervals) > 1 and len(resources) * len(intervals) <= MOST_ALONE:
        return [Panel(r, (i,)) for r in resources for i in intervals], len(intervals)
    most = 3 if len(resources) <= 9 else COLUMNS
    return [Panel(r, intervals) for r in resources], min(len(resources), most)


def _figure(hour: Account, panels: list[Panel], columns: int, head: Head) -> Any:
    room = LARGE if len(panels) == 1 else SMALL if len(panels[0].intervals) == 1 else SHARED
    figure, grid = sheet(head, room, math.ceil(len(panels) / columns), columns)
    for axes, panel in zip(grid, panels):
        _panel(axes, hour, panel)
    for axes in grid[len(panels) :]:
        axes.set_axis_off()
    return figure


def _panel(axes: Any, hour: Account, panel: Panel) -> None:
    rows = resource_stretches(hour, panel.resource)
    for i in panel.intervals:
        _mitigated(axes, hour, panel, i)
    _steps(axes, hour.defaults[panel.resource], **DEFAULT)
    _steps(axes, hour.resources[panel.resource].bid, **SUBMITTED)
    axes.margins(x=0.04, y=0.12)
    for i in panel.intervals:
        _marks(axes, hour, panel, i)
    notes = list(_notes(hour, rows, panel))
    axes.set_title(_title(panel, rows), fontsize=9, loc="left", pad=6 + 8.5 * len(notes))
    axes.annotate("\n".join(notes), (0, 1), (0, 3), "axes fraction", textcoords="offset points", fontsize=7, va="bottom")
    axes.set_xlabel("MW", fontsize=8, labelpad=2)
    axes.set_ylabel("$/MWh", fontsize=8)


def _mitigated(axes: Any, hour: Account, panel: Panel, i: int) -> None:
    """The curve after an interval, and what is cut off the bid. Intervals that share a panel shade lightly, one over the other."""
    shared = len(panel.intervals) > 1
    for row in resource_stretches(hour, panel.resource):
        if row.mitigated[i] < row.bid:
            quantities = [row.low / 100, row.high / 100]
            axes.fill_between(quantities, row.mitigated[i] / 10000, row.bid / 10000, **{**CUT, "alpha": 0.09 if shared else 0.22})
    _steps(axes, hour.curve(hour.intervals[i], panel.resource), color=SHADES[i], linewidth=WIDTHS[i] if shared else ALONE)


def _steps(axes: Any, curve: Curve, **style: Any) -> None:
    """A curve in MW and dollars, as steps."""
    edges = [quantity / 100 for quantity in (curve.start, *(step.end for step in curve.steps))]
    axes.stairs([step.price / 10000 for step in curve.steps], edges, baseline=None, **style)


def _marks(axes: Any, hour: Account, panel: Panel, i: int) -> None:
    """Marks an interval's dispatch, locational price and floor price where they are near the curves."""
    interval, floor = hour.intervals[i].interval, floor_prices(hour, panel.resource)[i]
    dispatch, lmp = interval.dispatch[panel.resource], interval.lmp[panel.resource]
    shade, pointer = ({"color": SHADES[i]}, {"linestyle": "none"}) if len(panel.intervals) > 1 else ({}, {})
    if _near(dispatch / 100, axes.set_xlim, axes.get_xlim()):
        axes.plot([dispatch / 100] * 2, [0, 1], transform=axes.get_xaxis_transform(), markevery=[0], clip_on=False, **{**DISPATCH, **shade, **pointer})
    if _near(lmp / 10000, axes.set_ylim, axes.get_ylim()):
        axes.plot([1], [lmp / 10000], transform=axes.get_yaxis_transform(), clip_on=False, **{**LMP, **shade})
    if floor is not None and _near(floor / 10000, axes.set_ylim, axes.get_ylim()):
        axes.axhline(floor / 10000, **{**FLOOR, **shade})


def _near(value: float, widen: Any, limits: tuple[float, float]) -> bool:
    """Whether a value is no further from what an axis shows than that is wide; then the axis is widened to show it."""
    low, high = limits
    if not 2 * low - high <= value <= 2 * high - low:
        return False
    room = 0.04 * (high - low)
    widen(min(low, value - room), max(high, value + room))
    return True


def _title(panel: Panel, rows: tuple[Stretch, ...]) -> str:
    cut = [i for i in panel.intervals if is_cut(rows, i)]
    if len(panel.intervals) == 1:
        said = f", interval {panel.intervals[0] + 1}: {_standing(rows, panel.intervals[0])}"
    elif cut:
        said = f": cut from interval {cut[0] + 1} on"
    else:
        said = ": as bid" if panel.intervals else ""
    return f"Resource {panel.resource}{said}"


def _standing(rows: tuple[Stretch, ...], interval: int) -> str:
    if not is_cut(rows, interval):
        return "as bid"
    return "cut" if changes(rows, interval) else "the cut carries on"


def _notes(hour: Account, rows: tuple[Stretch, ...], panel: Panel) -> Iterator[str]:
    """The lines below a panel's title: dispatch, locational price and floor price, by interval where several share the panel."""
    taken, floors = [hour.intervals[i].interval for i in panel.intervals], floor_prices(hour, panel.resource)
    dispatch, lmp = ([getattr(interval, name)[panel.resource] for interval in taken] for name in ("dispatch", "lmp"))
    if len(taken) == 1:
        i = panel.intervals[0]
        yield f"dispatch {in_mw(dispatch[0])}, locational price {near_dollars(lmp[0])}/MWh"
        nothing = "" if changes(rows, i) else "; the cap changes nothing"
        yield "no cap" if floors[i] is None else f"floor price {near_dollars(floors[i] or 0)}/MWh{nothing}"
    elif taken:
        yield f"dispatch {', '.join(map(megawatts, dispatch))} MW"
        yield f"locational price {', '.join(map(near_dollars, lmp))}"
        said = ", ".join("none" if floor is None else near_dollars(floor) for floor in floors)
        yield f"floor price {said}" if any(floor is not None for floor in floors) else "no cap"


def _handles(hour: Account) -> list[Any]:
    from matplotlib.lines import Line2D
    from matplotlib.patches import Patch

    bids = [Line2D([], [], label="submitted bid", **SUBMITTED), Line2D([], [], label="default energy bid", **DEFAULT)]
    count = len(hour.intervals)
    mitigated = [Line2D([], [], label=f"mitigated, interval {i + 1}", color=SHADES[i], linewidth=3) for i in range(count)]
    marks = [Line2D([], [], label=label, **style) for label, style in (("floor price", FLOOR), ("dispatch", DISPATCH), ("locational price", LMP))]
    return [*bids, *mitigated, *([Patch(label="cut off the bid", **CUT), *marks] if count else [])]
