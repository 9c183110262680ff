"""The workings of an hour as plain text, in dollars and MW."""

from __future__ import annotations

import re
from collections.abc import Iterator

from .figures import FINDINGS, Figure, constraint_figures, effect_figures, mark_figure, outcome, step_figures, step_name, stretch, why_uncapped
from .records import Finding
from .units import count, factor, fine_mw, in_dollars, in_mw
from .workings import Check, ConstraintWorking, Default, Effect, IntervalWorking, Piece, ResourceWorking, Workings


def workings_text(name: str, found: Workings) -> str:
    """The whole, with a line for each figure."""
    return re.sub(r"\n{3,}", "\n\n", "".join(f"{line}\n" for line in _lines(name, found)))


def _lines(name: str, found: Workings) -> Iterator[str]:
    refusal = found.diagnosis.refusal
    taken = f"{count(len(found.intervals), 'interval')} accepted"
    yield f"{name}: {taken if refusal is None else f'refused by {refusal.number}; {taken}'}"
    yield from _section("Checks, in the order in which they are made", _checks(found))
    if found.resources:
        yield from _section("Default energy bids", (line for each in found.resources for line in _resource(each)))
    for interval in found.intervals:
        yield from _section(f"Interval {interval.interval}", _interval(interval))
    yield from _section("Against the engine", _differences(found))


def _section(title: str, lines: Iterator[str]) -> Iterator[str]:
    yield ""
    yield title
    yield "=" * len(title)
    yield from lines


def _checks(found: Workings) -> Iterator[str]:
    width = max(len(check.what) + len(check.numbers) for check in found.checks) + 3
    for check in found.checks:
        yield f"{f'{check.what} ({check.numbers})':<{width}}  {_outcome(check)}"
    refusal = found.diagnosis.refusal
    if refusal is not None:
        yield ""
        yield f"Refused: {refusal.headline}"
        yield from (f"  {line}" for line in found.diagnosis.details())
        yield f"`noskjerf explain {refusal.number}` says what to mend."


def _outcome(check: Check) -> str:
    if check.refusal is None:
        return "not reached"
    return f"refused by {check.refusal}" if check.refusal else "passed"


# ---- default energy bids
def _resource(each: ResourceWorking) -> Iterator[str]:
    kind = {0: ", net buyer", 1: ", net seller"}.get(-1 if each.seller is None else each.seller, "")
    yield f"Resource {each.resource} (portfolio {each.portfolio}{kind})"
    edge = each.bid.start
    for step in each.bid.steps:
        yield f"  bid: {stretch(edge, step.end)} at {in_dollars(step.price)}"
        edge = step.end
    if each.default is None:
        yield "  no default energy bid: its costs are refused"
    else:
        yield from _default(each.default)
    yield ""


def _default(default: Default) -> Iterator[str]:
    mark = mark_figure(default)
    yield f"  {mark.name}: {mark.how} = {mark.value}"
    for number, segment in enumerate(default.segments, 1):
        yield f"  {step_name(number, segment, default)}"
        yield from map(_line, step_figures(segment, default))


def _line(figure: Figure) -> str:
    return f"    {figure.name:<18} {figure.how:<72} = {figure.value}"


# ---- intervals
def _interval(interval: IntervalWorking) -> Iterator[str]:
    missing = " (missing, and so 0)" if interval.parameter is None else ""
    yield f"parameter: {in_dollars(interval.parameter or 0)}{missing}"
    yield ""
    for constraint in interval.constraints:
        yield from _constraint(constraint)
    if interval.together is not None:
        yield f"Every binding constraint short together: {interval.together}"
        yield ""
    for effect in interval.resources:
        yield from _effect(effect, interval.parameter or 0)


def _constraint(c: ConstraintWorking) -> Iterator[str]:
    yield f"Constraint {c.constraint}: {FINDINGS[c.finding]} (shadow price {in_dollars(c.shadow)})"
    if c.finding is not Finding.NOT_BINDING:
        for s in c.shares:
            of = f"resource {s.resource}, portfolio {s.portfolio}"
            yield f"    {of}: effectiveness {factor(s.effectiveness)}, demand {fine_mw(s.demand)}, supply {fine_mw(s.supply)}, can withhold {fine_mw(s.withholdable)}"
        yield from map(_line, constraint_figures(c))
        yield f"    left is {'below demand: non-competitive' if c.finding is Finding.NON_COMPETITIVE else 'not below demand: competitive'}"
    yield ""


def _effect(e: Effect, parameter: int) -> Iterator[str]:
    yield f"Resource {e.resource}: {outcome(e)} (lmp {in_dollars(e.lmp)}, dispatch {in_mw(e.dispatch)})"
    yield from map(_line, effect_figures(e, parameter))
    if not e.capped:
        yield f"    no cap: {why_uncapped(e)}"
    yield from (_piece(piece) for piece in e.pieces)
    yield ""


def _piece(p: Piece) -> str:
    if p.cap is None:
        return f"    {stretch(p.start, p.end)}: stays at {in_dollars(p.after)} (default price {in_dollars(p.default)})"
    became = "stays" if p.after == p.before else "cut"
    return f"    {stretch(p.start, p.end)}: {in_dollars(p.before)}, default price {in_dollars(p.default)}, cap {in_dollars(p.cap)}: {became}, {in_dollars(p.after)}"


# ---- the comparison
def _differences(found: Workings) -> Iterator[str]:
    if found.differences:
        yield "These figures differ from the engine's:"
        yield from (f"  {line}" for line in found.differences)
    else:
        yield "Default prices, verdicts, sellers together, components, competitive and floor prices and curves are the engine's answers; the"
        yield "figures in between are worked out from the text's own numbers, and come to the same."
