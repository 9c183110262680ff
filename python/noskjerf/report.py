"""An hour as one page for a class: verdicts, curves interval by interval and why a price was cut, or where a text is refused and what to mend.

The page is one file without any other: it opens from the file system and asks nothing of a network. Without JavaScript it shows all intervals.
"""

from __future__ import annotations

from collections.abc import Iterable, Sequence
from html import escape
from pathlib import Path, PurePath

from . import _listing, _svg
from ._html import badge, figure_table, folded, interval_block, section, table, tariff
from ._library import LibraryError
from ._version import __version__
from .figures import FINDINGS, closest, constraint_figures, effect_figures, mark_figure, step_figures, step_name, stretch, why_uncapped
from .files import free_for, named, text_of, write_whole
from .records import OUTPUTS, Costs, Finding, Interval, Opening, Seller, Verdict
from .refusal import Refusal
from .shown import (
    Account,
    Stretch,
    Taken,
    account,
    answer,
    changes,
    floor_prices,
    is_cut,
    listed,
    megawatts,
    money,
    near_mw,
    places_apart,
    reason,
    resource_stretches,
)
from .text import as_bytes, run
from .together import Together
from .units import count, decimal, factor, in_dollars, in_mw
from .workings import ConstraintWorking, Default, Effect, IntervalWorking, Workings, workings

# The browser itself is told to fetch nothing.
POLICY = "default-src 'none'; style-src 'unsafe-inline'; script-src 'unsafe-inline'"
HATCH = (
    '<svg class="patterns" width="0" height="0" aria-hidden="true"><defs><pattern id="hatch" width="7" height="7" patternUnits="userSpaceOnUse" '
    'patternTransform="rotate(45)"><path d="M0 0V7" stroke="#b34700" stroke-width="1.2"/></pattern></defs></svg>'
)
FOOT = (
    "Small numbers beside a figure are the paragraphs of the California ISO's tariff that it follows, and papers 01 and 02 the requirements that prevail over "
    "them. Demand, supply and what can be withheld are rounded in pictures and sentences; tables have every figure exactly."
)


def report(path: str, out: str, over: bool = True) -> Refusal | None:
    """Writes the page of a file's text, refused or not, and only with `over` over a file that is there; answers the refusal."""
    free_for(path, out, over)
    text = text_of(path)
    write_whole(out, page(text, named(path) if path == "-" else PurePath(path).name))
    return run(text).refusal


def page(text: str | bytes, name: str) -> str:
    """The page of a text that goes by this name."""
    hour = account(text)
    found = _worked(text) if hour.opening else None
    said = escape(name.encode("utf-8", "replace").decode())
    sections = (
        _refused(text, hour.refusal) if hour.refusal else "",
        _differences(found) if found else "",
        _glance(hour) if hour.opening else "",
        _constraints(hour, found) if hour.intervals else "",
        _resources(hour, found) if hour.opening else "",
        _tables(hour.opening, hour.intervals) if hour.opening else "",
        _printed(text),
    )
    return f"""<!DOCTYPE html>
<html lang="en">
<head>
<meta charset="utf-8">
<meta name="viewport" content="width=device-width, initial-scale=1">
<meta http-equiv="Content-Security-Policy" content="{POLICY}">
<title>{said}: local market power mitigation</title>
<style>
{_packaged("report.css")}</style>
</head>
<body>
<a class="skip" href="#main">Skip to the hour</a>
{HATCH}
<header>
<h1>{said}</h1>
<p class="answer">{escape(answer(hour))}</p>
<p>{_summary(hour)} Engine: noskjerf {__version__}.</p>
</header>
{_slider(hour)}<main id="main">
{"".join(sections)}</main>
<footer>
<p>{FOOT}</p>
</footer>
<script>
{_packaged("report.js")}</script>
</body>
</html>
"""


def _packaged(name: str) -> str:
    return Path(__file__).with_name(name).read_text("utf-8")


def _worked(text: str | bytes) -> Workings | None:
    """The figures in between, where the library has hours in numbers."""
    try:
        return workings(text)
    except LibraryError:
        return None


def _differences(found: Workings) -> str:
    """A warning, where a figure in between doesn't come to the engine's."""
    if not found.differences:
        return ""
    lines = "".join(f"<li>{escape(line)}</li>\n" for line in found.differences)
    return f'<section class="refusal">\n<p>These figures differ from the engine\'s:</p>\n<ul>\n{lines}</ul>\n</section>\n'


def _summary(hour: Account) -> str:
    if hour.opening is None:
        return "One trading hour. It is refused before it opens, so there is nothing to show but the text."
    counts = (
        count(len(hour.opening.resources), "resource"),
        count(len(hour.opening.sellers), "portfolio"),
        count(len(hour.intervals), "accepted interval"),
    )
    return f"One trading hour in month {hour.opening.month:,} of the rule: {counts[0]}, {counts[1]}, {counts[2]}."


def _slider(hour: Account) -> str:
    """The controls, as far as there is something to choose. They are shown where JavaScript runs."""
    last = len(hour.intervals)
    controls = []
    if last > 1:
        controls.append(f'<label>Interval <input type="range" id="interval" min="1" max="{last}" step="1" value="1"></label>')
        controls.append(f'<output id="told" for="interval">1 of {last}</output>')
        controls.append('<label><input type="checkbox" id="all"> all intervals</label>')
    if last and len(hour.resources) > 1:
        controls.append('<label><input type="checkbox" id="only"> only resources that are cut</label>')
    if last:
        controls.append('<label><input type="checkbox" id="unfold"> workings unfolded</label>')
    return '<div class="slider" role="group" aria-label="What is shown">\n' + "\n".join(controls) + "\n</div>\n" if controls else ""


# Refusals


def _refused(text: str | bytes, refusal: Refusal) -> str:
    return f"""<section class="refusal" aria-labelledby="refused-title">
<h2 id="refused-title">Refused: {escape(refusal.part)}, line {refusal.line}</h2>
{_listing.explained(as_bytes(text), refusal)}
</section>
"""


# The hour at a glance


def _glance(hour: Account) -> str:
    return section("glance", "The hour at a glance", *([_verdict_table(hour)] if hour.intervals else []), _resource_table(hour))


def _verdict_table(hour: Account) -> str:
    most = max(len(taken.page.verdicts) for taken in hour.intervals)
    heads = ["constraint", *(f"interval {taken.number}" for taken in hour.intervals)]
    rows = [[str(c), *(_verdict_cell(taken, c) for taken in hour.intervals)] for c in range(most)]
    return table(f"Verdicts {tariff('verdict')}", heads, rows, words=range(1, len(heads))) if rows else "<p>The intervals have no constraints.</p>"


def _verdict_cell(taken: Taken, constraint: int) -> str:
    if constraint >= len(taken.page.verdicts):
        return "none"
    finding = taken.page.verdicts[constraint].finding
    return badge(FINDINGS[finding].replace(" ", "-"), FINDINGS[finding])


def _resource_table(hour: Account) -> str:
    heads = ["resource", *(f"interval {taken.number}" for taken in hour.intervals), "portfolio", "bid, MW", "bid, $/MWh", "default, $/MWh"]
    rows = [_resource_row(hour, r) for r in range(len(hour.resources))]
    return table("Resources", heads, rows, words=range(1, len(hour.intervals) + 2))


def _resource_row(hour: Account, r: int) -> list[str]:
    bid, default, rows = hour.resources[r].bid, hour.defaults[r], resource_stretches(hour, r)
    return [
        f'<a href="#resource-{r}">{r}</a>',
        *(_standing(rows, i) for i in range(len(hour.intervals))),
        _portfolio(hour, r),
        f"{megawatts(bid.start)} to {megawatts(bid.steps[-1].end)}",
        _range([step.price for step in bid.steps]),
        _range([step.price for step in default.steps]),
    ]


def _portfolio(hour: Account, r: int) -> str:
    portfolio = hour.resources[r].portfolio
    seller = hour.opening is not None and hour.opening.sellers[portfolio] == 1
    return f"{portfolio}, net {'seller' if seller else 'buyer'}"


def _range(prices: Sequence[int]) -> str:
    return money(prices[0]) if prices[0] == prices[-1] else f"{money(prices[0])} to {money(prices[-1])}"


def _standing(rows: tuple[Stretch, ...], i: int) -> str:
    if not is_cut(rows, i):
        return badge("bid", "as bid")
    return badge("cut", "cut") if changes(rows, i) else badge("carries", "cut carries on")


# Constraints


def _constraints(hour: Account, found: Workings | None) -> str:
    words = (
        f"<p>Demand is the counterflow that the dispatch takes: effectiveness times dispatch, summed up {tariff('demand')}. Supply is effectiveness times "
        f"what is available {tariff('supply')}. The net sellers named, three at most, are those that can withhold most {tariff('withheld')}. A constraint "
        f"that binds {tariff('binds')} is non-competitive where the supply left without them is below the demand {tariff('verdict')}, which the upright "
        "line marks.</p>"
    )
    blocks = [interval_block(taken.number, *_verdict_cards(taken, _interval_of(found, taken))) for taken in hour.intervals]
    return section("constraints", "Constraints", words, *blocks)


def _interval_of(found: Workings | None, taken: Taken) -> IntervalWorking | None:
    return found.intervals[taken.number - 1] if found else None


def _verdict_cards(taken: Taken, working: IntervalWorking | None) -> list[str]:
    loose = [str(v.constraint) for v in taken.page.verdicts if v.finding is Finding.NOT_BINDING]
    binding = [v for v in taken.page.verdicts if v.finding is not Finding.NOT_BINDING]
    cards = [_verdict_card(taken, verdict, working.constraints[verdict.constraint] if working else None) for verdict in binding]
    said = [f"<p>Not binding, with a shadow price of $0.00/MWh: constraint{'s' if loose[1:] else ''} {listed(loose)}.</p>"] if loose else []
    none = ["<p>The interval has no constraints.</p>"] if not taken.page.verdicts else []
    together = [_together(working.together)] if working and working.together else []
    return [*([f'<div class="cards">{"".join(cards)}</div>'] if cards else []), *together, *said, *none]


def _together(found: Together) -> str:
    """Who leaves every constraint that binds short, in words."""
    return f'<p>Every binding constraint short together: {escape(str(found))} <small class="tariff">paper 02, 2.11</small></p>'


def _verdict_card(taken: Taken, verdict: Verdict, working: ConstraintWorking | None) -> str:
    sellers = [seller for seller in taken.page.sellers if seller.constraint == verdict.constraint]
    finding = FINDINGS[verdict.finding]
    shadow = in_dollars(taken.interval.shadow[verdict.constraint])
    label = f"Interval {taken.number}, constraint {verdict.constraint}: demand and supply as bars"
    return f"""<div class="card">
<h4>Constraint {verdict.constraint} {badge(finding, finding)} <small>shadow price {shadow}</small></h4>
{_svg.verdict_chart(verdict, sellers, label)}
{_verdict_key(verdict, sellers)}
<p>{_verdict_words(verdict, sellers)}</p>
{_shares(working) if working else ""}
</div>
"""


def _shares(working: ConstraintWorking) -> str:
    """Each resource's share of demand and supply, and the figures that they come to, folded away."""
    names = (("effectiveness", ""), ("demand", ", MW"), ("supply", ", MW"), ("can withhold", ", MW"))
    heads = ("resource", "portfolio", *(f"{name}{unit} {tariff(name)}" for name, unit in names))
    rows = [
        [str(s.resource), str(s.portfolio), factor(s.effectiveness), *(decimal(amount, 8) for amount in (s.demand, s.supply, s.withholdable))]
        for s in working.shares
    ]
    shares = table("Shares", heads, rows) if rows else "<p>No resource has a negative shift factor on it.</p>"
    return folded("Exact figures, and each resource's share", shares, figure_table("Verdict", constraint_figures(working)), kind="working")


def _verdict_key(verdict: Verdict, sellers: Sequence[Seller]) -> str:
    entries = [("demand", f"demand {near_mw(verdict.demand)}"), ("left", f"supply left {near_mw(verdict.left)}")]
    entries += [(f"seller{k}", f"portfolio {s.portfolio} can withhold {near_mw(s.withheld)}") for k, s in enumerate(sellers)]
    items = "".join(f"<li>{_swatch(kind)}{text}</li>" for kind, text in entries)
    return f'<ul class="key">{items}</ul>'


def _swatch(kind: str) -> str:
    return f'<svg viewBox="0 0 32 14" aria-hidden="true"><rect class="{kind}" width="32" height="14"/></svg>'


def _verdict_words(verdict: Verdict, sellers: Sequence[Seller]) -> str:
    kept = places_apart(verdict.left, verdict.demand, 8)
    left, demand = near_mw(verdict.left, kept), near_mw(verdict.demand, kept)
    without = f"without {listed([f'portfolio {seller.portfolio}' for seller in sellers])}" if sellers else "as no net seller can withhold anything"
    if verdict.finding is Finding.NON_COMPETITIVE:
        return f"{left} are left {without}, below the {demand} demanded: non-competitive."
    return f"{left} are left {without}, enough for the {demand} demanded: competitive."


# Resources


def _resources(hour: Account, found: Workings | None) -> str:
    rows = [resource_stretches(hour, r) for r in range(len(hour.resources))]
    cut = [any(is_cut(each, i) for i in range(len(hour.intervals))) for each in rows]
    links = "".join(f'<li><a href="#resource-{r}"{CUT_LINK if mark else ""}>{r}</a></li>' for r, mark in enumerate(cut))
    marked = "Resources whose bid is cut in some interval are marked." if any(cut) else "No bid is cut."
    words = f"<p>{marked if hour.intervals else 'No interval is accepted.'}</p>"
    index = [words, f'<nav aria-label="Resources"><ul class="index">{links}</ul></nav>'] if len(rows) > 1 else []
    articles = [_resource(hour, r, rows[r], found) for r in range(len(rows))]
    return section("resources", "Resources", _curve_key(), *index, *articles)


def _curve_key() -> str:
    lines = (("line bid", "submitted bid"), ("line default", "default energy bid"), ("line mitigated", "bid after the interval"), ("floor", "floor price"))
    items = [f'<li><svg viewBox="0 0 32 14" aria-hidden="true"><path class="{kind}" d="M0 7H32"/></svg>{text}</li>' for kind, text in lines]
    cut = '<svg viewBox="0 0 32 14" aria-hidden="true"><path class="cut" d="M0 0H32V14H0Z"/><path class="hatched" d="M0 0H32V14H0Z"/></svg>'
    return f'<ul class="key">{"".join(items)}<li>{cut}cut off the bid</li></ul>'


def _resource(hour: Account, r: int, rows: tuple[Stretch, ...], found: Workings | None) -> str:
    blocks = "\n".join(_resource_interval(hour, taken, r, rows, _interval_of(found, taken)) for taken in hour.intervals)
    cut = " ".join(str(i + 1) for i in range(len(hour.intervals)) if is_cut(rows, i))
    default = found.resources[r].default if found else None
    return f"""<article class="resource" id="resource-{r}" data-cut="{cut}">
<h3>Resource {r} <small>portfolio {_portfolio(hour, r)}</small></h3>
{blocks or _unjudged(hour, r)}
{_default_prices(default) if default else ""}
</article>
"""


def _default_prices(default: Default) -> str:
    """How each default price comes about, folded away."""
    mark = mark_figure(default)
    words = f"<p>{mark.name}: {mark.how} = {mark.value} {tariff(mark.name)}</p>"
    steps = [figure_table(f"S{step_name(number, s, default)[1:]}", step_figures(s, default)) for number, s in enumerate(default.segments, 1)]
    return folded("How its default prices come about", words, *steps, kind="working")


def _unjudged(hour: Account, r: int) -> str:
    """A resource of an hour without intervals: its bid and its default energy bid."""
    bid, default = hour.resources[r].bid, hour.defaults[r]
    rows = [[megawatts(row.low), megawatts(row.high), money(row.bid), money(row.default)] for row in resource_stretches(hour, r)]
    chart = _svg.curve_chart(_svg.Curves(bid, default), [], f"Resource {r}: bid and default energy bid")
    return f'<div class="side">{chart}{table("Prices", PRICE_HEADS[:4], rows)}</div>'


CUT_LINK = ' class="cut" title="its bid is cut"'
PRICE_HEADS = (
    *("from MW", "to MW", "bid, $/MWh", f"default, $/MWh {tariff('default price')}"),
    *(f"cap, $/MWh {tariff('cap')}", f"after it, $/MWh {tariff('carries on')}", "which is"),
)


def _resource_interval(hour: Account, taken: Taken, r: int, rows: tuple[Stretch, ...], working: IntervalWorking | None) -> str:
    i, effect = taken.number - 1, working.resources[r] if working else None
    label = f"Resource {r} after interval {taken.number}: {'its bid is cut' if is_cut(rows, i) else 'as bid'}. The prices stand in the table."
    curves = _svg.Curves(hour.resources[r].bid, hour.defaults[r], hour.curve(taken, r), floor_prices(hour, r)[i])
    chart = _svg.curve_chart(curves, [(row, row.mitigated[i]) for row in rows if row.mitigated[i] < row.bid], label)
    words = _why(taken.interval, effect, is_cut(rows, i)) if effect else UNASKED
    return interval_block(taken.number, f'<div class="side"><div>{chart}</div><div>{words}{_prices(hour, r, rows, i, effect)}</div></div>')


UNASKED = "<p>This library was built without hours in numbers, so the engine's cause isn't shown.</p>"


def _prices(hour: Account, r: int, rows: tuple[Stretch, ...], i: int, effect: Effect | None) -> str:
    floors = floor_prices(hour, r)
    cells = [
        [*map(megawatts, (row.low, row.high)), *map(money, (row.bid, row.default)), _cap(row, effect), money(row.mitigated[i]), reason(row, i, floors)]
        for row in rows
    ]
    return table("Prices", PRICE_HEADS, cells, words=(6,), marks=[row.mitigated[i] < row.bid for row in rows])


def _cap(row: Stretch, effect: Effect | None) -> str:
    """The cap of a stretch, where one applies."""
    caps = [piece.cap for piece in effect.pieces if piece.start <= row.low < piece.end] if effect else []
    return money(caps[0]) if caps and caps[0] is not None else "none"


def _why(interval: Interval, effect: Effect, below: bool) -> str:
    """Which of three it is: no cap, a cap that changes nothing, a cut. `below` says that the resource's curve is below its bid."""
    table_of = figure_table(f"Locational price {in_dollars(effect.lmp)}, dispatch {in_mw(effect.dispatch)}", effect_figures(effect, interval.parameter or 0))
    carries = f" What an earlier interval cut stays cut {tariff('carries on')}." if below and not effect.cut else ""
    return f"<p>{_outcome(effect)}{carries}</p>{table_of}"


def _outcome(effect: Effect) -> str:
    if not effect.capped:
        return f"<strong>No cap applies</strong>: {why_uncapped(effect)} {tariff('cap applies')}."
    piece = closest(effect)
    where, prices = f"from {stretch(piece.start, piece.end)}", f"{in_dollars(piece.before)} and its cap {in_dollars(piece.cap or 0)}"
    because = f"it is dispatched, and the non-competitive constraints raise its price {tariff('cap applies')}"
    if effect.cut:
        return f"<strong>The interval cuts it</strong>: {because}. A price above its cap becomes the cap: {where} the price was {prices}."
    return f"<strong>A cap applies and changes nothing</strong>: {because}, but no price is above its cap. Closest to it, {where}, the price is {prices}."


# The text's own tables


def _tables(opening: Opening, intervals: tuple[Taken, ...]) -> str:
    inside = [folded("Bids and costs", *_opening_tables(opening))]
    inside += [folded(f"Interval {taken.number}", *_interval_tables(taken.interval)) for taken in intervals]
    return section("tables", "The hour as it was handed in", *inside)


def _opening_tables(opening: Opening) -> list[str]:
    each = list(enumerate(opening.resources))
    costs = [(r, resource.default) for r, resource in each if isinstance(resource.default, Costs)]
    charges = ("gas, $/MMBtu", "rate, t/MMBtu", "allowance, $/t", "om, $/MWh", "msc, $/MWh", "soc, $/MWh", "fee, $/segment")
    return [
        table("Portfolios", ("portfolio", "is"), [[str(p), "net seller" if s else "net buyer"] for p, s in enumerate(opening.sellers)], words=(1,)),
        table("Bids start", ("resource", "portfolio", "start, MW"), [[str(r), str(x.portfolio), megawatts(x.bid.start)] for r, x in each]),
        table("Bid steps", ("resource", "end, MW", "price, $/MWh"), [[str(r), megawatts(s.end), money(s.price)] for r, x in each for s in x.bid.steps]),
        table("Cost points", ("resource", "MW", "heat, Btu/kWh"), [[str(r), megawatts(p.mw), f"{p.heat:,}"] for r, c in costs for p in c.points]),
        table("Other costs", ("resource", *charges), [[str(r), *_charges(c)] for r, c in costs]),
    ]


def _charges(costs: Costs) -> list[str]:
    gas, rate, *rest = costs.charges.in_order()
    return [money(gas), decimal(rate, 6), *map(money, rest)]


def _interval_tables(interval: Interval) -> list[str]:
    heads = ("resource", "locational price, $/MWh", "dispatch, MW", "available, MW", "floor, MW")
    rows = zip(*(getattr(interval, name) for name in OUTPUTS))
    factors = [[str(f.resource), str(f.constraint), factor(f.factor)] for f in interval.factors]
    return [
        table("Constraints", ("constraint", "shadow price, $/MWh"), [[str(c), money(s)] for c, s in enumerate(interval.shadow)]),
        table("Resources", heads, [[str(r), money(lmp), *map(megawatts, rest)] for r, (lmp, *rest) in enumerate(rows)]),
        table("Shift factors", ("resource", "constraint", "factor"), factors),
        f"<p>Parameter: {'missing, which means $0.00' if interval.parameter is None else money(interval.parameter)}.</p>",
    ]


def _printed(text: str | bytes) -> str:
    said = run(text).printed.decode("ascii")
    return section("printed", "What the engine prints", folded("To the byte", f"<pre>{escape(said)}</pre>"))
