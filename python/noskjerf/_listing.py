"""A refused text in a report: what is wrong, what to mend, and the text with the lines at fault marked."""

from __future__ import annotations

import re
from collections.abc import Iterator
from html import escape

from .diagnosis import Fault, diagnose
from .form import Slip
from .refusal import Refusal, explain

# Lines shown before and after each that is marked. A refused part is shown whole up to so many lines, and so many faults are told.
BEFORE, AFTER, WHOLE, TOLD = 12, 6, 120, 12

# what is hard to see, made visible
SEEN = {ord("\t"): "⇥", ord("\r"): "␍", 0: "␀", 0xFEFF: "␣"}


def explained(text: bytes, refusal: Refusal) -> str:
    """What the refusal says, the values at fault or what was due, what to mend, the text, and when the refusal is told, from docs/REFUSALS.md."""
    entry, slip = explain(refusal.number), refusal.slip
    faults = [fault for fault in diagnose(text).faults if refusal.number < 17]
    mend = escape(slip.mend) if slip is not None and slip.mend else marked_up(entry.mend)
    return f"""<p><strong>{escape(refusal.sentence[0].upper() + refusal.sentence[1:])}</strong> (refusal {refusal.number}). {_where(refusal, faults)}</p>
{_told(faults) if slip is None else _due(slip)}<p><strong>Mend</strong>: {mend}</p>
{_listing(text.split(bytes([10])), refusal, faults[:TOLD])}
<details>
<summary>When this is told</summary>
<p>{marked_up(entry.when)}</p>
{_table(entry.examples)}</details>"""


def _where(refusal: Refusal, faults: list[Fault]) -> str:
    if refusal.number == 17:
        column = "" if refusal.slip is None or refusal.slip.column is None else f", at column {refusal.slip.column}"
        return f"Line {refusal.line} is the first that isn't of the form{column}; it is marked below."
    if refusal.number == 18:
        return "The text is too long to be read at all."
    if faults:
        return f"The engine refuses the part that ends with line {refusal.line}; asked about each value by itself, it refuses:"
    return f"The part that ends with line {refusal.line} is tinted below."


def _told(faults: list[Fault]) -> str:
    rest = [f"and {len(faults) - TOLD} more"] if len(faults) > TOLD else []
    items = "".join(f"<li>{escape(said)}</li>\n" for said in [*map(str, faults[:TOLD]), *rest])
    return f"<ul>\n{items}</ul>\n" if items else ""


def _due(slip: Slip) -> str:
    """The line with a caret below its column, and what was due there."""
    due = " or ".join(f"<code>{escape(each)}</code>" for each in slip.due)
    return f"<pre>{escape(chr(10).join(slip.picture()))}</pre>\n" + (f"<p><strong>Due</strong>: {due}</p>\n" if due else "")


def marked_up(text: str) -> str:
    """A paragraph of Markdown as HTML: code, bold, and links by their words alone.

    >>> marked_up("see [FORMAT.md](FORMAT.md): `a < b`")
    'see FORMAT.md: <code>a &lt; b</code>'
    """
    said = re.sub(r"\[([^\]]*)\]\([^)]*\)", r"\1", text)
    said = re.sub(r"`([^`]*)`", r"<code>\1</code>", escape(said, quote=False))
    return re.sub(r"\*\*([^*]*)\*\*", r"<strong>\1</strong>", said)


def _table(examples: str) -> str:
    """The table that an entry's examples begin with, if they do."""
    if not examples.startswith("|"):
        return ""
    head, _, *rows = examples.split("\n\n")[0].split("\n")
    body = "".join(f"<tr>{_cells(row, 'td')}</tr>\n" for row in rows)
    return f'<div class="scroll"><table>\n<thead><tr>{_cells(head, "th")}</tr></thead>\n<tbody>\n{body}</tbody>\n</table></div>\n'


def _cells(row: str, kind: str) -> str:
    return "".join(f'<{kind} class="words">{marked_up(cell.strip())}</{kind}>' for cell in row.strip("|").split("|"))


def _listing(lines: list[bytes], refusal: Refusal, faults: list[Fault]) -> str:
    """The lines of a text, numbered; those far from any fault are left out."""
    end = refusal.line or 1
    if lines[-1] == b"" and end < len(lines):
        lines.pop()
    marks = {fault.line: fault.why for fault in faults if fault.line} or {end: _note(lines, refusal)}
    part = _part(lines, refusal)
    shown = sorted(set(_near(marks, len(lines))).union(part if len(part) <= WHOLE else ()))
    items = "\n".join(_items(lines, shown, marks, part))
    return f'<ol class="text" tabindex="0" aria-label="The text, with the lines at fault marked">\n{items}\n</ol>'


def _near(marks: dict[int, str], count: int) -> Iterator[int]:
    for line in marks:
        yield from range(max(1, line - BEFORE), min(count, line + AFTER) + 1)


def _part(lines: list[bytes], refusal: Refusal) -> range:
    """The lines of the refused part; none where the engine names the very line."""
    end = refusal.line or 1
    if refusal.number in (17, 18):
        return range(0)
    if refusal.part == "opening":
        return range(1, end + 1)
    return range(max(number for number in range(1, end + 1) if lines[number - 1] == b"constraint shadow"), end + 1)


def _note(lines: list[bytes], refusal: Refusal) -> str:
    if refusal.number == 18:
        return "the text is too long"
    if refusal.number == 17:
        return "not of the form" if refusal.slip is None or refusal.slip.cause is None else refusal.slip.cause
    return f"{refusal.part} is refused"


def _items(lines: list[bytes], shown: list[int], marks: dict[int, str], part: range) -> Iterator[str]:
    before = 0
    for number in [*shown, len(lines) + 1]:
        if number > before + 1:
            yield f'<li class="gap" value="{before + 1}">… lines {before + 1} to {number - 1} are left out</li>'
        if number <= len(lines):
            yield _item(number, escape(visible(lines[number - 1])), marks.get(number), number in part)
        before = number


def _item(number: int, words: str, note: str | None, refused: bool) -> str:
    if note is not None:
        return f'<li class="fault" value="{number}"><mark>{words or " "}</mark><span class="note">← {escape(note)}</span></li>'
    kind = ' class="part"' if refused else ""
    return f'<li{kind} value="{number}">{words}</li>'


def visible(line: bytes) -> str:
    """A line with tabs, returns, other control characters and a space at either end made visible.

    >>> visible(b"0 1 \\r"), visible(b" 0")
    ('0 1 ␍', '␠0')
    """
    said = line.decode("utf-8", "replace").translate(SEEN)
    said = "".join(each if each.isprintable() else "�" for each in said)
    return re.sub(r"^ | $", "␠", said)[:200]
