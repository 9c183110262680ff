"""Pieces of a page: tables, folded parts, badges, and the tariff's paragraphs beside a figure."""

from __future__ import annotations

from collections.abc import Iterable, Sequence

from .figures import TARIFF, Figure


def section(anchor: str, title: str, *inside: str) -> str:
    """A section of a page, with its heading."""
    return f'<section id="{anchor}" aria-labelledby="{anchor}-title">\n<h2 id="{anchor}-title">{title}</h2>\n' + "\n".join(inside) + "\n</section>\n"


def interval_block(number: int, *inside: str) -> str:
    """What is shown of an interval."""
    return f'<div class="interval" data-interval="{number}">\n<h4>Interval {number}</h4>\n' + "\n".join(inside) + "\n</div>"


def badge(kind: str, text: str) -> str:
    """A word in a frame."""
    return f'<span class="badge {kind}">{text}</span>'


def folded(title: str, *inside: str, kind: str = "") -> str:
    """What is shown when its title is clicked."""
    named = f' class="{kind}"' if kind else ""
    return f"<details{named}>\n<summary>{title}</summary>\n" + "\n".join(inside) + "\n</details>"


def tariff(name: str) -> str:
    """The paragraphs on a figure, in small letters."""
    return f'<small class="tariff">{TARIFF[name]}</small>'


def table(caption: str, heads: Sequence[str], rows: Iterable[Sequence[str]], words: Sequence[int] = (), marks: Sequence[bool] = ()) -> str:
    """A table. `words` are columns of words, set to the left; `marks` says which rows are cut."""
    kinds = [' class="words"' if k in words else "" for k in range(len(heads))]
    head = "".join(f'<th scope="col"{kind}>{text}</th>' for kind, text in zip(kinds, heads))
    lines = []
    for i, row in enumerate(rows):
        cells = "".join(f"<td{kind}>{text}</td>" for kind, text in zip(kinds, row))
        lines.append(f'<tr class="cut">{cells}</tr>' if i < len(marks) and marks[i] else f"<tr>{cells}</tr>")
    body = "\n".join(lines)
    return f'<div class="scroll"><table>\n<caption>{caption}</caption>\n<thead><tr>{head}</tr></thead>\n<tbody>\n{body}\n</tbody>\n</table></div>'


def figure_table(caption: str, figures: Iterable[Figure]) -> str:
    """Figures, each with how it comes about, what it is exactly, and the paragraphs on it."""
    rows = [[f.name, f.how.replace(" x ", " × "), f.value, f'<small class="tariff">{f.tariff}</small>'] for f in figures]
    return table(caption, ("figure", "how it comes about", "exactly", "tariff"), rows, words=(0, 1, 3)).replace("<table>", '<table class="figures">')
