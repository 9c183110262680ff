"""The examples of docs/REFUSALS.md: texts by how they differ from Case T."""

from __future__ import annotations

import re
from dataclasses import dataclass

from .cases import ROOT, T


@dataclass(frozen=True)
class Example:
    """A refused text, what it is refused with, and the lines of it that Case T doesn't have."""

    text: bytes
    number: int
    line: int
    added: tuple[int, ...]

    @property
    def name(self) -> str:
        return f"refusal {self.number}, lines {self.added}"


def examples() -> list[Example]:
    """All examples that are a diff and a refusal."""
    found = re.findall(r"^```diff\n(.*?)^```\n+```prints\n(.*?)^```", (ROOT / "docs" / "REFUSALS.md").read_text(), re.MULTILINE | re.DOTALL)
    return [_example(diff.splitlines(), printed.splitlines()) for diff, printed in found if "refusal line" in printed]


def _example(diff: list[str], printed: list[str]) -> Example:
    number, line = map(int, printed[-1].split())
    lines = differing(diff)
    added = tuple(i for i, (_, new) in enumerate(lines, 1) if new)
    return Example("".join(f"{each}\n" for each, _ in lines).encode(), number, line, added)


def differing(diff: list[str]) -> list[tuple[str, bool]]:
    """The lines of a text that differs from Case T, and whether each is new."""
    case, at = T.decode().splitlines(), 0
    lines: list[tuple[str, bool]] = []
    for mark, rest in ((line[:1], line[1:]) for line in diff):
        if mark == "+":
            lines.append((rest, True))
            continue
        while case[at] != rest:
            lines.append((case[at], False))
            at += 1
        at += 1
        if mark == " ":
            lines.append((rest, False))
    return [*lines, *((line, False) for line in case[at:])]


def with_value(text: bytes, line: int, place: int, value: str) -> bytes:
    """A text with a value of a line, by its place from 0 on, written otherwise."""
    lines = text.decode().splitlines()
    values = lines[line - 1].split(" ")
    lines[line - 1] = " ".join([*values[:place], value, *values[place + 1 :]])
    return "".join(f"{each}\n" for each in lines).encode()
