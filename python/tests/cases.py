"""The texts of the project, each NAME.txt with what it prints in NAME.out."""

from __future__ import annotations

from dataclasses import dataclass
from pathlib import Path

from noskjerf import Charges, Output, Page

ROOT = Path(__file__).resolve().parents[2]
DATA = ROOT / "crates" / "text_cases" / "data"


@dataclass(frozen=True)
class Case:
    name: str
    text: bytes
    printed: bytes

    @property
    def refusal(self) -> tuple[int, int] | None:
        """The number and line of the refusal that is printed."""
        lines = self.printed.decode().splitlines()
        if "refusal line" not in lines:
            return None
        number, line = map(int, lines[-1].split())
        return number, line


def name_of(case: Case) -> str:
    return case.name


CASES = [Case(path.stem, path.read_bytes(), path.with_suffix(".out").read_bytes()) for path in sorted(DATA.glob("*.txt"))]
NAMED = {case.name: case for case in CASES}

# Case T of paper 01
T = NAMED["T"].text
POINTS_OF_T = [(10000, 10000), (20000, 9000), (30000, 9500)]
CHARGES_OF_T = Charges(gas=40000, om=20000, msc=1000, soc=3000, fee=50)


def page_text(page: Page) -> str:
    """A page, printed again."""
    i = page.interval
    lines = ["interval constraint verdict demand left"]
    lines += [f"{i} {v.constraint} {int(v.finding)} {v.demand} {v.left}" for v in page.verdicts]
    lines += ["interval constraint portfolio withheld"]
    lines += [f"{i} {s.constraint} {s.portfolio} {s.withheld}" for s in page.sellers]
    lines += ["interval resource end price"]
    lines += [f"{i} {c.resource} {s.end} {s.price}" for c in page.curves for s in c.steps]
    return "".join(f"{line}\n" for line in lines)


def printed_again(output: Output) -> bytes:
    """Pages and refusal, printed again."""
    text = "".join(map(page_text, output.pages))
    if output.refusal is not None:
        text += f"refusal line\n{output.refusal.number} {output.refusal.line}\n"
    return text.encode()
