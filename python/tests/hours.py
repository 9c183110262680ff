"""Hours as a market might have them: many resources and constraints, and numbers that aren't round."""

from __future__ import annotations

import random
from collections.abc import Iterator


def real_text(resources: int, constraints: int, intervals: int, share: float = 0.3) -> str:
    """An hour whose quantities have hundredths of a MW, prices 0.0001 dollar and shift factors six places. Of all shift factors a share is there."""
    pick = random.Random(7)
    bids = [_bid(pick) for _ in range(resources)]
    lines = ["month", "25", "portfolio seller", *(f"{p} {int(p % 5 != 4)}" for p in range(16))]
    lines += ["resource portfolio start", *(f"{r} {pick.randrange(16)} {start}" for r, (start, _) in enumerate(bids))]
    lines += ["resource end price", *(f"{r} {end} {price}" for r, (_, steps) in enumerate(bids) for end, price in steps)]
    lines += ["resource mw heat", *(line for r, (start, steps) in enumerate(bids) for line in _points(r, start, steps[-1][0]))]
    lines += ["resource gas rate allowance om msc soc fee"]
    lines += [f"{r} {pick.randrange(25_001, 60_007)} 53073 251307 20003 1001 3007 53" for r in range(resources)]
    for _ in range(intervals):
        lines += _interval([steps[-1][0] for _, steps in bids], constraints, share, pick)
    return "\n".join(lines) + "\n"


def _bid(pick: random.Random) -> tuple[int, list[tuple[int, int]]]:
    """Where a bid starts, and the end and price of its steps."""
    start, price = pick.randrange(0, 9_999), pick.randrange(200_003, 400_009)
    steps, end = [], start
    for _ in range(pick.randrange(1, 6)):
        end += pick.randrange(701, 9_973)
        steps.append((end, price))
        price += pick.randrange(10_007, 300_043)
    return start, steps


def _points(r: int, start: int, last: int) -> Iterator[str]:
    for quantity, heat in ((start, 9_517), ((start + last) // 2, 9_013 + 5 * r), (last, 9_811)):
        yield f"{r} {quantity} {heat}"


def _interval(tops: list[int], constraints: int, share: float, pick: random.Random) -> list[str]:
    lines = ["constraint shadow", *(f"{c} {pick.choice((0, 1, 1, 1)) * pick.randrange(10_007, 600_011)}" for c in range(constraints))]
    lines += ["resource lmp dispatch available floor"]
    lines += [f"{r} {pick.randrange(300_007, 1_100_009)} {pick.choice((0, top // 2, top))} {top} {top // 7}" for r, top in enumerate(tops)]
    lines += ["resource constraint factor"]
    lines += [f"{r} {c} {pick.randrange(-600_011, -1)}" for r in range(len(tops)) for c in range(constraints) if pick.random() < share]
    return [*lines, "parameter", "97"]
