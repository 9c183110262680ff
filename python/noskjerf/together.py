"""Net sellers that leave every binding constraint of an interval short together."""

from __future__ import annotations

from dataclasses import dataclass

from .units import count


@dataclass(frozen=True)
class Together:
    """The fewest net sellers found whose full withholding leaves every binding constraint of an interval short.

    `best` has their portfolios, rising. It is None where not even all net sellers together leave every binding constraint short: then no
    set of them does, and `tried` and `floor` are 0. `tried` is how many sets were tried, of `sets` that there are without the empty one.
    `floor` is the largest count of sellers that one binding constraint alone needs: no set that works has fewer members.

    >>> print(Together(best=(0, 4, 7), tried=127, floor=2, sets=127))
    3 sellers: 0, 4, 7; no fewer can
    >>> print(Together(best=(0, 4, 7), tried=100, floor=2, sets=127))
    3 sellers: 0, 4, 7; at least 2, at most 3
    >>> print(Together(best=None, tried=0, floor=0, sets=127))
    none: not even all net sellers together can
    """

    best: tuple[int, ...] | None
    tried: int
    floor: int
    sets: int

    @property
    def is_fewest(self) -> bool:
        """Whether no set that works has fewer members than the best: it has as many as the floor, or all sets were tried."""
        return self.best is not None and (len(self.best) == self.floor or self.tried == self.sets)

    def __str__(self) -> str:
        if self.best is None:
            return "none: not even all net sellers together can"
        bounds = "no fewer can" if self.is_fewest else f"at least {self.floor}, at most {len(self.best)}"
        return f"{count(len(self.best), 'seller')}: {', '.join(map(str, self.best))}; {bounds}"
