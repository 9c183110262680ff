"""The engine's whole numbers shown in dollars and megawatts, exactly; `amounts` has the way in."""

from __future__ import annotations


def decimal(number: int, places: int, least: int = 0) -> str:
    """A number of units of 10 ** -places, with at least so many places.

    >>> decimal(-378402, 4, 2), decimal(10_000_000_000, 8), decimal(5, 4, 2)
    ('-37.8402', '100', '0.0005')
    """
    digits = f"{abs(number):0{places + 1}d}"
    whole, rest = (digits[:-places], digits[-places:]) if places else (digits, "")
    rest = rest.rstrip("0").ljust(least, "0")
    return f"{'-' if number < 0 else ''}{int(whole):,}{'.' if rest else ''}{rest}"


def in_mw(quantity: int) -> str:
    """A quantity, in hundredths of a MW.

    >>> in_mw(15050)
    '150.5 MW'
    """
    return f"{decimal(quantity, 2)} MW"


def fine_mw(quantity: int) -> str:
    """Demand, supply and what is withheld, in hundred-millionths of a MW.

    >>> fine_mw(15_000_000_000)
    '150 MW'
    """
    return f"{decimal(quantity, 8)} MW"


def in_dollars(price: int, per: str = "/MWh") -> str:
    """A price, in 0.0001 dollar.

    >>> in_dollars(378402), in_dollars(-5000)
    ('$37.8402/MWh', '-$0.50/MWh')
    """
    return f"{'-' if price < 0 else ''}${decimal(abs(price), 4, 2)}{per}"


def fine_dollars(price: int) -> str:
    """A component, in 0.0001 dollar per MWh by millionths.

    >>> fine_dollars(250_000_000_000)
    '$25.00/MWh'
    """
    return f"{'-' if price < 0 else ''}${decimal(abs(price), 10, 2)}/MWh"


def factor(millionths: int) -> str:
    """A shift factor.

    >>> factor(-500_000)
    '-0.5'
    """
    return decimal(millionths, 6)


def count(number: int, what: str) -> str:
    """A number of things.

    >>> count(1, "text"), count(2, "text")
    ('1 text', '2 texts')
    """
    return f"{number:,} {what}{'' if number == 1 else 's'}"
