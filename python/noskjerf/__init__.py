"""Local market power mitigation, over the proved engine Noskjerf.

A text holds the tables that open a trading hour and those of its intervals (docs/FORMAT.md). `run` runs a text: each accepted interval
gives a `Page` with the verdict on every constraint, the sellers named and the bid curves after mitigation. What is wrong with a text is a
`Refusal`, a number and a line (docs/REFUSALS.md). `Hour` drives an hour in numbers; `bid` judges one bid, `default_curve` works out one
default energy bid, `join` joins the two parts of a contracted unit's, and `Book` takes the gas price from published prices.
`classroom_bids` are bids for drills.

`Tally` keeps how often a constraint was bound and non-competitive in its latest 60 trading days, and `designations` gives the default
verdicts of a season of texts.

>>> text = '''month
... 25
... portfolio seller
... 0 1
... resource portfolio start
... 0 0 10000
... resource end price
... 0 15000 300000
... 0 30000 900000
... resource mw heat
... 0 10000 10000
... 0 20000 9000
... 0 30000 9500
... resource gas rate allowance om msc soc fee
... 0 40000 0 0 20000 1000 3000 50
... constraint shadow
... 0 500000
... resource lmp dispatch available floor
... 0 600000 20000 30000 0
... resource constraint factor
... 0 0 -500000
... parameter
... 100
... '''
>>> page, = run(text).accepted()
>>> page.verdicts[0].finding.name
'NON_COMPETITIVE'
>>> [step.price for step in page.curves[0].steps]
[300000, 378402, 444403, 488402]

Quantities are hundredths of a MW and prices 0.0001 dollar per MWh; `mw(300)` and `dollars("64.29")` give such numbers. Any number of
threads may call at once; a thread needs a stack of 1 MiB, which is less than Python gives it by default.
"""

from ._library import LibraryError
from ._version import __version__
from .amounts import dollars, mw
from .designation import Day, Designation, Tally, designations
from .form import Slip
from .gas import Book, Entry, Market
from .hour import Hour
from .judgement import bid, classroom_bids, default_curve, join
from .parts import Parts, interval_of, opening_of, read, write
from .records import (
    Cause,
    Charges,
    Costs,
    Curve,
    Factor,
    Finding,
    Interval,
    Judged,
    Opening,
    Output,
    Page,
    PageCurve,
    Point,
    Resource,
    Seller,
    Step,
    Verdict,
)
from .refusal import Explanation, Refusal, explain
from .text import MAX_TEXT, run
from .together import Together

__all__ = [
    "MAX_TEXT",
    "Book",
    "Cause",
    "Charges",
    "Costs",
    "Curve",
    "Day",
    "Designation",
    "Entry",
    "Explanation",
    "Factor",
    "Finding",
    "Hour",
    "Interval",
    "Judged",
    "LibraryError",
    "Market",
    "Opening",
    "Output",
    "Page",
    "PageCurve",
    "Parts",
    "Point",
    "Refusal",
    "Resource",
    "Seller",
    "Slip",
    "Step",
    "Tally",
    "Together",
    "Verdict",
    "__version__",
    "bid",
    "classroom_bids",
    "default_curve",
    "designations",
    "dollars",
    "explain",
    "interval_of",
    "join",
    "mw",
    "opening_of",
    "read",
    "run",
    "write",
]
