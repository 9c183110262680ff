"""The examples of hours in numbers run where the library has them."""

from noskjerf._library import has_hours

collect_ignore = [] if has_hours() else ["noskjerf/hour.py"]
