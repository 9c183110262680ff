"""`python3 -m noskjerf` is the command `noskjerf`."""

from .command import entry

entry()
