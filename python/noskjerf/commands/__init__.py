"""The subcommands of `noskjerf`, a module each: `add(subparsers)` makes its parser, and `main(args)` does it and answers the status."""

NAMES = ("run", "explain", "diagnose", "draw", "report", "designations", "new", "tables", "text")
