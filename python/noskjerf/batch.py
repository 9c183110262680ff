"""Many texts in one run: the list of them, where each result goes, and the manifest that tells what became of each."""

from __future__ import annotations

import codecs
import contextlib
import fcntl
import json
import os
from collections.abc import Iterable, Iterator
from dataclasses import asdict, dataclass
from pathlib import PurePath

from ._version import __version__
from .files import Trouble, bytes_of, named, reason, shown

MANIFEST = "manifest.jsonl"
STDIN = "stdin"


def files_of(path: str) -> list[str]:
    """The files that a list names: a line each, or parted by zero bytes where it has any, as `find -print0` writes them."""
    names = bytes_of(path, "a list of files")
    if b"\0" in names:
        return [os.fsdecode(name) for name in names.split(b"\0") if name]
    lines = (line.rstrip(b"\r") for line in names.removeprefix(codecs.BOM_UTF8).split(b"\n"))
    return [os.fsdecode(line) for line in lines if line]


def each_once(files: Iterable[str]) -> list[str]:
    """The files without those that come again, also under another spelling of the same name."""
    first: dict[tuple[str, str], str] = {}
    for path in files:
        first.setdefault((relative(path), "" if path == "-" else os.path.realpath(path)), path)
    return list(first.values())


def relative(path: str) -> str:
    """How a text is called in the folder of the results: by its path below the current folder, else by its whole path without the root.
    It never leads out of that folder.

    >>> relative("d1/h01.txt"), relative("./d1//h01.txt"), relative("/data/h01.txt"), relative("-")
    ('d1/h01.txt', 'd1/h01.txt', 'data/h01.txt', 'stdin')
    """
    if path == "-":
        return STDIN
    folder, name = os.path.split(path)
    if ".." in PurePath(path).parts:
        # past a link, .. leads where the link leads
        folder = os.path.realpath(folder)
    whole, here = os.path.abspath(os.path.join(folder, name)), os.getcwd()
    below = os.path.relpath(whole, here)
    return whole.lstrip(os.sep) if below.split(os.sep)[0] == os.pardir else below


def result_of(path: str, ending: str) -> str:
    """The result of a text, below the folder of the results.

    >>> result_of("d1/h01.txt", ".out")
    'd1/h01.out'
    """
    return os.path.splitext(relative(path))[0] + ending


@dataclass(frozen=True)
class Entry:
    """A line of the manifest: a text, the SHA-256 sum of its file, and what became of it: accepted, refused or trouble."""

    file: str
    sha256: str | None
    status: str
    format: str
    result: str | None = None
    refusal: int | None = None
    line: int | None = None
    trouble: str | None = None
    version: str = __version__

    def as_json(self) -> bytes:
        return json.dumps({name: value for name, value in asdict(self).items() if value is not None}).encode() + b"\n"


class Manifest:
    """The manifest of a folder of results, a line of JSON for each text. Batches add to it; of two lines about a result the later holds."""

    def __init__(self, folder: str) -> None:
        self.path = os.path.join(folder, MANIFEST)

    def done(self) -> dict[str, Entry]:
        """What became of each result that this version wrote."""
        return {entry.result: entry for entry in self._entries() if entry.result and entry.version == __version__ and entry.sha256}

    def _entries(self) -> Iterator[Entry]:
        """The lines that can be read. One that a crash left unfinished counts as none: its text is run once more."""
        if not os.path.exists(self.path):
            return
        for line in bytes_of(self.path, "a manifest").split(b"\n"):
            try:
                yield Entry(**json.loads(line))
            except (ValueError, TypeError):
                continue

    def add(self, entries: Iterable[Entry]) -> None:
        """Puts lines at the end, all of them or none; batches that run at once wait for each other."""
        lines = b"".join(entry.as_json() for entry in entries)
        try:
            with open(self.path, "a+b", buffering=0) as file:
                fcntl.flock(file, fcntl.LOCK_EX)
                _append(file.fileno(), lines)
        except OSError as error:
            raise Trouble(f"{shown(self.path)}: {reason(error)}") from error


def _append(descriptor: int, lines: bytes) -> None:
    size = os.lseek(descriptor, 0, os.SEEK_END)
    if size and os.pread(descriptor, 1, size - 1) != b"\n":
        lines = b"\n" + lines
    try:
        while lines:
            lines = lines[os.write(descriptor, lines) :]
    except OSError:
        with contextlib.suppress(OSError):
            os.ftruncate(descriptor, size)
        raise


def apart(files: Iterable[str], ending: str) -> None:
    """Refuses texts whose results would have one name."""
    taken: dict[str, str] = {}
    for path in files:
        result = result_of(path, ending)
        if result in taken:
            raise Trouble(f"{named(taken[result])} and {named(path)} would both be written to {shown(result)}")
        taken[result] = path


def spared(files: Iterable[str], results: Iterable[str]) -> None:
    """Refuses a result that would be written over a text."""
    texts = {os.path.realpath(path) for path in files if path != "-"}
    for result in results:
        if os.path.realpath(result) in texts:
            raise Trouble(f"{shown(result)} is a text, and a result would be written over it")
