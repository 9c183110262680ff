"""Files as the command reads and writes them: `-` is standard input or output, and a file is written whole or not at all."""

from __future__ import annotations

import contextlib
import hashlib
import os
import re
import secrets
import shutil
import stat
import sys
from collections.abc import Iterable, Iterator, Mapping
from pathlib import Path
from typing import IO

from .text import MAX_TEXT

UNFINISHED = re.compile(r"\.(.*)\.[0-9a-f]{8}\.tmp")


class Trouble(Exception):
    """Something other than a refusal went wrong; its text is one line for standard error. The command then ends with status 2."""


def reason(error: BaseException) -> str:
    """What an error says, on one line and without its number."""
    told = getattr(error, "strerror", None) or str(error) or type(error).__name__
    return " ".join(str(told).split())


def named(path: str) -> str:
    """How a file is called in a line for a person."""
    return "standard input" if path == "-" else shown(path)


def shown(text: str) -> str:
    """A name that may hold line breaks or bytes that are no UTF-8, on one line."""
    return text if text.isprintable() else ascii(text)[1:-1]


def text_of(path: str) -> bytes:
    """The bytes of a text. Of one that is too long, enough are read for the engine to refuse it (18)."""
    with _reading(path, "a text") as file:
        return file.read(MAX_TEXT + 1)


def text_and_sum(path: str) -> tuple[bytes, str | None]:
    """The bytes of a text, and the SHA-256 sum of its whole file; what is too long and no plain file has none."""
    with _reading(path, "a text") as file:
        text = file.read(MAX_TEXT + 1)
        summed = hashlib.sha256(text)
        if len(text) <= MAX_TEXT:
            return text, summed.hexdigest()
        if not stat.S_ISREG(os.fstat(file.fileno()).st_mode):
            return text, None
        for rest in iter(lambda: file.read(1 << 20), b""):
            summed.update(rest)
        return text, summed.hexdigest()


def bytes_of(path: str, what: str) -> bytes:
    """All bytes of a file, or of standard input."""
    with _reading(path, what) as file:
        return file.read()


@contextlib.contextmanager
def _reading(path: str, what: str) -> Iterator[IO[bytes]]:
    try:
        if path == "-":
            yield _standard_input(what)
            return
        with open(path, "rb") as file:
            yield file
    except (OSError, ValueError) as error:
        raise Trouble(f"{named(path)}: {reason(error)}") from error


def _standard_input(what: str) -> IO[bytes]:
    if sys.stdin is None:
        raise Trouble("standard input: it is closed")
    if sys.stdin.isatty():
        say(f"{what} is read from the terminal; Ctrl-D ends it")
    return sys.stdin.buffer


def show(text: str | bytes) -> None:
    """Writes to standard output, at once."""
    if sys.stdout is None:
        raise Trouble("standard output: it is closed")
    data = text.encode() if isinstance(text, str) else text
    try:
        sys.stdout.flush()
        _write_all(sys.stdout.fileno(), data)
    except OSError as error:
        raise Trouble(f"standard output: {reason(error)}") from error


def _write_all(descriptor: int, data: bytes) -> None:
    rest = memoryview(data)
    while rest:
        rest = rest[os.write(descriptor, rest) :]


def say(line: str) -> None:
    """Writes a line to standard error, if that takes it."""
    with contextlib.suppress(OSError, ValueError, AttributeError):
        sys.stderr.write(f"{line}\n")
        sys.stderr.flush()


def write_whole(path: str, data: str | bytes, over: bool = True) -> None:
    """Writes a file whole or not at all: beside it first, then renamed, and only with `over` over one that is there. `-` is standard
    output."""
    write_together({path: data}, over)


def write_together(files: Mapping[str, str | bytes], over: bool = True) -> None:
    """Writes some files; each is renamed only when all of them are written."""
    with contextlib.ExitStack() as stack:
        for path, data in files.items():
            if path == "-":
                show(data)
                continue
            file = stack.enter_context(beside(path, over))
            _put(path, file, data.encode() if isinstance(data, str) else data)


def write_new(files: Mapping[str, str]) -> None:
    """Writes some files, and none of them over one that is there."""
    for path in files:
        if os.path.lexists(path):
            raise there_already(path)
    write_together(files, over=False)


def write_into(folder: str, files: Mapping[str, str]) -> None:
    """Writes new files into a folder, which is made where it isn't there."""
    made = _made(folder)
    try:
        write_new({os.path.join(folder, name): data for name, data in files.items()})
    except BaseException:
        if made:
            with contextlib.suppress(OSError):
                os.rmdir(folder)
        raise


def _made(folder: str) -> bool:
    """Makes a folder where there is none, and answers whether it did."""
    if os.path.isdir(folder):
        return False
    if os.path.lexists(folder):
        raise Trouble(f"{shown(folder)}: it is there already, and is no folder")
    try:
        os.mkdir(folder)
    except OSError as error:
        raise Trouble(f"{shown(folder)}: {reason(error)}") from error
    return True


def say_written(paths: Iterable[str]) -> None:
    """Says which files were written; standard output is none."""
    for path in paths:
        if path != "-":
            say(f"{shown(path)} written")


def _put(path: str, file: IO[bytes], data: bytes) -> None:
    try:
        file.write(data)
        file.flush()
    except OSError as error:
        raise Trouble(f"{named(path)}: {reason(error)}") from error


@contextlib.contextmanager
def beside(path: str, over: bool = True) -> Iterator[IO[bytes]]:
    """A file that takes the name `path` when the block ends well, and is removed when it doesn't. A link stays one. Without `over` a
    file that is there stays as it is, also one that comes meanwhile."""
    target = Path(os.path.realpath(path))
    if not over and target.exists():
        raise there_already(path)
    if target.exists() and not target.is_file():
        # a device or a pipe is written to as it stands: a rename would put a plain file in its place
        with _opened(target, path) as file:
            yield file
        return
    temporary = _unfinished(target)
    try:
        with _opened(temporary, path) as file:
            yield file
        _renamed(temporary, target, path, over)
    except BaseException:
        with contextlib.suppress(OSError):
            temporary.unlink()
        raise


def _unfinished(target: Path) -> Path:
    """A name beside a file, for as long as that is written."""
    return target.with_name(f".{target.name or 'folder'}.{secrets.token_hex(4)}.tmp")


def sweep(paths: Iterable[str]) -> None:
    """Removes what a process that was killed left unfinished beside these files."""
    due = set(paths)
    for folder in {os.path.dirname(path) for path in due}:
        for name in os.listdir(folder) if os.path.isdir(folder) else ():
            unfinished = UNFINISHED.fullmatch(name)
            if unfinished and os.path.join(folder, unfinished[1]) in due:
                with contextlib.suppress(OSError):
                    os.unlink(os.path.join(folder, name))


def there_already(path: str) -> Trouble:
    """What is said of a file that isn't written over."""
    return Trouble(f"{shown(path)}: it is there already")


@contextlib.contextmanager
def _opened(target: Path, path: str) -> Iterator[IO[bytes]]:
    try:
        file = open(target, "wb")
    except (OSError, ValueError) as error:
        raise Trouble(f"{named(path)}: {reason(error)}") from error
    try:
        yield file
    finally:
        with _closing(path):
            file.close()


@contextlib.contextmanager
def _closing(path: str) -> Iterator[None]:
    try:
        yield
    except OSError as error:
        raise Trouble(f"{named(path)}: {reason(error)}") from error


def _renamed(temporary: Path, target: Path, path: str, over: bool) -> None:
    try:
        if over or not _linked(temporary, target):
            os.replace(temporary, target)
    except FileExistsError:
        raise there_already(path) from None
    except OSError as error:
        raise Trouble(f"{named(path)}: {reason(error)}") from error


def _linked(temporary: Path, target: Path) -> bool:
    """Gives a file a name that must be free; False where the file system has no links, so that a free name is all that can be asked."""
    try:
        os.link(temporary, target)
    except FileExistsError:
        raise
    except OSError:
        if target.exists():
            raise FileExistsError(target) from None
        return False
    temporary.unlink()
    return True


def picture_name(text: str, ending: str) -> str:
    """How the picture or page of a text is called where no other name is given: texts that differ in their ending alone have names apart.

    >>> picture_name("d1/hour.txt", ".svg"), picture_name("-", ".svg")
    ('d1/hour.txt.svg', 'stdin.svg')
    """
    return f"{'stdin' if text == '-' else text}{ending}"


def is_own(text: str, out: str | None) -> bool:
    """Whether a picture goes by its text's own name, which no other is given: that one is made anew each time."""
    return out is None and text != "-"


def free_for(text: str, out: str, over: bool) -> None:
    """Refuses a picture's name that is the text's own, and one that is taken by a file, which may be another text's, without `over`."""
    if out == "-" or not os.path.isfile(out):
        return
    if text != "-" and os.path.realpath(out) == os.path.realpath(text):
        raise Trouble(f"{shown(out)} is the text, and would be written over")
    if not over:
        raise Trouble(f"{shown(out)}: it is there already; --overwrite writes over it")


def write_folder(path: str, files: Mapping[str, str]) -> None:
    """Makes a folder with these files, whole or not at all. The folder must not be there, or must be empty."""
    target = Path(path)
    temporary = _unfinished(target)
    try:
        temporary.mkdir()
        for name, data in files.items():
            (temporary / name).write_bytes(data.encode())
        os.rename(temporary, target)
    except (OSError, ValueError) as error:
        raise Trouble(f"{shown(path)}: {reason(error)}") from error
    finally:
        shutil.rmtree(temporary, ignore_errors=True)
