"""What a command writes, held apart from what it reads and from what is no work of the desk's: neither is lost."""
import collections.abc
import os
import stat

from desk_lib.grammar import WORD
from desk_lib.plot import is_log_line
from desk_lib.texts import DeskError, shown

# What a file is, as `--out`, and its name.
Named = tuple[str, str | int]
Identity = tuple[int, int] | str | None
# How much of a file, in bytes, shows what it is.
BEGIN = 4096


def identity(file: str | int) -> Identity:
    """What two names of one file have in common: its device and inode, or its path if it isn't there yet. None if it is no file
    that could be replaced."""
    try:
        there = os.stat(file)
    except (OSError, ValueError):
        return os.path.realpath(file) if isinstance(file, str) and "\0" not in file else None
    return (there.st_dev, there.st_ino) if stat.S_ISREG(there.st_mode) else None


def refuse_inputs(written: collections.abc.Iterable[Named], read: list[Named]) -> None:
    """Refuses to write a file that is read, or a file twice."""
    known = [(named, identity(file)) for named, file in read]
    for named, file in written:
        own = identity(file)
        same = next((other for other, there in known if own is not None and there == own), None)
        if same:
            message = f"{named}: {shown(str(file))} is {same} as well, and would be lost; nothing was done"
            raise DeskError(f"{message}. Give {named} another name", 2)
        known.append((f"the file of {named}", own))


def begins(begin: bytes, word: bytes) -> bool:
    """Whether this is the first word of a file that begins so."""
    match = WORD.match(begin.lstrip())
    return (match[0] if match else b"") == word


def is_roster(begin: bytes) -> bool:
    """Whether it has solutions, and no scenario before them."""
    return begins(begin, b"SOLUTION")


def is_history(begin: bytes) -> bool:
    return begins(begin, b"HISTORY")


def is_page(begin: bytes) -> bool:
    return begin.startswith(b"<!doctype html>") and (b'content="desk"' in begin or b"<title>Roster " in begin)


def is_table(begin: bytes) -> bool:
    return begin.startswith(b"nurse,")


def is_log(begin: bytes) -> bool:
    return is_log_line(begin.split(b"\n")[0])


def is_calendar(begin: bytes) -> bool:
    return begin.startswith(b"BEGIN:VCALENDAR")


# What a file of the desk's own is, and how it is known.
OWN = {
    "roster": is_roster,
    "page": is_page,
    "table of the desk": is_table,
    "log of the desk": is_log,
    "calendar": is_calendar,
    "history": is_history,
}


# Those that have a roster, of which nobody knows whether it was published.
ROSTERS = ("roster", "table of the desk")


def refuse_unrelated(named: str, name: str, kind: str) -> None:
    """Refuses to replace a file that is neither of this kind nor empty. What can't be read is an error when it is written."""
    try:
        if not os.path.isfile(name):
            return
        with open(name, "rb") as file:
            begin = file.read(BEGIN)
    except (OSError, ValueError):
        return
    if begin.strip() and kind in ROSTERS and OWN[kind](begin):
        message = f"{named}: {shown(name)} is there and has a roster, which would be lost; nothing was done"
        raise DeskError(f"{message}. Give {named} another name, or --force to replace it", 2)
    if begin.strip() and not OWN[kind](begin):
        message = f"{named}: {shown(name)} is there and is no {kind}; nothing was done"
        raise DeskError(f"{message}. Give {named} another name, or --force to replace it", 2)
