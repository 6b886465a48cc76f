"""Days as words name them, everywhere in the desk: the week and the weekday, as 0:Mon; all from one day to another, as 0:Mon..0:Wed;
several one after another. If the first Monday is known, a day may be its date."""
import collections.abc
import datetime
import os
import re
import time

from desk_lib.grammar import DAY_OF, DAYS
from desk_lib.texts import DeskError, plural, shown

DAY, DATE = re.compile(rb"(\d{1,3}):([A-Za-z]+)"), re.compile(rb"\d{4}-.*", re.S)
# What stands between the first day and the last of several.
TO = b".."
PROGRAM_DAY = re.compile(rf"week (\d{{1,2}}) ({'|'.join(name.decode() for name in DAYS)})\b")
MONTHS = "Jan Feb Mar Apr May Jun Jul Aug Sep Oct Nov Dec".split()


def now() -> datetime.datetime:
    """The time at which something is made, in UTC; SOURCE_DATE_EPOCH, in seconds from 1970 on, names another."""
    seconds = os.environ.get("SOURCE_DATE_EPOCH", "")
    return datetime.datetime.fromtimestamp(int(seconds) if seconds.isdigit() else time.time(), datetime.timezone.utc)


def day_name(day: int) -> str:
    return DAYS[day % 7].decode()


class Calendar:
    """The first Monday, once a command knows it: then days are named as a calendar for people names them."""

    start: datetime.date | None = None


def day_text(day: int) -> str:
    """A day in words: as 'Wed 4 Nov' if the first Monday is known, and else as words name it."""
    if Calendar.start is None:
        return day_word(day)
    date = Calendar.start + datetime.timedelta(day)
    return f"{day_name(day)} {date.day} {MONTHS[date.month - 1]}"


def with_day_texts(line: str) -> str:
    """A line with the words for people in the place of the program's words for days, as 'week 1 Wed'."""
    return PROGRAM_DAY.sub(lambda match: day_text(7 * int(match[1]) + DAY_OF[match[2].encode()]), line)


def with_dates(line: str) -> str:
    """The same if the first Monday is known; else the line as it is."""
    return with_day_texts(line) if Calendar.start else line


def column_name(day: int) -> str:
    """A day as it heads a column of a table without dates."""
    return f"week {day // 7} {day_name(day)}"


def day_word(day: int) -> str:
    """The word that names a day."""
    return f"{day // 7}:{day_name(day)}"


def asked_day(day: int) -> str:
    """A day as a line of an ask names it: by its date if the first Monday is known."""
    return day_word(day) if Calendar.start is None else str(Calendar.start + datetime.timedelta(day))


def date_in(word: str) -> datetime.date:
    """The date that a word names."""
    try:
        return datetime.date.fromisoformat(word)
    except ValueError:
        raise DeskError(f"'{shown(word)}' is no date, as 2026-11-02", 2) from None


def monday_in(word: str) -> datetime.date:
    """The Monday that a word names."""
    date = date_in(word)
    if date.weekday():
        monday = date - datetime.timedelta(date.weekday())
        raise DeskError(f"{word} is no Monday, on which weeks begin; that of its week is {monday}", 2)
    return date


def is_day(word: bytes) -> bool:
    """Whether a word has the form of days."""
    return all(DAY.fullmatch(end) or DATE.fullmatch(end) for end in word.split(TO))


def day_of(word: bytes, start: datetime.date | None) -> int:
    """The day that a word names, whether the scenario has it or not."""
    match = DAY.fullmatch(word)
    if match and match[2] in DAY_OF:
        return 7 * int(match[1]) + DAY_OF[match[2]]
    if start and DATE.fullmatch(word):
        return (date_in(shown(word)) - start).days
    if DATE.fullmatch(word):
        message = f"'{shown(word)}' is a date, and the first Monday isn't known; say it by --start, or name the day as 0:Mon"
        raise DeskError(message, 2)
    raise DeskError(f"'{shown(word)}' stands here, and a day is due, as 0:Mon", 2)


def day_in(word: bytes, weeks: int, start: datetime.date | None = None) -> int:
    """The day of this number of weeks that a word names."""
    day = day_of(word, start)
    if not 0 <= day < 7 * weeks and start and DATE.fullmatch(word):
        last = start + datetime.timedelta(7 * weeks - 1)
        raise DeskError(f"'{shown(word)}': the days are those from {start} to {last}, {plural(weeks, 'week')}", 2)
    if not 0 <= day < 7 * weeks:
        raise DeskError(f"'{shown(word)}': the scenario has {plural(weeks, 'week')}, and they count from 0", 2)
    return day


def days_in(words: collections.abc.Iterable[bytes], weeks: int, start: datetime.date | None = None) -> list[int]:
    """The days that words name, each once, in their order."""
    return sorted({day for word in words for day in span_in(word, weeks, start)})


def span_in(word: bytes, weeks: int, start: datetime.date | None) -> range:
    """The days that one word names."""
    first, to, last = word.partition(TO)
    if to and not (first and last):
        raise DeskError(f"'{shown(word)}' stands here, and days are due, as 0:Mon..0:Wed", 2)
    days = range(day_in(first, weeks, start), day_in(last if to else first, weeks, start) + 1)
    if not days:
        raise DeskError(f"'{shown(first)}' is after '{shown(last)}'; write the first day first", 2)
    return days
