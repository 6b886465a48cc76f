"""The words of the texts, and what they say: sections, parts, and a bundle of parts.

The grammar is that of docs/COMMANDS.md. A reading keeps the numbers of words, so that each has its place.
"""
import collections.abc
import dataclasses
import functools
import re
import typing

from desk_lib.case import Contract, Limits
from desk_lib.texts import Place, Texts

WORD = re.compile(rb"[(),=]|[^ \t\r\n(),=]+")
MARKS = frozenset(b"( ) , =".split())
DAYS = [b"Mon", b"Tue", b"Wed", b"Thu", b"Fri", b"Sat", b"Sun"]
LONG_DAYS = b"Monday Tuesday Wednesday Thursday Friday Saturday Sunday".split()
DAY_OF = {name: number for names in (DAYS, LONG_DAYS) for number, name in enumerate(names)}
SMALL, COUNT = 999, 99_999
# How many there may be of what these sections count, from 1 on.
MOST_OF = {b"WEEKS": 52, b"SKILLS": 8, b"SHIFT_TYPES": 8, b"CONTRACTS": 64, b"NURSES": 400}
NONE, ANY = b"None", b"Any"
# Words that begin a part, with what it is called, in the order of parts.
PARTS = {b"SCENARIO": "scenario", b"HISTORY": "history", b"WEEK_DATA": "week data", b"SOLUTION": "solution"}


class Fault(Exception):
    """A word, by its number, at which something else is due; or a number above the greatest that is allowed there."""

    def __init__(self, at: int, due: str, greatest: int | None = None):
        super().__init__(due)
        self.at, self.due, self.greatest = at, due, greatest

    def message(self) -> str:
        """What the program says of it, after the line's number."""
        if self.greatest is not None:
            return "number out of range"
        return f"expected {self.due}" if self.due else "text after the end"


class Words:
    """The words of texts. Places are found when the first is asked for."""

    def __init__(self, texts: Texts, data: bytes | None = None):
        """The words of the data, which is the joined text if it isn't given, and else as long as that."""
        self.texts, self.data = texts, texts.joined if data is None else data
        self.words: list[bytes] = WORD.findall(self.data)

    @functools.cached_property
    def starts(self) -> list[int]:
        return [match.start() for match in WORD.finditer(self.data)]

    def offset(self, at: int) -> int:
        return self.starts[at] if at < len(self.words) else len(self.data)

    def place(self, at: int) -> Place:
        return self.texts.place(self.offset(at), len(self.words[at]) if at < len(self.words) else 0)


class Cursor:
    """Reads words from one on, up to an end."""

    def __init__(self, words: list[bytes], at: int = 0, end: int | None = None):
        self.words, self.at = words, at
        self.end = len(words) if end is None else end

    def peek(self, more: int = 0) -> bytes | None:
        return self.words[self.at + more] if self.at + more < self.end else None

    def word(self, due: str) -> None:
        """Passes over a word that has to be this one."""
        if self.peek() != due.encode():
            raise Fault(self.at, due)
        self.at += 1

    def name(self) -> int:
        """The number of the word that stands here, which is a name."""
        if self.peek() is None or self.peek() in MARKS:
            raise Fault(self.at, "name")
        self.at += 1
        return self.at - 1

    def names(self, count: int) -> list[int]:
        return [self.name() for _ in range(count)]

    def number(self, greatest: int) -> int:
        word = self.peek()
        if word is None or not word.isdigit():
            raise Fault(self.at, "number")
        digits = word.lstrip(b"0")
        if len(digits) > 5 or int(digits or b"0") > greatest:
            raise Fault(self.at, "number", greatest)
        self.at += 1
        return int(digits or b"0")

    def count(self, keyword: str) -> int:
        self.word(keyword)
        self.word("=")
        return self.number(COUNT)

    def day(self) -> int:
        if self.peek() not in DAY_OF:
            raise Fault(self.at, "day")
        self.at += 1
        return DAY_OF[self.words[self.at - 1]]

    def pair(self) -> Limits:
        self.word("(")
        least = self.number(SMALL)
        self.word(",")
        greatest = self.number(SMALL)
        self.word(")")
        return Limits(least, greatest)

    def is_head(self, keyword: bytes) -> bool:
        """Whether a section with a count begins here."""
        return self.peek() == keyword and self.peek(1) == b"="


# A line of a section: the number of its first word, and what it says, which differs by section.
Line = tuple[typing.Any, ...]


@dataclasses.dataclass
class Section:
    """A section that was read: the number of its keyword, its count or single number, and its lines."""

    keyword: str
    at: int
    count: int = 0
    lines: list[Line] = dataclasses.field(default_factory=list)


Reader = collections.abc.Callable[[Cursor, Section], None]


def counted(keyword: str, line: collections.abc.Callable[[Cursor], Line]) -> Reader:
    """Reads a section with a count, and as many lines."""

    def read(cursor: Cursor, section: Section) -> None:
        section.count = cursor.count(keyword)
        for _ in range(section.count):
            section.lines.append(line(cursor))

    return read


def until(keyword: str, next_keyword: bytes, line: collections.abc.Callable[[Cursor], Line]) -> Reader:
    """Reads a section whose lines end at the beginning of another section."""

    def read(cursor: Cursor, section: Section) -> None:
        cursor.word(keyword)
        while not cursor.is_head(next_keyword):
            section.lines.append(line(cursor))

    return read


def scenario_head(cursor: Cursor, section: Section) -> None:
    cursor.word("SCENARIO")
    cursor.word("=")
    section.lines.append((cursor.name(),))


def weeks_line(cursor: Cursor, section: Section) -> None:
    section.count = cursor.count("WEEKS")


def skill_line(cursor: Cursor) -> Line:
    return (cursor.name(),)


def shift_line(cursor: Cursor) -> Line:
    return cursor.name(), cursor.pair()


def succession_line(cursor: Cursor) -> Line:
    first = cursor.name()
    return first, cursor.names(cursor.number(COUNT))


def contract_line(cursor: Cursor) -> Line:
    first = cursor.name()
    return first, Contract(cursor.pair(), cursor.pair(), cursor.pair(), cursor.number(SMALL), cursor.number(1))


def nurse_line(cursor: Cursor) -> Line:
    first, contract = cursor.names(2)
    return first, contract, cursor.names(cursor.number(COUNT))


def history_head(cursor: Cursor, section: Section) -> None:
    cursor.word("HISTORY")
    at = cursor.at
    section.count = cursor.number(SMALL)
    section.lines.append((at, cursor.name()))


def history_line(cursor: Cursor) -> Line:
    first = cursor.name()
    totals = cursor.number(SMALL), cursor.number(SMALL)
    return first, *totals, cursor.name(), *(cursor.number(SMALL) for _ in range(3))


def history_lines(nurses: int | None) -> Reader:
    """Reads the lines of that many nurses, or as many as there are up to the end."""

    def read(cursor: Cursor, section: Section) -> None:
        cursor.word("NURSE_HISTORY")
        while len(section.lines) < nurses if nurses is not None else cursor.peek() is not None:
            section.lines.append(history_line(cursor))

    return read


def week_head(cursor: Cursor, section: Section) -> None:
    cursor.word("WEEK_DATA")
    section.lines.append((cursor.name(),))


def need_line(cursor: Cursor) -> Line:
    return cursor.name(), cursor.name(), [cursor.pair() for _ in DAYS]


def request_line(cursor: Cursor) -> Line:
    return cursor.name(), cursor.name(), cursor.day()


def absence_line(cursor: Cursor) -> Line:
    """A nurse and a day, of an absence or of a day that is fixed."""
    return cursor.name(), cursor.day()


def solution_head(cursor: Cursor, section: Section) -> None:
    cursor.word("SOLUTION")
    at = cursor.at
    section.count = cursor.number(SMALL)
    section.lines.append((at, cursor.name()))


def assignment_line(cursor: Cursor) -> Line:
    return cursor.name(), cursor.day(), cursor.name(), cursor.name()


# The sections by their keywords, in the order of each part.
READERS: dict[bytes, Reader] = {
    b"SCENARIO": scenario_head,
    b"WEEKS": weeks_line,
    b"SKILLS": counted("SKILLS", skill_line),
    b"SHIFT_TYPES": counted("SHIFT_TYPES", shift_line),
    b"FORBIDDEN_SHIFT_TYPES_SUCCESSIONS": until("FORBIDDEN_SHIFT_TYPES_SUCCESSIONS", b"CONTRACTS", succession_line),
    b"CONTRACTS": counted("CONTRACTS", contract_line),
    b"NURSES": counted("NURSES", nurse_line),
    b"HISTORY": history_head,
    b"NURSE_HISTORY": history_lines(None),
    b"WEEK_DATA": week_head,
    b"REQUIREMENTS": until("REQUIREMENTS", b"SHIFT_OFF_REQUESTS", need_line),
    b"SHIFT_OFF_REQUESTS": counted("SHIFT_OFF_REQUESTS", request_line),
    b"SHIFT_ON_REQUESTS": counted("SHIFT_ON_REQUESTS", request_line),
    b"ABSENCES": counted("ABSENCES", absence_line),
    b"FIXED": counted("FIXED", absence_line),
    b"SOLUTION": solution_head,
    b"ASSIGNMENTS": counted("ASSIGNMENTS", assignment_line),
}
SECTIONS_OF = {
    "scenario": b"SCENARIO WEEKS SKILLS SHIFT_TYPES FORBIDDEN_SHIFT_TYPES_SUCCESSIONS CONTRACTS NURSES".split(),
    "history": b"HISTORY NURSE_HISTORY".split(),
    "week data": b"WEEK_DATA REQUIREMENTS SHIFT_OFF_REQUESTS SHIFT_ON_REQUESTS ABSENCES FIXED".split(),
    "solution": b"SOLUTION ASSIGNMENTS".split(),
}
# Those that may be absent.
OPTIONAL = {b"SHIFT_ON_REQUESTS", b"ABSENCES", b"FIXED"}
# A part that was read: its sections by their keywords.
Part = dict[bytes, Section]


@dataclasses.dataclass
class Bundle:
    """All parts of texts that the grammar takes."""

    scenario: Part
    history: Part
    weeks: list[Part]
    solutions: list[Part]


def read_section(cursor: Cursor, keyword: bytes, nurses: int | None = None) -> Section:
    """The section of this keyword, which begins where the cursor is."""
    section = Section(keyword.decode(), cursor.at)
    reader = history_lines(nurses) if keyword == b"NURSE_HISTORY" else READERS[keyword]
    reader(cursor, section)
    return section


def read_part(cursor: Cursor, kind: str, nurses: int | None = None) -> Part:
    """A part, all of it."""
    part = {}
    for keyword in SECTIONS_OF[kind]:
        if keyword not in OPTIONAL or cursor.peek() == keyword:
            part[keyword] = read_section(cursor, keyword, nurses)
    return part


def read_bundle(words: Words) -> Bundle:
    """The bundle that the words spell. Raises the first fault of grammar."""
    cursor = Cursor(words.words)
    scenario = read_part(cursor, "scenario")
    weeks = range(scenario[b"WEEKS"].count)
    history = read_part(cursor, "history", scenario[b"NURSES"].count)
    bundle = Bundle(scenario, history, [read_part(cursor, "week data") for _ in weeks], [])
    bundle.solutions = [read_part(cursor, "solution") for _ in weeks]
    if cursor.peek() is not None:
        raise Fault(cursor.at, "")
    return bundle
