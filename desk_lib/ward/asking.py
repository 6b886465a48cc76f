"""The asks of a ward: how a line is read once and for all, and the commands that add, list and withdraw asks.

A line is kept with dates in the place of its days, whatever words named them, so that it means the same next week. What a nurse is to do
'as the roster says now' is kept as the wishes and off requests that say so.
"""
import collections.abc
import dataclasses
import datetime
import os
import re
import unicodedata

from desk_lib import program
from desk_lib.asks import FORMS, Asks, place
from desk_lib.case import Choice
from desk_lib.days import DATE, DAY, MONTHS, TO, date_in, day_of, day_text
from desk_lib.findings import numbered
from desk_lib.given import Given, write
from desk_lib.grammar import DAY_OF
from desk_lib.model import Plan
from desk_lib.program import Program
from desk_lib.texts import DeskError, plural, shown
from desk_lib.ward.options import AskOptions, UnaskOptions, WardOptions
from desk_lib.ward.rosters import ward_of
from desk_lib.ward.store import Ask, State, Ward, author, changing, moment
from desk_lib.ward.texts import asks_text, clipped, days_of, known_forms, spans_at, texts_of

# A day of a month in words, with the weekday before it and the year after it if they are there.
OF_MONTH = re.compile(
    rf"(?:(?P<weekday>[a-z]+)[ ,]+)?(?P<day>\d{{1,2}})\.? ?(?P<month>{'|'.join(MONTHS)})[a-z]*(?: (?P<year>\d{{4}}))?\b", re.I
)
# How long a line of an ask may be.
LONGEST = 4000


class Reader:
    """Reads asks of a ward, by the day that is today if that is known."""

    def __init__(self, ward: Ward, plan: Plan, today: datetime.date | None):
        self.ward, self.plan, self.today, self.start = ward, plan, today, ward.state.input.start
        self.nurses = [nurse.name for nurse in plan.case.nurses]

    def lines(self, said: str) -> list[bytes]:
        """The lines to be kept for a line that was written."""
        words = os.fsencode(self.with_dates(said)).split()
        if '"' in said:
            raise DeskError("a quotation mark is part of no name; write the names without", 2)
        if not words or words[0] not in FORMS or words[0] in (b"today", b"start"):
            stands = f"'{shown(words[0])}' stands here" if words else "this is empty"
            raise DeskError(f"{stands}, and one of these is due: {'; '.join(known_forms())}", 2)
        if len(said) > LONGEST:
            raise DeskError(f"an ask has at most {LONGEST} letters; make several of it", 2)
        form, least, _ = FORMS[words[0]]
        at = spans_at(words)
        if len(words) - 1 < least or not words[at]:
            raise DeskError(f"the form of this ask is '{form}', with days as 2026-11-02, Wed..Fri or 4 Nov", 2)
        words[at] = [self.dated(word) for word in words[at]]
        if words[0] in (b"duty", b"need") and TO in b" ".join(words[at]):
            raise DeskError(f"'{shown(words[0])}' is of one day; make an ask of each day", 2)
        if words[0] != b"need":
            words[1] = self.nurse(words[1])
        return self.of_pin(words) if words[0] == b"pin" else [b" ".join(words)]

    def nurse(self, word: bytes) -> bytes:
        """The name of a nurse, whichever capitals and marks it was written with."""
        if word not in self.nurses:
            same = [name for name in self.nurses if folded(name) == folded(word)]
            if len(same) == 1:
                return same[0]
        return self.nurses[numbered("nurse", word, self.nurses)]

    # ---- days

    def with_dates(self, said: str) -> str:
        """The line with dates in the place of such days as 'Wed 4 Nov'."""
        return OF_MONTH.sub(self.date_of_month, said)

    def date_of_month(self, match: re.Match[str]) -> str:
        weekday, month = match["weekday"], MONTHS.index(match["month"].capitalize()) + 1
        is_weekday = weekday is not None and weekday.capitalize().encode() in DAY_OF
        before = f"{weekday} " if weekday is not None and not is_weekday else ""
        years = [int(match["year"])] if match["year"] else [self.start.year, self.start.year + 1]
        found = [date for date in (made_date(year, month, int(match["day"])) for year in years) if date]
        found = [date for date in found if date >= self.start] or found
        if not found:
            raise DeskError(f"'{match['day']} {match['month']}': there is no such date", 2)
        date = found[0]
        if is_weekday and weekday is not None and DAY_OF[weekday.capitalize().encode()] != date.weekday():
            raise DeskError(f"'{shown(match[0])}': {date} is a {date:%A}; name one of the two days", 2)
        return f"{before}{date}"

    def dated(self, word: bytes) -> bytes:
        """A word for days with dates in it."""
        first, to, last = word.partition(TO)
        if word in self.nurses:
            raise DeskError(f"'{shown(word)}' is a nurse, and a day is due; make an ask of each nurse", 2)
        if to and not (first and last):
            raise DeskError(f"'{shown(word)}' stands here, and days are due, as Wed..Fri or 2026-11-04..2026-11-06", 2)
        begin = self.date(first, self.today)
        end = self.date(last, begin) if to else begin
        if end < begin:
            raise DeskError(f"'{shown(word)}': {end} is before {begin}; write the first day first", 2)
        return f"{begin}..{end}".encode() if end > begin else str(begin).encode()

    def date(self, word: bytes, since: datetime.date | None) -> datetime.date:
        """The date of a day. A weekday alone is the next one."""
        if word.capitalize() in DAY_OF:
            word = word.capitalize()
            if since is None:
                message = f"'{shown(word)}': of which week isn't known, since today is none of the ward's days"
                raise DeskError(f"{message}; name the date, as {self.start}, or say by --from which day is today", 2)
            return since + datetime.timedelta((DAY_OF[word] - since.weekday()) % 7)
        if not (DAY.fullmatch(word) or DATE.fullmatch(word)):
            raise DeskError(f"'{shown(word)}' stands here, and a day is due, as 2026-11-04, Wed, 4 Nov or 0:Wed", 2)
        date = date_in(shown(word)) if DATE.fullmatch(word) else self.start + datetime.timedelta(day_of(word, self.start))
        if date < self.start:
            raise DeskError(f"'{shown(word)}': the ward's first day is {self.start}", 2)
        if self.today and date < self.today:
            of = "" if shown(word) == str(date) else f"'{shown(word)}': "
            raise DeskError(f"{of}{date} is past, since today is {self.today}, and stays as it was; name a later day", 2)
        return date

    # ---- what the roster says now

    def of_pin(self, words: list[bytes]) -> list[bytes]:
        """The wishes and off requests for what a nurse has on days."""
        nurse, of_choices = self.nurses.index(words[1]), dict[Choice, list[bytes]]()
        if self.ward.state.roster is None:
            raise DeskError("pin: the ward has no roster yet, so there is nothing to pin", 2)
        for word in words[2:]:
            begin, _, end = word.partition(TO)
            first, last = (day_of(edge, self.start) for edge in (begin, end or begin))
            if last >= self.plan.days:
                raise DeskError(f"'{shown(word)}': the ward's roster ends on {day_text(self.plan.days - 1)}", 2)
            for day in range(first, last + 1):
                choice = self.plan.roster[nurse][day]
                shift = None if choice is None else (choice[0], 0)
                of_choices.setdefault(shift, []).append(str(self.start + datetime.timedelta(day)).encode())
        lines = []
        for choice, dates in of_choices.items():
            head = [b"off", words[1]] if choice is None else [b"wish", words[1], self.plan.case.shifts[choice[0]].name]
            lines.append(b" ".join([*head, *dates]))
        return lines


def folded(name: bytes) -> str:
    """A name as it is compared: capitals and how marks are written make no other name of it."""
    return unicodedata.normalize("NFC", shown(name)).casefold()


def made_date(year: int, month: int, day: int) -> datetime.date | None:
    try:
        return datetime.date(year, month, day)
    except ValueError:
        return None


def plan_of(ward: Ward) -> Plan:
    """The plan of a ward, whose texts were taken when they were given."""
    return program.plan_in(texts_of(ward, may_lack_solutions=True))


def today_in(given: Given) -> datetime.date | None:
    """Today, as --from says or the clock."""
    if not given.today or given.start is None:
        return None
    return given.start + datetime.timedelta(day_of(given.today, given.start))


def said_lines(words: list[str]) -> list[str]:
    """The lines of asks: each word is one, or all words together are."""
    is_one = len(words) > 1 and " " not in words[0].strip()
    return [" ".join(words)] if is_one else words


def run_ask(options: AskOptions, given: Given, _: Program) -> int:
    """Adds asks."""
    asks, found, ward = added(given, options.line)
    write([*(line_of(ask, ward) for ask in asks), *failing(found, {ask.number for ask in asks}, ward)])
    return 0


def added(given: Given, words: list[str], may_be_there: bool = False) -> tuple[tuple[Ask, ...], Asks, Ward]:
    """Adds the asks of these words, but for those that may be there already; returns the new ones, all asks, and the ward that they were
    added to. They go with any version, so that of two commands at once neither loses its own."""
    with changing(ward_of(given), is_strict=False) as writer:
        assert writer.ward
        ward = writer.ward
        plan = plan_of(ward)
        new = new_asks(Reader(ward, plan, today_in(given)), said_lines(words), may_be_there)
        asks = tuple(map(writer.ask, new))
        state = dataclasses.replace(ward.state, asks=(*ward.state.asks, *asks))
        found = taken_asks(with_state(ward, state), plan, given, asks)
        if asks:
            writer.add_version("ask: " + "; ".join(shown(ask.line) for ask in asks)[:200], state)
    return asks, found, ward


def new_asks(reader: Reader, said: list[str], may_be_there: bool = False) -> list[Ask]:
    """The asks of lines that were written, none of which is there already; one that is there is refused unless it may be."""
    known, found = {ask.line for ask in reader.ward.state.asks}, list[Ask]()
    for line in said:
        try:
            for data in reader.lines(line):
                if data not in known:
                    known.add(data)
                    found.append(Ask(data, author(), moment()))
                elif not may_be_there:
                    raise DeskError("this is asked for already")
        except DeskError as why:
            raise DeskError(f"ask '{shown(line)[:80]}': {why}; nothing was changed", why.status) from None
    return found


def with_state(ward: Ward, state: State) -> Ward:
    """The ward as if this were its present state."""
    return dataclasses.replace(ward, versions=(*ward.versions, dataclasses.replace(ward.current, state=state)))


def taken_asks(ward: Ward, plan: Plan, given: Given, new: tuple[Ask, ...] = ()) -> Asks:
    """The asks of a ward, none of which is wrong or contradicts another."""
    text = asks_text(ward)
    try:
        return Asks(text, plan, ward.state.input.start, b"", given.held)
    except DeskError as why:
        message = str(why)
        for ask in new:
            # (its number is nothing that the planner knows)
            message = message.replace(f"{place(text, ask.number)}: ", f"ask '{shown(ask.line)}': ")
            said = f"by '{shown(ask.line)}'".replace("\\", "\\\\")
            message = re.sub(rf"\bin ask {ask.number}\b", said, message)
        other = f". 'desk unask {shown(ward.name)} N' takes ask N away" if "in ask " in message else ""
        raise DeskError(f"{message}; nothing was changed{other}", 1) from None


def line_of(ask: Ask, ward: Ward) -> str:
    """An ask, its days, and who wrote it when."""
    days = sum(map(length, ask.line.split()[spans_at(ask.line.split())]))
    start, every = ward.state.input.start, days_of(ward)
    here = clipped(ask.line, start, every)
    later = "" if here == ask.line else ", all of them in a later month" if not here else ", some of them in a later month"
    return f"{ask.number}  {shown(ask.line)}: {plural(days, 'day')}{later} ({ask.author}, {ask.written})"


def length(word: bytes) -> int:
    """How many days a word of dates names."""
    begin, _, end = word.partition(TO)
    return (date_in(shown(end or begin)) - date_in(shown(begin))).days + 1


def failing(asks: Asks, numbers: collections.abc.Container[int], ward: Ward) -> list[str]:
    """What of these asks the working roster doesn't keep, and what does."""
    if ward.state.roster is None:
        return []
    roster = asks.plan.roster
    failed = [
        ask for ask in asks.asks if ask.line in numbers and not all(ask.is_met(day, roster[ask.nurse][day]) for day in ask.days)
    ]
    days = sum(not ask.is_met(day, roster[ask.nurse][day]) for ask in failed for day in ask.days)
    if not failed:
        return []
    message = f"the working roster is otherwise on {plural(days, 'day')} of these"
    return [f"{message}; 'desk repair {shown(ward.name)}' looks for one with few changes"]


def run_asks(_: WardOptions, given: Given, __: Program) -> int:
    """Lists the asks."""
    ward = ward_of(given)
    plan = plan_of(ward)
    lines = [line_of(ask, ward) for ask in ward.state.asks]
    found = taken_asks(ward, plan, given)
    write(
        [*lines, *failing(found, {ask.number for ask in ward.state.asks}, ward)] or [f"{shown(ward.name)}: nothing is asked for"]
    )
    return 0


def run_unask(options: UnaskOptions, given: Given, _: Program) -> int:
    """Withdraws asks."""
    with changing(ward_of(given), is_strict=False) as writer:
        assert writer.ward
        ward = writer.ward
        known = {ask.number: ask for ask in ward.state.asks}
        for number in options.number:
            if number not in known:
                has = f"its asks are {', '.join(map(str, known))}" if known else "nothing is asked for"
                raise DeskError(f"{shown(ward.name)}: there is no ask {number}; {has}", 2)
        gone = [known[number] for number in dict.fromkeys(options.number)]
        note = "unask: " + "; ".join(f"{ask.number} {shown(ask.line)}" for ask in gone)[:200]
        kept = tuple(ask for ask in ward.state.asks if ask not in gone)
        writer.add_version(note, dataclasses.replace(ward.state, asks=kept))
    write(f"{ask.number}  {shown(ask.line)}: no longer asked for" for ask in gone)
    return 0
