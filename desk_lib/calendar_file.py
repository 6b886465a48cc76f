"""The command `ics`: a nurse's shifts as a calendar (RFC 5545), for telephones and mail programs.

Each shift is an event on its date: with the shift's times if they are given, which are the ward's local ones, else for the
whole day. The same day of the same nurse has the same UID in every roster of the ward, so that a new calendar replaces the old.
"""
import dataclasses
import datetime
import hashlib
import os
import re

from desk_lib.findings import nearest
from desk_lib.model import Plan
from desk_lib.texts import DeskError, shown

TIMES = re.compile(r"(.+)=(\d\d):(\d\d)-(\d\d):(\d\d)")
# How many bytes a line of a calendar has at most; what is longer goes on in the next one, after a blank.
LINE = 75
MARKS = str.maketrans({"\\": "\\\\", ";": "\\;", ",": "\\,", "\n": "\\n"})


@dataclasses.dataclass(frozen=True)
class Times:
    """When a shift begins and how long it is."""

    begin: datetime.timedelta
    length: datetime.timedelta


def times_in(word: str, plan: Plan) -> tuple[int, Times]:
    """The shift that a word such as Night=21:30-06:30 names, and its times. What ends no later than it begins ends on the next
    day."""
    match = TIMES.fullmatch(word)
    if not match:
        raise DeskError(f"--time {shown(word)}: the form is SHIFT=HH:MM-HH:MM, as Night=21:30-06:30", 2)
    names = [shift.name for shift in plan.case.shifts]
    if os.fsencode(match[1]) not in names:
        like = nearest(os.fsencode(match[1]), names)
        raise DeskError(f"--time {shown(word)}: the scenario has no shift '{shown(match[1])}'{like}", 2)
    numbers = [int(digits) for digits in match.groups()[1:]]
    if max(numbers[0::2]) > 23 or max(numbers[1::2]) > 59:
        raise DeskError(f"--time {shown(word)}: a time is from 00:00 to 23:59", 2)
    begin, end = (datetime.timedelta(hours=numbers[at], minutes=numbers[at + 1]) for at in (0, 2))
    return names.index(os.fsencode(match[1])), Times(begin, end - begin + datetime.timedelta(days=end <= begin))


def folded(line: str) -> bytes:
    """A line with its end, in as many lines as it needs. No letter is divided."""
    parts = [b""]
    for letter in line:
        data = letter.encode()
        if len(parts[-1]) + len(data) > LINE:
            parts.append(b" ")
        parts[-1] += data
    return b"\r\n".join(parts) + b"\r\n"


def text(value: str) -> str:
    return value.translate(MARKS)


class Calendar:
    """The calendars of a plan, whose first week begins on this Monday; `made` is when they are made, in UTC."""

    def __init__(self, plan: Plan, start: datetime.date, times: dict[int, Times], made: datetime.datetime):
        self.plan, self.case, self.start, self.times, self.made = plan, plan.case, start, times, made

    def of_nurse(self, number: int) -> bytes:
        """The calendar of a nurse."""
        name = f"{shown(self.case.nurses[number].name)}: {shown(self.case.name)}"
        lines = ["BEGIN:VCALENDAR", "VERSION:2.0", "PRODID:-//Binsummer//desk//EN", f"X-WR-CALNAME:{text(name)}"]
        for day, choice in enumerate(self.plan.roster[number]):
            if choice:
                lines += self.event(number, day, *choice)
        return b"".join(map(folded, [*lines, "END:VCALENDAR"]))

    def event(self, number: int, day: int, shift: int, skill: int) -> list[str]:
        date = self.start + datetime.timedelta(day)
        who = hashlib.sha256(self.case.name + b"\0" + self.case.nurses[number].name).hexdigest()[:16]
        summary = f"{shown(self.case.shifts[shift].name)} ({shown(self.case.skills[skill])})"
        return [
            "BEGIN:VEVENT",
            f"UID:{date:%Y%m%d}-{who}@desk.roster",
            f"DTSTAMP:{self.made:%Y%m%dT%H%M%SZ}",
            *self.span(shift, date),
            f"SUMMARY:{text(summary)}",
            "END:VEVENT",
        ]

    def span(self, shift: int, date: datetime.date) -> list[str]:
        """When an event begins and ends."""
        if shift not in self.times:
            return [f"DTSTART;VALUE=DATE:{date:%Y%m%d}", f"DTEND;VALUE=DATE:{date + datetime.timedelta(1):%Y%m%d}"]
        times = self.times[shift]
        begin = datetime.datetime.combine(date, datetime.time()) + times.begin
        return [f"DTSTART:{begin:%Y%m%dT%H%M%S}", f"DTEND:{begin + times.length:%Y%m%dT%H%M%S}"]


def file_names(plan: Plan, folder: str) -> list[str]:
    """A name for the file of each nurse, each another."""
    found: list[str] = []
    for number, nurse in enumerate(plan.case.nurses):
        name = re.sub(r"[^\w.-]", "_", shown(nurse.name)).lstrip(".") or "nurse"
        path = os.path.join(folder, f"{name}.ics")
        found.append(os.path.join(folder, f"{name}-{number}.ics") if path.casefold() in map(str.casefold, found) else path)
    return found
