"""The asks of a ward as the page shows them, those that it adds, and the staff against the minimums."""
import collections
import datetime
import os
import re
import typing

from desk_lib import shortage
from desk_lib.asks import FORMS
from desk_lib.asks import Ask as ReadAsk
from desk_lib.days import TO, date_in, day_text, with_day_texts
from desk_lib.grammar import ANY
from desk_lib.serve.asked import Json, Refused, list_in, maybe_number_in, number_in, of_desk, refused, text_in
from desk_lib.serve.changes import Changes
from desk_lib.serve.month import Month, local_time
from desk_lib.serve.screen import Screen
from desk_lib.serve.snapshot import Snapshot
from desk_lib.texts import DeskError, shown
from desk_lib.ward.store import Ask
from desk_lib.ward.texts import spans_at

# How many asks a request adds at most, how long a line is, and how many of the tightest days are named.
MOST_ASKS, LONGEST, TIGHTEST = 100, 4000, 5
# The kinds of asks: what is said of a nurse, whether it is a hard rule, and the fields of a form.
KINDS: dict[str, tuple[str, bool, tuple[str, ...]]] = {
    "off": ("asks to be off", False, ("nurse", "first", "last")),
    "wish": ("asks to work", False, ("nurse", "shift", "first", "last")),
    "absent": ("is absent", True, ("nurse", "first", "last")),
    "gone": ("is gone", True, ("nurse", "first", "last")),
    "pin": ("asks to keep what is planned", False, ("nurse", "first", "last")),
    "fix": ("is fixed as planned", True, ("nurse", "first", "last")),
    "duty": ("has promised a shift", True, ("nurse", "shift", "skill", "first")),
    "need": ("another minimum", True, ("shift", "skill", "count", "first")),
}


class AskLine(typing.NamedTuple):
    """A line of an ask, in parts: what is named, and the dates."""

    kind: str
    nurse: bytes
    shift: bytes
    skill: bytes
    least: int | None
    spans: tuple[tuple[datetime.date, datetime.date], ...]


def parts_of(line: bytes) -> AskLine:
    """The parts of a line as a ward keeps it."""
    words = line.split()
    kind, at = shown(words[0]), spans_at(words)
    spans = []
    for word in words[at]:
        begin, to, end = word.partition(TO)
        spans.append((date_in(shown(begin)), date_in(shown(end if to else begin))))
    if kind == "need":
        return AskLine(kind, b"", words[2], words[3], int(words[4]), (*spans,))
    shift = words[3] if kind == "duty" else words[2] if kind == "wish" else b""
    skill = words[4] if kind == "duty" and words[4:] else b""
    return AskLine(kind, words[1], shift, skill, None, (*spans,))


class AsksView:
    """The asks of a snapshot."""

    def __init__(self, snapshot: Snapshot, today: int):
        self.snapshot, self.today, self.case = snapshot, today, snapshot.case
        self.start, self.days = snapshot.ward.state.input.start, snapshot.plan.days
        self.nurses = {nurse.name: number for number, nurse in enumerate(self.case.nurses)}
        self.shifts = {shift.name: number for number, shift in enumerate(self.case.shifts)}
        self.skills = {name: number for number, name in enumerate(self.case.skills)}
        self.read = {ask.line: ask for ask in snapshot.numbers.asks.asks}
        self.month = Month(snapshot, today)

    def json(self) -> Json:
        asks = [self.ask_json(ask) for ask in self.snapshot.ward.state.asks]
        return {"asks": asks + self.of_files(), "kinds": kinds_json(), "staff": self.staff_json()}

    def day(self, date: datetime.date) -> int:
        return (date - self.start).days

    def ask_json(self, ask: Ask) -> Json:
        """An ask of the ward."""
        parts = parts_of(ask.line)
        every = sorted({day for first, last in parts.spans for day in range(self.day(first), self.day(last) + 1)})
        days = [day for day in every if 0 <= day < self.days]
        state, words = self.state_of(ask, parts, days)
        return {
            "number": ask.number,
            "line": shown(ask.line),
            "kind": parts.kind,
            "nurse": self.nurses.get(parts.nurse),
            "shift": self.shifts.get(parts.shift),
            "skill": self.skills.get(parts.skill),
            "count": parts.least,
            "first": every[0],
            "last": every[-1],
            "days": days,
            "text": ", ".join(span_text(self.day(first), self.day(last)) for first, last in parts.spans),
            "words": self.words_of(parts),
            "is_hard": KINDS[parts.kind][1],
            "state": state,
            "state_words": words,
            "author": ask.author,
            "written": ask.written,
            "at": local_time(ask.written),
            "past": every[-1] < self.today,
        }

    def words_of(self, parts: AskLine) -> str:
        """What is asked for, in words."""
        shift = "any shift" if parts.shift == ANY else shown(parts.shift)
        if parts.kind == "need":
            return f"{shift} {shown(parts.skill)}: a minimum of {parts.least}"
        return " ".join(
            filter(None, [KINDS[parts.kind][0], shift and f"({shift}{' ' + shown(parts.skill) if parts.skill else ''})"])
        )

    def state_of(self, ask: Ask, parts: AskLine, days: list[int]) -> tuple[str, str]:
        """Whether the roster keeps an ask, and that in words."""
        if not days:
            return "later", "in a later month"
        read, is_hard = self.read.get(ask.number), KINDS[parts.kind][1]
        if parts.kind == "need":
            return "kept", "in force"
        if read is None or not self.snapshot.has_roster:
            return "open", "open"
        failed = [day for day in read.days if not self.is_met(read, day)]
        if not failed:
            return ("kept", "kept") if is_hard else ("met", "met")
        named = ", ".join(map(day_text, failed[:3])) + (f" and {len(failed) - 3} more" if failed[3:] else "")
        return ("broken" if is_hard else "unmet"), f"not {'kept' if is_hard else 'met'} on {named}"

    def is_met(self, read: ReadAsk, day: int) -> bool:
        return read.is_met(day, self.snapshot.plan.roster[read.nurse][day])

    def of_files(self) -> list[Json]:
        """The requests of the week data, which are no asks of the ward and can't be withdrawn."""
        own = {(ask.nurse, day) for ask in self.read.values() for day in ask.days}
        found = []
        for nurse, day in sorted(self.month.requested - own, key=lambda at: (at[1], at[0])):
            is_met = not self.snapshot.costing.request_cost(nurse, day, self.snapshot.plan.roster[nurse][day])
            state = "open" if not self.snapshot.has_roster else "met" if is_met else "unmet"
            found.append(self.of_file(nurse, day, state))
        return found

    def of_file(self, nurse: int, day: int, state: str) -> Json:
        kind = "off" if (nurse, day) in self.snapshot.costing.off else "wish"
        of_day = {"first": day, "last": day, "days": [day], "text": day_text(day), "past": day < self.today}
        words = {
            "words": self.month.request_words(nurse, day),
            "state": state,
            "state_words": {"unmet": "not met"}.get(state, state),
        }
        nothing = {
            "line": "",
            "shift": None,
            "skill": None,
            "count": None,
            "is_hard": False,
            "author": "",
            "written": "",
            "at": "",
        }
        return {"number": None, "kind": kind, "nurse": nurse, **of_day, **words, **nothing}

    # ---- staff against minimums

    def staff_json(self) -> Json:
        """How many the minimums need, and how many there are: over all days by skill, and on each day."""
        needed: collections.Counter[int] = collections.Counter()
        for (_, skill), days in self.case.needs.items():
            needed[skill] += sum(limits.least for limits in days)
        allowed = [shortage.assignments_allowed(self.snapshot.plan, nurse) for nurse in range(len(self.case.nurses))]
        skills = []
        for skill, name in enumerate(self.case.skills):
            there = sum(most for most, nurse in zip(allowed, self.case.nurses) if skill in nurse.skills)
            skills.append({"skill": skill, "name": shown(name), "needed": needed[skill], "allowed": there})
        of_days = [self.staff_on(day) for day in range(self.days)]
        ahead = [day for day in of_days if not day["past"]] or of_days
        tightest = sorted(ahead, key=lambda day: (day["spare"], day["day"]))[:TIGHTEST]
        return {"skills": skills, "days": of_days, "tightest": [day["day"] for day in tightest], "short": self.short_lines()}

    def staff_on(self, day: int) -> Json:
        needed = sum(days[day].least for days in self.case.needs.values())
        can = sum((nurse, day) not in self.case.absences for nurse in range(len(self.case.nurses)))
        return {"day": day, "text": day_text(day), "needed": needed, "can": can, "spare": can - needed, "past": day < self.today}

    def short_lines(self) -> list[str]:
        """The days that no roster can staff, and what the contracts don't allow, in words."""
        over_all = shortage.short_over_all(self.snapshot.plan)
        found = [line.line(self.case) for line in shortage.shortages(self.snapshot.plan, 0) if line.day >= self.today]
        return [*([over_all] if over_all else []), *map(with_day_texts, found)]


def kinds_json() -> list[Json]:
    forms = {shown(word): form for word, (form, *_) in FORMS.items()}
    return [
        {"kind": kind, "name": name, "form": forms[kind], "fields": [*fields], "is_hard": is_hard}
        for kind, (name, is_hard, fields) in KINDS.items()
    ]


def span_text(first: int, last: int) -> str:
    return day_text(first) if first == last else f"{day_text(first)} to {day_text(last)}"


# ---- asks that a request adds


def lines_in(given: Json, snapshot: Snapshot, field: str = "asks") -> list[str]:
    """The lines of the asks of a request, in words or by fields."""
    asks = list_in(given, field, MOST_ASKS)
    return [text_in(ask, "line", LONGEST) if "line" in ask else line_in(ask, snapshot) for ask in asks]


def line_in(ask: Json, snapshot: Snapshot) -> str:
    """The line of an ask that is given by fields."""
    kind, case = ask.get("kind"), snapshot.case
    if not isinstance(kind, str) or kind not in KINDS:
        raise refused(f"kind: one of {', '.join(KINDS)} is due", "kind")
    fields = KINDS[kind][2]

    def name_in(what: str, names: list[bytes]) -> str:
        return os.fsdecode(names[number_in(ask, what, 0, len(names) - 1)])

    days = days_in(ask, snapshot, "last" in fields)
    shifts = [shift.name for shift in case.shifts]
    if kind == "need":
        return f"need {days} {name_in('shift', shifts)} {name_in('skill', case.skills)} {number_in(ask, 'count', 0, 999)}"
    nurse = name_in("nurse", [nurse.name for nurse in case.nurses])
    if kind == "duty":
        skill = "" if ask.get("skill") is None else f" {name_in('skill', case.skills)}"
        return f"duty {nurse} {days} {name_in('shift', shifts)}{skill}"
    if kind == "wish":
        shift = "Any" if maybe_number_in(ask, "shift", 0, len(shifts) - 1) is None else name_in("shift", shifts)
        return f"wish {nurse} {shift} {days}"
    return f"{kind} {nurse} {days}"


def days_in(ask: Json, snapshot: Snapshot, is_span: bool) -> str:
    """The dates of an ask that is given by fields. They may be after the ward's last day."""
    start = snapshot.ward.state.input.start
    first = number_in(ask, "first", 0, 9999)
    last = number_in(ask, "last", 0, 9999, first) if is_span else first
    if last < first:
        raise refused("The last day is before the first.", "last")
    begin, end = (start + datetime.timedelta(day) for day in (first, last))
    return str(begin) if first == last else f"{begin}..{end}"


class Asks:
    """What the page asks of asks."""

    def __init__(self, screen: Screen, changes: Changes):
        self.screen, self.changes = screen, changes

    def view(self, number: int | None) -> bytes:
        """The asks of a version as JSON."""
        snapshot = self.screen.snapshot(number)
        return self.screen.answer(snapshot, ("asks",), lambda: AsksView(snapshot, self.screen.today()).json())

    def add(self, given: Json, lines: list[str] | None = None) -> Json:
        """Adds asks: those of the request, or of these lines."""
        with self.screen.lock:
            snapshot = self.screen.named(given)
            lines = lines_in(given, snapshot) if lines is None else lines
            try:
                answer, asks = self.changes.add_asks(given, lines)
            except DeskError as why:
                raise ask_refused(why, lines) from None
            view = AsksView(self.screen.snapshot(), self.screen.today())
            return {**answer, "asks": [view.ask_json(ask) for ask in asks], "staff": view.staff_json()}


def ask_refused(why: DeskError, lines: list[str]) -> Refused:
    """The refusal of an ask, with the number of the one that is wrong if it is said."""
    found = of_desk(why)
    message = re.sub(r"; nothing was changed\b.*", "", found.words)
    message = message if message.endswith(".") else f"{message}. Nothing was changed."
    number = next((at for at, line in enumerate(lines) if f"ask '{shown(line)[:80]}" in str(why)), None)
    return Refused(found.status, found.kind, message, field="line", number=number)
