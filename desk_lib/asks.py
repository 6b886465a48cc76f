"""Asks: a text of the planner's own, of what is to be another and what is to stay.

    absent NURSE DAYS               the nurse can't work on these days: a hard rule
    gone NURSE DAYS                 as absent, and she isn't of the ward then: her contract is for the other days alone
    off NURSE DAYS                  the nurse asks to be off on these days
    wish NURSE SHIFT DAYS           the nurse asks for this shift on these days; 'Any' is each
    pin NURSE DAYS                  on these days the nurse is to do what the roster says now
    fix NURSE DAYS                  she does, by a hard rule
    duty NURSE DAY SHIFT [SKILL]    she has this shift then: it is put into the roster, and fixed
    need DAY SHIFT SKILL N          the minimum of this day's shift and skill is N
    today DAY                       all days before are past, and stay as they are for all nurses: a hard rule
    start DATE                      week 0 begins on this Monday: days may be dates

desk_lib/days.py says how days are named. What follows a '#' is a remark. An absence becomes a line of the section ABSENCES, and a day
that stays one of FIXED. A day off is asked for by an off request, and a pin by a wish or an off request: each costs 10 if it isn't
met, and a roster may well not meet it. So the desk looks at each roster, and reports what it fails. desk_lib/gone.py has the contract of
who is gone, and desk_lib/asked_texts.py the texts with all of it.
"""
import collections.abc
import dataclasses
import datetime
import typing

from desk_lib.case import Choice, NurseDay, Roster, ShiftSkill
from desk_lib.days import day_in, day_text, days_in, monday_in
from desk_lib.findings import nearest, numbered
from desk_lib.grammar import ANY, MOST_OF
from desk_lib.model import Plan, choice_name
from desk_lib.texts import DeskError, Text, plural, shown

# The form of each line, and how many words there are after the first one.
FORMS = {
    b"absent": ("absent NURSE DAYS", 2, 999),
    b"gone": ("gone NURSE DAYS", 2, 999),
    b"off": ("off NURSE DAYS", 2, 999),
    b"wish": ("wish NURSE SHIFT DAYS", 3, 999),
    b"pin": ("pin NURSE DAYS", 2, 999),
    b"fix": ("fix NURSE DAYS", 2, 999),
    b"duty": ("duty NURSE DAY SHIFT [SKILL]", 3, 4),
    b"need": ("need DAY SHIFT SKILL N", 4, 4),
    b"today": ("today DAY", 1, 1),
    b"start": ("start DATE", 1, 1),
}
Read = typing.TypeVar("Read")
# The kind of a text that has the asks of a ward: a line for each, by its number there.
OF_WARD = "asks of a ward"
# The shift of a wish for any.
ANY_SHIFT = -1
# Those by which the nurse can't work, those by which she does what the roster says now, and those that are hard rules of a day.
AWAY, KEEPING, FIXING = ("absent", "gone"), ("pin", "fix"), ("fix", "duty")


@dataclasses.dataclass(frozen=True)
class Ask:
    """A line of the text: the nurse, and what is to be done on which days."""

    line: int
    kind: str
    nurse: int
    days: dict[int, Choice]

    def is_met(self, day: int, choice: Choice) -> bool:
        """Whether a choice of the nurse on one of its days is what it asks for."""
        wanted = self.days[day]
        if self.kind == "wish" and wanted is not None:
            return choice is not None and wanted[0] in (ANY_SHIFT, choice[0])
        return choice == wanted

    def remedy(self, ward: str = "") -> str:
        """What keeps it, in the ward of this name if it is of one."""
        if ward and (self.kind in AWAY or self.kind == "duty"):
            return f"'desk repair {ward}' looks for a roster that keeps it"
        if self.kind in AWAY:
            return "'desk improve --plan' looks for a roster that keeps it"
        return "'desk improve --plan' puts it in" if self.kind == "duty" else "change it by hand"


def lines_of(text: Text) -> list[tuple[int, list[bytes]]]:
    """The lines that have words, with their numbers."""
    lines = [line.partition(b"#")[0].split() for line in text.data.splitlines()]
    return [(number, words) for number, words in enumerate(lines, 1) if words]


def place(text: Text, line: int) -> str:
    """Where a line stands: in a file, or as an ask of a ward."""
    return f"{shown(text.name)}, ask {line}" if text.kind == OF_WARD else f"{shown(text.name)}:{line}"


def wrong(text: Text, line: int, message: str) -> DeskError:
    return DeskError(f"{place(text, line)}: {message}")


def start_in(text: Text, start: datetime.date | None) -> datetime.date | None:
    """The Monday of week 0: the one that is given, or that of a line 'start'."""
    said = f"--start says {start}"
    for line, (kind, *rest) in lines_of(text):
        if kind == b"start" and len(rest) == 1:
            try:
                found = monday_in(shown(rest[0]))
            except DeskError as why:
                raise wrong(text, line, str(why)) from None
            if start not in (None, found):
                raise wrong(text, line, f"the first Monday is {found} here, and {said}; take one of them away")
            start, said = found, f"line {line} says {found}"
    return start


@dataclasses.dataclass(frozen=True)
class Held:
    """What no ask may change: the weeks before this one; and the days that are published, for those of whom nothing else is asked."""

    first_week: int = 0
    published: int = 0


class Asks:
    """The asks of a text, for a plan."""

    def __init__(self, text: Text, plan: Plan, start: datetime.date | None = None, since: bytes = b"", held: Held = Held()):
        """`since` is the day that --from names."""
        self.text, self.plan, self.start, self.held = text, plan, start, held
        self.nurses = {nurse.name: number for number, nurse in enumerate(plan.case.nurses)}
        self.asks: list[Ask] = []
        self.of_days: dict[tuple[int, int], tuple[Choice, int]] = {}
        # (minimums, by the number of the word in the texts, with the line of the ask)
        self.needs: dict[int, tuple[bytes, int]] = {}
        # (the roster with the duties in it; how many days are past, and which line says so)
        self.roster: Roster = [[*row] for row in plan.roster]
        self.past, self.past_by = 0, ""
        # (how many days were read of each ask)
        self.answers: list[str] = []
        if since:
            self.take_today(f"--from {shown(since)}", f"--from {shown(since)}", since)
        for line, (kind, *rest) in lines_of(text):
            self.take(line, kind, *rest)
        self.check()

    def wrong(self, line: int, message: str) -> DeskError:
        return wrong(self.text, line, message)

    @property
    def is_of_ward(self) -> bool:
        return self.text.kind == OF_WARD

    @property
    def asks_anything(self) -> bool:
        """Whether something is asked for, besides that days are past."""
        return bool(self.asks or self.needs)

    def line_name(self, line: int) -> str:
        return f"ask {line}" if self.is_of_ward else f"line {line}"

    def answer(self, line: int, text: str) -> None:
        self.answers.append(f"{place(self.text, line)}: {text}")

    def take(self, line: int, kind: bytes, *rest: bytes) -> None:
        """Takes a line."""
        if kind not in FORMS:
            raise self.wrong(line, f"'{shown(kind)}' stands here, and {' or '.join(map(shown, FORMS))} is due")
        form, least, most = FORMS[kind]
        if not least <= len(rest) <= most:
            days = ", and days as 0:Mon..0:Wed" if "DAYS" in form else ""
            raise self.wrong(line, f"the form of this line is '{form}', with a day as 0:Mon{days}")
        if kind == b"need":
            self.take_need(line, *rest)
        elif kind == b"today":
            self.take_today(place(self.text, line), self.line_name(line), *rest)
        elif kind != b"start":
            self.take_ask(self.ask(line, shown(kind), self.number(line, "nurse", rest[0], [*self.nurses]), *rest[1:]))

    def check(self) -> None:
        """Refuses what can't be together."""
        for ask in self.asks:
            for day, choice in ask.days.items():
                if day < max(self.past, 7 * self.held.first_week):
                    self.check_past(ask, day, choice)
        count, most = len(self.plan.case.contracts) + len(self.gone), MOST_OF[b"CONTRACTS"]
        if self.gone and count > most:
            message = f"each nurse who is gone gets a contract of her own, and {count} contracts are more than {most}"
            raise self.wrong(max(ask.line for ask in self.asks if ask.kind == "gone"), f"{message}; let fewer be gone")

    def check_past(self, ask: Ask, day: int, choice: Choice) -> None:
        """Refuses an ask that would change a day which is past. A ward's asks stay when their days are past, so there a day may be
        fixed."""
        now, name = self.plan.roster[ask.nurse][day], shown(self.plan.case.nurses[ask.nurse].name)
        by = self.past_by if day < self.past else f"--from {self.held.first_week}"
        head, past = f"{ask.kind} {name} {day_text(day)}", f"the day is past by {by}"
        if ask.kind in AWAY and now:
            message = f"{head}: the roster has {choice_name(self.plan.case, now)} then, and {past}"
            raise self.wrong(ask.line, f"{message}; let the line begin later")
        if ask.kind == "duty" and now != choice:
            message = f"{head}: the roster has {choice_name(self.plan.case, now)} then, and {past}, so that it stays"
            raise self.wrong(ask.line, f"{message}; name a later day, or take the line away")
        if ask.kind in FIXING and not self.is_of_ward:
            raise self.wrong(ask.line, f"{head}: {past}, and stays as it is; take the line away")

    # ---- one line

    def ask(self, line: int, kind: str, nurse: int, *rest: bytes) -> Ask:
        """What a line asks of a nurse."""
        if kind == "duty":
            return Ask(line, kind, nurse, self.duty(line, nurse, *rest))
        wished: Choice = None
        if kind == "wish":
            word, *rest_days = rest
            names = [known.name for known in self.plan.case.shifts]
            wished = (ANY_SHIFT if word == ANY else self.number(line, "shift", word, names), ANY_SHIFT)
            rest = (*rest_days,)
        days = self.read(line, lambda: days_in(rest, self.plan.case.weeks, self.start))
        return Ask(line, kind, nurse, {day: self.kept(line, kind, nurse, day) if kind in KEEPING else wished for day in days})

    def take_ask(self, ask: Ask) -> None:
        for day, choice in ask.days.items():
            before = self.of_days.setdefault((ask.nurse, day), (choice, ask.line))
            # (a wish for a shift goes with a duty or another wish, and not with a day off)
            has_wish = any(of is not None and of[1] == ANY_SHIFT for of in (before[0], choice))
            if before[0] != choice and not (has_wish and None not in (before[0], choice)):
                message = f"{day_text(day)} is asked for otherwise in {self.line_name(before[1])}"
                raise self.wrong(ask.line, f"{message}; take one of them away")
            if ask.kind == "duty":
                self.roster[ask.nurse][day] = choice
        self.asks.append(ask)
        duty = ""
        if ask.kind == "duty":
            duty = "".join(f" {day_text(day)} {choice_name(self.plan.case, choice)}" for day, choice in ask.days.items())
        name = shown(self.plan.case.nurses[ask.nurse].name)
        self.answer(ask.line, f"{ask.kind} {name}{duty}: {plural(len(ask.days), 'day')}")

    def take_need(self, line: int, word: bytes, shift: bytes, skill: bytes, count: bytes) -> None:
        """Notes the minimum of a day's shift and skill."""
        day = self.day(line, word)
        week, weekday = divmod(day, 7)
        if not (count.isdigit() and len(count) <= 3):
            raise self.wrong(line, f"'{shown(count)}' is no number from 0 to 999")
        words = self.plan.words.words
        lines = self.plan.bundle.weeks[week][b"REQUIREMENTS"].lines
        at = next((first for first, second, _ in lines if words[first] == shift and words[second] == skill), None)
        if at is None:
            known = {words[first] + b" " + words[second] for first, second, _ in lines}
            like = nearest(shift + b" " + skill, known)
            raise self.wrong(line, f"{day_text(day)} has no requirement of '{shown(shift)} {shown(skill)}'{like}")
        # (after the shift and the skill stand pairs of five words, of which the second is the minimum)
        before = self.needs.setdefault(at + 2 + 5 * weekday + 1, (count, line))
        if int(before[0]) != int(count):
            raise self.wrong(line, f"{day_text(day)} needs otherwise in {self.line_name(before[1])}; take one of them away")
        self.answer(line, f"need {day_text(day)} {shown(shift)} {shown(skill)} {int(count)}: 1 day")

    def take_today(self, source: str, by: str, word: bytes) -> None:
        """Notes what day it is, by the line or the option that stands there."""
        try:
            day = day_in(word, self.plan.case.weeks, self.start)
        except DeskError as why:
            raise DeskError(f"{source}: {why}", why.status if by == source else 1) from None
        if self.past_by and day != self.past:
            raise DeskError(f"{source}: {day_text(self.past)} is today by {self.past_by}; take one of them away")
        if day and not any(any(row[:day]) for row in self.roster):
            message = f"nobody works before {day_text(day)} in the roster given, so nothing can be kept"
            raise DeskError(f"{source}: {message}; give the roster of these days, or take this away")
        self.past, self.past_by = day, by
        self.answers.append(f"{source}: today is {day_text(day)}: {plural(day, 'day')} before it")

    def duty(self, line: int, nurse: int, word: bytes, shift_word: bytes, skill_word: bytes | None = None) -> dict[int, Choice]:
        """The day of a duty, and what it is. If no skill is named it is the one that the nurse has then by the roster, or that of her
        skills of which the shift lacks most."""
        case, day = self.plan.case, self.day(line, word)
        shift = self.number(line, "shift", shift_word, [known.name for known in case.shifts])
        skills = sorted(case.nurses[nurse].skills)
        if skill_word is None:
            return {day: self.lacking_most(day, [(shift, skill) for skill in skills], self.plan.roster[nurse][day])}
        skill = self.number(line, "skill", skill_word, case.skills)
        if skill not in skills:
            has = " or ".join(shown(case.skills[own]) for own in skills)
            message = f"{shown(case.nurses[nurse].name)} hasn't the skill {shown(skill_word)}"
            raise self.wrong(line, f"{message}; name {has or 'another nurse'}")
        return {day: (shift, skill)}

    def lacking_most(self, day: int, choices: list[ShiftSkill], now: Choice) -> Choice:
        """Of these choices the one that is there now, or that of which the day lacks most: of the minimum, then of the optimum."""

        def lacks(choice: ShiftSkill) -> tuple[bool, int, int]:
            need = self.plan.case.needs[choice][day] if choice in self.plan.case.needs else (0, 0)
            have = sum(row[day] == choice for row in self.roster)
            return choice == now, max(0, need[0] - have), max(0, need[1] - have)

        return max(choices, key=lacks)

    def kept(self, line: int, kind: str, nurse: int, day: int) -> Choice:
        """What the roster says that a nurse does on a day. If nobody works in that week there is no roster to keep."""
        week = slice(day // 7 * 7, day // 7 * 7 + 7)
        if not any(any(row[week]) for row in self.plan.roster):
            name = shown(self.plan.case.nurses[nurse].name)
            message = f"{kind} {name} {day_text(day)}: nobody works in this week of the roster given, so nothing can be kept"
            raise self.wrong(line, f"{message}; give a roster of that week, or take the line away")
        return self.plan.roster[nurse][day]

    def number(self, line: int, what: str, word: bytes, names: list[bytes]) -> int:
        return self.read(line, lambda: numbered(what, word, names))

    def day(self, line: int, word: bytes) -> int:
        return self.read(line, lambda: day_in(word, self.plan.case.weeks, self.start))

    def read(self, line: int, read: collections.abc.Callable[[], Read]) -> Read:
        """What is read of a line. If it can't be read, the error names the line."""
        try:
            return read()
        except DeskError as why:
            raise self.wrong(line, str(why)) from None

    # ---- all lines

    def days_of(self, *kinds: str) -> dict[NurseDay, Choice]:
        """What asks of these kinds name: by the nurse and the day what she is to do then."""
        return {(ask.nurse, day): choice for ask in self.asks if ask.kind in kinds for day, choice in ask.days.items()}

    @property
    def wishes(self) -> set[tuple[NurseDay, ShiftSkill]]:
        """The wishes to work: the nurse, the day, and the shift."""
        wished = [ask for ask in self.asks if ask.kind == "wish"]
        return {((ask.nurse, day), choice) for ask in wished for day, choice in ask.days.items() if choice}

    @property
    def fixed(self) -> set[NurseDay]:
        """The nurses and days that stay as they are."""
        past = {(nurse, day) for nurse in range(len(self.roster)) for day in range(self.past)}
        free = {*self.days_of(*AWAY, "duty")}
        held = {(nurse, day) for nurse in range(len(self.roster)) for day in range(self.held.published)}
        return past.union(held - free, self.days_of(*FIXING))

    @property
    def gone(self) -> dict[int, set[int]]:
        """The days on which nurses are gone, by the nurse."""
        found: dict[int, set[int]] = {}
        for nurse, day in self.days_of("gone"):
            found.setdefault(nurse, set()).add(day)
        return found

    def failed(self, roster: Roster) -> list[str]:
        """What a roster fails, with a line for each line of the text, and how much is as it was asked for."""
        found, count, ward = [], 0, shown(self.text.name) if self.is_of_ward else ""
        for ask in self.asks:
            days = [day for day in ask.days if not ask.is_met(day, roster[ask.nurse][day])]
            count += len(days)
            if days:
                works = ", ".join(f"{day_text(day)} {choice_name(self.plan.case, roster[ask.nurse][day])}" for day in days)
                name = shown(self.plan.case.nurses[ask.nurse].name)
                found.append(f"{place(self.text, ask.line)}: {ask.kind} {name} isn't kept: {works}; {ask.remedy(ward)}")
        whole = sum(len(ask.days) for ask in self.asks)
        return [*found, f"{shown(self.text.name)}: {whole - count} of {plural(whole, 'day')} as asked for"] if self.asks else []
