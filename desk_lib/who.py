"""The command `who`: who may take the shifts that are open, and why nobody may.

A shift is open if the roster gives it to an absent nurse, or if a day has fewer of it than its minimum. `roster who` says for each nurse
what the roster costs with her best row that has the shift, the others' rows as they are. If it names nobody, the desk gives the reason
for each nurse. There is no other reason: on days on which she isn't needed she may be off, which bars nothing.
"""
import collections.abc
import dataclasses
import datetime
import os

from desk_lib.breaches import minimums, without_rules
from desk_lib.case import Choice, cover_on, shift_of
from desk_lib.days import day_text, day_word, days_in
from desk_lib.findings import numbered
from desk_lib.lower_bound import words_of
from desk_lib.model import Plan, choice_name, solutions_of, without_absent
from desk_lib.program import Program, costs_by
from desk_lib.tables import aligned
from desk_lib.texts import DeskError, Text, Texts, plural, shown


@dataclasses.dataclass(frozen=True, order=True)
class Open:
    """An open shift: the day, the shift, and the skill if one is named."""

    day: int
    shift: int
    skill: int | None

    def name(self, plan: Plan) -> str:
        skill = "" if self.skill is None else f" {shown(plan.case.skills[self.skill])}"
        return f"{day_text(self.day)} {shown(plan.case.shifts[self.shift].name)}{skill}"

    def words(self, plan: Plan) -> list[str]:
        """The words for the program that name it."""
        skill = [] if self.skill is None else ["--skill", os.fsdecode(plan.case.skills[self.skill])]
        return ["--day", day_word(self.day), "--shift", os.fsdecode(plan.case.shifts[self.shift].name), *skill]

    def is_met(self, choice: Choice) -> bool:
        return choice is not None and choice[0] == self.shift and self.skill in (None, choice[1])


def open_in(word: str, plan: Plan, start: datetime.date | None) -> list[Open]:
    """The open shifts that a word of --shift names."""
    words = os.fsencode(word).split()
    if len(words) not in (2, 3):
        raise DeskError(f"--shift '{shown(word)}': the form is 'DAYS SHIFT [SKILL]', as '1:Wed Late Caretaker'", 2)
    try:
        days = days_in(words[:1], plan.case.weeks, start)
        shift = numbered("shift", words[1], [shift.name for shift in plan.case.shifts])
        skill = numbered("skill", words[2], plan.case.skills) if words[2:] else None
    except DeskError as why:
        raise DeskError(f"--shift '{shown(word)}': {why}", 2) from None
    return [Open(day, shift, skill) for day in days]


def below_minimum(plan: Plan) -> set[Open]:
    """The slots that have fewer nurses than their minimum."""
    return {Open(breach.day, *breach.slot) for breach in minimums(plan) if breach.slot}


def all_open(plan: Plan, first_week: int) -> list[Open]:
    """The open shifts of a roster, but on frozen days."""
    case, left = plan.case, set()
    for nurse, day in case.absences:
        choice = plan.roster[nurse][day]
        if choice:
            left.add(Open(day, *choice))
    found = left | below_minimum(dataclasses.replace(plan, roster=without_absent(plan)))
    nurses = range(len(case.nurses))
    frozen = {shift.day for shift in found if all(case.is_frozen(nurse, shift.day, first_week) for nurse in nurses)}
    return sorted(shift for shift in found if shift.day not in frozen)


@dataclasses.dataclass(frozen=True)
class Taker:
    """What a nurse who may take a shift comes to: what the roster then costs, how many days of hers change, and how many more nurses
    minimums lack, if the program says so."""

    penalty: int
    changed: int
    missed: int | None

    def text(self) -> str:
        return f"{self.penalty}, {plural(self.changed, 'day')}" + ("" if self.missed is None else f", {self.missed} missed")


class Takers:
    """Who may take shifts of a plan, in which absent nurses don't come."""

    def __init__(self, roster: Program, texts: Texts, plan: Plan, first_week: int):
        self.program, self.first_week = roster, first_week
        self.plan, self.case = dataclasses.replace(plan, roster=without_absent(plan)), plan.case
        text = Text("the roster without those who are absent", solutions_of(plan.case, self.plan.roster))
        self.texts = texts.before(plan.solutions_offset(), [text])
        self.numbers = {shown(nurse.name): number for number, nurse in enumerate(plan.case.nurses)}

    def counts(self, wanted: Open) -> dict[int, "Taker"]:
        """What the program says of each nurse who may take a shift, in its order."""
        answer = self.program.ask(["who", *wanted.words(self.plan), *words_of(self.first_week)], self.texts)
        found = {}
        for line in answer.output.decode("utf-8", "surrogateescape").splitlines():
            name, cost, *rest = line.split(" ")
            counts = dict(zip(rest[0::2], map(int, rest[1::2])))
            found[self.numbers[shown(name)]] = Taker(int(cost), counts["changed"], counts.get("missed"))
        return found

    def of(self, wanted: Open) -> dict[int, str]:
        """The same in words."""
        return {nurse: taker.text() for nurse, taker in self.counts(wanted).items()}

    def penalty(self) -> int:
        """What the roster costs without those who are absent, whatever it breaks."""
        return costs_by(self.program, without_rules(self.texts, self.plan))["total"]

    def lines(self, opens: list[Open]) -> list[str]:
        """A table of those who may take a shift, and for each shift that nobody may take the reasons."""
        found = [self.of(wanted) for wanted in opens]
        cost = self.penalty()
        below = below_minimum(self.plan)
        heads = [wanted.name(self.plan) + "!" * (wanted in below) for wanted in opens]
        if len(found) == 1:
            order = [*found[0]]
        else:
            order = [nurse for nurse in range(len(self.case.nurses)) if any(nurse in takers for takers in found)]
        rows = [[shown(self.case.nurses[nurse].name), *(self.cell(takers, nurse) for takers in found)] for nurse in order]
        legend = f"what the roster costs with it ({cost} without), and her changed days; ! below the minimum, * the best"
        lines = [legend, *aligned([["nurse", *heads], *rows])] if rows else []
        for wanted, takers in zip(opens, found):
            lines += [] if takers else self.reasons(wanted)
        return lines

    def cell(self, takers: dict[int, str], nurse: int) -> str:
        is_best = nurse == next(iter(takers), None)
        return f"{takers[nurse]}{' *' if is_best else '  '}" if nurse in takers else "-  "

    # ---- why nobody may

    def reasons(self, wanted: Open) -> list[str]:
        found = [f"  {shown(nurse.name)}: {self.reason(wanted, number)}" for number, nurse in enumerate(self.case.nurses)]
        return [f"{wanted.name(self.plan)}: nobody may take it", *found]

    def reason(self, wanted: Open, nurse: int) -> str:
        """Why a nurse may not take it."""
        now, skills = self.plan.roster[nurse][wanted.day], self.case.nurses[nurse].skills
        if wanted.skill not in (None, *skills) or not skills:
            return f"hasn't the skill {shown(self.case.skills[wanted.skill])}" if wanted.skill is not None else "has no skill"
        if (nurse, wanted.day) in self.case.absences:
            return "absent"
        held = self.held(nurse, wanted.day)
        if held:
            return f"{'has ' + choice_name(self.case, now) if now else 'is off'} then, {held}"
        return self.succession(wanted, nurse) or "each row of hers that has it breaks a succession or misses a minimum"

    def held(self, nurse: int, day: int) -> str:
        """Why a nurse can't do anything else on a day, if so."""
        now = self.plan.roster[nurse][day]
        if self.case.is_frozen(nurse, day, self.first_week):
            return "and the day is frozen"
        if now is None:
            return ""
        have, least = cover_on(self.plan.roster, day)[now], self.case.minimum(now, day)
        return f"of which {have} {'is' if have == 1 else 'are'} there and {least} needed" if have <= least else ""

    def succession(self, wanted: Open, nurse: int) -> str:
        """How a shift that she has to keep before or after bars it, if one does."""
        for day, is_before in ((wanted.day - 1, True), (wanted.day + 1, False)):
            shift, held = self.kept_shift(nurse, day)
            if shift is None or not held:
                continue
            first, second = (shift, wanted.shift) if is_before else (wanted.shift, shift)
            if not self.case.can_follow((first, second)):
                names = [shown(self.case.shifts[number].name) for number in (second, first, shift)]
                when = "before the first day" if day < 0 else f"on {day_text(day)}"
                return f"{names[0]} may not follow {names[1]}: she has {names[2]} {when}, {held}"
        return ""

    def kept_shift(self, nurse: int, day: int) -> tuple[int | None, str]:
        """The shift that a nurse has on a day, if any, and why she has to keep it, if so."""
        if day < 0:
            return self.case.nurses[nurse].history.last, "as the history says"
        if day >= self.plan.days:
            return None, ""
        return shift_of(self.plan.roster[nurse][day]), self.held(nurse, day)


def who_lines(
    named: collections.abc.Iterable[str], roster: Program, texts: Texts, plan: Plan, start: datetime.date | None, first_week: int
) -> list[str]:
    """What the command writes."""
    wanted = {shift for word in named for shift in open_in(word, plan, start)}
    opens = sorted(wanted, key=lambda shift: (shift.day, shift.shift, str(shift.skill))) or all_open(plan, first_week)
    if not opens:
        return ["no shift is open: no absent nurse has one, and no minimum is missed; --shift names one"]
    return Takers(roster, texts, plan, first_week).lines(opens)
