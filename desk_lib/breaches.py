"""Every day and slot at which a roster breaks H2 to H4 or an absence, in the words and in the order of the program, and what is broken
there."""
import collections.abc
import dataclasses
import re

from desk_lib.case import Roster, ShiftSkill, cover_on, shift_of
from desk_lib.days import day_name
from desk_lib.model import Plan, choice_name
from desk_lib.texts import Edit, Texts, shown

# How the line of a breach begins.
BREACH = re.compile(r"(H[234]|absent) week \d+ ")


@dataclasses.dataclass(frozen=True)
class Breach:
    """A breach: the line that the program prints of it, and more; of H2 the shift and the skill, and else the nurse."""

    line: str
    more: str
    rule: str
    day: int
    slot: ShiftSkill | None = None
    nurse: int = -1


def minimums(plan: Plan) -> collections.abc.Iterator[Breach]:
    """H2, by day, shift and skill."""
    case = plan.case
    for day in range(plan.days):
        have = cover_on(plan.roster, day)
        for (shift, skill), needs in case.needs.items():
            there, least = have[shift, skill], needs[day].least
            if there < least:
                names = f"{shown(case.shifts[shift].name)} {shown(case.skills[skill])}"
                line = f"H2 week {day // 7} {day_name(day)} {names}: {there} of {least}"
                yield Breach(line, f"the cover is {there}, and the minimum {least}", "H2", day, slot=(shift, skill))


def successions(plan: Plan) -> collections.abc.Iterator[Breach]:
    """H3, by nurse and day, the last shift of the history included."""
    for number, (nurse, row) in enumerate(zip(plan.case.nurses, plan.roster)):
        before = nurse.history.last
        for day, choice in enumerate(row):
            shift = shift_of(choice)
            if before is not None and shift is not None and not plan.case.can_follow((before, shift)):
                line = f"H3 week {day // 7} {day_name(day)} {shown(nurse.name)}"
                then, now = (shown(plan.case.shifts[number].name) for number in (before, shift))
                of_history = "" if day else ", the last shift of the history"
                yield Breach(line, f"{now} may not follow {then}{of_history}", "H3", day, nurse=number)
            before = shift


def skills(plan: Plan) -> collections.abc.Iterator[Breach]:
    """H4, by nurse and day."""
    for number, (nurse, row) in enumerate(zip(plan.case.nurses, plan.roster)):
        for day, choice in enumerate(row):
            if choice and choice[1] not in nurse.skills:
                name, skill = shown(nurse.name), shown(plan.case.skills[choice[1]])
                line = f"H4 week {day // 7} {day_name(day)} {name}"
                yield Breach(line, f"{name} hasn't the skill {skill}", "H4", day, nurse=number)


def absences(plan: Plan) -> collections.abc.Iterator[Breach]:
    """Worked days of absent nurses, by nurse and day."""
    for number, day in sorted(plan.case.absences):
        choice = plan.roster[number][day]
        if choice:
            name, works = shown(plan.case.nurses[number].name), choice_name(plan.case, choice)
            line = f"absent week {day // 7} {day_name(day)} {name}"
            fixed = ", and the day is fixed" if (number, day) in plan.case.fixed else ""
            yield Breach(line, f"{name} is absent, and the roster has {works}{fixed}", "absent", day, nurse=number)


def frozen_changes(plan: Plan, before: Roster, first_week: int) -> collections.abc.Iterator[Breach]:
    """Frozen days on which the roster is another than before, by nurse and day."""
    for number, (was, now) in enumerate(zip(before, plan.roster)):
        for day, (old, new) in enumerate(zip(was, now)):
            if old != new and plan.case.is_frozen(number, day, first_week):
                line = f"frozen week {day // 7} {day_name(day)} {shown(plan.case.nurses[number].name)}"
                more = f"the day is frozen, and was {choice_name(plan.case, old)}"
                yield Breach(line, more, "frozen", day, nurse=number)


def all_breaches(plan: Plan) -> list[Breach]:
    return [*minimums(plan), *successions(plan), *skills(plan), *absences(plan)]


def can_be_repaired(plan: Plan, breach: Breach) -> bool:
    """Whether days may change on which that depends: by 'roster plan', which changes no skill that a nurse lacks."""
    if breach.rule == "H2":
        return any((number, breach.day) not in plan.case.fixed for number in range(len(plan.roster)))
    days = {breach.day, max(0, breach.day - 1)} if breach.rule == "H3" else {breach.day}
    return breach.rule != "H4" and any((breach.nurse, day) not in plan.case.fixed for day in days)


def breach_lines(found: list[Breach]) -> list[str]:
    """A line for each breach, in words."""
    return [f"{breach.line}: {breach.more}" for breach in found]


def without_rules(texts: Texts, plan: Plan) -> Texts:
    """The texts without minimums, forbidden successions and absences. No cost has a part of these, so for these texts the program
    prints what a roster costs that breaks them."""
    words = plan.words
    edits: list[Edit] = []

    def put(at: int, new: bytes) -> None:
        edits.append((words.offset(at), len(words.words[at]), new))

    for first, others in plan.bundle.scenario[b"FORBIDDEN_SHIFT_TYPES_SUCCESSIONS"].lines:
        put(first + 1, b"0")
        for at in others:
            put(at, b"")
    for part in plan.bundle.weeks:
        for first, *_ in part[b"REQUIREMENTS"].lines:
            # (after the shift and the skill stand seven pairs of five words, of which the second is the minimum)
            for day in range(7):
                put(first + 3 + 5 * day, b"0")
        if b"ABSENCES" in part:
            put(part[b"ABSENCES"].at + 2, b"0")
            for first, _ in part[b"ABSENCES"].lines:
                put(first, b"")
                put(first + 1, b"")
    return texts.edited(edits)
