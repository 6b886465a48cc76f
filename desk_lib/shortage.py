"""Days that no roster can staff: their minimums are above the nurses who can come, however these take the day's slots.

Nurses are matched to the slots of one day at a time: each to one at most, of a skill that she has, unless she is absent. On a frozen day
she takes what the roster says; and if the day before is known (the history's, or a frozen one), no shift that is forbidden after it, nor
one before a frozen day that may not follow it.
"""
import collections
import dataclasses
import itertools

from desk_lib.case import Case, ShiftSkill
from desk_lib.days import asked_day, day_text
from desk_lib.model import Plan
from desk_lib.texts import plural, shown


@dataclasses.dataclass(frozen=True)
class Shortage:
    """Slots of a day that together need more nurses than can come for them: how many come, and the minimums that can be met.
    `has_known_neighbour` says that the day before or after is known, so that not every nurse can take every shift."""

    day: int
    has_known_neighbour: bool
    slots: tuple[ShiftSkill, ...]
    needed: int
    coming: int
    met: tuple[tuple[ShiftSkill, int], ...]

    def line(self, case: Case) -> str:
        """The shortage in words, with the lines of asks that lower the minimums."""
        asks = " and ".join(f"need {asked_day(self.day)} {slot_name(case, slot)} {least}" for slot, least in self.met)
        return f"{day_text(self.day)} needs {self.needed} {self.named(case)}, {self.coming} can come: {asks}"

    def named(self, case: Case) -> str:
        """The skills that are needed; with the shift if others of the day could have them, or not every nurse can take it."""
        needed = [slot for slot, limits in case.needs.items() if limits[self.day].least]
        found = []
        for skill in sorted({skill for _, skill in self.slots}):
            own = [slot for slot in self.slots if slot[1] == skill]
            is_whole = not self.has_known_neighbour and len(own) == sum(slot[1] == skill for slot in needed)
            found += [shown(case.skills[skill])] if is_whole else [slot_name(case, slot) for slot in own]
        return " or ".join(found)


def slot_name(case: Case, slot: ShiftSkill) -> str:
    return f"{shown(case.shifts[slot[0]].name)} {shown(case.skills[slot[1]])}"


class Matching:
    """As many nurses as can be in the slots of a day, each in one."""

    def __init__(self, needed: dict[ShiftSkill, int], able: list[list[ShiftSkill]]):
        """How many nurses each slot needs, and the slots that each nurse can take."""
        self.needed, self.able = needed, able
        self.nurses: dict[ShiftSkill, list[int]] = {slot: [] for slot in needed}
        left = sum(needed.values())
        for nurse in range(len(able)):
            # (once all slots are taken, nobody more is needed)
            left -= bool(left) and self.put(nurse, set())

    def put(self, nurse: int, tried: set[ShiftSkill]) -> bool:
        """Puts a nurse into a slot, and others into other slots if that leaves one for her; says whether it could be done."""
        for slot in self.able[nurse]:
            if slot in tried:
                continue
            tried.add(slot)
            there = self.nurses[slot]
            if len(there) < self.needed[slot]:
                there.append(nurse)
                return True
            for number, other in enumerate(there):
                if self.put(other, tried):
                    there[number] = nurse
                    return True
        return False

    def short(self) -> list[list[ShiftSkill]]:
        """The groups of slots that are short. No slot is in two of them."""
        found: list[set[ShiftSkill]] = []
        for slot, needed in self.needed.items():
            if len(self.nurses[slot]) < needed:
                group = self.group(slot)
                # (groups that have a slot in common are short of the same nurses)
                joined = [other for other in found if other & group]
                found = [other for other in found if other not in joined] + [group.union(*joined)]
        return sorted(sorted(group) for group in found)

    def group(self, slot: ShiftSkill) -> set[ShiftSkill]:
        """A slot, and all slots in which those are who could be there or in such a slot. No one else can come to these."""
        found = [slot]
        for reached in found:
            could = {nurse for nurse, slots in enumerate(self.able) if reached in slots}
            found += [other for other, there in self.nurses.items() if other not in found and could & {*there}]
        return {*found}


def able_on(plan: Plan, number: int, day: int, first_week: int, needed: dict[ShiftSkill, int]) -> list[ShiftSkill]:
    """The slots of a day that a nurse can take."""
    case, now, nurse = plan.case, plan.roster[number][day], plan.case.nurses[number]
    if case.is_frozen(number, day, first_week):
        return [now] if now is not None and now in needed else []
    if (number, day) in case.absences:
        return []
    before, after = neighbours(plan, number, day, first_week)
    slots = [(shift, skill) for shift, skill in needed if skill in nurse.skills]
    return [slot for slot in slots if case.can_follow((before, slot[0], after))]


def neighbours(plan: Plan, number: int, day: int, first_week: int) -> tuple[int | None, int | None]:
    """The shifts of a nurse on the day before and on the day after, if these are known."""
    found = []
    for other in (day - 1, day + 1):
        is_known = 0 <= other < plan.days and plan.case.is_frozen(number, other, first_week)
        choice = plan.roster[number][other] if is_known else None
        found.append(choice[0] if choice else None)
    return plan.case.nurses[number].history.last if day == 0 else found[0], found[1]


def shortages_on(plan: Plan, day: int, first_week: int) -> list[Shortage]:
    case = plan.case
    needed = {slot: limits[day].least for slot, limits in case.needs.items() if limits[day].least}
    able = [able_on(plan, number, day, first_week, needed) for number in range(len(case.nurses))]
    matching, found = Matching(needed, able), []
    is_next_to_fixed = any(at in case.fixed for at in itertools.product(range(len(able)), (day - 1, day + 1)))
    has_known_neighbour = day in (0, 7 * first_week) or is_next_to_fixed
    for slots in matching.short():
        have = {slot: len(matching.nurses[slot]) for slot in slots}
        met = tuple((slot, have[slot]) for slot in slots if have[slot] < needed[slot])
        needs = sum(needed[slot] for slot in slots)
        found.append(Shortage(day, has_known_neighbour, tuple(slots), needs, sum(have.values()), met))
    return found


def shortages(plan: Plan, first_week: int) -> list[Shortage]:
    """All of a plan of which the weeks before this one are frozen, and its fixed days, by day."""
    return [short for day in range(plan.days) for short in shortages_on(plan, day, first_week)]


def short_over_all(plan: Plan) -> str:
    """What of the minimums of all weeks goes beyond what the contracts allow, in words; nothing if they suffice.

    Each nurse has as many assignments as her contract allows with those of the history, on days on which she isn't absent, and gives
    each to a skill of hers. By the theorem of the greatest flow and the least cut, that suffices if for each group of
    skills those who have one of them suffice for what the group needs."""
    case, needed = plan.case, collections.Counter[int]()
    for (_, skill), days in case.needs.items():
        needed[skill] += sum(limits.least for limits in days)
    allowed = [assignments_allowed(plan, number) for number in range(len(case.nurses))]
    skills, short = range(len(case.skills)), {}
    for group in (group for count in range(1, len(skills) + 1) for group in itertools.combinations(skills, count)):
        there = sum(most for most, nurse in zip(allowed, case.nurses) if {*nurse.skills} & {*group})
        short[group] = sum(needed[skill] for skill in group) - there
    worst = max(short, key=lambda group: (short[group], -len(group)))
    if short[worst] <= 0:
        return ""
    # (the group that is short of the most, and each skill that is short by itself)
    alone = [f"{shown(case.skills[skill])} {short[(skill,)]}" for skill in skills if worst != (skill,) and short[(skill,)] > 0]
    names = "all skills" if len(worst) == len(skills) else " and ".join(shown(case.skills[skill]) for skill in worst)
    need = sum(needed[skill] for skill in worst)
    message = (
        f"over all weeks the minimums need {plural(need, 'assignment')} of {names}, and the contracts of those who can come allow"
    )
    by_themselves = f" (by themselves: {', '.join(alone)})" if alone else ""
    return f"{message} {need - short[worst]}: {short[worst]} short{by_themselves}, each of which costs 20 by S6"


def assignments_allowed(plan: Plan, number: int) -> int:
    """How many assignments a nurse may have by her contract, on the days on which she can come."""
    nurse = plan.case.nurses[number]
    days = sum((number, day) not in plan.case.absences for day in range(plan.days))
    return max(0, min(days, plan.case.contracts[nurse.contract].assignments.greatest - nurse.history.assignments))
