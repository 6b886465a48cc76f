"""A roster without the changes for which no hard rule asks: they are taken back, as far as the others let them be."""
import collections
import itertools

from desk_lib.case import Choice, NurseDay, Roster, ShiftSkill, cover_on, shift_of
from desk_lib.model import Plan


class Trimming:
    """A roster that keeps the hard rules, and the plan to which it is to come nearer."""

    def __init__(self, plan: Plan, roster: Roster):
        self.plan, self.case, self.before = plan, plan.case, plan.roster
        self.roster = [[*row] for row in roster]
        self.covers = [cover_on(roster, day) for day in range(plan.days)]

    def changes(self) -> list[NurseDay]:
        """The nurses and days on which it is another."""
        rows = enumerate(zip(self.before, self.roster))
        return [(nurse, day) for nurse, (was, now) in rows for day in range(self.plan.days) if was[day] != now[day]]

    def trimmed(self) -> Roster:
        """Takes back what can be: first skills, then one group of changes after the other, until none can."""
        is_new = True
        while is_new:
            changes = self.changes()
            of_skills = [change for change in changes if self.is_skill(*change)]
            is_new = any([self.take_back(group) for group in [of_skills, *groups(of_skills), *groups(changes)]])
        return self.roster

    def with_skills_as_before(self) -> Roster:
        """The roster in which those who keep their shift keep its skill, too, as far as the others of that shift can take theirs.
        The cover stays."""
        for day in range(self.plan.days):
            for shift in range(len(self.case.shifts)):
                self.keep_skills(day, shift)
        return [[*row] for row in self.roster]

    def keep_skills(self, day: int, shift: int) -> None:
        """The same for a shift of a day."""
        there = [nurse for nurse, row in enumerate(self.roster) if shift_of(row[day]) == shift]
        keeping = [nurse for nurse in there if shift_of(self.before[nurse][day]) == shift]
        left = collections.Counter(choice for choice in (self.roster[nurse][day] for nurse in there) if choice)
        left.subtract(choice for choice in (self.before[nurse][day] for nurse in keeping) if choice)
        if any(count < 0 for count in left.values()):
            return
        others = [nurse for nurse in there if nurse not in keeping]
        given = self.given_out(others, [choice for choice in left.elements()])
        if given is not None:
            for nurse, choice in [*((nurse, self.before[nurse][day]) for nurse in keeping), *given.items()]:
                self.put(nurse, day, choice)

    def given_out(self, nurses: list[int], choices: list[ShiftSkill]) -> dict[int, ShiftSkill] | None:
        """A choice for each of these nurses by her skills, so that all are taken; None if there is no such way."""
        if not nurses:
            return {}
        first, *others = nurses
        for at, choice in enumerate(choices):
            if choice not in choices[:at] and choice[1] in self.case.nurses[first].skills:
                rest = self.given_out(others, choices[:at] + choices[at + 1 :])
                if rest is not None:
                    return rest | {first: choice}
        return None

    def is_skill(self, nurse: int, day: int) -> bool:
        """Whether another skill is all that changed."""
        was, now = self.before[nurse][day], self.roster[nurse][day]
        return bool(was and now and was[0] == now[0])

    def take_back(self, group: list[NurseDay]) -> bool:
        """Takes these changes back at once, if the hard rules let it; says whether it did."""
        back = [(nurse, day) for nurse, day in group if self.before[nurse][day] != self.roster[nurse][day]]
        left = [(nurse, day, self.roster[nurse][day]) for nurse, day in back]
        for nurse, day in back:
            self.put(nurse, day, self.before[nurse][day])
        if back and all(self.keeps(nurse, day, choice) for nurse, day, choice in left):
            return True
        for nurse, day, choice in left:
            self.put(nurse, day, choice)
        return False

    def put(self, nurse: int, day: int, choice: Choice) -> None:
        now = self.roster[nurse][day]
        if now:
            self.covers[day][now] -= 1
        if choice:
            self.covers[day][choice] += 1
        self.roster[nurse][day] = choice

    def keeps(self, nurse: int, day: int, left: Choice) -> bool:
        """Whether a day that a nurse has as before keeps the hard rules: the slot that she left, and her own row."""
        row = self.roster[nurse]
        shifts = [shift_of(choice) for choice in row[max(0, day - 1) : day + 2]]
        shifts = shifts if day else [self.case.nurses[nurse].history.last, *shifts]
        is_away = row[day] is not None and (nurse, day) in self.case.absences
        is_covered = left is None or self.covers[day][left] >= self.case.minimum(left, day)
        return is_covered and not is_away and self.case.can_follow(shifts)


def groups(changes: list[NurseDay]) -> list[list[NurseDay]]:
    """What is taken back at once, the largest first: the changes of a nurse, or of a day, two of one day, which may be a swap, and
    each one."""
    by_nurse = [[change for change in changes if change[0] == nurse] for nurse in sorted({nurse for nurse, _ in changes})]
    by_day = [[change for change in changes if change[1] == day] for day in sorted({day for _, day in changes})]
    pairs = [[*pair] for of_day in by_day for pair in itertools.combinations(of_day, 2)]
    return sorted([*by_nurse, *by_day, *pairs, *([change] for change in changes)], key=len, reverse=True)
