"""What each nurse costs by rule, and each shift and skill: counted here, and compared with the program's own numbers."""
import collections
import collections.abc
import copy
import itertools

from desk_lib.case import SATURDAY, SUNDAY, Choice, Limits, Request, Row, ShiftSkill, cover_on, shift_of
from desk_lib.model import Plan
from desk_lib.texts import DeskError

# The rules that a nurse's row is charged for.
RULES = ["S2", "S3", "S4", "S5", "S6", "S7", "S8"]
# What one violation of a rule costs: S1; S2, of working days and of shifts; S3; S4 and S8; S5; S6; S7.
STAFFING, WORKING_RUN, SHIFT_RUN, OFF_RUN, REQUEST, WHOLE_WEEKEND, ASSIGNMENTS, WEEKENDS = 30, 30, 15, 30, 10, 30, 20, 30
Shifts = dict[tuple[int, int], set[int | None]]


def run_violations(is_kind: list[bool], before: int, limits: Limits) -> int:
    """How many days the runs of a kind are too short or too long, together: which days are of it, and how many of it precede the
    first day."""
    found = max(0, limits.least - before) if before and not is_kind[0] else 0
    for of_kind, group in itertools.groupby(range(len(is_kind)), lambda day: is_kind[day]):
        if of_kind:
            days = [*group]
            length = len(days) + (before if days[0] == 0 else 0)
            found += min(len(days), max(0, length - limits.greatest))
            found += max(0, limits.least - length) if days[-1] != len(is_kind) - 1 else 0
    return found


class Costing:
    """The costs of a plan."""

    def __init__(self, plan: Plan):
        self.plan, self.case = plan, plan.case
        self.off, self.wished = by_day(plan.case.requests), by_day(plan.case.wishes)
        self.of_nurses = [self.of_nurse(number, row) for number, row in enumerate(plan.roster)]
        self.covers = [cover_on(plan.roster, day) for day in range(plan.days)]
        # (S1 of each shift and skill)
        self.staffing = {at: self.staffing_of(at) for at in plan.case.needs}

    def of_other(self, plan: Plan) -> "Costing":
        """The costs of another roster of the same case, of which only the rows that are other are counted again."""
        found, was = copy.copy(self), self.plan.roster
        changed = [number for number, row in enumerate(plan.roster) if row != was[number]]
        found.plan, found.of_nurses, found.covers = plan, [*self.of_nurses], [*self.covers]
        for number in changed:
            found.of_nurses[number] = self.of_nurse(number, plan.roster[number])
        for day in {day for number in changed for day in range(plan.days) if was[number][day] != plan.roster[number][day]}:
            found.covers[day] = cover_on(plan.roster, day)
        found.staffing = {at: found.staffing_of(at) for at in plan.case.needs}
        return found

    def runs(self, number: int, row: Row) -> tuple[int, int]:
        """S2 and S3: runs of working days and of shifts, and runs of days off."""
        nurse = self.case.nurses[number]
        contract, past = self.case.contracts[nurse.contract], nurse.history
        shifts = [shift_of(choice) for choice in row]
        worked = [shift is not None for shift in shifts]
        is_after_work = past.last is not None
        working = WORKING_RUN * run_violations(worked, past.working if is_after_work else 0, contract.working)
        for shift in {*shifts, past.last}:
            if shift is not None:
                before = past.of_last if past.last == shift else 0
                limits = self.case.shifts[shift].limits
                working += SHIFT_RUN * run_violations([other == shift for other in shifts], before, limits)
        off = OFF_RUN * run_violations([not works for works in worked], 0 if is_after_work else past.off, contract.off)
        return working, off

    def totals(self, number: int, row: Row) -> tuple[int, int, int]:
        """S5, S6 and S7: whole weekends, assignments and worked weekends."""
        nurse = self.case.nurses[number]
        contract, past = self.case.contracts[nurse.contract], nurse.history
        worked = [choice is not None for choice in row]
        weekends = list(zip(worked[SATURDAY::7], worked[SUNDAY::7]))
        broken = sum(saturday != sunday for saturday, sunday in weekends) if contract.whole_weekends else 0
        total, least, greatest = past.assignments + sum(worked), *contract.assignments
        outside = max(0, least - total) + max(0, total - greatest)
        surplus = max(0, past.weekends + sum(map(any, weekends)) - contract.weekends)
        return WHOLE_WEEKEND * broken, ASSIGNMENTS * outside, WEEKENDS * surplus

    def breaks_request(self, number: int, day: int, choice: Choice) -> bool:
        """Whether a choice is a shift that an off request of the nurse names."""
        asked = self.off.get((number, day), ())
        return choice is not None and (choice[0] in asked or None in asked)

    def misses_wish(self, number: int, day: int, choice: Choice) -> bool:
        """Whether a choice doesn't meet a wish of the nurse to work."""
        wished = self.wished.get((number, day), ())
        return any(choice is None or shift not in (None, choice[0]) for shift in wished)

    def request_cost(self, number: int, day: int, choice: Choice) -> int:
        """What a choice costs by the requests and wishes of the nurse."""
        return REQUEST * (self.breaks_request(number, day, choice) + self.misses_wish(number, day, choice))

    def of_nurse(self, number: int, row: Row) -> dict[str, int]:
        days = range(self.plan.days)
        broken = sum(self.breaks_request(number, day, row[day]) for day in days if (number, day) in self.off)
        missed = sum(self.misses_wish(number, day, row[day]) for day in days if (number, day) in self.wished)
        (working, off), (whole, assignments, weekends) = self.runs(number, row), self.totals(number, row)
        return dict(zip(RULES, (working, off, REQUEST * broken, whole, assignments, weekends, REQUEST * missed)))

    def staffing_of(self, at: ShiftSkill) -> int:
        """S1 of a shift and skill."""
        return STAFFING * sum(max(0, need.greatest - covers[at]) for need, covers in zip(self.case.needs[at], self.covers))

    def totals_by_rule(self) -> dict[str, int]:
        found = {"S1": sum(self.staffing.values())}
        found |= {rule: sum(costs[rule] for costs in self.of_nurses) for rule in RULES}
        return found | {"total": sum(found.values())}

    @property
    def penalty(self) -> int:
        return self.totals_by_rule()["total"]

    def compare(self, program: dict[str, int]) -> None:
        """Stops if the program counts otherwise."""
        for rule, mine in self.totals_by_rule().items():
            if program.get(rule) != mine:
                message = f"{rule} is {mine} by the desk and {program.get(rule)} by 'roster cost'; nothing is shown"
                raise DeskError(f"{message}. This is a fault of the desk", 3)


def by_day(requests: collections.abc.Iterable[Request]) -> Shifts:
    """The shifts that requests name, by the nurse and the day."""
    found: Shifts = collections.defaultdict(set)
    for nurse, shift, day in requests:
        found[nurse, day].add(shift)
    return found
