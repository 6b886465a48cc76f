"""The cheapest row of a nurse while the others keep theirs, found day by day.

An offer is a choice that she may take on a day, with its cost. Partial rows that lead to the same state are compared, and only the
cheapest of them is extended; of equally cheap ones it is the one whose choices come first.
"""
import collections.abc
import typing

from desk_lib.case import SUNDAY, Case, Choice, Contract, Cover, Limits, Row, cover, shift_of
from desk_lib.costs import ASSIGNMENTS, OFF_RUN, SHIFT_RUN, STAFFING, WEEKENDS, WHOLE_WEEKEND, WORKING_RUN, Costing

Offer = tuple[Choice, int]
# A partial row: its cost, and for each day the number of the offer that it takes.
Label = tuple[int, tuple[int, ...]]


class State(typing.NamedTuple):
    """What a partial row leaves for the days after it: the last shift, the length of the run of working days or days off and of the
    run of that shift, and the totals."""

    last: int | None
    run: int
    of_last: int
    assignments: int
    weekends: int


def missing(length: int, limits: Limits) -> int:
    """How many days a run that ends is too short. A run of no day is none."""
    return max(0, limits.least - length) if length else 0


def counted(length: int, limits: Limits) -> int:
    """The length of a run, as far as it matters for later days."""
    return min(length, max(limits))


def transition(case: Case, contract: Contract, state: State, shift: int | None, day: int) -> tuple[int, State]:
    """A day's step from a state: its cost, which is that of the runs that end or become too long and of the weekend, and the state
    after it."""
    works, worked, cost, run = shift is not None, state.last is not None, 0, state.run
    weights = {True: WORKING_RUN, False: OFF_RUN}
    limits = {True: contract.working, False: contract.off}
    if works != worked:
        cost, run = weights[worked] * missing(run, limits[worked]), 0
    if state.last is not None and shift != state.last:
        cost += SHIFT_RUN * missing(state.of_last, case.shifts[state.last].limits)
    cost += weights[works] * (run + 1 > limits[works].greatest)
    run, of_shift, weekends = counted(run + 1, limits[works]), 0, state.weekends
    if shift is not None:
        of_shift = (state.of_last if shift == state.last else 0) + 1
        cost += SHIFT_RUN * (of_shift > case.shifts[shift].limits.greatest)
        of_shift = counted(of_shift, case.shifts[shift].limits)
    if day % 7 == SUNDAY:
        cost += WHOLE_WEEKEND * (bool(contract.whole_weekends) and works != worked)
        weekends += works or worked
    return cost, State(shift, run, of_shift, state.assignments + works, weekends)


def total_cost(contract: Contract, state: State) -> int:
    """What the totals cost at the end: assignments and worked weekends."""
    least, greatest = contract.assignments
    outside = max(0, least - state.assignments) + max(0, state.assignments - greatest)
    return ASSIGNMENTS * outside + WEEKENDS * max(0, state.weekends - contract.weekends)


def cheapest_row(case: Case, number: int, all_offers: collections.abc.Sequence[list[Offer]]) -> Row | None:
    """The first of the cheapest rows of a nurse that take one of the offers of each day; None if there is no such row."""
    nurse = case.nurses[number]
    contract, past = case.contracts[nurse.contract], nurse.history
    run, of_last = (past.off, 0) if past.last is None else (past.working, past.of_last)
    labels: dict[State, Label] = {State(past.last, run, of_last, past.assignments, past.weekends): (0, ())}
    for day, offers in enumerate(all_offers):
        # (of the offers of one shift only the first of the cheapest can be in the best row)
        of_shifts: dict[int | None, tuple[int, int]] = {}
        for at, (choice, cost) in enumerate(offers):
            shift = shift_of(choice)
            of_shifts[shift] = min(of_shifts.get(shift, (cost, at)), (cost, at))
        found: dict[State, Label] = {}
        for state, (cost_so_far, taken) in labels.items():
            for shift, (cost, at) in of_shifts.items():
                if (state.last, shift) not in case.forbidden:
                    more, after = transition(case, contract, state, shift, day)
                    label = (cost_so_far + cost + more, (*taken, at))
                    found[after] = min(found.get(after, label), label)
        labels = found
    ends = [(cost + total_cost(contract, state), taken) for state, (cost, taken) in labels.items()]
    if not ends:
        return None
    _, taken = min(ends)
    return [offers[at][0] for offers, at in zip(all_offers, taken)]


def choices_of(case: Case, nurse: int, day: int) -> list[Choice]:
    """What a nurse may do on a day by her skills and absences: off first, then by shift and skill."""
    if (nurse, day) in case.absences:
        return [None]
    return [None, *((shift, skill) for shift in range(len(case.shifts)) for skill in sorted(case.nurses[nurse].skills))]


def meets_minimums(case: Case, day: int, covers: Cover) -> bool:
    return all(covers[at] >= days[day].least for at, days in case.needs.items())


def staffing(case: Case, day: int, covers: Cover) -> int:
    """S1 of a day."""
    return STAFFING * sum(max(0, days[day].greatest - covers[at]) for at, days in case.needs.items())


def offers_of(costing: Costing, nurse: int) -> list[list[Offer]]:
    """For each day the choices of a nurse by which the roster keeps the minimums, each with its cost. On a fixed day it is the
    present choice alone."""
    case, found = costing.case, []
    for day in range(costing.plan.days):
        others = [row[day] for number, row in enumerate(costing.plan.roster) if number != nurse]
        present, offers = costing.plan.roster[nurse][day], []
        for choice in [present] if case.is_frozen(nurse, day, 0) else choices_of(case, nurse, day):
            covers = cover([*others, choice])
            if meets_minimums(case, day, covers):
                offers.append((choice, staffing(case, day, covers) + costing.request_cost(nurse, day, choice)))
        found.append(offers)
    return found
