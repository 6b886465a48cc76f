"""The balances of a ward: this month's, and those of the months before."""
import collections.abc

from desk_lib import program
from desk_lib.balances import Balance, Balances, added, night_shifts, of_month
from desk_lib.costs import Costing
from desk_lib.given import Given
from desk_lib.model import Plan, roster_in
from desk_lib.ward.rosters import compared_with, ward_of, with_asks, with_roster
from desk_lib.ward.store import Ward
from desk_lib.ward.versions import undone


def nights_of(ward: Ward, plan: Plan) -> set[int]:
    """The night shifts, by the ward's times."""
    return night_shifts(plan, {shift.name: (shift.begins, shift.ends) for shift in ward.state.input.shifts})


def changes_of(ward: Ward, plan: Plan) -> list[int]:
    """How many days of each nurse changed after they were published: from each publication that holds to the next one, and from the
    last one to the working roster."""
    holding, _ = undone(ward.versions)
    published = [ward.version(number).state.publication for number in holding]
    found = [publication for publication in dict.fromkeys(published) if publication is not None]
    rosters = [roster_in(with_roster(ward, publication.roster.solutions)) for publication in found[1:]] + [plan.roster]
    counts = [0] * len(plan.roster)
    for publication, after in zip(found, rosters):
        for number, (was, now) in enumerate(zip(compared_with(ward, publication, after), after)):
            counts[number] += sum(old != new for old, new in zip(was, now))
    return counts


def carried(given: Given, left: collections.abc.Container[int]) -> tuple[Balance, ...]:
    """What the month after begins with."""
    ward = ward_of(given)
    assert ward.state.roster
    plan = program.plan_in(with_asks(given, with_roster(ward, ward.state.roster.solutions)))
    before = {balance.nurse: balance for balance in ward.state.input.balances}
    found = of_month(Costing(plan), nights_of(ward, plan), changes_of(ward, plan))
    return tuple(added(balance, before.get(balance.nurse)) for number, balance in enumerate(found) if number not in left)


def balances_of(ward: Ward, costing: Costing) -> Balances:
    """The balances of the roster that a command shows, with the changes since it was published."""
    now = of_month(costing, nights_of(ward, costing.plan), changes_of(ward, costing.plan))
    return Balances(now, {balance.nurse: balance for balance in ward.state.input.balances})
