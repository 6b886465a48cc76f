"""What each nurse has had: nights, worked weekends, unmet requests, and changed days after publication, for this month and the months
before. It is shown, and not searched for."""
import collections.abc
import dataclasses

from desk_lib.case import SATURDAY, SUNDAY
from desk_lib.costs import Costing
from desk_lib.model import Plan
from desk_lib.tables import aligned
from desk_lib.texts import shown

# What is counted, as a table heads it.
KINDS = ("nights", "weekends", "unmet requests", "changes")
NIGHT = b"night"


@dataclasses.dataclass(frozen=True)
class Balance:
    """What a nurse has had in a number of months."""

    nurse: bytes
    months: int
    nights: int
    weekends: int
    unmet: int
    changes: int


def night_shifts(plan: Plan, times: dict[bytes, tuple[str, str]]) -> set[int]:
    """The shifts that go over midnight by the times at which they begin and end, or else have 'night' in their names."""
    found = set()
    for number, shift in enumerate(plan.case.shifts):
        begins, ends = times.get(shift.name, ("", ""))
        if ends <= begins if begins else NIGHT in shift.name.lower():
            found.add(number)
    return found


def of_month(costing: Costing, nights: collections.abc.Container[int], changes: list[int]) -> list[Balance]:
    """The balances of one month's roster, in the order of the nurses, with how many days of each have changed."""
    found, days = [], range(costing.plan.days)
    for number, (nurse, row) in enumerate(zip(costing.case.nurses, costing.plan.roster)):
        worked = [choice is not None for choice in row]
        weekends = sum(map(any, zip(worked[SATURDAY::7], worked[SUNDAY::7])))
        unmet = sum(costing.breaks_request(number, day, row[day]) + costing.misses_wish(number, day, row[day]) for day in days)
        count = sum(choice is not None and choice[0] in nights for choice in row)
        found.append(Balance(nurse.name, 1, count, weekends, unmet, changes[number]))
    return found


def added(one: Balance, other: Balance | None) -> Balance:
    """Both together."""
    if other is None:
        return one
    months, nights = one.months + other.months, one.nights + other.nights
    return Balance(one.nurse, months, nights, one.weekends + other.weekends, one.unmet + other.unmet, one.changes + other.changes)


@dataclasses.dataclass(frozen=True)
class Balances:
    """The balances of a month, and those of the months before if they are known."""

    now: list[Balance]
    before: dict[bytes, Balance]

    @property
    def months(self) -> int:
        """How many months came before."""
        return max((balance.months for balance in self.before.values()), default=0)

    def rows(self) -> list[list[str]]:
        """A line for each nurse, with a mark at the greatest (^) and the least (v) of each column."""
        with_before = [added(balance, self.before.get(balance.nurse)) for balance in self.now]
        columns = [self.column(self.now, kind) for kind in range(len(KINDS))]
        if self.before:
            columns += [self.column(with_before, kind) for kind in range(len(KINDS))]
        return [[shown(balance.nurse), *cells] for balance, cells in zip(self.now, zip(*columns))]

    def column(self, balances: list[Balance], kind: int) -> list[str]:
        counts = [(balance.nights, balance.weekends, balance.unmet, balance.changes)[kind] for balance in balances]
        least, greatest = min(counts), max(counts)

        def mark(count: int) -> str:
            return "" if least == greatest else "^" if count == greatest else "v" if count == least else ""

        return [f"{count}{mark(count)}" for count in counts]

    def heads(self) -> list[str]:
        """The heads of the columns."""
        more = [f"{kind} in {self.months + 1} months" for kind in KINDS] if self.before else []
        return ["balances", *KINDS, *more]

    def lines(self) -> list[str]:
        """The table on a terminal. A mark stands after its number, and where none stands a blank does."""
        rows = [[row[0], *(cell if cell[-1] in "^v" else f"{cell} " for cell in row[1:])] for row in self.rows()]
        lines = aligned([self.heads(), *rows])
        return ["", *lines, "^ the greatest, v the least; balances are shown, and cost nothing"]
