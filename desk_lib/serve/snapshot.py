"""The numbers of one version of a ward: its plan with the asks, what it costs, and what it breaks.

All of them come from the desk's functions. The total and each rule are compared with `roster cost` before anything is shown.
"""
import dataclasses
import functools

from desk_lib import breaches, program
from desk_lib.asked_texts import Asked
from desk_lib.asks import Asks
from desk_lib.balances import Balances
from desk_lib.breaches import Breach
from desk_lib.case import Roster
from desk_lib.costs import Costing
from desk_lib.model import Plan, solutions_of
from desk_lib.program import Program
from desk_lib.texts import Text, Texts
from desk_lib.ward import balances, rosters
from desk_lib.ward.store import Version, Ward
from desk_lib.ward.texts import asks_text, texts_of


@dataclasses.dataclass(frozen=True, eq=False)
class Numbers:
    """The plan of a roster with the asks, the texts of both, its costs, and what it breaks."""

    asks: Asks
    texts: Texts
    plan: Plan
    costing: Costing
    breaches: list[Breach]

    @property
    def is_allowed(self) -> bool:
        return not self.breaches

    @property
    def has_cost(self) -> bool:
        """Whether the program counts what the roster costs. It doesn't if a nurse works by a skill that she lacks."""
        return all(breach.rule != "H4" for breach in self.breaches)

    def compare(self, roster: Program) -> None:
        """Stops if the program counts otherwise. A roster that breaks a rule is counted by its soft rules alone."""
        if not self.has_cost:
            return
        texts = self.texts if self.is_allowed else breaches.without_rules(self.texts, self.plan)
        self.costing.compare(program.costs_by(roster, texts))

    def with_roster(self, roster: Roster) -> "Numbers":
        """The same with another roster."""
        plan = dataclasses.replace(self.plan, roster=roster, of_files=None)
        text = Text("the roster with the change", solutions_of(plan.case, roster))
        texts = self.texts.before(self.plan.solutions_offset(), [text])
        return Numbers(self.asks, texts, plan, self.costing.of_other(plan), breaches.all_breaches(plan))

    def settled(self) -> "Numbers":
        """The same with the asks read anew for the roster that is there now."""
        plan = dataclasses.replace(self.asks.plan, roster=self.plan.roster)
        return dataclasses.replace(self, asks=Asks(self.asks.text, plan, self.asks.start))


def numbers_of(ward: Ward, roster: Program) -> Numbers:
    """The numbers of a ward's present version. Without a roster nobody works."""
    given = texts_of(ward, may_lack_solutions=True)
    asks = Asks(asks_text(ward), program.plan_in(given), ward.state.input.start)
    texts = Asked(asks).added_to(given, with_duties=False)
    plan = program.plan_in(texts)
    found = Numbers(asks, texts, plan, Costing(plan), breaches.all_breaches(plan))
    if ward.state.roster:
        found.compare(roster)
    return found


class Snapshot:
    """A version of a ward, with its numbers."""

    def __init__(self, ward: Ward, numbers: Numbers):
        """`ward` has no version after this one."""
        self.ward, self.numbers = ward, numbers
        self.plan, self.case, self.costing = numbers.plan, numbers.plan.case, numbers.costing

    @property
    def version(self) -> Version:
        return self.ward.current

    @property
    def has_roster(self) -> bool:
        return self.ward.state.roster is not None

    @property
    def penalty(self) -> int | None:
        """The penalty, if there is a roster and it keeps the hard rules."""
        return self.costing.penalty if self.has_roster and self.numbers.is_allowed else None

    @property
    def soft(self) -> int | None:
        """What the soft rules alone cost, if there is a roster and they can be counted."""
        return self.costing.penalty if self.has_roster and self.numbers.has_cost else None

    @property
    def published(self) -> int:
        """How many of the first days are published."""
        publication = self.ward.state.publication
        return publication.days if publication else 0

    @functools.cached_property
    def published_roster(self) -> Roster | None:
        """What was published, with the present roster on the other days; None if nothing was."""
        return rosters.published_roster(self.ward, self.plan) if self.has_roster else None

    @functools.cached_property
    def balances(self) -> Balances:
        """What each nurse has had, in this month and with those before."""
        return balances.balances_of(self.ward, self.costing)

    @functools.cached_property
    def broken(self) -> dict[tuple[int, int], list[Breach]]:
        """What is broken on a nurse's day."""
        found: dict[tuple[int, int], list[Breach]] = {}
        for breach in self.numbers.breaches if self.has_roster else []:
            if breach.nurse >= 0:
                found.setdefault((breach.nurse, breach.day), []).append(breach)
        return found


def at_version(ward: Ward, number: int) -> Ward:
    """The ward as it was with a version."""
    ward.version(number)
    return ward if number == len(ward.versions) else dataclasses.replace(ward, versions=ward.versions[:number], candidates=())
