"""The command `why`: what it would cost to meet a nurse's request.

The desk looks for the cheapest row that meets it (best_row.py), since the program takes no offers of a single day. Without the
request its search has to find a row as cheap as that of `roster best`; and what the roster then costs is the program's number.
"""
import dataclasses
import os

from desk_lib.best_row import Offer, cheapest_row, offers_of
from desk_lib.case import Choice, Row, changed_days, cover_on, with_row
from desk_lib.costs import Costing
from desk_lib.days import day_text
from desk_lib.findings import numbered
from desk_lib.lower_bound import number_of
from desk_lib.model import Plan, choice_name, solutions_of
from desk_lib.program import Program, costs_by
from desk_lib.tables import changed
from desk_lib.texts import DeskError, Text, Texts, plural, shown


class Request:
    """What a nurse asks for on a day."""

    def __init__(self, costing: Costing, nurse: int, day: int):
        self.costing, self.nurse, self.day = costing, nurse, day
        self.off, self.wished = (sorted(asked.get((nurse, day), ()), key=str) for asked in (costing.off, costing.wished))

    def is_met(self, choice: Choice) -> bool:
        return not self.costing.request_cost(self.nurse, self.day, choice)

    def text(self) -> str:
        """The request in words."""
        clauses = ["off" if None in self.off else f"no {self.names(self.off)}"] if self.off else []
        clauses += [self.names(self.wished) or "to work"] if self.wished else []
        return " and ".join(clauses)

    def names(self, shifts: list[int | None]) -> str:
        return " or ".join(shown(self.costing.case.shifts[shift].name) for shift in shifts if shift is not None)


def nurse_in(plan: Plan, name: str) -> int:
    return numbered("nurse", os.fsencode(name), [nurse.name for nurse in plan.case.nurses])


def compare_best(roster: Program, texts: Texts, plan: Plan, nurse: int, offers: list[list[Offer]]) -> None:
    """Stops if the cheapest row without the request isn't as cheap as that of the program."""
    row = cheapest_row(plan.case, nurse, offers)
    mine = None if row is None else Costing(with_nurse_row(plan, nurse, row)).penalty
    best = number_of(roster.ask(["best", "--nurse", os.fsdecode(plan.case.nurses[nurse].name)], texts).log[-1])
    if mine != best:
        raise DeskError(f"the best row makes {mine} by the desk and {best} by 'roster best'; this is a fault of the desk", 3)


def why_lines(roster: Program, texts: Texts, costing: Costing, name: str, day: int) -> list[str]:
    """What the command writes."""
    plan, nurse = costing.plan, nurse_in(costing.plan, name)
    request, now = Request(costing, nurse, day), plan.roster[nurse][day]
    head = f"{shown(name)}, {day_text(day)}: {choice_name(plan.case, now)}"
    if not request.text():
        return [f"{head}; nothing is asked for"]
    head += f"; asked for: {request.text()}"
    if request.is_met(now):
        return [f"{head}; it is met"]
    offers = offers_of(costing, nurse)
    compare_best(roster, texts, plan, nurse, offers)
    met = [(choice, cost) for choice, cost in offers[day] if request.is_met(choice)]
    row = cheapest_row(plan.case, nurse, [*offers[:day], met, *offers[day + 1 :]])
    if row is None:
        return [head, f"No row of {shown(name)} meets it while the others keep theirs: {why_none(plan, met, nurse, day)}"]
    return [head, *row_lines(costing, costing_with(roster, texts, plan, nurse, row), nurse, name)]


def why_none(plan: Plan, met: list[Offer], nurse: int, day: int) -> str:
    """Why no row meets a request, given the offers of the day that would meet it."""
    if (nurse, day) in plan.case.absences:
        return "this is a day of an absence"
    if (nurse, day) in plan.case.fixed:
        return "this day is fixed"
    if met:
        return "each has a forbidden succession, or breaks a minimum of another day"
    now = plan.roster[nurse][day]
    if now is None or cover_on(plan.roster, day)[now] > plan.case.minimum(now, day):
        return "no choice of the day is all that is asked for"
    have, least = cover_on(plan.roster, day)[now], plan.case.minimum(now, day)
    return f"the cover of {choice_name(plan.case, now)} would be {have - 1}, and the minimum is {least}"


def with_nurse_row(plan: Plan, nurse: int, row: Row) -> Plan:
    """The plan in which a nurse has another row."""
    return dataclasses.replace(plan, roster=with_row(plan.roster, nurse, row))


def costing_with(roster: Program, texts: Texts, plan: Plan, nurse: int, row: Row) -> Costing:
    """The costs with a nurse's row, compared with the program's."""
    after = with_nurse_row(plan, nurse, row)
    text = Text("the roster with that row", solutions_of(after.case, after.roster))
    found = Costing(after)
    found.compare(costs_by(roster, texts.before(plan.solutions_offset(), [text])))
    return found


def row_lines(before: Costing, after: Costing, nurse: int, name: str) -> list[str]:
    """What a row costs more, by rule, and on which days it is another."""
    old, new = before.totals_by_rule(), after.totals_by_rule()
    more = after.penalty - before.penalty
    compared = f"{more} more" if more > 0 else f"{-more} less: 'improve' may make this roster cheaper" if more else "no more"
    lines = [f"The cheapest row that meets it makes the roster cost {after.penalty}, {compared}."]
    lines += [f"{rule} {changed(old[rule], new[rule])}" for rule in old if old[rule] != new[rule]]
    rows = before.plan.roster[nurse], after.plan.roster[nurse]
    lines.append(f"{plural(changed_days([rows[0]], [rows[1]]), 'day')} of {shown(name)} would change:")
    return lines + [
        f"{day_text(day)}: {choice_name(before.case, was)} > {choice_name(before.case, now)}"
        for day, (was, now) in enumerate(zip(*rows))
        if was != now
    ]
