"""Cells that are set, and days that are swapped: what that would change, and the roster with it."""
import dataclasses
import typing

from desk_lib.breaches import Breach
from desk_lib.case import Choice, Roster
from desk_lib.days import day_text
from desk_lib.model import choice_name
from desk_lib.page import MEANING
from desk_lib.serve.asked import Json, Refused, list_in, maybe_number_in, number_in, refused
from desk_lib.serve.month import choice_json
from desk_lib.serve.snapshot import Numbers, Snapshot
from desk_lib.texts import plural, shown

# How many cells a change has at most.
MOST_CELLS = 400


class Cell(typing.NamedTuple):
    """A day of a nurse that is to have another choice."""

    nurse: int
    day: int
    choice: Choice


@dataclasses.dataclass(frozen=True, eq=False)
class Edit:
    """Cells of a snapshot that are set, on a day that is today."""

    snapshot: Snapshot
    today: int
    cells: list[Cell]

    def before(self, cell: Cell) -> Choice:
        return self.snapshot.plan.roster[cell.nurse][cell.day]

    def roster(self) -> Roster:
        rows = [*self.snapshot.plan.roster]
        for nurse, day, choice in self.cells:
            rows[nurse] = [*rows[nurse][:day], choice, *rows[nurse][day + 1 :]]
        return rows

    def words(self) -> list[str]:
        """What changes, a clause for each cell."""
        case = self.snapshot.case
        return [
            f"{shown(case.nurses[cell.nurse].name)}, {day_text(cell.day)}: {choice_name(case, self.before(cell))}"
            f" > {choice_name(case, cell.choice)}"
            for cell in self.cells
        ]

    def cells_json(self) -> list[Json]:
        return [
            {
                "nurse": cell.nurse,
                "day": cell.day,
                "text": day_text(cell.day),
                "before": choice_json(self.before(cell)),
                "after": choice_json(cell.choice),
            }
            for cell in self.cells
        ]

    def published(self) -> list[Cell]:
        """The cells whose days are published."""
        return [cell for cell in self.cells if cell.day < self.snapshot.published]

    # ---- what may not be

    def refusal(self) -> Refused | None:
        """Why this can't be done, if so."""
        case = self.snapshot.case
        for cell in self.cells:
            nurse, text = case.nurses[cell.nurse], day_text(cell.day)
            if cell.day < self.today:
                is_swap = len(self.cells) == 2 and self.cells[0].nurse != self.cells[1].nurse
                words = (
                    "One of the days is past. It can't be dropped here."
                    if is_swap
                    else f"{text} is past. Past days stay as they were."
                )
                return refused(words, kind="past")
            if (cell.nurse, cell.day) in case.fixed:
                return refused(f"{text} is fixed for {shown(nurse.name)}. Withdraw the ask first.", kind="fixed")
            if cell.choice and cell.choice[1] not in nurse.skills:
                return refused(f"{shown(nurse.name)} lacks the skill {shown(case.skills[cell.choice[1]])}.", kind="skill")
        return None

    def must_be_possible(self, is_published_said: bool) -> None:
        """Stops if this can't be done, or changes a published day and nobody said that this is meant."""
        why = self.refusal()
        if why:
            raise why
        if not any(self.before(cell) != cell.choice for cell in self.cells):
            raise refused("This is so already; nothing was changed.")
        published = self.published()
        if published and not is_published_said:
            words = f"{day_text(published[0].day)} is published. Do it once more to change it; what is published stays as it is"
            raise refused(f"{words} until you publish again.", kind="published")

    # ---- what it would change

    def tried(self, after: Numbers) -> Json:
        """What the edit makes of the snapshot, whose numbers with it are these."""
        old, new = self.snapshot.numbers, after
        has_cost = old.has_cost and new.has_cost
        was, now = old.costing.totals_by_rule(), new.costing.totals_by_rule()
        reasons = [f"{MEANING[rule]} {was[rule]} > {now[rule]}" for rule in was if rule in MEANING and was[rule] != now[rule]]
        there, then = {breach.line for breach in old.breaches}, {breach.line for breach in new.breaches}
        return {
            "penalty": {"before": self.snapshot.penalty, "after": now["total"] if new.is_allowed else None},
            "soft": {"before": self.snapshot.soft, "after": now["total"] if new.has_cost else None},
            "change": now["total"] - was["total"] if has_cost else None,
            "reasons": reasons if has_cost else [],
            "new": [self.breach_text(breach) for breach in new.breaches if breach.line not in there],
            "repaired": [self.breach_text(breach) for breach in old.breaches if breach.line not in then],
            "breaches": {"before": len(old.breaches), "after": len(new.breaches)},
        }

    def breach_text(self, breach: Breach) -> str:
        case, day = self.snapshot.case, day_text(breach.day)
        where = choice_name(case, breach.slot) if breach.slot else shown(case.nurses[breach.nurse].name)
        return f"{where}, {day}: {breach.more}"

    def nothing_tried(self, why: str) -> Json:
        """What is said of an edit that can't be done."""
        nothing = {"before": None, "after": None}
        found: Json = {"penalty": nothing, "soft": nothing, "change": None, "reasons": [], "new": [], "repaired": []}
        return {**found, "breaches": nothing, "refused": why}

    def head_json(self) -> Json:
        return {"cells": self.cells_json(), "published": len(self.published()), "refused": None}

    def done_text(self) -> str:
        """What was done, as the page says it aloud."""
        case = self.snapshot.case
        if len(self.cells) > 2:
            return f"{plural(len(self.cells), 'day')} changed"
        names = [
            f"{shown(case.nurses[cell.nurse].name)}, {day_text(cell.day)}: {choice_name(case, cell.choice)}"
            for cell in self.cells
        ]
        return "; ".join(names)


def edit_in(given: Json, snapshot: Snapshot, today: int) -> Edit:
    """The edit that a request asks for: cells, or a swap of two."""
    if not snapshot.has_roster:
        raise refused("Nothing is planned yet, so there is no shift to change. Plan a roster first.")
    if "swap" in given:
        return Edit(snapshot, today, swapped(given, snapshot))
    cells: dict[tuple[int, int], Cell] = {}
    for cell in list_in(given, "cells", MOST_CELLS):
        nurse, day = place_in(cell, snapshot)
        cells[nurse, day] = Cell(nurse, day, choice_in(cell, snapshot, nurse, day))
    return Edit(snapshot, today, [*cells.values()])


def place_in(cell: Json, snapshot: Snapshot) -> tuple[int, int]:
    nurse = number_in(cell, "nurse", 0, len(snapshot.case.nurses) - 1)
    return nurse, number_in(cell, "day", 0, snapshot.plan.days - 1)


def choice_in(cell: Json, snapshot: Snapshot, nurse: int, day: int) -> Choice:
    """The choice of a cell. If it names a shift and no skill, that is the one that fits best."""
    case = snapshot.case
    shift, skill = maybe_number_in(cell, "shift", 0, len(case.shifts) - 1), maybe_number_in(
        cell, "skill", 0, len(case.skills) - 1
    )
    if shift is None:
        return None
    return (shift, skill) if skill is not None else with_skill(snapshot, nurse, day, shift)


def with_skill(snapshot: Snapshot, nurse: int, day: int, shift: int) -> Choice:
    """A shift with the skill of hers of which the day lacks most."""
    skills = snapshot.case.nurses[nurse].skills
    if not skills:
        raise refused(f"{shown(snapshot.case.nurses[nurse].name)} has no skill.", kind="skill")
    choices = [(shift, skill) for skill in sorted(skills)]
    return snapshot.numbers.asks.lacking_most(day, choices, snapshot.plan.roster[nurse][day])


def swapped(given: Json, snapshot: Snapshot) -> list[Cell]:
    """Two cells with each other's choices; a nurse who lacks the other's skill has the shift with one of her own."""
    cells = list_in(given, "swap", 2)
    if len(cells) != 2:
        raise refused("swap: two cells are due", "swap")
    (nurse, day), (other, other_day) = (place_in(cell, snapshot) for cell in cells)
    roster = snapshot.plan.roster
    if (nurse, day) == (other, other_day):
        raise refused("swap: these are the same cell", "swap")

    def fitting(number: int, on: int, choice: Choice) -> Choice:
        if choice is None or choice[1] in snapshot.case.nurses[number].skills:
            return choice
        return with_skill(snapshot, number, on, choice[0])

    return [
        Cell(nurse, day, fitting(nurse, day, roster[other][other_day])),
        Cell(other, other_day, fitting(other, other_day, roster[nurse][day])),
    ]
