"""The command `swap`: what a swap of two nurses' days breaks and costs, and the roster with it."""
import dataclasses
import os

from desk_lib.breaches import Breach, all_breaches, breach_lines, frozen_changes, without_rules
from desk_lib.costs import Costing
from desk_lib.days import is_day, with_dates
from desk_lib.model import Plan, solutions_of
from desk_lib.program import Program, costs_by
from desk_lib.replacing import read_back
from desk_lib.sheet import Sheet
from desk_lib.tables import changed
from desk_lib.texts import DeskError, Text, Texts, plural, shown
from desk_lib.views import change_lines
from desk_lib.why import nurse_in


def days_and_files(day: str, files: list[str]) -> tuple[list[bytes], list[str]]:
    """The words that name the days, which are the first one and those of the words after it that are days and no files; and the
    files."""
    count = next((number for number, word in enumerate(files) if not is_day(os.fsencode(word))), len(files))
    return [os.fsencode(word) for word in [day, *files[:count]]], files[count:]


class Swap:
    """A swap of two nurses' days of a plan."""

    def __init__(self, roster: Program, texts: Texts, plan: Plan, nurses: tuple[int, int], days: list[int], first_week: int):
        one, other = nurses
        rows = [[*row] for row in plan.roster]
        for day in days:
            rows[one][day], rows[other][day] = rows[other][day], rows[one][day]
        self.program, self.old, self.new, self.first_week = roster, plan, dataclasses.replace(plan, roster=rows), first_week
        text = Text("the roster after the swap", solutions_of(plan.case, rows))
        self.texts = [texts, texts.before(plan.solutions_offset(), [text])]
        self.before = texts.before(plan.solutions_offset(), [])

    def breaches(self) -> list[Breach]:
        """What the swap breaks that the roster keeps."""
        there = {breach.line for breach in all_breaches(self.old)}
        found = [*all_breaches(self.new), *frozen_changes(self.new, self.old.roster, self.first_week)]
        return [breach for breach in found if breach.line not in there]

    def costing(self, texts: Texts, plan: Plan) -> Costing:
        """The costs by rule, compared with the program's, which takes breaches of no rule but these."""
        found = Costing(plan)
        found.compare(costs_by(self.program, without_rules(texts, plan) if all_breaches(plan) else texts))
        return found

    def lines(self) -> list[str]:
        """What changes, what that breaks, and what it costs. If a nurse would need a skill that she lacks, there is no cost."""
        broken, old = self.breaches(), self.costing(self.texts[0], self.old)
        sheet = Sheet(Costing(self.new), self.old.roster, self.first_week)
        lines = [*change_lines(sheet), *(f"breaks {with_dates(line)}" for line in breach_lines(broken))]
        if any(breach.rule == "H4" for breach in broken):
            return lines
        was, now = old.totals_by_rule(), self.costing(self.texts[1], self.new).totals_by_rule()
        return lines + [f"{rule} {changed(was[rule], now[rule])}" for rule in was if was[rule] != now[rule] or rule == "total"]

    def solutions(self) -> bytes:
        """The roster with the swap, as the program writes it."""
        return self.program.ask(["show"], self.texts[1]).output

    def write(self, name: str) -> None:
        """Writes the roster with the swap."""
        solutions = self.solutions()
        with read_back(self.program, self.before, solutions, [(name, solutions)]) as (new,):
            new.put()


def nurses_in(plan: Plan, name: str, other_name: str) -> tuple[int, int]:
    """The two nurses of these names."""
    one, other = nurse_in(plan, name), nurse_in(plan, other_name)
    if one == other:
        raise DeskError(f"swap: {shown(name)} stands here twice; name two nurses", 2)
    return one, other


def refused(swap: Swap, out: str | None) -> DeskError | None:
    """Why the roster isn't written, if the swap breaks something."""
    count = len(swap.breaches())
    left = f", and {shown(out)} isn't written; " if out else "; "
    return DeskError(f"the swap breaks {plural(count, 'hard rule')}{left}swap other days, or other nurses") if count else None
