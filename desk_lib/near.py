"""The command `improve --few`: a roster that keeps the hard rules, and in which few days are other than in the one that was given.

If it is enough that those who are absent don't come, nothing else changes. Else each nurse who is missed may be one who changes on that
day alone (filling.py), which makes the fewest changes that there can be. And `plan` looks for a roster, with --keep from high to low and
then without: by --keep N each day on which a nurse has another shift than in the roster given, or is off, costs N more. What saves more
than that changes even so, and skills cost nothing; so each roster is trimmed, too: all changes are taken back for which no hard rule asks.
The roster with the fewest changes is put into the file, of several the cheapest, and all are reported.
"""
import contextlib
import dataclasses
import itertools

from desk_lib import program
from desk_lib.case import Roster, changed_days, changed_nurses, moved_days
from desk_lib.filling import Filling
from desk_lib.improve import NOT_FOUND, TRIES, Run
from desk_lib.lower_bound import number_of, words_of
from desk_lib.model import Plan, solutions_of, without_absent
from desk_lib.program import Answer, Running, costs_by, plan_in, refusal
from desk_lib.signals import within_time
from desk_lib.tables import aligned
from desk_lib.texts import SO_FAR, DeskError, Text, Texts, plural, shown
from desk_lib.trimming import Trimming

# How many rosters are tried in which each nurse who is missed is one who changes on that day alone.
FILLINGS = 200
# How many searches each run of `plan` has for a repair of a ward, if neither their number nor the time is given.
SEARCHES = 5_000
# What a changed day costs more, from high to low; 0 is as without.
KEEPS = (100, 50, 20, 10, 0)


@dataclasses.dataclass(frozen=True)
class Near:
    """A roster that was found: how, its solutions, what it costs, on how many days nurses have another shift than in the files, or are
    off, on how many the same one with another skill, and how many nurses have another row."""

    how: str
    solutions: bytes
    roster: Roster
    cost: int
    days: int
    skills: int
    nurses: int

    def rank(self) -> tuple[int, int, int]:
        return self.days, self.skills, self.cost

    def text(self) -> str:
        skills = f", and {plural(self.skills, 'skill')}" if self.skills else ""
        return f"{plural(self.days, 'day')}{skills} of {plural(self.nurses, 'nurse')} changed, penalty {self.cost}"

    def cells(self, number: str) -> list[str]:
        return [f"{number} {self.how}", *map(str, (self.days, self.skills, self.nurses, self.cost))]


def near_of(plan: Plan, how: str, solutions: bytes, roster: Roster, cost: int) -> Near:
    """A roster, compared with that of the files."""
    days = moved_days(plan.before, roster)
    return Near(how, solutions, roster, cost, days, changed_days(plan.before, roster) - days, changed_nurses(plan.before, roster))


class Repair:
    """The rosters near to the one that a run begins with."""

    def __init__(self, run: Run, seed: int):
        self.run, self.plan, self.seed = run, run.start, seed
        self.from_week = words_of(run.bound_search.first_week)
        self.found: dict[str, Near] = {}
        self.nearest: Near | None = None
        # (the message if no run of `plan` finds a roster)
        self.lacking = "the time is over, and no roster that keeps the hard rules was found"

    # ---- the rosters

    def texts(self, roster: Roster) -> Texts:
        return self.with_solutions(solutions_of(self.plan.case, roster))

    def with_solutions(self, solutions: bytes) -> Texts:
        return Texts([*self.run.before.texts, Text(SO_FAR, solutions)])

    def take(self, how: str, answer: Answer, keep: int = 0) -> Near:
        """Takes a roster that the program wrote. The penalty in its log has to be what the roster costs."""
        texts = self.with_solutions(answer.output)
        roster, cost = plan_in(texts).roster, costs_by(self.run.roster, texts)["total"]
        moved = moved_days(self.plan.roster, roster)
        if number_of(answer.end()) != cost + keep * moved:
            by_keep = f" less {keep * moved} by --keep" if keep else ""
            message = f"the log says {number_of(answer.end())}{by_keep}, and 'roster cost' {cost}; the roster isn't taken"
            raise DeskError(f"{message}. This is a fault of the desk", 3)
        return near_of(self.plan, how, answer.output, roster, cost)

    def add(self, near: Near) -> None:
        """Keeps it if it is the nearest of its kind, and puts it into the file if it is the nearest of all."""
        if near.how not in self.found or near.rank() < self.found[near.how].rank():
            self.found[near.how] = near
        if not self.nearest or near.rank() < self.nearest.rank():
            self.nearest = near
            self.run.save(near.solutions, near.cost, "the repair")
            self.run.end = b"few %d" % near.cost
            self.run.progress.line(self.run.end)

    def written(self, how: str, roster: Roster) -> bool:
        """Has the program write a roster of the desk's, if it keeps the hard rules; says whether it does."""
        answer = self.run.roster.call(["improve", "--rounds", "0", *self.from_week], self.texts(roster).joined)
        if answer.status == 0:
            self.add(self.take(how, answer))
        return answer.status == 0

    # ---- how they are found

    def search(self, searches: int | None, end: float | None) -> Near:
        """Finds rosters, with this number of searches in a run of `plan`, or in the time. Returns the nearest."""
        self.run.progress.show_text("rosters near to the one given are looked for")
        # (what `plan` refuses has no repair, and is an error before a roster is written)
        asked = self.run.roster.call(["plan", "--searches", "0", *self.from_week], self.run.given.joined)
        if asked.status and not asked.last().startswith(NOT_FOUND):
            raise refusal("plan", asked, self.run.given)
        self.written("the absent ones alone", without_absent(self.plan))
        counts: list[int | None] = [*TRIES] if searches is None and end is not None else [searches]
        within_time(end, lambda: self.searched(counts))
        if not self.nearest:
            raise DeskError(f"{self.lacking}; give more searches by --polish, more --seconds, or need less")
        return self.nearest

    def searched(self, counts: list[int | None]) -> None:
        if not self.found:
            # (each of these has as few changes as there can be)
            filling = Filling(self.plan, self.run.bound_search.first_week)
            for roster in itertools.islice(filling.rosters(), FILLINGS):
                self.written("one for each who is missed", roster)
        for searches in counts:
            of_searches = [] if searches is None else ["--searches", str(searches)]
            with contextlib.ExitStack() as stack:
                started = [stack.enter_context(self.start(keep, of_searches)) for keep in KEEPS]
                for keep, running in zip(KEEPS, started):
                    self.ended(keep, running)
            self.run.searches += len(KEEPS) * (self.run.default_searches() if searches is None else searches)

    def start(self, keep: int, more: list[str]) -> Running:
        """A run of `plan` with this --keep. They go on side by side."""
        words = ["plan", "--seed", str(self.seed), *more, *self.from_week, *["--keep", str(keep)] * bool(keep)]
        return self.run.roster.start(words, self.run.given.joined)

    def ended(self, keep: int, running: Running) -> None:
        """Takes the roster of a run, once it is over."""
        program.follow(running)
        answer = running.answer()
        if answer.status == 1 and answer.last().startswith(NOT_FOUND):
            short = answer.last().removeprefix(NOT_FOUND)
            self.lacking = f"no roster that keeps the hard rules was found, and the nearest has '{short}'"
        elif answer.status:
            raise refusal("plan --keep" if keep else "plan", answer, self.run.given)
        else:
            how = f"--keep {keep}" if keep else "without --keep"
            near = self.take(how, answer, keep)
            trimming = Trimming(self.plan, near.roster)
            with_skills = trimming.with_skills_as_before()
            if with_skills == near.roster or not self.written(how, with_skills):
                self.add(near)
            self.written("trimmed", trimming.trimmed())


def changes_text(run: Run) -> str:
    """What the file has after a run with --keep."""
    roster = plan_in(run.texts()).roster
    return f"{shown(run.label)}: {near_of(run.start, '', run.solutions, roster, run.total).text()}"


def found_by(run: Run, searches: int | None, seed: int, end: float | None) -> list[Near]:
    """Looks for rosters, and puts the one with the fewest changes into the file. Returns all of them, that one first."""
    run.lacking = "no roster was found"
    repair = Repair(run, seed)
    nearest = repair.search(searches, end)
    # (of one roster that was found twice, the table has how it has the fewest changes)
    of_all = sorted(repair.found.values(), key=Near.rank, reverse=True)
    found = {near.solutions: near for near in of_all} | {nearest.solutions: nearest}
    return sorted(found.values(), key=Near.rank)


def repair(run: Run, searches: int | None, seed: int, end: float | None, chosen: int = 1) -> list[str]:
    """Puts the chosen one of the rosters that were found into the file, and returns a table of them."""
    found = found_by(run, searches, seed, end)
    if chosen > len(found):
        raise DeskError(f"--candidate {chosen}: {plural(len(found), 'roster')} were found; the first is in the file", 2)
    near = found[chosen - 1]
    if chosen > 1:
        run.save(near.solutions, near.cost, f"candidate {chosen} of the repair")
        run.end = b"few %d" % near.cost
        run.progress.line(run.end)
    rows = [near.cells(str(number)) for number, near in enumerate(found, 1)]
    head = f"{shown(run.label)}: {near.text()}; changed in it, and in others that were found (--candidate takes another):"
    return [head, *aligned([["", "days", "skills", "nurses", "penalty"], *rows])]
