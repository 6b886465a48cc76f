"""What a grid shows of a roster, on a terminal and on a page: the days of each nurse, and the cover of each day."""
import dataclasses
import datetime
import functools

from desk_lib.breaches import all_breaches, breach_lines, frozen_changes
from desk_lib.case import Choice, Roster, ShiftSkill
from desk_lib.costs import Costing
from desk_lib.days import MONTHS, day_name, day_text
from desk_lib.model import choice_name
from desk_lib.texts import plural, shown

SPARE = "0123456789"


def date_name(date: datetime.date) -> str:
    return f"{date.day} {MONTHS[date.month - 1]} {date.year}"


@dataclasses.dataclass(frozen=True)
class Cell:
    """A day of a nurse: the choice, whether it is another than before, what of the requests it doesn't meet, whether the nurse
    is absent, whether the day is frozen, and in words the hard rules that it breaks."""

    choice: Choice
    before: Choice
    is_changed: bool
    breaks_request: bool
    misses_wish: bool
    is_absent: bool
    is_frozen: bool
    broken: tuple[str, ...] = ()


@dataclasses.dataclass(frozen=True)
class Cover:
    """How many nurses a day has on a shift with a skill, the minimum and the optimum."""

    have: int
    least: int
    optimum: int

    def mark(self) -> str:
        """'!' below the minimum, '-' below the optimum."""
        return "!" if self.have < self.least else "-" if self.have < self.optimum else ""


def letters(names: list[bytes]) -> list[str]:
    """A letter for each name, each another: its first one, or the first that is left, or a digit."""
    taken: list[str] = []
    for name in map(shown, names):
        wanted = [letter.upper() for letter in name if letter.isascii() and letter.isalnum()] + [*SPARE]
        taken.append(next(letter for letter in wanted if letter not in taken))
    return taken


class Sheet:
    """A roster to be shown, compared with another one if that is given. Weeks before `first_week` are frozen, and the first begins on
    the Monday `start` if that is known."""

    def __init__(
        self, costing: Costing, before: Roster | None, first_week: int, start: datetime.date | None = None, published: int = 0
    ):
        self.costing, self.case, self.start = costing, costing.case, start
        self.weeks, self.first_week, self.is_compared = range(self.case.weeks), first_week, before is not None
        # (how many of the first days are published, if a ward says so: what changed there since breaks nothing)
        self.published = published
        # (what the roster breaks; and what the other one breaks, if there is one)
        unchanged = costing.plan.roster if published or before is None else before
        self.breaches = [*all_breaches(costing.plan), *frozen_changes(costing.plan, unchanged, first_week)]
        self.breaches_before = all_breaches(dataclasses.replace(costing.plan, roster=before)) if before else []
        self.broken: dict[tuple[int, int], tuple[str, ...]] = {}
        for breach in self.breaches:
            if breach.rule != "H2":
                at = breach.nurse, breach.day
                self.broken[at] = *self.broken.get(at, ()), breach.more
        self.shift_letters = letters([shift.name for shift in self.case.shifts])
        self.skill_letters = [letter.lower() for letter in letters(self.case.skills)]
        self.rows = [
            [self.cell(number, day, before) for day in range(costing.plan.days)] for number in range(len(self.case.nurses))
        ]

    @functools.cached_property
    def past(self) -> int:
        """How many of the first days are frozen for all nurses, or published."""
        days = range(self.costing.plan.days)
        frozen = next((day for day in days if not all(row[day].is_frozen for row in self.rows)), len(days))
        return max(frozen, self.published)

    def frozen_part(self, week: int, word: str = "frozen") -> str:
        """How much of a week is frozen for all nurses, in words."""
        count = self.past - 7 * week
        return word if count >= 7 else f"{word} to {day_name(count - 1)}" if count > 0 else ""

    def span_text(self, first: int, last: int) -> str:
        """The days from one to another in words, as for people if the dates are known."""
        begin, end = self.date(first), self.date(last)
        if begin is None or end is None:
            return f"{day_text(first)} to {day_text(last)}"
        month = f" {MONTHS[begin.month - 1]}" if (begin.month, begin.year) != (end.month, end.year) else ""
        year = f" {begin.year}" if begin.year != end.year else ""
        return f"{begin.day}{month}{year} to {date_name(end)}"

    def short_week_text(self, week: int) -> str:
        """The dates of a week without the year, or how words count it."""
        begin, end = self.date(7 * week), self.date(7 * week + 6)
        if begin is None or end is None:
            return f"week {week}"
        month = f" {MONTHS[begin.month - 1]}" if begin.month != end.month else ""
        return f"{begin.day}{month} to {end.day} {MONTHS[end.month - 1]}"

    def week_text(self, week: int) -> str:
        """A week in words."""
        return self.span_text(7 * week, 7 * week + 6)

    def is_fixed(self, cell: Cell, day: int) -> bool:
        """Whether a day is frozen for its nurse, and not for all."""
        return cell.is_frozen and day >= self.past

    def changed(self) -> int:
        """How many days are other than before."""
        return sum(cell.is_changed for row in self.rows for cell in row)

    def cell(self, number: int, day: int, before: Roster | None) -> Cell:
        row = self.costing.plan.roster[number]
        old = before[number][day] if before else row[day]
        asked, missed = self.costing.breaks_request(number, day, row[day]), self.costing.misses_wish(number, day, row[day])
        is_absent, is_held = (number, day) in self.case.absences, self.case.is_frozen(number, day, self.first_week)
        return Cell(row[day], old, old != row[day], asked, missed, is_absent, is_held, self.broken.get((number, day), ()))

    def date(self, day: int) -> datetime.date | None:
        return self.start + datetime.timedelta(day) if self.start else None

    def day_name(self, day: int) -> str:
        """A day in words."""
        return day_text(day)

    def cell_text(self, number: int, day: int, is_notice: bool = False) -> str:
        """A day of a nurse in words; for the wall without requests, and in the words of nurses."""
        cell = self.rows[number][day]
        clauses = [f"{shown(self.case.nurses[number].name)}, {self.day_name(day)}: {choice_name(self.case, cell.choice)}"]
        clauses += [f"before: {choice_name(self.case, cell.before)}"] if cell.is_changed else []
        if not is_notice:
            clauses += ["an off request isn't met"] * cell.breaks_request + ["a wish isn't met"] * cell.misses_wish
        return "; ".join([*clauses, *["absent"] * cell.is_absent, *cell.broken, *[self.frozen_word(is_notice)] * cell.is_frozen])

    def frozen_word(self, is_notice: bool) -> str:
        """What days are called that stay as they are."""
        return "published" if is_notice or self.published else "frozen"

    def breach_lines(self) -> list[str]:
        """What the roster breaks, or the one before, a line for each, below a line that says how many."""
        for found, which in (self.breaches, "This roster"), (self.breaches_before, "The first roster"):
            if found:
                return [f"{which} breaks {plural(len(found), 'hard rule')}:", *breach_lines(found)]
        return []

    def changes(self) -> list[tuple[int, list[int]]]:
        """The nurses who have another row than before, each with the days that are other."""
        days = [[day for day, cell in enumerate(row) if cell.is_changed] for row in self.rows]
        return [(number, changed) for number, changed in enumerate(days) if changed]

    def change_texts(self, number: int, day: int) -> tuple[str, str, str]:
        """A day that changed in words: the day, what was, and what is."""
        cell = self.rows[number][day]
        return self.day_name(day), choice_name(self.case, cell.before), choice_name(self.case, cell.choice)

    def cover_text(self, at: ShiftSkill, day: int, cover: Cover) -> str:
        """The cover of a day in words."""
        low = {"!": "; below the minimum", "-": "; below the optimum"}.get(cover.mark(), "")
        slot = f"{self.name_of(at)}, {self.day_name(day)}"
        return f"{slot}: {cover.have} there, minimum {cover.least}, optimum {cover.optimum}{low}"

    def covers(self, at: ShiftSkill, week: int) -> list[Cover]:
        """The cover of a shift and skill on the days of a week."""
        days = range(7 * week, 7 * week + 7)
        needs, covers = self.case.needs[at], self.costing.covers
        return [Cover(covers[day][at], needs[day].least, needs[day].greatest) for day in days]

    def needed(self) -> list[ShiftSkill]:
        """The shifts and skills of which some day needs one."""
        return [at for at, needs in self.case.needs.items() if any(map(any, needs))]

    def name_of(self, at: ShiftSkill) -> str:
        return f"{shown(self.case.shifts[at[0]].name)} {shown(self.case.skills[at[1]])}"
