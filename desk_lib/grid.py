"""The command `grid`: nurses by days on a terminal."""
import os
import shutil
import sys

from desk_lib.case import ShiftSkill
from desk_lib.grammar import DAYS
from desk_lib.sheet import Cell, Cover, Sheet
from desk_lib.texts import cut, plural, shown

NAME, GAP = 14, 2
# Of a terminal: colours of the shifts in their order, and those of marks.
SHIFT_COLOURS = ["30;43", "30;42", "30;46", "97;44", "30;45", "30;47", "97;41", "97;100"]
CHANGED, WRONG, DIM, BOLD = "1;4", "1;31", "2", "1"


class Paint:
    """Puts colours around texts, if there are any."""

    def __init__(self, is_on: bool):
        self.is_on = is_on

    def __call__(self, text: str, code: str) -> str:
        return f"\x1b[{code}m{text}\x1b[0m" if self.is_on and code else text


def has_colours() -> bool:
    """Whether standard output is a terminal that takes colours, and nobody asked for none."""
    is_terminal = sys.stdout is not None and sys.stdout.isatty()
    return is_terminal and not os.environ.get("NO_COLOR") and os.environ.get("TERM") != "dumb"


def width() -> int:
    return shutil.get_terminal_size((80, 24)).columns


class Grid:
    """The lines of a sheet, as many weeks side by side as fit, and the others below."""

    def __init__(self, sheet: Sheet, columns: int, paint: Paint, with_skills: bool):
        self.sheet, self.paint, self.with_skills = sheet, paint, with_skills
        numbers = [
            str(cover.have) + cover.mark() for week in sheet.weeks for at in sheet.needed() for cover in sheet.covers(at, week)
        ]
        ranges = [span(cover) for week in sheet.weeks for at in sheet.needed() for cover in sheet.covers(at, week)]
        marks = max(1, *(len(self.mark(row, day)) for row in sheet.rows for day in range(len(row))))
        self.day = 1 + max([1 + marks + with_skills, *map(len, numbers), *map(len, ranges)])
        self.at_once = max(1, (columns - NAME) // (GAP + 7 * self.day))

    def lines(self) -> list[str]:
        lines = []
        for first in range(0, len(self.sheet.weeks), self.at_once):
            weeks = self.sheet.weeks[first : first + self.at_once]
            covers = self.covers(weeks)
            lines += [*self.heads(weeks), *self.nurses(weeks), "", *covers, *[""] * bool(covers)]
        broken = self.sheet.breach_lines()
        return lines + self.legend() + [*[""] * bool(broken), *broken]

    def line(self, name: str, weeks: list[list[str]]) -> str:
        """A line of cells, each as wide as a day."""
        return (cut(name, NAME) + "".join(" " * GAP + "".join(week) for week in weeks)).rstrip()

    def padded(self, text: str, code: str = "") -> str:
        """A cell, its text in colour and the blanks not."""
        return self.paint(text, code) + " " * (self.day - len(text))

    def heads(self, weeks: range) -> list[str]:
        titles = [", ".join(filter(None, [self.sheet.short_week_text(week), self.sheet.frozen_part(week)])) for week in weeks]
        days = [self.padded(day.decode()[:2], BOLD if number > 4 else "") for number, day in enumerate(DAYS)]
        return [self.line("", [[cut(title, 7 * self.day)] for title in titles]), self.line("", [days] * len(weeks))]

    def nurses(self, weeks: range) -> list[str]:
        rows = zip(self.sheet.case.nurses, self.sheet.rows)
        return [
            self.line(shown(nurse.name), [[self.cell(row, day) for day in range(7 * week, 7 * week + 7)] for week in weeks])
            for nurse, row in rows
        ]

    def mark(self, row: list[Cell], day: int) -> str:
        """What stands after a day."""
        cell = row[day]
        mark = ("*" if cell.is_changed else "") + ("!" if cell.breaks_request or cell.misses_wish else "")
        mark = "!!" if cell.broken else "#" if len(mark) == 2 else mark
        return mark + "=" * self.sheet.is_fixed(cell, day)

    def cell(self, row: list[Cell], day: int) -> str:
        """The shift's letter, that of the skill if it is asked for, and a mark."""
        cell, mark = row[day], self.mark(row, day)
        if cell.choice is None:
            return self.padded(("x" if cell.is_absent else ".") + mark, CHANGED if cell.is_changed else "")
        shift, skill = cell.choice
        text = self.sheet.shift_letters[shift] + (self.sheet.skill_letters[skill] if self.with_skills else "")
        return self.padded(text + mark, SHIFT_COLOURS[shift] + (f";{CHANGED}" if cell.is_changed else ""))

    def covers(self, weeks: range) -> list[str]:
        """Two lines for each shift and skill: how many nurses there are, and the minimum and optimum."""
        lines = []
        for at in self.sheet.needed():
            covers = [self.sheet.covers(at, week) for week in weeks]
            counts = [[self.padded(count(cover), WRONG if cover.mark() else "") for cover in week] for week in covers]
            ranges = [[self.padded(span(cover), DIM) for cover in week] for week in covers]
            shift, skill = (shown(name) for name in self.names(at))
            lines += [self.line(shift, counts), self.line(f"  {skill}", ranges)]
        return lines

    def names(self, at: ShiftSkill) -> tuple[bytes, bytes]:
        return self.sheet.case.shifts[at[0]].name, self.sheet.case.skills[at[1]]

    def legend(self) -> list[str]:
        sheet = self.sheet
        shifts = [
            f"{self.paint(letter, code)} {shown(shift.name)}"
            for letter, code, shift in zip(sheet.shift_letters, SHIFT_COLOURS, sheet.case.shifts)
        ]
        lines = [f"{'  '.join(shifts)}  . off{'  x absent' if sheet.case.absences else ''}"]
        if self.with_skills:
            lines.append("  ".join(f"{letter} {shown(skill)}" for letter, skill in zip(sheet.skill_letters, sheet.case.skills)))
        changed = f" ({plural(sheet.changed(), 'day')})" if sheet.is_compared else ""
        broken = ", !! a broken hard rule" if sheet.broken else ""
        fixed = ", = fixed" if any(sheet.is_fixed(cell, day) for row in sheet.rows for day, cell in enumerate(row)) else ""
        lines.append(f"after a day: * changed{changed}, ! a request that isn't met, # both{broken}{fixed}")
        if sheet.needed():
            lines.append(
                "by shift and skill: how many are there (- below the optimum, ! below the minimum), then minimum-optimum"
            )
        return lines


def count(cover: Cover) -> str:
    """How many are there, and the mark of too few; a point if none is needed nor there."""
    return f"{cover.have}{cover.mark()}" if cover.have or cover.least or cover.optimum else "."


def span(cover: Cover) -> str:
    """The minimum and the optimum, if some are needed."""
    return f"{cover.least}-{cover.optimum}" if cover.least or cover.optimum else ""


def grid_lines(sheet: Sheet, with_skills: bool, columns: int | None) -> list[str]:
    """What the command `grid` writes."""
    return Grid(sheet, columns or width(), Paint(has_colours()), with_skills).lines()
