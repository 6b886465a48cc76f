"""A case: what the texts say of a ward and its weeks, in numbers; with rows and rosters, and what is counted of these.

Shifts, skills, contracts and nurses are numbers, in the order of the scenario. Days are numbers, too, from the first Monday on.
Names are bytes, as they stand in the texts.
"""
import collections
import collections.abc
import dataclasses
import typing

SATURDAY, SUNDAY = 5, 6

# A shift with a skill: what a nurse does on a day on which she works, and a slot of a day.
ShiftSkill = tuple[int, int]
# What a nurse does on a day; None for off.
Choice = ShiftSkill | None
# A row has a choice for each day, and a roster has a row for each nurse.
Row = list[Choice]
Roster = list[Row]
# A nurse and a day.
NurseDay = tuple[int, int]
# An off request or a wish to work: the nurse, the shift or None for any, and the day.
Request = tuple[int, int | None, int]
# How many nurses work in each slot of a day.
Cover = collections.Counter[ShiftSkill]


class Limits(typing.NamedTuple):
    """The least and the greatest number; of a slot, the minimum and the optimum."""

    least: int
    greatest: int


class Contract(typing.NamedTuple):
    """The limits of a contract: of all assignments, of working days in a row and of days off in a row; how many weekends may be
    worked; and 1 if a weekend is to be worked whole or not at all."""

    assignments: Limits
    working: Limits
    off: Limits
    weekends: int
    whole_weekends: int


class History(typing.NamedTuple):
    """What a nurse did before the first day: the totals, the last shift, and the runs of that shift, of working days and of days
    off."""

    assignments: int
    weekends: int
    last: int | None
    of_last: int
    working: int
    off: int


class Nurse(typing.NamedTuple):
    name: bytes
    contract: int
    skills: list[int]
    history: History


class Shift(typing.NamedTuple):
    """A shift, and how many days in a row it may be worked."""

    name: bytes
    limits: Limits


@dataclasses.dataclass(frozen=True)
class Case:
    """A ward and its weeks. `forbidden` has the pairs of shifts that may not follow each other, and `needs` for each shift and
    skill the minimum and the optimum of each day."""

    name: bytes
    weeks: int
    shifts: list[Shift]
    skills: list[bytes]
    forbidden: set[tuple[int | None, int | None]]
    contracts: list[Contract]
    nurses: list[Nurse]
    needs: dict[ShiftSkill, list[Limits]]
    requests: set[Request]
    wishes: set[Request]
    absences: set[NurseDay]
    fixed: set[NurseDay]

    def minimum(self, choice: Choice, day: int) -> int:
        """How many nurses a slot of a day needs at least; none if no minimum is given."""
        return self.needs[choice][day].least if choice in self.needs else 0

    def is_frozen(self, nurse: int, day: int, first_week: int) -> bool:
        """Whether a day of a nurse stays as it is: it is before the first week that may change, or fixed."""
        return day // 7 < first_week or (nurse, day) in self.fixed

    def can_follow(self, shifts: collections.abc.Sequence[int | None]) -> bool:
        """Whether no shift of consecutive days is forbidden after the one before it. None is a day off."""
        return not any(pair in self.forbidden for pair in zip(shifts, shifts[1:]))


def shift_of(choice: Choice) -> int | None:
    """The shift of a choice; None if it is off."""
    return None if choice is None else choice[0]


def cover(choices: collections.abc.Iterable[Choice]) -> Cover:
    """How many nurses work in each slot of a day, by what each of them does then."""
    return collections.Counter(choice for choice in choices if choice is not None)


def cover_on(roster: Roster, day: int) -> Cover:
    """How many nurses work in each slot of a day of a roster."""
    return cover(row[day] for row in roster)


def with_row(roster: Roster, nurse: int, row: Row) -> Roster:
    """The roster in which a nurse has another row."""
    return [*roster[:nurse], row, *roster[nurse + 1 :]]


def without_absent_work(case: Case, roster: Roster) -> Roster:
    """The roster in which nurses are off on the days on which they are absent."""
    return [
        [None if (nurse, day) in case.absences else choice for day, choice in enumerate(row)] for nurse, row in enumerate(roster)
    ]


def changed_days(before: Roster, after: Roster) -> int:
    """On how many days of all nurses two rosters differ."""
    return sum(was != now for rows in zip(before, after) for was, now in zip(*rows))


def moved_days(before: Roster, after: Roster) -> int:
    """On how many days of all nurses the shifts of two rosters differ; a day with another skill alone doesn't count."""
    return sum(shift_of(was) != shift_of(now) for rows in zip(before, after) for was, now in zip(*rows))


def changed_nurses(before: Roster, after: Roster) -> int:
    """How many nurses have another row."""
    return sum(was != now for was, now in zip(before, after))
