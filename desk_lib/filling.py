"""Rosters in which absent nurses don't come, and each nurse whom a minimum misses then is one who changes on that day alone.

No roster has fewer changed days: each nurse who is missed takes a change of some nurse on that day.
"""
import collections.abc
import dataclasses

from desk_lib.breaches import minimums
from desk_lib.case import Choice, Roster, ShiftSkill, cover_on, shift_of
from desk_lib.model import Plan, without_absent

# The day, and the shift with the skill.
Slot = tuple[int, ShiftSkill]
# How many times a nurse is put into a slot, at most.
MOST_TRIES = 10_000


def missed(plan: Plan) -> list[Slot]:
    """The slots in which nurses are missed, each as often as they are."""
    case, found = plan.case, []
    for breach in minimums(plan):
        if breach.slot:
            have = cover_on(plan.roster, breach.day)[breach.slot]
            found += [(breach.day, breach.slot)] * (case.minimum(breach.slot, breach.day) - have)
    return found


class Filling:
    """The search for them."""

    def __init__(self, plan: Plan, first_week: int):
        self.plan, self.case, self.first_week = plan, plan.case, first_week
        self.rows = without_absent(plan)
        slots = missed(dataclasses.replace(plan, roster=self.rows))
        # (first the slots that the fewest can take)
        self.slots = sorted(slots, key=lambda slot: (len(self.takers(slot)), slot))
        self.tries_left = MOST_TRIES

    def rosters(self, at: int = 0) -> collections.abc.Iterator[Roster]:
        """The rosters in which nurses take the slots from this one on, in the order of the nurses, until the tries are used up."""
        if at == len(self.slots):
            yield [[*row] for row in self.rows]
            return
        day, choice = self.slots[at]
        for nurse in self.takers(self.slots[at]):
            self.tries_left -= 1
            if self.tries_left > 0:
                now, self.rows[nurse][day] = self.rows[nurse][day], choice
                yield from self.rosters(at + 1)
                self.rows[nurse][day] = now

    def takers(self, slot: Slot) -> list[int]:
        """The nurses who can change to a slot on its day: none is needed where she is, and their other days stay."""
        day, wanted = slot
        have = cover_on(self.rows, day)

        def is_free(now: Choice) -> bool:
            return now != wanted and (now is None or have[now] > self.case.minimum(now, day))

        return [nurse for nurse, row in enumerate(self.rows) if is_free(row[day]) and self.can_take(nurse, day, wanted)]

    def can_take(self, number: int, day: int, wanted: ShiftSkill) -> bool:
        """Whether her skills, absences and frozen days let her, and the successions."""
        case, row, nurse = self.case, self.rows[number], self.case.nurses[number]
        if wanted[1] not in nurse.skills or (number, day) in case.absences or case.is_frozen(number, day, self.first_week):
            return False
        before = shift_of(row[day - 1]) if day else nurse.history.last
        return case.can_follow([before, wanted[0], *map(shift_of, row[day + 1 : day + 2])])
