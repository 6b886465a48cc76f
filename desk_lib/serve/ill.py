"""Somebody is ill: the shifts that are open, who may take them, repairs side by side, and who has to be called."""
import datetime
import os
import re

from desk_lib.days import day_text
from desk_lib.model import choice_name, roster_in
from desk_lib.serve.asked import Json, list_in, number_in, refused
from desk_lib.serve.asks import Asks, span_text
from desk_lib.serve.changes import Changes
from desk_lib.serve.screen import Screen
from desk_lib.serve.snapshot import Snapshot
from desk_lib.texts import shown
from desk_lib.ward.rosters import with_roster
from desk_lib.ward.store import Candidate, Version
from desk_lib.ward.versions import undone
from desk_lib.who import Open, Takers, all_open, below_minimum

# How the note of a version begins that took a roster which was looked for.
TAKEN = re.compile(r"(take: candidate|repair:)")
# How many nurses may be ill at once, and on how many days of hers somebody says no.
MOST_ILL, MOST_DAYS = 60, 60


class Ill:
    """What the page asks when somebody is ill."""

    def __init__(self, screen: Screen, changes: Changes, asks: Asks):
        self.screen, self.changes, self.asks = screen, changes, asks

    # ---- open shifts, and who may take them

    def add(self, given: Json) -> Json:
        """Marks nurses absent, all by one version."""
        screen = self.screen
        with screen.lock:
            snapshot = screen.named(given)
            lines = []
            for absence in list_in(given, "absences", MOST_ILL):
                nurse = os.fsdecode(snapshot.case.nurses[number_in(absence, "nurse", 0, len(snapshot.case.nurses) - 1)].name)
                first = number_in(absence, "first", 0, snapshot.plan.days - 1)
                last = number_in(absence, "last", first, snapshot.plan.days - 1, first)
                start = snapshot.ward.state.input.start
                begin, end = (start + datetime.timedelta(day) for day in (first, last))
                lines.append(f"absent {nurse} {begin}" + (f"..{end}" if last > first else ""))
            return {**self.asks.add(given, lines), **self.opens(None)}

    def opens(self, number: int | None) -> Json:
        """The open shifts from today on."""
        with self.screen.lock:
            snapshot, today = self.screen.snapshot(number), self.screen.today()
            found = all_open(snapshot.plan, 0) if snapshot.has_roster else []
            below = below_minimum(self.takers(snapshot).plan) if found else set()
            return {"open": [self.open_json(snapshot, one, one in below) for one in found if one.day >= today]}

    def open_json(self, snapshot: Snapshot, one: Open, is_below: bool) -> Json:
        case = snapshot.case
        assert one.skill is not None
        left = sum(
            (nurse, one.day) in case.absences and row[one.day] == (one.shift, one.skill)
            for nurse, row in enumerate(snapshot.plan.roster)
        )
        have = snapshot.costing.covers[one.day][one.shift, one.skill] - left
        return {
            "day": one.day,
            "text": day_text(one.day),
            "shift": one.shift,
            "skill": one.skill,
            "words": f"{day_text(one.day)}, {choice_name(case, (one.shift, one.skill))}",
            "below_minimum": case.minimum((one.shift, one.skill), one.day) - have if is_below else 0,
        }

    def takers(self, snapshot: Snapshot) -> Takers:
        """Who may take shifts of a snapshot, in which absent nurses don't come."""
        return Takers(self.screen.program, snapshot.numbers.texts, snapshot.plan, self.screen.first_week(snapshot))

    def who(self, given: Json, number: int | None) -> Json:
        """Who may take a shift, the cheapest first; and why nobody may."""
        with self.screen.lock:
            snapshot = self.screen.snapshot(number)
            takers, case = self.takers(snapshot), snapshot.case
        if not snapshot.has_roster:
            raise refused("Nothing is planned yet, so no shift is open.")
        shift, skill = number_in(given, "shift", 0, len(case.shifts) - 1), number_in(given, "skill", 0, len(case.skills) - 1)
        wanted = Open(number_in(given, "day", 0, snapshot.plan.days - 1), shift, skill)
        now, found = takers.penalty(), takers.counts(wanted)
        named = [
            {
                "nurse": nurse,
                "name": shown(case.nurses[nurse].name),
                "penalty": taker.penalty,
                "more": taker.penalty - now,
                "days": taker.changed,
                "missed": taker.missed or 0,
                "is_best": at == 0,
                "words": taker.text(),
            }
            for at, (nurse, taker) in enumerate(found.items())
        ]
        others = [
            {"nurse": nurse, "name": shown(known.name), "words": "" if found else takers.reason(wanted, nurse)}
            for nurse, known in enumerate(case.nurses)
            if nurse not in found and (not found or skill in known.skills)
        ]
        where = f"{day_text(wanted.day)}, {choice_name(case, (shift, skill))}"
        return {"day": wanted.day, "words": where, "penalty": now, "takers": named, "others": others}

    # ---- repairs

    def candidates(self, number: int | None) -> Json:
        """The repairs of a version, side by side."""
        with self.screen.lock:
            snapshot = self.screen.snapshot(number)
            is_present = snapshot.version == self.screen.ward().current
            return {"candidates": candidates_json(self.screen, snapshot, self.screen.ward().candidates if is_present else ())}

    def take(self, given: Json) -> Json:
        """Takes a repair; who has to be called comes with it."""
        with self.screen.lock:
            return {**self.changes.take(given), **self.calls()}

    # ---- calls

    def calls(self) -> Json:
        """Who has to be called: those who change by the repair that was taken last, if it still holds."""
        with self.screen.lock:
            ward, snapshot = self.screen.ward(), self.screen.snapshot()
            version = self.last_take()
            if version is None:
                return {"calls_of": None, "calls": []}
            before, after = self.screen.roster_of(ward.version(version.number - 1)), self.screen.roster_of(version)
            differs = [
                {
                    **nurse,
                    "changes": [
                        change for change in nurse["changes"] if (nurse["nurse"], change["day"]) not in snapshot.case.absences
                    ],
                }
                for nurse in self.screen.differs(before, after)
            ]
            return {"calls_of": version.number, "calls": [nurse for nurse in differs if nurse["changes"]]}

    def last_take(self) -> Version | None:
        """The version that took a repair, if the roster is still the one that it took."""
        ward = self.screen.ward()
        holding, _ = undone(ward.versions)
        for number in reversed(holding):
            version = ward.version(number)
            if version.state.roster != ward.state.roster:
                return None
            if TAKEN.match(version.note):
                return version
        return None

    def says_no(self, given: Json) -> Json:
        """Takes the repair back, and keeps these days from a nurse by an ask, both in one version. The page then looks for repairs again."""
        screen = self.screen
        with screen.lock:
            before, version = screen.present(given, ["says no"]), self.last_take()
            nurse = number_in(given, "nurse", 0, len(before.case.nurses) - 1)
            days = given.get("days")
            if version is None:
                raise refused("No repair is taken, so there is nobody who could say no.")
            if not isinstance(days, list) or not 1 <= len(days) <= MOST_DAYS:
                raise refused(f"days: a list of 1 to {MOST_DAYS} days is due", "days")
            every = sorted({number_in({"day": day}, "day", 0, before.plan.days - 1) for day in days})
            return self.without_take(given, before, version, nurse, every)

    def without_take(self, given: Json, before: Snapshot, version: Version, nurse: int, days: list[int]) -> Json:
        """The version without a take, with an ask that fixes days of a nurse as they were before it."""
        start, name = before.ward.state.input.start, shown(before.case.nurses[nurse].name)
        dates = " ".join(str(start + datetime.timedelta(day)) for day in days)
        old = before.ward.version(version.number - 1).state.roster
        answer, asks = self.changes.add_asks(given, [f"fix {os.fsdecode(before.case.nurses[nurse].name)} {dates}"], roster=old)
        text = ", ".join(span_text(day, day) for day in days)
        words = (
            f"{name} keeps {text} as before (ask {asks[0].number}), and the repair is taken back. Repairs are looked for again."
        )
        return {**answer, "ask": asks[0].number, "words": words}


def candidates_json(screen: Screen, snapshot: Snapshot, candidates: tuple[Candidate, ...]) -> list[Json]:
    """Repairs of a snapshot, side by side."""
    found: list[Json] = []
    for number, candidate in enumerate(candidates, 1):
        differs = screen.differs(snapshot.plan.roster, roster_in(with_roster(snapshot.ward, candidate.roster.solutions)))
        ill = {nurse for nurse, _ in snapshot.case.absences}
        people = sum(
            any((nurse["nurse"], change["day"]) not in snapshot.case.absences for change in nurse["changes"]) for nurse in differs
        )
        found.append(
            {
                "number": number,
                "how": candidate.how,
                "days": candidate.days,
                "skills": candidate.skills,
                "nurses": candidate.nurses,
                "people": people,
                "penalty": candidate.roster.penalty,
                "differs": sorted(differs, key=lambda nurse: nurse["nurse"] not in ill),
            }
        )
    if found:
        fewest, cheapest = min(one["days"] for one in found), min(one["penalty"] or 0 for one in found)
        for one in found:
            one["is_fewest"], one["is_cheapest"] = one["days"] == fewest, (one["penalty"] or 0) == cheapest
            one["title"] = title_of(one, len(found))
    return found


def title_of(one: Json, count: int) -> str:
    """What a repair is called among others."""
    if one["number"] == 1:
        return "Fewest changes"
    return "Lowest penalty" if one["is_cheapest"] else "In between" if one["number"] < count else f"Repair {one['number']}"
