"""The view of the month, as JSON: rows, marks and cover of some weeks, and the state of the whole ward."""
import collections.abc
import datetime
import functools
import re
import typing

from desk_lib.asks import AWAY, FIXING
from desk_lib.balances import Balance, added
from desk_lib.breaches import Breach
from desk_lib.case import Choice
from desk_lib.costs import RULES
from desk_lib.days import MONTHS, day_name, day_text
from desk_lib.model import choice_name
from desk_lib.page import MEANING, ink_on
from desk_lib.serve.snapshot import Snapshot
from desk_lib.sheet import letters
from desk_lib.texts import shown
from desk_lib.ward.balances import nights_of
from desk_lib.ward.store import Shift, Version
from desk_lib.ward.versions import undone

Json = dict[str, typing.Any]
# How many places a list of the state has at most.
MOST_PLACES = 1000
LONG_DAYS = "Monday Tuesday Wednesday Thursday Friday Saturday Sunday".split()
LONG_MONTHS = "January February March April May June July August September October November December".split()
# Where a shift lies in the day, by its name if no times are known.
PLACES = {
    "left": ("early", "morning"),
    "middle": ("day", "noon", "mid"),
    "right": ("late", "evening", "afternoon"),
    "whole": ("night",),
}
# Hours before which a shift lies in the day's first part, and in its second.
MORNING_ENDS, AFTERNOON_BEGINS = 10, 13
# What a balance counts, by the names that the page has for them.
COUNTS = ("nights", "weekends", "unmet", "changed")


class Window(typing.NamedTuple):
    """Some weeks of a ward: the first of them, and how many."""

    first_week: int
    weeks: int

    @property
    def days(self) -> range:
        return range(7 * self.first_week, 7 * (self.first_week + self.weeks))


def choice_json(choice: Choice) -> list[int] | None:
    return None if choice is None else [*choice]


def version_json(version: Version) -> Json:
    """A version, with the last day that is published."""
    roster, publication = version.state.roster, version.state.publication
    return {
        "number": version.number,
        "kind": version.kind,
        "note": version.note,
        "author": version.author,
        "made": version.made,
        "at": local_time(version.made),
        "penalty": roster.penalty if roster else None,
        "has_roster": roster is not None,
        "published": publication.days - 1 if publication else None,
    }


def local_time(made: str) -> str:
    """A time of a ward in words, by the clock of this machine."""
    try:
        when = datetime.datetime.fromisoformat(made).replace(tzinfo=datetime.timezone.utc).astimezone()
    except ValueError:
        return made
    return f"{when:%a} {when.day} {MONTHS[when.month - 1]}, {when:%H:%M}"


def short_names(names: list[bytes]) -> list[str]:
    """One or a few letters for each name, each another: its capitals if it has several, else as the desk's pages have them."""
    found = ["".join(re.findall(r"[A-Z]", shown(name)))[:3] or shown(name)[:1].upper() for name in names]
    return found if len({*found}) == len(found) else letters(names)


class Month:
    """What the view of the month shows of a snapshot, on a day that is today: its number, which may be none of the ward's."""

    def __init__(self, snapshot: Snapshot, today: int, is_read_only: bool = False):
        self.snapshot, self.today, self.is_read_only = snapshot, today, is_read_only
        self.case, self.plan, self.costing = snapshot.case, snapshot.plan, snapshot.costing
        self.start = snapshot.ward.state.input.start
        self.shifts = [shown(shift.name) for shift in self.case.shifts]
        self.skills = [shown(name) for name in self.case.skills]

    def json(self, window: Window, rows: collections.abc.Iterable[int] | None = None) -> Json:
        """The whole view: of all nurses, or of these."""
        nurses = range(len(self.case.nurses)) if rows is None else sorted({*rows})
        cover = self.cover_json(window)
        return {
            "version": version_json(self.snapshot.version),
            "ward": self.ward_json(),
            "window": {"from": window.first_week, "weeks": window.weeks, "first": window.days[0], "last": window.days[-1]},
            "shifts": self.shifts_json,
            "skills": [{"name": name, "letters": short} for name, short in zip(self.skills, short_names(self.case.skills))],
            "days": [{**self.day_json(day), **lacks_on(cover, at)} for at, day in enumerate(window.days)],
            "weeks": [self.week_json(week) for week in range(window.first_week, window.first_week + window.weeks)],
            "rows": [self.row_json(nurse, window) for nurse in nurses],
            "cover": cover,
            "state": self.state_json,
        }

    def ward_json(self) -> Json:
        snapshot = self.snapshot
        name = snapshot.ward.name.rsplit("/", 1)[-1]
        return {
            "title": shown(re.sub(r"\.ward$", "", name)),
            "file": shown(name),
            "start": str(self.start),
            "weeks": self.case.weeks,
            "days": self.plan.days,
            "nurses": len(self.case.nurses),
            "today": self.today,
            "published": snapshot.published - 1,
            "read_only": self.is_read_only,
            "has_roster": snapshot.has_roster,
        }

    @functools.cached_property
    def shifts_json(self) -> list[Json]:
        """The shifts, with how the ward shows them."""
        known = {shift.name: shift for shift in self.snapshot.ward.state.input.shifts}
        nights, found = nights_of(self.snapshot.ward, self.plan), []
        for number, (shift, letter) in enumerate(zip(self.case.shifts, letters([shift.name for shift in self.case.shifts]))):
            has = known.get(shift.name, Shift(shift.name))
            found.append(
                {
                    "name": self.shifts[number],
                    "letter": letter,
                    "begins": has.begins,
                    "ends": has.ends,
                    "colour": has.colour,
                    "ink": ink_on(has.colour) if has.colour else "",
                    "is_night": number in nights,
                    "place": self.place_of(number, has, number in nights),
                }
            )
        return found

    def place_of(self, number: int, has: Shift, is_night: bool) -> str:
        """Where a shift lies in the day."""
        if is_night:
            return "whole"
        if has.begins:
            hour = int(has.begins.partition(":")[0])
            return "left" if hour < MORNING_ENDS else "middle" if hour < AFTERNOON_BEGINS else "right"
        name = self.shifts[number].casefold()
        named = next((place for place, words in PLACES.items() if any(word in name for word in words)), None)
        return named or [*PLACES][min(3, 4 * number // len(self.shifts))]

    # ---- days

    def date(self, day: int) -> datetime.date:
        return self.start + datetime.timedelta(day)

    def day_json(self, day: int) -> Json:
        date = self.date(day)
        return {
            "day": day,
            "date": str(date),
            "weekday": day_name(day),
            "text": day_text(day),
            "long": f"{LONG_DAYS[day % 7]} {date.day} {LONG_MONTHS[date.month - 1]} {date.year}",
            "past": day < self.today,
            "today": day == self.today,
            "published": day < self.snapshot.published,
        }

    def week_json(self, week: int) -> Json:
        """A week, with how much of it is published."""
        first, last = self.date(7 * week), self.date(7 * week + 6)
        month = f" {MONTHS[first.month - 1]}" if first.month != last.month else ""
        text, count = f"{first.day}{month} to {last.day} {MONTHS[last.month - 1]}", self.snapshot.published - 7 * week
        state = "published" if count >= 7 else f"published to {day_name(count - 1)}" if count > 0 else "draft"
        return {"week": week, "text": text, "state": state}

    # ---- rows

    def row_json(self, nurse: int, window: Window) -> Json:
        case, costing, row = self.case, self.costing, self.plan.roster[nurse]
        known, (least, greatest) = case.nurses[nurse], case.contracts[case.nurses[nurse].contract].assignments
        marks = {day: mark for day in window.days if (mark := self.mark_json(nurse, day))}
        has_roster = self.snapshot.has_roster
        return {
            "nurse": nurse,
            "name": shown(known.name),
            "contract": shown(self.plan.contract_name(known.contract)),
            "assignments": [least, greatest],
            "skills": known.skills,
            "row": [choice_json(row[day]) for day in window.days],
            "marks": marks,
            "cost": sum(costing.of_nurses[nurse].values()) if has_roster else None,
            "reasons": self.reasons_json(nurse) if has_roster else [],
            **self.balance_json(nurse),
        }

    def mark_json(self, nurse: int, day: int) -> Json:
        """What there is to say of a nurse's day, if anything."""
        choice, at, snapshot = self.plan.roster[nurse][day], (nurse, day), self.snapshot
        found: Json = {}
        if at in self.requested:
            is_met = not self.costing.request_cost(nurse, day, choice) if snapshot.has_roster else None
            found["request"] = {"met": is_met, "words": self.request_words(nurse, day)}
        if at in self.case.absences:
            found["absent"] = self.by_ask(nurse, day, AWAY)
        if at in self.case.fixed:
            found["fixed"] = self.by_ask(nurse, day, FIXING)
        if at in snapshot.broken:
            found["breach"] = [{"rule": breach.rule, "words": breach.more} for breach in snapshot.broken[at]]
        was = snapshot.published_roster[nurse][day] if snapshot.published_roster else choice
        if was != choice:
            found["changed"] = {"was": choice_json(was), "words": f"was {choice_name(self.case, was)}"}
        return found

    @functools.cached_property
    def requested(self) -> set[tuple[int, int]]:
        """The nurses and days of which something is asked."""
        return {*self.costing.off, *self.costing.wished}

    def request_words(self, nurse: int, day: int) -> str:
        """What is asked for, in words."""

        def names(shifts: set[int | None]) -> str:
            return " or ".join(self.shifts[shift] for shift in sorted(shift for shift in shifts if shift is not None))

        off, wished = self.costing.off.get((nurse, day), set()), self.costing.wished.get((nurse, day), set())
        clauses = (["asked for the day off"] if None in off else [f"asked for no {names(off)}"]) if off else []
        clauses += [f"asked for {names(wished)}" if names(wished) else "asked to work"] if wished else []
        return " and ".join(clauses)

    def by_ask(self, nurse: int, day: int, kinds: tuple[str, ...]) -> str:
        """Which ask of these kinds names a nurse's day."""
        asks = self.snapshot.numbers.asks.asks
        number = next((ask.line for ask in asks if ask.nurse == nurse and ask.kind in kinds and day in ask.days), None)
        return "the week data" if number is None else f"ask {number}"

    def reasons_json(self, nurse: int) -> list[Json]:
        """What a nurse costs by rule, and each request of hers that isn't met."""
        costs = self.costing.of_nurses[nurse]
        found = [reason_json(rule, costs[rule], f"{MEANING[rule]}: {costs[rule]}") for rule in RULES if costs[rule]]
        for day in range(self.plan.days):
            if (nurse, day) in self.requested:
                choice = self.plan.roster[nurse][day]
                points = self.costing.request_cost(nurse, day, choice)
                if points:
                    words = f"{self.request_words(nurse, day)} on {day_text(day)}, and has {choice_name(self.case, choice)}"
                    rule = "S4" if self.costing.breaks_request(nurse, day, choice) else "S8"
                    found.append(reason_json(rule, points, words, day))
        return found

    # ---- balances

    @functools.cached_property
    def counts(self) -> list[tuple[int, ...]]:
        """What the balance of each nurse counts in this month."""
        return [counts_of(balance) for balance in self.snapshot.balances.now]

    @functools.cached_property
    def extremes(self) -> list[tuple[int, int]]:
        """The least and the greatest of each count."""
        return [(min(column), max(column)) for column in zip(*self.counts)]

    def balance_json(self, nurse: int) -> Json:
        """The balance of a nurse, and whether she has the most or the least of all."""
        if not self.snapshot.has_roster:
            return {"balance": None, "with_before": None, "extremes": {}}
        counts, now = self.counts[nurse], self.snapshot.balances.now[nurse]
        before = self.snapshot.balances.before.get(now.nurse)
        shifts = sum(choice is not None for choice in self.plan.roster[nurse])

        def extreme(count: int, least: int, greatest: int) -> str:
            return "" if least == greatest else "most" if count == greatest else "least" if count == least else ""

        marks = [extreme(count, *ends) for count, ends in zip(counts, self.extremes)]
        total = None if before is None else {**dict(zip(COUNTS, counts_of(added(now, before)))), "months": before.months + 1}
        return {
            "balance": {"shifts": shifts, **dict(zip(COUNTS, counts))},
            "with_before": total,
            "extremes": dict(zip(COUNTS, marks)),
        }

    # ---- cover

    def cover_json(self, window: Window) -> list[Json]:
        """For each shift the cover of each day, and that of its skills."""
        case, found = self.case, []
        for shift in range(len(case.shifts)):
            skills = [self.slot_json(shift, skill, window) for skill in range(len(case.skills)) if (shift, skill) in case.needs]
            days = [[sum(numbers) for numbers in zip(*of_day)] for of_day in zip(*(slot["days"] for slot in skills))]
            days = days or [[0] * 5 for _ in window.days]
            found.append({"shift": shift, "days": days, "sum": sums_of(days), "skills": skills})
        return found

    def slot_json(self, shift: int, skill: int, window: Window) -> Json:
        needs, covers, days = self.case.needs[shift, skill], self.costing.covers, []
        for day in window.days:
            have, (least, optimum) = covers[day][shift, skill], needs[day]
            days.append([have, least, optimum, max(0, least - have), max(0, optimum - have)])
        return {"skill": skill, "days": days, "sum": sums_of(days)}

    # ---- the state

    @functools.cached_property
    def state_json(self) -> Json:
        """What the strip above the month says, and the lists behind it."""
        snapshot, costing = self.snapshot, self.costing
        breaches = self.in_order(map(self.breach_json, snapshot.numbers.breaches if snapshot.has_roster else []))
        low, unmet = self.in_order(self.low_places()), self.in_order(self.unmet_places())
        rules = costing.totals_by_rule() if snapshot.soft is not None else {}
        before, after = undone(snapshot.ward.versions)
        nights, weekends, _, changed = self.extremes if snapshot.has_roster else [(0, 0)] * 4
        return {
            "penalty": snapshot.penalty,
            "soft": snapshot.soft,
            "rules": [{"rule": rule, "name": MEANING[rule], "points": rules[rule]} for rule in rules if rule != "total"],
            "breaches": breaches[:MOST_PLACES],
            "low": low[:MOST_PLACES],
            "unmet": unmet[:MOST_PLACES],
            "counts": {
                "breaches": len(breaches),
                "low": sum(place["count"] for place in low),
                "low_ahead": sum(place["count"] for place in low if not place["past"]),
                "unmet": len(unmet),
                "unmet_nurses": len({place["nurse"] for place in unmet}),
            },
            "fairness": {"nights": [*nights], "weekends": [*weekends], "changed": [*changed]},
            "undo": self.note_of(before[-1]) if len(before) > 1 else None,
            "redo": self.note_of(after[-1]) if after else None,
            "asks": len(snapshot.ward.state.asks) + len(self.case.requests) + len(self.case.wishes),
            "has_roster": snapshot.has_roster,
            "needs": sum(limits.least for days in self.case.needs.values() for limits in days),
        }

    def note_of(self, number: int) -> str:
        version = self.snapshot.ward.version(number)
        return f"version {number} ({version.note})"

    def in_order(self, places: collections.abc.Iterable[Json]) -> list[Json]:
        """The places from today on first, and then those that are past."""
        return sorted(places, key=lambda place: (place["past"], place["day"]))

    def place(self, kind: str, day: int, words: str, **more: typing.Any) -> Json:
        nothing = {"rule": "", "nurse": None, "shift": None, "skill": None, "count": 1}
        return {"kind": kind, "day": day, "words": words, "past": day < self.today, **nothing, **more}

    def breach_json(self, breach: Breach) -> Json:
        """A breach of a hard rule, where it is."""
        if breach.slot:
            name = f"{day_text(breach.day)}, {choice_name(self.case, breach.slot)}"
            shift, skill = breach.slot
            return self.place("breach", breach.day, f"{name}: {breach.more}", rule=breach.rule, shift=shift, skill=skill)
        name = f"{shown(self.case.nurses[breach.nurse].name)}, {day_text(breach.day)}"
        return self.place("breach", breach.day, f"{name}: {breach.more}", rule=breach.rule, nurse=breach.nurse)

    def low_places(self) -> collections.abc.Iterator[Json]:
        """The slots that are below their optimum."""
        for day in range(self.plan.days) if self.snapshot.has_roster else ():
            for (shift, skill), needs in self.case.needs.items():
                have, (least, optimum) = self.costing.covers[day][shift, skill], needs[day]
                if have < optimum:
                    below = f", and {least} at least" if have < least else ""
                    words = f"{day_text(day)}, {choice_name(self.case, (shift, skill))}: {have} of {optimum}{below}"
                    yield self.place("low", day, words, rule="S1", shift=shift, skill=skill, count=optimum - have)

    def unmet_places(self) -> collections.abc.Iterator[Json]:
        """The requests that aren't met."""
        for nurse, day in sorted(self.requested) if self.snapshot.has_roster else ():
            choice = self.plan.roster[nurse][day]
            if self.costing.request_cost(nurse, day, choice):
                name, now = shown(self.case.nurses[nurse].name), choice_name(self.case, choice)
                words = f"{name}, {day_text(day)}: {self.request_words(nurse, day)}, and has {now}"
                yield self.place("unmet", day, words, rule="S4", nurse=nurse)


def reason_json(rule: str, points: int, words: str, day: int | None = None) -> Json:
    return {"rule": rule, "name": MEANING[rule], "points": points, "day": day, "words": words}


def counts_of(balance: Balance) -> tuple[int, ...]:
    return balance.nights, balance.weekends, balance.unmet, balance.changes


def sums_of(days: list[list[int]]) -> list[int]:
    """How many are short of the minimums and of the optimums over some days."""
    return [sum(day[3] for day in days), sum(day[4] for day in days)]


def lacks_on(cover: list[Json], at: int) -> Json:
    """How many a day is short of all its minimums and optimums, by its place in the cover."""
    return {"short": sum(shift["days"][at][3] for shift in cover), "low": sum(shift["days"][at][4] for shift in cover)}
