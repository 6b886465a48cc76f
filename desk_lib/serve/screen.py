"""The ward that a server shows: as it is now, whoever changed it, and as it was; and how a change becomes a version.

The file is read again once it is another than it was. Within this process one thread at a time has it open, since closing a file gives up
all of its locks that the process has.
"""
import collections
import collections.abc
import contextlib
import dataclasses
import datetime
import json
import os
import threading
import typing

from desk_lib import lower_bound
from desk_lib.case import Roster
from desk_lib.days import Calendar, day_of, day_text, now
from desk_lib.given import Given
from desk_lib.model import choice_name, roster_in
from desk_lib.options import Options
from desk_lib.program import Program
from desk_lib.serve.asked import Json, Refused, for_screen, none_such, number_in
from desk_lib.serve.events import Channel
from desk_lib.serve.month import Month, Window, choice_json, version_json
from desk_lib.serve.snapshot import Numbers, Snapshot, at_version, numbers_of
from desk_lib.texts import DeskError, shown
from desk_lib.ward import texts as ward_texts
from desk_lib.ward import versions as ward_versions
from desk_lib.ward.rosters import with_roster
from desk_lib.ward.store import CHANGE, Version, Ward, digest_of_part, read_ward

# How many versions are kept with their numbers, at least and at most, and how many days of nurses all of them may have; and how many
# answers are kept.
LEAST_KEPT, MOST_KEPT, CELLS, ANSWERS = 2, 8, 200_000, 40
# Where the header of a database has the number of its changes.
COUNTER = 24
# How many weeks a view of the month has if none are named.
WEEKS = 4


class Stamp(typing.NamedTuple):
    """What shows whether a file is another than before."""

    inode: int
    time: int
    size: int
    counter: int


class Screen:
    """A ward that is served."""

    def __init__(self, options: Options, name: str, roster: Program, is_read_only: bool = False):
        self.options, self.name, self.program, self.is_read_only = options, name, roster, is_read_only
        self.lock = threading.RLock()
        self.stamp: Stamp | None = None
        self.read: Ward | None = None
        self.snapshots: collections.OrderedDict[int, Snapshot] = collections.OrderedDict()
        self.answers: collections.OrderedDict[tuple[object, ...], bytes] = collections.OrderedDict()
        self.bounds: dict[tuple[object, ...], int] = {}
        self.events = Channel()
        Calendar.start = self.ward().state.input.start

    # ---- the ward

    def ward(self) -> Ward:
        """The ward as it is now."""
        with self.lock:
            stamp = self.stamp_now()
            if self.read is None or stamp != self.stamp:
                self.take(read_ward(self.name), stamp)
            assert self.read
            return self.read

    def take(self, ward: Ward, stamp: Stamp) -> None:
        """Takes a ward as it was read, or written. A version that is new is reported to all tabs."""
        before, self.read, self.stamp = self.read, ward, stamp
        if before is not None and before.current != ward.current:
            self.events.send("version", version_json(ward.current))

    def stamp_now(self) -> Stamp:
        """What shows whether the file is another than before: its inode, its time, its size, and how often SQLite has changed it."""
        try:
            there = os.stat(self.name)
            with open(self.name, "rb") as file:
                counter = int.from_bytes(os.pread(file.fileno(), 4, COUNTER), "big")
        except OSError as why:
            raise DeskError(f"{shown(self.name)}: read failed: {why.strerror}; put the ward back in its place", 3) from None
        return Stamp(there.st_ino, there.st_mtime_ns, there.st_size, counter)

    @contextlib.contextmanager
    def adding(self, before: Ward) -> collections.abc.Iterator[collections.abc.Callable[[Version], None]]:
        """A change, at whose end the ward is known without reading it again, if nobody else has changed it: the block says which version it
        has added. Undo and redo may have candidates again, so after these it is read."""
        first, added = self.stamp_now(), list[Version]()
        yield added.append
        stamp = self.stamp_now()
        if len(added) == 1 and added[0].kind == CHANGE and stamp.counter == first.counter + 1:
            self.take(dataclasses.replace(before, versions=(*before.versions, added[0]), candidates=()), stamp)

    def snapshot(self, number: int | None = None) -> Snapshot:
        """The numbers of a version, or of the present one."""
        with self.lock:
            ward = self.ward()
            number = len(ward.versions) if number is None else number
            if not 1 <= number <= len(ward.versions):
                raise none_such(f"There is no version {number}.")
            found = self.snapshots.get(number)
            if found is None or found.version != ward.version(number):
                then = at_version(ward, number)
                found = Snapshot(then, self.known_numbers(then.current) or numbers_of(then, self.program))
            self.keep_snapshot(found)
            return found

    def known_numbers(self, version: Version) -> Numbers | None:
        """The numbers of a version, if they are kept for another one that has the same state, as undo makes it."""
        same = (other for other in self.snapshots.values() if other.version.first == version.first)
        return next((other.numbers for other in same if other.version.state == version.state), None)

    def keep_snapshot(self, snapshot: Snapshot) -> None:
        """Keeps the numbers of a version for the next request."""
        self.snapshots[snapshot.version.number] = snapshot
        self.snapshots.move_to_end(snapshot.version.number)
        cells = len(snapshot.case.nurses) * snapshot.plan.days
        while len(self.snapshots) > max(LEAST_KEPT, min(MOST_KEPT, CELLS // cells)):
            self.snapshots.popitem(last=False)

    def derive(self, before: Snapshot, numbers: Numbers) -> None:
        """Keeps the numbers of a version that has the texts and asks of the one before, and another roster."""
        with self.lock:
            ward = self.ward()
            state = ward.state
            if len(ward.versions) == before.version.number + 1 and (state.input, state.asks) == (
                before.ward.state.input,
                before.ward.state.asks,
            ):
                self.keep_snapshot(Snapshot(ward, numbers.settled()))

    def today(self) -> int:
        """The number of the day that is today, which is negative if it is before the ward's days. After them nothing is past, as for the
        desk's commands, unless --from names such a day."""
        ward, word = self.ward(), os.fsencode(self.options.common.since)
        start = ward.state.input.start
        if word != b"0":
            return day_of(word, start)
        today = (now().astimezone().date() - start).days
        return today if today < ward_texts.days_of(ward) else -1

    def since(self, snapshot: Snapshot) -> str:
        """The word for the day that is today, for a command that leaves days before it as they are; 0 if there are none to leave."""
        today = self.today()
        is_within = snapshot.has_roster and 0 <= today < snapshot.plan.days
        return str(snapshot.ward.state.input.start + datetime.timedelta(today)) if is_within else "0"

    def given(self, ward: Ward) -> Given:
        """What the desk's commands are given of a ward. Days that are past stay as they are by what is refused here."""
        text, start, today = ward_texts.asks_text(ward), ward.state.input.start, self.today()
        is_within = 0 <= today < ward_texts.days_of(ward)
        word = str(start + datetime.timedelta(today)).encode() if is_within else b""
        return Given(self.options, text, start, word, today // 7 if is_within else 0, ward)

    def first_week(self, snapshot: Snapshot) -> int:
        """The first week that may change, as the program's commands take it."""
        return max(0, min(self.today() // 7, snapshot.case.weeks))

    # ---- versions that requests name

    def named(self, given: Json) -> Snapshot:
        """The version that a change was made on."""
        return self.snapshot(number_in(given, "version", 1, 10**9))

    def present(self, given: Json, what: list[str]) -> Snapshot:
        """The version that a change was made on, which has to be the present one; else what wasn't saved is said, and what is there."""
        snapshot = self.named(given)
        if snapshot.version != self.ward().current:
            raise self.conflict(snapshot.version, what)
        return snapshot

    def conflict(self, seen: Version, what: list[str]) -> Refused:
        """Two changes of one version: both sides."""
        there = self.ward().current
        diff = self.diff(seen.number, there.number)
        at = version_json(there)["at"]
        words = f"This tab shows version {seen.number}. Version {there.number} was made on {at} by {there.author} ({there.note})."
        lost = f" Your last change was not saved: {'; '.join(what)}." if what else " Your last change was not saved."
        yours = {"version": seen.number, "what": what}
        theirs = {"version": diff["to"], "nurses": diff["nurses"], "lines": diff["lines"]}
        return Refused(409, "version", f"{words}{lost} Nothing was merged.", yours=yours, theirs=theirs)

    def diff(self, first: int, second: int) -> Json:
        """What differs between two versions: rosters by nurse, and asks and publications in lines."""
        ward = self.ward()
        for number in (first, second):
            if not 1 <= number <= len(ward.versions):
                raise none_such(f"There is no version {number}.")
        old, new = ward.version(first), ward.version(second)
        nurses = self.differs(self.roster_of(old), self.roster_of(new))
        lines = [*ward_versions.ask_lines(old.state, new.state), *ward_versions.published_lines(old.state, new.state)]
        days = sum(len(nurse["changes"]) for nurse in nurses)
        return {"from": version_json(old), "to": version_json(new), "days": days, "nurses": nurses, "lines": lines}

    def roster_of(self, version: Version) -> Roster:
        """The roster of a version; nobody works if it has none."""
        with self.lock:
            if version.number in self.snapshots and self.snapshots[version.number].version == version:
                return self.snapshots[version.number].plan.roster
            present = self.snapshot()
            if version.state.roster is None:
                return [[None] * present.plan.days for _ in present.plan.roster]
            return roster_in(with_roster(self.ward(), version.state.roster.solutions))

    def differs(self, before: Roster, after: Roster) -> list[Json]:
        """The days on which two rosters differ, by nurse."""
        case, found = self.snapshot().case, []
        for number, (was, now_) in enumerate(zip(before, after)):
            changes: list[Json] = []
            for day, (old, new) in enumerate(zip(was, now_)):
                if old != new:
                    words = f"{day_text(day)}: {choice_name(case, old)} > {choice_name(case, new)}"
                    of_day: Json = {"day": day, "text": day_text(day), "before": choice_json(old), "after": choice_json(new)}
                    changes.append({**of_day, "words": words})
            if changes:
                found.append({"nurse": number, "name": shown(case.nurses[number].name), "changes": changes})
        return found

    def plain(self, message: str) -> str:
        """A message of the desk in words for the screen, with the ward's name alone in the place of its path."""
        return for_screen(message).replace(shown(self.name), shown(os.path.basename(self.name)))

    # ---- the view

    def window(self, given: collections.abc.Mapping[str, object]) -> Window:
        """The weeks that a request asks for; all of them if it asks for 0."""
        every = self.snapshot().case.weeks

        def number(field: str, default: int) -> int:
            word = str(given.get(field, default))
            return int(word) if word.isascii() and word.isdigit() and len(word) < 4 else default

        first = min(number("from", 0), every - 1)
        return Window(first, min(number("weeks", WEEKS) or every, every - first))

    def month(self, snapshot: Snapshot) -> Month:
        return Month(snapshot, self.today(), self.is_read_only)

    def month_bytes(self, number: int | None, window: Window, rows: tuple[int, ...] | None) -> bytes:
        """The view of a version as JSON, made once."""
        snapshot = self.snapshot(number)
        about = window, rows, self.bound_of(snapshot), snapshot.version == self.ward().current
        return self.answer(snapshot, about, lambda: self.month_json(snapshot, window, rows))

    def answer(self, snapshot: Snapshot, about: tuple[object, ...], make: collections.abc.Callable[[], Json]) -> bytes:
        """What is made of a version as JSON: made once, and kept for the next request."""
        key = (snapshot.version.sha256, self.today(), *about)
        with self.lock:
            if key not in self.answers:
                self.answers[key] = json.dumps(make()).encode()
                while len(self.answers) > ANSWERS:
                    self.answers.popitem(last=False)
            return self.answers[key]

    def month_json(self, snapshot: Snapshot, window: Window, rows: collections.abc.Iterable[int] | None = None) -> Json:
        """The view of a version, with the lower bound if one is known."""
        found = self.month(snapshot).json(window, rows)
        found["state"].update(self.bound_json(snapshot))
        found["is_present"] = snapshot.version == self.ward().current
        return found

    # ---- lower bounds

    def bound_keys(self, snapshot: Snapshot) -> list[tuple[object, ...]]:
        """What a lower bound depends on: the texts and the asks; and if days are frozen, also what the roster has on these. A bound of all
        rosters is one of those that keep the frozen days, too."""
        case, state, roster = snapshot.case, snapshot.ward.state, snapshot.plan.roster
        frozen = max(snapshot.published, min(max(0, self.today()), snapshot.plan.days)) if snapshot.has_roster else 0
        of_all = digest_of_part(state.input), tuple(ask.line for ask in state.asks)
        fixed = tuple((at, roster[at[0]][at[1]]) for at in sorted(case.fixed))
        return (
            [(*of_all, (), fixed), (*of_all, tuple(tuple(row[:frozen]) for row in roster), fixed)]
            if frozen
            else [(*of_all, (), fixed)]
        )

    def add_bound(self, number: int, bound: int) -> None:
        """Notes a lower bound that a run for a version has found."""
        with self.lock:
            key = self.bound_keys(self.snapshot(number))[-1]
            self.bounds[key] = max(bound, self.bounds.get(key, bound))

    def bound_of(self, snapshot: Snapshot) -> int | None:
        """The lower bound of a version, if a run has found one."""
        known = [self.bounds[key] for key in self.bound_keys(snapshot) if key in self.bounds] if self.bounds else []
        return max(known, default=None)

    def bound_json(self, snapshot: Snapshot) -> Json:
        bound, penalty = self.bound_of(snapshot), snapshot.penalty
        if bound is None or penalty is None:
            return {"bound": bound, "above": None, "bound_words": "", "is_optimal": False}
        is_frozen = bool(snapshot.case.fixed or snapshot.published or self.today() > 0)
        words = lower_bound.compared(penalty, bound, is_frozen)
        return {"bound": bound, "above": penalty - bound, "bound_words": words, "is_optimal": penalty == bound}

    # ---- changes

    def changed(self, given: Json, before: Snapshot, done: str) -> Json:
        """What a change answers: the present version, with the rows that are other than before."""
        after = self.snapshot()
        rows, differs = [], self.differs(before.plan.roster, after.plan.roster)
        was, now_ = self.month(before), self.month(after)
        window = self.window(given)
        for nurse in range(len(after.case.nurses)):
            if before.plan.roster[nurse] != after.plan.roster[nurse] or was.row_json(nurse, window) != now_.row_json(
                nurse, window
            ):
                rows.append(nurse)
        changed = [{"nurse": nurse["nurse"], **change} for nurse in differs for change in nurse["changes"]]
        return {**self.month_json(after, window, rows), "done": done, "changed": changed}

    def outdated(self, given: Json, what: list[str]) -> Refused:
        """The conflict of a change that another process was faster than."""
        return self.conflict(self.named(given).version, what)
