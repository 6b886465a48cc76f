"""Runs of the program for a ward, one at a time while others wait in line: each in a process of its own, which ends with the server.

What a run finds is kept here until the planner keeps it or throws it away: the roster of the ward changes by keeping alone.
"""
import base64
import collections.abc
import contextlib
import dataclasses
import json
import os
import re
import signal
import sys
import threading
import time

from desk_lib.days import with_day_texts
from desk_lib.program import Running
from desk_lib.serve.asked import Json, Refused, flag_in, maybe_number_in, none_such, number_in, refused
from desk_lib.serve.changes import Changes
from desk_lib.serve.events import Channel
from desk_lib.serve.ill import candidates_json
from desk_lib.serve.screen import Screen
from desk_lib.texts import DeskError, shown
from desk_lib.ward import rosters
from desk_lib.ward.store import Candidate, Outdated, StoredRoster, changing, moment

WORK = os.path.join(os.path.dirname(os.path.realpath(__file__)), "work.py")
KINDS = ("improve", "polish", "plan", "repair")
WAITING, RUNNING, STOPPING, ENDED, FAILED, KEPT, DROPPED = "waiting running stopping ended failed kept dropped".split()
# States in which a run isn't over, and those in which something may be done with what it found.
OPEN, UNDECIDED = (WAITING, RUNNING, STOPPING), (ENDED, FAILED)
# The most seconds, searches and runs that wait; for how long a run that is stopped may take to end; and how many runs are remembered.
MOST_SECONDS, MOST_SEARCHES, MOST_WAITING, PATIENCE, REMEMBERED = 86_400, 10_000_000, 10, 30.0, 20
# What the desk says of the asks that a roster keeps, which the view of the asks shows.
OF_ASKS = re.compile(r", ask \d+: |\d+ of \d+ days? as asked for$")
# For how many seconds repairs are looked for if nothing is said.
REPAIR_SECONDS = 10


@dataclasses.dataclass(eq=False)
class Run:
    """A run: what was asked for, how far it is, and what it found."""

    number: int
    kind: str
    seconds: int | None
    searches: int | None
    seed: int
    has_bound: bool
    version: int
    state: str = WAITING
    began: float | None = None
    ended: float | None = None
    points: list[tuple[float, int]] = dataclasses.field(default_factory=list)
    bounds: list[tuple[float, int]] = dataclasses.field(default_factory=list)
    words: str = ""
    found: Json = dataclasses.field(default_factory=dict)
    running: Running | None = None
    is_over: threading.Event = dataclasses.field(default_factory=threading.Event)
    channel: Channel = dataclasses.field(default_factory=Channel)
    candidates: list[Json] = dataclasses.field(default_factory=list)

    @property
    def best(self) -> int | None:
        return self.points[-1][1] if self.points else None

    @property
    def bound(self) -> int | None:
        return self.bounds[-1][1] if self.bounds else None

    @property
    def can_keep(self) -> bool:
        """Whether it found a roster that nobody has kept or thrown away."""
        return self.state in UNDECIDED and "solutions" in self.found

    def ask_to_end(self) -> None:
        """Has its process end, if there is one, with the best so far."""
        if self.running:
            os.kill(self.running.ran.pid, signal.SIGTERM)

    def elapsed(self) -> float:
        if self.began is None:
            return 0.0
        return round((self.ended or time.monotonic()) - self.began, 2)

    def json(self, place: int = 0) -> Json:
        """What the page shows of it; `place` is its place in line, and 0 if it doesn't wait."""
        return {
            "id": self.number,
            "kind": self.kind,
            "seconds": self.seconds,
            "searches": self.searches,
            "seed": self.seed,
            "version": self.version,
            "state": self.state,
            "place": place,
            "elapsed": self.elapsed(),
            "best": self.best,
            "bound": self.bound,
            **self.totals(),
            "points": self.points,
            "bounds": self.bounds,
            "words": self.words,
            "can_keep": self.can_keep,
            "candidates": self.candidates,
        }

    def totals(self) -> Json:
        """What it began with, how much it has saved since, and how much its best is above the lower bound."""
        start, best, bound = self.points[0][1] if self.points else None, self.best, self.bound
        saved = None if start is None or best is None else start - best
        return {"start": start, "saved": saved, "above": None if best is None or bound is None else best - bound}

    def asked(self, screen: Screen) -> Json:
        """What its process is asked to do."""
        since = screen.since(screen.snapshot(self.version))
        is_timed_here = self.kind == "improve"
        asked = {
            "kind": self.kind,
            "seconds": None if is_timed_here else self.seconds,
            "searches": self.searches,
            "seed": self.seed,
        }
        return {
            **asked,
            "bound": self.has_bound,
            "version": self.version,
            "ward": screen.name,
            "roster": screen.program.path,
            "since": since,
        }


class Runs:
    """The runs of a ward that is served."""

    def __init__(self, screen: Screen, changes: Changes):
        self.screen, self.changes = screen, changes
        self.all: list[Run] = []
        self.condition = threading.Condition(threading.RLock())
        # (whether no run begins, since the server ends; and how many are about to be kept, so that the next one has to wait for that)
        self.is_closing, self.deciding = False, 0
        self.thread = threading.Thread(target=self.work, daemon=True)

    def begin(self) -> None:
        """From now on runs are made. Their processes end with the thread that begins them, which is this one."""
        self.thread.start()

    # ---- what the page asks for

    def start(self, given: Json) -> Json:
        """Puts a run in line."""
        kind = given.get("kind")
        if kind not in KINDS:
            raise refused(f"kind: one of {', '.join(KINDS)} is due", "kind")
        snapshot = self.screen.present(given, [f"start a run ({kind})"])
        if kind != "plan" and not snapshot.has_roster:
            raise refused("Nothing is planned yet, so nothing can be made better. Plan a roster first.", "kind")
        if kind in ("improve", "polish") and snapshot.penalty is None:
            why = "The roster breaks hard rules, and this kind of run begins with one that keeps them"
            raise refused(f"{why}. Look for a repair, or for a new roster by a plan.", "kind")
        seconds, searches = maybe_number_in(given, "seconds", 1, MOST_SECONDS), maybe_number_in(
            given, "searches", 1, MOST_SEARCHES
        )
        if kind == "repair" and seconds is None and searches is None:
            seconds = REPAIR_SECONDS
        seed, has_bound = number_in(given, "seed", 0, 2**32 - 1, 1), flag_in({"bound": True, **given}, "bound")
        with self.condition:
            if sum(run.state == WAITING for run in self.all) >= MOST_WAITING:
                raise refused(f"{MOST_WAITING} runs wait already. Let one end first, or take one out.")
            number = 1 + max((run.number for run in self.all), default=0)
            run = Run(number, kind, seconds, searches, seed, has_bound, snapshot.version.number)
            self.all.append(run)
            self.forget()
            self.condition.notify_all()
            self.report(run)
            return self.json_of(run)

    def forget(self) -> None:
        """Forgets the oldest runs of which nothing is to be decided."""
        decided = [run for run in self.all if run.state in (KEPT, DROPPED)]
        for run in decided[: max(0, len(decided) - REMEMBERED)]:
            self.all.remove(run)

    def json(self) -> Json:
        """The runs that wait, that go on, and of which something is to be decided."""
        with self.condition:
            return {"runs": [self.json_of(run) for run in self.all if run.state not in (KEPT, DROPPED)]}

    def json_of(self, run: Run) -> Json:
        with self.condition:
            at_work = [other for other in self.all if other.state in OPEN]
            return run.json(at_work.index(run) if run.state == WAITING else 0)

    def run(self, number: int) -> Run:
        with self.condition:
            found = next((run for run in self.all if run.number == number), None)
        if found is None:
            raise none_such(f"There is no run {number}.")
        return found

    def stop(self, number: int, given: Json) -> Json:
        """Stops a run, and keeps what it found or throws it away."""
        run, is_kept = self.run(number), flag_in(given, "keep")
        if run.state not in OPEN:
            raise busy("This run is over already.")
        if is_kept:
            self.may_keep(run, given)
        with self.undecided():
            self.end(run)
            if not run.is_over.wait(PATIENCE):
                raise busy("The run hasn't ended yet. Try again in a moment.")
            return self.keep(number, given) if is_kept and run.can_keep else self.dropped(number, given)

    @contextlib.contextmanager
    def undecided(self) -> collections.abc.Iterator[None]:
        """Meanwhile no other run begins."""
        with self.condition:
            self.deciding += 1
        try:
            yield
        finally:
            with self.condition:
                self.deciding -= 1
                self.condition.notify_all()

    def end(self, run: Run) -> None:
        """Has a run end. One that waits is over at once."""
        with self.condition:
            if run.state == WAITING:
                self.over(run, DROPPED, "dropped")
            elif run.state == RUNNING:
                run.state = STOPPING
                run.ask_to_end()
                run.channel.send("state", self.json_of(run))

    def dropped(self, number: int, _: Json) -> Json:
        """Throws away what a run found, or takes it out of the line."""
        run = self.run(number)
        if run.state in (RUNNING, STOPPING):
            raise busy("The run goes on. Stop it first.")
        if run.state not in (KEPT, DROPPED):
            with self.condition:
                self.over(run, DROPPED, "dropped")
        return {"run": self.json_of(run)}

    def may_keep(self, run: Run, given: Json) -> None:
        """Stops if the ward has another version than the one that a run began with, unless it is to be a candidate."""
        with self.screen.lock:
            self.screen.present(given, [f"keep the roster of run {run.number}"])
            if run.version != self.screen.ward().current.number and not flag_in(given, "as_candidate"):
                began = self.screen.ward().version(run.version)
                raise self.screen.conflict(
                    began, [f"keep the roster of run {run.number}, which began with version {run.version}"]
                )

    def keep(self, number: int, given: Json) -> Json:
        """Makes the roster of a run the working one, or one of the candidates."""
        run, screen = self.run(number), self.screen
        if not run.can_keep:
            raise busy("There is nothing to keep: the run goes on, found nothing, or was decided before.")
        with screen.lock:
            self.may_keep(run, given)
            before = screen.snapshot()
            made = self.stored(run)
            if before.ward.state.roster and made.solutions == before.ward.state.roster.solutions:
                answer = screen.changed(given, before, "The roster is the one that was there")
            elif flag_in(given, "as_candidate"):
                self.add_candidate(run, made)
                answer = screen.changed(given, before, "Kept among the repairs")
            else:
                answer = self.changes.keep(given, before, made, run.kind, f"Kept: {made.cost()}")
            with self.condition:
                self.over(run, KEPT, "kept")
            return {**answer, "run": self.json_of(run)}

    def stored(self, run: Run) -> StoredRoster:
        """The roster that a run found, with its penalty by the program."""
        found, desk = run.found, self.screen.given(self.screen.ward())
        source = f"{run.kind}, after {found['after']}"
        return rosters.stored(
            desk, self.screen.program, base64.b64decode(found["solutions"]), source, found["seed"], found["searches"] or None
        )

    def add_candidate(self, run: Run, made: StoredRoster) -> None:
        """Keeps a roster as one more candidate of the present version."""
        ward, plan = self.screen.ward(), self.screen.snapshot().plan
        candidate = rosters.candidate_of(self.screen.given(ward), plan, made, run.kind)
        with changing(ward) as writer:
            writer.add_candidates([*ward.candidates, candidate])

    # ---- the thread that makes them

    def next_run(self) -> Run | None:
        """The first run that waits."""
        return next((run for run in self.all if run.state == WAITING), None)

    def work(self) -> None:
        """Makes one run after the other."""
        while True:
            with self.condition:
                self.condition.wait_for(lambda: self.is_closing or not self.deciding and self.next_run() is not None)
                run = self.next_run()
                if self.is_closing or run is None:
                    return
                run.state, run.began = RUNNING, time.monotonic()
            try:
                self.make(run)
            except (DeskError, Refused, OSError, ValueError) as why:
                run.words = self.screen.plain(str(why))
                with self.condition:
                    self.over(run, FAILED, "failed")

    def make(self, run: Run) -> None:
        """Makes a run, to its end."""
        timer = threading.Timer(run.seconds, self.end, [run]) if run.kind == "improve" and run.seconds else None
        run.version = self.screen.ward().current.number
        asked = json.dumps(run.asked(self.screen)).encode()
        notes: list[str] = []
        with Running(sys.executable, ["-S", WORK], asked) as running:
            with self.condition:
                run.running = running
                if run.state == STOPPING:
                    # (it was stopped before there was a process)
                    run.ask_to_end()
                run.channel.send("state", self.json_of(run))
                self.report_all()
            if timer:
                timer.daemon = True
                timer.start()
            for line in lines_of(running):
                self.take(run, line, notes)
            with self.condition:
                answer, run.running = running.answer(), None
        if timer:
            timer.cancel()
        self.finish(run, answer.output, notes)

    def take(self, run: Run, line: bytes, notes: list[str]) -> None:
        """Takes a line of a run's process."""
        try:
            said = json.loads(line)
            event = said.pop("event")
        except (ValueError, AttributeError, KeyError, TypeError):
            notes.append(shown(line.removeprefix(b"desk: ")))
            return
        if event == "best":
            run.points.append((said["t"], said["penalty"]))
        elif event == "bound":
            run.bounds.append((said["t"], said["bound"]))
            self.screen.add_bound(run.version, said["bound"])
        elif event == "words":
            run.words = said["words"]
        elif event == "version":
            # (it goes on from what there is when its turn comes)
            run.version = said["version"]
            return
        run.channel.send(event, {**said, **run.totals()})

    def finish(self, run: Run, output: bytes, notes: list[str]) -> None:
        """Takes what a run came to."""
        try:
            found = json.loads(output)
        except ValueError:
            found = {"error": f"its process ended: {notes[-1]}" if notes else "its process was ended"}
            notes = []
        run.found, failed = found, found.get("error", "")
        if "solutions" in found:
            if run.best is None or found["penalty"] < run.best:
                run.points.append((run.elapsed(), found["penalty"]))
            if found.get("bound") is not None and found["bound"] != run.bound:
                run.bounds.append((run.elapsed(), found["bound"]))
                self.screen.add_bound(run.version, found["bound"])
        said = [with_day_texts(note) for note in [*notes, failed] if note and not OF_ASKS.search(note)]
        run.words = self.screen.plain("; ".join(said))
        if "candidates" in found and not failed:
            run.words = self.take_candidates(run, found["candidates"])
        is_stopped = run.state == STOPPING
        with self.condition:
            state = FAILED if failed and not is_stopped else ENDED
            self.over(run, state, "failed" if state == FAILED else "end")

    def take_candidates(self, run: Run, found: list[Json]) -> str:
        """Keeps repairs in the ward, and says how many there are."""
        made = [
            Candidate(
                StoredRoster(
                    base64.b64decode(one["solutions"]),
                    one["penalty"],
                    f"repair, {one['how']}",
                    one["seed"],
                    one["searches"],
                    moment(),
                ),
                *(one[field] for field in ("how", "days", "skills", "nurses")),
            )
            for one in found
        ]
        if not made:
            return "The roster keeps all hard rules and asks, so there is nothing to repair."
        screen = self.screen
        with screen.lock:
            snapshot = screen.snapshot(run.version)
            try:
                with changing(snapshot.ward) as writer:
                    writer.add_candidates(made)
            except Outdated:
                raise DeskError(
                    "the ward has another version by now, so these repairs are for an older one; look again"
                ) from None
            run.candidates = candidates_json(screen, snapshot, (*made,))
        return f"{len(made)} found" if len(made) > 1 else "One was found"

    def over(self, run: Run, state: str, event: str) -> None:
        """Notes that a run is over, or that it was decided, and says so."""
        run.state, run.ended = state, run.ended or time.monotonic()
        run.channel.send(event, run.json(), is_last=True)
        run.is_over.set()
        self.report_all()

    def report(self, run: Run) -> None:
        """Reports to all tabs how a run stands, without its points."""
        self.screen.events.send("run", {**self.json_of(run), "points": [], "bounds": [], "candidates": []})

    def report_all(self) -> None:
        """Reports to all tabs the runs that aren't decided, and the last one that was."""
        with self.condition:
            for run in self.all[-MOST_WAITING:]:
                self.report(run)

    # ---- the end of the server

    def close(self) -> list[str]:
        """Ends all runs, and keeps the best roster that they found, in words for a terminal."""
        with self.condition:
            self.is_closing = True
            self.condition.notify_all()
            going = [run for run in self.all if run.state in OPEN]
        for run in going:
            self.end(run)
        for run in going:
            run.is_over.wait(PATIENCE)
        left = [run for run in self.all if run.can_keep]
        present = self.screen.snapshot()
        of_now = [run for run in left if run.version == present.version.number]
        best = min(of_now, key=lambda run: int(run.found["penalty"]), default=None)
        if best is not None and (present.penalty is None or best.found["penalty"] < present.penalty):
            made = self.stored(best)
            self.changes.keep({"version": best.version}, present, made, best.kind, "")
            return [
                f"the best roster of run {best.number} is kept, {made.cost()}; 'desk undo {shown(self.screen.name)}' takes it back"
            ]
        return []


def lines_of(running: Running) -> collections.abc.Iterator[bytes]:
    """The lines of a process, as they come."""
    while not running.is_over:
        yield from running.lines()


def busy(words: str) -> Refused:
    return Refused(409, "busy", words)
