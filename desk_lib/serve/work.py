"""A run for the screen, in a process of its own: what is to be run comes on standard input, what happens goes to standard error, a line of
JSON each, and what it came to goes to standard output.

The process is the desk's: it reads the ward as its commands do, and the signal by which the server ends it early leaves the best so far.
"""
import _signal  # type: ignore[import]

# (until the desk takes its signals, one that comes is held back)
_signal.pthread_sigmask(_signal.SIG_BLOCK, [_signal.SIGTERM])
import os
import sys

sys.dont_write_bytecode = sys.pycache_prefix is None
sys.path[0] = os.path.dirname(os.path.dirname(os.path.dirname(os.path.realpath(__file__))))

import base64
import dataclasses
import json
import tempfile
import time
import typing

from desk_lib import commands, given, improve, near, program, signals
from desk_lib.lower_bound import BoundSearch
from desk_lib.options import Common, ImproveOptions
from desk_lib.texts import DeskError
from desk_lib.ward import rosters
from desk_lib.ward.options import RepairOptions

Json = dict[str, typing.Any]
# How many rounds there are at most, and how many searches of `polish` and `plan` if neither they nor the time are given.
ROUNDS, SEARCHES = 100, 20_000


def say(event: str, **more: typing.Any) -> None:
    """Passes on what happens."""
    sys.stderr.write(json.dumps({"event": event, **more}) + "\n")
    sys.stderr.flush()


class Watched(improve.Progress):
    """The progress of a run, which is passed on: each better penalty, and each higher bound. A penalty is one that is kept if the run
    is ended then; so what a run of `polish` reports is none until it is in the file."""

    def __init__(self, log: str | None, bound_search: BoundSearch, is_quiet: bool = False, has_curve: bool = True):
        """`has_curve` says whether penalties are passed on."""
        super().__init__(None, bound_search, is_quiet=True)
        self.is_terminal, self.has_curve = False, has_curve
        self.best: int | None = None
        self.bound: int | None = None

    def line(self, line: bytes) -> None:
        self.last = line
        self.look()

    def show(self, what: str, total: int, more: str = "") -> None:
        if self.best is None:
            # (this is what the roster given costs)
            self.saved(total)
        self.look()

    def saved(self, total: int) -> None:
        if self.has_curve and (self.best is None or total < self.best):
            self.best = total
            say("best", t=self.seconds(), penalty=total)

    def look(self) -> None:
        """Passes on a bound that is new."""
        bound = self.bound_search.bound
        if bound != self.bound and bound is not None:
            self.bound = bound
            say("bound", t=self.seconds(), bound=bound)

    def show_text(self, what: str) -> None:
        say("words", t=self.seconds(), words=what)

    def end(self, text: str = "") -> None:
        self.look()

    def seconds(self) -> float:
        return round(time.monotonic() - self.began, 2)


def common_of(asked: Json) -> Common:
    return Common([asked["ward"]], None, None, None, None, None, None, asked["roster"], since=asked["since"])


def improve_options(asked: Json) -> ImproveOptions:
    """The options of `improve` for a run of this kind."""
    kind, searches, seconds = asked["kind"], asked["searches"], asked["seconds"]
    is_timed = seconds is not None
    words: Json = dict.fromkeys(field.name for field in dataclasses.fields(ImproveOptions) if field.name != "common")
    words |= {
        "plan": kind == "plan",
        "few": False,
        "bound": asked["bound"] and is_timed,
        "seconds": seconds,
        "seed": asked["seed"],
    }
    words["rounds"] = None if kind == "plan" else ROUNDS
    words["polish"] = None if is_timed or kind == "improve" else searches or SEARCHES
    words["seed"] = asked["seed"] if is_timed or words["polish"] is not None or kind == "plan" else None
    return ImproveOptions(common_of(asked), **words)


def settled(options: typing.Any) -> given.Given:
    """What the run works on: the ward as it is now, whose version is passed on."""
    on = given.settled(options)
    say("version", version=rosters.ward_of(on).current.number)
    return on


def run_improve(asked: Json) -> Json:
    """Makes a run of `improve`, `polish` or `plan`; what it has found is there however it ends."""
    options = improve_options(asked)
    on, roster = settled(options), program.Program(asked["roster"])
    runs: list[improve.Run] = []
    why = ""
    with tempfile.TemporaryDirectory(prefix="desk-run-") as folder:
        out = improve.Out(os.path.join(folder, "roster.txt"), "the roster")
        try:
            commands.improved(options, on, roster, out, runs, Watched)
        except DeskError as error:
            why = "" if error.status >= 128 else str(error)
    found = next((run for run in runs if run.saved), None)
    if not found:
        return {"error": why or "nothing was found until it was stopped"}
    bound = found.bound_search.known
    has = {"solutions": coded(found.solutions), "penalty": found.total, "after": found.saved, "searches": found.searches}
    return {**has, "changes": found.changes(), "bound": bound, "error": why, "seed": found.seed}


def run_repair(asked: Json) -> Json:
    """Looks for rosters with few changes from today on."""
    options = RepairOptions(common_of(asked), searches=asked["searches"], seconds=asked["seconds"], seed=asked["seed"])
    on, roster = settled(options), program.Program(asked["roster"])
    [(texts, plan)] = given.both_plans(on, roster)
    commands.check_shortages(plan, on.first_week)
    seconds, searches, seed, found = asked["seconds"], asked["searches"], asked["seed"], list[near.Near]()
    end = None if seconds is None else time.monotonic() + seconds
    with tempfile.TemporaryDirectory(prefix="desk-run-") as folder:
        progress = Watched(None, BoundSearch(on.first_week, True), has_curve=False)
        run = improve.Run(roster, plan, texts, improve.Out(os.path.join(folder, "roster.txt"), "the roster"), progress)
        improve.finish(run, [seed], lambda: found.extend(near.found_by(run, searches, seed, end)))
    is_same = len(found) == 1 and found[0].roster == plan.before
    return {"candidates": [] if is_same else [near_json(one, run, seed) for one in found], "error": ""}


def near_json(one: near.Near, run: improve.Run, seed: int) -> Json:
    """A repair that was found."""
    counts = {"how": one.how, "days": one.days, "skills": one.skills, "nurses": one.nurses, "penalty": one.cost}
    return {**counts, "seed": seed, "searches": run.searches or None, "solutions": coded(one.solutions)}


def coded(data: bytes) -> str:
    return base64.b64encode(data).decode()


def main() -> int:
    asked = json.load(sys.stdin)
    signals.take()
    try:
        _signal.pthread_sigmask(_signal.SIG_UNBLOCK, [_signal.SIGTERM])
        found = run_repair(asked) if asked["kind"] == "repair" else run_improve(asked)
    except DeskError as why:
        found = {"error": str(why)}
    except signals.Interrupted:
        found = {"error": "nothing was found until it was stopped"}
    signals.leave()
    json.dump(found, sys.stdout)
    sys.stdout.flush()
    return 0


if __name__ == "__main__":
    sys.exit(main())
