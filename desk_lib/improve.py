"""The command `improve`: rounds one at a time, the file replaced after each, or instead of them a roster of `plan`.
desk_lib/polish.py has what may follow."""
import collections.abc
import contextlib
import sys
import time
import typing

from desk_lib.case import changed_days, moved_days
from desk_lib.lower_bound import BoundSearch, number_of, words_of
from desk_lib.model import Plan
from desk_lib.program import Answer, Program, costs_by, plan_in, refusal
from desk_lib.replacing import Replacement, bytes_of, keep_next_to, read_back
from desk_lib.signals import Interrupted, held_back, within_time
from desk_lib.texts import SO_FAR, DeskError, Text, Texts, plural, shown

# How many searches `plan` is given one after the other, up to the number or the time that is given. If neither is, the program
# takes this number for each nurse, and that number at least.
TRIES = [1_000 * 4**number for number in range(7)]
SEARCHES_OF_A_NURSE, LEAST_SEARCHES = 400, 20_000
# How the line of `plan` begins if more searches may find a roster.
NOT_FOUND = "not found: "


class Progress:
    """Shows how far a run is: the log's lines, or on a terminal one line that changes."""

    def __init__(self, log: str | None, bound_search: BoundSearch, is_quiet: bool = False):
        """`log` is the name of a file for the lines. If it is to be quiet, only the line that changes is shown."""
        self.bound_search, self.is_terminal, self.is_quiet = bound_search, sys.stderr.isatty(), is_quiet
        self.log: typing.BinaryIO | None = None
        self.name = log or ""
        try:
            self.log = open(log, "wb") if log else None
        except OSError as why:
            raise self.failed(why) from None
        self.began, self.last, self.is_shown = time.monotonic(), b"", False

    def line(self, line: bytes) -> None:
        """A line of the log, as it comes."""
        self.last = line
        try:
            if self.log:
                self.log.write(line + b"\n")
                self.log.flush()
        except OSError as why:
            raise self.failed(why) from None
        if not (self.is_terminal or self.is_quiet):
            sys.stderr.buffer.write(line + b"\n")
            sys.stderr.buffer.flush()

    def failed(self, why: OSError) -> DeskError:
        return DeskError(f"{shown(self.name)}: write failed: {why.strerror}; give another name for the log", 3)

    def close(self, ending: list[str]) -> None:
        """Ends the search for a bound, and the file of the log, with these lines."""
        self.bound_search.close()
        with contextlib.suppress(OSError):
            if self.log:
                self.log.write("".join(f"{line}\n" for line in ending).encode())
                self.log.close()

    def saved(self, total: int) -> None:
        """A roster of this penalty is in the file, and stays there if the run is ended now. Here nothing is said of it."""

    def show(self, what: str, total: int, more: str = "") -> None:
        """The line that changes."""
        self.show_text(f"{what}: {total}{self.bound_search.short_clause(total) if self.is_terminal else ''}{more}")

    def show_text(self, what: str) -> None:
        """The line that changes, with this text and the time."""
        if self.is_terminal:
            sys.stderr.write(f"\r{what}, {time.monotonic() - self.began:.0f} s\x1b[K")
            sys.stderr.flush()
            self.is_shown = True

    def end(self, text: str = "") -> None:
        """Leaves the line that changes as it is. What the run came to follows on a terminal, or if a bound is known."""
        if self.is_terminal:
            sys.stderr.write("\n" * self.is_shown + f"{text}\n" * bool(text))
        elif text and (self.bound_search.known is not None or self.bound_search.is_wanted):
            sys.stderr.write(f"desk: {text}\n")
        sys.stderr.flush()


# What makes the progress of a run: of the name of its log, its search for a bound, and whether it is to be quiet.
Watching = collections.abc.Callable[[str | None, BoundSearch, bool], Progress]


class Out(typing.NamedTuple):
    """The file of a run, and what messages call it."""

    path: str
    label: str


class Run:
    """A run of the improver, whose roster is always in the file."""

    def __init__(self, roster: Program, plan: Plan, texts: Texts, out: Out, progress: Progress, keep: int | None = None):
        """It begins with the plan of these texts. `keep` is what each day with another shift costs more."""
        at = plan.solutions_offset()
        self.roster, self.start, self.before, self.solutions = roster, plan, texts.before(at, []), texts.joined[at:]
        self.out, self.label = out
        self.progress, self.bound_search, self.keep = progress, progress.bound_search, keep
        # (the options of each run of the program)
        self.words = [*words_of(self.bound_search.first_week), *([] if keep is None else ["--keep", str(keep)])]
        # (the last line of the last log; and what the file has: what it costs, and after what)
        self.given, self.end, self.total, self.saved = self.texts(), b"", 0, ""
        # (what `polish` begins with; and what a message says if nothing was put into the file)
        self.begun, self.lacking = self.given, "no round was over"
        # (how much was searched by runs of `polish` and `plan` that are over, as far as it is known; whether there was such a run; and the
        # seed of the one that found what the file has)
        self.searches, self.is_by_seed = 0, False
        self.seed: int | None = None
        # a file that can't be replaced is an error before the first round
        with Replacement(self.out, b""):
            pass
        # (what the file is to have when it is replaced next)
        self.there = bytes_of(self.out)

    def texts(self) -> Texts:
        return Texts([*self.before.texts, Text(SO_FAR, self.solutions)])

    def cost(self, solutions: bytes, reported: collections.abc.Sequence[int]) -> int:
        """What a roster costs by `roster cost`: one of the penalties that the log has reported."""
        texts = Texts([*self.before.texts, Text(self.out, solutions)])
        cost, kept = costs_by(self.roster, texts)["total"], self.kept(texts)
        if cost + kept not in reported:
            by_keep = f" less {kept} by --keep" if kept else ""
            message = f"the log says {reported[-1]}{by_keep}, and 'roster cost' {cost}; {shown(self.label)} isn't replaced"
            raise DeskError(f"{message}. This is a fault of the desk", 3)
        return cost

    def save(self, solutions: bytes, total: int, what: str) -> None:
        """Replaces the file, once the roster has been read back and costs what the log says."""
        self.put(solutions, self.cost(solutions, [total]), what)

    def put(self, solutions: bytes, cost: int, what: str) -> None:
        """Replaces the file by a roster of this cost, once it has been read back."""
        with held_back(), read_back(self.roster, self.before, solutions, [(self.out, solutions)]) as (new,):
            self.look(solutions, f"after {what}, which costs {cost}")
            new.put()
            self.solutions, self.there, self.total, self.saved = solutions, solutions, cost, what
        self.progress.saved(cost)

    def kept(self, texts: Texts) -> int:
        """What --keep adds in a log to the penalty of a roster."""
        return self.keep * moved_days(self.start.roster, plan_in(texts).roster) if self.keep else 0

    def look(self, solutions: bytes, when: str) -> None:
        """Looks whether the file has what this run has put there, or what was there before. If not, the roster is kept next to it."""
        if bytes_of(self.out) == self.there:
            return
        name = keep_next_to(self.out, solutions)
        self.saved = ""
        message = (
            f"{shown(self.label)}: something else has written this file meanwhile, and it stays as it is; the roster {when},"
        )
        raise DeskError(f"{message} is in {shown(name)}. Give each run a file of its own", 3)

    def look_again(self) -> None:
        """The same at the end, if a roster was put there."""
        if self.saved:
            with held_back():
                self.look(self.solutions, self.when())

    def changes(self) -> str:
        """On how many days the roster is another than the one that was given."""
        return f"{plural(changed_days(self.start.before, plan_in(self.texts()).roster), 'day')} changed"

    def when(self) -> str:
        """After what the roster in the file was found, and what it costs."""
        return f"after {self.saved}, which costs {self.total}"

    def has(self) -> str:
        """What the file has, if a roster was put there."""
        return f"{shown(self.label)} has the roster {self.when()}" if self.saved else ""

    def ending(self, seeds: list[int]) -> list[str]:
        """How the run was made: the last lines of the file of the log. Those of a search are there if there was one."""
        found = [f"time {time.monotonic() - self.progress.began:.1f}"]
        found += [f"searches {self.searches}"] if self.searches else []
        found += self.bound_search.lines(self.total if self.saved else None)
        if self.searches or self.is_by_seed:
            found.append(f"seed {seeds[0]}" + (f"-{seeds[-1]}" if seeds[1:] else ""))
        return [*found, f"version {self.roster.version()}"]

    # ---- a lower bound

    def seek_bound(self, seconds: int | None) -> bool:
        """Looks for a lower bound: if a time is given, during the search, for a part of it; else before that. Says whether the
        roster so far is known to be optimal at once."""
        if seconds is not None:
            self.bound_search.start(self.roster, self.texts(), seconds)
            return False
        return self.bound_search.is_met(self.bound_search.seek(self.roster, self.texts(), self.show_bound))

    def show_bound(self, line: bytes) -> None:
        if line.startswith(b"round "):
            self.progress.show_text(f"a lower bound is looked for: {number_of(line)}")

    def is_optimal(self) -> bool:
        """Whether no roster can be cheaper than that in the file, by the bound that is known."""
        return bool(self.saved) and self.bound_search.is_met(self.total)

    # ---- rounds

    def rounds(self, count: int, end: float | None) -> None:
        """Makes rounds until one changes nothing, or up to this count, or until a time, or the roster is optimal; at least one if
        one is allowed. The log is that of one run."""
        self.round(1, min(1, count))
        within_time(end, lambda: self.further_rounds(count))
        self.progress.line(self.end)

    def further_rounds(self, count: int) -> None:
        for number in range(2, count + 1):
            if self.end.startswith(b"settled") or self.is_optimal():
                break
            self.round(number, 1)

    def round(self, number: int, count: int) -> None:
        """Makes one round, or none."""
        words = ["improve", "--rounds", str(count), *self.words]
        answer = self.roster.ask(words, self.texts(), lambda line: self.pass_on(line, number))
        self.save(answer.output, number_of(answer.end()), f"round {number}" if count else "no round")
        self.end = answer.end()

    def whole(self, words: list[str]) -> None:
        """Makes one run of the program from the roster given: by --keep, no run may go on from another one."""
        answer = self.roster.ask([*words, *self.words], self.given, self.progress.line)
        self.save(answer.output, number_of(answer.end()), words[0])
        self.end = answer.end()

    # ---- a roster of `plan`

    def plan(self, searches: int | None, seed: int, end: float | None) -> None:
        """Begins with a roster that keeps the hard rules, whatever the one that was given breaks. If neither a number of searches
        nor a time is given, the program says how many."""
        self.lacking = "no roster was found"
        found: list[Answer] = []
        # (what few searches find is kept the sooner)
        counts: list[int | None] = [*TRIES]
        if searches is not None or end is None:
            counts = [*(count for count in TRIES if count < (searches or 0)), searches]
        within_time(end, lambda: found.extend(self.planned(counts, seed)))
        if not found:
            raise DeskError("the time is over, and no roster that keeps the hard rules was found; give more, or need less")
        for line in found[0].log[:-1]:
            # (the first has no penalty)
            self.progress.line(line.replace(b"start ", b"missing "))
        self.save(found[0].output, number_of(found[0].end()), "plan")
        self.seed = seed
        self.end, self.begun = found[0].end(), self.texts()
        self.progress.line(self.end)

    def planned(self, counts: collections.abc.Iterable[int | None], seed: int) -> list[Answer]:
        """The first answer with a roster, of runs with these numbers of searches."""
        self.progress.show_text("a roster that keeps the hard rules is looked for")
        nearest = ""
        for searches in counts:
            of_searches = [] if searches is None else ["--searches", str(searches)]
            words = ["plan", "--seed", str(seed), *of_searches, *self.words]
            answer = self.roster.call(words, self.given.joined)
            self.searches += self.default_searches() if searches is None else searches
            if answer.status == 0:
                return [answer]
            if answer.status != 1 or not answer.last().startswith(NOT_FOUND):
                raise refusal("plan", answer, self.given)
            nearest = answer.last().removeprefix(NOT_FOUND)
        message = f"no roster that keeps the hard rules was found, and the nearest has '{nearest}'"
        raise DeskError(f"{message}; give more searches by --polish, more --seconds, or need less")

    def default_searches(self) -> int:
        """How many searches the program takes if no number is given."""
        return max(SEARCHES_OF_A_NURSE * len(self.start.case.nurses), LEAST_SEARCHES)

    def pass_on(self, line: bytes, number: int) -> None:
        """Passes on a line of a round's log, with the number of that round."""
        words = line.split(b" ")
        if words[0] == b"1":
            line = b" ".join([b"%d" % number, *words[1:]])
        elif words[0] == b"round":
            line = b"round %d %s" % (number, words[-1])
        elif words[0] != b"start" or number > 1:
            # (the last line comes once for all rounds, and why the texts are refused is an error of its own)
            return
        self.progress.line(line)
        if words[-1].isdigit():
            self.progress.show(f"round {number}", int(words[-1]))


def finish(run: Run, seeds: list[int], work: collections.abc.Callable[[], None]) -> None:
    """Does the work, by these seeds. What ends it early leaves the last whole round in the file, and says so."""
    try:
        work()
        run.look_again()
    except Interrupted as end:
        run.progress.end()
        run.look_again()
        has = run.has() or f"{run.lacking}, and {shown(run.label)} is as it was"
        raise DeskError(f"interrupted; {has}", end.status) from None
    except DeskError as why:
        run.progress.end()
        raise DeskError("; ".join(filter(None, [str(why), run.has()])), why.status) from None
    finally:
        run.progress.close(run.ending(seeds) if run.progress.log and run.progress.last else [])
    run.progress.end(f"{shown(run.label)}: {shown(run.progress.last)}{run.bound_search.clause(run.total)}, {run.changes()}")
