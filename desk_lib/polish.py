"""What may follow the rounds of `improve`: whole runs of `polish`, several at once.

Each run begins with the roster that was given, and keeps its best so far in a file of its own, in a temporary folder. Whatever is cheaper
there than in the planner's file is put into that, so a run may be ended at any time. At the end the planner's file has the cheapest roster
of all; of equally dear ones, that of the first run, which has the very bytes of one that is made without the desk.
"""
import dataclasses
import math
import os
import selectors
import tempfile
import time

from desk_lib.improve import Run
from desk_lib.lower_bound import number_of
from desk_lib.program import Answer, Running, refusal
from desk_lib.signals import Interrupted, TimeOver, held_back, within_time
from desk_lib.texts import DeskError, shown

# The most searches of a run, the most seconds, and how many seeds there are.
MOST_SEARCHES, MOST_SECONDS, SEEDS = 10_000_000, 86_400, 2**32
# How often the files of runs are looked at, in seconds: the program replaces each once a second at most.
EACH = 1.0
# For how many seconds longer than its time a run may go on before it is ended: what its fade has found is there only once that is over,
# and a machine that is at work for others can be late.
LATE = 2.0
# Whether runs also report how far their fades are, for which the program has to know `--trace`.
WITH_TRACE = False
# How the lines of a log begin that report a roster: the last one, and all.
ENDS = (b"settled", b"stopped")
REPORTS = (b"start", b"fade", b"kick", *ENDS)


@dataclasses.dataclass(frozen=True)
class Course:
    """How runs are made: with how many searches, or as many as the time allows; by which seeds; and when the time is over."""

    searches: int | None
    seeds: list[int]
    end: float | None = None


@dataclasses.dataclass(frozen=True, order=True)
class Found:
    """A roster of a run: what it costs, and the number of the run; its seed, whether the roster is settled, and after what it came."""

    total: int
    number: int
    seed: int = dataclasses.field(compare=False)
    word: bytes = dataclasses.field(compare=False)
    what: str = dataclasses.field(compare=False)
    solutions: bytes = dataclasses.field(compare=False)


@dataclasses.dataclass(eq=False)
class Job:
    """A run of `polish`: its number, its seed, its file, and what its log has said so far."""

    number: int
    seed: int
    path: str
    running: Running
    # (each penalty that it has reported, which never rise, with the last line that did; and how far a fade is, if the last line says so)
    reported: dict[int, bytes] = dataclasses.field(default_factory=dict)
    step: str = ""
    # (which file was looked at last, for it is another one each time that it is replaced; and what the roster there costs)
    looked_at: tuple[int, int] = (0, 0)
    total: int | None = None

    def least(self) -> float:
        """The least penalty that its log has reported."""
        return min(self.reported, default=math.inf)

    def note(self, line: bytes) -> None:
        """Notes what a line of its log says."""
        word = line.split(b" ")[0]
        self.step = shown(line) if word == b"pass" else ""
        if word in REPORTS:
            self.reported[number_of(line)] = line

    def new(self) -> tuple[tuple[int, int], bytes] | None:
        """Which file has replaced the one that was looked at last, and what it has; None if none has."""
        try:
            with open(self.path, "rb") as file:
                state = os.fstat(file.fileno())
                name = (state.st_ino, state.st_mtime_ns)
                return None if name == self.looked_at else (name, file.read())
        except FileNotFoundError:
            return None

    def found(self, total: int, solutions: bytes) -> Found:
        """A roster of its file, which costs what one of its lines has reported."""
        *words, _ = self.reported[total].split(b" ")
        what = f"polish with the seed {self.seed}"
        if words[0] in ENDS:
            return Found(total, self.number, self.seed, words[0], what, solutions)
        # (what a fade or a try leaves is settled)
        which = "the fade" if words == [b"fade"] else shown(b" ".join(words))
        return Found(total, self.number, self.seed, b"settled", f"{which} of {what}", solutions)


class Polish:
    """Whole runs, as many at once as there are processors."""

    def __init__(self, run: Run, course: Course, folder: str):
        """The files of the runs are in this folder."""
        self.run, self.course, self.folder = run, course, folder
        self.least, self.word = run.total, run.end.split(b" ")[0]
        self.processors = len(os.sched_getaffinity(0))
        self.seeds, self.begun = course.seeds, 0
        if self.is_open() and len(self.seeds) == 1:
            self.seeds = [(self.seeds[0] + more) % SEEDS for more in range(self.processors)]
        self.best: Found | None = None
        self.jobs = selectors.DefaultSelector()
        self.last_look = 0.0

    def work(self) -> None:
        """Makes all runs. If something ends them early, what they have found by then is kept."""
        try:
            self.make_runs()
            self.end_runs()
        except (Interrupted, TimeOver):
            with held_back():
                self.end_runs()
            raise
        finally:
            for job in self.going():
                job.running.close()
            self.jobs.close()

    def finish(self) -> None:
        """The last line of the log."""
        self.run.progress.line(b"%s %d" % (self.word, self.run.total))

    def going(self) -> list[Job]:
        return [key.data for key in self.jobs.get_map().values()]

    def is_open(self) -> bool:
        """Whether the time decides how much is searched."""
        return self.course.searches is None

    def is_least(self) -> bool:
        """Whether no roster can be cheaper: it is optimal, or costs nothing, so that the time needn't be waited for."""
        return self.run.is_optimal() or self.is_open() and not self.run.total

    # ---- runs

    def make_runs(self) -> None:
        """Makes runs until all are over, or no roster can be cheaper."""
        while self.start_runs() and not self.is_least():
            for key, _ in self.jobs.select(EACH):
                self.take(key.data)
            if time.monotonic() >= self.last_look + EACH:
                self.look()
            self.show()

    def start_runs(self) -> bool:
        """Begins as many runs as there are processors; says whether one goes on."""
        while self.begun < len(self.seeds) and len(self.going()) < self.processors:
            self.start(self.begun + 1, self.seeds[self.begun], self.length())
            self.begun += 1
        return bool(self.going())

    def start(self, number: int, seed: int, length: list[str]) -> None:
        run, path = self.run, os.path.join(self.folder, f"{number}.txt")
        words = ["polish", *length, "--seed", str(seed), *["--trace"] * WITH_TRACE, *run.words, "--out", path]
        running = run.roster.start(words, run.begun.joined)
        run.is_by_seed = True
        self.jobs.register(running.stderr, selectors.EVENT_READ, Job(number, seed, path, running))

    def length(self) -> list[str]:
        """How long the next run is. If the time decides, those that are still to begin share what is left of it."""
        if self.course.searches is not None or self.course.end is None:
            return ["--searches", str(self.course.searches)]
        turns = math.ceil((len(self.seeds) - self.begun) / self.processors)
        seconds = int((self.course.end - time.monotonic()) / turns)
        return ["--seconds", str(max(1, min(MOST_SECONDS, seconds)))]

    def take(self, job: Job) -> None:
        """Takes the lines that have come of a run, and its roster if it is over."""
        self.note(job, job.running.lines())
        if job.running.is_over:
            answer = job.running.answer()
            if answer.status:
                raise refusal("polish --out", answer, self.run.begun)
            self.take_last(job, answer)
            self.jobs.unregister(job.running.stderr)
            job.running.close()

    def take_last(self, job: Job, answer: Answer) -> None:
        """Takes the roster of a run that is over, which is that of the last line that reports one."""
        self.look_at(job)
        # (if it has said nothing, that is an error of its own)
        answer.end()
        if job.total not in [*job.reported][-1:]:
            raise DeskError("the program ended a run, and its last roster isn't in its file; --roster names the program roster", 3)
        self.run.searches += self.course.searches or 0
        if len(self.seeds) > 1 or self.is_open():
            self.run.progress.line(f"seed {job.seed} {job.total}".encode())

    def note(self, job: Job, lines: list[bytes]) -> None:
        """Notes lines of a run. The log has those of rosters that are cheaper than all before."""
        for line in lines:
            job.note(line)
            if line.startswith((b"fade ", b"kick ")) and number_of(line) < self.least:
                self.least = number_of(line)
                self.run.progress.line(line)

    def end_runs(self) -> None:
        """Ends the runs that go on, and keeps the best roster of all."""
        for job in self.going():
            job.running.kill()
        for job in self.going():
            self.look_at(job)
        self.keep_first()

    # ---- rosters

    def look(self) -> None:
        """Looks at the files of runs that have reported something cheaper than what the planner's file has."""
        self.last_look = time.monotonic()
        for job in sorted(self.going(), key=Job.least):
            if job.least() < self.run.total:
                self.look_at(job)

    def look_at(self, job: Job) -> None:
        """Takes the roster that a run has put into its file, if there is another one than before."""
        new = job.new()
        # (the line that reports it has come by now)
        self.note(job, job.running.lines_there())
        if new and job.reported:
            name, solutions = new
            job.total = self.run.cost(solutions, [*job.reported])
            self.keep(job.found(job.total, solutions))
            job.looked_at = name

    def keep(self, found: Found) -> None:
        """Keeps a roster that is cheaper than the one in the planner's file."""
        # (the last roster of a run takes the place of an equally dear one that the run has had before)
        if self.best is None or found <= self.best:
            self.best = found
        if found.total < self.run.total:
            self.put(found)

    def keep_first(self) -> None:
        """Of equally dear rosters that of the first run stays, whichever came first."""
        if self.best and self.best.total == self.run.total:
            self.put(self.best)

    def put(self, found: Found) -> None:
        if found.solutions != self.run.solutions:
            self.run.put(found.solutions, found.total, found.what)
        self.run.seed, self.word = found.seed, found.word

    def show(self) -> None:
        kept = "" if self.least == self.run.total else f", in the file {self.run.total}"
        step = next((f", {job.step}" for job in self.going() if job.step), "")
        self.run.progress.show("polish", self.least, f"{kept}{step}")


def go_on(run: Run, course: Course) -> None:
    """Goes on with polish, to its end, or until the time is over or the roster is optimal."""
    if not run.is_optimal() and (course.end is None or time.monotonic() < course.end):
        with tempfile.TemporaryDirectory(prefix="desk-polish-", ignore_cleanup_errors=True) as folder:
            polish = Polish(run, course, folder)
            within_time(course.end + LATE if course.end is not None and polish.is_open() else course.end, polish.work)
        polish.finish()
