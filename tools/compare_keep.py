"""Checks what a built program answers with '--keep' by tools/reckoning.py.

It draws the points of '--keep' for each instance, 0 to 100, most often a number that 5 doesn't divide, and a first week. 'best' for each
nurse, 'improve' and 'bound' have to answer, output and log, what tools/reckoning.py has for the case in which the roster that was read
is to be kept. What 'polish' and 'plan' answer is checked as tools/compare_polish.py and tools/compare_plan.py check it, 'plan' on an
instance of the latter: the hard rules, the frozen days, the penalty of the log's last line, that no nurse has a cheaper row, that no
roster is dearer than the given one, and the same bytes the second time; all with the points. The log has to begin with a line 'keep N'.
With 0 points each command has to answer the bytes that it answers without the option. Some rosters have to change on fewer days than
without points.
"""
import compare_plan
import compare_polish
import reckoning
from launch import answer
from small_instances import first_week_of, random_instance, text_of

# What has to have happened at least once.
WANTED = ["fewer"]


def points_of(rng):
    return rng.choice([0, 1, 5, 100, rng.randint(1, 100), rng.randint(1, 100), rng.randint(1, 100)])


class Keep:
    """One instance with its points, and what is wrong with the answers for it."""

    def __init__(self, program, rng):
        self.program, self.rng = program, rng
        self.plain, self.roster = random_instance(rng)
        self.keep, self.first_week = points_of(rng), rng.choice([0, first_week_of(rng, self.plain)])
        self.case = reckoning.keeping(self.plain, self.roster, self.keep)
        self.text = text_of(self.plain, self.roster)
        self.wrong = []

    def holds(self, due, *command):
        """Checks that a command answers what is due."""
        words = [*command, *(["--from", str(self.first_week)] if self.first_week else [])]
        given = answer(self.program, [*words, "--keep", str(self.keep)], self.text)
        if given != (0, *due):
            self.wrong.append(f"{words}: {given}, and not {due}")
        if not self.keep and answer(self.program, words, self.text) != given:
            self.wrong.append(f"{words}: other bytes without the option")

    def exactly(self):
        """The commands whose whole answer is reckoned."""
        case, roster, week = self.case, self.roster, self.first_week
        for number, nurse in enumerate(case.nurses):
            row = reckoning.best_row(case, roster, number, week)
            self.holds(reckoning.best(case, roster, number, row), "best", "--nurse", nurse.name)
        rounds = self.rng.choice([0, 1, 2, 100])
        self.holds(reckoning.improve(case, roster, rounds, week), "improve", "--rounds", str(rounds))
        rounds = self.rng.choice([0, 1, 3, 12])
        self.holds(reckoning.bound(case, roster, rounds, week), "bound", "--rounds", str(rounds))

    def polish(self):
        """On how many days 'polish' changes the roster with the points, and without."""
        searches, seed = self.rng.choice([0, 30, 200]), self.rng.randrange(9)
        run = compare_polish.Run(self.plain, self.roster, searches, seed, self.first_week, self.rng.random() < 0.3, self.keep)
        given = self.rest(compare_polish, run, self.text)
        free = answer(self.program, compare_polish.words_of(run._replace(keep=0), seed), self.text)
        try:
            return tuple(reckoning.moved_days(self.roster, self.roster_of(output)) for _, output, _ in (given, free))
        except (ValueError, IndexError, KeyError):
            self.wrong.append(f"no roster: {given}, and without points {free}")
            return 0, 0

    def roster_of(self, output):
        return reckoning.read(self.text.removesuffix(reckoning.solutions(self.plain, self.roster)) + output)[1]

    def plan(self):
        """Checks 'plan' from a roster that may break the hard rules; returns its text."""
        run = compare_plan.random_run(self.rng)._replace(keep=self.keep)
        text = text_of(run.case, run.roster)
        self.rest(compare_plan, run, text)
        return text

    def rest(self, command, run, text):
        """Checks what is reckoned of a command's answer, and returns the answer."""
        words = command.words_of(run, run.seed)
        given = answer(self.program, words, text)
        self.wrong += [f"{words}: {fault}; {given}" for fault in command.faults(self.program, run, text, given)]
        if not self.keep and answer(self.program, [*words, "--keep", "0"], text) != given:
            self.wrong.append(f"{words}: other bytes with 0 points")
        return given


def compare(programs, _, rng, seen):
    """The texts of an instance, and what is wrong."""
    run = Keep(programs[0], rng)
    run.exactly()
    days = run.polish()
    text_of_plan = run.plan()
    if not run.wrong:
        seen.update({"kept": days[0], "free": days[1], "fewer": days[0] < days[1]})
    return f"{run.text}\n{text_of_plan}", [f"{run.keep} points, {fault}" for fault in run.wrong]


def summary(seen):
    return f"'polish' changed {seen['kept']} days, {seen['free']} without points, and fewer with them in {seen['fewer']} instances"
