"""Compares the bounds of a built program with trying all rosters.

The instances are so small that all rosters can be tried. It runs the program on each with 'bound' and 0 to 60 rounds. Of two weeks the
first one is frozen ('--from 1'), and now and then all are. Then it costs every roster that keeps the hard rules and the frozen days, by
tools/reckoning.py. The bound has to be at most the least of these penalties, and a multiple of 5; the first line of the output has to
be the penalty of the given roster; and the bounds of the log have to rise from round to round, up to that of the output. The rounds of
the log have to be the reckoning's, which don't depend on how many are asked for. With '--nodes' the first lines have to be those of the
rounds, and the bound has to be at most the least penalty still. How high a bound gets isn't promised; it prints how many were equal to
the least penalty, and some have to be. Some runs have to end early, after rounds that hardly raised a sum, and some have to be raised
by branchings after no round.
"""
import collections
import itertools
import re

import reckoning
from launch import answer
from small_instances import first_week_of, random_instance, text_of

# What has to have happened at least once.
WANTED = ["equal", "equal with branching", "ended early", "branched after no round"]
# How many times the search may branch.
NODES = 30
# The most rosters that are tried for an instance.
MOST_ROSTERS = 20_000


def free_choices(case, roster, number, first_week):
    """What a nurse can do on each day by her skills, her absences and the frozen days."""
    choices = [None, *itertools.product(range(len(case.shifts)), case.nurses[number].skills)]
    stays = lambda day: reckoning.is_frozen(case, number, day, first_week)
    days = [[roster[number][day]] if stays(day) else choices for day in reckoning.days_of(case)]
    return [[choice for choice in of_day if choice is None or (number, day) not in case.absences] for day, of_day in enumerate(days)]


def roster_count(case, roster, first_week):
    """How many rosters there are by skills and frozen days."""
    count = 1
    for number in range(len(case.nurses)):
        for choices in free_choices(case, roster, number, first_week):
            count *= len(choices)
    return count


def own_rows(case, roster, number, first_week):
    """The rows of a nurse that keep the successions, her skills, her absences and the frozen days, each with what it costs apart from
    the cover."""
    nurse, rows = case.nurses[number], []
    for row in itertools.product(*free_choices(case, roster, number, first_week)):
        shifts = reckoning.shifts_of(row)
        if reckoning.follows(case, nurse, shifts):
            asked = sum(reckoning.request_cost(case, number, day, choice) for day, choice in enumerate(row))
            rows.append((reckoning.own_cost(case, nurse, shifts) + asked, row))
    return rows


class Staffing(dict):
    """For each day and what the nurses do on it: what lacking nurses cost, or None if a minimum isn't met."""

    def __init__(self, case):
        super().__init__()
        self.case = case

    def __missing__(self, at):
        day, choices = at
        covers = reckoning.cover(choices)
        meets = reckoning.meets_minimums(self.case, day, covers)
        self[at] = reckoning.staffing(self.case, day, covers) if meets else None
        return self[at]


# A case, a roster, and what is asked of 'bound'.
Run = collections.namedtuple("Run", "case roster rounds nodes first_week")


def least_penalty(run):
    """The least penalty of all rosters that keep the hard rules and the frozen days, and how many do."""
    case, roster, _, _, first_week = run
    staffing, least, count = Staffing(case), None, 0
    for rows in itertools.product(*(own_rows(case, roster, number, first_week) for number in range(len(case.nurses)))):
        total = sum(cost for cost, _ in rows)
        for at in enumerate(zip(*(row for _, row in rows))):
            of_day = staffing[at]
            if of_day is None:
                break
            total += of_day
        else:
            count += 1
            least = total if least is None else min(least, total)
    return least, count


def small_instance(rng):
    """A case, a roster that keeps its hard rules, and a first week that may change, from which on all rosters can be tried."""
    while True:
        case, roster = random_instance(rng)
        first_week = first_week_of(rng, case)
        if roster_count(case, roster, first_week) <= MOST_ROSTERS:
            return case, roster, first_week


def words_of(run):
    from_week = ["--from", str(run.first_week)] if run.first_week else []
    return ["bound", "--rounds", str(run.rounds), *from_week, *(["--nodes", str(run.nodes)] if run.nodes else [])]


Reply = collections.namedtuple("Reply", "total start bound lines")


def read_reply(given):
    """What an answer says, or None if it isn't of the form."""
    status, output, log = given
    ends = re.fullmatch(r"roster (\d+)\nbound (\d+)\n", output)
    begins = re.fullmatch(r"(?:keep \d+\n)?start (\d+)\n((?:round \d+ \d+\n)*)", log)
    if status or not ends or not begins:
        return None
    lines = [tuple(map(int, line.split()[1:])) for line in begins[2].splitlines()]
    return Reply(int(ends[1]), int(begins[1]), int(ends[2]), lines)


def faults(run, reply, lines, least):
    """What is wrong with an answer, by the lines of the rounds as they are reckoned, and the least penalty of all rosters."""
    if not reply:
        return ["the form"]
    rises, unit = [(0, 0), *reply.lines], reckoning.unit_of(run.case)
    further = reply.lines[len(lines) :]
    wrong = {
        "the penalty": {reply.total, reply.start} != {reckoning.penalty(run.case, run.roster)},
        "a bound above a roster": reply.bound > least,
        f"no multiple of {unit}": any(bound % unit for _, bound in rises),
        "the order of the lines": any(a[0] >= b[0] or a[1] >= b[1] for a, b in zip(rises, reply.lines)),
        "the reckoning's rounds": reply.lines[: len(lines)] != lines,
        "the number of a line": any(not run.rounds < number <= run.rounds + run.nodes for number, _ in further),
        "the last line": rises[-1][1] != reply.bound,
    }
    return [what for what, is_wrong in wrong.items() if is_wrong]


def faults_of_answer(run, given):
    """What is wrong with an answer; for a script that has nothing reckoned yet."""
    lines, _ = reckoning.raised(run.case, run.roster, run.rounds, run.first_week)
    return faults(run, read_reply(given), lines, least_penalty(run)[0])


def compare(programs, _, rng, seen):
    """The text of an instance, and what is wrong."""
    case, roster, first_week = small_instance(rng)
    text, run = text_of(case, roster), Run(case, roster, rng.choice([0, 1, 10, 60, 60, 60]), 0, first_week)
    least, count = least_penalty(run)
    lines, made = reckoning.raised(case, roster, run.rounds, first_week)
    found, bounds = [], []
    for of_run in (run, run._replace(nodes=NODES)):
        given = answer(programs[0], words_of(of_run), text)
        reply = read_reply(given)
        wrong = faults(of_run, reply, lines, least)
        found += [f"{words_of(of_run)}: {', '.join(wrong)}; the least is {least}; {given}"] if wrong else []
        bounds.append(reply and reply.bound)
    seen["rosters"] += count
    if found:
        return text, found
    bound, branched = bounds
    seen.update({"equal": bound == least, "above": bound > 0, "equal with branching": branched == least})
    seen["ended early"] += made < run.rounds and bound < reckoning.penalty(case, roster)
    seen["branched after no round"] += not run.rounds and branched > 0
    return text, []


def summary(seen):
    equal = f"{seen['equal']} equal to the least penalty, {seen['equal with branching']} with branching"
    rounds = f"{seen['ended early']} runs ended early, {seen['branched after no round']} were raised by branchings after no round"
    return f"{seen['rosters']} rosters that keep the hard rules; {seen['above']} bounds above 0, {equal}; {rounds}"
