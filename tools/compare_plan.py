"""Checks what a built program's 'plan' answers by tools/reckoning.py.

The instances have more and higher minimums, and absences on any day. Their solutions are empty, or full and right, or right only on the
frozen days, or wrong anywhere. It runs the program with 'plan' and 0 to 1000 searches on each, by a seed and from a week that are drawn
too.

The log has to report what 'plan' can't repair, in this order: a missing skill, and then a forbidden succession, an absence or a minimum
that isn't met, of frozen days. If there is none, the roster that comes out has to keep the hard rules and the frozen days, and to be
settled; its penalty has to be that of the log's last line, of 'cost', and of 'improve --rounds 1', which has to change nothing. If the
given roster keeps the hard rules, the new one may be no dearer. The log has to begin with the number of nurses whom the minimums of the
given roster lack if absent ones don't count; kicks have to come in order, none beyond the searches, and their totals, and that of the
fade, have to fall. The same words have to give the same bytes again.

If no roster comes out, the line 'not found:' has to report the first breach of the given roster; or, after a search, the first of one
of its rows, since a nurse who had no turn keeps hers; or a minimum that another roster with these frozen days may not meet. It then
tries all rosters, day by day, to see if one keeps the hard rules. It is no failure if there is one that wasn't found; how often that
happened is printed. Some rosters have to be found, some refused, and some instances have to have none.
"""
import collections
import itertools
import re

import reckoning
from compare_polish import faults_of_roster, keep_words, lines_wrong
from launch import answer
from small_instances import first_week_of, random_instance, text_of

# What has to have happened at least once.
WANTED = ["found", "refused before the search", "not there"]


# ---- instances


def harder(rng, case, kept):
    """The case with more minimums, most of which its roster meets, and with absences on any days."""
    days, needs = reckoning.days_of(case), {}
    covers = [reckoning.cover(of_day) for of_day in zip(*kept)]
    likely, is_too_high = rng.random(), rng.random() < 0.15
    for at, of_days in case.needs.items():
        least = [covers[day][at] if rng.random() < likely else of_days[day].least for day in days]
        if is_too_high:
            least[rng.choice(days)] += 1
        needs[at] = [reckoning.Limits(count, of_day.greatest) for count, of_day in zip(least, of_days)]
    count = rng.choice([0, 0, 1, rng.randint(1, 7)])
    ill = {(rng.randrange(len(kept)), rng.choice(days)) for _ in range(count)}
    return case._replace(needs=needs, absences=case.absences | ill)


def joined(case, kept, free, first_week):
    """The roster that takes its frozen days from one, and its free days from another."""
    stays = lambda number, day: reckoning.is_frozen(case, number, day, first_week)
    return [[kept[number][day] if stays(number, day) else choice for day, choice in enumerate(row)] for number, row in enumerate(free)]


def emptied(case, kept, first_week):
    """The roster in which nobody works on a free day."""
    return joined(case, kept, [[None] * len(row) for row in kept], first_week)


def any_choice(rng, case, number, has_skill):
    """Any choice for a nurse, of a skill that she has if `has_skill` says so."""
    skills = case.nurses[number].skills if has_skill else range(len(case.skills))
    return rng.choice([None, (rng.randrange(len(case.shifts)), rng.choice(skills))]) if skills else None


def given(rng, case, kept, first_week):
    """A roster to begin with, of one of several kinds."""
    kind = rng.choice(["empty", "full", "free days", "all days", "skills"])
    if kind == "full":
        return kept
    wild = [[any_choice(rng, case, number, kind != "skills" or rng.random() < 0.9) for _ in row] for number, row in enumerate(kept)]
    if kind in ("all days", "skills"):
        return wild
    return joined(case, kept, wild, first_week) if kind == "free days" else emptied(case, kept, first_week)


Run = collections.namedtuple("Run", "case roster searches seed first_week keep", defaults=(0,))


def random_run(rng):
    case, kept = random_instance(rng)
    first_week = rng.choice([0, 0, first_week_of(rng, case)])
    case = harder(rng, case, kept)
    searches = rng.choice([0, rng.randint(1, 30), rng.randint(31, 300), rng.randint(301, 1000)])
    seed = rng.choice([0, 1, rng.randrange(2**32)])
    return Run(case, given(rng, case, kept, first_week), searches, seed, first_week)


def words_of(run, seed):
    from_week = ["--from", str(run.first_week)] if run.first_week else []
    return ["plan", "--searches", str(run.searches), "--seed", str(seed), *from_week, *keep_words(run)]


# ---- whether there is a roster


def next_of(case, day, before, free):
    """The shifts that the nurses can have on a day, after these on the day before, if they may choose so."""
    for choices in itertools.product(*free):
        shifts = tuple(choice and choice[0] for choice in choices)
        if not any(pair in case.forbidden for pair in zip(before, shifts)) and reckoning.meets_minimums(case, day, reckoning.cover(choices)):
            yield shifts


def is_there_one(run):
    """Whether some roster keeps the hard rules and the frozen days. Of all beginnings of rosters only the last shifts are kept."""
    case, before = run.case, {tuple(nurse.history.last for nurse in run.case.nurses)}
    for day in reckoning.days_of(case):
        stays = lambda number: reckoning.is_frozen(case, number, day, run.first_week)
        free = [[row[day]] if stays(number) else reckoning.choices_of(case, number, day) for number, row in enumerate(run.roster)]
        before = {after for shifts in before for after in next_of(case, day, shifts, free)}
    return bool(before)


# ---- what is wrong with an answer


def log_wrong(log, run):
    """What may be wrong with a log."""
    totals = [*([] if log.fade is None else [log.fade]), *(total for _, total in log.kicks)]
    is_dearer = not reckoning.breaches(run.case, run.roster) and log.total > reckoning.penalty(run.case, run.roster)
    return lines_wrong(log, run, reckoning.lacking(run.case, run.roster), totals) | {"a dearer roster": is_dearer}


def first_breaches(run):
    """What may be reported of the given roster: its first breach, and after a search the first of each row."""
    of_rows = {breach.number: breach for breach in reversed([*reckoning.breaches_of_rows(run.case, run.roster)])} if run.searches else {}
    return [*reckoning.breaches(run.case, run.roster)[:1], *of_rows.values()]


def faults_of_line(run, output, log):
    """What is wrong with an answer of status 1 if nothing is refused before the search."""
    case, line = run.case, re.fullmatch(r"not found: H2 week (\d+) (\w+) (\S+) (\S+): (\d+) of (\d+)\n", log)
    if not output and log in [f"not found: {breach.line}\n" for breach in first_breaches(run)]:
        return []
    if output or not line:
        return ["the form"]
    day = 7 * int(line[1]) + reckoning.DAYS.index(line[2])
    at = [shift.name for shift in case.shifts].index(line[3]), case.skills.index(line[4])
    wrong = {
        "the minimum": at not in case.needs or case.needs[at][day].least != int(line[6]) or int(line[5]) >= int(line[6]),
        "a minimum of a frozen day": all(reckoning.is_frozen(case, number, day, run.first_week) for number in range(len(case.nurses))),
        "another roster without a search": not run.searches,
    }
    return [what for what, is_wrong in wrong.items() if is_wrong]


def faults(program, run, text, reply):
    """What is wrong with an answer."""
    refused = reckoning.unplannable(run.case, run.roster, run.first_week)
    if refused:
        return [] if reply == (1, "", f"{refused[0].line}\n") else [f"{refused[0].line} isn't reported"]
    status, output, log = reply
    if status not in (0, 1):
        return ["the status"]
    of_roster = lambda: faults_of_roster(program, run, text, output, log, lambda log: log_wrong(log, run))
    wrong = faults_of_line(run, output, log) if status else of_roster()
    return wrong + ["other bytes the second time"] * (answer(program, words_of(run, run.seed), text) != reply)


def kind_of(run, reply):
    """What became of a run."""
    if reckoning.unplannable(run.case, run.roster, run.first_week):
        return "refused before the search"
    if reply[0] == 0:
        return "found"
    return "not found though there is one" if is_there_one(run) else "not there"


def compare(programs, _, rng, seen):
    """The text of an instance, and what is wrong."""
    run = random_run(rng)
    text, words = text_of(run.case, run.roster), words_of(run, run.seed)
    reply = answer(programs[0], words, text)
    wrong = faults(programs[0], run, text, reply)
    if wrong:
        return text, [f"{words}: {', '.join(wrong)}; {reply}"]
    seen.update([kind_of(run, reply), *(word for word in ("fade", "kick") if f"\n{word} " in reply[2])])
    return text, []


def summary(seen):
    kinds = ", ".join(f"{seen[kind]} {kind}" for kind in [*WANTED, "not found though there is one"])
    return f"{kinds}; {seen['fade']} runs with a fade, {seen['kick']} with a kick that made the roster cheaper"
