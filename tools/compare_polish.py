"""Checks what a built program's 'polish' answers by tools/reckoning.py.

It runs the program with 'polish' and 0 to 300 searches on each instance, by a seed and from a week that are drawn too, one in three
times with '--kicks'. The roster that comes out has to keep the hard rules and the frozen days, and to be settled; its penalty has to be
that of the log's last line, of 'cost', and of 'improve --rounds 1', which has to change nothing. The log has to begin with the penalty
of the given roster; a fade has to be no dearer than the roster that rounds settle, and with '--kicks' no line may name a fade; kicks
have to come in order, none beyond the searches, and their totals have to fall. Without a search the roster has to be the one that
rounds settle. The same words have to give the same bytes again. How cheap the roster gets isn't promised; it prints how many runs had a
fade, how many a kick that made the roster cheaper, and how many another log by the next seed, and some of each have to be there.
"""
import collections
import itertools
import re

import reckoning
from launch import answer
from small_instances import first_week_of, random_instance, text_of

# Rounds enough to settle any of these instances.
ROUNDS = 1000
# What has to have happened at least once.
WANTED = ["fade", "kick", "other"]

Log = collections.namedtuple("Log", "start fade kicks total")


def read_log(log, keep=0):
    """What a log says, or None if it isn't of the form. With points for a roster to keep it begins with a line of them."""
    line = f"keep {keep}\n" if keep else ""
    log = log[len(line) :] if log.startswith(line) else ""
    form = re.fullmatch(r"start (\d+)\n(?:fade (\d+)\n)?((?:kick \d+ \d+\n)*)settled (\d+)\n", log)
    if not form:
        return None
    fade = None if form[2] is None else int(form[2])
    return Log(int(form[1]), fade, [tuple(map(int, line.split()[1:])) for line in form[3].splitlines()], int(form[4]))


def lines_wrong(log, run, start, totals):
    """What may be wrong with a log's lines, by the number that it has to begin with and by its totals, which have to fall."""
    numbers = [0, *(number for number, _ in log.kicks)]
    return {
        "the start": log.start != start,
        "the order of the kicks": any(a >= b for a, b in zip(numbers, numbers[1:])),
        "a kick too many": numbers[-1] > run.searches,
        "totals that don't fall": any(a <= b for a, b in zip(totals, totals[1:])),
        "the last line": bool(totals) and log.total != totals[-1],
    }


def log_wrong(log, run, settled):
    """What may be wrong with a log, by the penalty of the roster that rounds settle."""
    totals = [settled if log.fade is None else log.fade, *(total for _, total in log.kicks)]
    return lines_wrong(log, run, reckoning.penalty(run.case, run.roster), totals) | {
        "a fade that is dearer": log.fade is not None and log.fade > settled,
        "a fade with --kicks": log.fade is not None and run.kicks,
    }


def roster_wrong(run, after, total):
    """What may be wrong with a roster that costs this total by the log."""
    case = reckoning.keeping(run.case, run.roster, run.keep)
    cells = itertools.product(range(len(case.nurses)), reckoning.days_of(case))
    frozen = [(number, day) for number, day in cells if reckoning.is_frozen(case, number, day, run.first_week)]
    settled = reckoning.solutions(case, after), settled_log(total, run.keep)
    return {
        "the hard rules": bool(reckoning.breaches(case, after)),
        "the frozen days": any(run.roster[number][day] != after[number][day] for number, day in frozen),
        "the total": reckoning.penalty(case, after) != total,
        "a cheaper row": reckoning.improve(case, after, 1, run.first_week) != settled,
    }


def settled_log(total, keep=0):
    """The log of a round that changes nothing."""
    return (f"keep {keep}\n" if keep else "") + f"start {total}\nround 1 {total}\nsettled {total}\n"


def faults_of_roster(program, run, text, output, log, log_wrong):
    """What is wrong with an answer of status 0; log_wrong finds what may be wrong with the log."""
    said, case = read_log(log, run.keep), run.case
    bundle = text.removesuffix(reckoning.solutions(case, run.roster)) + output
    try:
        after = reckoning.read(bundle)[1]
    except (ValueError, IndexError, KeyError):
        after = None
    if not said or not after or reckoning.solutions(case, after) != output:
        return ["the form"]
    words = ["improve", "--rounds", "1", "--from", str(run.first_week)]
    wrong = log_wrong(said) | roster_wrong(run, after, said.total)
    wrong["the costs"] = answer(program, ["cost"], bundle) != (0, reckoning.cost_lines(case, after), "")
    # The roster to keep is the given one, which this round doesn't read.
    wrong["a round that changes it"] = not run.keep and answer(program, words, bundle) != (0, output, settled_log(said.total))
    return [what for what, is_wrong in wrong.items() if is_wrong]


# `keep` is how many points each changed day costs.
Run = collections.namedtuple("Run", "case roster searches seed first_week kicks keep", defaults=(0,))


def keep_words(run):
    return ["--keep", str(run.keep)] if run.keep else []


def words_of(run, seed):
    from_week = ["--from", str(run.first_week)] if run.first_week else []
    more = [*from_week, *(["--kicks"] if run.kicks else []), *keep_words(run)]
    return ["polish", "--searches", str(run.searches), "--seed", str(seed), *more]


def faults(program, run, text, reply):
    """What is wrong with an answer."""
    status, output, log = reply
    if status:
        return ["the status"]
    kept = reckoning.keeping(run.case, run.roster, run.keep)
    settled, rounds_log = reckoning.improve(kept, run.roster, ROUNDS, run.first_week)
    penalty = int(rounds_log.split()[-1])
    wrong = faults_of_roster(program, run, text, output, log, lambda log: log_wrong(log, run, penalty))
    if not run.searches and output != settled:
        wrong.append("another roster than rounds settle")
    if answer(program, words_of(run, run.seed), text) != reply:
        wrong.append("other bytes the second time")
    return wrong


def random_run(rng):
    case, roster = random_instance(rng)
    searches = rng.choice([0, rng.randint(1, 30), rng.randint(31, 300), rng.randint(31, 300)])
    seed, first_week = rng.choice([0, 1, rng.randrange(2**32)]), rng.choice([0, first_week_of(rng, case)])
    return Run(case, roster, searches, seed, first_week, rng.randrange(3) == 0)


def compare(programs, _, rng, seen):
    """The text of an instance, and what is wrong."""
    run, program = random_run(rng), programs[0]
    text, words = text_of(run.case, run.roster), words_of(run, run.seed)
    reply = answer(program, words, text)
    wrong = faults(program, run, text, reply)
    if wrong:
        return text, [f"{words}: {', '.join(wrong)}; {reply}"]
    of_next = answer(program, words_of(run, (run.seed + 1) % 2**32), text)
    seen.update({"fade": "\nfade " in reply[2], "kick": "\nkick " in reply[2], "other": of_next[2] != reply[2]})
    return text, []


def summary(seen):
    lines = f"{seen['fade']} runs with a fade, {seen['kick']} with a kick that made the roster cheaper"
    return f"{lines}, {seen['other']} with another log by the next seed"
