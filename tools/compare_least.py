"""Compares what a built program's 'polish' leaves with trying all rosters.

The instances are those of tools/compare_bound.py: all their rosters can be tried, and their nurses, three at most, make up one
neighbourhood together. It runs the program with 'polish' and 500 to 3000 searches on each, by a seed that is drawn too. The penalty of
the log's last line has to be that of the roster that comes out, and may not be below the least penalty of all rosters that keep the
hard rules and the frozen days. That it is the least isn't promised; it prints how often it was, how often rounds alone settle above it,
and how often the least was found then. Some of each have to be there.
"""
import collections
import re

import reckoning
from compare_bound import Run, least_penalty, small_instance
from compare_polish import ROUNDS
from launch import answer
from small_instances import text_of

# What has to have happened at least once.
WANTED = ["least", "settled above it", "least where rounds settle above it"]


def words_of(searches, seed, first_week):
    from_week = ["--from", str(first_week)] if first_week else []
    return ["polish", "--searches", str(searches), "--seed", str(seed), *from_week]


def total_of(given, case, roster, text):
    """The penalty that an answer reports, or None if it isn't that of the roster that came out."""
    status, output, log = given
    ends = re.search(r"\nsettled (\d+)\n\Z", log)
    if status or not ends:
        return None
    after = reckoning.read(text.removesuffix(reckoning.solutions(case, roster)) + output)[1]
    total = int(ends[1])
    return total if reckoning.penalty(case, after) == total else None


def compare(programs, _, rng, seen):
    """The text of an instance, and what is wrong."""
    case, roster, first_week = small_instance(rng)
    text = text_of(case, roster)
    least, count = least_penalty(Run(case, roster, 0, 0, first_week))
    words = words_of(rng.randint(500, 3000), rng.randrange(2**32), first_week)
    given = answer(programs[0], words, text)
    total = total_of(given, case, roster, text)
    if total is None or total < least:
        return text, [f"{words}: the least penalty is {least}; {given}"]
    _, rounds_log = reckoning.improve(case, roster, ROUNDS, first_week)
    is_stuck = int(rounds_log.split()[-1]) > least
    seen["rosters"] += count
    seen.update({"least": total == least, "settled above it": is_stuck})
    seen["least where rounds settle above it"] += is_stuck and total == least
    return text, []


def summary(seen: collections.Counter):
    found = f"{seen['least']} runs found the least of {seen['rosters']} rosters"
    return f"{found}; rounds settle above it in {seen['settled above it']}, of which polish found it in {seen[WANTED[2]]}"
