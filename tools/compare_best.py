"""Compares the best rows of a built program with trying all rows.

For each nurse of an instance it runs the program with 'best --nurse NAME'. Of two weeks the first one is frozen ('--from 1'), and now
and then all are. It looks for the best row itself: it costs every row of that nurse that keeps the frozen days by tools/reckoning.py,
and takes the first of the cheapest. Output, log and status of the program have to be exactly those of that row, and the reckoning's
search day by day, which tools/reckon prints, has to find it too.

A peer, another program of the same command line, is run on the same texts and has to answer the same; and both have to answer the same
to 'improve', with no round, with one, and with as many as it takes, from the first week on and from that one. With a peer no instance
has a section of absences or of fixed days, which a peer needn't know.
"""
import itertools

import reckoning
from launch import answer
from small_instances import first_week_of, random_instance, text_of

# What has to have happened at least once.
WANTED = ["nurses"]


def first_of_all(case, number, offers):
    """The first of the cheapest of all rows of these offers without a forbidden succession, or None if there is none; and how many rows
    there are. All are tried, in their order."""
    nurse, by_shifts, best, count = case.nurses[number], {}, None, 0
    for row in itertools.product(*offers):
        shifts = reckoning.shifts_of(choice for choice, _ in row)
        if shifts not in by_shifts:
            by_shifts[shifts] = reckoning.own_cost(case, nurse, shifts) if reckoning.follows(case, nurse, shifts) else None
        if by_shifts[shifts] is not None:
            count += 1
            cost = by_shifts[shifts] + sum(price for _, price in row)
            if best is None or cost < best[0]:
                best = cost, [choice for choice, _ in row]
    return best and best[1], count


# ---- runs


def runs_faults(programs, first_week, text):
    """What is wrong if not all programs answer the same to 'improve'."""
    from_week = ["--from", str(first_week)]
    for words in ([], ["--rounds", "0"], ["--rounds", "1"], from_week, [*from_week, "--rounds", "1"]):
        first, *others = [answer(program, ["improve", *words], text) for program in programs]
        if any(other != first for other in others):
            return [f"improve {words}: {first}, and not {others}"]
    return []


def compare(programs, number, rng, seen):
    """The text of an instance, and what is wrong."""
    case, roster = random_instance(rng, with_own=len(programs) == 1)
    first_week = first_week_of(rng, case)
    text, wrong = text_of(case, roster, with_own=len(programs) == 1), []
    # The default is the first week.
    from_week = ["--from", str(first_week)] if first_week or number % 2 else []
    for at, nurse in enumerate(case.nurses):
        row, count = first_of_all(case, at, reckoning.offers_of(case, roster, at, first_week))
        if reckoning.best_row(case, roster, at, first_week) != row or reckoning.read(text)[0] != case:
            wrong.append(f"{nurse.name}: the reckoning")
        seen.update({"nurses": 1, "rows": count})
        due = (0, *reckoning.best(case, roster, at, row))
        for program in programs:
            given = answer(program, ["best", "--nurse", nurse.name, *from_week], text)
            if given != due:
                wrong.append(f"{nurse.name}, {from_week}, {program}: {given}, and not {due}")
    return text, wrong or runs_faults(programs, first_week, text)


def summary(seen):
    return f"{seen['nurses']} nurses, {seen['rows']} rows that keep the hard rules"
