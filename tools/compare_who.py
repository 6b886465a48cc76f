"""Compares what a built program's 'who' answers with trying all rows.

Half of the instances are like those of tools/compare_plan.py, with rosters that don't meet minimums or let absent nurses work. For each
it draws two assignments, each with a skill or none, and a first week, and runs the program with 'who' on them. It looks for each
nurse's row itself: it costs every row that she may have by tools/reckoning.py, and takes the first of the cheapest. Output, log and
status have to be exactly those of these rows, and the reckoning's search day by day, which tools/reckon prints, has to find the same. If
the frozen days can't be repaired, the log has to be the line that says so. With some assignments all minimums have to be met, with some
not, and some have to have no taker.
"""
import compare_plan
import reckoning
from compare_best import first_of_all
from launch import answer
from small_instances import first_week_of, random_instance, text_of

# What has to have happened at least once.
WANTED = ["kept", "missing", "nobody"]


def instance(rng):
    """A case, a roster that may not meet minimums, and a first week from which on all rows can be tried."""
    case, roster = random_instance(rng)
    first_week = first_week_of(rng, case)
    if rng.random() < 0.5:
        case = compare_plan.harder(rng, case, roster)
        kinds = [roster, compare_plan.given(rng, case, roster, first_week), compare_plan.emptied(case, roster, first_week)]
        roster = rng.choice(kinds)
    return case, roster, first_week


def assignment(rng, case):
    day, shift = rng.randrange(7 * case.weeks), rng.randrange(len(case.shifts))
    return reckoning.Asked(day, shift, rng.choice([None, rng.randrange(len(case.skills))]))


def words_of(case, asked, first_week):
    words = ["who", "--day", f"{asked.day // 7}:{reckoning.DAYS[asked.day % 7]}", "--shift", case.shifts[asked.shift].name]
    words += [] if asked.skill is None else ["--skill", case.skills[asked.skill]]
    return words + ["--from", str(first_week)] * (first_week > 0)


def expected(case, roster, asked, first_week):
    """The answer by trying all rows, or the refusal before."""
    refused = reckoning.unplannable(case, roster, first_week)
    if refused:
        return 1, "", f"{refused[0].line}\n"
    return 0, reckoning.who_lines(case, roster, asked, first_week, lambda *of_nurse: first_of_all(*of_nurse)[0]), ""


def kind_of(due):
    """Which kind of answer this is."""
    return "refused" if due[0] else "nobody" if not due[1] else "missing" if "missed" in due[1] else "kept"


def compare(programs, _, rng, seen):
    """The text of an instance, and what is wrong."""
    case, roster, first_week = instance(rng)
    text, wrong = text_of(case, roster), []
    for asked in (assignment(rng, case), assignment(rng, case)):
        words, due = words_of(case, asked, first_week), expected(case, roster, asked, first_week)
        given = answer(programs[0], words, text)
        if given != due:
            wrong.append(f"{words}: {given}, and not {due}")
        if not due[0] and reckoning.who_lines(case, roster, asked, first_week) != due[1]:
            wrong.append(f"{words}: the reckoning")
        seen[kind_of(due)] += 1
    return text, wrong


def summary(seen):
    return ", ".join(f"{seen[kind]} {kind}" for kind in [*WANTED, "refused"])
