"""Small random instances, on which all rows or all rosters can be tried, and their texts."""
import itertools

from reckoning import DAYS, Case, Contract, History, Limits, Nurse, Shift, cover, solutions

# The most choices of a nurse on a day, so that there are at most 5 to the power of 7 rows.
MOST_CHOICES = 5


def limits(rng, most):
    """Limits, mostly with the lesser one first; a least above its greatest is allowed."""
    pair = [rng.randint(0, most), rng.randint(0, most)]
    return Limits(*(pair if rng.random() < 0.15 else sorted(pair)))


def random_nurse(rng, number, shifts, skills, contracts):
    most = min(skills, (MOST_CHOICES - 1) // shifts)
    of_nurse = rng.sample(range(skills), rng.choice([most] * 4 + [rng.randint(0, most)]))
    last = rng.choice([None, rng.randrange(shifts)])
    small = lambda: rng.choice([0, rng.randint(0, 3), rng.randint(0, 9)])
    history = History(small(), rng.randint(0, 3), last, small(), small(), small())
    return Nurse(f"N{number}", rng.randrange(contracts), of_nurse, history)


def random_row(rng, nurse, weeks, shifts, forbidden):
    """A row that keeps the successions and the nurse's skills."""
    row, before = [], nurse.history.last
    likely_off = rng.random()
    for _ in range(7 * weeks):
        choices = [(shift, skill) for shift in range(shifts) for skill in nurse.skills if (before, shift) not in forbidden]
        row.append(None if not choices or rng.random() < likely_off else rng.choice(choices))
        before = row[-1] and row[-1][0]
    return row


def random_needs(rng, case_shifts, skills, roster):
    """Minimums that the roster meets, some of them exactly, and optimums around them."""
    needs = {}
    for at in itertools.product(range(case_shifts), range(skills)):
        if rng.random() < 0.8:
            have = [cover(of_day)[at] for of_day in zip(*roster)]
            least = [rng.choice([0, 0, 0, rng.randint(0, count)]) for count in have]
            needs[at] = [Limits(count, rng.choice([count, rng.randint(0, 3)])) for count in least]
    return needs


def random_absences(rng, roster):
    """Days on which nurses are absent, some of those on which they are off."""
    off = [(number, day) for number, row in enumerate(roster) for day, choice in enumerate(row) if choice is None]
    return {*rng.sample(off, min(len(off), rng.choice([0, rng.randint(0, 6)])))}


def random_fixed(rng, roster):
    """Fixed days: none, a few, all days of a nurse, or all days of all nurses up to one."""
    days, nurses = range(len(roster[0])), range(len(roster))
    kind = rng.choice(["none", "few", "few", "nurse", "past"])
    if kind == "few":
        return {(rng.choice(nurses), rng.choice(days)) for _ in range(rng.randint(1, 8))}
    number, last = rng.choice(nurses), rng.choice(days)
    return {(nurse, day) for nurse in nurses for day in days if (kind == "nurse" and nurse == number) or (kind == "past" and day <= last)}


def random_instance(rng, with_own=True):
    """A case, and a roster that keeps its hard rules; with absences and fixed days if sections of our own are wanted."""
    weeks, shifts, skills = rng.choice([1, 1, 2]), rng.randint(1, 3), rng.randint(1, 2)
    forbidden = {pair for pair in itertools.product(range(shifts), repeat=2) if rng.random() < 0.2}
    contracts = [
        Contract(limits(rng, 7 * weeks), limits(rng, 6), limits(rng, 6), rng.randint(0, 2), rng.randint(0, 1))
        for _ in range(rng.randint(1, 2))
    ]
    nurses = [random_nurse(rng, number, shifts, skills, len(contracts)) for number in range(rng.randint(1, 3))]
    roster = [random_row(rng, nurse, weeks, shifts, forbidden) for nurse in nurses]
    needs = random_needs(rng, shifts, skills, roster)
    requests, wishes = (
        {
            (rng.randrange(len(nurses)), rng.choice([None, rng.randrange(shifts)]), rng.randrange(7 * weeks))
            for _ in range(rng.choice([0, rng.randint(0, 6)]))
        }
        for _ in range(2)
    )
    of_shifts = [limits(rng, 5) for _ in range(shifts)]
    absences = random_absences(rng, roster) if with_own else set()
    fixed = random_fixed(rng, roster) if with_own else set()
    shifts = [Shift(f"S{number}", limits) for number, limits in enumerate(of_shifts)]
    skills = [f"K{number}" for number in range(skills)]
    return Case("small", weeks, shifts, skills, forbidden, contracts, nurses, needs, requests, wishes, absences, fixed), roster


def first_week_of(rng, case):
    """A week from which on so few days are free that all rows can be tried; now and then one above all weeks."""
    return rng.choice([case.weeks - 1] * 6 + [case.weeks, rng.randint(case.weeks, 16)])


# ---- texts


def pairs(*them):
    return " ".join(f"({pair.least},{pair.greatest})" for pair in them)


def week_lines(case, week, with_own):
    """The week data. Of the weeks without wishes every other one has no section of them; and so for absences and fixed days."""
    lines = ["WEEK_DATA", "small", "REQUIREMENTS"]
    lines += [f"S{at[0]} K{at[1]} {pairs(*need[7 * week : 7 * week + 7])}" for at, need in case.needs.items()]
    for keyword, asked in (("SHIFT_OFF_REQUESTS", case.requests), ("SHIFT_ON_REQUESTS", case.wishes)):
        of_week = sorted((request for request in asked if request[2] // 7 == week), key=str)
        if keyword == "SHIFT_ON_REQUESTS" and not of_week and week % 2 == len(case.requests) % 2:
            continue
        lines += [f"{keyword} = {len(of_week)}"]
        lines += [f"N{number} {'Any' if shift is None else f'S{shift}'} {DAYS[day % 7]}" for number, shift, day in of_week]
    for keyword, days, parity in (("ABSENCES", case.absences, len(case.requests) // 2), ("FIXED", case.fixed, len(case.wishes))):
        of_week = sorted(nurse_day for nurse_day in days if nurse_day[1] // 7 == week)
        if with_own and (of_week or week % 2 != parity % 2):
            lines += [f"{keyword} = {len(of_week)}", *(f"N{number} {DAYS[day % 7]}" for number, day in of_week)]
    return lines


def text_of(case, roster, with_own=True):
    shift = lambda number, none: none if number is None else f"S{number}"
    lines = ["SCENARIO = small", f"WEEKS = {case.weeks}", f"SKILLS = {len(case.skills)}", *case.skills]
    lines += [f"SHIFT_TYPES = {len(case.shifts)}", *(f"{shift_type.name} {pairs(shift_type.limits)}" for shift_type in case.shifts)]
    lines += ["FORBIDDEN_SHIFT_TYPES_SUCCESSIONS"]
    for number in range(len(case.shifts)):
        after = [f"S{second}" for first, second in sorted(case.forbidden) if first == number]
        lines += [" ".join([f"S{number}", str(len(after)), *after])]
    lines += [f"CONTRACTS = {len(case.contracts)}"]
    for number, contract in enumerate(case.contracts):
        lines += [f"C{number} {pairs(contract.assignments, contract.working, contract.off)} {contract.weekends} {contract.whole_weekends}"]
    lines += [f"NURSES = {len(case.nurses)}"]
    for nurse in case.nurses:
        lines += [" ".join([nurse.name, f"C{nurse.contract}", str(len(nurse.skills)), *(f"K{skill}" for skill in nurse.skills)])]
    lines += ["HISTORY", "0 small", "NURSE_HISTORY"]
    for nurse in case.nurses:
        past = nurse.history
        lines += [f"{nurse.name} {past.assignments} {past.weekends} {shift(past.last, 'None')} {past.of_last} {past.working} {past.off}"]
    lines += [line for week in range(case.weeks) for line in week_lines(case, week, with_own)]
    return "".join(f"{line}\n" for line in lines) + solutions(case, roster)
