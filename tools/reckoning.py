"""A reckoning of the rules by code of its own: what a roster costs, a nurse's best row, a run of the improver, and a lower bound
on what any roster costs.

The rules are those of docs/RULES.md, in their words and not in the program's. A choice is None, or a shift and a skill; a row
has one for each day, and a roster has a row for each nurse. Shifts, skills, contracts and nurses are numbers.
"""
import collections
import itertools
import re

DAYS = ["Mon", "Tue", "Wed", "Thu", "Fri", "Sat", "Sun"]
SATURDAY, SUNDAY = 5, 6

Limits = collections.namedtuple("Limits", "least greatest")
Contract = collections.namedtuple("Contract", "assignments working off weekends whole_weekends")
Nurse = collections.namedtuple("Nurse", "name contract skills history")
History = collections.namedtuple("History", "assignments weekends last of_last working off")
# In a case, `shifts` holds the name and the limits of each shift, `skills` the names, and `forbidden` pairs of shifts; `needs` holds
# for each shift and skill a minimum and an optimum of each day; `requests` and `wishes` hold a nurse, a shift or None for any, and a
# day; `absences` and `fixed` hold a nurse and a day. Days count from the first Monday. `base` is a roster that is to be kept, and each
# day on which another one differs from it costs `keep` points; the texts say neither.
FIELDS = "name weeks shifts skills forbidden contracts nurses needs requests wishes absences fixed base keep"
Case = collections.namedtuple("Case", FIELDS, defaults=(None, 0))
Shift = collections.namedtuple("Shift", "name limits")


def days_of(case):
    return range(7 * case.weeks)


def shifts_of(row):
    return tuple(choice and choice[0] for choice in row)


# ---- what a roster costs


def violations(days, before, limits):
    """How many days the runs of a kind are short or too long: `days` says which days are of the kind, and `before` how many days of it
    come right before the first."""
    found = max(0, limits.least - before) if before and not days[0] else 0
    for is_kind, run in itertools.groupby(range(len(days)), lambda day: days[day]):
        if is_kind:
            run = list(run)
            length = len(run) + (before if run[0] == 0 else 0)
            found += min(len(run), max(0, length - limits.greatest))
            found += max(0, limits.least - length) if run[-1] != len(days) - 1 else 0
    return found


def total_cost(contract, total, weekends):
    """What the totals of a nurse cost: assignments and worked weekends."""
    return sum(total_costs(contract, total, weekends).values())


def total_costs(contract, total, weekends):
    lacking = max(0, contract.assignments.least - total) + max(0, total - contract.assignments.greatest)
    return {"S6": 20 * lacking, "S7": 30 * max(0, weekends - contract.weekends)}


def own_costs(case, nurse, shifts):
    """What the days of a nurse cost apart from the other nurses, by rule: runs, weekends and totals."""
    contract, history = case.contracts[nurse.contract], nurse.history
    worked = [shift is not None for shift in shifts]
    is_after_work = history.last is not None
    costs = {"S2": 30 * violations(worked, history.working if is_after_work else 0, contract.working)}
    costs["S3"] = 30 * violations([not works for works in worked], 0 if is_after_work else history.off, contract.off)
    for number, shift in enumerate(case.shifts):
        before = history.of_last if history.last == number else 0
        costs["S2"] += 15 * violations([shift == number for shift in shifts], before, shift.limits)
    weekends = list(zip(worked[SATURDAY::7], worked[SUNDAY::7]))
    costs["S5"] = 30 * contract.whole_weekends * sum(saturday != sunday for saturday, sunday in weekends)
    return costs | total_costs(contract, history.assignments + sum(worked), history.weekends + sum(map(any, weekends)))


def own_cost(case, nurse, shifts):
    """What the days of a nurse cost apart from the other nurses, in all."""
    return sum(own_costs(case, nurse, shifts).values())


def keeping(case, roster, points):
    """The case in which a nurse's day with another shift than in this roster costs that many points; off counts as a shift."""
    return case._replace(base=roster, keep=points) if points else case


def is_changed(case, number, day, choice):
    """Whether a choice has another shift than the roster that is to be kept; off counts as a shift."""
    was = case.base[number][day]
    return (was[0] if was else None) != (choice[0] if choice else None)


def moved_days(before, after):
    """On how many days of all nurses two rosters differ in the shift; another skill alone doesn't count."""
    days = (pair for rows in zip(before, after) for pair in zip(*map(shifts_of, rows)))
    return sum(was != now for was, now in days)


def request_costs(case, number, day, choice):
    """What a choice costs this nurse on this day for an off request, a wish that it doesn't meet, and a roster to keep, by rule."""
    asked = choice and any((number, shift, day) in case.requests for shift in (choice[0], None))
    wished = [shift for shift in (None, *range(len(case.shifts))) if (number, shift, day) in case.wishes]
    met = all(choice and shift in (choice[0], None) for shift in wished)
    kept = {"S9": case.keep if is_changed(case, number, day, choice) else 0} if case.keep else {}
    return {"S4": 10 if asked else 0, "S8": 0 if met else 10} | kept


def request_cost(case, number, day, choice):
    return sum(request_costs(case, number, day, choice).values())


def cover(day_of_all):
    return collections.Counter(choice for choice in day_of_all if choice)


def staffing(case, day, covers):
    return 30 * sum(max(0, need[day].greatest - covers[at]) for at, need in case.needs.items())


def meets_minimums(case, day, covers):
    return all(covers[at] >= need[day].least for at, need in case.needs.items())


def costs(case, roster):
    """What each rule costs, by its name, in the order of the numbers."""
    found = dict.fromkeys((f"S{rule}" for rule in range(1, 10 if case.keep else 9)), 0)
    found["S1"] = sum(staffing(case, day, cover(row[day] for row in roster)) for day in days_of(case))
    for number, (nurse, row) in enumerate(zip(case.nurses, roster)):
        of_row = [own_costs(case, nurse, shifts_of(row)), *(request_costs(case, number, day, row[day]) for day in days_of(case))]
        for costs_by_rule in of_row:
            for rule, cost in costs_by_rule.items():
                found[rule] += cost
    return found


def penalty(case, roster):
    """The penalty of a roster."""
    return sum(costs(case, roster).values())


# ---- the hard rules


# `number` is the nurse's, or None if a minimum isn't met.
Breach = collections.namedtuple("Breach", "rule number day line")


def follows(case, nurse, shifts):
    """Whether no shift is forbidden by the one before it."""
    before = (nurse.history.last, *shifts)
    return not any(pair in case.forbidden for pair in zip(before, shifts))


def missed_minimums(case, roster):
    """The breaches of H2, by day, shift and skill."""
    for day in days_of(case):
        covers = cover(row[day] for row in roster)
        for (shift, skill), need in sorted(case.needs.items()):
            if covers[shift, skill] < need[day].least:
                slot = f"week {day // 7} {DAYS[day % 7]} {case.shifts[shift].name} {case.skills[skill]}"
                yield Breach("H2", None, day, f"H2 {slot}: {covers[shift, skill]} of {need[day].least}")


def breaks_succession(case, number, row, day):
    before = row[day - 1] and row[day - 1][0] if day else case.nurses[number].history.last
    return (before, row[day] and row[day][0]) in case.forbidden


def lacks_skill(case, number, row, day):
    return row[day] is not None and row[day][1] not in case.nurses[number].skills


def works_absent(case, number, row, day):
    return row[day] is not None and (number, day) in case.absences


def breaches_of_rows(case, roster):
    """The days on which rows break H3, H4 or an absence: one rule after the other, each by nurse and day."""
    for rule, is_broken in {"H3": breaks_succession, "H4": lacks_skill, "absent": works_absent}.items():
        for number, row in enumerate(roster):
            for day in days_of(case):
                if is_broken(case, number, row, day):
                    yield Breach(rule, number, day, f"{rule} week {day // 7} {DAYS[day % 7]} {case.nurses[number].name}")


def breaches(case, roster):
    """Where a roster breaks a hard rule other than H1, in the order in which the program looks, each with the line that reports it."""
    return [*missed_minimums(case, roster), *breaches_of_rows(case, roster)]


# ---- what 'plan' begins with


def without_absent_work(case, roster):
    """The roster in which absent nurses are off."""
    return [[None if (number, day) in case.absences else choice for day, choice in enumerate(row)] for number, row in enumerate(roster)]


def lacking(case, roster):
    """By how many nurses the cover is short of the minimums, if absent nurses don't count."""
    covers = [cover(of_day) for of_day in zip(*without_absent_work(case, roster))]
    return sum(max(0, need[day].least - covers[day][at]) for at, need in case.needs.items() for day in days_of(case))


def is_unplannable(case, breach, first_week):
    """Whether no free day can repair a breach: neither day of a succession is free, or no nurse is free on the day of a minimum."""
    stays = lambda number, day: is_frozen(case, number, day, first_week)
    if breach.rule == "H2":
        return all(stays(number, breach.day) for number in range(len(case.nurses)))
    is_last = breach.rule == "H3" and breach.day > 0
    return stays(breach.number, breach.day) and (not is_last or stays(breach.number, breach.day - 1))


def unplannable(case, roster, first_week):
    """What 'plan' can't repair, in the order in which it reports it: missing skills, then what rows break on frozen days, then minimums
    that aren't met there."""
    found = [*breaches_of_rows(case, roster), *missed_minimums(case, roster)]
    frozen = [breach for breach in found if breach.rule != "H4" and is_unplannable(case, breach, first_week)]
    return [breach for breach in found if breach.rule == "H4"] + frozen


# ---- the best row


def choices_of(case, number, day):
    """What a nurse may do on a day by her skills and absences, in the order of choices."""
    if (number, day) in case.absences:
        return [None]
    return [None, *((shift, skill) for shift in range(len(case.shifts)) for skill in sorted(case.nurses[number].skills))]


def is_frozen(case, number, day, first_week):
    """Whether a nurse's day may not change: it comes before the first week that may change, or it is fixed."""
    return day // 7 < first_week or (number, day) in case.fixed


def offers_of(case, roster, number, first_week=0):
    """For each day the choices that the minimums leave to a nurse, in the order of choices, with their prices. On a frozen day that is
    the present choice alone."""
    offers = []
    for day in days_of(case):
        choices = choices_of(case, number, day)
        others = [row[day] for other, row in enumerate(roster) if other != number]
        free = [choice for choice in choices if choice == roster[number][day]] if is_frozen(case, number, day, first_week) else choices
        covers = {choice: cover([*others, choice]) for choice in free}
        offered = [choice for choice in free if meets_minimums(case, day, covers[choice])]
        offers.append([(choice, staffing(case, day, covers[choice]) + request_cost(case, number, day, choice)) for choice in offered])
    return offers


def missing(length, limits):
    """By how many days a run that ends is too short; a run of no day is none."""
    return max(0, limits.least - length) if length else 0


def counted(length, limits):
    """The length of a run, as far as it matters for the days to come."""
    return min(length, max(limits))


def one_day_more(case, contract, state, shift, day):
    """What a day costs for the runs that it ends or makes too long and for its weekend, and the state after it. A state is the last
    shift, the run of working or free days, the run of that shift, the assignments and the worked weekends."""
    last, run, of_last, total, weekends = state
    works, worked = shift is not None, last is not None
    kinds, cost = {True: contract.working, False: contract.off}, 0
    if works != worked:
        cost, run = 30 * missing(run, kinds[worked]), 0
    if worked and shift != last:
        cost += 15 * missing(of_last, case.shifts[last].limits)
    cost += 30 * (run + 1 > kinds[works].greatest)
    run, of_shift = counted(run + 1, kinds[works]), 0
    if works:
        limits = case.shifts[shift].limits
        of_shift = (of_last if shift == last else 0) + 1
        cost += 15 * (of_shift > limits.greatest)
        of_shift = counted(of_shift, limits)
    if day % 7 == SUNDAY:
        cost += 30 * (contract.whole_weekends and works != worked)
        weekends += works or worked
    return cost, (shift, run, of_shift, total + works, weekends)


def cheapest_row(case, number, all_offers, scale=1):
    """What the first of a nurse's cheapest rows among these offers costs, and the row. Of all beginnings of rows that lead to the same
    state the cheapest is kept, of equally cheap ones the first. A scale says in how many parts of a point the prices are, and what the
    row costs."""
    nurse = case.nurses[number]
    contract, past = case.contracts[nurse.contract], nurse.history
    run = past.off if past.last is None else past.working
    of_last = 0 if past.last is None else past.of_last
    kept = {(past.last, run, of_last, past.assignments, past.weekends): (0, ())}
    for day, offers in enumerate(all_offers):
        # of the choices with one shift only the first of the cheapest can be in the best row
        of_shifts = {}
        for index, (choice, price) in enumerate(offers):
            shift = choice and choice[0]
            of_shifts[shift] = min(of_shifts.get(shift, (price, index)), (price, index))
        found = {}
        for state, (cost, row) in kept.items():
            for shift, (price, index) in of_shifts.items():
                if (state[0], shift) not in case.forbidden:
                    more, after = one_day_more(case, contract, state, shift, day)
                    label = (cost + price + scale * more, (*row, index))
                    found[after] = min(found.get(after, label), label)
        kept = found
    ends = [(cost + scale * total_cost(contract, *state[3:]), row) for state, (cost, row) in kept.items()]
    cost, row = min(ends)
    return cost, [offers[index][0] for offers, index in zip(all_offers, row)]


def best_row(case, roster, number, first_week=0):
    """The first of the cheapest rows of a nurse that keep the hard rules and the frozen days."""
    return cheapest_row(case, number, offers_of(case, roster, number, first_week))[1]


# ---- who may take a shift


# An assignment: a day, a shift, and a skill or None for any.
Asked = collections.namedtuple("Asked", "day shift skill")
# What 'who' reports of a nurse: by how many nurses the cover is short, the penalty, her number, and on how many days her row changes.
Taker = collections.namedtuple("Taker", "missed penalty number changed")


def missed_on(case, day, covers):
    return sum(max(0, need[day].least - covers[at]) for at, need in case.needs.items())


def taking_offers(case, here, number, asked, first_week=0):
    """For each day what a nurse may do in a row with the assignment, in the order of choices, with its price: no slot may be short of
    its minimum by more than it is now, and each nurse who is lacking counts a million."""
    offers = []
    for day in days_of(case):
        now = cover(row[day] for row in here)
        free = [here[number][day]] if is_frozen(case, number, day, first_week) else choices_of(case, number, day)
        if day == asked.day:
            free = [choice for choice in free if choice and choice[0] == asked.shift and asked.skill in (None, choice[1])]
        covers = {choice: cover(choice if other == number else row[day] for other, row in enumerate(here)) for choice in free}
        keeps = lambda after: all(after[at] >= min(need[day].least, now[at]) for at, need in case.needs.items())
        of_day = lambda choice: 1_000_000 * missed_on(case, day, covers[choice]) + staffing(case, day, covers[choice])
        offers.append([(choice, of_day(choice) + request_cost(case, number, day, choice)) for choice in free if keeps(covers[choice])])
    return offers


def takers(case, roster, asked, first_week, row_of):
    """What 'who' reports of each nurse who has a row with the assignment, in order. `row_of` finds that row among her offers' rows."""
    here, found = without_absent_work(case, roster), []
    for number in range(len(case.nurses)):
        row = row_of(case, number, taking_offers(case, here, number, asked, first_week))
        if row is not None:
            after = with_row(here, number, row)
            changed = sum(a != b for a, b in zip(row, here[number]))
            found.append(Taker(lacking(case, after), penalty(case, after), number, changed))
    return sorted(found)


def cheapest_taking_row(case, number, offers):
    """The first of the cheapest rows of these offers, or None if there is none."""
    try:
        return cheapest_row(case, number, offers)[1]
    except ValueError:
        return None


def who_lines(case, roster, asked, first_week=0, row_of=cheapest_taking_row):
    """What 'who' writes."""
    is_missed = lacking(case, roster) > 0
    line = lambda taker: f"{case.nurses[taker.number].name} {taker.penalty} changed {taker.changed}" + f" missed {taker.missed}" * is_missed
    return "".join(f"{line(taker)}\n" for taker in takers(case, roster, asked, first_week, row_of))


def with_row(roster, number, row):
    return [*roster[:number], row, *roster[number + 1 :]]


# ---- a lower bound on what any roster costs. Its dual prices, and what searches find by them, are in parts of a point.


def scale_of(case):
    """How many parts a point has: the greatest power of two, up to 128, by which no row can cost 2 to the power of 30 parts."""
    points = 7 * case.weeks * (200_500 + 45_080) + 19_980
    return max(scale for scale in (1, 2, 4, 8, 16, 32, 64, 128) if scale * points < 1 << 30)


def unit_of(case):
    """Each penalty is a multiple of this, unless a roster is kept at points that aren't."""
    return 1 if case.keep % 5 else 5


def slot_bound(need, dual_price, scale):
    """The least that a slot costs with its minimum or more, over all covers: for the nurses that are lacking, and the dual price of
    each nurse who is there."""
    return min(30 * scale * max(0, need.greatest - nurses) + dual_price * nurses for nurses in range(need.least, max(need) + 1))


def row_bound(case, roster, number, dual_prices, first_week=0):
    """The least reduced cost of a nurse's rows, and the first of the rows that have it. The rows are those with her skills and absences
    and without a forbidden succession, which agree with the roster on frozen days."""
    scale = scale_of(case)
    dual_price = lambda day, choice: dual_prices.get((*choice, day), 0) if choice else 0
    free = lambda day: [roster[number][day]] if is_frozen(case, number, day, first_week) else choices_of(case, number, day)
    price = lambda day, choice: scale * request_cost(case, number, day, choice) - dual_price(day, choice)
    return cheapest_row(case, number, [[(choice, price(day, choice)) for choice in free(day)] for day in days_of(case)], scale)


def least_sum(case, roster, dual_prices, first_week=0):
    """What slots and nurses cost at least by these dual prices, in parts, and the rows that it was reckoned by: every roster that keeps
    the hard rules and the frozen days costs at least that much, since the dual prices that slots add are those that rows save."""
    slots = sum(slot_bound(need, dual_prices[slot], scale_of(case)) for slot, need in slots_of(case).items())
    rows = [row_bound(case, roster, number, dual_prices, first_week) for number in range(len(case.nurses))]
    return slots + sum(least for least, _ in rows), [row for _, row in rows]


def in_points(case, together):
    """A sum in parts as a lower bound: rounded up to points, and then to what a penalty can be."""
    points = -(-max(0, together) // scale_of(case))
    return unit_of(case) * -(-points // unit_of(case))


# ---- how dual prices move from round to round. That is the program's own affair, and is reckoned here for its tests. Nothing of it
# depends on how many rounds are asked for. Between two rounds dual prices are in fine units, and their value is what slots cost at least
# by them and each nurse's cheapest pooled row, together.

# A point has that many fine units.
FINE = 16_384
# The greatest dual price, in points.
MOST_DUAL_PRICE = 200_000
# How many steps there are at most between two rounds, and how many rows the pool keeps for each nurse.
STEPS = 50
POOLED = 64
# How many rounds in a row may each raise the greatest sum by less than a quarter of a point.
BARREN = 30


def towards_nought(number, by):
    """A number divided by one above 0, and rounded towards nought."""
    return number // by if number >= 0 else -(-number // by)


def inner(these, those):
    """The inner product of two numbers for each slot."""
    return sum(number * those[slot] for slot, number in these.items())


def within(least, number, greatest):
    return min(max(least, number), greatest)


def slots_of(case):
    """The slots that ask for nurses, each a shift, a skill and a day, and what they ask for. The others pay nothing, and never will."""
    return {(*at, day): need for at, of_days in case.needs.items() for day, need in enumerate(of_days) if max(need)}


Pooled = collections.namedtuple("Pooled", "turn row cost slots")


class ColumnPool:
    """The rows that were found last for a nurse, each with the turn in which it was found, what it costs apart from dual prices, and
    the slots that it takes."""

    def __init__(self, case, number):
        self.case, self.number, self.rows, self.slots = case, number, [], slots_of(case)

    def keep(self, turn, row):
        """Keeps a row: at its own index if it is there already, else after the others, or in place of the one found longest ago."""
        asked = sum(request_cost(self.case, self.number, day, choice) for day, choice in enumerate(row))
        cost = own_cost(self.case, self.case.nurses[self.number], shifts_of(row)) + asked
        taken = [slot for slot in ((*choice, day) for day, choice in enumerate(row) if choice) if slot in self.slots]
        same = [index for index, pooled in enumerate(self.rows) if pooled.row == row]
        if not same and len(self.rows) < POOLED:
            self.rows.append(Pooled(turn, row, cost, taken))
        else:
            self.rows[same[0] if same else self.rows.index(min(self.rows))] = Pooled(turn, row, cost, taken)

    def cheapest(self, prices):
        """The least reduced cost of a pooled row, and the slots of the first that has it."""
        costs = [FINE * pooled.cost - sum(prices[slot] for slot in pooled.slots) for pooled in self.rows]
        return min(costs), self.rows[costs.index(min(costs))].slots


class DualPrices:
    """The dual prices of the slots in a run of rounds, and what moves them: the pools, a margin, and the greatest value of dual prices
    by which a round has just searched. They move towards a target, which is that value and the margin. It never is above the most that
    is given here, if any is."""

    def __init__(self, case, most=None):
        self.case, self.most, self.made, self.turn = case, most, 0, 0
        self.slots = slots_of(case)
        self.pools = [ColumnPool(case, number) for number in range(len(case.nurses))]
        self.margin, self.top = 20 * FINE * len(case.nurses), None
        self.prices = self.even(30)

    def even(self, points):
        return dict.fromkeys(self.slots, FINE * points)

    def in_parts(self):
        """What a round searches by: the nearest parts of a point."""
        return {slot: (price * scale_of(self.case) + FINE // 2) // FINE for slot, price in self.prices.items()}

    def value(self, prices):
        """The value of dual prices, and the cover by the cheapest pooled rows."""
        cheapest = [pool.cheapest(prices) for pool in self.pools]
        cover = collections.Counter(itertools.chain.from_iterable(taken for _, taken in cheapest))
        return sum(slot_bound(self.slots[slot], price, FINE) for slot, price in prices.items()) + sum(cost for cost, _ in cheapest), cover

    def lacking(self, cover):
        """How many nurses each slot wants at its dual price beyond those whom it has."""
        wanted = lambda slot: max(self.slots[slot]) if self.prices[slot] <= 30 * FINE else self.slots[slot].least
        return {slot: wanted(slot) - cover[slot] for slot in self.slots}

    def target(self, value):
        """The target of the steps after a round, from the value of the dual prices by which it searched. The margin grows if that rose
        by an eighth of it, and shrinks otherwise."""
        if self.top is None or value - self.top >= self.margin // 8:
            self.margin = min(self.margin * 5 // 4, 1 << 40)
        else:
            self.margin = max(self.margin * 59 // 64, FINE // 2)
        self.top = value if self.top is None else max(self.top, value)
        return self.top + self.margin if self.most is None else min(self.top + self.margin, self.most)

    def step(self, direction, short, left):
        """A step in this direction, of Polyak's length: as far as the value would have to go if it rose evenly, and less from step to
        step."""
        length, short = inner(direction, direction), min(short, 1 << 40) * left // STEPS
        for slot, towards in direction.items():
            moved = self.prices[slot] + towards_nought(short * 16 * towards, length)
            self.prices[slot] = within(0, moved, MOST_DUAL_PRICE * FINE)

    def move(self):
        """Makes steps, each in the direction of what slots lack, and of the step before as far as the two point apart."""
        direction, target = dict.fromkeys(self.slots, 0), None
        for made in range(STEPS):
            value, cover = self.value(self.prices)
            target = self.target(value) if target is None else target
            towards = {slot: 16 * lacking for slot, lacking in self.lacking(cover).items()}
            apart = max(0, -inner(towards, direction))
            share = min(256, 256 * apart // max(1, inner(direction, direction)))
            direction = {slot: within(-1 << 16, towards[slot] + towards_nought(share * before, 256), 1 << 16)
                         for slot, before in direction.items()}
            if value >= target or not any(direction.values()):
                break
            self.step(direction, target - value, STEPS - made)

    def go_on(self, rows):
        """Goes on to the next round from one that found these rows: after the first to 15 points, and then, after the second from the
        better of 30 and 15 points, by steps."""
        for pool, row in zip(self.pools, rows):
            self.turn += 1
            pool.keep(self.turn, row)
        self.made += 1
        if self.made == 1:
            self.prices = self.even(15)
            return
        if self.made == 2 and self.value(self.even(30))[0] > self.value(self.even(15))[0]:
            self.prices = self.even(30)
        self.move()


def least_sums(case, roster, first_week=0, most=None):
    """The sums of a run's rounds, one after the other, in parts."""
    dual_prices = DualPrices(case, most)
    while True:
        together, rows = least_sum(case, roster, dual_prices.in_parts(), first_week)
        yield together
        dual_prices.go_on(rows)


def until_barren(case, sums):
    """These sums, until 30 in a row have each raised the greatest one before by less than a quarter of a point."""
    greatest, barren = None, 0
    for together in sums:
        yield together
        is_barren = greatest is not None and 4 * (together - greatest) < scale_of(case)
        greatest = max(greatest, together) if is_barren else together
        barren = barren + 1 if is_barren else 0
        if barren == BARREN:
            break


# ---- what the commands answer: the output and the log


def solutions(case, roster):
    """The texts of a roster, as they are written."""
    texts = []
    for week in range(case.weeks):
        lines = [
            f"{nurse.name} {DAYS[day % 7]} {case.shifts[row[day][0]].name} {case.skills[row[day][1]]}"
            for nurse, row in zip(case.nurses, roster)
            for day in range(7 * week, 7 * week + 7)
            if row[day]
        ]
        texts.append("".join(f"{line}\n" for line in ["SOLUTION", f"{week} {case.name}", "", f"ASSIGNMENTS = {len(lines)}", *lines]))
    return "\n".join(texts)


def cost_lines(case, roster):
    """What 'cost' answers."""
    found = costs(case, roster)
    return "".join(f"{rule} {cost}\n" for rule, cost in [*found.items(), ("total", sum(found.values()))])


def json_string(name):
    """A name as a string of JSON. What isn't UTF-8 in it becomes U+FFFD; texts that were read keep such bytes as surrogates."""
    text = name.encode(errors="surrogateescape").decode(errors="replace")
    escaped = lambda match: f"\\u{ord(match[0]):04x}" if match[0] < " " else f"\\{match[0]}"
    return '"' + re.sub(r'["\\\x00-\x1f]', escaped, text) + '"'


def json_line(kind, **fields):
    """An object as a line."""
    values = {str: json_string, bool: lambda truth: str(truth).lower(), int: str}
    members = [f"{json_string(key)}:{values[type(value)](value)}" for key, value in {"kind": kind, **fields}.items()]
    return "{" + ",".join(members) + "}\n"


def json_breaches(case, roster):
    """A line for each day on which a row breaks H3, H4 or an absence."""
    for breach in breaches_of_rows(case, roster):
        fields = {"rule": breach.rule, "day": breach.day, "week": breach.day // 7, "weekday": DAYS[breach.day % 7]}
        yield json_line("breach", **fields, nurse=breach.number, nurse_name=case.nurses[breach.number].name)


def json_short_slots(case, roster):
    """A line for each slot that is short of its minimum."""
    for day in days_of(case):
        covers = cover(row[day] for row in roster)
        for (shift, skill), need in sorted(case.needs.items()):
            have = covers[shift, skill]
            if have < need[day].least:
                fields = {"rule": "H2", "day": day, "week": day // 7, "weekday": DAYS[day % 7], "shift": shift}
                fields |= {"shift_name": case.shifts[shift].name, "skill": skill, "skill_name": case.skills[skill]}
                yield json_line("breach", **fields, have=have, need=need[day].least)


def json_cost_lines(case, roster):
    """What 'cost --json' answers."""
    found, lines = costs(case, roster), [*json_short_slots(case, roster), *json_breaches(case, roster)]
    return "".join([*lines, json_line("costs", allowed=not lines, **found, total=sum(found.values()))])


def json_who_lines(case, roster, asked, first_week=0, row_of=cheapest_taking_row):
    """What 'who --json' writes."""
    name = lambda taker: {"nurse": taker.number, "nurse_name": case.nurses[taker.number].name}
    line = lambda taker: json_line("taker", **name(taker), penalty=taker.penalty, changed=taker.changed, missed=taker.missed)
    return "".join(map(line, takers(case, roster, asked, first_week, row_of)))


def start_of(case, number):
    """How a log begins."""
    return f"keep {case.keep}\nstart {number}" if case.keep else f"start {number}"


def best(case, roster, number, row):
    """What 'best' answers if this is the best row."""
    after = with_row(roster, number, row)
    log = f"{start_of(case, penalty(case, roster))}\nbest {case.nurses[number].name} {penalty(case, after)}\n"
    return solutions(case, after), log


def improve(case, roster, rounds, first_week=0):
    """What 'improve' answers with at most that many rounds, which leave the frozen days as they are."""
    total, log = penalty(case, roster), []
    log.append(start_of(case, total))
    changed = True
    for number_of_round in range(1, rounds + 1):
        changed = False
        for number, nurse in enumerate(case.nurses):
            after = with_row(roster, number, best_row(case, roster, number, first_week))
            if penalty(case, after) < total:
                roster, total, changed = after, penalty(case, after), True
                log.append(f"{number_of_round} {nurse.name} {total}")
        log.append(f"round {number_of_round} {total}")
        if not changed:
            break
    log.append(f"{'stopped' if changed else 'settled'} {total}")
    return solutions(case, roster), "".join(f"{line}\n" for line in log)


def raised(case, roster, rounds, first_week=0):
    """The rounds in which 'bound' raises its lower bound, each with the bound that it reaches, and how many rounds it makes: that many,
    or fewer if the bound comes to be what the roster costs, or if rounds are barren."""
    total, lines, made = penalty(case, roster), [(0, 0)], 0
    sums = until_barren(case, least_sums(case, roster, first_week, FINE * (total - unit_of(case) + 1)))
    while made < rounds and lines[-1][1] < total and (together := next(sums, None)) is not None:
        made += 1
        if in_points(case, together) > lines[-1][1]:
            lines.append((made, in_points(case, together)))
    return lines[1:], made


def bound(case, roster, rounds, first_week=0):
    """What 'bound' answers."""
    total, lines = penalty(case, roster), [start_of(case, penalty(case, roster))]
    found = raised(case, roster, rounds, first_week)[0]
    lines += [f"round {number} {reached}" for number, reached in found]
    return f"roster {total}\nbound {found[-1][1] if found else 0}\n", "".join(f"{line}\n" for line in lines)


# ---- texts that are accepted


class Words:
    """The words of the texts, in their order."""

    def __init__(self, text):
        self.left = collections.deque(re.findall(r"[(),=]|[^ \t\r\n(),=]+", text))

    def skip(self, *due):
        """Goes on after these words."""
        for expected in due:
            found = self.left.popleft()
            if found != expected:
                raise ValueError(f"{expected} is missing before {found}")

    def next(self, *before):
        """The next word, after these."""
        self.skip(*before)
        return self.left.popleft()

    def begins(self, keyword):
        """Whether a section with a count begins here; a name may be the same word."""
        return self.left[0] == keyword and self.left[1] == "="

    def number(self, *before):
        return int(self.next(*before))

    def pair(self):
        found = Limits(self.number("("), self.number(","))
        self.next()
        return found

    def names(self, count):
        return [self.next() for _ in range(count)]


def scenario_of(words):
    """The case without its history and its weeks, and the names by which both speak."""
    name, weeks = words.next("SCENARIO", "="), words.number("WEEKS", "=")
    skills = words.names(words.number("SKILLS", "="))
    shifts = [Shift(words.next(), words.pair()) for _ in range(words.number("SHIFT_TYPES", "="))]
    shift_of = {shift.name: number for number, shift in enumerate(shifts)}
    words.skip("FORBIDDEN_SHIFT_TYPES_SUCCESSIONS")
    lines = []
    # (not each shift has a line)
    while not words.begins("CONTRACTS"):
        lines.append((words.next(), words.names(words.number())))
    forbidden = {(shift_of[first], shift_of[second]) for first, others in lines for second in others}
    of_contract, contracts = {}, []
    for number in range(words.number("CONTRACTS", "=")):
        of_contract[words.next()] = number
        contracts.append(Contract(words.pair(), words.pair(), words.pair(), words.number(), words.number()))
    nurses = []
    for _ in range(words.number("NURSES", "=")):
        nurse, contract = words.names(2)
        nurses.append(Nurse(nurse, of_contract[contract], [skills.index(skill) for skill in words.names(words.number())], None))
    return Case(name, weeks, shifts, skills, forbidden, contracts, nurses, {}, set(), set(), set(), set())


def read(text):
    """The case and the roster of texts."""
    words = Words(text)
    case = scenario_of(words)
    shift_of = {shift.name: number for number, shift in enumerate(case.shifts)}
    nurse_of = {nurse.name: number for number, nurse in enumerate(case.nurses)}
    nurses, needs, requests, wishes, absences, fixed = list(case.nurses), {}, set(), set(), set(), set()
    words.next("HISTORY", "0", case.name)
    for _ in nurses:
        number = nurse_of[words.next()]
        totals, last = (words.number(), words.number()), shift_of.get(words.next())
        nurses[number] = nurses[number]._replace(history=History(*totals, last, *(words.number() for _ in range(3))))
    none = Limits(0, 0)
    for week in range(case.weeks):
        words.skip("WEEK_DATA", case.name, "REQUIREMENTS")
        while not words.begins("SHIFT_OFF_REQUESTS"):
            need = needs.setdefault((shift_of[words.next()], case.skills.index(words.next())), [none] * (7 * case.weeks))
            need[7 * week : 7 * week + 7] = [words.pair() for _ in DAYS]
        for keyword, asked in (("SHIFT_OFF_REQUESTS", requests), ("SHIFT_ON_REQUESTS", wishes)):
            for _ in range(words.number(keyword, "=") if words.begins(keyword) else 0):
                nurse, shift, day = words.names(3)
                asked.add((nurse_of[nurse], shift_of.get(shift), 7 * week + DAYS.index(day[:3])))
        for keyword, days in (("ABSENCES", absences), ("FIXED", fixed)):
            for _ in range(words.number(keyword, "=") if words.begins(keyword) else 0):
                nurse, day = words.names(2)
                days.add((nurse_of[nurse], 7 * week + DAYS.index(day[:3])))
    roster = [[None] * (7 * case.weeks) for _ in nurses]
    for week in range(case.weeks):
        words.next("SOLUTION")  # the week's number, which nothing depends on
        for _ in range(words.number(case.name, "ASSIGNMENTS", "=")):
            nurse, day, shift, skill = words.names(4)
            roster[nurse_of[nurse]][7 * week + DAYS.index(day[:3])] = shift_of[shift], case.skills.index(skill)
    return case._replace(nurses=nurses, needs=needs, requests=requests, wishes=wishes, absences=absences, fixed=fixed), roster
