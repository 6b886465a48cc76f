"""The worked example of docs/ALGORITHMS.md: Ann's first search on examples/mini.txt, by the rules alone.

The rules are those of tools/reckoning.py. The states, the boxes around them, the completion bounds and the partial rows are computed as
the page describes them, and nothing of it is asked of the program. `expected` gives the lines and the sentences that the page has to
have; tools/check-docs compares them. That the transitions are right is shown by all rows: what each costs by transitions and prices
differs from the roster's penalty with it by what the other rows cost.
"""
import collections
import itertools
import os

import reckoning

TOP = os.path.dirname(os.path.dirname(os.path.realpath(__file__)))
FILE = "examples/mini.txt"
NURSE = 0
DAYS = range(7)
ASSIGNMENT, WEEKEND = 20, 30
# What the page says of rates: how they move at first, how often in a first search over one week, and how close a row has to be.
FIRST_CHANGE, TRIALS, CLOSE, FIRST_GAP = 8, 3, 5, 4

# The five numbers of a state, each up to its cap.
State = collections.namedtuple("State", "last run of_last assignments weekends")
# A partial row: its state, its cost, None if another one dominates it, and its choices.
Partial = collections.namedtuple("Partial", "state cost choices")


class Search:
    """The search for a nurse's best row while all others keep theirs."""

    def __init__(self) -> None:
        with open(f"{TOP}/{FILE}", encoding="utf-8") as file:
            self.case, self.roster = reckoning.read(file.read())
        nurse = self.case.nurses[NURSE]
        self.contract, past = self.case.contracts[nurse.contract], nurse.history
        self.offers = reckoning.offers_of(self.case, self.roster, NURSE)
        self.start = State(past.last, past.off, 0, past.assignments, past.weekends)
        self.shifts = [None, *range(len(self.case.shifts))]
        self.caps = {"run": max(*self.contract.working, *self.contract.off),
                     "of_last": max(limit for shift in self.case.shifts for limit in shift.limits),
                     "assignments": max(self.contract.assignments), "weekends": self.contract.weekends}

    def letter(self, choice) -> str:
        return self.case.shifts[choice[0]].name[0] if choice else "-"

    def begins_weekend(self, state: State, shift, day: int) -> bool:
        """Whether a worked day is the first one of its weekend."""
        return shift is not None and (day == reckoning.SATURDAY or day == reckoning.SUNDAY and state.last is None)

    def without_totals(self, state: State, shift, day: int):
        """The state after a day, and what the day costs without assignments and weekends; None if the shift may not follow."""
        if (state.last, shift) in self.case.forbidden:
            return None
        cost, (last, run, of_last, *_) = reckoning.one_day_more(self.case, self.contract, state, shift, day)
        assignments = min(state.assignments + (shift is not None), self.caps["assignments"])
        weekends = min(state.weekends + self.begins_weekend(state, shift, day), self.caps["weekends"])
        return State(last, run, of_last, assignments, weekends), cost

    def transition(self, state: State, shift, day: int):
        """The state after a day, and what the day costs; None if the shift may not follow."""
        made = self.without_totals(state, shift, day)
        if made is None:
            return None
        more = ASSIGNMENT * (shift is not None and state.assignments >= self.contract.assignments.greatest)
        more += WEEKEND * (self.begins_weekend(state, shift, day) and state.weekends >= self.contract.weekends)
        return made[0], made[1] + more

    def end(self, state: State) -> int:
        return ASSIGNMENT * max(0, self.contract.assignments.least - state.assignments)

    def onward(self, state: State, day: int, transition=None):
        """For each offer of a day that may follow: the choice, its price, the state after it, and what the transition costs."""
        for choice, price in self.offers[day]:
            made = (transition or self.transition)(state, choice and choice[0], day)
            if made is not None:
                yield choice, price, *made


# ---- part 2: states, boxes and labels


def reachable(search: Search) -> list[set[State]]:
    """The states to which rows lead, before each day and in the end."""
    found = [{search.start}]
    for day in DAYS:
        found.append({after for state in found[-1] for _, _, after, _ in search.onward(state, day)})
    return found


def raised(interval, more: int, most: int):
    return min(interval[0] + more, most), min(interval[1] + more, most)


def box_after(search: Search, box, last, shift, day: int):
    """The box of the states to which a shift leads from those of a box."""
    state = State(last, *(0 for _ in box))
    works, goes_on = shift is not None, (shift is None) == (last is None)
    limits = search.contract.working if works else search.contract.off
    of_shift = max(search.case.shifts[shift].limits) if works else 0
    return [raised(box[0] if goes_on else (0, 0), 1, max(limits)), raised(box[1] if shift == last else (0, 0), works, of_shift),
            raised(box[2], works, search.caps["assignments"]),
            raised(box[3], search.begins_weekend(state, shift, day), search.caps["weekends"])]


def boxes(search: Search):
    """For each day and the end the boxes, by the last shift."""
    found = [{search.start.last: [(number, number) for number in search.start[1:]]}]
    for day in DAYS:
        after: dict = {}
        for (choice, _), (last, box) in itertools.product(search.offers[day], found[-1].items()):
            shift = choice and choice[0]
            if (last, shift) not in search.case.forbidden:
                new = box_after(search, box, last, shift, day)
                old = after.get(shift, new)
                after[shift] = [(min(one[0], other[0]), max(one[1], other[1])) for one, other in zip(old, new)]
        found.append(after)
    return found


def states_in(search: Search, of_day, is_tested: bool) -> int:
    """How many states are in the boxes of a day: all, or those whose run of a shift is no longer than their run of working days, unless
    that is at its cap."""
    found = 0
    for last, box in of_day.items():
        for numbers in itertools.product(*(range(least, greatest + 1) for least, greatest in box)):
            can_be = last is None or numbers[1] <= numbers[0] or numbers[0] == max(search.contract.working)
            found += can_be or not is_tested
    return found


def labels(search: Search) -> list[dict]:
    """For each day and reachable state the label, and the offer by which it goes on: the choice, its price, the state after it, and the
    transition's cost."""
    states = reachable(search)
    found: list[dict] = [{} for _ in states]
    found[-1] = {state: (search.end(state), None) for state in states[-1]}
    for day in reversed(DAYS):
        for state in states[day]:
            ways = [(price + cost + found[day + 1][after][0], (choice, price, after, cost))
                    for choice, price, after, cost in search.onward(state, day)]
            # the first of the cheapest
            found[day][state] = min(ways, key=lambda way: way[0])
    return found


def costs_of_rows(search: Search) -> dict:
    """What each row costs by prices and transitions, by its choices, in the order of rows. Each differs from the roster's penalty by the
    same number."""
    found, rest = {}, set()
    for row in itertools.product(*([choice for choice, _ in offers] for offers in search.offers)):
        state, cost = search.start, 0
        for day, choice in enumerate(row):
            ways = [way for way in search.onward(state, day) if way[0] == choice]
            if not ways:
                break
            state, cost = ways[0][2], cost + ways[0][1] + ways[0][3]
        else:
            found[row] = cost + search.end(state)
            rest.add(reckoning.penalty(search.case, reckoning.with_row(search.roster, NURSE, list(row))) - found[row])
    if len(rest) != 1:
        raise ValueError(f"the rows differ from the penalty by {sorted(rest)}, and not by one number")
    return {"costs": found, "rest": rest.pop()}


# ---- part 3: completion bounds and partial rows


def completion_bounds(search: Search, rates) -> list[dict]:
    """For each day and the end the completion bounds at these rates, by last shift and both runs."""
    runs, of_shifts = range(search.caps["run"] + 1), range(search.caps["of_last"] + 1)
    keys = list(itertools.product(search.shifts, runs, of_shifts))
    found: list[dict] = [{} for _ in (*DAYS, None)]
    found[-1] = dict.fromkeys(keys, 0)
    for day in reversed(DAYS):
        for key in keys:
            state = State(*key, 0, 0)
            ways = search.onward(state, day, search.without_totals)
            charged = ((price + cost, after, choice and choice[0]) for choice, price, after, cost in ways)
            found[day][key] = min(cost + rates[0] * (shift is not None) + rates[1] * search.begins_weekend(state, shift, day)
                                  + found[day + 1][after[:3]] for cost, after, shift in charged)
    return found


def at_least(search: Search, bounds: list[dict], rates, day: int, state: State) -> int:
    """What the rest of a row costs at least from a state on."""
    left = len(DAYS) - day
    days = min(left, search.caps["assignments"] - state.assignments)
    weekends = min(-(-left // 7), search.caps["weekends"] - state.weekends)
    missing = max(0, search.contract.assignments.least - state.assignments - days)
    return max(0, bounds[day][state[:3]] + ASSIGNMENT * missing - rates[0] * days - rates[1] * weekends)


def follow(search: Search, bound_after):
    """The row that on each day makes the transition which is cheapest together with the bound after it: the row, its cost, and its
    assignments and worked weekends."""
    state, cost, row, weekends = search.start, 0, [], search.start.weekends
    for day in DAYS:
        ways = [(price + more + bound_after(day + 1, after), choice, after, price + more)
                for choice, price, after, more in search.onward(state, day)]
        _, choice, after, more = min(ways, key=lambda way: way[0])
        weekends += search.begins_weekend(state, choice and choice[0], day)
        state, cost, row = after, cost + more, [*row, choice]
    return row, cost + search.end(state), search.start.assignments + sum(map(bool, row)), weekends


def next_rate(rate: int, by: int, most: int, count: int, greatest: int) -> int:
    """The rate to try next for something of which a row has this number."""
    return min(rate + by, most) if count > greatest else max(rate - by, 0) if count < greatest else rate


def trials(search: Search):
    """The first row, and the trials of rates: for each the rates, the start's bound, the row that follows the bounds, and its cost."""
    most = search.contract.assignments.greatest, search.contract.weekends
    change = lambda rates, by, row: (next_rate(rates[0], by, ASSIGNMENT, row[2], most[0]),
                                     next_rate(rates[1], by, WEEKEND, row[3], most[1]))
    first = follow(search, lambda day, state: 0)
    rates, found, low = change((0, 0), ASSIGNMENT + WEEKEND, first), [], -1
    while len(found) < TRIALS:
        bounds = completion_bounds(search, rates)
        start = at_least(search, bounds, rates, 0, search.start)
        row = follow(search, lambda day, state: at_least(search, bounds, rates, day, state))
        if start <= low:
            raise ValueError("a trial isn't better than the one before, of which the example doesn't speak")
        low = start
        found.append((rates, start, row[0], row[1]))
        if min(one[3] for one in found) - start <= CLOSE:
            break
        rates = change(rates, FIRST_CHANGE, row)
    return first, found


def extended(search: Search, bounds, rates, limit: int, day: int, listed: list[Partial]):
    """The partial rows of the next day, and how many extensions were made, and how many of these were pruned."""
    found: list[Partial] = []
    place: dict[State, int] = {}
    made = pruned = 0
    for partial in listed:
        for choice, price, after, more in search.onward(partial.state, day) if partial.cost is not None else ():
            made += 1
            cost = partial.cost + price + more
            if cost + at_least(search, bounds, rates, day + 1, after) > limit:
                pruned += 1
            elif after in place:
                raise ValueError("a partial row is dominated, and the page says that none is")
            else:
                place[after] = len(found)
                found.append(Partial(after, cost, (*partial.choices, choice)))
    return found, made, pruned


# ---- what the page has to have


def state_text(search: Search, state: State) -> str:
    last = "-" if state.last is None else search.case.shifts[state.last].name[0]
    return f"({last}, {', '.join(map(str, state[1:]))})"


def line(*cells) -> str:
    return f"| {' | '.join(map(str, cells))} |"


def expected_states(search: Search) -> collections.abc.Iterator[str]:
    """What is said of the ranges, and of the reachable states."""
    caps = search.caps
    ranges = [len(search.shifts), *(cap + 1 for cap in (caps["run"], caps["of_last"], caps["assignments"], caps["weekends"]))]
    states = 1
    for size in ranges:
        states *= size
    most = sum(len(offers) for offers in search.offers) * states
    yield f"The ranges are {', '.join(map(str, ranges[:-1]))} and {ranges[-1]}"
    yield f"so K = {states:,}. That gives {2 * states:,} labels, {len(DAYS) * states:,} pointers and at most {most:,} extensions."
    yield f"Before Monday the state is {state_text(search, search.start)}"
    yield line("price", *(price for _, price in search.offers[0]))
    yield line("reachable by a row", *map(len, reachable(search)))
    tested, all_in = ([states_in(search, of_day, is_tested) for of_day in boxes(search)] for is_tested in (True, False))
    yield line("in the boxes", *tested)
    count = lambda sizes: sum(size * len(search.offers[day]) for day, size in zip(DAYS, sizes))
    yield f"the tables would take {count(tested):,} extensions, and {count(all_in):,} are set aside for them"
    bounds = len(search.shifts) * (caps["run"] + 1) * (caps["of_last"] + 1)
    yield f"There are {bounds} for each day and for the end, {bounds * (len(DAYS) + 1):,} in all. That is no more than {count(all_in):,}"
    yield f"To set them once takes {bounds * sum(map(len, search.offers)):,} extensions."


def expected_labels(search: Search) -> collections.abc.Iterator[str]:
    """What is said of the labels and of the best row."""
    found, state = labels(search), search.start
    rows = costs_of_rows(search)
    least = min(rows["costs"].values())
    best = next(row for row, cost in rows["costs"].items() if cost == least)
    yield f"The label before Monday is {found[0][state][0]}: no row of Ann costs less than {least} points"
    yield f"Bob's row costs {rows['rest']}, which together is the {rows['rest'] + least} of the log."
    for day in DAYS:
        label, (choice, price, after, cost) = found[day][state]
        if choice != best[day]:
            raise ValueError("the pointers lead along another row than the first of the cheapest")
        cells = [reckoning.DAYS[day], state_text(search, state), label, search.letter(choice), price, cost, state_text(search, after)]
        yield line(*cells)
        state = after
    off_first = min(cost for row, cost in rows["costs"].items() if row[0] is None)
    count = sum(cost == least for cost in rows["costs"].values())
    yield f"the best row with it costs {off_first}."
    yield f"{['No', 'One', 'Two', 'Three', 'Four'][count]} rows cost {least}; the one that is off on Tuesday is the first of them"


def expected_partial_rows(search: Search) -> collections.abc.Iterator[str]:
    """What is said of rates and of partial rows."""
    spaced = lambda row: " ".join(map(search.letter, row))
    first, found = trials(search)
    yield f"The row of cheapest transitions is {spaced(first[0])}. It has no more than {first[2]} assignments, so the first rates are 0."
    for number, (rates, start, row, cost) in enumerate(found, 1):
        yield line(number, *rates, start, spaced(row), cost)
    (rates, low, _, _), high = found[-1], min(one[3] for one in found)
    limit = min(high, low + FIRST_GAP)
    yield f"After the third trial {low} and {high} are within {CLOSE} points. The limit is min({high}, {low} + 0 + {FIRST_GAP}) = {limit}."
    bounds, listed, all_made = completion_bounds(search, rates), [Partial(search.start, 0, ())], 0
    for day in DAYS:
        listed, made, pruned = extended(search, bounds, rates, limit, day, listed)
        all_made += made
        which = ", ".join(f"{''.join(map(search.letter, partial.choices))} {partial.cost}" for partial in listed)
        yield line(reckoning.DAYS[day], made, pruned, len(listed), which)
    settings = len(found) * len(search.shifts) * (search.caps["run"] + 1) * (search.caps["of_last"] + 1) * sum(map(len, search.offers))
    yield f"These are {all_made} extensions, and the first of the cheapest rows is that of the labels."
    yield f"the three settings of bounds, {settings:,} extensions, take more than the tables would have."


def expected() -> list[str]:
    """The lines and sentences that the page has to have."""
    search = Search()
    return [*expected_states(search), *expected_labels(search), *expected_partial_rows(search)]
