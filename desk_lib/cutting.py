"""Greatest numbers of contracts and shifts that can't bind: `roster` gets them cut.

Real contracts have numbers that mean 'no limit', as 999 assignments or 99 weekends. The number of states of a search grows with them,
though over the weeks of a bundle no roster can come to so much. docs/RULES.md says why a cut number is the same rule. What the
desk shows and writes has the numbers as they were read; what it counts itself, with these, it compares with the program's totals.
"""
import collections.abc
import dataclasses
import functools
import itertools
import re

from desk_lib.case import Contract, History, Limits
from desk_lib.grammar import NONE, WORD, Cursor, Fault, Part, read_part
from desk_lib.texts import shown

# How many states a search may have.
MOST_STATES = 1_048_576
TOO_MANY = re.compile(r"too many states for (.*)", re.S)
# Where the scenario and the history end, and how many such words are tried.
MOST_BEGINS = 20
WEEKS_BEGIN = re.compile(rb"(?<![^ \t\r\n(),=])WEEK_DATA(?![^ \t\r\n(),=])")


@dataclasses.dataclass(frozen=True)
class Head:
    """A scenario and a history: the words, where each begins, and the parts."""

    words: list[bytes]
    starts: list[int]
    scenario: Part
    history: Part

    @property
    def days(self) -> int:
        return 7 * self.scenario[b"WEEKS"].count

    @functools.cached_property
    def histories(self) -> dict[bytes, tuple[bytes, History]]:
        """The history of each nurse by her name, with the name of her last shift."""
        found = {}
        for first, assignments, weekends, last, *runs in self.history[b"NURSE_HISTORY"].lines:
            found[self.words[first]] = self.words[last], History(assignments, weekends, None, *runs)
        return found

    def of_contract(self, name: bytes) -> list[tuple[bytes, History]]:
        """The histories of the nurses who have a contract."""
        nurses = [line for line in self.scenario[b"NURSES"].lines if self.words[line[1]] == name]
        return [self.histories[self.words[line[0]]] for line in nurses if self.words[line[0]] in self.histories]

    def most(self, name: bytes) -> Contract:
        """The most that a nurse of a contract can come to: assignments, working days and days off in a row, and weekends."""
        past = self.of_contract(name)
        assignments = max((history.assignments for _, history in past), default=0) + self.days
        weekends = max((history.weekends for _, history in past), default=0) + self.days // 7
        working = max((history.working for last, history in past if last != NONE), default=0) + self.days
        off = max((history.off for last, history in past if last == NONE), default=0) + self.days
        return Contract(Limits(0, assignments), Limits(0, working), Limits(0, off), weekends, 1)

    def most_of_shift(self, name: bytes) -> int:
        """The most days in a row of a shift."""
        return max((history.of_last for last, history in self.histories.values() if last == name), default=0) + self.days


def head_of(data: bytes) -> Head | None:
    """The scenario and the history of joined texts, if they can be read."""
    # (a name may be the keyword that begins the week data)
    for match in itertools.islice(WEEKS_BEGIN.finditer(data), MOST_BEGINS):
        found = [*WORD.finditer(data, 0, match.start())]
        words = [word[0] for word in found]
        cursor = Cursor(words)
        try:
            scenario = read_part(cursor, "scenario")
            history = read_part(cursor, "history", scenario[b"NURSES"].count)
        except Fault:
            continue
        if cursor.peek() is None:
            return Head(words, [word.start() for word in found], scenario, history)
    return None


def cuts(head: Head) -> collections.abc.Iterator[tuple[int, int]]:
    """The numbers that can't bind, by the numbers of their words, with the least ones that can't bind either."""
    for first, limits in head.scenario[b"SHIFT_TYPES"].lines:
        # (after the name stands a pair, whose second number is its fourth word)
        most = head.most_of_shift(head.words[first])
        if limits.greatest > most:
            yield first + 4, most
    for first, contract in head.scenario[b"CONTRACTS"].lines:
        most_of = head.most(head.words[first])
        pairs = ((contract.assignments, most_of.assignments), (contract.working, most_of.working), (contract.off, most_of.off))
        for number, (limits, bound) in enumerate(pairs):
            if limits.greatest > bound.greatest:
                yield first + 4 + 5 * number, bound.greatest
        if contract.weekends > most_of.weekends:
            yield first + 16, most_of.weekends


@functools.lru_cache(maxsize=4)
def cut(data: bytes) -> bytes:
    """Joined texts with the numbers that can't bind cut. Lines stay where they are."""
    head = head_of(data)
    if head is None:
        return data
    for at, most in sorted(cuts(head), reverse=True):
        begin = head.starts[at]
        data = data[:begin] + b"%d" % most + data[begin + len(head.words[at]) :]
    return data


# ---- too many states all the same


def too_many(data: bytes, line: str) -> str:
    """What to lower, if the program refuses texts for too many states with this line; nothing if it doesn't."""
    match, head = TOO_MANY.fullmatch(line), head_of(cut(data))
    if not match or head is None:
        return ""
    nurse = next((line for line in head.scenario[b"NURSES"].lines if shown(head.words[line[0]]) == match[1]), None)
    if nurse is None:
        return ""
    contract = next(of for first, of in head.scenario[b"CONTRACTS"].lines if head.words[first] == head.words[nurse[1]])
    shifts = head.scenario[b"SHIFT_TYPES"].lines
    of_shifts = [int(max(limits)) for _, limits in shifts]
    longest = of_shifts.index(max(of_shifts))
    second = max(of_shifts[:longest] + of_shifts[longest + 1 :], default=0)
    name = shown(head.words[nurse[1]])
    most_least = max(contract.working.least, contract.off.least)
    # (each factor: what it is, and the number below which lowering it alone changes nothing)
    factors = [
        (f"the greatest days in a row of {shown(head.words[shifts[longest][0]])}", of_shifts[longest], second),
        (f"the greatest assignments of {name}", max(contract.assignments), contract.assignments.least),
        (f"the greatest days in a row, of work or off, of {name}", max(*contract.working, *contract.off), most_least),
        (f"the weekends of {name}", contract.weekends, 0),
    ]
    states = (len(shifts) + 1) * product(number + 1 for _, number, _ in factors)
    remedies = remedies_of(states, factors)
    return f": {states} states, and {MOST_STATES} are allowed; lower {' or '.join(remedies)}"


def product(numbers: collections.abc.Iterable[int]) -> int:
    found = 1
    for number in numbers:
        found *= number
    return found


Factor = tuple[str, int, int]


def remedies_of(states: int, factors: list[Factor]) -> list[str]:
    """What to lower to what: each number of which that is enough; or else the two that are the greatest, both."""
    found = []
    for what, number, least in factors:
        enough = MOST_STATES * (number + 1) // states - 1
        if enough >= max(1, least):
            found.append(f"{what} from {number} to {enough}")
    if found:
        return found
    for first, second in itertools.combinations(sorted(factors, key=lambda factor: factor[2] - factor[1]), 2):
        rest = states // ((first[1] + 1) * (second[1] + 1))
        for low in range(first[1], max(1, first[2]) - 1, -1):
            enough = MOST_STATES // (rest * (low + 1)) - 1
            if min(enough, second[1]) >= max(1, second[2], low if second[1] >= low else 0):
                return [f"{first[0]} from {first[1]} to {low} and {second[0]} from {second[1]} to {min(enough, second[1])}"]
    return ["the greatest numbers of the contract and of the shifts (docs/TUTORIAL.md, 'Longer horizons')"]
