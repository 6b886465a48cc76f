"""Contracts of nurses who are gone for days of the roster, as a leaver and a joiner are: for the days that they are there alone.

Such a nurse is absent on these days, and has a contract of her own in the texts that the program gets. Her numbers of assignments
and of weekends are those of her contract in proportion to the days, and the weekends, that she is there; and a run of days off may
be longer by the longest run of days on which she is gone, with those of the history right before it. What the limits of a contract
can't say is left: any other run of days off may be as long, and a minimum of working days in a row, a weekend of which she is there
for one day, and a wish count as ever.
"""
import itertools

from desk_lib.case import SATURDAY, SUNDAY, Contract, Limits
from desk_lib.grammar import SMALL
from desk_lib.model import Plan
from desk_lib.texts import Edit


def longest_run(days: set[int], before: int) -> int:
    """The most days one after the other, if this number of days more stand before the first day of all."""
    # (in a run, days and their numbers in order are equally far apart)
    groups = itertools.groupby(enumerate(sorted(days)), key=lambda numbered: numbered[1] - numbered[0])
    runs = [[day for _, day in run] for _, run in groups]
    return max(len(run) + before * (run[0] == 0) for run in runs)


def contract_there(plan: Plan, number: int, days: set[int]) -> Contract:
    """The contract of a nurse for the days that she is there."""
    nurse = plan.case.nurses[number]
    contract, past = plan.case.contracts[nurse.contract], nurse.history
    there, weeks = plan.days - len(days), range(plan.case.weeks)
    longest = longest_run(days, past.off if past.last is None else 0)
    # (of a weekend she is there on one day at least)
    weekends = sum(not {7 * week + SATURDAY, 7 * week + SUNDAY} <= days for week in weeks)
    least, greatest = contract.assignments
    return contract._replace(
        assignments=Limits(least * there // plan.days, -(-greatest * there // plan.days)),
        off=Limits(contract.off.least, min(SMALL, contract.off.greatest + longest)),
        weekends=-(-contract.weekends * weekends // len(weeks)),
    )


def contract_line(name: bytes, contract: Contract) -> bytes:
    """The line of a contract in a scenario."""
    pairs = b" ".join(b"(%d,%d)" % (*limits,) for limits in (contract.assignments, contract.working, contract.off))
    return b"%s %s %d %d" % (name, pairs, contract.weekends, contract.whole_weekends)


def edits(plan: Plan, gone: dict[int, set[int]], end: bytes) -> list[Edit]:
    """What gives these nurses contracts of their own, each line after `end`: the count of contracts, the lines after the last
    one, and the contracts' names in the lines of the nurses."""
    words, scenario = plan.words, plan.bundle.scenario
    section, taken = scenario[b"CONTRACTS"], {words.words[line[0]] for line in scenario[b"CONTRACTS"].lines}
    count = b"%d" % (section.count + len(gone))
    lines, found = [], [(words.offset(section.at + 2), len(words.words[section.at + 2]), count)]
    for number, days in sorted(gone.items()):
        _, at, _ = scenario[b"NURSES"].lines[number]
        stem = words.words[at] + b"-" + plan.case.nurses[number].name
        name = next(name for name in (stem + b"-" * more for more in itertools.count()) if name not in taken)
        taken.add(name)
        lines.append(end + contract_line(name, contract_there(plan, number, days)))
        found.append((words.offset(at), len(words.words[at]), name))
    # (the last contract ends with a word before the keyword of the nurses)
    last = scenario[b"NURSES"].at - 1
    return [*found, (words.offset(last) + len(words.words[last]), 0, b"".join(lines))]
