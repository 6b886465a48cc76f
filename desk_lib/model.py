"""The case and the roster of texts that the program takes. Names are bytes, as they stand there."""
import collections.abc
import dataclasses

from desk_lib.case import Case, Choice, History, Limits, Nurse, NurseDay, Request, Roster, Shift, ShiftSkill
from desk_lib.case import without_absent_work
from desk_lib.grammar import ANY, DAYS, Bundle, Cursor, Fault, Part, Words, read_bundle, read_part
from desk_lib.texts import Text, Texts, shown

# Instead of a file, and of an option: solutions in which nobody works.
NO_SOLUTIONS = "no solutions"


@dataclasses.dataclass
class Plan:
    """What texts say: the case, its roster, and what of the texts has to be found again."""

    case: Case
    roster: Roster
    words: Words
    bundle: Bundle
    # (the roster of the files, if duties were put into it since)
    of_files: Roster | None = None

    @property
    def before(self) -> Roster:
        """The roster of the files."""
        return self.of_files or self.roster

    @property
    def days(self) -> int:
        return 7 * self.case.weeks

    def contract_name(self, number: int) -> bytes:
        at: int = self.bundle.scenario[b"CONTRACTS"].lines[number][0]
        return self.words.words[at]

    def solutions_offset(self) -> int:
        """The byte at which the first solution begins."""
        return self.words.offset(self.bundle.solutions[0][b"SOLUTION"].at)


class Numbers:
    """The numbers of shifts, skills, contracts and nurses by the words that name them."""

    def __init__(self, words: list[bytes], scenario: Part):
        def numbers(keyword: bytes) -> dict[bytes, int]:
            return {words[line[0]]: number for number, line in enumerate(scenario[keyword].lines)}

        self.words = words
        self.skills, self.shifts = numbers(b"SKILLS"), numbers(b"SHIFT_TYPES")
        self.contracts, self.nurses = numbers(b"CONTRACTS"), numbers(b"NURSES")

    def skill(self, at: int) -> int:
        return self.skills[self.words[at]]

    def shift(self, at: int) -> int:
        return self.shifts[self.words[at]]

    def shift_or_none(self, at: int) -> int | None:
        """The shift that a word names; None for 'Any' and 'None'."""
        return self.shifts.get(self.words[at])

    def nurse(self, at: int) -> int:
        return self.nurses[self.words[at]]


def nurses_of(names: Numbers, bundle: Bundle) -> list[Nurse]:
    """The nurses in their order, each with the line of the history."""
    histories = {}
    for first, assignments, weekends, last, *runs in bundle.history[b"NURSE_HISTORY"].lines:
        histories[names.nurse(first)] = History(assignments, weekends, names.shift_or_none(last), *runs)
    found = []
    for number, (first, contract, skills) in enumerate(bundle.scenario[b"NURSES"].lines):
        has = [names.skill(skill) for skill in skills]
        found.append(Nurse(names.words[first], names.contracts[names.words[contract]], has, histories[number]))
    return found


def needs_of(names: Numbers, weeks: list[Part]) -> dict[ShiftSkill, list[Limits]]:
    """For each shift and skill that a week needs, the minimum and the optimum of each day."""
    needs: dict[ShiftSkill, list[Limits]] = {}
    for week, part in enumerate(weeks):
        for shift, skill, pairs in part[b"REQUIREMENTS"].lines:
            days = needs.setdefault((names.shift(shift), names.skill(skill)), [Limits(0, 0)] * (7 * len(weeks)))
            days[7 * week : 7 * week + 7] = pairs
    return dict(sorted(needs.items()))


def requests_of(names: Numbers, weeks: list[Part], keyword: bytes) -> set[Request]:
    """The requests of all weeks: the nurse, the shift or None for any, and the day."""
    found = set()
    for week, part in enumerate(weeks):
        for nurse, shift, day in part[keyword].lines if keyword in part else []:
            asked = None if names.words[shift] == ANY else names.shift_or_none(shift)
            found.add((names.nurse(nurse), asked, 7 * week + day))
    return found


def days_of(names: Numbers, weeks: list[Part], keyword: bytes) -> set[NurseDay]:
    """The absences of all weeks, or the fixed days: the nurse and the day."""
    lines = [(week, line) for week, part in enumerate(weeks) if keyword in part for line in part[keyword].lines]
    return {(names.nurse(nurse), 7 * week + day) for week, (nurse, day) in lines}


def roster_of(names: Numbers, solutions: list[Part]) -> Roster:
    roster: Roster = [[None] * (7 * len(solutions)) for _ in names.nurses]
    for week, part in enumerate(solutions):
        for nurse, day, shift, skill in part[b"ASSIGNMENTS"].lines:
            roster[names.nurse(nurse)][7 * week + day] = names.shift(shift), names.skill(skill)
    return roster


def roster_in(texts: Texts) -> Roster:
    """The roster of texts that the program takes."""
    words = Words(texts)
    bundle = read_bundle(words)
    return roster_of(Numbers(words.words, bundle.scenario), bundle.solutions)


def plan_of(words: Words, bundle: Bundle) -> Plan:
    """The plan of a bundle, in which the program finds no fault of names."""
    scenario, names = bundle.scenario, Numbers(words.words, bundle.scenario)
    word = words.words
    case = Case(
        name=word[scenario[b"SCENARIO"].lines[0][0]],
        weeks=scenario[b"WEEKS"].count,
        shifts=[Shift(word[first], limits) for first, limits in scenario[b"SHIFT_TYPES"].lines],
        skills=[word[first] for first, in scenario[b"SKILLS"].lines],
        forbidden={
            (names.shift_or_none(first), names.shift_or_none(second))
            for first, others in scenario[b"FORBIDDEN_SHIFT_TYPES_SUCCESSIONS"].lines
            for second in others
        },
        contracts=[contract for _, contract in scenario[b"CONTRACTS"].lines],
        nurses=nurses_of(names, bundle),
        needs=needs_of(names, bundle.weeks),
        requests=requests_of(names, bundle.weeks, b"SHIFT_OFF_REQUESTS"),
        wishes=requests_of(names, bundle.weeks, b"SHIFT_ON_REQUESTS"),
        absences=days_of(names, bundle.weeks, b"ABSENCES"),
        fixed=days_of(names, bundle.weeks, b"FIXED"),
    )
    return Plan(case, roster_of(names, bundle.solutions), words, bundle)


def choice_name(case: Case, choice: Choice) -> str:
    """A choice in words."""
    return "off" if choice is None else f"{shown(case.shifts[choice[0]].name)} {shown(case.skills[choice[1]])}"


def without_absent(plan: Plan) -> Roster:
    """The roster of a plan in which those who are absent don't come."""
    return without_absent_work(plan.case, plan.roster)


def solution_pieces(case: Case, roster: Roster) -> collections.abc.Iterator[tuple[bytes, NurseDay | None]]:
    """The solutions of a roster, as the program takes them: for each week the head, and each assignment with the nurse and the
    day."""
    for week in range(case.weeks):
        lines = [
            (b"%s %s %s %s\n" % (nurse.name, DAYS[day % 7], case.shifts[choice[0]].name, case.skills[choice[1]]), (number, day))
            for number, (nurse, row) in enumerate(zip(case.nurses, roster))
            for day, choice in enumerate(row[7 * week : 7 * week + 7], 7 * week)
            if choice
        ]
        apart = b"\n" if week else b""
        yield b"%sSOLUTION\n%d %s\n\nASSIGNMENTS = %d\n" % (apart, week, case.name, len(lines)), None
        yield from lines


def solutions_of(case: Case, roster: Roster) -> bytes:
    """The solutions of a roster, as the program takes them."""
    return b"".join(piece for piece, _ in solution_pieces(case, roster))


def with_no_solutions(texts: Texts) -> Texts:
    """The texts with solutions in which nobody works, if they end after the week data. Else as they are: the program says what is wrong
    with them."""
    cursor = Cursor(Words(texts).words)
    try:
        part = read_part(cursor, "scenario")
        read_part(cursor, "history", part[b"NURSES"].count)
        for _ in range(part[b"WEEKS"].count):
            read_part(cursor, "week data")
    except Fault:
        return texts
    if cursor.peek() is not None or not part[b"WEEKS"].count:
        return texts
    name = cursor.words[part[b"SCENARIO"].lines[0][0]]
    empty = b"\n".join(b"SOLUTION\n%d %s\n\nASSIGNMENTS = 0\n" % (week, name) for week in range(part[b"WEEKS"].count))
    return texts.before(len(texts.joined), [Text(NO_SOLUTIONS, empty, NO_SOLUTIONS)])
