"""A ward of a table of nurses: what the table doesn't say is asked for on standard input, and has defaults that a ward has.

The table has a column 'nurse' or 'name', and may have columns 'contract' (a name, or a percentage of full time) and 'skills' (those of a
nurse one after the other, her main one first). Everything else is a question with a default: weeks, shifts, contracts and needs.
"""
import collections
import dataclasses
import re
import sys

from desk_lib.findings import nearest
from desk_lib.given import Given
from desk_lib.grammar import DAYS
from desk_lib.model import with_no_solutions
from desk_lib.spreadsheet import rows_of, same
from desk_lib.texts import DeskError, Text, Texts, plural, read_file, shown
from desk_lib.ward.options import NewOptions

# The heads by which columns are known.
COLUMNS = {
    "nurse": ("nurse", "name", "nurses"),
    "contract": ("contract", "percent", "percentage", "fte", "hours"),
    "skills": ("skills", "skill", "qualification", "qualifications"),
}
# Shifts of a ward: the days in a row, those that may not follow, and the share of the staff that a day has on each.
SHIFTS = {"Early": ((2, 5), "", 0.40), "Late": ((2, 5), "Early", 0.35), "Night": ((2, 4), "Early Late", 0.25)}
# Of full time: working days in a week, and what of these is the least; worked weekends of four.
FULL, LEAST, WEEKENDS = 5.0, 0.75, 2
# What of the staff that there is on a day the minimums and the optimums ask for.
MINIMUM, OPTIMUM = 0.6, 0.85
# What a contract has: three pairs, a number, and 1 or 0.
CONTRACT = re.compile(r"(\( *\d{1,3} *, *\d{1,3} *\) *){3}\d{1,3} +[01]")
# What a cell of a column of hours gets, so that it isn't taken for a percentage.
HOURS = " hours"
FULL_NAMES = {"fulltime": 100, "full": 100, "parttime": 60, "part": 60, "halftime": 50, "half": 50}


@dataclasses.dataclass(frozen=True)
class Nurse:
    """A line of the table."""

    name: str
    contract: str
    skills: tuple[str, ...]


class Questions:
    """What is asked for, one line each; an empty line, or the end of standard input, takes the default."""

    def __init__(self) -> None:
        self.taken: list[str] = []

    def ask(self, what: str, default: str) -> str:
        print(f"{what} [{default}]: ", end="", file=sys.stderr, flush=True)
        line = sys.stdin.readline() if sys.stdin else ""
        if not line.endswith("\n"):
            print(file=sys.stderr, flush=True)
        answer = line.strip() or default
        self.taken.append(f"{what}: {answer}")
        return answer

    def number(self, what: str, default: int, greatest: int) -> int:
        answer = self.ask(what, str(default))
        if not (answer.isascii() and answer.isdigit() and 1 <= int(answer) <= greatest):
            raise DeskError(f"{what}: '{shown(answer)}' is no number from 1 to {greatest}; nothing was made", 2)
        return int(answer)


def word(text: str) -> str:
    """A name as one word of the texts."""
    return re.sub(r"[\s(),=]+", "_", same(text)).strip("_")


def column_of(name: str, heads: list[str], what: str) -> int | None:
    """The number of a column."""
    known = COLUMNS[what]
    found = [at for at, head in enumerate(heads) if head.casefold() in known]
    if len(found) > 1:
        raise DeskError(f"{shown(name)}:1: two columns are '{what}'; take one of them away")
    return found[0] if found else None


def nurses_in(name: str, rows: list[list[str]]) -> list[Nurse]:
    """The nurses of a table."""
    if not rows:
        raise DeskError(
            f"{shown(name)}: the table is empty; it has a line with heads, such as name,contract,skills, and one for each nurse"
        )
    heads = [same(cell) for cell in rows[0]]
    at = {what: column_of(name, heads, what) for what in COLUMNS}
    if at["nurse"] is None:
        like = nearest(heads[0].encode(), [b"name", b"nurse"])
        raise DeskError(
            f"{shown(name)}:1: no column is headed 'name' or 'nurse'; its heads are {', '.join(map(shown, heads))}{like}"
        )
    found, lines = list[Nurse](), dict[str, int]()
    for number, row in enumerate(rows[1:], 2):
        cells = {what: row[column] if column is not None and column < len(row) else "" for what, column in at.items()}
        if len(row) < len(heads):
            message = f"the line has {plural(len(row), 'cell')}, and the first one {len(heads)}"
            raise DeskError(f"{shown(name)}: row {number} ({shown(row[0])}): {message}; fill it up, if need be with empty cells")
        who = word(cells["nurse"])
        if not who:
            raise DeskError(f"{shown(name)}: row {number}: there is no name in it")
        if who in lines:
            raise DeskError(
                f"{shown(name)}: row {number}: the nurse '{shown(who)}' stands here a second time; the first is in row {lines[who]}"
            )
        lines[who] = number
        is_in_hours = at["contract"] is not None and heads[at["contract"]].casefold() == "hours"
        contract = cells["contract"] + HOURS if is_in_hours and cells["contract"] else cells["contract"] or "100%"
        if (percent_of(contract) or 0) > 100:
            raise DeskError(f"{shown(name)}: row {number}: '{shown(contract)}' is more than full time, which is 100%")
        skills = tuple(word(skill) for skill in re.split(r"[;/|+,]|\s+and\s+", cells["skills"]) if word(skill))
        found.append(Nurse(who, contract, skills or ("Nurse",)))
    if not found:
        raise DeskError(f"{shown(name)}: the table has heads and no nurse")
    return found


def percent_of(contract: str) -> int | None:
    """How much of full time a contract is, in percent."""
    text = contract.casefold().replace(" ", "").replace("-", "")
    match = re.fullmatch(r"(\d{1,3})(?:[.,]\d+)?%?", text)
    fraction = re.fullmatch(r"[01][.,]\d+", text)
    if fraction:
        return round(100 * float(text.replace(",", ".")))
    return int(match[1]) if match else FULL_NAMES.get(text)


def hours_of(contract: str) -> float | None:
    """The hours a week of a contract that a table gives in hours."""
    match = re.fullmatch(rf"(\d{{1,2}}(?:[.,]\d+)?){HOURS}", contract)
    return float(match[1].replace(",", ".")) if match else None


def contract_line(percent: int, weeks: int) -> str:
    """The numbers of a contract of this part of full time."""
    greatest = max(1, round(FULL * weeks * percent / 100) + 1)
    least = int(FULL * weeks * percent / 100 * LEAST)
    off = (2, 3) if percent > 80 else (2, 5) if percent > 55 else (2, 7)
    return f"({least},{greatest}) (2,5) ({off[0]},{off[1]}) {max(1, round(WEEKENDS * weeks / 4))} 1"


class Plan:
    """The texts of a ward of these nurses."""

    def __init__(self, title: str, nurses: list[Nurse], questions: Questions):
        self.title, self.nurses, self.questions = title, nurses, questions
        self.weeks = questions.number("how many weeks", 4, 52)
        self.shifts = [word(name) for name in re.split(r"[ ,;]+", questions.ask("which shifts", " ".join(SHIFTS))) if word(name)]
        self.skills = [*dict.fromkeys(skill for nurse in nurses for skill in nurse.skills)]
        for what, names, most in (("shifts", self.shifts, 8), ("skills", self.skills, 8)):
            if not 1 <= len({*names}) == len(names) <= most or {*names} & {"Any", "None"}:
                raise DeskError(
                    f"{what}: {', '.join(map(shown, names)) or 'none'}: there may be 1 to {most}, each once; nothing was made", 2
                )
        self.contracts = self.all_contracts()

    def all_contracts(self) -> dict[str, tuple[str, int]]:
        """The name of each contract of the table, with its numbers and its part of full time."""
        found: dict[str, tuple[str, int]] = {}
        by_hours = self.percents_by_hours()
        for contract in dict.fromkeys(nurse.contract for nurse in self.nurses):
            percent = by_hours.get(contract) or percent_of(contract)
            if percent is None:
                percent = self.questions.number(f"how many percent of full time is '{contract}'", 100, 100)
            name = word(contract) if not re.match(r"\d", contract) else f"Part{percent}" if percent < 100 else "FullTime"
            known = next((line for line, _ in found.values() if line.split()[0] == name), None)
            if known:
                found[contract] = known, percent
                continue
            default = contract_line(percent, self.weeks)
            numbers = self.questions.ask(
                f"contract {name}: assignments, working days in a row, days off in a row, weekends, whole weekends (1 or 0)",
                default,
            )
            if not CONTRACT.fullmatch(numbers):
                raise DeskError(f"contract {name}: '{shown(numbers)}': five are due, as {default}; nothing was made", 2)
            found[contract] = f"{name} {numbers}", percent
        return found

    def percents_by_hours(self) -> dict[str, int]:
        """How much of full time the contracts are that are given in hours a week."""
        known = {nurse.contract: hours for nurse in self.nurses if (hours := hours_of(nurse.contract))}
        if not known:
            return {}
        most = max(known.values())
        answer = self.questions.ask("how many hours a week is full time", f"{most:g}")
        full = hours_of(answer + HOURS)
        if not full or full < most:
            raise DeskError(f"full time: '{shown(answer)}': hours are due, {most:g} or more; nothing was made", 2)
        return {contract: max(1, round(100 * hours / full)) for contract, hours in known.items()}

    def scenario(self) -> str:
        follow = {
            shift: [other for other in SHIFTS.get(shift, ((0, 0), "", 0))[1].split() if other in self.shifts]
            for shift in self.shifts
        }
        shifts = [
            f"{shift} ({limits[0]},{limits[1]})"
            for shift, limits in ((one, SHIFTS.get(one, ((1, 5), "", 0))[0]) for one in self.shifts)
        ]
        rests = [" ".join([shift, str(len(others)), *others]) for shift, others in follow.items()]
        contracts = [*dict.fromkeys(line for line, _ in self.contracts.values())]
        nurses = [
            " ".join([nurse.name, self.contracts[nurse.contract][0].split()[0], str(len(nurse.skills)), *nurse.skills])
            for nurse in self.nurses
        ]
        parts = [f"SCENARIO = {self.title}", f"WEEKS = {self.weeks}"]
        parts += [counted("SKILLS", self.skills), counted("SHIFT_TYPES", shifts)]
        parts += [
            "\n".join(["FORBIDDEN_SHIFT_TYPES_SUCCESSIONS", *rests]),
            counted("CONTRACTS", contracts),
            counted("NURSES", nurses),
        ]
        return "\n\n".join(parts) + "\n"

    def history(self) -> str:
        lines = [f"{nurse.name} 0 0 None 0 0 1" for nurse in self.nurses]
        return "\n".join([f"HISTORY\n0 {self.title}\n", "NURSE_HISTORY", *lines]) + "\n"

    def needs(self) -> dict[tuple[str, str], tuple[int, int]]:
        """The minimum and the optimum of each shift and skill on a day, asked for; by default in proportion to the staff."""
        staff: dict[str, float] = collections.defaultdict(float)
        for nurse in self.nurses:
            staff[nurse.skills[0]] += FULL / 7 * self.contracts[nurse.contract][1] / 100
        shares = [SHIFTS[shift][2] if shift in SHIFTS else 1 / len(self.shifts) for shift in self.shifts]
        found = {}
        for shift, share in zip(self.shifts, shares):
            for skill in self.skills:
                there = staff[skill] * share / sum(shares)
                least, optimum = int(MINIMUM * there), round(OPTIMUM * there)
                answer = self.questions.ask(
                    f"how many a day on {shift} with skill {skill}: minimum and optimum", f"{least} {optimum}"
                )
                match = re.fullmatch(r"(\d{1,3})[ ,]+(\d{1,3})", answer)
                if not match or int(match[1]) > int(match[2]):
                    message = (
                        f"{shift} {skill}: '{shown(answer)}': two numbers are due, the minimum and the optimum, which is no less"
                    )
                    raise DeskError(f"{message}; nothing was made", 2)
                found[shift, skill] = int(match[1]), int(match[2])
        return found

    def texts(self) -> list[Text]:
        lines = [
            f"{shift} {skill} " + " ".join([f"({least},{most})"] * len(DAYS))
            for (shift, skill), (least, most) in self.needs().items()
        ]
        week = "\n".join(["WEEK_DATA", self.title, "", "REQUIREMENTS", *lines, "", "SHIFT_OFF_REQUESTS = 0"]) + "\n"
        names = ("the scenario", "the history", *(f"the data of week {number}" for number in range(self.weeks)))
        return [Text(name, data.encode()) for name, data in zip(names, [self.scenario(), self.history(), *[week] * self.weeks])]


def counted(keyword: str, lines: list[str]) -> str:
    return "\n".join([f"{keyword} = {len(lines)}", *lines])


def texts_by_table(options: NewOptions, given: Given) -> Texts:
    """The texts of a ward of a table of nurses."""
    assert options.nurses is not None
    if given.options.common.files or any(given.options.common.by_kind.values()):
        raise DeskError("new: --nurses names the table of which a ward is made, and files are given, too; give one of the two", 2)
    nurses = nurses_in(options.nurses, rows_of(options.nurses, read_file(options.nurses).data))
    title = word(re.sub(r"\.ward$", "", options.ward.rsplit("/", 1)[-1])) or "ward"
    return with_no_solutions(Texts(Plan(title, nurses, Questions()).texts()))
