"""The command `check`: all that is wrong with texts, each with its file, line and word."""
import collections.abc
import dataclasses
import re

from desk_lib import breaches, hidden, names, program, shortage
from desk_lib.asked_texts import Asked
from desk_lib.asks import AWAY, Asks
from desk_lib.case import ShiftSkill
from desk_lib.cutting import too_many
from desk_lib.days import with_dates
from desk_lib.doubts import Doubts
from desk_lib.findings import Finding, LineKey, of_words
from desk_lib.grammar import MOST_OF, PARTS, Bundle, Fault, Part, Words, read_bundle
from desk_lib.model import NO_SOLUTIONS, Plan, plan_of
from desk_lib.program import Answer, Program
from desk_lib.recovery import Recovery
from desk_lib.texts import SO_FAR, DeskError, Texts, plural, shown

OUT_OF_LIMITS = "count out of limits"
# What is said if nothing is broken but what `plan` can repair.
PLAN = "; 'desk improve --plan' looks for a roster that keeps the hard rules"


def out_of_place(words: Words, parts: list[Part]) -> list[Finding]:
    """The solutions that don't stand in the place of their week, and those that stand twice. For weeks that count from 1 there is one
    finding."""
    found: list[Finding] = []
    first: dict[int, Part] = {}
    weeks = [part[b"SOLUTION"].count for part in parts if part[b"SOLUTION"].lines]
    if len(weeks) == len(parts) > 0 and weeks == [*range(1, len(weeks) + 1)]:
        at = parts[0][b"SOLUTION"].lines[0][0]
        message = f"the weeks of the solutions count from 1, and have to count from 0; write 0 to {len(weeks) - 1}"
        return [Finding(words.offset(at), words.place(at), message)]
    for due, part in enumerate(parts):
        head = part[b"SOLUTION"]
        if not head.lines:
            continue
        at, week = head.lines[0][0], head.count
        if week != due:
            more = twice(words, first[week], part) if week in first else "; put the solutions in the order of the weeks"
            message = f"this solution is of week {week}, and stands in the place of week {due}{more}"
            found.append(Finding(words.offset(at), words.place(at), message))
        first.setdefault(week, part)
    return found


def twice(words: Words, first: Part, second: Part) -> str:
    """A clause for a second solution of a week."""
    said = [
        [words.words[line[0]] + b" %d " % line[1] + words.words[line[2]] for line in part[b"ASSIGNMENTS"].lines]
        for part in (first, second)
        if b"ASSIGNMENTS" in part
    ]
    place = words.place(first[b"SOLUTION"].lines[0][0])
    is_same = len(said) == 2 and said[0] == said[1]
    return f"; the same solution stands in {place}" if is_same else f"; {place} is of that week, too"


def refused_text(texts: Texts, line: str) -> list[Finding]:
    """What is wrong with a text that is refused with this line: what the program says, and all else that is found."""
    causes, cleaned, all_read, hiding = hidden.causes(texts)
    words = Words(texts, cleaned)
    recovery = Recovery(words)
    if all_read:
        recovery.check_order()
    found = names.findings_of(recovery)
    if all_read and recovery.has_all_weeks():
        # (else a right one may stand in the place of one that is lacking)
        found += out_of_place(words, [part.sections for part in recovery.of_kind("solution")])
    if found and not causes and all(finding.message.startswith("H1 ") for finding in found):
        plan = plan_of(words, read_bundle(words))
        found += breach_findings(plan, breaches.all_breaches(plan))
    keys = {*hiding, *(cause.line_key() for cause in causes)}
    found = causes + [finding for finding in found if finding.place is None or finding.line_key() not in keys]
    by_key = {(finding.line_key(), finding.message): finding for finding in reversed(found)}
    found = sorted(by_key.values(), key=lambda finding: finding.offset)
    found = with_program(texts, line, found, keys)
    if recovery.left_out:
        found.append(Finding(len(texts.joined), None, f"{recovery.left_out} faults more aren't shown; correct these first"))
    return found


def first_fault(texts: Texts, line: str) -> str:
    """What is wrong first with texts that the program refuses with this line, and where."""
    if breaches.BREACH.match(line):
        return f"{with_dates(line)}{place_of(texts, line)}"
    found = refused_text(texts, line) if program.LINE.fullmatch(line) else []
    return f"{found[0].place}: {found[0].message}" if found and found[0].place else found[0].message if found else line


def with_program(texts: Texts, line: str, found: list[Finding], hiding: set[LineKey | None]) -> list[Finding]:
    """The findings, of which one has the words of the program: the one on its line; or one more, unless something hides in
    that line."""
    own = of_program(texts, line)
    said = own.message
    same = next((finding for finding in found if finding.place and finding.line_key() == own.line_key()), None)
    if same is None:
        # (if parts are lacking, the next one that is right stands in the place of another)
        lacks_part = any(said == f"expected {keyword.decode()}" for keyword in PARTS) and found
        is_known = lacks_part or own.line_key() in hiding or any(finding.message.startswith(said) for finding in found)
        return found if is_known else sorted([*found, own], key=lambda finding: finding.offset)
    if same.message.startswith(said):
        return found
    merged = Finding(same.offset, same.place, f"{said}: {same.message}")
    return [merged if finding is same else finding for finding in found]


def of_program(texts: Texts, line: str) -> Finding:
    """The fault that the program reports, at its word if that can be found."""
    match = program.LINE.fullmatch(line)
    if not match:
        return of_nurse(texts, line)
    offset = texts.line_start(int(match[1]))
    place, words = texts.place(offset), Words(texts)
    try:
        bundle = read_bundle(words)
    except Fault as fault:
        mine = words.place(fault.at)
        if fault.message() == match[2] and (mine.file, mine.line) == (place.file, place.line):
            offset, place = words.offset(fault.at), mine
        return Finding(offset, place, match[2])
    of_limits = of_count(words, bundle) if match[2] == OUT_OF_LIMITS else None
    return of_limits or Finding(offset, place, match[2])


def of_count(words: Words, bundle: Bundle) -> Finding | None:
    """The first count that is out of its limits, with these."""
    for keyword, most in MOST_OF.items():
        section = bundle.scenario[keyword]
        if not 1 <= section.count <= most:
            at, message = section.at + 2, f"{OUT_OF_LIMITS}: {section.keyword} is {section.count}, and may be 1 to {most}"
            return Finding(words.offset(at), words.place(at), message)
    return None


def of_nurse(texts: Texts, line: str) -> Finding:
    """A fault that isn't of a line: if it names a nurse, at the line of the nurse in the scenario."""
    states = re.fullmatch(r"too many states for (.*)", line, re.S)
    words = Words(texts)
    if states:
        for first, *_ in read_bundle(words).scenario[b"NURSES"].lines:
            if shown(words.words[first]) == states[1]:
                return Finding(words.offset(first), words.place(first), line + too_many(texts.joined, line))
    return Finding(-1, None, line)


def breach_findings(plan: Plan, broken: list[breaches.Breach]) -> list[Finding]:
    """The breaches of a plan, each at its words; for the minimums of empty weeks one together, before the others."""
    places = Places(plan)
    empty = [week for week, part in enumerate(plan.bundle.solutions) if not part[b"ASSIGNMENTS"].lines]
    of_empty = [breach for breach in broken if breach.rule == "H2" and breach.day // 7 in empty]
    found = [places.of_empty(empty, len(of_empty))] if of_empty else []
    return found + [places.finding(breach) for breach in broken if breach not in of_empty]


class Places:
    """Finds the words at which a roster breaks a rule."""

    def __init__(self, plan: Plan):
        self.words, self.case, self.bundle = plan.words, plan.case, plan.bundle
        named = self.words.words
        self.needs = {
            (week, named[shift], named[skill]): shift
            for week, part in enumerate(self.bundle.weeks)
            for shift, skill, _ in part[b"REQUIREMENTS"].lines
        }
        self.assignments = {
            (week, named[nurse], day): nurse
            for week, part in enumerate(self.bundle.solutions)
            for nurse, day, *_ in part[b"ASSIGNMENTS"].lines
        }

    def finding(self, breach: breaches.Breach) -> Finding:
        week, weekday = divmod(breach.day, 7)
        if breach.slot:
            return self.of_need(breach.day, breach.slot, f"{breach.line}: {breach.more}")
        first = self.assignments[week, self.case.nurses[breach.nurse].name, weekday] + (3 if breach.rule == "H4" else 2)
        return self.at(first, first, f"{breach.line}: {breach.more}")

    def of_need(self, day: int, slot: ShiftSkill, message: str) -> Finding:
        """A finding of what a day needs of a shift and skill."""
        shift, skill = slot
        # after the shift and the skill stand seven pairs of five words each
        first = self.needs[day // 7, self.case.shifts[shift].name, self.case.skills[skill]] + 2 + 5 * (day % 7)
        return self.at(first, first + 4, message)

    def of_empty(self, weeks: list[int], count: int) -> Finding:
        """The minimums of weeks that have no assignment."""
        first = self.bundle.solutions[weeks[0]][b"ASSIGNMENTS"].at
        named = ", ".join(map(str, weeks))
        which = f"week {named} is empty" if len(weeks) == 1 else f"weeks {named} are empty"
        message = f"H2 {which}: there is no assignment, and none of the {count} minimums is met"
        return self.at(first, first + 2, message)

    def at(self, first: int, last: int, message: str) -> Finding:
        """A finding of the words from one to another."""
        return of_words(self.words, first, last, message)


def place_of(texts: Texts, line: str) -> str:
    """A clause for the place of a breach of which the program printed this line, if it is one of H2 to H4 or an absence."""
    if not breaches.BREACH.match(line):
        return ""
    plan = program.plan_in(texts)
    broken = next(breach for breach in breaches.all_breaches(plan) if breach.line == line)
    place = Places(plan).finding(broken).place
    return f" ({place})" if place and place.file != SO_FAR else ""


def failed(plan: Plan, asks: Asks | None, end: int) -> list[Finding]:
    """What of a roster isn't as asked for."""
    return [Finding(end, None, line) for line in (asks.failed(plan.roster)[:-1] if asks else [])]


AsksOf = collections.abc.Callable[[Plan], Asks | None]


def check(roster: Program, texts: Texts, asks_of: AsksOf) -> tuple[list[str], int]:
    """What the command prints of the texts, and of what else is asked for, and the status. Warnings alone are no fault."""
    is_rosterless = texts.texts[-1].kind == NO_SOLUTIONS
    command = "show" if is_rosterless else "cost"
    answer, more = roster.call([command], texts.joined), ""
    warnings: list[Finding] = []
    line = answer.last() if answer.status else "nothing"
    if answer.status not in (0, 1):
        raise DeskError(f"'roster {command}' says: {line}", answer.status)
    if answer.status and not breaches.BREACH.match(line):
        found = refused_text(texts, line)
    else:
        plan = program.plan_in(texts)
        found, more = of_shortages(plan, texts, asks_of) if is_rosterless else of_roster(roster, plan, texts, asks_of, line)
        warnings = [*Doubts(plan, texts).findings(), *of_staff(plan)]
    lines = [line for finding in [*found, *warnings] for line in finding.lines()]
    counts = plural(len(found), "fault") if found else "nothing is wrong"
    counts += f", {plural(len(warnings), 'warning')}" if warnings else ""
    return [*lines, summary(texts, answer, counts) + more], answer.status or int(bool(found))


def asked_texts(asks: Asks, texts: Texts) -> Texts:
    """The texts with all that is asked for. The roster is the one that is there."""
    return Asked(asks).added_to(texts, with_duties=False)


def of_roster(roster: Program, plan: Plan, texts: Texts, asks_of: AsksOf, line: str) -> tuple[list[Finding], str]:
    """What is wrong with a roster of which the program reports no other fault than this first breach, and what can be done. With
    asks it is held to the rules with these, too."""
    broken = breaches.all_breaches(plan)
    first = broken[0].line if broken else "nothing"
    if first != line:
        raise DeskError(f"'roster cost' says '{line}', and the desk '{first}'; this is a fault of the desk", 3)
    misplaced, wanted, more = out_of_place(plan.words, plan.bundle.solutions), asks_of(plan), ""
    if wanted and wanted.asks_anything:
        asked = asked_texts(wanted, texts)
        # (the places are those of the texts that were given)
        plan = dataclasses.replace(plan, case=program.plan_in(asked).case)
        broken, answer = breaches.all_breaches(plan), roster.call(["cost"], asked.joined)
        last = answer.output.decode().splitlines()[-1] if answer.status == 0 else answer.last()
        more = f"; with what is asked for: {last}"
    # (an absence that is asked for is reported at the line that asks)
    asked_for = wanted.days_of(*AWAY) if wanted else {}
    of_texts = [breach for breach in broken if breach.rule != "absent" or (breach.nurse, breach.day) not in asked_for]
    found = misplaced + breach_findings(plan, of_texts) + failed(plan, wanted, len(texts.joined))
    can_be_repaired = all(breaches.can_be_repaired(plan, breach) for breach in broken)
    return found, more + (PLAN if broken and not misplaced and can_be_repaired else "")


def of_shortages(plan: Plan, texts: Texts, asks_of: AsksOf) -> tuple[list[Finding], str]:
    """The days that no roster can staff, each at the minimum that is to be lowered first, and what comes next."""
    wanted, places = asks_of(plan), Places(plan)
    asked = program.plan_in(Asked(wanted).added_to(texts)) if wanted else plan
    found = [places.of_need(short.day, short.met[0][0], short.line(plan.case)) for short in shortage.shortages(asked, 0)]
    return found, "" if found else "; there is no roster yet, and 'desk improve --plan' can make one"


def of_staff(plan: Plan) -> list[Finding]:
    """A warning if the contracts allow fewer assignments than the minimums need, over all weeks."""
    short = shortage.short_over_all(plan)
    return (
        [of_words(plan.words, plan.bundle.scenario[b"CONTRACTS"].at, plan.bundle.scenario[b"CONTRACTS"].at, f"warning: {short}")]
        if short
        else []
    )


def summary(texts: Texts, answer: Answer, counts: str) -> str:
    """The last line: how much is wrong, and what the program says by itself."""
    files = plural(sum(text.kind != NO_SOLUTIONS for text in texts.texts), "text" if texts.ward else "file")
    files = f"{shown(texts.ward)}: {files}" if texts.ward else files
    if answer.status:
        said = f"; 'roster cost' says: {program.located(answer.last(), texts)}"
    elif texts.texts[-1].kind == NO_SOLUTIONS:
        said = ""
    else:
        said = f"; 'roster cost' takes them: {answer.output.decode().splitlines()[-1]}"
    return f"{files}, {counts}{said}"
