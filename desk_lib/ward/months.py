"""The month after, as a ward of its own, and the files of a ward."""
import dataclasses
import datetime
import os

from desk_lib import commands, next_month, program, replacing, split
from desk_lib.days import TO, date_in, day_text
from desk_lib.given import Given, write
from desk_lib.model import Plan, with_no_solutions
from desk_lib.options import NextOptions
from desk_lib.program import Program
from desk_lib.texts import DeskError, Text, Texts, plural, shown
from desk_lib.ward import balances
from desk_lib.ward.file import check_new
from desk_lib.ward.naming import ENDING
from desk_lib.ward.options import ExportOptions
from desk_lib.ward.rosters import ward_of, with_roster
from desk_lib.ward.store import Ask, Input, State, Ward, make_ward
from desk_lib.ward.texts import clipped, days_of, input_texts, spans_at


def leavers(ward: Ward, plan: Plan) -> set[int]:
    """The nurses who are gone on the last day and through all of the next month, or who aren't known to come back."""
    numbers = {nurse.name: number for number, nurse in enumerate(plan.case.nurses)}
    last = ward.state.input.start + datetime.timedelta(days_of(ward) - 1)
    after, found = last + datetime.timedelta(days_of(ward)), set()
    for ask in ward.state.asks:
        words = ask.line.split()
        if words[0] != b"gone":
            continue
        for word in words[spans_at(words)]:
            begin, _, end = word.partition(TO)
            final = date_in(shown(end or begin))
            if date_in(shown(begin)) <= last and (final == last or final >= after):
                found.add(numbers[words[1]])
    return found


def asks_after(ward: Ward, start: datetime.date, left: set[bytes]) -> tuple[Ask, ...]:
    """The asks for days of the next month or later, of nurses who stay."""
    found = []
    for ask in ward.state.asks:
        line, words = clipped(ask.line, start, None), ask.line.split()
        if line and (words[0] == b"need" or words[1] not in left):
            found.append(dataclasses.replace(ask, line=line, number=0))
    return tuple(found)


def run_next_ward(options: NextOptions, given: Given, roster: Program) -> int:
    """Makes the ward of the month after."""
    write([*lay_out(given, roster, options.folder, options.carry), f"'desk improve --plan {shown(options.folder)}' looks for a roster"])
    return 0


def lay_out(given: Given, roster: Program, name: str, has_totals: bool) -> list[str]:
    """Makes the ward of the month after, with the totals up to now if they are to be there, and says what is in it."""
    ward = ward_of(given)
    if not name.endswith(ENDING):
        raise DeskError(f"{shown(name)}: the name of a ward ends with {ENDING}, as {shown(name)}{ENDING}", 2)
    check_new(name, "new ward")
    if ward.state.roster is None:
        raise DeskError(
            f"{shown(ward.name)}: this ward has no roster yet, so no month comes after; 'desk improve --plan' looks for one"
        )
    texts = with_roster(ward, ward.state.roster.solutions)
    plan = program.taken(roster, texts)
    left = leavers(ward, plan)
    files = next_month.next_files(plan, texts, "", has_totals, left)
    back = with_no_solutions(Texts([Text(f"{name} ({file})", data) for file, data in files]))
    roster.ask(["show"], back)
    start = ward.state.input.start + datetime.timedelta(days_of(ward))
    gone = {plan.case.nurses[number].name for number in left}
    asks = asks_after(ward, start, gone)
    (_, scenario), (_, history), *weeks = files
    given_texts = Input(start, scenario, history, tuple(data for _, data in weeks), ward.state.input.shifts)
    state = State(dataclasses.replace(given_texts, balances=balances.carried(given, left)), asks)
    make_ward(name, f"next: after {shown(os.path.basename(ward.name))}", state)
    names = ", ".join(sorted(map(shown, gone)))
    lines = [
        f"{shown(name)}: {plural(len(plan.case.nurses) - len(left), 'nurse')}, from {start}, {plural(len(asks), 'ask')} carried over"
    ]
    lines += [f"left out, since gone: {names}"] * bool(left)
    open_days = 0 if ward.state.publication is None else ward.state.publication.days
    if open_days < days_of(ward):
        lines.append(f"note: {shown(ward.name)} isn't published from {day_text(open_days)} on, and its roster may still change")
    return lines


def run_export(options: ExportOptions, given: Given, roster: Program) -> int:
    """Writes the competition's files, with the texts as they were read, and all of it as one bundle."""
    ward, folder = ward_of(given), options.folder
    texts, files = input_texts(ward), list[tuple[str, bytes]]()
    working = ward.state.roster
    plan = program.plan_in(with_roster(ward, working.solutions) if working else with_no_solutions(Texts(texts)))
    name = next_month.file_name(plan)
    scenario, history, *weeks = (text.data for text in texts)
    files = [(f"Sc-{name}.txt", scenario), (f"H0-{name}-0.txt", history)]
    files += [(f"WD-{name}-{week}.txt", data) for week, data in enumerate(weeks)]
    solutions = split.weeks_in(working.solutions) if working else []
    files += [(f"Sol-{name}-{week}.txt", data) for week, data in enumerate(solutions)]
    bundle = b"".join(data + b"\n" for _, data in files)
    if working:
        files.append((f"{name}.txt", bundle))
        roster.ask(["show"], Texts([Text(f"{name}.txt", bundle)]))
    paths = [os.path.join(folder, file) for file, _ in files]
    commands.check_names(options, "FOLDER", paths)
    commands.make_folder(folder)
    for path, (_, data) in zip(paths, files):
        replacing.replace_text(path, data)
    write(map(shown, paths))
    return 0
