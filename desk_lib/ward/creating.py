"""A new ward, of texts: by options, in the program's order, as a bundle, or of a folder that has the competition's files."""
import dataclasses
import os
import re

from desk_lib import breaches, calendar_file, program
from desk_lib.days import day_text
from desk_lib.findings import nearest
from desk_lib.given import Given, texts_of, write
from desk_lib.grammar import PARTS, WORD
from desk_lib.lower_bound import number_of
from desk_lib.model import Plan
from desk_lib.program import Program
from desk_lib.texts import DeskError, Texts, plural, shown
from desk_lib.ward.file import check_new
from desk_lib.ward.naming import ENDING
from desk_lib.ward.options import NewOptions, ShiftsOptions
from desk_lib.ward.rosters import ward_of
from desk_lib.ward.store import Input, Shift, State, StoredRoster, changing, make_ward, moment

COLOUR = re.compile(r"(.+)=(#[0-9a-fA-F]{6})")


def files_in(folder: str) -> dict[str, list[str]]:
    """The files of a folder by what each is: scenario, history, week data and solutions, in the order of the numbers in their names."""
    found: dict[str, list[str]] = {kind: [] for kind in PARTS.values()}
    for name in sorted(os.listdir(folder), key=numbers_first):
        path = os.path.join(folder, name)
        if os.path.isfile(path):
            with open(path, "rb") as file:
                match = WORD.search(file.read(4096))
            if match and match[0] in PARTS:
                found[PARTS[match[0]]].append(path)
    return found


def numbers_first(name: str) -> list[tuple[int, str]]:
    """What names are ordered by, so that 10 comes after 9."""
    return [(int(part), "") if part.isdigit() else (-1, part) for part in re.split(r"(\d+)", name)]


def by_folder(given: Given) -> Given:
    """The same, with the files of a folder in the place of its name."""
    files = given.options.common.files
    if len(files) != 1 or not os.path.isdir(files[0]):
        return given
    try:
        found = files_in(files[0])
    except OSError as why:
        raise DeskError(f"{shown(files[0])}: read failed: {why.strerror}; give a folder that can be read", 3) from None
    for kind in ("scenario", "history"):
        if len(found[kind]) != 1:
            has = " and ".join(shown(os.path.basename(name)) for name in found[kind])
            what = f"of several files, {has}, each is a {kind}" if has else f"no file in it is a {kind}"
            raise DeskError(f"{shown(files[0])}: {what}; name the files by --sce, --his, --weeks and --sols", 2)
    texts = dict(zip(("sce", "his", "weeks", "sols"), (found[kind] for kind in PARTS.values())))
    common = dataclasses.replace(given.options.common, files=[], **texts)
    return dataclasses.replace(given, options=dataclasses.replace(given.options, common=common))


def parts_of(texts: Texts, plan: Plan) -> tuple[bytes, bytes, tuple[bytes, ...]]:
    """The scenario, the history and the week data, byte for byte as they were read."""
    bundle, words = plan.bundle, plan.words
    keywords = [bundle.history[b"HISTORY"], *(part[b"WEEK_DATA"] for part in bundle.weeks), bundle.solutions[0][b"SOLUTION"]]
    at = [0, *(words.offset(section.at) for section in keywords)]
    found = [texts.joined[first:last] for first, last in zip(at, at[1:])]
    # (a file ended there, and one line end more was put after it)
    ends = {start - 1 for start in texts.starts} if not texts.is_stream else set()
    found = [data[:-1] if last - 1 in ends else data for data, last in zip(found, at[1:])]
    return found[0], found[1], tuple(found[2:])


def shifts_of(plan: Plan, times: list[str], colours: list[str], before: tuple[Shift, ...] = ()) -> tuple[Shift, ...]:
    """How shifts are shown, by the words of --time and --colour, and as before."""
    found = {shift.name: shift for shift in before}
    names = [shift.name for shift in plan.case.shifts]
    for word in times:
        number, _ = calendar_file.times_in(word, plan)
        begins, ends = word.rpartition("=")[2].split("-")
        found[names[number]] = dataclasses.replace(found.get(names[number], Shift(names[number])), begins=begins, ends=ends)
    for word in colours:
        match = COLOUR.fullmatch(word)
        if not match:
            raise DeskError(f"--colour {shown(word)}: the form is SHIFT=#RRGGBB, as Night=#203060", 2)
        name = os.fsencode(match[1])
        if name not in names:
            raise DeskError(f"--colour {shown(word)}: the scenario has no shift '{shown(name)}'{nearest(name, names)}", 2)
        found[name] = dataclasses.replace(found.get(name, Shift(name)), colour=match[2].lower())
    return tuple(found[name] for name in names if name in found)


def roster_in(texts: Texts, plan: Plan, roster: Program) -> StoredRoster | None:
    """The roster of the texts, if somebody works in it."""
    if not any(map(any, plan.roster)):
        return None
    solutions = roster.ask(["show"], texts).output
    answer = roster.call(["cost"], texts.joined)
    if answer.status and not breaches.BREACH.match(answer.last()):
        raise program.refusal("cost", answer, texts)
    penalty = None if answer.status else number_of(answer.output.splitlines()[-1])
    return StoredRoster(solutions, penalty, "the texts given", None, None, moment())


def run_new(options: NewOptions, given: Given, roster: Program) -> int:
    """Makes a ward."""
    name = options.ward
    if not name.endswith(ENDING):
        raise DeskError(f"{shown(name)}: the name of a ward ends with {ENDING}, as {shown(name)}{ENDING}", 2)
    if given.ward:
        message = f"{shown(given.ward.name)}: this is a ward already"
        raise DeskError(f"{message}; 'desk backup' copies it, and 'desk next' makes the ward of the month after", 2)
    check_new(name, "new ward")
    start = given.start
    if start is None:
        raise DeskError("new: --start names the first Monday, as 2026-11-02", 2)
    if options.nurses is not None:
        from desk_lib.ward import staff

        texts = staff.texts_by_table(options, given)
    else:
        given = by_folder(given)
        texts = texts_of(given)
    plan = program.taken(roster, texts)
    scenario, history, weeks = parts_of(texts, plan)
    shifts = shifts_of(plan, options.time or [], options.colour or [])
    working = roster_in(texts, plan, roster)
    state = State(Input(start, scenario, history, weeks, shifts), roster=working)
    make_ward(name, f"new: {plural(len(plan.case.nurses), 'nurse')}, {plural(len(weeks), 'week')}", state)
    has = f"a roster, {working.cost()}" if working else f"no roster yet; 'desk improve --plan {shown(name)}' looks for one"
    size = f"{plural(len(plan.case.nurses), 'nurse')}, {day_text(0)} to {day_text(plan.days - 1)}"
    write([f"{shown(name)}: {size}, {has}"])
    return 0


def run_shifts(options: ShiftsOptions, given: Given, _: Program) -> int:
    """Shows when shifts are and their colours, or sets some."""
    from desk_lib.ward.asking import plan_of

    ward = ward_of(given)
    plan, before = plan_of(ward), ward.state.input.shifts
    after = shifts_of(plan, options.time or [], options.colour or [], before)
    if after != before:
        with changing(ward) as writer:
            inputs = dataclasses.replace(ward.state.input, shifts=after)
            words = " ".join([*(options.time or []), *(options.colour or [])])
            writer.add_version(f"shifts: {shown(words)}", dataclasses.replace(ward.state, input=inputs))
    known = {shift.name: shift for shift in after}
    for shift in plan.case.shifts:
        has = known.get(shift.name, Shift(shift.name))
        times = f"{has.begins}-{has.ends}" if has.begins else "all day"
        write([f"{shown(shift.name)}: {times}{f', {has.colour}' if has.colour else ''}"])
    return 0
