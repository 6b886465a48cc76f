"""The month after: the history that a roster leaves, and a folder with the texts of the next one."""
import collections.abc
import contextlib
import os
import re

from desk_lib.case import SATURDAY, SUNDAY, History, Nurse, Row, shift_of
from desk_lib.grammar import NONE, SMALL
from desk_lib.model import Plan, with_no_solutions
from desk_lib.program import Program, plan_in
from desk_lib.replacing import Replacement
from desk_lib.texts import DeskError, Edit, Text, Texts, shown


def last_run(kinds: collections.abc.Sequence[object], kind: object) -> int:
    """How many days of a kind stand at the end."""
    return next((at for at, other in enumerate(reversed(kinds)) if other != kind), len(kinds))


def history_of(nurse: Nurse, row: Row, carry: bool) -> History:
    """What a nurse's row leaves for the days after it. A run over all days goes on from that of the history; a run longer than a
    history can hold is as long as that, which no limit is above."""
    past, days = nurse.history, len(row)
    shifts = [shift_of(choice) for choice in row]
    last, worked = shifts[-1], [shift is not None for shift in shifts]
    of_last, working, off = 0, last_run(worked, True), last_run(worked, False)
    if last is not None:
        of_last = last_run(shifts, last)
        of_last += past.of_last if of_last == days and past.last == last else 0
        working += past.working if working == days and past.last is not None else 0
    elif off == days and past.last is None:
        off += past.off
    weekends = sum(map(any, zip(worked[SATURDAY::7], worked[SUNDAY::7])))
    totals = (past.assignments + sum(worked), past.weekends + weekends) if carry else (0, 0)
    return History(*totals, last, *(min(SMALL, run) for run in (of_last, working, off)))


def history_text(plan: Plan, carry: bool, left: collections.abc.Container[int] = ()) -> bytes:
    """The history after a roster, in which the totals are 0 unless they are carried. Nurses who have left have no line."""
    case, lines = plan.case, []
    for number, (nurse, row) in enumerate(zip(case.nurses, plan.roster)):
        if number in left:
            continue
        after = history_of(nurse, row, carry)
        if max(after.assignments, after.weekends) > SMALL:
            message = f"{shown(nurse.name)} has {after.assignments} assignments by now, and a history holds {SMALL}"
            raise DeskError(f"{message}; leave --carry out")
        last = NONE if after.last is None else case.shifts[after.last].name
        runs = after.of_last, after.working, after.off
        lines.append(b"%s %d %d %s %d %d %d\n" % (nurse.name, after.assignments, after.weekends, last, *runs))
    return b"HISTORY\n0 %s\n\nNURSE_HISTORY\n%s" % (case.name, b"".join(lines))


def needs_texts(plan: Plan, texts: Texts) -> list[bytes]:
    """The week data with their needs, and without requests and absences."""
    found = []
    for part in plan.bundle.weeks:
        first, last = (plan.words.offset(part[keyword].at) for keyword in (b"WEEK_DATA", b"SHIFT_OFF_REQUESTS"))
        found.append(texts.joined[first:last].rstrip() + b"\n\nSHIFT_OFF_REQUESTS = 0\n")
    return found


def scenario_text(plan: Plan, texts: Texts, left: collections.abc.Collection[int]) -> bytes:
    """The scenario without those who have left."""
    end, words = plan.words.offset(plan.bundle.history[b"HISTORY"].at), plan.words
    section = plan.bundle.scenario[b"NURSES"]
    if len(left) == len(section.lines):
        raise DeskError("next: all nurses are gone at the end of the month; take a line 'gone' away")
    count = b"%d" % (len(section.lines) - len(left))
    edits: list[Edit] = [(words.offset(section.at + 2), len(words.words[section.at + 2]), count)] if left else []
    for number in left:
        first, last = section.lines[number][0], max([section.lines[number][1] + 1, *section.lines[number][2]])
        begin, finish = words.offset(first), words.offset(last) + len(words.words[last])
        # (with the end of its line)
        end_of_line = re.compile(rb"[ \t]*\r?\n").match(texts.joined, finish)
        finish = end_of_line.end() if end_of_line else finish
        edits.append((begin, finish - begin, b""))
    return Text("", texts.joined[:end]).edited(0, edits).data.rstrip() + b"\n"


def gone_at_the_end(plan: Plan, gone: dict[int, set[int]]) -> set[int]:
    """The nurses who are gone on the last day."""
    return {nurse for nurse, days in gone.items() if plan.days - 1 in days}


def file_name(plan: Plan) -> str:
    """The scenario's name, as it can stand in the name of a file."""
    return re.sub(r"[^\w.-]", "_", shown(plan.case.name))


def next_files(
    plan: Plan, texts: Texts, folder: str, carry: bool, left: collections.abc.Collection[int] = ()
) -> list[tuple[str, bytes]]:
    """The files of the next month, in the program's order: their names and their bytes."""
    name, scenario = file_name(plan), scenario_text(plan, texts, left)
    weeks = [(f"WD-{name}-{week}.txt", data) for week, data in enumerate(needs_texts(plan, texts))]
    files = [(f"Sc-{name}.txt", scenario), (f"H0-{name}-0.txt", history_text(plan, carry, left)), *weeks]
    return [(os.path.join(folder, name), data) for name, data in files]


def write_next(roster: Program, plan: Plan, files: list[tuple[str, bytes]]) -> None:
    """Writes the files, once they are read back and the program takes them."""
    with contextlib.ExitStack() as stack:
        new = [stack.enter_context(Replacement(name, data)) for name, data in files]
        back = with_no_solutions(Texts([Text(file.name, file.read()) for file in new]))
        roster.ask(["show"], back)
        case = plan_in(back).case
        if (case.needs, case.contracts, case.requests) != (plan.case.needs, plan.case.contracts, set()):
            message = f"{shown(files[0][0])}: read back it is another ward; nothing is written"
            raise DeskError(f"{message}. This is a fault of the desk", 3)
        for file in new:
            file.put()
