"""The versions of a ward: their list, undo and redo, what differs between two, and a backup."""
import collections.abc
import dataclasses

from desk_lib import program
from desk_lib.days import day_text
from desk_lib.given import Given, write
from desk_lib.model import roster_in
from desk_lib.program import Program
from desk_lib.texts import DeskError, plural, shown
from desk_lib.ward import file
from desk_lib.ward.options import BackupOptions, DiffOptions, MoveOptions, WardOptions
from desk_lib.ward.rosters import difference_lines, ward_of, with_roster
from desk_lib.ward.store import REDO, UNDO, State, StoredRoster, Version, Ward, Writer, changing
from desk_lib.ward.texts import texts_of


def undone(versions: collections.abc.Iterable[Version]) -> tuple[list[int], list[int]]:
    """The versions whose states undo goes back through, the present one last, and those that redo goes forward to, the next one last."""
    before: list[int] = []
    after: list[int] = []
    for version in versions:
        if version.kind == UNDO:
            after.append(before.pop())
        elif version.kind == REDO:
            before.append(after.pop())
        else:
            before.append(version.first)
            after = []
    return before, after


def note_of(version: Version) -> str:
    return f"version {version.first} ({version.note})"


def run_versions(_: WardOptions, given: Given, __: Program) -> int:
    """Lists the versions."""
    ward = ward_of(given)
    rows = [["", "when (UTC)", "who", "what"]]
    rows += [[str(version.number), version.made, version.author, version.note] for version in ward.versions]
    # (aligned to the left, as words are)
    widths = [max(len(row[at]) for row in rows) for at in range(3)]
    write("  ".join([*(cell.ljust(width) for cell, width in zip(row, widths)), row[3]]).rstrip() for row in rows)
    return 0


def move(options: MoveOptions, given: Given, kind: str) -> int:
    """Adds a version for each change that is undone, or done again: it has the state of before it, or after it."""
    ward = ward_of(given)
    with changing(ward) as writer:
        check_moves(ward, kind, options.count)
        versions = [moved(writer, kind) for _ in range(options.count)]
    lines = [f"{shown(ward.name)}: version {version.number}, {version.note}" for version in versions]
    write([*lines[:-1], f"{lines[-1]}: it has the asks, the roster and the publication of version {versions[-1].first}"])
    return 0


def check_moves(ward: Ward, kind: str, count: int) -> None:
    """Stops if there aren't as many changes to undo, or to do again."""
    before, after = undone(ward.versions)
    there = len(before) - 1 if kind == UNDO else len(after)
    if not there:
        why = "this is the ward as it was made" if kind == UNDO else "nothing was undone since the last change"
        raise DeskError(f"{shown(ward.name)}: there is nothing to {kind}; {why}")
    if count > there:
        has = "there is 1 change" if there == 1 else f"there are {there} changes"
        raise DeskError(f"{shown(ward.name)}: {kind} {count}: {has} to {kind}; nothing was changed", 2)


def moved(writer: Writer, kind: str) -> Version:
    """Adds the version for one change that is undone, or done again."""
    assert writer.ward
    ward = writer.ward
    before, after = undone(ward.versions)
    target = ward.version(before[-2] if kind == UNDO else after[-1])
    of = ward.version(before[-1]) if kind == UNDO else target
    version = writer.add_version(f"{kind} of {note_of(of)}", target.state, kind, target.number)
    writer.ward = dataclasses.replace(ward, versions=(*ward.versions, version))
    return version


def run_undo(options: MoveOptions, given: Given, _: Program) -> int:
    """Goes back by one change, or by several."""
    return move(options, given, UNDO)


def run_redo(options: MoveOptions, given: Given, _: Program) -> int:
    """Goes forward by changes that were undone."""
    return move(options, given, REDO)


# ---- what differs


def run_diff(options: DiffOptions, given: Given, _: Program) -> int:
    """Lists what differs between two versions."""
    ward = ward_of(given)
    first = ward.version(options.first)
    second = ward.current if options.second is None else ward.version(options.second)
    lines = [*input_lines(first.state, second.state), *ask_lines(first.state, second.state)]
    lines += [*published_lines(first.state, second.state), *roster_lines(ward, first.state, second.state)]
    write(lines or [f"versions {first.number} and {second.number} have the same asks, roster and publication"])
    return 0


def input_lines(first: State, second: State) -> list[str]:
    was, now = first.input, second.input
    return [f"shifts: {', '.join(shift_text(shift) for shift in now.shifts) or 'none'}"] if was.shifts != now.shifts else []


def shift_text(shift: object) -> str:
    fields = [shown(value) for value in vars(shift).values() if value]
    return " ".join(fields)


def ask_lines(first: State, second: State) -> list[str]:
    """Asks that one of the two has alone."""
    was, now = ({ask.number: ask for ask in state.asks} for state in (first, second))
    gone = [f"- ask {number}  {shown(ask.line)}" for number, ask in was.items() if number not in now]
    return gone + [f"+ ask {number}  {shown(ask.line)}" for number, ask in now.items() if number not in was]


def published_lines(first: State, second: State) -> list[str]:
    def text(state: State) -> str:
        return f"to {day_text(state.publication.days - 1)}" if state.publication else "nothing"

    is_same = first.publication == second.publication
    return [] if is_same else [f"published: {text(first)} > {text(second)}"]


def roster_lines(ward: Ward, first: State, second: State) -> list[str]:
    """The days on which the rosters differ, by nurse, and what both cost."""

    def cost(roster: StoredRoster | None) -> str:
        return "none" if roster is None else roster.cost()

    if first.roster == second.roster:
        return []
    lines = [f"roster: {cost(first.roster)} > {cost(second.roster)}"]
    if first.roster is None or second.roster is None:
        return lines
    with_state = dataclasses.replace(ward.current, state=second)
    plan = program.plan_in(texts_of(dataclasses.replace(ward, versions=(with_state,))))
    was = roster_in(with_roster(ward, first.roster.solutions))
    days = difference_lines(plan, was, plan.days)
    return [*lines, *days, f"{plural(len(days), 'day')} changed"]


def run_backup(options: BackupOptions, given: Given, _: Program) -> int:
    """Writes a whole copy."""
    ward = ward_of(given)
    file.back_up(ward.name, options.file)
    write([f"{shown(options.file)}: a whole copy of {shown(ward.name)}, up to version {ward.current.number} at least"])
    return 0
