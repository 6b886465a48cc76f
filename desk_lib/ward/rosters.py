"""Rosters of a ward: how one is searched for and kept, repaired by few changes, taken and published."""
import dataclasses
import datetime
import os
import tempfile
import time

from desk_lib import breaches, commands, improve, lower_bound, near, program, table_in
from desk_lib.asked_texts import Asked
from desk_lib.asks import Asks
from desk_lib.case import Roster
from desk_lib.days import day_of, day_text, now, with_dates
from desk_lib.given import Given, both_plans, settled, write
from desk_lib.grammar import WORD
from desk_lib.model import Plan, choice_name, roster_in
from desk_lib.options import ImproveOptions
from desk_lib.program import Program
from desk_lib.tables import aligned
from desk_lib.texts import DeskError, Text, Texts, plural, read_file, shown
from desk_lib.ward.options import PublishOptions, RepairOptions, TakeOptions
from desk_lib.ward.store import Candidate, Publication, StoredRoster, Ward, author, changing, moment
from desk_lib.ward.texts import days_of, input_texts

# How many nurses a line of candidates names.
NAMED = 4


def ward_of(given: Given) -> Ward:
    """The ward of a command that takes nothing else."""
    if given.ward is None:
        word = given.options.common.files[0] if given.options.common.files else ""
        raise DeskError(f"{shown(word)}: this is no ward; the name of a ward ends with .ward, and 'desk new' makes one", 2)
    return given.ward


def with_roster(ward: Ward, solutions: bytes) -> Texts:
    """The texts of a ward with these solutions."""
    return Texts([*input_texts(ward), Text(f"{ward.name} (roster)", solutions, "sols")])


def with_asks(given: Given, texts: Texts) -> Texts:
    """The texts with the asks, which are put into no roster."""
    plan = program.plan_in(texts)
    return Asked(Asks(given.text, plan, given.start, b"", given.held)).added_to(texts, with_duties=False)


def stored(
    given: Given, roster: Program, solutions: bytes, source: str, seed: int | None = None, searches: int | None = None
) -> StoredRoster:
    """A roster to be kept, with its penalty if it keeps the hard rules."""
    texts = with_asks(given, with_roster(ward_of(given), solutions))
    answer = roster.call(["cost"], texts.joined)
    if answer.status and not breaches.BREACH.match(answer.last()):
        raise program.refusal("cost", answer, texts)
    penalty = None if answer.status else lower_bound.number_of(answer.output.splitlines()[-1])
    return StoredRoster(solutions, penalty, source, seed, searches, moment())


def keep(given: Given, roster: StoredRoster, note: str) -> int:
    """Makes a roster the working one, by a new version; returns the version's number."""
    with changing(ward_of(given)) as writer:
        assert writer.ward
        state = dataclasses.replace(writer.ward.state, roster=roster)
        return writer.add_version(note, state).number


# ---- improve


def improved(options: ImproveOptions, given: Given, roster: Program) -> int:
    """Makes a run, and keeps the roster that it comes to, even if something ends it early."""
    ward, kept = ward_of(given), list[improve.Run]()
    before = ward.state.roster.solutions if ward.state.roster else None
    runs: list[improve.Run] = []
    with tempfile.TemporaryDirectory(prefix="desk-ward-") as folder:
        out = improve.Out(os.path.join(folder, "roster.txt"), ward.name)
        try:
            commands.improved(options, given, roster, out, runs)
        finally:
            kept = [run for run in runs if run.saved and run.solutions != before]
            for run in kept:
                keep_run(given, roster, run, options)
    if not kept:
        program.warn(f"{shown(ward.name)}: the roster is the one that was there, so there is no new version")
    if options.publish:
        # (the ward has the new roster by now)
        given = settled(options)
        publish(given, roster, ward_of(given).state.roster)
    return 0


def keep_run(given: Given, roster: Program, run: improve.Run, options: ImproveOptions) -> None:
    """Keeps the roster of a run. If the ward has another version by now, it is kept as a candidate."""
    how = "plan" if options.plan else "improve"
    made = stored(given, roster, run.solutions, f"{how}, after {run.saved}", run.seed, run.searches or None)
    try:
        number = keep(given, made, f"{how}: {made.cost()}, {run.changes()}")
    except DeskError as why:
        candidate = candidate_of(given, run.start, made, how)
        with changing(ward_of(given), is_strict=False) as writer:
            writer.add_candidates([candidate])
        raise DeskError(
            f"{why}, or 'desk take {shown(ward_of(given).name)} 1': the roster is kept as a candidate", why.status
        ) from None
    program.warn(
        f"{shown(ward_of(given).name)}: version {number} has the new roster; 'desk undo {shown(ward_of(given).name)}' takes it back"
    )


def candidate_of(given: Given, plan: Plan, made: StoredRoster, how: str) -> Candidate:
    """A roster as a candidate."""
    now = roster_in(with_roster(ward_of(given), made.solutions))
    found = near.near_of(plan, how, made.solutions, now, made.penalty or 0)
    return Candidate(made, how, found.days, found.skills, found.nurses)


# ---- repair


def run_repair(options: RepairOptions, given: Given, roster: Program) -> int:
    """Looks for rosters with few changes from today on, and keeps them as candidates. Asks that are given with it are added first."""
    ward = ward_of(given)
    last = ward.state.input.start + datetime.timedelta(days_of(ward) - 1)
    if not given.today and now().astimezone().date() > last:
        raise DeskError(f"{shown(ward.name)}: its last day is {last}, which is past; say by --from which day is today", 2)
    roster.must_know("plan")
    end = None if options.seconds is None else time.monotonic() + options.seconds
    if options.line:
        given = with_new_asks(options, given)
        ward = ward_of(given)
    [(texts, plan)] = both_plans(given, roster)
    commands.check_shortages(plan, given.first_week, ward.name)
    found, made = repaired(options, given, roster, texts, plan, end)
    is_same = len(found) == 1 and found[0].roster == plan.before
    if is_same:
        write(
            [f"{shown(ward.name)}: the roster keeps all hard rules and asks that no day may break, so there is nothing to repair"]
        )
        return 0
    with changing(ward) as writer:
        writer.add_candidates(made)
    write(candidate_lines(plan, found, ward))
    return 0


def with_new_asks(options: RepairOptions, given: Given) -> Given:
    """What the command works on, once the asks that were given with it are added."""
    # (that module needs this one)
    from desk_lib.ward import asking

    asks, _, ward = asking.added(given, options.line, may_be_there=True)
    write(asking.line_of(ask, ward) for ask in asks)
    return settled(options)


def repaired(
    options: RepairOptions, given: Given, roster: Program, texts: Texts, plan: Plan, end: float | None
) -> tuple[list[near.Near], list[Candidate]]:
    """The rosters with few changes, and the candidates that they are."""
    searches = options.searches if options.searches is not None or end is not None else near.SEARCHES
    seed, found = 1 if options.seed is None else options.seed, list[near.Near]()
    with tempfile.TemporaryDirectory(prefix="desk-ward-") as folder:
        bound_search = lower_bound.BoundSearch(given.first_week, True)
        progress = improve.Progress(None, bound_search, is_quiet=True)
        out = improve.Out(os.path.join(folder, "roster.txt"), ward_of(given).name)
        run = improve.Run(roster, plan, texts, out, progress)
        improve.finish(run, [seed], lambda: found.extend(near.found_by(run, searches, seed, end)))
    made = []
    for one in found:
        of_one = StoredRoster(one.solutions, one.cost, f"repair, {one.how}", seed, run.searches or None, moment())
        made.append(Candidate(of_one, one.how, one.days, one.skills, one.nurses))
    return found, made


def candidate_lines(plan: Plan, found: list[near.Near], ward: Ward) -> list[str]:
    """A table of candidates side by side, and who changes in each."""
    rows = [["", "days", "skills", "nurses", "penalty", "who changes"]]
    for number, one in enumerate(found, 1):
        rows.append([str(number), str(one.days), str(one.skills), str(one.nurses), str(one.cost), who_changes(plan, one.roster)])
    lines = aligned(rows)
    # (the names stand to the left, as words do)
    width = max(map(len, lines)) - max(len(row[-1]) for row in rows)
    table = [line[:width].rstrip() + "  " + row[-1] for line, row in zip(lines, rows)]
    also = f", and 'desk publish {shown(ward.name)} 1' publishes it as well" if ward.state.publication else ""
    return [*table, f"'desk take {shown(ward.name)} 1' makes the first of them the working roster{also}"]


def who_changes(plan: Plan, after: Roster) -> str:
    """The nurses who have another row, those with the most days first."""
    counts = [(sum(was != now for was, now in zip(*rows)), number) for number, rows in enumerate(zip(plan.before, after))]
    changed = sorted((-count, number) for count, number in counts if count)
    names = [f"{shown(plan.case.nurses[number].name)} {-count}" for count, number in changed]
    more = f" and {len(names) - NAMED} more" if len(names) > NAMED else ""
    return ", ".join(names[:NAMED]) + more


# ---- take and publish


def run_take(options: TakeOptions, given: Given, roster: Program) -> int:
    """Makes a candidate the working roster, or one of a file."""
    ward = ward_of(given)
    taken, note = chosen(given, roster, options.what)
    if ward.state.roster and taken.solutions == ward.state.roster.solutions:
        raise DeskError(f"{shown(ward.name)}: this is the working roster already; nothing was changed")
    version = keep(given, taken, f"take: {note}")
    write(
        [
            f"{shown(ward.name)}: version {version} has this roster, {taken.cost()}",
            *[publish_hint(ward)] * bool(ward.state.publication),
        ]
    )
    return 0


def chosen(given: Given, roster: Program, what: str) -> tuple[StoredRoster, str]:
    """The roster that a number of a candidate or the name of a file means, and a note of which it is."""
    ward = ward_of(given)
    if not (what.isascii() and what.isdigit()):
        found = of_file(given, roster, what)
        return found, f"{shown(os.path.basename(what))}, {found.cost()}"
    number = int(what)
    if not 1 <= number <= len(ward.candidates):
        has = f"there are {len(ward.candidates)}" if ward.candidates else "there are none for this version"
        raise DeskError(f"{shown(ward.name)}: no candidate {number}: {has}; 'desk repair {shown(ward.name)}' looks for some", 2)
    found = ward.candidates[number - 1].roster
    return found, f"candidate {number}, {found.cost()}"


def take_swapped(given: Given, roster: Program, solutions: bytes, who: str) -> None:
    """Makes a roster with a swap the working one."""
    ward = ward_of(given)
    taken = stored(given, roster, solutions, f"swap of {who}")
    version = keep(given, taken, f"swap: {who}, {taken.cost()}")
    write([f"{shown(ward.name)}: version {version} has this roster", *[publish_hint(ward)] * bool(ward.state.publication)])


def publish_hint(ward: Ward) -> str:
    return (
        f"what changes of the published days: 'desk changes {shown(ward.name)}'; 'desk publish {shown(ward.name)}' publishes it"
    )


def of_file(given: Given, roster: Program, name: str) -> StoredRoster:
    """The roster of a file of solutions, or of a table."""
    ward = ward_of(given)
    text = read_file(name, "sols")
    case = table_in.case_of(Texts(input_texts(ward)))
    solutions = table_in.solutions_in(text, case) if case else text
    count, weeks = WORD.findall(solutions.data).count(b"SOLUTION"), len(ward.state.input.weeks)
    if count != weeks:
        has = plural(count, "solution")
        raise DeskError(f"{shown(name)}: it has {has}, and the ward {plural(weeks, 'week')}; give those of all weeks in one file")
    texts = Texts([*input_texts(ward), solutions])
    canonical = roster.ask(["show"], texts).output
    found = stored(given, roster, canonical, f"file {shown(os.path.basename(name))}")
    if found.penalty is None and not given.options.common.force:
        message = f"{shown(name)}: this roster breaks hard rules: {broken(given, canonical)}"
        raise DeskError(f"{message}; nothing was changed. Give --force to take it all the same")
    return found


def broken(given: Given, solutions: bytes) -> str:
    """The first hard rule that a roster breaks, and how many more."""
    plan = program.plan_in(with_asks(given, with_roster(ward_of(given), solutions)))
    lines = breaches.breach_lines(breaches.all_breaches(plan))
    return with_dates(lines[0]) + (f" (and {len(lines) - 1} more)" if lines[1:] else "")


def run_publish(options: PublishOptions, given: Given, roster: Program) -> int:
    """Publishes a roster up to a day: the working one, or one that becomes it."""
    ward = ward_of(given)
    if len(options.what) > 1:
        message = f"publish: {shown(options.what[0])} and {shown(options.what[1])} are given; give one roster"
        raise DeskError(message, 2)
    working, note = chosen(given, roster, options.what[0]) if options.what else (ward.state.roster, "")
    publish(given, roster, working, options.until, f"{note}, " if note else "")
    return 0


def publish(given: Given, roster: Program, working: StoredRoster | None, until: str | None = None, note: str = "") -> None:
    """Publishes a roster up to a day, and makes it the working one by the same version."""
    ward = ward_of(given)
    if working is None:
        raise DeskError(
            f"{shown(ward.name)}: this ward has no roster yet; 'desk improve --plan {shown(ward.name)}' looks for one"
        )
    days = days_until(given, until)
    check_publication(given, roster, working, days)
    changes, count = published_changes(ward, working), changes_since(given, ward.state.publication, working)
    published = Publication(working, days, author(), moment())
    with changing(ward) as writer:
        assert writer.ward
        state = dataclasses.replace(writer.ward.state, roster=working, publication=published)
        number = writer.add_version(f"publish: {note}to {day_text(days - 1)}{count}", state).number
    write([f"{shown(ward.name)}: published to {day_text(days - 1)}{count}, in version {number}", *changes])


def days_until(given: Given, until: str | None) -> int:
    """How many days are published, up to this one or to the last."""
    every = days_of(ward_of(given))
    try:
        days = every if until is None else day_of(os.fsencode(until), given.start) + 1
    except DeskError:
        raise DeskError(f"--until {shown(until or '')}: a date is due, as {given.start}", 2) from None
    if not 1 <= days <= every:
        raise DeskError(
            f"--until {shown(until or '')}: this is none of the ward's days, {day_text(0)} to {day_text(every - 1)}", 2
        )
    return days


def check_publication(given: Given, roster: Program, working: StoredRoster, days: int) -> None:
    """Stops if this roster can't be published so far: fewer days than before, none that is new, or hard rules that are broken."""
    ward, before = ward_of(given), ward_of(given).state.publication
    if before and days < before.days:
        message = f"{shown(ward.name)} is published to {day_text(before.days - 1)} already"
        raise DeskError(f"{message}; 'desk undo {shown(ward.name)}' takes that back")
    found = stored(given, roster, working.solutions, working.source)
    if found.penalty is None and not given.options.common.force:
        message = f"{shown(ward.name)}: the roster breaks hard rules: {broken(given, working.solutions)}; nothing was published"
        raise DeskError(f"{message}. 'desk repair {shown(ward.name)}' looks for one that keeps them, or give --force")
    if before and before.days == days and before.roster.solutions == working.solutions:
        raise DeskError(f"{shown(ward.name)}: this roster is published to {day_text(days - 1)} already; nothing was changed")


def changes_since(given: Given, before: Publication | None, working: StoredRoster | None = None) -> str:
    """How many published days change, as a clause: by this roster, or by the working one."""
    ward = ward_of(given)
    roster = working or ward.state.roster
    if not before or not roster:
        return ""
    return f", {plural(len(published_changes(ward, roster)), 'published day')} changed"


def published_changes(ward: Ward, working: StoredRoster) -> list[str]:
    """The published days on which a roster is another than what was published, as old > new."""
    before = ward.state.publication
    if not before:
        return []
    plan = program.plan_in(with_roster(ward, working.solutions))
    return difference_lines(plan, roster_in(with_roster(ward, before.roster.solutions)), before.days)


def difference_lines(plan: Plan, was: Roster, days: int) -> list[str]:
    """The days, of the first ones, on which a plan's roster is another than one before, by nurse."""
    lines = []
    for nurse, old, new in zip(plan.case.nurses, was, plan.roster):
        for day in (day for day in range(days) if old[day] != new[day]):
            then, after = (choice_name(plan.case, choice) for choice in (old[day], new[day]))
            lines.append(f"{shown(nurse.name)}, {day_text(day)}: {then} > {after}")
    return lines


def published_roster(ward: Ward, plan: Plan) -> Roster | None:
    """The roster that was published, with the present one on days that weren't; None if none was."""
    published = ward.state.publication
    return None if published is None else compared_with(ward, published, plan.roster)


def compared_with(ward: Ward, published: Publication, after: Roster) -> Roster:
    """What was published, with a later roster on the other days."""
    was = roster_in(with_roster(ward, published.roster.solutions))
    return [[*old[: published.days], *new[published.days :]] for old, new in zip(was, after)]
