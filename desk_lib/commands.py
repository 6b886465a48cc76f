"""The commands of the desk: each takes its options, what they give and the program, and returns the status."""
import os
import re
import time

from desk_lib import (
    asked_texts,
    asks,
    balances,
    breaches,
    calendar_file,
    check,
    days,
    grid,
    improve,
    lower_bound,
    near,
    next_month,
    outputs,
    page,
)
from desk_lib import plot, polish, program, replacing, shortage, split, swap, tables, views, who
from desk_lib.costs import Costing
from desk_lib.days import day_in, days_in
from desk_lib.given import SOLUTIONS, Given, asks_of, both_plans, costings, files_read, reported_asks, texts_of, write
from desk_lib.given import write_bytes, write_text
from desk_lib.case import Roster
from desk_lib.model import Plan
from desk_lib.options import ChangesOptions, CheckOptions, CostsOptions, CsvOptions, GridOptions, HistoryOptions, IcsOptions
from desk_lib.options import ImproveOptions, NextOptions, Options, PageOptions, SplitOptions, SwapOptions, WeeksOptions
from desk_lib.options import WhoOptions, WhyOptions
from desk_lib.program import Program
from desk_lib.sheet import Sheet
from desk_lib.texts import DeskError, Texts, plural, read_file, shown
from desk_lib.ward.naming import is_ward
from desk_lib.why import nurse_in, why_lines


def run_check(options: CheckOptions, given: Given, roster: Program) -> int:
    lines, status = check.check(roster, texts_of(given), lambda plan: reported_asks(given, plan))
    write(lines)
    return status


def run_costs(options: CostsOptions, given: Given, roster: Program) -> int:
    if options.common.since != "0" and not options.bound:
        raise DeskError("--from: this is of the lower bound; ask for one by --bound", 2)
    pairs = both_plans(given, roster)
    *before, costing = costings(options, roster, pairs, options.common.other is not None or given.ward is not None)
    old = before[0] if before else None
    bound = bound_by(roster, pairs[-1][0], given.first_week) if options.bound else None
    broken = breaches.all_breaches(old.plan) if old else breaches.all_breaches(costing.plan) if given.ward else []
    for line in breaches.breach_lines(broken):
        program.warn(line)
    if broken:
        which = "the first roster" if old else "the roster"
        program.warn(f"so {which} breaks {plural(len(broken), 'hard rule')}, which no cost has a part of")
    if options.json:
        write([tables.json_text(costing, old, bound)])
        return 0
    lines = tables.cost_lines(costing, old, balances_of(given, costing, old.plan.before if old else None).lines())
    if bound is not None:
        lines += lower_bound.lines(costing.penalty, bound, has_frozen(given.first_week, costing.plan))
    write(lines)
    return 0


def sheet_of(given: Given, roster: Program) -> tuple[Sheet, Costing | None, Texts]:
    """What a grid shows: the roster, or the second one with its changes."""
    pairs = both_plans(given, roster)
    *before, costing = costings(given.options, roster, pairs, may_break=True)
    old = before[0] if before else None
    was = old.plan.before if old else published_before(given, costing.plan)
    sheet = Sheet(costing, was, given.first_week, given.start, given.held.published)
    return sheet, old, pairs[-1][0]


def published_before(given: Given, plan: Plan) -> Roster | None:
    """The roster that a ward published, if it published one."""
    if given.ward is None or given.ward.state.publication is None:
        return None
    # (other commands start the quicker without this import)
    from desk_lib.ward.rosters import published_roster

    return published_roster(given.ward, plan)


def run_grid(options: GridOptions, given: Given, roster: Program) -> int:
    sheet, _, _ = sheet_of(given, roster)
    write(grid.grid_lines(sheet, options.skills, options.width))
    return 0


def run_page(options: PageOptions, given: Given, roster: Program) -> int:
    log = plot.points_in(read_file(options.log).data, options.log) if options.log else []
    sheet, before, texts = sheet_of(given, roster)
    bound = bound_by(roster, texts, given.first_week) if options.bound else None
    nurse = None if options.nurse is None else nurse_in(sheet.costing.plan, options.nurse)
    title = f"Roster {shown(sheet.case.name)}" if options.title is None else options.title
    if nurse is not None and options.months:
        raise DeskError("--nurse names one nurse, and --months is of all; give one of the two", 2)
    looks = colours_of(given, sheet.costing.plan), balances_of(given, sheet.costing, before.plan.before if before else None)
    wanted = page.Wanted(title, roster.version(), options.notice, nurse, options.months, *looks)
    write_text(options.out, page.Page(sheet, before, log, bound, wanted).text())
    return 0


def colours_of(given: Given, plan: Plan) -> tuple[tuple[int, str], ...]:
    """The colours that a ward gives to its shifts."""
    chosen = {shift.name: shift.colour for shift in given.ward.state.input.shifts} if given.ward else {}
    colours = [(number, chosen.get(shift.name, "")) for number, shift in enumerate(plan.case.shifts)]
    return tuple((number, colour) for number, colour in colours if colour)


def balances_of(given: Given, costing: Costing, before: Roster | None) -> balances.Balances:
    """What each nurse has had, with the changes of a roster before; a ward also knows the months before, and what was published."""
    if given.ward is None:
        plan = costing.plan
        changes = [sum(was != now for was, now in zip(*rows)) for rows in zip(before or plan.roster, plan.roster)]
        return balances.Balances(balances.of_month(costing, balances.night_shifts(plan, {}), changes), {})
    # (other commands start the quicker without this import)
    from desk_lib.ward.balances import balances_of as of_ward

    return of_ward(given.ward, costing)


def run_changes(options: ChangesOptions, given: Given, roster: Program) -> int:
    sheet, _, _ = sheet_of(given, roster)
    if given.ward and not sheet.is_compared:
        message = f"{shown(given.ward.name)}: nothing is published yet, so nothing has changed since"
        raise DeskError(f"{message}; 'desk publish {shown(given.ward.name)}' publishes the roster")
    if not (options.common.other or given.ward):
        raise DeskError("changes: --with names the second roster", 2)
    write(views.change_lines(sheet))
    return 0


def run_csv(options: CsvOptions, given: Given, roster: Program) -> int:
    [(_, plan)] = both_plans(given, roster)
    write_text(options.out, tables.csv_text(plan, given.start))
    return 0


def check_day(word: str, form: str) -> None:
    """Stops if a word has no form of a day: a file stands there, since the day was left out."""
    if not days.is_day(os.fsencode(word)):
        raise DeskError(f"'{shown(word)}' stands here, and a day is due, as 0:Mon; the form is 'desk {form} FILE..'", 2)


def run_why(options: WhyOptions, given: Given, roster: Program) -> int:
    check_day(options.day, "why NURSE DAY")
    pairs = both_plans(given, roster)
    [costing] = costings(options, roster, pairs)
    day = day_in(os.fsencode(options.day), costing.case.weeks, given.start)
    write(why_lines(roster, pairs[0][0], costing, options.nurse, day))
    return 0


def bound_by(roster: Program, texts: Texts, first_week: int) -> int:
    """The lower bound by `roster bound`."""
    return lower_bound.found_by(roster, texts, first_week)[1]


def has_frozen(first_week: int, plan: Plan) -> bool:
    """Whether some days are frozen."""
    return bool(first_week or plan.case.fixed)


# ---- improve


def check_search(options: ImproveOptions) -> None:
    """Refuses options of a search if there is none that takes them."""
    has_polish = options.polish is not None or options.seconds is not None
    if options.seeds and not has_polish:
        raise DeskError("--seeds: these are the seeds of polish; say how long by --polish or --seconds", 2)
    if options.seeds and options.seed is not None:
        raise DeskError("--seed and --seeds: these name the seeds of the same runs; give one of the two", 2)
    if options.seed is not None and not (has_polish or options.plan):
        raise DeskError("--seed: this is the seed of polish and of plan; say how long by --polish or --seconds", 2)
    if options.rounds is not None and options.plan:
        raise DeskError("--rounds: with --plan there are no rounds; leave one of the two out", 2)


def check_near(options: ImproveOptions) -> None:
    """Refuses options that can't be given with --few or --keep."""

    def leave_out(message: str, *names: str) -> None:
        given = [f"--{name}" for name in names if getattr(options, name) not in (None, False)]
        if given:
            raise DeskError(f"{message}; leave {' and '.join(given)} out", 2)

    if options.candidate is not None and not options.few:
        raise DeskError("--candidate: this is one of the rosters that --few finds; give that, too", 2)
    if options.few:
        several = "--few: it asks 'roster plan' with several --keep, by one seed"
        leave_out(several, "plan", "rounds", "keep", "bound", "seeds")
    if options.keep is not None:
        message = "--keep: changes count from the roster given, so there is one run of roster"
        leave_out(f"{message}, by one seed, and no lower bound", "bound", "seeds")
        if options.seconds is not None and not options.plan:
            raise DeskError(f"{message}; say how long by --polish or --rounds, or look by --plan", 2)


def run_improve(options: ImproveOptions, given: Given, roster: Program) -> int:
    check_search(options)
    check_near(options)
    if given.ward:
        check_of_ward(options, given.ward.name)
        from desk_lib.ward import rosters

        return rosters.improved(options, given, roster)
    if options.publish:
        raise DeskError("--publish: this is of a ward; files have nothing that says what is published. Leave it out", 2)
    if not options.out:
        raise DeskError("improve: --out names the file of the roster, as --out better.txt; only a ward needs none", 2)
    improved(options, given, roster, improve.Out(options.out, options.out))
    return 0


def check_of_ward(options: ImproveOptions, name: str) -> None:
    """Refuses options that are of files."""
    if options.out:
        message = f"--out {shown(options.out)}: the roster of {shown(name)} is kept in it; 'desk export' writes files"
        raise DeskError(f"{message}. Leave --out away", 2)
    if options.few:
        raise DeskError(f"--few: with a ward 'desk repair {shown(name)}' looks for few changes", 2)


def improved(
    options: ImproveOptions,
    given: Given,
    roster: Program,
    out: improve.Out,
    kept: list[improve.Run] | None = None,
    watching: improve.Watching = improve.Progress,
) -> None:
    """Makes a run, whose roster is in a file at the end. What is begun is put into the list, whatever ends it."""
    end = None if options.seconds is None else time.monotonic() + options.seconds
    [(texts, plan)] = both_plans(given, roster)
    is_planned, is_polished = options.plan or options.few, options.polish is not None or end is not None
    for command in ["plan"] * is_planned + ["polish"] * is_polished:
        roster.must_know(command)
    warn_of_frozen(given, plan)
    if is_planned:
        check_shortages(plan, given.first_week, given.ward.name if given.ward else "")
    bound_search = lower_bound.BoundSearch(given.first_week, has_frozen(given.first_week, plan))
    run = run_of(options, roster, texts, plan, out, watching(options.log, bound_search, False))
    if kept is not None:
        kept.append(run)
    seeds, lines = seeds_of(options), []
    wanted = asks_of(given, plan)

    def work() -> None:
        lines.extend(search(options, run, seeds, end))

    improve.finish(run, seeds, work)
    failed = wanted.failed(program.plan_in(run.texts()).roster) if wanted else []
    for line in [*lines, *failed]:
        program.warn(line)


def seeds_of(options: ImproveOptions) -> list[int]:
    return options.seeds or [1 if options.seed is None else options.seed]


def warn_of_frozen(given: Given, plan: Plan) -> None:
    """Says so if no day may change."""
    days = given.held.published
    if given.ward and days >= plan.days:
        message = f"{shown(given.ward.name)} is published to its last day, so nothing can change"
        program.warn(f"{message}; 'desk repair' changes published days, by few changes")
    elif given.first_week >= plan.case.weeks:
        message = f"--from {given.first_week}: the roster has {plural(plan.case.weeks, 'week')}, so all days are frozen"
        program.warn(f"{message}, and nothing can change")


def check_shortages(plan: Plan, first_week: int, ward: str = "") -> None:
    """Stops if no roster can keep the minimums, whatever is searched, and says why; and how they are lowered, in the ward of this name if
    it is one."""
    over_all = shortage.short_over_all(plan)
    if over_all:
        program.warn(f"warning: {over_all}")
    found = shortage.shortages(plan, first_week)
    for short in found:
        program.warn(short.line(plan.case))
    if found:
        days = plural(len({short.day for short in found}), "day")
        message = f"on {days} fewer can come than the minimums need, so no roster keeps them, and none was looked for"
        how = f"these asks, as 'desk ask {shown(ward)} \"need ..\"'" if ward else "these lines 'need' in the text of --asks"
        raise DeskError(f"{message}; lower them by {how}")


def run_of(
    options: ImproveOptions, roster: Program, texts: Texts, plan: Plan, out: improve.Out, progress: improve.Progress
) -> improve.Run:
    """A run that begins with the roster of the texts."""
    run = improve.Run(roster, plan, texts, out, progress, options.keep)
    for text in texts.texts:
        if outputs.identity(text.name) == outputs.identity(out.path):
            # (it may have changed since it was read)
            run.there = text.read
    return run


def search(options: ImproveOptions, run: improve.Run, seeds: list[int], end: float | None) -> list[str]:
    """All that `improve` makes, one after the other. Returns the lines for the end."""
    if options.few:
        return near.repair(run, options.polish, seeds[0], end, options.candidate or 1)
    rounds = 100 if options.rounds is None else options.rounds
    if options.plan:
        run.plan(options.polish, seeds[0], end)
    elif options.keep is not None and options.polish is not None:
        run.whole(["polish", "--searches", str(options.polish), "--seed", str(seeds[0])])
    elif options.keep is not None:
        run.whole(["improve", "--rounds", str(rounds)])
    if options.keep is not None:
        return [near.changes_text(run)]
    is_optimal = options.bound and run.seek_bound(options.seconds)
    if not options.plan:
        run.rounds(0 if is_optimal else rounds, end)
    if options.polish is not None or end is not None:
        polish.go_on(run, polish.Course(options.polish, seeds, end))
    return []


# ---- single shifts, and files for other programs


def run_who(options: WhoOptions, given: Given, roster: Program) -> int:
    roster.must_know("who")
    [(texts, plan)] = both_plans(given, roster)
    write(who.who_lines(options.shift or [], roster, texts, plan, given.start, given.first_week))
    return 0


def run_swap(options: SwapOptions, given: Given, roster: Program) -> int:
    if options.take and options.out:
        raise DeskError("--take keeps the roster in the ward, and --out writes it into a file; give one of the two", 2)
    if options.out == "-":
        message = "--out -: the roster goes into a file, and what the swap costs to standard output; give the name of a file"
        raise DeskError(message, 2)
    check_day(options.day, "swap A B DAYS")
    words, files = swap.days_and_files(options.day, options.common.files)
    given = given.with_files(files)
    if options.take and not given.ward:
        raise DeskError("--take: this is of a ward; --out names the file of the roster", 2)
    [(texts, plan)] = both_plans(given, roster)
    nurses = swap.nurses_in(plan, options.nurse, options.other_nurse)
    swapped = swap.Swap(roster, texts, plan, nurses, days_in(words, plan.case.weeks, given.start), given.first_week)
    write(swapped.lines())
    refused = swap.refused(swapped, options.out)
    if refused:
        raise refused
    if options.out:
        swapped.write(options.out)
    if options.take:
        from desk_lib.ward import rosters

        who = f"{options.nurse} and {options.other_nurse}, {b' '.join(words).decode('utf-8', 'replace')}"
        rosters.take_swapped(given, roster, swapped.solutions(), who)
    return 0


def run_history(options: HistoryOptions, given: Given, roster: Program) -> int:
    [(_, plan)] = both_plans(given, roster)
    write_bytes(options.out, next_month.history_text(plan, options.carry))
    return 0


def run_next(options: NextOptions, given: Given, roster: Program) -> int:
    if given.ward:
        # (other commands start the quicker without this import)
        from desk_lib.ward.months import run_next_ward

        return run_next_ward(options, given, roster)
    if is_ward(options.folder):
        message = f"next {shown(options.folder)}: the ward of the month after has no name"
        raise DeskError(f"{message}; the form is 'desk next WARD NEW', as 'desk next {shown(options.folder)} december.ward'", 2)
    texts = in_order(texts_of(given))
    plan = program.taken(roster, texts)
    wanted = reported_asks(given, plan)
    left = next_month.gone_at_the_end(plan, wanted.gone) if wanted else set()
    files = next_month.next_files(plan, texts, options.folder, options.carry, left)
    check_names(options, "FOLDER", [name for name, _ in files])
    make_folder(options.folder)
    next_month.write_next(roster, plan, files)
    if left:
        program.warn(
            f"left out, since gone at the end: {', '.join(shown(plan.case.nurses[number].name) for number in sorted(left))}"
        )
    write(shown(name) for name, _ in files)
    return 0


def in_order(texts: Texts) -> Texts:
    """The texts with solutions of single files in the order of their weeks."""
    weeks = [(text, re.match(rb"\s*SOLUTION\s+(\d{1,3})\s", text.data)) for text in texts.texts]
    found = [(int(match[1]), text) for text, match in weeks if match]
    if len(found) < 2 or any(match is None for _, match in weeks[-len(found) :]):
        return texts
    return Texts([*texts.texts[: -len(found)], *(text for _, text in sorted(found, key=lambda of: of[0]))])


def run_ics(options: IcsOptions, given: Given, roster: Program) -> int:
    nurse, folder = options.nurse, options.all
    if folder and nurse is not None:
        # (the word is the first of the files)
        given, nurse = given.with_files([nurse, *options.common.files]), None
    elif not folder and nurse is None:
        raise DeskError("ics: name a nurse, or by --all a folder for the calendars of all nurses", 2)
    start = given.start
    if start is None:
        raise DeskError("ics: --start names the Monday of week 0, as 2026-11-02", 2)
    if folder and options.out:
        raise DeskError("ics: --all names a folder and --out a file; give one of the two", 2)
    [(_, plan)] = both_plans(given, roster)
    shifts = given.ward.state.input.shifts if given.ward else ()
    known = [f"{os.fsdecode(shift.name)}={shift.begins}-{shift.ends}" for shift in shifts if shift.begins]
    times = dict(calendar_file.times_in(word, plan) for word in [*known, *(options.time or ())])
    calendar = calendar_file.Calendar(plan, start, times, days.now())
    if nurse is not None:
        write_bytes(options.out, calendar.of_nurse(nurse_in(plan, nurse)))
    elif folder:
        names = calendar_file.file_names(plan, folder)
        check_names(given.options, "--all", names)
        make_folder(folder)
        for number, name in enumerate(names):
            replacing.replace_text(name, calendar.of_nurse(number))
        write(map(shown, names))
    return 0


def make_folder(name: str) -> None:
    try:
        os.makedirs(name, exist_ok=True)
    except FileExistsError:
        raise DeskError(f"{shown(name)}: this is a file, and a folder is due; give the name of one, or of none", 3) from None
    except OSError as why:
        raise DeskError(f"{shown(name)}: {why.strerror}; give another folder", 3) from None


def run_split(options: SplitOptions, given: Given, roster: Program) -> int:
    pairs = both_plans(given, roster)
    (texts, plan), (chosen, _) = pairs[0], pairs[-1]
    before = texts.before(plan.solutions_offset(), [])
    names = split.names(options.prefix, plan.case.weeks)
    check_names(options, "PREFIX", names, SOLUTIONS)
    split.split(roster, chosen, before, names, options.crlf)
    write(map(shown, names))
    return 0


def run_weeks(options: WeeksOptions, given: Given, roster: Program) -> int:
    texts = texts_of(given)
    plan = program.taken(roster, texts)
    names, scenario = split.names(options.prefix, plan.case.weeks), f"{options.prefix}-scenario.txt"
    wanted = reported_asks(given, plan)
    check_names(options, "PREFIX", [*names, *([scenario] if wanted and wanted.gone else [])])
    if not wanted:
        raise DeskError("weeks: --asks names the text of absences and pins", 2)
    for ask in wanted.asks:
        if ask.kind == "duty" and not all(ask.is_met(day, plan.roster[ask.nurse][day]) for day in ask.days):
            name = shown(plan.case.nurses[ask.nurse].name)
            message = (
                f"duty {name}: the roster given hasn't this duty, and week data with it would fix what the roster has instead"
            )
            how = "make a roster with it first ('desk improve --few' with these asks), and give that one"
            raise DeskError(f"{asks.place(wanted.text, ask.line)}: {message}; {how}")
    write(map(shown, asked_texts.write_weeks(roster, wanted, texts, names, scenario)))
    return 0


def check_names(options: Options, named: str, names: list[str], but: str = "") -> None:
    """Refuses to write what is read, but for such files, and to replace files unless that is asked for. `named` is what gives the
    names."""
    read = [file for file in files_read(options) if file[0] != but]
    outputs.refuse_inputs([(named, name) for name in names], read)
    there = [shown(name) for name in names if os.path.lexists(name)]
    if there and not options.common.force:
        raise DeskError(f"{', '.join(there)}: would be replaced; give another {named}, or --force to replace", 2)
