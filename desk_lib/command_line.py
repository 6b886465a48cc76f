"""The desk's command line: its commands, their options, and how errors are reported."""
import argparse
import dataclasses
import os
import sys
import typing

from desk_lib import commands as does
from desk_lib import given, options, program, replacing, signals
from desk_lib.findings import nearest
from desk_lib.helps import ABOUT, CHECK, FILES, IMPROVE, NEXT, SWAP, WEEKS, WHO
from desk_lib.options import Common, Options
from desk_lib.parsing import Commands, Formatter, Parser, Run, command, number_in, with_carry, with_files, with_first_week
from desk_lib.parsing import with_force, with_other, with_out, with_polish
from desk_lib.texts import DeskError, shown
from desk_lib.ward import options as ward_options
from desk_lib.ward import words as ward_words
from desk_lib.ward.naming import is_ward

# The commands whose first word is a ward in any case.
WARD_FIRST = frozenset("new ask asks unask shifts repair take publish versions undo redo diff backup export serve".split())


def add_improve(commands: "Commands") -> None:
    summary = "makes rounds one at a time, and keeps the best roster so far in a file"
    parser = command(commands, "improve", does.run_improve, options.ImproveOptions, summary, IMPROVE)
    parser.add_argument(
        "--out", metavar="FILE", help="the file of the roster; replaced at once after each round. A ward needs none"
    )
    parser.add_argument("--rounds", type=number_in(0, 1000), metavar="N", help="make at most N rounds (100 if not given)")
    parser.add_argument(
        "--plan",
        action="store_true",
        help="instead of rounds, ask 'roster plan' for a roster that keeps the hard rules, whatever the one given breaks",
    )
    parser.add_argument(
        "--few",
        action="store_true",
        help="repair the roster by the fewest changed days that are found: it may break what --plan may, and the other"
        " rosters that are found are reported",
    )
    chosen = "with --few: the roster of this number among those that are found; the same options find the same ones"
    parser.add_argument("--candidate", type=number_in(1, 99), metavar="N", help=chosen)
    keep = "each day on which a nurse has another shift than in the roster given, or is off, costs N more, 0 to 100"
    parser.add_argument("--keep", type=number_in(0, 100), metavar="N", help=keep)
    with_first_week(parser, "the days before week V stay as they are")
    parser.add_argument(
        "--bound",
        action="store_true",
        help="ask 'roster bound' for a lower bound, and report how much above it the roster is, or that it is optimal; with"
        " --seconds during the search, for a fifth of that time at most, else first",
    )
    with_polish(parser)
    parser.add_argument("--log", metavar="FILE", help="write the log to this file, too; 'page --log' draws it")
    parser.add_argument("--publish", action="store_true", help="with a ward: publish the roster that it comes to")
    with_files(parser)


def add_looks(commands: "Commands") -> None:
    """The commands that show a roster in lines."""
    summary = "reports what each nurse costs by rule, and S1 by shift and skill"
    parser = command(commands, "costs", does.run_costs, options.CostsOptions, summary)
    parser.add_argument("--json", action="store_true", help="write them as JSON")
    with_other(parser, "its costs come after those of the first, as before>after")
    bound = "ask 'roster bound' for a lower bound, and report whether the roster is optimal"
    parser.add_argument("--bound", action="store_true", help=bound)
    with_first_week(parser, "with --bound: the bound is of the rosters that keep the weeks before V")
    with_files(parser)
    summary = "shows nurses by days on a terminal, and the cover of each day"
    parser = command(commands, "grid", does.run_grid, options.GridOptions, summary)
    with_other(parser, "it is shown, with what changed")
    with_first_week(parser, "the weeks before V are frozen")
    parser.add_argument("--skills", action="store_true", help="show the skill of each assignment, too")
    parser.add_argument(
        "--width", type=number_in(20, 9999), metavar="COLUMNS", help="how wide it may be; else as wide as the terminal"
    )
    with_files(parser)
    summary = "lists the days that are other in a second roster, by nurse, as old > new"
    parser = command(commands, "changes", does.run_changes, options.ChangesOptions, summary)
    with_other(parser, "the new one")
    with_files(parser)
    summary = "reports what it would cost to meet a nurse's request"
    parser = command(commands, "why", does.run_why, options.WhyOptions, summary)
    parser.add_argument("nurse", metavar="NURSE", help="the nurse")
    parser.add_argument("day", metavar="DAY", help="the week and the day, as 0:Mon")
    with_files(parser)


def add_shifts(commands: "Commands") -> None:
    """The commands on single shifts: who may take them, and what a swap of days costs."""
    summary = "tables who may take the shifts that are open, or says why nobody may"
    parser = command(commands, "who", does.run_who, options.WhoOptions, summary, WHO)
    shift = "an open shift, as '1:Wed Late Caretaker'; may be given again"
    parser.add_argument("--shift", action="append", metavar="'DAYS SHIFT [SKILL]'", help=shift)
    with_first_week(parser, "the weeks before V are frozen")
    with_files(parser)
    summary = "says what a swap of two nurses' days breaks and costs, and writes the roster with it"
    parser = command(commands, "swap", does.run_swap, options.SwapOptions, summary, SWAP)
    parser.add_argument("nurse", metavar="A", help="a nurse")
    parser.add_argument("other_nurse", metavar="B", help="another one")
    parser.add_argument("day", metavar="DAYS", help="the days, as 1:Tue 1:Fri or 1:Tue..1:Thu")
    parser.add_argument("--out", metavar="FILE", help="the file of the roster with the swap")
    parser.add_argument("--take", action="store_true", help="with a ward: the roster with the swap becomes the working one")
    with_first_week(parser, "the weeks before V are frozen")
    with_files(parser)


def add_pages(commands: "Commands") -> None:
    """The commands that write a roster for other programs: as a page, a table or a calendar."""
    summary = "writes the grid, who is on each day, and the costs as one HTML file to look at and to print"
    parser = command(commands, "page", does.run_page, options.PageOptions, summary)
    with_other(parser, "it is shown, with what changed")
    with_first_week(parser, "the weeks before V are frozen")
    parser.add_argument("--title", metavar="TEXT", help="what stands above it; else the name of the scenario")
    parser.add_argument("--notice", action="store_true", help="for the wall: without penalties, minimums and requests")
    parser.add_argument("--nurse", metavar="NAME", help="the month of this nurse alone")
    parser.add_argument("--months", action="store_true", help="the months of all nurses one after the other, to print")
    parser.add_argument("--log", metavar="FILE", help="the log of improve: its penalty is drawn")
    parser.add_argument("--bound", action="store_true", help="ask 'roster bound' for a lower bound, and show it")
    with_out(parser)
    with_files(parser)
    summary = "writes the roster as CSV: a line for each nurse, and a column for each day"
    parser = command(commands, "csv", does.run_csv, options.CsvOptions, summary)
    with_out(parser)
    with_files(parser)
    summary = "writes a nurse's shifts as a calendar, or all nurses' with --all"
    parser = command(commands, "ics", does.run_ics, options.IcsOptions, summary)
    parser.add_argument("nurse", nargs="?", metavar="NURSE", help="the nurse")
    parser.add_argument("--all", metavar="FOLDER", help="a folder for the calendars of all nurses, instead of NURSE")
    parser.add_argument(
        "--time", action="append", metavar="TIMES", help="when a shift is, as Night=21:30-06:30; else it takes the whole day"
    )
    with_out(parser)
    with_files(parser)


def add_texts(commands: "Commands") -> None:
    """The commands that write texts for the program: of this month, and of the next one."""
    summary = "writes a solution file for each week: PREFIX-0.txt, PREFIX-1.txt and so on"
    parser = command(commands, "split", does.run_split, options.SplitOptions, summary)
    parser.add_argument("prefix", metavar="PREFIX", help="how the names of the files begin, such as Sol-n030w4")
    parser.add_argument("--crlf", action="store_true", help="end lines with CR LF")
    with_force(parser)
    with_other(parser, "its weeks are written")
    with_files(parser)
    summary = "writes the week data with all that --asks says: PREFIX-0.txt, PREFIX-1.txt and so on"
    parser = command(commands, "weeks", does.run_weeks, options.WeeksOptions, summary, WEEKS)
    parser.add_argument("prefix", metavar="PREFIX", help="how the names of the files begin")
    with_force(parser)
    with_files(parser)
    summary = "writes the history that this roster leaves for the next month"
    parser = command(commands, "history", does.run_history, options.HistoryOptions, summary, NEXT)
    with_carry(parser)
    with_out(parser)
    with_files(parser)
    summary = "lays out a folder for the next month: the scenario, the history, and weeks with this month's needs"
    parser = command(commands, "next", does.run_next, options.NextOptions, summary, NEXT)
    parser.add_argument("folder", metavar="FOLDER", help="the folder, which is made if it isn't there")
    with_force(parser)
    with_carry(parser)
    with_files(parser)


def parser_of() -> argparse.ArgumentParser:
    parser = Parser(prog="desk", description=ABOUT, epilog=FILES, formatter_class=Formatter, allow_abbrev=False)
    parser.add_argument("--version", action="store_true", help="print the version of roster")
    commands = parser.add_subparsers(title="commands", metavar="COMMAND", required=True)
    summary = "reports all that is wrong with the texts, each with its file, line and word"
    with_files(command(commands, "check", does.run_check, options.CheckOptions, summary, CHECK))
    add_looks(commands)
    add_shifts(commands)
    add_pages(commands)
    add_improve(commands)
    add_texts(commands)
    ward_words.add_ward(commands)
    ward_words.add_rosters(commands)
    ward_words.add_versions(commands)
    ward_words.add_serve(commands)
    return parser


def parsed(words: list[str]) -> tuple[Run, Options]:
    """The command that the words name, and its options."""
    parser = parser_of()
    if words and words[0].startswith("--") and words[0] not in ("--help", "--version"):
        raise DeskError(
            f"{shown(words[0])}: options come after the command, as 'desk grid {shown(words[0])} ..'; 'desk --help' shows how", 2
        )
    asked, more = parser.parse_known_args(with_ward_last(words))
    for word in (word for word in more if word.startswith("-")):
        like = nearest(os.fsencode(word), map(os.fsencode, asked.parser.options()))
        raise DeskError(f"'{words[0]}' takes no option '{shown(word)}'{like}; 'desk {words[0]} --help' shows how", 2)
    # (what a command hasn't)
    values: dict[str, typing.Any] = dict.fromkeys(("sce", "his", "weeks", "sols", "asks", "start", "roster"))
    values |= vars(asked)
    if issubclass(asked.kind, ward_options.WardOptions) and "files" not in values:
        values["files"] = [asked.ward]
        values |= asked.parser.with_later(values, more)
    else:
        # (files after an option are files, too)
        values["files"] = [*values["files"], *more]
    common = Common(**named(Common, values))
    return asked.run, asked.kind(common, **named(asked.kind, values))


def with_ward_last(words: list[str]) -> list[str]:
    """The words of a command that takes files, with a ward that stands right after the command in the place of the files."""
    if len(words) > 2 and words[0] not in WARD_FIRST and not words[1].startswith("-") and is_ward(words[1]):
        return [words[0], *words[2:], words[1]]
    return words


def named(kind: type, values: dict[str, typing.Any]) -> dict[str, typing.Any]:
    """Those of the values that a dataclass has fields for."""
    return {field.name: values[field.name] for field in dataclasses.fields(kind) if field.name in values}


def run(words: list[str]) -> int:
    if words == ["--version"]:
        given.write([program.find(None).version()])
        return 0
    run_command, asked = parsed(words)
    given.check_written(asked)
    on = given.settled(asked)
    # (what needs no program doesn't look for one)
    roster = program.find(asked.common.roster) if asked.NEEDS_PROGRAM else program.Program("")
    return run_command(asked, on, roster)


def main(words: list[str]) -> int:
    """The desk with these words; returns the status."""
    fill_streams()
    try:
        signals.take()
        status, why = ran(words)
    except signals.Interrupted as end:
        status, why = end.status, "interrupted"
    signals.leave()
    return ended(why, status) if status else status


def ran(words: list[str]) -> tuple[int, str]:
    """The status, and why the desk ends, if there is something to say."""
    try:
        return run(words), ""
    except DeskError as why:
        return why.status, str(why)
    except given.WriteFailed as why:
        # (a reader that has gone wants no line)
        is_gone = isinstance(why.cause, BrokenPipeError)
        remedy = replacing.REMEDIES.get(why.cause.errno or 0, "send it elsewhere")
        return 3, "" if is_gone else f"standard output: write failed: {why.cause.strerror}; {remedy}"
    except BrokenPipeError:
        return 3, ""
    except OSError as why:
        return 3, f"write failed: {why.strerror}"
    except MemoryError:
        return 4, "no memory"


def fill_streams() -> None:
    """Puts something in the place of streams that are closed, so that no file gets their number."""
    for stream in (0, 1, 2):
        try:
            os.fstat(stream)
        except OSError:
            os.open(os.devnull, os.O_RDWR)
    sys.stderr = sys.stderr or open(os.devnull, "w", encoding="utf-8")


def ended(line: str, status: int) -> int:
    """Says why the desk ends, if there is something to say, and gives Python nothing to write afterwards."""
    try:
        if line:
            print(f"desk: {line}", file=sys.stderr, flush=True)
    except OSError:
        pass
    nothing = os.open(os.devnull, os.O_WRONLY)
    for stream in (1, 2):
        os.dup2(nothing, stream)
    return status
