"""The command line of the commands that are of wards alone."""
import argparse

from desk_lib import polish
from desk_lib.parsing import Commands, Parser, command, files_of, number_in, today_in, with_force, with_roster
from desk_lib.ward import commands as does
from desk_lib.ward import options

NEW = """

The texts are a folder with the competition's files, a bundle, the files in the program's order, or those of --sce, --his,
--weeks and --sols; the solutions may be left out. With --nurses a table of names, contracts and skills is enough (CSV or
.xlsx): what it lacks is asked for on standard input, each with a default that an empty line takes."""
ASK = """

A line is one of: absent NURSE DAYS, gone NURSE DAYS, off NURSE DAYS, wish NURSE SHIFT DAYS, pin NURSE DAYS, fix NURSE DAYS,
duty NURSE DAY SHIFT [SKILL], need DAY SHIFT SKILL N. A day is a date, as 2026-11-04 or 4 Nov, a weekday, which is the next one
from today on, or as 0:Wed; days are several of them, or from one to another, as Wed..Fri. Days after the ward's last
one are kept for the month after."""
REPAIR = """

What changes is as little as is found, on days from today on, published ones among them. The candidates are shown side by
side, with their numbers, and kept in the ward: 'take' makes one of them the working roster. Today is the date by the
clock, if it is one of the ward's days, or what --from says. Asks that are given are added first, as by 'ask'."""
PUBLISH = """

From then on these days stay as they are for 'improve', and 'changes', 'grid' and 'page' compare with what was published. 'repair' and
'swap' may still change them, from today on; 'publish' again publishes that."""

SERVE = """

The page is for this machine alone: the desk prints a link with a key in it, and opens it in a browser. It shows the month,
who may take a shift, the asks, runs as they go on, and the versions; each change becomes a version of the ward. Ctrl-C ends
it: runs are stopped, and the best that they found is kept. It needs Flask and waitress ('apt-get install python3-flask
python3-waitress'). Today is the date by the clock, or what --from says."""


def of_ward(
    commands: Commands, name: str, run: does.Run, kind: type[options.WardOptions], summary: str, more: str = ""
) -> Parser:
    """A command of wards, which comes before its other words."""
    parser = command(commands, name, run, kind, summary, more, epilog="")
    parser.add_argument("ward", metavar="WARD", help="the ward's file, as ward12.ward")
    return parser


def add_ward(commands: Commands) -> None:
    """The commands that make a ward and change it."""
    summary = "makes a ward: one file that has the texts, the asks, all rosters, and what was published"
    parser = command(commands, "new", does.run_new, options.NewOptions, summary, NEW)
    parser.add_argument("ward", metavar="WARD", help="the file of the new ward, as ward12.ward")
    parser.add_argument("--nurses", metavar="FILE", help="a table of the nurses, from which the ward is made")
    with_shifts(parser)
    files_of(parser)
    parser = command(
        commands, "ask", does.run_ask, options.AskOptions, "adds asks: absences, requests, duties and the like", ASK, epilog=""
    )
    parser.add_argument("ward", metavar="WARD", help="the ward's file")
    parser.add_argument("line", nargs="+", metavar="LINE", help="an ask, as 'absent Hanna Wed..Fri'; may be given again")
    with_today(parser)
    of_ward(commands, "asks", does.run_asks, options.WardOptions, "lists the asks, with who wrote them and when")
    parser = of_ward(commands, "unask", does.run_unask, options.UnaskOptions, "withdraws asks, by their numbers")
    parser.add_argument(
        "number", nargs="+", type=number_in(1, 999_999), metavar="N", help="the number of an ask, as 'asks' shows it"
    )
    parser = of_ward(
        commands, "shifts", does.run_shifts, options.ShiftsOptions, "shows when shifts are and their colours, or sets them"
    )
    with_shifts(parser)


def add_rosters(commands: Commands) -> None:
    """The commands on rosters."""
    summary = "looks for rosters with few changes, from today on, and shows them side by side"
    parser = of_ward(commands, "repair", does.run_repair, options.RepairOptions, summary, REPAIR)
    parser.later = "line"
    parser.add_argument("line", nargs="*", metavar="LINE", help="an ask, as 'absent Hanna Wed..Fri'; may be given again")
    with_today(parser)
    searches = number_in(1, polish.MOST_SEARCHES)
    parser.add_argument(
        "--searches", type=searches, metavar="N", help="searches of each run (5000 if neither they nor --seconds are given)"
    )
    parser.add_argument("--seconds", type=number_in(1, 1_000_000), metavar="N", help="end after N seconds")
    parser.add_argument("--seed", type=number_in(0, polish.SEEDS - 1), metavar="S", help="the seed of the runs (1 if not given)")
    with_roster(parser)
    summary = "makes a candidate the working roster, or the roster of a file"
    parser = of_ward(commands, "take", does.run_take, options.TakeOptions, summary)
    parser.add_argument("what", metavar="N|FILE", help="the number of a candidate, or a file with solutions or a table")
    with_force(parser, "take it even if it breaks hard rules")
    with_roster(parser)
    summary = "publishes the working roster, or one that becomes it, up to its last day or an earlier one"
    parser = of_ward(commands, "publish", does.run_publish, options.PublishOptions, summary, PUBLISH)
    parser.later = "what"
    chosen = "the number of a candidate, or a file with solutions or a table, to be taken and published at once"
    parser.add_argument("what", nargs="*", metavar="N|FILE", help=chosen)
    parser.add_argument("--until", metavar="DAY", help="the last day that is published, as 2026-11-30")
    with_force(parser, "publish it even if it breaks hard rules")
    with_roster(parser)


def add_versions(commands: Commands) -> None:
    """The commands on versions and files."""
    kind = options.WardOptions
    of_ward(commands, "versions", does.run_versions, kind, "lists what was done, by whom and when")
    summary = "goes back by one change, or by several: asks, roster and publication are those of before"
    of_moves(of_ward(commands, "undo", does.run_undo, options.MoveOptions, summary))
    summary = "goes forward again by one change that was undone, or by several"
    of_moves(of_ward(commands, "redo", does.run_redo, options.MoveOptions, summary))
    parser = of_ward(commands, "diff", does.run_diff, options.DiffOptions, "lists what differs between two versions")
    version = number_in(1, 999_999)
    parser.add_argument("first", type=version, metavar="A", help="the number of a version")
    parser.add_argument("second", nargs="?", type=version, metavar="B", help="another one; the present one if it isn't given")
    parser = of_ward(
        commands, "backup", does.run_backup, options.BackupOptions, "writes a whole copy, even while other commands are at work"
    )
    parser.add_argument("file", metavar="FILE", help="the file of the copy")
    summary = "writes the competition's files, with the texts as they were read, and all of it as one bundle for 'roster'"
    parser = of_ward(commands, "export", does.run_export, options.ExportOptions, summary)
    parser.add_argument("folder", metavar="FOLDER", help="the folder, which is made if it isn't there")
    with_force(parser)
    with_roster(parser)


def add_serve(commands: Commands) -> None:
    """The command that shows a ward in a browser."""
    parser = of_ward(commands, "serve", does.run_serve, options.ServeOptions, "shows a ward in a browser, to plan it there", SERVE)
    parser.add_argument("--port", type=number_in(0, 65_535), default=0, metavar="N", help="the port; a free one if it isn't given")
    parser.add_argument("--no-browser", action="store_true", help="print the link, and open no browser")
    parser.add_argument("--read-only", action="store_true", help="show the ward and change nothing, as on a screen on the wall")
    with_today(parser)
    with_roster(parser)


def with_today(parser: argparse.ArgumentParser) -> None:
    parser.add_argument(
        "--from",
        dest="since",
        type=today_in,
        metavar="DAY",
        default="0",
        help="the day that is today, if it isn't that of the clock",
    )


def with_shifts(parser: argparse.ArgumentParser) -> None:
    parser.add_argument(
        "--time", action="append", metavar="TIMES", help="when a shift is, as Night=21:30-06:30; may be given again"
    )
    parser.add_argument(
        "--colour", action="append", metavar="COLOUR", help="the colour of a shift on pages, as Night=#203060; may be given again"
    )


def of_moves(parser: argparse.ArgumentParser) -> None:
    parser.add_argument(
        "count", nargs="?", type=number_in(1, 999), default=1, metavar="N", help="how many changes (1 if not given)"
    )
