"""What the commands of the desk have in common on the command line: how words are read, and options that several commands take."""
import argparse
import collections.abc
import datetime
import os
import re
import typing

from desk_lib import given, polish, program
from desk_lib.days import is_day, monday_in
from desk_lib.findings import nearest
from desk_lib.helps import FILES
from desk_lib.options import Options
from desk_lib.texts import KINDS, DeskError, shown

# How many seeds are taken at once, at most.
MOST_SEEDS = 1000
# How argparse begins if it doesn't know a command.
UNKNOWN_COMMAND = re.compile(r"argument COMMAND: invalid choice: '(.*?)' ")
# What a command does: its function, which takes its own options.
Run = collections.abc.Callable[[typing.Any, given.Given, program.Program], int]


def number_in(least: int, greatest: int) -> collections.abc.Callable[[str], int]:
    """Reads a number of a range."""

    def number(word: str) -> int:
        if not (word.isascii() and word.isdigit() and len(word) < 12 and least <= int(word) <= greatest):
            raise argparse.ArgumentTypeError(f"'{shown(word)}' is no number from {least} to {greatest}")
        return int(word)

    return number


def start_in(word: str) -> datetime.date:
    """Reads a date, which has to be a Monday."""
    try:
        return monday_in(word)
    except DeskError as why:
        raise argparse.ArgumentTypeError(str(why)) from None


def since_in(word: str) -> str:
    """Reads the first week that may change, or the day that is today, which is looked up once the first Monday is known."""
    return word if is_day(os.fsencode(word)) and ".." not in word else str(number_in(0, 52)(word))


def today_in(word: str) -> str:
    """Reads the day that is today. 0, as if the option weren't there, is none."""
    if word != "0" and (not is_day(os.fsencode(word)) or ".." in word):
        raise argparse.ArgumentTypeError(f"'{shown(word)}' stands here, and a day is due, as 2026-11-04 or 0:Wed")
    return word


def seeds_in(word: str) -> list[int]:
    """Reads the first and the last of several seeds, as 1-8."""
    ends = word.split("-")
    seed = number_in(0, polish.SEEDS - 1)
    first, last = (seed(end) for end in ends) if len(ends) == 2 else (1, 0)
    if not first <= last < first + MOST_SEEDS:
        message = f"'{shown(word)}' isn't the first and the last of at most {MOST_SEEDS} seeds, as 1-8"
        raise argparse.ArgumentTypeError(message)
    return [*range(first, last + 1)]


class Parser(argparse.ArgumentParser):
    """Reports in one line what is wrong."""

    # The words of the command that may be left out, and may stand after an option.
    later = ""

    def options(self) -> list[str]:
        """The options that it takes."""
        return [word for word in self._option_string_actions if word.startswith("--")]

    def with_later(self, values: dict[str, typing.Any], more: list[str]) -> dict[str, typing.Any]:
        """The words that came after an option, as a value of the command."""
        if not more:
            return {}
        if not self.later:
            self.error(f"unrecognized arguments: {' '.join(more)}")
        return {self.later: [*values[self.later], *more]}

    def parse_known_args(self, args: typing.Any = None, namespace: typing.Any = None) -> typing.Any:
        for word in args or ():
            if word[:1] == "-" and f"-{word.partition('=')[0]}" in self._option_string_actions:
                self.error(f"{word}: an option has two dashes; write -{word}")
        return super().parse_known_args(args, namespace)

    def error(self, message: str) -> typing.NoReturn:
        unknown = UNKNOWN_COMMAND.match(message)
        if unknown:
            like = nearest(os.fsencode(unknown[1]), map(os.fsencode, re.findall(r"'(\w+)'", message[unknown.end() :])))
            raise DeskError(f"there is no command '{shown(unknown[1])}'{like}; '{self.prog} --help' lists them", 2)
        raise DeskError(f"{shown(message)}; '{self.prog} --help' shows how", 2)


if typing.TYPE_CHECKING:
    Commands = argparse._SubParsersAction[Parser]
else:
    Commands = argparse._SubParsersAction


def with_files(parser: argparse.ArgumentParser) -> None:
    """Adds what all commands take: the files; and, if the command writes any, whether these may be replaced."""
    if parser.get_default("kind").WRITES:
        parser.add_argument("--force", action="store_true", help="replace files that are there, whatever they are")
    files_of(parser)
    parser.add_argument("--asks", metavar="FILE", help="absences, duties, needs and the like (below)")


def files_of(parser: argparse.ArgumentParser) -> None:
    """Adds the files, the first Monday and the program."""
    files = parser.add_argument_group("the files", "in the program's order, or by four options in any order; or a ward")
    files.add_argument("files", nargs="*", metavar="FILE", help="scenario, history, week data and solutions, in this order")
    helps = {
        "sce": "the scenario",
        "his": "the history",
        "weeks": "the week data, from the first week on",
        "sols": "the solutions, from the first week on, in one file or in several",
    }
    for kind in KINDS:
        count: int | str = 1 if kind in ("sce", "his") else "+"
        files.add_argument(f"--{kind}", nargs=count, action="extend", metavar="FILE", help=helps[kind])
    parser.add_argument(
        "--start",
        type=start_in,
        metavar="DATE",
        help="the Monday of week 0, as 2026-11-02: days may be dates, and dates are shown",
    )
    with_roster(parser)


def with_roster(parser: argparse.ArgumentParser) -> None:
    parser.add_argument("--roster", metavar="PROGRAM", help="the program roster, if it isn't that of this repository")


def with_other(parser: argparse.ArgumentParser, more: str) -> None:
    parser.add_argument(
        "--with",
        dest="other",
        action="append",
        metavar="FILE",
        help=f"a second roster for the same texts, its solutions alone: {more}",
    )


def with_first_week(parser: argparse.ArgumentParser, use: str) -> None:
    more = f"{use}; a day, as 1:Wed, or its date names its week, and is 'today' as by a line of --asks"
    parser.add_argument("--from", dest="since", type=since_in, default="0", metavar="V", help=more)


def command(
    commands: Commands, name: str, run: Run, kind: type[Options], summary: str, more: str = "", epilog: str = FILES
) -> Parser:
    """A command of the desk, with the kind of its options."""
    described = f"{summary[0].upper()}{summary[1:]}.{more}"
    parser = commands.add_parser(
        name, help=summary, description=described, epilog=epilog, formatter_class=Formatter, allow_abbrev=False
    )
    parser.set_defaults(run=run, kind=kind, parser=parser)
    return parser


class Formatter(argparse.RawDescriptionHelpFormatter):
    """Help in the lines in which it is written, 110 letters wide wherever it is read."""

    def __init__(self, prog: str) -> None:
        super().__init__(prog, max_help_position=24, width=110)


def with_carry(parser: argparse.ArgumentParser) -> None:
    parser.add_argument("--carry", action="store_true", help="with the totals up to now; else they are 0")


def with_out(parser: argparse.ArgumentParser) -> None:
    parser.add_argument("--out", metavar="FILE", help="the file to write; else standard output")


def with_force(parser: argparse.ArgumentParser, what: str = "replace the files that are there") -> None:
    parser.add_argument("--force", action="store_true", help=what)


def with_polish(parser: argparse.ArgumentParser) -> None:
    """Adds how long is searched after the rounds, and by which seeds."""
    searches = number_in(1, polish.MOST_SEARCHES)
    parser.add_argument("--polish", type=searches, metavar="N", help="then go on with 'roster polish', N searches in a run")
    parser.add_argument(
        "--seconds",
        type=number_in(1, 1_000_000),
        metavar="N",
        help="end after N seconds, once the first round is made; with --polish or earlier, and else go on with 'roster polish'",
    )
    seed = number_in(0, polish.SEEDS - 1)
    parser.add_argument("--seed", type=seed, metavar="S", help="the seed of polish (1 if not given)")
    parser.add_argument(
        "--seeds",
        type=seeds_in,
        metavar="A-B",
        help="a run of polish by each seed from A to B, as many at once as there are processors; the cheapest roster is"
        " kept, and the log has what each comes to",
    )
