"""The options of each command, as they are made once from the words of the command line."""
import dataclasses
import datetime
import typing

from desk_lib.texts import KINDS


# (each start of the desk makes these classes: none is compared or printed, so they have no methods for that)
@dataclasses.dataclass(frozen=True, eq=False, repr=False)
class Common:
    """What all commands take, and what a command has that doesn't take the last three."""

    files: list[str]
    sce: list[str] | None
    his: list[str] | None
    weeks: list[str] | None
    sols: list[str] | None
    asks: str | None
    start: datetime.date | None
    roster: str | None
    force: bool = False
    other: list[str] | None = None
    since: str = "0"

    @property
    def by_kind(self) -> dict[str, list[str]]:
        """The files that options name, by the kind of each."""
        return dict(zip(KINDS, ([*(names or ())] for names in (self.sce, self.his, self.weeks, self.sols))))


@dataclasses.dataclass(frozen=True, eq=False, repr=False)
class Options:
    """The options of a command."""

    # The options that name files which the command writes, each with what that file then is.
    WRITES: typing.ClassVar[dict[str, str]] = {}
    # Whether the desk reports, before the command works, which asks the roster fails.
    REPORTS_FAILED_ASKS: typing.ClassVar[bool] = True
    # Whether the command makes rosters, so that duties are put into the one that it begins with; else it shows a ward's as it is.
    MAKES_ROSTERS: typing.ClassVar[bool] = False
    # Whether the command is of what may still change on days that a ward has published: those from today on.
    CHANGES_PUBLISHED: typing.ClassVar[bool] = False

    # Whether the command calls the program.
    NEEDS_PROGRAM: typing.ClassVar[bool] = True

    common: Common

    @property
    def may_lack_solutions(self) -> bool:
        """Whether the command also works on texts without solutions."""
        return False

    @property
    def read_log(self) -> str | None:
        """The log that the command reads."""
        return None

    def written(self) -> list[tuple[str, str, str]]:
        """The files that the command writes: the option, the name, and what the file then is."""
        named = [(f"--{option}", getattr(self, option), kind) for option, kind in self.WRITES.items()]
        return [(option, name, kind) for option, name, kind in named if name]


@dataclasses.dataclass(frozen=True, eq=False, repr=False)
class CheckOptions(Options):
    """The options of `check`."""

    @property
    def may_lack_solutions(self) -> bool:
        return True


@dataclasses.dataclass(frozen=True, eq=False, repr=False)
class CostsOptions(Options):
    """The options of `costs`."""

    json: bool
    bound: bool


@dataclasses.dataclass(frozen=True, eq=False, repr=False)
class GridOptions(Options):
    """The options of `grid`."""

    skills: bool
    width: int | None


@dataclasses.dataclass(frozen=True, eq=False, repr=False)
class ChangesOptions(Options):
    """The options of `changes`."""


@dataclasses.dataclass(frozen=True, eq=False, repr=False)
class WhyOptions(Options):
    """The options of `why`."""

    nurse: str
    day: str


@dataclasses.dataclass(frozen=True, eq=False, repr=False)
class WhoOptions(Options):
    """The options of `who`."""

    REPORTS_FAILED_ASKS = False
    CHANGES_PUBLISHED = True

    shift: list[str] | None


@dataclasses.dataclass(frozen=True, eq=False, repr=False)
class SwapOptions(Options):
    """The options of `swap`."""

    WRITES = {"out": "roster"}
    CHANGES_PUBLISHED = True

    nurse: str
    other_nurse: str
    day: str
    take: bool
    out: str | None


@dataclasses.dataclass(frozen=True, eq=False, repr=False)
class PageOptions(Options):
    """The options of `page`."""

    WRITES = {"out": "page"}

    title: str | None
    notice: bool
    nurse: str | None
    months: bool
    log: str | None
    bound: bool
    out: str | None

    @property
    def read_log(self) -> str | None:
        return self.log


@dataclasses.dataclass(frozen=True, eq=False, repr=False)
class CsvOptions(Options):
    """The options of `csv`."""

    WRITES = {"out": "table of the desk"}

    out: str | None


@dataclasses.dataclass(frozen=True, eq=False, repr=False)
class IcsOptions(Options):
    """The options of `ics`."""

    WRITES = {"out": "calendar"}

    nurse: str | None
    all: str | None
    time: list[str] | None
    out: str | None


@dataclasses.dataclass(frozen=True, eq=False, repr=False)
class ImproveOptions(Options):
    """The options of `improve`."""

    WRITES = {"out": "roster", "log": "log of the desk"}
    REPORTS_FAILED_ASKS = False
    MAKES_ROSTERS = True

    out: str | None
    rounds: int | None
    plan: bool
    few: bool
    candidate: int | None
    keep: int | None
    bound: bool
    polish: int | None
    seconds: int | None
    seed: int | None
    seeds: list[int] | None
    log: str | None
    publish: bool = False

    @property
    def may_lack_solutions(self) -> bool:
        return self.plan


@dataclasses.dataclass(frozen=True, eq=False, repr=False)
class SplitOptions(Options):
    """The options of `split`."""

    prefix: str
    crlf: bool


@dataclasses.dataclass(frozen=True, eq=False, repr=False)
class WeeksOptions(Options):
    """The options of `weeks`."""

    prefix: str


@dataclasses.dataclass(frozen=True, eq=False, repr=False)
class HistoryOptions(Options):
    """The options of `history`."""

    WRITES = {"out": "history"}

    carry: bool
    out: str | None


@dataclasses.dataclass(frozen=True, eq=False, repr=False)
class NextOptions(Options):
    """The options of `next`."""

    folder: str
    carry: bool
