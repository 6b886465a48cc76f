"""The options of the commands that are of wards alone."""
import dataclasses

from desk_lib.options import Options


@dataclasses.dataclass(frozen=True, eq=False, repr=False)
class WardOptions(Options):
    """The options of such a command. It needs no program, unless it says so."""

    NEEDS_PROGRAM = False


@dataclasses.dataclass(frozen=True, eq=False, repr=False)
class NewOptions(WardOptions):
    """The options of `new`."""

    NEEDS_PROGRAM = True

    ward: str
    nurses: str | None
    time: list[str] | None
    colour: list[str] | None

    @property
    def may_lack_solutions(self) -> bool:
        return True


@dataclasses.dataclass(frozen=True, eq=False, repr=False)
class AskOptions(WardOptions):
    """The options of `ask`."""

    CHANGES_PUBLISHED = True

    line: list[str]


@dataclasses.dataclass(frozen=True, eq=False, repr=False)
class UnaskOptions(WardOptions):
    """The options of `unask`, and of other commands that take numbers."""

    number: list[int]


@dataclasses.dataclass(frozen=True, eq=False, repr=False)
class RepairOptions(WardOptions):
    """The options of `repair`."""

    NEEDS_PROGRAM = True
    MAKES_ROSTERS = True
    CHANGES_PUBLISHED = True
    REPORTS_FAILED_ASKS = False

    searches: int | None
    seconds: int | None
    seed: int | None
    # (the asks that are added first)
    line: list[str] = dataclasses.field(default_factory=list)


@dataclasses.dataclass(frozen=True, eq=False, repr=False)
class TakeOptions(WardOptions):
    """The options of `take`."""

    NEEDS_PROGRAM = True

    what: str


@dataclasses.dataclass(frozen=True, eq=False, repr=False)
class PublishOptions(WardOptions):
    """The options of `publish`."""

    NEEDS_PROGRAM = True

    what: list[str]
    until: str | None


@dataclasses.dataclass(frozen=True, eq=False, repr=False)
class MoveOptions(WardOptions):
    """The options of `undo` and `redo`."""

    count: int


@dataclasses.dataclass(frozen=True, eq=False, repr=False)
class DiffOptions(WardOptions):
    """The options of `diff`."""

    first: int
    second: int | None


@dataclasses.dataclass(frozen=True, eq=False, repr=False)
class BackupOptions(WardOptions):
    """The options of `backup`."""

    file: str


@dataclasses.dataclass(frozen=True, eq=False, repr=False)
class ShiftsOptions(WardOptions):
    """The options of `shifts`."""

    time: list[str] | None
    colour: list[str] | None


@dataclasses.dataclass(frozen=True, eq=False, repr=False)
class ExportOptions(WardOptions):
    """The options of `export`."""

    NEEDS_PROGRAM = True

    folder: str


@dataclasses.dataclass(frozen=True, eq=False, repr=False)
class ServeOptions(WardOptions):
    """The options of `serve`."""

    NEEDS_PROGRAM = True
    CHANGES_PUBLISHED = True

    port: int
    no_browser: bool
    read_only: bool
