"""What a ward has, by types: its texts, asks, rosters, publications and versions; how all of it is read, and how a version is added.

A ward is read as a whole, and each text and each version is held to its SHA-256, so that no damage is taken for data. Nothing is ever
changed or deleted: a change adds a version, which names the input, the asks, the roster and the publication that hold from then on.
"""
import collections.abc
import contextlib
import dataclasses
import datetime
import functools
import hashlib
import os
import pwd
import sqlite3
import typing

from desk_lib.balances import Balance
from desk_lib.days import now
from desk_lib.texts import DeskError, shown
from desk_lib.ward import file
from desk_lib.ward.file import damaged

# The kinds of versions.
CHANGE, UNDO, REDO = "change", "undo", "redo"


@dataclasses.dataclass(frozen=True)
class Shift:
    """How the ward shows a shift: when it begins and ends, and its colour; each may be empty."""

    name: bytes
    begins: str = ""
    ends: str = ""
    colour: str = ""


@dataclasses.dataclass(frozen=True)
class Input:
    """What a ward was given: the first Monday, the texts as they were read, how shifts are shown, and balances of months before."""

    start: datetime.date
    scenario: bytes
    history: bytes
    weeks: tuple[bytes, ...]
    shifts: tuple[Shift, ...] = ()
    balances: tuple[Balance, ...] = ()


@dataclasses.dataclass(frozen=True)
class Ask:
    """A line of an ask, who wrote it and when. Its number is 0 until it is in the ward."""

    line: bytes
    author: str
    written: str
    number: int = 0


@dataclasses.dataclass(frozen=True)
class StoredRoster:
    """A roster that was accepted: its solutions; its penalty, if it keeps the hard rules; where it came from; by which seed and how
    many searches it was found; and when."""

    solutions: bytes
    penalty: int | None
    source: str
    seed: int | None
    searches: int | None
    made: str

    def cost(self) -> str:
        return f"penalty {self.penalty}" if self.penalty is not None else "breaks hard rules"


@dataclasses.dataclass(frozen=True)
class Publication:
    """What was published: the first days of a roster, how many, by whom and when."""

    roster: StoredRoster
    days: int
    author: str
    made: str


@dataclasses.dataclass(frozen=True)
class State:
    """What holds in a version."""

    input: Input
    asks: tuple[Ask, ...] = ()
    roster: StoredRoster | None = None
    publication: Publication | None = None


@dataclasses.dataclass(frozen=True)
class Version:
    """A version: its number and its kind; the version that first had its state; what was done, by whom and when."""

    number: int
    kind: str
    first: int
    state: State
    note: str
    author: str
    made: str
    sha256: str


@dataclasses.dataclass(frozen=True)
class Candidate:
    """A roster to choose: how it was found, and how much of the working roster it changes."""

    roster: StoredRoster
    how: str
    days: int
    skills: int
    nurses: int


def digest(parts: collections.abc.Iterable[object]) -> str:
    """The SHA-256 of values one after the other, each with its length before it."""
    found = hashlib.sha256()
    for part in parts:
        data = part if isinstance(part, bytes) else repr(part).encode()
        found.update(b"%d:%s" % (len(data), data))
    return found.hexdigest()


def parts_of(value: object) -> collections.abc.Iterator[object]:
    """The values of which a dataclass or a tuple is made, with those of their parts."""
    if dataclasses.is_dataclass(value):
        for field in dataclasses.fields(value):
            yield from parts_of(getattr(value, field.name))
    elif isinstance(value, tuple):
        yield len(value)
        for part in value:
            yield from parts_of(part)
    else:
        yield str(value) if isinstance(value, datetime.date) else value


@functools.lru_cache(maxsize=None)
def digest_of_part(part: Input | Ask | StoredRoster | Publication | None) -> str:
    """The SHA-256 of what a version names, which many versions may name."""
    return digest(parts_of(part))


def digest_of(before: str, version: Version) -> str:
    """The SHA-256 of a version, with that of the one before it."""
    state = version.state
    named = [digest_of_part(part) for part in (state.input, state.roster, state.publication, *state.asks)]
    return digest([before, version.number, version.kind, version.first, *named, version.note, version.author, version.made])


def author() -> str:
    """Who gives a command: the name by which the user logged in."""
    named = os.environ.get("LOGNAME") or os.environ.get("USER")
    if not named:
        try:
            named = pwd.getpwuid(os.getuid()).pw_name
        except KeyError:
            named = str(os.getuid())
    return shown(named)


def moment() -> str:
    """The time by the clock, in UTC."""
    return f"{now():%Y-%m-%d %H:%M:%S}"


@dataclasses.dataclass(frozen=True)
class Ward:
    """All that a ward has."""

    name: str
    versions: tuple[Version, ...]
    candidates: tuple[Candidate, ...]

    @property
    def current(self) -> Version:
        return self.versions[-1]

    @property
    def state(self) -> State:
        return self.current.state

    def version(self, number: int) -> Version:
        if not 1 <= number <= len(self.versions):
            raise DeskError(f"{shown(self.name)}: there is no version {number}; its versions are 1 to {len(self.versions)}", 2)
        return self.versions[number - 1]


# ---- reading


class Reader:
    """Reads the tables of a ward, each row once."""

    def __init__(self, name: str, connection: sqlite3.Connection):
        self.name, self.connection = name, connection
        self.texts = self.all_texts()
        self.inputs = {
            number: self.input_of(number, *rest) for number, *rest in self.rows("id, start, scenario, history", "input")
        }
        self.asks = {
            number: Ask(line, by, when, number) for number, line, by, when in self.rows("id, line, author, written", "ask")
        }
        self.rosters = {
            number: StoredRoster(self.texts[text], *rest)
            for number, text, *rest in self.rows("id, text, penalty, source, seed, searches, made", "roster")
        }
        self.publications = {
            number: Publication(self.rosters[roster], *rest)
            for number, roster, *rest in self.rows("id, roster, days, author, made", "publication")
        }

    def rows(self, columns: str, table: str, order: str = "1") -> list[tuple[typing.Any, ...]]:
        return self.connection.execute(f"SELECT {columns} FROM {table} ORDER BY {order}").fetchall()

    def all_texts(self) -> dict[int, bytes]:
        found = {}
        for number, sha256, data in self.rows("id, sha256, bytes", "text"):
            if hashlib.sha256(data).hexdigest() != sha256:
                raise damaged(self.name, f"text {number} isn't what was written")
            found[number] = data
        return found

    def input_of(self, number: int, start: str, scenario: int, history: int) -> Input:
        def of_this(columns: str, table: str) -> list[tuple[typing.Any, ...]]:
            rows = self.connection.execute(f"SELECT {columns} FROM {table} WHERE input = ? ORDER BY 1", (number,))
            return rows.fetchall()

        weeks = tuple(self.texts[text] for _, text in of_this("number, text", "week"))
        shifts = tuple(Shift(*row) for row in of_this("name, begins, ends, colour", "shift"))
        balances = tuple(Balance(*row) for row in of_this("nurse, months, nights, weekends, unmet, changes", "balance"))
        monday = datetime.date.fromisoformat(start)
        return Input(monday, self.texts[scenario], self.texts[history], weeks, shifts, balances)

    def versions(self) -> collections.abc.Iterator[Version]:
        """The versions in their order, each as it was written."""
        asks: dict[int, list[Ask]] = {}
        for number, ask in self.rows("version, ask", "version_ask", "1, 2"):
            asks.setdefault(number, []).append(self.asks[ask])
        before, columns = "", "id, kind, state, input, roster, publication, note, author, made, sha256"
        for due, row in enumerate(self.rows(columns, "version"), 1):
            number, kind, first, inputs, roster, publication, *rest = row
            of_roster = None if roster is None else self.rosters[roster]
            published = None if publication is None else self.publications[publication]
            state = State(self.inputs[inputs], tuple(asks.get(number, ())), of_roster, published)
            version = Version(number, kind, first, state, *rest)
            if number != due or digest_of(before, version) != version.sha256:
                raise damaged(self.name, f"version {due} isn't what was written")
            before = version.sha256
            yield version
        if not before:
            raise damaged(self.name, "it has no version")

    def candidates(self, state: int) -> collections.abc.Iterator[Candidate]:
        """The candidates of the state that a version had first."""
        columns = "number, roster, how, days, skills, nurses, sha256"
        rows = self.connection.execute(f"SELECT {columns} FROM candidate WHERE state = ? ORDER BY 1", (state,))
        for number, roster, how, days, skills, nurses, sha256 in rows.fetchall():
            candidate = Candidate(self.rosters[roster], how, days, skills, nurses)
            if digest([number, *parts_of(candidate)]) != sha256:
                raise damaged(self.name, f"candidate {number} isn't what was written")
            yield candidate


def read_from(name: str, connection: sqlite3.Connection) -> Ward:
    """All that a ward has, by its database."""
    try:
        reader = Reader(name, connection)
        versions = tuple(reader.versions())
        return Ward(name, versions, tuple(reader.candidates(versions[-1].first)))
    except (KeyError, ValueError, TypeError):
        raise damaged(name, "a row in it can't be read") from None


def read_ward(name: str) -> Ward:
    """The ward of this name, as it is now."""
    with file.reading(name) as connection:
        return read_from(name, connection)


# ---- writing


class Writer:
    """Writes into a ward, within a transaction; `ward` is what the ward has before it."""

    def __init__(self, connection: sqlite3.Connection, ward: Ward | None):
        self.connection, self.ward = connection, ward

    def insert(self, table: str, **values: typing.Any) -> int:
        """A new row; returns its number."""
        names, marks = ", ".join(values), ", ".join("?" * len(values))
        done = self.connection.execute(f"INSERT INTO {table} ({names}) VALUES ({marks})", tuple(values.values()))
        return done.lastrowid or 0

    def known(self, table: str, **values: typing.Any) -> int | None:
        """The number of a row that has these values."""
        where = " AND ".join(f"{name} IS ?" for name in values)
        row = self.connection.execute(f"SELECT id FROM {table} WHERE {where} ORDER BY 1", tuple(values.values())).fetchone()
        return row[0] if row else None

    def known_or_new(self, table: str, **values: typing.Any) -> int:
        found = self.known(table, **values)
        return self.insert(table, **values) if found is None else found

    def text(self, data: bytes) -> int:
        sha256 = hashlib.sha256(data).hexdigest()
        found = self.known("text", sha256=sha256)
        return self.insert("text", sha256=sha256, bytes=data) if found is None else found

    def input(self, given: Input) -> int:
        texts = {"scenario": self.text(given.scenario), "history": self.text(given.history)}
        number = self.insert("input", start=str(given.start), **texts)
        for week, data in enumerate(given.weeks):
            self.insert("week", input=number, number=week, text=self.text(data))
        for shift in given.shifts:
            self.insert("shift", input=number, **vars(shift))
        for balance in given.balances:
            self.insert("balance", input=number, **vars(balance))
        return number

    def roster(self, roster: StoredRoster) -> int:
        values = {name: value for name, value in vars(roster).items() if name != "solutions"}
        return self.known_or_new("roster", text=self.text(roster.solutions), **values)

    def publication(self, published: Publication) -> int:
        values = {name: value for name, value in vars(published).items() if name != "roster"}
        return self.known_or_new("publication", roster=self.roster(published.roster), **values)

    def ask(self, ask: Ask) -> Ask:
        """An ask with its number."""
        if ask.number:
            return ask
        number = self.insert("ask", line=ask.line, author=ask.author, written=ask.written)
        return dataclasses.replace(ask, number=number)

    def add_version(self, note: str, state: State, kind: str = CHANGE, first: int = 0) -> Version:
        """Adds a version with this state; for undo and redo, `first` is the version that had it first."""
        last = self.ward.current if self.ward else None
        number = last.number + 1 if last else 1
        # (the same input is one row)
        same = last is not None and last.state.input == state.input
        row = self.connection.execute("SELECT input FROM version ORDER BY id DESC").fetchone() if same else None
        inputs = row[0] if row else self.input_again(state.input)
        asks = tuple(map(self.ask, state.asks))
        state = dataclasses.replace(state, asks=asks)
        version = Version(number, kind, first or number, state, note, author(), moment(), "")
        version = dataclasses.replace(version, sha256=digest_of(last.sha256 if last else "", version))
        self.insert(
            "version",
            id=number,
            kind=kind,
            state=version.first,
            input=inputs,
            roster=self.roster(state.roster) if state.roster else None,
            publication=self.publication(state.publication) if state.publication else None,
            note=note,
            author=version.author,
            made=version.made,
            sha256=version.sha256,
        )
        for ask in asks:
            self.insert("version_ask", version=number, ask=ask.number)
        return version

    def input_again(self, given: Input) -> int:
        """The row of an input that an earlier version has, or a new one."""
        for version in self.ward.versions if self.ward else ():
            if version.state.input == given:
                row = self.connection.execute("SELECT input FROM version WHERE id = ?", (version.number,)).fetchone()
                return int(row[0])
        return self.input(given)

    def add_candidates(self, found: collections.abc.Sequence[Candidate]) -> None:
        """Puts candidates to choose from in the place of those that the present state had."""
        assert self.ward
        state = self.ward.current.first
        self.connection.execute("DELETE FROM candidate WHERE state = ?", (state,))
        for number, candidate in enumerate(found, 1):
            values = {name: value for name, value in vars(candidate).items() if name != "roster"}
            sha256 = digest([number, *parts_of(candidate)])
            self.insert("candidate", state=state, number=number, roster=self.roster(candidate.roster), sha256=sha256, **values)


class Outdated(DeskError):
    """A change of a ward that has another version by now."""


@contextlib.contextmanager
def changing(seen: Ward, is_strict: bool = True) -> collections.abc.Iterator[Writer]:
    """A change of a ward that was read before. If it has another version by now, nothing is changed, unless the change is one that
    goes with any."""
    with file.writing(seen.name) as connection:
        ward = read_from(seen.name, connection)
        if is_strict and ward.current != seen.current:
            last = ward.current
            message = f"{shown(seen.name)}: meanwhile {last.author} made version {last.number} ({last.note})"
            raise Outdated(f"{message}; nothing was changed. Give the command again", 3)
        yield Writer(connection, ward)


def make_ward(name: str, note: str, state: State) -> Version:
    """A new ward with this state."""
    with file.making(name) as connection:
        return Writer(connection, None).add_version(note, state)
