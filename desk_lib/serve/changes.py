"""Changes of a ward that are one version each: cells, asks, takes, publications, undo and redo. Each is made on a version that is named,
and refused if there is another one by now."""
import collections.abc
import contextlib
import dataclasses
import typing

from desk_lib import table_in
from desk_lib.days import day_text
from desk_lib.serve.asked import Json, flag_in, number_in, refused
from desk_lib.serve.edits import Edit, edit_in
from desk_lib.serve.screen import Screen
from desk_lib.serve.snapshot import Numbers, Snapshot
from desk_lib.texts import Text, Texts, plural, shown
from desk_lib.ward import asking, rosters
from desk_lib.ward.store import (
    CHANGE,
    REDO,
    UNDO,
    Ask,
    Outdated,
    Publication,
    State,
    StoredRoster,
    Version,
    Writer,
    author,
    changing,
    moment,
)
from desk_lib.ward.texts import days_of, input_texts
from desk_lib.ward.versions import note_of, undone

# Who or what made a roster, as the ward notes it.
SOURCE = "the screen"
# How the note of a version begins that has other cells.
SET = "set: "


class Writing(typing.NamedTuple):
    """A change that is being written: the writer, the state that the ward has, and what is done with the version that is added."""

    writer: Writer
    state: State
    added: collections.abc.Callable[[Version], None]

    def add(self, note: str, kind: str = CHANGE, first: int = 0, **new: typing.Any) -> None:
        """Adds a version, which has the state with these parts in the place of others."""
        self.added(self.writer.add_version(note, dataclasses.replace(self.state, **new), kind, first))


class Changes:
    """The changes of a ward that is served."""

    def __init__(self, screen: Screen):
        self.screen, self.program = screen, screen.program

    @contextlib.contextmanager
    def writing(self, given: Json, before: Snapshot, what: list[str]) -> collections.abc.Iterator["Writing"]:
        """A change of the present version, which is `before`. If another process was faster, that is said."""
        try:
            with self.screen.adding(before.ward) as added, changing(before.ward) as writer:
                yield Writing(writer, before.ward.state, added)
        except Outdated:
            raise self.screen.outdated(given, what) from None

    # ---- cells

    def tried(self, given: Json) -> Json:
        """What an edit would change. Nothing is stored."""
        screen = self.screen
        with screen.lock:
            snapshot = screen.named(given)
            if snapshot.version != screen.ward().current:
                raise screen.conflict(snapshot.version, [])
            edit = edit_in(given, snapshot, screen.today())
        why = edit.refusal()
        if why:
            return {"version": snapshot.version.number, **edit.head_json(), **edit.nothing_tried(why.words)}
        return {"version": snapshot.version.number, **edit.head_json(), **edit.tried(self.numbers_with(edit))}

    def numbers_with(self, edit: Edit) -> Numbers:
        """The numbers of the roster with an edit, as the program counts them, too."""
        found = edit.snapshot.numbers.with_roster(edit.roster())
        found.compare(self.program)
        return found

    def change(self, given: Json) -> Json:
        """Sets cells, or swaps two."""
        screen = self.screen
        with screen.lock:
            edit = edit_in(given, screen.named(given), screen.today())
            before = screen.present(given, edit.words())
            edit.must_be_possible(flag_in(given, "published"))
            numbers = self.numbers_with(edit)
            solutions = self.program.ask(["show"], numbers.texts).output
            penalty = numbers.costing.penalty if numbers.is_allowed else None
            made = StoredRoster(solutions, penalty, SOURCE, None, None, moment())
            with self.writing(given, before, edit.words()) as writing:
                writing.add(f"{SET}{'; '.join(edit.words())[:200]}", roster=made)
            screen.derive(before, numbers)
            return screen.changed(given, before, edit.done_text())

    # ---- undo and redo

    def move(self, given: Json, kind: str) -> Json:
        """Adds a version that has the state of before, or one that was undone."""
        screen = self.screen
        with screen.lock:
            snapshot = screen.present(given, [kind])
            before, after = undone(snapshot.ward.versions)
            if len(before) < 2 if kind == UNDO else not after:
                raise refused(
                    "There is nothing to undo; this is the ward as it was made." if kind == UNDO else "There is nothing to redo."
                )
            target = snapshot.ward.version(before[-2] if kind == UNDO else after[-1])
            of = snapshot.ward.version(before[-1]) if kind == UNDO else target
            with self.writing(given, snapshot, [kind]) as writing:
                writing.add(f"{kind} of {note_of(of)}", kind, target.number, **vars(target.state))
            return screen.changed(given, snapshot, f"{'Undone' if kind == UNDO else 'Redone'}: {of.note.removeprefix(SET)}")

    def undo(self, given: Json) -> Json:
        return self.move(given, UNDO)

    def redo(self, given: Json) -> Json:
        return self.move(given, REDO)

    def back(self, given: Json) -> Json:
        """Makes the roster of an earlier version the working one."""
        screen = self.screen
        with screen.lock:
            before = screen.present(given, ["go back"])
            number = number_in(given, "number", 1, len(before.ward.versions))
            roster = before.ward.version(number).state.roster
            if roster is None:
                raise refused(f"Version {number} has no roster.", "number")
            if roster == before.ward.state.roster:
                raise refused(f"The roster is that of version {number} already.", "number")
            return self.keep(
                given,
                before,
                self.counted(before, roster),
                f"back: to the roster of version {number}",
                f"Back to version {number}",
            )

    # ---- rosters

    def counted(self, before: Snapshot, roster: StoredRoster) -> StoredRoster:
        """A roster with its penalty by the asks of now."""
        found = rosters.stored(
            self.screen.given(before.ward), self.program, roster.solutions, roster.source, roster.seed, roster.searches
        )
        return dataclasses.replace(found, made=roster.made) if found.penalty == roster.penalty else found

    def keep(self, given: Json, before: Snapshot, roster: StoredRoster, note: str, done: str) -> Json:
        """Makes a roster the working one."""
        with self.writing(given, before, [note]) as writing:
            writing.add(f"{note}, {roster.cost()}", roster=roster)
        return self.screen.changed(given, before, done)

    def take(self, given: Json) -> Json:
        """Makes a candidate the working roster."""
        screen = self.screen
        with screen.lock:
            before = screen.present(given, ["take"])
            candidates = screen.ward().candidates
            if not candidates:
                raise refused("There are no repairs for this version. Look for some first.", "candidate")
            number = number_in(given, "candidate", 1, len(candidates))
            roster = candidates[number - 1].roster
            if before.ward.state.roster and roster.solutions == before.ward.state.roster.solutions:
                raise refused("This is the working roster already; nothing was changed.", "candidate")
            return self.keep(given, before, roster, f"take: candidate {number}", f"Taken: repair {number}")

    def upload(self, given: Json, name: str, data: bytes) -> Json:
        """Makes the roster of a file the working one: solutions, or a table of the desk."""
        screen = self.screen
        with screen.lock:
            what = f"the roster of {shown(name)}"
            before = screen.present(given, [what])
            texts = input_texts(before.ward)
            case = table_in.case_of(Texts(texts))
            text = Text(name, data, "sols")
            solutions = table_in.solutions_in(text, case) if case else text
            canonical = self.program.ask(["show"], Texts([*texts, solutions])).output
            found = rosters.stored(screen.given(before.ward), self.program, canonical, f"file {shown(name)}")
            if found.penalty is None and not flag_in(given, "force"):
                broken = rosters.broken(screen.given(before.ward), canonical)
                raise refused(f"The roster of {shown(name)} breaks hard rules: {broken}. Nothing was changed.", can_force=True)
            return self.keep(given, before, found, f"take: {shown(name)[:80]}", f"Taken: {what}")

    # ---- asks

    def add_asks(self, given: Json, lines: list[str], roster: StoredRoster | None = None) -> tuple[Json, list[Ask]]:
        """Adds asks by lines, and makes a roster the working one if it is given. Returns what the change answers, and the asks."""
        screen = self.screen
        with screen.lock:
            before = screen.present(given, [f"ask: {shown(line)}" for line in lines])
            desk = screen.given(before.ward)
            plan = asking.plan_of(before.ward)
            new = asking.new_asks(asking.Reader(before.ward, plan, asking.today_in(desk)), lines)
            with self.writing(given, before, [f"ask: {shown(line)}" for line in lines]) as writing:
                asks = [*map(writing.writer.ask, new)]
                state = dataclasses.replace(
                    writing.state, asks=(*writing.state.asks, *asks), roster=roster or writing.state.roster
                )
                asking.taken_asks(asking.with_state(before.ward, state), plan, desk, (*asks,))
                writing.add("ask: " + "; ".join(shown(ask.line) for ask in asks)[:200], **vars(state))
            return screen.changed(given, before, f"{plural(len(asks), 'ask')} added"), asks

    def withdraw(self, given: Json, number: int) -> Json:
        """Withdraws an ask."""
        screen = self.screen
        with screen.lock:
            before = screen.present(given, [f"withdraw ask {number}"])
            gone = next((ask for ask in before.ward.state.asks if ask.number == number), None)
            if gone is None:
                raise refused(f"There is no ask {number}; it may be withdrawn already.", "number")
            with self.writing(given, before, [f"withdraw ask {number}"]) as writing:
                kept = tuple(ask for ask in writing.state.asks if ask != gone)
                writing.add(f"unask: {number} {shown(gone.line)[:200]}", asks=kept)
            return screen.changed(given, before, f"Ask {number} withdrawn")

    # ---- publication

    def publish(self, given: Json) -> Json:
        """Publishes the working roster up to a day."""
        screen = self.screen
        with screen.lock:
            before = screen.present(given, ["publish"])
            every, was, working = days_of(before.ward), before.ward.state.publication, before.ward.state.roster
            until = number_in(given, "until", 0, every - 1)
            if working is None:
                raise refused("Nothing is planned yet, so there is nothing to publish. Plan a roster first.")
            if was and until + 1 < was.days:
                raise refused(f"It is published to {day_text(was.days - 1)} already; undo takes that back.", "until")
            desk = screen.given(before.ward)
            if before.penalty is None and not flag_in(given, "force"):
                broken = rosters.broken(desk, working.solutions)
                raise refused(f"The roster breaks hard rules: {broken}. Nothing was published.", can_force=True)
            if was and was.days == until + 1 and was.roster.solutions == working.solutions:
                raise refused(f"This roster is published to {day_text(until)} already; nothing was changed.", "until")
            changed = rosters.changes_since(desk, was)
            published = Publication(working, until + 1, author(), moment())
            with self.writing(given, before, ["publish"]) as writing:
                writing.add(f"publish: to {day_text(until)}{changed}", publication=published)
            return screen.changed(given, before, f"Published up to {day_text(until)}")
