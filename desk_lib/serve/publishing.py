"""Publishing and going back: what is published and what changed since, the versions, files to save or to print, and the next month."""
import io
import os
import re
import typing
import zipfile

from desk_lib import calendar_file, page, tables
from desk_lib.commands import colours_of
from desk_lib.days import day_text, now
from desk_lib.serve.asked import Json, flag_in, none_such, refused, text_in
from desk_lib.serve.month import local_time, version_json
from desk_lib.serve.others import Others
from desk_lib.serve.screen import Screen
from desk_lib.serve.snapshot import Snapshot
from desk_lib.sheet import Sheet
from desk_lib.texts import shown
from desk_lib.ward import file, months
from desk_lib.ward.naming import ENDING
from desk_lib.ward.texts import days_of
from desk_lib.ward.versions import undone
from desk_lib.why import why_lines

# How a ward of the next month may be called, without its ending.
NAME = re.compile(r"[^\x00-\x1f/\\]{1,100}")


class Export(typing.NamedTuple):
    """A file to save: its name, its type, and its bytes."""

    name: str
    kind: str
    data: bytes


class Publishing:
    """What the page asks of publications, versions and files."""

    def __init__(self, screen: Screen):
        self.screen, self.others = screen, Others(screen.program.path)

    def view(self) -> Json:
        """What is published, what changed since, and up to which day may be published."""
        screen = self.screen
        with screen.lock:
            snapshot, ward = screen.snapshot(), screen.ward()
            publication, every = ward.state.publication, days_of(ward)
            published = None
            differs: list[Json] = []
            if publication:
                published = {
                    "version": self.version_of_publication(),
                    "until": publication.days - 1,
                    "text": day_text(publication.days - 1),
                    "author": publication.author,
                    "at": local_time(publication.made),
                }
                was = snapshot.published_roster
                differs = screen.differs(was, snapshot.plan.roster) if was else []
            least = publication.days - 1 if publication else 0
            ends = [day for day in range(6, every, 7) if day >= least]
            refusal = None if snapshot.has_roster else "Nothing is planned yet, so there is nothing to publish."
            if snapshot.has_roster and snapshot.penalty is None:
                refusal = "The roster breaks hard rules."
            return {
                "published": published,
                "changes": differs,
                "days": sum(len(nurse["changes"]) for nurse in differs),
                "nurses": len(differs),
                "choices": [{"day": day, "text": day_text(day)} for day in ends],
                "refused": refusal,
            }

    def version_of_publication(self) -> int | None:
        """The version that published what is published now."""
        ward = self.screen.ward()
        holding, _ = undone(ward.versions)
        found = [number for number in holding if ward.version(number).state.publication == ward.state.publication]
        return found[0] if found else None

    def versions(self) -> Json:
        return {"versions": [version_json(version) for version in reversed(self.screen.ward().versions)]}

    def diff(self, first: int, second: int) -> Json:
        return self.screen.diff(first, second)

    def why(self, number: int | None, nurse: int, day: int) -> Json:
        """What it would cost to meet a nurse's request."""
        with self.screen.lock:
            snapshot = self.screen.snapshot(number)
        if snapshot.penalty is None:
            raise refused(
                "The roster breaks hard rules, so it isn't known what a request costs."
                if snapshot.has_roster
                else "Nothing is planned yet."
            )
        if not (0 <= nurse < len(snapshot.case.nurses) and 0 <= day < snapshot.plan.days):
            raise none_such("There is no such nurse or day.")
        name = os.fsdecode(snapshot.case.nurses[nurse].name)
        return {"lines": why_lines(self.screen.program, snapshot.numbers.texts, snapshot.costing, name, day)}

    # ---- the next month

    def next_month(self, given: Json) -> Json:
        """Lays out the ward of the next month, as a file next to this one."""
        screen, name = self.screen, text_in(given, "name", 105)
        stem = name.removesuffix(ENDING)
        if not NAME.fullmatch(stem) or stem.startswith((".", "-")):
            raise refused("The name may have no / and no \\, and begins with neither a dot nor a dash.", "name")
        with screen.lock:
            before = screen.present(given, [f"lay out {shown(name)}"])
            path = os.path.join(os.path.dirname(screen.name), f"{stem}{ENDING}")
            lines = months.lay_out(screen.given(before.ward), screen.program, path, flag_in(given, "carry"))
        self.others.add(f"{stem}{ENDING}", path)
        command = f"./desk serve {shown(path)}"
        return {
            "file": f"{stem}{ENDING}",
            "words": [screen.plain(line.replace(path, stem + ENDING)) for line in lines],
            "command": command,
        }

    # ---- files

    def export(self, kind: str, number: int | None, nurse: int | None) -> Export:
        """A file of a version."""
        with self.screen.lock:
            snapshot = self.screen.snapshot(number)
            makers = {
                "page": self.page,
                "notice": self.page,
                "months": self.page,
                "nurse": self.page,
                "csv": self.csv,
                "ics": self.ics,
            }
            if kind == "backup":
                return self.backup()
            if kind not in makers:
                raise none_such("There is no such file.")
            if not snapshot.has_roster:
                raise refused("Nothing is planned yet.")
            if nurse is not None and not 0 <= nurse < len(snapshot.case.nurses):
                raise none_such("There is no such nurse.")
            return makers[kind](snapshot, kind, nurse)

    def title(self) -> str:
        return re.sub(r"\.ward$", "", os.path.basename(self.screen.name))

    def page(self, snapshot: Snapshot, kind: str, nurse: int | None) -> Export:
        """A page to look at and to print: of all, for the wall, of each nurse's month, or of one nurse's."""
        ward = snapshot.ward
        desk = self.screen.given(ward)
        sheet = Sheet(snapshot.costing, snapshot.published_roster, 0, ward.state.input.start, snapshot.published)
        version = self.screen.program.version()
        of_one = (nurse or 0) if kind == "nurse" else None
        looks = colours_of(desk, snapshot.plan), snapshot.balances
        wanted = page.Wanted(shown(self.title()), version, kind == "notice", of_one, kind == "months", *looks)
        bound = self.screen.bound_of(snapshot)
        data = page.Page(sheet, None, [], bound, wanted).text().encode()
        what = shown(snapshot.case.nurses[of_one].name) if of_one is not None else kind
        return Export(f"{self.title()}-{what}.html", "text/html; charset=utf-8", data)

    def csv(self, snapshot: Snapshot, _: str, __: int | None) -> Export:
        text = tables.csv_text(snapshot.plan, snapshot.ward.state.input.start)
        return Export(f"{self.title()}.csv", "text/csv; charset=utf-8", text.encode())

    def ics(self, snapshot: Snapshot, _: str, nurse: int | None) -> Export:
        """A nurse's calendar, or those of all in one archive."""
        shifts, plan, start = snapshot.ward.state.input.shifts, snapshot.plan, snapshot.ward.state.input.start
        times = dict(
            calendar_file.times_in(f"{os.fsdecode(shift.name)}={shift.begins}-{shift.ends}", plan)
            for shift in shifts
            if shift.begins
        )
        calendar = calendar_file.Calendar(plan, start, times, now())
        if nurse is not None:
            return Export(
                f"{shown(snapshot.case.nurses[nurse].name)}.ics", "text/calendar; charset=utf-8", calendar.of_nurse(nurse)
            )
        packed = io.BytesIO()
        with zipfile.ZipFile(packed, "w", zipfile.ZIP_DEFLATED) as archive:
            for number, name in enumerate(calendar_file.file_names(plan, "calendars")):
                archive.writestr(name, calendar.of_nurse(number))
        return Export(f"{self.title()}-calendars.zip", "application/zip", packed.getvalue())

    def backup(self) -> Export:
        """A whole copy of the ward."""
        name = self.screen.name
        copy = os.path.join(os.path.dirname(os.path.realpath(name)), f".desk-{os.getpid()}-copy{ENDING}")
        try:
            file.back_up(name, copy)
            with open(copy, "rb") as made:
                return Export(f"{self.title()}-backup{ENDING}", "application/vnd.sqlite3", made.read())
        finally:
            if os.path.exists(copy):
                os.remove(copy)
