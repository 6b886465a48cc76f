"""The table that `desk csv` writes, instead of solutions: a roster if it is right, and else what is wrong with it."""
import dataclasses
import re
import unicodedata

from desk_lib.case import Case, Choice, Roster
from desk_lib.days import Calendar, column_name, monday_in
from desk_lib.findings import nearest
from desk_lib.grammar import WORD, Fault, Words, read_bundle
from desk_lib.model import choice_name, plan_of, solution_pieces, with_no_solutions
from desk_lib.spreadsheet import UTF16, dates_of, days_in_heads, decoded, is_xlsx
from desk_lib.texts import UTF8_MARK, DeskError, Origin, Place, Text, Texts, plural, shown

# The first cell, what divides cells, and how the second cell begins, which names a day: as 'week 0 Mon', or a date of any form.
TABLE = re.compile(
    rb'(?:[ \t]*[,;\t]*[ \t]*\r?\n)*[ \t]*"?nurse"?[ ]*([,;\t])[ ]*"?(?:week |\d{1,4}[-./ ]|[A-Z][a-z]+\.?,? \d)', re.I
)
# How many letters of a word are shown.
LONGEST = 40
# A cell in quotes, or one without, up to what divides cells or the end of the line.
CELL = rb'(?:"((?:[^"]|"")*)"|[^"%b][^%b]*|)(?=%b|$)'


@dataclasses.dataclass(frozen=True)
class Cell:
    """A cell: what stands in it, as it is shown, from which byte of the file on, and in how many."""

    word: str
    at: int
    length: int

    def __str__(self) -> str:
        """The word, as far as a line has space for it."""
        return f"'{self.word}'" if len(self.word) <= LONGEST else f"'{self.word[:LONGEST]}…'"


@dataclasses.dataclass(frozen=True)
class Wrong:
    """What is wrong with a cell."""

    cell: Cell
    message: str

    def place(self, text: Text) -> Place:
        """The place of the cell, in the file as it is."""
        return Texts([text]).place(self.cell.at, self.cell.length)


def begin_of(text: Text) -> re.Match[bytes] | None:
    """How the file begins, if it is such a table."""
    return TABLE.match(text.data.removeprefix(UTF8_MARK))


def as_table(text: Text) -> Text:
    """The text of a table, as a spreadsheet may save it, in UTF-8; any other text as it is."""
    if is_xlsx(text.data) or text.data[:2] in UTF16:
        data = decoded(text.name, text.data)
        return dataclasses.replace(text, data=data) if TABLE.match(data) else text
    data = decoded(text.name, text.data) if begin_of(text) else text.data
    return dataclasses.replace(text, data=data) if data != text.data.removeprefix(UTF8_MARK) else text


def lines_of(text: Text) -> list[list[Cell]]:
    """The cells of each line of a table that has any."""
    begin = begin_of(text)
    mark: bytes = begin[1] if begin else b","
    cell = re.compile(CELL % (mark, mark, mark))
    found, at = [], len(UTF8_MARK) if text.data.startswith(UTF8_MARK) else 0
    for line in text.data[at:].split(b"\n"):
        cells = cells_of(line.rstrip(b"\r"), at, cell)
        # (spreadsheets write rows of which all cells are empty)
        if any(of_line.word for of_line in cells):
            found.append(cells)
        at += len(line) + 1
    return found


def cells_of(line: bytes, at: int, cell: re.Pattern[bytes]) -> list[Cell]:
    """The cells of a line, which begins at this byte."""
    found, begin = [], 0
    while begin <= len(line):
        match = cell.match(line, begin)
        # (a quote that doesn't end is part of a word, which has all that follows)
        end = match.end() if match else len(line)
        word = line[begin:end] if not match or match[1] is None else match[1].replace(b'""', b'"')
        found.append(Cell(unicodedata.normalize("NFC", shown(word.strip())), at + begin, end - begin))
        begin = end + 1
    return found


class Table:
    """The table of a file, held to a case."""

    def __init__(self, text: Text, case: Case):
        self.text, self.case = text, case
        self.wrong: list[Wrong] = []
        self.days = 7 * case.weeks
        self.head, *lines = lines_of(text)
        both = [(shift, skill) for shift in range(len(case.shifts)) for skill in range(len(case.skills))]
        self.choices: dict[str, Choice] = {composed(choice_name(case, choice)): choice for choice in both} | {"": None}
        self.numbers = {composed(shown(nurse.name)): number for number, nurse in enumerate(case.nurses)}
        self.cells: dict[tuple[int, int], Cell] = {}
        self.of_nurses: dict[int, Cell] = {}
        self.roster: Roster = [[None] * self.days for _ in case.nurses]
        if self.check_head():
            for line in lines:
                self.take(*line)
            self.check_nurses()
        self.wrong.sort(key=lambda wrong: wrong.cell.at)

    def note(self, cell: Cell, message: str) -> None:
        self.wrong.append(Wrong(cell, message))

    def check_head(self) -> bool:
        """Notes the first cell of the first line that names another day than is due there."""
        days = self.head[1:]
        while len(days) > self.days and not days[-1].word:
            days = days[:-1]
        if not days:
            self.note(self.head[0], "no day stands after this")
            return False
        if not (self.check_dates(days[: self.days]) if days[0].word[:5] != "week " else self.check_weeks(days[: self.days])):
            return False
        if len(days) != self.days:
            self.note(
                days[min(len(days) - 1, self.days)], f"the table has {plural(len(days), 'day')}, and the scenario {self.days}"
            )
        return len(days) == self.days

    def check_weeks(self, days: list[Cell]) -> bool:
        """The same of days that are named by their weeks."""
        for day, cell in enumerate(days):
            if cell.word != column_name(day):
                self.note(cell, f"{cell} stands here, and '{column_name(day)}' is due")
                return False
        return True

    def check_dates(self, days: list[Cell]) -> bool:
        """The same of dates, in whatever form a country writes them."""
        dates, at, why = days_in_heads([cell.word for cell in days])
        first = {*dates_of(days[0].word).values()} if not dates else {dates[0]}
        try:
            for date in first if len(first) == 1 else ():
                monday_in(str(date))
                if Calendar.start not in (None, date):
                    raise DeskError(f"the table begins on {date}, and the roster on {Calendar.start}")
        except DeskError as not_monday:
            at, why = 0, str(not_monday)
        if why:
            self.note(days[at], why)
        return not why

    def take(self, name: Cell, *cells: Cell) -> None:
        """Takes a line of a nurse."""
        while len(cells) > self.days and not cells[-1].word:
            cells = cells[:-1]
        number = self.numbers.get(name.word)
        if number is None:
            near = nearest(name.word.encode(), [known.encode() for known in self.numbers])
            open_quote = "; the quotation mark before it has no second one" if name.word.startswith('"') else ""
            self.note(name, f"the scenario has no nurse {name}{near}{open_quote}")
        elif number in self.of_nurses:
            first = Wrong(self.of_nurses[number], "").place(self.text).line
            self.note(name, f"the nurse {name} stands here a second time; the first is in line {first}")
        elif len(cells) != self.days:
            self.note(name, f"the line of {name} has {plural(len(cells), 'day')}, and the scenario {self.days}")
        for day, cell in enumerate(cells[: self.days]):
            self.take_cell(number, day, cell)
        if number is not None:
            self.of_nurses.setdefault(number, name)

    def take_cell(self, number: int | None, day: int, cell: Cell) -> None:
        """Takes what a nurse does on a day."""
        if cell.word not in self.choices:
            near = nearest(cell.word.encode(), [known.encode() for known in self.choices if known])
            self.note(cell, f"{cell} stands here, and a shift with a skill is due, or nothing for a day off{near}")
        elif number is not None:
            self.roster[number][day] = self.choices[cell.word]
            self.cells[number, day] = cell

    def check_nurses(self) -> None:
        """Notes nurses who have no line, if nothing else is wrong."""
        lacking = [shown(nurse.name) for number, nurse in enumerate(self.case.nurses) if number not in self.of_nurses]
        if lacking and not self.wrong:
            more = f" and {len(lacking) - 5} more" if len(lacking) > 5 else ""
            self.note(self.head[0], f"the table has no line for {', '.join(lacking[:5])}{more}")

    def solutions(self) -> Text:
        """The text of the solutions. Each of its words is found again at its cell of the table."""
        origins, data = [], b""
        for piece, at in solution_pieces(self.case, self.roster):
            cell = self.cells[at] if at else self.head[0]
            origins.append((len(data), cell.at, cell.length))
            data += piece
        return Text(self.text.name, data, self.text.kind, Origin(self.text.data, origins))


def composed(name: str) -> str:
    """A name as it is compared: in composed Unicode."""
    return unicodedata.normalize("NFC", name)


def case_of(texts: Texts) -> Case | None:
    """The case of texts that end after the week data, if they can be read."""
    whole = with_no_solutions(texts)
    words = Words(whole)
    try:
        return None if whole is texts else plan_of(words, read_bundle(words)).case
    except (Fault, KeyError):
        return None


def table_in(texts: list[Text]) -> Table | None:
    """The table that stands after other texts, if these can be read and have all but solutions."""
    last = as_table(texts[-1]) if len(texts) > 1 else None
    if last is None or not begin_of(last):
        return None
    case = case_of(Texts(texts[:-1]))
    return Table(last, case) if case else None


def solutions_in(text: Text, case: Case) -> Text:
    """A text of solutions: this one, which has to begin as such, or those of a table, in which nothing may be wrong."""
    text = as_table(text)
    if begin_of(text):
        return right(Table(text, case)).solutions()
    first = WORD.search(text.data)
    if not first or first[0] != b"SOLUTION":
        what = f"it begins with '{shown(first[0][:LONGEST])}'" if first else "it is empty"
        raise DeskError(
            f"{shown(text.name)}: {what}, and solutions are due, which begin with SOLUTION, or a table as 'desk csv' writes"
        )
    return text


def right(table: Table) -> Table:
    """The table, in which nothing may be wrong."""
    if table.wrong:
        first, more = table.wrong[0], len(table.wrong) - 1
        others = f" ({plural(more, 'fault')} more)" if more else ""
        raise DeskError(f"{first.place(table.text)}: {first.message}{others}")
    return table
