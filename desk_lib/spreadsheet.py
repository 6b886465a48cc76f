"""Tables as spreadsheets write them: a .xlsx, or CSV in any of the usual encodings; and dates as people of any country write them."""
import collections.abc
import csv
import datetime
import io
import re
import subprocess
import sys
import unicodedata

from desk_lib.days import MONTHS
from desk_lib.texts import UTF8_MARK, DeskError, shown

# How a .xlsx begins, which is a ZIP file.
XLSX = b"PK\x03\x04"
UTF16 = {b"\xff\xfe": "utf-16-le", b"\xfe\xff": "utf-16-be"}
MARKS = ",;\t"
# Where a Python may be that can import openpyxl, besides the one that runs the desk.
PYTHONS = (sys.executable, "python3", "/usr/bin/python3", "/usr/local/bin/python3")
PACKAGE = "python3-openpyxl"
# What that Python does: it writes the first sheet as CSV, dates as 2026-11-02.
READS_XLSX = """
import csv, datetime, io, sys
import openpyxl
def text(value):
    if isinstance(value, datetime.datetime):
        return str(value.date()) if value.time() == datetime.time() else str(value)
    return "" if value is None else str(int(value)) if isinstance(value, float) and value == int(value) else str(value)
sheet = openpyxl.load_workbook(io.BytesIO(sys.stdin.buffer.read()), read_only=True, data_only=True).worksheets[0]
out = io.TextIOWrapper(sys.stdout.buffer, encoding="utf-8", newline="")
csv.writer(out, lineterminator="\\n").writerows([text(cell) for cell in row] for row in sheet.iter_rows(values_only=True))
out.flush()
"""
SECONDS = 60
# A date in numbers, and one with the name of its month; a weekday may stand before it.
NUMBERS = re.compile(r"(?:[^\W\d]+\.?,? )?(\d{1,4})[./-] ?(\d{1,2})[./-] ?(\d{1,4})")
NAMED = re.compile(r"(?:[^\W\d]+\.?,? )?(\d{1,2})[. -]+([^\W\d]{3})[^\W\d]*[., -]+(\d{2,4})")
Dates = list[datetime.date]


def is_xlsx(data: bytes) -> bool:
    return data.startswith(XLSX)


def decoded(name: str, data: bytes) -> bytes:
    """The bytes of a table in UTF-8 without a mark, and in composed Unicode: of a .xlsx, its first sheet as CSV."""
    if is_xlsx(data):
        data = csv_of_xlsx(name, data)
    elif data[:2] in UTF16:
        data = data[2:].decode(UTF16[data[:2]], "replace").encode()
    data = data.removeprefix(UTF8_MARK)
    try:
        text = data.decode()
    except UnicodeDecodeError:
        # (Windows-1252, whose few bytes without a letter stay as they are)
        text = data.decode("cp1252", "replace")
    composed = unicodedata.normalize("NFC", text)
    return composed.encode() if composed != text or text.encode() != data else data


def csv_of_xlsx(name: str, data: bytes) -> bytes:
    """The first sheet of a .xlsx as CSV, by the first Python that can read it."""
    for python in dict.fromkeys(PYTHONS):
        try:
            can = subprocess.run([python, "-c", "import openpyxl"], capture_output=True, timeout=SECONDS, check=False)
            if can.returncode == 0:
                ran = subprocess.run([python, "-c", READS_XLSX], input=data, capture_output=True, timeout=SECONDS, check=False)
                if ran.returncode:
                    raise DeskError(f"{shown(name)}: this .xlsx can't be read; save it anew, or as CSV")
                return ran.stdout
        except (OSError, subprocess.TimeoutExpired):
            continue
    message = f"{shown(name)}: to read a .xlsx, the desk needs openpyxl: install {PACKAGE}"
    raise DeskError(f"{message} (sudo apt-get install {PACKAGE}), or save the table as CSV", 3)


def rows_of(name: str, data: bytes) -> list[list[str]]:
    """The cells of a table, without rows that are empty."""
    text = decoded(name, data).decode("utf-8", "replace")
    head = next((line for line in text.splitlines() if line.strip()), "")
    mark = max(MARKS, key=head.count)
    try:
        rows = [[cell.strip() for cell in row] for row in csv.reader(io.StringIO(text), delimiter=mark)]
    except csv.Error as why:
        raise DeskError(f"{shown(name)}: this is no table: {why}") from None
    return [row for row in rows if any(row)]


def same(word: str) -> str:
    """A word as it is compared: in composed Unicode, with one blank between its parts."""
    return " ".join(unicodedata.normalize("NFC", word).split())


# ---- dates


def dates_of(word: str) -> dict[str, datetime.date]:
    """The dates that a word may be, by the order of its parts: year first, day first, or month first."""
    word = same(word)
    match = NUMBERS.fullmatch(word)
    if match:
        first, second, third = match.groups()
        if len(first) == 4:
            orders = {"year first": (first, second, third)}
        else:
            orders = {"day first": (third, second, first), "month first": (third, first, second)}
        found = {order: made(*map(int, parts)) for order, parts in orders.items()}
        return {order: date for order, date in found.items() if date}
    match = NAMED.fullmatch(word)
    if match and match[2].title() in MONTHS:
        date = made(int(match[3]), MONTHS.index(match[2].title()) + 1, int(match[1]))
        return {"named": date} if date else {}
    return {}


def made(year: int, month: int, day: int) -> datetime.date | None:
    try:
        return datetime.date(year + 2000 if year < 100 else year, month, day)
    except ValueError:
        return None


def days_in_heads(heads: collections.abc.Sequence[str]) -> tuple[Dates, int, str]:
    """The dates of the heads of consecutive days; and if they are none, the number of the head that is wrong, and why."""
    found: dict[str, Dates] = {}
    farthest, all_orders = 0, {order for head in heads[:1] for order in dates_of(head)}
    for order in all_orders:
        days: Dates = []
        for head in heads:
            date = dates_of(head).get(order)
            if date is None or days and date != days[-1] + datetime.timedelta(1):
                break
            days.append(date)
        farthest = max(farthest, len(days))
        if len(days) == len(heads):
            found[order] = days
    if len(found) == 1:
        return next(iter(found.values())), -1, ""
    if found:
        both = " or ".join(str(days[0]) for days in found.values())
        return [], 0, f"'{heads[0]}' may be {both}; write it as 2026-11-02"
    if not all_orders:
        return [], 0, f"'{heads[0]}' stands here, and a date is due, as 2026-11-02"
    at = min(farthest, len(heads) - 1)
    return [], at, f"'{heads[at]}' stands here, and the day after '{heads[at - 1]}' is due" if at else f"'{heads[0]}' is no date"
