"""The texts of a ward, as files have them for other commands: those that were read, the working roster, and the asks."""
import datetime
import typing

from desk_lib.asks import FORMS, OF_WARD
from desk_lib.days import TO, date_in, now
from desk_lib.model import with_no_solutions
from desk_lib.texts import DeskError, Text, Texts, shown

if typing.TYPE_CHECKING:
    from desk_lib.ward.store import Ward

# After how many words the days of an ask begin, and how many of them there are at most.
DAYS_OF = {b"need": (1, 1), b"duty": (2, 1), b"wish": (3, 999)}
OTHERS = (2, 999)


def input_texts(ward: "Ward") -> list[Text]:
    """The scenario, the history and the week data."""
    given, name = ward.state.input, ward.name
    weeks = [Text(f"{name} (week data {week})", data, "weeks") for week, data in enumerate(given.weeks)]
    return [Text(f"{name} (scenario)", given.scenario, "sce"), Text(f"{name} (history)", given.history, "his"), *weeks]


def texts_of(ward: "Ward", may_lack_solutions: bool = False) -> Texts:
    """All texts of a ward, with its working roster."""
    if ward.state.roster:
        return Texts([*input_texts(ward), Text(f"{ward.name} (roster)", ward.state.roster.solutions, "sols")])
    if not may_lack_solutions:
        message = f"{shown(ward.name)}: this ward has no roster yet; 'desk improve --plan {shown(ward.name)}' looks for one"
        raise DeskError(message)
    return with_no_solutions(Texts(input_texts(ward)))


def start_of(ward: "Ward", said: datetime.date | None) -> datetime.date:
    """The first Monday, which no option may say otherwise."""
    start = ward.state.input.start
    if said not in (None, start):
        raise DeskError(f"--start {said}: the first Monday of {shown(ward.name)} is {start}; leave this out", 2)
    return start


def days_of(ward: "Ward") -> int:
    return 7 * len(ward.state.input.weeks)


def today_of(ward: "Ward") -> bytes:
    """The date by the clock, if it is one of the ward's days; else a word for no day."""
    today = now().astimezone().date()
    day = (today - ward.state.input.start).days
    return str(today).encode() if 0 <= day < days_of(ward) else b"0"


# ---- asks


def spans_at(words: list[bytes]) -> slice:
    """Which words of an ask are its days."""
    first, count = DAYS_OF.get(words[0], OTHERS)
    return slice(first, first + count)


def clipped(line: bytes, start: datetime.date, days: int | None) -> bytes:
    """An ask, whose days are dates, with those that are among some days from one on; nothing if none is."""
    words = line.split()
    last = datetime.date.max if days is None else start + datetime.timedelta(days - 1)
    at, kept = spans_at(words), []
    for word in words[at]:
        begin, to, end = word.partition(TO)
        first, final = max(date_in(shown(begin)), start), min(date_in(shown(end if to else begin)), last)
        if first <= final:
            kept.append(str(first).encode() + (f"..{final}".encode() if first < final else b""))
    return b" ".join([*words[: at.start], *kept, *words[at.stop :]]) if kept else b""


def asks_text(ward: "Ward") -> Text:
    """The asks of a ward as a text: each in the line of its number, with those of its days that are in the ward's weeks."""
    lines: dict[int, bytes] = {}
    for ask in ward.state.asks:
        lines[ask.number] = clipped(ask.line, ward.state.input.start, days_of(ward))
    data = b"\n".join(lines.get(number, b"") for number in range(1, 1 + max(lines, default=0)))
    return Text(ward.name, data, OF_WARD)


def known_forms() -> list[str]:
    """The forms of a ward's asks: it has the first Monday and knows the date."""
    return [form for word, (form, *_) in FORMS.items() if word not in (b"today", b"start")]
