"""What the page has next to its tables: who is on by day, one nurse's month, and the changes by nurse."""
import collections

from desk_lib.case import Choice
from desk_lib.days import day_word
from desk_lib.grammar import DAYS
from desk_lib.sheet import Sheet, date_name
from desk_lib.texts import plural, shown


def escaped(name: bytes | str) -> str:
    """A name as it can stand anywhere in the page."""
    # (other commands start the quicker without this import)
    import html

    return html.escape(shown(name))


def key(sheet: Sheet, shift: int) -> str:
    """The letter of a shift in its colour."""
    return f'<span class="key s{shift}">{sheet.shift_letters[shift]}</span>'


# ---- who is on


def by_day(sheet: Sheet) -> str:
    """For each day the nurses of each shift. On a telephone there is one day at a time, with the next one at its side."""
    days = [7 * week + day for week in sheet.weeks for day in range(7)]
    links = "".join(week_links(sheet, week) for week in sheet.weeks)
    return "\n".join(
        [
            '<section id="days">',
            "<h2>Who is on</h2>",
            f'<nav class="of-days" aria-label="Days">{links}</nav>',
            '<div class="days" tabindex="0" role="region" aria-label="Days">',
            *(day_card(sheet, day) for day in days),
            "</div>",
            "</section>",
        ]
    )


def week_links(sheet: Sheet, week: int) -> str:
    """Links to the days of a week."""
    days = range(7 * week, 7 * week + 7)
    links = "".join(f'<a href="#day-{day}">{day_number(sheet, day)}</a>' for day in days)
    return f'<span class="of-week"><b>{sheet.week_text(week)}</b>{links}</span>'


def day_number(sheet: Sheet, day: int) -> str:
    """A day, short: the weekday, and its date if that is known."""
    date = sheet.date(day)
    return f"{DAYS[day % 7].decode()[:2]}{f' {date.day}' if date else ''}"


def day_card(sheet: Sheet, day: int) -> str:
    on: dict[Choice, list[bytes]] = collections.defaultdict(list)
    for nurse, row in zip(sheet.case.nurses, sheet.rows):
        on[row[day].choice].append(nurse.name)
    shifts = "".join(shift_on(sheet, on, shift) for shift in range(len(sheet.case.shifts))) or "<p>Nobody is on.</p>"
    weekend = " weekend" if day % 7 > 4 else ""
    return f'<article class="day{weekend}" id="day-{day}"><h3>{sheet.day_name(day)}</h3>{shifts}</article>'


def shift_on(sheet: Sheet, on: dict[Choice, list[bytes]], shift: int) -> str:
    """The nurses of a shift, by skill in the order of the scenario, of those who are on; nothing if there are none."""
    case = sheet.case
    found = [
        f"<li>{escaped(nurse)} <small>{escaped(name)}</small></li>"
        for skill, name in enumerate(case.skills)
        for nurse in on.get((shift, skill), ())
    ]
    title = f"<h4>{key(sheet, shift)} {escaped(case.shifts[shift].name)}</h4>"
    return f'{title}<ul>{"".join(found)}</ul>' if found else ""


# ---- one nurse


def month(sheet: Sheet, number: int, is_titled: bool = False) -> str:
    """The weeks of one nurse, each a row of seven days; with her name above, if the page has several."""
    title = f"<h2>{escaped(sheet.case.nurses[number].name)}</h2>\n" if is_titled else ""
    heads = "".join(f'<th scope="col">{day.decode()}</th>' for day in DAYS)
    rows = "\n".join(month_week(sheet, number, week) for week in sheet.weeks)
    count = sum(cell.choice is not None for cell in sheet.rows[number])
    return f"""<section {'class="of-nurse"' if is_titled else 'id="month"'}>
{title}<p>{plural(count, 'shift')} in {plural(len(sheet.weeks), 'week')}.</p>
<table class="month"><thead><tr><th></th>{heads}</tr></thead>
<tbody>
{rows}
</tbody></table>
</section>"""


def month_week(sheet: Sheet, number: int, week: int) -> str:
    cells = "".join(month_day(sheet, number, 7 * week + day) for day in range(7))
    return f'<tr><th scope="row">{sheet.week_text(week)}</th>{cells}</tr>'


def month_day(sheet: Sheet, number: int, day: int) -> str:
    """A day of a nurse: its date, the shift with the skill, and what it was if it changed."""
    cell, case = sheet.rows[number][day], sheet.case
    date = sheet.date(day)
    when = f'<small class="when"><b>{DAYS[day % 7].decode()}</b> {date_name(date) if date else day_word(day)}</small>'
    if cell.choice is None:
        what = '<span class="off">absent</span>' if cell.is_absent else '<span class="off">off</span>'
    else:
        shift, skill = cell.choice
        what = f'<b class="shift s{shift}">{escaped(case.shifts[shift].name)}</b><small>{escaped(case.skills[skill])}</small>'
    before = f'<small class="new">was {escaped(sheet.change_texts(number, day)[1])}</small>' if cell.is_changed else ""
    return f'<td{" class=weekend" if day % 7 > 4 else ""}>{when}{what}{before}</td>'


# ---- changes


def changes(sheet: Sheet) -> str:
    """The days that changed, by nurse, with what was and what is."""
    rows = []
    for number, days in sheet.changes():
        name = escaped(sheet.case.nurses[number].name)
        for day in days:
            when, was, now = (escaped(text) for text in sheet.change_texts(number, day))
            head = f'<th scope="row" rowspan="{len(days)}">{name}</th>' if day == days[0] else ""
            rows.append(f'<tr>{head}<td class="words">{when}</td><td class="words">{was}</td><td class="words">{now}</td></tr>')
    if not rows:
        return ""
    return f"""<section id="changes">
<h2>Changes by nurse</h2>
<div class="scroll" tabindex="0" role="region" aria-label="Changes by nurse">
<table class="numbers"><thead><tr><th scope="col">nurse</th><th scope="col" class="words">day</th>
<th scope="col" class="words">old</th><th scope="col" class="words">new</th></tr></thead>
<tbody>
{chr(10).join(rows)}
</tbody></table></div>
</section>"""


def change_lines(sheet: Sheet) -> list[str]:
    """What the command `changes` writes: a line for each day that changed, and how many there are."""
    lines = []
    for number, days in sheet.changes():
        for day in days:
            when, was, now = sheet.change_texts(number, day)
            lines.append(f"{shown(sheet.case.nurses[number].name)}, {when}: {was} > {now}")
    return [*lines, f"{plural(sheet.changed(), 'day')} of {plural(len(sheet.changes()), 'nurse')} changed"]
