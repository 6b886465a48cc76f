"""The command `page`: a roster as one HTML file, which needs nothing from elsewhere."""
import collections
import dataclasses
import os

from desk_lib import lower_bound
from desk_lib.case import SATURDAY, SUNDAY, Choice, ShiftSkill
from desk_lib.costs import RULES, Costing
from desk_lib.days import day_text, now, with_day_texts
from desk_lib.grammar import DAYS
from desk_lib.plot import Plot, Point
from desk_lib.sheet import Cover, Sheet, date_name
from desk_lib.texts import plural
from desk_lib.views import by_day, changes, escaped, month
from desk_lib.balances import Balances

# Weeks side by side in one table.
AT_ONCE = 4
MEANING = {
    "S1": "staffing",
    "S2": "work in a row",
    "S3": "days off in a row",
    "S4": "off requests",
    "S5": "whole weekends",
    "S6": "assignments",
    "S7": "worked weekends",
    "S8": "wishes to work",
}
# What the cells below the nurses mean.
ABOUT_COVER = """<p>Below the nurses stands for each shift and skill how many are there, and under it the minimum and the
optimum. <span class="key low">1−</span> is fewer than the optimum, which costs 30 for each that is missing (S1).
<span class="key bad">0!</span> is fewer than the minimum, which no roster may be.</p>"""


@dataclasses.dataclass(frozen=True)
class Wanted:
    """What a page is to be: its title; for the wall, without penalties and requests; the month of one nurse alone; and by which
    version of the program it was made."""

    title: str
    version: str
    is_notice: bool = False
    nurse: int | None = None
    # (the months of all nurses, a sheet of paper each; and the colours that a ward gives to shifts, by their numbers)
    has_months: bool = False
    colours: tuple[tuple[int, str], ...] = ()
    balances: "Balances | None" = None


def style() -> str:
    with open(f"{os.path.dirname(os.path.realpath(__file__))}/page.css", encoding="utf-8") as file:
        return file.read()


def colours(chosen: tuple[tuple[int, str], ...]) -> str:
    """The style of shifts that have colours of the ward's, with letters that can be read on them."""
    return "".join(
        f".s{shift}, .s{shift} small, .s{shift}.request small {{ background: {colour}; color: {ink_on(colour)}; }}\n"
        for shift, colour in chosen
    )


def ink_on(colour: str) -> str:
    """Black or white, whichever has more contrast on a colour (WCAG 2)."""
    parts = [int(colour[at : at + 2], 16) / 255 for at in (1, 3, 5)]
    linear = [part / 12.92 if part <= 0.03928 else ((part + 0.055) / 1.055) ** 2.4 for part in parts]
    light = sum(weight * part for weight, part in zip((0.2126, 0.7152, 0.0722), linear))
    return "#000000" if (light + 0.05) ** 2 >= 1.05 * 0.05 else "#ffffff"


def number(now: int, before: int | None = None) -> str:
    """A number, in front of it what it was before if that was another one."""
    if before is None or before == now:
        return str(now)
    return f'<span class="was{" more" if before < now else ""}">{before} →</span>{now}'


def number_cell(now: int, before: int | None) -> str:
    """A number in a cell; a 0 that was one before in grey."""
    grey = "" if now or before else ' class="zero"'
    return f"<td{grey}>{number(now, before)}</td>"


class Page:
    """The page of a sheet."""

    def __init__(self, sheet: Sheet, before: Costing | None, log: list[Point], bound: int | None, wanted: Wanted):
        self.sheet, self.case, self.costing, self.before = sheet, sheet.case, sheet.costing, before
        self.log, self.bound, self.wanted = log, bound, wanted

    def text(self) -> str:
        blocks = [self.head(), "<main>", *self.sections(), "</main>", self.foot()]
        return "\n".join(filter(None, blocks)) + "\n"

    def sections(self) -> list[str]:
        """What stands between the head and the foot."""
        if self.wanted.nurse is not None:
            return [month(self.sheet, self.wanted.nurse)]
        if self.wanted.has_months:
            return [month(self.sheet, number, is_titled=True) for number in range(len(self.case.nurses))]
        found = [self.grid(), by_day(self.sheet), changes(self.sheet)]
        return (
            found
            if self.wanted.is_notice
            else [*found, self.totals(), self.costs(), self.balances(), self.staffing(), self.plot()]
        )

    # ---- above

    def head(self) -> str:
        title, case, nurse = escaped(self.wanted.title), self.case, self.wanted.nurse
        size = f"{plural(case.weeks, 'week')}, {plural(len(case.nurses), 'nurse')}{self.frozen_clause()}{self.changes_clause()}"
        name, is_whole = "" if nurse is None else escaped(case.nurses[nurse].name), nurse is None and not self.wanted.has_months
        return f"""<!doctype html>
<html lang="en">
<head>
<meta charset="utf-8">
<meta name="viewport" content="width=device-width, initial-scale=1">
<meta name="generator" content="desk">
<title>{f"{name}: " if name else ""}{title}</title>
<style>
{style()}{colours(self.wanted.colours)}</style>
</head>
<body>
<header>
<h1>{name or title}</h1>
<p>{title if name else size}</p>
{f'<nav aria-label="Sections of this page">{self.links()}</nav>' if is_whole else ""}
{self.cards() + self.breaches() if is_whole and not self.wanted.is_notice else ""}
</header>"""

    def links(self) -> str:
        """The sections of the page, by links to them."""
        links = [("grid", "Grid"), ("days", "Who is on"), *[("changes", "Changes")] * bool(self.sheet.changes())]
        if not self.wanted.is_notice:
            links += [("totals", "Totals"), ("nurses", "Costs by nurse")]
            links += [("balances", "Balances")] * (self.wanted.balances is not None) + [("staffing", "Staffing")]
            links += [("log", "The run")] if self.log else []
        return "".join(f'<a href="#{at}">{title}</a>' for at, title in links)

    def breaches(self) -> str:
        """The hard rules that are broken, in words."""
        head, *lines = (escaped(with_day_texts(line)) for line in self.sheet.breach_lines() or [""])
        items = "".join(f"<li>{line}</li>" for line in lines)
        return f'<div class="broken"><b>{head}</b><ul>{items}</ul></div>' if lines else ""

    def frozen_clause(self) -> str:
        week, past = self.sheet.first_week, self.sheet.past
        word, past = self.sheet.frozen_word(self.wanted.is_notice), max(past, 7 * week)
        if past >= self.costing.plan.days:
            return f", all days {word}"
        return f", days before {day_text(past)} {word}" if past else ""

    def changes_clause(self) -> str:
        if not self.sheet.is_compared:
            return ""
        count, since = self.sheet.changed(), "" if self.before else " since it was published"
        return f", {plural(count, 'day')} changed{since}" if count else f", no day changed{since}"

    def cards(self) -> str:
        """The total, the lower bound, and the rules, each with its penalty."""
        now, old = self.costing.totals_by_rule(), self.old_totals()

        def was(rule: str) -> str:
            return f"<small>was {old[rule]}</small>" if old and old[rule] != now[rule] else ""

        cards = [f'<li class="total"><span>penalty</span><b>{now["total"]}</b>{was("total")}</li>']
        if self.bound is not None:
            is_met, is_frozen = now["total"] == self.bound, bool(self.sheet.past or self.case.fixed)
            compared = lower_bound.optimal(is_frozen) if is_met else f"the roster is {now['total'] - self.bound} above it"
            kind = ' class="optimal"' if is_met else ""
            cards.append(f"<li{kind}><span>lower bound</span><b>{self.bound}</b><small>{compared}</small></li>")
        cards += [f"<li><span>{rule} {MEANING[rule]}</span><b>{now[rule]}</b>{was(rule)}</li>" for rule in MEANING]
        return f'<ul class="cards">{"".join(cards)}</ul>'

    def old_totals(self) -> dict[str, int] | None:
        """The penalties by rule of the roster before."""
        return self.before.totals_by_rule() if self.before else None

    # ---- the grid

    def grid(self) -> str:
        blocks = [self.block(self.sheet.weeks[first : first + AT_ONCE]) for first in range(0, len(self.sheet.weeks), AT_ONCE)]
        about = "" if self.wanted.is_notice else ABOUT_COVER
        lines = ['<section id="grid">', "<h2>Grid</h2>", self.legend(), about, *blocks, "</section>"]
        return "\n".join(filter(None, lines))

    def legend(self) -> str:
        sheet = self.sheet
        items = [
            f'<span class="key s{at}">{letter}</span>{escaped(shift.name)}'
            for at, (letter, shift) in enumerate(zip(sheet.shift_letters, self.case.shifts))
        ]
        items.append('<span class="key off">·</span>off')
        items += ['<span class="key off">×</span>absent'] if self.case.absences else []
        items += [
            f'<span class="key">{letter}</span>{escaped(skill)}' for letter, skill in zip(sheet.skill_letters, self.case.skills)
        ]
        if sheet.is_compared:
            first = sheet.shift_letters[0]
            items.append(f'<span class="key changed">‹{first}</span>changed, it was {first} before')
        if not self.wanted.is_notice:
            items.append('<span class="key request">!</span>a request that isn’t met')
        if sheet.broken:
            items.append('<span class="key bad">!!</span>a broken hard rule')
        if sheet.first_week or self.case.fixed:
            items.append(f'<span class="key frozen"></span>{sheet.frozen_word(self.wanted.is_notice)} day')
        return f'<ul class="legend">{"".join(f"<li>{item}</li>" for item in items)}</ul>'

    def block(self, weeks: range) -> str:
        """A table of some weeks: their heads, the nurses, and the cover."""
        caption = self.sheet.span_text(7 * weeks[0], 7 * weeks[-1] + 6)
        heads = "".join(f'<th class="week" colspan="7" scope="colgroup">{self.week_name(week)}</th>' for week in weeks)
        days = "".join(self.day_head(7 * week + day) for week in weeks for day in range(7))
        lines = [
            f'<div class="scroll" tabindex="0" role="region" aria-label="{caption}">',
            f'<table class="grid"><caption>{caption}</caption>',
            f'<thead><tr><th></th>{heads}</tr><tr><th scope="col">nurse</th>{days}</tr></thead>',
            '<tbody class="nurses">',
            *(self.nurse(number, weeks) for number in range(len(self.case.nurses))),
            "</tbody>",
            "" if self.wanted.is_notice else self.covers(weeks),
            "</table></div>",
        ]
        return "\n".join(filter(None, lines))

    def covers(self, weeks: range) -> str:
        rows = "\n".join(self.cover(at, weeks) for at in self.sheet.needed())
        return f'<tbody class="cover">\n{rows}\n</tbody>'

    def week_name(self, week: int) -> str:
        frozen = self.sheet.frozen_part(week, self.sheet.frozen_word(self.wanted.is_notice))
        return f"{self.sheet.week_text(week)}{f' ({frozen})' if frozen else ''}"

    def day_head(self, day: int) -> str:
        date = self.sheet.date(day)
        name = f'{DAYS[day % 7].decode()[:2]}{f"<small>{date.day}</small>" if date else ""}'
        return f'<th scope="col"{self.classes(day)} title="{self.sheet.day_name(day)}">{name}</th>'

    def classes(self, day: int, *more: str) -> str:
        """The classes of a day's cell."""
        found = ["monday"] * (day % 7 == 0) + ["weekend"] * (day % 7 > 4)
        found += ["frozen"] * (day < self.sheet.past and "frozen" not in more) + [*more]
        return f' class="{" ".join(found)}"' if found else ""

    def nurse(self, number: int, weeks: range) -> str:
        name = escaped(self.case.nurses[number].name)
        days = range(7 * weeks[0], 7 * weeks[-1] + 7)
        classes = [self.classes(day, *["frozen"] * self.sheet.rows[number][day].is_frozen) for day in days]
        cells = "".join(f"<td{of_day}>{self.cell(number, day)}</td>" for of_day, day in zip(classes, days))
        return f'<tr><th scope="row" title="{name}">{name}</th>{cells}</tr>'

    def cell(self, number: int, day: int) -> str:
        """A day: the shift's letter and the skill's, below it what it was and whether a request isn't met. Its title has all
        of it in words."""
        cell = self.sheet.rows[number][day]
        is_wrong = (cell.breaks_request or cell.misses_wish) and not self.wanted.is_notice
        classes = ["cell", "off" if cell.choice is None else f"s{cell.choice[0]}"]
        classes += ["changed"] * cell.is_changed + ["request"] * is_wrong + ["breach"] * bool(cell.broken)
        mark = " !!" if cell.broken else " !" if is_wrong else ""
        below = (f"‹{self.letter(cell.before)}" if cell.is_changed else "") + mark
        skill = f"<i>{self.sheet.skill_letters[cell.choice[1]]}</i>" if cell.choice else ""
        small = f"<small>{below.strip()}</small>" if below else ""
        title = escaped(self.sheet.cell_text(number, day, self.wanted.is_notice))
        letter = "×" if cell.is_absent and not cell.choice else self.letter(cell.choice)
        return f'<span class="{" ".join(classes)}" role="img" tabindex="-1" title="{title}">{letter}{skill}{small}</span>'

    def letter(self, choice: Choice) -> str:
        return "·" if choice is None else self.sheet.shift_letters[choice[0]]

    def cover(self, at: ShiftSkill, weeks: range) -> str:
        """A line of the cover of a shift and skill."""
        shift, skill = at
        days = [(7 * week + day, cover) for week in weeks for day, cover in enumerate(self.sheet.covers(at, week))]
        cells = "".join(f"<td{self.classes(day, *low(cover))}>{self.cover_cell(at, day, cover)}</td>" for day, cover in days)
        name = f'<span class="key s{shift}">{self.sheet.shift_letters[shift]}</span>{escaped(self.case.skills[skill])}'
        return f'<tr><th scope="row" title="{escaped(self.sheet.name_of(at))}">{name}</th>{cells}</tr>'

    def cover_cell(self, at: ShiftSkill, day: int, cover: Cover) -> str:
        """How many are there, below it the minimum and the optimum; nothing if none is needed nor there."""
        if not (cover.have or cover.least or cover.optimum):
            return ""
        title = escaped(self.sheet.cover_text(at, day, cover))
        counts = f"{cover.have}{cover.mark().replace('-', '−')}<small>{cover.least}–{cover.optimum}</small>"
        return f'<span role="img" tabindex="-1" title="{title}">{counts}</span>'

    # ---- numbers

    def totals(self) -> str:
        """What each nurse has: the contract and the skills, the shifts of each kind, assignments and weekends."""
        shifts = "".join(f'<th scope="col">{escaped(shift.name)}</th>' for shift in self.case.shifts)
        rows = "\n".join(self.nurse_totals(number) for number in range(len(self.case.nurses)))
        return f"""<section id="totals">
<h2>Contracts and totals</h2>
<p>Assignments and worked weekends are with those of the history, each with what the contract allows; a ! is outside of it.</p>
<div class="scroll" tabindex="0" role="region" aria-label="Contracts and totals">
<table class="numbers"><thead><tr><th scope="col">nurse</th><th scope="col" class="words">contract</th>
<th scope="col" class="words">skills</th>{shifts}<th scope="col">assignments</th><th scope="col">weekends</th></tr></thead>
<tbody>
{rows}
</tbody></table></div>
</section>"""

    def nurse_totals(self, number: int) -> str:
        nurse, row, name = self.case.nurses[number], self.costing.plan.roster[number], escaped(self.case.nurses[number].name)
        contract, past = self.case.contracts[nurse.contract], nurse.history
        counts = collections.Counter(choice[0] for choice in row if choice)
        weekends = sum(any(pair) for pair in zip(row[SATURDAY::7], row[SUNDAY::7]))
        skills = ", ".join(escaped(self.case.skills[skill]) for skill in nurse.skills)
        cells = [f'<td class="words">{escaped(self.costing.plan.contract_name(nurse.contract))}</td>']
        cells += [
            f'<td class="words">{skills}</td>',
            *(number_cell(counts[shift], None) for shift in range(len(self.case.shifts))),
        ]
        cells.append(within(past.assignments + sum(counts.values()), *contract.assignments))
        cells.append(within(past.weekends + weekends, 0, contract.weekends))
        return f'<tr><th scope="row" title="{name}">{name}</th>{"".join(cells)}</tr>'

    def costs(self) -> str:
        heads = "".join(f'<th scope="col" title="{MEANING[rule]}">{rule}</th>' for rule in RULES)
        most = max([1, *(sum(costs.values()) for costs in self.costing.of_nurses)])
        rows = [self.nurse_costs(number, most) for number in range(len(self.case.nurses))]
        now, old = self.costing.totals_by_rule(), self.old_totals()
        sums = "".join(number_cell(now[rule], old[rule] if old else None) for rule in RULES)
        whole = number(sum(now[rule] for rule in RULES), sum(old[rule] for rule in RULES) if old else None)
        return f"""<section id="nurses">
<h2>Costs by nurse</h2>
<div class="scroll" tabindex="0" role="region" aria-label="Costs by nurse">
<table class="numbers"><thead><tr><th scope="col">nurse</th>{heads}<th scope="col">sum</th><th></th></tr></thead>
<tbody>
{chr(10).join(rows)}
</tbody>
<tfoot><tr><th scope="row">all nurses</th>{sums}<td class="sum">{whole}</td><td></td></tr></tfoot></table></div>
</section>"""

    def nurse_costs(self, at: int, most: int) -> str:
        costs, old = self.costing.of_nurses[at], self.before.of_nurses[at] if self.before else None
        cells = "".join(number_cell(costs[rule], old[rule] if old else None) for rule in RULES)
        total, name = sum(costs.values()), escaped(self.case.nurses[at].name)
        bar = f'<td class="bar"><span style="width:{100 * total // most}%"></span></td>'
        whole = number(total, sum(old.values()) if old else None)
        return f'<tr><th scope="row" title="{name}">{name}</th>{cells}<td class="sum">{whole}</td>{bar}</tr>'

    def balances(self) -> str:
        """What each nurse has had, the greatest and the least of each column marked."""
        if self.wanted.balances is None:
            return ""
        heads = "".join(f'<th scope="col">{escaped(head)}</th>' for head in self.wanted.balances.heads()[1:])
        rows = []
        for name, *cells in self.wanted.balances.rows():
            rows.append(
                f'<tr><th scope="row" title="{escaped(name)}">{escaped(name)}</th>{"".join(map(balance_cell, cells))}</tr>'
            )
        return f"""<section id="balances">
<h2>Balances</h2>
<p>What each nurse has had; ▲ is the greatest number of a column and ▼ the least. It costs nothing.</p>
<div class="scroll" tabindex="0" role="region" aria-label="Balances">
<table class="numbers"><thead><tr><th scope="col">nurse</th>{heads}</tr></thead>
<tbody>
{chr(10).join(rows)}
</tbody></table></div>
</section>"""

    def staffing(self) -> str:
        """S1 by shift and skill."""
        case, both = self.case, (self.costing, self.before or self.costing)
        heads = "".join(f'<th scope="col">{escaped(skill)}</th>' for skill in case.skills)
        rows = []
        for shift, (name, _) in enumerate(case.shifts):
            now, old = ([costing.staffing.get((shift, skill), 0) for skill in range(len(case.skills))] for costing in both)
            cells = "".join(map(number_cell, now, old))
            key = f'<span class="key s{shift}">{self.sheet.shift_letters[shift]}</span> {escaped(name)}'
            rows.append(f'<tr><th scope="row">{key}</th>{cells}<td class="sum">{number(sum(now), sum(old))}</td></tr>')
        return f"""<section id="staffing">
<h2>Staffing: S1 by shift and skill</h2>
<div class="scroll" tabindex="0" role="region" aria-label="Staffing">
<table class="numbers"><thead><tr><th scope="col">shift</th>{heads}<th scope="col">sum</th></tr></thead>
<tbody>
{chr(10).join(rows)}
</tbody></table></div>
</section>"""

    # ---- the run

    def plot(self) -> str:
        if not self.log:
            return ""
        return f'<section id="log">\n<h2>The run</h2>\n<div class="plot">{Plot(self.log, self.bound).svg()}</div>\n</section>'

    def foot(self) -> str:
        made = f"Made by desk on {date_name(now().astimezone().date())}, with {escaped(self.wanted.version)}."
        has_totals = not (self.wanted.is_notice or self.wanted.has_months) and self.wanted.nurse is None
        totals = " Each total is that of the program roster; the costs by nurse add up to it." if has_totals else ""
        return f"""<footer>{made}{totals}</footer>
</body>
</html>"""


def balance_cell(text: str) -> str:
    """A number of the balances, with its mark."""
    return f'<td>{text.replace("^", " ▲").replace("v", " ▼")}</td>'


def low(cover: Cover) -> list[str]:
    return {"!": ["bad"], "-": ["low"]}.get(cover.mark(), [])


def within(count: int, least: int, greatest: int) -> str:
    """A cell with a number and what it may be, and a mark if it isn't that."""
    is_outside = not least <= count <= greatest
    grade = ' class="bad"' if is_outside else ""
    return f'<td{grade}>{count}{"!" * is_outside} <small>of {least}–{greatest}</small></td>'
