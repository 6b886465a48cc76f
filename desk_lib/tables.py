"""Tables of costs as they are written on a terminal, and the roster as CSV."""
import csv
import datetime
import io

from desk_lib.breaches import all_breaches, breach_lines
from desk_lib.case import changed_days
from desk_lib.costs import RULES, Costing
from desk_lib.days import column_name
from desk_lib.model import Plan, choice_name
from desk_lib.texts import columns, cut, shown

NAME_WIDTH = 16


def aligned(rows: list[list[str]]) -> list[str]:
    """The rows with their cells below each other: the first to the left, the others to the right."""
    widths = [max(columns(row[at]) for row in rows if at < len(row)) for at in range(max(map(len, rows)))]
    widths[0] = min(widths[0], 2 * NAME_WIDTH)
    lines = []
    for row in rows:
        cells = [cut(row[0], widths[0]), *(" " * (width - columns(cell)) + cell for cell, width in zip(row[1:], widths[1:]))]
        lines.append("  ".join(cells).rstrip())
    return lines


def changed(before: int | None, after: int) -> str:
    """A number, and what it was before if that was another one."""
    return str(after) if before in (None, after) else f"{before}>{after}"


def nurse_rows(costing: Costing, before: Costing | None) -> list[list[str]]:
    """S2 to S8 for each nurse, and their sum, those over all nurses last."""
    rows = [["nurse", *RULES, "sum"]]
    for number, (nurse, costs) in enumerate(zip(costing.case.nurses, costing.of_nurses)):
        rows.append([shown(nurse.name), *cells(costs, before.of_nurses[number] if before else None)])
    rows.append(["all nurses", *cells(sums_of(costing), sums_of(before) if before else None)])
    return rows


def sums_of(costing: Costing) -> dict[str, int]:
    """S2 to S8 over all nurses."""
    return {rule: costing.totals_by_rule()[rule] for rule in RULES}


def cells(costs: dict[str, int], before: dict[str, int] | None) -> list[str]:
    found = [changed(before[rule] if before else None, costs[rule]) for rule in RULES]
    return [*found, changed(sum(before.values()) if before else None, sum(costs.values()))]


def staffing_rows(costing: Costing, before: Costing | None) -> list[list[str]]:
    """S1 for each shift, a row, and each skill, a column."""
    case = costing.case
    skills = sorted({skill for _, skill in case.needs})
    rows = [["S1", *(shown(case.skills[skill]) for skill in skills), "sum"]]
    for shift in sorted({shift for shift, _ in case.needs}):
        needed = [(shift, skill) for skill in skills if (shift, skill) in case.needs]
        texts = {at[1]: changed(before.staffing[at] if before else None, costing.staffing[at]) for at in needed}
        was = sum(before.staffing[at] for at in needed) if before else None
        sums = changed(was, sum(costing.staffing[at] for at in needed))
        rows.append([shown(case.shifts[shift].name), *(texts.get(skill, "") for skill in skills), sums])
    return rows


def cost_lines(costing: Costing, before: Costing | None, more: list[str]) -> list[str]:
    """What the command `costs` writes, with more lines before the totals."""
    totals, old = costing.totals_by_rule(), before.totals_by_rule() if before else None
    lines = aligned(nurse_rows(costing, before))
    lines += ["", *aligned(staffing_rows(costing, before)), *more, ""]
    if before:
        lines.append(f"days changed {changed_days(before.plan.before, costing.plan.roster)}")
    return lines + [f"{rule} {changed(old[rule] if old else None, number)}" for rule, number in totals.items()]


def csv_text(plan: Plan, start: datetime.date | None) -> str:
    """The roster as CSV: a line for each nurse, with what she does on each day; nothing if she is off."""
    days = range(plan.days)
    heads = [str(start + datetime.timedelta(day)) if start else column_name(day) for day in days]
    text = io.StringIO()
    table = csv.writer(text, lineterminator="\n")
    table.writerow(["nurse", *heads])
    for nurse, row in zip(plan.case.nurses, plan.roster):
        table.writerow([shown(nurse.name), *(choice_name(plan.case, choice) if choice else "" for choice in row)])
    return text.getvalue()


def costs_of(costing: Costing) -> dict[str, object]:
    """The costs of a roster by rule, by nurse, and by shift and skill."""
    case, plan = costing.case, costing.plan
    nurses = [
        {"name": shown(nurse.name), "contract": shown(plan.contract_name(nurse.contract)), **costs, "sum": sum(costs.values())}
        for nurse, costs in zip(case.nurses, costing.of_nurses)
    ]
    of_shifts = [
        {"shift": shown(case.shifts[shift].name), "skill": shown(case.skills[skill]), "S1": cost}
        for (shift, skill), cost in costing.staffing.items()
    ]
    return {**costing.totals_by_rule(), "nurses": nurses, "places": of_shifts}


def json_text(costing: Costing, before: Costing | None, bound: int | None) -> str:
    """What `costs --json` writes: an object with the costs, and a lower bound if one was looked for. With a second roster it also has
    those of the first, as `before`, with the hard rules that it breaks."""
    # (a start of the desk is the quicker without this import)
    import json

    found: dict[str, object] = {"scenario": shown(costing.case.name)} | costs_of(costing)
    if bound is not None:
        found |= {"floor": bound, "optimal": costing.penalty == bound}
    if before:
        found["days_changed"] = changed_days(before.plan.before, costing.plan.roster)
        found["before"] = costs_of(before) | {"breaks": breach_lines(all_breaches(before.plan))}
    return json.dumps(found, indent=2, ensure_ascii=False)
