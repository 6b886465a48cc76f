"""The tables of a Markdown file, for the scripts that compare what a document says with what is there."""
import re


class Table:
    def __init__(self, headings: list[str], header: list[str]):
        """Headings are those above the table, the innermost first."""
        self.headings, self.header = headings, header
        self.rows: list[tuple[int, list[str]]] = []


def cells(line: str) -> list[str]:
    """The cells of a line of a table. A bar between backticks divides nothing."""
    found = re.findall(r"\|((?:`[^`]*`|[^|`])*)", line.strip())
    return [cell.strip() for cell in found[:-1]]


def is_rule(line: str) -> bool:
    """Whether the line is the one below a table's header."""
    return re.fullmatch(r"\|[-:| ]+\|", line.strip()) is not None


def tables(text: str) -> list[Table]:
    """The tables of the text in their order, with the number of each row's line."""
    found: list[Table] = []
    headings: dict[int, str] = {}
    is_inside = False
    lines = [*text.split("\n"), ""]
    for number, (line, next_line) in enumerate(zip(lines, lines[1:]), 1):
        level = len(line) - len(line.lstrip("#"))
        if level:
            headings = {above: said for above, said in headings.items() if above < level}
            headings[level] = line[level:].strip()
        if not line.startswith("|"):
            is_inside = False
        elif is_rule(next_line):
            is_inside = True
            found.append(Table([headings[above] for above in sorted(headings, reverse=True)], cells(line)))
        elif is_inside and not is_rule(line):
            found[-1].rows.append((number, cells(line)))
    return found


def codes(cell: str) -> list[str]:
    """What is between backticks, in order."""
    return re.findall(r"`([^`]*)`", cell)


def limits(readme: str) -> dict[str, int]:
    """The greatest numbers of the README's table of limits, by what they are of: 'skills; shifts' is of both."""
    rows = [row for table in tables(readme) if table.header == ["What", "Limit"] for _, row in table.rows]
    ranges = [(what, re.fullmatch(r"\d+ to (\d+)(?: each)?", limit)) for what, limit in rows]
    return {name: int(limit[1]) for what, limit in ranges if limit for name in what.split("; ")}
