"""The command `split`: a solution file for each week."""
import re

from desk_lib.program import Program
from desk_lib.replacing import read_back
from desk_lib.texts import DeskError, Texts

HEAD = re.compile(rb"(?m)^SOLUTION$")


def names(prefix: str, weeks: int) -> list[str]:
    """The names of the files."""
    return [f"{prefix}-{week}.txt" for week in range(weeks)]


def weeks_in(solutions: bytes) -> list[bytes]:
    """The solutions of the weeks, as `show` writes them. No other line is the word that begins one."""
    starts = [match.start() for match in HEAD.finditer(solutions)]
    return [solutions[first:last].rstrip(b"\n") + b"\n" for first, last in zip(starts, [*starts[1:], len(solutions)])]


def split(roster: Program, texts: Texts, before: Texts, names: list[str], is_crlf: bool) -> None:
    """Writes the roster of the texts, of which `before` has all but the solutions, into a file for each week."""
    solutions = roster.ask(["show"], texts).output
    of_weeks = weeks_in(solutions)
    if len(of_weeks) != len(names):
        raise DeskError(f"'roster show' wrote {len(of_weeks)} solutions for {len(names)} weeks; this is a fault of the desk", 3)
    files = [(name, data.replace(b"\n", b"\r\n") if is_crlf else data) for name, data in zip(names, of_weeks)]
    with read_back(roster, before, solutions, files) as new:
        for file in new:
            file.put()
