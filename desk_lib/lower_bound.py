"""A lower bound, as `roster bound` prints it: every roster that keeps the hard rules and the frozen days has at least this penalty.

So a roster with just that penalty is optimal, and all commands say so in the words of `optimal`.
"""

from desk_lib.program import OnLine, Program, Running
from desk_lib.texts import Texts

# How much of the time that is given the search for a bound may take, next to the search for rosters.
SHARE = 0.2




def number_of(line: bytes) -> int:
    """The number at the end of a line of a log."""
    return int(line.split(b" ")[-1])


def optimal(is_frozen: bool) -> str:
    """What is proved of a roster whose penalty is the bound; whether there are frozen days."""
    frozen = " and the frozen days" if is_frozen else ""
    return f"optimal: no roster that keeps the hard rules{frozen} costs less"


def compared(total: int, bound: int, is_frozen: bool) -> str:
    """How a roster of this penalty compares with a bound, in words."""
    return optimal(is_frozen) if total == bound else f"{total - bound} above the lower bound {bound}"


def lines(total: int | None, bound: int, is_frozen: bool) -> list[str]:
    """The bound, and that a roster of this penalty is optimal, if it is."""
    return [f"bound {bound}", *[optimal(is_frozen)] * (total == bound)]


def words_of(first_week: int) -> list[str]:
    """The words for the program that name the first week that may change."""
    return ["--from", str(first_week)] if first_week else []


def found_by(roster: Program, texts: Texts, first_week: int, on_line: OnLine | None = None) -> tuple[int, int]:
    """The penalty of the roster given, and the lower bound, as `roster bound` prints them. Each line of its log is passed on as it
    comes."""
    cost, bound = roster.ask(["bound", *words_of(first_week)], texts, on_line).output.splitlines()
    return number_of(cost), number_of(bound)


class BoundSearch:
    """A search for a lower bound, and the bound as far as it is known by now."""

    def __init__(self, first_week: int, is_frozen: bool):
        """The days before a week are frozen; and whether there are frozen days at all."""
        self.first_week, self.is_frozen = first_week, is_frozen
        self.known: int | None = None
        # (the run of `bound` that goes on next to a search for rosters)
        self.running: Running | None = None
        self.is_wanted = False

    def seek(self, roster: Program, texts: Texts, on_line: OnLine) -> int:
        """Looks for a bound now, and passes on each line of the log. Returns the penalty of the roster given."""
        cost, self.known = found_by(roster, texts, self.first_week, on_line)
        return cost

    def start(self, roster: Program, texts: Texts, seconds: float) -> None:
        """Looks for a bound next to a search for rosters of this many seconds."""
        self.running = roster.start(["bound", *words_of(self.first_week)], texts.joined, seconds=SHARE * seconds)
        self.is_wanted = True

    @property
    def bound(self) -> int | None:
        """The bound, if one is known by now."""
        if self.running:
            for line in self.running.lines_there():
                if line.startswith(b"round "):
                    self.known = number_of(line)
            if self.running.is_over:
                self.take(self.running)
        return self.known

    def take(self, running: Running) -> None:
        """Takes what the run answers, which is over. A bound that never rose is in the answer alone."""
        answer = running.answer()
        self.known = number_of(answer.output.splitlines()[-1]) if answer.status == 0 else self.known
        running.close()
        self.running = None

    def is_met(self, total: int) -> bool:
        """Whether a roster of this penalty is optimal, as far as is known."""
        return total == self.bound

    def clause(self, total: int) -> str:
        """A clause on a roster of this penalty, if a bound is looked for."""
        bound = self.bound
        if bound is None:
            return ", no lower bound was found in the time for it" if self.is_wanted and not self.running else ""
        return f", {compared(total, bound, self.is_frozen)}"

    def short_clause(self, total: int) -> str:
        """The same for a short line."""
        return ", which is the lower bound" if self.is_met(total) else self.clause(total)

    def lines(self, total: int | None) -> list[str]:
        """The last lines of a log on a bound, and on a roster of this penalty if there is one."""
        bound = self.bound
        return [] if bound is None else lines(total, bound, self.is_frozen)

    def close(self) -> None:
        """Ends the run that goes on."""
        self.known = self.bound
        if self.running:
            self.running.close()
            self.running = None
