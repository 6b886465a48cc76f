"""The penalty of a run's log as a drawing (SVG)."""
import dataclasses
import re

from desk_lib.texts import DeskError, shown

WIDTH, HEIGHT, LEFT, RIGHT, TOP, BOTTOM = 720, 260, 56, 78, 24, 36
# How far apart texts are that stand side by side, and one below the other.
ASIDE, BELOW = 22, 15
LINE = re.compile(rb"(start|round|settled|stopped|fade|kick|slice|few|\d+)(?: (.*))? (\d+)", re.S)
# Lines without what the roster costs: how many nurses the minimums miss, what a changed day costs more, what a run by another seed
# comes to, and at the end of the file of --log how the run was made. (Logs that the desk wrote before have slices, short runs of polish, and
# another name for a bound.)
OLD_BOUND = b"floor"
OTHER = re.compile(rb"(missing|keep|seed|time|searches|bound|" + OLD_BOUND + rb"|optimal:|version) \S.*", re.S)


@dataclasses.dataclass(frozen=True)
class Point:
    """A line of a log: its first word, and what the roster cost then."""

    kind: str
    total: int


def is_log_line(line: bytes) -> bool:
    """Whether a line may stand in a log."""
    return bool(LINE.fullmatch(line) or OTHER.fullmatch(line))


def points_in(log: bytes, name: str) -> list[Point]:
    """The lines of a log. Those of other programs' messages are refused."""
    found = []
    for number, line in enumerate(log.splitlines(), 1):
        match = LINE.fullmatch(line)
        if OTHER.fullmatch(line) or not match and line.startswith((b"desk: ", b"roster: ")):
            continue
        if not match:
            raise DeskError(
                f"{shown(name)}:{number}: no line of a log: '{shown(line[:40])}'; --log wants what improve wrote on standard"
                " error"
            )
        found.append(Point(match[1].decode(), int(match[3])))
    if not found:
        raise DeskError(f"{shown(name)}: the log is empty; --log wants what improve wrote on standard error")
    return found


def nice_step(span: int) -> int:
    """The distance of some three to six lines that divide a span evenly for the eye."""
    step = 1
    while span / step > 6:
        step = step * 5 // 2 if str(step)[0] == "2" else step * 2
    return step


class Plot:
    """A drawing of points from left to right."""

    def __init__(self, points: list[Point], bound: int | None):
        self.points, self.bound = points, bound
        totals = [point.total for point in points] + ([bound] if bound is not None else [])
        self.step = nice_step(max(1, max(totals) - min(totals)))
        self.low = min(totals) // self.step * self.step
        self.high = max(self.low + self.step, -(-max(totals) // self.step) * self.step)

    def x(self, at: int) -> float:
        return LEFT + (WIDTH - LEFT - RIGHT) * at / max(1, len(self.points) - 1)

    def y(self, total: int) -> float:
        return TOP + (HEIGHT - TOP - BOTTOM) * (self.high - total) / (self.high - self.low)

    def lines(self) -> list[str]:
        """Lines at round numbers, with the numbers."""
        found = []
        for total in range(self.low, self.high + 1, self.step):
            y = self.y(total)
            found.append(f'<line class="rule" x1="{LEFT}" x2="{WIDTH - RIGHT}" y1="{y:.1f}" y2="{y:.1f}"/>')
            found.append(f'<text class="scale" x="{LEFT - 8}" y="{y + 4:.1f}">{total}</text>')
        return found

    def rounds(self) -> list[str]:
        """A mark where a round ends, with its number if there is space for it."""
        found, free = [], 0.0
        for number, at in enumerate((at for at, point in enumerate(self.points) if point.kind == "round"), 1):
            x = self.x(at)
            found.append(f'<line class="round" x1="{x:.1f}" x2="{x:.1f}" y1="{TOP}" y2="{HEIGHT - BOTTOM}"/>')
            if x >= free:
                found.append(below(x, str(number)))
                free = x + ASIDE
        return found

    def polish(self) -> list[str]:
        """The name of what follows the last round, below it, and where it begins."""
        ends = [at for at, point in enumerate(self.points) if point.kind in ("settled", "stopped")]
        if not ends or ends[0] == len(self.points) - 1:
            return []
        first, last = self.x(ends[0]), self.x(len(self.points) - 1)
        line = f'<line class="polish" x1="{first:.1f}" x2="{first:.1f}" y1="{TOP}" y2="{HEIGHT - BOTTOM + 8}"/>'
        return [line, below(max(first + 2 * ASIDE, (first + last) / 2), "polish")]

    def bound_line(self) -> list[str]:
        if self.bound is None:
            return []
        y = self.y(self.bound)
        return [f'<line class="bound" x1="{LEFT}" x2="{WIDTH - RIGHT}" y1="{y:.1f}" y2="{y:.1f}"/>']

    def names(self) -> list[str]:
        """What the first and the last roster cost, and the bound. At the right they stand next to the lines, and not over one."""
        first, last = self.points[0].total, self.points[-1].total
        y, right = self.y(last), WIDTH - RIGHT + 9
        found = [f'<text class="first" x="{self.x(0):.1f}" y="{self.y(first) - 9:.1f}">{first}</text>']
        if self.bound is not None:
            of_bound = self.y(self.bound)
            apart = max(0.0, BELOW - abs(of_bound - y)) / 2 * (1 if last >= self.bound else -1)
            y -= apart
            found.append(f'<text class="bound-name" x="{right}" y="{of_bound + apart + 4:.1f}">bound {self.bound}</text>')
        return [*found, f'<text class="last" x="{right}" y="{y + 4:.1f}">{last}</text>']

    def svg(self) -> str:
        path = " ".join(f"{self.x(at):.1f},{self.y(point.total):.1f}" for at, point in enumerate(self.points))
        first, last = self.points[0].total, self.points[-1].total
        name = f"The penalty falls from {first} to {last}" + ("" if self.bound is None else f"; the lower bound is {self.bound}")
        ends = [(0, first), (len(self.points) - 1, last)]
        dots = [f'<circle class="dot" cx="{self.x(at):.1f}" cy="{self.y(total):.1f}" r="4"/>' for at, total in ends]
        shapes = [*self.lines(), *self.rounds(), *self.polish(), *self.bound_line()]
        shapes += [f'<polyline class="run" points="{path}"/>', *dots, *self.names()]
        shapes.append(f'<text class="scale" x="{LEFT - 8}" y="{HEIGHT - BOTTOM + 22}">round</text>')
        return f'<svg viewBox="0 0 {WIDTH} {HEIGHT}" role="img" aria-label="{name}">{"".join(shapes)}</svg>'


def below(x: float, text: str) -> str:
    """A text below the drawing."""
    return f'<text class="turn" x="{x:.1f}" y="{HEIGHT - BOTTOM + 22}">{text}</text>'
