"""The texts with all that is asked for: as the program gets them, and as week data of their own."""
import collections
import collections.abc
import contextlib

from desk_lib import gone
from desk_lib.asks import ANY_SHIFT, AWAY, Asks
from desk_lib.case import Choice, NurseDay
from desk_lib.grammar import ANY, DAYS, Part, Section
from desk_lib.program import Program, plan_in
from desk_lib.replacing import Replacement
from desk_lib.texts import DeskError, Edit, Text, Texts, shown

# The sections that get lines, in their order.
SECTIONS = OFF, ON, ABSENT, FIXED = b"SHIFT_OFF_REQUESTS", b"SHIFT_ON_REQUESTS", b"ABSENCES", b"FIXED"


class Asked:
    """What asks put into the texts of their plan."""

    def __init__(self, asks: Asks):
        self.asks, self.plan, self.words = asks, asks.plan, asks.plan.words

    # ---- the edits

    def lines(self) -> collections.abc.Iterator[tuple[int, bytes, bytes]]:
        """The lines that weeks get: the week, the section, and the words."""
        of_days: dict[NurseDay, tuple[bytes, list[bytes]]] = {
            at: self.request(choice) for at, choice in self.asks.days_of("off", "pin").items()
        }
        wishes = [(at, self.request(choice)) for at, choice in sorted(self.asks.wishes)]
        of_days |= {at: (ABSENT, []) for at in self.asks.days_of(*AWAY)}
        fixed: list[tuple[NurseDay, tuple[bytes, list[bytes]]]] = [(at, (FIXED, [])) for at in sorted(self.asks.fixed)]
        for (nurse, day), (keyword, shift) in [*sorted([*of_days.items(), *wishes]), *fixed]:
            yield day // 7, keyword, b" ".join([self.plan.case.nurses[nurse].name, *shift, DAYS[day % 7]])

    def request(self, choice: Choice) -> tuple[bytes, list[bytes]]:
        """The section and the shift of a request for this choice."""
        if choice is None:
            return OFF, [ANY]
        return ON, [ANY if choice[0] == ANY_SHIFT else self.plan.case.shifts[choice[0]].name]

    def of_weeks(self, end: bytes) -> list[Edit]:
        """What gives the weeks all lines, each after `end`."""
        more: dict[tuple[int, bytes], list[bytes]] = collections.defaultdict(list)
        for week, keyword, line in self.lines():
            more[week, keyword].append(line)
        found = []
        for week, part in enumerate(self.plan.bundle.weeks):
            found += self.of_week(part, {keyword: more[week, keyword] for keyword in SECTIONS}, end)
        return found

    def of_week(self, part: Part, more: dict[bytes, list[bytes]], end: bytes) -> list[Edit]:
        """What gives a week these lines, each after `end`. A section that it hasn't comes after the one before it."""
        found: list[Edit] = []
        after = b""
        for keyword in reversed(SECTIONS):
            new = b"".join(end + line for line in more[keyword])
            if keyword in part:
                found += self.of_section(part[keyword], len(more[keyword]), new, after)
                after = b""
            elif new:
                after = b"%s%s = %d%s%s" % (end, keyword, len(more[keyword]), new, after)
        return found

    def of_section(self, section: Section, count: int, new: bytes, after: bytes) -> list[Edit]:
        """What gives a section this number of lines more, and sections after it. New lines come before those that are there."""
        at = section.at + 2
        if not section.lines:
            new, after = new + after, b""
        found: list[Edit] = [(*self.word(at), b"%d%s" % (section.count + count, new))] if new else []
        if after:
            first, *rest = section.lines[-1]
            found.append((self.end(first + len(rest)), 0, after))
        return found

    def word(self, at: int) -> tuple[int, int]:
        """Where the word of this number begins, and how long it is."""
        return self.words.offset(at), len(self.words.words[at])

    def end(self, at: int) -> int:
        return sum(self.word(at))

    def needs(self) -> list[Edit]:
        return [(*self.word(at), count) for at, (count, _) in self.asks.needs.items()]

    def contracts(self, end: bytes) -> list[Edit]:
        """What gives those who are gone contracts of their own, each after `end`."""
        return gone.edits(self.plan, self.asks.gone, end) if self.asks.gone else []

    def duties(self) -> list[Edit]:
        """What puts the duties into the solutions: another shift into the line of that day, or one line more."""
        case = self.plan.case
        found: list[Edit] = []
        for week, part in enumerate(self.plan.bundle.solutions):
            section, new = part[b"ASSIGNMENTS"], []
            there = {(self.asks.nurses[self.words.words[first]], day): at for first, day, *at in section.lines}
            for (nurse, day), choice in sorted(self.asks.days_of("duty").items()):
                names = [case.shifts[choice[0]].name, case.skills[choice[1]]] if choice else []
                if day // 7 == week and (nurse, day % 7) in there:
                    found += [(*self.word(at), name) for at, name in zip(there[nurse, day % 7], names)]
                elif day // 7 == week:
                    new.append(b" " + b" ".join([case.nurses[nurse].name, DAYS[day % 7], *names]))
            found += self.of_section(section, len(new), b"".join(new), b"")
        return found

    # ---- the texts

    def added_to(self, texts: Texts, with_duties: bool = True) -> Texts:
        """The texts with all that is asked for, or all but the duties in the roster. It stands in lines that are there, so that the
        others keep their numbers."""
        duties = self.duties() if with_duties else []
        return texts.edited([*self.of_weeks(b" "), *self.needs(), *self.contracts(b" "), *duties])

    def scenario(self, texts: Texts) -> bytes | None:
        """The scenario with the contracts of those who are gone, if somebody is."""
        end = self.words.offset(self.plan.bundle.history[b"HISTORY"].at)
        text = Text("", texts.joined[:end]).edited(0, self.contracts(b"\n"))
        return text.data.rstrip() + b"\n" if self.asks.gone else None

    def week_data(self, texts: Texts) -> list[bytes]:
        """The week data with all that is asked for, as texts of their own."""
        bundle, edits, found = self.plan.bundle, [*self.of_weeks(b"\n"), *self.needs()], []
        heads = [part[b"WEEK_DATA"].at for part in bundle.weeks] + [bundle.solutions[0][b"SOLUTION"].at]
        for first, last in zip(map(self.words.offset, heads), map(self.words.offset, heads[1:])):
            text = Text("", texts.joined[first:last]).edited(first, edits)
            found.append(text.data.rstrip() + b"\n")
        return found


def write_weeks(roster: Program, asks: Asks, texts: Texts, names: list[str], scenario_name: str) -> list[str]:
    """Writes the week data with all that is asked for into files of these names, and the scenario if somebody is gone, once all of
    them are read back: by the desk as the case that it passes on, and by the program, which answers the same to both. Returns
    the names of what was written."""
    plan, asked = asks.plan, Asked(asks)
    scenario, passed = asked.scenario(texts), asked.added_to(texts)
    there = plan_in(passed)
    heads = plan.bundle.history[b"HISTORY"], plan.bundle.weeks[0][b"WEEK_DATA"]
    history, first = (plan.words.offset(section.at) for section in heads)
    solutions = Text("the solutions", passed.joined[there.solutions_offset() :])
    files = [*zip(names, asked.week_data(texts)), *([(scenario_name, scenario)] if scenario else [])]
    with contextlib.ExitStack() as stack:
        new = [stack.enter_context(Replacement(name, data)) for name, data in files]
        before = [Text(scenario_name, new[-1].read()), Text("the history", texts.joined[history:first])]
        before = before if scenario else texts.before(first, []).texts
        back = Texts([*before, *(Text(file.name, file.read()) for file in new[: len(names)]), solutions])
        answers = (roster.call(["cost"], both.joined) for both in (back, passed))
        if plan_in(back).case != there.case or next(answers) != next(answers):
            message = f"{shown(names[0])}: read back they are other week data; nothing is replaced"
            raise DeskError(f"{message}. This is a fault of the desk", 3)
        for file in new:
            file.put()
    return [name for name, _ in files]
