"""What `check` warns of: what the program takes, and is hardly meant."""
import collections.abc
import os
import re

from desk_lib import outputs
from desk_lib.findings import Finding, of_words
from desk_lib.grammar import NONE, Line, Part
from desk_lib.model import Plan
from desk_lib.texts import Text, Texts, plural, shown

NUMBER = re.compile(r"\d+")
# What the three pairs of a contract are of.
OF_CONTRACT = ["assignments", "working days in a row", "days off in a row"]


class Doubts:
    """The doubtful places of a plan, in its texts."""

    def __init__(self, plan: Plan, texts: Texts):
        self.plan, self.words, self.texts, self.bundle = plan, plan.words, texts, plan.bundle

    def findings(self) -> list[Finding]:
        """All of them, in the order of the texts."""
        found = [*self.limits(), *self.needs(), *self.lacking_needs(), *self.histories(), *self.weeks(), *self.order()]
        return sorted(found, key=lambda finding: finding.offset)

    def warning(self, first: int, last: int, message: str) -> Finding:
        """A warning of the words from one to another."""
        return of_words(self.words, first, last, f"warning: {message}")

    def name(self, at: int) -> str:
        return shown(self.words.words[at])

    def limits(self) -> collections.abc.Iterator[Finding]:
        """Leasts above greatests, of shifts and of contracts. A pair has five words."""
        for first, pair in self.bundle.scenario[b"SHIFT_TYPES"].lines:
            if pair.least > pair.greatest:
                yield self.pair(first + 1, f"days in a row of {self.name(first)}", *pair)
        for first, contract in self.bundle.scenario[b"CONTRACTS"].lines:
            for number, pair in enumerate(contract[:3]):
                if pair.least > pair.greatest:
                    yield self.pair(first + 1 + 5 * number, f"{OF_CONTRACT[number]} of {self.name(first)}", *pair)

    def pair(self, at: int, of: str, least: int, greatest: int) -> Finding:
        return self.warning(at, at + 4, f"{of}: the least, {least}, is above the greatest, {greatest}")

    def needs(self) -> collections.abc.Iterator[Finding]:
        for part in self.bundle.weeks:
            for first, skill, pairs in part[b"REQUIREMENTS"].lines:
                for day, pair in enumerate(pairs):
                    if pair.least > pair.greatest:
                        at = first + 2 + 5 * day
                        message = f"the minimum, {pair.least}, is above the optimum, {pair.greatest}"
                        yield self.warning(at, at + 4, f"{self.name(first)} {self.name(skill)}: {message}")

    def lacking_needs(self) -> collections.abc.Iterator[Finding]:
        """Shifts and skills that weeks have no line of, while others need them."""
        lines = [{self.names(line): line for line in part[b"REQUIREMENTS"].lines} for part in self.bundle.weeks]
        for names in sorted({names for of_week in lines for names in of_week}):
            lacking = [str(week) for week, of_week in enumerate(lines) if names not in of_week]
            there = [of_week[names] for of_week in lines if names in of_week]
            needed = next((line for line in there if any(map(any, line[2]))), None)
            if lacking and needed:
                weeks = f"weeks {', '.join(lacking)} have" if lacking[1:] else f"week {lacking[0]} has"
                message = f"{self.name(needed[0])} {self.name(needed[1])} is needed here, and {weeks} no line of it"
                yield self.warning(needed[0], needed[1], message)

    def names(self, line: Line) -> tuple[bytes, bytes]:
        """The names of the shift and the skill of a requirement."""
        return self.words.words[line[0]], self.words.words[line[1]]

    def histories(self) -> collections.abc.Iterator[Finding]:
        """Lines of the history that contradict themselves."""
        for first, *numbers in self.bundle.history[b"NURSE_HISTORY"].lines:
            message = self.contradiction(*numbers)
            if message:
                yield self.warning(first, first + 6, f"{self.name(first)}: {message}")

    def contradiction(self, assignments: int, weekends: int, last: int, of_last: int, working: int, off: int) -> str:
        """What a line of the history says that can't be, if anything."""
        word = self.name(last)
        if weekends > assignments:
            return f"{plural(weekends, 'worked weekend')}, and {plural(assignments, 'assignment')}"
        if self.words.words[last] == NONE:
            days = max(of_last, working)
            return f"there is no last shift, and {plural(days, 'day')} of work in a row" if days else ""
        if not of_last:
            return f"the last shift is {word}, with no day of it"
        if working < of_last:
            return f"{plural(of_last, 'day')} of {word} in a row, and {working} of work"
        return f"the last shift is {word}, and yet {plural(off, 'day')} off in a row" if off else ""

    def weeks(self) -> collections.abc.Iterator[Finding]:
        """Weeks that stand twice: the same file, or the same words if these have requests."""
        seen: dict[object, int] = {}
        for week, part in enumerate(self.bundle.weeks):
            head = part[b"WEEK_DATA"]
            same = min((seen.setdefault(key, week) for key in self.keys(week, part)), default=week)
            if same != week:
                yield self.warning(head.at, head.at + 1, f"week {week} is the same as week {same}")

    def keys(self, week: int, part: Part) -> list[object]:
        """What two weeks have in common that are the same: their file, or their words if there are requests."""
        heads = [week_part[b"WEEK_DATA"].at for week_part in self.bundle.weeks] + [self.bundle.solutions[0][b"SOLUTION"].at]
        said = tuple(self.words.words[heads[week] : heads[week + 1]])
        file = outputs.identity(self.text_of(part).name) if len(self.week_files()) == len(self.bundle.weeks) else None
        return [*[said] * bool(part[b"SHIFT_OFF_REQUESTS"].count), *[file] * (file is not None)]

    def text_of(self, part: Part) -> Text:
        """The file in which a week stands."""
        return self.texts.texts[self.texts.index(self.words.offset(part[b"WEEK_DATA"].at))]

    def week_files(self) -> list[int]:
        """The numbers of the files in which weeks stand, each once."""
        at = [self.texts.index(self.words.offset(part[b"WEEK_DATA"].at)) for part in self.bundle.weeks]
        return sorted({*at})

    def order(self) -> collections.abc.Iterator[Finding]:
        """Week data whose files have numbers in another order: of names that are the same but for one number."""
        if len(self.week_files()) < len(self.bundle.weeks):
            return
        names = [os.path.basename(self.text_of(part).name) for part in self.bundle.weeks]
        numbers = [NUMBER.findall(name) for name in names]
        if len({NUMBER.sub("0", name) for name in names}) > 1 or not numbers[0]:
            return
        for column in zip(*numbers):
            values = [int(word) for word in column]
            late = next((at for at in range(1, len(values)) if values[at] < values[at - 1]), None)
            if late is not None:
                head = self.bundle.weeks[late][b"WEEK_DATA"]
                message = f"{shown(names[late])} stands after {shown(names[late - 1])}, as week {late}; name the weeks in their order"
                yield self.warning(head.at, head.at, message)
                return
