"""What is wrong with the names of refused texts: unknown ones, repeated ones, those of another scenario."""
import collections
import collections.abc

from desk_lib.findings import Finding, also, nearest
from desk_lib.grammar import ANY, DAYS, NONE, Line, Part
from desk_lib.recovery import Found, Recovery
from desk_lib.texts import Place, shown

# For how many unknown words the nearest known ones are looked for.
NEAREST = 200
Known = collections.abc.Collection[bytes]


class Names:
    """Looks through the parts of a recovery. A word that is wrong in the same way on several lines is reported once."""

    def __init__(self, recovery: Recovery):
        self.recovery, self.words = recovery, recovery.words.words
        self.unknown: dict[tuple[str, bytes], tuple[list[int], str]] = {}
        scenario = recovery.of_kind("scenario")
        if not scenario:
            return
        self.of_scenario(scenario[0].sections)
        for part in recovery.of_kind("history"):
            self.of_history(part.sections)
        for part in recovery.of_kind("week data"):
            self.of_week(part.sections)
        self.of_solutions(recovery.of_kind("solution"))
        self.note_unknown()

    def lines(self, part: Part, keyword: bytes) -> list[Line]:
        return part[keyword].lines if keyword in part else []

    def declared(self, part: Part, keyword: bytes, what: str) -> set[bytes]:
        """The names that a section declares; notes those that stand twice."""
        found: dict[bytes, int] = {}
        for at, *_ in self.lines(part, keyword):
            word = self.words[at]
            if word in found:
                first = self.recovery.words.place(found[word])
                self.recovery.note(at, f"the {what} '{shown(word)}' stands a second time; the first is in line {first.line}")
            found.setdefault(word, at)
        return {*found, *self.recovery.broken[keyword]}

    def look_up(self, at: int, known: Known, what: str) -> None:
        """Notes a word that isn't among the known ones."""
        if self.words[at] not in known:
            key = what, self.words[at]
            if key not in self.unknown:
                self.unknown[key] = [], nearest(self.words[at], known) if len(self.unknown) < NEAREST else ""
            self.unknown[key][0].append(at)

    def note_unknown(self) -> None:
        for (what, word), (places, like) in self.unknown.items():
            self.recovery.note(places[0], f"the scenario has no {what} '{shown(word)}'{like}{also(len(places) - 1)}")

    def of_scenario(self, part: Part) -> None:
        self.name = [self.words[line[0]] for line in self.lines(part, b"SCENARIO")]
        self.skills = self.declared(part, b"SKILLS", "skill")
        self.shifts = self.declared(part, b"SHIFT_TYPES", "shift")
        for at, *_ in self.lines(part, b"SHIFT_TYPES"):
            if self.words[at] in (ANY, NONE):
                self.recovery.note(at, f"no shift may be named '{shown(self.words[at])}', which has a meaning of its own")
        contracts = self.declared(part, b"CONTRACTS", "contract")
        self.nurses = self.declared(part, b"NURSES", "nurse")
        self.declared(part, b"FORBIDDEN_SHIFT_TYPES_SUCCESSIONS", "line of the shift")
        for first, others in self.lines(part, b"FORBIDDEN_SHIFT_TYPES_SUCCESSIONS"):
            for at in (first, *others):
                self.look_up(at, self.shifts, "shift")
        for _, contract, skills in self.lines(part, b"NURSES"):
            self.look_up(contract, contracts, "contract")
            for at in skills:
                self.look_up(at, self.skills, "skill")

    def check_scenario(self, at: int) -> None:
        """Notes a part of another scenario."""
        if self.name and self.words[at] != self.name[0]:
            self.recovery.note(
                at, f"this is of the scenario '{shown(self.words[at])}', and the scenario given is '{shown(self.name[0])}'"
            )

    def of_history(self, part: Part) -> None:
        for at, name in self.lines(part, b"HISTORY"):
            self.check_scenario(name)
            if part[b"HISTORY"].count:
                self.recovery.note(at, f"the history is of week {part[b'HISTORY'].count}; give the one of week 0")
        named = self.declared(part, b"NURSE_HISTORY", "line of the nurse")
        for at, _, _, last, *_ in self.lines(part, b"NURSE_HISTORY"):
            self.look_up(at, self.nurses, "nurse")
            self.look_up(last, {*self.shifts, NONE}, "shift")
        lacking = sorted(shown(nurse) for nurse in self.nurses - named)
        if lacking and b"NURSE_HISTORY" in part:
            more = f" and {len(lacking) - 5} more" if len(lacking) > 5 else ""
            count = len(part[b"NURSE_HISTORY"].lines)
            message = f"NURSE_HISTORY has {count} lines, and the scenario {len(self.nurses)} nurses"
            self.recovery.note(part[b"NURSE_HISTORY"].at, f"{message}; none for {', '.join(lacking[:5])}{more}")

    def of_week(self, part: Part) -> None:
        for (at,) in self.lines(part, b"WEEK_DATA"):
            self.check_scenario(at)
        seen: dict[tuple[bytes, bytes], Place] = {}
        for shift, skill, _ in self.lines(part, b"REQUIREMENTS"):
            self.look_up(shift, self.shifts, "shift")
            self.look_up(skill, self.skills, "skill")
            both = self.words[shift], self.words[skill]
            if both in seen:
                message = f"{shown(both[0])} {shown(both[1])} has a second line in this week"
                self.recovery.note(shift, f"{message}; the first is line {seen[both].line}", skill)
            seen.setdefault(both, self.recovery.words.place(shift))
        for keyword in (b"SHIFT_OFF_REQUESTS", b"SHIFT_ON_REQUESTS"):
            for nurse, shift, _ in self.lines(part, keyword):
                self.look_up(nurse, self.nurses, "nurse")
                self.look_up(shift, {*self.shifts, ANY}, "shift")
        for keyword in (b"ABSENCES", b"FIXED"):
            for nurse, _ in self.lines(part, keyword):
                self.look_up(nurse, self.nurses, "nurse")

    def of_solutions(self, parts: list[Found]) -> None:
        for week, found in enumerate(parts):
            for _, name in self.lines(found.sections, b"SOLUTION"):
                self.check_scenario(name)
            seen: dict[tuple[bytes, int], int] = {}
            for nurse, day, shift, skill in self.lines(found.sections, b"ASSIGNMENTS"):
                self.look_up(nurse, self.nurses, "nurse")
                self.look_up(shift, self.shifts, "shift")
                self.look_up(skill, self.skills, "skill")
                both = self.words[nurse], day
                if both in seen and both[0] in self.nurses:
                    first = self.recovery.words.place(seen[both])
                    breach = f"H1 week {week} {DAYS[day].decode()} {shown(both[0])}"
                    self.recovery.note(nurse, f"{breach}: this is a second line for the day; the first is line {first.line}")
                seen.setdefault(both, nurse)


def findings_of(recovery: Recovery) -> list[Finding]:
    """All faults of a recovery, those of its names included, in the order of the text."""
    Names(recovery)
    return sorted(recovery.findings, key=lambda finding: finding.offset)
