"""A second reading of refused texts, section by section and line by line, which goes on after a fault and notes each."""
import collections
import collections.abc
import contextlib
import dataclasses

from desk_lib import grammar
from desk_lib.findings import Finding, also, nearest, nearest_names
from desk_lib.grammar import MARKS, PARTS, READERS, SECTIONS_OF, Cursor, Fault, Part, Section, Words
from desk_lib.texts import KINDS, shown

ORDER = "the order is scenario, history, week data, solutions; or name the files by --sce, --his, --weeks and --sols"
# Sections of one line each for what they count, with what reads a line; a count stands after '='.
LINES = {
    b"SKILLS": grammar.skill_line,
    b"SHIFT_TYPES": grammar.shift_line,
    b"FORBIDDEN_SHIFT_TYPES_SUCCESSIONS": grammar.succession_line,
    b"CONTRACTS": grammar.contract_line,
    b"NURSES": grammar.nurse_line,
    b"NURSE_HISTORY": grammar.history_line,
    b"REQUIREMENTS": grammar.need_line,
    b"SHIFT_OFF_REQUESTS": grammar.request_line,
    b"SHIFT_ON_REQUESTS": grammar.request_line,
    b"ABSENCES": grammar.absence_line,
    b"FIXED": grammar.absence_line,
    b"ASSIGNMENTS": grammar.assignment_line,
}
# How many faults are reported, and for how many of them a keyword is looked for that a word may be meant to be.
MOST, MEANT = 10_000, 1_000
# How many words a line may have in which a name with blanks is looked for, and how many such a name may have.
LONGEST_LINE, LONGEST_NAME = 60, 4
# The sections that declare names.
DECLARING = {b"SCENARIO", b"SKILLS", b"SHIFT_TYPES", b"CONTRACTS", b"NURSES"}
UNCOUNTED = {b"FORBIDDEN_SHIFT_TYPES_SUCCESSIONS", b"NURSE_HISTORY", b"REQUIREMENTS"}
ALONE = {b"HISTORY", b"WEEK_DATA", b"SOLUTION", *UNCOUNTED}


@dataclasses.dataclass
class Found:
    """A part that was found, with the number of its first word."""

    kind: str
    at: int
    sections: Part


class Recovery:
    """The parts of texts, as far as they can be read, and what is wrong with them."""

    def __init__(self, words: Words):
        # (a keyword that is misspelt is read as the one that is meant)
        self.words, self.list = words, [*words.words]
        self.findings: list[Finding] = []
        self.left_out = 0
        self.parts: list[Found] = []
        # (names that stand first in lines with another fault, by the keywords of their sections)
        self.broken: dict[bytes, list[bytes]] = collections.defaultdict(list)
        # (names with blanks in them, with the numbers of the first words of each)
        self.blanks: dict[bytes, list[int]] = {}
        # (names of one word that are declared)
        self.known: set[bytes] = set()
        heads = self.heads()
        for (at, keyword), (end, _) in zip(heads, [*heads[1:], (len(self.list), b"")]):
            self.take(keyword, self.section(keyword, at, end))
        self.note_blanks()
        self.check_parts()

    def note(self, at: int, message: str, last: int | None = None) -> None:
        """Notes a fault of the word of this number, or of all words from it to the last."""
        if len(self.findings) >= MOST:
            self.left_out += 1
            return
        offset, place = self.words.offset(at), self.words.place(at)
        if last is not None and last < len(self.list):
            length = self.words.offset(last) + len(self.words.words[last]) - offset
            place = dataclasses.replace(place, length=length)
        self.findings.append(Finding(offset, place, message))

    def note_fault(self, fault: Fault, end: int) -> None:
        """Notes a fault of grammar in words that end there: at the last of them if one more is due."""
        is_inside = fault.at < end
        self.note(fault.at if is_inside else end - 1, said(fault, self.words.words[fault.at] if is_inside else None))

    # ---- sections

    def begins_line(self, at: int) -> bool:
        if at == 0:
            return True
        before = self.words.offset(at - 1) + len(self.list[at - 1])
        return b"\n" in self.words.data[before : self.words.offset(at)]

    def heads(self) -> list[tuple[int, bytes]]:
        """The words that begin sections, with the keyword that each is or is meant to be."""
        found = []
        for at, word in enumerate(self.words.words):
            if word in ALONE and self.begins_line(at):
                found.append((at, word))
            elif word == b"=" and at and self.begins_line(at - 1):
                keyword = self.list[at - 1]
                if keyword not in READERS:
                    keyword = self.list[at - 1] = self.meant(at - 1, keyword)
                if keyword in READERS:
                    found.append((at - 1, keyword))
        return found

    def meant(self, at: int, word: bytes) -> bytes:
        """The keyword that an unknown one is meant to be, or that word itself. Notes that."""
        near = nearest_names(word, frozenset(READERS)) if len(self.findings) < MEANT else []
        self.note(at, f"no section is named '{shown(word)}'{f'; nearest: {near[0]}' if near else ''}")
        return near[0].encode() if near else word

    def section(self, keyword: bytes, at: int, end: int) -> Section:
        """The section from one word to another; if it can't be read as a whole, line by line."""
        cursor, section = Cursor(self.list, at, end), Section(keyword.decode(), at)
        try:
            self.as_whole(keyword, cursor, section)
            if cursor.at == end:
                return section
            fault = Fault(cursor.at, "next section")
        except Fault as first:
            fault = first
        if keyword in LINES:
            return self.by_lines(keyword, at, end, Section(keyword.decode(), at))
        if not self.has_blank(keyword, lambda words: READERS[keyword](words, Section(keyword.decode(), at)), at, end):
            self.note_fault(fault, end)
        return section

    def as_whole(self, keyword: bytes, cursor: Cursor, section: Section) -> None:
        if keyword not in UNCOUNTED:
            return READERS[keyword](cursor, section)
        cursor.at += 1
        while cursor.peek() is not None:
            section.lines.append(LINES[keyword](cursor))

    def by_lines(self, keyword: bytes, at: int, end: int, section: Section) -> Section:
        """The lines of a section, each by itself. A count is compared with how many there are."""
        first = at + 1 if keyword in UNCOUNTED else self.after_count(at, end, section)
        lines = self.lines(first, end)
        if keyword not in UNCOUNTED and section.count != len(lines) and first > at + 2:
            follow = "1 line follows" if len(lines) == 1 else f"{len(lines)} lines follow"
            self.note(at + 2, f"{section.keyword} says {section.count}, and {follow} it")
        for start, stop in lines:
            cursor = Cursor(self.list, start, stop)
            try:
                line = LINES[keyword](cursor)
                if cursor.at == stop or not self.has_blank(keyword, LINES[keyword], start, stop):
                    section.lines.append(line)
                    if cursor.at < stop:
                        self.note(cursor.at, "the line has more words than a line of this section", stop - 1)
                    continue
            except Fault as fault:
                if not self.has_blank(keyword, LINES[keyword], start, stop):
                    self.note_fault(fault, stop)
            self.broken[keyword].append(self.words.words[start])
        return section

    # ---- names with blanks

    def has_blank(self, keyword: bytes, read: collections.abc.Callable[[Cursor], object], start: int, stop: int) -> bool:
        """Whether these words of a section can be read if names with blanks are one word each: those that were noted before, and one
        more, the first and shortest, if the section declares names. Notes them."""
        if not 0 < stop - start <= LONGEST_LINE:
            return False
        words = self.joined(start, stop)
        counts = range(1, LONGEST_NAME + 1 if keyword in DECLARING else 2)
        # (of one name alone nothing is joined, wherever it is)
        for count, at in ((count, at) for count in counts for at in range(len(words) - count + 1 if count > 1 else 1)):
            names = [name for name, _ in words[at : at + count]]
            if count > 1 and (self.known.issuperset(names) or not MARKS.isdisjoint(names)):
                continue
            tried = [*words[:at], (b" ".join(names), words[at][1]), *words[at + count :]]
            cursor = Cursor([name for name, _ in tried])
            with contextlib.suppress(Fault):
                read(cursor)
                if cursor.peek() is None:
                    for name, first in tried:
                        if b" " in name:
                            self.blanks.setdefault(name, []).append(first)
                    return True
        return False

    def joined(self, start: int, stop: int) -> list[tuple[bytes, int]]:
        """These words with their numbers, the names with blanks that were noted as one word each."""
        found, at = [], start
        while at < stop:
            counts = range(min(LONGEST_NAME, stop - at), 1, -1)
            names = ((count, b" ".join(self.list[at : at + count])) for count in counts)
            count, name = next((found for found in names if found[1] in self.blanks), (1, self.list[at]))
            found.append((name, at))
            at += count
        return found

    def note_blanks(self) -> None:
        for name, places in self.blanks.items():
            message = f"'{shown(name)}' is more words than one, and a name has no blank; write it as one, say as"
            message += f" '{shown(name.replace(b' ', b'_'))}', wherever it stands{also(len(places) - 1)}"
            self.note(places[0], message, places[0] + name.count(b" "))

    # ---- counts and lines

    def after_count(self, at: int, end: int, section: Section) -> int:
        """The number of the word after the count of a section, which is read."""
        cursor = Cursor(self.list, at + 1, end)
        try:
            cursor.word("=")
            section.count = cursor.number(grammar.COUNT)
        except Fault as fault:
            self.note_fault(fault, end)
            cursor.at += fault.greatest is not None
        return cursor.at

    def lines(self, first: int, end: int) -> list[tuple[int, int]]:
        """The lines of these words: from which word, and to which."""
        starts = [at for at in range(first, end) if at == first or self.begins_line(at)]
        return list(zip(starts, [*starts[1:], end])) if first < end else []

    # ---- parts

    def take(self, keyword: bytes, section: Section) -> None:
        """Adds a section to the part to which it belongs."""
        if keyword in DECLARING:
            self.known.update(self.words.words[line[0]] for line in section.lines)
        if keyword in PARTS:
            self.parts.append(Found(PARTS[keyword], section.at, {keyword: section}))
            return
        kind = next(kind for kind, sections in SECTIONS_OF.items() if keyword in sections)
        if not self.parts or self.parts[-1].kind != kind:
            self.note(section.at, f"{section.keyword} is a section of {a(kind)}, and stands in none")
        elif keyword in self.parts[-1].sections:
            self.note(section.at, f"{section.keyword} stands a second time in this {kind}")
        else:
            self.parts[-1].sections[keyword] = section

    def check_parts(self) -> None:
        """Notes sections that parts lack or have in another order."""
        for part in self.parts:
            needed = [keyword for keyword in SECTIONS_OF[part.kind] if keyword not in grammar.OPTIONAL]
            lacking = [keyword.decode() for keyword in needed if keyword not in part.sections]
            if lacking:
                self.note(part.at, f"this {part.kind} has no section {' and no '.join(lacking)}")
                continue
            order = [keyword for keyword in SECTIONS_OF[part.kind] if keyword in part.sections]
            for (keyword, section), due in zip(part.sections.items(), order):
                if keyword != due:
                    right = f"the order is {', '.join(map(bytes.decode, order))}"
                    self.note(section.at, f"{keyword.decode()} stands before {due.decode()}; {right}")
                    break

    def of_kind(self, kind: str) -> list[Found]:
        return [part for part in self.parts if part.kind == kind]

    def check_order(self) -> None:
        """Notes files under a wrong option, parts in a wrong order, and wrong numbers of them."""
        self.check_options()
        kinds = [*PARTS.values()]
        for before, part in zip(self.parts, self.parts[1:]):
            if kinds.index(part.kind) < kinds.index(before.kind):
                self.note(part.at, f"{a(part.kind)} stands here, after {a(before.kind)}; {ORDER}")
                break
        for kind in ("scenario", "history"):
            found = self.of_kind(kind)
            if not found:
                self.findings.append(Finding(-1, None, f"no {kind} is among the files; give one"))
            for part in found[1:]:
                self.note(part.at, f"a second {kind} stands here; give one alone")
        self.check_weeks()

    def check_options(self) -> None:
        """Notes files that aren't what their option says."""
        texts = self.words.texts
        for start, end, text in zip(texts.starts, texts.starts[1:], texts.texts):
            within = [part for part in self.parts if start <= self.words.offset(part.at) < end]
            due = KINDS.get(text.kind, "")
            for part in within:
                if due and part.kind != due:
                    message = f"--{text.kind} names this file, and it has {a(part.kind)}; that belongs to another option"
                    self.note(part.at, message)

    def check_weeks(self) -> None:
        """Notes if there aren't as many week data and solutions as the scenario says."""
        scenario = self.of_kind("scenario")
        weeks = scenario[0].sections.get(b"WEEKS") if scenario else None
        data, solutions = self.of_kind("week data"), self.of_kind("solution")
        # (without any solutions the texts are those of a roster to come)
        if weeks and (len(data) != weeks.count or solutions and len(solutions) != weeks.count):
            message = f"WEEKS says {weeks.count}, and there are {len(data)} week data and {len(solutions)} solutions"
            self.note(weeks.at + 2, f"{message}{self.lacking_weeks(weeks.count, solutions)}")

    def lacking_weeks(self, weeks: int, solutions: list[Found]) -> str:
        """A clause for the weeks that no solution is of, if some lack one."""
        there = {part.sections[b"SOLUTION"].count for part in solutions}
        lacking = [str(week) for week in range(weeks) if week not in there]
        return f"; none is of week {', '.join(lacking)}" if solutions and 0 < len(lacking) < 6 else ""

    def has_all_weeks(self) -> bool:
        """Whether there are as many solutions as weeks, so that each has the place of one."""
        scenario = self.of_kind("scenario")
        weeks = scenario[0].sections.get(b"WEEKS") if scenario else None
        return weeks is not None and len(self.of_kind("solution")) == weeks.count


def a(kind: str) -> str:
    """A kind of part with its article."""
    return kind if kind == "week data" else f"a {kind}"


def said(fault: Fault, word: bytes | None) -> str:
    """A fault of grammar in words: what is due, and what stands there instead."""
    here = f"'{shown(word)}' stands" if word is not None else "the line ends"
    if fault.greatest is not None:
        return f"'{shown(word or b'')}' stands here, and a number from 0 to {fault.greatest} is due"
    due = fault.due if fault.due.isupper() else f"'{fault.due}'" if fault.due in "=()," else f"a {fault.due}"
    like = nearest(word or b"", grammar.DAYS + grammar.LONG_DAYS) if fault.due == "day" else ""
    return f"{due} is due, and {here} here{like}"
