"""Random bundles as bytes, for programs that are compared: wards, and hostile changes of them.

A bundle is a random ward, small most often: numbers at their limits and one above, a least above its greatest, histories of every
kind, names like keywords, sections without lines, several weeks. Every second one is changed: tokens and lines dropped, doubled,
swapped, replaced; counts one off; bytes flipped.
"""
import collections
import os
import re

import tables

TOP = os.path.dirname(os.path.dirname(os.path.realpath(__file__)))
with open(f"{TOP}/README.md", encoding="utf-8") as file:
    LIMITS = tables.limits(file.read())
GREATEST = tuple(LIMITS[what] for what in ("weeks", "skills", "shifts", "contracts", "nurses"))
DAYS = b"Mon Tue Wed Thu Fri Sat Sun".split()
LONG_DAYS = b"Monday Tuesday Wednesday Thursday Friday Saturday Sunday".split()
KEYWORDS = b"""SCENARIO WEEKS SKILLS SHIFT_TYPES FORBIDDEN_SHIFT_TYPES_SUCCESSIONS CONTRACTS NURSES HISTORY NURSE_HISTORY
    WEEK_DATA REQUIREMENTS SHIFT_OFF_REQUESTS SHIFT_ON_REQUESTS SOLUTION ASSIGNMENTS""".split()
MARKS = [b"(", b")", b",", b"="]
ODD_WORDS = [b"None", b"Any", b"0", b"7", b"-1", b"+1", b"1.0", b"\0", b"\xff\xfe", b"a\x0bb", "Zoë".encode(), b"x" * 300]
NUMBERS = [b"0", b"1", b"2", b"7", b"16", b"999", b"1000", b"99999", b"100000", b"4294967296", b"9" * 30, b"0" * 30 + b"1"]
# The most weeks, skills, shifts, contracts and nurses, and how often: the last are the limits.
SCALES = {(1, 2, 2, 2, 2): 40, (2, 2, 3, 2, 3): 40, (5, 4, 4, 4, 8): 16, (8, 8, 8, 8, 30): 2, GREATEST: 1}


# ---- random wards: a list of lines, each a list of tokens


def chance(rng, likely):
    return rng.random() < likely


class Ward:
    """A random ward, with a roster that keeps the hard rules most often. Shifts and skills are numbers."""

    def __init__(self, rng, least_weeks, has_days=False):
        # with has_days, weeks may have absences and fixed days
        self.rng, self.has_days = rng, has_days
        self.wildness = rng.choice([0, 0, 0, 0, 0.002, 0.02])
        most = rng.choices([*SCALES], [*SCALES.values()])[0]
        is_full = most == GREATEST or chance(rng, 0.02)
        counts = [number + chance(rng, 0.1) if is_full and chance(rng, 0.7) else rng.randint(1, number) for number in most]
        self.weeks, skills, shifts, contracts, nurses = counts
        if least_weeks:
            self.weeks = rng.randint(least_weeks, LIMITS["weeks"])
        self.scenario = rng.choice([b"mini", b"ward-7", *KEYWORDS])
        stems = zip((b"K", b"S", b"C", b"N"), (skills, shifts, contracts, nurses))
        self.skills, self.shifts, self.contracts, self.nurses = (self.names(stem, count) for stem, count in stems)
        self.forbidden = {(a, b) for a in range(shifts) for b in range(shifts) if chance(rng, 0.15)}
        self.skills_of = [rng.sample(range(skills), rng.randint(not chance(rng, 0.05), skills)) for _ in self.nurses]
        self.last = [rng.choice([None, *range(shifts)]) for _ in self.nurses]
        likely_off, care = rng.random(), rng.choice([1, 1, 1, 1, 0.99])
        self.rows = [self.row(nurse, likely_off, care) for nurse in range(nurses)]

    def names(self, stem, count):
        found = [b"%s%d" % (stem, number) for number in range(count)]
        if found and chance(self.rng, 0.1):
            found[self.rng.randrange(count)] = self.rng.choice([*ODD_WORDS, *KEYWORDS, *DAYS])
        return found

    def row(self, nurse, likely_off, care):
        """A row that keeps successions and skills, as far as care goes."""
        row, before = [], self.last[nurse]
        skills = self.skills_of[nurse]
        for _ in range(7 * self.weeks):
            after = [shift for shift in range(len(self.shifts)) if (before, shift) not in self.forbidden or chance(self.rng, 1 - care)]
            is_off = not skills or not after or chance(self.rng, likely_off)
            row.append(None if is_off else (self.rng.choice(after), self.rng.choice(skills)))
            before = None if is_off else row[-1][0]
        return row

    def small(self, most):
        """A number up to `most`; in a wild ward now and then one around the limits."""
        is_wild = chance(self.rng, self.wildness)
        number = self.rng.choice([998, 999, 999, 1000, 99_999]) if is_wild else self.rng.randint(0, most)
        return b"%0*d" % (self.rng.choice([0, 0, 0, 0, 5]) if self.wildness else 0, number)

    def pair(self, most):
        """A pair of numbers, a least above its greatest among them."""
        pair = [self.small(most), self.small(most)]
        return [b"(", *(pair if chance(self.rng, 0.1) else sorted(pair, key=int)), b")"]

    def limits(self, most):
        opened, least, greatest, closed = self.pair(most)
        return [opened, least, b",", greatest, closed]

    def scenario_lines(self):
        section = lambda keyword, names: [keyword, b"=", b"%d" % len(names)]
        days = self.rng.choice([2, 5, 7, 9])
        lines = [[b"SCENARIO", b"=", self.scenario], [b"WEEKS", b"=", b"%d" % self.weeks]]
        lines += [section(b"SKILLS", self.skills), *([skill] for skill in self.skills)]
        lines += [section(b"SHIFT_TYPES", self.shifts), *([shift, *self.limits(days)] for shift in self.shifts)]
        lines += [[b"FORBIDDEN_SHIFT_TYPES_SUCCESSIONS"], *self.successions()]
        lines += [section(b"CONTRACTS", self.contracts)]
        for contract in self.contracts:
            pairs = [*self.limits(7 * self.weeks), *self.limits(days), *self.limits(days)]
            lines += [[contract, *pairs, self.small(self.weeks), b"%d" % self.rng.randint(0, 1)]]
        lines += [section(b"NURSES", self.nurses)]
        for nurse, skills in zip(self.nurses, self.skills_of):
            contract = self.rng.choice(self.contracts or [b"C"])
            lines += [[nurse, contract, b"%d" % len(skills), *(self.skills[skill] for skill in skills)]]
        return lines

    def successions(self):
        lines = []
        for first, name in enumerate(self.shifts):
            after = [self.shifts[second] for before, second in sorted(self.forbidden) if before == first]
            after += [self.rng.choice(after)] if after and chance(self.rng, 0.05) else []
            if after or chance(self.rng, 0.7):
                lines += [[name, b"%d" % len(after), *after]]
        self.rng.shuffle(lines)
        return lines

    def history_lines(self):
        lines = [[b"HISTORY"], [b"0", self.scenario], [b"NURSE_HISTORY"]]
        order = [*range(len(self.nurses))]
        if chance(self.rng, 0.2):
            self.rng.shuffle(order)
        for nurse in order:
            last = b"None" if self.last[nurse] is None else self.shifts[self.last[nurse]]
            totals = [self.small(self.rng.choice([0, 9])), self.small(self.rng.choice([0, 3]))]
            lines += [[self.nurses[nurse], *totals, last, *(self.small(9) for _ in range(3))]]
        return lines

    def week_lines(self, week):
        lines = [[b"WEEK_DATA"], [self.scenario], [b"REQUIREMENTS"]]
        covers = [collections.Counter(row[7 * week + day] for row in self.rows) for day in range(7)]
        likely, is_strict = self.rng.random(), chance(self.rng, 0.05)
        for shift, name in enumerate(self.shifts):
            for skill, of in enumerate(self.skills):
                if chance(self.rng, likely):
                    have = [cover[(shift, skill)] for cover in covers]
                    lines += [[name, of, *(token for day in range(7) for token in self.need(have[day], is_strict))]]
        # any line may come first
        head, needs = lines[:3], lines[3:]
        self.rng.shuffle(needs)
        return [*head, *needs, *self.request_lines(), *self.absence_lines(week), *self.fixed_lines()]

    def need(self, have, is_strict):
        """The minimum and the optimum of a day: the minimum is met, unless it is strict."""
        least = self.rng.choice([0, 0, 0, have, self.rng.randint(0, have), have + 1 if is_strict else 0])
        return [b"(", b"%d" % least, b",", self.small(3), b")"]

    def request_lines(self):
        """The off requests, and in half of the weeks a section of wishes to work, empty ones among them."""
        off = self.section_of_requests(b"SHIFT_OFF_REQUESTS")
        return off + self.section_of_requests(b"SHIFT_ON_REQUESTS") if chance(self.rng, 0.5) else off

    def section_of_requests(self, keyword):
        count = self.rng.choice([0, 0, self.rng.randint(0, 5), self.rng.randint(0, 7 * len(self.nurses))])
        named = self.nurses or [b"N"]
        lines = [[self.rng.choice(named), self.rng.choice([b"Any", *self.shifts]), self.day()] for _ in range(count)]
        return [[keyword, b"=", b"%d" % count], *lines]

    def absence_lines(self, week):
        """In half of the weeks a section of absences, empty ones among them: mostly of days off, now and then of any day."""
        if not self.has_days or chance(self.rng, 0.5):
            return []
        is_careful, days = chance(self.rng, 0.9), range(7 * week, 7 * week + 7)
        free = [(nurse, day) for nurse, row in zip(self.nurses, self.rows) for day in days if not (is_careful and row[day])]
        lines = self.rng.sample(free, min(len(free), self.rng.choice([0, 1, self.rng.randint(0, 9)])))
        return [[b"ABSENCES", b"=", b"%d" % len(lines)], *([nurse, self.day(day % 7)] for nurse, day in lines)]

    def fixed_lines(self):
        """In half of the weeks a section of fixed days, of any nurses, some of them twice."""
        if not self.has_days or chance(self.rng, 0.5):
            return []
        count = self.rng.choice([0, 1, self.rng.randint(0, 9)])
        return [[b"FIXED", b"=", b"%d" % count], *([self.rng.choice(self.nurses or [b"N"]), self.day()] for _ in range(count))]

    def day(self, number=None):
        number = self.rng.randrange(7) if number is None else number
        return self.rng.choice([DAYS, DAYS, LONG_DAYS])[number]

    def solution_lines(self, week):
        lines = []
        for nurse, row in zip(self.nurses, self.rows):
            for day, choice in enumerate(row[7 * week : 7 * week + 7]):
                if choice:
                    lines += [[nurse, self.day(day), self.shifts[choice[0]], self.skills[choice[1]]]]
        if chance(self.rng, 0.5):
            self.rng.shuffle(lines)
        if lines and chance(self.rng, 0.03):
            lines.insert(self.rng.randint(0, len(lines)), self.second(self.rng.choice(lines)))
        number = b"%d" % week if chance(self.rng, 0.9) else self.small(999)
        return [[b"SOLUTION"], [number, self.scenario], [b"ASSIGNMENTS", b"=", b"%d" % len(lines)], *lines]

    def second(self, line):
        """A second line for the nurse and day of one."""
        return [*line[:2], self.rng.choice(self.shifts), self.rng.choice(self.skills)]

    def lines(self):
        weeks = range(self.weeks)
        lines = self.scenario_lines() + self.history_lines()
        lines += [line for week in weeks for line in self.week_lines(week)]
        return lines + [line for week in weeks for line in self.solution_lines(week)]


# ---- changes of lines: each takes the generator and the lines, of which there is at least one


def any_token(rng, lines):
    """The number of a line that has tokens, and of a token in it."""
    line = rng.choice([number for number, tokens in enumerate(lines) if tokens] or [0])
    return line, rng.randrange(len(lines[line]) or 1)


def any_word(rng, lines):
    other, token = any_token(rng, lines)
    word = lines[other][token : token + 1] or [b"x"]
    return rng.choice([*word * 4, rng.choice(KEYWORDS), rng.choice(NUMBERS), rng.choice(MARKS), rng.choice(ODD_WORDS), b"Sun"])


def drop_token(rng, lines):
    line, token = any_token(rng, lines)
    del lines[line][token : token + 1]


def double_token(rng, lines):
    line, token = any_token(rng, lines)
    lines[line][token:token] = lines[line][token : token + 1]


def swap_tokens(rng, lines):
    line, first = any_token(rng, lines)
    if lines[line]:
        second = rng.randrange(len(lines[line]))
        lines[line][first], lines[line][second] = lines[line][second], lines[line][first]


def replace_token(rng, lines):
    line, token = any_token(rng, lines)
    lines[line][token : token + 1] = [any_word(rng, lines)]


def insert_token(rng, lines):
    line, token = any_token(rng, lines)
    lines[line].insert(token, any_word(rng, lines))


def replace_everywhere(rng, lines):
    """One word in place of another, wherever that is."""
    line, token = any_token(rng, lines)
    old, new = lines[line][token : token + 1], any_word(rng, lines)
    lines[:] = [[new if [token] == old else token for token in tokens] for tokens in lines]


def is_name(token):
    return token not in KEYWORDS and token not in MARKS and not token.isdigit()


def replace_name(rng, lines):
    """A name in place of another, so that the grammar is kept and the names are wrong."""
    names = [(line, number) for line, tokens in enumerate(lines) for number, token in enumerate(tokens) if is_name(token)]
    if names:
        (line, token), (other, new) = rng.choice(names), rng.choice(names)
        lines[line][token] = rng.choice([lines[other][new]] * 6 + [b"Any", b"None", b"nobody"])


def double_counted(rng, lines):
    """A line twice, and one more in the count of its section."""
    heads = [number for number, tokens in enumerate(lines) if len(tokens) == 3 and tokens[1] == b"=" and tokens[2].isdigit()]
    line = rng.randrange(len(lines))
    above = [head for head in heads if head < line]
    if above:
        lines[above[-1]][2] = b"%d" % (int(lines[above[-1]][2]) + 1)
        lines.insert(line, [*lines[line]])


def count_off_by_one(rng, lines):
    numbers = [(line, number) for line, tokens in enumerate(lines) for number, token in enumerate(tokens) if token.isdigit()]
    heads = [at for at in numbers if lines[at[0]][at[1] - 1 : at[1]] == [b"="]]
    if numbers:
        line, token = rng.choice(heads if heads and chance(rng, 0.5) else numbers)
        lines[line][token] = b"%d" % abs(int(lines[line][token]) + rng.choice([-1, 1]))


def drop_lines(rng, lines):
    first = rng.randrange(len(lines))
    del lines[first : first + rng.choice([1, 1, 1, rng.randint(1, 9)])]


def double_lines(rng, lines):
    first = rng.randrange(len(lines))
    last = first + rng.choice([1, 1, 1, rng.randint(1, 9)])
    lines[last:last] = [[*tokens] for tokens in lines[first:last]]


def swap_lines(rng, lines):
    first, second = rng.randrange(len(lines)), rng.randrange(len(lines))
    lines[first], lines[second] = lines[second], lines[first]


def move_line(rng, lines):
    moved = lines.pop(rng.randrange(len(lines)))
    lines.insert(rng.randint(0, len(lines)), moved)


def cut(rng, lines):
    line, token = any_token(rng, lines)
    lines[line + 1 :] = []
    del lines[line][token:]


CHANGES = [drop_token, double_token, swap_tokens, replace_token, replace_token, insert_token, replace_everywhere]
CHANGES += [count_off_by_one, drop_lines, double_lines, swap_lines, move_line, cut]
# Those that the grammar mostly allows.
CHANGES_OF_MEANING = [replace_name, replace_name, double_counted]


def change(rng, lines):
    for _ in range(rng.choice([0, 0, 0, 0, 0, 0, 1, 1, 1, 2, 3, 9])):
        rng.choice(rng.choice([CHANGES, CHANGES_OF_MEANING]))(rng, lines)
        if not lines:
            lines.append([])


# ---- texts


def spelled(rng, lines):
    """The text of the lines, in one of several ways to set blanks and line ends."""
    end = rng.choice([b"\n", b"\n", b"\n", b"\r\n", b"\n\n", b" ", b"\t\r\n "])
    text = end.join(b" ".join(tokens) for tokens in lines) + rng.choice([end, end, end, b""])
    if chance(rng, 0.3):
        text = re.sub(rb" ?([(),=]) ?", rb"\1", text)
    if chance(rng, 0.05):
        text = re.sub(b" ", lambda _: rng.choice([b" ", b"\t", b"\r", b"\n", b" \n "]), text)
    return text


def flipped(rng, text):
    """The text with some bytes changed, taken out or put in."""
    text = bytearray(text)
    for _ in range(rng.choice([1, 1, 1, 2, 8])):
        at = rng.randint(0, len(text))
        new = bytes([rng.choice([rng.randrange(256), *b"()=, \r\n\t0x\0\xff\x0b\x0c"])])
        kind = rng.randrange(4)
        if kind == 3 and text and at < len(text):
            text[at] ^= 1 << rng.randrange(8)
        else:
            text[at : at + (kind > 0)] = new if kind < 2 else b""
    return bytes(text)


def bundle(rng, least_weeks, has_days=False):
    """A text, and names of nurses to ask for."""
    ward = Ward(rng, least_weeks, has_days)
    lines = ward.lines()
    change(rng, lines)
    text = spelled(rng, lines)
    return flipped(rng, text) if chance(rng, 0.15) else text, ward.nurses
