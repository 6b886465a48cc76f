"""Changes of the instance mini, in the words of the table of fault lines.

The numbers are those of mini's own lines, also after other changes. A change is one of

    line 17 is `TEXT`
    line 34 begins with `TEXT`              its first words are replaced by TEXT, as many as TEXT has
    line 34 stands twice
    after it stand `TEXT` and `TEXT`        whole lines, after the line last spoken of
    a line `TEXT` after the last
    the first 36 lines alone
    lines 30 to 37 stand 16 times           one copy of all of them after the other
    398 nurses more                         each as Bob, of the names N1, N2, and so on
    the text ends after `TEXT` of line 34
    each line ends with CR LF
    the scenario's name has 70,000 letters
    16,777,217 blanks                       in place of mini
"""
import re

TEXT = r"`([^`]*)`"


class NotUnderstood(Exception):
    pass


class Mini:
    """The text, by the numbers of mini's lines: for each the lines that are there now."""

    def __init__(self, text):
        lines = text.decode(errors="surrogateescape").split("\n")[:-1]
        self.lines = {number: [line] for number, line in enumerate(lines, 1)}
        self.spoken_of = len(lines)
        self.end, self.is_cut, self.blanks = "\n", False, None

    def at(self, number):
        if int(number) not in self.lines:
            raise NotUnderstood(f"there is no line {number}")
        self.spoken_of = int(number)
        return self.lines[self.spoken_of]

    def replace(self, number, text):
        self.at(number)[:] = [text]

    def begin(self, number, text):
        line = self.at(number)
        line[0] = " ".join([text, *line[0].split(" ")[len(text.split(" ")) :]])

    def twice(self, number):
        self.at(number)[:] *= 2

    def add_after(self, quoted, *_):
        self.lines[self.spoken_of] += re.findall(TEXT, quoted)

    def append(self, text):
        self.at(max(self.lines)).append(text)

    def alone(self, number):
        self.lines = {line_number: lines for line_number, lines in self.lines.items() if line_number <= int(number)}

    def copies(self, first, last, number):
        one = [line for line_number in range(int(first), int(last) + 1) for line in self.at(line_number)]
        self.at(last).extend(one * (int(number) - 1))

    def more_nurses(self, number):
        (count, *_), names = self.at(19), [f"N{nurse}" for nurse in range(1, int(number) + 1)]
        self.replace(19, f"NURSES = {int(count.split()[-1]) + len(names)}")
        for of_bob in (21, 28):
            rest = self.at(of_bob)[0].partition(" ")[2]
            self.lines[of_bob] += [f"{name} {rest}" for name in names]

    def cut(self, text, number):
        line, self.is_cut = self.at(number), True
        if text not in line[0]:
            raise NotUnderstood(f"line {number} has no {text}")
        line[:] = [line[0][: line[0].index(text) + len(text)]]
        self.alone(number)

    def by_cr_lf(self):
        self.end = "\r\n"

    def name_at_length(self, number):
        name = "m" * int(number.replace(",", ""))
        for lines in self.lines.values():
            lines[:] = [re.sub(r"\bmini\b", name, line) for line in lines]

    def only_blanks(self, number):
        self.blanks = int(number.replace(",", ""))

    def bytes(self):
        if self.blanks is not None:
            return b" " * self.blanks
        text = "".join(line + self.end for number in sorted(self.lines) for line in self.lines[number])
        text = text[: -len(self.end)] if self.is_cut else text
        return text.encode(errors="surrogateescape")


CHANGES = [
    (rf"line (\d+) is {TEXT}", Mini.replace),
    (rf"line (\d+) begins with {TEXT}", Mini.begin),
    (r"line (\d+) stands twice", Mini.twice),
    (rf"after it stands? ({TEXT}(?: and {TEXT})*)", Mini.add_after),
    (rf"a line {TEXT} after the last", Mini.append),
    (r"the first (\d+) lines alone", Mini.alone),
    (r"lines (\d+) to (\d+) stand (\d+) times", Mini.copies),
    (r"(\d+) nurses more", Mini.more_nurses),
    (rf"the text ends after {TEXT} of line (\d+)", Mini.cut),
    (r"each line ends with CR LF", Mini.by_cr_lf),
    (r"the scenario's name has ([\d,]+) letters", Mini.name_at_length),
    (r"([\d,]+) blanks", Mini.only_blanks),
]


def change(mini, words):
    """Makes the change that the words describe."""
    for form, make in CHANGES:
        described = re.fullmatch(form, words.strip())
        if described:
            return make(mini, *described.groups())
    raise NotUnderstood(f"no such change: {words.strip()}")


def changed(text, changes):
    """The bytes of the text, which is mini's, after these changes."""
    mini = Mini(text)
    for words in changes:
        change(mini, words)
    return mini.bytes()


def changes_in(sentence):
    """The changes that a sentence describes, joined by commas and 'and'."""
    quoted = re.findall(r"`[^`]*`", sentence)
    masked = re.sub(r"`[^`]*`", "`", sentence)
    found = []
    for words in re.split(rf", and |, (?=line|after|the |a |each |\d)", masked):
        found.append(re.sub("`", lambda _: quoted.pop(0), words))
    return found
